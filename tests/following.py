#!/usr/bin/env python3
"""PostgreSQL follows a journal: `tools/to_postgres --follow`, beside servers of its own, where PostgreSQL is installed.

  tests/following.py PROGRAM [--scripts n] [--kills n]

Scripts by chance (streams.py) are carried on in two parts, the first of which ends in the middle of a line, and compared
right by right and row by row. Then a longer one grows while a primary with two hot standbys has it, and the follower, a
standby or the primary is killed again and again: each standby has rows and rights of a moment whenever it is asked, and in
the end of the last. tests/program plays a few of each; by hand it plays 500 scripts and 200 kills, where nothing else is
said.
"""
import argparse
import contextlib
import glob
import json
import os
import random
import subprocess
import sys
import tempfile
import threading
import time

import streams

ROOT = os.path.dirname(os.path.dirname(os.path.abspath(__file__)))
TO = os.path.join(ROOT, "tools", "to_postgres")
UNIT = os.path.join(ROOT, "packaging", "sysr-follower.service")
WAIT = 120
SEED = 1979
# Between two lines of the journal that grows, and at most between two kills.
LINE_PAUSE, KILL_PAUSE = 0.03, 0.6
QUIET = {"stdout": subprocess.DEVNULL, "stderr": subprocess.DEVNULL}
SNAPSHOT = """BEGIN ISOLATION LEVEL REPEATABLE READ READ ONLY;
SELECT moment FROM bavgusen_stream.progress;
SELECT coalesce(jsonb_agg(g ORDER BY number), '[]') FROM bavgusen_stream.grants g;
SELECT coalesce(jsonb_agg(t.name), '[]') FROM bavgusen_stream.tables t;
"""


class Machine:
    """A server of PostgreSQL in a folder of its own, at a port of its own in the folder above."""

    def __init__(self, commands, user, work, port):
        self.commands, self.user, self.work, self.port = commands, user, work, port
        self.data = os.path.join(work, f"data-{port}")
        self.words = ["-h", work, "-p", str(port), "-U", "postgres"]

    def run(self, command, *words):
        subprocess.run([*self.user, os.path.join(self.commands, command), *words], check=True, timeout=WAIT, **QUIET)

    def make(self):
        self.run("initdb", "-A", "trust", "-D", self.data)

    def copy_of(self, primary):
        self.run("pg_basebackup", *primary.words, "-D", self.data, "-R", "-c", "fast")

    def start(self):
        options = f"-c listen_addresses='' -k {self.work} -p {self.port} -c fsync=off"
        self.run("pg_ctl", "-w", "-D", self.data, "-o", options, "start")

    def kill(self):
        """As a kill of all its processes would end it."""
        self.run("pg_ctl", "-m", "immediate", "-D", self.data, "stop")

    def asked(self, database, text):
        words = ["psql", "-X", "-A", "-t", "-q", "-v", "ON_ERROR_STOP=1", *self.words, "-d", database, "-c", text]
        return subprocess.run(words, capture_output=True, text=True, timeout=WAIT)


@contextlib.contextmanager
def machines(standbys):
    """A primary with standbys, which follow it by streaming replication; or None where PostgreSQL is not installed."""
    found = sorted(glob.glob("/usr/lib/postgresql/*/bin/pg_ctl"))
    if not found:
        yield None
        return
    user = ["runuser", "-u", "postgres", "--"] if os.geteuid() == 0 else []
    with tempfile.TemporaryDirectory() as work:
        os.chmod(work, 0o777)
        primary, *others = (Machine(os.path.dirname(found[-1]), user, work, 5432 + at) for at in range(1 + standbys))
        started = []
        try:
            primary.make()
            primary.start()
            started.append(primary)
            for other in others:
                other.copy_of(primary)
                other.start()
                started.append(other)
            yield primary, others
        finally:
            for machine in started:
                with contextlib.suppress(subprocess.SubprocessError):
                    machine.kill()


def compared(program, path, machine, database):
    """What a check says of a machine: nothing, if all is as it should be."""
    words = [TO, "--check", "--follow", path, "--sysr", program, *machine.words, database]
    done = subprocess.run(words, capture_output=True, text=True, timeout=WAIT)
    return "" if done.returncode == 0 else done.stdout[-2000:] + done.stderr[-2000:]


def one_script(program, check, machine, seed, work):
    """A script that is carried on in two parts."""
    chance, database, path = streams.Chance(seed), f"script{seed}", os.path.join(work, f"journal-{seed}")
    lines = [line + "\n" for line in chance.model.journal]
    machine.asked("postgres", f"CREATE DATABASE {database}")
    cut = chance.random.randrange(len(lines))
    words = [TO, "--follow", path, "--once", "--use-roles", "--sysr", program, *machine.words, database]
    for text in ("".join(lines[:cut]) + lines[cut][:-2], "".join(lines)):
        with open(path, "w", encoding="utf-8") as file:
            file.write(text)
        done = subprocess.run(words, capture_output=True, text=True, timeout=WAIT)
        seen = done.stderr if done.returncode else compared(program, path, machine, database)
        check(f"script {seed}: {len(text)} bytes followed", seen == "", seen)
    machine.asked("postgres", f"DROP DATABASE {database}")


class Growing(threading.Thread):
    """Writes the lines of a journal, one after another, some in two parts."""

    def __init__(self, path, lines, pick):
        super().__init__(daemon=True)
        self.path, self.lines, self.pick = path, lines, pick
        open(path, "w").close()

    def run(self):
        with open(self.path, "ab", buffering=0) as file:
            for line in self.lines:
                at = self.pick.randrange(len(line)) if self.pick.random() < 0.1 else 0
                for part in filter(None, (line[:at], line[at:])):
                    file.write(part)
                    time.sleep(LINE_PAUSE)


class Following(threading.Thread):
    """A follower that is started again whenever it has ended, as a supervisor does."""

    def __init__(self, words):
        super().__init__(daemon=True)
        self.words, self.is_over, self.starts, self.why = words, False, 0, ""
        self.process = None

    def run(self):
        while not self.is_over:
            self.starts += 1
            self.process = subprocess.Popen(self.words, stdout=subprocess.DEVNULL, stderr=subprocess.PIPE, text=True)
            self.why = self.process.communicate()[1]
            time.sleep(0.05)

    def kill(self):
        if self.process:
            self.process.kill()

    def end(self):
        self.is_over = True
        self.kill()
        self.join()


def contents_there(machine, database):
    """The moment that a machine has, with its rows and its grants in force; None where it does not answer."""
    first = machine.asked(database, SNAPSHOT + "COMMIT")
    if first.returncode:
        return None
    moment, grants, tables = first.stdout.splitlines()
    names = json.loads(tables)
    queries = [f"SELECT coalesce(jsonb_agg(jsonb_build_array({row}) ORDER BY \"row-number\"), '[]') "
        f"FROM bavgusen_stream.\"rows-of-{name}\" r" for name, row in ((name, row_of(name)) for name in names)]
    asked = machine.asked(database, SNAPSHOT + ";".join(queries) + ";COMMIT")
    if asked.returncode:
        return None
    moment, grants, tables, *rows = asked.stdout.splitlines()
    if json.loads(tables) != names:
        return None
    found = {name: {number: values for number, *values in json.loads(line)} for name, line in zip(names, rows)}
    return int(moment), found, json.loads(grants)


def row_of(table):
    return ", ".join(["\"row-number\"", *(column for column, _ in streams.COLUMNS[table])])


def expected(contents):
    """What a machine is to have: rows by table and number, and grants in force."""
    tables, grants = contents
    rows = {name: {number: [*row] for number, row in table["rows"].items()} for name, table in tables.items()}
    return rows, [{"number": number, "by": by, "to": to, "table": atom[0], "right": atom[1], "option": option}
        for number, (_, by, atom, to, option) in sorted(grants.items())]


def is_moment(found, contents):
    """Whether what a machine has is what there was at its moment."""
    if found is None:
        return True
    moment, rows, grants = found
    return (rows, grants) == expected(contents[moment])


def killed(follower, primary, standbys, pick):
    """Ends one of them without a word, and has it begin again."""
    victim = pick.choice([follower, follower, primary, *standbys])
    victim.kill()
    if victim is not follower:
        victim.start()


def longer(seed, lines):
    """A script by chance of so many statements."""
    before, streams.LINES = streams.LINES, lines
    try:
        return streams.Chance(seed)
    finally:
        streams.LINES = before


def replicated(program, check, kills, statements, work):
    """A journal that grows, while machines are killed."""
    with machines(2) as (primary, standbys):
        pick = random.Random(SEED)
        chance, path = longer(SEED, statements), os.path.join(work, "growing")
        lines = [(line + "\n").encode() for line in chance.model.journal]
        last = max(moment for moment, told in chance.model.told if told)
        growing = Growing(path, lines, pick)
        follower = Following([TO, "--follow", path, "--use-roles", "--sysr", program, *primary.words, "postgres"])
        growing.start()
        follower.start()
        wrong, moments = [], set()
        for _ in range(kills):
            time.sleep(pick.random() * KILL_PAUSE)
            killed(follower, primary, standbys, pick)
            for standby in standbys:
                found = contents_there(standby, "postgres")
                moments.add(found and found[0])
                if not is_moment(found, chance.contents):
                    wrong.append(found)
        growing.join()
        ended = reached(standbys, last)
        follower.end()
        check(f"{kills} kills: a standby has the rows and grants of a moment", not wrong, wrong[:1])
        check(f"{kills} kills: standbys had several moments", kills < 20 or len(moments - {None}) > 2, moments)
        check(f"{kills} kills: each standby has the last moment", ended, follower.why)
        for at, machine in enumerate([primary, *standbys]):
            seen = compared(program, path, machine, "postgres")
            check(f"{kills} kills: machine {at} has its rows and rights", seen == "", seen)


def reached(machines, moment, database="postgres"):
    """Whether each has that moment, before long."""
    end = time.monotonic() + WAIT
    while time.monotonic() < end:
        found = [machine.asked(database, "SELECT moment FROM bavgusen_stream.progress") for machine in machines]
        if all(one.stdout.strip() == str(moment) for one in found):
            return True
        time.sleep(0.1)
    return False


def words_of_unit(program, more):
    """The words of the follower's unit, with another place of the tool and of the program, and other words for psql."""
    with open(UNIT, encoding="utf-8") as file:
        words = next(line for line in file if line.startswith("ExecStart=")).split()[1:]
    return [TO, *(program if word.endswith("/sysr") else word for word in words[:-1]), *more]


def by_unit(program, check, machine, work):
    """The unit's words carry on a journal in the folder where they are said, and a second follower is refused."""
    with open(os.path.join(work, "sysr.journal"), "w", encoding="utf-8") as file:
        file.write(streams.EXAMPLE)
    machine.asked("postgres", "CREATE DATABASE unit")
    words = words_of_unit(program, [*machine.words, "unit"])
    pipes = {"cwd": work, "stdout": subprocess.DEVNULL, "stderr": subprocess.PIPE, "text": True}
    with subprocess.Popen(words, **pipes) as first:
        is_there = reached([machine], 10, "unit")
        second = subprocess.run([*words, "--once"], **pipes, timeout=WAIT)
        first.kill()
    rows = machine.asked("unit", "SELECT count(*) FROM bavgusen.pay").stdout.strip()
    check("the unit: it follows", (is_there, rows) == (True, "1"), (is_there, rows))
    refused = second.returncode == 1 and "another follower is at work" in second.stderr
    check("the unit: a second follower is refused", refused, (second.returncode, second.stderr))


def played(program, check, scripts=5, kills=6):
    """Plays so many scripts and kills, where PostgreSQL is installed."""
    with tempfile.TemporaryDirectory() as work:
        os.chmod(work, 0o777)
        with machines(0) as made:
            if made is None:
                print("no PostgreSQL: nothing followed a journal")
                return
            by_unit(program, check, made[0], work)
            for seed in range(SEED, SEED + scripts):
                one_script(program, check, made[0], seed, work)
        replicated(program, check, kills, 100 + 40 * kills, work)


def main():
    given = argparse.ArgumentParser()
    given.add_argument("program")
    given.add_argument("--scripts", type=int, default=500)
    given.add_argument("--kills", type=int, default=200)
    words = given.parse_args()
    failed = []

    def check(name, good, seen):
        if not good:
            failed.append(name)
            print(f"{name}: {seen}", flush=True)

    played(words.program, check, words.scripts, words.kills)
    print(f"{len(failed)} failed")
    return 1 if failed else 0


if __name__ == "__main__":
    sys.exit(main())

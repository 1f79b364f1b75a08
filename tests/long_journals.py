"""Journals of more than 20,000 changes and 10,000 grants in force: kept, dumped, loaded and explained; and what a core that
was loaded does at each of its steps.

All grants are by the owner, so what is in force follows from the lines at once: whom he granted and did not revoke.
"""
import csv
import io
import os
import subprocess

from records import Dumped
from served import WAIT, Server, Session, in_time

TABLES, USERS, ROWS = 12, 1000, 10_000
RIGHTS = ["table", "user", "privilege", "option", "since", "by"]


class Long:
    """The lines of a long journal, each of which is a change: so a line's number is its moment."""

    def __init__(self):
        self.lines, self.rows, self.made, self.fell = [], {}, [], []
        for table in (f"t{n}" for n in range(TABLES)):
            self.say(f"CREATE TABLE {table} (x INTEGER)")
            self.rows[table] = []
        for n in range(TABLES * USERS):
            self.made.append((f"t{n % TABLES}", f"u{n // TABLES}", self.say(
                f"GRANT SELECT ON t{n % TABLES} TO u{n // TABLES}")))
            if n < ROWS:
                self.rows[f"t{n % 7}"].append([n])
                self.say(f"INSERT INTO t{n % 7} VALUES ({n})")
        for n in range(0, TABLES * USERS, 29):
            table, user, _ = self.made[n]
            self.fell.append((self.made[n], self.say(f"REVOKE SELECT ON {table} FROM {user}")))
        gone = {grant for grant, _ in self.fell}
        self.in_force = [grant for grant in self.made if grant not in gone]
        self.text = "".join(line + "\n" for line in self.lines).encode()

    def say(self, statement):
        self.lines.append(f"o: {statement}")
        return len(self.lines)


def right(grant):
    table, user, moment = grant
    return [table, user, "SELECT(x)", "no", str(moment), "o"]


class Played:
    """The program, a check, and a long journal in a file."""

    def __init__(self, program, check, folder):
        self.program, self.check, self.long = program, check, Long()
        self.path = os.path.join(folder, "long.journal")
        with open(self.path, "wb") as file:
            file.write(self.long.text)

    def run(self, words, given=b""):
        done = subprocess.run([self.program, *words], input=given, capture_output=True, timeout=WAIT)
        self.check(f"a long journal: {words}", (done.returncode, done.stderr) == (0, b""), (done.returncode, done.stderr))
        return done.stdout

    def records(self, words):
        out = self.run(["explain", "--format", "csv", *words], self.long.text).decode()
        return [*csv.reader(io.StringIO(out))][1:]

    def same(self, name, seen, wanted):
        differs = next(((at, pair) for at, pair in enumerate(zip(seen, wanted)) if pair[0] != pair[1]), None)
        self.check(f"a long journal: {name}", seen == wanted, (len(seen), len(wanted), differs))


def sizes(played):
    """(The journal is as long as it has to be.)"""
    long = played.long
    seen = len(long.lines) > 20_000, len(long.in_force) > 10_000, len(long.fell) > 400
    played.check("a long journal: its size", seen == (True, True, True), seen)


def kept(played):
    """It is its own journal. Its dump has its rows and its grants in their order, and is its own dump."""
    long = played.long
    played.same("its journal", played.run(["journal"], long.text), long.text)
    dump = played.run(["dump"], long.text)
    played.same("its dump behind its file", played.run(["dump", "--load", played.path]), dump)
    played.same("its dump again", played.run(["dump"], dump), dump)
    dumped = Dumped(dump.decode().splitlines())
    played.same("rows", dumped.rows, long.rows)
    grants = [("o", (table, "SELECT(x)"), user, False) for table, user, _ in long.in_force]
    played.same("grants", dumped.grants, grants)
    head = f"loaded {len(long.lines)} changes\naudit ok {len(long.in_force)}\n".encode()
    played.same("loaded", played.run(["run", "--load", played.path, "--audit"]), head)


def explained(played):
    """All rights and all grants; one that is held, one that was lost, and what a line would take."""
    long, last = played.long, len(played.long.lines)
    owners = [[f"t{n}", "o", "OWNER", "yes", str(n + 1), ""] for n in range(TABLES)]
    played.same("rights", played.records(["rights"]), [*owners, *map(right, long.in_force)])
    fell = {grant: moment for grant, moment in long.fell}
    played.same("fell", played.records(["fell"]), [[*right(grant), str(fell[grant]), "revoked", str(fell[grant])]
        for grant in long.made if grant in fell])
    (table, user, moment), revoke = long.fell[0]
    words = ["explain", "--at", str(revoke - 1), "why", user, "SELECT", table]
    told = [f"{user} holds SELECT on {table} @{revoke - 1}", f"  o owns {table} since @1".ljust(22) + f"line 1: {long.lines[0]}",
        f"  @{moment} o -> {user}".ljust(22) + f"line {moment}: {long.lines[moment - 1]}"]
    played.same("why", played.run(words, long.text).decode().splitlines(), told)
    table, user, moment = long.in_force[-1]
    line = f"o: REVOKE SELECT ON {table} FROM {user}"
    told = [f"@{last + 1} would be {line}", f"  revoked: @{moment} o -> {user}  line {moment}: {long.lines[moment - 1]}",
        f"  {user} would lose SELECT on {table}"]
    played.same("if", played.run(["explain", "if", line], long.text).decode().splitlines(), told)
    played.same("cut", played.run(["explain", "cut", user, "SELECT", table], long.text).decode(), line + "\n")


def steps_of_a_script(played):
    """A core that was loaded takes its checkpoint's steps as `--chunk` says: one of its chunk after each line."""
    path = os.path.join(os.path.dirname(played.path), "forty")
    with open(path, "w") as file:
        file.write("o: CREATE TABLE t (x INTEGER)\n" + "".join(f"o: INSERT INTO t VALUES ({n})\n" for n in range(40)))
    given = "o: CHECKPOINT\n" + 3 * "o: CHECKPOINTS\n"
    for words, chunk in (([], 16), (["--chunk", "1"], 1), (["--chunk", "13"], 13), (["--chunk", "64"], 64)):
        out = played.run(["run", "--load", path, *words], given.encode()).decode().splitlines()
        wanted = ["loaded 41 changes", "checkpoint 1 begun @41"]
        for step in (1, 2, 3):
            left = 40 - step * chunk
            wanted += ["checkpoints 1 @41", f"active,1,41,{left}" if left > 0 else "finished,1,41"]
        played.same(f"chunk {chunk}", out, wanted)


def steps_of_a_server(played):
    """So does a server: what is left of a checkpoint is all its records less some times the chunk."""
    long = played.long
    records = len(long.in_force) + sum(map(len, long.rows.values()))
    for words, chunk in (([], 16), (["--chunk", "61"], 61)):
        server = Server(played.program, 1, more=["--load", played.path, *words])
        loaded = f"loaded {len(long.lines)} changes\n".encode()
        said = server.told_first()
        played.check(f"a server, chunk {chunk}: loaded", said == [loaded, f"listening on {server.port}\n".encode()], said)
        session, listed = Session(server, "o"), []
        for _ in range(10):
            session.ask("CHECKPOINT")
            listed += [line for lines in session.lists(0) for line in lines]
        session.end()
        lefts = {int(line.split(",")[3]) for line in listed if line.startswith("active,")}
        good = f"finished,10,{len(long.lines)}\n" in listed and all((records - left) % chunk == 0 for left in lefts)
        played.check(f"a server, chunk {chunk}: steps", good, (records, sorted(lefts)[:9]))
        ended = server.end()
        played.check(f"a server, chunk {chunk}: the end", ended[0] == 0 and ended[2] == [], ended)


TESTS = (sizes, kept, explained, steps_of_a_script, steps_of_a_server)


def played(program, check, folder):
    long = Played(program, check, folder)
    for test in TESTS:
        in_time(test.__name__, check, lambda: test(long))

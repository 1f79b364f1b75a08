"""What a synced journal costs, beside PostgreSQL on the same disk. See syncs.sh.

In rounds, each with new servers: pgbench's clients insert rows, one each time. `each` and PostgreSQL with synchronous_commit
on tell a client of a row once it is on the disk; `second` and `never` do not wait for it. A bare loop that writes so many bytes and syncs them shows
what is the disk's.
"""
import contextlib
import os
import shutil
import statistics
import subprocess
import sys
import tempfile
import time

from load_table import free_port
from pg import MOST_CHANGES, USER, Server, benched
from postgres import running

SECONDS, ROUNDS = 3, 5
CLIENTS = (1, 16, 64)
WORKERS = 16
SCRIPT = "INSERT INTO t VALUES (1, 'row 1')\n"
POSTGRES = "PostgreSQL"
LINE = b"bench: INSERT INTO t VALUES (1, 'row 1')\n"


@contextlib.contextmanager
def sysr(program, folder, sync):
    with tempfile.TemporaryDirectory(dir=folder) as work:
        given = os.path.join(work, "given")
        with open(given, "w", encoding="ascii") as file:
            file.write(f"{USER}: CREATE TABLE t (id INTEGER, name TEXT)\n")
        port = free_port()
        words = ["--pg-port", str(port), "--workers", str(WORKERS), "--changes", str(MOST_CHANGES), "--load", given]
        words += ["--journal", os.path.join(work, "journal"), "--journal-sync", sync]
        child = subprocess.Popen([program, "serve", *words], stdout=subprocess.PIPE)
        try:
            if not any(line.startswith(b"listening") for line in child.stdout):
                sys.exit("sysr did not start")
            yield Server(port, child.pid)
        finally:
            child.kill()
            child.communicate()


@contextlib.contextmanager
def postgres(folder):
    """None where PostgreSQL is not installed."""
    port = free_port()
    settings = f"-c listen_addresses=127.0.0.1 -c port={port} -c autovacuum=off"
    with tempfile.TemporaryDirectory(dir=folder) as work, running(work, settings) as place:
        if place is None:
            yield None
            return
        user, commands = place
        words = [*user, f"{commands}/psql", "-q", "-h", work, "-p", str(port), "-v", "ON_ERROR_STOP=1", "postgres"]
        made = f"CREATE ROLE {USER} SUPERUSER LOGIN; CREATE TABLE t (id BIGINT, name TEXT);"
        subprocess.run(words, input=made, text=True, check=True)
        with open(f"{work}/data/postmaster.pid", encoding="ascii") as file:
            yield Server(port, int(file.readline()))


def bare(folder, seconds):
    """Lines a second that one process writes and has on the disk, one after another."""
    with tempfile.TemporaryFile(dir=folder, buffering=0) as file:
        count, began = 0, time.monotonic()
        while time.monotonic() - began < seconds:
            file.write(LINE)
            os.fdatasync(file.fileno())
            count += 1
        return count / (time.monotonic() - began)


def measured(program, folder, script, seconds, found):
    """One round of all cases, in turn."""
    found.setdefault(("a bare loop", 1), []).append(bare(folder, seconds))
    for clients in CLIENTS:
        with postgres(folder) as server:
            rate = benched(server, script, "prepared", clients, seconds).rate
        found.setdefault((POSTGRES, clients), []).append(rate)
        for sync in ("each", "second", "never"):
            with sysr(program, folder, sync) as server:
                rate = benched(server, script, "prepared", clients, seconds).rate
            found.setdefault((sync, clients), []).append(rate)


def say(found):
    print(f"a bare loop: {statistics.median(found['a bare loop', 1]):,.0f}/s")
    for clients in CLIENTS:
        for name, other in (("each", POSTGRES), ("second", "never")):
            pairs = list(zip(found[name, clients], found[other, clients]))
            ratios = [ours / theirs for ours, theirs in pairs]
            ours, theirs = (statistics.median(rates) for rates in zip(*pairs))
            print(
                f"{clients} clients, {name}: {ours:,.0f}/s, {statistics.median(ratios):.2f} times {other} "
                f"({min(ratios):.2f} to {max(ratios):.2f}; {theirs:,.0f}/s)"
            )


def main(program, folder, seconds=SECONDS, rounds=ROUNDS):
    with postgres(folder) as theirs:
        if theirs is None or shutil.which("pgbench") is None:
            print("PostgreSQL or pgbench is not installed: nothing was measured")
            return
    print(f"load at the start: {os.getloadavg()[0]:.1f} on {os.cpu_count()} processors")
    found = {}
    with tempfile.TemporaryDirectory() as work:
        script = os.path.join(work, "script")
        with open(script, "w", encoding="ascii") as file:
            file.write(SCRIPT)
        for _ in range(int(rounds)):
            measured(program, folder, script, int(seconds), found)
    say(found)


if __name__ == "__main__":
    main(*sys.argv[1:])

#!/usr/bin/env python3
"""A server's folder after losses of power: what was told is there, and nothing that was not sent.

  tests/crashing.py [PROGRAM] [--crashes n] [--seed n]

The server runs over a disk that forgets what was not synced, and ends before a call by chance that changes a file or syncs
it: while four clients say changes and it writes checkpoints of its own, and while it starts. tests/program plays a few
rounds; by hand it plays 1,000 crashes, where nothing else is said.
"""
import argparse
import os
import random
import subprocess
import sys
import tempfile
import time

import forgetful
from enduring import CREATED, INSERT, Client
from served import WAIT, Server, Session

CLIENTS = 4
MOST = 400
WORDS = ["--journal-sync", "each", "--checkpoint-every", "40"]


class Crashing:
    """A folder, and servers that begin with what the crash before has left of it."""

    def __init__(self, program, check, root, seed):
        self.program, self.check, self.chance = program, check, random.Random(seed)
        self.library = forgetful.library(root)
        self.folder, self.record = os.path.join(root, "data"), os.path.join(root, "record")
        os.mkdir(self.folder)
        self.files, self.sent, self.told, self.odd, self.first = {}, set(), set(), [], 0

    def serving(self, crash_at=None):
        """A server over the folder as the last crash has left it."""
        forgetful.write(self.folder, self.files)
        with open(self.record, "wb"):
            pass
        given = {"LD_PRELOAD": self.library, "RECORD": self.record, "FOLDER": self.folder}
        if crash_at is not None:
            given["CRASH_AT"] = str(crash_at)
        words = ["--data", self.folder, *WORDS]
        server = Server(self.program, None, workers=4, more=words, env={**os.environ, **given})
        self.last = server.told_first()
        return server

    def crash(self, server):
        """Ends the server, if it has not ended, and has the folder be as a crash leaves it."""
        server.child.kill()
        server.child.communicate(timeout=WAIT)
        self.files = forgetful.crashed(self.folder, self.record, self.files, self.chance)

    def begin(self):
        """Makes the table, and lets everybody insert."""
        server = self.serving()
        session = Session(server, "o")
        lines = [CREATED, *(f"GRANT INSERT, SELECT ON t TO u{number}" for number in range(CLIENTS))]
        self.odd += [line for line in lines if not session.ask(line).startswith("done @")]
        session.reset()
        self.crash(server)

    def under_load(self):
        """The server ends at one of its calls while clients say INSERTs."""
        server = self.serving(crash_at=self.chance.randint(1, 400))
        clients = [Client(server.port, number, self.first + number * MOST, MOST) for number in range(CLIENTS)]
        self.first += CLIENTS * MOST
        for client in clients:
            client.start()
        late = time.monotonic() + self.chance.uniform(0.2, 1)
        while server.child.poll() is None and time.monotonic() < late:
            time.sleep(0.002)
        self.crash(server)
        for client in clients:
            client.join(timeout=WAIT)
            self.sent.update(client.sent)
            self.told.update(client.told)
            self.odd += client.odd

    def while_it_starts(self):
        """The server ends at one of the first calls of its start."""
        server = self.serving(crash_at=self.chance.randint(1, 12))
        late = time.monotonic() + 1
        while server.child.poll() is None and not server.listening and time.monotonic() < late:
            time.sleep(0.002)
        self.crash(server)

    def found(self):
        """The numbers that a start finds, in order."""
        server = self.serving()
        session = Session(server, "o")
        head = session.ask("SELECT * FROM t")
        rows = [int(session.line().partition(",")[2]) for _ in range(int(head.split()[1]))]
        session.reset()
        self.crash(server)
        return rows


def crashes(crashing, count):
    lost, made_up, twice = set(), set(), 0
    crashing.begin()
    for at in range(count):
        if crashing.chance.random() < 0.3:
            crashing.while_it_starts()
        else:
            crashing.under_load()
        if at % 10 == 9 or at == count - 1:
            rows = crashing.found()
            lost |= crashing.told - set(rows)
            made_up |= set(rows) - crashing.sent
            twice += len(rows) - len(set(rows))
    seen = len(lost), len(made_up), twice, len(crashing.odd)
    crashing.check(f"{count} losses of power: what was told is there, and nothing that was not sent", seen == (0, 0, 0, 0), seen)
    return len(crashing.told)


def play(program, check, count=20, seed=1):
    with tempfile.TemporaryDirectory() as root:
        crashing = Crashing(program, check, root, seed)
        if crashing.library is None:
            return
        try:
            told = crashes(crashing, count)
            check("clients were told of changes", told > count, told)
        finally:
            Server.stop_all()


def main():
    words = argparse.ArgumentParser(description=__doc__, formatter_class=argparse.RawDescriptionHelpFormatter)
    words.add_argument("program", nargs="?", default="./sysr")
    words.add_argument("--crashes", type=int, default=1000)
    words.add_argument("--seed", type=int, default=1)
    asked = words.parse_args()
    bad = []

    def check(what, is_well, seen=None):
        print("ok" if is_well else "BAD", what, seen, flush=True)
        bad.extend([what] if not is_well else [])

    play(asked.program, check, asked.crashes, asked.seed)
    return bool(bad)


if __name__ == "__main__":
    sys.exit(main())

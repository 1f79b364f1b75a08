#!/usr/bin/env python3
"""A server's folder on a disk that has no room for one call: at each call in turn that needs some.

  tests/filling.py [PROGRAM]

What was told is there at the next start, nothing that was not sent, and the server goes on behind that call.
"""
import contextlib
import os
import sys
import tempfile
import time

import forgetful
from served import WAIT, Server, Session

CALLS, CHANGES = 36, 14
WORDS = ["--journal-sync", "each", "--checkpoint-every", "4"]


class Filling:
    def __init__(self, program, root):
        self.program, self.root, self.library = program, root, forgetful.library(root)

    def serving(self, folder, full_at=None):
        given = {"LD_PRELOAD": self.library, "RECORD": os.path.join(self.root, "record"), "FOLDER": folder}
        if full_at is not None:
            given["FULL_AT"] = str(full_at)
        server = Server(self.program, None, more=["--data", folder, *WORDS], env={**os.environ, **given})
        return server, server.told_first()[-1].startswith(b"listening")

    @staticmethod
    def said(server, lines):
        """Of these lines those that were told, each in a session that goes on until nobody answers in it."""
        told, session = [], None
        for line in lines:
            session = session or Session(server, "ann")
            with contextlib.suppress(OSError):
                if session.ask(line).startswith("done @"):
                    told.append(line)
                    continue
            session = None
        return told

    def full_at(self, call):
        """What was told, what a start finds then, and whether the server went on."""
        folder = os.path.join(self.root, f"full-{call}")
        os.mkdir(folder)
        lines = ["CREATE TABLE t (x INTEGER)", *(f"INSERT INTO t VALUES ({number})" for number in range(CHANGES))]
        server, listens = self.serving(folder, call)
        told = self.said(server, lines) if listens else []
        time.sleep(0.05)
        goes_on = not listens or self.said(server, ["INSERT INTO t VALUES (-1)", "INSERT INTO t VALUES (-2)"]) != [] or not told
        server.child.kill()
        server.child.communicate(timeout=WAIT)
        return told, self.found(folder), goes_on

    def found(self, folder):
        server, listens = self.serving(folder)
        if not listens:
            return None
        session = Session(server, "ann")
        head = session.ask("SELECT * FROM t")
        rows = [session.line().partition(",")[2].strip() for _ in range(int(head.split()[1]))] if head.startswith("rows") else []
        server.child.kill()
        server.child.communicate(timeout=WAIT)
        return rows


def play(program, check):
    with tempfile.TemporaryDirectory() as root:
        filling = Filling(program, root)
        if filling.library is None:
            return
        try:
            for call in range(1, CALLS + 1):
                told, found, goes_on = filling.full_at(call)
                numbers = [line.split("(")[1].rstrip(")") for line in told if line.startswith("INSERT")]
                well = found is not None and goes_on and set(numbers) <= set(found) and len(found) == len(set(found))
                check(f"no room for call {call}", well, (told, found, goes_on))
        finally:
            Server.stop_all()


def main():
    program = sys.argv[1] if len(sys.argv) > 1 else "./sysr"
    bad = []

    def check(what, is_well, seen=None):
        print("ok" if is_well else "BAD", what, "" if is_well else seen, flush=True)
        bad.extend([what] if not is_well else [])

    play(program, check)
    return bool(bad)


if __name__ == "__main__":
    sys.exit(main())

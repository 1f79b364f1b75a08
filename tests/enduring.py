#!/usr/bin/env python3
"""Servers that are killed and stopped under load, whose disk fills and is emptied, and that many short sessions come to.

  tests/enduring.py [PROGRAM] [--kills n] [--fills n] [--sessions n]

What was told is kept: each server that follows loads it, and nothing else but what was sent. tests/program plays a few of
each; by hand it plays 300 kills and stops, five fillings and 100,000 sessions, where nothing else is said.
"""
import argparse
import contextlib
import os
import random
import re
import socket
import subprocess
import sys
import tempfile
import threading
import time

from served import WAIT, Server, Session, free_port

CLIENTS = 16
CREATED = "CREATE TABLE t (x INTEGER)"
INSERT = re.compile(rb"u\d+: INSERT INTO t VALUES \((\d+)\)")


class Client(threading.Thread):
    """Says INSERTs of numbers of its own, in pieces of some lines, until nobody answers."""

    def __init__(self, port, number, first, most):
        super().__init__(daemon=True)
        self.port, self.user, self.numbers = port, f"u{number}", range(first, first + most)
        self.sent, self.told, self.odd = [], [], []

    def run(self):
        with contextlib.suppress(OSError):
            with socket.create_connection(("127.0.0.1", self.port), timeout=WAIT) as client:
                reader = client.makefile("rb")
                client.sendall(f"USER {self.user}\n".encode())
                if reader.readline() != f"welcome {self.user}\n".encode():
                    return
                for at in range(0, len(self.numbers), 4):
                    piece = self.numbers[at:at + 4]
                    self.sent += piece
                    client.sendall(b"".join(b"INSERT INTO t VALUES (%d)\n" % number for number in piece))
                    for number in piece:
                        answer = reader.readline()
                        if not answer.endswith(b"\n"):
                            return
                        (self.told if answer.startswith(b"done @") else self.odd).append(number)


class Enduring:
    """A folder with a journal, and servers that go on with it."""

    def __init__(self, program, check, folder):
        self.program, self.check, self.folder = program, check, folder
        self.journal, self.control = os.path.join(folder, "journal"), os.path.join(folder, "control")
        self.sent, self.told, self.first = set(), set(), 0

    def serving(self, *words, sessions=None, workers=16):
        return Server(self.program, sessions, workers=workers, more=["--control", self.control, *words])

    def stop(self):
        done = subprocess.run([self.program, "stop", "--control", self.control], capture_output=True, timeout=WAIT)
        return done.returncode

    def kept(self):
        """The numbers of the journal's INSERTs, and how many lines it has: whole ones."""
        with open(self.journal, "rb") as file:
            text = file.read()
        lines = text.split(b"\n")[:-1]
        return [int(found[1]) for found in map(INSERT.fullmatch, lines) if found], len(lines)

    def ended_under_load(self, server, chance):
        """The server is killed or stopped while clients say INSERTs; all that was told is in the journal."""
        most = 200
        clients = [Client(server.port, number, self.first + number * most, most) for number in range(CLIENTS)]
        self.first += CLIENTS * most
        for client in clients:
            client.start()
        time.sleep(chance.uniform(0.005, 0.12))
        is_killed = chance.random() < 0.5
        if is_killed:
            server.child.kill()
            ended = server.child.wait(timeout=WAIT) == -9
        else:
            ended = (self.stop(), server.child.wait(timeout=WAIT)) == (0, 0)
        server.child.communicate(timeout=WAIT)
        for client in clients:
            client.join(timeout=WAIT)
            self.sent.update(client.sent)
            self.told.update(client.told)
        odd = [client.odd for client in clients if client.odd]
        return ended and not odd, is_killed


def kills_and_stops(enduring, rounds, seed):
    """Each server loads what the one before was told, and nothing but what was sent."""
    chance, good, killed, lost, made_up, twice = random.Random(seed), 0, 0, set(), set(), 0
    with open(enduring.journal, "w") as file:
        file.write(f"o: {CREATED}\n" + "".join(f"o: GRANT INSERT ON t TO u{number}\n" for number in range(CLIENTS)))
    for _ in range(rounds):
        server = enduring.serving("--load", enduring.journal, "--journal", enduring.journal)
        ended, is_killed = enduring.ended_under_load(server, chance)
        kept, _ = enduring.kept()
        lost |= enduring.told - set(kept)
        made_up |= set(kept) - enduring.sent
        twice += len(kept) - len(set(kept))
        good, killed = good + ended, killed + is_killed
    enduring.check(f"{rounds} ends under load ({killed} kills)", good == rounds, good)
    seen = len(lost), len(made_up), twice
    enduring.check("what was told is kept, and nothing that was not sent", seen == (0, 0, 0), seen)
    server = enduring.serving("--load", enduring.journal, "--journal", enduring.journal)
    said, lines = server.told_first()[0], enduring.kept()[1]
    enduring.check("the last one loads it", said == b"loaded %d changes\n" % lines, (said, lines))
    enduring.stop()
    server.end()
    return len(enduring.told)


@contextlib.contextmanager
def small_disk(folder):
    """A disk of a megabyte, or none where it cannot be mounted."""
    place = os.path.join(folder, "disk")
    os.mkdir(place)
    mounted = subprocess.run(["mount", "-t", "tmpfs", "-o", "size=1m", "none", place], capture_output=True).returncode == 0
    try:
        yield place if mounted else None
    finally:
        if mounted:
            subprocess.run(["umount", place], check=True)
        os.rmdir(place)


def until_it_ends(session, at, line):
    """Says changes until one is not answered, and gives how many were told by then."""
    while True:
        try:
            answer = session.ask(line)
        except OSError:
            return at
        if answer != f"done @{at + 1}\n":
            return at if answer == "" else None
        at += 1


def fillings(enduring, rounds):
    """A full disk ends the session whose change does not fit, and no other; there is room again, and all goes on."""
    with small_disk(enduring.folder) as disk:
        if not disk:
            print("no small disk can be mounted: none was filled")
            return
        enduring.journal, filler = os.path.join(disk, "journal"), os.path.join(disk, "filler")
        server = enduring.serving("--journal", enduring.journal)
        reads, at = Session(server, "ann"), 1
        told = [reads.ask("CREATE TABLE t (x TEXT)")]
        line = f"INSERT INTO t VALUES ('{1000 * 'x'}')"
        for _ in range(rounds):
            with contextlib.suppress(OSError), open(filler, "wb", buffering=0) as file:
                while True:
                    file.write(bytes(4096))
            writes = Session(server, "ann")
            at = until_it_ends(writes, at, line)
            writes.reset()
            # (one more is entered, and nobody is told of it)
            at += 1
            for _ in range(3):
                other = Session(server, "ann")
                told.append(until_it_ends(other, at, line) == at)
                other.reset()
                told.append(reads.ask("CHECKPOINTS") == f"checkpoints 0 @{at}\n")
            os.remove(filler)
            again = Session(server, "ann")
            told.append(again.ask("DELETE FROM t WHERE x = ''") == f"done @{at + 1}\n")
            again.end()
            at += 1
        enduring.check(f"{rounds} disks that were full", told == ["done @1\n"] + 7 * rounds * [True], told)
        stopped = enduring.stop(), server.end()[0], enduring.kept()[1]
        enduring.check("stopped behind them", stopped == (0, 0, at), (stopped, at))
        server = enduring.serving("--load", enduring.journal, "--journal", enduring.journal)
        said = server.told_first()[0]
        enduring.check("and loaded", said == b"loaded %d changes\n" % at, said)
        server.child.kill()
        server.end()
        reads.reset()


def short_sessions(enduring, count):
    """Sessions of one line, one after another by 16 clients; the memory of the server stays as it is."""
    server = enduring.serving()

    def memory():
        with open(f"/proc/{server.child.pid}/statm") as file:
            return int(file.read().split()[1]) * 4096

    def come(some, answered):
        for _ in range(some):
            with socket.create_connection(("127.0.0.1", server.port), timeout=WAIT) as client:
                client.sendall(b"USER ann\nCHECKPOINTS\n")
                client.shutdown(socket.SHUT_WR)
                answered.append(b"".join(iter(lambda: client.recv(100), b"")) == b"welcome ann\ncheckpoints 0 @0\n")

    def all_come(some):
        answered = []
        clients = [threading.Thread(target=come, args=(some // CLIENTS, answered)) for _ in range(CLIENTS)]
        for client in clients:
            client.start()
        for client in clients:
            client.join()
        return len(answered) == some // CLIENTS * CLIENTS and all(answered)

    good = all_come(10 * CLIENTS)
    before = memory()
    good = all_come(count) and good
    grown = memory() - before
    enduring.check(f"{count} short sessions", good and grown < 1 << 20, (good, grown))
    stopped = enduring.stop(), server.end()
    served = b"served %d\n" % (10 * CLIENTS + count // CLIENTS * CLIENTS)
    enduring.check("stopped behind short sessions", stopped == (0, (0, served, [])), stopped)


def played(program, check, kills=8, fills=2, sessions=1600):
    with tempfile.TemporaryDirectory() as folder:
        enduring = Enduring(program, check, folder)
        kills_and_stops(enduring, kills, 1)
        fillings(enduring, fills)
        short_sessions(enduring, sessions)
    Server.stop_all()


def main():
    given = argparse.ArgumentParser(description=__doc__, formatter_class=argparse.RawDescriptionHelpFormatter)
    root = os.path.dirname(os.path.dirname(os.path.abspath(__file__)))
    given.add_argument("program", nargs="?", default=os.path.join(root, "sysr"))
    given.add_argument("--kills", type=int, default=300)
    given.add_argument("--fills", type=int, default=5)
    given.add_argument("--sessions", type=int, default=100_000)
    asked, failed = given.parse_args(), []

    def check(name, good, seen):
        print(f"{name}: {'good' if good else seen}", flush=True)
        failed.extend([] if good else [name])

    played(os.path.abspath(asked.program), check, asked.kills, asked.fills, asked.sessions)
    return 1 if failed else 0


if __name__ == "__main__":
    sys.exit(main())

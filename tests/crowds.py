#!/usr/bin/env python3
"""Sessions that wait for their clients: many more than workers, clients that say or take little, and none left behind.

  tests/crowds.py [PROGRAM] [--sessions n]

tests/program plays it with a thousand sessions; by hand it plays ten thousand, as far as the system has descriptors.
"""
import argparse
import contextlib
import os
import resource
import select
import socket
import subprocess
import sys
import tempfile
import threading
import time

from served import WAIT, Server, free_port
from watching import wakes

WORKERS = 4
ACTIVE = 200
LINES = 20


def descriptors():
    """As many as the system lets a process have."""
    _, most = resource.getrlimit(resource.RLIMIT_NOFILE)
    with contextlib.suppress(ValueError, OSError):
        resource.setrlimit(resource.RLIMIT_NOFILE, (most, most))
    return resource.getrlimit(resource.RLIMIT_NOFILE)[0]


def resident(process):
    """Bytes of memory that a process has."""
    with open(f"/proc/{process}/statm") as file:
        return int(file.read().split()[1]) * resource.getpagesize()


def lines_of(client, line, count):
    """The answer to a line, which has so many lines."""
    client.sendall(line.encode() + b"\n")
    said = b""
    while said.count(b"\n") < count:
        said += client.recv(65536)
    return said


class Crowd:
    """A server with a journal, and its clients."""

    def __init__(self, program, check, folder, *words, **started):
        self.check, self.port = check, free_port()
        self.journal = os.path.join(folder, f"journal-{self.port}")
        self.control = os.path.join(folder, f"control-{self.port}")
        self.program = program
        self.child = subprocess.Popen([program, "serve", "--port", str(self.port), "--workers", str(WORKERS), "--control",
            self.control, "--journal", self.journal, *words], stdout=subprocess.PIPE, stderr=subprocess.PIPE, **started)
        Server.running.append(self.child)
        self.child.stdout.readline()

    def connect(self, room=None):
        """A client, whose system has so much room for what he is sent, or what it likes."""
        client = socket.socket()
        client.settimeout(WAIT)
        if room is not None:
            client.setsockopt(socket.SOL_SOCKET, socket.SO_RCVBUF, room)
        client.connect(("127.0.0.1", self.port))
        return client

    def asks(self, client, line):
        client.sendall(line.encode() + b"\n")
        said = b""
        while not said.endswith(b"\n"):
            piece = client.recv(65536)
            if not piece:
                break
            said += piece
        return said.decode()

    def stop(self):
        done = subprocess.run([self.program, "stop", "--control", self.control], capture_output=True, timeout=WAIT)
        self.child.wait(timeout=WAIT)
        return done.returncode


def crowded(program, check, folder, count):
    """Sessions without number, of which some say lines: each sees its own writes, and all one history."""
    crowd = Crowd(program, check, folder)
    idle = [crowd.connect() for _ in range(count)]
    welcome = [crowd.asks(client, f"USER u{number % 50}") for number, client in enumerate(idle)]
    check("so many are welcome", all(said.startswith("welcome u") for said in welcome), welcome[:3])
    check("a table", crowd.asks(idle[0], "CREATE TABLE t (x INTEGER, of INTEGER)") == "done @1\n", None)
    for user in range(1, 50):
        crowd.asks(idle[0], f"GRANT INSERT, SELECT ON t TO u{user}")
    odd = []

    def speaks(number):
        client = idle[number * (count // ACTIVE)]
        for line in range(LINES):
            said = crowd.asks(client, f"INSERT INTO t VALUES ({line}, {number})")
            seen = crowd.asks(client, f"SELECT x FROM t WHERE of = {number}")
            rows = seen.count("row,")
            while rows < line + 1 and seen.startswith("rows"):
                piece = client.recv(65536).decode()
                seen, rows = seen + piece, rows + piece.count("row,")
                if not piece:
                    break
            if not said.startswith("done @") or not seen.startswith(f"rows {line + 1} @"):
                odd.append((number, line, said, seen))

    speakers = [threading.Thread(target=speaks, args=(number,)) for number in range(ACTIVE)]
    for speaker in speakers:
        speaker.start()
    for speaker in speakers:
        speaker.join(WAIT)
    check("each sees what it wrote", not odd, odd[:3])
    # (within a second the last changes are put on the disk)
    time.sleep(1.6)
    before = wakes(crowd.child.pid)
    time.sleep(1)
    check("an idle crowd wakes nobody", wakes(crowd.child.pid) == before, wakes(crowd.child.pid) - before)
    for client in idle:
        client.close()
    check("it stops", crowd.stop() == 0, None)
    with open(crowd.journal) as file:
        kept = [line for line in file if "INSERT INTO" in line]
    check("one history", len(kept) == ACTIVE * LINES == len(set(kept)), len(kept))


def halves(program, check, folder):
    """Clients that have said half a line hold no worker: another is answered at once."""
    crowd = Crowd(program, check, folder)
    slow = [crowd.connect() for _ in range(20 * WORKERS)]
    for client in slow:
        client.sendall(b"USER ann\nCREATE TAB")
    begun = time.monotonic()
    other = crowd.connect()
    said = crowd.asks(other, "USER bob")
    check("half a line holds no worker", said == "welcome bob\n" and time.monotonic() - begun < 1, said)
    for number, client in enumerate(slow):
        client.sendall(f"LE t{number} (x INTEGER)\n".encode())
    told = []
    for client in slow:
        said = b""
        while said.count(b"\n") < 2:
            said += client.recv(4096)
        told.append(said.startswith(b"welcome ann\ndone @"))
    check("and each is answered once it is whole", all(told), told.count(False))
    for client in [other, *slow]:
        client.close()
    check("it stops", crowd.stop() == 0, None)


def slow_readers(program, check, folder):
    """Clients that take nothing of small answers hold no worker, and lose none of them."""
    crowd = Crowd(program, check, folder)
    first = crowd.connect()
    crowd.asks(first, "USER ann")
    crowd.asks(first, "CREATE TABLE t (name TEXT)")
    slow = [crowd.connect() for _ in range(4 * WORKERS)]
    for client in slow:
        client.setsockopt(socket.SOL_SOCKET, socket.SO_RCVBUF, 4096)
        client.sendall(b"USER ann\n" + 500 * b"INSERT INTO t VALUES ('Bo')\n")
    said = crowd.asks(first, "INSERT INTO t VALUES ('Al')")
    check("who takes nothing holds no worker", said.startswith("done @"), said)
    counts = []
    for client in slow:
        client.shutdown(socket.SHUT_WR)
        counts.append(b"".join(iter(lambda: client.recv(512), b"")).count(b"\n"))
    check("and hears all", counts == len(slow) * [501], counts)
    first.close()
    check("it stops", crowd.stop() == 0, None)


def slow_readers_of_much(program, check, folder):
    """Clients that take nothing of long answers hold no worker, and little memory, and hear all of them in the end."""
    crowd = Crowd(program, check, folder)
    first = crowd.connect()
    crowd.asks(first, "USER ann")
    crowd.asks(first, "CREATE TABLE t (x INTEGER, name TEXT)")
    rows = [f"INSERT INTO t VALUES ({number}, '{1000 * 'a'}')" for number in range(10_000)]
    first.sendall("\n".join([*rows, ""]).encode())
    told = 0
    while told < len(rows):
        told += first.recv(65536).count(b"\n")
    checkpoint = crowd.asks(first, "CHECKPOINT")
    while b"\nfinished,1," not in lines_of(first, "CHECKPOINTS", 2):
        time.sleep(0.01)
    before = resident(crowd.child.pid)
    slow = [crowd.connect(room=65536) for _ in range(8 * WORKERS)]
    for number, client in enumerate(slow):
        client.sendall(b"USER ann\n" + (b"SELECT * FROM t\n" if number % 2 else b"EXPORT 1\n") + b"CHECKPOINTS\n")
    time.sleep(0.5)
    said = [crowd.asks(first, "INSERT INTO t VALUES (0, '')") for _ in range(20)]
    check("who takes nothing of much holds no worker", all(line.startswith("done @") for line in said), said)
    grown = (resident(crowd.child.pid) - before) / len(slow)
    check("and little memory", grown < 1_500_000, grown)
    odd = []
    for number, client in enumerate(slow):
        client.shutdown(socket.SHUT_WR)
        heard = b"".join(iter(lambda: client.recv(1 << 20), b"")).decode().split("\n")
        begins = "rows 10000 @" if number % 2 else "export 1 "
        whole = heard[0] == "welcome ann" and heard[1].startswith(begins) and heard[-3].startswith("checkpoints 1 ")
        if not whole or sum(line.startswith("row,") for line in heard) != 10_000 or heard.count("end 1") != 1 - number % 2:
            odd.append((number, heard[:2], heard[-4:], len(heard)))
    check("and hears all of much", not odd, odd[:2])
    first.close()
    check("it stops", (checkpoint[:12], crowd.stop()) == ("checkpoint 1", 0), checkpoint)


def slow_speakers(program, check, folder):
    """Clients that say a byte at a time are heard, and others meanwhile."""
    crowd = Crowd(program, check, folder)
    slow = [crowd.connect() for _ in range(4 * WORKERS)]
    other = crowd.connect()
    said = [crowd.asks(other, "USER bob")]
    for byte in b"USER ann\nCHECKPOINTS\n":
        for client in slow:
            client.sendall(bytes([byte]))
        said.append(crowd.asks(other, "CHECKPOINTS"))
    check("others are heard meanwhile", said == ["welcome bob\n"] + 21 * ["checkpoints 0 @0\n"], said)
    told = []
    for client in slow:
        client.shutdown(socket.SHUT_WR)
        told.append(b"".join(iter(lambda: client.recv(512), b"")))
    check("a byte at a time", told == len(slow) * [b"welcome ann\ncheckpoints 0 @0\n"], told[:3])
    other.close()
    check("it stops", crowd.stop() == 0, None)


def full(program, check, folder):
    """One session too many is told so at once, and is none; once one has ended there is room for another."""
    crowd = Crowd(program, check, folder, "--max-sessions", "3", "--log")
    clients = [crowd.connect() for _ in range(3)]
    said = [crowd.asks(client, "USER ann") for client in clients]
    check("as many as there may be", said == 3 * ["welcome ann\n"], said)
    many = []
    for _ in range(5):
        with crowd.connect() as client:
            many.append(b"".join(iter(lambda: client.recv(512), b"")))
    check("one too many", many == 5 * [b"refused: sessions\n"], many)
    check("the others go on", [crowd.asks(client, "CHECKPOINTS") for client in clients] == 3 * ["checkpoints 0 @0\n"], None)
    clients.pop().close()
    begun, said = time.monotonic(), ""
    while said != "welcome bob\n" and time.monotonic() - begun < WAIT:
        with contextlib.suppress(OSError):
            clients.append(crowd.connect())
            said = crowd.asks(clients[-1], "USER bob")
    check("room again", said == "welcome bob\n", said)
    for client in clients:
        client.close()
    check("it stops", crowd.stop() == 0, None)
    told = crowd.child.stderr.read().decode().split("\n")
    refused = [line for line in told if line.startswith("session refused: peer 127.0.0.1:")]
    check("told of", len(refused) >= 5, told)
    begun = [line for line in told if " begun: peer 127.0.0.1:" in line]
    check("four sessions", len(begun) == 4 and begun[3].startswith("session 4 "), begun)


def no_descriptor(program, check, folder):
    """Where descriptors run out those who are in go on, and others come in once some have left."""
    def few():
        resource.setrlimit(resource.RLIMIT_NOFILE, (60, 60))

    crowd = Crowd(program, check, folder, preexec_fn=few)
    clients = [crowd.connect() for _ in range(80)]
    inside = []
    for client in clients:
        client.sendall(b"USER ann\n")
    time.sleep(0.5)
    ready, _, _ = select.select(clients, [], [], 0)
    check("some are in", 20 < len(ready) < 60, len(ready))
    for client in ready:
        inside.append(client.recv(64))
    said = [crowd.asks(client, "CHECKPOINTS") for client in ready[:5]]
    check("who is in goes on", all(line.startswith("checkpoints 0") for line in said), said)
    for client in ready:
        client.close()
    others = [client for client in clients if client not in ready]
    told = [client.recv(64) for client in others]
    check("the others come in", told == len(others) * [b"welcome ann\n"], told[:3])
    for client in others:
        client.close()
    check("it stops", crowd.stop() == 0, None)


def played(program, check, count=1000):
    most = descriptors()
    with tempfile.TemporaryDirectory() as folder:
        crowded(program, check, folder, min(count, most - 100))
        halves(program, check, folder)
        slow_readers(program, check, folder)
        slow_readers_of_much(program, check, folder)
        slow_speakers(program, check, folder)
        full(program, check, folder)
        no_descriptor(program, check, folder)
    Server.stop_all()


def main():
    parser = argparse.ArgumentParser()
    parser.add_argument("program", nargs="?", default=os.path.join(os.path.dirname(__file__), "../crates/sysr/out/sysr"))
    parser.add_argument("--sessions", type=int, default=10_000)
    asked = parser.parse_args()
    failed = []

    def check(name, good, seen):
        print("ok  " if good else "FAIL", name, "" if good else seen)
        failed.extend([] if good else [name])

    played(asked.program, check, asked.sessions)
    sys.exit(bool(failed))


if __name__ == "__main__":
    main()

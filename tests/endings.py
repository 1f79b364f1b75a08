"""What ends `sysr serve`, and what does not: the last session that was asked for, and a full disk."""
import errno
import os
import socket
import subprocess
import tempfile
import time

from served import WAIT, Server, Session, in_time

CREATED = "CREATE TABLE t (x INTEGER)"
# A server that has to end does so within this time, on a machine that has much to do.
SOON = 2


def ends_soon(server):
    """Status, what it said, and its lines of faults; or that it goes on."""
    try:
        server.child.wait(timeout=SOON)
    except subprocess.TimeoutExpired:
        return "goes on"
    return server.end()


def full_disk(program, check):
    """A change that the journal's disk has no room for ends its session, and no other: what is no change is answered, and
    so is a change that is denied; no further change is entered. It is told at the end."""
    if not os.path.exists("/dev/full"):
        return
    for workers in (1, 2, 16):
        with tempfile.TemporaryDirectory() as folder:
            control = os.path.join(folder, "control")
            server = Server(program, None, workers=workers, more=["--journal", "/dev/full", "--control", control])
            ann = Session(server, "ann")
            said = [ann.ask(CREATED)]
            bob = Session(server, "bob")
            said += [bob.ask(line) for line in ("CHECKPOINTS", "SELECT * FROM t", "CREATE TABLE u (x INTEGER)")]
            eve = Session(server, "eve")
            said += [eve.ask(line) for line in ("CHECKPOINTS", CREATED, "CHECKPOINT")]
            wanted = ["", "checkpoints 0 @1\n", "denied @1: bob lacks SELECT(x) on t\n", "", "checkpoints 0 @1\n",
                "denied @1: table t exists\n", "checkpoint 1 begun @1\n"]
            check(f"a full disk, {workers} workers", said == wanted, said)
            subprocess.run([program, "stop", "--control", control], timeout=WAIT)
            seen = ends_soon(server)
        told = 2 * ["session fault: journal"] + ["sysr: journal fault"]
        check(f"stopped with a full disk, {workers} workers", seen == (1, b"served 3\n", told), seen)
        for session in (ann, bob, eve):
            session.reset()


def refused_within(server, seconds):
    """Whether a connection is refused before so many seconds have passed."""
    late = time.monotonic() + seconds
    while True:
        with socket.socket() as client:
            client.settimeout(1)
            fault = client.connect_ex(("127.0.0.1", server.port))
        if fault == errno.ECONNREFUSED:
            return True
        if time.monotonic() > late:
            return False
        time.sleep(0.01)


def last_session(program, check):
    """When the last session has been taken, further clients are refused at once, while those that were taken go on."""
    for workers, count in ((2, 2), (4, 2), (1, 1), (16, 3)):
        server, name = Server(program, count, workers=workers), f"{count} sessions of {workers} workers"
        sessions = [Session(server, f"u{n}") for n in range(count)]
        check(f"{name}: further clients are refused", refused_within(server, 1), "not refused")
        said = [session.ask("CHECKPOINTS") for session in sessions]
        check(f"{name}: they go on", said == count * ["checkpoints 0 @0\n"], said)
        said = [session.end() for session in sessions]
        ended = ends_soon(server)
        wanted = count * [""], (0, f"served {count}\n".encode(), [])
        check(f"{name}: the end", (said, ended) == wanted, (said, ended))


def last_beside_another(program, check):
    """The last client that was asked for is answered beside the first, by the one worker; one behind him is refused."""
    server = Server(program, 2, workers=1)
    first = Session(server, "ann")
    second = Session(server, "bob")
    said = [second.welcome, first.ask("CHECKPOINTS"), second.ask("CHECKPOINTS")]
    check("two of one worker", said == ["welcome bob\n", *2 * ["checkpoints 0 @0\n"]], said)
    check("one behind the last is refused", refused_within(server, 1), "not refused")
    said = [first.end(), second.ask("CHECKPOINTS"), second.end()]
    ended = ends_soon(server)
    check("behind the last", (said, ended) == (["", "checkpoints 0 @0\n", ""], (0, b"served 2\n", [])), (said, ended))


def no_last_session(program, check):
    """Where nobody says how many sessions there are to be, a server goes on behind as many as it once ended with."""
    server = Server(program, None, workers=4)
    welcomed = 0
    for _ in range(10050):
        with server.connect() as client:
            client.sendall(b"USER ann\n")
            welcomed += client.recv(100) == b"welcome ann\n"
    check("many short sessions", welcomed == 10050, welcomed)
    ann = Session(server, "ann")
    said = [ann.welcome, ann.ask("CHECKPOINTS"), ann.end()]
    check("one behind many", said == ["welcome ann\n", "checkpoints 0 @0\n", ""], said)
    check("it serves on", server.child.poll() is None, server.child.poll())


TESTS = (full_disk, last_session, last_beside_another, no_last_session)


def played(program, check):
    for test in TESTS:
        in_time(test.__name__, check, lambda: test(program, check))

"""The door of `sysr serve`: its port and workers, clients that say nothing, what stands in for closed streams, the log,
and accepts that fail."""
import contextlib
import errno
import os
import signal
import socket
import subprocess
import threading
import time

from served import WAIT, Server, Session, free_port, in_time, talk


# What a log tells of clients who are idle for too long.
SENT_NOTHING, TOOK_NOTHING = "idle, sent nothing", "idle, took nothing"
SILENT = (([], ["session fault: read", "session fault: write"]),
    (["--log"], [f"session 3 fault: {SENT_NOTHING}", f"session 4 fault: {TOOK_NOTHING}"]))


def taken_port(program, check):
    with socket.socket() as taken:
        taken.bind(("127.0.0.1", 0))
        taken.listen()
        port = taken.getsockname()[1]
        done = subprocess.run([program, "serve", "--port", str(port)], capture_output=True, timeout=WAIT)
    seen = (done.returncode, done.stdout, done.stderr)
    check("a port that is taken", seen == (1, b"", f"sysr: cannot listen on {port}\n".encode()), seen)


def greatest_numbers(program, check):
    """The greatest port and the most workers and sessions are taken: sixteen clients are served at once."""
    server = Server(program, 10_000, workers=16, port=65535)
    if server.listening == b"" and server.said == b"sysr: cannot listen on 65535\n":
        print("port 65535 is not free: the greatest numbers were not tried")
        return
    check("the greatest port", server.listening == b"listening on 65535\n", server.listening)
    sessions = [Session(server, f"u{n}") for n in range(16)]
    said = [session.welcome for session in sessions]
    check("sixteen workers", said == [f"welcome u{n}\n" for n in range(16)], said)
    for session in sessions:
        session.end()


def fewest_words(program, check):
    """With a port alone there are four workers, who answer more sessions than they are."""
    server = Server(program, None, workers=None)
    sessions = [Session(server, f"u{n}") for n in range(5)]
    said = [session.welcome for session in sessions]
    check("five sessions of four workers", said == [f"welcome u{n}\n" for n in range(5)], said)
    for session in sessions:
        session.end()


def silent_clients(program, check, more, faults):
    """Of two clients of two workers one sends nothing and one takes nothing of 9 MB. Some seconds later both sessions
    have ended with their faults, and others are served in their place. A server that was stopped and goes on ends no
    session. Between the two parts other tests are played, while the time passes. With a log the faults are of the third
    and the fourth session, and idleness is told.
    """
    server = Server(program, 5, more=["--idle", "1", *more])
    Server.running.remove(server.child)
    try:
        row = ", ".join(3 * [f"'{1000 * 'x'}'"])
        seen = talk(server, "USER ann\nCREATE TABLE t (a TEXT, b TEXT, c TEXT)\nGRANT SELECT ON t TO eve\n"
            + 3000 * f"INSERT INTO t VALUES ({row})\n")
        check("9 MB", seen.endswith("\ndone @3002\n"), seen[-100:])
        bob = Session(server, "bob")
        for stop in (signal.SIGSTOP, signal.SIGCONT):
            server.child.send_signal(stop)
            time.sleep(0.05)
        said = [bob.ask("CHECKPOINTS"), bob.end()]
        check("stopped for a while", said == ["checkpoints 0 @3002\n", ""], said)
        with server.connect() as silent, socket.socket() as deaf:
            deaf.setsockopt(socket.SOL_SOCKET, socket.SO_RCVBUF, 4096)
            deaf.connect(("127.0.0.1", server.port))
            deaf.sendall(b"USER eve\nSELECT * FROM t\n")
            yield
            seen = talk(server, "USER carl\n")
            check("another beside them", seen == "welcome carl\n", seen)
            check("that sends nothing", silent.recv(1) == b"", "not ended")
            ended = server.end()
        told = [line for line in ended[2] if " fault: " in line]
        check("silent clients: the end", (*ended[:2], sorted(told)) == (0, b"served 5\n", sorted(faults)), ended)
    finally:
        server.child.kill()
        server.child.communicate(timeout=WAIT)


def clients_that_wait(program, check):
    """Of sixteen clients seven take nothing of 18 MB each, and seven have sent half a line: more than run at once. They
    hold up neither the others nor a checkpoint."""
    server = Server(program, 16, workers=16)
    ann = Session(server, "ann")
    row = ", ".join(3 * [f"'{1000 * 'x'}'"])
    ann.send("CREATE TABLE t (a TEXT, b TEXT, c TEXT)\nGRANT SELECT ON t TO eve\n"
        + 3000 * f"INSERT INTO t VALUES ({row})\n")
    said = [ann.line() for _ in range(3002)]
    check("9 MB of rows", said[-1] == "done @3002\n", said[-1])
    deaf, half = [Session(server, "eve") for _ in range(7)], [Session(server, "eve") for _ in range(7)]
    for session in deaf:
        session.send(2 * "SELECT * FROM t\n")
    for session in half:
        session.send("SELECT * FROM t\nSELECT")
        said = [session.line() for _ in range(3001)]
        check("half a line behind a whole one", said[0] == "rows 3000 @3002\n", said[0])
    bob = Session(server, "bob")
    said = [bob.ask("CHECKPOINTS") for _ in range(100)]
    check("beside clients that wait", said == 100 * ["checkpoints 0 @3002\n"], said[-1])
    said = [bob.ask("CHECKPOINT"), bob.settled()]
    check("a checkpoint beside them", said == ["checkpoint 1 begun @3002\n", ["finished,1,3002\n"]], said)
    said = [ann.ask("CHECKPOINTS"), ann.line(), ann.end(), bob.end()]
    check("the first beside them", said == ["checkpoints 1 @3002\n", "finished,1,3002\n", "", ""], said)
    for session in deaf + half:
        session.reset()
    ended = server.end()
    wanted = (0, b"served 16\n", 7 * ["session fault: read"] + 7 * ["session fault: write"])
    check("clients that wait: the end", (*ended[:2], sorted(ended[2])) == wanted, ended)


def streams(program, check):
    """Clients that send many lines, more than run at once, and one that waits for each answer: all are answered."""
    server = Server(program, 9, workers=9)
    lines, said = 20_000, {}

    def stream(user):
        said[user] = talk(server, f"USER {user}\n" + lines * "CHECKPOINTS\n")

    streaming = [threading.Thread(target=stream, args=(f"u{n}",)) for n in range(8)]
    for thread in streaming:
        thread.start()
    bob = Session(server, "bob")
    answers = {bob.ask("CHECKPOINTS") for _ in range(300)}
    check("a line at a time beside streams", answers == {"checkpoints 0 @0\n"}, answers)
    check("the end beside streams", bob.end() == "", "more was said")
    for thread in streaming:
        thread.join()
    answered = lines * "checkpoints 0 @0\n"
    seen = {user: text[:40] for user, text in said.items() if text != f"welcome {user}\n{answered}"}
    check("streams", len(said) == 8 and not seen, seen)
    ended = server.end()
    check("streams: the end", ended == (0, b"served 9\n", []), ended)


def closed_streams(program, check):
    """A fault is written to no client's socket where standard error and standard input are closed; where standard
    output is closed, that it listens cannot be said."""
    server = Server(program, 2, stderr=None, preexec_fn=lambda: (os.close(0), os.close(2)))
    bob, eve = Session(server, "bob"), Session(server, "eve")
    eve.send("CHECKPO")
    eve.reset()
    time.sleep(0.1)
    said = [bob.welcome, bob.ask("CHECKPOINTS"), bob.end()]
    check("closed error: replies alone", said == ["welcome bob\n", "checkpoints 0 @0\n", ""], said)
    out = server.child.communicate(timeout=WAIT)[0]
    check("closed error: the end", (server.child.returncode, out) == (0, b"served 2\n"), (server.child, out))
    for closed in ((1,), (0, 1)):
        words = ["serve", "--port", str(free_port())]
        done = subprocess.run([program, *words], stderr=subprocess.PIPE, timeout=WAIT,
            preexec_fn=lambda: [os.close(each) for each in closed])
        seen = (done.returncode, done.stderr)
        check(f"closed streams {closed}", seen == (1, b"sysr: write fault\n"), seen)


class Logged:
    """A server of one worker with a log, and the lines that it has to write: of each session its beginning, its fault if
    one ended it, and its end."""

    def __init__(self, program, sessions, *more):
        self.server, self.number, self.lines = Server(program, sessions, workers=1, more=["--log", *more]), 0, []

    def told(self, session, user, lines, moment, fault=None):
        self.number += 1
        peer, number = "{}:{}".format(*session.client.getsockname()), self.number
        self.lines += [f"session {number} begun: peer {peer}", *([f"session {number} fault: {fault}"] if fault else []),
            f"session {number} ended: user {user}, peer {peer}, lines {lines}, moment {moment}"]

    def says(self, user, *lines):
        """A session of these lines. It hears the first line of each answer, and says what the last one was."""
        session = Session(self.server, user)
        said = [session.ask(line) for line in lines][-1:]
        return session, said


def logged(program, check):
    """With a log the beginning and the end of each session are told, beside its fault. The moment is that of the last
    answer which bore one, be it done, denied or refused: of an export the present one."""
    log = Logged(program, 10)
    for user, lines, moment, answer in (
        ("ann", ["CREATE TABLE t (x INTEGER)", "INSERT INTO t VALUES (1)", "CHECKPOINTS", "?"], 2, "error 3 at 0: bad byte"),
        ("bob", ["SELECT * FROM t"], 2, "denied @2: bob lacks SELECT(x) on t"),
        ("ann", ["INSERT INTO t VALUES (1, 2)"], 2, "refused @2: 2 values for 1 columns"),
        ("ann", ["?"], "-", "error 3 at 0: bad byte"),
        ("ann", ["CHECKPOINT"], 2, "checkpoint 1 begun @2"),
        ("ann", ["INSERT INTO t VALUES (2)"], 3, "done @3"),
        ("eve", ["SELECT * FROM t", "", "EXPORT 2"], 3, "denied @3: no checkpoint 2"),
    ):
        session, said = log.says(user, *lines)
        check(f"a log: {user}", said == [f"{answer}\n"], said)
        log.told(session, user, len(lines), moment)
        session.end()
    session, _ = log.says("ann")
    asked = len([*session.lists(0.005)])
    exported(session, check)
    log.told(session, "ann", asked + 1, 3)
    session.end()
    nobody = Session(log.server, "in vain")
    log.told(nobody, "-", 0, "-")
    nobody.end()
    eve = Session(log.server, "eve")
    eve.send("SELECT * FR")
    log.told(eve, "eve", 0, "-", "read")
    eve.reset()
    ended = log.server.end()
    check("a log", ended == (0, b"served 10\n", log.lines), ended)


def exported(session, check):
    """An export of what was at moment 2, made at moment 3."""
    said = session.export(1)
    wanted = ["export 1 point 2 @3\n", "table,t,x\n", "row,1\n", "end 1\n"]
    check("a log: an export", said == wanted, said)


def logged_idle(program, check):
    """With a log it is told that a session ended since its client said nothing for too long, and of which fault else."""
    log = Logged(program, 2, "--idle", "1")
    silent, said = log.says("ann", "CREATE TABLE t (x INTEGER)")
    log.told(silent, "ann", 1, 1, SENT_NOTHING)
    heard = silent.line()
    check("an idle session is ended", (said, heard) == (["done @1\n"], ""), (said, heard))
    bob, _ = log.says("bob", "?")
    bob.send("SELECT * FR")
    log.told(bob, "bob", 1, "-", "read")
    bob.reset()
    ended = log.server.end()
    check("a log of an idle session", ended == (0, b"served 2\n", log.lines), ended)


# Lets accept4 fail by the numbers of ACCEPT_FAULTS, one after another; it is as ever where a number is 0, and behind
# the last.
ACCEPTS = """
#define _GNU_SOURCE
#include <dlfcn.h>
#include <errno.h>
#include <stdlib.h>
#include <sys/socket.h>

int accept4(int fd, struct sockaddr *peer, socklen_t *len, int flags) {
    static int (*real)(int, struct sockaddr *, socklen_t *, int);
    static const char *next;
    if (!real) {
        real = (int (*)(int, struct sockaddr *, socklen_t *, int))dlsym(RTLD_NEXT, "accept4");
        next = getenv("ACCEPT_FAULTS");
    }
    if (next && *next) {
        char *end;
        int fault = (int)strtol(next, &end, 10);
        next = *end ? end + 1 : end;
        if (fault) { errno = fault; return -1; }
    }
    return real(fd, peer, len, flags);
}
"""


def refused_accepts(program, check, preloaded):
    """An accept that fails is tried again; where the listener is gone the sessions that run go on, and it ends."""
    def serving(sessions, *faults):
        more = {"LD_PRELOAD": preloaded, "ACCEPT_FAULTS": ",".join(str(fault) for fault in faults)}
        return Server(program, sessions, env={**os.environ, **more})

    server = serving(2, errno.ECONNABORTED, errno.EMFILE, errno.ENFILE, errno.ENOMEM, errno.EPROTO)
    said = [talk(server, "USER ann\n"), talk(server, "USER bob\n")]
    check("accepts that failed", said == ["welcome ann\n", "welcome bob\n"], said)
    ended = server.end()
    check("accepts that failed: the end", ended == (0, b"served 2\n", []), ended)
    server = serving(2, 0, errno.EBADF)
    ann = Session(server, "ann")
    # (that it is gone shows where somebody knocks, who may be reset before his call has returned)
    with contextlib.suppress(ConnectionResetError):
        server.connect().close()
    time.sleep(0.05)
    said = [ann.ask("CHECKPOINTS"), ann.end()]
    check("without a listener", said == ["checkpoints 0 @0\n", ""], said)
    ended = server.end()
    check("without a listener: the end", ended == (1, b"", ["sysr: accept fault"]), ended)


TESTS = (taken_port, greatest_numbers, fewest_words, clients_that_wait, streams, closed_streams, logged,
    logged_idle)


def played(program, check):
    slow = [silent_clients(program, check, *words) for words in SILENT]
    for each in slow:
        in_time("silent clients", check, lambda: next(each))
    for test in TESTS:
        in_time(test.__name__, check, lambda: test(program, check))
    for each in slow:
        in_time("silent clients", check, lambda: next(each, None))

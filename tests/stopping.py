"""How a server is stopped: by `sysr stop` at its control socket, and by the end of its input.

Each session answers the lines that it was sent by then, and ends; the front of a line is nothing. No further session is
taken. At a second word, or once the grace is over, sessions are cut.
"""
import contextlib
import os
import socket
import stat
import subprocess
import tempfile
import threading
import time

from served import WAIT, Server, Session

CREATED, INSERTED = "CREATE TABLE t (x TEXT)", "INSERT INTO t VALUES ('a')"


class Stopping:
    """A folder with a journal and a control socket, and servers there."""

    def __init__(self, program, check, folder):
        self.program, self.check, self.folder = program, check, folder
        self.control = os.path.join(folder, "control")
        self.journal = os.path.join(folder, "journal")

    def serving(self, *words, sessions=None, **started):
        return Server(self.program, sessions, workers=4, more=["--control", self.control, *words], **started)

    def stop(self, control=None):
        """The status of `sysr stop`, and what it says."""
        done = subprocess.run([self.program, "stop", "--control", control or self.control], capture_output=True,
            timeout=WAIT)
        return done.returncode, done.stdout.decode() + done.stderr.decode()

    def kept(self):
        with open(self.journal) as file:
            return file.read()

    def says(self, word):
        """What is answered to a word at the control socket."""
        with socket.socket(socket.AF_UNIX) as client:
            client.settimeout(WAIT)
            client.connect(self.control)
            client.sendall(word)
            return client.recv(100)


def refused(server):
    """Whether nobody listens any more."""
    with socket.socket() as client:
        client.settimeout(WAIT)
        return client.connect_ex(("127.0.0.1", server.port)) != 0


def stopped(stopping):
    """Sessions that wait for their clients end, and the server with them; what was told is kept."""
    server = stopping.serving("--journal", stopping.journal)
    ann, bob = Session(server, "ann"), Session(server, "bob")
    told = [ann.ask(CREATED), ann.ask(INSERTED)]
    told += [stopping.stop(), ann.line(), bob.line(), server.end(), refused(server), stopping.kept()]
    wanted = ["done @1\n", "done @2\n", (0, ""), "", "", (0, b"served 2\n", []), True,
        f"ann: {CREATED}\nann: {INSERTED}\n"]
    stopping.check("stopped", told == wanted, told)
    stopping.check("no control socket is left", not os.path.exists(stopping.control), os.listdir(stopping.folder))
    stopping.check("nobody listens there", stopping.stop() == (1, f"sysr: {stopping.control}: no server listens there\n"),
        stopping.stop())


def lines_that_were_sent(stopping):
    """Whole lines that were sent before are answered, and the front of one is not carried out."""
    server = stopping.serving("--journal", stopping.journal)
    ann = Session(server, "ann")
    sent = 2000
    ann.send(CREATED + "\n" + sent * (INSERTED + "\n") + "INSERT INTO t VALUES ('b')")
    time.sleep(0.2)
    stopping.stop()
    answers = ann.reader.read().decode().splitlines()
    stopping.check("each whole line is answered", answers == [f"done @{n}" for n in range(1, sent + 2)], answers[-3:])
    kept = stopping.kept().splitlines()
    wanted = [f"ann: {CREATED}", *sent * [f"ann: {INSERTED}"]]
    stopping.check("the front of a line is nothing", kept == wanted, kept[-3:])
    server.end()


def under_load(stopping):
    """What clients were told is kept, each change once, wherever they were when the server was stopped."""
    server = stopping.serving("--journal", stopping.journal, "--grace", "5")
    owner = Session(server, "o")
    owner.ask("CREATE TABLE t (x TEXT)")
    owner.ask("GRANT INSERT ON t TO u0, u1, u2")
    told = [0, 0, 0]

    def plays(number):
        with contextlib.suppress(OSError):
            session = Session(server, f"u{number}")
            while session.ask(INSERTED).startswith("done"):
                told[number] += 1

    threads = [threading.Thread(target=plays, args=(number,)) for number in range(3)]
    for thread in threads:
        thread.start()
    time.sleep(0.3)
    status = stopping.stop()
    for thread in threads:
        thread.join(WAIT)
    lines = stopping.kept().splitlines()
    kept = [sum(line.startswith(f"u{number}: ") for line in lines) for number in range(3)]
    good = all(0 < these <= those <= these + 1 for these, those in zip(told, kept))
    stopping.check("stopped under load", status == (0, "") and good, (status, told, kept))
    ended = server.end()
    stopping.check("the end under load", ended[0] == 0, ended)


def by_input(stopping):
    """The end of standard input stops a server that is to serve until then."""
    server = Server(stopping.program, None, more=["--until-eof"], stdin=subprocess.PIPE)
    ann = Session(server, "ann")
    said = ann.ask("CHECKPOINTS")
    server.child.stdin.write(b"what stands here is nothing\n")
    server.child.stdin.flush()
    said += ann.ask("CHECKPOINTS")
    server.child.stdin.close()
    server.child.stdin = None
    said += ann.line()
    stopping.check("by the end of input", (said, server.end()) == (2 * "checkpoints 0 @0\n", (0, b"served 1\n", [])), said)


def one_who_reads_nothing(stopping):
    """A session whose client takes nothing is cut once the grace is over, or at a second word."""
    for words, again in ((["--grace", "1"], False), (["--grace", "600"], True)):
        server = stopping.serving(*words)
        ann = Session(server, "ann")
        ann.ask(CREATED)
        long = f"INSERT INTO t VALUES ('{1000 * 'a'}')\n"
        ann.send(3000 * long)
        ann.send(40 * "SELECT * FROM t\n")
        time.sleep(0.5)
        start = time.monotonic()
        waiting = threading.Thread(target=stopping.stop)
        waiting.start()
        time.sleep(0.5)
        if again:
            stopping.check("it waits for one who reads nothing", server.child.poll() is None, server.child.poll())
            stopping.stop()
        waiting.join(WAIT)
        took = time.monotonic() - start
        status = server.end()[0]
        stopping.check(f"one who reads nothing is cut: {words}", status == 0 and took < 20, (status, took))
        ann.client.close()


def control_sockets(stopping):
    """A control socket is its owner's alone; one that is left over is nobody's; what is none stays."""
    server = stopping.serving()
    mode = stat.S_IMODE(os.stat(stopping.control).st_mode)
    stopping.check("the mode of a control socket", mode == 0o600, oct(mode))
    said = [stopping.says(b"HALT\n"), stopping.says(b"STOP now\n")]
    stopping.check("other words", said == 2 * [b"unknown\n"], said)
    done = subprocess.run([stopping.program, "serve", "--port", "1", "--control", stopping.control],
        capture_output=True, timeout=WAIT)
    wanted = 1, b"", f"sysr: {stopping.control}: in use by another sysr\n".encode()
    stopping.check("one that is in use", (done.returncode, done.stdout, done.stderr) == wanted, done)
    server.child.kill()
    server.child.communicate(timeout=WAIT)
    server = stopping.serving(sessions=1)
    stopping.check("one that is left over", server.listening.startswith(b"listening on"), server.listening)
    stopping.stop()
    server.end()
    with open(stopping.control, "w") as file:
        file.write("mine\n")
    done = subprocess.run([stopping.program, "serve", "--port", "1", "--control", stopping.control],
        capture_output=True, timeout=WAIT)
    stopping.check("a file that is no socket", (done.returncode, done.stdout) == (1, b""), done)
    with open(stopping.control) as file:
        stopping.check("it stays", file.read() == "mine\n", "changed")
    os.remove(stopping.control)


TESTS = (stopped, lines_that_were_sent, under_load, by_input, one_who_reads_nothing, control_sockets)


def played(program, check):
    for test in TESTS:
        with tempfile.TemporaryDirectory() as folder:
            test(Stopping(program, check, folder))
        Server.stop_all()

"""The files that the command line names: one that another program writes, one that is missing, one that has two names, a
FIFO, and files beside standard streams that are closed.
"""
import contextlib
import os
import re
import stat
import subprocess
import threading
import time

from served import WAIT, Server, Session, free_port, in_time

CREATED, INSERTED = "o: CREATE TABLE t (x INTEGER)", "o: INSERT INTO t VALUES (1)"
LINES = [CREATED, INSERTED]
LOADED = re.compile(r"loaded \d+ changes\n(read \d+ bytes in \d+ ms\n)?")
# What is told of a file that another program holds, and of one that two words name.
IN_USE = "sysr: {path}: in use by another sysr\n"
ONE_FILE = "error: {first} and {second} name one file: {path}\n"
TWO_NAMES = "error: --load and --journal name one file by two names: {path} and {other}\n"


def as_bytes(lines):
    return "".join(line + "\n" for line in lines).encode()


def content(path):
    if not os.path.exists(path):
        return None
    with open(path, "rb") as file:
        return file.read()


class Files:
    """The program in a folder, and a check. Files are named by what they are called there."""

    def __init__(self, program, check, folder):
        self.program, self.check, self.folder = program, check, folder

    def path(self, name):
        return os.path.join(self.folder, name)

    def made(self, name, lines=()):
        with open(self.path(name), "wb") as file:
            file.write(as_bytes(lines))
        return name

    def run(self, words, given=b"", **more):
        done = subprocess.run([self.program, *words], input=given, capture_output=True, timeout=WAIT, cwd=self.folder,
            **more)
        return done.returncode, done.stdout.decode(), done.stderr.decode()

    def ends(self, name, words, wanted, given=b""):
        """It ends with this status, output and error. A server that listens is killed, and counts as one that did not."""
        try:
            seen = self.run(words, given)
        except subprocess.TimeoutExpired:
            seen = "not ended"
        self.check(f"{name}: {words}", seen == wanted, seen)

    def holds(self, name, file, lines):
        seen = content(self.path(file))
        self.check(f"{name}: the file {file}", seen == as_bytes(lines), seen)

    def is_missing(self, name, file):
        seen = content(self.path(file))
        self.check(f"{name}: no file {file}", seen is None, seen)

    def has_nothing(self, name, file):
        """The file is missing or empty."""
        seen = content(self.path(file))
        self.check(f"{name}: nothing in the file {file}", not seen, seen)

    def serving(self, *words):
        """A server that begins with a file, what it said of that, and that it listens."""
        server = Server(self.program, None, more=list(words), cwd=self.folder)
        return server, server.told_first()


def to_serve(*words):
    return ["serve", "--port", str(free_port()), "--sessions", "1", *words]


def refused(files, name, words, told, status=1):
    """Both `run` and `serve` end with these words, where `run` has all of them, and answer nothing. (What was loaded by
    then may be told. A server that listens is not waited for.)"""
    kinds = [to_serve(*words)] if "--dump" in words else [["run", *words], to_serve(*words)]
    for kind in kinds:
        child = subprocess.Popen([files.program, *kind], stdin=subprocess.PIPE, stdout=subprocess.PIPE,
            stderr=subprocess.PIPE, cwd=files.folder)
        try:
            out, err = child.communicate(as_bytes([INSERTED]), timeout=3)
            seen = child.returncode, out.decode(), err.decode()
        except subprocess.TimeoutExpired:
            child.kill()
            child.communicate()
            seen = None, "", "not ended"
        answered = LOADED.sub("", seen[1], 1) if status == 1 else seen[1]
        good = (seen[0], answered, seen[2]) == (status, "", told)
        files.check(f"{name}: {kind[0]} {words}", good, seen)


def one_writer(files):
    """A journal or a dump has one program that writes it, for as long as that runs. To read it is nobody's harm."""
    files.made("held")
    server, _ = files.serving("--load", "held", "--journal", "held", "--dump", "held-dump")
    session = Session(server, "o")
    told = [session.ask(line.removeprefix("o: ")) for line in LINES]
    files.check("a server that holds its files", told == ["done @1\n", "done @2\n"], told)
    for words, path in (
        (("--load", "held", "--journal", "held"), "held"),
        (("--load", "held", "--journal", "held-dump"), "held-dump"),
        (("--dump", "held-dump"), "held-dump"),
        (("--journal", "held-dump"), "held-dump"),
    ):
        refused(files, "in use", words, IN_USE.format(path=path))
    files.holds("in use", "held", LINES)
    files.ends("read beside a server", ["run", "--load", "held"], (0, "loaded 2 changes\nrows 1 @2\nrow,1\n", ""),
        b"o: SELECT * FROM t\n")
    told = session.ask("INSERT INTO t VALUES (2)")
    files.check("the first goes on", told == "done @3\n", told)
    server.child.kill()
    server.end()
    session.reset()
    files.holds("killed", "held", [*LINES, "o: INSERT INTO t VALUES (2)"])
    server, said = files.serving("--load", "held", "--journal", "held", "--dump", "held-dump")
    wanted = [b"loaded 3 changes\n", f"listening on {server.port}\n".encode()]
    files.check("the next one starts", said == wanted, said)
    server.child.kill()
    server.end()
    one_script(files)


def one_script(files):
    """A script that runs holds its journal too."""
    files.made("script")
    child = subprocess.Popen([files.program, "run", "--journal", "script"], stdin=subprocess.PIPE,
        stdout=subprocess.PIPE, cwd=files.folder)
    child.stdin.write(as_bytes([CREATED]))
    child.stdin.flush()
    told = child.stdout.readline()
    files.check("a script that holds its journal", told == b"done @1\n", told)
    refused(files, "in use by a script", ("--load", "script", "--journal", "script"), IN_USE.format(path="script"))
    child.communicate(as_bytes([INSERTED]), timeout=WAIT)
    files.holds("in use by a script", "script", LINES)


def missing(files):
    """A file that is to be loaded is never made, nor is any other before it was loaded."""
    for words in (("--load", "absent", "--journal", "absent"), ("--load", "absent", "--journal", "behind")):
        refused(files, "missing", words, "sysr: absent: cannot be read\n")
    refused(files, "missing", ("--load", "absent", "--dump", "behind"), "sysr: absent: cannot be read\n")
    for name in ("absent", "behind"):
        files.is_missing("missing", name)
    bad = files.made("bad", [CREATED, CREATED])
    refused(files, "that does not load", ("--load", bad, "--journal", "behind"),
        "sysr: bad: line 2: denied @1: table t exists\n")
    files.is_missing("that does not load", "behind")
    two = files.made("two", LINES)
    refused(files, "of more changes than may be", ("--changes", "1", "--load", two, "--journal", "behind"),
        "sysr: two: line 2: refused @1: full: changes\n")
    files.is_missing("of more changes than may be", "behind")


def named_twice(files):
    """A file that two words name is refused before anything is done, whatever it is called."""
    for kind in ("new", "empty", "begun"):
        for name in ("x", "./x", "../{}/x", "symlink", "hard link"):
            with twice(files, kind, name) as other:
                if other:
                    one_file(files, kind, other)


def one_file(files, kind, other):
    told = lambda first, second: ONE_FILE.format(first=first, second=second, path="x")
    name = f"named twice, {kind}"
    refused(files, name, ("--journal", "x", "--dump", other), told("--journal", "--dump"), 2)
    if kind == "new":
        files.is_missing(name, "x") if other == "x" else files.has_nothing(name, "x")
        return
    lines = LINES if kind == "begun" else ()
    refused(files, name, ("--load", "x", "--dump", other), told("--load", "--dump"), 2)
    if other != "x":
        refused(files, name, ("--load", "x", "--journal", other), TWO_NAMES.format(path="x", other=other), 2)
    files.holds(name, "x", lines)


@contextlib.contextmanager
def twice(files, kind, name):
    """The file `x`, which is new, or empty, or has lines, and another name of it, or None where it can have none."""
    made, other = files.path("x"), name.format(os.path.basename(files.folder))
    if kind != "new":
        files.made("x", LINES if kind == "begun" else ())
    if "link" in name:
        other = name.replace(" ", "-")
        if name == "symlink":
            os.symlink("x", files.path(other))
        elif kind != "new":
            os.link(made, files.path(other))
        else:
            other = None
    yield other
    for path in (made, files.path("symlink"), files.path("hard-link")):
        if os.path.lexists(path):
            os.unlink(path)


def allowed(files):
    """One name for what is loaded and gone on with, two files that have one content, and a new file beside another."""
    files.made("x", [CREATED])
    files.ends("the same name", ["run", "--load", "x", "--journal", "x"], (0, "loaded 1 changes\ndone @2\n", ""),
        as_bytes([INSERTED]))
    files.holds("the same name", "x", LINES)
    files.ends("another file", ["run", "--load", "x", "--journal", "y"], (0, "loaded 2 changes\ndone @3\n", ""),
        as_bytes([INSERTED]))
    files.holds("another file", "y", [INSERTED])
    for name in "xy":
        os.unlink(files.path(name))


def not_empty(files):
    """A journal that is not the one that was loaded has to be empty, and a dump always, before a server listens."""
    files.made("loaded", [CREATED])
    for name in ("journal", "dump"):
        files.made(f"begun-{name}", LINES)
        for words in ((f"--{name}", f"begun-{name}"), ("--load", "loaded", f"--{name}", f"begun-{name}")):
            refused(files, "not empty", words, f"sysr: begun-{name}: is not empty\n")
        files.holds("not empty", f"begun-{name}", LINES)
    files.holds("not empty", "loaded", [CREATED])


def fifos(files):
    """A journal may be a FIFO, whose size nobody can ask. The server waits until somebody reads it before it listens, and
    then each line comes at once."""
    os.mkfifo(files.path("fifo"))
    read, lines = threading.Event(), []

    def reader():
        time.sleep(0.5)
        with open(files.path("fifo"), "rb") as fifo:
            read.set()
            lines.extend(fifo)

    thread = threading.Thread(target=reader, daemon=True)
    thread.start()
    begun = time.monotonic()
    server = Server(files.program, 1, more=["--journal", "fifo"], cwd=files.folder)
    waited = time.monotonic() - begun > 0.4 and read.wait(WAIT)
    files.check("a FIFO is waited for", waited and server.listening.startswith(b"listening"), server.listening)
    session = Session(server, "o")
    told = [session.ask(line.removeprefix("o: ")) for line in LINES]
    session.end()
    ended = server.end()
    thread.join(WAIT)
    files.check("a FIFO as a journal", (told, ended) == (["done @1\n", "done @2\n"], (0, b"served 1\n", [])), (told, ended))
    files.check("what comes out of it", b"".join(lines) == as_bytes(LINES), lines)
    is_fifo = stat.S_ISFIFO(os.stat(files.path("fifo")).st_mode)
    files.check("it stays a FIFO", is_fifo, is_fifo)


CLOSED = ((1,), (2,), (1, 2), (0, 1, 2), (0, 1), (0, 2))


def closed_streams(files):
    """Whatever standard streams are closed, a journal's file gets its lines alone. (What was read is kept before the
    answers are written; but that a file was loaded is said before anything is read.)"""
    for closed in CLOSED:
        given = as_bytes([CREATED, INSERTED, "?", "o: SELECT * FROM t"])
        seen, name = closing(files, ["run", "--journal", "kept"], closed, given), f"closed {closed}"
        files.check(f"{name}: run", seen[0] == (1 if 0 in closed or 1 in closed else 0), seen)
        files.holds(name, "kept", [] if 0 in closed else LINES)
        os.unlink(files.path("kept"))
        files.made("loaded", [CREATED])
        seen = closing(files, ["run", "--load", "loaded", "--journal", "loaded"], closed, as_bytes([INSERTED, "?"]))
        files.check(f"{name}: run --load", seen[0] == (1 if 0 in closed or 1 in closed else 0), seen)
        files.holds(f"{name}, gone on with", "loaded", LINES if closed == (2,) else [CREATED])


def closed_beside_a_full_disk(files):
    """That an answer could not be written is not told in the journal's file, where standard error is closed."""
    if not os.path.exists("/dev/full"):
        return
    with open("/dev/full", "wb") as full:
        done = subprocess.run([files.program, "run", "--journal", "beside-full"], input=as_bytes(LINES), stdout=full,
            cwd=files.folder, timeout=WAIT, preexec_fn=lambda: os.close(2))
    files.check("a full disk, error closed", done.returncode == 1, done)
    files.holds("a full disk, error closed", "beside-full", LINES)


def closed_beside_files(files):
    """`journal`, `dump` and `explain` write to no file that they did not open."""
    files.made("loaded", LINES)
    for closed in CLOSED:
        for words in (["journal"], ["dump"], ["dump", "--load", "loaded"], ["explain", "rights"],
                ["explain", "why", "o", "SELECT", "t"]):
            seen = closing(files, words, closed, as_bytes([CREATED, "a: DELETE FROM t"]))
            name = f"closed {closed}: {words}"
            files.check(name, seen[0] == (1 if 0 in closed or 1 in closed else 0), seen)
            files.holds(name, "loaded", LINES)


def closing(files, words, closed, given):
    """Status, output and error, of which those that are closed are empty."""
    streams = {name: None if number in closed else subprocess.PIPE
        for number, name in enumerate(("stdin", "stdout", "stderr"))}
    child = subprocess.Popen([files.program, *words], cwd=files.folder, **streams,
        preexec_fn=lambda: [os.close(number) for number in closed])
    out, err = child.communicate(given if 0 not in closed else None, timeout=WAIT)
    return child.returncode, out, err


TESTS = (one_writer, missing, named_twice, allowed, not_empty, fifos, closed_streams, closed_beside_a_full_disk,
    closed_beside_files)


def played(program, check, folder):
    files = Files(program, check, folder)
    for test in TESTS:
        in_time(test.__name__, check, lambda: test(files))

"""What stands in packaging: the program takes the words of the unit and of the container file, is killed and goes on with
its journal, and is stopped; journals that are cut off are mended, on a full disk too; and what a container gets is all
that the program needs."""
import contextlib
import json
import os
import shutil
import subprocess
import tempfile

from served import WAIT, Server, Session, in_time

ROOT = os.path.dirname(os.path.dirname(os.path.abspath(__file__)))
PACKAGING = os.path.join(ROOT, "packaging")
UNIT = os.path.join(PACKAGING, "sysr.service")


def unit():
    """The settings of the unit, each with its values."""
    found = {}
    with open(UNIT) as file:
        for line in file:
            name, is_setting, value = line.rstrip("\n").partition("=")
            if is_setting and not line.startswith("#"):
                found.setdefault(name, []).append(value)
    return found


def words_of_unit():
    """The words behind `sysr`, as systemd makes them."""
    name, _, words = unit()["Environment"][0].strip('"').partition("=")
    return unit()["ExecStart"][0].replace(f"${name}", words).split()[1:]


def words_of_container():
    with open(os.path.join(PACKAGING, "Containerfile")) as file:
        return next(json.loads(line[4:]) for line in file if line.startswith("CMD "))


def without(words, option):
    """The words without an option and its value."""
    at = words.index(option)
    return words[:at] + words[at + 2:]


def goes_on(program, check, name, words):
    """A server of these words, but at a free port, is killed. The next one has what was told, and is stopped."""
    check(f"{name}: serve", words[0] == "serve", words)
    more = [word.removeprefix("%t/sysr/") for word in without(without(words[1:], "--port"), "--workers")]
    with tempfile.TemporaryDirectory() as folder:
        # (the unit touches it, and the image has it)
        open(os.path.join(folder, "sysr.journal"), "a").close()
        server = Server(program, None, workers=16, more=more, cwd=folder)
        first = server.told_first()
        ann = Session(server, "ann")
        told = [ann.ask(line) for line in ("CREATE TABLE pay (name TEXT)", "INSERT INTO pay VALUES ('Bo')")]
        server.child.kill()
        server.end()
        server = Server(program, None, workers=16, more=more, cwd=folder)
        second = server.told_first()
        ann = Session(server, "ann")
        told += [ann.ask("SELECT * FROM pay"), ann.line()]
        stopped = subprocess.run([program, "stop", "--control", "control"], cwd=folder, capture_output=True,
            timeout=WAIT)
        status, said, _ = server.end()
    check(f"{name}: loaded", [first[0], second[0]] == [b"loaded 0 changes\n", b"loaded 2 changes\n"], (first, second))
    seen = stopped.returncode, stopped.stdout, status, said.splitlines()[-1:]
    check(f"{name}: stopped", seen == (0, b"", 0, [b"served 1"]), seen)
    check(f"{name}: goes on", told == ["done @1\n", "done @2\n", "rows 1 @2\n", "row,Bo\n"], told)


def mended(program, path, given=b""):
    """The program goes on with the journal: its status, output and error."""
    words = [program, "run", "--load", "sysr.journal", "--journal", "sysr.journal"]
    done = subprocess.run(words, input=given, cwd=os.path.dirname(path), capture_output=True, timeout=WAIT)
    return done.returncode, done.stdout, done.stderr.decode()


def mending(program, check):
    """Only a line without a line feed is taken away, and put by; all lines before it load. A journal that is only read
    stays as it is, and so does one that has more than a line behind its last line feed."""
    line = b"ann: CREATE TABLE t (x INTEGER)\n"
    longest = b"ann: " + 4123 * b"x"
    for given, whole, cut in (
        (b"", b"", None),
        (line, line, None),
        (line + b"ann: INS", line, b"ann: INS"),
        (line + line[:-1], line, line[:-1]),
        (b"ann", b"", b"ann"),
        (line + b"\x00\x00", line, b"\x00\x00"),
        (line + longest, line, longest),
    ):
        with tempfile.TemporaryDirectory() as folder:
            path = os.path.join(folder, "sysr.journal")
            with open(path, "wb") as file:
                file.write(given)
            if cut is not None:
                words = [program, "run", "--load", path]
                done = subprocess.run(words, stdin=subprocess.DEVNULL, capture_output=True, timeout=WAIT)
                check(f"only read: {given[:60]}", (done.returncode, content(path)) == (1, given), done)
            seen = mended(program, path)
            told = "" if cut is None else (
                f"sysr: sysr.journal: its last line was cut off; {len(cut)} bytes were moved to sysr.journal.cut\n")
            wanted = 0, b"loaded %d changes\n" % whole.count(b"\n"), told
            check(f"mended: {given[:60]}", seen == wanted, seen)
            left = content(path), content(path + ".cut")
            check(f"mended, and left: {given[:60]}", left == (whole, cut), left)
            seen = mended(program, path, b"ann: CREATE TABLE u (x INTEGER)\n")
            moment = whole.count(b"\n")
            wanted = 0, b"loaded %d changes\ndone @%d\n" % (moment, moment + 1), ""
            check(f"mended, and gone on: {given[:60]}", seen == wanted, seen)


def mended_twice(program, check):
    """What is put by stands behind what was put by before; and what is no line is not taken away."""
    line = b"ann: CREATE TABLE t (x INTEGER)\n"
    with tempfile.TemporaryDirectory() as folder:
        path = os.path.join(folder, "sysr.journal")
        for cut in (b"ann: A", b"ann: B"):
            with open(path, "wb") as file:
                file.write(line + cut)
            mended(program, path)
        check("put by twice", content(path + ".cut") == b"ann: Aann: B", content(path + ".cut"))
        given = line + b"ann: " + 4124 * b"x"
        with open(path, "wb") as file:
            file.write(given)
        seen = mended(program, path)
        told = "sysr: sysr.journal: its last line has no line feed, and is too long for one\n"
        check("no line that was cut off", seen == (1, b"", told), seen)
        check("it stays", content(path) == given, len(content(path)))


@contextlib.contextmanager
def small_disk(size):
    """A folder on a disk of so many bytes, or None where none can be mounted."""
    with tempfile.TemporaryDirectory() as folder:
        words = ["mount", "-t", "tmpfs", "-o", f"size={size}", "none", folder]
        can_mount = os.geteuid() == 0 and shutil.which("mount") is not None
        if not can_mount or subprocess.run(words, capture_output=True, timeout=WAIT).returncode != 0:
            yield None
            return
        try:
            yield folder
        finally:
            subprocess.run(["umount", folder], check=True, timeout=WAIT)


def fill(path):
    """Writes to the file until the disk is full. It gives how many bytes were written."""
    with open(path, "ab", buffering=0) as file, contextlib.suppress(OSError):
        while file.write(1000 * b"x"):
            pass
    return os.path.getsize(path)


def mending_a_full_disk(program, check):
    """On a full disk a cut line is taken away, though there is no room to keep it, and the program goes on with the
    journal."""
    with small_disk(64 << 10) as folder:
        if folder is None:
            print("no disk could be mounted: a journal was not mended on a full one")
            return
        path, line, cut = os.path.join(folder, "sysr.journal"), b"ann: CREATE TABLE t (x TEXT)\n", b"ann: INSERT INTO"
        with open(path, "wb") as file:
            file.write(line + cut)
        filled = os.path.join(folder, "filled")
        check("a full disk", fill(filled) > 40_000, content(filled)[:10])
        seen = mended(program, path)
        told = f"sysr: sysr.journal: its last line was cut off; {len(cut)} bytes were taken away\n"
        check("mended on a full disk, and told", seen == (0, b"loaded 1 changes\n", told), seen)
        check("mended on a full disk", content(path) == line, content(path)[:100])
        seen = mended(program, path, b"ann: INSERT INTO t VALUES ('a')\n")
        check("it goes on", seen == (0, b"loaded 1 changes\ndone @2\n", ""), seen)


def content(path):
    if not os.path.exists(path):
        return None
    with open(path, "rb") as file:
        return file.read()


def container(program, check):
    """In a root with nothing but what the container gets, the program starts."""
    if shutil.which("ldd") is None or os.geteuid() != 0:
        print("no ldd, or not root: the root of the container was not tried")
        return
    with tempfile.TemporaryDirectory() as folder:
        made = os.path.join(folder, "context")
        subprocess.run([os.path.join(PACKAGING, "container-context"), made], check=True, timeout=WAIT)
        empty = content(os.path.join(made, "journal", "sysr.journal"))
        check("the container's journal", empty == b"", empty)
        done = subprocess.run(["chroot", os.path.join(made, "root"), "/sysr", "run"], input=b"ann: CHECKPOINTS\n",
            capture_output=True, timeout=WAIT)
        check("the container's root", (done.returncode, done.stdout) == (0, b"checkpoints 0 @0\n"), done)


def played(program, check):
    for name, words in (("the unit", words_of_unit()), ("the container", words_of_container())):
        in_time(name, check, lambda: goes_on(program, check, name, words))
    for test in (mending, mended_twice, mending_a_full_disk, container):
        in_time(test.__name__, check, lambda: test(program, check))

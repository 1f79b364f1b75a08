"""A server's own folder: what stands in it, what a start makes of it, and what is refused.

What a loss of power leaves of it is played by tests/crashing.py.
"""
import os
import subprocess
import time

from served import WAIT, Server, Session

CREATED = "CREATE TABLE t (x INTEGER)"


def piece(point):
    return f"journal-{point:010}"


def dump(point, resumes):
    return f"dump-{point:010}-{resumes:010}"


def line(number):
    return f"ann: INSERT INTO t VALUES ({number})\n"


class Folders:
    """Servers with folders of their own, one behind another."""

    def __init__(self, program, work):
        self.program, self.work, self.at = program, work, 0

    def fresh(self, **files):
        """A new folder with these files."""
        self.at += 1
        folder = os.path.join(self.work, f"own-{self.at}")
        if files:
            self.fill(folder, files)
        return folder

    @staticmethod
    def fill(folder, files):
        os.makedirs(folder, exist_ok=True)
        for name, text in files.items():
            with open(os.path.join(folder, name), "w") as file:
                file.write(text)

    def serving(self, folder, *words):
        server = Server(self.program, 1, more=["--data", folder, *words])
        return server, server.told_first()

    def asked(self, folder, lines, *words):
        """What it says first, and the first lines of the answers to these lines."""
        server, told = self.serving(folder, *words)
        ann = Session(server, "ann")
        said = [ann.ask(one) for one in lines]
        ann.end()
        return told[0], said, server.end()

    def refused(self, folder):
        """How a server ends that does not begin, and why."""
        words = [self.program, "serve", "--port", "1", "--data", folder]
        done = subprocess.run(words, capture_output=True, timeout=WAIT)
        return done.returncode, done.stderr.decode()

    def read(self, command, folder, *words):
        done = subprocess.run([self.program, command, "--data", folder, *words], capture_output=True, timeout=WAIT)
        return done.stdout.decode()


def names(folder):
    return sorted(name for name in os.listdir(folder) if name != "lock")


def goes_on(folders, check):
    folder = folders.fresh()
    first = folders.asked(folder, [CREATED, "INSERT INTO t VALUES (1)"])
    wanted = (b"loaded 0 changes, now at @0\n", ["done @1\n", "done @2\n"], (0, b"served 1\n", []))
    check("a new folder", first == wanted and names(folder) == [piece(0)], (first, names(folder)))
    second = folders.asked(folder, ["INSERT INTO t VALUES (2)", "SELECT * FROM t"])
    wanted = (b"loaded 2 changes, now at @2\n", ["done @3\n", "rows 2 @3\n"], (0, b"served 1\n", []))
    check("a folder that is gone on with", second == wanted, second)
    check("each server begins a piece", names(folder) == [piece(0), piece(2)], names(folder))


def checkpoints(folders, check):
    folder = folders.fresh()
    server, _ = folders.serving(folder, "--checkpoint-every", "3")
    ann = Session(server, "ann")
    said = [ann.ask(one) for one in (CREATED, "INSERT INTO t VALUES (1)", "DELETE FROM t", "INSERT INTO t VALUES (2)")]
    came = [name for name in (dump(4, 0), dump(3, 0)) if awaited_one(folder, name)]
    check("a checkpoint is written", said[-1] == "done @4\n" and len(came) == 1, (said, names(folder)))
    point = int(came[0].split("-")[1]) if came else 0
    check("a piece is begun behind it", awaited_piece(folder), names(folder))
    said = ann.ask("INSERT INTO t VALUES (3)")
    ann.end()
    server.end()
    with open(os.path.join(folder, came[0])) as file:
        text = file.read()
    kept = [f"ann: {CREATED}\n"] + ([line(2)] if point == 4 else [])
    check("the dump has what the changes left", text == "".join(kept), text)
    told, said, _ = folders.asked(folder, ["SELECT * FROM t"])
    count = len(kept) + (5 - point)
    wanted = f"loaded 5 changes, now at @{count}\n".encode(), [f"rows 2 @{count}\n"]
    check("a start loads it, and what came behind it", (told, said) == wanted, (told, said))


def awaited_one(folder, name):
    """Whether the folder has this dump once it has one."""
    late = time.monotonic() + WAIT
    while time.monotonic() < late and not any(one.startswith("dump-") for one in os.listdir(folder)):
        time.sleep(0.01)
    return name in os.listdir(folder)


def awaited_piece(folder):
    """Whether a second piece begins."""
    late = time.monotonic() + WAIT
    while time.monotonic() < late:
        if len([one for one in os.listdir(folder) if one.startswith("journal-")]) > 1:
            return True
        time.sleep(0.01)
    return False


def what_crashes_leave(folders, check):
    made = f"ann: {CREATED}\n"
    cases = [
        ("a cut last line", {piece(0): made + line(1) + "ann: INS"}, 2, "rows 1 @2\n"),
        ("an empty last piece", {piece(0): made + line(1), piece(2): ""}, 2, "rows 1 @2\n"),
        ("a piece that does not join", {piece(0): made + line(1), piece(3): line(2)}, 2, "rows 1 @2\n"),
        ("half a dump", {piece(0): made + line(1), "dump.new": made[:9]}, 2, "rows 1 @2\n"),
        ("a dump and the piece in which its point lies", {dump(3, 0): made, piece(0): made + line(1) + "ann: DELETE FROM t\n" + line(2)}, 4, "rows 1 @2\n"),
        ("a dump behind the first piece", {dump(3, 3): made, piece(3): line(7) + line(8)}, 5, "rows 2 @3\n"),
        ("an older dump", {dump(1, 0): made, dump(3, 3): made, piece(3): line(7)}, 4, "rows 1 @2\n"),
    ]
    for what, files, count, rows in cases:
        folder = folders.fresh(**files)
        told, said, ended = folders.asked(folder, ["DELETE FROM t WHERE x = 99", "SELECT * FROM t"])
        held, moment = (int(number) for number in rows.removeprefix("rows ").split(" @"))
        wanted = f"loaded {count} changes, now at @{moment}\n".encode(), [f"done @{moment + 1}\n", f"rows {held} @{moment + 1}\n"], (0, b"served 1\n", [])
        check(f"{what} is taken for what it is", (told, said, ended) == wanted, (told, said, ended))
        again, _, _ = folders.asked(folder, [])
        check(f"behind {what} the folder goes on", again == f"loaded {count + 1} changes, now at @{moment + 1}\n".encode(), again)


def refusals(folders, check):
    made = f"ann: {CREATED}\n"
    folder = folders.fresh(**{piece(0): made + "ann: no change\n"})
    seen = folders.refused(folder)
    check("a line that says no change", seen[0] == 1 and seen[1].startswith(f"sysr: {folder}/{piece(0)}: line 2: "), seen)
    folder = folders.fresh(**{dump(2, 2): made + "ann: INSERT"})
    seen = folders.refused(folder)
    check("a dump that was cut off", seen == (1, f"sysr: {folder}: its newest dump is not whole\n"), seen)
    folder = folders.fresh(**{dump(3, 1): made, piece(1): line(1)})
    seen = folders.refused(folder)
    check("lines that are missing behind a dump", seen == (1, f"sysr: {folder}: lines are missing behind its newest dump\n"), seen)
    folder = folders.fresh()
    server, _ = folders.serving(folder)
    seen = folders.refused(folder)
    check("two servers in one folder", seen == (1, f"sysr: {folder}: in use by another sysr\n"), seen)
    Session(server, "ann").end()
    server.end()
    done = subprocess.run([folders.program, "serve", "--port", "1", "--data", "x", "--journal", "y"], capture_output=True, timeout=WAIT)
    check("a folder and a journal", done.returncode == 2 and b"cannot be used with" in done.stderr, done.stderr)
    done = subprocess.run([folders.program, "serve", "--port", "1", "--keep-pieces", "2"], capture_output=True, timeout=WAIT)
    check("pieces without a folder", done.returncode == 2 and b"--data" in done.stderr, done.stderr)


def reading(folders, check):
    made, dropped = f"ann: {CREATED}\n", "ann: DELETE FROM t\n"
    granted = "ann: GRANT SELECT (x) ON t TO bob\n"
    folder = folders.fresh(**{piece(0): made + line(1) + "ann: IN", piece(2): dropped + granted})
    check("a folder as a journal", folders.read("journal", folder) == made + line(1) + dropped + granted, folders.read("journal", folder))
    check("a folder as a dump", folders.read("dump", folder) == made + granted, folders.read("dump", folder))
    said = folders.read("explain", folder, "rights")
    check("a folder explained", "t,bob,SELECT(x),no,4,ann\n" in said, said)
    folder = folders.fresh(**{dump(3, 2): made, piece(2): dropped + granted + line(5)})
    check("a folder without its first piece", folders.read("journal", folder) == made + granted + line(5), folders.read("journal", folder))
    done = subprocess.run([folders.program, "journal", "--data", folder + "-none"], capture_output=True, timeout=WAIT)
    seen = done.returncode, done.stderr.decode()
    check("a folder that is missing", seen == (1, f"sysr: {folder}-none: cannot be read\n"), seen)


def pieces_kept(folders, check):
    folder = folders.fresh(**{piece(0): f"ann: {CREATED}\n", piece(1): line(1), piece(2): line(2)})
    server, _ = folders.serving(folder, "--checkpoint-every", "4", "--keep-pieces", "1")
    ann = Session(server, "ann")
    ann.ask("INSERT INTO t VALUES (3)")
    late = time.monotonic() + WAIT
    while piece(0) in os.listdir(folder) and time.monotonic() < late:
        time.sleep(0.01)
    ann.end()
    server.end()
    left = names(folder)
    check("old pieces are removed", piece(0) not in left and piece(1) not in left and left[-1] == piece(4), left)


def played(program, check, work):
    folders = Folders(program, work)
    try:
        for part in (goes_on, checkpoints, what_crashes_leave, refusals, reading, pieces_kept):
            part(folders, check)
    finally:
        Server.stop_all()

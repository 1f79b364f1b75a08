"""The shell of the Python client on a terminal of its own."""
import contextlib
import fcntl
import os
import pty
import re
import select
import signal
import struct
import subprocess
import tempfile
import termios
import threading
import time

from clients_scripts import HELP_LINES, started
from clients_served import PAY, connected
import bavgusen
from bavgusen import Done, Fault
from bavgusen.shell import layout, words
from bavgusen.shell.interactive import ENDED
from clients_fakes import Fake, says
from served import WAIT, Server, free_port


class Terminal:
    """A shell on a terminal of its own."""

    def __init__(self, folder, *more):
        command, env = started(folder, *more)
        self.master, slave = pty.openpty()
        fcntl.ioctl(slave, termios.TIOCSWINSZ, struct.pack("HHHH", 50, 200, 0, 0))
        # (the terminal is the one that Ctrl-C interrupts)
        self.child = subprocess.Popen(command, env=env, stdin=slave, stdout=slave, stderr=slave, start_new_session=True,
            preexec_fn=lambda: fcntl.ioctl(0, termios.TIOCSCTTY, 0))
        os.close(slave)
        self.text = ""

    def until(self, mark, wait=WAIT):
        """What is written up to this mark."""
        late = time.monotonic() + wait
        while mark not in self.text and select.select([self.master], [], [], max(late - time.monotonic(), 0))[0]:
            try:
                piece = os.read(self.master, 4096)
            except OSError:
                break
            self.text += piece.decode(errors="replace").replace("\r", "")
        seen, found, self.text = self.text.partition(mark)
        return seen + found

    def ask(self, typed, mark="ann=> "):
        """The lines that are written for what is typed, up to the mark, without the line of the typing itself."""
        os.write(self.master, typed.encode())
        return self.until(mark).split("\n")[1:-1]

    def interrupt(self, mark):
        """Types Ctrl-C until this mark is written, and gives the lines before it.

        (A signal that comes just before Python begins to wait for more is seen behind that alone.)
        """
        for _ in range(20):
            time.sleep(0.2)
            os.write(self.master, b"\x03")
            self.text = self.until(mark, 1) + self.text
            if mark in self.text:
                break
        return self.until(mark).split("\n")

    def end(self):
        """The status."""
        with contextlib.suppress(subprocess.TimeoutExpired):
            return self.child.wait(WAIT)
        self.child.kill()
        return self.child.wait(WAIT)

    def close(self):
        self.end()
        os.close(self.master)


CHECKPOINTS = ["state | number | point | left", "------+--------+-------+-----", "(0 checkpoints) @3"]
TYPED = (
    ("INSERT INTO pay VALUES ('Bo, jr', -5); insert into pay values ('é€', 1000);\r", ["done @2", "done @3"]),
    ("SELECT * FROM pay;\r",
        ["name   | wage", "-------+-----", "Bo, jr |   -5", "é€     | 1000", "(2 rows) @3"]),
    ("SELECT wage FROM pay WHERE wage = 7;\r", ["wage", "----", "(0 rows) @3"]),
    ("SELECT * FORM pay;\r", ["error 4 at 9: not expected", "SELECT * FORM pay;", "         ^"]),
    ("INSERT INTO pay VALUES ('é€', 12a);\r",
        ["error 5 at 33: bad number", "INSERT INTO pay VALUES ('é€', 12a);", 30 * " " + "^"]),
    ("INSERT INTO pay VALUES ('abc\r",
        ["error 6 at 24: open text", "INSERT INTO pay VALUES ('abc", 24 * " " + "^"]),
    ("INSERT INTO pay VALUES ('a;b', 1, 2);\r", ["refused @3: 3 values for 2 columns"]),
    ("\\d\r", ["table | owner | columns", "------+-------+------------------------",
        "pay   | ann   | name TEXT, wage INTEGER", "(1 table, seen in the session; the server lists none)"]),
    ("\\nothing\r", ["no command \\nothing: \\? lists them"]),
    ("\\why bob SELECT pay\r", ["this is told from the server's journal: begin the shell with --journal FILE"]),
    ("CHECKPOINTS; \\timing\r", [*CHECKPOINTS, "timing is on"]),
)


def on_a_terminal(program, check):
    """Statements over several lines, tables, carets, Ctrl-C, completion and history."""
    server = Server(program, 2)
    with tempfile.TemporaryDirectory() as folder, contextlib.closing(
            Terminal(folder, "--port", str(server.port), "--user", "ann")) as shell:
        shell.until("ann=> ")
        seen = shell.ask("create table pay (name text,\r", "ann-> ") + shell.ask("wage integer);\r")
        check("over several lines", seen == ["done @1"], seen)
        for typed, wanted in TYPED:
            seen = shell.ask(typed)
            check(f"typed: {typed}", seen == wanted, seen)
        shell.ask("SELECT *\r", "ann-> ")
        seen = shell.ask("FORM pay;\r")
        check("a caret in the second line", seen[:-1] == ["error 4 at 9: not expected", "FORM pay;", "^"], seen)
        check("timing", re.fullmatch(r"Time: \d+\.\d{3} ms", seen[-1]) is not None, seen)
        shell.ask("\\timing\r")
        os.write(shell.master, b"CHECKPOINTS \xff;\r")
        seen = shell.until("ann=> ").split("\n")[1:-1]
        check("no UTF-8 is typed", seen == ["a statement with a lone surrogate, at 12, cannot be sent"], seen)
        shell.ask("SELECT * FROM\r", "ann-> ")
        seen = shell.ask("\\conninfo\r", "ann-> ")
        wanted = [f"a session of ann with the server at 127.0.0.1, port {server.port}"]
        check("a command within a statement", seen == wanted, seen)
        os.write(shell.master, b"nothing")
        shell.interrupt("ann=> ")
        seen = shell.ask("CHECKPOINTS;\r", "(0 checkpoints) @3\nann=> ")[-3:]
        check("Ctrl-C drops what was typed", seen == CHECKPOINTS, seen)
        completed(shell, check)
        os.write(shell.master, b"\x04")
        check("Ctrl-D ends", shell.end() == 0, shell.until("\0"))
        remembered(folder, check)


def remembered(folder, check):
    """What was typed is kept, for its user alone."""
    if has_readline():
        history = os.path.join(folder, ".sysr_history")
        with open(history, encoding="utf-8", errors="replace") as file:
            check("history", "SELECT * FORM pay;\n" in [*file], history)
        check("history is the user's alone", os.stat(history).st_mode & 0o077 == 0, oct(os.stat(history).st_mode))


def has_readline():
    with contextlib.suppress(ImportError):
        import readline
        return readline is not None
    return False


def completed(shell, check):
    """A word is completed by a tab: as a keyword, a table or a column."""
    if not has_readline():
        print("no readline: no words were completed")
        return
    seen = shell.ask("SELE\t na\t FROM p\t WHERE wage = -5;\r")
    check("completed", seen == ["name", "------", "Bo, jr", "(1 row) @3"], seen)
    seen = shell.ask("\\ti\t\r") + shell.ask("\\ti\t\r")
    check("a command completed", seen == ["timing is on", "timing is off"], seen)


def as_another(program, check):
    """Who goes on as another user has a session of his, also with a server of one worker; and the words of psql."""
    server = Server(program, 4, workers=1)
    with tempfile.TemporaryDirectory() as folder, contextlib.closing(
            Terminal(folder, "-p", str(server.port), "-U", "ann")) as shell:
        shell.until("ann=> ")
        shell.ask("CREATE TABLE t (n INTEGER, x TEXT); INSERT INTO t VALUES (5, 'a'); GRANT SELECT ON t TO bob;\r")
        seen = shell.ask("\\c bob\r", "bob=> ")
        told = f"a session of bob with the server at 127.0.0.1, port {server.port}"
        check("another user", seen == [told], seen)
        seen = shell.ask("SELECT * FROM t; DELETE FROM t;\r", "bob=> ")
        wanted = ["n | x", "--+--", "5 | a", "(1 row) @3", "denied @3: bob lacks DELETE on t"]
        check("what he may", seen == wanted, seen)
        with open(os.path.join(folder, "more.sql"), "w", encoding="utf-8") as file:
            file.write("SELECT n FROM t;\n\nSELECT *\nFORM t;\n\\q\nSELECT n FROM t;\n")
        seen = shell.ask(f"\\i {folder}/more.sql\r", "bob=> ")
        told = f"sysr-shell: {folder}/more.sql:4: error 4 at 9: not expected"
        check("a file", seen == ["n", "-", "5", "(1 row) @3", told, "FORM t;", "^"], seen)
        seen = shell.ask("help\r", "bob=> ")
        check("help", len(seen) == HELP_LINES and seen[-1].startswith("  \\q "), seen)
        seen = shell.ask("\\h delete\r", "bob=> ")
        check("\\h", seen[0] == "delete     = DELETE FROM name [ filter ]" and len(seen) == 5, seen)
        os.write(shell.master, b"quit;\r")
        check("quit ends", shell.end() == 0, shell.text)


def interrupted(program, check):
    """Ctrl-C while an answer is awaited ends the session; so does a server that goes. The shell goes on."""
    over = threading.Event()
    fake = Fake(lambda client, lines: (lines.readline(), over.wait(WAIT)))
    with tempfile.TemporaryDirectory() as folder, contextlib.closing(
            Terminal(folder, "--port", str(fake.port), "--user", "ann")) as shell:
        shell.until("ann=> ")
        os.write(shell.master, b"CHECKPOINTS;\r")
        shell.until("\n")
        seen = shell.interrupt(f"interrupted\n{ENDED}\nann=> ")
        check("interrupted", seen[-3:-1] == ["interrupted", ENDED], seen)
        over.set()
        fake.join(WAIT)
        seen = shell.ask("CHECKPOINTS;\r")
        check("begun anew", seen == [f"no connection to 127.0.0.1:{fake.port}: Connection refused"], seen)
        os.write(shell.master, b"\\q\r")
        check("\\q ends", shell.end() == 0, shell.text)


def left(program, check):
    """A server that ends the session is told of, and the shell goes on; so is one that ends it while a file is read."""
    with tempfile.TemporaryDirectory() as folder:
        with open(os.path.join(folder, "more.sql"), "w", encoding="utf-8") as file:
            file.write("CHECKPOINT;\nCHECKPOINT;\n")
        for typed in ("CHECKPOINT; CHECKPOINT; CHECKPOINT;\r", f"\\i {folder}/more.sql\r"):
            fake = Fake(says(b"checkpoint 1 begun @0\n"))
            with contextlib.closing(Terminal(folder, "-p", str(fake.port), "-U", "ann")) as shell:
                shell.until("ann=> ")
                seen = shell.ask(typed)
                told = "the server ended the session where a line was to come"
                wanted = ["checkpoint 1 begun @0", f"sysr-shell: {told}" if "\\i" in typed else told, ENDED]
                check(f"left by the server: {typed}", seen == wanted, seen)
                os.write(shell.master, b"\\q\r")
                check("left by the server: \\q", shell.end() == 0, shell.text)


def waiting(program, check):
    """Where the server takes long to welcome its user, the shell says that it waits, and goes on then."""
    server = Server(program, 2, workers=1)
    with connected(server, "bob") as bob:
        bob.execute(PAY, check=True)
    server.child.send_signal(signal.SIGSTOP)
    with tempfile.TemporaryDirectory() as folder, contextlib.closing(
            Terminal(folder, "-p", str(server.port), "-U", "ann")) as shell:
        seen = shell.until("Ctrl-C gives up\n")
        server.child.send_signal(signal.SIGCONT)
        check("waiting", seen.startswith("sysr-shell: waiting for the server"), seen)
        shell.until("ann=> ")
        seen = shell.ask("SELECT name FROM pay;\r")
        check("begun later", seen == ["denied @1: ann lacks SELECT(name) on pay"], seen)
        os.write(shell.master, b"\x04")
        check("begun later: the end", shell.end() == 0, shell.text)


def nobody_listens(program, check):
    with tempfile.TemporaryDirectory() as folder, contextlib.closing(
            Terminal(folder, "--port", str(free_port()), "--user", "ann")) as shell:
        seen = shell.until("Connection refused\n")
        check("nobody listens to a terminal", seen.startswith("no connection") and shell.end() == 2, seen)


def layouts(program, check):
    """Widths, carets, ends of statements, and what a word may go on to be."""
    seen = [*layout.aligned(("名", "n"), [("日本", 5), ("e\u0301", -17)], (str, int))]
    check("wide letters", seen == ["名   |   n", "-----+----", "日本 |   5", "e\u0301    | -17"], seen)
    fault = Fault(4, len("SELECT '日é'\n\tx ".encode()), "not expected", "SELECT '日é' \tx y")
    seen = layout.pointed("SELECT '日é'\n\tx y", fault.position)
    check("a caret behind a tab", seen == ("\tx y", "\t  ^"), seen)
    check("a caret behind wide letters", layout.pointed("'日é' x", 5) == ("'日é' x", "      ^"), "other")
    typed = words.Statements()
    seen = [[tuple(each) for each in typed.add(line)] for line in (
        "", "SELECT *", "-- no; line", " FROM t; DELETE FROM t;", "INSERT ';", "a; b;c ", "\\d", "'it''s;';; ;",
        "e; \\q;", "f\\")]
    wanted = [[], [], [], [("SELECT *\n\n FROM t;", 2), ("DELETE FROM t;", 4)], [("INSERT ';", 5)],
        [("a;", 6), ("b;", 6)], [("\\d", 7)], [("c \n'it''s;';", 6)], [("e;", 9), ("\\q;", 9)], []]
    check("ends of statements", seen == wanted and typed.is_open, seen)
    seen = [[tuple(each) for each in typed.rest()], typed.is_open, typed.rest()]
    check("the rest of a script", seen == [[("f\\", 10)], False, []], seen)
    known, noted = bavgusen.Tables(), words.Seen()
    known.learn(PAY)
    for statement, reply in (("GRANT SELECT ON pets TO bob", Done(2)), ("SELECT age FROM people", Done(2)),
            ("UPDATE piles SET x = 1", Done(2)), ("SELECT * FROM pens", Fault(4, 0, "not expected"))):
        noted.note(statement, reply)
    noted.note_exported("table,papers,weight")
    for word, before, wanted in (("p", "SELECT * FROM ", ["papers", "pay", "people", "pets", "piles"]),
            ("wa", "SELECT ", ["wage"]), ("we", "SELECT ", ["weight"]), ("wi", "", ["with"]), ("WI", "", ["WITH"]),
            ("", "INSERT into ", ["papers", "pay", "people", "pets", "piles"]), ("\\e", "", ["\\export"]),
            ("pa", "\\d ", ["papers", "pay"]),
            ("a", "", ["age", "and"])):
        seen = words.candidates(word, before, ["\\d", "\\export"], known, noted)
        check(f"a word: {before}{word}", seen == wanted, seen)


TESTS = (on_a_terminal, as_another, interrupted, left, waiting, nobody_listens, layouts)

"""How long a session holds up all others by a statement on 900,000 rows, by kind. See longest.sh.

Another session INSERTs one row after another meanwhile; its longest wait is at least the turn that the statement takes.
Other work of the machine only makes it longer, so of some rounds the shortest is told.
"""
import os
import subprocess
import sys
import tempfile

from pauses import MOST, Session, free_port, longest, row
from scripts import making

ROUNDS = 5
COUNT = 32

ONE = f"amount = {MOST // 2}"
MET = [f"name < 'row {MOST + n}'" for n in range(COUNT - 1)]
EACH = " AND ".join([*MET, "name < ''"])

LOOK_UP = f"SELECT name FROM t WHERE {ONE}"
INDEXED = making(MOST) * [LOOK_UP]

# Of each kind the statements before, and those that are measured.
KINDS = {
    "INSERT of a row": ([], "INSERT INTO t VALUES ('row', 0)"),
    "SELECT of 5 rows by a range of numbers": ([], f"SELECT name FROM t WHERE amount >= {MOST - 5} AND amount < {MOST}"),
    "SELECT of 5 rows by a range of texts": ([], f"SELECT name FROM t WHERE name >= 'row {MOST - 5}'"),
    f"SELECT of no row by {COUNT} conditions on texts": ([], f"SELECT name FROM t WHERE {EACH}"),
    "SELECT of a row by =, the first": ([], LOOK_UP),
    "SELECT of a row by =, the second: it begins an index": ([LOOK_UP], LOOK_UP),
    "SELECT of a row by =, each of those that make it": ([LOOK_UP], *(making(MOST) - 1) * [LOOK_UP]),
    "SELECT of a row by =, later": (INDEXED, LOOK_UP),
    "SELECT of all rows": ([], "SELECT * FROM t"),
    "SELECT of all rows, one of two columns": ([], "SELECT name FROM t"),
    "UPDATE of a row by an index": (INDEXED, f"UPDATE t SET name = 'new' WHERE {ONE}"),
    "UPDATE of all rows": ([], "UPDATE t SET amount = 7"),
    "DELETE of a row by an index": (INDEXED, f"DELETE FROM t WHERE {ONE}"),
    "DELETE of all rows": ([], "DELETE FROM t"),
    "CHECKPOINT": ([], "CHECKPOINT"),
    "EXPORT": (["CHECKPOINT"], "EXPORT 1"),
}


class Reader(Session):
    """A session that reads whole replies."""

    def whole(self, statement):
        head = self.ask(statement)
        words = head.split()
        if words[0] == b"export":
            while not self.reader.readline().startswith(b"end"):
                pass
        for _ in range(int(words[1]) if words[0] in (b"rows", b"checkpoints") else 0):
            self.reader.readline()
        if words[0] in (b"denied", b"refused", b"error"):
            raise SystemExit(f"{statement}: {head!r}")
        return head

    def settle(self):
        """Waits until no checkpoint is active."""
        while b"active" in b"".join(self.listed()):
            pass

    def listed(self):
        head = self.ask("CHECKPOINTS")
        return [self.reader.readline() for _ in range(int(head.split()[1]))]


def measured(program, filled, before, statements):
    """The longest wait of another session while a new server carries the statements out, in milliseconds."""
    port = free_port()
    words = ["--port", str(port), "--workers", "2", "--sessions", "2", "--load", filled]
    child = subprocess.Popen([program, "serve", *words], stdout=subprocess.PIPE)
    try:
        while not child.stdout.readline().startswith(b"listening"):
            pass
        ann, eve = Reader(port, "ann"), Session(port, "eve")
        eve.ask("CREATE TABLE s (x INTEGER)")
        for line in before:
            ann.whole(line)
        ann.settle()
        return longest(eve, lambda: [ann.whole(line) for line in statements])
    finally:
        child.kill()
        child.wait()


def main(program):
    with tempfile.TemporaryDirectory() as work:
        filled = os.path.join(work, "filled")
        with open(filled, "w", encoding="utf-8") as script:
            script.write("ann: CREATE TABLE t (name TEXT, amount INTEGER)\n")
            script.writelines(f"ann: {row(n)}\n" for n in range(MOST))
        for name, (before, *statements) in KINDS.items():
            found = [measured(program, filled, before, statements) for _ in range(ROUNDS)]
            print(f"{name + ':':<55}{min(found):>10.2f} ms", flush=True)


if __name__ == "__main__":
    main(sys.argv[1])

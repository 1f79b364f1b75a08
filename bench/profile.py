"""Counts the instructions that the built program takes for a statement or a row, by valgrind's callgrind.

A count repeats for the same program and input, whatever else the machine does. What a script takes before its
statements come, as the start of the program and the filling of its table, is counted by itself and left out.
"""
import os
import re
import subprocess
import sys
import tempfile

LINES = 20_000
ROWS = 2_000
TIMES = 20
COLUMNS = 32


def by(user, statements):
    return [f"{user}: {statement}" for statement in statements]


def filled(rows):
    """A table of so many rows (TEXT of 10 bytes, INTEGER)."""
    table = ["CREATE TABLE t (a TEXT, b INTEGER)"]
    return by("ann", table + [f"INSERT INTO t VALUES ('{n:010}', {n})" for n in range(rows)])


def shared(rows, privilege):
    """The same, of which bob has a privilege, and a finished checkpoint: each line takes 16 records."""
    grant = [f"GRANT {privilege} ON t TO bob", "CHECKPOINT"]
    return filled(rows) + by("ann", grant + ["CHECKPOINTS"] * (rows // 16 + 1))


def wide():
    """A table of one row and 32 columns, which bob may select."""
    table = [f"CREATE TABLE t ({', '.join(f'c{n} INTEGER' for n in range(COLUMNS))})"]
    row = [f"INSERT INTO t VALUES ({', '.join('0' for _ in range(COLUMNS))})", "GRANT SELECT ON t TO bob"]
    return by("ann", table + row)


def kinds():
    """Of each kind its name, the statements before, those that are counted, and by how many a count is divided."""
    before, one = filled(ROWS), "SELECT a FROM t WHERE b = 1000"
    yield "SELECT from no row, a statement", filled(0), by("ann", ["SELECT a FROM t WHERE b < 0"] * TIMES), TIMES
    for name, statement, parts in (
        ("SELECT of one row by an index, a statement", one, 1),
        ("SELECT of 5 rows by numbers, a row of all", "SELECT a FROM t WHERE b >= 1000 AND b < 1005", ROWS),
        ("SELECT of 5 rows by texts, a row of all", "SELECT a FROM t WHERE a >= '0000001995'", ROWS),
        ("SELECT of all rows, a row", "SELECT * FROM t", ROWS),
        ("UPDATE of one row by an index, a statement", "UPDATE t SET b = 1000 WHERE b = 1000", 1),
        ("UPDATE of all rows to a number, a row", "UPDATE t SET b = 7", ROWS),
        ("UPDATE of all rows to a text, a row", "UPDATE t SET a = 'another'", ROWS),
    ):
        yield name, before, by("ann", [statement] * TIMES), TIMES * parts
    yield "DELETE of all rows, a row", before, by("ann", ["DELETE FROM t"]), ROWS
    yield "EXPORT by the owner, a row", shared(ROWS, "SELECT"), by("ann", ["EXPORT 1"] * TIMES), TIMES * ROWS
    yield "EXPORT by a grantee, a row", shared(ROWS, "SELECT"), by("bob", ["EXPORT 1"] * TIMES), TIMES * ROWS
    yield "EXPORT cut to a column, a row", shared(ROWS, "SELECT (a)"), by("bob", ["EXPORT 1"] * TIMES), TIMES * ROWS
    yield "SELECT by a grantee, of one row by an index", shared(ROWS, "SELECT"), by("bob", [one] * TIMES), TIMES
    for user in ("ann", "bob"):
        for listed in ("c31", "*"):
            yield f"{user}: SELECT {listed} of 32 columns", wide(), by(user, [f"SELECT {listed} FROM t"] * TIMES), TIMES


def instructions(program, statements, work, words=("run",), is_given=True):
    """The instructions of one run over these statements, which are given, or else loaded from a file."""
    script = os.path.join(work, "script")
    with open(script, "w") as lines:
        lines.writelines(f"{statement}\n" for statement in statements)
    words = ["valgrind", "--tool=callgrind", f"--callgrind-out-file={os.path.join(work, 'counts')}", program, *words]
    words += [] if is_given else ["--load", script]
    with open(script if is_given else os.devnull, "rb") as given:
        ran = subprocess.run(words, stdin=given, stdout=subprocess.DEVNULL, stderr=subprocess.PIPE, text=True)
    counted = re.search(r"Collected : (\d+)", ran.stderr)
    if ran.returncode != 0 or counted is None:
        sys.exit(f"profile: {ran.stderr}")
    return int(counted.group(1))


def told(name, count):
    print(f"{name + ':':<45}{count:>12,.0f} instructions")


def inserts(program, work):
    """An INSERT that is answered; the same with a journal; its line alone; loaded; and dumped."""
    for name, more in (
        ("INSERT, a statement", {}),
        ("INSERT with a journal, a statement", {"words": ("run", "--journal", os.devnull)}),
        ("INSERT, its line of a journal alone", {"words": ("journal",)}),
        ("INSERT loaded, a statement", {"is_given": False}),
        ("INSERT, and its line of a dump", {"words": ("dump",)}),
    ):
        base, whole = (instructions(program, filled(rows), work, **more) for rows in (0, LINES))
        told(name, (whole - base) / LINES)


def main():
    with tempfile.TemporaryDirectory() as work:
        inserts(sys.argv[1], work)
        for name, before, counted, parts in kinds():
            base = instructions(sys.argv[1], before, work)
            whole = instructions(sys.argv[1], before + counted, work)
            told(name, (whole - base) / parts)


main()

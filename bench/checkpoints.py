"""Checkpoints and exports of the built program, beside sqlite3 and PostgreSQL where they are installed.

For a table (TEXT of 10 bytes, INTEGER) of 1,000, 10,000 and 100,000 rows it prints how long a CHECKPOINT and
all of its steps take, and how many rows a second come of SELECT and EXPORT, and of an EXPORT that is cut to the first
column; of `sqlite3 -csv :memory:` those of SELECT, and of PostgreSQL those of COPY TO. A time is the best of three
runs; rows a second are those of twenty statements, from the time with them less the time without.
"""
import os
import shutil
import subprocess
import sys
import tempfile
import time

from postgres import running

SIZES = (1_000, 10_000, 100_000)
REPEATED = 20
CHUNK = 64


def inserts(rows):
    yield "CREATE TABLE t (name TEXT, amount INTEGER)"
    for n in range(rows):
        yield f"INSERT INTO t VALUES ('row {n:06}', {n})"


def lines(statements):
    return "".join(f"ann: {statement}\n" for statement in statements)


def steps(rows):
    """Lines after which a checkpoint of so many rows is finished: each is followed by a step."""
    return "\n" * (rows // CHUNK + 1)


def best(words, text, out):
    """The time of a run on this input, in seconds, the best of three."""
    times = []
    for _ in range(3):
        with tempfile.TemporaryFile() as given, open(out, "wb") as sink:
            given.write(text.encode())
            given.seek(0)
            start = time.monotonic()
            subprocess.run(words, stdin=given, stdout=sink, check=True)
            times.append(time.monotonic() - start)
    return min(times)


def rate(words, before, statement, rows, out):
    """Rows a second of a statement that gives all of them."""
    took = best(words, before + statement * REPEATED, out) - best(words, before, out)
    return rows * REPEATED / took


def checkpoint(program, rows):
    """The time of a CHECKPOINT, and of all lines with a step, in milliseconds."""
    words = [program, "run", "--chunk", str(CHUNK)]
    server = subprocess.Popen(words, stdin=subprocess.PIPE, stdout=subprocess.PIPE)

    def ask(text, answers):
        start = time.monotonic()
        server.stdin.write(text.encode())
        server.stdin.flush()
        for _ in range(answers):
            server.stdout.readline()
        return 1000 * (time.monotonic() - start)

    for statement in inserts(rows):
        ask(f"ann: {statement}\n", 1)
    begun = ask("ann: CHECKPOINT\n", 1)
    text = steps(rows)
    stepped = ask(text, len(text))
    idle = ask(text, len(text))
    server.stdin.close()
    server.wait()
    return begun, max(stepped - idle, 0)


def ours(program, rows, out):
    words = [program, "run", "--chunk", str(CHUNK)]
    filled = lines(inserts(rows))
    kept = filled + "ann: GRANT SELECT (name) ON t TO bob\nann: CHECKPOINT\n" + steps(rows + 1)
    begun, stepped = min(checkpoint(program, rows) for _ in range(3))
    selected = rate(words, filled, "ann: SELECT * FROM t\n", rows, out)
    exported = rate(words, kept, "ann: EXPORT 1\n", rows, out)
    cut = rate(words, kept, "bob: EXPORT 1\n", rows, out)
    print(f"{rows:>7} rows: CHECKPOINT {begun:8.2f} ms, its steps {stepped:6.2f} ms")
    print(f"  sysr:       SELECT {selected:>12,.0f} rows/s, EXPORT {exported:>12,.0f} rows/s, cut {cut:>12,.0f}")


def sqlite(rows, out):
    program = shutil.which("sqlite3")
    if program is None:
        print("  sqlite3:    not installed")
        return
    filled = "".join(f"{statement};\n" for statement in inserts(rows))
    selected = rate([program, "-csv", ":memory:"], filled, "SELECT * FROM t;\n", rows, out)
    print(f"  sqlite3:    SELECT {selected:>12,.0f} rows/s")


def postgres(rows, out, work):
    with running(work) as server:
        if server is None:
            print("  PostgreSQL: not installed")
            return
        user, folder = server
        words = [*user, f"{folder}/psql", "-q", "-h", work, "postgres"]
        fill = f"INSERT INTO t SELECT 'row ' || lpad(n::text, 6, '0'), n FROM generate_series(0, {rows - 1}) n;\n"
        filled = "SET client_min_messages = warning;\nDROP TABLE IF EXISTS t;\nCREATE TABLE t (name TEXT, amount BIGINT);\n" + fill
        copied = rate(words, filled, "COPY t TO STDOUT (FORMAT csv);\n", rows, out)
        print(f"  PostgreSQL: COPY   {copied:>12,.0f} rows/s")


def main():
    with tempfile.TemporaryDirectory() as work:
        out = os.path.join(work, "out")
        for rows in SIZES:
            ours(sys.argv[1], rows, out)
            sqlite(rows, out)
            with tempfile.TemporaryDirectory(dir=work) as folder:
                os.chmod(work, 0o755)
                postgres(rows, out, folder)


main()

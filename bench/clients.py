"""What one client makes the others wait for, and what it takes of a server's memory. See clients.sh.

Over TCP it prints how long an EXPORT takes beside a million grants, by users with and without rights, and how long
another session then waits at most; the same of tables of 32 columns, by users who may select none, one or all of
them; how much memory a server has when clients ask for rows and don't read; how soon the first record of a large
EXPORT comes; and how long another session waits at most while a large image is freed.
"""
import contextlib
import subprocess
import sys
import threading
import time

from pauses import Session, free_port, row

TABLES, GRANTEES, COLUMNS = 1_024, 1_000, 32
READERS, WIDE_ROWS, WIDTH = 14, 50_000, 1_000
ROWS = 900_000
ROUNDS = 5
PIECE = 500


@contextlib.contextmanager
def served(program, workers):
    port = free_port()
    words = [program, "serve", "--port", str(port), "--workers", str(workers), "--chunk", "64"]
    child = subprocess.Popen(words, stdout=subprocess.PIPE)
    child.stdout.readline()
    try:
        yield child, port
    finally:
        child.kill()
        child.wait()


def say(session, lines):
    """Says many lines, each of which has one line of answer, and gives the last answer."""
    last = b""
    for start in range(0, len(lines), PIECE):
        session.send(lines[start:start + PIECE])
        for _ in lines[start:start + PIECE]:
            last = session.reader.readline()
    return last


def listed(session):
    head = session.ask("CHECKPOINTS")
    return [session.reader.readline() for _ in range(int(head.split()[1]))]


def checkpoint(session):
    session.ask("CHECKPOINT")
    while any(line.startswith(b"active") for line in listed(session)):
        time.sleep(0.01)


class Waits(threading.Thread):
    """The longest wait of a session that asks for nothing dear, in milliseconds."""

    def __init__(self, port):
        super().__init__()
        self.session, self.over, self.longest = Session(port, "bob"), False, 0
        self.start()

    def run(self):
        while not self.over:
            start = time.perf_counter()
            self.session.ask("SELECT x FROM nothing")
            self.longest = max(self.longest, 1e3 * (time.perf_counter() - start))
            time.sleep(0.0005)

    def during(self, work):
        time.sleep(0.2)
        self.longest = 0
        work()
        time.sleep(0.05)
        return self.longest

    def end(self):
        self.over = True
        self.join()


def export(session, line):
    """Milliseconds until the first line of an EXPORT, and until its last."""
    start = time.perf_counter()
    answer = session.ask(line)
    first = 1e3 * (time.perf_counter() - start)
    while answer.startswith((b"export", b"table", b"row", b"withheld")):
        answer = session.reader.readline()
    return first, 1e3 * (time.perf_counter() - start)


def timed(others, port, user, line):
    """Says how long an EXPORT takes, the median of some rounds, and another session waits meanwhile."""
    session, took = Session(port, user), []
    waited = others.during(lambda: took.extend(export(session, line) for _ in range(ROUNDS)))
    first, last = sorted(took)[ROUNDS // 2]
    print(f"{user}: {line}: first line {first:.1f} ms, last {last:.1f} ms, another waits at most {waited:.1f} ms")
    session.client.close()


def exports(program):
    with served(program, 4) as (_, port):
        ann = Session(port, "ann")
        for table in range(TABLES):
            users = [f"u{n}" for n in range(GRANTEES)]
            grants = [f"GRANT SELECT ON t{table} TO {', '.join(users[n:n + 16])}" for n in range(0, GRANTEES, 16)]
            say(ann, [f"CREATE TABLE t{table} (x INTEGER)", *grants])
        checkpoint(ann)
        others = Waits(port)
        print(f"{TABLES:,} tables of {GRANTEES:,} grants: another session waits at most "
            f"{others.during(lambda: time.sleep(2)):.1f} ms")
        for user, line in (("eve", "EXPORT 1"), ("u5", "EXPORT 1"), ("eve", "EXPORT 1 ONLY t5"), ("u5", "EXPORT 1 ONLY t5")):
            timed(others, port, user, line)
        others.end()


def wide_exports(program):
    """A right is looked up for each column of each table."""
    names = ", ".join(f"c{n} INTEGER" for n in range(COLUMNS))
    with served(program, 4) as (_, port):
        ann = Session(port, "ann")
        for table in range(TABLES):
            grants = [f"GRANT SELECT (c{COLUMNS - 1}) ON t{table} TO one", f"GRANT SELECT ON t{table} TO each"]
            say(ann, [f"CREATE TABLE t{table} ({names})", *grants])
        checkpoint(ann)
        others = Waits(port)
        print(f"{TABLES:,} tables of {COLUMNS} columns:")
        for user in ("eve", "one", "each", "ann"):
            timed(others, port, user, "EXPORT 1")
        others.end()


def wide_exports_of_one(program):
    """EXPORT with ONLY asks the image for all columns of its table, in the turn, beside a million grants."""
    names = ", ".join(f"c{n} INTEGER" for n in range(COLUMNS))
    with served(program, 4) as (_, port):
        ann = Session(port, "ann")
        for table in range(TABLES):
            users = [f"u{n}" for n in range(GRANTEES)]
            grants = [f"GRANT SELECT (c{COLUMNS - 1}) ON t{table} TO {', '.join(users[n:n + 16])}"
                for n in range(0, GRANTEES, 16)]
            say(ann, [f"CREATE TABLE t{table} ({names})", *grants])
        checkpoint(ann)
        others = Waits(port)
        print(f"{TABLES:,} tables of {COLUMNS} columns, {GRANTEES:,} grants of the last on each:")
        for user in ("eve", "u5", "ann"):
            timed(others, port, user, "EXPORT 1 ONLY t5")
        others.end()


def memory(child):
    with open(f"/proc/{child.pid}/status") as status:
        return next(int(line.split()[1]) / 1024 for line in status if line.startswith("VmRSS:"))


def unread(program):
    with served(program, 16) as (child, port):
        ann = Session(port, "ann")
        ann.ask("CREATE TABLE t (x TEXT)")
        say(ann, [f"INSERT INTO t VALUES ('{WIDTH * 'x'}')"] * WIDE_ROWS)
        before, readers = memory(child), [Session(port, "ann") for _ in range(READERS)]
        for reader in readers:
            reader.send(["SELECT * FROM t"])
        time.sleep(3)
        print(f"{READERS} clients that do not read {WIDE_ROWS:,} rows of {WIDTH:,} bytes: "
            f"{before:.0f} MB before, {memory(child):.0f} MB then")


def large_images(program):
    with served(program, 4) as (_, port):
        ann = Session(port, "ann")
        ann.ask("CREATE TABLE t (name TEXT, amount INTEGER)")
        say(ann, [row(n) for n in range(ROWS)])
        checkpoint(ann)
        first = sorted(export(ann, "EXPORT 1") for _ in range(ROUNDS))[ROUNDS // 2][0]
        print(f"EXPORT of {ROWS:,} rows: first line {first:.2f} ms")
        ann.ask("DELETE FROM t")
        others = Waits(port)
        alone = others.during(lambda: time.sleep(2))
        # (the eighth checkpoint behind it pushes the first out, whose rows nobody else has)
        waited = others.during(lambda: [checkpoint(ann) for _ in range(8)])
        print(f"while an image of {ROWS:,} rows is freed another waits at most {waited:.1f} ms, and else {alone:.1f} ms")
        others.end()


def main():
    exports(sys.argv[1])
    wide_exports(sys.argv[1])
    wide_exports_of_one(sys.argv[1])
    unread(sys.argv[1])
    large_images(sys.argv[1])


if __name__ == "__main__":
    main()

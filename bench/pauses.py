"""What a checkpoint costs those who go on meanwhile. See checkpoints.sh.

Of a table (TEXT of 10 bytes, INTEGER) it prints how long a CHECKPOINT line takes by rows and by grants; the longest
wait of another session over TCP while a checkpoint of 900,000 rows begins, runs and ends, and as long without one;
INSERT lines a second during a checkpoint and without; and the memory that a checkpoint holds when it has ended. Where
Redis is installed, it prints the time of its fork with as many keys.
"""
import re
import shutil
import socket
import statistics
import subprocess
import sys
import tempfile
import threading
import time

ROWS = (1_000, 100_000, 900_000)
MOST = ROWS[-1]
TABLES, USERS = 700, 16
CHUNK = 16
ROUNDS = 5
PIECE = 20_000

# A line that is denied at once.
IDLE = "SELECT x FROM nothing"


def free_port():
    with socket.socket() as taken:
        taken.bind(("127.0.0.1", 0))
        return taken.getsockname()[1]


def row(n):
    return f"INSERT INTO t VALUES ('row {n:06}', {n})"


class Script:
    """A running `sysr run` with the chunk of 16: each line is followed by a step of an active checkpoint."""

    def __init__(self, program, *words):
        words = [program, "run", "--chunk", str(CHUNK), *words]
        self.child = subprocess.Popen(words, stdin=subprocess.PIPE, stdout=subprocess.PIPE)

    def ask(self, lines):
        """Seconds until lines with one line of answer each are answered, and the last answer."""
        given, last = "".join(f"ann: {line}\n" for line in lines).encode(), b""
        writer = threading.Thread(target=self.send, args=(given,))
        start = time.perf_counter()
        # A single line goes into the pipe at once.
        if len(lines) > 1:
            writer.start()
        else:
            self.send(given)
        for _ in lines:
            last = self.child.stdout.readline()
        took = time.perf_counter() - start
        if len(lines) > 1:
            writer.join()
        return took, last

    def send(self, given):
        self.child.stdin.write(given)
        self.child.stdin.flush()

    def memory(self):
        with open(f"/proc/{self.child.pid}/status") as status:
            return next(int(line.split()[1]) * 1024 for line in status if line.startswith("VmRSS:"))

    def close(self):
        self.child.stdin.close()
        self.child.wait()


def filled(program, rows):
    script = Script(program)
    script.ask(["CREATE TABLE t (name TEXT, amount INTEGER)"])
    for start in range(0, rows, PIECE):
        script.ask([row(n) for n in range(start, min(start + PIECE, rows))])
    return script


def finish(script, records):
    """At least as many lines as a checkpoint of so many records takes steps."""
    for _ in range(0, records // CHUNK + 1, PIECE):
        script.ask([IDLE] * min(PIECE, records // CHUNK + 1))


def begun(script, records):
    """Microseconds of a CHECKPOINT line, the median of some rounds, less those of a line with no work."""
    found = []
    for _ in range(ROUNDS):
        idle = statistics.median(script.ask([IDLE])[0] for _ in range(9))
        took, answer = script.ask(["CHECKPOINT"])
        if b"begun" not in answer:
            raise SystemExit(f"not begun: {answer!r}")
        found.append(took - idle)
        finish(script, records)
    return 1e6 * statistics.median(found)


def by_size(program):
    for rows in ROWS:
        script = filled(program, rows)
        print(f"CHECKPOINT of {rows:>9,} rows:   {begun(script, rows):>10,.0f} us", flush=True)
        script.close()
    script = Script(program)
    names = ", ".join(f"u{n}" for n in range(USERS))
    columns = ", ".join(f"c{n} INTEGER" for n in range(32))
    grants = TABLES * USERS * 32
    for n in range(TABLES):
        script.ask([f"CREATE TABLE g{n} ({columns})", f"GRANT UPDATE ON g{n} TO {names}"])
    print(f"CHECKPOINT of {grants:>9,} grants: {begun(script, grants):>10,.0f} us", flush=True)
    script.close()


def during(program):
    """INSERT lines a second with and without an active checkpoint, and the memory of the checkpoint."""
    more = MOST // CHUNK // 2
    script = filled(program, MOST)
    plain = more / script.ask([row(n) for n in range(more)])[0]
    before = script.memory()
    script.ask(["CHECKPOINT"])
    active = more / script.ask([row(n) for n in range(more // 2)])[0] / 2
    finish(script, MOST)
    held = script.memory() - before
    script.close()
    print(f"INSERT lines a second: {plain:,.0f}, during a checkpoint {active:,.0f} ({100 * active / plain:.0f} %)")
    print(f"memory when it has ended: {held / MOST:.1f} bytes a row more")


class Session:
    def __init__(self, port, user):
        self.client = socket.create_connection(("127.0.0.1", port))
        self.client.setsockopt(socket.IPPROTO_TCP, socket.TCP_NODELAY, 1)
        self.reader = self.client.makefile("rb")
        self.ask(f"USER {user}")

    def send(self, lines):
        self.client.sendall("".join(line + "\n" for line in lines).encode())

    def ask(self, line):
        self.send([line])
        return self.reader.readline()


def waits(session, until):
    """Seconds of each INSERT, one after another, until so asked."""
    found = []
    while not until.is_set():
        start = time.perf_counter()
        session.ask("INSERT INTO s VALUES (1)")
        found.append(time.perf_counter() - start)
    return found


def longest(session, work):
    """The longest wait of the session while this is done, in milliseconds."""
    until, found = threading.Event(), []
    waiter = threading.Thread(target=lambda: found.extend(waits(session, until)))
    waiter.start()
    time.sleep(0.05)
    work()
    until.set()
    waiter.join()
    return 1e3 * max(found)


def settle(session):
    while True:
        head = session.ask("CHECKPOINTS")
        lines = [session.reader.readline() for _ in range(int(head.split()[1]))]
        if not any(line.startswith(b"active") for line in lines):
            return
        time.sleep(0.001)


def pauses(program):
    port = free_port()
    words = ["--port", str(port), "--workers", "2", "--sessions", "2", "--chunk", str(CHUNK)]
    child = subprocess.Popen([program, "serve", *words], stdout=subprocess.PIPE)
    child.stdout.readline()
    ann, eve = Session(port, "ann"), Session(port, "eve")
    ann.ask("CREATE TABLE t (name TEXT, amount INTEGER)")
    eve.ask("CREATE TABLE s (x INTEGER)")
    for start in range(0, MOST, 1_000):
        ann.send([row(n) for n in range(start, start + 1_000)])
        for _ in range(1_000):
            ann.reader.readline()

    def checkpoint():
        ann.ask("CHECKPOINT")
        settle(ann)

    start = time.perf_counter()
    found = [longest(eve, checkpoint)]
    took = time.perf_counter() - start
    # The ninth drops the image of the first.
    found += [longest(eve, checkpoint) for _ in range(9)]
    idle = [longest(eve, lambda: time.sleep(took)) for _ in range(10)]
    print(f"longest wait beside a checkpoint of {MOST:,} rows: {statistics.median(found):.2f} ms, at most {max(found):.2f}")
    print(f"beside none, as long ({took:.2f} s): {statistics.median(idle):.2f} ms, at most {max(idle):.2f}")
    child.kill()
    child.wait()


def redis():
    if not shutil.which("redis-server") or not shutil.which("redis-cli"):
        print("Redis: not installed")
        return
    port = str(free_port())
    with tempfile.TemporaryDirectory() as work:
        words = ["redis-server", "--port", port, "--save", "", "--dir", work, "--enable-debug-command", "local"]
        server = subprocess.Popen(words, stdout=subprocess.DEVNULL)
        time.sleep(1)
        cli = ["redis-cli", "-p", port]
        subprocess.run([*cli, "debug", "populate", str(MOST)], stdout=subprocess.DEVNULL, check=True)
        subprocess.run([*cli, "bgsave"], stdout=subprocess.DEVNULL, check=True)
        time.sleep(5)
        told = subprocess.run([*cli, "info", "stats"], stdout=subprocess.PIPE, text=True).stdout
        print(f"Redis, fork with {MOST:,} keys: {int(re.search(r'latest_fork_usec:(.*)', told)[1]):,} us")
        server.kill()
        server.wait()


def main(program):
    by_size(program)
    during(program)
    pauses(program)
    redis()


if __name__ == "__main__":
    main(sys.argv[1])

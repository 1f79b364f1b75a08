"""What PostgreSQL's clients get from `sysr serve` and from PostgreSQL, in turn. See pg.sh.

In rounds, each with a new server of both kinds that holds the same 100,000 rows: pgbench looks rows up by their key and
inserts others; then all rows are fetched by psycopg 3, by psycopg 2, and by a bare socket, which shows what is the
driver's. Neither server waits for a disk, asks for a login, or is reached otherwise than over loopback.
"""
import contextlib
import dataclasses
import glob
import os
import re
import resource
import shutil
import socket
import statistics
import struct
import subprocess
import sys
import tempfile
import time

from load_table import free_port
from postgres import running
from scripts import making

SECONDS, ROUNDS = 3, 5
ROWS = 100_000
USER = "bench"
WORKERS = 16
MOST_CHANGES = 1_000_000_000
CLIENTS = (1, 4, 16)
MODES = ("simple", "prepared")
KEY = f"\\set key random(0, {ROWS - 1})\n"
SCRIPTS = {
    "look-up": KEY + "SELECT * FROM t WHERE id = :key\n",
    "INSERT": KEY + "INSERT INTO grown VALUES (:key, 'row 1')\n",
}
ALL_ROWS, ONE_ROW = "SELECT * FROM t", "SELECT * FROM t WHERE id = 1"
# The number of the protocol, and the last message of any answer outside a block.
PROTOCOL, READY = 196_608, b"Z\0\0\0\5I"
TAIL_BYTES = 64
# What is inserted is never looked up, and has no index. Of t PostgreSQL has the key as its index, and sysr makes one by
# itself when a column is asked for again.
POSTGRES_TABLES = f"""
CREATE ROLE {USER} SUPERUSER LOGIN;
CREATE UNLOGGED TABLE t (id BIGINT PRIMARY KEY, name TEXT);
CREATE UNLOGGED TABLE grown (id BIGINT, name TEXT);
INSERT INTO t SELECT n, 'row ' || n FROM generate_series(0, {ROWS - 1}) AS n;
VACUUM ANALYZE t;
"""


@dataclasses.dataclass
class Server:
    """A server that runs: its port, and the process that the others of it are children of."""

    port: int
    process: int


@dataclasses.dataclass
class Took:
    """Seconds of processor time: in the program, and in the system's calls."""

    program: float
    system: float

    def since(self, before):
        return Took(self.program - before.program, self.system - before.system)

    @property
    def whole(self):
        return self.program + self.system


@dataclasses.dataclass
class Measured:
    """How many of something a second brought, and the processor seconds of client and server for one."""

    rate: float
    client: float
    server: float
    server_system: float


@contextlib.contextmanager
def sysr(program):
    with tempfile.TemporaryDirectory() as work:
        given = os.path.join(work, "given")
        with open(given, "w", encoding="ascii") as file:
            file.writelines(f"{USER}: CREATE TABLE {table} (id INTEGER, name TEXT)\n" for table in ("t", "grown"))
            file.writelines(f"{USER}: INSERT INTO t VALUES ({n}, 'row {n}')\n" for n in range(ROWS))
        port = free_port()
        words = ["--pg-port", str(port), "--workers", str(WORKERS), "--changes", str(MOST_CHANGES), "--load", given]
        child = subprocess.Popen([program, "serve", *words], stdout=subprocess.PIPE)
        try:
            if not any(line.startswith(b"listening") for line in child.stdout):
                sys.exit("sysr did not start")
            yield Server(port, child.pid)
        finally:
            child.kill()
            child.communicate()


@contextlib.contextmanager
def postgres():
    """None where PostgreSQL is not installed."""
    port = free_port()
    settings = f"-c listen_addresses=127.0.0.1 -c port={port} -c fsync=off -c synchronous_commit=off -c autovacuum=off"
    with tempfile.TemporaryDirectory() as work, running(work, settings) as place:
        if place is None:
            yield None
            return
        user, folder = place
        words = [*user, f"{folder}/psql", "-q", "-h", work, "-p", str(port), "-v", "ON_ERROR_STOP=1", "postgres"]
        subprocess.run(words, input=POSTGRES_TABLES, text=True, check=True)
        with open(f"{work}/data/postmaster.pid", encoding="ascii") as file:
            yield Server(port, int(file.readline()))


def server_took(process):
    """What a process and its children took, those that have ended too."""
    user = system = 0
    for path in glob.glob("/proc/[0-9]*/stat"):
        with contextlib.suppress(OSError), open(path, encoding="utf-8", errors="replace") as file:
            fields = file.read().rpartition(")")[2].split()
            if process in (int(path.split("/")[2]), int(fields[1])):
                user += int(fields[11]) + int(fields[13])
                system += int(fields[12]) + int(fields[14])
    ticks = os.sysconf("SC_CLK_TCK")
    return Took(user / ticks, system / ticks)


def client_took(who):
    used = resource.getrusage(who)
    return Took(used.ru_utime, used.ru_stime)


def benched(server, script, mode, clients, seconds):
    """Transactions of pgbench, of whose clients several share a thread where there are more than processors."""
    threads = min(clients, os.cpu_count() or 1)
    words = ["-n", "-h", "127.0.0.1", "-p", str(server.port), "-U", USER, "-M", mode, "-c", str(clients)]
    words += ["-j", str(threads), "-T", str(seconds), "-f", script, "postgres"]
    before = client_took(resource.RUSAGE_CHILDREN), server_took(server.process)
    done = subprocess.run(["pgbench", *words], capture_output=True, text=True)
    client = client_took(resource.RUSAGE_CHILDREN).since(before[0])
    serving = server_took(server.process).since(before[1])
    if done.returncode or re.search("failed transactions: [1-9]", done.stdout):
        sys.exit(f"pgbench failed: {done.stdout}{done.stderr}")
    count = int(re.search(r"transactions actually processed: (\d+)", done.stdout)[1])
    rate = float(re.search(r"tps = ([\d.]+)", done.stdout)[1])
    return Measured(rate, client.whole / count, serving.whole / count, serving.system / count)


def told(link, buffer):
    """Reads one answer to its end: its last bytes."""
    tail = b""
    while not tail.endswith(READY):
        count = link.recv_into(buffer)
        if not count:
            sys.exit("a server ended the connection")
        tail = (tail + buffer[max(0, count - TAIL_BYTES):count])[-TAIL_BYTES:]
    return tail


@contextlib.contextmanager
def by_socket(port, query=ALL_ROWS):
    """What fetches the bytes of the rows over a new connection, and looks at the last alone."""
    buffer = bytearray(1 << 20)
    query = query.encode() + b"\0"
    with socket.create_connection(("127.0.0.1", port)) as link:
        body = struct.pack("!I", PROTOCOL) + f"user\0{USER}\0database\0postgres\0\0".encode()
        link.sendall(struct.pack("!I", len(body) + 4) + body)
        told(link, buffer)

        def fetch():
            link.sendall(b"Q" + struct.pack("!I", len(query) + 4) + query)
            return int(re.search(rb"SELECT (\d+)\0", told(link, buffer))[1])

        yield fetch


def driver(module):
    """What fetches all rows through a driver, which makes Python's objects of them."""

    @contextlib.contextmanager
    def by_driver(port):
        reached = {"host": "127.0.0.1", "port": port, "user": USER, "dbname": "postgres"}
        with contextlib.closing(module.connect(**reached)) as connection:
            connection.autocommit = True
            cursor = connection.cursor()

            def fetch():
                cursor.execute(ALL_ROWS)
                return len(cursor.fetchall())

            yield fetch

    return by_driver


def readers():
    """What fetches all rows, by name: the drivers that are installed, and a socket."""
    found = {}
    with contextlib.suppress(ImportError):
        import psycopg
        # Its part beside libpq is in Python, or compiled.
        found[f"psycopg 3 in {psycopg.pq.__impl__}"] = driver(psycopg)
    with contextlib.suppress(ImportError):
        import psycopg2
        found["psycopg 2"] = driver(psycopg2)
    found["a socket"] = by_socket
    return found


def fetched(server, reader, seconds):
    """Rows, behind a first time that is not counted."""
    with reader(server.port) as fetch:
        counts = [fetch()]
        before = client_took(resource.RUSAGE_SELF), server_took(server.process), time.monotonic()
        while time.monotonic() - before[2] < seconds:
            counts.append(fetch())
        passed = time.monotonic() - before[2]
        client = client_took(resource.RUSAGE_SELF).since(before[0])
        serving = server_took(server.process).since(before[1])
    if set(counts) != {ROWS}:
        sys.exit("a server gave other rows")
    count = ROWS * (len(counts) - 1)
    return Measured(count / passed, client.whole / count, serving.whole / count, serving.system / count)


def measured(ours, theirs, scripts, seconds, found):
    """One round of all cases, each in turn at both servers."""
    with by_socket(ours.port, ONE_ROW) as look_up:
        # (these make the index)
        if any(look_up() != 1 for _ in range(making(ROWS))):
            sys.exit("a row was not found")
    for (name, script), mode, clients in ((s, m, c) for s in scripts.items() for m in MODES for c in CLIENTS):
        pair = [benched(server, script, mode, clients, seconds) for server in (ours, theirs)]
        found.setdefault(f"{name}, {mode}, {clients:2}", []).append(pair)
    for name, reader in readers().items():
        pair = [fetched(server, reader, seconds) for server in (ours, theirs)]
        found.setdefault(f"{ROWS:,} rows, {name}", []).append(pair)


def say(name, pairs):
    """The medians of a case, for both servers: a second's, and the microseconds of processor time for one."""
    ratios = [ours.rate / theirs.rate for ours, theirs in pairs]
    print(f"{name}: {statistics.median(ratios):.2f} times PostgreSQL ({min(ratios):.2f} to {max(ratios):.2f})")
    for server, rows in zip(("sysr", "PostgreSQL"), zip(*pairs)):
        rate, *parts = (statistics.median(column) for column in zip(*map(dataclasses.astuple, rows)))
        client, serving, system = (1e6 * part for part in parts)
        one = f"us of a processor for one: client {client:.2f}, server {serving:.2f} ({system:.2f} in the system)"
        used = f"processors in use: {client * rate / 1e6:.2f} and {serving * rate / 1e6:.2f}"
        print(f"  {server:10} {rate:11,.0f}/s  {one}; {used}")


def main(program, seconds=SECONDS, rounds=ROUNDS):
    with postgres() as theirs:
        if theirs is None or shutil.which("pgbench") is None:
            print("PostgreSQL or pgbench is not installed: nothing was measured")
            return
    print(f"load at the start: {os.getloadavg()[0]:.1f} on {os.cpu_count()} processors")
    found = {}
    with tempfile.TemporaryDirectory() as folder:
        scripts = {name: os.path.join(folder, name) for name in SCRIPTS}
        for name, path in scripts.items():
            with open(path, "w", encoding="ascii") as file:
                file.write(SCRIPTS[name])
        for _ in range(int(rounds)):
            with sysr(program) as ours, postgres() as theirs:
                measured(ours, theirs, scripts, int(seconds), found)
    for name, pairs in found.items():
        say(name, pairs)


if __name__ == "__main__":
    main(*sys.argv[1:])

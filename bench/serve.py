"""How fast `sysr serve` answers clients over loopback. See serve.sh."""
import os
import re
import shutil
import subprocess
import sys
import tempfile
import time

import load_engine
from load_table import free_port
from loads import loaded, work
from postgres import running

RUNS = 3


def served(program, engine, workers, clients, statements, pipelined, kind, folder=None):
    """Statements a second and percentiles in microseconds, of the best of some runs; with a journal in a folder."""
    best = None
    for n in range(RUNS):
        port = free_port()
        # (each client has a session before, which makes its table)
        words = ["--port", str(port), "--workers", str(workers), "--sessions", str(2 * clients)]
        words += ["--journal", os.path.join(folder, f"journal{port}-{n}")] if folder else []
        child = subprocess.Popen([program, "serve", *words], stdout=subprocess.PIPE)
        child.stdout.readline()
        found = loaded(engine, work(port, clients, statements, pipelined, kind.lower()))
        child.communicate(timeout=60)
        best = max(best, found) if best else found
    return best


def alone(program, statements):
    """Statements a second of `sysr run` on INSERT lines, the best of some runs."""
    with tempfile.NamedTemporaryFile() as given:
        given.write(b"u: CREATE TABLE t0 (name TEXT, amount INTEGER)\n")
        given.write(b"".join(b"u: INSERT INTO t0 VALUES ('row %d', %d)\n" % (n, n) for n in range(statements)))
        given.flush()
        best = 0.0
        for _ in range(RUNS):
            with open(given.name, "rb") as lines:
                start = time.monotonic()
                subprocess.run([program, "run"], stdin=lines, stdout=subprocess.DEVNULL, check=True)
                best = max(best, statements / (time.monotonic() - start))
    return best


def redis(clients, pipelined):
    """Requests a second of SET by redis-benchmark, the best of some runs, where Redis is installed."""
    if not shutil.which("redis-server") or not shutil.which("redis-benchmark"):
        return None
    port = str(free_port())
    server = subprocess.Popen(["redis-server", "--port", port, "--save", ""], stdout=subprocess.DEVNULL)
    time.sleep(1)
    words = ["-p", port, "-t", "set", "-c", str(clients), "-P", str(pipelined), "-n", "200000", "-q"]
    found = []
    for _ in range(RUNS):
        done = subprocess.run(["redis-benchmark", *words], stdout=subprocess.PIPE, text=True)
        found += [float(rate) for rate in re.findall(r"SET: ([\d.]+) requests", done.stdout)]
    server.kill()
    server.wait()
    return max(found)


def postgres(clients):
    """INSERTs a second by pgbench into a server that waits for no disk, where PostgreSQL is installed."""
    with tempfile.TemporaryDirectory() as work, running(work, "-c fsync=off -c synchronous_commit=off") as server:
        if server is None:
            return None
        user, folder = server
        reached = ["-h", work, "postgres"]
        table = "CREATE TABLE t (name TEXT, amount BIGINT)"
        subprocess.run([*user, f"{folder}/psql", "-q", "-c", table, *reached], check=True)
        script = os.path.join(work, "insert.sql")
        with open(script, "w") as file:
            file.write("INSERT INTO t VALUES ('row 1', 1);\n")
        words = ["-n", "-c", str(clients), "-j", str(clients), "-T", "3", "-f", script, *reached]
        done = subprocess.run([*user, f"{folder}/pgbench", *words], capture_output=True, text=True, check=True)
        return float(re.search(r"tps = ([\d.]+)", done.stdout)[1])


def main(program):
    if shutil.which("cc") is None:
        print("no C compiler: nothing was measured")
        return
    processors = min(os.cpu_count() or 1, 16)
    print(f"load at the start: {os.getloadavg()[0]:.1f} on {os.cpu_count()} processors")
    print(f"sysr run alone: {alone(program, 200_000):,.0f} INSERT/s")
    with tempfile.TemporaryDirectory() as folder:
        engine = load_engine.build(folder)
        for workers, clients, statements, pipelined, kind in (
            (processors, 1, 40_000, 1, "INSERT"),
            (processors, 4, 20_000, 1, "INSERT"),
            (processors, 4, 20_000, 1, "SELECT"),
            (processors, 1, 400_000, 1000, "INSERT"),
            (processors, 4, 100_000, 1000, "INSERT"),
            (16, 16, 10_000, 1, "INSERT"),
            (16, 16, 25_000, 1000, "INSERT"),
        ):
            rate, half, most, last = served(program, engine, workers, clients, statements, pipelined, kind)
            told = f"{workers:2} workers, {clients:2} clients, {pipelined:4} at a time, {kind}: {rate:9,.0f}/s"
            print(f"{told}  50 % in {half:.0f} us, 99 % in {most:.0f}, 99.9 % in {last:.0f}")
        for clients, statements, pipelined in ((1, 40_000, 1), (4, 20_000, 1), (4, 100_000, 1000)):
            rate, half, most, last = served(program, engine, processors, clients, statements, pipelined, "INSERT", folder)
            told = f"with a journal, {clients:2} clients, {pipelined:4} at a time, INSERT: {rate:9,.0f}/s"
            print(f"{told}  50 % in {half:.0f} us, 99 % in {most:.0f}, 99.9 % in {last:.0f}")
    for clients, pipelined in ((4, 1), (4, 16), (16, 1)):
        rate = redis(clients, pipelined)
        if rate is None:
            print("Redis is not installed")
            break
        print(f"Redis, SET, {clients:2} clients, {pipelined:2} at a time: {rate:9,.0f}/s")
    rate = postgres(4)
    told = "is not installed" if rate is None else f"INSERT,  4 clients,  1 at a time: {rate:9,.0f}/s"
    print(f"PostgreSQL, {told}" if rate else f"PostgreSQL {told}")


if __name__ == "__main__":
    main(*sys.argv[1:])

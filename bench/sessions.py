"""What sessions beside one another cost a server. See sessions.sh.

In rounds, each case in turn: one client and sixteen that send 16 lines at a time, sixteen that send one, and the same
to Redis. Then what a client of one line at a time waits for beside 15 that send 1,000, and what an idle server takes.
"""
import contextlib
import glob
import os
import shutil
import statistics
import subprocess
import sys
import tempfile
import time

import load_engine
from load_table import free_port, prepare
from loads import loaded, work

ROUNDS = 7
WORKERS = 16
IDLE_SECONDS = 10
# The clients, the lines of each, and how many of them at a time.
CASES = {
    "1 client, 16 lines": (1, 200_000, 16),
    "16 clients, 16 lines": (16, 16_000, 16),
    "16 clients, 1 line": (16, 6_000, 1),
}
STREAMS = (15, 60_000, 1000)
ASKED = (1, 2_000, 1)


def used(process):
    """Nanoseconds of processor time that the threads of a process took, and how often they slept."""
    took = slept = 0
    for task in glob.glob(f"/proc/{process}/task/*"):
        with open(f"{task}/schedstat") as file:
            took += int(file.read().split()[0])
        with open(f"{task}/status") as file:
            slept += sum(int(line.split()[1]) for line in file if line.startswith("voluntary_ctxt_switches"))
    return took, slept


@contextlib.contextmanager
def started(words, says):
    out = subprocess.PIPE if says else subprocess.DEVNULL
    child = subprocess.Popen(words, stdout=out, stderr=subprocess.DEVNULL)
    try:
        child.stdout.readline() if says else time.sleep(0.3)
        yield child
    finally:
        child.kill()
        child.communicate()


def server(program):
    port = str(free_port())
    return port, started([program, "serve", "--port", port, "--workers", str(WORKERS)], True)


def redis():
    port = str(free_port())
    return port, started(["redis-server", "--port", port, "--bind", "127.0.0.1", "--save", ""], False)


def measured(engine, made, case, kind="insert"):
    """Statements a second, three percentiles in microseconds, microseconds of the server's threads for a statement,
    and how often they sleep for it."""
    port, serving = made
    with serving as child:
        before = used(child.pid)
        found = loaded(engine, work(port, *case, kind))
        took, slept = (now - then for now, then in zip(used(child.pid), before))
    return [*found, took / 1e3 / case[0] / case[1], slept / case[0] / case[1]]


def asked_beside_streams(program, engine):
    """The percentiles of a client that waits for each answer, in microseconds."""
    port, serving = server(program)
    streams = work(port, *STREAMS, "insert")
    with serving:
        prepare(streams)
        run = load_engine.Run(engine, streams)
        time.sleep(0.1)
        found = loaded(engine, work(port, *ASKED, "insert", table="asked"))
        run.stop()
    return found


def idle(program):
    """Percent of a processor."""
    _, serving = server(program)
    with serving as child:
        time.sleep(1)
        before, start = used(child.pid)[0], time.monotonic()
        time.sleep(IDLE_SECONDS)
        return (used(child.pid)[0] - before) / 1e7 / (time.monotonic() - start)


def say(name, rows):
    rate, half, most, last, took, slept = (statistics.median(column) for column in zip(*rows))
    rates = [row[0] for row in rows]
    print(f"{name:25} {rate:9,.0f}/s ({min(rates):,.0f} to {max(rates):,.0f})  50 % in {half:.0f} us, 99 % in "
        f"{most:.0f}, 99.9 % in {last:.0f}  {took:.1f} us and {slept:.2f} sleeps a line")


def say_ratio(name, rows, others):
    ratios = [row[0] / other[0] for row, other in zip(rows, others)]
    print(f"{name}: {statistics.median(ratios):.2f} ({min(ratios):.2f} to {max(ratios):.2f})")


def main(program):
    if shutil.which("cc") is None:
        print("no C compiler: nothing was measured")
        return
    print(f"load at the start: {os.getloadavg()[0]:.1f} on {os.cpu_count()} processors")
    found = {}
    with tempfile.TemporaryDirectory() as folder:
        engine = load_engine.build(folder)
        for _ in range(ROUNDS):
            for name, case in CASES.items():
                found.setdefault(name, []).append(measured(engine, server(program), case))
            if shutil.which("redis-server"):
                case = CASES["16 clients, 1 line"]
                found.setdefault("Redis, the same", []).append(measured(engine, redis(), case, "rpush"))
        asked = [asked_beside_streams(program, engine) for _ in range(ROUNDS)]
    one, many, single, *other = found.values()
    for name, rows in found.items():
        say(name, rows)
    say_ratio("16 lines at a time, 16 clients to one", many, one)
    if other:
        say_ratio("1 line at a time, 16 clients, to Redis", single, other[0])
    else:
        print("Redis is not installed")
    rate, half, most, last = (statistics.median(column) for column in zip(*asked))
    print(f"1 line beside 15 streams  {rate:9,.0f}/s  50 % in {half:.0f} us, 99 % in {most:.0f}, 99.9 % in {last:.0f}")
    print(f"an idle server: {idle(program):.3f} % of a processor")


if __name__ == "__main__":
    main(*sys.argv[1:])

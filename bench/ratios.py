"""How many times as fast as others the built program is: `sqlite3 :memory:`, and for INSERT redis (RPUSH of the row).

Of each kind of statement (all of them, or those named on the command line) it prints units a second of each program and
the ratio. The programs run in turn, seven times each, with the counted statements and without them; a rate is that of
the medians' difference.
"""
import os
import shutil
import statistics
import subprocess
import sys
import tempfile
import time

import scripts

RUNS = 7


def took(words, path, out):
    """The time of a run on this input, in seconds."""
    with open(path, "rb") as given, open(out, "wb") as sink:
        start = time.monotonic()
        subprocess.run(words, stdin=given, stdout=sink, check=True)
        return time.monotonic() - start


class Rival:
    """A program that carries out the statements in a notation of its own."""

    def __init__(self, name, words, notation, fresh=lambda: None):
        self.name, self.words, self.notation, self.fresh = name, words, notation, fresh
        self.without, self.whole = [], []

    def write(self, kind, work):
        self.paths = [os.path.join(work, f"{self.name}.{part}") for part in ("without", "whole")]
        for path, statements in zip(self.paths, (kind.before, kind.before + kind.counted)):
            with open(path, "w", newline="") as script:
                script.writelines(self.notation(statements))

    def run(self, out):
        for path, times in zip(self.paths, (self.without, self.whole)):
            self.fresh()
            times.append(took(self.words, path, out))

    def rate(self, units):
        return units / (statistics.median(self.whole) - statistics.median(self.without))


def redis(work):
    """A server of redis behind a socket in the folder, and how its client is called."""
    socket = os.path.join(work, "redis")
    words = ["redis-server", "--port", "0", "--unixsocket", socket, "--save", "", "--dir", work]
    server = subprocess.Popen(words, stdout=subprocess.DEVNULL)
    while not os.path.exists(socket):
        time.sleep(0.01)
    return server, ["redis-cli", "-s", socket]


def compare(name, kind, rivals, work):
    out = os.path.join(work, "out")
    for rival in rivals:
        rival.write(kind, work)
    for _ in range(RUNS):
        for rival in rivals:
            rival.run(out)
    own = rivals[0].rate(kind.units)
    print(f"{name}: sysr {own:,.0f} {kind.unit}s/s", end="")
    for rival in rivals[1:]:
        rate = rival.rate(kind.units)
        print(f"; {rival.name} {rate:,.0f}, ratio {own / rate:.2f}", end="")
    print(flush=True)


def main():
    wanted = sys.argv[2:]
    with tempfile.TemporaryDirectory() as work:
        server, client = redis(work) if shutil.which("redis-server") else (None, None)
        for name, kind in scripts.kinds().items():
            if wanted and name not in wanted:
                continue
            rivals = [Rival("sysr", [sys.argv[1], "run", "--chunk", str(scripts.CHUNK)], scripts.lines)]
            for is_keyed in kind.keys if shutil.which("sqlite3") else ():
                name_of, notation = ("sqlite3-key", scripts.keyed_sql) if is_keyed else ("sqlite3", scripts.sql)
                rivals.append(Rival(name_of, ["sqlite3", "-csv", ":memory:"], notation))
            if server is not None and name == "inserts":
                clear = lambda: subprocess.run([*client, "FLUSHALL"], stdout=subprocess.DEVNULL, check=True)
                rivals.append(Rival("redis", [*client, "--pipe"], scripts.pushes, clear))
            compare(name, kind, rivals, work)
        if server is not None:
            server.terminate()
            server.wait()


main()

"""What a checkpoint that is written to the disk costs those who go on meanwhile. See dumps.sh."""
import gc
import os
import subprocess
import sys
import tempfile
import time

from pauses import Session, free_port
from starts import ROWS, rows

EVERY, ALONE, ROUNDS = 60_000, 50_000, 5
LOOK = 500


def inserting(session, until):
    """The longest wait for an INSERT until this says to end, and how many INSERTs there were a second."""
    longest, count, begun = 0, 0, time.perf_counter()
    now = begun
    while count % LOOK or not until(count):
        session.ask(f"INSERT INTO t VALUES ('somebody', {count})")
        before, now = now, time.perf_counter()
        longest, count = max(longest, now - before), count + 1
    return longest, count / (now - begun)


def told(server, word):
    while not server.stdout.readline().startswith(word):
        pass


def measured(program, folder):
    """The longest waits and the rates, without a checkpoint and while one is taken, and how long that took."""
    data = os.path.join(folder, "own")
    os.mkdir(data)
    first = f"dump-{ROWS + 1:010}-{ROWS + 1:010}"
    with open(os.path.join(data, first), "w") as file:
        rows(file)
    port = free_port()
    words = [program, "serve", "--port", str(port), "--data", data, "--checkpoint-every", str(EVERY), "--changes", "10000000"]
    server = subprocess.Popen(words, stdout=subprocess.PIPE)
    told(server, b"listening")
    session = Session(port, "ann")
    gc.disable()
    alone = inserting(session, lambda count: count >= ALONE)
    inserting(session, lambda count: count >= EVERY - ALONE)
    begun = time.perf_counter()
    # The old dump goes last of all.
    beside = inserting(session, lambda count: first not in os.listdir(data))
    took = time.perf_counter() - begun
    gc.enable()
    server.kill()
    server.communicate()
    return alone, beside, took


def main():
    program, folder = os.path.abspath(sys.argv[1]), sys.argv[2]
    for _ in range(ROUNDS):
        with tempfile.TemporaryDirectory(dir=folder) as work:
            (alone, slow), (beside, rate), took = measured(program, work)
        print(f"longest wait {1000 * alone:.2f} ms without a checkpoint and {1000 * beside:.2f} ms while one of {ROWS:,} rows is")
        print(f"written, which took {took:.1f} s; INSERTs a second {slow:,.0f} and {rate:,.0f} ({100 * rate / slow:.0f} %)", flush=True)


if __name__ == "__main__":
    main()

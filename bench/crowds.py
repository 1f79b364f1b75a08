"""What many sessions cost a server: of a thousand that speak, and beside ten thousand that do not. See crowds.sh."""
import contextlib
import os
import resource
import shutil
import statistics
import subprocess
import sys
import tempfile

from load_table import free_port

HERE = os.path.dirname(os.path.abspath(__file__))
ROUNDS, MILLISECONDS, THREADS, WORKERS = 5, 2000, 2, 16
IDLE = 10_000


@contextlib.contextmanager
def served(program):
    port = str(free_port())
    words = [program, "serve", "--port", port, "--workers", str(WORKERS), "--changes", "1000000000"]
    child = subprocess.Popen(words, stdout=subprocess.PIPE)
    child.stdout.readline()
    try:
        yield port, child.pid
    finally:
        child.kill()
        child.communicate()


def resident(process):
    """Bytes of memory that a process has."""
    with open(f"/proc/{process}/statm") as file:
        return int(file.read().split()[1]) * resource.getpagesize()


def spoken(engine, program, clients, speakers):
    """Lines a second, and within how many microseconds 50, 99 and 99.9 % were answered."""
    with served(program) as (port, _):
        words = [engine, port, str(clients), str(speakers), str(THREADS), str(MILLISECONDS)]
        return [float(word) for word in subprocess.run(words, stdout=subprocess.PIPE, check=True, text=True).stdout.split()]


def idle_bytes(engine, program):
    """How many bytes of memory a server takes for a session that waits."""
    with served(program) as (port, process):
        subprocess.run([engine, port, "16", "16", "1", "100"], stdout=subprocess.DEVNULL, check=True)
        before = resident(process)
        with subprocess.Popen([engine, port, str(IDLE), "0", "0", "0"], stdout=subprocess.PIPE) as crowd:
            crowd.stdout.readline()
            after = resident(process)
            crowd.kill()
    return (after - before) / IDLE


def main(program):
    if shutil.which("cc") is None:
        print("no C compiler: nothing was measured")
        return
    _, most = resource.getrlimit(resource.RLIMIT_NOFILE)
    resource.setrlimit(resource.RLIMIT_NOFILE, (most, most))
    print(f"load at the start: {os.getloadavg()[0]:.1f} on {os.cpu_count()} processors; at most {most} descriptors")
    cases = {"16 clients": (16, 16), "1,000 clients": (1000, 1000), f"16 beside {IDLE:,} idle": (IDLE + 16, 16)}
    with tempfile.TemporaryDirectory() as folder:
        engine = os.path.join(folder, "crowd")
        subprocess.run(["cc", "-O2", "-pthread", "-o", engine, os.path.join(HERE, "crowd.c")], check=True)
        found = {name: [] for name in cases}
        for _ in range(ROUNDS):
            for name, case in cases.items():
                found[name].append(spoken(engine, program, *case))
        first = None
        for name, rows in found.items():
            rate, half, most, last = (statistics.median(column) for column in zip(*rows))
            first = first or rate
            print(f"{name:22} {rate:9,.0f}/s, {100 * rate / first:3.0f} %  50 % in {half:.0f} us, 99 % in {most:.0f}, "
                f"99.9 % in {last:.0f}")
        print(f"a session that waits: {idle_bytes(engine, program):,.0f} bytes")


if __name__ == "__main__":
    main(*sys.argv[1:])

"""What an explanation costs of what carrying the script out costs: processor time and memory. See explain.sh."""
import os
import random
import statistics
import subprocess
import sys
import tempfile

CHANGES = 1_000_000
ROUNDS = 5
USERS = 300
QUESTIONS = {
    "run": ["run"],
    "rights": ["explain", "rights"],
    "why": ["explain", "why", "u7", "INSERT", "t"],
    "fell": ["explain", "--format", "csv", "fell"],
    "if": ["explain", "--at", str(CHANGES - 1), "if", "own: GRANT INSERT ON t TO nobody"],
}


def rights(count):
    """A table, and GRANT and REVOKE of one privilege in turn, the owner's and his grantees'."""
    pick, held = random.Random(1978), {}
    yield "own: CREATE TABLE t (x INTEGER)"
    for _ in range(count - 1):
        user = f"u{pick.randrange(USERS)}"
        if user in held:
            yield f"own: REVOKE INSERT ON t FROM {user}"
            del held[user]
        else:
            yield f"own: GRANT INSERT ON t TO {user} WITH GRANT OPTION"
            held[user] = True


def cascades(count):
    """Chains of grants that fall, each by one REVOKE of its first."""
    yield "own: CREATE TABLE t (x INTEGER)"
    for at in range(count - 1):
        link = at % 101
        if link == 100:
            yield "own: REVOKE INSERT ON t FROM u0"
        else:
            by = "own" if link == 0 else f"u{link - 1}"
            yield f"{by}: GRANT INSERT ON t TO u{link} WITH GRANT OPTION"


def inserts(count):
    """A table and its rows."""
    yield "own: CREATE TABLE t (x INTEGER)"
    for number in range(count - 1):
        yield f"own: INSERT INTO t VALUES ({number})"


def cost(words, path):
    """Seconds of processor time, and the most memory in MB."""
    child = subprocess.Popen(words, stdin=open(path, "rb"), stdout=subprocess.DEVNULL)
    _, status, used = os.wait4(child.pid, 0)
    if os.waitstatus_to_exitcode(status) not in (0, 1):
        raise SystemExit(f"{words} ended with {status}")
    return used.ru_utime + used.ru_stime, used.ru_maxrss / 1024


def main():
    program = sys.argv[1]
    with tempfile.TemporaryDirectory() as work:
        for kind in (rights, cascades, inserts):
            path = os.path.join(work, kind.__name__)
            with open(path, "w") as script:
                script.writelines(line + "\n" for line in kind(CHANGES))
            found = {name: [] for name in QUESTIONS}
            for _ in range(ROUNDS):
                for name, words in QUESTIONS.items():
                    found[name].append(cost([program, *words], path))
            for name, costs in found.items():
                ratio = statistics.median(one[0] / run[0] for one, run in zip(costs, found["run"]))
                seconds, memory = statistics.median(one[0] for one in costs), statistics.median(one[1] for one in costs)
                print(f"{kind.__name__}: {name} {seconds:.2f} s, {ratio:.2f} of run, {memory:.0f} MB", flush=True)


main()

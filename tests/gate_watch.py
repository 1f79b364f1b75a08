"""Watches a run of the gate, and tells what each crate cost in it: its proof, its tests and its wrong bodies.

A process belongs to the crate that its command line or its folder names. Each is looked at four times a second: what
it used behind the last look is in no row, some hundredth of the whole.
"""
import collections
import os
import re
import subprocess
import time

SECONDS_OF_A_TICK = 1 / os.sysconf("SC_CLK_TCK")
BETWEEN_LOOKS = 0.25
PROOF, TESTS, BODIES = range(3)
# What works for no crate: `rt` itself, and the tests of the program.
NOBODY = ("", PROOF)
# Where `rt` tries a wrong body, and where it proves what the wrong bodies of a crate begin with.
ROOM_OF_A_BODY = "/rt-edit-"

Watched = collections.namedtuple("Watched", "status wall user system spent")


def read(process, name):
    with open(f"/proc/{process}/{name}", "rb") as file:
        return file.read().decode(errors="replace")


def owner_of(process):
    """The crate and the part that the process works for."""
    words, folder = read(process, "cmdline").split("\0"), os.readlink(f"/proc/{process}/cwd")
    if "--crate-name" in words:
        crate = words[words.index("--crate-name") + 1]
        return crate, BODIES if ROOM_OF_A_BODY in folder else TESTS if "--test" in words else PROOF
    found = re.search(r"/crates/(\w+)", folder)
    return (found.group(1), PROOF) if found else NOBODY


class Processes:
    """All processes below one, with what each has used and whom it works for, as last seen."""

    def __init__(self, root):
        self.root, self.used, self.owners = root, {}, {}

    def look(self):
        below, stats = collections.defaultdict(list), {}
        for name in filter(str.isdigit, os.listdir("/proc")):
            try:
                fields = read(name, "stat").rpartition(")")[2].split()
            except OSError:
                continue  # (it has ended)
            below[int(fields[1])].append(int(name))
            stats[int(name)] = fields[19], (int(fields[11]) + int(fields[12])) * SECONDS_OF_A_TICK
        left = [self.root]
        while left:
            process = left.pop()
            left += below[process]
            if process in stats:
                self.note(process, *stats[process])

    def note(self, process, began, used):
        key = process, began
        self.used[key] = used
        try:
            owner = owner_of(process)
        except OSError:
            return
        # (before a process becomes another program it shows its parent's words)
        if owner != NOBODY or key not in self.owners:
            self.owners[key] = owner

    def spent(self):
        """The processor seconds of each crate and part."""
        sums = collections.Counter()
        for key, used in self.used.items():
            sums[self.owners.get(key, NOBODY)] += used
        return sums


def watched(command, folder):
    """Runs the command to its end."""
    began, before = time.monotonic(), os.times()
    run = subprocess.Popen(command, cwd=folder)
    processes = Processes(run.pid)
    while run.poll() is None:
        processes.look()
        time.sleep(BETWEEN_LOOKS)
    after = os.times()
    user, system = after.children_user - before.children_user, after.children_system - before.children_system
    return Watched(run.returncode, time.monotonic() - began, user, system, processes.spent())

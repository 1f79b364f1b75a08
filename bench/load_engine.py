"""The C engine of bench/load: how it is built, what it is told, and what it counts. See load.c."""
from __future__ import annotations

import collections
import dataclasses
import os
import shutil
import subprocess
from typing import Iterator

SOURCES = ("load.c", "load_client.c")
KINDS = ("insert", "select", "range", "update", "delete")
CLASSES = ("good", "denied", "refused", "fault")
BATCH = "batch"
# Buckets of the engine's histogram: up to 2^7 one for each nanosecond, then 2^7 for each doubling.
SUB_BITS = 7


class Failure(Exception):
    """A run that cannot go on; its text says why."""


@dataclasses.dataclass
class Work:
    """What clients send, and to whom. One of `statements` (of all clients) and `seconds` is given."""

    port: int
    users: list[str]
    mix: dict[str, int]
    host: str = "127.0.0.1"
    clients: int = 1
    pipeline: int = 1
    statements: int = 0
    seconds: float = 0.0
    interval: float = 1.0
    timeout: int = 60
    rows: int = 0
    width: int = 10
    seed: int = 1
    table: str = "load"
    own_tables: bool = False

    def words(self) -> list[str]:
        """The words of the engine that say this."""
        same = ("host", "port", "clients", "pipeline", "statements", "timeout", "rows", "width", "seed", "table")
        given = {name: getattr(self, name) for name in same}
        given.update(milliseconds=round(1000 * self.seconds), interval=round(1000 * self.interval),
            own=int(self.own_tables), **self.mix)
        return [f"{name}={value}" for name, value in given.items()] + [f"user={user}" for user in self.users]


def greatest(bucket: int) -> int:
    """The greatest value of a bucket, in nanoseconds."""
    if bucket < 2 << SUB_BITS:
        return bucket
    doubling, sub = divmod(bucket, 1 << SUB_BITS)
    return ((sub + (1 << SUB_BITS) + 1) << (doubling - 1)) - 1


@dataclasses.dataclass
class Counts:
    """Replies by class, and a histogram of their latencies in nanoseconds."""

    classes: collections.Counter = dataclasses.field(default_factory=collections.Counter)
    took: collections.Counter = dataclasses.field(default_factory=collections.Counter)
    most: int = 0

    @property
    def total(self) -> int:
        return sum(self.classes.values())

    def add(self, other: Counts) -> None:
        self.classes.update(other.classes)
        self.took.update(other.took)
        self.most = max(self.most, other.most)

    def percentile(self, percent: float) -> int | None:
        """Nanoseconds within which so many percent were answered: the exact number, or at most 1/128 more."""
        thousandths, seen = round(10 * percent), 0
        for bucket in sorted(self.took):
            seen += self.took[bucket]
            if 1000 * seen >= thousandths * self.total:
                return min(greatest(bucket), self.most)
        return None


@dataclasses.dataclass
class Interval:
    """What was counted between two moments, in seconds from the start."""

    begin: float
    end: float
    kinds: dict[str, Counts] = dataclasses.field(default_factory=dict)

    @property
    def length(self) -> float:
        return self.end - self.begin

    def all(self) -> Counts:
        """The statements of all kinds; the writes, which are counted beside them, are left out."""
        return total(counts for kind, counts in self.kinds.items() if kind != BATCH)

    def append(self, later: Interval) -> None:
        self.end = later.end
        for kind, counts in later.kinds.items():
            self.kinds[kind].add(counts)


def total(parts) -> Counts:
    """The sum of counts."""
    summed = Counts()
    for part in parts:
        summed.add(part)
    return summed


def build(folder: str) -> str:
    """Compiles the engine into a folder, and gives its path.

    Failure: there is no C compiler, or it fails."""
    compiler = shutil.which("cc")
    if compiler is None:
        raise Failure("no C compiler (cc) was found: the engine that sends is written in C.\n"
            "Install one, as `apt-get install gcc libc6-dev` does on Debian.")
    here = os.path.dirname(os.path.abspath(__file__))
    made = os.path.join(folder, "load-engine")
    words = [compiler, "-O2", "-pthread", "-o", made, *(os.path.join(here, source) for source in SOURCES)]
    done = subprocess.run(words, capture_output=True, text=True)
    if done.returncode:
        raise Failure(f"the C compiler failed:\n{done.stderr}")
    return made


class Run:
    """A run of the engine: its intervals as they come, and then the first reply of each class that was not good."""

    def __init__(self, engine: str, work: Work):
        self.replies: dict[str, str] = {}
        self.child = subprocess.Popen([engine, *work.words()], stdout=subprocess.PIPE, stderr=subprocess.PIPE,
            text=True)

    def intervals(self) -> Iterator[Interval]:
        """Each interval when it is over. Failure: the run failed, by the engine's words."""
        try:
            interval = None
            for line in self.child.stdout:
                word, _, rest = line.rstrip("\n").partition(" ")
                if word == "interval":
                    interval = Interval(*map(float, rest.split()))
                elif word == "reply":
                    kind, _, text = rest.partition(" ")
                    self.replies[kind] = text
                elif word:
                    interval.kinds[word] = read_counts(rest.split())
                else:
                    yield interval
            said = self.child.communicate()[1].strip()
            if self.child.returncode:
                raise Failure(said or f"the engine ended with status {self.child.returncode}")
        finally:
            self.stop()

    def stop(self) -> None:
        """Ends the engine, if it still runs."""
        self.child.kill()
        self.child.communicate()


def read_counts(fields: list[str]) -> Counts:
    """Counts from a line of the engine, without its kind."""
    classes = collections.Counter(dict(zip(CLASSES, map(int, fields))))
    most, buckets = int(fields[len(CLASSES)]), fields[len(CLASSES) + 1:]
    took = collections.Counter({int(bucket): int(count) for bucket, count in (pair.split(":") for pair in buckets)})
    return Counts(classes, took, most)


def merged(intervals: list[Interval], shortest: float) -> list[Interval]:
    """The intervals; a last one that is shorter than this joins the one before, as its rate would say little."""
    if len(intervals) > 1 and intervals[-1].length < shortest:
        intervals[-2].append(intervals[-1])
        return intervals[:-1]
    return intervals

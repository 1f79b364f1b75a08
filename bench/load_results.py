"""What bench/load tells of a run: a table, a file of CSV, and a bar while it goes on."""
from __future__ import annotations

import csv
from typing import TextIO

from load_engine import BATCH, CLASSES, Counts, Interval, Work, total

PERCENTS = (50, 90, 99, 99.9)
BAR = 30
CSV_HEAD = ("begin", "end", "kind", "statements", *CLASSES, "per_second",
    *(f"p{percent:g}_us".replace(".", "_") for percent in PERCENTS), "most_us")


def microseconds(nanoseconds: int | None) -> str:
    return "" if nanoseconds is None else f"{nanoseconds / 1000:.1f}"


def latencies(counts: Counts) -> list[str]:
    """The percentiles and the most, in microseconds; empty where nothing was counted."""
    if not counts.total:
        return [""] * (len(PERCENTS) + 1)
    return [microseconds(counts.percentile(percent)) for percent in PERCENTS] + [microseconds(counts.most)]


def kinds_of(intervals: list[Interval]) -> list[str]:
    return [kind for kind in intervals[0].kinds if kind != BATCH]


def of_kind(intervals: list[Interval], kind: str) -> Counts:
    """All that was counted of a kind."""
    return total(interval.kinds[kind] for interval in intervals)


def table(intervals: list[Interval], work: Work) -> list[str]:
    """Lines for people: by kind, and of all."""
    seconds = intervals[-1].end
    head = ("kind", "statements", "a second", *(f"{percent:g} %" for percent in PERCENTS), "most", *CLASSES[1:])
    rows = [head]
    parts = [(kind, of_kind(intervals, kind)) for kind in kinds_of(intervals)]
    parts.append(("all", total(counts for _, counts in parts)))
    if work.pipeline > 1:
        parts.append((f"writes of {work.pipeline}", of_kind(intervals, BATCH)))
    for name, counts in parts:
        classes = [f"{counts.classes[kind]:,}" for kind in CLASSES[1:]]
        if name.startswith("writes"):
            classes = [""] * len(classes)
        rows.append((name, f"{counts.total:,}", f"{counts.total / seconds:,.0f}", *latencies(counts), *classes))
    widths = [max(len(row[n]) for row in rows) for n in range(len(head))]
    lines = []
    for row in rows:
        cells = [row[0].ljust(widths[0]), *(cell.rjust(width) for cell, width in zip(row[1:], widths[1:]))]
        lines.append("  ".join(cells).rstrip())
    return lines


def write_csv(file: TextIO, intervals: list[Interval]) -> None:
    """A row for each interval and kind: seconds from the start, counts, and latencies in microseconds."""
    writer = csv.writer(file, lineterminator="\n")
    writer.writerow(CSV_HEAD)
    for interval in intervals:
        for kind in kinds_of(intervals):
            counts = interval.kinds[kind]
            classes = [counts.classes[name] for name in CLASSES]
            rate = f"{counts.total / interval.length:.1f}"
            writer.writerow([f"{interval.begin:.3f}", f"{interval.end:.3f}", kind, counts.total, *classes, rate,
                *latencies(counts)])


class Bar:
    """A bar on a terminal, and nothing where the stream is none."""

    def __init__(self, stream: TextIO, work: Work):
        self.stream, self.work, self.done = stream, work, 0
        self.is_shown = stream.isatty()
        self.show(0.0, 0.0)

    def advance(self, interval: Interval) -> None:
        count = interval.all().total
        self.done += count
        self.show(interval.end, count / max(interval.length, 1e-9))

    def show(self, seconds: float, rate: float) -> None:
        if not self.is_shown:
            return
        share = self.done / self.work.statements if self.work.statements else seconds / self.work.seconds
        filled = min(round(share * BAR), BAR)
        told = f"{self.done:,} of {self.work.statements:,}" if self.work.statements else (
            f"{min(seconds, self.work.seconds):.1f} s of {self.work.seconds:g}")
        self.stream.write(f"\r[{'#' * filled}{'.' * (BAR - filled)}] {told}  {rate:,.0f}/s\x1b[K")
        self.stream.flush()

    def end(self) -> None:
        """Takes the bar off the terminal."""
        if self.is_shown:
            self.stream.write("\r\x1b[K")
            self.stream.flush()

"""The plot of bench/load: statements a second and latencies over time, as SVG without any library."""
from __future__ import annotations

import dataclasses
import html
import math

from load_engine import Interval, Work
from load_results import kinds_of

WIDTH, LEFT, RIGHT = 900, 90, 130
TOP, HEIGHT, GAP, BOTTOM = 60, 200, 90, 60
COLOURS = {"all": "#222222", "insert": "#1f6fb4", "select": "#1a7f37", "range": "#8250df", "update": "#bc6c00",
    "delete": "#b3261e", "50 %": "#1a7f37", "99 %": "#bc6c00", "most": "#b3261e"}
STYLE = """<style>
text { font: 13px sans-serif; fill: #333 }
.title { font-size: 15px; font-weight: bold }
.end { text-anchor: end } .middle { text-anchor: middle }
.grid { stroke: #e2e2e2 } .axis { stroke: #777 }
polyline { fill: none; stroke-width: 2 }
</style>"""


@dataclasses.dataclass
class Scale:
    """Where a value stands: from `low` at the pixel `start` to `high` at `stop`, by its logarithm if so asked."""

    low: float
    high: float
    start: float
    stop: float
    is_log: bool = False

    def place(self, value: float) -> float:
        low, high = self.low, self.high
        if self.is_log:
            value, low, high = (math.log10(number) for number in (max(value, low), low, high))
        return self.start + (value - low) / (high - low) * (self.stop - self.start)


def round_step(span: float, most: int) -> float:
    """The least of 1, 2 and 5 times a power of ten that divides the span into no more parts than this."""
    power = 10.0 ** math.floor(math.log10(span / most))
    return next(step * power for step in (1, 2, 5, 10) if span / (step * power) <= most)


def ticks(high: float, most: int = 5) -> list[float]:
    """Round numbers from 0 to the first that is not below `high`."""
    step = round_step(high or 1.0, most)
    return [step * n for n in range(math.ceil((high or 1.0) / step - 1e-9) + 1)]


def time_text(nanoseconds: float) -> str:
    for unit, size in (("s", 1e9), ("ms", 1e6), ("us", 1e3)):
        if nanoseconds >= size:
            return f"{nanoseconds / size:g} {unit}"
    return f"{nanoseconds:g} ns"


def text(x: float, y: float, said: str, kind: str = "", more: str = "") -> str:
    return f'<text x="{x:.1f}" y="{y:.1f}" class="{kind}"{more}>{html.escape(said)}</text>'


def line(x: float, y: float, to_x: float, to_y: float, kind: str) -> str:
    return f'<line x1="{x:.1f}" y1="{y:.1f}" x2="{to_x:.1f}" y2="{to_y:.1f}" class="{kind}"/>'


def curve(points: list[tuple[float, float]], colour: str) -> list[str]:
    """A line through points, and a dot at each where they are few."""
    joined = " ".join(f"{x:.1f},{y:.1f}" for x, y in points)
    drawn = [f'<polyline points="{joined}" stroke="{colour}"/>']
    if len(points) <= 60:
        drawn += [f'<circle cx="{x:.1f}" cy="{y:.1f}" r="2.5" fill="{colour}"/>' for x, y in points]
    return drawn


def apart(wanted: list[float], lowest: float, gap: float = 15) -> list[float]:
    """Places for labels near the wanted ones, none closer to another than the gap, and none below the lowest."""
    placed: dict[int, float] = {}
    last = lowest + gap
    for n in sorted(range(len(wanted)), key=lambda n: -wanted[n]):
        last = placed[n] = min(wanted[n], last - gap)
    return [placed[n] for n in range(len(wanted))]


def panel(title: str, lines: dict[str, list[tuple[float, float]]], across: Scale, up: Scale,
        marks: list[tuple[float, str]]) -> list[str]:
    """A title, a grid with the marks of the vertical axis, and a named line for each series of (seconds, value)."""
    drawn = [text(LEFT, up.stop - 14, title, "title")]
    for value, said in marks:
        at = up.place(value)
        drawn += [line(LEFT, at, across.stop, at, "grid"), text(LEFT - 8, at + 4, said, "end")]
    drawn += [line(LEFT, up.start, LEFT, up.stop, "axis"), line(LEFT, up.start, across.stop, up.start, "axis")]
    for second in ticks(across.high, 10):
        if second <= across.high * 1.0001:
            at = across.place(second)
            drawn += [line(at, up.start, at, up.start + 5, "axis"), text(at, up.start + 20, f"{second:g}", "middle")]
    drawn.append(text((LEFT + across.stop) / 2, up.start + 40, "seconds since the start", "middle"))
    ends = []
    for name, points in lines.items():
        placed = [(across.place(second), up.place(value)) for second, value in points]
        drawn += curve(placed, COLOURS[name])
        ends.append(placed[-1][1] + 4)
    for (name, _), at in zip(lines.items(), apart(ends, up.start)):
        drawn.append(text(across.stop + 10, at, name, more=f' style="fill: {COLOURS[name]}"'))
    return drawn


def rates(intervals: list[Interval]) -> dict[str, list[tuple[float, float]]]:
    """Statements a second, of all and by kind where there is more than one; each at the end of its interval."""
    kinds = kinds_of(intervals)
    drawn = {"all": [(i.end, i.all().total / i.length) for i in intervals]}
    if len(kinds) > 1:
        drawn.update({kind: [(i.end, i.kinds[kind].total / i.length) for i in intervals] for kind in kinds})
    return drawn


def latencies(intervals: list[Interval]) -> dict[str, list[tuple[float, float]]]:
    """Nanoseconds of all statements by interval; one in which nothing was answered has no point."""
    sums = [(i.end, i.all()) for i in intervals]
    counted = [(end, counts) for end, counts in sums if counts.total]
    return {"50 %": [(end, counts.percentile(50)) for end, counts in counted],
        "99 %": [(end, counts.percentile(99)) for end, counts in counted],
        "most": [(end, counts.most) for end, counts in counted]}


def values(lines: dict[str, list[tuple[float, float]]]) -> list[float]:
    return [value for points in lines.values() for _, value in points]


def picture(intervals: list[Interval], work: Work) -> str:
    """The whole picture, as text of an SVG file."""
    across = Scale(0.0, intervals[-1].end, LEFT, WIDTH - RIGHT)
    fast, slow = rates(intervals), latencies(intervals)
    marks = ticks(max(values(fast)))
    first = Scale(0.0, marks[-1], TOP + HEIGHT, TOP)
    drawn = panel("statements a second", fast, across, first, [(mark, f"{mark:,.0f}") for mark in marks])
    low, high = math.floor(math.log10(min(values(slow)))), math.ceil(math.log10(max(values(slow)) + 1))
    base = TOP + 2 * HEIGHT + GAP
    second = Scale(10.0 ** low, 10.0 ** high, base, base - HEIGHT, is_log=True)
    powers = [10.0 ** n for n in range(low, high + 1)]
    drawn += panel("latency of all statements", slow, across, second, [(power, time_text(power)) for power in powers])
    shares = ", ".join(f"{kind}={share}" for kind, share in work.mix.items())
    told = f"{work.clients} clients, {work.pipeline} statements a write, {shares}"
    height = base + BOTTOM
    return "\n".join([f'<svg xmlns="http://www.w3.org/2000/svg" width="{WIDTH}" height="{height}" '
        f'viewBox="0 0 {WIDTH} {height}">', STYLE, f'<rect width="{WIDTH}" height="{height}" fill="#ffffff"/>',
        text(LEFT, 24, told), *drawn, "</svg>"]) + "\n"

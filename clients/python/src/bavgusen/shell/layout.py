"""How replies look on a terminal."""
from __future__ import annotations

import unicodedata
from typing import Iterator, Optional, Sequence, Tuple

from ..replies import Kind, Value


def width(text: str) -> int:
    """How many places of a terminal a text takes."""
    return len(text) if text.isascii() else sum(map(_places, text))


def _places(char: str) -> int:
    if unicodedata.category(char) in ("Mn", "Me", "Cf"):
        return 0
    return 2 if unicodedata.east_asian_width(char) in "WF" else 1


def pointed(statement: str, position: int) -> Tuple[str, str]:
    """The line of a statement that has this position, and a caret to stand below it there."""
    start = statement.rfind("\n", 0, position) + 1
    line = statement[start:].partition("\n")[0]
    front = line[:position - start]
    return line, "".join("\t" if char == "\t" else _places(char) * " " for char in front) + "^"


def aligned(columns: Sequence[str], rows: Sequence[Sequence[Value]],
        types: Sequence[Optional[Kind]]) -> Iterator[str]:
    """A table with its columns one below another, numbers to the right; without names it has no head."""
    cells = [[str(value) for value in row] for row in rows]
    head = [columns] if columns else []
    widths = [max(width(cell) for cell in column) for column in zip(*head, *cells)]
    for row in head:
        yield _row(row, widths, types)
        yield "-+-".join(size * "-" for size in widths)
    for row in cells:
        yield _row(row, widths, types)


def _row(cells: Sequence[str], widths: Sequence[int], types: Sequence[Optional[Kind]]) -> str:
    padded = []
    for cell, size, kind in zip(cells, widths, types):
        gap = (size - width(cell)) * " "
        padded.append(gap + cell if kind is int else cell + gap)
    return " | ".join(padded).rstrip(" ")


def counted(count: int, one: str) -> str:
    """As in `1 row` and `2 rows`."""
    return f"{count:,} {one}" + ("" if count == 1 else "s")

"""The forms in which replies are shown: as tables, as CSV, and as the server wrote them."""
from __future__ import annotations

from dataclasses import dataclass
from typing import Callable, Iterator, List, Sequence, Tuple

from ..export import CUT, Export
from ..replies import Checkpoints, Reply, Rows, Value
from .layout import aligned, counted
from .session import Session

Warn = Callable[[str], None]
CHECKPOINT_NAMES = ("state", "number", "point", "left")


@dataclass(frozen=True)
class Form:
    """A form: `shown` gives the lines of a reply that was carried out, and warns of what these do not say.

    `tells_changes`: whether a script is told of statements that give no rows. `tells_failures`: whether what was not
    carried out stands among the lines too.
    """

    shown: Callable[[Reply, Session, Warn], Iterator[str]]
    tells_changes: bool = True
    tells_failures: bool = False


def names_of(reply: Rows) -> Tuple[str, ...]:
    """The names of the columns; `column1` and so on where they are not known, and none where there is no row either."""
    return reply.columns or tuple(f"column{n}" for n in range(1, len(reply.types or ()) + 1))


def _checkpoints(reply: Checkpoints) -> List[Tuple[Value, ...]]:
    rows: List[Tuple[Value, ...]] = [("finished", each.number, each.point, "") for each in reply.finished]
    active = reply.active
    return rows if active is None else [*rows, ("active", active.number, active.point, active.left)]


def _as_tables(reply: Reply, session: Session, warn: Warn) -> Iterator[str]:
    if isinstance(reply, Rows):
        yield from aligned(names_of(reply), reply.rows, reply.types or ())
        yield f"({counted(len(reply.rows), 'row')}) @{reply.moment}"
    elif isinstance(reply, Checkpoints):
        rows = _checkpoints(reply)
        yield from aligned(CHECKPOINT_NAMES, rows, (None, int, int, int))
        yield f"({counted(len(rows), 'checkpoint')}) @{reply.moment}"
    else:
        yield from (line for line in session.lines(reply) if line != CUT)


def record(fields: Sequence[Value]) -> str:
    """A line of CSV. Empty texts and `\\.` are quoted too, which PostgreSQL takes for NULL and for the end."""
    return ",".join('"' + text.replace('"', '""') + '"' if text in ("", "\\.") or "," in text or '"' in text else text
        for text in map(str, fields))


def _as_csv(reply: Reply, session: Session, warn: Warn) -> Iterator[str]:
    if isinstance(reply, Rows):
        names = names_of(reply)
        yield from (record(fields) for fields in [*([names] if names else []), *reply.rows])
    elif isinstance(reply, Checkpoints):
        yield from (",".join(map(str, fields)) for fields in [CHECKPOINT_NAMES, *_checkpoints(reply)])
    elif isinstance(reply, Export):
        yield from _export_as_csv(reply, warn)
    else:
        yield str(reply)


def _export_as_csv(export: Export, warn: Warn) -> Iterator[str]:
    """Tables one below another, an empty line between two."""
    is_first = True
    for table in export:
        if table.withheld is not None:
            warn(f"{table.name} is withheld: {table.withheld}")
            continue
        if not is_first:
            yield ""
        is_first = False
        yield record(table.columns)
        yield from map(record, table)


def _as_written(reply: Reply, session: Session, warn: Warn) -> Iterator[str]:
    return session.lines(reply)


TABLES = Form(_as_tables)
CSV = Form(_as_csv, tells_changes=False)
RAW = Form(_as_written, tells_failures=True)

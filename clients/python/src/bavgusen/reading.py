"""A reply from its lines."""
from __future__ import annotations

import csv
import re
from dataclasses import replace
from typing import Callable, Deque, Dict, List, Match, NamedTuple, Optional, Tuple

from . import records
from .errors import DataError
from .export import Export
from .replies import (ActiveCheckpoint, Begun, Checkpoint, Checkpoints, Denied, Done, Fault, Kind, Refused, Reply, Row,
    Rows)
from .tables import Columns, Tables, selected
from .wire import Wire


class Asked(NamedTuple):
    """A line as it was sent, and the columns that its caller gave, if any."""

    statement: str
    columns: Optional[Columns] = None


class Reader:
    """Reads the replies that come on a wire, with what is known of tables, and learns of tables as it goes."""

    def __init__(self, wire: Wire, tables: Tables) -> None:
        self._wire, self._tables = wire, tables
        self._forms: Dict[str, Tuple[re.Pattern[str], Callable[[Match[str], Asked], Reply]]] = {
            word: (re.compile(form), made) for word, form, made in (
                ("done", "done @([0-9]+)", self._done),
                ("rows", "rows ([0-9]+) @([0-9]+)", self._rows),
                ("checkpoint", "checkpoint ([0-9]+) begun @([0-9]+)", self._begun),
                ("checkpoints", "checkpoints ([0-9]+) @([0-9]+)", self._checkpoints),
                ("export", "export ([0-9]+) point ([0-9]+) @([0-9]+)", self._export),
                ("denied", "denied @([0-9]+): (.+)", self._denied),
                ("refused", "refused @([0-9]+): (.+)", self._refused),
                ("refused:", "refused: (.+)", self._unread),
                ("error", "error ([0-9]+) at ([0-9]+): (.+)", self._fault),
            )}

    def ask(self, asked: Asked) -> Reply:
        """Sends the line, and reads its reply, whole but for an export's tables.

        A `DataError` says that the columns which the caller gave do not fit the rows that came.
        """
        with self._wire.whole:
            self._wire.put(asked.statement)
            reply = self._whole(asked)
        return self._named(reply, asked) if isinstance(reply, Rows) else reply

    def reply(self, waiting: Deque[Asked]) -> Reply:
        """Reads the reply to the first of those that wait, as `ask` does, and takes that one out."""
        with self._wire.whole:
            asked = waiting.popleft()
            reply = self._whole(asked)
        return self._named(reply, asked) if isinstance(reply, Rows) else reply

    def dropped(self, waiting: Deque[Asked]) -> None:
        """Reads the reply to the first of those that wait to its end, and drops it."""
        with self._wire.whole:
            reply = self._whole(waiting.popleft())
            if isinstance(reply, Export):
                reply.close()

    def _whole(self, asked: Asked) -> Reply:
        line = self._wire.line()
        form, made = self._forms.get(line.partition(" ")[0], (None, None))
        found = form.fullmatch(line) if form else None
        if found is None or made is None:
            raise self._wire.garbled(line)
        return made(found, asked)

    def _done(self, found: Match[str], asked: Asked) -> Reply:
        self._tables.learn(asked.statement)
        return Done(int(found[1]))

    def _rows(self, found: Match[str], asked: Asked) -> Reply:
        rows: List[Row] = [tuple(self._record("row,")) for _ in range(int(found[1]))]
        if any(len(row) != len(rows[0]) for row in rows):
            raise self._wire.garbled("rows of several lengths")
        return Rows(int(found[2]), None, rows)

    def _begun(self, found: Match[str], asked: Asked) -> Reply:
        return Begun(int(found[1]), int(found[2]))

    def _checkpoints(self, found: Match[str], asked: Asked) -> Reply:
        finished, active = [], None
        for _ in range(int(found[1])):
            line = self._wire.line()
            kept = re.fullmatch("finished,([0-9]+),([0-9]+)", line)
            taken = re.fullmatch("active,([0-9]+),([0-9]+),([0-9]+)", line)
            if kept and active is None:
                finished.append(Checkpoint(int(kept[1]), int(kept[2])))
            elif taken and active is None:
                active = ActiveCheckpoint(int(taken[1]), int(taken[2]), int(taken[3]))
            else:
                raise self._wire.garbled(line)
        return Checkpoints(int(found[2]), tuple(finished), active)

    def _export(self, found: Match[str], asked: Asked) -> Reply:
        return Export(int(found[1]), int(found[2]), int(found[3]), self._wire, self._tables)

    def _denied(self, found: Match[str], asked: Asked) -> Reply:
        return Denied(int(found[1]), found[2], asked.statement)

    def _refused(self, found: Match[str], asked: Asked) -> Reply:
        return Refused(int(found[1]), found[2], asked.statement)

    def _unread(self, found: Match[str], asked: Asked) -> Reply:
        return Refused(None, found[1], asked.statement)

    def _fault(self, found: Match[str], asked: Asked) -> Reply:
        return Fault(int(found[1]), int(found[2]), found[3], asked.statement)

    def _record(self, front: str) -> List[str]:
        """The fields of the next line, which begins so."""
        line = self._wire.line()
        if not line.startswith(front):
            raise self._wire.garbled(line)
        try:
            return records.split(line[len(front):])
        except csv.Error:
            raise self._wire.garbled(line) from None

    def _named(self, reply: Rows, asked: Asked) -> Rows:
        """The rows with the names and types of their columns, as far as these are known."""
        columns, types = self._layout(asked)
        size = len(reply.rows[0]) if reply.rows else None
        if columns is None:
            return replace(reply, types=None if size is None else size * (None,))
        if size not in (None, len(columns)):
            raise DataError(f"{size} fields in a row, and {len(columns)} columns: {', '.join(columns)}")
        rows = [records.typed(row, types) for row in reply.rows] if int in types else reply.rows
        return replace(reply, columns=columns, rows=rows, types=types)

    def _layout(self, asked: Asked) -> Tuple[Optional[Tuple[str, ...]], Tuple[Optional[Kind], ...]]:
        """The names of the columns that a SELECT gives, or None, and their types."""
        chosen, given = selected(asked.statement), asked.columns or {}
        table = chosen.table if chosen else None
        columns = chosen.columns if chosen else None
        if columns is None:
            columns = tuple(self._tables.get(table or "", given)) or None
        if columns is None:
            return None, ()
        strange = [column for column in given if column not in columns]
        if strange:
            raise DataError(f"no column of these rows: {', '.join(strange)}")
        return columns, tuple(given.get(column) or self._tables.kind_of(table, column) for column in columns)

"""The cursor of DB-API 2.0 (PEP 249), over `Connection`."""
from __future__ import annotations

import re
from types import TracebackType
from typing import Any, Iterable, Iterator, List, Optional, Sequence, Tuple, Type

from .connection import Connection
from .errors import InterfaceError, NotSupportedError, ProgrammingError
from .replies import Kind, Reply, Row, Rows

Column = Tuple[Optional[str], Optional[Kind], None, None, None, None, None]
_FIRST_WORD = re.compile(r"\s*([a-z]*)", re.ASCII | re.IGNORECASE)


class Cursor:
    """Carries statements out, raises what is not carried out, and gives the rows of the last SELECT.

    All rows are read before the first is fetched. `reply` is the reply to the last statement, of any kind. An EXPORT
    has many tables, and is no statement for a cursor: see `Connection.export`.
    """

    def __init__(self, connection: Connection) -> None:
        self.connection = connection
        self.arraysize = 1
        self.reply: Optional[Reply] = None
        self._next = 0
        self._is_closed = False

    @property
    def description(self) -> Optional[Sequence[Column]]:
        """None but behind a SELECT; then of each column its name, its type (`int`, `str`) and five times None.

        What the client does not know is None: behind `SELECT *` of a table that it was not told of, names and types,
        and without a row to count by there are no columns at all.
        """
        if not isinstance(self.reply, Rows):
            return None
        types = self.reply.types or ()
        names = self.reply.columns or len(types) * (None,)
        return [(name, kind, None, None, None, None, None) for name, kind in zip(names, types)]

    @property
    def rownumber(self) -> Optional[int]:
        """The number, from 0, of the row that is fetched next; or None but behind a SELECT."""
        return self._next if isinstance(self.reply, Rows) else None

    @property
    def rowcount(self) -> int:
        """How many rows the last SELECT gave; -1 behind other statements: no reply tells how many rows they touched."""
        return len(self.reply.rows) if isinstance(self.reply, Rows) else -1

    def execute(self, statement: str, parameters: Optional[Sequence[Any]] = None) -> Cursor:
        """Carries a statement out, and gives this cursor. See `Connection.execute`; each `?` is a parameter's place.

        What the server does not carry out is raised: `DeniedError`, `RefusedError`, `FaultError`.
        """
        self._begin()
        _first_word(statement)
        self.reply = self.connection.execute(statement, parameters, check=True)
        return self

    def executemany(self, statement: str, sets: Iterable[Sequence[Any]]) -> Cursor:
        """Carries a statement out once for each set of parameters, in a pipeline.

        The first that is not carried out is raised. **Sets behind it that were sent already are carried out all the
        same**, as there are no transactions. A SELECT is a `ProgrammingError`, before anything is sent.
        """
        self._begin()
        if _first_word(statement) == "select":
            raise ProgrammingError("executemany is for statements that give no rows")
        with self.connection.pipeline(((statement, each) for each in sets), check=True) as replies:
            for self.reply in replies:
                pass
        return self

    def fetchone(self) -> Optional[Row]:
        """The next row, or None behind the last."""
        rows = self._rows()
        if self._next >= len(rows):
            return None
        self._next += 1
        return rows[self._next - 1]

    def fetchmany(self, size: Optional[int] = None) -> List[Row]:
        """So many rows, or as many as there are; `arraysize` where no size is given.

        A size below 0 is a `ProgrammingError`.
        """
        start, rows = self._next, self._rows()
        size = self.arraysize if size is None else size
        if size < 0:
            raise ProgrammingError(f"no number of rows: {size}")
        self._next = min(len(rows), start + size)
        return rows[start:self._next]

    def fetchall(self) -> List[Row]:
        """The rows that were not fetched yet."""
        return self.fetchmany(len(self._rows()))

    def close(self) -> None:
        """Closes the cursor, and leaves its connection open. A second call does nothing."""
        self._is_closed, self.reply = True, None

    def setinputsizes(self, sizes: Any) -> None:
        """Does nothing, as DB-API 2.0 allows."""

    def setoutputsize(self, size: int, column: Optional[int] = None) -> None:
        """Does nothing, as DB-API 2.0 allows."""

    def __iter__(self) -> Iterator[Row]:
        return self

    def __next__(self) -> Row:
        row = self.fetchone()
        if row is None:
            raise StopIteration
        return row

    def __enter__(self) -> Cursor:
        return self

    def __exit__(self, kind: Optional[Type[BaseException]], error: Optional[BaseException],
            trace: Optional[TracebackType]) -> None:
        self.close()

    def _open(self) -> None:
        if self._is_closed:
            raise InterfaceError("the cursor is closed")

    def _begin(self) -> None:
        self._open()
        self.reply, self._next = None, 0

    def _rows(self) -> List[Row]:
        self._open()
        if not isinstance(self.reply, Rows):
            raise ProgrammingError("no rows: the last statement was no SELECT that was carried out")
        return self.reply.rows


def _first_word(statement: str) -> str:
    """The first word of the statement, in small letters. An EXPORT, which gives many tables, is refused."""
    found = _FIRST_WORD.match(statement) if isinstance(statement, str) else None
    word = found[1].lower() if found else ""
    if word == "export":
        raise NotSupportedError("an export has many tables: use Connection.export")
    return word

"""An export as it comes: tables one after another, and of each its rows."""
from __future__ import annotations

import csv
from types import TracebackType
from typing import Iterator, List, Optional, Sequence, Tuple, Type, Union

from . import records
from .errors import ExportCut, InterfaceError, ProgrammingError
from .replies import Kind, Reply, Row
from .tables import Tables
from .wire import Wire

CUT = "export cut: no memory"


class ExportedTable:
    """A table of an export. Iterate over it for its rows, each a tuple with a field for each of `columns`.

    `columns` has the names of those columns that the user may select. Fields are `int` or `str` where the connection
    knows the column's type (`types`), and else `str`. Rows are read from the server as they are asked for, once, and
    only until the export is asked for its next table.
    """

    withheld = None

    def __init__(self, name: str, columns: Tuple[str, ...], types: Tuple[Optional[Kind], ...], rows: Iterator[Row]):
        self.name, self.columns, self.types = name, columns, types
        self._rows = rows

    def __iter__(self) -> Iterator[Row]:
        return self._rows

    def __repr__(self) -> str:
        return f"ExportedTable({self.name!r}, {self.columns!r})"


class WithheldTable:
    """A table of an export of which the user may select no column.

    `withheld` is `point` if he held none when the checkpoint was begun, and `now` if he held one then and holds none of
    these any more. It has no `columns`, and to ask for its rows is a `ProgrammingError`: that there are none is not
    known.
    """

    columns: Tuple[str, ...] = ()
    types: Tuple[Optional[Kind], ...] = ()

    def __init__(self, name: str, withheld: str) -> None:
        self.name, self.withheld = name, withheld

    def __iter__(self) -> Iterator[Row]:
        raise ProgrammingError(f"no rows of {self.name}: it is withheld: {self.withheld}")

    def __repr__(self) -> str:
        return f"WithheldTable({self.name!r}, {self.withheld!r})"


Table = Union[ExportedTable, WithheldTable]


class Export(Reply):
    """The answer to EXPORT. Iterate over it for its tables, in the order of their creation.

    `number` is the checkpoint's, `point` the moment whose rows it has, and `moment` that of the request. Nothing is
    read before it is asked for, and nothing is kept. **An export that is left early is read to its end and dropped**:
    by `close`, by the end of a `with`, or by the next statement of its connection. To leave a large one without this,
    close the connection.

    Where the server runs out of memory for the next record, that record's place raises `ExportCut`. So a loop that
    ends without an error has seen all: `is_whole` says so.
    """

    def __init__(self, number: int, point: int, moment: int, wire: Wire, tables: Tables) -> None:
        self.number, self.point, self.moment = number, point, moment
        self.is_whole = False
        self._wire, self._tables = wire, tables
        self._ahead: Optional[str] = None
        self._is_open = True
        self._table: Optional[str] = None

    def __str__(self) -> str:
        return f"export {self.number} point {self.point} @{self.moment}"

    def __repr__(self) -> str:
        return f"Export(number={self.number}, point={self.point}, moment={self.moment})"

    def __iter__(self) -> Iterator[Table]:
        return self

    def __next__(self) -> Table:
        """The next table. Rows of the one before that were not asked for are passed over."""
        if self.is_whole:
            raise StopIteration
        line = self._taken()
        while line.startswith("row,") and self._table is not None:
            line = self._taken()
        self._table = None
        if line.startswith("table,"):
            return self._listed(line)
        if line.startswith("withheld,"):
            return self._withheld(line)
        self._end(line)
        raise StopIteration

    def lines(self) -> Iterator[str]:
        """The lines as the server wrote them, without line ends: in place of the tables, or what is left of them.

        Where the export is cut, the line that says so is followed by `ExportCut`.
        """
        yield str(self)
        while self._is_open:
            line = self._taken(may_be_cut=True)
            if not line.startswith(("table,", "withheld,", "row,", "end ")) and line != CUT:
                raise self._wire.garbled(line)
            yield line
            if line.startswith("end ") or line == CUT:
                self._end(line)

    def close(self) -> None:
        """Reads what is left, and drops it. Behind the end it does nothing."""
        while self._is_open and not self._wire.is_closed:
            line = self._taken(may_be_cut=True)
            self._is_open = line != CUT and not line.startswith("end ")

    def __enter__(self) -> Export:
        return self

    def __exit__(self, kind: Optional[Type[BaseException]], error: Optional[BaseException],
            trace: Optional[TracebackType]) -> None:
        self.close()

    def _listed(self, line: str) -> ExportedTable:
        name, *columns = self._fields(line)
        if not columns:
            raise self._wire.garbled(line)
        types = tuple(self._tables.kind_of(name, column) for column in columns)
        self._table = name
        return ExportedTable(name, tuple(columns), types, self._rows(name, types))

    def _withheld(self, line: str) -> WithheldTable:
        fields = self._fields(line)
        if len(fields) != 2:
            raise self._wire.garbled(line)
        return WithheldTable(*fields)

    def _rows(self, table: str, types: Sequence[Optional[Kind]]) -> Iterator[Row]:
        while self._table == table:
            if not self._next().startswith(("row,", CUT)):
                return
            line = self._taken()
            fields = self._fields(line)
            if len(fields) != len(types):
                raise self._wire.garbled(line)
            yield records.typed(fields, types)
        raise InterfaceError(f"the rows of {table} were passed over")

    def _fields(self, line: str) -> List[str]:
        try:
            return records.split(line.partition(",")[2])
        except csv.Error:
            raise self._wire.garbled(line) from None

    def _next(self) -> str:
        """The next line. It stays the next one until it is taken."""
        if not self._is_open:
            raise InterfaceError("this export has ended, or was left")
        if self._ahead is None:
            with self._wire.whole:
                self._ahead = self._wire.line()
        return self._ahead

    def _taken(self, may_be_cut: bool = False) -> str:
        """Takes the next line."""
        line, self._ahead = self._next(), None
        if line == CUT and not may_be_cut:
            self._end(line)
        return line

    def _end(self, line: str) -> None:
        """The last line is `end n`, or says that the export is cut."""
        if line != CUT and line != f"end {self.number}":
            raise self._wire.garbled(line)
        self._is_open = False
        self._table = None
        if line == CUT:
            raise ExportCut(line)
        self.is_whole = True

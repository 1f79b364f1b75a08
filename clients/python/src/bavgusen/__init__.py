"""Client of Bavgusen, a main-memory table server: sessions, exports as they come, pipelines, and DB-API 2.0.

    >>> import bavgusen
    >>> with bavgusen.connect("127.0.0.1", 7878, "ann") as session:
    ...     session.execute("CREATE TABLE pay (name TEXT, wage INTEGER)")
    ...     session.execute("INSERT INTO pay VALUES (?, ?)", ("Bo, jr", -5))
    ...     session.execute("SELECT * FROM pay").rows
    Done(moment=1)
    Done(moment=2)
    [('Bo, jr', -5)]

What the server answers is what `execute` gives: `Done`, `Rows`, `Begun`, `Checkpoints`, `Export`; and `Denied`,
`Refused` and `Fault`, which are raised with `check=True`. Of DB-API 2.0 (PEP 249) there are `connect`,
`Connection.cursor` and the exceptions; there are no transactions, no dates, no binary data and no NULL.
"""
from typing import Any, Callable, NoReturn

from .connection import Connection, connect
from .cursor import Cursor
from .errors import (ConnectionEnded, DatabaseError, DataError, DeniedError, Error, ExportCut, FaultError,
    IntegrityError, InterfaceError, InternalError, LoginError, MisfitError, NotSupportedError, OperationalError,
    ProgrammingError, ProtocolError, RefusedError, TimedOut, UnavailableError, Warning)
from .export import Export, ExportedTable, WithheldTable
from .literals import KEYWORDS, bind, literal, name
from .pipeline import Pipeline
from .replies import (ActiveCheckpoint, Begun, Checkpoint, Checkpoints, Denied, Done, Fault, Refused, Reply, Rows)
from .tables import Tables, tables_of

__version__ = "0.1.0"

apilevel = "2.0"
threadsafety = 1
"""Threads may share the module, and no connection."""
paramstyle = "qmark"

STRING = str
"""The type code of TEXT columns in `Cursor.description`."""
NUMBER = int
"""The type code of INTEGER columns in `Cursor.description`."""


def _missing(what: str) -> Callable[..., NoReturn]:
    def made(*words: Any) -> NoReturn:
        """Of DB-API 2.0; raises `NotSupportedError`, as values are `int` and `str`."""
        raise NotSupportedError(f"there is no type {what}: values are int and str")
    return made


# (of DB-API, for programs that ask whether they are there)
Date, Time, Timestamp, Binary = (_missing(what) for what in ("Date", "Time", "Timestamp", "Binary"))
DateFromTicks, TimeFromTicks, TimestampFromTicks = Date, Time, Timestamp


class BINARY:
    """Of DB-API 2.0: the type code of no column."""


class DATETIME:
    """Of DB-API 2.0: the type code of no column."""


class ROWID:
    """Of DB-API 2.0: the type code of no column."""


__all__ = [
    "connect", "Connection", "Cursor", "Pipeline", "Export", "ExportedTable", "WithheldTable",
    "Reply", "Done", "Rows", "Begun", "Checkpoints", "Checkpoint", "ActiveCheckpoint", "Denied", "Refused", "Fault",
    "Tables", "tables_of", "KEYWORDS", "bind", "literal", "name",
    "Warning", "Error", "InterfaceError", "DatabaseError", "DataError", "OperationalError", "IntegrityError",
    "InternalError", "ProgrammingError", "NotSupportedError",
    "ProtocolError", "ConnectionEnded", "LoginError", "TimedOut", "ExportCut", "DeniedError", "RefusedError",
    "MisfitError", "UnavailableError", "FaultError",
    "apilevel", "threadsafety", "paramstyle", "STRING", "NUMBER", "BINARY", "DATETIME", "ROWID",
    "Date", "Time", "Timestamp", "DateFromTicks", "TimeFromTicks", "TimestampFromTicks", "Binary",
]

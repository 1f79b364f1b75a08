"""A session with a server."""
from __future__ import annotations

import re
import socket
from types import TracebackType
from typing import TYPE_CHECKING, Any, Iterable, List, Mapping, Optional, Type, Union

from . import errors
from .errors import (ConnectionEnded, FaultError, InterfaceError, LoginError, NotSupportedError, ProgrammingError,
    TimedOut)
from .export import Export
from .literals import line_of, name
from .pipeline import Pipeline, Statement
from .reading import Asked, Reader
from .replies import Fault, Refused, Reply, Row, Rows
from .scram import Login
from .tables import Columns, Tables, checked
from .wire import Wire

if TYPE_CHECKING:
    from .cursor import Cursor

_FAULT = re.compile("error ([0-9]+) at ([0-9]+): (.+)")
_REFUSED = re.compile("refused: (.+)")
_NO_LOGIN = "login"
_SELECT = re.compile(r"\s*select\b", re.ASCII | re.IGNORECASE)


def connect(host: str, port: int, user: str, *, password: Optional[str] = None, timeout: Optional[float] = None,
        tables: Optional[Mapping[str, Columns]] = None) -> Connection:
    """Begins a session of this user, and waits until the server has welcomed him.

    With `password`, of printable ASCII, it logs in by SCRAM-SHA-256: the password itself is never sent, and the server
    has to show that it knows this user's verifier. A server with a file of users takes no session without a password,
    and a server without such a file none with one: either is a `FaultError`, and nothing else is tried.

    A server whose workers are all busy lets a client wait. `timeout` is in seconds: how long the connection may take,
    and then each wait until a byte comes or goes; None is for ever. `tables` has columns by table, as
    `Connection.declare` takes them.

    Errors: `ProgrammingError` of what is no name, no port or no password; `ConnectionEnded` where nobody listens or the
    session is ended at once; `LoginError` where the login is refused, which is told a second later, or where the server
    has not shown that it knows the user; `UnavailableError` where it has no memory for the session, or as many sessions
    as it may (`refused: sessions`); `TimedOut`; `ProtocolError` where something else than this server answers.
    """
    user, known = name(user), Tables()
    login = None if password is None else Login(password)
    for table, columns in (tables or {}).items():
        known.declare(table, columns)
    if not isinstance(port, int) or not 1 <= port <= 65535:
        raise ProgrammingError(f"a port is a number from 1 to 65535, and not {port!r}")
    try:
        link = socket.create_connection((host, port), timeout)
    except socket.timeout as fault:
        raise TimedOut(f"no connection to {host}:{port} within {timeout} seconds") from fault
    except OSError as fault:
        raise ConnectionEnded(f"no connection to {host}:{port}: {fault.strerror or fault}") from fault
    link.setsockopt(socket.IPPROTO_TCP, socket.TCP_NODELAY, 1)
    wire = Wire(link, timeout)
    with wire.whole:
        if login is None:
            wire.put(f"USER {user}")
            welcome = _told(wire, f"USER {user}")
        else:
            welcome = _logged_in(wire, user, login)
        if welcome != f"welcome {user}":
            raise wire.garbled(welcome)
    return Connection(wire, user, known)


def _told(wire: Wire, said: str) -> str:
    """The next line, before the first statement. One that says that there is no session is raised, with what was said.
    """
    told = wire.line()
    fault, refused = _FAULT.fullmatch(told), _REFUSED.fullmatch(told)
    if fault:
        raise FaultError(Fault(int(fault[1]), int(fault[2]), fault[3], said))
    if refused and refused[1] == _NO_LOGIN:
        raise LoginError("the server refused the login: no such user, or another password")
    if refused:
        raise Refused(None, refused[1], said).error()
    return told


def _logged_in(wire: Wire, user: str, login: Login) -> str:
    """What is said behind a login, once the server has shown that it knows the user."""
    # (an error shows no more of what was said than this)
    said = f"LOGIN {user}"
    wire.put(f"{said} {login.first}")
    wire.put(login.last(_told(wire, said)))
    if not login.is_signed(_told(wire, said)):
        raise LoginError("the server has not shown that it knows this user: it may be another that answers there")
    return _told(wire, said)


class Connection:
    """A session of one user; `connect` begins one. As a context manager it is closed at its end.

    There are no transactions: a statement is carried out whole or not at all, and for good. Threads may not share a
    connection. After an error of the connection itself, a time-out or an interrupt, it is closed, since what comes next
    could answer another statement. The exceptions of DB-API 2.0 are its attributes too.
    """

    Warning, Error, InterfaceError = errors.Warning, errors.Error, errors.InterfaceError
    DatabaseError, DataError, OperationalError = errors.DatabaseError, errors.DataError, errors.OperationalError
    IntegrityError, InternalError = errors.IntegrityError, errors.InternalError
    ProgrammingError, NotSupportedError = errors.ProgrammingError, errors.NotSupportedError

    def __init__(self, wire: Wire, user: str, tables: Tables) -> None:
        self._wire, self._user, self._tables = wire, user, tables
        self._reader = Reader(wire, tables)
        self._left: Union[Export, Pipeline, None] = None

    @property
    def user(self) -> str:
        """Whose session it is, as the server prints the name."""
        return self._user

    @property
    def closed(self) -> bool:
        """Whether it is closed, by `close` or by an error."""
        return self._wire.is_closed

    @property
    def timeout(self) -> Optional[float]:
        """Seconds that each wait for a byte may take; None is for ever. It may be set."""
        return self._wire.timeout

    @timeout.setter
    def timeout(self, seconds: Optional[float]) -> None:
        self._wire.timeout = seconds

    @property
    def tables(self) -> Tables:
        """The tables whose columns this connection knows: those that it saw created, and those that were declared."""
        return self._tables

    def declare(self, table: str, columns: Columns) -> None:
        """Says that a table has these columns, all of them and in its order, each of type `str` or `int`.

        The server tells no types, so this makes fields of other sessions' tables `int`. It is a `ProgrammingError` if
        the table is known otherwise. What is declared wrongly is found only where it does not fit the rows.
        """
        self._tables.declare(table, columns)

    def execute(self, statement: str, parameters: Optional[Iterable[Any]] = None, *, check: bool = False,
            columns: Optional[Columns] = None) -> Reply:
        """Sends a statement, and reads its reply: `Done`, `Rows`, `Begun`, `Checkpoints`, `Export`, `Denied`, `Refused`
        or `Fault`.

        Each `?` outside texts is replaced by the literal of its parameter, an `int` or a `str`. The statement may go
        over several lines, and is sent as one: of more than 4,096 bytes it is a `Fault`. With `check` the last three
        are raised as `DeniedError`, `RefusedError` and `FaultError`; `reply.raise_for_reply()` does so later. `columns`
        gives types of columns of a SELECT by name; behind `SELECT *` of an unknown table, all columns in order. An
        export or a pipeline that was left is first read to its end.

        Errors of what cannot be sent come before anything is sent: `ProgrammingError` (a line feed in a text, other
        than as many parameters as places), `DataError` (a value without literal). Then `ConnectionEnded`, `TimedOut`,
        `ProtocolError`; and `DataError` if rows do not fit `columns`, when the reply has been read.
        """
        asked = Asked(line_of(statement, parameters), None if columns is None else checked(columns))
        self._begin()
        reply = self._reader.ask(asked)
        if isinstance(reply, Export):
            self._left = reply
        return reply.raise_for_reply() if check else reply

    def rows(self, statement: str, parameters: Optional[Iterable[Any]] = None, *,
            columns: Optional[Columns] = None) -> List[Row]:
        """The rows of a SELECT: a tuple for each, whose fields are `int` or `str` as their columns are.

        It is `execute(.., check=True).rows`, with its errors. What is no SELECT is a `ProgrammingError`, and is not
        sent.
        """
        if not isinstance(statement, str) or not _SELECT.match(statement):
            raise ProgrammingError("rows are asked for by SELECT")
        reply = self.execute(statement, parameters, check=True, columns=columns)
        if not isinstance(reply, Rows):
            raise self._wire.garbled(str(reply))
        return reply.rows

    def export(self, number: int, only: Optional[str] = None) -> Export:
        """The export of a checkpoint, or of one table of it, as an iterator of tables that are read as they come.

        See `Export` for what it gives, and for leaving it early. It raises what the server does not carry out:
        `DeniedError`, `UnavailableError`.
        """
        if isinstance(number, bool) or not isinstance(number, int):
            raise ProgrammingError(f"the number of a checkpoint is an int, and no {type(number).__name__}")
        reply = self.execute(f"EXPORT {number}" + ("" if only is None else f" ONLY {name(only)}"), check=True)
        if not isinstance(reply, Export):
            raise self._wire.garbled(str(reply))
        return reply

    def pipeline(self, statements: Iterable[Statement], *, check: bool = False) -> Pipeline:
        """The replies to many statements, as an iterator; statements are sent while replies are read.

        A statement is a `str`, or a pair of a `str` and its parameters. They may be endless: each is taken when it can
        be sent. See `Pipeline` for leaving it early. With `check` the first that is not carried out is raised; **those
        behind it that were sent already are carried out all the same**.
        """
        self._begin()
        self._left = pipeline = Pipeline(self._wire, self._reader, statements, check)
        return pipeline

    def cursor(self) -> Cursor:
        """A cursor of DB-API 2.0."""
        from .cursor import Cursor
        self._open()
        return Cursor(self)

    def commit(self) -> None:
        """Does nothing: each statement was carried out for good when its reply came."""
        self._open()

    def rollback(self) -> None:
        """Raises `NotSupportedError`: nothing that was done is undone."""
        raise NotSupportedError("there are no transactions: each statement is carried out for good")

    def close(self) -> None:
        """Ends the session. What was not read of a reply is lost. A second call does nothing."""
        self._wire.close()

    def __enter__(self) -> Connection:
        self._open()
        return self

    def __exit__(self, kind: Optional[Type[BaseException]], error: Optional[BaseException],
            trace: Optional[TracebackType]) -> None:
        self.close()

    def __repr__(self) -> str:
        return f"<bavgusen.Connection of {self._user}{', closed' if self.closed else ''}>"

    def _open(self) -> None:
        if self.closed:
            raise InterfaceError("the connection is closed")

    def _begin(self) -> None:
        """What was left unread is read, so that the next line answers the next statement."""
        self._open()
        left, self._left = self._left, None
        if left is not None:
            left.close()
        self._wire.expect_nothing()

"""The exceptions: those of DB-API 2.0 (PEP 249), and below them what this server can answer.

    Error
      InterfaceError        the client was used in a way that it cannot be: a closed connection, an export that was left
        ProtocolError       what was read is no reply of this server
      DatabaseError
        DataError           a value that no literal can say, or a field that is not of the type that was given for it
          MisfitError       refused: a value does not fit the table (also a RefusedError)
        OperationalError
          ConnectionEnded   the server ended the session, or could not be reached
          LoginError        the login was refused, or the server has not shown that it knows the user
          TimedOut          the server said nothing, or took nothing, for too long (also a TimeoutError)
          ExportCut         the server had no memory for the rest of an export
          UnavailableError  refused: something is full, busy, worn, or out of memory (also a RefusedError)
        ProgrammingError    a statement that cannot be sent, or is not read
          DeniedError       denied: something is missing, a right, a table, a column or a checkpoint
          FaultError        the line is no statement
        RefusedError        refused: something does not fit, or is full
        NotSupportedError   what this server does not have: rolling back, say
        IntegrityError, InternalError: of DB-API, never raised here
"""
from __future__ import annotations

from typing import TYPE_CHECKING

if TYPE_CHECKING:
    from .replies import Denied, Fault, Refused


SHOWN = 40


class Warning(Exception):  # noqa: A001 - the name is that of PEP 249
    """Of DB-API 2.0; never raised here."""


class Error(Exception):
    """What all errors of this package are."""


class InterfaceError(Error):
    """The client was used in a way that it cannot be: it is closed, or what is asked for was left."""


class ProtocolError(InterfaceError):
    """What was read is no reply of this server. The connection is closed."""


class DatabaseError(Error):
    """What has to do with the server, its tables, or what is said to it."""


class DataError(DatabaseError):
    """A value that no literal can say, or a field that is not of the type that was given for its column."""


class OperationalError(DatabaseError):
    """The server could not, whatever was asked: it ended, was out of memory, or something was full."""


class LoginError(OperationalError):
    """The login was refused, or the server has not shown that it knows the user. The connection is closed."""


class ConnectionEnded(OperationalError):
    """The server ended the session before its answer was whole, or cannot be reached. The connection is closed.

    A server ends a session that was idle for longer than its `--idle`, or has sent 2^32 bytes; it has none for a
    client whom it has no memory to serve, or behind its last `--sessions`. One that cannot write its journal withholds
    the reply of the change and every later one. So whether a statement without a reply was carried out is not known.
    """


class TimedOut(OperationalError, TimeoutError):
    """No byte came or went for as long as the connection's timeout. The connection is closed."""


class ExportCut(OperationalError):
    """The server had no memory for the rest of an export. The session goes on."""


class IntegrityError(DatabaseError):
    """Of DB-API 2.0; never raised here, as there are no keys and no constraints."""


class InternalError(DatabaseError):
    """Of DB-API 2.0; never raised here."""


class ProgrammingError(DatabaseError):
    """A statement that cannot be sent, is not read, or lacks something that it names."""


class NotSupportedError(DatabaseError):
    """What DB-API 2.0 has and this server has not."""


class DeniedError(ProgrammingError):
    """The reply `denied @m: reason`. `reply` is the `Denied`."""

    def __init__(self, reply: Denied) -> None:
        super().__init__(str(reply))
        self.reply = reply


class RefusedError(DatabaseError):
    """The reply `refused @m: reason`, or `refused: reason`. `reply` is the `Refused`."""

    def __init__(self, reply: Refused) -> None:
        super().__init__(str(reply))
        self.reply = reply


class MisfitError(RefusedError, DataError):
    """Refused as a value does not fit the table: too many or too few values, or one of another type."""


class UnavailableError(RefusedError, OperationalError):
    """Refused for the server's sake: something is full, a checkpoint is active, memory is out, or turns are worn."""


class FaultError(ProgrammingError):
    """The reply `error code at offset: reason`. `reply` is the `Fault`; the text shows what stands at its place."""

    def __init__(self, reply: Fault) -> None:
        place = reply.statement[reply.position:reply.position + SHOWN]
        super().__init__(f"{reply}: {place!r}" if place else str(reply))
        self.reply = reply

"""What the server answers, each reply as a value.

`str(reply)` is its first line as the server wrote it, and `reply.lines()` gives all its lines. An export is in a module
of its own, since it is never held whole.
"""
from __future__ import annotations

import re
from dataclasses import dataclass, field
from typing import ClassVar, Dict, Iterator, List, Optional, Tuple, Type, TypeVar, Union

from .errors import DatabaseError, DeniedError, FaultError, MisfitError, RefusedError, UnavailableError

Value = Union[str, int]
Kind = Union[Type[str], Type[int]]
Row = Tuple[Value, ...]
SomeReply = TypeVar("SomeReply", bound="Reply")

_NAME = "([a-z][a-z0-9_]*)"
_PRIVILEGE = r"((?:SELECT|UPDATE)(?:\([a-z][a-z0-9_]*\))?|INSERT|DELETE)"

# The reasons of denials as the language has them, each with its kind and the names of its parts.
_DENIALS = tuple((kind, re.compile(form), tuple(parts.split())) for kind, form, parts in (
    ("no table", f"no table {_NAME}", "table"),
    ("no table", f"no table {_NAME} at checkpoint ([0-9]+)", "table checkpoint"),
    ("table exists", f"table {_NAME} exists", "table"),
    ("no column", f"no column {_NAME} in {_NAME}", "column table"),
    ("lacks", f"{_NAME} lacks {_PRIVILEGE} on {_NAME}", "user privilege table"),
    ("may not grant", f"{_NAME} may not grant {_PRIVILEGE} on {_NAME}", "user privilege table"),
    ("granted no", f"{_NAME} granted no {_PRIVILEGE} on {_NAME} to {_NAME}", "user privilege table grantee"),
    ("granted no option", f"{_NAME} granted no option for {_PRIVILEGE} on {_NAME} to {_NAME}",
        "user privilege table grantee"),
    ("no checkpoint", "no checkpoint ([0-9]+)", "checkpoint"),
    ("lacked", f"{_NAME} lacked {_PRIVILEGE} on {_NAME}", "user privilege table"),
    ("now lacks", f"{_NAME} now lacks {_PRIVILEGE} on {_NAME}", "user privilege table"),
))
_MISFIT = re.compile("[0-9]+ values for [0-9]+ columns|column [a-z][a-z0-9_]* takes (?:INTEGER|TEXT)")


def _quoted(field: str) -> str:
    """A field of a record: in quotes exactly where it has a comma or a quote."""
    return '"' + field.replace('"', '""') + '"' if "," in field or '"' in field else field


class Reply:
    """What all replies are."""

    ok: ClassVar[bool] = True
    """Whether the statement was carried out. It is not of `Denied`, `Refused` and `Fault`."""

    def error(self) -> Optional[DatabaseError]:
        """The exception that says the same, if the statement was not carried out."""
        return None

    def lines(self) -> Iterator[str]:
        """The lines of the reply as the server wrote them, without line ends."""
        yield str(self)

    def raise_for_reply(self: SomeReply) -> SomeReply:
        """The reply itself; or `error()` is raised, if the statement was not carried out."""
        error = self.error()
        if error is not None:
            raise error
        return self


@dataclass(frozen=True)
class Done(Reply):
    """A change was accepted; `moment` is how many there are now, and so the number of this one."""

    moment: int

    def __str__(self) -> str:
        return f"done @{self.moment}"


@dataclass(frozen=True)
class Rows(Reply):
    """The answer to SELECT.

    `rows` has a tuple for each row, in the order of INSERT. `columns` has the names of the fields, or is None where
    they are not known: that is, of `SELECT *` of a table whose columns this connection was not told. `types` has for
    each field `int` or `str` if its column's type is known, and else None; a field without a type stays a `str`. It is
    None if neither columns nor rows tell how many fields there are.
    """

    moment: int
    columns: Optional[Tuple[str, ...]]
    rows: List[Row]
    types: Optional[Tuple[Optional[Kind], ...]] = field(default=None, compare=False, repr=False)

    def __iter__(self) -> Iterator[Row]:
        return iter(self.rows)

    def lines(self) -> Iterator[str]:
        yield str(self)
        for row in self.rows:
            yield "row," + ",".join(_quoted(str(value)) for value in row)

    def __str__(self) -> str:
        return f"rows {len(self.rows)} @{self.moment}"


@dataclass(frozen=True)
class Begun(Reply):
    """The checkpoint of this number was begun at this moment, which is its point."""

    number: int
    moment: int

    def __str__(self) -> str:
        return f"checkpoint {self.number} begun @{self.moment}"


@dataclass(frozen=True)
class Checkpoint:
    """A finished checkpoint that is kept: its number, and the moment whose tables and grants it has."""

    number: int
    point: int

    def __str__(self) -> str:
        return f"finished,{self.number},{self.point}"


@dataclass(frozen=True)
class ActiveCheckpoint:
    """A checkpoint that is being taken: its number, its moment, and how many records are left to copy."""

    number: int
    point: int
    left: int

    def __str__(self) -> str:
        return f"active,{self.number},{self.point},{self.left}"


@dataclass(frozen=True)
class Checkpoints(Reply):
    """The answer to CHECKPOINTS: those that are kept, the oldest first, and the active one if there is one."""

    moment: int
    finished: Tuple[Checkpoint, ...]
    active: Optional[ActiveCheckpoint] = None

    def lines(self) -> Iterator[str]:
        yield str(self)
        yield from map(str, self.finished)
        if self.active is not None:
            yield str(self.active)

    def __str__(self) -> str:
        return f"checkpoints {len(self.finished) + (self.active is not None)} @{self.moment}"


@dataclass(frozen=True)
class Denied(Reply):
    """Something is missing: a right, a table, a column, a checkpoint.

    `moment` is that of the request; of `no table t at checkpoint n` and `u lacked SELECT on t` it is the checkpoint's
    point. `reason` is the server's text, and the properties are its parts.
    """

    ok: ClassVar[bool] = False
    moment: int
    reason: str
    statement: str = field(default="", compare=False, repr=False)

    @property
    def kind(self) -> Optional[str]:
        """`no table`, `table exists`, `no column`, `lacks`, `may not grant`, `granted no`, `granted no option`,
        `no checkpoint`, `lacked` or `now lacks`; or None of a reason that this package does not know."""
        return self._parts().get("kind")

    @property
    def user(self) -> Optional[str]:
        """Who lacks the privilege, may not grant it, or granted none of it; or None where the reason names nobody."""
        return self._parts().get("user")

    @property
    def privilege(self) -> Optional[str]:
        """The privilege as the reason has it, as in `INSERT` or `SELECT(wage)`, or None."""
        return self._parts().get("privilege")

    @property
    def table(self) -> Optional[str]:
        """The table that the reason names, or None."""
        return self._parts().get("table")

    @property
    def column(self) -> Optional[str]:
        """The column that is missing, or None."""
        return self._parts().get("column")

    @property
    def grantee(self) -> Optional[str]:
        """To whom nothing was granted, or None."""
        return self._parts().get("grantee")

    @property
    def checkpoint(self) -> Optional[int]:
        """The number of the checkpoint that is missing or has no such table, or None."""
        number = self._parts().get("checkpoint")
        return None if number is None else int(number)

    def _parts(self) -> Dict[str, str]:
        for kind, form, names in _DENIALS:
            found = form.fullmatch(self.reason)
            if found:
                return {"kind": kind, **dict(zip(names, found.groups()))}
        return {}

    def error(self) -> DatabaseError:
        return DeniedError(self)

    def __str__(self) -> str:
        return f"denied @{self.moment}: {self.reason}"


@dataclass(frozen=True)
class Refused(Reply):
    """Something does not fit, or is full.

    `moment` is None of a line that was not read for want of memory (`no memory`), and of a server that has taken all
    its turns (`worn`): it answers so to every later statement too.
    """

    ok: ClassVar[bool] = False
    moment: Optional[int]
    reason: str
    statement: str = field(default="", compare=False, repr=False)

    @property
    def is_misfit(self) -> bool:
        """Whether a value does not fit the table. Otherwise something is full, busy, worn, or out of memory."""
        return _MISFIT.fullmatch(self.reason) is not None

    @property
    def is_worn(self) -> bool:
        """Whether the server has taken all its turns, and answers no statement any more."""
        return self.moment is None and self.reason == "worn"

    def error(self) -> RefusedError:
        return MisfitError(self) if self.is_misfit else UnavailableError(self)

    def __str__(self) -> str:
        return f"refused: {self.reason}" if self.moment is None else f"refused @{self.moment}: {self.reason}"


@dataclass(frozen=True)
class Fault(Reply):
    """The line is no statement. `offset` counts the bytes of the line that was sent, in UTF-8, from 0."""

    ok: ClassVar[bool] = False
    code: int
    offset: int
    reason: str
    statement: str = field(default="", compare=False, repr=False)

    @property
    def position(self) -> int:
        """The same place counted in characters of `statement`, the line that was sent."""
        return len(self.statement.encode()[:self.offset].decode(errors="ignore"))

    def error(self) -> DatabaseError:
        return FaultError(self)

    def __str__(self) -> str:
        return f"error {self.code} at {self.offset}: {self.reason}"

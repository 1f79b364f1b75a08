"""What a connection knows of tables: which columns they have, and of which types.

The server's replies tell no types: `row,5` may be the integer 5 or the text '5'. So nothing is guessed from fields.
Types are known of a table whose CREATE TABLE was seen to be done, or that the caller declared. A table stays as it was
created until the server ends, so what was known stays true.
"""
from __future__ import annotations

import re
from typing import Dict, Iterable, Iterator, Mapping, NamedTuple, Optional, Tuple

from .errors import ProgrammingError
from .literals import name
from .replies import Kind

Columns = Mapping[str, Kind]
KINDS: Dict[str, Kind] = {"INTEGER": int, "TEXT": str}

_NAME = "[a-z][a-z0-9_]*"
_FORM = re.ASCII | re.IGNORECASE
_BLANK = r"[ \t]"
_CREATE = re.compile(rf"{_BLANK}*create{_BLANK}+table{_BLANK}+({_NAME}){_BLANK}*\(([^()]*)\)[ \t;\r]*", _FORM)
_COLUMN = re.compile(rf"{_BLANK}*({_NAME}){_BLANK}+(integer|text){_BLANK}*", _FORM)
_SELECT = re.compile(
    rf"{_BLANK}*select(?:{_BLANK}*(\*){_BLANK}*|{_BLANK}+({_NAME}(?:{_BLANK}*,{_BLANK}*{_NAME})*){_BLANK}+)"
    rf"from{_BLANK}+({_NAME})\b", _FORM)
_JOURNAL_LINE = re.compile(rf"({_NAME}):(.*)", _FORM)


class Selected(NamedTuple):
    """What a SELECT asks for: its table, and its columns or None for `*`."""

    table: str
    columns: Optional[Tuple[str, ...]]


def created(statement: str) -> Optional[Tuple[str, Dict[str, Kind]]]:
    """The table and the columns of this statement, which the server has read, if it is a CREATE TABLE."""
    found = _CREATE.fullmatch(statement)
    if not found:
        return None
    columns = [_COLUMN.fullmatch(column) for column in found[2].split(",")]
    return found[1].lower(), {column[1].lower(): KINDS[column[2].upper()] for column in columns if column}


def selected(statement: str) -> Optional[Selected]:
    """What this statement, which the server has read, asks for, if it is a SELECT."""
    found = _SELECT.match(statement)
    if not found:
        return None
    columns = None if found[1] else tuple(column.strip(" \t").lower() for column in found[2].split(","))
    return Selected(found[3].lower(), columns)


def checked(columns: Columns) -> Dict[str, Kind]:
    """These columns with their names in small letters. It is a `ProgrammingError` if a type is neither str nor int."""
    for column, kind in columns.items():
        if kind is not str and kind is not int:
            raise ProgrammingError(f"the type of {column!r} is str or int, and not {kind!r}")
    return {name(column): kind for column, kind in columns.items()}


class Tables(Mapping[str, Columns]):
    """The tables that a connection knows, by their names in small letters: of each its columns in order, by type."""

    def __init__(self) -> None:
        self._known: Dict[str, Dict[str, Kind]] = {}

    def __getitem__(self, table: str) -> Columns:
        return self._known[table]

    def __iter__(self) -> Iterator[str]:
        return iter(self._known)

    def __len__(self) -> int:
        return len(self._known)

    def declare(self, table: str, columns: Columns) -> None:
        """Takes it from the caller that the table has these columns, all of them, in this order.

        It is a `ProgrammingError` if the table is known otherwise.
        """
        table, given = name(table), checked(columns)
        known = self._known.setdefault(table, given)
        if list(known.items()) != list(given.items()):
            raise ProgrammingError(f"table {table} is known with other columns: {known}")

    def learn(self, statement: str) -> None:
        """Learns from a statement that was done, if it is a CREATE TABLE."""
        found = created(statement)
        if found:
            self._known[found[0]] = found[1]

    def kind_of(self, table: Optional[str], column: str) -> Optional[Kind]:
        """The type of the column, or None where it is not known."""
        return self._known.get(table or "", {}).get(column)


class Creation(NamedTuple):
    """A table as a line of a journal or a dump creates it: its owner, its name, and its columns by type."""

    owner: str
    table: str
    columns: Dict[str, Kind]


def creations(lines: Iterable[str]) -> Iterator[Creation]:
    """The tables that the lines of a journal or a dump create, in order. These are lines `user: statement`."""
    for line in lines:
        found = _JOURNAL_LINE.match(line.lstrip("\ufeff"))
        made = created(found[2]) if found else None
        if found and made:
            yield Creation(found[1].lower(), *made)


def tables_of(lines: Iterable[str]) -> Dict[str, Dict[str, Kind]]:
    """The tables with the columns and types that the lines of a journal or a dump create.

    These are lines `user: statement`, each of a change that was accepted, as of an open file. They are no check that a
    server has these tables.
    """
    return {made.table: made.columns for made in creations(lines)}

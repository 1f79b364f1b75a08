"""The records of `sysr stream`: what each change did, by numbers of rows and of grants."""
import csv
import dataclasses
from collections.abc import Iterable, Iterator
from typing import Union

from postgres_rights.wording import fail, right

Values = list[str]


@dataclasses.dataclass(frozen=True)
class TableMade:
    """A table was made, without rows; its columns with their types, in capitals."""

    table: str
    owner: str
    columns: tuple[tuple[str, str], ...]


@dataclasses.dataclass(frozen=True)
class RowNow:
    """A row has these values: it was inserted, or it was there."""

    table: str
    number: int
    values: Values
    inserted: bool


@dataclasses.dataclass(frozen=True)
class RowGone:
    table: str
    number: int


@dataclasses.dataclass(frozen=True)
class GrantMade:
    """A single grant was made; its right as `sysr explain` writes it."""

    number: int
    by: str
    to: str
    table: str
    right: str
    option: bool


@dataclasses.dataclass(frozen=True)
class OptionLost:
    number: int


@dataclasses.dataclass(frozen=True)
class GrantFell:
    number: int


Effect = Union[TableMade, RowNow, RowGone, GrantMade, OptionLost, GrantFell]


@dataclasses.dataclass(frozen=True)
class Change:
    """All that the change of a moment did."""

    moment: int
    effects: list[Effect]


def effect_of(word: str, fields: list[str]) -> Effect:
    if word == "created":
        table, owner, *columns = fields
        return TableMade(table, owner, tuple(zip(columns[::2], columns[1::2])))
    if word in ("inserted", "updated"):
        table, number, *values = fields
        return RowNow(table, int(number), values, word == "inserted")
    if word == "deleted":
        return RowGone(fields[0], int(fields[1]))
    if word == "granted":
        number, by, to, table, privilege, column, option = fields
        return GrantMade(int(number), by, to, table, right(privilege, column or None), option == "yes")
    return {"option lost": OptionLost, "fell": GrantFell}[word](int(fields[0]))


def changes_of(lines: Iterable[str]) -> Iterator[Change]:
    """The changes that lines tell, each once its last record has come. One that did nothing has no record."""
    effects: list[Effect] = []
    for moment, left, word, *fields in csv.reader(lines):
        try:
            effects.append(effect_of(word, fields))
        except (KeyError, ValueError, IndexError):
            fail(f"no record of a stream: {','.join([moment, left, word, *fields])}")
        if left == "0":
            yield Change(int(moment), effects)
            effects = []

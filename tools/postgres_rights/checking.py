"""Who holds what here and there, right by right."""
import collections
from collections.abc import Iterator, Sequence
from typing import Optional

from postgres_rights.carrying import SYSTEM_COLUMNS, Carried, Names
from postgres_rights.journal import Kept, Pair
from postgres_rights.server import COLUMNS, ENTRIES, HELD, TABLES, Record
from postgres_rights.wording import BY_COLUMN, counted, literal, right, shown, write_lines

TYPES_HERE = {"bigint": "INTEGER", "text": "TEXT"}

# A table, a right on it, and a user.
Holding = tuple[str, str, str]


def queries(names: Names) -> list[str]:
    """What a check asks there: what There is made of."""
    schema, listed = literal(names.schema), ", ".join(map(literal, names.roles.values()))
    return [query.format(schema=schema, roles=listed) for query in (TABLES, COLUMNS, ENTRIES, HELD)]


class There:
    """A schema of PostgreSQL in the names of here: owners, columns, entries, and what users hold."""

    def __init__(self, names: Names, kept: Kept, *answers: Sequence[Record]):
        tables, columns, entries, held = ([row for row in rows if row["table"] in kept.tables] for rows in answers)
        self.users = {role: user for user, role in names.roles.items()}
        self.columns_here = {names.column_there(column): column for column in SYSTEM_COLUMNS}
        self.owners = {row["table"]: self.user(row["owner"]) for row in tables}
        self.columns: dict[str, list[tuple[str, str]]] = collections.defaultdict(list)
        self.pairs: dict[Pair, bool] = {}
        self.held: dict[Holding, bool] = {}
        for row in columns:
            kind = TYPES_HERE.get(row["type"], row["type"])
            self.columns[row["table"]].append((self.column(row["column"]), kind))
        for row in entries:
            self.take_entry(row)
        for row in held:
            for name in self.rights(row):
                self.held[row["table"], name, self.user(row["user"])] = row["option"]

    def take_entry(self, row: Record) -> None:
        by, to, owner = self.user(row["by"]), self.user(row["to"]), self.owners[row["table"]]
        for name in self.rights(row) if (by, to) != (owner, owner) else ():
            key = row["table"], name, by, to
            self.pairs[key] = self.pairs.get(key, False) or row["option"]

    def user(self, role: Optional[str]) -> str:
        return self.users.get(role) or shown(role)

    def column(self, name: str) -> str:
        return self.columns_here.get(name, name)

    def rights(self, row: Record) -> list[str]:
        """A right, or where one of a whole table is of columns here, that on each column."""
        word, column = row["word"], row["column"]
        if column is None:
            is_of_all = word in BY_COLUMN
            return [right(word, name) for name, _ in self.columns[row["table"]]] if is_of_all else [word]
        return [right(word, self.column(column))]


def flag(option: Optional[bool]) -> str:
    return "no" if option is None else "with option" if option else "yes"


def differences(kept: Kept, carried: Carried, there: There) -> Iterator[tuple[bool, str]]:
    """What differs, each with whether the report says so."""
    here, foretold = kept.held(), carried.pairs()
    for table in kept.tables.values():
        owner, columns = there.owners.get(table.name), there.columns[table.name]
        if owner is None or owner != table.owner:
            yield False, f"{table.name} is owned by {table.owner} here, " + (
                f"by {owner} there" if owner else "and is no table there")
        elif columns != table.columns:
            yield False, f"{table.name} has other columns there"
    for key in sorted({*here, *there.pairs}):
        if here.get(key) != there.pairs.get(key):
            table, name, by, to = key
            yield foretold.get(key) == there.pairs.get(key), (
                f"{table} {name} {by} -> {to}: {flag(here.get(key))} here, {flag(there.pairs.get(key))} there")
    may = held_here(kept)
    for key in sorted({*may, *there.held}):
        if may.get(key) != there.held.get(key):
            table, name, user = key
            yield False, f"{table} {name} of {user}: {flag(may.get(key))} here, {flag(there.held.get(key))} there"


def held_here(kept: Kept) -> dict[Holding, bool]:
    """Whether who holds a right has the option."""
    may: dict[Holding, bool] = {}
    for (table, name, _, to), option in kept.held().items():
        may[table, name, to] = may.get((table, name, to), False) or option
    for table in kept.tables.values():
        names = [right(word, column) for word in BY_COLUMN for column, _ in table.columns]
        may.update({(table.name, name, table.owner): True for name in (*names, "INSERT", "DELETE")})
    return may


def compared(names: Names, kept: Kept, carried: Carried, answers: Sequence[Sequence[Record]]) -> bool:
    """Whether all is as it should be there. What differs is written, and how many rights were compared."""
    found = [*differences(kept, carried, There(names, kept, *answers))]
    unforeseen = sum(not is_told for is_told, _ in found)
    write_lines([*(text + ("; the report says so" if is_told else "") for is_told, text in found),
        f"{counted(len(kept.held()), 'grant')} and {counted(len(held_here(kept)), 'right')} compared, "
        f"{unforeseen} differ unforeseen"])
    return unforeseen == 0

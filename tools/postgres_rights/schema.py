"""The tables of a schema of PostgreSQL with their entries, and what of them cannot be said here."""
import collections
import dataclasses
from collections.abc import Iterable, Iterator, Mapping, Sequence
from typing import Optional

from postgres_rights.server import COLUMNS, DEFAULTS, ENTRIES, OTHERS, ROLES, TABLES, Record
from postgres_rights.wording import BY_COLUMN, WORDS, Told, counted, literal, right, shown, shown_few

# What is asked of a schema, and the records of each by its name.
QUERIES = {"tables": TABLES, "columns": COLUMNS, "entries": ENTRIES, "roles": ROLES, "others": OTHERS,
    "defaults": DEFAULTS}
Answers = Mapping[str, Sequence[Record]]

MOST_COLUMNS = 32


@dataclasses.dataclass(frozen=True)
class Entry:
    """A right on a table, or on a column of it, by one role to another; to None is to PUBLIC."""

    table: str
    column: Optional[str]
    word: str
    by: str
    to: Optional[str]
    option: bool

    def __str__(self) -> str:
        """In the names of there."""
        name = right(self.word, self.column and shown(self.column))
        return f"{shown(self.table)} {name} {between(self)}"


@dataclasses.dataclass(frozen=True)
class Table:
    """A table, or what has rights as tables have; columns with their types."""

    name: str
    owner: str
    kind: str
    by_row: bool
    columns: list[tuple[str, str]] = dataclasses.field(default_factory=list)
    entries: list[Entry] = dataclasses.field(default_factory=list)


def between(entry: Entry) -> str:
    return f"{shown(entry.by)} -> {shown(entry.to)}" + (" with option" if entry.option else "")


def queries(schema: str) -> list[str]:
    return [query.format(schema=literal(schema)) for query in QUERIES.values()]


def tables_of(answers: Answers) -> list[Table]:
    found = {row["table"]: Table(row["table"], row["owner"], row["kind"], row["by_row"]) for row in answers["tables"]}
    for row in answers["columns"]:
        found[row["table"]].columns.append((row["column"], row["type"]))
    for row in answers["entries"]:
        found[row["table"]].entries.append(Entry(**row))
    return [*found.values()]


def without_unsaid(table: Table, told: list[Told]) -> Table:
    """The table with the entries that can be said here. Those of the owner to himself go without saying."""
    said, unsaid, columns = [], collections.defaultdict(list), dict(table.columns)
    own = {entry.word for entry in table.entries if entry.by == entry.to == table.owner and entry.column is None}
    missing = [word for word in WORDS if word not in own]
    if missing:
        told.append(Told("owner", f"{shown(table.owner)} owns {shown(table.name)} and has no {', '.join(missing)} on "
            "it; here an owner holds all"))
    for entry in table.entries:
        if entry.by == entry.to == table.owner:
            continue
        if entry.word in WORDS and (entry.column is None or entry.word in BY_COLUMN and entry.column in columns):
            said.append(entry)
        else:
            unsaid[between(entry)].append(right(entry.word, entry.column and shown(entry.column)))
    told += [Told("not said", f"{shown(table.name)} {', '.join(rights)} {pair}: no such right here")
        for pair, rights in unsaid.items()]
    return dataclasses.replace(table, entries=said)


def with_few_columns(table: Table, told: list[Told]) -> Table:
    """The table with as many columns as one may have here: first those that have entries of their own."""
    columns = table.columns or [("x", "bigint")]
    if not table.columns:
        told.append(Told("columns", f"{shown(table.name)} has none; here it has one, x"))
    named = {entry.column for entry in table.entries}
    names = {name for name, _ in sorted(columns, key=lambda column: column[0] not in named)[:MOST_COLUMNS]}
    left = [shown(column) for column, _ in columns if column not in names]
    if left:
        told.append(Told("columns", f"{shown(table.name)} has more than {MOST_COLUMNS}; not said: {', '.join(left)}"))
    entries = [entry for entry in table.entries if entry.column is None or entry.column in names]
    return dataclasses.replace(table, columns=[column for column in columns if column[0] in names], entries=entries)


def groups_of(roles: Sequence[Record]) -> dict[str, list[str]]:
    """By role those that it is a member of, by however many steps, in the order of their names."""
    within = {row["role"]: row["within"] for row in roles}
    found = {}
    for role in within:
        groups = [*within[role]]
        for group in groups:
            groups += [more for more in within.get(group, ()) if more not in groups]
        found[role] = sorted({*groups} - {role})
    return found


def told_of_roles(answers: Answers, known: Iterable[Optional[str]]) -> Iterator[Told]:
    """Who holds rights there by something else than entries, or holds some and cannot use them."""
    roles, known = answers.get("roles", ()), {*known}
    for role in (row["role"] for row in roles if row["super"]):
        yield Told("superuser", f"{shown(role)} may all there, whatever is granted")
    for role, groups in groups_of(roles).items():
        for group in groups:
            if group in known or group.startswith("pg_"):
                yield Told("member", f"{shown(role)} is one of {shown(group)}; what it holds so is not said")
    outside = [row["role"] for row in roles if row["role"] in known and not row["enters"]]
    if outside:
        yield Told("outside", f"{shown_few(outside)} without USAGE of the schema: rights in it are of no use to them")


def told_of_others(answers: Answers) -> Iterator[Told]:
    """Rights on what is no table, and on what is still to be created."""
    for row in answers.get("others", ()):
        number = "the schema itself" if row["kind"] == "schema" else counted(row["count"], row["kind"])
        yield Told("not said", f"rights on {number}, for {shown_few(row['users'])}")
    for row in answers.get("defaults", ()):
        yield Told("not said", f"rights on {row['kind']} that {shown(row['owner'])} is still to create, "
            f"for {shown_few(row['users'])}")

"""The script of grants for sysr, and what of the schema is told beside it."""
import collections
import itertools
import re
from collections.abc import Iterable, Iterator, Sequence

from postgres_rights.order import Ordered, ordered
from postgres_rights.schema import Answers, Table, tables_of, told_of_others, told_of_roles, with_few_columns, \
    without_unsaid
from postgres_rights.wording import BY_COLUMN, Told, right, shown

KEYWORDS = set("""and checkpoint checkpoints create delete export for from grant insert integer into on only option
    revoke select set table text to update values where with""".split())
NAME = re.compile(r"[a-z][a-z0-9_]{0,29}")
LONGEST, MOST_USERS, MOST_GRANTS, MOST_TABLES = 30, 16, 1024, 1024
INTEGERS = re.compile("bigint|integer|smallint")
TEXTS = re.compile(r"text|name|character( varying)?(\(\d+\))?")
KINDS = {"v": "a view", "m": "a view", "f": "a foreign table"}


def is_ours(name: str) -> bool:
    return NAME.fullmatch(name) is not None and name not in KEYWORDS


def renamed(names: Sequence[str], taken: Iterable[str] = ()) -> dict[str, str]:
    """For each name one of ours: itself, or one like it that no other has and that is not taken."""
    found = {name: name for name in names if is_ours(name)}
    used, last = {*taken, *found}, collections.Counter()
    for name in (name for name in names if name not in found):
        start = re.sub("[^a-z0-9_]", "_", name.lower())
        start = start if "a" <= start[:1] <= "z" else "x" + start
        new, short = start[:LONGEST], start[:LONGEST - 6]
        while not is_ours(new) or new in used:
            last[short] += 1
            new = f"{short}_{last[short] + 1}"
        found[name] = new
        used.add(new)
    return found


class Names:
    """Names here: of roles, tables, and columns of each table. PUBLIC is a user, since no role has its name."""

    def __init__(self, tables: Sequence[Table]):
        roles = {role for table in tables for entry in table.entries for role in (entry.by, entry.to)}
        self.roles = renamed(sorted({*roles, *(table.owner for table in tables)} - {None}), ["public"])
        self.roles.update({None: "public"} if None in roles else {})
        self.tables = renamed([table.name for table in tables])
        self.columns = {table.name: renamed([column for column, _ in table.columns]) for table in tables}

    def told(self) -> Iterator[Told]:
        """The names that are others here."""
        for kind, names in (("role", self.roles), ("table", self.tables), *(
                (f"column of {shown(table)}", columns) for table, columns in self.columns.items())):
            for name, new in names.items():
                if name not in (None, new):
                    yield Told("renamed", f"the {kind} {shown(name)} is {new} here")
        if None in self.roles:
            yield Told("public", "the user public stands for PUBLIC: what a role holds by it is not said of the role")


def created(names: Names, table: Table) -> str:
    """The line that creates a table, of columns of our types."""
    columns = (f"{names.columns[table.name][column]} {'INTEGER' if INTEGERS.fullmatch(kind) else 'TEXT'}"
        for column, kind in table.columns)
    return f"{names.roles[table.owner]}: CREATE TABLE {names.tables[table.name]} ({', '.join(columns)})"


def grant_lines(names: Names, table: Table, rights: Ordered) -> Iterator[str]:
    """GRANTs; columns whose grants are the same stand in one list, and neighbours by one grantor in one line."""
    groups = collections.defaultdict(list)
    for (word, column), entries in rights.items():
        same = tuple((entry.by, entry.to, entry.option) for entry in entries)
        groups[word, column is None, same].append(column)
    for (word, is_whole, entries), columns in groups.items():
        listed = "" if is_whole else f" ({', '.join(names.columns[table.name][column] for column in columns)})"
        for (by, option), run in itertools.groupby(entries, lambda entry: (entry[0], entry[2])):
            users = [names.roles[to] for _, to, _ in run]
            for start in range(0, len(users), MOST_USERS):
                yield (f"{names.roles[by]}: GRANT {word}{listed} ON {names.tables[table.name]} "
                    f"TO {', '.join(users[start:start + MOST_USERS])}" + " WITH GRANT OPTION" * option)


def told_of_table(table: Table) -> Iterator[Told]:
    """What the table is there, and is not here."""
    others = [f"{shown(column)} is {kind}" for column, kind in table.columns
        if not INTEGERS.fullmatch(kind) and not TEXTS.fullmatch(kind)]
    if others:
        yield Told("type", f"{shown(table.name)} {', '.join(others)}; TEXT here")
    if table.kind in KINDS:
        yield Told("kind", f"{shown(table.name)} is {KINDS[table.kind]} there")
    if table.by_row:
        yield Told("rows", f"{shown(table.name)} has policies there, which choose rows")


def told_of_limits(tables: Sequence[Table], found: Sequence[Ordered]) -> Iterator[Told]:
    """What is more than a server takes here."""
    if len(tables) > MOST_TABLES:
        yield Told("limits", f"there are {len(tables)} tables, and at most {MOST_TABLES} here")
    for table, rights in zip(tables, found):
        for (word, column), entries in rights.items():
            count = len(entries) + (len(rights.get((word, None), ())) if column else 0)
            if count > MOST_GRANTS:
                yield Told("limits", f"{shown(table.name)} {right(word, column and shown(column))} has {count} "
                    f"entries, and at most {MOST_GRANTS} grants here")


def said(answers: Answers) -> tuple[list[str], list[Told]]:
    """The lines of a script for what a schema has, and what is to be told: first the rights that lead to no owner."""
    told: list[Told] = []
    tables = [with_few_columns(without_unsaid(table, told), told) for table in tables_of(answers)]
    names = Names(tables)
    told += names.told()
    lines, found = [], [ordered(table, told) for table in tables]
    for table, rights in zip(tables, found):
        lines += [created(names, table), *grant_lines(names, table, rights)]
        told += told_of_table(table)
    if any(entry.column is None and entry.word in BY_COLUMN for table in tables for entry in table.entries):
        told.append(Told("whole", "a REVOKE of columns takes nothing there from a grant of the whole table: "
            "ask what the REVOKE of the whole table would take"))
    told += [*told_of_limits(tables, found), *told_of_others(answers), *told_of_roles(answers, names.roles)]
    return lines, sorted(told, key=lambda line: line.kind != "no owner")

"""What a follower keeps in PostgreSQL: a moment, the rows by their numbers, and the grants in force by theirs.

The schema beside that of the tables has for each table one with its rows, of which the table that users see is a view.
Its owner may select from the rows and may not change them, so that nobody writes what the journal does not say.
"""
import dataclasses
from collections.abc import Iterable, Iterator, Sequence

from postgres_rights.carrying import Names
from postgres_rights.script import TYPES, escaped
from postgres_rights.stream import GrantMade, TableMade, Values
from postgres_rights.wording import identifier, literal

# No name of a column has a hyphen.
NUMBER = identifier("row-number")


@dataclasses.dataclass
class Kept:
    """What PostgreSQL has been told: up to which moment, of which tables, users and grants in force."""

    moment: int
    users: set[str]
    tables: dict[str, TableMade]
    grants: dict[int, GrantMade]


class Beside:
    """The names of the schema beside, and the statements that fill it."""

    def __init__(self, names: Names):
        self.names, self.schema = names, names.schema + "_stream"

    def name(self, name: str) -> str:
        return f"{identifier(self.schema)}.{identifier(name)}"

    def rows(self, table: str) -> str:
        return self.name("rows-of-" + table)

    def begun(self) -> Iterator[str]:
        """The schemas and what is kept, where they are not there yet. Two followers of one schema exclude each other."""
        yield "SET client_min_messages = warning;"
        yield "SET standard_conforming_strings = on;"
        yield "SET search_path = '';"
        yield f"SELECT pg_catalog.pg_try_advisory_lock(pg_catalog.hashtext({literal(self.schema)})) AS alone \\gset"
        yield "\\if :alone"
        yield "\\else"
        yield "\\warn another follower is at work"
        yield "SELECT 1 / 0;"
        yield "\\endif"
        yield "BEGIN;"
        yield f"CREATE SCHEMA IF NOT EXISTS {identifier(self.names.schema)};"
        yield f"CREATE SCHEMA IF NOT EXISTS {identifier(self.schema)};"
        yield f"GRANT USAGE ON SCHEMA {identifier(self.schema)} TO PUBLIC;"
        yield (f"CREATE TABLE IF NOT EXISTS {self.name('progress')} "
            "(moment bigint NOT NULL, at timestamptz NOT NULL);")
        yield f"GRANT SELECT ON {self.name('progress')} TO PUBLIC;"
        yield (f"INSERT INTO {self.name('progress')} SELECT 0, pg_catalog.clock_timestamp() "
            f"WHERE NOT EXISTS (SELECT FROM {self.name('progress')});")
        yield f"CREATE TABLE IF NOT EXISTS {self.name('users')} (name text PRIMARY KEY);"
        yield (f"CREATE TABLE IF NOT EXISTS {self.name('tables')} "
            '(name text PRIMARY KEY, owner text NOT NULL, columns text[][] NOT NULL, place serial);')
        yield (f"CREATE TABLE IF NOT EXISTS {self.name('grants')} (number bigint PRIMARY KEY, \"by\" text NOT NULL, "
            '"to" text NOT NULL, "table" text NOT NULL, "right" text NOT NULL, option boolean NOT NULL);')
        yield "COMMIT;"

    def queries(self) -> list[str]:
        return [f"SELECT moment FROM {self.name('progress')}", f"SELECT name FROM {self.name('users')}",
            f"SELECT name, owner, columns FROM {self.name('tables')} ORDER BY place",
            f"SELECT * FROM {self.name('grants')} ORDER BY number"]

    def kept(self, answers: Sequence[Sequence[dict]]) -> Kept:
        (progress,), users, tables, grants = answers
        return Kept(progress["moment"], {row["name"] for row in users},
            {row["name"]: TableMade(row["name"], row["owner"], tuple(map(tuple, row["columns"]))) for row in tables},
            {row["number"]: GrantMade(**row) for row in grants})

    def new_user(self, user: str, reuse: bool) -> Iterator[str]:
        role = self.names.roles[user]
        made = f"CREATE ROLE {identifier(role)} NOLOGIN"
        if reuse:
            yield (f"SELECT {literal(made)} WHERE NOT EXISTS (SELECT FROM pg_catalog.pg_roles "
                f"WHERE rolname = {literal(role)}) \\gexec")
        else:
            yield made + ";"
        yield f"GRANT USAGE ON SCHEMA {identifier(self.names.schema)} TO {identifier(role)};"
        yield f"INSERT INTO {self.name('users')} VALUES ({literal(user)});"

    def new_table(self, made: TableMade) -> Iterator[str]:
        """The rows, and the view of them that its owner has."""
        names, rows = self.names, self.rows(made.table)
        columns = [(names.column(column), TYPES[kind]) for column, kind in made.columns]
        listed = "".join(f",\n    {column} {kind} NOT NULL" for column, kind in columns)
        yield f"CREATE TABLE {rows} (\n    {NUMBER} bigint PRIMARY KEY{listed}\n);"
        view = names.table(made.table)
        yield f"CREATE VIEW {view} AS SELECT {', '.join(column for column, _ in columns)} FROM {rows};"
        yield f"ALTER VIEW {view} OWNER TO {names.role(made.owner)};"
        yield f"GRANT SELECT ON {rows} TO {names.role(made.owner)};"
        pairs = ", ".join(f"ARRAY[{literal(column)}, {literal(kind)}]" for column, kind in made.columns)
        yield f"INSERT INTO {self.name('tables')} VALUES ({literal(made.table)}, {literal(made.owner)}, ARRAY[{pairs}]);"

    def without_rows(self, table: str, numbers: Iterable[int]) -> Iterator[str]:
        listed = ",".join(map(str, numbers))
        if listed:
            yield f"DELETE FROM {self.rows(table)} WHERE {NUMBER} = ANY ('{{{listed}}}');"

    def with_rows(self, table: str, rows: dict[int, Values]) -> Iterator[str]:
        if rows:
            yield f"COPY {self.rows(table)} FROM stdin;"
            yield from ("\t".join((str(number), *map(escaped, values))) for number, values in sorted(rows.items()))
            yield "\\."

    def without_grants(self, numbers: Iterable[int]) -> Iterator[str]:
        listed = ",".join(map(str, numbers))
        if listed:
            yield f"DELETE FROM {self.name('grants')} WHERE number = ANY ('{{{listed}}}');"

    def with_grants(self, grants: Iterable[GrantMade]) -> Iterator[str]:
        lines = ["\t".join(map(str, (grant.number, grant.by, grant.to, grant.table, grant.right, grant.option)))
            for grant in grants]
        if lines:
            yield f"COPY {self.name('grants')} FROM stdin;"
            yield from lines
            yield "\\."

    def now_at(self, moment: int) -> str:
        return f"UPDATE {self.name('progress')} SET moment = {moment}, at = pg_catalog.clock_timestamp();"

"""The script for psql: roles, tables with rows, and grants, all or nothing."""
from collections.abc import Iterable, Iterator

from postgres_rights.carrying import Carried, Names
from postgres_rights.journal import Grant, Kept, Table
from postgres_rights.wording import identifier, in_short, literal

TYPES = {"INTEGER": "bigint", "TEXT": 'text COLLATE "C"'}


def escaped(value: str) -> str:
    """A value of COPY. (No text has control characters here, but an export may have been changed by hand.)"""
    for character, mark in (("\\", "\\\\"), ("\t", "\\t"), ("\r", "\\r"), ("\n", "\\n")):
        value = value.replace(character, mark)
    return value


def roles(names: Names, reuse: bool) -> Iterator[str]:
    """A role for each user. One that is there already stops the script, unless such roles may be users."""
    for role in names.roles.values():
        line = f"CREATE ROLE {identifier(role)} NOLOGIN"
        if reuse:
            yield f"SELECT {literal(line)} WHERE NOT EXISTS"
            yield f"    (SELECT FROM pg_catalog.pg_roles WHERE rolname = {literal(role)}) \\gexec"
        else:
            yield line + ";"


def created(names: Names, table: Table) -> Iterator[str]:
    """A table with its rows. No value is missing here, but an export may not have a column."""
    columns = (f"    {names.column(column)} {TYPES[kind]}" + (" NOT NULL" if column in table.given else "")
        for column, kind in table.columns)
    yield f"CREATE TABLE {names.table(table.name)} (\n" + ",\n".join(columns) + "\n);"
    yield f"ALTER TABLE {names.table(table.name)} OWNER TO {names.role(table.owner)};"
    if table.rows:
        yield f"COPY {names.table(table.name)} ({', '.join(map(names.column, table.given))}) FROM stdin;"
        yield from ("\t".join(map(escaped, row)) for row in table.rows)
        yield "\\."


def granted(names: Names, made: Iterable[Grant]) -> Iterator[str]:
    """The grants in the order of their moments, those of one moment, grantee and option in one statement.

    They name their columns, also where those are all. A REVOKE of columns takes nothing there from a grant of the
    whole table, and what was granted by column does not fall with an option of the whole table. By column all is as
    it is here.
    """
    statements, speaker = {}, None
    for grant in made:
        statements.setdefault((grant.since, grant.table, grant.by, grant.to, grant.option), []).append(grant.right)
    for (_, table, by, to, option), rights in statements.items():
        if by != speaker:
            yield f"SET LOCAL ROLE {names.role(by)};"
            speaker = by
        listed = ", ".join(in_short(rights, names.column))
        yield f"GRANT {listed} ON {names.table(table)} TO {names.role(to)}" + (" WITH GRANT OPTION;" if option else ";")
    if speaker is not None:
        yield "RESET ROLE;"


def objects(names: Names, kept: Kept, reuse: bool) -> Iterator[str]:
    """Roles, the schema, and tables with their rows."""
    yield "SET LOCAL standard_conforming_strings = on;"
    yield "SET LOCAL search_path = '';"
    yield from roles(names, reuse)
    yield f"CREATE SCHEMA IF NOT EXISTS {identifier(names.schema)};"
    if names.roles:
        yield f"GRANT USAGE ON SCHEMA {identifier(names.schema)} TO {', '.join(map(names.role, names.roles))};"
    for table in kept.tables.values():
        yield from created(names, table)


def script(names: Names, kept: Kept, carried: Carried, reuse: bool) -> Iterator[str]:
    """A script that does all or nothing: psql ends at the first error, and the transaction with it."""
    yield "\\set ON_ERROR_STOP on"
    yield "\\encoding UTF8"
    yield "BEGIN;"
    yield from objects(names, kept, reuse)
    yield from granted(names, carried.made)
    yield "COMMIT;"

"""Whether PostgreSQL has what a journal says of the moment that it was carried on to: rights, and rows."""
import itertools
from collections.abc import Iterator, Sequence

from postgres_rights.carrying import Carried, Names
from postgres_rights.checking import compared, queries
from postgres_rights.growing import grown
from postgres_rights.journal import Kept, Table
from postgres_rights.psql_session import Session
from postgres_rights.server import Record
from postgres_rights.there import NUMBER, Beside
from postgres_rights.wording import counted, write_lines

SNAPSHOT = ["SET search_path = pg_catalog;", "BEGIN ISOLATION LEVEL REPEATABLE READ READ ONLY;"]


def lines_to(path: str, moment: int) -> bytes:
    """The first lines of a journal, as many as there were changes."""
    lines = itertools.chain.from_iterable(block.splitlines(True) for block in grown(path, lambda: True))
    return b"".join(itertools.islice(lines, moment))


def query_of(beside: Beside, names: Names, table: Table) -> str:
    columns = ", ".join(names.column(column) for column, _ in table.columns)
    return f"SELECT {columns} FROM {beside.rows(table.name)} ORDER BY {NUMBER}"


def rows_differ(names: Names, tables: Sequence[Table], answers: Sequence[Sequence[Record]]) -> Iterator[str]:
    """Where the rows of a table are others there."""
    for table, rows in zip(tables, answers):
        there = [[str(row[names.column_there(column)]) for column, _ in table.columns] for row in rows]
        first = next((at for at, (one, other) in enumerate(zip(table.rows, there)) if one != other), None)
        if first is not None:
            yield f"{table.name}: row {first + 1} is {table.rows[first]} here, {there[first]} there"
        elif len(there) != len(table.rows):
            yield f"{table.name}: {counted(len(table.rows), 'row')} here, {len(there)} there"


def is_followed(sysr: str, path: str, names: Names, connection: Sequence[str]) -> bool:
    """Compares both at the moment that PostgreSQL has, right by right and row by row, and writes what differs."""
    beside, session = Beside(names), Session(connection)
    session.tell(SNAPSHOT)
    ((progress,),) = session.ask(beside.queries()[:1])
    moment = progress["moment"]
    if moment == 0:
        write_lines(["@0: nothing was carried on"])
        return True
    kept = Kept(sysr, lines_to(path, moment))
    kept.take_rows()
    names.roles.update({user: names.role_for(user) for user in kept.users()})
    tables = [*kept.tables.values()]
    answers = session.ask([*queries(names), *(query_of(beside, names, table) for table in tables)])
    found = [*rows_differ(names, tables, answers[-len(tables):])]
    write_lines([f"@{moment}", *found])
    return compared(names, kept, Carried(kept), answers[:-len(tables)]) and not found

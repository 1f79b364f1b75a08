"""What a journal leaves: tables with rows, and the grants in force."""
import csv
import dataclasses
import itertools
import re
import tempfile
from typing import Optional

from postgres_rights.program import explained, run_sysr
from postgres_rights.wording import fail

CREATED = re.compile(r"(\w+):\s*create\s+table\s+(\w+)\s*\((.*)\)[\s;]*", re.IGNORECASE)

# A table's right, its grantor and its grantee.
Pair = tuple[str, str, str, str]


@dataclasses.dataclass
class Table:
    """A table with its columns, each with its type, and rows that have the columns `given`."""

    name: str
    owner: str
    columns: list[tuple[str, str]]
    given: list[str]
    rows: list[list[str]] = dataclasses.field(default_factory=list)


@dataclasses.dataclass(frozen=True)
class Grant:
    """A single grant in force, since a moment."""

    since: int
    by: str
    to: str
    table: str
    right: str
    option: bool


class Kept:
    """Tables by their names, grants in the order of their moments, and how many lines were no accepted change."""

    def __init__(self, sysr: str, given: bytes):
        self.sysr = sysr
        self.changes, self.passed_over = accepted(sysr, given)
        self.tables: dict[str, Table] = {}
        self.grants: list[Grant] = []
        kinds = columns_of(self.changes)
        for row in explained(sysr, ["rights"], self.changes):
            name = row["table"]
            if row["privilege"] == "OWNER":
                self.tables[name] = Table(name, row["user"], kinds[name], [column for column, _ in kinds[name]])
            else:
                self.grants.append(Grant(
                    int(row["since"]), row["by"], row["user"], name, row["privilege"], row["option"] == "yes"))
        self.grants.sort(key=lambda grant: grant.since)
        if not self.tables:
            fail("no line creates a table")

    def users(self) -> list[str]:
        """Who owns a table, or has a part in a grant in force."""
        owners = {table.owner for table in self.tables.values()}
        return sorted(owners | {user for grant in self.grants for user in (grant.by, grant.to)})

    def take_rows(self) -> None:
        """Asks each owner's rows. (A dump would not do: it has no line for a row that an UPDATE made too long.)"""
        asked_for = "".join(f"{table.owner}: SELECT * FROM {table.name}\n" for table in self.tables.values())
        answers = iter(answered(self.sysr, self.changes, asked_for.encode())[1:])
        for table in self.tables.values():
            count = int(next(answers).split()[1])
            table.rows.extend(fields(line) for line in itertools.islice(answers, count))

    def held(self) -> dict[Pair, bool]:
        """Whether one of the grants in force, of those of one pair, has the option."""
        pairs: dict[Pair, bool] = {}
        for grant in self.grants:
            key = grant.table, grant.right, grant.by, grant.to
            pairs[key] = pairs.get(key, False) or grant.option
        return pairs


def columns_of(changes: bytes) -> dict[str, list[tuple[str, str]]]:
    """By table its columns with their types, in small letters and in capitals."""
    lines, found = changes.decode("utf-8-sig", errors="replace").split("\n"), {}
    for _, name, columns in map(re.Match.groups, filter(None, map(CREATED.fullmatch, lines))):
        pairs = (column.split() for column in columns.split(","))
        found[name.lower()] = [(column.lower(), kind.upper()) for column, kind in pairs]
    return found


def fields(line: str) -> list[str]:
    """The values of a record behind its first word."""
    return next(csv.reader([line]))[1:]


def answered(sysr: str, changes: bytes, lines: bytes) -> Optional[list[str]]:
    """What is written for lines behind these changes; None where they are more than changes, so that none is loaded."""
    with tempfile.NamedTemporaryFile() as file:
        file.write(changes)
        file.flush()
        status, out, _ = run_sysr(sysr, ["run", "--load", file.name], lines)
    return None if status else out.decode().split("\n")[:-1]


def accepted(sysr: str, given: bytes) -> tuple[bytes, int]:
    """A journal as it is, and of a script the changes that were accepted, with how many other lines it has.

    (`sysr journal` would not do for both: it reads one of them, and a journal's lines may be longer than a script's.)
    """
    if given and not given.endswith(b"\n"):
        fail("standard input: the last line is cut off")
    if answered(sysr, given, b"") is not None:
        return given, 0
    status, out, why = run_sysr(sysr, ["journal", "--script"], given)
    if status:
        fail(why)
    return out, given.count(b"\n") - out.count(b"\n")

"""The entries that PostgreSQL is to have of the grants in force, right by right, as grants come and fall."""
import collections
import dataclasses
from collections.abc import Iterable, Iterator
from typing import Optional

from postgres_rights.carrying import Entries
from postgres_rights.stream import GrantMade
from postgres_rights.wording import Told

# A right on a table.
Right = tuple[str, str]


@dataclasses.dataclass(frozen=True)
class Coming:
    """An entry that comes, or gets its option, by the single grant of this number."""

    number: int
    table: str
    right: str
    by: str
    to: str
    option: bool


@dataclasses.dataclass(frozen=True)
class Going:
    """An entry that goes, or loses its option alone."""

    table: str
    right: str
    by: str
    to: str
    stays: bool


class Rights:
    """The grants in force by table and right, each in the order of their numbers, and the entries made of them."""

    def __init__(self, owners: dict[str, str], grants: dict[int, GrantMade]):
        self.owners, self.grants = owners, grants
        self.of: dict[Right, dict[int, GrantMade]] = collections.defaultdict(dict)
        self.entries: dict[Right, Entries] = {}
        # Of a grant that PostgreSQL cannot keep as it is, why, as it was when it was last made.
        self.unkept: dict[int, Told] = {}
        for grant in grants.values():
            self.of[grant.table, grant.right][grant.number] = grant
        for right in self.of:
            self.entries[right], _ = self.replayed(right)

    def set(self, number: int, grant: Optional[GrantMade]) -> Right:
        """Notes a grant as it is now, or None where it fell. Says of which right it is."""
        known = grant or self.grants[number]
        right = known.table, known.right
        if grant is None:
            del self.grants[number], self.of[right][number]
        else:
            self.grants[number] = self.of[right][number] = grant
        return right

    def make(self, entries: Entries, grant: GrantMade) -> Optional[Coming]:
        """Makes a grant as tools/to_postgres does; what comes of it, if anything does."""
        pair = grant.by, grant.to
        if grant.to == entries.owner:
            self.note(grant, "to the owner", "not made there, as an owner holds all")
            return None
        goes_back = grant.option and entries.goes_back(*pair)
        before = entries.options.get(pair)
        if goes_back:
            self.note(grant, "back", f"without the option there, as {grant.by} has it through {grant.to} alone")
        elif before is not None:
            self.note(grant, "repeated", "there one entry with an earlier one")
        entries.grant(*pair, grant.option and not goes_back)
        option = entries.options[pair]
        return None if option == before else Coming(grant.number, grant.table, grant.right, *pair, option)

    def note(self, grant: GrantMade, kind: str, why: str) -> None:
        self.unkept[grant.number] = Told(
            kind, f"{grant.table} {grant.right} {grant.by} -> {grant.to}, grant {grant.number}: {why}")

    def replayed(self, right: Right) -> tuple[Entries, dict[tuple[str, str], Coming]]:
        """The entries of all grants in force, made anew, and of each the grant by which it is as it is."""
        entries, last = Entries(self.owners[right[0]]), {}
        for number in sorted(self.of[right]):
            coming = self.make(entries, self.of[right][number])
            if coming:
                last[coming.by, coming.to] = coming
        return entries, last

    def more(self, right: Right, numbers: Iterable[int]) -> list[Coming]:
        """What comes by grants that are new, where none fell."""
        if right not in self.entries:
            self.entries[right] = Entries(self.owners[right[0]])
        made = (self.make(self.entries[right], self.of[right][number]) for number in sorted(numbers))
        return [coming for coming in made if coming]

    def other(self, right: Right) -> tuple[list[Coming], list[Going]]:
        """What comes and what goes where grants fell: the last made goes first, so that no entry is left whose grantor
        has the option no more."""
        there = self.entries[right].options if right in self.entries else {}
        self.entries[right], last = self.replayed(right)
        now = self.entries[right].options
        coming = [one for pair, one in last.items() if pair not in there or one.option and not there[pair]]
        going = [Going(*right, *pair, pair in now) for pair, option in reversed(there.items())
            if pair not in now or option and not now[pair]]
        return coming, going


def in_runs(coming: Iterable[Coming]) -> Iterator[list[Coming]]:
    """Those of one grantor that stand one behind another: none of these rests on another of them."""
    run: list[Coming] = []
    for one in sorted(coming, key=lambda one: one.number):
        if run and run[-1].by != one.by:
            yield run
            run = []
        run.append(one)
    if run:
        yield run

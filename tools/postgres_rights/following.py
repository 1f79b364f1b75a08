"""Moments of a stream as transactions of PostgreSQL."""
import collections
import dataclasses
from collections.abc import Iterable, Iterator
from typing import Optional, Union

from postgres_rights.carrying import Names
from postgres_rights.entries import Coming, Going, Right, Rights, in_runs
from postgres_rights.stream import Change, Effect, GrantFell, GrantMade, OptionLost, RowGone, RowNow, TableMade, Values
from postgres_rights.there import Beside, Kept
from postgres_rights.wording import Told, in_short


class Transaction:
    """What a run of changes comes to, one transaction: rows by table and number, None where one is gone, and grants."""

    def __init__(self, names: Names, beside: Beside, kept: Kept, rights: Rights):
        self.names, self.beside, self.kept, self.rights = names, beside, kept, rights
        self.made: list[TableMade] = []
        self.rows: dict[str, dict[int, Optional[Values]]] = collections.defaultdict(dict)
        self.inserted: dict[str, set[int]] = collections.defaultdict(set)
        self.users: dict[str, None] = {}
        self.numbers: set[int] = set()
        self.new_numbers: set[int] = set()
        # The rights of which grants are new, with their numbers, and those of which some fell or lost their option.
        self.grown: dict[Right, list[int]] = collections.defaultdict(list)
        self.shrunk: dict[Right, None] = {}

    def take(self, changes: Iterable[Change]) -> None:
        for change in changes:
            for effect in change.effects:
                self.take_effect(effect)
            self.kept.moment = change.moment

    def take_effect(self, effect: Effect) -> None:
        if isinstance(effect, RowNow):
            self.take_row(effect)
        elif isinstance(effect, RowGone):
            self.rows[effect.table][effect.number] = None
        elif isinstance(effect, TableMade):
            self.named(effect.owner)
            self.made.append(effect)
            self.kept.tables[effect.table] = effect
            self.rights.owners[effect.table] = effect.owner
        else:
            self.take_grant(effect)

    def take_row(self, effect: RowNow) -> None:
        if effect.inserted:
            self.inserted[effect.table].add(effect.number)
        self.rows[effect.table][effect.number] = effect.values

    def take_grant(self, effect: Union[GrantMade, OptionLost, GrantFell]) -> None:
        self.numbers.add(effect.number)
        if isinstance(effect, GrantMade):
            self.named(effect.by)
            self.named(effect.to)
            self.new_numbers.add(effect.number)
            self.grown[self.rights.set(effect.number, effect)].append(effect.number)
            return
        left = None
        if isinstance(effect, OptionLost):
            left = dataclasses.replace(self.rights.grants[effect.number], option=False)
        self.shrunk[self.rights.set(effect.number, left)] = None

    def named(self, user: str) -> None:
        if user not in self.kept.users:
            self.kept.users.add(user)
            self.names.roles[user] = self.names.role_for(user)
            self.users[user] = None

    def rows_told(self) -> Iterator[str]:
        """A row that there was is written anew, with those that are new."""
        for table, rows in self.rows.items():
            new = self.inserted[table]
            yield from self.beside.without_rows(table, (number for number in rows if number not in new))
            yield from self.beside.with_rows(table, {number: row for number, row in rows.items() if row is not None})

    def grants_told(self) -> Iterator[str]:
        yield from self.beside.without_grants(number for number in self.numbers if number not in self.new_numbers)
        yield from self.beside.with_grants(
            self.rights.grants[number] for number in sorted(self.numbers) if number in self.rights.grants)

    def entries_told(self) -> Iterator[str]:
        """The entries that come, each by its grantor, who has the option by then, and behind them those that go."""
        coming: list[Coming] = []
        going: list[Going] = []
        for right, numbers in self.grown.items():
            if right not in self.shrunk:
                coming += self.rights.more(right, numbers)
        for right in self.shrunk:
            more, fewer = self.rights.other(right)
            coming += more
            going += fewer
        yield from self.spoken((statement for run in in_runs(coming) for statement in self.granting(run)), "GRANT")
        yield from self.spoken(map(self.revoking, going), "REVOKE")

    def granting(self, run: list[Coming]) -> Iterator[tuple[str, str]]:
        """The grants of one grantor, those to one user on one table together; and who says each."""
        together: dict[tuple[str, str, bool], list[str]] = collections.defaultdict(list)
        for one in run:
            together[one.table, one.to, one.option].append(one.right)
        for (table, to, option), rights in together.items():
            listed = ", ".join(in_short(rights, self.names.column))
            yield run[0].by, (f"{listed} ON {self.names.table(table)} TO {self.names.role(to)}"
                + " WITH GRANT OPTION" * option)

    def revoking(self, one: Going) -> tuple[str, str]:
        listed = ", ".join(in_short([one.right], self.names.column))
        return one.by, ("GRANT OPTION FOR " * one.stays
            + f"{listed} ON {self.names.table(one.table)} FROM {self.names.role(one.to)}")

    def spoken(self, said: Iterable[tuple[str, str]], word: str) -> Iterator[str]:
        speaker = None
        for by, text in said:
            if by != speaker:
                speaker = by
                yield f"SET LOCAL ROLE {self.names.role(by)};"
            yield f"{word} {text};"
        if speaker is not None:
            yield "RESET ROLE;"

    def script(self, reuse: bool) -> Iterator[str]:
        yield "BEGIN;"
        for user in self.users:
            yield from self.beside.new_user(user, reuse)
        for made in self.made:
            yield from self.beside.new_table(made)
        yield from self.rows_told()
        yield from self.grants_told()
        yield from self.entries_told()
        yield self.beside.now_at(self.kept.moment)
        yield "COMMIT;"

    def unkept(self) -> Iterator[Told]:
        """What PostgreSQL cannot keep of the grants that are new."""
        for number in sorted(self.new_numbers):
            if number in self.rights.grants and number in self.rights.unkept:
                yield self.rights.unkept[number]

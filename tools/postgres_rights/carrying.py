"""Names there, and which grants are made there: what PostgreSQL's entries cannot keep is told."""
import collections
import dataclasses
from collections.abc import Iterator

from postgres_rights.journal import Grant, Kept, Pair
from postgres_rights.wording import Told, counted, identifier, in_short, shown

SYSTEM_COLUMNS = ("tableoid", "xmin", "cmin", "xmax", "cmax", "ctid")


class Names:
    """Names there: of a role, a table and a column. What PostgreSQL reserves gets a hyphen, which no name here has."""

    def __init__(self, schema: str, prefix: str, kept: Kept):
        self.schema, self.prefix = schema, prefix
        self.roles: dict[str, str] = {user: self.role_for(user) for user in kept.users()}

    def role_for(self, user: str) -> str:
        role = self.prefix + user
        is_reserved = role in ("public", "none") or role.startswith("pg_")
        return "user-" + role if is_reserved else role

    def role(self, user: str) -> str:
        return identifier(self.roles[user])

    def table(self, name: str) -> str:
        return f"{identifier(self.schema)}.{identifier(name)}"

    def column_there(self, name: str) -> str:
        return "column-" + name if name in SYSTEM_COLUMNS else name

    def column(self, name: str) -> str:
        return identifier(self.column_there(name))

    def told(self, kept: Kept) -> Iterator[Told]:
        """The users and columns that have other names there."""
        for user, role in self.roles.items():
            if role != self.prefix + user:
                yield Told("renamed", f"the user {user} is the role {shown(role)}, as that name is reserved there")
        for table in kept.tables.values():
            for column in (column for column, _ in table.columns if column in SYSTEM_COLUMNS):
                yield Told("renamed", f"the column {column} of {table.name} is {shown(self.column_there(column))}, "
                    "as each table has one of that name there")


class Entries:
    """The entries of one right on one table, as PostgreSQL keeps them: options by grantor and grantee."""

    def __init__(self, owner: str):
        self.owner = owner
        self.options: dict[tuple[str, str], bool] = {}
        self.given: dict[str, set[str]] = collections.defaultdict(set)

    def grant(self, by: str, to: str, option: bool) -> None:
        self.options[by, to] = option or self.options.get((by, to), False)
        if option:
            self.given[by].add(to)

    def goes_back(self, by: str, to: str) -> bool:
        """Whether PostgreSQL refuses the option: without those of the grantee, and all that fell with them there, the
        grantor would have none. (It counts: an option that somebody else gave keeps a user's, whatever that rests on.)
        """
        if by == self.owner:
            return False
        left = collections.Counter(user for users in self.given.values() for user in users)
        left[to], lost = 0, [to]
        for user in lost:
            for other in self.given.get(user, ()):
                left[other] -= 1
                if left[other] == 0:
                    lost.append(other)
        return by in lost


class Carried:
    """The grants that are made there, the entries that they leave, and what is to be told of them."""

    def __init__(self, kept: Kept):
        self.made: list[Grant] = []
        self.entries: dict[tuple[str, str], Entries] = {}
        told: dict[tuple[str, ...], list[str]] = {}
        for grant in kept.grants:
            owner = kept.tables[grant.table].owner
            entries = self.entries.setdefault((grant.table, grant.right), Entries(owner))
            for kind, more in self.carry(grant, entries):
                told.setdefault((kind, grant.table, grant.by, grant.to, more), []).append(grant.right)
        for grant, others in self.late():
            told.setdefault(("late", grant.table, grant.by, grant.to, others), []).append(grant.right)
        self.told = [Told(kind, f"{table} {', '.join(in_short(rights))} {by} -> {to} {more}")
            for (kind, table, by, to, more), rights in told.items()]

    def carry(self, grant: Grant, entries: Entries) -> Iterator[tuple[str, str]]:
        """Makes a grant as PostgreSQL lets it be made."""
        pair = grant.by, grant.to
        if grant.to == entries.owner:
            yield "to the owner", f"@{grant.since}: not made there, as an owner holds all"
            return
        if grant.option and entries.goes_back(*pair):
            grant = dataclasses.replace(grant, option=False)
            yield "back", f"@{grant.since}: without the option there, as {grant.by} has it through {grant.to} alone"
        if pair in entries.options:
            yield "repeated", f"@{grant.since}: there one entry with an earlier one"
        entries.grant(*pair, grant.option)
        self.made.append(grant)

    def late(self) -> Iterator[tuple[Grant, str]]:
        """The grants that more would hold up there than here: options that their grantors were given later."""
        given = collections.defaultdict(list)
        for grant in self.made:
            if grant.option:
                given[grant.table, grant.right, grant.to].append(grant)
        for grant in self.made:
            options = given[grant.table, grant.right, grant.by]
            early = {option.by for option in options if option.since < grant.since}
            others = [option for option in options if option.since > grant.since and option.by not in early]
            if early and others:
                yield grant, f"@{grant.since}: there " + ", ".join(
                    f"{option.by} -> {option.to} @{option.since}" for option in others) + " would hold it up too"

    def pairs(self) -> dict[Pair, bool]:
        """Whether the entry of a pair has the option."""
        return {(*key, *pair): option for key, entries in self.entries.items()
            for pair, option in entries.options.items()}


def report(names: Names, kept: Kept, carried: Carried) -> Iterator[Told]:
    """What cannot be carried over, apart from rows."""
    if kept.passed_over:
        yield Told("lines", f"{kept.passed_over} passed over: no accepted change")
    yield from names.told(kept)
    yield from carried.told
    if kept.grants:
        grants = counted(len(kept.grants), "single grant")
        yield Told("moments", f"those of {grants}, and all that fell: no entry has them")
        yield Told("rule", "from here on a grant stands there by any option of its grantor's, whenever it came")

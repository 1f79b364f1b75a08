"""In which order the entries of a right may be granted here, so that a REVOKE takes what it takes in PostgreSQL."""
import collections
import graphlib
from collections.abc import Iterable, Iterator, Mapping
from typing import Optional

from postgres_rights.schema import Entry, Table
from postgres_rights.wording import BY_COLUMN, WORDS, Told, right, shown

# The entries of a word and a column, or of the whole table.
Ordered = dict[tuple[str, Optional[str]], list[Entry]]


def options_of(entries: Iterable[Entry]) -> dict[str, set[str]]:
    """By user to whom he gave options."""
    onward = collections.defaultdict(set)
    for entry in entries:
        if entry.option:
            onward[entry.by].add(entry.to)
    return onward


def reached(onward: Mapping[str, set[str]], able: Iterable[str]) -> set[str]:
    """The users who can grant, if these can from the start."""
    able = set(able)
    ahead = [*able]
    while ahead:
        more = onward.get(ahead.pop(), set()) - able
        able |= more
        ahead += more
    return able


def circles(entries: Iterable[Entry], owner: str) -> Iterator[str]:
    """The users who hold the option from others who hold it, by however many steps, from them."""
    onward = options_of(entry for entry in entries if owner not in (entry.by, entry.to))
    try:
        graphlib.TopologicalSorter(onward).prepare()
    except graphlib.CycleError:
        yield from (user for user in sorted(onward) if user in reached(onward, onward[user]))


def in_order(entries: Iterable[Entry], owner: str, able: Iterable[str]) -> Iterator[Entry]:
    """Entries of one right in an order in which a user is given all his options before he grants.

    Then a grant that stands by several of them falls with the last, as it does there. In a circle no order does
    this: one of those who have an option goes on.
    """
    made, able = collections.defaultdict(list), set(able)
    for entry in entries:
        made[entry.by].append(entry)
    missing = collections.Counter(entry.to for entry in entries if entry.option and entry.to != owner)
    ready = collections.deque(user for user in made if user in able and not missing[user])
    while made:
        by = ready.popleft() if ready else next(user for user in made if user in able)
        for entry in made.pop(by):
            yield entry
            if entry.option and entry.to != owner:
                able.add(entry.to)
                missing[entry.to] -= 1
                if not missing[entry.to] and entry.to in made:
                    ready.append(entry.to)


def told_of_levels(table: Table, word: str) -> Iterator[Told]:
    """Where options of the whole table and grants by column meet, PostgreSQL takes other grants than here."""
    entries = [entry for entry in table.entries if entry.word == word and word in BY_COLUMN]
    for user in sorted({entry.by for entry in entries} - {table.owner}):
        levels = {entry.column is None for entry in entries if entry.by == user or entry.to == user and entry.option}
        if len(levels) == 2:
            yield Told("levels", f"{shown(table.name)} {word}: {shown(user)} has options or grants of the whole table "
                "and of columns; there the one does not fall with the other")
    pairs = collections.defaultdict(set)
    for entry in entries:
        pairs[entry.by, entry.to].add(entry.column is None)
    for (by, to), levels in pairs.items():
        if len(levels) == 2:
            yield Told("levels", f"{shown(table.name)} {word} {shown(by)} -> {shown(to)}: "
                "of the whole table, and of columns; there a REVOKE of columns leaves the first")


def ordered(table: Table, told: list[Told]) -> Ordered:
    """The entries of each right, whole tables before columns, in an order in which they may be granted."""
    found = {}
    for word in WORDS:
        told += told_of_levels(table, word)
        of_word = [entry for entry in table.entries if entry.word == word]
        whole = {table.owner}
        for column in [None, *(column for column, _ in table.columns)]:
            entries = [entry for entry in of_word if entry.column == column]
            able = reached(options_of(entries), whole)
            standing = [entry for entry in entries if entry.by in able]
            told += [Told("no owner", f"{entry}: no chain of entries leads to it from the owner")
                for entry in entries if entry.by not in able]
            users = [*circles(standing, table.owner)]
            if users:
                told.append(Told("circle", f"{shown(table.name)} {right(word, column and shown(column))}: "
                    f"{', '.join(map(shown, users))} hold the option in a circle; there it may hold itself up"))
            found[word, column] = [*in_order(standing, table.owner, whole)]
            whole = able if column is None else whole
    return found

"""Rights by their definition: at each question a replay of all that was granted, in which nothing is ever taken out.

The replay goes through the grants that were not revoked later, each without its option where that was revoked later.
It keeps a grant whose grantor owns the table, or holds the option by a kept grant of an earlier moment. Those kept
are in force.
"""
import bisect
import collections

GRANT, REVOKE, REVOKE_OPTION = "GRANT", "REVOKE", "REVOKE GRANT OPTION FOR"

# An atom is a table and one right on it, as `INSERT` or `SELECT(x)`.
Change = collections.namedtuple("Change", "moment kind by atoms whom option")
Grant = collections.namedtuple("Grant", "moment by atom to option")


BY_COLUMN = ("SELECT", "UPDATE")


def atoms_of(table, columns, privileges):
    """What privileges are on a table of these columns: words, each with columns or None.

    Without columns SELECT and UPDATE are those on each of the table's, in its order.
    """
    for word, listed in privileges:
        rights = [f"{word}({column})" for column in listed or columns] if word in BY_COLUMN else [word]
        yield from ((table, right) for right in rights)


def granted(changes):
    """All single grants, in order."""
    for moment, kind, by, atoms, whom, option in changes:
        if kind == GRANT:
            yield from (Grant(moment, by, atom, to, option) for atom in atoms for to in whom)


def last_named(changes, kind):
    """By grantor, atom and grantee: the moment of the last change of this kind that names them."""
    return {(change.by, atom, to): change.moment for change in changes if change.kind == kind
        for atom in change.atoms for to in change.whom}


class Rights:
    """Owners of tables, and all changes of rights in their order."""

    def __init__(self):
        self.owners, self.changes, self.replayed = {}, [], {}

    def enter(self, *change):
        self.changes.append(Change(*change))

    def kept(self, changes):
        revoked, options_revoked = last_named(changes, REVOKE), last_named(changes, REVOKE_OPTION)
        optioned = {}
        for grant in granted(changes):
            named = grant.by, grant.atom, grant.to
            if revoked.get(named, 0) > grant.moment:
                continue
            if options_revoked.get(named, 0) > grant.moment:
                grant = grant._replace(option=False)
            is_owner = self.owners[grant.atom[0]] == grant.by
            if is_owner or optioned.get((grant.by, grant.atom), grant.moment) < grant.moment:
                yield grant
                if grant.option:
                    optioned.setdefault((grant.to, grant.atom), grant.moment)

    def in_force(self, moment):
        """The grants in force after the change of this moment."""
        entered = bisect.bisect_right([change.moment for change in self.changes], moment)
        if entered not in self.replayed:
            self.replayed[entered] = [*self.kept(self.changes[:entered])]
        return self.replayed[entered]

    def owns(self, user, atom):
        return self.owners[atom[0]] == user

    def holds(self, user, atom, moment):
        return self.owns(user, atom) or any((grant.to, grant.atom) == (user, atom) for grant in self.in_force(moment))

    def may_grant(self, user, atom, moment):
        return self.owns(user, atom) or any((grant.to, grant.atom, grant.option) == (user, atom, True)
            for grant in self.in_force(moment))

    def has_made(self, by, to, atom, moment, with_option):
        """Whether a grant in force is by the one to the other; if it is asked for, one with the option."""
        return any((grant.by, grant.to, grant.atom) == (by, to, atom) and (grant.option or not with_option)
            for grant in self.in_force(moment))

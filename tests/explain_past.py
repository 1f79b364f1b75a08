"""What a script made of rights, by a replay of all grants at each moment (rights.py): when each grant fell, when its
option ended, and by which line."""
from rights import REVOKE, REVOKE_OPTION, granted


def flag(option):
    return "yes" if option else "no"


def names(change, grant):
    return (change.by == grant.by and grant.atom in change.atoms and grant.to in change.whom)


def key(grant):
    return grant.moment, grant.by, grant.atom, grant.to


class Life:
    """A single grant, the moment of its fall, and that at which its option ended; None for never."""

    def __init__(self, grant, fell, option_end, change, lines):
        self.grant, self.fell, self.option_end = grant, fell, option_end
        self.line, self.revoke = lines[grant.moment], lines[fell] if fell else ""
        self.how = "" if not fell else "revoked" if change.kind == REVOKE and names(change, grant) else "fell"

    def right(self, option):
        (table, right), grant = self.grant.atom, self.grant
        return [table, grant.to, right, flag(option), str(grant.moment), grant.by]

    def end(self):
        return [str(self.fell or ""), self.how, str(self.revoke)]

    def key(self):
        return key(self.grant)

    def option_ended(self):
        """The moment from which it was not in force with the option: its own, if it was made without."""
        return self.option_end if self.grant.option else self.grant.moment


class Past:
    """What a script made of rights: at each moment the grants in force, by a replay."""

    def __init__(self, rights, moment, created, lines):
        self.rights, self.moment, self.created, self.lines = rights, moment, created, lines
        self.by_moment = {change.moment: change for change in rights.changes}
        self.at = [{key(grant): grant for grant in rights.in_force(m)} for m in range(moment + 1)]
        self.made = [(grant, *self.ends(grant)) for grant in granted(rights.changes)]
        self.known = {}

    def ends(self, grant):
        """The first moments at which a grant was not in force, and not with the option."""
        name, moments = key(grant), range(grant.moment, self.moment + 1)
        fell = next((m for m in moments if name not in self.at[m]), None)
        end = next((m for m in moments if name not in self.at[m] or not self.at[m][name].option), None)
        return fell, end

    def lives(self, most):
        """The lives of all grants that were made, as they are told at the moment `most`."""
        if most not in self.known:
            self.known[most] = [*self.lives_until(most)]
        return self.known[most]

    def lives_until(self, most):
        for grant, *ends in self.made:
            fell, end = (at if at and at <= most else None for at in ends)
            if grant.moment <= most:
                yield Life(grant, fell, end if grant.option else None, self.by_moment.get(fell), self.lines)

    def owners(self, most):
        return [[table, owner, "OWNER", "yes", str(moment), ""] for moment, table, owner in self.created
            if moment <= most]

    def since(self, table):
        return next(moment for moment, name, _ in self.created if name == table)

    def owner(self, table):
        return self.rights.owners[table]

    def owns(self, user, atom):
        return self.rights.owns(user, atom)

    def holds(self, user, atom, m):
        return self.owns(user, atom) or any(
            (grant.to, grant.atom) == (user, atom) for grant in self.at[m].values())

    def may_grant(self, user, atom, m):
        return self.owns(user, atom) or any(
            (grant.to, grant.atom, grant.option) == (user, atom, True) for grant in self.at[m].values())

    def users(self, most):
        """The users whom the changes up to the moment name, each once, in their order."""
        named = {moment: [owner] for moment, _, owner in self.created}
        named.update((change.moment, [change.by, *change.whom]) for change in self.rights.changes)
        return list(dict.fromkeys(user for moment in sorted(named) if moment <= most for user in named[moment]))

    def is_revocation_of(self, moment, grant):
        change = self.by_moment[moment]
        return change.kind == REVOKE and names(change, grant)

    def takes_option_of(self, moment, grant):
        change = self.by_moment[moment]
        return change.kind == REVOKE_OPTION and grant.option and names(change, grant)

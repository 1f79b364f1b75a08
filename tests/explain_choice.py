"""Which chain, way down or REVOKE is told where several are right.

Each grant is told to rest on the one to its grantor whose option lasted longest of those that were made before it, and
on the first of several such; and a user holds a privilege by the first grant of it in force (LANGUAGE, "Rights
explained"). A REVOKE leaves out whom it can from the last user on, which no document says. `is_chain`, `is_descent` and
`is_cut` look by the rules alone at what was chosen so.
"""
from rights import REVOKE, Rights

NEVER = float("inf")


class Choice:
    """What is chosen of the past at a moment."""

    def __init__(self, past, m):
        self.past, self.m, self.lives = past, m, past.lives(m)
        self.supports = {}
        for life in self.lives:
            if life.grant.option:
                self.supports.setdefault((life.grant.to, life.grant.atom), []).append(life)

    def support(self, life):
        """The grant on which it rests; None for one by the owner."""
        grant = life.grant
        if self.past.owns(grant.by, grant.atom):
            return None
        able = [one for one in self.supports[grant.by, grant.atom] if one.grant.moment < grant.moment]
        return max(able, key=lambda one: one.option_end or NEVER)

    def chain(self, life):
        """From the owner's grant down to this one."""
        chain = [life]
        while support := self.support(chain[0]):
            chain.insert(0, support)
        return chain

    def way_down(self, life):
        """From the grant that the REVOKE names, or whose option it names, down to this one, which fell."""
        way = [life]
        while not self.is_named(way[0], life):
            way.insert(0, self.support(way[0]))
        return way

    def is_named(self, life, last):
        is_options = life is not last and self.past.takes_option_of(last.fell, life.grant)
        return is_options or self.past.is_revocation_of(last.fell, life.grant)

    def given(self, user, atom):
        return [life for life in self.lives if (life.grant.to, life.grant.atom) == (user, atom)]

    def held_by(self, user, atom):
        """The chain by which he holds it, if he does."""
        standing = [life for life in self.given(user, atom) if not life.fell]
        return self.chain(standing[0]) if standing else []

    def cut(self, user, atom):
        """Who takes it from him, and from whom he revokes: of the grantors of his chain the nearest who can. None, if
        he owns the table or does not hold it."""
        chain = [] if self.past.owns(user, atom) else self.held_by(user, atom)
        for life in reversed(chain):
            by = life.grant.by
            whom = made_to(self.past, by, atom, self.m)
            if not keeps(self.past, by, whom, user, atom, self.m):
                for to in reversed(whom):
                    rest = [one for one in whom if one != to]
                    whom = whom if keeps(self.past, by, rest, user, atom, self.m) else rest
                return by, whom
        return None


def made_to(past, by, atom, m):
    """To whom grants by this one are in force."""
    return list(dict.fromkeys(grant.to for grant in past.at[m].values() if (grant.by, grant.atom) == (by, atom)))


def keeps(past, by, whom, user, atom, m):
    """Whether a user holds an atom behind a REVOKE from these."""
    rights = Rights()
    rights.owners = past.rights.owners
    rights.changes = [change for change in past.rights.changes if change.moment <= m]
    if whom:
        rights.enter(m + 1, REVOKE, by, [atom], whom, False)
    return rights.holds(user, atom, m + 1)


def is_chain(past, lives, user, atom, m):
    """Whether these are a chain of grants in force at the moment, from the owner down to the user."""
    grants = [past.at[m].get(life.key()) for life in lives]
    if None in grants or not grants:
        return False
    return (
        past.owns(grants[0].by, atom)
        and grants[-1].to == user
        and all(grant.atom == atom for grant in grants)
        and all(a.to == b.by and a.option and a.moment < b.moment for a, b in zip(grants, grants[1:]))
    )


def is_descent(past, lives):
    """Whether these lead from the REVOKE by which the last fell down to it."""
    fell, first = lives[-1].fell, lives[0]
    return (
        (past.is_revocation_of(fell, first.grant) or (len(lives) > 1 and past.takes_option_of(fell, first.grant)))
        and all(life.grant.atom == first.grant.atom for life in lives)
        and all(a.grant.to == b.grant.by and a.grant.option and a.grant.moment < b.grant.moment
            for a, b in zip(lives, lives[1:]))
        and all(life.option_end == fell for life in lives[:-1])
    )


def is_cut(past, by, whom, user, atom, m):
    """Whether a REVOKE by this one from these takes the atom from the user, and from nobody who could be left out."""
    return (
        set(whom) <= set(made_to(past, by, atom, m))
        and not keeps(past, by, whom, user, atom, m)
        and all(keeps(past, by, [one for one in whom if one != to], user, atom, m) for to in whom)
    )

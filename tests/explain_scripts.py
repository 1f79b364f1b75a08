"""Scripts by chance that turn rights, for questions about them (explain_chance.py): told to a model, line by line.

Most are of six users, of whom two own a table each, of two and of three columns. Dense ones have five users and one
privilege, so that each has several grants, which differ in their options and moments. Those of long lists have a chain
of more than 24 grants, further grants to its users, and as many to one user at its end; then some are revoked.
"""
import itertools
import random

from explain_past import Past
from model import Model
from rights import BY_COLUMN, GRANT, REVOKE, REVOKE_OPTION

LINES = 56
USERS = "opabcd"
OWNERS = {"t": "o", "v": "p"}
X, Y, Z = ("x", "INTEGER"), ("y", "TEXT"), ("z", "INTEGER")
COLUMNS = {"t": [X, Y], "v": [X, Y, Z]}
WORDS = ("SELECT", "INSERT", "DELETE", "UPDATE")
DENSE, CHAIN = 30, 30


class Told:
    """A model with what is told it: the line of each moment, its tables, and which lines say no change that is done,
    each with why."""

    owners, columns = OWNERS, COLUMNS

    def __init__(self, seed):
        self.random, self.model = random.Random(seed), Model(16)
        self.lines, self.created, self.left_out = {}, [], []
        for table, owner in self.owners.items():
            self.said(self.model.create, owner, table, self.columns[table])
            self.created.append((self.model.moment, table, owner))

    def said(self, say, *words):
        told = len(self.model.wanted)
        say(*words)
        number, reply = len(self.model.given), self.model.wanted[told]
        self.lines[self.model.moment] = self.lines.get(self.model.moment, number)
        if reply.startswith("denied") and say != self.model.select:
            self.left_out.append((number, reply))

    def past(self):
        return Past(self.model.rights, self.model.moment, self.created, self.lines)

    def atoms(self, table, words=WORDS):
        """All atoms of a table, in the order of WORDS and of its columns."""
        return self.model.atoms(table, [(word, None) for word in words])

    def picked(self, table, word):
        """A privilege of that word, mostly of all columns, and else of some, in any order."""
        names = [name for name, _ in self.columns[table]]
        if word not in BY_COLUMN or self.random.random() < 0.5:
            return word, None
        return word, self.random.sample(names, self.random.randint(1, len(names)))


class Chance(Told):
    """Statements by chance of six users."""

    users = USERS

    def __init__(self, seed):
        super().__init__(seed)
        for _ in range(LINES):
            self.statement()

    def privileges(self, table):
        words = ["SELECT"] if self.random.random() < 0.7 else self.random.sample(WORDS, 2)
        return [self.picked(table, word) for word in words]

    def grant(self):
        """Mostly by one who may and is not the owner, so that chains grow, and often once more what was granted."""
        model, pick = self.model, self.random
        table = pick.choice("tttttttv")
        privileges = self.privileges(table)
        atoms = model.atoms(table, privileges)
        able = [user for user in USERS if all(model.rights.may_grant(user, atom, model.moment) for atom in atoms)]
        others = [user for user in able if user != OWNERS[table]]
        able = others if others and pick.random() < 0.9 else able
        by = pick.choice(able if pick.random() < 0.9 else USERS)
        whom = pick.sample(USERS, pick.choice((1, 1, 1, 2, 3)))
        self.said(model.change_rights, GRANT, by, table, privileges, whom, pick.random() < 0.8)

    def revocation(self, model=None):
        """A revocation, mostly of an early grant in force, by which many fall: its kind, and what it names."""
        model, pick = model or self.model, self.random
        kind = REVOKE if pick.random() < 0.65 else REVOKE_OPTION
        grants = [grant for grant in model.rights.in_force(model.moment) if grant.option or kind == REVOKE]
        if not grants or pick.random() < 0.1:
            return kind, pick.choice(USERS), pick.choice("tv"), self.privileges("t"), pick.sample(USERS, 1)
        grant = pick.choice(grants[:4] if pick.random() < 0.5 else grants)
        alike = [one for one in grants if (one.by, one.to, one.atom[0]) == (grant.by, grant.to, grant.atom[0])]
        rights = list(dict.fromkeys(one.atom[1] for one in alike)) if pick.random() < 0.3 else [grant.atom[1]]
        named = {}
        for right in pick.sample(rights, len(rights)):
            word, _, column = right.removesuffix(")").partition("(")
            named.setdefault(word, []).append(column)
        privileges = [(word, names if names[0] and pick.random() < 0.7 else None) for word, names in named.items()]
        whom = list(dict.fromkeys([grant.to, *pick.sample(USERS, pick.choice((0, 0, 1)))]))
        return kind, grant.by, grant.atom[0], privileges, whom

    def statement(self):
        """At first mostly grants."""
        share = self.random.random()
        if share < (0.8 if self.model.moment < 24 else 0.5):
            self.grant()
        elif share < 0.84:
            self.said(self.model.change_rights, *self.revocation())
        elif share < 0.92:
            self.said(self.model.insert, "o", "t", [1, "a"])
        else:
            self.said(self.model.select, self.random.choice(USERS), "t", ["x"], [])


class Dense(Told):
    """Statements by chance of five users about one privilege."""

    owners, columns, users = {"t": "o"}, {"t": [X]}, "oabcd"

    def __init__(self, seed):
        super().__init__(seed)
        while self.model.moment < DENSE:
            share = self.random.random()
            if share < 0.7:
                self.grant()
            else:
                self.said(self.model.change_rights, *self.revocation())

    def grant(self):
        model, pick = self.model, self.random
        able = [user for user in self.users if model.rights.may_grant(user, ("t", "SELECT(x)"), model.moment)]
        whom = pick.sample(self.users[1:], pick.choice((1, 1, 2)))
        self.said(model.change_rights, GRANT, pick.choice(able), "t", [("SELECT", None)], whom, pick.random() < 0.7)

    def revocation(self, model=None):
        model, pick = model or self.model, self.random
        kind = pick.choice((REVOKE, REVOKE_OPTION, REVOKE_OPTION))
        grants = [grant for grant in model.rights.in_force(model.moment) if grant.option or kind == REVOKE]
        by, to = pick.choice([(grant.by, grant.to) for grant in grants] or [("o", "a")])
        return kind, by, "t", [("SELECT", None)], [to]


class Long(Told):
    """Lists of more than 24 grants: a chain, further grants to its users, and grants to `z`; then some fall."""

    owners, columns = {"t": "o"}, {"t": [X]}

    def __init__(self, seed):
        super().__init__(seed)
        pick = self.random
        chain = ["o", *(f"u{n}" for n in range(1, CHAIN + pick.randint(0, 6)))]
        self.users = [*chain, "z"]
        for by, to in itertools.pairwise(chain):
            self.granted(by, to, True)
            if pick.random() < 0.4:
                self.granted(pick.choice(chain[:chain.index(to)]), to, pick.random() < 0.5)
        for _ in range(CHAIN):
            self.granted(pick.choice(chain), pick.choice(("z", "z", "z", chain[1])), pick.random() < 0.5)
        self.bound = self.model.moment
        for _ in range(3):
            self.said(self.model.change_rights, *self.revocation())

    def granted(self, by, to, option):
        self.said(self.model.change_rights, GRANT, by, "t", [("SELECT", None)], [to], option)

    def revocation(self, model=None):
        model, pick = model or self.model, self.random
        kind = pick.choice((REVOKE, REVOKE_OPTION))
        grants = [grant for grant in model.rights.in_force(model.moment) if grant.option or kind == REVOKE]
        grants = [grant for grant in grants if grant.to != "z"][:6] or grants
        by, to = pick.choice([(grant.by, grant.to) for grant in grants] or [("o", "z")])
        return kind, by, "t", [("SELECT", None)], [to]

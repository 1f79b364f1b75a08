"""Scripts by chance that turn rights, and what the model says is written for them.

Six users, of whom two own a table each, grant all privileges on in chains and rings, those of SELECT and UPDATE by
column, take them or their options back, try them, and export checkpoints whose steps take one record each, so that
most changes happen while grants are captured. At the end the grants in force are audited. The seeds are fixed, so each
run plays the same.
"""
import random

from model import Model
from rights import BY_COLUMN, GRANT, REVOKE, REVOKE_OPTION

SEEDS = range(1976, 1996)
LINES = 400
OWNERS = {"t": "o", "v": "p"}
USERS = "opabcd"
COLUMNS = [("x", "INTEGER"), ("y", "TEXT")]
ROW = [1, "a"]


class Chance:
    """Statements by chance, told to a model."""

    def __init__(self, seed):
        self.random, self.model = random.Random(seed), Model(1)
        for table, owner in OWNERS.items():
            self.model.create(owner, table, COLUMNS)
            self.model.insert(owner, table, ROW)

    def is_rare(self):
        return self.random.random() < 0.05

    def table(self, name):
        return "s" if self.is_rare() else name

    def columns(self):
        return ["x", "z"] if self.is_rare() else self.random.choice((None, ["x"], ["y"], ["y", "x"]))

    def privileges(self):
        """Mostly SELECT alone, so that many grants have to do with each other."""
        pick = self.random
        words = pick.sample(("SELECT", "INSERT", "DELETE", "UPDATE"), pick.choice((1, 1, 2, 3)))
        words = words if pick.random() < 0.4 else ["SELECT"]
        return [(word, self.columns() if word in BY_COLUMN else None) for word in words]

    def users(self):
        return self.random.sample(USERS, self.random.choice((1, 1, 1, 1, 2)))

    def grant(self):
        """Mostly by one who may."""
        model, pick = self.model, self.random
        table, privileges = pick.choice([*OWNERS]), self.privileges()
        atoms = model.atoms(table, privileges)
        able = [user for user in USERS if all(model.rights.may_grant(user, atom, model.moment) for atom in atoms)]
        by = pick.choice(able if pick.random() < 0.8 else USERS)
        model.change_rights(GRANT, by, self.table(table), privileges, self.users(), pick.random() < 0.7)

    def named(self, kind):
        """A grant in force that such a revocation may name, or None."""
        grants = self.model.rights.in_force(self.model.moment)
        grants = [grant for grant in grants if grant.option or kind == REVOKE]
        return self.random.choice(grants) if grants and self.random.random() < 0.8 else None

    def revoke(self, kind):
        model, pick, grant = self.model, self.random, self.named(kind)
        if grant is None:
            table = self.table(pick.choice([*OWNERS]))
            model.change_rights(kind, pick.choice(USERS), table, self.privileges(), self.users())
            return
        table, right = grant.atom
        word, _, column = right.removesuffix(")").partition("(")
        columns = [column] if column and pick.random() < 0.8 else None
        whom = [grant.to] if pick.random() < 0.8 else list(dict.fromkeys([grant.to, *self.users()]))
        model.change_rights(kind, grant.by, table, [(word, columns)], whom)

    def tried(self):
        """A privilege that somebody tries."""
        model, pick = self.model, self.random
        table, user = pick.choice([*OWNERS]), pick.choice(USERS)
        listed = pick.choice(([], ["x"], ["y"], ["y", "x"]))
        filters = pick.choice(([], [("x", "=", 1)], [("y", "=", "a")], [("y", "<>", "b"), ("x", "<", 2)]))
        pick.choice((
            *3 * (lambda: model.select(user, table, listed, filters),),
            lambda: model.insert(user, table, ROW),
            lambda: model.delete(user, table, filters),
            lambda: model.update(user, table, [("y", "a"), ("x", 1)][:pick.randint(1, 2)], filters),
        ))()

    def checkpoint(self):
        """A checkpoint is begun, or all are listed, with what is left of the active one."""
        model, pick = self.model, self.random
        pick.choice((model.checkpoint, model.checkpoint, model.checkpoints))(pick.choice(USERS))

    def export(self):
        model, pick = self.model, self.random
        user, number = pick.choice(USERS), pick.randint(max(1, model.begun - 3), model.begun + 1)
        model.export(user, number, pick.choice((None, *OWNERS)))

    def statement(self):
        share = self.random.random()
        if share < 0.34:
            self.grant()
        elif share < 0.64:
            self.revoke(REVOKE if share < 0.54 else REVOKE_OPTION)
        elif share < 0.8:
            self.tried()
        elif share < 0.86:
            self.checkpoint()
        else:
            self.export()


def fell(model):
    """How many grants fell with the options that each change took."""
    for change in model.rights.changes:
        if change.kind == REVOKE_OPTION:
            before, after = (model.rights.in_force(moment) for moment in (change.moment - 1, change.moment))
            yield len(before) - len(after)


def scripts():
    """For each seed the model that was told, and what is written for it with an audit at the end."""
    for seed in SEEDS:
        chance = Chance(seed)
        for _ in range(LINES):
            chance.statement()
        yield seed, chance.model, [*chance.model.wanted, chance.model.audit()]


def has_all(models):
    """Whether the scripts have what they are for: of each kind of answer, and grants that fall, many."""
    wanted = [line for model in models for line in model.wanted]
    options = [count for model in models for count in fell(model)]
    answers = (" may not grant UPDATE(", " granted no SELECT(", " granted no option for SELECT(", " option for UPDATE(",
        ": no table s", ": no column z in ", " lacks DELETE on ", " lacks SELECT(x) on ", " lacks SELECT(y) on ",
        " now lacks SELECT on ", " lacked SELECT on ", "withheld,t,now", "withheld,v,point", "refused @", "active,")
    tables = [f"table,{table},{columns}" for table in OWNERS for columns in ("x", "y", "x,y")]
    return (
        all(sum(answer in line for line in wanted) > 5 for answer in answers)
        and all(wanted.count(table) > 5 for table in tables)
        and len(options) > 200
        and sum(options) > 200
        and max(options) > 9
    )

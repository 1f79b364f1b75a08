"""A long script by chance, and what the model says is written for it.

Nothing refuses a request for memory here, so no line may tell of memory, however large things are: a
server that gives up at some size would be seen. The script has all tables that there may be, some of 32 columns;
20,000 rows in one of them, and texts of 1,024 bytes; updates of two and of seven columns; replies of more
than 10,000 rows; checkpoints of more than 1,000 records, and lists of eight; and exports of all tables, by
their owner and by users who may select some columns of some. The owner, `own`, grants SELECT to `bob`, and he to `eve`
where he may. The seed is fixed, so each run plays the same.
"""
import random

from model import COMPARISONS, TABLES, Model
from rights import GRANT, REVOKE, REVOKE_OPTION

CHUNK = 64
ROWS = 20_000
WIDTHS = (1, 2, 3, 7, 8, 32)
# No text of the script has these words.
OF_MEMORY = (b"no memory", b"reply lost", b"export cut", b"abandoned")


class Chance:
    """Statements by chance, told to a model."""

    def __init__(self, seed):
        self.random, self.model, self.missing = random.Random(seed), Model(CHUNK), ROWS

    def value(self, kind, long=False):
        pick = self.random
        if kind == "INTEGER":
            ends = (-(2**63), 2**63 - 1)
            return pick.choice(ends) if pick.random() < 0.02 else pick.randint(-9, 9)
        if long:
            return pick.choice("xyz") * 1024
        return "".join(pick.choice("ab ,'\"\u00e9\u20ac") for _ in range(pick.randint(0, 9)))

    def row(self, columns, long):
        """A row, of which one text is as long as may be, if any is to be."""
        texts = [name for name, kind in columns if kind == "TEXT"]
        longest = self.random.choice(texts) if long and texts else None
        return [self.value(kind, name == longest) for name, kind in columns]

    def filters(self, table):
        picked = [self.random.choice(table.columns) for _ in range(self.random.randint(0, 3))]
        return [(name, self.random.choice([*COMPARISONS]), self.value(kind)) for name, kind in picked]

    def create_all(self):
        """All tables that there may be, and one more."""
        self.model.create("own", "big", [("n", "INTEGER"), ("t", "TEXT")])
        for n in range(1, TABLES + 1):
            width = self.random.choice(WIDTHS) if n < 60 else 1
            columns = [(f"c{at}", self.random.choice(("INTEGER", "TEXT"))) for at in range(width)]
            self.model.create("own", f"t{n}", columns)
            if n % 200 == 0:
                self.model.checkpoint("bob")
                self.model.checkpoints("bob")

    def insert(self):
        if self.missing and self.random.random() < 0.9:
            self.missing -= 1
            self.model.insert("own", "big", [self.missing, self.value("TEXT", self.random.random() < 0.01)])
        else:
            name = f"t{self.random.randint(1, 60)}"
            self.model.insert("own", name, self.row(self.model.tables[name].columns, self.random.random() < 0.3))

    def update(self, name, width):
        table = self.model.tables[name]
        picked = self.random.sample(table.columns, min(width, len(table.columns)))
        self.model.update("own", name, [(column, self.value(kind)) for column, kind in picked], self.filters(table))

    def other(self):
        """A statement that is no INSERT."""
        pick, model = self.random, self.model
        name, user = f"t{pick.randint(1, 60)}", pick.choice(("own", "own", "bob", "eve"))
        table, kind = model.tables[name], pick.randint(0, 9)
        if kind < 3:
            listed = pick.sample(table.names, pick.randint(0, len(table.names)))
            model.select(user, name, listed, self.filters(table))
        elif kind < 6:
            self.update(name, pick.choice((1, 2, 7)))
        elif kind == 6:
            model.delete("own", name, self.filters(table) + [("c0", "=", self.value(table.columns[0][1]))])
        elif kind == 7:
            self.turn_right(pick.choice((name, "big", "big")))
        elif kind == 8:
            pick.choice((model.checkpoint, model.checkpoints))("bob")
        else:
            number = pick.randint(max(1, model.begun - 9), model.begun + 1)
            model.export(user, number, pick.choice((name, name, "t999")))

    def turn_right(self, name):
        """Grants SELECT of all columns or of some, or takes it or its option back."""
        pick, names = self.random, self.model.tables[name].names
        by, to = pick.choice((("own", "bob"), ("own", "bob"), ("bob", "eve")))
        kind = pick.choice((GRANT, GRANT, REVOKE, REVOKE_OPTION))
        option = kind == GRANT and pick.random() < 0.7
        columns = pick.choice((None, pick.sample(names, pick.randint(1, len(names)))))
        self.model.change_rights(kind, by, name, [("SELECT", columns)], [to], option)

    def large(self):
        """Statements that go over the table with many rows, or over all tables."""
        model, pick = self.model, self.random
        listed = pick.sample(["n", "t"], pick.randint(0, 2))
        model.select("own", "big", listed, [("n", "<>", pick.randint(0, ROWS))])
        self.update("big", 2) if pick.random() < 0.5 else model.update("own", "big", [("t", "it's")], [("n", "<", 500)])
        model.select("own", "big", [], [("n", "<", pick.randint(0, 99))])
        model.export(pick.choice(("own", "bob", "eve")), pick.choice(model.kept)["number"] if model.kept else 1)


def script():
    """The lines of the script, and those that are written for them with an audit at the end."""
    chance = Chance(1976)
    model = chance.model
    chance.create_all()
    while chance.missing:
        for _ in range(2500):
            chance.insert() if chance.random.random() < 0.9 else chance.other()
        chance.large()
    for _ in range(9):
        model.checkpoint("bob")
        while model.active:
            chance.other()
    model.checkpoints("bob")
    for user in ("own", "bob", "eve"):
        model.export(user, model.begun)
    model.select("own", "big", [], [])
    return model.given, [*model.wanted, model.audit()]


def has_sizes(given, wanted):
    """Whether the script has the sizes that it is for."""
    replies = [int(line.split()[1]) for line in wanted if line.startswith("rows ")]
    tables = [line for line in wanted if line.startswith("table,t")]
    return (
        max(replies) > 10_000
        and f"refused @{TABLES}: full: tables" in wanted
        and any(line.startswith("checkpoints 8 ") for line in wanted)
        and any(line.count(" = ") == 7 for line in given if ": UPDATE" in line and "WHERE" not in line)
        and any(line.count(" TEXT") + line.count(" INTEGER") == 32 for line in given)
        and any(1024 * "x" in line for line in given)
        and len(tables) > 1000
        and any(line.count(",c") not in WIDTHS for line in tables)
        and any(line in ("table,big,n", "table,big,t") for line in wanted)
    )

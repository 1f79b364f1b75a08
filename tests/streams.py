#!/usr/bin/env python3
"""Changes as a stream: what `sysr stream` tells of a journal, beside what a second teller says, and applied.

A `Reader` applies records one after another, and knows nothing of statements or of rights: rows by their numbers, grants
by theirs. It refuses a record that says nothing new, a number out of order, and a moment whose records are not counted
down to 0. A `StreamModel` tells the records of each change by comparing what there was with what there is: rows by the
plain model (model.py), grants in force by a replay (rights.py). Scripts by chance are told both ways; what the reader then
has is what the model has, at each moment, from nothing and from any moment on.

    tests/streams.py                the teller and the reader alone
    tests/streams.py PROGRAM [N]    beside the program, `PROGRAM stream [--from m]`: N scripts, 50 if it is not given, and
                                    100,000 changes among which 1,000 grants fall at once, again and again
"""
import csv
import io
import random
import subprocess
import sys

from model import Model, field
from rights import BY_COLUMN, GRANT, REVOKE, REVOKE_OPTION, granted

FIRST_SEED, SCRIPTS = 1976, 50
LINES = 60
WAIT = 60
# In the long script: how many grants fall at once, of chains of so many users, of a table of so many columns.
CHANGES, CHAIN, WIDTH = 100_000, 250, 4
USERS = "opabcd"
COLUMNS = {"t": [("x", "INTEGER"), ("y", "TEXT")], "v": [("x", "INTEGER")]}
OWNERS = {"t": "o", "v": "p"}
TEXTS = ["", "a", "b,c", 'say "no"', "ä", ","]
EXAMPLE = """\
ann: CREATE TABLE pay (name TEXT, wage INTEGER)
ann: INSERT INTO pay VALUES ('Bo', 5)
ann: INSERT INTO pay VALUES ('Cy, "jr"', -7)
ann: GRANT SELECT (name), INSERT ON pay TO bob WITH GRANT OPTION
bob: GRANT INSERT ON pay TO cy
ann: UPDATE pay SET wage = 6 WHERE wage > 0
ann: UPDATE pay SET wage = 6
ann: DELETE FROM pay WHERE name = 'Bo'
ann: REVOKE GRANT OPTION FOR INSERT ON pay FROM bob
ann: REVOKE SELECT (name) ON pay FROM bob
ann: DELETE FROM pay WHERE wage > 100
"""
# computed by hand, as docs/LANGUAGE.md has it
EXAMPLE_STREAM = '''\
1,0,created,pay,ann,name,TEXT,wage,INTEGER
2,0,inserted,pay,0,Bo,5
3,0,inserted,pay,1,"Cy, ""jr""",-7
4,1,granted,0,ann,bob,pay,SELECT,name,yes
4,0,granted,1,ann,bob,pay,INSERT,,yes
5,0,granted,2,bob,cy,pay,INSERT,,no
6,0,updated,pay,0,Bo,6
7,0,updated,pay,1,"Cy, ""jr""",6
8,0,deleted,pay,0
9,1,option lost,1
9,0,fell,2
10,0,fell,0
'''


class Broken(Exception):
    """A record that a stream may not have where it stands."""


class Reader:
    """The tables, each with its owner, its columns and its rows by number, and the grants in force by number."""

    def __init__(self):
        self.tables, self.grants = {}, {}
        self.moment, self.left, self.subject = 0, 0, None

    def take(self, record):
        """Applies a record; says whether it was the last of its moment."""
        moment, left, word, *fields = record
        moment, left = int(moment), int(left)
        if self.left:
            if (moment, left) != (self.moment, self.left - 1):
                raise Broken(f"{record} behind {self.left} missing of moment {self.moment}")
        elif moment <= self.moment:
            raise Broken(f"{record} behind moment {self.moment}")
        else:
            self.subject = None
        self.moment, self.left = moment, left
        subject = getattr(self, word.replace(" ", "_"))(*fields)
        if self.subject is not None and not (self.subject[:-1] == subject[:-1] and self.subject[-1] < subject[-1]):
            raise Broken(f"{record} behind one of {self.subject}")
        self.subject = subject
        return left == 0

    def created(self, table, owner, *columns):
        if table in self.tables:
            raise Broken(f"table {table} twice")
        pairs = [*zip(columns[::2], columns[1::2])]
        self.tables[table] = {"owner": owner, "columns": pairs, "rows": {}, "inserted": 0}
        return ("table", table, 0)

    def typed(self, table, values):
        columns = self.tables[table]["columns"]
        if len(columns) != len(values):
            raise Broken(f"{len(values)} values for {len(columns)} columns of {table}")
        return [int(value) if kind == "INTEGER" else value for (_, kind), value in zip(columns, values)]

    def inserted(self, table, number, *values):
        number, rows = int(number), self.tables[table]["rows"]
        if number != self.tables[table]["inserted"]:
            raise Broken(f"row {number} of {table} is not the next")
        rows[number] = self.typed(table, values)
        self.tables[table]["inserted"] += 1
        return ("row", table, number)

    def updated(self, table, number, *values):
        number, rows = int(number), self.tables[table]["rows"]
        values = self.typed(table, values)
        if rows[number] == values:
            raise Broken(f"row {number} of {table} was so")
        rows[number] = values
        return ("row", table, number)

    def deleted(self, table, number):
        del self.tables[table]["rows"][int(number)]
        return ("row", table, int(number))

    def granted(self, number, grantor, grantee, table, privilege, column, option):
        if (privilege in BY_COLUMN) != bool(column) or option not in ("yes", "no"):
            raise Broken(f"grant {number} of {privilege} {column} {option}")
        if self.grants and int(number) <= max(self.grants):
            raise Broken(f"grant {number} out of order")
        right = f"{privilege}({column})" if column else privilege
        self.grants[int(number)] = (self.moment, grantor, (table, right), grantee, option == "yes")
        return ("grant", int(number))

    def option_lost(self, number):
        *grant, option = self.grants[int(number)]
        if not option:
            raise Broken(f"grant {number} had no option")
        self.grants[int(number)] = (*grant, False)
        return ("grant", int(number))

    def fell(self, number):
        del self.grants[int(number)]
        return ("grant", int(number))


def records_of(text):
    return [*csv.reader(io.StringIO(text, newline=""))]


def line_of(*fields):
    """A record as it is written: a field is in quotes where it has a comma or a quote."""
    return ",".join(map(field, fields))


class StreamModel(Model):
    """The model, the numbers of its rows, and of each moment the records of what its change did."""

    def __init__(self):
        super().__init__(16)
        self.numbers, self.inserted, self.told, self.journal = {}, {}, [], []
        self.in_force = {}

    def tell(self, moment, effects):
        """The lines of the effects of a change, if it was done."""
        if self.moment == moment:
            return
        self.journal.append(self.given[-1])
        lines = [line_of(self.moment, len(effects) - 1 - at, *effect) for at, effect in enumerate(effects)]
        self.told.append((self.moment, lines))

    def create(self, user, name, columns):
        moment = self.moment
        super().create(user, name, columns)
        self.numbers[name], self.inserted[name] = [], 0
        self.tell(moment, [("created", name, user, *(word for column in columns for word in column))])

    def insert(self, user, name, row):
        moment, number = self.moment, self.inserted[name]
        super().insert(user, name, row)
        if self.moment > moment:
            self.numbers[name].append(number)
            self.inserted[name] += 1
        self.tell(moment, [("inserted", name, number, *row)])

    def update(self, user, name, sets, filters):
        moment, rows = self.moment, [*self.tables[name].rows]
        super().update(user, name, sets, filters)
        now = self.tables[name].rows
        self.tell(moment, [("updated", name, number, *new)
            for number, old, new in zip(self.numbers[name], rows, now) if old != new])

    def delete(self, user, name, filters):
        moment, gone = self.moment, set(self.tables[name].chosen(filters))
        super().delete(user, name, filters)
        if self.moment == moment:
            return
        effects = [("deleted", name, number) for at, number in enumerate(self.numbers[name]) if at in gone]
        self.numbers[name] = [number for at, number in enumerate(self.numbers[name]) if at not in gone]
        self.tell(moment, effects)

    def change_rights(self, kind, user, name, privileges, users, option=False):
        moment, before = self.moment, self.in_force
        super().change_rights(kind, user, name, privileges, users, option)
        if self.moment == moment:
            return
        numbers = {grant[:4]: at for at, grant in enumerate(granted(self.rights.changes))}
        self.in_force = {numbers[grant[:4]]: grant for grant in self.rights.in_force(self.moment)}
        self.tell(moment, [effect for number in sorted({*before, *self.in_force})
            for effect in self.became(number, before.get(number), self.in_force.get(number))])

    def became(self, number, old, new):
        """What became of a grant: it was made, it fell, it lost its option, or nothing."""
        if new is None:
            yield "fell", number
        elif old is None:
            word, _, column = new.atom[1].rstrip(")").partition("(")
            yield "granted", number, new.by, new.to, new.atom[0], word, column, "yes" if new.option else "no"
        elif old.option != new.option:
            yield "option lost", number

    def contents(self):
        """As a reader has them."""
        tables = {name: {"owner": self.rights.owners[name], "columns": table.columns,
            "rows": dict(zip(self.numbers[name], table.rows)), "inserted": self.inserted[name]}
            for name, table in self.tables.items()}
        return tables, {number: (grant.moment, grant.by, grant.atom, grant.to, grant.option)
            for number, grant in self.in_force.items()}

    def stream(self, begin=0):
        return "".join(line + "\n" for moment, lines in self.told if moment > begin for line in lines)


class Chance:
    """Statements by chance, told to a model, and what there was at each moment."""

    def __init__(self, seed):
        self.random, self.model, self.contents = random.Random(seed), StreamModel(), [({}, {})]
        for table, owner in OWNERS.items():
            self.said(self.model.create, owner, table, COLUMNS[table])
        for _ in range(LINES):
            self.statement()

    def said(self, say, *words):
        say(*words)
        if self.model.moment == len(self.contents):
            tables, grants = self.model.contents()
            copies = {name: {**table, "rows": dict(table["rows"])} for name, table in tables.items()}
            self.contents.append((copies, dict(grants)))

    def value(self, kind):
        return self.random.randrange(-2, 3) if kind == "INTEGER" else self.random.choice(TEXTS)

    def filters(self, table):
        column, kind = self.random.choice(COLUMNS[table])
        signs = ["=", "<>", "<", ">="]
        return [(column, self.random.choice(signs), self.value(kind))] * self.random.randrange(2)

    def privileges(self, table):
        names = [name for name, _ in COLUMNS[table]]
        words = self.random.sample(["SELECT", "INSERT", "DELETE", "UPDATE"], self.random.randint(1, 2))
        return [(word, self.random.choice([None, [self.random.choice(names)]]) if word in BY_COLUMN else None)
            for word in words]

    def statement(self):
        pick, model = self.random, self.model
        table = pick.choice([*COLUMNS])
        user = OWNERS[table] if pick.random() < 0.6 else pick.choice(USERS)
        kind = pick.choice(["insert", "insert", "update", "delete", GRANT, GRANT, GRANT, REVOKE, REVOKE_OPTION])
        if kind == "insert":
            self.said(model.insert, user, table, [self.value(kind) for _, kind in COLUMNS[table]])
        elif kind == "update":
            column, of = pick.choice(COLUMNS[table])
            self.said(model.update, user, table, [(column, self.value(of))], self.filters(table))
        elif kind == "delete":
            self.said(model.delete, user, table, self.filters(table) or [("x", "=", self.value("INTEGER"))])
        elif kind != GRANT and model.in_force and pick.random() < 0.8:
            self.take_back(kind, pick.choice([*model.in_force.values()]))
        else:
            users = pick.sample(USERS, pick.randint(1, 2))
            option = kind == GRANT and pick.random() < 0.7
            self.said(model.change_rights, kind, user, table, self.privileges(table), users, option)

    def take_back(self, kind, grant):
        """A revocation of a grant that is in force, or of its option."""
        table, right = grant.atom
        word, _, column = right.rstrip(")").partition("(")
        self.said(self.model.change_rights, kind, grant.by, table, [(word, [column] if column else None)], [grant.to])


def applied(text, contents=({}, {}), moment=0):
    """What a reader has who had these contents at a moment, after each moment that the text tells."""
    reader = Reader()
    reader.tables = {name: {**table, "rows": dict(table["rows"])} for name, table in contents[0].items()}
    reader.grants, reader.moment = dict(contents[1]), moment
    after = {}
    for record in records_of(text):
        if reader.take(record):
            after[reader.moment] = ({name: {**table, "rows": dict(table["rows"])}
                for name, table in reader.tables.items()}, dict(reader.grants))
    if reader.left:
        raise Broken(f"{reader.left} records of moment {reader.moment} are missing")
    return after


def agrees(text, contents, begin):
    """Whether the text leads from the contents of a moment to those of each later one."""
    after = applied(text, contents[begin], begin)
    now = contents[begin]
    for moment in range(begin + 1, len(contents)):
        now = after.get(moment, now)
        if now != contents[moment]:
            return False
    return True


def streamed(program, journal, *words):
    done = subprocess.run([program, "stream", *words], input=journal.encode(), capture_output=True, timeout=WAIT)
    return done.stdout.decode(), done.stderr.decode(), done.returncode


def one_script(check, program, seed):
    chance = Chance(seed)
    told, moments = chance.model.stream(), len(chance.contents)
    journal = "".join(line + "\n" for line in chance.model.journal)
    begin = chance.random.randrange(moments)
    for start in (0, begin):
        check(f"script {seed}: the teller's stream is applied from {start}",
            agrees(chance.model.stream(start), chance.contents, start), journal)
    if program:
        check(f"script {seed}: streamed", streamed(program, journal) == (told, "", 0), journal)
        check(f"script {seed}: streamed from {begin}",
            streamed(program, journal, "--from", str(begin)) == (chance.model.stream(begin), "", 0), journal)
        check(f"script {seed}: with a line that was cut off",
            streamed(program, journal + journal.splitlines()[-1])[0] == told, journal)
    return [record[2] for record in records_of(told)]


def long_script():
    """Chains of grants of all columns, each of which falls with its first; between them rows come and go."""
    yield "o: CREATE TABLE t (a INTEGER, b INTEGER, c INTEGER, d INTEGER)"
    for block in range(CHANGES // (CHAIN + 3)):
        yield "o: GRANT SELECT ON t TO u1 WITH GRANT OPTION"
        yield from (f"u{at}: GRANT SELECT ON t TO u{at + 1} WITH GRANT OPTION" for at in range(1, CHAIN))
        yield f"o: INSERT INTO t VALUES ({block}, 0, 0, 0)"
        yield f"o: DELETE FROM t WHERE a = {block - 1}"
        yield "o: REVOKE SELECT ON t FROM u1"


def long_stream(check, program):
    """All of a long script is told and applied: at each of its ends no grant is left, and one row."""
    lines = [*long_script()]
    text, err, status = streamed(program, "".join(line + "\n" for line in lines))
    reader, words, ends = Reader(), {}, []
    for record in records_of(text):
        words[record[2]] = words.get(record[2], 0) + 1
        if reader.take(record) and record[2] == "fell":
            ends.append((reader.moment, reader.grants == {}, len(reader.tables["t"]["rows"])))
    blocks = CHANGES // (CHAIN + 3)
    grants = blocks * CHAIN * WIDTH
    wanted = {"created": 1, "granted": grants, "inserted": blocks, "deleted": blocks - 1, "fell": grants}
    check("a long script: records", (words, err, status) == (wanted, "", 0), (words, err, status))
    moments = [(1 + (CHAIN + 3) * block, True, 1) for block in range(1, blocks + 1)]
    check("a long script: what is left", ends == moments, ends[:3])


def played(program, check, scripts=SCRIPTS):
    seeds = range(FIRST_SEED, FIRST_SEED + scripts)
    words = [word for seed in seeds for word in one_script(check, program, seed)]
    counts = {word: words.count(word) for word in
        ("created", "inserted", "updated", "deleted", "granted", "option lost", "fell")}
    check("streams by chance: each kind of record", min(counts.values()) > len(seeds), counts)
    check("the example is applied", len(applied(EXAMPLE_STREAM)) == 10, EXAMPLE_STREAM)
    if program:
        check("the example is streamed", streamed(program, EXAMPLE) == (EXAMPLE_STREAM, "", 0), EXAMPLE)


def main():
    failed = []

    def check(name, holds, seen):
        if not holds:
            failed.append(name)
            print(f"{name}: failed\n{seen}")

    program = sys.argv[1] if len(sys.argv) > 1 else None
    played(program, check, int(sys.argv[2]) if len(sys.argv) > 2 else SCRIPTS)
    if program:
        long_stream(check, program)
    print(f"{len(failed)} failed" if failed else "all passed")
    sys.exit(bool(failed))


if __name__ == "__main__":
    main()

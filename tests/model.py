"""A plain model of the server, which says what is written for a script, line by line.

It keeps lists of rows, and copies all of them for a checkpoint; what rights there are is replayed (rights.py). It was
written from the rules of the language.
"""
import itertools
import operator

from rights import GRANT, REVOKE, REVOKE_OPTION, Rights, atoms_of

TABLES = 1024
COMPARISONS = {"=": operator.eq, "<>": operator.ne, "<": operator.lt, "<=": operator.le, ">": operator.gt,
    ">=": operator.ge}


def field(value):
    text = str(value)
    return '"' + text.replace('"', '""') + '"' if "," in text or '"' in text else text


def record(word, values):
    return ",".join([word, *map(field, values)])


def literal(value):
    return str(value) if isinstance(value, int) else "'" + value.replace("'", "''") + "'"


def ordered(value):
    """As values compare: texts by their bytes."""
    return value if isinstance(value, int) else value.encode()


def where(filters):
    conditions = " AND ".join(f"{name} {sign} {literal(value)}" for name, sign, value in filters)
    return f" WHERE {conditions}" if filters else ""


def to_select(columns):
    return [f"SELECT({column})" for column in columns]


def to_choose(filters):
    """What is needed to choose rows by these conditions: to select each column, in the order written."""
    return to_select(name for name, _, _ in filters)


def as_written(privileges):
    return ", ".join(f"{word} ({', '.join(listed)})" if listed else word for word, listed in privileges)


class Table:
    def __init__(self, columns):
        self.columns, self.rows = columns, []
        self.names = [name for name, _ in columns]

    def chosen(self, filters):
        """The places of the rows that meet all conditions."""
        tests = [(self.names.index(name), COMPARISONS[sign], ordered(value)) for name, sign, value in filters]
        return [at for at, row in enumerate(self.rows)
            if all(compare(ordered(row[column]), value) for column, compare, value in tests)]


class Model:
    """What the server holds, and for each statement what it answers: the lines behind `given`, in `wanted`."""

    def __init__(self, chunk):
        self.chunk, self.tables, self.rights, self.moment = chunk, {}, Rights(), 0
        self.begun, self.active, self.kept = 0, None, []
        self.given, self.wanted = [], []

    def say(self, user, statement, answers):
        """A line with its answers; then the checkpointer takes its step."""
        self.given.append(f"{user}: {statement}")
        self.wanted += answers
        if self.active:
            self.active["left"] -= self.chunk
            if self.active["left"] <= 0:
                self.kept = [*self.kept, self.active][-8:]
                self.active = None

    def done(self, user, statement):
        self.moment += 1
        self.say(user, statement, [f"done @{self.moment}"])

    def denied(self, user, statement, *lacks):
        """Whether something is missing; the first lack is told."""
        lack = next(itertools.chain(*lacks), None)
        if lack:
            self.say(user, statement, [f"denied @{self.moment}: {lack}"])
        return lack is not None

    def not_there(self, name, columns):
        if name not in self.tables:
            yield f"no table {name}"
        else:
            names = self.tables[name].names
            yield from (f"no column {column} in {name}" for column in columns if column not in names)

    def holds(self, user, name, right, moment=None):
        return self.rights.holds(user, (name, right), self.moment if moment is None else moment)

    def not_held(self, user, name, *rights):
        yield from (f"{user} lacks {right} on {name}" for right in rights if not self.holds(user, name, right))

    def create(self, user, name, columns):
        listed = ", ".join(f"{column} {kind}" for column, kind in columns)
        if len(self.tables) == TABLES:
            self.say(user, f"CREATE TABLE {name} ({listed})", [f"refused @{self.moment}: full: tables"])
            return
        self.tables[name], self.rights.owners[name] = Table(columns), user
        self.done(user, f"CREATE TABLE {name} ({listed})")

    def insert(self, user, name, row):
        statement = f"INSERT INTO {name} VALUES ({', '.join(map(literal, row))})"
        if not self.denied(user, statement, self.not_held(user, name, "INSERT")):
            self.tables[name].rows.append(row)
            self.done(user, statement)

    def select(self, user, name, listed, filters):
        table = self.tables[name]
        statement = f"SELECT {', '.join(listed) or '*'} FROM {name}{where(filters)}"
        needed = [*to_select(listed or table.names), *to_choose(filters)]
        if self.denied(user, statement, self.not_held(user, name, *needed)):
            return
        places = [table.names.index(column) for column in listed or table.names]
        rows = [record("row", [table.rows[at][place] for place in places]) for at in table.chosen(filters)]
        self.say(user, statement, [f"rows {len(rows)} @{self.moment}", *rows])

    def update(self, user, name, sets, filters):
        table = self.tables[name]
        listed = ", ".join(f"{column} = {literal(value)}" for column, value in sets)
        statement = f"UPDATE {name} SET {listed}{where(filters)}"
        needed = [*(f"UPDATE({column})" for column, _ in sets), *to_choose(filters)]
        if self.denied(user, statement, self.not_held(user, name, *needed)):
            return
        changed = {table.names.index(column): value for column, value in sets}
        for at in table.chosen(filters):
            table.rows[at] = [changed.get(place, value) for place, value in enumerate(table.rows[at])]
        self.done(user, statement)

    def delete(self, user, name, filters):
        table = self.tables[name]
        statement = f"DELETE FROM {name}{where(filters)}"
        if self.denied(user, statement, self.not_held(user, name, "DELETE", *to_choose(filters))):
            return
        gone = set(table.chosen(filters))
        table.rows = [row for at, row in enumerate(table.rows) if at not in gone]
        self.done(user, statement)

    def atoms(self, name, privileges):
        return [*atoms_of(name, self.tables[name].names, privileges)]

    def not_grantable(self, user, name, privileges):
        for atom in self.atoms(name, privileges):
            if not self.rights.may_grant(user, atom, self.moment):
                yield f"{user} may not grant {atom[1]} on {name}"

    def not_made(self, user, name, privileges, users, kind):
        with_option = kind == REVOKE_OPTION
        for atom, to in itertools.product(self.atoms(name, privileges), users):
            if not self.rights.has_made(user, to, atom, self.moment, with_option):
                yield f"{user} granted no {'option for ' * with_option}{atom[1]} on {name} to {to}"

    def change_rights(self, kind, user, name, privileges, users, option=False):
        """A grant, a revocation, or one of the option alone."""
        towards = ("TO" if kind == GRANT else "FROM") + " " + ", ".join(users) + option * " WITH GRANT OPTION"
        statement = f"{kind} {as_written(privileges)} ON {name} {towards}"
        columns = [column for _, listed in privileges for column in listed or []]
        lacks = self.not_made(user, name, privileges, users, kind)
        if kind == GRANT:
            lacks = self.not_grantable(user, name, privileges)
        if not self.denied(user, statement, self.not_there(name, columns), lacks):
            self.done(user, statement)
            self.rights.enter(self.moment, kind, user, self.atoms(name, privileges), users, option)

    def audit(self):
        return f"audit ok {len(self.rights.in_force(self.moment))}"

    def checkpoint(self, user):
        if self.active:
            self.say(user, "CHECKPOINT", [f"refused @{self.moment}: busy"])
            return
        self.begun += 1
        image = {name: (table.names, [*table.rows]) for name, table in self.tables.items()}
        records = sum(len(rows) for _, rows in image.values()) + len(self.rights.in_force(self.moment))
        self.active = {"number": self.begun, "point": self.moment, "left": max(records, 1), "image": image}
        self.say(user, "CHECKPOINT", [f"checkpoint {self.begun} begun @{self.moment}"])

    def checkpoints(self, user):
        lines = [f"finished,{kept['number']},{kept['point']}" for kept in self.kept]
        if self.active:
            lines.append("active,{number},{point},{left}".format(**self.active))
        self.say(user, "CHECKPOINTS", [f"checkpoints {len(lines)} @{self.moment}", *lines])

    def exported(self, user, kept, name):
        """What an export has of a table: what is in the columns that he might select then and may select now."""
        columns, rows = kept["image"][name]
        then = [self.holds(user, name, right, kept["point"]) for right in to_select(columns)]
        shown = [held and self.holds(user, name, right) for held, right in zip(then, to_select(columns))]
        if not any(shown):
            return [f"withheld,{name},{'now' if any(then) else 'point'}"]
        cut = [record("row", itertools.compress(row, shown)) for row in rows]
        return [record("table", [name, *itertools.compress(columns, shown)]), *cut]

    def export(self, user, number, only=None):
        statement = f"EXPORT {number}" + (f" ONLY {only}" if only else "")
        kept = next((kept for kept in self.kept if kept["number"] == number), None)
        if kept is None:
            self.say(user, statement, [f"denied @{self.moment}: no checkpoint {number}"])
            return
        point, image = kept["point"], kept["image"]
        if only and only not in image:
            self.say(user, statement, [f"denied @{point}: no table {only} at checkpoint {number}"])
            return
        told = [line for name in ([only] if only else image) for line in self.exported(user, kept, name)]
        if only and told == [f"withheld,{only},point"]:
            self.say(user, statement, [f"denied @{point}: {user} lacked SELECT on {only}"])
        elif only and told == [f"withheld,{only},now"]:
            self.say(user, statement, [f"denied @{self.moment}: {user} now lacks SELECT on {only}"])
        else:
            self.say(user, statement, [f"export {number} point {point} @{self.moment}", *told, f"end {number}"])

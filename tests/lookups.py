"""Look-ups by equality and by ranges, which the program finds by an index by value, or by one in order.

A long script by chance is played as it is, and once more with each `column = v` written as `column >= v AND column <= v`,
which an index in order finds. Both have to be answered alike, and as sqlite3 answers, which keeps indexes of its own. A table
has some thousands of rows, and another one passes now and then the number from which on indexes are made; below that each
look-up goes over all rows. Rows are inserted, changed and deleted all the while, also in the columns that are asked for, and
checkpoints are taken and exported. Shorter scripts change a larger table while its indexes are made, each by several
questions. That indexes are made at all is seen by the requests for memory that they take.
"""
import functools
import random
import sqlite3
import subprocess

import refusals

SEED = 1976
STATEMENTS = 100_000
ROWS = 3_000
CHUNK = 64
# Three questions make an index of so many rows. Behind them come so many statements, in so many scripts.
LARGE, LATER, SCRIPTS = 20_000, 150, 20
# So many statements come between a checkpoint and its export, which is finished by then.
BETWEEN = 5_000
COLUMNS = {"big": ("id", "name", "kind", "note"), "small": ("id", "name", "kind", "note")}
TEXTS = ("name", "note")


def literal(value):
    return str(value) if isinstance(value, int) else "'" + value.replace("'", "''") + "'"


def field(value):
    text = str(value)
    return '"' + text.replace('"', '""') + '"' if any(mark in text for mark in ',"') else text


# So many rows a table has to have before its columns get indexes.
INDEXED = 256


class Lookups:
    """A script, the same without equalities, and what is answered."""

    def __init__(self, seed):
        self.random, self.moment = random.Random(seed), 0
        self.given, self.ranged, self.wanted = [], [], []
        self.rows = {name: 0 for name in COLUMNS}
        self.begun, self.kept = 0, []
        self.known = sqlite3.connect(":memory:")
        for table in COLUMNS:
            self.known.execute(f"CREATE TABLE {table} (n INTEGER PRIMARY KEY AUTOINCREMENT, id, name, kind, note)")
            for column in COLUMNS[table]:
                self.known.execute(f"CREATE INDEX {table}_{column} ON {table} ({column})")
            self.change(f"CREATE TABLE {table} (id INTEGER, name TEXT, kind INTEGER, note TEXT)")

    def say(self, statement, ranged=None):
        self.given.append(f"own: {statement}")
        self.ranged.append(f"own: {ranged or statement}")

    def change(self, statement, ranged=None):
        self.say(statement, ranged)
        self.moment += 1
        self.wanted.append(f"done @{self.moment}")

    def value(self, column):
        pick = self.random
        if column == "id":
            return pick.choice((-(2**63), 2**63 - 1)) if pick.random() < 0.01 else pick.randint(-9, 2 * ROWS)
        if column == "kind":
            return pick.randint(0, 9)
        if column == "name":
            return f"it's row {pick.randint(0, ROWS):05}" if pick.random() < 0.9 else pick.choice(("", ",", '"a"', "x" * 300))
        return pick.choice(("", "a", "b,c", "\u20ac"))

    def range(self, column):
        """Both ends of a range, of few values mostly, and now and then only one."""
        pick, value = self.random, self.value(column)
        if isinstance(value, int):
            other = min(value + pick.choices((0, 1, 5, 40, 2 * ROWS), (30, 30, 25, 14, 1))[0], 2**63 - 1)
        else:
            other = pick.choices((value, value + "0", value[:-1] + "~", self.value(column)), (33, 33, 33, 1))[0]
        ends = [(column, pick.choice((">", ">=")), value), (column, pick.choice(("<", "<=")), other)]
        return ends if pick.random() < 0.98 else [pick.choice(ends)]

    def conditions(self):
        """Columns, comparisons and values: an equality or a range mostly, and now and then more."""
        pick = self.random
        asked = pick.choices(("id", "name", "kind"), (70, 25, 5))[0]
        found = [(asked, "=", self.value(asked))] if pick.random() < 0.6 else self.range(asked)
        while pick.random() < 0.3:
            column = pick.choice(("id", "name", "kind", "note"))
            found.append((column, pick.choice(("=", "<>", "<", ">=")), self.value(column)))
        pick.shuffle(found)
        return found

    def filtered(self, head, table, conditions):
        """A statement with these conditions, and one in which two ranges stand for each equality."""
        whole = " AND ".join(f"{column} {sign} {literal(value)}" for column, sign, value in conditions)
        ranged = " AND ".join(f"{column} >= {literal(value)} AND {column} <= {literal(value)}" if sign == "=" else
            f"{column} {sign} {literal(value)}" for column, sign, value in conditions)
        return f"{head} WHERE {whole}", f"{head} WHERE {ranged}"

    def carry_out(self, head, conditions):
        """What sqlite3 has changed, or finds."""
        asked = " AND ".join(f"{column} {sign} ?" for column, sign, _ in conditions)
        return self.known.execute(f"{head} WHERE {asked}" + (" ORDER BY n" if head.startswith("SELECT") else ""),
            [value for _, _, value in conditions])

    def insert(self, table):
        row = [self.value(column) for column in COLUMNS[table]]
        self.change(f"INSERT INTO {table} VALUES ({', '.join(map(literal, row))})")
        self.known.execute(f"INSERT INTO {table} (id, name, kind, note) VALUES (?, ?, ?, ?)", row)
        self.rows[table] += 1

    def select(self, table):
        conditions, columns = self.conditions(), COLUMNS[table]
        listed = self.random.sample(columns, self.random.randint(1, 4)) if self.random.random() < 0.5 else columns
        head = f"SELECT {'*' if listed is columns else ', '.join(listed)} FROM {table}"
        self.say(*self.filtered(head, table, conditions))
        found = self.carry_out(f"SELECT {', '.join(listed)} FROM {table}", conditions).fetchall()
        self.wanted.append(f"rows {len(found)} @{self.moment}")
        self.wanted += ["row," + ",".join(map(field, row)) for row in found]

    def update(self, table):
        columns = self.random.sample(COLUMNS[table], self.random.choice((1, 1, 2)))
        sets = [(column, self.value(column)) for column in columns]
        conditions = self.conditions()
        said = ", ".join(f"{column} = {literal(value)}" for column, value in sets)
        self.change(*self.filtered(f"UPDATE {table} SET {said}", table, conditions))
        asked = " AND ".join(f"{column} {sign} ?" for column, sign, _ in conditions)
        self.known.execute(f"UPDATE {table} SET " + ", ".join(f"{column} = ?" for column, _ in sets) + f" WHERE {asked}",
            [value for _, value in sets] + [value for _, _, value in conditions])

    def delete(self, table):
        conditions = self.conditions()
        self.change(*self.filtered(f"DELETE FROM {table}", table, conditions))
        self.rows[table] -= self.carry_out(f"DELETE FROM {table}", conditions).rowcount

    def change_many(self, table):
        """A statement that changes a part of all rows."""
        conditions = [("kind", "=", self.random.randint(0, 9)), ("id", "<", self.random.randint(0, 2 * ROWS))]
        if self.random.random() < 0.5:
            column = self.random.choice(("id", "name", "note"))
            value = self.value(column)
            self.change(*self.filtered(f"UPDATE {table} SET {column} = {literal(value)}", table, conditions))
            self.known.execute(f"UPDATE {table} SET {column} = ? WHERE kind = ? AND id < ?",
                [value] + [value for _, _, value in conditions])
        else:
            self.change(*self.filtered(f"DELETE FROM {table}", table, conditions))
            self.rows[table] -= self.carry_out(f"DELETE FROM {table}", conditions).rowcount

    def checkpoint(self):
        """A checkpoint, and what an export of it has to tell."""
        self.begun += 1
        self.say("CHECKPOINT")
        self.wanted.append(f"checkpoint {self.begun} begun @{self.moment}")
        self.kept = [f"point {self.moment}"]
        for table, columns in COLUMNS.items():
            self.kept.append(f"table,{table}," + ",".join(columns))
            for row in self.known.execute(f"SELECT {', '.join(columns)} FROM {table} ORDER BY n"):
                self.kept.append("row," + ",".join(map(field, row)))

    def export(self):
        self.say(f"EXPORT {self.begun}")
        self.wanted.append(f"export {self.begun} {self.kept[0]} @{self.moment}")
        self.wanted += [*self.kept[1:], f"end {self.begun}"]

    def any(self):
        """A statement by chance; rows that are missing are inserted."""
        pick = self.random
        table = pick.choices(("big", "small"), (3, 1))[0]
        wished = ROWS if table == "big" else 256
        if self.rows[table] < wished * pick.uniform(0.9, 1.1) and pick.random() < 0.6:
            return self.insert(table)
        if pick.random() < 0.001:
            return self.change_many(table)
        return pick.choices((self.select, self.update, self.delete, self.insert), (50, 25, 12, 13))[0](table)


def script(statements=STATEMENTS):
    """The lines, the same without equalities, and what is written for both."""
    lookups = Lookups(SEED)
    for _ in range(ROWS):
        lookups.insert("big")
    while len(lookups.given) < statements:
        lookups.checkpoint()
        for _ in range(BETWEEN):
            lookups.any()
        lookups.export()
    return lookups.given, lookups.ranged, lookups.wanted


def half_made(seed):
    """The same of a table so large that each index is made by several questions, while its rows change."""
    lookups = Lookups(seed)
    for _ in range(LARGE):
        lookups.insert("big")
    for _ in range(LATER):
        lookups.random.choices((lookups.select, lookups.update, lookups.delete, lookups.insert), (50, 25, 12, 13))[0]("big")
    return lookups.given, lookups.ranged, lookups.wanted


def requests_of(requests, program, rows, filters):
    """How many requests for memory each of these look-ups takes more, in a table of so many rows."""
    front = ["own: CREATE TABLE t (id INTEGER, name TEXT)", *(
        f"own: INSERT INTO t VALUES ({n}, 'row {n}')" for n in range(rows))]
    asked = [f"own: SELECT * FROM t WHERE {each}" for each in filters]

    def count(lines):
        text = "".join(line + "\n" for line in lines).encode()
        run = functools.partial(subprocess.run, [program, "run"], input=text, stdout=subprocess.DEVNULL, timeout=60)
        return requests.counted(run)[1]

    counts = [count([*front, *asked[:many]]) for many in range(len(asked) + 1)]
    return [after - before for before, after in zip(counts, counts[1:])]


def indexed(program, check, preloaded, work):
    """A column that is asked for by equality a second time gets an index, which takes requests, if the table has rows
    enough, and so does one that is asked for by a range. Later look-ups by that column take about as many as the first;
    `<>` makes none, nor does what most rows have. Where there are many rows, several questions make it."""
    requests = refusals.Requests(preloaded, work)
    for rows in (10, INDEXED - 1, INDEXED, 3_000):
        for kind, asked in (("numbers by value", "id = 7"), ("texts by value", "name = 'row 7'"),
                ("numbers in order", "id >= 7 AND id <= 7"), ("texts in order", "name >= 'row 7' AND name <= 'row 7'"),
                ("numbers from one on", "id > 5 AND id < 8"), ("numbers up to one", "id < 3")):
            first, second, *later = requests_of(requests, program, rows, 5 * [asked])
            made = second > first + 5 if rows >= INDEXED else second == first
            check(f"an index of {kind}, {rows} rows", made, (first, second))
            check(f"one index of {kind}, {rows} rows", len(set(later)) == 1 and later[0] <= first + 1, (first, later))
        taken = requests_of(requests, program, rows, 4 * ["id <> 7"])
        check(f"no index by `<>`, {rows} rows", len(set(taken)) == 1, taken)
        first, *later = requests_of(requests, program, rows, 4 * ["id >= 0"])
        check(f"no index of which most rows are asked for, {rows} rows", len(set(later)) == 1 and later[0] <= first,
            (first, later))
    # Each question lists 8,192 rows.
    for kind, asked in (("by value", "id = 7"), ("in order", "id > 5 AND id < 8")):
        first, *steps, later, last = requests_of(requests, program, 20_000, 6 * [asked])
        check(f"an index {kind} of 20,000 rows is made in three steps",
            all(step > first + 5 for step in steps) and later == last <= first + 1, (first, steps, later, last))

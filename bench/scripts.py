"""Statements whose rates are compared: of each kind those before, those that are counted, and how much they count for."""
import random
from dataclasses import dataclass

COLUMNS = 32
CHUNK = 64
LOOK_UP = "SELECT name FROM t WHERE amount = 0"
RANGE = "SELECT name FROM t WHERE amount >= 7 AND amount < 12"
POINTS = 90_000


@dataclass
class Kind:
    """Statements to compare by, and how many units (statements or rows) the counted ones come to."""
    unit: str
    before: list
    counted: list
    units: int
    # Whether sqlite3 has a key on the numbers: it is tried in each of these ways.
    keys: tuple = (False,)


def filled(rows):
    """A table of so many rows (TEXT of 10 bytes, INTEGER)."""
    return ["CREATE TABLE t (name TEXT, amount INTEGER)"] + [f"INSERT INTO t VALUES ('row {n:06}', {n})" for n in range(rows)]


def mix(statements):
    """Of each hundred 70 INSERT, 20 SELECT that choose few rows, 5 UPDATE and 5 DELETE."""
    chance = random.Random(1976)
    rows = 0
    for n in range(statements):
        kind, chosen = chance.randrange(100), chance.randrange(rows + 1)
        if kind < 70:
            yield f"INSERT INTO t VALUES ('row {rows}', {rows})"
            rows += 1
        elif kind < 90:
            yield f"SELECT name FROM t WHERE amount >= {chosen} AND amount < {chosen + 5}"
        elif kind < 95:
            yield f"UPDATE t SET name = 'new {n}' WHERE amount = {chosen}"
        else:
            yield f"DELETE FROM t WHERE amount = {chosen}"


def wide(rows):
    """A table of 32 columns, whose last one counts the rows."""
    names = ", ".join(f"c{n} INTEGER" for n in range(COLUMNS))
    zeros = "0, " * (COLUMNS - 1)
    return [f"CREATE TABLE t ({names})"] + [f"INSERT INTO t VALUES ({zeros}{n})" for n in range(rows)]


def many_conditions():
    """A SELECT with 32 conditions on the last column, of which all rows meet all but the last one."""
    met = [f"c{COLUMNS - 1} >= {-n}" for n in range(1, COLUMNS)]
    return "SELECT c0 FROM t WHERE " + " AND ".join(met + [f"c{COLUMNS - 1} < 5"])


def making(rows):
    """So many questions about a column make its index at most: from the second on each adds 8,192 rows, or a 64th."""
    return 3 + rows // max(8_192, rows // 64)


def points(rows, statement, look_up=LOOK_UP):
    """90,000 statements for rows by chance, none for a row twice until half of them had one. The index is made before."""
    picked = random.Random(1976).sample(range(rows), min(POINTS, rows // 2))
    counted = [statement % {"row": row, "end": row + 5} for row in picked * (POINTS // len(picked))]
    return Kind("statement", filled(rows) + making(rows) * [look_up], counted, len(counted), (True,))


def look_ups():
    """Kinds that look one row up, in small and in large tables."""
    statements = {"select": "SELECT name FROM t WHERE amount = %(row)d",
        "update": "UPDATE t SET name = 'new' WHERE amount = %(row)d", "delete": "DELETE FROM t WHERE amount = %(row)d"}
    # A row is deleted only once.
    return {f"{name} one of {rows}": points(rows, statement) for name, statement in statements.items()
        for rows in (1_000, 100_000, 900_000) if name != "delete" or rows >= POINTS}


def few_rows():
    """Kinds that look five rows up whose numbers are side by side, in small and in large tables."""
    statement = "SELECT name FROM t WHERE amount >= %(row)d AND amount < %(end)d"
    return {f"select five of {rows}": points(rows, statement, RANGE) for rows in (1_000, 100_000, 900_000)}


def indexed(rows, look_up=LOOK_UP):
    """INSERTs into a table with an index: before each thousand of them a row is looked up, else the index would go."""
    table, *inserts = filled(rows)
    counted = [line for start in range(1_000, rows, 1_000) for line in (look_up, *inserts[start:start + 1_000])]
    return Kind("statement", [table, *inserts[:1_000], look_up], counted, len(counted), (True,))


def kinds():
    """The kinds by name."""
    ranges = [f"SELECT name FROM t WHERE amount >= {n} AND amount < {n + 5}" for n in range(0, 100_000, 2_500)]
    steps = [""] * (100_000 // CHUNK + 1)
    return {
        "inserts": Kind("statement", filled(0), filled(200_000)[1:], 200_000),
        "indexed inserts": indexed(200_000),
        "inserts in order": indexed(200_000, RANGE),
        "mix": Kind("statement", filled(0), list(mix(20_000)), 20_000, (False, True)),
        "filter": Kind("row", filled(100_000), ranges, 100_000 * len(ranges)),
        "conditions": Kind("row", wide(10_000), [many_conditions()] * 20, 20 * 10_000),
        "select": Kind("row", filled(100_000), ["SELECT * FROM t"] * 10, 10 * 100_000),
        "export": Kind("row", filled(100_000) + ["CHECKPOINT"] + steps, ["EXPORT 1"] * 10, 10 * 100_000),
        **look_ups(),
        **few_rows(),
    }


def lines(statements):
    """The statements as the program reads them; an empty one is an empty line, which lets a checkpointer step."""
    return "".join(f"ann: {statement}\n" if statement else "\n" for statement in statements)


def sql(statements):
    """The statements as sqlite3 reads them; a SELECT of all rows stands for an EXPORT, and nothing for a CHECKPOINT."""
    for statement in statements:
        if statement.startswith("EXPORT"):
            yield "SELECT * FROM t;\n"
        elif statement not in ("", "CHECKPOINT"):
            yield f"{statement};\n"


def keyed_sql(statements):
    """The same for sqlite3 with a key on the numbers."""
    for statement in sql(statements):
        yield statement.replace("amount INTEGER)", "amount INTEGER PRIMARY KEY)")


def pushes(statements):
    """For each INSERT the command of redis that pushes its row."""
    for statement in statements:
        if statement.startswith("INSERT"):
            row = statement.partition("(")[2][:-1]
            yield f"*3\r\n$5\r\nRPUSH\r\n$1\r\nt\r\n${len(row)}\r\n{row}\r\n"

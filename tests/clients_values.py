"""Values and statements as the Python client sends them: literals, parameters and names."""
import decimal

from clients_served import connected, told
import bavgusen
from bavgusen import Checkpoints, Fault
from served import Server

LEAST, GREATEST = -9223372036854775808, 9223372036854775807
TEXTS = ("", "it's", "''", "'", 'a "b", c', ",", "é€😀", "\u2028\u00a0\u200b", " a  b ", "?", 1024 * "x", 1024 * "'",
    512 * "é", "row,1\\n")
NO_LITERALS = (None, True, 1.5, b"x", decimal.Decimal(1), [], GREATEST + 1, LEAST - 1, 10 ** 5000, "a\nb", "\0", "\x1f",
    "\x7f", "\x80", "\x9f", 1025 * "x", 512 * "é" + "x", "\ud800")
STATEMENTS = (
    ("a = ?", (5,), "a = 5"),
    ("a=?AND b<>?", (-5, "it's"), "a=-5 AND b<>'it''s'"),
    ("a = '?' AND b = ?", ("?",), "a = '?' AND b = '?'"),
    ("'it''s ?' ?", (1,), "'it''s ?' 1"),
    ("??", ("a", "b"), "'a' 'b'"),
    ("'x'?", ("y",), "'x' 'y'"),
    ("a? -?", (5, 5), "a 5 - 5"),
    ("(?,?)", (LEAST, GREATEST), "(-9223372036854775808,9223372036854775807)"),
    ("'open ?", (), "'open ?"),
)


def literals(program, check):
    """What can be said is given back as it was, and what cannot is an error before anything is sent."""
    server = Server(program, 1)
    with connected(server, "ann") as ann:
        ann.execute("CREATE TABLE t (a TEXT, b INTEGER)", check=True)
        rows = [(text, number) for text in TEXTS for number in (0, -1, LEAST, GREATEST)]
        for row in rows:
            ann.execute("INSERT INTO t VALUES (?, ?)", row, check=True)
        seen = ann.execute("SELECT * FROM t").rows
        check("literals are given back", seen == rows, seen[:5])
        for text in TEXTS:
            seen = ann.execute("SELECT b FROM t WHERE a=?AND b>?", (text, 0)).rows
            check(f"a text is found: {text[:20]!r}", seen == [(GREATEST,)], seen)
        for value in NO_LITERALS:
            seen = told(lambda: ann.execute("INSERT INTO t VALUES (?, 1)", (value,)))
            check(f"no literal: {type(value).__name__}", seen == bavgusen.DataError, seen)
        for statement, parameters in (("a = ?", ()), ("a = ?", (1, 2)), ("a", (1,)), ("?", "x"), ("?", {"a": 1}),
                ("SELECT 'a\nb'", None), ("\ud800", None), (b"CHECKPOINTS", None)):
            seen = told(lambda: ann.execute(statement, parameters))
            check(f"not sent: {statement!r} {parameters}", seen == bavgusen.ProgrammingError, seen)
        moment = 1 + len(rows)
        seen = ann.execute("CHECKPOINTS")
        check("nothing was sent", seen == Checkpoints(moment, ()), seen)
    for statement, parameters, wanted in STATEMENTS:
        seen = told(lambda: bavgusen.bind(statement, parameters))
        check(f"bound: {statement}", seen == wanted, seen)
    for name in (30 * "x", "Select1", "a_1", "public"):
        check(f"a name: {name}", told(lambda: bavgusen.name(name)) == name.lower(), name)
    for name in (31 * "x", "", "_a", "1a", "a b", "é", "ſelect", "select", "Option", "a-b", "a\n", None, 5):
        seen = [told(work) for work in (lambda: bavgusen.name(name), lambda: connected(server, name))]
        check(f"no name: {name!r}", seen == 2 * [bavgusen.ProgrammingError], seen)
    for kind, value in ((int, 5), (str, "5")):
        each = type("Other", (kind,), {"__str__": lambda self: "x", "__repr__": lambda self: "x"})(value)
        check(f"a subclass of {kind}", bavgusen.literal(each) == repr(value), bavgusen.literal(each))
    each = type("Whole", (), {"__index__": lambda self: GREATEST})()
    check("an integer of another type", bavgusen.literal(each) == str(GREATEST), bavgusen.literal(each))


LINES = """
    SELECT x, n FROM t
\tWHERE n > ?\r
    AND x <> 'it''s'
"""


def several_lines(program, check):
    """A statement of several lines is sent as one, with its faults at their places; `rows` takes SELECT alone."""
    server = Server(program, 1)
    with connected(server, "ann") as ann:
        for statement in ("CREATE TABLE\nt (x TEXT,\r\n n INTEGER)", "INSERT INTO t VALUES ('a', 1)",
                "INSERT INTO t\nVALUES ('b', 5)", "INSERT INTO t VALUES ('it''s', 6)"):
            ann.execute(statement, check=True)
        seen = ann.rows(LINES, (1,))
        check("rows by a statement of several lines", seen == [("b", 5)], seen)
        seen = ann.execute("SELECT x\nFORM t")
        check("a fault in its second line", seen == Fault(4, 9, "not expected") and seen.position == 9, seen)
        seen = ann.execute("CHECKPOINTS\nDELETE FROM t")
        check("a line feed begins no other statement", seen == Fault(10, 12, "trailing"), seen)
        wrong = bavgusen.ProgrammingError
        for statement, wanted in (("SELECT x\nFROM u", bavgusen.DeniedError), ("DELETE FROM t", wrong),
                ("EXPORT 1", wrong), ("SELECT FROM t", bavgusen.FaultError)):
            seen = told(lambda: ann.rows(statement))
            check(f"no rows: {statement}", seen == wanted, seen)
        long = "SELECT x FROM t WHERE x <> ?" + 20 * " AND x <> ?"
        seen = ann.execute(long, 21 * (1000 * "y",))
        check("a line that is too long", seen == Fault(2, 4096, "too long"), seen)
        fault = seen.error()
        check("what a fault's error shows", str(fault) == f"error 2 at 4096: too long: {(40 * 'y')!r}", str(fault))
        seen = ann.execute("SELECT x FROM t WHERE x <> '?'", ()), ann.rows("SELECT n FROM t WHERE n>?AND n<?", (1, 6))
        check("the session goes on", (seen[0].moment, seen[1]) == (4, [(5,)]), seen)


TESTS = (literals, several_lines)

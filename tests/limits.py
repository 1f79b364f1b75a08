"""Scripts at the limits, and lines of bytes that no text has, each with what is written for it.

What is written is worked out by hand from the rules of the language.
"""
from rights import REVOKE, REVOKE_OPTION

# A line feed ends each of these lines.
HOSTILE_LINES = [
    (b"ann: \x00", b"error 3 at 5: bad byte"),
    (b"\xef\xbb\xbfann: SELECT * FROM t", b"error 4 at 0: not expected"),
    (b"\xef\xbb\xbf", b"error 4 at 0: not expected"),
    (b"ann: INSERT INTO t VALUES ('\xed\xa0\x80')", b"error 3 at 28: bad byte"),
    (b"ann: INSERT INTO t VALUES ('\xc2\x85')", b"error 3 at 28: bad byte"),
    (b"ann: INSERT INTO t VALUES ('" + 1025 * b"a" + b"')", b"error 2 at 27: too long"),
    (b"ann: CHECKPOINTS\r", b"checkpoints 0 @0"),
    (b"ann: CHECKPOINTS\r\r", b"error 3 at 16: bad byte"),
    (b"\r", b"error 1 at 0: empty"),
]


def chain():
    """As many grants as may be in force, each by the one before."""
    given = ["o: CREATE TABLE t (x INTEGER)", "o: GRANT SELECT ON t TO u1 WITH GRANT OPTION"]
    given += [f"u{n}: GRANT SELECT ON t TO u{n + 1} WITH GRANT OPTION" for n in range(1, 1024)]
    return given, [f"done @{m}" for m in range(1, 1026)]


def longest_chain():
    """One more grant than may be in force is refused; without the first all fall."""
    given, wanted = chain()
    given += ["u1024: GRANT SELECT ON t TO u1025", "o: REVOKE SELECT ON t FROM u1", "u1024: SELECT * FROM t"]
    wanted += ["refused @1025: full: grants", "done @1026", "denied @1026: u1024 lacks SELECT(x) on t", "audit ok 0"]
    return given, wanted


def chain_without_option():
    """Without the option of the first grant all fall but this one, and there is room for as many again."""
    given, wanted = chain()
    given += ["o: REVOKE GRANT OPTION FOR SELECT ON t FROM u1", "u1: SELECT * FROM t", "u2: SELECT * FROM t",
        "u1024: SELECT * FROM t", "u1: GRANT SELECT ON t TO u2", "o: GRANT SELECT ON t TO u1025"]
    wanted += ["done @1026", "rows 0 @1026"]
    wanted += [f"denied @1026: {lack} SELECT(x) on t" for lack in ("u2 lacks", "u1024 lacks", "u1 may not grant")]
    return given, [*wanted, "done @1027", "audit ok 2"]


def column_by_column():
    """As many grants of SELECT on one column as may be in force leave all the room for those on another."""
    lists = [", ".join(f"u{n}" for n in range(first, first + 16)) for first in range(0, 1024, 16)]
    given = ["o: CREATE TABLE t (x INTEGER, y INTEGER)", *(f"o: GRANT SELECT (x) ON t TO {users}" for users in lists)]
    wanted = [f"done @{m}" for m in range(1, 66)]
    for line, answer in (
        ("o: GRANT SELECT (x) ON t TO v", "refused @65: full: grants"),
        ("o: GRANT SELECT ON t TO v", "refused @65: full: grants"),
        ("o: GRANT SELECT (y), UPDATE (x) ON t TO v", "done @66"),
        ("v: SELECT y FROM t", "rows 0 @66"),
        ("v: SELECT y FROM t WHERE x = 1", "denied @66: v lacks SELECT(x) on t"),
        ("u1023: SELECT x FROM t", "rows 0 @66"),
        ("u1023: SELECT * FROM t", "denied @66: u1023 lacks SELECT(y) on t"),
        ("o: REVOKE SELECT (x) ON t FROM u0", "done @67"),
        ("o: GRANT SELECT ON t TO v", "done @68"),
        ("o: GRANT SELECT (x) ON t TO v", "refused @68: full: grants"),
        ("v: SELECT * FROM t", "rows 0 @68"),
    ):
        given.append(line)
        wanted.append(answer)
    return given, [*wanted, "audit ok 1027"]


def all_columns():
    """A statement of as many grants as one makes: 66 privileges for 16 users. All are captured with the one row, and
    exports are cut to each second of 32 columns, and to the last."""
    names, users = [f"c{n}" for n in range(32)], ", ".join(f"u{n}" for n in range(16))
    even, all_but_last = ", ".join(names[::2]), ", ".join(names[:-1])
    given = [f"o: CREATE TABLE t ({' INTEGER, '.join(names)} INTEGER)",
        f"o: INSERT INTO t VALUES ({', '.join(str(n) for n in range(32))})",
        f"o: GRANT SELECT, INSERT, DELETE, UPDATE ON t TO {users}", "o: CHECKPOINT", "o: CHECKPOINTS",
        f"o: REVOKE SELECT ({', '.join(names[1::2])}) ON t FROM u15",
        f"o: REVOKE SELECT ({all_but_last}) ON t FROM u14", f"u15: SELECT {even} FROM t WHERE c30 = 30",
        "u15: SELECT * FROM t", "u14: SELECT * FROM t", *66 * [""], "u15: EXPORT 1", "u14: EXPORT 1 ONLY t",
        "u13: EXPORT 1"]
    wanted = ["done @1", "done @2", "done @3", "checkpoint 1 begun @3", "checkpoints 1 @3", "active,1,3,1041",
        "done @4", "done @5", "rows 1 @5", ",".join(["row", *(str(n) for n in range(0, 32, 2))]),
        "denied @5: u15 lacks SELECT(c1) on t", "denied @5: u14 lacks SELECT(c0) on t", *66 * ["error 1 at 0: empty"]]
    for columns in (range(0, 32, 2), (31,), range(32)):
        wanted += ["export 1 point 3 @5", ",".join(["table,t", *(names[n] for n in columns)]),
            ",".join(["row", *(str(n) for n in columns)]), "end 1"]
    return given, [*wanted, "audit ok 1009"]


def longest_lack():
    """A denial with as many names as one has, each as long as may be."""
    by, to, table, column = (letter * 30 for letter in "oatc")
    given = [f"{by}: CREATE TABLE {table} ({column} INTEGER)"]
    wanted = ["done @1"]
    for word in ("UPDATE", "SELECT"):
        given += [f"{by}: {revoke} {word} ({column}) ON {table} FROM {to}" for revoke in (REVOKE, REVOKE_OPTION)]
        lacks = [f"{by} granted no {option}{word}({column}) on {table} to {to}" for option in ("", "option for ")]
        wanted += [f"denied @1: {lack}" for lack in lacks]
    return given, [*wanted, "audit ok 0"]


def most_tables():
    """As many tables as there may be, and one more. A checkpoint of them has no row, and so one record."""
    given = [f"ann: CREATE TABLE t{n} (x INTEGER)" for n in range(1, 1025)]
    given += ["ann: CHECKPOINT", "ann: CHECKPOINTS", "ann: CREATE TABLE t1025 (x INTEGER)"]
    wanted = [f"done @{m}" for m in range(1, 1025)]
    wanted += ["checkpoint 1 begun @1024", "checkpoints 1 @1024", "finished,1,1024", "refused @1024: full: tables"]
    return given, wanted + ["audit ok 0"]


def large_streams():
    """A script of 2 MB, whose last line has an answer of 2 MB: a lost or doubled piece would be seen."""
    texts = [[f"{letter}{n:03}" * 250 for letter in "abc"] for n in range(700)]
    given = ["ann: CREATE TABLE t (a TEXT, b TEXT, c TEXT)"]
    given += [f"ann: INSERT INTO t VALUES ('{a}', '{b}', '{c}')" for a, b, c in texts] + ["ann: SELECT * FROM t"]
    wanted = [f"done @{m}" for m in range(1, 702)] + ["rows 700 @701"]
    return given, wanted + [f"row,{a},{b},{c}" for a, b, c in texts] + ["audit ok 0"]


def most_changes():
    """As many changes as the words of the command line say: then each is refused, and queries go on."""
    given = ["ann: CREATE TABLE t (x INTEGER)", *4 * ["ann: INSERT INTO t VALUES (1)"], "ann: SELECT * FROM t"]
    for most in (1, 2, 4, 1000000000):
        done = min(most, 5)
        wanted = [f"done @{m}" for m in range(1, done + 1)] + (5 - done) * [f"refused @{most}: full: changes"]
        yield ["--changes", str(most)], given, [*wanted, f"rows {done - 1} @{done}", *(done - 1) * ["row,1"]]


def chunks():
    """What is left of 200 records behind the first step, by the words of the command line."""
    given = ["ann: CREATE TABLE t (x INTEGER)", *200 * ["ann: INSERT INTO t VALUES (1)"]]
    given += ["ann: CHECKPOINT", "ann: CHECKPOINTS"]
    wanted = [*(f"done @{m}" for m in range(1, 202)), "checkpoint 1 begun @201", "checkpoints 1 @201"]
    for words, left in (([], 184), (["--chunk", "1"], 199), (["--chunk", "64"], 136)):
        yield words, given, [*wanted, f"active,1,201,{left}"]

"""The Python client beside the program, over loopback. What is expected is what docs/LANGUAGE.md says."""
import contextlib
import io
import itertools
import os
import re
import sys
import time
import tracemalloc

from served import WAIT, Server, talk

HERE = os.path.dirname(os.path.abspath(__file__))
PACKAGE = os.path.join(os.path.dirname(HERE), "clients", "python")
SOURCE = os.path.join(PACKAGE, "src")
sys.path.insert(0, SOURCE)
import bavgusen
from bavgusen import Begun, Checkpoint, Checkpoints, Denied, Done, Fault, Refused, Rows

PAY = "CREATE TABLE pay (name TEXT, wage INTEGER)"
MANY = 100_000


def connected(server, user, **more):
    return bavgusen.connect("127.0.0.1", server.port, user, timeout=WAIT, **more)


def told(work):
    """What the work gives, or the kind of error that it raises."""
    try:
        return work()
    except bavgusen.Error as error:
        return type(error)


def settled(session):
    """The checkpoints, when none is active any more."""
    late = time.monotonic() + WAIT
    while True:
        reply = session.execute("CHECKPOINTS")
        if reply.active is None or time.monotonic() > late:
            return reply
        time.sleep(0.005)


def tables(export):
    """What an export has, each table as its name, what it lists and its rows."""
    return [(each.name, each.withheld) if each.withheld else (each.name, each.columns, [*each]) for each in export]


def worked_example(program, check):
    """The example of "Checkpoints and exports", with some of the checks of "Replies"."""
    server, lacks = Server(program, 2), Denied(3, "bob lacks SELECT(wage) on pay")
    with connected(server, "Ann") as ann, connected(server, "bob") as bob:
        for session, statement, wanted in (
            (ann, PAY, Done(1)),
            (ann, "INSERT INTO pay VALUES ('Bo', 5)", Done(2)),
            (ann, "GRANT SELECT (name) ON pay TO bob", Done(3)),
            (bob, "SELECT name FROM pay", Rows(3, ("name",), [("Bo",)])),
            (bob, "SELECT * FROM pay", lacks),
            (bob, "SELECT name FROM pay WHERE wage = 5", lacks),
            (ann, "CHECKPOINT", Begun(1, 3)),
            (ann, "INSERT INTO pay VALUES ('Di')", Refused(3, "1 values for 2 columns")),
            (ann, "INSERT INTO pay VALUES ('Di', '1')", Refused(3, "column wage takes INTEGER")),
            (ann, PAY, Denied(3, "table pay exists")),
            (ann, "", Fault(1, 0, "empty")),
            (bob, "EXPORT 7", Denied(3, "no checkpoint 7")),
        ):
            seen = session.execute(statement)
            check(f"a reply to {statement}", seen == wanted and seen.ok == wanted.ok, seen)
        check("users", (ann.user, bob.user) == ("ann", "bob"), (ann.user, bob.user))
        seen = settled(bob)
        check("checkpoints", seen == Checkpoints(3, (Checkpoint(1, 3),)), seen)
        export = bob.export(1)
        seen = tables(export)
        check("an export", seen == [("pay", ("name",), [("Bo",)])] and export.is_whole, seen)
        check("its numbers", (export.number, export.point, export.moment) == (1, 3, 3), export)
        seen = [*bob.execute("export 1 only PAY;").lines()]
        check("its lines", seen == ["export 1 point 3 @3", "table,pay,name", "row,Bo", "end 1"], seen)
    ended = server.end()
    check("a worked example: the end", ended == (0, b"served 2\n", []), ended)


RIGHTS = (
    ("boss", PAY, "done @1"),
    ("boss", "GRANT SELECT ON pay TO dan WITH GRANT OPTION", "done @2"),
    ("dan", "GRANT SELECT ON pay TO eve, ken", "done @3"),
    ("boss", "GRANT SELECT ON pay TO ken", "done @4"),
    ("boss", "REVOKE GRANT OPTION FOR SELECT ON pay FROM dan", "done @5"),
    ("dan", "SELECT * FROM pay", "rows 0 @5"),
    ("eve", "SELECT * FROM pay", "denied @5: eve lacks SELECT(name) on pay"),
    ("ken", "SELECT * FROM pay", "rows 0 @5"),
    ("dan", "GRANT SELECT ON pay TO eve", "denied @5: dan may not grant SELECT(name) on pay"),
    ("boss", "REVOKE GRANT OPTION FOR SELECT ON pay FROM dan",
        "denied @5: boss granted no option for SELECT(name) on pay to dan"),
)


def rights(program, check):
    """The example of "Rights", and what a denial's parts are."""
    server, said = Server(program, 4, workers=4), []
    sessions = {user: connected(server, user) for user in ("boss", "dan", "eve", "ken")}
    for user, statement, wanted in RIGHTS:
        said.append(sessions[user].execute(statement))
        check(f"rights: {user}: {statement}", str(said[-1]) == wanted, said[-1])
    seen = [(reply.kind, reply.user, reply.privilege, reply.table, reply.grantee) for reply in said if not reply.ok]
    wanted = [("lacks", "eve", "SELECT(name)", "pay", None), ("may not grant", "dan", "SELECT(name)", "pay", None),
        ("granted no option", "boss", "SELECT(name)", "pay", "dan")]
    check("the parts of denials", seen == wanted, seen)
    for session in sessions.values():
        session.close()


def spoken(path):
    """The lines of a worked example, each as its user, his statement, and the lines of its answer."""
    lines = []
    with open(path, encoding="utf-8") as file:
        for line in file.read().split("\n")[:-1]:
            if line.startswith("    ") and lines:
                lines[-1][2].append(line[4:])
            elif not line.startswith(("#", "$", "    ")):
                user, _, statement = line.partition(":")
                lines.append((user, statement, []))
    # (a server has no audit behind the last line, and in a script a fault's place counts the user too)
    lines[-1][2][:] = [line for line in lines[-1][2] if not line.startswith("audit")]
    return [line for line in lines if not line[2][0].startswith("error")]


def worked_examples(program, check):
    """The worked examples without checkpoints, whose steps a server takes when it likes.

    What a client reads is, written again, what they have.
    """
    folder = os.path.join(HERE, "examples")
    for name in sorted(os.listdir(folder)):
        path = os.path.join(folder, name)
        lines = spoken(path) if name.endswith(".txt") else []
        if not lines or any("CHECKPOINT" in statement.upper() for _, statement, _ in lines):
            continue
        server, said = Server(program, None), []
        for user, group in itertools.groupby(lines, lambda line: line[0]):
            with connected(server, user) as session:
                said += [[*session.execute(statement).lines()] for _, statement, _ in group]
        wanted = [answer for _, _, answer in lines]
        check(f"by the client: {name}", said == wanted, [pair for pair in zip(said, wanted) if pair[0] != pair[1]][:1])
        Server.stop_all()


# The lines of LANGUAGE's table without their user and its colon, which stand before the statement in a script alone.
FAULTS = (
    ("", 1, 0, "empty"),
    (" SELECT * FROM t WHERE", 4, 26 - 4, "not expected"),
    (" SELECT * FROM t t", 10, 21 - 4, "trailing"),
    (" SELECT a, a FROM t", 7, 15 - 4, "duplicate"),
    (" INSERT INTO t VALUES ('abc", 6, 27 - 4, "open text"),
    (' SELECT * FROM "t"', 3, 19 - 4, "bad byte"),
    (" INSERT INTO t VALUES (12a)", 5, 27 - 4, "bad number"),
    (" GRANT SELECT, INSERT, DELETE, UPDATE, SELECT ON t TO a", 7, 41 - 2, "duplicate"),
    (" GRANT SELECT ON t TO a,b,c,d,e,f,g,h,i,j,k,l,m,n,o,p,q", 8, 56 - 2, "too many"),
    ("SELECT * FROM " + 31 * "x", 9, 14, "long name"),
    (4097 * " ", 2, 4096, "too long"),
    ("?", 3, 0, "bad byte"),
    ("CHECKPOINTS\0", 3, 11, "bad byte"),
)


def faults(program, check):
    """The table of "Lines that are not read", and a place behind letters of several bytes."""
    server = Server(program, 1)
    with connected(server, "ann") as ann:
        for statement, code, offset, reason in FAULTS:
            seen = ann.execute(statement)
            good = seen == Fault(code, offset, reason) and seen.position == offset
            check(f"fault {code} of {statement[:60]}", good, seen)
        seen = ann.execute("INSERT INTO t VALUES ('é€😀', 12a)")
        wanted = Fault(5, len("INSERT INTO t VALUES ('', ") + 2 + 3 + 4, "bad number")
        check("a place behind letters", seen == wanted and seen.position == 29, (seen, seen.position))
        seen = told(lambda: ann.execute("SELECT", check=True))
        check("a fault is raised", seen == bavgusen.FaultError, seen)


def typed(program, check):
    """A field is an integer where the type of its column is known, and else a text: nothing is guessed."""
    server = Server(program, 3, workers=3)
    with connected(server, "ann") as ann, connected(server, "bob") as bob, connected(server, "cy",
            tables={"PAY": {"Name": str, "WAGE": int}}) as cy:
        for statement in ("create table PAY(Name text,WAGE integer)", "INSERT INTO pay VALUES ('5', 5)",
                "GRANT SELECT ON pay TO bob, cy"):
            ann.execute(statement, check=True)
        names = {"name": str, "wage": int}
        for session, statement, columns, wanted, types in (
            (ann, "SELECT * FROM pay", None, Rows(3, ("name", "wage"), [("5", 5)]), (str, int)),
            (ann, "select*from PAY where WAGE=5;", None, Rows(3, ("name", "wage"), [("5", 5)]), (str, int)),
            (ann, "SELECT Wage ,name FROM pay", None, Rows(3, ("wage", "name"), [(5, "5")]), (int, str)),
            (bob, "SELECT * FROM pay", None, Rows(3, None, [("5", "5")]), (None, None)),
            (bob, "SELECT * FROM pay WHERE wage > 5", None, Rows(3, None, []), None),
            (bob, "SELECT wage, name FROM pay", None, Rows(3, ("wage", "name"), [("5", "5")]), (None, None)),
            (bob, "SELECT wage, name FROM pay", {"wage": int}, Rows(3, ("wage", "name"), [(5, "5")]), (int, None)),
            (bob, "SELECT * FROM pay", names, Rows(3, ("name", "wage"), [("5", 5)]), (str, int)),
            (cy, "SELECT * FROM pay", None, Rows(3, ("name", "wage"), [("5", 5)]), (str, int)),
        ):
            seen = session.execute(statement, columns=columns)
            check(f"typed: {statement} {columns}", seen == wanted and seen.types == types, (seen, seen.types))
        for columns in ({"wage": int}, {"name": str, "wage": int, "more": str}):
            seen = told(lambda: bob.execute("SELECT * FROM pay", columns=columns))
            check(f"columns that do not fit: {columns}", seen == bavgusen.DataError, seen)
        seen = told(lambda: bob.execute("SELECT name FROM pay", columns={"wage": int}))
        check("a column that is not asked for", seen == bavgusen.DataError, seen)
        seen = told(lambda: bob.execute("SELECT name FROM pay", columns={"name": float}))
        check("a type that is none", seen == bavgusen.ProgrammingError, seen)
        ann.execute("UPDATE pay SET name = '007'", check=True)
        seen = told(lambda: bob.execute("SELECT name FROM pay", columns={"name": int}))
        check("a text that is no integer as the server prints one", seen == bavgusen.DataError, seen)
        seen = told(lambda: cy.declare("pay", {"wage": int, "name": str}))
        check("declared otherwise", seen == bavgusen.ProgrammingError, seen)
        seen = bob.execute("SELECT name FROM pay")
        check("the session goes on", seen == Rows(4, ("name",), [("007",)]), seen)
    seen = bavgusen.tables_of(["\ufeffann: CREATE TABLE pay (name TEXT, wage INTEGER)\n", "ann: DELETE FROM pay\n"])
    check("the tables of a journal", seen == {"pay": names}, seen)


def pipelines(program, check):
    """Many statements are sent while large replies are read: 100,000 statements, and 100 MB of replies."""
    server = Server(program, 1)
    with connected(server, "ann") as ann:
        ann.execute("CREATE TABLE t (x TEXT, n INTEGER)", check=True)
        row = (1000 * "x", 7)
        ann.execute("INSERT INTO t VALUES (?, ?)", row, check=True)
        statement = "SELECT * FROM t WHERE n = 7" + 60 * " "
        wanted, count = Rows(2, ("x", "n"), [row]), 0
        for reply in ann.pipeline(statement for _ in range(MANY)):
            count += reply == wanted
        check("many statements at once", count == MANY, count)
        replies = ann.pipeline([
            "SELECT", ("INSERT INTO t VALUES (?, ?)", ("y", 8)), "CREATE TABLE u (x INTEGER)",
            "INSERT INTO u VALUES (1)", "SELECT * FROM u", "INSERT INTO v VALUES (1)", ("SELECT", (1,)),
            "DELETE FROM t"])
        seen = [told(lambda: next(replies, "end")) for _ in range(8)]
        wanted = [Fault(4, 6, "not expected"), Done(3), Done(4), Done(5), Rows(5, ("x",), [(1,)]),
            Denied(5, "no table v"), bavgusen.ProgrammingError, "end"]
        check("replies in order", seen == wanted, seen)
        left_pipelines(ann, check)
    ended = server.end()
    check("pipelines: the end", ended == (0, b"served 1\n", []), ended)


def left_pipelines(ann, check):
    """Of a pipeline that is left the statements which it took are carried out, and no others."""
    with ann.pipeline(("INSERT INTO u VALUES (?)", (n,)) for n in range(MANY)) as replies:
        first = next(replies)
    check("left early", first == Done(6) and 1 <= replies.taken < MANY, replies.taken)
    rows = [(1,), *((n,) for n in range(replies.taken))]
    seen = ann.execute("SELECT * FROM u")
    check("what was taken is done", seen == Rows(5 + replies.taken, ("x",), rows), len(seen.rows))
    moment = seen.moment
    replies = ann.pipeline(["DELETE FROM u", "DELETE FROM v", "DELETE FROM u"], check=True)
    seen = [next(replies), told(lambda: next(replies)), told(lambda: next(replies)), ann.execute("CHECKPOINTS")]
    wanted = [Done(moment + 1), bavgusen.DeniedError, bavgusen.InterfaceError, Checkpoints(moment + 2, ())]
    check("what is raised in a pipeline", seen == wanted, seen)
    replies = ann.pipeline(["CHECKPOINT", "CHECKPOINTS"])
    seen = [next(replies), ann.execute("SELECT x FROM u").rows, told(lambda: next(replies))]
    check("left by the next statement", seen == [Begun(1, moment + 2), [], bavgusen.InterfaceError], seen)
    replies = ann.pipeline(str(ann.execute("CHECKPOINTS")) for _ in range(2))
    seen = [told(lambda: next(replies)), told(lambda: ann.pipeline("CHECKPOINTS"))]
    check("left by its own statements", seen == [bavgusen.InterfaceError, bavgusen.ProgrammingError], seen)
    settled(ann)
    replies = ann.pipeline(["EXPORT 1", "SELECT x FROM u", "EXPORT 1", "EXPORT 2"])
    seen = [tables(next(replies))[1:], next(replies).rows, str(next(replies)), str(next(replies))]
    moment += 2
    wanted = [[("u", ("x",), [])], [], f"export 1 point {moment} @{moment}", f"denied @{moment}: no checkpoint 2"]
    check("exports in a pipeline", seen == wanted, seen)
    replies = ann.pipeline(["CHECKPOINTS", "EXPORT 1", "EXPORT 1"])
    seen = [next(replies).moment, ann.execute("SELECT x FROM u").rows]
    check("exports in a pipeline that is left", seen == [moment, []], seen)


ROW = (1000 * "x", 5)


def exports(program, check):
    """An export of 10 MB is read as it comes, is left early, and says what it withholds and why."""
    server = Server(program, 4, chunk=64)
    talk(server, "USER ann\nCREATE TABLE a (x TEXT, n INTEGER)\n" + 10_000 * f"INSERT INTO a VALUES ('{ROW[0]}', 5)\n"
        + "CREATE TABLE b (x INTEGER)\nINSERT INTO b VALUES (7)\nCREATE TABLE c (y TEXT, z TEXT)\n"
        "GRANT SELECT ON a TO bob\nGRANT SELECT (z) ON c TO bob\nCHECKPOINT\n"
        "REVOKE SELECT (z) ON c FROM bob\nGRANT SELECT ON b TO bob\n")
    moment = 1 + 10_000 + 7
    with connected(server, "bob", tables={"a": {"x": str, "n": int}}) as bob:
        settled(bob)
        tracemalloc.start()
        export = bob.export(1)
        first, rows = next(export), 0
        for each in first:
            rows += each == ROW
        peak = tracemalloc.get_traced_memory()[1]
        tracemalloc.stop()
        seen = (first.name, first.columns, first.types, rows)
        check("10 MB of rows", seen == ("a", ("x", "n"), (str, int), 10_000), seen)
        check("in less than 3 MB", peak < 3_000_000, peak)
        seen = [(each.name, each.withheld) for each in export]
        check("withheld", seen == [("b", "point"), ("c", "now")] and export.is_whole, seen)
        left_exports(bob, moment, check)
        denied_exports(bob, moment, check)
        # (this one is still open when the connection is closed)
        bob.export(1)
    with connected(server, "ann") as ann:
        seen = [(table.name, next(iter(table))) for table in ann.export(1) if table.name != "c"]
        check("types that are not known", seen == [("a", (ROW[0], "5")), ("b", ("7",))], seen)


def left_exports(bob, moment, check):
    """An export that is left is read to its end: behind it the session goes on."""
    with bob.export(1, "A") as export:
        seen = next(iter(next(export)))
    check("one row, and left", (seen, export.is_whole, export.moment) == (ROW, False, moment), seen)
    export = bob.export(1)
    rows = iter(next(export))
    seen = [next(rows), next(export).name, told(lambda: next(rows)), bob.execute("CHECKPOINTS").moment]
    check("rows are passed over", seen == [ROW, "b", bavgusen.InterfaceError, moment], seen)
    last = [*bob.export(1)][-1]
    seen = [told(lambda: next(export)), last.withheld, last.columns, told(lambda: [*last])]
    check("left by the next statement", seen == [bavgusen.InterfaceError, "now", (), bavgusen.ProgrammingError], seen)


def denied_exports(bob, moment, check):
    for work, wanted in (
        (lambda: bob.export(2), bavgusen.DeniedError),
        (lambda: bob.export(1, "c"), bavgusen.DeniedError),
        (lambda: bob.export(0), bavgusen.FaultError),
        (lambda: bob.export(1, "a; b"), bavgusen.ProgrammingError),
        (lambda: bob.export("1"), bavgusen.ProgrammingError),
    ):
        check(f"no export: {wanted.__name__}", told(work) == wanted, told(work))
    seen = [bob.execute(f"EXPORT 1 ONLY {table}") for table in "bcd"]
    wanted = [(moment - 2, "bob lacked SELECT on b"), (moment, "bob now lacks SELECT on c"), (moment, "no table d")]
    check("ONLY", [(reply.moment, reply.reason) for reply in seen] == wanted, seen)


def page(program, check):
    """What the README of the package shows is so."""
    with open(os.path.join(PACKAGE, "README.md"), encoding="utf-8") as file:
        beginning, exported, fetched = re.findall("```python\n(.*?)```", file.read(), re.DOTALL)
    server, said = Server(program, 2), io.StringIO()
    with contextlib.redirect_stdout(said):
        exec(beginning.replace("7878", str(server.port)), {})
    check("the first lines of the page", said.getvalue() == "Bo, jr -5\n", said.getvalue())
    with connected(server, "bob") as session, contextlib.redirect_stdout(said):
        session.execute("CREATE TABLE mine (x INTEGER)", check=True)
        session.execute("CHECKPOINT", check=True)
        settled(session)
        exec(exported, {"session": session})
        exec(fetched, {"session": session})
    wanted = "Bo, jr -5\npay is withheld: point\nmine ('x',) 0\n['x'] (2,) [(3,)]\n"
    check("the export and the cursor of the page", said.getvalue() == wanted, said.getvalue())


def withheld(program, check):
    """A server that cannot write its journal ends the session that changed something, and its client says so; others it
    answers."""
    if not os.path.exists("/dev/full"):
        print("no /dev/full: no client saw a withheld reply")
        return
    server = Server(program, 2, more=["--journal", "/dev/full"])
    ann, bob = connected(server, "ann"), connected(server, "bob")
    seen = [bob.execute("CHECKPOINTS"), told(lambda: ann.execute(PAY)), ann.closed, told(lambda: ann.execute(PAY)),
        bob.execute("CHECKPOINTS"), bob.closed]
    ended, again = bavgusen.ConnectionEnded, bavgusen.InterfaceError
    check("a withheld reply", seen == [Checkpoints(0, ()), ended, True, again, Checkpoints(1, ()), False], seen)
    bob.close()
    server.child.communicate(timeout=WAIT)
    seen = told(lambda: connected(server, "ann"))
    check("nobody listens", seen == bavgusen.ConnectionEnded, seen)


def ended(program, check):
    """A session that a server ends, since it was idle or the server is gone, is told to be ended, and is closed."""
    server = Server(program, 1, more=["--idle", "1"])
    with connected(server, "ann") as ann:
        check("a session that is idle later", ann.execute(PAY) == Done(1), ann)
        ended = server.end()
        check("idle: the end", ended == (0, b"served 1\n", ["session fault: read"]), ended)
        seen = [told(lambda: ann.execute("CHECKPOINTS")), ann.closed, told(lambda: ann.rows("SELECT * FROM pay"))]
        check("idle for too long", seen == [bavgusen.ConnectionEnded, True, bavgusen.InterfaceError], seen)
    server = Server(program, 1)
    with connected(server, "ann") as ann:
        replies = ann.pipeline(itertools.repeat(PAY))
        check("a reply before the end", next(replies) == Done(1), ann)
        server.child.kill()
        server.child.communicate(timeout=WAIT)
        seen = told(lambda: [*replies]), ann.closed
        check("a server that is gone", seen == (bavgusen.ConnectionEnded, True), seen)


def full(program, check):
    """Where no session is left for a client, he is told so, and may come again."""
    server = Server(program, None, more=["--max-sessions", "1"])
    with connected(server, "ann") as ann:
        seen = [told(lambda: connected(server, "bob")) for _ in range(3)]
        check("no session is left", seen == 3 * [bavgusen.UnavailableError], seen)
        check("who is in goes on", ann.execute("CHECKPOINTS") == Checkpoints(0, ()), "other")


TESTS = (worked_example, worked_examples, rights, faults, typed, pipelines, exports, page, withheld, ended, full)

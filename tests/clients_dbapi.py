"""The Python client by the words of DB-API 2.0 (PEP 249)."""
from clients_served import PAY, connected, told
import bavgusen
from bavgusen import Done
from served import Server


def dbapi(program, check):
    """By the words of DB-API 2.0 (PEP 249)."""
    server = Server(program, 1)
    seen = (bavgusen.apilevel, bavgusen.threadsafety, bavgusen.paramstyle)
    check("globals", seen == ("2.0", 1, "qmark"), seen)
    above = dict.fromkeys(("DataError", "OperationalError", "IntegrityError", "InternalError", "ProgrammingError",
        "NotSupportedError"), bavgusen.DatabaseError)
    above.update(Warning=Exception, Error=Exception, InterfaceError=bavgusen.Error, DatabaseError=bavgusen.Error)
    for name, parent in above.items():
        check(f"the exception {name}", getattr(bavgusen, name).__bases__ == (parent,), name)
    connection = connected(server, "ann")
    for name in (*above, "Error"):
        check(f"the exception {name} of a connection", getattr(connection, name) is getattr(bavgusen, name), name)
    cursor = connection.cursor()
    fetched(cursor, check)
    raised(connection, cursor, check)
    check("commit", connection.commit() is None and connection.execute("CHECKPOINTS").moment == 1002, "other")
    seen = told(lambda: connection.execute("INSERT INTO pay VALUES (1)", check=True))
    check("a misfit", seen.__bases__ == (bavgusen.RefusedError, bavgusen.DataError), seen)
    cursor.close()
    connection.close()
    for work in (cursor.fetchone, lambda: cursor.execute("CHECKPOINTS"), connection.cursor, connection.commit,
            lambda: connection.execute("CHECKPOINTS"), connection.__enter__):
        check("closed", told(work) == bavgusen.InterfaceError, told(work))
    connection.close()
    ended = connection.closed, server.end()
    check("DB-API: the end", ended == (True, (0, b"served 1\n", [])), ended)


def fetched(cursor, check):
    seen = [cursor.description, cursor.rowcount, cursor.arraysize, told(cursor.fetchone)]
    check("a new cursor", seen == [None, -1, 1, bavgusen.ProgrammingError], seen)
    cursor.execute(PAY)
    cursor.executemany("INSERT INTO pay VALUES (?, ?)", ((f"n{n}", n) for n in range(1000)))
    check("many rows", (cursor.reply, cursor.description, cursor.rowcount) == (Done(1001), None, -1), cursor.reply)
    cursor.execute("SELECT * FROM pay WHERE wage >= ?", (990,))
    described = [("name", bavgusen.STRING, *5 * [None]), ("wage", bavgusen.NUMBER, *5 * [None])]
    check("a description", (cursor.description, cursor.rowcount) == (described, 10), cursor.description)
    seen = [cursor.fetchone(), cursor.fetchmany(), cursor.fetchmany(3), len(cursor.fetchall()), cursor.fetchone(),
        cursor.fetchall(), cursor.fetchmany(2)]
    wanted = [("n990", 990), [("n991", 991)], [(f"n{n}", n) for n in (992, 993, 994)], 5, None, [], []]
    check("fetched", seen == wanted, seen)
    seen = [cursor.rownumber, *cursor.execute("SELECT wage FROM pay WHERE wage < 3"), cursor.rownumber]
    check("iterated", seen == [10, (0,), (1,), (2,), 3], seen)
    seen = [next(cursor.execute("SELECT wage\nFROM pay")), told(lambda: cursor.fetchmany(-1)), cursor.fetchone()]
    check("no number of rows", seen == [(0,), bavgusen.ProgrammingError, (1,)], seen)


def raised(connection, cursor, check):
    for work, wanted in (
        (lambda: cursor.execute("SELECT * FROM nothing"), bavgusen.DeniedError),
        (lambda: cursor.execute("INSERT INTO pay VALUES (1)"), bavgusen.MisfitError),
        (lambda: cursor.execute("SELEKT"), bavgusen.FaultError),
        (lambda: cursor.execute("\n export 1"), bavgusen.NotSupportedError),
        (lambda: cursor.executemany("EXPORT ?", [(1,)]), bavgusen.NotSupportedError),
        (lambda: cursor.executemany("SELECT * FROM pay WHERE wage = ?", [(1,)]), bavgusen.ProgrammingError),
        (lambda: cursor.executemany("INSERT INTO pay VALUES (?, ?)", [("a", 1), ("b", None)]), bavgusen.DataError),
        (cursor.fetchone, bavgusen.ProgrammingError),
        (connection.rollback, bavgusen.NotSupportedError),
        (lambda: bavgusen.Binary(b""), bavgusen.NotSupportedError),
    ):
        seen = told(work)
        check(f"raised: {wanted.__name__}", seen == wanted, seen)


TESTS = (dbapi,)

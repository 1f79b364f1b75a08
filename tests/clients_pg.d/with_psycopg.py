"""psycopg 3: `autocommit=True`. Values are bound; `executemany` and pipelines send many before one Sync."""
import logging

import psycopg

from saying import ODD, PORT, REFUSED, TABLE, USER, code_of, flat, password_of, said

# (it warns as well where an error comes before the end of its pipeline)
logging.getLogger("psycopg").setLevel(logging.ERROR)


def connected(user, password=None):
    return psycopg.connect(host="127.0.0.1", port=PORT, user=user, password=password or password_of(user), dbname="x",
        autocommit=True)


def rows(connection, *words, **more):
    return flat(connection.execute(*words, **more).fetchall())


def code(connection, *words):
    return code_of(psycopg.Error, "sqlstate", lambda: connection.execute(*words))


def change(step, *words):
    said(step, own.execute(*words).statusmessage)


def piped():
    """What comes of three inserts in one pipeline, the second of which is refused."""
    def work():
        with own.pipeline():
            for name in ("a", "b\x07", "c"):
                own.execute(insert, (name, 1))
    code = code_of(psycopg.Error, "sqlstate", work)
    there = rows(own, f"SELECT name FROM {TABLE} WHERE wage = 1")
    own.execute(f"DELETE FROM {TABLE} WHERE wage = 1")
    return code, *there


def many_statements():
    """Count and sum of what 300 statements give, each of which is sent six times: it is prepared at the sixth, and
    dropped again where a hundred others are.
    """
    with connected(USER) as many:
        asked = [f"SELECT x FROM few WHERE x = %s AND x <> {n}" for n in range(100, 400)]
        seen = [x for statement in asked for wanted in 3 * (1, 2) for x in rows(many, statement, (wanted,))]
        return len(seen), sum(seen)


own, insert = connected(USER), f"INSERT INTO {TABLE} VALUES (%s, %s)"
said("version", *rows(own, "SHOW server_version"))
change("create", f"CREATE TABLE {TABLE} (name TEXT, wage INTEGER)")
change("insert", insert, ("Bo", 7))
change("insert odd", insert, (ODD, -2**63))
change("insert max", insert, ("max", 2**63 - 1))
cursor = own.execute(f"UPDATE {TABLE} SET wage = %s WHERE name = %s", (8, "Bo"))
said("update", cursor.statusmessage, cursor.rowcount)
cursor.executemany(insert, [("m0", 0), ("m1", 1), ("m2", 2)])
said("several")
change("delete", f"DELETE FROM {TABLE} WHERE name = %s", ("m1",))
cursor = own.execute(f"SELECT * FROM {TABLE}")
said("columns", *flat((column.name, column.type_code) for column in cursor.description))
said("rows", *flat(cursor.fetchall()))
said("rows in binary", *flat(own.cursor(binary=True).execute(f"SELECT * FROM {TABLE}").fetchall()))
said("filter", *rows(own, f"SELECT name FROM {TABLE} WHERE wage > %s", (0,)))
said("ten times", *[rows(own, f"SELECT wage FROM {TABLE} WHERE name = %s", ("max",))[0] for _ in range(10)])
many = rows(own, "SELECT x FROM thousands")
said("thousands", len(many), sum(many))
for step, statement in REFUSED.items():
    said(step, code(own, statement))
said("null", code(own, insert, (None, 1)))
said("line feed", code(own, insert, ("a\nb", 1)))
said("no number", code(own, insert, ("x", "seven")))
said("goes on", *rows(own, f"SELECT wage FROM {TABLE} WHERE name = 'Bo'"))
with own.pipeline():
    told = [own.execute(f"SELECT wage FROM {TABLE} WHERE name = %s", (name,)) for name in ("Bo", "m0", "m2")]
    said("pipeline", *flat(flat(each.fetchall() for each in told)))
said("an error in a pipeline", *piped())
own.autocommit = False
said("in a block", code(own, insert, ("in a block", 1)), code(own, "SELECT * FROM few"))
own.rollback()
said("a block of queries", *rows(own, "SELECT * FROM few"))
own.commit()
own.autocommit = True
said("several queries", *flat(own.execute("SELECT * FROM few; SELECT * FROM few").fetchall()))
said("a change among several", code(own, f"SELECT * FROM few; DELETE FROM {TABLE}"))
change("grant", f"GRANT SELECT ON {TABLE} TO reader")
with connected("reader") as there:
    said("two users", *rows(own, f"SELECT wage FROM {TABLE} WHERE name = 'Bo'"),
        *rows(there, f"SELECT wage FROM {TABLE} WHERE name = 'Bo'"), code(there, f"DELETE FROM {TABLE}"))
change("revoke", f"REVOKE SELECT ON {TABLE} FROM reader")
said("moment", own.info.parameter_status("sysr.moment"))
said("export", *rows(own, "EXPORT 1"))
said("checkpoints", *rows(own, "CHECKPOINTS"))
said("many statements", *many_statements())
said("wrong password", code_of(psycopg.Error, "sqlstate", lambda: connected(USER, "wrong")))

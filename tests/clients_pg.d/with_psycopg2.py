"""psycopg2: `autocommit = True`. It writes values into the statement by itself, and sends a Query."""
import psycopg2
import psycopg2.pool

from saying import ODD, PORT, REFUSED, TABLE, USER, code_of, flat, password_of, said


def connected(user, password=None):
    made = psycopg2.connect(host="127.0.0.1", port=PORT, user=user, password=password or password_of(user), dbname="x")
    made.autocommit = True
    return made


def asked(connection, *words):
    cursor = connection.cursor()
    cursor.execute(*words)
    return cursor


def rows(connection, *words):
    return flat(asked(connection, *words).fetchall())


def code(connection, *words):
    return code_of(psycopg2.Error, "pgcode", lambda: asked(connection, *words))


def change(step, *words):
    said(step, asked(own, *words).statusmessage)


own, insert = connected(USER), f"INSERT INTO {TABLE} VALUES (%s, %s)"
said("version", *rows(own, "SHOW server_version"))
change("create", f"CREATE TABLE {TABLE} (name TEXT, wage INTEGER)")
change("insert", insert, ("Bo", 7))
change("insert odd", insert, (ODD, -2**63))
change("insert max", insert, ("max", 2**63 - 1))
cursor = asked(own, f"UPDATE {TABLE} SET wage = %s WHERE name = %s", (8, "Bo"))
said("update", cursor.statusmessage, cursor.rowcount)
cursor.executemany(insert, [("m0", 0), ("m1", 1), ("m2", 2)])
said("several")
change("delete", f"DELETE FROM {TABLE} WHERE name = %s", ("m1",))
cursor = asked(own, f"SELECT * FROM {TABLE}")
said("columns", *flat(column[:2] for column in cursor.description))
said("rows", *flat(cursor.fetchall()))
said("filter", *rows(own, f"SELECT name FROM {TABLE} WHERE wage > %s", (0,)))
said("ten times", *[rows(own, f"SELECT wage FROM {TABLE} WHERE name = %s", ("max",))[0] for _ in range(10)])
many = rows(own, "SELECT x FROM thousands")
said("thousands", len(many), sum(many))
for step, statement in REFUSED.items():
    said(step, code(own, statement))
said("null", code(own, insert, (None, 1)))
said("line feed", code(own, insert, ("a\nb", 1)))
said("goes on", *rows(own, f"SELECT wage FROM {TABLE} WHERE name = 'Bo'"))
own.autocommit = False
said("in a block", code(own, insert, ("in a block", 1)), code(own, "SELECT * FROM few"))
own.rollback()
said("a block of queries", *rows(own, "SELECT * FROM few"))
own.commit()
own.autocommit = True
change("grant", f"GRANT SELECT ON {TABLE} TO reader")
pools = [psycopg2.pool.SimpleConnectionPool(1, 2, host="127.0.0.1", port=PORT, user=user, password=password_of(user),
    dbname="x") for user in (USER, "reader")]
here, there = (pool.getconn() for pool in pools)
here.autocommit = there.autocommit = True
said("two users", *rows(here, f"SELECT wage FROM {TABLE} WHERE name = 'Bo'"),
    *rows(there, f"SELECT wage FROM {TABLE} WHERE name = 'Bo'"), code(there, f"DELETE FROM {TABLE}"))
change("revoke", f"REVOKE SELECT ON {TABLE} FROM reader")
said("moment", own.get_parameter_status("sysr.moment"))
said("export", *rows(own, "EXPORT 1"))
said("checkpoints", *rows(own, "CHECKPOINTS"))
said("wrong password", code_of(psycopg2.Error, "pgcode", lambda: connected(USER, "wrong")))

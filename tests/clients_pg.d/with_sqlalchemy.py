"""SQLAlchemy over psycopg2: `isolation_level="AUTOCOMMIT", use_native_hstore=False`, and statements by `text()`."""
import sqlalchemy
from sqlalchemy import text

from saying import ODD, PORT, REFUSED, TABLE, USER, flat, password_of, said


def engine_of(user, password=None, **more):
    url = sqlalchemy.engine.URL.create("postgresql+psycopg2", user, password or password_of(user), "127.0.0.1",
        int(PORT), "x")
    return sqlalchemy.create_engine(url, use_native_hstore=False, **more)


def code(engine, statement, **values):
    try:
        with engine.connect() as connection:
            return f"nothing raised, {connection.execute(text(statement), values)!r}"
    except sqlalchemy.exc.DBAPIError as why:
        return why.orig.pgcode or " ".join(str(why.orig).split("\n"))


def rows(engine, statement, **values):
    with engine.connect() as connection:
        return flat(connection.execute(text(statement), values).fetchall())


def change(step, statement, *values):
    with own.connect() as connection:
        connection.execute(text(statement), *values)
    said(step)


def in_a_block():
    """Without AUTOCOMMIT: a change is refused, and what comes behind it, up to the rollback."""
    with engine_of(USER).connect() as connection, connection.begin() as block:
        codes = []
        for statement in (f"INSERT INTO {TABLE} VALUES ('in a block', 1)", "SELECT * FROM few"):
            try:
                connection.execute(text(statement))
            except sqlalchemy.exc.DBAPIError as why:
                codes.append(why.orig.pgcode)
        block.rollback()
        return codes


own, insert = engine_of(USER, isolation_level="AUTOCOMMIT"), f"INSERT INTO {TABLE} VALUES (:name, :wage)"
said("version", *rows(own, "SHOW server_version"))
change("create", f"CREATE TABLE {TABLE} (name TEXT, wage INTEGER)")
change("insert", insert, {"name": "Bo", "wage": 7})
change("insert odd", insert, {"name": ODD, "wage": -2**63})
change("insert max", insert, {"name": "max", "wage": 2**63 - 1})
change("update", f"UPDATE {TABLE} SET wage = :wage WHERE name = :name", {"wage": 8, "name": "Bo"})
change("several", insert, [{"name": f"m{n}", "wage": n} for n in range(3)])
change("delete", f"DELETE FROM {TABLE} WHERE name = :name", {"name": "m1"})
said("rows", *rows(own, f"SELECT * FROM {TABLE}"))
said("filter", *rows(own, f"SELECT name FROM {TABLE} WHERE wage > :w", w=0))
said("ten times", *[rows(own, f"SELECT wage FROM {TABLE} WHERE name = :n", n="max")[0] for _ in range(10)])
many = rows(own, "SELECT x FROM thousands")
said("thousands", len(many), sum(many))
for step, statement in REFUSED.items():
    said(step, code(own, statement))
said("null", code(own, insert, name=None, wage=1))
said("line feed", code(own, insert, name="a\nb", wage=1))
said("goes on", *rows(own, f"SELECT wage\n\tFROM {TABLE}\n\tWHERE name = 'Bo'"))
said("in a block", *in_a_block())
said("a block of queries", *rows(engine_of(USER), "SELECT * FROM few"))
change("grant", f"GRANT SELECT ON {TABLE} TO reader")
reader = engine_of("reader", isolation_level="AUTOCOMMIT")
said("two users", *rows(own, f"SELECT wage FROM {TABLE} WHERE name = 'Bo'"),
    *rows(reader, f"SELECT wage FROM {TABLE} WHERE name = 'Bo'"), code(reader, f"DELETE FROM {TABLE}"))
change("revoke", f"REVOKE SELECT ON {TABLE} FROM reader")
said("export", *rows(own, "EXPORT 1"))
said("checkpoints", *rows(own, "CHECKPOINTS"))
said("wrong password", code(engine_of(USER, "wrong"), "SELECT 1"))

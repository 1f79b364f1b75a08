"""asyncpg: nothing to say, each statement is sent alone. Values and results are binary; a pool resets its sessions."""
import asyncio

import asyncpg

from saying import ODD, PORT, REFUSED, TABLE, USER, flat, password_of, said


def words(user, password=None):
    return {"host": "127.0.0.1", "port": int(PORT), "user": user, "password": password or password_of(user),
        "database": "x"}


async def code(work):
    try:
        return f"nothing raised, {await work!r}"
    except asyncpg.PostgresError as why:
        return why.sqlstate


async def rows(connection, *asked):
    return flat(tuple(row) for row in await connection.fetch(*asked))


async def in_a_block(own, insert):
    block = own.transaction()
    await block.start()
    codes = [await code(own.execute(insert, "in a block", 1)), await code(own.fetch("SELECT * FROM few"))]
    await block.rollback()
    return codes


async def in_parts(own):
    """Count and sum, in more blocks than a session may have portals."""
    seen = []
    try:
        for _ in range(10):
            async with own.transaction():
                many = [row["x"] async for row in own.cursor("SELECT x FROM thousands WHERE x >= $1", 0, prefetch=999)]
                seen += len(many), sum(many)
    except asyncpg.PostgresError as why:
        seen.append(why.sqlstate)
    return seen


async def many_statements(own):
    """Count and sum of what 300 statements give, each of which is sent twice: it keeps 100 of them."""
    asked = [f"SELECT x FROM few WHERE x = $1 AND x <> {n}" for n in range(100, 400)]
    seen = [x for statement in asked for wanted in (1, 2) for x in await rows(own, statement, wanted)]
    return len(seen), sum(seen)


async def two_users(ask):
    async with asyncpg.create_pool(min_size=1, max_size=2, **words(USER)) as here:
        async with asyncpg.create_pool(min_size=1, max_size=2, **words("reader")) as there:
            seen = []
            # (what a pool sends when a session comes back is what is tried the second time)
            for pool in (here, there, here, there):
                seen += flat(await pool.fetch(ask, "Bo"))
            return *seen, await code(there.execute(f"DELETE FROM {TABLE}"))


async def main():
    own, insert = await asyncpg.connect(**words(USER)), f"INSERT INTO {TABLE} VALUES ($1, $2)"
    ask = f"SELECT wage FROM {TABLE} WHERE name = $1"
    said("version", *await rows(own, "SHOW server_version"))
    said("create", await own.execute(f"CREATE TABLE {TABLE} (name TEXT, wage INTEGER)"))
    said("insert", await own.execute(insert, "Bo", 7))
    said("insert odd", await own.execute(insert, ODD, -2**63))
    said("insert max", await own.execute(insert, "max", 2**63 - 1))
    said("update", await own.execute(f"UPDATE {TABLE} SET wage = $1 WHERE name = $2", 8, "Bo"))
    await own.executemany(insert, [("m0", 0), ("m1", 1), ("m2", 2)])
    said("several")
    said("delete", await own.execute(f"DELETE FROM {TABLE} WHERE name = $1", "m1"))
    prepared = await own.prepare(f"SELECT * FROM {TABLE}")
    said("columns", *flat((it.name, it.type.oid) for it in prepared.get_attributes()))
    said("rows", *await rows(own, f"SELECT * FROM {TABLE}"))
    said("filter", *await rows(own, f"SELECT name FROM {TABLE} WHERE wage > $1", 0))
    said("ten times", *[await own.fetchval(ask, "max") for _ in range(10)])
    many = await rows(own, "SELECT x FROM thousands")
    said("thousands", len(many), sum(many))
    said("in parts", *await in_parts(own))
    for step, statement in REFUSED.items():
        said(step, await code(own.fetch(statement)))
    said("null", await code(own.execute(insert, None, 1)))
    said("line feed", await code(own.execute(insert, "a\nb", 1)))
    said("goes on", await own.fetchval(ask, "Bo"))
    said("in a block", *await in_a_block(own, insert))
    async with own.transaction():
        seen = await rows(own, "SELECT * FROM few")
    said("a block of queries", *seen)
    said("grant", await own.execute(f"GRANT SELECT ON {TABLE} TO reader"))
    said("two users", *await two_users(ask))
    said("revoke", await own.execute(f"REVOKE SELECT ON {TABLE} FROM reader"))
    said("moment", getattr(own.get_settings(), "sysr.moment"))
    said("export", *await rows(own, "EXPORT 1"))
    said("checkpoints", *await rows(own, "CHECKPOINTS"))
    said("many statements", *await many_statements(own))
    said("wrong password", await code(asyncpg.connect(**words(USER, "wrong"))))
    await own.close(timeout=5)


asyncio.run(main())

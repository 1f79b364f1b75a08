"""psql, and what is asked of PostgreSQL's catalog.

How the server is reached is psql's matter: by words of the command line that go to it, by PGHOST, PGUSER and the like,
by a file of passwords. No word here has a password.
"""
import json
import os
import re
import subprocess
from collections.abc import Iterable, Sequence
from typing import Any

from postgres_rights.wording import fail

Record = dict[str, Any]

# Views, and partitioned and foreign tables, have rights as tables have.
OF_SCHEMA = """pg_class c JOIN pg_namespace n ON n.oid = c.relnamespace
    AND n.nspname = {schema} AND c.relkind IN ('r', 'p', 'f', 'v', 'm')"""

TABLES = f"""SELECT c.relname AS table, pg_get_userbyid(c.relowner) AS owner, c.relkind AS kind,
    c.relrowsecurity AS by_row FROM {OF_SCHEMA} ORDER BY c.oid"""

COLUMNS = f"""SELECT c.relname AS table, a.attname AS column, format_type(a.atttypid, a.atttypmod) AS type
    FROM {OF_SCHEMA} JOIN pg_attribute a ON a.attrelid = c.oid AND a.attnum > 0 AND NOT a.attisdropped
    ORDER BY c.oid, a.attnum"""

GRANTEE = "CASE WHEN e.grantee > 0 THEN pg_get_userbyid(e.grantee) END"

# A table without a list has the default one: all rights for its owner. PUBLIC has no name.
ENTRIES = f"""SELECT c.relname AS table, NULL AS column, pg_get_userbyid(e.grantor) AS by, {GRANTEE} AS to,
    e.privilege_type AS word, e.is_grantable AS option
    FROM {OF_SCHEMA}, aclexplode(coalesce(c.relacl, acldefault('r', c.relowner))) e
    UNION ALL SELECT c.relname, a.attname, pg_get_userbyid(e.grantor), {GRANTEE}, e.privilege_type, e.is_grantable
    FROM {OF_SCHEMA} JOIN pg_attribute a ON a.attrelid = c.oid AND NOT a.attisdropped, aclexplode(a.attacl) e"""

# What roles may do, by whatever way: entries, PUBLIC, roles that they are members of, or as superusers.
HELD = f"""SELECT r.rolname AS user, c.relname AS table, a.attname AS column, p.word AS word,
    has_column_privilege(r.oid, c.oid, a.attnum, p.word || ' WITH GRANT OPTION') AS option
    FROM {OF_SCHEMA} JOIN pg_attribute a ON a.attrelid = c.oid AND a.attnum > 0 AND NOT a.attisdropped,
    pg_roles r, (VALUES ('SELECT'), ('UPDATE')) p (word)
    WHERE r.rolname IN ({{roles}}) AND has_column_privilege(r.oid, c.oid, a.attnum, p.word)
    UNION ALL SELECT r.rolname, c.relname, NULL, p.word,
    has_table_privilege(r.oid, c.oid, p.word || ' WITH GRANT OPTION')
    FROM {OF_SCHEMA}, pg_roles r, (VALUES ('INSERT'), ('DELETE')) p (word)
    WHERE r.rolname IN ({{roles}}) AND has_table_privilege(r.oid, c.oid, p.word)"""

# `enters`: whether a role may use what stands in the schema. There may be no such schema.
ROLES = """SELECT r.rolname AS role, r.rolsuper AS super, coalesce((SELECT json_agg(m.rolname ORDER BY m.rolname)
    FROM pg_auth_members g JOIN pg_roles m ON m.oid = g.roleid WHERE g.member = r.oid), '[]') AS within,
    (SELECT has_schema_privilege(r.oid, n.oid, 'USAGE') FROM pg_namespace n WHERE n.nspname = {schema}) AS enters
    FROM pg_roles r WHERE r.rolname !~ '^pg_' ORDER BY r.rolname"""

# Rights of others than the owner on what is no table: how many objects of a kind, and whose.
OTHERS = f"""SELECT o.kind, count(DISTINCT o.oid) AS count, json_agg(DISTINCT {GRANTEE}) AS users
    FROM (SELECT 'schema' AS kind, n.oid, n.nspowner AS owner, coalesce(n.nspacl, acldefault('n', n.nspowner)) AS list
    FROM pg_namespace n WHERE n.nspname = {{schema}}
    UNION ALL SELECT 'sequence', c.oid, c.relowner, coalesce(c.relacl, acldefault('s', c.relowner))
    FROM pg_class c JOIN pg_namespace n ON n.oid = c.relnamespace AND n.nspname = {{schema}} AND c.relkind = 'S'
    UNION ALL SELECT 'function', p.oid, p.proowner, coalesce(p.proacl, acldefault('f', p.proowner))
    FROM pg_proc p JOIN pg_namespace n ON n.oid = p.pronamespace AND n.nspname = {{schema}}
    UNION ALL SELECT 'type', t.oid, t.typowner, coalesce(t.typacl, acldefault('T', t.typowner))
    FROM pg_type t JOIN pg_namespace n ON n.oid = t.typnamespace AND n.nspname = {{schema}}
    LEFT JOIN pg_class c ON c.oid = t.typrelid WHERE t.typelem = 0 AND coalesce(c.relkind, 'c') = 'c') o,
    aclexplode(o.list) e WHERE e.grantee <> o.owner GROUP BY o.kind ORDER BY o.kind"""

# What is still to be created gets rights too, here or in each schema.
DEFAULTS = f"""SELECT pg_get_userbyid(d.defaclrole) AS owner, CASE d.defaclobjtype WHEN 'r' THEN 'tables'
    WHEN 'S' THEN 'sequences' WHEN 'f' THEN 'functions' WHEN 'T' THEN 'types' ELSE 'schemas' END AS kind,
    json_agg(DISTINCT {GRANTEE}) AS users
    FROM pg_default_acl d LEFT JOIN pg_namespace n ON n.oid = d.defaclnamespace, aclexplode(d.defaclacl) e
    WHERE coalesce(n.nspname, {{schema}}) = {{schema}} AND e.grantee <> d.defaclrole GROUP BY 1, 2 ORDER BY 1, 2"""


def as_records(query: str) -> str:
    """A statement that gives the records of a query as one text."""
    return f"SELECT coalesce(json_agg(q), '[]') FROM (\n{query}) q;\n"


def psql(connection: Sequence[str], text: str) -> str:
    """What psql writes for a script, where it ends well. Else the tool ends with what psql says."""
    words = ["psql", "-X", "-A", "-t", "-q", "-v", "ON_ERROR_STOP=1", *connection, "-f", "-"]
    try:
        done = subprocess.run(words, input=text.encode(), capture_output=True,
            env={**os.environ, "PGCLIENTENCODING": "UTF8"})
    except FileNotFoundError:
        fail("psql is not installed")
    if done.returncode:
        fail(done.stderr.decode(errors="replace").strip())
    return done.stdout.decode()


def asked(connection: Sequence[str], queries: Iterable[str]) -> list[list[Record]]:
    """The records of each query. All are asked at one moment, and names in them are those of the catalog."""
    texts = "\\echo\n".join(as_records(query) for query in queries)
    return parsed(psql(connection, "BEGIN ISOLATION LEVEL REPEATABLE READ READ ONLY;\n"
        "SET LOCAL search_path = pg_catalog;\n" + texts + "COMMIT;\n"))


def parsed(out: str) -> list[Any]:
    """The JSON values of a text, one behind the other."""
    decoder, at, values = json.JSONDecoder(), 0, []
    while found := re.compile(r"\S").search(out, at):
        value, at = decoder.raw_decode(out, found.start())
        values.append(value)
    return values

#!/usr/bin/env bash
# What PostgreSQL's clients get from the server and from PostgreSQL, in turn: pgbench's look-ups and INSERTs, and all of
# 100,000 rows by psycopg and by a bare socket, each with the processor time of both sides. It may be told for how many
# seconds each is measured, and how many rounds there are.
set -eu
here=$(cd "$(dirname "$0")" && pwd)
"$here/../sysr" --help > /dev/null
# (Debian's Python finds Debian's drivers)
/usr/bin/python3 "$here/pg.py" "$here/../crates/sysr/out/sysr" "$@"

#!/usr/bin/env bash
# What a stream of changes costs beside `sysr journal`, and how fast PostgreSQL follows a journal (tools/to_postgres
# --follow) beside PostgreSQL's own logical replication, on one machine whose server waits for no disk.
set -eu
here=$(cd "$(dirname "$0")" && pwd)
"$here/../sysr" --help > /dev/null
python3 "$here/follow.py" "$here/../crates/sysr/out/sysr" "$@"

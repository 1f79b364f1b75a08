#!/usr/bin/env bash
# CHECKPOINT, SELECT and EXPORT of 1,000, 10,000 and 100,000 rows through the built program, beside the SELECT
# of `sqlite3 -csv :memory:` and the COPY TO of PostgreSQL where these are installed; and what a checkpoint costs those
# who go on meanwhile, beside the fork of Redis where it is installed.
set -eu
here=$(cd "$(dirname "$0")" && pwd)
"$here/../sysr" --help > /dev/null
python3 "$here/checkpoints.py" "$here/../crates/sysr/out/sysr"
python3 "$here/pauses.py" "$here/../crates/sysr/out/sysr"

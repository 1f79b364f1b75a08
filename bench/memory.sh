#!/usr/bin/env bash
# The most memory that the built program has for each row of a table, with and without an index.
set -eu
here=$(cd "$(dirname "$0")" && pwd)
"$here/../sysr" --help > /dev/null
python3 "$here/memory.py" "$here/../crates/sysr/out/sysr"

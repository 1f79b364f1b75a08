#!/usr/bin/env bash
# How long a session of the built program's server holds up all others by one statement on 900,000 rows, by kind.
set -eu
here=$(cd "$(dirname "$0")" && pwd)
"$here/../sysr" --help > /dev/null
python3 "$here/longest.py" "$here/../crates/sysr/out/sysr"

#!/usr/bin/env bash
# How many times as fast as sqlite3 and redis the built program carries out statements, where these are installed.
set -eu
here=$(cd "$(dirname "$0")" && pwd)
"$here/../sysr" --help > /dev/null
python3 "$here/ratios.py" "$here/../crates/sysr/out/sysr" "$@"

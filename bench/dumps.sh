#!/usr/bin/env bash
# What a checkpoint of 900,000 rows that a server writes into its folder costs a session that INSERTs one row after another: its
# longest wait, and how many rows it inserts a second, with no checkpoint and while one is written. It is told in which folder.
set -eu
here=$(cd "$(dirname "$0")" && pwd)
"$here/../sysr" --help > /dev/null
python3 "$here/dumps.py" "$here/../crates/sysr/out/sysr" "${@:-/var/tmp}"

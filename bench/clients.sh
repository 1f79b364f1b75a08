#!/usr/bin/env bash
# What one client of a server makes the others wait for, and what it takes of its memory.
set -eu
here=$(cd "$(dirname "$0")" && pwd)
"$here/../sysr" --help > /dev/null
python3 "$here/clients.py" "$here/../crates/sysr/out/sysr"

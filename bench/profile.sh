#!/usr/bin/env bash
# The instructions that the built program takes for a statement or a row of each kind, counted by valgrind.
set -eu
here=$(cd "$(dirname "$0")" && pwd)
"$here/../sysr" --help > /dev/null
python3 "$here/profile.py" "$here/../crates/sysr/out/sysr"

#!/usr/bin/env bash
# A week of 12 changes a second, as fast as 16 clients can send them: 7,257,600 changes in sessions of some hundred lines,
# over tables that stay as large as they are, with a checkpoint and an export now and then. It tells the server's memory
# as it goes on, and what of it each change takes.
set -eu
here=$(cd "$(dirname "$0")" && pwd)
"$here/../sysr" --help > /dev/null
python3 "$here/week.py" "$here/../crates/sysr/out/sysr" "$@"

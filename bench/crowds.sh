#!/usr/bin/env bash
# A crowd of sessions: sixteen clients of one line at a time, a thousand, and sixteen beside ten thousand that wait: lines a
# second, and how long answers take; and the memory of a session that waits.
set -eu
here=$(cd "$(dirname "$0")" && pwd)
"$here/../sysr" --help > /dev/null
python3 "$here/crowds.py" "$here/../crates/sysr/out/sysr"

#!/usr/bin/env bash
# A server with 1,000,000 changes that is stopped and started again beside clients who come each 20 milliseconds, at a
# socket that its supervisor keeps open: how long they wait at most, and that none is refused.
set -eu
here=$(cd "$(dirname "$0")" && pwd)
"$here/../sysr" --help > /dev/null
python3 "$here/restart.py" "$here/../crates/sysr/out/sysr"

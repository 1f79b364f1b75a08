#!/usr/bin/env bash
# 1,009 sessions of 100 changes or more from 16 clients at once on `sysr serve`, with checkpoints and exports among them:
# each change is done once, and each export is what its client expects. Memory is told.
set -eu
here=$(cd "$(dirname "$0")" && pwd)
"$here/../sysr" --help > /dev/null
python3 "$here/soak.py" "$here/../crates/sysr/out/sysr"

#!/usr/bin/env bash
# What explanations of a million changes cost, beside carrying these out.
set -eu
here=$(cd "$(dirname "$0")" && pwd)
"$here/../sysr" --help > /dev/null
python3 "$here/explain.py" "$here/../crates/sysr/out/sysr" "$@"

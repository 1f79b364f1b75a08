#!/usr/bin/env bash
# Sessions beside one another, in turn with one alone and with Redis, where it is installed: statements a second, their
# ratios, processor time and sleeps for a line, and what an idle server takes.
set -eu
here=$(cd "$(dirname "$0")" && pwd)
"$here/../sysr" --help > /dev/null
python3 "$here/sessions.py" "$here/../crates/sysr/out/sysr"

#!/usr/bin/env bash
# INSERT and SELECT lines to `sysr serve` from clients over loopback, one at a time and pipelined, beside `sysr run`
# and, where they are installed, Redis and PostgreSQL: statements a second, and percentiles of the answers' time.
set -eu
here=$(cd "$(dirname "$0")" && pwd)
"$here/../sysr" --help > /dev/null
python3 "$here/serve.py" "$here/../crates/sysr/out/sysr"

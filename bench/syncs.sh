#!/usr/bin/env bash
# What a synced journal costs beside PostgreSQL on the same disk: rows that 1, 16 and 64 clients of pgbench insert a second, each of
# which is on the disk before it is told, or within a second, or never. It is told in which folder, which the user postgres may reach, and may be for
# how many seconds each is measured, and how many rounds there are.
set -eu
here=$(cd "$(dirname "$0")" && pwd)
"$here/../sysr" --help > /dev/null
/usr/bin/python3 "$here/syncs.py" "$here/../crates/sysr/out/sysr" "${@:-/var/tmp}"

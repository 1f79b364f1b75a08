#!/usr/bin/env bash
# How long a server takes to start from a dump of 900,000 rows in its folder; from a journal that made these, and made and
# deleted nine times as many besides; and PostgreSQL to copy the rows in. It is told in which folder, which the user postgres
# may reach.
set -eu
here=$(cd "$(dirname "$0")" && pwd)
"$here/../sysr" --help > /dev/null
python3 "$here/starts.py" "$here/../crates/sysr/out/sysr" "${@:-/var/tmp}"

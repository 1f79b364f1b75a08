#!/usr/bin/env bash
# What an audit costs; GRANT and REVOKE over chains, cycles and stars of users, beside PostgreSQL where it is
# installed; and what statements of a grantee cost beside up to a million other grants.
set -eu
here=$(cd "$(dirname "$0")" && pwd)
"$here/../sysr" --help > /dev/null
python3 "$here/grants.py" "$here/../crates/sysr/out/sysr" "$@"

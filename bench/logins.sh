#!/usr/bin/env bash
# Logins, one after another and from 16 clients at once: what each costs the server, and how long it takes; and how long
# one takes beside 64 clients who never finish theirs.
set -eu
here=$(cd "$(dirname "$0")" && pwd)
"$here/../sysr" --help > /dev/null
python3 "$here/logins.py" "$here/../crates/sysr/out/sysr"

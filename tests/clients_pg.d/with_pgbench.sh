#!/bin/sh
# pgbench: scripts by -f alone, and -n; its own tables are dropped first, and DROP is not in the language.
port=$1 user=$2 table=t_$2
for how in simple extended prepared; do
    printf '\\set n :n + 1\nINSERT INTO %s VALUES ('"'%s'"', :n);\nSELECT name FROM %s WHERE wage = :n;\n' \
        "$table" "$how" "$table" > "$how.sql"
    PGPASSWORD="pw-of-$user" pgbench -n -M "$how" -t 20 -D n=-1 -f "$how.sql" \
        "host=127.0.0.1 port=$port user=$user dbname=x" | sed -n "s/^number of transactions actually/$how	&/p"
done

#!/bin/sh
# psql: nothing to say. \d and \gdesc ask PostgreSQL's catalogues, which are not there; nor is :'name' with a backslash.
port=$1 user=$2 odd=$3 table=t_$2
tab=$(printf '\t')
literal=$(printf '%s' "$odd" | sed "s/'/''/g")

session() {
    who=$1 password=$2
    shift 2
    PGPASSWORD=$password psql -X -A -t -F "$tab" -R "$tab" -P null=None -v VERBOSITY=default \
        "host=127.0.0.1 port=$port user=$who dbname=x" "$@"
}

own() { session "$user" "pw-of-$user" "$@"; }

refusals() {
    printf '%s' "$REFUSED" | while IFS="$tab" read -r step statement; do
        printf "\\\\echo -n '%s\\\\t'\n%s;\n\\\\echo :SQLSTATE\n" "$step" "$statement"
    done
}

own 2> errors <<END
\echo -n 'version\t'
SHOW server_version;
\echo -n 'create\t'
CREATE TABLE $table (
$tab name TEXT,
$tab wage INTEGER
);
\echo -n 'insert\t'
INSERT INTO $table VALUES ('Bo', 7);
\echo -n 'insert odd\t'
INSERT INTO $table VALUES ('$literal', -9223372036854775808);
\set most 9223372036854775807
\set name max
\echo -n 'insert max\t'
INSERT INTO $table VALUES (:'name', :most);
\echo -n 'update\t'
UPDATE $table SET wage = 8 WHERE name = 'Bo';
\o several
INSERT INTO $table VALUES ('m0', 0);
INSERT INTO $table VALUES ('m1', 1);
INSERT INTO $table VALUES ('m2', 2);
\o
\echo -n 'delete\t'
DELETE FROM $table WHERE name = 'm1';
\echo -n 'rows\t'
SELECT * FROM $table;
\echo -n 'filter\t'
SELECT name FROM $table WHERE wage > 0;
$(refusals)
\echo -n 'null\t'
INSERT INTO $table VALUES (NULL, 1);
\echo :SQLSTATE
\echo -n 'line feed\t'
INSERT INTO $table VALUES ('a
b', 1);
\echo :SQLSTATE
\echo -n 'goes on\t'
SELECT wage FROM $table WHERE name = 'Bo';
\o /dev/null
BEGIN;
INSERT INTO $table VALUES ('in a block', 1);
\echo -n 'in a block\t':SQLSTATE
SELECT * FROM few;
\echo '\t':SQLSTATE
ROLLBACK;
BEGIN;
\o
\echo -n 'a block of queries\t'
SELECT * FROM few;
\o /dev/null
COMMIT;
\o
\echo -n 'grant\t'
GRANT SELECT ON $table TO reader;
\echo -n 'export\t'
EXPORT 1;
\echo -n 'checkpoints\t'
CHECKPOINTS;
END
printf 'several\t%s\n' "$(paste -s several)"
printf 'in a copy\t%s\n' "$(own -c '\copy few FROM errors' 2>&1 | grep -c ERROR)"
own -R ' ' -c 'SELECT x FROM thousands' | tr ' ' '\n' | awk '{ sum += $1 } END { print "thousands\t" NR "\t" sum }'
printf 'several queries\t%s\n' "$(own -c 'SELECT * FROM few; SELECT * FROM few' | paste -s)"
printf 'a change among several\t%s\n' \
    "$(own -v VERBOSITY=sqlstate -c "SELECT * FROM few; DELETE FROM $table" 2>&1 | sed -n 's/^ERROR: *//p')"
printf 'caret\t%s\n' "$(own -c "SELECT name FROM $table WHERE name = 'äöü' FROM" 2>&1 | grep '\^')"
ask="SELECT wage FROM $table WHERE name = 'Bo'"
printf 'two users\t%s\t%s\t%s\n' "$(own -c "$ask")" "$(session reader pw-of-reader -c "$ask")" \
    "$(session reader pw-of-reader -v VERBOSITY=sqlstate -c "DELETE FROM $table" 2>&1 | sed 's/^ERROR: *//')"
printf 'revoke\t%s\n' "$(own -c "REVOKE SELECT ON $table FROM reader")"
printf 'wrong password\t%s\n' "$(session "$user" wrong -c 'SELECT 1' 2>&1 | tr '\n\t' '  ')"

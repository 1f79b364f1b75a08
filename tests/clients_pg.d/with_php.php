<?php
// PHP: nothing to say. pg_query_params and PDO bind values; PDO prepares, and sends DEALLOCATE of what it prepared.
[, $port, $user, $odd] = $argv;
$table = "t_$user";

function said($step, ...$fields) { echo implode("\t", [$step, ...$fields]), "\n"; }

function connected($user, $password) {
    global $port;
    return @pg_connect("host=127.0.0.1 port=$port user=$user password=$password dbname=x", PGSQL_CONNECT_FORCE_NEW);
}

// The result, or the SQLSTATE
function asked($on, $statement, $values = []) {
    $values ? pg_send_query_params($on, $statement, $values) : pg_send_query($on, $statement);
    $result = pg_get_result($on);
    while (pg_get_result($on));
    return pg_result_error_field($result, PGSQL_DIAG_SQLSTATE) ?: $result;
}

function code($on, ...$words) {
    $seen = asked($on, ...$words);
    return is_string($seen) ? $seen : "nothing raised";
}

function rows($on, ...$words) {
    $all = [];
    $result = asked($on, ...$words);
    while ($row = pg_fetch_row($result)) array_push($all, ...array_map(fn($value) => $value ?? "None", $row));
    return $all;
}

function change($step, ...$words) {
    global $own;
    $result = asked($own, ...$words);
    said($step, is_string($result) ? $result : pg_result_status($result, PGSQL_STATUS_STRING));
}

$own = connected($user, "pw-of-$user");
$insert = "INSERT INTO $table VALUES (\$1, \$2)";
$wage = "SELECT wage FROM $table WHERE name = \$1";
said("version", ...rows($own, "SHOW server_version"));
change("create", "CREATE TABLE $table (name TEXT, wage INTEGER)");
change("insert", $insert, ["Bo", 7]);
change("insert odd", $insert, [$odd, PHP_INT_MIN]);
change("insert max", $insert, ["max", PHP_INT_MAX]);
change("update", "UPDATE $table SET wage = \$1 WHERE name = \$2", [8, "Bo"]);
$pdo = new PDO("pgsql:host=127.0.0.1;port=$port;dbname=x", $user, "pw-of-$user");
$made = $pdo->prepare("INSERT INTO $table VALUES (?, ?)");
$counts = [];
foreach ([0, 1, 2] as $n) { $made->execute(["m$n", $n]); $counts[] = $made->rowCount(); }
said("several", ...$counts);
$made = null;
change("delete", "DELETE FROM $table WHERE name = \$1", ["m1"]);
$result = asked($own, "SELECT * FROM $table");
said("columns", pg_field_name($result, 0), pg_field_type_oid($result, 0), pg_field_name($result, 1),
    pg_field_type_oid($result, 1));
said("rows", ...rows($own, "SELECT * FROM $table"));
said("filter", ...rows($own, "SELECT name FROM $table WHERE wage > \$1", [0]));
$made = $pdo->prepare("SELECT wage FROM $table WHERE name = :name");
$ten = [];
foreach (range(1, 10) as $n) { $made->execute(["name" => "max"]); $ten[] = $made->fetchColumn(); }
said("ten times", ...$ten);
$many = rows($own, "SELECT x FROM thousands");
said("thousands", count($many), array_sum($many));
foreach (explode("\n", trim(getenv("REFUSED"))) as $line) {
    [$step, $statement] = explode("\t", $line);
    said($step, code($own, $statement));
}
said("null", code($own, $insert, [null, 1]));
said("line feed", code($own, $insert, ["a\nb", 1]));
said("no number", code($own, $insert, ["x", "seven"]));
try { $pdo->prepare("SELECT * FROM secret")->execute(); said("denied by PDO", "nothing raised"); }
catch (PDOException $why) { said("denied by PDO", $why->getCode()); }
$plain = $pdo->query("SELECT wage FROM $table WHERE name = 'Bo'");
said("goes on", ...rows($own, $wage, ["Bo"]), ...$plain->fetch(PDO::FETCH_NUM));
asked($own, "BEGIN");
said("in a block", code($own, $insert, ["in a block", 1]), code($own, "SELECT * FROM few"));
asked($own, "ROLLBACK");
$pdo->beginTransaction();
$seen = $pdo->query("SELECT * FROM few")->fetchAll(PDO::FETCH_COLUMN);
$pdo->commit();
said("a block of queries", ...$seen);
change("grant", "GRANT SELECT ON $table TO reader");
$there = connected("reader", "pw-of-reader");
said("two users", ...rows($own, $wage, ["Bo"]), ...rows($there, $wage, ["Bo"]),
    ...[code($there, "DELETE FROM $table")]);
change("revoke", "REVOKE SELECT ON $table FROM reader");
said("moment", pg_parameter_status($own, "sysr.moment"));
said("export", ...rows($own, "EXPORT 1"));
said("checkpoints", ...rows($own, "CHECKPOINTS"));
try { new PDO("pgsql:host=127.0.0.1;port=$port;dbname=x", $user, "wrong"); said("wrong password", "none"); }
catch (PDOException $why) { said("wrong password", strtr($why->getMessage(), "\n\t", "  ")); }

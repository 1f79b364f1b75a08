# Ruby's pg: nothing to say. `exec_params` and `exec_prepared` bind values, as texts.
require "pg"

PORT, USER, ODD = ARGV
TABLE = "t_#{USER}"

def said(step, *fields)
  puts [step, *fields].join("\t")
end

def connected(user, password = "pw-of-#{user}")
  PG.connect(host: "127.0.0.1", port: PORT.to_i, user: user, password: password, dbname: "x")
end

def rows(on, statement, values = [])
  on.exec_params(statement, values).values.flatten.map { |value| value.nil? ? "None" : value }
end

def code
  "nothing raised, #{yield}"
rescue PG::Error => why
  (why.result && why.result.error_field(PG::PG_DIAG_SQLSTATE)) || why.message.split("\n").join(" ")
end

def change(step, statement, values = [])
  said(step, OWN.exec_params(statement, values).cmd_status)
end

OWN = connected(USER)
INSERT = "INSERT INTO #{TABLE} VALUES ($1, $2)"
WAGE = "SELECT wage FROM #{TABLE} WHERE name = $1"
said("version", *rows(OWN, "SHOW server_version"))
change("create", "CREATE TABLE #{TABLE} (name TEXT, wage INTEGER)")
change("insert", INSERT, ["Bo", 7])
change("insert odd", INSERT, [ODD, -2**63])
change("insert max", INSERT, ["max", 2**63 - 1])
result = OWN.exec_params("UPDATE #{TABLE} SET wage = $1 WHERE name = $2", [8, "Bo"])
said("update", result.cmd_status, result.cmd_tuples)
OWN.prepare("insert", INSERT)
said("several", *3.times.map { |n| OWN.exec_prepared("insert", ["m#{n}", n]).cmd_tuples })
change("delete", "DELETE FROM #{TABLE} WHERE name = $1", ["m1"])
result = OWN.exec("SELECT * FROM #{TABLE}")
said("columns", *2.times.flat_map { |n| [result.fname(n), result.ftype(n)] })
said("rows", *rows(OWN, "SELECT * FROM #{TABLE}"))
binary = OWN.exec_params("SELECT wage FROM #{TABLE}", [], 1).column_values(0)
said("rows in binary", *binary.map { |value| value.unpack1("q>") })
said("filter", *rows(OWN, "SELECT name FROM #{TABLE} WHERE wage > $1", [0]))
OWN.prepare("wage", WAGE)
said("ten times", *10.times.map { OWN.exec_prepared("wage", ["max"]).getvalue(0, 0) })
many = rows(OWN, "SELECT x FROM thousands")
said("thousands", many.size, many.sum(&:to_i))
ENV["REFUSED"].each_line(chomp: true) do |line|
  step, statement = line.split("\t")
  said(step, code { OWN.exec(statement) })
end
said("null", code { OWN.exec_params(INSERT, [nil, 1]) })
said("line feed", code { OWN.exec_params(INSERT, ["a\nb", 1]) })
said("no number", code { OWN.exec_params(INSERT, ["x", "seven"]) })
said("goes on", *rows(OWN, WAGE, ["Bo"]))
OWN.exec("BEGIN")
said("in a block", code { OWN.exec_params(INSERT, ["in a block", 1]) }, code { OWN.exec("SELECT * FROM few") })
OWN.exec("ROLLBACK")
OWN.transaction { said("a block of queries", *rows(OWN, "SELECT * FROM few")) }
change("grant", "GRANT SELECT ON #{TABLE} TO reader")
there = connected("reader")
said("two users", *rows(OWN, WAGE, ["Bo"]), *rows(there, WAGE, ["Bo"]), code { there.exec("DELETE FROM #{TABLE}") })
change("revoke", "REVOKE SELECT ON #{TABLE} FROM reader")
said("moment", OWN.parameter_status("sysr.moment"))
said("export", *rows(OWN, "EXPORT 1"))
said("checkpoints", *rows(OWN, "CHECKPOINTS"))
said("wrong password", code { connected(USER, "wrong") })

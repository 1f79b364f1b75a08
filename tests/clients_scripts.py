"""The shell of the Python client on scripts: standard input, `-f` and `-c`; its forms, commands and statuses."""
import os
import re
import subprocess
import sys
import tempfile

from clients_served import PACKAGE, PAY, SOURCE, connected, settled
from bavgusen.shell import grammar
from clients_fakes import Fake, says
from served import WAIT, Server, free_port

ROOT = os.path.dirname(os.path.dirname(PACKAGE))
HELP_LINES = 13


def started(folder, *more):
    """The words and the environment of a shell whose home is this folder."""
    env = {"PATH": os.environ.get("PATH", ""), "HOME": folder, "PYTHONPATH": SOURCE, "PYTHONDONTWRITEBYTECODE": "1",
        "TERM": "dumb", "INPUTRC": os.devnull}
    return [sys.executable, "-m", "bavgusen.shell", *more], env


def piped(given, *more, folder=tempfile.gettempdir(), **told):
    """Status, output and error of a shell that is not on a terminal, and is told more by its environment."""
    command, env = started(folder, *more)
    env.update(told)
    given = given if isinstance(given, bytes) else "".join(line + "\n" for line in given).encode()
    done = subprocess.run(command, input=given, env=env, cwd=folder, capture_output=True, timeout=WAIT)
    return done.returncode, done.stdout.decode().splitlines(), done.stderr.decode().splitlines()


SCRIPT = f"""{PAY};
-- A line that begins with two hyphens is passed over.
insert into PAY values
    ('Bo, jr', -5);  INSERT INTO pay VALUES ('é€', 1000)

; SELECT * FROM pay; SELECT *
FORM pay;
INSERT INTO pay VALUES ('a;b', 1, 2);
INSERT INTO pay VALUES ('open
GRANT SELECT (name) ON pay TO bob; CHECKPOINT; \\conninfo
SELECT wage FROM pay WHERE name = 'it''s; --'"""
SHOWN = ["done @1", "done @2", "done @3", "name   | wage", "-------+-----", "Bo, jr |   -5", "é€     | 1000",
    "(2 rows) @3", "done @4", "checkpoint 1 begun @4", "a session of ann with the server at 127.0.0.1, port {port}",
    "wage", "----", "(0 rows) @4"]
FAILED = ["error 4 at 9: not expected", "FORM pay;", "^", "refused @3: 3 values for 2 columns",
    "error 6 at 24: open text", "INSERT INTO pay VALUES ('open", 24 * " " + "^"]
PLACES = {0: 7, 3: 8, 4: 9}
WRITTEN = ["done @5", "rows 2 @5", 'row,"Bo, jr",-5', "row,é€,1000", "denied @5: no table x"]


def scripts(program, check):
    """A script of standard input, and one of a file: statements end with `;`, and what fails is told with its line."""
    server = Server(program, 3)
    ann = ["-h", "127.0.0.1", "-p", str(server.port), "-U", "Ann"]
    seen = piped(SCRIPT.encode(), *ann)
    told = [f"sysr-shell: <stdin>:{PLACES[n]}: {line}" if n in PLACES else line for n, line in enumerate(FAILED)]
    shown = [line.format(port=server.port) for line in SHOWN]
    check("a script of standard input", seen == (0, shown, told), seen)
    with tempfile.TemporaryDirectory() as folder:
        with open(os.path.join(folder, "more.sql"), "wb") as file:
            file.write(b"DELETE FROM pay WHERE wage = 7;\r\nSELECT *\r\nFROM pay;\n;SELECT * FROM x;")
        seen = piped([], *ann, "--raw", "-f", "more.sql", folder=folder)
        check("a script of a file, as it is written", seen == (0, WRITTEN, []), seen)
        seen = piped(["\\i more.sql", "\\i nothing.sql", "\\q", "CHECKPOINT"], *ann, "--stop-on-error", folder=folder)
        told = "sysr-shell: more.sql:4: denied @6: no table x"
        check("a script that stops", seen[0] == 3 and seen[1][0] == "done @6" and seen[2][0] == told, seen)
    ended = server.end()
    check("scripts: the end", ended == (0, b"served 3\n", []), ended)


def said(program, check):
    """`-c` carries out what it is given, and ends with status 1 at what fails; `--csv` gives rows alone."""
    server = Server(program, 12)
    ann = ["-p", str(server.port), "-U", "ann"]
    bob = ["-p", str(server.port), "-U", "bob", "--csv"]
    given = [f"{PAY}; INSERT INTO pay VALUES ('Bo, \"jr\"', -5)", "GRANT SELECT ON pay TO bob"]
    seen = piped([], *ann, "-c", given[0], "-c", given[1])
    check("-c", seen == (0, ["done @1", "done @2", "done @3"], []), seen)
    rows = ["name,wage", '"Bo, ""jr""",-5']
    seen = piped([], *ann, "--csv", "-c", f"CREATE TABLE u (x TEXT); INSERT INTO u VALUES (''); INSERT INTO u VALUES "
        "('\\.'); SELECT x FROM u; CHECKPOINT")
    check("what CSV has in quotes", seen == (0, ["x", '""', '"\\."'], []), seen)
    with connected(server, "bob") as session:
        settled(session)
    seen = piped([], *bob, "-c", "SELECT name, wage FROM pay;")
    check("rows as CSV", seen == (0, rows, []), seen)
    seen = piped([], *bob, "-c", "SELECT * FROM pay")
    check("rows without names", seen == (0, ["column1,column2", rows[1]], []), seen)
    seen = piped([], *bob, "-c", "EXPORT 1; CHECKPOINTS")
    wanted = [*rows, "state,number,point,left", "finished,1,6,"]
    check("an export as CSV", seen == (0, wanted, ["sysr-shell: u is withheld: point"]), seen)
    seen = piped([], *ann, "--csv", "-c", "EXPORT 1")
    check("tables as CSV", seen == (0, [*rows, "", "x", '""', '"\\."'], []), seen)
    seen = piped(["SELECT x FROM u"], *bob, "-c", "SELECT * FROM u; SELECT name FROM pay", "-c", "SELECT wage FROM pay")
    check("-c ends at what fails", seen == (1, [], ["sysr-shell: denied @6: bob lacks SELECT(x) on u"]), seen)
    seen = piped(["SELECT x FROM u;", "SELECT wage FROM pay"], *bob, "-c", "SELECT name FROM pay", "-f", "-")
    told = ["sysr-shell: <stdin>:1: denied @6: bob lacks SELECT(x) on u"]
    check("-c, and then standard input", seen == (0, ["name", rows[1].rsplit(",", 1)[0], "wage", "-5"], told), seen)
    seen = piped(b"DELETE FROM pay \xff; SELECT name FROM pay", *ann)
    told = "sysr-shell: <stdin>:1: a statement with a lone surrogate, at 16, cannot be sent"
    check("what is no UTF-8", seen == (0, ["name", "--------", 'Bo, "jr"', "(1 row) @6"], [told]), seen)
    seen = piped([], *ann, "-c", "INSERT INTO pay VALUES ('" + 4100 * " " + "', 1)")
    check("a line that is too long", seen[:2] == (1, []) and seen[2][0].endswith("error 2 at 4096: too long"), seen)


def statuses(program, check):
    """How the shell ends where it cannot begin, or is left by its server or its reader."""
    for more, told in ((["--user", "select"], "keyword"), (["--user", "1"], "no name"), (["--port", "x"], "port"),
            (["--port", "65536"], "65535"), (["now"], "now")):
        status, out, err = piped([], *more)
        check(f"refused: {more}", status == 2 and not out and told in err[-1], (status, out, err))
    status, out, err = piped([], "--help")
    check("--help", status == 0 and "-c STATEMENTS" in "".join(out) and not err, (status, out, err))
    seen = piped(["CHECKPOINTS"], "--port", str(free_port()), "--user", "ann")
    check("nobody listens", seen[:2] == (2, []) and "no connection" in seen[2][0], seen)
    fake = Fake(says(b"done @1\n", b"do"))
    seen = piped([f"{PAY};{PAY};{PAY}"], "--port", str(fake.port), "--user", "ann")
    told = "sysr-shell: the server ended the session in the middle of a line"
    check("left by the server", seen == (2, ["done @1"], [told]), seen)
    fake = Fake(says(b"export 1 point 3 @4\ntable,pay,x\nrow,1\nexport cut: no memory\n", b"checkpoints 0 @4\n"))
    seen = piped(["EXPORT 1;", "CHECKPOINTS;"], "-p", str(fake.port), "-U", "ann", "--csv")
    wanted = (0, ["x", "1", "state,number,point,left"], ["sysr-shell: <stdin>:1: export cut: no memory"])
    check("an export that is cut", seen == wanted, seen)
    for option in (["--journal", "nothing.journal"], ["-f", "nothing.sql"]):
        server = Server(program, 1)
        seen = piped([], "-p", str(server.port), "-U", "ann", *option)
        check(f"no file: {option}", seen == (1, [], [f"sysr-shell: {option[1]}: No such file or directory"]), seen)
    server = Server(program, 1)
    command, env = started("/", "--port", str(server.port), "--user", "ann")
    reader, writer = os.pipe()
    os.close(reader)
    done = subprocess.run(command, input=b"CHECKPOINTS\n", env=env, stdout=writer, stderr=subprocess.PIPE, timeout=WAIT)
    os.close(writer)
    check("a closed pipe", (done.returncode, done.stderr) == (1, b""), done)


WHY = """eve lacks SELECT on pay @10
  @6 di -> eve, fell @10                line 6: di: GRANT SELECT ON pay TO eve
    by this REVOKE                      line 11: ann: REVOKE SELECT ON pay FROM bob
    of @3 ann -> bob, with option       line 3: ann: GRANT SELECT ON pay TO bob WITH GRANT OPTION
    so @4 bob -> cy, with option, fell  line 4: bob: GRANT SELECT ON pay TO cy WITH GRANT OPTION
    so @5 cy -> di, with option, fell   line 5: cy: GRANT SELECT ON pay TO di WITH GRANT OPTION
    so this one fell
    @7 ann -> di did not keep @6: it has no option, and is not earlier""".split("\n")
# Who holds what behind these lines, by the rules of "Rights", in the order of the moments.
RIGHTS = """table | user | privilege    | option | since | by
------+------+--------------+--------+-------+----
pay   | ann  | OWNER        | yes    | 1     |
pay   | di   | SELECT(name) | no     | 7     | ann
pay   | di   | SELECT(wage) | no     | 7     | ann
pay   | bob  | UPDATE(wage) | yes    | 8     | ann
pay   | bob  | INSERT       | yes    | 8     | ann
pay   | eve  | UPDATE(wage) | no     | 9     | bob
(6 rights)""".split("\n")


def a_journal(folder):
    """The first eleven lines of the example of "Rights explained", as a server's journal, and its path."""
    path = os.path.join(folder, "journal")
    with open(os.path.join(ROOT, "examples", "who-reads-pay.txt"), encoding="utf-8") as lines, open(
            path, "w", encoding="utf-8") as file:
        file.writelines([*lines][:11])
    return path


def by_the_journal(program, check):
    """`\\why` gives what "Rights explained" has of its example; `\\d` and `\\rights` give what the journal has."""
    server = Server(program, 3)
    ann = ["-p", str(server.port), "-U", "ann"]
    with tempfile.TemporaryDirectory() as folder:
        more = ["--journal", a_journal(folder), "--sysr", program]
        given = ["\\d", "\\d pay", "\\why eve SELECT pay;", "\\rights", "\\dp nothing", "\\why eve",
            "\\why bob READ pay"]
        status, out, err = piped(given, *ann, *more, folder=folder)
        known = ["table | owner | columns", "------+-------+------------------------",
            "pay   | ann   | name TEXT, wage INTEGER",
            "(1 table, in the journal, or seen in the session; the server lists none)", "Table pay, owned by ann",
            "column | type", "-------+--------", "name   | TEXT", "wage   | INTEGER", "(2 columns)"]
        check("by the journal", (status, out) == (0, [*known, *WHY, *RIGHTS]), (status, out))
        told = ["sysr-shell: <stdin>:5: sysr: no table nothing",
            "sysr-shell: <stdin>:6: \\why USER PRIVILEGE TABLE, as in \\why bob SELECT (wage) pay"]
        check("by the journal: no answers", err[:2] == told and err[2].startswith("sysr-shell: <stdin>:7: "), err)
        seen = piped([], *ann, *more[:2], "--sysr", "nothing/sysr", "-c", "\\rights", folder=folder)
        told = "sysr-shell: nothing/sysr: No such file or directory: begin the shell with --sysr PROGRAM"
        check("no program", seen == (1, [], [told]), seen)
        seen = piped([], *ann, "-c", "\\rights", folder=folder)
        told = "sysr-shell: this is told from the server's journal: begin the shell with --journal FILE"
        check("no journal", seen == (1, [], [told]), seen)


def tables_of_others(program, check):
    """With the server's journal columns are named and typed that another session made meanwhile."""
    with tempfile.TemporaryDirectory() as folder:
        journal = os.path.join(folder, "journal")
        server = Server(program, 2, more=["--journal", journal])
        with connected(server, "ann") as ann:
            ann.execute(PAY, check=True)
            command, env = started(folder, "-p", str(server.port), "-U", "bob", "--journal", journal)
            shell = subprocess.Popen(command, env=env, stdin=subprocess.PIPE, stdout=subprocess.PIPE)
            shell.stdin.write(b"CHECKPOINTS;\n")
            shell.stdin.flush()
            [shell.stdout.readline() for _ in range(3)]
            for line in ("CREATE TABLE t (x TEXT, n INTEGER)", "INSERT INTO t VALUES ('a', 10)",
                    "INSERT INTO t VALUES ('b', 5)", "GRANT SELECT ON t TO bob"):
                ann.execute(line, check=True)
            seen = shell.communicate(b"SELECT * FROM t; \\d\n", timeout=WAIT)[0].decode().splitlines()
        wanted = ["x |  n", "--+---", "a | 10", "b |  5", "(2 rows) @5", "table | owner | columns",
            "------+-------+------------------------", "pay   | ann   | name TEXT, wage INTEGER",
            "t     | ann   | x TEXT, n INTEGER",
            "(2 tables, in the journal, or seen in the session; the server lists none)"]
        check("tables of others", seen == wanted, seen)


def commands(program, check):
    """The commands that need no journal."""
    server = Server(program, 4)
    port = ["-p", str(server.port)]
    with tempfile.TemporaryDirectory() as folder:
        given = ["CREATE TABLE t (x TEXT, n INTEGER); CHECKPOINT;", "\\d U", "\\c bob", "CREATE TABLE u (x INTEGER);",
            "SELECT * FROM t", "\\d;", ";", "\\c select", "\\i"]
        seen = piped(given, *port, "-U", "ann", folder=folder)
        wanted = ["done @1", "checkpoint 1 begun @1",
            f"a session of bob with the server at 127.0.0.1, port {server.port}", "done @2", "table | owner | columns",
            "------+-------+------------------", "t     | ann   | x TEXT, n INTEGER", "u     | bob   | x INTEGER",
            "(2 tables, seen in the session; the server lists none)"]
        told = ["sysr-shell: <stdin>:2: the columns of u are not known here",
            "sysr-shell: <stdin>:5: denied @2: bob lacks SELECT(x) on t",
            "sysr-shell: <stdin>:8: no name: 'select' is a keyword", "sysr-shell: <stdin>:9: \\i FILE"]
        check("tables, and another user", seen == (0, wanted, told), seen)
        exported(folder, port, check)
    check("\\h and LANGUAGE", *as_language_has_it())


def exported(folder, port, check):
    """`\\checkpoints` and `\\export`, to the screen and to a file, which is new."""
    with open(os.path.join(folder, "round.sql"), "w", encoding="utf-8") as file:
        file.write("\\i round.sql\n")
    given = ["\\checkpoints", *2 * ["\\export 1 export.txt"], "\\export 1", "\\export 2 x", "\\nothing",
        "\\i round.sql", "\\timing", "\\?", "\\q", "CHECKPOINT;"]
    status, out, err = piped(given, *port, "-U", "ann", "--raw", folder=folder)
    lines = ["export 1 point 1 @2", "table,t,x,n", "end 1"]
    wanted = ["checkpoints 1 @2", "finished,1,1", "3 lines to export.txt", *lines, "timing is on"]
    good = (status, out[:-HELP_LINES]) == (0, wanted) and out[-1].startswith("  \\q ")
    check("commands", good, (status, out))
    seen = piped(["\\export 2", "CHECKPOINTS"], *port, "-U", "ann", "--raw", "--stop-on-error", folder=folder)
    check("a command that stops a script", seen == (3, ["denied @2: no checkpoint 2"], []), seen)
    wanted = ["sysr-shell: <stdin>:3: export.txt: File exists", "sysr-shell: <stdin>:5: denied @2: no checkpoint 2",
        "sysr-shell: <stdin>:6: no command \\nothing: \\? lists them",
        "sysr-shell: round.sql:1: round.sql: files that include files, more than 16 deep"]
    check("commands that cannot be", err == wanted, err)
    with open(os.path.join(folder, "export.txt"), encoding="utf-8") as file:
        check("an export in a file", file.read().splitlines() == lines, folder)


def as_language_has_it():
    """Whether the grammar of `\\h` is LANGUAGE's, rule by rule, and what it has else."""
    with open(os.path.join(ROOT, "docs", "LANGUAGE.md"), encoding="utf-8") as file:
        text = re.sub(r"\n +\|", " |", file.read().partition("## Grammar")[2].partition("\n## ")[0])
    rules = [line.strip() for line in text.split("\n") if re.match(r" {4}\w+ +=", line)]
    told = grammar.GRAMMAR.split("\n")
    return rules[2:] == told and len(told) == 18, [pair for pair in zip(rules[2:], told) if pair[0] != pair[1]]


TESTS = (scripts, said, statuses, by_the_journal, tables_of_others, commands)

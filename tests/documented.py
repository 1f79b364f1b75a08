"""What the documents show of moving on: commands with what they write, and lines for other programs.

A command stands behind `$`, and below it what it writes, standard output and error. The commands of a section are
carried out one after another, in a folder of their own in which `./sysr`, `tools` and `examples` are found as at the
top of the repository. A block of lines that its text gives a file's name to (`FILE has these lines:`) is that file.
"""
import contextlib
import dataclasses
import importlib.util
import json
import os
import re
import shutil
import sqlite3
import subprocess
import sys
import tempfile

ROOT = os.path.dirname(os.path.dirname(os.path.abspath(__file__)))
WAIT = 600
NAMED = re.compile(r"`([\w.-]+)` has these lines")
OTHER_PROGRAMS = "Exports and rights in other programs"
SECTIONS = (
    ("docs/FROM-SQL.md", "Beyond one machine"),
    ("docs/FROM-SQL.md", "Tables that go along"),
    ("docs/FROM-SQL.md", "Moving to PostgreSQL, and looking at one"),
    ("docs/WHY.md", "Asking your own PostgreSQL"),
)


@dataclasses.dataclass
class Block:
    """A block of a document: its heading, its language, its lines, and the line with text above it."""

    heading: str
    language: str
    lines: list
    above: str


def blocks_of(path):
    with open(os.path.join(ROOT, path), encoding="utf-8") as file:
        lines = iter(file.read().split("\n"))
    heading = above = ""
    for line in lines:
        if line.startswith("## "):
            heading = line[3:]
        elif line.startswith("```"):
            yield Block(heading, line[3:], [*iter(lambda: next(lines), "```")], above)
        above = line or above


def shown_commands(block):
    """Each command with the lines that it writes."""
    found = []
    for line in block.lines:
        if line.startswith("$ "):
            found.append((line[2:], []))
        else:
            found[-1][1].append(line)
    return found


def folder_like_the_top(work):
    for name in ("sysr", "tools", "examples"):
        os.symlink(os.path.join(ROOT, name), os.path.join(work, name))


def carried_out(tools, path, heading, environment, superuser):
    """The commands of a section write what it shows, a superuser's name apart."""
    with tempfile.TemporaryDirectory() as work:
        folder_like_the_top(work)
        more = {**os.environ, **environment, "PATH": work + os.pathsep + os.environ["PATH"]}
        for block in blocks_of(path):
            if name := NAMED.search(block.above):
                with open(os.path.join(work, name[1]), "w", encoding="utf-8") as sink:
                    sink.writelines(line + "\n" for line in block.lines)
            is_shown = block.heading == heading and block.lines[0].startswith("$ ")
            for command, lines in shown_commands(block) if is_shown else ():
                done = subprocess.run(command, shell=True, cwd=work, env=more, timeout=WAIT,
                    stdout=subprocess.PIPE, stderr=subprocess.STDOUT)
                wanted = [line.replace('"postgres"', f'"{superuser}"') for line in lines]
                tools.same("documented", f"{path}: {command}", done.stdout.decode().splitlines(), wanted)


def commands(tools, superuser):
    """The sections about PostgreSQL, each in the database as the one before was found."""
    words = dict(zip(tools.connection[::2], tools.connection[1::2]))
    environment = {"PGHOST": words["-h"], "PGUSER": words["-U"], "PGDATABASE": words["-d"]}
    for path, heading in SECTIONS:
        before = tools.counts["documented"]
        carried_out(tools, path, heading, environment, superuser)
        tools.check(f"{path}: {heading} shows commands", tools.counts["documented"] > before, before)
        tools.clear()


SCRIPT = r"""ann: CREATE TABLE pay (name TEXT, wage INTEGER)
ann: INSERT INTO pay VALUES ('', -9223372036854775808)
ann: INSERT INTO pay VALUES ('NA', 9223372036854775807)
ann: INSERT INTO pay VALUES ('Bo, "jr"', 0)
ann: INSERT INTO pay VALUES ('007', 7)
ann: INSERT INTO pay VALUES (' \N null ü', 8)
ann: GRANT SELECT (name) ON pay TO null, na WITH GRANT OPTION
ann: CHECKPOINT
ann: CHECKPOINTS
ann: EXPORT 1
"""

# What other programs find of it, rights in the order of users.
PAY = [["", -9223372036854775808], ["NA", 9223372036854775807], ['Bo, "jr"', 0], ["007", 7], [" \\N null ü", 8]]
RIGHTS = [["pay", "ann", "OWNER", "yes", "1", ""], ["pay", "na", "SELECT(name)", "yes", "7", "ann"],
    ["pay", "null", "SELECT(name)", "yes", "7", "ann"]]

PANDAS = """import json, pandas
{}
print(json.dumps([pay.values.tolist(), sorted(rights.values.tolist())]))"""

DUCKDB = """import duckdb, json
for line in {!r}:
    duckdb.sql(line)
queries = "SELECT * FROM pay", 'SELECT * FROM rights ORDER BY "user"'
print(json.dumps([[["" if value is None else value for value in row] for row in duckdb.sql(query).fetchall()]
    for query in queries]))"""


def read_elsewhere(tools):
    """The lines for sqlite3, pandas and DuckDB find what is in an export, and the rights of its journal."""
    files, *others = (block for block in blocks_of("docs/FROM-SQL.md") if block.heading == OTHER_PROGRAMS)
    texts = {block.language: "\n".join(block.lines) for block in others}
    tools.check("read elsewhere: all are shown", [*texts] == ["sh", "python", "sql"], texts)
    with tempfile.TemporaryDirectory() as work:
        folder_like_the_top(work)
        exported(tools, work, "\n".join(files.lines))
        if shutil.which("sqlite3"):
            by_sqlite(tools, work, texts["sh"])
        else:
            print("no sqlite3: its lines read no export")
        of_duckdb = DUCKDB.format(texts["sql"].split("\n"))
        for name, text in (("pandas", PANDAS.format(texts["python"])), ("duckdb", of_duckdb)):
            if importlib.util.find_spec(name):
                by_python(tools, work, name, text)
            else:
                print(f"no {name}: its lines read no export")


def exported(tools, work, text):
    """Makes the files that the lines read, by the document's own commands."""
    with open(os.path.join(work, "pay.journal"), "w", encoding="utf-8") as file:
        file.write(SCRIPT)
    with open(os.path.join(work, "export.txt"), "wb") as sink:
        subprocess.run([tools.program, "run"], input=SCRIPT.encode(), stdout=sink, check=True, timeout=WAIT)
    done = subprocess.run(text, shell=True, cwd=work, timeout=WAIT, capture_output=True)
    tools.same("read elsewhere", "files", (done.returncode, done.stdout, done.stderr), (0, b"", b""))


def by_sqlite(tools, work, text):
    done = subprocess.run(text, shell=True, cwd=work, timeout=WAIT, capture_output=True)
    with contextlib.closing(sqlite3.connect(os.path.join(work, "pay.db"))) as database:
        pay, rights = (database.execute(query).fetchall() for query in (
            "SELECT * FROM pay", "SELECT * FROM rights ORDER BY user"))
    seen = done.returncode, done.stderr, [*map(list, pay)], [*map(list, rights)]
    tools.same("read elsewhere", "sqlite3", seen, (0, b"", PAY, RIGHTS))


def by_python(tools, work, name, text):
    done = subprocess.run([sys.executable, "-c", text], cwd=work, timeout=WAIT, capture_output=True)
    seen = json.loads(done.stdout) if done.returncode == 0 else done.stderr.decode()
    tools.same("read elsewhere", name, seen, [PAY, RIGHTS])

"""Journals, dumps and loading: what was kept makes the same tables, rows and rights again.

What a script leaves is asked for by probes that change nothing: of each user whether he may select each column, insert
into, delete from and update each table, and of each column's rows by the owner. Moments are left out of the answers,
since a dump has fewer changes than what it was made of.
"""
import os
import random
import re
import subprocess
import tempfile
import threading
import time

import rights_by_chance
from one_history import replies
from reading import COLUMNS, LONGEST_NAME, left_out_of, left_out_told, line_of
from rights import BY_COLUMN
from served import Server, Session

KILLS = 200
WAIT = 60
LINES = ["o: CREATE TABLE t (x INTEGER)", "o: INSERT INTO t VALUES (1)"]
INSERTS = ["CREATE TABLE t (x INTEGER)", *(f"INSERT INTO t VALUES ({n})" for n in range(20_000))]
NAMES = re.compile(r"[A-Za-z][A-Za-z0-9_]*")
CREATED = re.compile(r"(\w+): CREATE TABLE (\w+) \((.*)\)$")
INSERTED = re.compile(r"(\w+): INSERT INTO (\w+) VALUES \((.*)\)$")
GRANTED = re.compile(r"(\w+): GRANT (.*) ON (\w+) TO ([\w, ]*?)( WITH GRANT OPTION)?$")
PRIVILEGE = re.compile(r"(SELECT|INSERT|DELETE|UPDATE)(?: \(([^)]*)\))?")
MOMENT = re.compile(r"@\d+")


def values(text):
    """The literals of an INSERT: numbers, and texts with their quotes taken off."""
    for found in re.finditer(r"'((?:[^']|'')*)'|(-?\d+)", text):
        yield int(found[2]) if found[2] else found[1].replace("''", "'")


class Dumped:
    """What the lines of a dump say, read by hand: tables, rows, and single grants in their order."""

    def __init__(self, lines):
        self.tables, self.rows, self.owners, self.grants = {}, {}, {}, []
        for line in lines:
            created, inserted, granted = (form.match(line) for form in (CREATED, INSERTED, GRANTED))
            if created:
                owner, table, columns = created.groups()
                self.owners[table], self.rows[table] = owner, []
                self.tables[table] = [tuple(column.split()) for column in columns.split(", ")]
            elif inserted:
                owner, table, row = inserted.groups()
                assert owner == self.owners[table], line
                self.rows[table].append([*values(row)])
            else:
                self.grant(*granted.groups())

    def grant(self, by, privileges, table, users, option):
        for word, columns in PRIVILEGE.findall(privileges):
            listed = columns.split(", ") if columns else [name for name, _ in self.tables[table]]
            rights = [f"{word}({column})" for column in listed] if word in BY_COLUMN else [word]
            self.grants += [(by, (table, right), to, bool(option)) for right in rights for to in users.split(", ")]


def probes(users, dumped):
    """Statements that change nothing, and whose answers tell rows and rights."""
    for table, columns in dumped.tables.items():
        many = ", ".join(["0"] * 32) if len(columns) < 32 else "0"
        for user in users:
            yield f"{user}: SELECT * FROM {table}"
            yield f"{user}: INSERT INTO {table} VALUES ({many})"
            for name, kind in columns:
                other = "'x'" if kind == "INTEGER" else "0"
                yield f"{user}: SELECT {name} FROM {table}"
                yield f"{user}: UPDATE {table} SET {name} = {other}"
            yield f"{user}: DELETE FROM {table}" + f" WHERE {columns[0][0]} = " + (
                "'x'" if columns[0][1] == "INTEGER" else "0")


def as_bytes(lines):
    return "".join(line + "\n" for line in lines).encode()


class Records:
    """The program, a folder for files, and a check."""

    def __init__(self, program, check, folder):
        self.program, self.check, self.folder = program, check, folder

    def path(self, name):
        return os.path.join(self.folder, name)

    def file(self, name, text):
        with open(self.path(name), "wb") as file:
            file.write(text)
        return self.path(name)

    def run(self, words, given=b""):
        done = subprocess.run([self.program, *words], input=given, capture_output=True, timeout=WAIT)
        return done.returncode, done.stdout, done.stderr

    def told(self, name, words, given=b"", left_out=b""):
        """What it writes, where it ends well, and tells on standard error what was left out."""
        status, out, err = self.run(words, given)
        self.check(name, (status, err) == (0, left_out), (status, err))
        return out

    def ends(self, name, words, given, wanted):
        """It ends with this status, output and error."""
        seen = self.run(words, given)
        self.check(name, seen == wanted, seen)

    def is_written(self, name, path, lines):
        with open(path, "rb") as file:
            text = file.read()
        self.check(name, text == as_bytes(lines), text)

    def left_out(self, given, answers):
        """What is told of the lines of a script that say no change which is done."""
        lines = given.decode(errors="replace").split("\n")[:-1]
        heads = replies(answers.decode(errors="replace").split("\n")[:-1])
        return as_bytes(f"sysr: {line}" for line in left_out_told(left_out_of(lines, heads)))

    def is_kept(self, name, words, given):
        """A script's journal and its dump make what the script left, and are their own journal and dump."""
        before = self.told(name, ["run", *words], given)
        left_out = self.left_out(given, before)
        journal = self.told(f"{name}: journal", ["journal"], given, left_out)
        dump = self.told(f"{name}: dump", ["dump"], given, left_out)
        self.check(f"{name}: its journal again", self.told(name, ["journal"], journal) == journal, journal[:400])
        for kept in (journal, dump):
            again = self.told(f"{name}: run again", ["run"], kept)
            lines = kept.count(b"\n")
            self.check(f"{name}: all is done", again == as_bytes(f"done @{m + 1}" for m in range(lines)), again[-400:])
            self.check(f"{name}: its dump again", self.told(name, ["dump"], kept) == dump, dump[:400])
        dumped = Dumped(dump.decode().splitlines())
        users = sorted({line.partition(":")[0].lower() for line in (given + dump).decode(errors="ignore").split("\n")
            if NAMES.fullmatch(line.partition(":")[0])})
        users += sorted({to for _, _, to, _ in dumped.grants} - set(users))
        asked = as_bytes(probes(users, dumped))
        wanted = self.told(name, ["run", *words], given + asked)
        for kind, kept in (("journal", journal), ("dump", dump)):
            loaded = self.told(f"{name}: {kind} loaded", ["run", "--load", self.file(kind, kept)], asked)
            head, _, answers = loaded.partition(b"\n")
            self.check(f"{name}: {kind} told", head == f"loaded {kept.count(10)} changes".encode(), head)
            same = MOMENT.sub("", answers.decode()) == MOMENT.sub("", wanted[len(before):].decode())
            self.check(f"{name}: the same rows and rights by {kind}", same, answers[:400])
        return journal, dumped

    def kept_when_killed(self, name, killed):
        """The journal has each change that was told, and perhaps more, and the front of one."""
        path = self.file("killed", b"")
        told, most = killed(path)
        with open(path, "rb") as file:
            kept = file.read()
        whole = kept[:kept.rfind(b"\n") + 1]
        changes = whole.count(b"\n")
        seen = self.run(["run", "--load", self.file("whole", whole)], b"o: SELECT * FROM t\n")
        rows = b"denied @0: no table t\n" if changes == 0 else as_bytes(
            [f"rows {changes - 1} @{changes}", *(f"row,{n}" for n in range(changes - 1))])
        wanted = 0, f"loaded {changes} changes\n".encode() + rows, b""
        self.check(f"{name}: what is kept is loaded", seen == wanted, seen[1][:200])
        self.check(f"{name}: each change that was told is kept", told <= changes <= most, (told, changes))

    def kills(self):
        chance = random.Random(1978)
        for n in range(KILLS):
            late = chance.uniform(0, 0.012)
            self.kept_when_killed(f"kill {n} of a server", lambda path: self.server_killed(path, late))
        for n in range(KILLS // 4):
            late = chance.uniform(0, 0.012)
            self.kept_when_killed(f"kill {n} of a script", lambda path: self.script_killed(path, late))

    def script_killed(self, path, late):
        """How many changes were told when a script's program was killed, and the most that may be kept.

        (A script's replies are handed on before more is read, so many changes may be kept and not yet told.)
        """
        with tempfile.TemporaryFile() as given:
            given.write(as_bytes(f"o: {line}" for line in INSERTS))
            given.seek(0)
            words = [self.program, "run", "--journal", path]
            child = subprocess.Popen(words, stdin=given, stdout=subprocess.PIPE)
            time.sleep(late)
            child.kill()
            out = child.communicate(timeout=WAIT)[0]
        return out.count(b"\n"), len(INSERTS)

    def server_killed(self, path, late):
        """How many changes were told when a server was killed, and the most that may be kept."""
        server = Server(self.program, None, more=["--journal", path])
        session = Session(server, "o")
        threading.Timer(late, server.child.kill).start()
        told = 0
        try:
            for line in INSERTS:
                if session.ask(line) != f"done @{told + 1}\n":
                    break
                told += 1
        except OSError:
            pass
        session.reader.close()
        session.client.close()
        server.child.communicate(timeout=WAIT)
        return told, told + 1


def long_lines(records):
    """A line is kept in canonical form where that has at most 4,096 bytes, and else with no blank that may go."""
    user, columns = 30 * "u", ", ".join(f"c{n} TEXT" for n in range(4))
    created = f"{user}: CREATE TABLE w ({columns})"
    for size, is_canonical in ((4096, False), (4092, False), (4091, True)):
        texts = size - len(f"{user}:INSERT INTO w VALUES('','','','')")
        literals = ["'" + (texts // 4 + (n < texts % 4)) * "x" + "'" for n in range(4)]
        line = f"{user}:INSERT INTO w VALUES({','.join(literals)})"
        canonical = f"{user}: INSERT INTO w VALUES ({', '.join(literals)})"
        records.check(f"a line of {size}", len(line) == size, len(line))
        journal = records.told(f"a line of {size}, kept", ["journal"], as_bytes([created, line]))
        wanted = as_bytes([created, canonical if is_canonical else line])
        records.check(f"a line of {size} is kept as it should be", journal == wanted, journal[-80:])
        dump = records.told(f"a line of {size}, dumped", ["dump"], journal)
        records.check(f"a line of {size} is dumped so too", dump == wanted, dump[-80:])


def loading(records):
    """What a file may not say."""
    created = b"o: CREATE TABLE t (x INTEGER)\n"
    for name, text, why in (
        ("denied", created + b"a: INSERT INTO t VALUES (1)\n", "line 2: denied @1: a lacks INSERT on t"),
        ("refused", created + b"o: INSERT INTO t VALUES (1, 2)\n", "line 2: refused @1: 2 values for 1 columns"),
        ("no change", created + b"o: SELECT * FROM t\n", "line 2: no change"),
        ("a fault", b"\n", "line 1: error 1 at 0: empty"),
        ("not expected", created + b"o: CREATE t\n", "line 2: error 4 at 10: not expected"),
        ("cut", created + b"o: INSERT INTO t VALUES (12", "line 2: cut off"),
        ("cut, though it says a change", created + b"o: DELETE FROM t", "line 2: cut off"),
        ("a second mark", b"\xef\xbb\xbf" + created + b"\xef\xbb\xbfo: DELETE FROM t\n", "line 2: error 4 at 0: not expected"),
    ):
        path = records.file("bad", text)
        records.ends(f"a file: {name}", ["run", "--load", path], b"o: CHECKPOINTS\n",
            (1, b"", f"sysr: {path}: {why}\n".encode()))
    path = records.file("marked", b"\xef\xbb\xbf" + created)
    records.ends("a byte order mark", ["run", "--load", path], b"o: SELECT * FROM t\n",
        (0, b"loaded 1 changes\nrows 0 @1\n", b""))
    path = records.file("empty", b"")
    records.ends("an empty file", ["run", "--load", path], b"", (0, b"loaded 0 changes\n", b""))
    path = records.path("missing")
    records.ends("a missing file", ["run", "--load", path], b"", (1, b"", f"sysr: {path}: cannot be read\n".encode()))
    path = records.path("")
    records.ends("a folder", ["run", "--load", path], b"", (1, b"", f"sysr: {path}: read fault\n".encode()))


def long_lines_loaded(records):
    """A file's line may have a statement of 4,096 bytes behind the longest name."""
    for user, size, fault_at in ((LONGEST_NAME, 4097, None), (LONGEST_NAME, 4127, None), ("o", 4098, None),
            (LONGEST_NAME, 4128, 4127), ("o", 4099, 4098), (LONGEST_NAME, 4129, 4128), ("o", 9000, 4128)):
        lines = [f"{user}: CREATE TABLE w {COLUMNS}", line_of(user, size)]
        path = records.file("long", as_bytes(lines))
        told = f"sysr: {path}: line 2: error 2 at {fault_at}: too long\n".encode()
        wanted = (1, b"", told) if fault_at else (0, b"loaded 2 changes\n", b"")
        records.ends(f"a line of {size} loaded", ["run", "--load", path], b"", wanted)


def journals(records):
    """Where a journal is written, and where not."""
    created, inserted = (as_bytes([line]) for line in LINES)
    path = records.path("journal-of-run")
    records.ends("a journal is begun", ["run", "--journal", path], b"O:create table T(X integer)\n\no: SELECT * FROM t\n",
        (0, b"done @1\nerror 1 at 0: empty\nrows 0 @1\n", b""))
    records.ends("one that has something is not gone on with", ["run", "--journal", path], b"",
        (1, b"", f"sysr: {path}: is not empty\n".encode()))
    records.ends("unless it is loaded", ["run", "--load", path, "--journal", path, "--audit"], inserted,
        (0, b"loaded 1 changes\ndone @2\naudit ok 0\n", b""))
    records.is_written("what was loaded is not written again", path, LINES)
    other = records.path("journal-of-another")
    records.ends("a journal of what came after a file", ["run", "--load", path, "--journal", other], inserted,
        (0, b"loaded 2 changes\ndone @3\n", b""))
    records.is_written("it has what came after", other, LINES[1:])
    if os.path.exists("/dev/full"):
        records.ends("a full disk", ["run", "--journal", "/dev/full"], created + inserted,
            (1, b"", b"sysr: journal fault\n"))
        records.ends("a full disk where nothing changes", ["run", "--journal", "/dev/full"], b"o: CHECKPOINTS\n",
            (0, b"checkpoints 0 @0\n", b""))
    path = os.path.join(records.path("no-folder"), "journal")
    records.ends("no folder", ["run", "--journal", path], b"", (1, b"", f"sysr: {path}: cannot be written\n".encode()))
    records.ends("a dump behind a file", ["dump", "--load", other.replace("another", "run")], inserted,
        (0, created + 2 * inserted, b""))


def served(records):
    """A server that writes a journal, goes on with it, and leaves a dump."""
    path, dump = records.path("journal-of-serve"), records.path("dump-of-serve")
    created, granted = "CREATE TABLE t (x INTEGER)", "GRANT SELECT ON t TO bob"
    server = Server(records.program, 1, more=["--journal", path, "--dump", dump])
    session = Session(server, "ann")
    answers = [session.ask(line) for line in (created, "INSERT INTO t VALUES (1)", "SELECT * FROM u", "DELETE FROM t", granted)]
    session.end()
    wanted = ["done @1\n", "done @2\n", "denied @2: no table u\n", "done @3\n", "done @4\n"]
    records.check("a server with a journal", answers == wanted, answers)
    ended = server.end()
    records.check("a server with a journal ends", ended == (0, b"served 1\n", []), ended)
    records.is_written("the journal of a server", path, ["ann: " + line for line in (
        created, "INSERT INTO t VALUES (1)", "DELETE FROM t", granted)])
    records.is_written("the dump of a server", dump, ["ann: " + created, "ann: GRANT SELECT (x) ON t TO bob"])
    server = Server(records.program, 2, more=["--load", path, "--journal", path, "--audit"])
    said = server.told_first()
    wanted = [b"loaded 4 changes\n", f"listening on {server.port}\n".encode()]
    records.check("a server that loads says so, and listens", said == wanted, said)
    for user, line, answer in (("bob", "SELECT * FROM t", "rows 0 @4\n"), ("ann", "INSERT INTO t VALUES (2)", "done @5\n")):
        session = Session(server, user)
        said = session.ask(line)
        records.check(f"a loaded server answers {user}", said == answer, said)
        session.end()
    ended = server.end()
    records.check("a loaded server ends", ended == (0, b"served 2\naudit ok 1\n", []), ended)
    records.is_written("it goes on with its journal", path, ["ann: " + line for line in (
        created, "INSERT INTO t VALUES (1)", "DELETE FROM t", granted, "INSERT INTO t VALUES (2)")])


def served_without_room(records):
    """A change that cannot be kept is not told, and its session ends; others are answered, and at its end the program says
    that it was not kept."""
    if not os.path.exists("/dev/full"):
        return
    server = Server(records.program, 2, more=["--journal", "/dev/full"])
    first, second = Session(server, "ann"), Session(server, "bob")
    seen = [second.ask("CHECKPOINTS"), first.ask("CREATE TABLE t (x INTEGER)"), second.ask("CHECKPOINTS")]
    records.check("what cannot be kept is not told", seen == ["checkpoints 0 @0\n", "", "checkpoints 0 @1\n"], seen)
    second.end()
    ended = server.end()
    records.check("a server without room ends", ended[0] == 1 and ended[2][-1:] == ["sysr: journal fault"], ended)


def by_chance(records):
    """The dump of rights by chance has the grants in force that a replay has, in their order."""
    for seed, model, _ in rights_by_chance.scripts():
        dumped = records.is_kept(f"rights by chance {seed}", ["--chunk", "1"], as_bytes(model.given))[1]
        in_force = [(g.by, g.atom, g.to, g.option) for g in model.rights.in_force(model.moment)]
        records.check(f"rights by chance {seed}: grants", dumped.grants == in_force, dumped.grants[:3])
        rows = {name: table.rows for name, table in model.tables.items()}
        records.check(f"rights by chance {seed}: rows", dumped.rows == rows, dumped.rows)
        records.check(f"rights by chance {seed}: owners", dumped.owners == model.rights.owners, dumped.owners)


def played(program, check, examples):
    """Examples are names with their words and their lines."""
    with tempfile.TemporaryDirectory() as folder:
        records = Records(program, check, folder)
        for name, words, given in examples:
            records.is_kept(name, [word for word in words if word not in ("run", "--audit")], given)
        by_chance(records)
        long_lines(records)
        loading(records)
        long_lines_loaded(records)
        journals(records)
        served(records)
        served_without_room(records)
        records.kills()

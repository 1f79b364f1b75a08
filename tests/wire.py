"""PostgreSQL's protocol 3.0 at the program, message by message, with Python's library alone. What is expected is what
the protocol's own pages and docs/FROM-ANY-CLIENT.md say.
"""
import os
import tempfile

import scram
from served import Server, Session
from wire_messages import (CANCEL, FLUSH, GSS, SSL, SYNC, TERMINATE, VERSION, Wire, bind, close, columns_of, describe,
    execute, fields_of, first_message, int16, int32, int64, message, parse, query, row_of, startup, welcomed)

READY = ("Z", b"I")
PARSED, BOUND, CLOSED, NO_ROWS = ("1", b""), ("2", b""), ("3", b""), ("n", b"")
ALL, WAGES, INSERT = "SELECT * FROM pay", "SELECT wage FROM pay", "INSERT INTO pay VALUES ($1, $2)"
PAY = [("name", 25, -1, 0), ("wage", 20, 8, 0)]
BO, CY = ("D", [b"Bo, jr", b"-5"]), ("D", [b"Cy's", b"7"])
EMILE = "Émile 😀 $1".encode()


def plain(messages):
    """Messages as one reads them: errors by severity, code and place, rows by their values, and no moments."""
    told = []
    for kind, body in messages:
        if kind in b"EN":
            read = fields_of(body)
            told.append((kind.decode(), read["S"], read["C"], read.get("P")))
        elif kind == b"D":
            told.append(("D", row_of(body)))
        elif kind == b"T":
            told.append(("T", columns_of(body)))
        elif kind == b"C":
            told.append(tag(body[:-1].decode()))
        elif kind != b"S":
            told.append((kind.decode(), body))
    return told


def tag(text):
    return "C", text


def error(code, place=None):
    return "E", "ERROR", code, place


def fatal(code):
    return [("E", "FATAL", code, None)]


def numbers(*types):
    """A ParameterDescription."""
    return "t", int16(len(types)) + b"".join(map(int32, types))


def moments(messages):
    statuses = [body.split(b"\0")[:2] for kind, body in messages if kind == b"S"]
    return [text.decode() for name, text in statuses if name == b"sysr.moment"]


class Asking:
    """A session of this user, of whose answers each is a check."""

    def __init__(self, port, check, user):
        self.check, self.wire = check, welcomed(port, user)

    def query(self, statement, *wanted, status=b"I"):
        seen = self.wire.query(statement)
        self.check(f"wire: {statement[:40]}", plain(seen) == [*wanted, ("Z", status)], plain(seen))
        return seen

    def messages(self, name, *sent, wanted, status=b"I"):
        """These and a Sync."""
        seen = plain(self.wire.ask(*sent, SYNC))
        self.check(f"wire: {name}", seen == [*wanted, ("Z", status)], seen[-20:])

    def __enter__(self):
        return self

    def __exit__(self, *_):
        self.wire.end()


def ends(port, check, name, sent, wanted):
    """What is told of a first message is this, and the end."""
    with Wire(port, sent) as wire:
        seen = plain(wire.to_end())
        check(f"wire: {name}", wanted(seen), seen)


def is_refused_start(seen):
    return len(seen) == 1 and seen[0][:2] == ("E", "FATAL") and seen[0][2] in ("08P01", "28000")


def beginnings(port, check):
    with Wire(port, first_message(SSL)) as wire:
        seen = [wire.read_no()[0]]
        wire.send(first_message(GSS))
        seen.append(wire.read_no()[0])
        told = wire.ask(startup("ann"))
        check("wire: no encryption", seen == [b"N", b"N"], seen)
        settings = dict(body.rstrip(b"\0").split(b"\0") for kind, body in told if kind == b"S")
        wanted = {b"client_encoding": b"UTF8", b"integer_datetimes": b"on", b"standard_conforming_strings": b"on"}
        good = told[0] == (b"R", int32(0)) and plain(told[-1:]) == [READY] and wanted.items() <= settings.items()
        check("wire: a start", good and b"server_version" in settings and b"DateStyle" in settings, told)
    ends(port, check, "a cancel is closed", first_message(CANCEL, int32(1) + int32(2)), lambda seen: seen == [])
    for name, sent in (("no user", first_message(VERSION, b"\0")), ("a bad name", startup("no name")),
            ("another version", first_message(VERSION + 65536, b"\0")),
            ("a long start", int32(1029) + int32(VERSION)), ("a short start", int32(7))):
        ends(port, check, name, sent, is_refused_start)


def rows_and_changes(port, check):
    with Asking(port, check, "ann") as ann:
        seen = ann.query("CREATE TABLE pay (name TEXT, wage INTEGER)", tag("CREATE TABLE"))
        check("wire: the moment", moments(seen) == ["1"], moments(seen))
        ann.query("INSERT INTO pay VALUES ('Bo, jr', -5)", tag("INSERT 0 1"))
        ann.query("\n INSERT INTO pay\r\n\tVALUES ('Cy''s', 7);\n", tag("INSERT 0 1"))
        ann.query(ALL, ("T", PAY), BO, CY, tag("SELECT 2"))
        ann.query("SELECT wage FROM pay WHERE wage > 0", ("T", PAY[1:]), ("D", [b"7"]), tag("SELECT 1"))
        ann.query("UPDATE pay SET wage = 8 WHERE wage = 7", tag("UPDATE"))
        ann.query("DELETE FROM pay WHERE wage = 8", tag("DELETE"))
        ann.query("", ("I", b""))
        ann.query(" ;; ", ("I", b""))
        ann.query("SELECT wage FROM pay; SELECT name FROM pay", ("T", PAY[1:]), ("D", [b"-5"]), tag("SELECT 1"),
            ("T", PAY[:1]), ("D", [b"Bo, jr"]), tag("SELECT 1"))
        ann.query("CHECKPOINT", ("N", "NOTICE", "00000", None), tag("CHECKPOINT"))
        ann.wire.send(TERMINATE)
        check("wire: the end", ann.wire.to_end() == [], "more")


def errors(port, check):
    with Asking(port, check, "ann") as ann:
        for statement, code, *place in (
            ("SELECT * FROM none", "42P01"),
            ("SELECT no FROM pay", "42703"),
            ("CREATE TABLE pay (a TEXT)", "42P07"),
            ("INSERT INTO pay VALUES (1, 2)", "42804"),
            ("INSERT INTO pay VALUES ('x')", "42601"),
            ("SELEC 1", "42601", "1"),
            ("SELECT * FROM pay WHERE näme = 1", "42601", "26"),
            ("SELECT * FROM pay WHERE wage = 99999999999999999999", "22003", "32"),
            ("SELECT * FROM pay WHERE wage = $1", "42P02"),
            ("INSERT INTO pay VALUES ('a', 1); SELECT * FROM pay", "0A000"),
            (";".join(["SELECT 1"] * 17), "54000"),
        ):
            ann.query(statement, error(code, *place))
        ann.query("SELECT * FROM pay; ä", ("T", PAY), BO, tag("SELECT 1"), error("42601", "20"))
    with Asking(port, check, "bob") as bob:
        bob.query(ALL, error("42501"))
        told = fields_of(bob.wire.query(WAGES)[0][1])["M"]
        check("wire: a denial is our line", told == "denied @5: bob lacks SELECT(wage) on pay", told)
        bob.query("EXPORT 9", error("42704"))
        bob.messages("a denial at Parse", parse(WAGES), describe(kind=b"S"), wanted=[error("42501")])
        bob.wire.send(TERMINATE)
        check("wire: the end", bob.wire.to_end() == [], "more")


def blocks(port, check):
    with Asking(port, check, "ann") as ann:
        told = []
        for statement in ("BEGIN", WAGES, "INSERT INTO pay VALUES ('a', 1)", WAGES, "COMMIT", WAGES,
                "SET application_name = 'x'", "SET search_path = 'x'", "SHOW transaction_isolation", "SAVEPOINT a",
                "SELECT 1", "DEALLOCATE ALL", "DISCARD ALL"):
            *_, last, (_, status) = plain(ann.wire.query(statement))
            told.append((last[2] if last[0] == "E" else last[1], status))
        wanted = [("BEGIN", b"T"), ("SELECT 1", b"T"), ("25001", b"E"), ("25P02", b"E"), ("ROLLBACK", b"I"),
            ("SELECT 1", b"I"), ("SET", b"I"), ("42704", b"I"), ("SHOW", b"I"), ("0A000", b"I"), ("SELECT 1", b"I"),
            ("DEALLOCATE ALL", b"I"), ("DISCARD ALL", b"I")]
        check("wire: blocks and words of sessions", told == wanted, told)


def values_bound(port, check):
    with Asking(port, check, "ann") as ann:
        ann.messages("values", parse(INSERT), bind([b"D'); DROP", b"12"]), describe(), execute(),
            wanted=[PARSED, BOUND, NO_ROWS, tag("INSERT 0 1")])
        ann.messages("a binary number", parse(INSERT, types=(0, 20)), bind([EMILE, int64(-9)], formats=(0, 1)),
            execute(), wanted=[PARSED, BOUND, tag("INSERT 0 1")])
        ann.messages("a statement described", parse("SELECT name, wage FROM pay WHERE wage < $1 AND name <> $2", "s"),
            describe("s", b"S"), wanted=[PARSED, numbers(20, 25), ("T", PAY)])
        ann.messages("results in binary", bind([b"0", b"x"], "s", "p", results=(1,)), describe("p"), execute("p"),
            wanted=[BOUND, ("T", [("name", 25, -1, 1), ("wage", 20, 8, 1)]), ("D", [b"Bo, jr", int64(-5)]),
                ("D", [EMILE, int64(-9)]), tag("SELECT 2")])
        rows = [("D", [b"-5"]), ("D", [b"12"]), ("D", [b"-9"])]
        ann.messages("rows by parts", parse(WAGES), bind(portal="q"), execute("q", 2), execute("q", 2), execute("q"),
            wanted=[PARSED, BOUND, *rows[:2], ("s", b""), rows[2], tag("SELECT 3"), error("55000")])
        ann.messages("an empty statement", parse(""), bind(), describe(), execute(),
            wanted=[PARSED, BOUND, NO_ROWS, ("I", b"")])
        ann.messages("a name that is taken", parse(WAGES, "s"), wanted=[error("42P05")])
        ann.messages("closed", close("s"), close("q", b"P"), describe("s", b"S"),
            wanted=[CLOSED, CLOSED, error("26000")])
        ann.wire.send(parse(WAGES), describe(kind=b"S"), FLUSH)
        seen = b"".join(ann.wire.read()[0] for _ in range(3))
        check("wire: Flush", seen == b"1tT", seen)


def not_bound(port, check):
    with Asking(port, check, "ann") as ann:
        for name, statement, values, formats, code in (
            ("NULL", INSERT, [None, b"1"], (), "22004"),
            ("too few values", INSERT, [b"a"], (), "08P01"),
            ("a text for a number", "INSERT INTO pay VALUES ('a', $1)", [b"a"], (), "22P02"),
            ("no UTF-8", "INSERT INTO pay VALUES ($1, 1)", [b"\xff"], (), "22021"),
            ("a format that is none", "INSERT INTO pay VALUES ($1, 1)", [b"a"], (7,), "08P01"),
        ):
            ann.messages(name, parse(statement), bind(values, formats=formats), execute(), wanted=[PARSED, error(code)])
        ann.messages("no such statement", bind(name="none"), execute(), wanted=[error("26000")])
        ann.messages("no such portal", execute("none"), describe(), wanted=[error("34000")])
        ann.messages("an unknown type", parse("SELECT wage FROM pay WHERE wage = $1", types=(16,)),
            wanted=[error("42704")])
        ann.messages("a fault", parse("SELEC $1"), bind([b"1"]), wanted=[error("42601", "1")])


def types_as_they_were_told(port, check):
    """A place's number is the one that Parse told, but for 0 and "unknown", and for the places behind the last."""
    with Asking(port, check, "ann") as ann:
        for told, seen in (((1043, 20), (1043, 20)), ((25, 21), (25, 21)), ((1043, 23), (1043, 23)),
                ((0, 23), (25, 23)), ((705, 0), (25, 20)), ((1043,), (1043, 20)), ((), (25, 20))):
            ann.messages(f"types {told}", parse(INSERT, types=told), describe(kind=b"S"),
                wanted=[PARSED, numbers(*seen), NO_ROWS])
        # (as JDBC sends a batch)
        batch = [bind([name, int64(0)], formats=(0, 1)) + describe() + execute() for name in ("m0", "m1")]
        ann.messages("a batch", parse(INSERT, types=(1043, 20)), describe(kind=b"S"), *batch,
            wanted=[PARSED, numbers(1043, 20), NO_ROWS, *2 * [BOUND, NO_ROWS, tag("INSERT 0 1")]])
        ann.query("DELETE FROM pay WHERE wage = 0", tag("DELETE"))


def statements_dropped(port, check):
    """DEALLOCATE finds a name in any case, and one that begins with "_", which is no word of the language."""
    with Asking(port, check, "ann") as ann:
        for name, drop in (("s1", "deallocate PREPARE S1;"), ("_pg3_0", "DEALLOCATE _pg3_0")):
            ann.messages(f"{name} by Query", parse(WAGES, name), wanted=[PARSED])
            ann.query(drop, tag("DEALLOCATE"))
            ann.query(drop, error("26000"))
            ann.messages(f"{name} by Execute", parse(WAGES, name), parse(drop), bind(), describe(), execute(),
                wanted=[PARSED, PARSED, BOUND, NO_ROWS, tag("DEALLOCATE")])
            ann.messages(f"{name} is gone", bind((), name), wanted=[error("26000")])


def as_many_as_may_be(port, check):
    with Asking(port, check, "ann") as ann:
        many = [parse(WAGES, f"s{n}") for n in range(1_025)]
        ann.messages("1,024 statements", *many, wanted=[*[PARSED] * 1_024, error("54000")])
        ann.messages("each is kept", *(bind(name=f"s{n}") for n in range(1_024)), wanted=[BOUND] * 1_024)
        ann.messages("one for another", close("s7"), many[1_024], parse(WAGES, "s7"),
            wanted=[CLOSED, PARSED, error("54000")])
        ann.messages("8 portals", *(bind((), "s0", f"p{n}") for n in range(9)), wanted=[*[BOUND] * 8, error("54000")])


def portals_end_with_their_block(port, check):
    """COMMIT and ROLLBACK close all portals, by Query and by Execute; a Sync does so outside a block alone."""
    first, *others = ("D", [b"-5"]), ("D", [b"12"]), ("D", [b"-9"])
    bound, begins = bind(name="s", portal="p"), parse("BEGIN") + bind() + execute()
    with Asking(port, check, "ann") as ann:
        ann.messages("a statement that stays", parse(WAGES, "s"), wanted=[PARSED])
        for word, how in (("COMMIT", "Query"), ("COMMIT", "Execute"), ("ROLLBACK", "Query"), ("ROLLBACK", "Execute")):
            name = f"{word} by {how}"
            if how == "Query":
                ann.query("BEGIN", tag("BEGIN"), status=b"T")
                ann.messages(f"{name}: a portal", bound, wanted=[BOUND], status=b"T")
                ann.messages(f"{name}: goes on", execute("p", 1), wanted=[first, ("s", b"")], status=b"T")
                ann.query(word, tag(word))
            else:
                ann.messages(f"{name}: a portal", begins, bound, execute("p", 1),
                    wanted=[PARSED, BOUND, tag("BEGIN"), BOUND, first, ("s", b"")], status=b"T")
                ann.messages(name, parse(word), bind(portal="end"), execute("end"), execute("p"),
                    wanted=[PARSED, BOUND, tag(word), error("34000")])
            ann.messages(f"{name}: no portal is left", execute("p", 1), wanted=[error("34000")])
            ann.messages(f"{name}: its name is free", bound, execute("p"),
                wanted=[BOUND, first, *others, tag("SELECT 3")])
        ann.query("BEGIN", tag("BEGIN"), status=b"T")
        ann.messages("a portal's name is taken", bound, bound, wanted=[BOUND, error("42P03")], status=b"E")
        ann.query("COMMIT", tag("ROLLBACK"))
        ann.messages("behind a failed block its name is free", bound, wanted=[BOUND])
        # (as asyncpg does with a cursor in each of its transactions)
        seen = [plain(ann.wire.query("BEGIN") + ann.wire.ask(bound, execute("p", 1), SYNC) + ann.wire.query("COMMIT"))
            for _ in range(12)]
        wanted = [tag("BEGIN"), ("Z", b"T"), BOUND, first, ("s", b""), ("Z", b"T"), tag("COMMIT"), READY]
        check("wire: a portal in each of twelve blocks", seen == 12 * [wanted], seen)


def misuse(port, check):
    for name, sent in (("an unknown type", b"!\0\0\0\4"), ("a short length", b"Q\0\0\0\3"),
            ("a long length", b"Q" + int32(65_541)), ("a query without its end", message(b"Q", b"SELECT 1")),
            ("a password", message(b"p", b"x")), ("half a Bind", message(b"B", b"\0"))):
        with welcomed(port, "ann") as wire:
            wire.send(sent)
            seen = plain(wire.to_end())
            check(f"wire: {name}", seen == fatal("08P01"), seen)
    with Asking(port, check, "ann") as ann:
        ann.query(WAGES.ljust(65_535), error("54000"))
    whole = startup("ann") + query(WAGES) + parse(WAGES) + bind() + execute() + SYNC
    wanted = None
    for cut in range(len(whole) + 1):
        with Wire(port, whole[:cut]) as wire:
            wire.send(whole[cut:])
            seen = [wire.until_ready() for _ in range(3)]
        wanted = wanted or seen
        check(f"wire: cut at {cut}", seen == wanted, seen)


def beside_lines(server, check):
    """Both protocols at once on one core, and both at one port."""
    line = Session(server, "cy")
    with welcomed(server.port, "cy") as wire:
        seen = [line.ask("CREATE TABLE both (a INTEGER)").split()[0]]
        seen += plain(wire.query("INSERT INTO both VALUES (1)"))[:1]
        seen.append(line.ask("SELECT * FROM both").split()[:2])
        check("wire: lines and messages", seen == ["done", tag("INSERT 0 1"), ["rows", "1"]], seen)
        line.end()


def logs_in(port, check, user, password, good):
    with Wire(port) as wire:
        seen = wire.enter(user, password)
        last = plain(seen)[-1:]
        check(f"wire: a login of {user} by {password}", last == ([READY] if good else fatal("28P01")), seen)
        signed = [body[4:].decode() for kind, body in seen if kind == b"R" and body[:4] == int32(12)]
        check("wire: the server's signature", signed == ([wire.claim.wanted] if good else []), signed)


def logins(program, check):
    with tempfile.TemporaryDirectory() as work:
        users = os.path.join(work, "users")
        with open(users, "w", encoding="ascii") as file:
            for user, password in (("ann", "pencil"), ("bob", "pen")):
                file.write(f"{user}:{scram.verifier(password, os.urandom(16))}\n")
        os.chmod(users, 0o600)
        server = Server(program, None, more=["--users", users])
        for user, password, good in (("ann", "pencil", True), ("bob", "pen", True), ("ANN", "pencil", True),
                ("ann", "pen", False), ("bob", "pencil", False), ("eve", "pencil", False)):
            logs_in(server.port, check, user, password, good)
        for name, sent in (("a query before the login", query("CREATE TABLE t (a TEXT)")),
                ("a long message", b"p" + int32(1029))):
            with Wire(server.port) as wire:
                wire.ask_start(startup("ann"))
                wire.send(sent)
                seen = plain(wire.to_end())
                check(f"wire: {name}", seen == fatal("08P01"), seen)
        with welcomed(server.port, "ann", "pencil") as wire:
            seen = plain(wire.query("SELECT * FROM t"))
            check("wire: nothing was asked before", seen == [error("42P01"), READY], seen)
        Server.stop_all()


def played(program, check):
    server = Server(program, None)
    for part in (beginnings, rows_and_changes, errors, blocks, values_bound, not_bound, types_as_they_were_told,
            statements_dropped, as_many_as_may_be, portals_end_with_their_block, misuse):
        part(server.port, check)
    beside_lines(server, check)
    Server.stop_all()
    logins(program, check)

"""The Python client beside servers that say what the program says seldom or never.

They give each reply of docs/LANGUAGE.md, also those that want of memory or age brings; replies in pieces, replies that
are cut off, and what is no reply.
"""
import contextlib
import itertools
import socket
import struct
import threading
import time

from clients_served import connected, told
import bavgusen
from bavgusen import ActiveCheckpoint, Begun, Checkpoint, Checkpoints, Denied, Done, Fault, Refused, Rows
from bavgusen.wire import Wire
from served import WAIT, free_port

ENDED, GARBLED = bavgusen.ConnectionEnded, bavgusen.ProtocolError


class Fake(threading.Thread):
    """A server of one session: it welcomes its client, and does as its play says, with the socket and its lines."""

    def __init__(self, play, welcome=b"welcome ann\n"):
        super().__init__(daemon=True)
        self.play, self.welcome = play, welcome
        self.listener = socket.create_server(("127.0.0.1", 0))
        self.port = self.listener.getsockname()[1]
        self.start()

    def run(self):
        with self.listener, contextlib.suppress(OSError):
            client = self.listener.accept()[0]
            with client, client.makefile("rb") as lines:
                self.first = lines.readline()
                client.sendall(self.welcome)
                self.play(client, lines)


def says(*answers):
    """A play: to each line its answer, and then the end."""
    def play(client, lines):
        for answer in answers:
            lines.readline()
            client.sendall(answer)
        # (what comes behind is read, since to close before it would reset the connection)
        client.shutdown(socket.SHUT_WR)
        lines.read()
    return play


def answered(answer, statement="SELECT * FROM t", **more):
    """What a client makes of this answer, or the error that it raises, and whether its connection is closed then."""
    with connected(Fake(says(answer)), "ann") as session:
        return told(lambda: session.execute(statement, **more)), session.closed


REPLIES = (
    ("done @1000000", Done(1000000)),
    ("rows 2 @3\nrow,\nrow,Bo", Rows(3, None, [("",), ("Bo",)])),
    ('rows 1 @2\nrow,"Bo, jr",-5', Rows(2, None, [("Bo, jr", "-5")])),
    ('rows 1 @2\nrow,"a ""b"", c",,it\'s', Rows(2, None, [('a "b", c', "", "it's")])),
    ("checkpoint 1 begun @3", Begun(1, 3)),
    ("checkpoints 0 @0", Checkpoints(0, ())),
    ("checkpoints 3 @9\nfinished,1,3\nfinished,2,5\nactive,3,9,40",
        Checkpoints(9, (Checkpoint(1, 3), Checkpoint(2, 5)), ActiveCheckpoint(3, 9, 40))),
    ("error 4 at 9: not expected", Fault(4, 9, "not expected")),
    ("denied @3: bob lacks SELECT(wage) on pay", Denied(3, "bob lacks SELECT(wage) on pay")),
    ("refused @1000000: full: changes", Refused(1000000, "full: changes")),
    ("refused @3: busy", Refused(3, "busy")),
    ("refused @3: no memory", Refused(3, "no memory")),
    ("refused: no memory", Refused(None, "no memory")),
    ("refused: worn", Refused(None, "worn")),
)


def replies(program, check):
    """Each form of a reply, from its lines and back to them."""
    for text, wanted in REPLIES:
        seen = answered(text.encode() + b"\n")
        check(f"read: {text}", seen == (wanted, False), seen)
        seen = "\n".join(seen[0].lines())
        check(f"written again: {text}", seen == text, seen)


DENIALS = (
    ("no table t", "no table", {"table": "t"}),
    ("no table t at checkpoint 7", "no table", {"table": "t", "checkpoint": 7}),
    ("table t exists", "table exists", {"table": "t"}),
    ("no column c in t", "no column", {"column": "c", "table": "t"}),
    ("u lacks INSERT on t", "lacks", {"user": "u", "privilege": "INSERT", "table": "t"}),
    ("no lacks UPDATE(c) on t", "lacks", {"user": "no", "privilege": "UPDATE(c)", "table": "t"}),
    ("u may not grant DELETE on t", "may not grant", {"user": "u", "privilege": "DELETE", "table": "t"}),
    ("u granted no SELECT(c) on t to v", "granted no",
        {"user": "u", "privilege": "SELECT(c)", "table": "t", "grantee": "v"}),
    ("u granted no option for INSERT on t to v", "granted no option",
        {"user": "u", "privilege": "INSERT", "table": "t", "grantee": "v"}),
    ("no checkpoint 7", "no checkpoint", {"checkpoint": 7}),
    ("u lacked SELECT on t", "lacked", {"user": "u", "privilege": "SELECT", "table": "t"}),
    ("u now lacks SELECT on t", "now lacks", {"user": "u", "privilege": "SELECT", "table": "t"}),
    ("something new", None, {}),
)
PARTS = ("user", "privilege", "table", "column", "grantee", "checkpoint")


def reasons(program, check):
    """The reasons of denials and refusals, and the errors that they are."""
    for reason, kind, parts in DENIALS:
        reply = Denied(3, reason)
        seen = {part: getattr(reply, part) for part in PARTS if getattr(reply, part) is not None}
        check(f"denied: {reason}", (reply.kind, seen) == (kind, parts), (reply.kind, seen))
    for text, error in (("2 values for 1 columns", bavgusen.MisfitError), ("column c takes TEXT", bavgusen.MisfitError),
            ("full: grants", bavgusen.UnavailableError), ("busy", bavgusen.UnavailableError)):
        seen = answered(f"refused @3: {text}\n".encode(), check=True)
        check(f"refused: {text}", seen == (error, False), seen)
    with connected(Fake(says(*2 * [b"refused: worn\n"])), "ann") as session:
        seen = [session.execute("DELETE FROM t").is_worn, told(lambda: session.execute("DELETE FROM t", check=True))]
        check("worn turns", seen == [True, bavgusen.UnavailableError], seen)
    seen = [told(reply.raise_for_reply) for reply in (Denied(3, "no table t"), Done(1))]
    check("raised later", seen == [bavgusen.DeniedError, Done(1)], seen)


def in_pieces(program, check):
    """A reply may come byte by byte, with long lines, or with the next one behind it."""
    text = 'rows 2 @2\nrow,"é, €",5\nrow,😀,6\n'.encode()

    def play(client, lines):
        lines.readline()
        for at in range(len(text)):
            client.sendall(text[at:at + 1])
            time.sleep(0.001)
        lines.readline()
        client.sendall(b"rows 1 @2\nrow," + 60_000 * b"x" + b"\n")

    with connected(Fake(play), "ann") as session:
        seen = session.execute("SELECT a, b FROM t", columns={"b": int})
        check("byte by byte", seen == Rows(2, ("a", "b"), [("é, €", 5), ("😀", 6)]), seen)
        seen = session.execute("SELECT a FROM t")
        check("a long line", seen == Rows(2, ("a",), [(60_000 * "x",)]), len(seen.rows[0][0]))


NO_REPLIES = (
    b"rows 2 @3\nrow,1\n", b"rows 1 @3\nrow,1", b"done @", b"checkpoints 1 @3\n", b"", b"export 1 point 3",
    b"error 4 at 0",
)
GARBAGE = (
    b"HTTP/1.1 400 Bad Request\r\n", b"\n", b"done 5\n", b"done @5 \n", b"done @\xd9\xa1\n", b"rows 1 @3\ndone @3\n",
    b"rows 2 @3\nrow,1\nrow,1,2\n", b'rows 1 @3\nrow,"x\n', b"checkpoints 1 @3\nrow,1\n", b"error x at 0: empty\n",
    b"checkpoints 2 @3\nactive,1,3,5\nfinished,2,3\n", b"rows 1 @3\nrow,\xff\n", b"welcome ann\n",
    b"export cut: no memory\n", (1 << 21) * b"x",
)


def cut_off(program, check):
    """A reply that is cut off, or none at all, is an error, and closes the connection."""
    for text in NO_REPLIES:
        seen = answered(text)
        check(f"cut off: {text}", seen == (ENDED, True), seen)
    for text in GARBAGE:
        seen = answered(text)
        check(f"no reply: {text[:40]}", seen == (GARBLED, True), seen)

    with connected(Fake(says(b"done @1\ndone @2\n", b"done @3\n")), "ann") as session:
        seen = [session.execute("DELETE FROM t"), told(lambda: session.execute("DELETE FROM t")), session.closed]
        check("what answers nothing", seen == [Done(1), GARBLED, True], seen)

    def reset(client, lines):
        lines.readline()
        client.setsockopt(socket.SOL_SOCKET, socket.SO_LINGER, struct.pack("ii", 1, 0))

    for play in (reset, says(), says(b"done @1\n", b"done @2\n")):
        with connected(Fake(play), "ann") as session:
            replies = session.pipeline(f"INSERT INTO t VALUES ({n})" for n in itertools.count())
            seen = told(lambda: [*replies]), session.closed, told(lambda: session.execute("CHECKPOINTS"))
            check("ended in an endless pipeline", seen == (ENDED, True, bavgusen.InterfaceError), seen)
            replies.close()
    said = "".join(f"done @{n}\n" for n in range(1, 1001)).encode()
    with connected(Fake(lambda client, lines: (lines.readline(), client.sendall(said))), "ann") as session:
        replies, seen = session.pipeline(f"INSERT INTO t VALUES ({n})" for n in range(1000)), []
        error = told(lambda: seen.extend(replies))
        check("what came before the end is read", seen == [Done(n) for n in range(1, 1001)], (error, len(seen)))


def deaf(program, check):
    """A server that takes no more has its last replies read, before it is told that it ended."""
    client, server = socket.socketpair()
    server.sendall(b"done @1\ndone @2\n")
    server.close()
    with bavgusen.Connection(Wire(client, WAIT), "ann", bavgusen.Tables()) as session:
        replies = session.pipeline("DELETE FROM t" for _ in range(1_000_000))
        seen = [told(lambda: next(replies)) for _ in range(3)]
        check("the last replies of a server", seen == [Done(1), Done(2), ENDED] and session.closed, seen)
        check("no statements for nobody", replies.taken < 10_000, replies.taken)


def beginnings(program, check):
    """How a session cannot begin."""
    for welcome, wanted in (
        (b"error 4 at 0: not expected\n", bavgusen.FaultError), (b"", ENDED), (b"welcome", ENDED),
        (b"welcome bob\n", GARBLED), (b"220 mail.example ESMTP\r\n", GARBLED),
    ):
        fake = Fake(says(), welcome)
        seen = told(lambda: connected(fake, "Ann"))
        fake.join(WAIT)
        check(f"a first answer {welcome}", (seen, fake.first) == (wanted, b"USER ann\n"), (seen, fake.first))
    port = free_port()
    seen = told(lambda: bavgusen.connect("127.0.0.1", port, "ann"))
    check("nobody listens", seen == ENDED, seen)
    seen = [told(lambda: bavgusen.connect("127.0.0.1", port, "ann")) for port in (0, 65536, "80")]
    check("no port", seen == 3 * [bavgusen.ProgrammingError], seen)
    with socket.create_server(("127.0.0.1", 0)) as busy:
        seen = told(lambda: bavgusen.connect("127.0.0.1", busy.getsockname()[1], "ann", timeout=0.05))
        check("no worker is free", seen == bavgusen.TimedOut, seen)


def timeouts(program, check):
    """A server that says nothing, or takes nothing, for as long as the timeout: the connection is closed."""
    over = threading.Event()
    half = b"rows 2 @2\nrow,1\n"
    for play in (
        lambda client, lines: over.wait(WAIT),
        lambda client, lines: (lines.readline(), client.sendall(half), over.wait(WAIT)),
    ):
        with connected(Fake(play), "ann") as session:
            session.timeout = 0.05
            start = time.monotonic()
            seen = told(lambda: session.execute("SELECT * FROM t")), session.closed
            took = time.monotonic() - start
            check("silent for too long", seen == (bavgusen.TimedOut, True) and took > 0.04, (seen, took))
    with connected(Fake(lambda client, lines: over.wait(WAIT)), "ann") as session:
        session.timeout = 0.05
        seen = told(lambda: [*session.pipeline(1_000_000 * ["DELETE FROM t"])]), session.closed
        check("takes nothing", seen == (bavgusen.TimedOut, True), seen)
    over.set()
    check("a time-out is Python's too", issubclass(bavgusen.TimedOut, TimeoutError), bavgusen.TimedOut)


def slow_export(program, check):
    """A row is handed out before the next one has come; what is cut is told so in its place."""
    asked = threading.Semaphore(1)

    def play(client, lines):
        lines.readline()
        client.sendall(b"export 1 point 3 @4\ntable,pay,name\n")
        for n in range(3):
            asked.acquire(timeout=WAIT)
            client.sendall(f"row,n{n}\n".encode())
        client.sendall(b"withheld,secret,point\ntable,other,a,b\nend 1\n")
        for _ in range(3):
            lines.readline()
            client.sendall(b"export 2 point 3 @4\ntable,pay,name\nrow,n0\nexport cut: no memory\n")
        lines.readline()
        client.sendall(b"done @5\n")

    with connected(Fake(play), "ann") as session:
        export, seen = session.export(1), []
        for table in export:
            for row in table if table.withheld is None else ():
                seen.append(row)
                asked.release()
            if table.name == "pay":
                seen.append(table.columns)
        check("rows as they come", seen == [("n0",), ("n1",), ("n2",), ("name",)] and export.is_whole, seen)
        cut_exports(session, check)
        seen = session.execute("DELETE FROM t")
        check("the session goes on behind a cut", seen == Done(5), seen)


def cut_exports(session, check):
    """Of three exports that are cut: read row by row, table by table, and as lines."""
    export, seen = session.export(2), []
    error = told(lambda: seen.extend(next(export)))
    check("cut among rows", (seen, error) == ([("n0",)], bavgusen.ExportCut) and not export.is_whole, (seen, error))
    export = session.export(2)
    seen = [next(export).name, told(lambda: next(export)), export.is_whole]
    check("cut among tables", seen == ["pay", bavgusen.ExportCut, False], seen)
    export, seen = session.export(2), []
    error = told(lambda: seen.extend(export.lines()))
    wanted = ["export 2 point 3 @4", "table,pay,name", "row,n0", "export cut: no memory"]
    check("cut among lines", (seen, error) == (wanted, bavgusen.ExportCut), (seen, error))


def interrupts(program, check):
    """An interrupt while a reply is awaited closes the connection, so that the rest of it answers nothing else."""
    over = threading.Event()
    for answer, ask in (
        (b"rows 2 @3\nrow,1\n", lambda session: session.execute("SELECT x FROM t")),
        (b"rows 2 @3\nrow,1\n", lambda session: [*session.pipeline(2 * ["SELECT x FROM t"])]),
        (b"export 1 point 3 @3\ntable,t,x\nrow,1\n", lambda session: [[*table] for table in session.export(1)]),
    ):
        play = lambda client, lines: (lines.readline(), client.sendall(answer), over.wait(WAIT))
        with connected(Fake(play), "ann") as session:
            wait, waits = session._wire._wait, itertools.count()

            def interrupted():
                if next(waits) == 1:
                    raise KeyboardInterrupt
                wait()

            session._wire._wait = interrupted
            with contextlib.suppress(KeyboardInterrupt):
                check(f"interrupted: {answer}", False, ask(session))
            seen = session.closed, told(lambda: session.execute("CHECKPOINTS"))
            check(f"closed by an interrupt: {answer}", seen == (True, bavgusen.InterfaceError), seen)
    over.set()


BROKEN_EXPORTS = (
    (b"table,t,x\nrow,1\n", ENDED), (b"table,t,x\nrow,1,2\nend 1\n", GARBLED), (b"row,1\nend 1\n", GARBLED),
    (b"table,t\nend 1\n", GARBLED), (b"withheld,t\nend 1\n", GARBLED), (b"table,t,x\ndone @3\n", GARBLED),
    (b"end 2\n", GARBLED), (b'table,t,x\nrow,"1\nend 1\n', GARBLED),
)


def broken_exports(program, check):
    """Exports that end too early, or have what belongs to none."""
    for text, wanted in BROKEN_EXPORTS:
        with connected(Fake(says(b"export 1 point 3 @3\n" + text)), "ann") as session:
            seen = told(lambda: [[*each] for each in session.export(1)]), session.closed
            check(f"a broken export: {text}", seen == (wanted, True), seen)
    with connected(Fake(says(b"export 1 point 3 @3\ntable,t,x\nrow,1\n")), "ann") as session:
        export = session.export(1)
        session.close()
        seen = [told(lambda: next(export)), told(lambda: session.execute("CHECKPOINTS")), export.close()]
        check("an export of a closed connection", seen == 2 * [bavgusen.InterfaceError] + [None], seen)


TESTS = (replies, reasons, in_pieces, cut_off, deaf, beginnings, timeouts, slow_export, broken_exports,
    interrupts)

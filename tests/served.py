"""`sysr serve`, spoken to over loopback: sessions, checkpoints, misuse by clients, and what it says at its end."""
import contextlib
import re
import socket
import struct
import subprocess
import threading
import time

WAIT = 60


def free_port():
    with socket.socket() as taken:
        taken.bind(("127.0.0.1", 0))
        return taken.getsockname()[1]


READ = re.compile(rb"read \d+ bytes in \d+ ms\n")


class Server:
    """A server for so many sessions, which listens: at a free port, where none is given."""

    running = []

    def __init__(self, program, sessions, workers=2, port=None, chunk=None, more=(), **started):
        words = ["--workers", str(workers)] if workers else []
        words += ["--sessions", str(sessions)] if sessions else []
        words += ["--chunk", str(chunk)] if chunk else []
        words += more
        pipes = {"stdout": subprocess.PIPE, "stderr": subprocess.PIPE, **started}
        # (another process may take the port first)
        for _ in range(50):
            self.port = port or free_port()
            self.child = subprocess.Popen([program, "serve", "--port", str(self.port), *words], **pipes)
            self.listening = self.child.stdout.readline()
            if self.listening:
                break
            self.said = self.child.communicate(timeout=WAIT)[1]
            time.sleep(0.1)
        self.running.append(self.child)

    def told_first(self):
        """What it says of the file that it loads, but for how long that took, and that it listens."""
        said = [self.listening]
        while said[-1] and not said[-1].startswith(b"listening"):
            line = self.child.stdout.readline()
            if not READ.fullmatch(line):
                said.append(line)
        return said

    def connect(self):
        return socket.create_connection(("127.0.0.1", self.port), timeout=WAIT)

    def end(self):
        """Status, what it said at its end, and its lines of faults."""
        out, err = self.child.communicate(timeout=WAIT)
        return self.child.returncode, out, err.decode().splitlines()

    @classmethod
    def stop_all(cls):
        """Ends the servers that still run."""
        while cls.running:
            child = cls.running.pop()
            if child.poll() is None:
                child.kill()
                child.communicate(timeout=WAIT)


class Session:
    """A session of this user, who reads what he is answered before he asks more."""

    def __init__(self, server, user):
        self.client = server.connect()
        self.reader = self.client.makefile("rb")
        self.welcome = self.ask(f"USER {user}")

    def send(self, text):
        self.client.sendall(text.encode())

    def line(self):
        return self.reader.readline().decode()

    def ask(self, line):
        """The first line of the answer."""
        self.send(line + "\n")
        return self.line()

    def lists(self, pause):
        """The lines of each list of checkpoints, until none is active."""
        late = time.monotonic() + WAIT
        while True:
            head = self.ask("CHECKPOINTS")
            lines = [self.line() for _ in range(int(head.split()[1]))]
            yield lines
            if time.monotonic() > late or not any(line.startswith("active,") for line in lines):
                return
            time.sleep(pause)

    def settled(self):
        """The list of checkpoints when none is active any more, or the last that was seen."""
        *_, last = self.lists(0.005)
        return last

    def export(self, number):
        """The lines of an export, with its end if it has one."""
        lines = [self.ask(f"EXPORT {number}")]
        while lines[-1].startswith(("export ", "table,", "row,", "withheld,")):
            lines.append(self.line())
        return lines

    def end(self):
        """What is read after the last line was sent."""
        self.client.shutdown(socket.SHUT_WR)
        rest = self.reader.read().decode()
        self.reader.close()
        self.client.close()
        return rest

    def reset(self):
        """Closes the connection at once, so that what is under way is lost."""
        self.client.setsockopt(socket.SOL_SOCKET, socket.SO_LINGER, struct.pack("ii", 1, 0))
        self.reader.close()
        self.client.close()


def send_all(client, lines):
    # (where the server ends the session first, what it wrote is read)
    with contextlib.suppress(OSError):
        client.sendall(lines.encode())
        client.shutdown(socket.SHUT_WR)


def talk(server, lines):
    """What is written in a session of these lines, which is read while they are sent."""
    with server.connect() as client, client.makefile("rb") as reader:
        sender = threading.Thread(target=send_all, args=(client, lines))
        sender.start()
        said = reader.read().decode()
        sender.join()
    return said


def two_users(program, check):
    """Rights between users, and a checkpoint while both are connected."""
    server = Server(program, 2)
    check("listens", server.listening == f"listening on {server.port}\n".encode(), server.listening)
    ann, bob = Session(server, "ann"), Session(server, "bob")
    said = [ann.welcome, bob.welcome]
    table = "CREATE TABLE pay (name TEXT, wage INTEGER)"
    said += [ann.ask(line) for line in (table, "INSERT INTO pay VALUES ('Bo', 5)")]
    said += [bob.ask("DELETE FROM pay"), ann.ask("GRANT SELECT (wage), DELETE ON pay TO bob"), ann.ask("CHECKPOINT")]
    said += [*ann.settled(), bob.ask("SELECT name FROM pay"), bob.ask("DELETE FROM pay")]
    export = bob.export(1)
    said += [ann.end(), bob.end()]
    wanted = ["welcome ann\n", "welcome bob\n", "done @1\n", "done @2\n", "denied @2: bob lacks DELETE on pay\n",
        "done @3\n", "checkpoint 1 begun @3\n", "finished,1,3\n", "denied @3: bob lacks SELECT(name) on pay\n",
        "done @4\n", "", ""]
    check("two users", said == wanted, said)
    told = ["export 1 point 3 @4\n", "table,pay,wage\n", "row,5\n", "end 1\n"]
    check("an export over TCP", export == told, export)
    ended = server.end()
    check("two users: the end", ended == (0, b"served 2\n", []), ended)


def first_lines(program, check):
    """What a first line is told that names no user, with more lines behind it, and one that names one."""
    refused = "error 4 at 0: not expected\n"
    played = (
        ("bob\n" + 1000 * "CHECKPOINTS\n", refused),
        ("USER " + 5000 * "x" + "\n", "error 2 at 4096: too long\n"),
        ("", ""),
        ("USER bob\n" + 3 * "CHECKPOINTS\n", "welcome bob\n" + 3 * "checkpoints 0 @0\n"),
        ("bob", refused),
        ("USER\tbob\nCHECKPOINTS\n", refused),
        (" USER bob", refused),
        ("USER table", refused),
        ("USER bob x", refused),
        ("user   Bob  \r\n?\n", "welcome bob\nerror 3 at 0: bad byte\n"),
    )
    server = Server(program, len(played), workers=1)
    for lines, wanted in played:
        seen = talk(server, lines)
        check(f"a first line: {lines[:20]}", seen == wanted, seen)
    ended = server.end()
    check("first lines: the end", ended == (0, f"served {len(played)}\n".encode(), []), ended)


def wide_table(server):
    """What is written last where a table is made whose rows are 128 MB: no buffers of a connection hold them."""
    names = [f"c{n}" for n in range(32)]
    lines = ["USER ann", f"CREATE TABLE t ({' TEXT, '.join(names)} TEXT)"]
    lines += 4000 * [f"INSERT INTO t VALUES ({', '.join(32 * [chr(39) * 2])})"]
    for at in range(0, 32, 3):
        lines.append("UPDATE t SET " + ", ".join(f"{name} = '{1000 * 'x'}'" for name in names[at:at + 3]))
    lines.append("GRANT SELECT ON t TO eve")
    return talk(server, "\n".join(lines) + "\n")[-20:]


def misuse(program, check):
    """Clients that leave early, send a line without end, or stop reading harm their own sessions alone.

    Three leave in the middle of a line, when nothing is written to them: their faults are of reading. One
    leaves in the middle of an answer: its fault is of writing.
    """
    server = Server(program, 8)
    seen = wide_table(server)
    check("a table", seen.endswith("\ndone @4013\n"), seen)
    for _ in range(3):
        eve = Session(server, "eve")
        eve.send("SELECT * FR")
        eve.reset()
    deaf = Session(server, "eve")
    seen = deaf.ask("SELECT * FROM t")
    check("an answer begins", seen == "rows 4000 @4013\n", seen)
    seen = talk(server, "USER bob\n" + 100_000_000 * "x" + "\nCHECKPOINTS\n")
    wanted = "welcome bob\nerror 2 at 4096: too long\ncheckpoints 0 @4013\n"
    check("a line of 100 MB", seen == wanted, seen[:200])
    seen = talk(server, "USER eve\nSELECT c31, c0 FROM t\n")
    wanted = "welcome eve\nrows 4000 @4013\n" + 4000 * f"row,{1000 * 'x'},{1000 * 'x'}\n"
    check("a reply of 8 MB", seen == wanted, (len(seen), seen[:100]))
    deaf.reset()
    seen = talk(server, "USER ann\nCHECKPOINTS\n")
    check("a session beside them", seen == "welcome ann\ncheckpoints 0 @4013\n", seen)
    status, out, faults = server.end()
    told = sorted(faults) == 3 * ["session fault: read"] + ["session fault: write"]
    check("misuse: the end", (status, out) == (0, b"served 8\n") and told, (status, out, faults))


def asked_by_clients(program, check):
    """Nothing is done but what clients asked for, also behind sessions that end in the middle of a line.

    So the moment is the number of changes that they saw done, and the next checkpoint's number is one more
    than those that they saw begun.
    """
    server, done, begun = Server(program, 61, workers=4), 0, 0
    for n in range(60):
        session = Session(server, f"u{n % 7}")
        lines = [f"CREATE TABLE t{n} (x INTEGER)", f"INSERT INTO t{n} VALUES (1)", f"GRANT SELECT ON t{n // 2} TO bob"]
        done += sum(session.ask(line).startswith("done @") for line in lines)
        if n % 3 == 0:
            session.settled()
            begun += session.ask("CHECKPOINT") == f"checkpoint {begun + 1} begun @{done}\n"
        if n % 2:
            session.send("DELETE FROM t0")
            session.reset()
        else:
            session.end()
    last = Session(server, "bob")
    last.settled()
    seen = last.ask("CHECKPOINT")
    wanted = f"checkpoint {begun + 1} begun @{done}\n"
    check("what clients asked for", seen == wanted and begun == 20, (seen, wanted))
    last.end()
    ended = server.end()
    check("what clients asked for: the end", ended == (0, b"served 61\n", 30 * ["session fault: read"]), ended)


def large_checkpoints(program, check):
    """Checkpoints that take 1,200, 5,000 and 30,000 steps are finished, though the sessions that began them ended
    at once, and have all rows."""
    sizes, rows = (1_200, 5_000, 30_000), 0
    server = Server(program, 1 + 2 * len(sizes), chunk=1)
    ann = Session(server, "ann")
    ann.ask("CREATE TABLE t (x INTEGER)")
    for number, size in enumerate(sizes, 1):
        talk(server, "USER ann\n" + "".join(f"INSERT INTO t VALUES ({n})\n" for n in range(rows, size)))
        rows, point = size, size + 1
        seen = talk(server, "USER bob\nCHECKPOINT\n")
        check(f"begun and left, {size} records", seen == f"welcome bob\ncheckpoint {number} begun @{point}\n", seen)
        listed = ann.settled()
        check(f"finished, {size} records", listed[-1:] == [f"finished,{number},{point}\n"], listed)
        wanted = [f"export {number} point {point} @{point}\n", "table,t,x\n"]
        wanted += [*(f"row,{n}\n" for n in range(size)), f"end {number}\n"]
        export = ann.export(number)
        check(f"exported, {size} records", export == wanted, (len(export), export[:3], export[-1:]))
    ann.end()
    ended = server.end()
    check("large checkpoints: the end", ended == (0, b"served 7\n", []), ended)


def seen_left(server, rounds):
    """What is told to be left of checkpoints of 30,000 records, each looked at until it is finished."""
    made = talk(server, "USER ann\nCREATE TABLE t (x INTEGER)\n" + 30_000 * "INSERT INTO t VALUES (1)\n")
    ann, listed = Session(server, "ann"), []
    for _ in range(rounds):
        ann.ask("CHECKPOINT")
        listed += [line for lines in ann.lists(0) for line in lines]
    ann.end()
    is_whole = made.endswith("\ndone @30001\n") and f"finished,{rounds},30001\n" in listed
    return is_whole, {int(line.split(",")[3]) for line in listed if line.startswith("active,")}


def chunk_is_kept(program, check):
    """What is left of a checkpoint is all its records less some times the chunk, which is 16 where none is given.

    What is seen between two steps is chance, and may be none; another number is never right.
    """
    for given, chunk in ((61, 61), (None, 16)):
        server = Server(program, 2, chunk=given)
        is_whole, lefts = seen_left(server, 20)
        check(f"chunk {given}", is_whole and all((30_000 - left) % chunk == 0 for left in lefts), sorted(lefts)[:20])
        ended = server.end()
        check(f"chunk {given}: the end", ended == (0, b"served 2\n", []), ended)


def many(program, check):
    """Eight clients at once, by four workers: each is welcomed, and each change is done once, in one order. Each has
    made a grant, and an audit finds them."""
    server, answers = Server(program, 8, workers=4, more=["--audit"]), [""] * 8

    def client(n):
        lines = f"USER u{n}\nCREATE TABLE t{n} (x INTEGER)\n" + 200 * f"INSERT INTO t{n} VALUES (1)\n"
        lines += f"GRANT SELECT ON t{n} TO v\n"
        with contextlib.suppress(OSError):
            answers[n] = talk(server, lines)

    threads = [threading.Thread(target=client, args=(n,)) for n in range(8)]
    for thread in threads:
        thread.start()
    for thread in threads:
        thread.join()
    welcome = [text.split("\n")[0] for text in answers]
    check("each is welcomed", welcome == [f"welcome u{n}" for n in range(8)], welcome)
    moments = sorted(int(at) for text in answers for at in re.findall(r"done @(\d+)\n", text))
    check("each change once", moments == list(range(1, 8 * 202 + 1)), moments[:10])
    rise = all(found == sorted(found, key=int) for found in (re.findall(r"@(\d+)", text) for text in answers))
    check("moments rise in a session", rise, answers)
    ended = server.end()
    check("many: the end", ended == (0, b"served 8\naudit ok 8\n", []), ended)


def chain(program, check):
    """As many grants as may be in force, each by the one before, fall in a worker's thread; an audit finds none in force."""
    server = Server(program, 1026, more=["--audit"])
    own = Session(server, "own")
    answers = [own.ask("CREATE TABLE t (x INTEGER)")]
    own.end()
    names = ["own"] + [f"u{n}" for n in range(1024)]
    for by, to in zip(names, names[1:]):
        session = Session(server, by)
        answers.append(session.ask(f"GRANT SELECT ON t TO {to} WITH GRANT OPTION"))
        session.end()
    check("a chain stands", answers == [f"done @{m}\n" for m in range(1, 1026)], answers[-3:])
    seen = talk(server, "USER own\nREVOKE SELECT ON t FROM u0\nGRANT SELECT ON t TO u1\nREVOKE SELECT ON t FROM u1\n"
        "REVOKE SELECT ON t FROM u1\nREVOKE GRANT OPTION FOR SELECT ON t FROM u1\n")
    wanted = ("welcome own\ndone @1026\ndone @1027\ndone @1028\ndenied @1028: own granted no SELECT(x) on t to u1\n"
        "denied @1028: own granted no option for SELECT(x) on t to u1\n")
    check("a chain falls", seen == wanted, seen)
    ended = server.end()
    check("a chain: the end", ended == (0, b"served 1026\naudit ok 0\n", []), ended)


TESTS = (two_users, first_lines, misuse, asked_by_clients, large_checkpoints, chunk_is_kept, many, chain)


def in_time(name, check, test):
    try:
        test()
    except (OSError, LookupError, ValueError, subprocess.TimeoutExpired) as error:
        check(f"{name}: an answer in time", False, error)
    finally:
        Server.stop_all()


def played(program, check):
    for test in TESTS:
        in_time(test.__name__, check, lambda: test(program, check))

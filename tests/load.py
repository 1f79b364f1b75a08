"""bench/load, the tool that loads a server: what it sends, counts, checks and draws.

What it counts is compared with the server's own journal and moment. Replies that no server gives come from a server in
Python, which the tool has to find out. Without a C compiler nothing of this is tried.
"""
import collections
import contextlib
import csv
import importlib.util
import os
import pty
import random
import re
import shutil
import socketserver
import subprocess
import sys
import tempfile
import threading
import xml.etree.ElementTree

from served import Server, Session, free_port, in_time, talk

WAIT = 300
BENCH = os.path.join(os.path.dirname(os.path.dirname(os.path.abspath(__file__))), "bench")
LOAD = os.path.join(BENCH, "load")
MIX = {"insert": 70, "select": 15, "range": 5, "update": 5, "delete": 5}
STATEMENTS, ROWS = 6_000, 300


def run(*words, **more):
    """Status, standard output, and standard error."""
    words = [sys.executable, LOAD, *map(str, words)]
    done = subprocess.run(words, capture_output=True, text=True, timeout=WAIT, **more)
    return done.returncode, done.stdout, done.stderr


def mixed(statements):
    return ",".join(f"{kind}={share}" for kind, share in statements.items())


def read_csv(path):
    with open(path, newline="") as file:
        return list(csv.DictReader(file))


def shares_are_sent(check):
    """Each kind is sent by its share, as the rows and the server's journal say alike; the picture has each curve."""
    with tempfile.TemporaryDirectory() as folder:
        journal, table, plot = (os.path.join(folder, name) for name in ("journal", "load.csv", "load.svg"))
        seen = run("--serve", "--journal", journal, "--clients", 3, "--pipeline", 7, "--statements", STATEMENTS,
            "--mix", mixed(MIX), "--rows", ROWS, "--users", "ann,bob", "--interval", 0.1, "--csv", table, "--plot", plot)
        check("a load: the end", (seen[0], seen[2]) == (0, ""), seen)
        rows = read_csv(table)
        sent = sent_as_told(check, rows, seen[1])
        as_the_journal(check, journal, sent, seen[1])
        drawn(check, plot, len(rows) // len(MIX))


def sent_as_told(check, rows, told):
    """How many statements of each kind the rows tell. Each share is within five deviations of what chance gives."""
    sent = collections.Counter()
    for row in rows:
        sent[row["kind"]] += int(row["statements"])
    check("a load: all were sent", sum(sent.values()) == STATEMENTS, sent)
    for kind, share in MIX.items():
        wanted = STATEMENTS * share / 100
        spread = 5 * (wanted * (1 - share / 100)) ** 0.5
        check(f"a load: the share of {kind}", abs(sent[kind] - wanted) < spread, sent)
    words = {line.split()[0]: line.split()[1] for line in told.splitlines() if len(line.split()) > 8}
    same = all(words.get(kind) == f"{count:,}" for kind, count in {**sent, "all": STATEMENTS}.items())
    check("a load: the lines for people", same, (told, sent))
    kinds = len(rows) // len(MIX) * list(MIX)
    check("a load: a row for each interval and kind", sorted(row["kind"] for row in rows) == sorted(kinds), len(rows))
    for row in rows:
        classes = sum(int(row[name]) for name in ("good", "denied", "refused", "fault"))
        times = [float(row[name]) for name in ("p50_us", "p90_us", "p99_us", "p99_9_us", "most_us") if row[name]]
        good = classes == int(row["statements"]) == int(row["good"]) and times == sorted(times)
        check("a load: a row", good and bool(times) == (classes > 0), row)
    return sent


def as_the_journal(check, path, sent, told):
    """The journal has the changes that were told, beside those that made the table."""
    with open(path) as file:
        words = collections.Counter(line.split()[1].lower() for line in file)
    wanted = {kind: sent[kind] for kind in ("insert", "update", "delete")}
    wanted.update({"create": 1, "grant": 1, "insert": ROWS + sent["insert"]})
    check("a load: the journal", words == wanted, (words, wanted))
    changes = sent["insert"] + sent["update"] + sent["delete"]
    line = f"changes: {changes:,} done; the server counts {changes:,}"
    check("a load: the moment", told.splitlines()[-1] == line, (told, line))


def drawn(check, path, intervals):
    """The picture is XML. It has a curve with a name for all statements, each kind, and three latencies."""
    root = xml.etree.ElementTree.parse(path).getroot()
    space = "{http://www.w3.org/2000/svg}"
    lines = [line.get("points").split() for line in root.iter(space + "polyline")]
    curves = len(MIX) + 4
    check("a plot: curves", [len(line) for line in lines[:len(MIX) + 1]] == (len(MIX) + 1) * [intervals], lines)
    check("a plot: all curves", len(lines) == curves, len(lines))
    texts = [text.text for text in root.iter(space + "text")]
    axes = {"statements a second", "latency of all statements", "seconds since the start"}
    check("a plot: its words", axes | {"all", *MIX, "50 %", "99 %", "most"} <= set(texts), texts)
    size = [float(root.get(name)) for name in ("width", "height")]
    points = [list(map(float, point.split(","))) for line in lines for point in line]
    inside = all(0 <= x <= size[0] and 0 <= y <= size[1] for x, y in points)
    check("a plot: within its borders", inside, lines)


def others_are_counted(program, check):
    """What is denied or refused is counted as that, its first reply is shown, and the run is complete."""
    server = Server(program, None, workers=2)
    ann = Session(server, "ann")
    columns = ("load (name TEXT, id INTEGER)", "other (name INTEGER, id INTEGER)")
    answers = [ann.ask(f"CREATE TABLE {table}") for table in columns]
    check("tables of another", answers == ["done @1\n", "done @2\n"], answers)
    ann.end()
    words = ("--port", server.port, "--clients", 1, "--statements", 40, "--existing", "--mix")
    seen = run(*words, "insert=1", "--users", "eve")
    check("denied", counts(seen, "insert") == ["40", "0", "0"], seen)
    check("the first denial", "\nfirst denied: denied @2: eve lacks INSERT on load\n" in seen[1], seen)
    seen = run(*words, "insert=1", "--users", "ann", "--table", "other")
    check("refused", counts(seen, "insert") == ["0", "40", "0"], seen)
    check("the first refusal", "\nfirst refused: refused @2: column name takes INTEGER\n" in seen[1], seen)
    seen = run("--port", server.port, "--clients", 1, "--statements", 4, "--users", "ann")
    told = "the server answered `denied @2: table load exists` to `CREATE TABLE load (name TEXT, id INTEGER)`"
    check("a table that is there", seen[0] == 1 and told in seen[2], seen)


def counts(seen, kind):
    """How many were denied, refused and at fault, by the lines for people."""
    status, out, err = seen
    lines = [line.split()[-3:] for line in out.splitlines() if line.startswith(kind)]
    return lines[0] if (status, err) == (0, "") and lines else seen


class Scripted(socketserver.StreamRequestHandler):
    """A session whose replies the server's function of the line and its number gives; None ends it."""

    def handle(self):
        # (a load that has found something out leaves)
        with contextlib.suppress(OSError):
            self.answer()

    def answer(self):
        for number, line in enumerate(self.rfile):
            if line.startswith(b"USER"):
                reply = self.server.welcome + line[5:]
            elif line == b"CHECKPOINTS\n":
                reply = b"checkpoints 0 @1\n"
            else:
                reply = self.server.replies(line.decode(), number)
            if reply is None:
                return
            self.wfile.write(reply)


class Liar(socketserver.ThreadingTCPServer):
    """A server of such sessions at a free port."""

    daemon_threads = allow_reuse_address = True

    def __init__(self, replies, welcome=b"welcome "):
        super().__init__(("127.0.0.1", 0), Scripted)
        self.replies, self.welcome = replies, welcome

    def seen(self, kind, *words):
        """What a load of one client and 20 statements, 5 at a time, comes to."""
        threading.Thread(target=self.serve_forever, daemon=True).start()
        try:
            return run("--port", self.server_address[1], "--clients", 1, "--statements", 20, "--pipeline", 5,
                "--existing", "--mix", f"{kind}=1", *words)
        finally:
            self.shutdown()
            self.server_close()


def asked_id(line):
    return int(re.search(r"id = (\d+)", line)[1])


def wrong_replies_are_found(check):
    """A reply that is another statement's ends the run, which says whose it is and why."""
    wrong = {
        "a change's reply to a SELECT": ("select", lambda line, n: b"done @%d\n" % n,
            "`done @1` is no reply to statement 1, which is select of id"),
        "a SELECT's reply to a change": ("insert", lambda line, n: b"rows 0 @1\n",
            "`rows 0 @1` is no reply to statement 1, which is insert of id 10000: its first word is none that"),
        "another one's row": ("select", lambda line, n: b"rows 1 @1\nrow,row %d\n" % (asked_id(line) + 1),
            "its row is none that was asked for"),
        "a moment that falls": ("select", lambda line, n: b"rows 0 @%d\n" % (100 - n),
            "`rows 0 @98` is no reply to statement 2"),
        "a change without a moment of its own": ("delete", lambda line, n: b"done @7\n",
            "`done @7` is no reply to statement 2"),
        "a reply too many": ("insert", lambda line, n: b"done @%d\ndone @%d\n" % (2 * n, 2 * n + 1),
            "nothing was asked"),
        "no word at all": ("update", lambda line, n: b"\n", "`` is no reply to statement 1"),
        "an end in the middle": ("update", lambda line, n: b"done @%d\n" % n if n < 8 else None,
            "client 1 (user1): the server ended the session behind 7 replies"),
    }
    for name, (kind, replies, told) in wrong.items():
        seen = Liar(replies).seen(kind)
        check(f"found out: {name}", seen[0] == 1 and seen[1] == "" and told in seen[2], seen)
    seen = Liar(lambda line, n: b"done @%d\n" % n + (b"done @21\n" if n == 20 else b"")).seen("insert")
    check("found out: a reply too many at the end", seen[0] == 1 and "client 1 (user1): " in seen[2], seen)
    seen = Liar(None, welcome=b"hello ").seen("select")
    check("found out: no welcome", seen[0] == 1 and "the server answered `hello user1` to USER user1" in seen[2], seen)
    seen = Liar(lambda line, n: b"error 4 at 0: not expected\n").seen("insert")
    check("faults are counted", counts(seen, "insert") == ["0", "0", "20"], seen)
    seen = Liar(lambda line, n: b"done @%d\n" % n).seen("insert")
    told = "20 changes were done by the replies, but the server counts 0"
    check("changes that the server does not count", seen[0] == 1 and told in seen[2], seen)


def connections(program, check):
    """No server, and one worker for two clients."""
    port = free_port()
    seen = run("--port", port)
    told = f"bench/load: cannot connect to 127.0.0.1:{port}: Connection refused\n"
    check("no server", seen[0] == 1 and seen[2].startswith(told), seen)
    server = Server(program, None, workers=1)
    talk(server, "USER user1\nCREATE TABLE load (name TEXT, id INTEGER)\nGRANT INSERT, SELECT ON load TO user2\n")
    seen = run("--port", server.port, "--clients", 2, "--statements", 10, "--existing")
    check("one worker for two clients", seen[0] == 0 and seen[2] == "", seen)


def command_line(check):
    for words, told in (
        ((), "one of --serve and --port is needed"),
        (("--serve", "--port", 7878), "one of --serve and --port is needed"),
        (("--serve", "--mix", "inserts=70"), "'inserts=70' is no share"),
        (("--serve", "--mix", "insert=0"), "all shares are 0"),
        (("--serve", "--clients", 17), "17 is not from 1 to 16"),
        (("--serve", "--users", "ann,2"), "'2' is no name"),
    ):
        seen = run(*words)
        check(f"bench/load {words}", seen[0] == 2 and told in seen[2], seen)
    seen = run("--help")
    check("bench/load --help", seen[0] == 0 and "what a latency is" in seen[1], seen)
    with tempfile.TemporaryDirectory() as empty:
        seen = run("--serve", env={**os.environ, "PATH": empty})
    check("no compiler", seen[0] == 1 and seen[2].startswith("bench/load: no C compiler (cc) was found"), seen)


def on_a_terminal(check):
    """A terminal gets a bar, which is full in the end and taken away."""
    try:
        ours, theirs = pty.openpty()
    except OSError:
        print("no terminal: the bar of bench/load was not tried")
        return
    words = [sys.executable, LOAD, "--serve", "--clients", "1", "--statements", "50", "--rows", "10"]
    done = subprocess.run(words, stdout=subprocess.PIPE, stderr=theirs, timeout=WAIT)
    os.close(theirs)
    said = os.read(ours, 65536).decode()
    os.close(ours)
    good = f"[{30 * '.'}] 0 of 50" in said and f"[{30 * '#'}] 50 of 50" in said and said.endswith("\r\x1b[K")
    check("a bar on a terminal", good and done.returncode == 0, (said, done))


def percentiles(check):
    """A percentile of the histogram is the exact one, or at most 1/128 more. The bucket of a value is counted here by
    the words of the engine's first lines: one for each number up to 128, and then 128 for each doubling."""
    spec = importlib.util.spec_from_file_location("load_engine", os.path.join(BENCH, "load_engine.py"))
    engine = importlib.util.module_from_spec(spec)
    sys.modules[spec.name] = engine
    spec.loader.exec_module(engine)

    def bucket(value):
        doubling = max(value.bit_length() - 8, 0)
        return 128 * doubling + value // 2 ** doubling

    chance = random.Random(5)
    for size in (1, 2, 99, 5_000):
        values = sorted(int(2 ** chance.uniform(0, 36)) for _ in range(size))
        made = engine.Counts(collections.Counter(good=size), collections.Counter(map(bucket, values)), values[-1])
        for percent in (50, 90, 99, 99.9):
            exact = values[-(-size * round(10 * percent) // 1000) - 1]
            found = made.percentile(percent)
            check(f"the {percent}th percentile of {size}", exact <= found <= exact * (1 + 1 / 128), (exact, found))


def played(program, check):
    if shutil.which("cc") is None:
        print("no C compiler: bench/load was not tried")
        return
    percentiles(check)
    command_line(check)
    shares_are_sent(check)
    wrong_replies_are_found(check)
    on_a_terminal(check)
    for test in (others_are_counted, connections):
        in_time(test.__name__, check, lambda: test(program, check))

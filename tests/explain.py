"""What `sysr explain` tells: worked rows, questions that have no answer, forms, long lists, and streams that break.

The worked rows of grants have answers that were written by hand from the rules, in examples/explained. So has each
sentence, in examples/sentences (explain_sentences.py). Scripts by chance are asked in explain_chance.py.
"""
import csv
import io
import json
import os
import re
import shlex
import subprocess
import sys

import explain_chance
import explain_sentences
import refusals
from explain_rows import RIGHTS, WHY
from one_history import replies
from reading import OF_MEMORY, left_out_of, left_out_told

HERE = os.path.dirname(os.path.abspath(__file__))
EXPLAINED = os.path.join(HERE, "examples", "explained")
PAGE = os.path.join(HERE, "..", "tools", "rights_page.py")
WAIT = 60


def as_bytes(lines):
    return "".join(line + "\n" for line in lines).encode()


class Explained:
    """The program, and a check."""

    def __init__(self, program, check):
        self.program, self.check = program, check

    def ask(self, words, given):
        done = subprocess.run([self.program, "explain", *words], input=given, capture_output=True, timeout=WAIT)
        return done.returncode, done.stdout.decode(), done.stderr.decode()

    def records(self, name, words, given, fields, status=0):
        """The records of an answer, without the line that names their fields."""
        seen, out, err = self.ask(["--format", "csv", *words], given)
        rows = [*csv.reader(io.StringIO(out))]
        good = (seen, err, rows[:1]) == (status, "", [fields])
        self.check(f"{name}: {words}", good, (seen, err, rows[:1]))
        return rows[1:]


def worked(path):
    """The questions of a file: words, a status if it is not 0, and what is written for them, four blanks in."""
    questions = []
    with open(path, encoding="utf-8") as file:
        for line in file.read().split("\n")[:-1]:
            if line.startswith("$ sysr explain "):
                questions.append((shlex.split(line.removeprefix("$ sysr explain ")), [0], []))
            elif line.startswith("status "):
                questions[-1][1][0] = int(line.removeprefix("status "))
            elif line.startswith("    "):
                questions[-1][2].append(line[4:])
    return [(words, status, as_bytes(wanted).decode()) for words, [status], wanted in questions]


def worked_rows(explained, examples):
    """The worked rows, whose answers were written by hand."""
    given = {name: (lines, wanted) for name, _, lines, wanted in examples}
    for name in sorted(os.listdir(EXPLAINED)):
        lines, answers = (text.decode().split("\n")[:-1] for text in given[name])
        for words, status, wanted in worked(os.path.join(EXPLAINED, name)):
            told = left_out_up_to(words, lines, [*replies(answers)])
            seen = explained.ask(words, given[name][0])
            explained.check(f"explained: {name}: {words}", seen == (status, wanted, told), seen)


def left_out_up_to(words, lines, answers):
    """What is told of lines that say no change which is done, before the moment that the words name is reached."""
    last = len(lines)
    if "--at" in words:
        last = [reply for reply, *_ in answers].index(f"done @{words[words.index('--at') + 1]}") + 1
    whys = left_out_of(lines[:last], answers)
    return as_bytes(f"sysr: {line}" for line in left_out_told(whys)).decode()


FRONT = ["o: CREATE TABLE t (x INTEGER, y TEXT)", "o: GRANT SELECT ON t TO a WITH GRANT OPTION"]


def faults(explained):
    """Questions that have no answer, and command lines that are no question: to lack a right is neither."""
    given = as_bytes(FRONT)
    for words, told in (
        (["why", "a", "SELECT", "s"], "no table s"),
        (["why", "a", "SELECT(z)", "t"], "no column z in t"),
        (["why", "a", "SELECT (x, z)", "T"], "no column z in t"),
        (["why", "1a", "SELECT", "t"], "'1a' is no name of a user or a table"),
        (["why", "select", "SELECT", "t"], "'select' is no name of a user or a table"),
        (["why", "a, b", "SELECT", "t"], "'a, b' is no name of a user or a table"),
        (["who", "t x"], "'t x' is no name of a user or a table"),
        (["who", "s"], "no table s"),
        (["cut", "a", "SELECT", ""], "'' is no name of a user or a table"),
        *((["why", "a", words, "t"], f"'{words}' is no privilege: write SELECT, INSERT, DELETE or UPDATE, or of a "
            "column SELECT(c) or UPDATE(c)") for words in ("", "REVOKE", "SELECT, INSERT", "INSERT(x)", "SELECT(x",
            "SELECT ON t TO b WITH GRANT OPTION", "SELECT(x, x)", "SELECT ON t TO a;")),
        (["can", "a", "SELECT", "s"], "no table s"),
        (["can", "a", "UPDATE(z)", "t"], "no column z in t"),
        (["can", "1a", "SELECT", "t"], "'1a' is no name of a user or a table"),
        *((["--format", "dot", *words], f"{words[0]} has no dot: its formats are text and csv") for words in (["rights"],
            ["fell"], ["grants"], ["if", "o: REVOKE SELECT ON t FROM a"], ["cut", "a", "SELECT", "t"],
            ["can", "a", "SELECT", "t"], ["diff"])),
        (["if", "o: REVOKE SELECT ON t FROM b"], "denied @2: o granted no SELECT(x) on t to b"),
        (["if", "o: REVOKE SELECT ON s FROM b"], "denied @2: no table s"),
        (["if", "o: SELECT * FROM t"], "no change: only a change can take a right"),
        (["if", "o: INSERT INTO t VALUES (1)"], "refused @2: 1 values for 2 columns"),
        (["if", "o: REVOKE SELECT ON t"], "error 4 at 21: not expected"),
        (["if", ""], "error 1 at 0: empty"),
        (["--at", "3", "rights"], "the script ends at @2"),
        (["--at", "3", "diff"], "the script ends at @2"),
        (["--at", "1", "diff", "--to", "3"], "the script ends at @2"),
        (["--at", "2", "diff", "--to", "1"], "--to 1 is before --at 2"),
    ):
        seen = explained.ask(words, given)
        explained.check(f"explained: {words}", seen == (2, "", f"sysr: {told}\n"), seen)
    for words, told in (
        ([], "requires a subcommand"),
        (["why", "a", "SELECT"], "<TABLE>"),
        (["whence"], "unrecognized subcommand 'whence'"),
        (["rights", "t"], "unexpected argument 't'"),
        (["--at", "1000000001", "rights"], "1000000001 is not in 0..=1000000000"),
        (["--at", "-1", "rights"], "-1"),
        (["diff", "--to", "1000000001"], "1000000001 is not in 0..=1000000000"),
        (["diff", "1"], "unexpected argument '1'"),
        (["rights", "--to", "2"], "unexpected argument '--to'"),
        (["can", "a", "SELECT"], "<TABLE>"),
        (["--format", "pdf", "rights"], "possible values: text, csv, dot"),
    ):
        status, out, err = explained.ask(words, given)
        explained.check(f"explained: {words}", (status, out) == (2, "") and told in err, (status, out, err))


def forms(explained):
    """Privileges in any case, moments before and behind the question, and nothing at all."""
    given = as_bytes(FRONT)
    told = "a holds SELECT (x) on t @2, with option\n"
    for words in (["why", "A", "select(X)", "T"], ["why", "a", "Select ( x )", "t", "--at", "2"]):
        status, out, err = explained.ask(words, given)
        explained.check(f"explained: {words}", (status, out.startswith(told), err) == (0, True, ""), (status, out, err))
    seen = explained.ask(["rights"], b"")
    explained.check("explained: no rights", seen == (0, ",".join(RIGHTS) + "\n", ""), seen)
    seen = explained.ask(["--at", "0", "fell"], given)
    explained.check("explained: nothing fell", seen == (0, "", ""), seen)
    seen = explained.ask(["if", "o: GRANT SELECT ON t TO b"], given)
    told = "@3 would be o: GRANT SELECT ON t TO b\n  it takes nothing from anybody\n"
    explained.check("explained: a GRANT that is supposed", seen == (0, told, ""), seen)


CHAINED = ["o: CREATE TABLE t (x INTEGER, y TEXT)", "o: GRANT SELECT ON t TO a WITH GRANT OPTION",
    "a: GRANT SELECT ON t TO b WITH GRANT OPTION", "b: GRANT SELECT ON t TO c", "a: GRANT SELECT (x) ON t TO e",
    "o: GRANT INSERT ON t TO c"]


def cuts(explained):
    """The nearest grantor's REVOKE, from no one who could be left out, or a sentence on standard error and no line."""
    more = [*CHAINED, "a: GRANT SELECT ON t TO c"]
    for lines, words, wanted in (
        (CHAINED, ["c", "SELECT"], (0, "b: REVOKE SELECT ON t FROM c\n", "")),
        (CHAINED, ["b", "SELECT"], (0, "a: REVOKE SELECT ON t FROM b\n", "")),
        (CHAINED, ["a", "SELECT"], (0, "o: REVOKE SELECT ON t FROM a\n", "")),
        (CHAINED, ["c", "SELECT(y)"], (0, "b: REVOKE SELECT (y) ON t FROM c\n", "")),
        (CHAINED, ["e", "SELECT"], (0, "a: REVOKE SELECT (x) ON t FROM e\n", "")),
        (CHAINED, ["c", "INSERT"], (0, "o: REVOKE INSERT ON t FROM c\n", "")),
        (more, ["c", "SELECT"], (0, "a: REVOKE SELECT ON t FROM b, c\n", "")),
        (more, ["b", "SELECT"], (0, "a: REVOKE SELECT ON t FROM b\n", "")),
        (CHAINED, ["d", "SELECT"], (0, "", "sysr: d does not hold SELECT on t: there is nothing to take\n")),
        (CHAINED, ["e", "SELECT(y)"], (0, "", "sysr: e does not hold SELECT (y) on t: there is nothing to take\n")),
        (CHAINED, ["c", "DELETE"], (0, "", "sysr: c does not hold DELETE on t: there is nothing to take\n")),
        (CHAINED, ["o", "SELECT"], (1, "", "sysr: o owns t: nothing takes it from an owner\n")),
    ):
        seen = explained.ask(["cut", *words, "t"], as_bytes(lines))
        explained.check(f"cut {words}", seen == wanted, seen)


def long_chain(count):
    """A chain of so many grants, each by the one before."""
    yield "o: CREATE TABLE t (x INTEGER)"
    users = ["o", *(f"u{n}" for n in range(1, count + 1))]
    for by, to in zip(users, users[1:]):
        yield f"{by}: GRANT SELECT ON t TO {to} WITH GRANT OPTION"


def long_lists(explained):
    """A chain and a descent of 900 grants are folded for people, and whole for programs, as all else is; a cut of 20 takes
    two lines."""
    given = [*long_chain(900)]
    status, out, err = explained.ask(["why", "u900", "SELECT", "t"], as_bytes(given))
    lines = out.splitlines()
    shown = [line.split()[0] for line in lines[2:]]
    wanted = [*(f"@{m}" for m in range(2, 12)), "..", *(f"@{m}" for m in range(892, 902))]
    explained.check("a long chain", (status, err, shown, lines[12]) == (0, "", wanted, "  .. 880 more .."), out)
    rows = explained.records("a long chain", ["why", "u900", "SELECT", "t"], as_bytes(given), WHY)
    explained.check("a long chain in records", [row[6] for row in rows] == [str(m) for m in range(2, 902)], rows[:2])
    status, out, err = explained.ask(["who", "t", "SELECT"], as_bytes(given))
    last = ["  u900, with option", "      o -@2-> u1 -@3-> u2 -@4-> u3 -@5-> u4 .. 892 more .. -@898-> u897 -@899-> u898 "
        "-@900-> u899 -@901-> u900"]
    explained.check("a long chain in a line", out.splitlines()[-2:] == last, out[-300:])
    given.append("o: REVOKE SELECT ON t FROM u1")
    status, out, err = explained.ask(["why", "u900", "SELECT", "t"], as_bytes(given))
    shown = [line for line in out.splitlines() if line.startswith("    ") and not line.startswith("     ")]
    explained.check("a long descent", (status, err, len(shown), shown[11]) == (1, "", 22, "    .. 880 more .."), out)
    rows = explained.records("a long descent", ["why", "u900", "SELECT", "t"], as_bytes(given), WHY, 1)
    explained.check("a long descent in records", [row[6] for row in rows] == [str(m) for m in range(2, 902)], rows[:2])
    for words, head in ((["fell"], 0), (["--at", "901", "if", given[-1]], 1)):
        status, out, err = explained.ask(words, as_bytes(given))
        told = [re.sub("^  (revoked|falls): ", "", line).split()[0] for line in out.splitlines()[head:head + 900]]
        explained.check(f"whole: {words}", (status, err, told) == (0, "", [f"@{m}" for m in range(2, 902)]), out[:300])
    status, out, err = explained.ask(["--at", "901", "diff"], as_bytes(given))
    told = [line.split()[1] for line in out.splitlines()]
    explained.check("whole: diff", (status, err, told) == (0, "", [f"@{m}" for m in range(2, 902)]), out[:300])
    status, out, err = explained.ask(["--at", "901", "can", "u900", "INSERT", "t"], as_bytes(given))
    explained.check("whole: can not", (status, out, err) == (1, "u900 may not grant INSERT on t @901\n", ""), out[:300])
    status, out, err = explained.ask(["--at", "901", "can", "o", "INSERT", "t"], as_bytes(given))
    told = ["o may grant INSERT on t @901", *(f"  to u{n}, who lacks it" for n in range(1, 901))]
    explained.check("whole: can", (status, out.splitlines(), err) == (0, told, ""), out[:300])
    users = [f"u{n}" for n in range(20)]
    given = ["o: CREATE TABLE t (x INTEGER)",
        *(f"o: GRANT SELECT ON t TO {user} WITH GRANT OPTION" for user in users),
        *(f"{user}: GRANT SELECT ON t TO z" for user in users)]
    status, out, err = explained.ask(["cut", "z", "SELECT", "t"], as_bytes(given))
    explained.check("a cut of many", (status, err, out.count("\n"), [line.count(",") + 1 for line in out.splitlines()])
        == (0, "", 2, [16, 4]), out)
    replies = subprocess.run([explained.program, "run"], input=as_bytes(given) + out.encode(), capture_output=True,
        timeout=WAIT).stdout.decode()
    explained.check("a cut of many is done", replies.endswith("done @42\ndone @43\n"), replies[-60:])


def shortened(explained):
    """Of each list in `why` that has more than 24 grants the first ten and the last ten are shown."""
    many = range(3, 33)
    front = ["o: CREATE TABLE t (x INTEGER)", "o: GRANT SELECT ON t TO a WITH GRANT OPTION"]
    besides = [*front, *("o: GRANT SELECT ON t TO z" for _ in (2, *many))]
    for name, lines, user, status, shown in (
        ("further grants", besides, "z", 0, (f"  @{m + 1} o -> z".ljust(21) + f"line {m + 1}: o: GRANT SELECT ON t TO z" for m in many)),
        ("grants that were lost", [*besides, "o: REVOKE SELECT ON t FROM z"], "z", 1,
            (f"  @{m} o -> z, revoked @34".ljust(27) + f"line {m}: o: GRANT SELECT ON t TO z\n"
                "    by this REVOKE         line 34: o: REVOKE SELECT ON t FROM z" for m in (*many, 33))),
        ("what did not keep one", [*front, *("o: GRANT SELECT ON t TO a" for _ in many), "a: GRANT SELECT ON t TO z",
            "o: REVOKE GRANT OPTION FOR SELECT ON t FROM a"], "z", 1,
            (f"    @{m} o -> a did not keep @33: it has no option" for m in many)),
    ):
        shown = [*shown]
        seen, out, err = explained.ask(["why", user, "SELECT", "t"], as_bytes(lines))
        indent = len(shown[0]) - len(shown[0].lstrip())
        wanted = "\n".join([*shown[:10], f"{indent * ' '}.. {len(shown) - 20} more ..", *shown[-10:]]) + "\n"
        explained.check(f"shortened: {name}", (seen, err) == (status, "") and wanted in out, (seen, out, err))


def streams(explained):
    """A full disk, and an input that cannot be read."""
    def ended(words, **streams):
        done = subprocess.run([explained.program, "explain", *words], stderr=subprocess.PIPE, timeout=WAIT, **streams)
        return done.returncode, done.stderr
    if os.path.exists("/dev/full"):
        with open("/dev/full", "wb") as full:
            seen = ended(["rights"], input=as_bytes(FRONT), stdout=full)
        explained.check("explained to a full disk", seen == (1, b"sysr: write fault\n"), seen)
    folder = os.open(HERE, os.O_RDONLY)
    seen = ended(["rights"], stdin=folder, stdout=subprocess.DEVNULL)
    os.close(folder)
    explained.check("explained from a folder", seen == (1, b"sysr: read fault\n"), seen)


def page(explained):
    """The page of a privilege has each grant once, as an edge and as a row, and a moment for each end of the slider."""
    given = as_bytes([*long_chain(5), "o: REVOKE SELECT ON t FROM u1"])
    words = [sys.executable, PAGE, "--sysr", explained.program, "select", "t"]
    done = subprocess.run(words, input=given, capture_output=True, timeout=WAIT)
    text = done.stdout.decode()
    seen = [text.count('<g class="edge'), text.count('<tr id="row'), text.count('class="user"'), 'min="1" max="7"' in text]
    explained.check("the page of a privilege", (done.returncode, done.stderr, seen) == (0, b"", [5, 5, 6, True]), seen)
    given = as_bytes([*long_chain(1), "o: GRANT SELECT ON t TO z", "o: REVOKE GRANT OPTION FOR SELECT ON t FROM u1"])
    text = subprocess.run(words, input=given, capture_output=True, timeout=WAIT).stdout.decode()
    seen = re.findall(r'<tr id="row\d"[^>]*>(.*?)</tr>', text)
    wanted = ["<td>@2</td><td>o</td><td>u1</td><td>yes</td><td>x</td><td>option @4</td>",
        "<td>@3</td><td>o</td><td>z</td><td></td><td>x</td><td></td>"]
    explained.check("the page of options", seen == wanted, seen)
    told = [json.loads(re.search(f"const {name} = (.*);", text)[1]) for name in ("takes", "whys")]
    whys = {user: explained.ask(["why", user, "SELECT", "t"], given)[1] for user in ("o", "u1", "z")}
    wanted = [[[[0, "revoked", "loses"]], [[1, "revoked", "loses"]]], whys]
    explained.check("what the page tells on a click", told == wanted, told)
    quick = subprocess.run([*words, "--quick"], input=given, capture_output=True, timeout=WAIT).stdout.decode()
    explained.check("a page that tells nothing", "const takes = null;" in quick and quick.count('id="row') == 2, quick[:200])


def ended(done):
    return done.returncode, done.stdout, done.stderr


REFUSED = [["why", "d", "SELECT", "t"], ["--format", "csv", "why", "d", "SELECT", "t"], ["who", "t"],
    ["--format", "dot", "why", "d", "SELECT", "t"], ["--at", "6", "if", "a: REVOKE SELECT ON t FROM c"],
    ["cut", "c", "SELECT", "t"], ["can", "a", "SELECT", "t"], ["--format", "csv", "can", "a", "SELECT", "t"],
    ["--at", "2", "diff"], ["--at", "2", "--format", "csv", "diff"]]


def refused_requests(program, check, preloaded, work, examples):
    """Whichever request for memory is refused, the answer is whole, or there is none and it is told why."""
    given = next(lines for name, _, lines, _ in examples if name == "cascade_by_time.txt")
    requests = refusals.Requests(preloaded, work)
    for words in REFUSED:
        ask = lambda **more: subprocess.run([program, "explain", *words], input=given, capture_output=True, timeout=WAIT, **more)
        whole, seen = ended(ask()), set()
        for request, done in requests.one_by_one(lambda **more: [ended(ask(**more))]):
            good = done == whole or done[:2] == (1, b"") and OF_MEMORY.fullmatch(done[2].decode())
            check(f"explained, request {request} refused: {words}", good, done)
            seen.add(done)
        check(f"explained, refusals are told: {words}", len(seen) > 1, seen)


def played(program, check, examples):
    """Examples are names with their words, their lines and what is written for them."""
    explained = Explained(program, check)
    worked_rows(explained, examples)
    explain_sentences.played(explained)
    faults(explained)
    forms(explained)
    cuts(explained)
    long_lists(explained)
    shortened(explained)
    streams(explained)
    page(explained)
    explain_chance.played(program, check)

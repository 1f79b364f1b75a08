"""What `sysr journal`, `sysr dump` and `sysr explain` read on standard input: journals, whose last line may be cut off and
whose lines may be long, and scripts with `--script`. What they leave out is told, and nothing is left out for want of
memory.
"""
import os
import re
import resource
import subprocess

import refusals
from served import WAIT

CREATED, INSERTED, DELETED = "o: CREATE TABLE t (x INTEGER)", "o: INSERT INTO t VALUES (1)", "o: DELETE FROM t"
GRANTED = "o: GRANT SELECT ON t TO e"
LINES = [CREATED, INSERTED]
RIGHTS = ["explain", "--format", "csv", "rights"]
COMMANDS = (["journal"], ["dump"], RIGHTS)
FIELDS = "table,user,privilege,option,since,by"
# What each command writes of LINES, and of these with a last line that is read.
WRITTEN = {
    "journal": {None: LINES, DELETED: [*LINES, DELETED], GRANTED: [*LINES, GRANTED]},
    "dump": {None: LINES, DELETED: [CREATED], GRANTED: [*LINES, "o: GRANT SELECT (x) ON t TO e"]},
    "explain": {None: [FIELDS, "t,o,OWNER,yes,1,"], DELETED: [FIELDS, "t,o,OWNER,yes,1,"],
        GRANTED: [FIELDS, "t,o,OWNER,yes,1,", "t,e,SELECT(x),no,3,o"]},
}
# The longest line of a script, the longest statement, and the longest line of a journal: a name of 30 bytes, a colon, a
# blank and such a statement.
MAX_LINE, MAX_STATEMENT, LONGEST_LINE = 4096, 4096, 4128
KEPT_BYTES = LONGEST_LINE + 2
LONGEST_NAME = 30 * "u"
COLUMNS = "(a TEXT, b TEXT, c TEXT, d TEXT)"
MANY = 60_000
QUERIES = ("SELECT", "CHECKPOINT", "EXPORT")
# What no command takes: words of a reading where statements are answered, other words than are known, numbers out of their
# range, one port for both protocols, and no name of a user.
REFUSED = (
    *(f"{command} {flag}" for command in ("run", "serve --port 7878")
        for flag in ("--script", "--strict", "--cut-line drop", "--changes 0", "--changes 1000000001")),
    *(f"{command} --cut-line keep" for command in ("journal", "dump", "explain rights")),
    "dump --cut-line", "run --chunk 0", "run --chunk 65", "serve --pg-port 0", "serve --pg-port 65536",
    "serve --port 7878 --pg-port 7878", "serve --port 7878 --workers 17", "serve --port 7878 --idle 86401",
    "explain rights --at 1000000001", "verifier", "verifier select", "verifier 1ann", "reload",
    "serve --user-socket =path", "serve --user-socket select=path",
)
OF_MEMORY = re.compile(r"sysr: (line \d+: refused( @\d+)?: )?no memory\n")


def as_bytes(lines):
    return "".join(line + "\n" for line in lines).encode()


class Reading:
    """The program, and a check."""

    def __init__(self, program, check):
        self.program, self.check = program, check

    def run(self, words, given, **more):
        done = subprocess.run([self.program, *words], input=given, capture_output=True, timeout=WAIT, **more)
        return done.returncode, done.stdout, done.stderr

    def ends(self, name, words, given, status, lines, told):
        """It ends with this status, and says so much on standard output and behind `sysr: ` on standard error."""
        seen = self.run(words, given)
        wanted = status, as_bytes(lines), as_bytes(f"sysr: {line}" for line in told)
        self.check(f"{name}, {words}", seen == wanted, [part[:200] if isinstance(part, bytes) else part for part in seen])


def cut_lines(reading):
    """A last line without a line feed is the front of some line: it is not carried out, but where it is a script's."""
    for words in COMMANDS:
        written = WRITTEN[words[0]]
        for cut in (DELETED, GRANTED):
            given = as_bytes(LINES) + cut.encode()
            reading.ends(f"cut: {cut}", words, given, 1, [], [f"line 3: cut off: {cut}"])
            told = [f"left out line 3: cut off: {cut}"]
            reading.ends(f"cut: {cut}", [*words, "--cut-line", "drop"], given, 0, written[None], told)
            reading.ends(f"cut: {cut}", [*words, "--script"], given, 0, written[cut], [])
        given = as_bytes(LINES) + b"o: DELETE FROM"
        told = ["left out 1 line: line 3: error 4 at 14: not expected"]
        reading.ends("no statement", [*words, "--script"], given, 0, written[None], told)
        for more in ([], ["--cut-line", "drop"], ["--script"]):
            reading.ends("nothing is cut", [*words, *more], as_bytes(LINES), 0, written[None], [])


def fronts(reading):
    """The front of a cut line is told with `?` for each byte that a terminal would obey, and as far as it is kept."""
    for given, told in (
        (b"o", "line 1: cut off: o"),
        (as_bytes(LINES) + b"\x00\x1f\x1b[2J\x7f\t\x80\xff ~", b"line 3: cut off: ???[2J??\x80\xff ~"),
        (as_bytes(LINES) + DELETED.encode() + b"\r", f"line 3: cut off: {DELETED}?"),
        (as_bytes(["", "", CREATED, ""]) + b"o: CHECKPOINT", "line 5: cut off: o: CHECKPOINT"),
    ):
        text = told if isinstance(told, bytes) else told.encode()
        for words in COMMANDS:
            seen = reading.run(words, given)
            reading.check(f"a front: {given[-20:]}, {words}", seen == (1, b"", b"sysr: " + text + b"\n"), seen)
    for words in COMMANDS:
        status, out, err = reading.run(words, as_bytes(LINES) + 9_000 * b"x")
        found = re.fullmatch(rb"sysr: line 3: cut off: (x+)\n", err)
        good = (status, out) == (1, b"") and found and 0 < len(found[1]) <= KEPT_BYTES
        reading.check(f"a long front, {words}", good, (status, out, err[:60], len(err)))


def line_of(user, size):
    """An INSERT of four texts that has so many bytes, and no blank that may be left out."""
    texts = size - len(f"{user}:INSERT INTO w VALUES('','','','')")
    literals = ["'" + (texts // 4 + (n < texts % 4)) * "x" + "'" for n in range(4)]
    return f"{user}:INSERT INTO w VALUES({','.join(literals)})"


def long_lines(reading):
    """A journal's line may have a statement of 4,096 bytes behind the name. A longer one ends the reading; of a script
    it is left out, as `run` reads none of more than 4,096 bytes."""
    for user, size in ((LONGEST_NAME, 4097), (LONGEST_NAME, 4112), (LONGEST_NAME, 4127), ("o", 4097), ("o", 4098)):
        given = [f"{user}: CREATE TABLE w {COLUMNS}", line_of(user, size)]
        for words in (["journal"], ["dump"]):
            reading.ends(f"a line of {size}", words, as_bytes(given), 0, given, [])
        reading.ends(f"a line of {size}", RIGHTS, as_bytes(given), 0, [FIELDS, f"w,{user},OWNER,yes,1,"], [])
        told = [f"left out 1 line: line 2: error 2 at {MAX_LINE}: too long"]
        for words in (["journal"], ["dump"]):
            for more, status in ([], 0), (["--strict"], 1):
                reading.ends(f"a script's line of {size}", [*words, "--script", *more], as_bytes(given), status,
                    given[:1], told)
    for user, size in ((LONGEST_NAME, 4128), ("o", 4099), ("o", 4128)):
        too_long(reading, user, size, len(user) + 1 + MAX_STATEMENT)
    for user, size in ((LONGEST_NAME, 4129), ("o", 4129), ("o", 4130), ("o", 100_000)):
        too_long(reading, user, size, LONGEST_LINE)


def too_long(reading, user, size, at):
    given = [f"{user}: CREATE TABLE w {COLUMNS}", "?", line_of(user, size), f"{user}: DELETE FROM w"]
    told = [f"line 3: error 2 at {at}: too long"]
    for words in COMMANDS:
        for more in ([], ["--cut-line", "drop"]):
            reading.ends(f"a line of {size} bytes", [*words, *more], as_bytes(given), 1, [], told)
    seen = [FIELDS, f"w,{user},OWNER,yes,1,"]
    reading.ends(f"behind the moment, a line of {size}", [*RIGHTS, "--at", "1"], as_bytes(given), 0, seen, [])


# Lines, each with why it is left out, if it is: a query is not, whatever it would be answered.
MIXED = (
    (CREATED, None),
    ("a: SELECT * FROM t", None),
    ("a: EXPORT 1", None),
    ("o: SELECT * FROM t WHERE x = 'a'", None),
    ("a: INSERT INTO u VALUES (1)", "denied @1: no table u"),
    ("o: CHECKPOINT", None),
    ("o: CHECKPOINT", None),
    ("o: CHECKPOINTS", None),
    ("o: INSERT INTO t VALUES (1, 2)", "refused @1: 2 values for 1 columns"),
    ("", "error 1 at 0: empty"),
    ("o: CREATE TABLE v (a TEXT)", None),
    (f"o: INSERT INTO v VALUES ('{1025 * 'x'}')", "error 2 at 25: too long"),
    ("a: REVOKE SELECT ON t FROM b", "denied @2: a granted no SELECT(x) on t to b"),
    ("O:insert into T values(1);", None),
    ("a SELECT", "error 4 at 0: not expected"),
)
KEPT = [CREATED, "o: CREATE TABLE v (a TEXT)", INSERTED]
DUMPED = [CREATED, "o: CREATE TABLE v (a TEXT)", INSERTED]
OWNED = [FIELDS, "t,o,OWNER,yes,1,", "v,o,OWNER,yes,2,"]


def left_out_told(whys):
    """What is told of lines that were left out: their numbers, each with why."""
    whys = [*whys]
    if not whys:
        return []
    number, why = whys[0]
    if len(whys) == 1:
        return [f"left out 1 line: line {number}: {why}"]
    return [f"left out {len(whys)} lines, first line {number}: {why}"]


def left_out_of(lines, heads):
    """Which of the lines say no change that is done, each with why, by the first line of what is answered to each."""
    for number, (line, (reply, *_)) in enumerate(zip(lines, heads), 1):
        asks = line.partition(":")[2].strip().partition(" ")[0].upper().startswith(QUERIES)
        if reply.startswith("error ") or reply.startswith(("denied @", "refused @")) and not asks:
            yield number, reply


def left_out(reading):
    """How many lines say no change that is done is told, and of the first which and why; queries are none of them."""
    for count in range(len(MIXED) + 1):
        given = [line for line, _ in MIXED[:count]]
        whys = [(number, why) for number, (_, why) in enumerate(MIXED[:count], 1) if why]
        changes = sum(line.startswith(("o: CREATE", "O:insert")) for line in given)
        for words, written in ((["journal"], KEPT[:changes]), (["dump"], DUMPED[:changes]),
                (RIGHTS, OWNED[:1 + min(changes, 2)])):
            for more, status in ([], 0), (["--strict"], 1 if whys else 0), (["--script"], 0):
                reading.ends(f"left out of {count} lines", [*words, *more], as_bytes(given), status, written,
                    left_out_told(whys))
    given = as_bytes([CREATED, *12 * ["a: DELETE FROM t"]])
    told = ["left out 12 lines, first line 2: denied @1: a lacks DELETE on t"]
    for words, written in ((["journal"], [CREATED]), (["dump"], [CREATED]), (RIGHTS, OWNED[:2])):
        reading.ends("left out of 13 lines", words, given, 0, written, told)


def up_to_a_moment(reading):
    """`explain --at m` looks at no line behind the one that made the m-th change, but at the end of the input."""
    given = [line for line, _ in MIXED]
    whys = [(number, why) for number, (_, why) in enumerate(MIXED, 1) if why]
    for m, seen in ((0, 0), (1, 0), (2, 3), (3, 5)):
        words, told = [*RIGHTS, "--at", str(m)], left_out_told(whys[:seen])
        reading.ends(f"left out up to @{m}", words, as_bytes(given), 0, OWNED[:1 + min(m, 2)], told)
        reading.ends(f"left out up to @{m}", [*words, "--strict"], as_bytes(given), 1 if told else 0,
            OWNED[:1 + min(m, 2)], told)
    words = [*RIGHTS, "--at", "1"]
    reading.ends("cut behind the moment", words, as_bytes(LINES) + b"o: DEL", 1, [], ["line 3: cut off: o: DEL"])


def behind_a_file(reading, folder):
    """`dump --load FILE` counts the lines of standard input from 1, and goes on with the moments of the file."""
    path = os.path.join(folder, "loaded-first")
    with open(path, "wb") as file:
        file.write(as_bytes(LINES))
    words = ["dump", "--load", path]
    reading.ends("left out behind a file", words, as_bytes([INSERTED, "a: DELETE FROM t"]), 0, [CREATED, *2 * [INSERTED]],
        ["left out 1 line: line 2: denied @3: a lacks DELETE on t"])
    reading.ends("cut behind a file", words, as_bytes([INSERTED]) + b"o: D", 1, [], ["line 2: cut off: o: D"])
    reading.ends("dropped behind a file", [*words, "--cut-line", "drop"], as_bytes([INSERTED]) + b"o: D", 0,
        [CREATED, *2 * [INSERTED]], ["left out line 2: cut off: o: D"])


def command_lines(reading):
    """These words are refused, and a reading may be told behind a question too."""
    for line in REFUSED:
        words = line.split()
        status, out, err = reading.run(words, b"")
        reading.check(f"refused: {words}", (status, out) == (2, b"") and err != b"", (status, out, err))
    told = ["left out 1 line: line 3: denied @2: a lacks DELETE on t"]
    given = as_bytes([*LINES, "a: DELETE FROM t"])
    for words in (["explain", "--strict", "rights"], ["explain", "rights", "--strict"]):
        seen = reading.run([*words, "--format", "csv"], given)
        wanted = 1, as_bytes([FIELDS, "t,o,OWNER,yes,1,"]), as_bytes(f"sysr: {line}" for line in told)
        reading.check(f"told beside the question: {words}", seen == wanted, seen)


def full_disks(reading):
    """What cannot be written whole ends with status 1, be it short or longer than what is gathered first."""
    if not os.path.exists("/dev/full"):
        return
    with open("/dev/full", "wb") as full:
        for lines in (LINES, [CREATED, *20_000 * [INSERTED]]):
            for words in (["journal"], ["dump"]):
                done = subprocess.run([reading.program, *words], input=as_bytes(lines), stdout=full,
                    stderr=subprocess.PIPE, timeout=WAIT)
                seen = done.returncode, done.stderr
                reading.check(f"{len(lines)} lines to a full disk, {words}", seen == (1, b"sysr: write fault\n"), seen)


def rows_too_long(reading):
    """A row that no line can say ends a dump with status 1, which says whose row it is; a journal has no such limit."""
    names = [f"c{n}" for n in range(6)]
    given = [f"o: CREATE TABLE pay ({', '.join(f'{name} TEXT' for name in names)}, n INTEGER)"]
    given += [f"o: INSERT INTO pay VALUES ({6 * (chr(39) * 2 + ', ')}{n})" for n in (1, 2, 3)]
    given += [f"o: UPDATE pay SET {name} = '{1000 * 'x'}' WHERE n = 2" for name in names]
    reading.ends("a row too long", ["journal"], as_bytes(given), 0, given, [])
    status, out, err = reading.run(["dump"], as_bytes(given))
    front = as_bytes(given[:2]).startswith(out)
    reading.check("a row too long, dumped", (status, err, front) == (1, b"sysr: row 2 of pay fits no line\n", True), (
        status, err, out[-99:]))
    given.append("o: DELETE FROM pay WHERE n = 2")
    reading.ends("a row too long that is gone", ["dump"], as_bytes(given), 0, [given[0], given[1], given[3]], [])


def little_memory(reading):
    """However little memory there is, what is written is whole, or nothing, and it is told why."""
    given = as_bytes([CREATED, *MANY * [INSERTED]])
    for words in (["journal"], ["dump"]):
        seen = set()
        for megabytes in (*range(8, 40, 4), 80, 400):
            limit = megabytes << 20
            status, out, err = reading.run(words, given,
                preexec_fn=lambda: resource.setrlimit(resource.RLIMIT_AS, (limit, limit)))
            whole = (status, out, err) == (0, given, b"")
            refused = (status, out) == (1, b"") and OF_MEMORY.fullmatch(err.decode()) is not None
            # (with less the loader starts no program)
            not_begun = status not in (0, 1) and out == b""
            reading.check(f"with {megabytes} MB, {words}", whole or refused or not_begun, (status, len(out), err[:200]))
            seen |= {"whole"} if whole else {"refused"} if refused else set()
        reading.check(f"some memory was too little, {words}", seen == {"refused", "whole"}, seen)


TOLD_IN_FULL = as_bytes([CREATED, INSERTED, "o: GRANT SELECT ON t TO a WITH GRANT OPTION", "a: GRANT SELECT ON t TO b, c",
    "o: UPDATE t SET x = 2 WHERE x = 1", "o: REVOKE GRANT OPTION FOR SELECT ON t FROM a"])


def refused_requests(program, check, preloaded, work):
    """Whichever request for memory is refused, what is written is whole, or nothing, and it is told why."""
    reading, requests = Reading(program, check), refusals.Requests(preloaded, work)
    for words in (["journal"], ["dump"]):
        whole, ended = reading.run(words, TOLD_IN_FULL), 0
        check(f"without a refusal, {words}", whole[0] == 0 and whole[2] == b"", whole)
        ask = lambda **more: [reading.run(words, TOLD_IN_FULL, **more)]
        for request, (status, out, err) in requests.one_by_one(ask):
            refused = (status, out) == (1, b"") and OF_MEMORY.fullmatch(err.decode()) is not None
            check(f"request {request} refused, {words}", refused or (status, out, err) == whole, (status, out, err))
            ended += refused
        check(f"refusals are told, {words}", ended > 5, ended)


def played(program, check, folder):
    reading = Reading(program, check)
    for test in (cut_lines, fronts, long_lines, left_out, up_to_a_moment, command_lines, full_disks, rows_too_long,
            little_memory):
        test(reading)
    behind_a_file(reading, folder)

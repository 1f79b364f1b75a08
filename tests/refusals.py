"""Requests for memory that are refused, one after another, and what may be answered then.

One refused request changes one answer: a line asks nothing, a list or the rest of an export is lost, or a
checkpoint is given up. So each output that may stand is known from the same script without a refusal, in
which that line asks nothing. The scripts are worked examples of tests/examples, with lines behind them
that tell of rows, rights and checkpoints and change nothing. Each stands twice, since the refused request
may be one of its own.
"""
import functools
import os
import subprocess

import one_history

WAIT = 60
HERE = os.path.dirname(os.path.abspath(__file__))

# A line that is not read: it asks nothing, and the checkpointer takes its step after it.
NOTHING = "?"

RIGHTS = ["o: SELECT * FROM t", *(f"{user}: SELECT * FROM t" for user in "abcd"),
    # (none of them may grant or has granted INSERT: so the lack tells whether he may grant or has granted SELECT, and
    # whether with the option)
    *(f"{user}: GRANT SELECT, INSERT ON t TO z" for user in "abcd"),
    *(f"{by}: REVOKE{option} SELECT, INSERT ON t FROM {to}" for option in ("", " GRANT OPTION FOR")
        for by, to in ("oa", "ob", "ac", "bc", "cd"))]

# The examples, how many steps their checkpoint takes, and the lines behind them.
SCRIPTS = {
    "first_run": (0, ["ann: SELECT * FROM pay"]),
    "repeated_grants": (0, RIGHTS),
    "option_keeps_others": (0, RIGHTS),
    "kept_value": (3, ["ann: SELECT * FROM t", "ann: EXPORT 1"]),
    "captured_grants": (2, ["o: SELECT * FROM t", "u: SELECT * FROM t", "o: REVOKE SELECT, INSERT ON t FROM u",
        "o: EXPORT 1", "u: EXPORT 1"]),
    "option_in_image": (3, ["a: SELECT * FROM t", "b: SELECT * FROM t", "a: GRANT SELECT, INSERT ON t TO z",
        "o: REVOKE GRANT OPTION FOR SELECT, INSERT ON t FROM a", "b: EXPORT 1", "z: EXPORT 1"]),
    "column_exports": (1, ["bob: SELECT name FROM pay", "bob: SELECT wage FROM pay", "ann: EXPORT 1", "bob: EXPORT 1",
        "ann: REVOKE SELECT (wage), INSERT ON pay FROM bob"]),
    "folding_and_quotes": (0, ["ann: SELECT * FROM pay"]),
}

# The step behind CHECKPOINT is refused memory in `kept_value`.
GIVEN_UP = ["done @1", "done @2", "done @3", "done @4", "checkpoint 1 begun @4", "checkpoint 1 abandoned", "done @5",
    "done @6", "denied @6: no checkpoint 1", "rows 0 @6"]


def example(name):
    """Words, lines, and what is written for these."""
    with open(os.path.join(HERE, "examples", f"{name}.txt"), encoding="utf-8") as file:
        text = file.read().split("\n")
    start = next(at for at, line in enumerate(text) if line.startswith("$ sysr run"))
    body = [line for line in text[start + 1:] if line]
    words = text[start].removeprefix("$ sysr ").removesuffix(" --audit").split()
    given = [line for line in body if not line.startswith("    ")]
    return words, given, [line[4:] for line in body if line.startswith("    ")]


def looked_up():
    """Words, lines, and what is written for these: a table gets an index where its column is asked for again, and keeps
    it. That is never worth a refusal."""
    rows = 260
    given = ["CREATE TABLE t (x INTEGER)", *(f"INSERT INTO t VALUES ({number})" for number in range(rows)),
        "SELECT * FROM t WHERE x = 7", "SELECT * FROM t WHERE x = 7", "INSERT INTO t VALUES (7)",
        "UPDATE t SET x = 8 WHERE x = 7", "SELECT * FROM t WHERE x = 8", "DELETE FROM t WHERE x = 8",
        "SELECT * FROM t WHERE x = 8", "SELECT * FROM t WHERE x = 9"]
    wanted = [*(f"done @{moment}" for moment in range(1, rows + 2)), *2 * [f"rows 1 @{rows + 1}", "row,7"],
        f"done @{rows + 2}", f"done @{rows + 3}", f"rows 3 @{rows + 3}", *3 * ["row,8"], f"done @{rows + 4}",
        f"rows 0 @{rows + 4}", f"rows 1 @{rows + 4}", "row,9"]
    return ["run"], [f"ann: {statement}" for statement in given], wanted


def half_made():
    """The same of a table with so many rows that two questions make its index, whose rows change in between; and how many
    lines come before the first question."""
    rows = 8_300
    front = ["CREATE TABLE t (x INTEGER)", *(f"INSERT INTO t VALUES ({number})" for number in range(rows))]
    given = ["SELECT * FROM t WHERE x = 7", "SELECT * FROM t WHERE x = 7", "UPDATE t SET x = 8299 WHERE x = 7",
        "UPDATE t SET x = 7 WHERE x = 8298", "INSERT INTO t VALUES (7)", "SELECT * FROM t WHERE x = 7",
        "SELECT * FROM t WHERE x = 8299", "DELETE FROM t WHERE x = 7", "SELECT * FROM t WHERE x = 7"]
    at = rows + 1
    wanted = [*(f"done @{moment}" for moment in range(1, at + 1)), *2 * [f"rows 1 @{at}", "row,7"],
        *(f"done @{at + more}" for more in (1, 2, 3)), f"rows 2 @{at + 3}", *2 * ["row,7"], f"rows 2 @{at + 3}",
        *2 * ["row,8299"], f"done @{at + 4}", f"rows 0 @{at + 4}"]
    return ["run"], [f"ann: {statement}" for statement in (*front, *given)], wanted, len(front)


class Script:
    """Lines that the program answers where no request for memory is refused."""

    def __init__(self, program, words, lines):
        self.program, self.words, self.lines = program, words, lines
        self.full = self.answered(lines)

    def run(self, lines, audit=("--audit",), **more):
        """Status, the lines written, and standard error."""
        given = "\n".join(lines).encode()
        words = [self.program, *self.words, *audit]
        done = subprocess.run(words, input=given, capture_output=True, timeout=WAIT, **more)
        return done.returncode, done.stdout.decode().split("\n"), done.stderr.decode()

    def answered(self, lines):
        """The reply to each line, and the audit's last line."""
        told = [*one_history.replies(self.run(lines)[1][:-1])]
        assert len(told) == len(lines) + 1, told
        return told

    def without(self, at):
        """The same where this line asks nothing."""
        return self.answered([*self.lines[:at], NOTHING, *self.lines[at + 1:]])

    def lacking(self, at):
        """What may be written where a request of this line was refused."""
        told, without = self.full[at], self.without(at)
        head = told[0]
        yield [*without[:at], ["refused: no memory"], *without[at + 1:]]
        if head.startswith(("done @", "rows ", "checkpoints ", "export ")):
            moment = int(head.split("@")[1]) - head.startswith("done @")
            yield [*without[:at], [f"refused @{moment}: no memory"], *without[at + 1:]]
        if head.startswith(("rows ", "checkpoints ")):
            yield [*self.full[:at], ["reply lost: no memory"], *self.full[at + 1:]]
        if head.startswith("export "):
            for given in range(1, len(told)):
                yield [*self.full[:at], [*told[:given], "export cut: no memory"], *self.full[at + 1:]]

    def given_up(self, steps):
        """What may be written where a step of the checkpointer was refused: the checkpoint is never there."""
        begun = next(at for at, told in enumerate(self.full) if told[0].startswith("checkpoint 1 begun @"))
        without = self.without(begun)
        without[begun] = self.full[begun]
        for at in range(begun, begun + steps):
            yield [*without[:at], [*without[at], "checkpoint 1 abandoned"], *without[at + 1:]]

    def outputs(self, steps, front=0):
        """Each output that may stand, as lines, where no request of the first lines was refused."""
        told = [self.full, *(answer for at in range(front, len(self.lines)) for answer in self.lacking(at))]
        told += self.given_up(steps) if steps else []
        return {tuple(line for reply in answer for line in reply) for answer in told}


class Requests:
    """A library to load before libc's, which counts requests for memory and refuses one."""

    def __init__(self, preloaded, work):
        self.preloaded, self.told = preloaded, os.path.join(work, "requests")

    def counted(self, run, refused=0):
        """What comes of a run with this request refused, and how many were made."""
        more = {"LD_PRELOAD": self.preloaded, "REFUSED_REQUEST": str(refused), "REQUESTS_TOLD_IN": self.told}
        seen = run(env={**os.environ, **more})
        with open(self.told, encoding="ascii") as file:
            return seen, int(file.read())

    def one_by_one(self, run, first=1):
        """What comes of a run of which this request is refused, the next, and so on, while there is one."""
        for request in range(first, first + 10_000):
            seen, made = self.counted(run, request)
            if made < request:
                return
            yield request, *seen


def each_request(program, check, requests):
    scripts = {name: (example(name), *more) for name, more in SCRIPTS.items()} | {"looked_up": (looked_up(), 0, [])}
    scripts["half_made"] = (half_made(), 0, [])
    for name, ((words, given, wanted, *fronts), steps, behind) in scripts.items():
        probes = [line for line in [*behind, f"{given[0].split(':')[0]}: CHECKPOINTS"] for _ in range(2)]
        script = Script(program, words, [*given, *probes])
        whole = [line for reply in script.full for line in reply]
        audited = wanted.pop() if wanted[-1].startswith("audit") else whole[-1]
        check(f"{name}: without a refusal", whole[:len(wanted)] == wanted and whole[-1] == audited, whole)
        front = sum(fronts)
        # (a longer script makes a few requests more before its last lines)
        allowed, ended, seen = script.outputs(steps, max(front - 10, 0)), 0, set()
        played = functools.partial(script.run, script.lines)
        first = requests.counted(functools.partial(script.run, script.lines[:front], audit=[]))[1] if front else 1
        for request, status, lines, err in requests.one_by_one(played, first):
            if status == 1:
                # (before the first line is read, or in the audit)
                good = err == "sysr: no memory\n" and lines[:-1] in ([], whole[:-1])
                ended += 1
            else:
                good = (status, err, lines[-1]) == (0, "", "") and tuple(lines[:-1]) in allowed
                seen.add(tuple(lines[:-1]))
            check(f"{name}: request {request} refused", good, (status, err, lines))
        check(f"{name}: refusals are told", ended > 1 and len(seen) > 2, (ended, seen))
        if name == "kept_value":
            given_up = [lines for lines in seen if [*lines[:len(GIVEN_UP)]] == GIVEN_UP]
            check("a checkpoint whose first step is refused", given_up, seen)


class Calls:
    """The program `refusals`, which makes calls and, where they are refused memory, makes them again."""

    def __init__(self):
        self.folder = os.path.join(HERE, "..", "crates", "refusals")
        self.program = os.path.join(self.folder, "out", "refusals")

    def run(self, *words, **more):
        """Status, what was written, and standard error."""
        done = subprocess.run([self.program, *words], capture_output=True, timeout=WAIT, **more)
        return done.returncode, done.stdout.decode(), done.stderr.decode()


def calls_again(check, calls, requests):
    """Whichever request is refused, the same is written; or a front, where the program itself found no memory."""
    with open(os.path.join(calls.folder, "stdout"), encoding="utf-8") as file:
        wanted = file.read()
    ended = whole = 0
    for request, status, out, err in requests.one_by_one(calls.run):
        is_whole = (status, out, err) == (0, wanted, "")
        is_front = (status, err) == (1, "") and wanted.startswith(out) and out[-1:] in ("", "\n")
        check(f"calls: request {request} refused", is_whole or is_front, (status, out, err))
        whole, ended = whole + is_whole, ended + is_front
    check("calls are made again", whole > 20 and ended > 20, (whole, ended))


def tickets_are_cheap(check, calls, requests):
    """A ticket and its first record take as many requests for a table of 300 rows as for one of 3, by its owner and by
    a user who holds SELECT of one column of two."""
    def made(user, rows, tickets):
        (status, *_), count = requests.counted(functools.partial(calls.run, str(rows), str(tickets), user))
        check(f"{tickets} tickets of {rows} rows for {user}", status == 0, status)
        return count

    for user in ("ann", "bob"):
        few, many = (made(user, rows, 9) - made(user, rows, 0) for rows in (3, 300))
        check(f"requests of tickets for {user}", few == many and few > 0, (few, many))


def played(program, check, preloaded, work):
    requests, calls = Requests(preloaded, work), Calls()
    each_request(program, check, requests)
    if os.path.exists(calls.program):
        calls_again(check, calls, requests)
        tickets_are_cheap(check, calls, requests)
    else:
        print("crates/refusals is not built: its calls were not refused memory")
    one_history.played(program, check, work)

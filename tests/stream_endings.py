"""How `sysr stream` ends: lines that say no change, a last line that is cut off, a folder in place of standard input, a
full disk, little memory; and that what was read is told before more is read."""
import os
import re
import select
import subprocess
import tempfile

import refusals
from streams import EXAMPLE, EXAMPLE_STREAM, WAIT

LINES = EXAMPLE.splitlines(keepends=True)
RECORDS = EXAMPLE_STREAM.splitlines(keepends=True)
# A moment is told as a whole: so many records stand behind each of the example.
BEHIND = {moment: sum(int(record.split(",")[0]) <= moment for record in RECORDS) for moment in range(len(LINES) + 1)}
OF_MEMORY = re.compile(r"sysr: (line \d+: refused( @\d+)?: )?no memory\n")
# A line that says no change that is done, and why, where it stands behind the first line of the example.
REFUSED = (
    ("ann: SELECT * FROM pay\n", "line 2: no change"),
    ("\n", "line 2: error 1 at 0: empty"),
    ("ann: INSERT INTO pay VALUES (5, 'Bo')\n", "line 2: refused @1: column name takes TEXT"),
    ("bob: INSERT INTO pay VALUES ('Bo', 5)\n", "line 2: denied @1: bob lacks INSERT on pay"),
    ("ann: CREATE TABLE pay (x INTEGER)\n", "line 2: denied @1: table pay exists"),
)


def run(program, words, given, **more):
    done = subprocess.run([program, "stream", *words], input=given.encode(), capture_output=True, timeout=WAIT, **more)
    return done.returncode, done.stdout.decode(), done.stderr.decode()


def refused_lines(program, check):
    """The lines before one that says no change that is done are told, and of it which it is."""
    for line, why in REFUSED:
        status, out, err = run(program, [], LINES[0] + line + "".join(LINES[1:]))
        check(f"stream: {line!r} ends it", (status, out, err) == (1, RECORDS[0], f"sysr: {why}\n"), (status, out, err))


def cut_lines(program, check):
    """A last line without a line feed is not told, be it a change or the front of one."""
    for at in range(1, len(LINES)):
        for end in (len(LINES[at]) - 1, len(LINES[at]) // 2, 1):
            seen = run(program, [], "".join(LINES[:at]) + LINES[at][:end])
            wanted = 0, "".join(RECORDS[:BEHIND[at]]), "sysr: the last line was cut off, and says nothing\n"
            check(f"stream: line {at + 1} cut at {end}", seen == wanted, seen)


def moments(program, check):
    """`--from` leaves out what came up to a moment, also one that is not there yet."""
    for moment in [*BEHIND, 1_000_000_000]:
        seen = run(program, ["--from", str(moment)], EXAMPLE)
        wanted = "".join(RECORDS[BEHIND.get(moment, len(RECORDS)):])
        check(f"stream from {moment}", seen == (0, wanted, ""), seen)
    for words in (["--from", "1000000001"], ["--from", "-1"], ["--from"], ["--changes", "0"], ["pay.journal"]):
        status, out, err = run(program, words, EXAMPLE)
        check(f"stream {words} is refused", (status, out) == (2, "") and err != "", (status, out, err))
    seen = run(program, ["--changes", "5"], EXAMPLE)
    wanted = 1, "".join(RECORDS[:BEHIND[5]]), "sysr: line 6: refused @5: full: changes\n"
    check("stream of more than --changes", seen == wanted, seen)


def folders(program, check):
    """The pieces of a server's folder are one journal."""
    with tempfile.TemporaryDirectory() as folder:
        for first, last in ((0, 4), (4, 4), (4, len(LINES))):
            with open(os.path.join(folder, f"journal-{first:010}"), "w", encoding="utf-8") as file:
                file.writelines(LINES[first:last])
        for words, wanted in (([], EXAMPLE_STREAM), (["--from", "8"], "".join(RECORDS[BEHIND[8]:]))):
            seen = run(program, ["--data", folder, *words], "")
            check(f"stream of a folder, {words}", seen == (0, wanted, ""), seen)


def full_disks(program, check):
    if not os.path.exists("/dev/full"):
        return
    with open("/dev/full", "wb") as full:
        done = subprocess.run([program, "stream"], input=EXAMPLE.encode(), stdout=full, stderr=subprocess.PIPE, timeout=WAIT)
    check("stream to a full disk", (done.returncode, done.stderr) == (1, b"sysr: write fault\n"), done)


def told_before_more(program, check):
    """Whoever writes a line and waits is told what it did."""
    with subprocess.Popen([program, "stream"], stdin=subprocess.PIPE, stdout=subprocess.PIPE, bufsize=0) as child:
        for moment, line in enumerate(LINES, 1):
            child.stdin.write(line.encode())
            wanted = "".join(RECORDS[BEHIND[moment - 1]:BEHIND[moment]]).encode()
            seen = b""
            while len(seen) < len(wanted) and select.select([child.stdout], [], [], WAIT)[0]:
                seen += child.stdout.read(len(wanted) - len(seen)) or wanted
            check(f"stream: line {moment} is told at once", seen == wanted, seen)
        child.stdin.close()
        rest = child.stdout.read()
    check("stream: then it ends", (child.returncode, rest) == (0, b""), (child.returncode, rest))


def refused_requests(program, check, preloaded, work):
    """Whichever request for memory is refused, whole moments are told, and then why no more are."""
    requests, ended = refusals.Requests(preloaded, work), 0
    fronts = {"".join(RECORDS[:behind]) for behind in BEHIND.values()}
    for request, (status, out, err) in requests.one_by_one(lambda **more: [run(program, [], EXAMPLE, **more)]):
        refused = status == 1 and out in fronts and OF_MEMORY.fullmatch(err) is not None
        check(f"stream: request {request} refused", refused or (status, out, err) == (0, EXAMPLE_STREAM, ""),
            (status, out, err))
        ended += refused
    check("stream: refusals are told", ended > 5, ended)


def played(program, check):
    for test in (refused_lines, cut_lines, moments, folders, full_disks, told_before_more):
        test(program, check)

"""What the messages of a login may be, where one may be cut off, and what refused and unfinished logins cost others."""
import base64
import contextlib
import re
import socket
import tempfile
import threading
import time

import scram
from callers import (A_SECOND, AT_ONCE, LISTED, NONCE, NOT_EXPECTED, PASSWORDS, REFUSED, Caller, Logins, called,
    in_parallel)
from served import WAIT

# When a login that is not finished is ended, in seconds.
TEN_SECONDS = 9.5, 12
UNFINISHED = 64
# (a nonce may have any printable ASCII but the blank and the comma)
ALL_BYTES = "".join(map(chr, range(33, 127))).replace(",", "")

TAKEN = (
    ("another header", scram.first_message(NONCE, header="y,,")),
    ("a name", scram.first_message(NONCE, "ann")),
    ("the name of another", scram.first_message(NONCE, "bob")),
    ("a star as the name", scram.first_message(NONCE, "*")),
    ("a name of any bytes", scram.first_message(NONCE, "=2C \x00\t\xff\xc3")),
    ("a nonce of a byte", scram.first_message("!")),
    ("a nonce of all bytes", scram.first_message(ALL_BYTES)),
    ("a nonce as a first message", scram.first_message("n=r=c=p=v=")),
    ("a nonce of 900 bytes", scram.first_message(900 * "~")),
)

NOT_TAKEN = ("p=tls-unique,,n=,r=abc", "p=tls-server-end-point,,n=,r=abc", "p,,n=,r=abc", "n,a=ann,n=,r=abc",
    "n,a=,n=,r=abc", "N,,n=,r=abc", "z,,n=,r=abc", ",,n=,r=abc", "n,n=,r=abc", "n=,r=abc", "n,,r=abc", "n,,", "n,,n=",
    "n,,n=,r=", "n,,n=,r=a b", "n,,n=,r=abc ", "n,,n=,r=a\xe4", "n,,n=,r=a\x7f", "n,,n=,r=a\tb", "n,,n=,r=a\x00",
    "n,,n=,r=abc,", "n,,n=,r=abc,x=y", "n,,n=,r=abc,r=abc", "n,,m=ext,n=,r=abc", "n,,n=,m=ext,r=abc", "n,,n=,,r=abc",
    "n,,n=a,b,r=abc", "n,,n=,s=abc", "n,,N=,r=abc", "n,,n=,R=abc", "n,,r=abc,n=", "c=biws,r=abc,p=abc", "", " ",
    " n,,n=,r=abc", "n,,n=,r=" + 1100 * "x", "n,,n=" + 1100 * "x" + ",r=abc", "n,,n=,r=" + 5000 * "x")

NO_LOGIN = ("LOGIN", "LOGIN ", "LOGIN ann", "LOGIN n,,n=,r=abc", "LOGIN  n,,n=,r=abc", "LOGIN  ann n,,n=,r=abc",
    "LOGIN ann  n,,n=,r=abc", "login ann n,,n=,r=abc", "Login ann n,,n=,r=abc", "LOGIN\tann n,,n=,r=abc",
    " LOGIN ann n,,n=,r=abc", "LOGINann n,,n=,r=abc", "LOGIN table n,,n=,r=abc", "LOGIN 1bad n,,n=,r=abc",
    "LOGIN \xe4nn n,,n=,r=abc", f"LOGIN {31 * 'a'} n,,n=,r=abc", "LOGIN ann: n,,n=,r=abc", "USER ann n,,n=,r=abc")


def first_messages(logins):
    """Which first messages are taken, and prove what they should behind that."""
    server = logins.with_users(workers=16)
    for name, first in TAKEN:
        logins.is_welcome(f"a first message with {name}", server, "ann", None, first)
    for line in (*(f"LOGIN ann {message}" for message in NOT_TAKEN), *NO_LOGIN):
        seen = called(server, f"{line}\nCHECKPOINTS\n")
        logins.check(f"no first message: {line[:50]}", seen == NOT_EXPECTED, seen)
    caller = Caller(server.connect())
    claim = scram.Claim(PASSWORDS["ann"], scram.first_message(NONCE))
    caller.send(f"LOGIN ann {claim.first}\r\n")
    caller.send(f"{claim.last(caller.line()[:-1])}\r\nCHECKPOINTS\r\n")
    said = [caller.line(), caller.line(), caller.line()]
    logins.check("carriage returns", said == [claim.wanted + "\n", "welcome ann\n", LISTED], said)
    caller.end()
    longest_lines(logins, server)
    logins.stop(server)


def longest_lines(logins, server):
    """A line of a login has at most 1,024 bytes, its end not counted."""
    front = len(f"LOGIN ann {scram.first_message('')}")
    caller = Caller(server.connect())
    claim = scram.Claim(PASSWORDS["ann"], scram.first_message((1024 - front) * "x"))
    challenge = caller.challenged("ann", claim)
    last = claim.last(challenge)
    seen = len(last) > 1024, caller.ask(last)
    logins.check("the longest first line, and a last one that is too long", seen == (True, REFUSED), seen)
    seen = called(server, f"LOGIN ann {scram.first_message((1025 - front) * 'x')}\n")
    logins.check("a first line that is too long", seen == NOT_EXPECTED, seen)
    spare = 1024 - (len(last) - len(claim.nonce))
    logins.is_welcome("the longest last line", server, "ann", None, scram.first_message(spare * "x"))
    logins.is_refused("one byte more", server, "ann", None, scram.first_message((spare + 1) * "x"))


def changed(part, by):
    """The right last message, changed in this part: `c`, `,r` or `,p`."""
    def last(claim, challenge):
        return re.sub(f"(?<={part}=)[^,]*", lambda found: by(found[0]), claim.last(challenge), count=1)
    return last


def by_keys(choose, front=lambda text: text):
    """A last message whose proof is right for its front, by keys of the password in another order."""
    def last(claim, challenge):
        right = claim.last(challenge).rpartition(",p=")[0]
        salt, iterations = scram.CHALLENGE.fullmatch(challenge).groups()[1:]
        own = scram.keys(claim.password, base64.b64decode(salt), int(iterations))
        return claim.proved(challenge, front(right), *choose(*own))
    return last


def in_order(*keys):
    return keys


def other_text(proof):
    """Another text of base64 that is decoded to the same bytes: the last two bits before the end count for nothing."""
    letters = "ABCDEFGHIJKLMNOPQRSTUVWXYZabcdefghijklmnopqrstuvwxyz0123456789+/"
    return proof[:-2] + letters[letters.index(proof[-2]) ^ 1] + "="


LASTS = (
    ("the header of another", changed("c", lambda text: "eSws")),
    ("no header", changed("c", lambda text: "")),
    ("the client's nonce alone", changed(",r", lambda text: NONCE)),
    ("the server's nonce alone", changed(",r", lambda text: text.removeprefix(NONCE))),
    ("a longer nonce", changed(",r", lambda text: text + "x")),
    ("no proof", changed(",p", lambda text: "")),
    ("a proof cut off", changed(",p", lambda text: text[:-4])),
    ("a proof without its end", changed(",p", lambda text: text[:-1])),
    ("a longer proof", changed(",p", lambda text: text[:-1] + "AAA=")),
    ("a proof in other letters", changed(",p", other_text)),
    ("a proof of zeros", changed(",p", lambda text: 43 * "A" + "=")),
    ("a proof with a blank", changed(",p", lambda text: text + " ")),
    ("the header of another, proved", by_keys(in_order, lambda front: front.replace("biws", "eSws"))),
    ("the client's nonce alone, proved", by_keys(in_order, lambda front: f"c=biws,r={NONCE}")),
    ("an extension, proved", by_keys(in_order, lambda front: front + ",x=y")),
    ("a mandatory extension, proved", by_keys(in_order, lambda front: "m=x," + front)),
    ("a proof by the server's key", by_keys(lambda client, stored, server: (server, stored, server))),
    ("a proof by the stored key", by_keys(lambda client, stored, server: (stored, stored, server))),
    ("an extension behind it", lambda claim, challenge: claim.last(challenge) + ",x=y"),
    ("a proof twice", lambda claim, challenge: claim.last(challenge) + claim.last(challenge)[-47:]),
    ("the challenge", lambda claim, challenge: challenge),
    ("the first line", lambda claim, challenge: f"LOGIN ann {claim.first}"),
    ("a statement", lambda claim, challenge: "CREATE TABLE t (x INTEGER)"),
    ("a user", lambda claim, challenge: "USER ann"),
    ("an empty line", lambda claim, challenge: ""),
    ("a blank before it", lambda claim, challenge: " " + claim.last(challenge)),
    ("a line of 1,100 bytes", lambda claim, challenge: claim.last(challenge).ljust(1100)),
    ("a line of 5,000 bytes", lambda claim, challenge: claim.last(challenge).ljust(5000)),
    ("the proof of another", lambda claim, challenge: scram.Claim(PASSWORDS["bob"], claim.first).last(challenge)),
)


def last_messages(logins):
    """Last messages that prove nothing, each in a login of its own; and nothing behind them is carried out."""
    server = logins.with_users("--journal", logins.journal, workers=16)

    def refused(named):
        name, last = named
        caller, claim = Caller(server.connect()), scram.Claim(PASSWORDS["ann"], scram.first_message(NONCE))
        challenge = caller.challenged("ann", claim)
        begun = time.monotonic()
        caller.send(last(claim, challenge) + "\nCREATE TABLE t (x INTEGER)\n")
        said = caller.ended()
        return f"refused: {name}", said, time.monotonic() - begun

    for name, said, took in in_parallel(refused, LASTS):
        logins.check(name, said == REFUSED and took > A_SECOND[0], (said, took))
    logins.is_welcome("behind them", server, "ann")
    logins.stop(server)
    with open(logins.journal) as file:
        kept = file.read()
    logins.check("nothing is carried out", kept == "", kept)


def cut(logins):
    """A login that ends at any of its bytes makes no session; where only the last line feed is left out, it may."""
    server = logins.with_users("--journal", logins.journal, workers=16)
    claim = scram.Claim(PASSWORDS["ann"], scram.first_message("abc"))
    opening = f"LOGIN ann {claim.first}\n"
    caller = Caller(server.connect())
    size = len(opening) + len(claim.last(caller.challenged("ann", claim))) + 1
    caller.reset()

    def ends(place):
        caller = Caller(server.connect())
        caller.send(opening[:place])
        if place < len(opening):
            return place, {"", NOT_EXPECTED, REFUSED}, caller.finish()
        challenge, own = caller.line(), scram.Claim(claim.password, claim.first)
        last = own.last(challenge[:-1]) + "\n"
        caller.send(last[:place - len(opening)])
        welcome = f"{own.wanted}\nwelcome ann\n"
        wanted = {size: {welcome}, size - 1: {"", welcome}}.get(place, {"", REFUSED})
        return place, wanted, caller.finish()

    for place, wanted, seen in in_parallel(ends, range(size + 1)):
        first, _, behind = seen.partition("\n")
        is_challenge = place < len(opening) and scram.CHALLENGE.fullmatch(first) is not None
        logins.check(f"cut at byte {place}", (behind if is_challenge else seen) in wanted, seen)
    logins.is_welcome("behind them", server, "ann")
    logins.stop(server)


def said_twice(logins):
    """Messages that are said again: a connection has one login, and a login its own nonces."""
    server = logins.with_users()
    claim = scram.Claim(PASSWORDS["ann"], scram.first_message("abc"))
    opening = f"LOGIN ann {claim.first}"
    caller = Caller(server.connect())
    last = claim.last(caller.challenged("ann", claim))
    said = [caller.ask(last) + caller.line(), caller.ask(opening), caller.ask(last)[:6], caller.ask("CHECKPOINTS")]
    said.append(caller.end())
    wanted = [f"{claim.wanted}\nwelcome ann\n", NOT_EXPECTED, "error ", LISTED, ""]
    logins.check("both lines twice", said == wanted, said)

    def again(play):
        caller, begun = Caller(server.connect()), time.monotonic()
        return play(caller), caller.ended(), time.monotonic() - begun

    def first_line_twice(caller):
        caller.send(f"{opening}\n{opening}\n{last}\n")
        return caller.line()

    def replayed(caller):
        challenge = caller.challenged("ann", claim)
        caller.send(last + "\n")
        return challenge + "\n"

    def at_once(caller):
        caller.send(f"{opening}\n{last}\nCREATE TABLE t (x INTEGER)\n")
        return caller.line()

    plays = first_line_twice, replayed, at_once
    challenges = set()
    for play, (challenge, said, took) in zip(plays, in_parallel(again, plays)):
        good = scram.CHALLENGE.fullmatch(challenge[:-1]) and said == REFUSED and A_SECOND[0] <= took <= A_SECOND[1]
        logins.check(f"said twice: {play.__name__}", good, (challenge, said, took))
        challenges.add(challenge)
    logins.check("a nonce for each login", len(challenges) == len(plays), challenges)
    logins.stop(server)


def statements_behind(logins):
    """Statements that are sent with the last message are answered, however many."""
    server = logins.with_users()
    for count in (1, 100, 20_000):
        caller, claim = Caller(server.connect()), scram.Claim(PASSWORDS["ann"], scram.first_message(NONCE))
        last = claim.last(caller.challenged("ann", claim))
        sender = threading.Thread(target=caller.send, args=(last + "\n" + count * "CHECKPOINTS\n",))
        sender.start()
        said = [caller.line() for _ in range(count + 2)]
        sender.join()
        good = said[:2] == [claim.wanted + "\n", "welcome ann\n"] and said[2:] == count * [LISTED]
        logins.check(f"{count} statements behind a login", good, said[:3])
        logins.check(f"{count} statements behind a login: the end", caller.end() == "", "more")
    logins.stop(server)


def for_the_next_worker(logins):
    """Who has logged in while the only worker was busy gets all his answers, also if he has sent his end by then."""
    server = logins.with_users(workers=1)
    count, claim = 500, scram.Claim(PASSWORDS["ann"], scram.first_message(NONCE))
    callers = [Caller(server.connect()) for _ in range(4)]
    challenges = [caller.challenged("ann", claim) for caller in callers]
    busy = Caller(server.connect())
    logins.check("a busy worker", busy.logs_in("bob")[0] == "signed, welcome bob\n", "refused")
    for caller, challenge in zip(callers, challenges):
        caller.send(claim.last(challenge) + "\n" + count * "CHECKPOINTS\n")
    for caller in callers[::2]:
        caller.client.shutdown(socket.SHUT_WR)
    busy.end()

    def answers(caller):
        # (a statement that is lost is not waited for as long as elsewhere)
        caller.client.settimeout(10)
        lines = []
        with contextlib.suppress(OSError):
            lines.extend(caller.line() for _ in range(count + 2))
            return lines[1:], caller.finish()
        return lines[1:], "no answer in time"

    for place, (lines, end) in enumerate(in_parallel(answers, callers)):
        good = (lines, end) == (["welcome ann\n", *count * [LISTED]], "")
        logins.check(f"for the next worker: {place}", good, (len(lines), lines[:2], end))
    logins.stop(server)


def crowded(logins):
    """Of 300 callers who say nothing none is in the way of who logs in beside them, and the server stops at once."""
    server = logins.with_users()
    callers = [Caller(server.connect()) for _ in range(300)]
    took = logins.is_welcome("beside a crowd", server, "ann")
    logins.check("a crowd holds nobody up", took < AT_ONCE, took)
    begun = time.monotonic()
    lines = logins.stop(server)
    left = [caller.ended() for caller in callers]
    took = time.monotonic() - begun
    logins.check("a crowd ends with its server", (left, lines) == (300 * [""], []) and took < 5, (took, lines))


def counted(logins):
    """Of a server for five sessions each connection counts, also one whose login is refused, or that says nothing."""
    server = logins.with_users("--sessions", "5")
    said = [called(server, "USER ann\n"), called(server, ""), logins.logs_in(server, "ann", "pencils")[0]]
    said += [logins.logs_in(server, user)[0] for user in ("ann", "bob")]
    wanted = [NOT_EXPECTED, "", REFUSED, "signed, welcome ann\n", "signed, welcome bob\n"]
    logins.check("two logins of five", said == wanted, said)
    out, _ = server.child.communicate(timeout=WAIT)
    logins.check("five sessions", (server.child.returncode, out) == (0, b"served 5\n"), out)


def waits(logins):
    """A refusal takes its client a second, also where there are many, and others nothing."""
    server = logins.with_users(workers=1)
    logins.is_welcome("before refusals", server, "ann")
    told = []

    def refused(number):
        said, took = logins.logs_in(server, "ann", "pencils")
        return said == REFUSED and A_SECOND[0] <= took <= A_SECOND[1], took

    refusals = threading.Thread(target=lambda: told.extend(in_parallel(refused, range(50))))
    refusals.start()
    time.sleep(0.2)
    took = [logins.is_welcome("beside refusals", server, "bob") for _ in range(8)]
    logins.check("who waits waits alone", max(took) < AT_ONCE, took)
    refusals.join()
    logins.check("each refusal a second", len(told) == 50 and all(good for good, _ in told), told)
    lines = logins.stop(server)
    form = re.compile(r"login refused: user ann, peer 127\.0\.0\.1:\d+")
    good = len(lines) == len(set(lines)) == 50 and all(map(form.fullmatch, lines))
    logins.check("each is told", good, (len(lines), lines[:2]))


class Unfinished:
    """Callers who say half a line, some who say nothing behind the challenge, and one who says a byte now and then."""

    def __init__(self, server):
        self.begun, self.ends = time.monotonic(), []
        first = scram.first_message(NONCE)
        self.callers = [Caller(server.connect()) for _ in range(UNFINISHED + 1)]
        for caller in self.callers[:UNFINISHED // 2]:
            caller.send(f"LOGIN ann {first}")
        self.challenges = [caller.challenged("ann", scram.Claim("pencil", first))
            for caller in self.callers[UNFINISHED // 2:UNFINISHED]]
        self.threads = [threading.Thread(target=work, daemon=True) for work in (self.drips, self.waits)]
        for thread in self.threads:
            thread.start()

    def drips(self):
        with contextlib.suppress(OSError):
            for byte in f"LOGIN ann {scram.first_message(NONCE)}":
                self.callers[-1].send(byte)
                time.sleep(0.4)

    def waits(self):
        for caller in self.callers:
            self.ends.append((caller.ended(), time.monotonic() - self.begun))

    def ended(self):
        """What each was told at last, and when."""
        for thread in self.threads:
            thread.join()
        return self.ends


@contextlib.contextmanager
def unfinished(program, check):
    """64 logins that are never finished hold nobody up, and are ended after ten seconds, whatever `--idle` says; other
    tests run meanwhile."""
    with tempfile.TemporaryDirectory() as folder:
        logins = Logins(program, check, folder)
        server = logins.with_users("--idle", "2")
        try:
            callers = Unfinished(server)
        except OSError as error:
            check("unfinished logins", False, error)
            yield
            return
        took = [logins.is_welcome("beside unfinished logins", server, user) for user in PASSWORDS]
        check("unfinished logins hold nobody up", max(took) < AT_ONCE, took)
        yield
        ends = callers.ended()
        good = all(said == REFUSED and TEN_SECONDS[0] <= took <= TEN_SECONDS[1] for said, took in ends)
        check("unfinished logins are ended", good and len(ends) == UNFINISHED + 1, ends[::UNFINISHED // 2])
        logins.is_welcome("behind unfinished logins", server, "ann")
        lines = logins.stop(server)
        form = re.compile(r"login refused: user (ann|-), peer 127\.0\.0\.1:\d+")
        good = len(lines) == UNFINISHED + 1 and all(map(form.fullmatch, lines))
        check("unfinished logins are told", good, (len(lines), lines[:2]))


TESTS = (first_messages, last_messages, cut, said_twice, statements_behind, for_the_next_worker, crowded, counted,
    waits)

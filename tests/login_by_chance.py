"""10,000 logins by chance, right ones and spoilt ones: what the server says to each is what scram.py says. The seed is
fixed; the server's nonces are its own.
"""
import asyncio
import collections
import random

import scram
from callers import ITERATIONS, NOT_EXPECTED, PASSWORDS, REFUSED, line_of, salt_of
from served import WAIT

SEED, LOGINS = 5802, 10_000
# A refusal takes a second, so that many are waited for at a time.
AT_A_TIME = 200
KINDS = {"right": 30, "first line spoilt": 53, "last line spoilt": 11, "keys crossed": 3, "no user": 3}
NONCE_BYTES = "".join(map(chr, range(33, 127))).replace(",", "")
NAME_BYTES = "".join(map(chr, range(256))).replace(",", "").replace("\n", "")
ODD = ",=rnpcyv+/ \r\t\0\xff0A"
KEPT = {user: line_of(user).rstrip("\n").partition(":")[2] for user in PASSWORDS}


def some(chance, letters, most):
    return "".join(chance.choices(letters, k=chance.randint(1, most)))


def spoilt(chance, text):
    """The text with one to three edits, none of which ends the line."""
    for _ in range(chance.choice((1, 1, 1, 2, 3))):
        place = chance.randrange(len(text) + 1)
        front, behind = text[:place], text[place:]
        text = chance.choice((
            lambda: front + behind[1:],
            lambda: front + behind[:1] + behind,
            lambda: front + chance.choice(ODD) + behind,
            lambda: front + chance.choice(ODD) + behind[1:],
            lambda: front + behind[1:2] + behind[:1] + behind[2:],
            lambda: front + (behind[:1].swapcase() if behind[:1].isascii() else "a") + behind[1:],
            lambda: front + chr(ord(behind[0]) ^ 1 << chance.randrange(7)) + behind[1:] if behind else front,
            lambda: front + chance.choice(NONCE_BYTES) + behind[1:],
        ))().replace("\n", "x")
    return chance.choice((text, text, text, text, text, text[:chance.randrange(len(text) + 1)], text + text))


class Login:
    """One login: what is said in it, and what should be answered. (A carriage return at a line's end is not of it.)"""

    def __init__(self, number):
        self.chance = chance = random.Random(SEED * LOGINS + number)
        self.kind = chance.choices([*KINDS], [*KINDS.values()])[0]
        self.user = chance.choice([*PASSWORDS]) if self.kind != "no user" else "zoe"
        self.password = PASSWORDS.get(self.user, "pencil")
        name = chance.choice(("", "", self.user, "*", some(chance, NAME_BYTES, 30)))
        first = scram.first_message(some(chance, NONCE_BYTES, 40), name, chance.choice(("n,,", "n,,", "y,,")))
        spelled = chance.choice((self.user, self.user, self.user.upper(), self.user.title()))
        self.line = f"LOGIN {spelled} {first}"
        if self.kind == "first line spoilt":
            # (a zero byte at the front begins the other protocol)
            self.line = spoilt(chance, self.line).lstrip("\0")
        self.opened = scram.opened(self.line.removesuffix("\r"))

    def is_challenge(self, said):
        """Whether this is what the server has to say to the first line; what it should go on with is then known."""
        user, first = self.opened
        read = scram.CHALLENGE.fullmatch(said)
        claim = scram.Claim(self.password, first)
        if not read or not read[1].startswith(claim.nonce) or read[1] == claim.nonce:
            return False
        self.own = read[1][len(claim.nonce):]
        salt = scram.in_base64(salt_of(user)), str(ITERATIONS.get(user, scram.ITERATIONS))
        if user in KEPT and (read[2], read[3]) != salt or user not in KEPT and (len(read[2]), read[3]) != (24, "4096"):
            return False
        self.last = self.last_line(claim, said)
        exchange = scram.Exchange(KEPT.get(user, KEPT["ann"]), self.own)
        exchange.challenge(first)
        answer = exchange.answer(self.last.removesuffix("\r")) if user in KEPT else None
        self.wanted = f"{answer}\nwelcome {user}\n" if answer else REFUSED
        return True

    def last_line(self, claim, challenge):
        right = claim.last(challenge)
        if self.kind == "last line spoilt":
            return spoilt(self.chance, right)
        if self.kind != "keys crossed":
            return right
        other = self.chance.choice([password for password in PASSWORDS.values() if password != self.password])
        password, iterations = self.chance.choice((self.password, other)), ITERATIONS.get(self.user, scram.ITERATIONS)
        client, stored, server = scram.keys(password, salt_of(self.user), iterations)
        crossed = self.chance.choice(((server, stored, server), (stored, stored, stored), (client, server, server)))
        return claim.proved(challenge, right.rpartition(",p=")[0], *crossed)


async def said_in(login, port):
    """What the server says in this login, and what it should say."""
    reader, writer = await asyncio.open_connection("127.0.0.1", port)
    try:
        writer.write(login.line.encode("latin-1") + b"\n")
        told = (await reader.readline()).decode("latin-1")
        if login.opened is None:
            return told + (await reader.read()).decode("latin-1"), NOT_EXPECTED
        if not login.is_challenge(told[:-1]):
            return told, "a challenge"
        writer.write(login.last.encode("latin-1") + b"\n")
        told = (await reader.readline()).decode("latin-1")
        if told.startswith("v="):
            return told + (await reader.readline()).decode("latin-1"), login.wanted
        return told + (await reader.read()).decode("latin-1"), login.wanted
    finally:
        writer.close()


async def all_said(port):
    """Each login, with what the server said and what it should have said."""
    turns = asyncio.Semaphore(AT_A_TIME)

    async def play(number):
        login = Login(number)
        async with turns:
            try:
                said, wanted = await asyncio.wait_for(said_in(login, port), WAIT)
            except (OSError, asyncio.TimeoutError) as error:
                said, wanted = repr(error), "an answer"
        return login, said, wanted

    return await asyncio.gather(*map(play, range(LOGINS)))


def by_chance(logins):
    server = logins.with_users(workers=16)
    counts, nonces, wrong = collections.Counter(), [], []
    for login, said, wanted in asyncio.run(all_said(server.port)):
        outcome = {NOT_EXPECTED: "not expected", REFUSED: "refused"}.get(wanted, "welcome")
        counts[login.kind, outcome] += 1
        nonces += [login.own] if hasattr(login, "own") else []
        if said != wanted:
            wrong.append((login.kind, login.line, getattr(login, "last", None), said, wanted))
    logins.check("logins by chance", wrong == [], (len(wrong), wrong[:3]))
    logins.check("each has a nonce of its own", len(nonces) == len(set(nonces)) > LOGINS // 4, len(nonces))
    outcomes = {outcome: sum(count for (_, each), count in counts.items() if each == outcome)
        for outcome in ("welcome", "refused", "not expected")}
    logins.check("logins of all kinds", min(outcomes.values()) > 1000 and len(counts) >= 8, counts)
    lines = logins.stop(server)
    logins.check("each refusal is told once", len(lines) == outcomes["refused"], (len(lines), outcomes))


TESTS = (by_chance,)

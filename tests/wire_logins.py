"""Logins by messages: users who are welcome, users who are refused, and what may not come before."""
import os
import subprocess
import time

import scram
from callers import A_SECOND, PASSWORDS, line_of
from served import WAIT
from wire_messages import (LOGIN_ASKED, SYNC, Wire, at_ports, fields_of, initial, int32, kinds_of, message, proving,
    query, said, startup, string)
from wire_recorded import WELCOME

NOT_HERE = [("FATAL", "08P01", "this message may not come here")]
NO_FORM = [("FATAL", "08P01", "a message does not have the form of its type")]
FIRST = scram.first_message("fyko+d2lbbFgONRv9qkxdawL")
REFUSED = [("FATAL", "28P01", "refused: login")]


class LoginsByMessages:
    """A server with a file of users, at which some log in by messages."""

    def __init__(self, program, check, folder):
        self.check, users = check, os.path.join(folder, "users")
        self.journal = os.path.join(folder, "journal_of_logins")
        with open(users, "w") as file:
            file.write("".join(map(line_of, PASSWORDS)))
        os.chmod(users, 0o600)
        more = ["--users", users, "--journal", self.journal]
        self.server, self.port = at_ports(program, more, stderr=subprocess.DEVNULL)

    def begun(self, user):
        """A connection that was asked for a login, and the answer to its first message."""
        wire = Wire(self.port)
        seen = wire.ask_start(startup(user))
        self.check(f"{user} is asked for a login", seen == [LOGIN_ASKED], seen)
        wire.send(initial(FIRST))
        kind, body = wire.read()
        self.check(f"{user} is challenged", (kind, body[:4]) == (b"R", int32(11)), (kind, body))
        return wire, body[4:].decode()

    def ends(self, name, wire, raw, wanted, within=(0, WAIT)):
        """What is answered to this is one error, and the end."""
        begun = time.monotonic()
        wire.send(raw)
        seen, took = wire.to_end(), time.monotonic() - begun
        errors = [fields_of(body) for kind, body in seen if kind == b"E"]
        told = [(error["S"], error["C"], error["M"]) for error in errors]
        self.check(name, kinds_of(seen) == "E" and told == wanted, seen)
        self.check(f"{name}: in time", within[0] <= took <= within[1], took)
        wire.close()

    def proved(self, user, password):
        """A connection that has still to prove its password, and the message that does so."""
        claim = scram.Claim(password, FIRST)
        wire, challenge = self.begun(user)
        return wire, challenge, claim, proving(claim.last(challenge))

    def welcomes(self):
        for user, password in PASSWORDS.items():
            wire, _, claim, last = self.proved(user, password)
            seen = wire.ask(last)
            good = kinds_of(seen) == "R" + WELCOME and seen[0][1] == int32(12) + claim.wanted.encode()
            self.check(f"{user} is welcome", good, seen)
            seen = wire.query(f"CREATE TABLE of_{user} (x INTEGER)")
            self.check(f"{user} makes a table", kinds_of(seen) == "SCZ", seen)
            wire.end()

    def refuses(self):
        """Wrong proofs are refused a second later, and an unknown user's salt is always the same."""
        salts = []
        for name, user, password in (
            ("another password", "ann", "x"),
            ("an unknown user", "zoe", "x"),
            ("the same once more", "zoe", "y"),
        ):
            wire, challenge, _, last = self.proved(user, password)
            salts.append(challenge.partition(",")[2])
            self.ends(f"a login by {name}", wire, last, REFUSED, A_SECOND)
        self.check("an unknown user's salt", salts[1] == salts[2] != salts[0], salts)
        wire, _, _, old = self.proved("ann", PASSWORDS["ann"])
        late, _ = self.begun("ann")
        self.ends("a proof for another login", late, old, REFUSED, A_SECOND)
        wire.close()

    def takes_no_other(self):
        """What may not come in place of a login's first message, and what is no login."""
        for name, raw, wanted in (
            ("another mechanism", initial(FIRST, "SCRAM-SHA-256-PLUS"), REFUSED),
            ("a password in the clear", message(b"p", string("pencil")), REFUSED),
            ("a statement before a login", query("SELECT * FROM of_ann"), NOT_HERE),
            ("a Sync before a login", SYNC, NOT_HERE),
            ("a long message", message(b"p", 1_025 * b"x"), NO_FORM),
            ("a second start", startup("ann"), NO_FORM),
        ):
            wire = Wire(self.port)
            wire.ask_start(startup("ann"))
            self.ends(name, wire, raw, wanted)
        whole, asked = initial(FIRST), message(*LOGIN_ASKED)
        cut = {said(self.port, [startup("ann") + whole[:length]]) for length in range(len(whole))}
        self.check("logins cut off", cut == {asked}, cut)

    def play(self):
        self.welcomes()
        self.refuses()
        self.takes_no_other()
        with open(self.journal) as file:
            kept = file.read().splitlines()
        wanted = [f"{user}: CREATE TABLE of_{user} (x INTEGER)" for user in PASSWORDS]
        self.check("changes are by who logged in", kept == wanted, kept)

"""Who calls at a server with logins: connections by Python's sockets, and servers with a file of users in a folder."""
import concurrent.futures
import contextlib
import os
import socket
import subprocess
import tempfile
import time

import scram
from served import WAIT, Server, Session

# Users with their passwords, one of which is longer than a block of the hash.
PASSWORDS = {"ann": "pencil", "bob": "a b~!", "cy": 100 * "x"}
ITERATIONS = {"cy": 5000}
NOT_EXPECTED, REFUSED = "error 4 at 0: not expected\n", "refused: login\n"
LISTED = "checkpoints 0 @0\n"
NONCE = "fyko+d2lbbFgONRv9qkxdawL"
# What a login may take that is refused, and one that is not, in seconds.
A_SECOND, AT_ONCE = (0.7, 1.3), 0.5


def salt_of(user):
    return user.ljust(16, ".").encode()


def line_of(user, password=None):
    """A user's line in a file."""
    return f"{user}:{scram.verifier(password or PASSWORDS[user], salt_of(user), ITERATIONS.get(user, 4096))}\n"


def at_file(path):
    client = socket.socket(socket.AF_UNIX)
    client.settimeout(WAIT)
    client.connect(path)
    return client


class Caller(Session):
    """A connection that has said nothing yet. Texts have a character for each byte."""

    def __init__(self, client):
        self.client, self.reader = client, client.makefile("rb")

    def send(self, text):
        self.client.sendall(text.encode("latin-1"))

    def line(self):
        return self.reader.readline().decode("latin-1")

    def ended(self):
        """What comes until the server ends the connection."""
        pieces = []
        with contextlib.suppress(ConnectionResetError), self.client, self.reader:
            pieces.extend(iter(self.reader.readline, b""))
        return b"".join(pieces).decode("latin-1")

    def finish(self):
        """What comes behind the client's end."""
        with contextlib.suppress(OSError):
            self.client.shutdown(socket.SHUT_WR)
        return self.ended()

    def challenged(self, user, claim):
        """What is answered to the first line of a login."""
        return self.ask(f"LOGIN {user} {claim.first}").rstrip("\n")

    def proves(self, claim, challenge):
        """What is answered to its last line: the signature and the welcome, or one line."""
        said = self.ask(claim.last(challenge))
        return said + self.line() if said.startswith("v=") else said

    def logs_in(self, user, password=None, first=scram.first_message(NONCE)):
        """What is answered behind the challenge, or in place of it; and for how long that took."""
        begun, claim = time.monotonic(), scram.Claim(password or PASSWORDS[user.lower()], first)
        challenge = self.challenged(user, claim)
        if not scram.CHALLENGE.fullmatch(challenge):
            return challenge + "\n", time.monotonic() - begun
        said = self.proves(claim, challenge)
        return said.replace(claim.wanted + "\n", "signed, "), time.monotonic() - begun


def called(server, text):
    """What is answered to this text, behind which there is no more."""
    caller = Caller(server.connect())
    caller.send(text)
    return caller.finish()


def in_parallel(work, things):
    """What comes of each, of 64 at a time: a refusal takes a second."""
    with concurrent.futures.ThreadPoolExecutor(64) as pool:
        return [*pool.map(work, things)]


class Logins:
    """A folder with a file of users, a control socket and a journal, and servers there."""

    def __init__(self, program, check, folder):
        self.program, self.check, self.folder = program, check, folder
        self.control, self.users = os.path.join(folder, "control"), os.path.join(folder, "users")
        self.journal = os.path.join(folder, "journal")
        self.write(*map(line_of, PASSWORDS))

    def write(self, *lines, mode=0o600):
        """Makes the file of users."""
        with open(self.users, "w", encoding="latin-1") as file:
            file.write("".join(lines))
        os.chmod(self.users, mode)

    def serving(self, *words, workers=4):
        # (a pipe would hold no more than some hundred refusals)
        told = tempfile.TemporaryFile()
        server = Server(self.program, None, workers=workers, more=["--control", self.control, *words], stderr=told)
        server.told = told
        return server

    def with_users(self, *words, **more):
        return self.serving("--users", self.users, *words, **more)

    def ends(self, *words, given=b""):
        done = subprocess.run([self.program, *words], input=given, capture_output=True, timeout=WAIT, cwd=self.folder)
        return done.returncode, done.stdout.decode(), done.stderr.decode()

    def reload(self):
        return self.ends("reload", "--control", self.control)

    def stop(self, server):
        """Stops it, and gives its lines on standard error."""
        stopped = self.ends("stop", "--control", self.control)
        out, _ = server.child.communicate(timeout=WAIT)
        seen = stopped, server.child.returncode, out
        self.check("the server stops", seen[:2] == ((0, "", ""), 0) and b"served " in out, seen)
        with server.told as file:
            file.seek(0)
            return file.read().decode().splitlines()

    def logs_in(self, server, *words, **more):
        """What comes of a login at the port, and how long that took."""
        caller = Caller(server.connect())
        said, took = caller.logs_in(*words, **more)
        caller.finish()
        return said, took

    def is_welcome(self, name, server, user, *words, **more):
        said, took = self.logs_in(server, user, *words, **more)
        self.check(f"{name}: {user} is welcome", said == f"signed, welcome {user}\n", said)
        return took

    def is_refused(self, name, server, *words, **more):
        said, took = self.logs_in(server, *words, **more)
        good = said == REFUSED and A_SECOND[0] <= took <= A_SECOND[1]
        self.check(f"{name}: {words[0]} is refused a second later", good, (said, took))

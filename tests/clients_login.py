"""The Python client's login, and its shell's: beside servers that know the user's verifier, some that do not, and the
program.
"""
import contextlib
import os
import socket
import subprocess
import tempfile
import threading

from clients_fakes import Fake, says
from clients_scripts import piped
from clients_served import PAY, connected, told
from clients_shell import Terminal
import bavgusen
from bavgusen import Denied, Done
from bavgusen.scram import Login
from scram import Exchange, verifier
from served import WAIT, Server

SALT, OWN = bytes(range(16)), "3rfcNHYJY1ZVvWVs7j"
KEPT = verifier("pencil", SALT)
NOT_EXPECTED = "error 4 at 0: not expected"
LISTED, LISTING = "checkpoints 0 @0", bavgusen.Checkpoints(0, ())
REFUSED = "sysr-shell: the server refused the login: no such user, or another password"
ASKED = "sysr-shell: the server asks for the password of ann: give --password-file, or set SYSR_PASSWORD"


class LoginServer(threading.Thread):
    """A server of some sessions that takes logins of ann by this verifier, and then answers each line as CHECKPOINTS.

    What it says is changed on its way: its challenges by `change`, its signatures by `sign`. `said` has the lines that
    came, session by session.
    """

    def __init__(self, kept=KEPT, change=lambda text: text, sign=lambda text: text, sessions=1):
        super().__init__(daemon=True)
        self.kept, self.change, self.sign, self.sessions = kept, change, sign, sessions
        self.listener = socket.create_server(("127.0.0.1", 0))
        self.port, self.said = self.listener.getsockname()[1], []
        self.start()

    def run(self):
        with self.listener:
            for _ in range(self.sessions):
                client = self.listener.accept()[0]
                with client, client.makefile("rb") as lines, contextlib.suppress(OSError):
                    self.serve(client, lines)

    def serve(self, client, lines):
        exchange, said = Exchange(self.kept, OWN), []
        self.said.append(said)
        for line in lines:
            said.append(line.decode().rstrip("\n"))
            answer = self.answer(exchange, said)
            client.sendall(answer.encode() + b"\n")
            if answer in (NOT_EXPECTED, "refused: login"):
                return

    def answer(self, exchange, said):
        if len(said) > 2:
            return LISTED
        if len(said) == 2:
            signed = exchange.answer(said[1]) if said[0].startswith("LOGIN ann ") else None
            return f"{self.sign(signed)}\nwelcome ann" if signed else "refused: login"
        if not said[0].startswith("LOGIN "):
            return NOT_EXPECTED
        return self.change(exchange.challenge(said[0].split(" ", 2)[2]))


def begun(server, password="pencil", user="ann"):
    """What comes of a session with this password: the reply to its first statement, or the error."""
    def session():
        with connected(server, user, password=password) as connection:
            return connection.execute("CHECKPOINTS")
    return told(session)


def logins(program, check):
    for name, server, words, wanted in (
        ("right", LoginServer(), {}, LISTING),
        ("a blank in the password", LoginServer(verifier("a b", SALT)), {"password": "a b"}, LISTING),
        ("many iterations", LoginServer(verifier("pencil", SALT, 20_000)), {}, LISTING),
        ("another password", LoginServer(), {"password": "pencils"}, bavgusen.LoginError),
        ("another user", LoginServer(), {"user": "bob"}, bavgusen.LoginError),
        ("none, though the server asks", LoginServer(), {"password": None}, bavgusen.FaultError),
        ("a signature of another", LoginServer(sign=lambda text: f"v={OWN}{text[20:]}"), {}, bavgusen.LoginError),
        ("a signature cut off", LoginServer(sign=lambda text: text[:-1]), {}, bavgusen.LoginError),
        ("no signature", LoginServer(sign=lambda text: "v="), {}, bavgusen.LoginError),
        ("a welcome in its place", LoginServer(sign=lambda text: "welcome ann"), {}, bavgusen.LoginError),
        ("no memory", LoginServer(change=lambda text: "refused: no memory"), {}, bavgusen.UnavailableError),
        ("a server without logins", Fake(says(), NOT_EXPECTED.encode() + b"\n"), {}, bavgusen.FaultError),
        ("a welcome without a login", Fake(says()), {}, bavgusen.ProtocolError),
    ):
        seen = begun(server, **words)
        check(f"login: {name}", seen == wanted, seen)


def challenges(program, check):
    """Challenges that are answered by nothing: the password is not tried on them."""
    garbled, refused = bavgusen.ProtocolError, bavgusen.LoginError
    for name, change, wanted in (
        ("another nonce", lambda text: "r=" + ("y" if text[2] == "x" else "x") + text[3:], garbled),
        ("the client's nonce alone", lambda text: text.replace(OWN, ""), garbled),
        ("few iterations", lambda text: text.replace("i=4096", "i=4095"), refused),
        ("iterations for hours", lambda text: text.replace("i=4096", "i=4096000000"), refused),
        ("iterations without end", lambda text: text.replace("i=4096", "i=" + 5000 * "9"), garbled),
        ("a mandatory extension", lambda text: "m=x," + text, garbled),
        ("an extension", lambda text: text + ",x=y", garbled),
        ("no base64", lambda text: text.replace(",s=", ",s=!"), garbled),
        ("base64 cut off", lambda text: text.replace("==,i", ",i"), garbled),
        ("nothing", lambda text: "", garbled),
    ):
        server = LoginServer(change=change)
        seen = begun(server)
        check(f"challenge: {name}", (seen, len(server.said[0])) == (wanted, 1), (seen, server.said))


def passwords(program, check):
    for password in ("", "p\xe4ss", "a\nb", "a\x7f", b"pencil", 5):
        seen = told(lambda: bavgusen.connect("127.0.0.1", 1, "ann", password=password))
        check(f"no password: {password!r}", seen is bavgusen.ProgrammingError, seen)
    nonces = {Login("pencil").first for _ in range(100)}
    check("a new nonce each time", len(nonces) == 100, nonces)
    check("nothing is signed before the proof", not Login("pencil").is_signed("v="), "signed")


def shown(program, check):
    """What an error shows has neither the password nor the proof."""
    server = LoginServer(sign=lambda text: NOT_EXPECTED)
    try:
        connected(server, "ann", password="pencil")
        seen = "no error"
    except bavgusen.FaultError as error:
        seen = f"{error} {error.reply!r} {error.reply.statement}"
    proof = server.said[0][1].partition("p=")[2]
    check("an error has no proof", "LOGIN ann" in seen and proof not in seen and "pencil" not in seen, seen)


def password_file(folder, text, mode=0o600):
    path = os.path.join(folder, "password")
    with open(path, "w", encoding="latin-1") as file:
        file.write(text)
    os.chmod(path, mode)
    return path


def shell_scripts(program, check):
    """The shell takes the password of a file that its user alone may reach."""
    with tempfile.TemporaryDirectory() as folder:
        for text, mode, wanted in (
            ("pencil\n", 0o600, (0, [LISTED], [])),
            ("pencil", 0o400, (0, [LISTED], [])),
            ("pencil\r\nnothing\n", 0o600, (0, [LISTED], [])),
            ("pencils\n", 0o600, (2, [], [REFUSED])),
            ("", 0o600, (2, [], ["sysr-shell: a password is of printable ASCII, and not empty"])),
        ):
            server, path = LoginServer(), password_file(folder, text, mode)
            seen = piped(["CHECKPOINTS;"], "--raw", "-p", str(server.port), "-U", "ann", "--password-file", path)
            check(f"a password file: {text!r}, {mode:o}", seen == wanted, seen)
        for text, mode, wanted in (
            ("pencil\n", 0o640, f"{path}: others may reach it (mode 640): chmod 600"),
            ("pencil\n", 0o602, f"{path}: others may reach it (mode 602): chmod 600"),
            ("p\xe4ss\n", 0o600, f"{path}: a password is of printable ASCII"),
            (None, None, f"{path}: No such file or directory"),
        ):
            os.remove(path)
            if text is not None:
                password_file(folder, text, mode)
            seen = piped([], "-U", "ann", "--password-file", path)
            told = f"sysr-shell: error: argument --password-file: {wanted}"
            check(f"no password file: {text!r}, {mode}", (seen[0], seen[2][-1]) == (2, told), seen)


def shell_environment(program, check):
    """It takes that of SYSR_PASSWORD, and asks nobody in a script."""
    for told, wanted in (
        ({"SYSR_PASSWORD": "pencil"}, (0, [LISTED], [])),
        ({"SYSR_PASSWORD": "pencils"}, (2, [], [REFUSED])),
        ({"SYSR_PASSWORD": ""}, (2, [], [ASKED])),
        ({}, (2, [], [ASKED])),
    ):
        server = LoginServer()
        seen = piped(["CHECKPOINTS;"], "--raw", "-p", str(server.port), "-U", "ann", **told)
        check(f"shell: {told}", seen == wanted, seen)
    fake = Fake(says(), NOT_EXPECTED.encode() + b"\n")
    seen = piped(["CHECKPOINTS;"], "--raw", "-p", str(fake.port), "-U", "ann", SYSR_PASSWORD="pencil")
    wanted = 2, [], ["sysr-shell: the server takes no logins: leave the password out"]
    check("shell: a password for a server without logins", seen == wanted, seen)
    server = LoginServer(sessions=3)
    given = ["\\c ann", "CHECKPOINTS;", "\\c bob", "CHECKPOINTS;"]
    seen = piped(given, "--raw", "-p", str(server.port), "-U", "ann", SYSR_PASSWORD="pencil")
    wanted = 2, [f"a session of ann with the server at 127.0.0.1, port {server.port}", LISTED], [
        ASKED.replace("of ann", "of bob")]
    check("shell: a script goes on as nobody else", seen == wanted, seen)


def shell_on_a_terminal(program, check):
    """It asks for a password that it does not show, and keeps the one that was right."""
    server = LoginServer(sessions=5)
    with tempfile.TemporaryDirectory() as folder, contextlib.closing(
            Terminal(folder, "--raw", "-p", str(server.port), "-U", "ann")) as shell:
        said = shell.until("Password of ann: ") + "".join(shell.ask("pencil\r")) + "".join(shell.ask("CHECKPOINTS;\r"))
        check("asked for a password", said.endswith(LISTED) and "pencil" not in said, said)
        os.write(shell.master, b"\\c bob\r")
        said = shell.until("Password of bob: ") + "".join(shell.ask("pencil\r"))
        check("another user is asked for his", REFUSED.partition(": ")[2] in said, said)
        said = shell.ask("CHECKPOINTS;\r")
        check("the password is kept", said == [LISTED], said)
        os.write(shell.master, b"\x04")
        check("asked for a password: the end", shell.end() == 0, shell.text)
    words = [said[0].split(" ")[:2] for said in server.said]
    check("what was said to the server", words == [["USER", "ann"], ["LOGIN", "ann"], ["USER", "bob"], ["LOGIN", "bob"],
        ["LOGIN", "ann"]], server.said)
    for typed, sessions, wanted in (("pencil\r", 2, (0, LISTED)), ("pencils\r", 2, (2, REFUSED)),
            ("\x04", 1, (2, "sysr-shell: no password was typed"))):
        server = LoginServer(sessions=sessions)
        with tempfile.TemporaryDirectory() as folder, contextlib.closing(
                Terminal(folder, "--raw", "-p", str(server.port), "-U", "ann", "-c", "CHECKPOINTS;")) as shell:
            shell.until("Password of ann: ")
            os.write(shell.master, typed.encode())
            seen = shell.until(wanted[1]).split("\n")[-1], shell.end()
        check(f"asked for the password of -c: {typed!r}", seen == wanted[::-1], seen)


def beside_the_program(program, check):
    """Two users as docs/OPERATING.md sets them up: they log in by the client and by the shell, and nobody else does."""
    with tempfile.TemporaryDirectory() as folder:
        users = os.path.join(folder, "users")
        with open(users, "wb") as file:
            for user, password in (("ann", b"pencil\n"), ("bob", b"a b~!\n")):
                subprocess.run([program, "verifier", user], input=password, stdout=file, check=True, timeout=WAIT)
        os.chmod(users, 0o640)
        server = Server(program, None, more=["--users", users])
        with connected(server, "Ann", password="pencil") as ann, connected(server, "bob", password="a b~!") as bob:
            seen = [ann.execute(PAY), ann.execute("GRANT SELECT ON pay TO bob"), bob.rows("SELECT * FROM pay"),
                bob.execute("DELETE FROM pay")]
        wanted = [Done(1), Done(2), [], Denied(2, "bob lacks DELETE on pay")]
        check("two users", seen == wanted, seen)
        for user, password, wanted in (("ann", "a b~!", bavgusen.LoginError), ("zoe", "pencil", bavgusen.LoginError),
                ("ann", None, bavgusen.FaultError)):
            seen = told(lambda: connected(server, user, password=password))
            check(f"no session of {user} by {password}", seen is wanted, seen)
        words = "--raw", "-p", str(server.port), "-U", "bob"
        seen = piped(["SELECT * FROM pay;"], *words, "--password-file", password_file(folder, "a b~!\n"))
        check("a shell's login", seen == (0, ["rows 0 @2"], []), seen)
        seen = piped(["SELECT * FROM pay;"], *words, SYSR_PASSWORD="pencil")
        check("a shell's wrong password", seen == (2, [], [REFUSED]), seen)


TESTS = (beside_the_program, logins, challenges, passwords, shown, shell_scripts, shell_environment,
    shell_on_a_terminal)

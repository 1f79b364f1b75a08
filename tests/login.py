"""Logins at the program: verifiers, files of users and how they are read anew, sessions by a login, socket files of one
user, and what is told of refusals. What is expected is what docs/LANGUAGE.md says.

What the messages of a login may be is played by login_messages.py, and 10,000 logins by chance by login_by_chance.py.
What is answered to them is what scram.py, a second implementation, answers.
"""
import base64
import contextlib
import os
import pwd
import re
import socket
import stat
import tempfile
import time

import login_by_chance
import login_messages
import scram
from callers import (A_SECOND, AT_ONCE, LISTED, NONCE, NOT_EXPECTED, PASSWORDS, REFUSED, Caller, Logins, at_file,
    called, in_parallel, line_of)
from postgres_by_chance import Tools
from postgres_tools import server_for
from served import WAIT, Server, free_port


def rfc_example(logins):
    """The example of RFC 7677, section 3."""
    claim = scram.Claim("pencil", scram.first_message("rOprNGfwEbeRWgbNEkqO", "user"))
    kept = scram.verifier("pencil", bytes.fromhex("5b6d99689d12358eeca04b141236fa81"))
    exchange = scram.Exchange(kept, "%hvYDpWUa2RaTCAfuxFIlj)hNlF$k0")
    challenge = exchange.challenge(claim.first)
    last = claim.last(challenge)
    seen = claim.first, challenge, last, exchange.answer(last), claim.wanted
    nonce = "r=rOprNGfwEbeRWgbNEkqO%hvYDpWUa2RaTCAfuxFIlj)hNlF$k0"
    signed = "v=6rriTRBi23WpRR/wtup+mMhUZUn/dB5nLTJRsjl95G4="
    wanted = ("n,,n=user,r=rOprNGfwEbeRWgbNEkqO", f"{nonce},s=W22ZaJ0SNY7soEsUEjb6gQ==,i=4096",
        f"c=biws,{nonce},p=dHzbZapWIk4jUhN+Ute9ytag9zjfMHgsqmmiz7AndVQ=", signed, signed)
    logins.check("the example of RFC 7677", seen == wanted, seen)


def verifiers(logins):
    """`sysr verifier` makes a line of a password, with a new salt each time."""
    salts = set()
    for given in (b"pencil\n", b"pencil", b"a b~!\n", 1024 * b"x" + b"\n", b" \n"):
        status, out, err = logins.ends("verifier", "ann", given=given)
        read = re.fullmatch(r"ann:(SCRAM-SHA-256\$4096:([A-Za-z0-9+/=]+)\$.*)\n", out)
        wanted = read and scram.verifier(given.rstrip(b"\n").decode(), base64.b64decode(read[2]))
        good = read and (status, read[1], err) == (0, wanted, "") and len(base64.b64decode(read[2])) == 16
        logins.check(f"the verifier of {given[:10]}", good, (status, out, err))
        salts.add(read and read[2])
    logins.check("a salt for each", len(salts) == 5, salts)
    for given in (b"", b"\n", b"p\xc3\xa4ss\n", b"a\tb\n", b"a\x00b\n", b"a\x7f\n", b"\xff\n", b"a\r\n", b"one\ntwo\n",
            b"one\n\n", 1025 * b"x", 1025 * b"x" + b"\n", 100_000 * b"x"):
        status, out, err = logins.ends("verifier", "ann", given=given)
        good = (status, out) == (1, "") and re.fullmatch(r"sysr: a password is .+\n", err)
        logins.check(f"no verifier of {given[:10]}, {len(given)} bytes", good, (status, out, err))
    out = logins.ends("verifier", "ANN", given=b"pencil\n")[1]
    logins.check("users are named in any case", out.startswith("ann:SCRAM-SHA-256$4096:"), out)
    for user in ("1bad", "table", "", "a b", 31 * "x", "p\xe4"):
        status, out, err = logins.ends("verifier", user, given=b"pencil\n")
        logins.check(f"no verifier for {user}", status in (1, 2) and out == "" and len(err) > 10, (status, out, err))


def of_postgres(logins):
    """Verifiers that PostgreSQL has made are taken as they are."""
    tools = Tools(logins.program, logins.check)
    with server_for(tools) as superuser:
        if superuser is None:
            print("no PostgreSQL: none of its verifiers was taken")
            return
        made = "".join(f"CREATE ROLE {user} PASSWORD '{password}';" for user, password in PASSWORDS.items())
        tools.psql("SET password_encryption = 'scram-sha-256';" + made)
        lines = tools.psql("SELECT rolname || ':' || rolpassword FROM pg_authid WHERE rolpassword LIKE 'SCRAM%';")
    logins.write(lines)
    server = logins.with_users()
    for user in PASSWORDS:
        logins.is_welcome("of PostgreSQL", server, user)
    logins.is_refused("of PostgreSQL", server, "ann", "pencils")
    logins.stop(server)


def sessions(logins):
    """Who proves to be a user speaks as that user, and the journal says so; nobody else speaks."""
    server = logins.with_users("--journal", logins.journal)
    caller = Caller(server.connect())
    said = [caller.logs_in("Ann")[0]]
    said += [caller.ask("CREATE TABLE t (x INTEGER)"), caller.ask("GRANT SELECT ON t TO bob"), caller.end()]
    logins.check("a session", said == ["signed, welcome ann\n", "done @1\n", "done @2\n", ""], said)
    caller = Caller(server.connect())
    said = [caller.logs_in("bob")[0], caller.ask("SELECT * FROM t"), caller.ask("DELETE FROM t"), caller.end()]
    wanted = ["signed, welcome bob\n", "rows 0 @2\n", "denied @2: bob lacks DELETE on t\n", ""]
    logins.check("a session of another", said == wanted, said)
    for line in ("USER ann", "user ann", "ann: SELECT * FROM t", "SELECT * FROM t", "", "STOP"):
        seen = called(server, f"{line}\nDELETE FROM t\n")
        logins.check(f"no first line: {line}", seen == NOT_EXPECTED, seen)
    logins.stop(server)
    with open(logins.journal) as file:
        kept = file.read()
    logins.check("the journal", kept == "ann: CREATE TABLE t (x INTEGER)\nann: GRANT SELECT ON t TO bob\n", kept)


def refusals(logins):
    """Another password and an unknown user are refused alike, and told without a secret."""
    server = logins.with_users()
    took = logins.is_welcome("before a refusal", server, "ann")
    logins.check("a login at once", took < AT_ONCE, took)

    def refused(named):
        user, password = named
        caller, begun = Caller(server.connect()), time.monotonic()
        claim, port = scram.Claim(password, scram.first_message(NONCE)), caller.client.getsockname()[1]
        challenge = caller.challenged(user, claim)
        said = caller.proves(claim, challenge) + caller.ended()
        good = said == REFUSED and A_SECOND[0] <= time.monotonic() - begun <= A_SECOND[1]
        told = f"login refused: user {user}, peer 127.0.0.1:{port}"
        return f"{user} is refused", good, told, scram.CHALLENGE.fullmatch(challenge).groups()[1:]

    tried = in_parallel(refused, (("ann", "pencils"), ("zoe", "pencil"), ("zoe", "pencils"), ("zed", "pencil")))
    for name, good, *more in tried:
        logins.check(name, good, more)
    salts = [salt for *_, salt in tried]
    made_up = [len(base64.b64decode(salt)) == 16 and iterations == "4096" for salt, iterations in salts]
    logins.check("an unknown user's challenge", all(made_up) and salts[1] == salts[2] != salts[3], salts)
    seen, wanted = sorted(logins.stop(server)), sorted(told for _, _, told, _ in tried)
    logins.check("what is told of refusals", seen == wanted, seen)


def wrong_lines(logins):
    """The first wrong line of a file ends the program, with its number."""
    ann, bob = line_of("ann"), line_of("bob")
    many = [f"u{number}:{ann[4:]}" for number in range(10_001)]
    for name, lines, number in (
        ("no line of a user", (ann, "bob\n"), 2),
        ("a password", (ann, "bob:pencil\n", bob), 2),
        ("a hash by md5", (ann, "bob:md5" + 32 * "0" + "\n"), 2),
        ("an empty line", (ann, "\n", bob), 2),
        ("a blank before it", (" " + ann,), 1),
        ("a blank behind it", (ann, bob[:-1] + " \n"), 2),
        ("a carriage return", (ann[:-1] + "\r\n",), 1),
        ("a number in front", (ann, "1" + bob), 2),
        ("a keyword", (ann, "table" + bob[3:]), 2),
        ("a long name", (31 * "a" + ann[3:],), 1),
        ("no iterations", (ann, bob.replace("$4096:", "$0:")), 2),
        ("a zero in front", (ann, bob.replace("$4096:", "$04096:")), 2),
        ("a short key", (ann, bob[:-5] + "\n"), 2),
        ("no UTF-8", (ann, "\xff" + bob), 2),
        ("a user twice", (ann, bob, ann), 3),
        ("a user twice, in capitals", (ann, bob, "ANN" + ann[3:]), 3),
        ("too many lines", many, 10_001),
    ):
        logins.write(*lines)
        status, out, err = logins.ends("serve", "--port", str(free_port()), "--users", logins.users)
        told = re.fullmatch(rf"sysr: {logins.users}: line {number}: .+\n", err)
        logins.check(f"a file: {name}", (status, out) == (1, "") and told, (status, out, err))


def wrong_files(logins):
    """A file that others may read or write, one that is missing, too long, or named twice."""
    ann = line_of("ann")
    serve = "serve", "--port", str(free_port()), "--users", logins.users
    for mode in (0o644, 0o660, 0o620, 0o602, 0o604):
        logins.write(ann, mode=mode)
        status, out, err = logins.ends(*serve)
        good = (status, out) == (1, "") and re.fullmatch(rf"sysr: {logins.users}: .+\n", err)
        logins.check(f"a file of mode {mode:o}", good, (status, out, err))
    logins.write(ann, 3_000_000 * "x")
    status, out, err = logins.ends(*serve)
    good = (status, out) == (1, "") and re.fullmatch(rf"sysr: {logins.users}: .+\n", err)
    logins.check("a file that is too long", good, (status, out, err))
    logins.write(ann)
    for word in ("--journal", "--dump"):
        seen = logins.ends(*serve, word, logins.users)
        told = f"error: --users and {word} name one file: {logins.users}\n"
        logins.check(f"named by {word} too", seen == (2, "", told), seen)
    os.remove(logins.users)
    seen = logins.ends(*serve)
    logins.check("no file", seen == (1, "", f"sysr: {logins.users}: cannot be read\n"), seen)


def files(logins):
    """Files that are taken."""
    ann, bob = line_of("ann"), line_of("bob")
    many = [f"u{number}:{ann[4:]}" for number in range(9_999)]
    for name, lines, mode in (
        ("of mode 600", [ann], 0o600),
        ("of mode 640", [ann], 0o640),
        ("without a last line feed", [bob, ann[:-1]], 0o600),
        ("with capitals", ["ANN" + ann[3:]], 0o600),
        ("of most lines", [*many, ann], 0o600),
    ):
        logins.write(*lines, mode=mode)
        server = logins.with_users()
        logins.is_welcome(f"a file {name}", server, "ann")
        logins.stop(server)
    logins.write(mode=0o600)
    server = logins.with_users()
    logins.is_refused("an empty file", server, "ann")
    logins.stop(server)


def addresses(logins):
    """Other machines reach the port where there are logins, and only there."""
    words = "--listen", "0.0.0.0"
    status, out, err = logins.ends("serve", "--port", str(free_port()), *words)
    logins.check("an open port without logins", (status, out) == (2, "") and "--users" in err, (status, out, err))
    server = logins.with_users(*words)
    wanted = f"listening on 0.0.0.0:{server.port}\n".encode()
    logins.check("an open port is told", server.listening == wanted, server.listening)
    logins.is_welcome("an open port", server, "ann")
    # (only who listens at all addresses is reached at this one)
    with socket.create_connection(("127.0.0.2", server.port), timeout=WAIT) as client:
        said = Caller(client).logs_in("ann")[0]
    logins.check("another address", said == "signed, welcome ann\n", said)
    logins.stop(server)


def reloaded(logins):
    """The file is read anew where it is right; who is taken out of it begins no session, and his open one goes on."""
    server = logins.with_users()
    caller, silent, begun = (Caller(server.connect()) for _ in range(3))
    logins.check("before a reload", caller.logs_in("ann")[0] == "signed, welcome ann\n", "refused")
    claim = scram.Claim(PASSWORDS["ann"], scram.first_message(NONCE))
    challenge = begun.challenged("ann", claim)
    logins.write(line_of("bob"), line_of("di", "pencil"))
    seen = logins.reload()
    logins.check("reload", seen == (0, "reloaded 2 users\n", ""), seen)
    logins.is_welcome("reloaded", server, "di", "pencil")
    logins.is_welcome("reloaded", server, "bob")
    tried = ("anew", lambda: logins.logs_in(server, "ann")[0]), ("silent before", lambda: silent.logs_in("ann")[0]), (
        "begun before", lambda: begun.proves(claim, challenge))
    for (name, _), said in zip(tried, in_parallel(lambda each: each[1](), tried)):
        logins.check(f"taken out by a reload, {name}", said == REFUSED, said)
    said = [caller.ask("CREATE TABLE t (x INTEGER)"), caller.ask("SELECT * FROM t")]
    logins.check("an open session goes on", said == ["done @1\n", "rows 0 @1\n"], said)
    for name, lines, mode, told in (("a wrong line", (line_of("ann"), "bob\n"), 0o600, "line 2: "),
            ("a mode", (line_of("ann"),), 0o644, "")):
        logins.write(*lines, mode=mode)
        status, out, err = logins.reload()
        good = (status, out) == (1, "") and f"{logins.users}: {told}" in err
        logins.check(f"{name} is not taken", good, (status, out, err))
        logins.is_welcome(f"behind {name}", server, "di", "pencil")
    logins.is_refused("behind them", server, "ann")
    caller.end()
    logins.stop(server)
    seen = logins.reload()
    logins.check("reload of nobody", seen == (1, "", f"sysr: {logins.control}: no server listens there\n"), seen)
    server = logins.serving()
    status, out, err = logins.reload()
    good = (status, out) == (1, "") and err.startswith("sysr: ")
    logins.check("reload of a server without users", good, (status, out, err))
    logins.stop(server)


def at_socket(path, text):
    """What is answered to these lines at a socket file."""
    caller = Caller(at_file(path))
    caller.send(text)
    return caller.finish()


AT_SOCKETS = (
    ("ann", "USER ann", "welcome ann\n" + LISTED),
    ("ann", "user  ANN ", "welcome ann\n" + LISTED),
    ("nobody", "USER nobody", "welcome nobody\n" + LISTED),
    ("ann", "USER bob", NOT_EXPECTED),
    ("ann", "USER nobody", NOT_EXPECTED),
    ("nobody", "USER ann", NOT_EXPECTED),
    ("ann", "ann", NOT_EXPECTED),
    ("ann", f"LOGIN ann {scram.first_message(NONCE)}", NOT_EXPECTED),
)


def user_sockets(logins):
    """At a socket file of a user his sessions need no login, and there are none of others."""
    paths = {name: os.path.join(logins.folder, f"{name}.socket") for name in ("ann", "nobody")}
    common = os.path.join(logins.folder, "socket")
    words = [word for name, path in paths.items() for word in ("--user-socket", f"{name}={path}")]
    for users in ((), ("--users", logins.users)):
        server = logins.serving("--socket", common, *users, *words)
        for name, path in paths.items():
            wait_for(path)
            late = time.monotonic() + WAIT
            # (its mode is set behind its making)
            while (mode := stat.S_IMODE(os.stat(path).st_mode)) != 0o600 and time.monotonic() < late:
                time.sleep(0.01)
            logins.check(f"the mode of the socket of {name}", mode == 0o600, oct(mode))
        if os.geteuid() == 0:
            owner = os.stat(paths["nobody"]).st_uid
            logins.check("whose socket it is", owner == pwd.getpwnam("nobody").pw_uid, owner)
        for name, first, wanted in AT_SOCKETS:
            seen = at_socket(paths[name], f"{first}\nCHECKPOINTS\n")
            logins.check(f"at the socket of {name}, {users}: {first}", seen == wanted, seen)
        seen = at_socket(common, "USER ann\nCHECKPOINTS\n")
        wanted = NOT_EXPECTED if users else "welcome ann\n" + LISTED
        logins.check(f"at the common socket, {users}", seen == wanted, seen)
        if users:
            logins.is_welcome("beside sockets of users", server, "ann")
            said = Caller(at_file(common)).logs_in("ann")[0]
            logins.check("a login at the common socket", said == "signed, welcome ann\n", said)
        logins.stop(server)
        left = sorted(os.listdir(logins.folder))
        logins.check("no socket file is left", left == ["users"], left)


def no_user_sockets(logins):
    """Words that name no user, or no file, and a file that is no socket."""
    for word in ("ann", "ann=", "=path", "1bad=path", "table=path"):
        status, out, err = logins.ends("serve", "--port", str(free_port()), "--user-socket", word)
        logins.check(f"no socket of a user: {word}", (status, out) == (2, "") and len(err) > 10, (status, out, err))
    seen = logins.ends("serve", "--user-socket", f"ann={logins.users}")
    logins.check("a file that is no socket", seen == (1, "", f"sysr: {logins.users}: cannot be listened at\n"), seen)


def wait_for(path):
    late = time.monotonic() + WAIT
    while not os.path.exists(path) and time.monotonic() < late:
        time.sleep(0.02)


TESTS = (rfc_example, verifiers, of_postgres, sessions, refusals, wrong_lines, wrong_files, files, addresses, reloaded,
    user_sockets, no_user_sockets)


def played(program, check):
    """Plays the tests. What a test raises is its failure, and the others go on."""
    with login_messages.unfinished(program, check):
        for test in (*TESTS, *login_messages.TESTS, *login_by_chance.TESTS):
            with tempfile.TemporaryDirectory() as folder:
                try:
                    test(Logins(program, check, folder))
                except Exception as error:
                    check(f"{test.__name__}: without an error", False, error)
    Server.stop_all()

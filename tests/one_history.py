"""Clients of a server at once, while requests for memory are refused now and then: all that they are told is
of one history.

The changes that were done, sorted by their moments, are said again in `sysr run`, each query and each denial
at the moment that its reply bears. The same is answered. What an export tells is what queries tell at its
checkpoint's point and at the request.
"""
import contextlib
import itertools
import os
import random
import re
import shlex
import subprocess
import threading
import time

from served import Server, Session

WAIT = 60

# Each so-many-th request for memory is refused while a file is there.
SOURCE = """
#define _GNU_SOURCE
#include <dlfcn.h>
#include <errno.h>
#include <stdlib.h>
#include <unistd.h>

static long made;

static int refuses(void) {
    const char *each = getenv("REFUSED_EACH"), *path = getenv("REFUSED_WHILE");
    return __atomic_add_fetch(&made, 1, __ATOMIC_RELAXED) % atol(each) == 0 && access(path, F_OK) == 0;
}

void *malloc(size_t size) {
    static void *(*real)(size_t);
    if (!real) real = (void *(*)(size_t))dlsym(RTLD_NEXT, "malloc");
    if (refuses()) { errno = ENOMEM; return 0; }
    return real(size);
}

void *realloc(void *old, size_t size) {
    static void *(*real)(void *, size_t);
    if (!real) real = (void *(*)(void *, size_t))dlsym(RTLD_NEXT, "realloc");
    if (refuses()) { errno = ENOMEM; return 0; }
    return real(old, size);
}
"""

USERS = ("ann", "bob", "dan", "eve")
COLUMNS = ("x", "y")
SESSIONS = 8
STATEMENTS = 100


class Refusing:
    """The program, with each so-many-th request for memory refused while it is told to."""

    def __init__(self, program, work, each):
        source, made = os.path.join(work, "refusing.c"), os.path.join(work, "refusing.so")
        self.flag, self.program = os.path.join(work, "refusing"), os.path.join(work, f"refusing-{each}")
        with open(source, "w", encoding="ascii") as file:
            file.write(SOURCE)
        subprocess.run(["cc", "-shared", "-fPIC", "-o", made, source, "-ldl"], check=True)
        words = ["env", f"LD_PRELOAD={made}", f"REFUSED_EACH={each}", f"REFUSED_WHILE={self.flag}", program]
        with open(self.program, "w", encoding="utf-8") as file:
            file.write(f"#!/bin/sh\nexec {shlex.join(words)} \"$@\"\n")
        os.chmod(self.program, 0o700)

    def begin(self):
        with open(self.flag, "w", encoding="ascii"):
            pass

    def end(self):
        with contextlib.suppress(FileNotFoundError):
            os.remove(self.flag)


def replies(lines):
    """Each reply with all its lines, of lines that may be given one by one."""
    rest = iter(lines)
    for head in rest:
        reply = [head]
        listed = re.match(r"(?:rows|checkpoints) (\d+) @", head)
        reply += itertools.islice(rest, int(listed[1]) if listed else 0)
        if head.startswith("export "):
            for line in rest:
                reply.append(line)
                if line.startswith(("end ", "export cut")):
                    break
        yield reply


class Client:
    """A user who says statements by chance, in several sessions, and keeps each with its reply."""

    def __init__(self, server, user, seed):
        self.server, self.user, self.random = server, user, random.Random(seed)
        self.said, self.turned_away = [], 0

    def text(self):
        return "'" + self.random.choice("pqr") * self.random.choice((3, 40)) + "'"

    def statement(self):
        pick, table = self.random, "t" + self.random.choice((self.user, *USERS))
        right = pick.choice(("SELECT", "SELECT (x)", "SELECT (y)", "INSERT", "DELETE", "UPDATE (x)", "SELECT, UPDATE"))
        option = pick.choice(("", " WITH GRANT OPTION"))
        others = ", ".join(pick.sample(USERS, pick.choice((1, 1, 2))))
        where = pick.choice(("", f" WHERE x < {pick.randint(0, 9)}", f" WHERE y = {self.text()}"))
        return pick.choice((
            f"CREATE TABLE t{self.user} (x INTEGER, y TEXT)",
            *5 * (f"INSERT INTO {table} VALUES ({pick.randint(0, 9)}, {self.text()})",),
            *3 * (f"SELECT {pick.choice(('*', 'x', 'y, x'))} FROM {table}{where}",),
            f"DELETE FROM {table} WHERE x = {pick.randint(0, 9)} AND y = {self.text()}",
            f"UPDATE {table} SET x = {pick.randint(0, 9)}{where}",
            *3 * (f"GRANT {right} ON {pick.choice((table, 't' + self.user))} TO {others}{option}",),
            *2 * (f"REVOKE {right} ON {pick.choice((table, 't' + self.user))} FROM {others}",),
            *2 * (f"REVOKE GRANT OPTION FOR {right} ON {pick.choice((table, 't' + self.user))} FROM {others}",),
            "CHECKPOINT",
            "CHECKPOINTS",
            *2 * (f"EXPORT {self.checkpoint()}",),
        ))

    def checkpoint(self):
        """The last checkpoint of which this user knows."""
        known = [line for _, reply in self.said for line in reply if line.startswith(("finished,", "checkpoint "))]
        return re.search(r"\d+", known[-1])[0] if known else 1

    def session(self):
        # (a session that finds no memory ends before its first line is read)
        try:
            session = Session(self.server, self.user)
        except ConnectionError:
            self.turned_away += 1
            return
        if session.welcome:
            for _ in range(STATEMENTS):
                asked = self.statement()
                self.said.append((asked, self.answer(session, asked)))
            session.end()
        else:
            self.turned_away += 1
            session.reset()

    def answer(self, session, asked):
        session.send(asked + "\n")
        lines = (line.removesuffix("\n") for line in iter(session.line, ""))
        return next(replies(lines), [""])

    def sessions(self):
        for _ in range(SESSIONS):
            self.session()


def moment_of(reply):
    """The moment that a reply bears: of a change that which it makes."""
    return int(re.search(r"@(\d+)", reply[0])[1])


def is_of_memory(reply):
    return reply[0].endswith(": no memory")


def query(columns, table):
    return f"SELECT {', '.join(columns)} FROM {table}"


def selected(answers, moment, user, table):
    """The columns that the user might select at the moment, by the answers to queries."""
    return [column for column in COLUMNS if answers[moment, user, query([column], table)][0].startswith("rows ")]


class History:
    """What all clients were told, by moments."""

    def __init__(self, clients):
        self.said = [(client.user, *said) for client in clients for said in client.said]
        self.changes = {}
        for user, asked, reply in self.said:
            if reply[0].startswith("done @"):
                self.changes.setdefault(moment_of(reply), []).append((user, asked, reply))
        self.queries = [said for said in self.said if self.is_query(*said)]
        self.exports = [(user, reply) for user, _, reply in self.said if reply[0].startswith("export ")]
        self.begun = {}
        for _, _, reply in self.said:
            match = re.match(r"checkpoint (\d+) begun @(\d+)$", reply[0])
            if match:
                self.begun.setdefault(int(match[1]), []).append(int(match[2]))

    @staticmethod
    def is_query(_, asked, reply):
        """Answered by what tables and rights are at the moment that the reply bears."""
        of_rows = reply[0].startswith(("rows ", "denied @", "refused @"))
        return of_rows and not is_of_memory(reply) and not asked.startswith(("CHECKPOINT", "EXPORT"))

    def tables_at(self, moment):
        """Owners and tables, in order of creation."""
        created = [self.changes[at][0] for at in sorted(self.changes) if at <= moment]
        return [(user, asked.split()[2]) for user, asked, _ in created if asked.startswith("CREATE")]

    def looks(self):
        """What has to be asked for the exports: the moment, who asks, and what."""
        for user, reply in self.exports:
            _, _, _, point, at = reply[0].replace("@", "").split()
            for owner, table in self.tables_at(int(point)):
                yield int(point), owner, query(COLUMNS, table)
                for asked in (query([column], table) for column in COLUMNS):
                    yield from ((int(point), owner, asked), (int(point), user, asked), (int(at), user, asked))

    def script(self):
        """Lines for `sysr run`, and for each the moment at which it stands and the statement."""
        asked = {(moment_of(reply), user, statement) for user, statement, reply in self.queries} | {*self.looks()}
        lines = [(moment, 0, user, statement) for moment, changes in self.changes.items()
            for user, statement, _ in changes]
        return sorted([*lines, *((moment, 1, user, statement) for moment, user, statement in asked)])

    def exported(self, user, reply, answers):
        """What the export has to tell in whole, by the answers to queries."""
        _, number, _, point, at = reply[0].replace("@", "").split()
        told = [reply[0]]
        for owner, table in self.tables_at(int(point)):
            then, now = (selected(answers, moment, user, table) for moment in (int(point), int(at)))
            shown = [column for column in then if column in now]
            if shown:
                told += [",".join(["table", table, *shown]), *answers[int(point), owner, query(shown, table)][1:]]
            else:
                told.append(f"withheld,{table},{'now' if then else 'point'}")
        return [*told, f"end {number}"]


def said_again(program, history):
    """Replies of `sysr run` to the changes, and to what is asked, by moment, user and statement."""
    lines = history.script()
    given = "".join(f"{user}: {statement}\n" for _, _, user, statement in lines)
    done = subprocess.run([program, "run"], input=given.encode(), capture_output=True, timeout=WAIT)
    told = [*replies(done.stdout.decode().split("\n")[:-1])]
    changes = [reply for line, reply in zip(lines, told) if line[1] == 0]
    asked = {(at, user, asked): reply for (at, kind, user, asked), reply in zip(lines, told) if kind == 1}
    return changes, asked


def checked(program, check, history):
    """All that clients were told is what the history, said again, tells."""
    moments = sorted(history.changes)
    once = all(len(changes) == 1 for changes in history.changes.values())
    check("each change once", once and moments == list(range(1, len(moments) + 1)), moments[-5:])
    changes, answers = said_again(program, history)
    check("the changes said again", changes == [[f"done @{moment}"] for moment in moments], changes[:5])
    other = [said for said in history.queries if answers.get((moment_of(said[2]), *said[:2])) != said[2]]
    check("queries and denials said again", not other, other[:3])
    other = []
    for user, reply in history.exports:
        whole = history.exported(user, reply, answers)
        if reply != whole and (reply[-1] != "export cut: no memory" or reply[:-1] != whole[:len(reply) - 1]):
            other.append((user, reply, whole))
    check("exports beside queries", not other, other[:1])
    numbers = sorted(history.begun)
    points = [history.begun[number] for number in numbers]
    once = numbers == list(range(1, len(numbers) + 1)) and all(len(begun) == 1 for begun in points)
    check("checkpoints have their numbers once, in order", once and points == sorted(points), history.begun)


def each_in_order(check, clients, history):
    """A session's moments never fall, and checkpoints that it sees were begun at their points."""
    for client in clients:
        bearing = [reply for _, reply in client.said if "@" in reply[0] and "lacked" not in reply[0]]
        moments = [moment_of(reply) for reply in bearing]
        check(f"moments of {client.user} rise", moments == sorted(moments), moments)
    for _, _, reply in history.said:
        for line in reply:
            listed = re.match(r"(?:finished,|active,|export )(\d+)(?:,| point )(\d+)\b", line)
            good = not listed or history.begun[int(listed[1])] == [int(listed[2])]
            if not good:
                check("a checkpoint's point", good, (line, history.begun))


def has_threads(server, count):
    """Waits until the server has so many threads: it does not go on if one can't be started."""
    late = time.monotonic() + WAIT
    while time.monotonic() < late and len(os.listdir(f"/proc/{server.child.pid}/task")) < count:
        time.sleep(0.002)


def at_once(program, check, work):
    """Clients at once, while refusals come and go."""
    refusing, count = Refusing(program, work, 5), len(USERS) * SESSIONS + 1
    server = Server(refusing.program, count, workers=len(USERS), chunk=3)
    # (beside the workers' there are the checkpointer's and the first)
    has_threads(server, len(USERS) + 2)
    clients = [Client(server, user, seed) for seed, user in enumerate(USERS)]
    threads = [threading.Thread(target=client.sessions) for client in clients]
    for thread in threads:
        thread.start()
    while any(thread.is_alive() for thread in threads):
        refusing.begin()
        time.sleep(0.004)
        refusing.end()
        time.sleep(0.004)
    for thread in threads:
        thread.join()
    # (the program takes memory at its end, so that the last session is behind the refusals)
    clients.append(Client(server, USERS[0], len(USERS)))
    clients[-1].session()
    history = History(clients)
    checked(program, check, history)
    each_in_order(check, clients, history)
    told = [reply[-1] for _, _, reply in history.said]
    refused = sum(line.endswith("no memory") for line in told)
    whole = len(history.changes) > 20 and history.exports and len(history.queries) > 20
    check("much is done and much is refused", whole and refused > 10, (len(history.said), refused))
    check("each has an answer", all(told), told.count(""))
    away = sum(client.turned_away for client in clients)
    ended = server.end()
    wanted = (0, f"served {count}\n".encode(), away * ["session fault: no memory"])
    check("clients at once: the end", ended == wanted, (ended, away))


def given_up(program, check, work):
    """The checkpointer gives a checkpoint up whose step is refused; its number stays used."""
    refusing = Refusing(program, work, 1)
    server = Server(refusing.program, 1)
    has_threads(server, 4)
    ann = Session(server, "ann")
    said = [ann.ask(line) for line in ("CREATE TABLE t (x INTEGER)", "INSERT INTO t VALUES (1)", "CHECKPOINTS")]
    refusing.begin()
    said.append(ann.ask("CHECKPOINT"))
    late = time.monotonic() + WAIT
    while ann.ask("CHECKPOINT") == "refused @2: busy\n" and time.monotonic() < late:
        time.sleep(0.002)
    refusing.end()
    said.append(ann.ask("EXPORT 1"))
    wanted = ["done @1\n", "done @2\n", "checkpoints 0 @2\n", "checkpoint 1 begun @2\n", "denied @2: no checkpoint 1\n"]
    check("a checkpoint is given up in a server", said == wanted, said)
    ann.end()
    ended = server.end()
    check("a checkpoint is given up: the end", ended == (0, b"served 1\n", []), ended)


def played(program, check, work):
    for test in (given_up, at_once):
        try:
            test(program, check, work)
        except (OSError, LookupError, ValueError, subprocess.TimeoutExpired) as error:
            check(f"{test.__name__}: an answer in time", False, error)
        finally:
            Server.stop_all()

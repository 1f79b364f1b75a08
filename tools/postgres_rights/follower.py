"""A journal carried on into PostgreSQL, moment by moment."""
import queue
import subprocess
import sys
import threading
import time
from collections.abc import Iterator, Sequence
from typing import Optional

from postgres_rights.carrying import Names
from postgres_rights.entries import Rights
from postgres_rights.following import Transaction
from postgres_rights.growing import grown
from postgres_rights.psql_session import Session
from postgres_rights.stream import Change, changes_of
from postgres_rights.there import Beside
from postgres_rights.wording import counted, fail

# So many effects are carried on at most in one transaction, and so many may wait.
MOST_EFFECTS, MOST_WAITING = 20_000, 100_000
# As many changes as a server takes at most.
MOST_CHANGES = 1_000_000_000


class Nobody:
    """No users yet."""

    def users(self) -> list[str]:
        return []


class Stream:
    """`sysr stream` of a journal that grows, behind a moment: its changes wait in a queue, None behind the last."""

    def __init__(self, sysr: str, path: str, moment: int, is_once: bool):
        self.path, self.is_once = path, is_once
        self.waiting: "queue.Queue[Optional[Change]]" = queue.Queue(MOST_WAITING)
        self.broken: Optional[BaseException] = None
        try:
            words = [sysr, "stream", "--from", str(moment), "--changes", str(MOST_CHANGES)]
            self.process = subprocess.Popen(words, stdin=subprocess.PIPE, stdout=subprocess.PIPE, stderr=subprocess.PIPE)
        except OSError as why:
            fail(f"{sysr}: {why.strerror}")
        for work in (self.feed, self.read):
            threading.Thread(target=work, daemon=True).start()

    def feed(self) -> None:
        try:
            for block in grown(self.path, lambda: self.is_once):
                self.process.stdin.write(block)
                self.process.stdin.flush()
            self.process.stdin.close()
        except OSError:
            pass  # (the program has ended, and says why)

    def read(self) -> None:
        try:
            for change in changes_of(line.decode() for line in self.process.stdout):
                self.waiting.put(change)
        except BaseException as why:
            self.broken = why
        self.waiting.put(None)

    def runs(self) -> Iterator[list[Change]]:
        """The changes that wait, as many as one transaction takes."""
        while (change := self.waiting.get()) is not None:
            run, effects = [change], len(change.effects)
            while effects < MOST_EFFECTS and not self.waiting.empty():
                change = self.waiting.get()
                if change is None:
                    yield run
                    return
                run.append(change)
                effects += len(change.effects)
            yield run

    def end(self) -> None:
        """Ends the tool as the program has ended, if it did not end well."""
        if self.broken:
            raise self.broken
        why = self.process.stderr.read().decode(errors="replace").strip()
        if self.process.wait():
            fail(why)


class Progress:
    """A line each second on a terminal."""

    def __init__(self) -> None:
        self.is_shown, self.last, self.changes = sys.stderr.isatty(), time.monotonic(), 0

    def took(self, run: list[Change], waiting: int) -> None:
        self.changes += len(run)
        now = time.monotonic()
        if self.is_shown and now - self.last >= 1:
            rate = self.changes / (now - self.last)
            print(f"@{run[-1].moment}, {rate:,.0f} changes a second, {counted(waiting, 'change')} behind",
                file=sys.stderr, flush=True)
            self.last, self.changes = now, 0


class Follower:
    """What PostgreSQL has been told, and a session to tell it more."""

    def __init__(self, names: Names, connection: Sequence[str], reuse: bool):
        self.names, self.reuse = names, reuse
        self.beside, self.session = Beside(names), Session(connection)
        self.session.tell(self.beside.begun())
        self.kept = self.beside.kept(self.session.ask(self.beside.queries()))
        names.roles.update({user: names.role_for(user) for user in self.kept.users})
        owners = {name: made.owner for name, made in self.kept.tables.items()}
        self.rights = Rights(owners, self.kept.grants)

    def carry_on(self, run: list[Change]) -> Transaction:
        """Carries these changes on, in one transaction that writes the moment too."""
        transaction = Transaction(self.names, self.beside, self.kept, self.rights)
        transaction.take(run)
        self.session.tell(transaction.script(self.reuse))
        return transaction


def follow(sysr: str, path: str, follower: Follower, is_once: bool, report) -> None:
    """Carries on what comes, from the moment on that PostgreSQL has."""
    stream, progress = Stream(sysr, path, follower.kept.moment, is_once), Progress()
    for run in stream.runs():
        transaction = follower.carry_on(run)
        report.writelines(f"{line}\n" for line in transaction.unkept())
        report.flush()
        progress.took(run, stream.waiting.qsize())
    stream.end()

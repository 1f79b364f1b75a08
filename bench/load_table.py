"""What bench/load asks by sessions of its own: the table before a run, and the moment before and behind it; and a
server that it starts itself."""
from __future__ import annotations

import contextlib
import os
import socket
import subprocess
from typing import Iterator

from load_engine import Failure, Work

SYSR = os.path.join(os.path.dirname(os.path.dirname(os.path.abspath(__file__))), "sysr")
MOST_WORKERS = 16
# Lines that are sent before their replies are read: both fit the buffers of any connection.
PIECE = 500


class Session:
    """A session of one user. Failure: it cannot be had, or ends early."""

    def __init__(self, work: Work, user: str):
        try:
            self.stream = socket.create_connection((work.host, work.port), timeout=work.timeout)
        except OSError as error:
            raise Failure(f"cannot connect to {work.host}:{work.port}: {error.strerror or error}\n"
                "Start a server there (./sysr serve --port), or let this tool start one by --serve.") from None
        self.reader = self.stream.makefile("r", encoding="utf-8", newline="\n")
        welcome = self.ask(f"USER {user}")
        if not welcome.startswith("welcome "):
            raise Failure(f"the server answered `{welcome}` to USER {user}")

    def ask(self, line: str) -> str:
        """The first line of the reply."""
        return self.ask_all([line])[0]

    def ask_all(self, lines: list[str]) -> list[str]:
        """The replies to lines with one line of reply each."""
        try:
            self.stream.sendall("".join(line + "\n" for line in lines).encode())
            replies = [self.reader.readline() for _ in lines]
        except socket.timeout:
            raise Failure(f"no reply came to `{lines[0]}` in time") from None
        except OSError as error:
            raise Failure(f"the session failed at `{lines[0]}`: {error.strerror or error}") from None
        if not all(reply.endswith("\n") for reply in replies):
            raise Failure(f"the server ended the session at `{lines[0]}`")
        return [reply[:-1] for reply in replies]

    def change(self, lines: list[str]) -> None:
        """Has changes done. Failure: one is not."""
        for line, reply in zip(lines, self.ask_all(lines)):
            if not reply.startswith("done @"):
                raise Failure(f"the server answered `{reply}` to `{line}`")

    def moment(self) -> int:
        """How many changes the server has accepted."""
        return int(self.ask("CHECKPOINTS").partition("@")[2])

    def close(self) -> None:
        self.reader.close()
        self.stream.close()


@contextlib.contextmanager
def session(work: Work, user: str) -> Iterator[Session]:
    made = Session(work, user)
    try:
        yield made
    finally:
        made.close()


def create(asking: Session, table: str, rows: int) -> None:
    """Makes the table with rows of the ids from 0 on. The engine relies on their names."""
    try:
        asking.change([f"CREATE TABLE {table} (name TEXT, id INTEGER)"])
    except Failure as failure:
        if f"table {table} exists" not in str(failure):
            raise
        raise Failure(f"{failure}\nName another table by --table, or use this one by --existing.") from None
    for start in range(0, rows, PIECE):
        ids = range(start, min(start + PIECE, rows))
        asking.change([f"INSERT INTO {table} VALUES ('row {n}', {n})" for n in ids])


def prepare(work: Work) -> None:
    """Makes what the clients work on: one table that the first user owns and shares with the others, or one for each
    client. Failure: the server does not do so."""
    if work.own_tables:
        for number in range(work.clients):
            with session(work, work.users[number % len(work.users)]) as asking:
                create(asking, f"{work.table}{number + 1}", work.rows)
        return
    owner, *others = dict.fromkeys(work.users[:work.clients])
    with session(work, owner) as asking:
        create(asking, work.table, work.rows)
        if others:
            asking.change([f"GRANT SELECT, INSERT, UPDATE, DELETE ON {work.table} TO {', '.join(others)}"])


def moment(work: Work) -> int:
    """The server's moment."""
    with session(work, work.users[0]) as asking:
        return asking.moment()


def free_port() -> int:
    with socket.socket() as taken:
        taken.bind(("127.0.0.1", 0))
        return taken.getsockname()[1]


@contextlib.contextmanager
def served(clients: int, more: tuple[str, ...] = ()) -> Iterator[int]:
    """The port of a server for so many clients, which ends with the block. Failure: it does not listen."""
    for _ in range(10):
        # (another process may take the port first)
        port = free_port()
        words = [SYSR, "serve", "--port", str(port), "--workers", str(min(clients, MOST_WORKERS)), *more]
        child = subprocess.Popen(words, stdout=subprocess.PIPE, stderr=subprocess.PIPE, text=True)
        if child.stdout.readline():
            break
        said = child.communicate()[1].strip()
        if "cannot listen" not in said:
            raise Failure(f"the server did not start: {said}")
    else:
        raise Failure("no free port was found for the server")
    try:
        yield port
    finally:
        child.kill()
        child.communicate()

"""A session that is begun again where it was ended, and what was seen in it."""
from __future__ import annotations

import contextlib
from dataclasses import dataclass, field, replace
from typing import Callable, ContextManager, Dict, Iterator, List, Optional

from ..connection import Connection, connect
from ..errors import Error, FaultError, LoginError
from ..literals import line_of
from ..replies import Done, Reply
from ..tables import Columns, Creation, Tables, created, creations, selected
from .words import Seen

Ask = Callable[[str], str]
Waiting = Callable[[], ContextManager[object]]


@dataclass(frozen=True)
class Place:
    """Where and as whom a session is begun, with the password if there is one, and the journal of its server, if it is
    at hand.
    """

    host: str
    port: int
    user: str
    journal: Optional[str] = None
    password: Optional[str] = field(default=None, repr=False)


class Session:
    """A session at a place. One that was ended is begun anew by the next statement.

    Behind that it may be another server's, so nothing is known of tables but what the journal says. `owners` has the
    owners of tables, as far as they are known. `ask` gives the password of a user where the server wants one and none
    was given, and `waiting` is what each connection is begun within: both are for who has a terminal.
    """

    def __init__(self, place: Place, ask: Optional[Ask] = None, waiting: Waiting = contextlib.nullcontext) -> None:
        self.place, self.ask, self.waiting = place, ask, waiting
        self.seen = Seen()
        self.owners: Dict[str, str] = {}
        self._connection: Optional[Connection] = None

    def begin(self) -> Connection:
        """The connection, which is begun where there is none.

        Errors: those of `connect`, and `OSError` of the journal.
        """
        if self._connection is None or not self.is_open:
            made = self._journal()
            known = {each.table: each.columns for each in made}
            self._connection = self._connected(known)
            self.owners = {each.table: each.owner for each in made}
            self.seen = Seen()
        return self._connection

    def become(self, user: str) -> None:
        """Ends the session, and begins one of this user at the same server, with what is known of its tables.

        If that is an error, the next statement begins one of the former user. (The old one is ended first, as it may
        hold the server's only worker.)
        """
        known, owners, seen = (dict(self.tables), self.owners, self.seen) if self._answers() else ({}, {}, Seen())
        self.end()
        password = self.place.password if user == self.place.user else None
        other = Session(replace(self.place, user=user, password=password), self.ask, self.waiting)
        connection = other.begin()
        for table in {*known} - {*connection.tables}:
            connection.declare(table, known[table])
        self.place, self.owners, self.seen = other.place, {**owners, **other.owners}, seen
        self._connection = connection

    @property
    def is_open(self) -> bool:
        """Whether a session was begun and goes on, as far as is known."""
        return self._connection is not None and not self._connection.closed

    @property
    def tables(self) -> Tables:
        """The tables whose columns are known."""
        return Tables() if self._connection is None else self._connection.tables

    def refresh(self) -> None:
        """Learns which tables the journal has by now. It is an error if the session knows one of them otherwise."""
        connection = self.begin()
        for made in self._journal():
            connection.declare(made.table, made.columns)
            self.owners[made.table] = made.owner

    def execute(self, statement: str) -> Reply:
        """The reply to a statement."""
        line = line_of(statement, None)
        connection, chosen = self.begin(), selected(line)
        if self.place.journal is not None and chosen and chosen.table not in connection.tables:
            self.refresh()
        reply = connection.execute(line)
        made = created(line) if isinstance(reply, Done) else None
        if made:
            self.owners[made[0]] = connection.user
        self.seen.note(line, reply)
        return reply

    def lines(self, reply: Reply) -> Iterator[str]:
        """The lines of a reply as the server wrote them. An export's are read as they are asked for."""
        for line in reply.lines():
            self.seen.note_exported(line)
            yield line

    def end(self) -> None:
        """Ends the session, if one was begun."""
        if self._connection is not None:
            with contextlib.suppress(Error):
                self._connection.close()

    def _connected(self, known: Dict[str, Columns]) -> Connection:
        """A connection; its password is asked for where the server wants one and none was given, and then kept."""
        try:
            return self._connect(self.place, known)
        except FaultError as fault:
            if self.place.password is not None:
                raise LoginError("the server takes no logins: leave the password out") from fault
            if self.ask is None:
                raise LoginError(f"the server asks for the password of {self.place.user}: give --password-file, or set "
                    "SYSR_PASSWORD") from fault
        asked = replace(self.place, password=self.ask(self.place.user))
        connection = self._connect(asked, known)
        self.place = asked
        return connection

    def _connect(self, place: Place, known: Dict[str, Columns]) -> Connection:
        with self.waiting():
            return connect(place.host, place.port, place.user, password=place.password, tables=known)

    def _answers(self) -> bool:
        """Whether the session is one of a server that still runs."""
        try:
            return self.is_open and self.begin().execute("CHECKPOINTS").ok
        except Error:
            return False

    def _journal(self) -> List[Creation]:
        if self.place.journal is None:
            return []
        with open(self.place.journal, encoding="utf-8", errors="replace") as lines:
            return list(creations(lines))

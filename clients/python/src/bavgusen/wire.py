"""Lines over a socket, which is read while it is written to."""
from __future__ import annotations

import collections
import selectors
import socket
from types import TracebackType
from typing import Deque, List, Optional, Type

from .errors import ConnectionEnded, InterfaceError, ProtocolError, TimedOut

PIECE = 1 << 18
# A row of 32 texts of 1,024 quotes each has 66 KB, and no other line is longer.
LONGEST_LINE = 1 << 20

# (poll takes any descriptor, and holds none of its own)
_Selector = getattr(selectors, "PollSelector", selectors.SelectSelector)


class Wire:
    """The two directions of a socket: lines that are to be sent, and lines that have come.

    Whoever only sends, to a peer who only sends, waits for ever once the buffers between them are full. So whenever
    this waits, it waits for both directions. `timeout` is how many seconds it waits at most until a byte goes or
    comes; None is for ever. `takes_more` is whether the peer still takes what is sent, as far as this has seen, and
    `is_closed` whether the socket was closed here.
    """

    def __init__(self, link: socket.socket, timeout: Optional[float]) -> None:
        self.timeout = timeout
        self._link = link
        self._unsent = bytearray()
        self._lines: Deque[bytes] = collections.deque()
        self._front: List[bytes] = []
        self._front_size = 0
        self.takes_more = True
        self.is_closed = False
        self.whole = _Whole(self)
        link.setblocking(False)
        self._selector = _Selector()
        self._events = selectors.EVENT_READ
        self._selector.register(link, self._events)

    @property
    def unsent(self) -> int:
        """How many bytes are still to be sent."""
        return len(self._unsent)

    def put(self, line: str) -> None:
        """Leaves a line to be sent. It goes when lines are taken."""
        if self.takes_more:
            self._unsent += line.encode() + b"\n"

    def line(self) -> str:
        """The next line, without its end. Meanwhile what is to be sent goes too.

        Errors: `TimedOut`, `ConnectionEnded`, `ProtocolError` of what is no UTF-8 or far too long, and `InterfaceError`
        where this was closed.
        """
        if self.is_closed:
            raise InterfaceError("the connection is closed")
        while not self._lines:
            self._step()
        try:
            return self._lines.popleft().decode()
        except UnicodeDecodeError:
            raise ProtocolError("a reply is no UTF-8") from None

    def expect_nothing(self) -> None:
        """Where a line has come that answers nothing, it is a `ProtocolError`."""
        if self._lines or self._front_size:
            raise self.garbled((self._lines[0] if self._lines else b"".join(self._front)).decode(errors="replace"))

    def garbled(self, line: str) -> ProtocolError:
        """Closes the socket, and gives the error to raise where this line is no part of a reply."""
        self.close()
        return ProtocolError(f"no reply of this server: {line[:80]!r}")

    def close(self) -> None:
        """Closes the socket."""
        if not self.is_closed:
            self.is_closed = True
            self._selector.close()
            self._link.close()

    def _step(self) -> None:
        """Sends and takes what can be at once, behind a wait for either."""
        if self._unsent:
            self._send()
        self._wait()
        self._take()

    def _wait(self) -> None:
        events = selectors.EVENT_READ | (selectors.EVENT_WRITE if self._unsent else 0)
        if events != self._events:
            self._selector.modify(self._link, events)
            self._events = events
        if not self._selector.select(self.timeout):
            raise TimedOut(f"the server was silent for {self.timeout} seconds")

    def _send(self) -> None:
        try:
            del self._unsent[:self._link.send(self._unsent[:PIECE])]
        except BlockingIOError:
            pass
        except OSError:
            # (it takes no more; what it said before is still read)
            self._unsent.clear()
            self.takes_more = False

    def _take(self) -> None:
        try:
            piece = self._link.recv(PIECE)
        except BlockingIOError:
            return
        except OSError as fault:
            raise ConnectionEnded(f"the connection broke: {fault.strerror or fault}") from fault
        if not piece:
            where = "in the middle of a line" if self._front_size else "where a line was to come"
            raise ConnectionEnded(f"the server ended the session {where}")
        self._split(piece)

    def _split(self, piece: bytes) -> None:
        """Notes the lines of a piece. The front of a line stays in parts until its end has come."""
        first, *more = piece.split(b"\n")
        self._front.append(first)
        self._front_size += len(first)
        if self._front_size > LONGEST_LINE:
            raise ProtocolError(f"a line has more than {LONGEST_LINE:,} bytes, as no reply has")
        if more:
            self._lines.append(b"".join(self._front))
            self._lines.extend(more[:-1])
            self._front, self._front_size = [more[-1]], len(more[-1])


class _Whole:
    """What is done in this is done whole, or the socket is closed.

    Otherwise, behind a time-out or an interrupt, the next line would answer another statement.
    """

    def __init__(self, wire: Wire) -> None:
        self._wire = wire

    def __enter__(self) -> None:
        pass

    def __exit__(self, kind: Optional[Type[BaseException]], error: Optional[BaseException],
            trace: Optional[TracebackType]) -> None:
        if kind is not None:
            self._wire.close()

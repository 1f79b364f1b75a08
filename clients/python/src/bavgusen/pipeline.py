"""Many statements on their way at once."""
from __future__ import annotations

import collections
from types import TracebackType
from typing import Any, Deque, Iterable, Iterator, Optional, Sequence, Tuple, Type, Union

from .errors import InterfaceError, ProgrammingError
from .export import Export
from .literals import line_of
from .reading import Asked, Reader
from .replies import Reply
from .wire import Wire

Statement = Union[str, Tuple[str, Sequence[Any]]]
AHEAD = 1 << 16


class Pipeline:
    """The replies to many statements, in their order. Iterate over it: nothing is sent before the first is asked for.

    Statements are taken as they can be sent, and sent before the replies to those before them have come. Both
    directions go on at once, so neither side waits for the other, however many statements there are and however large
    the replies. Nothing is kept of a reply that was handed out.

    **Left early, it takes no more statements; those that it took are sent, carried out, and their replies dropped**: by
    `close`, by the end of a `with`, or by the next statement of its connection. So is it where a reply raises, with
    `check`. A statement that cannot be sent raises its error behind the replies to those before it, and is the last.
    `taken` says how many statements were taken. Where the connection is closed first, which of them were carried out
    beyond the last reply is not known.
    """

    def __init__(self, wire: Wire, reader: Reader, statements: Iterable[Statement], check: bool) -> None:
        if isinstance(statements, str):
            raise ProgrammingError("a pipeline takes many statements, and no str")
        self._wire, self._reader, self._check = wire, reader, check
        self._statements = iter(statements)
        self._asked: Deque[Asked] = collections.deque()
        self._export: Optional[Export] = None
        self._takes_more = True
        self._is_left = False
        self._error: Optional[Exception] = None
        self.taken = 0

    def __iter__(self) -> Iterator[Reply]:
        return self

    def __next__(self) -> Reply:
        """The next reply. An export that was handed out before is read to its end.

        It is an `InterfaceError` if the pipeline was left, so that none is taken for whole that is not.
        """
        if not self._is_left:
            self._finish_export()
            self._take()
        if self._is_left:
            raise InterfaceError("this pipeline was left")
        if not self._asked:
            error, self._error = self._error, None
            raise error or StopIteration
        reply = self._read()
        if self._check and not reply.ok:
            try:
                self.close()
            finally:
                # (also where the session ends meanwhile: this came first)
                reply.raise_for_reply()
        return reply

    def close(self) -> None:
        """Takes no more statements, and drops the replies to those that were taken."""
        self._is_left = True
        self._finish_export()
        while self._asked and not self._wire.is_closed:
            self._reader.dropped(self._asked)

    def __enter__(self) -> Pipeline:
        return self

    def __exit__(self, kind: Optional[Type[BaseException]], error: Optional[BaseException],
            trace: Optional[TracebackType]) -> None:
        self.close()

    def _finish_export(self) -> None:
        if self._export is not None:
            self._export.close()
            self._export = None

    def _take(self) -> None:
        """Takes statements until enough wait to be sent."""
        while self._takes_more and self._wire.unsent < AHEAD:
            try:
                statement = next(self._statements)
                text, parameters = (statement, None) if isinstance(statement, str) else statement
                line = line_of(text, parameters)
            except StopIteration:
                self._takes_more = False
                return
            except Exception as error:
                self._error, self._takes_more = error, False
                return
            # (where statements are made by others of the same connection, this was left meanwhile)
            if self._is_left:
                return
            with self._wire.whole:
                self._asked.append(Asked(line))
                self._wire.put(line)
                self.taken += 1
            # (then the one that was taken waits in vain, and that is told)
            if not self._wire.takes_more:
                return

    def _read(self) -> Reply:
        reply = self._reader.reply(self._asked)
        if isinstance(reply, Export):
            self._export = reply
        return reply

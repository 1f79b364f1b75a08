"""The shell on a script: statements and commands of standard input, of a file, or of the command line."""
from __future__ import annotations

from typing import Callable, Iterable, Optional

from ..errors import ConnectionEnded, Error, LoginError, ProtocolError, TimedOut
from ..replies import Fault, Reply
from .commands import CommandError, Commands
from .talk import Talk, complain, failure
from .words import Statements, Typed

DEEPEST = 16
OWN_FAULT, NO_SESSION, NOT_CARRIED_OUT = 1, 2, 3


class Stopped(Exception):
    """A script that does not go on. `status` is that of the shell."""

    def __init__(self, status: int) -> None:
        super().__init__(status)
        self.status = status


class Script:
    """Carries out scripts in a session, and says on standard error what was not carried out, and in which line.

    A statement ends with `;`, or at the end of its script; a command is a line of its own. Without `stops` a script
    goes on behind what is not carried out; with it, it stops there with this status. Where the session is ended it
    always stops.
    """

    def __init__(self, talk: Talk, program: str, stops: Optional[int]) -> None:
        self._talk, self._stops, self._depth = talk, stops, 0
        self._commands = Commands(talk, program, self.run_file)

    def run_file(self, path: str) -> None:
        """Carries out the lines of a file. It is an `OSError` if it cannot be read."""
        if self._depth == DEEPEST:
            raise CommandError(f"{path}: files that include files, more than {DEEPEST} deep")
        with open(path, "rb") as lines:
            self.run(lines, path)

    def run(self, lines: Iterable[bytes], place: Optional[str]) -> None:
        """Carries out lines, until their end or `\\q`. Faults name `place`, if there is one, and the line's number."""
        statements = Statements()
        self._depth += 1
        try:
            for each in lines:
                for typed in statements.add(each.decode(errors="surrogateescape").rstrip("\r\n")):
                    self._carry_out(typed, place)
                    if self._commands.is_over:
                        return
                self._talk.out.flush()
            for typed in statements.rest():
                self._carry_out(typed, place)
        finally:
            # (it ends the script in which it stands, and no other)
            self._commands.is_over = False
            self._depth -= 1

    def _carry_out(self, typed: Typed, place: Optional[str]) -> None:
        if typed.is_command:
            self._attempt(lambda: self._commands.run(typed.text), place, typed.line)
        else:
            say = lambda: self._talk.say(typed.text, lambda reply: self._not_done(reply, typed, place))
            self._attempt(say, place, typed.line)

    def _not_done(self, reply: Reply, typed: Typed, place: Optional[str]) -> None:
        before = typed.text[:reply.position].count("\n") if isinstance(reply, Fault) else 0
        why = None if self._talk.form.tells_failures else failure(reply, typed.text)
        self._failed(why, place, typed.line + before)

    def _attempt(self, work: Callable[[], None], place: Optional[str], line: int) -> None:
        """Does what stands in this line, and says what goes wrong."""
        try:
            work()
        except (ConnectionEnded, LoginError, TimedOut, ProtocolError) as error:
            complain(error)
            raise Stopped(NO_SESSION) from error
        except (Error, CommandError) as error:
            self._failed(str(error) or None, place, line)
        except OSError as error:
            if error.filename is None:
                raise
            self._failed(f"{error.filename}: {error.strerror}", place, line)

    def _failed(self, why: Optional[str], place: Optional[str], line: int) -> None:
        if why is not None:
            complain(why if place is None else f"{place}:{line}: {why}")
        if self._stops is not None:
            raise Stopped(self._stops)

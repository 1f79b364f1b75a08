"""The shell on a terminal."""
from __future__ import annotations

import contextlib
import os
import sys
import threading
from typing import Callable, Iterator, List

from ..errors import Error
from ..replies import Reply
from .commands import CommandError, Commands
from .forms import Form
from .script import NO_SESSION, Script, Stopped
from .session import Session
from .talk import Talk, complain, failure
from .words import DELIMITERS, Completer, Statements, Typed, candidates

HISTORY_LINES = 10_000
PATIENCE = 2
ENDED = "the session has ended: its last statement may be carried out or not, and the next begins another"
# What psql takes for commands where no statement is begun. No statement begins with one of these words.
WORDS = {"help": "\\?", "quit": "\\q", "exit": "\\q"}


class Interactive:
    """Reads statements and commands from a person, and shows what is answered."""

    def __init__(self, session: Session, program: str, form: Form) -> None:
        session.waiting = patience
        self._talk = Talk(session, form, sys.stdout, is_script=False)
        self._statements = Statements()
        self._script = Script(self._talk, program, stops=None)
        self._commands = Commands(self._talk, program, self._include)

    def run(self) -> int:
        """Until Ctrl-D or `\\q`. It gives the status: 0, or 2 if the session could not be begun."""
        if not self._attempt(self._talk.session.begin):
            return NO_SESSION
        self._talk.tell("sysr-shell: type \\? for help, \\q to end; a statement ends with ;")
        while not self._commands.is_over:
            try:
                line = input(self._prompt())
            except EOFError:
                print()
                break
            except KeyboardInterrupt:
                print()
                self._statements.clear()
                continue
            self._take(line)
        return 0

    def words(self, word: str, before: str) -> List[str]:
        """What a word may go on to be."""
        session = self._talk.session
        return candidates(word, before, self._commands.words, session.tables, session.seen)

    def _prompt(self) -> str:
        return self._talk.session.place.user + ("-> " if self._statements.is_open else "=> ")

    def _take(self, line: str) -> None:
        if not self._statements.is_open:
            line = WORDS.get(line.strip().rstrip(";").lower(), line)
        for typed in self._statements.add(line):
            if not self._attempt(lambda: self._carry_out(typed)):
                self._statements.clear()
                break

    def _carry_out(self, typed: Typed) -> None:
        if typed.is_command:
            self._commands.run(typed.text)
            return
        self._talk.say(typed.text, lambda reply: self._failed(reply, typed.text))

    def _failed(self, reply: Reply, statement: str) -> None:
        if not self._talk.form.tells_failures:
            self._talk.tell(failure(reply, statement))

    def _include(self, path: str) -> None:
        with contextlib.suppress(Stopped):
            self._script.run_file(path)

    def _attempt(self, work: Callable[[], object]) -> bool:
        """Does this, and tells of what goes wrong. It says whether nothing did."""
        was_open, is_done = self._talk.session.is_open, False
        try:
            work()
            is_done = True
        except (Error, CommandError) as error:
            self._talk.tell(*filter(None, [str(error)]))
        except OSError as error:
            print(f"{error.filename}: {error.strerror}" if error.filename else error)
        except KeyboardInterrupt:
            print("\ninterrupted")
        if was_open and not self._talk.session.is_open:
            print(ENDED)
        return is_done


@contextlib.contextmanager
def patience() -> Iterator[None]:
    """Says so where a connection takes long: a server whose workers are all busy lets a client wait."""
    late = threading.Timer(PATIENCE, complain, ["waiting for the server; Ctrl-C gives up"])
    late.daemon = True
    late.start()
    try:
        yield
    finally:
        late.cancel()


@contextlib.contextmanager
def editing(shell: Interactive, history: str) -> Iterator[None]:
    """Lines are edited, completed and kept in a file, where Python has readline."""
    try:
        import readline
    except ImportError:
        yield
        return
    readline.set_completer_delims(DELIMITERS)
    readline.set_completer(Completer(shell.words))
    is_libedit = "libedit" in (readline.__doc__ or "")
    readline.parse_and_bind("bind ^I rl_complete" if is_libedit else "tab: complete")
    readline.set_history_length(HISTORY_LINES)
    with contextlib.suppress(OSError):
        readline.read_history_file(history)
    try:
        yield
    finally:
        with contextlib.suppress(OSError):
            # (others may not read what was typed)
            os.close(os.open(history, os.O_CREAT | os.O_WRONLY, 0o600))
            readline.write_history_file(history)

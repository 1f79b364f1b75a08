"""The commands of the shell, which begin with a backslash."""
from __future__ import annotations

import csv
import os
import subprocess
from typing import Callable, Dict, List, Sequence

from ..export import Export
from ..literals import name
from ..replies import Reply
from ..tables import Columns
from .forms import CSV
from .grammar import help_for
from .layout import aligned, counted
from .talk import Talk

HELP = """\
  statement;                  carry out a statement; it may go over several lines
  \\h [STATEMENT]              the grammar of a statement
  \\d [TABLE]                  tables, or the columns of one; \\dt does the same
  \\rights [TABLE]             who holds what and through whom, by the journal; \\dp does the same
  \\why USER PRIVILEGE TABLE   why a user holds a privilege, or how he lost it, by the journal
  \\checkpoints                the checkpoints that are kept, and the active one
  \\export N [FILE]            the export of checkpoint N, to the screen or to a new file
  \\i FILE                     carry out the statements and commands of a file
  \\c USER                     go on as another user, in a new session
  \\conninfo                   whose session it is, and where the server listens
  \\timing                     say how long statements take, or no longer
  \\?                          this page
  \\q                          end, as Ctrl-D does; Ctrl-C drops what was typed"""
NO_JOURNAL = "this is told from the server's journal: begin the shell with --journal FILE"


class CommandError(Exception):
    """A command that cannot be carried out, and why; without a text where the reply that says so was shown."""


class Commands:
    """The commands by their words. `program` is sysr, and `include` carries out a file."""

    def __init__(self, talk: Talk, program: str, include: Callable[[str], None]) -> None:
        self._talk, self._program, self._include = talk, program, include
        self.is_over = False
        self._known: Dict[str, Callable[[Sequence[str]], None]] = {
            "\\h": self._grammar, "\\d": self._tables, "\\dt": self._tables, "\\rights": self._rights,
            "\\dp": self._rights, "\\why": self._why, "\\checkpoints": self._checkpoints, "\\export": self._export,
            "\\i": self._file, "\\c": self._user, "\\conninfo": self._place, "\\timing": self._timing,
            "\\?": self._help, "\\q": self._quit}

    @property
    def words(self) -> List[str]:
        """The words that commands begin with."""
        return list(self._known)

    def run(self, line: str) -> None:
        """Carries a command out. A `CommandError` says why it cannot be, apart from errors of the session."""
        word, *more = line.split()
        # (whoever ends a command as a statement means the same)
        if more and more[-1].endswith(";"):
            more[-1] = more[-1][:-1]
        word = word.rstrip(";")
        if word not in self._known:
            raise CommandError(f"no command {word}: \\? lists them")
        self._known[word]([each for each in more if each])

    def _tables(self, words: Sequence[str]) -> None:
        session = self._talk.session
        session.refresh()
        if words:
            self._table(name(words[0]))
            return
        rows = [(table, session.owners.get(table, ""), ", ".join(_typed(columns)))
            for table, columns in session.tables.items()]
        rows += [(table, "", "") for table in sorted(session.seen.tables - {*session.tables})]
        self._talk.tell(*aligned(("table", "owner", "columns"), rows, (None, None, None)))
        source = "in the journal, or seen in the session" if session.place.journal else "seen in the session"
        self._talk.tell(f"({counted(len(rows), 'table')}, {source}; the server lists none)")

    def _table(self, table: str) -> None:
        session = self._talk.session
        if table not in session.tables:
            raise CommandError(f"the columns of {table} are not known here")
        columns = session.tables[table]
        owner = session.owners.get(table)
        rows = [tuple(column.split(" ")) for column in _typed(columns)]
        self._talk.tell(f"Table {table}" + (f", owned by {owner}" if owner else ""))
        self._talk.tell(*aligned(("column", "type"), rows, (None, None)), f"({counted(len(rows), 'column')})")

    def _checkpoints(self, words: Sequence[str]) -> None:
        self._say("CHECKPOINTS")

    def _export(self, words: Sequence[str]) -> None:
        if len(words) not in (1, 2) or not (words[0].isascii() and words[0].isdigit()):
            raise CommandError("\\export N [FILE]")
        if len(words) == 1:
            self._say(f"EXPORT {words[0]}")
            return
        reply = self._talk.session.execute(f"EXPORT {words[0]}").raise_for_reply()
        if isinstance(reply, Export):
            with reply:
                self._talk.tell(f"{self._written(reply, words[1]):,} lines to {words[1]}")

    def _written(self, export: Export, path: str) -> int:
        """How many lines were written to a new file. Where the export is cut, the file's last line says so."""
        count = 0
        with open(os.path.expanduser(path), "x", encoding="utf-8", newline="\n") as file:
            for line in self._talk.session.lines(export):
                file.write(line + "\n")
                count += 1
        return count

    def _rights(self, words: Sequence[str]) -> None:
        if words:
            self._talk.tell(*self._explained(["who", name(words[0])]))
            return
        lines = self._explained(["rights"])
        head, *rows = [*csv.reader(lines)] or [[]]
        if self._talk.form is CSV:
            self._talk.tell(*lines)
            return
        self._talk.tell(*aligned(head, rows, len(head) * (None,)), f"({counted(len(rows), 'right')})")

    def _why(self, words: Sequence[str]) -> None:
        if len(words) < 3:
            raise CommandError("\\why USER PRIVILEGE TABLE, as in \\why bob SELECT (wage) pay")
        user, *privilege, table = words
        self._talk.tell(*self._explained(["why", user, " ".join(privilege), table]))

    def _explained(self, question: Sequence[str]) -> List[str]:
        """The lines with which `sysr explain` answers. Where there is no answer, standard error says why.

        (A last line that is cut off is one that the server is writing.)
        """
        journal = self._talk.session.place.journal
        if journal is None:
            raise CommandError(NO_JOURNAL)
        with open(journal, "rb") as lines:
            try:
                told = subprocess.run([self._program, "explain", "--cut-line", "drop", *question], stdin=lines,
                    capture_output=True, check=False)
            except OSError as fault:
                raise CommandError(f"{self._program}: {fault.strerror}: begin the shell with --sysr PROGRAM") from fault
        if told.stderr and not told.stdout:
            raise CommandError(told.stderr.decode(errors="replace").strip())
        return told.stdout.decode(errors="replace").splitlines()

    def _say(self, statement: str) -> None:
        self._talk.say(statement, self._failed)

    def _failed(self, reply: Reply) -> None:
        raise CommandError("" if self._talk.form.tells_failures else str(reply))

    def _file(self, words: Sequence[str]) -> None:
        if len(words) != 1:
            raise CommandError("\\i FILE")
        self._include(os.path.expanduser(words[0]))

    def _user(self, words: Sequence[str]) -> None:
        if len(words) != 1:
            raise CommandError("\\c USER")
        self._talk.session.become(name(words[0]))
        self._place(())

    def _place(self, words: Sequence[str]) -> None:
        place = self._talk.session.place
        self._talk.tell(f"a session of {place.user} with the server at {place.host}, port {place.port}")

    def _grammar(self, words: Sequence[str]) -> None:
        self._talk.tell(*help_for(" ".join(words)))

    def _timing(self, words: Sequence[str]) -> None:
        self._talk.is_timing = not self._talk.is_timing
        self._talk.tell("timing is " + ("on" if self._talk.is_timing else "off"))

    def _help(self, words: Sequence[str]) -> None:
        self._talk.tell(HELP)

    def _quit(self, words: Sequence[str]) -> None:
        self.is_over = True


def _typed(columns: Columns) -> List[str]:
    return [f"{column} {'INTEGER' if kind is int else 'TEXT'}" for column, kind in columns.items()]

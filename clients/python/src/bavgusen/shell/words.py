"""What a person types: where statements end, and how a word may go on."""
from __future__ import annotations

import re
from typing import Callable, Iterable, List, NamedTuple, Optional, Set

from ..literals import KEYWORDS
from ..replies import Reply
from ..tables import Tables, selected

_TEXT_OR_END = re.compile(r"'(?:[^']|'')*(?:'|\Z)|;")
_COMMAND = re.compile(r"[ \t]*(\\.*)")
_NAMED = re.compile(r"[ \t]*update[ \t]+(\w+)|.*?\b(?:from|into|on|table|only)[ \t]+(\w+)", re.ASCII | re.IGNORECASE)
_BEFORE_TABLE = re.compile(r"(?:\b(?:from|into|on|table|only|update)|\\(?:d|dt|dp|rights))[ \t]+\Z",
    re.ASCII | re.IGNORECASE)

# Behind these a completed word ends.
DELIMITERS = " \t\n(),;=<>*'"


class Typed(NamedTuple):
    """A statement as it was typed, with its line feeds, or a command, and the number of its first line, from 1."""

    text: str
    line: int

    @property
    def is_command(self) -> bool:
        """Whether it is a command: no statement begins with a backslash."""
        return self.text.startswith("\\")


class Statements:
    """Lines that are typed one after another, until they make statements. A statement ends at a `;` outside texts.

    No text goes on behind its line's end. So a line that ends in an open text ends its statement too, and the server
    says where the text was opened. Blank lines between statements are passed over, and lines that begin with `--`. A
    backslash at the front of a line, or behind a `;`, begins a command, which ends with its line.
    """

    def __init__(self) -> None:
        self._lines: List[str] = []
        self._begin = self._count = 0

    @property
    def is_open(self) -> bool:
        """Whether a statement was begun and has not ended."""
        return bool(self._lines)

    def clear(self) -> None:
        """Drops what was begun."""
        self._lines.clear()

    def add(self, line: str) -> List[Typed]:
        """The statements that end in this line, and its command."""
        self._count += 1
        whole: List[Typed] = []
        start = 0
        command = _COMMAND.match(line)
        if line.lstrip().startswith("--"):
            line = ""
        while not command:
            found = next((each for each in _TEXT_OR_END.finditer(line, start) if _ends(each[0])), None)
            if not found:
                break
            self._put(line[start:found.end()])
            whole += self.rest()
            start = found.end()
            command = _COMMAND.match(line, start)
        if command:
            whole.append(Typed(command[1], self._count))
        elif self._lines or line[start:].strip():
            self._put(line[start:])
        return whole

    def rest(self) -> List[Typed]:
        """The statement that was begun and has no end, if there is one; it counts as ended. A `;` alone is none."""
        text = "\n".join(self._lines).rstrip("\n")
        self._lines.clear()
        return [Typed(text, self._begin)] if text not in ("", ";") else []

    def _put(self, part: str) -> None:
        if not self._lines:
            self._begin, part = self._count, part.lstrip(" \t")
        self._lines.append(part)


def _ends(part: str) -> bool:
    """Whether a text or a `;` ends its statement: a text does if it is open."""
    return part == ";" or part.count("'") % 2 == 1


class Seen:
    """Names of tables and columns that stood in statements which were carried out, and in exports."""

    def __init__(self) -> None:
        self.tables: Set[str] = set()
        self.columns: Set[str] = set()

    def note(self, statement: str, reply: Reply) -> None:
        """Notes what a statement named, if it was carried out."""
        found = _NAMED.match(statement) if reply.ok else None
        chosen = selected(statement) if found else None
        if found:
            self.tables.add((found[1] or found[2]).lower())
        if chosen and chosen.columns:
            self.columns.update(chosen.columns)

    def note_exported(self, line: str) -> None:
        """Notes what a line of an export names."""
        word, _, record = line.partition(",")
        if word in ("table", "withheld"):
            table, *columns = record.split(",")
            self.tables.add(table)
            self.columns.update(columns if word == "table" else ())


def candidates(word: str, before: str, commands: Iterable[str], tables: Tables, seen: Seen) -> List[str]:
    """What the word may go on to be, behind what stands before it in its line.

    Keywords come in capitals, or in small letters where the word is begun so.
    """
    if not before.strip() and word.startswith("\\"):
        return sorted(command for command in commands if command.startswith(word))
    small = word.lower()
    names = {*tables, *seen.tables}
    if not _BEFORE_TABLE.search(before):
        names |= seen.columns.union(*tables.values())
        names |= {keyword.lower() if word and word == small else keyword for keyword in KEYWORDS}
    return sorted(each for each in names if each.lower().startswith(small))


class Completer:
    """What readline asks for: the n-th word that the one at the cursor may go on to be. The only one gets a blank."""

    def __init__(self, found: Callable[[str, str], List[str]]) -> None:
        import readline
        self._readline, self._found = readline, found
        self._words: List[str] = []

    def __call__(self, word: str, n: int) -> Optional[str]:
        if n == 0:
            found = self._found(word, self._readline.get_line_buffer()[:self._readline.get_begidx()])
            self._words = found if len(found) > 1 else [each + " " for each in found]
        return self._words[n] if n < len(self._words) else None

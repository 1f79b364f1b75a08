"""Names and texts of SQL, rights as `sysr explain` writes them, and what is told of what cannot be carried."""
import collections
import contextlib
import dataclasses
import json
import os
import sys
from collections.abc import Callable, Iterable, Iterator
from typing import NoReturn, Optional, TextIO

BY_COLUMN = ("SELECT", "UPDATE")
WORDS = ("SELECT", "INSERT", "DELETE", "UPDATE")


@dataclasses.dataclass(frozen=True)
class Told:
    """A line of a report: a word for its kind, and the text."""

    kind: str
    text: str

    def __str__(self) -> str:
        return f"{self.kind}: {self.text}"


def identifier(name: str) -> str:
    """A name of SQL in its quotes."""
    return '"' + name.replace('"', '""') + '"'


def literal(text: str) -> str:
    """A text of SQL in its quotes, whatever `standard_conforming_strings` is."""
    mark = " E" if "\\" in text else ""
    return mark + "'" + text.replace("\\", "\\\\").replace("'", "''") + "'"


def shown(name: Optional[str]) -> str:
    """A role or another name of PostgreSQL's for people: in quotes, on one line. None is PUBLIC."""
    if name is None:
        return "PUBLIC"
    return json.dumps(name, ensure_ascii=not name.isprintable())


def shown_few(names: Iterable[Optional[str]], most: int = 12) -> str:
    """Names in their order, PUBLIC first; of many the first, and how many more there are."""
    listed = [*map(shown, sorted(names, key=lambda name: name or ""))]
    more = [f"and {len(listed) - most:,} more"] if len(listed) > most else []
    return ", ".join([*listed[:most], *more])


def counted(number: int, noun: str) -> str:
    return f"{number} {noun}" + ("" if number == 1 else "s")


def right(word: str, column: Optional[str]) -> str:
    return f"{word}({column})" if column else word


def word_and_column(name: str) -> tuple[str, str]:
    """The parts of a right; without a column the second is empty."""
    word, _, column = name.removesuffix(")").partition("(")
    return word, column


def in_short(rights: Iterable[str], name: Callable[[str], str] = str) -> Iterator[str]:
    """Rights with the columns of each word in one list, as GRANT has them."""
    found = collections.defaultdict(list)
    for word, column in map(word_and_column, rights):
        found[word].append(column)
    for word in filter(found.get, WORDS):
        yield f"{word} ({', '.join(map(name, found[word]))})" if word in BY_COLUMN else word


def fail(text: str) -> NoReturn:
    """Ends the program with status 1."""
    sys.exit(f"{os.path.basename(sys.argv[0])}: {text}")


def write_report(path: Optional[str], told: Iterable[Told]) -> None:
    """What was told, to a file or to standard error."""
    lines = [f"{line}\n" for line in told]
    if path is None:
        sys.stderr.writelines(lines)
        return
    try:
        with open(path, "w", encoding="utf-8") as file:
            file.writelines(lines)
    except OSError as why:
        fail(f"{path}: {why.strerror}")


@contextlib.contextmanager
def opened_report(path: Optional[str]) -> Iterator[TextIO]:
    """The report, to which lines are added as they come: a file, or standard error."""
    if path is None:
        yield sys.stderr
        return
    try:
        with open(path, "a", encoding="utf-8") as file:
            yield file
    except OSError as why:
        fail(f"{path}: {why.strerror}")


def write_lines(lines: Iterable[str]) -> None:
    """Lines to standard output, the same on each system."""
    sys.stdout.reconfigure(encoding="utf-8", newline="\n")
    try:
        sys.stdout.writelines(line + "\n" for line in lines)
        sys.stdout.flush()
    except OSError as why:
        # What is left in the buffer is not to be written once more at the end.
        os.dup2(os.open(os.devnull, os.O_WRONLY), sys.stdout.fileno())
        fail(f"standard output: {why.strerror}")

"""What the language has for names and values, and how values are written into a statement."""
from __future__ import annotations

import functools
import operator
import re
from typing import Any, Iterable, Match, Optional, Tuple

from .errors import DataError, ProgrammingError

KEYWORDS = frozenset("""AND CHECKPOINT CHECKPOINTS CREATE DELETE EXPORT FOR FROM GRANT INSERT INTEGER INTO ON ONLY
    OPTION REVOKE SELECT SET TABLE TEXT TO UPDATE VALUES WHERE WITH""".split())
"""The words that are no names."""
LEAST, GREATEST = -(1 << 63), (1 << 63) - 1
NAME_BYTES, TEXT_BYTES = 30, 1024

_WORD = re.compile(r"[A-Za-z][A-Za-z0-9_]*", re.ASCII)
_CONTROL = re.compile("[\x00-\x1f\x7f-\x9f]")
# (an open text goes to the end of the line: the server says so)
_TEXT_OR_PLACE = re.compile(r"'(?:[^']|'')*(?:'|\Z)|(\?)")
_TEXT_OR_LINE_END = re.compile(r"'(?:[^']|'')*(?:'|\Z)|\r?\n")
# Beside these a token begins and ends whatever stands there.
_APART = frozenset(" \t\r\n(),;=<>")


def name(text: str) -> str:
    """This name of a user, a table or a column as the server prints it: in small letters.

    A name is an ASCII letter, then ASCII letters, digits or `_`, at most 30 bytes in all, and no keyword. Anything else
    is a `ProgrammingError`. Names cannot be parameters: check them with this, and write them into the statement.
    """
    if not isinstance(text, str):
        raise ProgrammingError(f"a name is a str, and no {type(text).__name__}")
    if not _WORD.fullmatch(text) or len(text) > NAME_BYTES:
        raise ProgrammingError(f"no name: {text!r}: it takes an ASCII letter, then letters, digits or _, at most "
            f"{NAME_BYTES} in all")
    if text.upper() in KEYWORDS:
        raise ProgrammingError(f"no name: {text!r} is a keyword")
    return text.lower()


def literal(value: Any) -> str:
    """This value as a literal of the language: an `int` in 64 bits with its sign, or a `str`.

    An integer of another type, as NumPy has them, counts as `int` (by `__index__`). A `DataError` says why a value has
    no literal: it is of another type, also `None` and `bool`; a number outside 64 bits; a text of more than 1,024 bytes
    of UTF-8, or with a control character (U+0000 to U+001F, U+007F to U+009F), a line feed say.
    """
    if isinstance(value, bool):
        raise DataError("a bool has no literal: write int(value)")
    if isinstance(value, str):
        return _text(str.__str__(value))
    if value is None:
        raise DataError("None has no literal: no value is missing in a table")
    try:
        number = operator.index(value)
    except TypeError:
        raise DataError(f"a {type(value).__name__} has no literal: values are int and str") from None
    if not LEAST <= number <= GREATEST:
        raise DataError("an integer outside 64 bits has no literal")
    return int.__repr__(number)


def _text(value: str) -> str:
    control = _CONTROL.search(value)
    if control:
        raise DataError(f"a text with the control character U+{ord(control[0]):04X} has no literal")
    try:
        size = len(value.encode())
    except UnicodeEncodeError as fault:
        raise DataError(f"a text with a lone surrogate, at {fault.start}, has no literal") from None
    if size > TEXT_BYTES:
        raise DataError(f"a text of {size:,} bytes has no literal: it may have {TEXT_BYTES:,}")
    return "'" + value.replace("'", "''") + "'"


def bind(statement: str, parameters: Iterable[Any]) -> str:
    """The statement with each `?` outside texts replaced by the literal of its parameter, in order.

    A literal stays a token of its own whatever it stands beside. It is a `ProgrammingError` if there are not as many
    parameters as places, and a `DataError` if a value has no literal.
    """
    if isinstance(parameters, (str, bytes)):
        raise ProgrammingError("parameters are a sequence of values: for one value write (value,)")
    if hasattr(parameters, "keys"):
        raise ProgrammingError("parameters are a sequence of values, and have no names")
    first, *more = _between(statement)
    literals = [literal(value) for value in parameters]
    if len(literals) != len(more):
        raise ProgrammingError(f"{len(more)} places for {len(literals)} parameters")
    return first + "".join(value + text for value, text in zip(literals, more))


@functools.lru_cache(maxsize=256)
def _between(statement: str) -> Tuple[str, ...]:
    """What stands before, between and behind the places of a statement, with a blank where a token could be joined."""
    texts, end = [], 0
    for found in _TEXT_OR_PLACE.finditer(statement):
        if found[1]:
            texts.append(statement[end:found.start()])
            end = found.end()
    texts.append(statement[end:])
    last = len(texts) - 1
    return tuple(_set_apart(text, at == 0, at == last) for at, text in enumerate(texts))


def _set_apart(text: str, is_first: bool, is_last: bool) -> str:
    if not text:
        return text if is_first or is_last else " "
    front = "" if is_first or text[0] in _APART else " "
    back = "" if is_last or text[-1] in _APART else " "
    return front + text + back


def line_of(statement: str, parameters: Optional[Iterable[Any]]) -> str:
    """The line to send for this statement, with its parameters if there are any, and without its end.

    A statement is sent as one line, so each line end outside its texts becomes blanks, byte by byte. It is a
    `ProgrammingError` if there is one in a text, which no line can say.
    """
    if not isinstance(statement, str):
        raise ProgrammingError(f"a statement is a str, and no {type(statement).__name__}")
    line = statement if parameters is None else bind(statement, parameters)
    if "\n" in line:
        line = _TEXT_OR_LINE_END.sub(_as_blanks, line)
    try:
        line.encode()
    except UnicodeEncodeError as fault:
        raise ProgrammingError(f"a statement with a lone surrogate, at {fault.start}, cannot be sent") from None
    return line


def _as_blanks(found: Match[str]) -> str:
    if not found[0].startswith("'"):
        return len(found[0]) * " "
    if "\n" in found[0]:
        raise ProgrammingError(f"a text with a line feed, at {found.start()}, cannot be sent")
    return found[0]

"""A journal that grows: a file, or the folder of a server, read a whole line at a time and never past its end."""
import contextlib
import os
import re
import time
from collections.abc import Callable, Iterator
from typing import Optional

from postgres_rights.wording import fail

PIECE = re.compile(r"journal-(\d{10})")
BLOCK = 1 << 20
# Between two looks at a file that has not grown.
PAUSE = 0.01


class Piece:
    """A file of which whole lines are read. What a writer has begun and not ended stays there."""

    def __init__(self, path: str):
        self.path, self.lines, self.rest = path, 0, b""
        try:
            self.file = open(path, "rb", buffering=0)
        except OSError as why:
            fail(f"{path}: {why.strerror}")

    def read(self) -> bytes:
        """The lines that came since it was last read."""
        block = self.file.read(BLOCK)
        whole, feed, rest = (self.rest + block).rpartition(b"\n")
        self.rest = rest
        self.lines += whole.count(b"\n") + bool(feed)
        return whole + feed

    def is_of(self, path: str) -> bool:
        """Whether it is the file that has this name now."""
        with contextlib.suppress(FileNotFoundError):
            return os.path.samestat(os.stat(path), os.fstat(self.file.fileno()))
        return True

    def close(self) -> None:
        self.file.close()


def pieces_of(folder: str) -> list[tuple[int, str]]:
    """The pieces of a server's folder, each with how many changes stand before it."""
    found = (PIECE.fullmatch(name) for name in os.listdir(folder))
    return sorted((int(name.group(1)), os.path.join(folder, name.group(0))) for name in found if name)


def next_piece(folder: str, changes: int) -> Optional[str]:
    """The piece that begins behind so many changes, if there is one."""
    return next((path for first, path in pieces_of(folder) if first == changes), None)


def of_folder(folder: str) -> Iterator[Optional[bytes]]:
    """The lines of a folder's pieces; None where no more has come yet.

    A server that starts begins a piece of its own: so an empty one may be made anew under the same name, and a piece
    that ends with a front of a line is not gone on with.
    """
    path, before = next_piece(folder, 0), 0
    if path is None:
        fail(f"{folder}: its first piece, journal-{0:010}, is not there")
    piece = Piece(path)
    while True:
        block = piece.read()
        if not block and (path := next_piece(folder, before + piece.lines)) and not piece.is_of(path):
            before += piece.lines
            piece.close()
            piece = Piece(path)
        else:
            yield block or None


def of_file(path: str) -> Iterator[Optional[bytes]]:
    """The lines of a file; None where no more has come yet."""
    piece = Piece(path)
    while True:
        yield piece.read() or None


def grown(path: str, is_over: Callable[[], bool]) -> Iterator[bytes]:
    """The lines of a file or a folder, as they come, until it is over."""
    for block in of_folder(path) if os.path.isdir(path) else of_file(path):
        if block:
            yield block
        elif is_over():
            return
        else:
            time.sleep(PAUSE)

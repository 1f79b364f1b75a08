"""A session of psql that is told one script after another."""
import os
import queue
import subprocess
import threading
from collections.abc import Iterable, Sequence
from typing import Any

from postgres_rights.server import Record, as_records, parsed
from postgres_rights.wording import fail

WORDS = ["psql", "-X", "-A", "-t", "-q", "-v", "ON_ERROR_STOP=1"]
# What psql writes behind each script, and nothing that is asked has alone on a line.
DONE = "\x1fdone"


class Session:
    """psql ends at the first error, and the tool with what it says."""

    def __init__(self, connection: Sequence[str]):
        environment = {**os.environ, "PGCLIENTENCODING": "UTF8"}
        try:
            self.psql = subprocess.Popen([*WORDS, *connection, "-f", "-"], stdin=subprocess.PIPE,
                stdout=subprocess.PIPE, stderr=subprocess.PIPE, env=environment, encoding="utf-8")
        except FileNotFoundError:
            fail("psql is not installed")
        # (psql may say more than a pipe holds before it is asked.)
        self.said: "queue.SimpleQueue[str]" = queue.SimpleQueue()
        threading.Thread(target=self.listen, daemon=True).start()

    def listen(self) -> None:
        for line in self.psql.stderr:
            self.said.put(line)
        self.said.put("")

    def why(self) -> str:
        """What psql said last, once it has ended."""
        lines = [*iter(self.said.get, "")]
        return "".join(lines[-10:]).strip() or "psql ended"

    def tell(self, lines: Iterable[str]) -> list[str]:
        """Has psql carry out a script; what it writes."""
        try:
            self.psql.stdin.writelines(line + "\n" for line in (*lines, f"\\echo {DONE}"))
            self.psql.stdin.flush()
        except BrokenPipeError:
            fail(self.why())
        written = []
        for line in self.psql.stdout:
            if line == DONE + "\n":
                return written
            written.append(line)
        fail(self.why())

    def ask(self, queries: Iterable[str]) -> list[list[Record]]:
        """The records of each query."""
        found: list[Any] = parsed("".join(self.tell(map(as_records, queries))))
        return found

    def close(self) -> None:
        self.psql.stdin.close()
        self.psql.wait()

"""What carries statements out and shows what is answered, for a person and for a script."""
from __future__ import annotations

import sys
import time
from typing import Callable, TextIO

from ..replies import Begun, Done, Fault, Reply
from .forms import Form
from .layout import pointed
from .session import Session


def complain(why: object) -> None:
    """Says on standard error what went wrong, behind what was told before."""
    sys.stdout.flush()
    print(f"sysr-shell: {why}", file=sys.stderr, flush=True)


class Talk:
    """A session whose replies are shown in a form, on `out`. `is_timing` is whether times are told."""

    def __init__(self, session: Session, form: Form, out: TextIO, is_script: bool) -> None:
        self.session, self.form, self.out = session, form, out
        self.is_timing = False
        self._is_script = is_script

    def tell(self, *lines: str) -> None:
        """Writes lines."""
        for line in lines:
            print(line, file=self.out)

    def say(self, statement: str, failed: Callable[[Reply], None]) -> None:
        """Carries a statement out and shows its reply.

        The reply to one that was not carried out is handed to `failed`; the form shows it too if it shows failures.
        Errors are those of `Connection.execute`, and `ExportCut`.
        """
        start = time.perf_counter()
        reply = self.session.execute(statement)
        is_quiet = self._is_script and not self.form.tells_changes and isinstance(reply, (Done, Begun))
        if (reply.ok or self.form.tells_failures) and not is_quiet:
            for line in self.form.shown(reply, self.session, complain):
                self.tell(line)
        took = time.perf_counter() - start
        if not reply.ok:
            failed(reply)
        if self.is_timing:
            self.tell(f"Time: {1e3 * took:.3f} ms")


def failure(reply: Reply, statement: str) -> str:
    """The reply to a statement that was not carried out; below a fault its line, and a caret at its place."""
    if isinstance(reply, Fault):
        return "\n".join([str(reply), *pointed(statement, reply.position)])
    return str(reply)

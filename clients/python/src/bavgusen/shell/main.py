"""The command `sysr-shell`."""
from __future__ import annotations

import argparse
import contextlib
import getpass
import io
import os
import stat
import sys
import warnings
from typing import NamedTuple, Optional, Sequence

from ..errors import Error, LoginError, ProgrammingError
from ..literals import name
from .forms import CSV, RAW, TABLES
from .interactive import Interactive, editing
from .script import NO_SESSION, NOT_CARRIED_OUT, OWN_FAULT, Script, Stopped
from .session import Place, Session
from .talk import Talk, complain

DESCRIPTION = """A shell over a session of `sysr serve`. On a terminal it edits and completes what is typed; otherwise
it carries out the script that comes on standard input. A statement ends with `;`, and a line that begins with a
backslash is a command: \\? lists them."""
STATUSES = """Status: 0, all lines were read to their end; 1, a statement of -c was not carried out, or a file cannot be
read; 2, the command line was refused, or the session could not be begun or was ended by the server; 3, with
--stop-on-error a statement of a script was not carried out."""


class Task(NamedTuple):
    """A script: the text of `-c`, or the path of `-f`, where `-` is standard input."""

    text: Optional[str]
    path: str = ""


def main(words: Optional[Sequence[str]] = None) -> int:
    """Runs the shell, and gives its status: see `STATUSES`."""
    asked = _arguments().parse_args(words)
    password = asked.password if asked.password is not None else os.environ.get("SYSR_PASSWORD") or None
    place = Place(asked.host, asked.port, asked.user, asked.journal, password)
    session = Session(place, _typed_password if sys.stdin.isatty() else None)
    try:
        if not asked.tasks and sys.stdin.isatty() and sys.stdout.isatty():
            return _on_terminal(Interactive(session, asked.sysr, asked.form), os.path.expanduser(asked.history))
        status = _scripts(session, asked)
        sys.stdout.flush()
        return status
    except BrokenPipeError:
        # (whoever read the output has left; what is still buffered has nowhere to go)
        os.dup2(os.open(os.devnull, os.O_WRONLY), sys.stdout.fileno())
        return OWN_FAULT
    except KeyboardInterrupt:
        return 130
    finally:
        session.end()


def _on_terminal(shell: Interactive, history: str) -> int:
    # (what the terminal's encoding cannot say ends no shell, neither typed nor told)
    if isinstance(sys.stdin, io.TextIOWrapper) and isinstance(sys.stdout, io.TextIOWrapper):
        sys.stdin.reconfigure(errors="surrogateescape")
        sys.stdout.reconfigure(errors="backslashreplace")
    with editing(shell, history):
        return shell.run()


def _scripts(session: Session, asked: argparse.Namespace) -> int:
    """Carries out what `-c` and `-f` say, in their order; or standard input, where there are none."""
    for stream in (sys.stdout, sys.stderr):
        if isinstance(stream, io.TextIOWrapper):
            stream.reconfigure(encoding="utf-8", newline="\n", errors="backslashreplace")
    talk = Talk(session, asked.form, sys.stdout, is_script=True)
    stops = NOT_CARRIED_OUT if asked.stop_on_error else None
    try:
        session.begin()
        for task in asked.tasks or [Task(None, "-")]:
            script = Script(talk, asked.sysr, stops if task.text is None else OWN_FAULT)
            if task.text is not None:
                script.run(task.text.encode(errors="surrogateescape").split(b"\n"), None)
            elif task.path == "-":
                script.run(sys.stdin.buffer, "<stdin>")
            else:
                script.run_file(task.path)
    except Stopped as stopped:
        return stopped.status
    except Error as error:
        complain(error)
        return NO_SESSION
    except OSError as error:
        if error.filename is None:
            raise
        complain(f"{error.filename}: {error.strerror}")
        return OWN_FAULT
    return 0


def _arguments() -> argparse.ArgumentParser:
    words = argparse.ArgumentParser(prog="sysr-shell", description=DESCRIPTION, epilog=STATUSES, add_help=False)
    add = words.add_argument
    add("-h", "--host", default="127.0.0.1", help="where the server listens; 127.0.0.1 if it is not given")
    add("-p", "--port", type=_port, default=7878, help="its port; 7878 if it is not given")
    add("-U", "--user", type=_user, default=_own_name(),
        help="whose session it is; who you are on this machine if it is not given")
    add("--password-file", dest="password", type=_password, metavar="FILE",
        help="the user's password is its first line, and nobody else may read or write it (mode 600); if it is not "
        "given, the password is what SYSR_PASSWORD says, or on a terminal you are asked, where the server wants one")
    add("-c", "--command", dest="tasks", action="append", default=[], type=Task, metavar="STATEMENTS",
        help="carry these out and end, with status 1 at the first that is not carried out; it may be given again")
    add("-f", "--file", dest="tasks", action="append", type=lambda path: Task(None, path), metavar="FILE",
        help="carry out a script and end; - is standard input")
    add("--csv", dest="form", action="store_const", const=CSV, default=TABLES,
        help="rows, checkpoints and exports as CSV with a head, and of a script nothing else")
    add("--raw", dest="form", action="store_const", const=RAW, help="replies as the server writes them")
    add("--stop-on-error", action="store_true",
        help="end a script with status 3 at the first statement that is not carried out")
    add("--journal", metavar="FILE", help="the server's journal: tells of tables, \\rights and \\why")
    add("--sysr", default="sysr", metavar="PROGRAM", help="the program sysr, for \\rights and \\why")
    add("--history", default="~/.sysr_history", metavar="FILE", help="where lines that were typed are kept")
    add("-?", "--help", action="help", help="show this help")
    return words


def _port(text: str) -> int:
    if not (text.isascii() and text.isdigit() and 1 <= int(text[:6]) <= 65535):
        raise argparse.ArgumentTypeError(f"no port: {text}: it is a number from 1 to 65535")
    return int(text)


def _user(text: str) -> str:
    try:
        return name(text)
    except ProgrammingError as error:
        raise argparse.ArgumentTypeError(str(error)) from None


def _password(path: str) -> str:
    """The first line of a file that its owner alone may read and write."""
    try:
        with open(path, encoding="utf-8") as file:
            mode = stat.S_IMODE(os.fstat(file.fileno()).st_mode)
            if mode & 0o077:
                raise argparse.ArgumentTypeError(f"{path}: others may reach it (mode {mode:03o}): chmod 600")
            return file.readline().rstrip("\n")
    except UnicodeDecodeError:
        raise argparse.ArgumentTypeError(f"{path}: a password is of printable ASCII") from None
    except OSError as error:
        raise argparse.ArgumentTypeError(f"{path}: {error.strerror}") from None


def _typed_password(user: str) -> str:
    """The password of a user, who is asked for it on the terminal, which does not show it."""
    try:
        with warnings.catch_warnings():
            warnings.simplefilter("error", getpass.GetPassWarning)
            return getpass.getpass(f"Password of {user}: ")
    except (EOFError, UnicodeError, getpass.GetPassWarning):
        raise LoginError("no password was typed") from None


def _own_name() -> str:
    """Who has started the shell; where it is no name of the language, argparse says so."""
    with contextlib.suppress(Exception):
        return getpass.getuser()
    return ""

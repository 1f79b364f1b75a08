"""Input that no user means: spaces without end, and first lines of sessions at the edge of what names a user."""
import contextlib
import subprocess
import threading

from served import WAIT, Server, talk

MOST_BYTES = 1 << 32


class Spaces(threading.Thread):
    """Gives the program so many spaces, or fewer if it stops reading, while other tests run."""

    def __init__(self, program, count):
        super().__init__()
        pipes = {"stdin": subprocess.PIPE, "stdout": subprocess.PIPE, "stderr": subprocess.PIPE}
        self.child = subprocess.Popen([program, "run"], bufsize=0, **pipes)
        self.count, self.given = count, 0
        self.start()

    def run(self):
        spaces = memoryview((1 << 20) * b" ")
        with contextlib.suppress(BrokenPipeError):
            while self.given < self.count:
                self.given += self.child.stdin.write(spaces[:self.count - self.given])
        self.child.stdin.close()

    def end(self):
        """The status, and what was written."""
        self.join(WAIT)
        out, err = self.child.stdout.read(), self.child.stderr.read()
        return self.child.wait(WAIT), out, err


@contextlib.contextmanager
def spaces_beside(program, check):
    """The program gives up when it has read 2^32 bytes and the end has not come; with one byte less it does not."""
    endless, long = Spaces(program, 2 * MOST_BYTES), Spaces(program, MOST_BYTES - 1)
    try:
        yield
    finally:
        seen = endless.end()
        check("spaces without end", seen == (1, b"", b"sysr: bound reached\n"), seen)
        # (of those that were given a pipe may hold some)
        read_all = MOST_BYTES <= endless.given <= MOST_BYTES + (1 << 22)
        check("spaces without end: so many are read", read_all, endless.given)
        seen = long.end()
        check("as many spaces as may be", seen == (0, b"error 2 at 4096: too long\n", b""), seen)


def first_lines(program, check):
    server = Server(program, 2)
    for line, wanted in (("user  Bob ", "welcome bob\n"), ("USER bob x", "error 4 at 0: not expected\n")):
        seen = talk(server, line + "\n")
        check(f"the first line `{line}`", seen == wanted, seen)
    ended = server.end()
    check("first lines at the edge: the end", ended == (0, b"served 2\n", []), ended)

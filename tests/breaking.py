"""Streams that come in pieces, and that break at each of their calls: of `sysr run`, and of a session in `sysr serve`.

A library that is loaded before libc's hands out a few bytes at a time, and fails from some call on. On a
fault of reading, what was written is the replies to the whole lines read; on one of writing, a front of the
whole.
"""
import contextlib
import errno
import os
import subprocess

from one_history import replies
from refusals import example
from served import WAIT, Server, talk

# Reads and writes of a stream: of standard input and output, or of a connection, each of which has one good
# call more than the one before.
SOURCE = """
#define _GNU_SOURCE
#include <dlfcn.h>
#include <errno.h>
#include <stdlib.h>
#include <sys/socket.h>
#include <unistd.h>

enum { FILES = 4096 };
static long accepted, made[FILES], good[FILES];
static char is_client[FILES];

static long number(const char *name, long other) {
    const char *given = getenv(name);
    return given ? atol(given) : other;
}

/* How many bytes of these a call may move: none, or -1 with an error, behind the good calls. With INTERRUPTED
   each second call fails as if a signal had come. */
static ssize_t moved(int file, const char *kind, size_t size) {
    const char *broken = getenv("BROKEN");
    size_t piece = number("PIECE", 1 << 30);
    if (getenv("INTERRUPTED") && made[file]++ % 2 == 0) {
        errno = EINTR;
        return -1;
    }
    if (broken && *broken == *kind && (file < 2 || is_client[file]) && made[file]++ >= number("GOOD_CALLS", good[file])) {
        errno = number("ERROR", 0);
        return errno ? -1 : 0;
    }
    return size < piece ? size : piece;
}

int accept4(int socket, struct sockaddr *address, socklen_t *length, int flags) {
    int (*real)(int, struct sockaddr *, socklen_t *, int) = dlsym(RTLD_NEXT, "accept4");
    int taken = real(socket, address, length, flags);
    if (taken >= 0)
        good[taken] = accepted++, made[taken] = 0, is_client[taken] = 1;
    return taken;
}

ssize_t read(int file, void *into, size_t size) {
    ssize_t (*real)(int, void *, size_t) = dlsym(RTLD_NEXT, "read");
    ssize_t most = file ? size : moved(file, "read", size);
    return most < 0 ? most : real(file, into, most);
}

ssize_t write(int file, const void *from, size_t size) {
    ssize_t (*real)(int, const void *, size_t) = dlsym(RTLD_NEXT, "write");
    ssize_t most = file == 1 && !getenv("ACCEPTS") ? moved(file, "write", size) : size;
    return most <= 0 ? most : real(file, from, most);
}

ssize_t recv(int socket, void *into, size_t size, int flags) {
    ssize_t (*real)(int, void *, size_t, int) = dlsym(RTLD_NEXT, "recv");
    ssize_t most = moved(socket, "read", size);
    return most < 0 ? most : real(socket, into, most, flags);
}

ssize_t send(int socket, const void *from, size_t size, int flags) {
    ssize_t (*real)(int, const void *, size_t, int) = dlsym(RTLD_NEXT, "send");
    ssize_t most = moved(socket, "write", size);
    return most <= 0 ? most : real(socket, from, most, flags);
}
"""


class Streams:
    """The program, whose streams are as the environment says."""

    def __init__(self, program, work):
        source, self.library = os.path.join(work, "streams.c"), os.path.join(work, "streams.so")
        self.program = program
        with open(source, "w", encoding="ascii") as file:
            file.write(SOURCE)
        subprocess.run(["cc", "-shared", "-fPIC", "-o", self.library, source, "-ldl"], check=True)

    @contextlib.contextmanager
    def around(self, **more):
        """The environment of what is started meanwhile."""
        before = dict(os.environ)
        os.environ.update({"LD_PRELOAD": self.library, **{name: str(value) for name, value in more.items()}})
        try:
            yield
        finally:
            os.environ.clear()
            os.environ.update(before)

    def run(self, words, given, **more):
        with self.around(**more):
            done = subprocess.run([self.program, *words], input=given.encode(), capture_output=True, timeout=WAIT)
        return done.returncode, done.stdout.decode(), done.stderr.decode()


def in_pieces(streams, check):
    words, given, wanted = example("folding_and_quotes")
    for piece in (1, 2, 3, 7):
        seen = streams.run(words, "\n".join(given), PIECE=piece)
        check(f"in pieces of {piece}", seen == (0, "\n".join([*wanted, ""]), ""), seen)


def interrupted(streams, check):
    """A call that a signal interrupted is made again: nothing is lost."""
    words, given, wanted = example("captured_grants")
    seen = streams.run(words, "\n".join(given), PIECE=3, INTERRUPTED=1)
    check("interrupted calls", seen == (0, "\n".join([*wanted, ""]), ""), seen)
    with streams.around(PIECE=3, INTERRUPTED=1, ACCEPTS=1):
        server = Server(streams.program, 1, workers=1)
    seen = talk(server, "USER bob\nCREATE TABLE t (x INTEGER)\nSELECT * FROM t\n")
    check("interrupted calls of a session", seen == "welcome bob\ndone @1\nrows 0 @1\n", seen)
    ended = server.end()
    check("interrupted calls of a session: the end", ended == (0, b"served 1\n", []), ended)


def reads_break(streams, check):
    words, given, wanted = example("captured_grants")
    told, text = [*replies(wanted)], "\n".join([*given, ""])
    for good in range((len(text) + 2) // 3 + 1):
        seen = streams.run(words, text, PIECE=3, BROKEN="read", GOOD_CALLS=good, ERROR=errno.EIO)
        lines = [line for reply in told[:text[:3 * good].count("\n")] for line in reply]
        answered = (1, "".join(line + "\n" for line in lines), "sysr: read fault\n")
        check(f"read {good} breaks", seen == answered, seen)


def writes_break(streams, check):
    """A write that takes nothing is broken too."""
    words, given, wanted = example("captured_grants")
    text, output = "\n".join([*given, ""]), "\n".join([*wanted, ""])
    for error in (errno.EIO, 0):
        for good in range(len(output)):
            seen = streams.run(words, text, PIECE=1, BROKEN="write", GOOD_CALLS=good, ERROR=error)
            check(f"write {good} breaks", seen == (1, output[:good], "sysr: write fault\n"), (error, seen))


def sessions_break(streams, check, kind, count):
    """What is said of so many sessions, of which each has one good call more than the one before."""
    with streams.around(PIECE=3 if kind == "read" else 1, BROKEN=kind, ERROR=errno.EIO, ACCEPTS=1):
        server = Server(streams.program, count, workers=1)
    for good in range(count):
        yield good, talk(server, f"USER bob\nCREATE TABLE t{good} (x INTEGER)\n")
    ended = server.end()
    wanted = (0, f"served {count}\n".encode(), count * [f"session fault: {kind}"])
    check(f"sessions whose {kind}s break: the end", ended == wanted, ended)


def sessions(streams, check):
    for good, seen in sessions_break(streams, check, "read", 14):
        # (only the last of these reads the second line to its end)
        lines = f"USER bob\nCREATE TABLE t{good} (x INTEGER)\n"[:3 * good].count("\n")
        wanted = "".join(["welcome bob\n", "done @1\n"][:lines])
        check(f"read {good} of a session breaks", seen == wanted, seen)
    for good, seen in sessions_break(streams, check, "write", 20):
        # (from the twelfth good write on the second line is read, and carried out)
        wanted = f"welcome bob\ndone @{good - 11}\n"[:good]
        check(f"write {good} of a session breaks", seen == wanted, seen)


def played(program, check, work):
    streams = Streams(program, work)
    in_pieces(streams, check)
    reads_break(streams, check)
    writes_break(streams, check)
    try:
        interrupted(streams, check)
        sessions(streams, check)
    except (OSError, LookupError, ValueError, subprocess.TimeoutExpired) as error:
        check("sessions break: an answer in time", False, error)
    finally:
        Server.stop_all()

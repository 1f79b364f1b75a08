"""Libraries in C that are loaded before libc's; and requests for memory, which one of them counts.

What needs no memory makes no request: the lines of COUNTED make as many where they go far as where they do not.
"""
import os
import shutil
import subprocess

from served import WAIT

REQUESTS = """
#define _GNU_SOURCE
#include <dlfcn.h>
#include <errno.h>
#include <stdio.h>
#include <stdlib.h>
#include <sys/syscall.h>
#include <unistd.h>

static long made, refused = -1;

static int refuses(void) {
    if (refused < 0) {
        const char *given = getenv("REFUSED_REQUEST");
        refused = given ? atol(given) : 0;
    }
    return ++made == refused;
}

__attribute__((destructor)) static void tell(void) {
    const char *path = getenv("REQUESTS_TOLD_IN");
    FILE *file = path ? fopen(path, "w") : 0;
    if (file) { fprintf(file, "%ld", made); fclose(file); }
}

/* A program with threads ends without destructors. */
__attribute__((noreturn)) void _exit(int status) {
    tell();
    for (;;)
        syscall(SYS_exit_group, status);
}

void *malloc(size_t size) {
    static void *(*real)(size_t);
    if (!real) real = (void *(*)(size_t))dlsym(RTLD_NEXT, "malloc");
    if (refuses()) { errno = ENOMEM; return 0; }
    return real(size);
}

void *realloc(void *old, size_t size) {
    static void *(*real)(void *, size_t);
    if (!real) real = (void *(*)(void *, size_t))dlsym(RTLD_NEXT, "realloc");
    if (refuses()) { errno = ENOMEM; return 0; }
    return real(old, size);
}
"""


def library(work, name, text):
    """A library of this C text to load before libc's, or None."""
    compiler = shutil.which("cc")
    if compiler is None:
        print(f"no C compiler: {name} were not refused")
        return None
    source, made = os.path.join(work, f"{name}.c"), os.path.join(work, f"{name}.so")
    with open(source, "w") as file:
        file.write(text)
    done = subprocess.run([compiler, "-shared", "-fPIC", "-o", made, source, "-ldl"])
    if done.returncode:
        print(f"the C compiler failed: {name} were not refused")
        return None
    return made


# What stands before the lines whose requests are counted: a checkpoint, a table with rows, rights on it, and a
# checkpoint of them. The one column of which e held SELECT then is none of those that he may select now.
COUNTED_START = b"""o: CHECKPOINT
o: CREATE TABLE t (x INTEGER, y TEXT)
o: INSERT INTO t VALUES (1, 'a')
o: INSERT INTO t VALUES (2, 'b')
o: GRANT SELECT, INSERT, UPDATE ON t TO a WITH GRANT OPTION
a: GRANT SELECT ON t TO b
o: GRANT SELECT (x) ON t TO d, e
o: CHECKPOINT
o: REVOKE SELECT (x) ON t FROM e
o: GRANT SELECT (y) ON t TO e
"""

# Lines of one length in tokens and lists, so that reading them takes the same: the first is refused by its
# first check, and the second by its last, or it is carried out and drops or changes nothing. (An option can be taken
# once: it is not given to the 499 lines behind that.)
COUNTED = [
    ("look-ups and DELETE", b"a: DELETE FROM s WHERE x = 3 AND y = 'c'", b"o: DELETE FROM t WHERE x = 3 AND y = 'c'"),
    ("holding", b"a: SELECT x FROM s WHERE x = 1", b"c: SELECT x FROM t WHERE x = 1"),
    ("holding one column of two", b"d: SELECT x FROM s WHERE y = 'a'", b"d: SELECT x FROM t WHERE y = 'a'"),
    ("holding by a grant", b"a: UPDATE s SET x = 1 WHERE y = 'a'", b"b: UPDATE t SET x = 1 WHERE y = 'a'"),
    ("granting on", b"b: GRANT SELECT, UPDATE ON s TO d", b"b: GRANT SELECT, UPDATE ON t TO d"),
    ("having granted", b"a: REVOKE SELECT, INSERT ON s FROM b", b"a: REVOKE SELECT, INSERT ON t FROM b"),
    ("having given options", b"o: REVOKE GRANT OPTION FOR SELECT, DELETE ON s FROM a",
        b"o: REVOKE GRANT OPTION FOR SELECT, DELETE ON t FROM a"),
    ("taking an option", b"o: REVOKE GRANT OPTION FOR SELECT ON s FROM a",
        b"o: REVOKE GRANT OPTION FOR SELECT ON t FROM a"),
    ("finding a checkpoint", b"o: EXPORT 3 ONLY s", b"o: EXPORT 3 ONLY t"),
    ("holding a column then and now", b"e: EXPORT 2 ONLY s", b"e: EXPORT 2 ONLY t"),
]


def played(program, check, preloaded, work):
    """As many requests for 500 lines that go far as for 500 that do not.

    A change is entered in the journal, whose room doubles, so some requests more are let pass.
    """
    told = os.path.join(work, "requests")

    def requests(line):
        more = {**os.environ, "LD_PRELOAD": preloaded, "REQUESTS_TOLD_IN": told}
        script = COUNTED_START + 500 * (line + b"\n")
        done = subprocess.run([program, "run"], input=script, capture_output=True, timeout=WAIT, env=more)
        with open(told) as file:
            return done.returncode, int(file.read())

    for name, near, far in COUNTED:
        (status, few), (other, many) = requests(near), requests(far)
        check(f"requests: {name}", status == other == 0 and abs(many - few) <= 12, (few, many))

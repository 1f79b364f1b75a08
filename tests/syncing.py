"""When a server's journal is put on its disk: before each reply, once a second, or never; and what comes of a disk that
is slow, or refuses it.

A library that is loaded before libc's writes down each sync of a file or folder, has those of files take some time, and
refuses them from some call on.
"""
import os
import threading
import time

import counted
from served import Server, Session

SYNCS = """
#define _GNU_SOURCE
#include <dlfcn.h>
#include <errno.h>
#include <fcntl.h>
#include <stdatomic.h>
#include <stdlib.h>
#include <string.h>
#include <sys/stat.h>
#include <unistd.h>

static atomic_int files;

/* One byte for each sync: d of a folder, f of a file, r of a file that is refused. */
static int synced(int file, const char *how) {
    int (*real)(int) = (int (*)(int))dlsym(RTLD_NEXT, how);
    const char *told = getenv("SYNCS"), *good = getenv("GOOD_SYNCS"), *slow = getenv("SYNC_MICROS");
    struct stat seen;
    int is_folder = !fstat(file, &seen) && S_ISDIR(seen.st_mode);
    int is_refused = !is_folder && good && atomic_fetch_add(&files, 1) >= atoi(good);
    int log = told ? open(told, O_WRONLY | O_CREAT | O_APPEND, 0600) : -1;
    if (log >= 0) {
        if (write(log, is_folder ? "d" : is_refused ? "r" : "f", 1) < 0) abort();
        close(log);
    }
    if (slow && !is_folder) usleep(atoi(slow));
    if (is_refused) {
        errno = EIO;
        return -1;
    }
    return real(file);
}

int fsync(int file) { return synced(file, "fsync"); }
int fdatasync(int file) { return synced(file, "fdatasync"); }
"""

# What a server waits between two syncs, and some more.
PAUSE = 1.6


class Syncing:
    """Servers whose syncs are written down."""

    def __init__(self, program, folder, preloaded):
        self.program, self.folder, self.preloaded = program, folder, preloaded
        self.told = os.path.join(folder, "syncs")

    def serving(self, name, *words, sessions=1, workers=2, good=None, micros=0):
        with open(self.told, "wb"):
            pass
        given = {"LD_PRELOAD": self.preloaded, "SYNCS": self.told, "SYNC_MICROS": str(micros)}
        if good is not None:
            given["GOOD_SYNCS"] = str(good)
        journal = ["--journal", os.path.join(self.folder, name), *words]
        return Server(self.program, sessions, workers, more=journal, env={**os.environ, **given})

    def syncs(self):
        with open(self.told) as file:
            return file.read()


def once_a_second(syncing, check):
    server = syncing.serving("second")
    ann = Session(server, "ann")
    check("the folder of a new journal is synced", syncing.syncs() == "d", syncing.syncs())
    said = ann.ask("CREATE TABLE t (x INTEGER)")
    time.sleep(PAUSE)
    check("a change is synced within a second", (said, syncing.syncs()) == ("done @1\n", "df"), (said, syncing.syncs()))
    time.sleep(PAUSE)
    check("nothing is synced where nothing was written", syncing.syncs() == "df", syncing.syncs())
    ann.end()
    ended = server.end()
    check("synced each second: the end", ended == (0, b"served 1\n", []) and syncing.syncs() == "dff", (ended, syncing.syncs()))


def never(syncing, check):
    server = syncing.serving("never", "--journal-sync", "never")
    ann = Session(server, "ann")
    said = ann.ask("CREATE TABLE t (x INTEGER)")
    time.sleep(PAUSE)
    check("never synced", (said, syncing.syncs()) == ("done @1\n", ""), (said, syncing.syncs()))
    ann.end()
    server.end()


def refused(syncing, check):
    server = syncing.serving("refused", good=0)
    ann = Session(server, "ann")
    said = [ann.ask("CREATE TABLE t (x INTEGER)")]
    time.sleep(PAUSE)
    said += [ann.ask("SELECT * FROM t"), ann.ask("INSERT INTO t VALUES (1)")]
    wanted = ["done @1\n", "rows 0 @1\n", ""]
    check("a disk that refuses a sync: queries are answered, and no change is told", said == wanted, said)
    ended = server.end()
    told = f"sysr: {os.path.join(syncing.folder, 'refused')}: cannot be synced"
    seen = ended[0], told in ended[2], "session fault: journal" in ended[2]
    check("a disk that refuses a sync: the end", seen == (1, True, True), ended)


def each(syncing, check):
    server = syncing.serving("each", "--journal-sync", "each")
    ann = Session(server, "ann")
    check("what a server began with is synced before its first reply", syncing.syncs() == "df", syncing.syncs())
    said = [ann.ask("CREATE TABLE t (x INTEGER)"), syncing.syncs()]
    check("a change is synced before its reply", said == ["done @1\n", "dff"], said)
    said = [ann.ask("SELECT * FROM t"), syncing.syncs()]
    check("a query of what is synced has no sync", said == ["rows 0 @1\n", "dff"], said)
    said = [ann.ask("DELETE FROM u"), syncing.syncs()]
    check("nor has a denial", said[1] == "dff", said)
    ann.end()
    ended = server.end()
    check("synced before each reply: the end", ended == (0, b"served 1\n", []), ended)


def behind_a_slow_sync(syncing, check):
    server = syncing.serving("slow", "--journal-sync", "each", micros=300_000)
    ann = Session(server, "ann")
    began = time.monotonic()
    said, took = ann.ask("CREATE TABLE t (x INTEGER)"), time.monotonic() - began
    check("a reply waits for its sync", said == "done @1\n" and took > 0.3, (said, took))
    ann.end()
    server.end()


CLIENTS, CHANGES = 8, 20


def one_for_all(syncing, check):
    server = syncing.serving("all", "--journal-sync", "each", sessions=CLIENTS + 1, workers=8, micros=20_000)
    ann = Session(server, "ann")
    said = [ann.ask("CREATE TABLE t (x INTEGER)"), ann.ask("GRANT INSERT ON t TO bob")]
    ann.end()

    def change(told):
        bob = Session(server, "bob")
        told += [bob.ask("INSERT INTO t VALUES (1)") for _ in range(CHANGES)]
        bob.end()

    all_told = [[] for _ in range(CLIENTS)]
    clients = [threading.Thread(target=change, args=(told,)) for told in all_told]
    for client in clients:
        client.start()
    for client in clients:
        client.join()
    ended = server.end()
    lines = sorted(sum(all_told, said), key=lambda line: int(line.split("@")[1]))
    wanted = [f"done @{n}\n" for n in range(1, CLIENTS * CHANGES + 3)]
    check("changes of several clients are told", (lines, ended[0]) == (wanted, 0), (lines, ended))
    count = syncing.syncs().count("f")
    check("one sync serves all who wait", count < CLIENTS * CHANGES / 2, count)


def refused_each(syncing, check):
    server = syncing.serving("refused-each", "--journal-sync", "each", sessions=2, good=2)
    ann = Session(server, "ann")
    said = [ann.ask("CREATE TABLE t (x INTEGER)"), ann.ask("INSERT INTO t VALUES (1)")]
    said.append(Session(server, "bob").welcome)
    check("a disk that refuses a sync: nobody is told of what it said", said == ["done @1\n", "", ""], said)
    ended = server.end()
    faults = [line for line in ended[2] if line.startswith("session fault")]
    told = f"sysr: {os.path.join(syncing.folder, 'refused-each')}: cannot be synced"
    seen = ended[0], told in ended[2], faults
    check("the end of such sessions", seen == (1, True, ["session fault: journal"] * 2), ended)


def played(program, check, work):
    preloaded = counted.library(work, "syncs", SYNCS)
    if preloaded:
        syncing = Syncing(program, work, preloaded)
        for test in (once_a_second, never, refused, each, behind_a_slow_sync, one_for_all, refused_each):
            test(syncing, check)

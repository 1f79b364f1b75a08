"""A disk that forgets: what a crash may leave of a folder that a program writes to.

A library that is loaded before libc's writes down each call by which the program changes or syncs a file of the
folder, and may end the program before any of them, or find no room for one that needs some. From what was written down a `Disk` says what a crash may leave
then: of each file a front that has at least what was synced, and of names those of the last sync of the folder, with
any of the changes behind it.
"""
import os
import random
import struct

import counted

SOURCE = r"""
#define _GNU_SOURCE
#include <dlfcn.h>
#include <errno.h>
#include <fcntl.h>
#include <limits.h>
#include <signal.h>
#include <stdarg.h>
#include <stdatomic.h>
#include <stdint.h>
#include <stdio.h>
#include <stdlib.h>
#include <string.h>
#include <sys/stat.h>
#include <sys/syscall.h>
#include <sys/uio.h>
#include <unistd.h>

enum { FILES = 4096 };
static int record = -1;
static char folder[PATH_MAX];
static char names[FILES][256];      /* of open files of the folder; the folder itself is "." */
static atomic_long calls, wants;

static void *real(const char *name) { return dlsym(RTLD_NEXT, name); }

__attribute__((constructor)) static void begin(void) {
    const char *at = getenv("RECORD"), *given = getenv("FOLDER");
    if (at && given && realpath(given, folder))
        record = syscall(SYS_openat, AT_FDCWD, at, O_WRONLY | O_CREAT | O_APPEND | O_CLOEXEC, 0600);
}

/* Ends the program before the call of this number. */
static void maybe_crash(void) {
    const char *at = getenv("CRASH_AT");
    if (atomic_fetch_add(&calls, 1) + 1 == (at ? atol(at) : -1))
        syscall(SYS_kill, getpid(), SIGKILL);
}

/* Whether there is no room for the call of this number, of those that need some. */
static int is_full(void) {
    const char *at = getenv("FULL_AT");
    if (!at || atomic_fetch_add(&wants, 1) + 1 != atol(at)) return 0;
    errno = ENOSPC;
    return 1;
}

/* One record: what was done, to which name, with which number, and bytes. */
static void note(char what, const char *name, uint64_t number, const void *bytes, uint32_t size) {
    struct { char what; char name[255]; uint64_t number; uint32_t size; } __attribute__((packed)) head;
    memset(&head, 0, sizeof head);
    head.what = what, head.number = number, head.size = size;
    strncpy(head.name, name, 254);
    struct iovec parts[2] = {{&head, sizeof head}, {(void *)bytes, size}};
    int was = errno;
    syscall(SYS_writev, record, parts, size ? 2 : 1);
    errno = was;
}

/* The name within the folder, "." for the folder itself, or NULL. */
static const char *within(int at, const char *path, char *into) {
    char whole[PATH_MAX], parent[PATH_MAX];
    if (record < 0)
        return NULL;
    if (path[0] == '/')
        snprintf(whole, sizeof whole, "%s", path);
    else if (at == AT_FDCWD) {
        if (!getcwd(parent, sizeof parent)) return NULL;
        snprintf(whole, sizeof whole, "%s/%s", parent, path);
    } else if (at >= 0 && at < FILES && !strcmp(names[at], "."))
        snprintf(whole, sizeof whole, "%s/%s", folder, path);
    else
        return NULL;
    char *last = strrchr(whole, '/');
    if (realpath(whole, parent) && !strcmp(parent, folder))
        return strcpy(into, ".");
    *last = 0;
    if (!realpath(*whole ? whole : "/", parent) || strcmp(parent, folder) || strlen(last + 1) > 254)
        return NULL;
    return strcpy(into, last + 1);
}

static int opened(int at, const char *path, int flags, mode_t mode) {
    int (*call)(int, const char *, int, ...) = real("openat");
    char name[256];
    if (!within(at, path, name))
        return call(at, path, flags, mode);
    struct stat before;
    int is_new = (flags & O_CREAT) && fstatat(at, path, &before, 0) < 0;
    if (flags & (O_CREAT | O_TRUNC)) maybe_crash();
    if (is_new && is_full()) return -1;
    int file = call(at, path, flags, mode);
    if (file >= 0 && file < FILES) {
        strcpy(names[file], name);
        if (is_new) note('c', name, 0, NULL, 0);
        else if (flags & O_TRUNC) note('t', name, 0, NULL, 0);
    }
    return file;
}

int openat(int at, const char *path, int flags, ...) {
    va_list more; va_start(more, flags); mode_t mode = va_arg(more, int); va_end(more);
    return opened(at, path, flags, mode);
}
int openat64(int at, const char *path, int flags, ...) {
    va_list more; va_start(more, flags); mode_t mode = va_arg(more, int); va_end(more);
    return opened(at, path, flags, mode);
}
int open(const char *path, int flags, ...) {
    va_list more; va_start(more, flags); mode_t mode = va_arg(more, int); va_end(more);
    return opened(AT_FDCWD, path, flags, mode);
}
int open64(const char *path, int flags, ...) {
    va_list more; va_start(more, flags); mode_t mode = va_arg(more, int); va_end(more);
    return opened(AT_FDCWD, path, flags, mode);
}

int close(int file) {
    if (file >= 0 && file < FILES) names[file][0] = 0;
    return ((int (*)(int))real("close"))(file);
}

static int is_kept(int file) { return record >= 0 && file >= 0 && file < FILES && names[file][0] && strcmp(names[file], "."); }

ssize_t write(int file, const void *bytes, size_t size) {
    ssize_t (*call)(int, const void *, size_t) = real("write");
    if (!is_kept(file)) return call(file, bytes, size);
    maybe_crash();
    if (is_full()) return -1;
    ssize_t wrote = call(file, bytes, size);
    if (wrote > 0) note('w', names[file], 0, bytes, wrote);
    return wrote;
}

static int synced(int file, const char *how) {
    int (*call)(int) = real(how);
    if (record < 0 || file < 0 || file >= FILES || !names[file][0]) return call(file);
    maybe_crash();
    int done = call(file);
    if (!done) note(strcmp(names[file], ".") ? 's' : 'S', names[file], 0, NULL, 0);
    return done;
}
int fsync(int file) { return synced(file, "fsync"); }
int fdatasync(int file) { return synced(file, "fdatasync"); }

int ftruncate(int file, off_t size) {
    int (*call)(int, off_t) = real("ftruncate");
    if (!is_kept(file)) return call(file, size);
    maybe_crash();
    int done = call(file, size);
    if (!done) note('t', names[file], size, NULL, 0);
    return done;
}
int ftruncate64(int file, off_t size) { return ftruncate(file, size); }

static int renamed(int a, const char *from, int b, const char *to) {
    int (*call)(int, const char *, int, const char *) = real("renameat");
    char old[256], new[256];
    if (!within(a, from, old) || !within(b, to, new)) return call(a, from, b, to);
    maybe_crash();
    if (is_full()) return -1;
    int done = call(a, from, b, to);
    if (!done) {
        note('r', old, 0, new, strlen(new));
        for (int file = 0; file < FILES; file++)
            if (!strcmp(names[file], old)) strcpy(names[file], new);
    }
    return done;
}
int renameat(int a, const char *from, int b, const char *to) { return renamed(a, from, b, to); }
int rename(const char *from, const char *to) { return renamed(AT_FDCWD, from, AT_FDCWD, to); }

static int removed(int at, const char *path, int flags) {
    int (*call)(int, const char *, int) = real("unlinkat");
    char name[256];
    if (!within(at, path, name)) return call(at, path, flags);
    maybe_crash();
    int done = call(at, path, flags);
    if (!done) note('u', name, 0, NULL, 0);
    return done;
}
int unlinkat(int at, const char *path, int flags) { return removed(at, path, flags); }
int unlink(const char *path) { return removed(AT_FDCWD, path, 0); }
"""

HEAD = struct.Struct("<c255sQI")


def library(root):
    """The path of the library, which is made in this folder, or None where it could not be made."""
    return counted.library(root, "forgetful", SOURCE)


def records(path):
    """What was done, to which name, with which number, and with which bytes. A last record that was cut is left out."""
    with open(path, "rb") as file:
        text = file.read()
    at, found = 0, []
    while at + HEAD.size <= len(text):
        what, name, number, size = HEAD.unpack_from(text, at)
        at += HEAD.size
        if at + size > len(text):
            break
        found.append((what.decode(), name.rstrip(b"\0").decode(), number, text[at : at + size]))
        at += size
    return found


class Disk:
    """A folder: what its names are, what of its files is synced, and which changes of names are not yet."""

    def __init__(self, files=None):
        """A folder with these files, all of it on the disk."""
        self.bytes, self.synced = {}, {}
        self.kept, self.pending = {}, []
        self.names = {}
        for name, text in (files or {}).items():
            number = len(self.bytes)
            self.bytes[number], self.synced[number] = bytearray(text), len(text)
            self.kept[name] = self.names[name] = number

    def change(self, names, what, name, other):
        """Changes names as a creation, a renaming or a removal does."""
        if what == "c":
            names[name] = other
        elif name in names:
            moved = names.pop(name)
            if what == "r":
                names[other] = moved

    def does(self, what, name, number, text):
        """Goes on by one record."""
        if what == "S":
            self.kept, self.pending = dict(self.names), []
        elif what in "cru":
            other = text.decode()
            if what == "c":
                other = len(self.bytes)
                self.bytes[other], self.synced[other] = bytearray(), 0
            self.pending.append((what, name, other))
            self.change(self.names, what, name, other)
        elif name in self.names:
            file = self.names[name]
            if what == "w":
                self.bytes[file] += text
            elif what == "s":
                self.synced[file] = len(self.bytes[file])
            elif what == "t":
                # what is cut off may come back: nothing of a cut is on the disk before a sync
                del self.bytes[file][number:]
                self.synced[file] = min(self.synced[file], number)

    def left(self, chance):
        """What a crash may leave: each name with its bytes."""
        names = dict(self.kept)
        kind = chance.randrange(3)
        for change in self.pending:
            if kind == 0 or kind == 1 and chance.random() < 0.5:
                self.change(names, *change)
        return {name: self.front(file, chance) for name, file in names.items()}

    def front(self, file, chance):
        """What a crash may leave of a file."""
        least, most = self.synced[file], len(self.bytes[file])
        size = chance.choice([least, most, chance.randint(least, most)])
        return bytes(self.bytes[file][:size])


def write(root, files):
    """Makes the folder have just these files."""
    for name in os.listdir(root):
        os.remove(os.path.join(root, name))
    for name, text in files.items():
        with open(os.path.join(root, name), "wb") as file:
            file.write(text)


def crashed(root, record, begun, chance):
    """Leaves in the folder what a crash may leave of what was done since it had these files. The files."""
    disk = Disk(begun)
    for one in records(record):
        disk.does(*one)
    files = disk.left(chance)
    write(root, files)
    return files


def by_hand():
    """What may be left, of examples whose answers stand beside them."""
    chance = random.Random(1)
    disk = Disk({"a": b"12"})
    for one in [("w", "a", 0, b"345"), ("s", "a", 0, b""), ("w", "a", 0, b"67")]:
        disk.does(*one)
    found = {tuple(sorted(disk.left(chance).items())) for _ in range(200)}
    assert found == {(("a", b"12345"),), (("a", b"123456"),), (("a", b"1234567"),)}, found
    disk = Disk({"a": b"1"})
    for one in [("c", "n", 0, b""), ("w", "n", 0, b"2"), ("s", "n", 0, b""), ("r", "n", 0, b"b"), ("S", ".", 0, b""), ("u", "a", 0, b"")]:
        disk.does(*one)
    found = {tuple(sorted(disk.left(chance).items())) for _ in range(200)}
    assert found == {(("a", b"1"), ("b", b"2")), (("b", b"2"),)}, found


if __name__ == "__main__":
    by_hand()
    print("by hand: as said")

"""What the wrong bodies of a crate stand on, as a sum: the crate's own files, the edits, and what the crates below it promise."""
import functools
import hashlib
import os
import re

ROOT = os.path.dirname(os.path.dirname(os.path.abspath(__file__)))
BODIES = os.path.join(ROOT, "tests", "more_bodies")
FUNCTION = re.compile(r"(\s*)(pub(\([^)]*\))? )?(const )?(unsafe )?fn ")


def files_in(*words):
    walked = os.walk(os.path.join(ROOT, *words))
    return sorted(os.path.join(at, name) for at, _, names in walked for name in names)


def bytes_of(path):
    with open(path, "rb") as file:
        return file.read()


def sum_of(parts):
    made = hashlib.sha256()
    for part in parts:
        made.update(repr(part).encode())
    return made.hexdigest()[:12]


def outline(text):
    """The text of a source file without its comments, and without the bodies of functions, as `rt fmt` lays these out.

    A body begins with a brace that ends its function's head, or stands on a line alone behind the clauses, and ends with
    one that is indented as the head is. What is not laid out so stays in."""
    kept, margin, end = [], None, None
    for line in text.splitlines():
        if end is not None:
            end = None if line == end else end
            continue
        if line.lstrip().startswith("//"):
            continue
        kept.append(line)
        head = FUNCTION.match(line)
        if head:
            margin = head.group(1)
        if margin is None:
            continue
        if line == f"{margin}{{" or (line.endswith(" {") and (head or line.startswith(f"{margin})"))):
            margin, end = None, f"{margin}}}"
        elif head and line.endswith((";", "}")):
            margin = None
    return "\n".join(kept)


def crates():
    """Each crate of crates.txt with those that it names, lowest first."""
    with open(os.path.join(ROOT, "crates.txt"), encoding="utf-8") as file:
        lines = [line.split("#")[0].partition(":") for line in file]
    return {head.split()[0]: below.split() for head, _, below in lines if head.strip()}


def below(name):
    """The names of all crates of this repository below this one."""
    named = crates()
    found, left = set(), [name]
    while left:
        new = {it for it in named[left.pop()] if it in named} - found
        found |= new
        left += new
    return sorted(found)


@functools.lru_cache(maxsize=None)
def promises_of(name):
    specs = [(os.path.relpath(path, ROOT), bytes_of(path)) for path in files_in("crates", name, "specs")]
    sources = [(os.path.relpath(path, ROOT), outline(bytes_of(path).decode())) for path in files_in("crates", name, "src")]
    return sum_of(specs + sources)


def standing_of(name):
    """The sum of all that decides whether the prover refuses the crate's wrong bodies, but for the kit."""
    own = [path for part in ("src", "specs", "proofs") for path in files_in("crates", name, part)]
    files = [(os.path.relpath(path, ROOT), bytes_of(path)) for path in [*own, *files_in("tests", "more_bodies", name)]]
    return sum_of(files + [promises_of(it) for it in below(name)])

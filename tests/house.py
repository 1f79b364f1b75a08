#!/usr/bin/env python3
"""Counts what a reader of the theorem meets.

  tests/house.py     the definitions below the headline, names that are defined twice, definitions with a row for each
                     kind of statement, and the sentences of README and ARCHITECTURE

A definition is what a file of a crate's `specs/` declares. One leads to another where it names it, in its own file or
by an import. Definitions that the compiler makes of Rust's types, and those of the kit, are not counted.
"""
import collections
import glob
import os
import re
import sys

ROOT = os.path.dirname(os.path.dirname(os.path.abspath(__file__)))
HEADLINE = "script_core.specs.Keeping", "EndsKept"
KINDS = {"CreateTable", "Insert", "Delete", "Update", "Grant", "Revoke", "RevokeOption", "Select", "Checkpoint",
    "Checkpoints", "Export"}
DOCUMENTS = ("README.md", "docs/ARCHITECTURE.md")
LONG = 35
IMPORT = re.compile(r"^use Rattle\.([\w.+]+?)\.\{(.*)\}$", re.MULTILINE)
ALIAS = re.compile(r"^use Rattle\.([\w.+]+) as (\w+)$", re.MULTILINE)
HEAD = re.compile(r"( *)(?:abbrev |unfoldable )?(?:pub )?(record |data )?([^\s(){}:=]+)(?: [^:=]*)? :(?: |$)")
WORD = re.compile(r"[^\s(){}\[\],;→×⊎≡]+")


def read(path):
    with open(path, encoding="utf-8") as file:
        return file.read()


def without_comments(text):
    return re.sub(r"--.*", "", text)


class Module:
    """A file of definitions: each with its text, and what the file imports."""

    def __init__(self, path):
        text = without_comments(read(path))
        self.imports, self.aliases = {}, {alias: module for module, alias in ALIAS.findall(text)}
        for module, names in IMPORT.findall(text):
            self.imports.update((name.strip(), module) for name in names.split(","))
        self.texts = collections.defaultdict(str)
        name, inside = None, None
        for line in text.splitlines():
            depth = len(line) - len(line.lstrip())
            if inside is not None and line.strip() and depth <= inside:
                inside = None
            head = HEAD.match(line)
            if head and depth <= 2 and inside is None and head[3] not in ("module", "use", "where"):
                name = head[3]
                inside = depth if head[2] else None
            if name and not line.startswith(("use ", "mod ", "pub mod ", "module ")):
                self.texts[name] += line + "\n"

    def leads_to(self, name, own):
        """What a definition names, each with its module."""
        for word in set(WORD.findall(self.texts[name])):
            alias, _, rest = word.partition(".")
            if alias in self.aliases:
                yield self.aliases[alias], rest
            elif word in self.texts:
                yield own, word
            elif word in self.imports:
                yield self.imports[word], word


def modules():
    """Each file of specs/, by the name that an import gives it."""
    found = {}
    for path in sorted(glob.glob(os.path.join(ROOT, "crates", "*", "specs", "**", "*.antt"), recursive=True)):
        parts = os.path.relpath(path, os.path.join(ROOT, "crates"))[:-len(".antt")].split(os.sep)
        if parts[-1] != "Lib":
            found[".".join(parts)] = Module(path)
    return found


def led_to(found, start):
    """All definitions to which this one leads, itself among them."""
    reached, left = set(), [start]
    while left:
        module, name = left.pop()
        if (module, name) in reached or module not in found or name not in found[module].texts:
            continue
        reached.add((module, name))
        left += found[module].leads_to(name, module)
    return reached


def defined_twice(found):
    places = collections.Counter(name for it in found.values() for name in it.texts)
    return sorted(name for name, count in places.items() if count > 1)


def rows_of_kinds(folder):
    """The rows of definitions and lemmas that have one for each kind of statement."""
    rows = 0
    for path in glob.glob(os.path.join(ROOT, "crates", "*", folder, "**", "*.antt"), recursive=True):
        lines = collections.defaultdict(set)
        for name, kind in re.findall(r"^\s*([\w-]+)\b.*?\bstatements\.(\w+)", without_comments(read(path)), re.MULTILINE):
            lines[name].add(kind)
        rows += sum(len(kinds) for kinds in lines.values() if kinds >= KINDS)
    return rows


def sentences(path):
    """How many words each sentence has, code, tables and headings apart."""
    text = re.sub(r"```.*?```", "", read(path), flags=re.DOTALL)
    text = re.sub(r"^(\||#|    ).*$", "", text, flags=re.MULTILINE)
    text = re.sub(r"!\[.*?\]\(.*?\)", "", text)
    text = re.sub(r"\]\([^)]*\)", "]", text)
    found = []
    for paragraph in re.split(r"\n\s*\n|\n(?=- |\d+\. )", text):
        paragraph = " ".join(re.sub(r"^\s*(- |\d+\. )", "", paragraph.strip()).split())
        found += [len(it.split()) for it in re.split(r"(?<=[.!?:])\s+(?=[A-Z`\[*(0-9])", paragraph) if it]
    return found


def main():
    found = modules()
    reached = led_to(found, HEADLINE)
    files = {module for module, _ in reached}
    print(f"{HEADLINE[1]} leads to {len(reached)} definitions, in {len(files)} files of "
        f"{len({it.split('.')[0] for it in files})} crates")
    twice = defined_twice(found)
    print(f"{len(twice)} names are defined twice: {' '.join(twice)}")
    print(f"{rows_of_kinds('specs') + rows_of_kinds('proofs')} rows stand one for each kind of statement")
    for path in DOCUMENTS:
        counts = sentences(os.path.join(ROOT, path))
        print(f"{path}: {sum(counts) / len(counts):.1f} words a sentence, {sum(it > LONG for it in counts)} above {LONG}")


if __name__ == "__main__":
    sys.exit(main())

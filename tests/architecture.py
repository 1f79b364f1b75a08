"""The picture of the crates, drawn from crates.txt: what ARCHITECTURE shows is what there is.

  tests/architecture.py      prints the picture

A line has a layer, a crate, and the crates that it stands on, but for those on which one of these stands already.
"""
import os
import re

ROOT = os.path.dirname(os.path.dirname(os.path.abspath(__file__)))
HEADING = "## The crates"


def crates():
    """Each crate with its layer and the crates that its line names, lowest first."""
    with open(os.path.join(ROOT, "crates.txt"), encoding="utf-8") as file:
        lines = file.read().splitlines()
    layer, found = "", {}
    for line in lines[1:]:
        if line.startswith("#"):
            layer = line.lstrip("# ")
        elif line:
            head, _, names = line.partition(":")
            found[head.split()[0]] = layer, names.split()
    return {name: (layer, [it for it in names if it in found]) for name, (layer, names) in found.items()}


def below(found, name):
    """All crates that this one stands on."""
    direct = found[name][1]
    return set(direct).union(*(below(found, it) for it in direct))


def picture():
    found, rows, last = crates(), [], ""
    for name, (layer, direct) in reversed(found.items()):
        hidden = set().union(*(below(found, it) for it in direct))
        rows.append((layer if layer != last else "", name, ", ".join(it for it in direct if it not in hidden)))
        last = layer
    return [f"{layer:12} {name:15} {'── ' + on if on else ''}".rstrip() for layer, name, on in rows]


def shown():
    """The first block under the heading."""
    with open(os.path.join(ROOT, "docs", "ARCHITECTURE.md"), encoding="utf-8") as file:
        text = file.read().partition(HEADING)[2]
    return re.search(r"```text\n(.*?)\n```", text, re.DOTALL)[1].split("\n")


def played(check):
    check("architecture: the picture of the crates is that of crates.txt", shown() == picture(), picture())


if __name__ == "__main__":
    print("\n".join(picture()))

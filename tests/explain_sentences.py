"""Each sentence in which `sysr explain` states a fact, told at least once of a script whose answer was written by hand.

A file of examples/sentences is a script, and behind it questions with their answers; comments say why each is so. What
no file tells of SENTENCES is told by name. LANGUAGE shows some more answers.
"""
import os
import re
import shlex

HERE = os.path.dirname(os.path.abspath(__file__))
ROOT = os.path.dirname(HERE)
SHOWN = re.compile(r"^```text\n\$ sysr explain (.*) < (examples/.*)\n([^`]*)^```$", re.MULTILINE)
FOLDER = os.path.join(HERE, "examples", "sentences")

# By what an answer of which question says: a pattern of its line, of which the names are any.
U, T, M, P = r"[a-z]\w*", r"[a-z]\w*", r"@\d+", r"[A-Z]+(?: \(\w+(?:, \w+)*\))?"
LINE = r"(?: +line \d+: .*)?"
GRANT = rf"{M} {U} -> {U}"
CHAIN = rf"{U}(?: -{M}-> {U})+"
SENTENCES = {
    "why": (
        rf"{U} owns {T} since {M}{LINE}",
        rf"{U} holds {P} on {T} {M}", rf"{U} holds {P} on {T} {M}, with option", rf"{U} lacks {P} on {T} {M}",
        rf"{U} lacks {P} on {T} {M}: nobody ever granted it to {U}",
        rf"  {GRANT}{LINE}", rf"  {GRANT}, with option{LINE}", rf"  {GRANT}, with option until {M}{LINE}",
        r"  and besides by",
        rf"  {GRANT}, revoked {M}{LINE}", rf"  {GRANT}, with option, revoked {M}{LINE}",
        rf"  {GRANT}, with option until {M}, revoked {M}{LINE}",
        rf"  {GRANT}, fell {M}{LINE}", rf"  {GRANT}, with option, fell {M}{LINE}",
        rf"    by this REVOKE{LINE}",
        rf"    of {GRANT}, with option{LINE}", rf"    of the option of {GRANT}{LINE}",
        rf"    so {GRANT}, with option, fell{LINE}", r"    so this one fell",
        *(rf"    {GRANT} did not keep {M}: {why}" for why in (
            "it has no option", "it has no option, and is not earlier",
            rf"its option was gone since {M}", rf"its option was gone since {M}, and is not earlier",
            "its option fell by the same REVOKE", "its option fell by the same REVOKE, and is not earlier",
            "it fell by the same REVOKE", "it fell by the same REVOKE, and is not earlier", "it is not earlier")),
    ),
    "who": (
        rf"{U} owns {T} since {M}{LINE}", rf"{P} on {T} {M}", rf"{P} on {T} {M}: nobody but {U}",
        rf"  {U} +{CHAIN}", rf"  {U}, with option +{CHAIN}",
    ),
    "fell": tuple(rf"{GRANT}, {P} on {T}{option}, {how} {M} by line \d+: .*"
        for option in ("", ", with option", rf", with option until {M}") for how in ("revoked", "fell")),
    "if": (
        rf"{M} would be {U}: (?!revoke).*", r"  it takes nothing from anybody",
        *(rf"  {how}: {GRANT}{more}{LINE}" for how in ("revoked", "falls")
            for more in ("", ", with option", rf", {P}")),
        rf"  falls: {GRANT}, {U}, with option{LINE}", rf"  option revoked: {GRANT}{LINE}",
        rf"  option revoked: {GRANT}, {P}{LINE}",
        rf"  {U} would lose {P} on {T}", rf"  {U} would keep {P} on {T} as its owner",
        rf"  {U} would keep {P} on {T} by {CHAIN}",
        rf"  {U} would keep {P} on {T} by {CHAIN}, but could not grant it on",
    ),
    "cut": (
        rf"{U}: REVOKE {P} ON {T} FROM {U}", rf"{U}: REVOKE {P} ON {T} FROM {U}, {U}",
        rf"{U} does not hold {P} on {T}: there is nothing to take", rf"{U} owns {T}: nothing takes it from an owner",
    ),
    "can": (
        rf"{U} may grant {P} on {T} {M}", rf"{U} may not grant {P} on {T} {M}", rf"  to {U}, who lacks it",
        rf"  to {U}, who has it without option",
    ),
    "diff": (
        rf"came: {U} owns {T}{LINE}",
        *(rf"{what}: {GRANT}, {P} on {T}{option}{LINE}" for what in ("came", "revoked", "fell") for option in
            ("", ", with option", rf", with option until {M}")),
        rf"option revoked: {GRANT}, {P} on {T}, with option until {M}{LINE}",
    ),
    "dot": (
        rf'digraph "{P} on {T} {M}" {{', rf'digraph "{T} {M}" {{', rf'  "{U}" \[peripheries=2\];',
        *(rf'  "{U}" -> "{U}" \[label="{label}", style={style}{colour}\];'
            for label, style, colour in (
                (M, "solid", ""), (M, "bold", ""), (f"{M} - {M}", "dashed", ""), (f"{M} - {M}", '"bold,dashed"', ""),
                (rf"{M} {P}", "solid", ""), (rf"{M} {P}, option - {M}", "solid", ""),
                (rf"{M}, option - {M}", "solid", ""),
                (rf"{M} - {M}, option - {M}", "dashed", ""),
                (rf"{M} - {M} {P}", '"bold,dashed"', ", color=red"), (rf"{M} - {M} {P}", "dashed", ", color=red"),
                (rf"{M} {P}", "bold", ", color=blue"), (M, "bold", ", color=blue"), (M, "solid", ", color=blue"))),
    ),
}


def read(path):
    """The script of a file, and its questions: words, a status if it is not 0, what is written four blanks in, and what
    standard error is told."""
    script, questions = [], []
    with open(path, encoding="utf-8") as file:
        for line in file.read().split("\n")[:-1]:
            if line.startswith("$ sysr explain "):
                questions.append([shlex.split(line.removeprefix("$ sysr explain ")), 0, [], []])
            elif line.startswith("status "):
                questions[-1][1] = int(line.removeprefix("status "))
            elif line.startswith("told "):
                questions[-1][3].append(line.removeprefix("told "))
            elif line.startswith("    "):
                questions[-1][2].append(line[4:])
            elif not line.startswith("#"):
                script.append(line)
    return script, questions


def as_text(lines):
    return "".join(line + "\n" for line in lines)


def kind_of(words):
    """Of which question the answer is: of a graph `dot`, and of records none."""
    if "--format" in words:
        return "dot" if "dot" in words else None
    return next((word for word in words if word in SENTENCES), None)


def as_language_has_it(explained):
    """The answers that LANGUAGE shows."""
    with open(os.path.join(ROOT, "docs", "LANGUAGE.md"), encoding="utf-8") as file:
        shown = SHOWN.findall(file.read())
    for words, path, wanted in shown:
        with open(os.path.join(ROOT, path), "rb") as script:
            _, seen, _ = explained.ask(shlex.split(words), script.read())
        explained.check(f"LANGUAGE shows: {words}", seen == wanted, seen)
    explained.check("LANGUAGE shows answers", len(shown) > 2, shown)


def played(explained):
    as_language_has_it(explained)
    told = {kind: [] for kind in SENTENCES}
    for name in sorted(os.listdir(FOLDER)):
        script, questions = read(os.path.join(FOLDER, name))
        for words, status, answer, remarks in questions:
            wanted = status, as_text(answer), as_text(f"sysr: {remark}" for remark in remarks)
            seen = explained.ask(words, as_text(script).encode())
            explained.check(f"sentences: {name}: {words}", seen == wanted, seen)
            told.get(kind_of(words), []).extend([*answer, *remarks])
    for kind, patterns in SENTENCES.items():
        for pattern in patterns:
            is_told = any(re.fullmatch(pattern, line) for line in told[kind])
            explained.check(f"sentences of {kind}: {pattern}", is_told, None)

#!/usr/bin/env python3
"""What `sysr explain` tells of scripts by chance, beside what the rules of rights say: whole answers, in each format.

Each answer, its status and what standard error says are compared with second tellers in Python: of records
(explain_rows.py), of words (explain_teller.py) and of graphs (explain_graph.py). These tell of a replay of all grants
at each moment (explain_past.py), and of a choice among chains, ways down and REVOKEs (explain_choice.py), which is
looked at by the rules. No fact is taken from the program. Within tests/program 100 scripts are asked, and 8 each that
are dense or have long lists; as a program, `tests/explain_chance.py [PROGRAM]`, it asks ten times as many.
"""
import concurrent.futures
import itertools
import os
import subprocess
import sys

sys.dont_write_bytecode = True
from explain_choice import Choice, is_chain, is_cut, is_descent
from explain_graph import Graph
from explain_past import Past
from explain_rows import Rows
from explain_scripts import Chance, Dense, Long, WORDS
from explain_teller import Teller
from model import Model
from reading import left_out_told
from rights import BY_COLUMN, Rights
from served import WAIT

SEEDS, MORE_SEEDS = range(1978, 2078), range(1979, 1987)
ASKED_MOMENTS = 1
FALLEN = 20
PROCESSORS = 4
SEVERAL = 4
# What answers say of these scripts, each of several.
SAID = (
    " owns t ", " holds ", " lacks ", ", with option\n", " until @", "nobody ever granted it", "and besides by",
    ", revoked @", ", fell @", "of the option of", "so this one fell", "    .. ", "\n  .. ",
    "it has no option\n", "it has no option, and is not earlier", "its option was gone since",
    "its option fell by the same", "it fell by the same REVOKE\n", ": it is not earlier",
    "same REVOKE, and is not earlier",
    ": nobody but ", " more .. -@", "SELECT (z, x)",
    "revoked: @", "falls: @", "option revoked: @", " would lose ", " as its owner", " would keep ",
    ", but could not grant it on", "keeps without option",
    "came: @", "fell: @", "came: o owns t ", "lost option,",
    " may grant ", " may not grant ", ", who lacks it", ", who has it without option",
    ": REVOKE SELECT (", "there is nothing to take", "from an owner",
    "color=red", "color=blue", "style=dashed", "style=solid", "style=bold", '"bold,dashed"', ", option - @",
)


def as_text(lines):
    return "".join(line + "\n" for line in lines)


class Script:
    """A script by chance, and its questions."""

    def __init__(self, program, check, chance, name):
        self.program, self.told, self.name = program, check, name
        self.chance, self.model, self.pick = chance, chance.model, chance.random
        self.given = self.as_written(self.model.given)
        self.past, self.last = chance.past(), self.model.moment
        self.widths = {table: len(columns) for table, columns in chance.columns.items()}
        self.chosen, self.said = {}, set()

    def as_written(self, lines):
        """Some lines in small letters; what is quoted of them has its canonical text."""
        return as_text(line.lower() if self.pick.random() < 0.2 else line for line in lines)

    def choice(self, m):
        if m not in self.chosen:
            self.chosen[m] = Choice(self.past, m)
        return self.chosen[m]

    def teller(self, m):
        return Teller(self.choice(m), self.model.given, self.widths)

    def check(self, name, good, seen):
        self.told(f"explained by chance {self.name}: {name}", good, seen)

    def ask(self, m, words):
        """Status, output and error at a moment, which is not said where it is that of the last change."""
        at = [] if m == self.last or "diff" in words else ["--at", str(m)]
        words = ["explain", *at, *words] if self.pick.random() < 0.5 else ["explain", *words, *at]
        done = subprocess.run([self.program, *words], input=self.given.encode(), capture_output=True, timeout=WAIT)
        return done.returncode, done.stdout.decode(), done.stderr.decode()

    def left_out(self, m):
        """What is told of lines that are left out: of all, if no moment is said, and else of those up to its line."""
        lines = [why for why in self.chance.left_out if m == self.last or why[0] <= self.chance.lines[m]]
        return as_text(f"sysr: {line}" for line in left_out_told(lines))

    def says(self, m, words, wanted, status=0, remark=None):
        """The answer is this one, whole."""
        seen = self.ask(m, words)
        told = self.left_out(m) + (f"sysr: {remark}\n" if remark else "")
        wanted = status, as_text(wanted), told
        self.said.update(part for part in SAID if part in wanted[1] or part in wanted[2])
        self.check([m, *words], seen == wanted, difference(seen, wanted))

    def formats(self, m, words, status=0, remark=None, **wanted):
        """So are those in each of these formats."""
        for form, lines in wanted.items():
            asked = words if form == "text" else ["--format", form, *words]
            self.says(m, asked, lines, status, remark)

    def lists(self, m):
        """All rights in force, all grants that were made, and those that fell."""
        rows, told = Rows(self.choice(m)), self.teller(m)
        self.formats(m, ["rights"], csv=rows.rights(), text=rows.rights())
        self.formats(m, ["grants"], csv=rows.grants(), text=rows.grants())
        self.formats(m, ["fell"], csv=rows.fell(), text=told.fell())

    def why(self, user, table, asked, m, forms=("text", "csv", "dot")):
        """Why a user holds a privilege, or does not."""
        atoms = self.asked_atoms(table, asked)
        choice, words = self.choice(m), ["why", user, asked, table]
        for atom in atoms:
            self.is_right(choice, user, atom)
        status = 0 if all(self.past.holds(user, atom, m) for atom in atoms) else 1
        told = {
            "text": lambda: self.teller(m).why(user, table, atoms),
            "csv": lambda: Rows(choice).why(user, atoms),
            "dot": lambda: Graph(choice, self.widths).why(user, table, atoms),
        }
        self.formats(m, words, status, **{form: told[form]() for form in forms})

    def two_forms(self):
        return "text", self.pick.choice(("csv", "dot"))

    def is_right(self, choice, user, atom):
        """What is chosen to be told is as the rules have it."""
        chain = choice.held_by(user, atom)
        holds = self.past.holds(user, atom, choice.m) and not self.past.owns(user, atom)
        good = is_chain(self.past, chain, user, atom, choice.m) if holds else True
        fallen = [life for life in choice.given(user, atom) if life.fell]
        good = good and all(is_descent(self.past, choice.way_down(life)) for life in fallen)
        self.check(["chosen", choice.m, user, atom], good, None)

    def asked_atoms(self, table, asked):
        """The atoms of a privilege in the words of a question, or of all."""
        if asked is None:
            return self.chance.atoms(table)
        word, _, columns = asked.partition(" (")
        return self.model.atoms(table, [(word, columns.removesuffix(")").split(", ") if columns else None)])

    def privilege(self, table):
        """A privilege in the words of a question."""
        word, columns = self.chance.picked(table, self.pick.choice((*BY_COLUMN, *WORDS)))
        return f"{word} ({', '.join(columns)})" if columns else word

    def who(self, table, asked, m):
        """Who holds a privilege, or all of the table."""
        atoms, choice = self.asked_atoms(table, asked), self.choice(m)
        self.formats(m, ["who", table, *([asked] if asked else [])], text=self.teller(m).who(table, atoms),
            csv=Rows(choice).who(atoms), dot=Graph(choice, self.widths).who(table, atoms))

    def can(self, user, table, asked, m):
        """Whom a user could give a privilege to."""
        atoms = self.asked_atoms(table, asked)
        status = 0 if all(self.past.may_grant(user, atom, m) for atom in atoms) else 1
        self.formats(m, ["can", user, asked, table], status, text=self.teller(m).can(user, table, atoms),
            csv=Rows(self.choice(m)).can(user, atoms))

    def cut(self, user, table, asked, m):
        """Lines that take a privilege from a user."""
        atoms, choice = self.asked_atoms(table, asked), self.choice(m)
        for atom in atoms:
            chosen = choice.cut(user, atom)
            good = is_cut(self.past, *chosen, user, atom, m) if chosen else True
            self.check(["chosen", "cut", m, user, atom], good, chosen)
        remark = self.teller(m).uncut(user, table, atoms)
        status = 1 if self.past.owner(table) == user else 0
        self.formats(m, ["cut", user, asked, table], status, remark, text=[*self.teller(m).cut(user, table, atoms)],
            csv=Rows(choice).cut(user, atoms))

    def diff(self, since, m):
        """What came, fell and lost its option between two moments."""
        to = [] if m == self.last else ["--to", str(m)]
        at = [] if since == 0 and self.pick.random() < 0.5 else ["--at", str(since)]
        words = [*at, "diff", *to] if self.pick.random() < 0.5 else ["diff", *to, *at]
        self.formats(m, words, text=self.teller(m).diff(since), csv=Rows(self.choice(m)).diff(since))

    def rights_at(self, m):
        """What turned rights up to the moment."""
        rights = Rights()
        rights.owners = self.past.rights.owners
        rights.changes = [change for change in self.past.rights.changes if change.moment <= m]
        return rights

    def supposed(self, m):
        """A revocation that is only supposed, and what a replay with it leaves."""
        model = Model(16)
        model.tables, model.moment, model.rights = self.model.tables, m, self.rights_at(m)
        model.change_rights(*self.chance.revocation(model))
        line, reply = model.given[-1], model.wanted[-1]
        words = ["if", self.as_written([line])[:-1]]
        if not reply.startswith("done @"):
            self.formats(m, words, 2, reply, text=[], csv=[])
            return
        past = Past(model.rights, m + 1, self.past.created, {**self.past.lines, m + 1: ""})
        choice, table = Choice(past, m + 1), model.rights.changes[-1].atoms[0][0]
        told = Teller(choice, [*self.model.given, line], self.widths)
        self.formats(m, words, text=told.supposed(self.chance.atoms(table)), csv=Rows(choice).taken())


class Short(Script):
    """The questions about a script of six users."""

    def questions(self):
        for m in range(1, self.last):
            rows = Rows(self.choice(m))
            self.formats(m, ["rights"], csv=rows.rights())
            self.formats(m, ["grants"], csv=rows.grants())
        pick, users = self.pick, self.chance.users
        for m in [*pick.sample(range(len(self.chance.owners), self.last), ASKED_MOMENTS), self.last]:
            self.lists(m)
            atoms = [*self.chance.atoms("t"), *(atom for atom in self.chance.atoms("v") if pick.random() < 0.2)]
            for user, (table, right) in itertools.product(users, atoms):
                self.why(user, table, right.replace("(", " ("), m, self.two_forms())
            for user in users:
                self.why(user, "t", pick.choice(("SELECT", "SELECT (y, x)", "UPDATE")), m)
                self.can(user, "t", pick.choice(("SELECT", self.privilege("t"))), m)
                self.cut(user, "t", "SELECT", m)
                self.supposed(m)
            self.why(pick.choice(users), "v", self.privilege("v"), m)
            for user in pick.sample(users, 3):
                self.cut(user, "t", self.privilege("t"), m)
                self.can(user, "v", self.privilege("v"), m)
            self.can("nobody", "t", "SELECT (x)", m)
            for asked in ("SELECT (x)", "SELECT", None):
                self.who("t", asked, m)
            for asked in (self.privilege("v"), None):
                self.who("v", asked, m)
            for since in (0, m - 1, m, *pick.sample(range(m), 2)):
                self.diff(since, m)


class Close(Script):
    """The questions about a dense script, most of them at each moment."""

    def questions(self):
        for m in range(1, self.last + 1):
            for user in self.chance.users:
                self.why(user, "t", "SELECT", m, self.two_forms())
            user = self.pick.choice(self.chance.users)
            self.can(user, "t", "SELECT", m)
            self.cut(user, "t", "SELECT", m)
            self.diff(m - 1, m)
            self.diff(self.pick.randrange(m), m)
            self.supposed(m)
            self.who("t", "SELECT", m)
        self.lists(self.last)


class Lists(Script):
    """The questions about a script of long lists."""

    def questions(self):
        for m in (self.chance.bound, self.last):
            self.lists(m)
            for user in ("o", "z", *self.pick.sample(self.chance.users, 3), self.chance.users[-2]):
                self.why(user, "t", "SELECT", m)
                self.cut(user, "t", "SELECT", m)
                self.can(user, "t", "SELECT", m)
            self.who("t", "SELECT", m)
            self.who("t", None, m)
            self.diff(self.pick.randrange(m), m)
            self.supposed(m)


def difference(seen, wanted):
    """Both, or of outputs alone their first lines that differ."""
    if seen[::2] != wanted[::2]:
        return seen, wanted
    lines = itertools.zip_longest(seen[1].split("\n"), wanted[1].split("\n"))
    return next(((number, *both) for number, both in enumerate(lines, 1) if both[0] != both[1]), None)


def script_by_chance(program, of, chance, seed):
    """What was asked of one script, each with whether it was told, how many of its grants fell, and what was said."""
    told = []
    script = of(program, lambda *seen: told.append(seen), chance(seed), f"{chance.__name__} {seed}")
    script.questions()
    return told, sum(life.fell is not None for life in script.past.lives(script.last)), script.said


def played(program, check, seeds=SEEDS, more_seeds=MORE_SEEDS):
    """Of the second seeds dense scripts are made, and long ones."""
    more = ((of, chance, seed) for seed in more_seeds for of, chance in ((Lists, Long), (Close, Dense)))
    asked = [*more, *((Short, Chance, seed) for seed in seeds)]
    with concurrent.futures.ThreadPoolExecutor(PROCESSORS) as pool:
        scripts = [*pool.map(lambda words: script_by_chance(program, *words), asked)]
    for told, _, _ in scripts:
        for seen in told:
            check(*seen)
    fallen = [count for _, count, _ in scripts]
    check("explained by chance: grants that fell", sum(fallen) > FALLEN * len(fallen), fallen)
    seldom = [part for part in SAID if sum(part in said for _, _, said in scripts) < SEVERAL]
    check("explained by chance: what is said", not seldom, seldom)


def main():
    built = os.path.join(os.path.dirname(os.path.abspath(__file__)), "..", "crates", "sysr", "out", "sysr")
    results = []

    def check(name, good, seen):
        results.append(good)
        if not good:
            print(f"{name}: {seen!r}")

    played(sys.argv[1] if len(sys.argv) > 1 else built, check, range(1978, 2978), range(1979, 2059))
    print(f"{sum(results):,} passed, {len(results) - sum(results):,} failed")
    return 0 if all(results) else 1


if __name__ == "__main__":
    sys.exit(main())

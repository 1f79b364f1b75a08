"""A second teller of what `sysr explain` says in words.

It tells the same of a replay of all grants (explain_past.py) as LANGUAGE ("Rights explained") and the worked files
say, whole. Where several chains hold a right up, it tells of the one that is chosen in explain_choice.py.
"""
import itertools

from rights import REVOKE_OPTION

# A list of more than MOST lines is told by its first and last ENDS; a chain in one line likewise.
MOST_LINES, LINE_ENDS = 24, 10
MOST_LINKS, LINK_ENDS = 8, 4
# A line names so many users at most.
MOST_USERS = 16
# A row reaches so far whose line of the script stands beside it; else that stands below.
WIDEST_ROW = 100


def laid_out(rows):
    """Rows of two sides as lines: what stands on the right has one column, where it has room there."""
    lefts = (len(left) for left, right in rows if right and len(left) + 2 + len(right) <= WIDEST_ROW)
    column = max(lefts, default=0) + 2
    for left, right in rows:
        if not right:
            yield left
        elif column - len(left) >= 2 and column + len(right) <= WIDEST_ROW:
            yield left.ljust(column) + right
        else:
            yield left
            yield (len(left) - len(left.lstrip()) + 4) * " " + right


def folded_list(items, indent):
    """The rows of a list, each item some rows; the middle of a long one is left out."""
    if len(items) <= MOST_LINES:
        return [row for item in items for row in item]
    more = f"{indent}.. {len(items) - 2 * LINE_ENDS} more .."
    return [row for item in [*items[:LINE_ENDS], [(more, "")], *items[-LINE_ENDS:]] for row in item]


def word_of(right):
    return right.partition("(")[0]


def as_told(rights, columns):
    """Rights of one word as a sentence names them, of a table with so many columns."""
    named = [right.removesuffix(")").partition("(")[2] for right in rights]
    if not named[0] or len(named) == columns:
        return word_of(rights[0])
    return f"{word_of(rights[0])} ({', '.join(named)})"


def arrow(grant):
    return f"@{grant.moment} {grant.by} -> {grant.to}"


def option_told(life):
    if not life.grant.option:
        return ""
    return ", with option" + ("" if life.option_end == life.fell else f" until @{life.option_end}")


def chain_told(chain):
    """A chain in one line."""
    links = [f" -@{life.grant.moment}-> {life.grant.to}" for life in chain]
    if len(links) > MOST_LINKS:
        links[LINK_ENDS:-LINK_ENDS] = [f" .. {len(links) - 2 * LINK_ENDS} more .."]
    return chain[0].grant.by + "".join(links)


def folded(lives):
    """The lives of one statement and user that differ in their columns alone."""
    folds = {}
    for life in lives:
        grant = life.grant
        fold = grant.moment, grant.to, word_of(grant.atom[1]), life.fell, life.option_end
        folds.setdefault(fold, []).append(life)
    return [*folds.values()]


def rights_of(lives):
    return [life.grant.atom[1] for life in lives]


def grouped(parts, key):
    """Parts that say the same, together where the first of them stands: lists of them."""
    groups = {}
    for part in parts:
        groups.setdefault(key(part), []).append(part)
    return [*groups.values()]


class Teller:
    """Tells of what a script of these lines left at a moment; of each table it is told how many columns it has."""

    def __init__(self, choice, given, widths):
        self.choice, self.past, self.given, self.widths = choice, choice.past, given, widths
        self.m, self.lives = choice.m, choice.lives

    def named(self, table, rights):
        return as_told(rights, self.widths[table])

    def quoted(self, moment):
        number = self.past.lines[moment]
        return f"line {number}: {self.given[number - 1]}" if number else self.given[-1]

    def owner(self, table, indent=""):
        since = self.past.since(table)
        return f"{indent}{self.past.owner(table)} owns {table} since @{since}", self.quoted(since)

    def life(self, life, indent="  ", front="", behind=""):
        grant = life.grant
        return f"{indent}{front}{arrow(grant)}{option_told(life)}{behind}", self.quoted(grant.moment)

    def held(self, user, atom):
        """By which chain he holds it, and by what else."""
        chain = self.choice.held_by(user, atom)
        standing = [life for life in self.choice.given(user, atom) if not life.fell]
        links, others = ([[self.life(life)] for life in lives] for lives in (chain, standing[1:]))
        besides = [("  and besides by", "")] if others else []
        return [self.owner(atom[0], "  "), *folded_list(links, "  "), *besides, *folded_list(others, "  ")]

    def lost(self, user, atom):
        """How each grant fell that was made to him."""
        descents = map(self.choice.way_down, self.choice.given(user, atom))
        return folded_list([[*self.loss(descent)] for descent in descents], "  ")

    def loss(self, descent):
        life = descent[-1]
        yield self.life(life, behind=f", {life.how} @{life.fell}")
        yield "    by this REVOKE", self.quoted(life.fell)
        if len(descent) > 1:
            yield from folded_list([[step] for step in self.way_down(descent, life.fell)], "    ")
        yield from folded_list([[other] for other in self.others(descent, life.fell)], "    ")

    def way_down(self, descent, fell):
        first, *between, _ = descent
        if self.past.by_moment[fell].kind == REVOKE_OPTION:
            yield f"    of the option of {arrow(first.grant)}", self.quoted(first.grant.moment)
        else:
            yield self.life(first, "    ", "of ")
        for life in between:
            yield self.life(life, "    ", "so ", ", fell")
        yield "    so this one fell", ""

    def others(self, descent, fell):
        """The grants to a grantor of the way down that were in force until then, and why they kept nothing: one that he
        made to himself in the grant that fell is none."""
        before, after = self.past.at[fell - 1], self.past.at[fell]
        for support, unkept in zip(descent, descent[1:]):
            for life in self.choice.given(support.grant.to, support.grant.atom):
                if life.key() in before and life is not support and life is not unkept:
                    reasons = self.reasons(life, before[life.key()].option, after.get(life.key()))
                    if life.grant.moment >= unkept.grant.moment:
                        reasons.append("is not earlier" if reasons else "it is not earlier")
                    told = f"    {arrow(life.grant)} did not keep @{unkept.grant.moment}: {', and '.join(reasons)}"
                    yield told, ""

    def reasons(self, life, had_option, left):
        """What a grant lacked of which this is left, and which had the option until then or did not."""
        if left is None:
            return ["it fell by the same REVOKE"]
        if not life.grant.option:
            return ["it has no option"]
        if not had_option:
            return [f"its option was gone since @{life.option_end}"]
        return [] if left.option else ["its option fell by the same REVOKE"]

    def why(self, user, table, atoms):
        """Why he holds atoms, or does not: of each the chain that holds it up, or the ways down to the grants lost."""
        if self.past.owner(table) == user:
            return [*laid_out([self.owner(table)])]
        parts = []
        for atom in atoms:
            holds, given = self.past.holds(user, atom, self.m), self.choice.given(user, atom)
            rows = self.held(user, atom) if holds else self.lost(user, atom)
            parts.append((atom[1], holds, self.past.may_grant(user, atom, self.m), bool(given), rows))
        rows = []
        for group in grouped(parts, lambda part: (part[1:4], tuple(part[4]))):
            _, holds, has_option, was_given, told = group[0]
            rights = self.named(table, [part[0] for part in group])
            head = f"{user} {'holds' if holds else 'lacks'} {rights} on {table} @{self.m}"
            head += ", with option" if has_option else ""
            head += "" if was_given else f": nobody ever granted it to {user}"
            rows += [(head, ""), *told]
        return [*laid_out(rows)]

    def fell(self):
        """The grants that fell."""
        for lives in folded(life for life in self.lives if life.fell):
            life, grant = lives[0], lives[0].grant
            table, rights = grant.atom[0], rights_of(lives)
            yield (f"{arrow(grant)}, {self.named(table, rights)} on {table}{option_told(life)}, {life.how} "
                f"@{life.fell} by {self.quoted(life.fell)}")

    def who(self, table, atoms):
        """Who holds the atoms, each with the chain that holds it up."""
        parts, owner = [], self.past.owner(table)
        for atom in atoms:
            rows = []
            holders = [life.grant.to for life in self.lives if life.grant.atom == atom and not life.fell]
            for user in dict.fromkeys(holders):
                option = ", with option" if self.past.may_grant(user, atom, self.m) else ""
                if user != owner:
                    rows.append((f"  {user}{option}", chain_told(self.choice.held_by(user, atom))))
            parts.append((atom[1], rows))
        rows = [self.owner(table)]
        for group in grouped(parts, lambda part: (word_of(part[0]), tuple(part[1]))):
            nobody = "" if group[0][1] else f": nobody but {owner}"
            rights = self.named(table, [right for right, _ in group])
            rows += [(f"{rights} on {table} @{self.m}{nobody}", ""), *group[0][1]]
        return [*laid_out(rows)]

    def taken(self):
        """The lives that the last change ended, or of which it ended the option."""
        return [life for life in self.lives if life.fell == self.m or life.grant.option and life.option_end == self.m]

    def supposed(self, atoms):
        """What the last change, which is only supposed, would take; the atoms are all of its table, in their order."""
        rows = [(f"@{self.m} would be {self.given[-1]}", "")]
        for _, group in itertools.groupby(folded(self.taken()), self.taking):
            rows.append(self.taking_told([*group]))
        if len(rows) == 1:
            rows.append(("  it takes nothing from anybody", ""))
        return [*laid_out([*rows, *((told, "") for told in self.outcomes(atoms))])]

    def taking(self, lives):
        """What grants of one statement that are told in one row have in common."""
        life = lives[0]
        return life.grant.moment, life.fell, life.option_end, life.how, rights_of(lives)

    def taking_told(self, group):
        life, rights = group[0][0], rights_of(group[0])
        word = "option revoked" if life.fell != self.m else {"revoked": "revoked", "fell": "falls"}[life.how]
        named = [right for _, right in self.past.by_moment[self.m].atoms]
        row = f"  {word}: {arrow(life.grant)}" + "".join(f", {lives[0].grant.to}" for lives in group[1:])
        row += "" if sorted(rights) == sorted(named) else f", {self.named(life.grant.atom[0], rights)}"
        row += option_told(life) if life.fell == self.m else ""
        return row, self.quoted(life.grant.moment)

    def outcomes(self, atoms):
        """What is left to each user of whom a grant is taken."""
        taken, table = self.taken(), atoms[0][0]
        for user in dict.fromkeys(life.grant.to for life in taken):
            parts = [(atom[1], *self.outcome(user, atom)) for atom in atoms
                if any((life.grant.to, life.grant.atom) == (user, atom) for life in taken)]
            for group in grouped(parts, lambda part: (word_of(part[0]), part[1:])):
                _, verb, by = group[0]
                yield f"  {user} would {verb} {self.named(table, [right for right, *_ in group])} on {table}{by}"

    def outcome(self, user, atom):
        if self.past.owns(user, atom):
            return "keep", " as its owner"
        chain = self.choice.held_by(user, atom)
        if not chain:
            return "lose", ""
        lost = self.past.may_grant(user, atom, self.m - 1) and not self.past.may_grant(user, atom, self.m)
        return "keep", f" by {chain_told(chain)}" + (", but could not grant it on" if lost else "")

    def cut(self, user, table, atoms):
        """REVOKEs that take the atoms from him, those from the same users in one, and of at most 16 users a line."""
        cuts = [(atom[1], cut) for atom in atoms if (cut := self.choice.cut(user, atom))]
        for group in grouped(cuts, lambda cut: (cut[1][0], tuple(cut[1][1]))):
            _, (by, whom) = group[0]
            rights = self.named(table, [right for right, _ in group])
            for at in range(0, len(whom), MOST_USERS):
                yield f"{by}: REVOKE {rights} ON {table} FROM {', '.join(whom[at:at + MOST_USERS])}"

    def uncut(self, user, table, atoms):
        """Why there is no such REVOKE, if there is none."""
        if self.past.owner(table) == user:
            return f"{user} owns {table}: nothing takes it from an owner"
        if any(self.past.holds(user, atom, self.m) for atom in atoms):
            return None
        rights = self.named(table, [right for _, right in atoms])
        return f"{user} does not hold {rights} on {table}: there is nothing to take"

    def can(self, user, table, atoms):
        """Whom he could give atoms to, of each that he may grant, and what that would give."""
        parts = [(atom[1], self.past.may_grant(user, atom, self.m), (*self.could_get(user, atom),)) for atom in atoms]
        for group in grouped(parts, lambda part: (word_of(part[0]), part[1:])):
            _, may_grant, users = group[0]
            rights = self.named(table, [right for right, *_ in group])
            yield f"{user} may {'' if may_grant else 'not '}grant {rights} on {table} @{self.m}"
            yield from (f"  to {to}, who {lacks}" for to, lacks in users)

    def could_get(self, user, atom):
        for to in self.past.users(self.m) if self.past.may_grant(user, atom, self.m) else []:
            if to != user and not self.past.may_grant(to, atom, self.m):
                yield to, "has it without option" if self.past.holds(to, atom, self.m) else "lacks it"

    def diff(self, since):
        """What came, fell or lost its option behind a moment, each with the line by which it did."""
        rows = [(f"came: {owner} owns {table}", self.quoted(moment)) for moment, table, owner in self.past.created
            if since < moment <= self.m]
        changed = [life for life in self.lives if self.change(life, since)]
        for fold in folded(changed):
            life, table = fold[0], fold[0].grant.atom[0]
            word, moment = self.change(life, since)
            told = f"{word}: {arrow(life.grant)}, {self.named(table, rights_of(fold))} on {table}{option_told(life)}"
            rows.append((told, self.quoted(moment)))
        return [*laid_out(rows)]

    def change(self, life, since):
        """In a word what became of a grant, and when, by what was in force then and is now."""
        was, now = (self.past.at[m].get(life.key()) for m in (since, self.m))
        if now and not was:
            return "came", life.grant.moment
        if was and not now:
            return life.how, life.fell
        return ("option revoked", life.option_end) if was and was.option and not now.option else None

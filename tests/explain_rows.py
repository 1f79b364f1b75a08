"""A second teller of what `sysr explain` says as records, of a replay of all grants (explain_past.py).

The fields are those of LANGUAGE ("Rights explained", Formats). No name or word of them has a comma or a quote.
"""
from explain_past import flag
from rights import REVOKE_OPTION

RIGHTS = ["table", "user", "privilege", "option", "since", "by"]
FELL = [*RIGHTS, "fell", "how", "revoke"]
GRANTS = [*FELL, "option_end", "line"]
WHY = ["table", "user", "privilege", "answer", "given", "step", "since", "by", "to", "option", "fell", "how", "line",
    "revoke"]
IF = [*RIGHTS, "how", "line", "outcome"]
CUT = ["by", "table", "privilege", "user"]
CAN = ["table", "by", "privilege", "user", "gives"]
DIFF = ["change", *RIGHTS, "at", "how", "line"]


def as_lines(fields, rows):
    return [",".join(map(str, row)) for row in [fields, *rows]]


class Rows:
    """Records of what a script left at a moment."""

    def __init__(self, choice):
        self.choice, self.past, self.m = choice, choice.past, choice.m
        self.lives, self.lines = choice.lives, choice.past.lines
        self.standing = [life for life in self.lives if not life.fell]

    def in_force(self, life):
        return life.right(self.past.at[self.m][life.key()].option)

    def rights(self):
        return as_lines(RIGHTS, [*self.past.owners(self.m), *map(self.in_force, self.standing)])

    def who(self, atoms):
        return as_lines(RIGHTS, [self.in_force(life) for life in self.standing if life.grant.atom in atoms])

    def fell(self):
        return as_lines(FELL, [[*life.right(life.grant.option), *life.end()] for life in self.lives if life.fell])

    def grants(self):
        return as_lines(GRANTS, [[*life.right(life.grant.option), *life.end(), life.option_ended() or "", life.line]
            for life in self.lives])

    def why(self, user, atoms):
        return as_lines(WHY, [[atom[0], user, atom[1], *step] for atom in atoms for step in self.steps(user, atom)])

    def steps(self, user, atom):
        """Of one atom the steps of its ways, behind the privilege."""
        table, given = atom[0], self.choice.given(user, atom)
        if self.past.owns(user, atom):
            since = self.past.since(table)
            yield ["owns", "", 1, since, "", user, "yes", "", "", self.lines[since], ""]
        elif self.past.holds(user, atom, self.m):
            chain = self.choice.held_by(user, atom)
            for step, life in enumerate(chain, 1):
                now = self.past.at[self.m][life.key()]
                yield ["holds", chain[-1].grant.moment, step, now.moment, now.by, now.to, flag(now.option), "", "",
                    life.line, ""]
        elif not given:
            yield ["lacks", *10 * [""]]
        else:
            for life in given:
                yield from self.steps_down(life)

    def steps_down(self, last):
        is_options = self.past.by_moment[last.fell].kind == REVOKE_OPTION
        for step, life in enumerate(self.choice.way_down(last), 1):
            grant, how = life.grant, "fell" if step > 1 else "option revoked" if is_options else "revoked"
            made = [grant.moment, grant.by, grant.to, flag(grant.option)]
            yield ["lacks", last.grant.moment, step, *made, last.fell, how, life.line, self.lines[last.fell]]

    def cut(self, user, atoms):
        cuts = [(atom, self.choice.cut(user, atom)) for atom in atoms]
        return as_lines(CUT, [[cut[0], *atom, to] for atom, cut in cuts if cut for to in cut[1]])

    def can(self, user, atoms):
        """Whom he could give atoms to, of all who were named."""
        past, m = self.past, self.m
        return as_lines(CAN, [[atom[0], user, atom[1], to, "option" if past.holds(to, atom, m) else "privilege"]
            for atom in atoms if past.may_grant(user, atom, m)
            for to in past.users(m) if to != user and not past.may_grant(to, atom, m)])

    def taken(self):
        """What the last change took, which is only supposed."""
        rows = []
        for life in self.lives:
            if life.fell == self.m or life.grant.option and life.option_end == self.m:
                had_option = life.grant.option and life.option_end == self.m
                how = life.how if life.fell == self.m else "option revoked"
                rows.append([*life.right(had_option), how, life.line, self.outcome(life.grant.to, life.grant.atom)])
        return as_lines(IF, rows)

    def outcome(self, user, atom):
        if not self.past.holds(user, atom, self.m):
            return "loses"
        had, has = (self.past.may_grant(user, atom, m) for m in (self.m - 1, self.m))
        return "keeps without option" if had and not has else "keeps"

    def diff(self, since):
        """What came, fell and lost its option behind a moment: by what was in force then, and is now."""
        rows = [["came", table, owner, "OWNER", "yes", moment, "", moment, "created", self.lines[moment]]
            for moment, table, owner in self.past.created if since < moment <= self.m]
        for life in self.lives:
            was, now = (self.past.at[m].get(life.key()) for m in (since, self.m))
            if now and not was:
                rows.append(self.changed("came", life, now.option, life.grant.moment, "granted"))
            elif was and not now:
                rows.append(self.changed("fell", life, was.option, life.fell, life.how))
            elif was and was.option and not now.option:
                rows.append(self.changed("lost option", life, False, life.option_end, "option revoked"))
        return as_lines(DIFF, rows)

    def changed(self, change, life, option, at, how):
        return [change, *life.right(option), at, how, self.lines[at]]

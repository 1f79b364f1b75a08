"""A second teller of the graphs of `sysr explain`, for Graphviz: all that was ever granted of some privileges.

Each grant is an edge, and those of one statement to one user that differ in their columns alone are one. The order is
that of the grants: first those without a colour, then those that led down to a loss, in red, and then those of a chain
that holds, in blue. An edge bears its privilege where that is not all that was asked.
"""
from explain_teller import as_told, folded, rights_of, word_of

PARTS = ("", "red", "blue")


class Graph:
    """Graphs of what was chosen of a past (explain_choice.py)."""

    def __init__(self, choice, widths):
        self.choice, self.past, self.m, self.widths = choice, choice.past, choice.m, widths

    def who(self, table, atoms):
        return [*self.told(table, atoms, {})]

    def why(self, user, table, atoms):
        """The chains by which he holds the atoms are blue, and what led down to grants that he lost is red."""
        colours = {}
        for atom in atoms:
            if self.past.holds(user, atom, self.m):
                colours.update((life.key(), "blue") for life in self.choice.held_by(user, atom))
            else:
                for given in self.choice.given(user, atom):
                    colours.update((life.key(), "red") for life in self.choice.way_down(given))
        return [*self.told(table, atoms, {} if self.past.owner(table) == user else colours)]

    def told(self, table, atoms, colours):
        rights = [right for _, right in atoms]
        is_one = len({*map(word_of, rights)}) == 1
        asked = f"{as_told(rights, self.widths[table])} on " if is_one else ""
        yield f'digraph "{asked}{table} @{self.m}" {{'
        yield "  rankdir=LR;"
        yield f'  "{self.past.owner(table)}" [peripheries=2];'
        lives = [life for life in self.choice.lives if life.grant.atom in atoms]
        for part in PARTS:
            for fold in folded(life for life in lives if colours.get(life.key(), "") == part):
                privilege = "" if len(fold) == len(atoms) else f" {as_told(rights_of(fold), self.widths[table])}"
                yield edge(fold[0], privilege, part)
        yield "}"


def edge(life, privilege, colour):
    """A dashed edge has fallen, and a bold one has the option, or had it to its end."""
    grant, fell, end = life.grant, life.fell, life.option_end
    keeps_option = grant.option and end == fell
    label = f"@{grant.moment}" + (f" - @{fell}" if fell else "") + privilege
    label += f", option - @{end}" if grant.option and not keeps_option else ""
    style = {(False, False): "solid", (False, True): "dashed", (True, False): "bold", (True, True): '"bold,dashed"'}
    coloured = f", color={colour}" if colour else ""
    return f'  "{grant.by}" -> "{grant.to}" [label="{label}", style={style[keeps_option, bool(fell)]}{coloured}];'

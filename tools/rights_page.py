#!/usr/bin/env python3
"""The history of a privilege on a table as one page, without any library.

    tools/rights_page.py SELECT pay < pay.journal > rights.html
    tools/rights_page.py --picture SELECT pay < pay.journal > rights.svg

The page shows all that was ever granted of the privilege as a graph, and beside it as a list. A slider chooses the
moment: grants that stand are green, those that fell before are grey and dashed, those that fall at the moment are red.
Bold ones have the grant option. A click on a grant tells what a REVOKE of it would take at the end, and who would keep
what by others; or what fell with it. A click on a user tells why he holds the privilege at the end, or how he lost it.

PRIVILEGE is SELECT, INSERT, DELETE or UPDATE, or of one column 'SELECT(wage)'. What is drawn is what `sysr explain grants`
and `sysr explain rights` tell, and what is told on a click what `if` and `why` tell: a question for each grant that
stands and for each user. With --quick nothing is told on clicks. With --picture it writes a picture of the whole time:
what fell bears both of its moments.
"""
import argparse
import collections
import concurrent.futures
import csv
import html
import io
import json
import os
import subprocess
import sys

SYSR = os.path.join(os.path.dirname(os.path.dirname(os.path.abspath(__file__))), "sysr")
ACROSS, DOWN, MARGIN, RADIUS = 190, 84, 70, 24
# How far an edge bends further round a circle, and how often at the most.
BEND, MOST_BENDS = 26, 8
# How many questions are asked at once.
AT_ONCE = 4

PAGE_STYLE = """<style>.stands path { marker-end: url(#head1a7f37) } .falls path { marker-end: url(#headb3261e) }
.fell path { marker-end: url(#headaaa) } .told path { marker-end: url(#headd97706) }
.edge path.near { marker-end: none }</style>"""

PICTURE_STYLE = """<style>
svg { background: #fafafa }
path { fill: none; stroke: #1a7f37; stroke-width: 1.5; marker-end: url(#head1a7f37) }
.bold path { stroke-width: 4 }
.fell path { stroke: #aaa; stroke-dasharray: 6 4; marker-end: url(#headaaa) }
text { font: 13px sans-serif; text-anchor: middle }
.edge text { font-size: 11px; fill: #555; paint-order: stroke; stroke: #fafafa; stroke-width: 4px }
circle { fill: #fff; stroke: #777; stroke-width: 1.5 }
circle.holds { fill: #d5f0dc; stroke: #1a7f37 }
</style>"""

Edge = collections.namedtuple("Edge", "since by to option fell how revoke option_end line columns")

PAGE = """<!doctype html>
<html lang="en">
<meta charset="utf-8">
<title>%(title)s</title>
<style>
body { font: 15px sans-serif; margin: 1.5em; color: #222 }
main { display: flex; flex-wrap: wrap; gap: 2em; align-items: flex-start }
svg { background: #fafafa; border: 1px solid #ddd; max-width: 100%% }
input[type=range] { width: 26em; vertical-align: middle }
#line { font-family: monospace; min-height: 1.4em; margin: .6em 0 }
table { border-collapse: collapse }
td, th { padding: .15em .7em; text-align: left; border-bottom: 1px solid #eee }
tr { color: #999 }
tr.stands { color: #116329 } tr.falls { color: #b3261e } tr.later { display: none }
tr.head { color: #222 }
tr.told { background: #fff1d0 }
tr[id], g.edge, circle.user { cursor: pointer }
#told { white-space: pre-wrap; font-family: monospace; padding: 1em 0; position: sticky; bottom: 0; background: #fff;
  max-height: 40vh; overflow: auto }
.asked g.edge:not(.told) { opacity: .15 }
path { fill: none; stroke-width: 1.5 }
path.bold { stroke-width: 4 }
.stands path { stroke: #1a7f37 } .falls path { stroke: #b3261e }
.fell path { stroke: #aaa; stroke-dasharray: 6 4 }
.told path { stroke: #d97706 }
.edge path.near { stroke: transparent; stroke-width: 14; stroke-dasharray: none }
.later { display: none }
text { font: 13px sans-serif; text-anchor: middle }
.edge text { font-size: 11px; fill: #555; paint-order: stroke; stroke: #fafafa; stroke-width: 4px }
circle { fill: #fff; stroke: #777; stroke-width: 1.5 }
circle.holds { fill: #d5f0dc; stroke: #1a7f37 }
</style>
<h1>%(title)s</h1>
<p><label>moment <input type="range" id="moment" min="%(first)d" max="%(last)d" value="%(last)d"></label>
<b id="shown"></b></p>
<div id="line"></div>
<main>
%(svg)s
<table>
<tr class="head"><th>made</th><th>by</th><th>to</th><th>option</th><th>columns</th><th>ended</th></tr>
%(rows)s
</table>
</main>
<div id="told">%(hint)s</div>
<script>
const grants = %(grants)s;
const lines = %(lines)s;
const last = %(last)d;
// Of each grant what a REVOKE of it would take, as numbers of grants with what is left to whom; of each user why.
const takes = %(takes)s;
const whys = %(whys)s;
let told = new Set();
function stateAt(grant, m) {
  if (m < grant.since) return "later";
  if (grant.fell === null || m < grant.fell) return "stands";
  return m === grant.fell ? "falls" : "fell";
}
function hasOptionAt(grant, m) {
  return grant.option && (grant.option_end === null || m < grant.option_end || grant.option_end === grant.fell);
}
function holdersAt(m) {
  return new Set(grants.filter(grant => stateAt(grant, m) === "stands").map(grant => grant.to));
}
function show(m) {
  document.getElementById("shown").textContent = "@" + m;
  document.getElementById("line").textContent = lines[m] || "";
  grants.forEach((grant, n) => {
    const state = stateAt(grant, m);
    const mark = told.has(n) ? " told" : "";
    document.getElementById("edge" + n).setAttribute("class", "edge " + state + mark);
    document.getElementById("row" + n).setAttribute("class", state + mark);
    document.getElementById("path" + n).setAttribute("class", hasOptionAt(grant, m) ? "bold" : "");
  });
  const holders = holdersAt(m);
  document.querySelectorAll("circle.user").forEach(circle =>
    circle.setAttribute("class", "user" + (circle.dataset.owner || holders.has(circle.dataset.name) ? " holds" : "")));
}
function named(n) {
  const grant = grants[n];
  return "@" + grant.since + " " + grant.by + " -> " + grant.to;
}
// The grants that are told of for one, and what is told.
function toldOf(n) {
  const grant = grants[n];
  if (grant.fell !== null) {
    const others = grants.map((_, at) => at).filter(at => at !== n && grants[at].fell === grant.fell);
    const beside = others.map(at => "\\n  " + named(at)).join("");
    return [[n, ...others], named(n) + " " + grant.how + " @" + grant.fell + (lines[grant.fell] ? " by " + lines[grant.fell] : "")
      + (others.length ? "\\nand by the same REVOKE" + beside : "")];
  }
  const taken = takes[n] || [];
  return [taken.map(([at]) => at), "@" + last + ": a REVOKE of " + named(n) + " would take" + taken.map(([at, how, left]) =>
    "\\n  " + named(at) + (how === "fell" ? ", which falls: " : ", " + how + ": ") + grants[at].to + " " + left).join("")];
}
function tell(which, text) {
  told = new Set(which);
  document.getElementById("told").textContent = text;
  document.querySelector("main").setAttribute("class", told.size ? "asked" : "");
  show(Number(document.getElementById("moment").value));
}
if (typeof document !== "undefined" && takes) {
  grants.forEach((_, n) => ["edge", "row"].forEach(part =>
    document.getElementById(part + n).addEventListener("click", () => tell(...toldOf(n)))));
  document.querySelectorAll("circle.user").forEach(circle =>
    circle.addEventListener("click", () => tell([], whys[circle.dataset.name] || "")));
}
if (typeof document !== "undefined") {
  const moment = document.getElementById("moment");
  moment.addEventListener("input", () => show(Number(moment.value)));
  show(Number(moment.value));
}
</script>
</html>
"""


def records(sysr, words, script):
    """The records of an answer, each by the names of its fields."""
    done = subprocess.run([sysr, "explain", *words, "--format", "csv"], input=script, capture_output=True)
    if done.returncode:
        sys.exit(done.stderr.decode().strip())
    return [*csv.DictReader(io.StringIO(done.stdout.decode()))]


def answer(sysr, words, script):
    """What is answered in words; nothing, where there is no answer."""
    return subprocess.run([sysr, "explain", *words], input=script, capture_output=True).stdout.decode()


def number(text):
    return int(text) if text else None


def is_asked(right, privilege):
    """Whether a single right is of the privilege: of a word without columns each of its columns is."""
    return right == privilege or right.partition("(")[0] == privilege


def edges_of(grants, privilege, table):
    """Single grants as edges, those of one statement that differ in their columns alone as one."""
    found = {}
    for row in grants:
        if row["table"] == table and is_asked(row["privilege"], privilege):
            key = (int(row["since"]), row["by"], row["user"], row["option"] == "yes", number(row["fell"]), row["how"],
                number(row["revoke"]), number(row["option_end"]), number(row["line"]))
            found.setdefault(key, []).append(row["privilege"].removesuffix(")").partition("(")[2])
    return [Edge(*key, ", ".join(columns)) for key, columns in found.items()]


def places_of(owner, edges):
    """A place for each user: the owner at the left, others as far to the right as their shortest chain is long."""
    depth, ahead = {owner: 0}, collections.deque([owner])
    while ahead:
        user = ahead.popleft()
        for edge in edges:
            if edge.by == user and edge.to not in depth:
                depth[edge.to] = depth[user] + 1
                ahead.append(edge.to)
    for edge in edges:
        depth.setdefault(edge.by, 1)
        depth.setdefault(edge.to, depth[edge.by] + 1)
    columns = collections.Counter(depth.values())
    highest, used, places = max(columns.values()), collections.Counter(), {}
    for user, column in depth.items():
        free = (highest - columns[column]) * DOWN / 2
        places[user] = MARGIN + column * ACROSS, MARGIN + used[column] * DOWN + free
        used[column] += 1
    return places


def curve(start, end, bend):
    """A path from one circle to another that bends to its left by so much, and where its label may stand."""
    (x, y), (to_x, to_y) = start, end
    if start == end:
        reach = 46 + abs(bend)
        return (f"M {x - 12:.0f} {y - RADIUS + 3:.0f} C {x - reach:.0f} {y - 2 * reach:.0f} "
            f"{x + reach:.0f} {y - 2 * reach:.0f} {x + 12:.0f} {y - RADIUS + 3:.0f}"), [(x, y - RADIUS - reach)]
    across, down = to_x - x, to_y - y
    length = (across ** 2 + down ** 2) ** 0.5
    middle = x + across / 2 + down / length * bend, y + down / 2 - across / length * bend
    points = [along(start, middle, RADIUS), middle, along(end, middle, RADIUS + 7)]
    (x1, y1), (x2, y2), (x3, y3) = points
    shares = [((1 - t) ** 2, 2 * t * (1 - t), t ** 2) for t in (.5, .35, .65, .2, .8)]
    labels = [(a * x1 + b * x2 + c * x3, a * y1 + b * y2 + c * y3) for a, b, c in shares]
    return f"M {x1:.0f} {y1:.0f} Q {x2:.0f} {y2:.0f} {x3:.0f} {y3:.0f}", labels


def is_in_the_way(place, start, end, bend):
    """Whether the circle at the place lies on the curve between two others."""
    across, down = end[0] - start[0], end[1] - start[1]
    length = (across ** 2 + down ** 2) ** 0.5
    for share in (n / 16 for n in range(1, 16)):
        aside = 2 * share * (1 - share) * bend / length
        x, y = start[0] + across * share + down * aside, start[1] + down * share - across * aside
        if (x - place[0]) ** 2 + (y - place[1]) ** 2 < (RADIUS + 10) ** 2:
            return True
    return False


def is_near(place, start, end, reach):
    """Whether the place is so near to the line between two others."""
    across, down = end[0] - start[0], end[1] - start[1]
    length = (across ** 2 + down ** 2) ** 0.5
    x, y = place[0] - start[0], place[1] - start[1]
    ahead, aside = (x * across + y * down) / length, (x * down - y * across) / length
    return abs(aside) < reach and -reach < ahead < length + reach


def bend_of(start, end, before, places):
    """How far an edge bends, with so many before it between the same users: round the circles of others, if it can."""
    bend = 14 + BEND * before
    if start == end:
        return bend
    reach = RADIUS + 10 + (bend + BEND * MOST_BENDS) / 2
    others = [place for place in places if place not in (start, end) and is_near(place, start, end, reach)]
    for _ in range(MOST_BENDS):
        if not any(is_in_the_way(place, start, end, bend) for place in others):
            break
        bend += BEND
    return bend


def free_place(places, taken):
    """The first of the places that is not too near to a label; or the first of all."""
    return next((place for place in places
        if all(abs(place[0] - x) > 62 or abs(place[1] - y) > 13 for x, y in taken)), places[0])


def along(start, end, distance):
    """The point so far on the way from one to the other."""
    (x, y), (to_x, to_y) = start, end
    share = distance / max(((to_x - x) ** 2 + (to_y - y) ** 2) ** 0.5, 1)
    return x + (to_x - x) * share, y + (to_y - y) * share


def drawn(owner, edges, style):
    """The graph."""
    places, pairs, labels = places_of(owner, edges), collections.Counter(), []
    width = max(x for x, _ in places.values()) + MARGIN
    height = max(y for _, y in places.values()) + MARGIN
    yield f'<svg viewBox="0 0 {width:.0f} {height:.0f}" width="{width:.0f}" height="{height:.0f}">'
    for colour in ("#1a7f37", "#b3261e", "#aaa", "#d97706"):
        yield (f'<defs><marker id="head{colour[1:]}" orient="auto" markerUnits="userSpaceOnUse" markerWidth="12" '
            f'markerHeight="10" refX="8" refY="5"><polygon points="0 0, 12 5, 0 10" fill="{colour}"/></marker></defs>')
    yield style
    for at, edge in enumerate(edges):
        pairs[edge.by, edge.to] += 1
        start, end = places[edge.by], places[edge.to]
        path, free = curve(start, end, bend_of(start, end, pairs[edge.by, edge.to] - 1, places.values()))
        labels.append(free_place(free, labels))
        x, y = labels[-1]
        yield (f'<g class="edge stands" id="edge{at}"><path id="path{at}" d="{path}"/>{near(path, style)}'
            f'<text x="{x:.0f}" y="{y:.0f}">@{edge.since}</text></g>')
    for user, (x, y) in places.items():
        name, owns = html.escape(user), ' data-owner="1"' if user == owner else ""
        if owns:
            yield f'<circle cx="{x:.0f}" cy="{y:.0f}" r="{RADIUS + 4}"/>'
        yield f'<circle class="user" data-name="{name}"{owns} cx="{x:.0f}" cy="{y:.0f}" r="{RADIUS}"/>'
        yield f'<text x="{x:.0f}" y="{y + 4:.0f}">{name}</text>'
    yield "</svg>"


def near(path, style):
    """A wide path that nobody sees, for clicks; a picture has none."""
    return f'<path class="near" d="{path}"/>' if style == PAGE_STYLE else ""


def picture(owner, edges):
    """The graph of the whole time: bold with the option, dashed what fell, green who holds."""
    most = max((edge.columns.count(",") for edge in edges), default=0)
    told = "\n".join(drawn(owner, edges, PICTURE_STYLE)).replace("<svg ", '<svg xmlns="http://www.w3.org/2000/svg" ', 1)
    for at, edge in enumerate(edges):
        look = ("bold " if edge.option else "") + ("stands" if edge.fell is None else "fell")
        told = told.replace(f'class="edge stands" id="edge{at}"', f'class="edge {look}" id="edge{at}"', 1)
        before, mark, after = told.partition(f'id="path{at}"')
        label = f"@{edge.since}" + ("" if edge.fell is None else f" - @{edge.fell}")
        label += f" ({edge.columns})" if edge.columns.count(",") < most else ""
        told = before + mark + after.replace(f">@{edge.since}<", f">{label}<", 1)
    for user in {edge.to for edge in edges if edge.fell is None} | {owner}:
        name = f'data-name="{html.escape(user)}"'
        told = told.replace(f'class="user" {name}', f'class="user holds" {name}', 1)
    return told + "\n"


def ended(edge):
    if edge.fell is None:
        return f"option @{edge.option_end}" if edge.option and edge.option_end else ""
    return f"{edge.how} @{edge.fell}, line {edge.revoke}"


def listed(edges, script):
    """The grants, a row for each, with the line that made it as a hint."""
    for at, edge in enumerate(edges):
        cells = (f"@{edge.since}", edge.by, edge.to, "yes" if edge.option else "", edge.columns, ended(edge))
        title = html.escape(f"line {edge.line}: {script[edge.line - 1]}", quote=True)
        yield f'<tr id="row{at}" title="{title}">' + "".join(f"<td>{html.escape(cell)}</td>" for cell in cells) + "</tr>"


def moments(edges, owned, script):
    """By moment the line that made or took something."""
    told = {owned: None}
    for edge in edges:
        told[edge.since] = edge.line
        if edge.fell is not None:
            told[edge.fell] = edge.revoke
    return {moment: f"line {line}: {script[line - 1]}" for moment, line in told.items() if line}


def history_of(sysr, privilege, table, script):
    """The table's owner and the grants of the privilege, or what is wrong with the words."""
    rights = records(sysr, ["rights"], script)
    owner = next((row for row in rights if (row["table"], row["privilege"]) == (table, "OWNER")), None)
    if owner is None:
        sys.exit(f"no table {table}")
    return owner, edges_of(records(sysr, ["grants"], script), privilege, table)


def revocation_of(edge, privilege, table):
    """The line that takes a grant from whom it was made to."""
    word = privilege.partition("(")[0]
    return f"{edge.by}: REVOKE {word}{f' ({edge.columns})' if edge.columns else ''} ON {table} FROM {edge.to}"


def taken_by(sysr, line, edges, script):
    """What the line would take, as numbers of edges, each with how it goes, and what is left to its user."""
    found = {}
    places = {(edge.since, edge.by, edge.to): at for at, edge in enumerate(edges)}
    for row in records(sysr, ["if", line], script):
        place = places.get((int(row["since"]), row["by"], row["user"]))
        if place is not None:
            found[place] = row["how"], row["outcome"]
    return [[place, how, left] for place, (how, left) in found.items()]


class Told:
    """What is told on clicks: of each edge that stands what a REVOKE of it would take, and of each user why."""

    def __init__(self, sysr, privilege, table, owner, edges, script):
        self.users = sorted({owner, *(user for edge in edges for user in (edge.by, edge.to))})
        with concurrent.futures.ThreadPoolExecutor(AT_ONCE) as pool:
            takes = [pool.submit(taken_by, sysr, revocation_of(edge, privilege, table), edges, script)
                if edge.fell is None else None for edge in edges]
            whys = [pool.submit(answer, sysr, ["why", user, privilege, table], script) for user in self.users]
            self.takes = [asked and asked.result() for asked in takes]
            self.whys = dict(zip(self.users, (asked.result() for asked in whys)))


def as_json(value):
    """As a script may have it."""
    return json.dumps(value).replace("<", "\\u003c")


def page(title, owner, edges, script, told):
    """The page; `told` may be nothing."""
    lines = script.decode(errors="replace").split("\n")
    first, last = int(owner["since"]), max(
        [int(owner["since"]), *(m for edge in edges for m in (edge.since, edge.fell, edge.option_end) if m)])
    return PAGE % {
        "title": html.escape(title),
        "first": first,
        "last": last,
        "svg": "\n".join(drawn(owner["user"], edges, PAGE_STYLE)),
        "rows": "\n".join(listed(edges, lines)),
        "grants": as_json([{name: getattr(edge, name) for name in
            ("since", "by", "to", "option", "fell", "how", "option_end")} for edge in edges]),
        "lines": as_json(moments(edges, first, lines)),
        "takes": as_json(told and told.takes),
        "whys": as_json(told and told.whys),
        "hint": "Click on a grant or on a user." if told else "",
    }


def main():
    words = argparse.ArgumentParser(description=__doc__.split("\n")[0])
    words.add_argument("privilege", metavar="PRIVILEGE")
    words.add_argument("table", metavar="TABLE")
    words.add_argument("--picture", action="store_true", help="one picture of the whole time, as SVG")
    words.add_argument("--quick", action="store_true", help="a page that tells nothing on clicks")
    words.add_argument("--sysr", default=SYSR, help="the program; the repository's own where it is not given")
    asked = words.parse_args()
    word, mark, column = "".join(asked.privilege.split()).partition("(")
    privilege, table, script = word.upper() + mark + column.lower(), asked.table.lower(), sys.stdin.buffer.read()
    owner, edges = history_of(asked.sysr, privilege, table, script)
    title = f"{privilege} on {table}, owned by {owner['user']} since @{owner['since']}"
    if asked.picture:
        sys.stdout.write(picture(owner["user"], edges))
        return
    told = None if asked.quick else Told(asked.sysr, privilege, table, owner["user"], edges, script)
    sys.stdout.write(page(title, owner, edges, script, told))


if __name__ == "__main__":
    main()

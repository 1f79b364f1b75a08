"""Statements by chance, as lines, as queries and with their literals bound: what is told of each is the same.

The statements are those that tests/by_chance.py makes, and what is told of them is what the model of tests/model.py
says. Statements that are not read (tests/faults.py) have the faults that lines have.
"""
import os
import re
import subprocess

import by_chance
import faults
import model
from served import Session
from wire_messages import (SYNC, at_ports, bind, describe, execute, fields_of, kinds_of, parse, query, row_of, welcomed)


class Told(model.Model):
    """The model, which keeps of each statement its user and its answer, but for those that hang on checkpoints."""

    def __init__(self, chunk):
        super().__init__(chunk)
        self.asked = []

    def say(self, user, statement, answers):
        if not statement.startswith(("CHECKPOINT", "EXPORT")):
            self.asked.append((user, statement, list(answers)))
        super().say(user, statement, answers)


def statements(seed, count):
    """Statements by chance: the user, the text and the lines that are told of each."""
    chance = by_chance.Chance(seed)
    chance.model = Told(by_chance.CHUNK)
    chance.missing = count // 2
    chance.create_all()
    while len(chance.model.asked) < count + model.TABLES:
        chance.insert() if chance.random.random() < 0.5 else chance.other()
    return chance.model.asked


LITERAL = re.compile(r"'(?:[^']|'')*'|(?<![A-Za-z0-9_])-?[0-9]+")


def bound(statement):
    """A statement by the extended protocol, with its literals in places where it may have some."""
    if not statement.startswith(("INSERT", "SELECT", "DELETE", "UPDATE")):
        return parse(statement) + bind() + describe() + execute() + SYNC
    values, types = [], []

    def place(found):
        text = found[0]
        types.append(25 if text[0] == "'" else 20)
        values.append(text[1:-1].replace("''", "'") if text[0] == "'" else text)
        return f"${len(values)}"

    placed = LITERAL.sub(place, statement)
    return parse(placed, types=types) + bind(values) + describe() + execute() + SYNC


# The SQLSTATE of a lack, by words of its text.
CODES = (("no table", "42P01"), ("table .* exists", "42P07"), ("no column", "42703"), ("lacks", "42501"),
    ("may not grant", "42501"), ("granted no", "42501"), ("values for", "42601"), ("takes", "42804"), ("full", "54000"))
FAULTS = {2: "54000", 3: "42601", 4: "42601", 5: "22003", 6: "42601", 7: "42701", 8: "54023", 9: "42622", 10: "42601"}


def as_lines(seen):
    """The answer in messages as the lines of the other protocol: but for the number of the moment of rows."""
    lines, rows = [], []
    for kind, body in seen:
        if kind == b"D":
            rows.append(model.record("row", [some.decode() for some in row_of(body)]))
        elif kind == b"S" and body.startswith(b"sysr.moment\0"):
            moment = body[12:-1].decode()
        elif kind == b"C":
            tag = body[:-1].decode()
            lines = [f"rows {tag[7:]} @{moment}", *rows] if tag.startswith("SELECT") else [f"done @{moment}"]
        elif kind == b"E":
            told = fields_of(body)
            wanted = next((code for words, code in CODES if re.search(words, told["M"])), None)
            lines = [told["M"] if told["C"] == wanted else f"{told['C']} {told['M']}"]
    return lines


class Asked:
    """A server with a journal, whose users ask by lines, by queries, or with values bound."""

    def __init__(self, program, how, folder):
        self.how, self.journal, self.sessions = how, os.path.join(folder, how.replace(" ", "_")), {}
        self.server, self.port = at_ports(program, ["--journal", self.journal], stderr=subprocess.DEVNULL)

    def told(self, user, statement):
        """The lines that are told of a statement."""
        if user not in self.sessions:
            by_lines = self.how == "lines"
            self.sessions[user] = Session(self.server, user) if by_lines else welcomed(self.port, user)
        session = self.sessions[user]
        if self.how != "lines":
            return as_lines(session.ask(query(statement) if self.how == "queries" else bound(statement)))
        lines = [session.ask(statement).rstrip("\n")]
        rows = int(lines[0].split()[1]) if lines[0].startswith("rows") else 0
        return lines + [session.line().rstrip("\n") for _ in range(rows)]

    def end(self):
        """Ends the sessions and the server, and gives the journal."""
        for session in self.sessions.values():
            session.end()
        with open(self.journal, "rb") as file:
            kept = file.read()
        self.server.child.kill()
        self.server.child.communicate()
        return kept


def same_by_lines_and_messages(program, check, seed, count, folder):
    asked, journals = statements(seed, count), {}
    for how in ("lines", "queries", "values bound"):
        at, wrong = Asked(program, how, folder), []
        for user, statement, wanted in asked:
            told = at.told(user, statement)
            if told != wanted:
                wrong.append((user, statement[:100], told[:3], wanted[:3]))
        check(f"{len(asked):,} statements by chance, by {how}", not wrong, (len(wrong), wrong[:3]))
        if how == "queries":
            not_read(at.port, check)
        journals[how] = at.end()
    same = len(set(journals.values())) == 1 and journals["lines"]
    check("the journals are the same", bool(same), {how: len(text) for how, text in journals.items()})


def not_read(port, check):
    """Statements that are not read: the fault is that of the line, the code is that of the fault."""
    with welcomed(port, "u") as wire:
        for code, text, rows in faults.FAULTS:
            for place, statement in rows:
                # (of some bytes, and of ";" and "$", messages make something else)
                if re.search(rb"[\0\n\r$;]", statement):
                    continue
                seen = wire.ask(query(statement))
                told = [(fields_of(body)["C"], fields_of(body)["M"]) for kind, body in seen if kind == b"E"]
                wanted = [(FAULTS[code], f"error {code} at {place}: {text}")] if code in FAULTS else []
                kinds = "EZ" if wanted else "IZ"
                check(f"fault {code} of {statement[:60]}", (kinds_of(seen), told) == (kinds, wanted), (told, wanted))

"""The grammar of statements, as `\\h` shows it."""
from __future__ import annotations

import re
from typing import Dict, List

GRAMMAR = """\
create     = CREATE TABLE name "(" column { "," column } ")"
column     = name ( INTEGER | TEXT )
insert     = INSERT INTO name VALUES "(" literal { "," literal } ")"
select     = SELECT ( "*" | name { "," name } ) FROM name [ filter ]
delete     = DELETE FROM name [ filter ]
update     = UPDATE name SET set { "," set } [ filter ]
set        = name "=" literal
filter     = WHERE condition { AND condition }
condition  = name ( "=" | "<>" | "<" | "<=" | ">" | ">=" ) literal
grant      = GRANT privileges ON name TO users [ WITH GRANT OPTION ]
revoke     = REVOKE [ GRANT OPTION FOR ] privileges ON name FROM users
privileges = privilege { "," privilege }
privilege  = ( SELECT | UPDATE ) [ "(" name { "," name } ")" ] | INSERT | DELETE
users      = name { "," name }
checkpoint = CHECKPOINT
list       = CHECKPOINTS
export     = EXPORT number [ ONLY name ]
literal    = number | text"""
"""The rules of docs/LANGUAGE.md behind that of a body, in its words."""

_RULES: Dict[str, str] = dict(re.findall(r"^(\w+) += (.*)$", GRAMMAR, re.MULTILINE))
# What each statement begins with, and its rule.
_STATEMENTS = {"CREATE TABLE": "create", "INSERT": "insert", "SELECT": "select", "DELETE": "delete", "UPDATE": "update",
    "GRANT": "grant", "REVOKE": "revoke", "CHECKPOINT": "checkpoint", "CHECKPOINTS": "list", "EXPORT": "export"}
LEGEND = "[ x ] is x or nothing, { x } is x as often as one likes, x | y is one of both; 'it''s' is a text"


def help_for(words: str) -> List[str]:
    """The rule of the statement that begins with these words, with the rules that it names; or a list of all."""
    asked = " ".join(words.upper().replace(";", " ").split())
    chosen = [begin for begin in _STATEMENTS if begin == asked] or [
        begin for begin in _STATEMENTS if asked and (begin.startswith(asked) or asked.startswith(begin + " "))]
    if not chosen:
        told = [f"no statement begins with {asked}"] if asked else []
        return [*told, "Statements: " + ", ".join(_STATEMENTS), "\\h STATEMENT shows its grammar"]
    return [*(f"{rule:<10} = {_RULES[rule]}" for rule in _used([_STATEMENTS[begin] for begin in chosen])), LEGEND]


def _used(rules: List[str]) -> List[str]:
    """These rules, and behind them those that they name."""
    found = list(rules)
    for rule in found:
        for word in re.findall("[a-z]+", _RULES[rule]):
            if word in _RULES and word not in found:
                found.append(word)
    return found

"""Rows of an answer to an EXPORT, in place of those of the journal."""
import csv
import re

from postgres_rights.journal import Kept, Table
from postgres_rights.wording import Told, fail


def answer_of_export(path: str) -> list[str]:
    """The records of a whole answer to an EXPORT, the first of a file. Ends the tool if there is none."""
    try:
        with open(path, encoding="utf-8", newline="\n") as file:
            lines = file.read().replace("\r\n", "\n").split("\n")
    except (OSError, UnicodeDecodeError) as why:
        fail(f"{path}: {getattr(why, 'strerror', None) or 'not in UTF-8'}")
    records = None
    for line in lines:
        if line.startswith("export "):
            records = []
        elif records is not None and re.fullmatch(r"end \d+", line):
            return records
        elif records is not None:
            records.append(line)
    fail(f"{path}: no whole answer to an EXPORT")


def take_export(path: str, kept: Kept) -> list[Told]:
    """Gives the tables the rows of an export, and says what it does not have."""
    told, table, missing = [], None, dict.fromkeys(kept.tables)
    for line in answer_of_export(path):
        word, *values = next(csv.reader([line]))
        if word == "row" and table and len(values) == len(table.given):
            table.rows.append(values)
        elif word in ("table", "withheld") and values and values[0] in missing:
            table = kept.tables[values[0]]
            del missing[table.name]
            told += cut_to(table, values[1:], word)
        else:
            fail(f"{path}: not an export of these tables: {line[:60]}")
    return told + [Told("rows", f"{name} is not in the export, and has no rows there") for name in missing]


def cut_to(table: Table, values: list[str], word: str) -> list[Told]:
    """Leaves a table the columns that an export gives, and says which it does not give."""
    if word == "withheld":
        return [Told("rows", f"{table.name} is withheld in the export, and has no rows there")]
    without = [column for column, _ in table.columns if column not in values]
    if len(without) + len(values) != len(table.columns):
        fail(f"the export's columns of {table.name} are not those of the journal")
    table.given[:] = values
    return [Told("rows", f"{table.name} ({', '.join(without)}) is not in the export: NULL there")] if without else []

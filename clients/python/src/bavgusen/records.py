"""The fields of a record: a row, or the names behind `table`."""
from __future__ import annotations

import csv
import re
from typing import List, Optional, Sequence

from .errors import DataError
from .literals import GREATEST, LEAST
from .replies import Kind, Row, Value

# As the server prints an integer. What else `int` would take, `007` or `1_0`, can only be a text.
_INTEGER = re.compile("0|-?[1-9][0-9]*")


def split(record: str) -> List[str]:
    """The fields of a record behind its word and comma. It is a `csv.Error` if its quotes do not close."""
    if '"' not in record:
        return record.split(",")
    return next(csv.reader([record], strict=True))


def typed(fields: Sequence[Value], kinds: Sequence[Optional[Kind]]) -> Row:
    """The fields, those of integer columns as `int`. It is a `DataError` if one of these is no integer."""
    return tuple(_integer(str(field)) if kind is int else field for field, kind in zip(fields, kinds))


def _integer(field: str) -> int:
    # (20 characters have the longest of 64 bits)
    if len(field) <= 20 and _INTEGER.fullmatch(field):
        value = int(field)
        if LEAST <= value <= GREATEST:
            return value
    raise DataError(f"no integer, though its column was said to be one: {field!r}")

"""Finds the names and the first row of a table below the lines that a mining package writes above them."""

from __future__ import annotations

import csv
import re
from collections.abc import Iterator
from dataclasses import dataclass
from itertools import islice
from typing import Optional

SEPARATORS = (",", ";", "\t", "|", " ")
# Lines of the sample, and header lines below the names at most.
SEEN, BELOW = 400, 10
NUMBER = re.compile(r"[-+]?(?:\d+[.,]?\d*|[.,]\d+)(?:[eE][-+]?\d+)?")
VULCAN = re.compile(r"variable (description|type|default)s?\b", re.IGNORECASE)


@dataclass(frozen=True)
class TextLayout:
    """The separator, " " for blanks; the names of the columns; and the lines of these and of the first row, from 1."""

    separator: str
    names: tuple[str, ...]
    header_row: int
    first_row: int

    @property
    def passed(self) -> list[int]:
        """The lines, from 0, that are neither names nor rows."""
        return [line for line in range(self.first_row - 1) if line != self.header_row - 1]


def layout_of(
    lines: Iterator[str], separator: Optional[str], header_row: Optional[int], first_row: Optional[int]
) -> TextLayout:
    """Returns the layout of a text, as far as the project does not name it."""
    seen = [line.rstrip("\r\n") for line in islice(lines, SEEN)] or [""]
    best: Optional[TextLayout] = None
    for sign in [separator] if separator else SEPARATORS:
        found = with_separator(seen, sign)
        if (
            found
            and (best is None or len(found.names) > len(best.names))
            and (sign != " " or best is None or separator)
        ):
            best = found
    if best is None:
        sign = separator or max(SEPARATORS[:-1], key=re.sub('"[^"]*"', "", seen[0]).count)
        best = TextLayout(sign, tuple(split(seen[0], sign)), 1, 2)
    if header_row is None and first_row is None:
        return best
    named = header_row or best.header_row
    after = first_row or (best.first_row if named == best.header_row else named + 1)
    names = tuple(split(seen[named - 1], best.separator)) if named <= len(seen) else ()
    return TextLayout(best.separator, names, named, after)


def with_separator(lines: list[str], separator: str) -> Optional[TextLayout]:
    """Returns the layout with a separator; None if the lines have no names for as many fields as most of the later lines have."""
    if separator != " " and not any(separator in line for line in lines):
        return None
    parts = [[] if line.startswith("#") else split(line, separator) for line in lines]
    counts = [len(row) for row in parts[len(parts) // 2 :] if len(row) > 1]
    if not counts:
        return None
    width = max(dict.fromkeys(counts), key=counts.count)
    rows = [row for row in parts[len(parts) // 2 :] if len(row) == width]
    named = next((k for k, row in enumerate(parts) if len(row) == width and are_names(row)), None)
    if named is None:
        return None
    middle = sorted(map(numbers, rows))
    typical = (middle[(len(middle) - 1) // 2] + middle[len(middle) // 2]) / 2
    first = named + 1
    while first < min(len(parts), named + 1 + BELOW) and is_above(parts[first], typical):
        first += 1
    if first == min(len(parts), named + 1 + BELOW):
        first = named + 1
    return TextLayout(separator, tuple(parts[named]), named + 1, first + 1)


def are_names(row: list[str]) -> bool:
    return len(list(filter(None, row))) > 1 and not numbers(row)


def is_above(row: list[str], typical: float) -> bool:
    """Returns whether a line is still above the rows."""
    if row and VULCAN.match(row[0]):
        return True
    return typical >= 2 and numbers(row) == 0 and (not row or any(row))


def numbers(row: list[str]) -> int:
    return len([field for field in row if NUMBER.fullmatch(field)])


def split(line: str, separator: str) -> list[str]:
    """Returns the fields of a line without blanks around them."""
    if not line.strip():
        return []
    if separator == " ":
        return line.split()
    try:
        return [field.strip() for field in next(csv.reader([line], delimiter=separator))]
    except (csv.Error, StopIteration):
        return []

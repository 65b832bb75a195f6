"""Errors of the audit."""

from __future__ import annotations

import re
from collections.abc import Sequence
from typing import Any, Optional, TypeVar

# Characters that end a line, by str.splitlines.
LINE_ENDS = re.compile("[\n\r\v\f\x1c\x1d\x1e\x85\u2028\u2029]")
# A longer sentence quotes a whole file: its middle is left out.
MOST_LETTERS = 2_000


class AuditError(Exception):
    """A folder cannot be audited, or its results differ from the recalculation.

    Parameters
    ----------
    text : str
        What is wrong, with the file, on one line.
    details : sequence of str
        Further lines.
    """

    def __init__(self, text: str, details: Sequence[str] = ()) -> None:
        self.text, self.details = text, tuple(details)
        super().__init__("\n  ".join(map(on_one_line, (text, *details))))

    def __reduce__(self) -> tuple[Any, ...]:
        return type(self), (self.text, self.details), self.__dict__


class PackageError(AuditError):
    """A package that reads an input is not installed."""


Part = TypeVar("Part")


def demanded(part: Optional[Part], name: str) -> Part:
    """Returns the part of project or results that a rule verifies. Raises AuditError if it is missing."""
    if part is None:
        raise AuditError(f"{name}: is missing, and a rule verifies it: run pitplan again")
    return part


def on_one_line(text: str) -> str:
    """Returns a sentence on one line, of MOST_LETTERS at most. A line's end in a name is shown as Python writes it."""
    half = MOST_LETTERS // 2 - 3
    short = text if len(text) <= MOST_LETTERS else f"{text[:half]} [..] {text[-half:]}"
    return LINE_ENDS.sub(lambda end: end[0].encode("unicode_escape").decode(), short)

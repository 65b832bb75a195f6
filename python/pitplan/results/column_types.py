"""What a column of a written table is: its unit, its decimals in files, and how it is shown."""

from __future__ import annotations

import re
from dataclasses import dataclass, replace
from itertools import chain
from typing import Optional

from pitplan.config.periods import PERIOD, YEAR

THOUSANDS = "#,##0"
CAPITALS = "ABCDEFGHIJKLMNOPQRSTUVWXYZ"


@dataclass(frozen=True)
class Unit:
    """A unit of columns.

    Attributes
    ----------
    text : str
        As docs/FORMATS.md calls it.
    decimals : int, optional
        Decimals in files; None: numbers are written as they are.
    places : int
        Decimals where the column is shown.
    sheet : str
        Number format in workbooks.
    """

    text: str
    decimals: Optional[int] = None
    places: int = 0
    sheet: str = THOUSANDS


TEXT, COUNT, NUMBER = Unit("text"), Unit("number"), Unit("number", sheet="General")
FACTOR = Unit("factor", 3, 2, "General")
METRES = Unit("m", 3, 0, "General")
TONNES = Unit("t", 3, 2)
METAL = Unit("t or g", 3, 2, "#,##0.00")
GRADE = Unit("as in the table", 6, 3, "0.000")
RATIO = Unit("t/t", 6, 2, "0.00")
YEARS, WHOLE_YEARS = Unit("years", 6, 1, "0.0"), Unit("years", None, 0, "0.0")
MONEY, EXACT_MONEY = Unit("currency", 3, 2), Unit("currency", 9)
SHARE = Unit("share", 9, 2, "0.0000")
GIVEN = Unit("share", None, 2, "0.0000")
PRICE, AMOUNT = Unit("currency per t or g"), Unit("that of the amount")


@dataclass(frozen=True)
class Column:
    """A column of a written table.

    Attributes
    ----------
    name : str
        In files, with words in capitals that stand for others.
    holds : str
        What it holds.
    heading : str
        Where it is shown, without unit; "" if it never is. METAL and PROCESS stand for the name.
    when : str
        When a table has it; "" if always.
    places : int, optional
        Decimals where it is shown, if not those of its unit.
    """

    name: str
    unit: Unit
    holds: str
    heading: str = ""
    when: str = ""
    places: Optional[int] = None


@dataclass(frozen=True)
class TableDeclaration:
    """A written table: its file, what a row is, its columns in order, and if its numbers are not rounded to decimals, to how many
    significant digits (0: they are written in full)."""

    file: str
    rows: str
    columns: tuple[Column, ...]
    digits: Optional[int] = None

    def find(self, name: str) -> Optional[Column]:
        """Returns a column by its name in files, or by its own; None if the table has none. The number of a period is a column `year` too."""
        if name == PERIOD:
            found = self.find(YEAR)
            return found and replace(found, heading=PERIOD)
        exact = (it for it in self.columns if it.name == name)
        alike = (it for it in self.columns if re.fullmatch(re.sub("[A-Z]+", ".+", it.name), name))
        return next(chain(exact, alike), None)

    def column(self, name: str) -> Column:
        """Returns a column by its name, as `find` does. Raises KeyError if the table has none."""
        found = self.find(name)
        if found is None:
            raise KeyError(f"{self.file} has no column {name}: add it to pitplan/results/columns.py")
        return found

    def heading(self, name: str) -> str:
        """Returns how a column is shown, with the metal or process that its name has."""
        column = self.column(name)
        subject = name.removeprefix(column.name.rstrip(CAPITALS))
        return column.heading.replace("METAL", subject).replace("PROCESS", subject)

    @property
    def number_format(self) -> str:
        """How numbers are written, for %, if the table has significant digits."""
        return f"%.{self.digits}g"

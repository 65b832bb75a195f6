"""`[[periods]]`: the periods of a mine, their lengths, and what differs between them.

Periods are numbered from 1. Unless an entry sets `period_months` all of them are years, and most of the code says year for a period.
"""

from __future__ import annotations

import csv
import io
from collections.abc import Callable
from dataclasses import dataclass, field
from decimal import Decimal, InvalidOperation
from functools import cached_property
from pathlib import Path
from typing import Any, Optional, TypeVar

import numpy as np
from numpy.typing import NDArray

from pitplan.errors import PlanError

from .economics import MOST_YEARS
from .keys import amount, by_name, key, number, whole
from .material import FEED_BY_PROCESS, LIMITS, FeedGrade, NamedLimit
from .toml_text import Section

Value = TypeVar("Value")
YEAR, PERIOD = "year", "period"
MONTHS = 12
# The months of periods that are parts of a year.
PARTS = (1, 2, 3, 4, 6)


@dataclass(frozen=True)
class Period:
    """An entry of `[[periods]]`. What it leaves out is as in the other sections."""

    years: int = key(
        whole(1, MOST_YEARS),
        f"how many years the entry lasts, {MOST_YEARS:,} in all",
        0,
        "years",
        otherwise="those of one period",
    )
    period_months: int = key(
        whole(1, MOST_YEARS * MONTHS).where(
            lambda it: it % MONTHS == 0 or it in PARTS,
            "found {}, expected 1, 2, 3, 4, 6, 12 or a multiple of 12",
            schema={"anyOf": [{"enum": [*PARTS]}, {"type": "integer", "multipleOf": MONTHS, "minimum": MONTHS}]},
            range="",
        ),
        "length of a period: 1, 2, 3, 4, 6, 12 or a multiple of 12",
        MONTHS,
        "months",
        label="Length of a period",
        is_quiet=True,
        is_seldom=True,
    )
    mining_capacity: Optional[float] = key(
        amount(), "mining capacity; requires that of `[shells]`", None, "t mined/year", otherwise=""
    )
    processing_capacity: Optional[float] = key(
        amount(), "processing capacity, without `[[processes]]`", None, "t of mill feed/year", otherwise=""
    )
    capacity: dict[str, float] = key(
        by_name(amount()), "the same by process: `{ mill = 6e6 }`", {}, "t of mill feed/year", otherwise=""
    )
    minimum: dict[str, float] = key(
        by_name(amount()), "with the names of `[schedule] minimum`; schedules only", {}, "per year", otherwise=""
    )
    feed: tuple[FeedGrade, ...] = key(
        FEED_BY_PROCESS, "[limits of the feed](#limits-of-the-feed); with `[[processes]]` by process", (), otherwise=""
    )
    stockpiles: tuple[NamedLimit, ...] = key(
        LIMITS, "`{ low_grade = { min = .., max = .. } }`", (), "t of feed at the end", otherwise=""
    )
    dumps: tuple[NamedLimit, ...] = key(
        LIMITS, "`{ north = { min = .., max = .. } }`", (), "t of waste/year", otherwise=""
    )
    prices: dict[str, Decimal] = key(
        by_name(number(0)), "by metal, in the unit of its price", {}, "{currency}/{per}", label="Price", otherwise=""
    )
    mining_cost_factor: Optional[Decimal] = key(
        number(0), "factor of the mining cost", None, "times the cost", otherwise="1", is_seldom=True
    )
    processing_cost_factor: Optional[Decimal] = key(
        number(0), "factor of the processing cost", None, "times the cost", otherwise="1", is_seldom=True
    )
    selling_cost_factor: Optional[Decimal] = key(
        number(0), "factor of the selling cost", None, "times the cost", otherwise="1", is_seldom=True
    )
    fixed_cost_per_year: Optional[Decimal] = key(
        number(0), "while the mine runs", None, "{currency}/year", label="Fixed cost", otherwise=""
    )
    capex: Decimal = key(number(0), "at the start of its first period", Decimal(0), "{currency}", is_quiet=True)

    def __post_init__(self) -> None:
        object.__setattr__(self, "years", self.years or -(-self.period_months // MONTHS))

    @property
    def count(self) -> int:
        return self.years * MONTHS // self.period_months

    @property
    def length(self) -> float:
        """The length of each of its periods in years."""
        return self.period_months / MONTHS


@dataclass(frozen=True)
class Calendar:
    """The entries one after the other, and the table that they were read from; the last period continues. Without any, all periods are years as
    in the other sections."""

    periods: tuple[Period, ...] = ()
    file: Optional[Path] = field(default=None, compare=False)

    def __bool__(self) -> bool:
        return bool(self.periods)

    @cached_property
    def listed(self) -> tuple[Period, ...]:
        return tuple(period for period in self.periods for _ in range(period.count))

    @property
    def is_yearly(self) -> bool:
        return all(it.period_months == MONTHS for it in self.periods)

    @property
    def word(self) -> str:
        """What a period is called in tables, figures and messages."""
        return YEAR if self.is_yearly else PERIOD

    def length(self, number: int) -> float:
        """Returns the length in years of a period, from 1."""
        return self.listed[min(number, len(self.listed)) - 1].length if self.periods else 1.0

    def lengths(self, count: int) -> NDArray[np.float64]:
        """Returns the length of each period in years, shape (count)."""
        if not self.periods:
            return np.ones(count)
        found = np.array([it.length for it in self.listed])
        return np.asarray(found[np.minimum(np.arange(count), len(found) - 1)])

    def ends(self, count: int) -> NDArray[np.float64]:
        """Returns the end of each period in years, shape (count)."""
        return np.asarray(np.round(np.cumsum(self.lengths(count)) * MONTHS) / MONTHS)

    def starts(self, count: int) -> NDArray[np.float64]:
        """Returns the start of each period in years, shape (count)."""
        return np.concatenate([[0.0], self.ends(count)[:-1]])[:count]

    def time(self, place: float) -> float:
        """Returns the years until the end of `place` periods; a fraction is a part of the last one."""
        whole = int(place)
        return float(self.ends(whole)[-1] if whole else 0.0) + (place - whole) * float(self.lengths(whole + 1)[-1])

    def span(self, count: int) -> float:
        """Returns the years that the first periods last, an int if they are whole."""
        found = self.time(count)
        return int(found) if found.is_integer() else round(found, 6)

    def within(self, years: int) -> Optional[int]:
        """Returns the number of periods of the first years; None if a period lasts beyond them."""
        most = years * MONTHS
        ends = np.rint(self.ends(most) * MONTHS)
        return int(np.searchsorted(ends, most)) + 1 if most in ends else None

    def by_year(self, value: Callable[[Period], Optional[Value]], otherwise: Value) -> tuple[Value, ...]:
        """Returns a value of each period, and the last one continues; `otherwise` where an entry has no value."""
        found = (value(period) for period in self.listed)
        return tuple(otherwise if it is None else it for it in found) or (otherwise,)

    def by_name(self, values: Callable[[Period], dict[str, Value]], name: str, otherwise: Value) -> tuple[Value, ...]:
        """Returns the value of a name in each period, as `by_year` does."""
        return self.by_year(lambda period: values(period).get(name), otherwise)

    def has(self, value: Callable[[Period], object]) -> bool:
        return any(value(period) not in (None, {}, 0, ()) for period in self.periods)

    @property
    def capex(self) -> tuple[tuple[int, Decimal], ...]:
        """The first period, from 1, and the amount of each entry that spends something."""
        found, number = [], 1
        for period in self.periods:
            found += [(number, period.capex)] if period.capex else []
            number += period.count
        return tuple(found)


# The row of a table below its header.
FIRST_ROW = 2
# The most letters of a table: a thousand periods have a tenth of them.
MOST_LETTERS = 10_000_000
# The keys whose values are tables of tables.
NESTED = ("feed", "stockpiles", "dumps")


def sections_of(path: Path) -> list[Section]:
    """Reads the entries of a CSV file with a header. A key by name has points in it, as `capacity.mill`; an empty field is left out. Raises
    PlanError, with file, row and column, if the file cannot be read, has no rows, or a field is not a number."""
    try:
        with open(path, encoding="utf-8-sig", newline="") as file:
            text = file.read(MOST_LETTERS + 1)
        if len(text) > MOST_LETTERS:
            raise PlanError(
                f"{path}: has more than {MOST_LETTERS:,} letters, expected a row for each period that differs"
            )
        rows = list(csv.DictReader(io.StringIO(text, newline="")))
    except csv.Error as error:
        raise PlanError(f"{path}: cannot be read: {error}") from error
    except (OSError, UnicodeDecodeError) as error:
        why = getattr(error, "strerror", None) or "expected text in UTF-8"
        raise PlanError(f"{path}: cannot be read: {why}") from error
    if not rows:
        raise PlanError(f"{path}: found no rows, expected a header and a row for each period that differs")
    return [Section(str(path), f"row {row}", entry_of(fields, path, row)) for row, fields in enumerate(rows, FIRST_ROW)]


def entry_of(fields: dict[Any, Any], path: Path, row: int) -> dict[str, Any]:
    if None in fields or None in fields.values():
        raise PlanError(f"{path} row {row}: found another number of fields than the header has columns")
    found: dict[str, Any] = {}
    for column, text in fields.items():
        if not text.strip():
            continue
        # `feed.mill.as_ppm.max` has four keys down to the number, others two at most: names of metals may have points.
        names, place = column.strip().split("."), found
        *above, last = names if names[0] in NESTED else column.strip().split(".", 1)
        for name in above:
            place = place.setdefault(name, {})
        place[last] = number_of(text.strip(), f"{path} row {row} column {column}")
    return found


def number_of(text: str, where: str) -> Any:
    """Returns a number as TOML would read it: an int if it is whole, otherwise a Decimal."""
    try:
        value = Decimal(text)
    except InvalidOperation:
        raise PlanError(f'{where}: found "{text}", expected a number with a point, or nothing') from None
    if not value.is_finite():
        raise PlanError(f'{where}: found "{text}", expected a number')
    return int(value) if value == value.to_integral_value() and abs(value) < 10**18 else value

"""A project as the audit's own reader (`project_file.py`) gives it: a dictionary for each section, what follows from several keys, and its periods."""

from __future__ import annotations

from collections.abc import Mapping
from dataclasses import dataclass, field, replace
from decimal import Decimal
from typing import Any, Optional

import numpy as np

MONTHS = 12


def periods_in(entry: Mapping[str, Any]) -> int:
    """Returns the number of periods in an entry of `[[periods]]`."""
    return int(entry["years"]) * MONTHS // int(entry["period_months"])


@dataclass(frozen=True)
class Calendar:
    """The entries of `[[periods]]`, one after the other; the last period continues."""

    periods: tuple[Mapping[str, Any], ...] = ()

    def period(self, number: int) -> Optional[Mapping[str, Any]]:
        """Returns the entry of a period, from 1; None without any."""
        for entry in self.periods:
            number -= periods_in(entry)
            if number <= 0:
                return entry
        return self.periods[-1] if self.periods else None

    @property
    def count(self) -> int:
        return sum(map(periods_in, self.periods))

    @property
    def word(self) -> str:
        """The name of a period in tables."""
        return "year" if all(entry["period_months"] == MONTHS for entry in self.periods) else "period"

    def months(self, number: int) -> int:
        entry = self.period(number)
        return MONTHS if entry is None else int(entry["period_months"])

    def length(self, number: int) -> float:
        return self.months(number) / MONTHS

    def lengths(self, count: int) -> np.ndarray:
        """Returns the lengths of the first periods in years, shape (count,)."""
        return np.array([self.length(number) for number in range(1, count + 1)])

    def end(self, number: int) -> float:
        """Returns the end of a period in years; 0 of period 0."""
        if not self.periods:
            return float(number)
        return sum(self.months(each) for each in range(1, number + 1)) / MONTHS

    def time(self, place: float) -> float:
        """Returns the years until `place` periods are over; the last one may be a part."""
        return self.end(int(place)) + (place - int(place)) * self.length(int(place) + 1)


# A section, or an entry of one, by the names of its keys.
Section = Mapping[str, Any]
# Mass of metal per tonne of ore and unit of grade, in tonnes, or grams if the grade is in grams per tonne.
GRADE_UNITS = {"percent": Decimal("0.01"), "fraction": Decimal("1"), "gram_per_tonne": Decimal("1")}
# The years of a cash flow that are counted.
MOST_YEARS = 1000


@dataclass(frozen=True)
class Project:
    """A project by its sections, None for one that is left out.

    Attributes
    ----------
    calendar : Calendar
        The entries of `[[periods]]`.
    accepts : Section, optional
        What the process accepts, in a project with one process of several.
    kept : tuple of str
        Columns of the table that are kept besides those that the sections name.
    elsewhere : tuple of str
        Columns that sections name and the table need not have, since realisations have them.
    """

    table: Section
    grid: Section
    economics: Section
    metals: tuple[Section, ...]
    slopes: Section
    shells: Section
    calendar: Calendar = Calendar()
    processes: tuple[Section, ...] = ()
    scenarios: Optional[Section] = None
    constraints: Optional[Section] = None
    pushbacks: Optional[Section] = None
    schedule: Optional[Section] = None
    haulage: Optional[Section] = None
    classes: Mapping[str, str] = field(default_factory=dict)
    cash_flow: Section = field(default_factory=dict)
    dumps: tuple[Section, ...] = ()
    price_paths: Optional[Section] = None
    accepts: Optional[Section] = None
    kept: tuple[str, ...] = ()
    elsewhere: tuple[str, ...] = ()

    @property
    def by_process(self) -> tuple[Project, ...]:
        """The project with each of its processes as the only one; itself without `[[processes]]`."""
        return tuple(self.with_process(process) for process in self.processes) or (self,)

    def with_process(self, process: Section) -> Project:
        metals = [{**it, "recovery": process["recovery"].get(it["name"], Decimal(0))} for it in self.metals]
        for metal in metals:
            sold_by = metal["smelter"]["processes"] if metal["smelter"] else ""
            if isinstance(sold_by, tuple) and process["name"] not in sold_by:
                metal["smelter"] = None
        economics = {**self.economics, "processing_cost": process["cost"]}
        return replace(self, economics=economics, metals=tuple(metals), processes=(), accepts=process["accepts"])

    @property
    def feed_grades(self) -> tuple[Section, ...]:
        """The limits on head grades of all processes; of one that only periods have, neither side."""
        of_one = self.schedule["feed"] if self.schedule else ()
        found = [*of_one, *(it for process in self.processes for it in process["feed"])]
        for it in [it for period in self.calendar.periods for it in period["feed"]]:
            if not any(limit_key(it) == limit_key(other) for other in found):
                found.append({**it, "min": None, "max": None})
        return tuple(found)

    def grades_by_period(self, limit: Section, side: str, count: int) -> list[Optional[float]]:
        """Returns the limit of a head grade, its min or its max, in each of the first periods."""
        found = []
        for number in range(1, count + 1):
            period = self.calendar.period(number)
            own = [it[side] for it in (period["feed"] if period else ()) if limit_key(it) == limit_key(limit)]
            found.append(limit[side] if not own or own[0] is None else own[0])
        return found

    @property
    def adjusting(self) -> list[str]:
        """The columns of the table with cost adjustment factors, each once."""
        return [name for name in dict.fromkeys((self.economics["mcaf"], self.economics["pcaf"])) if name]

    @property
    def penalised(self) -> list[str]:
        """The columns of the elements that smelters penalise, of each metal in turn."""
        of_metals = [it["column"] for metal in self.metals if metal["smelter"] for it in metal["smelter"]["penalties"]]
        return [*self.kept, *of_metals]

    @property
    def of_dumps(self) -> list[str]:
        """The columns of the grades by which dumps accept blocks."""
        return [grade["column"] for dump in self.dumps for grade in dump["accepts"]["grades"]]

    @property
    def without_grades(self) -> Project:
        """The project without metals, whose table keeps penalised elements."""
        return replace(
            self, metals=(), kept=tuple(self.penalised), elsewhere=tuple(metal["column"] for metal in self.metals)
        )

    @property
    def cuts_blocks(self) -> bool:
        """Whether a topography or an as-mined surface cuts blocks."""
        return self.table["topography"] is not None or bool(self.constraints and self.constraints["as_mined"])

    @property
    def codes(self) -> list[str]:
        """The columns of the table with codes: id, rock type, domain and resource class."""
        return [name for key in ("id", "rock_type", "domain", "class") if (name := self.table[key])]

    @property
    def columns(self) -> list[str]:
        """The columns of the table that the project names."""
        table, rules = self.table, self.constraints
        tonnes = [table["density"], table["volume"]] if table["density"] else [table["tonnes"]]
        marks = [rules["must_mine"], rules["exclude"]] if rules else []
        limited = [it["column"] for it in self.schedule["limits"]] if self.schedule else []
        limited += [it["column"] for it in self.feed_grades if it["code"] is None]
        limited += [*self.penalised, *self.of_dumps]
        grades = [metal["column"] for metal in self.metals]
        named = [table["x"], table["y"], table["z"], *tonnes, *self.codes, *grades, *self.adjusting, *marks, *limited]
        return [name for name in dict.fromkeys(named) if name and name not in self.elsewhere]


def limit_key(limit: Section) -> tuple[str, str, Optional[str]]:
    """Returns the process of a limit on a head grade, its column, or the key of [table] for codes, and the code."""
    return limit["process"], limit["column"], limit["code"]


def opening_tonnes(stockpile: Section) -> float:
    return float(stockpile["opening"]["tonnes"]) if stockpile["opening"] else 0.0

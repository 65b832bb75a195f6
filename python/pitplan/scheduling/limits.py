"""All limits of a schedule: amounts that `[schedule]`, `[shells]` and `[[processes]]` limit, head grades and shares of codes in feed, the vertical advance,
and what lies on stockpiles and goes to dumps; and their names in tables."""

from __future__ import annotations

from collections.abc import Iterator
from dataclasses import dataclass, field, replace
from typing import Optional

import numpy as np
from numpy.typing import NDArray

from pitplan.config.material import Dump, FeedGrade, NamedLimit, Stockpile
from pitplan.config.periods import Calendar, Period
from pitplan.config.project import Project
from pitplan.config.schedule import FEED, TOTAL, ScheduleRules
from pitplan.config.table import CLASS, DOMAIN, ROCK_TYPE
from pitplan.pushbacks.bench_table import ORE, ROCK, PushbackBenches

MAX, MIN, RUNNING = "max", "min", "running"
# How the names of limits begin: of the vertical advance of a pushback, of what lies on a stockpile, of what a dump takes in a year, and of what it
# holds at the end of one.
ADVANCE, STOCK, DUMP, DUMPED = "vertical_advance_", "stockpile_", "dump_", "dumped_"
OF_PLACES = (STOCK, DUMP, DUMPED)
# How the names of sums of the table's columns begin.
SUM = "sum_"
# By name of the limit and side the price of a unit in each year, discounted: shape (years,).
Prices = dict[tuple[str, str], NDArray[np.float64]]


def whole_price(prices: Prices, name: str, years: int) -> NDArray[np.float64]:
    """Returns what a unit more of a limit earns in each year, discounted, shape (years,): as a maximum, and as one that shows how far the mine runs in the
    year, less its price as a minimum."""
    most, runs, least = (prices.get((name, side), np.zeros(years)) for side in (MAX, RUNNING, MIN))
    return most + runs - least


@dataclass(frozen=True)
class Limit:
    """The most, or the least, of an amount in each period.

    Attributes
    ----------
    name : str
        The amount as tables print it, such as feed_tonnes, recovered_copper, stockpile_rom or dump_north.
    side : str
        MAX or MIN.
    amount : float
        Per year, or at the end of a period.
    by_period : tuple of float
        The amounts of periods that differ, from the first; the last one continues. A maximum that does not apply is infinite, and a minimum 0.
    ramp_up : tuple of float
        The shares of `amount` in the first periods; the last one continues.
    calendar : Calendar, optional
        The lengths of the periods, by which amounts per year are multiplied; None: the limit holds at the end of each period.
    """

    name: str
    side: str
    amount: float
    by_period: tuple[float, ...] = ()
    ramp_up: tuple[float, ...] = (1.0,)
    calendar: Optional[Calendar] = Calendar()

    def per_year(self, count: int) -> NDArray[np.float64]:
        """Returns the amount per year in each of the first periods, shape (count,)."""
        listed = np.array(self.by_period or [self.amount * share for share in self.ramp_up], dtype=float)
        return listed[np.minimum(np.arange(count), len(listed) - 1)]

    def of_years(self, count: int) -> NDArray[np.float64]:
        """Returns the amount of each of the first periods, shape (count,)."""
        return self.per_year(count) * (1.0 if self.calendar is None else self.calendar.lengths(count))

    def of_year(self, number: int) -> float:
        """Returns the amount of a period, numbered from 1."""
        return float(self.of_years(number)[-1])

    @property
    def greatest(self) -> float:
        """The greatest amount of any period."""
        lengths = () if self.calendar is None else self.calendar.listed
        return float(self.of_years(max(1, len(lengths), len(self.ramp_up), len(self.by_period))).max())

    def in_years(self, count: int) -> NDArray[np.bool_]:
        """Returns whether it can bind in each of the first periods, shape (count,)."""
        amounts = self.per_year(count)
        return np.isfinite(amounts) if self.side == MAX else amounts > 0

    def within(self, some: NDArray[np.bool_]) -> Limit:
        """Returns the limit in some of the first periods alone."""
        free = np.inf if self.side == MAX else 0.0
        return replace(self, by_period=tuple(np.where(some, self.per_year(len(some)), free).tolist()))


def shown(limit: Optional[Limit], count: int) -> NDArray[np.float64]:
    """Returns the amount of a limit in each of the first periods as tables have it, shape (count,): nan where none exists."""
    amounts = np.full(count, np.nan) if limit is None else limit.of_years(count)
    return np.where(np.isfinite(amounts), amounts, np.nan)


@dataclass(frozen=True)
class GradeLimit(Limit):
    """A limit on a head grade, or on the share of a code in the feed, in the periods in which it is the same: the content above a maximum, or below a minimum,
    such as grade_mill_as_ppm_max, is at most 0.

    Attributes
    ----------
    shown : str
        The name without the grade.
    process : int
        The number of the process.
    column : str
        The column of the table with the grade, or with codes.
    code : str, optional
        The code whose share of the feed is limited.
    sign : float
        1 for a maximum, -1 for a minimum.
    grade : float
    """

    shown: str = ""
    process: int = 0
    column: str = ""
    code: Optional[str] = None
    sign: float = 1.0
    grade: float = 0.0


@dataclass(frozen=True)
class Limits:
    """The limits of a schedule.

    Attributes
    ----------
    most, least : dict of str to Limit
        Maxima and minimums of amounts, by name.
    advance : Limit, optional
        The most benches by which a pushback sinks; None: any.
    places : dict of (str, str) to Limit
        What lies on stockpiles, and what dumps take and hold, by name and side.
    """

    most: dict[str, Limit]
    least: dict[str, Limit] = field(default_factory=dict)
    advance: Optional[Limit] = None
    places: dict[tuple[str, str], Limit] = field(default_factory=dict)

    @property
    def names(self) -> list[str]:
        """The limited amounts."""
        return list(dict.fromkeys([*self.most, *self.least]))

    @property
    def asks_least(self) -> bool:
        """Whether there is a minimum of an amount, a stockpile or a dump."""
        return bool(self.least) or any(side == MIN for _, side in self.places)

    @property
    def record(self) -> dict[str, dict[str, float]]:
        """The amounts as the project gives them, for records."""
        most, least = ({name: it.amount for name, it in limits.items()} for limits in (self.most, self.least))
        return {"limits": most} | ({"least": least} if least else {})

    def of_year(self, number: int) -> NDArray[np.float64]:
        """Returns the maxima of amounts in a year, numbered from 1, shape (maxima,)."""
        return np.array([it.of_year(number) for it in self.most.values()], dtype=float)

    def of_years(self, count: int) -> NDArray[np.float64]:
        """Returns the maxima of amounts in the first years, shape (count, maxima)."""
        return np.array([it.of_years(count) for it in self.most.values()]).reshape(len(self.most), count).T

    def sinking(self, count: int) -> NDArray[np.float64]:
        """Returns the most benches by which a pushback sinks in each of the first years, shape (count,); infinite without a limit."""
        return np.full(count, np.inf) if self.advance is None else self.advance.of_years(count)

    def of_place(self, name: str, side: str, count: int) -> NDArray[np.float64]:
        """Returns the limit of a stockpile or dump in each of the first years, shape (count,): without one infinite as a maximum, and 0 as a minimum."""
        limit = self.places.get((name, side))
        return np.full(count, np.inf if side == MAX else 0.0) if limit is None else limit.of_years(count)

    def parts(self, name: str) -> list[Limit]:
        """Returns the maxima whose sum limits an amount: its own, or of the feed of several processes that of each; none without a limit."""
        return (
            [self.most[name]]
            if name in self.most
            else [it for it in self.most.values() if it.name.startswith(f"{name}_")]
        )

    def amounts(self, benches: PushbackBenches) -> NDArray[np.float64]:
        """Returns what each bench takes of each maximum, shape (benches, maxima)."""
        return np.array([benches.of(name) for name in self.most]).reshape(len(self.most), len(benches)).T


def periods_of(project: Project, rules: ScheduleRules) -> Optional[int]:
    """Returns the number of periods of `[schedule] years`; None without it."""
    return None if rules.years is None else project.shells.calendar.within(rules.years)


def limits_of(project: Project, rules: ScheduleRules) -> Limits:
    """Returns the limits of a project except for those on head grades: what `[schedule]` leaves out is as in `[shells]`."""
    calendar, rate = project.shells.calendar, rules.vertical_advance_rate
    return Limits(
        {it.name: it for it in maxima_of(project, rules)},
        {it.name: it for it in minimums_of(project, rules)},
        None if rate is None else Limit(ADVANCE, MAX, rate, calendar=calendar),
        of_places(calendar, rules.stockpiles, project.dumps),
    )


def maxima_of(project: Project, rules: ScheduleRules) -> Iterator[Limit]:
    """Yields the capacities, and the maxima of metals and sums."""
    shells, calendar = project.shells, project.shells.calendar
    feed, rock = (
        rules.processing_capacity or shells.processing_capacity,
        rules.mining_capacity or shells.mining_capacity,
    )
    of_processes, by_period = {f"{ORE}_{it.name}": it.capacity for it in project.processes}, dict[
        str, tuple[float, ...]
    ]()
    if calendar.has(lambda it: it.mining_capacity is not None):
        by_period[ROCK] = calendar.by_year(lambda it: it.mining_capacity, rock or np.inf)
    if calendar.has(lambda it: it.processing_capacity is not None):
        by_period[ORE] = calendar.by_year(lambda it: it.processing_capacity, feed)
    if calendar.has(lambda it: it.capacity):
        by_period |= dict(zip(of_processes, zip(*shells.capacities_by_year)))
    for name, amount in (of_processes or {ORE: feed}).items():
        yield Limit(name, MAX, amount, by_period.get(name, ()), rules.ramp_up, calendar)
    if rock is not None:
        yield Limit(ROCK, MAX, rock, by_period.get(ROCK, ()), calendar=calendar)
    for metal, amount in rules.max_metal_per_year.items():
        yield Limit(f"recovered_{metal}", MAX, amount, calendar=calendar)
    for it in rules.limits:
        if it.max is not None:
            yield Limit(f"{SUM}{it.name}", MAX, it.max, calendar=calendar)


def minimums_of(project: Project, rules: ScheduleRules) -> Iterator[Limit]:
    """Yields the minimums: those that `[[periods]]` sets, then the others."""
    calendar, names = project.shells.calendar, {FEED: ORE, TOTAL: ROCK}
    names |= {metal.name: f"recovered_{metal.name}" for metal in project.metals}
    names |= {it.name: f"{ORE}_{it.name}" for it in project.processes}
    listed = dict.fromkeys(name for period in calendar.periods for name in period.minimum)
    for name in [*listed, *(name for name, amount in rules.minimum.items() if amount > 0 and name not in listed)]:
        amount = rules.minimum.get(name, 0.0)
        by_period = calendar.by_name(lambda it: it.minimum, name, amount) if name in listed else ()
        ramp_up = rules.ramp_up if names[name].startswith(ORE) else (1.0,)
        yield Limit(names[name], MIN, amount, by_period, ramp_up, calendar)
    for it in rules.limits:
        if it.min:
            yield Limit(f"{SUM}{it.name}", MIN, it.min, calendar=calendar)


def of_places(
    calendar: Calendar, stockpiles: tuple[Stockpile, ...] = (), dumps: tuple[Dump, ...] = ()
) -> dict[tuple[str, str], Limit]:
    """Returns the limits of what lies on stockpiles at the end of each period, and of what dumps take per year and hold at the end, by name and side."""
    found = list[Limit]()
    for it in stockpiles:
        found += of_place(f"{STOCK}{it.name}", limits_in(calendar, "stockpiles", it.name), it.capacity, None)
    for dump in dumps:
        found += of_place(f"{DUMP}{dump.name}", limits_in(calendar, "dumps", dump.name), None, calendar)
        found += of_place(f"{DUMPED}{dump.name}", [], dump.capacity, None)
    return {(limit.name, limit.side): limit for limit in found}


def limits_in(calendar: Calendar, places: str, name: str) -> list[Optional[NamedLimit]]:
    """Returns what each listed period says of a stockpile or dump; nothing if none does."""
    found = [next((it for it in getattr(period, places) if it.name == name), None) for period in calendar.listed]
    return found if any(found) else []


def of_place(
    name: str, of_periods: list[Optional[NamedLimit]], capacity: Optional[float], calendar: Optional[Calendar]
) -> Iterator[Limit]:
    """Yields the maximum and the minimum of a place, if it has them; a period without a maximum has the capacity."""
    most = np.inf if capacity is None else capacity
    highs = tuple(most if it is None or it.max is None else it.max for it in of_periods)
    lows = tuple(0.0 if it is None or it.min is None else it.min for it in of_periods)
    if np.isfinite([most, *highs]).any():
        yield Limit(name, MAX, most, highs, calendar=calendar)
    if any(lows):
        yield Limit(name, MIN, 0.0, lows, calendar=calendar)


# Limits on head grades and on shares of codes in feed, by process and period: an amount, at most 0, for each side and
# each value that applies in some period.

GRADE = "grade_"
# Before the grade in the name of an amount that does not apply in all periods.
AT = "@"


def with_grades(limits: Limits, project: Project) -> Limits:
    """Returns the limits with those on head grades."""
    return replace(limits, most=limits.most | {it.name: it for it in grade_limits(project)})


def grade_limits(project: Project) -> list[GradeLimit]:
    """Returns the limits on head grades of all processes."""
    names = [process.name for process in project.processes] or [""]
    return [
        found
        for limit in project.feed_grades
        for side, base in ((MAX, limit.max), (MIN, limit.min))
        for found in of_side(project, limit, names.index(limit.process), side=side, base=base)
    ]


def of_side(
    project: Project, limit: FeedGrade, process: int, *, side: str, base: Optional[float]
) -> Iterator[GradeLimit]:
    """Yields the limits of a grade on one side, MAX or MIN, in the periods with each value."""

    def of_period(period: Period) -> Optional[float]:
        mine = [it for it in period.feed if it.key == limit.key]
        return getattr(mine[0], side) if mine else None

    shown, table = GRADE + "_".join([*limit.words, side]), project.table
    of_codes = {ROCK_TYPE: table.rock_type, DOMAIN: table.domain, CLASS: table.resource_class}
    column = limit.column if limit.code is None else str(of_codes[limit.column])
    by_period = [base if own is None else own for own in map(of_period, project.shells.calendar.listed)] or [base]
    for grade in dict.fromkeys(grade for grade in by_period if grade is not None):
        is_same = set(by_period) == {grade}
        yield GradeLimit(
            shown if is_same else f"{shown}{AT}{grade:.10g}",
            MAX,
            0.0,
            () if is_same else tuple(0.0 if it == grade else np.inf for it in by_period),
            shown=shown,
            process=process,
            column=column,
            code=limit.code,
            sign=1.0 if side == MAX else -1.0,
            grade=float(grade),
        )

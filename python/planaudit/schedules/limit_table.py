"""Recomputes limits.csv of a schedule: use, limits and shadow prices of each year."""

from __future__ import annotations

from collections.abc import Callable, Iterator
from dataclasses import dataclass
from functools import cached_property
from typing import Any, Optional

import numpy as np
import pandas as pd

from planaudit.inputs.answer import Answer
from planaudit.inputs.tables import read_table
from planaudit.schedules import dumps
from planaudit.schedules.discounts import discount
from planaudit.schedules.grade_limits import GradeLimit, grade_limits, most_of
from planaudit.schedules.lots import MILL, BlockAmounts
from planaudit.schedules.periods import stock_limits

FILE, ADVANCE, STOCK = "limits.csv", "vertical_advance_", "stockpile_"
# The last decimals of used amounts and limits, of utilisation, and of shadow prices.
AMOUNT, SHARE, PRICE = 0.6e-3, 1e-6, 1e-5
Limits = dict[str, tuple[np.ndarray, np.ndarray]]
# What a method uses of an amount by year, with its tolerance.
Used = Callable[[str], tuple[pd.Series, pd.Series]]


@dataclass(frozen=True)
class LimitTable:
    """limits.csv with what it must agree with.

    Attributes
    ----------
    answer : Answer
    limits : dict
        Minimum and maximum of each amount by year.
    prices : DataFrame, optional
        bound.csv; None if the linear programme was not solved.
    years : int
        The years that a schedule may have.
    """

    answer: Answer
    limits: Limits
    prices: Optional[pd.DataFrame]
    years: int = 1

    @cached_property
    def grades(self) -> dict[str, list[GradeLimit]]:
        """The limits on head grades by the name that limits.csv has."""
        found: dict[str, list[GradeLimit]] = {}
        for limit in grade_limits(self.answer.project):
            found.setdefault(limit.shown, []).append(limit)
        return found

    def price(self, name: str, year: int) -> float:
        """The shadow price of a limit in a year, in the money of the year: with what a unit more of it saves of the costs of running years."""
        if self.prices is None:
            return np.nan
        most, running, least = (self.by_side.get((name, year, side), 0.0) for side in ("max", "running", "min"))
        return (most + running - least) / discount(self.answer, year)

    def cutoff(self, process: str, year: int) -> float:
        """The cut-off of a process, "" for the only one, in a year: the price of a tonne of its feed."""
        found = self.price("feed_tonnes", year)
        return found + self.price(f"feed_tonnes_{process}", year) if process else found

    @cached_property
    def by_side(self) -> dict[tuple[str, int, str], float]:
        """The prices of bound.csv by limit, year and side."""
        assert self.prices is not None
        keys = zip(*(self.prices[name].tolist() for name in ("limit", "year", "side")))
        return dict(zip(keys, self.prices["price"].tolist()))

    def unlike_cutoffs(self, feed: pd.DataFrame) -> Iterator[str]:
        """Yields the rows of feed.csv whose cut-off is not the price of a tonne of the process's capacity."""
        names = {name or MILL: name for name in BlockAmounts(self.answer).processes}
        for row in feed.itertuples():
            due, said = self.cutoff(names[row.process], int(row.year)), float(row.cutoff)
            if not (abs(said - due) <= PRICE + 1e-6 * abs(due) or np.isnan(said) and np.isnan(due)):
                yield f"feed.csv: {row.method}, year {row.year}, {row.process}: cutoff {said:.10g} for {due:.10g}"

    def unlike(self, method: str, rows: pd.DataFrame, used: Used, last: int) -> Iterator[str]:
        """Yields differences of the rows of a method, whose last year is given."""
        rules = self.answer.project.schedule
        sinks = rules and rules["vertical_advance_rate"] and not self.answer.is_by_block
        numbers = np.unique(self.answer.said["pushback"].to_numpy()) if sinks else ()
        sinking = [f"{ADVANCE}{it}" for it in numbers if it > 0]
        shown = {it.name: name for name, limits in self.grades.items() for it in limits}
        finite = [
            shown.get(name, name)
            for name, (_, most) in self.limits.items()
            if np.isfinite(most).any() or name in self.minimums or name in shown
        ]
        # Limits hold in the years of the linear programme, and a method may have fewer.
        years = max(last, int(self.years))
        piles = stock_limits(self.answer.project, years)
        held = [f"{STOCK}{name}" for name, (least, most) in piles.items() if least.any() or np.isfinite(most).any()]
        held += list(dumps.limits_of(self.answer.project, years))
        due = {(name, year) for name in [*finite, *sinking, *held] for year in range(1, last + 1)}
        there = list(zip(rows["limit"], rows["year"]))
        if set(there) != due or len(there) != len(due):
            yield f"{FILE}: {method}: {len(there)} rows for {len(due)} limits by year, or others"
            return
        by_limit: dict[str, list[dict[str, Any]]] = {}
        for row in rows.to_dict("records"):
            by_limit.setdefault(str(row["limit"]), []).append(row)
        for name, of_one in by_limit.items():
            yield from self.unlike_limit(method, of_one, name, used)

    @property
    def minimums(self) -> list[str]:
        return [name for name, (least, _) in self.limits.items() if (least > 0).any()]

    def unlike_limit(self, method: str, rows: list[dict[str, Any]], name: str, used: Used) -> Iterator[str]:
        """Yields differences of the rows of a limit."""
        grades = self.grades.get(name)
        amounts, slack = used(grades[0].name if grades else name)
        for row in rows:
            number = int(row["year"])
            amount, loose = float(amounts.get(number, 0.0)), float(slack.get(number, 0.0))
            price, (least, most) = self.price(name, number), (np.nan, np.nan)
            if grades:
                amount, loose, least, most, price = self.of_grade(grades, number, (amount, loose), used)
            else:
                least, most = self.bounds(name, number)
            share = amount / most if not grades and most > 0 else np.nan
            expected = {
                "used": (amount, AMOUNT + loose + 1e-6 * abs(amount)),
                "minimum": (least, AMOUNT),
                "maximum": (most, AMOUNT),
                "utilisation": (share, SHARE + (loose + AMOUNT) / most if most > 0 else SHARE),
                "shadow_price": (price, PRICE + 1e-6 * abs(price) + (abs(price) * 1e-3 if grades else 0.0)),
            }
            for column, (value, tolerance) in expected.items():
                said = float(row[column])
                if not (abs(said - value) <= tolerance or np.isnan(said) and np.isnan(value)):
                    yield f"{FILE}: {method}, year {number}, {name}: {column} {said:.10g} for {value:.10g}"

    def of_grade(
        self, grades: list[GradeLimit], year: int, excess: tuple[float, float], used: Used
    ) -> tuple[float, float, float, float, float]:
        """Returns the head grade of a year with its tolerance, its minimum, its maximum and its price; `excess` is the amount of the first limit."""
        first, names = grades[0], BlockAmounts(self.answer).processes
        feed = float(used(f"feed {names.index(first.process)}")[0].get(year, 0.0))
        grade, loose = (
            (first.sign * excess[0] / feed + first.grade, excess[1] / feed) if feed > AMOUNT else (np.nan, 0.0)
        )
        holds = [it.grade for it in grades if most_of(self.answer.project, it, year)[-1] == 0]
        limit = holds[0] if holds else np.nan
        price = sum(self.price(it.name, year) * feed * it.sign for it in grades)
        return grade, loose, *((np.nan, limit) if first.sign > 0 else (limit, np.nan)), price

    def bounds(self, name: str, year: int) -> tuple[float, float]:
        """Returns minimum and maximum of a year; nan where none exists."""
        if name.startswith(ADVANCE):
            project = self.answer.project
            assert project.schedule is not None
            rate = float(project.schedule["vertical_advance_rate"] or np.nan)
            return np.nan, rate * project.calendar.length(year)
        if name.startswith(STOCK):
            piles = stock_limits(self.answer.project, max(year, int(self.years)))[name.removeprefix(STOCK)]
            most = float(piles[1][year - 1])
            return float(piles[0][year - 1]) if piles[0].any() else np.nan, most if np.isfinite(most) else np.nan
        of_dumps = dumps.limits_of(self.answer.project, max(year, int(self.years)))
        if name in of_dumps:
            least, most = (float(values[year - 1]) for values in of_dumps[name])
            return least if of_dumps[name][0].any() else np.nan, most if np.isfinite(most) else np.nan
        least, most = (float(values[year - 1]) for values in self.limits[name])
        return least if name in self.minimums else np.nan, most if np.isfinite(most) else np.nan


def read(answer: Answer) -> tuple[pd.DataFrame, Optional[pd.DataFrame]]:
    """Reads limits.csv, and bound.csv if there is one."""
    tables = answer.folder / "tables"
    bound = tables / "bound.csv"
    prices = read_table(bound, ["limit", "side"]) if bound.is_file() else None
    return read_table(tables / FILE, ["method", "limit"]), prices

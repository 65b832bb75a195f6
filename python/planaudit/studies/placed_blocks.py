"""The most that the blocks of a common schedule earn in a scenario with dumps, by a linear programme over all years."""

from __future__ import annotations

from collections.abc import Iterator, Mapping
from dataclasses import dataclass
from functools import cached_property
from typing import Optional

import numpy as np
import pandas as pd

from planaudit.schedules import dumps

CASH, FEED = "cash_flow", "feed_tonnes"
# By what a row may be missed, in the unit of its largest amount, and written tonnes may be rounded, as a share and in tonnes; and by what share the
# least excess may be exceeded.
HAIR, LEAST, SLIGHT = 1e-9, 1e-6, 1e-7


@dataclass(frozen=True)
class Row:
    """A limit: the amounts of some unknowns add up to at most `most`, or to more by an excess, if it may have one."""

    unknowns: np.ndarray
    amounts: np.ndarray
    most: float
    is_open: bool = False


@dataclass(frozen=True)
class PlacedBlocks:
    """Mined blocks in a scenario, whose destinations are unknown.

    Attributes
    ----------
    year : int array, shape (blocks,)
        The year in which each is mined, from 1.
    held : list of DataFrame
        What blocks add to amounts in each destination: a row per block.
    discounts : array, shape (years,)
    limits : mapping of str to array
        The most of amounts by year, shape (years,).
    places : mapping of str to pair of arrays
        Minimum and maximum of dumps by year.
    """

    year: np.ndarray
    held: list[pd.DataFrame]
    discounts: np.ndarray
    limits: Mapping[str, np.ndarray]
    places: Mapping[str, dumps.Sides]

    def of(self, name: str) -> np.ndarray:
        """Returns an amount by unknown: block by block, there by destination."""
        return np.stack([it[name].to_numpy(dtype=float) for it in self.held], axis=1).ravel()

    @cached_property
    def years(self) -> np.ndarray:
        """The year of each unknown."""
        return np.repeat(self.year, len(self.held))

    @cached_property
    def rows(self) -> list[Row]:
        return [*self.of_limits(), *self.of_dumps()]

    def of_limits(self) -> Iterator[Row]:
        """Yields the limits of years. What all destinations use is mined anyway."""
        for name, most in self.limits.items():
            amounts = self.of(name)
            least = amounts.reshape(-1, len(self.held)).min(axis=1)
            for year in np.unique(self.year):
                due = max(float(most[min(year, len(most)) - 1]), float(least[self.year == year].sum()))
                if np.isfinite(due):
                    yield self.row(amounts, self.years == year, due)

    def of_dumps(self) -> Iterator[Row]:
        """Yields the maxima of dumps. Each may have an excess."""
        for name, (_, most) in self.places.items():
            is_total = name.startswith(dumps.DUMPED)
            amounts = self.of(name.replace(dumps.DUMPED, dumps.DUMP, 1))
            if is_total:
                yield self.row(amounts, self.years > 0, float(most[-1]), is_open=True)
                continue
            for year in [it for it in np.unique(self.year) if np.isfinite(most[it - 1])]:
                yield self.row(amounts, self.years == year, float(most[year - 1]), is_open=True)

    def row(self, amounts: np.ndarray, some: np.ndarray, most: float, is_open: bool = False) -> Row:
        unknowns = np.flatnonzero(some & (amounts != 0))
        return Row(unknowns, amounts[unknowns], most, is_open)

    def fixed(self, name: str, said: np.ndarray) -> Iterator[Row]:
        """Yields that an amount of each year is the written one, except for what was rounded."""
        amounts = self.of(name)
        for year in np.unique(self.year):
            loose = LEAST + HAIR * abs(said[year - 1])
            for sign in (1.0, -1.0):
                yield self.row(sign * amounts, self.years == year, sign * said[year - 1] + loose)

    @property
    def least_excess(self) -> float:
        """The least excess of all dumps, in tonnes; nan if HiGHS finds none."""
        if self.most(self.rows, 0.0) is not None:
            return 0.0
        found = self.most(self.rows, None)
        return np.nan if found is None else -found

    def earned(self, excess: float) -> float:
        """Returns the most that is earned, discounted, with at most this excess; nan if HiGHS finds none."""
        found = self.most(self.rows, excess * (1 + SLIGHT) + HAIR)
        return np.nan if found is None else found

    def earned_as_written(self, said: Mapping[str, np.ndarray], excess: float) -> float:
        """Returns the same if dumps and feed of each year take what the table says."""
        rows = [row for name, by_year in said.items() for row in self.fixed(name, by_year)]
        found = self.most([*self.rows, *rows], excess * (1 + SLIGHT) + LEAST * (1 + len(self.rows)))
        return np.nan if found is None else found

    def most(self, rows: list[Row], excess: Optional[float]) -> Optional[float]:
        """Returns the most that is earned with at most so much excess; without a number the least excess, below 0."""
        # Here, since most verifications need no linear programme.
        from scipy.optimize import linprog
        from scipy.sparse import csr_matrix, eye, hstack, kron, vstack

        count, places = len(self.held) * len(self.year), [k for k, row in enumerate(rows) if row.is_open]
        units = [float(np.abs(row.amounts).max(initial=0.0)) or 1.0 for row in rows]
        at = np.repeat(np.arange(len(rows)), [len(row.unknowns) for row in rows])
        unknowns = np.concatenate([np.zeros(0, dtype=np.int64), *(row.unknowns for row in rows)])
        amounts = np.concatenate([np.zeros(0), *(row.amounts / unit for row, unit in zip(rows, units))])
        open_rows = csr_matrix((-np.ones(len(places)), (places, range(len(places)))), shape=(len(rows), len(places)))
        matrix = hstack([csr_matrix((amounts, (at, unknowns)), shape=(len(rows), count)), open_rows], format="csr")
        tonnes = np.append(np.zeros(count), [units[k] for k in places])
        gain = np.append(self.of(CASH) * self.discounts[self.years - 1], np.zeros(len(places)))
        most = np.array([row.most / unit for row, unit in zip(rows, units)])
        if excess is not None:
            size = float(tonnes.sum()) or 1.0
            matrix, most = vstack([matrix, csr_matrix(tonnes / size)], format="csr"), np.append(most, excess / size)
        whole = hstack(
            [kron(eye(len(self.year)), np.ones((1, len(self.held)))), csr_matrix((len(self.year), len(places)))]
        )
        goal = tonnes if excess is None else -gain
        unit = float(np.abs(goal).max(initial=0.0)) or 1.0
        found = linprog(
            goal / unit,
            A_ub=matrix,
            b_ub=most,
            A_eq=whole.tocsr(),
            b_eq=np.ones(len(self.year)),
            bounds=(0, None),
            method="highs",
            options={"primal_feasibility_tolerance": HAIR, "dual_feasibility_tolerance": HAIR},
        )
        return -float(found.fun) * unit if found.status == 0 else None

"""Where the blocks of a given mining sequence go in a scenario: one linear programme over all years, since the room of dumps connects these.

The years in which blocks are mined are no choice, so the waste of a scenario may exceed the room of all dumps that accept it. A first programme
then finds the least excess, and a second one the shares that earn most with it.
"""

from __future__ import annotations

from collections.abc import Iterator
from dataclasses import dataclass
from functools import cached_property
from typing import Optional

import numpy as np
from numpy.typing import NDArray
from scipy.optimize import OptimizeResult, linprog
from scipy.sparse import csr_matrix, hstack, vstack

from pitplan.core.tolerances import MISSED_LIMIT, SUM_ERROR
from pitplan.errors import PlanError
from pitplan.scheduling.blocks import BlockProblem
from pitplan.scheduling.limits import DUMP, DUMPED

# The tolerance of HiGHS for rows and for reduced costs.
TOLERANCE = 1e-9


def is_soft(name: str) -> bool:
    """Returns whether a limit may be exceeded by what is mined anyway: that of a dump."""
    return name.startswith((DUMP, DUMPED))


@dataclass(frozen=True)
class Row:
    """A limit of a year, or of all: the amounts of some unknowns, divided by a unit, add up to at most a number of units.

    Attributes
    ----------
    unknowns : int array, shape (terms,)
    amounts : array, shape (terms,)
    most : float
    weight : float
        The weight of a unit that is too much; 0: the limit holds.
    """

    unknowns: NDArray[np.int64]
    amounts: NDArray[np.float64]
    most: float
    weight: float


@dataclass(frozen=True)
class Recourse:
    """The choice of destinations in a scenario.

    Attributes
    ----------
    problem : BlockProblem
        That of the scenario.
    year : int array, shape (blocks,)
        The year in which each block is mined, from 0; the number of years if never.
    allowed : bool array, shape (blocks, destinations)
        Where each block may go.
    """

    problem: BlockProblem
    year: NDArray[np.int64]
    allowed: NDArray[np.bool_]

    @cached_property
    def block(self) -> NDArray[np.int64]:
        """The block of each unknown share, rising."""
        return np.nonzero(self.allowed & (self.year < self.problem.years)[:, None])[0].astype(np.int64)

    @cached_property
    def destination(self) -> NDArray[np.int64]:
        """The destination of each unknown share."""
        return np.nonzero(self.allowed & (self.year < self.problem.years)[:, None])[1].astype(np.int64)

    @cached_property
    def rows(self) -> list[Row]:
        """All limits that may bind."""
        return [*self.of_years(), *self.of_all()]

    def of_years(self) -> Iterator[Row]:
        year = self.year[self.block]
        for limit in self.problem.limits:
            amounts = limit.amounts[self.block, self.destination]
            for number in np.unique(year).tolist():
                yield from row_of(limit.name, amounts, np.flatnonzero(year == number), float(limit.most[number]))

    def of_all(self) -> Iterator[Row]:
        for total in self.problem.totals:
            amounts = total.amounts[self.block, self.destination]
            yield from row_of(total.name, amounts, np.arange(len(self.block)), total.most)

    @cached_property
    def share(self) -> NDArray[np.float64]:
        """The share of each block that goes to each destination, shape (blocks, destinations). Raises PlanError if HiGHS finds none."""
        found = np.zeros((self.problem.blocks, self.problem.destinations))
        if not len(self.block):
            return found
        best = self.solved(0.0)
        if best is None and (least := self.solved(None)) is not None:
            best = self.solved(float(least.fun) * (1 + SUM_ERROR))
        if best is None:
            raise PlanError("HiGHS found no destinations for the blocks of the common schedule")
        shares = np.clip(best.x[: len(self.block)], 0.0, 1.0)
        found[self.block, self.destination] = np.where(shares > SUM_ERROR, shares, 0.0)
        sums = found.sum(axis=1, keepdims=True)
        return np.asarray(found / np.where(sums > 0, sums, 1.0))

    @cached_property
    def matrix(self) -> csr_matrix:
        """The limits by shares, and by the excess of each soft one."""
        rows, soft = self.rows, [number for number, row in enumerate(self.rows) if row.weight]
        of_rows = np.repeat(np.arange(len(rows)), [len(row.unknowns) for row in rows])
        unknowns = np.concatenate([np.zeros(0, dtype=np.int64), *(row.unknowns for row in rows)])
        amounts = np.concatenate([np.zeros(0), *(row.amounts for row in rows)])
        shares = csr_matrix((amounts, (of_rows, unknowns)), shape=(len(rows), len(self.block)))
        excess = csr_matrix((-np.ones(len(soft)), (soft, range(len(soft)))), shape=(len(rows), len(soft)))
        return hstack([shares, excess], format="csr")

    def solved(self, most: Optional[float]) -> Optional[OptimizeResult]:
        """Returns the shares that earn most with at most so much excess, by weight, and this excess; without a number those of the least excess. None
        if HiGHS finds none."""
        weights = np.array([row.weight for row in self.rows if row.weight])
        weights /= float(weights.sum()) or 1.0
        of_excess, nothing = np.append(np.zeros(len(self.block)), weights), np.zeros(len(weights))
        gain = self.problem.values[self.block, self.destination, self.year[self.block]]
        gain = np.append(gain / (float(np.abs(gain).max()) or 1.0), nothing)
        whole = csr_matrix(
            (np.ones(len(self.block)), (np.unique(self.block, return_inverse=True)[1], range(len(self.block))))
        )
        bound = [] if most is None else [most]
        found = linprog(
            of_excess if most is None else -gain,
            A_ub=vstack([self.matrix, csr_matrix(of_excess)[: len(bound)]], format="csr"),
            b_ub=np.array([*(row.most for row in self.rows), *bound]),
            A_eq=hstack([whole, csr_matrix((whole.shape[0], len(weights)))], format="csr"),
            b_eq=np.ones(whole.shape[0]),
            bounds=(0, None),
            method="highs-ds",
            options={"primal_feasibility_tolerance": TOLERANCE, "dual_feasibility_tolerance": TOLERANCE},
        )
        return found if found.status == 0 else None


def row_of(name: str, amounts: NDArray[np.float64], unknowns: NDArray[np.int64], most: float) -> Iterator[Row]:
    """Yields the limit of some unknowns, if it is one and they use it."""
    some = unknowns[amounts[unknowns] != 0]
    if len(some) and np.isfinite(most):
        unit = float(np.abs(amounts[some]).max())
        yield Row(some, amounts[some] / unit, most / unit, unit if is_soft(name) else 0.0)


def excess_of(placed: NDArray[np.float64], most: NDArray[np.float64], capacity: float) -> NDArray[np.float64]:
    """Returns by how much a dump takes more than its limits in each year, in tonnes, shape (years,).

    Parameters
    ----------
    placed, most : array, shape (years,)
        What it takes, and the most that it may take.
    capacity : float
        The most that it may hold.
    """
    over, held = np.maximum(placed - most, 0.0), placed.cumsum()
    above = np.maximum(held - capacity, 0.0)
    slack = MISSED_LIMIT * np.maximum(held, 1.0)
    return np.where(over > slack, over, 0.0) + np.diff(np.where(above > slack, above, 0.0), prepend=0.0)

"""What lies on stockpiles at the start, in schedules by block: each lot in parts that a process takes as blocks are mined.

A part has no rock and no predecessors. The year in which it is mined is that in which a process takes it; then its stockpile holds so much less. A part
that is not mined, or goes to the first destination of waste, stays where it lies.
"""

from __future__ import annotations

from dataclasses import dataclass
from functools import cached_property
from typing import Any, Optional

import numpy as np
from numpy.typing import NDArray

from pitplan.config.material import Stockpile
from pitplan.config.schedule import ScheduleRules
from pitplan.economics.period_costs import of_project
from pitplan.plan import Plan
from pitplan.pushbacks.bench_table import CASH, ORE
from pitplan.scheduling.flow import opening
from pitplan.scheduling.flow.model import OpeningOre
from pitplan.scheduling.flow.opening import OpenedLots, OpeningLots
from pitplan.scheduling.limits import STOCK, limits_of

from .problem import Assignment

# A part is this share of the feed of a year at most, and a lot has at most this number of parts.
SHARE_OF_A_YEAR, MOST_PARTS = 0.05, 200


@dataclass(frozen=True)
class OpeningParts:
    """The lots that lie on stockpiles at the start, each in equal parts.

    Attributes
    ----------
    lots : OpeningLots
    ore : OpeningOre
        Whole lots, as their stockpiles give them back.
    lot : int array, shape (parts,)
        The lot of each part.
    stockpiles : tuple of Stockpile
    """

    lots: OpeningLots
    ore: OpeningOre
    lot: NDArray[np.int64]
    stockpiles: tuple[Stockpile, ...]

    @staticmethod
    def of_plan(plan: Plan, rules: ScheduleRules) -> Optional[OpeningParts]:
        """Returns the parts of the lots of a project; None if nothing lies there. Raises PlanError if a lot has no value."""
        lots = opening.of_plan(plan, rules)
        if lots is None:
            return None
        ore = lots.ore(rules, of_project(plan.project))
        limits = limits_of(plan.project, rules).most
        most = min((it.greatest for name, it in limits.items() if name.startswith(ORE)), default=np.inf)
        parts = np.clip(np.ceil(ore.ore.feed / (SHARE_OF_A_YEAR * most)), 1, MOST_PARTS).astype(np.int64)
        return OpeningParts(lots, ore, np.repeat(np.arange(len(lots)), parts), rules.stockpiles)

    def __len__(self) -> int:
        return len(self.lot)

    @cached_property
    def share(self) -> NDArray[np.float64]:
        """The share of its lot in each part."""
        return 1.0 / np.bincount(self.lot)[self.lot]

    @property
    def names(self) -> list[str]:
        """The names of parts in texts."""
        return [f"opening {self.stockpiles[number].name}" for number in self.lots.stockpile[self.lot]]

    @property
    def is_taken(self) -> NDArray[np.bool_]:
        """Whether each process may take each part, shape (parts, processes)."""
        return self.of(self.ore.ore.of(ORE)) > 0

    @property
    def lying(self) -> dict[str, float]:
        """The tonnes of feed that lie on stockpiles, by the names of their limits."""
        tonnes = {f"{STOCK}{it.name}": float(self.ore.on(number).sum()) for number, it in enumerate(self.stockpiles)}
        return {name: it for name, it in tonnes.items() if it > 0}

    def of(self, lots: NDArray[np.float64]) -> NDArray[np.float64]:
        """Returns what each part has of the amounts of whole lots: from shape (processes, lots) to (parts, processes)."""
        return np.asarray(lots[:, self.lot] * self.share).T

    def flow(self, name: str) -> NDArray[np.float64]:
        """Returns what each process takes of an amount with a part, or what the part leaves on a stockpile, shape (parts, processes)."""
        if name == CASH:
            return self.of(self.ore.ore.gain)
        for number, it in enumerate(self.stockpiles):
            if name == f"{STOCK}{it.name}":
                return -self.of(self.ore.on(number) * (self.ore.ore.of(ORE) > 0))
        return self.of(self.ore.ore.of(name))

    def opened(self, schedule: Assignment, processes: slice, years: int) -> OpenedLots:
        """Returns what a schedule of all parts takes.

        Parameters
        ----------
        schedule : Assignment
        processes : slice
            The destinations that are processes.
        years : int
            The periods of the problem.
        """
        taken = np.zeros((len(self.lots), years + 1, processes.stop - processes.start))
        np.add.at(taken, (self.lot, schedule.year), schedule.share[:, processes] * self.share[:, None])
        shares = taken[:, :years].transpose(2, 0, 1)
        gains = self.ore.ore.gains(of_project(self.lots.plan.project), years)
        return OpenedLots(self.lots, self.ore, shares, gains, self.stockpiles)


def columns(flow: NDArray[Any], waste: int, destinations: int) -> NDArray[Any]:
    """Returns flows of parts by process as those by destination, which begin with those of waste."""
    found = np.zeros((len(flow), destinations), dtype=flow.dtype)
    found[:, waste : waste + flow.shape[1]] = flow
    return found

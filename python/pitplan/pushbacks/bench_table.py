"""The benches of each pushback, which a yearly schedule mines, and their precedences."""

from __future__ import annotations

from dataclasses import dataclass
from functools import cached_property

import numpy as np

from pitplan.pits.shells import feeds_of

from .nested import Pushbacks

ROCK, ORE, CASH = "total_tonnes", "feed_tonnes", "cash_flow"


@dataclass(frozen=True)
class PushbackBenches:
    """The benches with material, by pushback and there from the top.

    Attributes
    ----------
    pushback : int array
        The pushback of each bench, from 1.
    level : int array
        Its level, from 0 at the top of the grid.
    names : tuple of str
        Amounts: total_tonnes, feed_tonnes, recovered_NAME of each metal, and cash_flow.
    lag : int
        By how many benches a pushback stays at least below the next.
    """

    pushback: np.ndarray
    level: np.ndarray
    names: tuple[str, ...]
    amounts: np.ndarray
    lag: int = 0

    def __len__(self) -> int:
        return len(self.pushback)

    def of(self, name: str) -> np.ndarray:
        return self.amounts[:, self.names.index(name)]

    @cached_property
    def before(self) -> np.ndarray:
        """Returns a boolean matrix: whether each bench depends on each other one, directly or indirectly."""
        precedences = np.zeros((len(self), len(self)), dtype=bool)
        for bench in range(len(self)):
            for other in self.candidates(bench):
                precedences[bench] |= precedences[other]
                precedences[bench, other] = True
        return precedences

    @cached_property
    def waits(self) -> tuple[np.ndarray, ...]:
        """Returns for each bench its direct predecessors: the bench above it in its pushback, and in each earlier pushback the lowest that is at
        most `lag` benches below it. Implied ones are omitted.

        So everything above a bench in its pushback and the earlier ones is mined first, wherever a pushback begins or ends.
        """
        found = []
        for bench in range(len(self)):
            some = self.candidates(bench)
            found.append(np.array([other for other in some if not self.before[some, other].any()], dtype=np.int64))
        return tuple(found)

    def candidates(self, bench: int) -> list[int]:
        """Returns the lowest bench above it in its pushback, and in each earlier pushback the lowest on which it depends. Benches are ordered so
        that predecessors come first.
        """
        pushback, level = self.pushback[bench], self.level[bench]
        deepest = np.where(self.pushback == pushback, level - 1, level + self.lag)
        open_to = np.flatnonzero((self.pushback <= pushback) & (self.level <= deepest))
        last = np.flatnonzero(np.diff(self.pushback[open_to], append=-1))
        return open_to[last].tolist()


def benches_of_cells(pushbacks: Pushbacks, benches: PushbackBenches, cells: np.ndarray) -> np.ndarray:
    """Returns the number of the bench of each cell with material, array of int, shape (cells,)."""
    grid = pushbacks.plan.grid
    number = np.full((len(pushbacks.factors) + 1, grid.shape[0]), -1)
    number[benches.pushback, benches.level] = np.arange(len(benches))
    return np.asarray(number[pushbacks.pushback[cells], cells // grid.per_level])


def of_pushbacks(pushbacks: Pushbacks, lag: int = 0) -> PushbackBenches:
    """Returns the benches of pushbacks, at the base price and with the mining costs of the pushbacks."""
    plan, cells = pushbacks.plan, pushbacks.shells.cells
    inside = np.flatnonzero((pushbacks.pushback > 0) & (cells.tonnes > 0))
    levels = plan.grid.shape[0]
    place = (pushbacks.pushback[inside].astype(np.int64) - 1) * levels + inside // plan.grid.per_level
    used, bench = np.unique(place, return_inverse=True)
    ore = cells.ore[inside]
    flows = {ROCK: cells.tonnes[inside], ORE: np.where(ore, cells.feed[inside], 0.0)}
    flows |= {name: feed[inside] for name, feed in feeds_of(plan, cells).items()}
    flows |= {f"recovered_{name}": np.where(ore, metal[inside], 0.0) for name, metal in plan.values.metal.items()}
    flows[CASH] = (cells.worth - pushbacks.mining_cost_added)[inside]
    sums = np.column_stack([np.bincount(bench, flow, minlength=len(used)) for flow in flows.values()])
    return PushbackBenches(used // levels + 1, used % levels, tuple(flows), sums, lag)

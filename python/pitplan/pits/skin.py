"""The skin of a pit: the outermost shell increments, which earn least per tonne and are least certain."""

from __future__ import annotations

from collections.abc import Callable
from dataclasses import dataclass
from decimal import Decimal

import numpy as np

from pitplan.config.shells import LEAST_FACTOR
from pitplan.core.revenue_factors import of_per_mille, per_mille
from pitplan.plan import Plan
from pitplan.solver import problem

from .shells import Shells

# How many factors between two known ones are solved together.
TRIED = 8


# From factors to the tonnes of rock in their shells.
TonnesAt = Callable[[tuple[float, ...]], dict[float, float]]


def neighbours(known: dict[float, float], share: float) -> tuple[float, float]:
    """Returns the largest known factor with at most `share` tonnes, and the smallest with more; if one is missing, the other twice."""
    below = [factor for factor, rock in known.items() if rock <= share]
    above = [factor for factor, rock in known.items() if rock > share]
    return max(below or [min(above)]), min(above or [max(below)])


def between(low: float, high: float) -> list[float]:
    """Returns up to TRIED factors evenly between two; none if they are 0.001 apart."""
    first, last = per_mille(low), per_mille(high)
    tried = {first + (last - first) * step // (TRIED + 1) for step in range(1, TRIED + 1)} - {first, last}
    return list(map(of_per_mille, sorted(tried)))


def refined(factors: tuple[float, ...], share: float, tonnes_at: TonnesAt) -> tuple[float, ...]:
    """Returns rising revenue factors with others between them, until no shell adds more than a share of the last one's tonnes, or only a thousandth
    of the revenue factor does. A share of 1 adds none."""
    if share >= 1:
        return factors
    known = tonnes_at(tuple(sorted({LEAST_FACTOR, *factors})))
    last = max(known)
    while True:
        rising = sorted(known)
        wide = [pair for pair in zip(rising, rising[1:]) if known[pair[1]] - known[pair[0]] > share * known[last]]
        more = sorted({factor for low, high in wide for factor in between(low, high)})
        if not more:
            break
        known |= tonnes_at(tuple(more))
    # Of shells that are equal to the one before, none is kept but those of the given factors.
    grows = [high for low, high in zip(rising, rising[1:]) if known[high] > known[low]]
    return tuple(sorted({*factors, *grows, *([rising[0]] if known[rising[0]] > 0 else [])}))


@dataclass(frozen=True)
class Skin:
    """The part of a pit outside an inner shell.

    Attributes
    ----------
    factor : float
        Revenue factor of the inner shell; 0 if the skin is the whole pit.
    cells : array of bool, shape (cells,)
        Whether a cell is in the skin.
    """

    factor: float
    cells: np.ndarray


def of_pit(plan: Plan, share: Decimal) -> Skin:
    """Returns the pit skin: the part of the plan's largest shell outside the largest inner shell that leaves at least a share of the tonnes. The skin
    holds more if the shells grow in large steps. Raises ProgramError if the solver refuses."""
    last = plan.project.shells.revenue_factors[-1]
    with problem.temporary(plan) as mine:

        def shells_at(*factors: float) -> Shells:
            return Shells.at_factors(plan, factors, mine)

        def entry_at(factor: float) -> np.ndarray:
            return shells_at(factor).solution.entry[: plan.grid.count]

        known = shells_at(*sorted({LEAST_FACTOR, last})).tonnes
        most = known[last] * float(1 - share)
        while more := between(*neighbours(known, most)):
            known |= shells_at(*more).tonnes
        shell = neighbours(known, most)[0]
        pit = entry_at(last) > 0
        if known[shell] > most:
            return Skin(0, pit)
        return Skin(shell, pit & (entry_at(shell) == 0))

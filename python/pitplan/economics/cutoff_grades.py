"""Cut-off grades: the head grade of the mill feed whose revenue covers given costs per tonne of feed."""

from __future__ import annotations

from dataclasses import dataclass
from decimal import Decimal
from functools import cached_property
from typing import Optional

import numpy as np
from numpy.typing import NDArray
from scipy.optimize import brentq

from pitplan.config.economics import GRADE_UNITS, ByCode, ByDomain, Curve, Economics, Metal, Recovery
from pitplan.config.project import Project
from pitplan.core.tolerances import ROOT_ERROR, SUM_ERROR

from .period_costs import net_price


@dataclass(frozen=True)
class RockCosts:
    """What a tonne of feed of a rock type costs and earns in the only process of a project.

    Attributes
    ----------
    rock : str
        Its code; "" without rock types.
    """

    project: Project
    rock: str

    @property
    def money(self) -> Economics:
        return self.project.economics

    def of(self, value: ByCode) -> Optional[float]:
        """Returns the number of the rock type; None if numbers are by domain."""
        if isinstance(value, ByDomain):
            return None
        return float(value.get(self.rock, Decimal(0)) if isinstance(value, dict) else value)

    @property
    def processing(self) -> float:
        """The cost of processing a tonne of feed, with the royalty per tonne, without adjustment factors and haulage."""
        return self.processing_at(1.0)

    def processing_at(self, factor: float) -> float:
        """Returns the same with a factor of the processing cost."""
        return factor * (self.of(self.money.processing_cost) or 0.0) + float(self.money.royalty_per_tonne)

    @property
    def mining(self) -> float:
        """The cost of mining the material of a tonne of feed, without increments, adjustment factors and haulage; nan if it differs by domain."""
        recovery, dilution = self.of(self.money.mining_recovery), self.of(self.money.dilution)
        if recovery is None or dilution is None or recovery == 0:
            return float("nan")
        return (self.of(self.money.mining_cost) or 0.0) / (recovery * (1 + dilution))

    @cached_property
    def metals(self) -> tuple[Metal, ...]:
        """The metals that are recovered, in the project's order."""
        return tuple(metal for metal in self.project.metals if greatest(self.recovery(metal)) > 0)

    def recovery(self, metal: Metal) -> Recovery:
        found = metal.recovery
        return found.get(self.rock, Decimal(0)) if isinstance(found, dict) else found

    def price(self, metal: Metal, premium: float) -> float:
        """Returns what one unit of head grade in a tonne of feed holds in money at the base price and a premium, if all is recovered."""
        return float(GRADE_UNITS[metal.unit]) * (float(net_price(metal, self.money.royalty)) + premium)

    def head_grade(self, metal: Metal, cost: float, premium: float = 0.0) -> float:
        """Returns the least head grade of a metal whose revenue alone covers a cost per tonne of feed; nan if none does."""
        price, tail, recovery = self.price(metal, premium), self.of(metal.tail_grade) or 0.0, self.recovery(metal)
        if not np.isfinite(cost) or price <= 0:
            return float("nan")
        needed = max(cost, 0.0) / price

        def lacks(head: float) -> float:
            return needed - max(head - tail, 0.0) * share_at(recovery, head)

        # From the last grade on the recovery is the greatest, which covers the cost.
        last = float(recovery.points[-1][0]) if isinstance(recovery, Curve) else 0.0
        high = max(needed / greatest(recovery) + tail, last) + SUM_ERROR
        return float(brentq(lacks, 0.0, high, xtol=ROOT_ERROR)) if lacks(0.0) > 0 else 0.0

    def equivalent(self, metal: Metal, premiums: dict[str, float]) -> float:
        """Returns what one unit of a metal's head grade is worth in units of the first metal; nan if a recovery depends on the grade."""
        first = self.metals[0]
        if any(isinstance(self.recovery(it), Curve) for it in (first, metal)):
            return float("nan")
        earned = [
            self.price(it, premiums.get(it.name, 0.0)) * share_at(self.recovery(it), 0.0) for it in (metal, first)
        ]
        return earned[0] / earned[1] if earned[1] > 0 else float("nan")


def greatest(recovery: Recovery) -> float:
    """Returns the greatest recovery at any grade, at which recoveries by grade end."""
    return float(recovery.points[-1][1]) if isinstance(recovery, Curve) else float(recovery)


def share_at(recovery: Recovery, head: float) -> float:
    if not isinstance(recovery, Curve):
        return float(recovery)
    grades, shares = zip(*recovery.points)
    return float(np.interp(head, np.array(grades, dtype=float), np.array(shares, dtype=float)))


# Value bins of each process, unless [schedule] bins sets another number.
BINS = 8
# Decimals of shares of tonnage.
DECIMALS = 9


def edges_of(values: NDArray[np.float64], tonnes: NDArray[np.float64], count: int) -> NDArray[np.float64]:
    """Returns the values between `count` bins of nearly even tonnage, or fewer: each the middle between two adjacent values."""
    found, place = np.unique(values, return_inverse=True)
    if len(found) < 2 or count < 2:
        return np.zeros(0)
    through = np.cumsum(np.bincount(place, tonnes))
    shares = np.arange(1, count) / count
    off = np.abs(through[None, :-1] / (through[-1] or 1.0) - shares[:, None])
    # Of two values that are equally near the lower one counts, independently of the rounding of sums.
    last = np.unique(np.round(off, DECIMALS).argmin(axis=1))
    return np.asarray((found[last] + found[last + 1]) / 2)

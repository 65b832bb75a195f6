"""The best pace of a mine whose benches are mined in a given order, by dynamic programming.

The state is how far the order is mined, at points of a grid over its tonnes. In each year the mine goes on to a later point within the limits of
mining; the ore in between goes where it gains most, the richest value bins first, as far as the limits of processing allow. Nothing is
stockpiled. The grid is refined once around the best course.
"""

from __future__ import annotations

from dataclasses import dataclass, field
from functools import cached_property
from typing import Any, Optional

import numpy as np
from numpy.typing import NDArray

from pitplan.core.tolerances import SUM_ERROR
from pitplan.scheduling.limits import MAX, Prices

from .material import FEED, SET
from .model import FlowModel

GAIN = "gain"
# Points of the grid over an order's tonnes, and of the refined one around the end of each year.
POINTS, FINER = 160, 15


@dataclass(frozen=True)
class Course:
    """How far an order is mined by the end of each year.

    Attributes
    ----------
    value : float
        The net present value, in the currency.
    tonnes : array, shape (years,)
        Total material by the end of each year.
    """

    value: float
    tonnes: NDArray[np.float64]


@dataclass(frozen=True)
class Pacing:
    """The pacing of orders of a model's benches.

    Attributes
    ----------
    model : FlowModel
    prices : dict
        Of limits, from the linear programme. Limits on head grades are replaced by their prices, since they ask for blends.
    most_kinds : int, optional
        More bins than these are joined to about as many kinds of ore, for a first comparison; None: each bin is a kind.
    """

    model: FlowModel
    prices: Prices = field(default_factory=dict)
    most_kinds: Optional[int] = None

    @cached_property
    def blended(self) -> dict[str, NDArray[np.float64]]:
        """By limit on a head grade its price in each year, not discounted, shape (years,)."""
        model = self.model
        names = [name for name in model.blended if name in model.problem.limits.most]
        nothing = np.zeros(model.years)
        return {name: self.prices.get((name, MAX), nothing)[: model.years] / model.discounts for name in names}

    @cached_property
    def kind(self) -> NDArray[np.int64]:
        """The kind of ore of each bin, shape (bins,): itself, or of many bins one of even feed by best process and value per tonne."""
        ore, count = self.model.ore, int(self.model.ore.bin.max(initial=0))
        if self.most_kinds is None or count <= self.most_kinds:
            return np.arange(count)
        gain = np.stack([np.bincount(ore.bin - 1, row, minlength=count) for row in ore.gain])
        feed = np.maximum(np.bincount(ore.bin - 1, ore.feed, minlength=count), SUM_ERROR)
        best, order = gain.argmax(axis=0), np.lexsort((gain.max(axis=0) / feed, gain.argmax(axis=0)))
        part = np.empty(count, dtype=np.int64)
        part[order] = self.most_kinds * (np.cumsum(feed[order]) - feed[order] / 2) // feed.sum()
        return np.unique(best * self.most_kinds + part, return_inverse=True)[1].astype(np.int64)

    @property
    def kinds(self) -> int:
        return int(self.kind.max(initial=-1)) + 1

    @cached_property
    def by_bench(self) -> dict[str, NDArray[np.float64]]:
        """Sums of ore by bench, process and kind: gain at the base price, feed, and limited amounts, each of shape (benches, processes, kinds)."""
        model, ore = self.model, self.model.ore
        names = [name for name in (*model.problem.limits.names, *self.premiums) if ore.of(name).any()]
        values = {GAIN: ore.gain} | {name: ore.of(name) for name in names}
        found = {}
        for name, amounts in values.items():
            found[name] = np.zeros((len(model.benches), ore.processes, self.kinds))
            for process, row in enumerate(amounts):
                np.add.at(found[name][:, process], (ore.bench, self.kind[ore.bin - 1]), row)
        return found

    @cached_property
    def premiums(self) -> dict[str, NDArray[np.float64]]:
        """By amount of ore what a unit of it earns in each year beyond the gain, not discounted, shape (years,): of metal and costs by prices and
        factors of years, and of rock the cost of the dump to which it does not go."""
        model = self.model
        names = tuple(model.problem.money.of_ore)
        found = dict(zip(names, model.problem.money.premium(names, model.years).T))
        # Rounded, so that years with the same costs are weighed once.
        costs = np.round(self.dumping / model.discounts, 9)
        return found | {f"{SET}{number}": cost for number, cost in enumerate(costs)}

    @cached_property
    def dumping(self) -> NDArray[np.float64]:
        """What a tonne of waste of each set of dumps costs at least in each year, discounted, shape (sets, years)."""
        return self.model.waste.at_prices(self.prices)

    @cached_property
    def mined(self) -> NDArray[np.float64]:
        """What mining each bench earns in each year if all of it is waste, discounted, shape (benches, years)."""
        return np.asarray(self.model.mining_cash - self.model.waste.rock @ self.dumping)

    def value(self, mined: NDArray[np.float64]) -> float:
        """Returns nearly the net present value of shares of benches in all years, shape (benches, years), with the richest bins first."""
        model, limits = self.model, self.model.problem.limits
        ore = {name: np.einsum("bkc,by->ykc", values, mined) for name, values in self.by_bench.items()}
        premiums = {name: more[:, None, None] for name, more in self.premiums.items()}
        premiums |= {name: -price[:, None, None] for name, price in self.blended.items()}
        most = dict(zip(limits.most, limits.of_years(model.years).T))
        free = {name: amounts - model.mined(name) @ mined for name, amounts in most.items() if name not in self.blended}
        gain = gained(with_prices(ore, premiums), free) @ model.discounts
        return float(gain + (self.mined * mined).sum() - model.problem.costs(mined).sum())

    def coarse(self, order: NDArray[np.int64]) -> Course:
        """Returns the best course of an order of benches over a coarse grid."""
        total = float(self.model.rock[order].sum())
        return (
            self.over(order, np.linspace(0.0, total, POINTS + 1)) if total else Course(0.0, np.zeros(self.model.years))
        )

    def best(self, order: NDArray[np.int64]) -> Course:
        coarse, total = self.coarse(order), float(self.model.rock[order].sum())
        if not total:
            return coarse
        near = coarse.tonnes[:, None] + np.linspace(-total / POINTS, total / POINTS, FINER)
        exact = self.exact(order, coarse.tonnes, total / POINTS)
        points = np.unique(np.clip(np.concatenate([near.ravel(), exact, [0.0, total]]), 0.0, total))
        return max(coarse, self.over(order, points), key=lambda course: course.value)

    def exact(self, order: NDArray[np.int64], tonnes: NDArray[np.float64], step: float) -> NDArray[np.float64]:
        """Returns where each year ends at which a limit is exactly used up, near a course that is known to a step."""
        model, sums = self.model, np.append(0.0, self.model.rock[order].cumsum())
        limits, takes = model.problem.limits, [self.takes[name][order] for name in model.problem.limits.most]
        sinking = [] if limits.advance is None else np.unique(model.benches.pushback).tolist()
        takes += [(model.benches.pushback[order] == number).astype(float) for number in sinking]
        used = [np.append(0.0, row.cumsum()) for row in takes]
        place, found = 0.0, []
        for year, end in enumerate(tonnes):
            most = [*limits.of_year(year + 1), *[limits.sinking(year + 1)[-1]] * len(sinking)]
            ends = [float(np.interp(np.interp(place, sums, row) + free, row, sums)) for row, free in zip(used, most)]
            found += ends
            nearest = min(ends, key=lambda it: abs(it - end), default=end)
            place = nearest if abs(nearest - end) <= 2 * step else float(end)
            found.append(place)
        return np.array(found)

    @cached_property
    def takes(self) -> dict[str, NDArray[np.float64]]:
        """By limit what each bench uses of it if all ore that pays goes to its best process, shape (benches,)."""
        gain = self.by_bench[GAIN]
        best = (gain == gain.max(axis=1, keepdims=True, initial=0.0)) & (gain > 0)
        nothing = np.zeros_like(gain)
        return {
            name: self.model.mined(name) + (self.by_bench.get(name, nothing) * best).sum(axis=(1, 2))
            for name in self.model.problem.limits.most
        }

    def over(self, order: NDArray[np.int64], points: NDArray[np.float64]) -> Course:
        """Returns the best course over the points of a grid, which rises from 0."""
        moves = Moves(self, order, points)
        values = moves.values
        years, count = self.model.years, len(points)
        best, then = np.zeros(count), np.zeros((years, count), dtype=np.int64)
        # Moves are by rising first point, so that those from a point are next to each other.
        starts = np.flatnonzero(np.diff(moves.first, prepend=-1))
        begins = moves.first[starts]
        for year in range(years - 1, -1, -1):
            gained = values[year] + best[moves.last]
            top = np.full(count, -np.inf)
            top[begins] = np.maximum.reduceat(gained, starts)
            at = np.flatnonzero(gained >= top[moves.first])
            chosen = np.arange(count)
            chosen[moves.first[at[::-1]]] = moves.last[at[::-1]]
            stops = top <= 0
            then[year] = np.where(stops, np.arange(count), chosen)
            best = np.where(stops, 0.0, top)
        place, tonnes = 0, np.zeros(years)
        for year in range(years):
            place = int(then[year, place])
            tonnes[year] = points[place]
        return Course(float(best[0]), tonnes)


@dataclass(frozen=True)
class Moves:
    """The moves of a year from a point of a grid to a later one, or none."""

    pacing: Pacing
    order: NDArray[np.int64]
    points: NDArray[np.float64]

    @property
    def model(self) -> FlowModel:
        return self.pacing.model

    @cached_property
    def pairs(self) -> tuple[NDArray[np.int64], NDArray[np.int64]]:
        """First and last point of each move that the limits of mining allow in some year."""
        limits = self.model.of_mining
        first, last = np.triu_indices(len(self.points))
        fits = np.ones(len(first), dtype=bool)
        for name, limit in limits.most.items():
            fits &= self.between(self.model.mined(name), first, last) <= limit.greatest * (1 + SUM_ERROR)
        if limits.advance is not None:
            for pushback in np.unique(self.model.benches.pushback):
                sunk = self.between((self.model.benches.pushback == pushback).astype(float), first, last)
                fits &= sunk <= limits.sinking(self.model.years).max() * (1 + SUM_ERROR)
        return first[fits], last[fits]

    @property
    def first(self) -> NDArray[np.int64]:
        return self.pairs[0]

    @property
    def last(self) -> NDArray[np.int64]:
        return self.pairs[1]

    def at_points(self, amounts: NDArray[np.float64]) -> NDArray[np.float64]:
        """Returns running sums of amounts of benches, shape (benches, ..), at the points of the grid."""
        sums = np.concatenate([np.zeros((1, *amounts.shape[1:])), amounts[self.order].cumsum(axis=0)])
        place = np.interp(self.points, self.tonnes, np.arange(len(self.tonnes)))
        whole = np.minimum(place.astype(np.int64), len(self.order) - 1)
        share = (place - whole).reshape(-1, *[1] * (amounts.ndim - 1))
        return np.asarray(sums[whole] + share * (sums[whole + 1] - sums[whole]))

    @cached_property
    def tonnes(self) -> NDArray[np.float64]:
        """Total material before each bench of the order, and after the last."""
        return np.append(0.0, self.model.rock[self.order].cumsum())

    def between(
        self, amounts: NDArray[np.float64], first: NDArray[np.int64], last: NDArray[np.int64]
    ) -> NDArray[np.float64]:
        sums = self.at_points(amounts)
        return np.asarray(sums[last] - sums[first])

    @cached_property
    def values(self) -> NDArray[np.float64]:
        """What each move earns in each year, discounted and less the costs of the year, shape (years, moves)."""
        model, pacing = self.model, self.pacing
        limits, costs = model.problem.limits, model.problem.costs_of_years(model.years)
        of_years = limits.of_years(model.years)
        present = self.between(pacing.mined, *self.pairs)
        ore = {name: self.between(values, *self.pairs) for name, values in pacing.by_bench.items()}
        mined = {name: self.between(model.mined(name), *self.pairs) for name in limits.most}
        found, regimes = np.empty((model.years, len(self.first))), dict[tuple[float, ...], NDArray[np.float64]]()
        for year, amounts in enumerate(of_years):
            premiums = {name: float(more[year]) for name, more in pacing.premiums.items()}
            premiums |= {name: -float(price[year]) for name, price in pacing.blended.items()}
            key = (*amounts, *premiums.values())
            if key not in regimes:
                free = {
                    name: most - mined[name] for name, most in zip(limits.most, amounts) if name not in pacing.blended
                }
                regimes[key] = gained(with_prices(ore, premiums), free)
            found[year] = present[:, year] + regimes[key] * model.discounts[year] - costs[year]
            for name, most in zip(limits.most, amounts):
                if name in model.of_mining.most:
                    found[year][mined[name] > most * (1 + SUM_ERROR)] = -np.inf
        return found


def with_prices(ore: dict[str, NDArray[np.float64]], premiums: dict[str, Any]) -> dict[str, NDArray[np.float64]]:
    """Returns the amounts with the gain at premiums per unit of metal or cost, and at prices of limits on grades, below 0."""
    more = sum((premium * ore[name] for name, premium in premiums.items() if name in ore), np.zeros(1))
    return ore | {GAIN: ore[GAIN] + more}


def gained(ore: dict[str, NDArray[np.float64]], free: dict[str, NDArray[np.float64]]) -> NDArray[np.float64]:
    """Returns what ore gains where each part goes where it gains most per tonne, the richest value bins first.

    Parameters
    ----------
    ore : dict of str to array, shape (cases, processes, bins)
        Gain, feed, and limited amounts.
    free : dict of str to array, shape (cases,)
        How much of limited amounts is free.
    """
    gain, feed = ore[GAIN], ore.get(FEED, np.abs(ore[GAIN]))
    whole = gain.sum(axis=0) / np.maximum(feed.sum(axis=0), SUM_ERROR)
    left = {name: np.maximum(amounts, 0.0) for name, amounts in free.items() if name in ore}
    rest, found = np.ones((len(gain), gain.shape[2])), np.zeros(len(gain))
    for process, kind in zip(*np.unravel_index(np.argsort(-whole, axis=None, kind="stable"), whole.shape)):
        if whole[process, kind] <= 0:
            break
        gains = gain[:, process, kind]
        share = np.where(gains > 0, rest[:, kind], 0.0)
        takes = {name: ore[name][:, process, kind] for name in left}
        for name, amounts in left.items():
            limited = takes[name] > 0
            fits = np.divide(amounts, takes[name], out=np.ones(len(gains)), where=limited)
            np.minimum(share, np.maximum(fits, 0.0), out=share)
        for name in left:
            left[name] -= share * takes[name]
        rest[:, kind] -= share
        found += share * gains
    return found

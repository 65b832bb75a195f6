"""Lagrange multipliers of a large linear programme by cutting planes in a box, in place of its solution.

The value of the relaxation is a convex function of the prices of limits. What its optimum leaves of each limit is the slope there, so that each
optimum gives a plane below the function. The next prices are those at which the highest plane is lowest, within a box around the best prices so
far (Marsten, Hogan and Blankenship, The boxstep method for large-scale optimization, Operations Research 23(3), 1975). The dual values of the
planes are weights with which the optima add up to flows that nearly keep the limits.
"""

from __future__ import annotations

from dataclasses import dataclass, replace
from functools import cached_property

import numpy as np
from numpy.typing import NDArray
from scipy.optimize import linprog
from scipy.sparse import csr_matrix

from pitplan.core.tolerances import SUM_ERROR
from pitplan.scheduling.highs_process import demand_solved
from pitplan.scheduling.limits import RUNNING, Prices

from .bound import Lagrangian
from .model import FlowModel
from .programme import FlowOptimum, FlowProgramme

# The first half width of the box, as a share of the value, and its changes: after a plane that is lower by the share EXPECTED of what the box promised,
# after MISSES planes in turn that are not lower, and when no prices in the box promise more.
WIDTH, WIDER, NARROWER, AGAIN = 2e-3, 2.0, 0.7, 4.0
EXPECTED, MISSES = 0.2, 2
# A half width is wider by BY_PRICE for a price of the whole value, and after a lower plane by LONGER if the price goes on, or by SHORTER if it turns. In
# multiples of the value it is at most FARTHEST, since larger prices lose the digits of the bound.
BY_PRICE, LONGER, SHORTER, STRETCHES, FARTHEST = 10.0, 1.5, 0.6, (0.05, 50.0), 100.0
# The greatest number of planes, and of times that the box is made wider at the end.
MOST_PLANES, MOST_AGAIN = 90, 12


@dataclass(frozen=True)
class RelaxedFlows:
    """The flows of a relaxation's optimum.

    Attributes
    ----------
    relaxation : Lagrangian
    """

    relaxation: Lagrangian

    @property
    def model(self) -> FlowModel:
        return self.relaxation.model

    @cached_property
    def mined(self) -> NDArray[np.float64]:
        """Shares of benches, shape (benches, years)."""
        return np.diff(self.relaxation.by_end, axis=1, prepend=0.0)

    def sent(self, place: int) -> NDArray[np.float64]:
        """Returns the shares of parcels that go to a place, as `Lagrangian.choices` counts them, shape (parcels, years)."""
        return np.where(self.relaxation.choices[1] == place, self.mined[self.model.ore.bench], 0.0)

    @cached_property
    def direct(self) -> NDArray[np.float64]:
        """Shares of parcels by process, shape (processes, parcels, years)."""
        return np.array([self.sent(1 + number) for number in range(self.model.ore.processes)])

    @cached_property
    def stocked(self) -> NDArray[np.float64]:
        """Shares of parcels by stockpile, shape (stockpiles, parcels, years)."""
        first, count = 1 + self.model.ore.processes, len(self.model.stockpiles)
        return np.array([self.sent(first + number) for number in range(count)]).reshape(count, *self.direct.shape[1:])

    @cached_property
    def reclaimed(self) -> NDArray[np.float64]:
        """Shares of parcels by stockpile and process, shape (stockpiles, processes, parcels, years)."""
        found = np.zeros((len(self.stocked), *self.direct.shape))
        for of_stockpile, stocked, waits in zip(found, self.stocked, self.relaxation.waiting):
            parcel, year = np.nonzero((stocked > 0) & (waits.until < self.model.years))
            until = waits.until[parcel, year]
            np.add.at(of_stockpile, (waits.process[parcel, until], parcel, until), stocked[parcel, year])
        return found

    @cached_property
    def opened(self) -> NDArray[np.float64]:
        """Shares of lots by process, shape (processes, lots, years)."""
        earned = self.relaxation.earned_by_lots
        found = np.zeros(earned.shape)
        for lot in np.flatnonzero(earned.max(axis=(0, 2), initial=0.0) > 0):
            process, year = np.unravel_index(earned[:, lot].argmax(), earned[:, lot].shape)
            found[process, lot, year] = 1.0
        return found

    @cached_property
    def dumped(self) -> NDArray[np.float64]:
        """Tonnes of waste by set and dump, shape (sets, dumps, years)."""
        waste, sent = self.model.waste, self.direct.sum(axis=0) + self.stocked.sum(axis=0)
        tonnes = waste.by_bench(self.mined, sent).sum(axis=0)
        costs = waste.costs_at(self.relaxation.prices)
        goes = np.zeros(costs.shape)
        if waste.sets:
            np.put_along_axis(goes, costs.argmin(axis=1)[:, None], 1.0, axis=1)
        return goes * tonnes[:, None]

    @property
    def unknowns(self) -> NDArray[np.float64]:
        """The flows as unknowns of the linear programme, shape (unknowns,)."""
        model, programme = self.model, self.relaxation.programme
        reclaimed, stocked = self.reclaimed, self.stocked
        lying = (stocked - reclaimed.sum(axis=1)).cumsum(axis=2)
        dumped = self.dumped[model.waste.pairs] / programme.of_pairs[:, None]
        parts = [self.relaxation.by_end, model.direct.of(self.direct), model.stocked.of(stocked)]
        parts += [model.stocked.of(lying), model.reclaimed.of(reclaimed), model.opened.of(self.opened), dumped]
        running = self.relaxation.running if programme.costs[1:].any() else np.zeros(0)
        return np.concatenate([*(part.ravel() for part in parts), running])


def row_of(values: NDArray[np.float64]) -> csr_matrix:
    """Returns a row of few values that are not 0, which scipy finds more slowly in an array of two dimensions."""
    places = np.flatnonzero(values)
    return csr_matrix((values[places], places, [0, len(places)]), shape=(1, len(values)))


@dataclass(frozen=True)
class Plane:
    """The relaxation at prices, and the plane below what its benches and lots earn that touches it there.

    Attributes
    ----------
    prices : array, shape (limits * years,)
        In the currency per whole limit.
    value : float
    earned : float
        What benches and lots earn at the prices: the value without the limits and the running of years.
    used : array, shape (limits * years,)
        What they use of each limit, as a share of it; below 0 of a minimum.
    slope : array, shape (limits * years,)
        What they, and the years in which the mine runs, leave of each limit: how fast the value changes with the prices.
    unknowns : csr matrix, shape (1, unknowns)
        The optimum of the relaxation as unknowns of the linear programme.
    """

    prices: NDArray[np.float64]
    value: float
    earned: float
    used: NDArray[np.float64]
    slope: NDArray[np.float64]
    unknowns: csr_matrix


@dataclass(frozen=True)
class Lowest:
    """The prices in a box at which the relaxation is lowest if benches and lots earn what the highest plane says. What limits and years earn is exact.

    Attributes
    ----------
    prices : array, shape (limits * years,)
    value : float
        No prices in the box give a lower value of the relaxation.
    weights : array, shape (planes,)
        The dual values of the planes, which add up to 1.
    side : array, shape (limits * years,)
        1 where a price is at the upper side of the box, -1 at the lower one, otherwise 0.
    """

    prices: NDArray[np.float64]
    value: float
    weights: NDArray[np.float64]
    side: NDArray[np.float64]


@dataclass(frozen=True)
class Box:
    """The prices within a half width of the best ones, for each price its own.

    Attributes
    ----------
    width : float
        The half width of a price of 0 that is not stretched.
    stretch : array, shape (limits * years,)
    side : array, shape (limits * years,)
        On which side each price was when a plane was lower; see `Lowest.side`.
    """

    width: float
    stretch: NDArray[np.float64]
    side: NDArray[np.float64]

    def around(self, prices: NDArray[np.float64], unit: float) -> NDArray[np.float64]:
        """Returns the half widths around prices of a relaxation whose value is about `unit`."""
        half = self.width * self.stretch * (1 + BY_PRICE * np.minimum(prices / unit, 1.0))
        return np.minimum(half, FARTHEST * unit)

    def times(self, factor: float) -> Box:
        return replace(self, width=factor * self.width)

    def following(self, side: NDArray[np.float64]) -> Box:
        """Returns the box longer in the directions in which prices go on, and shorter where they turn."""
        turns = np.where(side * self.side > 0, LONGER, np.where(side * self.side < 0, SHORTER, 1.0))
        return replace(self, stretch=np.clip(self.stretch * turns, *STRETCHES), side=side)


@dataclass(frozen=True)
class Multipliers:
    """The search for the prices of a programme's limits.

    Attributes
    ----------
    programme : FlowProgramme
        Without minimums, so that mining nothing keeps all limits.
    """

    programme: FlowProgramme

    @property
    def years(self) -> int:
        return self.programme.years

    @cached_property
    def keys(self) -> list[tuple[str, str]]:
        """The names and sides of all limits, and of those that show whether the mine runs, if years cost anything."""
        found = [(it.name, it.side) for it in self.programme.limits]
        return found + [(it.name, RUNNING) for it in self.programme.bounding if self.has_costs]

    @property
    def has_costs(self) -> bool:
        """Whether years cost anything."""
        return bool(self.programme.costs[1:].any())

    @cached_property
    def scales(self) -> NDArray[np.float64]:
        """A unit of each limit, shape (limits,): of a grade what the largest parcel adds, of others the greatest limit."""
        of_limits = [it.scale for it in self.programme.limits]
        return np.array(of_limits + [it.scale for it in self.programme.bounding if self.has_costs])

    @cached_property
    def holds(self) -> NDArray[np.bool_]:
        """Whether there is a limit in each year, shape (limits * years,). Without one its price is 0."""
        found = [it.holds for it in self.programme.limits] + [
            it.holds for it in self.programme.bounding if self.has_costs
        ]
        return np.array(found, dtype=bool).reshape(len(found) * self.years)

    def priced(self, prices: NDArray[np.float64]) -> Prices:
        """Returns prices by limit, per unit of its amount."""
        by_year = np.where(self.holds, prices, 0.0).reshape(-1, self.years) / self.scales[:, None]
        return dict(zip(self.keys, by_year))

    def start(self, prices: Prices) -> NDArray[np.float64]:
        """Returns prices by limit as an array; 0 of a limit without one."""
        nothing = np.zeros(self.years)
        found = [prices.get(key, nothing) * scale for key, scale in zip(self.keys, self.scales)]
        return np.array(found).reshape(len(found) * self.years)

    def scaled(self, amounts: list[NDArray[np.float64]]) -> NDArray[np.float64]:
        """Returns amounts of all limits by year as shares of these, 0 where there is no limit."""
        shares = np.array(amounts).reshape(len(amounts), self.years) / self.scales[:, None]
        return np.where(self.holds, shares.ravel(), 0.0)

    @cached_property
    def of_limits(self) -> NDArray[np.float64]:
        """The limits themselves, and 0 of those that show whether the mine runs, shape (limits * years,)."""
        shown = [np.zeros(self.years) for _ in self.programme.bounding if self.has_costs]
        return self.scaled([it.sign * it.finite for it in self.programme.limits] + shown)

    @cached_property
    def running(self) -> NDArray[np.float64]:
        """What of each limit years show that run up to the end of each year, shape (years, limits * years)."""
        others = [np.zeros(self.years) for _ in self.programme.limits]
        shown = [it.amount for it in self.programme.bounding if self.has_costs]
        by_year = self.scaled(others + shown).reshape(-1, self.years)
        until = np.tril(np.ones((self.years, self.years)))
        return (until[:, None] * by_year).reshape(self.years, -1)

    def plane(self, prices: NDArray[np.float64]) -> Plane:
        relaxation = Lagrangian(self.programme, self.priced(prices))
        unknowns, size = RelaxedFlows(relaxation).unknowns, sum(self.programme.sizes)
        flows, years = unknowns[:size], relaxation.running
        amounts = [it.sign * (it.used @ flows) for it in self.programme.limits]
        used = self.scaled(amounts + [it.used @ flows for it in self.programme.bounding if self.has_costs])
        slope = self.of_limits + self.running[int(years.sum()) - 1] - used
        return Plane(prices, relaxation.value, relaxation.of_flows, used, slope, row_of(unknowns))

    def lowest(self, planes: list[Plane], lower: NDArray[np.float64], upper: NDArray[np.float64]) -> Lowest:
        """Returns the lowest point between the lower and the upper prices, by a linear programme of the prices, what benches and lots earn, and what the
        years earn in which the mine runs."""
        unit, count = abs(planes[0].value) or 1.0, len(lower)
        of_planes = np.pad(-np.array([it.used for it in planes]), ((0, 0), (0, 2)))
        of_planes[:, count] = -1.0
        of_years = np.column_stack([self.running, np.zeros(self.years), -np.ones(self.years)])
        earned = np.array([it.earned + it.used @ it.prices for it in planes])
        sides = np.column_stack([np.append(lower, [-np.inf] * 2), np.append(upper, [np.inf] * 2)]) / unit
        answer = linprog(
            np.append(self.of_limits, [1.0, 1.0]),
            A_ub=np.vstack([of_planes, of_years]),
            b_ub=np.concatenate([-earned, self.programme.costs.cumsum()]) / unit,
            bounds=sides,
            method="highs-ds",
        )
        found = demand_solved(answer, "prices of limits")
        prices, near = np.clip(found.x[:count] * unit, lower, upper), SUM_ERROR * unit
        weights = np.maximum(-found.ineqlin.marginals[: len(planes)], 0.0)
        is_upper, is_lower = (prices >= upper - near) & (upper > 0), (prices <= lower + near) & (lower > 0)
        side = np.where(is_upper, 1.0, np.where(is_lower, -1.0, 0.0))
        return Lowest(prices, float(found.fun) * unit, weights / weights.sum(), side)

    def found(self, start: Prices, share: float) -> FlowOptimum:
        """Returns nearly the optimum of the linear programme. Its value is a bound on that of the optimum, by about `share` above it.

        Parameters
        ----------
        start : dict
            The first prices of limits; 0 of those without one.
        share : float
            The search ends when the planes promise less than this share of the value within the box.
        """
        planes = [self.plane(self.start(start))]
        best, unit, misses, again = planes[0], abs(planes[0].value) or 1.0, 0, 0
        box = Box(WIDTH * unit, np.ones(len(best.prices)), np.zeros(len(best.prices)))
        while True:
            half = box.around(best.prices, unit)
            lower, upper = np.maximum(best.prices - half, 0.0), np.where(self.holds, best.prices + half, 0.0)
            lowest = self.lowest(planes, lower, upper)
            promised = best.value - lowest.value
            if promised <= share * abs(best.value):
                if not lowest.side.any() or again == MOST_AGAIN:
                    break
                box, again = box.times(AGAIN), again + 1
                continue
            if len(planes) == MOST_PLANES:
                break
            # Halfway, since the planes promise too much far from the prices that they know.
            plane = self.plane((best.prices + lowest.prices) / 2)
            planes.append(plane)
            gained = best.value - plane.value
            misses = 0 if gained > 0 else misses + 1
            if gained > 0:
                best, box = plane, box.following(lowest.side)
            if gained > EXPECTED * promised:
                box = box.times(WIDER)
            elif misses == MISSES:
                box, misses = box.times(NARROWER), 0
        mean = sum(weight * it.unknowns for weight, it in zip(lowest.weights, planes) if weight > 0)
        return self.programme.optimum(mean.toarray()[0], best.value, self.priced(best.prices))

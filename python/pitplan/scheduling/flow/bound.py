"""The upper bound of all material flows of pushbacks, from Lagrange multipliers.

With a price on each limit in each year no schedule earns more than the sum of the prices times the limits, and the greatest value of benches
that are mined in order, a linear programme. There each block of a mined bench goes where it earns most, less the prices of what it uses: to a
process, to a stockpile until its best later year, or to waste, with dumps to the one that costs least. What lies on a stockpile at the start goes
where and when it earns most. A share of a bench is the same share of each of its blocks. A real stockpile, which blends, returns no block better
than that. This holds for any prices; those of the linear programme of parcels give nearly the least bound.
"""

from __future__ import annotations

from dataclasses import dataclass, replace
from functools import cached_property

import numpy as np
from numpy.typing import NDArray

from pitplan.scheduling.limits import ADVANCE, MAX, MIN, RUNNING, STOCK, Prices

from .closures import best_shares
from .material import FEED, Ore
from .model import FlowModel, by_end
from .programme import FlowProgramme, incidence


@dataclass(frozen=True)
class Waiting:
    """Ore that waits on a stockpile.

    Attributes
    ----------
    value : array, shape (units, years)
        What each unit earns that goes there in each year, discounted and less the prices of what it uses.
    until : int array, shape (units, years)
        The year, from 0, in which it is reclaimed; the number of years if it stays.
    process : int array, shape (units, years)
        The process that takes it if it is reclaimed in each year.
    """

    value: NDArray[np.float64]
    until: NDArray[np.int64]
    process: NDArray[np.int64]


@dataclass(frozen=True)
class Lagrangian:
    """The relaxation of a programme at prices of its limits.

    Attributes
    ----------
    programme : FlowProgramme
        Of a model whose ore may be parcels or single blocks.
    prices : dict
        The price of each limit.
    """

    programme: FlowProgramme
    prices: Prices

    @property
    def model(self) -> FlowModel:
        return self.programme.model

    def priced(self, amounts: dict[str, NDArray[np.float64]], whole: NDArray[np.float64]) -> NDArray[np.float64]:
        """Returns `whole`, shape (.., years), less the prices of amounts, each of shape (..)."""
        found = whole.copy()
        for (name, side), price in self.prices.items():
            if name in amounts and price.any():
                found -= amounts[name][..., None] * (-price if side == MIN else price)
        return found

    @cached_property
    def choices(self) -> tuple[NDArray[np.float64], NDArray[np.int64]]:
        """What each unit of ore earns beyond waste by the year in which it is mined, and where: 0 is waste, then follow the processes, then the
        stockpiles; both of shape (units, years)."""
        model, ore = self.model, self.model.ore
        # Ore that goes elsewhere saves the cost of its dump.
        saved = model.waste.ore.T @ self.dumping
        direct = self.priced(ore.amounts, model.gains * model.discounts)
        earned = [np.zeros((len(ore), model.years)), *(direct + np.where(ore.of(FEED)[:, :, None] > 0, saved, 0.0))]
        for number in range(len(model.stockpiles)):
            waits = self.waiting[number].value + saved
            earned.append(np.where(ore.accepted_by(number)[:, None], waits, -np.inf))
        best, place = earned[0], np.zeros((len(ore), model.years), dtype=np.int64)
        for number, other in enumerate(earned[1:], 1):
            place[other > best] = number
            best = np.maximum(best, other)
        return best, place

    def near_best(self, share: float) -> NDArray[np.bool_]:
        """Returns the flows that earn nearly as much at the prices as the best flow of their parcel in the year, and all other unknowns of the programme,
        shape (unknowns,). A tonne may earn less by this share of what a tonne of ore earns on average in its best process without prices.
        """
        model, ore = self.model, self.model.ore
        per_tonne = float(np.maximum(ore.gain.max(axis=0), 0.0).sum()) / max(float(ore.feed.sum()), 1.0)
        slack = share * per_tonne * ore.feed[:, None] * model.discounts
        saved, least = model.waste.ore.T @ self.dumping, self.choices[0] - slack
        direct = taken(ore, self.priced(ore.amounts, model.gains * model.discounts)) + saved >= least
        shape = (len(model.stockpiles), len(ore), model.years)
        stocked = np.array([it.value + saved >= least for it in self.waiting], dtype=bool).reshape(shape)
        reclaimed = [
            taken(it, self.priced(it.amounts, gains * model.discounts))
            for it, gains in zip(model.reclaims, model.reclaim_gains)
        ]
        again = np.array(reclaimed).reshape(len(model.stockpiles), ore.processes, *shape[1:])
        # What a tonne may earn in any later year.
        later = np.maximum.accumulate(again.max(axis=1, initial=-np.inf)[..., ::-1], axis=2)[..., ::-1]
        placed = np.maximum.accumulate(stocked, axis=2)
        is_late = (again >= later[:, None] - slack) & (again >= -slack)
        uses = (model.direct, model.stocked, model.stocked, model.reclaimed)
        parts = [mask[it.index] for it, mask in zip(uses, (direct, stocked, placed, is_late))]
        first, *_, opened, wasted = self.programme.sizes
        ones = np.ones(first, dtype=bool), np.ones(opened + wasted, dtype=bool)
        return np.concatenate([ones[0], *(part.ravel() for part in parts), ones[1]])

    @cached_property
    def dumping(self) -> NDArray[np.float64]:
        """What a tonne of waste of each set of dumps costs at least in each year, with the prices of their limits, shape (sets, years)."""
        return self.model.waste.at_prices(self.prices)

    @property
    def worths(self) -> NDArray[np.float64]:
        """What each unit of ore earns beyond waste, by the year in which it is mined, shape (units, years)."""
        return self.choices[0]

    @cached_property
    def waiting(self) -> tuple[Waiting, ...]:
        """What waits on each stockpile until the best later year, or to the end."""
        return tuple(self.waiting_on(number) for number in range(len(self.model.stockpiles)))

    def waiting_on(self, number: int) -> Waiting:
        model, ore, stockpile = self.model, self.model.reclaims[number], self.model.stockpiles[number]
        earned = taken(ore, self.priced(ore.amounts, model.reclaim_gains[number] * model.discounts))
        later = earned.max(axis=0, initial=-np.inf)
        # A tonne pays rent in each year at whose end it lies there.
        value = -ore.feed[:, None] * self.rent(stockpile.name)
        until = np.full(value.shape, model.years)
        for year in range(model.years - 2, -1, -1):
            is_next = later[:, year + 1] >= value[:, year + 1]
            value[:, year] += np.where(is_next, later[:, year + 1], value[:, year + 1])
            until[:, year] = np.where(is_next, year + 1, until[:, year + 1])
        return Waiting(
            value - stockpile.stacking_cost * ore.feed[:, None] * model.discounts, until, earned.argmax(axis=0)
        )

    def rent(self, stockpile: str) -> NDArray[np.float64]:
        """Returns the price of a tonne that lies on a stockpile at the end of each year: that of its capacity, less that of its minimum."""
        nothing, name = np.zeros(self.model.years), f"{STOCK}{stockpile}"
        return self.prices.get((name, MAX), nothing) - self.prices.get((name, MIN), nothing)

    @cached_property
    def earned(self) -> NDArray[np.float64]:
        """What each bench earns with its ore, less the prices of what it uses, by the year in which it is mined, shape (benches, years)."""
        model, benches = self.model, self.model.benches
        amounts = {name: model.mined(name) for name in model.problem.limits.names}
        amounts |= {
            f"{ADVANCE}{number}": (benches.pushback == number).astype(float) for number in np.unique(benches.pushback)
        }
        found = self.priced(amounts, model.mining_cash) - model.waste.rock @ self.dumping
        return np.asarray(found + incidence(model.ore.bench, len(benches)) @ self.worths)

    @property
    def of_limits(self) -> float:
        limits = {(it.name, it.side): it.sign * it.finite for it in self.programme.limits}
        return float(sum(price @ limits[key] for key, price in self.prices.items() if key in limits))

    @property
    def earned_by_running(self) -> NDArray[np.float64]:
        """What running up to the end of each year earns: the prices of limits that show it, less what the years cost, shape (years,)."""
        costs = self.programme.costs
        used = sum(
            (self.prices.get((it.name, RUNNING), 0.0) * it.amount for it in self.programme.bounding),
            np.zeros(len(costs)),
        )
        return np.asarray((used - costs).cumsum())

    @property
    def running(self) -> NDArray[np.float64]:
        """Whether the mine runs in each year: up to that with which it earns most, shape (years,)."""
        return (np.arange(self.model.years) <= self.earned_by_running.argmax()).astype(float)

    @cached_property
    def by_end(self) -> NDArray[np.float64]:
        """The shares of benches by the end of each year that are worth most if they are mined in order, each by each year no further, and no faster,
        than the limits of mining alone allow, shape (benches, years)."""
        reachable = self.programme.reachable.ravel()
        found = best_shares(by_end(self.earned).ravel(), self.programme.precedences, reachable)
        return found.reshape(-1, self.model.years)

    @cached_property
    def earned_by_lots(self) -> NDArray[np.float64]:
        """What the lots earn that lie on stockpiles at the start, by process and year in which they are reclaimed, shape (processes, lots, years). A lot
        that is reclaimed frees the capacity of its stockpile from then on."""
        model, lots = self.model, self.model.opening
        earned = taken(lots.ore, self.priced(lots.ore.amounts, model.opening_gains * model.discounts))
        for number, it in enumerate(model.stockpiles):
            rent = self.rent(it.name)[::-1].cumsum()[::-1]
            earned = earned + lots.on(number)[:, None] * rent
        return earned

    @cached_property
    def of_flows(self) -> float:
        """What benches and lots earn at the prices."""
        of_benches = float((by_end(self.earned) * self.by_end).sum())
        return of_benches + float(np.maximum(self.earned_by_lots.max(axis=(0, 2), initial=0.0), 0.0).sum())

    @property
    def value(self) -> float:
        """The bound. To mine nothing earns nothing, unless a minimum forbids it."""
        found = self.of_limits + float(self.earned_by_running.max(initial=-np.inf)) + self.of_flows
        return found if self.model.asks_least else max(found, 0.0)


def taken(ore: Ore, earned: NDArray[np.float64]) -> NDArray[np.float64]:
    """Returns what units earn in each process, shape (processes, units, years); -inf in a process that does not take them."""
    return np.where(ore.of(FEED)[:, :, None] > 0, earned, -np.inf)


def upper_bound(model: FlowModel, blocks: Ore, prices: Prices) -> float:
    """Returns the upper bound on the value of any flow of these blocks.

    Parameters
    ----------
    model : FlowModel
    blocks : Ore
        Its ore block by block.
    prices : dict
        The prices of the limits, such as those of the optimum for parcels.
    """
    return Lagrangian(FlowProgramme(replace(model, ore=blocks)), prices).value

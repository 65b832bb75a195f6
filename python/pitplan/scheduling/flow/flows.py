"""Flows of a schedule whose benches are given: the best by a linear programme, or the richest ore first."""

from __future__ import annotations

from dataclasses import dataclass, replace
from functools import cached_property
from typing import Optional

import numpy as np
from numpy.typing import NDArray

from pitplan.core.tolerances import SOLVER_SHARE
from pitplan.pushbacks.bench_table import CASH
from pitplan.scheduling.limits import Prices

from .model import FlowModel
from .programme import FlowOptimum, FlowProgramme

PARTS = ("mined", "direct", "stocked", "reclaimed", "opened", "dumped")


@dataclass(frozen=True)
class Flows:
    """What is mined of each bench in each year, and where its ore goes.

    Attributes
    ----------
    model : FlowModel
    mined : array, shape (benches, years)
        Shares of benches.
    direct : array, shape (processes, parcels, years)
        Shares of parcels that processes take in the year in which they are mined.
    stocked : array, shape (stockpiles, parcels, years)
        Shares that go to stockpiles.
    reclaimed : array, shape (stockpiles, processes, parcels, years)
        Shares that processes take from stockpiles.
    opened : array, shape (processes, lots, years)
        Shares of what lies on stockpiles at the start that processes take.
    dumped : array, shape (sets, dumps, years)
        Shares of the waste of each set that go to its dumps.
    """

    model: FlowModel
    mined: NDArray[np.float64]
    direct: NDArray[np.float64]
    stocked: NDArray[np.float64]
    reclaimed: NDArray[np.float64]
    opened: NDArray[np.float64]
    dumped: NDArray[np.float64]

    @property
    def fed(self) -> NDArray[np.float64]:
        """Shares of parcels by process and year."""
        return np.asarray(self.direct + self.reclaimed.sum(axis=0))

    @property
    def waste(self) -> NDArray[np.float64]:
        """Shares of parcels that go to waste, shape (parcels, years)."""
        return np.maximum(self.mined[self.model.ore.bench] - self.sent, 0.0)

    @property
    def sent(self) -> NDArray[np.float64]:
        """Shares of parcels that go to processes and stockpiles, shape (parcels, years)."""
        return np.asarray(self.direct.sum(axis=0) + self.stocked.sum(axis=0))

    @cached_property
    def wasted(self) -> NDArray[np.float64]:
        """Tonnes of waste by bench, set of dumps and year."""
        return self.model.waste.by_bench(self.mined, self.sent)

    @cached_property
    def placed(self) -> NDArray[np.float64]:
        """Tonnes that each dump takes in each year, shape (dumps, years)."""
        return np.asarray((self.wasted.sum(axis=0)[:, None] * self.dumped).sum(axis=0))

    @cached_property
    def of_benches(self) -> NDArray[np.float64]:
        """What flows of each bench in each year, by the names of the benches, shape (benches, years, names). Cash is not discounted."""
        return np.asarray(self.from_pit + self.from_stockpiles)

    @cached_property
    def from_pit(self) -> NDArray[np.float64]:
        """What flows of each bench as it is mined, shape (benches, years, names): rock, ore that is processed at once, and the costs of stacking
        and dumps."""
        model, ore = self.model, self.model.ore
        flows = model.problem.priced(self.mined[:, :, None] * model.benches.amounts[:, None, :])
        for number, name in enumerate(model.benches.names):
            if name in ore.amounts:
                np.add.at(flows[:, :, number], ore.bench, np.einsum("kp,kpt->pt", ore.of(name), self.direct))
        gained = np.einsum("kpt,kpt->pt", model.gains[:, :, : self.years], self.direct)
        gained -= np.einsum("sp,spt->pt", model.stacking, self.stocked)
        cash = flows[:, :, model.benches.names.index(CASH)]
        np.add.at(cash, ore.bench, gained)
        a_tonne = (self.dumped * model.waste.costs[:, None]).sum(axis=1)
        cash -= (self.wasted * a_tonne).sum(axis=1)
        return flows

    @cached_property
    def from_stockpiles(self) -> NDArray[np.float64]:
        """What flows of the ore of each bench as it is reclaimed, shape (benches, years, names)."""
        model, ore = self.model, self.model.ore
        flows = np.zeros((len(model.benches), self.years, len(model.benches.names)))
        for number, name in enumerate(model.benches.names):
            if name in ore.amounts:
                again = np.einsum("skp,skpt->pt", model.reclaimed_of(name), self.reclaimed)
                np.add.at(flows[:, :, number], ore.bench, again)
        gained = np.einsum("skpt,skpt->pt", model.reclaim_gains[..., : self.years], self.reclaimed)
        np.add.at(flows[:, :, model.benches.names.index(CASH)], ore.bench, gained)
        return flows

    @cached_property
    def of_opening(self) -> NDArray[np.float64]:
        """What flows in each year of what lay on stockpiles at the start, by the names of the benches, shape (years, names). Cash is not discounted."""
        model, names = self.model, self.model.benches.names
        found = np.stack([self.from_opening(name).sum(axis=(0, 1)) for name in names], axis=1)
        found[:, names.index(CASH)] = (model.opening_gains[..., : self.years] * self.opened).sum(axis=(0, 1))
        return found

    def from_opening(self, name: str) -> NDArray[np.float64]:
        """Returns what processing what lay on stockpiles at the start adds to an amount, shape (processes, lots, years)."""
        return np.asarray(self.model.opening.ore.of(name)[:, :, None] * self.opened)

    def processed(self, name: str) -> NDArray[np.float64]:
        """Returns what processing parcels adds to an amount, shape (processes, parcels, years)."""
        model = self.model
        again = np.einsum("skp,skpt->kpt", model.reclaimed_of(name), self.reclaimed)
        return np.asarray(model.ore.of(name)[:, :, None] * self.direct + again)

    def lying(self, number: int) -> NDArray[np.float64]:
        """Returns the tonnes of feed on a stockpile at the end of each year, shape (years,)."""
        moved = self.stocked[number] - self.reclaimed[number].sum(axis=0)
        lay = self.model.opening.on(number)
        return np.asarray(lay.sum() + np.cumsum(self.model.ore.feed @ moved - lay @ self.opened.sum(axis=0)))

    @property
    def years(self) -> int:
        return self.mined.shape[1]

    def used(self, name: str) -> NDArray[np.float64]:
        """Returns what flows of a limited amount in each year, shape (years,)."""
        fed = self.processed(name).sum(axis=(0, 1)) + self.from_opening(name).sum(axis=(0, 1))
        return np.asarray(self.model.mined(name) @ self.mined + fed)

    def used_in(self, name: str, process: int) -> NDArray[np.float64]:
        """Returns what a process takes of an amount in each year, shape (years,)."""
        return np.asarray(self.processed(name)[process].sum(axis=0) + self.from_opening(name)[process].sum(axis=0))

    @property
    def earned(self) -> NDArray[np.float64]:
        """What each bench earns, discounted, without period costs, shape (benches,)."""
        return self.of_benches[:, :, self.model.benches.names.index(CASH)] @ self.model.discounts[: self.years]

    @property
    def value(self) -> float:
        """The net present value, in the currency."""
        opened = self.of_opening[:, self.model.benches.names.index(CASH)] @ self.model.discounts[: self.years]
        return float(self.earned.sum() + opened - self.model.problem.costs(self.moved).sum())

    @property
    def best_end(self) -> int:
        """The number of years after which the flows are worth most if nothing moves later, the last of several."""
        cash = self.model.benches.names.index(CASH)
        by_year = self.of_benches[:, :, cash].sum(axis=0) + self.of_opening[:, cash]
        moves = self.moved.any(axis=0)
        earned = by_year * self.model.discounts[: self.years] - self.model.problem.costs_of_years(self.years)
        # Years after the last one that moves cost nothing.
        until = np.append(0.0, earned.cumsum())[: int(np.flatnonzero(moves).max(initial=-1)) + 2]
        return int(len(until) - 1 - until[::-1].argmax())

    @property
    def moved(self) -> NDArray[np.float64]:
        """What is mined and fed by year, in rows: shape (rows, years)."""
        fed = [it.reshape(np.prod(it.shape[:2], dtype=int), self.years) for it in (self.fed, self.opened)]
        return np.concatenate([self.mined, *fed])

    def until(self, year: int) -> Flows:
        """Returns the flows up to a year; nothing moves in later years."""
        runs = np.arange(self.years) < year
        parts = {name: getattr(self, name) * runs for name in PARTS}
        return replace(self, **parts)

    def cut(self, years: int) -> Flows:
        """Returns the flows of the first years only."""
        parts = {name: getattr(self, name)[..., :years] for name in PARTS}
        return replace(self, **parts)

    @property
    def last(self) -> int:
        """The last year, from 1, in which anything moves; 0 if nothing does."""
        moved = self.moved.any(axis=0)
        return int(np.flatnonzero(moved)[-1]) + 1 if moved.any() else 0


def none_of(model: FlowModel, mined: NDArray[np.float64]) -> Flows:
    """Returns flows in which all that is mined is waste, with dumps on the cheapest ones."""
    shape, count = (model.ore.processes, len(model.ore), model.years), len(model.stockpiles)
    opened = np.zeros((model.ore.processes, len(model.opening.ore), model.years))
    dumped = model.waste.shares(np.zeros((model.waste.sets, len(model.dumps), model.years)))
    return Flows(
        model, mined, np.zeros(shape), np.zeros((count, *shape[1:])), np.zeros((count, *shape)), opened, dumped
    )


def best(model: FlowModel, mined: NDArray[np.float64], fed_until: Optional[int] = None) -> Flows:
    """Returns the best flows of what is mined in all years, in which processes take nothing after a year, from 1.

    Raises
    ------
    PlanError
        If no flow meets the minimums.
    KeyboardInterrupt
        If the run is interrupted.
    """
    programme = FlowProgramme(model, mined, fed_until=fed_until)
    return flows_of(model, mined, programme.solved()) if len(programme.gain) else none_of(model, mined)


def flows_of(model: FlowModel, mined: NDArray[np.float64], found: FlowOptimum) -> Flows:
    """Returns the flows of an optimum of what is mined."""
    empty = none_of(model, mined)
    empty.direct[model.direct.index] = found.direct
    empty.reclaimed[model.reclaimed.index] = found.reclaimed
    empty.stocked[model.stocked.index] = found.stocked
    empty.opened[model.opened.index] = found.opened
    tonnes = np.zeros_like(empty.dumped)
    tonnes[model.waste.pairs[0], model.waste.pairs[1]] = np.maximum(found.dumped, 0.0)
    return replace(within(empty), dumped=model.waste.shares(tonnes))


def within(flows: Flows) -> Flows:
    """Returns the flows without the solver's tolerance: within what is mined, what is stocked, and the maxima of each year."""
    mined = flows.mined[flows.model.ore.bench]
    direct, stocked, reclaimed, opened = (
        np.where(part > SOLVER_SHARE, part, 0.0)
        for part in (flows.direct, flows.stocked, flows.reclaimed, flows.opened)
    )
    opened *= share_of(np.ones(opened.shape[1]), opened.sum(axis=(0, 2)))[:, None]
    direct *= share_of(mined, direct.sum(axis=0))
    stocked *= share_of(np.maximum(mined - direct.sum(axis=0), 0.0), stocked.sum(axis=0))
    stock = np.zeros(stocked.shape[:2])
    found = replace(flows, direct=direct, stocked=stocked, reclaimed=reclaimed, opened=opened)
    for year in range(flows.years):
        reclaimed[..., year] *= share_of(stock, reclaimed[..., year].sum(axis=1))[:, None]
        keep_maxima(found, year)
        stock = np.maximum(stock + stocked[..., year] - reclaimed[..., year].sum(axis=1), 0.0)
    return found


def share_of(most: NDArray[np.float64], used: NDArray[np.float64]) -> NDArray[np.float64]:
    """Returns by what to multiply what is used so that it is at most `most`."""
    return np.divide(most, used, out=np.ones_like(used), where=used > most)


def keep_maxima(flows: Flows, year: int) -> None:
    """Scales, in place, what is fed in a year down to each maximum above 0. Limits on grades, whose maximum is 0, hold for any scale."""
    model, ore = flows.model, flows.model.ore
    limits, blended = model.problem.limits, model.blended
    for name, most in zip(limits.most, limits.of_year(year + 1)):
        if not model.is_of_ore(name) or name in blended:
            continue
        amounts = ore.of(name)
        again = model.reclaimed_of(name) * flows.reclaimed[..., year]
        lay = model.opening.ore.of(name) * flows.opened[..., year]
        fed = (amounts * flows.direct[:, :, year]).sum() + again.sum() + lay.sum()
        free = max(float(most - model.mined(name) @ flows.mined[:, year]), 0.0)
        if fed > free:
            takes = (amounts > 0).any(axis=1) | (model.opening.ore.of(name) > 0).any(axis=1)
            flows.direct[takes, :, year] *= free / fed
            flows.reclaimed[:, takes, :, year] *= free / fed
            flows.opened[takes, :, year] *= free / fed


def richest_first(model: FlowModel, mined: NDArray[np.float64], prices: Optional[Prices] = None) -> Flows:
    """Returns flows in which each year's ore goes where it gains most per tonne of feed, the richest first, as far as the maxima allow.

    Richer ore that a limit on a grade refused follows when other ore has made room for it. Nothing is stockpiled, and waste goes to the cheapest dump.
    With prices the gain is less those of the maxima, as the linear programme weighs it.
    """
    flows, feed = none_of(model, mined), model.ore.feed
    process, parcel = model.direct.index
    names = [name for name in model.problem.limits.most if model.ore.of(name).any()]
    takes = np.array([model.direct.of(model.ore.of(name)) for name in names]).reshape(len(names), len(process))
    of_years = dict(zip(model.problem.limits.most, model.problem.limits.of_years(model.years).T))
    free = np.array([of_years[name] - model.mined(name) @ mined for name in names]).reshape(len(names), model.years)
    saved = model.waste.ore.T @ model.waste.at_prices(prices or {})
    for year in np.flatnonzero(mined.any(axis=0)):
        gain = model.gains[process, parcel, year] * model.discounts[year] + saved[parcel, year]
        for name, part in zip(names, takes):
            gain = gain - part * (0.0 if prices is None else prices.get((name, "max"), np.zeros(model.years))[year])
        some = np.flatnonzero((gain > 0) & (mined[model.ore.bench[parcel], year] > 0))
        order = some[np.argsort(-gain[some] / feed[parcel[some]], kind="stable")]
        left, there = np.maximum(free[:, year], 0.0), mined[model.ore.bench, year].copy()
        is_sent = True
        while is_sent:
            is_sent = False
            for pair in order.tolist():
                share = room(takes[:, pair], left, there[parcel[pair]])
                if share > SOLVER_SHARE:
                    flows.direct[process[pair], parcel[pair], year] += share
                    there[parcel[pair]] -= share
                    left -= share * takes[:, pair]
                    # Ore that lowers a grade makes room for richer ore.
                    is_sent = is_sent or bool((takes[:, pair] < 0).any())
    return flows


def room(takes: NDArray[np.float64], left: NDArray[np.float64], there: float) -> float:
    """Returns the share of a parcel that fits into what is left of each limit."""
    some = takes > 0
    if not some.any():
        return there
    return float(max(min(there, (left[some] / takes[some]).min()), 0.0))

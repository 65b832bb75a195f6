"""The linear programme of material flow.

Unknowns, each by year: the share of a bench that is mined by the end of the year; the share of a parcel that a process takes as it is mined,
that goes to a stockpile, that lies there at the end of the year, and that a process takes from there; the share of a lot that lies on a
stockpile at the start and that a process takes; the share of the rock of a set of dumps that goes to each of them as waste; and, if years cost
anything, whether the mine runs. What a parcel sends nowhere is waste. A stockpile gives each parcel back unchanged.
"""

from __future__ import annotations

from collections.abc import Iterator, Sequence
from dataclasses import dataclass, field
from functools import cached_property
from typing import Any, Optional

import numpy as np
from numpy.typing import NDArray
from scipy.sparse import coo_matrix, csr_matrix, diags, eye, hstack, spmatrix, vstack

from pitplan.config.schedule import Effort
from pitplan.scheduling.highs import Programme
from pitplan.scheduling.highs_process import solve
from pitplan.scheduling.limits import ADVANCE, DUMP, DUMPED, MAX, MIN, OF_PLACES, RUNNING, STOCK, Prices

from .closures import precedences_of
from .model import FlowModel, by_end, furthest, order_rows


def kron(one: Any, other: Any) -> coo_matrix:
    """Returns the Kronecker product of two matrices."""
    first, second = coo_matrix(one), coo_matrix(other)
    (height, width), (rows, columns) = first.shape, second.shape
    row = first.row[:, None] * np.int64(rows) + second.row
    column = first.col[:, None] * np.int64(columns) + second.col
    data = first.data[:, None] * second.data
    return coo_matrix((data.ravel(), (row.ravel(), column.ravel())), shape=(height * rows, width * columns))


def side_by_side(parts: Sequence[Optional[Any]], widths: Sequence[int]) -> csr_matrix:
    """Returns matrices side by side, of given widths. None stands for zeros."""
    starts, height = np.cumsum([0, *widths]), next(part.shape[0] for part in parts if part is not None)
    there = [(part.tocoo(), start) for part, start in zip(parts, starts.tolist()) if part is not None]
    row = np.concatenate([part.row for part, _ in there])
    column = np.concatenate([part.col + start for part, start in there])
    data = np.concatenate([part.data for part, _ in there])
    return csr_matrix((data, (row, column)), shape=(height, int(starts[-1])))


@dataclass(frozen=True)
class FlowLimit:
    """A limit by year: `used @ unknowns` is at most `most` for a maximum, at least for a minimum.

    Attributes
    ----------
    name, side : str
        The limited amount, and MAX or MIN.
    used : csr matrix, shape (years, unknowns)
    amount : array, shape (years,)
        Infinite where there is no limit.
    """

    name: str
    side: str
    used: csr_matrix
    amount: NDArray[np.float64]

    @property
    def sign(self) -> float:
        return -1.0 if self.side == MIN else 1.0

    @property
    def scale(self) -> float:
        """A unit in which the limit is near 1."""
        greatest = float(np.abs(self.amount[self.holds]).max(initial=0.0))
        return greatest or float(np.abs(self.used.data).max(initial=0.0)) or 1.0

    @property
    def holds(self) -> NDArray[np.bool_]:
        """Whether there is a limit in each year."""
        return np.isfinite(self.amount)

    @property
    def finite(self) -> NDArray[np.float64]:
        """The amount, 0 where there is no limit."""
        return np.where(self.holds, self.amount, 0.0)

    @property
    def rows(self) -> tuple[csr_matrix, NDArray[np.float64]]:
        """The rows of the programme, at most; of years without a limit 0 is at most 0."""
        unit = self.sign / self.scale
        return diags(self.holds * unit) @ self.used, self.finite * unit


# Programmes with more unknowns than these take minutes.
MANY = 60_000


@dataclass(frozen=True)
class FlowOptimum:
    """The optimum of the linear programme; of a large one nearly, by `Multipliers`.

    Attributes
    ----------
    cumulative : array, shape (benches, years)
        The share of each bench that is mined by the end of each year.
    direct, stocked, reclaimed, opened : array, shape (uses, years)
        Shares of parcels and lots by the uses of `FlowModel.direct`, `FlowModel.stocked`, `FlowModel.reclaimed` and `FlowModel.opened`.
    running : array, shape (years,)
        How far the mine runs in each year; 1 if years cost nothing.
    value : float
        Its value, discounted, in the currency.
    cash : array, shape (years,)
        Its cash flow after period costs, not discounted; capex as if it flowed with the year's other cash.
    prices : dict
        The price of each limit.
    dumped : array, shape (pairs, years)
        Tonnes of waste by the pairs of `Waste.pairs`.
    """

    cumulative: NDArray[np.float64]
    direct: NDArray[np.float64]
    stocked: NDArray[np.float64]
    reclaimed: NDArray[np.float64]
    opened: NDArray[np.float64]
    running: NDArray[np.float64]
    value: float
    cash: NDArray[np.float64]
    prices: Prices = field(default_factory=dict)
    dumped: NDArray[np.float64] = field(default_factory=lambda: np.zeros((0, 0)))


@dataclass(frozen=True)
class FlowProgramme:
    """The programme of a model; with `mined`, shape (benches, years), of what is mined already, so that only its flows are chosen. Without `paced` it
    has no rows that only schedules of whole benches must keep. With `between`, two arrays of shape (benches, years), at least and at most these shares
    are mined by the end of each year. With `fed_until` processes take nothing after this year, from 1. With `kept`, shape (unknowns,), the other unknowns
    are 0."""

    model: FlowModel
    mined: Optional[NDArray[np.float64]] = None
    paced: bool = True
    between: Optional[tuple[NDArray[np.float64], NDArray[np.float64]]] = None
    fed_until: Optional[int] = None
    kept: Optional[NDArray[np.bool_]] = None

    @property
    def years(self) -> int:
        return self.model.years

    @cached_property
    def sizes(self) -> list[int]:
        """The number of unknowns: of mining, direct feed, to the stockpiles, in them, from them, from what lies there at the start, and of waste."""
        model, stocked = self.model, len(self.model.stocked)
        counts = [0 if self.mined is not None else len(model.benches), len(model.direct)]
        counts += [stocked, stocked, len(model.reclaimed), len(model.opened), len(model.waste.pairs[0])]
        return [count * self.years for count in counts]

    @property
    def is_large(self) -> bool:
        return sum(self.sizes) > MANY

    def row(self, *parts: Optional[spmatrix]) -> csr_matrix:
        """Returns rows of all unknowns from rows of those of mining, direct feed, to, in and from the stockpiles, and from what lies there at the
        start; the last ones may be left out."""
        return side_by_side(parts, self.sizes)

    @cached_property
    def gain(self) -> NDArray[np.float64]:
        """What each unknown adds to the value, discounted."""
        model = self.model
        mined = by_end(model.mining_cash).ravel() if self.mined is None else np.zeros(0)
        parts = [
            mined,
            (model.direct.of(model.gains) * model.discounts).ravel(),
            (-model.stocked.of(model.stacking)[:, None] * model.discounts).ravel(),
            np.zeros(self.sizes[3]),
            (model.reclaimed.of(model.reclaim_gains) * model.discounts).ravel(),
            (model.opened.of(model.opening_gains) * model.discounts).ravel(),
            -np.outer(self.of_pairs * model.waste.costs[model.waste.pairs[1]], model.discounts).ravel(),
        ]
        return np.concatenate(parts)

    @property
    def of_pairs(self) -> NDArray[np.float64]:
        """The tonnes that are one unit of the unknowns of waste, shape (pairs,)."""
        return self.model.waste.whole[self.model.waste.pairs[0]]

    @cached_property
    def unit(self) -> float:
        """The money that one unit of the programme's gain is."""
        return float(np.abs(self.gain).max(initial=0.0)) or 1.0

    @cached_property
    def each_year(self) -> csr_matrix:
        return csr_matrix(eye(self.years))

    @cached_property
    def until(self) -> csr_matrix:
        """From what is done in each year to what is done by its end."""
        return csr_matrix(np.tril(np.ones((self.years, self.years))))

    @cached_property
    def step(self) -> csr_matrix:
        """From what is done by the end of each year to what is done in it."""
        return csr_matrix(diags([1.0, -1.0], [0, -1], shape=(self.years, self.years)))

    def parcel_rows(self) -> tuple[csr_matrix, NDArray[np.float64]]:
        """No more of a parcel is sent anywhere in a year than is mined of it."""
        model, count = self.model, len(self.model.ore)
        takes = incidence(model.direct.parcel, count)
        stocked = incidence(model.stocked.parcel, count)
        if self.mined is not None:
            most = self.mined[model.ore.bench].ravel()
            return self.row(None, kron(takes, self.each_year), kron(stocked, self.each_year), None, None), most
        mined = kron(incidence(model.ore.bench, len(model.benches)).T, self.step)
        parts = (-mined, kron(takes, self.each_year), kron(stocked, self.each_year), None, None)
        return self.row(*parts), np.zeros(count * self.years)

    def stock_rows(self) -> Iterator[tuple[csr_matrix, NDArray[np.float64]]]:
        """What lies on a stockpile is what lay there and came, less what was reclaimed; no more is reclaimed than lay there a year before."""
        model, count = self.model, len(self.model.stocked)
        if not count:
            return
        place = np.full((len(model.stockpiles), len(model.ore)), -1)
        place[model.stocked.index] = np.arange(count)
        stockpile, _, parcel = model.reclaimed.index
        leaves = kron(incidence(place[stockpile, parcel], count), self.each_year)
        each, before = eye(count), eye(self.years, k=-1)
        nothing = np.zeros(count * self.years)
        balance = self.row(None, None, -kron(each, self.each_year), kron(each, self.step), leaves)
        yield balance, nothing
        yield -balance, nothing
        yield self.row(None, None, None, -kron(each, before), leaves), nothing

    def opening_rows(self) -> Iterator[tuple[csr_matrix, NDArray[np.float64]]]:
        """No more of a lot is reclaimed in all years than lies there at the start."""
        count = len(self.model.opening.ore)
        if len(self.model.opened):
            whole = kron(incidence(self.model.opened.parcel, count), np.ones((1, self.years)))
            yield self.row(None, None, None, None, None, whole), np.ones(count)

    def waste_rows(self) -> Iterator[tuple[csr_matrix, NDArray[np.float64]]]:
        """What is mined of the rock of a set and sent nowhere else goes to the dumps of the set: neither less nor more."""
        model, waste = self.model, self.model.waste
        if not waste.sets:
            return
        ore, rock = waste.ore / waste.whole[:, None], waste.rock.T / waste.whole[:, None]
        sent = [kron(csr_matrix(ore[:, uses.parcel]), self.each_year) for uses in (model.direct, model.stocked)]
        dumped = kron(incidence(waste.pairs[0], waste.sets), self.each_year)
        mined = None if self.mined is not None else -kron(csr_matrix(rock), self.step)
        rows = self.row(mined, *sent, None, None, None, dumped)
        due = np.zeros(waste.sets * self.years) if self.mined is None else (rock @ self.mined).ravel()
        yield rows, due
        yield -rows, -due

    @cached_property
    def limits(self) -> list[FlowLimit]:
        """All yearly limits, including stockpiles and dumps. Mining limits are left out if the mining is given."""
        model, years = self.model, self.years
        if self.mined is None:
            return [
                FlowLimit(it.name, it.side, self.used(it.name), it.of_years(years) - model.lay(it.name))
                for it in model.limits
            ]
        return [
            FlowLimit(
                it.name,
                it.side,
                self.used(it.name),
                it.of_years(years) - model.lay(it.name) - model.mined(it.name) @ self.mined,
            )
            for it in model.limits
            if model.is_of_ore(it.name) or it.name.startswith(OF_PLACES)
        ]

    def used(self, name: str) -> csr_matrix:
        """Returns what each unknown adds to what a limit holds in each year, shape (years, unknowns)."""
        if name.startswith(ADVANCE):
            sunk = csr_matrix((self.model.benches.pushback == int(name.removeprefix(ADVANCE)))[None].astype(float))
            return self.row(kron(sunk, self.step))
        if name.startswith(STOCK):
            return self.lying(self.model.places[name])
        if name.startswith((DUMP, DUMPED)):
            tonnes = np.where(self.model.waste.pairs[1] == self.model.places[name], self.of_pairs, 0.0)
            years = self.each_year if name.startswith(DUMP) else self.until
            return self.row(None, None, None, None, None, None, kron(csr_matrix(tonnes[None]), years))
        return self.amount(name)

    def lying(self, stockpile: int) -> csr_matrix:
        """Returns the tonnes of feed on a stockpile at the end of each year: ore stacked in the schedule, less what went of the opening stock."""
        model, (place, parcel) = self.model, self.model.stocked.index
        feed, lay = np.where(place == stockpile, model.ore.feed[parcel], 0.0), model.opening.on(stockpile)
        gone = kron(csr_matrix(-lay[model.opened.parcel][None]), self.until)
        return self.row(None, None, None, kron(csr_matrix(feed[None]), self.each_year), None, gone)

    def amount(self, name: str) -> csr_matrix:
        """Returns what each unknown adds to an amount in each year."""
        model = self.model
        mined = None if self.mined is not None else kron(csr_matrix(model.mined(name)[None]), self.step)
        amounts = model.ore.of(name)
        direct = kron(csr_matrix(model.direct.of(amounts)[None]), self.each_year)
        again = kron(csr_matrix(model.reclaimed.of(model.reclaimed_of(name))[None]), self.each_year)
        opened = kron(csr_matrix(model.opened.of(model.opening.ore.of(name))[None]), self.each_year)
        return self.row(mined, direct, None, None, again, opened)

    @cached_property
    def costs(self) -> NDArray[np.float64]:
        """What each year costs if the mine runs, discounted; nothing if mining is given."""
        return np.zeros(self.years) if self.mined is not None else self.model.problem.costs_of_years(self.years)

    @cached_property
    def programme(self) -> Programme:
        """All rows: order, parcels, stockpile, lots, waste, then limits, and limits of running years."""
        parts = [] if self.mined is not None else [self.order_rows()]
        parts += [self.parcel_rows(), *self.stock_rows(), *self.opening_rows(), *self.waste_rows()]
        parts += [it.rows for it in self.limits]
        matrix, most = vstack([rows for rows, _ in parts], format="csr"), np.concatenate([right for _, right in parts])
        programme = Programme(self.gain / self.unit, matrix, most, self.upper, np.zeros(sum(self.sizes), dtype=bool))
        return self.with_running_years(programme) if self.costs[1:].any() else programme

    @property
    def keeps_stock(self) -> bool:
        """Whether ore may lie on a stockpile at the end: if a dump is saved or a minimum is met by that. Otherwise such ore goes to waste, which
        earns no less."""
        return bool(self.model.waste.sets) or bool(self.model.of_places(STOCK, MIN).any())

    @property
    def upper(self) -> NDArray[np.float64]:
        """The greatest value of each unknown."""
        found = self.able_to_flow
        if self.sizes[3] and not self.keeps_stock:
            found[sum(self.sizes[:3]) : sum(self.sizes[:4])].reshape(-1, self.years)[:, -1] = 0.0
        return found if self.kept is None else np.where(self.kept, found, 0.0)

    @property
    def able_to_flow(self) -> NDArray[np.float64]:
        """The share of each bench that can be reached, and 1 for each flow, or 0 if its bench is not mined by then."""
        model, (mined, *_, opened, wasted) = self.model, self.sizes
        is_mined = None if self.mined is None else self.mined > 0
        if self.between is not None:
            least, most = self.between
            is_mined = most > np.pad(least[:, :-1], ((0, 0), (1, 0)))
        if is_mined is None:
            return np.concatenate([self.reachable.ravel(), np.ones(sum(self.sizes) - mined)])
        of_ore = is_mined[model.ore.bench]
        # From the year on in which the first of it may be placed; it is reclaimed later.
        placed = np.maximum.accumulate(of_ore, axis=1)
        later = np.pad(placed[:, :-1], ((0, 0), (1, 0)))
        feeds = np.arange(self.years) < (self.years if self.fed_until is None else self.fed_until)
        parts = [of_ore[model.direct.parcel] & feeds, of_ore[model.stocked.parcel], placed[model.stocked.parcel]]
        parts += [later[model.reclaimed.parcel] & feeds, np.tile(feeds, (opened // self.years, 1))]
        reach = self.reachable.ravel() if self.mined is None else np.zeros(0)
        return np.concatenate([reach, *(part.ravel().astype(float) for part in parts), np.ones(wasted)])

    @cached_property
    def in_order(self) -> csr_matrix:
        """The rows of mining alone, each at most 0: of the order of benches, and of their pace unless these are left out."""
        return self.model.ordered if self.paced else order_rows(self.model.benches, self.years)[0]

    @cached_property
    def precedences(self) -> csr_matrix:
        """The same rows as a matrix: True where the share of one bench and year, by row, is at most that of another, by column."""
        return precedences_of(self.in_order)

    def order_rows(self) -> tuple[csr_matrix, NDArray[np.float64]]:
        parts, sides = [self.in_order], [np.zeros(self.in_order.shape[0])]
        if self.between is not None:
            least = np.flatnonzero(self.between[0].ravel())
            parts.append(-eye(self.sizes[0], format="csr")[least])
            sides.append(-self.between[0].ravel()[least])
        return self.row(vstack(parts, format="csr"), None, None, None, None), np.concatenate(sides)

    @cached_property
    def reachable(self) -> NDArray[np.float64]:
        """The greatest share of each bench that can be mined by the end of each year, shape (benches, years)."""
        return (
            self.between[1]
            if self.between is not None
            else furthest(self.model.benches, self.model.of_mining, self.years)
        )

    @property
    def bounding(self) -> list[FlowLimit]:
        """The maxima that show whether the mine runs in a year: not those of stockpiles and dumps."""
        return [
            it
            for it in self.limits
            if it.side == MAX and np.isfinite(it.amount).all() and it.amount.any() and not it.name.startswith(OF_PLACES)
        ]

    def with_running_years(self, programme: Programme) -> Programme:
        """Returns the programme with an unknown for each year: how far the mine runs, at least as far as any limit is used and as it runs in the
        next year. The first year costs its whole in any case."""
        size, years = len(programme.gain), self.years
        used = [hstack([it.used / it.scale, -diags(it.amount / it.scale)]) for it in self.bounding]
        order = hstack([csr_matrix((years, size)), eye(years, k=1) - diags([1.0] * (years - 1) + [0.0])])
        rows = [hstack([programme.matrix, csr_matrix((programme.matrix.shape[0], years))]), *used, order]
        matrix = vstack(rows, format="csr")
        more = np.zeros(matrix.shape[0] - programme.matrix.shape[0])
        return Programme(
            np.append(programme.gain, -np.append(0.0, self.costs[1:]) / self.unit),
            matrix,
            np.append(programme.most, more),
            np.append(programme.upper, np.ones(years)),
            np.append(programme.whole, np.repeat(programme.whole.any(), years)),
        )

    def solved(self) -> FlowOptimum:
        """Solves the programme. Raises PlanError if there is no solution, KeyboardInterrupt if the run is interrupted."""
        programme, unknowns, rows = self.programme.reduced()
        found = solve(programme, Effort())
        assert found.unknowns is not None and found.prices is not None
        value = found.bound * self.unit - self.costs[0]
        whole, prices = np.zeros(len(unknowns)), np.zeros(len(rows))
        whole[unknowns], prices[rows] = found.unknowns, found.prices
        return self.optimum(whole, value, self.prices(prices))

    def holding(self, optimum: FlowOptimum) -> NDArray[np.bool_]:
        """Returns the flows that an optimum has, shape (unknowns,)."""
        parts = [np.zeros(self.sizes[0]), optimum.direct, optimum.stocked, np.zeros(self.sizes[3])]
        parts += [optimum.reclaimed, optimum.opened, optimum.dumped]
        return np.concatenate([part.ravel() > 0 for part in parts])

    @property
    def first_limit(self) -> int:
        """The row of the first limit; each limit has a row per year."""
        last = self.programme.matrix.shape[0]
        last -= self.years * (len(self.bounding) + 1) if self.costs[1:].any() else 0
        return last - len(self.limits) * self.years

    def optimum(self, unknowns: NDArray[np.float64], value: float, prices: Prices) -> FlowOptimum:
        """Returns the optimum by its parts; nothing is mined if that is worth more."""
        if value < 0 and self.mined is None and self.between is None and not self.model.asks_least:
            unknowns, value = np.zeros_like(unknowns), 0.0
        ends = np.cumsum(self.sizes)
        by_end_of_years, direct, stocked, _, reclaimed, opened, dumped = (
            part.reshape(-1, self.years) for part in np.split(unknowns[: ends[-1]], ends[:-1])
        )
        running = unknowns[ends[-1] :] if len(unknowns) > ends[-1] else np.ones(self.years)
        cumulative = np.maximum.accumulate(np.clip(by_end_of_years, 0.0, 1.0), axis=1)
        fed = (self.gain[ends[0] :] * unknowns[ends[0] : ends[-1]]).reshape(-1, self.years).sum(axis=0)
        mined = (
            (self.model.mining_cash * np.diff(cumulative, axis=1, prepend=0.0)).sum(axis=0) if len(cumulative) else 0.0
        )
        cash = (mined + fed - self.costs * running) / self.model.discounts
        tonnes = dumped * self.of_pairs[:, None]
        return FlowOptimum(cumulative, direct, stocked, reclaimed, opened, running, value, cash, prices, tonnes)

    def prices(self, of_rows: NDArray[np.float64]) -> Prices:
        """Returns the prices of the limits, from the dual value of each row."""
        count = len(self.limits)
        first = self.first_limit + count * self.years
        before = np.split(of_rows[self.first_limit : first], max(count, 1))
        found = {(it.name, it.side): part * it.holds * self.unit / it.scale for it, part in zip(self.limits, before)}
        if self.costs[1:].any():
            after = np.split(of_rows[first:], len(self.bounding) + 1)
            found |= {(it.name, RUNNING): part * self.unit / it.scale for it, part in zip(self.bounding, after)}
        return found


def incidence(place: NDArray[np.int64], count: int) -> csr_matrix:
    """Returns a matrix of shape (count, items): 1 where an item has this place."""
    return csr_matrix((np.ones(len(place)), (place, np.arange(len(place)))), shape=(count, len(place)))

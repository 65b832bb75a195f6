"""A schedule of pushbacks as the texts that the proved program `pitschedule` checks.

A bench is a block with its rock, and each of its blocks of ore is one more, which earns nothing as waste. A bench comes first, then its ore from the
poorest to the richest, each after the one before; the next bench comes after the last. A schedule mines the same share of all of them. Others, which
hold ore back, are schedules of the texts too: the bound covers them, so it is a little higher than that of whole benches.
"""

from __future__ import annotations

from collections import deque
from collections.abc import Iterator
from dataclasses import dataclass
from functools import cached_property
from typing import Optional

import numpy as np
from numpy.typing import NDArray

from pitplan.core.tolerances import MILLIONTHS_ERROR, SOLVER_SHARE
from pitplan.scheduling.block_precedences import BlockPrecedences
from pitplan.scheduling.certificate import UNIT, Certificate, Shares, StatedLimit, Term, millionths, money_unit, rows_of
from pitplan.scheduling.limits import ADVANCE, MIN, STOCK, Prices

from .bound import Lagrangian
from .flows import Flows
from .material import FEED
from .model import FlowModel
from .programme import FlowProgramme


@dataclass(frozen=True)
class Destination:
    """Where ore goes.

    Attributes
    ----------
    process : int, optional
        The process that takes it; None: none does.
    stockpile : int, optional
        Where it lies before; None: it goes there directly, or to waste.
    lag : int
        How many years it lies there; if no process takes it, to the end.
    """

    process: Optional[int] = None
    stockpile: Optional[int] = None
    lag: int = 0

    def takes(self, model: FlowModel) -> NDArray[np.bool_]:
        """Returns whether each unit of ore may go there, shape (units,). What may not is waste there."""
        found = np.ones(len(model.ore), dtype=bool)
        if self.process is not None:
            found &= model.ore.of(FEED)[self.process] > 0
        return found if self.stockpile is None else found & model.ore.accepted_by(self.stockpile)

    def gain(self, model: FlowModel) -> NDArray[np.float64]:
        """Returns what whole units earn in the process, in the currency, shape (units,)."""
        if self.process is None:
            return np.zeros(len(model.ore))
        gains = model.gains if self.stockpile is None else model.reclaim_gains[self.stockpile]
        return np.where(self.takes(model), gains[self.process, :, 0], 0.0)

    def stacking(self, model: FlowModel) -> NDArray[np.float64]:
        """Returns what it costs to place whole units on the stockpile, shape (units,)."""
        if self.stockpile is None:
            return np.zeros(len(model.ore))
        return np.where(self.takes(model), model.stacking[self.stockpile], 0.0)

    def amounts(self, model: FlowModel, name: str) -> NDArray[np.float64]:
        """Returns what whole units add to an amount when the process takes them, shape (units,)."""
        if self.process is None:
            return np.zeros(len(model.ore))
        ore = model.ore if self.stockpile is None else model.reclaims[self.stockpile]
        return np.where(self.takes(model), ore.of(name)[self.process], 0.0)

    def named(self, processes: list[str], stockpiles: list[str]) -> tuple[str, str, int]:
        """Returns the names in the record: stockpile and process, empty if absent, and the years until the process takes the ore."""
        process = "" if self.process is None else processes[self.process]
        return "" if self.stockpile is None else stockpiles[self.stockpile], process, self.lag


def destinations_of(model: FlowModel) -> tuple[Destination, ...]:
    """Returns all destinations: waste, the processes, and each stockpile until each process takes the ore, or to the end."""
    found = [Destination(), *(Destination(process) for process in range(model.ore.processes))]
    for stockpile in range(len(model.stockpiles)):
        fed = [it for it in range(model.ore.processes) if Destination(it, stockpile).takes(model).any()]
        found += [Destination(process, stockpile, lag) for process in fed for lag in range(1, model.years)]
        found.append(Destination(None, stockpile, model.years))
    return tuple(found)


@dataclass(frozen=True)
class CertifiedShares:
    """The shares of a schedule.

    Attributes
    ----------
    flows : Flows
        The schedule, by parcels.
    destinations : tuple of Destination
        The first is waste.
    years : int
        How many years the texts have.
    """

    flows: Flows
    destinations: tuple[Destination, ...]
    years: int

    @cached_property
    def mined(self) -> NDArray[np.int64]:
        """The share of each bench that is mined in each year, in millionths, shape (benches, years). By no year's end more of a bench is mined than of
        one before it, and no year exceeds a limit of mining by what was rounded."""
        by_end = np.floor(np.clip(self.flows.mined.cumsum(axis=1), 0.0, 1.0) * UNIT + 0.5).astype(np.int64)
        for bench, others in enumerate(self.flows.model.benches.waits):
            for other in others:
                by_end[bench] = np.minimum(by_end[bench], by_end[other])
        by_end = np.maximum.accumulate(by_end, axis=1)
        for year in range(self.flows.years):
            by_end[:, year] = self.fitting(by_end[:, year], by_end[:, year - 1] if year else by_end[:, year] * 0, year)
        return np.diff(by_end, axis=1, prepend=0)

    def fitting(self, done: NDArray[np.int64], before: NDArray[np.int64], year: int) -> NDArray[np.int64]:
        """Returns what is mined of each bench by the end of a year if that year keeps the limits of mining: a millionth less of benches that exceed
        them, of the last ones first. `before` is what is mined by the end of the year before."""
        benches, found = self.flows.model.benches, done.copy()
        last_first = np.argsort(-benches.before.sum(axis=1), kind="stable").tolist()
        for amounts, most in self.limits_of_mining:
            over = sum(a * b for a, b in zip(amounts, (found - before).tolist())) - most[year] * UNIT
            some = [bench for bench in last_first if amounts[bench] > 0]
            while over > 0 and any(found[bench] > before[bench] for bench in some):
                for bench in some:
                    if over > 0 and found[bench] > before[bench]:
                        found[bench] -= 1
                        over -= amounts[bench]
        for bench in last_first[::-1]:
            for other in benches.waits[bench]:
                found[bench] = min(found[bench], found[other])
        return found

    @cached_property
    def limits_of_mining(self) -> list[tuple[list[int], list[int]]]:
        """What each whole bench uses of each limit of mining, and the limit by year, both in millionths."""
        model, years = self.flows.model, self.flows.years
        benches, limits = model.benches, model.of_mining
        found = [(model.mined(name), of_years) for name, of_years in zip(limits.most, limits.of_years(years).T)]
        if limits.advance is not None:
            sunk = [(benches.pushback == number).astype(float) for number in np.unique(benches.pushback)]
            found += [(it, limits.sinking(years)) for it in sunk]
        return [
            (millionths(amounts, down=True).tolist(), np.rint(most * UNIT).astype(np.int64).tolist())
            for amounts, most in found
            if np.isfinite(most).all()
        ]

    @cached_property
    def places(self) -> dict[Destination, int]:
        return {it: number for number, it in enumerate(self.destinations)}

    def from_stockpiles(self) -> Iterator[tuple[int, int, int, float]]:
        """Yields parcel, year, destination and share of what goes to stockpiles. What comes first leaves first."""
        flows = self.flows
        for stockpile, parcel in zip(*np.nonzero(flows.stocked.any(axis=2))):
            lies: deque[list[float]] = deque()
            for year in range(flows.years):
                for process in np.flatnonzero(flows.reclaimed[stockpile, :, parcel, year]):
                    due = float(flows.reclaimed[stockpile, process, parcel, year])
                    while due > 0 and lies:
                        taken = min(due, lies[0][1])
                        since = int(lies[0][0])
                        yield parcel, since, self.places[Destination(int(process), int(stockpile), year - since)], taken
                        due -= taken
                        lies[0][1] -= taken
                        if lies[0][1] <= 0:
                            lies.popleft()
                if flows.stocked[stockpile, parcel, year] > 0:
                    lies.append([year, float(flows.stocked[stockpile, parcel, year])])
            rest = self.places[Destination(None, int(stockpile), self.years)]
            yield from ((parcel, int(since), rest, share) for since, share in lies if share > SOLVER_SHARE)

    @cached_property
    def of_parcels(self) -> Shares:
        """The shares of parcels that do not go to waste, by parcel, year and destination."""
        process, parcel, year = np.nonzero(self.flows.direct)
        lines = np.array(list(self.from_stockpiles()), dtype=float).reshape(-1, 4)
        stocked = lines[:, :3].astype(np.int64)
        parcel, year = np.append(parcel, stocked[:, 0]), np.append(year, stocked[:, 1])
        first = [self.places[Destination(number)] for number in range(len(self.flows.direct))]
        to = np.append(np.array(first, dtype=np.int64)[process], stocked[:, 2])
        share = np.append(self.flows.direct[np.nonzero(self.flows.direct)], lines[:, 3])
        order = np.lexsort((to, year, parcel))
        return self.rounded(parcel[order], year[order], to[order], share[order])

    def rounded(
        self, parcel: NDArray[np.int64], year: NDArray[np.int64], to: NDArray[np.int64], share: NDArray[np.float64]
    ) -> Shares:
        """Returns shares, in the order of parcels and years, in millionths: together at most what is mined."""
        bench, years = self.flows.model.ore.bench, self.flows.years
        key, total = parcel * years + year, share.cumsum()
        is_first = np.append(True, key[1:] != key[:-1])[: len(key)]
        start = (total - share)[is_first][is_first.cumsum() - 1]
        whole, mined = self.mined[bench[parcel], year], self.flows.mined[bench[parcel], year]
        scale = np.divide(whole, mined, out=np.zeros(len(key)), where=mined > 0)
        until = np.minimum(np.floor((total - start) * scale + MILLIONTHS_ERROR).astype(np.int64), whole)
        before = np.where(is_first, 0, np.append(0, until[:-1])[: len(key)])
        return Shares(parcel, year, to, until - before)

    @cached_property
    def with_waste(self) -> Shares:
        """All shares of parcels, in their order."""
        found, bench, years = self.of_parcels, self.flows.model.ore.bench, self.flows.years
        left = self.mined[bench].ravel().copy()
        np.subtract.at(left, found.block * years + found.period, found.share)
        waste = np.flatnonzero(left)
        parts = (
            np.append(found.block, waste // years),
            np.append(found.period, waste % years),
            np.append(found.destination, np.zeros(len(waste), dtype=np.int64)),
            np.append(found.share, left[waste]),
        )
        order = np.argsort(parts[0], kind="stable")
        some = order[parts[3][order] > 0]
        return Shares(parts[0][some], parts[1][some], parts[2][some], parts[3][some])

    def of_blocks(self, parcel: NDArray[np.int64]) -> Shares:
        """Returns the shares of benches, of blocks of ore by their parcels, and of lots."""
        bench, year = np.nonzero(self.mined)
        found, count = self.with_waste, len(self.mined)
        lines = np.bincount(found.block, minlength=len(self.flows.model.ore))
        of_unit, first = lines[parcel], (lines.cumsum() - lines)[parcel]
        line = np.repeat(first - (of_unit.cumsum() - of_unit), of_unit) + np.arange(of_unit.sum())
        process, lot, later = np.nonzero(self.flows.opened)
        direct = np.array(
            [self.places[Destination(number)] for number in range(len(self.flows.opened))], dtype=np.int64
        )
        opened = np.floor(self.flows.opened[process, lot, later] * UNIT + MILLIONTHS_ERROR).astype(np.int64)
        some = opened > 0
        parts = (
            Shares(bench, year, np.zeros(len(bench), dtype=np.int64), self.mined[bench, year]),
            Shares(
                count + np.repeat(np.arange(len(parcel)), of_unit),
                found.period[line],
                found.destination[line],
                found.share[line],
            ),
            Shares(count + len(parcel) + lot[some], later[some], direct[process[some]], opened[some]),
        )
        names = ("block", "period", "destination", "share")
        return Shares(*(np.concatenate([getattr(part, name) for part in parts]) for name in names))


@dataclass(frozen=True)
class FlowCertificate:
    """What the texts of a schedule state.

    Attributes
    ----------
    model : FlowModel
        Its ore block by block.
    parcel : int array, shape (units,)
        The parcel of each block of ore.
    flows : Flows
        The schedule, by parcels.
    prices : dict
        The price of each limit.
    """

    model: FlowModel
    parcel: NDArray[np.int64]
    flows: Flows
    prices: Prices

    @property
    def made(self) -> Certificate:
        """The certificate. Raises PlanError if a number is out of range, or if the schedule exceeds a limit by more than rounding."""
        rows, shares = rows_of([self.stated(*key) for key in self.amounts], self.shares)
        discounts = millionths(self.model.discounts)
        return Certificate(len(self.destinations), self.values, discounts, rows, self.precedences, shares, self.unit)

    @cached_property
    def unit(self) -> int:
        """How many units of the currency one of the texts is."""
        model = self.model
        cash = (model.mining_cash / model.discounts, model.gains, model.reclaim_gains, model.opening_gains)
        return money_unit((*cash, model.stacking), (np.abs(it) for it in self.prices.values()))

    @cached_property
    def destinations(self) -> tuple[Destination, ...]:
        return destinations_of(self.model)

    # ---- blocks of the texts: benches, then blocks of ore, then lots

    def column(
        self,
        benches: NDArray[np.float64] | float = 0.0,
        units: NDArray[np.float64] | float = 0.0,
        lots: NDArray[np.float64] | float = 0.0,
    ) -> NDArray[np.float64]:
        """Returns the amounts of all blocks of the texts."""
        model, parts = self.model, (benches, units, lots)
        counts = (len(model.benches), len(model.ore), len(model.opening.ore))
        return np.concatenate([np.broadcast_to(it, count) for it, count in zip(parts, counts)]).astype(float)

    def worth(
        self,
        benches: NDArray[np.float64] | float,
        units: NDArray[np.float64] | float,
        lots: NDArray[np.float64] | float = 0.0,
    ) -> NDArray[np.int64]:
        """Returns the money of all blocks of the texts, in millionths of its unit."""
        return millionths(self.column(benches, units, lots) / self.unit)

    @cached_property
    def chain(self) -> NDArray[np.int64]:
        """The blocks of ore by bench, there from the poorest to the richest."""
        worth = Lagrangian(FlowProgramme(self.model), self.prices).worths.mean(axis=1)
        return np.lexsort((worth, self.model.ore.bench))

    @property
    def precedences(self) -> BlockPrecedences:
        benches, ore = self.model.benches, self.model.ore
        count, order = len(benches), self.chain
        bench = ore.bench[order]
        before, last = np.empty(len(ore), dtype=np.int64), np.arange(count)
        is_first = np.append(True, bench[1:] != bench[:-1])[: len(ore)]
        before[order] = np.where(is_first, bench, count + np.append(-1, order[:-1])[: len(ore)])
        last[bench] = count + order
        of_benches = [last[others] for others in benches.waits]
        sizes = [
            *map(len, of_benches),
            *np.ones(len(ore), dtype=int),
            *np.zeros(len(self.model.opening.ore), dtype=int),
        ]
        starts, predecessors = np.append(0, np.cumsum(sizes)), np.concatenate([*of_benches, before])
        return BlockPrecedences(starts.astype(np.uint32), predecessors.astype(np.uint32))

    def names(self, toes: NDArray[np.float64], cells: NDArray[np.int64]) -> list[str]:
        """Returns the name of each block of the texts: pushback and toe of a bench, `id` of a block of ore, stockpile of a lot."""
        benches, lots = self.model.benches, self.model.opening
        found = [f"bench {p} {toes[level]:.10g}" for p, level in zip(benches.pushback, benches.level)]
        found += [f"block {cell}" for cell in cells.tolist()]
        return found + [f"opening {self.model.stockpiles[number].name}" for number in lots.stockpile]

    # ---- values and limits

    @property
    def takes_lots(self) -> NDArray[np.bool_]:
        """Whether each process takes each lot, shape (processes, lots). One that it does not take stays where it lies."""
        return self.model.opening.ore.of(FEED) > 0

    @property
    def values(self) -> tuple[Term, ...]:
        """What the blocks of the texts are worth in each destination."""
        cash = self.model.mining_cash[:, 0] / self.model.discounts[0]
        lots = np.where(self.takes_lots, self.model.opening_gains[..., 0], 0.0)
        found = []
        for number, to in enumerate(self.destinations):
            gain = to.gain(self.model)
            if to.lag == 0:
                found.append(Term(number, self.worth(cash, gain, 0.0 if to.process is None else lots[to.process])))
                continue
            found.append(Term(number, self.worth(cash, -to.stacking(self.model))))
            found += [] if to.process is None else [Term(number, self.worth(0.0, gain), to.lag)]
        return tuple(found)

    @cached_property
    def amounts(self) -> dict[tuple[str, str], NDArray[np.float64]]:
        """The limits by name and side, each of shape (years,)."""
        model = self.model
        return {(it.name, it.side): it.of_years(model.years) - model.lay(it.name) for it in model.limits}

    def stated(self, name: str, side: str) -> StatedLimit:
        """Returns a limit with what blocks use of it, a minimum with turned signs. Amounts are rounded down, so that no schedule of the project exceeds a
        limit by rounding."""
        sign = -1 if side == MIN else 1
        terms = [
            Term(to, millionths(sign * amounts, down=True), lag)
            for to, amounts, lag in self.uses(name)
            if amounts.any()
        ]
        price = self.prices.get((name, side), np.zeros(self.model.years)) / self.unit
        # Rounded shares reclaim less of what lay on a stockpile at the start.
        is_loose = side == MIN or self.model.lay(name) > 0
        return StatedLimit(name, sign * self.amounts[name, side], price, tuple(terms), is_loose)

    def uses(self, name: str) -> Iterator[tuple[int, NDArray[np.float64], int]]:
        """Yields destination, amounts of blocks, and lag of what they add to a limit."""
        if name.startswith(STOCK):
            yield from self.lying(self.model.places[name])
        elif name.startswith(ADVANCE):
            sunk = self.column((self.model.benches.pushback == int(name.removeprefix(ADVANCE))).astype(float))
            yield from ((number, sunk, 0) for number in range(len(self.destinations)))
        else:
            yield from self.used(name)

    def used(self, name: str) -> Iterator[tuple[int, NDArray[np.float64], int]]:
        """Yields what blocks add to an amount, as `uses` does."""
        model, lots = self.model, self.model.opening.ore.of(name)
        for number, to in enumerate(self.destinations):
            amounts = to.amounts(model, name)
            if to.lag == 0:
                lot = 0.0 if to.process is None else lots[to.process]
                yield number, self.column(model.mined(name), amounts, lot), 0
            else:
                yield number, self.column(model.mined(name)), 0
                yield number, self.column(0.0, amounts), to.lag

    def lying(self, stockpile: int) -> Iterator[tuple[int, NDArray[np.float64], int]]:
        """Yields what blocks add to the feed that lies on a stockpile at the end of each year, next to what lies there at the start."""
        model = self.model
        for number, to in enumerate(self.destinations):
            if to.stockpile == stockpile:
                lies, years = self.column(0.0, np.where(to.takes(model), model.ore.of(FEED).max(axis=0), 0.0)), to.lag
            elif to.stockpile is None and to.process is not None:
                gone = self.takes_lots[to.process] * model.opening.on(stockpile)
                lies, years = self.column(0.0, 0.0, -gone), model.years
            else:
                continue
            yield from ((number, lies, lag) for lag in range(min(years, model.years)))

    @cached_property
    def shares(self) -> Shares:
        return CertifiedShares(self.flows, self.destinations, self.model.years).of_blocks(self.parcel)

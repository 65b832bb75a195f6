"""The material flow of pushbacks as a problem: benches, parcels of ore, limits, and stockpiles."""

from __future__ import annotations

from dataclasses import dataclass, replace
from functools import cached_property
from typing import Optional

import numpy as np
from numpy.typing import NDArray
from scipy.sparse import coo_matrix, csr_matrix, vstack

from pitplan.config.material import Dump, Stockpile
from pitplan.core.tolerances import SUM_ERROR
from pitplan.pits.best_worst_case import year_discounts
from pitplan.pushbacks.bench_table import ROCK, PushbackBenches
from pitplan.scheduling.bench_sequencing import Problem
from pitplan.scheduling.limits import ADVANCE, DUMP, DUMPED, MAX, MIN, STOCK, Limit, Limits

from .closures import best_shares, precedences_of
from .material import FEED, SET, Ore, Waste

# Over this many years a limit of mining keeps a bench behind another one.
SPAN = 3


def by_end(worths: NDArray[np.float64]) -> NDArray[np.float64]:
    """Returns, from what is earned where something is done in each year, by the last axis, what is earned by what is done by the year's end:
    this year's less the next one's."""
    return -np.diff(worths, axis=-1, append=0.0)


def order_rows(benches: PushbackBenches, years: int) -> tuple[csr_matrix, NDArray[np.float64]]:
    """Returns the rows by which no bench is mined less by the end of a later year, nor further than one that it waits for."""
    place = np.arange(len(benches) * years).reshape(len(benches), years)
    first = [place[:, :-1].ravel(), *(place[bench] for bench in range(len(benches)) for _ in benches.waits[bench])]
    second = [place[:, 1:].ravel(), *(place[other] for others in benches.waits for other in others)]
    less, more = np.concatenate(first), np.concatenate(second)
    row = np.arange(len(less))
    signs = np.repeat([1.0, -1.0], len(less))
    matrix = coo_matrix((signs, (np.tile(row, 2), np.concatenate([less, more]))), shape=(len(less), place.size))
    return matrix.tocsr(), np.zeros(len(less))


def pace_rows(benches: PushbackBenches, limits: Limits, years: int) -> csr_matrix:
    """Returns the rows by which a bench is mined no further by the end of a year than one above it in its pushback was some years before.

    The benches of a pushback are mined one after the other. So if by the end of a year a share x of bench k is mined, the limits of mining let no
    more be mined since than what lies between the share x of a bench j above it and that of k, if that is at least what they allow in these years.
    Each schedule of whole benches keeps these rows, and the linear programme, which starts benches before others are through, gains less. As they
    compare two shares, as those of the order do, a Lagrangian relaxation still has whole benches.
    """
    takes, most = limits.amounts(benches), limits.of_years(years)
    limited = [(takes[:, number], most[:, number]) for number in range(takes.shape[1])]
    limited.append((np.ones(len(benches)), limits.sinking(years)))
    place = np.arange(len(benches) * years).reshape(len(benches), years)
    pairs = [np.zeros((2, 0), dtype=np.int64)]
    for pushback in np.unique(benches.pushback):
        mine = np.flatnonzero(benches.pushback == pushback)
        for amounts, of_years in limited:
            for (first, last), above in kept_behind(amounts[mine], of_years).items():
                some = np.flatnonzero(above >= 0)
                pairs.append(np.stack([place[mine[some], last], place[mine[above[some]], first]]))
    less, more = np.unique(np.concatenate(pairs, axis=1), axis=1)
    row = np.arange(len(less))
    signs = np.repeat([1.0, -1.0], len(less))
    return coo_matrix((signs, (np.tile(row, 2), np.concatenate([less, more]))), shape=(len(less), place.size)).tocsr()


def kept_behind(amounts: NDArray[np.float64], most: NDArray[np.float64]) -> dict[tuple[int, int], NDArray[np.int64]]:
    """Returns, by two years, for each bench the lowest bench above it in its pushback that is mined as far by the first year as it is by the second.

    It is -1 if no bench qualifies, or if the relation follows from years between them.

    Parameters
    ----------
    amounts : array, shape (benches,)
        What each bench, from the top, takes of a limit.
    most : array, shape (years,)
        The limit, infinite without one.
    """
    until, found = amounts.cumsum(), dict[tuple[int, int], NDArray[np.int64]]()
    before, lowest = until - amounts, np.arange(len(amounts))
    # What takes nothing of the limit is not held by it.
    held = np.maximum.accumulate(np.where(amounts > 0, lowest, -1))
    for span in range(1, min(SPAN, len(most) - 1) + 1):
        for last in range(span, len(most)):
            allowed = most[last - span + 1 : last + 1].sum()
            if not np.isfinite(allowed):
                continue
            loose = SUM_ERROR * max(allowed, 1.0)
            above = np.minimum(
                np.searchsorted(before, before - allowed + loose, side="right"),
                np.searchsorted(until, until - allowed + loose, side="right"),
            )
            found[last - span, last] = np.append(held, -1)[above - 1]
    return {years: np.where(implied(found, years) == above, -1, above) for years, above in found.items()}


def implied(found: dict[tuple[int, int], NDArray[np.int64]], years: tuple[int, int]) -> NDArray[np.int64]:
    """Returns the bench that a step of a year, and one over the rest, lead to; -2 if none exist."""
    first, last = years
    step, rest = found.get((last - 1, last)), found.get((first, last - 1))
    if first == last - 1 or step is None or rest is None:
        return np.full(len(found[years]), -2)
    return np.where(step >= 0, rest[step], -2)


def started_rows(benches: PushbackBenches, years: int) -> csr_matrix:
    """Returns the rows by which a bench is mined only if it is started, and started only if what it waits for is mined. Behind the shares stand, in
    the same order, the unknowns that say whether a bench is started."""
    size = len(benches) * years
    place = np.arange(size).reshape(len(benches), years)
    less = [place.ravel(), *(size + place[bench] for bench in range(len(benches)) for _ in benches.waits[bench])]
    more = [size + place.ravel(), *(place[other] for others in benches.waits for other in others)]
    first, second = np.concatenate(less), np.concatenate(more)
    rows = np.tile(np.arange(len(first)), 2)
    signs = np.repeat([1.0, -1.0], len(first))
    return coo_matrix((signs, (rows, np.concatenate([first, second]))), shape=(len(first), 2 * size)).tocsr()


def furthest(benches: PushbackBenches, limits: Limits, years: int) -> NDArray[np.float64]:
    """Returns the greatest share of each bench that can be mined by the end of each year if all before it is mined first, as fast as the limits
    allow, shape (benches, years)."""
    takes, most = limits.amounts(benches), limits.of_years(years).cumsum(axis=0)
    result = np.ones((len(benches), years))
    for number in range(takes.shape[1]):
        result = np.minimum(result, left_over(takes[:, number], benches.before, most[:, number]))
    if limits.advance is not None:
        above = benches.before & (benches.pushback[:, None] == benches.pushback)
        sunk = limits.sinking(years).cumsum()
        result = np.minimum(result, left_over(np.ones(len(benches)), above, sunk))
    return result


def left_over(takes: NDArray[np.float64], before: NDArray[np.bool_], most: NDArray[np.float64]) -> NDArray[np.float64]:
    """Returns by bench and year the share of a bench for which a limit leaves room once all before it is mined."""
    free = most - (before @ takes)[:, None] + SUM_ERROR * most
    with np.errstate(divide="ignore", invalid="ignore"):
        share = np.where(takes[:, None] > 0, free / takes[:, None], np.where(free >= 0, 1.0, 0.0))
    return np.clip(share, 0.0, 1.0)


def paying(earned: NDArray[np.float64], benches: PushbackBenches) -> NDArray[np.bool_]:
    """Returns a mask of the benches whose closed set, with all that they wait for, earns most."""
    return best_shares(earned, precedences_of(order_rows(benches, 1)[0]), np.ones(len(earned))) > 0.5


@dataclass(frozen=True)
class Uses:
    """Places and parcels that go together: process and parcel, stockpile and parcel, or stockpile, process and parcel.

    Attributes
    ----------
    index : tuple of int arrays, each of shape (uses,)
        The numbers of the places, and last that of the parcel.
    """

    index: tuple[NDArray[np.int64], ...]

    def __len__(self) -> int:
        return len(self.index[-1])

    @property
    def parcel(self) -> NDArray[np.int64]:
        return self.index[-1]

    def of(self, values: NDArray[np.float64]) -> NDArray[np.float64]:
        """Returns the values of the uses, from an array of shape (places, .., parcels, ..)."""
        return np.asarray(values[self.index])


@dataclass(frozen=True)
class OpeningOre:
    """What lies on stockpiles at the start, in lots.

    Attributes
    ----------
    ore : Ore
        The lots as the stockpiles give them back; they are of no bench.
    stockpile : int array, shape (lots,)
        The number of the stockpile of each.
    """

    ore: Ore
    stockpile: NDArray[np.int64]

    def on(self, stockpile: int) -> NDArray[np.float64]:
        """Returns the tonnes of feed of each lot on a stockpile, 0 of the others, shape (lots,)."""
        return np.where(self.stockpile == stockpile, self.ore.feed, 0.0)


@dataclass(frozen=True)
class FlowModel:
    """A problem of material flow.

    Attributes
    ----------
    problem : Problem
        Benches, with the amounts and the cash flow of mining alone; limits, discounting and period costs.
    ore : Ore
        The parcels.
    years : int
        How many years there are.
    stockpiles : tuple of Stockpile
    lots : OpeningOre, optional
        What lies there at the start; None: nothing.
    dumps : tuple of Dump
        Where waste goes; without any it goes anywhere at no cost.
    accepted : bool array, shape (sets, dumps), optional
        The sets of dumps that accept some rock; None without dumps.
    """

    problem: Problem
    ore: Ore
    years: int
    stockpiles: tuple[Stockpile, ...] = ()
    lots: Optional[OpeningOre] = None
    dumps: tuple[Dump, ...] = ()
    accepted: Optional[NDArray[np.bool_]] = None

    @cached_property
    def waste(self) -> Waste:
        """Rock by the set of dumps that accept it, and the dumps; no sets without dumps."""
        accepted = np.zeros((0, len(self.dumps)), dtype=bool) if self.accepted is None else self.accepted
        names = [f"{SET}{number}" for number in range(len(accepted))]
        rock = np.array([self.benches.of(name) for name in names]).reshape(len(names), len(self.benches)).T
        # A process takes the whole block or nothing of it.
        ore = np.array([self.ore.of(name).max(axis=0, initial=0.0) for name in names]).reshape(
            len(names), len(self.ore)
        )
        return Waste(
            self.dumps,
            accepted,
            rock,
            ore,
            self.ore.bench,
            least=self.of_places(DUMP, MIN),
            most=self.of_places(DUMP, MAX),
            held=self.of_places(DUMPED, MAX),
            discounts=self.discounts,
        )

    @cached_property
    def limits(self) -> tuple[Limit, ...]:
        """All limits, in the order of tables: maxima and minimums of amounts, the vertical advance of each pushback, and those of stockpiles and dumps
        that can bind in these years."""
        of = self.problem.limits
        pushbacks = [] if of.advance is None else np.unique(self.benches.pushback).tolist()
        advance = [replace(of.advance, name=f"{ADVANCE}{number}") for number in pushbacks if of.advance]
        of_places = (it for it in of.places.values() if it.name in self.places and it.in_years(self.years).any())
        return (*of.most.values(), *of.least.values(), *advance, *of_places)

    @cached_property
    def places(self) -> dict[str, int]:
        """The numbers of stockpiles and dumps by the names of their limits."""
        found = {f"{STOCK}{it.name}": number for number, it in enumerate(self.stockpiles)}
        return found | {f"{kind}{it.name}": number for kind in (DUMP, DUMPED) for number, it in enumerate(self.dumps)}

    def lay(self, name: str) -> float:
        """Returns the tonnes of feed that lie at the start on the stockpile of a limit; 0 of other limits."""
        return float(self.opening.on(self.places[name]).sum()) if name.startswith(STOCK) else 0.0

    def of_places(self, kind: str, side: str) -> NDArray[np.float64]:
        """Returns the limits of all stockpiles, or of what dumps take or hold, shape (places, years): infinite or 0 without one."""
        names = [it.name for it in self.stockpiles] if kind == STOCK else [it.name for it in self.dumps]
        found = [self.problem.limits.of_place(f"{kind}{name}", side, self.years) for name in names]
        return np.array(found).reshape(len(found), self.years)

    @property
    def benches(self) -> PushbackBenches:
        return self.problem.benches

    @cached_property
    def discounts(self) -> NDArray[np.float64]:
        """Discount factors of the years, shape (years,)."""
        return year_discounts(self.problem.settings, self.years)

    @cached_property
    def gains(self) -> NDArray[np.float64]:
        """Gain of whole parcels by process and year, not discounted, shape (processes, parcels, years)."""
        return self.ore.gains(self.problem.money, self.years)

    @cached_property
    def reclaims(self) -> tuple[Ore, ...]:
        """The ore as each stockpile gives it back."""
        return tuple(self.ore.reclaimed(it, self.problem.money) for it in self.stockpiles)

    @cached_property
    def reclaim_gains(self) -> NDArray[np.float64]:
        """Gain of whole parcels that are reclaimed, not discounted, shape (stockpiles, processes, parcels, years)."""
        found = [ore.gains(self.problem.money, self.years) for ore in self.reclaims]
        return np.array(found).reshape(len(found), *self.gains.shape)

    def reclaimed_of(self, name: str) -> NDArray[np.float64]:
        """Returns what whole parcels add to an amount if they are reclaimed, shape (stockpiles, processes, parcels)."""
        return np.array([ore.of(name) for ore in self.reclaims]).reshape(len(self.reclaims), *self.ore.gain.shape)

    @cached_property
    def stacking(self) -> NDArray[np.float64]:
        """What it costs to place each whole parcel on each stockpile, shape (stockpiles, parcels)."""
        costs = np.array([it.stacking_cost for it in self.stockpiles])
        return costs[:, None] * self.ore.feed

    @cached_property
    def direct(self) -> Uses:
        """Process and parcel of direct feed that gains in some year, or that a limit may ask for."""
        return Uses(np.nonzero(self.useful(self.gains)))

    @cached_property
    def reclaimed(self) -> Uses:
        """Stockpile, process and parcel, likewise."""
        accepted = [
            self.ore.accepted_by(number)[None] & self.useful(gains) for number, gains in enumerate(self.reclaim_gains)
        ]
        return Uses(np.nonzero(np.array(accepted, dtype=bool).reshape(self.reclaim_gains.shape[:3])))

    @cached_property
    def stocked(self) -> Uses:
        """Stockpile and parcel that some process may take from there."""
        found = np.zeros((len(self.stockpiles), len(self.ore)), dtype=bool)
        stockpile, _, parcel = self.reclaimed.index
        found[stockpile, parcel] = True
        return Uses(np.nonzero(found))

    @cached_property
    def opening(self) -> OpeningOre:
        """The lots that lie on stockpiles at the start; none without stockpiles."""
        if self.lots is not None and self.stockpiles:
            return self.lots
        nothing, nowhere = np.zeros((self.ore.processes, 0)), np.zeros(0, dtype=np.int64)
        empty = Ore(nowhere, nowhere, nothing, dict.fromkeys(self.ore.amounts, nothing))
        return OpeningOre(empty, nowhere)

    @cached_property
    def opening_gains(self) -> NDArray[np.float64]:
        """Gain of whole lots by process and year, not discounted, shape (processes, lots, years)."""
        return self.opening.ore.gains(self.problem.money, self.years)

    @cached_property
    def opened(self) -> Uses:
        """Process and lot of what lies on stockpiles at the start, likewise."""
        return Uses(np.nonzero(self.useful(self.opening_gains, self.opening.ore)))

    def useful(self, gains: NDArray[np.float64], ore: Optional[Ore] = None) -> NDArray[np.bool_]:
        """Returns whether each process takes each unit of ore, by default each parcel: if it gains in some year, or costs less than a dump, or if
        a limit may ask for ore that does not."""
        units, earned = self.ore if ore is None else ore, gains.max(axis=2, initial=-np.inf)
        pays = earned > 0
        if ore is None and self.waste.sets:
            rock, saved = self.waste.ore.sum(axis=0), self.waste.saved
            pays |= (units.of(FEED) > 0) & (np.isinf(saved) | (earned + rock * (0.0 if np.isinf(saved) else saved) > 0))
        return pays | (units.of(FEED) > 0) if self.asks_ore else pays

    @property
    def asks_ore(self) -> bool:
        """Whether a limit may ask for ore that does not pay by itself: a minimum, or a limit on a grade."""
        return self.asks_least or bool(self.blended)

    @property
    def asks_least(self) -> bool:
        """Whether a year must hold something at least, a stockpile must be emptied, or a dump must take something."""
        lying = np.array([self.opening.on(number).sum() for number in range(len(self.stockpiles))])
        is_emptied = (self.of_places(STOCK, MAX) < lying[:, None]).any()
        due = [self.of_places(kind, MIN).any() for kind in (STOCK, DUMP)]
        return bool(self.problem.limits.least) or bool(is_emptied) or any(due)

    @cached_property
    def blended(self) -> list[str]:
        """The limits whose amounts some ore lowers: it uses less than nothing, so that blends keep them."""
        ores = (self.ore, self.opening.ore)
        return [name for name in self.problem.limits.names if any((ore.of(name) < 0).any() for ore in ores)]

    def is_of_ore(self, name: str) -> bool:
        """Returns whether processing changes an amount."""
        return bool(self.ore.of(name).any() or self.opening.ore.of(name).any())

    def mined(self, name: str) -> NDArray[np.float64]:
        """Returns what each whole bench adds to an amount by mining alone."""
        return self.benches.of(name) if name in self.benches.names else np.zeros(len(self.benches))

    @cached_property
    def of_mining(self) -> Limits:
        """The limits of mining alone: those to which benches add and processing does not, and the vertical advance rate."""
        limits, mined = self.problem.limits, self.benches.names
        most = {name: it for name, it in limits.most.items() if name in mined and not self.is_of_ore(name)}
        return replace(limits, most=most, least={})

    @cached_property
    def paced(self) -> csr_matrix:
        """The rows of `pace_rows`."""
        return pace_rows(self.benches, self.of_mining, self.years)

    @cached_property
    def ordered(self) -> csr_matrix:
        """The rows of `order_rows`, then those of `pace_rows`; each is at most 0."""
        return vstack([order_rows(self.benches, self.years)[0], self.paced], format="csr")

    @cached_property
    def mining_cash(self) -> NDArray[np.float64]:
        """Discounted cash flow of mining each whole bench in each year, shape (benches, years)."""
        return self.problem.worths(self.years)

    @property
    def rock(self) -> NDArray[np.float64]:
        """Total material of each bench, in tonnes."""
        return self.benches.of(ROCK)

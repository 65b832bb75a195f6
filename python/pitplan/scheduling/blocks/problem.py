"""What is scheduled block by block: what each block earns by year, its predecessors, and what a year may hold.

With one destination this is the constrained pit limit problem (CPIT), with several the precedence constrained production scheduling
problem (PCPSP) of Espinoza, Goycoolea, Moreno and Newman (MineLib: a library of open pit mining problems, Annals of Operations Research
206, 2013).
"""

from __future__ import annotations

from collections.abc import Callable, Iterator, Sequence
from dataclasses import dataclass, replace
from fractions import Fraction
from functools import cached_property, partial
from typing import Any, Optional

import numpy as np
from numpy.typing import NDArray
from scipy.sparse import coo_matrix, csr_matrix

import pitshell
from pitplan.config.periods import YEAR
from pitplan.core.tolerances import SUM_ERROR
from pitplan.errors import PlanError
from pitplan.scheduling.block_precedences import BlockPrecedences
from pitplan.scheduling.limits import MAX, MIN

# Money as the whole numbers that the library of pits takes, always rounded upward.
#
# The library solves a closure exactly, in whole numbers. So what a block earns in a year is rounded up to a whole
# number of a unit, and what the library makes of these is at least what any schedule earns. The unit is a power of
# two, by which floats are divided exactly, and so small that the greatest amount takes 50 bits of the 64. A pit is
# the same in any unit: the library's millionths stand for it here.

BITS = 50
# An integer programme has about this number of blocks times years at most.
MOST_UNKNOWNS = 5_000
# Half the distance from 1 to the next float: the greatest error, as a share, of one sum or product.
ROUNDING = 2.0**-53


@dataclass(frozen=True)
class Whole:
    """Amounts as whole numbers of a unit of money, which is a power of two."""

    amounts: NDArray[np.int64]
    unit: float


def upward(values: NDArray[np.float64], error: NDArray[np.float64] | float = 0.0) -> Whole:
    """The least whole numbers that are at least `values`, each may be too small by its error, 0 or more."""
    most = float(np.abs(values).max(initial=0.0) + np.max(error, initial=0.0))
    exponent = int(np.frexp(most)[1]) - BITS if most else 0
    # The sum itself may be rounded down.
    safe = values + error
    safe += 2 * ROUNDING * np.abs(safe) * (np.asarray(error) > 0)
    return Whole(np.ceil(np.ldexp(safe, -exponent)).astype(np.int64), float(np.ldexp(1.0, exponent)))


def by_end(amounts: NDArray[Any]) -> NDArray[Any]:
    """From what is earned where something is done in each step, by the last axis, what is earned where it is done by the end of a step and
    not before, less the same of the next step: these add up to what the step earns."""
    return -np.diff(amounts, axis=-1, append=0)


def worth_of(pit: pitshell.Pit) -> int:
    """The pit's worth in the unit of its values, exactly."""
    return int(pit.worth.scaleb(6))


def least_float(exact: Fraction) -> float:
    """The least float that is not below a number."""
    near = float(exact)
    return float(np.nextafter(near, np.inf)) if Fraction(near) < exact else near


@dataclass(frozen=True)
class BlockLimit:
    """The most of a sum that a year may hold, and the least that it must.

    name as it is printed
    amounts  what each block adds to the sum in each destination, 0 or more unless the limit is signed: shape (blocks, destinations)
    most     by year, infinite where there is no limit: shape (years,)
    least    by year; None: 0 in all, or none at all of a signed limit
    signed   whether blocks may also take from the sum, as in that of content less a head grade times feed
    turned   whether this is a minimum as a maximum, with signs changed
    spans    by destination the first and the last year in which a block uses the limit, from 0 for the year in which it is mined: shape
             (destinations, 2); None: that year alone
    """

    name: str
    amounts: NDArray[np.float64]
    most: NDArray[np.float64]
    least: Optional[NDArray[np.float64]] = None
    signed: bool = False
    spans: Optional[NDArray[np.int64]] = None
    turned: bool = False

    @property
    def sides(self) -> list[str]:
        """Whether it is a maximum, a minimum, or both."""
        if self.turned:
            return [MIN]
        found = [MAX] if np.isfinite(self.most).any() else []
        return found + ([MIN] if not self.signed and (self.floor > 0).any() else [])

    @property
    def sign(self) -> float:
        """By which the price of a unit of the maximum is that of a unit of the amount."""
        return -1.0 if self.turned else 1.0

    @property
    def floor(self) -> NDArray[np.float64]:
        """The least by year: 0 where nothing is due, since no block takes from the sum; of a signed limit none exists."""
        if self.signed:
            return np.full_like(self.most, -np.inf)
        return np.zeros_like(self.most) if self.least is None else self.least

    @property
    def holds(self) -> bool:
        """Whether some block uses it in several years, as a stockpile on which it lies."""
        return self.spans is not None and bool((self.spans[:, 0] < self.spans[:, 1]).any())

    @cached_property
    def windows(self) -> list[tuple[NDArray[np.int64], range]]:
        """Destinations by the years after that of mining in which a block uses the limit."""
        spans = np.zeros((self.amounts.shape[1], 2), dtype=np.int64) if self.spans is None else self.spans
        distinct, number = np.unique(spans, axis=0, return_inverse=True)
        return [
            (np.flatnonzero(number.ravel() == k), range(first, last + 1))
            for k, (first, last) in enumerate(distinct.tolist())
        ]

    def by_use(self, mined: NDArray[np.float64]) -> NDArray[np.float64]:
        """Returns amounts by the year in which they use the limit, shape (years,), from those by destination and year of mining."""
        found = np.zeros(mined.shape[1])
        for destinations, lags in self.windows:
            of_years = mined[destinations].sum(axis=0)
            for lag in lags:
                found[lag:] += of_years[: len(found) - lag]
        return found

    def paid(self, prices: NDArray[np.float64]) -> NDArray[np.float64]:
        """Returns what a unit pays, from the prices of years: by the year in which a block is mined, shape (years,), or by destination and that
        year."""
        if self.spans is None:
            return prices
        found = np.zeros((len(self.spans), len(prices)))
        for destinations, lags in self.windows:
            of_years = sum(
                (np.append(prices[lag:], np.zeros(min(lag, len(prices)))) for lag in lags), np.zeros(len(prices))
            )
            found[destinations] = of_years
        return found

    def uses(self, shares: ShareIndex, years: int) -> csr_matrix:
        """Returns what each share adds to the sum of each year, shape (years, shares)."""
        rows, columns = [np.zeros(0, dtype=np.int64)], [np.zeros(0, dtype=np.int64)]
        amounts = self.amounts[shares.block, shares.destination]
        for destinations, lags in self.windows:
            some = np.flatnonzero(np.isin(shares.destination, destinations) & (amounts != 0))
            for lag in lags:
                year = shares.year[some] + lag
                rows.append(year[year < years])
                columns.append(some[year < years])
        row, column = np.concatenate(rows), np.concatenate(columns)
        return coo_matrix((amounts[column], (row, column)), shape=(years, len(amounts))).tocsr()


@dataclass(frozen=True)
class ShareIndex:
    """Shares of blocks that go to destinations: by share the block, the year in which it is mined, and the destination."""

    block: NDArray[np.int64]
    year: NDArray[np.int64]
    destination: NDArray[np.int64]


@dataclass(frozen=True)
class TotalLimit:
    """The least of a sum that all years together must hold, and the most that they may; amounts as of a limit."""

    name: str
    amounts: NDArray[np.float64]
    least: float = 0.0
    most: float = np.inf

    def each(self, change: Callable[[NDArray[np.float64]], NDArray[np.float64]]) -> TotalLimit:
        """The same with its amounts changed."""
        return replace(self, amounts=change(self.amounts))

    def used(self, share: NDArray[np.float64]) -> float:
        """The sum over blocks that go to destinations in these shares."""
        return float((self.amounts * share).sum())


@dataclass(frozen=True)
class BlockProblem:
    """What is scheduled.

    values  what a block earns where it is mined in a year and sent to a destination, discounted, in money: shape (blocks, destinations,
            years)
    precedences what must be mined in the same year or before
    limits  what a year may hold
    totals  what all years must, or may, hold together
    costs   what each year up to the last in which a block is mined or reclaimed costs, discounted, in money, 0 or more: shape (years,);
            None: nothing
    word    what messages call a year: period if some are not years
    lags    by destination the years after that of mining in which a stockpile gives the block back, 0 without one: shape (destinations,);
            None: 0 of all
    """

    values: NDArray[np.float64]
    precedences: BlockPrecedences
    limits: tuple[BlockLimit, ...]
    totals: tuple[TotalLimit, ...] = ()
    costs: Optional[NDArray[np.float64]] = None
    word: str = YEAR
    lags: Optional[NDArray[np.int64]] = None

    @property
    def running_costs(self) -> NDArray[np.float64]:
        """What each year costs while the mine runs."""
        return np.zeros(self.years) if self.costs is None else self.costs

    @property
    def sums(self) -> list[NDArray[np.float64]]:
        """The amounts of all limits and totals, in this order."""
        return [*(it.amounts for it in self.limits), *(it.amounts for it in self.totals)]

    @property
    def owes(self) -> bool:
        """Whether something is the least that must be held."""
        return any(total.least > 0 for total in self.totals) or any((limit.floor > 0).any() for limit in self.limits)

    @property
    def owing(self) -> NDArray[np.bool_]:
        """The blocks that add to a sum that has a least: a truth for each, shape (blocks,)."""
        found = np.zeros(self.blocks, dtype=bool)
        owed = [it.amounts for it in self.limits if (it.floor > 0).any()] + [
            total.amounts for total in self.totals if total.least > 0
        ]
        for amounts in owed:
            found |= (amounts > 0).any(axis=1)
        return found

    @property
    def easing(self) -> NDArray[np.bool_]:
        """The blocks that take from the sum of a signed limit, and so make room for others: a truth for each, shape (blocks,)."""
        found = np.zeros(self.blocks, dtype=bool)
        for limit in self.limits:
            found |= limit.signed & (limit.amounts < 0).any(axis=1)
        return found

    @property
    def blocks(self) -> int:
        return len(self.values)

    @property
    def destinations(self) -> int:
        return self.values.shape[1]

    @property
    def years(self) -> int:
        return self.values.shape[2]

    def in_order(self, order: NDArray[np.int64]) -> BlockProblem:
        """The same problem with its blocks in an order."""
        return self.each(lambda values: values[order], self.precedences.in_order(order))

    def of_blocks(self, kept: NDArray[np.bool_]) -> BlockProblem:
        """The problem of these blocks alone, which have none of the others as predecessors."""
        return self.each(lambda values: values[kept], self.precedences.within(kept))

    def of_some(self, blocks: NDArray[np.int64]) -> BlockProblem:
        """The problem of some blocks, without their precedences."""
        none = BlockPrecedences(np.zeros(len(blocks) + 1, dtype=np.uint32), np.zeros(0, dtype=np.uint32))
        return self.each(lambda values: values[blocks], none)

    def each(
        self, change: Callable[[NDArray[np.float64]], NDArray[np.float64]], precedences: BlockPrecedences
    ) -> BlockProblem:
        """The same problem with what is given by block changed."""
        limits = tuple(replace(it, amounts=change(it.amounts)) for it in self.limits)
        totals = tuple(it.each(change) for it in self.totals)
        return replace(self, values=change(self.values), precedences=precedences, limits=limits, totals=totals)

    def paid(self, prices: NDArray[np.float64]) -> list[NDArray[np.float64]]:
        """Returns what a unit of each limit and total pays at prices, by destination and year of mining, or by that year alone."""
        of_totals = prices[len(self.limits) :]
        return [*(limit.paid(by_year) for limit, by_year in zip(self.limits, prices)), *of_totals]

    @property
    def at_once(self) -> int:
        """The number of the first destination that is a stockpile, or of all."""
        return self.destinations if self.lags is None else int(np.append(self.lags > 0, True).argmax())


def demand_sound(problem: BlockProblem) -> None:
    """Raises PlanError where an amount is no number, or negative in a limit that is not signed, a limit is negative, a least above the most, or
    shapes differ: then no bound would hold."""
    shape = problem.values.shape
    if len(shape) != 3 or 0 in shape[1:] or not np.isfinite(problem.values).all():
        raise PlanError(
            "expected finite values by block, destination and year, with at least one destination and one year"
        )
    costs = problem.running_costs
    if costs.shape != shape[2:] or not np.isfinite(costs).all() or (costs < 0).any():
        raise PlanError("expected the costs of running by year, 0 or more")
    for limit in problem.limits:
        if limit.amounts.shape != shape[:2] or limit.most.shape != shape[2:]:
            raise PlanError(f"{limit.name}: expected amounts by block and destination, and the limit by year")
        if not np.isfinite(limit.amounts).all() or (limit.amounts < 0).any() and not limit.signed:
            raise PlanError(f"{limit.name}: an amount is negative or not a number")
        if limit.signed and limit.least is not None:
            raise PlanError(f"{limit.name}: found a minimum, expected a maximum alone, since amounts may be negative")
        if np.isnan(limit.most).any() or (limit.most < 0).any():
            raise PlanError(f"{limit.name}: the maximum of a year is negative or not a number")
        floor = np.zeros_like(limit.most) if limit.signed else limit.floor
        if floor.shape != limit.most.shape or not np.isfinite(floor).all() or (floor < 0).any():
            raise PlanError(f"{limit.name}: the minimum of a year is negative or not a number")
        if (floor > limit.most).any():
            year = int((floor > limit.most).argmax())
            raise PlanError(
                f"{limit.name}: the minimum of {problem.word} {year + 1} is {floor[year]:.10g}, above its maximum of {limit.most[year]:.10g}"
            )
    for total in problem.totals:
        amounts = total.amounts
        is_whole = amounts.shape == shape[:2] and np.isfinite(amounts).all() and not (amounts < 0).any()
        if not is_whole or not 0 <= total.least <= total.most or np.isinf(total.least):
            raise PlanError(
                f"{total.name}: expected amounts by block and destination of 0 or more, a minimum of 0 or more, and a maximum no less"
            )


# The nodes of a schedule: "this block is mined by the end of this year", by destination.
#
# With several destinations a block has a node for each of them in a year, one after the other: "mined before, or in
# this year and sent to one of the destinations up to this one". A node needs the next one of its block, in the year
# or in the next year, and the last one of a year those of the predecessors of its block. So a closed set of nodes is a
# schedule without limits (Bienstock and Zuckerberg, Solving LP relaxations of large-scale precedence constrained
# problems, IPCO 2010).
#
# Only the last node of a year is one that others depend on. So a maximum closure takes one node for each block and
# year, worth as much as the best destination of that year; `expanded` then gives the nodes of destinations
# .
#
# Blocks are ordered by the first year in which they can be mined, so that those of a year, with their predecessors,
# come first.

# What the library of pits takes.
MOST_NODES, MOST_PAIRS = 4_194_304, 67_108_864


@dataclass(frozen=True)
class Nodes:
    """The nodes year by year, there block by block, and there destination by destination.

    their problem, its blocks by rising first years
    first    the first year in which each block can be mined, from 0: shape (blocks,)
    """

    problem: BlockProblem
    first: NDArray[np.int64]

    @cached_property
    def counts(self) -> list[int]:
        """The number of blocks that can be mined by each year."""
        return np.searchsorted(self.first, np.arange(self.problem.years), side="right").tolist()

    @cached_property
    def before(self) -> list[int]:
        """The number of nodes before each year, and of all."""
        sizes = np.array(self.counts) * self.problem.destinations
        return [0, *np.cumsum(sizes).tolist()]

    def __len__(self) -> int:
        return self.before[-1]

    def by_year(self, of_nodes: NDArray) -> Iterator[NDArray]:
        """Yields what is given by node, for each year as an array of blocks and destinations."""
        for first, last in zip(self.before, self.before[1:]):
            yield of_nodes[first:last].reshape(-1, self.problem.destinations)

    def spread(self, values: NDArray) -> NDArray:
        """Returns what is given by block, destination and year, by node."""
        parts = [values[:count, :, year].ravel() for year, count in enumerate(self.counts)]
        return np.concatenate(parts)

    def gathered(self, of_nodes: NDArray) -> NDArray:
        """Returns what is given by node, by block, destination and year, and 0 if there is no node."""
        found = np.zeros(self.problem.values.shape, dtype=of_nodes.dtype)
        for year, (count, part) in enumerate(zip(self.counts, self.by_year(of_nodes))):
            found[:count, :, year] = part
        return found

    def expanded(self, mined: Sequence[NDArray[np.bool_]], best: NDArray[np.integer]) -> NDArray[np.bool_]:
        """Returns the nodes of blocks that go where they are worth most in the year in which they are mined.

        mined  by year whether each block that can be mined by then is mined by then
        best   by block and year the destination where it is worth most
        """
        parts, before, number = [], np.zeros(0, dtype=bool), np.arange(self.problem.destinations)
        for year, by_then in enumerate(mined):
            is_old = np.zeros(len(by_then), dtype=bool)
            is_old[: len(before)] = before & by_then[: len(before)]
            goes = by_then[:, None] & (number >= best[: len(by_then), year, None])
            parts.append((is_old[:, None] | goes).ravel())
            before = by_then
        return np.concatenate(parts)

    def of_year(self, year: int) -> BlockPrecedences:
        """Returns the precedences among the blocks that can be mined by a year."""
        precedences = self.problem.precedences
        starts = precedences.starts[: self.counts[year] + 1]
        return BlockPrecedences(starts, precedences.predecessors[: starts[-1]])

    def size_of(self, first: int, last: int) -> tuple[int, int]:
        """Returns the number of blocks by year, and of precedences, of the closure of the years from `first` up to `last`, without that."""
        counts, starts = self.counts[first:last], self.problem.precedences.starts
        return sum(counts), int(sum(int(starts[count]) for count in counts)) + sum(counts[:-1])

    def fits(self, first: int, last: int) -> bool:
        """Whether the library takes the closure of the years from `first` up to `last`, without that."""
        nodes, pairs = self.size_of(first, last)
        return nodes <= MOST_NODES and pairs <= MOST_PAIRS

    def of_years(self, first: int, last: int) -> BlockPrecedences:
        """Returns the precedences of blocks by year, of the years from `first` up to `last`, without that: mined by the end of a year a block
        is mined by the end of the next one too."""
        if last - first == 1:
            return self.of_year(first)
        parts, counts = [self.of_year(year) for year in range(first, last)], self.counts[first:last]
        base = np.concatenate([[0], np.cumsum(counts)])
        lengths = np.concatenate([np.diff(part.starts.astype(np.int64)) for part in parts])
        lengths[: base[-2]] += 1
        starts = np.concatenate([[0], np.cumsum(lengths)])
        predecessors = np.empty(starts[-1], dtype=np.uint32)
        for part, offset, count, following in zip(parts, base, counts, [*base[1:-1], None]):
            row = np.repeat(np.arange(count), np.diff(part.starts.astype(np.int64)))
            place = starts[offset + row] + np.arange(len(part.predecessors)) - part.starts[row]
            predecessors[place] = part.predecessors + np.uint32(offset)
            if following is not None:
                predecessors[starts[offset + np.arange(count) + 1] - 1] = following + np.arange(count)
        return BlockPrecedences(starts.astype(np.uint32), predecessors)


def demand_room(blocks: int, pairs: int, source: str = "") -> None:
    """Raises PlanError, which begins with the source, if these are more than the library takes."""
    if blocks > MOST_NODES or pairs > MOST_PAIRS:
        raise PlanError(
            f"{source}a schedule by block would have {blocks:,} blocks and {pairs:,} precedences, expected at most {MOST_NODES:,} and "
            f"{MOST_PAIRS:,}: set [table] reblock, or reduce [slopes] precedence_benches"
        )


def nodes_of(problem: BlockProblem, first: NDArray[np.int64]) -> Nodes:
    """Returns the nodes of a problem whose blocks stand by rising first years. Raises PlanError if those of a year are more than the library
    takes."""
    demand_room(problem.blocks, len(problem.precedences.predecessors))
    return Nodes(problem, first)


@dataclass(frozen=True)
class Assignment:
    """When blocks are mined, and where they go.

    year   of each block, from 0; as many as there are years where it is not mined: shape (blocks,)
    share  of each block that goes to each destination; of one that is not mined nothing: shape (blocks, destinations)
    """

    year: NDArray[np.int64]
    share: NDArray[np.float64]

    def within(self, blocks: slice) -> Assignment:
        """The schedule of these blocks alone."""
        return Assignment(self.year[blocks], self.share[blocks])

    def value(self, problem: BlockProblem) -> float:
        """What it earns, discounted, in money, less what the years cost up to the last in which a block is mined."""
        return float(self.worths(problem).sum() - problem.running_costs[: self.life(problem)].sum())

    def life(self, problem: BlockProblem) -> int:
        """The number of years up to the last in which a block is mined or reclaimed."""
        return int(self.last_years(problem)[self.year < problem.years].max(initial=-1)) + 1

    def last_years(self, problem: BlockProblem) -> NDArray[np.int64]:
        """The year in which the last of each block is mined or reclaimed."""
        if problem.lags is None:
            return self.year
        year = np.where(self.share > 0, self.year[:, None] + problem.lags, 0)
        return np.maximum(self.year, np.where(year < problem.years, year, 0).max(axis=1))

    def shortened(self, problem: BlockProblem) -> Assignment:
        """The schedule without the blocks of its last years if it earns more without these years: it ends with the best year, or mines nothing.
        With a minimum it stays as it is."""
        if problem.costs is None or problem.owes:
            return self
        if problem.lags is not None:
            ended = [
                it for it in map(partial(self.ended, problem), range(self.life(problem))) if it.is_allowed(problem)
            ]
            return max([self, *ended], key=lambda it: it.value(problem))
        earned = np.bincount(self.year, self.worths(problem), minlength=problem.years + 1)[: problem.years]
        by_end = np.concatenate([[0.0], np.cumsum(earned - problem.running_costs)])[: self.life(problem) + 1]
        stays = self.year < int(by_end.argmax())
        return Assignment(np.where(stays, self.year, problem.years), np.where(stays[:, None], self.share, 0.0))

    def ended(self, problem: BlockProblem, years: int) -> Assignment:
        """The schedule without the blocks of later years, and with what is not reclaimed before these as waste."""
        lags = np.zeros(problem.destinations, dtype=np.int64) if problem.lags is None else problem.lags
        share = np.where(self.year[:, None] < years, self.share, 0.0)
        is_late = (lags > 0) & (self.year[:, None] + lags >= years)
        share[:, 0] += np.where(is_late, share, 0.0).sum(axis=1)
        year = np.where(self.year < years, self.year, problem.years)
        return Assignment(year, np.where(is_late, 0.0, share))

    def without_leavings(self, problem: BlockProblem) -> Assignment:
        """The same with what stays on stockpiles as waste, if that keeps the limits and earns no less: waste often costs the same."""
        found = self.ended(problem, problem.years)
        least = self.value(problem) - SUM_ERROR * abs(self.value(problem))
        is_worse = found.lacking(problem) > self.lacking(problem) or found.value(problem) < least
        return self if is_worse or not found.is_allowed(problem) else found

    def without_crumbs(self) -> Assignment:
        """The same without shares that a solver leaves by rounding: the greatest share of the block takes them. A year's feed of crumbs alone would
        have a head grade."""
        crumbs = np.where(self.share <= SUM_ERROR, self.share, 0.0)
        share = self.share - crumbs
        share[np.arange(len(share)), share.argmax(axis=1)] += crumbs.sum(axis=1)
        return Assignment(self.year, share)

    def sent(self, goes: NDArray[np.int64]) -> Assignment:
        """The same with the shares of each destination in the one to which blocks go that are sent there: shape (blocks, destinations)."""
        share = np.zeros_like(self.share)
        np.add.at(share, (np.arange(len(share))[:, None], goes), self.share)
        return Assignment(self.year, share)

    def worths(self, problem: BlockProblem) -> NDArray[np.float64]:
        """What each block earns, discounted, in money; one that is not mined nothing."""
        mined = np.minimum(self.year, problem.years - 1)
        return (problem.values[np.arange(problem.blocks), :, mined] * self.share).sum(axis=1)

    def sums(self, problem: BlockProblem) -> NDArray[np.float64]:
        """What each limit's amounts add up to in each year: shape (limits, years)."""
        by_year = [self.sum(limit, limit.amounts, problem.years) for limit in problem.limits]
        return np.array(by_year).reshape(len(problem.limits), problem.years)

    def sum(self, limit: BlockLimit, amounts: NDArray[np.float64], years: int) -> NDArray[np.float64]:
        """What amounts add up to in each year in which they use a limit: shape (years,)."""
        taken = amounts * self.share
        if limit.spans is None:
            return np.asarray(np.bincount(self.year, taken.sum(axis=1), minlength=years + 1)[:years], dtype=float)
        return limit.by_use(np.stack([np.bincount(self.year, it, minlength=years + 1)[:years] for it in taken.T]))

    def slack(self, problem: BlockProblem) -> NDArray[np.float64]:
        """By how much each limit may be missed in each year, as sums of floats do: shape (limits, years)."""
        found = np.full((len(problem.limits), problem.years), SUM_ERROR)
        for number, limit in enumerate(problem.limits):
            if not limit.signed:
                found[number] += SUM_ERROR * limit.most
                continue
            found[number] += SUM_ERROR * self.sum(limit, np.abs(limit.amounts), problem.years)
        return found

    def exceeded(self, problem: BlockProblem) -> NDArray[np.bool_]:
        """Whether each year is above a limit by more than a hair."""
        most = np.array([limit.most for limit in problem.limits]).reshape(len(problem.limits), problem.years)
        return np.asarray((self.sums(problem) > most + self.slack(problem)).any(axis=0))

    def lacking(self, problem: BlockProblem) -> float:
        """What lacks of what years must hold at least, as shares of it added up; 0 where nothing does except for a hair."""
        floors = np.array([limit.floor for limit in problem.limits]).reshape(len(problem.limits), problem.years)
        short = [np.maximum(floors - self.sums(problem), 0.0) / np.where(floors > 0, floors, 1.0)]
        short += [
            np.array([max(total.least - total.used(self.share), 0.0) / (total.least or 1.0)])
            for total in problem.totals
        ]
        shares = np.concatenate([part.ravel() for part in short])
        return float(shares[shares > SUM_ERROR].sum())

    def is_better(self, other: Assignment, problem: BlockProblem) -> bool:
        """Whether less lacks than of another, or no more and it earns more."""
        mine, its = self.lacking(problem), other.lacking(problem)
        return mine < its - SUM_ERROR or (mine <= its + SUM_ERROR and self.value(problem) > other.value(problem))

    def keeps(self, problem: BlockProblem) -> bool:
        """Whether it is allowed, and nothing lacks."""
        return self.is_allowed(problem) and not self.lacking(problem)

    def is_allowed(self, problem: BlockProblem) -> bool:
        """Whether no block is mined before a predecessor, each goes whole to destinations, and no year, nor all together, is above a limit
        except for a hair."""
        is_mined = self.year < problem.years
        whole = np.abs(self.share.sum(axis=1) - is_mined) <= SUM_ERROR
        ordered = self.year[problem.precedences.users] >= self.year[problem.precedences.predecessors]
        within = all(it.used(self.share) <= it.most * (1 + SUM_ERROR) for it in problem.totals)
        is_kept = within and not self.exceeded(problem).any()
        return bool(whole.all() and (self.share >= 0).all() and ordered.all() and is_kept)


def nothing(problem: BlockProblem) -> Assignment:
    return Assignment(np.full(problem.blocks, problem.years), np.zeros((problem.blocks, problem.destinations)))

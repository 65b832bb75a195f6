"""Feasible schedules by block: years filled in the order of ranks, exchanges of single blocks, and blends that keep head grades."""

from __future__ import annotations

from collections.abc import Iterable, Iterator, Sequence
from dataclasses import dataclass, field, replace
from functools import cached_property
from itertools import chain, product
from typing import NamedTuple, Optional

import numpy as np
from numpy.typing import NDArray
from scipy.optimize import linprog
from scipy.sparse import csr_matrix, eye, kron, vstack

import pitshell
from pitplan.core.tolerances import SOLVER_SHARE, SOLVER_SUM, SUM_ERROR
from pitplan.scheduling.block_precedences import BlockPrecedences

from .problem import Assignment, BlockLimit, BlockProblem, ShareIndex, nothing, upward

# The bits of a word, and the number of blocks handled at once when the cones that hold them are marked.
BITS, AT_ONCE = 64, 4096
# The number of cones summed at once: their marks take 100 megabytes as floats.
SUMMED = 3_000


@dataclass(frozen=True)
class Ranks:
    """Blocks in an order in which each stands behind its predecessors.

    order   the blocks
    bounds  the blocks of rank k, whose longest chain of predecessors has k pairs, are `order[bounds[k]:bounds[k + 1]]`
    """

    order: NDArray[np.int64]
    bounds: NDArray[np.int64]

    def __iter__(self) -> Iterator[NDArray[np.int64]]:
        for first, last in zip(self.bounds, self.bounds[1:]):
            yield self.order[first:last]


def ranks_of(precedences: BlockPrecedences) -> Ranks:
    """The ranks of all blocks. Raises ValueError if the precedences have a cycle."""
    blocks = len(precedences.starts) - 1
    ones = np.ones(len(precedences.predecessors), dtype=np.int8)
    rows = csr_matrix(
        (ones, precedences.predecessors.astype(np.int64), precedences.starts.astype(np.int64)), shape=(blocks, blocks)
    )
    users = rows.tocsc()
    waiting = np.diff(precedences.starts.astype(np.int64))
    ready, found = np.flatnonzero(waiting == 0), []
    while len(ready):
        found.append(ready)
        followers, times = np.unique(rows_of(users.indptr, users.indices, ready), return_counts=True)
        waiting[followers] -= times
        ready = followers[waiting[followers] == 0]
    sizes = [len(rank) for rank in found]
    if sum(sizes) < blocks:
        raise ValueError("the precedences have a cycle")
    return Ranks(
        np.concatenate([*found, np.zeros(0, dtype=np.int64)]), np.concatenate([[0], np.cumsum(sizes)]).astype(np.int64)
    )


def places_of(starts: NDArray[np.integer], rows: NDArray[np.int64]) -> NDArray[np.int64]:
    """Where the entries of the given rows stand, row by row, in arrays whose row u stands from `starts[u]` to `starts[u + 1]`."""
    first = starts[rows].astype(np.int64)
    counts = starts[rows + 1].astype(np.int64) - first
    ends = np.cumsum(counts)
    total = int(ends[-1]) if len(ends) else 0
    before: NDArray[np.int64] = np.repeat(first - (ends - counts), counts)
    return before + np.arange(total, dtype=np.int64)


def rows_of(starts: NDArray[np.integer], entries: NDArray[np.integer], rows: NDArray[np.int64]) -> NDArray[np.integer]:
    """The entries of the given rows, row by row."""
    return entries[places_of(starts, rows)]


def greatest_of_predecessors(
    precedences: BlockPrecedences, ranks: Ranks, keys: NDArray[np.float64]
) -> NDArray[np.float64]:
    """For each block the greatest key of its cone: itself and its predecessors, directly or through others."""
    found = keys.copy()
    for rank in list(ranks)[1:]:
        above = found[rows_of(precedences.starts, precedences.predecessors, rank)]
        found[rank] = np.maximum(found[rank], np.maximum.reduceat(above, row_starts(precedences, rank)))
    return found


def row_starts(precedences: BlockPrecedences, rows: NDArray[np.int64]) -> NDArray[np.int64]:
    """Where each of the given rows, all with entries, begins in `rows_of` them."""
    counts = precedences.starts[rows + 1].astype(np.int64) - precedences.starts[rows]
    return np.cumsum(counts) - counts


def cone_sums(precedences: BlockPrecedences, ranks: Ranks, amounts: NDArray[np.float64]) -> NDArray[np.float64]:
    """What the cone of each block, itself and its predecessors directly or through others, adds up to of amounts of shape (blocks,
    kinds)."""
    sums = np.zeros_like(amounts)
    for first in range(0, len(amounts), AT_ONCE):
        marked = ranks.order[first : first + AT_ONCE]
        sums += summed(cones_with(precedences, ranks, marked), amounts[marked])
    return sums


def summed(cones: NDArray[np.uint64], amounts: NDArray[np.float64]) -> NDArray[np.float64]:
    """What the marked blocks of each cone, a bit for each, add up to."""
    parts = [np.zeros((0, amounts.shape[1]))]
    for start in range(0, len(cones), SUMMED):
        rows = np.unpackbits(
            cones[start : start + SUMMED].view(np.uint8), axis=1, bitorder="little", count=len(amounts)
        )
        parts.append(rows.astype(np.float64) @ amounts)
    return np.concatenate(parts)


def cones_with(precedences: BlockPrecedences, ranks: Ranks, marked: NDArray[np.int64]) -> NDArray[np.uint64]:
    """For each block which of the marked ones are in its cone: a bit for each, from the lowest of the first word of a row on."""
    held = np.zeros((len(precedences.starts) - 1, -(-len(marked) // BITS)), dtype=np.uint64)
    number = np.arange(len(marked))
    held[marked, number // BITS] = np.left_shift(np.uint64(1), (number % BITS).astype(np.uint64))
    for rank in list(ranks)[1:]:
        above = held[rows_of(precedences.starts, precedences.predecessors, rank)]
        held[rank] |= np.bitwise_or.reduceat(above, row_starts(precedences, rank), axis=0)
    return held


class Room:
    """What is left of each limit in each year."""

    def __init__(self, problem: BlockProblem) -> None:
        # Python's own lists: a block at a time, numpy's arrays are slower.
        self.left = [(limit.most * (1 + SUM_ERROR)).tolist() for limit in problem.limits]
        self.amounts = [limit.amounts.tolist() for limit in problem.limits]
        self.owed = [total.amounts.tolist() for total in problem.totals if total.least > 0]
        # What is left of each total that has a most, with its amounts.
        held = [total for total in problem.totals if np.isfinite(total.most)]
        self.held = [total.amounts.tolist() for total in held]
        self.left_in_all = [total.most * (1 + SUM_ERROR) for total in held]
        self.signed = [k for k, limit in enumerate(problem.limits) if limit.signed]
        # Of sums that have a least, by their numbers, what each year holds above it: below 0 where it lacks.
        self.above = {
            k: (-limit.floor * (1 - SUM_ERROR)).tolist()
            for k, limit in enumerate(problem.limits)
            if (limit.floor > 0).any()
        }
        # By the number of a limit that blocks use in other years than that of mining, by destination and year of mining, the years.
        self.spread = {
            number: used_years(limit, problem.years)
            for number, limit in enumerate(problem.limits)
            if limit.spans is not None
        }
        self.at_once = [
            (amounts, left)
            for number, (amounts, left) in enumerate(zip(self.amounts, self.left))
            if number not in self.spread
        ]

        # What each block uses of a limit wherever it goes.
        least = [limit.amounts.min(axis=1) for limit in problem.limits]
        self.anywhere = [
            (least[number].tolist(), left)
            for number, left in enumerate(self.left)
            if number not in self.spread and (least[number] > 0).any()
        ]

    def fits_somewhere(self, block: int, year: int) -> bool:
        """Whether a year may have room for a block: whether it has what the block uses wherever it goes."""
        for least, left in self.anywhere:
            if least[block] > left[year]:
                return False
        return True

    def years(self, number: int, destination: int, year: int) -> Sequence[int]:
        """The years in which a block uses a limit that is mined in a year."""
        return self.spread[number][destination][year] if number in self.spread else (year,)

    def fits(self, block: int, destination: int, year: int) -> bool:
        # A loop takes half the time of `all` here, where most of the time of filling goes.
        for amounts, left in self.at_once:
            if amounts[block][destination] > left[year]:
                return False
        for number, used in self.spread.items():
            amount, left = self.amounts[number][block][destination], self.left[number]
            if amount and any(amount > left[it] for it in used[destination][year]):
                return False
        return not self.held or self.fits_in_all(block, destination)

    def fits_in_all(self, block: int, destination: int) -> bool:
        """Whether the totals have room, in any year."""
        for amounts, left_in_all in zip(self.held, self.left_in_all):
            if amounts[block][destination] > left_in_all:
                return False
        return True

    def take(self, block: int, destination: int, year: int, sign: int = 1) -> None:
        for amounts, left in self.at_once:
            left[year] -= sign * amounts[block][destination]
        for number, used in self.spread.items():
            for it in used[destination][year]:
                self.left[number][it] -= sign * self.amounts[number][block][destination]
        for number, amounts in enumerate(self.held):
            self.left_in_all[number] -= sign * amounts[block][destination]
        for number, above in self.above.items():
            for it in self.years(number, destination, year):
                above[it] += sign * self.amounts[number][block][destination]

    def may_leave(self, block: int, now: tuple[int, int], then: tuple[int, int]) -> bool:
        """Whether a block that is taken out of its year and destination leaves them no shorter of a least than it was, and within signed limits,
        when it is taken in another year and destination."""
        for number in self.signed:
            mine, its = self.years(number, now[1], now[0]), self.years(number, then[1], then[0])
            if mine != its and any(self.left[number][year] < 0 for year in mine):
                return False
        for number, above in self.above.items():
            amount, other = self.amounts[number][block][now[1]], self.amounts[number][block][then[1]]
            its = self.years(number, then[1], then[0])
            for year in self.years(number, now[1], now[0]):
                stays = other if year in its else 0.0
                if stays < amount and above[year] + stays < 0:
                    return False
        return all(owed[block][then[1]] >= owed[block][now[1]] for owed in self.owed)


def used_years(limit: BlockLimit, years: int) -> list[list[list[int]]]:
    """The years in which a block uses a limit, by destination and year of mining."""
    spans = np.zeros((limit.amounts.shape[1], 2), dtype=np.int64) if limit.spans is None else limit.spans
    return [
        [list(range(year + first, min(year + last + 1, years))) for year in range(years)]
        for first, last in spans.tolist()
    ]


@dataclass(frozen=True)
class Filling:
    """How years are filled.

    problem     what is scheduled
    preference  by block and year its destinations, the one to be tried first before the others: shape (blocks, years, destinations)
    waits       whether a block waits for a year in which the first destination whose totals have room has it too, before it goes to another in an
                earlier one
    """

    problem: BlockProblem
    preference: NDArray[np.int64]
    waits: bool = False

    @cached_property
    def predecessors(self) -> list[list[int]]:
        precedences = self.problem.precedences
        bounds, blocks = precedences.starts.tolist(), precedences.predecessors.tolist()
        return [blocks[first:last] for first, last in zip(bounds, bounds[1:])]

    @cached_property
    def preferred(self) -> list[list[list[int]]]:
        return self.preference.tolist()

    def fill(self, sequence: BlockOrder) -> Assignment:
        """Each block of the order in the first year with room from the one on in which its predecessors are mined, if there is one."""
        problem, room = self.problem, Room(self.problem)
        year, destination = [problem.years] * problem.blocks, [0] * problem.blocks
        for block, first in zip(sequence.order.tolist(), sequence.earliest[sequence.order].tolist()):
            ready = max(map(year.__getitem__, self.predecessors[block]), default=0)
            place = self.place(block, range(max(first, ready), problem.years), room)
            if place is not None:
                year[block], destination[block] = place
                room.take(block, destination[block], year[block])
        return schedule_of(problem, np.array(year), np.array(destination))

    def place(self, block: int, years: range, room: Room) -> tuple[int, int] | None:
        """The first year with room for the block, and the destination."""
        preferred = self.preferred[block]
        if self.waits and room.held:
            # No year has room where a total has none.
            preferred = [sorted(of_year, key=lambda it: not room.fits_in_all(block, it)) for of_year in preferred]
        open_years: Iterable[int] = (year for year in years if room.fits_somewhere(block, year))
        first: Iterable[tuple[int, int]] = ()
        if self.waits:
            open_years = list(open_years)
            first = [(year, preferred[year][0]) for year in open_years]
        for year, destination in chain(first, ((it, place) for it in open_years for place in preferred[it])):
            if room.fits(block, destination, year):
                return year, destination
        return None

    def without_loss(self, sequence: BlockOrder) -> Assignment:
        """The filled years without what does not pay at its time, filled again without it as long as that gains."""
        best = nothing(self.problem)
        schedule = self.fill(sequence)
        while True:
            pruned = paying(self.problem, schedule).shortened(self.problem)
            value = pruned.value(self.problem)
            if value <= best.value(self.problem) * (1 + SUM_ERROR):
                return best
            best = pruned
            order = sequence.order[pruned.year[sequence.order] < self.problem.years]
            schedule = self.fill(BlockOrder(order, sequence.earliest))


def schedule_of(problem: BlockProblem, year: NDArray[np.int64], destination: NDArray[np.int64]) -> Assignment:
    """The schedule that sends each block to one destination whole."""
    share = (np.arange(problem.destinations) == destination[:, None]) & (year < problem.years)[:, None]
    return Assignment(year, share.astype(float))


def paying(problem: BlockProblem, schedule: Assignment) -> Assignment:
    """The schedule without what earns less, at its time, than it costs: the best of its parts that hold with each block its
    predecessors. Blocks that take from signed limits stay in the years that do not keep these without them."""
    stays = np.zeros(problem.blocks, dtype=bool)
    signed = [(limit.amounts * schedule.share).sum(axis=1) < 0 for limit in problem.limits if limit.signed]
    while True:
        pruned = without_losses(problem, schedule, stays)
        if not signed or pruned.is_allowed(problem):
            return pruned
        exceeded = np.append(pruned.exceeded(problem), False)
        more = np.any(signed, axis=0) & exceeded[schedule.year] & ~stays
        if not more.any():
            return schedule
        stays |= more


def without_losses(problem: BlockProblem, schedule: Assignment, stays: NDArray[np.bool_]) -> Assignment:
    """The best of the parts of a schedule that hold with each block its predecessors, and the blocks that stay."""
    is_mined = schedule.year < problem.years
    fixed = np.where(stays, pitshell.FORCED, np.where(is_mined, pitshell.FREE, pitshell.BARRED)).astype(np.uint8)
    whole = upward(schedule.worths(problem)).amounts
    kept = pitshell.solve(
        whole, (problem.precedences.starts, problem.precedences.predecessors), fixed, millionths=True
    ).in_pit
    return Assignment(np.where(kept, schedule.year, problem.years), np.where(kept[:, None], schedule.share, 0.0))


def preferences(problem: BlockProblem, prices: NDArray[np.float64]) -> NDArray[np.int64]:
    """By block and year its destinations, first those that earn most less the prices of what they take.

    prices  of a unit of each limit in each year, and of each total: shape (limits and totals, years)
    """
    return np.argsort(-worths_at(problem, prices), axis=1, kind="stable").transpose(0, 2, 1)


def worths_at(problem: BlockProblem, prices: NDArray[np.float64]) -> NDArray[np.float64]:
    """What blocks earn by destination and year of mining less the prices of what they take, shape (blocks, destinations, years)."""
    worth = problem.values.copy()
    # A least in all years is due wherever a block goes.
    held = [np.isfinite(it.most) for it in problem.totals]
    for amounts, paid, counts in zip(problem.sums, problem.paid(prices), [True] * len(problem.limits) + held):
        if counts:
            worth -= amounts[:, :, None] * paid
    return worth


# Orders of blocks made of the relaxation: by the years in which it is expected to mine them (Chicoisne, Espinoza,
# Goycoolea, Moreno and Rubio, A new algorithm for the open-pit mine production scheduling problem, Operations
# Research 60(3), 2012).

# By these shares of a block the year in which it is mined is guessed, besides the expected year.
PARTS = (0.1, 0.5, 0.9)
# Years before that in which the relaxation begins a block from which on it may be mined; None: any.
EARLIER = (0, 1, None)
# The relaxation leaves a block if it mines less than this share.
LEFT = 0.5
# A schedule mines a block if the relaxation mines at least one of these shares of it.
LEAST, ALL = (LEFT, SOLVER_SUM), 0.0


@dataclass(frozen=True)
class BlockOrder:
    """How years are filled.

    order     the blocks that are mined, each behind its predecessors
    earliest  of each block of the problem the first year in which it may be mined, from 0: shape (blocks,)
    """

    order: NDArray[np.int64]
    earliest: NDArray[np.int64]


def sequences(
    problem: BlockProblem, ranks: Ranks, cumulative: NDArray[np.float64], shares: tuple[float, ...] = LEAST
) -> Iterator[BlockOrder]:
    """Orders by the expected year, and by that in which a part of a block is mined, with years from which on blocks may be mined; each once.

    cumulative  the share of each block that the relaxation has mined by the end of each year: shape (blocks, years)
    shares      the least share that the relaxation mines of the blocks of an order
    """
    years = problem.years
    begun = np.where(cumulative[:, -1] > SOLVER_SUM, (cumulative > SOLVER_SUM).argmax(axis=1), years)
    expected = years - cumulative.sum(axis=1)
    keys = (expected, *((cumulative < part - SOLVER_SUM).sum(axis=1) for part in PARTS))
    orders, yielded = [in_order(problem, ranks, key, expected) for key in keys], set()
    for order, least, earlier in product(orders, shares, EARLIER):
        mined = order[cumulative[order, -1] >= least]
        if (mined.tobytes(), earlier) not in yielded:
            yielded.add((mined.tobytes(), earlier))
            earliest = np.zeros_like(begun) if earlier is None else np.maximum(begun - earlier, 0)
            yield BlockOrder(mined, earliest)


def in_order(problem: BlockProblem, ranks: Ranks, key: NDArray, second: NDArray) -> NDArray[np.int64]:
    """The blocks by rising keys, each behind its predecessors, whose keys may be greater by what the solver leaves open."""
    rank = np.empty(problem.blocks, dtype=np.int64)
    rank[ranks.order] = np.repeat(np.arange(len(ranks.bounds) - 1), np.diff(ranks.bounds))
    first, then = (
        greatest_of_predecessors(problem.precedences, ranks, np.round(keys.astype(float), 9)) for keys in (key, second)
    )
    return np.lexsort((rank, then, first))


# The number of passes over all blocks, at most.
MOST_PASSES = 6


@dataclass
class Moving:
    """A schedule while its blocks are moved; each goes to one destination whole."""

    filling: Filling
    year: list[int]
    destination: list[int]
    room: Room
    users: list[list[int]]
    last: int
    worth: list[list[list[float]]] = field(repr=False)

    @staticmethod
    def of(filling: Filling, schedule: Assignment) -> Moving:
        problem = filling.problem
        users: list[list[int]] = [[] for _ in range(problem.blocks)]
        destination = schedule.share.argmax(axis=1).tolist()
        # A later year than the last would cost as such.
        last = (problem.years if problem.costs is None else schedule.life(problem)) - 1
        values = problem.values.tolist()
        moving = Moving(filling, schedule.year.tolist(), destination, Room(problem), users, last, values)
        for block in np.flatnonzero(schedule.year < problem.years).tolist():
            moving.room.take(block, moving.destination[block], moving.year[block])
            for predecessor in filling.predecessors[block]:
                users[predecessor].append(block)
        return moving

    def move(self, block: int) -> bool:
        """Moves a block to the year and destination where it earns most, of those that have room; gives whether it has moved."""
        now = self.year[block], self.destination[block]
        first = max(map(self.year.__getitem__, self.filling.predecessors[block]), default=0)
        last = min(map(self.year.__getitem__, self.users[block]), default=self.last)
        worth = self.worth[block]
        self.room.take(block, now[1], now[0], -1)
        best = now
        for year, destination in product(range(first, last + 1), range(len(worth))):
            if worth[destination][year] > worth[best[1]][best[0]] and self.room.fits(block, destination, year):
                if self.room.may_leave(block, now, (year, destination)):
                    best = year, destination
        self.room.take(block, best[1], best[0])
        self.year[block], self.destination[block] = best
        return best != now


def moved(filling: Filling, ranks: Ranks, schedule: Assignment) -> Assignment:
    """The schedule, whose blocks go to one destination each, with blocks moved as long as that earns more: by turns from those that are no
    predecessor on, for what costs to be mined later, and from those on that have none, for what earns to be mined sooner.
    """
    moving = Moving.of(filling, schedule)
    mined = [block for block in ranks.order.tolist() if moving.year[block] < filling.problem.years]
    for order in (mined[::-1], mined) * (MOST_PASSES // 2):
        if not sum(moving.move(block) for block in order):
            break
    return schedule_of(filling.problem, np.array(moving.year), np.array(moving.destination))


def with_best_shares(
    problem: BlockProblem, schedule: Assignment, prices: Optional[NDArray[np.float64]] = None
) -> Assignment:
    """The schedule that mines the same blocks in the same years and earns most by where they go; the same schedule if none is found that is
    better, or keeps signed limits that it misses. With stockpiles each block goes to a few destinations at most: those that are best at
    the prices of limits."""
    if problem.lags is not None:
        prices = np.zeros((len(problem.sums), problem.years)) if prices is None else prices
        return better_of(problem, with_stockpiles(problem, schedule, prices), schedule)
    share, is_held = schedule.share.copy(), any(np.isfinite(it.most) for it in problem.totals)
    for year in range(problem.years if problem.destinations > 1 else 0):
        blocks = np.flatnonzero(schedule.year == year)
        if len(blocks):
            others = np.where(schedule.year[:, None] == year, 0.0, share) if is_held else None
            share[blocks] = best_shares(problem, blocks, year, share[blocks], others=others)
    return better_of(problem, Assignment(schedule.year, share), schedule)


def better_of(problem: BlockProblem, schedule: Assignment, other: Assignment) -> Assignment:
    """The schedule if it keeps the limits and is better than the other, or that does not keep them; otherwise the other."""
    if not schedule.is_allowed(problem):
        return other
    return schedule if schedule.is_better(other, problem) or not other.is_allowed(problem) else other


# Shares are chosen among FEW_ROUTES destinations at least, besides those that use no stockpile, and more while these make up to MOST_SHARES shares.
FEW_ROUTES, MOST_SHARES = 4, 20_000


def with_stockpiles(problem: BlockProblem, schedule: Assignment, prices: NDArray[np.float64]) -> Assignment:
    """The schedule with the shares of all years that earn most by a linear programme; the same schedule where HiGHS finds none."""
    blocks = np.flatnonzero(schedule.year < problem.years)
    if not len(blocks):
        return schedule
    year, routes = schedule.year[blocks], worths_at(problem, prices)[blocks, :, schedule.year[blocks]]
    row, destination = np.nonzero(chosen(problem, routes) | (schedule.share[blocks] > 0))
    index = ShareIndex(blocks[row], year[row], destination)
    gain = problem.values[index.block, destination, index.year]
    rows, most = rows_of_limits(problem, index, schedule)
    found = linprog(
        -gain / (float(np.abs(gain).max()) or 1.0),
        A_ub=rows,
        b_ub=most,
        A_eq=csr_matrix((np.ones(len(row)), (row, np.arange(len(row)))), shape=(len(blocks), len(row))),
        b_eq=np.ones(len(blocks)),
        bounds=(0, 1),
        method="highs-ds",
    )
    if found.status != 0:
        return schedule
    share = np.zeros_like(schedule.share)
    share[index.block, destination] = np.where(found.x > SOLVER_SHARE, np.minimum(found.x, 1.0), 0.0)
    share[blocks] /= share[blocks].sum(axis=1, keepdims=True)
    return Assignment(schedule.year, share)


def chosen(problem: BlockProblem, worths: NDArray[np.float64]) -> NDArray[np.bool_]:
    """Returns the destinations among which shares are chosen: all that use no stockpile, and a few that are worth most, shape (.., destinations)."""
    found = np.broadcast_to(np.arange(problem.destinations) < problem.at_once, worths.shape).copy()
    rows = worths.size // problem.destinations
    some = min(max(FEW_ROUTES, MOST_SHARES // max(rows, 1)), problem.destinations)
    np.put_along_axis(found, np.argpartition(-worths, some - 1, axis=-1)[..., :some], True, axis=-1)
    return found


def rows_of_limits(
    problem: BlockProblem, index: ShareIndex, schedule: Assignment
) -> tuple[csr_matrix, NDArray[np.float64]]:
    """The rows of shares in limits and totals, each at most as much: as shares of the limits, or of the largest amount. What is owed is no less than
    by the schedule."""
    rows, most, sums = [csr_matrix((0, len(index.block)))], [np.zeros(0)], schedule.sums(problem)
    for limit, held in zip(problem.limits, sums):
        used, unit = limit.uses(index, problem.years), float(np.abs(limit.amounts).max(initial=0.0)) or 1.0
        for sign, bound in (
            (1.0, limit.most),
            (-1.0, np.where(limit.floor > 0, np.minimum(limit.floor, held), np.inf)),
        ):
            some = np.isfinite(bound)
            rows.append(used[some] * (sign / unit))
            most.append(sign * bound[some] / unit)
    for total in problem.totals:
        used = csr_matrix(total.amounts[index.block, index.destination][None])
        unit = float(total.amounts.max(initial=0.0)) or 1.0
        if np.isfinite(total.most):
            rows.append(used / unit)
            most.append(np.array([total.most / unit]))
        if total.least > 0:
            rows.append(used / -unit)
            most.append(np.array([-min(total.least, total.used(schedule.share)) / unit]))
    return vstack(rows, format="csr"), np.concatenate(most)


class YearLimit(NamedTuple):
    """A limit of a year: the sum of `sign * amounts` over what goes to each destination, shape (blocks, destinations), is at most `sign * bound`."""

    amounts: NDArray[np.float64]
    bound: float
    sign: float = 1.0

    def holds(self, share: NDArray[np.float64]) -> bool:
        """Returns whether shares keep the limit except for a hair."""
        return bool(self.sign * ((self.amounts * share).sum() - self.bound) <= SUM_ERROR * abs(self.bound))


def limits_of_year(
    problem: BlockProblem,
    blocks: NDArray[np.int64],
    year: int,
    share: NDArray[np.float64],
    *,
    others: Optional[NDArray[np.float64]],
) -> list[YearLimit]:
    """The limits on the blocks of a year, among them that it holds no less of what is owed than by the given shares."""
    found = [YearLimit(it.amounts[blocks], float(it.most[year])) for it in problem.limits if np.isfinite(it.most[year])]
    for total in (it for it in problem.totals if np.isfinite(it.most)):
        left = total.most - (0.0 if others is None else total.used(others))
        found.append(YearLimit(total.amounts[blocks], max(left, 0.0)))
    owed = [(it.amounts[blocks], float(it.floor[year])) for it in problem.limits if it.floor[year] > 0]
    owed += [(total.amounts[blocks], np.inf) for total in problem.totals if total.least > 0]
    return found + [YearLimit(it, min(least, float((it * share).sum())), -1.0) for it, least in owed]


def best_shares(
    problem: BlockProblem,
    blocks: NDArray[np.int64],
    year: int,
    share: NDArray[np.float64],
    *,
    others: Optional[NDArray[np.float64]] = None,
) -> NDArray[np.float64]:
    """The shares of the blocks of a year that earn most, shape (blocks, destinations); where HiGHS finds none the given ones, which keep the
    limits. Without a limit that binds each goes where it earns most, and of two destinations with one such limit by gain per unit of it.

    others  the shares of all blocks in other years, which also use the totals; None: none
    """
    gain, limits = problem.values[blocks, :, year], limits_of_year(problem, blocks, year, share, others=others)
    whole = np.eye(problem.destinations)[gain.argmax(axis=1)]
    exceeded = [limit for limit in limits if not limit.holds(whole)]
    if not exceeded:
        return whole
    if problem.destinations == 2 and len(exceeded) == 1:
        parts = by_worth(gain, exceeded[0])
        if parts is not None and all(limit.holds(parts) for limit in limits):
            return parts
    return by_programme(gain, limits, share)


def by_worth(gain: NDArray[np.float64], limit: YearLimit) -> Optional[NDArray[np.float64]]:
    """The shares of blocks in two destinations, the second by gain per unit of a maximum, the last one in part; None of a minimum, or if a block takes
    less of it there than in the first."""
    more, takes = gain[:, 1] - gain[:, 0], limit.amounts[:, 1] - limit.amounts[:, 0]
    if limit.sign < 0 or (takes < 0).any():
        return None
    takes = np.where(more > 0, takes, 0.0)
    with np.errstate(divide="ignore", invalid="ignore"):
        order = np.argsort(np.where(takes > 0, -more / takes, -np.inf), kind="stable")
    before, room = np.cumsum(takes[order]) - takes[order], limit.bound - limit.amounts[:, 0].sum()
    second = np.empty(len(gain))
    second[order] = np.clip((room - before) / np.where(takes[order] > 0, takes[order], 1.0), 0.0, 1.0)
    second = np.where((takes > 0) | (more <= 0), second, 1.0) * np.where(more > 0, 1.0, 0.0)
    return np.stack([1.0 - second, second], axis=1)


def by_programme(gain: NDArray[np.float64], limits: list[YearLimit], share: NDArray[np.float64]) -> NDArray[np.float64]:
    """The shares of blocks that earn most by a linear programme; the given ones where HiGHS finds none."""
    scale = np.array([it.bound or float(np.abs(it.amounts).max()) or 1.0 for it in limits])
    rows = np.array([it.sign * it.amounts.ravel() for it in limits]).reshape(len(limits), share.size) / scale[:, None]
    found = linprog(
        -gain.ravel() / (float(np.abs(gain).max()) or 1.0),
        A_ub=csr_matrix(rows) if limits else None,
        b_ub=np.array([it.sign * it.bound for it in limits]) / scale if limits else None,
        A_eq=kron(eye(len(gain)), np.ones((1, gain.shape[1])), format="csr"),
        b_eq=np.ones(len(gain)),
        bounds=(0, 1),
        method="highs-ds",
    )
    if found.status != 0:
        return share
    shares = np.clip(found.x.reshape(share.shape), 0.0, 1.0)
    return np.asarray(shares / shares.sum(axis=1, keepdims=True))


# Schedules that keep signed limits, such as those on head grades, by where the blocks of a year go.
#
# Filling years block by block keeps a head grade after each block, so that rich or dirty ore waits for what it is
# blended with. Here signed limits have their prices instead: years are filled, and blocks moved, by what they earn
# less these. A linear programme by year then chooses where the blocks go, so that the limits are kept.

# The linear programmes are solved for this number of the filled schedules: those worth most at the dual prices.
MOST_BLENDED = 6


def blended(
    problem: BlockProblem, ranks: Ranks, sequences: Iterable[BlockOrder], prices: NDArray[np.float64]
) -> Iterator[Assignment]:
    """Yields schedules that keep all limits.

    sequences  the orders in which years are filled; a block waits for a year in which its best destination has room
    prices     of a unit of each limit in each year: shape (limits, years)
    """
    free = at_prices(problem, prices)
    filling = Filling(free, preferences(problem, prices), waits=problem.destinations > 1)
    filled = [filling.without_loss(sequence) for sequence in sequences]
    for schedule in sorted(filled, key=lambda it: -it.value(free))[:MOST_BLENDED]:
        found = with_best_shares(problem, moved(filling, ranks, schedule), prices)
        if found.is_allowed(problem):
            yield paying(problem, found)


def at_prices(problem: BlockProblem, prices: NDArray[np.float64]) -> BlockProblem:
    """Returns the problem whose blocks pay the prices of signed limits in place of keeping them."""
    values = problem.values.copy()
    for limit, paid in zip(problem.limits, problem.paid(prices)):
        if limit.signed:
            values -= limit.amounts[:, :, None] * paid
    return replace(problem, values=values, limits=tuple(limit for limit in problem.limits if not limit.signed))


# Blocks that are processed in part, since the whole holds more than a year takes.
#
# Years are filled with blocks that each go to one destination. If a block holds more metal or feed than a limit of a
# year, it fits nowhere but as waste. So such a problem gets more destinations: each sends the part of a block that
# fits into a year, and the rest to where it takes least.


@dataclass(frozen=True)
class Divided:
    """A problem in which parts of blocks may go to destinations.

    problem  with the destinations of parts after its own
    shares   of each block that a destination of `problem` sends to each of the given ones, shape (blocks, more destinations, destinations); None if
             all blocks fit whole
    """

    problem: BlockProblem
    shares: Optional[NDArray[np.float64]] = None

    @property
    def unfit(self) -> NDArray[np.bool_]:
        """Whether each destination of `problem` takes more of a block than any year allows, shape (blocks, destinations of `problem`)."""
        found = np.zeros(self.problem.values.shape[:2], dtype=bool)
        for limit in (it for it in self.problem.limits if not it.signed):
            found |= limit.amounts > limit.most.max() * (1 + SUM_ERROR)
        return found

    def preferences(self, prices: NDArray[np.float64]) -> NDArray[np.int64]:
        """Returns the destinations of each block in each year by what they earn less prices, as `greedy.preferences` does, those that never fit last."""
        found = preferences(self.problem, prices)
        if self.shares is None:
            return found
        unfit = np.take_along_axis(self.unfit[:, None, :], found, axis=2)
        return np.take_along_axis(found, np.argsort(unfit, axis=2, kind="stable"), axis=2)

    def merged(self, schedule: Assignment) -> Assignment:
        """Returns a schedule of `problem` by the given destinations."""
        if self.shares is None:
            return schedule
        return Assignment(schedule.year, np.einsum("bk,bkd->bd", schedule.share, self.shares))


def divided(problem: BlockProblem) -> Divided:
    """Returns the problem with destinations for the parts that fit, of blocks that are larger than a limit of some year."""
    if problem.lags is not None:
        # What a year has no room for is placed on a stockpile.
        return Divided(problem)
    limits = [it for it in problem.limits if not it.signed and np.isfinite(it.most).any()]
    whole, rest = np.eye(problem.destinations), least_used(problem, limits)
    levels = []
    for destination in range(problem.destinations):
        fits = np.stack([fitting(limits, destination, rest, year) for year in range(problem.years)], axis=1)
        for part in np.unique(fits[:, (fits < 1).any(axis=0)], axis=1).T:
            levels.append(part[:, None] * whole[destination] + (1 - part)[:, None] * whole[rest])
    if not levels:
        return Divided(problem)
    own = np.broadcast_to(whole, (problem.blocks, *whole.shape))
    shares = np.concatenate([own, np.stack(levels, axis=1)], axis=1)
    of_parts = tuple(replace(it, amounts=mixed(shares, it.amounts)) for it in problem.limits)
    totals = tuple(it.each(lambda amounts: mixed(shares, amounts)) for it in problem.totals)
    values = np.einsum("bkd,bdt->bkt", shares, problem.values)
    return Divided(replace(problem, values=values, limits=of_parts, totals=totals), shares)


def mixed(shares: NDArray[np.float64], amounts: NDArray[np.float64]) -> NDArray[np.float64]:
    """Returns amounts by block and destination of parts."""
    return np.asarray(np.einsum("bkd,bd->bk", shares, amounts))


def least_used(problem: BlockProblem, limits: list[BlockLimit]) -> NDArray[np.int64]:
    """Returns for each block the destination in which it takes the least part of its most used limit."""
    used = np.zeros((problem.blocks, problem.destinations))
    for limit in limits:
        most = float(limit.most[np.isfinite(limit.most)].max())
        used = np.maximum(used, limit.amounts / most if most > 0 else 0.0)
    return np.asarray(used.argmin(axis=1))


def fitting(limits: list[BlockLimit], destination: int, rest: NDArray[np.int64], year: int) -> NDArray[np.float64]:
    """Returns the greatest part of each block that goes to a destination within the limits of a year that are above 0, the rest where it takes
    least; 1 if the part is nothing."""
    found = np.ones(len(rest))
    for limit in limits:
        most = float(limit.most[year])
        amount, other = limit.amounts[:, destination], limit.amounts[np.arange(len(rest)), rest]
        some = (amount > most * (1 + SUM_ERROR)) & (other < amount) & (0 < most)
        part = np.divide(most - other, amount - other, out=np.ones(len(rest)), where=some)
        found = np.minimum(found, part)
    return np.where(found > 0, found, 1.0)

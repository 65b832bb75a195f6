"""A schedule made better by integer programmes: some years at a time, and of their blocks those that the relaxation decides least.

The unknowns of a window are, for each of its free blocks and each of its years, whether the block is mined by the year's end, and in which
shares it goes to destinations in that year. All other blocks stay as they are: a free block is mined no sooner than its predecessors among them and
no later than a block whose predecessor it is, and what they take of the limits is taken off.
"""

from __future__ import annotations

from collections.abc import Iterator
from dataclasses import dataclass, replace
from functools import cached_property
from typing import NamedTuple, Optional

import numpy as np
from numpy.typing import NDArray
from scipy.sparse import bmat, coo_matrix, csr_matrix, eye, hstack, kron, vstack

from pitplan.config.schedule import Effort
from pitplan.core.tolerances import SOLVER_SUM, SUM_ERROR
from pitplan.scheduling.highs import Programme
from pitplan.scheduling.highs_process import solve

from .filling import chosen, ranks_of, worths_at
from .problem import MOST_UNKNOWNS, Assignment, BlockLimit, BlockProblem, ShareIndex, TotalLimit
from .relaxation import earliest_years

# A window has at first about FEWER integer unknowns at most, and at most MOST_YEARS years unless all blocks fit. A
# problem of up to FEW unknowns is one window.
FEW, FEWER, MOST_YEARS = 500, 2_500, 4
# The penalty of a minimum that is missed entirely, as a multiple of what all free blocks earn or cost.
LACKING = 10.0


class WindowEffort(NamedTuple):
    """When the programme of a window is good enough, and when its search ends.

    gap       to its bound, as a share of it
    seconds   of its time
    patience  seconds after which its process is ended, with nothing found
    nodes     of its search; other than seconds they do not depend on the machine
    """

    gap: float
    seconds: Optional[float] = None
    patience: Optional[float] = None
    nodes: Optional[int] = None


class Running(NamedTuple):
    """Whether the mine runs in years: their costs, and rows, at most 0, of the unknowns of blocks and of those of these years."""

    costs: NDArray[np.float64]
    mined: csr_matrix
    runs: csr_matrix


@dataclass(frozen=True)
class Window:
    """Years of a schedule from `first` up to `last`, without that, and the blocks that are free in them. With stockpiles `routes` says to which
    destinations each may go, shape (free blocks, years, destinations)."""

    problem: BlockProblem
    schedule: Assignment
    first: int
    last: int
    blocks: NDArray[np.int64]
    routes: Optional[NDArray[np.bool_]] = None

    @property
    def years(self) -> int:
        return self.last - self.first

    @property
    def until(self) -> int:
        """The year up to which, without that, its blocks use limits: with stockpiles they do after the window too."""
        return self.last if self.problem.lags is None else self.problem.years

    @property
    def place(self) -> NDArray[np.int64]:
        """Where each truth stands: shape (free blocks, years). Behind them stand the shares, by block, year and destination."""
        return np.arange(len(self.blocks) * self.years).reshape(len(self.blocks), self.years)

    @property
    def number(self) -> NDArray[np.int64]:
        """Of each block of the problem its number among the free ones; -1 of others."""
        found = np.full(self.problem.blocks, -1)
        found[self.blocks] = np.arange(len(self.blocks))
        return found

    def programme(self) -> Programme:
        """Most of what the free blocks earn, as a share of the greatest amount that one earns."""
        truths, gain = self.place.size, self.part.values.transpose(0, 2, 1).ravel()
        unit = float(np.abs(gain).max(initial=0.0)) or 1.0
        soonest, latest = self.bounds()
        parts = [*self.shares(), self.order(), self.limits(), self.due(latest)]
        allowed = np.arange(self.first, self.last) >= soonest[:, None]
        matrix, owed, running = vstack([matrix for matrix, _ in parts], format="csr"), self.owed(), self.running()
        # What lacks of a least costs more than all blocks could earn.
        penalty = LACKING * max(float(np.abs(gain).sum()) / unit, 1.0)
        more = owed.shape[0] + len(running.costs)
        rows = bmat(
            [[matrix, None, None], [-owed, -eye(owed.shape[0]), None], [running.mined, None, running.runs]],
            format="csr",
        )
        return Programme(
            gain=np.concatenate(
                [np.zeros(truths), gain / unit, np.full(owed.shape[0], -penalty), -running.costs / unit]
            ),
            matrix=rows,
            most=np.concatenate(
                [*(most for _, most in parts), -np.ones(owed.shape[0]), np.zeros(running.runs.shape[0])]
            ),
            upper=np.concatenate([allowed.ravel().astype(float), self.may_go, np.ones(more)]),
            whole=self.whole(truths + len(gain) + owed.shape[0], len(running.costs)),
        )

    def whole(self, count: int, running: int) -> NDArray[np.bool_]:
        """Which unknowns are whole: the truths, and with stockpiles whether the mine runs, which parts of blocks may show."""
        found = np.arange(count + running) < self.place.size
        found[count:] = self.problem.lags is not None
        return found

    @property
    def may_go(self) -> NDArray[np.float64]:
        """1 of each share that a block may have, by block, year and destination: shape (shares,)."""
        whole = np.ones(self.place.size * self.problem.destinations)
        return whole if self.routes is None else self.routes.ravel().astype(float)

    @cached_property
    def index(self) -> ShareIndex:
        """Block, year and destination of each share."""
        shape = (*self.place.shape, self.problem.destinations)
        block, year, destination = (it.ravel() for it in np.indices(shape))
        return ShareIndex(block, year, destination)

    def running(self) -> Running:
        """The years after all other blocks are mined and reclaimed: each costs if a free block is mined or reclaimed in it or later."""
        others = self.schedule.last_years(self.problem)[(self.number < 0) & (self.schedule.year < self.problem.years)]
        years = np.arange(max(self.first, int(others.max(initial=-1)) + 1), self.until) - self.first
        years = years if self.problem.costs is not None else years[:0]
        count, blocks = len(years), len(self.blocks)
        mined = eye(count, self.years, k=int(years.min(initial=0)), format="csr")
        mined = mined - eye(count, self.years, k=int(years.min(initial=0)) - 1, format="csr")
        later = eye(count - 1, count) * -1 + eye(count - 1, count, k=1) if count > 1 else csr_matrix((0, count))
        of_blocks = hstack([kron(eye(blocks), mined), self.reclaimed_in(years)])
        return Running(
            self.problem.running_costs[self.first + years],
            vstack([of_blocks, csr_matrix((later.shape[0], self.width))], format="csr"),
            vstack([kron(np.ones((blocks, 1)), -eye(count)), later], format="csr"),
        )

    def reclaimed_in(self, years: NDArray[np.int64]) -> csr_matrix:
        """The shares of each block that are reclaimed in each of some years, block by block."""
        shape, index, lags = (
            (len(self.blocks) * len(years), self.width - self.place.size),
            self.index,
            self.problem.lags,
        )
        if lags is None or not len(years):
            return csr_matrix(shape)
        use = index.year + lags[index.destination]
        some = np.flatnonzero((lags[index.destination] > 0) & (use >= years[0]) & (use <= years[-1]))
        row = index.block[some] * len(years) + use[some] - years[0]
        return csr_matrix((np.ones(len(some)), (row, some)), shape=shape)

    def owed(self) -> csr_matrix:
        """A row for each sum that must be held at least, if the other blocks leave something due: what shares add, as parts of
        that."""
        rows = [csr_matrix((0, self.width))]
        for limit in self.part.limits:
            some = limit.floor > 0
            rows.append(self.of_shares(limit, some, limit.floor[some]))
        rows += [self.of_total(total, total.least) for total in self.part.totals if total.least > 0]
        return vstack(rows, format="csr")

    def of_shares(self, limit: BlockLimit, years: NDArray[np.bool_], units: NDArray[np.float64]) -> csr_matrix:
        """The rows of what shares add to a limit in some years, in a unit of each."""
        used = limit.uses(self.index, len(years))[years]
        used.data /= np.repeat(units, np.diff(used.indptr))
        return hstack([csr_matrix((used.shape[0], self.place.size)), used], format="csr")

    def of_total(self, total: TotalLimit, unit: float) -> csr_matrix:
        """The row of what shares add to a total in all years, in a unit."""
        shares = np.repeat(total.amounts[:, None, :] / unit, self.years, axis=1)
        return hstack([csr_matrix((1, self.place.size)), csr_matrix(shares.reshape(1, -1))], format="csr")

    def bounds(self) -> tuple[NDArray[np.int64], NDArray[np.int64]]:
        """For each free block the first year in which its fixed predecessors are mined and its free ones fit into the capacity that is left.
        Also the last year in which it may be mined, since a fixed block depends on it; the number of years if none does.
        """
        problem, year, number = self.problem, self.schedule.year, self.number
        users, others = problem.precedences.users, problem.precedences.predecessors.astype(np.int64)
        soonest, latest = np.full(len(self.blocks), self.first), np.full(len(self.blocks), problem.years)
        some = (number[users] >= 0) & (number[others] < 0)
        np.maximum.at(soonest, number[users[some]], year[others[some]])
        soonest = np.maximum(soonest, self.first + earliest_years(self.part, ranks_of(self.part.precedences)))
        some = (number[users] < 0) & (number[others] >= 0)
        np.minimum.at(latest, number[others[some]], year[users[some]])
        return soonest, latest

    def shares(self) -> Iterator[tuple[csr_matrix, NDArray[np.float64]]]:
        """The shares of a block and year add up to 1 where it is mined in the year, else to 0."""
        before = eye(self.years, k=-1)
        mined = kron(eye(len(self.blocks)), eye(self.years) - before)
        sums = kron(eye(self.place.size), np.ones((1, self.problem.destinations)))
        row = hstack([mined, -sums], format="csr")
        yield row, np.zeros(row.shape[0])
        yield -row, np.zeros(row.shape[0])

    def order(self) -> tuple[csr_matrix, NDArray[np.float64]]:
        """No free block is mined before a predecessor."""
        less, more = (
            self.place[self.part.precedences.users].ravel(),
            self.place[self.part.precedences.predecessors].ravel(),
        )
        row = np.tile(np.arange(len(less)), 2)
        signs = np.repeat([1.0, -1.0], len(less))
        matrix = coo_matrix((signs, (row, np.concatenate([less, more]))), shape=(len(less), self.width))
        return matrix.tocsr(), np.zeros(len(less))

    @property
    def width(self) -> int:
        """How many unknowns there are."""
        return self.place.size * (1 + self.problem.destinations)

    @cached_property
    def part(self) -> BlockProblem:
        """The free blocks and the window's years alone, with what the others leave as limits."""
        others = self.schedule.share.copy()
        others[self.blocks] = 0.0
        years, used = slice(self.first, self.last), slice(self.first, self.until)
        taken = Assignment(self.schedule.year, others).sums(self.problem)[:, used]
        limits = [
            self.left(limit, limit.most[used] - sums, limit.floor[used] - sums)
            for limit, sums in zip(self.problem.limits, taken)
        ]
        totals = tuple(self.left_of_total(total, total.used(others)) for total in self.problem.totals)
        precedences = self.problem.precedences.within(self.number >= 0)
        return BlockProblem(self.problem.values[self.blocks, :, years], precedences, tuple(limits), totals)

    def left_of_total(self, total: TotalLimit, used: float) -> TotalLimit:
        """A total of the free blocks, with what the use of the others leaves of its least and its most."""
        least = total.least - used
        due = least if least > SUM_ERROR * total.least else 0.0
        return TotalLimit(total.name, total.amounts[self.blocks], due, max(total.most - used, 0.0))

    def left(self, limit: BlockLimit, most: NDArray[np.float64], least: NDArray[np.float64]) -> BlockLimit:
        """A limit of the free blocks, with what the others leave of its most and its least. Of a signed one these may be below 0."""
        amounts = limit.amounts[self.blocks]
        if limit.signed:
            return replace(limit, amounts=amounts, most=most)
        return replace(limit, amounts=amounts, most=np.maximum(most, 0.0), least=np.maximum(least, 0.0))

    def limits(self) -> tuple[csr_matrix, NDArray[np.float64]]:
        """A row for each limit and year that has one, and for each total, as shares of the greatest amount of a block."""
        rows, left = [csr_matrix((0, self.width))], [np.zeros(0)]
        for limit in self.part.limits:
            some, unit = np.isfinite(limit.most), float(np.abs(limit.amounts).max(initial=0.0)) or 1.0
            rows.append(self.of_shares(limit, some, np.full(int(some.sum()), unit)))
            left.append(limit.most[some] / unit)
        for total in (it for it in self.part.totals if np.isfinite(it.most)):
            unit = float(total.amounts.max(initial=0.0)) or 1.0
            rows.append(self.of_total(total, unit))
            left.append(np.array([total.most / unit]))
        return vstack(rows, format="csr"), np.concatenate(left)

    def due(self, latest: NDArray[np.int64]) -> tuple[csr_matrix, NDArray[np.float64]]:
        """Predecessors of other blocks are mined by then."""
        some = np.flatnonzero(latest < self.problem.years)
        at = self.place[some, np.minimum(latest[some], self.last - 1) - self.first]
        matrix = csr_matrix((-np.ones(len(some)), (np.arange(len(some)), at)), shape=(len(some), self.width))
        return matrix, -np.ones(len(some))

    def solved(self, effort: WindowEffort) -> Assignment:
        """The schedule with the best that the effort found in the window, or unchanged where that is no better, or nothing was found.

        Raises PlanError where HiGHS fails, and KeyboardInterrupt where it is interrupted.
        """
        programme = self.programme()
        unknowns, kept = np.zeros(len(programme.gain)), np.ones(len(programme.gain), dtype=bool)
        if self.routes is not None:
            programme, kept, _ = programme.reduced()
        found = solve(programme, Effort(effort.gap, effort.seconds), effort.patience, effort.nodes)
        if found.unknowns is None:
            return self.schedule
        problem, truths = self.problem, self.place.size
        unknowns[kept] = found.unknowns
        is_mined = unknowns[:truths].reshape(self.place.shape) > 0.5
        shares = unknowns[truths : self.width].reshape(*self.place.shape, problem.destinations)
        parts = np.clip(shares, 0.0, 1.0).sum(axis=1)
        year, share = self.schedule.year.copy(), self.schedule.share.copy()
        year[self.blocks] = np.where(is_mined.any(axis=1), self.first + is_mined.argmax(axis=1), problem.years)
        whole = parts.sum(axis=1, keepdims=True)
        share[self.blocks] = np.where(is_mined.any(axis=1)[:, None], parts / np.where(whole > 0, whole, 1.0), 0.0)
        better = Assignment(year, share)
        return better if better.is_better(self.schedule, problem) and better.is_allowed(problem) else self.schedule


class WindowSize(NamedTuple):
    """How many years a window has, and at most how many unknowns."""

    years: int
    unknowns: int


def least_size(problem: BlockProblem) -> WindowSize:
    """The size of windows that take little time: all years of a very small problem, otherwise two."""
    if problem.blocks * problem.years <= FEW:
        return WindowSize(problem.years, FEW)
    return WindowSize(min(2, problem.years), FEWER)


def sizes_of(problem: BlockProblem) -> list[WindowSize]:
    """The sizes of windows, one after the other: all years where all blocks fit, otherwise a few with some that are
    free."""
    if problem.blocks * problem.years <= MOST_UNKNOWNS or problem.years == 1:
        return [WindowSize(problem.years, MOST_UNKNOWNS)]
    widths = range(2, min(MOST_YEARS, problem.years) + 1)
    return [WindowSize(width, most) for most in (FEWER, MOST_UNKNOWNS) for width in widths]


def window_of(
    problem: BlockProblem,
    schedule: Assignment,
    cumulative: NDArray[np.float64],
    years: range,
    *,
    most: int = MOST_UNKNOWNS,
    prices: Optional[NDArray[np.float64]] = None,
) -> Window:
    """The window of years, with the blocks mined in them and those not mined that the relaxation begins by their end; where they make more than
    this many unknowns those whose expected year is nearest to the middle.

    cumulative  the share of each block that the relaxation has mined by the end of each year: shape (blocks, years)
    prices      of limits, by which with stockpiles the destinations of each block are chosen
    """
    first, last = years.start, years.stop
    is_here = (schedule.year >= first) & (schedule.year < last)
    is_left = (schedule.year == problem.years) & (cumulative[:, last - 1] > SOLVER_SUM)
    blocks = np.arange(problem.blocks) if last - first == problem.years else np.flatnonzero(is_here | is_left)
    middle, expected = (first + last - 1) / 2, problem.years - cumulative.sum(axis=1)
    nearest = np.argsort(np.abs(expected[blocks] - middle), kind="stable")[: most // (last - first)]
    window = Window(problem, schedule, first, last, np.sort(blocks[nearest]))
    if problem.lags is None or prices is None:
        return window
    worths = worths_at(problem.of_some(window.blocks), prices)[:, :, first:last].transpose(0, 2, 1)
    return replace(window, routes=chosen(problem, worths) | (schedule.share[window.blocks, None] > 0))

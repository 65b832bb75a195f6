"""From a problem to a bound and a schedule."""

from __future__ import annotations

import time
from collections.abc import Iterator
from dataclasses import dataclass, field, replace
from functools import cached_property
from typing import Optional

import numpy as np
from numpy.typing import NDArray

from pitplan.config.schedule import Effort
from pitplan.core.progress import Progress, silent
from pitplan.core.tolerances import SUM_ERROR
from pitplan.errors import PlanError

from .filling import ALL, LEAST, BlockOrder, Divided, Filling, blended, divided, moved, sequences, with_best_shares
from .merged_years import groups_by_merged_years
from .problem import Assignment, BlockProblem, demand_room, demand_sound, nothing
from .relaxation import Reduced, Relaxation, Round, first_required, reduced, relaxed_as_required
from .window_milp import Window, WindowEffort, WindowSize, least_size, sizes_of, window_of

# The relaxation is solved to this share of its bound.
RELAXED = 1e-4
# Without `milp` each window is solved once if the gap is greater than this one. Most of what a search finds, it finds at its first node.
UNASKED = WindowEffort(gap=0.01, nodes=1)
# The time limit of a window's programme, in seconds, and the time after which its process is ended.
WINDOW_SECONDS, PATIENCE = 60.0, 180.0
# HiGHS ends within this number of seconds after its time limit, or much later.
LATE = 10.0
# Windows are solved again for this number of seconds while years miss a minimum; the message names at most MOST_NAMED of these years.
DUE_SECONDS, MOST_NAMED = 600.0, 5


@dataclass(frozen=True)
class Scheduled:
    """A schedule and the bound of all.

    schedule     the best that was found
    value        what it earns, discounted, in money
    bound        no schedule earns more
    blocks       that some schedule of greatest worth may mine
    nodes        of the relaxation: such a block by a year in which it can be mined
    rounds       of the relaxation
    interrupted  whether the run was ended before it was through
    multipliers  prices of a unit of each limit and total by year, in money, from which the bound follows: shape (limits and totals, years)
    """

    schedule: Assignment
    value: float
    bound: float
    blocks: int
    nodes: int
    rounds: tuple[Round, ...] = ()
    interrupted: bool = False
    multipliers: NDArray[np.float64] = field(default_factory=lambda: np.zeros((0, 0)))

    @property
    def gap(self) -> float:
        """By which share of the bound the value is less."""
        return gap_of(self.value, self.bound)


def solve(problem: BlockProblem, effort: Optional[Effort] = None, progress: Progress = silent) -> Scheduled:
    """The bound of all schedules and the best schedule that was found.

    With an effort integer programmes make the schedule better until it is within the effort's gap, a share of the bound, or its seconds are
    over, those of the bound among them. Without one, each window of two years is solved once if the gap is above 1 %. Once there is a bound,
    Ctrl-C stops the search and keeps the best schedule.

    Raises PlanError where the problem has a fault or is too large, no schedule keeps what must be held at least, or none was found that
    does, and KeyboardInterrupt where it is interrupted before there is a bound.
    """
    demand_sound(problem)
    demand_room(problem.blocks, len(problem.precedences.predecessors))
    began = time.monotonic()
    with progress.step(f"removing blocks that no schedule needs, of {problem.blocks:,} blocks"):
        part = reduced(problem, first_required(problem))
    if not part.problem.blocks:
        if problem.owes:
            raise PlanError(
                "infeasible: no schedule meets the minimums, since no block that adds to them can be mined in time"
            )
        return Scheduled(nothing(problem), 0.0, 0.0, 0, 0)
    progress.say(f"computing the upper bound: {part.problem.blocks:,} blocks, {len(part.nodes):,} nodes")
    until = Effort(RELAXED, effort.seconds if effort else None)
    groups = groups_by_merged_years(part.nodes, progress)
    part, relaxation = relaxed_as_required(
        problem, part, until, progress, tell=lambda found: progress.say(line_of(found)), groups=groups
    )
    search = Search(part, relaxation, progress)
    try:
        if not relaxation.interrupted:
            search.fill()
            search.move()
            search.keep_minimums(began)
            if effort is None:
                search.improve()
            else:
                search.windows(effort, began)
    except KeyboardInterrupt:
        search.demand_kept()
        return search.scheduled(problem, True)
    search.demand_kept()
    return search.scheduled(problem, relaxation.interrupted)


def line_of(found: Round) -> str:
    relaxation = f"relaxation {found.value:,.0f} over {found.groups:,} groups"
    return f"round {found.number}: bound {found.bound:,.0f}, {relaxation}, gap {100 * found.gap:.3f} %, {found.seconds:.0f} s"


@dataclass
class Search:
    """The best schedule so far of a problem whose relaxation is solved."""

    part: Reduced
    relaxation: Relaxation
    progress: Progress
    best: Assignment = field(init=False)
    filled: list[Assignment] = field(default_factory=list)
    tried: set[tuple[tuple[int, int], bytes, bytes]] = field(default_factory=set)

    def __post_init__(self) -> None:
        self.best = nothing(self.part.problem)

    @property
    def problem(self) -> BlockProblem:
        return self.part.problem

    @cached_property
    def divided(self) -> Divided:
        """The problem in whose destinations blocks go whole or in the parts that fit."""
        return divided(self.problem)

    @property
    def sequences(self) -> Iterator[BlockOrder]:
        """The orders in which years are filled. If only parts of some blocks fit, a year may have room for blocks that the relaxation leaves."""
        shares = LEAST if self.divided.shares is None else (*LEAST, ALL)
        return sequences(self.problem, self.part.ranks, self.relaxation.cumulative, shares)

    @cached_property
    def fillings(self) -> list[Filling]:
        """How years are filled: each block as soon as there is room for it, and of several destinations also as soon as there is where
        it is worth most. If only parts of some blocks fit, years are also filled without the prices of limits, at which such parts may lose.
        """
        problem, prices = self.divided.problem, self.relaxation.prices
        soon = Filling(problem, self.divided.preferences(prices))
        found = [soon, *([replace(soon, waits=True)] if problem.destinations > 1 else [])]
        if self.divided.shares is not None:
            found += [replace(it, preference=self.divided.preferences(np.zeros_like(prices))) for it in found]
        return found

    def offer(self, schedule: Assignment) -> None:
        """Takes a schedule that is better, without last years that cost more than they earn."""
        shorter = schedule.shortened(self.problem)
        if shorter.is_better(self.best, self.problem):
            self.best = shorter

    def fill(self) -> None:
        """Fills years in the orders that the relaxation gives, and keeps the best of each way to fill them."""
        self.filled = [nothing(self.divided.problem) for _ in self.fillings]
        with self.progress.step("scheduling blocks in the order of the relaxation"):
            for sequence in self.sequences:
                for number, filling in enumerate(self.fillings):
                    self.offer_filled(number, filling.without_loss(sequence))
                if self.problem.owes:
                    self.offer_filled(0, self.fillings[0].fill(sequence))
        if any(limit.signed for limit in self.problem.limits):
            with self.progress.step("blending the blocks of each year"):
                self.blend()

    def blend(self) -> None:
        """Takes the best of the schedules that are made at the prices of signed limits and then keep them by where blocks go."""
        ranks, prices = self.part.ranks, self.relaxation.prices
        for schedule in blended(self.divided.problem, ranks, self.sequences, prices):
            self.offer(self.divided.merged(schedule))

    def offer_filled(self, number: int, schedule: Assignment) -> None:
        """Takes a schedule of parts that is better, also than those that were filled in the same way."""
        if schedule.is_better(self.filled[number], self.divided.problem):
            self.filled[number] = schedule
        self.offer(self.divided.merged(schedule))

    def move(self) -> None:
        """Moves blocks of what was filled, and chooses where they go."""
        with self.progress.step("moving blocks to better years"):
            for schedule in self.filled:
                better = self.divided.merged(moved(self.fillings[0], self.part.ranks, schedule))
                self.offer(better)
                self.offer(with_best_shares(self.problem, better, self.relaxation.prices))

    def keep_minimums(self, began: float) -> None:
        """Solves windows again while something lacks of what must be held at least, and less does."""
        effort = Effort(0.0, time.monotonic() - began + DUE_SECONDS)
        for size in sizes_of(self.problem) if self.best.lacking(self.problem) else []:
            while self.best.lacking(self.problem) and self.sweep(size, effort, began, until_kept=True):
                pass

    def demand_kept(self) -> None:
        """Raises PlanError where something lacks of what must be held at least."""
        if not self.best.lacking(self.problem):
            return
        problem, sums, missed = self.problem, self.best.sums(self.problem), []
        for limit, by_year in zip(problem.limits, sums):
            short = np.flatnonzero(by_year < limit.floor * (1 - SUM_ERROR))
            missed += [
                f"{problem.word} {year + 1} has {by_year[year]:,.10g} of {limit.name} for {limit.floor[year]:,.10g}"
                for year in short[:MOST_NAMED]
            ]
        missed += [it.name for it in problem.totals if it.used(self.best.share) < it.least * (1 - SUM_ERROR)]
        why = "no schedule of whole blocks was found that meets the minimums; one with parts of blocks does"
        raise PlanError(f"{why}: {'; '.join(missed)}: reduce the minimums, or increase [schedule] milp seconds")

    def improve(self) -> None:
        """Solves each small window once, while the gap is above that of UNASKED."""
        for window in self.each_window(least_size(self.problem)):
            if self.gap <= UNASKED.gap:
                return
            self.offer(self.solved(window, UNASKED))

    def each_window(self, size: WindowSize) -> Iterator[Window]:
        """The windows of a size, from the first year on, each of the best schedule so far."""
        for first in range(self.problem.years - size.years + 1):
            years = range(first, first + size.years)
            found, prices = self.relaxation.cumulative, self.relaxation.prices
            yield window_of(self.problem, self.best, found, years, most=size.unknowns, prices=prices)

    def windows(self, effort: Effort, began: float) -> None:
        """Solves window after window again, larger ones once none has become better, until the gap is reached or the seconds are over."""
        for size in sizes_of(self.problem):
            while self.sweep(size, effort, began):
                pass

    def sweep(self, size: WindowSize, effort: Effort, began: float, until_kept: bool = False) -> bool:
        """Solves each window of a size once, or until nothing lacks of what must be held at least; gives whether
        the schedule has become better and there is time left."""
        before = self.best
        for window in self.each_window(size):
            left = np.inf if effort.seconds is None else effort.seconds - (time.monotonic() - began)
            is_kept = not self.best.lacking(self.problem)
            if left <= 0 or (is_kept and (until_kept or self.gap <= effort.gap)):
                return False
            limits = WindowEffort(effort.gap, min(left, WINDOW_SECONDS), min(PATIENCE, left + LATE))
            self.offer(self.solved(window, limits))
        return self.best.is_better(before, self.problem)

    def solved(self, window: Window, effort: WindowEffort) -> Assignment:
        """The schedule with a window solved again, unless that was done of the same blocks in the same years."""
        tried = (window.first, window.last), window.blocks.tobytes(), self.best.year[window.blocks].tobytes()
        if not len(window.blocks) or tried in self.tried:
            return self.best
        self.tried.add(tried)
        with self.progress.step(f"re-optimising years {window.first + 1} to {window.last}, gap {100 * self.gap:.2f} %"):
            return window.solved(effort)

    @property
    def gap(self) -> float:
        return gap_of(self.best.value(self.problem), self.relaxation.bound)

    def scheduled(self, problem: BlockProblem, interrupted: bool) -> Scheduled:
        """The best so far, as a schedule of the whole problem."""
        year, share = np.full(problem.blocks, problem.years), np.zeros((problem.blocks, problem.destinations))
        year[self.part.kept], share[self.part.kept] = self.best.year, self.best.share
        schedule = Assignment(year, share).without_crumbs()
        schedule = schedule if problem.lags is None else schedule.without_leavings(problem)
        size = self.problem.blocks, len(self.part.nodes)
        found, value = self.relaxation, schedule.value(problem)
        return Scheduled(schedule, value, found.bound, *size, found.rounds, interrupted, found.multipliers)


def gap_of(value: float, bound: float) -> float:
    """By which share of the bound the value is less."""
    return (bound - value) / abs(bound) if bound else 0.0

"""What is left of a problem where each limit has a price: a closure of nodes, solved by the library of pits, and a
bound.

With a price on each unit of each sum in each year, what the nodes are worth then and the prices times the limits
are together at least what any schedule earns (Lagrange): a price above 0 is paid for the most that a schedule may
take, and one below 0 is earned for the least that it must take; so each price times what it takes
is at most the price times that limit. So a bound needs no optimum of the prices, and it holds for any
floats: what a block earns at them is rounded upward, by more than the floats may have lost. Where blocks earn
nothing but prices, a bound below 0 shows that no schedule keeps the minimums: it would earn 0.

Each year is solved for itself first. If the pit of each year lies within that of the next, all of them are the
closure; if it does not, these years are solved together, unless they are more than the library takes: the
precedences between years that are then left out only raise the bound.

In each year a block counts with the destination where it is worth most at the prices, which is all that a closure
needs to know of them: it has one node a block and year, however many destinations there are.
"""

from __future__ import annotations

from dataclasses import dataclass
from fractions import Fraction
from itertools import accumulate

import numpy as np
from numpy.typing import NDArray

import pitshell

from .problem import ROUNDING, Nodes, Whole, by_end, least_float, upward, worth_of


@dataclass(frozen=True)
class Priced:
    """The smallest set of nodes worth most at some prices, a truth for each; the bound that it gives, in money; and in how many parts, of
    years one after the other, it was solved."""

    in_closure: NDArray[np.bool_]
    bound: float
    parts: int


@dataclass(frozen=True)
class YearsClosure:
    """The closure of the years from `first` up to `last`, without that, solved for itself: by year whether each block that can be mined by
    then is in it, and its worth in the unit."""

    first: int
    last: int
    mined: list[NDArray[np.bool_]]
    worth: int


@dataclass(frozen=True)
class Earned:
    """What blocks are worth in each year at some prices, rounded upward, and the destination where they are; both by block and year."""

    worths: Whole
    best: NDArray[np.int16]


def priced(nodes: Nodes, prices: NDArray[np.float64]) -> Priced:
    """The closure at prices by limit and year, and behind them by total, the same in all years: shape (limits and totals, years). A price is 0
    or less where the most is infinite, and 0 or more of signed limits."""
    earned = earned_at(nodes, prices)
    gain = by_end(earned.worths.amounts)
    parts = [solved(nodes, gain, year, year + 1) for year in range(nodes.problem.years)]
    while (joined := joined_years(nodes, parts)) != [(part.first, part.last) for part in parts]:
        known = {(part.first, part.last): part for part in parts}
        parts = [known.get(years) or solved(nodes, gain, *years) for years in joined]
    bound = sum(part.worth for part in parts) * Fraction(earned.worths.unit) + sold(nodes, prices)
    if not nodes.problem.owes:
        # To mine nothing costs nothing.
        bound = max(bound, Fraction(0))
    mined = [by_then for part in parts for by_then in part.mined]
    return Priced(nodes.expanded(mined, earned.best), least_float(bound), len(parts))


def solved(nodes: Nodes, gain: NDArray[np.int64], first: int, last: int) -> YearsClosure:
    """Solves the closure of some years; `gain` is by block and year."""
    precedences, counts = nodes.of_years(first, last), nodes.counts[first:last]
    values = np.concatenate([gain[:count, year] for year, count in enumerate(counts, first)])
    pit = pitshell.solve(values, (precedences.starts, precedences.predecessors), millionths=True)
    return YearsClosure(first, last, np.split(pit.in_pit, np.cumsum(counts)[:-1]), worth_of(pit))


def joined_years(nodes: Nodes, parts: list[YearsClosure]) -> list[tuple[int, int]]:
    """The years of parts; those are put together, if the library takes them so, where one has a block by its last year that the next has
    not by its first."""
    found = [(parts[0].first, parts[0].last)]
    for part, following in zip(parts, parts[1:]):
        by_then = part.mined[-1]
        is_nested = following.mined[0][: len(by_then)][by_then].all()
        if is_nested or not nodes.fits(found[-1][0], following.last):
            found.append((following.first, following.last))
        else:
            found[-1] = (found[-1][0], following.last)
    return found


def earned_at(nodes: Nodes, prices: NDArray[np.float64]) -> Earned:
    """What each block earns in each year, less the prices of what it takes, in the destination where that is most."""
    problem, paid = nodes.problem, nodes.problem.paid(prices)
    # What is paid in several years is a sum.
    sizes = problem.paid(np.abs(prices))
    most, error = np.full((problem.blocks, problem.years), -np.inf), np.zeros((problem.blocks, problem.years))
    best = np.zeros(most.shape, dtype=np.int16)
    for destination in range(problem.destinations):
        earned = problem.values[:, destination].copy()
        size = np.abs(earned)
        for amounts, of_all, size_of_all in zip(problem.sums, paid, sizes):
            by_year, most_by_year = (it if it.ndim == 1 else it[destination] for it in (of_all, size_of_all))
            if most_by_year.any() and amounts[:, destination].any():
                earned -= amounts[:, destination, None] * by_year
                size += np.abs(amounts[:, destination, None]) * most_by_year
        # Of destinations that earn the same the last one, which takes the fewest nodes.
        best[earned >= most] = destination
        np.maximum(most, earned, out=most)
        np.maximum(error, size, out=error)
    # One rounding a product and one a sum, of terms that are no greater than all together; and as many again to be safe.
    roundings = 2 * len(prices) + 2 + (0 if problem.lags is None else problem.years)
    return Earned(upward(most, error * (ROUNDING * 2 * roundings)), best)


def sold(nodes: Nodes, prices: NDArray[np.float64]) -> Fraction:
    """The prices times the limits, those below 0 times the least, exactly; less the costs of running. The mine runs, from the first year, as
    many years as are best, and of what runs no longer no most is paid for, except for stockpiles: what lies there also lies there later.
    """
    problem, of_stockpiles = nodes.problem, Fraction(0)
    of_minimums = (
        Fraction(float(price)) * Fraction(float(least))
        for limit, by_year in zip(problem.limits, prices)
        for price, least in zip(by_year, limit.floor)
        if price < 0
    )
    running = [-Fraction(float(cost)) for cost in problem.running_costs]
    for limit, by_year in zip(problem.limits, prices):
        for year in np.flatnonzero(by_year > 0).tolist():
            paid = Fraction(float(by_year[year])) * Fraction(float(limit.most[year]))
            of_stockpiles += paid * limit.holds
            running[year] += paid * (not limit.holds)
    of_totals = (
        Fraction(float(by_year[0])) * Fraction(total.least if by_year[0] <= 0 else total.most)
        for total, by_year in zip(problem.totals, prices[len(problem.limits) :])
    )
    return sum(of_minimums, of_stockpiles) + max(accumulate(running)) + sum(of_totals, Fraction(0))

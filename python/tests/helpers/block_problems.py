"""Small problems of scheduling blocks, and their optima by plain programmes of scipy."""

from dataclasses import replace
from itertools import product

import numpy as np
import pytest
from scipy.optimize import Bounds, LinearConstraint, linprog, milp

from pitplan.config.schedule import Effort
from pitplan.scheduling.block_precedences import BlockPrecedences
from pitplan.scheduling.blocks.problem import BlockLimit, BlockProblem, TotalLimit, nodes_of

EXACT = Effort(1e-9)


def problem_of(values, pairs, *limits):
    """Of values by block and year, of one destination; pairs (user, needed); and limits (amounts by block, most by year)."""
    values = np.array(values, dtype=float)
    values = values if values.ndim == 3 else values[:, None, :]
    blocks, destinations, _ = values.shape
    found = []
    for number, (amounts, most) in enumerate(limits):
        amounts = np.array(amounts, dtype=float).reshape(blocks, -1)
        found.append(
            BlockLimit(
                f"limit {number}", np.broadcast_to(amounts, (blocks, destinations)).copy(), np.array(most, dtype=float)
            )
        )
    return BlockProblem(values, precedences_of(blocks, pairs), tuple(found))


def precedences_of(blocks, pairs):
    pairs = sorted(pairs)
    starts = np.searchsorted([user for user, _ in pairs], np.arange(blocks + 1))
    return BlockPrecedences(starts.astype(np.uint32), np.array([needed for _, needed in pairs], dtype=np.uint32))


def pairs_of(problem):
    return list(zip(problem.precedences.users.tolist(), problem.precedences.predecessors.tolist()))


def random_problem(seed, most=60, years=4, destinations=3):
    """Each block needs about two of those before it. Values are discounted, some by year at prices of their own; a year may hold a
    twentieth to a half of all, or anything."""
    rng = np.random.default_rng(seed)
    blocks, years, destinations = (int(rng.integers(1, top + 1)) for top in (most, years, destinations))
    pairs = [(user, needed) for user in range(blocks) for needed in range(user) if rng.random() < 2 / user]
    values = rng.integers(-100, 150, (blocks, destinations, 1)) * (1 + rng.choice([0.0, 0.1, 0.3])) ** -np.arange(
        1.0, years + 1
    )
    if rng.random() < 0.3:
        values = values * rng.uniform(0.7, 1.3, (1, destinations, years))
    limits = []
    for _ in range(rng.integers(0, 4)):
        amounts = rng.integers(0, 20, (blocks, destinations))
        shares = np.where(rng.random(years) < 0.15, np.inf, rng.uniform(0.05, 0.5, years))
        limits.append((amounts, shares * max(amounts.max(axis=1).sum(), 1)))
    return with_totals(problem_of(values, pairs, *limits), seed)


def stockpile_problem(seed, most=12):
    """Blocks of ore and waste, a mill, and a stockpile that gives ore back in a later year with less metal and at a cost; years limit mining, feed and
    in half of the problems what lies on the stockpile, and in a third the mean grade of the feed. Destinations are waste, the mill, and the mill
    by way of the stockpile after one year, two years, and so on."""
    rng = np.random.default_rng([seed, 7])
    blocks, years = int(rng.integers(2, most + 1)), int(rng.integers(2, 6))
    pairs = [(user, needed) for user in range(blocks) for needed in range(user) if rng.random() < 1.5 / user]
    tonnes, grade = rng.integers(5, 15, blocks).astype(float), rng.choice([0.0, 1.0, 2.0, 5.0], blocks)
    ore, lags = np.where(grade > 0, tonnes, 0.0), np.concatenate([[0, 0], np.arange(1, years)])
    discounts = 1.12 ** -np.arange(1.0, years + 1)
    mined, milled = -2.0 * tonnes, np.where(grade > 0, tonnes * (4 * grade - 3), 0.0)
    values = np.empty((blocks, len(lags), years))
    values[:, 0], values[:, 1] = np.outer(mined, discounts), np.outer(mined + milled, discounts)
    stacking, reclaim = rng.choice([0.0, 0.2]), rng.choice([0.0, 0.5])
    for number, lag in enumerate(lags[2:].tolist(), 2):
        values[:, number] = np.outer(mined - stacking * ore, discounts)
        later = np.append(discounts[lag:], np.zeros(lag))
        values[:, number] += np.outer(0.95 * milled - reclaim * ore, later)
    feed = ore[:, None] * (np.arange(len(lags)) > 0)
    limits = [BlockLimit("rock", np.repeat(tonnes[:, None], len(lags), axis=1), np.full(years, 0.4 * tonnes.sum()))]
    at_mill = np.stack([lags, lags], axis=1)
    limits.append(BlockLimit("feed", feed, np.full(years, max(rng.uniform(0.1, 0.3) * ore.sum(), 15.0)), spans=at_mill))
    if rng.random() < 0.5:
        lies = np.where(lags > 0, ore[:, None], 0.0)
        held = np.stack([0 * lags, np.maximum(lags - 1, 0)], axis=1)
        limits.append(BlockLimit("stock", lies, np.full(years, 0.1 * ore.sum() + 10), spans=held))
    if rng.random() < 0.33:
        excess = (1.5 - grade)[:, None] * feed
        limits.append(BlockLimit("grade", excess, np.zeros(years), signed=True, spans=at_mill))
    return BlockProblem(values, precedences_of(blocks, pairs), tuple(limits), lags=lags)


def with_totals(problem, seed):
    """The same where, of three problems in ten, all years together hold a twentieth to a half of what blocks add to a sum in some destinations."""
    rng = np.random.default_rng([seed, 1])
    if rng.random() < 0.7:
        return problem
    amounts = rng.integers(0, 20, problem.values.shape[:2]) * (rng.random(problem.destinations) < 0.7)
    most = rng.uniform(0.05, 0.5) * max(float(amounts.max(axis=1).sum()), 1.0)
    return replace(problem, totals=(TotalLimit("total", amounts.astype(float), most=most),))


def programme(problem, first=None):
    """The whole linear programme by what is dug in a year: gain, rows, what these are at most, and upper limits of the unknowns, by block,
    destination and year; what is dug before its `first` year is none."""
    blocks, destinations, years = shape = problem.values.shape
    place = np.arange(np.prod(shape)).reshape(shape)
    rows, most = [], []

    def add(right, *parts):
        row = np.zeros(place.size)
        for places, factors in parts:
            row[np.ravel(places)] = np.ravel(factors)
        rows.append(row)
        most.append(right)

    for block in range(blocks):
        add(1.0, (place[block], 1.0))
    for (user, needed), year in product(pairs_of(problem), range(years)):
        add(0.0, (place[user, :, : year + 1], 1.0), (place[needed, :, : year + 1], -1.0))
    for limit, year in product(problem.limits, range(years)):
        if np.isfinite(limit.most[year]):
            add(limit.most[year], *users_of(limit, place, year))
    for total in problem.totals:
        if np.isfinite(total.most):
            add(total.most, (place, np.repeat(total.amounts[:, :, None], years, axis=2)))
    upper = np.ones(shape)
    if first is not None:
        upper[np.broadcast_to(np.arange(years) < first[:, None, None], shape)] = 0.0
    return problem.values.ravel(), np.array(rows), np.array(most), upper.ravel()


def users_of(limit, place, year):
    """The unknowns that use a limit in a year, with what each adds: by destination those of the years of mining from which it is used then."""
    spans = [(0, 0)] * place.shape[1] if limit.spans is None else limit.spans.tolist()
    for destination, (first, last) in enumerate(spans):
        for mined in range(max(year - last, 0), year - first + 1):
            yield place[:, destination, mined], limit.amounts[:, destination]


def linear_optimum(problem, first=None):
    """The optimum of the whole linear programme."""
    gain, rows, most, upper = programme(problem, first)
    found = linprog(-gain, A_ub=rows, b_ub=most, bounds=np.column_stack([np.zeros(len(gain)), upper]), method="highs")
    assert found.status == 0, found.message
    return -found.fun


def complete_optimum(problem):
    """The most that a schedule earns whose blocks are each mined in one year, and go to destinations in shares."""
    gain, rows, most, upper = programme(problem)
    blocks, destinations, years = problem.values.shape
    # Behind the shares stands whether a block is mined in a year: as much as its shares of the year.
    mined = np.kron(np.eye(blocks), np.kron(np.ones(destinations), np.eye(years)))
    wide = np.pad(rows, ((0, 0), (0, blocks * years)))
    found = milp(
        np.concatenate([-gain, np.zeros(blocks * years)]),
        integrality=np.repeat([0, 1], [len(gain), blocks * years]),
        bounds=Bounds(0, np.concatenate([upper, np.ones(blocks * years)])),
        constraints=[
            LinearConstraint(wide, -np.inf, most),
            LinearConstraint(np.hstack([mined, -np.eye(blocks * years)]), 0, 0),
        ],
    )
    assert found.status == 0, found.message
    return -found.fun


def integer_optimum(problem):
    """The most that a schedule earns whose blocks each go to one destination whole."""
    gain, rows, most, upper = programme(problem)
    found = milp(
        -gain,
        integrality=np.ones(len(gain)),
        bounds=Bounds(0, upper),
        constraints=LinearConstraint(rows, -np.inf, most),
    )
    assert found.status == 0, found.message
    return -found.fun


def cone_of(problem, block):
    """The block and all that it needs, by a walk."""
    pairs, found, open_ = pairs_of(problem), {block}, [block]
    while open_:
        user = open_.pop()
        more = {needed for one, needed in pairs if one == user} - found
        found |= more
        open_ += more
    return sorted(found)


def without_first(problem):
    return nodes_of(problem, np.zeros(problem.blocks, dtype=np.int64))


def demand_sound(problem, schedule):
    """Each block with its whole cone by then, whole, and no year above a limit; gives what it earns."""
    years, earned = problem.years, 0.0
    left = [limit.most * (1 + 1e-9) + 1e-9 for limit in problem.limits]
    for block, year in enumerate(schedule.year.tolist()):
        share = schedule.share[block]
        assert share.sum() == pytest.approx(float(year < years)) and (share >= 0).all()
        if year == years:
            continue
        assert max(schedule.year[cone_of(problem, block)]) <= year
        earned += float(share @ problem.values[block, :, year])
        for limit, most in zip(problem.limits, left):
            spans = [(0, 0)] * len(share) if limit.spans is None else limit.spans.tolist()
            for destination, (first, last) in enumerate(spans):
                most[year + first : year + last + 1] -= share[destination] * limit.amounts[block, destination]
    assert all((most >= 0).all() for most in left)
    return earned

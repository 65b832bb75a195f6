"""What a schedule by block must hold at least, in a year or in all: against the whole programmes, and by hand."""

from dataclasses import replace
from itertools import product

import numpy as np
import pytest
from helpers.block_problems import EXACT, demand_sound, pairs_of, problem_of, programme, random_problem, without_first
from helpers.random_tests import seeds
from scipy.optimize import Bounds, LinearConstraint, linprog, milp

from pitplan import PlanError
from pitplan.config.schedule import Effort
from pitplan.scheduling.blocks import solve
from pitplan.scheduling.blocks.closure import priced
from pitplan.scheduling.blocks.problem import TotalLimit, demand_sound as demand_problem
from pitplan.scheduling.blocks.relaxation import reduced, relaxed, worth_mining


def with_dues(problem, seed):
    """The same where some years must hold a part of what the blocks have of a limit's sum, and some blocks must be dug."""
    rng, limits, totals = np.random.default_rng(seed), [], problem.totals
    for limit in problem.limits:
        least = (
            rng.uniform(0.0, 0.25, problem.years) * limit.amounts.max(axis=1).sum() * (rng.random(problem.years) < 0.5)
        )
        limits.append(replace(limit, least=np.minimum(least, limit.most)))
    if rng.random() < 0.6:
        must = rng.random(problem.blocks) < 0.1
        totals = (
            *totals,
            TotalLimit(
                "blocks that must be dug",
                np.repeat(must[:, None], problem.destinations, axis=1).astype(float),
                float(must.sum()),
            ),
        )
    return replace(problem, limits=tuple(limits), totals=totals)


def whole_programme(problem):
    """That of the other tests with a row more for each least amount."""
    gain, rows, most, upper = programme(problem)
    place = np.arange(len(gain)).reshape(problem.values.shape)
    more, right = [], []
    for limit, year in product(problem.limits, range(problem.years)):
        row = np.zeros(len(gain))
        row[place[:, :, year].ravel()] = -limit.amounts.ravel()
        more.append(row)
        right.append(-limit.floor[year])
    for total in problem.totals:
        row = np.zeros(len(gain))
        row[place.ravel()] = -np.repeat(total.amounts[:, :, None], problem.years, axis=2).ravel()
        more.append(row)
        right.append(-total.least)
    return gain, np.array([*rows, *more]), np.array([*most, *right]), upper


def linear_optimum(problem):
    """None where nothing keeps the rows."""
    gain, rows, most, upper = whole_programme(problem)
    found = linprog(-gain, A_ub=rows, b_ub=most, bounds=np.column_stack([np.zeros(len(gain)), upper]), method="highs")
    assert found.status in (0, 2), found.message
    return -found.fun if found.status == 0 else None


def integer_optimum(problem):
    gain, rows, most, upper = whole_programme(problem)
    found = milp(
        -gain,
        integrality=np.ones(len(gain)),
        bounds=Bounds(0, upper),
        constraints=LinearConstraint(rows, -np.inf, most),
    )
    assert found.status in (0, 2), found.message
    return -found.fun if found.status == 0 else None


@pytest.mark.parametrize("batch", range(2))
def test_the_bound_is_the_optimum_of_the_whole_programme(batch):
    """Twenty cases of up to 40 blocks: some keep nothing, and that is told."""
    kept = 0
    for seed in range(20 * batch, 20 * batch + 20):
        problem = with_dues(random_problem(seed, most=40), seed)
        optimum = linear_optimum(problem)
        if optimum is None:
            with pytest.raises(PlanError, match="^infeasible: no schedule meets the minimum of "):
                relaxed(without_first(problem), EXACT)
            continue
        found = relaxed(without_first(problem), EXACT)
        slack = 1e-6 * max(1.0, abs(optimum))
        assert found.bound == pytest.approx(optimum, abs=slack) and found.rounds[-1].value == pytest.approx(
            optimum, abs=slack
        ), seed
        assert all(one.bound >= optimum - slack >= one.value - 2 * slack for one in found.rounds), seed
        kept += problem.owes
    assert 3 <= kept <= 19


@pytest.mark.parametrize("batch", seeds(1, 20))
def test_what_is_left_out_changes_no_optimum(batch):
    for seed in range(500 + 20 * batch, 520 + 20 * batch):
        problem = with_dues(random_problem(seed, most=30), seed)
        optimum, whole = linear_optimum(problem), linear_optimum(problem.of_blocks(worth_mining(problem)))
        assert (optimum is None) == (whole is None)
        assert optimum is None or whole == pytest.approx(optimum, abs=1e-6 * max(1.0, abs(optimum)))


@pytest.mark.parametrize("batch", seeds(2, 20))
def test_at_any_prices_the_bound_is_above_the_optimum(batch):
    for seed in range(700 + 20 * batch, 720 + 20 * batch):
        problem, rng = with_dues(random_problem(seed, most=20), seed), np.random.default_rng(seed)
        optimum = linear_optimum(problem)
        if optimum is None:
            continue
        prices = rng.uniform(-3, 3, (len(problem.limits) + len(problem.totals), problem.years))
        for row, limit in zip(prices, problem.limits):
            row[:] = np.where(np.isinf(limit.most), -np.abs(row), row)
        for row, total in zip(prices[len(problem.limits) :], problem.totals):
            row[:] = rng.uniform(-50, 0) if np.isinf(total.most) else rng.uniform(0, 5)
        assert priced(without_first(problem), prices).bound >= optimum - 1e-9 * max(1.0, abs(optimum))


def keeps_dues(problem, schedule):
    for limit in problem.limits:
        taken = (limit.amounts * schedule.share).sum(axis=1)
        for year in range(problem.years):
            assert taken[schedule.year == year].sum() >= limit.floor[year] * (1 - 1e-8) - 1e-8
    for total in problem.totals:
        assert total.least * (1 - 1e-8) <= (total.amounts * schedule.share).sum() <= total.most * (1 + 1e-8)


@pytest.mark.parametrize("batch", range(2))
def test_small_schedules_are_the_best_that_keep_what_is_due(batch):
    """Of up to 12 blocks, which one window holds; where no whole blocks keep it that is told too."""
    kept = 0
    for seed in range(2000 + 10 * batch, 2010 + 10 * batch):
        problem = with_dues(random_problem(seed, most=12, destinations=1), seed)
        best = integer_optimum(problem)
        if best is None:
            with pytest.raises(
                PlanError,
                match="^(infeasible: no schedule meets the minimum|no schedule of whole blocks was found that meets the minimum)",
            ):
                solve(problem, Effort(0.0, 60.0))
            continue
        found = solve(problem, Effort(0.0, 60.0))
        slack = 1e-6 * max(1.0, abs(best))
        assert demand_sound(problem, found.schedule) == pytest.approx(found.value, abs=slack)
        keeps_dues(problem, found.schedule)
        assert found.value == pytest.approx(best, abs=slack) and found.value <= found.bound + slack, seed
        kept += problem.owes
    assert kept


@pytest.mark.parametrize("batch", seeds(2, 20))
def test_schedules_of_several_destinations_keep_what_is_due(batch):
    """Without integer programmes but those that what is due asks for."""
    for seed in range(3000 + 8 * batch, 3008 + 8 * batch):
        problem = with_dues(random_problem(seed, most=40), seed)
        if linear_optimum(problem) is None:
            continue
        try:
            found = solve(problem)
        except PlanError as error:
            assert "no schedule of whole blocks was found" in str(error)
            continue
        keeps_dues(problem, found.schedule)
        assert demand_sound(problem, found.schedule) == pytest.approx(found.value)
        assert found.value <= found.bound + 1e-6 * max(1.0, abs(found.bound)), seed


def test_a_mill_that_may_not_stand_still_by_hand():
    """Three blocks of ore of 10 t, which earn 9, 5 and -2, in years discounted by half; of 20 t a year at most, with 10 t due in each of
    three years one comes a year: 9 + 5 / 2 - 2 / 4. With nothing due the last stays, and two come in the first year: 14.
    """
    values = np.array([9.0, 5.0, -2.0])[:, None] * 0.5 ** np.arange(3)
    problem = problem_of(values, [], ([10, 10, 10], [20, 20, 20]))
    assert solve(problem).value == 14
    problem = replace(problem, limits=(replace(problem.limits[0], least=np.full(3, 10.0)),))
    found = solve(problem)
    assert (
        found.value == pytest.approx(11)
        and found.bound == pytest.approx(11, abs=1e-6)
        and found.schedule.year.tolist() == [0, 1, 2]
    )


def test_more_than_there_is_by_hand():
    """30 t of three blocks do not make 15 t in each of three years."""
    problem = problem_of(np.ones((3, 3)), [], ([10, 10, 10], [20, 20, 20]))
    problem = replace(problem, limits=(replace(problem.limits[0], least=np.full(3, 15.0)),))
    with pytest.raises(PlanError, match="^infeasible: no schedule meets the minimum of limit 0 in years 1, 2, 3$"):
        solve(problem)
    # Shares of blocks hold 10 of 12 t of each block a year, whole ones do not.
    problem = problem_of(np.ones((2, 2)), [], ([12, 12], [24, 24]), ([12, 12], [13, 13]))
    problem = replace(problem, limits=(replace(problem.limits[0], least=np.array([12.0, 12.0])), problem.limits[1]))
    assert sorted(solve(problem).schedule.year.tolist()) == [0, 1]
    problem = problem_of(np.ones((1, 2)), [], ([12], [24, 24]))
    problem = replace(problem, limits=(replace(problem.limits[0], least=np.array([6.0, 6.0])),))
    with pytest.raises(
        PlanError, match="no schedule of whole blocks was found .*: year 2 has 0 of limit 0 for 6: reduce the minimums"
    ):
        solve(problem)


def test_a_block_that_must_be_dug_is_dug_with_its_cone_as_late_as_may_be():
    """It loses 4, what lies over it 2: in the last of three years, halved twice, -1.5; beside it 8 are earned at once."""
    values = np.array([-4.0, -2.0, 8.0])[:, None] * 0.5 ** np.arange(3)
    problem = problem_of(values, [(0, 1)], ([1, 1, 1], [2, 2, 2]))
    problem = replace(problem, totals=(TotalLimit("blocks that must be dug", np.array([[1.0], [0.0], [0.0]]), 1.0),))
    found = solve(problem)
    assert (
        found.schedule.year.tolist() == [2, 2, 0]
        and found.value == pytest.approx(6.5)
        and found.bound == pytest.approx(6.5, abs=1e-6)
    )
    assert reduced(problem).problem.blocks == 3 and pairs_of(problem) == [(0, 1)]


@pytest.mark.parametrize(
    ("least", "said"),
    [
        ([3.0, 0.0], "limit 0: the minimum of year 1 is 3, above its maximum of 2"),
        ([-1.0, 0.0], "limit 0: the minimum of a year is negative or not a number"),
    ],
)
def test_a_least_that_is_none_is_refused(least, said):
    problem = problem_of(np.ones((1, 2)), [], ([1], [2, 2]))
    with pytest.raises(PlanError, match=said):
        demand_problem(replace(problem, limits=(replace(problem.limits[0], least=np.array(least)),)))


@pytest.mark.parametrize(("least", "most"), [(3.0, 2.0), (-1.0, 2.0), (np.nan, 2.0), (np.inf, np.inf)])
def test_a_total_that_no_schedule_can_hold_is_refused(least, most):
    problem = problem_of(np.ones((1, 2)), [])
    with pytest.raises(PlanError, match="all: expected amounts by block and destination of 0 or more, a minimum"):
        demand_problem(replace(problem, totals=(TotalLimit("all", np.ones((1, 1)), least, most),)))

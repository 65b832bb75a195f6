"""Limits of schedules by block whose amounts have both signs, as those of head grades: against the whole programmes, and by hand."""

from dataclasses import replace

import numpy as np
import pytest
from helpers.block_problems import (
    EXACT,
    complete_optimum,
    demand_sound,
    linear_optimum,
    problem_of,
    random_problem,
    without_first,
)
from helpers.random_tests import seeds

from pitplan import PlanError
from pitplan.config.schedule import Effort
from pitplan.core.progress import silent
from pitplan.scheduling.blocks import relaxation, solve
from pitplan.scheduling.blocks.closure import priced
from pitplan.scheduling.blocks.filling import paying, ranks_of, schedule_of
from pitplan.scheduling.blocks.problem import Assignment, BlockLimit, demand_sound as demand_problem
from pitplan.scheduling.blocks.relaxation import (
    earliest_years,
    first_required,
    reduced,
    relaxed,
    relaxed_as_required,
    worth_mining,
)


def graded(problem, seed, loose=0.0):
    """The same with one or two limits on a grade of what goes to each destination but the first: content less so much of the amount."""
    rng, limits = np.random.default_rng(seed), []
    for number in range(rng.integers(1, 3)):
        feed = rng.integers(1, 20, (problem.blocks, problem.destinations)).astype(float)
        feed[:, 0] = 0.0
        excess = (rng.uniform(0, 2, (problem.blocks, 1)) - rng.uniform(0.5, 1.2) - loose) * feed
        limits.append(BlockLimit(f"grade {number}", excess, np.zeros(problem.years), signed=True))
    return replace(problem, limits=(*problem.limits, *limits))


def random_graded(seed, most, loose=0.0):
    problem = random_problem(seed, most=most)
    return graded(problem, seed, loose) if problem.destinations > 1 else graded(random_problem(7, most=most), 7, loose)


@pytest.mark.parametrize("batch", seeds(1, 20))
def test_the_bound_is_the_optimum_of_the_whole_programme(batch):
    for seed in range(8000 + 15 * batch, 8015 + 15 * batch):
        problem = random_graded(seed, 40)
        found, optimum = relaxed(without_first(problem), EXACT), linear_optimum(problem)
        slack = 1e-6 * max(1.0, abs(optimum))
        assert found.bound == pytest.approx(optimum, abs=slack), seed
        assert found.rounds[-1].value == pytest.approx(optimum, abs=slack), seed
        kept = problem.of_blocks(worth_mining(problem))
        assert linear_optimum(kept) == pytest.approx(optimum, abs=slack), seed


@pytest.mark.parametrize("batch", seeds(1, 20))
def test_at_any_prices_the_bound_is_above_the_optimum(batch):
    for seed in range(8100 + 15 * batch, 8115 + 15 * batch):
        problem, rng = random_graded(seed, 20), np.random.default_rng(seed)
        prices = rng.uniform(0, 3, (len(problem.limits), problem.years))
        for row, limit in zip(prices, problem.limits):
            row[np.isinf(limit.most)] = 0.0
        optimum = linear_optimum(problem)
        assert priced(without_first(problem), prices).bound >= optimum - 1e-9 * max(1.0, abs(optimum))


@pytest.mark.slow
@pytest.mark.parametrize("batch", seeds(1, 20))
def test_schedules_keep_grades_and_lie_between_nothing_and_the_complete_optimum(batch):
    """Each block is mined in one year, and goes to destinations in shares."""
    reached = []
    for seed in range(8200 + 8 * batch, 8208 + 8 * batch):
        problem = random_graded(seed, 12)
        best = complete_optimum(problem)
        slack = 1e-6 * max(1.0, abs(best))
        for effort in (None, Effort(0.0, 600.0)):
            found = solve(problem, effort)
            assert demand_sound(problem, found.schedule) == pytest.approx(found.value, abs=slack), seed
            assert -slack <= found.value <= best + slack and best <= found.bound + slack, seed
            reached.append(found.value / best if best > slack else 1.0)
        # One window holds all blocks.
        assert found.value == pytest.approx(best, abs=slack), seed
    assert np.mean(reached[::2]) > 0.9


@pytest.mark.parametrize("batch", seeds(1, 20))
def test_a_looser_grade_and_another_destination_never_lower_the_bound(batch):
    for seed in range(8300 + 10 * batch, 8310 + 10 * batch):
        tight, loose = random_graded(seed, 30), random_graded(seed, 30, loose=0.2)
        bounds = [relaxed(without_first(it), EXACT).bound for it in (tight, loose)]
        fewer = replace(
            tight,
            values=tight.values[:, :-1],
            limits=tuple(replace(it, amounts=it.amounts[:, :-1]) for it in tight.limits),
            totals=tuple(replace(it, amounts=it.amounts[:, :-1]) for it in tight.totals),
        )
        bounds.append(relaxed(without_first(fewer), EXACT).bound)
        slack = 1e-6 * max(1.0, abs(bounds[0]))
        assert bounds[1] >= bounds[0] - slack and bounds[2] <= bounds[0] + slack, seed


# Waste and mill: two blocks of ore with 200 and 100 ppm in 10 t each, of which the clean one does not pay in the mill.
DIRTY, CLEAN = [-1.0, 50.0], [-1.0, -5.0]


def blend(limit, years=1):
    values = np.array([DIRTY, CLEAN])[:, :, None] * 0.9 ** np.arange(years)
    problem = problem_of(values, [])
    excess = np.array([[0.0, (200 - limit) * 10.0], [0.0, (100 - limit) * 10.0]])
    return replace(problem, limits=(BlockLimit("grade", excess, np.zeros(years), signed=True),))


@pytest.mark.parametrize(
    ("limit", "dirty", "clean"), [(200, 1, 0), (150, 1, 1), (160, 1, 2 / 3), (100, 0, 0), (125, 1 / 3, 1), (99, 0, 0)]
)
def test_clean_ore_that_does_not_pay_is_fed_for_the_grade(limit, dirty, clean):
    """All of the dirty ore with as much of the clean one as the grade asks for; a third of it pays no more for all of the clean ore:
    50 / 3 - 2 / 3 - 5. What is mined and not fed is waste."""
    problem = blend(limit)
    found = solve(problem, Effort(0.0, 60.0))
    value = 50 * dirty - (1 - dirty) - 5 * clean - (1 - clean) if dirty and clean else 50.0 * dirty
    assert found.value == pytest.approx(value, abs=1e-6) and worth_mining(problem).all() == (limit > 100)
    assert found.schedule.share[0, 1] == pytest.approx(dirty)
    if clean:
        assert found.schedule.share[1, 1] == pytest.approx(clean)
    demand_sound(problem, found.schedule)


def test_what_is_left_out_takes_no_clean_ore_that_a_grade_requires():
    """The clean block does not pay, so without the grade no schedule needs it."""
    problem = blend(150)
    assert worth_mining(problem).tolist() == [True, True]
    assert worth_mining(replace(problem, limits=())).tolist() == [True, False]
    schedule = schedule_of(problem, np.array([0, 0]), np.array([1, 1]))
    assert schedule.is_allowed(problem) and paying(problem, schedule).year.tolist() == [0, 0]
    loose = blend(200)
    assert paying(loose, schedule).year.tolist() == [0, 1]


@pytest.fixture
def without_all_at_once(monkeypatch):
    """Small problems begin with the blocks that pay, as large ones do."""
    monkeypatch.setattr(relaxation, "MOST_UNKNOWNS", 0)


@pytest.mark.parametrize("batch", seeds(1, 20))
def test_blocks_that_a_grade_requires_are_added(batch, without_all_at_once):
    """Few blocks pay, and the bound is that of all of them."""
    added = 0
    for seed in range(8400 + 15 * batch, 8415 + 15 * batch):
        problem = random_graded(seed, 40)
        problem = replace(
            problem, values=problem.values - np.where(np.arange(problem.blocks) % 3, 60.0, 0.0)[:, None, None]
        )
        first = earliest_years(problem, ranks_of(problem.precedences))
        optimum, begun = linear_optimum(problem, first), reduced(problem, first_required(problem))
        if not begun.problem.blocks:
            assert optimum == pytest.approx(0, abs=1e-6)
            continue
        part, found = relaxed_as_required(problem, begun, EXACT, silent, tell=lambda round: None)
        slack = 1e-6 * max(1.0, abs(optimum))
        assert optimum - slack <= found.bound <= optimum + slack, seed
        added += part.problem.blocks > begun.problem.blocks
    assert added > 1


def test_an_interrupted_relaxation_has_a_bound_for_all_blocks(without_all_at_once):
    """Interrupted in the first round, before the clean block is added."""
    problem = blend(150)

    def interrupt(found):
        raise KeyboardInterrupt

    begun = reduced(problem, first_required(problem))
    part, found = relaxed_as_required(problem, begun, EXACT, silent, tell=interrupt)
    assert begun.kept.tolist() == part.kept.tolist() == [0] and found.interrupted
    assert found.bound >= solve(problem, Effort(0.0, 60.0)).value == pytest.approx(45)
    assert priced(begun.nodes, found.multipliers).bound < 45


def test_clean_ore_stays_in_years_that_require_it_alone():
    """Two clean blocks that do not pay: one with the dirty block, and one in the next year."""
    values = np.array([DIRTY, CLEAN, CLEAN])[:, :, None] * np.ones(2)
    excess = np.array([[0.0, 500.0], [0.0, -500.0], [0.0, -500.0]])
    problem = replace(problem_of(values, []), limits=(BlockLimit("grade", excess, np.zeros(2), signed=True),))
    schedule = schedule_of(problem, np.array([0, 0, 1]), np.array([1, 1, 1]))
    assert paying(problem, schedule).year.tolist() == [0, 0, 2]


def test_a_year_above_a_grade_is_not_allowed():
    problem = blend(150, years=2)
    both, apart = (Assignment(np.array(years), np.array([[0.0, 1.0]] * 2)) for years in ([0, 0], [0, 1]))
    assert both.is_allowed(problem) and not apart.is_allowed(problem)


@pytest.mark.parametrize(
    ("change", "said"),
    [
        ({"least": np.array([1.0])}, "grade: found a minimum, expected a maximum alone"),
        ({"signed": False}, "grade: an amount is negative"),
    ],
)
def test_what_has_no_bound_is_refused(change, said):
    problem = blend(150)
    with pytest.raises(PlanError, match=said):
        demand_problem(replace(problem, limits=(replace(problem.limits[0], **change),)))

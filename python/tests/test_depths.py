"""Better depths around a schedule: a case worked by hand, and random mines against the integer programme that the tests state."""

import numpy as np
import pytest
from helpers.benches import benches_of, demand_minable, problem_of, random_benches, without_flows, yearly_limits
from helpers.programmes import integer_optimum, limits, small
from helpers.random_tests import examples
from hypothesis import given, strategies as st

from pitplan.core import tolerances
from pitplan.scheduling.bench_sequencing import BenchSequence, mine_in_order
from pitplan.scheduling.flow import scheduler
from pitplan.scheduling.flow.programme import FlowProgramme
from pitplan.scheduling.flow.scheduler import whole_shares


def improved(problem, mined):
    model = without_flows(problem, mined.shape[1])
    found = scheduler.improved_depths(model, mined, problem.value(mined))
    return mined if found is None else found


def test_ore_that_waits_without_need_by_hand():
    """200 t of waste over 100 t of ore worth 900, and 200 t a year. Half of the waste comes in year 1; with the other half all of the ore may come in
    year 2, and half of it comes in year 3. More waste in year 1 would only cost earlier."""
    problem = problem_of(
        benches_of((1, 0, 200, 0, -200), (1, 1, 100, 100, 900)), yearly_limits({"total_tonnes": 200.0})
    )
    late = np.array([[0.5, 0.5, 0], [0, 0.5, 0.5]])
    assert problem.value(late) == pytest.approx(-100 / 1.1 + 350 / 1.21 + 450 / 1.331)
    found = improved(problem, late)
    assert found == pytest.approx(np.array([[0.5, 0.5, 0], [0, 1, 0]]))
    assert problem.value(found) == pytest.approx(-100 / 1.1 + 800 / 1.21)


def test_work_goes_on_in_the_next_bench():
    """Two benches of ore of 100 t, one a year; 200 t a year are allowed. By the end of year 1 the upper bench is through, and the lower one is begun
    only by a programme that lets it begin."""
    problem = problem_of(
        benches_of((1, 0, 100, 100, 500), (1, 1, 100, 100, 500)), yearly_limits({"total_tonnes": 200.0})
    )
    found = improved(problem, np.eye(2))
    assert found == pytest.approx(np.array([[1, 0], [1, 0]]))


def test_the_last_bench_may_be_left():
    """A bench of ore over one that costs more than the ore below it earns, which is mined in year 1; it comes later, and then no more."""
    problem = problem_of(
        benches_of((1, 0, 100, 100, 500), (1, 1, 100, 0, -300)), yearly_limits({"total_tonnes": 200.0})
    )
    found = improved(problem, np.array([[1.0, 0.0], [1.0, 0.0]]))
    assert problem.value(found) == pytest.approx(500 / 1.1)


@pytest.mark.slow
@examples(60, deadline=None)
@given(small, limits, st.integers(0, 1), st.floats(0.3, 1.0))
def test_depths_are_of_whole_benches_and_worth_no_less(pits, limits, lag, speed):
    benches, years = random_benches(pits, lag), 4
    problem = problem_of(benches, limits)
    pace = speed * benches.of("total_tonnes").sum() / years * np.arange(1, years + 1)
    mined = mine_in_order(problem, BenchSequence(np.arange(len(benches)), pace=pace), years)
    mined = np.pad(mined, ((0, 0), (0, years - mined.shape[1])))
    for deeper in (True, False):
        least, most = scheduler.around(benches, mined.cumsum(axis=1), deeper)
        assert (least <= mined.cumsum(axis=1) + 1e-9).all() and (mined.cumsum(axis=1) <= most + 1e-9).all()
        demand_minable(benches, limits, inside(problem, least, most))
    found = improved(problem, mined)
    demand_minable(benches, limits, found)
    assert problem.value(found) >= problem.value(mined) - 1e-6
    assert problem.value(found) <= integer_optimum(benches, limits, years) + 1e-6


def inside(problem, least, most):
    """The shares of an optimum between these, which is that of whole benches."""
    model = without_flows(problem, least.shape[1])
    optimum = FlowProgramme(model, between=(least, most)).solved()
    return whole_shares(np.clip(optimum.cumulative, least, most), tolerances.SOLVER_SHARE)

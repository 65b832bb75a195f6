"""The linear programme of a yearly schedule and what is made of it, against cases worked by hand, an integer programme and another solver."""

import os
import signal
import time
from dataclasses import replace
from threading import Timer

import numpy as np
import pytest
from conftest import ROOT
from helpers.benches import (
    THREE,
    benches_of,
    demand_minable,
    made_of,
    optimum_of,
    pits,
    problem_of,
    random_benches,
    without_flows,
    yearly_limits,
)
from helpers.programmes import integer_optimum, limits, pace, small, statement
from helpers.random_tests import examples
from hypothesis import given, strategies as st
from scipy.sparse import csr_matrix

from pitplan import PlanError
from pitplan.scheduling import highs, highs_process
from pitplan.scheduling.bench_sequencing import by_rule
from pitplan.scheduling.flow import scheduler
from pitplan.scheduling.flow.flows import none_of
from pitplan.scheduling.flow.programme import FlowProgramme


def solved(benches, limits, years):
    problem = problem_of(benches, limits)
    return optimum_of(problem, years), made_of(problem, years)


def test_three_benches_by_hand():
    """Shovels take two benches a year and the mill one. The waste is dug with the rich ore under it, and then the poor ore."""
    benches = benches_of(*THREE)
    optimum, shares = solved(benches, yearly_limits({"feed_tonnes": 100, "total_tonnes": 200}), 3)
    assert optimum.value == pytest.approx(800 / 1.1 + 500 / 1.21) and optimum.cash == pytest.approx([800, 500, 0])
    assert shares.tolist() == [[1, 0], [1, 0], [0, 1]]


def test_the_bound_digs_parts_of_benches_together():
    """Two tonnes of waste over one of ore worth 900, at two tonnes a year, and beside it one of ore worth 100, which waits for the waste.

    A schedule digs the waste first and then both; that the waste fills the first year the bound knows. With a year that takes two tonnes
    and a half, half of each ore may come in the first year, and for these the bound digs half of the waste, where a schedule digs it whole.
    """
    benches = benches_of((1, 0, 200, 0, -200), (1, 1, 100, 100, 900), (2, 0, 100, 100, 100))
    optimum, shares = solved(benches, yearly_limits({"feed_tonnes": 1e6, "total_tonnes": 200}), 2)
    assert optimum.value == pytest.approx(-200 / 1.1 + 1000 / 1.21) and shares.tolist() == [[1, 0], [0, 1], [0, 1]]
    optimum, shares = solved(benches, yearly_limits({"feed_tonnes": 1e6, "total_tonnes": 250}), 2)
    assert optimum.value == pytest.approx(400 / 1.1 + 400 / 1.21)
    assert problem_of(benches, yearly_limits({})).value(shares) == pytest.approx((450 - 200) / 1.1 + 550 / 1.21)


def test_what_does_not_pay_is_left():
    """Waste that costs 100 over ore that yields 105 pays only if both are dug in one year. Where a year takes one of them, the ore comes a year after
    its waste in the bound too. Where it takes one and a half, the bound digs a half of both in the first year, and the rest in the second.
    """
    benches = benches_of((1, 0, 100, 0, -100), (1, 1, 100, 100, 105))
    optimum, shares = solved(benches, yearly_limits({"feed_tonnes": 100, "total_tonnes": 100}), 3)
    assert optimum.value == pytest.approx(0, abs=1e-6) and shares.shape == (2, 0)
    optimum, shares = solved(benches, yearly_limits({"feed_tonnes": 100, "total_tonnes": 150}), 3)
    assert optimum.value == pytest.approx(2.5 / 1.1 + 2.5 / 1.21) and shares.tolist() == [[1, 0], [0.5, 0.5]]
    optimum, shares = solved(benches, yearly_limits({"feed_tonnes": 100}), 3)
    assert optimum.value == pytest.approx(5 / 1.1) and shares.tolist() == [[1], [1]]


def test_a_mill_that_stands_still_in_all_years():
    """Nothing is dug, since waste alone costs."""
    optimum, shares = solved(benches_of(*THREE), yearly_limits({"feed_tonnes": 100}, (0.0, 0.0, 1.0)), 2)
    assert optimum.value == pytest.approx(0) and shares.shape == (3, 0)


@examples(20)
@given(small, limits, st.integers(0, 1))
def test_rule_and_programme_are_at_most_the_best_schedule_and_this_at_most_the_bound(pit, limits, lag):
    benches, years = random_benches(pit, lag), 5
    problem = problem_of(benches, limits)
    rule, _ = by_rule(problem, years)
    model, optimum = without_flows(problem, years), optimum_of(problem, years)
    shares = scheduler.from_optimum(model, optimum, none_of(replace(model, years=rule.shape[1]), rule)).mined
    demand_minable(benches, limits, shares)
    best, value = integer_optimum(benches, limits, years), problem.value(shares)
    slack = 2e-6 * max(1.0, np.abs(benches.of("cash_flow")).sum())
    assert problem.value(rule) <= value + slack
    assert value <= best + slack and best <= optimum.value + slack
    # To dig nothing at all earns nothing.
    assert value >= 0


@examples(8)
@given(pits, limits, st.integers(0, 1))
def test_the_bound_is_that_of_another_solver(pit, limits, lag):
    pulp = pytest.importorskip("pulp", reason="python3-pulp is not installed")
    solver = pulp.COIN_CMD(msg=False)
    if not solver.available():
        pytest.skip("coinor-cbc is not installed")
    benches, years = random_benches(pit, lag), 6
    gain, rows, _ = statement(benches, limits, years)
    problem = pulp.LpProblem("schedule", pulp.LpMaximize)
    unknown = {key: pulp.LpVariable("x_%d_%d" % key, 0) for key in gain}
    problem += pulp.lpSum(factor * unknown[key] for key, factor in gain.items())
    for coefficients, most in rows + pace(benches, limits, years):
        problem += pulp.lpSum(factor * unknown[key] for key, factor in coefficients.items()) <= most
    problem.solve(solver)
    assert pulp.LpStatus[problem.status] == "Optimal"
    bound = optimum_of(problem_of(benches, limits), years).value
    assert bound == pytest.approx(pulp.value(problem.objective) or 0.0, rel=1e-6, abs=1e-3)


def test_orders_have_what_the_optimum_digs_by_its_last_year():
    """The ore comes in the last year, and the second pushback is left; each order has the waste before its ore."""
    benches = benches_of(*THREE)
    found = [order.tolist() for order in scheduler.of_optimum(np.array([[1.0, 1], [0, 1], [0, 0]]), benches)]
    assert len(found) > 3 and all(order == [0, 1] for order in found)


def test_solved_in_a_process_of_its_own_the_same(highs_apart):
    benches, limits = benches_of(*THREE), yearly_limits({"feed_tonnes": 100, "total_tonnes": 200})
    assert optimum_of(problem_of(benches, limits), 3).value == pytest.approx(800 / 1.1 + 500 / 1.21)


def test_a_process_is_kept_for_the_next_programme(highs_apart, monkeypatch):
    """It ends after one with many unknowns."""
    popen, begun = highs_process.subprocess.Popen, []
    monkeypatch.setattr(
        highs_process.subprocess, "Popen", lambda *given, **more: begun.append(popen(*given, **more)) or begun[-1]
    )
    benches, limits = benches_of(*THREE), yearly_limits({"feed_tonnes": 100, "total_tonnes": 200})
    programme = FlowProgramme(without_flows(problem_of(benches, limits), 3)).programme
    first, second = (highs_process.solve(programme).bound for _ in range(2))
    assert first == second and len(begun) == 1 and begun[0].poll() is None
    monkeypatch.setattr(highs_process, "MANY", 0)
    assert highs_process.solve(programme).bound == first and len(begun) == 1 and begun[0].wait(5) != 0
    highs_process.solve(programme)
    assert len(begun) == 2


def test_an_interruption_ends_a_process_of_its_own(highs_apart, monkeypatch):
    """The process would take ten minutes."""
    popen, begun = highs_process.subprocess.Popen, []

    def sleep(arguments, **options):
        begun.append(popen(["/bin/sleep", "600"], **options))
        Timer(0.3, os.kill, (os.getpid(), signal.SIGINT)).start()
        return begun[0]

    monkeypatch.setattr(highs_process.subprocess, "Popen", sleep)
    started = time.monotonic()
    with pytest.raises(KeyboardInterrupt):
        optimum_of(problem_of(benches_of(*THREE), yearly_limits({"feed_tonnes": 100})), 3)
    assert time.monotonic() - started < 30 and begun[0].wait(5) != 0


def test_a_process_that_is_late_is_ended(highs_apart, monkeypatch):
    popen, begun = highs_process.subprocess.Popen, []

    def sleep(arguments, **options):
        begun.append(popen(["/bin/sleep", "600"], **options))
        return begun[0]

    monkeypatch.setattr(highs_process.subprocess, "Popen", sleep)
    model = without_flows(problem_of(benches_of(*THREE), yearly_limits({"feed_tonnes": 100})), 3)
    programme = FlowProgramme(model).programme
    found = highs_process.solve(programme, patience=0.3)
    assert found.unknowns is None and found.bound == np.inf and begun[0].wait(5) != 0


@pytest.mark.parametrize("few", [0, 1000])
def test_a_programme_that_cannot_be_solved_is_told(monkeypatch, few):
    """x is at most -1 and at least 0."""
    monkeypatch.setattr(highs_process, "FEW", few)
    none = highs.Programme(np.ones(1), csr_matrix([[1.0]]), np.array([-1.0]), np.ones(1), np.zeros(1, dtype=bool))
    with pytest.raises(PlanError, match="HiGHS found no schedule: .*the linear programme: .*infeasible"):
        highs_process.solve(none)


def test_setup_names_the_other_solver():
    told = (ROOT / "tools" / "setup.sh").read_text()
    assert "python3-pulp" in told and "coinor-cbc" in told

"""Schedules by block of mines whose years cost something: against the whole programmes, by hand, and the verification."""

import json
from dataclasses import replace

import numpy as np
import pandas as pd
import pytest
from helpers.block_commands import YEARLY, rewrite, scheduled, wrong, years_of
from helpers.block_problems import EXACT, demand_sound, pairs_of, problem_of, programme, random_problem, without_first
from helpers.pushbacks import PUSHBACKS, pillars
from helpers.random_tests import seeds
from helpers.verified import differing
from helpers.writings import PLAIN
from scipy.optimize import Bounds, LinearConstraint, linprog, milp

import pitplan
from pitplan import PlanError
from pitplan.config.schedule import Effort
from pitplan.scheduling.blocks import solve
from pitplan.scheduling.blocks.closure import priced
from pitplan.scheduling.blocks.problem import Assignment, BlockLimit, demand_sound as demand_problem
from pitplan.scheduling.blocks.relaxation import relaxed


def costly(seed, most):
    """A random problem with limits, whose years cost a part of what its best blocks earn."""
    numbers = (number for number in range(seed, seed + 1000))
    problem = next(it for it in (random_problem(number, most=most) for number in numbers) if it.limits and it.years > 1)
    rng = np.random.default_rng(seed)
    whole = np.maximum(problem.values.max(axis=(1, 2)), 0.0).sum()
    return replace(problem, costs=rng.uniform(0.0, 0.3, problem.years) * whole / problem.years)


def linear_optimum(problem):
    """The whole linear programme, with how far the mine runs in each year behind the shares; 0 if to mine nothing is better."""
    gain, rows, most, upper = programme(problem)
    years = problem.years
    wide, right = np.pad(rows, ((0, 0), (0, years))), most.copy()
    of_limits = len(rows) - sum(np.isfinite(limit.most).sum() for limit in problem.limits)
    places = [year for limit in problem.limits for year in range(years) if np.isfinite(limit.most[year])]
    for row, year in enumerate(places, of_limits):
        wide[row, len(gain) + year], right[row] = -most[row], 0.0
    later = np.zeros((years - 1, wide.shape[1]))
    for year in range(years - 1):
        later[year, len(gain) + year], later[year, len(gain) + year + 1] = -1.0, 1.0
    lower = np.append(np.zeros(len(gain)), np.arange(years) == 0)
    found = linprog(
        np.append(-gain, problem.costs),
        A_ub=np.vstack([wide, later]),
        b_ub=np.append(right, np.zeros(years - 1)),
        bounds=np.column_stack([lower, np.append(upper, np.ones(years))]),
        method="highs",
    )
    assert found.status == 0, found.message
    return max(-found.fun, 0.0)


def complete_optimum(problem):
    """Each block goes to destinations in shares, in one year; a year in which one does, and each before it, costs its whole."""
    gain, rows, most, upper = programme(problem)
    blocks, destinations, years = problem.values.shape
    size, count = len(gain), blocks * years
    mined = np.hstack(
        [
            np.kron(np.eye(blocks), np.kron(np.ones(destinations), np.eye(years))),
            -np.eye(count),
            np.zeros((count, years)),
        ]
    )
    running = np.hstack([np.zeros((count, size)), np.eye(count), -np.tile(np.eye(years), (blocks, 1))])
    later = np.hstack([np.zeros((years - 1, size + count)), np.eye(years - 1, years, k=1) - np.eye(years - 1, years)])
    found = milp(
        np.concatenate([-gain, np.zeros(count), problem.costs]),
        integrality=np.repeat([0, 1], [size, count + years]),
        bounds=Bounds(0, np.concatenate([upper, np.ones(count + years)])),
        constraints=[
            LinearConstraint(np.pad(rows, ((0, 0), (0, count + years))), -np.inf, most),
            LinearConstraint(mined, 0, 0),
            LinearConstraint(np.vstack([running, later]), -np.inf, 0),
        ],
    )
    assert found.status == 0, found.message
    return -found.fun


@pytest.mark.parametrize("batch", seeds(1, 20))
def test_the_bound_is_the_optimum_of_the_whole_programme(batch):
    kept = 0
    for seed in range(9000 + 12 * batch, 9012 + 12 * batch):
        problem = costly(seed, 30)
        optimum, found = linear_optimum(problem), relaxed(without_first(problem), EXACT)
        slack = 1e-6 * max(1.0, abs(optimum))
        assert found.bound == pytest.approx(optimum, abs=slack), seed
        assert found.rounds[-1].value == pytest.approx(optimum, abs=slack), seed
        prices = np.where(np.isinf([it.most for it in problem.limits]), 0.0, np.random.default_rng(seed).uniform(0, 9))
        assert priced(without_first(problem), prices).bound >= optimum - slack
        kept += optimum > 0
    assert kept > 6


@pytest.mark.slow
@pytest.mark.parametrize("batch", seeds(1, 20))
def test_values_lie_between_nothing_and_the_complete_optimum(batch):
    reached = []
    for seed in range(9200 + 8 * batch, 9208 + 8 * batch):
        problem = costly(seed, 10)
        best, found = complete_optimum(problem), solve(problem, Effort(0.0, 600.0))
        slack = 1e-6 * max(1.0, abs(best))
        earned = demand_sound(problem, found.schedule)
        last = found.schedule.year[found.schedule.year < problem.years].max(initial=-1)
        assert found.value == pytest.approx(earned - problem.costs[: last + 1].sum(), abs=slack), seed
        assert -slack <= found.value <= best + slack and best <= found.bound + slack, seed
        reached.append(found.value / best if best > slack else 1.0)
    assert np.mean(reached) > 0.9


def test_the_last_years_are_left_if_they_do_not_pay():
    """Three blocks, one a year, that earn 5, 3 and 2; a year costs 2.5, the first one 1."""
    problem = problem_of(np.array([5.0, 3.0, 2.0])[:, None] * np.ones(3), [], ([1, 1, 1], [1, 1, 1]))
    problem = replace(problem, costs=np.array([1.0, 2.5, 2.5]))
    found = solve(problem)
    assert found.schedule.year.tolist() == [0, 1, 3] and found.value == pytest.approx(5 - 1 + 3 - 2.5) == found.bound
    whole = Assignment(np.array([0, 1, 2]), np.ones((3, 1)))
    assert whole.value(problem) == 10 - 6 and whole.shortened(problem).year.tolist() == [0, 1, 3]
    dear = replace(problem, costs=np.array([9.0, 2.5, 2.5]))
    assert whole.shortened(dear).year.tolist() == [3, 3, 3] and solve(dear).bound == 0.0
    assert pairs_of(problem) == []


@pytest.mark.parametrize("costs", [[1.0], [-1.0, 0.0], [np.nan, 0.0]])
def test_costs_that_are_none_are_refused(costs):
    with pytest.raises(PlanError, match="expected the costs of running by year, 0 or more"):
        demand_problem(replace(problem_of(np.ones((1, 2)), []), costs=np.array(costs)))


def text_of(words):
    return YEARLY.replace("mining_cost = 2\n", f"mining_cost = 2\n{words}\n")


@pytest.mark.parametrize(
    ("words", "years"),
    [
        ("fixed_cost_per_year = 300", [2300, 1100, 300]),
        # The third year would earn 600.
        ("fixed_cost_per_year = 700", [1900, 700]),
        ("capex = [[1, 1000], [3, 400]]", [2600, 1400, 600]),
        ("fixed_cost_per_year = 300\ncapex = [[3, 300]]", [2300, 1100]),
        ("capex = [[1, 5000]]", []),
    ],
)
def test_period_costs_by_hand(plan_folder, words, years):
    """Three pillars, one a year, that earn 2600, 1400 and 600. Capex is spent at the start of its year, if the mine still runs."""
    row, folder = scheduled(plan_folder, text=text_of(words))
    capex = {1: 1000, 3: 400} if "400" in words else {1: 1000} if years and "1000" in words else {}
    value = sum(cash / 1.1**year for year, cash in enumerate(years, 1))
    value -= sum(spent / 1.1 ** (year - 1) for year, spent in capex.items())
    assert row["npv"] == pytest.approx(value) and row["years"] == len(years)
    # The relaxation runs parts of two years, and pays a part of what is spent in the first of them.
    assert row["upper_bound"] == pytest.approx(value, abs=1e-6) or "[3," in words and row["upper_bound"] > value
    spent = np.array([capex.get(year, 0) for year in range(1, len(years) + 1)])
    assert years_of(folder)["cash_flow"].tolist() == pytest.approx((np.array(years) - spent).tolist())
    assert years_of(folder)["capex"].tolist() == spent.tolist()


def test_pushbacks_of_the_same_mine_have_the_same_value(plan_folder):
    """Each pillar is a pushback, so both kinds of schedule of one project have the same years."""
    costs = "mining_cost = 2\nfixed_cost_per_year = 300\ncapex = [[2, 100]]\n"
    path = plan_folder(pillars(), PUSHBACKS.replace("mining_cost = 2\n", costs))
    pushbacks, block = (
        pitplan.write_schedule(path, writing=PLAIN),
        pitplan.write_block_schedule(path, writing=PLAIN).iloc[0],
    )
    best = pushbacks.set_index("method").loc["lp"]
    assert block["npv"] == pytest.approx(best["npv"]) and block["years"] == best["years"] == 3
    assert block["upper_bound"] == pytest.approx(block["npv"])


@pytest.mark.parametrize(
    ("name", "rules"),
    [("fixed_cost", {"block value"}), ("capex", {"block value"}), ("cash_flow", {"block value"})],
)
def test_a_cost_that_is_another_is_found(plan_folder, name, rules):
    _, folder = scheduled(plan_folder, text=text_of("fixed_cost_per_year = 300\ncapex = [[2, 100]]"))
    rewrite(
        folder / "tables/years.csv", lambda table: table.__setitem__(name, table[name] + (table["case"] == "block"))
    )
    assert differing(folder, *rules) == rules


def test_a_bound_without_the_costs_is_found(plan_folder):
    _, folder = scheduled(plan_folder, text=text_of("fixed_cost_per_year = 300"))
    told = json.loads((folder / "block_schedule.json").read_text())
    bound = told["upper_bound"] + 300 / 1.1
    gap = (bound - told["npv"]) / bound
    (folder / "block_schedule.json").write_text(json.dumps(told | {"upper_bound": bound, "gap": gap}))
    methods = pd.read_csv(folder / "tables/methods.csv").assign(upper_bound=bound, optimality_gap=gap)
    methods.to_csv(folder / "tables/methods.csv", index=False)
    assert wrong(folder) == {"upper bound"}


def test_ore_that_stays_on_a_stockpile_pays_for_its_room_after_the_last_year_that_runs():
    """A dump takes the rock over an ore worth 200 for 100, or a stockpile with room for half of it for 1: 200 - 50.5 - 30 in the first year. The room may be
    paid for in the last year alone, in which the mine does not run."""
    years = 3
    values = np.full((2, 3, years), -1000.0)
    values[0, :, 0], values[1, :, 0] = [-100.0, -1000.0, -1.0], [-1000.0, 200.0, -1000.0]
    lies = BlockLimit("stock", np.zeros((2, 3)), np.full(years, 5.0), spans=np.array([[0, 0], [0, 0], [0, years - 1]]))
    lies.amounts[0, 2] = 10.0
    problem = problem_of(values, [(1, 0)])
    problem = replace(problem, limits=(lies,), costs=np.full(years, 30.0), lags=np.array([0, 0, years]))
    schedule = Assignment(np.array([0, 0]), np.array([[0.5, 0.0, 0.5], [0.0, 1.0, 0.0]]))
    assert demand_sound(problem, schedule) - 30 == schedule.value(problem) == pytest.approx(119.5)
    for price in (0.0, 9.9, 20.0):
        bound = priced(without_first(problem), np.array([[0.0, 0.0, price]])).bound
        assert bound >= 119.5
    assert priced(without_first(problem), np.array([[0.0, 0.0, 9.9]])).bound == pytest.approx(119.5)

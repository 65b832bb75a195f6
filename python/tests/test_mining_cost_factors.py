"""`mining_cost_factor` of periods: cases worked by hand, two notations of one mine, monotone optima, and the verification."""

import numpy as np
import pandas as pd
import pytest
from conftest import PROJECT
from helpers import block_commands as blocks
from helpers.benches import yearly_limits
from helpers.flows import (
    complete_optimum,
    linear_optimum,
    mine_of,
    mines,
    model_of,
    processes,
    stockpiles,
    with_mining_costs,
)
from helpers.periods import column, entries, periods, solved
from helpers.pushbacks import PUSHBACKS, pillars
from helpers.random_tests import examples
from helpers.verified import schedule_folder, wrong
from helpers.writings import UNVERIFIED
from hypothesis import given, strategies as st

import pitplan
from pitplan import Plan, PlanError
from pitplan.scheduling.flow import scheduler
from pitplan.scheduling.flow.bound import Lagrangian, upper_bound
from pitplan.scheduling.flow.programme import FlowProgramme

# The pillars earn 4000 - 1400, 2800 - 1400 and 2000 - 1400, of which 400 is the cost of mining 200 t. One is mined a year.
DEAR = entries("", "mining_cost_factor = 2", "")
THREE_YEARS = "[schedule]\nyears = 3\n"
BY_HAND = 2600 / 1.1 + (1400 - 400) / 1.21 + 600 / 1.331


@pytest.fixture
def scheduled(plan_folder):
    """Schedules the pushbacks of a project, demands that its folder is right, and gives it."""

    return lambda words, text=PUSHBACKS: schedule_folder(plan_folder(pillars(), text + words))


def table(folder, name):
    return pd.read_csv(folder / f"tables/{name}.csv")


def test_pit_by_pit_by_hand(plan_folder):
    """Each 100 t earn 3200 - 1000 - 200 = 2000, and 200 less from the second year on, which continues."""
    shell, years = solved(plan_folder(column(), periods("", "mining_cost_factor = 2")))
    assert years["cash_flow"].tolist() == [2000, 1800, 1800, 1800]
    present = 2000 / 1.1 + 1800 / 1.21 + 1800 / 1.331 + 1800 / 1.4641
    assert shell["npv_best"] == shell["npv_worst"] == pytest.approx(present, abs=1e-3)
    assert shell["undiscounted_cash_flow"] == 8000


def test_pushbacks_by_hand(scheduled):
    """Ore and waste of the second pillar cost twice as much to mine in each line of the cash flow, and nothing else changes."""
    folder = scheduled(THREE_YEARS + DEAR)
    methods = table(folder, "methods").set_index("method")
    assert methods["npv"].tolist() == pytest.approx([BY_HAND] * len(methods), abs=1e-2)
    assert methods["upper_bound"].tolist() == pytest.approx([BY_HAND] * len(methods), abs=1e-2)
    lines = table(folder, "cash_flow").query("method == 'lp'")
    for name in ("mining_cost_ore", "mining_cost_waste"):
        assert lines[name].tolist() == pytest.approx([200, 400, 200])
    assert lines["processing_cost_mill"].tolist() == pytest.approx([1000] * 3)
    assert lines["cash_flow"].tolist() == pytest.approx([2600, 1000, 600])
    # What ore earns once it is mined does not change.
    flows = table(folder, "flows").query("method == 'lp' and destination == 'mill'")
    assert flows["cash_flow"].tolist() == pytest.approx([3000, 1800, 1000])


def test_blocks_by_hand(plan_folder):
    row, folder = blocks.scheduled(plan_folder, THREE_YEARS + DEAR)
    assert row["npv"] == pytest.approx(BY_HAND, abs=1e-3) and row["upper_bound"] == pytest.approx(BY_HAND, abs=1e-2)
    assert blocks.years_of(folder)["cash_flow"].tolist() == pytest.approx([2600, 1000, 600])


def test_a_mine_waits_for_cheaper_years(plan_folder):
    """With a fourth year nothing is mined in the dear one: 1400 / 1.331 + 600 / 1.4641 is more than 1000 / 1.21 + 600 / 1.331."""
    row, folder = blocks.scheduled(plan_folder, "[schedule]\nyears = 4\n" + DEAR)
    assert row["npv"] == pytest.approx(2600 / 1.1 + 1400 / 1.331 + 600 / 1.4641, abs=1e-3)
    assert blocks.years_of(folder)["total_tonnes"].tolist() == [200, 0, 200, 200]


def test_costs_that_pushbacks_add_are_multiplied(scheduled):
    """2 USD per tonne added to the second pushback cost 400, and 800 in the dear year."""
    text = PUSHBACKS.replace("count = 3", "count = 3\nmining_cost_added = [0, 2, 0]")
    lines = table(scheduled(THREE_YEARS + DEAR, text), "cash_flow").query("method == 'rule'")
    assert lines["mining_cost_added"].tolist() == pytest.approx([0, 800, 0])
    assert lines["cash_flow"].tolist() == pytest.approx([2600, 1400 - 400 - 800, 600])


def test_the_rounding_of_block_values_is_multiplied(scheduled):
    """Mining a block costs 200.4, which its value has as 200: the lines have 0.8 more of the two blocks of a pillar, and 1.6 in the dear year."""
    text = PUSHBACKS.replace("mining_cost = 2\n", "mining_cost = 2.004\ndecimals = 0\n")
    lines = table(scheduled(THREE_YEARS + DEAR, text), "cash_flow").query("method == 'lp'")
    assert lines["mining_cost_ore"].tolist() == pytest.approx([200.4, 400.8, 200.4])
    assert lines["rounding"].tolist() == pytest.approx([0.8, 1.6, 0.8])
    assert lines["cash_flow"].tolist() == pytest.approx([2600, 1000, 600])


def tables_of(folder):
    return {path.name: path.read_text() for path in sorted((folder / "tables").glob("*.csv"))}


def test_a_factor_of_1_changes_no_digit(plan_folder):
    """Of shells and years, and of schedules of pushbacks and blocks."""
    found = []
    for words in ("", entries("mining_cost_factor = 1", "mining_cost_factor = 1.0")):
        path = plan_folder(pillars(), PUSHBACKS + words)
        pitplan.write_shells(path, writing=UNVERIFIED)
        pitplan.write_schedule(path, writing=UNVERIFIED)
        pitplan.write_block_schedule(path, writing=UNVERIFIED)
        folder = path.parent / "plan"
        found.append([tables_of(it) for it in (folder, folder / "schedule", folder / "block_schedule")])
    assert found[0] == found[1] and all(found[0])


@pytest.mark.slow
@pytest.mark.parametrize("text", [PUSHBACKS, blocks.with_processes() + "[pushbacks]\ncount = 3\n"], ids=["mill", "two"])
def test_two_notations_of_one_mine(plan_folder, text):
    """A factor of 1.5 in all periods is a mining cost of 3. Pits are the same, since each pillar pays in both at the base price."""
    text, found = text.replace("[0.5, 1.0, 1.5]", "[1.0]"), []
    for other, words in (
        (text.replace("mining_cost = 2\n", "mining_cost = 3\n"), ""),
        (text, "mining_cost_factor = 1.5"),
    ):
        path = plan_folder(pillars(), other + THREE_YEARS + entries(words))
        shells = pitplan.write_shells(path, writing=UNVERIFIED).set_index("revenue_factor").loc[1.0]
        years = table(path.parent / "plan", "years").query("revenue_factor == 1.0")
        assert wrong(path.parent / "plan") == set()
        methods = pitplan.write_schedule(path, writing=UNVERIFIED)
        by_block = pitplan.write_block_schedule(path, writing=UNVERIFIED).iloc[0]
        lines = table(path.parent / "plan/schedule", "cash_flow")
        numbers = [*shells[["tonnes", "npv_best", "npv_worst"]], *years["cash_flow"], *methods["npv"]]
        numbers += [*methods["upper_bound"], *by_block[["npv", "upper_bound"]], *lines["mining_cost_waste"]]
        found.append(numbers)
    assert found[0] == pytest.approx(found[1], rel=1e-6, abs=0.01)


def test_a_higher_factor_never_raises_optimum_and_bound(plan_folder):
    """The bound at the same prices of limits, and the optimum of the linear programme, for each year alone and all together."""
    optima, bounds = {}, {}
    prices = None
    for texts in (("", ""), ("", "1.3"), ("1.3", ""), ("1.3", "1.3"), ("1.3", "2.5"), ("2.5", "2.5")):
        words = entries(*(f"mining_cost_factor = {it}" if it else "" for it in texts), "")
        project = pitplan.load(plan_folder(pillars(), PUSHBACKS + "[schedule]\nyears = 4\n" + words))
        model = Plan.from_project(project).shells().pushbacks().schedule().model
        optimum = FlowProgramme(model).solved()
        prices = prices or optimum.prices
        key = tuple(float(it or 1) for it in texts)
        optima[key], bounds[key] = optimum.value, Lagrangian(FlowProgramme(model), prices).value
    for values in (optima, bounds):
        for low in values:
            above = [values[high] for high in values if all(a <= b for a, b in zip(low, high))]
            assert max(above) <= values[low] * (1 + 1e-9)
    assert all(optima[key] <= bounds[key] * (1 + 1e-9) for key in optima)
    assert optima[2.5, 2.5] < optima[1.3, 1.3] < optima[1, 1]


@pytest.mark.slow
@examples(14)
@given(
    mines,
    processes,
    st.integers(0, 1),
    stockpiles,
    st.lists(st.sampled_from([0.5, 1.0, 1.7, 3.0]), min_size=2, max_size=3),
)
def test_random_optima_and_bounds(pits, several, lag, piles, factors):
    """The optimum is that of a programme that the tests state, bound and schedule lie around that of whole benches, and dearer mining raises
    neither optimum nor bound."""
    plain = model_of(mine_of(pits, lag), several, yearly_limits({"feed_tonnes": 70.0, "total_tonnes": 150.0}), 3, piles)
    model, dearer = with_mining_costs(plain, factors), with_mining_costs(
        plain, [factors[0], *(1.4 * it for it in factors[1:])]
    )
    slack = 1e-5 * max(1.0, np.abs(plain.benches.amounts).sum() + np.abs(plain.ore.gain).sum())
    optimum, other = FlowProgramme(model).solved(), FlowProgramme(dearer).solved()
    assert optimum.value == pytest.approx(max(0.0, linear_optimum(model, factors)), abs=slack)
    bound, best = upper_bound(model, model.ore, optimum.prices), complete_optimum(model, factors)
    assert scheduler.from_optimum(model, optimum).value <= best + slack and best <= bound + slack
    assert other.value <= optimum.value + slack and upper_bound(dearer, model.ore, other.prices) <= bound + slack


def changed(folder):
    kept = folder / "project-as-run.toml"
    text = kept.read_text()
    assert text.count("mining_cost_factor = 2") == 1
    kept.write_text(text.replace("mining_cost_factor = 2", "mining_cost_factor = 1.5"))
    return wrong(folder)


def test_other_factors_are_found(scheduled, plan_folder):
    """In the years of shells, in each table and the bound of both schedules."""
    found = changed(scheduled(THREE_YEARS + DEAR))
    assert {"schedule amounts", "upper bound", "years", "cash flow"} <= found
    _, folder = blocks.scheduled(plan_folder, THREE_YEARS + DEAR)
    assert {"block value", "upper bound", "years"} <= changed(folder)
    path = plan_folder(column(), periods("", "mining_cost_factor = 2"))
    pitplan.write_shells(path, writing=UNVERIFIED)
    assert wrong(path.parent / "plan") == set() and "years" in changed(path.parent / "plan")


def test_a_table_of_periods_has_factors(plan_folder):
    path = plan_folder(column(), 'periods = "periods.csv"\n' + PROJECT)
    (path.parent / "periods.csv").write_text("mining_cost_factor\n1\n2\n")
    assert solved(path)[1]["cash_flow"].tolist() == [2000, 1800, 1800, 1800]


def test_a_sensitivity_changes_a_factor_and_the_cost_that_it_multiplies(plan_folder):
    asked = '[sensitivity]\nparameters = ["periods.2.mining_cost_factor", "mining_cost"]\nchanges = [-0.5, 0.5]\n'
    path = plan_folder(column(), periods("", "mining_cost_factor = 2") + asked)
    cases = pitplan.write_sensitivity(path, writing=UNVERIFIED).set_index(["parameter", "change"])["npv"]
    for name, share in [
        ("periods.2.mining_cost_factor", -0.5),
        ("periods.2.mining_cost_factor", 0.5),
        ("mining_cost", 0.5),
    ]:
        first, cash = 2200 - 200 * (1 + share * (name == "mining_cost")), 2200 - 400 * (1 + share)
        present = first / 1.1 + cash / 1.21 + cash / 1.331 + cash / 1.4641
        assert cases[name, share] == pytest.approx(present, abs=0.01)
    assert wrong(path.parent / "plan/sensitivity") == set()


HAULAGE = (
    "[haulage]\npit_exit = [5, 5, 20]\nramp_gradient = 0.1\ncost = 1\nex_pit_distance = { ore = 500, waste = 0 }\n"
)


@pytest.mark.parametrize(
    ("text", "said"),
    [
        ("mining_cost_factor = -1", r"\[periods 1\] mining_cost_factor: found -1, expected 0 or more"),
        ('mining_cost_factor = "twice"', r"\[periods 1\] mining_cost_factor: .*is not a number"),
        ("mining_cost_factor = 1.1\n" + HAULAGE, r"\[\[periods\]\] 1 mining_cost_factor: \[haulage\] charges ore"),
    ],
)
def test_what_is_wrong_is_named(plan_folder, text, said):
    with pytest.raises(PlanError, match=said):
        pitplan.load(plan_folder(column(), periods(text)))

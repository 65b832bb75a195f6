"""`processing_cost_factor` and `selling_cost_factor` of periods: cases worked by hand, two notations of one mine, monotone optima, and the
verification."""

import numpy as np
import pandas as pd
import pytest
from conftest import PROJECT
from helpers import block_commands as blocks
from helpers.benches import yearly_limits
from helpers.flows import (
    complete_optimum,
    linear_optimum,
    mine_of,
    mines,
    model_of,
    processes,
    stockpiles,
    with_costs_of_ore,
)
from helpers.periods import column, entries, periods, solved
from helpers.pushbacks import PUSHBACKS, pillars
from helpers.random_tests import examples
from helpers.verified import schedule_folder, wrong
from helpers.writings import UNVERIFIED
from hypothesis import given, strategies as st

import pitplan
from pitplan import PlanError
from pitplan.scheduling.flow import scheduler
from pitplan.scheduling.flow.bound import upper_bound
from pitplan.scheduling.flow.programme import FlowProgramme

# Of copper at 8,000 a tonne; half of it is recovered.
SOLD = PROJECT.replace("price = 8000\n", "price = 8000\nselling_cost = 500\n")
SOLD_PUSHBACKS = PUSHBACKS.replace("price = 8000\n", "price = 8000\nselling_cost = 500\n")
# The pillars hold 1, 0.7 and 0.5 t of copper, of which 0.5, 0.35 and 0.25 t are sold for 4000, 2800 and 2000, less 250, 175 and 125. Mining costs
# each 400, milling 1000. One is mined a year.
DEAR = entries("", "processing_cost_factor = 1.2\nselling_cost_factor = 2", "")
THREE_YEARS = "[schedule]\nyears = 3\n"
CASH = [4000 - 250 - 1400, 2800 - 2 * 175 - 400 - 1200, 2000 - 125 - 1400]
BY_HAND = CASH[0] / 1.1 + CASH[1] / 1.21 + CASH[2] / 1.331


@pytest.fixture
def scheduled(plan_folder):
    """Schedules the pushbacks of a project, demands that its folder is right, and gives it."""

    return lambda words, text=SOLD_PUSHBACKS: schedule_folder(plan_folder(pillars(), text + words))


def table(folder, name, method="lp"):
    return pd.read_csv(folder / f"tables/{name}.csv").query(f"method == '{method}'")


def test_pit_by_pit_by_hand(plan_folder):
    """Each 100 t earn 3200 for 0.4 t of copper, less 200 for selling, 1000 for milling and 200 for mining. From the second year on, which continues,
    milling costs 1500 and selling 400."""
    text = SOLD + entries("", "processing_cost_factor = 1.5\nselling_cost_factor = 2")
    shell, years = solved(plan_folder(column(), text))
    assert years["cash_flow"].tolist() == [1800, 1100, 1100, 1100]
    assert shell["npv_best"] == pytest.approx(1800 / 1.1 + 1100 / 1.21 + 1100 / 1.331 + 1100 / 1.4641, abs=1e-3)
    assert shell["undiscounted_cash_flow"] == 7200


def test_ore_that_does_not_pay_in_its_year_goes_to_waste(plan_folder):
    """Milling costs 4000 in the second year, in which the mine moves on and pays for mining alone."""
    _, years = solved(plan_folder(column(), periods("", "processing_cost_factor = 4", "")))
    assert years["cash_flow"].tolist() == [2000, -200, 2000, 2000]
    assert years["feed_tonnes"].tolist() == [100, 0, 100, 100]


def test_pushbacks_by_hand(scheduled):
    """Milling and selling of the second pillar cost 1.2 and 2 times as much in their lines of the cash flow, and nothing else changes."""
    folder = scheduled(THREE_YEARS + DEAR)
    methods = pd.read_csv(folder / "tables/methods.csv")
    assert methods["npv"].tolist() == pytest.approx([BY_HAND] * len(methods), abs=1e-2)
    assert methods["upper_bound"].tolist() == pytest.approx([BY_HAND] * len(methods), abs=1e-2)
    lines = table(folder, "cash_flow")
    assert lines["processing_cost_mill"].tolist() == pytest.approx([1000, 1200, 1000])
    assert lines["selling_cost_copper"].tolist() == pytest.approx([250, 350, 125])
    assert (lines["mining_cost_ore"] + lines["mining_cost_waste"]).tolist() == pytest.approx([400] * 3)
    assert lines["cash_flow"].tolist() == pytest.approx(CASH)
    flows = table(folder, "flows").query("destination == 'mill'")
    assert flows["cash_flow"].tolist() == pytest.approx([cash + 400 for cash in CASH])


def test_blocks_by_hand(plan_folder):
    row, folder = blocks.scheduled(
        plan_folder, THREE_YEARS + DEAR, blocks.YEARLY.replace("price = 8000\n", "price = 8000\nselling_cost = 500\n")
    )
    assert row["npv"] == pytest.approx(BY_HAND, abs=1e-3) and row["upper_bound"] == pytest.approx(BY_HAND, abs=1e-2)
    assert blocks.years_of(folder)["cash_flow"].tolist() == pytest.approx(CASH)


def test_a_stockpile_pays_the_costs_of_the_year_in_which_it_is_reclaimed(scheduled):
    """Two pillars are mined in the first year, and none in the second, in which the poorer ore comes from the stockpile with 0.9 of its metal: it
    earns 0.315 x 8000 less 100 for reclaiming, 1500 for milling and 0.315 x 500 x 2 for selling."""
    pile = 'stockpiles = [{ name = "low", reclaim_cost = 1, recovery = { copper = 0.9 } }]\n'
    words = "[schedule]\nyears = 2\n" + pile
    words += entries(
        "mining_capacity = 400",
        "mining_capacity = 0\nprocessing_cost_factor = 1.5\nselling_cost_factor = 2",
        "mining_capacity = 200",
    )
    folder = scheduled(words)
    lines, first = table(folder, "cash_flow"), 4000 - 250 - 1000 - 800
    assert lines["cash_flow"].tolist() == pytest.approx([first, 2520 - 100 - 1500 - 315])
    assert lines["selling_cost_copper"].tolist() == pytest.approx([250, 315])
    found = pd.read_csv(folder / "tables/methods.csv").set_index("method").loc["lp"]
    value = first / 1.1 + 605 / 1.21
    assert found["npv"] == pytest.approx(value, abs=0.01)
    # A block that waits earns as much in the bound as it does here.
    assert found["upper_bound"] == pytest.approx(value, abs=0.01)


def test_what_lies_on_a_stockpile_waits_for_a_cheaper_year(scheduled):
    """100 t of 0.5 % earn 2000 less 125, 100 and 1000 x 1.2 for milling in the first year, or 1000 in the second: 775 / 1.21 is more than 575 / 1.1."""
    text = SOLD_PUSHBACKS.replace("processing_capacity = 100", "processing_capacity = 200")
    pile = 'stockpile = { reclaim_cost = 1, opening = { tonnes = 100, rock_type = "R", domain = "1", cu = 0.5 } }\n'
    folder = scheduled(THREE_YEARS + pile + entries("processing_cost_factor = 1.2", ""), text)
    cash = [2350 - 200, 1225 + 775, 475]
    assert table(folder, "cash_flow")["cash_flow"].tolist() == pytest.approx(cash)
    assert table(folder, "stockpiles")["out_tonnes"].tolist() == [0, 100, 0]
    npv = pd.read_csv(folder / "tables/methods.csv").set_index("method").loc["lp", ["npv", "upper_bound"]]
    assert npv.tolist() == pytest.approx([cash[0] / 1.1 + cash[1] / 1.21 + cash[2] / 1.331] * 2, abs=0.01)


def test_cutoffs_have_the_costs_of_the_year(scheduled):
    """A tonne of feed costs 10, or 12 in the dear year, and a per cent of copper in it sells for 0.01 x 0.5 x 7500 = 37.5, or 35. The marginal grade is
    that of the base costs, 10 / 37.5."""
    found = table(scheduled(THREE_YEARS + DEAR), "cutoffs")
    costs, earned = 10 * np.array([1, 1.2, 1]) + found["cutoff"], np.array([37.5, 35, 37.5])
    assert found["cutoff_grade"].tolist() == pytest.approx((costs / earned).tolist(), abs=1e-6)
    assert found["marginal_grade"].tolist() == pytest.approx([10 / 37.5] * 3, abs=1e-6)


def tables_of(folder):
    return {path.name: path.read_text() for path in sorted((folder / "tables").glob("*.csv"))}


def test_a_factor_of_1_changes_no_digit(plan_folder):
    """Of shells and years, and of schedules of pushbacks and blocks."""
    found = []
    same = "processing_cost_factor = 1\nselling_cost_factor = 1.0"
    for words in ("", entries(same, same)):
        path = plan_folder(pillars(), SOLD_PUSHBACKS + words)
        pitplan.write_shells(path, writing=UNVERIFIED)
        pitplan.write_schedule(path, writing=UNVERIFIED)
        pitplan.write_block_schedule(path, writing=UNVERIFIED)
        folder = path.parent / "plan"
        found.append([tables_of(it) for it in (folder, folder / "schedule", folder / "block_schedule")])
    assert found[0] == found[1] and all(found[0])


TWO = blocks.with_processes() + "[pushbacks]\ncount = 3\n"


@pytest.mark.slow
@pytest.mark.parametrize(
    ("text", "costs"),
    [
        (PUSHBACKS, [("processing_cost = 10\n", "processing_cost = 12\n")]),
        (TWO, [("cost = 3\n", "cost = 3.6\n"), ("cost = 13\n", "cost = 15.6\n")]),
    ],
    ids=["mill", "two"],
)
def test_two_notations_of_one_mine(plan_folder, text, costs):
    """Factors of 1.2 and 1.5 in all periods are costs of so much more. Pits are the same, since each pillar pays in both at the base price."""
    sold = text.replace("[0.5, 1.0, 1.5]", "[1.0]").replace("price = 8000\n", "price = 8000\nselling_cost = 200\n")
    dear, found = sold.replace("selling_cost = 200", "selling_cost = 300"), []
    for old, new in costs:
        assert dear.count(old) == 1
        dear = dear.replace(old, new)
    for other, words in ((dear, ""), (sold, "processing_cost_factor = 1.2\nselling_cost_factor = 1.5")):
        path = plan_folder(pillars(), other + THREE_YEARS + entries(words))
        shells = pitplan.write_shells(path, writing=UNVERIFIED).set_index("revenue_factor").loc[1.0]
        years = pd.read_csv(path.parent / "plan/tables/years.csv").query("revenue_factor == 1.0")
        assert wrong(path.parent / "plan") == set()
        methods = pitplan.write_schedule(path, writing=UNVERIFIED)
        by_block = pitplan.write_block_schedule(path, writing=UNVERIFIED).iloc[0]
        assert wrong(path.parent / "plan/schedule") == wrong(path.parent / "plan/block_schedule") == set()
        lines = table(path.parent / "plan/schedule", "cash_flow")
        numbers = [*shells[["tonnes", "npv_best", "npv_worst"]], *years["cash_flow"], *methods["npv"]]
        numbers += [*methods["upper_bound"], *by_block[["npv", "upper_bound"]], *lines["selling_cost_copper"]]
        found.append(numbers + [amount for name in lines for amount in lines[name] if "processing_cost" in name])
    assert found[0] == pytest.approx(found[1], rel=1e-6, abs=0.01)


factors = st.lists(st.sampled_from([0.5, 1.0, 1.7, 3.0]), min_size=2, max_size=3)


@pytest.mark.slow
@examples(14)
@given(mines, processes, st.integers(0, 1), stockpiles, factors, factors)
def test_random_optima_and_bounds(pits, several, lag, piles, processing, selling):
    """The optimum is that of a programme that the tests state, bound and schedule lie around that of whole benches, and dearer milling and selling raise
    neither optimum nor bound."""
    plain = model_of(mine_of(pits, lag), several, yearly_limits({"feed_tonnes": 70.0, "total_tonnes": 150.0}), 3, piles)
    costs = processing, selling
    model, dearer = (
        with_costs_of_ore(plain, *([it[0], *(by * other for other in it[1:])] for it in costs)) for by in (1, 1.4)
    )
    slack = 1e-5 * max(1.0, np.abs(plain.benches.amounts).sum() + np.abs(plain.ore.gain).sum())
    optimum, other = FlowProgramme(model).solved(), FlowProgramme(dearer).solved()
    assert optimum.value == pytest.approx(max(0.0, linear_optimum(model, ore_costs=costs)), abs=slack)
    bound, best = upper_bound(model, model.ore, optimum.prices), complete_optimum(model, ore_costs=costs)
    assert scheduler.from_optimum(model, optimum).value <= best + slack and best <= bound + slack
    assert other.value <= optimum.value + slack and upper_bound(dearer, model.ore, other.prices) <= bound + slack


def changed(folder, old, new):
    kept = folder / "project-as-run.toml"
    text = kept.read_text()
    assert text.count(old) == 1
    kept.write_text(text.replace(old, new))
    return wrong(folder)


@pytest.mark.parametrize("name", ["processing", "selling"])
def test_other_factors_are_found(scheduled, plan_folder, name):
    """In the years of shells, in each table and the bound of both schedules."""
    old, new = f"{name}_cost_factor = 1.2", f"{name}_cost_factor = 1.1"
    words = THREE_YEARS + entries("", old, "")
    found = changed(scheduled(words), old, new)
    assert {"material flow", "upper bound", "years", "cash flow"} <= found
    text = blocks.YEARLY.replace("price = 8000\n", "price = 8000\nselling_cost = 500\n")
    _, folder = blocks.scheduled(plan_folder, words, text)
    assert {"block value", "upper bound", "years"} <= changed(folder, old, new)
    path = plan_folder(column(), SOLD + entries("", old))
    pitplan.write_shells(path, writing=UNVERIFIED)
    assert wrong(path.parent / "plan") == set() and "years" in changed(path.parent / "plan", old, new)


def test_a_table_of_periods_has_factors(plan_folder):
    path = plan_folder(column(), 'periods = "periods.csv"\n' + SOLD)
    (path.parent / "periods.csv").write_text("processing_cost_factor,selling_cost_factor\n1,\n1.5,2\n")
    assert solved(path)[1]["cash_flow"].tolist() == [1800, 1100, 1100, 1100]


def test_a_sensitivity_changes_factors_and_the_costs_that_they_multiply(plan_folder):
    """By 10 %: milling costs 1500 in the second and later years, and selling 400; at the base price 1000 and 200."""
    names = ["periods.2.processing_cost_factor", "periods.2.selling_cost_factor", "processing_cost", "selling_cost"]
    asked = f"[sensitivity]\nparameters = {names}\nchanges = [0.1]\n".replace("'", '"')
    text = SOLD + entries("", "processing_cost_factor = 1.5\nselling_cost_factor = 2") + asked
    path = plan_folder(column(), text)
    found = pitplan.write_sensitivity(path, writing=UNVERIFIED).set_index(["parameter", "change"])["npv"]
    for name, first, later in zip(names, (1800, 1800, 1700, 1780), (950, 1060, 950, 1060)):
        value = first / 1.1 + later / 1.21 + later / 1.331 + later / 1.4641
        assert found[name, 0.1] == pytest.approx(value, abs=0.01)
    assert wrong(path.parent / "plan/sensitivity") == set()


@pytest.mark.parametrize("name", ["processing", "selling"])
@pytest.mark.parametrize(("value", "said"), [("-1", "found -1, expected 0 or more"), ('"twice"', ".*is not a number")])
def test_what_is_wrong_is_named(plan_folder, name, value, said):
    with pytest.raises(PlanError, match=rf"\[periods 1\] {name}_cost_factor: {said}"):
        pitplan.load(plan_folder(column(), periods(f"{name}_cost_factor = {value}")))

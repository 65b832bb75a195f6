"""Fixed costs, capex and prices of years against sums done by hand."""

import math
from dataclasses import replace
from types import SimpleNamespace

import numpy as np
import pandas as pd
import pytest
from conftest import PROJECT, rows
from helpers.benches import made_of, optimum_of, problem_of, random_benches, without_flows, yearly_limits
from helpers.programmes import limits, small
from helpers.random_tests import examples
from helpers.writings import PLAIN, UNVERIFIED
from hypothesis import given, strategies as st

import pitplan
from pitplan import PlanError, verify, write_schedule
from pitplan.config.material import Stockpile
from pitplan.config.periods import Calendar
from pitplan.config.schedule import Effort
from pitplan.economics import period_costs
from pitplan.economics.period_costs import YearlyMoney
from pitplan.pushbacks.bench_table import PushbackBenches
from pitplan.scheduling.bench_sequencing import Problem, by_rule
from pitplan.scheduling.flow import scheduler
from pitplan.scheduling.flow.bound import upper_bound
from pitplan.scheduling.flow.flows import none_of
from pitplan.scheduling.flow.material import Ore
from pitplan.scheduling.flow.model import FlowModel
from pitplan.scheduling.flow.programme import FlowProgramme

MONEY = ("mining_cost = 2\n", "mining_cost = 2\nfixed_cost_per_year = 100\ncapex = [[3, 1000], [1, 300], [2, 50]]\n")
PRICES = ("price = 8000", "price = 8000\nprices = [8000, 9000]")


def of_years(discounting, processing_capacity=50):
    return ("processing_capacity = 100", f'processing_capacity = {processing_capacity}\ndiscounting = "{discounting}"')


def mean(start, end):
    return (1.1**-start - 1.1**-end) / (math.log(1.1) * (end - start))


def solved(path):
    """The table of shells at revenue factor 1.00, and its years of the best case."""
    shells = pitplan.write_shells(path, writing=PLAIN)
    years = pd.read_csv(path.parent / "plan" / "tables/years.csv")
    return shells.set_index("revenue_factor").loc[1.0], years[
        (years["case"] == "best") & (years["revenue_factor"] == 1.0)
    ].set_index("year")


@pytest.fixture
def mine(plan_folder):
    """100 t of ore, worth 2000 once they are dug, under 100 t of waste; each costs 200 to dig, and 0.4 t of copper are sold."""

    def write(*changes):
        return plan_folder(rows(1, 1, 2, cu=lambda i, j, k: 0 if k else 0.8), PROJECT, *changes)

    return write


def test_two_years_by_hand(mine):
    """The waste first, then 50 t of ore a year with 0.2 t of copper, which sell for 200 more in the second; of the third year nothing is
    spent. At the ends 700 and 1100 flow, and 300 at once and 50 after a year: 700 / 1.1 + 1100 / 1.21 - 300 - 50 / 1.1 = 1200.
    """
    shell, years = solved(mine(MONEY, PRICES, of_years("end_of_year")))
    assert years["fixed_cost"].tolist() == [100, 100] and years["capex"].tolist() == [300, 50]
    assert years["cash_flow"].tolist() == [400, 1050]
    assert years["discounted_cash_flow"].tolist() == pytest.approx([700 / 1.1 - 300, 1100 / 1.21 - 50 / 1.1], abs=1e-3)
    assert (shell["undiscounted_cash_flow"], shell["npv_best"], shell["npv_worst"]) == pytest.approx((1800, 1200, 1200))


def test_as_cash_flows(mine):
    shell, _ = solved(mine(MONEY, PRICES, of_years("continuous")))
    assert shell["npv_best"] == pytest.approx(-300 + 700 * mean(0, 1) + 1100 * mean(1, 2) - 50 / 1.1)


def test_the_last_year_costs_what_is_left_of_it(mine):
    """100 t at 80 a year: a quarter of the second year."""
    shell, years = solved(mine(MONEY, of_years("continuous", 80)))
    assert years["fixed_cost"].tolist() == [100, 25] and years["capex"].tolist() == [300, 50]
    assert shell["npv_best"] == pytest.approx(-300 + 1300 * mean(0, 1) + 375 * mean(1, 1.25) - 50 / 1.1)


def test_a_royalty_is_owed_on_the_years_prices_too(mine):
    """A tenth of 1600 in the first year and of 1800 in the second; half of the ore costs 600 to dig and to process."""
    text = MONEY[1] + "royalty = 0.1\n"
    shell, years = solved(mine((MONEY[0], text), PRICES, of_years("mid_year")))
    assert years["cash_flow"].tolist() == [-200 + 0.9 * 1600 - 600 - 100 - 300, 0.9 * 1800 - 600 - 100 - 50]


def test_shells_and_ore_keep_the_one_price(mine):
    plain, other = (pitplan.Plan.from_project(mine(*changes)) for changes in ((), (MONEY, PRICES)))
    assert (
        plain.values.mining.tolist() == other.values.mining.tolist()
        and plain.values.revenue.tolist() == other.values.revenue.tolist()
    )
    (note,) = [note for note in other.notes if "enter the annual cash flow" in note]
    assert note == (
        "fixed costs of 100 USD a year and capex and yearly prices enter the annual cash flow, the NPV and schedules, "
        "but not block values and the choice of shell"
    )


@pytest.mark.parametrize(
    ("change", "said"),
    [
        (
            ("mining_cost = 2\n", "mining_cost = 2\ncapex = [[0, 5]]\n"),
            r"\[economics\] capex: found 0, expected a whole number from 1 to 1,000",
        ),
        (
            ("mining_cost = 2\n", "mining_cost = 2\ncapex = [[1.5, 5]]\n"),
            r"\[economics\] capex: found 1.5, expected a whole number",
        ),
        (("mining_cost = 2\n", "mining_cost = 2\ncapex = [[1, -5]]\n"), "capex: found -5, expected 0 or more"),
        (
            ("mining_cost = 2\n", "mining_cost = 2\nfixed_cost_per_year = -1\n"),
            r"\[economics\] fixed_cost_per_year: found -1, expected 0 or more",
        ),
        (("price = 8000", "price = 8000\nprices = []"), r"\[metals 1\] prices: must be a list of prices, one a year"),
        (("price = 8000", "price = 8000\nprices = [-1]"), r"\[metals 1\] prices: found -1, expected 0 or more"),
        (
            ("price = 8000", "price = 0\nprices = [0, 8000]"),
            r"\[metals 1\] price: must be above 0: it sets the cut-off",
        ),
    ],
)
def test_what_is_wrong_is_named(mine, change, said):
    with pytest.raises(PlanError, match=said):
        pitplan.load(mine(change))


NAMES = ("total_tonnes", "feed_tonnes", "recovered_copper", "cash_flow")


def two_benches(money):
    """One bench under another, which each take the mill a year: of 100, and of 10 with 5 t of copper. Money keeps its worth."""
    amounts = np.array([[10, 10, 0, 100], [10, 10, 5, 10]], dtype=float)
    benches = PushbackBenches(np.array([1, 1]), np.array([0, 1]), NAMES, amounts)
    return Problem(
        benches,
        yearly_limits({"feed_tonnes": 10}),
        SimpleNamespace(discount_rate=0.0, discounting="end_of_year", calendar=Calendar()),
        money,
    )


COSTS = YearlyMoney((30,), ((1, 5), (2, 8)))


@pytest.mark.parametrize(
    ("money", "by_rules", "best"),
    [
        (YearlyMoney(), 110, 110),
        (COSTS, 110 - 60 - 13, 100 - 30 - 5),  # the second year costs more than it earns
        (replace(COSTS, premiums={"recovered_copper": (0, 10)}), 110 + 50 - 60 - 13, 110 + 50 - 60 - 13),
    ],
)
def test_a_schedule_by_hand(money, by_rules, best):
    problem = two_benches(money)
    assert problem.value(by_rule(problem)[0]) == pytest.approx(by_rules)
    optimum = optimum_of(problem, 2)
    assert optimum.value == pytest.approx(best) and optimum.cash.sum() == pytest.approx(best)
    assert problem.value(made_of(problem, 2)) == pytest.approx(best)
    flows, bound = scheduler.best_schedule(without_flows(problem, 2), Effort())
    assert flows.value == pytest.approx(best) and bound == pytest.approx(best)


def test_a_mine_that_costs_more_than_it_earns_is_left():
    """110 in two years, for a capex of 500 and 30 a year."""
    problem = two_benches(YearlyMoney((30,), ((1, 500),)))
    optimum = optimum_of(problem, 2)
    assert optimum.value == 0 and not optimum.cash.any() and not optimum.cumulative.any()
    assert problem.value(made_of(problem, 2)) == 0


@pytest.mark.slow
def test_bins_end_before_capital_that_does_not_pay(plan_folder):
    """Capital of year 4 is more than all ore that is left then: the mine ends with year 3, worth as much as where there are no more years."""
    table = rows(5, 4, 3, cu=lambda i, j, k: [[0.5, 1.4, 0.9, 2.0, 0.7], [1.1, 0.4, 1.9, 0.8, 1.3]][(j + k) % 2][i])
    changes = [
        ("processing_capacity = 100", "processing_capacity = 900\nmining_capacity = 1200"),
        ("mining_cost = 2\n", "mining_cost = 2\ncapex = [[4, 200_000]]\n"),
    ]
    text = "[pushbacks]\nrevenue_factors = [0.6, 1.0]\n[schedule]\nyears = {}\nbins = 3\nstockpile = {{ reclaim_cost = 1 }}\n[shells]"
    ended, short = (
        write_schedule(plan_folder(table, PROJECT, *changes, ("[shells]", text.format(years))), writing=PLAIN)
        for years in (7, 3)
    )
    found = ended.set_index("method").loc["lp"]
    assert found["years"] == 3 and found["npv"] >= short.set_index("method").loc["lp", "npv"] * (1 - 1e-9)


@pytest.mark.parametrize(("money", "best"), [(COSTS, 65), (replace(COSTS, premiums={"recovered_copper": (0, 10)}), 87)])
def test_a_schedule_of_bins_by_hand(money, best):
    """The ore of each bench is one parcel, and mining costs nothing."""
    problem = two_benches(money)
    benches = replace(problem.benches, amounts=problem.benches.amounts * [1, 0, 0, 0])
    amounts = {"feed_tonnes": np.array([[10.0, 10.0]]), "recovered_copper": np.array([[0.0, 5.0]])}
    ore = Ore(np.array([0, 1]), np.array([2, 1]), np.array([[100.0, 10.0]]), amounts)
    model = FlowModel(replace(problem, benches=benches), ore, 2)
    optimum = FlowProgramme(model).solved()
    assert optimum.value == pytest.approx(best) and optimum.cash.sum() == pytest.approx(best)
    assert upper_bound(model, ore, optimum.prices) == pytest.approx(best)
    assert scheduler.from_optimum(model, optimum).value == pytest.approx(best)


def one_bench(capacity, fixed, gains, stockpiles=()):
    """A bench of 10 t of ore, which each process takes to this capacity a year for this gain. A year costs `fixed`."""
    benches = PushbackBenches(np.array([1]), np.array([0]), NAMES, np.array([[10.0, 0, 0, 0]]))
    settings = SimpleNamespace(discount_rate=0.0, discounting="end_of_year", calendar=Calendar())
    names = [f"feed_tonnes_{number}" for number in range(len(gains))]
    most = dict(zip(names, capacity)) | {"total_tonnes": 10.0}
    feed = {name: np.where(np.arange(len(gains)) == number, 10.0, 0.0)[:, None] for number, name in enumerate(names)}
    amounts = {"feed_tonnes": np.full((len(gains), 1), 10.0)} | feed
    ore = Ore(np.zeros(1, dtype=np.int64), np.ones(1, dtype=np.int64), np.array(gains, dtype=float)[:, None], amounts)
    return FlowModel(Problem(benches, yearly_limits(most), settings, YearlyMoney((fixed,))), ore, 2, stockpiles)


def test_a_year_in_which_little_is_fed_costs_its_whole():
    """The first year feeds 6 t of 10 and earns 60 - 30; the second feeds the rest and earns 40 - 30."""
    flows, bound = scheduler.best_schedule(one_bench([6.0], 30.0, [100.0]), Effort())
    assert flows.value == pytest.approx(40) and bound == pytest.approx(40)


def test_ore_leaves_its_stockpile_before_a_year_that_costs_more():
    """The mill takes 6 t of 10 a year and gains 2 a tonne, the other process 1. The 4 t that wait for the mill earn 4 more, and a year costs 5."""
    model = one_bench([6.0, 10.0], 5.0, [20.0, 10.0], (Stockpile(0.0),))
    flows, bound = scheduler.best_schedule(model, Effort())
    assert flows.value == pytest.approx(12 + 4 - 5) and bound == pytest.approx(11) and flows.years == 1


@examples(12)
@given(
    small,
    limits,
    st.sampled_from([0, 40, 300]),
    st.sampled_from([(), ((1, 50),), ((2, 200), (3, 10))]),
    st.sampled_from([(), (0, 900, -400)]),
)
def test_no_schedule_is_above_the_bound(pit, limits, fixed, capex, premiums):
    """Nor does the programme earn less than the rule, in as many years."""
    money = YearlyMoney((fixed,), capex, {"recovered_copper": premiums} if premiums else {})
    problem = replace(problem_of(random_benches(pit, 0), limits), money=money)
    by_rules = by_rule(problem, 5)[0]
    model = without_flows(problem, 5)
    optimum = FlowProgramme(model).solved()
    made = scheduler.from_optimum(model, optimum, none_of(replace(model, years=by_rules.shape[1]), by_rules)).value
    slack = 1e-6 * max(1.0, np.abs(problem.worths(5)).sum())
    assert problem.value(by_rules) - slack <= made <= optimum.value + slack
    assert optimum.cash @ 1.1 ** -np.arange(1.0, 6) == pytest.approx(optimum.value, abs=slack)
    assert upper_bound(model, model.ore, optimum.prices) == pytest.approx(optimum.value, abs=slack)


SCHEDULED = (
    (
        "mining_cost = 2\n",
        "mining_cost = 2\nfixed_cost_per_year = 900\ncapex = [[1, 3000], [3, 800]]\nroyalty = 0.1\n",
    ),
    ("price = 8000", "price = 8000\nprices = [8000, 9000, 7500]"),
)


def scheduled(plan_folder, way):
    text = f"[pushbacks]\nrevenue_factors = [0.5, 1.0]\n[schedule]\nyears = 7\n{way}\n[shells]"
    table = rows(
        9, 9, 4, cu=lambda i, j, k: {(4, 4, 0): 9, (4, 4, 1): 3, (3, 4, 1): 1.6, (5, 5, 1): 1.2}.get((i, j, k), 0)
    )
    return plan_folder(
        table,
        PROJECT,
        *SCHEDULED,
        ("processing_capacity = 100", "processing_capacity = 70\nmining_capacity = 900"),
        ("[shells]", text),
    )


@pytest.mark.parametrize(
    "way", ["", "milp = { seconds = 60 }", "bins = 3", "bins = 3\nstockpile = { reclaim_cost = 1 }"]
)
def test_the_second_look_at_schedules_agrees(plan_folder, way):
    ways = write_schedule(scheduled(plan_folder, way), writing=PLAIN)
    assert (ways["optimality_gap"] >= -1e-9).all()


@pytest.mark.parametrize(
    ("name", "without", "rule"),
    [
        ("fixed_cost", (0.0,), "schedule value"),
        ("capex", (), "schedule value"),
        ("premiums", {}, "material flow"),
    ],
)
def test_money_that_is_passed_over_is_found(plan_folder, monkeypatch, name, without, rule):
    path, of_project = scheduled(plan_folder, ""), period_costs.of_project
    monkeypatch.setattr(period_costs, "of_project", lambda project: replace(of_project(project), **{name: without}))
    write_schedule(path, writing=UNVERIFIED)
    wrong = {rule.name for rule in verify(path.parent / "plan" / "schedule") if rule.differences}
    assert {"years", rule, "upper bound"} <= wrong


def test_costs_of_a_year_that_are_bent_are_found(mine):
    path = mine(MONEY, of_years("end_of_year"))
    pitplan.write_shells(path, writing=PLAIN)
    file = path.parent / "plan" / "tables/years.csv"
    table = pd.read_csv(file)
    table.loc[table.index[-1], "fixed_cost"] += 1
    table.loc[table.index[-1], "cash_flow"] -= 1
    table.to_csv(file, index=False)
    (rule,) = [rule for rule in verify(path.parent / "plan") if rule.differences]
    assert rule.name == "years"
    assert rule.differences == tuple(
        f"worst case of revenue factor 1.50, year 2: {said}"
        for said in ("cash_flow 849 for 850", "fixed_cost 101 for 100")
    )

"""Pit-by-pit analysis with a choice of destinations and with a specified case, against shipments and years worked by hand."""

import json
from dataclasses import replace

import numpy as np
import pandas as pd
import pytest
from conftest import PROJECT, rows
from helpers.blank_figures import blank_figures
from helpers.processes import deposit
from helpers.random_tests import examples
from helpers.writings import UNVERIFIED
from hypothesis import given, strategies as st
from scipy.optimize import linprog

import pitplan
from pitplan import PlanError
from pitplan.config.shells import ShellRules, SpecifiedCase
from pitplan.economics.period_costs import YearlyMoney
from pitplan.pits import best_worst_case
from pitplan.pits.best_worst_case import BEST, SPECIFIED, WORST, Benches, best_shares, of_case
from pitplan.pits.ore_kinds import OreKinds, unions

NAMES = ("total_tonnes", "feed_tonnes", "feed_tonnes_mill", "feed_tonnes_leach", "recovered_copper", "cash_flow")
RULES = ShellRules((0.5, 1.0), None, 0.1, 100.0, None, "end_of_year", False, (40.0, 60.0), names=("mill", "leach"))


@st.composite
def years_of_ore(draw):
    """Tonnes of parcels, net values per tonne in processes, which processes may take them, and capacities, of two years."""
    parcels, processes = draw(st.integers(1, 6)), draw(st.integers(1, 4))
    numbers = st.one_of(st.integers(-3, 12), st.floats(-3, 12))

    def array(shape, values):
        count = int(np.prod(shape))
        return np.array(draw(st.lists(values, min_size=count, max_size=count)), dtype=float).reshape(shape)

    feed = array((2, parcels), st.integers(0, 50))
    gain = array((2, parcels, processes), numbers) * feed[:, :, None]
    takes = array((parcels, processes), st.booleans()).astype(bool)
    return feed, gain, takes, array((2, processes), st.integers(0, 60))


@given(years_of_ore())
@examples(200)
def test_shipments_are_those_of_a_linear_programme(ore):
    feed, gain, takes, capacity = ore
    share = best_shares(feed, gain, takes, capacity)
    assert (share >= 0).all() and (share.sum(axis=2) <= 1 + 1e-9).all() and not share[:, ~takes].any()
    loads = np.einsum("yk,ykp->yp", feed, share)
    assert (loads <= capacity + 1e-6).all()
    for year in range(2):
        parcels, processes = takes.shape
        rows = [np.kron(np.eye(parcels)[k], np.ones(processes)) for k in range(parcels)]
        rows += [np.kron(feed[year], np.eye(processes)[p]) for p in range(processes)]
        most = [*np.ones(parcels), *capacity[year]]
        bounds = [(0, float(is_open)) for is_open in takes.ravel()]
        found = linprog(-gain[year].ravel(), A_ub=np.array(rows), b_ub=most, bounds=bounds, method="highs")
        assert (share[year] * gain[year]).sum() == pytest.approx(-found.fun, abs=1e-6)


def one_bench(*ore, settings=RULES, mining=0.0):
    """A shell with one bench of ore: tonnes of each kind and its net value per tonne in mill and leach, None where it does not pay; each tonne
    holds a tonne of metal."""
    feed = np.array([tonnes for tonnes, *_ in ore], dtype=float)
    rates = np.array([[value or 0.0 for value in values] for _, *values in ore])
    pays = np.array([[value is not None for value in values] for _, *values in ore])
    best = pays & (rates == rates.max(axis=1, keepdims=True))
    kinds = OreKinds(("recovered_copper",), pays, best, ((0,), (1,)))
    by_process = np.stack([feed[:, None] * rates, feed[:, None] * pays])
    columns = np.concatenate([[feed.sum(), -mining * feed.sum(), 0.0], feed, by_process.ravel()])
    gain = (feed * rates.max(axis=1)).sum() - mining * feed.sum()
    amounts = np.array([feed.sum(), feed.sum(), 0, 0, feed.sum(), gain])
    return Benches((1.0,), NAMES, amounts.reshape(1, 1, -1), kinds, columns.reshape(1, 1, -1)), settings


def years_of(benches, settings, case=BEST, money=YearlyMoney()):
    (found,) = of_case(case, benches, settings, money)
    return found


def test_a_small_process_does_not_hold_up_the_mine():
    """200 t pay in the mill alone, 200 t in the leach alone, which takes 1 t a year. The mine waits for the mill: 5 years with 40 t of the
    mill and 1 t of the leach each."""
    benches, settings = one_bench((200, 10, None), (200, None, 5), settings=replace(RULES, per_process=(40.0, 1.0)))
    for case in (BEST, WORST):
        found = years_of(benches, settings, case)
        assert found.end == pytest.approx(5)
        assert found.amounts[:, 2] == pytest.approx([40] * 5) and found.amounts[:, 3] == pytest.approx([1] * 5)
        assert found.npv == pytest.approx(sum(405 / 1.1**year for year in range(1, 6)))


@pytest.mark.parametrize(("leached", "npv"), [(8, 400 / 1.1 + 400 / 1.21 + 200 / 1.331), (9, (400 + 540) / 1.1)])
def test_the_mine_waits_for_the_mill_if_that_is_worth_it(leached, npv):
    """100 t earn 10 in the mill, which takes 40 t a year, or less in the leach, which takes the other 60 t at once."""
    assert years_of(*one_bench((100, 10, leached))).npv == pytest.approx(npv)


def test_ore_that_does_not_fit_goes_to_the_next_best_process():
    """Of 80 t for the leach alone and 40 t for either the mill takes the 40 t, although they earn more in the leach. The mine waits for
    all ore, a year and a third: 60 t of the leach in the first."""
    found = years_of(*one_bench((80, None, 5), (40, 5.9, 6)))
    assert found.end == pytest.approx(4 / 3)
    # In the first year 60 of 90 t are leached, the 30 t that fit nowhere better are milled.
    assert found.amounts[0, 2:4] == pytest.approx([30, 60])
    assert found.npv == pytest.approx((60 * 5 + 30 * 5.9) / 1.1 + (20 * 5 + 10 * 5.9) / 1.21)


def test_processes_that_earn_the_same_share_their_ore():
    """The same process twice, with half of the capacity each, is one process: 200 t in two years."""
    benches, settings = one_bench((200, 10, 10), settings=replace(RULES, per_process=(50.0, 50.0)))
    twice = replace(benches, kinds=replace(benches.kinds, alike=((0, 1),)))
    found = years_of(twice, settings)
    assert found.end == pytest.approx(2) and found.amounts[:, 1] == pytest.approx([100, 100])
    assert found.npv == pytest.approx(1000 / 1.1 + 1000 / 1.21)
    assert len(twice.waits(settings)) == 1


def test_ore_is_waste_in_a_year_of_low_prices():
    """A tonne of metal gains 12 less in the second year, than the ore earns in either process."""
    benches, settings = one_bench((200, 10, 10), settings=replace(RULES, per_process=(50.0, 50.0)), mining=1.0)
    twice = replace(benches, kinds=replace(benches.kinds, alike=((0, 1),)))
    money = YearlyMoney(premiums={"recovered_copper": (0.0, -12.0)})
    found = years_of(twice, settings, money=money)
    assert found.amounts[:, 1] == pytest.approx([100, 0]) and found.npv == pytest.approx(900 / 1.1 - 100 / 1.21)


def test_mining_capacity_holds_whatever_the_mine_waits_for():
    benches, settings = one_bench((100, 10, 1), settings=replace(RULES, mining_capacity=50.0))
    found = years_of(benches, settings)
    assert found.end == pytest.approx(2.5) and found.amounts[:, 0] == pytest.approx([40, 40, 20])
    found = years_of(benches, replace(settings, per_process=(50.0, 60.0)))
    assert found.end == pytest.approx(2) and found.amounts[:, 0] == pytest.approx([50, 50])


def test_ore_of_one_process_is_bound_by_it_and_ore_of_both_by_their_sum():
    """By Hall's theorem: 30 t of the mill take 3/4 of its year, all 90 t 9/10 of the year of both."""
    benches, settings = one_bench((30, 5, None), (60, 5, 5))
    used = [sorted((benches.by_kind[0] @ wait.uses)[0].tolist()) for wait in benches.waits(settings)]
    assert any(it == pytest.approx([0.75, 0.9]) for it in used if len(it) == 2)


def test_unions_by_hand():
    found = unions(np.array([[True, False, False], [False, True, False], [False, False, False]]))
    assert sorted(tuple(row) for row in found) == [(False, True, False), (True, False, False), (True, True, False)]
    assert [tuple(row) for row in unions(np.zeros((1, 2), dtype=bool))] == [(True, True)]


def three_by_three():
    """Three shells with three benches each of 100 t of ore, which the mill takes in a year; each earns another power of ten."""
    cash = 10.0 ** np.arange(9).reshape(3, 3)
    amounts = np.stack([np.full((3, 3), 100.0), np.full((3, 3), 100.0), cash], axis=2)
    return Benches((0.4, 0.7, 1.0), ("total_tonnes", "feed_tonnes", "cash_flow"), amounts)


def specified(pushbacks, lag):
    return ShellRules((0.4, 0.7, 1.0), None, 0.1, 100.0, None, "end_of_year", False, (), SpecifiedCase(pushbacks, lag))


def earned(order):
    """The discounted cash flow of the benches, by shell and level, one a year."""
    return sum(sum(10.0 ** (3 * shell + level) for shell, level in year) / 1.1**k for k, year in enumerate(order, 1))


def test_a_specified_case_by_hand():
    """One pushback of the first shell, and the rest of the pit a bench behind it; each bench of the rest takes two years in the third shell."""
    settings = specified((0.4,), 1)
    first, second, third = of_case(SPECIFIED, three_by_three(), settings)
    assert first.npv == pytest.approx(earned([[(0, 0)], [(0, 1)], [(0, 2)]]))
    assert second.npv == pytest.approx(earned([[(0, 0)], [(0, 1)], [(1, 0)], [(0, 2)], [(1, 1)], [(1, 2)]]))
    # Of a bench of the second pushback with 200 t half flows in each of its two years.
    halves = [(0, 0), (0, 1), (1, 0), (1, 0), (0, 2), (1, 1), (1, 1), (1, 2), (1, 2)]
    cash = [
        1.0,
        10.0,
        *[(10**3 + 10**6) / 2] * 2,
        100.0,
        *[(10**4 + 10**7) / 2] * 2,
        *[(10**5 + 10**8) / 2] * 2,
    ]
    assert len(halves) == len(cash) and third.npv == pytest.approx(sum(it / 1.1**k for k, it in enumerate(cash, 1)))


def test_pushbacks_of_all_shells_one_after_the_other_are_the_best_case():
    benches, settings = three_by_three(), specified((0.4, 0.7), 3)
    best, found = (of_case(case, benches, settings) for case in (BEST, SPECIFIED))
    assert [it.npv for it in found] == pytest.approx([it.npv for it in best])


def test_no_smaller_pushback_is_the_worst_case():
    benches, settings = three_by_three(), specified((1.0,), 2)
    worst, found = (of_case(case, benches, settings) for case in (WORST, SPECIFIED))
    assert [it.npv for it in found] == pytest.approx([it.npv for it in worst])


def test_a_wait_of_more_than_a_thousand_years_is_left_out():
    benches, settings = one_bench((200, 10, None), (2000, None, 5), settings=replace(RULES, per_process=(40.0, 1.0)))
    assert len(best_worst_case.bearable(benches, settings)) < len(benches.waits(settings))
    assert years_of(benches, settings).end == pytest.approx(5)


@pytest.mark.parametrize(
    ("text", "said"),
    [
        (
            "pushbacks = [0.6]",
            r"\[shells.specified\] pushbacks: 0.60 is not among the revenue_factors of \[shells\]: add it",
        ),
        ("pushbacks = []", r"\[shells.specified\] pushbacks: must be a list of revenue factors"),
        ("bench_lag = 1", r"\[shells.specified\] pushbacks: is missing"),
        (
            "pushbacks = [0.5]\nbench_lag = -1",
            r"\[shells.specified\] bench_lag: found .*, expected a whole number from 0 to 1,000",
        ),
        ("pushbacks = [0.5]\nlag = 1", r"\[shells.specified\] lag: unknown key: rename it to bench_lag"),
        ("pushbacks = [0.5]\ncolour = 1", r"\[shells.specified\] colour: unknown key: remove it"),
    ],
)
def test_what_is_wrong_with_a_specified_case_is_named(plan_folder, text, said):
    with pytest.raises(PlanError, match=said):
        pitplan.load(plan_folder(rows(1, 1, 1), PROJECT + f"[shells.specified]\n{text}\n"))


DEEP = [("mining_cost = 2\n", "mining_cost = 0.3\n"), ("processing_capacity = 100\n", "processing_capacity = 400\n")]


def test_a_specified_case_is_in_tables_figures_and_the_report(plan_folder):
    """The shell is the one with the highest NPV of the specified case; the record keeps the section."""
    path = plan_folder(deposit(), PROJECT + "[shells.specified]\npushbacks = [0.5]\nbench_lag = 1\n", *DEEP)
    with blank_figures("write_pit_by_pit", "write_years"):
        shells = pitplan.write_shells(path, writing=pitplan.Writing(verifies=False, figures=True))
    folder = path.parent / "plan"
    years = pd.read_csv(folder / "tables/years.csv")
    sums = years[years["case"] == SPECIFIED].groupby("revenue_factor")["discounted_cash_flow"].sum()
    mined = shells[shells["tonnes"] > 0].set_index("revenue_factor")
    assert sums.tolist() == pytest.approx(mined["npv_specified"].tolist(), abs=0.01) and len(sums) > 1
    assert not [rule for rule in pitplan.verify(folder) if rule.differences]
    assert "specified = { pushbacks = [0.5], bench_lag = 1 }" in (folder / "project-as-run.toml").read_text()
    assert "Net present value, specified case" in (folder / "report.html").read_text()
    up_to = shells[shells["revenue_factor"] <= 1.0]
    chosen = up_to["revenue_factor"][up_to["npv_specified"].idxmax()]
    assert json.loads((folder / "plan.json").read_text())["shells"]["selected"] == chosen


def test_another_lag_than_the_projects_is_found(plan_folder, monkeypatch):
    path = plan_folder(deposit(), PROJECT + "[shells.specified]\npushbacks = [0.5]\nbench_lag = 2\n", *DEEP)
    pieces = best_worst_case.specified_pieces
    monkeypatch.setattr(
        best_worst_case, "specified_pieces", lambda benches, rules: pieces(benches, replace(rules, bench_lag=0))
    )
    pitplan.write_shells(path, writing=UNVERIFIED)
    assert "years" in {rule.name for rule in pitplan.verify(path.parent / "plan") if rule.differences}


def test_a_schedule_is_drawn_beside_a_specified_case(plan_folder):
    more = "[shells.specified]\npushbacks = [0.5]\n[pushbacks]\ncount = 2\n"
    path = plan_folder(deposit(), PROJECT + more, *DEEP)
    with blank_figures("write_pit_by_pit", "write_years", "write_tonnes", "write_cumulative"):
        pitplan.write_schedule(path, writing=pitplan.Writing(figures=True))
    folder = path.parent / "plan" / "schedule"
    assert (folder / "figures/schedule_value.png").stat().st_size > 1000
    assert set(pd.read_csv(folder / "tables/years.csv")["case"]) == {"best", "worst", "specified", "rule", "lp"}

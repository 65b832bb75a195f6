"""Shadow prices and cut-offs of capacities: what a tonne more of a capacity earns if the programme is solved again with it, and the audit of both."""

import shutil
from dataclasses import replace

import numpy as np
import pandas as pd
import pytest
from conftest import PROJECT, plan_in
from helpers.benches import yearly_limits
from helpers.flow_cases import slack_of
from helpers.flows import mine_of, mines, model_of, processes, stockpiles
from helpers.processes import WITH, deposit
from helpers.random_tests import examples
from helpers.six_blocks import RICH, six_blocks
from helpers.verified import differing, wrong
from helpers.writings import UNVERIFIED
from hypothesis import given, strategies as st

import pitplan
from pitplan.scheduling.flow.programme import FlowProgramme
from pitplan.scheduling.limits import MAX, RUNNING, Limit, whole_price


def scheduled(path):
    """Schedules a project whose folder is right; gives the folder."""
    pitplan.write_schedule(path, writing=UNVERIFIED)
    assert wrong(path.parent / "plan/schedule") == set()
    return path.parent / "plan/schedule"


def table_of(folder, name):
    return pd.read_csv(folder / f"tables/{name}.csv").query("method == 'lp'")


@pytest.fixture(scope="module")
def full_mill(tmp_path_factory):
    """The folder of a schedule whose years have costs and whose mill is full in all of them."""
    changes = (
        ("discount_rate = 0.1", "discount_rate = 0"),
        ("[schedule]\nyears = 3", "[schedule]\nyears = 5\nprocessing_capacity = 790"),
        ("processing_cost = 10", "processing_cost = 10\nfixed_cost_per_year = 1000"),
    )
    return scheduled(six_blocks(tmp_path_factory.mktemp("full"), RICH, "", *changes))


def test_a_full_mill_has_its_price_if_years_have_costs(full_mill):
    """The mill takes 790 t a year for five years, 3,950 t of the richest four blocks. A tonne more in a year takes one of the 50 t that are left of the ore
    of 1.4 %, which earns 140 less 10, as the fixed cost of that year is paid in any case."""
    limits = table_of(full_mill, "limits").set_index("limit")
    assert limits.loc["feed_tonnes", "utilisation"].tolist() == [1] * 5
    assert limits.loc["feed_tonnes", "shadow_price"].tolist() == pytest.approx([130] * 5)
    for name in ("feed", "cutoffs"):
        assert table_of(full_mill, name)["cutoff"].tolist() == pytest.approx([130] * 5)
    assert table_of(full_mill, "feed")["realised_cutoff"].min() == pytest.approx(130)


@pytest.mark.parametrize(
    ("table", "column", "rule"),
    [
        ("limits", "shadow_price", "schedule limits"),
        ("feed", "cutoff", "schedule limits"),
        ("feed", "realised_cutoff", "material flow"),
        ("cutoffs", "realised_cutoff", "material flow"),
        ("bound", "year", "upper bound"),
    ],
)
def test_another_price_or_cutoff_is_found(full_mill, tmp_path, table, column, rule):
    folder = shutil.copytree(full_mill.parents[1], tmp_path / "bent") / "plan/schedule"
    path = folder / f"tables/{table}.csv"
    found = pd.read_csv(path)
    some = found["method"] == "lp" if "method" in found else found["limit"] == "feed_tonnes"
    found.loc[some & (found["year"] == 3), column] += 30 if column == "year" else -0.01
    found.to_csv(path, index=False)
    assert differing(folder, rule)


MINE = [(0, [(20, [(50, 400), (50, 90)], 60), (20, [(50, 350), (10, 20)], 90)]), (1, [(100, [(50, 500)], 150)])]


def value_of(model):
    return FlowProgramme(model).solved().value


@given(mines, processes, st.integers(0, 1), stockpiles)
@examples(8)
def test_a_tonne_more_of_a_capacity_earns_its_price(pits, several, lag, piles):
    """The optimum with a tonne more in a year exceeds the optimum by no more than the price, and with a tonne less it is lower by no less."""
    model = model_of(mine_of(pits, lag), several, yearly_limits({"total_tonnes": 120.0}), 3, piles)
    optimum, slack = FlowProgramme(model).solved(), slack_of(model)
    for number, (_, capacity) in enumerate(several):
        name, limits = f"feed_tonnes_{number}", model.problem.limits
        prices = whole_price(optimum.prices, name, 3)
        for year, price in enumerate(prices):
            for step in (1.0, -1.0):
                by_year = tuple(capacity + step * (it == year) for it in range(3))
                other = replace(limits, most=limits.most | {name: Limit(name, MAX, capacity, by_year)})
                found = value_of(replace(model, problem=replace(model.problem, limits=other)))
                assert found <= optimum.value + step * price + slack


def test_the_price_holds_if_years_have_costs():
    """Years of 30 run in full; a hundredth of a tonne more or less of each process changes the optimum by its price, or by one of two prices next to it."""
    model = model_of(mine_of(MINE, 0), [(1.0, 40.0), (0.6, 30.0)], yearly_limits({"total_tonnes": 150.0}), 3)
    model = replace(model, problem=replace(model.problem, money=replace(model.problem.money, fixed_cost=(30.0,))))
    optimum, limits, step = FlowProgramme(model).solved(), model.problem.limits, 0.01
    assert optimum.running == pytest.approx(np.ones(3))
    assert any(it.any() for (_, side), it in optimum.prices.items() if side == RUNNING)
    for number, capacity in enumerate((40.0, 30.0)):
        name = f"feed_tonnes_{number}"
        for year, price in enumerate(whole_price(optimum.prices, name, 3)):
            found = []
            for by in (step, -step):
                by_year = tuple(capacity + by * (it == year) for it in range(3))
                other = replace(limits, most=limits.most | {name: Limit(name, MAX, capacity, by_year)})
                found.append(
                    (value_of(replace(model, problem=replace(model.problem, limits=other))) - optimum.value) / by
                )
            assert min(found) - 1e-4 <= price <= max(found) + 1e-4


def test_processes_have_prices_and_their_sum_is_no_limit(tmp_path):
    text = PROJECT + "[pushbacks]\ncount = 1\nultimate_pit = 1.0\n[schedule]\nyears = 3\n"
    folder = scheduled(plan_in(tmp_path)(deposit(), text, *WITH))
    limits = table_of(folder, "limits").set_index(["limit", "year"])["shadow_price"]
    assert "feed_tonnes" not in limits.index.get_level_values(0)
    cutoffs = table_of(folder, "feed").set_index(["process", "year"])["cutoff"]
    prices = {(it, year): limits[f"feed_tonnes_{it}", year] for it in ("mill", "leach") for year in (1, 2, 3)}
    assert {key: cutoffs[key] for key in prices} == pytest.approx(prices, abs=2e-6) and min(prices.values()) > 1

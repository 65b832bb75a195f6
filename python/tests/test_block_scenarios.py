"""`pitplan scenarios --by block`: small mines by hand and by trying all schedules, the ways to solve them, and what is refused."""

import io
import json
import os
import shutil
import subprocess
import sys
from contextlib import redirect_stderr, redirect_stdout
from fractions import Fraction
from itertools import product

import numpy as np
import pandas as pd
import pytest
from conftest import ROOT, rows
from helpers.block_problems import problem_of
from helpers.block_scenarios import COLUMNS, TWO_YEARS, YEARLY, pillars, prepared, solved_in_turn
from helpers.random_tests import examples
from helpers.scenarios import hill, write_models
from helpers.writings import PLAIN
from hypothesis import given, strategies as st
from scipy.optimize import linprog

import pitplan
from pitplan import MissingPackage, PlanError, Request, gather, write_scenarios
from pitplan.cli import main
from pitplan.figures import scenarios
from pitplan.scheduling.blocks.filling import best_shares
from pitplan.studies.scenarios import store, worker

BY_BLOCK = Request(workers=0, by="block")
DECKS = "[[scenarios.prices]]\ncopper = 8000\n[[scenarios.prices]]\ncopper = 12_000\n"
# The same with the process by its name.
MILL = '[[processes]]\nname = "mill"\ncost = 10\nrecovery = { copper = 0.5 }\ncapacity = 100\n'
IN_MILL = [("recovery = 0.5\n", ""), ("processing_capacity = 100\n", "")]
FILES = [
    "tables/schedules.csv",
    "tables/common_schedule.csv",
    "tables/common_schedule_years.csv",
    "tables/quantiles.csv",
    "common_schedule.json",
]


def answered(plan_folder, table, text=TWO_YEARS):
    """The folder of the scenarios of a mine, solved one after the other and verified."""
    return solved_in_turn(prepared(plan_folder(table, text)))


def table_of(folder):
    return pd.read_csv(folder / "tables/schedules.csv").set_index("realisation")


def years_of(folder, model):
    years = pd.read_csv(folder / "tables/common_schedule_years.csv")
    return years[years["realisation"] == model].set_index("year")


def record_of(folder):
    return json.loads((folder / "common_schedule.json").read_text())


EACH = 2600 / 1.1 + 600 / 1.21


def test_two_models_by_hand(plan_folder):
    """Gains of 3000, 1000 and nothing, and the other way round. Each model alone digs its rich pillar first, then the middle one. On the
    mean both outer pillars are worth 1500 and half a mill, so that both go first, though at the mean grade each would be worth 1000 and
    a whole mill."""
    folder = answered(plan_folder, pillars([1, 0.5, 0], [0, 0.5, 1]))
    table, told = table_of(folder), record_of(folder)
    assert table["npv"].tolist() == pytest.approx([EACH] * 2) == table["upper_bound"].tolist()
    assert (
        table[["status", "years", "blocks", "tonnes", "feed_tonnes"]].to_numpy().tolist()
        == [["solved", 2, 4, 400, 200]] * 2
    )
    planned = (3000 - 800) / 1.1 + 600 / 1.21
    assert table["common_npv"].tolist() == pytest.approx([planned] * 2) and told["npv_as_planned"] == pytest.approx(
        planned, abs=1e-3
    )
    assert told["perfect_information"] == pytest.approx(400 / 1.1, abs=1e-3)
    assert told["upper_bound_as_planned"] == pytest.approx(planned, abs=1e-3)
    assert (
        table[["common_feed_tonnes", "common_unprocessed_tonnes", "common_years_short"]].to_numpy().tolist()
        == [[200, 0, 0]] * 2
    )
    blocks = pd.read_csv(folder / "tables/common_schedule.csv").set_index("name")
    assert blocks["year"].to_dict() == {f"b{i}-0-{k}": 2 if i == 1 else 1 for i in range(3) for k in range(2)}
    assert "cu" not in blocks and blocks["share_mill"][["b0-0-0", "b1-0-0", "b2-0-0"]].tolist() == [1, 1, 1]


def test_ore_above_the_mill_stays_waste_and_is_told(plan_folder):
    """Both outer pillars are rich in one model, of which the mill takes one, and waste in the other, which is short of ore in the first
    year. Known before, the one model would dig one in each year, and the other the middle pillar alone."""
    folder = answered(plan_folder, pillars([1, 0.5, 1], [0, 0.5, 0]))
    table, told = table_of(folder), record_of(folder)
    rich, poor = (3000 - 800) / 1.1 + 600 / 1.21, -800 / 1.1 + 600 / 1.21
    assert table["common_npv"].tolist() == pytest.approx([rich, poor])
    assert told["npv_as_planned"] == pytest.approx(rich, abs=1e-3)
    assert table["upper_bound"].tolist() == pytest.approx([2600 / 1.1 + 2600 / 1.21, 600 / 1.1])
    assert table[["common_feed_tonnes", "common_unprocessed_tonnes", "common_years_short"]].to_numpy().tolist() == [
        [200, 100, 0],
        [100, 0, 1],
    ]
    first = years_of(folder, "sim_1").loc[1]
    assert first[
        ["total_tonnes", "feed_tonnes", "unprocessed_tonnes", "planned_feed_tonnes", "cash_flow"]
    ].tolist() == [
        400,
        100,
        100,
        100,
        2200,
    ]
    assert years_of(folder, "sim_2")["cash_flow"].tolist() == [-800, 600]
    mean = (sum(table["upper_bound"]) - sum(table["common_npv"])) / 2
    assert told["perfect_information"] == pytest.approx(mean, abs=1e-3) == pytest.approx(2528.926 - 1132.231, abs=2e-3)


def test_quantiles_by_hand(plan_folder):
    """Of two sets of prices: at 12,000 a block of grade g yields 6000 g."""
    folder = answered(plan_folder, pillars([1, 0.5, 0], [0.75, 0.5, 0]), TWO_YEARS + DECKS)
    table = pd.read_csv(folder / "tables/quantiles.csv").set_index("price_copper")
    values = [2600 / 1.1 + 600 / 1.21, 1600 / 1.1 + 600 / 1.21]
    assert table.index.tolist() == [8000, 12000] and table["realisations"].tolist() == [2, 2]
    told = table.loc[8000, ["npv_least", "npv_greatest", "npv_mean"]].tolist()
    assert told == pytest.approx([values[1], values[0], sum(values) / 2])
    assert table.loc[8000, "upper_bound_quantile_0.1"] == pytest.approx(values[1] + 0.1 * (values[0] - values[1]))
    # The one schedule digs the first pillar and then the second, as each scenario's own does.
    assert table.loc[12000, "common_npv_greatest"] == pytest.approx(4600 / 1.1 + 1600 / 1.21)
    assert pd.read_csv(folder / "tables/schedules.csv")["price_copper"].tolist() == [8000, 12000] * 2
    assert record_of(folder)["perfect_information"] == pytest.approx(0, abs=0.01)


def test_of_one_scenario_the_one_schedule_is_its_own(plan_folder):
    folder = answered(plan_folder, pillars([1, 0.5, 0.9, 0.3]))
    (row,) = table_of(folder).to_dict("records")
    assert row["common_npv"] == pytest.approx(row["npv"])
    assert record_of(folder)["npv_as_planned"] == pytest.approx(row["npv"], abs=1e-3)
    shared = store.read_shared(folder)
    own, one = (np.load(shared.answer(job)) for job in shared.jobs)
    assert own["year"].tolist() == one["year"].tolist() and own["share"].tolist() == one["share"].tolist()


def precedences_of(table):
    """For each block the one above it."""
    places = {tuple(place): row for row, place in enumerate(table[["x", "y", "z"]].to_numpy().tolist())}
    return [places.get((x, y, z + 10)) for x, y, z in places]


def every_schedule(table, years, rock):
    """Each way to dig, as the year of each block, one more than there are where it is not dug, by trying all: with what it needs, and no
    more rock in a year."""
    precedences = precedences_of(table)
    for year in product(range(1, years + 2), repeat=len(table)):
        ordered = all(above is None or year[above] <= year[block] for block, above in enumerate(precedences))
        if ordered and all(100 * year.count(one) <= rock for one in range(1, years + 1)):
            yield year


def earned(year, grades, years, ore):
    """What a schedule earns by milling the richest ore of each year, in exact fractions."""
    gains, total = [max(Fraction(str(grade)) * 4000 - 1000, Fraction(0)) for grade in grades], Fraction(0)
    for one in range(1, years + 1):
        blocks, room = [block for block in range(len(year)) if year[block] == one], Fraction(ore)
        cash = Fraction(-200 * len(blocks))
        for gain in sorted((gains[block] for block in blocks), reverse=True):
            share = min(room / 100, Fraction(1)) if gain else Fraction(0)
            cash, room = cash + gain * share, room - 100 * share
        total += cash / Fraction(11, 10) ** one
    return total


grades_of = st.lists(st.sampled_from([0, 0, 0.3, 0.5, 0.8, 1.5]), min_size=6, max_size=6)


@pytest.mark.slow
@examples(5)
@given(grades_of, grades_of, st.sampled_from([100, 150]), st.sampled_from([300, 400]))
def test_no_schedule_of_all_earns_more_than_a_scenario_s_bound(tmp_path_factory, one, other, ore, rock):
    """Of six blocks in two years every schedule is tried, each milling its best ore: the bounds hold for all of them, and so the mean of
    bounds for any one schedule in both."""
    place = tmp_path_factory.mktemp("all")
    text = TWO_YEARS.replace("processing_capacity = 100", f"processing_capacity = {ore}").replace(
        "mining_capacity = 400", f"mining_capacity = {rock}"
    )
    (place / "project.toml").write_text(text)
    table = rows(3, 1, 2).drop(columns="cu").assign(sim_1=one, sim_2=other)
    table.to_csv(place / "blocks.csv", index=False)
    folder = solved_in_turn(prepared(place / "project.toml"))
    found, every = table_of(folder), list(every_schedule(table, 2, rock))
    best = [[earned(year, grades, 2, ore) for year in every] for grades in (one, other)]
    for name, grades, of_all in zip(found.index, (one, other), best):
        row = found.loc[name]
        assert float(max(of_all)) <= row["upper_bound"] + 1e-6 and row["npv"] <= float(max(of_all)) + 1e-6
        year = [
            it or 3
            for it in pd.read_csv(folder / "tables/common_schedule.csv").set_index("name")["year"][table["name"]]
        ]
        assert tuple(year) in every and row["common_npv"] == pytest.approx(
            float(earned(year, grades, 2, ore)), abs=1e-6
        )
    most = float(max(sum(pair) for pair in zip(*best))) / 2
    told = record_of(folder)
    assert told["common_npv"]["mean"] <= most + 1e-3 <= told["upper_bound"]["mean"] + 2e-3
    # What knowing the ground is worth, had the best one schedule been found.
    assert sum(float(max(of_all)) for of_all in best) / 2 - most <= told["perfect_information"] + 2e-3


cases = st.integers(1, 6).flatmap(
    lambda count: st.tuples(
        st.lists(st.sampled_from([0, 1, 2.5, 7]), min_size=count, max_size=count),
        st.lists(st.lists(st.sampled_from([0, 1, 3, 4]), min_size=count, max_size=count), min_size=1, max_size=3),
        st.lists(st.sampled_from([0, 2, 5, 9.5]), min_size=3, max_size=3),
    )
)


@examples(50)
@given(cases)
def test_the_best_ore_is_that_of_a_linear_programme_of_all_limits(case):
    gain, takes, most = (np.array(part, dtype=float) for part in case)
    most = most[: len(takes)]
    values, amounts = (np.stack([np.zeros_like(of_mill), of_mill], axis=-1) for of_mill in (gain, takes))
    problem = problem_of(values[:, :, None], [], *((amounts[k], [most[k]]) for k in range(len(most))))
    shares = best_shares(problem, np.arange(len(gain)), 0, np.tile([1.0, 0.0], (len(gain), 1)))
    assert (shares >= 0).all() and shares.sum(axis=1) == pytest.approx(1)
    milled = shares[:, 1]
    assert (takes @ milled <= most * (1 + 1e-9) + 1e-6).all()
    best = linprog(-gain, A_ub=takes, b_ub=most, bounds=(0, 1), method="highs-ipm")
    assert gain @ milled == pytest.approx(-best.fun, abs=1e-5)


def test_a_limit_of_metal_holds_in_each_scenario(plan_folder):
    """Half a tonne of metal a block of grade 1, and three quarters a year: of two blocks of grade 1 the second goes by half to
    the mill.
    """
    text = TWO_YEARS.replace("processing_capacity = 100", "processing_capacity = 300")
    text = text.replace("years = 2", "years = 1\nmax_metal_per_year = { copper = 0.75 }")
    folder = answered(plan_folder, pillars([1, 0, 1], [0.5, 0, 0.5]), text)
    table = table_of(folder)
    assert table["common_npv"]["sim_1"] == pytest.approx((3000 + 1500 - 800) / 1.1)
    assert table["recovered_copper"].tolist() == pytest.approx([0.75, 0.5])
    assert table["common_unprocessed_tonnes"].tolist() == pytest.approx([50, 0])


def test_a_schedule_each_is_that_of_the_model_with_the_process_by_name(plan_folder, tmp_path):
    """Where a project names its only process ore may be left as waste, as in scenarios."""
    rng = np.random.default_rng(5)
    table = rows(6, 5, 3)
    table["cu"] = np.where(rng.random(len(table)) < 0.25, rng.random(len(table)).round(3) * 2, 0.0)
    text = TWO_YEARS.replace("years = 2", "years = 5").replace("mining_capacity = 400", "mining_capacity = 1200")
    folder = answered(plan_folder, table.rename(columns={"cu": "sim_1"}), text)
    alone = text.partition("[scenarios]")[0]
    for old, new in [("processing_cost = 10\n", ""), *IN_MILL, ("[slopes]\n", MILL + "[slopes]\n")]:
        assert alone.count(old) == 1
        alone = alone.replace(old, new)
    (tmp_path / "other").mkdir()
    table.to_csv(tmp_path / "other" / "blocks.csv", index=False)
    (tmp_path / "other" / "project.toml").write_text(alone)
    other = pitplan.write_block_schedule(tmp_path / "other" / "project.toml", writing=PLAIN).iloc[0]
    (row,) = table_of(folder).to_dict("records")
    assert row["upper_bound"] == pytest.approx(other["upper_bound"], rel=1e-4) and row["npv"] > 0
    assert row["npv"] == pytest.approx(other["npv"]) and row["years"] == other["years"] > 2


# In the leach a block of grade g yields 2000 g, less 300, and it takes two blocks a year.
LEACH = '[[processes]]\nname = "leach"\ncost = 3\nrecovery = { copper = 0.25 }\ncapacity = 200\n'
OF_TWO = [("years = 2\n", "years = 2\n" + MILL + LEACH), ("processing_cost = 10\n", ""), *IN_MILL]


def test_ore_goes_to_the_best_of_two_processes_by_hand(plan_folder):
    """In one model the outer pillars gain 3000 and 1000 in the mill and 1700 and 700 in the leach; in the other both are waste. The shovels
    take both in the first year: the better goes to the mill and the other to the leach. On the mean each gains half as much and takes half a
    mill, so that both are planned for it."""
    one_year = [("years = 2\n", "years = 1\n" + MILL + LEACH), *OF_TWO[1:]]
    path = plan_folder(pillars([1, 0, 0.5], [0, 0, 0]), TWO_YEARS, *one_year)
    folder = solved_in_turn(prepared(path))
    table, told = table_of(folder), record_of(folder)
    gains = 3000 + 700 - 800
    assert table["npv"].tolist() == pytest.approx([gains / 1.1, 0])
    assert table["common_npv"].tolist() == pytest.approx([gains / 1.1, -800 / 1.1])
    assert table.loc["sim_1", ["feed_tonnes", "feed_tonnes_mill", "feed_tonnes_leach"]].tolist() == [200, 100, 100]
    assert told["npv_as_planned"] == pytest.approx(((3000 + 1000) / 2 - 800) / 1.1, abs=1e-3)
    assert told["limits"] == {"feed_tonnes_mill": 100, "feed_tonnes_leach": 200, "total_tonnes": 400}
    blocks = pd.read_csv(folder / "tables/common_schedule.csv").set_index("name")
    assert blocks.loc[["b0-0-0", "b2-0-0"], ["share_mill", "share_leach"]].to_numpy().tolist() == [[1, 0], [1, 0]]


def test_a_year_costs_in_each_scenario_what_it_costs_in_a_schedule(plan_folder):
    """A year costs 500 in which the mine runs, and the first one 100 more at its start; the second pillar gains 600 of which 500 go."""
    costs = ("mining_cost = 2\n", "mining_cost = 2\nfixed_cost_per_year = 500\ncapex = [[1, 100]]\n")
    folder = solved_in_turn(prepared(plan_folder(pillars([1, 0.5, 0], [1, 0.5, 0]), TWO_YEARS, costs)))
    of_year = [(2600 - 500) / 1.1 - 100, 100 / 1.21]
    assert (
        table_of(folder)["npv"].tolist() == pytest.approx([sum(of_year)] * 2) == table_of(folder)["common_npv"].tolist()
    )
    years = years_of(folder, "sim_1")
    assert years["cash_flow"].tolist() == [2600 - 600, 600 - 500]
    assert years["discounted_cash_flow"].tolist() == pytest.approx(of_year)


@pytest.mark.parametrize(
    "by_year",
    [
        "price = 8000\nprices = [6000, 10_000]",
        "[[periods]]\nprices = { copper = 6000 }\n[[periods]]\nprices = { copper = 10_000 }\n",
    ],
)
def test_prices_differ_by_year_in_each_scenario(plan_folder, by_year):
    """A block of grade 1 yields 3000 at 6,000 and 5000 at 10,000, of grade 0.5 half as much. Known before, the model with one pillar waits for the
    second year, and that with two has its poor one in the first. On the mean the poor one gains 250 there, less than it costs.
    """
    change = ("price = 8000", by_year) if by_year.startswith("price") else (COLUMNS, COLUMNS + by_year)
    folder = solved_in_turn(prepared(plan_folder(pillars([1, 0.5, 0], [0.6, 0, 0]), TWO_YEARS, change)))
    rich, poor = (1500 - 1000 - 400) / 1.1 + (5000 - 1000 - 400) / 1.21, (3000 - 1000 - 400) / 1.21
    assert table_of(folder)["npv"].tolist() == pytest.approx([rich, poor]) == table_of(folder)["upper_bound"].tolist()
    common = [3600 / 1.21, poor]
    assert table_of(folder)["common_npv"].tolist() == pytest.approx(common)
    assert record_of(folder)["npv_as_planned"] == pytest.approx(sum(common) / 2, abs=1e-3)
    assert years_of(folder, "sim_1")["cash_flow"].tolist() == pytest.approx([0, 3600])


def test_a_deck_may_price_a_metal_beside_one_with_prices_by_year(plan_folder):
    """Gold of 1 g/t yields 100 x 30 less processing at the first deck, and twice that at the other; copper yields 8,000 and then nothing."""
    gold = '[[metals]]\nname = "gold"\ncolumn = "au"\nunit = "gram_per_tonne"\nprice = 30\nrecovery = 1.0\n'
    decks = "[[scenarios.prices]]\ngold = 30\n[[scenarios.prices]]\ngold = 60\n"
    table = pillars([1, 0, 0]).assign(au=[0, 1.0, 0, 0, 0, 0])
    changes = [
        ("price = 8000", "price = 8000\nprices = [8000, 10_000]"),
        ("[slopes]\n", gold + "[slopes]\n"),
        (COLUMNS, COLUMNS + decks),
    ]
    folder = solved_in_turn(prepared(plan_folder(table, TWO_YEARS, *changes)))
    found = pd.read_csv(folder / "tables/schedules.csv")
    # Copper earns 3000 in the first year and 4000 in the second, gold 2000 or 5000.
    assert found["npv"].tolist() == pytest.approx(
        [max((2600 / 1.1 + 1600 / 1.21), (1600 / 1.1 + 3600 / 1.21)), 4600 / 1.1 + 3600 / 1.21]
    )


def test_a_head_grade_holds_in_each_scenario(plan_folder):
    """At most 0.75 % copper in the feed: of blocks of 1 and 0.5 that are mined in one year the whole feed is just at it. Where the second is
    waste the first goes nowhere, and the year costs 800."""
    changes = [
        ("processing_capacity = 100", "processing_capacity = 300"),
        ("years = 2\n", "years = 1\nfeed = { cu = { max = 0.75 } }\n"),
    ]
    folder = solved_in_turn(prepared(plan_folder(pillars([1, 0, 0.5], [1, 0, 0]), TWO_YEARS, *changes)))
    table = table_of(folder)
    assert table["common_npv"].tolist() == pytest.approx([(3000 + 1000 - 800) / 1.1, -800 / 1.1])
    assert table["npv"].tolist() == pytest.approx([(3000 + 1000 - 800) / 1.1, 0])
    assert record_of(folder)["feed"] == {"grade_cu_max": 0.75}
    assert years_of(folder, "sim_2")[["feed_tonnes", "unprocessed_tonnes"]].to_numpy().tolist() == [[0, 100]]


def test_a_period_has_its_own_limits(plan_folder):
    """Two halves of a year in which the mill takes nothing come first."""
    of_half = "[[periods]]\nyears = 1\nperiod_months = 6\nprocessing_capacity = 0.001\n"
    of_year = "[[periods]]\nprocessing_capacity = 100\n"
    path = plan_folder(pillars([1, 0, 0]), TWO_YEARS, (COLUMNS, COLUMNS + of_half + of_year))
    folder = solved_in_turn(prepared(path))
    told, years = record_of(folder), years_of(folder, "sim_1")
    assert (told["years"], told["periods"]) == (2, 3)
    assert years.index.tolist() == [1, 2, 3] and years["feed_tonnes"].tolist() == pytest.approx([0, 0, 100], abs=0.01)


@pytest.mark.slow
@pytest.mark.parametrize("seed", range(3))
def test_of_one_scenario_its_own_schedule_is_that_of_a_model_with_all_rules(plan_folder, tmp_path, seed):
    """Of the same grades: two processes, periods with their own capacities and costs, fixed costs, and a limit on a sum of the table."""
    rng = np.random.default_rng(seed)
    table = rows(6, 5, 3)
    table["cu"] = np.where(rng.random(len(table)) < 0.3, rng.random(len(table)).round(3) * 2, 0.0)
    table["clay"] = rng.random(len(table)).round(2)
    periods = "[[periods]]\nmining_capacity = 900\nmining_cost_factor = 1.2\n[[periods]]\nmining_capacity = 1500\nprocessing_cost_factor = 0.9\n"
    sums = '[[schedule.limits]]\ncolumn = "clay"\nof = "feed"\nper_tonne = true\nmax = 60\n'
    text = TWO_YEARS.replace("years = 2\n", "years = 5\n" + sums + MILL + LEACH).replace("processing_cost = 10\n", "")
    for old, new in IN_MILL:
        text = text.replace(old, new)
    text = text.replace("mining_cost = 2\n", "mining_cost = 2\nfixed_cost_per_year = 300\n") + periods
    (row,) = table_of(answered(plan_folder, table.rename(columns={"cu": "sim_1"}), text)).to_dict("records")
    (tmp_path / "other").mkdir()
    table.to_csv(tmp_path / "other" / "blocks.csv", index=False)
    (tmp_path / "other" / "project.toml").write_text(text.replace(COLUMNS, ""))
    other = pitplan.write_block_schedule(tmp_path / "other" / "project.toml", writing=PLAIN).iloc[0]
    assert row["npv"] == pytest.approx(row["common_npv"]) and row["npv"] > 0
    assert row["npv"] == pytest.approx(other["npv"], rel=2e-2) and row["npv"] <= other["upper_bound"] * (1 + 1e-6)
    assert other["npv"] <= row["upper_bound"] * (1 + 1e-6)


def test_years_are_those_of_the_longest_pit_and_a_fifth_more(plan_folder):
    """Three pillars that pay take three years, and so four; with one that pays two."""
    text = TWO_YEARS.replace("[schedule]\nyears = 2\n", "")
    assert prepared(plan_folder(pillars([1, 1, 1], [1, 0, 0]), text)).record["years"] == 4
    assert prepared(plan_folder(pillars([1, 0, 0], [1, 0, 0]), text)).record["years"] == 2


def test_it_goes_on_where_it_stopped(plan_folder):
    """A model more is solved alone, with the one schedule for all; another rate makes all anew."""
    table, model = hill()
    text = YEARLY + '[schedule]\nyears = 2\n[scenarios]\nrealisations = "realisations"\n'
    path = plan_folder(table, text)
    write_models(path, first=model, second=model.assign(cu=model["cu"] * 2))
    folder = solved_in_turn(prepared(path))
    written = {file: file.stat().st_mtime_ns for file in (folder / "done").iterdir()}
    assert len(written) == 3 and not prepared(path).missing()
    write_models(path, third=model.assign(cu=0.7))
    shared = prepared(path)
    assert [job.label for job in shared.missing()] == ["third", "common schedule"]
    solved_in_turn(shared)
    assert {file: file.stat().st_mtime_ns for file in written} == written
    path.write_text(text.replace("discount_rate = 0.1", "discount_rate = 0.09"))
    assert len(prepared(path).missing()) == 4


@pytest.mark.parametrize(
    ("old", "new"),
    [
        ('discounting = "end_of_year"', 'discounting = "mid_year"'),
        ("years = 2", "years = 3"),
        ("years = 2", "years = 2\nramp_up = [0.5, 1.0]"),
        ("years = 2", "years = 2\nmax_metal_per_year = { copper = 1 }"),
        ("mining_capacity = 400", "mining_capacity = 500"),
        ("processing_capacity = 100", "processing_capacity = 101"),
        ("mining_cost = 2", "mining_cost = 2.1"),
    ],
)
def test_whatever_changes_a_schedule_changes_its_name(plan_folder, old, new):
    table = pillars([1, 0.5, 0])
    before = prepared(plan_folder(table, TWO_YEARS))
    keys = [job.key for job in before.jobs]
    after = [job.key for job in prepared(plan_folder(table, TWO_YEARS, (old, new))).jobs]
    assert not set(keys) & set(after)


def test_a_schedule_that_is_searched_for_by_other_code_has_another_name(plan_folder, monkeypatch, tmp_path):
    path = plan_folder(pillars([1, 0.5, 0]), TWO_YEARS)
    keys = [job.key for job in prepared(path).jobs]
    shutil.copytree(store.SEARCH, tmp_path / "search")
    monkeypatch.setattr(store, "SEARCH", tmp_path / "search")
    assert [job.key for job in prepared(path).jobs] == keys
    with open(tmp_path / "search" / "filling.py", "a") as file:
        file.write("# other\n")
    assert not set(keys) & {job.key for job in prepared(path).jobs}


def test_factors_are_no_part_of_a_schedule(plan_folder):
    table = pillars([1, 0.5, 0])
    keys = [job.key for job in prepared(plan_folder(table, TWO_YEARS)).jobs]
    assert keys == [job.key for job in prepared(plan_folder(table, TWO_YEARS, ("[0.5, 1.0, 1.5]", "[0.7, 1.0]"))).jobs]


@pytest.mark.parametrize(
    ("words", "said"),
    [
        ("milp = { seconds = 5 }", "[schedule] milp: its time limit would make results depend on the machine"),
        ("bench_lag = 1", "[schedule] bench_lag: applies to pushbacks"),
        ("vertical_advance_rate = 2", "[schedule] vertical_advance_rate: applies to pushbacks"),
        ("bins = 2", "[schedule] bins: applies to pushbacks"),
        (
            "bins = 2\nstockpile = { reclaim_cost = 1 }",
            "[schedule] stockpile: ore goes to a process in the period in which",
        ),
        ("minimum = { feed = 10 }", "[schedule] minimum: a common schedule cannot meet it in each scenario"),
        (
            '[[schedule.limits]]\ncolumn = "tonnes"\nmin = 5',
            "[[schedule.limits]] min: a common schedule cannot meet it in each scenario",
        ),
    ],
)
def test_what_is_refused(plan_folder, words, said):
    path = plan_folder(pillars([1, 0.5, 0]), TWO_YEARS, ("years = 2", f"years = 2\n{words}"))
    with pytest.raises(PlanError) as error:
        write_scenarios(path, request=BY_BLOCK, writing=PLAIN)
    assert said in str(error.value) and "project.toml" in str(error.value)
    assert not (path.parent / "plan").exists()


@pytest.mark.parametrize(
    ("changes", "said"),
    [
        (
            [("price = 8000", "price = 8000\nprices = [8000, 9000]"), (COLUMNS, COLUMNS + DECKS)],
            "[[scenarios.prices]] copper: found a price of copper, which [[metals]] copper prices sets by year too, expected one of them "
            "for scenarios --by block: remove copper from one of the two",
        ),
        ([(COLUMNS, "")], "[scenarios] is missing: it names the realisations"),
        (
            [(COLUMNS, COLUMNS + DECKS + "[[periods]]\nprices = { copper = 9000 }\n")],
            "which [[periods]] prices sets by year too",
        ),
        (
            [(COLUMNS, COLUMNS + "[[periods]]\nminimum = { feed = 10 }\n")],
            "[[periods]] minimum: a common schedule cannot meet it in each scenario: remove it",
        ),
    ],
)
def test_what_else_is_refused(plan_folder, changes, said):
    with pytest.raises(PlanError) as error:
        write_scenarios(plan_folder(pillars([1, 0.5, 0]), TWO_YEARS, *changes), request=BY_BLOCK, writing=PLAIN)
    assert said in str(error.value)


def test_limits_under_which_a_pit_would_take_too_long_are_refused(plan_folder):
    text = TWO_YEARS.replace("[schedule]\nyears = 2\n", "").replace(
        "processing_capacity = 100", "processing_capacity = 1"
    )
    path = plan_folder(pillars([1, 1, 1]), text)
    with pytest.raises(
        PlanError, match="the pit would take more than 200 years: check that the limits are in tonnes per year"
    ):
        write_scenarios(path, request=BY_BLOCK, writing=PLAIN)
    assert not (path.parent / "plan" / "block_scenarios" / "scenarios.json").exists()


def test_a_factor_another_kind_of_folder_and_the_program_are_refused(plan_folder, capsys):
    path = plan_folder(pillars([1, 0.5, 0]), TWO_YEARS)
    words = ["scenarios", str(path), "--by", "block", "--quiet"]
    assert main([*words, "--revenue-factor", "1.00"]) == 1
    assert "pitplan: --revenue-factor: schedules by block are at the base price: remove it" in capsys.readouterr().err
    assert main([*words, "--solver", "program"]) == 1
    assert "pitplan: --solver program: finds pits alone" in capsys.readouterr().err
    folder = prepared(path).folder
    with pytest.raises(PlanError, match="holds scenarios --by block: give another folder by --out for those --by pit"):
        write_scenarios(path, folder, writing=PLAIN)
    with pytest.raises(PlanError, match="2 of 2 schedules have no result, first sim_1: was not solved"):
        gather(folder, writing=PLAIN)
    with pytest.raises(PlanError, match="--revenue-factor: schedules by block"):
        gather(folder, Request(revenue_factor=0.5), writing=PLAIN)


def test_without_the_library_it_is_told_what_is_missing(plan_folder):
    path = plan_folder(pillars([1, 0.5, 0]), TWO_YEARS)
    words = [sys.executable, str(ROOT / "tools" / "pitplan"), "scenarios", str(path), "--by", "block", "--no-figures"]
    ran = subprocess.run(words, capture_output=True, text=True, env=os.environ | {"PITSHELL_LIBRARY": "/nowhere.so"})
    why = "a schedule by block needs the library of pits: no libpitshell.so at /nowhere.so: make library builds it"
    assert ran.returncode == 1 and ran.stderr == f"pitplan: {why}\n" and MissingPackage.__name__ not in ran.stderr


def without_seconds(folder):
    """The bytes of all tables, but for the seconds that schedules took."""
    found = {name: (folder / name).read_bytes() for name in FILES}
    return found | {
        "tables/schedules.csv": pd.read_csv(folder / "tables/schedules.csv", dtype=str).drop(columns="seconds").to_csv()
    }


@pytest.mark.slow
@pytest.mark.filterwarnings("ignore:make_current is deprecated:DeprecationWarning")
def test_processes_of_dask_write_the_same_as_one_after_the_other(plan_folder, tmp_path):
    pytest.importorskip("distributed", reason="needs the Debian package python3-distributed")
    rng = np.random.default_rng(3)
    table = rows(5, 4, 3).drop(columns="cu")
    for name in ("sim_1", "sim_2", "sim_3"):
        table[name] = np.where(rng.random(len(table)) < 0.3, rng.random(len(table)).round(3) * 2, 0.0)
    path = plan_folder(table, TWO_YEARS.replace("years = 2", "years = 4"))
    here = solved_in_turn(prepared(path))
    result = write_scenarios(path, tmp_path / "dask", Request("local", 2, by="block"), writing=PLAIN)
    assert without_seconds(here) == without_seconds(tmp_path / "dask")
    assert any(note.startswith("4 solved (status 0)") for note in result.notes) and len(result.schedules) == 3
    assert "0 of 4 schedules have a result already" in result.notes


def test_jobs_of_slurm_solve_their_lines(plan_folder):
    """The third line is the one schedule for all."""
    path = plan_folder(pillars([1, 0.5, 0], [0, 0.5, 1]), TWO_YEARS)
    result = write_scenarios(path, request=Request("slurm", by="block"), writing=PLAIN)
    folder = result.folder
    assert result.start == folder / "start.sh" and (folder / "jobs.txt").read_text() == "1\n2\n3\n"
    subprocess.run(["sh", str(folder / "array.sbatch")], check=True, env={**os.environ, "SLURM_ARRAY_TASK_ID": "3"})
    assert [job.number for job in store.read_shared(folder).missing()] == [1, 2]
    with pytest.raises(PlanError, match="2 of 3 schedules have no result, first sim_1: was not solved"):
        gather(folder, writing=PLAIN)


def test_some_schedules_are_gathered_on_request_alone(plan_folder):
    """The second model and the one schedule have answers; the first still digs it, and has no bound beside."""
    shared = prepared(plan_folder(pillars([1, 0.5, 0], [0, 0.5, 1]), TWO_YEARS))
    assert worker.solve(str(shared.folder), 2).status == 0
    with pytest.raises(
        PlanError, match="the common schedule was not made: was not solved: run pitplan scenarios again"
    ):
        gather(shared.folder, Request(partial=True), writing=PLAIN)
    assert worker.solve(str(shared.folder), 3).status == 0
    notes = gather(shared.folder, Request(partial=True), writing=PLAIN).notes
    assert "WARNING: 1 scenarios have no result and are left out of all tables and figures" in notes
    table = table_of(shared.folder)
    assert table.columns[:4].tolist() == ["scenario", "status", "npv", "upper_bound"]
    assert table["status"].tolist() == ["was not solved", "solved"] and np.isnan(table["upper_bound"]["sim_1"])
    assert table["common_npv"].tolist() == pytest.approx([(3000 - 800) / 1.1 + 600 / 1.21] * 2)
    assert record_of(shared.folder)["answered"] == 1 and record_of(shared.folder)["upper_bound"][
        "mean"
    ] == pytest.approx(EACH, abs=1e-3)


def test_fixed_blocks_hold_in_every_schedule(plan_folder):
    """The pillar that must be dug is waste in both models; the rich one may not be dug."""
    table = pillars([1, 0.5, 0], [0.8, 0.5, 0]).assign(must=[0, 0, 1, 0, 0, 0], never=[0, 0, 0, 1, 0, 0])
    text = TWO_YEARS + '[constraints]\nmust_mine = "must"\nexclude = "never"\n'
    folder = answered(plan_folder, table, text)
    # To dig the waste in the second year costs less.
    assert table_of(folder)["npv"].tolist() == pytest.approx([600 / 1.1 - 400 / 1.21] * 2)
    blocks = pd.read_csv(folder / "tables/common_schedule.csv").set_index("name")["year"]
    assert blocks[["b0-0-0", "b0-0-1"]].tolist() == [0, 0] and blocks["b2-0-0"] == 2 and blocks["b1-0-0"] == 1


def test_a_schedule_that_reaches_ground_that_is_not_known_is_refused(plan_folder):
    """Nothing is known of the block over the ore of the first pillar, between two rows."""
    table = rows(1, 1, 3).drop(columns="cu").assign(sim_1=[1.5, 0, 0])
    shared = prepared(plan_folder(table[table["z"] != 15], TWO_YEARS))
    outcome = worker.solve(str(shared.folder), 1)
    assert outcome.status == 5 and "sim_1: blocks.csv: the shells reach 1 missing blocks" in outcome.why


def test_nothing_that_pays_is_a_schedule_of_nothing(plan_folder):
    folder = answered(plan_folder, pillars([0, 0.2, 0], [0.1, 0, 0]))
    assert table_of(folder)[["npv", "upper_bound", "years", "common_npv"]].to_numpy().tolist() == [[0, 0, 0, 0]] * 2
    assert pd.read_csv(folder / "tables/common_schedule_years.csv").empty


def test_the_command_line_tells_what_a_planner_should_know(plan_folder):
    path = plan_folder(pillars([1, 0.5, 1], [0, 0.5, 0]), TWO_YEARS)
    solved_in_turn(prepared(path))
    with redirect_stdout(io.StringIO()) as out, redirect_stderr(io.StringIO()) as err:
        assert main(["scenarios", str(path), "--by", "block", "--workers", "1", "--no-figures"]) == 0
    folder = path.parent / "plan" / "block_scenarios"
    assert out.getvalue() == f"{folder}\n"
    said = err.getvalue()
    assert "3 of 3 schedules have a result already" in said
    assert (
        "common schedule: mean NPV 1,132 over 2 scenarios, from -231 to 2,496; 2,496 as planned from the mean block values"
        in said
    )
    assert (
        "on average 50 t of its ore are left as waste for lack of processing capacity, and 0.5 of its years have less feed than planned"
        in said
    )
    assert (
        "mean NPV 2,529, upper bound 2,529; the expected value of perfect information (EVPI) is at most 1,397, 55.23 %"
        in said
    )


def test_an_interrupted_schedule_is_no_answer(plan_folder, monkeypatch):
    def interrupt(*given):
        raise KeyboardInterrupt

    shared = prepared(plan_folder(pillars([1, 0.5, 0]), TWO_YEARS))
    monkeypatch.setattr("pitplan.scheduling.blocks.scheduler.moved", interrupt)
    with pytest.raises(KeyboardInterrupt):
        worker.solve(str(shared.folder), 1)
    assert len(shared.missing()) == 2


def test_the_picture_has_each_scenario_and_the_spread():
    figure = scenarios.Figure()
    table = pd.DataFrame({"common_npv": [1e7, 3e7], "npv": [2e7, 4e7], "upper_bound": [2.5e7, 4.1e7]})
    each, spread = scenarios.plot(table, "USD", figure.subplots(1, 2, sharey=True))
    points = {line.get_label(): line.get_ydata().tolist() for line in each.lines}
    assert points["common schedule"] == [10, 30] and points["upper bound of each scenario"] == [25, 41]
    assert spread.get_title(loc="left") == "expected value of perfect information: at most 13 M USD"
    assert [text.get_text() for text in spread.texts] == ["mean 20", "mean 30", "mean 33"]
    assert each.get_ylabel() == "NPV, M USD"

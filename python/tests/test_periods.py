"""Periods: capacities, minimums, prices, fixed costs and capital of years, worked by hand and recomputed by the audit."""

from dataclasses import replace
from decimal import Decimal
from functools import partial

import numpy as np
import pandas as pd
import pytest
import tomllib
from conftest import PROJECT, rows
from helpers import block_commands as blocks
from helpers.benches import yearly_limits
from helpers.periods import column, periods, schedule_of, solved
from helpers.processes import WITH, deposit
from helpers.pushbacks import pillars
from helpers.verified import wrong
from helpers.writings import PLAIN, UNVERIFIED

import pitplan
from pitplan import PlanError
from pitplan.config.periods import Calendar, Period
from pitplan.scheduling.limits import MAX, MIN
from pitplan.studies.sensitivity import varied


def test_capacities_of_years_by_hand(plan_folder):
    """Each 100 t earn 3200 - 1000 - 200 = 2000: 50 t in the first year, 150 in the second, then 200 t as long as there is ore."""
    text = periods("processing_capacity = 50", "processing_capacity = 150", "processing_capacity = 200")
    shell, years = solved(plan_folder(column(), text))
    assert years["feed_tonnes"].tolist() == [50, 150, 200] and shell["years"] == 3
    assert shell["npv_best"] == pytest.approx(1000 / 1.1 + 3000 / 1.21 + 4000 / 1.331, abs=1e-3)


def test_years_of_a_period_and_the_last_one_continues(plan_folder):
    text = periods("years = 2\nprocessing_capacity = 50", "processing_capacity = 100")
    _, years = solved(plan_folder(column(), text))
    assert years["feed_tonnes"].tolist() == [50, 50, 100, 100, 100]


def test_no_ore_is_processed_before_the_mill_is_there(plan_folder):
    """Waste of 300 t over 100 t of ore. The mill opens in year 3: the waste is mined at 100 t a year, and the third level in year 3 too."""
    table = rows(1, 1, 4, cu=lambda i, j, k: 0.8 * (k == 0) * 3)
    text = periods("years = 2\nprocessing_capacity = 0", "processing_capacity = 100")
    path = plan_folder(
        table,
        text,
        ("processing_capacity = 100\n[[periods]]", "processing_capacity = 100\nmining_capacity = 150\n[[periods]]"),
    )
    _, years = solved(path)
    assert years["total_tonnes"].tolist() == [150, 150, 100] and years["feed_tonnes"].tolist() == [0, 0, 100]


def test_mining_capacity_of_years_by_hand(plan_folder):
    text = periods("mining_capacity = 25", "mining_capacity = 75").replace(
        "processing_capacity = 100\n", "processing_capacity = 100\nmining_capacity = 100\n", 1
    )
    _, years = solved(plan_folder(column(), text))
    assert years["total_tonnes"].tolist() == [25, 75, 75, 75, 75, 75]


def test_money_of_years_by_hand(plan_folder):
    """100 t a year at prices of 8000, 9000 and again 8000; fixed costs of 100 and then 200; 500 at the start of the second period."""
    text = periods(
        "fixed_cost_per_year = 100",
        "prices = { copper = 9000 }\nfixed_cost_per_year = 200\ncapex = 500",
        "fixed_cost_per_year = 200",
    )
    shell, years = solved(plan_folder(column(), text))
    assert years["fixed_cost"].tolist() == [100, 200, 200, 200] and years["capex"].tolist() == [0, 500, 0, 0]
    assert years["cash_flow"].tolist() == [1900, 2400 - 200 - 500, 1800, 1800]
    present = 1900 / 1.1 + 2200 / 1.21 - 500 / 1.1 + 1800 / 1.331 + 1800 / 1.4641
    assert shell["npv_best"] == pytest.approx(present, abs=1e-3)


def test_capacities_of_processes_of_years(plan_folder):
    """Each process keeps to its capacity of the year, and the mine never feeds more than both."""
    text = PROJECT + "[[periods]]\ncapacity = { mill = 20 }\n[[periods]]\ncapacity = { leach = 50, mill = 200 }\n"
    changes = [*WITH, ("mining_cost = 2\n", "mining_cost = 0.3\n")]
    path = plan_folder(deposit(), text, *changes)
    pitplan.write_shells(path, writing=PLAIN)
    years = pd.read_csv(path.parent / "plan" / "tables/years.csv")
    first = years["year"] == 1
    assert years["feed_tonnes_mill"][first].max() == pytest.approx(20)
    assert years["feed_tonnes_leach"][~first].max() <= 50 + 1e-6 and years["feed_tonnes_leach"][first].max() > 50
    assert years["feed_tonnes_mill"][~first].max() > 20


@pytest.fixture
def scheduled(plan_folder):
    """Schedules a project, and demands that its folder is right; gives the folder."""
    return partial(schedule_of, plan_folder)


def test_a_schedule_keeps_the_limits_of_years_and_pays_their_costs(scheduled):
    folder = scheduled(
        "processing_capacity = 100\nmining_capacity = 8000\nfixed_cost_per_year = 50",
        "processing_capacity = 300\nprices = { copper = 8800 }\ncapex = 40",
        "minimum = { feed = 150 }",
        "processing_capacity = 400",
    )
    years = pd.read_csv(folder / "tables/years.csv")
    found = years[years["case"] == "lp"].set_index("year")
    assert 0 < found["feed_tonnes"].loc[1] <= 100 + 1e-6 and found["total_tonnes"].loc[1] <= 8000 + 1e-6
    assert 100 < found["feed_tonnes"].loc[2] <= 300 + 1e-6 and found["total_tonnes"].max() <= 9000 + 1e-6
    assert found["feed_tonnes"].loc[3] >= 150 - 1e-4
    assert found["fixed_cost"].tolist()[:2] == [50.0, 0.0] and found["capex"].tolist()[:3] == [0, 40, 0]


def test_periods_that_are_as_the_other_sections_change_nothing(scheduled):
    plain = pd.read_csv(scheduled() / "tables/methods.csv")
    same = pd.read_csv(
        scheduled("years = 3\nprocessing_capacity = 400\nmining_capacity = 9000\nprices = { copper = 8000 }")
        / "tables/methods.csv"
    )
    assert same["npv"].tolist() == pytest.approx(plain["npv"].tolist())
    assert same["upper_bound"].tolist() == pytest.approx(plain["upper_bound"].tolist())


def test_a_ramp_up_and_periods_are_two_notations_of_one_mine(scheduled):
    ramp = pd.read_csv(scheduled(more="ramp_up = [0.25, 1.0]\n") / "tables/methods.csv")
    same = pd.read_csv(scheduled("processing_capacity = 100", "processing_capacity = 400") / "tables/methods.csv")
    assert same["npv"].tolist() == pytest.approx(ramp["npv"].tolist())
    assert same["upper_bound"].tolist() == pytest.approx(ramp["upper_bound"].tolist())


@pytest.mark.slow
def test_more_capacity_in_a_year_never_lowers_the_bound(scheduled):
    bounds = []
    for tonnes in (100, 200, 400):
        methods = pd.read_csv(
            scheduled("years = 2", f"processing_capacity = {tonnes}", "years = 1") / "tables/methods.csv"
        )
        bounds.append(methods["upper_bound"].iloc[0])
    assert bounds == sorted(bounds)


def test_periods_that_are_passed_over_are_found(scheduled):
    folder = scheduled("processing_capacity = 100", "processing_capacity = 300\nprices = { copper = 8800 }")
    path = folder / "project-as-run.toml"
    text = path.read_text()
    other_capacity = ("processing_capacity = 300", "processing_capacity = 200")
    for (old, new), rule in ((other_capacity, "schedule limits"), (("8800", "8900"), "material flow")):
        assert old in text
        path.write_text(text.replace(old, new))
        assert rule in wrong(folder)


def test_limits_of_years_by_hand():
    limits = yearly_limits(
        {"feed_tonnes": 100, "total_tonnes": 300},
        (0.5, 1.0),
        least={"feed_tonnes": 0.0},
        by_year={("feed_tonnes", MAX): (10, 20), ("feed_tonnes", MIN): (0, 5)},
    )
    assert limits.of_years(3).tolist() == [[10, 300], [20, 300], [20, 300]]
    feed, rock = limits.most["feed_tonnes"], limits.most["total_tonnes"]
    assert limits.least["feed_tonnes"].of_years(3).tolist() == [0, 5, 5]
    assert (feed.greatest, rock.greatest) == (20, 300)
    assert replace(feed, by_period=()).of_years(2).tolist() == [50, 100]
    assert feed.within(np.array([True, False, True])).of_years(3).tolist() == [10, np.inf, 20]
    assert limits.least["feed_tonnes"].within(np.array([True, False, True])).of_years(3).tolist() == [0, 0, 5]


def test_values_of_years_by_hand():
    calendar = Calendar((Period(2, capex=5), Period(3, mining_capacity=7.0, capex=6)))
    assert calendar.by_year(lambda it: it.mining_capacity, 1.0) == (1.0, 1.0, 7.0, 7.0, 7.0)
    assert calendar.capex == ((1, 5), (3, 6)) and Calendar().by_year(lambda it: it.mining_capacity, 1.0) == (1.0,)


def test_a_sensitivity_changes_prices_and_capacities_of_periods(plan_folder):
    text = periods("processing_capacity = 50\nmining_capacity = 60\nprices = { copper = 9000 }").replace(
        "processing_capacity = 100\n", "processing_capacity = 100\nmining_capacity = 100\n", 1
    )
    project = pitplan.load(plan_folder(column(), text))
    (dearer,) = varied(project, (("price copper", project.metals[0].price * 0 + 1),)).shells.calendar.periods
    (larger,) = varied(project, (("capacity", project.metals[0].price * 0 + 1),)).shells.calendar.periods
    assert dearer.prices["copper"] == 18000 and (larger.processing_capacity, larger.mining_capacity) == (100, 120)


def test_a_sensitivity_of_a_project_with_periods_is_verified(plan_folder):
    text = periods("processing_capacity = 50\nprices = { copper = 9000 }", "processing_capacity = 150")
    path = plan_folder(column(), text + '[sensitivity]\nparameters = ["price", "capacity"]\nchanges = [-0.1, 0.1]\n')
    pitplan.write_sensitivity(path, writing=UNVERIFIED)
    assert not [rule for rule in pitplan.verify(path.parent / "plan" / "sensitivity") if rule.differences]


def test_the_record_reads_back(plan_folder):
    text = periods(
        "years = 2\nprocessing_capacity = 0\nprices = { copper = 9000.5 }\ncapex = 7\nfixed_cost_per_year = 0",
        "processing_capacity = 150",
    )
    project = pitplan.load(plan_folder(column(), text))
    data = tomllib.loads(project.to_toml(), parse_float=Decimal)
    again = pitplan.Project.from_dict(data, project.path.parent)
    assert again.shells.calendar == project.shells.calendar and len(again.shells.calendar.listed) == 3


@pytest.mark.parametrize(
    ("texts", "said"),
    [
        (["processing_capacity = -1"], r"\[periods 1\] processing_capacity: found -1, expected 0 or more"),
        (["processing_capacity = 0"], r"\[periods 1\] processing_capacity: found 0 in the last period"),
        (["years = 0"], r"\[periods 1\] years: found 0, expected a whole number from 1 to 1,000"),
        (["years = 600", "years = 600"], r"\[periods 2\] years: found 1,200 in all periods, expected 1,000 at most"),
        (["mining_capacty = 3"], r"\[periods 1\] mining_capacty: unknown key: did you mean mining_capacity\?"),
        (["mining_capacity = 3"], r"\[\[periods\]\] 1 mining_capacity: \[shells\] mining_capacity is missing"),
        (
            ["capacity = { mill = 3 }"],
            r"\[\[periods\]\] 1 capacity: is of \[\[processes\]\], and the project names none",
        ),
        (["prices = { gold = 3 }"], r"\[\[periods\]\] 1 prices: found gold, expected one of copper"),
        (["minimum = { feed = 3 }"], r"\[\[periods\]\] 1 minimum: \[schedule\] years is missing"),
    ],
)
def test_what_is_wrong_is_named(plan_folder, texts, said):
    with pytest.raises(PlanError, match=said):
        pitplan.load(plan_folder(column(), periods(*texts)))


@pytest.mark.parametrize(
    ("section", "text", "said"),
    [
        (
            "ramp_up = [0.5, 1.0]",
            "processing_capacity = 3",
            "ramp_up scales capacities by year too: remove one of them",
        ),
        (
            "years = 3",
            "minimum = { feed = 500 }",
            "minimum feed: 500 is above the maximum of the period, 100: lower it",
        ),
        (
            "years = 3\nminimum = { feed = 80 }",
            "processing_capacity = 60",
            "minimum feed: 80 is above the maximum of the period, 60",
        ),
        ("years = 3", "minimum = { ore = 5 }", "minimum: found ore, expected one of feed, total, copper"),
    ],
)
def test_what_does_not_go_with_a_schedule_is_named(plan_folder, section, text, said):
    project = PROJECT + f"[pushbacks]\ncount = 2\n[schedule]\n{section}\n[[periods]]\n{text}\n"
    with pytest.raises(PlanError, match=said):
        pitplan.load(plan_folder(column(), project))


def of_blocks(folder):
    years = pd.read_csv(folder / "tables/years.csv")
    return years[years["case"] == "block"].set_index("year")


def test_a_schedule_by_block_by_hand(plan_folder):
    """Three pillars of 200 t, half of each ore: one a year by the other sections, none in the first period, two in the year after it."""
    words = "[[periods]]\nprocessing_capacity = 0\nmining_capacity = 0\nfixed_cost_per_year = 5\n[[periods]]\nprocessing_capacity = 200\nmining_capacity = 400\n"
    words += "[[periods]]\nprices = { copper = 8010 }\ncapex = 7\n"
    row, folder = blocks.scheduled(plan_folder, words)
    years = of_blocks(folder)
    assert years["feed_tonnes"].tolist() == [0, 200, 100] and years["total_tonnes"].tolist() == [0, 400, 200]
    assert years["fixed_cost"].tolist() == [5, 0, 0] and years["capex"].tolist() == [0, 0, 7]
    plain, _ = blocks.scheduled(plan_folder)
    assert row["npv"] < plain["npv"] and row["npv"] <= row["upper_bound"] + 1e-6


def test_minimums_of_periods_by_block(plan_folder):
    """Without a minimum all three pillars are mined in the first year."""
    words = "[schedule]\nyears = 3\n[[periods]]\n[[periods]]\nminimum = { feed = 100 }\n[[periods]]\n"
    row, folder = blocks.scheduled(plan_folder, words, text=blocks.WIDE)
    years = of_blocks(folder)
    assert years["feed_tonnes"].tolist() == [200, 100] and row["npv"] <= row["upper_bound"] + 1e-6
    text = (folder / "project-as-run.toml").read_text()
    (folder / "project-as-run.toml").write_text(text.replace("feed = 100", "feed = 101"))
    assert "block limits" in blocks.wrong(folder)


def test_limits_of_periods_that_a_schedule_by_block_exceeds_are_found(plan_folder):
    _, folder = blocks.scheduled(plan_folder, "[[periods]]\nprocessing_capacity = 200\nmining_capacity = 400\n")
    text = (folder / "project-as-run.toml").read_text()
    (folder / "project-as-run.toml").write_text(text.replace("mining_capacity = 400", "mining_capacity = 399"))
    assert {"block limits", "block bound"} & blocks.wrong(folder)


def test_scenarios_by_block_have_the_limits_of_periods(plan_folder):
    """Of one realisation the schedule of its own is that of the model."""
    words = "[[periods]]\nmining_capacity = 300\n"
    path = plan_folder(pillars(), blocks.YEARLY + '[scenarios]\ncolumns = { copper = "cu*" }\n' + words)
    found = pitplan.write_scenarios(path, request=pitplan.Request(workers=0, by="block"), writing=PLAIN).schedules.iloc[
        0
    ]
    alone = pitplan.write_block_schedule(plan_folder(pillars(), blocks.YEARLY + words), writing=PLAIN).iloc[0]
    assert found["npv"] == pytest.approx(alone["npv"]) == found["common_npv"] and found["npv"] > 0

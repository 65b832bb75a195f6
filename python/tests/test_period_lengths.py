"""Periods that are not years: half-years, quarters and several years, worked by hand and recomputed by the audit."""

import json
import shutil
from decimal import Decimal

import numpy as np
import pandas as pd
import pytest
import tomllib
from conftest import PROJECT, plan_in
from helpers import block_commands as blocks
from helpers.benches import yearly_limits
from helpers.periods import column, entries, periods, schedule_of, solved
from helpers.pushbacks import pillars
from helpers.verified import wrong
from helpers.writings import WITH_WORKBOOK

import pitplan
from pitplan import PlanError
from pitplan.config.periods import Calendar, Period
from pitplan.config.shells import ShellRules
from pitplan.pits.best_worst_case import discounts_of, year_discounts
from pitplan.results.pit_states import Shape


def test_half_years_by_hand(plan_folder):
    """100 t a year are 50 t, worth 1000, in each of eight half-years."""
    shell, found = solved(plan_folder(column(), periods("period_months = 6")))
    assert found.index.tolist() == list(range(1, 9)) and found["feed_tonnes"].tolist() == [50.0] * 8
    assert shell["npv_best"] == pytest.approx(sum(1000 / 1.1 ** (0.5 * k) for k in range(1, 9)), abs=1e-3)
    assert shell["years"] == 4


def test_a_period_of_two_years_earns_what_its_years_earn(plan_folder):
    yearly, _ = solved(plan_folder(column()))
    shell, found = solved(plan_folder(column(), periods("period_months = 24")))
    assert found["feed_tonnes"].tolist() == [200, 200] and shell["years"] == 4
    assert shell["npv_best"] == pytest.approx(yearly["npv_best"], abs=1e-3)


def test_the_last_period_is_used_in_part(plan_folder):
    """A quarter, then periods of three years: 25 t and 300 t, and 75 t in the first three quarters of a year of the third period."""
    text = periods("period_months = 3\nyears = 1\nprocessing_capacity = 25", "period_months = 36")
    shell, found = solved(plan_folder(column(), text))
    assert found["feed_tonnes"].tolist() == [6.25] * 4 + [300, 75] and shell["years"] == 4.75
    early = sum(125 / 1.1 ** (k / 4) for k in range(1, 5))
    late = sum(2000 / 1.1**k for k in (2, 3, 4)) + 1500 / 1.1**5
    assert shell["npv_best"] == pytest.approx(early + late, abs=1e-3)


def test_money_of_half_years_by_hand(plan_folder):
    """The price rises to 9000 in the second year, whose start costs 500; fixed costs are 100 a year."""
    text = periods(
        "years = 1\nperiod_months = 6\nfixed_cost_per_year = 100",
        "prices = { copper = 9000 }\ncapex = 500\nfixed_cost_per_year = 100",
    )
    shell, found = solved(plan_folder(column(), text))
    assert found["fixed_cost"].tolist() == [50, 50, 100, 100, 100] and found["capex"].tolist() == [0, 0, 500, 0, 0]
    assert found["cash_flow"].tolist() == [950, 950, 1800, 2300, 2300]
    present = 950 / 1.1**0.5 + 950 / 1.1 + 2300 * (1 / 1.1**2 + 1 / 1.1**3 + 1 / 1.1**4) - 500 / 1.1
    assert shell["npv_best"] == pytest.approx(present, abs=1e-3)


MIXED = ("years = 1\nperiod_months = 3", "years = 2", "period_months = 36")


@pytest.mark.parametrize("how", ["end_of_year", "mid_year", "continuous"])
def test_discount_factors_by_hand(how):
    calendar = Calendar((Period(1, 3), Period(2), Period(3, 36)))
    rules = ShellRules((1.0,), None, 0.1, 100.0, None, how, False, calendar=calendar)
    found = year_discounts(rules, 7)
    late = {"end_of_year": 1.0, "mid_year": 0.5}.get(how)
    if late is None:
        steps = np.linspace(3, 6, 300_001)
        assert found[6] == pytest.approx(np.mean(1.1**-steps), rel=1e-6)
        assert found[0] == pytest.approx(np.mean(1.1 ** -np.linspace(0, 0.25, 100_001)), rel=1e-6)
        return
    assert found[:4] == pytest.approx([1.1 ** -((k + late) / 4) for k in range(4)])
    assert found[4:6] == pytest.approx([1.1 ** -(1 + late), 1.1 ** -(2 + late)])
    assert found[6] == pytest.approx(np.mean([1.1 ** -(3 + k + late) for k in range(3)]))
    # Half of the last period is its first year and half of the second.
    halved = discounts_of(np.array([1.0] * 6 + [0.5]), rules)[6]
    assert halved == pytest.approx((1.1 ** -(3 + late) + 0.5 * 1.1 ** -(4 + late)) / 1.5)
    assert discounts_of(np.array([1.0] * 6 + [0.0]), rules)[6] == pytest.approx(1.1 ** -(3 + late))


def test_lengths_and_ends_by_hand():
    calendar = Calendar((Period(1, 3), Period(2), Period(6, 36, capex=7)))
    assert calendar.ends(9).tolist() == [0.25, 0.5, 0.75, 1, 2, 3, 6, 9, 12] and calendar.capex == ((7, 7),)
    assert calendar.starts(3).tolist() == [0, 0.25, 0.5] and calendar.word == "period" and Calendar().word == "year"
    assert [calendar.within(years) for years in (1, 3, 4, 6, 12)] == [4, 6, None, 7, 9]
    assert [calendar.time(place) for place in (0, 0.5, 4.5, 6.5)] == [0, 0.125, 1.5, 4.5]
    assert [calendar.span(count) for count in (1, 4)] == [0.25, 1] and isinstance(calendar.span(4), int)
    limits = yearly_limits({"feed_tonnes": 100}, rate=8, least={"feed_tonnes": 40}, calendar=calendar)
    feed = limits.most["feed_tonnes"]
    assert limits.of_years(7)[:, 0].tolist() == [25, 25, 25, 25, 100, 100, 300] and feed.greatest == 300
    assert limits.least["feed_tonnes"].of_years(7).tolist() == [10, 10, 10, 10, 40, 40, 120]
    assert limits.sinking(7).tolist() == [2, 2, 2, 2, 8, 8, 24]


@pytest.fixture(scope="module")
def mixed(tmp_path_factory):
    """The folder of a schedule of quarters, years and three-year periods."""
    more = "vertical_advance_rate = 3\nminimum = { total = 40 }\n"
    return schedule_of(plan_in(tmp_path_factory.mktemp("mixed")), *MIXED, more=more)


def test_tables_of_a_schedule_number_periods(mixed):
    """The audit accepts them, and every table names the column by what it holds."""
    for name in ("schedule", "years", "flows", "feed", "cutoffs", "limits", "bound", "blocks"):
        table = pd.read_csv(mixed / f"tables/{name}.csv")
        assert "period" in table and "year" not in table, name
    limits = pd.read_csv(mixed / "tables/limits.csv").set_index(["method", "limit", "period"])
    found = limits.loc["lp", "total_tonnes"]["maximum"]
    assert found.tolist()[:6] == [2250.0] * 4 + [9000.0] * 2
    assert limits.loc["lp", "total_tonnes"]["minimum"].tolist()[:5] == [10.0] * 4 + [40.0]
    assert limits.loc["lp", "vertical_advance_1"]["maximum"].tolist()[:5] == [0.75] * 4 + [3.0]


def test_the_record_of_a_schedule_has_years_and_periods(mixed):
    record = json.loads((mixed / "schedule.json").read_text())
    assert (record["years"], record["periods"]) == (9, 8)
    methods = pd.read_csv(mixed / "tables/methods.csv").set_index("method")
    years = pd.read_csv(mixed / "tables/years.csv")
    for name, row in record["methods"].items():
        count = int((years["case"] == name).sum())
        assert row["periods"] == count and row["years"] == methods["years"][name]
        assert methods["years"][name] == [0.25, 0.5, 0.75, 1, 2, 3, 6, 9][count - 1]


def test_the_workbook_has_periods(plan_folder):
    folder = schedule_of(
        plan_folder, "period_months = 24", "period_months = 12", more="bins = 2\n", writing=WITH_WORKBOOK
    )
    sheets = pd.read_excel(folder / "tables/schedule.xlsx", sheet_name=None)
    assert all("period" in sheets[name] for name in ("schedule", "years", "flows", "feed", "cutoffs"))


def test_exports_have_periods(mixed, tmp_path):
    pitplan.write_export(mixed, "table", 0.5, out=tmp_path / "own.csv")
    assert "period" in pd.read_csv(tmp_path / "own.csv")
    pitplan.write_export(mixed, "stl", shape=Shape(of="year", revenue_factor=0.5), out=tmp_path / "stl")
    period = pd.read_csv(mixed / "tables/blocks.csv")["period"]
    names = {f"period-{number}.stl" for number in range(period[period > 0].min(), period.max() + 1)}
    assert {path.name for path in (tmp_path / "stl").iterdir()} == names


@pytest.fixture
def copied(mixed, tmp_path):
    """A copy of the folder, of whose project a text is replaced."""
    shutil.copytree(mixed.parent, tmp_path / "mine")
    folder = tmp_path / "mine" / "plan"

    def replaced(old, new):
        path = folder / "project-as-run.toml"
        text = path.read_text()
        assert old in text
        path.write_text(text.replace(old, new))
        return folder

    return replaced


def test_a_record_with_other_years_than_its_periods_is_refused(copied):
    folder = copied("period_months = 36", "period_months = 12")
    with pytest.raises(PlanError, match="8 periods last 5 years, not 9"):
        pitplan.verify(folder)


def test_other_lengths_of_periods_are_found(copied):
    """The quarters are two half-years and two years, and the record says so: limits, money and the bound are wrong."""
    folder = copied("years = 1\nperiod_months = 3\n", "years = 2\nperiod_months = 6\n")
    record = json.loads((folder / "schedule.json").read_text())
    record["years"] = 10
    for row in record["methods"].values():
        row["years"] = Calendar((Period(2, 6), Period(2), Period(3, 36))).span(row["periods"])
    (folder / "schedule.json").write_text(json.dumps(record))
    assert {"schedule limits", "schedule value", "upper bound", "years"} <= wrong(folder)


def test_a_schedule_by_block_by_hand(plan_folder):
    """Each pillar of 200 t, half of it ore, takes the capacities of a year: two half-years of none, then periods of two years."""
    words = entries("years = 1\nperiod_months = 6\nmining_capacity = 0", "period_months = 24\nmining_capacity = 200")
    row, folder = blocks.scheduled(plan_folder, words)
    years = pd.read_csv(folder / "tables/years.csv")
    found = years[years["case"] == "block"].set_index("period")
    assert found["total_tonnes"].tolist() == [0, 0, 400, 200] and row["years"] == 5
    worths = [row["npv"]]
    plain, _ = blocks.scheduled(plan_folder)
    assert worths[0] < plain["npv"] <= row["upper_bound"] * 1.3


def test_the_record_reads_back(plan_folder):
    project = pitplan.load(plan_folder(column(), periods(*MIXED)))
    again = pitplan.Project.from_dict(tomllib.loads(project.to_toml()), project.path.parent)
    assert again.shells.calendar == project.shells.calendar and len(again.shells.calendar.listed) == 7


@pytest.mark.parametrize(
    ("texts", "said"),
    [
        (
            ["period_months = 5"],
            r"\[periods 1\] period_months: found 5, expected 1, 2, 3, 4, 6, 12 or a multiple of 12",
        ),
        (["years = 3\nperiod_months = 24"], r"\[periods 1\] years: found 3, expected a multiple of 2"),
        (["period_months = 0"], r"\[periods 1\] period_months: found 0, expected a whole number from 1 to 12,000"),
        (["years = 90\nperiod_months = 1"], r"\[periods 1\] period_months: found 1,080 periods in all, expected 1,000"),
    ],
)
def test_what_is_wrong_is_named(plan_folder, texts, said):
    with pytest.raises(PlanError, match=said):
        pitplan.load(plan_folder(column(), periods(*texts)))


@pytest.mark.parametrize(
    ("section", "said"),
    [
        ("years = 4", r"\[schedule\] years: found 4, which end within one of the \[\[periods\]\]: expected 3 or 6"),
        (
            "ramp_up = [0.5, 1]",
            r"\[\[periods\]\] 1 period_months is 3, and \[schedule\] ramp_up is by year: give it in",
        ),
    ],
)
def test_what_does_not_go_with_a_schedule_is_named(plan_folder, section, said):
    project = PROJECT + f"[pushbacks]\ncount = 2\n[schedule]\n{section}\n" + entries(*MIXED)
    with pytest.raises(PlanError, match=said):
        pitplan.load(plan_folder(column(), project))


def test_lists_by_year_do_not_go_with_other_periods(plan_folder):
    project = PROJECT.replace("price = 8000\n", "price = 8000\nprices = [8000, 9000]\n") + entries(*MIXED)
    with pytest.raises(
        PlanError, match=r"\[\[periods\]\] 1 period_months is 3, and \[\[metals\]\] copper prices is by year"
    ):
        pitplan.load(plan_folder(pillars(), project))


TABLE = "years,period_months,processing_capacity,prices.copper,capex\n1,6,,,\n2,,80,9000.5,70\n,,120,,\n"


def test_periods_in_a_table_are_those_of_the_file(plan_folder):
    same = periods(
        "years = 1\nperiod_months = 6",
        "years = 2\nprocessing_capacity = 80\nprices = { copper = 9000.5 }\ncapex = 70",
        "processing_capacity = 120",
    )
    inline, _ = solved(plan_folder(column(), same))
    path = plan_folder(column(), 'periods = "calendar.csv"\n' + PROJECT)
    (path.parent / "calendar.csv").write_text(TABLE)
    assert pitplan.load(path).shells.calendar.periods[1].prices == {"copper": Decimal("9000.5")}
    table, _ = solved(path)
    assert table["npv_best"] == inline["npv_best"] and table["years"] == inline["years"]
    record = json.loads((path.parent / "plan" / "plan.json").read_text())
    assert "calendar.csv" in record["inputs"] and wrong(path.parent / "plan") == set()
    path.write_text(path.read_text() + "# edited\n")
    assert not [rule for rule in pitplan.verify(path.parent / "plan") if rule.name == "years" and rule.differences]


@pytest.mark.parametrize(
    ("text", "said"),
    [
        ("years,mining\n1,x\n", r'calendar.csv row 2 column mining: found "x", expected a number'),
        (
            "years,minning_capacity\n1,5\n",
            r"calendar.csv: \[row 2\] minning_capacity: unknown key: did you mean mining_capacity",
        ),
        ("years\n", "calendar.csv: found no rows"),
        ("years,capex\n1\n", "calendar.csv row 2: found another number of fields"),
        ("years\ninf\n", r'found "inf", expected a number'),
    ],
)
def test_what_is_wrong_in_a_table_of_periods_is_named(plan_folder, text, said):
    path = plan_folder(column(), 'periods = "calendar.csv"\n' + PROJECT)
    (path.parent / "calendar.csv").write_text(text)
    with pytest.raises(PlanError, match=said):
        pitplan.load(path)
    (path.parent / "calendar.csv").unlink()
    with pytest.raises(PlanError, match="calendar.csv: cannot be read: No such file"):
        pitplan.load(path)

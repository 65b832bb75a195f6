"""What a contractor charges by pushback: in pushbacks, years and schedules by hand, and not in shells; and the second look at it."""

import numpy as np
import pandas as pd
import pytest
from conftest import PROJECT
from helpers.pushbacks import RICH, UPRIGHT, floor, pillars, square, with_pushbacks
from helpers.writings import PLAIN, REPORTED

import pitplan
from pitplan import PlanError, ResultWarning, verify
from pitplan.pushbacks import nested
from pitplan.results.folder import read_record

# Of three pushbacks of 200 t, which are worth 2600, 1400 and 600, the second costs 300 more and the third 500.
ADDED = "count = 3\nmining_cost_added = [0, 1.5, 2.5]"
AT_ENDS = UPRIGHT.replace("processing_capacity = 100", 'processing_capacity = 100\ndiscounting = "end_of_year"')


def present(*cash):
    return sum(amount / 1.1 ** (year + 1) for year, amount in enumerate(cash))


@pytest.fixture
def pushed(plan_folder):
    """The folder of the three pushbacks."""
    path = plan_folder(pillars(), with_pushbacks(ADDED, AT_ENDS))
    pitplan.write_pushbacks(path, writing=REPORTED)
    return path.parent / "plan" / "pushbacks"


def test_pushbacks_and_years_by_hand(pushed):
    """Of ore there are 100 t a year, and waste takes no time: that of a pushback is dug as the one before ends. Pushback by pushback the waste costs
    200, 350 and 450, and the ore earns 2800, 1450 and 550. Bench by bench it is all waste first, and then a third of the ore a year.
    """
    table = pd.read_csv(pushed / "tables/pushbacks.csv")
    assert table["undiscounted_cash_flow"].tolist() == [2600, 1400, 600] and table["mining_cost_added"].tolist() == [
        0,
        300,
        500,
    ]
    assert (table["value_lost_to_width"] == 0).all()
    years = pd.read_csv(pushed / "tables/years.csv").set_index(["case", "revenue_factor"])
    assert years.loc[("best", 1.0), "cash_flow"].tolist() == pytest.approx([2800 - 200 - 350, 1450 - 450, 550])
    assert years.loc[("worst", 1.0), "cash_flow"].tolist() == pytest.approx([600, 1600, 1600])
    shells = pd.read_csv(pushed / "tables/shells.csv").set_index("revenue_factor")
    assert shells["undiscounted_cash_flow"].tolist() == [2600, 4000, 4600]
    assert shells["npv_best"].tolist() == pytest.approx(
        [present(2600), present(2250, 1450), present(2250, 1000, 550)], abs=1e-3
    )
    assert shells["npv_worst"][1.0] == pytest.approx(present(600, 1600, 1600), abs=1e-3)


def test_shells_and_costs_of_blocks_are_those_without_it(pushed, plan_folder):
    blocks = pd.read_csv(pushed / "tables/blocks.csv")
    path = plan_folder(pillars(), with_pushbacks("count = 3", AT_ENDS))
    pitplan.write_pushbacks(path, writing=PLAIN)
    pd.testing.assert_frame_equal(pd.read_csv(path.parent / "plan" / "pushbacks" / "tables/blocks.csv"), blocks)
    assert "mining_cost_added" not in pd.read_csv(path.parent / "plan" / "pushbacks" / "tables/pushbacks.csv")


def test_it_is_told_and_shown(pushed):
    notes = read_record(pushed)["notes"]
    where = "in the annual cash flow, the NPV and schedules, but not in block values and the cash flow of shells"
    assert f"mining cost added by pushback: 0, 1.5, 2.5 USD per tonne, {where}" in notes
    assert "added mining cost" in (pushed / "report.html").read_text()


@pytest.mark.parametrize("bins", ["", "bins = 2\n"])
def test_a_schedule_pays_it(plan_folder, bins):
    """The third pushback costs 4 more a tonne, 200 more than it is worth: the rule digs it, and the linear programme leaves it."""
    text = with_pushbacks("count = 3\nmining_cost_added = [0, 1.5, 4]", AT_ENDS) + f"[schedule]\nyears = 5\n{bins}"
    path = plan_folder(pillars(), text)
    ways = pitplan.write_schedule(path, writing=PLAIN).set_index("method")
    folder = path.parent / "plan" / "schedule"
    rows = pd.read_csv(folder / "tables/schedule.csv")
    by_pushback = rows.groupby(["method", "pushback"])["cash_flow"].sum()
    assert by_pushback["rule"].tolist() == pytest.approx([2600, 1100, -200])
    assert by_pushback["lp"].tolist() == pytest.approx([2600, 1100])
    assert (
        ways.loc["lp", "unmined_tonnes"] == pytest.approx(200)
        and ways.loc["lp", "npv"] <= ways.loc["lp", "upper_bound"] + 1e-6
    )
    assert ways.loc["lp", "npv"] == pytest.approx(present(2600, 1100), abs=1e-2)
    years = pd.read_csv(folder / "tables/years.csv")
    assert years[years["case"] == "rule"]["cash_flow"].sum() == pytest.approx(3500)


def test_blocks_that_come_in_another_pushback_for_its_width_pay_there(plan_folder):
    """A notch between two pushbacks, with the block above it, goes from the second to the first: 3,000 and 1,600 t, and 2,800 and 1,800 t by
    their shells."""
    grades = dict.fromkeys(square(3, 2, 3), RICH) | dict.fromkeys({(5, 3)} | square(10, 2, 2), 0.6)
    words = "revenue_factors = [0.4, 1.5]\nmin_mining_width = 20\nmining_cost_added = [1, 2]"
    path = plan_folder(floor(grades, columns=15), with_pushbacks(words, PROJECT))
    table = pitplan.write_pushbacks(path, writing=PLAIN)
    assert table["tonnes"].tolist() == [3000, 1600] and table["mining_cost_added"].tolist() == [3000, 3200]
    folder = path.parent / "plan" / "pushbacks"
    cash, shells = (pd.read_csv(folder / name) for name in ("tables/years.csv", "tables/shells.csv"))
    whole = cash.groupby(["case", "revenue_factor"])["cash_flow"].sum()
    assert whole[("best", 1.5)] == pytest.approx(
        shells.set_index("revenue_factor")["undiscounted_cash_flow"][1.5] - 6200
    )


@pytest.mark.parametrize(
    ("words", "said"),
    [
        (
            "count = 5\nmining_cost_added = [0, 1, 2, 3, 4]",
            "has 5 amounts for 3 pushbacks, of the revenue factors 0.351, 0.501, 1.00",
        ),
        (
            "count = 3\nmining_cost_added = [0, 1]",
            "has 2 amounts for 3 pushbacks, of the revenue factors 0.50, 0.70, 1.00",
        ),
        ("count = 3\nmining_cost_added = [0, 1, -1]", r"\[pushbacks\] mining_cost_added: found -1, expected 0 or more"),
        (
            "count = 3\nmining_cost_added = 1",
            r"\[pushbacks\] mining_cost_added: must be a list of the added cost per tonne of each pushback",
        ),
        (
            "count = 3\nmining_cost_added = []",
            r"\[pushbacks\] mining_cost_added: must be a list of the added cost per tonne of each pushback",
        ),
        ('count = 3\nmining_cost_added = [0, "1", 2]', r"\[pushbacks\] mining_cost_added: '1' is not a number"),
    ],
)
def test_what_is_refused(plan_folder, words, said):
    path = plan_folder(pillars(), with_pushbacks(words))
    with pytest.raises(PlanError, match=said):
        pitplan.write_pushbacks(path, writing=PLAIN)
    assert not (path.parent / "plan" / "pushbacks" / "tables/pushbacks.csv").exists()


def test_blocks_one_by_one_have_no_pushbacks(plan_folder):
    path = plan_folder(pillars(), with_pushbacks(ADDED))
    with pytest.warns(
        ResultWarning, match=r"the NPV of this schedule by block leaves out the cost of \[pushbacks\] mining_cost_added"
    ):
        pitplan.write_block_schedule(path, writing=PLAIN)


def wrong(folder):
    return {rule.name for rule in verify(folder) if rule.differences}


def test_the_second_look_agrees(pushed):
    assert wrong(pushed) == set()


@pytest.mark.parametrize(
    ("name", "column", "rule"),
    [
        ("tables/pushbacks.csv", "mining_cost_added", "pushbacks"),
        ("tables/years.csv", "cash_flow", "years"),
        ("tables/shells.csv", "npv_best", "years"),
        ("tables/shells.csv", "npv_worst", "years"),
    ],
)
def test_numbers_that_are_bent_are_found(pushed, name, column, rule):
    table = pd.read_csv(pushed / name, dtype={"value_at_revenue_factor": str})
    table.loc[1, column] += 0.05
    table.to_csv(pushed / name, index=False)
    assert wrong(pushed) == {rule}


def test_costs_that_are_not_paid_are_found(plan_folder, monkeypatch):
    """Nothing is taken in any file, or in the schedule alone."""
    text = with_pushbacks(ADDED, AT_ENDS) + "[schedule]\nyears = 5\n"
    path = plan_folder(pillars(), text)
    monkeypatch.setattr(nested, "cost_added", lambda plan, pushback: np.zeros(plan.grid.count))
    with pytest.raises(PlanError) as error:
        pitplan.write_schedule(path, writing=PLAIN)
    assert all(f"{name}: " in str(error.value) for name in ("pushbacks", "years"))
    with pytest.raises(PlanError, match="pushbacks: pushback 2: mining_cost_added 0 for 300"):
        pitplan.write_pushbacks(path, writing=PLAIN)

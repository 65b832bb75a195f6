"""The cash flow by line, against one worked out by hand, a second implementation, and its workbook recalculated by LibreOffice."""

import json
import re
import shutil
from dataclasses import replace
from decimal import Decimal
from types import SimpleNamespace

import numpy as np
import pandas as pd
import pytest
from helpers import office, worked_cash_flow
from helpers.writings import UNVERIFIED, WITH_WORKBOOK

import pitplan
from pitplan import PlanError, load, verify
from pitplan.scheduling.cash_flow.tables import RATES, Finance, by_production, straight_line
from planaudit.inputs import answer as answers
from planaudit.schedules import cash_flow, material_flow

# The optimal schedule, worked out by hand. Year 1 mines 200 t at 2 USD, of which half is ore; the lower bench costs 0.5 more;
# from the exit at the first pillar's top the road is 100 m to the upper and 200 m to the lower bench, plus 10 m for each pillar.
# Feed hauls 500 m more: 0.5 USD per tonne. 125 t are stacked at 0.2 USD.
YEARS = {
    "total_tonnes": [200, 200, 200],
    "waste_tonnes": [100, 100, 100],
    "strip_ratio": [1, 1, 1],
    "feed_tonnes": [0, 250, 125],
    # Year 2: 1.6 t of the sulphide, of which reclaim keeps 95 %, and half of 1.5 t; 400 g, half of which is recovered.
    "contained_copper": [0, 3.5, 0.4],
    "contained_gold": [0, 400, 50],
    "head_grade_copper": [np.nan, 1.4, 0.32],
    "head_grade_gold": [np.nan, 1.6, 0.4],
    "recovered_copper": [0, 1.52 + 0.75, 0.32],
    "recovered_gold": [0, 200, 25],
    "price_copper": [8000, 8500, 9000],
    "price_gold": [60, 60, 60],
    "revenue_copper": [0, 19295, 2880],
    "revenue_gold": [0, 12000, 1500],
    # 3 % of the revenue and 0.5 USD per tonne of feed.
    "royalty": [0, 0.03 * 31295 + 125, 0.03 * 4380 + 62.5],
    "selling_cost_copper": [0, 1135, 160],
    "selling_cost_gold": [0, 400, 50],
    "mining_cost_ore": [200, 200, 200],
    "mining_cost_waste": [200, 200, 200],
    "mining_cost_depth": [50, 50, 50],
    "haulage_cost": [30, 32 + 125, 34 + 62.5],
    "processing_cost_mill": [0, 1250, 1250],
    "processing_cost_leach": [0, 500, 0],
    "stacking_cost": [25, 0, 0],
    "reclaim_cost": [0, 100, 0],
    "fixed_cost": [100, 100, 100],
    "operating_cash_flow": [-605, 26139.15, 2079.6],
    "capex": [5000, 0, 600],
    "cash_flow": [-5605, 26139.15, 1479.6],
    "closure_cost": [0, 0, 1000],
    # 5,000 over two years; 600 of the last year, half of it after the end.
    "depreciation": [2500, 2500, 600],
    # A loss of 605 + 2,500 is carried into year 2.
    "taxable_income": [0, 26139.15 - 2500 - 3105, 2079.6 - 600 - 1000],
    "tax": [0, 5133.5375, 119.9],
    "free_cash_flow": [-5605, 21005.6125, 359.7],
    "cost_per_tonne_mined": [480 / 200, 607 / 200, 546.5 / 200],
    "cost_per_tonne_fed": [np.nan, 2557 / 250, 1896.5 / 125],
    "c1_cost": [np.nan, (2557 + 1535 - 12000) / 2.27, (1896.5 + 210 - 1500) / 0.32],
}


def written_to(place, text=worked_cash_flow.TEXT + worked_cash_flow.MONEY, writing=UNVERIFIED):
    worked_cash_flow.table().to_csv(place / "blocks.csv", index=False)
    (place / "project.toml").write_text(text)
    pitplan.write_schedule(place / "project.toml", writing=writing)
    return place / "plan" / "schedule"


@pytest.fixture(scope="module")
def worked(tmp_path_factory):
    """The folder of the worked example, with its workbook."""
    return written_to(tmp_path_factory.mktemp("worked"), writing=pitplan.Writing(figures=False))


def lines_of(folder, method="milp"):
    found = pd.read_csv(folder / "tables/cash_flow.csv").query(f"method == '{method}'")
    return found.set_index("year").drop(columns=["method", "discounting"])


def values_of(folder, method="milp"):
    return pd.read_csv(folder / "tables/valuation.csv").query(f"method == '{method}'").set_index("discount_rate")


def test_each_line_is_as_worked_out_by_hand(worked):
    found = lines_of(worked)
    for name, expected in YEARS.items():
        assert found[name].tolist() == pytest.approx(expected, abs=0.001, nan_ok=True), name
    assert set(found) == {*YEARS, "discounted_cash_flow", "discounted_free_cash_flow"}
    assert wrong(worked) == set()


def wrong(folder):
    return {rule.name for rule in verify(folder) if rule.differences}


def root(flows):
    """The rate at which amounts at the ends of years 0, 1, .. are worth nothing, by bisection."""
    low, high = Decimal(0), Decimal(100)
    for _ in range(120):
        middle = (low + high) / 2
        value = sum(flow / (1 + middle) ** year for year, flow in enumerate(flows))
        low, high = (middle, high) if value > 0 else (low, middle)
    return float(low)


def test_npv_irr_and_payback_are_as_worked_out_by_hand(worked):
    """Capex of a year is spent at its start, which is the end of the year before."""
    before = [Decimal(text) for text in ("-5000", "-605", "25539.15", "2079.6")]
    after = [Decimal(text) for text in ("-5000", "-605", "20405.6125", "959.7")]
    found = values_of(worked)
    for rate in ("0.05", "0.08", "0.1"):
        for column, flows in (("npv", before), ("npv_after_tax", after)):
            due = sum(flow / (1 + Decimal(rate)) ** year for year, flow in enumerate(flows))
            assert found.loc[float(rate), column] == pytest.approx(float(due), abs=0.001)
    # 5,605 are back when that share of the cash of year 2 has come in.
    expected = {"irr": root(before), "irr_after_tax": root(after)}
    expected |= {"payback": 1 + 5605 / 26139.15, "payback_after_tax": 1 + 5605 / 21005.6125}
    for column, due in expected.items():
        assert found[column].tolist() == pytest.approx([due] * 3, abs=1e-6), column
    methods = pd.read_csv(worked / "tables/methods.csv").set_index("method")
    assert found.loc[0.1, "npv"] == methods.loc["milp", "npv"]


def test_depreciation_by_units_of_production(tmp_path):
    """Of 5,000 two thirds with 250 of 375 t of feed; the rest and 600 with the last 125 t."""
    text = worked_cash_flow.TEXT + worked_cash_flow.MONEY.replace("{ years = 2 }", '"units_of_production"')
    folder = written_to(tmp_path, text)
    assert lines_of(folder)["depreciation"].tolist() == pytest.approx([0, 10000 / 3, 5000 / 3 + 600], abs=0.001)
    assert wrong(folder) == set()


def test_depreciation_over_unequal_periods():
    """8 over two years from the start of each period: of half a year, a year and a half, and a year."""
    starts, ends = np.array([0, 0.5, 2]), np.array([0.5, 2, 3])
    assert straight_line(np.array([8.0, 0, 0]), starts, ends, 2.0).tolist() == [2, 6, 0]
    assert straight_line(np.array([0, 8.0, 0]), starts, ends, 2.0).tolist() == [0, 6, 2]
    assert straight_line(np.array([0, 0, 8.0]), starts, ends, 2.0).tolist() == [0, 0, 8]
    assert by_production(np.array([0, 8.0, 0]), np.array([5.0, 0, 0])).tolist() == [0, 0, 8]


@pytest.mark.parametrize("off", [-1e-14, 0.0, 1e-14])
@pytest.mark.parametrize("discounting", ["end_of_year", "continuous"])
def test_returns_at_the_rates_of_the_search_are_found(worked, discounting, off):
    """Two periods, and capex that their cash pays back at a rate, where the NPV is 0 within rounding, above or below it."""
    project = load(worked.parent.parent / "project.toml")
    project = replace(project, shells=replace(project.shells, discounting=discounting))
    cash = np.array([300.0, 700.0])
    for rate in (*RATES[1:], 0.0, 0.123456, 10.5):
        statement = SimpleNamespace(starts=np.array([0.0, 1.0]), ends=np.array([1.0, 2.0]), capex=np.zeros(2))
        found = Finance(project, statement)
        statement.capex[0] = found.npv(cash, rate)
        of_cash, of_capex = found.factors(RATES[:, None])
        found.__dict__["factors_of_rates"] = of_cash * (1 + off), of_capex
        due = rate if 0 < rate <= RATES[-1] else np.nan
        if off == 0 or rate in RATES[1:-1]:
            assert found.irr(cash) == pytest.approx(due, abs=1e-9, nan_ok=True), rate


def test_without_a_section_there_is_neither_closure_nor_tax(tmp_path):
    folder = written_to(tmp_path, worked_cash_flow.TEXT)
    found = lines_of(folder)
    assert not {"closure_cost", "depreciation", "taxable_income", "tax"} & set(found)
    assert found["free_cash_flow"].tolist() == found["cash_flow"].tolist()
    values = values_of(folder)
    assert (
        values.index.tolist() == [0.1] and (values["npv"] == values["npv_after_tax"]).all() and wrong(folder) == set()
    )


@pytest.mark.parametrize("discounting", ["mid_year", "continuous"])
def test_the_convention_of_discounting_applies(tmp_path, discounting):
    text = worked_cash_flow.TEXT.replace("discount_rate = 0.1", f'discount_rate = 0.1\ndiscounting = "{discounting}"')
    folder = written_to(tmp_path, text + worked_cash_flow.MONEY)
    methods = pd.read_csv(folder / "tables/methods.csv").set_index("method")["npv"]
    for method in methods.index:
        assert values_of(folder, method).loc[0.1, "npv"] == pytest.approx(methods[method], abs=0.002)
    assert wrong(folder) == set()


@pytest.mark.parametrize("decimals", [0, 2])
def test_the_rounding_of_block_values_is_a_line(tmp_path, decimals):
    """At most half of the last decimal of mining cost, revenue and processing cost of each block."""
    text = worked_cash_flow.TEXT.replace("[economics]\n", f"[economics]\ndecimals = {decimals}\n")
    folder = written_to(tmp_path, text.replace("price = 60", "price = 61.7731"))
    found = lines_of(folder)
    assert 0 < found["rounding"].abs().max() <= 10.0**-decimals * 0.5 * (2 + 2 * 2)
    years = pd.read_csv(folder / "tables/years.csv").query("case == 'milp'")
    assert found["cash_flow"].tolist() == years["cash_flow"].tolist() and wrong(folder) == set()


def test_a_mine_that_never_owes_anything_has_no_rate_of_return(tmp_path):
    """Without capex and with the mill open from year 1 each year earns."""
    text = worked_cash_flow.TEXT.replace("capex = [[1, 5000], [3, 600]]\n", "").replace("mill = 0", "mill = 125")
    folder = written_to(tmp_path, text)
    found = values_of(folder)
    assert found["irr"].isna().all() and (found["payback"] == 0).all() and "capex" in lines_of(folder)
    assert wrong(folder) == set()


def test_a_mine_that_never_pays_back_has_neither(tmp_path):
    """One that must mine, and one that stays closed."""
    text = worked_cash_flow.TEXT.replace("[1, 5000]", "[1, 90000]")
    folder = written_to(tmp_path, text.replace("bench_lag = 1\n", "bench_lag = 1\nminimum = { total = 100 }\n"))
    found = values_of(folder)
    assert found[["irr", "payback"]].isna().all(axis=None) and wrong(folder) == set()
    found = values_of(written_to(tmp_path, text))
    assert found["npv"].tolist() == [0] and found["irr"].isna().all() and wrong(folder) == set()


@pytest.mark.parametrize(
    ("keys", "said"),
    [
        ("tax_rate = 25", "tax_rate: found 25, expected 0 to below 1, such as 0.25 for 25 %"),
        ("discount_rates = [8]", "discount_rates: found 8, expected 0 to 1, such as 0.08 for 8 %"),
        ("discount_rates = [0.1, 0.1]", "discount_rates: found a rate twice, expected each once"),
        ("discount_rates = 0.1", r"discount_rates: must be a list of rates per year, such as \[0.05, 0.08, 0.10\]"),
        ('depreciation = "linear"', 'depreciation: expected "units_of_production" or straight line over years'),
        ("depreciation = { years = 0 }", "years: found 0, expected above 0"),
        ("depreciation = { year = 5 }", "years: is missing"),
        ("closure_cost = -1", "closure_cost: found -1, expected 0 or more"),
        ("closure = 1", "closure: unknown key: did you mean closure_cost?"),
    ],
)
def test_keys_that_are_wrong_are_named(tmp_path, keys, said):
    path = tmp_path / "project.toml"
    path.write_text(f"{worked_cash_flow.TEXT}[cash_flow]\n{keys}\n")
    with pytest.raises(PlanError, match=said):
        load(path)


@pytest.fixture(scope="module")
def flow(worked):
    """The flows of the schedule as planaudit reads them. A test changes tables of a copy, so that only the rule reads them again."""
    return material_flow.read(answers.read(worked))[0]


def differences_of(flow, folder):
    """The differences that the rule of the cash flow finds in the tables of a folder."""
    methods = list(json.loads((folder / "schedule.json").read_text())["methods"])
    return cash_flow.verify(replace(flow, answer=replace(flow.answer, folder=folder)), methods).differences


def test_the_rule_holds_and_the_folder_runs_it(worked, flow, tmp_path):
    assert not differences_of(flow, worked)
    folder = shutil.copytree(worked.parent.parent, tmp_path / "mine") / "plan" / "schedule"
    path = folder / "tables/cash_flow.csv"
    pd.read_csv(path).assign(tax=0.0).to_csv(path, index=False)
    assert wrong(folder) == {"cash flow"}


@pytest.mark.parametrize("name", [*YEARS, "discounted_cash_flow", "discounted_free_cash_flow"])
def test_a_changed_line_is_found(worked, flow, tmp_path, name):
    folder = shutil.copytree(worked, tmp_path / "schedule")
    path = folder / "tables/cash_flow.csv"
    found = pd.read_csv(path)
    row = found.index[(found["method"] == "milp") & (found["year"] == 2)]
    found[name] = found[name].astype(float)
    # 2.27 t of copper with three decimals tell the C1 cost to a dollar.
    found.loc[row, name] += 5 if name == "c1_cost" else 0.05
    found.to_csv(path, index=False)
    assert differences_of(flow, folder)


@pytest.mark.parametrize("name", ["discount_rate", "npv", "npv_after_tax", "irr", "irr_after_tax", "payback"])
def test_a_changed_value_is_found(worked, flow, tmp_path, name):
    folder = shutil.copytree(worked, tmp_path / "schedule")
    path = folder / "tables/valuation.csv"
    found = pd.read_csv(path)
    found.loc[1, name] += 0.01
    found.to_csv(path, index=False)
    assert differences_of(flow, folder)


@pytest.fixture(scope="module")
def recalculated(worked, tmp_path_factory):
    """The cells of the sheet after LibreOffice has recalculated the workbook, by row."""
    return office.recalculated(worked / "tables/schedule.xlsx", tmp_path_factory.mktemp("office"))["cash_flow"]


def sheet_lines(sheet):
    """The rows with their labels: unit, total and periods."""
    return [(row[0], row[1], row[2], row[3:]) for row in sheet.iter_rows(values_only=True)]


def test_the_recalculated_sheet_has_the_numbers_of_the_tables(worked, recalculated):
    table, by_label = lines_of(worked), {line[0]: line[1:] for line in sheet_lines(recalculated)}
    # Both programmes find the best schedule, and the first of them is shown.
    assert recalculated["A1"].value == "Three pillars: cash flow of the schedule, linear programme"
    labels = {
        "total material": "total_tonnes",
        "strip ratio": "strip_ratio",
        "head grade copper": "head_grade_copper",
        "head grade gold": "head_grade_gold",
        "revenue copper": "revenue_copper",
        "royalty": "royalty",
        "operating cash flow": "operating_cash_flow",
        "cash flow": "cash_flow",
        "taxable income": "taxable_income",
        "tax": "tax",
        "free cash flow": "free_cash_flow",
        "mining cost per tonne mined": "cost_per_tonne_mined",
        "site cost per tonne of feed": "cost_per_tonne_fed",
        "C1 cost": "c1_cost",
    }
    for label, name in labels.items():
        unit, _, periods = by_label[label]
        numbers = [np.nan if it in (None, "") else float(it) for it in periods]
        assert numbers == pytest.approx(table[name].tolist(), abs=0.001, nan_ok=True) and unit, label
    assert by_label["C1 cost"][0] == "USD/t" and by_label["head grade gold"][0] == "g/t"
    assert by_label["payback"][1] == pytest.approx(values_of(worked)["payback_after_tax"].iloc[0], abs=1e-6)
    # Of the whole life: 2.59 t of copper, by all costs less the revenue of gold.
    assert by_label["C1 cost"][1] == pytest.approx((605 + 2557 + 1535 + 1896.5 + 210 - 13500) / 2.59, abs=0.001)
    assert by_label["strip ratio"][1] == 1 and by_label["revenue gold"][1] == 13500


def test_npvs_follow_from_the_sheet_alone(worked, recalculated):
    lines, values = sheet_lines(recalculated), values_of(worked)
    totals = [line[2] for line in lines if line[0] == "discounted cash flow; total: NPV"]
    after = [line[2] for line in lines if line[0] == "discounted free cash flow; total: NPV after tax"]
    assert totals[:3] == pytest.approx(values["npv"].tolist(), abs=0.001)
    assert after[:3] == pytest.approx(values["npv_after_tax"].tolist(), abs=0.001)
    # At the internal rates of return nothing is left.
    assert totals[3:] == pytest.approx([0], abs=0.001) and after[3:] == pytest.approx([0], abs=0.001)
    assert [line[2] for line in lines if line[0] == "rate"][:3] == [0.05, 0.08, 0.1]


def test_every_number_of_the_sheet_is_a_number_with_a_unit(recalculated):
    assert sheet_lines(recalculated)[2][:3] == ("end of period", "years", "life of mine")
    for label, unit, total, periods in sheet_lines(recalculated)[3:]:
        for value in (total, *periods):
            assert value in (None, "") or (isinstance(value, (int, float)) and unit), label


@pytest.mark.slow
@pytest.mark.parametrize("discounting", ["end_of_year", "mid_year", "continuous"])
def test_npvs_follow_from_the_sheet_with_periods_of_other_lengths(tmp_path, discounting):
    """Half-years, then a period of two years: NPVs at three rates, and those at the internal rates of return."""
    text = re.sub(r"(?m)^(prices|capex) = .*\n", "", worked_cash_flow.TEXT + worked_cash_flow.MONEY)
    for old, new in (
        ("[shells]\n", f'[shells]\ndiscounting = "{discounting}"\n'),
        ("capacity = { mill = 0 }", "capacity = { mill = 0 }\nyears = 1\nperiod_months = 6\ncapex = 900"),
        ("capacity = { mill = 125 }", "capacity = { mill = 125 }\nperiod_months = 24"),
    ):
        assert text.count(old) == 1
        text = text.replace(old, new)
    folder = written_to(tmp_path, text, writing=WITH_WORKBOOK)
    assert wrong(folder) == set()
    sheet = office.recalculated(folder / "tables/schedule.xlsx", tmp_path)["cash_flow"]
    method = json.loads((folder / "schedule.json").read_text())["shown"]
    lines, values = sheet_lines(sheet), values_of(folder, method)
    totals = [line[2] for line in lines if line[0] == "discounted cash flow; total: NPV"]
    assert totals[: len(values)] == pytest.approx(values["npv"].tolist(), abs=0.001)
    assert all(abs(total) < 0.001 for total in totals[len(values) :])
    assert list(next(line[3] for line in lines if line[0] == "end of period"))[:3] == [0.5, 1, 3]

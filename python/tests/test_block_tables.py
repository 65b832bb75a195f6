"""Cash flow by line, inventory, reserves and grade-tonnage curves of a schedule by block."""

import shutil

import numpy as np
import pandas as pd
import pytest
from conftest import PROJECT, rows
from helpers import block_commands, office, worked_cash_flow
from helpers.block_commands import rewrite, wrong
from helpers.pushbacks import pillars
from helpers.verified import differing
from helpers.writings import PLAIN

import pitplan

# The mine of the worked cash flow without its stockpile: a pillar a year. The mill is closed in year 1, so the leach takes the oxide of the second
# pillar; the rich sulphide of the first follows at 8,500 USD, the poor one of the third at 9,000. Each pillar costs 200 + 200 + 50 USD to mine,
# the road 30, 32 or 34, and 0.5 a tonne of feed more.
TEXT = worked_cash_flow.TEXT[: worked_cash_flow.TEXT.index("[[schedule.stockpiles]]")] + worked_cash_flow.MONEY
YEARS = {
    "total_tonnes": [200, 200, 200],
    "waste_tonnes": [100, 100, 100],
    "strip_ratio": [1, 1, 1],
    "feed_tonnes": [125, 125, 125],
    "contained_copper": [1.5, 2, 0.4],
    "contained_gold": [0, 400, 50],
    "head_grade_copper": [1.2, 1.6, 0.32],
    "head_grade_gold": [0, 3.2, 0.4],
    "recovered_copper": [0.75, 1.6, 0.32],
    "recovered_gold": [0, 200, 25],
    "price_copper": [8000, 8500, 9000],
    "price_gold": [60, 60, 60],
    "revenue_copper": [6000, 13600, 2880],
    "revenue_gold": [0, 12000, 1500],
    "royalty": [180 + 62.5, 768 + 62.5, 131.4 + 62.5],
    "selling_cost_copper": [375, 800, 160],
    "selling_cost_gold": [0, 400, 50],
    "mining_cost_ore": [200, 200, 200],
    "mining_cost_waste": [200, 200, 200],
    "mining_cost_depth": [50, 50, 50],
    "haulage_cost": [32 + 62.5, 30 + 62.5, 34 + 62.5],
    "processing_cost_mill": [0, 1250, 1250],
    "processing_cost_leach": [500, 0, 0],
    "fixed_cost": [100, 100, 100],
    "operating_cash_flow": [4238, 21677, 2079.6],
    "capex": [5000, 0, 600],
    "cash_flow": [-762, 21677, 1479.6],
    "closure_cost": [0, 0, 1000],
    # 5,000 over two years; 600 of the last year, half of it after the end.
    "depreciation": [2500, 2500, 600],
    "taxable_income": [1738, 19177, 479.6],
    "tax": [434.5, 4794.25, 119.9],
    "free_cash_flow": [-1196.5, 16882.75, 359.7],
    "cost_per_tonne_mined": [544.5 / 200, 542.5 / 200, 546.5 / 200],
    "cost_per_tonne_fed": [1144.5 / 125, 1892.5 / 125, 1896.5 / 125],
    "c1_cost": [(1144.5 + 375) / 0.75, (1892.5 + 1200 - 12000) / 1.6, (1896.5 + 210 - 1500) / 0.32],
}


def written_to(place, table, text, writing=PLAIN):
    table.to_csv(place / "blocks.csv", index=False)
    (place / "project.toml").write_text(text)
    pitplan.write_block_schedule(place / "project.toml", writing=writing)
    return place / "plan" / "block_schedule"


@pytest.fixture(scope="module")
def worked(tmp_path_factory):
    """The folder of the three pillars."""
    return written_to(tmp_path_factory.mktemp("worked"), worked_cash_flow.table(), TEXT)


def table(folder, name):
    return pd.read_csv(folder / f"tables/{name}.csv", keep_default_na=False, na_values={"head_grade_copper": ""})


def test_each_line_is_as_worked_out_by_hand(worked):
    found = pd.read_csv(worked / "tables/cash_flow.csv").set_index("year").drop(columns="discounting")
    assert found.pop("method").unique().tolist() == ["block"] and found.index.tolist() == [1, 2, 3]
    for name, expected in YEARS.items():
        assert found[name].tolist() == pytest.approx(expected, abs=0.001), name
    assert set(found) == {*YEARS, "discounted_cash_flow", "discounted_free_cash_flow"}


def test_factors_of_a_period_multiply_costs_of_blocks(tmp_path):
    """In year 2 processing costs twice and selling half as much again: 2 * 1,250 in the mill, 1.5 * 800 for copper and 1.5 * 400 for gold. The verification
    recomputes these lines."""
    of_mill = "[[periods]]\ncapacity = { mill = 125 }\n"
    text = TEXT.replace(of_mill, f"{of_mill}processing_cost_factor = 2\nselling_cost_factor = 1.5\n{of_mill}")
    assert text.count(of_mill) == 2
    found = pd.read_csv(written_to(tmp_path, worked_cash_flow.table(), text) / "tables/cash_flow.csv").set_index("year")
    changed = {"processing_cost_mill": 2500, "selling_cost_copper": 1200, "selling_cost_gold": 600}
    changed["operating_cash_flow"] = 21677 - 1250 - 400 - 200
    for name in (*changed, "revenue_copper", "mining_cost_ore", "processing_cost_leach"):
        expected = [YEARS[name][0], changed.get(name, YEARS[name][1]), YEARS[name][2]]
        assert found[name].tolist() == pytest.approx(expected, abs=0.001), name


def test_npv_and_payback_are_as_worked_out_by_hand(worked):
    """Capex of a year is spent at its start. In year 2 the mine is 762 short, or 1,196.5 after tax, and has it back within the year."""
    values = pd.read_csv(worked / "tables/valuation.csv").set_index("discount_rate")
    for rate in (0.05, 0.08, 0.1):
        due = -5000 + 4238 / (1 + rate) + 21077 / (1 + rate) ** 2 + 2079.6 / (1 + rate) ** 3
        assert values.loc[rate, "npv"] == pytest.approx(due, abs=0.001)
    assert values["payback"].tolist() == pytest.approx([1 + 762 / 21677] * 3, abs=1e-6)
    assert values["payback_after_tax"].tolist() == pytest.approx([1 + 1196.5 / 16882.75] * 3, abs=1e-6)
    assert values.loc[0.1, "npv"] == pd.read_csv(worked / "tables/methods.csv")["npv"].item()


def test_the_rows_of_three_pillars_are_as_worked_out_by_hand(worked):
    found = table(worked, "inventory")
    assert "pushback" not in found
    found = found.query("category != 'waste'").drop(columns=["method", "head_grade_gold"])
    assert [tuple(row) for row in found.to_numpy().tolist()] == [
        # Year, bench, rock, source, destination, category; in situ t, %, g/t, t, g; feed t, %; in it t, g; recovered t, g.
        (1, 0, "OX", "pit", "leach", "ore", 100, 1.5, 0, 1.5, 0, 125, 1.2, 1.5, 0, 0.75, 0),
        (2, 0, "SUL", "pit", "mill", "ore", 100, 2, 4, 2, 400, 125, 1.6, 2, 400, 1.6, 200),
        (3, 0, "SUL", "pit", "mill", "ore", 100, 0.4, 0.5, 0.4, 50, 125, 0.32, 0.4, 50, 0.32, 25),
    ]
    waste = table(worked, "inventory").query("category == 'waste'")
    assert waste["total_tonnes"].tolist() == [100] * 3 and waste["bench"].tolist() == [10] * 3


GRADES = {(3, 4, 1): 6, (7, 4, 1): 2, (5, 2, 2): 0.9, (3, 3, 2): 1.5, (8, 4, 2): 1.8, (6, 4, 1): 0.7, (4, 4, 1): 3}
CLASSES = {(3, 4): "measured", (7, 4): "inferred", (3, 3): "inferred", (8, 4): "", (6, 4): "measured"}
# A hill of two rocks and four classes, of which inferred material counts as ore by a rule, with dilution and ore loss. The mill has no room for two
# blocks in a year, and takes a part of a poor one next to the richest.
HILL = {
    "cu": lambda i, j, k: GRADES.get((i, j, k), 0),
    "rock": lambda i, j, k: "RS"[i % 2],
    "cls": lambda i, j, k: CLASSES.get((i, j), "indicated"),
    "tonnes": lambda i, j, k: 97.3 + i,
}
CHANGES = (
    ('[table]\nfile = "blocks.csv"\n', '[table]\nfile = "blocks.csv"\nclass = "cls"\n'),
    ("[economics]\n", '[classes]\ninferred = "ore"\n[economics]\nmining_recovery = 0.95\ndilution = 0.08\n'),
    ("processing_capacity = 100", "processing_capacity = 170\nmining_capacity = 2500"),
)


@pytest.fixture(scope="module")
def hill(tmp_path_factory):
    """The folder of the hill's schedule, with its workbook."""
    text = PROJECT + "[schedule]\nmilp = { gap = 0, seconds = 60 }\n"
    for old, new in CHANGES:
        assert text.count(old) == 1, old
        text = text.replace(old, new)
    return written_to(tmp_path_factory.mktemp("hill"), rows(11, 9, 4, **HILL), text, pitplan.Writing(figures=False))


def test_the_inventory_has_the_tonnes_and_metal_of_the_blocks(hill):
    """By year, class and destination, from blocks.csv alone, to the kilogram: 95 % of the ore is fed, with 8 % of dilution."""
    blocks, found = table(hill, "blocks"), table(hill, "inventory")
    mined = blocks[blocks["year"] > 0]
    assert ((mined["share_mill"] > 0.01) & (mined["share_mill"] < 0.99)).any()
    for destination, share in (("mill", mined["share_mill"]), ("waste", 1 - mined["share_mill"])):
        tonnes = mined["tonnes"] * share
        due = pd.DataFrame({"total_tonnes": tonnes, "in_situ_copper": tonnes * mined["cu"] / 100})
        fed = float(destination == "mill")
        due["feed_tonnes"] = tonnes * 0.95 * 1.08 * fed
        due["contained_copper"] = due["in_situ_copper"] * 0.95 * fed
        due["recovered_copper"] = due["contained_copper"] * 0.5
        due = due.groupby([mined["year"], mined["cls"]]).sum()
        sums = found[found["destination"] == destination].groupby(["year", "cls"])[list(due)].sum()
        due = due[due["total_tonnes"] > 1e-6]
        assert sums.index.tolist() == due.index.tolist() and len(due) >= 3
        assert np.abs(sums - due).to_numpy().max() <= 0.001 * len(found)
    years = table(hill, "years").query("case == 'block'").set_index("year")
    milled = found.groupby("year")[["total_tonnes", "feed_tonnes", "recovered_copper"]].sum()
    for name in milled:
        assert milled[name].tolist() == pytest.approx(years[name].tolist(), abs=0.001 * len(found)), name


def test_inferred_material_is_never_ore(hill):
    found = table(hill, "inventory")
    milled = found[found["destination"] == "mill"]
    assert set(milled["cls"]) == {"measured", "indicated", "inferred"}
    assert set(milled.loc[milled["category"] == "ore", "cls"]) == {"measured", "indicated"}
    assert (milled.loc[milled["cls"] == "inferred", "category"] == "not_reserve").all()


def test_the_curves_are_those_of_the_model_and_of_what_is_mined(hill):
    blocks, found = table(hill, "blocks"), table(hill, "grade_tonnage")
    parts = {"model": blocks["year"] >= 0, "pit": blocks["year"] > 0}
    assert set(found["part"]) == set(parts) and not parts["pit"].all()
    for row in found.itertuples():
        some = blocks[parts[row.part] & (blocks["cls"] == row[2]) & (blocks["cu"] >= row.cutoff_grade)]
        assert row.tonnes == pytest.approx(some["tonnes"].sum(), abs=0.001)


@pytest.mark.slow
def test_the_workbook_recalculates_reserves_and_npv(hill, tmp_path):
    """Ore by class is the sum of the inventory, and the NPV that of methods.csv."""
    book = office.recalculated(hill / "tables/schedule.xlsx", tmp_path)
    assert book.sheetnames == ["cash_flow", "reserves", "feed", "inventory", "methods", "years", "shells"]
    cells = [list(row) for row in book["reserves"].iter_rows(values_only=True)]
    assert cells[0][0] == "Test hill: mill feed of the schedule, by block" and cells[2][0] == "Ore"
    assert cells[3][:5] == [None, "class", "in situ (t)", "mill feed (t)", "head grade copper (%)"]
    due = table(hill, "inventory").query("category == 'ore'")
    classes = due.groupby("cls")[["total_tonnes", "feed_tonnes", "contained_copper"]].sum()
    for row, name in zip(cells[4:6], ("measured", "indicated")):
        tonnes, feed, copper = classes.loc[name]
        assert row[:2] == [None, name]
        assert row[2:6] == pytest.approx([tonnes, feed, 100 * copper / feed, copper], abs=1e-6)
    assert cells[6][:2] == ["all", "ore"] and cells[6][2] == pytest.approx(due["total_tonnes"].sum(), abs=1e-6)
    lines = {row[0]: row[2] for row in book["cash_flow"].iter_rows(values_only=True) if row[0]}
    npv = pd.read_csv(hill / "tables/methods.csv")["npv"].item()
    assert lines["discounted cash flow; total: NPV"] == pytest.approx(npv, abs=0.01)


def test_a_mine_that_mines_nothing_has_empty_tables(tmp_path):
    folder = written_to(tmp_path, worked_cash_flow.table(), TEXT.replace("[1, 5000]", "[1, 90000]"))
    assert len(pd.read_csv(folder / "tables/inventory.csv")) == len(pd.read_csv(folder / "tables/cash_flow.csv")) == 0
    assert pd.read_csv(folder / "tables/valuation.csv")["npv"].tolist() == [0] * 3 and wrong(folder) == set()


SMELTER = """[metals.smelter]
processes = "all"
concentrate_grade = 25
payable = 0.965
minimum_deduction = 1
treatment_charge = 80
refining_charge = 0.1
freight = 50
"""


HALF_YEARS = """[[periods]]
period_months = 6
capacity = { leach = 600, mill = 200 }
mining_capacity = 400
"""


@pytest.mark.parametrize(
    ("old", "new", "column"),
    [
        ("[shells]\n", f"{HALF_YEARS}[shells]\n", "period"),
        ("[economics]\n", "[economics]\ndecimals = 0\n", "rounding"),
        ("[slopes]\n", f"{SMELTER}[slopes]\n", "payable_copper"),
        ("[shells]\n", "[[periods]]\n[[periods]]\nmining_cost_factor = 1.5\n[shells]\n", "mining_cost_waste"),
    ],
)
def test_other_keys_are_verified(tmp_path, old, new, column):
    """Half-years, rounded block values, smelter terms, and dearer mining from year 2 on."""
    text = block_commands.with_processes()
    assert text.count(old) == 1
    folder = written_to(tmp_path, pillars(), text.replace(old, new))
    found, years = (pd.read_csv(folder / f"tables/{name}.csv") for name in ("cash_flow", "years"))
    assert column in found and len(found) >= 2
    due = years.query("case == 'block'")["cash_flow"]
    assert found["operating_cash_flow"].tolist() == pytest.approx(due.tolist(), abs=0.003)


def copied(folder, place):
    return shutil.copytree(folder.parent.parent, place / "mine") / "plan" / "block_schedule"


@pytest.mark.parametrize(
    ("name", "by"),
    [
        ("total_tonnes", 0.01),
        ("grade_copper", 0.01),
        ("in_situ_copper", 0.01),
        ("feed_tonnes", 0.01),
        ("head_grade_copper", 0.01),
        ("contained_copper", 0.01),
        ("recovered_copper", 0.01),
        ("year", 1),
        ("bench", 10.0),
        ("category", "ore"),
        ("cls", "measured"),
    ],
)
def test_a_changed_number_of_the_inventory_is_found(hill, tmp_path, name, by):
    folder = copied(hill, tmp_path)
    found = table(folder, "inventory")
    row = found.index[found["category"] == "not_reserve"][0]
    found.loc[row, name] = by if isinstance(by, str) else found.loc[row, name] + by
    found.to_csv(folder / "tables/inventory.csv", index=False)
    assert wrong(folder) == {"inventory"}


def test_a_missing_row_of_the_inventory_is_found(hill, tmp_path):
    folder = copied(hill, tmp_path)
    table(folder, "inventory").iloc[1:].to_csv(folder / "tables/inventory.csv", index=False)
    assert wrong(folder) == {"inventory"}


def test_ore_in_a_process_that_recovers_nothing_from_it_is_found(worked, tmp_path):
    """Waste above the first pillar that is said to be milled."""
    folder = copied(worked, tmp_path)

    def milled(blocks):
        blocks["share_mill"] = blocks["share_mill"].astype(float)
        blocks.loc[blocks["name"] == "b0-0-1", "share_mill"] = 0.5

    rewrite(folder / "tables/blocks.csv", milled)
    told = {rule.name: rule.differences for rule in pitplan.verify(folder)}
    assert "block b0-0-1: goes to mill, where it has no revenue" in told["inventory"]


@pytest.mark.parametrize("name", [*YEARS, "discounted_cash_flow", "discounted_free_cash_flow"])
def test_a_changed_line_is_found(worked, tmp_path, name):
    folder = copied(worked, tmp_path)
    found = pd.read_csv(folder / "tables/cash_flow.csv")
    found[name] = found[name].astype(float)
    # 1.6 t of copper with three decimals tell the C1 cost to a dollar.
    found.loc[1, name] += 5 if name == "c1_cost" else 0.05
    found.to_csv(folder / "tables/cash_flow.csv", index=False)
    assert differing(folder, "cash flow")


@pytest.mark.parametrize(
    ("name", "column", "by", "rule"),
    [
        ("valuation", "npv", 0.01, "cash flow"),
        ("valuation", "irr", 0.01, "cash flow"),
        ("grade_tonnage", "tonnes", 0.02, "grade tonnage"),
    ],
)
def test_a_changed_number_of_the_other_tables_is_found(worked, tmp_path, name, column, by, rule):
    folder = copied(worked, tmp_path)

    def change(found):
        found.loc[found.index[-1], column] += by

    rewrite(folder / f"tables/{name}.csv", change)
    assert wrong(folder) == {rule}


def test_the_feed_of_each_process_by_hand(worked):
    """The leach takes the oxide in year 1, the mill 125 t in each later one. A tonne is worth its revenue less royalty, selling, processing and the
    road of ore."""
    found = pd.read_csv(worked / "tables/feed.csv").set_index(["process", "year"])
    assert found["feed_tonnes"].unstack().to_dict("split")["data"] == [[125, 0, 0], [0, 125, 125]]
    assert found["head_grade_copper"].dropna().tolist() == [1.2, 1.6, 0.32] and not found["reclaimed_tonnes"].any()
    earned = [6000 - 242.5 - 375 - 500, 25600 - 830.5 - 1200 - 1250, 4380 - 193.9 - 210 - 1250]
    value = [(it - 62.5) / 125 for it in earned]
    assert found["realised_cutoff"].dropna().tolist() == pytest.approx(value, abs=1e-5)


def test_a_cutoff_is_the_price_of_the_capacity(plan_folder):
    """The mill takes the ore of a pillar a year: the multiplier of its capacity, in the money of the year."""
    _, folder = block_commands.scheduled(plan_folder, "[schedule]\nyears = 3\n")
    found, bound = table(folder, "feed"), table(folder, "bound").query("limit == 'feed_tonnes'")
    assert found["cutoff"].tolist() == pytest.approx((bound["price"] * 1.1 ** bound["year"]).tolist(), abs=1e-6)
    assert found["cutoff"].min() > 0 and found["realised_cutoff"].tolist() == [30, 18, 10]
    for column in ("feed_tonnes", "head_grade_copper", "cutoff", "realised_cutoff"):
        changed = shutil.copytree(folder, folder.parent / column)
        rewrite(changed / "tables/feed.csv", lambda it: it.__setitem__(column, it[column] + 1))
        assert wrong(changed) == {"feed and limits"}


def test_limits_have_their_use_and_shadow_prices(plan_folder):
    """A pillar a year of three: the mill is full, the shovels too, and what one more tonne of a limit earns is its multiplier."""
    _, folder = block_commands.scheduled(plan_folder, "[schedule]\nyears = 3\nminimum = { feed = 40 }\n")
    found = pd.read_csv(folder / "tables/limits.csv")
    feed, rock = (found[found["limit"] == name] for name in ("feed_tonnes", "total_tonnes"))
    assert found["limit"].tolist() == ["feed_tonnes", "total_tonnes"] * 3
    assert feed["used"].tolist() == feed["maximum"].tolist() == [100] * 3 and feed["minimum"].tolist() == [40] * 3
    assert (
        rock["used"].tolist() == [200] * 3 and rock["minimum"].isna().all() and rock["utilisation"].tolist() == [1] * 3
    )
    assert feed["shadow_price"].tolist() == pytest.approx(table(folder, "feed")["cutoff"].tolist(), abs=1e-6)
    for column in ("used", "minimum", "maximum", "utilisation", "shadow_price"):
        changed = shutil.copytree(folder, folder.parent / f"limit_{column}")
        rewrite(changed / "tables/limits.csv", lambda it: it.__setitem__(column, it[column] + 1))
        assert wrong(changed) == {"feed and limits"}

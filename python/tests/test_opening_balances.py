"""What lies on stockpiles at the start, against a case worked by hand, and its verification."""

import shutil

import pandas as pd
import pytest
from conftest import PROJECT, rows
from helpers import office
from helpers.writings import PLAIN, UNVERIFIED, WITH_WORKBOOK

import pitplan
from pitplan import PlanError, load, verify
from pitplan.config.material import Opening
from pitplan.config.project import Project
from pitplan.results.folder import read_record

# 100 t of ore of 0.8 % earn 3200 - 1000 for processing - 200 for mining; the mill takes 40 t a year.
SCHEDULE = "[pushbacks]\ncount = 1\nultimate_pit = 1.0\n[schedule]\nyears = 5\n"
PILE = 'stockpile = { reclaim_cost = 1, capacity = 60, opening = { tonnes = 60, rock_type = "R", cu = 1.0 } }\n'
SMALL = PROJECT.replace("processing_capacity = 100", "processing_capacity = 40")


def written_to(place, words, text=SMALL, **more):
    place.mkdir(exist_ok=True)
    rows(1, 1, 1, **({"cu": lambda i, j, k: 0.8} | more)).to_csv(place / "blocks.csv", index=False)
    (place / "project.toml").write_text(text + SCHEDULE + words)
    return load(place / "project.toml")


def differences(folder):
    return [text for rule in verify(folder) for text in rule.differences]


@pytest.fixture(scope="module")
def written(tmp_path_factory):
    place = tmp_path_factory.mktemp("opening")
    found = pitplan.write_schedule(written_to(place, PILE), writing=UNVERIFIED).set_index("method")
    return place, found


def table_of(written, name, method="lp"):
    found = pd.read_csv(written[0] / f"plan/schedule/tables/{name}.csv")
    return found[found.iloc[:, 0] == method].reset_index(drop=True)


def test_the_stockpile_is_milled_before_the_pit_by_hand(written):
    """60 t of 1 % earn 40 - 10 - 1 a tonne, and ore of 0.8 % 32 - 10 - 2. Per tonne of the mill the first come first; the rule leaves them."""
    _, found = written
    value = 40 * 29 / 1.1 + (20 * 29 + 20 * 20) / 1.21 + 40 * 20 / 1.331 + 40 * 20 / 1.4641
    assert found.loc["lp", "npv"] == pytest.approx(value, abs=0.01)
    assert found.loc["lp", "upper_bound"] == pytest.approx(value, abs=0.01)
    assert found.loc["rule", "npv"] == pytest.approx(20 * (40 / 1.1 + 40 / 1.21 + 20 / 1.331), abs=0.01)
    assert differences(written[0] / "plan/schedule") == []


def test_a_schedule_may_process_the_stockpile_alone(tmp_path):
    """At 2,900 a tonne of copper, ore of 0.8 % earns 11.6 - 10 - 2 a tonne, and 1 % that lies there 14.5 - 10 - 1. 20 t may remain after a year."""
    words = f"{PILE}[[periods]]\nprices = {{ copper = 2900 }}\nstockpiles = {{ stockpile = {{ max = 20 }} }}\n"
    found = pitplan.write_schedule(written_to(tmp_path, words), writing=UNVERIFIED).set_index("method")
    assert found["npv"].tolist() == pytest.approx([3.5 * (40 / 1.1 + 20 / 1.21)]) and found["tonnes"].tolist() == [0]
    assert differences(tmp_path / "plan/schedule") == []
    notes = read_record(tmp_path / "plan/schedule")["notes"]
    assert "linear programme mines nothing: it processes what lies on stockpiles at the start alone" in notes


def test_tables_have_what_lay_there(written):
    piles = table_of(written, "stockpiles")
    assert piles["opening_tonnes"].tolist() == [60, 20, 0, 0] and piles["out_tonnes"].tolist() == [40, 20, 0, 0]
    assert piles["closing_tonnes"].tolist() == [20, 0, 0, 0] and piles["in_tonnes"].tolist() == [0] * 4
    assert piles["grade_copper"][0] == 1 and piles["grade_copper"][1:].isna().all()
    left = table_of(written, "stockpiles", "rule")
    assert left["opening_tonnes"].tolist() == left["closing_tonnes"].tolist() == [60] * 3
    flows = table_of(written, "flows").query("source == 'stockpile'")
    assert flows["feed_tonnes"].tolist() == flows["total_tonnes"].tolist() == [40, 20]
    assert flows["bench"].isna().all() and (flows[["pushback", "bin"]] == 0).all(axis=None)
    assert flows["contained_copper"].tolist() == flows["in_situ_copper"].tolist() == [0.4, 0.2]
    assert flows["recovered_copper"].tolist() == [0.2, 0.1] and flows["cash_flow"].tolist() == [1160, 580]
    feed = table_of(written, "feed")
    assert feed["feed_tonnes"].tolist() == [40] * 4 and feed["reclaimed_tonnes"].tolist() == [40, 20, 0, 0]
    assert feed["head_grade_copper"].tolist() == pytest.approx([1, 0.9, 0.8, 0.8])
    limits = table_of(written, "limits").query("limit == 'stockpile_stockpile'")
    assert limits["used"].tolist() == [20, 0, 0, 0] and (limits["maximum"] == 60).all()
    inventory = table_of(written, "inventory").query("pushback == 0")
    assert inventory["feed_tonnes"].tolist() == [40, 20] and (inventory["category"] == "ore").all()


def test_the_sheet_of_reserves_names_it(tmp_path):
    """60 t of 1 % copper that lay there, and 100 t of 0.8 % from pushback 1."""
    pitplan.write_schedule(written_to(tmp_path, PILE), writing=WITH_WORKBOOK)
    book = office.recalculated(tmp_path / "plan/schedule/tables/schedule.xlsx", tmp_path)
    cells = [list(row) for row in book["reserves"].iter_rows(values_only=True)]
    top = [row[0] for row in cells].index("pushback")
    assert [row[:2] for row in cells[top + 1 : top + 4]] == [["opening stock", "all"], [1, "all"], ["all", "ore"]]
    assert [row[3] for row in cells[top + 1 : top + 4]] == pytest.approx([60, 100, 160]) and cells[top + 4][0] is None
    assert cells[top + 1][4:7] == pytest.approx([1, 0.6, 0.3])
    assert "Opening stock lay on stockpiles at the start: pushback 0 of the sheet inventory." in cells[1][0]


def test_its_costs_are_lines_of_the_cash_flow(written):
    lines = table_of(written, "cash_flow")
    assert lines["processing_cost_mill"].tolist() == [400] * 4 and lines["reclaim_cost"].tolist() == [40, 20, 0, 0]
    assert lines["revenue_copper"].tolist() == pytest.approx([1600, 800 + 640, 1280, 1280])
    assert lines["mining_cost_ore"].tolist() == pytest.approx([0, 40, 80, 80])
    schedule = table_of(written, "schedule")
    assert schedule.query("pushback == 0")["cash_flow"].tolist() == [1160, 580]
    assert table_of(written, "years")["cash_flow"].tolist() == pytest.approx([1160, 980, 800, 800])


@pytest.mark.parametrize(
    ("old", "new", "said"),
    [
        ("tonnes = 60", "tonnes = 50", "more is reclaimed from stockpile than was placed before"),
        ("cu = 1", "cu = 1.1", "contained_copper"),
        ("capacity = 60", "capacity = 10", "above its capacity of 10"),
        ("reclaim_cost = 1", "reclaim_cost = 2", "cash_flow"),
        ("tonnes = 60", "tonnes = 70", "opening_tonnes does not follow"),
        ("processing_cost = 10", "processing_cost = 11", "flows.csv"),
    ],
)
def test_another_opening_balance_than_that_of_the_project_is_found(written, tmp_path, old, new, said):
    folder = shutil.copytree(written[0], tmp_path / "mine") / "plan" / "schedule"
    kept = folder / "project-as-run.toml"
    text = kept.read_text()
    assert old in text
    kept.write_text(text.replace(old, new))
    assert any(said in text for text in differences(folder)), differences(folder)


@pytest.mark.parametrize(
    ("table", "column", "by"),
    [
        ("flows", "feed_tonnes", 1.0),
        ("flows", "total_tonnes", 1.0),
        ("flows", "pushback", 1),
        ("flows", "bench", 5.0),
        ("flows", "cash_flow", 1.0),
        ("flows", "year", 3),
        ("schedule", "feed_tonnes", 1.0),
        ("schedule", "share", 0.5),
        ("schedule", "cash_flow", 5.0),
        ("stockpiles", "opening_tonnes", 1.0),
        ("stockpiles", "grade_copper", 0.1),
        ("inventory", "feed_tonnes", 1.0),
        ("cash_flow", "reclaim_cost", 1.0),
        ("cash_flow", "processing_cost_mill", 1.0),
        ("limits", "used", 1.0),
        ("bound", "price", 0.5),
    ],
)
def test_a_changed_number_is_found(written, tmp_path, table, column, by):
    folder = shutil.copytree(written[0], tmp_path / "mine") / "plan" / "schedule"
    path = folder / f"tables/{table}.csv"
    found = pd.read_csv(path)
    if table == "bound":
        row = found[column].idxmax()
    else:
        mine = found["method"] == "lp"
        mine &= found["pushback"] == 0 if "pushback" in found else True
        mine &= found["limit"] == "stockpile_stockpile" if "limit" in found else True
        row = found.index[mine][0]
    found.loc[row, column] = (0 if pd.isna(found.loc[row, column]) else found.loc[row, column]) + by
    found.to_csv(path, index=False)
    assert differences(folder) != []


# Two processes, of which the leach takes oxide alone, half-years, yearly prices, classes, arsenic, a sum and a recovery by head grade.
TWO = """[[processes]]
name = "mill"
cost = { R = 10, S = 11.5 }
recovery = { copper = [[0.2, 0.4], [1, 0.72], [6, 0.91]] }
capacity = 90
[processes.feed]
arsenic = { max = 100 }
[[processes]]
name = "leach"
cost = 4
recovery = { copper = 0.3 }
capacity = 60
accepts = { rock_type = ["R"], cu = { max = 1.6 } }
[[periods]]
period_months = 6
prices = { copper = 7400 }
[[periods]]
[pushbacks]
count = 2
[schedule]
years = 6
minimum = { leach = 5 }
[[schedule.stockpiles]]
name = "clean"
reclaim_cost = 0.5
capacity = 90
recovery = { copper = 0.9 }
opening = { tonnes = 80, rock_type = "S", class = "measured", cu = 0.7, arsenic = 20, acid = 3 }
[[schedule.stockpiles]]
name = "oxide"
reclaim_cost = 0.2
stacking_cost = 0.1
opening = { tonnes = 33.3, rock_type = "R", class = "INF2", cu = 0.5, arsenic = 300, acid = 1 }
[[schedule.limits]]
name = "acid"
column = "acid"
of = "feed"
per_tonne = true
max = 260
"""
HILL = {
    "cu": lambda i, j, k: {(3, 2, 1): 3, (5, 2, 1): 2, (4, 1, 2): 0.9, (2, 2, 2): 1.5}.get((i, j, k), 0),
    "arsenic": lambda i, j, k: 70 + 90 * (i % 3),
    "acid": lambda i, j, k: 1 + k,
    "rock": lambda i, j, k: "RS"[i % 2],
    "cls": lambda i, j, k: "measured",
}


def hill(place, words):
    text = PROJECT.replace('region"\n', 'region"\nclass = "cls"\n', 1).replace("processing_capacity = 100\n", "")
    text = text.replace("processing_cost = 10\n", "royalty = 0.03\nroyalty_per_tonne = 0.4\ndecimals = 2\n")
    text = text.replace("recovery = 0.5\n", "").replace('pattern = "1:5"', "angle = 50")
    place.mkdir(exist_ok=True)
    rows(7, 5, 4, **HILL).to_csv(place / "blocks.csv", index=False)
    (place / "project.toml").write_text(text + words)
    return load(place / "project.toml")


@pytest.mark.slow
def test_it_goes_with_all_other_keys_and_never_earns_less(tmp_path):
    """The verification recomputes the bound. Without the opening balances the stockpiles have the room that is left."""
    project = hill(tmp_path / "full", TWO)
    full = pitplan.write_schedule(project, writing=UNVERIFIED).set_index("method").loc["lp"]
    folder = tmp_path / "full/plan/schedule"
    assert differences(folder) == []
    flows = pd.read_csv(folder / "tables/flows.csv")
    assert {"clean", "oxide"} <= set(flows.loc[flows["pushback"] == 0, "source"])
    feed = flows[flows["destination"] == "mill"]
    assert len(feed)
    inventory = pd.read_csv(folder / "tables/inventory.csv").query("pushback == 0")
    assert set(inventory["category"]) <= {"ore", "not_reserve"}
    words = "\n".join(line for line in TWO.splitlines() if not line.startswith("opening"))
    alone = hill(tmp_path / "none", words.replace("capacity = 90\nrecovery", "capacity = 10\nrecovery"))
    none = pitplan.write_schedule(alone, writing=UNVERIFIED).set_index("method").loc["lp"]
    assert none["upper_bound"] < full["upper_bound"] and none["npv"] < full["npv"]


def test_a_project_is_written_with_it(tmp_path):
    project = hill(tmp_path, TWO)
    again = Project.from_dict(pitplan.config.toml_text.parsed(project.to_toml(), "test"), tmp_path)
    assert again.schedule.stockpiles == project.schedule.stockpiles
    opening = project.schedule.stockpiles[0].opening
    assert opening == Opening(80.0, {"cu": 0.7, "arsenic": 20.0, "acid": 3.0}, "S", "", "measured")


@pytest.mark.parametrize(
    ("old", "new", "said"),
    [
        ("tonnes = 80, ", "", "[schedule.stockpiles 1.opening] tonnes: is missing"),
        ("tonnes = 80", "tonnes = -1", "[schedule.stockpiles 1.opening] tonnes: found -1, expected 0 or more"),
        ("tonnes = 80", "tonnes = 91", "opening: found 91 tonnes, expected the capacity of 90 at most"),
        ("cu = 0.7, ", "", "[schedule.stockpiles] clean opening: cu is missing: give the mean of what lies there"),
        ("arsenic = 20, ", "", "clean opening: arsenic is missing"),
        ("acid = 3", "acid = 3, tin = 1", "clean opening: found tin, expected one of cu, arsenic, acid"),
        ('rock_type = "S", ', "", "clean opening: rock_type is missing: give the code of what lies there"),
        ('class = "measured", ', "", "clean opening: class is missing"),
        ('class = "measured"', 'class = "inferred"', 'class: found "inferred", which [classes] treats as waste'),
        ("per_tonne = true\n", "", "[[schedule.limits]] acid sums a column of whole blocks"),
        ('class = "measured"', "class = 4", "[schedule.stockpiles 1.opening] class: must be a text in quotes"),
    ],
)
def test_what_is_refused(tmp_path, old, new, said):
    assert old in TWO
    with pytest.raises(PlanError) as error:
        hill(tmp_path, TWO.replace(old, new, 1))
    assert said in str(error.value)


def test_a_rock_type_without_a_cost_is_named(tmp_path):
    project = hill(tmp_path, TWO.replace("{ R = 10, S = 11.5 }", "{ R = 10, S = 11.5 }").replace('"S"', '"T"'))
    with pytest.raises(PlanError, match=r'\[schedule.stockpiles\] opening.* names no rock type "T"'):
        pitplan.write_schedule(project, writing=UNVERIFIED)


# By block: the block of ore is mined whole in one year, and its stockpile holds all of it.
OPEN = PILE.replace("capacity = 60, ", "")


@pytest.fixture(scope="module")
def by_block(tmp_path_factory):
    place = tmp_path_factory.mktemp("opening by block")
    row = pitplan.write_block_schedule(written_to(place, OPEN), writing=UNVERIFIED).iloc[0]
    return row, place / "plan/block_schedule"


def tables_in(folder, *names):
    return [pd.read_csv(folder / f"tables/{name}.csv") for name in names]


def test_by_block_the_stockpile_is_milled_before_the_pit_by_hand(by_block):
    """40 t of what lies there are milled in the first year. In the second the block is mined for 200, and 40 t of it earn 22 a tonne: a year later they earn
    21, and what lies there 29 as before. So its 20 t wait until the third year."""
    row, folder = by_block
    value = 40 * 29 / 1.1 + (40 * 22 - 200) / 1.21 + (20 * 29 + 20 * 21) / 1.331 + 40 * 21 / 1.4641
    assert row["npv"] == pytest.approx(value, abs=0.01) and row["upper_bound"] >= row["npv"] - 0.01
    assert differences(folder) == []


def test_by_block_tables_have_what_lay_there(by_block):
    stock, reclaims, feed, inventory, cash, blocks = tables_in(
        by_block[1], "stockpiles", "reclaims", "feed", "inventory", "cash_flow", "blocks"
    )
    assert stock["opening_tonnes"].tolist() == [60, 20, 80, 40] and stock["in_tonnes"].tolist() == [0, 60, 0, 0]
    assert stock["out_tonnes"].tolist() == [40, 0, 40, 40] and stock["closing_tonnes"].tolist() == [20, 80, 40, 0]
    lots = reclaims[reclaims["id"].isna()]
    assert lots["year"].tolist() == [1, 3] and lots["share"].tolist() == pytest.approx([2 / 3, 1 / 3])
    assert set(lots["source"]) == {"stockpile"} and set(lots["destination"]) == {"mill"}
    assert feed["reclaimed_tonnes"].tolist() == [40, 0, 40, 40] and feed["feed_tonnes"].tolist() == [40] * 4
    assert feed["head_grade_copper"].tolist() == pytest.approx([1, 0.8, 0.9, 0.8])
    lay = inventory[inventory["bench"].isna()]
    assert lay["total_tonnes"].tolist() == [40, 20] and lay["recovered_copper"].tolist() == [0.2, 0.1]
    assert cash["reclaim_cost"].tolist() == [40, 0, 40, 40] and cash["total_tonnes"].tolist() == [0, 100, 0, 0]
    assert blocks["share_mill"].tolist() == [1] and blocks["share_stockpile"].tolist() == pytest.approx([0.6])


@pytest.mark.parametrize(
    ("change", "rule"),
    [
        (lambda rows: rows.assign(share=rows["share"] * (1 - 0.5 * rows["id"].isna())), "block value"),
        (lambda rows: rows.assign(share=rows["share"] * (1 + rows["id"].isna())), "material flow"),
        (lambda rows: rows.assign(year=rows["year"] + 5 * rows["id"].isna()), "block order"),
    ],
)
def test_by_block_the_audit_finds_another_share_of_it(by_block, tmp_path, change, rule):
    folder = shutil.copytree(by_block[1].parents[1], tmp_path / "mine") / "plan/block_schedule"
    path = folder / "tables/reclaims.csv"
    change(pd.read_csv(path).astype({"id": "Int64"})).to_csv(path, index=False)
    assert rule in {it.name for it in verify(folder) if it.differences}


def test_by_block_the_sheet_of_reserves_names_it(tmp_path):
    pitplan.write_block_schedule(written_to(tmp_path, OPEN), writing=WITH_WORKBOOK)
    book = office.recalculated(tmp_path / "plan/block_schedule/tables/schedule.xlsx", tmp_path)
    cells = [list(row) for row in book["reserves"].iter_rows(values_only=True)]
    assert "Mill feed includes 60 t of opening stock, which lay on stockpiles at the start" in cells[1][0]
    assert cells[4][:2] == ["all", "ore"] and cells[4][3] == pytest.approx(160)


def test_by_block_what_earns_nothing_stays(tmp_path):
    """At a tenth of the price neither ore nor what lies there pays for its processing."""
    text = SMALL.replace("price = 8000", "price = 800")
    row = pitplan.write_block_schedule(written_to(tmp_path, OPEN, text), writing=UNVERIFIED).iloc[0]
    assert row[["npv", "tonnes", "feed_tonnes"]].tolist() == [0, 0, 0]
    assert differences(tmp_path / "plan/block_schedule") == []


def test_by_block_a_minimum_keeps_what_lies_there(tmp_path):
    """In the first two years 30 t must remain, so 30 t of it are milled in the first year, 10 t less than the mill takes."""
    words = OPEN + 2 * "[[periods]]\nstockpiles = { stockpile = { min = 30 } }\n" + "[[periods]]\n"
    pitplan.write_block_schedule(written_to(tmp_path, words), writing=UNVERIFIED)
    folder = tmp_path / "plan/block_schedule"
    stock, limits, prices = tables_in(folder, "stockpiles", "limits", "bound")
    assert stock["closing_tonnes"].tolist()[:2] >= [30, 30] and differences(folder) == []
    mine = limits[limits["limit"] == "stockpile_stockpile"]
    assert mine["minimum"].tolist()[:2] == [30, 30] and mine["used"].tolist() == stock["closing_tonnes"].tolist()
    paid = prices[prices["limit"] == "stockpile_stockpile"]
    assert set(paid["side"]) == {"min"} and (paid["price"] <= 0).all() and (paid["price"] < 0).any()


@pytest.mark.parametrize(("limit", "said"), [("max = 20", "a max of 20"), ("min = 70", "a min of 70")])
def test_by_block_limits_that_it_breaks_are_refused(tmp_path, limit, said):
    words = f"{OPEN}[[periods]]\nstockpiles = {{ stockpile = {{ {limit} }} }}\n"
    with pytest.raises(
        PlanError, match=rf"\[schedule\] stockpile stockpile: 60 tonnes lie there at the start, and year 1 has {said}"
    ):
        pitplan.write_block_schedule(written_to(tmp_path, words), writing=PLAIN)

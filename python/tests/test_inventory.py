"""The inventory of a schedule by bench, rock type, class and destination, and the reserves that follow from blocks.csv alone."""

import json
import shutil

import pandas as pd
import pytest
from conftest import PROJECT, rows
from helpers import office, worked_cash_flow
from helpers.writings import PLAIN

import pitplan
from pitplan import verify

GRADES = {(3, 4, 1): 6, (7, 4, 1): 2, (5, 2, 2): 0.9, (3, 3, 2): 1.5, (8, 4, 2): 1.8, (6, 4, 1): 0.7, (4, 4, 1): 3}
CLASSES = {(3, 4): "measured", (7, 4): "inferred", (3, 3): "inferred", (8, 4): "", (6, 4): "measured"}
# A hill of two rocks and four classes, of which inferred material counts as ore by a rule, with dilution and ore loss.
HILL = {
    "cu": lambda i, j, k: GRADES.get((i, j, k), 0),
    "rock": lambda i, j, k: "RS"[i % 2],
    "cls": lambda i, j, k: CLASSES.get((i, j), "indicated"),
    "tonnes": lambda i, j, k: 97.3 + i,
}
CHANGES = (
    ('[table]\nfile = "blocks.csv"\n', '[table]\nfile = "blocks.csv"\nclass = "cls"\n'),
    ("[economics]\n", '[classes]\ninferred = "ore"\n[economics]\nmining_recovery = 0.95\ndilution = 0.08\n'),
    ("processing_capacity = 100", "processing_capacity = 130\nmining_capacity = 2500"),
)
SCHEDULE = "[pushbacks]\ncount = 2\n[schedule]\nstockpile = { reclaim_cost = 0.5 }\n"


def wrong(folder):
    return {rule.name for rule in verify(folder) if rule.differences}


@pytest.fixture(scope="module")
def written(tmp_path_factory):
    """The folder of the hill's schedule, with its workbook."""
    place, text = tmp_path_factory.mktemp("inventory"), PROJECT + SCHEDULE
    for old, new in CHANGES:
        assert text.count(old) == 1, old
        text = text.replace(old, new)
    rows(11, 9, 4, **HILL).to_csv(place / "blocks.csv", index=False)
    (place / "project.toml").write_text(text)
    pitplan.write_schedule(place / "project.toml", writing=pitplan.Writing(figures=False))
    return place / "plan" / "schedule"


def table(folder, name="inventory"):
    return pd.read_csv(folder / f"tables/{name}.csv", keep_default_na=False, na_values={"head_grade_copper": ""})


def shown(folder):
    return json.loads((folder / "schedule.json").read_text())["shown"]


@pytest.mark.slow
def test_the_rows_of_three_pillars_are_as_worked_out_by_hand(tmp_path):
    """The sulphide of the first pillar waits on the stockpile for a year; see the worked cash flow."""
    worked_cash_flow.table().to_csv(tmp_path / "blocks.csv", index=False)
    (tmp_path / "project.toml").write_text(worked_cash_flow.TEXT)
    pitplan.write_schedule(tmp_path / "project.toml", writing=PLAIN)
    folder = tmp_path / "plan" / "schedule"
    found = table(folder).query("method == 'milp' and category != 'waste'").drop(columns=["method", "head_grade_gold"])
    assert [tuple(row) for row in found.to_numpy().tolist()] == [
        # Year, pushback, bench, rock, source, destination, category; in situ t, %, g/t, t, g; feed t, %; in it t, g; recovered t, g.
        (1, 1, 0, "SUL", "pit", "rom", "stockpile", 100, 2, 4, 2, 400, 125, 1.6, 2, 400, 0, 0),
        (2, 1, 0, "SUL", "rom", "mill", "ore", 100, 2, 4, 2, 400, 125, 1.6, 2, 400, 1.52, 200),
        (2, 2, 0, "OX", "pit", "leach", "ore", 100, 1.5, 0, 1.5, 0, 125, 1.2, 1.5, 0, 0.75, 0),
        (3, 3, 0, "SUL", "pit", "mill", "ore", 100, 0.4, 0.5, 0.4, 50, 125, 0.32, 0.4, 50, 0.32, 25),
    ]
    blocks = pd.read_csv(folder / "tables/blocks.csv").set_index("name")
    assert blocks["share_mined"].tolist() == [1] * 6 and blocks.loc["b1-0-0", "share_leach"] == 1
    assert blocks["share_mill"].to_dict() == {name: float(name in ("b0-0-0", "b2-0-0")) for name in blocks.index}
    # In schedule.csv what is reclaimed is no bench: of the first pillar nothing is mined in the year after.
    mined = table(folder, "schedule").query("method == 'milp'").replace({"bench": {"": -1}}).astype({"bench": float})
    names = ["year", "pushback", "bench", "share", "total_tonnes", "feed_tonnes", "recovered_copper"]
    assert [tuple(row) for row in mined[names].to_numpy().tolist()] == [
        (1, 1, 10, 1, 100, 0, 0),
        (1, 1, 0, 1, 100, 0, 0),
        (2, 0, -1, 0, 0, 125, 1.52),
        (2, 2, 10, 1, 100, 0, 0),
        (2, 2, 0, 1, 100, 125, 0.75),
        (3, 3, 10, 1, 100, 0, 0),
        (3, 3, 0, 1, 100, 125, 0.32),
    ]


def test_the_inventory_has_the_tonnes_and_metal_of_the_flows(written):
    """To the kilogram, and to the last digit by method and year."""
    inventory, flows = table(written), table(written, "flows")
    for name in ("total_tonnes", "feed_tonnes", "in_situ_copper", "contained_copper", "recovered_copper"):
        sums = [it.groupby(["method", "year", "source", "destination"])[name].sum() for it in (inventory, flows)]
        assert sums[0].tolist() == pytest.approx(sums[1].tolist(), abs=0.001 * len(flows)), name
    mined = inventory[inventory["source"] == "pit"].groupby(["method", "year"])["total_tonnes"].sum()
    years = table(written, "years").rename(columns={"case": "method"}).set_index(["method", "year"])["total_tonnes"]
    assert mined.tolist() == pytest.approx(years[mined.index].tolist(), abs=0.5)


def test_inferred_material_is_never_ore(written):
    """Although a rule treats it as ore, so that it is milled."""
    inventory = table(written)
    milled = inventory[inventory["destination"] == "mill"]
    assert set(milled["cls"]) == {"measured", "indicated", "inferred"}
    assert set(milled.loc[milled["category"] == "ore", "cls"]) == {"measured", "indicated"}
    assert (milled.loc[milled["cls"] == "inferred", "category"] == "not_reserve").all()
    assert set(inventory["category"]) <= {"ore", "not_reserve", "stockpile", "waste"} and wrong(written) == set()


def test_reserves_follow_from_the_blocks_alone(written):
    """In-situ tonnes, grade and copper of the mill feed by pushback and class, in ten lines; the feed with its ore loss and dilution."""
    blocks = pd.read_csv(written / "tables/blocks.csv", keep_default_na=False)
    ore = blocks[blocks["share_mill"] > 0].copy()
    ore["t"] = ore["tonnes"] * ore["share_mill"]
    ore["copper"] = ore["t"] * ore["cu"] / 100
    reserves = ore.groupby(["pushback", "cls"])[["t", "copper"]].sum()
    reserves["grade"] = 100 * reserves["copper"] / reserves["t"]
    reserves["feed"] = reserves["t"] * 0.95 * 1.08

    due = table(written).query(f"method == '{shown(written)}' and destination == 'mill'")
    due = due.groupby(["pushback", "cls"])[["total_tonnes", "in_situ_copper", "feed_tonnes"]].sum()
    assert reserves.index.tolist() == due.index.tolist() and len(due) >= 3
    for name, column in (("t", "total_tonnes"), ("copper", "in_situ_copper"), ("feed", "feed_tonnes")):
        assert reserves[name].tolist() == pytest.approx(due[column].tolist(), abs=0.01), name
    assert (blocks["share_mined"] >= blocks["share_mill"] - 1e-9).all()


@pytest.mark.slow
def test_the_sheet_of_reserves_is_the_sum_of_the_inventory(written, tmp_path):
    sheet = office.recalculated(written / "tables/schedule.xlsx", tmp_path)["reserves"]
    cells = [[value for value in row] for row in sheet.iter_rows(values_only=True)]
    mine = table(written).query(f"method == '{shown(written)}'")
    heads = ["pushback", "class", "in situ (t)", "mill feed (t)", "head grade copper (%)"]
    tops = [number for number, row in enumerate(cells) if row[:5] == heads]
    assert cells[tops[0] - 1][0] == "Ore" and cells[tops[1] - 1][0] == "Not reserves: inferred and unclassified feed"
    for top, category in zip(tops, ("ore", "not_reserve")):
        due = mine[mine["category"] == category].groupby(["pushback", "cls"])
        found = {(row[0], row[1]): row[2:7] for row in cells[top + 1 :] if isinstance(row[0], int) and row[1]}
        for key, part in due:
            feed, copper = part["feed_tonnes"].sum(), part["contained_copper"].sum()
            expected = [part["total_tonnes"].sum(), feed, 100 * copper / feed, copper, part["recovered_copper"].sum()]
            assert list(found[key]) == pytest.approx(expected, abs=1e-6), key
    rows_of_years = cells[[row[0] for row in cells].index("year") + 1 :]
    ore = mine[mine["category"] == "ore"].groupby("year")["feed_tonnes"].sum()
    assert [row[3] for row in rows_of_years[:-1]] == pytest.approx(
        [ore.get(row[0], 0.0) for row in rows_of_years[:-1]], abs=1e-6
    )
    assert rows_of_years[-1][3] == pytest.approx(ore.sum(), abs=1e-6)
    total = mine.loc[mine["source"] == "pit", "total_tonnes"].sum()
    assert rows_of_years[-1][7] == pytest.approx(total, abs=1e-6) and cells[tops[0]][6] == "recovered copper (t)"


@pytest.mark.parametrize(
    ("name", "by"),
    [
        ("total_tonnes", 1.0),
        ("grade_copper", 0.01),
        ("in_situ_copper", 0.1),
        ("feed_tonnes", 1.0),
        ("head_grade_copper", 0.01),
        ("contained_copper", 0.1),
        ("recovered_copper", 0.1),
        ("year", 1),
        ("category", "ore"),
        ("cls", "measured"),
    ],
)
def test_a_changed_number_is_found(written, tmp_path, name, by):
    folder = shutil.copytree(written.parent.parent, tmp_path / "mine") / "plan" / "schedule"
    path = folder / "tables/inventory.csv"
    found = pd.read_csv(path, keep_default_na=False, na_values={"head_grade_copper": ""})
    row = found.index[found["category"] == "not_reserve"][0]
    if isinstance(by, float):
        found[name] = found[name].astype(float)
    found.loc[row, name] = by if isinstance(by, str) else found.loc[row, name] + by
    found.to_csv(path, index=False)
    assert wrong(folder) == {"inventory"}


@pytest.mark.parametrize("name", ["share_mined", "share_mill"])
def test_a_changed_share_is_found(written, tmp_path, name):
    folder = shutil.copytree(written.parent.parent, tmp_path / "mine") / "plan" / "schedule"
    path = folder / "tables/blocks.csv"
    found = pd.read_csv(path, keep_default_na=False)
    found.loc[found["share_mill"].idxmax(), name] -= 0.01
    found.to_csv(path, index=False)
    assert wrong(folder) == {"inventory"}

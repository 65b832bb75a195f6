"""What no shell can reach is left out of models that are too large: the same shells, block for block, and what is told of it."""

import re

import numpy as np
import pandas as pd
import pytest
from conftest import PROJECT, rows
from helpers.writings import PLAIN, UNVERIFIED

import pitplan
from pitplan import PlanError, crop, verify
from pitplan.blockmodel.grid import Grid
from pitplan.crop import CellRanges

ANGLES = ('pattern = "1:5"', "angle = 50")


def deposit(**more):
    """Ore low at one place of a wide model with a hill, which pays from different factors on."""
    table = rows(
        24,
        20,
        9,
        cu=lambda i, j, k: {(9, 8, 4): 30, (10, 8, 4): 9, (9, 9, 5): 4, (2, 2, 2): 0.05}.get((i, j, k), 0),
        region=lambda i, j, k: "12"[i > 9],
        **more,
    )
    return table[(table["z"] < 80) | (table["x"] < 60)]


@pytest.fixture
def few(monkeypatch):
    """The program takes but 3,000 blocks."""
    monkeypatch.setattr(pitplan.blockmodel.grid, "MOST_BLOCKS", 3000)


def solved(path):
    """By the blocks' names the factor at which each comes in, of those that do."""
    plan = pitplan.Plan.from_project(path)
    blocks = plan.shells().blocks.set_index("name")
    return plan, blocks["revenue_factor"][blocks["revenue_factor"] > 0.0].sort_index()


def test_shells_are_the_same(plan_folder, monkeypatch):
    """Cones of 50 degrees above levels 4 and 5 of 9: the whole grid has 24 x 20 x 9 = 4,320 cells."""
    path = plan_folder(deposit(), PROJECT, ANGLES)
    whole, factors = solved(path)
    assert whole.grid.count == 4320
    monkeypatch.setattr(pitplan.blockmodel.grid, "MOST_BLOCKS", 3000)
    part, same = solved(path)
    assert part.grid.count == 384 and factors.equals(same) and len(factors) > 40
    (note,) = [note for note in part.notes if "cropped to" in note]
    left, all_blocks = (int(number.replace(",", "")) for number in re.findall(r"([\d,]+) of ([\d,]+) blocks", note)[0])
    assert (left, all_blocks) == (len(whole.table) - len(part.table), len(whole.table))
    # Ore lies in columns 9 and 10, in row 8 on level 4 and in row 9 on level 5. Three levels up and more the cone is 0.84 x 30 m wide to a
    # side, 2 blocks: columns 7 to 12, rows 6 to 11, and one more each way; up to the top, and one down.
    assert note.endswith("x from 60 to 140, y from 50 to 130, z from 30 to 90 m")


def test_no_shell_touches_a_side_that_is_none_of_the_model(plan_folder, few):
    plan = pitplan.Plan.from_project(plan_folder(deposit(), PROJECT, ANGLES))
    assert plan.shells().notes == []


def test_costs_rise_from_the_top_of_the_whole_model(plan_folder, monkeypatch):
    change = ("mining_cost = 2\n", "mining_cost = 2\nmining_cost_per_bench = 0.25\n")
    path = plan_folder(deposit(), PROJECT, ANGLES, change)
    whole, factors = solved(path)
    monkeypatch.setattr(pitplan.blockmodel.grid, "MOST_BLOCKS", 3000)
    part, same = solved(path)
    assert factors.equals(same) and part.reference == whole.reference
    costs = [plan.blocks.set_index("name")["mining_cost"] for plan in (whole, part)]
    assert costs[0][costs[1].index].equals(costs[1])


def cells(*places):
    """A truth for each cell of 5 levels, 4 rows and 6 columns."""
    found = np.zeros((5, 4, 6), dtype=bool)
    for place in places:
        found[place] = True
    return found


@pytest.mark.parametrize(
    ("absent", "levels"),
    [
        ([], 3),
        # Where the column has its highest block one lower, it goes there.
        ([(0, 1, 3), (1, 1, 3), (2, 1, 3)], 4),
        # A gap at the last level, over more rock: one lower too; a column without rock is none.
        ([(2, 1, 3)], 4),
        ([(level, 1, 3) for level in range(5)], 3),
    ],
)
def test_the_box_by_hand(absent, levels):
    """Used are cells of the levels 0 and 1, the rows 0 and 1 and the columns 2 and 3: one more to each side, where there is one."""
    filled = np.flatnonzero(~cells(*absent))
    grid = Grid((5, 4, 6), (0.0, 0.0, 0.0), (1.0, 1.0, 1.0), filled)
    used = cells((0, 0, 2), (1, 1, 3)).ravel()
    assert crop.box_of(used, grid) == CellRanges(slice(0, levels), slice(0, 3), slice(1, 5))


def test_what_must_be_dug_is_kept(plan_folder, few):
    table = deposit(must=lambda i, j, k: int((i, j, k) == (16, 8, 6)))
    path = plan_folder(table, PROJECT + '[constraints]\nmust_mine = "must"\n', ANGLES)
    plan, factors = solved(path)
    assert factors["b16-8-6"] == 0.5


def test_what_is_too_large_all_the_same_is_refused(plan_folder, monkeypatch):
    monkeypatch.setattr(pitplan.blockmodel.grid, "MOST_BLOCKS", 300)
    with pytest.raises(
        PlanError,
        match="shells can reach 384 of the 4,320 cells, and the solver takes at most 300 blocks",
    ):
        pitplan.Plan.from_project(plan_folder(deposit(), PROJECT, ANGLES))


def test_a_model_in_which_nothing_pays_is_refused(plan_folder, few):
    with pytest.raises(
        PlanError, match="4,320 cells, and the solver takes at most 3,000 blocks: no block pays for its processing"
    ):
        pitplan.Plan.from_project(plan_folder(deposit().assign(cu=0.0), PROJECT, ANGLES))


def wrong(path):
    return {rule.name: rule.differences for rule in verify(path.parent / "plan") if rule.differences}


def test_the_second_look_agrees(plan_folder, few):
    path = plan_folder(deposit(), PROJECT, ANGLES)
    pitplan.write_shells(path, writing=UNVERIFIED)
    assert wrong(path) == {}
    assert "crop" in {rule.name for rule in verify(path.parent / "plan")}
    assert len(pd.read_csv(path.parent / "plan" / "tables/blocks.csv")) < 1000


def test_a_table_written_back_has_no_factor_where_it_was_left_out(plan_folder, few):
    path = plan_folder(deposit(), PROJECT, ANGLES)
    pitplan.write_shells(path, writing=PLAIN)
    blocks = pd.read_csv(path.parent / "plan" / "tables/blocks.csv").set_index("name")
    after = pd.read_csv(pitplan.write_export(path.parent / "plan", "table")).set_index("name")
    assert after.index.tolist() == deposit()["name"].tolist()
    pd.testing.assert_series_equal(after["revenue_factor"], blocks["revenue_factor"].reindex(after.index, fill_value=0))


def narrower(used, grid):
    box = box_of(used, grid)
    return CellRanges(box.levels, box.rows, slice(box.columns.start + 3, box.columns.stop))


box_of = crop.box_of


def test_ground_that_shells_need_and_is_left_out_is_found(plan_folder, few, monkeypatch):
    path = plan_folder(deposit(), PROJECT, ANGLES)
    monkeypatch.setattr(crop, "box_of", narrower)
    pitplan.write_shells(path, writing=UNVERIFIED)
    assert "depends on ground that was removed" in wrong(path)["crop"][0]


def test_ore_that_is_left_out_is_found(plan_folder, few, monkeypatch):
    path = plan_folder(deposit().assign(cu=lambda it: it["cu"].mask(it["name"] == "b20-15-7", 20.0)), PROJECT, ANGLES)
    can_pay = crop.can_pay
    monkeypatch.setattr(crop, "can_pay", lambda model, project: can_pay(model, project)[:2])
    pitplan.write_shells(path, writing=UNVERIFIED)
    assert wrong(path)["crop"] == ("block b20-15-7 was removed, and pays at revenue factor 1.50",)


def test_a_table_that_has_changed_where_it_was_left_out_is_found(plan_folder, few):
    path = plan_folder(deposit(), PROJECT, ANGLES)
    pitplan.write_shells(path, writing=PLAIN)
    file = path.parent / "blocks.csv"
    table = pd.read_csv(file)
    table[table["name"] != "b20-15-7"].to_csv(file, index=False)
    with pytest.raises(PlanError, match="blocks of the table are not in it: has the table changed since"):
        verify(path.parent / "plan")


ABSENT = ('file = "blocks.csv"', 'file = "blocks.csv"\nmissing_blocks = { tonnes = 90, rock_type = "R", domain = "1" }')


@pytest.mark.parametrize("change", [('file = "blocks.csv"', 'file = "blocks.csv"\nreblock = [2, 1, 1]'), ABSENT])
def test_rows_that_are_put_together_and_cells_without_rows(plan_folder, monkeypatch, change):
    """A block of the floor and one in the ground have no row."""
    monkeypatch.setattr(pitplan.blockmodel.grid, "MOST_BLOCKS", 1500)
    table = deposit()
    path = plan_folder(table[~table["name"].isin(["b20-2-0", "b9-8-6"])], PROJECT, ANGLES, change)
    pitplan.write_shells(path, writing=UNVERIFIED)
    assert wrong(path) == {} and "crop" in {rule.name for rule in verify(path.parent / "plan")}

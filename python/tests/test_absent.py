"""Cells without a row: which are air, which are not known, and what a plan does about them."""

import numpy as np
import pandas as pd
import pytest
from conftest import PROJECT
from helpers.missing_blocks import ROCK, deposit
from hypothesis import given, strategies as st

import pitplan
from pitplan import PlanError
from pitplan.blockmodel import missing_blocks
from pitplan.blockmodel.grid import Grid
from pitplan.cli import main

SHAPE = (4, 2, 3)
AIR = ('file = "blocks.csv"', 'file = "blocks.csv"\nmissing_blocks = "air"')


@given(st.lists(st.booleans(), min_size=24, max_size=24))
def test_what_is_not_known_by_definition(filled):
    """A cell without a row is air exactly where its column has rows and all of them are lower."""
    grid = Grid(SHAPE, (0.0, 0.0, 0.0), (1.0, 1.0, 1.0), np.flatnonzero(filled))
    cube = np.array(filled).reshape(SHAPE)
    expected = []
    for cell, (level, row, column) in enumerate(np.ndindex(SHAPE)):
        rows_of_column = np.flatnonzero(cube[:, row, column])
        is_air = len(rows_of_column) > 0 and level < rows_of_column.min()
        if not filled[cell] and not is_air:
            expected.append(cell)
    assert missing_blocks.unknown_cells(grid).tolist() == expected


def shells_of(path):
    plan = pitplan.Plan.from_project(path)
    return plan.shells().table


def test_shells_that_reach_a_hole_are_refused(plan_folder, capsys):
    table = deposit()
    path = plan_folder(table[~((table["x"] == 25) & (table["z"] == 15))])
    assert main(["shells", str(path), "--quiet", "--no-figures"]) == 1
    said = capsys.readouterr().err
    assert (
        "blocks.csv: the shells reach 1 missing blocks (below a row, or in columns without rows), the first at 25, 5, 15 from revenue factor 0.50"
        in said
    )
    assert 'missing_blocks = "air"' in said
    assert not (path.parent / "plan" / "tables/shells.csv").exists()


def test_shells_that_reach_a_column_without_rows_are_refused(plan_folder):
    table = deposit()
    path = plan_folder(table[table["x"] != 15])
    with pytest.raises(
        PlanError, match="the shells reach 1 missing blocks .* the first at 15, 5, 25 from revenue factor 0.50"
    ):
        shells_of(path)


def test_what_is_not_known_and_not_reached_changes_nothing(plan_folder):
    whole = shells_of(plan_folder(deposit()))
    table = deposit()
    pd.testing.assert_frame_equal(shells_of(plan_folder(table[~((table["x"] == 65) & (table["z"] < 20))])), whole)


def test_air_on_request_costs_nothing(plan_folder):
    table = deposit()
    whole = shells_of(plan_folder(table)).set_index("revenue_factor")
    holed = shells_of(plan_folder(table[~((table["x"] == 25) & (table["z"] == 15))], PROJECT, AIR)).set_index(
        "revenue_factor"
    )
    # A block of 100 t at 2 a tonne less is dug.
    assert (holed["undiscounted_cash_flow"] - whole["undiscounted_cash_flow"]).tolist() == [200] * 3
    assert (whole["tonnes"] - holed["tonnes"]).tolist() == [100] * 3


def test_rock_on_request_is_dug_as_if_it_stood_in_the_table(plan_folder):
    table = deposit()
    whole = shells_of(plan_folder(table))
    for holes in ((table["x"] == 25) & (table["z"] == 15), table["x"] == 15):
        path = plan_folder(table[~holes], PROJECT, ROCK)
        pd.testing.assert_frame_equal(shells_of(path), whole)
        blocks = pitplan.Plan.from_project(path).blocks
        assert blocks["name"].str.startswith("absent-").sum() == holes.sum()


def test_rock_on_request_in_scenarios(plan_folder):
    table = deposit().assign(sim_1=lambda it: it["cu"], sim_2=lambda it: it["cu"] / 2)
    text = PROJECT + '\n[scenarios]\ncolumns = { copper = "sim_*" }\n'
    told = []
    for kept, change in ((table, []), (table[table["x"] != 15], [ROCK])):
        path = plan_folder(kept, text, *change)
        assert main(["scenarios", str(path), "--workers", "1", "--quiet", "--no-figures"]) == 0
        told.append(pd.read_csv(path.parent / "plan" / "scenarios" / "tables/scenarios.csv"))
    pd.testing.assert_frame_equal(*told)
    assert (told[0]["blocks"] > 0).any()


@pytest.mark.parametrize(
    ("text", "said"),
    [
        ('missing_blocks = "rock"', '[table] missing_blocks: found "rock", expected one of refuse, air'),
        ("missing_blocks = { tonnes = -1 }", "[table.missing_blocks] tonnes: found -1, expected 0 or more"),
        (
            "missing_blocks = { tonnes = 1 }",
            "[table] missing_blocks: needs a rock_type if, and only if, [table] rock_type names a column",
        ),
        ('missing_blocks = { tonnes = 1, rock_type = "R" }', "[table] missing_blocks: needs a domain if"),
        ('missing_blocks = { tonnes = 1, rocks = "R" }', "[table.missing_blocks] rocks: unknown key"),
    ],
)
def test_absent_is_refused_in_words(plan_folder, text, said):
    with pytest.raises(PlanError) as refused:
        pitplan.load(plan_folder(deposit(), PROJECT, ('file = "blocks.csv"', f'file = "blocks.csv"\n{text}')))
    assert said in str(refused.value)

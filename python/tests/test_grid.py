"""Grids from coordinates: ids from the top down, air where no row is, and what is refused."""

import numpy as np
import pandas as pd
import pytest
from conftest import PROJECT, rows

import pitplan
from pitplan import PlanError
from pitplan.blockmodel.grid import metres

NO_SIZE = ("[grid]\nsize = [10, 10, 10]\n", "")


def test_ids_run_from_the_top_down_row_by_row(plan_folder):
    table = rows(3, 2, 2).sample(frac=1, random_state=1)
    blocks = pitplan.Plan.from_project(plan_folder(table)).blocks
    expected = [f"b{i}-{j}-{k}" for k in (1, 0) for j in (0, 1) for i in (0, 1, 2)]
    assert blocks["id"].tolist() == list(range(12)) and blocks["name"].tolist() == expected


def test_cells_without_a_row_are_air_of_worth_0(plan_folder):
    table = rows(3, 2, 2, cu=lambda i, j, k: 1.0)
    plan = pitplan.Plan.from_project(plan_folder(table[table["name"] != "b1-1-1"]))
    assert plan.grid.count == 12 and 4 not in set(plan.blocks["id"])
    assert plan.values.mining[4] == 0 and plan.values.revenue[4] == 0 and plan.values.tonnes[4] == 0
    assert plan.notes[1] == "1 cells lie above the highest row of their column and are air"


def test_a_hole_below_a_block_is_warned_of(plan_folder):
    table = rows(3, 2, 3)
    notes = pitplan.Plan.from_project(plan_folder(table[~table["name"].isin(["b1-1-1", "b1-1-0", "b0-0-2"])])).notes
    assert "2 missing blocks (below a row, or in columns without rows); a shell that reaches one is rejected" in notes


def test_centres_may_lie_off_by_the_tolerance(plan_folder):
    table = rows(4, 3, 2)
    table["x"] += np.resize([0.004, -0.004, 0.0], len(table))
    plan = pitplan.Plan.from_project(plan_folder(table, PROJECT, NO_SIZE))
    assert plan.grid.shape == (2, 3, 4) and abs(plan.grid.size[0] - 10) < 0.01
    table.loc[5, "x"] += 0.3
    with pytest.raises(PlanError, match="row .* column x: .* is off the grid .*sub-blocks need .table. reblock"):
        pitplan.Plan.from_project(plan_folder(table))


def test_coordinates_of_seven_digits_are_told_in_full(plan_folder):
    table = rows(4, 3, 2)
    table["y"] += 6_512_000
    table.loc[5, "y"] += 0.25
    with pytest.raises(PlanError) as said:
        pitplan.Plan.from_project(plan_folder(table))
    assert "row 7 column y: 6512015.25 is off the grid 6512005, 6512015, 6512025, .. by 0.25 m" in str(said.value)


def split(table, chosen):
    """The block of that row as its eight sub-blocks of half the size."""
    row = table.iloc[chosen]
    eighths = [
        {
            **row,
            "name": f"{row['name']}/{n}",
            "x": row.x + dx,
            "y": row.y + dy,
            "z": row.z + dz,
            "tonnes": row.tonnes / 8,
        }
        for n, (dx, dy, dz) in enumerate((a, b, c) for a in (-2.5, 2.5) for b in (-2.5, 2.5) for c in (-2.5, 2.5))
    ]
    return pd.concat([table.drop(index=chosen), pd.DataFrame(eighths)], ignore_index=True)


def test_sub_blocks_are_refused_with_and_without_a_size(plan_folder):
    table = split(rows(4, 4, 3), 20)
    with pytest.raises(PlanError, match="most blocks have no neighbour: sub-blocks need .table. reblock"):
        pitplan.Plan.from_project(plan_folder(table, PROJECT, NO_SIZE))
    with pytest.raises(PlanError, match="row 49 column x: .* is off the grid .*: sub-blocks need .table. reblock"):
        pitplan.Plan.from_project(plan_folder(table))


def test_one_level_needs_the_size(plan_folder):
    with pytest.raises(PlanError, match=r"column z: all blocks lie at 5: give the blocks' size as \[grid\] size"):
        pitplan.Plan.from_project(plan_folder(rows(3, 2, 1), PROJECT, NO_SIZE))
    plan = pitplan.Plan.from_project(plan_folder(rows(3, 2, 1), PROJECT, ("[10, 10, 10]", "[10, 10, 4]")))
    assert plan.grid.size == (10, 10, 4) and plan.grid.extent() == (0, 30, 0, 20, 3, 7)


@pytest.mark.slow
def test_too_many_cells_are_refused(plan_folder):
    table = pd.concat(
        [rows(2, 2, 2), rows(2, 2, 2).assign(x=lambda t: t.x + 30_000_000, name=lambda t: t.name + "far")]
    )
    with pytest.raises(PlanError, match="cells, and the solver takes at most 4,194,304 blocks"):
        pitplan.Plan.from_project(plan_folder(table))


@pytest.mark.parametrize(
    ("value", "said"),
    [
        (6512640.0, "6512640"),
        (6512640.12346, "6512640.1235"),
        (0.00004, "0"),
        (-0.00004, "0"),
        (0.00006, "0.0001"),
        (-2.5, "-2.5"),
    ],
)
def test_a_coordinate_is_told_to_a_tenth_of_a_millimetre(value, said):
    assert metres(value) == said


def test_nothing_is_said_of_turning_where_rows_go_east(plan_folder):
    """A centre that is off the grid, sub-blocks, and centres here and there."""
    off = rows(5, 5, 2).assign(x=lambda it: it["x"].where(it["name"] != "b3-3-1", 37.0))
    small = rows(5, 5, 1).assign(x=lambda it: it["x"] / 4, name=lambda it: it["name"] + "s")
    rng = np.random.default_rng(1)
    here = rows(5, 5, 1).assign(x=rng.random(25) * 100, y=rng.random(25) * 100)
    for table in (off, pd.concat([rows(5, 5, 2), small]), here):
        with pytest.raises(PlanError) as said:
            pitplan.Plan.from_project(plan_folder(table))
        assert "turned" not in str(said.value)

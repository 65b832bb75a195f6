"""Depletion by an as-mined surface: the mined volume lies between the original ground and the surface."""

import numpy as np
import pandas as pd
import pytest
from conftest import PROJECT, rows
from helpers.writings import UNVERIFIED

from pitplan import Plan, PlanError, load, verify, write_shells

TOPOGRAPHY = ('file = "blocks.csv"', 'file = "blocks.csv"\ntopography = "ground.csv"')
SURFACE = PROJECT + '\n[constraints]\nas_mined = "mined.csv"\n'


def slope(x, y):
    """A ground that falls to the east, within the upper of three levels of 10 m."""
    return 29 - 0.08 * x


def write_ground(path, height):
    """Points each 5 m over a model of 100 x 30 m, and 20 m beyond it."""
    x, y = (axis.ravel() for axis in np.meshgrid(np.arange(-20, 121, 5.0), np.arange(-20, 51, 5.0)))
    pd.DataFrame({"x": x, "y": y, "z": [height(*place) for place in zip(x, y)]}).to_csv(path, index=False)


def ground_less(depth):
    """The slope, lowered by so many metres where x is from 30 to 60 m, with walls that are 5 m wide."""
    return lambda x, y: slope(x, y) - (depth if 30 <= x <= 60 else 0)


@pytest.fixture
def mine(plan_folder, tmp_path):
    """The plan of 10 x 3 x 3 blocks of 100 t on a slope with a survey as mined; tonnes are whole blocks' and cut by the original ground."""

    def plan(height, text=SURFACE, *changes, **columns):
        write_ground(tmp_path / "ground.csv", slope)
        write_ground(tmp_path / "mined.csv", height)
        return Plan.from_project(load(plan_folder(rows(10, 3, 3, **columns), text, *changes)))

    return plan


def test_a_survey_of_the_original_ground_mines_nothing(mine):
    plan = mine(slope, SURFACE, TOPOGRAPHY)
    assert plan.fixed.must_mine.size == 0
    assert any("0 blocks are mined out and 0 are partly mined" in note for note in plan.notes)
    # Neither does one that differs by 0.3 m, as two surveys do; its tonnes are the surface's.
    near = mine(lambda x, y: slope(x, y) - 0.3, SURFACE, TOPOGRAPHY)
    assert near.fixed.must_mine.size == 0
    assert plan.values.tonnes.sum() - near.values.tonnes.sum() == pytest.approx(100 * 30 * 0.3 / 10, abs=1e-4)


def test_a_block_that_is_mined_in_part_is_forced_in_with_what_remains(mine):
    """4 m are gone from x = 30 to 60: of each of the 9 blocks there 40 t, of which the upper level had 25.8 to 27.4 / 30."""
    plan = mine(ground_less(4), SURFACE, TOPOGRAPHY)
    original = mine(slope, SURFACE, TOPOGRAPHY)
    blocks, before = plan.blocks.set_index("id"), original.blocks.set_index("id")["tonnes"]
    gone = before - blocks["tonnes"]
    cut = blocks[(blocks["x"] > 30) & (blocks["x"] < 60) & (blocks["z"] == 25)].index
    assert set(cut) <= set(plan.fixed.must_mine.tolist())
    assert gone[cut].tolist() == pytest.approx([40] * 9, abs=1e-4)
    # The walls of the cut are 5 m wide: beside it half of 5 m x 4 m is gone, 10 t of a block, and so it is mined in part too.
    beside = blocks[blocks["x"].isin([25, 65]) & (blocks["z"] == 25)].index
    assert gone[beside].tolist() == pytest.approx([10] * 6, abs=1e-4)
    assert sorted(plan.fixed.must_mine.tolist()) == sorted([*cut, *beside])


def test_a_block_that_is_mined_out_has_no_tonnes(mine):
    """12 m are gone: all of the upper level there, and of the second what lies below 29 - 0.08 x - 12 and above 20 - 10."""
    plan = mine(ground_less(12), SURFACE, TOPOGRAPHY)
    blocks = plan.blocks.set_index("id")
    upper = blocks[(blocks["x"] > 30) & (blocks["x"] < 60) & (blocks["z"] == 25)]
    second = blocks[(blocks["x"] > 30) & (blocks["x"] < 60) & (blocks["z"] == 15)]
    assert upper["tonnes"].tolist() == [0] * 9 and set(upper.index) <= set(plan.fixed.must_mine.tolist())
    # The surface is at 7.0 - 0.08 (x - 0) above 10 m: its mean over a column is its height in the middle.
    assert second["tonnes"].tolist() == pytest.approx([10 * (slope(x, 0) - 12 - 10) for x in second["x"]], abs=1e-4)
    assert plan.values.mining[upper.index].tolist() == [0] * 9


def test_tonnes_that_the_table_has_cut_already(mine):
    """The original ground stands below [constraints]: the table's tonnes are those below it."""
    text = SURFACE + 'topography = "ground.csv"\n'

    def below(height):
        return lambda i, j, k: 100 * min(1, max(0, (height(5 + 10 * i, 0) - 10 * k) / 10))

    plan = mine(ground_less(4), text, tonnes=below(slope))
    blocks = plan.blocks
    inside = blocks[(blocks["x"] > 30) & (blocks["x"] < 60)]
    expected = [
        below(lambda x, y: slope(x, y) - 4)(round((x - 5) / 10), 0, round((z - 5) / 10))
        for x, z in zip(inside["x"], inside["z"])
    ]
    assert inside["tonnes"].tolist() == pytest.approx(expected, abs=1e-4)
    assert mine(slope, text, tonnes=below(slope)).fixed.must_mine.size == 0


def test_what_a_run_writes_of_it_is_verified(plan_folder, tmp_path):
    write_ground(tmp_path / "ground.csv", slope)
    write_ground(tmp_path / "mined.csv", ground_less(12))
    path = plan_folder(rows(10, 3, 3, cu=lambda i, j, k: 2 * (k == 0)), SURFACE, TOPOGRAPHY)
    write_shells(path, writing=UNVERIFIED)
    (rule,) = [rule for rule in verify(tmp_path / "plan") if rule.name == "as mined"]
    assert not rule.differences
    table = pd.read_csv(tmp_path / "plan" / "tables/blocks.csv")
    assert (table.loc[(table["x"].between(30, 60)) & (table["z"] == 25), "revenue_factor"] > 0).all()
    # A block that keeps the tonnes that it had before is seen.
    row = table.index[table["x"].eq(45) & table["z"].eq(25)][0]
    table.loc[row, "tonnes"] = 54.0
    table.to_csv(tmp_path / "plan" / "tables/blocks.csv", index=False)
    (rule,) = [rule for rule in verify(tmp_path / "plan") if rule.name == "as mined"]
    assert rule.differences and "54 t for 0" in rule.differences[0]


@pytest.mark.parametrize(
    ("text", "said"),
    [
        (
            '[constraints]\ntopography = "ground.csv"\n',
            r"\[constraints\] topography: requires as_mined, whose original ground it is",
        ),
        (
            '[constraints]\nas_mined = "mined.csv"\ntopography = "ground.csv"\n',
            r"\[table\] topography is the original ground already",
        ),
        (
            '[constraints]\nas_mined = "mined.csv"\ntopography = "blocks"\n',
            r"\[table\] topography is the original ground already",
        ),
    ],
)
def test_two_original_grounds_or_none_to_mine_are_refused(plan_folder, text, said):
    with pytest.raises(PlanError, match=said):
        load(plan_folder(rows(1, 1, 1), PROJECT + "\n" + text, TOPOGRAPHY))


def test_a_survey_without_the_original_ground_is_refused(plan_folder):
    """Blocks that the original ground cuts would be taken as mined by their centres, all over the property."""
    with pytest.raises(
        PlanError, match=r'\[constraints\] topography: is missing: .* or "blocks" if all blocks are whole'
    ):
        load(plan_folder(rows(1, 1, 1), SURFACE))

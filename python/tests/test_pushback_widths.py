"""Pushbacks made wide enough, against cones and costs worked by hand, and against the promise tried cell by cell."""

import shutil

import numpy as np
import pandas as pd
import pytest
from conftest import PROJECT, rows
from helpers.pushbacks import POOR, RICH, UPRIGHT, blocks_of, floor, square, with_pushbacks, wrong
from helpers.random_tests import examples
from helpers.writings import PLAIN
from hypothesis import given, strategies as st

import pitplan
from pitplan import Plan, PlanError, load
from pitplan.config.shells import PushbackRules
from pitplan.pushbacks import mining_width, nested
from pitplan.results.folder import read_record
from pitplan.slopes import closure
from planaudit.pits.pushback_widths import blocks_across, cells_in


def pushed(plan_folder, table, words, text=PROJECT):
    """The pushbacks, of the pit of revenue factor 1.00 unless the words name another, with each block's pushback and the notes of widths."""
    words += "" if "ultimate_pit" in words or "factors" in words else "\nultimate_pit = 1.0"
    project = load(plan_folder(table, with_pushbacks(words, text)))
    found = pitplan.write_pushbacks(project, writing=PLAIN).set_index("pushback")
    notes = [
        note
        for note in read_record(project.folder / "pushbacks")["notes"]
        if "blocks moved" in note or "too small" in note
    ]
    return found, blocks_of(project.folder / "pushbacks")["pushback"], notes


def test_a_notch_in_the_pit_is_filled_where_that_costs_less(plan_folder):
    """Nine cells of ore but one at the east side: beside it two are in no square of two. Waste is dug there, with the one block above it
    that the others do not need."""
    table = floor(*square(3, 2, 3) - {(5, 3)})
    found, pushback, notes = pushed(plan_folder, table, "count = 1\nmin_mining_width = 20")
    assert found["blocks"][1] == 8 + 20 + 2 and found["undiscounted_cash_flow"][1] == 8 * 6800 - 20 * 200 - 400
    assert found["value_lost_to_width"][1] == 400 and found["min_width"][1] == 30 and found["pieces"][1] == 1
    assert pushback["b5-3-0"] == pushback["b6-3-1"] == 1
    assert notes == [
        "blocks moved to meet the minimum mining width 20 m: 0 earlier (0 t), 0 later (0 t), 2 additionally (200 t), 0 never (0 t)"
    ]
    narrow, pushback, _ = pushed(plan_folder, table, "count = 1")
    assert (narrow["blocks"][1], narrow["value_lost_to_width"][1], narrow["min_width"][1]) == (28, 0, 10)
    assert pushback["b5-3-0"] == 0


def test_a_rich_spur_is_widened_and_a_poor_one_is_left(plan_folder):
    """Beside a square of three: to widen a spur of one block costs one at the floor and two above it. The poor one gains 400 - 200."""
    for grade, cost, blocks, told in (
        (RICH, 600, 30 + 1 + 1 + 3, "3 additionally (300 t), 0 never"),
        (POOR, 200, 30, "0 additionally (0 t), 2 never"),
    ):
        grades = dict.fromkeys(square(3, 2, 3), RICH) | {(6, 3): grade}
        found, pushback, notes = pushed(plan_folder, floor(grades), "count = 1\nmin_mining_width = 20")
        assert (found["value_lost_to_width"][1], found["blocks"][1]) == (cost, blocks)
        assert told in notes[0] and (pushback["b6-3-0"] > 0) == (grade == RICH)
        left = [
            "too small to mine: 1 block, 100 t, about 65, 35, 5",
            "too small to mine: 1 block, 100 t, about 75, 35, 15",
        ]
        assert sorted(notes[1:]) == ([] if grade == RICH else left)


def test_of_two_spurs_of_a_pit_each_is_widened_or_left(plan_folder):
    """The rich one in the west, the poor one in the east."""
    grades = dict.fromkeys(square(3, 2, 3), RICH) | {(6, 3): POOR, (2, 3): RICH}
    found, pushback, _ = pushed(plan_folder, floor(grades), "count = 1\nmin_mining_width = 20")
    assert found["value_lost_to_width"][1] == 600 + 200
    assert pushback["b2-3-0"] == 1 and pushback["b6-3-0"] == 0


def test_a_notch_between_two_pushbacks_goes_to_the_first_with_its_cone(plan_folder):
    """The notch is ore as poor as a square further east. With it pushback 1 digs two blocks more."""
    poor = {(5, 3)} | square(10, 2, 2)
    grades = dict.fromkeys(square(3, 2, 3), RICH) | dict.fromkeys(poor, 0.6)
    table = floor(grades, columns=15)
    narrow, pushback, _ = pushed(plan_folder, table, "revenue_factors = [0.4, 1.5]")
    assert narrow["blocks"].tolist() == [28, 2 + 4 + 12] and pushback["b5-3-0"] == pushback["b6-3-1"] == 2
    found, pushback, notes = pushed(plan_folder, table, "revenue_factors = [0.4, 1.5]\nmin_mining_width = 20")
    assert found["blocks"].tolist() == [30, 16] and pushback["b5-3-0"] == pushback["b6-3-1"] == 1
    # The ore of 0.6 % yields 2400 - 1000 - 200, and the block above it costs 200.
    assert found["deferred_value"].tolist() == [-(1200 - 200), 0] and found["value_lost_to_width"].tolist() == [0, 0]
    assert "2 earlier (200 t), 0 later" in notes[0]


def test_the_pit_before_shrinks_where_a_pushback_is_too_thin(plan_folder):
    """One level: a square of four in a square of six, with one block between them all round. Two are left for pushback 1."""
    rich = square(2, 2, 4)
    table = rows(10, 10, 1, cu=lambda i, j, k: RICH if (i, j) in rich else 0.6 if (i, j) in square(1, 1, 6) else 0)
    found, pushback, notes = pushed(plan_folder, table, "revenue_factors = [0.4, 1.0]\nmin_mining_width = 20")
    # Nothing is lost: the 12 blocks of 6800 come in pushback 2.
    assert found["value_lost_to_width"].tolist() == [0, 0]
    assert found["blocks"].tolist() == [4, 32] and found["min_width"].tolist() == [20, 20]
    assert {name for name, number in pushback.items() if number == 1} == {f"b{i}-{j}-0" for i, j in square(3, 3, 2)}
    assert found["deferred_value"].tolist() == [12 * 6800, 0] and "0 earlier (0 t), 12 later (1,200 t)" in notes[0]


def test_a_pushback_that_hardly_keeps_anything_is_told(plan_folder):
    rich = square(2, 2, 4)
    table = rows(10, 10, 1, cu=lambda i, j, k: RICH if (i, j) in rich else 0.6 if (i, j) in square(1, 1, 6) else 0)
    project = load(plan_folder(table, with_pushbacks("revenue_factors = [0.4, 1.0]\nmin_mining_width = 30", PROJECT)))
    assert pitplan.write_pushbacks(project, writing=PLAIN)["blocks"].tolist() == [0, 36]
    told = "WARNING: at this width pushback 1 keeps 0 of 1,600 t of its shell; reduce the number or width of pushbacks"
    assert told in read_record(project.folder / "pushbacks")["notes"]


def test_a_narrow_bottom_is_widened_or_left(plan_folder):
    """A single block of ore at the floor: rich, it is dug with the three beside it and seven more above; poor, with all it is left, and
    then there is no pit."""
    found, _, _ = pushed(plan_folder, floor((4, 3)), "count = 1\nmin_bottom_width = 20")
    assert (found["blocks"][1], found["value_lost_to_width"][1]) == (4 + 12, 3 * 200 + 7 * 200)
    with pytest.raises(
        PlanError,
        match="min_mining_width, min_bottom_width: no part of the pit of revenue factor 1.50 meets the minimum width",
    ):
        pushed(plan_folder, floor({(4, 3): 0.7}), "count = 1\nmin_bottom_width = 20\nultimate_pit = 1.5")


def test_what_must_be_dug_stays_in_pushback_1_however_narrow(plan_folder):
    """A single block at the top that must be dug; and at the floor nothing but ore may be, so that the notch stays."""
    grades = dict.fromkeys(square(3, 2, 3) - {(5, 3)}, RICH)
    never = lambda i, j, k: int(k == 0 and (i, j) not in grades)
    table = floor(grades, must=lambda i, j, k: int((i, j, k) == (1, 5, 1)), never=never)
    text = PROJECT + '\n[constraints]\nmust_mine = "must"\nexclude = "never"\n'
    found, pushback, _ = pushed(plan_folder, table, "count = 1\nmin_mining_width = 20", text)
    assert pushback["b1-5-1"] == 1 and pushback["b5-3-0"] == 0
    # The two cells of ore beside the notch are left. The other six need sixteen blocks above them.
    assert pushback["b5-2-0"] == pushback["b5-4-0"] == 0
    assert found["blocks"][1] == 6 + 16 + 1 and found["undiscounted_cash_flow"][1] == 6 * 6800 - 17 * 200


@pytest.mark.parametrize(
    ("wide", "sides", "expected"),
    [
        (40, (20, 20), (2, 2)),
        (41, (20, 20), (3, 3)),
        (40, (15, 25), (3, 2)),
        (5, (20, 20), (1, 1)),
        (0.3, (0.1, 0.1), (3, 3)),
    ],
)
def test_so_many_blocks_are_so_wide(wide, sides, expected):
    assert mining_width.rectangle(wide, sides) == expected


def covered(mask, shape):
    """The cells of a square of truths that lie in a rectangle of true cells, by trying each."""
    north, east = shape
    found = np.zeros_like(mask)
    for row in range(mask.shape[0] - north + 1):
        for column in range(mask.shape[1] - east + 1):
            if mask[row : row + north, column : column + east].all():
                found[row : row + north, column : column + east] = True
    return found


@given(st.integers(0, 10**6), st.integers(1, 4), st.integers(1, 4))
def test_openings_are_the_rectangles_that_fit(seed, north, east):
    rng = np.random.default_rng(seed)
    mask, free = rng.random((7, 6)) < 0.8, rng.random((7, 6)) < 0.1
    expected = covered(mask | free, (north, east))
    assert (mining_width.opened(mask, free, (north, east)) == expected).all()
    assert (cells_in(mask | free, (north, east)) == expected).all()


def random_plan(seed, plan_text):
    """A hill of random ground, and the pits that ores at random need, each within the next; no program is run."""
    rng = np.random.default_rng(seed)
    table = rows(12, 11, 4, must=lambda i, j, k: int((i, j, k) == (1, 1, 3)), never=lambda i, j, k: int(i == 11))
    table = table[(table["z"] < 30) | (table["x"] < 70)]
    table["cu"] = np.where(rng.random(len(table)) < 0.1, rng.random(len(table)).round(3) * 5, 0.0)
    plan = Plan.from_project(load(plan_text(table)))
    first = rng.integers(0, 4, plan.grid.count) * (plan.grid.spread(table["cu"].to_numpy()) > 0) * ~plan.settled.left
    pushback = np.zeros(plan.grid.count, dtype=np.int16)
    for number in (3, 2, 1):
        pushback[
            closure.used_blocks(plan.grid, plan.domains, (0 < first) & (first <= number) | plan.settled.mined)
        ] = number
    return plan, pushback


@examples(12)
@given(st.integers(0, 10**6), st.sampled_from([(20, None), (30, None), (None, 20), (20, 30), (30, 20)]))
def test_random_pushbacks_are_wide_closed_and_nested(tmp_path_factory, seed, asked):
    place = tmp_path_factory.mktemp("random")

    def write(table):
        text = (
            PROJECT.replace("[0.5, 1.0, 1.5]", "[0.5, 0.8, 1.0]")
            + '[constraints]\nmust_mine = "must"\nexclude = "never"\n'
        )
        (place / "project.toml").write_text(text)
        table.to_csv(place / "blocks.csv", index=False)
        return place / "project.toml"

    plan, pushback = random_plan(seed, write)
    found = plan.grid.cube(mining_width.widened(pushback, plan, PushbackRules(3, None, None, None, *asked))[0])
    solid, must, left = (plan.grid.cube(it) for it in (plan.values.tonnes > 0, plan.settled.mined, plan.settled.left))
    assert (found[must] == 1).all() and (found[left] == 0).all()
    for level, row, column in np.argwhere((found > 0) & solid):
        for north, east in ((0, 0), (1, 0), (-1, 0), (0, 1), (0, -1)):
            y, x = row + north, column + east
            if level and 0 <= y < 11 and 0 <= x < 12 and solid[level - 1, y, x]:
                assert 0 < found[level - 1, y, x] <= found[level, row, column]
    for number in (1, 2, 3):
        mine, pit = found == number, (found > 0) & (found <= number)
        for metres, there in ((asked[0], mine), (asked[1], pit)):
            if metres:
                blocks = (metres // 10, metres // 10)
                room = [covered(level, blocks) for level in there | ~solid | must]
                assert not (mine & solid & ~must & ~np.stack(room)).any()


@pytest.mark.parametrize(
    ("words", "said"),
    [
        ("count = 2\nmin_mining_width = 0", "[pushbacks] min_mining_width: found 0, expected above 0"),
        ("count = 2\nmin_bottom_width = -5", "[pushbacks] min_bottom_width: found -5, expected above 0"),
        ('count = 2\nmin_mining_width = "40"', "[pushbacks] min_mining_width: '40' is not a number"),
    ],
)
def test_what_is_refused(plan_folder, words, said):
    with pytest.raises(PlanError) as error:
        load(plan_folder(floor((4, 3)), with_pushbacks(words, UPRIGHT)))
    assert said in str(error.value)


@pytest.fixture(scope="module")
def divided(tmp_path_factory):
    place = tmp_path_factory.mktemp("wide")
    grades = dict.fromkeys(square(3, 2, 3) - {(5, 3)}, RICH) | dict.fromkeys(square(10, 2, 2), 0.6)
    floor(grades, columns=15).to_csv(place / "blocks.csv", index=False)
    (place / "project.toml").write_text(
        with_pushbacks("revenue_factors = [0.4, 1.5]\nmin_mining_width = 20\nmin_bottom_width = 20", PROJECT)
    )
    pitplan.write_pushbacks(place / "project.toml", writing=PLAIN)
    return place


@pytest.fixture
def copied(divided, tmp_path):
    return shutil.copytree(divided, tmp_path / "mine") / "plan" / "pushbacks"


@pytest.mark.parametrize(
    ("column", "rule"),
    [
        ("pieces", "pushback widths"),
        ("min_width", "pushback widths"),
        ("value_lost_to_width", "pushbacks"),
        ("deferred_value", "pushbacks"),
    ],
)
@pytest.mark.parametrize("more", [-10, 10, 0.4])
def test_each_shape_that_is_bent_is_found(copied, column, rule, more):
    assert wrong(copied) == {}
    table = pd.read_csv(copied / "tables/pushbacks.csv")
    table.loc[0, column] += more
    table.to_csv(copied / "tables/pushbacks.csv", index=False)
    assert set(wrong(copied)) == {rule}


def test_a_block_of_a_later_factor_than_the_last_pushback_is_found(copied):
    table = pd.read_csv(copied / "tables/blocks.csv")
    table.loc[table["revenue_factor"] > 0.0, "revenue_factor"] += 1.0
    table.to_csv(copied / "tables/blocks.csv", index=False)
    assert "blocks" in wrong(copied)


@pytest.mark.parametrize(("name", "number"), [("b5-3-0", 0), ("b3-2-0", 2), ("b10-2-0", 0)])
def test_a_block_that_makes_a_pushback_too_narrow_is_found(copied, name, number):
    """The filled notch, a corner of the first square, and one of the second, in another pushback or in none."""
    table = pd.read_csv(copied / "tables/blocks.csv")
    table.loc[table["name"] == name, "pushback"] = number
    table.to_csv(copied / "tables/blocks.csv", index=False)
    found = wrong(copied)["pushback widths"]
    assert any("lies where it is too narrow" in text for text in found.differences)


def test_a_bottom_that_is_wide_by_a_later_pushback_alone_is_found(plan_folder):
    """Two squares of two side by side, one a pushback; then the first has but three of its cells."""
    grades = dict.fromkeys(square(3, 2, 2), RICH) | dict.fromkeys(square(5, 2, 2), 0.6)
    project = load(
        plan_folder(floor(grades), with_pushbacks("revenue_factors = [0.4, 1.5]\nmin_bottom_width = 20", PROJECT))
    )
    # Above the second square a block of pushback 2 lies between one of pushback 1 and the ground.
    assert pitplan.write_pushbacks(project, writing=PLAIN)["min_width"].tolist() == [20, 10]
    folder = project.folder / "pushbacks"
    table = pd.read_csv(folder / "tables/blocks.csv")
    table.loc[table["name"] == "b4-2-0", "pushback"] = 2
    table.to_csv(folder / "tables/blocks.csv", index=False)
    told = [text for text in wrong(folder)["pushback widths"].differences if "too narrow" in text]
    assert told == [
        f"block {name} of pushback 1 lies where it is too narrow" for name in ("b3-2-0", "b3-3-0", "b4-3-0")
    ]


def test_a_pushback_that_is_not_there_is_found(copied):
    table = pd.read_csv(copied / "tables/blocks.csv")
    table.loc[table["pushback"] == 2, "pushback"] = 3
    table.to_csv(copied / "tables/blocks.csv", index=False)
    assert any("pushback 3 for" in text for text in wrong(copied)["pushback of blocks"].differences)


def test_a_rule_counts_the_blocks_across_by_itself():
    class Sizes:
        size = (25.0, 15.0, 10.0)

    assert [blocks_across(Sizes, wide) for wide in (40, 45, 50.0, 1, 15)] == [(3, 2), (3, 2), (4, 2), (1, 1), (1, 1)]


def test_the_widths_of_pushbacks_are_those_that_are_told(plan_folder):
    """Squares of three and of two blocks, and half of a square with nothing."""
    mask = np.zeros((2, 8, 8), dtype=bool)
    mask[0, :3, :3] = mask[1, 4:6, 4:6] = True
    assert mining_width.min_width(mask, ~np.ones_like(mask), (10.0, 10.0)) == 20
    assert mining_width.min_width(mask[:1], ~np.ones_like(mask[:1]), (10.0, 10.0)) == 30
    assert np.isnan(mining_width.min_width(mask[:1, 4:], ~np.ones_like(mask[:1, 4:]), (10.0, 10.0)))
    assert nested.MOST_PUSHBACKS == 100

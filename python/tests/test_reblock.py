"""Rows that are put together to blocks: by hand, and against pandas' own sums."""

from decimal import Decimal

import numpy as np
import pandas as pd
import pytest
from conftest import PROJECT, rows
from helpers.writings import UNVERIFIED

import pitplan
from pitplan import PlanError, verify
from pitplan.blockmodel import reblock
from planaudit.inputs import block_table, project_file, reblocking

TWOS = ('file = "blocks.csv"', 'file = "blocks.csv"\nreblock = [2, 2, 1]')
# Of these four blocks of 10 m 100, 300, 200 and 400 t are of copper 1, 0, 2 and 0.5 %: 7 t in 1000, 0.7 %.
GRADES, TONNES = [1, 0, 2, 0.5], [100, 300, 200, 400]


def four(**more):
    by_place = {"tonnes": lambda i, j, k: TONNES[i + 2 * j], "cu": lambda i, j, k: GRADES[i + 2 * j]}
    return rows(
        2,
        2,
        1,
        **{**by_place, "rock": lambda i, j, k: "AABB"[i + 2 * j], "region": lambda i, j, k: "1211"[i + 2 * j], **more},
    )


def test_four_blocks_in_one_by_hand(plan_folder):
    """A has 400 t, B 600; region 1 has 700 t, 2 has 300."""
    plan = pitplan.Plan.from_project(plan_folder(four(), PROJECT, TWOS))
    (block,) = plan.table.to_dict("records")
    assert block == {"name": "1-1-1", "x": 10, "y": 10, "z": 5, "tonnes": 1000, "cu": 0.7, "rock": "B", "region": "1"}
    assert plan.grid.size == (20, 20, 10) and plan.grid.shape == (1, 1, 1)
    for said in (
        "4 rows were reblocked into 1 blocks of 20 x 20 x 10 m",
        "400 of 1,000 t differ in rock from their block",
        "300 of 1,000 t differ in region from their block",
    ):
        assert said in [*plan.summary, *plan.notes]


def test_a_block_without_tonnes_has_the_codes_of_most_rows(plan_folder):
    """Of the eastern one of two blocks, by both implementations; of equal ones it would be the first by name."""
    table = rows(
        4,
        2,
        1,
        tonnes=lambda i, j, k: 100 if i < 2 else 0,
        cu=lambda i, j, k: 2.0 if i < 2 else 0.0,
        rock=lambda i, j, k: "AABB"[i] if j else "BAAB"[i],
        region=lambda i, j, k: "1122"[i] if j else "1212"[i],
    )
    path = plan_folder(table, PROJECT, TWOS)
    assert pitplan.Plan.from_project(path).table[["rock", "region"]].values.tolist() == [["A", "1"], ["B", "2"]]
    pitplan.write_shells(path, path.parent / "out", UNVERIFIED)
    assert [rule.differences for rule in verify(path.parent / "out") if rule.differences] == []


def test_columns_that_a_schedule_sums(plan_folder):
    """Of the four blocks arsenic is 10, 20, 30 and 40 ppm, 100 t x 10 + .. = 29,000 in 1000 t; power is of whole blocks."""
    table = four(as_ppm=lambda i, j, k: 10 + 10 * (i + 2 * j), kwh=lambda i, j, k: 1.5 + i + 2 * j)
    sums = '[[schedule.limits]]\ncolumn = "{}"\nmax = 1\n{}'
    text = PROJECT + sums.format("as_ppm", "per_tonne = true\n") + sums.format("kwh", "")
    plan = pitplan.Plan.from_project(plan_folder(table, text, TWOS))
    assert plan.table[["as_ppm", "kwh", "cu"]].values.tolist() == [[29, 12, 0.7]]
    text = PROJECT + sums.format("as_ppm", "per_tonne = true\n") + sums.format("as_ppm", 'name = "whole"\n')
    with pytest.raises(
        PlanError,
        match=r"\[schedule.limits\] whole: as_ppm is also per tonne, and \[table\] reblock averages it",
    ):
        pitplan.load(plan_folder(table, text, TWOS))
    with pytest.raises(
        PlanError, match=r"\[schedule.limits\] cu: cu is also per tonne, and \[table\] reblock averages it"
    ):
        pitplan.load(plan_folder(table, PROJECT + sums.format("cu", ""), TWOS))


def test_sides_that_are_not_full_and_fixed_blocks(plan_folder):
    """Five blocks from the west: the third of the new ones holds one. A block is fixed where a part of it is."""
    table = rows(5, 1, 3, must=lambda i, j, k: int((i, k) == (1, 2)), cu=lambda i, j, k: i)
    change = ('file = "blocks.csv"', 'file = "blocks.csv"\nreblock = [2, 1, 2]')
    plan = pitplan.Plan.from_project(plan_folder(table, PROJECT + '[constraints]\nmust_mine = "must"\n', change))
    table = plan.table
    assert (
        table["x"].tolist() == [10, 30, 50] * 2
        and table["z"].tolist() == [10] * 3 + [30] * 3
        and (table["y"] == 5).all()
    )
    assert table["tonnes"].tolist() == [400, 400, 200, 200, 200, 100] and table["cu"].tolist() == [0.5, 2.5, 4] * 2
    assert table["must"].tolist() == [0, 0, 0, 1, 0, 0] and plan.fixed.must_mine.tolist() == [0]


def sub_blocks():
    """Two parents of 20 x 20 x 10 m from 100, 200, 50 on: one whole, one of two unequal halves and a piece without tonnes."""
    frame = pd.DataFrame(
        {"name": list("abcd"), "x": [110.0, 125, 135, 135], "y": [210.0, 210, 205, 215], "z": [55.0, 55, 55, 55]}
    )
    return frame.assign(tonnes=[4000, 1500, 500.5, 0], cu=[0.3, 1, 0, 9], rock=list("RRSS"), region=["1"] * 4)


PARENTS = ('file = "blocks.csv"', 'file = "blocks.csv"\nreblock = { size = [20, 20, 10], corner = [60, 200, 50] }')
SIZE = ("size = [10, 10, 10]\n", "tolerance = 0.02\n")


def test_sub_blocks_by_hand(plan_folder):
    """1500 t of 1 % in 2000.5."""
    plan = pitplan.Plan.from_project(plan_folder(sub_blocks(), PROJECT, PARENTS, SIZE))
    assert plan.table["x"].tolist() == [110, 130] and plan.table["tonnes"].tolist() == [4000, 2000.5]
    assert plan.table["cu"].tolist() == [0.3, round(1500 / 2000.5, 9)] and plan.table["rock"].tolist() == ["R", "R"]
    assert (
        "500 of 6,000 t differ in rock from their block" in plan.notes
        or "501 of 6,000 t differ in rock from their block" in plan.notes
    )


@pytest.mark.parametrize(
    ("changes", "said"),
    [
        ([("reblock = [2, 2, 1]", "reblock = [1, 1, 1]")], r"\[table\] reblock: must be whole numbers"),
        ([("reblock = [2, 2, 1]", "reblock = [2, 1.5, 1]")], r"\[table\] reblock: must be whole numbers"),
        (
            [("reblock = [2, 2, 1]", "reblock = { size = [20, 20, 0], corner = [0, 0, 0] }")],
            r"\[table.reblock\] size: found 0, expected above 0",
        ),
        (
            [("reblock = [2, 2, 1]", "reblock = { size = [20, 20, 10], corner = [5, 0, 0] }")],
            "row 2 column x: lies on the boundary of two blocks of 20 m from 5",
        ),
    ],
)
def test_what_is_wrong_is_named(plan_folder, changes, said):
    with pytest.raises(PlanError, match=said):
        pitplan.Plan.from_project(plan_folder(four(), PROJECT, TWOS, *changes))


def test_rows_in_one_place_are_refused(plan_folder):
    table = pd.concat([sub_blocks(), sub_blocks().tail(1).assign(name="e")])
    with pytest.raises(PlanError, match="row 6 column x, y, z: another row has the same centroid"):
        pitplan.Plan.from_project(plan_folder(table, PROJECT, PARENTS, SIZE))


def hill():
    """Ore of two rocks below a hill of blocks of 10 m, with an odd number of them each way."""
    rng = np.random.default_rng(7)
    table = rows(
        13,
        11,
        6,
        tonnes=lambda i, j, k: 99.7 + 0.013 * i,
        rock=lambda i, j, k: "RS"[(i + j) % 3 == 0],
        region=lambda i, j, k: "12"[i > 6],
    )
    ore = (table["z"] < 35) & table["x"].between(40, 90) & table["y"].between(30, 80)
    table["cu"] = np.where(ore, rng.lognormal(0.7, 0.5, len(table)).round(3), 0)
    return table[(table["z"] < 50) | (table["x"] < 70)].assign(must=0, never=lambda it: (it["x"] > 120).astype(int))


FIXED = '[constraints]\nmust_mine = "must"\nexclude = "never"\n'


@pytest.fixture
def solved_hill(plan_folder):
    def solve():
        path = plan_folder(hill(), PROJECT + FIXED, ('file = "blocks.csv"', 'file = "blocks.csv"\nreblock = [2, 2, 2]'))
        pitplan.write_shells(path, writing=UNVERIFIED)
        return path.parent / "plan"

    return solve


def wrong(folder):
    return {rule.name: rule.differences[0] for rule in verify(folder) if rule.differences}


def test_the_second_look_agrees(solved_hill):
    folder = solved_hill()
    rules = {rule.name: rule for rule in verify(folder)}
    assert not any(rule.differences for rule in rules.values())
    assert f"holds the {len(hill())} rows that lie in it" in rules["reblocked"].holds
    assert (pd.read_csv(folder / "tables/shells.csv")["blocks"] > 0).any()


@pytest.mark.parametrize(
    ("column", "more"), [("tonnes", 1e-5), ("cu", 1e-6), ("rock", "X"), ("region", "X"), ("name", "X"), ("must", 1)]
)
def test_each_number_that_is_bent_is_found(solved_hill, column, more):
    folder = solved_hill()
    table = pd.read_csv(folder / "tables/blocks.csv", dtype={"rock": str, "region": str})
    table.loc[40, column] = table.loc[40, column] + more
    table.to_csv(folder / "tables/blocks.csv", index=False)
    assert column in wrong(folder)["reblocked"]


def by_first(self, codes):
    first = np.unique(self.block, return_index=True)[1]
    return codes[first], 0.0


def by_rows(self, values, places):
    return np.bincount(self.block, values) / np.bincount(self.block)


@pytest.mark.parametrize(("name", "planted"), [("most", by_first), ("means", by_rows)])
def test_rows_that_are_put_together_otherwise_are_found(solved_hill, monkeypatch, name, planted):
    monkeypatch.setattr(reblock.Parts, name, planted)
    assert "reblocked" in wrong(solved_hill())


@pytest.mark.parametrize("metres", [4, 10])
def test_blocks_that_lie_elsewhere_are_found(solved_hill, monkeypatch, metres):
    """So far that rows lie in other blocks the table is told to be another."""
    lattice = reblock.lattice_of
    monkeypatch.setattr(reblock, "lattice_of", lambda edge, *others: lattice([edge[0] + metres, *edge[1:]], *others))
    folder = solved_hill()
    if metres < 10:
        assert wrong(folder) == {"reblocked": "x: blocks of 20 m from 4 on for 20 from 0"}
        return
    with pytest.raises(PlanError, match="18 blocks of the table are not in it"):
        verify(folder)


def test_cells_that_lie_far_apart_are_numbered_by_sorting(plan_folder, monkeypatch):
    path = plan_folder(hill(), PROJECT, ('file = "blocks.csv"', 'file = "blocks.csv"\nreblock = [2, 3, 2]'))
    due = pitplan.Plan.from_project(path).table
    monkeypatch.setattr(reblock, "MOST_SPREAD", 0)
    pd.testing.assert_frame_equal(pitplan.Plan.from_project(path).table, due)


def test_the_audit_groups_rows_as_pandas_does(plan_folder, monkeypatch):
    """Sums, means and codes of most tonnes; places are computed for a few rows at a time."""
    monkeypatch.setattr(reblocking, "PIECE", 7)
    words = ('file = "blocks.csv"', 'file = "blocks.csv"\nreblock = [2, 2, 2]')
    project = project_file.load(plan_folder(hill().sample(frac=1, random_state=3), PROJECT + FIXED, words))
    rows_read = block_table.read(project)
    grid = {"shape": [3, 6, 7], "size": [20, 20, 20], "origin": [10, 10, 50]}
    found = reblocking.together(rows_read, project, grid)
    place = [(rows_read[axis] // 20 * 20 + 10).rename(axis) for axis in "zyx"]
    by = rows_read.assign(content=rows_read["cu"] * rows_read["tonnes"]).groupby(place)
    assert found[["z", "y", "x"]].values.tolist() == [list(it) for it in by["tonnes"].sum().index]
    assert found["tonnes"].tolist() == pytest.approx(by["tonnes"].sum().tolist(), rel=1e-14)
    assert found["cu"].tolist() == pytest.approx((by["content"].sum() / by["tonnes"].sum()).tolist(), rel=1e-14)
    assert found["must"].tolist() == by["must"].max().tolist() and found["never"].tolist() == by["never"].max().tolist()
    for code in ("rock", "region"):
        weights = rows_read.groupby([*place, code])["tonnes"].sum().round(6).unstack(fill_value=0.0)
        assert found[code].tolist() == weights.idxmax(axis=1).tolist() and len(set(found[code])) == 2


def test_a_table_that_is_too_large_by_itself(plan_folder, monkeypatch):
    monkeypatch.setattr(pitplan.blockmodel.grid, "MOST_BLOCKS", 200)
    with pytest.raises(
        PlanError,
        match="shells can reach 858 of the 858 cells, and the solver takes at most 200 blocks",
    ):
        pitplan.Plan.from_project(plan_folder(hill(), PROJECT))
    plan = pitplan.Plan.from_project(
        plan_folder(hill(), PROJECT, ('file = "blocks.csv"', 'file = "blocks.csv"\nreblock = [2, 2, 2]'))
    )
    assert plan.grid.shape == (3, 6, 7)


def test_a_corner_that_is_no_multiple_of_the_size_is_right(plan_folder):
    """All as it was, 5 m to the east."""
    moved = (PARENTS[0], PARENTS[1].replace("corner = [60,", "corner = [65,"))
    path = plan_folder(sub_blocks().assign(x=lambda it: it["x"] + 5), PROJECT, moved, SIZE)
    pitplan.write_shells(path, writing=UNVERIFIED)
    assert pd.read_csv(path.parent / "plan" / "tables/blocks.csv")["x"].tolist() == [115, 135]
    assert [rule.name for rule in verify(path.parent / "plan") if rule.differences] == []


def test_sums_and_means_are_exact_and_rounded_once(plan_folder):
    """Against Python's decimals: tonnes to a gram, grades to nine decimals, halves to the even one."""
    rng = np.random.default_rng(7)
    table = rows(
        6,
        4,
        2,
        tonnes=lambda i, j, k: float(f"{rng.integers(1, 10**9) / 10**6:.6f}"),
        cu=lambda i, j, k: rng.integers(0, 10**5) / 10**4,
    )
    # A block of two rows of 1 t, whose mean of 2 and 3 billionths is a half above the even 2; the other two rows weigh nothing.
    table.loc[:1, "tonnes"], table.loc[:1, "cu"] = 1.0, [0.000000002, 0.000000003]
    table.loc[[6, 7], "tonnes"] = 0.0
    path = plan_folder(
        table, PROJECT, ('file = "blocks.csv"', 'file = "blocks.csv"\nreblock = [2, 2, 1]'), ('id = "name"\n', "")
    )
    found = pitplan.Plan.from_project(path).table.set_index(["x", "y", "z"])
    parts = table.assign(x=table["x"] // 20 * 20 + 10, y=table["y"] // 20 * 20 + 10).groupby(["x", "y", "z"])
    assert len(parts) == len(found) == 12
    for centre, block in parts:
        tonnes, grades = ([Decimal(repr(value)) for value in block[name]] for name in ("tonnes", "cu"))
        whole = sum(tonnes)
        mean = sum(weight * grade for weight, grade in zip(tonnes, grades)) / whole
        assert Decimal(repr(float(found.loc[centre, "tonnes"]))) == whole
        assert found.loc[centre, "cu"] == float(round(mean, 9))
    assert found.loc[(10.0, 10.0, 5.0), "cu"] == 2e-9


def test_tonnes_by_density_are_the_exact_product(plan_folder):
    """0.1 x 3 is 0.3, and 2.655 x 1000 is 2655; products of floats are 0.30000000000000004 and 2654.9999999999995."""
    table = rows(2, 1, 1, cu=lambda i, j, k: 1).drop(columns="tonnes").assign(sg=[0.1, 2.655], volume=[3.0, 1000.0])
    change = ('file = "blocks.csv"', 'file = "blocks.csv"\ndensity = "sg"\nvolume = "volume"')
    assert pitplan.Plan.from_project(plan_folder(table, PROJECT, change)).values.tonnes.tolist() == [0.3, 2655.0]

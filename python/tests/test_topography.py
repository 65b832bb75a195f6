"""Blocks that a topography cuts: shares by hand and by many heights, what is told, and the second look."""

import numpy as np
import pandas as pd
import pytest
from conftest import PROJECT, rows
from helpers.surveys import drawing, layer, tiff
from helpers.turned import turned
from helpers.verified import looked_at
from helpers.writings import PLAIN, UNVERIFIED
from hypothesis import given, strategies as st
from scipy.interpolate import LinearNDInterpolator

import pitplan
from pitplan import PlanError, verify
from pitplan.blockmodel import topography
from pitplan.cli import main
from pitplan.results.folder import read_record
from pitplan.survey.readers import NO_FACES, Topography

CUT = ('file = "blocks.csv"', 'file = "blocks.csv"\ntopography = "topo.csv"')
FAR = [(-100, -100), (-100, 200), (200, -100), (200, 200)]


def plane(tmp_path, height, places=FAR):
    """Far corners of a plane, whose height is a function of x and y."""
    pd.DataFrame([(x, y, height(x, y)) for x, y in places], columns=["x", "y", "z"]).to_csv(
        tmp_path / "topo.csv", index=False
    )


def tonnes_of(path):
    """By the blocks' names."""
    return pitplan.Plan.from_project(path).table.set_index("name")["tonnes"]


@pytest.mark.parametrize(
    ("height", "shares"),
    [
        # Along the diagonal of each block from floor to top.
        (
            lambda x, y: x,
            {
                "b0-0-0": 0.5,
                "b0-0-1": 0,
                "b0-0-2": 0,
                "b1-0-0": 1,
                "b1-0-1": 0.5,
                "b1-0-2": 0,
                "b2-0-0": 1,
                "b2-0-1": 1,
                "b2-0-2": 0.5,
            },
        ),
        # From 5 to 15 m over the first column: half of the lowest block has the ground between 5 and 10 m, and the other half is full.
        (
            lambda x, y: x + 5,
            {"b0-0-0": 0.875, "b0-0-1": 0.125, "b0-0-2": 0, "b1-0-1": 0.875, "b1-0-2": 0.125, "b2-0-2": 0.875},
        ),
        # From corner to corner: of the lowest block a pyramid of a sixth is missing.
        (
            lambda x, y: x + y,
            {"b0-0-0": 5 / 6, "b0-0-1": 1 / 6, "b0-0-2": 0, "b1-0-0": 1, "b1-0-1": 5 / 6, "b1-0-2": 1 / 6},
        ),
        # From 0 to 30 m over the first column: of the lowest block and of the highest a pyramid over a quarter, a third as high.
        (lambda x, y: 2 * x + y, {"b0-0-0": 11 / 12, "b0-0-1": 1 / 2, "b0-0-2": 1 / 12}),
        (lambda x, y: 10, {"b0-0-0": 1, "b0-0-1": 0, "b2-0-2": 0}),
        (lambda x, y: 17.5, {"b0-0-0": 1, "b0-0-1": 0.75, "b0-0-2": 0, "b2-0-1": 0.75}),
        (lambda x, y: 30, {"b0-0-0": 1, "b0-0-1": 1, "b2-0-2": 1}),
    ],
)
def test_a_plane_by_hand(plan_folder, tmp_path, height, shares):
    """Three columns of three blocks of 10 m, of 100 t each."""
    plane(tmp_path, height)
    found = tonnes_of(plan_folder(rows(3, 1, 3), PROJECT, CUT))
    assert {name: found[name] for name in shares} == pytest.approx(
        {name: 100 * share for name, share in shares.items()}, abs=1e-6
    )
    assert (found * 1e6 == (found * 1e6).round()).all()


def test_grades_and_costs_of_what_is_left(plan_folder, tmp_path):
    """Half of each block on the diagonal: 50 t, of the grade of the whole, cost 2 a tonne; what lies above costs nothing."""
    plane(tmp_path, lambda x, y: x)
    plan = pitplan.Plan.from_project(plan_folder(rows(3, 1, 3, cu=lambda i, j, k: 3), PROJECT, CUT))
    blocks = plan.blocks.set_index("name")
    assert (blocks["cu"] == 3).all()
    assert blocks["mining_cost"][["b0-0-0", "b0-0-1", "b1-0-0", "b1-0-1"]].tolist() == [100, 0, 200, 100]
    # 50 t of 3 % with a recovery of a half at 8000 a tonne.
    assert blocks["revenue"][["b0-0-0", "b0-0-1"]].tolist() == [6000, 0]


def test_what_is_told(plan_folder, tmp_path):
    """Of nine blocks of 100 t three are cut to the half, three are air and three are whole; one of those had no tonnes before."""
    plane(tmp_path, lambda x, y: x)
    plan = pitplan.Plan.from_project(
        plan_folder(rows(3, 1, 3, tonnes=lambda i, j, k: 100 * ((i, k) != (0, 2))), PROJECT, CUT)
    )
    said = "3 blocks are cut by this topography and 2 lie above it, as air; 450 of 800 t lie below it"
    assert [note for note in plan.notes if "topo.csv" in note] == [f"{tmp_path / 'topo.csv'}: {said}"]
    assert plan.table["tonnes"].sum() == 450


def test_densities_volumes_and_the_size_of_blocks(plan_folder, tmp_path):
    """Half a block of 1,000 cubic metres, or of 600 by its column, at 2.5 t."""
    plane(tmp_path, lambda x, y: x)
    table = rows(1, 1, 1).drop(columns="tonnes").assign(sg=2.5, vol=600)
    for more, tonnes in (("", 1250), ('\nvolume = "vol"', 750)):
        change = (CUT[0], f'{CUT[1]}\ndensity = "sg"{more}')
        path = plan_folder(table, PROJECT, change)
        assert tonnes_of(path).tolist() == [tonnes]
        assert [rule.differences for rule in looked_at(pitplan.Plan.from_project(path))] == [()] * 12


def test_blocks_that_are_put_together_are_cut_as_a_whole(plan_folder, tmp_path):
    """Of four blocks of 10 m in one of 20 x 10 x 20 m, with 100, 200, 300 and 400 t, half lies below the diagonal."""
    plane(tmp_path, lambda x, y: x)
    table = rows(2, 1, 2, tonnes=lambda i, j, k: 100 + 100 * i + 200 * k, cu=lambda i, j, k: k)
    plan = pitplan.Plan.from_project(plan_folder(table, PROJECT, (CUT[0], f"{CUT[1]}\nreblock = [2, 1, 2]")))
    assert plan.table["tonnes"].tolist() == [500] and plan.table["cu"].tolist() == [0.7]
    assert [rule.differences for rule in looked_at(plan)] == [()] * 13


def test_cells_without_rows_are_cut_too(plan_folder, tmp_path):
    """The middle column has no rows and is rock of 80 t a cell: one whole, one half, and air."""
    plane(tmp_path, lambda x, y: x)
    table = rows(3, 1, 3)
    absent = (CUT[0], f'{CUT[1]}\nmissing_blocks = {{ tonnes = 80, rock_type = "R", domain = "1" }}')
    plan = pitplan.Plan.from_project(plan_folder(table[table["x"] != 15], PROJECT, absent))
    blocks = plan.blocks
    assert blocks.loc[blocks["x"] == 15, "tonnes"].tolist() == [0, 40, 80]
    assert [rule.differences for rule in looked_at(plan)] == [()] * 12


@pytest.mark.parametrize("degrees", [30, -12.5])
def test_a_grid_that_is_turned(plan_folder, tmp_path, degrees):
    """Table and topography turned along, to a micrometre: the same tonnes, to what that makes."""
    rng = np.random.default_rng(2)
    points = pd.DataFrame({"x": rng.uniform(-20, 80, 60), "y": rng.uniform(-20, 60, 60), "z": rng.uniform(0, 40, 60)})
    table = rows(6, 4, 4)
    no_size = ("[grid]\nsize = [10, 10, 10]\n", "")
    found = []
    for angle in (0, degrees):
        turned(points, angle, 6).to_csv(tmp_path / "topo.csv", index=False)
        path = plan_folder(turned(table, angle, 6), PROJECT, CUT, no_size)
        found.append(tonnes_of(path))
    assert abs(pitplan.Plan.from_project(path).grid.azimuth - degrees) < 1e-4
    assert found[1].to_numpy() == pytest.approx(found[0].to_numpy(), abs=1e-3)
    assert ((found[0] > 0) & (found[0] < 100)).sum() > 20
    assert [rule.differences for rule in looked_at(pitplan.Plan.from_project(path)) if rule.name == "topography"] == [
        ()
    ]


@given(st.integers(0, 10**6))
def test_shares_are_those_of_many_heights(seed):
    """Points in no order, by scipy's own surface between them at 150 x 150 places in each block."""
    rng = np.random.default_rng(seed)
    points = np.column_stack([rng.uniform(-5, 35, 40), rng.uniform(-5, 25, 40), rng.uniform(-5, 40, 40)])
    points = np.concatenate([points, [(x, y, rng.uniform(-5, 40)) for x in (-9, 39) for y in (-9, 29)]])
    grid = pitplan.blockmodel.grid.Grid((3, 2, 3), (5, 5, 25), (10, 10, 10), np.arange(18))
    found = topography.below(topography.triangles_of(Topography(points, NO_FACES)), grid)
    within = (np.arange(150) + 0.5) / 15
    surface = LinearNDInterpolator(points[:, :2] - points[:, :2].mean(axis=0), points[:, 2])
    for column, row in np.ndindex(3, 2):
        x, y = np.meshgrid(10 * column + within, 10 * row + within)
        heights = surface(*(axis - middle for axis, middle in zip((x, y), points[:, :2].mean(axis=0))))
        expected = [np.clip(heights / 10 - level, 0, 1).mean() for level in range(3)]
        assert found.share[:, 3 * row + column] == pytest.approx(expected, abs=2e-3)
    assert found.covered == pytest.approx(1)


def test_few_triangles_at_a_time_are_the_same(monkeypatch):
    rng = np.random.default_rng(4)
    points = np.column_stack([rng.uniform(-5, 65, 80), rng.uniform(-5, 45, 80), rng.uniform(0, 40, 80)])
    grid = pitplan.blockmodel.grid.Grid((4, 4, 6), (5, 5, 35), (10, 10, 10), np.arange(96))
    triangles = topography.triangles_of(Topography(points, NO_FACES))
    whole = topography.below(triangles, grid), topography.heights(triangles, grid)
    monkeypatch.setattr(topography, "PAIRS", 3)
    part = topography.below(triangles, grid), topography.heights(triangles, grid)
    assert part[0].share == pytest.approx(whole[0].share) and part[0].covered == pytest.approx(whole[0].covered)
    assert (part[1] == whole[1]).all()


def valley(space):
    """A square of 30 m round the columns, which falls from 15 m at two corners to 0 along the line between the others."""
    low, high = [(0, 0, 0), (30, 30, 0)], [(0, 30, 15), (30, 0, 15)]
    for corner in high:
        space.add_3dface([*low, corner], **layer("TOPO"))


def test_faces_of_a_drawing(plan_folder, tmp_path):
    """Along the line the ground lies at |x - y| / 2: over a column at it from 0 to 5 m, a sixth of 10 m on the mean; over one at a corner
    across from 5 to 15 m, 10 m on the mean, of which a sixth of 5 m is above 10."""
    drawing(tmp_path / "topo.dxf", valley)
    path = plan_folder(
        rows(3, 3, 2), PROJECT, (CUT[0], 'file = "blocks.csv"\ntopography = { file = "topo.dxf", layer = "TOPO" }')
    )
    found = tonnes_of(path)
    expected = {
        "b0-0-0": 100 / 6,
        "b1-1-0": 100 / 6,
        "b1-1-1": 0,
        "b0-2-0": 100 - 100 / 12,
        "b0-2-1": 100 / 12,
        "b1-0-0": 50,
        "b1-0-1": 0,
    }
    assert {name: found[name] for name in expected} == pytest.approx(expected, abs=1e-6)
    assert any("2 triangles of the layer TOPO, read by ezdxf" in note for note in pitplan.Plan.from_project(path).notes)


def test_faces_that_stand_twice_count_once(plan_folder, tmp_path):
    """In another order too; the same tonnes as those of the valley."""
    text = 'file = "blocks.csv"\ntopography = { file = "topo.dxf", layer = "TOPO" }'

    def again(space):
        space.add_3dface([(0, 30, 15), (0, 0, 0), (30, 30, 0)], **layer("TOPO"))

    found = []
    for shapes in ((valley,), (valley, again, valley)):
        drawing(tmp_path / "topo.dxf", *shapes)
        path = plan_folder(rows(3, 3, 2), PROJECT, (CUT[0], text))
        found.append(tonnes_of(path))
        assert any("2 triangles of the layer TOPO" in note for note in pitplan.Plan.from_project(path).notes)
    assert found[0].equals(found[1]) and (found[0] < 100).any()


def test_a_topography_is_read_once_while_it_stays(plan_folder, tmp_path, monkeypatch):
    """Plans of other costs take what was cut; with another file or grid it is cut anew."""
    right, cuts = topography.below, []
    monkeypatch.setattr(topography, "below", lambda *given: cuts.append(1) or right(*given))
    plane(tmp_path, lambda x, y: x)
    path = plan_folder(rows(3, 1, 3), PROJECT, CUT)
    assert [tonnes_of(path)["b0-0-0"] for _ in range(3)] == [50] * 3 and len(cuts) == 1
    plane(tmp_path, lambda x, y: x + 5)
    assert tonnes_of(path)["b0-0-0"] == 87.5 and len(cuts) == 2
    assert tonnes_of(plan_folder(rows(4, 1, 3), PROJECT, CUT))["b0-0-0"] == 87.5 and len(cuts) == 3


def test_cells_of_a_raster(plan_folder, tmp_path):
    """The plane x + y at middles of cells of 4 m, which a raster's triangles hold."""
    x, y = np.meshgrid(-10 + 4 * np.arange(14), 22 - 4 * np.arange(10))
    tiff(tmp_path / "topo.tif", x + y, (-12.0, 4.0, 0.0, 24.0, 0.0, -4.0))
    found = tonnes_of(plan_folder(rows(3, 1, 3), PROJECT, (CUT[0], 'file = "blocks.csv"\ntopography = "topo.tif"')))
    assert found[["b0-0-0", "b0-0-1", "b0-0-2", "b1-0-1"]].tolist() == pytest.approx(
        [500 / 6, 100 / 6, 0, 500 / 6], abs=1e-5
    )


def test_columns_beyond_the_points_are_left_whole(plan_folder, tmp_path):
    """The points end in the middle of the second of four columns, from where on nothing is known."""
    plane(tmp_path, lambda x, y: 5, [(-1, -1), (-1, 11), (15, -1), (15, 11)])
    plan = pitplan.Plan.from_project(plan_folder(rows(4, 1, 2), PROJECT, CUT))
    assert plan.table.set_index("name")["tonnes"].tolist() == [50, 50, 100, 100, 0, 0, 100, 100]
    file = tmp_path / "topo.csv"
    warnings = [note for note in plan.notes if note.startswith("WARNING: ") and "topo" in note]
    assert warnings == [
        f"WARNING: {file}: 2 columns of blocks lie beyond it; their blocks are not cut",
        f"WARNING: {file}: 1 columns of blocks are partly covered; their blocks are cut by that part",
    ]
    assert [rule.differences for rule in looked_at(plan)] == [()] * 12


def test_rock_that_the_table_lacks_is_told(plan_folder, tmp_path):
    """Over the second column the ground lies at 21 m, and the table ends at 10; over the first it lies at 21 too and the table has 30."""
    plane(tmp_path, lambda x, y: 21)
    table = rows(2, 1, 3)
    plan = pitplan.Plan.from_project(plan_folder(table[(table["x"] < 10) | (table["z"] < 10)], PROJECT, CUT))
    said = (
        "over 1 columns of blocks it lies more than one block above the highest row: material there is not in the table"
    )
    assert any(note == f"WARNING: {tmp_path / 'topo.csv'}: {said}" for note in plan.notes)


def over_each_other(space):
    for height in (5, 9):
        space.add_3dface([(-50, -50, height), (90, -50, height), (20, 90, height)], **layer("TOPO"))


@pytest.mark.parametrize(
    ("points", "said"),
    [
        (
            "100,0,5\n110,0,5\n110,9,5\n",
            "topo.csv: covers no block: its extents .x 100 to 110, y 0 to 9. do not overlap the block model .x 5 to 25",
        ),
        (
            "-99,-99,-1\n99,-99,-1\n0,99,-1\n",
            "topo.csv: all blocks lie above it: check that its heights are in metres",
        ),
        ("0,5,5\n10,5,5\n20,5,5\n", "topo.csv: its points lie on one line and define no surface"),
        ("", "topo.csv: has no heights"),
    ],
)
def test_what_is_refused(plan_folder, tmp_path, points, said):
    (tmp_path / "topo.csv").write_text("x,y,z\n" + points)
    with pytest.raises(PlanError, match=said):
        pitplan.Plan.from_project(plan_folder(rows(3, 1, 3), PROJECT, CUT))


def test_two_surfaces_are_refused(plan_folder, tmp_path):
    drawing(tmp_path / "topo.dxf", over_each_other)
    path = plan_folder(rows(3, 1, 3), PROJECT, (CUT[0], 'file = "blocks.csv"\ntopography = "topo.dxf"'))
    with pytest.raises(
        PlanError,
        match="topo.dxf: has several heights over 3 columns of blocks, the first at 5, 5: select one surface by its layer",
    ):
        pitplan.Plan.from_project(path)


def test_sums_of_whole_blocks_do_not_go_with_it(plan_folder):
    said = r"\[schedule.limits\] cu: is of whole blocks, and \[table\] topography cuts some: set per_tonne"
    with pytest.raises(PlanError, match=said):
        pitplan.load(plan_folder(rows(3, 1, 3), PROJECT + '[[schedule.limits]]\ncolumn = "cu"\nmax = 1\n', CUT))


def hill():
    """Ore under uneven ground."""
    rng = np.random.default_rng(11)
    table = rows(9, 8, 5, tonnes=lambda i, j, k: 99.7 + 0.013 * i)
    ore = table["x"].between(30, 60) & table["y"].between(20, 60) & (table["z"] < 35)
    return table.assign(cu=np.where(ore, rng.lognormal(0.5, 0.4, len(table)).round(3), 0.0), must=0, never=0)


@pytest.fixture
def cut_hill(plan_folder, tmp_path):
    """The folder of its shells, without a second look."""
    rng = np.random.default_rng(12)
    points = [(x, y, 25 + 0.15 * x + rng.uniform(-9, 9)) for x in range(-7, 106, 7) for y in range(-7, 96, 7)]
    pd.DataFrame(points, columns=["x", "y", "z"]).to_csv(tmp_path / "topo.csv", index=False)
    path = plan_folder(hill(), PROJECT, CUT)
    pitplan.write_shells(path, writing=UNVERIFIED)
    return path.parent / "plan"


def wrong(folder):
    return {rule.name: rule.differences[0] for rule in verify(folder) if rule.differences}


def test_the_second_look_agrees(cut_hill):
    rules = {rule.name: rule for rule in verify(cut_hill)}
    assert not any(rule.differences for rule in rules.values())
    assert (
        rules["topography"].holds
        == "tonnes lie below the triangles of the topography, in 72 columns of blocks exactly, in 72 by 36 heights to a tenth"
    )
    tonnes = pd.read_csv(cut_hill / "tables/blocks.csv")["tonnes"]
    assert (tonnes == 0).sum() > 20 and ((tonnes > 0) & (tonnes < 99)).sum() > 60
    assert (pd.read_csv(cut_hill / "tables/shells.csv")["blocks"] > 0).any()
    assert set(read_record(cut_hill)["inputs"]) == {"project.toml", "blocks.csv", "topo.csv"}


@pytest.mark.parametrize("more", [1e-4, -1e-4, 60])
def test_tonnes_that_are_bent_are_found(cut_hill, more):
    blocks = pd.read_csv(cut_hill / "tables/blocks.csv", dtype={"region": str})
    row = blocks.index[(blocks["tonnes"] > 5) & (blocks["tonnes"] < 90)][0]
    blocks.loc[row, "tonnes"] += more
    blocks.to_csv(cut_hill / "tables/blocks.csv", index=False)
    assert f"block {blocks['name'][row]}: " in wrong(cut_hill)["topography"]


def test_many_columns_are_looked_at_by_heights(cut_hill, monkeypatch):
    """Of a block of which but a few columns are looked at exactly a fifth is missed."""
    from planaudit.ground import topography as second

    monkeypatch.setattr(second, "EXACTLY", 2)
    blocks = pd.read_csv(cut_hill / "tables/blocks.csv", dtype={"region": str})
    row = blocks.index[(blocks["tonnes"] > 30) & (blocks["tonnes"] < 70)][5]
    blocks.loc[row, "tonnes"] += 20
    blocks.to_csv(cut_hill / "tables/blocks.csv", index=False)
    assert f"block {blocks['name'][row]}: " in wrong(cut_hill)["topography"]


@pytest.mark.parametrize("tonnes", [150, -1])
def test_no_block_has_more_than_the_table_gives_or_less_than_nothing(cut_hill, monkeypatch, tonnes):
    """Of a column that is not looked at otherwise."""
    from planaudit.ground import topography as second

    monkeypatch.setattr(second, "EXACTLY", 1)
    monkeypatch.setattr(second, "MANY", 1)
    blocks = pd.read_csv(cut_hill / "tables/blocks.csv", dtype={"region": str})
    blocks.loc[50, "tonnes"] = tonnes
    blocks.to_csv(cut_hill / "tables/blocks.csv", index=False)
    assert f"block {blocks['name'][50]}: {tonnes} t for " in wrong(cut_hill)["topography"]


@pytest.mark.parametrize("bent", ["share", "heights"])
def test_a_run_that_cuts_wrong_is_refused(plan_folder, tmp_path, monkeypatch, bent):
    """Blocks are left whole, or cut a metre too high."""
    plane(tmp_path, lambda x, y: 12 + 0.2 * x)
    right = topography.below
    if bent == "share":
        monkeypatch.setattr(topography, "cut_by_topography", lambda frame, *_: (frame, []))
    else:
        monkeypatch.setattr(topography, "below", lambda triangles, grid: right(triangles + [0, 0, 1], grid))
    with pytest.raises(PlanError, match="topography: block "):
        pitplan.write_shells(plan_folder(rows(6, 5, 3, cu=lambda i, j, k: 2), PROJECT, CUT), writing=PLAIN)


def test_a_model_too_large_for_the_program(plan_folder, tmp_path, monkeypatch):
    """Ore far from the pit and above the ground is air and left out with the rest; the second look says so too."""
    monkeypatch.setattr(pitplan.blockmodel.grid, "MOST_BLOCKS", 3000)
    ore = {(9, 8, 4): 30, (10, 8, 4): 9, (23, 19, 8): 30}
    table = rows(24, 20, 9, cu=lambda i, j, k: ore.get((i, j, k), 0))
    plane(tmp_path, lambda x, y: 75, [(-900, -900), (900, -900), (0, 2000)])
    path = plan_folder(table, PROJECT, CUT)
    pitplan.write_shells(path, writing=UNVERIFIED)
    plan = pitplan.Plan.from_project(path)
    assert plan.left_out > 1000 and plan.table["tonnes"].isin([0, 50, 100]).all()
    assert not wrong(path.parent / "plan")


def test_a_sensitivity_of_blocks_that_are_cut(plan_folder, tmp_path):
    plane(tmp_path, lambda x, y: 5)
    text = (
        PROJECT.replace("processing_capacity = 100", "processing_capacity = 100\nselected = 1.0")
        + '[sensitivity]\nchanges = [0.1]\nparameters = ["price"]\n'
    )
    path = plan_folder(rows(5, 3, 1, cu=lambda i, j, k: 6 * ((i, j) == (1, 1))), text, CUT)
    table = pitplan.write_sensitivity(path, writing=PLAIN)
    # 50 t of 6 % with a recovery of a half at 8000 a tonne, with 10 for processing and 2 for mining.
    assert table["undiscounted_cash_flow"].tolist() == pytest.approx([50 * (240 - 12), 50 * (264 - 12)])
    folder = path.parent / "plan" / "sensitivity"
    blocks = pd.read_csv(folder / "tables/blocks.csv", dtype={"region": str})
    assert main(["verify", str(folder)]) == 0
    blocks.loc[0, "tonnes"] = 51
    blocks.to_csv(folder / "tables/blocks.csv", index=False)
    assert main(["verify", str(folder)]) == 1

"""Grids that are turned about the vertical: found from the centres or given, planned as if they were straight, and told in the planner's
own coordinates."""

import json
import re
import shutil
from pathlib import Path

import numpy as np
import pandas as pd
import pytest
from conftest import PROJECT, rows
from helpers.turned import turned
from helpers.writings import PLAIN
from matplotlib.figure import Figure

import pitplan
from pitplan import PlanError
from pitplan.blockmodel import wizard
from pitplan.blockmodel.grid import Grid
from pitplan.cli import main
from pitplan.figures import map_marks
from pitplan.report import viewer3d
from pitplan.results.folder import read_folder, read_record
from pitplan.studies.scenarios import realisations

NO_SIZE = ("[grid]\nsize = [10, 10, 10]\n", "")
ORE = {(6, 5, 1): 2.4, (2, 8, 2): 3.0, (10, 2, 2): 2.5, (1, 1, 3): 0.5}
# Uneven walls: turned the wrong way, or not at all, other blocks are dug.
WALLS = [(0, 60), (90, 35), (180, 50), (290, 40)]


def domains_at(degrees):
    """The uneven walls with their azimuths turned along."""
    return ('pattern = "1:5"', f"azimuths = {[[(azimuth + degrees) % 360, angle] for azimuth, angle in WALLS]}")


def hill():
    table = rows(12, 11, 6, cu=lambda i, j, k: ORE.get((i, j, k), 0))
    return table[(table["z"] < 50) | (table["x"] < 60)].reset_index(drop=True)


def planned(plan_folder, table, text=PROJECT, *changes):
    """The folder of a plan and its blocks by name."""
    path = plan_folder(table, text, *changes)
    pitplan.write_shells(path, writing=PLAIN)
    folder = path.parent / "plan"
    return folder, pd.read_csv(folder / "tables/blocks.csv").set_index("name")


@pytest.mark.parametrize("degrees", [30, -12.5, 44])
def test_a_turned_model_has_the_pit_of_the_straight_one(plan_folder, degrees):
    """Every shell, row by row, with walls that differ by azimuth, which are turned along."""
    _, straight = planned(plan_folder, hill(), PROJECT, domains_at(0), NO_SIZE)
    folder, found = planned(plan_folder, turned(hill(), degrees), PROJECT, domains_at(degrees), NO_SIZE)
    assert straight["revenue_factor"].nunique() == 4
    alike = ["id", "tonnes", "mining_cost", "revenue", "revenue_factor", "process_revenue_factor"]
    pd.testing.assert_frame_equal(found[alike], straight[alike])
    # The planner's own coordinates stand in the answer.
    own = turned(hill(), degrees).set_index("name")
    assert (found[["x", "y", "z"]] == own.loc[found.index, ["x", "y", "z"]]).all(axis=None)
    grid = read_record(folder)["grid"]
    assert abs(grid["azimuth"] - degrees) < 0.01 and grid["shape"] == [6, 11, 12] and grid["size"] == [10, 10, 10]


def test_walls_that_are_not_turned_along_make_another_pit(plan_folder):
    """So the walls tell which way the grid is turned: straight ones, and such as are turned the other way."""
    _, straight = planned(plan_folder, hill(), PROJECT, domains_at(0), NO_SIZE)
    for degrees in (0, -40):
        _, other = planned(plan_folder, turned(hill(), 40), PROJECT, domains_at(degrees), NO_SIZE)
        assert (other["revenue_factor"] != straight["revenue_factor"]).any()


@pytest.mark.parametrize("degrees", [30, -17.5, 44, 3, 0.05, 12.3456])
@pytest.mark.parametrize("size", ["size = [10, 10, 10]", ""])
@pytest.mark.parametrize("decimals", [2, 4])
def test_the_azimuth_is_found(plan_folder, degrees, size, decimals):
    path = plan_folder(turned(rows(40, 35, 2), degrees, decimals), PROJECT, ("size = [10, 10, 10]", size))
    plan = pitplan.Plan.from_project(path)
    assert (
        abs(plan.grid.azimuth - degrees) < 0.001 and plan.grid.size == (10, 10, 10) and plan.grid.shape == (2, 35, 40)
    )
    assert any(
        f"grid north has azimuth {plan.grid.azimuth:.10g}, found from the centroids" in line for line in plan.summary
    )


def test_blocks_may_be_longer_than_wide_and_the_angle_any(plan_folder):
    """Of 10 x 25 m: given as 30 degrees the long side goes to azimuth 30, given as 120 the short one."""
    table = turned(rows(9, 7, 2).assign(y=lambda it: it["y"] * 2.5), 30)
    for azimuth, size, shape in (
        (30, (10, 25, 10), (2, 7, 9)),
        (120, (25, 10, 10), (2, 9, 7)),
        (-150, (10, 25, 10), (2, 7, 9)),
    ):
        grid = pitplan.Plan.from_project(
            plan_folder(table, PROJECT, ("size = [10, 10, 10]", f"azimuth = {azimuth}"))
        ).grid
        assert grid.azimuth == azimuth and grid.size == pytest.approx(size) and grid.shape == shape
        x, y, _ = grid.centres(grid.rows)
        assert np.abs(x - table["x"]).max() < 0.002 and np.abs(y - table["y"]).max() < 0.002


def test_an_azimuth_that_is_not_that_of_the_centres_is_refused_with_both(plan_folder):
    given = lambda azimuth: ("size = [10, 10, 10]", f"azimuth = {azimuth}")  # noqa: E731
    for table, azimuth, found in (
        (turned(rows(20, 18, 2), 30), 31, 30),
        (rows(20, 18, 2), 12, 0),
        (turned(rows(20, 18, 2), 30), 0, 30),
    ):
        said = f"azimuth is {azimuth} degrees, and the centres lie on a grid whose north has azimuth {found}$"
        with pytest.raises(PlanError, match=said):
            pitplan.Plan.from_project(plan_folder(table, PROJECT, given(azimuth)))
    with pytest.raises(PlanError, match=r"\[grid\] azimuth: found 361, expected -360 to 360"):
        pitplan.Plan.from_project(plan_folder(rows(3, 3, 2), PROJECT, given(361)))


def test_a_centre_off_the_turned_grid_is_named_by_its_row(plan_folder):
    table = turned(rows(20, 18, 2), 30)
    table.loc[33, "x"] += 0.3
    off = r"row 35 column x, y: \S+, \S+ is off the grid of blocks of 10 x 10 m turned by 30 degrees by 0.2\d+ m"
    with pytest.raises(PlanError, match=off):
        pitplan.Plan.from_project(plan_folder(table, PROJECT, NO_SIZE))
    table = turned(rows(20, 18, 2), 30)
    table.loc[40, ["x", "y"]] = table.loc[41, ["x", "y"]]
    with pytest.raises(PlanError, match="row 43 column x, y, z: the block of row 42 lies there too"):
        pitplan.Plan.from_project(plan_folder(table, PROJECT, NO_SIZE))
    with pytest.raises(
        PlanError, match=r"no neighbours along the grid's north: give the blocks' size as \[grid\] size"
    ):
        pitplan.Plan.from_project(plan_folder(turned(rows(9, 1, 2), 30), PROJECT, NO_SIZE))


# The sides 3, 4 and 5: the grid's east goes by (0.8, -0.6), its north by (0.6, 0.8), so that all is decimals.
THREE_FOUR_FIVE = float(np.degrees(np.arctan2(3, 4)))


def by_hand(east, north):
    return 1000 + 0.8 * east + 0.6 * north, 5000 - 0.6 * east + 0.8 * north


@pytest.fixture
def one_block(plan_folder):
    """Five columns, four rows, two levels of 10 m from the corner 1000, 5000: the pit is the upper block of column 2 and row 1."""
    table = rows(5, 4, 2, cu=lambda i, j, k: 6 if (i, j, k) == (2, 1, 1) else 0)
    table["x"], table["y"] = (axis.round(3) for axis in by_hand(table["x"], table["y"]))
    path = plan_folder(table)
    pitplan.write_shells(path, writing=PLAIN)
    return path


# Corners of the pit 20 to 30 m along the grid's east and 10 to 20 m along its north: 1000 + 16 + 6, 5000 - 12 + 8 and so on.
CORNERS = {(1022, 4996), (1030, 4990), (1036, 4998), (1028, 5004)}


def test_the_grid_of_sides_3_4_5(one_block):
    grid = read_folder(one_block.parent / "plan").grid
    assert abs(grid.azimuth - 36.8699) < 0.01
    # The centre of the first block is 5, 5 along the axes: 1000 + 4 + 3, 5000 - 3 + 4.
    assert np.allclose(grid.origin, (1007, 5001, 15), atol=0.002) and np.allclose(
        (grid.frame.x, grid.frame.y), (1000, 5000), atol=0.002
    )
    assert grid.extent() == (0, 50, 0, 40, 0, 20)


@pytest.mark.parametrize("kind", ["stl", "obj"])
def test_surfaces_stand_in_the_planners_coordinates(one_block, kind):
    pytest.importorskip("vtk", reason="needs the Debian package python3-vtk9")
    assert main(["export", str(one_block.parent / "plan"), "--to", kind, "--revenue-factor", "1.00"]) == 0
    text = (one_block.parent / "plan" / f"pit-1.00.{kind}").read_text()
    points = np.array(re.findall(r"^\s*v(?:ertex)? (\S+) (\S+) (\S+)", text, re.MULTILINE), dtype=float).round(1)
    assert {(x, y) for x, y, _ in points} == CORNERS and {z for _, _, z in points} == {10, 20}


def test_a_drawing_stands_in_the_planners_coordinates(one_block):
    ezdxf = pytest.importorskip("ezdxf", reason="needs the Debian package python3-ezdxf")
    assert main(["export", str(one_block.parent / "plan"), "--to", "dxf", "--revenue-factor", "1.00"]) == 0
    drawing = ezdxf.readfile(one_block.parent / "plan" / "pit-1.00.dxf")
    lines = {
        line.dxf.layer: {(round(p.x, 1), round(p.y, 1), p.z) for p in line.points()}
        for line in drawing.modelspace().query("POLYLINE")
    }
    assert lines == {f"{kind}_10": {(x, y, z) for x, y in CORNERS} for kind, z in (("TOE", 10), ("CREST", 20))}


def test_strings_and_lines_stand_in_the_planners_coordinates(one_block):
    assert main(["export", str(one_block.parent / "plan"), "--to", "str", "--revenue-factor", "1.00"]) == 0
    rows = [line.split(",") for line in (one_block.parent / "plan" / "lines-1.00.str").read_text().splitlines()]
    # A row is number, y, x, z; heads, breaks and the end have the number or the place 0.
    points = {(round(float(x), 1), round(float(y), 1), float(z)) for number, y, x, z, *_ in rows[2:] if float(number)}
    assert points == {(x, y, z) for x, y in CORNERS for z in (10, 20)}
    assert main(["export", str(one_block.parent / "plan"), "--to", "lines", "--revenue-factor", "1.00"]) == 0
    table = pd.read_csv(one_block.parent / "plan" / "lines-1.00.csv")
    assert set(zip(table["x"].round(1), table["y"].round(1))) == CORNERS


def test_the_ground_stands_in_the_planners_coordinates(one_block):
    """The grid's sides are 50 m along 4, -3 and 40 m along 3, 4, of 5, and the pit is one block deep."""
    pytest.importorskip("vtk", reason="needs the Debian package python3-vtk9")
    assert (
        main(
            ["export", str(one_block.parent / "plan"), "--to", "obj", "--surface", "ground", "--revenue-factor", "1.00"]
        )
        == 0
    )
    (path,) = (one_block.parent / "plan").glob("*.obj")
    points = np.array(re.findall(r"^v (\S+) (\S+) (\S+)", path.read_text(), re.MULTILINE), dtype=float).round(1)
    sides = {(1000, 5000), (1040, 4970), (1064, 5002), (1024, 5032)}
    assert sides <= {(x, y) for x, y, _ in points} and {(x, y) for x, y, z in points if z == 10} == CORNERS


def test_cells_of_vtk_stand_in_the_planners_coordinates(one_block):
    vtk = pytest.importorskip("vtk", reason="needs the Debian package python3-vtk9")
    for kind, reader in (("vtu", vtk.vtkXMLUnstructuredGridReader()), ("vti", vtk.vtkXMLImageDataReader())):
        assert main(["export", str(one_block.parent / "plan"), "--to", kind]) == 0
        reader.SetFileName(str(one_block.parent / "plan" / f"pit.{kind}"))
        reader.Update()
        data = reader.GetOutput()
        factor = data.GetCellData().GetArray("revenue_factor")
        (mined,) = [cell for cell in range(data.GetNumberOfCells()) if factor.GetValue(cell) > 0]
        points = data.GetCell(mined).GetPoints()
        corners = np.array([points.GetPoint(number) for number in range(8)]).round(1)
        assert {(x, y) for x, y, _ in corners} == CORNERS and {z for _, _, z in corners} == {10, 20}


def test_the_page_knows_where_north_is(one_block):
    """Along the grid's axes the planner's north goes by -0.6 east and 0.8 north: to the left of the grid's, which is turned clockwise."""
    model = viewer3d.model_of(read_folder(one_block.parent / "plan"))
    assert np.allclose(model["north"], (-0.6, 0.8), atol=1e-4)
    # Its axes are the grid's own, from its corner.
    assert model["corner"] == [0, 0, 0] and model["axes"] == [
        "along azimuth 126.87\N{DEGREE SIGN}",
        "along azimuth 36.87\N{DEGREE SIGN}",
    ]


def test_the_planners_table_comes_back(one_block):
    assert main(["export", str(one_block.parent / "plan"), "--to", "table"]) == 0
    table = pd.read_csv(one_block.parent / "plan" / "table.csv").set_index("name")
    assert table.index[table["revenue_factor"] > 0.0].tolist() == ["b2-1-1"]
    # 25, 15 along the axes: 1000 + 20 + 9, 5000 - 15 + 12.
    assert tuple(table.loc["b2-1-1", ["x", "y"]]) == (1029.0, 4997.0)


def turned_grid():
    return Grid((2, 4, 5), (1007.0, 5001.0, 15.0), (10.0, 10.0, 10.0), np.arange(40), THREE_FOUR_FIVE)


def test_the_arrow_of_a_map_goes_to_the_planners_north():
    """By its ends on the map: of 50 x 40 m along the grid, where north goes by -0.6 and 0.8."""
    axes = Figure().subplots()
    map_marks.mark_map(axes, turned_grid())
    arrow, letter = [text for text in axes.texts if text.get_text() in ("", "N")][:2]
    along = (np.array(arrow.xy) - np.array(arrow.xyann)) * (50, 40)
    assert np.allclose(along / np.hypot(*along), (-0.6, 0.8)) and letter.get_text() == "N"


def test_maps_and_sections_say_along_which_axes_they_go():
    grid = turned_grid()
    assert map_marks.axes_of_map(grid) == ("along azimuth 126.8699° from x 1000, y 5000", "along azimuth 36.8699°")
    # Row 2 is 25 m from the corner along the grid's north, column 3 is 35 m along its east.
    assert map_marks.section_titles(grid, 2, 3) == (
        "along azimuth 126.8699° (A) at 25 m along azimuth 36.8699°",
        "along azimuth 36.8699° (B) at 35 m along azimuth 126.8699°",
    )


def test_a_section_of_a_turned_model_is_asked_for_along_its_axes(one_block, plan_folder):
    table = pd.read_csv(one_block.parent / "blocks.csv")
    path = plan_folder(table, PROJECT + "[figures]\nnorth = 5002\n")
    with pytest.raises(
        PlanError, match=r"\[figures\] north: 5002 is beyond the model, from 0 to 40 m along azimuth 36.8\d*°"
    ):
        pitplan.write_shells(path, writing=PLAIN)


def turned_points(points, degrees):
    """Rows x, y, and more, as `turned` does it."""
    moved = turned(pd.DataFrame(points, columns=list("xyz")[: len(points[0])], dtype=float), degrees, 6)
    return moved.to_csv(index=False)


def test_surfaces_and_areas_are_the_planners(plan_folder, tmp_path):
    """A cut of two blocks to 40 m, and a lease whose edge leaves out what lies in the east; each turned along."""
    surface = [(x, y, 40 if x < 30 and y < 20 else 70) for x in range(5, 120, 10) for y in range(5, 110, 10)]
    lease = [(-1, -1), (91, -1), (91, 111), (-1, 111)]
    text = (
        PROJECT
        + '[constraints]\nas_mined = "mined.csv"\ntopography = "blocks"\n[[constraints.areas]]\npolygon = "lease.csv"\nexclude = "outside"\n'
    )
    found = []
    for degrees in (0, 30):
        (tmp_path / "mined.csv").write_text(turned_points(surface, degrees))
        (tmp_path / "lease.csv").write_text(turned_points(lease, degrees))
        table = turned(hill(), degrees)
        found.append(planned(plan_folder, table, text, domains_at(degrees), NO_SIZE)[1]["revenue_factor"])
    assert (found[0][["b0-0-5", "b1-1-4"]] == 0.5).all() and (found[0].filter(like="b9-") == 0).all()
    pd.testing.assert_series_equal(found[1], found[0])


def test_pushbacks_widths_and_schedules_are_those_of_the_straight_model(plan_folder):
    text = (
        PROJECT
        + "[pushbacks]\ncount = 2\nultimate_pit = 1.0\nmin_mining_width = 20\n[schedule]\nprocessing_capacity = 100\nyears = 8\n"
    )
    ore = hill().assign(cu=lambda it: it["cu"] + 0.3 * (it["z"] < 40))
    tables = []
    for degrees in (0, -12.5):
        path = plan_folder(turned(ore, degrees), text, domains_at(degrees), NO_SIZE)
        folder = path.parent / f"schedule{degrees}"
        pitplan.write_schedule(path, folder, writing=PLAIN)
        blocks = pd.read_csv(folder / "tables/blocks.csv").set_index("name")[["pushback", "year", "revenue_factor"]]
        tables.append(
            [
                blocks,
                *(
                    pd.read_csv(folder / name)
                    for name in ("tables/shells.csv", "tables/pushbacks.csv", "tables/schedule.csv", "tables/years.csv")
                ),
            ]
        )
    assert tables[0][0]["pushback"].nunique() == 3
    for straight, other in zip(*tables):
        pd.testing.assert_frame_equal(other, straight)


def test_rows_are_put_together_along_the_grids_axes(plan_folder, one_block):
    """Two by two by one: the first block's centre is 10, 10 along the axes: 1000 + 8 + 6, 5000 - 6 + 8; and sub-blocks from a corner."""
    table = pd.read_csv(one_block.parent / "blocks.csv")
    table = table[~table["name"].str.startswith("b4")]
    counts = pitplan.Plan.from_project(
        plan_folder(table, PROJECT, ('domain = "region"', 'domain = "region"\nreblock = [2, 2, 1]'))
    )
    rules = f"reblock = {{ size = [20, 20, 10], corner = [1000, 5000, 0] }}\n[grid]\nazimuth = {THREE_FOUR_FIVE:.6f}"
    corner = pitplan.Plan.from_project(
        plan_folder(table, PROJECT, ('domain = "region"\n[grid]\nsize = [10, 10, 10]', 'domain = "region"\n' + rules))
    )
    for plan in (counts, corner):
        assert plan.grid.shape == (2, 2, 2) and np.allclose(plan.grid.origin, (1014, 5002, 15), atol=0.002)
        assert plan.table["tonnes"].tolist() == [400] * 8 and plan.table["cu"].max() == 1.5
    pitplan.write_shells(
        plan_folder(table, PROJECT, ('domain = "region"', 'domain = "region"\nreblock = [2, 2, 1]')), writing=PLAIN
    )


def test_blocks_of_cells_without_a_row_have_the_planners_centres(plan_folder, one_block):
    """The lower block of column 3 and row 2: 35, 25 along the axes are 1000 + 28 + 15, 5000 - 21 + 20."""
    table = pd.read_csv(one_block.parent / "blocks.csv")
    rock = 'domain = "region"\nmissing_blocks = { tonnes = 90, rock_type = "R", domain = "1" }'
    path = plan_folder(table[table["name"] != "b3-2-0"], PROJECT, ('domain = "region"', rock))
    pitplan.write_shells(path, writing=PLAIN)
    blocks = pd.read_csv(path.parent / "plan" / "tables/blocks.csv").set_index("name")
    added = blocks.loc[[name for name in blocks.index if name.startswith("absent-")]]
    assert added["tonnes"].tolist() == [90] and np.allclose(added[["x", "y", "z"]], [[1043, 4999, 5]], atol=0.002)


def test_a_simulated_model_is_matched_by_the_planners_centres(plan_folder, tmp_path):
    table = turned(rows(6, 5, 2, cu=lambda i, j, k: i / 10 + j + 10 * k), 30)
    (tmp_path / "realisations").mkdir()
    table.sample(frac=1, random_state=3)[["x", "y", "z", "cu"]].to_csv(tmp_path / "realisations" / "a.csv", index=False)
    path = plan_folder(table.assign(cu=0.0), PROJECT + '[scenarios]\nrealisations = "realisations"\n')
    base = realisations.read_base(pitplan.load(path))
    assert next(iter(realisations.models(base))).grades[:, 0].tolist() == table["cu"].tolist()


def test_the_second_look_sees_a_wrong_azimuth(plan_folder, tmp_path, capsys):
    path = plan_folder(turned(hill(), 30), PROJECT, domains_at(30), ("size = [10, 10, 10]", "azimuth = 30"))
    pitplan.write_shells(path, writing=PLAIN)
    for azimuth in (-30, 30.02):
        shutil.copytree(path.parent / "plan", tmp_path / "other", dirs_exist_ok=True)
        told = tmp_path / "other" / "plan.json"
        record = json.loads(told.read_text())
        record["grid"]["azimuth"] = azimuth
        told.write_text(json.dumps(record))
        assert main(["verify", str(tmp_path / "other")]) == 1
        said = capsys.readouterr()
        assert "azimuth" in said.out + said.err or "not in it" in said.out + said.err
    assert main(["verify", str(path.parent / "plan")]) == 0


def test_a_turned_table_has_a_project_to_begin_with(tmp_path):
    """Blocks of 10 x 10 x 10 m whose volumes the density needs."""
    table = turned(rows(12, 11, 3, cu=lambda i, j, k: 0.5), 30).assign(density=2.5).drop(columns=["tonnes"])
    table.to_csv(tmp_path / "model.csv", index=False)
    said = wizard.write_project(tmp_path / "model.csv", tmp_path / "project.toml").lines
    assert any("azimuth 30" in line for line in said)
    assert "size = [10.0, 10.0, 10.0]" in (tmp_path / "project.toml").read_text()
    plan = pitplan.Plan.from_project(tmp_path / "project.toml")
    assert plan.grid.azimuth == 30 and plan.grid.shape == (3, 11, 12) and set(plan.table["tonnes"]) == {2500.0}


def test_no_file_of_the_answer_has_other_coordinates(one_block):
    """All that the folder says in numbers of x and y is near 1000 and 5000; nothing counts from a corner but pictures."""
    blocks = pd.read_csv(Path(one_block.parent / "plan" / "tables/blocks.csv"))
    assert blocks["x"].between(1000, 1064).all() and blocks["y"].between(4970, 5032).all()


def test_what_no_shell_can_reach_is_left_out_of_a_turned_model(plan_folder, monkeypatch):
    """Of 30 x 28 x 6 cells no more than 3,000 are taken; the second look, which is part of each run, finds the same sides."""
    monkeypatch.setattr(pitplan.blockmodel.grid, "MOST_BLOCKS", 3000)
    found = []
    for degrees in (0, 30):
        table = turned(rows(30, 28, 6, cu=lambda i, j, k: ORE.get((i - 8, j - 8, k), 0)), degrees)
        folder, blocks = planned(plan_folder, table, PROJECT, domains_at(degrees), NO_SIZE)
        assert read_record(folder)["grid"]["rows_left_out"] == 30 * 28 * 6 - len(blocks) > 2000
        assert (blocks[["x", "y"]] == table.set_index("name").loc[blocks.index, ["x", "y"]]).all(axis=None)
        found.append(blocks["revenue_factor"])
    pd.testing.assert_series_equal(found[1], found[0])

"""Topographies and areas of drawings, maps and rasters: the same as of tables, where these tell as much."""

import json

import numpy as np
import pandas as pd
import pytest
from conftest import PROJECT, rows
from ezdxf.render import MeshBuilder
from helpers.read_alike import compare_surveys
from helpers.surveys import AREA, HOLED, LEASE, SURFACE, areas, drawing, gis, layer, read, tiff
from helpers.verified import looked_at
from helpers.writings import PLAIN
from osgeo import gdal, ogr

import pitplan
from pitplan import Plan, PlanError, constraints, load
from pitplan.blockmodel import topography

gdal.UseExceptions()
ogr.UseExceptions()


@pytest.fixture(autouse=True)
def read_by_both(monkeypatch):
    compare_surveys(monkeypatch)


PLANE = [(x, y, 21 - 0.4 * x + 0.3 * y) for x in (-17, 91) for y in (-23, 64)]


def faces_of_plane(space):
    """Two triangles of a plane by its four far corners."""
    a, b, c, d = PLANE
    for corners in ((a, b, d), (a, d, c)):
        space.add_3dface(corners, **layer("TOPO"))


def plane_by_mesh(space):
    made = space.add_mesh(dxfattribs={"layer": "TOPO"})
    with made.edit_data() as data:
        data.vertices, data.faces = PLANE, [(0, 1, 3, 2)]


def plane_by_polyface(space):
    mesh = MeshBuilder()
    mesh.add_mesh(vertices=PLANE, faces=[(0, 1, 3, 2)])
    mesh.render_polyface(space, dxfattribs={"layer": "TOPO"})


def plane_by_points(space):
    for place in PLANE:
        space.add_point(place, **layer("TOPO"))


def plane_by_polylines(space):
    for one, other in (PLANE[:2], PLANE[2:]):
        space.add_polyline3d([one, other], **layer("TOPO"))


def plane_by_lines(space):
    for one, other in (PLANE[:2], PLANE[2:]):
        space.add_line(one, other, **layer("TOPO"))


@pytest.mark.parametrize(
    "shape", [faces_of_plane, plane_by_mesh, plane_by_polyface, plane_by_points, plane_by_polylines, plane_by_lines]
)
def test_a_plane_of_a_drawing_is_that_of_its_formula(plan_folder, tmp_path, shape):
    """It falls to the east and rises to the north; of 72 blocks those above it must be dug, and the second look says so too."""
    drawing(tmp_path / "mined.dxf", shape)
    path = plan_folder(rows(6, 4, 3), PROJECT + SURFACE + '"mined.dxf"\n')
    plan = Plan.from_project(load(path))
    blocks = plan.blocks
    above = blocks["z"] > 21 - 0.4 * blocks["x"] + 0.3 * blocks["y"]
    assert plan.fixed.must_mine.tolist() == blocks.loc[above, "id"].tolist()
    assert 0 < len(plan.fixed.must_mine) < 72
    assert any(
        "mined.dxf: " in note and "layer TOPO, read by ezdxf; coordinates are not transformed" in note
        for note in plan.notes
    )
    assert [rule.differences for rule in looked_at(Plan.from_project(path)) if rule.name == "constraints"] == [()]


def contours(space):
    """Heights of 10 and 30 m along two lines of which one is in space and one at an elevation."""
    space.add_lwpolyline([(0, -9), (0, 49)], **layer("CONTOUR", elevation=10))
    space.add_polyline2d([(60, -9), (60, 49)], **layer("CONTOUR", elevation=(0, 0, 30)))


def test_contours_are_the_points_at_their_corners(tmp_path):
    found = read(drawing(tmp_path / "mined.dxf", contours))
    assert sorted(map(tuple, found.points)) == [(0, -9, 10), (0, 49, 10), (60, -9, 30), (60, 49, 30)]
    assert len(found.faces) == 0


def test_a_surface_of_faces_is_theirs_and_not_that_of_their_corners(plan_folder, tmp_path, monkeypatch):
    """A square of 60 m with 0 at two corners across and 16 m at the others, cut between the low ones: a valley, of 8 |u - v| m in shares
    of 30 m from its middle. Cut the other way it would be a ridge, of 16 - 8 |u + v|."""
    low, high = [(0, 0, 0), (60, 60, 0)], [(0, 60, 16), (60, 0, 16)]
    drawing(tmp_path / "valley.dxf", lambda space: [space.add_3dface([*low, corner], **layer("T")) for corner in high])
    path = plan_folder(rows(6, 6, 2), PROJECT + SURFACE + '"valley.dxf"\n')
    blocks = Plan.from_project(load(path)).blocks
    above = blocks["z"] > 8 * ((blocks["x"] - 30) / 30 - (blocks["y"] - 30) / 30).abs()
    assert Plan.from_project(load(path)).fixed.must_mine.tolist() == blocks.loc[above, "id"].tolist()
    assert [rule.differences for rule in looked_at(Plan.from_project(path)) if rule.name == "constraints"] == [()]
    # All of them are demanded where none is taken as such.
    monkeypatch.setattr(constraints, "of_table", lambda *_: constraints.NOTHING)
    (rule,) = [rule for rule in looked_at(Plan.from_project(path)) if rule.differences]
    assert (rule.name, rule.count) == ("constraints", above.sum())


def test_points_beside_faces_are_passed_over(tmp_path):
    def spots(space):
        space.add_point((5, 5, 999), **layer("TOPO"))

    found = read(drawing(tmp_path / "mined.dxf", faces_of_plane, spots))
    assert found.points[:, 2].max() < 999
    assert "2 triangles of the layer TOPO" in found.notes[0]


def test_triangles_of_a_drawing_are_those_that_gdal_reads(tmp_path):
    """A hundred triangles in no order, by GDAL's own reader of drawings."""
    rng = np.random.default_rng(5)
    triangles = rng.uniform(0, 100, (100, 3, 3)).round(3)
    path = drawing(tmp_path / "tin.dxf", lambda space: [space.add_3dface(corners.tolist()) for corners in triangles])
    found = read(path)
    # What features are of is closed as soon as nothing names it; of rings that a drawing does not close GDAL warns.
    gdal.PushErrorHandler("CPLQuietErrorHandler")
    source = gdal.OpenEx(str(path), gdal.OF_VECTOR)
    theirs = [feature.GetGeometryRef().GetGeometryRef(0).GetPoints()[:3] for feature in source.GetLayer(0)]
    gdal.PopErrorHandler()
    both = (np.array(theirs).round(6).tolist(), found.points[found.faces].round(6).tolist())
    assert sorted(map(sorted, both[0])) == sorted(map(sorted, both[1]))
    assert len(theirs) == 100


STRINGS = """topo,26-Nov-26,a pit,
0, 0.000, 0.000, 0.000, 0.000, 0.000, 0.000
1, 2.000, 600001.000, 3.250, toe
1, 5.000, 600004.000, 6.000,
0, 0.000, 0.000, 0.000,
7, 0.000, 0.000, 1.000
7, 0.000, 10.000, 1.000
7, 10.000, 10.000, 1.000
7, 0.000, 0.000, 1.000
0, 0.000, 0.000, 0.000,
0, 0.000, 0.000, 0.000, END

"""


def test_strings_have_north_before_east(tmp_path):
    """Of string 1 two points, and string 7 is closed."""
    (tmp_path / "topo.str").write_text(STRINGS)
    assert read(tmp_path / "topo.str", "1").points.tolist() == [[600001, 2, 3.25], [600004, 5, 6]]
    assert len(read(tmp_path / "topo.str", "*").points) == 6
    (polygon,) = areas(tmp_path / "topo.str").polygons
    assert polygon[0].tolist() == [[0, 0], [10, 0], [10, 10], [0, 0]]
    assert "1 polygons of the layer 7, read by pitplan" in areas(tmp_path / "topo.str").notes[0]


def test_a_string_may_have_one_point(tmp_path):
    """A height between two strings, as both readers have it."""
    one = "3, 7.000, 600008.000, 9.000, spot\n0, 0.000, 0.000, 0.000,\n"
    (tmp_path / "topo.str").write_text(STRINGS.replace("7, 0.000, 0.000, 1.000\n", f"{one}7, 0.000, 0.000, 1.000\n", 1))
    assert read(tmp_path / "topo.str", "3").points.tolist() == [[600008, 7, 9]]
    assert len(read(tmp_path / "topo.str", "*").points) == 7


def test_strings_that_are_written_are_read(plan_folder, tmp_path):
    """The toes and crests of a pit, which the export has in two forms."""
    path = plan_folder(rows(7, 7, 3, cu=lambda i, j, k: 9 * ((i, j, k) == (3, 3, 1))), PROJECT)
    pitplan.write_shells(path, writing=PLAIN)
    strings, table = (pitplan.write_export(path.parent / "plan", kind) for kind in ("str", "lines"))
    expected = pd.read_csv(table)[["x", "y", "z"]].to_numpy()
    assert sorted(map(tuple, read(strings, "*").points)) == sorted(map(tuple, expected)) and len(expected) > 8
    assert len(areas(strings, "*").polygons) > 1


def test_layers_are_chosen_by_name_list_and_star(tmp_path):
    def spots(space):
        for number, name in enumerate(("BENCH_10", "BENCH_20", "ROAD")):
            space.add_point((number, 0, number), **layer(name))

    path = drawing(tmp_path / "mined.dxf", spots)
    assert read(path, "ROAD").points.tolist() == [[2, 0, 2]]
    assert read(path, "BENCH_*").points.tolist() == [[0, 0, 0], [1, 0, 1]]
    assert read(path, "BENCH_20", "ROAD").points.tolist() == [[1, 0, 1], [2, 0, 2]]
    assert len(read(path, "*").points) == 3
    with pytest.raises(
        PlanError,
        match=r"in the layers BENCH_10, BENCH_20, ROAD: name one.* \{ file = .mined.dxf., layer = .BENCH_10. \}",
    ):
        read(path)
    with pytest.raises(PlanError, match="has no layer TOPO; the layers are BENCH_10, BENCH_20, ROAD"):
        read(path, "TOPO")


def test_a_layer_is_named_in_the_project(plan_folder, tmp_path):
    def spots(space):
        for name, height in (("DESIGN", 0), ("TOPO", 20)):
            for x, y in ((-50, -50), (-50, 90), (90, -50), (90, 90)):
                space.add_point((x, y, height), **layer(name))

    drawing(tmp_path / "mined.dxf", spots)
    must_mine = []
    for name in ("DESIGN", "TOPO"):
        text = PROJECT + SURFACE + f'{{ file = "mined.dxf", layer = "{name}" }}\n'
        must_mine.append(len(Plan.from_project(load(plan_folder(rows(3, 1, 3), text))).fixed.must_mine))
    assert must_mine == [9, 3]


def test_a_drawing_that_is_written_anew_is_read_anew(tmp_path):
    for height in (3, 4):
        path = drawing(
            tmp_path / "mined.dxf", lambda space: space.add_point((1, 2, height), **layer("SPOT"))
        )  # noqa: B023
        assert read(path).points.tolist() == [[1, 2, height]]


def test_units_of_a_drawing(tmp_path):
    notes = read(drawing(tmp_path / "mm.dxf", faces_of_plane, units=4)).notes
    assert any("WARNING: " in note and "$INSUNITS is 4" in note for note in notes)
    assert len(read(drawing(tmp_path / "none.dxf", faces_of_plane, units=0)).notes) == 1
    with pytest.raises(
        PlanError, match=r"feet.dxf: is in feet \(\$INSUNITS is 2\), and lengths are in metres: convert it"
    ):
        read(drawing(tmp_path / "feet.dxf", faces_of_plane, units=2))


@pytest.mark.parametrize("driver, ending", [("GPKG", "gpkg"), ("ESRI Shapefile", "shp"), ("GeoJSON", "geojson")])
def test_points_of_a_map(tmp_path, driver, ending):
    path = gis(
        tmp_path / f"spots.{ending}", driver, {"spots": [("POINT Z(600001 2 3.25)", 0), ("POINT Z(600004 5 6)", 0)]}
    )
    assert read(path).points.tolist() == [[600001, 2, 3.25], [600004, 5, 6]]
    assert (
        f"spots.{ending}: 2 points of the layer spots, read by GDAL; coordinates are not transformed"
        in read(path).notes[0]
    )


def test_contours_of_a_map_have_their_heights_in_a_field(tmp_path):
    path = gis(
        tmp_path / "contours.gpkg",
        "GPKG",
        {"lines": [("LINESTRING (1 2,3 4)", 15), ("MULTILINESTRING ((5 6,7 8))", 20)]},
    )
    assert read(path, height="ELEV").points.tolist() == [[1, 2, 15], [3, 4, 15], [5, 6, 20], [7, 8, 20]]
    with pytest.raises(
        PlanError, match=r"has no points, lines with heights or 3D faces: its layer lines has 2 LINESTRING \(open\)"
    ):
        read(path)
    with pytest.raises(PlanError, match="its layer lines has no field LEVEL; its fields are ELEV"):
        read(path, height="LEVEL")
    empty = gis(tmp_path / "empty.gpkg", "GPKG", {"lines": [("LINESTRING (1 2,3 4)", None)]})
    with pytest.raises(PlanError, match="the field ELEV of the feature 1 is empty"):
        read(empty, height="ELEV")


def test_fields_of_a_shapefile_are_an_input(plan_folder, tmp_path):
    """They stand in a file of their own, by whose hash it is seen that heights have changed."""
    gis(
        tmp_path / "contours.shp",
        "ESRI Shapefile",
        {"contours": [("LINESTRING (-9 -9,-9 19)", 15), ("LINESTRING (49 -9,49 19)", 20)]},
    )
    text = PROJECT + SURFACE + '{ file = "contours.shp", height = "ELEV" }\n'
    project = load(plan_folder(rows(3, 1, 3), text))
    assert [path.name for path in project.inputs] == ["project.toml", "blocks.csv", "contours.shp", "contours.dbf"]
    # Over the columns it rises from 16.2 to 18.
    assert Plan.from_project(project).fixed.must_mine.tolist() == [0, 1, 2]


def test_triangles_of_a_map(tmp_path):
    tin = "TIN Z (((0 0 1,60 0 7,0 40 5,0 0 1)),((60 0 7,60 40 9,0 40 5,60 0 7)))"
    found = read(gis(tmp_path / "tin.gpkg", "GPKG", {"tin": [(tin, None)]}))
    corners = found.points[found.faces]
    assert sorted(corners[0].tolist()) == [[0, 0, 1], [0, 40, 5], [60, 0, 7]] and len(corners) == 2


def test_heights_of_a_raster_are_at_the_middles_of_its_cells(tmp_path):
    """Three by two cells of 10 m from (0, 20) down; of one nothing is known, so that one triangle is left of each half."""
    found = read(tiff(tmp_path / "dem.tif", [[1.5, 2, 3], [4, -9999, 6.25]], (0, 10, 0, 20, 0, -10), nothing=-9999))
    assert found.points.tolist() == [[5, 15, 1.5], [15, 15, 2], [25, 15, 3], [5, 5, 4], [25, 5, 6.25]]
    assert [found.points[face].tolist() for face in found.faces] == [[[15, 15, 2], [25, 15, 3], [25, 5, 6.25]]]
    whole = read(tiff(tmp_path / "whole.tif", [[1, 2], [3, 4]], (0, 10, 0, 20, 0, -10)))
    assert sorted(sorted(whole.points[face][:, 2].tolist()) for face in whole.faces) == [[1, 2, 4], [1, 3, 4]]


def test_heights_of_an_ascii_grid_have_all_their_digits(tmp_path):
    (tmp_path / "dem.asc").write_text(
        "ncols 2\nnrows 2\nxllcorner 0\nyllcorner 0\ncellsize 10\nNODATA_value -9999\n2707.531 2\n3 -9999\n"
    )
    assert read(tmp_path / "dem.asc").points.tolist() == [[5, 15, 2707.531], [15, 15, 2], [5, 5, 3]]


def test_of_a_raster_what_lies_round_the_model_is_read(tmp_path):
    """A hundred by a hundred cells of 10 m, of which the box of 60 by 40 m is a small part."""
    found = read(tiff(tmp_path / "dem.tif", np.zeros((100, 100)), (-300, 10, 0, 500, 0, -10)))
    x, y = found.points[:, 0], found.points[:, 1]
    assert (x.min(), x.max(), y.min(), y.max()) == (-15, 75, -15, 55)
    with pytest.raises(PlanError, match="has no heights, or none where the model lies"):
        read(tiff(tmp_path / "far.tif", np.zeros((5, 5)), (5000, 10, 0, 5000, 0, -10)))


def test_a_raster_that_is_turned(tmp_path):
    """A quarter of a turn: its columns go north and its rows go east."""
    found = read(tiff(tmp_path / "dem.tif", [[1, 2], [3, 4]], (0, 0, 10, 0, 10, 0)))
    assert found.points.tolist() == [[5, 5, 1], [5, 15, 2], [15, 5, 3], [15, 15, 4]]


def test_a_raster_is_planned_with(plan_folder, tmp_path):
    """Heights of 21 - 0.4 x + 0.3 y at middles that lie round all of the blocks."""
    place = (-20.0, 4.0, 0.0, 64.0, 0.0, -4.0)
    x, y = np.meshgrid(-18 + 4 * np.arange(28), 62 - 4 * np.arange(24))
    tiff(tmp_path / "mined.tif", 21 - 0.4 * x + 0.3 * y, place)
    path = plan_folder(rows(6, 4, 3), PROJECT + SURFACE + '"mined.tif"\n')
    blocks = Plan.from_project(load(path)).blocks
    above = blocks["z"] > 21 - 0.4 * blocks["x"] + 0.3 * blocks["y"]
    assert Plan.from_project(load(path)).fixed.must_mine.tolist() == blocks.loc[above, "id"].tolist()
    assert [rule.differences for rule in looked_at(Plan.from_project(path)) if rule.name == "constraints"] == [()]


def test_heights_over_triangles_at_random(tmp_path):
    """Over each column the height of the triangle that holds its middle, one by one; nothing beyond."""
    rng = np.random.default_rng(3)
    points = np.column_stack([rng.uniform(-10, 70, 60), rng.uniform(-10, 50, 60), rng.uniform(0, 30, 60)])
    pd.DataFrame(points, columns=["x", "y", "z"]).to_csv(tmp_path / "mined.csv", index=False)
    (tmp_path / "project.toml").write_text(PROJECT)
    grid = Plan.from_project(load(tmp_path / "project.toml"), rows(9, 4, 1)).grid
    triangles = topography.triangles_of(read(tmp_path / "mined.csv"))
    found = topography.heights(triangles, grid)
    for place, (x, y) in enumerate((5 + 10 * i, 5 + 10 * j) for j in range(4) for i in range(9)):
        shares = [np.linalg.solve(np.vstack([it[:, :2].T, np.ones(3)]), [x, y, 1]) for it in triangles]
        over = [float(share @ it[:, 2]) for share, it in zip(shares, triangles) if share.min() >= 0]
        assert found[place] == (pytest.approx(over[0]) if over else np.inf)
    assert np.isinf(found).any() and np.isfinite(found).any()


def closed_lease(space):
    space.add_lwpolyline(LEASE, close=True, **layer("LEASE"))


def lease_that_comes_back(space):
    space.add_lwpolyline([*LEASE, LEASE[0]], **layer("LEASE"))


def lease_in_space(space):
    space.add_polyline3d([(x, y, 7) for x, y in LEASE], close=True, **layer("LEASE"))


def plain_lease(space):
    space.add_polyline2d(LEASE, close=True, **layer("LEASE"))


@pytest.mark.parametrize("shape", [closed_lease, lease_that_comes_back, lease_in_space, plain_lease])
def test_a_lease_of_a_drawing(plan_folder, tmp_path, shape):
    """Round the first three of four columns of blocks."""
    drawing(tmp_path / "lease.dxf", shape)
    path = plan_folder(rows(4, 1, 2), PROJECT + AREA + '"lease.dxf"\nexclude = "outside"\n')
    plan = Plan.from_project(load(path))
    assert plan.fixed.excluded.tolist() == [3, 7]
    assert any(
        "lease.dxf: 1 polygons of the layer LEASE, read by ezdxf; coordinates are not transformed" in note
        for note in plan.notes
    )
    assert [rule.differences for rule in looked_at(Plan.from_project(path)) if rule.name == "constraints"] == [()]


def test_several_polygons_of_a_drawing_are_one_area(plan_folder, tmp_path):
    def two(space):
        for x in (0, 20):
            space.add_lwpolyline([(x, 0), (x + 10, 0), (x + 10, 10), (x, 10)], close=True, **layer("LEASE"))

    drawing(tmp_path / "lease.dxf", two)
    text = PROJECT + AREA + '{ file = "lease.dxf", layer = "LEASE" }\nexclude = "inside"\n'
    assert Plan.from_project(load(plan_folder(rows(4, 1, 1), text))).fixed.excluded.tolist() == [0, 2]


def test_a_polyline_in_another_is_no_hole(plan_folder, tmp_path):
    """The second of four columns lies in both: it is told."""

    def two(space):
        for west, east in ((0, 40), (10, 20)):
            space.add_lwpolyline([(west, -1), (east, -1), (east, 11), (west, 11)], close=True, **layer("LEASE"))

    drawing(tmp_path / "lease.dxf", two)
    plan = Plan.from_project(load(plan_folder(rows(5, 1, 1), PROJECT + AREA + '"lease.dxf"\nexclude = "inside"\n')))
    assert plan.fixed.excluded.tolist() == [0, 1, 2, 3]
    said = "1 columns of blocks lie in several polygons, which are not read as holes"
    assert f"WARNING: {tmp_path / 'lease.dxf'}: {said}" in plan.notes


def test_an_arc_is_followed_to_a_centimetre(tmp_path):
    """A circle of 20 m as two half circles: of places round it those within 19.98 m lie in it, and none beyond 20.02."""
    path = drawing(
        tmp_path / "lease.dxf", lambda space: space.add_lwpolyline([(-20, 0, 0, 0, 1), (20, 0, 0, 0, 1)], close=True)
    )
    (ring,) = areas(path).polygons[0]
    angles = np.linspace(0, 2 * np.pi, 999)
    for radius, expected in ((19.98, True), (20.02, False)):
        assert (constraints.within(radius * np.cos(angles), radius * np.sin(angles), ring) == expected).all()


def test_lines_that_are_not_closed(tmp_path):
    def open_line(space):
        space.add_lwpolyline(LEASE, **layer("LEASE"))

    with pytest.raises(
        PlanError, match=r"lease.dxf: has no polygons or closed lines: its layer LEASE has 1 LWPOLYLINE \(open\)"
    ):
        areas(drawing(tmp_path / "lease.dxf", open_line))
    found = areas(drawing(tmp_path / "both.dxf", open_line, closed_lease))
    assert len(found.polygons) == 1
    assert "both.dxf: 1 open lines of the layer LEASE are ignored: close them" in found.notes[-1]


@pytest.mark.parametrize("driver, ending", [("GPKG", "gpkg"), ("ESRI Shapefile", "shp"), ("GeoJSON", "geojson")])
def test_a_polygon_with_a_hole_and_one_beside_it(plan_folder, tmp_path, driver, ending):
    """Four by three columns with a hole at the second of the second row; and the last but one of six columns, in the first row."""
    shapes = [(HOLED, 0), ("POLYGON ((40 0,50 0,50 10,40 10,40 0))", 0)]
    gis(tmp_path / f"lease.{ending}", driver, {"lease": shapes}, epsg=None if ending == "geojson" else 32719)
    if ending == "geojson":
        named = json.loads((tmp_path / "lease.geojson").read_text())
        named["crs"] = {"type": "name", "properties": {"name": "urn:ogc:def:crs:EPSG::32719"}}
        (tmp_path / "lease.geojson").write_text(json.dumps(named))
    path = plan_folder(rows(6, 4, 1), PROJECT + AREA + f'"lease.{ending}"\nexclude = "inside"\n')
    plan = Plan.from_project(load(path))
    assert plan.fixed.excluded.tolist() == [0, 1, 2, 3, 4, 6, 8, 9, 12, 13, 14, 15]
    assert any("2 polygons of the layer lease, read by GDAL" in note for note in plan.notes)
    assert [rule.differences for rule in looked_at(Plan.from_project(path)) if rule.name == "constraints"] == [()]


def test_closed_lines_and_several_polygons_of_a_map(tmp_path):
    many = "MULTIPOLYGON (((0 0,1 0,1 1,0 0)),((5 5,6 5,6 6,5 5)))"
    path = gis(tmp_path / "lease.gpkg", "GPKG", {"lease": [(many, 0), ("LINESTRING (8 8,9 8,9 9,8 8)", 0)]})
    assert [len(polygon) for polygon in areas(path).polygons] == [1, 1, 1]
    curved = "CURVEPOLYGON (CIRCULARSTRING (-20 0,0 20,20 0,0 -20,-20 0))"
    (ring,) = areas(gis(tmp_path / "round.gpkg", "GPKG", {"round": [(curved, 0)]})).polygons[0]
    assert np.hypot(*ring.T) == pytest.approx(20) and len(ring) > 30


def test_two_layers_of_a_map(tmp_path):
    path = gis(
        tmp_path / "map.gpkg", "GPKG", {"lease": [(HOLED, 0)], "river": [(HOLED, 0)], "spots": [("POINT Z(1 2 3)", 0)]}
    )
    with pytest.raises(PlanError, match="map.gpkg: has polygons or closed lines in the layers lease, river: name one"):
        areas(path)
    assert len(areas(path, "river").polygons) == 1
    assert read(path).points.tolist() == [[1, 2, 3]]
    with pytest.raises(PlanError, match="map.gpkg: has no polygons or closed lines: its layer spots has 1 POINT"):
        areas(path, "spots")
    with pytest.raises(PlanError, match="has no points, lines with heights or 3D faces: its layer lease has 1 POLYGON"):
        read(path, "lease")


def test_areas_that_are_passed_over_are_found(plan_folder, tmp_path, monkeypatch):
    """Of a map with a hole, when all of the outline is barred, the one block in the hole is no less right; when none is, all others are not."""
    gis(tmp_path / "lease.gpkg", "GPKG", {"lease": [(HOLED, 0)]})
    path = plan_folder(rows(5, 4, 1, cu=lambda i, j, k: 6), PROJECT + AREA + '"lease.gpkg"\nexclude = "inside"\n')
    monkeypatch.setattr(constraints, "of_table", lambda *_: constraints.NOTHING)
    (rule,) = [rule for rule in looked_at(Plan.from_project(path)) if rule.differences]
    assert (rule.name, rule.count) == ("constraints", 11)

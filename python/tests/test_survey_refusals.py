"""What is refused of files of heights and areas, each with the file and what is wrong of it."""

import re
import sys

import pytest
from conftest import PROJECT, rows
from helpers.surveys import AREA, HOLED, LEASE, SURFACE, areas, drawing, gis, layer, read, tiff

from pitplan import MissingPackage, Plan, PlanError, load

EAST = 600_000


def test_systems_that_are_not_in_metres(tmp_path):
    feet = gis(tmp_path / "feet.gpkg", "GPKG", {"lease": [(HOLED, 0)]}, epsg=2276)
    with pytest.raises(
        PlanError,
        match=r"feet.gpkg: is in US survey foot \(NAD83 / Texas North Central \(ftUS\)\), and lengths are in metres",
    ):
        areas(feet)
    degrees = gis(
        tmp_path / "degrees.gpkg", "GPKG", {"lease": [("POLYGON ((-70 -23,-69 -23,-69 -22,-70 -23))", 0)]}, epsg=4326
    )
    with pytest.raises(PlanError, match=r"degrees.gpkg: is in degrees \(WGS 84\), and nothing is transformed"):
        areas(degrees)
    raster = tiff(tmp_path / "feet.tif", [[1, 2], [3, 4]], (0, 10, 0, 20, 0, -10), epsg=2276)
    with pytest.raises(PlanError, match="feet.tif: is in US survey foot"):
        read(raster)
    with pytest.raises(PlanError, match="high.tif: has heights in ft, and they are in metres: convert it"):
        read(tiff(tmp_path / "high.tif", [[1, 2], [3, 4]], (0, 10, 0, 20, 0, -10), unit="ft"))
    assert (
        len(
            read(
                tiff(tmp_path / "metres.tif", [[1, 2], [3, 4]], (0, 10, 0, 20, 0, -10), epsg=32719, unit="metre")
            ).points
        )
        == 4
    )


def test_pictures_are_no_heights(tmp_path):
    with pytest.raises(PlanError, match="photo.tif: has 3 bands, and heights are one: is it a picture?"):
        read(tiff(tmp_path / "photo.tif", [[1, 2], [3, 4]], (0, 10, 0, 20, 0, -10), bands=3))
    with pytest.raises(PlanError, match="nowhere.tif: does not say where its cells lie"):
        read(tiff(tmp_path / "nowhere.tif", [[1, 2], [3, 4]], None))


@pytest.mark.parametrize(
    ("name", "text", "said"),
    [
        (
            "topo.dwg",
            "AC1027",
            r"topo.dwg: .dwg files are not read: give one of .csv, .*, .dxf, .str, .gpkg, .shp, .geojson, .json, .tif, .tiff, .asc",
        ),
        ("topo", "x", "topo: has no ending, which tells what reads it: give one of"),
        ("topo.dxf", "", "topo.dxf: cannot be read as a drawing"),
        ("topo.dxf", "0\nSECTION\n2\nENTITIES\n0\nPOINT\n8\nTOPO\n10\n1\n", "topo.dxf: cannot be read as a drawing"),
        (
            "topo.dxf",
            "0\nSECTION\n2\nENTITIES\n0\nENDSEC\n0\nEOF\n",
            "topo.dxf: has no points, lines with heights or 3D faces: it holds nothing",
        ),
        ("topo.gpkg", "", "topo.gpkg: cannot be read by GDAL's driver GPKG: "),
        ("topo.shp", "", "topo.shp: cannot be read by GDAL's driver ESRI Shapefile: "),
        ("topo.tif", "", "topo.tif: cannot be read by GDAL's driver GTiff: "),
        ("topo.asc", "", "topo.asc: cannot be read by GDAL's driver AAIGrid: "),
        ("topo.geojson", "{}", "topo.geojson: cannot be read by GDAL's driver GeoJSON: "),
        ("topo.str", "", "topo.str: has no points, lines with heights or 3D faces: it holds nothing"),
        ("topo.str", "a,b\n0,0\n1, 2.0, 3.0\n", "topo.str row 3: has no number, north, east and height of a string"),
        ("topo.str", "a,b\n0,0\n1, 2.0, 3.0, 4.0\n", "topo.str: breaks off: its last string has no end"),
        ("topo.csv", "", "topo.csv: is not a table: No columns to parse from file"),
        ("topo.csv", "x,y,z\n", "topo.csv: has no heights, or none where the model lies"),
        ("topo.csv", "1,2,3\n", "topo.csv row 1: there is no column x; the columns are 1, 2, 3"),
    ],
)
def test_files_that_cannot_be_read(tmp_path, name, text, said):
    (tmp_path / name).write_text(text)
    with pytest.raises(PlanError, match=said):
        read(tmp_path / name)


def test_blocks_of_a_drawing_are_not_looked_into(tmp_path):
    def reference(space):
        space.doc.blocks.new("TIN").add_3dface([(0, 0, 0), (9, 0, 0), (0, 9, 0)])
        space.add_blockref("TIN", (0, 0), **layer("TOPO"))

    with pytest.raises(PlanError, match=r"its layer TOPO has 1 INSERT \(explode it\)"):
        read(drawing(tmp_path / "topo.dxf", reference))


@pytest.mark.parametrize("ending", ["csv", "dxf", "gpkg", "tif"])
def test_files_that_are_not_there(tmp_path, ending):
    with pytest.raises(PlanError, match=f"topo.{ending}: cannot be read: No such file or directory"):
        read(tmp_path / f"topo.{ending}")
    (tmp_path / f"topo.{ending}").mkdir()
    with pytest.raises(PlanError, match=f"topo.{ending}: cannot be read: is a folder"):
        read(tmp_path / f"topo.{ending}")


def test_areas_are_no_rasters(tmp_path):
    (tmp_path / "lease.tif").touch()
    with pytest.raises(PlanError, match=r"lease.tif: .tif files are not read: give one of .csv, .*, .json$"):
        areas(tmp_path / "lease.tif")


def test_what_has_no_layers_or_heights(tmp_path):
    (tmp_path / "topo.csv").write_text("x,y,z\n1,2,3\n")
    with pytest.raises(PlanError, match="topo.csv: has no layers: leave out layer"):
        read(tmp_path / "topo.csv", "TOPO")
    with pytest.raises(
        PlanError, match="topo.csv: has heights of its own: height is a field of .gpkg, .shp, .geojson, .json"
    ):
        read(tmp_path / "topo.csv", height="ELEV")


@pytest.mark.parametrize(
    ("text", "said"),
    [
        (
            AREA + '"lease.dxf"\nlayer = "LEASE"\nexclude = "inside"\n',
            'layer: must be in the table of its file: polygon = { file = "..", layer = ".." }',
        ),
        (SURFACE + '{ layer = "TOPO" }\n', r"\[constraints.as_mined\] file: is missing"),
        (
            SURFACE + '{ file = "a.dxf", layers = "TOPO" }\n',
            r"\[constraints.as_mined\] layers: unknown key: did you mean layer",
        ),
        (SURFACE + "5\n", r"\[constraints\] as_mined: must be a text in quotes"),
        (AREA + '{ file = "a.gpkg", height = "ELEV" }\nexclude = "inside"\n', "height: unknown key"),
    ],
)
def test_keys_that_are_wrong(plan_folder, text, said):
    with pytest.raises(PlanError, match=said.replace("{", r"\{").replace("..", r"\.\.") if "beside" in said else said):
        load(plan_folder(rows(2, 1, 1), PROJECT + text))


@pytest.mark.parametrize(
    ("module", "name", "package"),
    [("ezdxf", "lease.dxf", "python3-ezdxf"), ("osgeo.gdal", "lease.gpkg", "python3-gdal")],
)
def test_a_missing_package_is_named(tmp_path, monkeypatch, module, name, package):
    (tmp_path / name).touch()
    monkeypatch.setitem(sys.modules, module, None)
    with pytest.raises(
        MissingPackage, match=f"a .{name[6:]} file needs the Debian package {package}: apt-get install {package}"
    ):
        areas(tmp_path / name)


def far_lease(space):
    space.add_lwpolyline([(x + EAST, y) for x, y in LEASE], close=True, **layer("LEASE"))


def test_what_lies_beside_the_model(plan_folder, tmp_path):
    """A lease outside of which nothing may be dug and a surface as mined are mistakes then; a river may well be elsewhere."""
    drawing(tmp_path / "lease.dxf", far_lease)
    said = "lease.dxf: no block lies in its polygons: its extents (x 599999 to 600031, y -1 to 11) do not overlap the block model (x 5 to 35, y 5 to 5): "
    with pytest.raises(PlanError, match=re.escape(said)):
        Plan.from_project(load(plan_folder(rows(4, 1, 1), PROJECT + AREA + '"lease.dxf"\nexclude = "outside"\n')))
    plan = Plan.from_project(load(plan_folder(rows(4, 1, 1), PROJECT + AREA + '"lease.dxf"\nexclude = "inside"\n')))
    assert any(note.startswith("WARNING: ") and said in note for note in plan.notes)
    (tmp_path / "mined.csv").write_text(f"x,y,z\n{EAST},0,5\n{EAST},9,5\n{EAST + 9},9,5\n")
    with pytest.raises(
        PlanError, match="mined.csv: covers no block: its extents .x 600000 to 600009, y 0 to 9. do not"
    ):
        Plan.from_project(load(plan_folder(rows(4, 1, 1), PROJECT + SURFACE + '"mined.csv"\n')))

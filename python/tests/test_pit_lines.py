"""Toes and crests of benches as a GeoPackage, strings and a table: each read by other programs or by a few lines of the test's own."""

import re
import sqlite3
import sys
from collections import defaultdict

import numpy as np
import pandas as pd
import pytest
from conftest import rows
from helpers.writings import UNVERIFIED

import pitplan
from pitplan import MissingPackage, PlanError
from pitplan.cli import main
from pitplan.results.pit_states import Shape


def area_of(points):
    """What a closed line of x and y goes round, its inside on the left."""
    x, y = np.asarray(points, dtype=float)[:-1, :2].T
    x, y = x - x.mean(), y - y.mean()
    return float((x * np.roll(y, -1) - np.roll(x, -1) * y).sum() / 2)


def expected(folder, name):
    """By pushback or year, kind, bench's floor and height the area that is dug on the level, of blocks of 10 m."""
    blocks, areas = pd.read_csv(folder / "tables/blocks.csv"), {}
    for number in range(1, int(blocks[name].max()) + 1):
        for z, level in blocks[(blocks[name] > 0) & (blocks[name] <= number)].groupby("z"):
            areas |= {(number, kind, z - 5, z - 5 + up): 100.0 * len(level) for kind, up in (("toe", 0), ("crest", 10))}
    return areas


def strings_of(path):
    """The strings of a Surpac file, a list of points (number, north, east, height, descriptions) each."""
    header, axis, *lines = path.read_text().splitlines()
    assert header == f"{path.stem},,toes and crests," and axis == "0, 0.000, 0.000, 0.000, 0.000, 0.000, 0.000"
    assert lines.pop() == "0, 0.000, 0.000, 0.000, END"
    strings = [[]]
    for line in lines:
        if line == "0, 0.000, 0.000, 0.000,":
            strings.append([])
        else:
            strings[-1].append(line.split(", "))
    assert strings.pop() == []
    return strings


@pytest.mark.parametrize("name", ["pushback", "year"])
def test_strings_go_round_what_is_dug_on_each_bench(folder, name):
    path = pitplan.write_export(folder, "str", shape=Shape(name))
    assert path == folder / f"lines-{name}s.str"
    areas = defaultdict(float)
    for string in strings_of(path):
        (number,), (told,), (height,) = ({point[k] for point in string} for k in (0, 6, 3))
        kind, bench = string[0][4:6]
        stage = int(told.removeprefix(f"{name} "))
        assert int(number) == 2 * stage - (kind == "toe") and string[0] == string[-1]
        areas[stage, kind, float(bench), float(height)] += area_of([(float(x), float(y)) for _, y, x, *_ in string])
    assert areas == pytest.approx(expected(folder, name))
    east, north = string[0][2], string[0][1]
    assert re.fullmatch(r"4300\d\d\.5000", east) and re.fullmatch(r"65120\d\d\.2500", north), "north stands before east"


def test_a_table_has_the_same_lines(folder):
    table = pd.read_csv(pitplan.write_export(folder, "lines", shape=Shape("pushback")))
    assert table.columns.tolist() == ["pushback", "line", "kind", "bench", "x", "y", "z"]
    areas = defaultdict(float)
    for (number, _, kind, bench), line in table.groupby(["pushback", "line", "kind", "bench"]):
        assert line[["x", "y", "z"]].iloc[0].tolist() == line[["x", "y", "z"]].iloc[-1].tolist()
        areas[number, kind, bench, line["z"].iloc[0]] += area_of(line[["x", "y"]])
    assert areas == pytest.approx(expected(folder, "pushback"))


def test_a_geopackage_is_read_by_gdal_and_is_the_same_each_time(folder):
    ogr = pytest.importorskip("osgeo.ogr", reason="needs the Debian package python3-gdal")
    path = pitplan.write_export(folder, "gpkg", shape=Shape("pushback"))
    before = path.read_bytes()
    assert pitplan.write_export(folder, "gpkg", shape=Shape("pushback")).read_bytes() == before
    source, areas = ogr.Open(str(path)), defaultdict(float)
    layer = source.GetLayerByName("lines")
    assert (
        layer.GetSpatialRef() is None
        or layer.GetSpatialRef().IsLocal()
        or "ndefined" in layer.GetSpatialRef().GetName()
    )
    for feature in layer:
        points = np.array(feature.GetGeometryRef().GetPoints())
        assert points.shape[1] == 3 and (points[0] == points[-1]).all()
        areas[feature["pushback"], feature["kind"], feature["bench"], points[0, 2]] += area_of(points)
    assert areas == pytest.approx(expected(folder, "pushback"))


def test_a_geopackage_has_the_revenue_factor_of_its_pit(solved):
    ogr = pytest.importorskip("osgeo.ogr", reason="needs the Debian package python3-gdal")
    source = ogr.Open(str(pitplan.write_export(solved[1], "gpkg", 0.5)))
    assert {feature["revenue_factor"] for feature in source.GetLayerByName("lines")} == {0.5}


def test_a_geopackage_is_one_for_those_who_read_its_tables(folder):
    """Of SQLite, with the mark of a GeoPackage and the extent of all lines."""
    pytest.importorskip("osgeo.ogr")
    with sqlite3.connect(pitplan.write_export(folder, "gpkg", shape=Shape("year"))) as base:
        assert base.execute("pragma application_id").fetchone()[0] == int.from_bytes(b"GPKG", "big")
        ((name, west, south, east, north),) = base.execute(
            "select table_name, min_x, min_y, max_x, max_y from gpkg_contents"
        ).fetchall()
        count = base.execute("select count(*) from lines where kind = 'toe'").fetchone()[0]
    mined = pd.read_csv(folder / "tables/blocks.csv").query("year > 0")
    ends = [mined["x"].min() - 5, mined["y"].min() - 5, mined["x"].max() + 5, mined["y"].max() + 5]
    assert name == "lines" and [west, south, east, north] == pytest.approx(ends)
    assert count == sum(
        1 for string in strings_of(pitplan.write_export(folder, "str", shape=Shape("year"))) if string[0][4] == "toe"
    )


def test_a_pit_of_one_factor_by_hand(plan_folder, capsys):
    """One block of ore under one of waste: four corners on two levels, each with a toe and a crest."""
    path = plan_folder(rows(1, 1, 2, cu=lambda i, j, k: 6 if k == 0 else 0))
    pitplan.write_shells(path, writing=UNVERIFIED)
    assert main(["export", str(path.parent / "plan"), "--to", "str", "--revenue-factor", "1.00"]) == 0
    found = path.parent / "plan" / "lines-1.00.str"
    assert capsys.readouterr().out.strip() == str(found)
    strings = strings_of(found)
    assert [(string[0][0], *string[0][3:]) for string in strings] == [
        ("1", "10.0000", "toe", "10", "revenue factor 1.00"),
        ("2", "20.0000", "crest", "10", "revenue factor 1.00"),
        ("1", "0.0000", "toe", "0", "revenue factor 1.00"),
        ("2", "10.0000", "crest", "0", "revenue factor 1.00"),
    ]
    square = {(north, east) for north in ("0.0000", "10.0000") for east in ("0.0000", "10.0000")}
    assert all(len(string) == 5 and {(point[1], point[2]) for point in string} == square for string in strings)


def test_an_empty_pit_has_no_lines(plan_folder):
    path = plan_folder(rows(2, 2, 2))
    pitplan.write_shells(path, writing=UNVERIFIED)
    for kind in ("str", "lines"):
        with pytest.raises(PlanError, match="the pit of revenue factor 1.00 is empty"):
            pitplan.write_export(path.parent / "plan", kind)
    assert not list((path.parent / "plan").glob("lines-*"))


def test_without_gdal_its_package_is_named(solved, monkeypatch):
    monkeypatch.setitem(sys.modules, "osgeo.ogr", None)
    with pytest.raises(
        MissingPackage, match="export --to gpkg needs the Debian package python3-gdal: apt-get install python3-gdal"
    ):
        pitplan.write_export(solved[1], "gpkg")
    assert not list(solved[1].glob("lines-*"))

"""Toes and crests of pits as files for other programs: DXF drawings by ezdxf, a GeoPackage by GDAL, strings for Surpac, and a table."""

from __future__ import annotations

import re
from collections.abc import Iterator
from contextlib import contextmanager
from dataclasses import dataclass
from pathlib import Path
from typing import Any

import numpy as np
import pandas as pd

from pitplan.blockmodel.grid import Grid, metres
from pitplan.core.cell_outlines import rings
from pitplan.core.libraries import load
from pitplan.errors import PlanError
from pitplan.results.folder import Folder
from pitplan.results.pit_states import FACTOR, GROUND, Shape, Stage, places_of, rock, stages_of

from . import mesh

# Toes and crests of benches, as closed lines in metres.
#
# The faces of blocks are vertical. So the toe at the floor of a bench and the crest at its top have one outline, that
# of the mined blocks.

TOE, CREST = "toe", "crest"


@dataclass(frozen=True)
class ClosedLine:
    """A closed line with the mined side on its left.

    Attributes
    ----------
    kind : str
        TOE or CREST.
    bench : float
        Elevation of the floor of the bench, metres.
    points : array, shape (corners, 3)
        x, y and z in metres, each corner once.
    """

    stage: Stage
    kind: str
    bench: float
    points: np.ndarray


def lines_of(folder: Folder, shape: Shape) -> Iterator[ClosedLine]:
    """Yields the lines of all pits of a shape: by stage, then by bench from the top, toes before crests. Raises PlanError as `stages_of`."""
    for stage in stages_of(folder, shape):
        yield from lines_of_stage(stage, folder.grid)


def lines_of_stage(stage: Stage, grid: Grid) -> Iterator[ClosedLine]:
    levels = grid.shape[0]
    for level in np.flatnonzero(stage.mined.any(axis=(1, 2))):
        outlines, floor = rings(stage.mined[level]), levels - 1 - int(level)
        bench = float(places_of(grid, np.array([[0, 0, floor]]))[0, 2])
        for kind, height in ((TOE, floor), (CREST, floor + 1)):
            for ring in outlines:
                corners = np.column_stack([np.array(ring), np.full(len(ring), height)])
                yield ClosedLine(stage, kind, bench, places_of(grid, corners))


def write_dxf(path: Path, folder: Folder, shape: Shape) -> list[str]:
    """Writes toes and crests of the pits of a shape, or the ground with the pits in it; returns a sentence on the volume of each surface. Raises
    MissingPackage without ezdxf, and PlanError as `stages_of` and `mesh.of_stage`.

    Toes and crests are in the layers TOE_z and CREST_z, where z is the floor of the bench in metres. The ground is in BENCH_z, and in GROUND where
    nothing is mined. The pushback or year precedes these names.
    """
    ezdxf = load("ezdxf", "python3-ezdxf", "export --to dxf")
    drawing = ezdxf.new("R2010", units=6)
    space, said = drawing.modelspace(), []
    if shape.surface == GROUND:
        said = [
            f"{path.name}, {stage.name}: {add_ground(space, folder, stage, shape)}"
            for stage in stages_of(folder, shape)
        ]
    else:
        for line in lines_of(folder, shape):
            layer = f"{line.stage.prefix}{line.kind.upper()}_{metres(line.bench)}"
            space.add_polyline3d(line.points.tolist(), close=True, dxfattribs={"layer": layer})
    drawing.saveas(path)
    return said


def add_ground(space: Any, folder: Folder, stage: Stage, shape: Shape) -> str:
    """Adds the triangles of the ground at a stage to the modelspace; returns a sentence on its volume."""
    grid = folder.grid
    surface, said = mesh.of_stage(rock(folder), stage, grid, shape.smooth)
    places = places_of(grid, surface.corners)
    floors = places_of(grid, np.array([[0, 0, level] for level in range(grid.shape[0])]))[:, 2]
    for corners, bench in zip(places[surface.faces], surface.bench.tolist()):
        layer = "GROUND" if bench == mesh.NONE else f"BENCH_{metres(floors[bench])}"
        space.add_3dface(corners.tolist(), dxfattribs={"layer": stage.prefix + layer})
    return said


GDAL = "python3-gdal"
# GDAL writes the time into the file. With a fixed time the same plan gives the same bytes.
DATE = {"OGR_CURRENT_DATE": "2000-01-01T00:00:00.000Z"}
# The largest number of a string in Surpac.
MOST_STRINGS = 32_000
AXIS = ", ".join(["0", *["0.000"] * 6])
BREAK, END = "0, 0.000, 0.000, 0.000,", "0, 0.000, 0.000, 0.000, END"


def write_gpkg(path: Path, folder: Folder, shape: Shape) -> None:
    """Writes a GeoPackage with a layer `lines`: closed 3D lines with `kind` (toe or crest), `bench` (elevation of its floor, metres) and the revenue
    factor, pushback or year. Coordinates are those of the table; the layer names no coordinate system. Raises MissingPackage without GDAL, and
    PlanError as `stages_of`, or if the file cannot be written."""
    ogr, gdal = (load(f"osgeo.{name}", GDAL, "export --to gpkg") for name in ("ogr", "gdal"))
    with options(gdal, DATE):
        ogr.UseExceptions()
        try:
            source = ogr.GetDriverByName("GPKG").CreateDataSource(str(path))
            layer = source.CreateLayer("lines", None, ogr.wkbLineString25D)
            number = ogr.OFTReal if shape.of == FACTOR else ogr.OFTInteger
            for name, kind in (("kind", ogr.OFTString), ("bench", ogr.OFTReal), (shape.of, number)):
                layer.CreateField(ogr.FieldDefn(name, kind))
            source.StartTransaction()
            for line in lines_of(folder, shape):
                feature, geometry = ogr.Feature(layer.GetLayerDefn()), ogr.Geometry(ogr.wkbLineString25D)
                for point in closed(line):
                    geometry.AddPoint(*point)
                for name, value in (("kind", line.kind), ("bench", line.bench), (shape.of, line.stage.number)):
                    feature.SetField(name, value)
                feature.SetGeometry(geometry)
                layer.CreateFeature(feature)
            source.CommitTransaction()
            # GDAL completes the file when its last reference goes.
            del layer, source
        except RuntimeError as error:
            raise PlanError(f"{path}: cannot be written: {error}") from error


@contextmanager
def options(gdal: Any, given: dict[str, str]) -> Iterator[None]:
    """Sets options of GDAL within a block."""
    before = {name: gdal.GetConfigOption(name) for name in given}
    for name, value in given.items():
        gdal.SetConfigOption(name, value)
    try:
        yield
    finally:
        for name, value in before.items():
            gdal.SetConfigOption(name, value)


def closed(line: ClosedLine) -> list[list[float]]:
    """Returns the points of a line with the first one repeated at the end."""
    points: list[list[float]] = line.points.tolist()
    return [*points, points[0]]


def write_str(path: Path, folder: Folder, shape: Shape) -> None:
    """Writes a Surpac string file: name, axis, then per point the number of its string, north, east, elevation, and as descriptions the kind of line,
    the floor of the bench, and the revenue factor, pushback or year. Toes have odd numbers from 1, one per revenue factor, pushback or year; crests
    have the next even number. Raises PlanError as `stages_of`, or if more than MOST_STRINGS numbers are needed."""
    lines, numbers = [f"{plain(path.stem)},,toes and crests,", AXIS], dict[float, int]()
    for line in lines_of(folder, shape):
        number = 2 * numbers.setdefault(line.stage.number, len(numbers)) + (1 if line.kind == TOE else 2)
        if number > MOST_STRINGS:
            raise PlanError(f"{path.name}: more than {MOST_STRINGS:,} strings are needed, which Surpac does not know")
        told = f"{line.kind}, {metres(line.bench)}, {line.stage.spoken}"
        lines += [f"{number}, {y:.4f}, {x:.4f}, {z:.4f}, {told}" for x, y, z in closed(line)]
        lines.append(BREAK)
    path.write_text("\n".join([*lines, END, ""]), encoding="ascii")


def plain(name: str) -> str:
    """Returns a name with every character replaced that the first field of a string file may not have."""
    return re.sub(r"[^A-Za-z0-9._-]", "_", name)


def write_lines(path: Path, folder: Folder, shape: Shape) -> None:
    """Writes a table with a row per point: the revenue factor, pushback or year, `line` from 1, `kind`, `bench`, and x, y and z in metres. The
    last point of a line is its first. Raises PlanError as `stages_of`."""
    rows = [
        (line.stage.number, number, line.kind, metres(line.bench), *(metres(axis) for axis in point))
        for number, line in enumerate(lines_of(folder, shape), 1)
        for point in closed(line)
    ]
    pd.DataFrame(rows, columns=[shape.of, "line", "kind", "bench", "x", "y", "z"]).to_csv(path, index=False)

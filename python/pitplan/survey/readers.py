"""Topographies and areas of the files that surveyors give: tables of points, strings, drawings (DXF), maps, and rasters of heights.

The ending of a file decides its reader. Coordinates are taken as they are written, in metres of the table's own system: none is
transformed.
"""

from __future__ import annotations

from collections.abc import Iterator
from contextlib import contextmanager
from dataclasses import dataclass
from pathlib import Path

import numpy as np

from pitplan.config.keys import FARTHEST
from pitplan.config.table import SurveyFile
from pitplan.core.numeric_fields import demand_none, numbers_of
from pitplan.core.text_tables import Fields, TableFormat, demand_columns, guessed_separator, read_columns
from pitplan.errors import PlanError

from . import layers as files
from .layers import MAPS, RASTERS, Layer, MapBox, chosen, named

TABLES = (".csv", ".txt", ".dat", ".xyz", ".gz", ".zip")
DRAWING, STRINGS = ".dxf", ".str"
READERS = {DRAWING: "ezdxf", STRINGS: "pitplan"}
HEIGHTS, CLOSED = "points, lines with heights or 3D faces", "polygons or closed lines"
NO_FACES = np.zeros((0, 3), dtype=np.int64)


@dataclass(frozen=True)
class Topography:
    """Heights of the ground.

    points  x, y, z in metres, shape (points, 3)
    faces   numbers of the three points of each triangle of the ground, shape (faces, 3); none where the file has points alone
    notes   by what it was read, and what else a planner should know
    """

    points: np.ndarray
    faces: np.ndarray
    notes: tuple[str, ...] = ()


@dataclass(frozen=True)
class Areas:
    """Polygons on the map, each a list of rings x, y in metres; the first is its outline and the others its holes; and what a
    planner should know of them."""

    polygons: list[list[np.ndarray]]
    notes: tuple[str, ...] = ()


def topography(file: SurveyFile, around: MapBox) -> Topography:
    """Reads the heights of a file; of a raster the part around a box.

    Raises PlanError, with the file and its layer, if it cannot be read or has no heights, and MissingPackage, with the Debian package, if its
    reader is not installed.
    """
    ending = ending_of(file, (*MAPS, *RASTERS))
    if file.height is not None and ending not in MAPS:
        raise PlanError(f"{file.path}: has heights of its own: height is a field of {', '.join(MAPS)}")
    if ending in TABLES:
        return demand_points(Topography(numbers_in(file.path, ("x", "y", "z")), NO_FACES), file)
    if ending in RASTERS:
        with reading(file.path):
            points, faces = files.raster(file.path, around)
        return demand_points(Topography(points, faces, (told(file, f"{len(points):,} cells of the raster"),)), file)
    layers, notes = layers_of(file)
    if any(layer.faces for layer in named(layers, file).values()):
        some = chosen(layers, file, "faces", "3D faces")
        corners = np.concatenate([faces for layer in some.values() for faces in layer.faces])
        points, faces = np.unique(corners.reshape(-1, 3), axis=0, return_inverse=True)
        # Drawings often have a face twice.
        faces = np.unique(np.sort(faces.reshape(-1, 3), axis=1), axis=0)
        demand_near(points, file.path)
        return Topography(points, faces, (told(file, f"{len(faces):,} triangles of {in_layers(some)}"), *notes))
    some = chosen(layers, file, "points", HEIGHTS)
    points = np.concatenate([part for layer in some.values() for part in layer.points])
    demand_near(points, file.path)
    return Topography(points, NO_FACES, (told(file, f"{len(points):,} points of {in_layers(some)}"), *notes))


def areas(file: SurveyFile) -> Areas:
    """Reads the polygons of a file. Raises PlanError and MissingPackage as `topography` does, and PlanError if the file has no polygons."""
    if ending_of(file, tuple(MAPS)) in TABLES:
        corners = numbers_in(file.path, ("x", "y"))
        if len(corners) < 3:
            raise PlanError(f"{file.path}: a polygon has three corners or more")
        demand_near(corners, file.path)
        return Areas([[corners]])
    layers, notes = layers_of(file)
    some = chosen(layers, file, "polygons", CLOSED)
    polygons = [polygon for layer in some.values() for polygon in layer.polygons]
    for ring in (ring for polygon in polygons for ring in polygon):
        demand_near(ring, file.path)
    count = sum(number for layer in some.values() for kind, number in layer.kinds.items() if kind.endswith("(open)"))
    passed = (
        [f"WARNING: {file.path}: {count:,} open lines of {in_layers(some)} are ignored: close them"] if count else []
    )
    return Areas(polygons, (told(file, f"{len(polygons):,} polygons of {in_layers(some)}"), *notes, *passed))


def ending_of(file: SurveyFile, by_gdal: tuple[str, ...]) -> str:
    """Returns the ending of a file's name in lower case. Raises PlanError if no reader is for that ending, or if it is no file."""
    path, ending = file.path, file.path.suffix.lower()
    endings = (*TABLES, DRAWING, STRINGS, *by_gdal)
    if ending not in endings:
        why = f"{ending} files are not read" if ending else "has no ending, which tells what reads it"
        raise PlanError(f"{path}: {why}: give one of {', '.join(endings)}")
    if not path.is_file():
        raise PlanError(f"{path}: cannot be read: {'is a folder' if path.is_dir() else 'No such file or directory'}")
    if file.layers and ending in (*TABLES, *RASTERS):
        raise PlanError(f"{path}: has no layers: leave out layer")
    return ending


def layers_of(file: SurveyFile) -> tuple[dict[str, Layer], list[str]]:
    """Returns the layers of a drawing, of strings or of a map, and notes."""
    ending = file.path.suffix.lower()
    with reading(file.path):
        if ending == DRAWING:
            return files.drawing_layers(file.path, file.state)
        return (files.string_layers(file.path) if ending == STRINGS else files.map_layers(file)), []


@contextmanager
def reading(path: Path) -> Iterator[None]:
    """Raises PlanError in place of any error that a library raises for a file that is cut short or damaged."""
    try:
        yield
    except (PlanError, MemoryError):
        raise
    except Exception as error:
        said = " ".join(f"{type(error).__name__} {error}".split())
        raise PlanError(
            f"{path}: cannot be read to its end by {reader_of(path)} ({said}): it is cut short or bent: export it again"
        ) from error


def demand_near(places: np.ndarray, path: Path) -> None:
    """Raises PlanError if a point lies farther from 0 than any place on the ground."""
    far = ~(np.abs(places) <= FARTHEST).all(axis=1)
    if far.any():
        place = ", ".join(f"{number:g}" for number in places[int(far.argmax())])
        raise PlanError(f"{path}: has a point at {place}: expected metres, none beyond {FARTHEST:,}: export it again")


def demand_points(found: Topography, file: SurveyFile) -> Topography:
    if not len(found.points):
        raise PlanError(f"{file.path}: has no heights, or none where the model lies")
    demand_near(found.points, file.path)
    return found


def told(file: SurveyFile, what: str) -> str:
    return f"{file.path}: {what}, read by {reader_of(file.path)}; coordinates are not transformed"


def reader_of(path: Path) -> str:
    return READERS.get(path.suffix.lower(), "GDAL")


def in_layers(layers: dict[str, Layer]) -> str:
    return f"the layer{'s' if len(layers) > 1 else ''} {', '.join(layers)}"


def numbers_in(file: Path, names: tuple[str, ...]) -> np.ndarray:
    """Returns columns of a CSV file as numbers. Raises PlanError, with file, row and column, if a column is missing or a field is no number."""
    frame = read_columns(
        file,
        TableFormat(guessed_separator(file, "utf-8-sig"), ".", "utf-8-sig"),
        Fields(numbers=dict.fromkeys(names, ())),
    )
    demand_columns(frame, list(names), str(file))
    columns = [numbers_of(frame[name], str(file), name) for name in names]
    for name, numbers in zip(names, columns):
        demand_none(np.isnan(numbers), str(file), name, "is empty")
    return np.stack(columns, axis=1)

"""Reads drawings (.dxf), strings (.str), maps and rasters: layers with points, triangles and polygons, in metres."""

from __future__ import annotations

import csv
import importlib
from collections import defaultdict
from collections.abc import Iterable, Iterator
from dataclasses import dataclass, field
from fnmatch import fnmatch
from functools import lru_cache
from pathlib import Path
from typing import Any, Optional

import numpy as np

from planaudit.errors import AuditError, PackageError
from planaudit.inputs.project import Section

MAPS, RASTERS = (".gpkg", ".shp", ".geojson", ".json"), (".tif", ".tiff", ".asc")
# Metres: the gap of a closed line, and the distance of chords from their arc.
GAP, SAGITTA = 1e-3, 0.01
# The lines of a file of strings before its strings.
HEAD = 2


@dataclass
class Layer:
    """A layer: points, shape (n, 3); triangles, shape (n, 3, 3); and polygons as rings, shape (n, 2), the first is the outline."""

    points: list[np.ndarray] = field(default_factory=list)
    faces: list[np.ndarray] = field(default_factory=list)
    polygons: list[list[np.ndarray]] = field(default_factory=list)

    def add_line(self, corners: np.ndarray, is_closed: bool, has_heights: bool) -> None:
        if has_heights:
            self.points.append(corners)
        gap = corners[0, :2] - corners[-1, :2]
        if len(corners) > 2 and (is_closed or np.linalg.norm(gap) <= GAP):
            self.polygons.append([corners[:, :2]])

    def add_face(self, corners: Iterable[Any]) -> None:
        """Adds a face of three or more corners as a fan of triangles."""
        first, *others = np.array([tuple(corner)[:3] for corner in corners], dtype=float)
        self.faces += [np.array([[first, one, other]]) for one, other in zip(others, others[1:])]


def package(name: str, debian: str) -> Any:
    try:
        return importlib.import_module(name)
    except ImportError as error:
        raise PackageError(f"{name} is not installed: apt-get install {debian}") from error


def layers_of(survey: Section) -> list[Layer]:
    """Returns the layers that the project names, all if it names none."""
    state = survey["file"].stat()
    found = all_layers(survey["file"], survey["height"], (state.st_mtime_ns, state.st_size))
    names = [it.lower() for it in survey["layer"]] or ["*"]
    return [layer for name, layer in found.items() if any(fnmatch(name.lower(), it) for it in names)]


@lru_cache(maxsize=2)
def all_layers(path: Path, height: Optional[str], state: tuple[int, int]) -> dict[str, Layer]:
    """Returns all layers by name, once for a file that stays in this state. `height` is the field of a map with heights."""
    ending = path.suffix.lower()
    try:
        if ending == ".dxf":
            return of_drawing(path)
        return of_strings(path) if ending == ".str" else of_map(path, height)
    except (AuditError, OSError, MemoryError):
        raise
    except Exception as error:
        raise AuditError(f"{path}: cannot be read: {type(error).__name__} {error}") from error


def heights_of(survey: Section) -> tuple[np.ndarray, np.ndarray]:
    """Returns points, shape (n, 3), and triangles as their numbers, shape (n, 3): the triangles of the layers if they have some."""
    layers = layers_of(survey)
    corners = [face for layer in layers for face in layer.faces]
    if not corners:
        points = [it for layer in layers for it in layer.points]
        return np.concatenate([np.zeros((0, 3)), *points]), np.zeros((0, 3), dtype=np.int64)
    places, numbers = np.unique(np.concatenate(corners).reshape(-1, 3), axis=0, return_inverse=True)
    return places, np.unique(np.sort(numbers.reshape(-1, 3), axis=1), axis=0)


def of_drawing(path: Path) -> dict[str, Layer]:
    """Returns the layers of the model space of a drawing."""
    ezdxf, paths = package("ezdxf", "python3-ezdxf"), package("ezdxf.path", "python3-ezdxf")
    found: dict[str, Layer] = defaultdict(Layer)
    for entity in ezdxf.readfile(path).modelspace():
        kind, layer = entity.dxftype(), found[entity.dxf.layer]
        if kind == "3DFACE":
            layer.add_face(entity.wcs_vertices())
        elif kind == "MESH":
            corners = [tuple(it) for it in entity.vertices]
            for face in entity.faces:
                layer.add_face(corners[number] for number in face)
        elif kind == "POLYLINE" and (entity.is_poly_face_mesh or entity.is_polygon_mesh):
            for face in entity.virtual_entities():
                layer.add_face(face.wcs_vertices())
        elif kind in ("LWPOLYLINE", "POLYLINE"):
            in_space = kind == "POLYLINE" and entity.is_3d_polyline
            corners = entity.points() if in_space else paths.make_path(entity).flattening(SAGITTA)
            line = np.array([tuple(corner) for corner in corners], dtype=float).reshape(-1, 3)
            layer.add_line(line, entity.is_closed, bool(in_space or entity.dxf.hasattr("elevation")))
        elif kind == "LINE":
            layer.add_line(np.array([tuple(entity.dxf.start), tuple(entity.dxf.end)]), False, True)
        elif kind == "POINT":
            layer.points.append(np.array([tuple(entity.dxf.location)]))
    return found


def of_strings(path: Path) -> dict[str, Layer]:
    """Returns the strings of a file by number. A line has number, north, east and elevation; the number 0 ends a segment."""
    found: dict[str, Layer] = defaultdict(Layer)
    segment: list[tuple[str, float, float, float]] = []
    with open(path, encoding="latin-1") as text:
        for fields in list(csv.reader(text))[HEAD:]:
            if not fields or not any(map(str.strip, fields)):
                continue
            number, north, east, up = str(int(fields[0])), *map(float, fields[1:4])
            if number != "0":
                segment.append((number, east, north, up))
            elif segment:
                found[segment[-1][0]].add_line(np.array([it[1:] for it in segment]), False, True)
                segment = []
    return found


def of_map(path: Path, height: Optional[str]) -> dict[str, Layer]:
    """Returns the layers of a map."""
    gdal = package("osgeo.gdal", "python3-gdal")
    gdal.UseExceptions()
    source, found = gdal.OpenEx(str(path), gdal.OF_VECTOR), {}
    for number in range(source.GetLayerCount()):
        features = source.GetLayer(number)
        layer = found[features.GetName()] = Layer()
        for feature in features:
            shape = feature.GetGeometryRef()
            if shape is not None:
                level = None if height is None else feature.GetField(height)
                for part in parts_of(shape.GetLinearGeometry()):
                    add_part(layer, part, level)
    return found


def parts_of(shape: Any) -> Iterator[Any]:
    """Yields the points, lines, polygons and triangles of a geometry."""
    if shape.GetGeometryName() in ("POINT", "LINESTRING", "POLYGON", "TRIANGLE"):
        yield shape
    else:
        for number in range(shape.GetGeometryCount()):
            yield from parts_of(shape.GetGeometryRef(number))


def add_part(layer: Layer, part: Any, height: float | None) -> None:
    kind, is_solid = part.GetGeometryName(), bool(part.Is3D())
    if kind in ("POLYGON", "TRIANGLE"):
        rings = [corners_of(part.GetGeometryRef(number)) for number in range(part.GetGeometryCount())]
        layer.polygons.append([ring[:, :2] for ring in rings])
        if is_solid and len(rings) == 1 and len(rings[0]) == 4:
            layer.add_face(rings[0][:3])
        return
    corners = corners_of(part)
    if height is not None:
        corners[:, 2] = height
    if kind == "LINESTRING":
        layer.add_line(corners, False, is_solid or height is not None)
    elif is_solid or height is not None:
        layer.points.append(corners)


def corners_of(shape: Any) -> np.ndarray:
    """Returns x, y and z of the points of a shape, shape (n, 3); z is 0 if it has none."""
    return np.array([[shape.GetX(k), shape.GetY(k), shape.GetZ(k)] for k in range(shape.GetPointCount())])


def of_raster(path: Path, low: np.ndarray, high: np.ndarray) -> tuple[np.ndarray, np.ndarray]:
    """Returns the centres of the cells of a raster with a height, shape (n, 3), and triangles between them as numbers, shape (n, 3).

    Four centres make two triangles, cut from the first to the opposite one. Cells farther than two cells from the box of `low` and `high`,
    x and y in metres, are left out.
    """
    gdal = package("osgeo.gdal", "python3-gdal")
    gdal.UseExceptions()
    options = ["DATATYPE=Float64"] if path.suffix.lower() == ".asc" else []
    source = gdal.OpenEx(str(path), gdal.OF_RASTER, open_options=options)
    x0, along, skew, y0, tilt, down = source.GetGeoTransform()
    band = source.GetRasterBand(1)
    column, row = np.meshgrid(np.arange(source.RasterXSize) + 0.5, np.arange(source.RasterYSize) + 0.5)
    x, y = x0 + column * along + row * skew, y0 + column * tilt + row * down
    z = band.ReadAsArray().astype(float) * (band.GetScale() or 1.0) + (band.GetOffset() or 0.0)
    margin = 2 * (abs(along) + abs(skew) + abs(tilt) + abs(down))
    is_near = (x >= low[0] - margin) & (x <= high[0] + margin) & (y >= low[1] - margin) & (y <= high[1] + margin)
    is_there = is_near & (band.GetMaskBand().ReadAsArray() != 0) & np.isfinite(z)
    number = np.full(z.shape, -1)
    number[is_there] = np.arange(np.count_nonzero(is_there))
    one, right, across, below = number[:-1, :-1], number[:-1, 1:], number[1:, 1:], number[1:, :-1]
    faces = np.concatenate([np.stack([one, right, across], -1), np.stack([one, across, below], -1)]).reshape(-1, 3)
    return np.stack([x, y, z], axis=-1)[is_there], faces[(faces >= 0).all(axis=1)]

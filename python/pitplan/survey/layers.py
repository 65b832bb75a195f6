"""The layers of surveyors' files, and which of them are taken: drawings (DXF) by ezdxf, strings of Surpac, maps and rasters by GDAL."""

from __future__ import annotations

from collections import Counter, defaultdict
from collections.abc import Iterable
from dataclasses import dataclass, field
from fnmatch import fnmatchcase
from functools import lru_cache
from pathlib import Path
from typing import Any, Optional

import numpy as np

from pitplan.config.table import SurveyFile
from pitplan.core.libraries import load
from pitplan.core.tolerances import OPEN_LINE, SUM_ERROR
from pitplan.errors import PlanError

# The largest number of layers that an error names.
TOLD = 8


@dataclass(frozen=True)
class Layer:
    """What a layer holds, in metres; shapes are of corners, and x, y and z.

    faces     triangles, arrays of shape (some, 3, 3)
    points    arrays of shape (some, 3), of lines their corners
    polygons  each a list of rings of shape (some, 2); the first is its outline and the others its holes
    kinds     how much of what there is, in the words of the file's format
    """

    faces: list[np.ndarray] = field(default_factory=list)
    points: list[np.ndarray] = field(default_factory=list)
    polygons: list[list[np.ndarray]] = field(default_factory=list)
    kinds: Counter[str] = field(default_factory=Counter)

    @property
    def told(self) -> str:
        return " and ".join(f"{count:,} {kind}" for kind, count in sorted(self.kinds.items())) or "nothing"

    def add_line(self, kind: str, line: np.ndarray, is_closed: bool, has_heights: bool) -> None:
        """Adds the corners x, y, z of a line, and its polygon if the line is closed."""
        is_closed = len(line) > 2 and (is_closed or np.hypot(*(line[0] - line[-1])[:2]) <= OPEN_LINE)
        self.kinds[f"{kind} ({'closed' if is_closed else 'open'})"] += 1
        if has_heights:
            self.points.append(line)
        if is_closed:
            self.polygons.append([line[:, :2]])

    def places(self) -> np.ndarray:
        """Returns x and y of all corners."""
        rings = [ring for polygon in self.polygons for ring in polygon]
        return np.concatenate(
            [np.zeros((0, 2)), *rings, *(part.reshape(-1, 3)[:, :2] for part in (*self.points, *self.faces))]
        )


def named(layers: dict[str, Layer], file: SurveyFile) -> dict[str, Layer]:
    """Returns the layers that the project names, or all layers if it names none. Raises PlanError if a named layer does not exist."""
    for wanted in file.layers:
        if not any(is_called(name, wanted) for name in layers):
            raise PlanError(f"{file.path}: has no layer {wanted}; the layers are {listed(list(layers))}")
    return {
        name: layer
        for name, layer in layers.items()
        if not file.layers or any(is_called(name, it) for it in file.layers)
    }


def is_called(name: str, wanted: str) -> bool:
    return fnmatchcase(name.lower(), wanted.lower())


def chosen(layers: dict[str, Layer], file: SurveyFile, part: str, called: str) -> dict[str, Layer]:
    """Returns the named layers that have a part: faces, points or polygons; `called` is the part in words.

    Raises PlanError if none has it, or if several have it and the project names none.
    """
    some = named(layers, file)
    found = {name: layer for name, layer in some.items() if getattr(layer, part)}
    if not found:
        there = listed([f"{name} has {layer.told}" for name, layer in some.items()]) or "it holds nothing"
        raise PlanError(f"{file.path}: has no {called}: {there if not some else f'its layer {there}'}")
    if len(found) > 1 and not file.layers:
        one = f'{{ file = "{file.path.name}", layer = "{next(iter(found))}" }}'
        raise PlanError(
            f'{file.path}: has {called} in the layers {listed(list(found))}: name one, a list, or "*" for all, by {one}'
        )
    return found


def listed(names: list[str]) -> str:
    return ", ".join(names[:TOLD]) + (f" and {len(names) - TOLD} more" if len(names) > TOLD else "")


EZDXF = "python3-ezdxf"
# Metres by which the chords of an arc may lie off it.
OFF_ARC = 0.01
# Of the header's $INSUNITS: what lengths are not, and what is no unit or metres.
FEET = {2: "feet", 10: "yards", 21: "US survey feet", 22: "US survey inches", 23: "US survey yards"}
NO_UNITS = (0, 6)
# What a reference to a drawing's block is called, since it is not looked into.
EXPLODED = "INSERT (explode it)"


@lru_cache(maxsize=2)
def drawing_layers(path: Path, state: tuple[tuple[int, int], ...]) -> tuple[dict[str, Layer], list[str]]:
    """Returns the layers of a drawing's model space, and notes on it. Reading 10,000 faces takes a second, so a file is read again only if its state
    changes.

    Raises MissingPackage without ezdxf, and PlanError if the file is no drawing, or is in feet.
    """
    ezdxf = load("ezdxf", EZDXF, "a .dxf file")
    try:
        drawing = ezdxf.readfile(path)
    except (OSError, UnicodeError, ezdxf.DXFError) as error:
        raise PlanError(f"{path}: cannot be read as a drawing: {error}") from error
    found: dict[str, Layer] = defaultdict(Layer)
    for entity in drawing.modelspace():
        add_entity(found[entity.dxf.layer], entity)
    return dict(found), notes_of_units(drawing, path)


def notes_of_units(drawing: Any, path: Path) -> list[str]:
    """Returns a warning if the header names other units than metres, since programs write their own unit there. Raises PlanError if the header names
    feet, which no program writes by default."""
    unit = int(drawing.header.get("$INSUNITS", 0))
    if unit in FEET:
        raise PlanError(f"{path}: is in {FEET[unit]} ($INSUNITS is {unit}), and lengths are in metres: convert it")
    return [] if unit in NO_UNITS else [f"WARNING: {path}: its $INSUNITS is {unit}, and its numbers are read as metres"]


def add_entity(layer: Layer, entity: Any) -> None:
    """Adds what a layer's entity holds to the layer; if it holds nothing, its kind alone."""
    kind = entity.dxftype()
    if kind == "3DFACE":
        layer.kinds[kind] += 1
        layer.faces.append(fan(entity.wcs_vertices()))
    elif kind == "MESH" or (kind == "POLYLINE" and (entity.is_poly_face_mesh or entity.is_polygon_mesh)):
        layer.kinds["MESH"] += 1
        layer.faces.extend(triangles_of(entity))
    elif kind in ("LWPOLYLINE", "POLYLINE"):
        layer.add_line(kind, line_of(entity), entity.is_closed, has_heights(entity))
    elif kind == "LINE":
        layer.add_line(kind, as_array([entity.dxf.start, entity.dxf.end]), False, True)
    else:
        layer.kinds[EXPLODED if kind == "INSERT" else kind] += 1
        if kind == "POINT":
            layer.points.append(as_array([entity.dxf.location]))


def triangles_of(mesh: Any) -> list[np.ndarray]:
    builder = load("ezdxf.render", EZDXF, "a .dxf file").MeshBuilder
    read = builder.from_mesh(mesh) if mesh.dxftype() == "MESH" else builder.from_polyface(mesh)
    return [fan([read.vertices[corner] for corner in face]) for face in read.faces]


def fan(corners: Iterable[Any]) -> np.ndarray:
    """Returns a face with any number of corners as triangles around its first corner, shape (triangles, 3, 3)."""
    places = as_array(corners)
    return np.stack([np.broadcast_to(places[0], places[2:].shape), places[1:-1], places[2:]], axis=1)


def has_heights(line: Any) -> bool:
    """Returns whether a polyline is 3D, or has an elevation."""
    return bool(line.dxftype() == "POLYLINE" and line.is_3d_polyline) or bool(line.dxf.hasattr("elevation"))


def line_of(line: Any) -> np.ndarray:
    """Returns the corners of a polyline, with chords in place of arcs."""
    if line.dxftype() == "POLYLINE" and line.is_3d_polyline:
        return as_array(line.points())
    return as_array(load("ezdxf.path", EZDXF, "a .dxf file").make_path(line).flattening(OFF_ARC))


def as_array(places: Iterable[Any]) -> np.ndarray:
    return np.array([(place.x, place.y, place.z) for place in places], dtype=float).reshape(-1, 3)


# The file's own line, and that of its axis.
HEAD = 2


def string_layers(path: Path) -> dict[str, Layer]:
    """Returns the strings of a Surpac file (.str) by number, each as a layer with a line for each segment. Raises PlanError, with the row, if a point
    lacks its number, north, east or height."""
    found: dict[str, Layer] = defaultdict(Layer)
    segment: list[tuple[float, float, float]] = []
    number = "0"
    lines = path.read_text(encoding="latin-1").rstrip().splitlines()
    for row, line in enumerate(lines[HEAD:], HEAD + 1):
        try:
            last, (y, x, z) = number, map(float, line.split(",")[1:4])
            number = str(int(line.split(",")[0]))
        except ValueError as error:
            raise PlanError(f"{path} row {row}: has no number, north, east and height of a string") from error
        # Between two segments, and at the end, stands the number 0.
        if number == "0" and segment:
            found[last].add_line("string", np.array(segment), False, True)
            segment = []
        elif number != "0":
            segment.append((x, y, z))
    if segment:
        raise PlanError(f"{path}: breaks off: its last string has no end")
    return dict(found)


# Least x and greatest, least y and greatest, in metres.
MapBox = tuple[float, float, float, float]
GDAL = "python3-gdal"
# The driver of each ending.
MAPS = {".gpkg": "GPKG", ".shp": "ESRI Shapefile", ".geojson": "GeoJSON", ".json": "GeoJSON"}
RASTERS = {".tif": "GTiff", ".tiff": "GTiff", ".asc": "AAIGrid"}
METRES = ("", "m", "metre", "metres", "meter", "meters")
# Degrees that x and y do not exceed.
DEGREES = (360.0, 90.0)


def opened(path: Path, kind: str, drivers: dict[str, str]) -> Any:
    """Opens a file by GDAL; `kind` is OF_VECTOR or OF_RASTER. Raises MissingPackage without GDAL, and PlanError if the file cannot be read."""
    gdal = load("osgeo.gdal", GDAL, f"a {path.suffix} file")
    driver = drivers[path.suffix.lower()]
    # Else heights have 24 bits, which are 0.2 mm of 2000 m.
    options = ["DATATYPE=Float64"] if driver == "AAIGrid" else []
    gdal.UseExceptions()
    try:
        return gdal.OpenEx(str(path), getattr(gdal, kind), allowed_drivers=[driver], open_options=options)
    except RuntimeError as error:
        raise PlanError(f"{path}: cannot be read by GDAL's driver {driver}: {error}") from error


def demand_metres(system: Any, path: Path, places: np.ndarray) -> None:
    """Raises PlanError if a coordinate system is in degrees or feet.

    What is said to be in degrees and goes beyond them is not: GeoJSON that names no system counts as WGS 84, and a GeoPackage has one that
    is undefined.
    """
    if system is None or system.GetName().startswith("Undefined"):
        return
    if system.IsGeographic():
        if len(places) and (np.abs(places) <= DEGREES).all():
            why = f"is in degrees ({system.GetName()}), and nothing is transformed: give it in the table's own coordinates"
            raise PlanError(f"{path}: {why}")
    elif abs(system.GetLinearUnits() - 1) > SUM_ERROR:
        raise PlanError(
            f"{path}: is in {system.GetLinearUnitsName()} ({system.GetName()}), and lengths are in metres: convert it"
        )


def map_layers(file: SurveyFile) -> dict[str, Layer]:
    """Returns the layers of a map. Raises PlanError as `opened` and `demand_metres` do, and if a field of heights is missing or empty."""
    source = opened(file.path, "OF_VECTOR", MAPS)
    found = {}
    for layer in [source.GetLayer(number) for number in range(source.GetLayerCount())]:
        found[layer.GetName()] = read_layer(layer, file)
        demand_metres(layer.GetSpatialRef(), file.path, found[layer.GetName()].places())
    return found


def read_layer(layer: Any, file: SurveyFile) -> Layer:
    found, number, fields = Layer(), -1, layer.GetLayerDefn()
    if file.height is not None:
        number = fields.GetFieldIndex(file.height)
        if number < 0:
            names = ", ".join(fields.GetFieldDefn(place).GetName() for place in range(fields.GetFieldCount()))
            raise PlanError(
                f"{file.path}: its layer {layer.GetName()} has no field {file.height}; its fields are {names or 'none'}"
            )
    for feature in layer:
        geometry = feature.GetGeometryRef()
        if geometry is None:
            continue
        if number >= 0 and not feature.IsFieldSetAndNotNull(number):
            raise PlanError(f"{file.path}: the field {file.height} of the feature {feature.GetFID()} is empty")
        height = feature.GetFieldAsDouble(number) if number >= 0 else None
        add_geometry(found, geometry.GetLinearGeometry() if geometry.HasCurveGeometry() else geometry, height)
    return found


def add_geometry(layer: Layer, geometry: Any, height: Optional[float]) -> None:
    """Adds a geometry, or each of its parts, to a layer, with its own heights or the given one."""
    ogr = load("osgeo.ogr", GDAL, "a map")
    kind, name = ogr.GT_Flatten(geometry.GetGeometryType()), geometry.GetGeometryName()
    has_heights = height is not None or bool(geometry.Is3D())
    if kind == ogr.wkbPoint:
        layer.kinds[name if has_heights else f"{name} without height"] += 1
        if has_heights:
            layer.points.append(places_of(geometry, height))
    elif kind == ogr.wkbLineString:
        layer.add_line(name, places_of(geometry, height), False, has_heights)
    elif kind in (ogr.wkbPolygon, ogr.wkbTriangle):
        layer.kinds[name] += 1
        rings = [places_of(ring, None) for ring in geometry]
        layer.polygons.append([ring[:, :2] for ring in rings])
        if geometry.Is3D() and len(rings) == 1 and len(rings[0]) == 4:
            layer.faces.append(rings[0][None, :3])
    elif geometry.GetGeometryCount():
        for part in geometry:
            add_geometry(layer, part, height)
    else:
        layer.kinds[name] += 1


def places_of(geometry: Any, height: Optional[float]) -> np.ndarray:
    """Returns x, y and z of a geometry's points; z is 0 without heights."""
    places = np.array(geometry.GetPoints(), dtype=float)
    z = np.full(len(places), 0.0 if height is None else height)
    return places[:, :3] if places.shape[1] > 2 and height is None else np.column_stack([places[:, :2], z])


def raster(path: Path, around: MapBox) -> tuple[np.ndarray, np.ndarray]:
    """Returns the middles x, y, z of a raster's cells that have a height, shape (middles, 3), and the triangles between them, shape (triangles, 3),
    as numbers of middles. Each square of four middles is cut from north-west to south-east. Both cover the part around a box of least and greatest x,
    and least and greatest y, in metres.

    Raises PlanError as `opened` and `demand_metres` do, and if the raster has several bands, has no place, or is in feet.
    """
    source = opened(path, "OF_RASTER", RASTERS)
    place = source.GetGeoTransform(can_return_null=True)
    if source.RasterCount != 1:
        raise PlanError(f"{path}: has {source.RasterCount} bands, and heights are one: is it a picture?")
    if place is None:
        raise PlanError(f"{path}: does not say where its cells lie")
    band = source.GetRasterBand(1)
    if (band.GetUnitType() or "").lower() not in METRES:
        raise PlanError(f"{path}: has heights in {band.GetUnitType()}, and they are in metres: convert it")
    corners = np.array([at(place, x, y) for x in (0, source.RasterXSize) for y in (0, source.RasterYSize)])
    demand_metres(source.GetSpatialRef(), path, corners)
    west, north, width, height = window(place, around, (source.RasterXSize, source.RasterYSize))
    if min(width, height) < 1:
        return np.zeros((0, 3)), np.zeros((0, 3), dtype=np.int64)
    z = band.ReadAsArray(west, north, width, height).astype(float) * (band.GetScale() or 1.0) + (
        band.GetOffset() or 0.0
    )
    is_known = (band.GetMaskBand().ReadAsArray(west, north, width, height) > 0) & np.isfinite(z)
    column, row = np.meshgrid(west + np.arange(width) + 0.5, north + np.arange(height) + 0.5)
    return between(np.stack([*at(place, column, row), z], axis=-1), is_known)


def at(place: tuple[float, ...], column: Any, row: Any) -> tuple[Any, Any]:
    """Returns x and y of a place in a raster, given in cells from its north-west corner."""
    return place[0] + column * place[1] + row * place[2], place[3] + column * place[4] + row * place[5]


def window(place: tuple[float, ...], around: MapBox, size: tuple[int, int]) -> tuple[int, int, int, int]:
    """Returns the first column and row, and the numbers of columns and rows, of the part of a raster that reaches two cells beyond a box."""
    turn = np.linalg.inv(np.array([[place[1], place[2]], [place[4], place[5]]]))
    corners = np.array([(x - place[0], y - place[3]) for x in around[:2] for y in around[2:]]) @ turn.T
    first = np.clip(np.floor(corners.min(axis=0)).astype(int) - 2, 0, size)
    last = np.clip(np.ceil(corners.max(axis=0)).astype(int) + 2, 0, size)
    return int(first[0]), int(first[1]), int(last[0] - first[0]), int(last[1] - first[1])


def between(middles: np.ndarray, is_known: np.ndarray) -> tuple[np.ndarray, np.ndarray]:
    """Returns the middles with a height, and the triangles whose three corners have one; each square of four middles has two triangles."""
    numbers = np.where(is_known, np.cumsum(is_known).reshape(is_known.shape) - 1, -1)
    a, b, c, d = numbers[:-1, :-1], numbers[:-1, 1:], numbers[1:, 1:], numbers[1:, :-1]
    faces = np.concatenate([np.stack(corners, axis=-1).reshape(-1, 3) for corners in ((a, b, c), (a, c, d))])
    return middles[is_known], faces[(faces >= 0).all(axis=1)]

"""Reads the block model of an OMF 1 file (Open Mining Format, version 0.9).

The file has a header of 60 bytes, arrays packed by zlib, and a JSON dictionary of objects by their identifiers. A volume element has a grid of
cells, whose sizes may differ along each axis, and attributes: numbers, categories with a legend, or texts. Their order is that of the format: the
third axis runs fastest. OMF 2 holds its arrays as Parquet, which Debian 12 cannot read; it is refused with the remedy.
"""

from __future__ import annotations

import json
import struct
import uuid
import zlib
from dataclasses import dataclass
from pathlib import Path
from typing import Any, BinaryIO, Iterator, Optional, Sequence

import numpy as np
import pandas as pd

from pitplan.core.numeric_fields import as_codes
from pitplan.core.tolerances import SINGLE_PRECISION
from pitplan.errors import PlanError

from .grid import MOST_CELLS, PLACES

ENDING = ".omf"
MAGIC = b"\x84\x83\x82\x81"
VERSION = b"OMF-v0.9.0"
# Magic bytes, version, identifier of the project, and where its JSON begins.
HEADER = struct.Struct("<4s32s16sQ")
# OMF 2 is a zip archive.
ZIP = b"PK\x03\x04"
# Kinds and sizes of numbers in packed arrays.
KINDS, SIZES = "fiu", (1, 2, 4, 8)
# Cells along an axis.
MOST_SIDE = 1_000_000
# The columns that the grid gives; an attribute of such a name is called NAME_attribute.
GIVEN = ("x", "y", "z", "xinc", "yinc", "zinc")
TEXTS = ("StringData", "DateTimeData")
NUMBERS, CATEGORIES = "ScalarData", "MappedData"


def is_omf(file: Path, head: bytes) -> bool:
    """Returns whether a file is OMF, by its first bytes; `.omf` files of other versions are too, so that `read` names the remedy."""
    return head.startswith(MAGIC) or file.suffix.lower() == ENDING


def read(file: Path, codes: Sequence[str] = ()) -> tuple[pd.DataFrame, str]:
    """Reads the block model of a file; returns one row per cell, and what was recognised, for a planner. `codes` are attributes that are texts: whole
    numbers among them are 3, not 3.0.

    Centroids `x`, `y`, `z` and sizes `xinc`, `yinc`, `zinc`, in metres, are floats; the attributes follow in their order. Missing numbers are nan,
    missing texts empty. Raises PlanError, with the file and the object, if it is not OMF 1, is cut or damaged, has no volume or several, or its grid
    is inclined or too large.
    """
    try:
        with open(file, "rb") as handle:
            archive = opened(file, handle)
            element = volume_of(archive)
            return block_model(archive, element, codes)
    except OSError as error:
        raise PlanError(f"{file}: cannot be read: {error.strerror}") from error


@dataclass(frozen=True)
class Archive:
    """An open file: its size in bytes, the identifier of the project, and the objects by theirs."""

    file: Path
    handle: BinaryIO
    size: int
    project: str
    objects: dict[str, Any]

    def wrong(self, where: str, why: str) -> PlanError:
        return PlanError(f"{self.file}: {where}: {why}: export the file again")

    def object(self, value: Any, where: str, classes: Sequence[str] = ()) -> dict[str, Any]:
        """Returns an object by its identifier. Raises PlanError if none exists, or it is of another class."""
        found = self.objects.get(value) if isinstance(value, str) else value
        if not isinstance(found, dict):
            raise self.wrong(where, f"found {shown(value)}, expected the identifier of an object")
        if classes and found.get("__class__") not in classes:
            raise self.wrong(where, f"found {shown(found.get('__class__'))}, expected {' or '.join(classes)}")
        return found

    def array(self, entry: Any, count: Optional[int], where: str) -> np.ndarray:
        """Returns the numbers of an array that is packed, or listed in the JSON. Raises PlanError if it is damaged or has another count."""
        if isinstance(entry, list):
            return self.listed(entry, count, where)
        if not isinstance(entry, dict):
            raise self.wrong(where, f"found {shown(entry)}, expected an array")
        start, length = (self.whole(entry.get(key), where) for key in ("start", "length"))
        if not HEADER.size <= start <= start + length <= self.size:
            raise self.wrong(where, f"the array ends at byte {start + length:,} of {self.size:,}: the file is cut")
        return self.unpacked(start, length, self.dtype(entry.get("dtype"), where), (count, where))

    def whole(self, value: Any, where: str) -> int:
        if isinstance(value, bool) or not isinstance(value, int):
            raise self.wrong(where, f"found {shown(value)}, expected the bytes of an array")
        return value

    def listed(self, entry: list[Any], count: Optional[int], where: str) -> np.ndarray:
        if not all(isinstance(it, (int, float)) and not isinstance(it, bool) for it in entry):
            raise self.wrong(where, "expected a list of numbers")
        if count is not None and len(entry) != count:
            raise self.wrong(where, f"found {len(entry):,} numbers, expected {count:,}")
        return np.array(entry, dtype=np.float64)

    def dtype(self, name: Any, where: str) -> np.dtype:
        try:
            found = np.dtype(name) if isinstance(name, str) else None
        except TypeError:
            found = None
        if found is None or found.kind not in KINDS or found.itemsize not in SIZES:
            raise self.wrong(where, f"found numbers of type {shown(name)}, expected one such as <f8 or <i8")
        return found

    def unpacked(self, start: int, length: int, dtype: np.dtype, asked: tuple[Optional[int], str]) -> np.ndarray:
        """Returns a packed array of a count of numbers, if one is asked, and unpacks no more than these."""
        count, where = asked
        self.handle.seek(start)
        most = (MOST_SIDE if count is None else count) * dtype.itemsize
        try:
            data = zlib.decompressobj().decompress(self.handle.read(length), most + 1)
        except zlib.error as error:
            raise self.wrong(where, f"the array at byte {start:,} is damaged ({error})") from error
        if len(data) > most or len(data) % dtype.itemsize or (count is not None and len(data) < most):
            expected = "at most" if count is None else "expected"
            found = "more" if len(data) > most else f"{len(data) // dtype.itemsize:,}"
            raise self.wrong(where, f"found {found} numbers, {expected} {most // dtype.itemsize:,}")
        return np.frombuffer(data, dtype=dtype)


def shown(value: Any) -> str:
    """Returns a value of the JSON, cut if it is long."""
    text = json.dumps(value) if isinstance(value, (str, int, float, list, dict, bool)) else "nothing"
    return text if len(text) <= 60 else f"{text[:60]}.."


def opened(file: Path, handle: BinaryIO) -> Archive:
    """Reads header and JSON. Raises PlanError if the file is another one, or is cut."""
    head = handle.read(HEADER.size)
    if head.startswith(ZIP):
        remedy = "save it as OMF 1 (version 0.9), or export the block model as CSV"
        raise PlanError(f"{file}: is OMF 2, whose arrays are Parquet, which is not read: {remedy}")
    if not head.startswith(MAGIC):
        raise PlanError(f"{file}: is not OMF: found the bytes {head[:4].hex(' ')}, expected {MAGIC.hex(' ')}")
    size = handle.seek(0, 2)
    if len(head) < HEADER.size:
        raise PlanError(f"{file}: has {size} bytes, and the header of OMF has {HEADER.size}: the file is cut")
    _, version, identifier, start = HEADER.unpack(head)
    if version.rstrip(b"\0 ") != VERSION:
        said = version.rstrip(b"\0 ").decode("ascii", "replace")
        raise PlanError(f"{file}: is {said}, expected {VERSION.decode()}: save it as OMF 1 (version 0.9)")
    if not HEADER.size <= start < size:
        raise PlanError(f"{file}: the JSON begins at byte {start:,} of {size:,}: the file is cut: export it again")
    handle.seek(start)
    try:
        objects = json.loads(handle.read().decode("utf-8"))
    except (ValueError, RecursionError) as error:
        raise PlanError(f"{file}: the JSON at byte {start:,} is damaged ({error}): export the file again") from error
    if not isinstance(objects, dict):
        raise PlanError(f"{file}: the JSON at byte {start:,} is not a dictionary of objects: export the file again")
    return Archive(file, handle, size, identifier.hex(), objects)


def volume_of(archive: Archive) -> dict[str, Any]:
    """Returns the only volume element of the project. Raises PlanError if none exists, or there are several."""
    found = [it for it in archive.objects.values() if isinstance(it, dict) and it.get("__class__") == "VolumeElement"]
    if len(found) != 1:
        names = ", ".join(str(it.get("name")) for it in found) or "none"
        remedy = "export a file with one block model"
        raise PlanError(f"{archive.file}: expected one volume element, found {len(found)} ({names}): {remedy}")
    return found[0]


def block_model(archive: Archive, element: dict[str, Any], codes: Sequence[str]) -> tuple[pd.DataFrame, str]:
    """Returns the cells of a volume with their attributes, and what they are."""
    name = str(element.get("name") or "volume")
    geometry = archive.object(element.get("geometry"), f"{name}: geometry", ("VolumeGridGeometry",))
    cells = cells_of(archive, geometry, f"{name}: geometry")
    frame, left = cells.frame(), 0
    listed = element.get("data")
    for number, value in enumerate(listed if isinstance(listed, list) else [], 1):
        data = archive.object(value, f"{name}: attribute {number}")
        attribute = str(data.get("name") or f"attribute_{number}")
        column = f"{attribute}_attribute" if attribute in GIVEN else attribute
        if column in frame:
            raise archive.wrong(name, f"two attributes are called {attribute}")
        values = values_of(archive, data, cells.count, f"{name}: {attribute}")
        if values is None:
            left += 1
        else:
            frame[column] = as_codes(values) if column in codes else values
    size = " x ".join(f"{len(side):,}" for side in cells.sides)
    said = f"{len(frame.columns) - len(GIVEN)} attributes" + (
        f", {left} of colours or vectors left out" if left else ""
    )
    return frame, f'OMF 0.9, volume "{name}", {size} cells, {said}'


@dataclass(frozen=True)
class TensorCells:
    """The cells of a tensor grid: the sides along each axis, the unit vectors of the axes, and the corner from which they count, in metres. `order` has the
    axes that run east, north and up."""

    sides: tuple[np.ndarray, ...]
    axes: np.ndarray
    corner: np.ndarray
    order: tuple[int, int, int]

    @property
    def count(self) -> int:
        return int(np.prod([len(side) for side in self.sides]))

    def frame(self) -> pd.DataFrame:
        """Returns centroids and sizes of all cells; the third axis runs fastest."""
        shape = [len(side) for side in self.sides]
        along = [axis.ravel() for axis in np.meshgrid(*map(middles, self.sides), indexing="ij")]
        sizes = [np.broadcast_to(side, shape) for side in np.meshgrid(*self.sides, indexing="ij", sparse=True)]
        found = {}
        for k, name in enumerate(GIVEN[:3]):
            place = self.corner[k] + sum(middle * axis[k] for middle, axis in zip(along, self.axes))
            found[name] = np.round(place, PLACES) + 0.0
        found |= {name: sizes[axis].ravel() for name, axis in zip(GIVEN[3:], self.order)}
        return pd.DataFrame(found)


def middles(side: np.ndarray) -> np.ndarray:
    """Returns the middles of sides that follow each other, from 0."""
    if (side == side[0]).all():
        return (np.arange(len(side)) + 0.5) * side[0]
    return np.cumsum(side) - side / 2


def cells_of(archive: Archive, geometry: dict[str, Any], where: str) -> TensorCells:
    """Reads the grid of a volume. Raises PlanError if a side is missing, the axes are not upright, or there are too many cells."""
    sides = tuple(archive.array(geometry.get(f"tensor_{axis}"), None, f"{where}: tensor_{axis}") for axis in "uvw")
    for axis, side in zip("uvw", sides):
        if not len(side) or not (np.isfinite(side) & (side > 0)).all():
            raise archive.wrong(f"{where}: tensor_{axis}", "expected cell sizes above 0")
    count = int(np.prod([len(side) for side in sides], dtype=object))
    if count > MOST_CELLS:
        raise PlanError(f"{archive.file}: {where}: found {count:,} cells, expected at most {MOST_CELLS:,}: reblock it")
    axes = np.stack(list(axes_of(archive, geometry, where)))
    project = archive.objects.get(archive.project) or archive.objects.get(str(uuid.UUID(archive.project)))
    corner = vector(archive, geometry.get("origin", [0, 0, 0]), f"{where}: origin")
    if isinstance(project, dict):
        corner = corner + vector(archive, project.get("origin", [0, 0, 0]), "project: origin")
    return TensorCells(tuple(side.astype(np.float64) for side in sides), axes, corner, upright(archive, axes, where))


def axes_of(archive: Archive, geometry: dict[str, Any], where: str) -> Iterator[np.ndarray]:
    """Yields the unit vectors of the axes; without one the coordinate axis."""
    for k, name in enumerate("uvw"):
        found = vector(archive, geometry.get(f"axis_{name}", np.eye(3)[k].tolist()), f"{where}: axis_{name}")
        length = float(np.linalg.norm(found))
        if length == 0:
            raise archive.wrong(f"{where}: axis_{name}", "has no direction")
        yield found / length


def vector(archive: Archive, value: Any, where: str) -> np.ndarray:
    """Returns three numbers; X, Y and Z are the coordinate axes."""
    if value in ("X", "Y", "Z"):
        return np.eye(3)["XYZ".index(value)]
    found = archive.listed(value, 3, where) if isinstance(value, list) else None
    if found is None or not np.isfinite(found).all():
        raise archive.wrong(where, f"found {shown(value)}, expected three numbers")
    return found


def upright(archive: Archive, axes: np.ndarray, where: str) -> tuple[int, int, int]:
    """Returns which axes run east, north and up, or west, south and down. Raises PlanError if none is vertical, or they are not at right angles."""
    vertical = np.abs(axes[:, 2]) > 1 - SINGLE_PRECISION
    flat = np.flatnonzero(~vertical)
    if (
        vertical.sum() != 1
        or (np.abs(axes[flat, 2]) > SINGLE_PRECISION).any()
        or abs(axes[flat[0]] @ axes[flat[1]]) > SINGLE_PRECISION
    ):
        said = ", ".join(f"({', '.join(f'{part:.6g}' for part in axis)})" for axis in axes)
        why = f"found the axes {said}, expected a vertical one and two horizontal ones at right angles"
        raise PlanError(f"{archive.file}: {where}: {why}: export the model without dip or plunge")
    east = int(flat[np.abs(axes[flat, 0]).argmax()])
    north = int(flat[flat != east][0])
    return east, north, int(vertical.argmax())


def values_of(archive: Archive, data: dict[str, Any], count: int, where: str) -> Optional[np.ndarray]:
    """Returns the values of an attribute by cell: floats or texts. None for one of another kind, or of the corners of cells."""
    kind = data.get("__class__")
    if kind not in (NUMBERS, CATEGORIES, *TEXTS) or data.get("location") != "cells":
        return None
    array = archive.object(data.get("array"), f"{where}: array")
    if kind in TEXTS:
        return texts_of(archive, array.get("array"), count, where)
    numbers = archive.array(array.get("array"), count, where).astype(np.float64)
    if np.isinf(numbers).any():
        raise archive.wrong(where, f"the value of cell {int(np.isinf(numbers).argmax()) + 1:,} is infinite")
    return numbers if kind == NUMBERS else categories(archive, data, numbers, where)


def texts_of(archive: Archive, listed: Any, count: int, where: str) -> np.ndarray:
    if not isinstance(listed, list) or len(listed) != count:
        found = f"{len(listed):,}" if isinstance(listed, list) else "no list of"
        raise archive.wrong(where, f"found {found} texts, expected {count:,}")
    return np.array(["" if text is None else str(text) for text in listed], dtype=object)


def categories(archive: Archive, data: dict[str, Any], numbers: np.ndarray, where: str) -> np.ndarray:
    """Returns the names of categories by the first legend of texts, empty below 0; without one the numbers. Raises PlanError if a number has no
    name."""
    listed = data.get("legends")
    for value in listed if isinstance(listed, list) else []:
        legend = archive.object(value, f"{where}: legend")
        values = archive.object(legend.get("values"), f"{where}: legend")
        if values.get("__class__") == "StringArray":
            names = values.get("array")
            count = len(names) if isinstance(names, list) else 0
            beyond = ~(numbers < count) | (numbers != np.floor(numbers))
            if beyond.any():
                cell = int(beyond.argmax())
                why = f"cell {cell + 1:,} has the category {numbers[cell]:g}, and the legend {count:,} names"
                raise archive.wrong(where, why)
            called = np.array([*texts_of(archive, names, count, where), ""], dtype=object)
            return called[np.where(numbers < 0, count, numbers).astype(np.int64)]
    return np.where(numbers < 0, np.nan, numbers)

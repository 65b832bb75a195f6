"""Blocks as the volume of an OMF 1 file (Open Mining Format, version 0.9)."""

from __future__ import annotations

import json
import uuid
import zlib
from pathlib import Path
from typing import Any, BinaryIO

import numpy as np
import pandas as pd

from pitplan.blockmodel.grid import Grid, turn_of
from pitplan.blockmodel.omf import HEADER, MAGIC, VERSION
from pitplan.results.folder import Folder
from pitplan.results.names import TABLE
from pitplan.results.pit_states import Shape

from .planner_table import places_of

# A text column with at most this number of distinct values becomes categories with a legend.
MOST_CATEGORIES = 1000
# The format asks for dates. They are constant, so that equal results give equal files.
DATED = "2000-01-01T00:00:00Z"
COLOUR = [150, 150, 150]


class Objects:
    """The objects of a file, whose arrays are written when they are added."""

    def __init__(self, handle: BinaryIO, seed: str) -> None:
        self.handle, self.seed = handle, seed
        self.by_identifier: dict[str, dict[str, Any]] = {}

    def identifier(self) -> uuid.UUID:
        """Returns the next identifier, by the blocks and the number of objects."""
        return uuid.uuid5(uuid.NAMESPACE_OID, f"{self.seed} {len(self.by_identifier)}")

    def add(self, kind: str, **keys: Any) -> str:
        name = str(self.identifier())
        dates = {"date_created": DATED, "date_modified": DATED}
        self.by_identifier[name] = {"__class__": kind, "uid": name, **dates, **keys}
        return name

    def array(self, numbers: np.ndarray, dtype: str) -> str:
        """Writes numbers, and adds their array."""
        packed = zlib.compress(np.ascontiguousarray(numbers.astype(dtype)).tobytes())
        start = self.handle.tell()
        self.handle.write(packed)
        return self.add("ScalarArray", array={"start": start, "length": len(packed), "dtype": dtype})

    def attribute(self, kind: str, name: str, array: str, **keys: Any) -> str:
        return self.add(kind, name=name, description="", location="cells", array=array, **keys)


def write_omf(path: Path, folder: Folder, shape: Shape) -> None:
    """Writes all cells of the grid with the columns of blocks.csv but the centroids. Cells without a row have no values. `shape` is not used."""
    with open(path, "wb") as handle:
        handle.write(bytes(HEADER.size))
        objects = Objects(handle, folder.record["files"].get(TABLE, ""))
        project = objects.identifier()
        element = str(uuid.uuid5(project, "blocks"))
        title = str(folder.record.get("title", "Blocks"))
        said = {"name": title, "description": "", "author": "", "revision": "", "units": "m"}
        objects.add("Project", **said, origin=[0.0, 0.0, 0.0], elements=[element])
        places = places_of(folder)
        names = [name for name in folder.blocks.columns if name not in places]
        data = [attribute_of(objects, name, folder) for name in names]
        geometry = objects.add("VolumeGridGeometry", **geometry_of(folder.grid))
        keys = {"name": "Blocks", "description": "", "subtype": "volume", "color": COLOUR, "textures": []}
        dates = {"uid": element, "date_created": DATED, "date_modified": DATED}
        objects.by_identifier[element] = {
            "__class__": "VolumeElement",
            **dates,
            **keys,
            "geometry": geometry,
            "data": data,
        }
        start = handle.tell()
        handle.write(json.dumps(objects.by_identifier).encode("utf-8"))
        handle.seek(0)
        handle.write(HEADER.pack(MAGIC, VERSION, project.bytes, start))


def geometry_of(grid: Grid) -> dict[str, Any]:
    """Returns corner, axes and cell sizes of a grid: east, north and up along its own axes."""
    levels, rows, columns = grid.shape
    west, _, south, _, floor, _ = grid.extent()
    x, y = grid.frame.back(np.array(west), np.array(south))
    east = turn_of(grid.azimuth)
    axes = {"axis_u": [east.real, east.imag, 0.0], "axis_v": [-east.imag, east.real, 0.0], "axis_w": [0.0, 0.0, 1.0]}
    sides = {
        f"tensor_{axis}": [float(side)] * count for axis, side, count in zip("uvw", grid.size, (columns, rows, levels))
    }
    return {"origin": [float(x), float(y), float(floor)], **axes, **sides}


def in_order(grid: Grid, values: np.ndarray, fill: Any) -> np.ndarray:
    """Returns values by row as values by cell in the order of the format: column by column from the west, in each row by row from the south, in
    each level by level from the floor."""
    return np.asarray(grid.cube(grid.spread(values, fill))[::-1].transpose(2, 1, 0)).ravel()


def attribute_of(objects: Objects, name: str, folder: Folder) -> str:
    """Adds a column: numbers, or texts as categories or as they are."""
    column, grid = folder.blocks[name], folder.grid
    if pd.api.types.is_numeric_dtype(column):
        numbers = in_order(grid, column.to_numpy(dtype=np.float64), np.nan)
        return objects.attribute("ScalarData", name, objects.array(numbers, "<f8"))
    place, names = pd.factorize(column.astype(str), sort=True)
    if len(names) > MOST_CATEGORIES:
        texts = in_order(grid, column.astype(str).to_numpy(dtype=object), "").tolist()
        return objects.attribute("StringData", name, objects.add("StringArray", array=texts))
    values = objects.add("StringArray", array=list(map(str, names)))
    legend = objects.add("Legend", name=name, description="", values=values)
    array = objects.array(in_order(grid, place.astype(np.int64), -1), "<i8")
    return objects.attribute("MappedData", name, array, legends=[legend])

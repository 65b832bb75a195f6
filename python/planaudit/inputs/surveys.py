"""Heights and areas of survey files: tables of points, drawings, strings, maps and rasters."""

from __future__ import annotations

from pathlib import Path
from typing import Any, Optional

import numpy as np
import pandas as pd

from planaudit.errors import AuditError
from planaudit.inputs import block_table, drawings
from planaudit.inputs.project import Section
from planaudit.inputs.rotated_grid import places_of

# Suffixes of files that are not tables, and the encoding of tables.
OTHERS = (".dxf", ".str", *drawings.MAPS, *drawings.RASTERS)
ENCODING = "utf-8-sig"


def heights(survey: Section, grid: dict[str, Any], cells: Optional[np.ndarray] = None) -> tuple[np.ndarray, np.ndarray]:
    """Returns points, shape (points, 3), and triangles, shape (triangles, 3), as numbers of points; a table has none. Of a raster only the part
    around the grid, or around some cells, shape (cells, 2) with column and row."""
    if survey["file"].suffix.lower() not in OTHERS:
        return columns_of(survey["file"], ["x", "y", "z"]), np.zeros((0, 3), dtype=np.int64)
    if survey["file"].suffix.lower() not in drawings.RASTERS:
        return drawings.heights_of(survey)
    _, rows, columns = grid["shape"]
    cells = np.array([(0, 0), (columns - 1, rows - 1)]) if cells is None else cells
    (west, south), (east, north) = cells.min(axis=0) - 1.5, cells.max(axis=0) + 1.5
    ends = places_of(np.array([(x, y) for x in (west, east) for y in (south, north)]), grid)
    return drawings.of_raster(survey["file"], ends.min(axis=0), ends.max(axis=0))


def polygons(survey: Section) -> list[list[np.ndarray]]:
    """Returns each polygon as outline followed by holes, arrays of shape (corners, 2)."""
    if survey["file"].suffix.lower() not in OTHERS:
        return [[columns_of(survey["file"], ["x", "y"])]]
    return [polygon for layer in drawings.layers_of(survey) for polygon in layer.polygons]


def columns_of(path: Path, names: list[str]) -> np.ndarray:
    """Returns columns of a table of points, shape (points, names). Raises AuditError if one is missing or a field is not a number."""
    try:
        with block_table.opened(path) as data:
            sign = block_table.guessed_separator(path, ENCODING)
            found = pd.read_csv(data, sep=sign, encoding=ENCODING, float_precision="round_trip")
        return np.asarray(found[names].to_numpy(dtype=float))
    except (ValueError, KeyError) as error:
        raise AuditError(
            f"{path}: cannot be read as a table of {', '.join(names)}: {error}: export it again"
        ) from error

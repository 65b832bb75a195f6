"""Must-mine and excluded blocks: by columns of the table, the as-mined surface, and areas on the map.

Cells without tonnes are neither, except mined-out ones. All predecessors of a must-mine block are mined with it, and all successors of an
excluded block are sterilised with it. The remaining blocks are the reduced mine: its optimal pit together with the must-mine blocks is the
optimal pit within the constraints.
"""

from __future__ import annotations

from dataclasses import dataclass
from pathlib import Path
from typing import Any, Optional

import numpy as np
import pandas as pd
from numpy.typing import NDArray

from pitplan.blockmodel.grid import Grid
from pitplan.blockmodel.reader import called
from pitplan.config.geometry import Area
from pitplan.config.project import Project
from pitplan.core import byte_lines
from pitplan.economics.block_values import Values
from pitplan.slopes.closure import used_blocks, users_of
from pitplan.slopes.domains import SlopeDomains
from pitplan.survey import readers

from .blockmodel import topography
from .errors import PlanError


@dataclass(frozen=True)
class FixedBlocks:
    """Must-mine and excluded blocks.

    Attributes
    ----------
    must_mine : int array
        Cells of must-mine blocks, rising.
    excluded : int array
        Cells of excluded blocks, rising.
    notes : tuple of str
        Notes for the planner.
    """

    must_mine: NDArray[Any]
    excluded: NDArray[Any]
    notes: tuple[str, ...] = ()


NOTHING = FixedBlocks(np.zeros(0, dtype=np.int64), np.zeros(0, dtype=np.int64))


@dataclass(frozen=True)
class Settled:
    """Boolean masks over the cells: must-mine into every shell, and sterilised, by the constraints and their slope cones."""

    mined: NDArray[Any]
    left: NDArray[Any]

    @property
    def rest(self) -> NDArray[Any]:
        """The mask of the cells that the constraints leave open."""
        rest: NDArray[Any] = ~(self.mined | self.left)
        return rest


def nodes_of_rest(values: Values, settled: Settled) -> tuple[NDArray[Any], NDArray[Any]]:
    """Returns revenue and cost of each node of the reduced mine, in millionths; 0 if the constraints settle the node.

    A must-mine block may be processed or not, so its processing node belongs to the reduced mine.
    """
    is_open = np.concatenate([settled.rest, ~settled.left[values.processed]])
    revenue, cost = values.nodes()
    return np.where(is_open, revenue, 0), np.where(is_open, cost, 0)


def settled(fixed: FixedBlocks, grid: Grid, domains: SlopeDomains) -> Settled:
    """Returns the blocks that the constraints force in or sterilise through the precedences."""
    mined = used_blocks(grid, domains, marks(grid, fixed.must_mine))
    return Settled(mined, users_of(grid, domains, marks(grid, fixed.excluded)))


def marks(grid: Grid, cells: NDArray[Any]) -> NDArray[Any]:
    found = np.zeros(grid.count, dtype=bool)
    found[cells] = True
    return found


def of_table(frame: pd.DataFrame, grid: Grid, project: Project, source: str = "table") -> FixedBlocks:
    """Returns the blocks that `[constraints]` names in a checked table; none without this section. Raises PlanError if a file is not usable, or a
    block is both must-mine and excluded, and MissingPackage if the package that reads a file is not installed."""
    rules = project.constraints
    if rules is None:
        return NOTHING
    rock = frame[project.table.tonnes].to_numpy() > 0
    must_mine, excluded = marked(frame, rules.must_mine) & rock, marked(frame, rules.exclude) & rock
    notes = []
    must_mine |= topography.is_mined(frame)
    for area in rules.areas:
        inside, told = in_area(grid, area)
        excluded |= inside & rock
        notes += told
    both = must_mine & excluded
    if both.any():
        raise PlanError(
            f"{source}: {called(frame, project, int(both.argmax()), source)} is both must-mine and excluded"
        )
    notes.insert(0, f"{int(must_mine.sum()):,} must-mine blocks and {int(excluded.sum()):,} excluded blocks")
    return FixedBlocks(np.sort(grid.rows[must_mine]), np.sort(grid.rows[excluded]), tuple(notes))


def marked(frame: pd.DataFrame, column: Optional[str]) -> NDArray[Any]:
    """Returns a boolean mask of the rows with a number above 0 in a column."""
    return np.zeros(len(frame), dtype=bool) if column is None else np.asarray(frame[column].to_numpy() > 0)


def in_area(grid: Grid, area: Area) -> tuple[NDArray[Any], list[str]]:
    """Returns a boolean mask of the rows whose centroid lies on the excluded side of an area, and notes. Raises PlanError if the file is not
    usable, or all rows are excluded.
    """
    file, areas = area.polygon.path, readers.areas(area.polygon)
    x, y, _ = grid.centres(np.arange(grid.per_level))
    count = np.zeros(grid.per_level, dtype=np.int64)
    for polygon in areas.polygons:
        count += np.logical_xor.reduce([within(x, y, ring) for ring in polygon])
    excluded, notes = (count > 0)[grid.rows % grid.per_level], list(areas.notes)
    if (count > 1).any():
        twice = (
            f"{np.count_nonzero(count > 1):,} columns of blocks lie in several polygons, which are not read as holes"
        )
        notes.append(f"WARNING: {file}: {twice}")
    if not excluded.any():
        said = f"{file}: no block lies in its polygons: {topography.beside(np.concatenate([polygon[0] for polygon in areas.polygons]), grid)}"
        if area.exclude == "outside":
            raise PlanError(said)
        notes.append(f"WARNING: {said}")
    return excluded == (area.exclude == "inside"), notes


def within(x: NDArray[Any], y: NDArray[Any], corners: NDArray[Any]) -> NDArray[Any]:
    """Returns which points lie in a ring: a ray to the east crosses its sides an odd number of times.

    It is written here so that pitplan does not require shapely for these lines only.
    """
    odd = np.zeros(len(x), dtype=bool)
    for (ax, ay), (bx, by) in zip(corners, np.roll(corners, -1, axis=0)):
        if ay != by:
            crossed = (ay > y) != (by > y)
            odd ^= crossed & (x < ax + (y - ay) * (bx - ax) / (by - ay))
    return odd


def numbers(fixed: FixedBlocks, nodes: int) -> NDArray[Any]:
    """Returns for each node 1 (must-mine), 2 (excluded) or 0 (neither); uint8, shape (nodes,)."""
    found = np.zeros(nodes, dtype=np.uint8)
    found[fixed.must_mine], found[fixed.excluded] = 1, 2
    return found


def write(path: Path, fixed: FixedBlocks) -> None:
    """Writes the program's file of fixed blocks: lines `in id` and `out id` by rising id."""
    ids = np.concatenate([fixed.must_mine, fixed.excluded])
    words = np.array([b"in"] * len(fixed.must_mine) + [b"out"] * len(fixed.excluded), dtype="S3")
    order = np.argsort(ids, kind="stable")
    path.write_bytes(byte_lines.lines([words[order].view(np.uint8).reshape(-1, 3), byte_lines.whole(ids[order])]))

"""Crops a model that is too large for the solver: removes whole levels, rows and columns at floor and sides that no shell can reach.

A block can be in a shell only if it pays for its processing at the largest revenue factor, is must-mine, or is a direct or indirect
predecessor of such a block. The model is cropped to the box of these blocks up to the top, plus one level, row and column of the model on
each side, so that a shell at a side of the box is at a side of the model. The box extends down to the highest block of each of its columns
and ends in no gap, so air and missing blocks stay as they are.
"""

from __future__ import annotations

from dataclasses import dataclass, replace

import numpy as np
import pandas as pd

from pitplan import constraints
from pitplan.blockmodel import grid as grids
from pitplan.blockmodel.grid import Grid, metres
from pitplan.config.economics import PER_REVENUE_FACTOR
from pitplan.config.project import Project
from pitplan.errors import PlanError
from pitplan.slopes import closure
from pitplan.slopes.domains import SlopeDomains

from .economics import block_values


@dataclass(frozen=True)
class GriddedModel:
    """The rows of a table on their grid, the slope domain of each cell, and how many rows are the table's own; filled ones follow these."""

    frame: pd.DataFrame
    grid: Grid
    domain_code: np.ndarray
    source: str
    known: int


@dataclass(frozen=True)
class CellRanges:
    """Half-open ranges of levels from the top, rows from the south and columns from the west."""

    levels: slice
    rows: slice
    columns: slice

    @property
    def parts(self) -> tuple[slice, slice, slice]:
        return self.levels, self.rows, self.columns


def is_too_large(model: GriddedModel, project: Project) -> bool:
    """Returns whether blocks and processing nodes may exceed the limit of the solver."""
    nodes = model.grid.count + (
        np.count_nonzero(with_metal(model.frame, project)) if project.economics.cutoff == PER_REVENUE_FACTOR else 0
    )
    return nodes > grids.MOST_BLOCKS


def with_metal(frame: pd.DataFrame, project: Project) -> np.ndarray:
    found = np.zeros(len(frame), dtype=bool)
    for metal in project.metals:
        found |= frame[metal.column].to_numpy() > 0
    return found


def left(model: GriddedModel, domains: SlopeDomains, project: Project) -> tuple[GriddedModel, str]:
    """Returns the cropped model and a note. Raises PlanError if no shell can reach any block, or the cropped model is too large."""
    grid = model.grid
    wanted = np.zeros(grid.count, dtype=bool)
    wanted[grid.rows[can_pay(model, project)]] = True
    wanted[constraints.of_table(model.frame, grid, project, model.source).must_mine] = True
    if not wanted.any():
        most = f"the solver takes at most {grids.MOST_BLOCKS:,} blocks"
        raise PlanError(
            f"{model.source}: the grid has {grid.count:,} cells, and {most}: no block pays for its processing, so no shell holds any"
        )
    box = box_of(closure.used_blocks(grid, domains, wanted), grid)
    inside = grid.cube(np.arange(grid.count))[box.parts]
    if inside.size > grids.MOST_BLOCKS:
        raise PlanError(
            f"{model.source}: shells can reach {inside.size:,} of the {grid.count:,} cells, and the solver takes at most "
            f"{grids.MOST_BLOCKS:,} blocks: set [table] reblock, or give a smaller model"
        )
    return named_anew(cropped(model, box, inside), project), note_of(model, box)


def can_pay(model: GriddedModel, project: Project) -> np.ndarray:
    """Returns the rows that pay for their processing at the largest revenue factor, exactly."""
    some = np.flatnonzero(with_metal(model.frame, project))
    grid = replace(model.grid, rows=model.grid.rows[some])
    gains = block_values.greatest_gains(model.frame.iloc[some].reset_index(drop=True), grid, project, model.source)
    return some[gains]


def box_of(used: np.ndarray, grid: Grid) -> CellRanges:
    """Returns the box of the used cells, one cell wider, and down to where each of its columns ends in rock."""
    cube = grid.cube(used)
    levels, rows, columns = (wider(cube.any(axis=tuple({0, 1, 2} - {axis})), grid.shape[axis]) for axis in range(3))
    filled = np.zeros(grid.count, dtype=bool)
    filled[grid.rows] = True
    below = grid.cube(filled)[:, rows, columns]
    # Whether each level may be the last: each column has a block there, or none below it.
    may_end = (below | ~np.logical_or.accumulate(below[::-1], axis=0)[::-1]).all(axis=(1, 2))
    last = levels.stop - 1 + int(may_end[levels.stop - 1 :].argmax())
    return CellRanges(slice(0, last + 1), rows, columns)


def wider(some: np.ndarray, count: int) -> slice:
    """Returns the range from the first to the last true element, one wider at each end."""
    first, last = np.flatnonzero(some)[[0, -1]]
    return slice(max(0, int(first) - 1), min(count, int(last) + 2))


def cropped(model: GriddedModel, box: CellRanges, inside: np.ndarray) -> GriddedModel:
    """Returns the part of a model within a box; `inside` has the cells of the box."""
    grid, ids = model.grid, np.full(model.grid.count, -1, dtype=np.int32)
    ids[inside.ravel()] = np.arange(inside.size)
    kept = np.flatnonzero(ids[grid.rows] >= 0)
    origin = tuple(float(axis) for axis in grid.centres(inside.flat[0]))
    rows = ids[grid.rows[kept]].astype(np.int64)
    levels, rows_of_cells, columns = inside.shape
    small = Grid((levels, rows_of_cells, columns), (origin[0], origin[1], origin[2]), grid.size, rows, grid.azimuth)
    frame = model.frame.iloc[kept].reset_index(drop=True)
    known = int(np.count_nonzero(kept < model.known))
    return GriddedModel(
        frame, small, model.domain_code[inside.ravel()], f"of what a shell can reach in {model.source}", known
    )


def named_anew(model: GriddedModel, project: Project) -> GriddedModel:
    """Returns the same model with the ids of filled blocks numbered by their cells in the box."""
    if project.table.id is None:
        return model
    ids = [
        *model.frame[project.table.id].iloc[: model.known],
        *(f"absent-{cell}" for cell in model.grid.rows[model.known :]),
    ]
    return replace(model, frame=model.frame.assign(**{project.table.id: ids}))


def note_of(model: GriddedModel, box: CellRanges) -> str:
    """Returns a note with the number of removed blocks and the extent of the box."""
    grid, parts = model.grid, []
    kept = np.ones(len(grid.rows), dtype=bool)
    for place, part in zip(grid.indices(grid.rows), box.parts[::-1]):
        kept &= (place >= part.start) & (place < part.stop)
    west, _, south, _, _, _ = grid.extent()
    names = grid.frame.names if grid.azimuth else ("x", "y")
    for name, part, axis, edge in ((names[0], box.columns, 0, west), (names[1], box.rows, 1, south)):
        west = edge + part.start * grid.size[axis]
        parts.append(f"{name} from {metres(west)} to {metres(west + (part.stop - part.start) * grid.size[axis])}")
    top = grid.origin[2] - (box.levels.start - 0.5) * grid.size[2]
    parts.append(f"z from {metres(top - (box.levels.stop - box.levels.start) * grid.size[2])} to {metres(top)} m")
    return (
        f"{np.count_nonzero(~kept):,} of {len(kept):,} blocks cannot be in any shell at these revenue factors and were "
        f"omitted; the model is cropped to {', '.join(parts)}"
    )

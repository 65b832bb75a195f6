"""Cells of the grid without a row in the table: air above the ground, and missing blocks.

A cell above the highest row of its column is air. A cell below or between rows, or in a column without rows, may be rock that was left out
of the table, at an unknown mining cost: a missing block. If the project gives it tonnes, it becomes a block. Otherwise a shell that
reaches it is rejected, unless the project defines it as air.
"""

from __future__ import annotations

from dataclasses import replace

import numpy as np
import pandas as pd

from pitplan.config.project import Project
from pitplan.config.table import MissingRock
from pitplan.core.revenue_factors import factor_text
from pitplan.errors import PlanError

from . import reader
from .grid import Grid


def unknown_cells(grid: Grid) -> np.ndarray:
    """Returns the missing blocks: cells without a row that are not air, rising."""
    filled = np.zeros(grid.count, dtype=bool)
    filled[grid.rows] = True
    cube = grid.cube(filled)
    is_ground = np.maximum.accumulate(cube, axis=0) | ~cube.any(axis=0)
    return np.flatnonzero(is_ground.ravel() & ~filled)


def with_rows(frame: pd.DataFrame, grid: Grid, project: Project) -> tuple[pd.DataFrame, Grid]:
    """Returns the table and its grid with a row for each missing block, if the project says what rock it is."""
    rock, cells = project.table.missing_blocks, unknown_cells(grid)
    if not isinstance(rock, MissingRock) or not len(cells):
        return frame, grid
    columns = project.table
    added = pd.DataFrame({name: np.zeros(len(cells)) for name in frame.columns}, index=range(len(cells)))
    for name, centres in zip((columns.x, columns.y, columns.z), grid.centres(cells)):
        added[name] = centres
    added[columns.tonnes] = rock.tonnes
    added[list(project.economics.factor_columns)] = reader.UNADJUSTED
    codes = {
        columns.id: [f"absent-{cell}" for cell in cells],
        columns.rock_type: rock.rock_type,
        columns.domain: rock.domain,
        columns.resource_class: rock.resource_class,
    }
    for column, code in codes.items():
        if column is not None:
            added[column] = code
    table = pd.concat([frame, added], ignore_index=True)
    return table, replace(grid, rows=np.concatenate([grid.rows, cells]))


def notes(frame: pd.DataFrame, grid: Grid, project: Project) -> list[str]:
    """Returns notes on cells without a row, of a table that `with_rows` returned."""
    absent, left = project.table.missing_blocks, unknown_cells(grid)
    air = grid.count - len(frame) - len(left)
    found = [f"{air:,} cells lie above the highest row of their column and are air"] if air else []
    if isinstance(absent, MissingRock):
        found.append(
            f"missing blocks (below a row, or in columns without rows) are filled with {absent.tonnes:g} t each"
        )
    elif len(left) and absent == "air":
        found.append(
            f"WARNING: {len(left):,} missing blocks (below a row, or in columns without rows) are treated as air"
        )
    elif len(left):
        found.append(
            f"{len(left):,} missing blocks (below a row, or in columns without rows); a shell that reaches one is rejected"
        )
    return found


def demand_known(entry: np.ndarray, grid: Grid, project: Project, source: str) -> None:
    """Raises PlanError, with the number and the first, if a shell reaches a missing block.

    `entry` has for each cell the least revenue factor whose shell holds it; 0: none. Missing blocks cost nothing while the shells are solved, so
    if no shell reaches one, none would at any cost.
    """
    if project.table.missing_blocks == "air":
        return
    cells = unknown_cells(grid)
    reached = cells[entry[cells] > 0]
    if not len(reached):
        return
    factors = entry[reached]
    first = reached[factors.argmin()]
    x, y, z = (f"{float(axis):.10g}" for axis in grid.centres(first))
    raise PlanError(
        f"{source}: the shells reach {len(reached):,} missing blocks (below a row, or in columns without rows), the first "
        f'at {x}, {y}, {z} from revenue factor {factor_text(factors.min())}: add their rows, or set [table] missing_blocks = "air" or '
        "missing_blocks = { tonnes = .., rock_type = .., domain = .. }"
    )

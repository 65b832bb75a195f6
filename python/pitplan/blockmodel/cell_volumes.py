"""Tonnes of rows by density, cell sizes and percent fields, and grades by the share of ore; exact decimals, rounded once."""

from __future__ import annotations

from dataclasses import dataclass
from decimal import Decimal
from functools import reduce
from operator import mul
from typing import Optional

import numpy as np
import pandas as pd

from pitplan.config.project import Project
from pitplan.config.table import BlockSize, Reblock, Share
from pitplan.core.decimals import Exact
from pitplan.core.numeric_fields import demand_none
from pitplan.errors import WARNING

from .grid import Frame, azimuth_of

# Tonnes that are computed are kept to a gram, grades to nine decimals; halves to the even one.
TONNES_PLACES, GRADE_PLACES = 6, 9
# Share of a block's volume above which its cells overlap.
MOST_FILLED = 1.001


@dataclass(frozen=True)
class CellVolumes:
    """The cells of the rows of a table.

    Attributes
    ----------
    volumes : float array
        The volume of each in cubic metres.
    size : tuple of float
        The sizes of the largest cell along x, y and z, in metres.
    corner : tuple of float
        A corner of the blocks that are as large as this one: x, y and z at the west, the south and the floor.
    azimuth : float, optional
        Degrees clockwise from north to that of a rotated grid.
    """

    volumes: np.ndarray
    size: BlockSize
    corner: tuple[float, float, float]
    azimuth: Optional[float] = None

    @property
    def parents(self) -> Reblock:
        """The blocks that the cells make up."""
        return Reblock(None, self.size, self.corner)


def demand_cells(frame: pd.DataFrame, project: Project, source: str) -> None:
    """Raises PlanError for a cell without a size and for a share outside of the block."""
    for name in project.table.rules.cell_size or ():
        values, why = frame[name].to_numpy(), "is not the size of a cell: expected metres above 0"
        demand_none(~(values > 0), source, name, lambda row: f"{values[row]:g} {why}")
    for key in ("rock_percent", "ore_percent"):
        share = getattr(project.table.rules, key)
        if share is not None:
            demand_share(frame[share.column].to_numpy(), share, source, key)


def demand_share(values: np.ndarray, share: Share, source: str, key: str) -> None:
    wrong = (values < 0) | (values > share.whole)
    why = f"is not from 0 to {share.whole}, as [table] {key} in {share.unit} is ({np.count_nonzero(wrong):,} rows)"
    demand_none(wrong, source, share.column, lambda row: f"{values[row]:g} {why}: a null code, or another unit?")


def of_share(frame: pd.DataFrame, share: Share) -> Exact:
    """Returns the shares of the rows as fractions."""
    values = Exact.of_floats(frame[share.column].to_numpy())
    return values if share.whole == 1 else Exact(values.whole, values.places + 2)


def volumes(frame: pd.DataFrame, project: Project) -> Exact:
    """Returns the volume of each row: that of its column, of its cell, or of a block of the grid."""
    table = project.table
    if table.volume:
        return Exact.of_floats(frame[table.volume].to_numpy())
    if table.rules.cell_size:
        return reduce(Exact.times, [Exact.of_floats(frame[name].to_numpy()) for name in table.rules.cell_size])
    sides = [Decimal(repr(float(side))) for side in project.grid.size or ()]
    return Exact.of(reduce(mul, sides, Decimal(1)), len(frame))


def tonnes(frame: pd.DataFrame, project: Project) -> np.ndarray:
    """Returns the tonnes of each row by density and the share of rock, to a gram."""
    table, share = project.table, project.table.rules.rock_percent
    if table.density:
        found = Exact.of_floats(frame[table.density].to_numpy()).times(volumes(frame, project))
    else:
        found = Exact.of_floats(frame[table.tonnes].to_numpy())
    if share is not None:
        found = found.times(of_share(frame, share))
    return Exact(found.rounded(TONNES_PLACES)[0], TONNES_PLACES).floats()


def diluted(frame: pd.DataFrame, name: str, share: Share) -> np.ndarray:
    """Returns a grade of the whole block from that of its ore."""
    found = Exact.of_floats(frame[name].to_numpy()).times(of_share(frame, share))
    return Exact(found.rounded(GRADE_PLACES)[0], GRADE_PLACES).floats()


def cells_of(frame: pd.DataFrame, project: Project, source: str) -> CellVolumes:
    """Returns the cells of the rows. Raises PlanError if they have several sizes and the project does not reblock them."""
    table = project.table
    sides = frame[list(table.rules.cell_size or ())].to_numpy()
    if table.reblock is None:
        demand_one_size(sides, project, source)
    size, whole = sides.max(axis=0), (sides == sides.max(axis=0)).all(axis=1)
    centres = frame[[table.x, table.y, table.z]].to_numpy()
    azimuth = project.grid.azimuth
    if azimuth is None and whole.any():
        azimuth = azimuth_of(centres[whole, :2], project.grid.tolerance)
    if azimuth is None or not whole.any():
        # Along each axis the cell of the greatest size is a whole one.
        corner = [float(centres[sides[:, k].argmax(), k] - size[k] / 2) for k in range(3)]
    else:
        x, y, z = centres[whole.argmax()]
        west, south = Frame(x, y, azimuth).back(np.array(-size[0] / 2), np.array(-size[1] / 2))
        corner = [float(west), float(south), float(z - size[2] / 2)]
    east, north, up = (float(side) for side in size)
    return CellVolumes(volumes(frame, project).floats(), (east, north, up), (corner[0], corner[1], corner[2]), azimuth)


def demand_one_size(sides: np.ndarray, project: Project, source: str) -> None:
    """Raises PlanError if a cell is smaller than others."""
    for number, name in enumerate(project.table.rules.cell_size or ()):
        greatest, one = sides[:, number].max(), sides[:, number]
        why = f'the {greatest:.10g} m of other cells: parts of blocks require [table] reblock = "parents"'
        demand_none(one < greatest, source, name, lambda row: f"{one[row]:.10g} m is less than {why}")


def volume_notes(cells: np.ndarray, block: np.ndarray, volume: float) -> list[str]:
    """Returns a note on the volume that cells fill of their blocks, and a warning if cells overlap or blocks are not full. `cells` are volumes in
    cubic metres, `block` is the block of each cell, from 0, and `volume` that of a block."""
    share = np.bincount(block, cells) / volume
    full = f"the cells fill {cells.sum():,.0f} of the {len(share) * volume:,.0f} m3 of their blocks"
    over = int(np.count_nonzero(share > MOST_FILLED))
    if over:
        return [
            f"{WARNING}{full}; in {over:,} blocks they overlap, by up to {100 * (share.max() - 1):.3g} %: check the cell sizes"
        ]
    return [full]

"""The pits of a folder that are exported: up to a revenue factor, a pushback or the end of a year."""

from __future__ import annotations

from dataclasses import dataclass
from typing import Any

import numpy as np
from numpy.typing import NDArray

from pitplan.blockmodel.grid import Grid
from pitplan.config.periods import PERIOD, YEAR
from pitplan.core.revenue_factors import BASE_PRICE, factor_text
from pitplan.errors import PlanError

from .folder import Folder

FACTOR, PUSHBACK = "revenue_factor", "pushback"
PIT, GROUND = "pit", "ground"
MADE_BY = {PUSHBACK: "pitplan pushbacks", YEAR: "pitplan schedule"}


@dataclass(frozen=True)
class Shape:
    """Which pits are exported, and as what.

    Attributes
    ----------
    of : str
        `revenue_factor`: one pit; `pushback` or `year`: the pit at the end of each, or of each period.
    surface : str
        `pit`: the surface around mined blocks; `ground`: the open surface of the ground with the pit in it.
    smooth : bool
        Smooth the steps of blocks; for `ground` only.
    revenue_factor : float
        That of the one pit.
    """

    of: str = FACTOR
    surface: str = PIT
    smooth: bool = False
    revenue_factor: float = BASE_PRICE


@dataclass(frozen=True)
class Stage:
    """The cells that are mined up to a revenue factor, pushback or year.

    Attributes
    ----------
    kind : str
        FACTOR, PUSHBACK, YEAR or PERIOD.
    number : float
        That of the factor, pushback or year; 0: before mining.
    mined : array of bool, shape (levels, rows, columns)
        The mined cells; levels from the top.
    """

    kind: str
    number: float
    mined: NDArray[Any]

    @property
    def name(self) -> str:
        return self.spoken.replace(" ", "-") if self.number else "before"

    @property
    def spoken(self) -> str:
        """In words, such as `revenue factor 0.80` or `pushback 2`."""
        number = factor_text(self.number) if self.kind == FACTOR else f"{self.number:.0f}"
        return f"{self.kind.replace('_', ' ')} {number}"

    @property
    def prefix(self) -> str:
        """The prefix of the names of layers; "" for a single pit."""
        return "" if self.kind == FACTOR else f"{self.name.replace('-', '_').upper()}_"


def stages_of(folder: Folder, shape: Shape) -> list[Stage]:
    """Returns the stages of a shape, in order; for the ground of pushbacks and years with one before mining. Raises PlanError if the folder has no
    pushbacks or years, or the pit of the revenue factor is empty."""
    if shape.of == FACTOR:
        mined = folder.mined(shape.revenue_factor)
        if not mined.any():
            raise PlanError(
                f"{folder.path}: the pit of revenue factor {factor_text(shape.revenue_factor)} is empty and has no surface"
            )
        return [Stage(FACTOR, shape.revenue_factor, mined)]
    kind = PERIOD if shape.of == YEAR and PERIOD in folder.blocks else shape.of
    if kind not in folder.blocks:
        raise PlanError(f"{folder.path}: has no {kind}s: run {MADE_BY[kind]}, and give its folder")
    number = np.where(rock(folder), cube_of(folder, kind), 0)
    first = 0 if shape.surface == GROUND else 1
    return [Stage(kind, last, (number > 0) & (number <= last)) for last in range(first, int(number.max()) + 1)]


def rock(folder: Folder) -> NDArray[Any]:
    """Returns whether each cell has tonnes, shape (levels, rows, columns)."""
    grid = folder.grid
    return grid.cube(grid.spread((folder.blocks[folder.record["tonnes"]] > 0).to_numpy(), fill=False))


def cube_of(folder: Folder, name: str) -> NDArray[Any]:
    grid = folder.grid
    return grid.cube(grid.spread(folder.blocks[name].to_numpy()))


def places_of(grid: Grid, corners: NDArray[Any]) -> NDArray[Any]:
    """Returns the planner's x, y and z in metres of corners, given as steps from the west, the south and the floor of the grid; shape
    (corners, 3)."""
    west, _, south, _, floor, _ = grid.extent()
    east, north, up = (np.array([west, south, floor]) + np.asarray(corners) * np.array(grid.size)).T
    return np.stack([*grid.frame.back(east, north), up], axis=1)

"""What plans and sections of blocks have in common: the levels and sections that are drawn, and how each is cut, named and drawn."""

from __future__ import annotations

from abc import ABC, abstractmethod
from dataclasses import dataclass
from pathlib import Path
from typing import Any, Optional

import numpy as np
from matplotlib.axes import Axes
from matplotlib.collections import LineCollection
from matplotlib.colors import ListedColormap

from pitplan.blockmodel.grid import Grid, metres
from pitplan.config.project import FigureRules
from pitplan.core.cell_outlines import edges

from .map_marks import ColumnHeights, axes_of_map, draw_line, mark_map, mark_section_cells, section_titles
from .style import GROUND, MAP, list_of, name_axes, panels_file

Extent = tuple[float, float, float, float]


@dataclass(frozen=True)
class Cut:
    """A level or a section.

    Attributes
    ----------
    index : tuple
        Cuts an array of shape (levels, rows, columns) to the plane, with rows from the south or from the bottom.
    extent : tuple of float
        The sides in metres: left, right, bottom, top.
    title : str
        Such as "level 10 to 20 m" or "west to east (A) at north 25".
    names : pair of str
        The labels of the axes.
    line : tuple, optional
        Cuts the topography to the section; None of a level.
    """

    index: Any
    extent: Extent
    title: str
    names: tuple[str, str]
    line: Any = None

    def titled(self, what: str) -> str:
        """Returns the title of what is shown, such as "Shells on the level 10 to 20 m"."""
        return f"{what} on the {self.title}" if self.line is None else f"{what}, {self.title}"


class BlockScene(ABC):
    """Contents of plans and sections, with the attributes `grid`, `rules` of `[figures]`, and `topography`, the line of sections."""

    grid: Grid
    rules: FigureRules
    topography: Optional[ColumnHeights] = None

    @abstractmethod
    def draw(self, cut: Cut, ax: Axes) -> None:
        """Draws the blocks of a level or section, with a title."""

    @abstractmethod
    def draw_overview(self, ax: Axes) -> None:
        """Draws the first map of plans, with a title."""

    @property
    @abstractmethod
    def mined(self) -> np.ndarray:
        """The cells by which sections are chosen, a boolean mask of shape (levels, rows, columns)."""

    @property
    def section_row(self) -> int:
        """The row of blocks of the section from west to east: that of `[figures] north`, otherwise the one with most mined blocks."""
        return self.busiest(1) if self.rules.north is None else place_of(self.rules.north, self.grid, 1)

    @property
    def section_column(self) -> int:
        """The column of blocks of the section from south to north, by `[figures] east`."""
        return self.busiest(2) if self.rules.east is None else place_of(self.rules.east, self.grid, 0)

    def busiest(self, axis: int) -> int:
        """Returns the row or column with most mined blocks."""
        others = tuple(k for k in range(3) if k != axis)
        return int(self.mined.sum(axis=others).argmax()) if self.mined.any() else self.mined.shape[axis] // 2

    @property
    def levels(self) -> list[int]:
        return levels_of(self.rules, self.grid, self.mined)

    @property
    def map_extent(self) -> Extent:
        """The sides of maps in metres."""
        return self.grid.extent()[:4]

    def level(self, number: int) -> Cut:
        """Returns a level, counted from 0 at the top."""
        top, height = self.grid.extent()[5], self.grid.size[2]
        title = f"level {metres(top - (number + 1) * height)} to {metres(top - number * height)} m"
        return Cut((number,), self.map_extent, title, axes_of_map(self.grid))

    @property
    def sections(self) -> tuple[Cut, Cut]:
        """The section from west to east, and the one from south to north."""
        return self.from_west_to_east(self.section_row), self.from_south_to_north(self.section_column)

    def from_west_to_east(self, row: int) -> Cut:
        """Returns the section along a row of blocks, counted from 0 in the south."""
        west, east, _, _, bottom, top = self.grid.extent()
        title, names = section_titles(self.grid, row, 0)[0], (self.grid.frame.names[0], "elevation")
        return Cut((slice(None, None, -1), row), (west, east, bottom, top), title, names, (row, slice(None)))

    def from_south_to_north(self, column: int) -> Cut:
        """Returns the section along a column of blocks, counted from 0 in the west."""
        _, _, south, north, bottom, top = self.grid.extent()
        index, extent = (slice(None, None, -1), slice(None), column), (south, north, bottom, top)
        title, names = section_titles(self.grid, 0, column)[1], (self.grid.frame.names[1], "elevation")
        return Cut(index, extent, title, names, (slice(None), column))

    def finish_map(self, ax: Axes, has_sections: bool = False) -> None:
        """Draws the marks of a map, and with `has_sections` the lines of the sections."""
        if has_sections:
            mark_section_cells(ax, self.grid, self.section_row, self.section_column)
        mark_map(ax, self.grid)
        name_axes(ax, *axes_of_map(self.grid))

    def finish_section(self, ax: Axes, cut: Cut) -> None:
        """Draws the line of the topography, and names the axes of a section."""
        name_axes(ax, *cut.names)
        if self.topography is not None:
            draw_line(ax, self.topography, cut.line)


def write_plans(scene: BlockScene, path: Path) -> None:
    west, east, south, north = scene.map_extent
    with panels_file(path, east - west, north - south, 1 + len(scene.levels)) as axes:
        plot_plans(scene, axes)


def plot_plans(scene: BlockScene, axes: Any) -> list[Axes]:
    """Draws an overview of a scene, and some of its levels, by default three.

    Parameters
    ----------
    axes : array or list of Axes
        One more than levels.
    """
    first, *others = found = list_of(axes, 1 + len(scene.levels))
    scene.draw_overview(first)
    scene.finish_map(first, has_sections=True)
    for ax, number in zip(others, scene.levels):
        plot_level(scene, number, ax)
    return found


def plot_level(scene: BlockScene, number: int, ax: Axes) -> Axes:
    """Draws a level, counted from 0 at the top; returns `ax`."""
    scene.draw(scene.level(number), ax)
    scene.finish_map(ax)
    return ax


def plot_section(scene: BlockScene, cut: Cut, ax: Axes) -> Axes:
    """Draws a section, as `scene.from_west_to_east` returns it; returns `ax`."""
    scene.draw(cut, ax)
    scene.finish_section(ax, cut)
    return ax


def draw_ground(ax: Axes, solid: np.ndarray, extent: Extent) -> None:
    """Draws the cells of a plane that have tonnes, in grey."""
    ax.imshow(np.where(solid, 1.0, np.nan), extent=extent, cmap=ListedColormap([GROUND]), **MAP)
    ax.set_aspect("equal")


def draw_outline(ax: Axes, inside: np.ndarray, extent: Extent, **look: Any) -> None:
    """Draws the outline of some cells of a plane, by default as a black line."""
    left, right, low, high = extent
    rows, columns = inside.shape
    size = np.array([(right - left) / columns, (high - low) / rows])
    look = look or {"colors": "black", "linewidths": 1.3}
    ax.add_collection(LineCollection(edges(inside) * size + (left, low), **look))


def place_of(coordinate: float, grid: Grid, axis: int) -> int:
    """Returns the column from the west (axis 0), row from the south (1) or level from the top (2) that holds a coordinate in metres; between
    two of them the second."""
    west, _, south, _, _, top = grid.extent()
    steps = (
        (coordinate - west) / grid.size[0],
        (coordinate - south) / grid.size[1],
        (top - coordinate) / grid.size[2],
    )[axis]
    return min(int(steps), grid.shape[2 - axis] - 1)


def levels_of(rules: FigureRules, grid: Grid, mined: np.ndarray) -> list[int]:
    """Returns the levels of `[figures]`, otherwise three of the mined levels: near the top, in the middle and near the floor."""
    if rules.levels:
        return [place_of(elevation, grid, 2) for elevation in rules.levels]
    used = np.flatnonzero(mined.any(axis=(1, 2)))
    if not len(used):
        used = np.arange(grid.shape[0])
    return [int(used[int(share * (len(used) - 1))]) for share in (0.2, 0.5, 0.8)]

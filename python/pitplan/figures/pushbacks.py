"""Plans and sections of a pit coloured by pushback, by matplotlib. Functions are called as those of `plans_sections`."""

from __future__ import annotations

from dataclasses import dataclass
from functools import cached_property
from pathlib import Path
from typing import Any, Optional

import matplotlib
import numpy as np
from matplotlib.axes import Axes
from matplotlib.colors import BoundaryNorm, ListedColormap

from pitplan.blockmodel.grid import Grid, metres
from pitplan.config.project import FigureRules
from pitplan.pushbacks.nested import Pushbacks

from .map_marks import ColumnHeights, contours, floor_of, name_lines, topography_of
from .scene import BlockScene, Cut, Extent, draw_ground, draw_outline, plot_level, plot_plans, plot_section, write_plans
from .style import MAP, MOST_TICKS, figure_file, list_of

__all__ = ["plot_level", "plot_plans", "plot_section", "write_plans"]

LEAST_SHARE, GREATEST_SHARE = 0.18, 0.9
# Ratio of width to height from which a map counts as wide.
WIDE = 1.5


@dataclass(frozen=True)
class PushbackScene(BlockScene):
    """Contents of plans and sections of pushbacks; arrays have shape (levels, rows, columns), with levels from the top.

    Attributes
    ----------
    pushback : array of int
        From 1; 0 if the cell is in none.
    solid : array of bool
        Whether a cell has tonnes.
    count : int
        The number of pushbacks.
    rules : FigureRules
        Which levels and sections are drawn.
    topography : ColumnHeights, optional
        The line of sections; None: none.
    """

    grid: Grid
    pushback: np.ndarray
    solid: np.ndarray
    count: int
    rules: FigureRules = FigureRules()
    topography: Optional[ColumnHeights] = None

    @cached_property
    def mined(self) -> np.ndarray:
        """The cells of all pushbacks that have tonnes, a boolean mask."""
        return (self.pushback > 0) & self.solid

    def draw(self, cut: Cut, ax: Axes) -> None:
        draw(self, (self.pushback[cut.index], self.solid[cut.index]), cut.extent, ax)
        ax.set_title(cut.titled("Pushbacks"))

    def draw_overview(self, ax: Axes) -> None:
        """Draws the pushback of the highest block with tonnes in each column, and contours of the final floor."""
        highest = self.solid.argmax(axis=0)[None]
        pushback, solid = (np.take_along_axis(cube, highest, axis=0)[0] for cube in (self.pushback, self.solid))
        draw(self, (pushback, solid), self.map_extent, ax)
        between = contours(ax, self.grid, floor_of(self.grid, self.mined), over=True) * self.grid.size[2]
        ax.set_title(f"Pushbacks at the surface, contours of the floor every {metres(between)} m")


def scene_of(pushbacks: Pushbacks) -> PushbackScene:
    grid, rules = pushbacks.plan.grid, pushbacks.plan.project.figures or FigureRules()
    solid = grid.cube(pushbacks.plan.values.tonnes > 0)
    topography = topography_of(pushbacks.plan)
    return PushbackScene(grid, grid.cube(pushbacks.pushback), solid, len(pushbacks.factors), rules, topography)


def write_sections(scene: PushbackScene, path: Path) -> None:
    west, east, south, north, bottom, top = scene.grid.extent()
    share = min(max((top - bottom) / min(east - west, north - south), LEAST_SHARE), GREATEST_SHARE)
    with figure_file(path, 12, 5.2 * share + 1.6) as figure:
        plot_sections(scene, figure.subplots(1, 2))


def plot_sections(scene: PushbackScene, axes: Any) -> list[Axes]:
    """Draws a section from west to east and one from south to north on two axes; returns them."""
    found = list_of(axes, 2)
    for cut, ax in zip(scene.sections, found):
        plot_section(scene, cut, ax)
    if scene.topography is not None:
        name_lines(found[0], scene.topography)
    return found


def plot_surface(scene: PushbackScene, ax: Axes) -> Axes:
    """Draws the pushbacks at the surface, contours of the final floor, and the lines of the sections; returns `ax`."""
    scene.draw_overview(ax)
    scene.finish_map(ax, has_sections=True)
    return ax


def draw(scene: PushbackScene, plane: tuple[np.ndarray, np.ndarray], extent: Extent, ax: Axes) -> None:
    """Draws the pushbacks of a plane, with an outline around each pushback and all before it."""
    pushback, solid = plane
    colours = ListedColormap(matplotlib.colormaps["viridis_r"](np.linspace(0.08, 0.95, scene.count)))
    norm = BoundaryNorm(np.arange(0.5, scene.count + 1), scene.count)
    draw_ground(ax, solid, extent)
    shown = np.ma.masked_where((pushback == 0) | ~solid, pushback)
    image = ax.imshow(shown, extent=extent, cmap=colours, norm=norm, **MAP)
    for number in range(1, scene.count + 1):
        inside = (pushback > 0) & (pushback <= number) & solid
        draw_outline(ax, inside, extent, colors="black", linewidths=1.3 if number == scene.count else 0.6)
    left, right, low, high = extent
    # Next to a wide map a vertical bar would be higher than the map.
    is_wide = right - left > WIDE * (high - low)
    place = {"location": "bottom", "shrink": 0.6, "aspect": 30} if is_wide else {"shrink": 0.85}
    bar = ax.figure.colorbar(image, ax=ax, label="pushback", **place)
    bar.set_ticks(list(range(1, scene.count + 1, -(-scene.count // MOST_TICKS))))
    bar.minorticks_off()

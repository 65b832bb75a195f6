"""Plans and sections of shells, by matplotlib.

Each `plot_` function draws on the axes that it is given, and returns them. A legend or title for several axes is on the figure of the first.
Each `write_` function writes a file by it. Figures are made without pyplot, so that a notebook keeps its backend and shows no figure twice.
"""

from __future__ import annotations

from dataclasses import dataclass
from functools import cached_property
from pathlib import Path
from typing import Any, Optional

import matplotlib
import numpy as np
import pandas as pd
from matplotlib.axes import Axes
from matplotlib.colors import BoundaryNorm, ListedColormap
from matplotlib.image import AxesImage

from pitplan.blockmodel.grid import Grid, metres
from pitplan.config.economics import Metal
from pitplan.config.project import FigureRules
from pitplan.core.revenue_factors import factor_text
from pitplan.pits.shells import Shells

from .map_marks import ColumnHeights, contours, floor_of, name_lines, topography_of
from .scene import BlockScene, Cut, draw_ground, draw_outline, plot_level, plot_plans, plot_section, write_plans
from .style import MAP, MOST_TICKS, list_of, panels_file

__all__ = ["plot_level", "plot_plans", "plot_section", "write_plans"]


@dataclass(frozen=True)
class Scene(BlockScene):
    """Contents of plans and sections of shells; arrays have shape (levels, rows, columns), with levels from the top.

    Attributes
    ----------
    factor : array of float
        The least revenue factor whose shell holds the cell; 0: none.
    solid : array of bool
        Whether a cell has tonnes.
    grade : array of float
        Grade of `metal`.
    selected : float
        Revenue factor of the selected shell.
    rules : FigureRules
        Which levels and sections are drawn.
    topography : ColumnHeights, optional
        The line of sections; None: none.
    """

    grid: Grid
    factor: np.ndarray
    solid: np.ndarray
    grade: np.ndarray
    metal: Metal
    selected: float
    rules: FigureRules = FigureRules()
    topography: Optional[ColumnHeights] = None

    @cached_property
    def mined(self) -> np.ndarray:
        """The cells of the selected pit that have tonnes, a boolean mask."""
        return (self.factor > 0) & (self.factor <= self.selected) & self.solid

    @cached_property
    def shades(self) -> tuple[ListedColormap, BoundaryNorm, list[float]]:
        """Colour map, norm and values of the revenue factors at which cells are first mined, from the innermost shell to the outermost."""
        # A table of values is a tenth of the work of sorting all cells.
        found = np.sort(pd.unique(self.factor[self.solid]))
        used = [float(factor) for factor in found if factor > 0] or [self.selected]
        colours = ListedColormap(matplotlib.colormaps["viridis_r"](np.linspace(0.02, 1, len(used))))
        middles = [(a + b) / 2 for a, b in zip(used, used[1:])]
        return colours, BoundaryNorm([used[0] - 1, *middles, used[-1] + 1], len(used)), used

    def draw(self, cut: Cut, ax: Axes) -> None:
        plot_shells(self, cut, ax).set_title(cut.titled("Shells"))

    def draw_overview(self, ax: Axes) -> None:
        """Draws the floor of the selected pit in metres, with contours of its benches."""
        floor = floor_of(self.grid, self.mined)
        image = ax.imshow(floor, extent=self.map_extent, cmap="cividis", **MAP)
        between = contours(ax, self.grid, floor) * self.grid.size[2]
        ax.set_title(f"Pit floor at revenue factor {factor_text(self.selected)}, contours every {metres(between)} m")
        ax.figure.colorbar(image, ax=ax, shrink=0.85, label="elevation, m")


def scene_of(shells: Shells) -> Scene:
    """Returns the contents of plans and sections of shells, with the floor of the selected one."""
    plan, cells = shells.plan, shells.cells
    rules, grid = plan.project.figures or FigureRules(), plan.grid
    first = next(metal for metal in plan.project.metals if rules.metal in (None, metal.name))
    return Scene(
        grid=grid,
        factor=grid.cube(cells.factor),
        solid=grid.cube(cells.tonnes > 0),
        grade=grid.cube(grid.spread(plan.table[first.column].to_numpy())),
        metal=first,
        selected=shells.selected,
        rules=rules,
        topography=topography_of(plan),
    )


def write_sections(scene: Scene, path: Path) -> None:
    west, east, _, _, bottom, top = scene.grid.extent()
    with panels_file(path, east - west, top - bottom) as axes:
        plot_sections(scene, axes)


def plot_sections(scene: Scene, axes: Any) -> list[Axes]:
    """Draws a section from west to east and one from south to north through the selected pit, each with shells and with grades, on four axes."""
    found = list_of(axes, 4)
    grades = [scene.grade[cut.index][scene.solid[cut.index]] for cut in scene.sections]
    most = max(float(grade.max(initial=0.0)) for grade in grades)
    for cut, left, right in zip(scene.sections, found[::2], found[1::2]):
        scene.draw(cut, left)
        plot_grades(scene, cut, right, most)
        for ax in (left, right):
            scene.finish_section(ax, cut)
    if scene.topography is not None:
        name_lines(found[0], scene.topography)
    return found


def plot_floor(scene: Scene, ax: Axes) -> Axes:
    """Draws the floor of the selected pit in metres, with contours of its benches and the lines of the sections; returns `ax`."""
    scene.draw_overview(ax)
    scene.finish_map(ax, has_sections=True)
    return ax


def plot_shells(scene: Scene, cut: Cut, ax: Axes) -> Axes:
    """Draws the revenue factor of each cell of a level or section, and the outline of the selected pit; returns `ax`."""
    colours, norm, _ = scene.shades
    factor, solid = scene.factor[cut.index], scene.solid[cut.index]
    draw_ground(ax, solid, cut.extent)
    shown = np.ma.masked_where((factor == 0) | ~solid, factor)
    image = ax.imshow(shown, extent=cut.extent, cmap=colours, norm=norm, **MAP)
    colour_bar(image, ax, scene)
    draw_outline(ax, scene.mined[cut.index], cut.extent)
    return ax


def plot_grades(scene: Scene, cut: Cut, ax: Axes, most: Optional[float] = None) -> Axes:
    """Draws the grades of a level or section, and the outline of the selected pit; returns `ax`. Colours end at `most`, by default the largest
    grade that is shown."""
    grade, solid = scene.grade[cut.index], scene.solid[cut.index]
    draw_ground(ax, solid, cut.extent)
    shown = np.ma.masked_where(~solid | (grade <= 0), grade)
    image = ax.imshow(shown, extent=cut.extent, cmap="YlOrRd", vmin=0, vmax=most or None, **MAP)
    ax.set_title(
        f"{scene.metal.name.capitalize()} and the outline of the pit at revenue factor {factor_text(scene.selected)}"
    )
    ax.figure.colorbar(image, ax=ax, shrink=0.85, label=f"{scene.metal.name}, {scene.metal.sign}")
    draw_outline(ax, scene.mined[cut.index], cut.extent)
    return ax


def colour_bar(image: AxesImage, axis: Axes, scene: Scene) -> None:
    """Draws a colour bar with a step per revenue factor, and labels as many as are legible."""
    _, norm, used = scene.shades
    step = -(-len(used) // MOST_TICKS)
    middles = [(a + b) / 2 for a, b in zip(norm.boundaries, norm.boundaries[1:])]
    bar = axis.figure.colorbar(image, ax=axis, shrink=0.85, label="lowest revenue factor", spacing="uniform")
    bar.set_ticks(middles[::step], labels=[factor_text(factor) for factor in used[::step]])
    bar.ax.minorticks_off()

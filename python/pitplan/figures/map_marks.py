"""Marks of maps: north arrow, scale bar, lines of sections, and contours of benches with their elevations."""

from __future__ import annotations

from dataclasses import dataclass
from typing import Any, Union

import numpy as np
from matplotlib.axes import Axes
from matplotlib.collections import LineCollection
from matplotlib.lines import Line2D
from matplotlib.patheffects import withStroke
from numpy.typing import NDArray

from pitplan.blockmodel.grid import Grid, metres, turn_of
from pitplan.blockmodel.topography import surveyed
from pitplan.core.cell_outlines import edges
from pitplan.core.tolerances import SUM_ERROR
from pitplan.plan import Plan

MOST_CONTOURS, MOST_CONTOURS_NAMED = 20, 6
# The longest scale bar, as a share of the width of the map.
MOST_OF_MAP = 0.25
HALO = [withStroke(linewidth=2.2, foreground="white")]
SECTION = "#b03060"


def mark_map(ax: Axes, grid: Grid) -> None:
    """Draws a north arrow and a scale bar."""
    west, east, south, north, _, _ = grid.extent()
    arrow = {"arrowstyle": "-|>", "color": "black", "linewidth": 1.3, "shrinkA": 0, "shrinkB": 0}
    at = {
        "xycoords": "axes fraction",
        "textcoords": "axes fraction",
        "ha": "center",
        "va": "top",
        "fontsize": 9,
        "fontweight": "bold",
    }
    if grid.azimuth:
        turned_arrow(ax, grid, arrow, at)
    else:
        ax.annotate("N", xy=(0.955, 0.975), xytext=(0.955, 0.875), arrowprops=arrow, path_effects=HALO, **at)
    long = nice_length(MOST_OF_MAP * (east - west))
    left, low = west + 0.04 * (east - west), south + 0.05 * (north - south)
    ax.plot([left, left + long], [low, low], color="black", linewidth=3, solid_capstyle="butt", path_effects=HALO)
    words = {"ha": "center", "va": "bottom", "fontsize": 8, "path_effects": HALO, "textcoords": "offset points"}
    ax.annotate(f"{long:,.10g} m", (left + long / 2, low), xytext=(0, 3), **words)


def turned_arrow(ax: Axes, grid: Grid, arrow: dict[str, Any], at: dict[str, Any]) -> None:
    """Draws an arrow to true north over the map of a rotated grid, as long as that of other maps."""
    west, east, south, north, _, _ = grid.extent()
    towards = 1j / turn_of(grid.azimuth)
    # A share of the height of the map; across it is one of the width.
    step = 0.05 * np.array([towards.real * (north - south) / (east - west), towards.imag])
    middle = np.array([0.955 - abs(step[0]), 0.925])
    ends = {"xy": middle + step, "xytext": middle - step, "xycoords": at["xycoords"], "textcoords": at["textcoords"]}
    ax.annotate("", arrowprops=arrow | {"path_effects": HALO}, **ends)
    ax.annotate("N", xy=middle - 1.35 * step, path_effects=HALO, **(at | {"va": "center"}))


def section_titles(grid: Grid, row: int, column: int) -> tuple[str, str]:
    """Returns the titles of the sections along a row from the south and a column from the west."""
    east, north = (float(axis) for axis in grid.middles(np.array(row * grid.shape[2] + column))[:2])
    if not grid.azimuth:
        return f"west to east (A) at north {metres(north)}", f"south to north (B) at east {metres(east)}"
    rows, columns = grid.frame.names
    return f"{rows} (A) at {metres(north)} m {columns}", f"{columns} (B) at {metres(east)} m {rows}"


def axes_of_map(grid: Grid) -> tuple[str, str]:
    """Returns the labels of a map's axes. Those of a rotated grid count from its corner, and name the coordinates of that."""
    east, north = grid.frame.names
    if not grid.azimuth:
        return east, north
    x, y = (metres(round(place, 2)) for place in (grid.frame.x, grid.frame.y))
    return f"{east} from x {x}, y {y}", north


def nice_length(most: float) -> float:
    """Returns the largest of 1, 2 and 5 times a power of ten that is at most `most`."""
    power = 10.0 ** np.floor(np.log10(most))
    return float(max(step * power for step in (1, 2, 5) if step * power <= most * (1 + SUM_ERROR)))


def mark_section_cells(ax: Axes, grid: Grid, row: int, column: int) -> None:
    """Draws the lines of sections through the centres of a row from the south and a column from the west, with letters at their ends: A from west to
    east, B from south to north."""
    east_of, north_of = (float(axis) for axis in grid.middles(np.array(row * grid.shape[2] + column))[:2])
    west, east, south, north, _, _ = grid.extent()
    look = {"color": SECTION, "linewidth": 1.1, "linestyle": (0, (6, 3))}
    ax.plot([west, east], [north_of, north_of], **look)
    ax.plot([east_of, east_of], [south, north], **look)
    words = {"color": SECTION, "fontsize": 9, "fontweight": "bold", "path_effects": HALO, "textcoords": "offset points"}
    for name, at, shift in (
        ("A", (west, north_of), (7, 3)),
        ("A'", (east, north_of), (-9, 3)),
        ("B", (east_of, south), (6, 4)),
        ("B'", (east_of, north), (7, -11)),
    ):
        ax.annotate(name, at, xytext=shift, ha="center", **words)


def floor_of(grid: Grid, mined: np.ndarray) -> np.ndarray:
    """Returns the elevation of the pit floor in metres, shape (rows, columns); nan where nothing is mined. `mined` says which cells are mined, shape
    (levels, rows, columns); levels from the top."""
    level = np.arange(grid.shape[0])[:, None, None]
    deepest = np.where(mined, level, -1).max(axis=0)
    return np.where(deepest >= 0, grid.extent()[5] - (deepest + 1) * grid.size[2], np.nan)


def contours(ax: Axes, grid: Grid, floor: np.ndarray, over: bool = False) -> int:
    """Draws contours of the pit floor by benches, some with their elevation, dotted if they are drawn over other lines; returns the number of benches
    between two contours. `floor` is the elevation in metres, nan outside the pit, shape (rows, columns)."""
    west, _, south, _, _, _ = grid.extent()
    size = np.array(grid.size[:2])
    benches = np.unique(floor[np.isfinite(floor)])[::-1]
    step = max(-(-len(benches) // MOST_CONTOURS), 1)
    drawn = benches[::step]
    named = max(-(-len(drawn) // MOST_CONTOURS_NAMED), 1)
    for number, height in enumerate(drawn):
        with np.errstate(invalid="ignore"):
            lines = edges(floor <= height) * size + (west, south)
        look = {"linewidths": 0.9, "linestyles": [(0, (1, 1.4))]} if over else {"linewidths": 0.5 if number else 1.3}
        ax.add_collection(LineCollection(lines, colors="black", **look))
        if number % named == 0:
            # In the north-east and the south-west by turns: there labels are apart, and off the sections.
            middles = lines.mean(axis=1)
            x, y = middles[(middles.sum(axis=1) * (1 if number // named % 2 else -1)).argmax()]
            ax.text(x, y, metres(height), ha="center", va="center", fontsize=7, path_effects=HALO)
    return step


# What selects a row or a column of the grid.
GridLine = tuple[Union[int, slice], Union[int, slice]]
COLOUR, PIT = "#7a4a1e", "black"
LINE = {"color": COLOUR, "linewidth": 1.4}


@dataclass(frozen=True)
class ColumnHeights:
    """Heights over the columns of a grid.

    Attributes
    ----------
    height : array of float, shape (rows, columns)
        In metres; nan where nothing is known.
    is_surveyed : bool
        Whether they are means of a surveyed surface, not the tops of blocks.
    """

    height: NDArray[np.float64]
    is_surveyed: bool

    @property
    def label(self) -> str:
        return "topography" if self.is_surveyed else "top of the blocks"


def topography_of(plan: Plan) -> ColumnHeights:
    """Returns the original topography of a project, otherwise the tops of the blocks with tonnes."""
    project, grid = plan.project, plan.grid
    file = project.table.topography or (project.constraints.topography if project.constraints else None)
    shape, floor, top = grid.shape[1:], grid.extent()[4], grid.extent()[5]
    if file is not None:
        box = (grid.shape, grid.origin, grid.size, grid.azimuth)
        found = surveyed(file, file.state, box)[1]
        height = np.where(found.covered > SUM_ERROR, floor + found.height * grid.size[2], np.nan)
        return ColumnHeights(height.reshape(shape), True)
    solid = grid.cube(plan.values.tonnes > 0)
    height = np.where(solid.any(axis=0), top - solid.argmax(axis=0) * grid.size[2], np.nan)
    return ColumnHeights(height, False)


def draw_line(ax: Axes, topography: ColumnHeights, line: GridLine) -> None:
    """Draws the topography along a row or a column of the grid. The axes keep their limits."""
    heights = topography.height[line]
    left, right = ax.get_xlim()
    ends = left + (right - left) * np.arange(len(heights) + 1) / len(heights)
    if topography.is_surveyed:
        ax.plot((ends[:-1] + ends[1:]) / 2, heights, **LINE)
    else:
        ax.plot(np.repeat(ends, 2)[1:-1], np.repeat(heights, 2), **LINE)
    ax.set_xlim(left, right)


def name_lines(ax: Axes, topography: ColumnHeights) -> None:
    """Adds a legend of the lines of a section to axes."""
    lines = [Line2D([], [], **LINE, label=topography.label), Line2D([], [], color=PIT, linewidth=1.3, label="pit")]
    ax.legend(
        handles=lines, loc="lower left", fontsize=7, frameon=True, facecolor="white", edgecolor="none", framealpha=0.8
    )

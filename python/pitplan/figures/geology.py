"""Sections with rock types and resource classes, the topography and the outline of the pit. Functions are called as those of `plans_sections`."""

from __future__ import annotations

from dataclasses import dataclass
from pathlib import Path
from typing import Any

import numpy as np
import pandas as pd
from matplotlib.axes import Axes
from matplotlib.colors import BoundaryNorm, ListedColormap
from matplotlib.patches import Patch
from numpy.typing import NDArray

from pitplan.blockmodel.guesses import GuessedModel
from pitplan.config.economics import GRADE_SIGNS
from pitplan.core.tolerances import SIDE_ERROR
from pitplan.plan import Plan

from . import palette
from .map_marks import name_lines
from .palette import ORE
from .plans_sections import Scene
from .scene import Cut, draw_ground, draw_outline
from .style import GROUND, MAP, figure_file, list_of, name_axes, panels_file

OTHERS = "others"
MOST_IN_ROW = 5
# Colours are paler than the lines over them.
PALE = 0.7


@dataclass(frozen=True)
class CellCodes:
    """Codes of cells.

    Attributes
    ----------
    none : str
        What blocks without a code are called.
    number : int array, shape (levels, rows, columns)
        The number of the code of each cell; -1 without tonnes.
    colours : dict of str to str
        By code, in the order of the numbers.
    """

    title: str
    none: str
    number: NDArray[np.int16]
    colours: dict[str, str]


def kinds_of(plan: Plan) -> list[CellCodes]:
    """Returns rock types and resource classes, each if the table has them."""
    table = plan.project.table
    columns = {"Rock type": table.rock_type, "Resource class": table.resource_class}
    return [kind_of(plan, title, column) for title, column in columns.items() if column]


def kind_of(plan: Plan, title: str, column: str) -> CellCodes:
    """Returns the codes of a column. Of more codes than colours the rarest are together."""
    tonnes = plan.values.tonnes[plan.grid.rows]
    place, found = pd.factorize(plan.table[column], use_na_sentinel=False)
    codes, number_of = np.unique([str(code) for code in found], return_inverse=True)
    number = number_of[place]
    count = np.bincount(number)
    order = codes[np.argsort(-count, kind="stable")].tolist()
    is_class = column == plan.project.table.resource_class
    if is_class:
        colours = palette.of_classes(codes.tolist())
    elif len(order) > len(palette.CODES):
        colours = dict(zip([*order[: len(palette.CODES) - 1], OTHERS], palette.CODES))
    else:
        colours = dict(zip(order, palette.CODES))
    place = {code: at for at, code in enumerate(colours)}
    of_codes = np.array([place.get(code, len(colours) - 1) for code in codes], dtype=np.int16)
    none = "unclassified" if is_class else "none"
    return CellCodes(
        title, none, plan.grid.cube(plan.grid.spread(np.where(tonnes > 0, of_codes[number], -1), fill=-1)), colours
    )


def write_sections(scene: Scene, kinds: list[CellCodes], path: Path) -> None:
    west, east, _, _, bottom, top = scene.grid.extent()
    with panels_file(path, east - west, top - bottom, 2 * len(kinds)) as axes:
        plot_sections(scene, kinds, axes)


def plot_sections(scene: Scene, kinds: list[CellCodes], axes: Any) -> list[Axes]:
    """Draws a section from west to east and one from south to north for each kind of codes.

    Parameters
    ----------
    axes : array or list of Axes
        Two for each kind: those of the section from west to east first.
    """
    found = list_of(axes, 2 * len(kinds))
    for place, kind in enumerate(kinds):
        both = found[place], found[len(kinds) + place]
        used: set[int] = set()
        for ax, cut in zip(both, scene.sections):
            used |= draw_kind(ax, scene, kind, cut)
            ax.set_title(f"{kind.title}, {cut.title}")
            scene.finish_section(ax, cut)
        name_codes(both[1], kind, used)
    if scene.topography is not None and found:
        name_lines(found[0], scene.topography)
    return found


def draw_kind(ax: Axes, scene: Scene, kind: CellCodes, cut: Cut) -> set[int]:
    """Draws the codes of a section; returns the numbers of those that it shows."""
    number = kind.number[cut.index]
    draw_ground(ax, scene.solid[cut.index], cut.extent)
    colours = ListedColormap([*kind.colours.values()])
    norm = BoundaryNorm(np.arange(len(kind.colours) + 1) - 0.5, len(kind.colours))
    ax.imshow(np.ma.masked_less(number, 0), extent=cut.extent, cmap=colours, norm=norm, alpha=PALE, **MAP)
    draw_outline(ax, scene.mined[cut.index], cut.extent)
    return set(np.unique(number[number >= 0]).tolist())


def name_codes(ax: Axes, kind: CellCodes, used: set[int]) -> None:
    """Adds a legend of the codes in use below axes."""
    names = [(name, colour) for number, (name, colour) in enumerate(kind.colours.items()) if number in used]
    patches = [Patch(color=colour, alpha=PALE, label=name or kind.none) for name, colour in names]
    where = {"loc": "upper center", "bbox_to_anchor": (0.5, -0.18), "ncol": min(len(patches), MOST_IN_ROW) or 1}
    ax.legend(handles=patches, frameon=False, fontsize=8, **where)


BINS, MOST_HISTOGRAMS = 40, 3


@dataclass(frozen=True)
class Cube:
    """Values by level, row and column, nan without one; which cells have blocks; the edges of the box in metres along the axes, and their names.

    `extent` has west, east, south, north, floor and top.
    """

    values: np.ndarray
    blocks: np.ndarray
    extent: tuple[float, float, float, float, float, float]
    names: tuple[str, str]


def write_block_model(model: GuessedModel, path: Path) -> None:
    shown = histograms_of(model)
    with figure_file(path, 12, 8.6) as figure:
        above, below = figure.subfigures(2, 1, height_ratios=(1, 1.7))
        for axis, (name, unit) in zip(np.ravel(above.subplots(1, len(shown), squeeze=False)), shown):
            plot_histogram(axis, model.values(name), f"{name}, {unit}")
        plan, section = below.subplots(1, 2)
        plot_maps(model, plan, section)


def histograms_of(model: GuessedModel) -> list[tuple[str, str]]:
    grades = [(metal.column, GRADE_SIGNS[metal.unit]) for metal in model.columns.metals]
    weights = [
        (model.columns.named[key].column, {"density": "t/m3", "tonnes": "t"}[key])
        for key in model.weighed
        if key != "volume"
    ]
    return [*grades[: MOST_HISTOGRAMS - 1], *weights][:MOST_HISTOGRAMS]


def plot_histogram(axis: Axes, values: np.ndarray, label: str) -> None:
    """Draws how many blocks have which value; the title counts the values of 0 and the nulls."""
    some = values[values > 0]
    axis.hist(some, bins=BINS, color=ORE)
    axis.set_xlabel(label)
    axis.set_ylabel("blocks")
    if len(some) and some.max() > 20 * np.median(some):
        axis.set_yscale("log")
    zeros, nulls = int(np.count_nonzero(values == 0)), int(np.count_nonzero(np.isnan(values)))
    axis.set_title(f"{len(some):,} above 0; {zeros:,} are 0, {nulls:,} null")


def plot_maps(model: GuessedModel, plan: Axes, section: Axes) -> None:
    """Draws the first metal in the level and in the section from west to east that hold most of it."""
    metal = model.columns.metals[0]
    cube = cube_of(model, metal.column)
    known = np.nan_to_num(cube.values)
    level, row = int(known.sum(axis=(1, 2)).argmax()), int(known.sum(axis=(0, 2)).argmax())
    west, east, south, north, floor, top = cube.extent
    height, depth = (top - floor) / known.shape[0], (north - south) / known.shape[1]
    most = float(np.quantile(known[known > 0], 0.99)) if (known > 0).any() else 1.0
    style = {**MAP, "cmap": "viridis", "vmin": 0.0, "vmax": most}
    plain = {**MAP, "cmap": ListedColormap([GROUND])}
    plan.imshow(np.where(cube.blocks[level], 0.0, np.nan), extent=(west, east, south, north), **plain)
    section.imshow(np.where(cube.blocks[:, row], 0.0, np.nan), extent=(west, east, floor, top), **plain)
    image = plan.imshow(cube.values[level], extent=(west, east, south, north), **style)
    plan.set_title(f"plan at {floor + (level + 0.5) * height:,.10g} m")
    name_axes(plan, *cube.names)
    section.imshow(cube.values[:, row], extent=(west, east, floor, top), **style)
    section.set_title(f"section at {south + (row + 0.5) * depth:,.10g} m {cube.names[1]}")
    name_axes(section, cube.names[0], "elevation")
    bar = plan.figure.colorbar(image, ax=[plan, section], shrink=0.8, extend="max")
    bar.set_label(f"{metal.column}, {GRADE_SIGNS[metal.unit]}; grey: blocks without a value")


def cube_of(model: GuessedModel, column: str) -> Cube:
    """Returns the means of a column by cells of the box; cells of several sizes lie in blocks of the largest."""
    turned, values = model.turned, model.values(column)
    places = [along(model, axis) for axis in "xyz"]
    names = ("east", "north")
    if turned:
        west, north = float(turned.size[0]), float(turned.size[1])
        places[:2] = [(turned.column, 0.0, west), (turned.row, 0.0, north)]
        names = (f"along azimuth {(turned.azimuth + 90) % 360:.4g}", f"along azimuth {turned.azimuth % 360:.4g}")
    (column_of, west, dx), (row_of, south, dy), (level_of, floor, dz) = places
    shape = (int(level_of.max()) + 1, int(row_of.max()) + 1, int(column_of.max()) + 1)
    cell = np.ravel_multi_index((level_of, row_of, column_of), shape)
    known = ~np.isnan(values)
    count = np.bincount(cell[known], minlength=int(np.prod(shape)))
    there = np.bincount(cell, minlength=int(np.prod(shape))) > 0
    total = np.bincount(cell[known], values[known], minlength=int(np.prod(shape)))
    mean = np.where(count > 0, total / np.maximum(count, 1), np.nan).reshape(shape)
    extent = (west, west + dx * shape[2], south, south + dy * shape[1], floor, floor + dz * shape[0])
    return Cube(mean, there.reshape(shape), extent, names)


def along(model: GuessedModel, axis: str) -> tuple[np.ndarray, float, float]:
    """Returns the block of each row along an axis, from 0; the edge of the first, and the size of a block, in metres."""
    values = model.centres(axis)
    if axis in model.columns.sizes:
        sizes = model.sides(axis)
        size, edge = float(sizes.max()), float((values - sizes / 2).min())
    else:
        known, _ = model.size
        size = known["xyz".index(axis)] if known else model.least_gap(axis) or 1.0
        edge = float(values.min()) - size / 2
    return np.floor((values - edge) / size + SIDE_ERROR).astype(np.int64), edge, size

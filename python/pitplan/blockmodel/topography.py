"""Topographies and as-mined surfaces as triangles over the columns of a grid: how much of each block lies below them, and which blocks are mined."""

from __future__ import annotations

from collections.abc import Iterator
from dataclasses import dataclass
from functools import lru_cache
from pathlib import Path

import numpy as np
import pandas as pd

from pitplan.config.project import Project
from pitplan.config.table import SurveyFile
from pitplan.core.libraries import load
from pitplan.core.tolerances import SUM_ERROR
from pitplan.errors import PlanError
from pitplan.survey import readers
from pitplan.survey.layers import MapBox
from pitplan.survey.readers import Topography

from .cell_volumes import TONNES_PLACES
from .grid import Grid, metres

# A topography as triangles over the columns of a grid: its height at their middles, and how much of each block lies
# below it.
#
# The share of a block is exact for these triangles. Each is cut to the columns that it comes over, and over what is
# left of it, where its height goes linearly, the volume above an elevation has a closed form; a block has what lies
# above its floor without what lies above its top.

# Triangles over columns that are in memory at once.
PAIRS = 100_000


def box_of(grid: Grid) -> MapBox:
    """Returns the least and greatest x, and the least and greatest y, of a grid's corners, in metres."""
    _, rows, columns = grid.shape
    middles = grid.centres(np.array([0, columns - 1, (rows - 1) * columns, rows * columns - 1]))
    x, y, half = middles[0], middles[1], float(np.hypot(*grid.size[:2])) / 2
    return float(x.min()) - half, float(x.max()) + half, float(y.min()) - half, float(y.max()) + half


def triangles_of(topography: Topography) -> np.ndarray:
    """Returns the corners x, y, z of the triangles of a topography, shape (triangles, 3, 3): its faces, or the Delaunay triangulation of its points.
    Points on a line give no triangle."""
    points, faces = topography.points, topography.faces
    if not len(faces):
        # About the points' middle, since coordinates of seven digits leave little room for differences.
        flat = points[:, :2] - points[:, :2].mean(axis=0)
        if np.linalg.matrix_rank(flat - flat[0]) < 2:
            return np.zeros((0, 3, 3))
        faces = load("scipy.spatial", "python3-scipy", "a topography of points").Delaunay(flat).simplices
    return points[faces]


def over_grid(triangles: np.ndarray, grid: Grid) -> np.ndarray:
    """Returns the triangles that overlap a grid and have an area on the map, shape (triangles, 3, 3). Corners are in columns east and rows north of
    the middle of the first column, and in levels above the floor."""
    _, _, _, _, floor, _ = grid.extent()
    east, north = grid.steps(triangles[..., 0], triangles[..., 1])
    corners = np.stack([east, north, (triangles[..., 2] - floor) / grid.size[2]], axis=-1)
    low, high = corners[..., :2].min(axis=1), corners[..., :2].max(axis=1)
    _, rows, columns = grid.shape
    near = (high > -0.5).all(axis=1) & (low < np.array([columns, rows]) - 0.5).all(axis=1)
    return corners[near & (np.abs(areas(corners)) > SUM_ERROR**2)]


def areas(corners: np.ndarray) -> np.ndarray:
    """Returns the areas of triangles on the map, by the last two axes; the area is above 0 if the corners run anticlockwise."""
    a, b, c = (corners[..., corner, :2] for corner in range(3))
    return ((b - a)[..., 0] * (c - a)[..., 1] - (b - a)[..., 1] * (c - a)[..., 0]) / 2


def pairs(corners: np.ndarray, grid: Grid, reach: float) -> Iterator[tuple[np.ndarray, np.ndarray]]:
    """Yields pairs of triangles and columns in batches. A triangle goes with each column whose middle lies within `reach` blocks of its bounding box;
    its corners are relative to that middle. The second array has the numbers of the columns."""
    _, rows, columns = grid.shape
    low = np.clip(np.ceil(corners[..., :2].min(axis=1) - reach), 0, None).astype(np.int64)
    high = np.minimum(np.floor(corners[..., :2].max(axis=1) + reach).astype(np.int64), [columns - 1, rows - 1])
    wide = np.maximum(high - low + 1, 0)
    counts = wide.prod(axis=1)
    ends = np.cumsum(counts)
    start = 0
    while start < len(corners):
        before = int(ends[start] - counts[start])
        stop = max(start + 1, int(np.searchsorted(ends, before + PAIRS, "right")))
        number = np.repeat(np.arange(start, stop), counts[start:stop])
        row, column = np.divmod(np.arange(len(number)) - (ends - counts - before)[number], wide[number, 0])
        column, row = column + low[number, 0], row + low[number, 1]
        middle = np.stack([column, row, np.zeros(len(row))], axis=-1)
        yield corners[number] - middle[:, None], row * columns + column
        start = stop


def heights(triangles: np.ndarray, grid: Grid) -> np.ndarray:
    """Returns the greatest elevation in metres of the triangles at the middle of each column of blocks; infinite where there is no triangle."""
    corners = over_grid(triangles, grid)
    found = np.full(grid.per_level, -np.inf)
    for some, place in pairs(corners, grid, SUM_ERROR):
        a, b, c = (some[:, corner, :2] for corner in range(3))
        parts = np.stack(
            [one[:, 0] * two[:, 1] - one[:, 1] * two[:, 0] for one, two in ((b, c), (c, a), (a, b))], axis=1
        )
        shares = parts / parts.sum(axis=1, keepdims=True)
        inside = (shares >= -SUM_ERROR).all(axis=1)
        np.maximum.at(found, place[inside], (shares * some[..., 2]).sum(axis=1)[inside])
    return np.where(np.isinf(found), np.inf, grid.extent()[4] + found * grid.size[2])


@dataclass(frozen=True)
class Below:
    """What lies below a topography.

    share    of each block of a level from the floor and a column of blocks, shape (levels, columns); where the topography covers a part
             of a column, of this part
    covered  the part of each column on the map that triangles come over; more than 1 where they lie over each other
    height   the mean of the topography over each column, in levels above the model's floor
    """

    share: np.ndarray
    covered: np.ndarray
    height: np.ndarray


def below(triangles: np.ndarray, grid: Grid) -> Below:
    """Returns the shares of blocks below triangles; 1 in columns that no triangle overlaps."""
    sums = Sums(grid.shape[0], grid.per_level)
    for some, place in pairs(over_grid(triangles, grid), grid, 0.5):
        whole = over_column(some)
        fans = np.stack([np.broadcast_to(whole[:, :1], whole[:, 2:].shape), whole[:, 1:-1], whole[:, 2:]], axis=2)
        area = np.abs(areas(fans))
        one = area > 0
        sums.add(fans[one][..., 2], area[one], np.repeat(place, area.shape[1]).reshape(area.shape)[one])
    covered, above = sums.covered, sums.above()
    share = np.divide(
        above[:-1] - above[1:], covered, out=np.ones((grid.shape[0], grid.per_level)), where=covered > SUM_ERROR
    )
    height = np.divide(above[0], covered, out=np.zeros(grid.per_level), where=covered > SUM_ERROR)
    return Below(np.where(share < SUM_ERROR, 0.0, np.where(share > 1 - SUM_ERROR, 1.0, share)), covered, height)


def over_column(triangles: np.ndarray) -> np.ndarray:
    """Returns the part of each triangle over the column from whose middle its corners are measured, as polygons, shape (triangles, 7, 3)."""
    along_x = cut_polygons(cut_polygons(triangles, 0, 1), 0, -1)
    return cut_polygons(cut_polygons(along_x, 1, 1), 1, -1)


def cut_polygons(polygons: np.ndarray, axis: int, side: int) -> np.ndarray:
    """Returns the parts of convex polygons within half a block of a middle, on one side of it along an axis (Sutherland and Hodgman, 1974), shape
    (polygons, corners + 1, 3). A polygon with fewer corners repeats its first one."""
    inner = 0.5 - side * polygons[..., axis]
    following, beyond = np.roll(polygons, -1, axis=1), np.roll(inner, -1, axis=1)
    crosses = (inner >= 0) != (beyond >= 0)
    way = np.divide(inner, inner - beyond, out=np.zeros_like(inner), where=crosses)
    crossing = polygons + way[..., None] * (following - polygons)
    count, corners = inner.shape
    both = np.stack([polygons, crossing], axis=2).reshape(count, 2 * corners, 3)
    kept = np.stack([inner >= 0, crosses], axis=2).reshape(count, 2 * corners)
    order = np.argsort(~kept, axis=1, kind="stable")[:, : corners + 1]
    found = np.take_along_axis(both, order[..., None], axis=1)
    return np.where((np.arange(corners + 1) < kept.sum(axis=1)[:, None])[..., None], found, found[:, :1])


class Sums:
    """Volumes above each boundary of levels, from the floor of the model on, added up by columns; in blocks."""

    def __init__(self, levels: int, columns: int) -> None:
        self.levels, self.columns = levels, columns
        # By the count of boundaries that do not lie above a piece: its area, and its volume above the floor.
        self.area, self.volume = np.zeros((levels + 2, columns)), np.zeros((levels + 2, columns))
        self.more = np.zeros((levels + 1, columns))

    def add(self, heights: np.ndarray, area: np.ndarray, place: np.ndarray) -> None:
        """Adds triangles by the heights of their corners, shape (triangles, 3), their areas and their columns."""
        low, middle, high = np.sort(heights, axis=1).T
        first = np.clip(np.floor(low) + 1, 0, self.levels + 1).astype(np.int64)
        last = np.clip(np.ceil(high), 0, self.levels + 1).astype(np.int64)
        np.add.at(self.area, (first, place), area)
        np.add.at(self.volume, (first, place), area * heights.mean(axis=1))
        count = np.maximum(last - first, 0)
        of = np.repeat(np.arange(len(area)), count)
        at = first[of] + np.arange(len(of)) - np.repeat(np.cumsum(count) - count, count)
        share = share_above(np.stack([low, middle, high], axis=1)[of], at)
        np.add.at(self.more, (at, place[of]), share * area[of])

    @property
    def covered(self) -> np.ndarray:
        return np.asarray(self.area.sum(axis=0))

    def above(self) -> np.ndarray:
        """Returns the volume between each boundary and the triangles above it, shape (levels + 1, columns)."""
        area, volume = (np.cumsum(sums[::-1], axis=0)[::-1][1:] for sums in (self.area, self.volume))
        return np.asarray(volume - np.arange(self.levels + 1)[:, None] * area + self.more)


def share_above(heights: np.ndarray, at: np.ndarray) -> np.ndarray:
    """Returns the mean height of triangles above an elevation between their lowest and highest corner. The heights of the corners, shape (triangles,
    3), rise. The mean follows from the volume of the pyramid at the highest corner, or of the whole less that at the lowest.
    """
    low, middle, high = heights.T
    is_upper = at >= middle
    edge = np.where(is_upper, high, low)
    product = (high - low) * np.where(is_upper, high - middle, middle - low)
    pyramid = np.divide(np.abs(edge - at) ** 3, 3 * product, out=np.zeros(len(at)), where=product > 0)
    return np.where(is_upper, pyramid, heights.mean(axis=1) - at + pyramid)


def beside(places: np.ndarray, grid: Grid) -> str:
    """Returns why a file is of no use if its places x, y lie beside the model: the extents of both."""
    x, y, _ = grid.centres(grid.rows)
    reach = [f"{metres(axis.min())} to {metres(axis.max())}" for axis in (*places.T[:2], x, y)]
    return (
        f"its extents (x {reach[0]}, y {reach[1]}) do not overlap the block model (x {reach[2]}, y {reach[3]}): "
        "check coordinate system and units"
    )


# Blocks that the ground cuts: of each the tonnes below a topography are kept, exactly for its triangles, and its
# grades stay.
#
# Blocks are cut as the grid has them, those that are put together as a whole, and those that stand for cells without
# rows too. What lies wholly above is air, of 0 tonnes.

# Of a grid the shape, the origin, the size and the azimuth.
GridBox = tuple[tuple[int, int, int], tuple[float, float, float], tuple[float, float, float], float]
# By so much of its plan a column of blocks may be covered twice, or not at all, without a word.
SLIP = 0.01


def cut_by_topography(
    frame: pd.DataFrame, grid: Grid, project: Project, file: SurveyFile
) -> tuple[pd.DataFrame, list[str]]:
    """Returns the rows of a grid with the tonnes, to a gram, that lie below a topography, and notes.

    Raises PlanError if the file is not usable, lies over no block or below all, or has several heights at a place, and MissingPackage if its
    reader is not installed.
    """
    read, found = surveyed(file, file.state, (grid.shape, grid.origin, grid.size, grid.azimuth))
    demand_usable(found, read, grid, file.path)
    share = found.share[grid.shape[0] - 1 - grid.rows // grid.per_level, grid.rows % grid.per_level]
    before = frame[project.table.tonnes].to_numpy()
    after = np.where(share < 1, (before * share).round(TONNES_PLACES), before)
    if not after.any():
        raise PlanError(
            f"{file.path}: all blocks lie above it: check that its heights are in metres and in the system of the table"
        )
    notes = [
        *read.notes,
        f"{file.path}: {cut_note(before, after)}",
        *(f"WARNING: {file.path}: {said}" for said in doubts(found, grid)),
    ]
    return frame.assign(**{project.table.tonnes: after}), notes


@lru_cache(maxsize=2)
def surveyed(file: SurveyFile, state: tuple[tuple[int, int], ...], box: GridBox) -> tuple[Topography, Below]:
    """Returns a topography, and the parts of the cells of a box below it. A run reads each file once, since a sensitivity makes many plans. Raises
    PlanError and MissingPackage as `cut_by_topography` does."""
    shape, origin, size, azimuth = box
    grid = Grid(shape, origin, size, np.zeros(0, dtype=np.int64), azimuth)
    read = readers.topography(file, box_of(grid))
    triangles = triangles_of(read)
    if not len(triangles):
        raise PlanError(f"{file.path}: its points lie on one line and define no surface")
    return read, below(triangles, grid)


def demand_usable(found: Below, read: Topography, grid: Grid, file: Path) -> None:
    """Raises PlanError if a topography covers no block of the rows, or has several heights at a place."""
    if (found.covered[grid.rows % grid.per_level] <= SUM_ERROR).all():
        raise PlanError(f"{file}: covers no block: {beside(read.points, grid)}")
    twice = np.flatnonzero(found.covered > 1 + SLIP)
    if len(twice):
        x, y, _ = grid.centres(twice[:1])
        where = f"over {len(twice):,} columns of blocks, the first at {metres(x[0])}, {metres(y[0])}"
        raise PlanError(f"{file}: has several heights {where}: select one surface by its layer")


def cut_note(before: np.ndarray, after: np.ndarray) -> str:
    """Returns a note with the number of blocks of rock that are cut, the number that are air, and the tonnes before and after."""
    air, part = (after == 0) & (before > 0), (after > 0) & (after < before)
    return (
        f"{np.count_nonzero(part):,} blocks are cut by this topography and {np.count_nonzero(air):,} lie above it, as air; "
        f"{after.sum():,.0f} of {before.sum():,.0f} t lie below it"
    )


def doubts(found: Below, grid: Grid) -> list[str]:
    """Returns the doubts about columns of blocks that the topography covers in part or not at all, or whose rock below it is not in the table."""
    over, first = np.unique(grid.rows % grid.per_level, return_inverse=True)
    covered = found.covered[over]
    highest = np.full(len(over), grid.shape[0])
    np.minimum.at(highest, first, grid.rows // grid.per_level)
    beyond, part = covered <= SUM_ERROR, (covered > SUM_ERROR) & (covered < 1 - SLIP)
    higher = ~beyond & (found.height[over] > grid.shape[0] - highest + 1)
    said = {
        "columns of blocks lie beyond it; their blocks are not cut": beyond,
        "columns of blocks are partly covered; their blocks are cut by that part": part,
        "columns of blocks it lies more than one block above the highest row: material there is not in the table": higher,
    }
    return [
        f"{'over ' if some is higher else ''}{np.count_nonzero(some):,} {words}"
        for words, some in said.items()
        if some.any()
    ]


# Depletion by an as-mined surface: of each block the tonnes that remain, and which blocks are mined.
#
# The mined volume lies between the original topography and the as-mined surface. A block has the share of its tonnes
# that lies below both, exactly for their triangles. It counts as mined if at least MINED of its volume is, since two
# surveys of the same ground differ by a few decimetres. Where the project says that the model's own blocks are the
# original ground, a block with its centre above the surface is mined as a whole, and every other block is whole.

# The share of a block's volume from which on it counts as mined.
MINED = 0.05
# The column of a frame of rows that says which share of each block's volume is mined; 0 of a row without rock.
MINED_SHARE = "share of the block that is mined"


@dataclass(frozen=True)
class GroundShares:
    """For each row the share of its volume below the original ground, and the share below the original ground and the as-mined surface."""

    original: np.ndarray
    left: np.ndarray
    notes: tuple[str, ...]


def depleted(frame: pd.DataFrame, grid: Grid, project: Project) -> tuple[pd.DataFrame, list[str]]:
    """Adds the column MINED_SHARE to the rows of a grid, cuts their tonnes to those that remain (to a gram), and gives notes. Returns the
    same rows if the project has no as-mined surface.

    Raises PlanError if a file is not usable or lies over no block; MissingPackage if what reads it is not installed.
    """
    rules = project.constraints
    if rules is None or rules.as_mined is None:
        return frame, []
    original = project.table.topography or rules.topography
    found = by_centres(grid, rules.as_mined) if original is None else by_volumes(grid, original, rules.as_mined)
    before = frame[project.table.tonnes].to_numpy()
    share = np.divide(found.left, found.original, out=np.zeros(len(before)), where=found.original > 0)
    after = np.where(share < 1, (before * share).round(TONNES_PLACES), before)
    mined = np.where(before > 0, found.original - found.left, 0.0)
    columns = {project.table.tonnes: after, MINED_SHARE: mined}
    return frame.assign(**columns), [*found.notes, sentence_of(rules.as_mined.path, before, after, mined)]


def sentence_of(file: Path, before: np.ndarray, after: np.ndarray, mined: np.ndarray) -> str:
    """Returns a note with the numbers of blocks that are mined wholly and in part, and the tonnes before and after."""
    whole, part = (np.count_nonzero((mined >= MINED) & some) for some in (after == 0, after > 0))
    return (
        f"{file}: {whole:,} blocks are mined out and {part:,} are partly mined, by at least {100 * MINED:g} % each; "
        f"{after.sum():,.0f} of {before.sum():,.0f} t remain"
    )


def is_mined(frame: pd.DataFrame) -> np.ndarray:
    """Returns a mask of the mined rows, from the column that `depleted` adds; all false without an as-mined surface."""
    return frame[MINED_SHARE].to_numpy() >= MINED if MINED_SHARE in frame else np.zeros(len(frame), dtype=bool)


def by_volumes(grid: Grid, original: SurveyFile, surface: SurveyFile) -> GroundShares:
    """Returns the shares by the volumes below both surfaces. A column that a surface does not cover lies wholly below it."""
    box = (grid.shape, grid.origin, grid.size, grid.azimuth)
    (_, ground), (read, mined) = (surveyed(file, file.state, box) for file in (original, surface))
    demand_usable(mined, read, grid, surface.path)
    place = grid.shape[0] - 1 - grid.rows // grid.per_level, grid.rows % grid.per_level
    return GroundShares(ground.share[place], np.minimum(ground.share[place], mined.share[place]), tuple(read.notes))


def by_centres(grid: Grid, file: SurveyFile) -> GroundShares:
    """Returns the shares by the centres of blocks: a block with its centre above the surface is mined as a whole."""
    read = readers.topography(file, box_of(grid))
    surface = surface_of(grid, read)
    height = surface.height[grid.rows % grid.per_level]
    if np.isinf(height).all():
        raise PlanError(f"{file.path}: covers no block: {beside(read.points, grid)}")
    left = (grid.centres(grid.rows)[2] <= height).astype(float)
    return GroundShares(np.ones(len(left)), left, (*read.notes, *surface.notes(file.path, grid)))


@dataclass(frozen=True)
class MinedSurface:
    """The as-mined surface over each column of blocks: its height in metres, infinite beyond all points; and whether the height was
    interpolated from points outside the column."""

    height: np.ndarray
    between: np.ndarray

    def notes(self, file: Path, grid: Grid) -> list[str]:
        """Returns notes on the columns of the table's blocks without a point over them."""
        over = np.unique(grid.rows % grid.per_level)
        between, unknown = np.count_nonzero(self.between[over]), np.count_nonzero(np.isinf(self.height[over]))
        found = (
            [f"{file}: over {between:,} columns of blocks the surface was interpolated from the points around them"]
            if between
            else []
        )
        if unknown:
            found.append(
                f"WARNING: {file}: {unknown:,} columns of blocks lie beyond all points and are treated as not mined"
            )
        return found


def surface_of(grid: Grid, survey: Topography) -> MinedSurface:
    """Returns the surface over each column of blocks. A survey of triangles gives the height at the middle of the column. A survey of points gives
    the mean of the points over the column, or the height of the triangles between points if no point lies over it."""
    at_middle = heights(triangles_of(survey), grid)
    if len(survey.faces):
        return MinedSurface(at_middle, np.zeros(grid.per_level, dtype=bool))
    points = survey.points
    _, rows, columns = grid.shape
    column, row = (np.floor(steps + 0.5).astype(int) for steps in grid.steps(points[:, 0], points[:, 1]))
    inside = (column >= 0) & (column < columns) & (row >= 0) & (row < rows)
    place = row[inside] * columns + column[inside]
    count = np.bincount(place, minlength=rows * columns)
    total = np.bincount(place, weights=points[inside, 2], minlength=rows * columns)
    height = np.where(count > 0, total / np.maximum(count, 1), at_middle)
    return MinedSurface(height, (count == 0) & np.isfinite(height))

"""A table of blocks as a regular grid. Cells are numbered from the top level down, row by row from the south-west."""

from __future__ import annotations

import math
from dataclasses import dataclass, replace
from typing import Any, Optional

import numpy as np
import pandas as pd

from pitplan.config.project import FigureRules, Project
from pitplan.config.table import BlockSize, GridRules, TableColumns
from pitplan.core.libraries import load
from pitplan.core.numeric_fields import at_row, row_of
from pitplan.errors import PlanError

# Digits behind the point, a micrometre, that are kept of coordinates that were turned back.
PLACES = 6


def turn_of(azimuth: float) -> complex:
    """Returns the complex factor that turns a vector east + north j along a grid's axes into the planner's axes; `azimuth` is that of the grid's
    north, in degrees clockwise from the planner's north.
    """
    return complex(math.cos(math.radians(azimuth)), -math.sin(math.radians(azimuth)))


@dataclass(frozen=True)
class Frame:
    """The origin and direction of a grid's axes.

    Attributes
    ----------
    x, y : float
        The planner's coordinates of the origin of a rotated grid.
    azimuth : float
        Degrees clockwise from the planner's north to the grid's; 0: axes and coordinates are the planner's.
    """

    x: float
    y: float
    azimuth: float = 0.0

    def along(self, x: np.ndarray, y: np.ndarray) -> tuple[np.ndarray, np.ndarray]:
        """Returns metres east and north along the grid's axes of the planner's x and y."""
        if not self.azimuth:
            return x, y
        turned = (np.subtract(x, self.x) + 1j * np.subtract(y, self.y)) / turn_of(self.azimuth)
        return turned.real, turned.imag

    def back(self, east: np.ndarray, north: np.ndarray) -> tuple[np.ndarray, np.ndarray]:
        """Returns the planner's x and y of metres east and north along the grid's axes, to a micrometre if the grid is rotated."""
        if not self.azimuth:
            return east, north
        place = (np.asarray(east) + 1j * np.asarray(north)) * turn_of(self.azimuth)
        return (self.x + place.real).round(PLACES), (self.y + place.imag).round(PLACES)

    @property
    def names(self) -> tuple[str, str]:
        if not self.azimuth:
            return "east", "north"
        east, north = (f"{round(angle % 360, 4):.10g}" for angle in (self.azimuth + 90, self.azimuth))
        return f"along azimuth {east}\N{DEGREE SIGN}", f"along azimuth {north}\N{DEGREE SIGN}"


# Grids that are turned about the vertical: how far, found from the blocks' centres, and each row's place along the
# grid's own axes.
#
# The first guess is the direction from centres to their nearest neighbours. From one centre on, places of wider and
# wider circles are then counted along the axes, and the axes fitted to these by least squares: so the count stays
# right as far as the model goes.

# This many centres give the first guess, each by this many neighbours; their directions are so much alike, 1 being the same.
CENTRES, NEIGHBOURS, ALIKE = 2_000, 25, 0.99
# Up to this share of a block off its place a centre is counted while axes are fitted.
NEAR = 0.25
MOST_DIGITS = 12


@dataclass(frozen=True)
class Places:
    """Rows on a turned grid.

    azimuth  degrees clockwise from north to the grid's north
    first    x and y in metres of the centre of the column and row 0
    size     metres of a block along the grid's east and north
    column   of each row of the table, from 0 at the grid's west; `row` from 0 at its south
    """

    azimuth: float
    first: tuple[float, float]
    size: tuple[float, float]
    column: np.ndarray
    row: np.ndarray


@dataclass(frozen=True)
class Axes:
    """Centres counted along two axes that are square to each other.

    start  x + y j in metres of one centre; `angle` radians from east to the axis of columns, anticlockwise; `size` metres along both
    off    the same of the whole grid's distance from `start`
    """

    start: complex
    angle: float
    size: tuple[float, float]
    off: complex = 0j

    def counted(self, centres: np.ndarray) -> tuple[np.ndarray, np.ndarray]:
        """Returns columns and rows of centres from the start as whole numbers, and their distances from these in blocks; two arrays of shape (2,
        centres)."""
        steps = (centres - self.start - self.off) * np.exp(-1j * self.angle)
        steps = np.stack([steps.real / self.size[0], steps.imag / self.size[1]])
        whole = np.rint(steps)
        return whole, steps - whole


def azimuth_of(centres: np.ndarray, tolerance: float) -> Optional[float]:
    """Returns the azimuth of a grid's north in degrees clockwise, from -45 to 45, by the centres x and y in metres, shape (rows, 2); None if no grid
    is found, or if its rows run east within the tolerance in metres."""
    places = distinct(centres)
    angle = first_angle(places)
    if angle is None:
        return None
    size = steps_along(places, angle)
    if size[0] is None and size[1] is None:
        return None
    axes = fitted(
        places, Axes(middle_of(places), angle, (size[0] or size[1] or 1.0, size[1] or size[0] or 1.0)), tolerance
    )
    return None if abs(np.sin(axes.angle)) * reach_of(places, axes) <= tolerance else rounded(axes, places, tolerance)


def of_centres(centres: np.ndarray, azimuth: float, rules: GridRules, source: str, *, columns: str) -> Places:
    """Returns the places of centres x and y in metres, shape (rows, 2), on a grid with an azimuth. Errors name the source and its columns.

    Raises PlanError if the azimuth is not that of the centres, if a size is missing, or, with its row, if a centre lies off the grid.
    """
    places = distinct(centres)
    guess, angle = first_angle(places), -np.radians(azimuth)
    off = 0.0 if guess is None else float(np.angle(np.exp(4j * (guess - angle)))) / 4
    found = steps_along(places, angle + off)
    size = rules.size[:2] if rules.size else found
    for axis, name in zip(size, ("east", "north")):
        if axis is None:
            raise PlanError(
                f"{source}: blocks have no neighbours along the grid's {name}: give the blocks' size as [grid] size"
            )
    axes = Axes(middle_of(places), angle + off, (float(size[0] or 0), float(size[1] or 0)))
    if guess is not None:
        axes = fitted(places, axes, rules.tolerance)
        demand_azimuth(azimuth, axes, places, rules, source=source)
    axes = replace(axes, angle=angle)
    axes = replace(axes, size=rules.size[:2] if rules.size else sizes_told(axes, places, rules.tolerance))
    points, axes = centres[:, 0] + 1j * centres[:, 1], centred(places, axes)
    demand_on_grid(points, axes, rules.tolerance, source, columns=columns)
    return places_on_axes(points, axes, azimuth)


def demand_azimuth(azimuth: float, axes: Axes, places: np.ndarray, rules: GridRules, *, source: str) -> None:
    """Raises PlanError if an azimuth would move a centre by more than the tolerance."""
    if abs(np.angle(np.exp(1j * (np.radians(azimuth) + axes.angle)))) * reach_of(places, axes) > max(
        rules.tolerance, 10.0**-PLACES
    ):
        why = f"the centres lie on a grid whose north has azimuth {rounded(axes, places, rules.tolerance):.10g}"
        raise PlanError(f"{source}: [grid] azimuth is {azimuth:.10g} degrees, and {why}")


def distinct(centres: np.ndarray) -> np.ndarray:
    """Returns the distinct centres as x + y j."""
    places = centres.round(4)
    return np.unique(places[:, 0] + 1j * places[:, 1])


def middle_of(places: np.ndarray) -> complex:
    """Returns the centre nearest to the mean of all."""
    return complex(places[np.abs(places - places.mean()).argmin()])


def neighbours(places: np.ndarray, count: int) -> np.ndarray:
    """Returns the vectors from some centres to their nearest neighbours, shape (centres, neighbours)."""
    tree = load("scipy.spatial", "python3-scipy", "a grid that is turned").cKDTree(
        np.stack([places.real, places.imag], axis=1)
    )
    some = places[:: max(1, len(places) // CENTRES)]
    _, at = tree.query(np.stack([some.real, some.imag], axis=1), k=min(count, len(places)))
    return places[at[:, 1:]] - some[:, None]


def first_angle(places: np.ndarray) -> Optional[float]:
    """Returns the angle of rows or columns of blocks in radians anticlockwise from east, between -pi/4 and pi/4; None if neighbours lie in many
    directions."""
    if len(places) < 3:
        return None
    # Of directions that differ by a quarter of a turn the fourfold is the same.
    mean = np.exp(4j * np.angle(neighbours(places, 2)[:, 0])).mean()
    return float(np.angle(mean) / 4) if abs(mean) > ALIKE else None


def steps_along(places: np.ndarray, angle: float) -> tuple[Optional[float], Optional[float]]:
    """Returns the median distance in metres from centres to their next neighbours along each axis; None along an axis without neighbours."""
    if len(places) < 2:
        return None, None
    steps = neighbours(places, NEIGHBOURS) * np.exp(-1j * angle)
    found = []
    for along, across in ((steps.real, steps.imag), (steps.imag, steps.real)):
        beside = np.where(np.abs(across) < 0.1 * np.abs(along), np.abs(along), np.inf).min(axis=1)
        beside = beside[np.isfinite(beside)]
        found.append(float(np.median(beside)) if len(beside) else None)
    return found[0], found[1]


def fitted(places: np.ndarray, axes: Axes, tolerance: float) -> Axes:
    """Returns the axes fitted to the centres in circles of growing radius, and at last to the centres that lie on the grid."""
    far = np.abs(places - axes.start)
    reach = 4 * max(axes.size)
    while True:
        axes = regressed(places[far <= reach], axes, NEAR)
        if reach >= far.max():
            break
        reach *= 2
    on = np.median(off_grid(axes, places)) * 3 + tolerance
    return regressed(places, axes, min(NEAR, on / min(axes.size)))


def regressed(places: np.ndarray, axes: Axes, near: float) -> Axes:
    """Returns the axes by least squares through the centres that lie within a share of a block of their places."""
    whole, off = axes.counted(places)
    some = (np.abs(off) <= near).all(axis=0)
    if not some.any():
        return axes
    counts, shift = whole[:, some], places[some] - axes.start
    spread = counts.var(axis=1)
    there = np.flatnonzero(spread > 0)
    if not len(there):
        return axes
    terms = np.stack([np.ones(counts.shape[1]), *counts[there]], axis=1).astype(complex)
    found = np.linalg.lstsq(terms, shift, rcond=None)[0]
    steps = {axis: found[1 + k] / (1j if axis else 1) for k, axis in enumerate(there)}
    angle = float(np.angle(sum(spread[axis] * abs(step) * step for axis, step in steps.items())))
    size = [abs(steps[axis]) if axis in steps else axes.size[axis] for axis in (0, 1)]
    turn = np.exp(1j * angle)
    centre = (shift - (counts[0] * size[0] + 1j * counts[1] * size[1]) * turn).mean()
    return Axes(axes.start, angle, (float(size[0]), float(size[1])), complex(centre))


def reach_of(places: np.ndarray, axes: Axes) -> float:
    """Returns the distance in metres from the start to the farthest centre."""
    return float(np.abs(places - axes.start).max())


def rounded(axes: Axes, places: np.ndarray, tolerance: float) -> float:
    """Returns the azimuth of the grid's north in degrees clockwise, with as few digits as the centres allow."""
    degrees, allowed = -float(np.degrees(axes.angle)), Allowed.of(axes, places, tolerance)
    # Without the sign of a 0.
    rounded = (round(degrees, digits) + 0.0 for digits in range(MOST_DIGITS))
    return next((it for it in rounded if allowed.holds(replace(axes, angle=-np.radians(it)))), degrees)


def sizes_told(axes: Axes, places: np.ndarray, tolerance: float) -> tuple[float, float]:
    """Returns the size of a block in metres, with as few digits as the centres allow."""
    allowed = Allowed.of(axes, places, tolerance)
    for axis in (0, 1):
        for digits in range(MOST_DIGITS):
            size = tuple(round(it, digits) if k == axis else it for k, it in enumerate(axes.size))
            if size[axis] > 0 and allowed.holds(replace(axes, size=size)):
                axes = replace(axes, size=size)
                break
    return axes.size


@dataclass(frozen=True)
class Allowed:
    """How far those centres that lie on a grid may lie off one that is given with fewer digits: metres, hardly more than they do."""

    places: np.ndarray
    most: float

    @staticmethod
    def of(axes: Axes, places: np.ndarray, tolerance: float) -> Allowed:
        worst = off_grid(centred(places, axes), places)
        on = worst <= tolerance
        return Allowed(places[on], min(tolerance, 1.5 * float(worst[on].max(initial=0.0)) + 1e-4))

    def holds(self, axes: Axes) -> bool:
        return bool(
            off_grid(centred(self.places, axes), self.places).max(initial=np.inf if not len(self.places) else 0.0)
            <= self.most
        )


def off_grid(axes: Axes, places: np.ndarray) -> np.ndarray:
    """Returns the distance of each centre from its place in metres, along the axis with the greater one."""
    return (np.abs(axes.counted(places)[1]) * np.array(axes.size)[:, None]).max(axis=0)


def centred(places: np.ndarray, axes: Axes) -> Axes:
    """Returns the axes moved by the median distance of the centres from their places."""
    _, off = axes.counted(places)
    east, north = np.median(off, axis=1) * axes.size
    return replace(axes, off=axes.off + complex(east, north) * np.exp(1j * axes.angle))


def demand_on_grid(points: np.ndarray, axes: Axes, tolerance: float, source: str, *, columns: str) -> None:
    """Raises PlanError, with the row, if a centre lies off the grid by more than a tolerance in metres."""
    worst = off_grid(axes, points)
    if worst.max() <= tolerance:
        return
    row = int((worst > tolerance).argmax())
    at = f"{points[row].real:.15g}, {points[row].imag:.15g}"
    azimuth = -np.degrees(axes.angle)
    blocks = f"blocks of {axes.size[0]:.10g} x {axes.size[1]:.10g} m turned by {azimuth:.10g} degrees"
    why = f"{at} is off the grid of {blocks} by {worst[row]:.4g} m: sub-blocks need [table] reblock"
    raise at_row(source, row, columns, why)


def places_on_axes(points: np.ndarray, axes: Axes, azimuth: float) -> Places:
    """Returns the places of all rows on the axes of a grid of an azimuth in degrees."""
    whole = axes.counted(points)[0]
    least = whole.min(axis=1)
    first = axes.start + axes.off + complex(*(least * axes.size)) * turn_of(azimuth)
    column, row_of = (whole - least[:, None]).astype(np.int64)
    place = (round(first.real, PLACES), round(first.imag, PLACES))
    return Places(azimuth, place, axes.size, column, row_of)


MOST_BLOCKS = 4_194_304
# Of a grid of up to this many cells blocks are put together, or what no shell can reach is left out.
MOST_CELLS = 64_000_000
# Up to this share of the rows may lie off the grid that the others make: these are named then.
FEW = 0.01


def metres(value: float) -> str:
    """Returns a coordinate with all its digits, to a tenth of a millimetre: 6512640, not 6.51264e+06, and 0 without a sign."""
    return f"{round(float(value), 4) + 0.0:.15g}"


@dataclass(frozen=True)
class Grid:
    """All cells of the bounding box of the blocks.

    Attributes
    ----------
    shape : tuple of int
        Levels (from the top), rows (from the south) and columns (from the west).
    origin : tuple of float
        x, y, z in metres of the centre of cell 0: west, south, top.
    size : tuple of float
        Block size in metres: east, north and up.
    rows : int array
        The cell of each row of the table.
    azimuth : float
        Degrees clockwise from the planner's north to the grid's. South, west etc. are the grid's own, x and y the planner's.
    """

    shape: tuple[int, int, int]
    origin: tuple[float, float, float]
    size: BlockSize
    rows: np.ndarray
    azimuth: float = 0.0

    @property
    def count(self) -> int:
        return self.shape[0] * self.shape[1] * self.shape[2]

    @property
    def per_level(self) -> int:
        return self.shape[1] * self.shape[2]

    def spread(self, values: np.ndarray, fill: float = 0) -> np.ndarray:
        """Returns values by cell from values by row; `fill` for cells without a row."""
        result = np.full(self.count, fill, dtype=np.asarray(values).dtype)
        result[self.rows] = values
        return result

    def cube(self, values: np.ndarray) -> np.ndarray:
        """Returns values by cell as an array of shape (levels, rows, columns)."""
        return np.asarray(values).reshape(self.shape)

    def indices(self, ids: np.ndarray) -> tuple[np.ndarray, np.ndarray, np.ndarray]:
        """Returns column from the west, row from the south and level from the top of each cell."""
        level, rest = np.divmod(ids, self.per_level)
        row, column = np.divmod(rest, self.shape[2])
        return column, row, level

    @property
    def frame(self) -> Frame:
        """The axes of `extent` and `middles`: the planner's, or those of a rotated grid from its south-west corner."""
        x, y, _ = self.origin
        corner = complex(x, y) - complex(self.size[0], self.size[1]) / 2 * turn_of(self.azimuth)
        return Frame(corner.real, corner.imag, self.azimuth)

    def middles(self, ids: np.ndarray) -> tuple[np.ndarray, np.ndarray, np.ndarray]:
        """Returns metres east, north and up of the centres of cells, along the axes of `frame`."""
        column, row, level = self.indices(ids)
        (x, y, z), (dx, dy, dz) = self.origin, self.size
        if self.azimuth:
            x, y = dx / 2, dy / 2
        return x + column * dx, y + row * dy, z - level * dz

    def centres(self, ids: np.ndarray) -> tuple[np.ndarray, np.ndarray, np.ndarray]:
        """Returns the planner's x, y, z in metres of the centres of cells."""
        east, north, up = self.middles(ids)
        return *self.frame.back(east, north), up

    def greatest_shift(self, table: pd.DataFrame, columns: TableColumns) -> float:
        """Returns the greatest distance in metres, along an axis, from the centroid of a row to that of its cell."""
        x, y, z = (table[name].to_numpy() for name in (columns.x, columns.y, columns.z))
        places = (*self.frame.along(x, y), z)
        off = [np.abs(place - middle).max() for place, middle in zip(places, self.middles(self.rows))]
        return float(f"{max(off):.3g}")

    def steps(self, x: np.ndarray, y: np.ndarray) -> tuple[np.ndarray, np.ndarray]:
        """Returns how many columns and rows the planner's x and y lie from the centre of cell 0, with fractions."""
        east, north = self.frame.along(x, y)
        first = (self.size[0] / 2, self.size[1] / 2) if self.azimuth else self.origin
        return (east - first[0]) / self.size[0], (north - first[1]) / self.size[1]

    def elevations(self) -> np.ndarray:
        """Returns the elevations of the centres of the levels in metres, from the top."""
        return self.origin[2] - np.arange(self.shape[0]) * self.size[2]

    def toes(self) -> np.ndarray:
        """Returns the elevations of the toes of the benches in metres, from the top: by these, tables and figures name the benches."""
        return self.elevations() - self.size[2] / 2

    def extent(self) -> tuple[float, float, float, float, float, float]:
        """Returns west, east, south, north, floor and top of the grid in metres, along the axes of `frame`."""
        (x, y, z), (dx, dy, dz), (levels, rows, columns) = self.origin, self.size, self.shape
        west, south, top = x - dx / 2, y - dy / 2, z + dz / 2
        if self.azimuth:
            west, south = 0.0, 0.0
        return west, west + columns * dx, south, south + rows * dy, top - levels * dz, top

    def as_json(self) -> dict[str, Any]:
        """Returns shape, origin, size, and the azimuth of a rotated grid."""
        record = {"shape": list(self.shape), "origin": list(self.origin), "size": list(self.size)}
        return record | ({"azimuth": self.azimuth} if self.azimuth else {})


@dataclass(frozen=True)
class Axis:
    """One axis of the grid: least centre, block size, number of blocks, and the place of each row."""

    first: float
    size: float
    count: int
    place: np.ndarray


def of_table(frame: pd.DataFrame, project: Project, source: str = "table", any_size: bool = False) -> Grid:
    """Returns the grid of a checked table, with the azimuth of the project or otherwise that of the centroids. Errors name the table by `source`;
    with `any_size` the grid may have more cells than the solver takes. Raises PlanError if a centroid lies off the grid, a cell occurs twice, the
    azimuth is not that of the centroids, or the grid is too large."""
    rules = project.grid
    if rules.azimuth:
        return laid(frame, project, source, any_size, azimuth=rules.azimuth)
    try:
        return laid(frame, project, source, any_size)
    except PlanError as error:
        azimuth = azimuth_of(frame[[project.table.x, project.table.y]].to_numpy(), rules.tolerance)
        if azimuth is None:
            raise
        if rules.azimuth is not None:
            why = f"[grid] azimuth is 0 degrees, and the centres lie on a grid whose north has azimuth {azimuth:.10g}"
            raise PlanError(f"{source}: {why}") from error
    try:
        return laid(frame, project, source, any_size, azimuth=azimuth)
    except PlanError as error:
        raise PlanError(
            f"{error}; the centres lie on a grid that is turned by {azimuth:.10g} degrees clockwise"
        ) from error


def laid(frame: pd.DataFrame, project: Project, source: str, any_size: bool, *, azimuth: float = 0.0) -> Grid:
    columns, rules = project.table, project.grid
    if azimuth:
        east, north = turned_axes(frame, project, source, azimuth)
    else:
        east, north = (axis_of(frame, name, k, rules, source=source) for k, name in enumerate((columns.x, columns.y)))
    up = axis_of(frame, columns.z, 2, rules, source=source)
    count = east.count * north.count * up.count
    if count > (MOST_CELLS if any_size else MOST_BLOCKS):
        raise PlanError(f"{source}: the grid has {count:,} cells, and the solver takes at most {MOST_BLOCKS:,} blocks")
    cells = ((up.count - 1 - up.place) * north.count + north.place) * east.count + east.place
    demand_once(cells, frame, columns, source)
    grid = Grid(
        shape=(up.count, north.count, east.count),
        origin=(east.first, north.first, up.first + (up.count - 1) * up.size),
        size=(east.size, north.size, up.size),
        rows=cells,
        azimuth=azimuth,
    )
    if rules.size is None:
        demand_neighbours(grid, columns, source)
    return grid


def turned_axes(frame: pd.DataFrame, project: Project, source: str, azimuth: float) -> tuple[Axis, Axis]:
    """Returns the two axes of a rotated grid; `first` of both are the planner's x and y of one block."""
    columns = project.table
    centres = frame[[columns.x, columns.y]].to_numpy()
    found = of_centres(centres, azimuth, project.grid, source, columns=f"{columns.x}, {columns.y}")
    return (
        Axis(found.first[0], found.size[0], int(found.column.max()) + 1, found.column),
        Axis(found.first[1], found.size[1], int(found.row.max()) + 1, found.row),
    )


def axis_of(frame: pd.DataFrame, name: str, k: int, rules: GridRules, *, source: str) -> Axis:
    values = frame[name].to_numpy()
    distinct = np.sort(pd.unique(values))
    first, gaps = float(distinct[0]), np.diff(distinct)
    gaps = gaps[gaps > rules.tolerance]
    if rules.size is not None:
        size = rules.size[k]
    elif len(gaps) == 0:
        raise PlanError(
            f"{source} column {name}: all blocks lie at {metres(first)}: give the blocks' size as [grid] size"
        )
    else:
        size = step_of(values, gaps, rules.tolerance)
        size = float(distinct[-1] - first) / round(float(distinct[-1] - first) / size)
    first = most_common_lattice(values, first, size, rules.tolerance)
    place = np.rint((values - first) / size)
    off = np.abs(values - (first + place * size))
    if off.max() > rules.tolerance:
        row = int((off > rules.tolerance).argmax())
        steps = ", ".join(metres(first + number * size) for number in range(3))
        why = f"{metres(values[row])} is off the grid {steps}, .. by {off[row]:g} m"
        raise at_row(source, row, name, f"{why}: sub-blocks need [table] reblock")
    # The least centre lies less than half a block off the lattice's first, so no place is below 0.
    return Axis(float(first), size, int(place.max()) + 1, place.astype(np.int64))


def step_of(values: np.ndarray, gaps: np.ndarray, tolerance: float) -> float:
    """Returns the step between centres: the smallest gap, or the most common one if only a few centres lie off it, by mistake."""
    steps, counts = np.unique(gaps.round(6), return_counts=True)
    usual = float(steps[counts.argmax()])
    first = most_common_lattice(values, float(values.min()), usual, tolerance)
    off = np.abs((values - first) - np.rint((values - first) / usual) * usual) > tolerance
    return usual if 0 < off.mean() < FEW else float(gaps.min())


def most_common_lattice(values: np.ndarray, first: float, size: float, tolerance: float) -> float:
    """Returns a centre of the lattice on which most values lie, so that the few others are those off it."""
    shift = values - first
    shift = shift - np.rint(shift / size) * size
    group = np.rint(shift / max(tolerance, 1e-6))
    place, groups = pd.factorize(group, sort=True)
    return first + float(np.median(shift[group == groups[np.bincount(place).argmax()]]))


def demand_once(cells: np.ndarray, frame: pd.DataFrame, columns: TableColumns, source: str) -> None:
    filled = np.zeros(int(cells.max()) + 1, dtype=bool)
    filled[cells] = True
    if np.count_nonzero(filled) < len(cells):
        row = int(pd.Series(cells).duplicated().to_numpy().argmax())
        first = int((cells == cells[row]).argmax())
        place, why = (
            f"{columns.x}, {columns.y}, {columns.z}",
            f"the block of row {row_of(source, first)} lies there too",
        )
        raise at_row(source, row, place, why)


def demand_neighbours(grid: Grid, columns: TableColumns, source: str) -> None:
    """Raises PlanError for a block size found from coordinates at which hardly any two blocks touch, a sign of sub-blocks."""
    filled = np.zeros(grid.count, dtype=bool)
    filled[grid.rows] = True
    cube = grid.cube(filled)
    for axis, name in enumerate((columns.z, columns.y, columns.x)):
        beside = cube & np.roll(cube, 1, axis)
        beside[(slice(None),) * axis + (0,)] = False
        touching = int(np.count_nonzero(beside))
        layers = grid.shape[axis]
        if touching < 0.5 * len(grid.rows) * (layers - 1) / layers:
            size = grid.size[2 - axis]
            raise PlanError(
                f"{source} column {name}: at the smallest step between centres, {size:g} m, most blocks have no neighbour: "
                "sub-blocks need [table] reblock, others the blocks' size as [grid] size"
            )


def grid_of(box: dict[str, Any], rows: np.ndarray) -> Grid:
    """Returns the grid of a record, with the cells of the table's rows."""
    (levels, north, east), (x, y, z), (dx, dy, dz) = box["shape"], box["origin"], box["size"]
    return Grid((levels, north, east), (x, y, z), (dx, dy, dz), rows, box.get("azimuth", 0.0))


def demand_within(project: Project, grid: Grid) -> None:
    """Raises PlanError if `[figures]` names a level or a section beyond the model."""
    rules = project.figures or FigureRules()
    west, east, south, north, floor, top = grid.extent()
    asked = (
        ("levels", rules.levels, floor, top),
        ("north", (rules.north,), south, north),
        ("east", (rules.east,), west, east),
    )
    for key, values, least, most in asked:
        for value in values:
            if value is not None and not least <= value <= most:
                along = dict(zip(("east", "north"), grid.frame.names)).get(key, "") if grid.azimuth else ""
                where = f"beyond the model, from {metres(least)} to {metres(most)} m {along}".rstrip()
                raise PlanError(f"{project.path}: [figures] {key}: {metres(value)} is {where}")

"""Slope angles as precedences: which blocks above a block must be mined before it.

A block depends on the blocks above it whose centroids lie in the cone of its slope domain, up to a number of benches. Above these the cone
continues by its own steps, and so becomes their convex hull. There a slope gets steeper than required, by the slope error in `errors`.
"""

from __future__ import annotations

import math
from dataclasses import dataclass, replace
from typing import Iterator, Optional

import numpy as np
from scipy.spatial import ConvexHull, QhullError

from pitplan.config.geometry import DIP, MOST_LEVELS, WALL, SlopeDomain, Slopes
from pitplan.config.table import BlockSize
from pitplan.core.tolerances import SLOPE_ERROR, STRICT_SUM_ERROR, SUM_ERROR
from pitplan.errors import PlanError

# Slope cones as boolean templates, and the smallest arc set whose transitive closure is the cone.
#
# A template has shape (levels, rows, columns): levels up from that of the block, rows from the south, columns from
# the west, with the block in the middle of each level. A block depends on every cell of the cone of its own slopes.
# An arc is left out if a predecessor between the two implies it: a lower block that lies between them in east and in
# north. Such a block is in the grid if both ends are, so that no implication is lost at the sides of the grid.


def of_steps(steps: tuple[tuple[int, int, int], ...]) -> np.ndarray:
    """Returns the template of steps east, north and up."""
    east, north, up = np.array(steps).T
    wide, broad = np.abs(east).max(), np.abs(north).max()
    cone = np.zeros((up.max() + 1, 2 * broad + 1, 2 * wide + 1), dtype=bool)
    cone[0, broad, wide] = True
    cone[up, north + broad, east + wide] = True
    return cone


def steps_of(cells: np.ndarray) -> np.ndarray:
    """Returns the steps east, north and up to the cells above the block, shape (steps, 3), from the lowest level up."""
    up, north, east = np.nonzero(cells[1:])
    return np.stack([east - cells.shape[2] // 2, north - cells.shape[1] // 2, up + 1], axis=1)


def holds(cone: np.ndarray, steps: np.ndarray) -> np.ndarray:
    """Returns whether each step, shape (steps, 3), leads to a cell of the cone above the block."""
    east, north = steps[:, 0] + cone.shape[2] // 2, steps[:, 1] + cone.shape[1] // 2
    up = steps[:, 2]
    inside = (up > 0) & (up < cone.shape[0]) & (north >= 0) & (north < cone.shape[1])
    inside &= (east >= 0) & (east < cone.shape[2])
    return inside & cone[np.where(inside, up, 0), np.where(inside, north, 0), np.where(inside, east, 0)]


def meet(cones: list[np.ndarray]) -> np.ndarray:
    """Returns the intersection of cones."""
    levels, rows, columns = np.min([cone.shape for cone in cones], axis=0)
    met = np.ones((levels, rows, columns), dtype=bool)
    for cone in cones:
        south, west = (cone.shape[1] - rows) // 2, (cone.shape[2] - columns) // 2
        met &= cone[:levels, south : south + rows, west : west + columns]
    return met


def quarters(cells: np.ndarray) -> Iterator[np.ndarray]:
    """Yields the four quadrants of a cone as views, from the block outwards. Within one, two steps lie between the block and their sum."""
    south, west = cells.shape[1] // 2, cells.shape[2] // 2
    for north in (1, -1):
        for east in (1, -1):
            yield cells[:, ::north, ::east][:, south:, west:]


def lead_on(led: np.ndarray, quarter: np.ndarray, step: np.ndarray) -> None:
    """Marks in `led` the sums of a step (up, north, east) and the cells of the quadrant above the block."""
    up, north, east = step
    levels, rows, columns = quarter.shape
    led[up + 1 :, north:, east:] |= quarter[1 : levels - up, : rows - north, : columns - east]


def least(cone: np.ndarray) -> np.ndarray:
    """Returns the cells of a cone that are not implied by lower ones of them, each with a cell of the cone: a boolean mask."""
    kept = np.zeros_like(cone)
    for mine, quarter in zip(quarters(kept), quarters(cone)):
        led = np.zeros_like(quarter)
        for up in range(1, len(quarter)):
            for north, east in np.argwhere(quarter[up] & ~led[up]):
                mine[up, north, east] = True
                lead_on(led, quarter, np.array([up, north, east]))
    return kept


def led_to(cone: np.ndarray, last: np.ndarray) -> np.ndarray:
    """Returns the cells of a cone that a lower cell implies by one of the steps in `last`: a boolean mask."""
    led = np.zeros_like(cone)
    for mine, quarter, steps in zip(quarters(led), quarters(cone), quarters(last)):
        for step in np.argwhere(steps):
            lead_on(mine, quarter, step)
    return led & cone


def ways(cone: np.ndarray, steps: np.ndarray, kept: np.ndarray) -> np.ndarray:
    """Returns for each step the index of the first kept step between the block and it that implies it by the cone; -1 for none."""
    found = np.full(len(steps), -1)
    for number, first in enumerate(kept):
        rest = steps - first
        between = (first[:2] * rest[:, :2] >= 0).all(axis=1)
        found[(found < 0) & between & holds(cone, rest)] = number
    return found


Offset = tuple[int, int, int]
# Pairs of azimuth and angle in degrees.
Angles = tuple[tuple[float, float], ...]
Point = tuple[float, float]
FIVE: tuple[Offset, ...] = ((0, 0, 1), (-1, 0, 1), (1, 0, 1), (0, -1, 1), (0, 1, 1))
NINE: tuple[Offset, ...] = tuple((x, y, 1) for y in (-1, 0, 1) for x in (-1, 0, 1))
PATTERN_OFFSETS = {"1:5": FIVE, "1:9": NINE}
AZIMUTHS = np.arange(0.0, 360.0, 1.0)
# Without precedence_benches their number keeps every slope within this slope error, in degrees, unless a block then has more precedences
# than MOST_CHOSEN. Solver and files take time and memory by precedence: at 40 degrees on blocks of 20 x 20 x 15 m the error takes 717.
STEEPER, MOST_CHOSEN = 0.5, 250


@dataclass(frozen=True)
class Reach:
    """How many benches up precedences reach, and how many precedences a block has."""

    levels: int
    precedences: int


@dataclass(frozen=True)
class Pattern:
    """The precedences of one entry of `[[slopes.domains]]`, and its slope error.

    Attributes
    ----------
    cone : array of bool
        All predecessors of a block, as a template of `cone_templates`.
    offsets : tuple of (int, int, int)
        Steps east, north and up of the arcs within the domain: those that others do not imply.
    angles : array of float, shape (360,)
        The slope angles that result, in degrees, at azimuths 0, 1, .. 359 from the grid's north.
    errors : array of float, shape (360,)
        Degrees by which the slope is steeper than required (below 0: flatter); empty for offsets and patterns without an angle.
    widened : float
        The factor by which the cone was widened for `never_steeper`; 1 if it was not.
    azimuth : float
        Degrees clockwise from north to the grid's north.
    wanted : Reach, optional
        What keeps the slope error within STEEPER, if that takes more than MOST_CHOSEN precedences; None if the error is kept or was not asked for.
    """

    name: str
    cone: np.ndarray
    offsets: tuple[Offset, ...]
    angles: np.ndarray
    errors: np.ndarray
    widened: float = 1.0
    azimuth: float = 0.0
    wanted: Optional[Reach] = None

    @property
    def levels(self) -> int:
        """The number of benches that the precedences of a block reach up."""
        return len(self.cone) - 1

    def as_json(self) -> dict[str, object]:
        result: dict[str, object] = {
            "domain": self.name,
            "precedence_benches": self.levels,
            "precedences_per_block": len(self.offsets),
            "angle_least": round(float(self.angles.min()), 2),
            "angle_greatest": round(float(self.angles.max()), 2),
        }
        if len(self.errors):
            steepest, flattest = int(self.errors.argmax()), int(self.errors.argmin())
            result["steeper_than_asked_by_at_most"] = round(float(self.errors[steepest]), 2)
            result["at_azimuth"] = round(float(AZIMUTHS[steepest] + self.azimuth) % 360, 4)
            result["flatter_than_asked_by_at_most"] = round(float(-self.errors[flattest]), 2)
            result["mean_error"] = round(float(self.errors.mean()), 2)
            result["widened"] = round(self.widened, 4)
        return result

    def sentence(self) -> str:
        """The range and the error of the slopes that these precedences make."""
        low, high = self.angles.min(), self.angles.max()
        over = f"over {self.levels} bench{'es' if self.levels > 1 else ''}"
        text = (
            f"{self.name}: {len(self.offsets)} precedences per block {over}, slopes of {low:.1f} to {high:.1f} degrees"
        )
        if not len(self.errors):
            return text
        text += f", slope error {self.errors.max():+.1f} to {self.errors.min():+.1f} degrees (+ is steeper)"
        if self.wanted is None:
            return text
        return (
            f"{text}; {STEEPER} degrees would take {self.wanted.precedences} precedences, above the {MOST_CHOSEN} that are chosen at most: "
            f"set [slopes] precedence_benches = {self.wanted.levels}"
        )


def cotangents(angles: Angles, azimuths: np.ndarray) -> np.ndarray:
    """Returns the cotangent of the required angle at azimuths in degrees: linear between those given, and around the circle."""
    given = np.array([azimuth for azimuth, _ in angles])
    flatness = np.array([1 / math.tan(math.radians(angle)) for _, angle in angles])
    return np.interp(np.asarray(azimuths) % 360.0, given, flatness, period=360.0)


def cone(angles: Angles, size: BlockSize, levels: int, widened: float = 1.0) -> np.ndarray:
    """Returns the template of the cone of given angles, up to a number of levels."""
    return within(angles, size, np.arange(levels + 1), widened)


def within(angles: Angles, size: BlockSize, ups: np.ndarray, widened: float = 1.0) -> np.ndarray:
    """Returns the cells of a cone at given levels, shape (levels, rows, columns), with the block in the middle."""
    dx, dy, dz = size
    reach = int(ups.max()) * dz * widened * float(cotangents(angles, AZIMUTHS).max())
    wide, broad = int(reach / dx + SUM_ERROR), int(reach / dy + SUM_ERROR)
    east, north = np.meshgrid(np.arange(-wide, wide + 1) * dx, np.arange(-broad, broad + 1) * dy)
    flatness = widened * cotangents(angles, np.degrees(np.arctan2(east, north)))
    distance = np.hypot(east, north)
    return np.stack([distance <= up * dz * flatness * (1 + SUM_ERROR) + SUM_ERROR for up in ups])


def offsets_of(cone: np.ndarray) -> tuple[Offset, ...]:
    """Returns the steps that imply every cell of a cone within a domain, from the lowest level up.

    For a convex cone they are minimal, and imply no cell outside it. (If the required slopes make a cone that is not convex, sums of steps
    leave it, as in the ground.)
    """
    return tuple((int(east), int(north), int(up)) for east, north, up in steps_of(least(cone)))


def wall_angles(offsets: tuple[Offset, ...], size: BlockSize) -> np.ndarray:
    """Returns the angles in degrees, at each whole azimuth, of high slopes by these steps: those of their convex hull."""
    dx, dy, dz = size
    return angles_of({(x * dx / (up * dz), y * dy / (up * dz)) for x, y, up in offsets})


def angles_of(points: set[Point]) -> np.ndarray:
    """Returns the angles in degrees, at each whole azimuth, of slopes whose hull has these points: metres east and north per metre up."""
    sides = sides_of(np.array(sorted(points | {(0.0, 0.0)})))
    towards = np.stack([np.sin(np.radians(AZIMUTHS)), np.cos(np.radians(AZIMUTHS))])
    along = sides[:, :2] @ towards
    with np.errstate(divide="ignore", invalid="ignore"):
        reach = np.where(along > STRICT_SUM_ERROR, -sides[:, 2:] / along, np.inf).min(0)
    return np.degrees(np.arctan2(1.0, np.maximum(reach, 0.0)))


def sides_of(points: np.ndarray) -> np.ndarray:
    """Returns half planes around points of shape (points, 2), the origin among them, as rows a, b, c with a x + b y + c <= 0.

    They are those of the convex hull and six around it, which remain if all points lie on one line and have no hull.
    """
    x, y = points[np.hypot(*points.T).argmax()]
    normals = np.array([(1.0, 0.0), (-1.0, 0.0), (0.0, 1.0), (0.0, -1.0), (-y, x), (y, -x)])
    round_it = np.column_stack([normals, -(normals @ points.T).max(axis=1)])
    try:
        return np.concatenate([round_it, ConvexHull(points).equations])
    except QhullError:
        return round_it


def rim_of(cells: np.ndarray, up: int, size: BlockSize) -> set[Point]:
    """Returns the first and last cell of each row of a level of a cone, in metres east and north per metre up."""
    dx, dy, dz = size
    rows = np.flatnonzero(cells.any(axis=1))
    first, last = cells[rows].argmax(axis=1), cells.shape[1] - 1 - cells[rows, ::-1].argmax(axis=1)
    north = (rows - cells.shape[0] // 2) * dy / (up * dz)
    east = (np.stack([first, last]) - cells.shape[1] // 2) * dx / (up * dz)
    return {*zip(east[0].tolist(), north.tolist()), *zip(east[1].tolist(), north.tolist())}


def angles_of_cone(cone: np.ndarray, size: BlockSize) -> np.ndarray:
    """Returns the angles in degrees, at each whole azimuth, of high slopes by the steps of a cone."""
    return angles_of(set().union(*(rim_of(cone[up], up, size) for up in range(1, len(cone)))))


def from_grid_north(domain: SlopeDomain, azimuth: float) -> SlopeDomain:
    """Returns a domain whose azimuths are bearings to the wall from the north of the grid, which has an azimuth."""
    domain = replace(domain.with_angles(domain.bearings), azimuth_of=WALL)
    if not azimuth or len(domain.angles) < 2:
        return domain
    turned = ((round((of_domain - azimuth) % 360, 9) % 360, angle) for of_domain, angle in domain.angles)
    return domain.with_angles(tuple(sorted(turned)))


def pattern_of(asked_domain: SlopeDomain, size: BlockSize, slopes: Slopes, azimuth: float = 0.0) -> Pattern:
    """Returns the precedences of one entry of `[[slopes.domains]]` with their slope errors, on a grid whose north has an azimuth, degrees clockwise.
    `size` is the block size east, north and up, metres. Raises PlanError if `never_steeper` cannot be met."""
    domain = from_grid_north(asked_domain, azimuth)
    where = "other domains" if domain.domains is None else f"domain {', '.join(domain.domains)}"
    if domain.pattern:
        offsets = PATTERN_OFFSETS[domain.pattern]
        angles = wall_angles(offsets, size)
        return Pattern(f"{where}, {domain.pattern}", of_steps(offsets), offsets, angles, np.zeros(0))
    if domain.offsets:
        cells = of_steps(domain.offsets)
        return Pattern(
            f"{where}, {len(domain.offsets)} offsets of the project",
            cells,
            offsets_of(cells),
            angles_of_cone(cells, size),
            np.zeros(0),
        )
    of_dip = " (dip directions)" if asked_domain.azimuth_of == DIP else ""
    asked = np.degrees(np.arctan2(1.0, cotangents(domain.angles, AZIMUTHS)))
    wanted = levels_of(domain, size, asked) if slopes.precedence_benches is None else slopes.precedence_benches
    levels = wanted if slopes.precedence_benches is not None else within_most_chosen(domain, size, wanted)
    widened = widening(domain, size, levels, asked) if slopes.never_steeper else 1.0
    cells = cone(domain.angles, size, levels, widened)
    angles = angles_of_cone(cells, size)
    said = (
        ", ".join(f"{angle:g} at {of_domain:g}" for of_domain, angle in asked_domain.angles) + of_dip
        if len(domain.angles) > 1
        else f"{domain.angles[0][1]:g}"
    )
    if domain.bench:
        where += f", benches of {domain.bench.height:g} m, face angle {domain.bench.face_angle:g} degrees, berms of {domain.bench.berm_width:g} m"
    reach = Reach(wanted, len(offsets_of(cone(domain.angles, size, wanted)))) if levels < wanted else None
    return Pattern(
        f"{where}, {said} degrees", cells, offsets_of(cells), angles, angles - asked, widened, azimuth, reach
    )


def levels_of(domain: SlopeDomain, size: BlockSize, asked: np.ndarray) -> int:
    """Returns the least number of benches, up to MOST_LEVELS, with which no slope error exceeds STEEPER degrees."""
    points: set[Point] = set()
    for levels in range(1, MOST_LEVELS + 1):
        points |= rim_of(within(domain.angles, size, np.array([levels]))[0], levels, size)
        if (angles_of(points) - asked).max() <= STEEPER:
            return levels
    return MOST_LEVELS


def within_most_chosen(domain: SlopeDomain, size: BlockSize, levels: int) -> int:
    """Returns the greatest number of benches, up to `levels`, over which a block has at most MOST_CHOSEN precedences; at least 1.

    Those to a bench do not depend on the benches above it, so they are counted from the lowest bench up.
    """
    ups = [up for _, _, up in offsets_of(cone(domain.angles, size, levels))]
    return levels if len(ups) <= MOST_CHOSEN else max(1, ups[MOST_CHOSEN] - 1)


def widening(domain: SlopeDomain, size: BlockSize, levels: int, asked: np.ndarray) -> float:
    """Returns the least factor, to a thousandth, by which the cone is widened so that no slope is steeper than required.

    One factor for all azimuths is simple to state and to check, but makes slopes flatter than necessary at some of them.
    """

    def steepest(by: float) -> float:
        return float((angles_of_cone(cone(domain.angles, size, levels, by), size) - asked).max())

    low, high = 1.0, 1.0
    while steepest(high) > SLOPE_ERROR:
        low, high = high, high * 1.1
        if high > 50:
            raise PlanError(
                f"[slopes] never_steeper: with {levels} benches of these blocks no slope is flat enough: increase precedence_benches"
            )
    while high - low > 0.001:
        middle = (low + high) / 2
        low, high = (middle, high) if steepest(middle) > SLOPE_ERROR else (low, middle)
    return high

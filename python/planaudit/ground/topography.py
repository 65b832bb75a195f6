"""Verifies blocks that a topography cuts: some columns exactly, by clipping each triangle to the column and at each level's floor, and many by
heights at places in them."""

from __future__ import annotations

from collections.abc import Callable, Iterator
from dataclasses import dataclass
from typing import Optional

import numpy as np
import pandas as pd

from planaudit.ground.triangles import highest, near
from planaudit.inputs import surveys as survey
from planaudit.inputs.answer import Answer
from planaudit.inputs.matching import UNCUT
from planaudit.inputs.project import Section
from planaudit.inputs.rotated_grid import steps_of
from planaudit.rules import TOLD, Rule, rule

# A gram, the last place of tonnes; and the rounding error of sums as a share of a block, for coordinates of seven digits.
GRAM, HAIR = 0.51e-6, 1e-8
# Numbers of sampled columns, of heights each way in a column, and of columns that are computed exactly.
MANY, ACROSS, EXACTLY = 2_000, 6, 200
# The error of such heights as a share of a block; a wall along the sides of blocks gives at most a twelfth.
MISSED = 0.1

Corner = tuple[float, float, float]


@dataclass(frozen=True)
class Ground:
    """Triangles of a topography, shape (triangles, 3, 3), in columns east and rows north of the centre of the first column, and in levels above the
    floor of the model; and the shape of the grid."""

    corners: np.ndarray
    shape: tuple[int, int, int]

    @staticmethod
    def of(answer: Answer, file: Section, cells: Optional[np.ndarray] = None) -> Ground:
        """Reads a file; of a raster only the part around the grid, or around some cells, shape (cells, 2) with column and row."""
        grid = answer.record["grid"]
        points, faces = survey.heights(file, grid, cells)
        if not len(faces):
            # Here, since it takes a tenth of a second and few projects have a topography.
            from scipy.spatial import Delaunay

            faces = Delaunay(points[:, :2] - points[:, :2].mean(axis=0)).simplices
        steps = steps_of(points, grid) + [0, 0, answer.shape[0] - 0.5]
        return Ground(steps[faces], answer.shape)

    def quickly(self, places: np.ndarray) -> np.ndarray:
        """Returns the share of each level, from the floor, that lies below, for columns given by row and column, by heights at places in them; nan if
        the triangles do not cover all of these."""
        within = (np.arange(ACROSS) + 0.5) / ACROSS - 0.5
        spots = np.stack(np.meshgrid(within, within), axis=-1).reshape(-1, 2)
        found = highest((places[:, None, ::-1] + spots).reshape(-1, 2), self.corners).reshape(len(places), -1)
        heights = np.where(np.isfinite(found).all(axis=1)[:, None], found, np.nan)
        levels = np.arange(self.shape[0])
        return np.asarray(np.clip(heights[:, None] - levels[:, None], 0, 1).mean(axis=2))

    def exactly(self, places: np.ndarray) -> np.ndarray:
        """Returns the same exactly; 1 if no triangle lies over a column."""
        found = np.ones((len(places), self.shape[0]))
        for number, pieces in self.pieces(places):
            covered = sum(area(piece) for piece in pieces)
            if covered > HAIR:
                above = [sum(volume_above(piece, level) for piece in pieces) for level in range(self.shape[0] + 1)]
                found[number] = -np.diff(above) / covered
        return found

    def pieces(self, places: np.ndarray) -> Iterator[tuple[int, list[list[Corner]]]]:
        """Yields the parts of triangles over each column."""
        # The corners of a column are sqrt(0.5) from its centre.
        found = [np.stack(pair, axis=1) for pair in near(places[:, ::-1].astype(float), self.corners, 0.71)]
        near_by = pd.DataFrame(np.concatenate([np.zeros((0, 2), dtype=int), *found]), columns=["place", "face"])
        for number, faces in near_by.groupby("place")["face"]:
            row, column = places[number].tolist()
            moved = (self.corners[faces.to_numpy()] - [column, row, 0]).tolist()
            cut = [over_column([(x, y, z) for x, y, z in corners]) for corners in moved]
            yield number, [piece for piece in cut if len(piece) > 2]


def part(polygon: list[Corner], of: Callable[[Corner], float]) -> list[Corner]:
    """Returns the part of a convex polygon where a linear function, given at its corners, is at least 0."""
    found = []
    for one, other in zip(polygon, polygon[1:] + polygon[:1]):
        here, there = of(one), of(other)
        if here >= 0:
            found.append(one)
        if here * there < 0:
            way = here / (here - there)
            x, y, z = (a + way * (b - a) for a, b in zip(one, other))
            found.append((x, y, z))
    return found


def over_column(polygon: list[Corner]) -> list[Corner]:
    """Returns the part of a triangle over the unit square around the centre."""
    for axis in (0, 1):
        polygon = part(part(polygon, lambda corner: 0.5 - corner[axis]), lambda corner: 0.5 + corner[axis])
    return polygon


def fans(polygon: list[Corner]) -> Iterator[tuple[float, float]]:
    """Yields area in plan and mean height of each triangle of a polygon's fan around its first corner."""
    for (ax, ay, az), (bx, by, bz) in zip(polygon[1:], polygon[2:]):
        x, y, z = polygon[0]
        yield abs((ax - x) * (by - y) - (ay - y) * (bx - x)) / 2, (az + bz + z) / 3


def area(polygon: list[Corner]) -> float:
    return sum(size for size, _ in fans(polygon))


def volume_above(polygon: list[Corner], level: float) -> float:
    """Returns the volume between an elevation and the part of a polygon above it."""
    return sum(size * (height - level) for size, height in fans(part(polygon, lambda corner: corner[2] - level)))


def verify(answer: Answer) -> Rule:
    """Verifies that blocks of sampled columns have the tonnes below the topography."""
    ground = Ground.of(answer, answer.project.table["topography"])
    level, row, column = answer.cells
    places, place = np.unique(np.stack([row, column], axis=1), axis=0, return_inverse=True)
    up, before, after = answer.shape[0] - 1 - level, answer.rows[UNCUT].to_numpy(), answer.tonnes
    differences = told(answer, (after < 0) | (after > before + GRAM), before)
    looked, exact = some(len(places), MANY), some(len(places), EXACTLY)
    for numbers, share, missed in (
        (looked, ground.quickly(places[looked]), MISSED),
        (exact, ground.exactly(places[exact]), HAIR),
    ):
        at = np.full(len(places), -1)
        at[numbers] = np.arange(len(numbers))
        expected = np.where(at[place] >= 0, share[at[place], up], np.nan) * before
        differences += told(answer, np.abs(after - expected) > GRAM + missed * before, expected)
    where = f"in {len(exact):,} columns of blocks exactly, in {len(looked):,} by {ACROSS**2} heights to a tenth"
    return rule("topography", f"tonnes lie below the triangles of the topography, {where}", differences)


def told(answer: Answer, wrong: np.ndarray, expected: np.ndarray) -> list[str]:
    off = np.flatnonzero(wrong)
    return [f"{answer.called(row)}: {answer.tonnes[row]:.12g} t for {expected[row]:.12g}" for row in off[:TOLD]]


def some(count: int, most: int) -> np.ndarray:
    """Returns at most `most` numbers below a count, evenly spaced."""
    return np.unique(np.linspace(0, count - 1, min(count, most)).round().astype(np.int64))


def air(answer: Answer, rows: np.ndarray, columns: np.ndarray, levels: np.ndarray) -> np.ndarray:
    """Returns whether cells, which may lie outside the grid, are wholly above the topography."""
    file = answer.project.table["topography"]
    if file is None or not len(rows):
        return np.zeros(len(rows), dtype=bool)
    places, place = np.unique(np.stack([rows, columns], axis=1), axis=0, return_inverse=True)
    tops = np.full(len(places), np.inf)
    for number, pieces in Ground.of(answer, file, places[:, ::-1]).pieces(places):
        if pieces:
            tops[number] = max(z for piece in pieces for _, _, z in piece)
    return np.asarray(tops[place] <= answer.shape[0] - 1 - levels + HAIR)

"""The as-mined surface by the centres of columns of blocks: the height of its triangles, or the mean of the points over a column, otherwise that
of a triangle of the points around it.

These triangles are Delaunay: the circle through three points holds no other point. If more than three lie on one circle, as those of a regular
grid, several triangles are possible, and the highest is taken.
"""

from __future__ import annotations

from itertools import combinations

import numpy as np
import pandas as pd

from planaudit.ground.triangles import cross, highest as highest_of
from planaudit.inputs.answer import Answer
from planaudit.inputs.project import Section
from planaudit.inputs.rotated_grid import places_of, steps_of
from planaudit.inputs.surveys import heights

# Metres; this close to the hull of all points either side is accepted.
HAIR = 1e-6
# With more points on a circle any height is accepted.
MOST_ON_A_CIRCLE = 12


def above(answer: Answer, file: Section) -> np.ndarray:
    """Returns whether the centroid of each block is above the surface, shape (rows,); False outside all points."""
    points, faces = heights(file, answer.record["grid"])
    height = means(answer, pd.DataFrame(points[: 0 if len(faces) else None], columns=["x", "y", "z"]))
    level, row, column = answer.cells
    empty = np.isnan(height[row, column])
    places = np.unique(np.stack([row[empty], column[empty]], axis=1), axis=0)
    if len(faces):
        centres = places_of(places[:, ::-1], answer.record["grid"])
        height[places[:, 0], places[:, 1]] = highest_of(centres, points[faces])
    elif len(places):
        height[places[:, 0], places[:, 1]] = between(answer, points, places)
    return answer.elevations[level] > np.nan_to_num(height[row, column], nan=np.inf) + HAIR


def means(answer: Answer, points: pd.DataFrame) -> np.ndarray:
    """Returns the mean height of the points over each column of blocks in metres, shape (rows, columns); nan without points."""
    _, rows, columns = answer.shape
    column, row = np.floor(steps_of(points[["x", "y"]].to_numpy(), answer.record["grid"]) + 0.5).astype(int).T
    mean = points["z"].groupby([pd.Series(row, name="row"), pd.Series(column, name="column")]).mean()
    every = pd.MultiIndex.from_product([range(rows), range(columns)])
    return mean.reindex(every).to_numpy().reshape(rows, columns)


def between(answer: Answer, points: np.ndarray, places: np.ndarray) -> np.ndarray:
    """Returns the height in metres at the centres of columns of blocks without points; infinite outside all points.

    points  x, y, z in metres, shape (points, 3)
    places  row and column of each column of blocks, shape (places, 2)
    """
    # Here, since these take a third of a second and few projects have an as-mined surface.
    from matplotlib.tri import Triangulation
    from scipy.spatial import ConvexHull, cKDTree

    middle = points[:, :2].mean(axis=0)
    flat, centres = points[:, :2] - middle, places_of(places[:, ::-1], answer.record["grid"]) - middle
    found = np.full(len(centres), np.inf)
    corners = np.unique(flat, axis=0)
    try:
        outline, mesh = ConvexHull(corners).equations, Triangulation(*corners.T)
    except (RuntimeError, ValueError):
        # Points on one line have no triangle.
        return found
    inside = np.flatnonzero((centres @ outline[:, :2].T + outline[:, 2] < -HAIR).all(axis=1))
    if not len(inside):
        return found
    faces, face = np.unique(mesh.get_trifinder()(*centres[inside].T), return_inverse=True)
    inside, face = inside[faces[face] >= 0], face[faces[face] >= 0]
    middles, radii = circles(corners[mesh.triangles[faces]])
    on = cKDTree(flat).query_ball_point(middles, radii * (1 + 1e-9) + HAIR)
    counts = np.array([len(points_on) for points_on in on], dtype=int)
    for count in np.unique(counts[face]):
        some = np.flatnonzero(counts[face] == count)
        those = np.array([on[number] for number in face[some]])
        found[inside[some]] = highest(centres[inside[some]], flat[those], points[those, 2])
    return found


def circles(triangles: np.ndarray) -> tuple[np.ndarray, np.ndarray]:
    """Returns centres and radii of the circumcircles of triangles, shape (triangles, 3, 2)."""
    first, (b, c) = triangles[:, 0], (triangles[:, k] - triangles[:, 0] for k in (1, 2))
    twice = 2 * cross(b, c)
    b_square, c_square = (b**2).sum(axis=1), (c**2).sum(axis=1)
    x = (c[:, 1] * b_square - b[:, 1] * c_square) / twice
    y = (b[:, 0] * c_square - c[:, 0] * b_square) / twice
    return first + np.stack([x, y], axis=1), np.hypot(x, y)


def highest(centres: np.ndarray, corners: np.ndarray, heights: np.ndarray) -> np.ndarray:
    """Returns the largest height at each place over all triangles of its corners that hold it; infinite without one.

    centres  shape (places, 2)
    corners  the points on the circle of each, shape (places, points, 2); `heights` are theirs
    """
    best = np.full(len(centres), -np.inf)
    if heights.shape[1] > MOST_ON_A_CIRCLE:
        return -best
    for three in (np.array(it) for it in combinations(range(heights.shape[1]), 3)):
        a, b, c = np.moveaxis(corners[:, three] - centres[:, None], 1, 0)
        parts = np.stack([cross(b, c), cross(c, a), cross(a, b)], axis=1)
        whole = parts.sum(axis=1, keepdims=True)
        shares = np.divide(parts, whole, out=np.full(parts.shape, -1.0), where=np.abs(whole) > HAIR**2)
        height = (shares * heights[:, three]).sum(axis=1)
        best = np.where(shares.min(axis=1) >= -1e-9, np.maximum(best, height), best)
    return np.where(np.isinf(best), np.inf, best)

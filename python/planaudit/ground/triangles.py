"""Heights of triangle meshes, independently of the planner. A tree of centroids per class of size finds the triangles near a place."""

from __future__ import annotations

from collections.abc import Iterator

import numpy as np

# Rounding errors of barycentric coordinates, and of metres.
HAIR = 1e-9


def near(places: np.ndarray, corners: np.ndarray, reach: float) -> Iterator[tuple[np.ndarray, np.ndarray]]:
    """Yields pairs of a place x, y and a triangle that may come within a distance of it in metres, by class of size."""
    # Here, since scipy takes a tenth of a second and few projects need it.
    from scipy.spatial import cKDTree

    flat = corners[..., :2]
    middles = flat.mean(axis=1)
    radii = np.sqrt(((flat - middles[:, None]) ** 2).sum(axis=2)).max(axis=1)
    sizes = np.ceil(np.log2(np.maximum(radii, HAIR)))
    for size in np.unique(sizes):
        some = np.flatnonzero(sizes == size)
        found = cKDTree(middles[some]).query_ball_point(places, radii[some].max() * (1 + HAIR) + reach + HAIR)
        counts = np.array([len(numbers) for numbers in found])
        if counts.sum():
            yield np.repeat(np.arange(len(places)), counts), some[
                np.concatenate([np.array(it, dtype=int) for it in found if it])
            ]


def highest(places: np.ndarray, corners: np.ndarray) -> np.ndarray:
    """Returns the largest height at each place of the triangles that hold it; infinite without one."""
    best = np.full(len(places), -np.inf)
    for place, face in near(places, corners, 0.0):
        a, b, c = (corners[face, k, :2] - places[place] for k in range(3))
        parts = np.stack([cross(b, c), cross(c, a), cross(a, b)], axis=1)
        whole = parts.sum(axis=1, keepdims=True)
        shares = np.divide(parts, whole, out=np.full(parts.shape, -1.0), where=np.abs(whole) > HAIR**2)
        height = (shares * corners[face, :, 2]).sum(axis=1)
        np.maximum.at(best, place, np.where(shares.min(axis=1) >= -HAIR, height, -np.inf))
    return np.where(np.isinf(best), np.inf, best)


def cross(first: np.ndarray, second: np.ndarray) -> np.ndarray:
    """Returns the cross product of rows x, y; negative if the second is clockwise of the first."""
    return np.asarray(first[:, 0] * second[:, 1] - first[:, 1] * second[:, 0])

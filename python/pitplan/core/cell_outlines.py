"""The outlines of a set of cells in a plane: the steps of block edges between what is inside and what is not.

By code of its own, since shapely's polygonize takes 13 times as long for the 50 levels of a pit of a million cells (3.2 s for 0.24), and
parts holes that touch at a corner.
"""

from __future__ import annotations

import numpy as np

Point = tuple[int, int]


def edges(mask: np.ndarray) -> np.ndarray:
    """Returns the edges between inside and outside, with the inside on the left, as corners (column, row); shape (edges, 2, 2).

    `mask` is a truth for each row and column; cell (row 0, column 0) has the corners (0, 0) to (1, 1).
    """
    inside = np.pad(np.asarray(mask, dtype=bool), 1)
    middle = inside[1:-1, 1:-1]
    sides = (
        (inside[:-2, 1:-1], (0, 0), (1, 0)),
        (inside[1:-1, 2:], (1, 0), (1, 1)),
        (inside[2:, 1:-1], (1, 1), (0, 1)),
        (inside[1:-1, :-2], (0, 1), (0, 0)),
    )
    found = []
    for neighbour, begin, end in sides:
        row, column = np.nonzero(middle & ~neighbour)
        corner = np.stack([column, row], axis=1)
        found.append(np.stack([corner + begin, corner + end], axis=1))
    return np.concatenate(found)


def rings(mask: np.ndarray) -> list[list[Point]]:
    """Returns the edges as closed rings of corners; the ring of a hole runs the other way. Corners on a straight line are left out."""
    following: dict[Point, list[Point]] = {}
    for (x, y), (to_x, to_y) in edges(mask).tolist():
        following.setdefault((x, y), []).append((to_x, to_y))
    found = []
    while following:
        ring = one_ring(following)
        found.append(
            [
                p
                for before, p, after in zip([ring[-1], *ring], ring, [*ring[1:], ring[0]])
                if left_turn(before, p, after)
            ]
        )
    return found


def one_ring(following: dict[Point, list[Point]]) -> list[Point]:
    """Takes one ring out of the edges. Where two cells touch at a corner alone, it turns left and stays with its cell."""
    start = point = next(iter(following))
    ring: list[Point] = []
    while True:
        nexts = following[point]
        step = nexts[0] if len(nexts) == 1 or not ring else max(nexts, key=lambda to: left_turn(ring[-1], point, to))
        nexts.remove(step)
        if not nexts:
            del following[point]
        ring.append(point)
        point = step
        if point == start:
            return ring


def left_turn(a: Point, b: Point, c: Point) -> int:
    """Returns a number above 0 if a line turns left at its second point, 0 if it goes straight on."""
    return (b[0] - a[0]) * (c[1] - b[1]) - (b[1] - a[1]) * (c[0] - b[0])

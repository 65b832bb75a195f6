"""Removes the precedences that no positive block uses.

A block is positive if its value at the largest revenue factor is above 0; it includes all that are positive at a lower one. The smallest
optimal pit of each factor consists of positive blocks and their predecessors, direct and indirect. Other blocks keep no precedences, and are
never mined. Scenarios share the precedences that remain without selling cost. These give the same pits, so they are not part of the key of a
result.
"""

from __future__ import annotations

from dataclasses import dataclass
from functools import lru_cache

import numpy as np

from pitplan.blockmodel.grid import Grid

from .domains import SlopeDomains


def used_blocks(grid: Grid, domains: SlopeDomains, paying: np.ndarray) -> np.ndarray:
    """Returns the given blocks and all their predecessors, a boolean mask of shape (cells,)."""
    used = grid.cube(paying).copy()
    # Precedences lead upwards only, so a level is complete after those below it.
    for level in range(grid.shape[0] - 1, 0, -1):
        mark_predecessors(used, level, grid, domains)
    return used.ravel()


def mark_predecessors(used: np.ndarray, level: int, grid: Grid, domains: SlopeDomains) -> None:
    """Marks the predecessors of the marked cells of a level, in a boolean array of shape (levels, rows, columns)."""
    list_of = grid.cube(domains.list_of)[level]
    for number in np.flatnonzero(np.bincount(list_of[used[level]])):
        mine = Box.of(used[level] & (list_of == number))
        # A step without an arc is a precedence too, which others imply.
        for east, north, up in domains.lists[number].steps:
            if up <= level:
                mine.mark(used[level - up], east, north)


def users_of(grid: Grid, domains: SlopeDomains, needed: np.ndarray) -> np.ndarray:
    """Returns the given blocks and all that depend on them, a boolean mask of shape (cells,)."""
    found = grid.cube(needed).copy()
    for level in range(1, grid.shape[0]):
        found[level] |= users_at(found, level, grid, domains)
    return found.ravel()


def users_at(found: np.ndarray, level: int, grid: Grid, domains: SlopeDomains) -> np.ndarray:
    """Returns the cells of a level that depend on a marked cell above it, a boolean mask of shape (rows, columns)."""
    list_of = grid.cube(domains.list_of)[level]
    result, above = np.zeros_like(found[level]), lru_cache(None)(lambda up: Box.of(found[level - up]))
    for number in np.flatnonzero(np.bincount(list_of.ravel())):
        users = np.zeros_like(result)
        for east, north, up in domains.lists[number].steps:
            if up <= level:
                above(up).mark(users, -east, -north)
        result |= users & (list_of == number)
    return result


@dataclass(frozen=True)
class Box:
    """The marked cells of a level, in the rows and columns that have some: most closures are of a few cells, and a model has hundreds of steps.

    Attributes
    ----------
    row, column : int
        The first of each.
    cells : bool array, shape (rows, columns)
    """

    row: int
    column: int
    cells: np.ndarray

    @staticmethod
    def of(level: np.ndarray) -> Box:
        rows, columns = (np.flatnonzero(level.any(axis=axis)) for axis in (1, 0))
        if not len(rows):
            return Box(0, 0, level[:0, :0])
        part = level[rows[0] : rows[-1] + 1, columns[0] : columns[-1] + 1]
        return Box(int(rows[0]), int(columns[0]), part)

    def mark(self, level: np.ndarray, east: int, north: int) -> None:
        """Marks in another level the cells at an offset east and north of these."""
        south, west = self.row + north, self.column + east
        rows = max(0, south), min(level.shape[0], south + self.cells.shape[0])
        columns = max(0, west), min(level.shape[1], west + self.cells.shape[1])
        if rows[0] < rows[1] and columns[0] < columns[1]:
            part = self.cells[rows[0] - south : rows[1] - south, columns[0] - west : columns[1] - west]
            level[rows[0] : rows[1], columns[0] : columns[1]] |= part

"""Groups the rows of a table by the cells in which their centroids lie, and matches them with reblocked results."""

from __future__ import annotations

from dataclasses import dataclass
from fractions import Fraction
from typing import Any, Optional

import numpy as np
import pandas as pd

from planaudit.errors import AuditError
from planaudit.inputs.block_table import columns_of
from planaudit.inputs.project import Project, Section
from planaudit.inputs.rotated_grid import centroids, nearest_cells, places_of, steps_of

# Decimals of grades; and the distance from a half, in their last place, within which a mean is computed exactly.
GRADE_PLACES, NEAR = 9, 1e-3
# Rows whose places are computed at the same time.
PIECE = 1 << 20


def together(parts: pd.DataFrame, project: Project, grid: dict[str, Any]) -> pd.DataFrame:
    """Returns one row per cell with rows, from the floor up, from the south, from the west."""
    columns, fixed = project.table, project.constraints
    cells = Cells.of_rows(parts, (columns["x"], columns["y"], columns["z"]), grid)
    sums = project.schedule["limits"] if project.schedule else ()
    of_a_tonne = {*(metal["column"] for metal in project.metals), *(it["column"] for it in sums if it["per_tonne"])}
    of_a_tonne |= {*project.adjusting, *(it["column"] for it in project.feed_grades if it["code"] is None)}
    of_a_tonne |= {*project.penalised, *project.of_dumps}
    tonnes = parts[columns["tonnes"]].to_numpy()
    whole = cells.sums(tonnes)
    found = {columns["tonnes"]: whole}
    for name in of_a_tonne:
        content = cells.sums(parts[name].to_numpy() * tonnes)
        found[name] = np.divide(content, whole, out=np.zeros(len(whole)), where=whole != 0)
    for name in {it["column"] for it in sums if not it["per_tonne"]}:
        found[name] = cells.sums(parts[name].to_numpy())
    for code in [columns[key] for key in ("rock_type", "domain", "class") if columns[key]]:
        found[code] = of_most(parts[code], tonnes, cells)
    for mark in [fixed[key] for key in ("must_mine", "exclude") if fixed[key]] if fixed else []:
        found[mark] = parts[mark].groupby(cells.of_row).max().to_numpy()
    east, north, up = cells.places
    found[columns["x"]], found[columns["y"]] = places_of(np.stack([east, north], axis=1), grid).T
    found[columns["z"]] = grid["origin"][2] + grid["size"][2] * up
    if columns["id"]:
        # From the west, the south and the floor of the whole table, whose blocks may be removed.
        from_one = [(axis - axis.min() + 1).tolist() for axis in cells.places]
        found[columns["id"]] = np.array([f"{east}-{north}-{up}" for east, north, up in zip(*from_one)], dtype=object)
    return pd.DataFrame(found, copy=False)


@dataclass(frozen=True)
class Cells:
    """The cells of rows.

    Attributes
    ----------
    of_row : int array, shape (rows,)
        The number of the cell of each row.
    places : int array, shape (3, cells)
        Blocks east, north and up from the first centroid, ordered by up, north and east.
    """

    of_row: np.ndarray
    places: np.ndarray

    @staticmethod
    def of_rows(frame: pd.DataFrame, axes: tuple[str, str, str], grid: dict[str, Any]) -> Cells:
        """Returns the cells in which the centroids of rows lie."""
        steps = np.empty((3, len(frame)), dtype=np.int64)
        for start in range(0, len(frame), PIECE):
            rows = slice(start, start + PIECE)
            centres = np.stack([frame[name].to_numpy()[rows] for name in axes], axis=1)
            steps[:, rows] = np.floor(steps_of(centres, grid) + 0.5).T
        least = steps.min(axis=1)
        wide, deep, _ = (int(it) for it in steps.max(axis=1) - least + 1)
        steps[2] -= least[2]
        for axis, length in ((1, deep), (0, wide)):
            steps[2] *= length
            steps[2] += steps[axis] - least[axis]
        key = steps[2]
        of_row, used = pd.factorize(key, sort=True)
        rest, east = np.divmod(used, wide)
        up, north = np.divmod(rest, deep)
        return Cells(of_row, np.stack([east, north, up]) + least[:, None])

    def sums(self, amounts: np.ndarray) -> np.ndarray:
        """Returns the sum of the rows of each cell."""
        return np.bincount(self.of_row, amounts, minlength=self.places.shape[1])


def of_most(codes: pd.Series, tonnes: np.ndarray, cells: Cells) -> np.ndarray:
    """Returns the code with most tonnes of each cell, of equal ones the first by name; without tonnes that of most rows."""
    place, names = pd.factorize(codes)
    order = np.argsort(names.to_numpy(), kind="stable")
    rank = np.empty(len(order), dtype=np.int64)
    rank[order] = np.arange(len(order))
    # Cells with their codes, in the order of both.
    of_row, pairs = pd.factorize(cells.of_row * len(order) + rank[place], sort=True)
    cell, code = np.divmod(pairs, len(order))
    sums = np.bincount(of_row, tonnes)
    weighs = (np.bincount(cell, sums) > 0)[cell]
    most = np.where(weighs, sums, np.bincount(of_row)).round(6)
    starts = np.flatnonzero(np.diff(cell, prepend=-1))
    greatest = np.flatnonzero(most == np.maximum.reduceat(most, starts)[cell])
    first = greatest[np.diff(cell[greatest], prepend=-1) > 0]
    found: np.ndarray = names.to_numpy()[order][code[first]]
    return found


def mean_grades(
    parts: pd.DataFrame, blocks: pd.DataFrame, grades: np.ndarray, columns: Section, grid: dict[str, Any]
) -> np.ndarray:
    """Returns the grades of blocks: means of their rows by tonnes, to nine decimals, shape (blocks, metals).

    They are computed by floats, and exactly near a half. `grades` has shape (parts, metals).
    """
    row_of = np.full(int(np.prod(grid["shape"])), -1)
    row_of[cells_of(blocks, columns, grid)] = np.arange(len(blocks))
    block, tonnes = row_of[cells_of(parts, columns, grid)], parts[columns["tonnes"]].to_numpy()
    order = np.argsort(block, kind="stable")
    starts = np.searchsorted(block[order], np.arange(len(blocks) + 1))
    whole, found = np.bincount(block, tonnes, minlength=len(blocks)), np.zeros((len(blocks), grades.shape[1]))
    for number, column in enumerate(grades.T):
        content = np.bincount(block, column * tonnes, minlength=len(blocks))
        units = 10**GRADE_PLACES * np.divide(content, whole, out=np.zeros(len(blocks)), where=whole > 0)
        found[:, number] = np.rint(units)
        close = np.abs(units - np.floor(units) - 0.5) < NEAR + 4e-16 * np.diff(starts) * units
        for row in np.flatnonzero(close).tolist():
            of_row = order[starts[row] : starts[row + 1]]
            found[row, number] = round(10**GRADE_PLACES * mean_of(column[of_row], tonnes[of_row]))
    return found / 10**GRADE_PLACES


def cells_of(frame: pd.DataFrame, columns: Section, grid: dict[str, Any]) -> np.ndarray:
    """Returns the cells in which the centroids of rows lie."""
    steps = steps_of(frame[[columns["x"], columns["y"], columns["z"]]].to_numpy(), grid)
    east, north, up = np.floor(steps + 0.5).astype(np.int64).T
    return np.ravel_multi_index((-up, north, east), grid["shape"])


def mean_of(grades: np.ndarray, tonnes: np.ndarray) -> Fraction:
    """Returns the exact mean of decimals by tonnes."""
    weights = [Fraction(repr(float(weight))) for weight in tonnes]
    contents = (Fraction(repr(float(grade))) * weight for grade, weight in zip(grades, weights))
    return sum(contents, Fraction(0)) / sum(weights, Fraction(0))


def written_rows(
    expected: pd.DataFrame, written: pd.DataFrame, project: Project, grid: dict[str, Any], source: str = "blocks.csv"
) -> pd.DataFrame:
    """Returns the rows of results for cells with rows of the table, in the order of `together`. Raises AuditError if one is missing from the file
    `source`."""
    axes = (project.table["x"], project.table["y"], project.table["z"])
    row_of = np.full(int(np.prod(grid["shape"])), -1, dtype=np.int64)
    row_of[nearest_cells(centroids(written, axes), grid)] = np.arange(len(written))
    at = row_of[nearest_cells(centroids(expected, axes), grid)]
    if (at < 0).any():
        raise AuditError(
            f"{source}: {np.count_nonzero(at < 0):,} blocks of the table's rows are not in it: has the table changed since?"
        )
    return columns_of(written, expected.columns, at)


def divided(frame: pd.DataFrame, project: Project, grid: dict[str, Any]) -> tuple[pd.DataFrame, Optional[pd.DataFrame]]:
    """Returns the rows in a grid, and those outside it, if there are any.

    Raises AuditError if the number of these is not that of the removed blocks.
    """
    columns = project.table
    east, north, up = np.rint(steps_of(centroids(frame, (columns["x"], columns["y"], columns["z"])), grid)).T
    levels, rows, width = grid["shape"]
    inside = (east >= 0) & (east < width) & (north >= 0) & (north < rows) & (up <= 0) & (up > -levels)
    beyond = np.count_nonzero(~inside)
    if beyond != grid.get("rows_left_out", 0):
        raise AuditError(f"blocks.csv: {beyond:,} blocks of the table are not in it: has the table changed since?")
    if not beyond:
        return frame, None
    return frame[inside].reset_index(drop=True), frame[~inside].reset_index(drop=True)

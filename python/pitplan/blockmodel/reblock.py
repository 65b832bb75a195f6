"""Reblocks a table: whole blocks are combined, or sub-blocks of several sizes are combined into their parent blocks.

Tonnes are summed, grades and cost adjustment factors are tonnage-weighted means, and rock type, domain
and resource class are those of the most tonnes. A block is must-mine or excluded if
a part of it is. Columns that a schedule limits are weighted means if they are per tonne, otherwise sums. A note gives the tonnes with
another rock type or domain than their block.
"""

from __future__ import annotations

from collections.abc import Sequence
from dataclasses import dataclass, replace
from functools import cached_property
from typing import Optional

import numpy as np
import pandas as pd

from pitplan.blockmodel.cell_volumes import GRADE_PLACES, TONNES_PLACES, volume_notes
from pitplan.config.project import Project
from pitplan.config.schedule import ScheduleRules
from pitplan.config.table import BlockSize, GridRules, Reblock
from pitplan.core.decimals import MOST_WHOLE, Exact, greatest, nearest, product
from pitplan.core.numeric_fields import demand_none
from pitplan.errors import PlanError

from . import grid as grids
from .grid import Frame, metres
from .reader import Table

# Cells that are numbered by an array of all of them, for each row.
MOST_SPREAD = 8


@dataclass(frozen=True)
class Lattice:
    """The places of rows among the new blocks.

    Attributes
    ----------
    first : tuple of float
        Centre of the block at the west, the south and the floor, in metres along the frame's axes.
    size : tuple of float
        Block size in metres.
    places : int array, shape (rows, 3)
        Column, row and level of the block of each row.
    frame : Frame
        The axes.
    """

    first: tuple[float, float, float]
    size: BlockSize
    places: tuple[np.ndarray, np.ndarray, np.ndarray]
    frame: Frame

    def centres(self, places: np.ndarray) -> list[np.ndarray]:
        """Returns x, y, z of blocks by column, row and level, shape (blocks, 3)."""
        east, north, up = (self.first[k] + places[:, k] * self.size[k] for k in range(3))
        return [*self.frame.back(east, north), up]


@dataclass(frozen=True)
class Reblocked:
    """A table with one row per block.

    Attributes
    ----------
    table : Table
        The rows of the blocks, by level, row and column.
    project : Project
        The project with size and azimuth of the blocks as its [grid].
    parts : Parts, optional
        The rows that make up each block; None if each row is a block.
    """

    table: Table
    project: Project
    parts: Optional[Parts] = None


def of_table(table: Table, project: Project) -> Reblocked:
    """Returns the blocks of a table, or its own rows if the project does not reblock. Raises PlanError if a row lies between two blocks, or two
    rows have one centroid.
    """
    rules = project.table.reblock
    if rules is None:
        return Reblocked(table, of_cell_size(table, project))
    if rules.of_parents and table.cells:
        rules = table.cells.parents
        project = replace(project, grid=replace(project.grid, azimuth=table.cells.azimuth))
    lattice = of_counts(table, project, rules.counts) if rules.counts else of_corner(table, project, rules)
    places, parts = parts_of(table.frame[project.table.tonnes].to_numpy(), lattice)
    frame, mixed = put_together(table.frame, lattice.centres(places), places, parts, project=project)
    x, y, z = (metres(side) for side in lattice.size)
    notes = [f"{len(table.frame):,} rows were reblocked into {len(frame):,} blocks of {x} x {y} x {z} m", *mixed]
    if table.cells:
        notes += volume_notes(table.cells.volumes, parts.block, lattice.size[0] * lattice.size[1] * lattice.size[2])
    project = replace(project, grid=GridRules(lattice.size, project.grid.tolerance, lattice.frame.azimuth))
    blocks = replace(table, frame=frame, source=f"reblocked {table.source}", notes=(*table.notes, *notes))
    return Reblocked(blocks, project, parts)


def of_cell_size(table: Table, project: Project) -> Project:
    """Returns the project with the size of the table's cells as that of its blocks. Raises PlanError if it names another size."""
    if table.cells is None:
        return project
    given, (x, y, z) = project.grid.size, table.cells.size
    if given is not None and given != table.cells.size:
        cells = f"{x:.10g} x {y:.10g} x {z:.10g} m"
        raise PlanError(
            f"{project.path}: [grid] size: found {list(given)}, and the cells of {table.source} have {cells}: remove it"
        )
    return replace(project, grid=replace(project.grid, size=table.cells.size))


def of_counts(table: Table, project: Project, counts: tuple[int, int, int]) -> Lattice:
    """Combines a number of whole blocks in each direction, from the west, the south and the floor."""
    grid = grids.of_table(table.frame, project, table.source, any_size=True)
    column, row, level = grid.indices(grid.rows)
    places = [place // count for place, count in zip((column, row, grid.shape[0] - 1 - level), counts)]
    west, _, south, _, floor, _ = grid.extent()
    return lattice_of(
        (west, south, floor), [side * count for side, count in zip(grid.size, counts)], places, grid.frame
    )


def of_corner(table: Table, project: Project, rules: Reblock) -> Lattice:
    """Combines the rows whose centroids lie in blocks of a size from a corner."""
    axes, places = [project.table.x, project.table.y, project.table.z], []
    twice = table.frame.duplicated(axes).to_numpy()
    demand_none(twice, table.source, ", ".join(axes), "another row has the same centroid")
    x, y, z = (table.frame[name].to_numpy() for name in axes)
    frame = Frame(rules.corner[0], rules.corner[1], project.grid.azimuth or 0.0)
    # A turned grid counts from the corner.
    edge = [0.0, 0.0, rules.corner[2]] if frame.azimuth else list(rules.corner)
    for k, (name, along) in enumerate(zip(axes, (*frame.along(x, y), z))):
        steps = (along - edge[k]) / rules.size[k]
        between = np.abs(steps - np.rint(steps)) * rules.size[k] <= project.grid.tolerance
        size, corner = (metres(it[k]) for it in (rules.size, rules.corner))
        why = f"lies on the boundary of two blocks of {size} m from {corner}: check the corner"
        demand_none(between, table.source, name, why)
        place = np.floor(steps).astype(np.int64)
        edge[k] += float(place.min()) * rules.size[k]
        places.append(place - place.min())
    return lattice_of(edge, rules.size, places, frame)


def lattice_of(edge: Sequence[float], size: Sequence[float], places: Sequence[np.ndarray], frame: Frame) -> Lattice:
    """Returns the lattice from its edge at the west, the south and the floor."""
    (x, y, z), (east, north, up), (column, row, level) = edge, size, places
    return Lattice((x + east / 2, y + north / 2, z + up / 2), (east, north, up), (column, row, level), frame)


def parts_of(tonnes: np.ndarray, lattice: Lattice) -> tuple[np.ndarray, Parts]:
    """Returns column, row and level of each block with rows, shape (blocks, 3), and the rows as parts of the blocks."""
    column, row, level = lattice.places
    shape = [int(place.max()) + 1 for place in lattice.places]
    used, block = numbered_cells((level * shape[1] + row) * shape[0] + column, shape[0] * shape[1] * shape[2])
    places = np.stack([used % shape[0], used // shape[0] % shape[1], used // (shape[0] * shape[1])], axis=1)
    return places, Parts(block, len(used), tonnes)


def numbered_cells(cells: np.ndarray, count: int) -> tuple[np.ndarray, np.ndarray]:
    """Returns the cells that rows lie in, in order, and the number of each row's cell among them; `count` cells are possible."""
    if count > MOST_SPREAD * len(cells):
        used, number = np.unique(cells, return_inverse=True)
        return used, number
    # Without sorting the rows.
    is_used = np.zeros(count, dtype=bool)
    is_used[cells] = True
    used = np.flatnonzero(is_used)
    number_of = np.zeros(count, dtype=np.int64)
    number_of[used] = np.arange(len(used))
    return used, number_of[cells]


def numbered_codes(codes: np.ndarray) -> tuple[np.ndarray, np.ndarray]:
    """Returns the distinct codes in order, and the number of each row's code among them, without sorting the rows."""
    place, found = pd.factorize(codes)
    order = np.argsort(found, kind="stable")
    number_of = np.empty(len(order), dtype=np.int64)
    number_of[order] = np.arange(len(order))
    return found[order], number_of[place]


def put_together(
    frame: pd.DataFrame, centres: list[np.ndarray], places: np.ndarray, parts: Parts, *, project: Project
) -> tuple[pd.DataFrame, list[str]]:
    """Returns a row per block, and notes on mixed rock types and domains."""
    columns, fixed = project.table, project.constraints
    result, mixed = pd.DataFrame(index=pd.RangeIndex(parts.count)), []
    if columns.id:
        result[columns.id] = [f"{east + 1}-{north + 1}-{up + 1}" for east, north, up in places.tolist()]
    for name, centre in zip((columns.x, columns.y, columns.z), centres):
        result[name] = centre
    result = result.assign(
        **{columns.tonnes: parts.sums(parts.tonnes, TONNES_PLACES)}, **amounts(frame, parts, project)
    )
    for code in filter(None, (columns.rock_type, columns.domain, columns.resource_class)):
        result[code], other = parts.most(frame[code].to_numpy())
        mixed.append(f"{other:,.0f} of {parts.tonnes.sum():,.0f} t differ in {code} from their block")
    for mark in filter(None, dict.fromkeys((fixed.must_mine, fixed.exclude) if fixed else ())):
        result[mark] = parts.greatest(frame[mark].to_numpy())
    return result, mixed


def amounts(frame: pd.DataFrame, parts: Parts, project: Project) -> dict[str, np.ndarray]:
    """Returns for each block the means of columns per tonne, and the sums of other columns that a schedule limits."""
    rules = project.schedule or ScheduleRules()
    means = {
        *(metal.column for metal in project.metals),
        *project.economics.factor_columns,
        *rules.columns_of(per_tonne=True),
        *project.graded_columns,
        *project.penalty_columns,
        *project.dump_columns,
    }
    whole = rules.columns_of(per_tonne=False)
    found = {name: parts.means if name in means else parts.sums for name in frame.columns if name in (*means, *whole)}
    return {name: of_parts(frame[name].to_numpy(), GRADE_PLACES) for name, of_parts in found.items()}


@dataclass(frozen=True)
class Parts:
    """Rows as parts of blocks: the block of each row, the number of blocks, and the tonnes of each row."""

    block: np.ndarray
    count: int
    tonnes: np.ndarray

    @cached_property
    def whole(self) -> np.ndarray:
        """Tonnes of each block."""
        return np.bincount(self.block, self.tonnes, minlength=self.count)

    @cached_property
    def order(self) -> np.ndarray:
        """The rows, block by block."""
        return np.argsort(self.block, kind="stable")

    @cached_property
    def starts(self) -> np.ndarray:
        """The place of the first row of each block in `order`. Every block has a row."""
        return np.append(0, np.cumsum(np.bincount(self.block, minlength=self.count))[:-1])

    def total(self, values: Exact) -> Exact:
        """Returns the exact sum over the rows of each block."""
        rows = values.whole[self.order]
        rows = rows if greatest(rows) * len(rows) <= MOST_WHOLE else rows.astype(object)
        return Exact(np.add.reduceat(rows, self.starts), values.places)

    def sums(self, values: np.ndarray, places: int) -> np.ndarray:
        """Returns the sum of each block, rounded once to `places` decimals."""
        return Exact(self.total(Exact.of_floats(values)).rounded(places)[0], places).floats()

    def means(self, values: np.ndarray, places: int) -> np.ndarray:
        """Returns the tonnage-weighted mean of each block, rounded once to `places` decimals; 0 for a block without tonnes."""
        tonnes, values_of = Exact.of_floats(self.tonnes), Exact.of_floats(values)
        content, whole = self.total(tonnes.times(values_of)), self.total(tonnes).whole
        some = np.array(whole > 0, dtype=bool)
        unit = product(np.where(some, whole, 1), 10**values_of.places)
        means = nearest(product(content.whole, 10**places), unit)
        return Exact(np.where(some, means, 0), places).floats()

    def grades(self, values: np.ndarray) -> np.ndarray:
        """Returns the grades of blocks, shape (blocks, metals), from those of rows: means, as those of the table."""
        return np.column_stack([self.means(column, GRADE_PLACES) for column in values.T])

    def most(self, codes: np.ndarray) -> tuple[np.ndarray, float]:
        """Returns the code with the most tonnes in each block, of several the first by name, and the tonnes of other codes. In a block without tonnes
        all rows count alike.
        """
        names, code = numbered_codes(codes)
        weights = np.where(self.whole[self.block] > 0, self.tonnes, 1.0)
        sums = np.bincount(self.block * len(names) + code, weights, minlength=self.count * len(names)).reshape(
            self.count, -1
        )
        best = sums.round(TONNES_PLACES).argmax(axis=1)
        return names[best], float(self.tonnes[code != best[self.block]].sum())

    def greatest(self, values: np.ndarray) -> np.ndarray:
        found = np.full(self.count, -np.inf)
        np.maximum.at(found, self.block, values)
        return found

"""The realisations of a project, and their common base: blocks, slopes, and the precedences that any of them uses."""

from __future__ import annotations

import fnmatch
from dataclasses import dataclass, replace
from decimal import Decimal
from pathlib import Path
from typing import Iterator

import numpy as np
import pandas as pd
from scipy.spatial import cKDTree

from pitplan import preparation
from pitplan.blockmodel import reader
from pitplan.blockmodel.grid import Grid
from pitplan.blockmodel.reader import Table, format_of
from pitplan.blockmodel.row_rules import numbers_without
from pitplan.blockmodel.table_checks import demand_no_more_than_whole, demand_none_below_0
from pitplan.config.economics import Metal
from pitplan.config.project import Project
from pitplan.config.studies import Scenarios
from pitplan.config.table import ZERO
from pitplan.core.numeric_fields import TableSource, at_row, numbers_of, row_of
from pitplan.core.progress import Progress, silent
from pitplan.core.text_tables import demand_columns, demand_text, read_header
from pitplan.economics import block_values
from pitplan.errors import PlanError
from pitplan.plan import Plan, plan_of, with_notes
from pitplan.preparation import Preparation
from pitplan.slopes import closure


@dataclass(frozen=True)
class Realisation:
    """A realisation: its name, and its grades, shape (blocks, metals), in the order of the table."""

    name: str
    grades: np.ndarray


@dataclass(frozen=True)
class Base:
    """The common base of all realisations.

    Attributes
    ----------
    project : Project
    prepared : Preparation
        The blocks without grades, or with those of all realisations if these are columns of the table.
    lists : dict of str to list of str
        For each metal the columns of its realisations, if they are columns of the table.
    """

    project: Project
    prepared: Preparation
    lists: dict[str, list[str]]

    @property
    def frame(self) -> pd.DataFrame:
        """The blocks of the table, followed by filled missing blocks."""
        return self.prepared.frame

    @property
    def grid(self) -> Grid:
        return self.prepared.grid

    @property
    def table(self) -> Table:
        """The blocks of the table before missing blocks are filled and tonnes are cut."""
        return self.prepared.table

    @property
    def rows(self) -> pd.DataFrame:
        """The rows that the table of a realisation refers to: those of the table, before reblocking."""
        return self.frame if self.prepared.parts is None else self.prepared.read.frame

    def of_blocks(self, grades: np.ndarray) -> np.ndarray:
        """Returns the grades of blocks from those of rows: with reblocking the means by tonnes, and 0 in missing blocks."""
        if self.prepared.parts is None:
            return grades
        found = np.zeros((len(self.frame), grades.shape[1]))
        found[: self.prepared.parts.count] = self.prepared.parts.grades(grades)
        return found

    def with_grades(self, grades: np.ndarray) -> pd.DataFrame:
        """Returns the blocks with the grades of a realisation in the columns of the project's metals."""
        columns = [metal.column for metal in self.project.metals]
        frame = self.frame.drop(columns=[name for names in self.lists.values() for name in names])
        return frame.assign(**{name: grades[:, number] for number, name in enumerate(columns)})


def scenarios_of(project: Project) -> Scenarios:
    """Returns `[scenarios]`. Raises PlanError if the project has none."""
    if project.scenarios is None:
        raise PlanError(f"{project.path}: [scenarios] is missing: it names the realisations, by a folder or by columns")
    return project.scenarios


def read_base(project: Project, progress: Progress = silent) -> Base:
    """Returns the common base of all realisations. Raises PlanError as the steps of a plan do."""
    lists = column_lists(project)
    by_name = {metal.name: metal for metal in project.metals}
    simulated = [replace(by_name[name], column=column) for name, columns in lists.items() for column in columns]
    in_table = [metal for metal in project.metals if scenarios_of(project).columns and metal.name not in lists]
    # The grades of these metals are those of realisations, so that the table needs no column of theirs.
    elsewhere = {metal.column for metal in project.metals if metal not in in_table}
    named = replace(project.without_limits_on(elsewhere), metals=(*simulated, *in_table))
    table = preparation.read_table(named, progress=progress, any_size=False)
    return Base(project, preparation.take(table, preparation.OF_SCENARIOS), lists)


def column_lists(project: Project) -> dict[str, list[str]]:
    """Returns for each metal the columns of its realisations. Raises PlanError if a pattern has no match, or metals differ in their number."""
    asked = scenarios_of(project).columns
    if not asked:
        return {}
    columns = project.table
    demand_text(columns.file, "[scenarios] columns")
    header = list(read_header(columns.file, format_of(columns.file, columns)))
    lists = {}
    for metal, names in asked.items():
        lists[metal] = [found for name in names for found in (fnmatch.filter(header, name) if "*" in name else [name])]
        if not lists[metal]:
            raise PlanError(f"{columns.file} row 1: no column is called {', '.join(names)}")
    counts = {metal: len(found) for metal, found in lists.items()}
    if len(set(counts.values())) > 1:
        said = ", ".join(f"{count} of {metal}" for metal, count in counts.items())
        raise PlanError(
            f"{project.path}: [scenarios] columns: expected the same number of columns for each metal: {said}"
        )
    return lists


def models(base: Base) -> Iterator[Realisation]:
    """Yields the realisations. Raises PlanError with file, row and column if one does not fit the table."""
    if base.lists:
        count = len(next(iter(base.lists.values())))
        for number in range(count):
            columns = {metal: names[number] for metal, names in base.lists.items()}
            picked = [columns.get(metal.name, metal.column) for metal in base.project.metals]
            yield Realisation(next(iter(columns.values())), base.frame[picked].to_numpy())
        return
    for path in model_files(base.project):
        yield Realisation(name_of_model(path), base.of_blocks(read_model(path, base)))


def model_files(project: Project) -> list[Path]:
    """Returns the tables of realisations, by name. Raises PlanError if none exists, or two have one name."""
    folder = scenarios_of(project).folder
    if folder is None:
        raise PlanError(f"{project.path}: [scenarios]: found neither columns nor realisations, expected one of them")
    found = sorted([*folder.glob("*.csv"), *folder.glob("*.csv.gz")])
    if not found:
        raise PlanError(f"{folder}: has no realisation: expected a .csv or .csv.gz file for each")
    named: dict[str, Path] = {}
    for path in found:
        if (other := named.setdefault(name_of_model(path), path)) != path:
            raise PlanError(f"{path}: is a realisation of the same name as {other.name}: remove or rename one of them")
    return found


def name_of_model(path: Path) -> str:
    """Returns the name of a realisation: its file without .csv or .csv.gz."""
    return path.name.removesuffix(".gz").removesuffix(".csv")


def read_model(path: Path, base: Base) -> np.ndarray:
    """Reads the table of a realisation; returns its grades in the order of the block model, shape (rows, metals)."""
    columns, metals = base.project.table, base.project.metals
    grades = [metal.column for metal in metals]
    places = [columns.x, columns.y, columns.z]
    codes = [columns.id] if columns.id else []
    frame, form = reader.read_as_written(path, columns, codes, [*codes, *places, *grades])
    source = TableSource.of(str(path), form.header_row, form.first_row)
    by_id = columns.id is not None and columns.id in frame.columns
    demand_columns(frame, [*(codes if by_id else places), *grades], source)
    at = rows_by_id(frame, base, source) if by_id else rows_by_place(frame, base, source)
    if columns.rules.leaves_out:
        # Realisations have the rows that [table] leaves out, too.
        source, frame, at = source.at(np.flatnonzero(at >= 0)), frame[at >= 0], at[at >= 0]
    demand_every_block(at, base, source)
    result = np.zeros((len(base.rows), len(metals)))
    for number, name in enumerate(grades):
        may_fill = columns.rules.nulls.meaning(name, columns.empty) == ZERO
        numbers = numbers_without(numbers_of(frame[name], source, name), columns.rules.nulls.of(name))
        values, _ = reader.filled_numbers(pd.Series(numbers), source, name, may_fill)
        demand_none_below_0(values, source, name)
        demand_no_more_than_whole(values, metals[number], source)
        result[at, number] = values
    return result


def rows_by_id(frame: pd.DataFrame, base: Base, source: str) -> np.ndarray:
    """Returns for each row of a realisation the row of the table with the same id."""
    name = base.project.table.id
    ids = frame[name].str.strip()
    at = pd.Index(base.rows[name]).get_indexer(ids)
    if (at < 0).any() and not base.project.table.rules.leaves_out:
        row = int((at < 0).argmax())
        raise at_row(source, row, str(name), f"{ids.iloc[row]} is not the id of a block of {base.prepared.read.source}")
    return at


def rows_by_place(frame: pd.DataFrame, base: Base, source: str) -> np.ndarray:
    """Returns for each row of a realisation the row of the table with the same centroid."""
    names = base.project.table
    axes = (names.x, names.y, names.z)
    x, y, z = (reader.filled_numbers(frame[name], source, name, False)[0] for name in axes)
    at = rows_on_grid(x, y, z, base) if base.prepared.parts is None else nearest_rows(np.stack([x, y, z], axis=1), base)
    if (at < 0).any() and not base.project.table.rules.leaves_out:
        why = f"no block of {base.prepared.read.source} has this centroid"
        raise at_row(source, int((at < 0).argmax()), ", ".join(axes), why)
    return at


def rows_on_grid(x: np.ndarray, y: np.ndarray, z: np.ndarray, base: Base) -> np.ndarray:
    """Returns the row of the cell at each place; -1 if the place is off the grid by more than the tolerance, or the cell has no row."""
    grid, steps, inside = base.grid, [], np.ones(len(x), dtype=bool)
    for axis, step in enumerate((*grid.steps(x, y), (z - grid.origin[2]) / grid.size[2])):
        place = np.rint(step)
        inside &= np.abs(step - place) * grid.size[axis] <= base.project.grid.tolerance
        steps.append((-place if axis == 2 else place).astype(np.int64))
    for place, count in zip(steps, grid.shape[::-1]):
        inside &= (place >= 0) & (place < count)
    column, row, level = steps
    table_row = np.full(grid.count, -1, dtype=np.int64)
    table_row[grid.rows] = np.arange(len(grid.rows))
    return np.where(inside, table_row[np.where(inside, (level * grid.shape[1] + row) * grid.shape[2] + column, 0)], -1)


def nearest_rows(places: np.ndarray, base: Base) -> np.ndarray:
    """Returns the row with the nearest centroid to each place; -1 if that is off by more than the tolerance along an axis."""
    names = base.project.table
    distance, at = cKDTree(base.rows[[names.x, names.y, names.z]].to_numpy()).query(places, p=np.inf)
    return np.where(distance <= base.project.grid.tolerance, at, -1)


def demand_every_block(at: np.ndarray, base: Base, source: str) -> None:
    """Raises PlanError if a realisation has a block twice, or lacks one."""
    known = len(base.prepared.read.frame)
    times = np.bincount(at, minlength=known)[:known]
    if times.max(initial=0) > 1:
        row = int(pd.Series(at).duplicated().to_numpy().argmax())
        raise PlanError(
            f"{source} row {row_of(source, row)}: the block is in another row too: expected each block once"
        )
    if times.min() == 0:
        row = row_of(base.prepared.read.source, int((times == 0).argmax()))
        raise PlanError(
            f"{source}: {np.count_nonzero(times == 0):,} blocks are missing, first that of {base.prepared.read.source} row {row}"
        )


def priced(project: Project, prices: dict[str, Decimal]) -> Project:
    metals = tuple(replace(metal, price=prices.get(metal.name, metal.price)) for metal in project.metals)
    return replace(project, metals=metals)


def envelope(base: Base, greatest: np.ndarray) -> Plan:
    """Returns a plan in which each block is ore if it is in any scenario: by the largest grades and prices, without selling cost and smelter
    terms. Its precedences and processing nodes serve every scenario."""
    project = base.project

    def dearest(metal: Metal) -> Decimal:
        return max(prices.get(metal.name, metal.price) for prices in scenarios_of(project).prices)

    metals = tuple(
        replace(metal, price=dearest(metal), selling_cost=Decimal(0), smelter=None) for metal in project.metals
    )
    blocks = base.prepared.with_grades(base.with_grades(greatest), replace(project, metals=metals))
    plan = plan_of(blocks)
    plan = replace(plan, values=plan.values.with_shared_nodes())
    block_values.demand_few_nodes(plan.values, plan.grid)
    if plan.values.cutoff == "base_price" and len(plan.values.by_process) > 1:
        # At other grades a block may go to another process, whose value rises faster with the factor.
        paying = np.array(plan.values.value_bound(project.shells.revenue_factors[-1]) > 0, dtype=bool)
        plan = replace(plan, used=plan.used | closure.used_blocks(plan.grid, plan.domains, paying))
    return with_notes(plan, blocks, "the largest grades and prices of all scenarios")

"""The steps that turn the planner's table into blocks on a grid with slope domains.

A plan takes every step and gives its blocks their values. Scenarios take the steps that do not depend on grades, once for all realisations.
"""

from __future__ import annotations

import copy
from dataclasses import dataclass, field, replace
from typing import Callable, Optional, Union

import numpy as np
import pandas as pd
from numpy.typing import NDArray

from pitplan.blockmodel.grid import Grid
from pitplan.blockmodel.reader import Table
from pitplan.blockmodel.reblock import Parts
from pitplan.config.project import Project
from pitplan.core.progress import Progress, silent
from pitplan.slopes.domains import SlopeDomains

from . import crop
from .blockmodel import grid, missing_blocks, reader, reblock, summary, topography
from .errors import WARNING
from .slopes import domains


@dataclass
class Preparation:
    """A block model while it is prepared; each step sets or changes some of it.

    Attributes
    ----------
    project : Project
        The project, whose metals name the columns of grades.
    read : Table
        The table as read and checked.
    any_size : bool
        Whether the grid may have more cells than the solver takes, since the model is cropped later.
    table : Table
        One row for each block: the rows that were read, or after reblocking the blocks that they make up.
    parts : Parts, optional
        Which of the rows that were read make up each block; None without `[table] reblock`.
    laid_by : Project
        The project with the size and azimuth of the blocks as its `[grid]`.
    grid : Grid
        The cells; `grid.rows` has the cell of each row of `frame`.
    frame : DataFrame
        The rows of `table`, then one row for each missing block that the project gives a rock. Surfaces cut their tonnes.
    domain_code : ndarray
        The slope domain of each cell.
    domains : SlopeDomains
        The precedence patterns of the slope domains.
    source : str
        How errors name the table.
    left_out : int
        How many blocks of the table were cropped.
    summary, notes, warnings : list of str
        Lines about the table; sentences about what the steps did; and warnings, which a planner reads last.
    """

    project: Project
    read: Table
    progress: Progress = silent
    any_size: bool = True
    table: Table = field(init=False)
    parts: Optional[Parts] = None
    laid_by: Project = field(init=False)
    grid: Grid = field(init=False)
    frame: pd.DataFrame = field(init=False)
    domain_code: NDArray[np.int64] = field(init=False)
    domains: SlopeDomains = field(init=False)
    source: str = field(init=False)
    left_out: int = 0
    summary: list[str] = field(default_factory=list)
    notes: list[str] = field(default_factory=list)
    warnings: list[str] = field(default_factory=list)

    def __post_init__(self) -> None:
        self.table, self.laid_by, self.source = self.read, self.project, self.read.source
        self.frame, self.warnings = self.read.frame, list(self.read.warned)

    def with_grades(self, frame: pd.DataFrame, project: Project) -> Preparation:
        """The same blocks with the grades of another frame of their rows, and with the metals of another project."""
        other = copy.copy(self)
        other.frame, other.project = frame, project
        return other


Step = Callable[[Preparation], None]


def read_table(
    project: Project,
    table: Union[pd.DataFrame, Table, None] = None,
    progress: Progress = silent,
    any_size: bool = True,
) -> Preparation:
    """Reads and checks the project's table, or checks the one that is given, unless it was checked already. Raises PlanError with row and column of
    a wrong field."""
    if isinstance(table, Table):
        # The rules of [table] apply once.
        return Preparation(project, replace(table, frame=table.frame.copy()), progress, any_size)
    source = str(project.table.file) if table is None else "table"
    with progress.step(f"reading {source}"):
        checked = reader.read(project) if table is None else reader.checked(table, project)
    return Preparation(project, checked, progress, any_size)


def reblock_rows(model: Preparation) -> None:
    """Puts rows together to blocks of one size, by `[table] reblock`."""
    blocks = reblock.of_table(model.read, model.project)
    model.table, model.laid_by, model.parts = blocks.table, blocks.project, blocks.parts
    model.frame, model.source = blocks.table.frame, blocks.table.source
    model.notes += blocks.table.notes


def lay_grid(model: Preparation) -> None:
    """Finds the grid of the blocks' centres."""
    with model.progress.step("building the grid"):
        model.grid = grid.of_table(model.frame, model.laid_by, model.source, any_size=model.any_size)


def summarise(model: Preparation) -> None:
    """Describes the table: extents, tonnes, grades with units, and unused columns."""
    lines = summary.of_table(model.table, model.grid, model.project)
    model.warnings += [line for line in lines if line.startswith(WARNING)]
    model.summary = [line for line in lines if not line.startswith(WARNING)]
    model.progress.lines(model.summary)


def add_missing_blocks(model: Preparation) -> None:
    """Adds a row for each missing block that `[table] missing_blocks` describes, and warns if tonnes do not fit the blocks' volume."""
    model.frame, model.grid = missing_blocks.with_rows(model.frame, model.grid, model.project)
    tonnes = model.frame[model.project.table.tonnes].to_numpy()
    model.warnings += summary.of_tonnes(tonnes, model.grid)


def cut_by_topography(model: Preparation) -> None:
    """Cuts tonnes to those below `[table] topography`."""
    file = model.project.table.topography
    if file is None:
        return
    with model.progress.step(f"cutting blocks at {file.path}"):
        model.frame, notes = topography.cut_by_topography(model.frame, model.grid, model.project, file)
    model.notes += notes


def cut_by_as_mined_surface(model: Preparation) -> None:
    """Cuts tonnes to those that remain below `[constraints] as_mined`, and marks the blocks that are mined."""
    model.frame, notes = topography.depleted(model.frame, model.grid, model.project)
    model.notes += notes


def lay_slope_domains(model: Preparation) -> None:
    """Gives each cell its slope domain, and each domain its precedence pattern."""
    with model.progress.step("building slope precedences"):
        model.domain_code = domains.domain_codes_of(model.frame, model.grid, model.project.table.domain)
        model.domains = domains.domains_of(model.domain_code, model.grid, model.project.slopes)


def crop_to_reach(model: Preparation) -> None:
    """Leaves out the blocks that no shell can reach, if there are more blocks and processing nodes than the solver takes."""
    whole = crop.GriddedModel(model.frame, model.grid, model.domain_code, model.source, len(model.table.frame))
    if not crop.is_too_large(whole, model.project):
        return
    with model.progress.step("removing blocks that no shell can reach"):
        part, note = crop.left(whole, model.domains, model.project)
        model.domains, dropped = domains.domains_of(part.domain_code, part.grid, model.project.slopes), [note]
    model.frame, model.grid, model.domain_code, model.source = part.frame, part.grid, part.domain_code, part.source
    model.left_out, model.notes = whole.known - part.known, model.notes + dropped


# What precedes the values of blocks: first the blocks, then the ground in which they lie.
BLOCKS: tuple[Step, ...] = (reblock_rows, lay_grid)
GROUND: tuple[Step, ...] = (add_missing_blocks, cut_by_topography, cut_by_as_mined_surface, lay_slope_domains)
OF_PLAN: tuple[Step, ...] = (*BLOCKS, summarise, *GROUND, crop_to_reach)
OF_SCENARIOS: tuple[Step, ...] = (*BLOCKS, *GROUND)


def take(model: Preparation, steps: tuple[Step, ...]) -> Preparation:
    """Takes steps in order. Raises PlanError if the table, a survey file or the slopes are not usable; MissingPackage if what reads a file
    is not installed."""
    for step in steps:
        step(model)
    return model

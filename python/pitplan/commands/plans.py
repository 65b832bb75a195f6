"""Commands that plan a project: `pitplan check`, `prepare`, `shells`, `pushbacks` and `pit`."""

from __future__ import annotations

from dataclasses import replace
from pathlib import Path
from typing import Any, Optional

import pandas as pd

from pitplan.blockmodel import missing_blocks
from pitplan.blockmodel.grid import demand_within
from pitplan.config import project_writer
from pitplan.config.project import Project
from pitplan.core import layout
from pitplan.core.atomic_files import staged
from pitplan.core.progress import Progress, silent, warn
from pitplan.core.revenue_factors import BASE_PRICE
from pitplan.errors import InputWarning
from pitplan.pits.shells import Shells
from pitplan.pushbacks import nested
from pitplan.results import names
from pitplan.results.rounding import shown, write_csv
from pitplan.solver import mine_files
from pitplan.solver.problem import counted_rows

from ..errors import PlanError
from ..plan import prepared
from .answers import check_fixed, write_answer
from .verification import verifying
from .writing import (
    Place,
    Run,
    Source,
    Writing,
    begun,
    drawing_imported,
    finish,
    hashed,
    locked,
    of_earlier_run,
    read,
    write_table,
)


def check(project: Source, progress: Progress = silent) -> list[str]:
    """Reads and validates a project, its table, slopes and survey files, as every command does before it solves. Nothing is written.

    Parameters
    ----------
    project : Project, str or Path
        A project, or the path of its project.toml.
    progress : Progress
        Reports the steps.

    Returns
    -------
    list of str
        The notes that `pitplan prepare` prints: what was rounded, dropped and clipped, and warnings. A last one names a section without which
        `pitplan schedule` refuses the project.

    Raises
    ------
    PlanError
        If the input is not usable.
    """
    project = read(project)
    plan = prepared(project, progress=progress)
    demand_within(project, plan.grid)
    with progress.step("counting the precedences"):
        _, pairs = counted_rows(plan.precedences, plan)
    notes = [*plan.record(pairs)["notes"], *missing_sections(project)]
    warn(notes, InputWarning)
    return notes


def missing_sections(project: Project) -> list[str]:
    """Returns notes on the sections that another command asks for, and the project lacks."""
    if project.schedule is None or project.pushbacks is not None:
        return []
    remedy = "set its count, tonnes or revenue_factors, or schedule with --by block"
    return [f"[schedule] is for pushbacks or blocks, and [pushbacks] is missing: {remedy}"]


def write_plan(project: Project, folder: Path, progress: Progress = silent) -> dict[str, Any]:
    """Writes the program's files, blocks.csv and plan.json; returns the record plan.json. Raises PlanError if the input is not usable. Nothing is
    written then."""
    project = read(project)
    with locked(project, folder):
        plan = prepared(project, progress=progress)
        with staged(folder, names.RECORD, (*mine_files.IN_FOLDER, *of_earlier_run(folder)), layout.FOLDERS) as stage:
            demand_within(project, plan.grid)
            with progress.step("writing blocks and precedences"):
                pairs = mine_files.write(plan, stage / layout.SOLVER)
            project_writer.write(project, stage / project_writer.AS_RUN, folder)
            write_table(plan.blocks, stage)
            files = [*mine_files.of_program(stage), names.TABLE]
            return finish(plan.record(pairs), hashed(project, files, stage), stage)


def write_shells(project: Source, folder: Optional[Place] = None, writing: Writing = Writing()) -> pd.DataFrame:
    """Finds the shells, and writes tables, pictures, the report and the record plan.json, as `pitplan shells` does.

    Parameters
    ----------
    project : Project, str or Path
        A project, or the path of its project.toml.
    folder : str or Path, optional
        Where the files go. Default: the project's output folder.
    writing : Writing
        How they are written.

    Returns
    -------
    DataFrame
        One row for each shell; see `pitplan.Shells.table`.

    Raises
    ------
    PlanError
        If the input is not usable, or a result differs from its independent recalculation.
    """
    project = read(project)
    target = project.folder if folder is None else Path(folder)
    with begun(project, target, writing) as run:
        with drawing_imported(writing.figures):
            shells = Shells.solved(run.mine.plan, run.mine)
        write_answer(shells, run)
    return shells.table


def write_pushbacks(project: Source, folder: Optional[Place] = None, writing: Writing = Writing()) -> pd.DataFrame:
    """Divides the pit of one factor into pushbacks, as `pitplan pushbacks` does.

    The folder gets the table as pushbacks.csv and all files that `write_shells` writes, of the pushbacks' shells. blocks.csv has the pushback
    of each block.

    Parameters
    ----------
    project : Project, str or Path
        A project, or the path of its project.toml.
    folder : str or Path, optional
        Where the files go. Default: pushbacks in the project's output folder.
    writing : Writing
        How they are written.

    Returns
    -------
    DataFrame
        One row for each pushback.

    Raises
    ------
    PlanError
        If the project has no `[pushbacks]`, the pit is empty, or a result differs from its independent recalculation.
    """
    project = read(project)
    target = project.folder / "pushbacks" if folder is None else Path(folder)
    with begun(project, target, writing, nested.ending(project)) as run:
        pushbacks = nested.divide(run.mine.plan, run.mine)
        write_answer(pushbacks, run)
    return pushbacks.table


def write_pit(
    project: Source, revenue_factor: float = BASE_PRICE, folder: Optional[Place] = None, writing: Writing = Writing()
) -> pd.DataFrame:
    """Solves the pit of one revenue factor with the project's fixed blocks and without them, as `pitplan pit` does.

    The folder gets this table, blocks.csv and plan.json. blocks.csv has the pit with the fixed blocks, and the shells of the project's
    lower factors, which the best case mines in turn; free_revenue_factor and free_process_revenue_factor are the same without the fixed blocks.

    Parameters
    ----------
    project : Project, str or Path
        A project, or the path of its project.toml.
    revenue_factor : float
    folder : str or Path, optional
        Where the files go. Default: pit in the project's output folder.
    writing : Writing
        How they are written.

    Returns
    -------
    DataFrame
        Two rows, in which `fixed_blocks` is "kept" or "free", with the columns of `Shells.table`.

    Raises
    ------
    PlanError
        If the project has no fixed blocks, or a result differs from its independent recalculation.
    """
    project = read(project)
    target = project.folder / "pit" if folder is None else Path(folder)
    if project.constraints is None:
        raise PlanError(f"{project.path}: [constraints] is missing: it defines must-mine and excluded blocks")
    with begun(project, target, writing, with_lower_factors(project, revenue_factor)) as run:
        table, blocks = compared(run, revenue_factor)
        write_table(blocks, run.stage)
        write_csv(shown(table), run.stage / names.PITS, project)
        with verifying(run):
            pass
        files = [*mine_files.of_program(run.stage), names.TABLE, names.PITS]
        finish(run.record, hashed(project, files, run.stage), run.stage)
    return table


def compared(run: Run, factor: float) -> tuple[pd.DataFrame, pd.DataFrame]:
    """Solves the pit of a factor, with the fixed blocks and without them. Returns one row for each of the two, and one row for each block with the
    factors at which it is in either pit."""
    plan = run.mine.plan
    keeping = Shells.solved(plan, run.mine)
    free = Shells(plan, replace(run.mine.free_shells(plan.project.shells.revenue_factors), of=plan.key))
    missing_blocks.demand_known(free.solution.entry, plan.grid, run.project, plan.source)
    check_fixed(run.mine, keeping.solution, factor, run.writing.progress)
    table = pd.concat([keeping.table.tail(1), free.table.tail(1)], ignore_index=True)
    table.insert(0, "fixed_blocks", ["kept", "free"])
    of_free = free.blocks[["revenue_factor", "process_revenue_factor"]].add_prefix("free_")
    return table, pd.concat([keeping.blocks, of_free], axis=1)


def with_lower_factors(project: Project, factor: float) -> Project:
    """The project with one factor, and those of its own that are lower."""
    within = tuple(sorted({factor, *(inner for inner in project.shells.revenue_factors if inner < factor)}))
    return replace(
        project, shells=replace(project.shells, revenue_factors=within, selected=None, base_price_added=False)
    )

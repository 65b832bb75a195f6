"""`pitplan sensitivity`: the sensitivity of the selected pit shell to single numbers of the project."""

from __future__ import annotations

import os
from pathlib import Path
from typing import Optional

import pandas as pd

import planaudit
from pitplan.config import project_writer
from pitplan.core import csv_writer, layout, staging
from pitplan.core.atomic_files import staged, write_json
from pitplan.core.progress import warn
from pitplan.errors import InputWarning
from pitplan.export import xlsx
from pitplan.results import names
from pitplan.results.rounding import heads_of, named, shown, with_discounting, write_csv
from pitplan.studies import sensitivity
from pitplan.studies.dask_pool import Where
from pitplan.studies.sensitivity import RECORD, TABLE, Case, Sensitivity, rules_of

from .verification import verified
from .writing import Place, Source, Writing, demand_apart, in_all_formats, read


def write_sensitivity(
    project: Source, folder: Optional[Place] = None, where: Optional[Where] = None, writing: Writing = Writing()
) -> pd.DataFrame:
    """Finds the pit of the selected factor again for each changed number, as `pitplan sensitivity` does.

    The folder gets this table, blocks.csv, pictures and the record sensitivity.json with notes; with `[[sensitivity.hill]]` also
    hill_of_value.csv and a workbook of it. The answers of cases are kept in its folder
    cases; a case with an answer is not solved again.

    Parameters
    ----------
    project : Project, str or Path
        A project, or the path of its project.toml.
    folder : str or Path, optional
        Where the files go. Default: sensitivity in the project's output folder.
    where : Where, optional
        The Dask cluster that solves the cases. Default: processes of this machine, one for each processor.
    writing : Writing
        How they are written.

    Returns
    -------
    DataFrame
        One row for each case.

    Raises
    ------
    PlanError
        If the input or a share is not usable, or a result differs from its independent recalculation.
    """
    project = read(project)
    target = project.folder / "sensitivity" if folder is None else Path(folder)
    demand_apart(project, target)
    if rules_of(project).hill and writing.workbook:
        xlsx.demand_library()
    with staging.alone(target, sensitivity.CASES):
        found = sensitivity.solve(project, target, where, writing.progress, processes=writing.processes)
        table = write_cases(found, target, writing)
    warn(found.plan.notes, InputWarning)
    return table


def write_cases(found: Sensitivity, folder: Path, writing: Writing) -> pd.DataFrame:
    """Writes tables, pictures and the record of all cases into the folder of their answers; returns one row for each case. Raises PlanError if a
    result differs from its independent recalculation."""
    cases, project, progress = sensitivity.table(found), found.project, writing.progress
    pairs = rules_of(project).pairs
    figures = [names.TORNADO, names.SPIDER, *map(names.grid_of, pairs), names.HILL_FIGURE]
    removed = (*in_all_formats(figures), names.HILL, names.HILL_WORKBOOK)
    with staged(folder, RECORD, removed, layout.FOLDERS) as stage:
        record = sensitivity.record(found, os.path.relpath(project.path, folder)) | {"figures": writing.figures}
        write_tables(found, cases, stage, writing.workbook)
        project_writer.write(found.asked, stage / project_writer.AS_RUN, folder)
        write_json(stage / RECORD, record)
        if writing.verifies:
            record["verified"] = verified(lambda: planaudit.verify_sensitivity(stage, folder), progress)
        if writing.figures:
            with progress.step("drawing"):
                draw(found, cases, stage)
        write_json(stage / RECORD, record)
    return cases


def write_tables(found: Sensitivity, cases: pd.DataFrame, stage: Path, workbook: bool) -> None:
    """Writes sensitivity.csv, and blocks.csv with the factor of each block in the pits of the project as given."""
    blocks = found.plan.blocks
    blocks["revenue_factor"] = found.answers[Case()].entry[blocks["id"].to_numpy()]
    csv_writer.write(stage / names.TABLE, blocks)
    write_csv(shown(cases), stage / TABLE, found.project)
    if rules_of(found.project).hill:
        write_hill(found, stage, workbook)


def write_hill(found: Sensitivity, stage: Path, workbook: bool) -> None:
    """Writes hill_of_value.csv, and if it is wanted a workbook with the NPVs as a grid and the table."""
    table = sensitivity.hill_table(found)
    write_csv(shown(table), stage / names.HILL, found.project)
    if not workbook:
        return
    one, other = rules_of(found.project).hill
    grid = sensitivity.grid(shown(table))
    corner = f"{other.parameter}, by column {one.parameter}"
    sheet = grid.reset_index(names=corner).rename(columns=str)
    rows = named(with_discounting(shown(table), found.project), found.project)
    xlsx.write(stage / names.HILL_WORKBOOK, {"npv": sheet, "hill_of_value": rows}, (), heads_of(found.project))


def draw(found: Sensitivity, cases: pd.DataFrame, stage: Path) -> None:
    """Draws the tornado, the spider plot and the grids. It imports matplotlib itself."""
    from pitplan.figures import sensitivity as charts
    from pitplan.figures.style import also_as

    project = found.project
    with also_as(project.figures.formats if project.figures else ()):
        charts.write_all(cases, rules_of(project).pairs, project.economics.currency, stage)
        if rules_of(project).hill:
            charts.write(sensitivity.hill_table(found), project.economics.currency, stage / names.HILL_FIGURE)

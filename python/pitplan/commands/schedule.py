"""`pitplan schedule`: a yearly schedule of pushbacks, or of blocks."""

from __future__ import annotations

from pathlib import Path
from typing import Optional

import pandas as pd

from pitplan.core.libraries import load_library
from pitplan.export import xlsx
from pitplan.pits.shells import Shells
from pitplan.pushbacks import nested
from pitplan.scheduling import certificate as certificates, pushback_schedule

from .answers import write_answer
from .writing import Place, Source, Writing, begun, drawing_imported, read


def write_schedule(
    project: Source, folder: Optional[Place] = None, writing: Writing = Writing(), certificate: bool = False
) -> pd.DataFrame:
    """Schedules the benches of pushbacks by years, as `pitplan schedule` does.

    The folder gets all files that `write_pushbacks` writes, with the year of each block in blocks.csv and the years of each method in
    years.csv. It also gets schedule.csv, schedule.json, flows.csv, feed.csv, cutoffs.csv, limits.csv, stockpiles.csv and dumps.csv if there are any, bound.csv,
    inventory.csv, grade_tonnage.csv, cash_flow.csv, valuation.csv, a workbook of the tables, and pictures.
    An interruption while programmes are solved ends these only, and schedule.json records it.

    Parameters
    ----------
    project : Project, str or Path
        A project, or the path of its project.toml.
    folder : str or Path, optional
        Where the files go. Default: schedule in the project's output folder.
    writing : Writing
        How they are written.
    certificate : bool
        Write the texts of the schedule that is shown, its problem and prices into the folder certificate, and let pitschedule prove value and
        bound if it is installed.

    Returns
    -------
    DataFrame
        One row for each method: by rule, by linear programme, and if asked for by integer programme.

    Raises
    ------
    MissingPackage
        Without openpyxl.
    PlanError
        If the project has no `[pushbacks]`, the pit is empty or takes too many years, or a result differs from its independent
        recalculation. With a certificate also if values differ by year, years have costs, or there are dumps.
    ProgramError
        If pitschedule does not prove the certificate.
    """
    project = read(project)
    target = project.folder / "schedule" if folder is None else Path(folder)
    if writing.workbook:
        xlsx.demand_library()
    if certificate:
        certificates.demand_statable(project)
    with begun(project, target, writing, nested.ending(project)) as run:
        schedule = pushback_schedule.make(nested.divide(run.mine.plan, run.mine))
        if certificate:
            schedule = schedule.certified_in(run.stage, writing.progress)
        write_answer(schedule, run)
    return schedule.methods


def write_block_schedule(
    project: Source, folder: Optional[Place] = None, writing: Writing = Writing(), certificate: bool = False
) -> pd.DataFrame:
    """Schedules blocks one by one, as `pitplan schedule --by block` does, with an upper bound on the value of all such schedules.

    The folder gets all files that `write_shells` writes, with the year of each block in blocks.csv and the years in years.csv. It also gets
    block_schedule.json, inventory.csv, grade_tonnage.csv, cash_flow.csv, valuation.csv, and a workbook of the tables. An interruption after the
    bound is found ends the search for better schedules only, and block_schedule.json records it.

    Parameters
    ----------
    project : Project, str or Path
        A project, or the path of its project.toml.
    folder : str or Path, optional
        Where the files go. Default: block_schedule in the project's output folder.
    writing : Writing
        How they are written.
    certificate : bool
        Write the texts of the schedule, its problem and prices into the folder certificate, and let pitschedule prove value and bound if it is
        installed.

    Returns
    -------
    DataFrame
        One row: value, bound, and the optimality gap as a share of the bound.

    Raises
    ------
    MissingPackage
        Without the library libpitshell.so, or openpyxl.
    PlanError
        If the project asks for what no schedule by block supports, has too many blocks, or a result differs from its recalculation. With a
        certificate also if values differ by year or years have costs.
    ProgramError
        If pitschedule does not prove the certificate.
    """
    load_library("a schedule by block")
    if writing.workbook:
        xlsx.demand_library()
    # Its modules import the library themselves.
    from pitplan.scheduling.blocks import tables
    from pitplan.scheduling.blocks.from_plan import demand_of_blocks

    project = read(project)
    demand_of_blocks(project)
    if certificate:
        certificates.demand_statable(project, by_block=True)
    target = project.folder / "block_schedule" if folder is None else Path(folder)
    with begun(project, target, writing) as run:
        # First, since it refuses what is too large.
        planned = tables.collected(run.mine.plan, writing.progress)
        with drawing_imported(writing.figures):
            shells = Shells.solved(run.mine.plan, run.mine)
        schedule = tables.scheduled(planned, shells, writing.progress)
        if certificate:
            schedule = schedule.certified_in(run.stage, writing.progress)
        write_answer(schedule, run)
    return schedule.table

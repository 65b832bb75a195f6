"""Writes shells, pushbacks or a schedule into a folder: tables, pictures, workbook, report and record.

Figures and workbooks are imported by the functions that write them, so that a run takes only the libraries that it uses.
"""

from __future__ import annotations

from dataclasses import replace
from pathlib import Path
from typing import Optional, Union

import pandas as pd

from pitplan.config.project import Project
from pitplan.core import csv_writer, layout
from pitplan.core.atomic_files import write_json
from pitplan.core.progress import Progress, silent
from pitplan.core.revenue_factors import factor_text
from pitplan.pits.answer import Answer
from pitplan.report import html
from pitplan.results import names
from pitplan.results.rounding import named, shown, with_outline, write_csv
from pitplan.solver import mine_files, problem
from pitplan.solver.problem import Mine
from pitplan.solver.program import Solution

from .verification import verifying
from .writing import Run, Writing, finish, hashed, locked, staged_run

Tables = dict[str, pd.DataFrame]

# Tables that are written as they are computed.
UNROUNDED = ("bound",)


def write(answer: Answer, folder: Union[str, Path], writing: Optional[Writing] = None) -> Path:
    """Writes the files of an answer that is known, with the block model and the project if they were made in Python; returns the folder. Steps are
    reported by the plan's progress unless `writing` has its own. Raises PlanError if a result differs from its independent recalculation, a file
    would replace an input, or the folder cannot be written."""
    folder, writing, pushbacks = Path(folder), writing or Writing(), answer.as_pushbacks
    plan, solver = pushbacks.planned if pushbacks else answer.as_shells.plan, answer.as_shells.solution.solver
    if solver is None:
        raise ValueError("the solution names no solver: use the one from plan.shells()")
    if writing.progress is silent:
        writing = replace(writing, progress=plan.progress)
    with locked(plan.asked, folder), staged_run(plan, solver, folder, writing) as run:
        write_answer(answer, run)
    return folder


def write_answer(answer: Answer, run: Run) -> None:
    """Writes the tables and the record of an answer, and pictures, workbook and report if they are wanted. Raises PlanError if a result differs from
    its independent recalculation."""
    stage, progress, shells = run.stage, run.writing.progress, answer.as_shells
    with progress.step("computing the tables of shells"):
        tables = answer.tables()
        write_tables(tables, shells.solution, shells.plan.project, stage)
        run.record["notes"] += answer.all_notes
    check_fixed(run.mine, shells.solution, shells.selected, progress)
    run.record.pop("solver")
    run.record.update(answer.summary(), figures=run.writing.figures)
    written = [names.TABLE, *(names.of_table(name) for name in tables if name != "blocks"), *write_records(answer, run)]
    with verifying(run):
        if run.writing.figures:
            from .drawing import draw

            with progress.step("drawing"):
                written += draw(answer, tables, stage, run.writing.processes)
        if answer.as_schedule is not None and run.writing.workbook:
            from . import workbook

            with progress.step("writing the workbook"):
                workbook.write(answer.as_schedule, tables, stage)
            written.append(names.WORKBOOK)
        found = hashed(run.project, [*mine_files.of_program(stage), *written], stage)
    finish(run.record, found, stage)
    if run.writing.report:
        html.write(stage / names.REPORT, stage, run.project)


def check_fixed(mine: Mine, solution: Solution, factor: float, progress: Progress) -> None:
    """Solves the whole mine with its fixed blocks at a factor. Raises PlanError if the shell of that factor is another pit."""
    if mine.plan.settled is None:
        return
    with progress.step(f"solving revenue factor {factor_text(factor)} separately, with the constraints"):
        pit = mine.pit(factor)
    problem.demand_same(solution, pit, factor)


def write_tables(tables: Tables, solution: Solution, project: Project, stage: Path) -> None:
    """Writes the tables, and the program's own answer if it solved."""
    if solution.answer is not None:
        (stage / layout.SOLVER / mine_files.ANSWER).write_bytes(solution.answer)
    for name, table in tables.items():
        if name == "blocks":
            csv_writer.write(stage / names.TABLE, named(table, project))
            continue
        if name in ("shells", "years") and "pushbacks" in tables:
            table = with_outline(table, project)
        write_csv(table if name in UNROUNDED else shown(table), stage / names.of_table(name), project)


def write_records(answer: Answer, run: Run) -> list[str]:
    """Writes the record of a schedule, if it is one; returns the names of it and of its certificate."""
    schedule = answer.as_schedule
    if schedule is None:
        return []
    name = names.SCHEDULE_RECORD if answer.as_pushbacks else names.BLOCK_SCHEDULE
    write_json(run.stage / name, schedule.record)
    return [name, *(names.OF_CERTIFICATE if schedule.certified is not None else ())]

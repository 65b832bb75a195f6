"""`pitplan scenarios` and `gather`: pits or schedules of simulated models at several prices."""

from __future__ import annotations

from pathlib import Path
from typing import TYPE_CHECKING, Optional, Union

import numpy as np
import pandas as pd

import planaudit
from pitplan.config.project import FigureRules
from pitplan.core import csv_writer, layout, staging
from pitplan.core.atomic_files import staged, write_json
from pitplan.core.layout import FIGURES
from pitplan.core.libraries import load_library
from pitplan.core.progress import warn
from pitplan.core.revenue_factors import factor_text
from pitplan.errors import PlanWarning
from pitplan.export.mesh import write_image as write_vti
from pitplan.results import columns
from pitplan.results.rounding import with_discounting
from pitplan.studies.scenarios import pit_probability, run
from pitplan.studies.scenarios.pit_probability import Gathered, Likely
from pitplan.studies.scenarios.result import (
    IMAGE,
    ONE,
    ONE_RECORD,
    ONE_YEARS,
    PROBABILITY,
    QUANTILES,
    SCHEDULES,
    TABLE,
    ScenarioResult,
)
from pitplan.studies.scenarios.run import Request
from pitplan.studies.scenarios.store import BLOCK, FOLDERS, Shared, read_shared
from pitplan.studies.scenarios.worker import Outcome, solve

from ..errors import MissingPackage
from ..plan import codes_of
from .verification import verified
from .writing import Place, Source, Writing, in_all_formats, read

if TYPE_CHECKING:
    from pitplan.studies.scenarios.blocks.tables import Schedules


def solve_scenario(folder: Union[str, Path], number: int) -> Outcome:
    """Solves one scenario, by its number from 1, of a folder that `write_scenarios` has prepared. Returns the status, with the reason if it is not 0.
    No PlanError is raised."""
    return solve(str(folder), number)


GATHERED = "gathered.json"
PICTURES = {
    "plans": f"{FIGURES}/probability_plans.png",
    "sections": f"{FIGURES}/probability_sections.png",
    "spread": f"{FIGURES}/spread.png",
}
PICTURE_OF_VALUES = f"{FIGURES}/schedule_values.png"


def write_pits(shared: Shared, request: Request, writing: Writing) -> list[str]:
    """Writes probabilities, tables and pictures of the pits of all scenarios, and gathered.json, which lists what was verified; returns notes for the
    planner. Raises PlanError if an answer is missing, or a result differs from its independent recalculation."""
    progress, factor = writing.progress, run.shown_factor(shared, request)
    removed = in_all_formats(PICTURES.values())
    with staged(shared.folder, whole=removed, subfolders=layout.FOLDERS) as stage:
        with progress.step("gathering the results"):
            gathered = pit_probability.gather(shared, request.partial)
            write_tables(shared, gathered, stage)
        notes = note_verified(shared, gathered.missing, writing, stage)
        with progress.step("writing the image"):
            notes += write_image(shared, gathered, stage)
        if writing.figures:
            with progress.step("drawing"):
                draw(shared, gathered, factor, stage)
    return [*notes, *notes_of_missing(gathered.missing)]


def write_schedules(shared: Shared, request: Request, writing: Writing) -> list[str]:
    """Writes tables and the picture of the schedules of all scenarios and of the one for all; as `write_pits`. Raises PlanError as that does, and
    MissingPackage without the library."""
    run.demand_no_factor(request)
    load_library("a schedule by block")
    # It imports the library itself.
    from pitplan.studies.scenarios.blocks import tables as schedule_tables

    progress = writing.progress
    removed = in_all_formats([PICTURE_OF_VALUES])
    with staged(shared.folder, whole=removed, subfolders=layout.FOLDERS) as stage:
        with progress.step(f"applying the common schedule to {len(shared.scenarios):,} scenarios"):
            schedules = schedule_tables.gather(shared, request.partial)
            write_schedule_tables(schedules, schedule_tables.quantiles(schedules), shared, stage)
        notes = schedule_tables.notes(schedules, shared) + note_verified(shared, schedules.missing, writing, stage)
        if writing.figures:
            with progress.step("drawing"):
                draw_values(shared, schedules, stage)
    return [*notes, *notes_of_missing(schedules.missing)]


def rules_of(shared: Shared) -> FigureRules:
    return shared.project.figures or FigureRules()


def notes_of_missing(missing: dict[int, str]) -> list[str]:
    return (
        [f"WARNING: {len(missing):,} scenarios have no result and are left out of all tables and figures"]
        if missing
        else []
    )


def note_verified(shared: Shared, missing: dict[int, str], writing: Writing, stage: Path) -> list[str]:
    """Recalculates the answers and their tables independently, and writes gathered.json with the rules that hold. Returns a note if the recalculation
    was skipped. Raises PlanError if a result differs."""
    rules: list[str] = []
    if writing.verifies:
        rules = verified(lambda: planaudit.verify_scenarios(shared.folder, stage), writing.progress)
    answered = [scenario.number for scenario in shared.scenarios if scenario.number not in missing]
    write_json(stage / GATHERED, {"answers": answered, "verified": rules, "figures": writing.figures})
    return [] if writing.verifies else [f"the results were not verified: run pitplan verify {shared.folder}"]


def write_tables(shared: Shared, gathered: Gathered, stage: Path) -> None:
    """Writes the probability of each block, the pits of each scenario, and their quantiles."""
    blocks = pit_probability.read_blocks(shared.folder, codes_of(shared.project))
    tables = {
        PROBABILITY: (pit_probability.by_block(shared, gathered, blocks), columns.PROBABILITY),
        TABLE: (gathered.table, columns.SCENARIOS),
        QUANTILES: (pit_probability.quantiles(gathered.table), columns.QUANTILES),
    }
    for name, (table, of) in tables.items():
        table.to_csv(stage / name, index=False, float_format=of.number_format)


def write_schedule_tables(schedules: Schedules, quantiles: pd.DataFrame, shared: Shared, stage: Path) -> None:
    """Writes the tables of schedules and of the one for all, and common_schedule.json."""
    blocks = pit_probability.read_blocks(shared.folder, codes_of(shared.project))
    csv_writer.write(stage / ONE, schedules.by_block(shared, blocks))
    tables = {
        SCHEDULES: (schedules.table, columns.SCHEDULES),
        ONE_YEARS: (schedules.years, columns.COMMON_YEARS),
        QUANTILES: (quantiles, columns.BLOCK_QUANTILES),
    }
    for name, (table, of) in tables.items():
        with_discounting(table, shared.project).to_csv(stage / name, index=False, float_format=of.number_format)
    write_json(stage / ONE_RECORD, schedules.record(shared))


def write_image(shared: Shared, gathered: Gathered, stage: Path) -> list[str]:
    """Writes the probabilities of all factors as VTK image data; returns a note if VTK is missing."""
    grid = shared.grid
    arrays = {
        f"probability_{factor_text(factor)}": grid.spread(gathered.share[:, k].astype(np.float32))
        for k, factor in enumerate(gathered.factors)
    }
    tonnes = shared.frame[shared.project.table.tonnes].to_numpy()
    try:
        write_vti(stage / IMAGE, grid, {**arrays, "tonnes": grid.spread(tonnes)})
    except MissingPackage as error:
        return [f"{IMAGE} was not written: {error}"]
    return []


def draw(shared: Shared, gathered: Gathered, factor: float, stage: Path) -> None:
    """Draws plans and sections of the probabilities at a factor, and the spread of tonnes and worth. It imports matplotlib itself."""
    from pitplan.figures import scenarios
    from pitplan.figures.style import also_as

    grid, rules = shared.grid, rules_of(shared)
    share = gathered.share[:, gathered.factors.index(factor)]
    solid = grid.spread(shared.frame[shared.project.table.tonnes].to_numpy() > 0)
    count = gathered.table["scenario"].nunique()
    likely = Likely(grid, grid.cube(grid.spread(share)), grid.cube(solid), factor, count, rules)
    with also_as(rules.formats):
        scenarios.write_plans(likely, stage / PICTURES["plans"])
        scenarios.write_sections(likely, stage / PICTURES["sections"])
        scenarios.write_spread(gathered.table, shared.project.economics.currency, stage / PICTURES["spread"])


def draw_values(shared: Shared, schedules: Schedules, stage: Path) -> None:
    """Draws the value of the common schedule and of each scenario's own. It imports matplotlib itself."""
    from pitplan.figures import scenarios
    from pitplan.figures.style import also_as

    with also_as(rules_of(shared).formats):
        scenarios.write(schedules.answered, shared.project.economics.currency, stage / PICTURE_OF_VALUES)


def write_scenarios(
    project: Source, folder: Optional[Place] = None, request: Request = Request(), writing: Writing = Writing()
) -> ScenarioResult:
    """Solves simulated models at several prices, as `pitplan scenarios` does.

    A script calls this below `if __name__ == "__main__":`, since the processes that solve read the script too.

    Parameters
    ----------
    project : Project, str or Path
        A project, or the path of its project.toml.
    folder : str or Path, optional
        Where the files go. Default: scenarios in the project's output folder, or block_scenarios if the request is by block.
    request : Request
        How the scenarios are solved.
    writing : Writing
        How the files are written.

    Returns
    -------
    ScenarioResult
        Notes, and the tables as frames.

    Raises
    ------
    PlanError
        If the project has no `[scenarios]`, a model is not usable, a scenario ends without an answer, or a result differs from its
        independent recalculation.
    MissingPackage
        Without Dask if the request requires it, or by block without the library libpitshell.so.
    """
    project = read(project)
    name = "block_scenarios" if request.by == BLOCK else "scenarios"
    target = project.folder / name if folder is None else Path(folder)
    with staging.alone(target, *FOLDERS):
        solved = run.solve(project, target, request, writing.progress)
        if solved.start is not None:
            return ScenarioResult(target, solved.notes, solved.start)
        notes = (*solved.notes, *gathered(target, request, writing))
    warn(notes, PlanWarning)
    return ScenarioResult(target, notes)


def gather(folder: Place, request: Request = Request(), writing: Writing = Writing()) -> ScenarioResult:
    """Writes probabilities or schedules, tables and pictures of scenarios that others have solved, as `pitplan gather` does.

    Parameters
    ----------
    folder : str or Path
        The folder that `write_scenarios` has prepared.
    request : Request
        Which of the answers are gathered.
    writing : Writing
        How the files are written.

    Returns
    -------
    ScenarioResult
        Notes, and the tables as frames.

    Raises
    ------
    PlanError
        If an answer is missing, unless the request is for part of them, or a result differs from its independent recalculation.
    """
    with staging.alone(Path(folder), *FOLDERS):
        notes = tuple(gathered(Path(folder), request, writing))
    warn(notes, PlanWarning)
    return ScenarioResult(Path(folder), notes)


def gathered(folder: Path, request: Request, writing: Writing) -> list[str]:
    shared = read_shared(folder)
    return write_schedules(shared, request, writing) if shared.is_by_block else write_pits(shared, request, writing)

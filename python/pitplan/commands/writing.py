"""What commands share: how they write, the names of their files, and the folder in which these are staged."""

from __future__ import annotations

import os
import threading
from contextlib import closing, contextmanager, nullcontext, suppress
from dataclasses import asdict, dataclass, replace
from importlib import import_module
from pathlib import Path
from typing import Any, Iterable, Iterator, Optional, Union

import pandas as pd

from pitplan.blockmodel.grid import demand_within
from pitplan.config import project_writer
from pitplan.config.project import FORMATS, Project, inputs_beside, load, validated
from pitplan.core import csv_writer, layout, staging
from pitplan.core.atomic_files import demand_no_folders, hashes, hashes_of, staged, write_json
from pitplan.core.progress import Progress, silent, warn
from pitplan.export import registry
from pitplan.results import names
from pitplan.solver import mine_files, problem
from pitplan.solver.choice import PROGRAM, Solver, chosen
from pitplan.solver.problem import Mine

from ..errors import InputWarning, PlanError, ResultWarning
from ..plan import Plan, prepared
from .verification import AuditProcess, is_apart

# A project, or the path of its project.toml; and a folder.
Source = Union[str, Path, Project]
Place = Union[str, Path]


def figures(*stems: str) -> dict[str, str]:
    return {stem: f"{layout.FIGURES}/{stem}.png" for stem in stems}


PICTURES = figures("pit_by_pit", "years", "plans", "sections", "grade_tonnage")
# With rock types or resource classes.
GEOLOGY_PICTURES = figures("geology")
PUSHBACK_PICTURES = figures("pushback_plans", "pushback_sections")
SCHEDULE_PICTURES = figures("schedule_gantt", "schedule_tonnes", "schedule_value")
# With [price_paths].
PRICE_PICTURES = figures("price_paths")
BLOCK_PICTURES = figures("block_schedule")
OF_PLANS = PICTURES | GEOLOGY_PICTURES | PUSHBACK_PICTURES | SCHEDULE_PICTURES | BLOCK_PICTURES | PRICE_PICTURES
FIGURES = tuple(OF_PLANS.values())
# The project and the block model if they were made in Python.
PROJECT, MODEL = f"{layout.INPUTS}/project.toml", f"{layout.INPUTS}/block_model.csv"
# The files that every run writes or removes.
ALWAYS = (*mine_files.IN_FOLDER, names.RECORD, names.TABLE, project_writer.AS_RUN)
WRITTEN = {*ALWAYS, *names.OF_SOME, *FIGURES}
WRITTEN |= {names.SENSITIVITY, names.SENSITIVITY_RECORD, names.TORNADO, names.SPIDER, *registry.WRITTEN}
WRITTEN |= {names.HILL, names.HILL_FIGURE, names.HILL_WORKBOOK}


@dataclass(frozen=True)
class Writing:
    """How a command writes its folder.

    Attributes
    ----------
    progress : Progress
        Reports the steps; silent by default.
    verifies : bool
        Recalculate all results independently before they are kept.
    figures : bool
        Draw figures. In any case those of an earlier run in the folder are removed, since they show other results.
    workbook : bool
        Write the workbook of a schedule or of a hill of value. In any case that of an earlier run is removed.
    report : bool
        Write report.html. In any case that of an earlier run is removed.
    processes : int, optional
        The most processes at a time that draw figures or solve cases of a sensitivity; 1 uses this process alone. Default: one for each
        processor.
    """

    progress: Progress = silent
    verifies: bool = True
    figures: bool = True
    workbook: bool = True
    report: bool = True
    processes: Optional[int] = None


def in_all_formats(figures: Iterable[str]) -> tuple[str, ...]:
    """The paths of figures such as figures/plans.png in an output folder, in each format that they may have."""
    return tuple(str(Path(name).with_suffix(f".{kind}")) for name in figures for kind in ("png", *FORMATS))


def of_earlier_run(folder: Path) -> tuple[str, ...]:
    """What an earlier run may have written that others do not. A folder without a record has none: such files there are the planner's own."""
    return (*names.OF_SOME, *in_all_formats(FIGURES)) if (folder / names.RECORD).is_file() else ()


@dataclass(frozen=True)
class Run:
    """A command at work.

    Attributes
    ----------
    project : Project
        The project as given. The plan of the mine may have other factors.
    mine : Mine
        The mine of the plan, ready for its solver.
    record : dict
        The record plan.json as far as it is known. Commands add to it.
    stage : Path
        The folder in which files are written before they are moved to their place.
    writing : Writing
        How the folder is written.
    audit : AuditProcess, optional
        The process that verifies the results of a large model, and has begun to read the table.
    """

    project: Project
    mine: Mine
    record: dict[str, Any]
    stage: Path
    writing: Writing
    audit: Optional[AuditProcess] = None


def read(project: Source) -> Project:
    """Returns the project, reading its file if a path is given. A project from Python is checked as a file is. Raises PlanError."""
    return validated(project) if isinstance(project, Project) else load(project)


def demand_apart(project: Project, folder: Path) -> None:
    """Refuses a folder in which a file of the plan would replace an input, also of another mine, or has a folder in its place."""
    demand_no_folders(folder, ALWAYS)
    written = {(folder / name).parent.resolve() / Path(name).name for name in WRITTEN}
    for path in (*project.inputs, *inputs_beside(folder)):
        if path.parent.resolve() / path.name in written:
            raise PlanError(f"{path}: the run would overwrite it: give another folder with --out")


@contextmanager
def locked(project: Project, folder: Path) -> Iterator[None]:
    """Refuses a folder in which an input would be overwritten, and lets no other run write into it during the body. Raises PlanError."""
    demand_apart(project, folder)
    with staging.alone(folder):
        yield


@contextmanager
def begun(project: Project, folder: Path, writing: Writing, planned: Optional[Project] = None) -> Iterator[Run]:
    """Plans a project and yields the run, whose staged files are moved to the folder if no error is raised. The project is one of them. No other run
    writes into the folder at the same time. `planned` is the project that is planned, for example with other factors; by default it is the one that
    is given and recorded. Raises PlanError if the input is not usable, a file would replace an input, or another run writes into the folder, and
    ProgramError if there is no solver."""
    with locked(project, folder):
        solver = chosen(project.solver)
        # With reblocking the rows are many times those of the blocks, and no command uses them.
        plan = replace(prepared(planned or project, progress=writing.progress), given=project, read=None)
        with staged_run(plan, solver, folder, writing) as run:
            yield run
    warn(plan.notes, InputWarning)
    warn([note for note in run.record["notes"] if note not in plan.notes], ResultWarning)


@contextmanager
def staged_run(plan: Plan, solver: Solver, folder: Path, writing: Writing) -> Iterator[Run]:
    """Yields the run of a plan into a folder; see `begun`. `solver` is the one that solves or has solved the plan."""
    plan = placed(plan, folder)
    progress, project = writing.progress, plan.asked
    removed = (*mine_files.IN_FOLDER, *of_earlier_run(folder))
    with staged(folder, names.RECORD, removed, (*layout.FOLDERS, layout.INPUTS)) as stage:
        project_writer.write(project, stage / project_writer.AS_RUN, folder)
        write_inputs(plan, stage)
        demand_within(project, plan.grid)
        with progress.step("writing blocks and precedences" if solver.by == PROGRAM else "listing precedences"):
            mine = problem.ready(plan, solver, stage / layout.SOLVER)
        reads_ahead = writing.verifies and is_apart(len(plan.table))
        with closing(AuditProcess(stage)) if reads_ahead else nullcontext() as audit:
            yield Run(project, mine, plan.record(mine.pairs) | {"solver": asdict(solver)}, stage, writing, audit)


def placed(plan: Plan, folder: Path) -> Plan:
    """A plan whose project, and whose block model if it was a DataFrame, lie among the inputs of the output folder."""
    if plan.has_file and plan.model is None:
        return plan
    as_text = {"separator": None, "decimal": None, "encoding": "utf-8-sig"}

    def moved(project: Project) -> Project:
        table = project.table if plan.model is None else replace(project.table, file=folder / MODEL, **as_text)
        return replace(project, path=folder / PROJECT, table=table)

    return replace(plan, project=moved(plan.project), given=moved(plan.asked))


def write_inputs(plan: Plan, stage: Path) -> None:
    """Writes the block model if it was a DataFrame, and the project if it is not that of a file."""
    if plan.model is not None:
        plan.model.to_csv(stage / MODEL, index=False)
    if not plan.has_file or plan.model is not None:
        project_writer.write(plan.asked, stage / PROJECT, plan.asked.path.parent)


def staged_input(path: Path, stage: Path) -> Path:
    """The place of an input while a run goes on: in the stage if the run writes it, otherwise its own."""
    name = os.path.relpath(path, stage.parent)
    return stage / name if not name.startswith(os.pardir) and (stage / name).is_file() else path


def write_table(blocks: pd.DataFrame, stage: Path) -> None:
    csv_writer.write(stage / names.TABLE, blocks)


def hashed(project: Project, files: list[str], stage: Path) -> dict[str, dict[str, str]]:
    """Returns the hashes of the inputs, by their place relative to the project, and of the written files, as parts of the record."""
    inputs = {name: staged_input(path, stage) for name, path in project.named_inputs.items()}
    return {"inputs": hashes_of(inputs), "files": hashes(stage, [project_writer.AS_RUN, *files])}


def finish(record: dict[str, Any], found: dict[str, dict[str, str]], stage: Path) -> dict[str, Any]:
    """Writes the record with the hashes that `hashed` has found; returns it."""
    record.update(found)
    write_json(stage / names.RECORD, record)
    return record


@contextmanager
def drawing_imported(is_wanted: bool) -> Iterator[None]:
    """Imports what draws, if figures are wanted, while the body waits for the solver, which holds no lock of Python's."""

    def run() -> None:
        # Who draws imports it again, and raises what is wrong.
        with suppress(Exception):
            import_module("pitplan.commands.drawing")

    thread = threading.Thread(target=run, daemon=True)
    if is_wanted:
        thread.start()
    yield
    if is_wanted:
        # No fork may find a module half imported.
        thread.join()

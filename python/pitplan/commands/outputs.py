"""Commands that read an output folder: `pitplan export`, `audit`, `view` and `report`."""

from __future__ import annotations

import os
from pathlib import Path
from typing import Iterable, Optional, Union

from pitplan.config.project import inputs_beside, load
from pitplan.core import staging
from pitplan.core.atomic_files import NotedPath, noted, staged, staged_file
from pitplan.core.progress import Progress, silent
from pitplan.core.revenue_factors import factor_text, factor_texts
from pitplan.export import audit as auditing, planner_table, registry
from pitplan.report import html
from pitplan.results import names
from pitplan.results.folder import Folder, read_folder
from pitplan.results.names import REPORT, VIEW
from pitplan.results.pit_states import FACTOR, Shape

from ..errors import PlanError
from .writing import WRITTEN, Place

# Any export may replace an earlier one.
KEPT = WRITTEN - {*registry.WRITTEN}


def plan_folder(folder: Place) -> Path:
    """Returns the output folder of a plan as a path. Raises PlanError if it is something else, such as a project."""
    path = Path(folder)
    if os.path.lexists(path / names.RECORD):
        return path
    project = path / "project.toml" if path.is_dir() else path
    if project.is_file():
        found = f"a folder without {names.RECORD}" if path.is_dir() else "a file"
        raise PlanError(f"{path}: found {found}, expected the output folder of a plan: {remedy(project)}")
    found = f"found no {names.RECORD}" if path.is_dir() else "not found"
    raise PlanError(f"{path}: {found}, expected the output folder of a plan: give the folder that pitplan shells wrote")


def remedy(project: Path) -> str:
    """Says where the plan of a project is, or how to make it."""
    try:
        folder = load(project).folder
    except PlanError:
        return "give the folder that pitplan shells wrote"
    if (folder / names.RECORD).is_file():
        return f"give {folder}, or the folder that --out named when the plan was made"
    return f"give the folder that --out named when the plan was made, or run pitplan shells {project}, which writes {folder}"


def file_of(out: Optional[Place], default: Path, folder: Folder) -> Path:
    """Returns the file to write: `out`, or the default if it is None. Raises PlanError if `out` is a folder, an input, or a file of a plan."""
    if out is None:
        return default
    path = Path(out)
    if path.is_dir():
        raise PlanError(f"{path}: found a folder, expected a file: give one in it, such as {path / default.name}")
    if path.resolve() != default.resolve():
        demand_free([path], folder)
    return path


def folder_of(out: Optional[Place], default: Path, folder: Folder, written: Iterable[str] = ()) -> Path:
    """Returns the folder to write into: `out`, or the default if it is None. `written` are the names of files that go there. Raises PlanError if
    `out` is a file, or a written file would replace an input or a file of a plan."""
    if out is None:
        return default
    path = Path(out)
    if os.path.lexists(path) and not path.is_dir():
        raise PlanError(f"{path}: found a file, expected a folder: give another name with --out")
    demand_free([path / name for name in written], folder)
    return path


def demand_free(targets: Iterable[Path], folder: Folder) -> None:
    """Raises PlanError if a target is an input or a file of the plan, or of another plan in whose folder it lies."""
    # The record gives the project relative to the folder, and the other inputs relative to the project.
    project = folder.path / folder.record["project"]
    inputs = {project, *(project.parent / name for name in folder.record["inputs"])}
    for target in targets:
        around = [above for above in target.resolve().parents if (above / names.RECORD).is_file()]
        kept = {place / name for place in (folder.path, *around) for name in KEPT}
        kept |= {folder.path / name for name in folder.record["files"]}
        for what, paths in (("an input", {*inputs, *inputs_beside(target.parent)}), ("a file", kept)):
            if any(is_same(target, path) for path in paths):
                raise PlanError(f"{target}: found {what} of the plan, which is not overwritten: give another --out")


def is_same(one: Path, other: Path) -> bool:
    """Whether two paths are one place, or lead to one file."""
    if one.parent.resolve() / one.name == other.parent.resolve() / other.name:
        return True
    return one.exists() and other.exists() and os.path.samefile(one, other)


def write_export(
    folder: Place,
    kind: str,
    shape: Union[Shape, float] = Shape(),
    progress: Progress = silent,
    *,
    out: Optional[Place] = None,
) -> NotedPath:
    """Writes the shells of a folder that `write_shells` has written for other programs.

    Parameters
    ----------
    folder : str or Path
        The output folder of the plan.
    kind : str
        The format. `table` is the planner's own table, row by row, with the revenue factors, pushback and year of each block; `xlsx` has all
        tables; `csv`, `vti`, `vtu`, `omf` (OMF 1) and `dm` (Datamine) hold the shells of all revenue factors. `dxf` has the toes and crests of one shell at each level, and so do
        `gpkg`, `str` and `lines`, in metres. `stl` and `obj` have the closed surface round its blocks.
    shape : Shape or float
        The revenue factor of the pit (default: 1.00, the base price). A Shape selects all pushbacks or years instead, surfaces as a file each
        in a folder, or the ground with the pit in it.
    progress : Progress
        Reports the steps.
    out : str or Path, optional
        The file to write, or the folder for surfaces of pushbacks or years. Default: in the folder of the plan, named by format and shape.

    Returns
    -------
    NotedPath
        The path of the file or folder. Its `notes` give the change of volume if a surface was smoothed, and the names of columns that `dm`
        shortens or leaves out.

    Raises
    ------
    PlanError
        If the folder has no shells or not this revenue factor, pushbacks or years, the format is unknown or has no such shape, the file differs
        from its independent recalculation, or `out` is an input or a file of a plan.
    MissingPackage
        Without a library that the format requires.
    """
    shape = shape if isinstance(shape, Shape) else Shape(revenue_factor=shape)
    registry.demand_apt(kind, shape)
    has_factor = shape.of == FACTOR and kind in registry.OF_ONE
    result = read_factor(folder, shape.revenue_factor) if has_factor else read_folder(plan_folder(folder))
    default = result.path / registry.name_of(kind, shape)
    target = folder_of(out, default, result) if registry.is_folder(kind, shape) else file_of(out, default, result)
    with progress.step(f"writing {target.name}"), registry.staged(target, kind, shape) as path:
        notes = registry.WRITERS[kind](path, result, shape)
    return noted(target, notes or ())


def read_factor(folder: Place, factor: float) -> Folder:
    """Reads the files of a plan. Raises PlanError if there is no shell of this revenue factor."""
    result = read_folder(plan_folder(folder))
    if factor not in result.factors:
        raise PlanError(
            f"revenue factor {factor_text(factor)} is not among the revenue factors {factor_texts(result.factors)}"
        )
    return result


def audit(folder: Place, revenue_factor: float, progress: Progress = silent, out: Optional[Place] = None) -> NotedPath:
    """Writes a folder by which others can check the shell of a revenue factor, with the program and without it.

    Parameters
    ----------
    folder : str or Path
        The output folder of the plan.
    revenue_factor : float
        That of the shell.
    progress : Progress
        Reports the steps.
    out : str or Path, optional
        The folder to write. Default: audit-FACTOR in the folder of the plan.

    Returns
    -------
    NotedPath
        The path of the folder. Its `notes` warn if another release found the shells.

    Raises
    ------
    PlanError
        If the folder has no shells or not this revenue factor, the library found them and an input has changed since, the pit that is found
        again differs from the shell, or a file would replace an input or a file of a plan.
    ProgramError
        If the program refuses.
    """
    result = read_factor(folder, revenue_factor)
    default = result.path / f"audit-{factor_text(revenue_factor)}"
    target = folder_of(out, default, result, auditing.FILES)
    with progress.step(f"writing {target.name}"), staging.alone(target):
        with staged(target, whole=auditing.FILES) as stage:
            auditing.write(stage, result, revenue_factor, progress)
    return noted(target, auditing.notes(target))


def view(folder: Place, progress: Progress = silent, out: Optional[Place] = None) -> Path:
    """Writes a page that shows the shells in 3D.

    Parameters
    ----------
    folder : str or Path
        The output folder of the plan.
    progress : Progress
        Reports the steps.
    out : str or Path, optional
        The file to write. Default: view.html in the folder of the plan.

    Returns
    -------
    Path
        That of the page.

    Raises
    ------
    MissingPackage
        Without libjs-three.
    PlanError
        If the folder has no shells or has changed since the run, or `out` is an input or a file of a plan.
    """
    # It draws, by matplotlib.
    from pitplan.report import viewer3d

    result = read_folder(plan_folder(folder))
    target = file_of(out, result.path / VIEW, result)
    with progress.step("writing the 3D page"), staged_file(target) as path:
        viewer3d.write(path, result)
    return target


def write_report(folder: Place, sensitivity: Optional[Place] = None, progress: Progress = silent) -> Path:
    """Writes report.html of a folder of shells, pushbacks or a schedule again, from its files.

    Parameters
    ----------
    folder : str or Path
        The output folder of the plan.
    sensitivity : str or Path, optional
        The folder of the sensitivity that the report shows. Default: sensitivity in the project's output folder, if all its inputs are
        the same.
    progress : Progress
        Reports the steps.

    Returns
    -------
    Path
        That of report.html.

    Raises
    ------
    PlanError
        If the folder has no shells, it or an input has changed since the run, or `sensitivity` is no sensitivity of these inputs.
    """
    result = read_folder(plan_folder(folder))
    project = planner_table.project_of(result)
    with progress.step("writing the report"), staged_file(result.path / REPORT) as path:
        html.write(path, result.path, project, None if sensitivity is None else Path(sensitivity))
    return result.path / REPORT

"""`pitplan compare`: differences between runs in inputs, results and periods, and what each changed input does to the NPV."""

from __future__ import annotations

import warnings
from collections.abc import Callable, Sequence
from dataclasses import dataclass, field
from pathlib import Path
from tempfile import TemporaryDirectory
from typing import Any, Optional

import pandas as pd

from pitplan.config.project import Project
from pitplan.core import layout
from pitplan.core.atomic_files import hash_of, hashes, staged, write_json
from pitplan.errors import PlanError, PlanWarning
from pitplan.results import names
from pitplan.results.rounding import shown
from pitplan.studies import comparison
from pitplan.studies.comparison import SCHEDULE, SHELLS, BridgeStep, ComparedRun, bridge, read_runs
from planaudit import Rule

from .verification import demand, verify
from .writing import Place, Writing


@dataclass(frozen=True)
class Comparison:
    """A comparison of runs; the first one is the base.

    Attributes
    ----------
    runs : list of ComparedRun
    results, inputs, periods : DataFrame
        One row per run; per run and differing key; per run and period.
    bridge : DataFrame, optional
        One row per run and step; None if it was not asked for.
    folder : Path
        Where the tables were written.
    """

    runs: list[ComparedRun]
    results: pd.DataFrame
    inputs: pd.DataFrame
    periods: pd.DataFrame
    bridge: Optional[pd.DataFrame]
    folder: Path = field(default=Path())

    @property
    def tables(self) -> dict[str, pd.DataFrame]:
        """The tables by the names of their files."""
        found = {names.COMPARED_RESULTS: self.results, names.COMPARED_INPUTS: self.inputs}
        found[names.COMPARED_PERIODS] = self.periods
        return found | ({} if self.bridge is None else {names.BRIDGE: self.bridge})

    @property
    def currency(self) -> str:
        return self.runs[0].project.economics.currency


def compare(
    folders: Sequence[Place], folder: Optional[Place] = None, bridges: bool = True, writing: Writing = Writing()
) -> Comparison:
    """Compares runs of shells or schedules with the first of them, as `pitplan compare` does.

    The folder gets tables of results, inputs and periods, and with bridges the NPV after each changed input, with figures.

    Parameters
    ----------
    folders : sequence of str or Path
        The folders of two or more runs of one kind.
    folder : str or Path, optional
        Where the files go. Default: comparison next to the first folder.
    bridges : bool
        Make a run with each changed input in turn, and verify it as the commands do.
    writing : Writing
        How they are written.

    Returns
    -------
    Comparison

    Raises
    ------
    PlanError
        If there are fewer than two folders, one has no run of the kind of the first, a file of a run has changed, or with bridges an input; or if a
        result of a step differs from its recalculation.
    """
    places = [Path(it) for it in folders]
    if not 2 <= len(places) <= 1 + names.MOST_COMPARED:
        raise PlanError(f"found {len(places)} folders to compare, expected 2 to {1 + names.MOST_COMPARED}")
    runs = read_runs(places)
    target = places[0].resolve().parent / "comparison" if folder is None else Path(folder)
    if target.resolve() in {run.folder.resolve() for run in runs}:
        raise PlanError(f"{target}: is one of the runs: give another folder with --out")
    made_by = Runs(runs[0].kind, writing.verifies)
    found: dict[str, list[BridgeStep]] = {}
    if bridges:
        found = {run.name: bridge(runs[0], run, made_by.npv, writing.progress) for run in runs[1:]}
        demand(made_by.rules)
    steps = comparison.bridges(runs[0], found) if bridges else None
    made = Comparison(runs, comparison.results(runs), comparison.inputs(runs), comparison.periods(runs), steps, target)
    write(made, writing)
    return made


@dataclass
class Runs:
    """The runs of the steps of bridges: of the kind that is compared, in folders that do not last.

    Attributes
    ----------
    verifies : bool
        Recalculate the results of each independently.
    rules : list of Rule
        Those of all runs so far.
    """

    kind: str
    verifies: bool
    rules: list[Rule] = field(default_factory=list)

    def npv(self, project: Project) -> float:
        """Returns the NPV of a run of a project. Raises PlanError if it has no plan."""
        from .plans import write_shells
        from .schedule import write_block_schedule, write_schedule

        writers: dict[str, Callable[..., Any]] = {SHELLS: write_shells, SCHEDULE: write_schedule}
        by = writers.get(self.kind, write_block_schedule)
        with TemporaryDirectory(prefix="pitplan-bridge-") as place, warnings.catch_warnings():
            # The runs that are compared have had these warnings.
            warnings.simplefilter("ignore", PlanWarning)
            path, folder = Path(place) / "project.toml", Path(place) / "run"
            path.write_text(project.to_toml(path.parent), encoding="utf-8")
            by(path, folder, Writing(verifies=False, figures=False))
            if self.verifies:
                self.rules += verify(folder)
            return read_runs([folder])[0].npv


def write(made: Comparison, writing: Writing) -> None:
    """Writes tables, figures and the record comparison.json."""
    with staged(made.folder, names.COMPARISON, names.OF_COMPARISON, (layout.TABLES, layout.FIGURES)) as stage:
        for name, table in made.tables.items():
            shown(table).to_csv(stage / name, index=False)
        if writing.figures:
            with writing.progress.step("drawing"):
                draw(made, stage)
        write_json(stage / names.COMPARISON, record_of(made) | {"files": hashes(stage, [*made.tables])})


def record_of(made: Comparison) -> dict[str, Any]:
    runs = [
        {"name": run.name, "folder": str(run.folder.resolve()), "sha256": hash_of(run.folder / names.RECORD)}
        for run in made.runs
    ]
    return {"kind": made.runs[0].kind, "runs": runs, "bridge": made.bridge is not None}


def draw(made: Comparison, stage: Path) -> None:
    """Draws the periods, and a bridge for each run after the first."""
    from pitplan.figures import comparison

    comparison.write_periods(made.periods, made.currency, stage / names.PERIODS_FIGURE)
    if made.bridge is not None:
        for number, run in enumerate(made.runs[1:], 1):
            comparison.write_bridge(made.bridge, run.name, made.currency, stage / names.bridge_figure(number))

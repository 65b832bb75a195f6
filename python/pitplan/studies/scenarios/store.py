"""The folder of a set of scenarios: workers read it, and write their results into it.

    scenarios.json      what there is to solve, and what it was made of
    project.toml        the project that was run, whose files are named from the place of its first text
    solver/base.npz     the blocks without grades: cell, tonnes, rock type; and which cells the constraints settle
    solver/starts.npy,  the precedences as compressed rows for the library, once for all scenarios; with constraints those of the
    solver/needs.npy    reduced mine
    solver/mine.prec    or the same for the program, if the program solves
    solver/diggable.npz or, if blocks are scheduled, the blocks that may be mined, with their precedences,
    solver/mean.npz     and their amounts and values on the mean of all scenarios
    realisations/HASH.npy the grades of one, shape (blocks, metals)
    done/KEY.npz        the result of a scenario; its key is a hash of every input
    failed/KEY.json     why a scenario has no result
"""

from __future__ import annotations

import hashlib
import json
import os
import platform
from dataclasses import asdict, dataclass, replace
from decimal import Decimal
from functools import cached_property
from pathlib import Path
from typing import Any, Optional

import numpy as np
import pandas as pd
import scipy

from pitplan.blockmodel.grid import Grid, grid_of
from pitplan.config.project import Project, load
from pitplan.config.schedule import ScheduleRules
from pitplan.constraints import Settled
from pitplan.core.atomic_files import hash_of, staged_file, write_json
from pitplan.core.layout import SOLVER
from pitplan.core.libraries import release
from pitplan.errors import PlanError
from pitplan.precedences import PrecedenceRows
from pitplan.solver import mine_files
from pitplan.solver.choice import Solver

RECORD, PROJECT = "scenarios.json", "project.toml"
BASE, STARTS, PRECEDENCES = f"{SOLVER}/base.npz", f"{SOLVER}/starts.npy", f"{SOLVER}/needs.npy"
PREC, DIGGABLE, MEAN = f"{SOLVER}/{mine_files.PREC}", f"{SOLVER}/diggable.npz", f"{SOLVER}/mean.npz"
FOLDERS = MODELS, DONE, FAILED = "realisations", "done", "failed"
# Version of the files of input and results: since 2 results hold their own key, since 3 arrays have the names of keys, since 4 shares are by process.
FORM = 4
# The sources of the search for schedules.
SEARCH = Path(__file__).parents[2] / "scheduling" / "blocks"
# The result of each scenario: its pits, or a schedule of its blocks.
PIT, BLOCK = "pit", "block"


@dataclass(frozen=True)
class Scenario:
    """A realisation at a price deck.

    Attributes
    ----------
    number : int
        From 1.
    realisation : str
        Its name.
    grades : str
        Hash of its grades; "" for the mean of all scenarios.
    prices : dict of str to str
        Prices by metal.
    key : str
        That of its result.
    """

    number: int
    realisation: str
    grades: str
    prices: dict[str, str]
    key: str

    @property
    def is_mean(self) -> bool:
        return not self.grades

    @property
    def label(self) -> str:
        """Realisation and prices in words."""
        said = ", ".join(f"{metal} {price}" for metal, price in self.prices.items())
        return f"{self.realisation} at {said}" if said else self.realisation

    def priced(self) -> dict[str, Decimal]:
        return {metal: Decimal(price) for metal, price in self.prices.items()}


@dataclass(frozen=True)
class Shared:
    """The common input of the scenarios of a folder.

    Attributes
    ----------
    folder : Path
    project : Project
    frame : DataFrame
        Tonnes and rock type, one row per block.
    grid : Grid
    ore : array of int, shape (nodes,)
        The block of each processing node.
    record : dict
        scenarios.json.
    solver : Solver
    settled : Settled, optional
        The cells that constraints force in and sterilise; None without constraints.
    """

    folder: Path
    project: Project
    frame: pd.DataFrame
    grid: Grid
    ore: np.ndarray
    record: dict[str, Any]
    solver: Solver
    settled: Optional[Settled] = None

    @cached_property
    def rows(self) -> PrecedenceRows:
        """The precedences for the library, in memory that all processes of a machine share."""
        starts, precedences = (
            np.load(self.folder / name, mmap_mode="r", allow_pickle=False) for name in (STARTS, PRECEDENCES)
        )
        return PrecedenceRows(starts, precedences)

    @property
    def is_by_block(self) -> bool:
        """Whether blocks are scheduled, instead of pits found."""
        return self.record.get("by", PIT) == BLOCK

    @property
    def called(self) -> str:
        """The jobs in words."""
        return "schedules" if self.is_by_block else "scenarios"

    @property
    def scenarios(self) -> list[Scenario]:
        return [Scenario(**entry) for entry in self.record["scenarios"]]

    @property
    def jobs(self) -> list[Scenario]:
        """The jobs that have a result each: the scenarios and, if blocks are scheduled, the mean of all for the common schedule."""
        return [*self.scenarios, *([Scenario(**self.record["mean"])] if self.is_by_block else [])]

    def answer(self, scenario: Scenario) -> Path:
        return self.folder / DONE / f"{scenario.key}.npz"

    def failure(self, scenario: Scenario) -> Path:
        return self.folder / FAILED / f"{scenario.key}.json"

    def missing(self) -> list[Scenario]:
        """The jobs that have no result yet."""
        return [job for job in self.jobs if not self.answer(job).is_file()]

    def grades(self, scenario: Scenario) -> np.ndarray:
        """Reads the grades of a scenario, shape (blocks, metals). Raises PlanError if the file has changed since it was written."""
        path = self.folder / MODELS / f"{scenario.grades}.npy"
        try:
            grades: np.ndarray = np.load(path, allow_pickle=False)
        except (OSError, EOFError, ValueError, SyntaxError) as error:
            raise PlanError(
                f"{path}: cannot be read as grades: remove it, and run pitplan scenarios again: {error}"
            ) from error
        if hash_of_arrays({"grades": grades}) != scenario.grades:
            raise PlanError(f"{path}: has changed since it was written: remove it, and run pitplan scenarios again")
        return grades


def demand_same_kind(folder: Path, by: str) -> None:
    """Raises PlanError if the folder has results of another kind, whose tables would mix with the new ones."""
    try:
        begun = json.loads((folder / RECORD).read_text(encoding="utf-8")).get("by", PIT)
    except (OSError, ValueError, AttributeError):
        return
    if begun != by:
        raise PlanError(f"{folder}: holds scenarios --by {begun}: give another folder by --out for those --by {by}")


def demand_no_mine(folder: Path) -> None:
    """Raises PlanError if the folder has a project.toml that no run of scenarios wrote, which this run would replace."""
    has_scenarios = (folder / RECORD).exists() or (folder / BASE).exists()
    if (folder / PROJECT).exists() and not has_scenarios:
        raise PlanError(f"{folder / PROJECT}: scenarios would replace this project: give another folder by --out")


def demand_same_version(folder: Path, wrote: str) -> None:
    """Raises PlanError if another version of pitplan wrote the folder's record, as on a host where another one is installed."""
    if wrote != release():
        raise PlanError(
            f"{folder / RECORD}: pitplan {wrote} wrote it, and {platform.node()} has {release()}: "
            "install one version on all hosts, or run pitplan scenarios again"
        )


def read_shared(folder: Path) -> Shared:
    """Reads the common input of a folder.

    Raises
    ------
    PlanError
        If pitplan scenarios has not written it, another version has, or a file has changed since.
    """
    try:
        record = json.loads((folder / RECORD).read_text(encoding="utf-8"))
        demand_same_version(folder, record["pitplan"])
        if record["form"] != FORM:
            raise KeyError(f"form {record['form']}, expected {FORM}")
        for name, digest in record["files"].items():
            if hash_of(folder / name) != digest:
                raise PlanError(f"{folder / name}: has changed since {RECORD} was written: run pitplan scenarios again")
        with np.load(folder / BASE, allow_pickle=False) as base:
            arrays = {name: base[name] for name in base.files}
        solver = Solver(**record["solver"])
    except OSError as error:
        raise PlanError(f"{error.filename}: cannot be read: run pitplan scenarios first") from error
    except (ValueError, KeyError, TypeError) as error:
        raise PlanError(
            f"{folder / RECORD}: is not a record of scenarios: {error}: run pitplan scenarios again"
        ) from error
    grid = grid_of(record["grid"], arrays.pop("cells"))
    ore = arrays.pop("ore")
    settled = Settled(arrays.pop("mined"), arrays.pop("left")) if "mined" in arrays else None
    return Shared(folder, load(folder / PROJECT), pd.DataFrame(arrays), grid, ore, record, solver, settled)


def key_of(parts: dict[str, Any]) -> str:
    """Returns the key of a result: a hash of every input, and of the version of the files of results."""
    return hashlib.sha256(json.dumps({"form": FORM, **parts}, sort_keys=True, default=repr).encode()).hexdigest()[:20]


def meaning(project: Project) -> dict[str, Any]:
    """Returns the parts of a project that change block values and precedences, without prices, blocks and survey files."""
    without_prices = [asdict(replace(metal, price=Decimal(0))) for metal in project.metals]
    parts = {"money": asdict(project.economics), "metals": without_prices, "slopes": asdict(project.slopes)}
    parts |= {"haulage": asdict(project.haulage)} if project.haulage else {}
    # Pits do not depend on the capacities of processes.
    processes = [asdict(replace(process, capacity=0.0)) for process in project.processes]
    parts |= {"processes": processes} if processes else {}
    parts |= {"classes": asdict(project.classes)} if project.table.resource_class else {}
    return parts | ({"reblock": asdict(project.table.reblock)} if project.table.reblock else {})


def surfaces_of(project: Project) -> dict[str, Any]:
    """Returns layers, height field and hashes of the files of topography, original ground and as-mined surface."""
    rules = project.constraints
    named = {"topography": project.table.topography}
    named |= {"original": rules.topography, "as mined": rules.as_mined} if rules and rules.as_mined else {}
    return {
        name: {"layers": file.layers, "height": file.height, "files": [hash_of(path) for path in file.parts]}
        for name, file in named.items()
        if file is not None
    }


def meaning_of_years(project: Project, years: int) -> dict[str, Any]:
    """Returns the further input of a schedule over a number of years: limits, discounting, and the search, which is not proved."""
    shells, rules = project.shells, project.schedule or ScheduleRules()
    limits = {"ore": shells.processing_capacity, "rock": shells.mining_capacity, "rules": asdict(rules)}
    search = {
        "highs": f"scipy {scipy.__version__}",
        "sources": [hash_of(path) for path in sorted(SEARCH.glob("*.py"))],
    }
    of_years = {"processes": [asdict(it) for it in project.processes], "calendar": asdict(shells.calendar)}
    of_years |= {"dumps": [asdict(it) for it in project.dumps]} if project.dumps else {}
    discounting = {"rate": shells.discount_rate, "discounting": shells.discounting}
    return {**limits, **search, **of_years, **discounting, "years": years}


def hash_of_arrays(arrays: dict[str, np.ndarray]) -> str:
    digest = hashlib.sha256()
    for name, values in sorted(arrays.items()):
        values = np.ascontiguousarray(values)
        digest.update(f"{name} {values.dtype} {values.shape};".encode())
        digest.update(values.tobytes())
    return digest.hexdigest()


def save_grades(folder: Path, grades: np.ndarray) -> str:
    """Writes the grades of a realisation if they are not there yet; returns their hash, which names the file."""
    name = hash_of_arrays({"grades": grades})
    path = folder / MODELS / f"{name}.npy"
    if not path.is_file():
        with staged_file(path) as place:
            np.save(place, grades)
    return name


def save_failure(shared: Shared, scenario: Scenario, status: Optional[int], sentence: str) -> None:
    """Records why a scenario has no result; `status` is the solver's, None if it did not run."""
    path = shared.failure(scenario)
    with staged_file(path) as place:
        write_json(place, {"number": scenario.number, "label": scenario.label, "status": status, "why": sentence})


def read_failure(shared: Shared, scenario: Scenario) -> str:
    try:
        return str(json.loads(shared.failure(scenario).read_text(encoding="utf-8"))["why"])
    except (OSError, ValueError, KeyError):
        return "was not solved"


def forget_failure(shared: Shared, scenario: Scenario) -> None:
    try:
        os.remove(shared.failure(scenario))
    except FileNotFoundError:
        pass

"""Compares runs: their inputs key by key, their results by period, and the bridge of NPV, in which each changed input is applied in turn."""

from __future__ import annotations

import copy
import os
from collections.abc import Callable, Iterator, Sequence
from dataclasses import dataclass
from functools import cached_property
from pathlib import Path
from typing import Any, Optional

import numpy as np
import pandas as pd

from pitplan.config import project_writer, toml_text
from pitplan.config.economics import GRADE_UNITS
from pitplan.config.periods import PERIOD
from pitplan.config.project import Project, of_data
from pitplan.config.project_writer import place, shown
from pitplan.core.atomic_files import hash_of
from pitplan.core.progress import Progress, silent
from pitplan.errors import MissingPackage, PlanError
from pitplan.pits.shells import npv_of
from pitplan.results import names
from pitplan.results.folder import read_record
from pitplan.results.rounding import decimals_of

SHELLS, SCHEDULE, BLOCK = "shells", "schedule", "block"
# By kind the command that writes such a run; and what errors ask for.
EXPECTED = "a folder of pitplan shells or schedule"
MADE_BY = {SHELLS: "pitplan shells", SCHEDULE: "pitplan schedule", BLOCK: "pitplan schedule --by block"}


@dataclass(frozen=True)
class ComparedRun:
    """A run.

    Attributes
    ----------
    name : str
        What tables and figures call it.
    record : dict
        plan.json.
    project : Project
        The project as run.
    """

    name: str
    folder: Path
    record: dict[str, Any]
    project: Project

    @property
    def kind(self) -> str:
        """SHELLS, SCHEDULE or BLOCK."""
        return BLOCK if "by_block" in self.record else SCHEDULE if "schedule" in self.record else SHELLS

    @property
    def case(self) -> str:
        """The case of years.csv whose periods are compared."""
        if self.kind == SHELLS:
            return "best" if self.project.shells.specified is None else "specified"
        return BLOCK if self.kind == BLOCK else str(self.record["schedule"])

    @property
    def word(self) -> str:
        """What tables call a period."""
        return self.project.shells.calendar.word

    def table(self, name: str) -> pd.DataFrame:
        """Returns a table. Raises PlanError if it is missing, or has changed since the run."""
        path = self.folder / name
        try:
            if self.record["files"].get(name) != hash_of(path):
                raise PlanError(f"{path}: has changed since the run: run {MADE_BY[self.kind]} again")
        except OSError as error:
            raise PlanError(f"{path}: cannot be read: run {MADE_BY[self.kind]} again") from error
        return pd.read_csv(path)

    @cached_property
    def row(self) -> pd.Series:
        """The row of the selected shell in shells.csv, or of the shown method in methods.csv, with `npv`."""
        if self.kind == SHELLS:
            table = self.table(names.SHELLS)
            found = table.assign(npv=npv_of(table)).set_index("revenue_factor")
            return found.loc[self.record["shells"]["selected"]]
        return self.table(names.METHODS).set_index("method").loc[self.case]

    @property
    def npv(self) -> float:
        return float(self.row["npv"])

    @cached_property
    def years(self) -> pd.DataFrame:
        """The periods of the compared case, with a column `year`."""
        table = self.table(names.YEARS)
        mine = table[table["case"] == self.case]
        if self.kind == SHELLS:
            mine = mine[mine["revenue_factor"] == self.record["shells"]["selected"]]
        return mine.rename(columns={self.word: "year"}).reset_index(drop=True)

    @cached_property
    def feed(self) -> Optional[pd.DataFrame]:
        """feed.csv of the shown method, with a column `year`; None without a schedule of pushbacks."""
        if self.kind != SCHEDULE:
            return None
        table = self.table(names.FEED)
        return table[table["method"] == self.case].rename(columns={self.word: "year"})

    def demand_inputs(self) -> None:
        """Raises PlanError if an input file has changed since the run was made."""
        for name, path in self.project.named_inputs.items():
            if path == self.project.path:
                continue
            if not path.is_file() or self.record["inputs"].get(name) != hash_of(path):
                why = "is not as it was for this run, so nothing can be run with it again"
                raise PlanError(f"{path}: {why}: run {self.folder} again, or compare with --no-bridge")


def read_runs(folders: Sequence[Path]) -> list[ComparedRun]:
    """Reads runs of one kind; the first one is the base. Raises PlanError if a folder has no shells or schedule, two are of different kinds, or their
    currencies differ."""
    found = []
    for name, folder in zip(names_of(folders), folders):
        try:
            record = read_record(folder)
            if "shells" not in record or "pushbacks" in record and "schedule" not in record:
                raise PlanError(f"{folder}: found no shells or schedule, expected {EXPECTED}")
            found.append(ComparedRun(name, folder, record, project_writer.as_run(folder, record["project"])))
        except OSError as error:
            raise PlanError(f"{error.filename}: cannot be read: expected {EXPECTED}") from error
    base = found[0]
    for run in found[1:]:
        if run.kind != base.kind:
            raise PlanError(
                f"{run.folder}: found a run of {MADE_BY[run.kind]}, expected one of {MADE_BY[base.kind]}, as {base.folder} is"
            )
        if run.project.economics.currency != base.project.economics.currency:
            one, other = (it.project.economics.currency or "none" for it in (run, base))
            raise PlanError(f"{run.folder}: found the currency {one}, expected {other}, as {base.folder} has")
    return found


def names_of(folders: Sequence[Path]) -> list[str]:
    """Returns the names of folders; if two have one name, their paths without what all have in common."""
    paths = [folder.resolve() for folder in folders]
    if len({path.name for path in paths}) == len(paths):
        return [path.name for path in paths]
    common = 0
    while len({path.parts[common] for path in paths if len(path.parts) > common}) == 1:
        common += 1
    found = ["/".join(path.parts[common:]) or path.name for path in paths]
    return [name if found.count(name) == 1 else f"{name} {number}" for number, name in enumerate(found, 1)]


Data = dict[str, Any]
# Sections that change no result of a run, and the names of entries in lists of sections.
SILENT = ("title", "output", "figures", "sensitivity", "scenarios")
NAME = "name"


@dataclass(frozen=True)
class KeyChange:
    """A key whose values differ.

    Attributes
    ----------
    path : tuple of str
        Section, name of the entry if the section is a list of named ones, and key; shorter if a section or an entry is new or gone.
    base, value : object
        The values; None where none exists.
    """

    path: tuple[str, ...]
    base: Any
    value: Any

    @property
    def key(self) -> str:
        return " ".join(self.path)

    @property
    def matters(self) -> bool:
        return self.path[0] not in SILENT

    def texts(self) -> tuple[str, str]:
        """Returns the values as in a project.toml; "" where none exists."""
        return text_of(self.base), text_of(self.value)

    def made_in(self, data: Data) -> Data:
        """Returns the sections of a project with the value of this key."""
        found = copy.deepcopy(data)
        section, *inner = self.path
        if not inner:
            set_key(found, section, self.value)
        elif isinstance(found.get(section), list):
            change_entry(found[section], inner, self.value)
        else:
            set_key(found.setdefault(section, {}), inner[0], self.value)
        return found


def set_key(data: Data, key: str, value: Any) -> None:
    """Sets a key, or removes it if the value is None."""
    if value is None:
        data.pop(key, None)
    else:
        data[key] = copy.deepcopy(value)


def change_entry(entries: list[Data], inner: list[str], value: Any) -> None:
    """Changes a key of a named entry; without a key the entry as a whole, which is added at the end if it is new."""
    place = next((k for k, it in enumerate(entries) if str(it.get(NAME)) == inner[0]), len(entries))
    if len(inner) > 1:
        set_key(entries[place], inner[1], value)
    else:
        entries[place : place + 1] = [] if value is None else [copy.deepcopy(value)]


def text_of(value: Any) -> str:
    """Returns a value as in a project.toml, a section as an inline table; "" of None."""
    return "" if value is None else shown(value)


def data_of(run: ComparedRun, base: ComparedRun, folder: Path) -> Data:
    """Returns the sections of a run's project as parsed TOML, with paths relative to a folder. A file with the content of one of the base has
    the path of that one."""
    alike = {digest: place(base.project.path.parent / name, folder) for name, digest in base.record["inputs"].items()}
    own = {place(run.project.path.parent / name, folder): it for name, it in run.record["inputs"].items()}
    paths = {path: alike[digest] for path, digest in own.items() if digest in alike}
    return renamed(toml_text.parsed(run.project.to_toml(folder), str(run.project.path)), paths)


def renamed(value: Any, paths: dict[str, str]) -> Any:
    """Returns a value of a project with other paths."""
    if isinstance(value, dict):
        return {key: renamed(item, paths) for key, item in value.items()}
    if isinstance(value, list):
        return [renamed(item, paths) for item in value]
    return paths.get(value, value) if isinstance(value, str) else value


def project_of(data: Data, folder: Path, path: Path) -> Project:
    """Returns the project of sections whose paths are relative to a folder. Raises PlanError if it is not valid."""
    return of_data(data, folder / "project.toml", str(path))


def common_folder(runs: Sequence[ComparedRun]) -> Path:
    """Returns a folder from which the inputs of all projects can be named."""
    return Path(os.path.commonpath([str(run.project.path.resolve().parent) for run in runs]))


def changes(base: Data, other: Data) -> list[KeyChange]:
    """Returns the keys whose values differ, in the order of sections, those of the base first."""
    found: list[KeyChange] = []
    for section in dict.fromkeys([*base, *other]):
        one, two = base.get(section), other.get(section)
        if one == two:
            continue
        if one is not None and two is not None and is_named(one) and is_named(two):
            found += of_entries(section, one, two)
        elif isinstance(one, dict) and isinstance(two, dict):
            found += [KeyChange((section, key), a, b) for key, a, b in of_keys(one, two)]
        else:
            found.append(KeyChange((section,), one, two))
    return found


def is_named(value: Any) -> bool:
    """Returns whether a value is a list of sections that all have a name."""
    return isinstance(value, list) and bool(value) and all(isinstance(it, dict) and NAME in it for it in value)


def of_entries(section: str, one: list[Data], two: list[Data]) -> Iterator[KeyChange]:
    """Yields the differences of two lists of named sections; if only their order differs, the lists."""
    base, other = ({str(it[NAME]): it for it in entries} for entries in (one, two))
    if base == other:
        yield KeyChange((section,), one, two)
        return
    for name in dict.fromkeys([*base, *other]):
        if name in base and name in other:
            yield from (KeyChange((section, name, key), a, b) for key, a, b in of_keys(base[name], other[name]))
        else:
            yield KeyChange((section, name), base.get(name), other.get(name))


def of_keys(one: Data, two: Data) -> Iterator[tuple[str, Any, Any]]:
    """Yields the keys of two sections whose values differ, with these."""
    for key in dict.fromkeys([*one, *two]):
        if one.get(key) != two.get(key):
            yield key, one.get(key), two.get(key)


Npv = Callable[[Project], float]


@dataclass(frozen=True)
class BridgeStep:
    """A step of the bridge.

    Attributes
    ----------
    keys : tuple of str
        The keys that are changed: one, or several that are only valid together.
    npv : float
        The NPV with these and all earlier changes.
    change : float
        By how much it differs from that of the step before.
    """

    keys: tuple[str, ...]
    npv: float
    change: float


def bridge(base: ComparedRun, other: ComparedRun, npv: Npv, progress: Progress = silent) -> list[BridgeStep]:
    """Returns the steps from a run to another. The NPVs at both ends are those of the runs; `npv` makes the run of a step. The order is that of the
    sections of a project. Another order divides the difference in another way, since inputs act together. Raises PlanError if an input file has
    changed since its run."""
    for run in (base, other):
        run.demand_inputs()
    folder = common_folder([base, other])
    start, end = (data_of(run, base, folder) for run in (base, other))
    asked = [it for it in changes(start, end) if it.matters]
    return steps_of(base, other, asked, Trial(start, folder, other.project.path, npv, progress))


@dataclass
class Trial:
    """The sections of a project to which changes are applied, and how its NPV is found."""

    data: Data
    folder: Path
    path: Path
    npv: Npv
    progress: Progress

    def with_changes(self, asked: list[KeyChange]) -> float:
        """Applies changes and returns the NPV. Raises PlanError, with nothing applied, if the project is not valid or has no plan."""
        data = self.data
        for change in asked:
            data = change.made_in(data)
        found = self.npv(project_of(data, self.folder, self.path))
        self.data = data
        return found


def steps_of(base: ComparedRun, other: ComparedRun, asked: list[KeyChange], trial: Trial) -> list[BridgeStep]:
    """Returns the steps. What is not valid alone is joined with the next change; the last step ends at the other run."""
    found: list[BridgeStep] = []
    pending: list[KeyChange] = []
    npv = base.npv
    for number, change in enumerate(asked, 1):
        pending.append(change)
        if number < len(asked):
            with trial.progress.step(f"{other.name}: {number} of {len(asked)} changed inputs, {change.key}"):
                try:
                    then = trial.with_changes(pending)
                except MissingPackage:
                    raise
                except PlanError:
                    continue
        else:
            then = other.npv
        found.append(BridgeStep(tuple(it.key for it in pending), then, then - npv))
        npv, pending = then, []
    return found


# Columns that are no amounts.
KEYS = ("run", "year", "case")
FLOWS = ("total_tonnes", "feed_tonnes")
CASH = ("fixed_cost", "capex", "cash_flow", "discounted_cash_flow")
RESULTS = (
    *("npv", "upper_bound", "npv_best", "npv_worst", "npv_specified", "years", "tonnes", "feed_tonnes"),
    *("waste_tonnes", "strip_ratio", "unmined_tonnes"),
)


def inputs(runs: Sequence[ComparedRun]) -> pd.DataFrame:
    """Returns one row per run after the first and key whose value differs. Columns: run, key, base and value as in a project.toml."""
    base, rows = runs[0], []
    folder = common_folder(runs)
    for run in runs[1:]:
        for change in changes(data_of(base, base, folder), data_of(run, base, folder)):
            if change.path[0] != "output":
                rows.append((run.name, change.key, *change.texts()))
        rows += [(run.name, f"file {name}", one[:12], two[:12]) for name, one, two in files(base, run)]
    return pd.DataFrame(rows, columns=["run", "key", "base", "value"])


def files(base: ComparedRun, run: ComparedRun) -> list[tuple[str, str, str]]:
    """Returns the input files of one name and other content: the name, and both hashes. The projects themselves are compared by key."""
    one, two = ({str(path.resolve()): name for name, path in it.project.named_inputs.items()} for it in (base, run))
    found = []
    for path in [it for it in one if it in two and it != str(base.project.path.resolve())]:
        hashes = base.record["inputs"].get(one[path], ""), run.record["inputs"].get(two[path], "")
        if hashes[0] != hashes[1]:
            found.append((one[path], *hashes))
    return found


def results(runs: Sequence[ComparedRun]) -> pd.DataFrame:
    """Returns one row per run: NPVs and the amounts of the selected shell or the shown method, and `npv_change` from the first run."""
    rows = []
    for run in runs:
        of_metals = [it for it in map(str, run.row.index) if it.startswith(("head_grade_", "recovered_"))]
        names = [*(name for name in RESULTS if name in run.row), *of_metals]
        rows.append({"run": run.name} | {name: float(run.row[name]) for name in names})
    table = pd.DataFrame(rows)
    table.insert(2, "npv_change", table["npv"] - table["npv"].iloc[0])
    return table


def periods(runs: Sequence[ComparedRun]) -> pd.DataFrame:
    """Returns one row per run and period: tonnes, head grades of schedules, metal and cash flows, each with `_change` from the first run.

    A period in which a run does nothing has zeros if another run has it. Changes are empty if the periods of some run end at other times.
    """
    count = max((int(run.years["year"].max()) for run in runs if len(run.years)), default=0)
    tables = [of_run(run, count) for run in runs]
    names = [name for name in dict.fromkeys(name for table in tables for name in table) if name not in KEYS]
    tables = [table.reindex(columns=["run", "year", *names]) for table in tables]
    ends = [run.project.shells.calendar.ends(count) for run in runs]
    alike = all((it == ends[0]).all() for it in ends)
    for table in tables:
        for name in names:
            change = table[name].to_numpy() - tables[0][name].to_numpy() if alike else np.full(count, np.nan)
            table[f"{name}_change"] = np.round(change, decimals_of(name) or 0) + 0.0
    found = pd.concat(tables, ignore_index=True)
    return found.rename(columns={"year": PERIOD}) if any(run.word == PERIOD for run in runs) else found


def of_run(run: ComparedRun, count: int) -> pd.DataFrame:
    index = pd.RangeIndex(1, count + 1, name="year")
    years = run.years.set_index("year")
    metals = [name for name in years if str(name).startswith("recovered_")]
    table = years[[*FLOWS, *metals, *(name for name in CASH if name in years)]].reindex(index, fill_value=0.0)
    for position, (name, grades) in enumerate(head_grades(run, index).items(), 2):
        table.insert(position, name, grades)
    table.insert(0, "run", run.name)
    return table.reset_index()


def head_grades(run: ComparedRun, index: pd.RangeIndex) -> dict[str, pd.Series]:
    """Returns the mean head grade of all feed by metal and period; nan without feed."""
    if run.feed is None:
        return {}
    found = {}
    sums = run.feed.groupby("year").sum(numeric_only=True).reindex(index, fill_value=0.0)
    for metal in run.project.metals:
        content = sums[f"contained_{metal.name}"] / float(GRADE_UNITS[metal.unit])
        found[f"head_grade_{metal.name}"] = content / sums["feed_tonnes"].where(sums["feed_tonnes"] > 0, np.nan)
    return found


def bridges(base: ComparedRun, found: dict[str, list[BridgeStep]]) -> pd.DataFrame:
    """Returns one row per run and step. Columns: run, step from 0 (the first run), key (several with commas), npv, and npv_change."""
    rows = []
    for name, steps in found.items():
        rows.append((name, 0, base.name, base.npv, 0.0))
        rows += [(name, number, ", ".join(it.keys), it.npv, it.change) for number, it in enumerate(steps, 1)]
    return pd.DataFrame(rows, columns=["run", "step", "key", "npv", "npv_change"])

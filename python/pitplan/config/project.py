"""The one input of a plan besides the table: `project.toml`, read into typed records and checked whole."""

from __future__ import annotations

import os
from collections.abc import Collection
from dataclasses import dataclass, replace
from decimal import Decimal
from pathlib import Path
from typing import Any, Iterable, Iterator, Mapping, Optional, Union

from pitplan.core.revenue_factors import BASE_PRICE
from pitplan.errors import PlanError

from . import keys, toml_text
from .agreement import demand, demand_calendar, faults_of
from .economics import ALL, CashFlowRules, Economics, Metal, Process
from .geometry import ConstraintRules, Haulage, Slopes
from .keys import Key, ValueKind, amount, choice, inline, key, listed, new, one_or_more, tables, text
from .material import ClassRules, Dump, FeedGrade
from .overrides import LISTS, overridden
from .periods import Calendar, Period, sections_of
from .schedule import ScheduleRules
from .shells import PushbackRules, ShellRules
from .studies import PricePaths, Scenarios, SensitivityRules
from .table import GridRules, TableColumns
from .toml_text import ProjectSource, Section, as_toml

MOST_LEVELS_SHOWN = 7
FORMATS = ("pdf", "svg")


@dataclass(frozen=True)
class FigureRules:
    """What plans and sections show; what is left out is chosen by the pit."""

    levels: tuple[float, ...] = key(
        listed(amount(None), f"of one to {MOST_LEVELS_SHOWN} elevations in metres", MOST_LEVELS_SHOWN),
        f"elevations within the levels that are drawn, 1 to {MOST_LEVELS_SHOWN}",
        (),
        "m",
        otherwise="by the pit",
    )
    north: Optional[float] = key(amount(None), "northing of section A", None, "m", otherwise="by the pit")
    east: Optional[float] = key(amount(None), "easting of section B", None, "m", otherwise="by the pit")
    metal: Optional[str] = key(text, "whose grades sections show", None, otherwise="the first")
    formats: tuple[str, ...] = key(
        replace(one_or_more(choice(*FORMATS), "must be a format or a list of formats"), range=""),
        '`"pdf"`, `"svg"`, besides PNG',
        (),
    )


# The folder of results if the project names none.
OUTPUT = "plan"


@dataclass(frozen=True)
class Output:
    folder: str = key(keys.text, "output folder of commands without `--out`", OUTPUT)


def read_output(section: Section, name: str, _: Any) -> Path:
    return section.source.folder / keys.read(Output, section.section(name)).folder


def write_shells(shells: ShellRules, folder: Path) -> dict[str, Any]:
    """The base price, 1.0, is left out if it was added: a reader adds it."""
    left = {BASE_PRICE} if shells.base_price_added else set()
    given = tuple(factor for factor in shells.revenue_factors if factor not in left)
    return keys.write(replace(shells, revenue_factors=given), folder)


OF_OUTPUT = ValueKind(
    read_output, keys.schema(Output), write=lambda path, folder: {"folder": keys.place(path, folder)}, record=Output
)
OF_SHELLS = replace(keys.table(ShellRules), write=write_shells)


@dataclass(frozen=True, kw_only=True)
class Project:
    """All that `project.toml` says.

    Attributes
    ----------
    path : Path
        The file.
    folder : Path
        Of the results.
    solver : str, optional
        What the file does not say: which finds the pits, "library" or "program"; None: the library if there is one.
    """

    path: Path
    title: str = key(keys.line, "one line of plain text, for reports", "", otherwise="the folder's name")
    folder: Path = key(OF_OUTPUT, "results", Path(OUTPUT), name="output")
    table: TableColumns = key(keys.table(TableColumns), "the block model", in_python=None)
    grid: GridRules = key(keys.table(GridRules), "the grid of its blocks", GridRules())
    economics: Economics = key(keys.table(Economics), "costs and cut-off", in_python=None)
    classes: ClassRules = new(inline(ClassRules), "treatment of resource classes", ClassRules(), is_quiet=True)
    metals: tuple[Metal, ...] = key(tables(Metal), "metals that are sold", in_python=())
    processes: tuple[Process, ...] = key(tables(Process), "processes", ())
    slopes: Slopes = key(keys.table(Slopes), "slopes by domain", in_python=None)
    shells: ShellRules = key(OF_SHELLS, "nested shells and discounting", in_python=None)
    haulage: Optional[Haulage] = new(keys.table(Haulage), "haulage to one exit", None)
    constraints: Optional[ConstraintRules] = key(
        keys.table(ConstraintRules), "what must be mined, and what may not", None
    )
    pushbacks: Optional[PushbackRules] = key(keys.table(PushbackRules), "pushbacks", None)
    schedule: Optional[ScheduleRules] = key(keys.table(ScheduleRules), "limits of schedules", None)
    dumps: tuple[Dump, ...] = new(tables(Dump), "waste dumps", ())
    cash_flow: CashFlowRules = new(
        keys.table(CashFlowRules), "taxes and rates of the cash flow", CashFlowRules(), is_quiet=True
    )
    price_paths: Optional[PricePaths] = new(keys.table(PricePaths), "mean-reverting prices", None)
    sensitivity: Optional[SensitivityRules] = key(keys.table(SensitivityRules), "parameters that vary", None)
    scenarios: Optional[Scenarios] = key(keys.table(Scenarios), "simulated models and price decks", None)
    figures: Optional[FigureRules] = key(keys.table(FigureRules), "what plans and sections show", None)
    solver: Optional[str] = None

    @property
    def by_process(self) -> tuple[Project, ...]:
        """The project with each of its processes alone, as if it were the only one; itself where it names none."""
        return tuple(self.of_process(process) for process in self.processes) or (self,)

    def without_limits_on(self, columns: Collection[str]) -> Project:
        """Returns the project without the limits on sums and head grades of some columns of the table, and without what dumps accept by these."""

        def without(feed: tuple[FeedGrade, ...]) -> tuple[FeedGrade, ...]:
            return tuple(it for it in feed if it.code is not None or it.column not in columns)

        calendar, rules = self.shells.calendar, self.schedule
        periods = tuple(replace(it, feed=without(it.feed)) for it in calendar.periods)
        if rules is not None:
            sums = tuple(it for it in rules.limits if it.column not in columns)
            rules = replace(rules, feed=without(rules.feed), limits=sums)
        return replace(
            self,
            processes=tuple(replace(it, feed=without(it.feed)) for it in self.processes),
            schedule=rules,
            shells=replace(self.shells, calendar=replace(calendar, periods=periods)),
            dumps=tuple(replace(it, accepts=it.accepts.without(columns)) for it in self.dumps),
        )

    @property
    def inputs(self) -> tuple[Path, ...]:
        """The project's own file, and those that a plan is made of: its table, one of periods, a topography, a surface as mined, and areas."""
        rules = self.constraints
        surfaces = (self.table.topography, *((rules.topography, rules.as_mined) if rules else ()))
        areas = () if rules is None else (area.polygon for area in rules.areas)
        periods = self.shells.calendar.file
        given = (self.path, self.table.file, *([periods] if periods else []))
        return (*given, *(path for file in (*surfaces, *areas) if file for path in file.parts))

    @property
    def named_inputs(self) -> dict[str, Path]:
        """The inputs by their places as seen from the project's folder: two files of one name in two folders are two."""
        return {os.path.relpath(path, self.path.parent): path for path in self.inputs}

    @property
    def feed_grades(self) -> tuple[FeedGrade, ...]:
        """The limits on head grades of all processes; of one that only periods have, neither side."""
        of_one = self.schedule.feed if self.schedule else ()
        found = (*of_one, *(limit for process in self.processes for limit in process.feed))
        known = {it.key for it in found}
        of_periods = {it.key: it for period in self.shells.calendar.periods for it in period.feed}
        more = (replace(it, min=None, max=None) for key, it in of_periods.items() if key not in known)
        return (*found, *more)

    @property
    def graded_columns(self) -> tuple[str, ...]:
        """The columns of the table whose head grades are limited."""
        return tuple(dict.fromkeys(it.column for it in self.feed_grades if it.code is None))

    @property
    def limited_columns(self) -> tuple[str, ...]:
        sums = self.schedule.limits if self.schedule else ()
        return tuple(dict.fromkeys([*(it.column for it in sums), *self.graded_columns]))

    @property
    def dump_columns(self) -> tuple[str, ...]:
        """The columns of the table by whose grades dumps accept blocks, except those of metals."""
        metals = [metal.column for metal in self.metals]
        named = (grade.name for dump in self.dumps for grade in dump.accepts.grades)
        return tuple(name for name in dict.fromkeys(named) if name not in metals)

    @property
    def penalty_columns(self) -> tuple[str, ...]:
        """The columns of the table with elements that smelters penalise, each once."""
        terms = [metal.smelter for metal in self.metals if metal.smelter]
        return tuple(dict.fromkeys(penalty.column for it in terms for penalty in it.penalties))

    def to_toml(self, folder: Optional[Path] = None) -> str:
        """Returns the text of a project.toml in a folder, by default the folder of the project's own file. It reads back as this project, except
        `path` and `solver`."""
        from .project_writer import of_project

        return of_project(self, self.path.parent if folder is None else folder)

    @classmethod
    def from_dict(cls, sections: Mapping[str, Any], folder: Union[str, Path] = ".") -> Project:
        """Returns a project from its sections, checked as a project.toml is.

        Parameters
        ----------
        sections : mapping
            The sections of a project.toml by name, such as `{"table": {"file": "blocks.csv"}, "economics": {..}, "metals": [{..}]}`.
        folder : str or Path
            Paths in the sections are relative to it.

        Raises
        ------
        PlanError
            If a section is missing or wrong, with the section and the key.
        """
        return of_data(as_toml(sections, "project"), Path(folder) / "project.toml", "project")

    def changed(self, section: str, keys: Mapping[str, Any], keeps_others: bool = False) -> Project:
        """Returns the project with other keys in a section, checked as a whole.

        Parameters
        ----------
        section : str
            The name of the section, such as "pushbacks".
        keys : mapping
            Its keys and values.
        keeps_others : bool
            Whether the section keeps its other keys. Otherwise it has these keys only.

        Raises
        ------
        PlanError
            If a key or value is wrong, with the section and the key.
        """
        data = toml_text.parsed(self.to_toml(), str(self.path))
        before = data.get(section, {}) if keeps_others else {}
        data[section] = before | as_toml(keys, section)
        found = of_data(data, self.path, f"{self.path} as changed in Python")
        if section != "shells":
            found = replace(found, shells=self.shells)
        elif data[section].get("revenue_factors") in (None, before.get("revenue_factors")):
            found = replace(found, shells=replace(found.shells, base_price_added=self.shells.base_price_added))
        return replace(found, folder=self.folder, solver=self.solver)

    def of_process(self, process: Process) -> Project:
        money, recovery = replace(self.economics, processing_cost=process.cost), process.recovery
        sold = {metal.name: metal.sold_by(process.name) for metal in self.metals}
        metals = tuple(replace(it, recovery=recovery.get(name, Decimal(0))) for name, it in sold.items())
        return replace(self, economics=money, metals=metals, processes=())


PERIODS = Key(
    ValueKind(keys.path_of, {"anyOf": [keys.TEXT, keys.array(keys.schema(Period), 0)]}, record=Period),
    "a [table of periods](#periods-in-a-table), in place of `[[periods]]`",
    None,
    name="periods",
    label="Periods",
    since="0.2.0",
)
# The sections and keys at the top of a file.
SECTIONS: Mapping[str, Key] = {**keys.keys_of(Project), "periods": PERIODS}


def record_at(path: str) -> type:
    """Returns the record of a section by its path, such as `schedule.stockpiles`."""
    first, *others = path.split(".")
    record = SECTIONS[first].kind.record
    for name in others:
        record = keys.keys_of(record)[name].kind.record if record else None
    if record is None:
        raise KeyError(path)
    return record


def schema() -> dict[str, Any]:
    found = keys.schema(Project)
    found["properties"]["periods"] = {**PERIODS.kind.schema, "description": PERIODS.meaning}
    found["required"] = [name for name in found["required"] if name != "title"]
    return {"$schema": "http://json-schema.org/draft-07/schema#", "title": "A project of pitplan", **found}


def settable() -> Iterator[str]:
    """Yields the paths of keys that `--set` takes; entries of lists by their first number."""
    for name, it in SECTIONS.items():
        held = f"{name}.1" if name in LISTS else name
        record = it.kind.record
        yield from (f"{held}.{key}" for key in keys.keys_of(record)) if record else (name,)


def load(path: Union[str, Path], original: Optional[Path] = None, overrides: Iterable[str] = ()) -> Project:
    """Reads a project.

    Parameters
    ----------
    path : str or Path
        The project.toml.
    original : Path, optional
        The original of the copy `path`: paths in the project are relative to its folder.
    overrides : iterable of str
        Keys to set in place of those of the file, each `KEY=VALUE`, such as `economics.mining_cost=2.6`.

    Raises
    ------
    PlanError
        If something is missing or wrong, with the file, the section and the key.
    """
    path, overrides = Path(path), list(overrides)
    text = toml_text.text_of(path)
    data = toml_text.parsed(text, str(path))
    if not overrides:
        return of_data(data, original or path, text=text)
    return of_data(overridden(data, overrides), original or path, f"{path} with --set {' '.join(overrides)}")


def inputs_beside(folder: Path) -> tuple[Path, ...]:
    """Returns the inputs of the project.toml in a folder; none if the folder has no such project."""
    try:
        return load(folder / "project.toml").inputs
    except PlanError:
        return ()


def validated(project: Project) -> Project:
    """Checks a project that was made or changed in Python, as `load` checks a file. Raises PlanError, with the section and the key, if a value is one
    that no file may have.

    The project is written as TOML and read back, so that one place checks types, ranges, units and keys. Numbers become those that a file has: a
    price of 9000.0 is Decimal("9000.0"), and revenue factors rise. The reference factor is not added.
    """
    source = f"{project.path} as changed in Python"
    return planned_as(project, of_data(toml_text.parsed(project.to_toml(), source), project.path, source))


def planned_as(project: Project, found: Project) -> Project:
    """Returns a project that was read again with the revenue factors, folder and solver of the first one."""
    kept = project.shells
    shells = replace(
        found.shells,
        revenue_factors=tuple(sorted({float(it) for it in kept.revenue_factors})),
        selected=kept.selected,
        base_price_added=kept.base_price_added,
    )
    return replace(found, shells=shells, folder=project.folder, solver=project.solver)


def of_data(data: dict[str, Any], path: Path, source: Optional[str] = None, text: str = "") -> Project:
    """Returns the project of a TOML file's sections. Paths in it are relative to the folder of the file.

    Errors name `source`, by default the file, and the lines of its text, if it is given.
    """
    of = ProjectSource(source or str(path), data, path.parent, text)
    top = Section(of, "", data)
    calendar = read_calendar(top)
    project = keys.read(Project, top, path=path, folder=path.parent / OUTPUT, title=path.parent.name or "plan")
    shells, processes = project.shells, project.processes
    if processes:
        capacities, names = tuple(it.capacity for it in processes), tuple(it.name for it in processes)
        shells = replace(shells, processing_capacity=sum(capacities), per_process=capacities, names=names)
    given = shells.revenue_factors
    factors = tuple(sorted({*given, BASE_PRICE}))
    shells = replace(shells, revenue_factors=factors, base_price_added=BASE_PRICE not in given, calendar=calendar)
    metals = tuple(with_terms_of_all(metal, processes) for metal in project.metals)
    project = replace(project, shells=shells, metals=metals)
    demand(faults_of(project, data), of)
    return project


def read_calendar(top: Section) -> Calendar:
    """Reads `[[periods]]`, or the table that `periods` names."""
    if not top.has("periods"):
        return Calendar()
    given = top.get("periods")
    path = keys.path_of(top, "periods", given) if isinstance(given, str) else None
    sections = top.sections("periods") if path is None else sections_of(path)
    periods = tuple(keys.read(Period, it) for it in sections)
    demand_calendar(periods, sections)
    return Calendar(periods, path)


def with_terms_of_all(metal: Metal, processes: tuple[Process, ...]) -> Metal:
    """Returns the metal with smelter terms of all processes if they name each process that recovers it."""
    recovering = sorted(it.name for it in processes if it.recovery.get(metal.name))
    if metal.smelter is None or not metal.smelter.is_of_some or sorted(metal.smelter.processes) != recovering:
        return metal
    return replace(metal, smelter=replace(metal.smelter, processes=ALL))

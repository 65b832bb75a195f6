"""Sensitivity of the selected pit shell: single parameters changed by given shares, pairs of them, and the hill of value."""

from __future__ import annotations

import json
import time
from dataclasses import asdict, dataclass, replace
from decimal import Decimal
from functools import partial
from itertools import product
from pathlib import Path
from typing import Any, Callable, Optional, Union

import numpy as np
import pandas as pd

from pitplan.blockmodel import reader
from pitplan.blockmodel.reader import Table
from pitplan.config import toml_text
from pitplan.config.economics import CHARGES, ByRock, Curve, Metal, Process, Recovery, Smelter
from pitplan.config.geometry import OreAndWaste
from pitplan.config.overrides import assigned, scaled
from pitplan.config.periods import Calendar, Period
from pitplan.config.project import Project, of_data, planned_as
from pitplan.config.studies import SensitivityRules, Setting
from pitplan.core import keyed_arrays
from pitplan.core.atomic_files import hashes_of, staged_file
from pitplan.core.libraries import load
from pitplan.core.processes import each_done
from pitplan.core.progress import Progress, silent
from pitplan.core.revenue_factors import factor_text
from pitplan.errors import PlanError
from pitplan.pits.shells import Shells, npv_of, with_factors
from pitplan.pits.skin import Skin, of_pit, refined
from pitplan.plan import Plan, prepared
from pitplan.results import names
from pitplan.solver import choice as solver, problem
from pitplan.solver.choice import Solver
from pitplan.solver.program import Solution
from pitplan.studies import dask_pool
from pitplan.studies.scenarios.store import key_of

# A parameter of `[sensitivity]`, and the share by which it changes: 0.1 is 10 % more.
Change = tuple[str, Decimal]
Recoveries = Union[Recovery, dict[str, Recovery]]
STEEPEST, FLATTEST = 90.0, 1.0


def varied(project: Project, changes: tuple[Change, ...]) -> Project:
    """Returns the project with these changes; recoveries stop at 1. Raises PlanError if a slope angle leaves 1 to 90 degrees."""
    for name, share in changes:
        if "." in name:
            project = with_key(project, 1 + share, name)
            continue
        kind, _, metal = name.partition(" ")
        project = VARIED[kind](project, 1 + share, metal)
    return project


def with_key(project: Project, by: Decimal, path: str) -> Project:
    """Returns the project with the numbers of a key times a factor. Raises PlanError if there is no such key, or the project is not valid."""
    where = f"{project.path}: [sensitivity]"
    data = scaled(toml_text.parsed(project.to_toml(), str(project.path)), path, by, where)
    return planned_as(project, of_data(data, project.path, f"{where} {path} times {by}"))


def with_settings(project: Project, settings: tuple[Setting, ...]) -> Project:
    """Returns the project with other numbers for some keys, by their paths. Raises PlanError if the project is not valid with all of them."""
    if not settings:
        return project
    where = f"{project.path}: [sensitivity.hill]"
    data = toml_text.parsed(project.to_toml(), str(project.path))
    for path, value in settings:
        data = assigned(data, path, value, where)
    said = ", ".join(f"{path} = {value}" for path, value in settings)
    return planned_as(project, of_data(data, project.path, f"{where} {said}"))


def moves_slopes(name: str) -> bool:
    return name == "slopes" or name.startswith("slopes.")


def times(price: ByRock, by: Decimal) -> ByRock:
    return {rock: amount * by for rock, amount in price.items()} if isinstance(price, dict) else price * by


def recovered(recovery: Recoveries, by: Decimal) -> Recoveries:
    """Returns recoveries of all rock types and grades times a factor, at most 1."""
    if isinstance(recovery, dict):
        return {rock: of_rock(part, by) for rock, part in recovery.items()}
    return of_rock(recovery, by)


def of_rock(recovery: Recovery, by: Decimal) -> Recovery:
    whole = Decimal(1)
    if isinstance(recovery, Curve):
        return Curve(tuple((grade, min(share * by, whole)) for grade, share in recovery.points))
    return min(recovery * by, whole)


def with_metals(project: Project, name: str, change: Callable[[Metal], Metal]) -> Project:
    """Returns the project with one metal changed, or all if `name` is ""."""
    return replace(
        project, metals=tuple(change(metal) if name in ("", metal.name) else metal for metal in project.metals)
    )


def with_processes(project: Project, change: Callable[[Process], Process]) -> Project:
    return replace(project, processes=tuple(change(process) for process in project.processes))


def with_periods(project: Project, change: Callable[[Period], Period]) -> Project:
    calendar = Calendar(tuple(change(period) for period in project.shells.calendar.periods))
    return replace(project, shells=replace(project.shells, calendar=calendar))


def price(project: Project, by: Decimal, metal: str) -> Project:
    """Changes the price of a metal, those of years and periods included."""
    project = with_metals(
        project, metal, lambda it: replace(it, price=it.price * by, prices=tuple(price * by for price in it.prices))
    )
    return with_periods(
        project,
        lambda it: replace(
            it, prices={name: amount * by if metal in ("", name) else amount for name, amount in it.prices.items()}
        ),
    )


def selling_cost(project: Project, by: Decimal, metal: str) -> Project:
    """Changes the selling cost of a metal, or the charges of its smelter with penalties."""

    def change(it: Metal) -> Metal:
        terms = it.smelter and charged(it.smelter, by)
        return replace(it, selling_cost=it.selling_cost * by, smelter=terms)

    return with_metals(project, metal, change)


def charged(terms: Smelter, by: Decimal) -> Smelter:
    """Returns smelter terms with all charges times a factor; what is paid and the price participation stay."""
    penalties = tuple(
        replace(it, steps=tuple((grade, charge * by) for grade, charge in it.steps)) for it in terms.penalties
    )
    return replace(terms, **{name: getattr(terms, name) * by for name in CHARGES}, penalties=penalties)


def recovery(project: Project, by: Decimal, metal: str) -> Project:
    def change(process: Process) -> Process:
        changed = {name: recovered(it, by) if metal in ("", name) else it for name, it in process.recovery.items()}
        return replace(process, recovery=changed)

    return with_processes(
        with_metals(project, metal, lambda it: replace(it, recovery=recovered(it.recovery, by))), change
    )


def mining_cost(project: Project, by: Decimal, metal: str) -> Project:
    """Changes mining costs, those by bench or by elevation included."""
    money = project.economics
    deeper = tuple((elevation, cost * by) for elevation, cost in money.mining_cost_by_elevation)
    level = money.mining_cost_per_bench * by
    changed = replace(
        money, mining_cost=times(money.mining_cost, by), mining_cost_per_bench=level, mining_cost_by_elevation=deeper
    )
    return replace(project, economics=changed)


def processing_cost(project: Project, by: Decimal, metal: str) -> Project:
    project = replace(
        project, economics=replace(project.economics, processing_cost=times(project.economics.processing_cost, by))
    )
    return with_processes(project, lambda it: replace(it, cost=times(it.cost, by)))


def slopes(project: Project, by: Decimal, metal: str) -> Project:
    """Changes all slope angles, those by bench geometry included, but no patterns and offsets."""
    domains = []
    for domain in project.slopes.domains:
        angles = tuple((azimuth, angle * float(by)) for azimuth, angle in domain.angles)
        if any(not FLATTEST <= angle <= STEEPEST for _, angle in angles):
            raise PlanError(
                f"{project.path}: [sensitivity] changes: slope angles times {by} are outside 1 to 90 degrees"
            )
        domains.append(replace(domain.with_angles(angles), bench=None))
    return replace(project, slopes=replace(project.slopes, domains=tuple(domains)))


def capacity(project: Project, by: Decimal, metal: str) -> Project:
    """Changes mining capacity and the processing capacity of all processes, those of periods included."""
    shells, more = project.shells, float(by)
    rock = None if shells.mining_capacity is None else shells.mining_capacity * more
    of_processes = tuple(tonnes * more for tonnes in shells.per_process)
    shells = replace(
        shells, processing_capacity=shells.processing_capacity * more, mining_capacity=rock, per_process=of_processes
    )
    project = with_processes(replace(project, shells=shells), lambda it: replace(it, capacity=it.capacity * more))
    return with_periods(project, lambda it: of_period(it, more))


def of_period(period: Period, more: float) -> Period:
    single = {name: getattr(period, name) for name in ("mining_capacity", "processing_capacity")}
    changed = {name: None if tonnes is None else tonnes * more for name, tonnes in single.items()}
    return replace(period, **changed, capacity={name: tonnes * more for name, tonnes in period.capacity.items()})


def haulage(project: Project, by: Decimal, metal: str) -> Project:
    """Changes the haulage costs of ore and waste."""
    rules = project.haulage
    if rules is None:
        raise PlanError(f"{project.path}: [sensitivity] parameters: haulage: expected a section [haulage]")
    cost = OreAndWaste(rules.cost.ore * by, rules.cost.waste * by)
    return replace(project, haulage=replace(rules, cost=cost))


VARIED: dict[str, Callable[[Project, Decimal, str], Project]] = {
    "price": price,
    "mining_cost": mining_cost,
    "processing_cost": processing_cost,
    "selling_cost": selling_cost,
    "recovery": recovery,
    "slopes": slopes,
    "capacity": capacity,
    "haulage": haulage,
}


def given(project: Project) -> tuple[str, ...]:
    """Returns the parameters that a project has and that can be changed."""
    is_there = {
        "selling_cost": any(it.selling_cost or it.smelter and it.smelter.has_charges for it in project.metals),
        "slopes": any(domain.angles for domain in project.slopes.domains),
        "haulage": project.haulage is not None,
    }
    return tuple(name for name in VARIED if is_there.get(name, True))


# Sensitivity of the selected pit shell: single parameters changed by given shares, and pairs of them.
#
# Each case finds the pit of the same revenue factor again. It also values the base case's pit at the parameters of
# the case: that pit is mined if nothing is planned again. There is no such value if the slopes change, since that pit
# may not be stable.
#
# Best and worst case mine shell by shell. So that their NPVs do not jump where the first shells of a case fall
# between two revenue factors of the project, each case finds shells of its own between these, as fine as
# `largest_increment` says.

CASES = "cases"
# Columns of the base case's pit at the parameters of a case, and the value of its skin.
KEPT = ("undiscounted_cash_flow", "npv_best", "npv_worst", "npv_specified", "years")
SKIN_WORTH = "skin_value"
WHOLE = ("blocks",)


@dataclass(frozen=True)
class Case:
    """The changes of a case, and of a hill of value the keys that it sets; the base case has none."""

    changes: tuple[Change, ...] = ()
    settings: tuple[Setting, ...] = ()

    @property
    def label(self) -> str:
        set_to = (f"{name} = {value:.10g}" for name, value in self.settings)
        return ", ".join([*(f"{name} {share:+.4g}" for name, share in self.changes), *set_to]) or "base case"

    @property
    def moves_slopes(self) -> bool:
        return any(moves_slopes(name) for name, _ in (*self.changes, *self.settings))

    @property
    def as_json(self) -> dict[str, Any]:
        """Changes and settings as pairs of texts; settings only if there are any."""
        parts = {"changes": self.changes, "settings": self.settings}
        return {
            name: [[key, str(number)] for key, number in pairs]
            for name, pairs in parts.items()
            if pairs or name == "changes"
        }


@dataclass(frozen=True)
class Found:
    """The result of a case.

    Attributes
    ----------
    row : dict of str to Any
        The columns of `Shells.table` for the pit, with the prefix kept_ those of the base case's pit, and the value of the skin of that.
    entry : array of float, shape (cells,)
        The least revenue factor whose shell holds the cell; 0: none.
    domains : list of dict
        The record of slope patterns.
    skin : Skin, optional
        For the base case the skin of its pit.
    """

    row: dict[str, Any]
    entry: np.ndarray
    domains: list[dict[str, Any]]
    skin: Skin | None = None

    @property
    def base_skin(self) -> Skin:
        """The skin of the base case. Raises PlanError if its result has none."""
        if self.skin is None:
            raise PlanError("the base case has no skin: remove the folder cases, and run pitplan sensitivity again")
        return self.skin


@dataclass(frozen=True)
class Sensitivity:
    """All cases with their results, in order; the first is the base case.

    Attributes
    ----------
    project : Project
        With the revenue factors up to the selected one only.
    plan : Plan
        That of the base case.
    factor : float
        The selected revenue factor.
    keys : dict of Case to str
        Names of the files of results.
    asked : Project
        The project as given.
    """

    project: Project
    plan: Plan
    factor: float
    answers: dict[Case, Found]
    keys: dict[Case, str]
    solver: Solver
    asked: Project


def rules_of(project: Project) -> SensitivityRules:
    """Returns the rules of `[sensitivity]`; by default all parameters that the project has."""
    rules = project.sensitivity or SensitivityRules()
    return rules if rules.parameters else replace(rules, parameters=given(project))


def cases_of(rules: SensitivityRules) -> list[Case]:
    """Returns the base case, each parameter with each change, and each pair with each combination of changes."""
    singles = [Case(((name, share),)) for name, share in product(rules.parameters, rules.changes)]
    of_pairs = {name for pair in rules.pairs for name in pair if name not in rules.parameters}
    beside = [Case(((name, share),)) for name, share in product(sorted(of_pairs), rules.changes)]
    both = [
        Case(((one, first), (other, second)))
        for one, other in rules.pairs
        for first, second in product(rules.changes, rules.changes)
    ]
    return [Case(), *singles, *beside, *both]


@dataclass(frozen=True)
class SensitivityInput:
    """The common input of all cases: project, with the revenue factors up to the selected one, table, solver, and the base case once it is
    solved."""

    project: Project
    table: Table
    solver: Solver
    as_given: Found | None = None


def answer_all(
    missing: dict[Case, Path],
    asked: SensitivityInput,
    where: dask_pool.Where | None,
    progress: Progress = silent,
    *,
    processes: Optional[int] = None,
) -> None:
    """Solves these cases in processes of this machine or where Dask solves, and writes each result to its path."""
    if where is not None and missing:
        over_dask(missing, asked, where, progress)
        return
    tasks = [partial(answer, case, asked, path) for case, path in missing.items()]
    labels = [case.label for case in missing]
    began = time.perf_counter()
    for count, number in enumerate(each_done(tasks, processes), 1):
        progress.say(f"{count} of {len(missing)}: {labels[number]}, after {time.perf_counter() - began:.1f} s")


def solve(
    project: Project,
    folder: Path,
    where: dask_pool.Where | None,
    progress: Progress = silent,
    *,
    processes: Optional[int] = None,
) -> Sensitivity:
    """Solves the cases that have no result in the folder cases of the output folder yet, and writes each result when it is found. `where` is where
    Dask solves; by default processes of this machine do, at most `processes` at a time, by default one for each processor. Raises PlanError if the
    table or a case is not usable, ProgramError if the solver refuses, and MissingPackage without Dask if `where` is given.
    """

    found_by, given_project = solver.chosen(project.solver), project
    project = replace(project, solver=found_by.by)
    table = reader.read(project)
    plan = prepared(project, table, progress)
    if plan.left_out:
        why = "is too large for the solver, and each case would be cropped differently: set [table] reblock"
        raise PlanError(f"{project.table.file}: {why}, or give a smaller model")
    factor = Shells.solved(plan).selected
    lower = tuple(it for it in project.shells.revenue_factors if it <= factor)
    asked = SensitivityInput(with_factors(project, lower), table, found_by)
    rules = rules_of(project)
    begun = {
        "project": project.to_toml(),
        "inputs": hashes_of(project.named_inputs),
        "solver": found_by.sha256,
        "revenue_factor": factor,
        "skin": str(rules.skin),
        "largest_increment": str(rules.largest_increment),
    }
    cases = [*cases_of(rules), *hill_cases(rules).values()]
    keys = {case: key_of({**begun, **case.as_json}) for case in cases}
    paths = {case: folder / CASES / f"{keys[case]}.npz" for case in cases}
    if not paths[Case()].is_file():
        answer(Case(), asked, paths[Case()])
    asked = replace(asked, as_given=read(paths[Case()], plan.grid.count))
    answer_all(
        {case: path for case, path in paths.items() if not path.is_file()}, asked, where, progress, processes=processes
    )
    return Sensitivity(
        asked.project,
        plan,
        factor,
        {case: read(path, plan.grid.count) for case, path in paths.items()},
        keys,
        found_by,
        given_project,
    )


def answer(case: Case, asked: SensitivityInput, path: Path) -> None:
    write(path, find(case, asked))


def over_dask(missing: dict[Case, Path], asked: SensitivityInput, where: dask_pool.Where, progress: Progress) -> None:
    """Solves each case as a Dask task, which is repeated if its worker is lost. Raises PlanError as the case does."""
    distributed = load("distributed", dask_pool.PACKAGE, "sensitivity --on local or a Dask scheduler")
    with progress.step(f"solving {len(missing):,} cases"), dask_pool.client_of(distributed, where) as client:
        shared = client.scatter(asked, broadcast=True)
        tasks = [
            client.submit(answer, case, shared, path.resolve(), pure=False, retries=dask_pool.RETRIES)
            for case, path in missing.items()
        ]
        for task in distributed.as_completed(tasks):
            task.result()


def find(case: Case, asked: SensitivityInput) -> Found:
    """Returns the pit of a case, and the values of the base case's pit in it. Raises ProgramError if the solver here is another one."""
    solver.demand_same(asked.solver)
    rules = rules_of(asked.project)
    case_project = varied(with_settings(asked.project, case.settings), case.changes)
    shells = with_fine_shells(prepared(case_project, asked.table), rules)
    plan, entry = shells.plan, shells.cells.factor
    row = of_last(shells.table)
    kept = entry if asked.as_given is None else asked.as_given.entry
    earned = of_last(as_pits(plan, kept).table)
    row |= {f"kept_{name}": np.nan if case.moves_slopes else earned[name] for name in KEPT if name in earned}
    skin = of_pit(plan, rules.skin) if asked.as_given is None else asked.as_given.base_skin
    row[SKIN_WORTH] = np.nan if case.moves_slopes else shells.cells.worth[skin.cells].sum()
    return Found(
        row, entry, [pattern.as_json() for pattern in plan.domains.patterns], skin if asked.as_given is None else None
    )


def with_fine_shells(plan: Plan, rules: SensitivityRules) -> Shells:
    """Returns the shells at a plan's revenue factors and at some between these, so that no shell adds more than the largest increment."""
    with problem.temporary(plan) as mine:

        def tonnes_at(factors: tuple[float, ...]) -> dict[float, float]:
            return Shells.at_factors(plan, factors, mine).tonnes

        factors = refined(plan.project.shells.revenue_factors, float(rules.largest_increment), tonnes_at)
        return Shells.at_factors(plan, factors, mine)


def as_pits(plan: Plan, entry: np.ndarray) -> Shells:
    """Returns given pits as shells, without values, at their revenue factors and the last one of the plan."""
    factors = tuple(sorted({*np.unique(entry[entry > 0]).tolist(), plan.project.shells.revenue_factors[-1]}))
    nodes = np.concatenate([entry, np.zeros(len(plan.values.processed), dtype=entry.dtype)])
    worth, count = (pd.Series([nothing] * len(factors), index=factors) for nothing in (Decimal(0), 0))
    return Shells(replace(plan, project=with_factors(plan.project, factors)), Solution(worth, count, nodes))


def of_last(table: pd.DataFrame) -> dict[str, Any]:
    """Returns the row of the largest revenue factor, with the NPV by which shells are compared."""
    return dict(table.iloc[-1]) | {"npv": float(npv_of(table).iloc[-1])}


def write(path: Path, found: Found) -> None:
    """Writes a result; its file is named by its key."""
    numbers = {name: float(amount) for name, amount in found.row.items() if name != "value_at_revenue_factor"}
    texts = {
        "value_at_revenue_factor": f"{found.row['value_at_revenue_factor']:f}",
        "slope_domains": json.dumps(found.domains),
    }
    skin = {} if found.skin is None else {"skin": found.skin.cells, "skin_factor": found.skin.factor}
    with staged_file(path) as place:
        keyed_arrays.write(
            place, path.stem, entry=found.entry, names=list(numbers), amounts=list(numbers.values()), **texts, **skin
        )


def read(path: Path, cells: int) -> Found:
    """Reads the result of a case on a grid with this number of cells. Raises PlanError if the file has none."""
    try:
        said = keyed_arrays.read(path, path.stem)
        row: dict[str, Any] = dict(zip(said["names"].tolist(), said["amounts"].tolist()))
        row |= {name: int(row[name]) for name in WHOLE}
        skin = Skin(float(said["skin_factor"]), said["skin"]) if "skin" in said else None
        if said["entry"].shape != (cells,):
            raise keyed_arrays.NoAnswer("it holds other blocks")
        return Found(
            row | {"value_at_revenue_factor": str(said["value_at_revenue_factor"])},
            said["entry"],
            json.loads(str(said["slope_domains"])),
            skin,
        )
    except (OSError, ValueError, KeyError, TypeError) as error:
        raise PlanError(
            f"{path}: is not a result of this case: {error}: remove it, and run pitplan sensitivity again"
        ) from error


def table(found: Sensitivity) -> pd.DataFrame:
    """Returns one row per case: its changes, the columns of the pit, with the prefix kept_ those of the base case's pit, and the value of the
    skin. `npv` is that of the specified case, otherwise the mean of best and worst case; docs/FORMATS.md lists the columns.
    """
    rows = []
    for case in cases_of(rules_of(found.project)):
        (name, share), (second, other) = (*case.changes, ("", Decimal(0)), ("", Decimal(0)))[:2]
        rows.append(
            {
                "parameter": name,
                "change": float(share),
                "second_parameter": second,
                "second_change": float(other),
                **found.answers[case].row,
            }
        )
    return in_order(pd.DataFrame(rows))


def in_order(frame: pd.DataFrame) -> pd.DataFrame:
    """Returns rows of cases with `npv` before the NPVs of best and worst case, and what is kept last."""
    kept = [name for name in frame if name.startswith("kept_") or name == SKIN_WORTH]
    order = [name for name in frame if name not in (*kept, "npv")]
    at = order.index("npv_best")
    return frame[[*order[:at], "npv", *order[at:], *kept]]


def hill_cases(rules: SensitivityRules) -> dict[tuple[int, int], Case]:
    """Returns the case of each two values by their numbers; none without a hill."""
    if not rules.hill:
        return {}
    one, other = rules.hill
    places = product(range(len(one.values)), range(len(other.values)))
    return {
        (first, second): Case(
            (*one.changes(first), *other.changes(second)), (*one.settings(first), *other.settings(second))
        )
        for first, second in places
    }


def hill_table(found: Sensitivity) -> pd.DataFrame:
    """Returns one row per two values: these, and the columns of sensitivity.csv."""
    rules = rules_of(found.project)
    one, other = rules.hill
    rows = [
        {
            "parameter": one.parameter,
            "value": float(one.values[first]),
            "second_parameter": other.parameter,
            "second_value": float(other.values[second]),
            **found.answers[case].row,
        }
        for (first, second), case in hill_cases(rules).items()
    ]
    return in_order(pd.DataFrame(rows))


def notes(found: Sensitivity) -> list[str]:
    """Returns a note with the case of the highest NPV, and whether it lies at the edge; none without a hill."""
    rules = rules_of(found.project)
    if not rules.hill:
        return []
    npvs = {place: float(found.answers[case].row["npv"]) for place, case in hill_cases(rules).items()}
    top = max(npvs, key=npvs.__getitem__)
    ends = [number in (0, len(axis.values) - 1) for number, axis in zip(top, rules.hill)]
    where = " and ".join(f"{axis.parameter} = {axis.values[number]:,f}" for number, axis in zip(top, rules.hill))
    said = [f"hill of value: highest NPV {npvs[top]:,.0f} {found.project.economics.currency} at {where}"]
    wide = [axis.parameter for axis, is_end in zip(rules.hill, ends) if is_end]
    more = f"hill of value: the highest NPV lies at the edge; values of {' and '.join(wide)} beyond may be better"
    return [*said, *([more] if wide else [])]


def grid(hill: pd.DataFrame) -> pd.DataFrame:
    """Returns the NPVs: a row per value of the second parameter, a column per value of the first, both rising."""
    return hill.pivot(index="second_value", columns="value", values="npv").sort_index().sort_index(axis=1)


TABLE, RECORD = names.SENSITIVITY, names.SENSITIVITY_RECORD


def record(found: Sensitivity, project: str) -> dict[str, Any]:
    """Returns the record of all cases and of their solver; `project` is the path of the project relative to the folder."""
    rules = rules_of(found.project)
    return {
        "project": project,
        "title": found.project.title,
        "solver": asdict(found.solver),
        "inputs": hashes_of(found.project.named_inputs),
        "grid": found.plan.record_of_grid(),
        "revenue_factor": found.factor,
        "skin": (skin := skin_of(found)),
        "notes": [*found.plan.notes, told_of_skin(skin, found.project.economics.currency), *notes(found)],
        "cases": [recorded(found, case) for case in cases_of(rules)],
        **({"hill": [recorded(found, case) for case in hill_cases(rules).values()]} if rules.hill else {}),
        "verified": [],
    }


def recorded(found: Sensitivity, case: Case) -> dict[str, Any]:
    return {**case.as_json, "key": found.keys[case], "slope_domains": found.answers[case].domains}


def skin_of(found: Sensitivity) -> dict[str, Any]:
    """Returns the skin of the base case's pit: revenue factor of the inner shell, tonnes, their share of the pit's, and cash flow."""
    skin, row = found.answers[Case()].base_skin, found.answers[Case()].row
    tonnes = float(found.plan.values.tonnes[skin.cells].sum())
    return {
        "revenue_factor": skin.factor,
        "tonnes": tonnes,
        "share": tonnes / row["tonnes"] if tonnes else 0.0,
        "undiscounted_cash_flow": row[SKIN_WORTH],
    }


def told_of_skin(skin: dict[str, Any], currency: str) -> str:
    where = (
        f"beyond the shell of revenue factor {factor_text(skin['revenue_factor'])}"
        if skin["revenue_factor"]
        else "as a whole"
    )
    return f"pit skin, {100 * skin['share']:.1f} % of its tonnes, {where}: undiscounted cash flow {skin['undiscounted_cash_flow']:,.0f} {currency}".rstrip()

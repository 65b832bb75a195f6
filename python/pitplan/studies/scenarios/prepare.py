"""Writes the folder of a set of scenarios: what there is to solve, and all that the solvers share."""

from __future__ import annotations

import os
from dataclasses import dataclass, replace
from pathlib import Path
from types import ModuleType
from typing import Any

import numpy as np

from pitplan.blockmodel import summary
from pitplan.blockmodel.grid import demand_within
from pitplan.config import project_writer
from pitplan.config.economics import ByDomain
from pitplan.config.project import Project
from pitplan.config.table import DOMAIN
from pitplan.core import csv_writer, layout
from pitplan.core.atomic_files import hashes, staged, write_json
from pitplan.core.libraries import load_library, release
from pitplan.core.progress import Progress
from pitplan.plan import Plan
from pitplan.results.names import TABLE
from pitplan.solver import mine_files
from pitplan.solver.choice import LIBRARY, Solver, chosen
from pitplan.solver.problem import counted_rows

from . import store
from .realisations import Base, envelope, models, read_base, scenarios_of
from .store import Scenario


@dataclass(frozen=True)
class Models:
    """The realisations as written.

    Attributes
    ----------
    names : list of (str, str)
        Name and hash of each.
    greatest : array of float, shape (blocks, metals)
        The largest grade over all.
    means : array of float, shape (metals,)
        The mean grade by tonnes over all.
    """

    names: list[tuple[str, str]]
    greatest: np.ndarray
    means: np.ndarray


def prepare(project: Project, folder: Path, progress: Progress, by: str = store.PIT) -> store.Shared:
    """Reads and checks every realisation, and writes the input of solving.

    Raises
    ------
    PlanError
        If an input is not usable. Then nothing to solve is written.
    MissingPackage
        Without the library, if blocks are scheduled.
    """
    of_blocks = block_preparation() if by == store.BLOCK else None
    store.demand_same_kind(folder, by)
    store.demand_no_mine(folder)
    if of_blocks:
        of_blocks.demand_apt(project)
    solver = chosen(LIBRARY if of_blocks else project.solver)
    base = read_base(project, progress)
    demand_within(project, base.grid)
    progress.lines(summary.of_ground(base.table, base.grid, project))
    with progress.step("reading the realisations"):
        read = write_models(base, folder)
    progress.lines(summary.of_grades(grades_of(base, read)))
    with progress.step("building the precedences that all scenarios share"):
        laid = Laid(base, envelope(base, read.greatest), list_of(base, read), solver)
    if of_blocks:
        of_blocks.write(laid, folder, progress)
    else:
        with progress.step("writing blocks and precedences"), staged(
            folder, store.RECORD, subfolders=layout.FOLDERS
        ) as stage:
            written = [*write_shared(laid, stage), *write_precedences(laid.plan, solver, stage)]
            parts = common_parts(laid)
            parts["project"] |= {"revenue_factors": list(project.shells.revenue_factors)}
            write_record(laid, keyed(laid.scenarios, project, parts), written, stage)
    return store.read_shared(folder)


def block_preparation() -> ModuleType:
    """The module that prepares schedules by block. Raises MissingPackage without the library."""
    load_library("a schedule by block")
    # It imports the library itself, and this module.
    from .blocks import problem

    return problem


@dataclass(frozen=True)
class Laid:
    """The input of all scenarios: their base, a plan whose precedences serve all, the list of scenarios, and the solver."""

    base: Base
    plan: Plan
    scenarios: list[Scenario]
    solver: Solver


def write_models(base: Base, folder: Path) -> Models:
    names: list[tuple[str, str]] = []
    greatest = np.zeros((len(base.frame), len(base.project.metals)))
    tonnes, totals = base.table.frame[base.project.table.tonnes].to_numpy(), np.zeros(len(base.project.metals))
    for model in models(base):
        names.append((model.name, store.save_grades(folder, model.grades)))
        greatest = np.maximum(greatest, model.grades)
        totals += [summary.mean_of(grades, tonnes) for grades in model.grades[: len(tonnes)].T]
    return Models(names, greatest, totals / len(names))


def grades_of(base: Base, read: Models) -> list[summary.Grade]:
    """Returns the grades of each metal, over all realisations."""
    found = []
    for number, metal in enumerate(base.project.metals):
        first = base.lists[metal.name][0] if metal.name in base.lists else metal.column
        is_simulated = metal.name in base.lists or not base.lists
        column = f"{first} and so on, of {len(read.names):,} realisations" if is_simulated else metal.column
        mean, most = float(read.means[number]), float(read.greatest[:, number].max())
        found.append(summary.Grade(metal.name, column, metal.unit, mean, most))
    return found


def arrays_of(base: Base) -> dict[str, np.ndarray]:
    """Returns the blocks without grades, as arrays of shape (blocks,)."""
    project, table, money = base.project, base.project.table, base.project.economics
    arrays = {"cells": base.grid.rows, table.tonnes: base.frame[table.tonnes].to_numpy()}
    in_domains = any(isinstance(value, ByDomain) for value in (money.mining_recovery, money.dilution))
    in_domains |= any(it.code is not None and it.column == DOMAIN for it in project.feed_grades)
    # Errors name the domain of rock that no dump accepts.
    in_domains |= any(it.accepts.domain for it in project.processes) or bool(project.dumps)
    for name in (table.rock_type, table.domain if in_domains else None, table.resource_class):
        if name:
            arrays[name] = base.frame[name].to_numpy().astype(str)
    grades = {metal.column for metal in project.metals}
    columns = (*money.factor_columns, *project.penalty_columns, *project.limited_columns, *project.dump_columns)
    return arrays | {name: base.frame[name].to_numpy() for name in columns if name not in grades}


def arrays_of_settled(plan: Plan) -> dict[str, np.ndarray]:
    """Returns masks of the cells that the constraints force in and sterilise, shape (cells,); nothing without constraints."""
    return {} if plan.settled is None else {"mined": plan.settled.mined, "left": plan.settled.left}


def write_shared(laid: Laid, stage: Path) -> list[str]:
    """Writes base, project and the planner's rows; returns the names of the files."""
    base, plan = laid.base, laid.plan
    np.savez_compressed(stage / store.BASE, ore=plan.values.processed, **arrays_of(base), **arrays_of_settled(plan))
    # Paths in it are relative to the first project's folder, which its readers name.
    project_writer.write(base.project, stage / store.PROJECT, base.project.path.parent)
    frame = plan.blocks
    grades = [metal.column for metal in base.project.metals]
    costs = ["mining_cost", "revenue", "processing_cost"]
    costs += ["haulage_cost", "ore_haulage_cost"] if base.project.haulage else []
    costs += [f"{name}_{it.name}" for it in base.project.processes for name in ("revenue", "processing_cost")]
    csv_writer.write(stage / TABLE, frame.drop(columns=[*grades, *costs]))
    return [store.BASE, store.PROJECT, TABLE]


def write_precedences(plan: Plan, solver: Solver, stage: Path) -> list[str]:
    """Writes the precedences that all scenarios share, as the solver takes them; returns the names of the files."""
    if solver.by != LIBRARY:
        mine_files.write_precedences(stage / store.PREC, plan, plan.precedences_of_rest)
        return [store.PREC]
    rows, _ = counted_rows(plan.precedences_of_rest, plan)
    np.save(stage / store.STARTS, rows.starts)
    np.save(stage / store.PRECEDENCES, rows.precedences)
    return [store.STARTS, store.PRECEDENCES]


def list_of(base: Base, read: Models) -> list[Scenario]:
    """Returns every realisation at every price deck, in this order, still without keys."""
    sets = scenarios_of(base.project).prices
    named = [metal for metal in base.project.metals if any(metal.name in prices for prices in sets)]
    scenarios: list[Scenario] = []
    for name, grades in read.names:
        for prices in sets:
            asked = {metal.name: str(prices.get(metal.name, metal.price)) for metal in named}
            scenarios.append(Scenario(len(scenarios) + 1, name, grades, asked, ""))
    return scenarios


def common_parts(laid: Laid) -> dict[str, Any]:
    """Returns the input that the results of all scenarios depend on."""
    base, plan = laid.base, laid.plan
    domains = {"code": plan.domains.code, **{str(k): p.cone for k, p in enumerate(plan.domains.patterns)}}
    surfaces = store.surfaces_of(base.project)
    return {
        **({"surfaces": surfaces} if surfaces else {}),
        "project": store.meaning(base.project),
        "grid": plan.grid.as_json(),
        "blocks": store.hash_of_arrays({**arrays_of(base), **domains, **arrays_of_settled(plan)}),
        "solver": laid.solver.sha256,
    }


def keyed(scenarios: list[Scenario], project: Project, common: dict[str, Any]) -> list[Scenario]:
    """Returns scenarios with the keys of their results: hashes of grades, prices and the common input."""
    given = {metal.name: str(metal.price) for metal in project.metals}
    return [
        replace(it, key=store.key_of({**common, "grades": it.grades, "prices": {**given, **it.prices}}))
        for it in scenarios
    ]


def write_record(laid: Laid, scenarios: list[Scenario], written: list[str], stage: Path, **more: Any) -> None:
    """Writes scenarios.json, with further entries of a kind of scenarios."""
    plan, solver = laid.plan, laid.solver
    record: dict[str, Any] = {
        "title": plan.project.title,
        "pitplan": release(),
        "form": store.FORM,
        "project": os.path.relpath(plan.project.path, stage.parent),
        "revenue_factors": list(plan.project.shells.revenue_factors),
        "solver": vars(solver),
        "grid": plan.grid.as_json(),
        "slope_domains": [pattern.as_json() for pattern in plan.domains.patterns],
        "notes": [note for note in plan.notes if "amounts were rounded" not in note],
        "files": hashes(stage, written),
        "scenarios": [vars(scenario) for scenario in scenarios],
    }
    write_json(stage / store.RECORD, record | more)

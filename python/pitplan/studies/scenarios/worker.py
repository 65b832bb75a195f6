"""Solves one scenario, by one call of the library or one run of the program, or schedules its blocks; in any process, on any machine."""

from __future__ import annotations

import tempfile
import time
from dataclasses import dataclass, replace
from functools import lru_cache
from pathlib import Path

import numpy as np

from pitplan import constraints
from pitplan.blockmodel import missing_blocks
from pitplan.core import keyed_arrays
from pitplan.core.atomic_files import hash_of, staged_file
from pitplan.core.libraries import load_library
from pitplan.economics import block_values
from pitplan.errors import PlanError, ProgramError
from pitplan.pits.shells import Shells
from pitplan.plan import Plan
from pitplan.slopes.domains import SlopeDomains
from pitplan.solver import choice, library, mine_files, problem, program
from pitplan.solver.program import Solution

from . import store
from .realisations import priced
from .store import Scenario, Shared

# Exit statuses of one scenario. 0 to 4 are the program's own: done, refused, not understood, budget used up, no.
REFUSED, LOST = 5, 75
FINAL = range(6)
PROGRAM_STATUSES = range(1, 5)


@dataclass(frozen=True)
class Outcome:
    """How a scenario ended.

    Attributes
    ----------
    number : int
    status : int
        0: its result is written; 1 to 4: the program's own; 5: pitplan refused; 75: the program was killed, try again.
    why : str
        The reason if the status is not 0.
    seconds : float
    """

    number: int
    status: int
    why: str
    seconds: float

    @property
    def is_final(self) -> bool:
        """Whether another try would end in the same way."""
        return self.status in FINAL


@lru_cache(maxsize=1)
def shared_of(folder: str, digest: str) -> Shared:
    """Reads the common input of a folder, once in each process; `digest` is the hash of its record."""
    return store.read_shared(Path(folder))


def solve(folder: str, number: int) -> Outcome:
    """Solves a scenario and writes its result, unless it has one. Never raises PlanError."""
    began = time.perf_counter()
    try:
        shared = shared_of(folder, hash_of(Path(folder) / store.RECORD))
        scenario = shared.jobs[number - 1]
    except OSError as error:
        return Outcome(number, REFUSED, f"{error.filename}: cannot be read: run pitplan scenarios first", 0.0)
    except PlanError as error:
        return Outcome(number, REFUSED, str(error), 0.0)
    except IndexError:
        return Outcome(number, REFUSED, f"{folder}: has no scenario {number}", 0.0)
    if shared.answer(scenario).is_file():
        return Outcome(number, 0, "", 0.0)
    try:
        if shared.is_by_block:
            write_block_answer(shared, scenario)
        else:
            write_answer(shared, scenario)
    except PlanError as error:
        status = status_of(error)
        store.save_failure(shared, scenario, getattr(error, "status", None), str(error))
        return Outcome(number, status, f"{scenario.label}: {error}", time.perf_counter() - began)
    store.forget_failure(shared, scenario)
    return Outcome(number, 0, "", time.perf_counter() - began)


def status_of(error: PlanError) -> int:
    """Returns the program's own status if it has one, 75 if it was killed, otherwise 5."""
    status = error.status if isinstance(error, ProgramError) else None
    if status is None:
        return REFUSED
    return status if status in PROGRAM_STATUSES else LOST


def plan_of(shared: Shared, scenario: Scenario) -> Plan:
    """Returns a scenario as a plan, whose precedences are in the shared files."""
    project = priced(shared.project, scenario.priced())
    grades = shared.grades(scenario)
    columns = {metal.column: grades[:, number] for number, metal in enumerate(project.metals)}
    frame = shared.frame.assign(**columns)
    values = block_values.values_of(frame, shared.grid, project, scenario.label)
    # All scenarios have the same nodes and share one file of precedences. Nodes without metal here have no value.
    values = replace(values, shared=shared.ore)
    domains, used = SlopeDomains((), np.zeros(0), (), np.zeros(0)), np.zeros(0, bool)
    return Plan(project, frame, shared.grid, values, domains, used, scenario.label, settled=shared.settled)


def shells_of(shared: Shared, plan: Plan) -> Solution:
    """Returns the shells of a scenario. Raises ProgramError if the solver here is another one, or refuses."""
    choice.demand_same(shared.solver)
    factors = plan.project.shells.revenue_factors
    nodes = plan.values.nodes() if plan.settled is None else constraints.nodes_of_rest(plan.values, plan.settled)
    if shared.solver.by == choice.LIBRARY:
        return library.shells(nodes, shared.rows, factors)
    with tempfile.TemporaryDirectory(prefix="pitplan-") as place:
        blocks = Path(place) / mine_files.BLOCKS
        mine_files.write_blocks(blocks, plan.grid, plan.values.processed, nodes)
        return program.solve_files(blocks, shared.folder / store.PREC, factors)


def write_block_answer(shared: Shared, scenario: Scenario) -> None:
    """Schedules the blocks of a scenario and writes the result. Raises MissingPackage without the library, and PlanError as `blocks.worker`."""
    load_library("a schedule by block")
    # It imports the library itself, and this module.
    from pitplan.studies.scenarios.blocks import worker

    worker.write_answer(shared, scenario)


def write_answer(shared: Shared, scenario: Scenario) -> None:
    """Solves the shells of a scenario and writes the result. Raises ProgramError if the solver refuses."""
    plan = plan_of(shared, scenario)
    solution = problem.joined(shells_of(shared, plan), plan.settled, plan.values)
    missing_blocks.demand_known(solution.entry, plan.grid, plan.project, plan.source)
    shells = Shells(plan, solution)
    table = shells.amounts.astype(np.float64)
    factors = np.array(plan.project.shells.revenue_factors)
    entry = shells.cells.factor[plan.grid.rows]
    texts = {"value_at_revenue_factor": np.array([f"{worth:f}" for worth in solution.worth], dtype=str)}
    with staged_file(shared.answer(scenario)) as path:
        # The place of a block's least revenue factor in the list, from 1; 0: in no pit.
        places = np.where(entry > 0, np.searchsorted(factors, entry) + 1, 0).astype(np.uint16)
        keyed_arrays.write(
            path, scenario.key, places=places, columns=table.columns.to_numpy().astype(str), table=table, **texts
        )

"""Amounts and values of blocks for schedules over scenarios: those of one scenario, and the mean of all.

A mined block goes to processes, dumps or waste, in shares, so that a year with more ore than its limits allow processes the best of it. Where a
block is ore follows from the base price: in a process that pays more than the cheapest dump that accepts the block. Before the grades are known a
block is sent by an order: to a dump, or to a process, and to a dump in the scenarios in which it is no ore there. The mean over scenarios is
taken of the values of orders, not of the grades, since grades are known when a block is mined. A block that is ore in one of ten realisations has
a tenth of its value there, takes a tenth of its tonnes from the mill, and leaves the others to the dump; by its mean grade it might have no
value.
"""

from __future__ import annotations

from collections.abc import Iterator
from dataclasses import dataclass, replace
from functools import reduce
from pathlib import Path
from typing import Any

import numpy as np
import pandas as pd
from numpy.typing import NDArray

from pitplan.blockmodel.grid import grid_of
from pitplan.config.project import Project
from pitplan.config.schedule import ScheduleRules
from pitplan.core import layout
from pitplan.core.atomic_files import staged
from pitplan.core.progress import Progress
from pitplan.errors import PlanError
from pitplan.plan import MILLION, Plan
from pitplan.pushbacks.bench_table import CASH
from pitplan.scheduling.blocks import BlockPrecedences, BlockProblem
from pitplan.scheduling.blocks.from_plan import (
    BlockAmounts,
    Destinations,
    Minable,
    demand_of_blocks,
    destinations_of,
    head_grades,
    of_pushbacks,
    taken,
    years_of,
)
from pitplan.scheduling.limits import DUMP, grade_limits, limits_of, periods_of
from pitplan.solver.choice import PROGRAM
from pitplan.studies.scenarios import prepare, store
from pitplan.studies.scenarios.prepare import Laid
from pitplan.studies.scenarios.realisations import scenarios_of
from pitplan.studies.scenarios.store import Scenario, Shared
from pitplan.studies.scenarios.worker import plan_of

FLOW, EXCESS, PAYS = "flow ", "excess ", "pays"


@dataclass(frozen=True)
class ScenarioBlocks:
    """The blocks that may be mined, and the number of periods: the same for all scenarios, so that each can follow the schedule of another.

    Attributes
    ----------
    minable : Minable
    periods : int
    """

    minable: Minable
    periods: int

    @property
    def cells(self) -> NDArray[np.int64]:
        return self.minable.cells

    def arrays(self) -> dict[str, NDArray[Any]]:
        """Returns the arrays for a file; the periods are in the record."""
        of = self.minable
        found = {"cells": of.cells, "must_mine": of.must_mine}
        return found | {"starts": of.precedences.starts, "needed": of.precedences.predecessors}

    @staticmethod
    def of_arrays(arrays: dict[str, NDArray[Any]], periods: int) -> ScenarioBlocks:
        precedences = BlockPrecedences(arrays["starts"], arrays["needed"])
        return ScenarioBlocks(Minable(arrays["cells"], precedences, arrays["must_mine"]), periods)

    def problem(self, amounts: BlockAmounts, project: Project) -> BlockProblem:
        return self.minable.problem(amounts, project, self.periods)


@dataclass(frozen=True)
class Order:
    """Where a block is sent before its grades are known: the number of the destination, and that of the dump in scenarios in which it is no ore there."""

    to: int
    otherwise: int


@dataclass(frozen=True)
class Orders:
    """All orders of a project: first to each dump, then to each process with each dump. Without `[[dumps]]` an order is a destination."""

    destinations: Destinations

    @property
    def dumps(self) -> range:
        return range(len(self.destinations.waste))

    @property
    def listed(self) -> tuple[Order, ...]:
        """In the order of arrays."""
        processes = range(len(self.dumps), len(self.destinations))
        return (*(Order(it, it) for it in self.dumps), *(Order(to, it) for to in processes for it in self.dumps))

    def goes(self, ore: NDArray[np.bool_], sent: NDArray[np.int64]) -> NDArray[np.int64]:
        """Returns where blocks go in a scenario by each order, shape (blocks, orders).

        Parameters
        ----------
        ore : bool array, shape (blocks, destinations)
            Whether a block is ore in each.
        sent : int array, shape (blocks, destinations)
            Where it goes that is sent to each.
        """
        return np.stack([np.where(ore[:, it.to], it.to, sent[:, it.otherwise]) for it in self.listed], axis=1)

    def alike(self, mean: BlockAmounts) -> NDArray[np.int64]:
        """Returns for each block and order the one that has the same amounts in all scenarios, and names a dump that accepts the block and a process in
        which it is ore in some scenario: shape (blocks, orders)."""
        count = len(self.dumps)
        taken = np.stack([mean.flows[f"{DUMP}{name}"][:, :count] for name in self.destinations.waste], axis=2)
        dump = taken.argmax(axis=2)
        found = [
            np.where(mean.pays[:, number], count * (it.to - count + 1), 0) + dump[:, it.otherwise]
            for number, it in enumerate(self.listed)
        ]
        return np.stack(found, axis=1)

    def shares(self, share: NDArray[np.float64]) -> NDArray[np.float64]:
        """Returns by the shares of orders what is planned for each process, and for each dump of what is no ore, shape (blocks, destinations)."""
        found = np.zeros((len(share), len(self.destinations)))
        for number, it in enumerate(self.listed):
            found[:, it.otherwise] += share[:, number]
            if it.to != it.otherwise:
                found[:, it.to] += share[:, number]
        return found


def orders_of(project: Project) -> Orders:
    return Orders(destinations_of(project))


@dataclass(frozen=True)
class SentBlocks:
    """Blocks in a scenario.

    Attributes
    ----------
    amounts : BlockAmounts
        Amounts of each block in each destination.
    ore : bool array, shape (blocks, destinations)
        Whether it is ore there.
    goes : int array, shape (blocks, destinations)
        Where it goes that is sent to each.
    """

    amounts: BlockAmounts
    ore: NDArray[np.bool_]
    goes: NDArray[np.int64]

    @staticmethod
    def of_plan(plan: Plan, cells: NDArray[np.int64]) -> SentBlocks:
        amounts = BlockAmounts.of_plan(plan, head_grades(plan)).of_cells(cells)
        cash, cheapest = amounts.flows[CASH], taken(plan, cells, np.zeros_like(amounts.pays))[:, -1:]
        # With dumps amounts are no whole millionths: half of one is no gain.
        even = 0.5 / MILLION if plan.project.dumps else 0.0
        ore = amounts.pays & (cash > np.take_along_axis(cash, cheapest, axis=1) + even)
        return SentBlocks(amounts, ore, taken(plan, cells, ore))

    @property
    def own(self) -> BlockAmounts:
        """The amounts by destination of a schedule of the scenario itself."""
        return self.amounts.as_sent(self.goes)

    def ordered(self, orders: Orders) -> BlockAmounts:
        """Returns the amounts by order."""
        return self.amounts.as_sent(orders.goes(self.ore, self.goes))


def added(one: BlockAmounts, other: BlockAmounts) -> BlockAmounts:
    """Returns the sums of the amounts of two scenarios."""
    flows, excess = (
        {name: it + of_other[name] for name, it in of_one.items()}
        for of_one, of_other in ((one.flows, other.flows), (one.excess, other.excess))
    )
    return BlockAmounts(flows, excess, one.pays | other.pays)


def arrays_of(amounts: BlockAmounts) -> dict[str, NDArray[Any]]:
    flows = {f"{FLOW}{name}": it for name, it in amounts.flows.items()}
    return flows | {f"{EXCESS}{name}": it for name, it in amounts.excess.items()} | {PAYS: amounts.pays}


def amounts_of(arrays: dict[str, NDArray[Any]]) -> BlockAmounts:
    flows, excess = (
        {name.removeprefix(kind): it for name, it in arrays.items() if name.startswith(kind)} for kind in (FLOW, EXCESS)
    )
    return BlockAmounts(flows, excess, arrays[PAYS])


def limits_in_record(project: Project) -> dict[str, Any]:
    """Returns the limits of a year, which are the same for every scenario and the mean, as records have them."""
    rules, grades = project.schedule or ScheduleRules(), {it.name: it.grade for it in grade_limits(project)}
    return limits_of(project, rules).record | ({"feed": grades} if grades else {}) | {"ramp_up": list(rules.ramp_up)}


def demand_of_scenarios(project: Project) -> None:
    """Raises PlanError with the key if the project sets an option that scenarios --by block do not support."""
    rules, calendar = project.schedule or ScheduleRules(), project.shells.calendar
    asked = {
        "[schedule] milp: its time limit would make results depend on the machine": rules.milp is not None,
        "[schedule] stockpile: ore goes to a process in the period in which it is mined": bool(rules.stockpiles),
        "[schedule] minimum: a common schedule cannot meet it in each scenario": bool(rules.minimum),
        "[[schedule.limits]] min: a common schedule cannot meet it in each scenario": any(
            it.min for it in rules.limits
        ),
        "[[periods]] minimum: a common schedule cannot meet it in each scenario": calendar.has(lambda it: it.minimum),
        "[[periods]] dumps min: a common schedule cannot meet it in each scenario": calendar.has(
            lambda it: any(dump.min for dump in it.dumps)
        ),
    }
    for why, is_asked in asked.items():
        if is_asked:
            raise PlanError(f"{project.path}: {why}: remove it for scenarios --by block")
    for key, name in prices_set_twice(project):
        why = f"found a price of {name}, which {key} sets by year too, expected one of them for scenarios --by block"
        raise PlanError(f"{project.path}: [[scenarios.prices]] {name}: {why}: remove {name} from one of the two")


def prices_set_twice(project: Project) -> Iterator[tuple[str, str]]:
    """Yields the keys with yearly prices of metals whose price a deck sets, and these metals."""
    for metal in project.metals:
        if any(metal.name in deck for deck in scenarios_of(project).prices):
            if metal.prices:
                yield f"[[metals]] {metal.name} prices", metal.name
            if project.shells.calendar.has(lambda it: metal.name in it.prices):
                yield "[[periods]] prices", metal.name


ONE = "common schedule"


def demand_apt(project: Project) -> None:
    """Raises PlanError if the project sets an option that scenarios --by block do not support."""
    demand_of_blocks(project)
    demand_of_scenarios(project)
    for key in of_pushbacks(project):
        raise PlanError(f"{project.path}: {key}: applies to pushbacks: remove it for scenarios --by block")
    if project.solver == PROGRAM:
        raise PlanError(
            "--solver program: finds pits alone, and schedules by block are made with the library: leave it out"
        )


def write(laid: Laid, folder: Path, progress: Progress) -> None:
    """Writes the common input of schedules, and scenarios.json. Raises PlanError if block values cannot be computed, or a pit would take too
    many years."""
    with staged(folder, store.RECORD, subfolders=layout.FOLDERS) as stage:
        blocks, mean = spread(laid, folder, progress)
        written = [*prepare.write_shared(laid, stage), store.DIGGABLE, store.MEAN]
        np.savez_compressed(stage / store.DIGGABLE, **blocks.arrays())
        np.savez_compressed(stage / store.MEAN, **arrays_of(mean))
        project = laid.base.project
        parts = prepare.common_parts(laid) | {"schedule": store.meaning_of_years(project, blocks.periods)}
        scenarios = prepare.keyed(laid.scenarios, project, parts)
        one = Scenario(len(scenarios) + 1, ONE, "", {}, store.key_of({"mean": [it.key for it in scenarios]}))
        more = {"by": store.BLOCK, "years": blocks.periods, **limits_in_record(project), "mean": vars(one)}
        prepare.write_record(laid, scenarios, written, stage, **more)


def spread(laid: Laid, folder: Path, progress: Progress) -> tuple[ScenarioBlocks, BlockAmounts]:
    """Returns the blocks that may be mined, and the mean of their amounts over all scenarios, with equal weights. The periods are those of the
    project, otherwise those of the longest pit, that of the mean included, and a fifth more."""
    plan, project, count = laid.plan, laid.base.project, len(laid.scenarios)
    with progress.step("collecting the blocks that can be mined"):
        # A block that pays in a scenario pays at the largest grades and prices without selling cost, since no recovery falls with the grade.
        minable = Minable.of_plan(plan, BlockAmounts.of_plan(plan, ()).greatest_cash(plan.project) > 0)
    asked = periods_of(project, project.schedule or ScheduleRules())
    shared, pits = shared_of(laid, folder), list[dict[str, float]]()

    def note_pit(amounts: BlockAmounts) -> BlockAmounts:
        if asked is None:
            pits.append(amounts.held(minable.pit(amounts, project)))
        return amounts

    with progress.step(f"computing block values of {count:,} scenarios"):
        sent = (SentBlocks.of_plan(plan_of(shared, it), minable.cells) for it in laid.scenarios)
        total = reduce(added, (note_pit(it.ordered(orders_of(project))) for it in sent))
    flows, excess = ({name: it / count for name, it in of.items()} for of in (total.flows, total.excess))
    mean = replace(total, flows=flows, excess=excess)
    note_pit(mean)
    return ScenarioBlocks(minable, asked or years_of(pits, project)), mean


def shared_of(laid: Laid, folder: Path) -> Shared:
    """Returns the common input before it is written, for the block values of scenarios."""
    base, plan = laid.base, laid.plan
    arrays = prepare.arrays_of(base)
    grid = grid_of(plan.grid.as_json(), arrays.pop("cells"))
    return Shared(
        folder, base.project, pd.DataFrame(arrays), grid, plan.values.processed, {}, laid.solver, plan.settled
    )

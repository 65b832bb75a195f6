"""Makes and writes one schedule of a set of scenarios: that of a scenario, or the common one."""

from __future__ import annotations

import time
from dataclasses import dataclass, replace
from functools import cached_property
from typing import Any

import numpy as np
from numpy.typing import NDArray

from pitplan.blockmodel import missing_blocks
from pitplan.core import keyed_arrays
from pitplan.core.atomic_files import staged_file
from pitplan.core.revenue_factors import BASE_PRICE
from pitplan.errors import PlanError
from pitplan.pits import ore_kinds
from pitplan.pushbacks.bench_table import ORE, ROCK
from pitplan.scheduling.blocks import Scheduled, solve
from pitplan.scheduling.blocks.from_plan import BlockAmounts
from pitplan.scheduling.limits import DUMP
from pitplan.solver import choice
from pitplan.studies.scenarios import store
from pitplan.studies.scenarios.store import Scenario, Shared
from pitplan.studies.scenarios.worker import plan_of

from .problem import ScenarioBlocks, SentBlocks, amounts_of, orders_of


@dataclass(frozen=True)
class WrittenSchedule:
    """A schedule as written.

    Attributes
    ----------
    year : array of int, shape (rows,)
        The year in which each row of the table is mined, from 1; 0: never.
    share : array of float, shape (rows, destinations or orders)
        The share of each that goes to each destination, of the common schedule by each order; without dumps the first one, waste, is left out.
    row : dict of str to Any
        The columns of schedules.csv for its own schedule.
    """

    year: NDArray[np.int64]
    share: NDArray[np.float64]
    row: dict[str, Any]


def write_answer(shared: Shared, job: Scenario) -> None:
    """Schedules a scenario, or the mean of all, and writes the result.

    Raises
    ------
    PlanError
        If no schedule is feasible, or it reaches a missing block.
    KeyboardInterrupt
        If it is interrupted.
    """
    choice.demand_same(shared.solver)
    began = time.perf_counter()
    made = Made.of(shared, job)
    missing_blocks.demand_known(made.entry, shared.grid, shared.project, shared.project.table.file.name)
    row = made.row | {"seconds": time.perf_counter() - began}
    year, share = made.by_row
    with staged_file(shared.answer(job)) as path:
        keyed_arrays.write(path, job.key, year=year, share=share, names=list(row), amounts=list(row.values()))


@dataclass(frozen=True)
class Made:
    """A schedule of blocks of a folder, with their amounts."""

    shared: Shared
    blocks: ScenarioBlocks
    amounts: BlockAmounts
    found: Scheduled

    @staticmethod
    def of(shared: Shared, job: Scenario) -> Made:
        blocks, project = blocks_of(shared), shared.project
        plan = None if job.is_mean else plan_of(shared, job)
        sent = None if plan is None else SentBlocks.of_plan(plan, blocks.cells)
        amounts = mean_of(shared) if sent is None else sent.own
        found = solve(blocks.problem(amounts, project))
        if found.interrupted:
            raise KeyboardInterrupt
        if project.dumps:
            goes = orders_of(project).alike(amounts) if sent is None else sent.goes
            found = replace(found, schedule=found.schedule.sent(goes))
        made = Made(shared, blocks, amounts, found)
        if project.dumps and plan is not None:
            ore_kinds.accepted(plan, blocks.cells[made.is_mined])
        return made

    @cached_property
    def is_mined(self) -> NDArray[np.bool_]:
        return self.found.schedule.year < self.blocks.periods

    @property
    def entry(self) -> NDArray[np.int64]:
        """The base price's revenue factor for each mined cell, otherwise 0; shape (cells,)."""
        entry = np.zeros(self.shared.grid.count, dtype=np.int64)
        entry[self.blocks.cells] = np.where(self.is_mined, BASE_PRICE, 0)
        return entry

    @property
    def by_row(self) -> tuple[NDArray[np.int16], NDArray[np.float64]]:
        """Year and shares, as they are written, by row of the table."""
        schedule, grid = self.found.schedule, self.shared.grid
        shown = schedule.share[:, first_shown(self.shared) :]
        year, share = np.zeros(grid.count, dtype=np.int16), np.zeros((grid.count, shown.shape[1]))
        year[self.blocks.cells] = np.where(self.is_mined, schedule.year + 1, 0)
        share[self.blocks.cells] = shown
        return year[grid.rows], share[grid.rows]

    @property
    def row(self) -> dict[str, float]:
        """The columns of schedules.csv."""
        found, flows = self.found, self.amounts.flows
        rock, year = flows[ROCK][self.is_mined, 0], found.schedule.year[self.is_mined]
        names = [name for name in flows if name.startswith((ORE, "recovered_", DUMP))]
        return {
            "npv": found.value,
            "upper_bound": found.bound,
            "optimality_gap": found.gap,
            "years": self.shared.project.shells.calendar.span(int(year.max(initial=-1)) + 1),
            "blocks": int((rock > 0).sum()),
            "tonnes": float(rock.sum()),
            **{name: float((flows[name] * found.schedule.share).sum()) for name in names},
        }


def first_shown(shared: Shared) -> int:
    """Returns the first destination, or order, whose share is written: without dumps the first one is waste, which takes the rest."""
    return 0 if shared.project.dumps else 1


def all_shares(shared: Shared, written: NDArray[np.float64]) -> NDArray[np.float64]:
    """Returns the shares of blocks with that of the first destination, or order, if it is not written."""
    return written if first_shown(shared) == 0 else np.insert(written, 0, 0.0, axis=1)


def blocks_of(shared: Shared) -> ScenarioBlocks:
    with np.load(shared.folder / store.DIGGABLE, allow_pickle=False) as arrays:
        return ScenarioBlocks.of_arrays({name: arrays[name] for name in arrays.files}, shared.record["years"])


def mean_of(shared: Shared) -> BlockAmounts:
    """Reads the mean amounts of the blocks that may be mined, over all scenarios."""
    with np.load(shared.folder / store.MEAN, allow_pickle=False) as arrays:
        return amounts_of({name: arrays[name] for name in arrays.files})


def read_answer(shared: Shared, job: Scenario) -> WrittenSchedule:
    """Reads the schedule of a job. Raises PlanError if it cannot be read, or is of other blocks."""
    path = shared.answer(job)
    try:
        kept = keyed_arrays.read(path, job.key)
        row = dict(zip(kept["names"].tolist(), kept["amounts"].tolist()))
        year, share = kept["year"].astype(np.int64), kept["share"]
        orders = orders_of(shared.project)
        count = (len(orders.listed) if job.is_mean else len(orders.destinations)) - first_shown(shared)
        is_of_these = (
            share.shape == (*year.shape, count) == (len(shared.frame), count)
            and 0 <= year.min(initial=0) <= year.max(initial=0) <= shared.record["years"]
        )
        if not is_of_these:
            raise keyed_arrays.NoAnswer("it holds other blocks or years")
        row["blocks"] = int(row["blocks"])
    except (OSError, ValueError, KeyError, TypeError) as error:
        raise PlanError(
            f"{path}: is not a result of {job.label}: {error}: remove it, and run pitplan scenarios again"
        ) from error
    return WrittenSchedule(year, share, row)

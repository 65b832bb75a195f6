"""The ore of shells by kind, the processes that the mine waits for, and the costs of dumps.

Blocks of one kind pay in the same processes, are best in the same one, and have the same value bin. A process takes any share of a kind.
"""

from __future__ import annotations

from collections.abc import Iterator
from dataclasses import dataclass
from itertools import combinations

import numpy as np
import pandas as pd
from numpy.typing import NDArray

from pitplan.config.project import Project
from pitplan.config.shells import ShellRules
from pitplan.economics.cutoff_grades import BINS, edges_of
from pitplan.economics.weighing import accepted_by
from pitplan.errors import PlanError
from pitplan.plan import MILLION, Plan

Floats = NDArray[np.float64]
Mask = NDArray[np.bool_]
# The kinds of rock that an error names.
MOST_NAMED = 5


def of_cells(plan: Plan, cells: NDArray[np.int64]) -> NDArray[np.float64]:
    """Returns what each whole cell costs as waste, in the currency, shape (cells,); 0 without `[[dumps]]`. Raises PlanError if no dump accepts some of
    them."""
    if not plan.project.dumps:
        return np.zeros(len(cells))
    costs = np.array([it.cost for it in plan.project.dumps])
    a_tonne = np.where(accepted(plan, cells), costs, np.inf).min(axis=1)
    tonnes = plan.values.tonnes[cells]
    return np.where(tonnes > 0, np.where(np.isinf(a_tonne), 0.0, a_tonne) * tonnes, 0.0)


def accepted(plan: Plan, cells: NDArray[np.int64]) -> NDArray[np.bool_]:
    """Returns whether each dump accepts each cell, shape (cells, dumps). Raises PlanError, with its codes and tonnes, if none accepts some rock."""
    found = accepting(plan, cells)
    demand_accepted(plan, cells[~found.any(axis=1) & (plan.values.tonnes[cells] > 0)])
    return found


def accepting(plan: Plan, cells: NDArray[np.int64]) -> NDArray[np.bool_]:
    """Returns whether each dump accepts each cell, shape (cells, dumps), also where none accepts it."""
    masks = [accepted_by(it.accepts, plan.table, plan.project) for it in plan.project.dumps]
    return np.stack([plan.grid.spread(mask)[cells] for mask in masks], axis=1).astype(bool)


def demand_accepted(plan: Plan, cells: NDArray[np.int64]) -> None:
    """Raises PlanError with the rock of cells that no dump accepts, and its tonnes."""
    if not len(cells):
        return
    row = np.full(plan.grid.count, -1)
    row[plan.grid.rows] = np.arange(len(plan.table))
    tonnes, project = pd.Series(plan.values.tonnes[cells]), plan.project
    columns = codes_of(project)
    codes = [plan.table[name].astype(str).to_numpy()[row[cells]] for name in columns.values()]
    sums = (tonnes.groupby(codes).sum() if codes else tonnes.groupby(np.zeros(len(cells))).sum()).sort_values()[::-1]
    parts = []
    for key, amount in sums.iloc[:MOST_NAMED].items():
        named = zip(columns, key if isinstance(key, tuple) else (key,)) if columns else ()
        of = ", ".join(f"{kind} {code}" for kind, code in named)
        parts.append(f"{amount:,.10g} t{f' of {of}' if of else ''}")
    more = f" and {len(sums) - MOST_NAMED} more" if len(sums) > MOST_NAMED else ""
    names = ", ".join(it.name for it in project.dumps)
    raise PlanError(
        f"{project.path}: [[dumps]] accepts: none of {names} accepts {'; '.join(parts)}{more} of the pit, the first "
        f"{plan.called(int(cells[0]))}: let a dump accept it, or add a dump without accepts"
    )


def codes_of(project: Project) -> dict[str, str]:
    """Returns the columns of the codes that the project names, by what they are."""
    table = project.table
    named = {"rock type": table.rock_type, "domain": table.domain, "class": table.resource_class}
    return {kind: column for kind, column in named.items() if column}


# The columns before those by kind.
HEAD = 3


# Of more processes than these the mine waits for each one alone or for all.
MOST_WAITING = 3


# Decimals of net values per tonne, so that blocks of the same value are in one bin.
DECIMALS = 6


@dataclass(frozen=True)
class Wait:
    """The capacities that a year may use up.

    Attributes
    ----------
    uses : array, shape (columns, capacities)
        Years of each capacity, as in `[shells]`, that a unit of each column uses.
    shares : array, shape (years, capacities)
        What each period has of each capacity, 1 being a year of that of `[shells]`; the last period continues.
    """

    uses: Floats
    shares: Floats


@dataclass(frozen=True)
class OreKinds:
    """Columns of amounts by kind of ore: total_tonnes, the cash flow of mining and that of dumps if all is waste, feed by kind, and by kind and process the gain, which is revenue
    less processing cost, each recovered metal, and each cost that factors of periods multiply.

    Attributes
    ----------
    names : tuple of str
        Names of the amounts of metal, recovered_NAME, and of such costs.
    pays, best : bool array, shape (kinds, processes)
        Whether the ore pays in a process, and whether it earns most there; several processes may earn the same.
    alike : tuple of tuple of int
        The processes in groups in which each block of ore earns the same.
    """

    names: tuple[str, ...]
    pays: Mask
    best: Mask
    alike: tuple[tuple[int, ...], ...]

    @property
    def kinds(self) -> int:
        return len(self.pays)

    @property
    def processes(self) -> int:
        return self.pays.shape[1]

    @property
    def width(self) -> int:
        return HEAD + self.kinds * (1 + self.processes * (1 + len(self.names)))

    def feed(self, amounts: Floats) -> Floats:
        """Returns the feed, shape (.., kinds)."""
        return amounts[..., HEAD : HEAD + self.kinds]

    def by_process(self, amounts: Floats) -> Floats:
        """Returns gain and metals, shape (.., 1 + names, kinds, processes)."""
        shape = (*amounts.shape[:-1], 1 + len(self.names), self.kinds, self.processes)
        return amounts[..., HEAD + self.kinds :].reshape(shape)

    def waits(self, settings: ShellRules) -> list[Wait]:
        """Returns, for each set of processes that the mine may wait for, what a unit of each column uses of the capacities.

        The mine waits until all ore that is best in one of the processes is processed where it is best, or all that pays in one of them in any
        of them. Ore that pays in S alone, a set of processes, takes the capacity of S (Hall's theorem).
        """
        found = [self.wait(masks, settings) for masks in self.waiting()]
        return list({(it.uses.shape, it.uses.tobytes()): it for it in found}.values())

    def waiting(self) -> Iterator[Mask]:
        """Yields for each set of processes where each kind that the mine waits for is processed, shape (kinds, processes)."""
        groups = self.alike
        counts = range(1, len(groups) + 1) if len(groups) <= MOST_WAITING else (len(groups), 1)
        for some in (some for count in counts for some in combinations(groups, count)):
            within = np.isin(np.arange(self.processes), [process for group in some for process in group])
            yield self.pays & within
            yield self.best & (self.best & within).any(axis=1, keepdims=True)

    def wait(self, masks: Mask, settings: ShellRules) -> Wait:
        """Returns the uses of the capacities of all sets of processes to which some ore is bound, and of mining."""
        uses, by_year = [], np.array(settings.capacities_by_year)
        shares = []
        for taken in unions(masks):
            inside = masks.any(axis=1) & ~(masks & ~taken).any(axis=1)
            column, capacity = np.zeros(self.width), np.array(settings.capacities)[taken].sum()
            column[HEAD : HEAD + self.kinds] = inside / capacity
            uses.append(column)
            shares.append(by_year[:, taken].sum(axis=1) / capacity)
        return with_mining(np.column_stack(uses), np.column_stack(shares), settings)


def with_mining(uses: Floats, shares: Floats, settings: ShellRules) -> Wait:
    """Returns the uses of capacities with that of mining, by total tonnes in the first column."""
    if settings.mining_capacity is None:
        return Wait(uses, shares * settings.calendar.lengths(len(shares))[:, None])
    column = np.zeros(len(uses))
    column[0] = 1 / settings.mining_capacity
    of_mining = np.array(settings.mining_by_year) / settings.mining_capacity
    years = np.arange(max(len(shares), len(of_mining)))
    rows = [part[np.minimum(years, len(part) - 1)] for part in (shares, of_mining)]
    lengths = settings.calendar.lengths(len(years))
    return Wait(np.column_stack([uses, column]), np.column_stack(rows) * lengths[:, None])


def unions(masks: Mask) -> list[Mask]:
    """Returns all different unions of rows with a process; all processes if none exist."""
    found = {tuple(row) for row in masks if row.any()} or {(True,) * masks.shape[1]}
    rows = sorted(found)
    for row in rows:
        found |= {tuple(np.logical_or(row, other)) for other in found}
    return [np.array(row, dtype=bool) for row in sorted(found, reverse=True)]


@dataclass(frozen=True)
class OreCells:
    """Cells of ore with the piece that each belongs to; int arrays, shape (cells,)."""

    cells: NDArray[np.int64]
    piece: NDArray[np.int64]


def by_piece(plan: Plan, ore: OreCells, count: int) -> tuple[OreKinds, Floats]:
    """Returns the kinds of ore, and its columns summed over `count` pieces, without those of all material. What ore does not cost in a dump is part
    of its gain."""
    kinds, kind = kinds_of(plan, ore.cells)
    place, size = ore.piece * kinds.kinds + kind, count * kinds.kinds

    def summed(values: Floats) -> Floats:
        return np.bincount(place, values, minlength=size).reshape(count, kinds.kinds).astype(np.float64)

    ways = plan.values.by_process
    amounts = [
        gains_of(plan, ore.cells) + of_cells(plan, ore.cells),
        *(np.stack([way.metal[name][ore.cells] for way in ways]) for name in plan.values.metal),
        *(costs[:, ore.cells] for costs in plan.multiplied_amounts.values()),
    ]
    of_processes = np.stack([np.stack([summed(row) for row in rows], axis=-1) for rows in amounts], axis=1)
    return kinds, np.concatenate([summed(plan.values.feed[ore.cells]), of_processes.reshape(count, -1)], axis=1)


def kinds_of(plan: Plan, cells: NDArray[np.int64]) -> tuple[OreKinds, NDArray[np.int64]]:
    """Returns the kinds of cells of ore, and the kind of each.

    Value bins divide the ore that is best in one process into parts of nearly even feed, by net value per tonne.
    """
    gain = gains_of(plan, cells)
    feed = plan.values.feed[cells]
    per_tonne = np.round(np.divide(gain, feed, out=np.zeros_like(gain), where=feed > 0), DECIMALS)
    pays, best = gain > 0, (gain == gain.max(axis=0, initial=-np.inf)) & (gain > 0)
    first = best.argmax(axis=0)
    value = np.zeros(len(cells), dtype=np.int64)
    for process in range(len(gain)):
        some = np.flatnonzero(first == process)
        value[some] = np.searchsorted(edges_of(per_tonne[process, some], feed[some], BINS), per_tonne[process, some])
    keys, kind = np.unique(np.concatenate([pays, best, value[None]]).T.astype(np.int64), axis=0, return_inverse=True)
    masks = keys[:, :-1].astype(bool)
    names = (*(f"recovered_{name}" for name in plan.values.metal), *plan.multiplied_amounts)
    found = OreKinds(names, masks[:, : len(gain)], masks[:, len(gain) :], alike(gain))
    return found, kind.ravel().astype(np.int64)


def gains_of(plan: Plan, cells: NDArray[np.int64]) -> Floats:
    """Returns revenue less processing cost of cells in each process, shape (processes, cells), in the currency."""
    return np.stack([(way.revenue[cells] - way.cost[cells]) / MILLION for way in plan.values.by_process])


def alike(gain: Floats) -> tuple[tuple[int, ...], ...]:
    """Returns the processes in groups with the same gains, by their first."""
    groups: dict[bytes, list[int]] = {}
    for process, row in enumerate(gain):
        groups.setdefault(row.tobytes(), []).append(process)
    return tuple(tuple(group) for group in groups.values())

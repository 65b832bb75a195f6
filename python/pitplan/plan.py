"""A plan: block model, grid, block values and slope precedences, ready for the solver."""

from __future__ import annotations

import json
from dataclasses import dataclass, field, replace
from functools import cached_property
from pathlib import Path
from typing import TYPE_CHECKING, Any, Iterable, Optional, Union

import numpy as np
import pandas as pd
from numpy.typing import NDArray

from pitplan.blockmodel.block_model import BlockModel
from pitplan.blockmodel.grid import Grid
from pitplan.blockmodel.reader import Table
from pitplan.config.economics import PER_REVENUE_FACTOR
from pitplan.config.periods import PERIOD, YEAR
from pitplan.config.project import Project, load, validated
from pitplan.config.shells import IN_WORDS
from pitplan.core.keyed_arrays import hash_of_all
from pitplan.core.libraries import libraries, load_library
from pitplan.core.progress import Progress, silent, warn
from pitplan.core.revenue_factors import BASE_PRICE, factor_text
from pitplan.economics.block_values import Values
from pitplan.economics.cost_lines import multiplied_amounts
from pitplan.economics.weighing import reference_level
from pitplan.precedences import MOST_PAIRS, Pairs, Precedences
from pitplan.preparation import Preparation
from pitplan.slopes import closure
from pitplan.slopes.domains import SlopeDomains

from . import constraints, preparation
from .blockmodel import missing_blocks, reader, resource_classes, summary, topography
from .constraints import NOTHING, FixedBlocks, Settled
from .economics import block_values, period_costs, weighing
from .errors import InputWarning, PlanError

if TYPE_CHECKING:
    from pitplan.pits.shells import Shells
    from pitplan.scheduling.blocks.tables import BlockSchedule

MILLION = 1_000_000
# The columns that blocks.csv has of its own; one of the planner's with such a name is called planner_NAME there.
OWN_COLUMNS = (
    *(
        "id",
        "mining_cost",
        "revenue",
        "processing_cost",
        "revenue_factor",
        "process_revenue_factor",
        "free_revenue_factor",
        "free_process_revenue_factor",
    ),
    "pushback",
    YEAR,
    PERIOD,
    "bin",
    "share_mined",
    "process",
    *("haul_distance", "haulage_cost", "ore_haulage_cost"),
)


@dataclass(frozen=True, repr=False, eq=False)
class Plan:
    """A block model prepared for the solver. Make one by `from_project` or `from_model`.

    Attributes
    ----------
    project : Project
        The project, with all defaults.
    table : DataFrame
        The block model as read and checked, in the order of the file, with tonnes cut by the topography if there is one.
    grid : Grid
        The cells of the model; `grid.rows` is the cell of each row of `table`.
    values : Values
        Costs and revenue of each cell, in millionths of the currency.
    domains : SlopeDomains
        The slope precedences of each domain.
    used : array of bool, shape (cells,)
        Whether the precedences of a cell are written.
    source : str
        The file of the block model, or "table" if it is a DataFrame.
    filled : int
        Number of empty fields that were read as 0.
    notes, summary : list of str
        What was rounded, clipped or filled, with all warnings; and extents, tonnes and grades of the block model.
    fixed : FixedBlocks
        Must-mine and excluded blocks.
    settled : Settled, optional
        The cells that the constraints settle with their slope cones; None without `[constraints]`.
    left_out : int
        Number of rows that no shell can reach and that were removed from a model too large for the solver.
    read : DataFrame, optional
        The rows as read, before reblocking, filling and removal.
    model : DataFrame, optional
        The rows, if they were given as a DataFrame.
    given : Project, optional
        The project that is recorded, if `project` has other revenue factors.
    has_file : bool
        Whether the project is that of a file.
    progress : Progress
        Reports the steps of the plan and of what is made from it.
    """

    project: Project
    table: pd.DataFrame
    grid: Grid
    values: Values
    domains: SlopeDomains
    used: NDArray[Any]
    source: str
    filled: int = 0
    notes: list[str] = field(default_factory=list)
    summary: list[str] = field(default_factory=list)
    fixed: FixedBlocks = NOTHING
    settled: Optional[Settled] = None
    left_out: int = 0
    read: Optional[pd.DataFrame] = None
    model: Optional[pd.DataFrame] = None
    given: Optional[Project] = None
    has_file: bool = True
    progress: Progress = silent

    @classmethod
    def from_project(
        cls,
        project: Union[str, Path, Project],
        table: Optional[pd.DataFrame] = None,
        progress: Progress = silent,
        overrides: Iterable[str] = (),
    ) -> Plan:
        """The plan of a project.

        Parameters
        ----------
        project : str, Path or Project
            The path of a project.toml, or a project.
        table : DataFrame, optional
            Rows to plan in place of those of the project's file, under the column names that the project gives.
        progress : Progress
            Reports the steps; silent by default.
        overrides : iterable of str
            Keys to set in place of those of the file, each `KEY=VALUE`.

        Raises
        ------
        PlanError
            If the input is not usable, with section and key or with file, row and column.
        """
        if not isinstance(project, Project):
            return prepared(load(project, overrides=overrides), table, progress).warned()
        made = prepared(validated(project), table, progress)
        return replace(made, has_file=project.path.is_file()).warned()

    @classmethod
    def from_model(
        cls, model: BlockModel, folder: Union[str, Path] = ".", progress: Progress = silent, **sections: Any
    ) -> Plan:
        """The plan of a block model.

        Parameters
        ----------
        model : BlockModel
            The blocks.
        folder : str or Path
            Paths in the sections are relative to it.
        progress : Progress
            Reports the steps; silent by default.
        **sections
            The sections of a project.toml but `table` and `grid`: `economics`, `metals`, `slopes` and `shells`; if wanted `title`,
            `classes`, `processes`, `haulage`, `constraints`, `pushbacks`, `schedule`, `cash_flow`, `price_paths`, `sensitivity`, `figures` and
            `output`.

        Raises
        ------
        PlanError
            As `from_project` does.
        """
        titled = {"title": "Block model"} | sections
        project = Project.from_dict({"table": model.table, "grid": model.grid, **titled}, folder)
        return replace(prepared(project, model.frame, progress), has_file=False).warned()

    def warned(self) -> Plan:
        """The plan, after warnings as its notes have them."""
        warn(self.notes, InputWarning)
        return self

    @property
    def asked(self) -> Project:
        """The project that is recorded."""
        return self.given or self.project

    def with_project(self, project: Project, asked: Optional[Project] = None) -> Plan:
        """The plan of the same rows by another project. The record has `asked` in its place.

        Raises
        ------
        PlanError
            If the file of the block model has changed meanwhile.
        """
        if project == self.project:
            return replace(self, given=asked)
        made = replace(prepared(project, self.model, self.progress), has_file=self.has_file, given=asked)
        warn([note for note in made.notes if note not in self.notes], InputWarning)
        if self.read is not None and made.read is not None:
            common = self.read.columns.intersection(made.read.columns)
            if not made.read[common].equals(self.read[common]):
                raise PlanError(f"{self.source}: has changed since the plan was made of it: make the plan again")
        return made

    def shells(self, **keys: Any) -> Shells:
        """The nested shells.

        Parameters
        ----------
        **keys
            Keys of `[shells]` in place of the project's, such as `revenue_factors=[0.5, 1.0]`.

        Raises
        ------
        PlanError
            If a key is wrong, or a shell reaches a missing block.
        ProgramError
            If the solver is missing or refuses.
        """
        from pitplan.pits.shells import Shells

        plan = self.with_project(self.project.changed("shells", keys, keeps_others=True)) if keys else self
        return Shells.solved(plan).warned()

    def block_schedule(self, **keys: Any) -> BlockSchedule:
        """A schedule of single blocks by years, with an upper bound on the NPV of all such schedules.

        Parameters
        ----------
        **keys
            The keys of `[schedule]`. Default: those of the project.

        Raises
        ------
        MissingPackage
            Without the library libpitshell.so.
        PlanError
            If the project asks for what no schedule by block supports, or has too many blocks.
        """
        load_library("a schedule by block")
        # Its modules import the library themselves.
        from pitplan.scheduling.blocks import tables

        plan = self.with_project(self.project.changed("schedule", keys)) if keys else self
        planned = tables.collected(plan, self.progress)
        return tables.scheduled(planned, plan.shells(), self.progress).warned()

    def __repr__(self) -> str:
        """Title, size, metals and number of notes."""
        levels, rows, columns = self.grid.shape
        x, y, z = (f"{side:.10g}" for side in self.grid.size)
        metals = ", ".join(metal.name for metal in self.project.metals)
        return (
            f"Plan of {self.project.title}\n"
            f"  {len(self.table):,} blocks of {x} x {y} x {z} m on a grid of {columns} x {rows} x {levels}, from {self.source}\n"
            f"  {len(self.values.ore):,} with {metals}, {len(self.project.shells.revenue_factors)} revenue factors, "
            f"{len(self.notes)} notes (plan.notes)"
        )

    def called(self, cell: int) -> str:
        """The name of the block of a cell in the planner's table; in a scenario, which has grades alone, its centroid."""
        if self.project.table.x not in self.table:
            x, y, z = (f"{float(axis):.10g}" for axis in self.grid.centres(np.array(cell)))
            return f"the block at {x}, {y}, {z}"
        return reader.called(self.table, self.project, int((self.grid.rows == cell).argmax()), self.source)

    @cached_property
    def key(self) -> str:
        """A hash of everything that the shells depend on: grid, values, slopes, constraints and revenue factors."""
        values, domains, grid = self.values, self.domains, self.grid
        arrays = [*values.nodes(), values.processed, domains.code, self.used, self.fixed.must_mine, self.fixed.excluded]
        record = {
            "grid": grid.as_json(),
            "domains": [it.as_json() for it in domains.patterns],
            "revenue_factors": list(self.project.shells.revenue_factors),
        }
        return hash_of_all(json.dumps(record, default=repr), arrays)

    @property
    def blocks(self) -> pd.DataFrame:
        """One row per block, by `id` (the cell): the columns of the table, then costs and revenue in the currency.

        With several processes these are those of the best process at the base price, followed by those of each process. With `[haulage]`
        there are `haul_distance` in metres, one way, and the haulage costs, which the other costs contain.
        """
        ids = self.grid.rows[order := np.argsort(self.grid.rows)]
        own = [name for name in self.table if name != topography.MINED_SHARE]
        # Without a copy of all columns for each that is added, and with names that recur.
        frame = pd.DataFrame(dict(enumerate([ids, *(self.table[name].array.take(order) for name in own)])), copy=False)
        frame.columns = ["id", *map(shown_name, own)]
        for name in ("mining", "revenue", "processing"):
            frame[name if name == "revenue" else f"{name}_cost"] = getattr(self.values, name)[ids] / MILLION
        for way in self.values.by_process if self.project.processes else ():
            frame[f"revenue_{way.name}"] = way.revenue[ids] / MILLION
            frame[f"processing_cost_{way.name}"] = way.cost[ids] / MILLION
        if hauled := self.values.hauled:
            frame["haul_distance"] = hauled.road[ids] / 10**weighing.LENGTH_PLACES
            frame["haulage_cost"] = hauled.waste[ids] / MILLION
            frame["ore_haulage_cost"] = hauled.ore_more[ids] / MILLION
        return frame

    @cached_property
    def multiplied_amounts(self) -> dict[str, NDArray[np.float64]]:
        """The costs of ore that factors of periods multiply, by their amounts, in the currency, shape (processes, cells)."""
        return multiplied_amounts(self.table, self.grid, self.project, self.values)

    @property
    def reference(self) -> float:
        """Elevation in metres below which the mining cost rises by bench: the toe of the reference bench."""
        return self.grid.extent()[5] - (reference_level(self.project.economics, self.grid) + 1) * self.grid.size[2]

    @property
    def precedences(self) -> Precedences:
        """The slope precedences of the whole mine."""
        return Precedences(self.grid, self.domains, self.used, self.values.processed)

    @property
    def precedences_of_rest(self) -> Precedences:
        """The slope precedences among blocks that the constraints leave open; all without constraints."""
        return replace(self.precedences, settled=self.settled)

    def demand_few(self, pairs: Pairs) -> None:
        """Raises PlanError if there are more precedences than the solver takes."""
        count = pairs.written + pairs.processing
        if count > MOST_PAIRS:
            fewer = "reduce [slopes] precedence_benches"
            if self.project.slopes.precedence_benches is None:
                chosen = max(pattern.levels for pattern in self.domains.patterns)
                fewer = f"set [slopes] precedence_benches below the {chosen} that were chosen"
            raise PlanError(
                f"{count:,} precedences, and the solver takes at most {MOST_PAIRS:,}: {fewer}, or a smaller model"
            )

    def record(self, pairs: Pairs) -> dict[str, Any]:
        """The record of the plan: everything that was rounded, removed, clipped or added before the solver."""
        project = self.project
        return {
            "title": project.title,
            "table": {"file": self.source, "rows": len(self.table), "fields_filled_with_0": self.filled},
            "grid": self.record_of_grid(),
            "money": {
                "currency": project.economics.currency,
                "cutoff": self.values.cutoff,
                "mining_cost_reference": self.reference,
                "decimals": project.economics.decimals,
                "processing_nodes": len(self.values.processed),
                "rounded": {name: rounding.as_json() for name, rounding in self.values.roundings.items()},
            },
            "slope_domains": [pattern.as_json() for pattern in self.domains.patterns],
            "precedences": self.record_of_precedences(pairs),
            "constraints": {"must_mine": len(self.fixed.must_mine), "excluded": len(self.fixed.excluded)},
            "revenue_factors": list(project.shells.revenue_factors),
            "base_price_added": project.shells.base_price_added,
            "summary": self.summary,
            "notes": [*self.notes, *self.notes_of_precedences(pairs)],
            "codes": codes_of(project),
            "tonnes": shown_name(project.table.tonnes),
            "metals": [{"name": m.name, "column": shown_name(m.column), "sign": m.sign} for m in project.metals],
            "libraries": libraries(),
        }

    def record_of_grid(self) -> dict[str, Any]:
        return {
            **self.grid.as_json(),
            "cells": self.grid.count,
            "cells_without_a_row": self.grid.count - len(self.table),
            "of_these_not_above_the_highest_of_their_column": len(missing_blocks.unknown_cells(self.grid)),
            "greatest_shift_of_a_centre": self.grid.greatest_shift(self.table, self.project.table),
            **({"rows_left_out": self.left_out} if self.left_out else {}),
        }

    def notes_of_precedences(self, pairs: Pairs) -> list[str]:
        """Precedences that are written, and that no shell can use. A shell that reaches the edge of the model has a warning of its own."""
        left, last = self.grid.count - int(self.used.sum()), self.project.shells.revenue_factors[-1]
        notes = [f"{pairs.written:,} slope precedences for {self.grid.count - left:,} blocks"]
        if left:
            notes.append(
                f"{left:,} blocks cannot be in any shell up to revenue factor {factor_text(last)}; "
                "their precedences were omitted"
            )
        return notes

    def record_of_precedences(self, pairs: Pairs) -> dict[str, Any]:
        used = int(self.used.sum())
        return {
            "written": pairs.written,
            "of_processing_nodes": pairs.processing,
            "clipped_at_the_sides": pairs.clipped,
            "blocks_with_precedences": used,
            "blocks_without_precedences": self.grid.count - used,
            "trimmed_for_revenue_factors_up_to": self.project.shells.revenue_factors[-1],
        }


def prepared(project: Project, table: Union[pd.DataFrame, Table, None] = None, progress: Progress = silent) -> Plan:
    """Reads the block model of a checked project, and prepares the mine: grid, block values and slope precedences. `table` has one row per block, in
    place of the file of the project, under the column names that the project gives; or it was read and checked. Raises PlanError, with file, row and
    column, if the input is not usable."""
    model = preparation.take(preparation.read_table(project, table, progress), preparation.OF_PLAN)
    with progress.step("computing block values"):
        plan = plan_of(model)
    return replace(
        with_notes(plan, model),
        summary=model.summary,
        left_out=model.left_out,
        read=model.read.frame,
        model=table if isinstance(table, pd.DataFrame) else None,
        progress=progress,
    )


def with_notes(plan: Plan, model: Preparation, price: str = "the base price") -> Plan:
    """Returns the plan with the notes of all steps; warnings come last. `price` names the base price, at which ore pays."""
    notes = [*model.notes, *notes_of(plan, price), *model.warnings]
    return replace(plan, filled=model.read.filled, notes=notes)


def plan_of(model: Preparation) -> Plan:
    """The plan of a prepared block model, without notes. Raises PlanError if a block has no value."""
    project, frame, grid, domains, source = model.project, model.frame, model.grid, model.domains, model.source
    values = block_values.values_of(frame, grid, project, source)
    fixed = constraints.of_table(frame, grid, project, source)
    used = closure.used_blocks(grid, domains, wanted(values, project, fixed))
    settled = None if project.constraints is None else constraints.settled(fixed, grid, domains)
    plan = Plan(project, frame, grid, values, domains, used, source, fixed=fixed, settled=settled)
    if settled is not None:
        demand_no_clash(plan, settled)
    return plan


def demand_no_clash(plan: Plan, settled: Settled) -> None:
    """Raises PlanError if a must-mine block depends on an excluded one."""
    must_mine, excluded = plan.fixed.must_mine, plan.fixed.excluded
    clash = must_mine[settled.left[must_mine]]
    if len(clash):
        precedences = closure.used_blocks(plan.grid, plan.domains, constraints.marks(plan.grid, clash[:1]))
        first, second = plan.called(clash[0]), plan.called(excluded[precedences[excluded]][0])
        more = f" ({len(clash) - 1:,} more must-mine blocks likewise)" if len(clash) > 1 else ""
        raise PlanError(f"{plan.source}: {first} is must-mine and depends on {second}, which is excluded{more}")


def wanted(values: Values, project: Project, fixed: FixedBlocks) -> NDArray[Any]:
    """The cells for which a pit mines others: those that can pay for themselves, and must-mine blocks."""
    found = np.array(values.greatest_value(project.shells.revenue_factors[-1]) > 0, dtype=bool)
    found[fixed.must_mine] = True
    return found


def notes_of(plan: Plan, price: str) -> list[str]:
    """The notes of a plan: grid, cut-off, slopes, constraints, costs and rounding. `price` names the base price."""
    grid, project = plan.grid, plan.project
    levels, rows, columns = grid.shape
    grades = [plan.table[metal.column].to_numpy() for metal in project.metals]
    return [
        f"{len(plan.table):,} blocks lie on a grid of {columns} x {rows} x {levels} = {grid.count:,} cells",
        *missing_blocks.notes(plan.table, grid, project),
        *notes_of_cutoff(plan),
        *(pattern.sentence() for pattern in plan.domains.patterns),
        *plan.values.notes,
        *resource_classes.notes_of(plan.table, project, plan.values.mineralised_waste(BASE_PRICE)[grid.rows], price),
        *summary.of_prices(plan.values.pays, project.metals, grades, project.economics.currency),
        *notes_of_bench_costs(plan),
        *plan.fixed.notes,
        *notes_of_settled(plan),
        *notes_of_cash(project),
        *(
            f"{name}: {it.changed:,} of {it.values:,} amounts were rounded, by at most {it.largest:.2g}"
            for name, it in plan.values.roundings.items()
            if it.changed
        ),
    ]


def notes_of_cutoff(plan: Plan) -> list[str]:
    """How ore and waste are separated."""
    if plan.values.cutoff != PER_REVENUE_FACTOR:
        return ["the cut-off is fixed at the base price for all revenue factors"]
    steps = len(plan.values.processed) - len(plan.values.ore)
    more = f", and {steps:,} more for processes that are better at higher prices" if plan.project.processes else ""
    return [
        f"{len(plan.values.ore):,} potential ore blocks have a processing node{more}; "
        "the cut-off is re-evaluated at every revenue factor"
    ]


def notes_of_bench_costs(plan: Plan) -> list[str]:
    """Returns the bench below which the mining cost rises, and whether the project sets it."""
    if not plan.project.economics.mining_cost_per_bench:
        return []
    given, top = plan.project.economics.mining_cost_reference, plan.grid.extent()[5]
    if given is None:
        why = "the top bench of the model; [economics] mining_cost_reference sets another"
    else:
        above = ", above the model" if plan.reference > top - plan.grid.size[2] / 2 else ""
        why = f"the bench of [economics] mining_cost_reference, {given:f} m{above}"
    bench = f"{plan.reference:.10g} to {plan.reference + plan.grid.size[2]:.10g} m"
    return [f"the mining cost rises with each bench below {bench}, {why}"]


def notes_of_settled(plan: Plan) -> list[str]:
    """How many blocks the constraints settle."""
    if plan.settled is None:
        return []
    rock = plan.values.tonnes > 0
    mined, left = (int(np.count_nonzero(cells & rock)) for cells in (plan.settled.mined, plan.settled.left))
    return [f"with their slope cones, {mined:,} blocks are in every shell and {left:,} in none"]


def notes_of_cash(project: Project) -> list[str]:
    """The base price, period costs and discounting."""
    settings = project.shells
    added = (
        ["revenue factor 1.0, the base price, was added to the revenue factors"] if settings.base_price_added else []
    )
    rate = f"NPV: {100 * settings.discount_rate:.10g} % a year, cash flow discounted {IN_WORDS[settings.discounting]}"
    return [*added, *period_costs.notes(project), rate]


def codes_of(project: Project) -> list[str]:
    """The columns of blocks.csv that are text even if they look like numbers."""
    return [shown_name(name) for name in project.table.codes]


def shown_name(column: str) -> str:
    """The name in blocks.csv of a column of the planner's table."""
    return f"planner_{column}" if column in OWN_COLUMNS else column

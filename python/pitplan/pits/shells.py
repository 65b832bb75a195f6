"""Nested shells, with their tables. Money is at the base price (revenue factor 1.0), except `value_at_revenue_factor` and yearly prices.

`best_worst_case` schedules the shells and discounts their cash flows.
"""

from __future__ import annotations

from collections.abc import Callable
from dataclasses import asdict, dataclass, replace
from functools import cached_property, partial
from pathlib import Path
from typing import TYPE_CHECKING, Any, Optional, Union

import numpy as np
import pandas as pd
from numpy.typing import NDArray

from pitplan.config.economics import PER_REVENUE_FACTOR
from pitplan.config.project import Project
from pitplan.config.shells import ShellRules
from pitplan.core.revenue_factors import BASE_PRICE, factor_text
from pitplan.economics import period_costs
from pitplan.economics.period_costs import MINING_COST
from pitplan.errors import PlanError
from pitplan.plan import MILLION, Plan
from pitplan.solver import problem
from pitplan.solver.problem import Mine
from pitplan.solver.program import Solution

from . import best_worst_case, grade_tonnage
from .answer import Answer
from .best_worst_case import Benches
from .ore_kinds import OreCells, by_piece, of_cells

if TYPE_CHECKING:
    from matplotlib.axes import Axes

    from pitplan.commands.writing import Writing
    from pitplan.pushbacks.nested import Pushbacks

MINERALISED = "mineralised_waste_tonnes"


@dataclass(frozen=True)
class Cells:
    """Amounts of each cell, from which the tables are summed; arrays of shape (cells,).

    Attributes
    ----------
    factor : array of float
        The least revenue factor whose shell holds the cell; 0: none.
    processed : array of float
        The least revenue factor at which the cell is processed; 0: never.
    ore : array of bool
        Whether the cell is processed at the base price, once it is mined.
    worth : array of float
        Its value at the base price, once it is mined, in the currency.
    tonnes, feed : array of float
        Total material, and mill feed if it is processed.
    best : array of int
        The number of its best process at the base price.
    content : dict of str to array
        For each metal the tonnes of in-situ ore times the grade.
    """

    factor: NDArray[Any]
    processed: NDArray[Any]
    ore: NDArray[Any]
    worth: NDArray[Any]
    tonnes: NDArray[Any]
    feed: NDArray[Any]
    best: NDArray[Any]
    content: dict[str, NDArray[Any]]


@dataclass(frozen=True, eq=False, repr=False)
class Shells(Answer):
    """The nested shells of a plan.

    Attributes
    ----------
    plan : Plan
        The plan.
    solution : Solution
        The answer of the solver: the exact value of each shell, and the least revenue factor of each node.
    mining_cost_added : array, shape (cells,), optional
        Mining costs that are added in the annual cash flow only, in the currency.

    Raises
    ------
    PlanError
        If the solution is of another plan.
    """

    plan: Plan
    solution: Solution
    mining_cost_added: Optional[NDArray[Any]] = None

    def __post_init__(self) -> None:
        """Raises PlanError if the solution is of another plan."""
        plan, solution = self.plan, self.solution
        nodes = plan.grid.count + len(plan.values.processed)
        if len(solution.entry) != nodes:
            why = f"it has {len(solution.entry):,} nodes, the plan {nodes:,}"
        elif solution.of and solution.of != plan.key:
            why = "values, slopes, constraints or revenue factors differ"
        else:
            return
        raise PlanError(f"{plan.source}: the solution is of another plan ({why}): use the one from plan.shells()")

    @classmethod
    def solved(cls, plan: Plan, mine: Optional[Mine] = None) -> Shells:
        """Returns the shells of a plan; see `solver.problem.solve`."""
        return cls(plan, problem.solve(plan, mine, plan.progress))

    @classmethod
    def at_factors(cls, plan: Plan, factors: tuple[float, ...], mine: Mine) -> Shells:
        """Returns the shells of a plan at other revenue factors; the last is selected."""
        return cls.solved(replace(plan, project=with_factors(plan.project, factors)), mine)

    def __repr__(self) -> str:
        """The number of shells and the selected one."""
        row = self.table.set_index("revenue_factor").loc[self.selected]
        return (
            f"{len(self.table)} shells of {self.plan.project.title}; selected: revenue factor {factor_text(self.selected)}, "
            f"{row['tonnes']:,.0f} t, NPV {row['npv_worst']:,.0f} to {row['npv_best']:,.0f} {self.plan.project.economics.currency}"
        ).rstrip()

    @property
    def tonnes(self) -> dict[float, float]:
        """The tonnes of rock in each shell by its revenue factor."""
        plan = self.plan
        amounts = within(plan, self.solution.entry[: plan.grid.count], plan.values.tonnes)
        return dict(zip(plan.project.shells.revenue_factors, amounts.tolist()))

    @cached_property
    def cells(self) -> Cells:
        """The amounts of each cell."""
        plan, entry = self.plan, self.solution.entry
        values, count = plan.values, plan.grid.count
        factor = entry[:count]
        processed = np.zeros(count)
        if values.cutoff == PER_REVENUE_FACTOR:
            # The first step of a block, whose others come in later.
            block, first = np.unique(values.processed, return_index=True)
            processed[block] = entry[count:][first]
        else:
            processed = np.where(values.pays, factor, 0)
        gain = np.where(values.pays, values.revenue - values.processing, 0)
        content = {
            metal.name: values.undiluted * plan.grid.spread(plan.table[metal.column].to_numpy())
            for metal in plan.project.metals
        }
        return Cells(
            factor,
            processed,
            values.pays,
            (gain - values.mining) / MILLION,
            values.tonnes,
            values.feed,
            values.best,
            content,
        )

    @property
    def blocks(self) -> pd.DataFrame:
        """`plan.blocks` with the revenue factors at which each block is mined and processed.

        `revenue_factor` is the least one whose shell holds the block (0: none), `process_revenue_factor` the least at which it is processed
        (0: never). With several processes `process` names the one at the base price ("": none).
        """
        frame, project = self.plan.blocks, self.plan.project
        ids = frame["id"].to_numpy()
        frame["revenue_factor"] = self.cells.factor[ids]
        frame["process_revenue_factor"] = self.cells.processed[ids]
        if project.processes:
            names = np.array([*(process.name for process in project.processes), ""], dtype=object)
            frame["process"] = names[np.where(self.cells.ore, self.cells.best, -1)[ids]]
        return frame

    @cached_property
    def table(self) -> pd.DataFrame:
        """One row per revenue factor, with amounts of its whole shell.

        - `revenue_factor`, `blocks` (with tonnes), `tonnes` (total material)
        - `feed_tonnes`: mill feed, diluted and after ore loss; `feed_tonnes_NAME` of each of several processes
        - `in_situ_ore_tonnes`, `waste_tonnes` (total less in-situ ore), `strip_ratio` (waste to in-situ ore)
        - `mineralised_waste_tonnes`, with resource classes: of the waste, what pays at the shell's cut-off and is waste by its class
        - `processed_at_revenue_factor`: mill feed at the prices of the revenue factor
        - `head_grade_NAME` in the unit of the column, `recovered_NAME` in tonnes or grams
        - `undiscounted_cash_flow` at the base price; `npv_best`, `npv_worst` with period costs and yearly prices
        - `npv_specified` if the project specifies a case; `years` of the best case; `value_at_revenue_factor`, exact (Decimal), as the solver returns it

        Raises
        ------
        PlanError
            If a shell takes too many years.
        """
        settings, money = self.plan.project.shells, period_costs.of_project(self.plan.project)
        table = self.amounts
        table.insert(0, "revenue_factor", settings.revenue_factors)
        for case in best_worst_case.cases_of(settings):
            found = best_worst_case.of_case(case, self.benches, settings, money)
            table[f"npv_{case}"] = [years.npv for years in found]
            if case == best_worst_case.BEST:
                table["years"] = [years.end for years in found]
        table["value_at_revenue_factor"] = [self.solution.worth[factor] for factor in settings.revenue_factors]
        return table

    @cached_property
    def years(self) -> pd.DataFrame:
        """The annual cash flow of each shell in each case.

        One row per case (`best`, `worst`, `specified`), revenue factor whose shell is not empty, and `year` from 1: `total_tonnes`, `feed_tonnes`,
        `recovered_NAME` (tonnes or grams), `fixed_cost` and `capex` if the project has any, `cash_flow` after these, and
        `discounted_cash_flow`. The base price separates ore from waste; it is also the price of the cash flow without yearly prices.

        Raises
        ------
        PlanError
            If a shell takes too many years.
        """
        money = period_costs.of_project(self.plan.project)
        return best_worst_case.table_of(self.benches, self.plan.project.shells, money)

    @cached_property
    def benches(self) -> Benches:
        """Sums by shell and bench for the years. Raises PlanError if there are too many years, or no dump accepts some rock."""
        plan, cells, more = self.plan, self.cells, self.mining_cost_added
        factors, levels = plan.project.shells.revenue_factors, plan.grid.shape[0]
        inside = np.flatnonzero(cells.factor > 0)
        _, _, level = plan.grid.indices(inside)
        piece = np.searchsorted(factors, cells.factor[inside]) * levels + level
        ore = cells.ore[inside]
        flows = {"total_tonnes": cells.tonnes[inside], "feed_tonnes": np.where(ore, cells.feed[inside], 0.0)}
        flows |= {name: feed[inside] for name, feed in feeds_of(plan, cells).items()}
        flows |= {f"recovered_{name}": np.where(ore, metal[inside], 0.0) for name, metal in plan.values.metal.items()}
        flows |= {name: costs[inside] for name, costs in costs_of_ore(plan, cells).items()}
        added = np.zeros(len(inside)) if more is None else more[inside]
        flows[MINING_COST] = plan.values.mining[inside] / MILLION + added
        dumped = of_cells(plan, inside)
        flows["cash_flow"] = cells.worth[inside] - added - np.where(ore, 0.0, dumped)
        count = len(factors) * levels
        sums = np.column_stack([np.bincount(piece, flow, minlength=count) for flow in flows.values()])
        benches = Benches(factors, tuple(flows), sums.reshape(len(factors), levels, len(flows)))
        if has_choice(plan):
            kinds, of_ore = by_piece(plan, OreCells(inside[ore], piece[ore]), count)
            columns = np.column_stack([sums[:, 0], -sums[:, -2], -np.bincount(piece, dumped, minlength=count), of_ore])
            benches = replace(benches, kinds=kinds, by_kind=columns.reshape(len(factors), levels, -1))
        best_worst_case.demand_few_years(benches, plan.project)
        return benches

    @property
    def amounts(self) -> pd.DataFrame:
        """A row per revenue factor: tonnes, grades and cash flow of its shell, without time."""
        plan, cells = self.plan, self.cells
        total, mineralised = partial(within, plan), mineralised_waste(plan, cells.factor)
        table = pd.DataFrame(of_outlines(plan, cells, outline=cells.factor, total=total, mineralised=mineralised))
        processed = total(cells.processed, cells.feed)
        table.insert(table.columns.get_loc("strip_ratio") + 1, "processed_at_revenue_factor", processed)
        return table

    @cached_property
    def selected(self) -> float:
        """The revenue factor of the selected shell: the project's own, otherwise that with the highest NPV of the specified case, or mean of best and worst case."""
        return selected_factor(self.table, self.plan.project.shells)

    @property
    def grade_tonnage(self) -> pd.DataFrame:
        """The grade-tonnage curves of the model and the selected shell."""
        factor = self.cells.factor
        return grade_tonnage.of_pit(self.plan, (factor > 0) & (factor <= self.selected))

    @property
    def notes(self) -> list[str]:
        """Warnings where the largest shell reaches a side or the floor of the block model: the model ends there."""
        cube = self.plan.grid.cube(np.where(self.cells.tonnes > 0, self.cells.factor, 0))
        sides = {
            "west side": cube[:, :, 0],
            "east side": cube[:, :, -1],
            "south side": cube[:, 0],
            "north side": cube[:, -1],
            "floor": cube[-1],
        }
        touching = {name: factors[factors > 0] for name, factors in sides.items()}
        return [
            f"WARNING: the largest shell reaches the {name} of the block model ({len(factors):,} blocks, "
            f"from revenue factor {factor_text(factors.min())}), beyond which no slope is kept: extend the model"
            for name, factors in touching.items()
            if len(factors)
        ]

    @property
    def as_shells(self) -> Shells:
        return self

    @property
    def all_notes(self) -> list[str]:
        return self.notes

    def tables(self) -> dict[str, pd.DataFrame]:
        """The tables by name: blocks, shells, years and grade_tonnage."""
        return {"blocks": self.blocks, "shells": self.table, "years": self.years, "grade_tonnage": self.grade_tonnage}

    def summary(self) -> dict[str, Any]:
        """The part of the record plan.json."""
        factors, solver = self.plan.project.shells.revenue_factors, self.solution.solver
        found = {"revenue_factors": list(factors), "selected": self.selected}
        return {"shells": found | ({"solver": asdict(solver)} if solver else {})}

    def pushbacks(self, **keys: Any) -> Pushbacks:
        """The pit divided into pushbacks.

        Parameters
        ----------
        **keys
            The keys of `[pushbacks]`, such as `count=4, min_mining_width=40`. Default: those of the project.

        Raises
        ------
        PlanError
            If there are no keys, a key is wrong, or the pit is empty.
        """
        from pitplan.pushbacks import nested

        asked = self.plan.asked
        return nested.of_project(self.plan, asked.changed("pushbacks", keys) if keys else asked).warned()

    def plot(self, ax: Axes) -> Axes:
        """Draws tonnes, cash flow and NPV by revenue factor; returns `ax`."""
        from pitplan.figures import pits

        return pits.plot_pit_by_pit(self.table, self.plan.project.economics.currency, self.selected, ax)

    def write(self, folder: Union[str, Path, None] = None, writing: Optional[Writing] = None) -> Path:
        """Writes what `pitplan shells` writes, by default into the project's output folder.

        Returns
        -------
        Path
            The folder.

        Raises
        ------
        PlanError
            If a result differs from its independent recalculation, or the folder cannot be written.
        """
        from pitplan.commands.answers import write

        return write(self, folder or self.plan.asked.folder, writing)


def with_factors(project: Project, factors: tuple[float, ...]) -> Project:
    """Returns the project with other revenue factors; the last is selected."""
    rules = replace(project.shells, revenue_factors=factors, selected=factors[-1], base_price_added=False)
    return replace(project, shells=rules)


def has_choice(plan: Plan) -> bool:
    """Whether ore may go elsewhere than to its best process: to another one, or to waste in a year of lower prices or higher costs."""
    money = period_costs.of_project(plan.project)
    return len(plan.values.by_process) > 1 or any(min(more) < 0 for more in money.of_ore.values())


def feeds_of(plan: Plan, cells: Cells) -> dict[str, NDArray[Any]]:
    """Mill feed of each of several processes, by the name of the amount, for each cell of ore; empty with one process."""
    return {
        f"feed_tonnes_{process.name}": np.where(cells.ore & (cells.best == number), cells.feed, 0.0)
        for number, process in enumerate(plan.project.processes)
    }


def costs_of_ore(plan: Plan, cells: Cells) -> dict[str, NDArray[Any]]:
    """The costs that factors of periods multiply, by their amounts, for each cell of ore in its best process."""
    return {
        name: np.where(cells.ore, np.choose(cells.best, list(costs)), 0.0)
        for name, costs in plan.multiplied_amounts.items()
    }


def of_outlines(
    plan: Plan,
    cells: Cells,
    *,
    outline: NDArray[Any],
    total: Callable[[NDArray[Any], NDArray[Any]], NDArray[Any]],
    mineralised: dict[str, NDArray[Any]],
) -> dict[str, NDArray[Any]]:
    """Returns tonnes, grades and cash flow of shells or pushbacks, without time. `outline` is the shell or pushback of each cell, 0 for none, shape
    (cells,). `total` sums an array over the cells of each, as the first array says. `mineralised` is the column of mineralised waste; empty without
    resource classes."""
    ore = np.where(cells.ore, outline, 0)
    tonnes, feed_tonnes, in_situ = total(outline, cells.tonnes), total(ore, cells.feed), total(ore, cells.tonnes)
    columns = {
        "blocks": total(outline, cells.tonnes > 0).astype(np.int64),
        "tonnes": tonnes,
        "feed_tonnes": feed_tonnes,
        "in_situ_ore_tonnes": in_situ,
        "waste_tonnes": tonnes - in_situ,
        **mineralised,
        "strip_ratio": ratio(tonnes - in_situ, in_situ),
    }
    columns |= {name: total(outline, feed) for name, feed in feeds_of(plan, cells).items()}
    for metal in plan.project.metals:
        columns[f"head_grade_{metal.name}"] = ratio(total(ore, cells.content[metal.name]), feed_tonnes)
        columns[f"recovered_{metal.name}"] = total(ore, plan.values.metal[metal.name])
    columns["undiscounted_cash_flow"] = total(outline, cells.worth)
    return columns


def mineralised_waste(plan: Plan, pit: NDArray[Any]) -> dict[str, NDArray[Any]]:
    """The column of mineralised waste, if the table has resource classes: tonnes of each shell that are waste by their class and would pay at its
    cut-off. `pit` is the least factor of each cell, 0: never."""
    if plan.project.table.resource_class is None:
        return {}
    tonnes, values = plan.values.tonnes, plan.values
    inside = [
        (pit > 0) & (pit <= factor) & values.mineralised_waste(factor) for factor in plan.project.shells.revenue_factors
    ]
    return {MINERALISED: np.array([tonnes[cells].sum() for cells in inside])}


def within(plan: Plan, first: NDArray[Any], values: NDArray[Any]) -> NDArray[Any]:
    """For each revenue factor the sum of `values` over its shell; `first` is the least factor of each cell, 0: never."""
    factors, inside = plan.project.shells.revenue_factors, np.flatnonzero(first > 0)
    places = np.searchsorted(factors, first[inside])
    return np.cumsum(np.bincount(places, values[inside], minlength=len(factors)))


def ratio(amount: NDArray[Any], whole: NDArray[Any]) -> NDArray[Any]:
    """A share of nothing is not defined: nan."""
    return np.divide(amount, whole, out=np.full(len(whole), np.nan), where=whole > 0)


def selected_factor(table: pd.DataFrame, schedule: ShellRules) -> float:
    """The revenue factor of the shell to show: the project's own, otherwise the one up to the base price with the highest `npv_of`."""
    if schedule.selected is not None:
        return schedule.selected
    eligible = table[table["revenue_factor"] <= BASE_PRICE]
    return float(eligible["revenue_factor"][npv_of(eligible).idxmax()])


def npv_of(table: pd.DataFrame) -> pd.Series:
    """The NPV by which shells are compared: that of the specified case, otherwise the mean of best and worst case."""
    return table["npv_specified"] if "npv_specified" in table else (table["npv_best"] + table["npv_worst"]) / 2

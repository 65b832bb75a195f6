"""Pushbacks: nested parts of a pit that are mined one after the other, chosen from its shells.

Each pushback is what one shell adds to the one before. For even pushbacks the shells are searched whose tonnes are nearest to even shares of the
last one's. Shells nest, so their tonnes rise with the revenue factor, and a bisection finds the two adjacent factors around each share.
Factors are whole thousandths. If the tonnes between two adjacent factors jump past a share, no factor divides that material, and a note
reports the gap.
"""

from __future__ import annotations

from dataclasses import dataclass, replace
from functools import cached_property
from pathlib import Path
from typing import TYPE_CHECKING, Any, Optional, Union

import numpy as np
import pandas as pd
from numpy.typing import NDArray
from scipy import ndimage

from pitplan.config.project import Project
from pitplan.config.shells import LEAST_FACTOR, MOST_PUSHBACKS, PushbackRules
from pitplan.core.revenue_factors import BASE_PRICE, factor_text, factor_texts
from pitplan.errors import WARNING, PlanError
from pitplan.pits import grade_tonnage
from pitplan.pits.answer import Answer
from pitplan.pits.shells import MINERALISED, Shells, of_outlines, with_factors, within
from pitplan.pits.skin import TonnesAt, between, neighbours
from pitplan.plan import Plan
from pitplan.solver import problem
from pitplan.solver.problem import Mine

from . import mining_width

if TYPE_CHECKING:
    from pitplan.commands.writing import Writing
    from pitplan.scheduling.pushback_schedule import PushbackSchedule

# A shell that misses its share by more than this part of it is reported as a gap.
FAR_OFF = 0.1


@dataclass(frozen=True, eq=False, repr=False)
class Pushbacks(Answer):
    """A pit divided into pushbacks.

    Attributes
    ----------
    planned : Plan
        The plan that was divided, with the revenue factors up to that of the last pushback.
    shells : Shells
        The shells that end the pushbacks.
    pushback : int array, shape (cells,)
        The pushback of each cell, from 1; 0: none.
    notes : tuple of str
        Notes on the division.
    """

    planned: Plan
    shells: Shells
    pushback: NDArray[Any]
    notes: tuple[str, ...]

    def __repr__(self) -> str:
        """The pushbacks with their tonnes."""
        tonnes = ", ".join(f"{amount:,.0f} t" for amount in self.table["tonnes"])
        return f"{len(self.table)} pushbacks of {self.plan.project.title}: {tonnes}"

    @property
    def plan(self) -> Plan:
        """The plan, with the revenue factors of the pushbacks."""
        return self.shells.plan

    @property
    def factors(self) -> tuple[float, ...]:
        """The revenue factor of the shell that ends each pushback, rising."""
        return self.plan.project.shells.revenue_factors

    @property
    def mining_cost_added(self) -> NDArray[Any]:
        """The added mining cost of each cell in its pushback, in the currency; it is not part of the block values."""
        return cost_added(self.plan, self.pushback)

    @property
    def blocks(self) -> pd.DataFrame:
        """One row per block of the pushbacks' shells, with its `pushback` from 1 (0: none)."""
        frame = self.shells.blocks
        return frame.assign(pushback=self.pushback[frame["id"].to_numpy()])

    @cached_property
    def table(self) -> pd.DataFrame:
        """One row per pushback: what it adds to those before, at the base price. `results.columns` describes the columns.

        `deferred_value` is the value of the shell that ends a pushback less that of the pushbacks up to it: blocks that a minimum width moves to a
        later one. In the last row the same is `value_lost_to_width`.
        """
        plan, cells, total = self.plan, self.shells.cells, self.total
        number = np.arange(1, len(self.factors) + 1)
        columns = {"pushback": number, "revenue_factor": np.array(self.factors)}
        columns |= of_outlines(plan, cells, outline=self.pushback, total=total, mineralised=self.mineralised_waste)
        if rules_of(plan.project).mining_cost_added:
            columns["mining_cost_added"] = total(self.pushback, self.mining_cost_added)
        lacking = within(plan, cells.factor, cells.worth) - np.cumsum(columns["undiscounted_cash_flow"])
        is_last = number == len(self.factors)
        columns["deferred_value"] = np.where(is_last, 0.0, lacking)
        columns["value_lost_to_width"] = np.where(is_last, lacking, 0.0)
        return pd.DataFrame(columns | self.shapes)

    @property
    def mineralised_waste(self) -> dict[str, NDArray[Any]]:
        """The column of mineralised waste at the base price, if the table has resource classes."""
        if self.plan.project.table.resource_class is None:
            return {}
        values = self.plan.values
        tonnes = np.where(values.mineralised_waste(BASE_PRICE), values.tonnes, 0.0)
        return {MINERALISED: self.total(self.pushback, tonnes)}

    @property
    def shapes(self) -> dict[str, list[float]]:
        """The number of pieces of each pushback that share no side, and its minimum width in metres."""
        grid, free = self.plan.grid, mining_width.free_of(self.plan)
        rock, cube = grid.cube(self.plan.values.tonnes > 0), grid.cube(self.pushback)
        each = [cube == number for number in range(1, len(self.factors) + 1)]
        return {
            "pieces": [int(ndimage.label(pushback & rock)[1]) for pushback in each],
            "min_width": [mining_width.min_width(pushback, free, (grid.size[1], grid.size[0])) for pushback in each],
        }

    def total(self, pushback: NDArray[Any], values: NDArray[Any]) -> NDArray[Any]:
        """Returns the sum of the values over the cells of each pushback."""
        return np.bincount(pushback, values, minlength=len(self.factors) + 1)[1:]

    @property
    def grade_tonnage(self) -> pd.DataFrame:
        """The grade-tonnage curves of the model, the pit and the pushbacks."""
        return grade_tonnage.of_pushbacks(self.plan, self.pushback, len(self.factors))

    @property
    def as_shells(self) -> Shells:
        """The shells that end the pushbacks."""
        return self.shells

    @property
    def as_pushbacks(self) -> Pushbacks:
        return self

    def tables(self) -> dict[str, pd.DataFrame]:
        """The tables by name: those of the shells, and pushbacks."""
        of_shells = {"blocks": self.blocks, "shells": self.shells.table, "years": self.shells.years}
        return of_shells | {"pushbacks": self.table, "grade_tonnage": self.grade_tonnage}

    def summary(self) -> dict[str, Any]:
        """The part of the record plan.json."""
        return self.shells.summary() | {"pushbacks": len(self.factors)}

    def schedule(self, **keys: Any) -> PushbackSchedule:
        """The yearly schedule of the pushbacks' benches.

        Parameters
        ----------
        **keys
            The keys of `[schedule]`, such as `mining_capacity=2e6, bench_lag=1`. Default: those of the project.

        Raises
        ------
        PlanError
            If a key is wrong, or no schedule keeps within the limits.
        """
        from pitplan.scheduling import pushback_schedule

        asked = self.planned.asked.changed("schedule", keys) if keys else None
        pushbacks = of_project(self.planned, asked).warned() if asked else self
        return pushback_schedule.make(pushbacks, self.plan.progress).warned()

    def write(self, folder: Union[str, Path, None] = None, writing: Optional[Writing] = None) -> Path:
        """Writes what `pitplan pushbacks` writes, by default into pushbacks in the project's output folder; see `Shells.write`."""
        from pitplan.commands.answers import write

        return write(self, folder or self.planned.asked.folder / "pushbacks", writing)


def cost_added(plan: Plan, pushback: NDArray[Any]) -> NDArray[Any]:
    """Returns the mining cost that the pushback of each cell adds, in the currency."""
    a_tonne = np.zeros(len(plan.project.shells.revenue_factors) + 1)
    if amounts := rules_of(plan.project).mining_cost_added:
        a_tonne[1:] = [float(amount) for amount in amounts]
    return np.asarray(a_tonne[pushback] * plan.values.tonnes)


def of_project(plan: Plan, asked: Project) -> Pushbacks:
    """Returns the pushbacks of a plan's rows by a project."""
    return divide(plan.with_project(ending(asked), asked))


def rules_of(project: Project) -> PushbackRules:
    """Returns `[pushbacks]`. Raises PlanError if the project has none."""
    if project.pushbacks is None:
        raise PlanError(f"{project.path}: [pushbacks] is missing: set its count, tonnes or revenue_factors")
    return project.pushbacks


def named_last(project: Project) -> Optional[float]:
    """Returns the revenue factor of the last pushback's shell if the project names one; None: the shell that `shells` selects."""
    rules = rules_of(project)
    return rules.revenue_factors[-1] if rules.revenue_factors else rules.ultimate_pit or project.shells.selected


def ending(project: Project) -> Project:
    """Returns the project with the revenue factors up to that of its last pushback if it names that. Otherwise it returns the project, and
    `divide` selects a shell.
    """
    last = named_last(project)
    return project if last is None else ended(project, last)


def ended(project: Project, last: float) -> Project:
    return with_factors(project, (*(factor for factor in project.shells.revenue_factors if factor < last), last))


def selected(plan: Plan, mine: Mine) -> tuple[Plan, list[str]]:
    """Returns the plan with the revenue factors up to the shell that `shells` selects, and a note of it, unless the project names the last shell.

    If the selected shell is empty, since no shell has an NPV above 0, the shell of the base price takes its place, with a warning.
    """
    if named_last(plan.project) is not None:
        return plan, []
    shells = Shells.solved(plan, mine)
    last = shells.selected
    note = f"the last pushback ends at the selected shell, revenue factor {factor_text(last)}; [pushbacks] ultimate_pit sets another"
    if not shells.tonnes[last]:
        last = BASE_PRICE
        note = f"{WARNING}no shell has an NPV above 0; the last pushback ends at the shell of revenue factor {factor_text(last)}"
    return replace(plan, project=ended(plan.project, last)), [note]


def divide(planned: Plan, mine: Optional[Mine] = None) -> Pushbacks:
    """Divides a pit into pushbacks: that of the plan's last revenue factor if the project names one, otherwise the one that `shells` selects. `mine`
    is that of the plan; by default it is made for this call. Raises PlanError if the pit is empty, there would be more than 100 pushbacks, or their
    number is not that of the added mining costs, and ProgramError if the solver refuses."""
    if mine is None:
        with problem.temporary(planned) as made:
            return divide(planned, made)
    solver, (plan, notes) = mine, selected(planned, mine)
    rules, last = rules_of(plan.project), plan.project.shells.revenue_factors[-1]

    def shells_at(factors: tuple[float, ...]) -> Shells:
        return Shells.at_factors(plan, factors, solver)

    def tonnes_at(factors: tuple[float, ...]) -> dict[float, float]:
        return shells_at(factors).tonnes

    if rules.revenue_factors is not None:
        tonnes, gaps = tonnes_at(rules.revenue_factors), list[str]()
    else:
        tonnes, gaps = even_shells(rules, last, tonnes_at, plan.project)
    factors, more = not_empty(tonnes, plan.project)
    notes += gaps
    more += notes_of_added(rules, factors, plan.project)
    shells = shells_at(factors)
    entry = shells.solution.entry[: plan.grid.count]
    pushback = np.where(entry > 0, np.searchsorted(factors, entry) + 1, 0).astype(np.int16)
    if rules.min_mining_width is not None or rules.min_bottom_width is not None:
        with plan.progress.step("applying the minimum mining width"):
            pushback, of_width = mining_width.widened(pushback, shells.plan, rules)
        more = [*more, *of_width]
    shells = replace(shells, mining_cost_added=cost_added(shells.plan, pushback))
    return Pushbacks(planned, shells, pushback, (*notes, *more))


def not_empty(tonnes: dict[float, float], project: Project) -> tuple[tuple[float, ...], list[str]]:
    """Returns the revenue factors whose shells add material. Raises PlanError if the last shell is empty."""
    kept, notes, before = [], [], 0.0
    for factor, rock in tonnes.items():
        if rock > before:
            kept.append(factor)
        else:
            notes.append(
                f"the shell of revenue factor {factor_text(factor)} equals the one before and makes no pushback"
            )
        before = rock
    if not kept:
        raise PlanError(f"{project.path}: [pushbacks] the pit of revenue factor {factor_text(max(tonnes))} is empty")
    return tuple(kept), notes


def notes_of_added(rules: PushbackRules, factors: tuple[float, ...], project: Project) -> list[str]:
    """Returns a note on the added mining costs. Raises PlanError if there are not as many as pushbacks."""
    amounts = rules.mining_cost_added
    if not amounts:
        return []
    if len(amounts) != len(factors):
        said = f"mining_cost_added has {len(amounts)} amounts for {len(factors)} pushbacks, of the revenue factors"
        raise PlanError(f"{project.path}: [pushbacks] {said} {factor_texts(factors)}: give one for each")
    listed = ", ".join(f"{amount:f}" for amount in amounts)
    where = "in the annual cash flow, the NPV and schedules, but not in block values and the cash flow of shells"
    return [f"mining cost added by pushback: {listed} {project.economics.currency} per tonne, {where}"]


def even_shells(
    rules: PushbackRules, last: float, tonnes_at: TonnesAt, project: Project
) -> tuple[dict[float, float], list[str]]:
    """Returns revenue factors and tonnes of the shells nearest to even shares of the last one's tonnes, and notes on shares without one."""
    known = tonnes_at(tuple(sorted({LEAST_FACTOR, last})))
    count = count_of(rules, known[last], project)
    shares = [known[last] * number / count for number in range(1, count)]
    while more := sorted({factor for share in shares for factor in between(*neighbours(known, share))}):
        known |= tonnes_at(tuple(more))
    # Shells of equal tonnes are the same shell.
    found, notes = {known[last]: last}, []
    for share in shares:
        low, high = neighbours(known, share)
        nearest = min((low, high), key=lambda factor: abs(known[factor] - share))
        if known[nearest] > 0:
            found.setdefault(known[nearest], nearest)
        if abs(known[nearest] - share) > FAR_OFF * known[last] / count:
            notes.append(gap(known, low, high))
    if len(found) < count:
        notes.append(f"the shells make {len(found)} of {count} pushbacks")
    return {factor: rock for rock, factor in sorted(found.items())}, list(dict.fromkeys(notes))


def count_of(rules: PushbackRules, whole: float, project: Project) -> int:
    """Returns the number of pushbacks of a pit of this tonnage."""
    if rules.count is not None:
        return rules.count
    if rules.tonnes is None:
        raise PlanError(f"{project.path}: [pushbacks]: found neither count nor tonnes, expected one of them")
    count = max(1, round(whole / rules.tonnes))
    if count > MOST_PUSHBACKS:
        why = f"the pit of {whole:,.0f} t would have {count:,} pushbacks of {rules.tonnes:,.0f} t, expected at most {MOST_PUSHBACKS}"
        raise PlanError(f"{project.path}: [pushbacks] tonnes: {why}")
    return count


def gap(known: dict[float, float], low: float, high: float) -> str:
    if low == high:
        return f"the shell of revenue factor {factor_text(low)} has {known[low]:,.0f} t; no lower revenue factor divides it"
    return (
        f"between revenue factors {factor_text(low)} and {factor_text(high)} the shells grow by {known[high] - known[low]:,.0f} t in one step, "
        f"from {known[low]:,.0f} to {known[high]:,.0f}; no revenue factor divides it"
    )

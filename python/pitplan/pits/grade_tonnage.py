"""Grade-tonnage curves: tonnes, grades and metal above cut-off grades, by resource class, with marginal and break-even cut-offs."""

from __future__ import annotations

import math
from collections.abc import Iterator
from dataclasses import dataclass

import numpy as np
import pandas as pd
from numpy.typing import NDArray

from pitplan.config.economics import GRADE_UNITS, Metal
from pitplan.config.material import MILL
from pitplan.core.tolerances import SUM_ERROR
from pitplan.economics.cutoff_grades import RockCosts
from pitplan.plan import Plan

# The approximate number of cut-off grades up to the grade that a hundredth of the mineralised tonnes exceeds.
STEPS, HIGH = 40, 0.99
NICE = (1.0, 2.0, 2.5, 5.0, 10.0)
MODEL, PIT = "model", "pit"
# The decimals of grades in files, at which a cut-off is compared.
PLACES = 6
# All material of a table without classes.
ALL = "all"
MARGINAL, BREAK_EVEN = "marginal", "break_even"
# The name of the sum of tonnes, which no metal has.
TONNES = ""
Mask = NDArray[np.bool_]


@dataclass(frozen=True)
class Cutoff:
    """An in-situ cut-off grade of a metal; `mark` says what it is: "", or marginal or break_even with process and rock type."""

    grade: float
    mark: str = ""


def grade_tonnage(plan: Plan, parts: dict[str, Mask]) -> pd.DataFrame:
    """Returns one row per part, resource class, metal and cut-off grade of that metal. `parts` has by name whether each cell belongs to a part, shape
    (cells,). Columns: part; class ("all" without classes); metal; cutoff_grade in situ; mark; tonnes at or above it, their grade_METAL and
    in_situ_METAL."""
    classes = classes_of(plan)
    cutoffs = {metal.name: cutoffs_of(plan, metal) for metal in plan.project.metals}
    rows = [
        row
        for part, mask in parts.items()
        for name, of_class in classes.items()
        for row in rows_of(plan, (part, name), np.flatnonzero(mask & of_class & (plan.values.tonnes > 0)), cutoffs)
    ]
    return pd.DataFrame(rows)


def of_pit(plan: Plan, pit: Mask) -> pd.DataFrame:
    """Returns the curves of the model and of a pit, whose cells are given."""
    return grade_tonnage(plan, {MODEL: np.ones(len(pit), dtype=bool), PIT: pit})


def of_pushbacks(plan: Plan, pushback: NDArray[np.int64], count: int) -> pd.DataFrame:
    """Returns the curves of the model, of the pit and of each of this many pushbacks, by the pushback of each cell from 1, 0 for none."""
    parts = {MODEL: np.ones(len(pushback), dtype=bool), PIT: pushback > 0}
    parts |= {f"pushback {number}": pushback == number for number in range(1, count + 1)}
    return grade_tonnage(plan, parts)


def classes_of(plan: Plan) -> dict[str, Mask]:
    """Returns by resource class whether each cell is of it."""
    column = plan.project.table.resource_class
    if column is None:
        return {ALL: np.ones(plan.grid.count, dtype=bool)}
    numbers, codes = pd.factorize(plan.table[column].astype(str).to_numpy(), sort=True)
    of_cells = plan.grid.spread(numbers, fill=-1)
    return {str(code): of_cells == number for number, code in enumerate(codes)}


def grades_of(plan: Plan, metal: Metal) -> NDArray[np.float64]:
    """Returns the in-situ grade of each cell."""
    return np.asarray(plan.grid.spread(plan.table[metal.column].to_numpy()), dtype=float)


def rows_of(
    plan: Plan, at: tuple[str, str], cells: NDArray[np.int64], cutoffs: dict[str, list[Cutoff]]
) -> Iterator[dict[str, object]]:
    """Yields the rows of a part and a class, whose cells are given; none if it has no material."""
    tonnes = plan.values.tonnes[cells]
    grades = {metal.name: grades_of(plan, metal)[cells] for metal in plan.project.metals}
    if not len(cells):
        return
    units = {metal.name: float(GRADE_UNITS[metal.unit]) for metal in plan.project.metals}
    for name, some in cutoffs.items():
        sums = above(tonnes, grades, name, np.array([it.grade for it in some]))
        for number, cutoff in enumerate(some):
            row = {"part": at[0], "class": at[1], "metal": name, "cutoff_grade": cutoff.grade, "mark": cutoff.mark}
            whole, contents = sums[TONNES][number], {it: sums[it][number] for it in grades}
            found = {f"grade_{it}": content / whole if whole else np.nan for it, content in contents.items()}
            metals = {f"in_situ_{it}": content * units[it] for it, content in contents.items()}
            yield {**row, "tonnes": whole, **found, **metals}


def above(
    tonnes: NDArray[np.float64], grades: dict[str, NDArray[np.float64]], metal: str, cutoffs: NDArray[np.float64]
) -> dict[str, NDArray[np.float64]]:
    """Returns by name the tonnes of cells, and their tonnes times each grade, at or above each cut-off of a metal."""
    order = np.argsort(grades[metal], kind="stable")
    first = np.searchsorted(grades[metal][order], cutoffs)
    amounts = {TONNES: tonnes} | {name: tonnes * grade for name, grade in grades.items()}
    # The sums from each cell to the richest one.
    sums = {name: np.append(amount[order][::-1].cumsum()[::-1], 0.0) for name, amount in amounts.items()}
    return {name: found[first] for name, found in sums.items()}


def cutoffs_of(plan: Plan, metal: Metal) -> list[Cutoff]:
    """Returns cut-off grades of a metal in even steps, and its marginal and break-even cut-offs."""
    grades = grades_of(plan, metal)[plan.values.tonnes > 0]
    high = float(np.quantile(grades[grades > 0], HIGH)) if (grades > 0).any() else 0.0
    steps = np.arange(int(high / nice(high / STEPS)) + 1) * nice(high / STEPS) if high else np.zeros(1)
    found = [Cutoff(round(float(step), PLACES)) for step in steps]
    return sorted([*found, *marks_of(plan, metal)], key=lambda it: (it.grade, it.mark))


def nice(step: float) -> float:
    """Returns the least of 1, 2, 2.5 and 5 times a power of ten that is at least a step."""
    power = 10.0 ** math.floor(math.log10(step))
    return next(it * power for it in NICE if it * power >= step * (1 - SUM_ERROR))


def marks_of(plan: Plan, metal: Metal) -> Iterator[Cutoff]:
    """Yields the in-situ grades at which the metal alone pays for processing, and for processing and mining, by process and rock type."""
    names = [process.name for process in plan.project.processes] or [MILL]
    for process, (name, alone) in enumerate(zip(names, plan.project.by_process)):
        for rock in rocks_of(plan, process):
            costs = RockCosts(alone, rock)
            dilution = costs.of(alone.economics.dilution)
            if dilution is None or metal.name not in [it.name for it in costs.metals]:
                continue
            of_metal = next(it for it in costs.metals if it.name == metal.name)
            for mark, cost in ((MARGINAL, costs.processing), (BREAK_EVEN, costs.processing + costs.mining)):
                grade = costs.head_grade(of_metal, cost) * (1 + dilution)
                if np.isfinite(grade):
                    yield Cutoff(round(grade, PLACES), " ".join([mark, name, *([rock] if rock else [])]))


def rocks_of(plan: Plan, process: int) -> list[str]:
    """Returns the rock types of blocks with a revenue in a process; one empty code without rock types."""
    column, taken = plan.project.table.rock_type, plan.values.by_process[process].revenue > 0
    if column is None:
        return [""] if taken.any() else []
    return sorted(plan.table[column].astype(str)[taken[plan.grid.rows]].unique())

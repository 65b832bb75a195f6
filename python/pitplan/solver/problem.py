"""A mine ready for the solver, as arrays for the library or as files for the program, and its shells.

With constraints the solver gets the reduced mine. The must-mine blocks, with all that they depend on, are added to each of its shells.
"""

from __future__ import annotations

import tempfile
from contextlib import contextmanager
from dataclasses import dataclass, replace
from decimal import Decimal
from functools import cached_property
from pathlib import Path
from typing import Iterator, Optional, Union

import numpy as np
import pandas as pd

from pitplan import constraints
from pitplan.blockmodel import missing_blocks
from pitplan.constraints import Settled
from pitplan.core.decimals import at_factor, greatest
from pitplan.core.progress import Progress, silent
from pitplan.core.revenue_factors import PER_MILLE, factor_text, per_mille
from pitplan.economics.block_values import Values
from pitplan.errors import PlanError
from pitplan.plan import Plan
from pitplan.precedences import MOST_PAIRS, Pairs, PrecedenceRows, Precedences, rows_of
from pitplan.solver import mine_files

from . import library, program
from .choice import LIBRARY, Solver, chosen
from .program import Solution

# A model has values below 10^12 with six decimals.
GREATEST = 10**18


@dataclass(frozen=True)
class MineInFiles:
    """A mine for the program.

    Attributes
    ----------
    pairs : Pairs
        The number of precedences that were written.
    folder : Path
        Where the files are.
    """

    plan: Plan
    solver: Solver
    pairs: Pairs
    folder: Path

    def shells(self, factors: tuple[float, ...]) -> Solution:
        """The shells of the rest that fixed blocks leave; of all where none exist."""
        if self.plan.settled is None:
            return self.free_shells(factors)
        return program.solve_files(self.folder / mine_files.REST_BLOCKS, self.folder / mine_files.REST_PREC, factors)

    def free_shells(self, factors: tuple[float, ...]) -> Solution:
        """Returns the shells without constraints."""
        return program.solve_files(self.folder / mine_files.BLOCKS, self.folder / mine_files.PREC, factors)

    def pit(self, factor: float) -> Solution:
        """The pit of a factor, with the fixed blocks."""
        path = self.folder / mine_files.PIT_MODEL
        mine_files.write_model(path, self.plan.project.title, values_at(self.plan.values.nodes(), factor))
        return program.solve_pit(path, self.folder / mine_files.PREC, self.folder / mine_files.FIXED, factor)


@dataclass(frozen=True)
class MineInArrays:
    """A mine for the library; as `MineInFiles`, without files."""

    plan: Plan
    solver: Solver
    rows: PrecedenceRows
    pairs: Pairs

    @cached_property
    def rows_of_rest(self) -> PrecedenceRows:
        return self.rows if self.plan.settled is None else counted_rows(self.plan.precedences_of_rest, self.plan)[0]

    def shells(self, factors: tuple[float, ...]) -> Solution:
        settled, values = self.plan.settled, self.plan.values
        nodes = values.nodes() if settled is None else constraints.nodes_of_rest(values, settled)
        return library.shells(nodes, self.rows_of_rest, factors)

    def free_shells(self, factors: tuple[float, ...]) -> Solution:
        return library.shells(self.plan.values.nodes(), self.rows, factors)

    def pit(self, factor: float) -> Solution:
        values = values_at(self.plan.values.nodes(), factor)
        return library.pit(values, self.rows, constraints.numbers(self.plan.fixed, len(values)), factor)


Mine = Union[MineInFiles, MineInArrays]


def ready(plan: Plan, solver: Solver, folder: Path) -> Mine:
    """Returns the mine of a plan for a solver. The program's files are written into the folder. Raises PlanError if there are more
    precedences than the solver takes.
    """
    if solver.by == LIBRARY:
        return MineInArrays(plan, solver, *counted_rows(plan.precedences, plan))
    return MineInFiles(plan, solver, mine_files.write(plan, folder), folder)


def counted_rows(precedences: Precedences, plan: Plan) -> tuple[PrecedenceRows, Pairs]:
    rows, pairs = rows_of(precedences, MOST_PAIRS)
    plan.demand_few(pairs)
    return rows, pairs


@contextmanager
def temporary(plan: Plan) -> Iterator[Mine]:
    """Yields the mine of a plan for the project's solver. Its files are removed at the end."""
    with tempfile.TemporaryDirectory(prefix="pitplan-") as place:
        yield ready(plan, chosen(plan.project.solver), Path(place))


def values_at(nodes: tuple[np.ndarray, np.ndarray], factor: float) -> np.ndarray:
    """Returns the value of each node in billionths at a revenue factor, `factor * revenue - cost`; revenue and cost are in millionths, all int64
    arrays of shape (nodes,). Raises PlanError if a value, times 1,000, exceeds those of an optimisation model: it is 10^18 or more.
    """
    values = at_factor(factor, *nodes)
    if greatest(values) >= GREATEST:
        raise PlanError(
            f"a value at revenue factor {factor_text(factor)}, times 1,000, is 10^12 or more, too large for the solver: "
            "give prices and costs in a larger unit of money"
        )
    return values.astype(np.int64)


def solve(plan: Plan, mine: Optional[Mine] = None, progress: Progress = silent) -> Solution:
    """Returns the shells of a plan at all its revenue factors. `mine` is that of the plan; by default it is made for this call. Raises ProgramError
    if the solver is missing or refuses, and PlanError if a shell reaches a missing block."""
    if mine is None:
        with temporary(plan) as made:
            return solve(plan, made, progress)
    factors = plan.project.shells.revenue_factors
    with progress.step(f"solving {len(factors)} revenue factors by the {mine.solver.by}"):
        rest = mine.shells(factors)
    solution = replace(joined(rest, plan.settled, plan.values), of=plan.key, solver=mine.solver)
    missing_blocks.demand_known(solution.entry, plan.grid, plan.project, plan.source)
    return solution


def joined(rest: Solution, settled: Optional[Settled], values: Values) -> Solution:
    """Returns the shells of the reduced mine with the must-mine blocks and all that they depend on, which each shell holds."""
    if settled is None:
        return rest
    factors = list(rest.worth.index)
    count = len(settled.mined)
    entry = rest.entry.copy()
    entry[:count][settled.mined] = factors[0]
    revenue, cost = (int(amounts[:count][settled.mined].sum(dtype=object)) for amounts in values.nodes())
    worth = [
        amount + Decimal(per_mille(factor) * revenue - PER_MILLE * cost).scaleb(-9)
        for factor, amount in rest.worth.items()
    ]
    nodes = rest.nodes + int(np.count_nonzero(settled.mined))
    return replace(rest, worth=pd.Series(worth, index=factors, dtype=object), nodes=nodes, entry=entry)


def demand_same(shells: Solution, pit: Solution, factor: float) -> None:
    """Raises PlanError if the shell of a revenue factor differs from the pit that was solved separately, block by block."""
    inside = (shells.entry > 0) & (shells.entry <= factor)
    other = np.flatnonzero(inside != (pit.entry > 0))
    if len(other) or shells.worth[factor] != pit.worth[factor]:
        raise PlanError(
            f"the shell of revenue factor {factor_text(factor)} is not the solver's pit with the fixed blocks: {len(other):,} nodes differ, "
            f"worth {shells.worth[factor]} for {pit.worth[factor]}; please report this"
        )

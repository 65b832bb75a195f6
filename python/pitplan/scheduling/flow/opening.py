"""What lies on stockpiles at the start: lots that are valued as blocks of the table are, as mill feed that needs no mining."""

from __future__ import annotations

from collections.abc import Sequence
from dataclasses import dataclass, replace
from decimal import Decimal
from typing import Any, Optional

import numpy as np
import pandas as pd
from numpy.typing import NDArray

from pitplan.blockmodel.grid import Grid
from pitplan.config.economics import GRADE_UNITS
from pitplan.config.material import MILL, Opening, Stockpile
from pitplan.config.project import Project
from pitplan.config.schedule import ScheduleRules
from pitplan.economics import block_values
from pitplan.economics.period_costs import YearlyMoney
from pitplan.plan import Plan, shown_name

from .material import joined, names_of, ore_of
from .model import OpeningOre

SOURCE = "[schedule.stockpiles] opening"


@dataclass(frozen=True)
class OpeningLots:
    """The lots that lie on stockpiles at the start.

    Attributes
    ----------
    plan : Plan
        The plan of a table with a row per lot: the project without mining costs, haulage, mining losses, dilution and adjustment factors.
    stockpile : int array, shape (lots,)
        The number of the stockpile of each.
    """

    plan: Plan
    stockpile: NDArray[np.int64]

    def __len__(self) -> int:
        return len(self.stockpile)

    @property
    def contained(self) -> dict[str, NDArray[np.float64]]:
        """The metal in each lot, in tonnes or grams, by metal, shape (lots,)."""
        table, tonnes = self.plan.table, self.plan.values.tonnes
        return {
            metal.name: table[metal.column].to_numpy(dtype=float) * float(GRADE_UNITS[metal.unit]) * tonnes
            for metal in self.plan.project.metals
        }

    def balance(self, stockpile: int) -> pd.Series:
        """Returns feed_tonnes and contained_METAL on a stockpile, by its number."""
        mine, amounts = self.stockpile == stockpile, {"feed_tonnes": self.plan.values.tonnes}
        amounts |= {f"contained_{metal}": values for metal, values in self.contained.items()}
        return pd.Series({name: float(values[mine].sum()) for name, values in amounts.items()})

    def ore(self, rules: ScheduleRules, money: YearlyMoney) -> OpeningOre:
        """Returns the lots as their stockpiles give them back."""
        cells = np.arange(len(self))
        ore = ore_of(self.plan, replace(rules, stockpiles=()), cells, np.zeros(len(self), dtype=np.int64))
        parts = [ore.unit(lot).reclaimed(rules.stockpiles[number], money) for lot, number in enumerate(self.stockpile)]
        return OpeningOre(joined(parts), self.stockpile)


def of_plan(plan: Plan, rules: ScheduleRules) -> Optional[OpeningLots]:
    """Returns what lies on the stockpiles of a project at the start; None if nothing does. Raises PlanError if a lot has no value."""
    given = [(number, it.opening) for number, it in enumerate(rules.stockpiles) if it.opening and it.opening.tonnes > 0]
    if not given:
        return None
    project = as_feed(plan.project)
    table = pd.DataFrame([row_of(opening, project) for _, opening in given])
    grid = Grid((1, 1, len(given)), (0.0, 0.0, 0.0), (1.0, 1.0, 1.0), np.arange(len(given)))
    values = block_values.values_of(table, grid, project, f"{plan.project.path}: {SOURCE}")
    lots = Plan(project, table, grid, values, plan.domains, np.zeros(len(given), dtype=bool), SOURCE)
    return OpeningLots(lots, np.array([number for number, _ in given], dtype=np.int64))


def as_feed(project: Project) -> Project:
    """Returns the project for ore that is mined, hauled and diluted already."""
    money = replace(
        project.economics,
        mining_cost=Decimal(0),
        mining_cost_per_bench=Decimal(0),
        mining_cost_reference=None,
        mining_cost_by_elevation=(),
        mining_recovery=Decimal(1),
        dilution=Decimal(0),
        mcaf=None,
        pcaf=None,
    )
    return replace(project, economics=money, haulage=None)


def row_of(opening: Opening, project: Project) -> dict[str, Any]:
    table = project.table
    codes = {
        table.rock_type: opening.rock_type,
        table.domain: opening.domain,
        table.resource_class: opening.resource_class,
    }
    named = {column: code for column, code in codes.items() if column}
    limited = dict.fromkeys(project.limited_columns, 0.0)
    return named | limited | opening.grades | {table.tonnes: opening.tonnes}


def balances_at_start(stockpiles: Sequence[Stockpile], lots: Optional[OpeningLots]) -> dict[str, Optional[pd.Series]]:
    """Returns by stockpile feed_tonnes and contained_METAL of what lies there at the start; None: nothing."""
    return {
        it.name: lots.balance(number) if lots is not None and (lots.stockpile == number).any() else None
        for number, it in enumerate(stockpiles)
    }


@dataclass(frozen=True)
class OpenedLots:
    """What a schedule takes of the lots that lie on stockpiles at the start.

    Attributes
    ----------
    lots : OpeningLots
    ore : OpeningOre
        Whole lots, as their stockpiles give them back.
    shares : array, shape (processes, lots, years)
        The share of each lot that each process takes in each year.
    gains : array, shape (processes, lots, years)
        What whole lots earn, in the currency of the year.
    stockpiles : tuple of Stockpile
    """

    lots: OpeningLots
    ore: OpeningOre
    shares: NDArray[np.float64]
    gains: NDArray[np.float64]
    stockpiles: tuple[Stockpile, ...]

    @property
    def reclaims(self) -> pd.DataFrame:
        """The rows of reclaims.csv, without an id: one per process that takes some of a lot in a year."""
        flows, rows = self.flows, np.nonzero(self.shares)
        found = flows[["year", "source", "destination"]].assign(share=self.shares[rows])
        found.insert(0, "id", pd.Series(pd.NA, index=found.index, dtype="Int64"))
        return found

    @property
    def flows(self) -> pd.DataFrame:
        """The rows of flows.csv: one per year, lot and process that takes some of it. They are of no bench."""
        process, lot, year = np.nonzero(self.shares)
        share, project = self.shares[process, lot, year], self.lots.plan.project
        piles = np.array([it.name for it in self.stockpiles], dtype=object)
        found: dict[str, object] = {"year": year + 1, "bench": np.full(len(lot), np.nan)}
        for column in (project.table.rock_type, project.table.resource_class):
            found |= {shown_name(column): self.lots.plan.table[column].to_numpy()[lot]} if column else {}
        names = np.array([name or MILL for name in names_of(self.lots.plan)], dtype=object)
        found |= {"source": piles[self.lots.stockpile[lot]], "destination": names[process]}
        tonnes, metal = self.lots.plan.values.tonnes[lot] * share, self.lots.contained
        found["total_tonnes"] = tonnes
        found |= {f"in_situ_{name}": amounts[lot] * share for name, amounts in metal.items()}
        found["feed_tonnes"] = tonnes
        found |= {f"contained_{name}": amounts[lot] * share for name, amounts in metal.items()}
        for name in metal:
            found[f"recovered_{name}"] = self.ore.ore.of(f"recovered_{name}")[process, lot] * share
        found["cash_flow"] = self.gains[process, lot, year] * share
        return pd.DataFrame(found)

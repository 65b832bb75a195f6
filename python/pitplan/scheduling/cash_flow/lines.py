"""The lines of the cash flow of a method: physicals, revenue, costs and capex by period, from the quantities of blocks."""

from __future__ import annotations

from abc import ABC, abstractmethod
from collections.abc import Callable
from dataclasses import dataclass
from decimal import Decimal
from functools import cached_property, partial
from typing import Optional

import numpy as np
import pandas as pd
from numpy.typing import NDArray

from pitplan.config.economics import GRADE_UNITS, GRAMS, Metal
from pitplan.config.material import MILL
from pitplan.config.project import Project
from pitplan.economics import period_costs, smelter_terms
from pitplan.economics.cost_lines import PROCESSING, ROYALTY, CostLines, cost_lines
from pitplan.economics.period_costs import MINING_COST, PROCESSING_COST, SELLING_COST, yearly_prices
from pitplan.economics.weighing import DEPTH, HAULAGE, MILLIONTHS, MINING
from pitplan.pits.shells import ratio
from pitplan.plan import Plan
from pitplan.scheduling.flow.material import column_of, names_of
from pitplan.scheduling.flow.opening import OpeningLots

# Amounts of periods, each of shape (periods,).
Amounts = NDArray[np.float64]
# Lines by their columns in cash_flow.csv.
Lines = dict[str, Amounts]


@dataclass(frozen=True)
class CellAmounts:
    """What each cell of a plan costs and contains. Values are of cells, followed by the lots that lie on stockpiles at the start.

    Attributes
    ----------
    plan : Plan
    lots : OpeningLots, optional
        None: nothing lies there.
    """

    plan: Plan
    lots: Optional[OpeningLots] = None

    @cached_property
    def costs(self) -> CostLines:
        """The costs of each cell and lot by line."""
        found = costs_of(self.plan)
        return found if self.lots is None else with_lots(found, costs_of(self.lots.plan))

    @cached_property
    def feed(self) -> NDArray[np.float64]:
        """The mill feed of each cell and lot."""
        feed = self.plan.values.feed
        return np.asarray(feed if self.lots is None else np.append(feed, self.lots.plan.values.feed))

    @cached_property
    def contained(self) -> dict[str, NDArray[np.float64]]:
        """Metal in the mill feed of each cell and lot, in tonnes or grams, by metal."""
        everywhere = np.arange(self.plan.grid.count)
        found = {
            metal.name: column_of(self.plan, metal.column, everywhere)
            * self.plan.values.undiluted
            * float(GRADE_UNITS[metal.unit])
            for metal in self.plan.project.metals
        }
        lying = {} if self.lots is None else self.lots.contained
        return {name: np.append(values, lying.get(name, np.zeros(0))) for name, values in found.items()}


class Operation(ABC):
    """The amounts of a method by period. Values are of cells, as those of `amounts`; results have the shape (periods,)."""

    @property
    @abstractmethod
    def amounts(self) -> CellAmounts:
        """What each cell costs and contains."""

    @property
    @abstractmethod
    def years(self) -> int:
        """The number of periods."""

    @abstractmethod
    def mined(self, values: NDArray[np.float64]) -> Amounts:
        """Returns what is mined."""

    @abstractmethod
    def ore(self, values: NDArray[np.float64]) -> Amounts:
        """Returns what is mined and goes to a process or a stockpile."""

    @abstractmethod
    def fed(self, values: NDArray[np.float64], process: int) -> Amounts:
        """Returns what a process takes, from the pit and from stockpiles."""

    @abstractmethod
    def recovered(self, metal: str) -> Amounts:
        """Returns the metal that each process recovers, after what stockpiles lose, shape (processes, periods)."""

    @property
    def added(self) -> Optional[NDArray[np.float64]]:
        """What mining each cell costs more in its pushback; None if the project adds nothing."""
        return None

    @property
    def stockpile_costs(self) -> Lines:
        """The costs of stacking and reclaiming; none without stockpiles."""
        return {}

    @property
    def dump_costs(self) -> Lines:
        """The cost of dumps; none without dumps."""
        return {}

    @property
    def plan(self) -> Plan:
        return self.amounts.plan

    @property
    def names(self) -> list[str]:
        """The processes by name; "" of a project that names none."""
        return names_of(self.plan)

    def fed_anywhere(self, values: NDArray[np.float64]) -> Amounts:
        """Returns what all processes take."""
        return np.asarray(sum(self.fed(values, process) for process in range(len(self.names))))

    def factors(self, cost: str) -> Amounts:
        """Returns the factor of a cost in each period."""
        return period_costs.of_project(self.plan.project).factors(cost, self.years)


def costs_of(plan: Plan) -> CostLines:
    return cost_lines(plan.table, plan.grid, plan.project, plan.values)


def with_lots(cells: CostLines, lots: CostLines) -> CostLines:
    """Returns the costs of cells followed by those of lots, which only processing has; hauling these costs nothing."""
    nothing = np.zeros(len(lots.mining_rounding))
    processing = tuple(
        {name: np.append(values, more.get(name, nothing)) for name, values in lines.items()}
        for lines, more in zip(cells.processing, lots.processing)
    )
    rounding = tuple(map(np.append, cells.processing_rounding, lots.processing_rounding))
    return CostLines(cells.mining, processing, cells.mining_rounding, rounding)


@dataclass(frozen=True)
class Sale:
    """A metal of a method.

    Attributes
    ----------
    metals : tuple of Metal
        The metal as each process sells it.
    recovered : array, shape (processes, periods)
        What each recovers, in tonnes or grams.
    prices : list of Decimal
        The price in each period, in the unit of the metal's price.
    """

    metals: tuple[Metal, ...]
    recovered: Amounts
    prices: list[Decimal]

    @classmethod
    def of(cls, operation: Operation, number: int, prices: list[Decimal]) -> Sale:
        """Returns the sale of a metal of the project, by number."""
        metals = tuple(alone.metals[number] for alone in operation.plan.project.by_process)
        return cls(metals, operation.recovered(metals[0].name), prices)

    def total(self, value: Callable[[Metal, Decimal], Decimal]) -> Amounts:
        """Returns the sum over processes of a value per tonne or gram at the price of each period."""
        a_unit = np.array([[value(metal, price) for price in self.prices] for metal in self.metals], dtype=float)
        return np.asarray((self.recovered * a_unit).sum(axis=0))

    def charges(self) -> dict[str, Amounts]:
        """Returns the selling cost and the charges of the smelter, without penalties."""
        kinds = dict.fromkeys(kind for it in self.metals for kind in smelter_terms.charges(it, it.price))
        return {kind: self.total(partial(charge, kind)) for kind in kinds}


def charge(kind: str, metal: Metal, price: Decimal) -> Decimal:
    """Returns one of the charges per tonne or gram; 0 if it does not apply."""
    return smelter_terms.charges(metal, price).get(kind, Decimal(0))


# Prices by metal and period, in the unit of the metal's price.
Prices = dict[str, list[Decimal]]
# How the columns of charges begin.
COLUMNS = {
    smelter_terms.SELLING: "selling_cost",
    smelter_terms.TREATMENT: "treatment_charge",
    smelter_terms.REFINING: "refining_charge",
    smelter_terms.PARTICIPATION: "participation",
    smelter_terms.FREIGHT: "freight",
    smelter_terms.PENALTIES: "penalties",
}


@dataclass(frozen=True)
class Statement:
    """The cash flow of a method by line, in the currency; arrays of shape (periods,).

    Attributes
    ----------
    method : str
    year : array
        The number of each period, from 1.
    ends : array
        The end of each period, in years.
    physicals, prices : dict of str to array
        Tonnes, grades and metals; and the prices of metals, per unit of their `price`.
    revenue, deductions, costs : dict of str to array
        Revenue by metal; royalty, and selling costs or charges of smelters; and the operating costs.
    rounding : array
        What the rounding of block values adds.
    capex : array
        Spent at the start of each period.
    cash_flow, discounted : array
        Those of years.csv.
    """

    method: str
    year: NDArray[np.int64]
    ends: Amounts
    physicals: Lines
    prices: Lines
    revenue: Lines
    deductions: Lines
    costs: Lines
    rounding: Amounts
    capex: Amounts
    cash_flow: Amounts
    discounted: Amounts

    @property
    def starts(self) -> Amounts:
        """The start of each period, in years."""
        return np.append(0.0, self.ends)[:-1]

    @property
    def operating(self) -> Amounts:
        """Revenue less deductions and operating costs."""
        return self.total(self.revenue) - self.total(self.deductions) - self.total(self.costs) + self.rounding

    def total(self, lines: Lines) -> Amounts:
        return np.asarray(sum(lines.values(), np.zeros(len(self.ends))))


def statement(operation: Operation, method: str, years: pd.DataFrame) -> Statement:
    """Returns the cash flow of a method; `years` are its rows of years.csv."""
    nothing = np.zeros(len(years))
    of_years = {name: years[name].to_numpy() if name in years else nothing for name in ("fixed_cost", "capex")}
    metals = operation.plan.project.metals
    prices = {metal.name: prices_of(metal, operation) for metal in metals}
    sales = {metal.name: Sale.of(operation, number, prices[metal.name]) for number, metal in enumerate(metals)}
    revenue = {f"revenue_{name}": sale.total(smelter_terms.paid) for name, sale in sales.items()}
    of_places = operation.stockpile_costs | operation.dump_costs
    costs = mining_costs(operation) | processing_costs(operation) | of_places
    return Statement(
        method=method,
        year=years["year"].to_numpy(),
        ends=operation.plan.project.shells.calendar.ends(len(years)),
        physicals=physicals(operation, sales),
        prices={f"price_{name}": np.array(of_years, dtype=float) for name, of_years in prices.items()},
        revenue=revenue,
        deductions=royalties(operation, revenue) | charges(operation, sales),
        costs=costs | ({"fixed_cost": of_years["fixed_cost"]} if "fixed_cost" in years else {}),
        rounding=rounding_of(operation),
        capex=of_years["capex"],
        cash_flow=years["cash_flow"].to_numpy(),
        discounted=years["discounted_cash_flow"].to_numpy(),
    )


def units_of_price(metal: Metal) -> float:
    """Returns how many units of a metal's price a tonne or gram of it has: 2,204.6 pounds."""
    return float(GRAMS[metal.quantity] / GRAMS[metal.price_unit])


def prices_of(metal: Metal, operation: Operation) -> list[Decimal]:
    """Returns the price of a metal in each period, in the unit of its price."""
    listed = yearly_prices(operation.plan.project, metal) or (metal.price,)
    return [listed[min(year, len(listed) - 1)] for year in range(operation.years)]


def physicals(operation: Operation, sales: dict[str, Sale]) -> Lines:
    """Returns tonnes, strip ratio, head grades and metals."""
    values, project = operation.plan.values, operation.plan.project
    total, ore = operation.mined(values.tonnes), operation.ore(values.tonnes)
    waste, feed = np.maximum(total - ore, 0.0), operation.fed_anywhere(operation.amounts.feed)
    found = {"total_tonnes": total, "waste_tonnes": waste, "strip_ratio": ratio(waste, ore)}
    found["feed_tonnes"] = feed
    contained = {name: operation.fed_anywhere(metal) for name, metal in operation.amounts.contained.items()}
    for metal in project.metals:
        content = contained[metal.name] / float(GRADE_UNITS[metal.unit])
        found[f"head_grade_{metal.name}"] = ratio(content, feed)
    found |= {f"contained_{name}": amounts for name, amounts in contained.items()}
    found |= {f"recovered_{name}": sale.recovered.sum(axis=0) for name, sale in sales.items()}
    for metal in [metal for metal in project.metals if metal.smelter]:
        sale = sales[metal.name]
        found[f"payable_{metal.name}"] = sale.total(lambda it, price: smelter_terms.payable_share(it))
        if smelter_terms.concentrate(metal):
            dry = sale.total(lambda it, price: smelter_terms.concentrate(it))
            found[f"concentrate_tonnes_{metal.name}"] = dry
    return found


def royalties(operation: Operation, revenue: Lines) -> Lines:
    project, costs = operation.plan.project, operation.amounts.costs
    royalty = float(project.economics.royalty) * sum(revenue.values())
    royalty = royalty + sum(operation.fed(lines[ROYALTY], number) for number, lines in enumerate(costs.processing))
    return {"royalty": np.asarray(royalty)}


def charges(operation: Operation, sales: dict[str, Sale]) -> Lines:
    """Returns the selling costs by metal and the charges of its smelter, each if a process has them."""
    found, factors = dict[str, Amounts](), operation.factors(SELLING_COST)
    for metal in operation.plan.project.metals:
        for kind, line in sales[metal.name].charges().items():
            is_multiplied = kind != smelter_terms.PARTICIPATION
            found[f"{COLUMNS[kind]}_{metal.name}"] = line * factors if is_multiplied else line
        if metal.smelter and metal.smelter.penalties:
            of_blocks = f"{smelter_terms.PENALTIES} {metal.name}"
            costs = enumerate(operation.amounts.costs.processing)
            charged = sum(operation.fed(lines[of_blocks], number) for number, lines in costs if of_blocks in lines)
            found[f"{COLUMNS[smelter_terms.PENALTIES]}_{metal.name}"] = np.asarray(charged) * factors
    return found


def mining_costs(operation: Operation) -> Lines:
    """Returns the cost of mining ore and waste, of depth, of haulage, and what pushbacks add."""
    costs, project = operation.amounts.costs, operation.plan.project
    ore = operation.ore(costs.mining[MINING])
    found = {"mining_cost_ore": ore, "mining_cost_waste": operation.mined(costs.mining[MINING]) - ore}
    if costs_more_below(project):
        found["mining_cost_depth"] = operation.mined(costs.mining[DEPTH])
    if project.haulage:
        hauled = operation.mined(costs.mining[HAULAGE])
        of_ore = [operation.fed(lines[HAULAGE], number) for number, lines in enumerate(costs.processing)]
        found["haulage_cost"] = np.asarray(hauled + sum(of_ore))
    if operation.added is not None:
        found["mining_cost_added"] = operation.mined(operation.added)
    factors = operation.factors(MINING_COST)
    return {name: cost * factors for name, cost in found.items()}


def costs_more_below(project: Project) -> bool:
    """Returns whether the mining cost depends on the elevation."""
    return bool(project.economics.mining_cost_per_bench or project.economics.mining_cost_by_elevation)


def processing_costs(operation: Operation) -> Lines:
    factors = operation.factors(PROCESSING_COST)
    return {
        f"processing_cost_{name or MILL}": operation.fed(lines[PROCESSING], number) * factors
        for number, (name, lines) in enumerate(zip(operation.names, operation.amounts.costs.processing))
    }


def rounding_of(operation: Operation) -> Amounts:
    """Returns what rounding the block values to the decimals of the project adds to the cash flow."""
    costs = operation.amounts.costs
    found = operation.mined(costs.mining_rounding) * operation.factors(MINING_COST)
    for number, values in enumerate(costs.processing_rounding):
        found = found + operation.fed(values, number)
    return np.asarray(found)


def is_rounded(project: Project) -> bool:
    """Returns whether block values have fewer decimals than they are computed with, so that the rounding is a line of its own."""
    return project.economics.decimals < MILLIONTHS

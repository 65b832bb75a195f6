"""The tables cash_flow.csv and valuation.csv of a schedule."""

from __future__ import annotations

from dataclasses import dataclass
from functools import cached_property
from typing import TYPE_CHECKING, Optional

import numpy as np
import pandas as pd
from numpy.typing import NDArray
from scipy.optimize import brentq

from pitplan.config.economics import CashFlowRules
from pitplan.config.project import Project
from pitplan.core.tolerances import ROOT_ERROR
from pitplan.economics import period_costs
from pitplan.pits.best_worst_case import Rate, year_discounts
from pitplan.pits.shells import ratio
from pitplan.scheduling.flow.flows import Flows
from pitplan.scheduling.flow.tables import ScheduledCells
from pitplan.scheduling.methods import BLOCK

from .lines import Amounts, CellAmounts, Lines, Operation, Statement, is_rounded, statement, units_of_price

if TYPE_CHECKING:
    from pitplan.scheduling.blocks.from_plan import Destinations
    from pitplan.scheduling.blocks.tables import BlockSchedule
    from pitplan.scheduling.pushback_schedule import PushbackSchedule


# The rates at which an internal rate of return is searched, up to 1,000 %.
RATES = np.concatenate([np.linspace(0.0, 1.0, 101), np.linspace(1.1, 10.0, 90)])


@dataclass(frozen=True)
class Finance:
    """The free cash flow of a statement; arrays of shape (periods,), in the currency.

    Attributes
    ----------
    project : Project
        Its discounting applies.
    statement : Statement
    """

    project: Project
    statement: Statement

    @property
    def rules(self) -> CashFlowRules:
        return self.project.cash_flow

    @cached_property
    def closure(self) -> Amounts:
        """The closure cost, in the last period."""
        found = np.zeros(len(self.statement.ends))
        found[-1:] = float(self.rules.closure_cost)
        return found

    @cached_property
    def depreciation(self) -> Amounts:
        """The depreciation of capex; what is left at the end is written off in the last period."""
        it, years = self.statement, self.rules.depreciation_years
        if years is None:
            return by_production(it.capex, it.physicals["feed_tonnes"])
        return straight_line(it.capex, it.starts, it.ends, float(years))

    @cached_property
    def taxed(self) -> tuple[Amounts, Amounts]:
        """The taxable income after losses carried forward, and the tax."""
        income = self.statement.operating - self.depreciation - self.closure
        taxable, losses = np.zeros(len(income)), 0.0
        for period, amount in enumerate(income):
            taxable[period], losses = max(0.0, amount - losses), max(0.0, losses - amount)
        return taxable, taxable * float(self.rules.tax_rate)

    @property
    def tax(self) -> Amounts:
        return self.taxed[1]

    @property
    def before_tax(self) -> Amounts:
        """The cash flow of each period without its capex, before closure cost and tax."""
        return self.statement.cash_flow + self.statement.capex

    @property
    def after_tax(self) -> Amounts:
        """The same after closure cost and tax."""
        return self.before_tax - self.closure - self.tax

    def factors(self, rate: Rate) -> tuple[Amounts, Amounts]:
        """Returns the discount factors of the periods at a rate: of their cash, and of capex at their start."""
        of_cash = year_discounts(self.project.shells, len(self.statement.ends), rate)
        return of_cash, (1 + rate) ** -self.statement.starts

    @cached_property
    def factors_of_rates(self) -> tuple[Amounts, Amounts]:
        """The factors at each of RATES, shape (rates, periods)."""
        return self.factors(RATES[:, None])

    def npv(self, cash: Amounts, rate: float) -> float:
        """Returns the net present value of cash and of the capex at a rate."""
        of_cash, of_capex = self.factors(rate)
        return float(cash @ of_cash - self.statement.capex @ of_capex)

    def irr(self, cash: Amounts) -> float:
        """Returns the least rate above 0 from which on the NPV is not positive; nan if it is not positive at 0 %, or still is at 1,000 %."""
        of_cash, of_capex = self.factors_of_rates
        below = np.flatnonzero(of_cash @ cash - of_capex @ self.statement.capex <= 0)
        if not len(below) or below[0] == 0:
            return float("nan")
        low, high = RATES[below[0] - 1], RATES[below[0]]
        at_low, at_high = self.npv(cash, low), self.npv(cash, high)
        if not at_high <= 0 < at_low:
            # At one of the two rates the NPV is 0 within rounding.
            return float(low if abs(at_low) < abs(at_high) else high)
        return float(brentq(lambda rate: self.npv(cash, rate), low, high, xtol=ROOT_ERROR))

    def payback(self, cash: Amounts) -> float:
        """Returns the years until the cumulative undiscounted cash flow is first 0 again after it was negative; 0 if it never is, nan if it
        stays so. Cash flows evenly through a period, capex at its start."""
        it, before, was_negative = self.statement, 0.0, False
        for start, end, gain, spent in zip(it.starts, it.ends, cash, it.capex):
            low = before - spent
            before = low + gain
            if low < 0 <= before:
                return float(start + (end - start) * -low / gain)
            was_negative = was_negative or min(low, before) < 0
        return float("nan") if was_negative else 0.0


def straight_line(capex: Amounts, starts: Amounts, ends: Amounts, years: float) -> Amounts:
    """Returns the straight-line depreciation, over `years` years, of the capex at the start of each period."""
    found = np.zeros(len(capex))
    for period in np.flatnonzero(capex):
        share = np.clip(ends - starts[period], 0.0, years) - np.clip(starts - starts[period], 0.0, years)
        share[-1] += years - share.sum()
        found += capex[period] * share / years
    return found


def by_production(capex: Amounts, feed: Amounts) -> Amounts:
    """Returns the depreciation of capex in proportion to the mill feed of a period and of all later ones."""
    found, book = np.zeros(len(capex)), 0.0
    for period, spent in enumerate(capex):
        book += spent
        left = feed[period:].sum()
        is_last = period == len(capex) - 1
        found[period] = book if is_last else book * feed[period] / left if left > 0 else 0.0
        book -= found[period]
    return found


@dataclass(frozen=True)
class BlockOperation(Operation):
    """The amounts of a schedule by block.

    Attributes
    ----------
    blocks : BlockSchedule
    """

    blocks: BlockSchedule

    @cached_property
    def amounts(self) -> CellAmounts:
        opening = self.blocks.planned.opening
        return CellAmounts(self.blocks.planned.plan, opening.lots if opening else None)

    @property
    def years(self) -> int:
        return self.blocks.count

    @property
    def destinations(self) -> Destinations:
        return self.blocks.planned.destinations

    @property
    def share(self) -> NDArray[np.float64]:
        """The share of each block that goes to each process and over each stockpile, shape (blocks, processes and routes)."""
        return self.blocks.mined.share[:, len(self.destinations.waste) :]

    def by_year(self, values: NDArray[np.float64]) -> Amounts:
        """Returns the sums of values of blocks that may be mined by the period in which they are."""
        year = self.blocks.mined.year
        return np.asarray(np.bincount(year, values, minlength=self.years)[: self.years], dtype=float)

    def mined(self, values: NDArray[np.float64]) -> Amounts:
        return self.by_year(values[self.blocks.planned.cells])

    def ore(self, values: NDArray[np.float64]) -> Amounts:
        return self.by_year(values[self.blocks.planned.cells] * self.share.sum(axis=1))

    def fed(self, values: NDArray[np.float64], process: int) -> Amounts:
        found = self.taken(values, self.destinations.fed(process))
        return found + self.opened(values[self.plan.grid.count :], process)

    def opened(self, lots: NDArray[np.float64], process: int) -> Amounts:
        """Returns what a process takes of opening balances, from amounts of lots."""
        opened = self.blocks.opened
        return np.zeros(self.years) if opened is None else (lots @ opened.shares[process])[: self.years]

    def taken(self, values: NDArray[np.float64], destinations: NDArray[np.int64]) -> Amounts:
        """Returns what is taken of blocks that go to some destinations, by the period in which it is."""
        schedule, years = self.blocks.mined, self.blocks.planned.problem.years
        year = np.minimum(schedule.year[:, None] + self.destinations.lags[destinations], years)
        weights = values[self.blocks.planned.cells, None] * schedule.share[:, destinations]
        return np.asarray(np.bincount(year.ravel(), weights.ravel(), minlength=years + 1)[: self.years], dtype=float)

    def recovered(self, metal: str) -> Amounts:
        found = []
        for process, way in enumerate(self.plan.values.by_process):
            fed = self.destinations.fed(process)
            direct = self.taken(way.metal[metal], fed[:1])
            for number, it in enumerate(self.destinations.stockpiles):
                routes = np.intersect1d(fed, self.destinations.stacked(number))
                direct = direct + it.recovery.get(metal, 1.0) * self.taken(way.metal[metal], routes)
            if self.blocks.opened is not None:
                direct = direct + self.opened(self.blocks.opened.ore.ore.of(f"recovered_{metal}")[process], process)
            found.append(direct)
        return np.stack(found)

    @property
    def stockpile_costs(self) -> Lines:
        piles, feed = enumerate(self.destinations.stockpiles), self.amounts.feed
        placed = feed[self.blocks.planned.cells]
        found = {"stacking_cost": np.zeros(self.years), "reclaim_cost": np.zeros(self.years)}
        for number, it in piles:
            routes = self.destinations.stacked(number)
            share = self.blocks.mined.share[:, routes].sum(axis=1)
            found["stacking_cost"] += it.stacking_cost * self.by_year(placed * share)
            found["reclaim_cost"] += it.reclaim_cost * self.taken(feed, routes)
            if self.blocks.opened is not None:
                lots = self.blocks.opened.ore.on(number)
                opened = [self.opened(lots, process) for process in range(len(self.names))]
                found["reclaim_cost"] += it.reclaim_cost * np.sum(opened, axis=0)
        return found if self.destinations.stockpiles else {}

    def placed(self, values: NDArray[np.float64], dump: int) -> Amounts:
        """Returns what a dump takes, by its number."""
        return self.by_year(values[self.blocks.planned.cells] * self.blocks.mined.share[:, dump])

    @property
    def dump_costs(self) -> Lines:
        dumps, tonnes = self.plan.project.dumps, self.plan.values.tonnes
        costs = [it.cost * self.placed(tonnes, number) for number, it in enumerate(dumps)]
        return {"dump_cost": np.sum(costs, axis=0)} if dumps else {}


def block_finances(blocks: BlockSchedule) -> list[Finance]:
    """Returns the free cash flow of the schedule."""
    years = blocks.years
    return [Finance(blocks.planned.plan.project, statement(BlockOperation(blocks), BLOCK, years))]


@dataclass(frozen=True)
class ScheduledMaterial(ScheduledCells):
    """The blocks of a schedule, by bench and parcel."""

    @cached_property
    def amounts(self) -> CellAmounts:
        return CellAmounts(self.plan, self.schedule.lots)

    def of_benches(self, values: NDArray[np.float64]) -> NDArray[np.float64]:
        return np.asarray(
            np.bincount(self.bench, values[self.cells], minlength=len(self.schedule.benches)), dtype=float
        )

    def of_parcels(self, values: NDArray[np.float64]) -> NDArray[np.float64]:
        """Returns the sums of values of cells by parcel of ore."""
        material = self.schedule.material
        sums = np.bincount(material.parcel, values[material.cells], minlength=len(material.parcels))
        return np.asarray(sums, dtype=float)


@dataclass(frozen=True)
class PushbackOperation(Operation):
    """The amounts of a method by period.

    Attributes
    ----------
    material : ScheduledMaterial
    flows : Flows
    """

    material: ScheduledMaterial
    flows: Flows

    @property
    def amounts(self) -> CellAmounts:
        return self.material.amounts

    @property
    def years(self) -> int:
        return self.flows.years

    def mined(self, values: NDArray[np.float64]) -> Amounts:
        return np.asarray(self.material.of_benches(values) @ self.flows.mined)

    def ore(self, values: NDArray[np.float64]) -> Amounts:
        sent = self.flows.direct.sum(axis=0) + self.flows.stocked.sum(axis=0)
        return np.asarray(self.material.of_parcels(values) @ sent)

    def fed(self, values: NDArray[np.float64], process: int) -> Amounts:
        lots = values[self.plan.grid.count :] if self.flows.opened.shape[1] else np.zeros(0)
        return np.asarray(
            self.material.of_parcels(values) @ self.flows.fed[process] + lots @ self.flows.opened[process]
        )

    def recovered(self, metal: str) -> Amounts:
        name = f"recovered_{metal}"
        return np.asarray(self.flows.processed(name).sum(axis=1) + self.flows.from_opening(name).sum(axis=1))

    @property
    def added(self) -> Optional[NDArray[np.float64]]:
        pushbacks = self.material.schedule.pushbacks
        rules = self.plan.project.pushbacks
        return pushbacks.mining_cost_added if rules and rules.mining_cost_added else None

    @property
    def stockpile_costs(self) -> Lines:
        if not self.material.schedule.is_stocked:
            return {}
        stacking = np.asarray(np.einsum("sp,spt->t", self.flows.model.stacking, self.flows.stocked))
        return {"stacking_cost": stacking, "reclaim_cost": self.reclaim}

    @property
    def dump_costs(self) -> Lines:
        waste = self.flows.model.waste
        return {"dump_cost": np.asarray(waste.costs @ self.flows.placed)} if waste.dumps else {}

    @property
    def reclaim(self) -> Amounts:
        """The cost of reclaiming ore from stockpiles."""
        a_tonne = np.array([it.reclaim_cost for it in self.flows.model.stockpiles])
        feed = np.einsum("p,skpt->st", self.flows.model.ore.feed, self.flows.reclaimed)
        opening = self.flows.model.opening
        lay = opening.ore.feed * a_tonne[opening.stockpile]
        return np.asarray(a_tonne @ feed + lay @ self.flows.opened.sum(axis=0))


def operations(schedule: PushbackSchedule) -> dict[str, PushbackOperation]:
    """Returns what each method mines and feeds."""
    material = ScheduledMaterial(schedule)
    return {method: PushbackOperation(material, flows) for method, flows in schedule.flows.items()}


def pushback_finances(schedule: PushbackSchedule) -> list[Finance]:
    """Returns the free cash flow of each method."""
    years = schedule.years
    return [
        Finance(it.plan.project, statement(it, method, years[years["case"] == method]))
        for method, it in operations(schedule).items()
    ]


# The lines of mining, and those that the unit cost of a tonne of feed leaves out.
OF_MINING = ("mining_cost", "haulage_cost")


def cash_flow_table(found: list[Finance]) -> pd.DataFrame:
    """Returns one row per method and period; costs, capex, depreciation and tax are positive.

    Columns: method, year; tonnes, grades and metals; price_METAL; revenue_METAL, royalty, selling_cost_METAL or the charges of smelters, the
    lines of mining, processing, stockpiles and fixed costs, rounding; operating_cash_flow, capex and cash_flow, that of years.csv; closure_cost, depreciation,
    taxable_income and tax if `[cash_flow]` has them; free_cash_flow; both discounted; and unit costs.
    """
    return pd.concat([rows_of(it) for it in found], ignore_index=True)


def rows_of(finance: Finance) -> pd.DataFrame:
    it, project = finance.statement, finance.project
    discounts, starts = finance.factors(project.shells.discount_rate)
    head = {"method": np.full(len(it.year), it.method, dtype=object), "year": it.year}
    lines = it.revenue | it.deductions | it.costs | ({"rounding": it.rounding} if is_rounded(project) else {})
    flows: Lines = {"operating_cash_flow": it.operating}
    flows |= {"capex": it.capex} if period_costs.of_project(project).columns else {}
    flows |= {"cash_flow": it.cash_flow} | taxes(finance)
    flows["free_cash_flow"] = finance.after_tax - it.capex
    flows["discounted_cash_flow"] = it.discounted
    flows["discounted_free_cash_flow"] = finance.after_tax * discounts - it.capex * starts
    return pd.DataFrame(head | it.physicals | it.prices | lines | flows | unit_costs(it, project))


def taxes(finance: Finance) -> Lines:
    found: Lines = {"closure_cost": finance.closure} if finance.rules.closure_cost else {}
    if finance.rules.tax_rate:
        taxable, tax = finance.taxed
        found |= {"depreciation": finance.depreciation, "taxable_income": taxable, "tax": tax}
    return found


def unit_costs(it: Statement, project: Project) -> Lines:
    """Returns the mining cost per tonne mined, the site cost per tonne of feed, and the C1 cost per unit of the first metal
    that is sold."""
    first = project.metals[0]
    mining = it.total({name: line for name, line in it.costs.items() if name.startswith(OF_MINING)})
    site = it.total(it.costs)
    selling = it.total({name: line for name, line in it.deductions.items() if name != "royalty"})
    credit = it.total({name: line for name, line in it.revenue.items() if name != f"revenue_{first.name}"})
    sold = "recovered" if first.smelter is None else "payable"
    units = it.physicals[f"{sold}_{first.name}"] * units_of_price(first)
    return {
        "cost_per_tonne_mined": ratio(mining, it.physicals["total_tonnes"]),
        "cost_per_tonne_fed": ratio(site, it.physicals["feed_tonnes"]),
        "c1_cost": ratio(site + selling - credit, units),
    }


def valuation_table(project: Project, found: list[Finance]) -> pd.DataFrame:
    """Returns one row per method and discount rate: NPV, internal rate of return and payback, before and after closure cost and tax."""
    rates = sorted({project.shells.discount_rate, *map(float, project.cash_flow.discount_rates)})
    return pd.DataFrame([row for it in found for row in values_of(it, rates)])


def values_of(finance: Finance, rates: list[float]) -> list[dict[str, object]]:
    kinds = {"": finance.before_tax, "_after_tax": finance.after_tax}
    returns = {f"irr{kind}": finance.irr(cash) for kind, cash in kinds.items()}
    returns |= {f"payback{kind}": finance.payback(cash) for kind, cash in kinds.items()}
    return [
        {"method": finance.statement.method, "discount_rate": rate}
        | {f"npv{kind}": finance.npv(cash, rate) for kind, cash in kinds.items()}
        | returns
        for rate in rates
    ]

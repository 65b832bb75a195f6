"""Cash flow of years beyond block values: yearly prices, period costs and capex."""

from __future__ import annotations

from dataclasses import dataclass, field, replace
from decimal import Decimal

import numpy as np

from pitplan.config.economics import Metal
from pitplan.config.periods import Calendar
from pitplan.config.project import Project

from .smelter_terms import multiplied, net

# The amounts of money that factors of periods multiply, and by which they are among the premiums.
MINING_COST, PROCESSING_COST, SELLING_COST = "mining_cost", "processing_cost", "selling_cost"
COSTS = (MINING_COST, PROCESSING_COST, SELLING_COST)
# The beginning of the amount of a metal that is sold by smelter terms of some processes.
SMELTED = "smelted_"


@dataclass(frozen=True)
class YearlyMoney:
    """Cash flow that is not part of block values.

    Attributes
    ----------
    fixed_cost : tuple of float
        Fixed cost of each period, from 1, in the currency, spent evenly while the mine runs; the last one continues.
    capex : tuple of pairs
        Period, from 1, and the amount that is spent at its start if the mine still runs, in the currency.
    premiums : dict of str to tuple
        By amount of metal, what a unit of it earns beyond the base price, less royalty and price participation, in each year from 1; the last one
        continues. With smelter terms of some processes that of `recovered_METAL` is at the selling cost, and `smelted_METAL` has what the terms add
        to it. By cost that a factor multiplies, what a unit of it saves: 1 less the factor of the year.
    net_prices, charges : dict of str to tuple
        By amount of metal, what a unit of it earns in each process at the base price, less royalty and selling cost or smelter charges; and of these
        what a factor of selling costs multiplies.
    """

    fixed_cost: tuple[float, ...] = (0.0,)
    capex: tuple[tuple[int, float], ...] = ()
    premiums: dict[str, tuple[float, ...]] = field(default_factory=dict)
    net_prices: dict[str, tuple[float, ...]] = field(default_factory=dict)
    charges: dict[str, tuple[float, ...]] = field(default_factory=dict)

    @property
    def of_ore(self) -> dict[str, tuple[float, ...]]:
        """The premiums of metals and of the costs of ore, by which ore may go elsewhere."""
        return {name: more for name, more in self.premiums.items() if name != MINING_COST}

    @property
    def differing(self) -> tuple[str, ...]:
        """The costs that differ between years."""
        return tuple(name for name in COSTS if name in self.premiums)

    def factors(self, cost: str, years: int) -> np.ndarray:
        """Returns the factor of a cost in each year, shape (years,)."""
        return np.asarray(1.0 - self.premium((cost,), years)[:, 0])

    @property
    def columns(self) -> tuple[str, ...]:
        """The columns that a table of years has for these."""
        return ("fixed_cost", "capex") if any(self.fixed_cost) or self.capex else ()

    def fixed(self, years: int) -> np.ndarray:
        """Returns the fixed cost of each whole year."""
        return np.array(self.fixed_cost)[np.minimum(np.arange(years), len(self.fixed_cost) - 1)]

    def premium(self, names: tuple[str, ...], years: int) -> np.ndarray:
        """Returns the premium of a unit of each amount, shape (years, names)."""
        found = np.zeros((years, len(names)))
        for name, premiums in self.premiums.items():
            if name not in names:
                continue
            year = np.minimum(np.arange(years), len(premiums) - 1)
            found[:, names.index(name)] = np.array(premiums)[year]
        return found

    def costs(self, years: int) -> dict[str, np.ndarray]:
        """Returns the columns that a table of this many years has for these."""
        found = {"fixed_cost": self.fixed(years), "capex": self.spent(years)}
        return {name: found[name] for name in self.columns}

    def spent(self, years: int) -> np.ndarray:
        found = np.zeros(years)
        for year, amount in self.capex:
            if year <= years:
                found[year - 1] += amount
        return found


PLAIN = YearlyMoney()


def of_project(project: Project) -> YearlyMoney:
    money, calendar = project.economics, project.shells.calendar
    premiums = {name: more for metal in project.metals for name, more in premiums_of(project, metal).items()}
    premiums |= savings(calendar)
    capex = calendar.capex or money.capex
    per_year = calendar.by_year(lambda it: it.fixed_cost_per_year, money.fixed_cost_per_year)
    fixed = [float(amount) * length for amount, length in zip(per_year, calendar.lengths(len(per_year)))]
    net_prices, charges = {}, {}
    for k, metal in enumerate(project.metals):
        sold = [alone.metals[k] for alone in project.by_process]
        net_prices[f"recovered_{metal.name}"] = tuple(float(net_price(it, money.royalty)) for it in sold)
        charges[f"recovered_{metal.name}"] = tuple(float(multiplied(it)) for it in sold)
    spent = tuple((year, float(amount)) for year, amount in capex)
    return YearlyMoney(tuple(fixed), spent, premiums, net_prices, charges)


def premiums_of(project: Project, metal: Metal) -> dict[str, tuple[float, ...]]:
    """Returns the premiums of the amounts of a metal; none if its price is the same in all years."""
    royalty, prices = project.economics.royalty, yearly_prices(project, metal)

    def more(sold: Metal) -> list[Decimal]:
        return [net(sold, price, royalty) - net_price(sold, royalty) for price in prices]

    if not metal.prices and all(price == metal.price for price in prices):
        return {}
    recovered = f"recovered_{metal.name}"
    if metal.smelter is None or not metal.smelter.is_of_some:
        return {recovered: tuple(map(float, more(metal)))}
    plain = more(replace(metal, smelter=None))
    added = (by_terms - at_cost for by_terms, at_cost in zip(more(metal), plain))
    return {recovered: tuple(map(float, plain)), f"{SMELTED}{metal.name}": tuple(map(float, added))}


def is_shown(name: str) -> bool:
    """Returns whether tables of years have an amount; the others only serve to value it."""
    return name not in COSTS and not name.startswith(SMELTED)


def savings(calendar: Calendar) -> dict[str, tuple[float, ...]]:
    """Returns by cost that differs between periods what a unit of it saves in each: 1 less its factor; the last one continues."""
    factors = {
        MINING_COST: calendar.by_year(lambda it: it.mining_cost_factor, Decimal(1)),
        PROCESSING_COST: calendar.by_year(lambda it: it.processing_cost_factor, Decimal(1)),
        SELLING_COST: calendar.by_year(lambda it: it.selling_cost_factor, Decimal(1)),
    }
    found = {name: tuple(float(1 - factor) for factor in of_years) for name, of_years in factors.items()}
    return {name: saved for name, saved in found.items() if any(saved)}


def yearly_prices(project: Project, metal: Metal) -> tuple[Decimal, ...]:
    """Returns the price of a metal in each year from 1, in the unit of its price; the last one continues. None: it is that of `price`."""
    calendar = project.shells.calendar
    if calendar.has(lambda it: it.prices):
        return tuple(calendar.by_name(lambda it: it.prices, metal.name, metal.price))
    return metal.prices


def net_price(metal: Metal, royalty: Decimal) -> Decimal:
    """Returns what a unit of a metal's quantity earns at the base price, less royalty and selling cost or smelter charges."""
    return net(metal, metal.price, royalty)


def notes(project: Project) -> list[str]:
    """Returns notes with the yearly prices, period costs and capex of the project, and what shells know of dumps."""
    money = of_project(project)
    amounts = " to ".join(f"{amount:,.12g}" for amount in sorted({min(money.fixed_cost), max(money.fixed_cost)}))
    parts = [f"fixed costs of {amounts} {project.economics.currency} a year"] if any(money.fixed_cost) else []
    parts += ["capex"] if money.capex else []
    parts += ["yearly prices"] if any(name not in COSTS for name in money.premiums) else []
    parts += (
        [f"{' and '.join(it.removesuffix('_cost') for it in money.differing)} costs by period"]
        if money.differing
        else []
    )
    found = [
        f"{' and '.join(parts)} enter the annual cash flow, the NPV and schedules, but not block values and the choice of shell"
    ]
    dumps = [
        "in the annual cash flow of shells waste costs what the cheapest of the [[dumps]] that accept it does, without capacities"
    ]
    return (found if parts else []) + (dumps if project.dumps else [])

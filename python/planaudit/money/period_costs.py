"""Recomputes period costs: yearly prices, fixed costs and capex."""

from __future__ import annotations

from decimal import Decimal

import numpy as np

from planaudit.inputs.project import Project, Section, periods_in
from planaudit.money.smelter import net

HAIR = 1e-9
# The costs of ore that periods multiply.
PROCESSING, SELLING = "processing_cost", "selling_cost"
# The beginning of the amount of a metal in the processes that its smelter terms name.
BY_TERMS = "by_terms_"


def premiums(project: Project, year: int) -> dict[str, float]:
    """Returns for each amount of metal the gain per unit in a year, from 1, over the base price, and for each cost of ore that differs between
    periods what a unit of it saves. What smelter terms of some processes gain besides is that of an amount of its own.
    """
    found, royalty = {}, project.economics["royalty"]
    for metal in project.metals:
        now = price_in(project, metal, year)
        if metal["prices"] or has_prices(project):
            as_metal = {**metal, "smelter": None} if is_of_some(metal) else metal
            more = net(as_metal, now, royalty) - net(as_metal, metal["price"], royalty)
            found[f"recovered_{metal['name']}"] = float(more)
            if is_of_some(metal):
                in_all = net(metal, now, royalty) - net(metal, metal["price"], royalty)
                found[f"{BY_TERMS}{metal['name']}"] = float(in_all - more)
    return found | {cost: 1 - factor_in(project, cost, year) for cost in dearer(project)}


def is_of_some(metal: Section) -> bool:
    """Whether the smelter terms of a metal name processes."""
    return metal["smelter"] is not None and isinstance(metal["smelter"]["processes"], tuple)


def dearer(project: Project) -> list[str]:
    """Returns the costs of ore that some period multiplies."""
    periods = project.calendar.periods
    return [it for it in (PROCESSING, SELLING) if any(period[f"{it}_factor"] != 1 for period in periods)]


def differing(project: Project) -> list[str]:
    """Returns the amounts of ore, besides recovered metal, by which years differ."""
    return [name for name in premiums(project, 1) if not name.startswith("recovered_")]


def factor_in(project: Project, cost: str, year: int) -> float:
    """Returns by how much a cost of what is mined or processed in a year, from 1, is multiplied."""
    period = project.calendar.period(year)
    return 1.0 if period is None else float(period[f"{cost}_factor"])


def has_prices(project: Project) -> bool:
    """Whether periods have prices."""
    return any(it["prices"] for it in project.calendar.periods)


def price_in(project: Project, metal: Section, year: int) -> Decimal:
    """Returns the price of a metal in a year, from 1, in its own unit."""
    period = project.calendar.period(year)
    if period is not None and has_prices(project):
        return period["prices"].get(metal["name"], metal["price"])
    return metal["prices"][min(year, len(metal["prices"])) - 1] if metal["prices"] else metal["price"]


def years_of_prices(project: Project) -> int:
    """Returns the number of periods until prices stay as they are."""
    listed = max((len(metal["prices"]) for metal in project.metals), default=0)
    return max(1, listed, project.calendar.count)


def fixed_cost(project: Project, year: int) -> float:
    """Returns the fixed cost of a whole period."""
    period = project.calendar.period(year)
    own = None if period is None else period["fixed_cost_per_year"]
    of_year = float(project.economics["fixed_cost_per_year"] if own is None else own)
    return of_year * project.calendar.length(year)


def mining_factor(project: Project, year: int) -> float:
    """Returns the mining cost factor of a year, counted from 1."""
    return factor_in(project, "mining_cost", year)


def mining_factors(project: Project, years: int) -> np.ndarray:
    """Returns the same of the years from 1, shape (years,)."""
    return np.array([mining_factor(project, year) for year in range(1, years + 1)])


def has_costs(project: Project) -> bool:
    """Whether years cost anything."""
    periods = project.calendar.periods
    fixed = any(fixed_cost(project, year) for year in range(1, 1 + years_of_prices(project)))
    return fixed or bool(project.economics["capex"]) or any(period["capex"] for period in periods)


def capex(project: Project, year: int) -> float:
    """Returns the capex at the start of a year."""
    found, first = sum(float(amount) for at, amount in project.economics["capex"] if at == year), 1
    for period in project.calendar.periods:
        found += float(period["capex"]) if first == year else 0.0
        first += periods_in(period)
    return found

"""Recomputes the annual cash flow of a pit by following its pieces: a year ends when one of its capacities is used up."""

from __future__ import annotations

from dataclasses import dataclass

import numpy as np

from planaudit.inputs.project import MOST_YEARS, Project
from planaudit.money.discounts import at_start, factor
from planaudit.money.period_costs import HAIR, capex, differing, fixed_cost, has_costs, premiums

# Amounts by name.
Amounts = dict[str, np.ndarray]


@dataclass(frozen=True)
class Parts:
    """Pieces cut at the ends of years.

    Attributes
    ----------
    piece, year, share : array, shape (parts,)
        The piece of each part, its year from 1, and its share of the piece.
    life : float
        Periods to the end of the last piece.
    """

    piece: np.ndarray
    year: np.ndarray
    share: np.ndarray
    life: float


def parts_of(uses: list[list[float]], shares: list[list[float]]) -> Parts:
    """Returns the parts of pieces.

    Parameters
    ----------
    uses : list
        For each piece the years of each capacity that it uses.
    shares : list
        What each year has of each capacity; the last one continues.
    """
    found: list[tuple[int, int, float]] = []
    room, year = shares[0], 1
    for piece, use in enumerate(uses):
        left = 1.0
        while left > 0 and year <= MOST_YEARS:
            fits = min([left, *(max(free, 0.0) / used for free, used in zip(room, use) if used > 0)])
            if all(left * used <= free + HAIR for free, used in zip(room, use)):
                fits = left
            found.append((piece, year, fits))
            room = [free - fits * used for free, used in zip(room, use)]
            left -= fits
            if left > 0:
                room, year = shares[min(year, len(shares) - 1)], year + 1
    pieces, years, parts = (np.array(column) for column in zip(*found))
    whole = shares[min(year, len(shares)) - 1]
    used = max([(most - free) / most for most, free in zip(whole, room) if most > 0], default=0.0)
    return Parts(pieces, years, parts, year - 1 + used)


def shares_of(parts: Parts, pieces: int) -> np.ndarray:
    """Returns the share of each piece that is mined in each year, shape (years, pieces)."""
    found = np.zeros((int(parts.year.max()), pieces))
    np.add.at(found, (parts.year - 1, parts.piece), parts.share)
    return found


def money_of(found: Amounts, life: float, project: Project) -> Amounts:
    """Returns the amounts of years with fixed_cost and capex if the project has any, the cash flow after these at the prices of the year, and
    the discounted cash flow. `found` has the cash flow at the base price, and costs that periods multiply, which are left out.
    """
    years = np.arange(1, len(found["cash_flow"]) + 1)
    for name in premiums(project, 1):
        gains = np.array([premiums(project, int(year))[name] for year in years])
        found = {**found, "cash_flow": found["cash_flow"] + found[name] * gains}
    found = {name: amounts for name, amounts in found.items() if name not in differing(project)}
    parts = np.clip(life - (years - 1.0), 0.0, 1.0)
    fixed = np.array([fixed_cost(project, int(year)) for year in years]) * parts
    spent = np.array([capex(project, int(year)) for year in years])
    gain: np.ndarray = found["cash_flow"] - fixed
    of_years = {"fixed_cost": fixed, "capex": spent} if has_costs(project) else {}
    factors = np.array([factor(project, int(year), float(part)) for year, part in zip(years, parts)])
    present = gain * factors - spent * np.array([at_start(project, int(year)) for year in years])
    return {**found, **of_years, "cash_flow": gain - spent, "discounted_cash_flow": present}

"""What periods have of their own: their length, capacities, prices, fixed costs and capital. Unless an entry says otherwise they are years."""

from __future__ import annotations

from fractions import Fraction
from typing import Any, Optional

from .mine import Mine


def period(mine: Mine, year: int) -> dict[str, Any]:
    """The entry of a period, from 1; the last one continues."""
    found: dict[str, Any] = {}
    for found in mine.project.get("periods", []):
        year -= count_of(found)
        if year <= 0:
            return found
    return found


def count_of(entry: dict[str, Any]) -> int:
    """How many periods an entry has."""
    months = entry.get("period_months", 12)
    return int(entry.get("years", max(1, months // 12)) * 12 // months)


def length_of(mine: Mine, year: int) -> Fraction:
    """The length of a period in years."""
    return Fraction(period(mine, year).get("period_months", 12), 12)


def start_of(mine: Mine, year: int) -> Fraction:
    """When a period starts, in years."""
    return sum((length_of(mine, before) for before in range(1, year)), Fraction(0))


def most_of(mine: Mine, year: int) -> list[Fraction]:
    """The capacity of each process in a period."""
    own, length = period(mine, year), length_of(mine, year)
    several = mine.project.get("processes", [])
    if several:
        return [length * Fraction(own.get("capacity", {}).get(it["name"], it["capacity"])) for it in several]
    return [length * Fraction(own.get("processing_capacity", mine.project["shells"]["processing_capacity"]))]


def mining_of(mine: Mine, year: int) -> Optional[Fraction]:
    """The mining capacity of a year; None without one."""
    found = period(mine, year).get("mining_capacity", mine.project["shells"].get("mining_capacity"))
    return None if found is None else length_of(mine, year) * Fraction(found)


def price_of(mine: Mine, metal: dict[str, Any], year: int) -> Any:
    """The price of a metal in a year, in the unit of its price."""
    listed = metal.get("prices") or [metal["price"]]
    return period(mine, year).get("prices", {}).get(metal["name"], listed[min(year, len(listed)) - 1])


def fixed_of(mine: Mine, year: int) -> Fraction:
    of_year = period(mine, year).get("fixed_cost_per_year", mine.project["economics"].get("fixed_cost_per_year", 0))
    return length_of(mine, year) * Fraction(of_year)


def factor_of(mine: Mine, cost: str, year: int) -> Fraction:
    """By how much a cost is multiplied in a year."""
    return Fraction(period(mine, year).get(f"{cost}_factor", 1))


def capex_of(mine: Mine, year: int) -> Fraction:
    """What is spent at the start of a year."""
    found, first = (
        sum((Fraction(amount) for at, amount in mine.project["economics"].get("capex", []) if at == year), Fraction(0)),
        1,
    )
    for it in mine.project.get("periods", []):
        found += Fraction(it.get("capex", 0)) if first == year else 0
        first += count_of(it)
    return found


def years_listed(mine: Mine) -> int:
    """How many years differ."""
    prices = max(len(metal.get("prices", [])) for metal in mine.project["metals"])
    return max(1, prices, sum(count_of(it) for it in mine.project.get("periods", [])))

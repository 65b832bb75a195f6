"""Smelter terms of a metal: what is paid for a recovered unit, what is charged for it, and penalties of a block."""

from __future__ import annotations

from fractions import Fraction
from typing import Any, Callable

from .numbers import UNITS, rounded

PLACES = 12
Metal = dict[str, Any]
# Converts a price to one of a tonne or a gram.
Priced = Callable[[Metal, Any], Fraction]


def sold_by(metal: Metal, process: dict[str, Any]) -> Metal:
    """The metal without its terms in a process that they leave out."""
    named = metal.get("smelter", {}).get("processes", "all")
    if named == "all" or process["name"] in named:
        return metal
    return {key: value for key, value in metal.items() if key != "smelter"}


def paid_share(metal: Metal) -> Fraction:
    """The share of the recovered metal that is paid."""
    terms = metal["smelter"]
    share, less = Fraction(terms.get("payable", 1)), Fraction(terms.get("minimum_deduction", 0))
    if not less:
        return share
    grade = Fraction(terms["concentrate_grade"])
    return min(share, rounded((grade - less) / grade, PLACES))


def dry_tonnes(metal: Metal) -> Fraction:
    """Dry tonnes of concentrate for each recovered unit; 0 where nothing is counted by them."""
    terms = metal["smelter"]
    if not any(terms.get(name) for name in ("treatment_charge", "freight", "penalties")):
        return Fraction(0)
    return rounded(1 / (Fraction(terms["concentrate_grade"]) * UNITS[metal["unit"]]), PLACES)


def paid(metal: Metal, price: Any, priced: Priced) -> Fraction:
    """What a recovered unit earns at a price, before royalty."""
    whole = priced(metal, price)
    return rounded(whole * paid_share(metal), PLACES) if "smelter" in metal else whole


def charged(metal: Metal, price: Any, priced: Priced) -> Fraction:
    """What is charged for a recovered unit at a price: the selling cost, or all but the penalties."""
    if "smelter" not in metal:
        return priced(metal, metal.get("selling_cost", 0))
    terms, share, dry = metal["smelter"], paid_share(metal), dry_tonnes(metal)
    found = rounded(Fraction(terms.get("treatment_charge", 0)) * dry, PLACES)
    found += rounded(share * priced(metal, terms.get("refining_charge", 0)), PLACES)
    found += participation(metal, price, priced)
    wet = Fraction(terms.get("freight", 0)) / (1 - Fraction(terms.get("moisture", 0)))
    return found + rounded(wet * dry, PLACES)


def participation(metal: Metal, price: Any, priced: Priced) -> Fraction:
    """The smelter's share of a price above the base, which it credits below the base unless the terms say above."""
    rule = metal.get("smelter", {}).get("price_participation")
    if rule is None:
        return Fraction(0)
    above = price - rule["base"] if rule.get("applies") != "above" else max(price - rule["base"], 0)
    return rounded(paid_share(metal) * priced(metal, above * rule["share"]), PLACES)


def penalties(metal: Metal, quantity: Fraction, content: Callable[[str], Fraction]) -> Fraction:
    """What a block is charged for other elements, of which `content` is the amount in its feed, by column."""
    found = Fraction(0)
    for rule in metal.get("smelter", {}).get("penalties", []):
        element = content(rule["column"]) * Fraction(rule.get("recovery", 1))
        per, before = Fraction(rule.get("per", 1)), Fraction(0)
        for grade, charge in rule["steps"]:
            allowed = quantity * rounded(Fraction(grade) * dry_tonnes(metal), PLACES)
            if quantity > 0 and element > allowed:
                found += (element - allowed) * rounded((Fraction(charge) - before) / per, PLACES)
            before = Fraction(charge)
    return found

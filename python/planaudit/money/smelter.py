"""Recomputes smelter terms from the tonnes of concentrate: what is paid for recovered metal, what is charged, and penalties of blocks."""

from __future__ import annotations

from decimal import Decimal
from fractions import Fraction

import numpy as np
import pandas as pd

from planaudit.inputs.answer import Answer
from planaudit.inputs.project import GRADE_UNITS, Section
from planaudit.money.prices import converted

TWELVE = 10**12
SELLING, PARTICIPATION, PENALTIES = "selling_cost", "participation", "penalties"


def to_twelve(value: Fraction) -> Decimal:
    """Returns a number with twelve decimals, halves to even."""
    return Decimal(round(value * TWELVE)) / TWELVE


def grade(metal: Section) -> Fraction:
    """Returns the metal in a dry tonne of concentrate, in tonnes or grams."""
    return Fraction(metal["smelter"]["concentrate_grade"]) * Fraction(GRADE_UNITS[metal["unit"]])


def paid_share(metal: Section) -> Decimal:
    """Returns the share of the recovered metal that is paid."""
    terms = metal["smelter"]
    if terms is None:
        return Decimal(1)
    if not terms["minimum_deduction"]:
        return terms["payable"]
    # Of each tonne of concentrate this many units are not paid.
    left = Fraction(terms["concentrate_grade"] or 0) - Fraction(terms["minimum_deduction"])
    return min(terms["payable"], to_twelve(left / Fraction(terms["concentrate_grade"] or 1)))


def dry_tonnes(metal: Section) -> Decimal:
    """Returns the dry tonnes of concentrate per recovered tonne or gram; 0 if no term is per tonne."""
    terms = metal["smelter"]
    if terms is None or not (terms["treatment_charge"] or terms["freight"] or terms["penalties"]):
        return Decimal(0)
    return to_twelve(1 / grade(metal))


def paid(metal: Section, price: Decimal) -> Decimal:
    """Returns what is paid for a recovered tonne or gram, before royalty."""
    whole = converted(metal, price)
    return whole if metal["smelter"] is None else to_twelve(Fraction(paid_share(metal)) * Fraction(whole))


def charged(metal: Section, price: Decimal) -> dict[str, Decimal]:
    """Returns the charges for a recovered tonne or gram, by the beginning of their columns in cash_flow.csv."""
    terms = metal["smelter"]
    if terms is None:
        return {SELLING: converted(metal, metal["selling_cost"])}
    dry, share, found = Fraction(dry_tonnes(metal)), Fraction(paid_share(metal)), {}
    if terms["treatment_charge"]:
        found["treatment_charge"] = to_twelve(dry * Fraction(terms["treatment_charge"]))
    found["refining_charge"] = to_twelve(share * Fraction(converted(metal, terms["refining_charge"])))
    if terms["price_participation"] is not None:
        rule = terms["price_participation"]
        more = (
            rule["share"] * (price - rule["base"]) if price > rule["base"] or rule["applies"] == "both" else Decimal(0)
        )
        found[PARTICIPATION] = to_twelve(share * Fraction(converted(metal, more)))
    if terms["freight"]:
        wet = dry / (1 - Fraction(terms["moisture"]))
        found["freight"] = to_twelve(wet * Fraction(terms["freight"]))
    return found


def charged_as(metal: Section, name: str, price: Decimal) -> Decimal:
    """Returns one of the charges."""
    return charged(metal, price)[name]


def all_charged(metal: Section, price: Decimal) -> Decimal:
    return sum(charged(metal, price).values(), Decimal(0))


def net(metal: Section, price: Decimal, royalty: Decimal) -> Decimal:
    """Returns what a recovered tonne or gram earns at a price, after royalty and charges, without penalties."""
    return paid(metal, price) - paid(metal, price) * royalty - all_charged(metal, price)


def steps_of(terms: Section, number: int) -> list[tuple[Decimal, Decimal]]:
    """Returns the grade from which each step of a penalty applies, and the charge per unit of grade that it adds."""
    penalty, found, last = terms["penalties"][number], [], Decimal(0)
    for limit, amount in penalty["steps"]:
        found.append((limit, to_twelve(Fraction(amount - last) / Fraction(penalty["per"]))))
        last = amount
    return found


def penalty_exactly(metal: Section, quantity: Decimal, contents: list[Decimal]) -> Decimal:
    """Returns the penalties of a block with a recovered quantity, and the content of each penalised element in its undiluted ore."""
    found, terms = Decimal(0), metal["smelter"]
    for number, content in enumerate(contents if terms and quantity > 0 else ()):
        taken = content * terms["penalties"][number]["recovery"]
        for limit, rate in steps_of(terms, number):
            found += max(taken - quantity * to_twelve(Fraction(limit) * Fraction(dry_tonnes(metal))), Decimal(0)) * rate
    return found


def penalties(answer: Answer, metal: Section) -> np.ndarray:
    """Returns the penalties of each block, as if it is processed."""
    return penalties_of(metal, answer.quantities[metal["name"]], answer.rows, answer.undiluted)


def penalties_of(metal: Section, quantity: np.ndarray, rows: pd.DataFrame, undiluted: np.ndarray) -> np.ndarray:
    """Returns the penalties of rows with a recovered quantity: the grade of the concentrate of each against the steps."""
    terms, found = metal["smelter"], np.zeros(len(rows))
    some = np.flatnonzero(quantity > 0)
    for number, penalty in enumerate(terms["penalties"] if terms else ()):
        content = rows[penalty["column"]].to_numpy(dtype=float)[some] * undiluted[some]
        concentrate = quantity[some] * float(dry_tonnes(metal))
        of_concentrate = content * float(penalty["recovery"]) / concentrate
        for limit, rate in steps_of(terms, number):
            found[some] += concentrate * np.maximum(of_concentrate - float(limit), 0.0) * float(rate)
    return found

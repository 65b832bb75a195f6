"""Recomputes mineralised waste: blocks that are waste by their resource class and would pay for their processing as ore."""

from __future__ import annotations

from dataclasses import replace

import numpy as np

from planaudit.inputs import codes
from planaudit.inputs.answer import Answer
from planaudit.money import block_values as money
from planaudit.revenue_factors import BASE_PRICE, PER_MILLE, per_mille

NAME = "mineralised_waste_tonnes"
# Floats decide whether a block pays unless the amounts differ by at most this many units of the last decimal, or this share of the revenue.
UNITS, REL = 2.0, 1e-9


def tonnes_in(answer: Answer, inside: np.ndarray, factor: float = BASE_PRICE) -> dict[str, float]:
    """Returns the tonnes of such blocks among some rows at the cut-off of a revenue factor; nothing without classes."""
    if answer.project.table["class"] is None:
        return {}
    rows = inside[codes.treated_as("waste", answer.rows, answer.project)[inside]]
    price = factor if answer.project.economics["cutoff"] == "per_revenue_factor" else BASE_PRICE
    pays = would_pay(answer, rows, price)
    return {NAME: float(answer.tonnes[rows[pays]].sum())}


def would_pay(answer: Answer, rows: np.ndarray, factor: float) -> np.ndarray:
    """Returns whether each of some rows would pay for its processing at a revenue factor if it were ore."""
    picked, found = answer.rows.iloc[rows].reset_index(drop=True), np.zeros(len(rows), dtype=bool)
    said, ore = answer.said.iloc[rows].reset_index(drop=True), dict.fromkeys(codes_of(answer), "ore")
    for way in answer.project.by_process:
        part = replace(answer, project=replace(way, classes=ore), rows=picked, said=said, found={})
        found |= pays_in(part, factor)
    return found


def codes_of(answer: Answer) -> list[str]:
    return [str(code) for code in answer.rows[str(answer.project.table["class"])].unique()]


def pays_in(part: Answer, factor: float) -> np.ndarray:
    """Returns whether each block pays in its one process: by floats, and by the rounded amounts if these are close."""
    revenue, cost = money.gains_by_floats(part)
    unit = 10.0 ** -part.project.economics["decimals"]
    gain = factor * revenue - cost
    found = gain > 0
    near = np.flatnonzero((revenue > 0) & (np.abs(gain) <= UNITS * unit * max(factor, 1.0) + REL * revenue))
    if not len(near):
        return found
    exactly = money.Exactly.of(part)
    for row in near.tolist():
        _, earned, spent = exactly.amounts(row)
        found[row] = per_mille(factor) * earned > PER_MILLE * spent
    return found

"""Recomputes the costs of ore that factors of periods multiply: processing, and selling or what smelters charge besides price participation."""

from __future__ import annotations

import numpy as np

from planaudit.inputs.answer import Answer
from planaudit.inputs.project import GRADE_UNITS, Project, Section
from planaudit.money import smelter
from planaudit.money.block_values import factors_of
from planaudit.money.feed import by_code, recovered
from planaudit.money.period_costs import BY_TERMS, PROCESSING, SELLING, differing


def charged(metal: Section) -> float:
    """Returns what is charged for a recovered tonne or gram, at any price."""
    return float(
        sum(it for name, it in smelter.charged(metal, metal["price"]).items() if name != smelter.PARTICIPATION)
    )


def charges(answer: Answer) -> dict[str, np.ndarray]:
    """Returns the same by metal and process."""
    ways = answer.project.by_process
    return {
        it["name"]: np.array([charged(way.metals[k]) for way in ways]) for k, it in enumerate(answer.project.metals)
    }


def of_blocks(answer: Answer) -> dict[str, np.ndarray]:
    """Returns each cost that differs between periods of whole blocks in each process, shape (processes, rows), and the metal that each sells by
    smelter terms of some processes, if its price differs; 0 without a revenue there."""
    names, found = differing(answer.project), {}
    if PROCESSING in names:
        adjusted = factors_of(answer, answer.project.economics["pcaf"]) * answer.feed
        costs = (by_code(way.economics["processing_cost"], answer.rows, way.table) for way in answer.project.by_process)
        found[PROCESSING] = np.stack([cost * adjusted for cost in costs])
    if SELLING in names:
        found[SELLING] = np.stack([selling(answer, number) for number in range(len(answer.project.by_process))])
    for number, metal in enumerate(answer.project.metals):
        if f"{BY_TERMS}{metal['name']}" in names:
            ways = answer.project.by_process
            found[f"{BY_TERMS}{metal['name']}"] = np.stack([by_terms(answer, way, number) for way in ways])
    takes = [answer.said[revenue].to_numpy() > 0 for revenue, _ in answer.amounts_of_ways]
    return {name: found[name] * np.stack(takes) for name in names}


def by_terms(answer: Answer, way: Project, number: int) -> np.ndarray:
    """Returns what a process recovers of a metal, by number, if it sells it to the smelter."""
    metal = way.metals[number]
    quantity = recovered(metal, answer.rows, way) * answer.undiluted * float(GRADE_UNITS[metal["unit"]])
    return quantity * (metal["smelter"] is not None)


def selling(answer: Answer, process: int) -> np.ndarray:
    """Returns what selling the metals of whole blocks costs in a process, penalties included."""
    way, found = answer.project.by_process[process], np.zeros(len(answer.rows))
    for metal in way.metals:
        quantity = recovered(metal, answer.rows, way) * answer.undiluted * float(GRADE_UNITS[metal["unit"]])
        found += quantity * charged(metal) + smelter.penalties_of(metal, quantity, answer.rows, answer.undiluted)
    return found


def at_best(answer: Answer) -> dict[str, np.ndarray]:
    """Returns the same of blocks of ore in their best process, shape (rows,)."""
    return {
        name: np.where(answer.ore, np.choose(answer.process, list(costs)), 0.0)
        for name, costs in of_blocks(answer).items()
    }

"""Verifies haul distances by geometry, and haulage costs: by floats for all blocks, and by exact decimals for a sample."""

from __future__ import annotations

import math
from decimal import ROUND_HALF_EVEN, Decimal

import numpy as np

from planaudit.inputs.answer import Answer
from planaudit.inputs.matching import HAULED
from planaudit.inputs.project import Section
from planaudit.inputs.rotated_grid import places_of
from planaudit.rules import TOLD, Rule, rule

ROAD, WASTE, MORE = HAULED
# Metres; haul distances are rounded to a millimetre.
SLIGHT = 0.51e-3


def verify(answer: Answer, chosen: np.ndarray) -> Rule:
    """Verifies haul distances to a millimetre and haulage costs, those of the chosen rows exactly."""
    rules = answer.project.haulage
    if rules is None:
        return rule("haulage", "the project has no haulage", [])
    told, expected = answer.said[ROAD].to_numpy(), lengths(answer, rules)
    off = np.flatnonzero(~(np.abs(told - expected) <= SLIGHT + 1e-9))
    differences = [
        f"{answer.called(row)}: haul_distance {told[row]:.10g} for {expected[row]:.10g}" for row in off[:TOLD]
    ]
    count, unit = len(off), Decimal(1).scaleb(-answer.project.economics["decimals"])
    for name, tonnes, kinds in (
        (WASTE, answer.tonnes, (rules["waste"],)),
        (MORE, answer.feed, (rules["ore"], rules["waste"])),
    ):
        said, due = answer.said[name].to_numpy(), tonnes * rate(told, *kinds)
        far = np.flatnonzero(~(np.abs(said - due) <= 0.51 * float(unit) + 1e-12 * np.abs(due)))
        differences += [f"{answer.called(row)}: {name} {said[row]:.10g} for {due[row]:.10g}" for row in far[:TOLD]]
        count += len(far)
    for row in chosen.tolist() if not count else []:
        due_exactly = Decimal(repr(float(answer.tonnes[row]))) * a_tonne(told[row], rules["waste"])
        if not math.isclose(
            float(due_exactly.quantize(unit, ROUND_HALF_EVEN)), answer.said[WASTE].iloc[row], rel_tol=1e-15
        ):
            differences.append(f"{answer.called(row)}: {WASTE} {answer.said[WASTE].iloc[row]:.10g} for {due_exactly}")
    holds = "haul distances are right to a millimetre, and haulage costs follow from them"
    return rule("haulage", holds, differences, max(count, len(differences)))


def lengths(answer: Answer, rules: Section) -> np.ndarray:
    """Returns the haul distance of each row in metres: in plan from the centroid to the exit, and the ramp from the floor of its bench."""
    grid = answer.record["grid"]
    level, row, column = answer.cells
    x, y = places_of(np.stack([column, row], axis=1), grid).T
    floor = grid["origin"][2] - (level + 0.5) * grid["size"][2]
    away = np.sqrt((x - float(rules["pit_exit"][0])) ** 2 + (y - float(rules["pit_exit"][1])) ** 2)
    return away + np.abs(float(rules["pit_exit"][2]) - floor) / float(rules["ramp_gradient"])


def rate(metres: np.ndarray, road: Section, less: Section | None = None) -> np.ndarray:
    """Returns the haulage cost per tonne over distances to the exit and beyond, less that of another material."""
    cost = float(road["cost"]) / 1000 * (metres + float(road["ex_pit_distance"]))
    return cost if less is None else cost - rate(metres, less)


def a_tonne(metres: float, road: Section) -> Decimal:
    return road["cost"] / 1000 * (Decimal(repr(float(metres))) + road["ex_pit_distance"])


def roads_of(answer: Answer, rules: Section) -> np.ndarray:
    """Returns the haul distances of the folder, which `verify` checks; if it has none those by geometry, to a millimetre."""
    return answer.said[ROAD].to_numpy() if ROAD in answer.said else lengths(answer, rules).round(3)

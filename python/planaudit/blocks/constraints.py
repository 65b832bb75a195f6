"""Verifies must-mine and excluded blocks, and the cells of blocks."""

from __future__ import annotations

import numpy as np
import pandas as pd

from planaudit.blocks import own_columns
from planaudit.ground import depletion
from planaudit.inputs import surveys as survey
from planaudit.inputs.answer import Answer
from planaudit.inputs.project import Section
from planaudit.revenue_factors import factor_text
from planaudit.rules import TOLD, Rule, rule

# Metres; a centroid this close to the edge of an area may lie on either side.
HAIR = 1e-6


def verify(answer: Answer) -> Rule:
    """Verifies that every must-mine block is in every shell, and no excluded block in any."""
    rules, first = answer.project.constraints, answer.said["revenue_factor"].to_numpy()
    if rules is None:
        return rule("constraints", "the project has no constraints", [])
    must, never = demanded(answer, rules)
    left = np.flatnonzero(must & (first != min(answer.factors)))
    mined = np.flatnonzero(never & (first > 0))
    differences = [
        f"{answer.called(row)} is must-mine, and is mined from revenue factor {factor_text(first[row])}"
        for row in left[:TOLD]
    ]
    differences += [
        f"{answer.called(row)} is excluded, and is mined from revenue factor {factor_text(first[row])}"
        for row in mined[:TOLD]
    ]
    ground = ", with the mined-out blocks," if rules["as_mined"] else ""
    holds = f"must-mine blocks{ground} are in every shell, and excluded blocks in none"
    return rule("constraints", holds, differences, len(left) + len(mined))


def demanded(answer: Answer, rules: Section) -> tuple[np.ndarray, np.ndarray]:
    """Returns masks of must-mine and excluded blocks, shape (rows,)."""
    if "constraints" not in answer.found:
        rock = answer.tonnes > 0
        must, never = marked(answer, rules["must_mine"]) & rock, marked(answer, rules["exclude"])
        if rules["as_mined"] is not None:
            must = must | depletion.surely_mined(answer, rules)
        for area in rules["areas"]:
            never = never | within(answer, survey.polygons(area["polygon"]), area["exclude"] == "inside")
        answer.found["constraints"] = must, never & rock
    return answer.found["constraints"]


def marked(answer: Answer, column: str | None) -> np.ndarray:
    return np.zeros(len(answer.rows), dtype=bool) if column is None else answer.rows[column].to_numpy() > 0


def within(answer: Answer, polygons: list[list[np.ndarray]], inside: bool) -> np.ndarray:
    """Returns whether the centroid of each block lies in a polygon, or outside all; False at the edge of one."""
    columns = answer.project.table
    centres, place = np.unique(answer.rows[[columns["x"], columns["y"]]].to_numpy(), axis=0, return_inverse=True)
    surely, perhaps = (np.zeros(len(centres), dtype=bool) for _ in range(2))
    for outline, *holes in polygons:
        (narrow, wide), cut = in_ring(centres, outline), [in_ring(centres, hole) for hole in holes]
        surely |= narrow & ~np.logical_or.reduce([wide for _, wide in cut], initial=False)
        perhaps |= wide & ~np.logical_or.reduce([narrow for narrow, _ in cut], initial=False)
    return surely[place] if inside else ~perhaps[place]


def in_ring(centres: np.ndarray, corners: np.ndarray) -> tuple[np.ndarray, np.ndarray]:
    """Returns which centroids lie in a ring, without those at its edge and with them."""
    # Here, since it takes a third of a second and few projects have areas.
    from matplotlib.path import Path as Outline

    middle = corners.mean(axis=0)
    outline = Outline(corners - middle)
    one, other = (outline.contains_points(centres - middle, radius=radius) for radius in (-HAIR, HAIR))
    # Depending on the orientation of the ring either is the wider.
    return one & other, one | other


def verify_places(answer: Answer) -> Rule:
    """Verifies that each block is in a cell of its own, at its centre, with the id of the cell and the planner's fields, and that revenue factors
    are those of the project."""
    rules, (differences, count) = answer.project.grid, own_columns.unlike(answer)
    tolerance = rules["tolerance"]
    if rules["azimuth"] is not None and rules["azimuth"] != answer.azimuth:
        differences.append(f"grid north has azimuth {answer.azimuth:.10g} for {rules['azimuth']:.10g} of the project")
        count += 1
    if told := unlike_top(answer):
        differences.append(told)
        count += 1
    for steps, cell, size in zip(answer.steps, answer.cells[::-1], answer.size):
        off = np.abs(steps - cell) * size
        far = np.flatnonzero(off > tolerance + 1e-6)
        differences += [f"{answer.called(row)} lies {off[row]:.4g} m off its cell" for row in far[:TOLD]]
        count += len(far)
    number = np.ravel_multi_index(answer.cells, answer.shape, mode="clip")
    wrong = np.flatnonzero(number != answer.said["id"].to_numpy())
    differences += [
        f"{answer.called(row)} has the id {answer.said['id'].iloc[row]} for {number[row]}" for row in wrong[:TOLD]
    ]
    strange = unknown(answer.said["revenue_factor"].to_numpy(), [0, *answer.factors])
    differences += [
        f"{answer.called(row)} has the revenue factor {factor_text(answer.said['revenue_factor'].iloc[row])}"
        for row in strange[:TOLD]
    ]
    count += len(wrong) + len(strange)
    return rule(
        "blocks",
        "every block of the table is in the results, in its own cell and with the fields of the table",
        differences,
        count,
    )


def unknown(values: np.ndarray, known: list[float]) -> np.ndarray:
    """Returns the rows with another value than those that are known."""
    place, distinct = pd.factorize(values)
    is_known = {*known}
    return np.flatnonzero(np.array([value not in is_known for value in distinct.tolist()], dtype=bool)[place])


def unlike_top(answer: Answer) -> str:
    """Returns a difference if the highest level of the grid is not that of the highest row of the table, air and removed rows included; otherwise
    an empty text."""
    column, highest = answer.project.table["z"], answer.elevations[0]
    found = max(float(rows[column].max()) for rows in (answer.rows, answer.beyond) if rows is not None)
    is_same = round((found - highest) / answer.size[2]) == 0
    return "" if is_same else f"the highest level of the grid is at {highest:.10g} m, that of the table at {found:.10g}"

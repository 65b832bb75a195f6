"""Verifies blocks that an as-mined surface cuts: their tonnes lie below the original ground and the surface, and mined blocks are must-mine
blocks. By volumes if the original ground is known, otherwise by centroids."""

from __future__ import annotations

from typing import Optional

import numpy as np

from planaudit.ground import surface_by_centres as surface, topography
from planaudit.ground.topography import ACROSS, EXACTLY, GRAM, HAIR, MANY, MISSED, Ground, some, told
from planaudit.inputs.answer import Answer
from planaudit.inputs.matching import UNCUT
from planaudit.inputs.project import Section
from planaudit.rules import Rule, rule

# From this share of its volume on a block counts as mined.
MINED = 0.05


def original_of(answer: Answer) -> Optional[Section]:
    rules = answer.project.constraints
    return answer.project.table["topography"] or (rules["topography"] if rules else None)


def verify_cuts(answer: Answer) -> list[Rule]:
    """Verifies the tonnes that an as-mined surface, or otherwise a topography, leaves; no rule if the project has neither."""
    rules = answer.project.constraints
    if rules and rules["as_mined"]:
        return [verify(answer, rules)]
    return [topography.verify(answer)] if answer.project.table["topography"] else []


def verify(answer: Answer, rules: Section) -> Rule:
    """Verifies the tonnes of blocks in sampled columns."""
    original = original_of(answer)
    if original is None:
        return verify_by_centres(answer, rules["as_mined"])
    before, after = answer.rows[UNCUT].to_numpy(), answer.tonnes
    differences = told(answer, (after < 0) | (after > before + GRAM), before)
    for exactly, missed in ((False, MISSED), (True, HAIR)):
        whole, left = shares(answer, original, rules["as_mined"], exactly)
        # The table has the tonnes of whole blocks, or those below the original ground.
        due, of = before * left, 1.0 if answer.project.table["topography"] else whole
        differences += told(answer, np.abs(after * of - due) > 2 * GRAM + missed * before, due)
    where = f"in {EXACTLY:,} columns of blocks at most exactly, in {MANY:,} at most by {ACROSS**2} heights to a tenth"
    return rule("as mined", f"tonnes lie below the original ground and the as-mined surface, {where}", differences)


def verify_by_centres(answer: Answer, file: Section) -> Rule:
    """Verifies that blocks above the surface have no tonnes, and the others those of the table or none."""
    before, after = answer.rows[UNCUT].to_numpy(), answer.tonnes
    wrong = (surface.above(answer, file) & (after != 0)) | ((after != 0) & (np.abs(after - before) > GRAM))
    differences = told(answer, wrong, np.where(surface.above(answer, file), 0.0, before))
    return rule(
        "as mined",
        "blocks with centroids above the as-mined surface have no tonnes, and others those of the table",
        differences,
    )


def shares(answer: Answer, original: Section, mined: Section, exactly: bool) -> tuple[np.ndarray, np.ndarray]:
    """Returns the share of each block below the original ground, and below both surfaces, shape (rows,); nan in columns that are not sampled."""
    level, row, column = answer.cells
    places, place = np.unique(np.stack([row, column], axis=1), axis=0, return_inverse=True)
    numbers = some(len(places), EXACTLY if exactly else MANY)
    at = np.full(len(places), -1)
    at[numbers] = np.arange(len(numbers))
    grounds = (Ground.of(answer, file) for file in (original, mined))
    whole, below = (
        ground.exactly(places[numbers]) if exactly else ground.quickly(places[numbers]) for ground in grounds
    )
    up = answer.shape[0] - 1 - level
    whole, left = (
        np.where(at[place] >= 0, share[at[place], up], np.nan) for share in (whole, np.minimum(whole, below))
    )
    return whole, left


def surely_mined(answer: Answer, rules: Section) -> np.ndarray:
    """Returns whether so much of each block is mined that it is a must-mine block in spite of the sampling error, shape (rows,)."""
    original, rock = original_of(answer), answer.rows[UNCUT].to_numpy() > 0
    if original is None:
        return np.asarray(surface.above(answer, rules["as_mined"]) & rock)
    whole, left = shares(answer, original, rules["as_mined"], exactly=False)
    return np.asarray((np.nan_to_num(whole - left) > MINED + MISSED) & rock)

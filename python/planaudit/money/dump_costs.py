"""Recomputes what blocks cost as waste: in the cheapest of the dumps that accept them."""

from __future__ import annotations

import numpy as np

from planaudit.inputs.answer import Answer
from planaudit.inputs.codes import refused


def as_waste(answer: Answer) -> np.ndarray:
    """Returns the cost of each whole block in its cheapest dump, shape (rows,); 0 without dumps, or if none accepts it."""
    found = np.full(len(answer.rows), np.inf)
    for it in answer.project.dumps:
        is_open = ~refused(answer.rows, answer.project, it["accepts"])
        found[is_open] = np.minimum(found[is_open], it["cost"])
    return np.where(np.isinf(found), 0.0, found) * answer.tonnes

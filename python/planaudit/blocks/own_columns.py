"""Verifies the planner's own columns in blocks.csv: each field is that of the table."""

from __future__ import annotations

import numpy as np

from planaudit.inputs import identifiers
from planaudit.inputs.answer import Answer
from planaudit.inputs.matching import UNCUT
from planaudit.rules import TOLD

# Relative tolerance; numbers are written with at least 15 digits.
DIGITS = 1e-14


def unlike(answer: Answer) -> tuple[list[str], int]:
    """Returns the first ten differences of each column, and their number. Other rules verify cut tonnes, reblocked rows and filled blocks."""
    differences, count = [], 0
    for name in answer.rows.columns.drop(UNCUT, errors="ignore"):
        if name not in answer.own:
            return [f"the file of blocks has no column {name}"], 1
        columns = answer.own[name], answer.rows[name]
        said, due = identifiers.comparable(*columns)
        off = np.flatnonzero(said != due)
        if due.dtype.kind in "if":
            off = off[~np.isclose(said[off], due[off], rtol=DIGITS, atol=0.0)]
        shown = [(row, *(column.iloc[row] for column in columns)) for row in off[:TOLD]]
        differences += [f"{answer.called(row)}: {name} {there} for {here}" for row, there, here in shown]
        count += len(off)
    return differences, count

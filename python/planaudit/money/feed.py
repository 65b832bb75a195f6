"""Recomputes the mill feed of blocks: mining recovery, dilution, and recovered metal."""

from __future__ import annotations

from collections.abc import Mapping
from decimal import Decimal
from fractions import Fraction
from typing import Any

import numpy as np
import pandas as pd

from planaudit.inputs import codes
from planaudit.inputs.codes import refused, treated_as
from planaudit.inputs.project import Project, Section

# A recovery this close to a half, in millionths, is computed exactly.
NEAR = 1e-3
NOTHING: codes.Codes = {}


def by_code(value: Any, rows: pd.DataFrame, columns: Section, known: codes.Codes = NOTHING) -> np.ndarray:
    """Returns a number per row by its rock type or domain, shape (rows,); 0 if the code has none. `known` has codes that are numbered."""
    if isinstance(value, Decimal):
        return np.full(len(rows), float(value))
    column, amounts = (columns["domain"], value["domain"]) if is_by_domain(value) else (columns["rock_type"], value)
    of_rows = known.get(str(column)) or codes.numbered(rows[column])
    return codes.valued(of_rows, lambda code: float(amounts.get(code, 0)))


def of_code(value: Any, rock: str, domain_code: str) -> Decimal:
    """Returns the number of a block of these codes; 0 if they have none."""
    if isinstance(value, Decimal):
        return value
    amounts, code = (value["domain"], domain_code) if is_by_domain(value) else (value, rock)
    return Decimal(amounts.get(code, 0))


def is_by_domain(value: Any) -> bool:
    """Whether numbers are by domain, as in `{ domain = { west = 0.04 } }`, and not by rock type."""
    return isinstance(value, Mapping) and isinstance(value.get("domain"), Mapping)


def recovered(metal: Section, rows: pd.DataFrame, project: Project, known: codes.Codes = NOTHING) -> np.ndarray:
    """Returns the recovered grade of each row per undiluted tonne that reaches the mill, in the unit of the column; 0 of a row that is waste by its
    resource class, or that the process does not accept. `known` has codes that are numbered."""
    grades, table = rows[metal["column"]].to_numpy(), project.table
    grades = np.where(treated_as("waste", rows, project) | refused(rows, project, project.accepts), 0.0, grades)
    tonnes_of = 1 + by_code(project.economics["dilution"], rows, table, known)
    place, rocks = np.zeros(len(rows), dtype=np.int64), [""]
    if table["rock_type"]:
        place, rocks = known.get(table["rock_type"]) or codes.numbered(rows[table["rock_type"]])
    shares = [
        metal["recovery"].get(code) if isinstance(metal["recovery"], dict) else metal["recovery"] for code in rocks
    ]
    share = np.array([0.0 if it is None or isinstance(it, tuple) else float(it) for it in shares])[place]
    for number, (code, recovery) in enumerate(zip(rocks, shares)):
        if not isinstance(recovery, tuple):
            continue
        mine = np.flatnonzero(place == number)
        share[mine], close = by_grade(recovery, grades[mine] / tonnes_of[mine])
        for row in mine[close].tolist():
            whole = 1 + of_code(
                project.economics["dilution"], code, str(rows[table["domain"]].iloc[row]) if table["domain"] else ""
            )
            share[row] = float(at_grade(recovery, Fraction(repr(float(grades[row]))) / Fraction(whole)))
    return np.maximum(grades - by_code(metal["tail_grade"], rows, table, known) * tonnes_of, 0.0) * share


def by_grade(recovery: Any, head: np.ndarray) -> tuple[np.ndarray, np.ndarray]:
    """Returns recoveries at head grades, to a millionth if they depend on these, and whether each is near a half."""
    if not isinstance(recovery, tuple):
        return np.full(len(head), float(recovery)), np.zeros(len(head), dtype=bool)
    parts = 1e6 * np.interp(head, *np.array(recovery, dtype=np.float64).T)
    return np.rint(parts) / 1e6, np.abs(parts - np.floor(parts) - 0.5) < NEAR


def at_grade(recovery: Any, head: Fraction) -> Decimal:
    """Returns the exact recovery at a head grade, to a millionth if it depends on that."""
    if not isinstance(recovery, tuple):
        return recovery
    points = [(Fraction(grade), Fraction(share)) for grade, share in recovery]
    ahead = next((k for k, (grade, _) in enumerate(points) if head <= grade), len(points))
    if ahead in (0, len(points)):
        share = points[min(ahead, len(points) - 1)][1]
    else:
        (low, first), (high, last) = points[ahead - 1 : ahead + 1]
        share = first + (last - first) * (head - low) / (high - low)
    return Decimal(round(share * 10**6)).scaleb(-6)

"""The limits on head grades by process and period, by the amounts that are at most 0."""

from __future__ import annotations

from dataclasses import dataclass
from typing import Optional

import numpy as np
import pandas as pd

from planaudit.inputs.project import Project, Section, limit_key


@dataclass(frozen=True)
class GradeLimit:
    """A limit on a head grade where it is the same.

    name      the amount: the content above a maximum, or below a minimum
    shown     the same as limits.csv has it, without the grade
    process   the name of the process
    column    the column with the grade, or the key of [table] for codes
    sign      1 for a maximum, -1 for a minimum
    grade     its value
    code      the code whose share of the feed is limited; None: a grade is
    """

    name: str
    shown: str
    process: str
    column: str
    sign: float
    grade: float
    code: Optional[str] = None

    def content(self, rows: pd.DataFrame, project: Project, undiluted: np.ndarray, feed: np.ndarray) -> np.ndarray:
        """Returns what rows of the table, with tonnes of feed, add to the content of a grade, or to the tonnes of a code."""
        if self.code is None:
            return np.asarray(rows[self.column].to_numpy(dtype=float) * undiluted)
        return np.where(codes_of(rows, project, self.column) == self.code, feed, 0.0)


def grade_limits(project: Project) -> list[GradeLimit]:
    """Returns the limits of all processes: one for each value that some period has."""
    count, found = max(1, project.calendar.count), []
    for limit in project.feed_grades:
        for side, sign in (("max", 1.0), ("min", -1.0)):
            by_period = project.grades_by_period(limit, side, count)
            shown = grade_name(limit, side)
            for grade in dict.fromkeys(it for it in by_period if it is not None):
                name = shown if all(it == grade for it in by_period) else f"{shown}@{grade:.10g}"
                found.append(GradeLimit(name, shown, limit["process"], limit["column"], sign, grade, limit["code"]))
    return found


def most_of(project: Project, limit: GradeLimit, years: int) -> np.ndarray:
    """Returns the most of a limit's amount in each period: 0 where it applies, otherwise infinite."""
    side = "max" if limit.sign > 0 else "min"
    given = [it for it in project.feed_grades if limit_key(it) == (limit.process, limit.column, limit.code)][0]
    applies = [grade == limit.grade for grade in project.grades_by_period(given, side, years)]
    return np.where(applies, 0.0, np.inf)


def grade_name(limit: Section, side: str) -> str:
    """Returns the name of a limited head grade, such as grade_mill_as_ppm_max."""
    return "_".join(["grade", *(word for word in limit_key(limit) if word), side])


def codes_of(rows: pd.DataFrame, project: Project, key: str) -> np.ndarray:
    """Returns the codes of rows by the key of [table] that names their column."""
    return np.asarray(rows[project.table[key]].astype(str).to_numpy())

"""Head grades of the feed of processes in a schedule by block, from the blocks."""

from __future__ import annotations

from collections.abc import Callable, Iterator
from dataclasses import dataclass
from typing import Any

import numpy as np
import pandas as pd

from planaudit.inputs.answer import Answer
from planaudit.inputs.project import Section, limit_key
from planaudit.schedules.grade_limits import GradeLimit, codes_of, grade_limits, grade_name, most_of
from planaudit.schedules.limits import Shares, shares_of

CASE = "block"
# Tolerance of limits, as a share of them, of a grade of nothing as a difference of sums, and of the last decimal place of a grade.
LOOSE, HAIR, GRADE = 1e-8, 1e-12, 0.6e-6


@dataclass(frozen=True)
class Graded:
    """A limited head grade.

    Attributes
    ----------
    limit : Section
    process : int
        The number of the process.
    sides : tuple of GradeLimit
        Its limits, one for each value that some period has.
    content, feed : array, shape (rows,)
        What each block adds to them in the process, by its share.
    pays : bool array, shape (rows,)
        Whether it has a revenue there.
    """

    limit: Section
    process: int
    sides: tuple[GradeLimit, ...]
    content: np.ndarray
    feed: np.ndarray
    pays: np.ndarray

    @property
    def called(self) -> str:
        return "_".join(word for word in limit_key(self.limit) if word)

    def excess(self) -> Iterator[tuple[str, np.ndarray]]:
        """Yields each limit and the content of blocks above the maximum or below the minimum; without revenue never below 0."""
        for side in self.sides:
            found = side.sign * (self.content - side.grade * self.feed)
            yield side.name, np.where(self.pays, found, np.maximum(found, 0.0))


def graded(answer: Answer, shares: Shares) -> Iterator[Graded]:
    """Yields the limited head grades of blocks that go to processes in these shares."""
    revenues, limits = [revenue for revenue, _ in answer.amounts_of_ways], grade_limits(answer.project)
    for limit in answer.project.feed_grades:
        sides = tuple(it for it in limits if it.shown in (grade_name(limit, "max"), grade_name(limit, "min")))
        number = next(number for number, (name, _) in enumerate(shares) if name == limit["process"])
        share = shares[number][1]
        if limit["code"] is None:
            content = np.asarray(answer.rows[limit["column"]].to_numpy(), dtype=float) * answer.undiluted
        else:
            content = np.where(
                codes_of(answer.rows, answer.project, limit["column"]) == limit["code"], answer.feed, 0.0
            )
        yield Graded(
            limit, number, sides, share * content, share * answer.feed, (answer.said[revenues[number]] > 0).to_numpy()
        )


def limits_of(answer: Answer) -> dict[str, float]:
    """Returns the limited head grades by name."""
    return {it.name: it.grade for it in grade_limits(answer.project)}


def most_of_years(answer: Answer, years: int) -> dict[tuple[str, int], float]:
    """Returns the most of the content above each maximum, or below each minimum, by name and year from 1: 0, and infinite in other periods."""
    found = dict[tuple[str, int], float]()
    for limit in grade_limits(answer.project):
        of_years = most_of(answer.project, limit, years)
        found |= {(limit.name, year): float(most) for year, most in enumerate(of_years, 1)}
    return found


def differences(answer: Answer, told: dict[str, Any], used: Callable[[str], pd.Series]) -> list[str]:
    """Returns years whose head grades are beyond a limit or are not those of years.csv, and limits that the record does not have; `used` returns by year
    what is used of the excess of a limit, or as `feed K` by a process."""
    assert answer.years is not None
    expected = limits_of(answer)
    found = (
        [] if told.get("feed", {}) == expected else [f"head grades are recorded as {told.get('feed')} for {expected}"]
    )
    said = answer.years[answer.years["case"] == CASE].set_index("year")
    for it in graded(answer, shares_of(answer)):
        feed, first = used(f"feed {it.process}"), it.sides[0]
        content = first.sign * used(first.name) + first.grade * feed
        of_years = [answer.project.grades_by_period(it.limit, side, told["years"]) for side in ("min", "max")]
        for number in feed.index[feed > 0]:
            grade, (low, high) = content[number] / feed[number], (side[number - 1] for side in of_years)
            least, most = low or 0.0, np.inf if high is None else high
            if not least * (1 - LOOSE) - HAIR <= grade <= most * (1 + LOOSE) + HAIR:
                found.append(f"year {number}: head grade {it.called} {grade:.10g}, limits {least:.10g} and {most:.10g}")
            written = float(said[f"head_grade_{it.called}"].get(number, np.nan))
            if not abs(written - grade) <= GRADE + 1e-9 * abs(grade):
                found.append(f"year {number}: head_grade_{it.called} {written:.10g} for {grade:.10g}")
    return found

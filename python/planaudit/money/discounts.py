"""Discount factors of periods."""

from __future__ import annotations

import math
from typing import Any

import numpy as np

from planaudit.inputs.project import Project


def factor(project: Project, number: int, part: float = 1.0, rate: Any = None) -> Any:
    """Returns the discount factor of cash that flows in the first part of a period, from 1, at the project's rate, or at another, or several.

    By year it flows at the end or the middle of each year, or of the period if that is shorter; in several years as much in each.
    """
    calendar, discounting = project.calendar, project.shells["discounting"]
    rate = project.shells["discount_rate"] if rate is None else rate
    start, length, growth = calendar.end(number - 1), calendar.length(number), 1 + rate
    if discounting == "continuous":
        return mean(start, start + part * length, rate)
    late = 0.5 if discounting == "mid_year" else 0.0
    if length <= 1:
        return growth ** -(start + (1 - late) * length)
    shares = [min(1.0, part * length - year) for year in range(math.ceil(part * length))] or [1.0]
    return sum(share * growth ** -(start + year + 1 - late) for year, share in enumerate(shares)) / sum(shares)


def mean(start: float, end: float, rate: Any) -> Any:
    """Returns the mean of (1 + rate)^-t for t from start to end, at a rate or at several."""
    if end - start < 1e-9:
        return (1 + rate) ** -end
    if np.ndim(rate):
        return np.where(rate == 0, 1.0, mean_above(start, end, np.where(rate == 0, 1.0, rate)))
    return 1.0 if rate == 0 else mean_above(start, end, rate)


def mean_above(start: float, end: float, rate: Any) -> Any:
    return ((1 + rate) ** -start - (1 + rate) ** -end) / (np.log(1 + rate) * (end - start))


def at_start(project: Project, number: int) -> float:
    """Returns the discount factor of cash at the start of a period."""
    return (1 + project.shells["discount_rate"]) ** -project.calendar.end(number - 1)

"""The capacities of the years of pit-by-pit analysis."""

from __future__ import annotations

import math
from typing import NamedTuple

import numpy as np

from planaudit.inputs.project import Project


class Capacity(NamedTuple):
    """What benches use of a capacity in years, shape (benches,), and what each year has of it; the last year continues."""

    uses: np.ndarray
    shares: np.ndarray


class Wait(NamedTuple):
    """Capacities that a year may use up: `uses` of shape (benches, capacities), `shares` of shape (years, capacities)."""

    uses: np.ndarray
    shares: np.ndarray

    @staticmethod
    def of(found: list[Capacity]) -> "Wait":
        years = np.arange(max(len(it.shares) for it in found))
        shares = [it.shares[np.minimum(years, len(it.shares) - 1)] for it in found]
        return Wait(np.column_stack([it.uses for it in found]), np.column_stack(shares))


def capacities(project: Project) -> np.ndarray:
    """Returns the yearly capacity of each process by [shells] or [[processes]]."""
    return np.array([process["capacity"] for process in project.processes] or [project.shells["processing_capacity"]])


def years_listed(project: Project) -> range:
    return range(1, 1 + max(1, project.calendar.count))


def capacities_by_year(project: Project) -> np.ndarray:
    """Returns the capacity of each process in each listed period, shape (periods, processes); the last one continues."""
    found = []
    for year in years_listed(project):
        period = project.calendar.period(year)
        if project.processes:
            own = {} if period is None else period["capacity"]
            found.append([own.get(process["name"], process["capacity"]) for process in project.processes])
        else:
            given = None if period is None else period["processing_capacity"]
            found.append([project.shells["processing_capacity"] if given is None else given])
    return np.array(found, dtype=float) * project.calendar.lengths(len(found))[:, None]


def mining_by_year(project: Project) -> np.ndarray:
    """Returns the mining capacity of each listed period, infinite without one; the last one continues."""
    base = math.inf if project.shells["mining_capacity"] is None else project.shells["mining_capacity"]
    periods = [project.calendar.period(year) for year in years_listed(project)]
    found = [base if it is None or it["mining_capacity"] is None else it["mining_capacity"] for it in periods]
    return np.array(found) * project.calendar.lengths(len(found))

"""The periods of a schedule: how many there are, and the limits that `[[periods]]` sets for them."""

from __future__ import annotations

from typing import Any, Optional

import numpy as np

from planaudit.inputs.project import Project, Section

# A stockpile or a dump without limits in a period.
UNLIMITED: Section = {"min": None, "max": None}


def period_of(project: Project, year: int) -> Section:
    found: Optional[Section] = project.calendar.period(year)
    assert found is not None
    return found


def counted(record: dict[str, Any], project: Project) -> dict[str, Any]:
    """Returns the record of a schedule, or of one of its methods, in which `years` is the number of periods. Raises ValueError if its years are
    not those of its periods."""
    count = record.get("periods", record["years"])
    if project.calendar.word == "period" and abs(project.calendar.end(count) - record["years"]) > 1e-5:
        raise ValueError(f"{count} periods last {project.calendar.end(count):.10g} years, not {record['years']}")
    return record | {"years": count}


def maxima_of_periods(project: Project, years: int) -> dict[str, np.ndarray]:
    """Returns the maximum per year, in each period, of each amount whose capacity some period sets."""
    rules, shells, periods = project.schedule, project.shells, project.calendar.periods
    numbers, found = range(1, years + 1), {}
    if any(period["mining_capacity"] is not None for period in periods):
        base = (rules and rules["mining_capacity"]) or shells["mining_capacity"]
        found["total_tonnes"] = given([period_of(project, year)["mining_capacity"] for year in numbers], base)
    if any(period["processing_capacity"] is not None for period in periods):
        base = (rules and rules["processing_capacity"]) or shells["processing_capacity"]
        found["feed_tonnes"] = given([period_of(project, year)["processing_capacity"] for year in numbers], base)
    if any(period["capacity"] for period in periods):
        of_processes = {
            f"feed_tonnes_{it['name']}": given(
                [period_of(project, year)["capacity"].get(it["name"]) for year in numbers], it["capacity"]
            )
            for it in project.processes
        }
        found |= of_processes
    return found


def capacities_of_feed(project: Project) -> dict[str, float]:
    """Returns the full capacity of each process by its limit, in tonnes per year."""
    if project.processes:
        return {f"feed_tonnes_{it['name']}": it["capacity"] for it in project.processes}
    rules = project.schedule
    return {"feed_tonnes": (rules and rules["processing_capacity"]) or project.shells["processing_capacity"]}


def minima_of_periods(project: Project, years: int) -> dict[str, np.ndarray]:
    """Returns the minimum per year, in each period, of each amount that has one in some period."""
    base = project.schedule["minimum"] if project.schedule else {}
    found = {}
    for name in dict.fromkeys(name for period in project.calendar.periods for name in period["minimum"]):
        by_year = [period_of(project, year)["minimum"].get(name) for year in range(1, years + 1)]
        found[amount_of(project, name)] = given(by_year, base.get(name, 0.0))
    return found


def stock_limits(project: Project, years: int) -> dict[str, tuple[np.ndarray, np.ndarray]]:
    """Returns by stockpile the least and the most tonnes at the end of each period, infinite without a limit."""
    found = {}
    for it in project.schedule["stockpiles"] if project.schedule else ():
        most = np.inf if it["capacity"] is None else it["capacity"]
        of_periods = [project.calendar.period(year) for year in range(1, years + 1)]
        sides = [period["stockpiles"].get(it["name"], UNLIMITED) if period else UNLIMITED for period in of_periods]
        found[it["name"]] = given([side["min"] for side in sides], 0.0), given([side["max"] for side in sides], most)
    return found


def amount_of(project: Project, name: str) -> str:
    """Returns the amount that a name of a minimum stands for."""
    if name in {process["name"] for process in project.processes}:
        return f"feed_tonnes_{name}"
    return {"feed": "feed_tonnes", "total": "total_tonnes"}.get(name, f"recovered_{name}")


def given(values: list[Optional[float]], otherwise: Optional[float]) -> np.ndarray:
    return np.array([otherwise if value is None else value for value in values], dtype=float)

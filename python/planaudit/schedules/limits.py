"""The limited amounts of a schedule by block: what each block adds to them, and their limits by year."""

from __future__ import annotations

from collections.abc import Iterator, Sequence

import numpy as np
import pandas as pd

from planaudit.inputs.answer import Answer
from planaudit.inputs.matching import SHARE
from planaudit.inputs.project import GRADE_UNITS, Project, Section
from planaudit.money.feed import recovered
from planaudit.schedules.periods import capacities_of_feed, maxima_of_periods, minima_of_periods

# The share of each block that goes to a process, by process.
Shares = list[tuple[str, np.ndarray]]


def shares_of(answer: Answer) -> Shares:
    """Returns the share of each block that goes to a process as it is mined, by process; without named processes the name is empty."""
    names = {process["name"]: process["name"] for process in answer.project.processes} or {"": "mill"}
    return [
        (name, answer.said[SHARE + column].to_numpy() - reclaimed_share(answer, "destination", column))
        for name, column in names.items()
    ]


def reclaimed_share(answer: Answer, side: str, name: str) -> np.ndarray:
    """Returns the share of each block that is reclaimed, from the stockpile or for the process of this name as `side` has it."""
    rows = answer.reclaims[answer.reclaims[side] == name]
    return np.bincount(rows["row"].astype(int), rows["share"].astype(float), minlength=len(answer.rows))


def stocked_of(answer: Answer) -> Shares:
    """Returns the share of each block that is placed on a stockpile, by stockpile."""
    piles = answer.project.schedule["stockpiles"] if answer.project.schedule else ()
    return [(it["name"], answer.said[SHARE + it["name"]].to_numpy()) for it in piles]


def placed_of(answer: Answer) -> Shares:
    """Returns the share of each block that goes to a dump, by dump."""
    return [(dump["name"], answer.said[SHARE + dump["name"]].to_numpy()) for dump in answer.project.dumps]


def amounts_of(answer: Answer, shares: Shares) -> pd.DataFrame:
    """Returns what each block adds to each limited amount, by the shares of it that go to processes."""
    columns = {"total_tonnes": answer.tonnes, "feed_tonnes": sum(share for _, share in shares) * answer.feed}
    columns |= {f"feed_tonnes_{name}": share * answer.feed for name, share in shares if name}
    columns |= {f"sum_{it['name']}": sum_of(answer, it, shares) for it in sums_asked(answer)}
    columns |= {
        f"recovered_{metal['name']}": quantity(answer, number, shares)
        for number, metal in enumerate(answer.project.metals)
    }
    return pd.DataFrame(columns)


def sums_asked(answer: Answer) -> tuple[Section, ...]:
    rules = answer.project.schedule
    return rules["limits"] if rules else ()


def sum_of(answer: Answer, asked: Section, shares: Shares) -> np.ndarray:
    """Returns what each block adds to a limited sum of a column: of total material, of mill feed, or of one process."""
    milled = sum((share for name, share in shares if asked["of"] in ("feed", name)), np.zeros(len(answer.rows)))
    counted = np.ones(len(answer.rows)) if asked["of"] == "total" else milled
    tonnes = answer.tonnes if asked["of"] == "total" else answer.undiluted
    return answer.rows[asked["column"]].to_numpy() * counted * (tonnes if asked["per_tonne"] else 1.0)


def quantity(answer: Answer, number: int, shares: Shares) -> np.ndarray:
    """Returns the recovered metal of each block, in tonnes or grams."""
    grades = [recovered(way.metals[number], answer.rows, way) for way in answer.project.by_process]
    whole = sum(share * grade for (_, share), grade in zip(shares, grades))
    return whole * answer.undiluted * float(GRADE_UNITS[answer.project.metals[number]["unit"]])


def limits_of(answer: Answer) -> Iterator[tuple[str, tuple[float, ...], float]]:
    """Yields the name of an amount, its limit, and the share of it that each year has; the last share continues."""
    project = answer.project
    by_year = maxima_of_periods(project, project.calendar.count) if project.calendar.periods else {}
    for name, ramp, most in capacities_of(answer):
        yield name, of_lengths(project, tuple(by_year[name] / most) if name in by_year else ramp), most


def of_lengths(project: Project, per_year: Sequence[float]) -> tuple[float, ...]:
    """Returns what each period has of a limit per year; the last one continues."""
    calendar = project.calendar
    numbers = range(1, 1 + max(len(per_year), calendar.count))
    return tuple(at(per_year, number) * calendar.length(number) for number in numbers)


def at(per_year: Sequence[float], number: int) -> float:
    """Returns the value of a period, from 1; the last one continues."""
    return float(per_year[min(number, len(per_year)) - 1])


def capacities_of(answer: Answer) -> Iterator[tuple[str, tuple[float, ...], float]]:
    """Yields the name of an amount, its ramp-up, and its limit, without periods."""
    rules, shells = answer.project.schedule, answer.project.shells
    of_mill = rules["ramp_up"] if rules else (1.0,)
    yield from ((name, of_mill, most) for name, most in capacities_of_feed(answer.project).items())
    rock = (rules and rules["mining_capacity"]) or shells["mining_capacity"]
    if rock:
        yield "total_tonnes", (1.0,), rock
    for name, most in (rules["max_metal_per_year"] if rules else {}).items():
        yield f"recovered_{name}", (1.0,), most
    for it in sums_asked(answer):
        if it["max"] is not None:
            yield f"sum_{it['name']}", (1.0,), it["max"]


def minima_of(answer: Answer) -> list[tuple[str, float, tuple[float, ...]]]:
    """Returns the name of an amount with a minimum, this without periods, and that of each year; the last one continues."""
    project, rules = answer.project, answer.project.schedule
    own = minima_of_periods(project, project.calendar.count) if project.calendar.periods else {}
    base = dict.fromkeys(own, 0.0) | dict(least_of(answer))
    found = []
    for name, least in base.items():
        ramp = rules["ramp_up"] if rules and name.startswith("feed_tonnes") else (1.0,)
        per_year = tuple(own[name]) if name in own else tuple(least * share for share in ramp)
        found.append((name, least, of_lengths(project, per_year)))
    return found


def least_of(answer: Answer) -> Iterator[tuple[str, float]]:
    """Yields the name of an amount with a minimum, and its minima by year."""
    rules = answer.project.schedule
    for name, least in (rules["minimum"] if rules else {}).items():
        kind = "feed_tonnes" if name == "feed" else "total_tonnes" if name == "total" else f"recovered_{name}"
        kind = f"feed_tonnes_{name}" if name in {process["name"] for process in answer.project.processes} else kind
        if least:
            yield kind, least
    yield from ((f"sum_{it['name']}", it["min"]) for it in sums_asked(answer) if it["min"])

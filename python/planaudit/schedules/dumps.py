"""Verifies the dumps of a schedule from its flows, and dumps.csv."""

from __future__ import annotations

from collections.abc import Iterator
from typing import TYPE_CHECKING

import numpy as np
import pandas as pd

from planaudit.inputs.project import Project, Section
from planaudit.inputs.tables import read_table
from planaudit.schedules.periods import UNLIMITED, given

if TYPE_CHECKING:
    from planaudit.schedules.material_flow import MaterialFlow

FILE = "dumps.csv"
# How the names of limits begin: of what a dump takes in a year, and of what it holds at the end of one.
DUMP, DUMPED = "dump_", "dumped_"
# The last decimal place of amounts, and the tolerance of the solver for limits.
AMOUNT, SHARE = 0.6e-3, 2e-6
# Minimum and maximum by year.
Sides = tuple[np.ndarray, np.ndarray]


def limits_of(project: Project, years: int) -> dict[str, Sides]:
    """Returns by the name of each limit of a dump its minimum and maximum in each year, infinite without one."""
    found: dict[str, Sides] = {}
    for it in project.dumps:
        periods = [project.calendar.period(year) for year in range(1, years + 1)]
        sides = [period["dumps"].get(it["name"], UNLIMITED) if period else UNLIMITED for period in periods]
        lengths = np.array([project.calendar.length(year) for year in range(1, years + 1)])
        least, most = given([side["min"] for side in sides], 0.0), given([side["max"] for side in sides], np.inf)
        if least.any() or np.isfinite(most).any():
            found[f"{DUMP}{it['name']}"] = least * lengths, most * lengths
        if it["capacity"] is not None:
            found[f"{DUMPED}{it['name']}"] = np.zeros(years), np.full(years, it["capacity"])
    return found


def used(flow: MaterialFlow, name: str, method: str, last: int) -> tuple[pd.Series, pd.Series]:
    """Returns what a limit of a dump counts in each year of a method, and its tolerance."""
    is_total = name.startswith(DUMPED)
    dump = name.removeprefix(DUMPED if is_total else DUMP)
    mine = flow.rows[(flow.rows["method"] == method) & (flow.rows["destination"] == dump)]
    years = range(1, last + 1)
    tonnes = mine.groupby("year")["total_tonnes"].sum().reindex(years, fill_value=0.0)
    count = mine.groupby("year").size().reindex(years, fill_value=0)
    return (tonnes.cumsum(), AMOUNT * (count.cumsum() + 1)) if is_total else (tonnes, AMOUNT * (count + 1))


def differences(flow: MaterialFlow) -> Iterator[str]:
    """Yields what dumps do not accept or do not hold, and rows of dumps.csv that do not follow from the flows."""
    project = flow.answer.project
    if not project.dumps:
        return
    for it in project.dumps:
        yield from refused(flow, it)
    last = {method: int(rows["year"].max()) for method, rows in flow.rows.groupby("method")}
    for method, years in last.items():
        yield from beyond(flow, str(method), years)
    said = read_table(flow.answer.folder / "tables" / FILE, ["method", "dump"])
    due = [(method, it["name"]) for method in last for it in project.dumps]
    there = {key: rows for key, rows in said.groupby(["method", "dump"])}
    if set(there) != set(due):
        yield f"{FILE}: has {len(there)} dumps of methods for {len(due)}, or others"
        return
    for method, dump in due:
        yield from unlike_balance(flow, (str(method), dump), there[method, dump])


def refused(flow: MaterialFlow, dump: Section) -> Iterator[str]:
    """Yields lots that are placed although the dump does not accept all of their blocks."""
    placed = (flow.rows["destination"] == dump["name"]) & (flow.rows["total_tonnes"] > AMOUNT)
    for row in flow.rows[placed & (flow.whole[f"unaccepted {dump['name']}"] > 0)].itertuples():
        if "block" in flow.keys:
            yield f"blocks.csv: {flow.answer.called(row.block)}: {dump['name']} does not accept it"
            continue
        at = f"{row.method}, year {row.year}, pushback {row.pushback}, bench {row.bench:.10g}, bin {row.bin}"
        yield f"flows.csv: {at}: {dump['name']} does not accept these blocks"


def beyond(flow: MaterialFlow, method: str, last: int) -> Iterator[str]:
    """Yields years in which a dump takes or holds more or less than its limits."""
    for name, (least, most) in limits_of(flow.answer.project, last).items():
        amounts, slack = used(flow, name, method, last)
        for year, low, high in zip(amounts.index, least, most):
            amount, loose = amounts[year], slack[year]
            if amount > high * (1 + SHARE) + loose:
                yield f"{method}, year {year}: {name} {amount:.10g} t above {high:.10g}"
            if amount < low * (1 - SHARE) - loose:
                yield f"{method}, year {year}: {name} {amount:.10g} t below {low:.10g}"


def unlike_balance(flow: MaterialFlow, at: tuple[str, str], rows: pd.DataFrame) -> Iterator[str]:
    """Yields rows of a method and a dump that do not follow from the flows."""
    (method, name), years = at, rows["year"].tolist()
    last = int(flow.rows.loc[flow.rows["method"] == method, "year"].max())
    if years != list(range(1, last + 1)):
        yield f"{FILE}: {method}, {name}: years {years} for 1 to {last}"
        return
    placed, slack = used(flow, f"{DUMP}{name}", method, last)
    held, loose = used(flow, f"{DUMPED}{name}", method, last)
    capacity = next(it["capacity"] for it in flow.answer.project.dumps if it["name"] == name)
    room = np.full(last, np.nan) if capacity is None else np.maximum(capacity - held.to_numpy(), 0.0)
    expected = {
        "in_tonnes": (placed.to_numpy(), slack.to_numpy()),
        "closing_tonnes": (held.to_numpy(), loose.to_numpy()),
        "room_tonnes": (room, loose.to_numpy() + AMOUNT),
    }
    for key, (due, open_to) in expected.items():
        said = rows[key].to_numpy(dtype=float)
        off = ~(np.abs(said - due) <= open_to + 1e-9 * np.abs(due)) & ~(np.isnan(said) & np.isnan(due))
        yield from (
            f"{FILE}: {method}, {name}, year {years[k]}: {key} {said[k]:.10g} for {due[k]:.10g}"
            for k in np.flatnonzero(off)
        )

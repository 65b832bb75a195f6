"""Verifies the stockpiles of a schedule of pushbacks from flows.csv, and stockpiles.csv."""

from __future__ import annotations

from collections.abc import Iterator
from itertools import product
from typing import TYPE_CHECKING

import numpy as np
import pandas as pd

from planaudit.inputs.project import GRADE_UNITS, Section, opening_tonnes
from planaudit.inputs.tables import read_table
from planaudit.schedules.periods import stock_limits

if TYPE_CHECKING:
    from planaudit.schedules.material_flow import MaterialFlow

FILE = "stockpiles.csv"
# The last decimal place of amounts and grades, and the tolerance of the solver for shares.
AMOUNT, GRADE, SHARE = 0.6e-3, 1e-6, 1e-6


def differences(flow: MaterialFlow) -> Iterator[str]:
    """Yields what stockpiles do not accept or do not hold, and rows of stockpiles.csv that do not follow from the flows."""
    said = read_table(flow.answer.folder / "tables" / FILE, ["method", "stockpile"]) if flow.blocks.stockpiles else None
    for it in flow.blocks.stockpiles:
        yield from refused(flow, it)
        yield from unlike_stock(flow, it)
    if said is not None:
        due = {(method, it["name"]) for method in set(flow.rows["method"]) for it in flow.blocks.stockpiles}
        there = set(zip(said["method"], said["stockpile"]))
        if missing := sorted(due - there):
            yield f"{FILE}: {', '.join(missing[0])}: is missing"
        for (method, name), rows in said.groupby(["method", "stockpile"]):
            yield from unlike_balance(flow, str(method), str(name), rows)


def refused(flow: MaterialFlow, stockpile: Section) -> Iterator[str]:
    """Yields lots that are placed although the stockpile does not accept all of their blocks."""
    placed = (flow.rows["destination"] == stockpile["name"]) & (flow.rows["total_tonnes"] > AMOUNT)
    off = placed & (flow.whole[f"refused {stockpile['name']}"] > 0)
    for row in flow.rows[off].itertuples():
        at = ", ".join(f"{name} {getattr(row, name)}" for name in ("year", "bench", *flow.keys))
        yield f"{row.method}, {at}: {stockpile['name']} does not accept these blocks"


def unlike_stock(flow: MaterialFlow, stockpile: Section) -> Iterator[str]:
    """Yields lots from which more is reclaimed by the end of a year than was placed before it, and years above the capacity."""
    keys = ["method", *flow.keys]
    years = range(1, int(flow.rows["year"].max()) + 1) if len(flow.rows) else range(0)
    sums = {}
    for side in ("destination", "source"):
        rows = flow.rows[flow.rows[side] == stockpile["name"]]
        table = rows.groupby([*keys, "year"])[["total_tonnes", "feed_tonnes"]].sum().unstack("year", fill_value=0.0)
        for name in ("total_tonnes", "feed_tonnes"):
            of_years = table[name] if len(table) else pd.DataFrame(index=table.index)
            sums[side, name] = of_years.reindex(columns=years, fill_value=0.0).cumsum(axis=1)
    placed, out = sums["destination", "total_tonnes"], sums["source", "total_tonnes"]
    before = placed.shift(1, axis=1, fill_value=0.0).reindex(out.index, fill_value=0.0)
    whole = flow.lots["total_tonnes"].reindex(out.index.droplevel("method")).to_numpy()
    # A lot that lies there at the start has been placed before the first year.
    before = before.add(np.where(out.index.get_level_values("level") < 0, whole, 0.0), axis=0)
    slack = pd.Series(SHARE * whole + 3 * AMOUNT * len(years), index=out.index)
    wrong = out.sub(before).gt(slack, axis=0).any(axis=1)
    for at in out.index[wrong]:
        yield f"flows.csv: {', '.join(map(str, at))}: more is reclaimed from {stockpile['name']} than was placed before"
    yield from beyond(flow, stockpile, sums)


def beyond(flow: MaterialFlow, stockpile: Section, sums: dict[tuple[str, str], pd.DataFrame]) -> Iterator[str]:
    """Yields years at whose end a stockpile holds more than its most, or less than its least; `sums` are the flows of lots until each year."""
    lies = sums["destination", "feed_tonnes"].sub(sums["source", "feed_tonnes"], fill_value=0.0)
    years = lies.columns
    least, most = stock_limits(flow.answer.project, len(years))[stockpile["name"]]
    for method in dict.fromkeys(flow.rows["method"]):
        moved = (
            lies[lies.index.get_level_values("method") == method].sum() if len(lies) else pd.Series(0.0, index=years)
        )
        last = int(flow.rows.loc[flow.rows["method"] == method, "year"].max())
        for year, limits in zip(years[:last], zip(least, most)):
            holds, slack = moved[year] + opening_tonnes(stockpile), AMOUNT * (2 * len(lies) + 1)
            if holds > limits[1] * (1 + SHARE) + slack:
                yield f"flows.csv: {method}, year {year}: {stockpile['name']} holds {holds:.10g} t above its capacity of {limits[1]:.10g}"
            if holds < limits[0] * (1 - SHARE) - slack:
                yield f"flows.csv: {method}, year {year}: {stockpile['name']} holds {holds:.10g} t below its minimum of {limits[0]:.10g}"


def unlike_balance(flow: MaterialFlow, method: str, name: str, rows: pd.DataFrame) -> Iterator[str]:
    """Yields rows of a stockpile that do not follow from the flows of a method."""
    mine = flow.rows[flow.rows["method"] == method]
    years = rows["year"].tolist()
    if years != list(range(1, len(years) + 1)):
        yield f"{FILE}: {method}, {name}: years {years}"
        return
    metals = flow.answer.project.metals
    amounts = ["feed_tonnes", *(f"contained_{metal['name']}" for metal in metals)]
    placed, out = (
        mine[mine[side] == name].groupby("year")[amounts].sum().reindex(years, fill_value=0.0)
        for side in ("destination", "source")
    )
    start = at_start(flow, name)
    lies = (placed - out).cumsum() + start
    closing, slack = lies["feed_tonnes"].to_numpy(), AMOUNT * (len(mine) + 1)
    expected = {
        "in_tonnes": placed["feed_tonnes"].to_numpy(),
        "out_tonnes": out["feed_tonnes"].to_numpy(),
        "closing_tonnes": closing,
        "opening_tonnes": np.append(start["feed_tonnes"], closing)[: len(closing)],
    }
    off = {key: np.abs(rows[key].to_numpy() - due) > slack + 1e-9 * np.abs(due) for key, due in expected.items()}
    for metal, (prefix, amounts_of) in product(metals, (("", lies), ("reclaimed_", out))):
        key, unit, feed = f"{prefix}grade_{metal['name']}", float(GRADE_UNITS[metal["unit"]]), amounts_of["feed_tonnes"]
        # Of less than the rounding of its flows the grade is not known.
        known, tonnes = feed.to_numpy() > 1e3 * slack, feed.to_numpy()
        content = amounts_of[f"contained_{metal['name']}"].to_numpy() / unit
        grade = np.divide(content, tonnes, out=np.zeros(len(years)), where=known)
        open_to = GRADE + np.divide(slack / unit + grade * slack, tonnes, out=np.zeros(len(years)), where=known)
        off[key] = known & ~(np.abs(rows[key].to_numpy(dtype=float) - grade) <= open_to)
    for key, wrong in off.items():
        yield from (
            f"{FILE}: {method}, {name}, year {year}: {key} does not follow from its flows"
            for year in np.array(years)[wrong]
        )


def at_start(flow: MaterialFlow, name: str) -> pd.Series:
    """Returns feed_tonnes and contained_METAL of what lies on a stockpile at the start."""
    amounts = ["feed_tonnes", *(f"contained_{metal['name']}" for metal in flow.answer.project.metals)]
    mine = [it["name"] == name for _, it, _ in flow.opening.given]
    return flow.opening.lots[amounts][mine].sum() if any(mine) else pd.Series(0.0, index=amounts)

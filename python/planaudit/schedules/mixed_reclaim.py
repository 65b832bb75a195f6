"""Recomputes what a schedule of pushbacks earns if each stockpile gives back the mean of what lies there, from flows.csv."""

from __future__ import annotations

from collections.abc import Iterator
from dataclasses import replace
from typing import TYPE_CHECKING

import numpy as np
import pandas as pd

from planaudit.inputs.project import Section
from planaudit.schedules.discounts import discount

if TYPE_CHECKING:
    from planaudit.schedules.material_flow import MaterialFlow

# The last decimal place of tonnes.
AMOUNT = 0.6e-3


def npv_at_mean_grade(flow: MaterialFlow, method: str, npv: float) -> tuple[float, float]:
    """Returns the NPV of a method if each stockpile gives back its mean, and its tolerance; `npv` is that of the method as it is.

    Parameters
    ----------
    flow : MaterialFlow
    method : str
    npv : float
    """
    mine = flow.rows[flow.rows["method"] == method].reset_index(drop=True)
    moved = pd.concat([part for it in flow.blocks.stockpiles for part in mixed(flow, it, mine)] or [mine[:0]])
    own = mine[mine["source"].isin([it["name"] for it in flow.blocks.stockpiles])]
    after, before = (earned(flow, rows) for rows in (moved, own))
    slack = AMOUNT * (2 + len(own) + len(moved)) * (1 + before[1])
    return npv - before[0] + after[0], slack


def earned(flow: MaterialFlow, rows: pd.DataFrame) -> tuple[float, float]:
    """Returns what reclaimed rows earn, discounted, and the greatest amount that a tonne of them earns or costs. What a process cannot take earns
    nothing."""
    if not len(rows):
        return 0.0, 0.0
    found = replace(flow, rows=rows.reset_index(drop=True))
    cash, handled = found.cash
    whole = found.whole["feed_tonnes"].to_numpy()
    per_tonne = (np.where(found.by_process("not taken") > 0, 0.0, cash) - handled) / whole
    factors = np.array([discount(flow.answer, int(year)) for year in found.rows["year"]])
    return float((per_tonne * found.rows["feed_tonnes"] * factors).sum()), float(np.abs(per_tonne).max())


def mixed(flow: MaterialFlow, pile: Section, rows: pd.DataFrame) -> Iterator[pd.DataFrame]:
    """Yields the rows by year and process that leave a stockpile if it gives back its mean; the tonnes are those of `rows`."""
    keys = flow.keys
    lies = at_start(flow, pile)
    for year in range(1, int(rows["year"].max()) + 1 if len(rows) else 1):
        this = rows[rows["year"] == year]
        out = this[this["source"] == pile["name"]].groupby("destination")["feed_tonnes"].sum()
        whole = float(lies.sum())
        for process, tonnes in out.items() if whole > 0 else ():
            left = (lies * tonnes / whole).rename("feed_tonnes").reset_index()
            yield left.assign(year=year, source=pile["name"], destination=process, total_tonnes=left["feed_tonnes"])
        lies = lies * (1 - min(1.0, float(out.sum()) / whole) if whole > 0 else 0.0)
        placed = this[this["destination"] == pile["name"]].groupby(keys)["feed_tonnes"].sum()
        lies = lies.add(placed, fill_value=0.0)


def at_start(flow: MaterialFlow, pile: Section) -> pd.Series:
    """Returns the feed of each lot that lies on a stockpile at the start."""
    mine = [it["name"] == pile["name"] for _, it, _ in flow.opening.given]
    lots = flow.opening.lots["feed_tonnes"]
    return (
        lots[mine]
        if any(mine)
        else pd.Series(dtype=float, index=pd.MultiIndex.from_arrays([[]] * len(flow.keys), names=flow.keys))
    )

"""Computes costs and revenue of blocks for results that have none of their own."""

from __future__ import annotations

from dataclasses import replace
from typing import Any

import numpy as np
import pandas as pd

from planaudit.inputs.answer import Answer
from planaudit.inputs.matching import PROCESS
from planaudit.money import block_values as money
from planaudit.pits import sums


def weighed(whole: Answer) -> Answer:
    """Returns the blocks that are mined at any revenue factor, with exact costs and revenue, and from which factor on each is processed."""
    return processed(valued(whole))


def processed(part: Answer) -> Answer:
    return replace(part, said=part.said.assign(process_revenue_factor=sums.first_processed(part)))


def valued(whole: Answer) -> Answer:
    """Returns the blocks that are mined at any revenue factor, with exact costs and revenue."""
    mined = (whole.said["revenue_factor"] > 0).to_numpy()
    part = replace(whole, rows=whole.rows[mined].reset_index(drop=True), said=whole.said[mined].reset_index(drop=True))
    columns: dict[str, Any] = {}
    for way, names in zip(part.project.by_process, part.amounts_of_ways):
        exactly = money.Exactly.of(replace(part, project=way))
        amounts = [[float(amount) for amount in exactly.amounts(row)] for row in range(len(part.rows))]
        columns |= dict(zip((money.MINING, *names), np.array(amounts, dtype=np.float64).reshape(-1, 3).T))
    return replace(part, said=pd.concat([part.said, with_best(pd.DataFrame(columns), part)], axis=1))


def with_best(amounts: pd.DataFrame, answer: Answer) -> pd.DataFrame:
    """Returns the amounts of several processes with those of the best one, and its name; of equal ones that of least revenue."""
    processes = answer.project.processes
    if not processes:
        return amounts
    revenue, cost = (amounts[list(names)].to_numpy() for names in zip(*answer.amounts_of_ways))
    gain = (revenue - cost).round(6)
    best = np.where(gain == gain.max(axis=1, keepdims=True), revenue, np.inf).argmin(axis=1)
    at = np.arange(len(amounts)), best
    name = np.where(gain[at] > 0, np.array([process["name"] for process in processes], dtype=object)[best], "")
    return amounts.assign(revenue=revenue[at], processing_cost=cost[at], **{PROCESS: name})


def at_price(answer: Answer) -> Answer:
    """Returns the blocks with mining cost, and revenue and processing cost in each process, rounded as the project sets it: by floats, and exactly if
    these are near a half."""
    decimals, columns = answer.project.economics["decimals"], dict[str, np.ndarray]()
    unit = 10.0**-decimals
    for way, names in zip(answer.project.by_process, answer.amounts_of_ways):
        part = replace(answer, project=way)
        amounts = np.stack(money.by_floats(part)) / unit
        rounded = np.rint(amounts)
        close = np.abs(np.abs(amounts - np.floor(amounts)) - 0.5) < 1e-9 + 1e-14 * np.abs(amounts)
        if close.any():
            exactly = money.Exactly.of(part)
            for row in np.flatnonzero(close.any(axis=0)).tolist():
                rounded[:, row] = [float(amount.scaleb(decimals)) for amount in exactly.amounts(row)]
        mining, revenue, cost = rounded * unit
        columns |= dict(zip((money.MINING, *names), (mining, revenue, np.where(revenue > 0, cost, 0.0))))
    return replace(answer, said=answer.said.assign(**columns))

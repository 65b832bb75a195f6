"""Recomputes mean, minimum, maximum and quantiles of amounts, by price deck."""

from __future__ import annotations

import math
from collections.abc import Iterable

import numpy as np
import pandas as pd

SHARES = {"quantile_0.1": 0.1, "quantile_0.5": 0.5, "quantile_0.9": 0.9}


def spread(amounts: Iterable[float]) -> dict[str, float]:
    rising = sorted(map(float, amounts))
    found = {"mean": math.fsum(rising) / len(rising), "least": rising[0], "greatest": rising[-1]}
    return found | {name: between(rising, share) for name, share in SHARES.items()}


def between(amounts: list[float], share: float) -> float:
    """Returns the quantile of ascending amounts, linear between two."""
    place = share * (len(amounts) - 1)
    low = math.floor(place)
    high = min(low + 1, len(amounts) - 1)
    return amounts[low] + (place - low) * (amounts[high] - amounts[low])


def at_prices(rows: pd.DataFrame, prices: dict[str, float]) -> pd.DataFrame:
    """Returns the rows of a price deck, given by the names of columns."""
    mine = np.ones(len(rows), dtype=bool)
    for name, price in prices.items():
        mine &= (rows[name] == price).to_numpy()
    return rows[mine]

"""Revenue factors: thousandths as floats, and as they are written."""

from __future__ import annotations

from collections.abc import Iterable
from typing import SupportsFloat

import pandas as pd

BASE_PRICE = 1.0
PER_MILLE = 1000


def per_mille(factor: float) -> int:
    """Returns a revenue factor in thousandths."""
    return round(factor * PER_MILLE)


def nearest(factor: SupportsFloat) -> float:
    """Returns the float that is nearest to a revenue factor's thousandths."""
    return round(float(factor) * PER_MILLE) / PER_MILLE


def in_thousandths(table: pd.DataFrame) -> pd.DataFrame:
    """Returns a table with revenue factors as `nearest` gives them, since the parser of pandas may miss the last bit."""
    names = [it for it in table if str(it).endswith("revenue_factor") and table[it].dtype.kind in "if"]
    return table.assign(**{name: (table[name] * PER_MILLE).round() / PER_MILLE for name in names}) if names else table


def factor_text(factor: SupportsFloat) -> str:
    """Returns a revenue factor with two decimals, or three if it has three."""
    text = format(float(factor), ".3f")
    return text.removesuffix("0")


def factor_texts(factors: Iterable[SupportsFloat]) -> str:
    return ", ".join(factor_text(factor) for factor in factors)

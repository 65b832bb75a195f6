"""Revenue factors: decimals for people and tables, whole per mille for the solver.

A revenue factor is a float that is the nearest to a whole number of thousandths: two that are written alike are equal.
"""

from __future__ import annotations

from decimal import Decimal
from typing import TYPE_CHECKING, Any, Iterable, SupportsFloat, Union

if TYPE_CHECKING:
    import pandas as pd

# The revenue factor at the base price.
BASE_PRICE = 1.0
GREATEST_FACTOR = 100.0
PER_MILLE = 1000


def of_per_mille(count: int) -> float:
    """Returns the revenue factor of a whole number of thousandths."""
    return count / PER_MILLE


def per_mille(factor: SupportsFloat) -> int:
    """Returns a revenue factor in thousandths, as the solver takes it. Raises ValueError if the factor has more than three decimals."""
    found = round(float(factor) * PER_MILLE)
    if of_per_mille(found) != float(factor):
        raise ValueError(f"{factor} has more than three decimals")
    return found


def of_decimal(value: Union[int, Decimal]) -> float:
    """Returns the revenue factor of a decimal from 0 to 100. Raises ValueError if the decimal is another, or has more than three places."""
    if not 0 <= value <= GREATEST_FACTOR or value * PER_MILLE % 1:
        raise ValueError(f"{value} is not a revenue factor")
    return of_per_mille(int(value * PER_MILLE))


def is_factor(value: Any) -> bool:
    if isinstance(value, bool) or not isinstance(value, (int, float)) or not 0 <= value <= GREATEST_FACTOR:
        return False
    return of_per_mille(round(value * PER_MILLE)) == value


def with_exact_factors(table: pd.DataFrame) -> pd.DataFrame:
    """Returns a table that was read from a file with the nearest thousandth for each revenue factor, since pandas' reader may miss the last bit."""
    names = [name for name in table.columns if str(name).endswith("revenue_factor")]
    numbers = [name for name in names if table[name].dtype.kind in "if"]
    return table.assign(**{name: table[name].astype(float).round(3) for name in numbers})


def factor_text(factor: SupportsFloat) -> str:
    """Returns a revenue factor with at least two decimals, such as 0.80 or 0.755."""
    text = f"{float(factor):.3f}"
    return text[:-1] if text.endswith("0") else text


def factor_texts(factors: Iterable[SupportsFloat]) -> str:
    """Returns revenue factors in words, such as `0.50, 1.00`."""
    return ", ".join(map(factor_text, factors))

"""The unit in which large numbers are shown: ones, thousands or millions."""

from __future__ import annotations


def scaled(most: float) -> tuple[float, str]:
    """Returns size and sign of a unit, such as (1e6, "M"), in which `most` has at least two digits before the point."""
    for size, sign in ((1e6, "M"), (1e3, "k")):
        if most >= 10 * size:
            return size, sign
    return 1.0, ""


def money_unit(most: float, currency: str) -> tuple[float, str]:
    """Returns size and name of a unit of money, such as (1e6, "M USD"), as `scaled` does."""
    size, sign = scaled(most)
    return size, f"{sign} {currency}".strip()

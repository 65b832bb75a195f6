"""Units of grades, and rounding."""

from __future__ import annotations

from fractions import Fraction

UNITS = {"percent": Fraction(1, 100), "fraction": Fraction(1), "gram_per_tonne": Fraction(1)}


def rounded(amount: Fraction, decimals: int) -> Fraction:
    """To so many decimals, halves to the even one."""
    return Fraction(round(amount * 10**decimals), 10**decimals)

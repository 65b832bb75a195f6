"""Converts prices of a metal to its unit, independently of the planner."""

from __future__ import annotations

from decimal import Decimal
from fractions import Fraction

from planaudit.inputs.project import Section

# Kilograms of each unit: a pound has 0.45359237, a troy ounce 480 grains of 64.79891 mg.
KILOGRAMS = {
    "t": Fraction(1000),
    "kg": Fraction(1),
    "g": Fraction(1, 1000),
    "lb": Fraction(45359237, 10**8),
    "oz": Fraction(480 * 6479891, 10**11),
}


def converted(metal: Section, price: Decimal) -> Decimal:
    """Returns a price per tonne, or per gram if the grade is in g/t, rounded to twelve decimals, halves to even."""
    of_quantity = "g" if metal["unit"] == "gram_per_tonne" else "t"
    if metal["price_per"] in (None, of_quantity):
        return price
    exact = Fraction(price) * KILOGRAMS[of_quantity] / KILOGRAMS[str(metal["price_per"])]
    return Decimal(round(exact * 10**12)).scaleb(-12)

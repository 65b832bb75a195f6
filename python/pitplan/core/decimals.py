"""Decimals held exactly, so that what is called a rounding is one, and not the noise of binary fractions.

A number that stands in a table as `0.1` is held as 1 of 10**-1. Sums and products are exact; the only rounding is the
one that is asked for at the end, and it says how many values it changed. Whole numbers are of 64 bits wherever the greatest of them shows
beforehand that a result fits, which is many times as fast, and otherwise Python's own.
"""

from __future__ import annotations

from dataclasses import dataclass
from decimal import Decimal
from typing import Union

import numpy as np

from .revenue_factors import PER_MILLE, per_mille

# Up to here a float64 holds every whole number, so a decimal of this many digits follows from its float.
EXACT_WHOLE = 2**53
MOST_PLACES = 15
# Powers of ten up to this one are floats.
EXACT_POWER = 22
MOST_WHOLE = 2**63 - 1


@dataclass(frozen=True)
class Rounding:
    """What a rounding did: how many values there were, how many it changed, and by how much at most."""

    values: int
    changed: int
    largest: Decimal

    def as_json(self) -> dict[str, object]:
        return {"values": self.values, "changed": self.changed, "largest": f"{self.largest:f}"}


@dataclass(frozen=True)
class Exact:
    """Values `whole * 10**-places`; `whole` is an array of int64 or of Python's whole numbers, without a limit of size."""

    whole: np.ndarray
    places: int

    @staticmethod
    def of(value: Union[int, Decimal], count: int) -> "Exact":
        """Returns `count` times the same value."""
        whole, places = whole_and_places(value)
        return Exact(np.full(count, whole, dtype=np.int64 if abs(whole) <= MOST_WHOLE else object), places)

    @staticmethod
    def of_floats(values: np.ndarray) -> "Exact":
        """Returns the shortest decimal that reads back as each float: 0.1 for 0.1. The floats must be finite."""
        numbers = np.asarray(values, dtype=np.float64)
        for places in range(MOST_PLACES + 1):
            scaled = np.rint(numbers * 10.0**places)
            if np.abs(scaled).max(initial=0.0) >= EXACT_WHOLE:
                break
            if (scaled / 10.0**places == numbers).all():
                return Exact(scaled.astype(np.int64), places)
        return Exact.of_decimals([Decimal(repr(float(number))) for number in numbers])

    @staticmethod
    def of_decimals(values: list[Decimal]) -> "Exact":
        pairs = [whole_and_places(value) for value in values]
        most = max((places for _, places in pairs), default=0)
        whole = np.empty(len(pairs), dtype=object)
        whole[:] = [number * 10 ** (most - places) for number, places in pairs]
        return Exact(whole.astype(np.int64) if greatest(whole) <= MOST_WHOLE else whole, most)

    def at(self, places: int) -> np.ndarray:
        """Returns the values in units of 10**-places; `places` may not be less than the value's own."""
        return product(self.whole, 10 ** (places - self.places))

    def times(self, other: "Exact") -> "Exact":
        return Exact(product(self.whole, other.whole), self.places + other.places)

    def plus(self, other: "Exact") -> "Exact":
        places = max(self.places, other.places)
        return Exact(total(self.at(places), other.at(places)), places)

    def minus(self, other: "Exact") -> "Exact":
        return self.plus(Exact(-other.whole, other.places))

    def floats(self) -> np.ndarray:
        """Returns the nearest floats, for figures and reports."""
        if self.places <= EXACT_POWER and greatest(self.whole) <= EXACT_WHOLE:
            return self.whole.astype(np.float64) / 10.0**self.places
        found, unit, some = np.zeros(len(self.whole)), 10**self.places, np.flatnonzero(self.whole != 0)
        found[some] = [int(number) / unit for number in self.whole[some]]
        return found

    def rounded(self, places: int) -> tuple[np.ndarray, Rounding]:
        """Returns the values rounded to units of 10**-places, half to even, and what the rounding changed."""
        if self.places <= places:
            return self.at(places), Rounding(len(self.whole), 0, Decimal(0))
        unit = 10 ** (self.places - places)
        result = nearest(self.whole, unit)
        off = np.abs(total(product(result, unit), -self.whole))
        largest = Decimal(int(off.max(initial=0))).scaleb(-self.places)
        return result, Rounding(len(off), int(np.count_nonzero(off != 0)), largest)


def greatest(whole: Union[int, np.ndarray]) -> int:
    """Returns the greatest magnitude of whole numbers."""
    return abs(whole) if isinstance(whole, int) else max(int(whole.max(initial=0)), -int(whole.min(initial=0)))


def product(left: np.ndarray, right: Union[int, np.ndarray]) -> np.ndarray:
    """Returns the exact products of whole numbers; `right` may be one factor for all."""
    # A product of zeros fits with any factor, which may have more than 64 bits.
    fits = max(greatest(left), 1) * greatest(right) <= MOST_WHOLE
    return left * right if fits else left.astype(object) * right


def total(left: np.ndarray, right: np.ndarray) -> np.ndarray:
    """Returns the exact sums of whole numbers."""
    return left + right if greatest(left) + greatest(right) <= MOST_WHOLE else left.astype(object) + right


def at_factor(factor: float, revenue: np.ndarray, cost: np.ndarray) -> np.ndarray:
    """Returns `factor * revenue - cost` in billionths, exactly, from a revenue factor and amounts in millionths."""
    return total(product(revenue, per_mille(factor)), product(cost, -PER_MILLE))


def nearest(whole: np.ndarray, unit: Union[int, np.ndarray]) -> np.ndarray:
    """Returns the whole numbers nearest to `whole / unit`, half to even; the unit, above 0, is one for all or one for each."""
    if 2 * greatest(unit) > MOST_WHOLE:
        whole = whole.astype(object)
    if whole.dtype == object and not (whole != 0).all():
        # Most blocks hold no metal, and Python's numbers take their time.
        some, found = np.flatnonzero(whole != 0), np.zeros(len(whole), dtype=object)
        found[some] = nearest(whole[some], unit if isinstance(unit, int) else unit[some])
        return found
    below, over = whole // unit, whole % unit
    up = (2 * over > unit) | ((2 * over == unit) & (below % 2 == 1))
    return below + up.astype(bool).astype(np.int64).astype(whole.dtype)


def whole_and_places(value: Union[int, Decimal]) -> tuple[int, int]:
    """Returns `(whole, places)` with value = whole * 10**-places, and places not negative."""
    sign, digits, exponent = Decimal(value).as_tuple()
    whole = int("".join(map(str, digits))) * (-1 if sign else 1)
    power = int(exponent)
    return (whole * 10**power, 0) if power >= 0 else (whole, -power)

"""Amounts in any form as whole millionths, rounded exactly."""

from __future__ import annotations

from dataclasses import dataclass

import numpy as np
from numpy.typing import ArrayLike, NDArray

from ._arrays import PLAIN, array_of
from ._decimals import millionths_of as millionths_of_decimal, of_number

MILLION = 1_000_000
MOST_MILLIONTHS = 2**63 - 1
MOST_UNITS, MOST_REST = divmod(MOST_MILLIONTHS, MILLION)
# Multiplied by it, a float of 53 bits is parted into two of 26 bits (Dekker 1971, with Veltkamp's constant).
VELTKAMP = 2.0**27 + 1


@dataclass(frozen=True)
class Millionths:
    """Amounts as whole millionths, shape (blocks,), and how many of them are not what was handed in."""

    amounts: NDArray[np.int64]
    rounded: int


def millionths_of(values: ArrayLike, name: str, are_millionths: bool) -> Millionths:
    """Integers, floats and decimals in one unit, each rounded to the nearest millionth (a tie to the even one), and how many changed by
    it; or integers that are millionths already.

    Raises ValueError by the shape, a masked value or one that is not finite, TypeError where a value is no number, and OverflowError where
    one does not fit 64 bits of millionths.
    """
    array = array_of(values, name)
    if array.ndim != 1:
        raise ValueError(f"{name} has shape {array.shape} and not (blocks,)")
    if are_millionths:
        return _as_they_are(array, name)
    if np.issubdtype(array.dtype, np.integer):
        return _of_whole(array, name)
    if np.issubdtype(array.dtype, np.floating):
        if array.dtype.itemsize > np.dtype(np.float64).itemsize:
            return _of_objects(array, name)
        return _of_floats(array.astype(np.float64), name)
    if array.dtype == object:
        return _of_objects(array, name)
    raise TypeError(f"{name} are {array.dtype}: hand in whole numbers, floats or decimals")


def _too_large(name: str, block: int) -> OverflowError:
    return OverflowError(f"{name}: that of block {block} does not fit 64 bits of millionths")


def _not_finite(name: str, block: int) -> ValueError:
    return ValueError(f"{name}: that of block {block} is not a finite number")


def _as_they_are(array: NDArray, name: str) -> Millionths:
    """Integers of any width as 64 bits, without a copy where they have these."""
    if array.dtype == object and all(
        isinstance(number, (int, np.integer)) and not isinstance(number, bool) for number in array
    ):
        beyond = [block for block, number in enumerate(array) if not -MOST_MILLIONTHS - 1 <= number <= MOST_MILLIONTHS]
        if beyond:
            raise _too_large(name, beyond[0])
        array = array.astype(np.int64)
    if not np.issubdtype(array.dtype, np.integer) and array.size:
        raise TypeError(f"{name} are {array.dtype}: millionths are whole numbers")
    # Only 64 bits without a sign hold what 64 bits with one do not.
    if array.dtype == np.uint64 and (array >= np.uint64(2**63)).any():
        raise _too_large(name, int(np.argmax(array >= np.uint64(2**63))))
    return Millionths(np.require(array, np.int64, PLAIN), 0)


def _of_whole(numbers: NDArray[np.integer], name: str) -> Millionths:
    too_large = np.flatnonzero((numbers > MOST_UNITS) | (numbers < -MOST_UNITS))
    if too_large.size:
        raise _too_large(name, int(too_large[0]))
    return Millionths(numbers.astype(np.int64) * MILLION, 0)


def _of_objects(numbers: NDArray, name: str) -> Millionths:
    """Decimals, and any other number of Python or numpy, one by one."""
    amounts = np.empty(len(numbers), dtype=np.int64)
    rounded = 0
    for block, number in enumerate(numbers):
        try:
            exact = of_number(number)
        except (TypeError, ValueError) as error:
            raise TypeError(f"{name}: that of block {block} is {number!r}, and not a number") from error
        if not exact.is_finite():
            raise _not_finite(name, block)
        try:
            whole, is_another = millionths_of_decimal(exact)
        except OverflowError as error:
            raise _too_large(name, block) from error
        if abs(whole) > MOST_MILLIONTHS:
            raise _too_large(name, block)
        rounded += is_another
        amounts[block] = whole
    return Millionths(amounts, rounded)


def _of_floats(numbers: NDArray[np.float64], name: str) -> Millionths:
    """Whole units and the rest of each are multiplied apart, so that no product is rounded but by its own error, which is known."""
    if not np.isfinite(numbers).all():
        raise _not_finite(name, int(np.flatnonzero(~np.isfinite(numbers))[0]))
    units = np.trunc(numbers)
    rest, is_another = _nearest_millionths(numbers - units)
    too_large = np.abs(units) > MOST_UNITS
    too_large |= (np.abs(units) == MOST_UNITS) & (np.abs(rest) > MOST_REST) & (np.sign(rest) == np.sign(units))
    if too_large.any():
        raise _too_large(name, int(np.argmax(too_large)))
    return Millionths(units.astype(np.int64) * MILLION + rest, int(np.count_nonzero(is_another)))


def _nearest_millionths(parts: NDArray[np.float64]) -> tuple[NDArray[np.int64], NDArray[np.bool_]]:
    """The nearest whole millionths of numbers between -1 and 1, a tie to the even one, and which numbers are others.

    A product of floats and its error make the exact one. Half a millionth is a float, so a product that is not one lies on the same side of
    it as the exact one, and only where it is one does the error decide.
    """
    product = parts * float(MILLION)
    high = VELTKAMP * parts
    high -= high - parts
    # A million has 20 bits, so its products with either half are exact.
    error = (high * MILLION - product) + (parts - high) * MILLION
    nearest = np.rint(product)
    off = product - nearest
    nearest += (off == 0.5) & (error > 0)
    nearest -= (off == -0.5) & (error < 0)
    return nearest.astype(np.int64), (off != 0) | (error != 0)

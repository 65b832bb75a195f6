"""Nested pits: the ultimate pit at each of a list of price factors."""

from __future__ import annotations

import ctypes
import operator
from collections.abc import Iterable
from dataclasses import dataclass
from decimal import Decimal
from typing import Any

import numpy as np
from numpy.typing import ArrayLike, NDArray

from . import _library
from ._amounts import millionths_of
from ._arrays import MOST_WHOLE, demand_unmasked, rows_of
from ._decimals import scaled
from ._refusals import refused

# A factor in per mille times millionths.
WORTH_PLACES = 9


@dataclass(frozen=True)
class Shells:
    """Nested pits.

    Attributes
    ----------
    first : ndarray of int32, shape (blocks,)
        The number, from 0, of the first factor whose pit contains the block; the number of factors if no pit does.
    worths : list of Decimal
        The value of each pit at its factor, exact.
    rounded : int
        How many amounts were rounded to millionths.
    """

    first: NDArray[np.int32]
    worths: list[Decimal]
    rounded: int


def shells(
    revenues: ArrayLike, costs: ArrayLike, needs: Any, factors: Iterable[int], *, millionths: bool = False
) -> Shells:
    """Finds the ultimate pit at each revenue factor. Each pit contains those before it.

    At a factor, in per mille, a block has the value factor / 1000 * revenue - cost. Other threads of Python run during the call. They must
    not write to arrays that are not copied.

    Parameters
    ----------
    revenues, costs : array_like, shape (blocks,)
        From 0 to 10^12 of their unit, in the forms of `values` of `solve`.
    needs : sparse matrix, pair of arrays, or array_like of shape (pairs, 2)
        As of `solve`.
    factors : iterable of int
        Factors in per mille, 0 to 100,000, rising, 1,000 at most.
    millionths : bool
        Whether revenues and costs are whole numbers of millionths.

    Raises
    ------
    Refusal
        As of `solve`; or if an amount or a factor is outside its range, with the first one.
    OverflowError, ValueError, TypeError, NoMemory
        As of `solve`.
    """
    revenue, cost = millionths_of(revenues, "revenues", millionths), millionths_of(costs, "costs", millionths)
    blocks = len(revenue.amounts)
    rows = rows_of(needs, blocks)
    listed = _factors(factors)
    first = np.zeros(blocks, dtype=np.uint32)
    high, low = np.zeros(len(listed), dtype=np.int64), np.zeros(len(listed), dtype=np.uint64)
    place = ctypes.c_uint32()
    arrays: list[np.ndarray] = [revenue.amounts, cost.amounts, rows.starts, rows.needs, listed, first, high, low]
    number = _library.shells(*(part for array in arrays for part in (array, len(array))), ctypes.byref(place))
    if number:
        raise refused(number, place.value, rows, blocks)
    worths = [scaled((int(upper) << 64) + int(lower), WORTH_PLACES) for upper, lower in zip(high, low)]
    return Shells(first.view(np.int32), worths, revenue.rounded + cost.rounded)


def _factors(factors: Iterable[int]) -> NDArray[np.uint32]:
    demand_unmasked(factors, "factors")
    # What is no number of 32 bits becomes the largest, which is over the limit and is refused.
    numbers = (operator.index(factor) for factor in factors)
    return np.array([number if 0 <= number <= MOST_WHOLE else MOST_WHOLE for number in numbers], dtype=np.uint32)

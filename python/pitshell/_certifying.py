"""Certificates: the pit with the flow that shows it, and the check of such a flow from any source."""

from __future__ import annotations

import ctypes
import operator
from dataclasses import dataclass
from decimal import Decimal
from typing import Any, Sequence

import numpy as np
from numpy.typing import ArrayLike, NDArray

from . import _library
from ._amounts import millionths_of
from ._arrays import PLAIN, array_of, rising, rows_of
from ._decimals import PLACES, scaled
from ._refusals import Refusal, refused

MASK = 2**64 - 1


@dataclass(frozen=True)
class Certificate:
    """A pit with a flow that proves it optimal.

    Attributes
    ----------
    in_pit : ndarray of bool, shape (blocks,)
        Whether each block is in the pit.
    worth : Decimal
        The value of the pit, exact.
    flow : ndarray, shape (pairs,)
        The flow on each pair, in the order of `needs`, in millionths: int64, or Python integers if one does not fit.
    rounded : int
        How many values were rounded to millionths.
    """

    in_pit: NDArray[np.bool_]
    worth: Decimal
    flow: NDArray[Any]
    rounded: int


def certificate(values: ArrayLike, needs: Any, *, millionths: bool = False) -> Certificate:
    """Finds the ultimate pit, and a flow that proves it optimal.

    The flow goes from blocks to their predecessors. No block outside the pit has an excess above 0, no block of the pit has one below 0,
    and nothing flows into the pit. Each block of the pit is reached from one with an excess above 0. A proof shows that these conditions
    imply the pit (Picard 1976). `check` tests them.

    Parameters
    ----------
    values, needs, millionths
        As of `solve`.

    Raises
    ------
    Refusal, OverflowError, ValueError, TypeError, NoMemory
        As of `solve`.
    """
    amounts = millionths_of(values, "values", millionths)
    blocks = len(amounts.amounts)
    rows = rising(rows_of(needs, blocks))
    pairs = len(rows.needs)
    marks = np.zeros(blocks, dtype=np.uint8)
    high, low = np.zeros(pairs, dtype=np.int64), np.zeros(pairs, dtype=np.uint64)
    found = _library.Found()
    arrays: list[np.ndarray] = [amounts.amounts, rows.starts, rows.needs, marks, high, low]
    number = _library.certificate(*(part for array in arrays for part in (array, len(array))), ctypes.byref(found))
    if number:
        raise refused(number, found.place, rows, blocks)
    return Certificate(
        marks.view(np.bool_), scaled(found.worth, PLACES), rows.back(_joined(high, low)), amounts.rounded
    )


def check(
    values: ArrayLike, needs: Any, in_pit: ArrayLike, flow: Sequence[int] | NDArray[Any], *, millionths: bool = False
) -> bool:
    """Checks that a flow proves the marked blocks to be the ultimate pit, which any program may have made.

    Parameters
    ----------
    values, needs, millionths
        As of `solve`.
    in_pit : array_like, shape (blocks,)
        Whether each block is in the pit: bool, or 0 and 1.
    flow : sequence of int or ndarray, shape (pairs,)
        The flow on each pair, in the order of `needs`, in whole millionths, 0 to 10^30.

    Raises
    ------
    Refusal
        As of `solve`; or if an amount of flow is outside its range, with the first one.
    OverflowError, ValueError, TypeError, NoMemory
        As of `solve`.
    """
    amounts = millionths_of(values, "values", millionths)
    blocks = len(amounts.amounts)
    rows = rising(rows_of(needs, blocks))
    listed = array_of(flow, "flow")
    if listed.ndim != 1 or len(listed) != len(rows.needs):
        raise Refusal(17)
    high, low = (rows.forth(part) for part in _parted(listed))
    marks = _marks(in_pit)
    yes, place = ctypes.c_bool(), ctypes.c_uint32()
    arrays: list[np.ndarray] = [amounts.amounts, rows.starts, rows.needs, marks, high, low]
    words = [part for array in arrays for part in (array, len(array))]
    number = _library.check(*words, ctypes.byref(yes), ctypes.byref(place))
    if number in (4, 15) and len(listed) and not 0 <= int(listed[rows.need(place.value)]) <= 10**30:
        raise Refusal(number, need=rows.need(place.value))
    if number:
        raise refused(number, place.value, rows, blocks)
    return yes.value


def _joined(high: NDArray[np.int64], low: NDArray[np.uint64]) -> NDArray[Any]:
    """The numbers that parts make, as int64 where all fit."""
    if not high.any() and (low < 2**63).all():
        return low.astype(np.int64)
    return (high.astype(object) << 64) + low.astype(object)


def _parted(numbers: NDArray[Any]) -> tuple[NDArray[np.int64], NDArray[np.uint64]]:
    """The two parts of whole numbers. What does not fit 128 bits becomes the largest that does, or the least, which is refused as well.

    Raises TypeError, by the need, where one is no whole number."""
    if np.issubdtype(numbers.dtype, np.integer):
        return np.where(numbers < 0, -1, 0).astype(np.int64), numbers.astype(np.uint64)
    whole = [_whole(number, need) for need, number in enumerate(numbers)]
    high = [max(-(2**63), min(number >> 64, 2**63 - 1)) for number in whole]
    return np.array(high, dtype=np.int64), np.array([number & MASK for number in whole], dtype=np.uint64)


def _whole(number: Any, need: int) -> int:
    try:
        return operator.index(number)
    except TypeError as error:
        raise TypeError(f"flow: that of need {need} is {number!r}, and not a whole number of millionths") from error


def _marks(in_pit: ArrayLike) -> NDArray[np.uint8]:
    array = array_of(in_pit, "in_pit")
    if array.ndim != 1 or (array.size and array.dtype != np.bool_ and not np.issubdtype(array.dtype, np.integer)):
        raise ValueError(
            f"in_pit is {array.dtype} of shape {array.shape}: hand in a truth for each block, shape (blocks,)"
        )
    if array.dtype != np.bool_:
        array = np.where((array < 0) | (array > 255), 255, array)
    return np.require(array.astype(np.uint8), np.uint8, PLAIN)

"""The ultimate pit of a mine in arrays."""

from __future__ import annotations

import ctypes
from dataclasses import dataclass
from decimal import Decimal
from typing import Any, Literal

import numpy as np
from numpy.typing import ArrayLike, NDArray

from . import _library
from ._amounts import millionths_of
from ._arrays import PLAIN, array_of, rows_of
from ._decimals import PLACES, scaled
from ._refusals import Refusal, refused

FREE, FORCED, BARRED = 0, 1, 2


@dataclass(frozen=True)
class Pit:
    """The pit of a mine.

    Attributes
    ----------
    in_pit : ndarray of bool, shape (blocks,)
        Whether each block is in the pit.
    worth : Decimal
        The value of the pit, exact.
    rounded : int
        How many values were rounded to millionths. The float 0.1 is one, since in binary it is no whole number of millionths.
    """

    in_pit: NDArray[np.bool_]
    worth: Decimal
    rounded: int


def solve(
    values: ArrayLike,
    needs: Any,
    fixed: ArrayLike | None = None,
    pit: Literal["least", "greatest"] = "least",
    *,
    millionths: bool = False,
) -> Pit:
    """Finds the ultimate pit: the smallest closed set of blocks of maximal value, or the largest.

    Other threads of Python run during the call. They must not write to arrays that are not copied.

    Parameters
    ----------
    values : array_like, shape (blocks,)
        The value of each block: whole numbers, floats or Decimal, in one unit. Each is rounded exactly to the nearest millionth, ties to
        even, in any decimal context.
    needs : sparse matrix, pair of arrays, or array_like of shape (pairs, 2)
        The predecessors of each block: a scipy CSR matrix of shape (blocks, blocks), whose values are ignored; (indptr, indices) of such
        a matrix; or pairs (u, p) of "block u depends on p". int32 and uint32 are not copied.
    fixed : array_like, shape (blocks,), optional
        FORCED (1), BARRED (2) or FREE (0) for each block. The pit then contains each forced block and no barred one.
    pit : {"least", "greatest"}
        Which of several sets of maximal value.
    millionths : bool
        Whether the values are whole numbers of millionths. int64 is then not copied.

    Raises
    ------
    Refusal
        If the arrays encode no mine, or one above 4,194,304 blocks or 67,108,864 pairs, or a barred block must be mined.
    OverflowError
        If a value does not fit 64 bits of millionths.
    ValueError
        If an element is masked or not finite.
    TypeError
        If an element is not a number.
    NoMemory
        If memory is refused.
    """
    if pit not in ("least", "greatest"):
        raise ValueError(f"pit is {pit!r} and neither 'least' nor 'greatest'")
    amounts = millionths_of(values, "values", millionths)
    blocks = len(amounts.amounts)
    rows = rows_of(needs, blocks)
    numbers = _numbers(fixed, blocks)
    marks = np.zeros(blocks, dtype=np.uint8)
    found = _library.Found()
    arrays: list[np.ndarray] = [amounts.amounts, rows.starts, rows.needs, numbers]
    slices = [part for array in arrays for part in (array, len(array))]
    number = _library.solve(*slices, pit == "greatest", marks, blocks, ctypes.byref(found))
    if number:
        raise refused(number, found.place, rows, blocks)
    return Pit(marks.view(np.bool_), scaled(found.worth, PLACES), amounts.rounded)


def _numbers(fixed: ArrayLike | None, blocks: int) -> NDArray[np.uint8]:
    if fixed is None:
        return np.zeros(0, dtype=np.uint8)
    array = array_of(fixed, "fixed")
    if array.ndim != 1 or (array.size and not np.issubdtype(array.dtype, np.integer)):
        raise ValueError(
            f"fixed is {array.dtype} of shape {array.shape}: hand in 0, 1 or 2 for each block, shape (blocks,)"
        )
    if len(array) != blocks:
        raise Refusal(17)
    if array.dtype != np.uint8:
        # What is no number of 8 bits becomes 255, which fixes nothing and is refused.
        array = np.where((array < 0) | (array > 255), 255, array)
    return np.require(array, np.uint8, PLAIN)

"""What a caller may hand in, as the arrays that the library takes. Nothing is copied that already has their form."""

from __future__ import annotations

from dataclasses import dataclass
from typing import Any

import numpy as np
from numpy.typing import ArrayLike, NDArray

from ._refusals import Refusal

# What the library takes for granted of memory.
PLAIN: list[Any] = ["C_CONTIGUOUS", "ALIGNED"]
MOST_WHOLE = 2**32 - 1


@dataclass(frozen=True)
class Rows:
    """`starts`, shape (blocks + 1,), and `needs`, shape (pairs,): block u needs `needs[starts[u]:starts[u + 1]]`. `order`, shape (pairs,):
    for each place the number of the need as handed in; None where these are the same."""

    starts: NDArray[np.uint32]
    needs: NDArray[np.uint32]
    order: NDArray[np.int64] | None = None

    def forth(self, amounts: NDArray[Any]) -> NDArray[Any]:
        """What stood by needs as handed in, by places."""
        return amounts if self.order is None else amounts[self.order]

    def back(self, amounts: NDArray[Any]) -> NDArray[Any]:
        """What stands by places, by needs as handed in."""
        if self.order is None:
            return amounts
        found = np.empty_like(amounts)
        found[self.order] = amounts
        return found

    def need(self, place: int) -> int:
        """The number of the need at a place, as handed in."""
        return place if self.order is None else int(self.order[place])


def array_of(given: ArrayLike, name: str) -> NDArray[Any]:
    """The array as numpy makes it. Python's integers of a list stay what they are, as objects, where numpy would make floats of them.

    Raises ValueError where an element is masked.
    """
    demand_unmasked(given, name)
    array = np.asarray(given)
    if array.dtype.kind == "f" and array.size and not hasattr(given, "dtype"):
        objects = np.array(given, dtype=object)
        if all(isinstance(number, (int, np.integer)) for number in objects.flat):
            return objects
    return array


def demand_unmasked(given: object, name: str) -> None:
    """Raises ValueError where an element is masked: what lies behind a mask is no number that was meant."""
    if np.ma.is_masked(given):
        place = ", ".join(map(str, np.argwhere(np.ma.getmaskarray(given))[0]))
        raise ValueError(f"{name}: the element at {place} is masked: hand in a number there, as {name}.filled(0) does")


def _whole(array: ArrayLike, name: str) -> NDArray[np.uint32]:
    """Whole numbers as 32 bits without a sign. A negative one, or one too large, becomes the largest, which no mine has."""
    array = np.require(array_of(array, name), requirements=PLAIN)
    if array.ndim != 1:
        raise ValueError(f"{name} has shape {array.shape} and not one dimension")
    if array.dtype == np.uint32:
        return array
    if array.dtype == np.int32:
        return array.view(np.uint32)
    is_whole = array.dtype == object and all(isinstance(number, (int, np.integer)) for number in array)
    if not is_whole and not np.issubdtype(array.dtype, np.integer) and array.size:
        raise TypeError(f"{name} are {array.dtype} and not whole numbers")
    if array.size and (array.min() < 0 or array.max() > MOST_WHOLE):
        array = np.where((array < 0) | (array > MOST_WHOLE), MOST_WHOLE, array)
    return array.astype(np.uint32)


def _of_pairs(pairs: NDArray[Any], blocks: int) -> Rows:
    """Rows of the pairs (u, p) of "u needs p", in any order; of one row they stay in their order."""
    users = _whole(pairs[:, 0], "needs[:, 0]")
    needed = _whole(pairs[:, 1], "needs[:, 1]")
    outside = np.flatnonzero(users >= blocks)
    if outside.size:
        raise Refusal(7, block=int(pairs[outside[0], 0]))
    starts = np.zeros(blocks + 1, dtype=np.uint32)
    np.cumsum(np.bincount(users, minlength=blocks), out=starts[1:], dtype=np.uint32)
    if (users[1:] >= users[:-1]).all():
        return Rows(starts, needed)
    order = np.argsort(users, kind="stable")
    return Rows(starts, needed[order], order)


def rows_of(needs: Any, blocks: int) -> Rows:
    """The rows of a CSR matrix, of (indptr, indices), or of pairs."""
    if hasattr(needs, "indptr") and hasattr(needs, "indices"):
        if getattr(needs, "format", "csr") != "csr":
            raise TypeError(f"needs are a sparse matrix in {needs.format}: tocsr() makes rows of it")
        if needs.shape != (blocks, blocks):
            raise ValueError(f"needs have shape {needs.shape} and not ({blocks}, {blocks})")
        return Rows(_whole(needs.indptr, "needs.indptr"), _whole(needs.indices, "needs.indices"))
    if isinstance(needs, tuple) and len(needs) == 2:
        return Rows(_whole(needs[0], "needs[0]"), _whole(needs[1], "needs[1]"))
    pairs = array_of(needs, "needs")
    if pairs.size == 0:
        return Rows(np.zeros(blocks + 1, dtype=np.uint32), np.zeros(0, dtype=np.uint32))
    if pairs.ndim != 2 or pairs.shape[1] != 2:
        raise ValueError(
            f"needs have shape {pairs.shape}: hand in a CSR matrix, (indptr, indices) or pairs of shape (pairs, 2)"
        )
    return _of_pairs(pairs, blocks)


def rising(rows: Rows) -> Rows:
    """The same rows with rising blocks; as they are, where these make no rows, which the library refuses."""
    lengths = np.diff(rows.starts.astype(np.int64))
    if (lengths < 0).any() or lengths.sum() != len(rows.needs):
        return rows
    order = np.lexsort((rows.needs, np.repeat(np.arange(len(lengths)), lengths)))
    return Rows(rows.starts, rows.needs[order], order if rows.order is None else rows.order[order])

"""Columns of whole numbers and decimals as bytes, a line a row, by numpy alone: millions of lines in seconds.

A field is a matrix of bytes with as many columns as its widest text; bytes that a shorter text does not use are 0, and
are dropped when the lines are joined.
"""

from __future__ import annotations

import numpy as np

DOT, MINUS, SPACE, ZERO, LINE_END = (ord(sign) for sign in ".- 0\n")
PLACES = 6


def whole(values: np.ndarray) -> np.ndarray:
    """Returns whole numbers that are not negative as fields, without leading zeros."""
    values = np.asarray(values, dtype=np.int64)
    width = len(str(int(values.max(initial=0))))
    result = padded(values, width)
    least = 10 ** np.arange(width - 1, 0, -1, dtype=np.int64)
    result[:, :-1][values[:, None] < least] = 0
    return result


def padded(values: np.ndarray, width: int) -> np.ndarray:
    """Returns whole numbers as fields, with leading zeros to a width."""
    result = np.empty((len(values), width), dtype=np.uint8)
    left = values
    for place in range(width - 1, -1, -1):
        left, digit = np.divmod(left, 10)
        result[:, place] = digit + ZERO
    return result


def decimals(millionths: np.ndarray) -> np.ndarray:
    """Returns millionths as fields, such as `-12.5` for -12500000, without zeros at the end; up to twelve digits before the point."""
    millionths = np.asarray(millionths, dtype=np.int64)
    size = np.abs(millionths)
    sign = np.where(millionths < 0, MINUS, 0).astype(np.uint8)[:, None]
    fraction = size % 10**PLACES
    after = padded(fraction, PLACES)
    after[fraction[:, None] % 10 ** np.arange(PLACES, 0, -1) == 0] = 0
    dot = np.where(fraction > 0, DOT, 0).astype(np.uint8)[:, None]
    return np.hstack([sign, whole(size // 10**PLACES), dot, after])


def lines(fields: list[np.ndarray]) -> bytes:
    """Returns a line for each row, its fields joined by spaces. A field of zero bytes alone is left out with its space."""
    rows = len(fields[0])
    parts = [fields[0]]
    for field in fields[1:]:
        there = (field != 0).any(axis=1)
        parts += [np.where(there, SPACE, 0).astype(np.uint8)[:, None], field]
    parts.append(np.full((rows, 1), LINE_END, dtype=np.uint8))
    text = np.hstack(parts)
    return text[text != 0].tobytes()


def ragged(firsts: list[np.ndarray], many: np.ndarray, absent: int) -> bytes:
    """Returns a line for each row: the first fields, and then the whole numbers of the row of `many` that are not `absent`."""
    rows, most = many.shape
    there = many != absent
    field = whole(np.where(there, many, 0).ravel())
    spaced = np.hstack([np.full((rows * most, 1), SPACE, dtype=np.uint8), field])
    spaced[~there.ravel()] = 0
    head = [part for first in firsts for part in (first, np.full((rows, 1), SPACE, dtype=np.uint8))][:-1]
    text = np.hstack([*head, spaced.reshape(rows, -1), np.full((rows, 1), LINE_END, dtype=np.uint8)])
    return text[text != 0].tobytes()

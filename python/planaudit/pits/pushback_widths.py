"""Verifies minimum widths and pieces of pushbacks, by counting cells in rectangles and by connected components."""

from __future__ import annotations

import math

import numpy as np
import pandas as pd

from planaudit.blocks import constraints
from planaudit.errors import demanded
from planaudit.ground import slopes
from planaudit.inputs.answer import NOTHING, Answer
from planaudit.rules import TOLD, Rule, rule

PUSHBACKS = "tables/pushbacks.csv"
# Rows and columns of blocks.
Rectangle = tuple[int, int]
# Tolerance of metres, which are written to a thousandth.
LAST_PLACE = 0.6e-3


def verify(answer: Answer) -> Rule:
    """Verifies that the minimum widths are met, and that `pieces` and `min_width` of each pushback are right."""
    cube, room = cube_of(answer), room_of(answer)
    differences: list[str] = []
    table: pd.DataFrame = demanded(answer.pushbacks, PUSHBACKS)
    count = 0
    for number, said in table.iterrows():
        narrow, more = too_narrow(answer, cube, room, int(number))
        differences, count = differences + narrow, count + more
        shape = unlike_shape(answer, cube == number, room, said)
        differences += [f"pushback {number}: {text}" for text in shape]
        count += len(shape)
    return rule("pushback widths", holds(answer), differences, count)


def holds(answer: Answer) -> str:
    asked, wide = answer.project.pushbacks, []
    for metres, of_what in (
        (asked and asked["min_mining_width"], "its pushback"),
        (asked and asked["min_bottom_width"], "the pit up to its pushback"),
    ):
        if metres:
            wide.append(
                f"each block lies in a square {metres:g} m wide of {of_what} on its bench, with air and must-mine blocks; "
            )
    return "".join(wide) + "pieces and minimum width of each pushback follow from its blocks"


def cube_of(answer: Answer) -> np.ndarray:
    """Returns the pushback of each cell, 0 without a block; shape (levels, rows, columns)."""
    cube = np.zeros(answer.shape, dtype=np.int64)
    cube[answer.cells] = answer.said["pushback"].to_numpy()
    return cube


def room_of(answer: Answer) -> np.ndarray:
    """Returns whether each cell counts as room: air, or a must-mine block; shape (levels, rows, columns)."""
    room = answer.first_factor == NOTHING
    rules = answer.project.constraints
    if rules is not None:
        must = np.zeros(answer.shape, dtype=bool)
        must[answer.cells] = constraints.demanded(answer, rules)[0]
        room = room | slopes.needed_by(answer, must)
    return room


def too_narrow(answer: Answer, cube: np.ndarray, room: np.ndarray, number: int) -> tuple[list[str], int]:
    """Returns the first ten blocks of a pushback that lie in no rectangle of the minimum widths, and their number. Another rule reports a project
    without pushbacks."""
    asked, wrong = answer.project.pushbacks, np.zeros(answer.shape, dtype=bool)
    if asked is None:
        return [], 0
    for wide, there in (
        (asked["min_mining_width"], cube == number),
        (asked["min_bottom_width"], (cube > 0) & (cube <= number)),
    ):
        if wide is not None:
            covered = np.stack([cells_in(level, blocks_across(answer, wide)) for level in there | room])
            wrong |= (cube == number) & ~room & ~covered
    rows = np.flatnonzero(wrong[answer.cells])
    return [f"{answer.called(row)} of pushback {number} lies where it is too narrow" for row in rows[:TOLD]], len(rows)


def blocks_across(answer: Answer, wide: float) -> Rectangle:
    """Returns the least number of blocks north and east that make a width in metres."""
    east, north, _ = answer.size
    counts = [int(wide // side) for side in (north, east)]
    enough = [count + (count * side < wide * (1 - 1e-12)) for count, side in zip(counts, (north, east))]
    return max(1, enough[0]), max(1, enough[1])


def cells_in(level: np.ndarray, shape: Rectangle) -> np.ndarray:
    """Returns the cells that lie in a rectangle of marked cells, by sums over rectangles."""
    north, east = shape
    rows, columns = level.shape
    found = np.zeros(level.shape, dtype=bool)
    if north > rows or east > columns:
        return found
    full = sums_over(level, shape) == north * east
    # A cell is covered if one of the rectangles that hold it is full: those that begin up to a rectangle's size before it.
    begins = np.pad(full, ((north - 1, north - 1), (east - 1, east - 1)))
    return sums_over(begins, shape) > 0


def sums_over(values: np.ndarray, shape: Rectangle) -> np.ndarray:
    """Returns the sum over the rectangle that begins at each position."""
    north, east = shape
    sums = np.pad(values.astype(np.int64).cumsum(axis=0).cumsum(axis=1), ((1, 0), (1, 0)))
    return sums[north:, east:] - sums[:-north, east:] - sums[north:, :-east] + sums[:-north, :-east]


def unlike_shape(answer: Answer, pushback: np.ndarray, room: np.ndarray, said: pd.Series) -> list[str]:
    """Returns differences of `pieces` and `min_width` of a pushback."""
    rock = pushback & (answer.first_factor != NOTHING)
    pieces, least, step = count_pieces(rock), float(said["min_width"]), min(answer.size[:2])
    found = [f"pieces {said['pieces']:g} for {pieces}"] if said["pieces"] != pieces else []
    asking = pushback & ~room
    if math.isnan(least) or not asking.any():
        return found + ([f"min_width {least:g}"] if asking.any() or not math.isnan(least) else [])
    if abs(least - step * round(least / step)) > LAST_PLACE:
        found.append(f"min_width {least:g} is not a multiple of {step:g} m")
    for wide, is_so in ((least, True), (least + step, False)):
        covered = np.stack([cells_in(level, blocks_across(answer, wide)) for level in pushback | room])
        if (asking & ~covered).any() == is_so:
            found.append(f"min_width {least:g}, and {wide:g} m is {'too wide' if is_so else 'not too wide'}")
    return found


def count_pieces(rock: np.ndarray) -> int:
    """Returns the number of components of cells that share a side."""
    number = np.full(rock.shape, -1)
    number[rock] = np.arange(np.count_nonzero(rock))
    pairs = []
    for axis in range(3):
        first, second = (np.moveaxis(number, axis, 0)[part].ravel() for part in (slice(None, -1), slice(1, None)))
        both = (first >= 0) & (second >= 0)
        pairs.append(np.stack([first[both], second[both]]))
    first, second = np.concatenate(pairs, axis=1)
    count = int(np.count_nonzero(rock))
    if not count:
        return 0
    # Here, since it takes a tenth of a second and only pushbacks need it.
    from scipy.sparse import coo_matrix
    from scipy.sparse.csgraph import connected_components

    touching = coo_matrix((np.ones(len(first)), (first, second)), shape=(count, count))
    return int(connected_components(touching, directed=False)[0])

"""Minimum mining width of pushbacks, by morphology on the levels of the grid.

A level of a pushback is wide enough if each of its blocks lies in a rectangle of blocks, as wide as asked in both directions, that the pushback
mines on that level: if the level is its own opening by the rectangle (Serra, Image Analysis and Mathematical Morphology, 1982). Air counts as
room, and so do must-mine blocks. From the last pit inwards:

1. The last pit keeps the largest part whose levels are wide enough, without waste on which only the removed part depended, if that gains. It
   first grows if that gains more than it costs: each narrow block gets the rectangle around it that mines least, with its predecessors.
2. Small narrow pieces of a pushback move to the pushback before, with their predecessors.
3. At other narrow places the pit before shrinks: each narrow block gets the rectangle around it that takes least of that pit, with its
   successors. Then that pit keeps the largest part whose levels are wide enough.

Only the third step guarantees the width; only the first removes material from the last pit.
"""

from __future__ import annotations

import math
from dataclasses import dataclass
from typing import Optional

import numpy as np
from scipy import ndimage

from pitplan.blockmodel import missing_blocks
from pitplan.blockmodel.grid import metres
from pitplan.config.shells import PushbackRules
from pitplan.core.revenue_factors import factor_text
from pitplan.core.tolerances import SUM_ERROR
from pitplan.errors import PlanError
from pitplan.plan import Plan
from pitplan.slopes import closure

# Rows and columns of blocks.
Rectangle = tuple[int, int]
# Cells that touch by a side, an edge or a corner are of one piece of needs.
TOUCHING = np.ones((3, 3, 3), dtype=bool)
# Narrow pieces of up to this share of a pushback's tonnes go to the pushback before.
SMALL = 0.25
# A pushback that keeps less than this share of what its shell adds is reported.
FEW = 0.5
# The largest number of remaining pieces that are named one by one.
NAMED = 5


@dataclass(frozen=True)
class MinableArea:
    """What may be mined, and how wide; arrays of shape (levels from the top, rows, columns).

    Attributes
    ----------
    tonnes : float array
        Total material.
    free : bool array
        Room for every pushback: air and must-mine blocks.
    may : bool array
        What may be mined: neither excluded nor missing blocks, nor their successors.
    value : int64 array
        The value of each cell at the revenue factor of the last pushback, in billionths of the currency.
    width : tuple, optional
        The rectangle of a pushback in blocks; None: any.
    bottom : tuple, optional
        The rectangle of the pit up to a pushback.
    """

    plan: Plan
    tonnes: np.ndarray
    free: np.ndarray
    may: np.ndarray
    value: np.ndarray
    width: Optional[Rectangle]
    bottom: Optional[Rectangle]

    def value_of(self, pit: np.ndarray) -> int:
        return int(self.value[pit].sum())


def ground_of(plan: Plan, rules: PushbackRules) -> MinableArea:
    grid, last = plan.grid, plan.project.shells.revenue_factors[-1]
    closed = closure.users_of(grid, plan.domains, unknown(plan))
    if plan.settled is not None:
        closed |= plan.settled.left
    sides = (grid.size[1], grid.size[0])
    width, bottom = (
        None if wide is None else rectangle(wide, sides) for wide in (rules.min_mining_width, rules.min_bottom_width)
    )
    tonnes, may, value = (grid.cube(cells) for cells in (plan.values.tonnes, ~closed, plan.values.greatest_value(last)))
    return MinableArea(plan, tonnes, free_of(plan), may, value, width, bottom)


def unknown(plan: Plan) -> np.ndarray:
    """Returns a boolean mask of the missing blocks."""
    found = np.zeros(plan.grid.count, dtype=bool)
    if plan.project.table.missing_blocks != "air":
        found[missing_blocks.unknown_cells(plan.grid)] = True
    return found


def free_of(plan: Plan) -> np.ndarray:
    """Returns the mask of the room for every pushback: air and must-mine blocks; shape (levels, rows, columns)."""
    free = (plan.values.tonnes == 0) & ~unknown(plan)
    return plan.grid.cube(free if plan.settled is None else free | plan.settled.mined)


def rectangle(wide: float, sides: tuple[float, float]) -> Rectangle:
    """Returns the blocks north and east that are at least this many metres wide; `sides` are those of a block."""
    north, east = (max(1, math.ceil(wide / side - SUM_ERROR)) for side in sides)
    return north, east


def widened(pushback: np.ndarray, plan: Plan, rules: PushbackRules) -> tuple[np.ndarray, list[str]]:
    """Returns the pushback of each cell, with each pushback wide enough, and notes on what is lost for it.

    Must-mine blocks stay in pushback 1, however narrow. Raises PlanError if no part of the last pit is wide enough.
    """
    ground, count = ground_of(plan, rules), len(plan.project.shells.revenue_factors)
    cube = plan.grid.cube(pushback)
    pits = [(cube > 0) & (cube <= number) for number in range(1, count + 1)]
    found = wide_pits(pits, ground)
    if not ((ground.tonnes > 0) & found[-1]).any():
        factor = plan.project.shells.revenue_factors[-1]
        raise PlanError(
            f"{plan.project.path}: [pushbacks] min_mining_width, min_bottom_width: no part of the pit of revenue factor {factor_text(factor)} meets the minimum width: reduce it"
        )
    result = np.zeros(plan.grid.shape, dtype=np.int16)
    for number in range(count, 0, -1):
        result[found[number - 1]] = number
    return result.ravel(), notes_of(cube, result, ground, rules)


def wide_pits(pits: list[np.ndarray], ground: MinableArea) -> list[np.ndarray]:
    """Returns the pits made wide enough, each within the next: the last by what it leaves, the others by what they leave to the next pushback."""
    outer = best(pits[-1], ground)
    found = [outer]
    for pit in reversed(pits[:-1]):
        outer = shrunk(advanced(pit & outer, outer, ground), outer, ground)
        found.insert(0, outer)
    return found


def best(pit: np.ndarray, ground: MinableArea) -> np.ndarray:
    """Returns the last pit made wide enough: the most valuable of itself, of it grown, and of it grown only in the pieces where that gains."""
    alone, more = lean(pit, ground), lean(grown(pit, ground), ground)
    pieces, count = ndimage.label(alone ^ more, TOUCHING)
    gains = ndimage.sum_labels(np.where(more, 1.0, -1.0) * ground.value.astype(float), pieces, np.arange(count + 1))
    some = lean(with_precedences(np.where((gains > 0)[pieces], more, alone), ground), ground)
    return max((alone, more, some), key=ground.value_of)


def lean(pit: np.ndarray, ground: MinableArea) -> np.ndarray:
    """Returns the wide part of a last pit, without waste on which only the removed part depended, if that gains."""
    nothing = np.zeros_like(pit)
    whole = shrunk(pit, nothing, ground)
    wanted = (ground.value > 0).astype(bool) | (ground.free & (ground.tonnes > 0))
    less = shrunk(with_precedences(whole & wanted, ground), nothing, ground)
    return max((whole, less), key=ground.value_of)


def advanced(inner: np.ndarray, outer: np.ndarray, ground: MinableArea) -> np.ndarray:
    """Returns the inner pit with the small narrow pieces of the pushback between the two, and their predecessors."""
    between = outer & ~inner
    narrow = [pushback & ~opened(pushback, free, ground.width) for pushback, free in zip(between, ground.free)]
    more = with_precedences(inner | np.stack(narrow), ground) & between
    pieces, count = ndimage.label(more, TOUCHING)
    weights = ndimage.sum_labels(ground.tonnes, pieces, np.arange(count + 1))
    small = weights <= SMALL * ground.tonnes[between].sum()
    small[0] = False
    return with_precedences(inner | small[pieces], ground)


def shrunk(inner: np.ndarray, outer: np.ndarray, ground: MinableArea) -> np.ndarray:
    """Returns the part of the inner pit that is wide enough, and leaves enough room for a pushback between it and the outer one, if any.

    Levels are processed from the top: successors of what is removed above are removed too.
    """
    found, left, plan = inner.copy(), np.zeros_like(inner), ground.plan
    for level in range(len(found)):
        pit = found[level] & ~closure.users_at(left, level, plan.grid, plan.domains)
        found[level] = shrunk_level(pit, outer[level], level, ground)
        left[level] = inner[level] & ~found[level]
    return found


def shrunk_level(pit: np.ndarray, outer: np.ndarray, level: int, ground: MinableArea) -> np.ndarray:
    """Returns what remains of a level of the inner pit. It shrinks until nothing is too narrow; must-mine blocks and air stay."""
    free = ground.free[level]
    while True:
        between = outer & ~pit
        grow(between, outer | free, ground.width, free)
        wide = pit & ~between | pit & free
        for shape in (ground.width, ground.bottom):
            wide = opened(wide, free, shape) & wide | wide & free
        if (wide == pit).all():
            return pit
        pit = wide


def opened(mask: np.ndarray, free: np.ndarray, shape: Optional[Rectangle]) -> np.ndarray:
    """Returns the cells that lie in a rectangle of true and free cells; all without a rectangle."""
    if shape is None or not mask.any():
        return mask
    # A line each way gives the same as the rectangle, and is faster.
    north, east = np.ones((shape[0], 1), dtype=bool), np.ones((1, shape[1]), dtype=bool)
    whole = ndimage.binary_erosion(ndimage.binary_erosion(mask | free, north), east)
    return ndimage.binary_dilation(ndimage.binary_dilation(whole, east), north)


def grown(pit: np.ndarray, ground: MinableArea) -> np.ndarray:
    """Returns the pit with the rectangle around each of its narrow blocks that mines least, and all predecessors."""
    found, plan = pit.copy(), ground.plan
    for level in range(len(found) - 1, -1, -1):
        for shape in (ground.width, ground.bottom):
            grow(found[level], ground.may[level], shape, ground.free[level])
        closure.mark_predecessors(found, level, plan.grid, plan.domains)
    return found


def grow(mask: np.ndarray, may: np.ndarray, shape: Optional[Rectangle], free: np.ndarray) -> None:
    """Adds to a level, in place, the rectangle around each narrow cell that adds least within `may`; without one the cell stays narrow. Of several
    the first from the south-west is taken.
    """
    if shape is None:
        return
    north, east = shape
    for row, column in np.argwhere(mask & ~free & ~opened(mask, free, shape)):
        places = [
            (slice(south, south + north), slice(west, west + east))
            for south in range(max(0, row - north + 1), min(row, mask.shape[0] - north) + 1)
            for west in range(max(0, column - east + 1), min(column, mask.shape[1] - east) + 1)
        ]
        places = [place for place in places if may[place].all()]
        if places:
            least = min(places, key=lambda place: np.count_nonzero(~mask[place] & ~free[place]))
            mask[least] |= ~free[least]


def with_precedences(pit: np.ndarray, ground: MinableArea) -> np.ndarray:
    return ground.plan.grid.cube(closure.used_blocks(ground.plan.grid, ground.plan.domains, pit.ravel()))


def min_width(pushback: np.ndarray, free: np.ndarray, sides: tuple[float, float]) -> float:
    """Returns the width of a pushback in metres, its minimum over the levels, in whole steps of a block's lesser side; nan if it is empty.

    `pushback` and `free` are masks of shape (levels, rows, columns); `sides` are a block's metres north and east.
    """
    levels = [number for number, level in enumerate(pushback & ~free) if level.any()]
    if not levels:
        return math.nan
    step, wide = min(sides), 1
    while all(is_wide(pushback[number], free[number], rectangle((wide + 1) * step, sides)) for number in levels):
        wide += 1
    return wide * step


def is_wide(mask: np.ndarray, free: np.ndarray, shape: Rectangle) -> bool:
    return not (mask & ~free & ~opened(mask, free, shape)).any()


def notes_of(before: np.ndarray, after: np.ndarray, ground: MinableArea, rules: PushbackRules) -> list[str]:
    """Returns notes on the material that the widths moved, and on the pieces that are not mined."""
    rock, tonnes = ground.tonnes > 0, ground.tonnes
    asked = [
        f"{name} {metres(wide)} m"
        for name, wide in (("mining width", rules.min_mining_width), ("bottom width", rules.min_bottom_width))
        if wide is not None
    ]
    moved = (
        ("earlier", (after > 0) & (before > after)),
        ("later", (before > 0) & (after > before)),
        ("additionally", (before == 0) & (after > 0)),
        ("never", (before > 0) & (after == 0)),
    )
    told = [f"{np.count_nonzero(cells & rock):,} {word} ({tonnes[cells].sum():,.0f} t)" for word, cells in moved]
    notes = [f"blocks moved to meet the minimum {' and '.join(asked)}: {', '.join(told)}"]
    for number in range(1, int(before.max()) + 1):
        shell, pushback = (float(tonnes[cube == number].sum()) for cube in (before, after))
        if pushback < FEW * shell:
            notes.append(
                f"WARNING: at this width pushback {number} keeps {pushback:,.0f} of {shell:,.0f} t of its shell; reduce the number or width of pushbacks"
            )
    return notes + left_pieces((before > 0) & (after == 0) & rock, tonnes, ground)


def left_pieces(left: np.ndarray, tonnes: np.ndarray, ground: MinableArea) -> list[str]:
    """Returns the pieces too small to mine, the heaviest first: blocks, tonnes and centre of each."""
    pieces, count = ndimage.label(left)
    found = []
    for number in range(1, count + 1):
        cells = np.flatnonzero(pieces.ravel() == number)
        x, y, z = (metres(axis.mean().round(1)) for axis in ground.plan.grid.centres(cells))
        weight = float(tonnes.ravel()[cells].sum())
        found.append(
            (weight, f"{len(cells):,} block{'s' if len(cells) > 1 else ''}, {weight:,.0f} t, about {x}, {y}, {z}")
        )
    found.sort(key=lambda piece: -piece[0])
    notes = [f"too small to mine: {text}" for _, text in found[:NAMED]]
    if count > NAMED:
        rest = found[NAMED:]
        notes.append(
            f"too small to mine: {len(rest):,} more pieces, {sum(weight for weight, _ in rest):,.0f} t in total"
        )
    return notes

"""Slopes of a whole grid: which arcs each block has, so that they imply all precedences of its slope domain.

A block depends on every block of the cone of its own domain. Within a domain the minimal list of the cone implies all of them. Where domains
meet, a block in between may have steeper slopes, which imply less: there the missing arcs are added.
"""

from __future__ import annotations

from dataclasses import dataclass
from typing import Iterator

import numpy as np
import pandas as pd

from pitplan.blockmodel.grid import Grid
from pitplan.config.geometry import Slopes
from pitplan.errors import PlanError

from . import slope_patterns
from .slope_patterns import Pattern, pattern_of


@dataclass(frozen=True)
class StepList:
    """Steps to the predecessors of a block, from the highest level down, then from the south-west, so that ids ascend.

    Attributes
    ----------
    steps : array of int, shape (steps, 3)
        Blocks east, north and up.
    via : array of int, shape (steps, 3)
        For each step a lower one between the block and it; zeros if its arc is always written.
    led : array of bool, shape (steps, patterns)
        Whether the slopes of a pattern at `via` imply the step, which then has no arc.
    """

    steps: np.ndarray
    via: np.ndarray
    led: np.ndarray

    @property
    def always(self) -> np.ndarray:
        """Whether the arc of each step is written for any slopes in between, shape (steps,)."""
        return ~self.via.any(axis=1)


@dataclass(frozen=True)
class SlopeDomains:
    """All slope patterns, and the list of steps of each cell.

    Attributes
    ----------
    code : array of int, shape (cells,)
        The pattern of each cell.
    lists : tuple of StepList
        Two for each pattern: for blocks within a domain, and for blocks where domains meet.
    list_of : array of int, shape (cells,)
        The list of each cell.
    """

    patterns: tuple[Pattern, ...]
    code: np.ndarray
    lists: tuple[StepList, ...]
    list_of: np.ndarray


def domains_of(domain_code: np.ndarray, grid: Grid, slopes: Slopes) -> SlopeDomains:
    """Returns the slopes of a project. `domain_code` has the slope domain of each cell, "" if it is unknown, shape (cells,). Raises PlanError if a
    domain of blocks has no slopes."""
    patterns = tuple(pattern_of(domain, grid.size, slopes, grid.azimuth) for domain in slopes.domains)
    return laid(patterns, pattern_codes(domain_code, slopes), grid)


def pattern_codes(domain_code: np.ndarray, slopes: Slopes) -> np.ndarray:
    """Returns the index of each cell's entry in `[[slopes.domains]]`. Raises PlanError if a domain of blocks has none."""
    by_domain = {name: k for k, domain in enumerate(slopes.domains) for name in domain.domains or ()}
    others = next((k for k, domain in enumerate(slopes.domains) if domain.domains is None), None)
    inverse, codes = pd.factorize(domain_code.astype(object), sort=True)
    if others is None and not any(codes):
        raise PlanError("[slopes] all [[slopes.domains]] name a domain, and [table] names no column as domain")
    numbers = []
    for name in codes:
        number = by_domain.get(str(name), others)
        if number is None and name != "":
            raise PlanError(
                f"[slopes] no [[slopes.domains]] is for domain {name}, and none applies to all other domains"
            )
        numbers.append(0 if number is None else number)
    return np.array(numbers, dtype=np.int16)[inverse]


def laid(patterns: tuple[Pattern, ...], code: np.ndarray, grid: Grid) -> SlopeDomains:
    """Returns the lists of each pattern next to the others of the grid, and the list of each cell."""
    present = np.unique(code)
    shared = slope_patterns.least(slope_patterns.meet([patterns[number].cone for number in present]))
    lists: list[StepList] = []
    list_of = 2 * code
    for number, pattern in enumerate(patterns):
        amid = always_written(np.array(pattern.offsets), len(patterns))
        lists += [amid, amid]
        if number in present:
            lists[-1] = where_regions_meet(pattern, patterns, shared)
            list_of[(code == number) & not_led(lists[-1], code, grid)] += 1
    return SlopeDomains(patterns, code, tuple(lists), list_of)


def always_written(steps: np.ndarray, patterns: int) -> StepList:
    return in_order(StepList(steps, np.zeros_like(steps), np.zeros((len(steps), patterns), dtype=bool)))


def where_regions_meet(pattern: Pattern, patterns: tuple[Pattern, ...], shared: np.ndarray) -> StepList:
    """Returns the steps of a pattern's list, and those that only the pattern's own slopes imply.

    `shared` is the minimal list of the intersection of all cones of the grid: a block of any domain implies its steps.
    """
    kept = np.array(pattern.offsets)
    first = always_written(kept, len(patterns))
    open_steps = slope_patterns.steps_of(pattern.cone & ~slope_patterns.led_to(pattern.cone, shared))
    number = slope_patterns.ways(pattern.cone, open_steps, kept)
    more, via = open_steps[number >= 0], kept[number[number >= 0]]
    led = np.stack([slope_patterns.holds(other.cone, more - via) for other in patterns], axis=1)
    both = [np.concatenate(pair) for pair in ((first.steps, more), (first.via, via), (first.led, led))]
    return in_order(StepList(*both))


def in_order(steps: StepList) -> StepList:
    east, north, up = steps.steps.T
    order = np.lexsort((east, north, -up))
    return StepList(steps.steps[order], steps.via[order], steps.led[order])


def not_led(steps: StepList, code: np.ndarray, grid: Grid) -> np.ndarray:
    """Returns whether a block in each cell would have a step of the list that no slopes in between imply, shape (cells,)."""
    found = np.zeros(grid.shape, dtype=bool)
    more = ~steps.always
    for via in np.unique(steps.via[more], axis=0):
        led = steps.led[(steps.via == via).all(axis=1) & more].all(axis=0)
        if not led.all():
            mark(found, grid.cube(~led[code]), via)
    return found.ravel()


def mark(found: np.ndarray, there: np.ndarray, step: np.ndarray) -> None:
    """Marks the cells from which a step leads to a given cell, in a boolean array of shape (levels, rows, columns)."""
    east, north, up = step
    levels, rows, columns = found.shape
    if up >= levels or abs(north) >= rows or abs(east) >= columns:
        return
    of = (slice(max(0, -north), rows - max(0, north)), slice(max(0, -east), columns - max(0, east)))
    to = (slice(max(0, north), rows - max(0, -north)), slice(max(0, east), columns - max(0, -east)))
    found[up:, of[0], of[1]] |= there[: levels - up, to[0], to[1]]


def domain_codes_of(frame: pd.DataFrame, grid: Grid, column: str | None) -> np.ndarray:
    """Returns the slope domain of each cell, shape (cells,). A cell without a row takes that of the next block below, otherwise above."""
    if column is None:
        return np.full(grid.count, "", dtype="U1")
    inverse, codes = pd.factorize(frame[column].astype(str).to_numpy(), sort=True)
    cube = grid.cube(grid.spread(inverse.astype(np.int32), -1)).copy()
    for level in range(grid.shape[0] - 2, -1, -1):
        cube[level] = np.where(cube[level] < 0, cube[level + 1], cube[level])
    for level in range(1, grid.shape[0]):
        cube[level] = np.where(cube[level] < 0, cube[level - 1], cube[level])
    flat = cube.ravel()
    return np.where(flat < 0, "", codes.astype(str)[flat])


ABSENT = -1
# Elements of a slice: enough for numpy to be fast, within tens of megabytes.
FIELDS = 1_000_000


@dataclass(frozen=True)
class Slice:
    """Some blocks with their predecessors.

    Attributes
    ----------
    ids : array of int, shape (blocks,)
        The blocks, ascending.
    precedences : array of int, shape (blocks, most)
        The predecessors of each block, ascending, with ABSENT between and after them.
    clipped : int
        The number of precedences of minimal lists that leave the grid at its sides, where the ground is unknown.
    """

    ids: np.ndarray
    precedences: np.ndarray
    clipped: int


def slices(grid: Grid, domains: SlopeDomains, blocks: np.ndarray) -> Iterator[Slice]:
    """Yields the predecessors of blocks, whose ids ascend. Above the highest level none exist."""
    most = max((len(domains.lists[number].steps) for number in np.unique(domains.list_of[blocks])), default=1)
    step = max(1, FIELDS // most)
    for start in range(0, len(blocks), step):
        yield slice_of(grid, domains, blocks[start : start + step])


def slice_of(grid: Grid, domains: SlopeDomains, ids: np.ndarray) -> Slice:
    mine = domains.list_of[ids]
    found = [
        (mine == number, listed(grid, domains, ids[mine == number], domains.lists[number]))
        for number in np.unique(mine)
    ]
    precedences = np.full((len(ids), max(part.shape[1] for _, (part, _) in found)), ABSENT, dtype=np.int64)
    for rows, (part, _) in found:
        precedences[rows, : part.shape[1]] = part
    return Slice(ids, precedences, sum(clipped for _, (_, clipped) in found))


def listed(grid: Grid, domains: SlopeDomains, ids: np.ndarray, steps: StepList) -> tuple[np.ndarray, int]:
    """Returns the predecessors of blocks with one list, shape (blocks, steps), and how many unconditional steps leave the grid at its sides."""
    column, row, level = (part[:, None] for part in grid.indices(ids))
    east, north, up = steps.steps.T
    x, y, z = column + east, row + north, level - up
    below_top = z >= 0
    beside = (x < 0) | (x >= grid.shape[2]) | (y < 0) | (y >= grid.shape[1])
    clipped = int(np.count_nonzero((beside & below_top)[:, steps.always]))
    there = below_top & ~beside
    if not steps.always.all():
        there &= ~led_on(grid, domains, ids, steps, there=there)
        return packed(there, (z * grid.shape[1] + y) * grid.shape[2] + x), clipped
    return np.where(there, (z * grid.shape[1] + y) * grid.shape[2] + x, ABSENT), clipped


def led_on(grid: Grid, domains: SlopeDomains, ids: np.ndarray, steps: StepList, *, there: np.ndarray) -> np.ndarray:
    """Returns whether the slopes of an intermediate block imply a step, which then needs no arc; bool, shape (blocks, steps)."""
    east, north, up = steps.via.T
    way = ids[:, None] + (north - up * grid.shape[1]) * grid.shape[2] + east
    return steps.led[np.arange(len(up)), domains.code[np.where(there, way, ids[:, None])]]


def packed(there: np.ndarray, values: np.ndarray) -> np.ndarray:
    """Returns the selected values of each row, moved to its first columns, padded with ABSENT."""
    count = there.sum(axis=1)
    result = np.full((len(there), int(count.max(initial=0))), ABSENT, dtype=np.int64)
    result[np.arange(result.shape[1]) < count[:, None]] = values[there]
    return result

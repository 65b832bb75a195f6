"""Slope precedences between blocks as arcs: each block needs all that lies in its slope cone."""

from __future__ import annotations

from collections.abc import Iterator
from dataclasses import dataclass

import numpy as np
import pandas as pd

from planaudit.ground.slopes import cone, needed_by
from planaudit.inputs.answer import Answer

# Bits of a word, and the blocks whose cones are followed at once.
BITS, AT_ONCE = 64, 4096


@dataclass(frozen=True)
class Precedences:
    """Nodes and their arcs. A node is a cell, with a block or without.

    Attributes
    ----------
    rows : array of int, shape (nodes,)
        The row of each node's block; -1 if the cell has none.
    levels : array of int, shape (nodes,)
        The level of each node from the top, rising.
    nodes, needed : array of int, shape (arcs,)
        Each arc: a node, and one above it that it needs.
    """

    rows: np.ndarray
    levels: np.ndarray
    nodes: np.ndarray
    needed: np.ndarray

    def __len__(self) -> int:
        return len(self.rows)

    def spread(self, amounts: pd.Series | pd.DataFrame) -> np.ndarray:
        """Returns the amounts of blocks by node, 0 for cells without a block."""
        found = amounts.to_numpy()[self.rows]
        found[self.rows < 0] = 0.0
        return np.asarray(found)

    def cone_sums(self, amounts: np.ndarray) -> np.ndarray:
        """Returns for each node the sum over itself and all that it needs, directly or through others."""
        found = np.zeros(len(self))
        for first in range(0, len(self), AT_ONCE):
            marked = np.arange(first, min(first + AT_ONCE, len(self)))
            bits = np.unpackbits(self.held(marked).view(np.uint8), axis=1, bitorder="little", count=len(marked))
            found += bits @ amounts[marked]
        return found

    def held(self, marked: np.ndarray) -> np.ndarray:
        """Returns which of the marked nodes the cone of each node holds, as bits, shape (nodes, words)."""
        held = np.zeros((len(self), -(-len(marked) // BITS)), dtype=np.uint64)
        number = np.arange(len(marked))
        held[marked, number // BITS] = np.left_shift(np.uint64(1), (number % BITS).astype(np.uint64))
        order = np.argsort(self.nodes, kind="stable")
        starts = np.searchsorted(self.nodes[order], np.arange(len(self) + 1))
        for first, last in self.of_levels():
            some = np.flatnonzero(np.diff(starts[first : last + 1])) + first
            if len(some):
                above = held[self.needed[order[starts[first] : starts[last]]]]
                held[some] |= np.bitwise_or.reduceat(above, starts[some] - starts[first], axis=0)
        return held

    def of_levels(self) -> Iterator[tuple[int, int]]:
        """Yields the first node of each level, from the top, and the first behind it."""
        ends = np.flatnonzero(np.diff(self.levels)) + 1
        yield from zip([0, *ends.tolist()], [*ends.tolist(), len(self)])


def precedences_of(answer: Answer, wanted: np.ndarray, never: np.ndarray, most: int) -> Precedences | None:
    """Returns the wanted blocks and all that they need, without excluded blocks and those that need one; None if the arcs are more than `most`.

    `wanted` and `never` are masks, shape (rows,).
    """
    cube, excluded = (np.zeros(answer.shape, dtype=bool) for _ in range(2))
    cube[tuple(axis[wanted] for axis in answer.cells)] = True
    excluded[tuple(axis[never] for axis in answer.cells)] = True
    place = np.flatnonzero(needed_by(answer, cube))
    number = np.full(cube.size, -1)
    number[place] = np.arange(len(place))
    pairs = [np.zeros((2, 0), dtype=np.int64)]
    for arcs in arcs_of(answer, place):
        pairs.append(number[arcs])
        if sum(it.shape[1] for it in pairs) > most:
            return None
    row_of = np.full(cube.size, -1)
    row_of[np.ravel_multi_index(answer.cells, answer.shape)] = np.arange(len(answer.rows))
    nodes, needed = np.concatenate(pairs, axis=1)
    levels = np.unravel_index(place, answer.shape)[0]
    found = Precedences(row_of[place], levels, nodes, needed)
    return without(found, excluded.ravel()[place]) if never.any() else found


def arcs_of(answer: Answer, place: np.ndarray) -> Iterator[np.ndarray]:
    """Yields arcs between cells, shape (2, arcs): from cells, by their numbers, to those in their cones."""
    level, row, column = np.unravel_index(place, answer.shape)
    entry = answer.entries.ravel()[place]
    for number, domain in enumerate(answer.project.slopes["domains"]):
        mine = np.flatnonzero(entry == number)
        for up in range(1, answer.levels(domain) + 1 if len(mine) else 1):
            inside = cone(domain, answer.size, up, answer.azimuth)
            for north, east in np.argwhere(inside) - len(inside) // 2:
                to = level[mine] - up, row[mine] + north, column[mine] + east
                is_in = (
                    (to[0] >= 0) & (to[1] >= 0) & (to[1] < answer.shape[1]) & (to[2] >= 0) & (to[2] < answer.shape[2])
                )
                above = np.ravel_multi_index(tuple(axis[is_in] for axis in to), answer.shape)
                yield np.stack([place[mine[is_in]], above])


def without(found: Precedences, excluded: np.ndarray) -> Precedences:
    """Returns the nodes that need none of the excluded ones."""
    lost = excluded.copy()
    while True:
        more = lost.copy()
        more[found.nodes[lost[found.needed]]] = True
        if (more == lost).all():
            break
        lost = more
    number = np.cumsum(~lost) - 1
    kept = ~lost[found.nodes] & ~lost[found.needed]
    return Precedences(found.rows[~lost], found.levels[~lost], number[found.nodes[kept]], number[found.needed[kept]])

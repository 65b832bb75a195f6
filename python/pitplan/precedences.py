"""Precedences of a mine: slope arcs between blocks and arcs of processing nodes, without those that constraints have settled."""

from __future__ import annotations

from dataclasses import dataclass
from typing import Optional

import numpy as np

from pitplan.blockmodel.grid import Grid
from pitplan.slopes.domains import ABSENT, SlopeDomains, slices

from .constraints import Settled

# The most precedences that program and library take.
MOST_PAIRS = 67_108_864


@dataclass(frozen=True)
class Pairs:
    """The number of precedences that were written, of those that leave the block model, and of those of processing nodes."""

    written: int
    clipped: int
    processing: int


@dataclass(frozen=True)
class Precedences:
    """The precedences that the solver gets: slope arcs of the used blocks, and the arc from each processing node to its block.

    `settled`, if given, limits them to the reduced mine: blocks that are mined in any case are not predecessors.
    """

    grid: Grid
    domains: SlopeDomains
    used: np.ndarray
    processed: np.ndarray
    settled: Optional[Settled] = None

    @property
    def blocks(self) -> np.ndarray:
        """The cells whose precedences are written, rising."""
        return np.flatnonzero(self.used if self.settled is None else self.used & self.settled.rest)

    def open(self, precedences: np.ndarray) -> np.ndarray:
        """Returns predecessors, with ABSENT in place of those that are mined in any case."""
        if self.settled is None:
            return precedences
        return np.where((precedences != ABSENT) & self.settled.mined[precedences], ABSENT, precedences)

    def binding(self) -> tuple[np.ndarray, np.ndarray]:
        """Returns the processing nodes with a predecessor, and these: their block, or the node of the step before."""
        nodes = self.grid.count + np.arange(len(self.processed))
        is_later = np.diff(self.processed, prepend=-1) == 0
        needed = np.where(is_later, nodes - 1, self.processed)
        if self.settled is None:
            return nodes, needed
        some = self.settled.rest[self.processed] | (is_later & self.settled.mined[self.processed])
        return nodes[some], needed[some]


@dataclass(frozen=True)
class PrecedenceRows:
    """Compressed sparse rows: the predecessors of node u are `needs[starts[u]:starts[u + 1]]`, rising. uint32, shapes (nodes + 1,) and
    (pairs,).
    """

    starts: np.ndarray
    precedences: np.ndarray


def rows_of(precedences: Precedences, most: int) -> tuple[PrecedenceRows, Pairs]:
    """Returns the precedences as compressed rows, and their number. Precedences beyond `most` are only counted."""
    nodes, needed = precedences.binding()
    # What is not written to takes no memory.
    found = np.empty(min(most_pairs(precedences), most) + len(nodes), dtype=np.uint32)
    lengths = np.zeros(precedences.grid.count + len(precedences.processed) + 1, dtype=np.uint32)
    written = clipped = 0
    for part in slices(precedences.grid, precedences.domains, precedences.blocks):
        blocks = precedences.open(part.precedences)
        there = blocks != ABSENT
        count = int(np.count_nonzero(there))
        if written + count <= most:
            found[written : written + count] = blocks[there]
        lengths[part.ids + 1] = np.count_nonzero(there, axis=1)
        written, clipped = written + count, clipped + part.clipped
    pairs = Pairs(written, clipped, len(nodes))
    if written <= most:
        found[written : written + len(nodes)] = needed
    lengths[nodes + 1] = 1
    return PrecedenceRows(np.cumsum(lengths, dtype=np.uint32), found[: written + len(nodes)]), pairs


def most_pairs(precedences: Precedences) -> int:
    """Returns an upper bound on the number of precedences: the full lists of all blocks."""
    blocks = np.bincount(precedences.domains.list_of[precedences.blocks], minlength=len(precedences.domains.lists))
    return sum(int(count) * len(steps.steps) for count, steps in zip(blocks, precedences.domains.lists))

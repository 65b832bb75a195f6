"""The predecessors of blocks as rows of numbers."""

from __future__ import annotations

from dataclasses import dataclass

import numpy as np
from numpy.typing import NDArray


@dataclass(frozen=True)
class BlockPrecedences:
    """The predecessors of each block: those of block u are `predecessors[starts[u]:starts[u + 1]]`; both uint32, as the library of pits takes them."""

    starts: NDArray[np.uint32]
    predecessors: NDArray[np.uint32]

    @property
    def users(self) -> NDArray[np.int64]:
        """For each pair the block whose predecessor the other is: shape (pairs,)."""
        return np.repeat(np.arange(len(self.starts) - 1), np.diff(self.starts.astype(np.int64)))

    def within(self, kept: NDArray[np.bool_]) -> BlockPrecedences:
        """The pairs whose two blocks are kept, by the numbers that these have among themselves."""
        number = np.cumsum(kept, dtype=np.int64) - 1
        users = self.users
        both = kept[users] & kept[self.predecessors]
        starts = np.zeros(int(kept.sum()) + 1, dtype=np.uint32)
        np.cumsum(np.bincount(number[users[both]], minlength=len(starts) - 1), out=starts[1:], dtype=np.uint32)
        return BlockPrecedences(starts, number[self.predecessors[both]].astype(np.uint32))

    def with_free(self, count: int) -> BlockPrecedences:
        """The same precedences with more blocks behind the others, which have none."""
        return BlockPrecedences(np.append(self.starts, np.repeat(self.starts[-1:], count)), self.predecessors)

    def in_order(self, order: NDArray[np.int64]) -> BlockPrecedences:
        """The same precedences with the blocks in an order."""
        number = np.empty(len(order), dtype=np.uint32)
        number[order] = np.arange(len(order))
        first = self.starts[order].astype(np.int64)
        counts = self.starts[order + 1] - first
        starts = np.concatenate([[0], np.cumsum(counts)])
        place = np.arange(starts[-1]) + np.repeat(first - starts[:-1], counts)
        return BlockPrecedences(starts.astype(np.uint32), number[self.predecessors[place]])

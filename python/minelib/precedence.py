"""Precedence: read in any order, and reduced to the least list of pairs that leads to the same needs."""

from __future__ import annotations

from array import array
from dataclasses import dataclass
from pathlib import Path
from typing import Iterator, Optional

from .text import MinelibError, lines

Needs = dict[int, array]


@dataclass(frozen=True)
class Precedence:
    """What each block needs, rising; blocks that need nothing are left out.

    twice       how many needs stood again on a line or on another line of the block
    themselves  how many blocks named themselves, which says nothing
    joined      how many lines were of a block that had one already
    """

    needs: Needs
    twice: int
    themselves: int
    joined: int

    @property
    def pairs(self) -> int:
        return sum(map(len, self.needs.values()))

    def texts(self) -> Iterator[str]:
        """A line a block, ids rising."""
        for block in sorted(self.needs):
            needed = self.needs[block]
            yield f"{block} {len(needed)} {' '.join(map(str, needed))}"


def read(path: Path, count: Optional[int], most: int) -> Precedence:
    """`count` blocks, or where it is None at most `most`. Raises MinelibError, with the line, where a field is no number."""
    needs: Needs = {}
    twice = themselves = joined = 0
    limit = most if count is None else count
    for line in lines(path):
        fields = line.fields
        if len(fields) < 2:
            raise line.wrong("a block, a count and so many blocks are due")
        plain = "".join(fields).isascii() and "".join(fields).isdigit()
        block, named, *needed = map(int, fields) if plain else map(line.whole, fields)
        if len(needed) != named:
            raise line.wrong(f"names {len(needed)} blocks, where its count is {named}")
        greatest = max(needed, default=0)
        if max(block, greatest) >= limit:
            raise line.wrong(f"block {max(block, greatest)}, where there are {limit:,} and blocks count from 0")
        distinct = set(needed)
        themselves += block in distinct
        distinct.discard(block)
        before = needs.get(block)
        twice += len(needed) - len(set(needed))
        if before is not None:
            joined += 1
            twice += len(distinct & set(before))
            distinct |= set(before)
        needs[block] = array("i", sorted(distinct))
    return Precedence({block: needed for block, needed in needs.items() if needed}, twice, themselves, joined)


def reduced(needs: Needs) -> Needs:
    """The least pairs that lead to the same needs: without those that other pairs lead to (transitive reduction).

    Raises MinelibError where blocks need each other in a circle.
    """
    depth = depths(needs)
    kept: Needs = {}
    seen: dict[int, int] = {}
    nothing = array("i")
    # A block's needs are all less deep, and reduced before it.
    for block in sorted(needs, key=depth.__getitem__):
        wanted = sorted(needs[block], key=lambda needed: -depth[needed])
        shallowest = depth[wanted[-1]]
        own = []
        for needed in wanted:
            if seen.get(needed) == block:
                continue
            own.append(needed)
            stack = [needed]
            while stack:
                for further in kept.get(stack.pop(), nothing):
                    if depth[further] >= shallowest and seen.get(further) != block:
                        seen[further] = block
                        stack.append(further)
        kept[block] = array("i", sorted(own))
    return kept


def depths(needs: Needs) -> dict[int, int]:
    """For each block the most pairs in a row that lead on from it. Raises MinelibError where they lead in a circle."""
    waiting = {block: len(needed) for block, needed in needs.items()}
    needed_by: dict[int, list[int]] = {}
    for block, needed in needs.items():
        for other in needed:
            needed_by.setdefault(other, []).append(block)
    ready = [block for block in needed_by if block not in waiting]
    depth = dict.fromkeys(ready, 0)
    while ready:
        block = ready.pop()
        for other in needed_by.get(block, ()):
            depth[other] = max(depth.get(other, 0), depth[block] + 1)
            waiting[other] -= 1
            if waiting[other] == 0:
                ready.append(other)
    left = [block for block, number in waiting.items() if number]
    if left:
        raise MinelibError(
            f"precedence: {len(left):,} blocks, {min(left)} among them, need each other in a circle or need such blocks"
        )
    return depth

"""The refusals of the library, by the numbers of docs/FORMATS.md, as exceptions."""

from __future__ import annotations

from typing import TYPE_CHECKING

import numpy as np

from . import _library

if TYPE_CHECKING:
    from ._arrays import Rows

CYCLE = 14

WORDS = {
    1: "no memory",
    3: "unknown number",
    4: "over the limit",
    7: "rows out of place",
    8: "predecessor out of range",
    9: "block needs itself",
    10: "predecessor named twice",
    14: "cycle",
    15: "negative value at block ",
    17: "counts differ",
    19: "factors not rising",
    21: "fixed blocks clash at block ",
}


# This many blocks of a cycle stand in the words.
MOST_NAMED = 20
# Above it a number may have been one below 0.
MOST_OF_SIGNED = 2**31 - 1
OUTSIDE = "a number below 0, or above 2,147,483,647"


class Refusal(ValueError):
    """Arrays that encode no mine, or one above the limits.

    Attributes
    ----------
    number : int
        The number of the fault in docs/FORMATS.md.
    block, needed : int, optional
        The block at fault, and its predecessor if a pair is at fault.
    need : int, optional
        The number of the pair, from 0, whose flow is at fault.
    cycle : list of int, optional
        The blocks of a cycle: each depends on the next, and the last on the first.
    """

    def __init__(
        self,
        number: int,
        block: int | None = None,
        needed: int | None = None,
        need: int | None = None,
        cycle: list[int] | None = None,
    ):
        self.number, self.block, self.needed, self.need, self.cycle = number, block, needed, need, cycle
        words = WORDS.get(number, "refused")
        if words.endswith("block "):
            words = words + str(block) if block is not None else words.removesuffix(" at block ")
        elif block is not None:
            words += f": block {block}" + (
                "" if needed is None else f" needs {needed if needed <= MOST_OF_SIGNED else OUTSIDE}"
            )
        elif cycle is not None:
            words += f": blocks {', '.join(map(str, cycle[:MOST_NAMED]))}{', ..' if len(cycle) > MOST_NAMED else ''}"
        if need is not None:
            words += f": flow on need {need}"
        super().__init__(f"error {number}: {words}")


class NoMemory(MemoryError):
    """Memory was refused."""

    number = 1

    def __init__(self) -> None:
        super().__init__("error 1: no memory")


def refused(number: int, place: int, rows: Rows, blocks: int) -> Refusal | NoMemory:
    """The exception of a refusal, with the pair or the block at its place, and the blocks of a cycle."""
    if number == NoMemory.number:
        return NoMemory()
    if number == CYCLE:
        return Refusal(number, cycle=_library.cycle_of(rows.starts, rows.needs, blocks))
    if number in (8, 9, 10):
        return Refusal(
            number, block=int(np.searchsorted(rows.starts, place, side="right")) - 1, needed=int(rows.needs[place])
        )
    return Refusal(number, block=place) if number in (3, 15, 21) else Refusal(number)

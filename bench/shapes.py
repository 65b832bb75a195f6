"""Solves mines of odd shapes in each mode, beside the pit that their shape gives.

The shapes: copies of a mine of four blocks, numbered four at a time (many parts); a chain in which each block needs the one
before; a star of which all blocks need the first; a complete bipartite graph; blocks without pairs (as many parts as blocks).
The pit of each is worked out here, from its shape and not by a solver, and the text compared byte by byte. Mode shared is not among
the modes by default: it looks for the first merger arc again after each merger. Processor seconds and the peak in megabytes.
"""

import hashlib
import pathlib
from collections.abc import Callable, Sequence
from typing import NamedTuple

from kit import WORK, keep, options, parsed
from timing import best


class Shape(NamedTuple):
    """The values of the blocks, the blocks that each needs, the pit, rising, and its worth."""

    values: list[int]
    needs: dict[int, list[int]]
    pit: Sequence[int]
    worth: int


def copies(count: int) -> Shape:
    """Blocks worth 1, -2, 5, -2 with the pairs (0, 1), (0, 3), (2, 1): the pit of each copy is its blocks 1 and 2, worth 3."""
    values = [1, -2, 5, -2] * count
    needs = {}
    for first in range(0, 4 * count, 4):
        needs[first] = [first + 1, first + 3]
        needs[first + 2] = [first + 1]
    pit = [u for first in range(0, 4 * count, 4) for u in (first + 1, first + 2)]
    return Shape(values, needs, pit, 3 * count)


def chain(count: int) -> Shape:
    """Each block costs 1 and needs the one before; the last is worth as many as there are: all are dug, for 1."""
    return Shape([-1] * (count - 1) + [count], {u: [u - 1] for u in range(1, count)}, range(count), 1)


def barren_chain(count: int) -> Shape:
    """The same with a last block worth 1 less, which pays for the others alone: nothing is dug."""
    return Shape([-1] * (count - 1) + [count - 1], {u: [u - 1] for u in range(1, count)}, [], 0)


def star(count: int) -> Shape:
    """The first block costs 2 less than there are blocks, the others are worth 1 each: all are dug, for 1."""
    return Shape([2 - count] + [1] * (count - 1), {u: [0] for u in range(1, count)}, range(count), 1)


def bipartite(count: int) -> Shape:
    """As many blocks worth 3 as blocks that cost 2, of which each of the former needs each of the latter: all are dug."""
    waste = list(range(count))
    return Shape([-2] * count + [3] * count, {u: waste for u in range(count, 2 * count)}, range(2 * count), count)


def singles(count: int) -> Shape:
    """Blocks worth 1 and -1 by turns, without pairs: every second one is dug."""
    return Shape([1, -1] * (count // 2), {}, range(0, count, 2), count // 2)


SHAPES: list[tuple[str, Callable[[int], Shape], int]] = [
    ("5,000 copies", copies, 5000),
    ("50,000 copies", copies, 50000),
    ("chain", chain, 200000),
    ("barren chain", barren_chain, 200000),
    ("star", star, 200000),
    ("bipartite", bipartite, 500),
    ("singles", singles, 200000),
]


def files_of(name: str, shape: Shape) -> tuple[pathlib.Path, pathlib.Path]:
    """A shape's model and its precedence file."""
    WORK.mkdir(exist_ok=True)
    model, prec = (WORK / f"{name.replace(' ', '_')}{end}" for end in (".upit", ".prec"))
    with open(model, "w") as file:
        file.write(f"NAME: {name}\nTYPE: UPIT\nNBLOCKS: {len(shape.values)}\nOBJECTIVE_FUNCTION:\n")
        file.writelines(f"{u} {value}\n" for u, value in enumerate(shape.values))
    with open(prec, "w") as file:
        file.writelines(f"{u} {len(ps)} {' '.join(map(str, ps))}\n" for u, ps in sorted(shape.needs.items()))
    return model, prec


def digest_of(shape: Shape) -> str:
    """The SHA-256 of the text of its pit."""
    text = f"PIT\nBLOCKS: {len(shape.values)}\nIN: {len(shape.pit)}\nWORTH: {shape.worth}.000000\n" + "".join(f"{u}\n" for u in shape.pit)
    return hashlib.sha256(text.encode()).hexdigest()


def main(words: list[str]) -> None:
    parser = options("shapes", __doc__)
    parser.add_argument("--modes", nargs="+", default=["single", "parts"])
    given = parsed(parser, words)
    lines = ["| shape | blocks | mode | s | MB |", "|---|---|---|---|---|"]
    for name, make, count in SHAPES:
        shape = make(count // 100 * 2 if given.small else count)
        model, prec = files_of(name, shape)
        for mode in given.modes:
            run = best([given.bin, "solve", "--model", model, "--prec", prec, "--mode", mode], given.runs)
            if run.written != digest_of(shape):
                raise SystemExit(f"{name} in mode {mode}: another answer than its shape gives")
            lines.append(f"| {name} | {len(shape.values):,} | {mode} | {run.processor:.2f} | {run.peak:.0f} |")
    keep(given, "Mines of odd shapes", lines)

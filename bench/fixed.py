"""Times fixed blocks next to the plain run, on synthetic mines.

Whole runs in mode single, of which the one with the least processor seconds counts: `plain`; `forced`, with the upper half of the
blocks forced in; `barred`, with the lower half barred; and `forced one` and `barred one`, with one block of these. Blocks are
numbered from the top, so a half has all that it needs, or all that needs it. Processor seconds and the peak in megabytes; in brackets
the ratio to `plain`.
"""

import pathlib

from kit import WORK, Mine, count_of, keep, mine_of, options, parsed
from timing import best

NAMES = ("plain", "forced", "forced one", "barred", "barred one")


def fixed_file(name: str, word: str, blocks: range) -> pathlib.Path:
    """A file that fixes all these blocks by the same word."""
    path = WORK / f"{name}.fixed"
    path.write_text("".join(f"{word} {block}\n" for block in blocks))
    return path


def variants(count: int) -> dict[str, list[object]]:
    """What each adds to the plain command."""
    half = count // 2
    files = (
        fixed_file("forced", "in", range(half)),
        fixed_file("forced_one", "in", range(half, half + 1)),
        fixed_file("barred", "out", range(half, count)),
        fixed_file("barred_one", "out", range(half, half + 1)),
    )
    return dict(zip(NAMES, ([], *(["--fixed", file] for file in files))))


def row(program: pathlib.Path, mine: Mine, slopes: str, runs: int) -> str:
    count = count_of(mine)
    command = [program, "solve", "--model", mine.model, "--prec", mine.prec]
    found = {name: best([*command, *more], runs) for name, more in variants(count).items()}
    plain = found["plain"]
    cells = [f"{run.processor:.2f} ({run.processor / plain.processor:.1f}) | {run.peak:.0f} ({run.peak / plain.peak:.1f})" for run in found.values()]
    return f"| {slopes} | {count:,} | " + " | ".join(cells) + " |"


def main(words: list[str]) -> None:
    given = parsed(options("fixed", __doc__, [500000, 1000000], ["1:5"]), words)
    rows = [row(given.bin, mine_of(blocks, slopes), slopes, given.runs) for slopes in given.slopes for blocks in given.blocks]
    head = ["| slopes | blocks | " + " | ".join(f"{name} | MB" for name in NAMES) + " |", "|---" * (2 + 2 * len(NAMES)) + "|"]
    keep(given, "Fixed blocks next to the plain run", [*head, *rows])

"""Times the greatest pit next to the least, on synthetic mines.

Whole runs in mode single, of which the one with the least processor seconds counts: `solve`, and `shells` at the factor 1000 alone and
at 30 factors up to 1500 per mille, with `--pit least` and with `--pit greatest`. Processor seconds and the peak in megabytes; in
brackets the ratio to the least.
"""

import pathlib

from kit import Mine, keep, mine_of, options, parsed
from timing import Run, best

LISTS = {"one shell": [1000], "30 shells": range(50, 1501, 50)}


def commands(program: pathlib.Path, mine: Mine) -> dict[str, list[object]]:
    shells = [program, "shells", "--blocks", mine.blocks, "--prec", mine.prec, "--revenue", "0", "--cost", "1", "--factors"]
    solve: dict[str, list[object]] = {"solve": [program, "solve", "--model", mine.model, "--prec", mine.prec]}
    return solve | {name: [*shells, ",".join(map(str, factors))] for name, factors in LISTS.items()}


def cells(least: Run, greatest: Run) -> str:
    seconds, peak = greatest.processor / least.processor, greatest.peak / least.peak
    return f"{least.processor:.2f} | {least.peak:.0f} | {greatest.processor:.2f} ({seconds:.1f}) | {greatest.peak:.0f} ({peak:.2f})"


def main(words: list[str]) -> None:
    given = parsed(options("greatest", __doc__, [50000, 500000], ["1:5"]), words)
    lines = ["| slopes | blocks | run | least | MB | greatest | MB |", "|---|---|---|---|---|---|---|"]
    for slopes in given.slopes:
        for blocks in given.blocks:
            for name, command in commands(given.bin, mine_of(blocks, slopes)).items():
                least, greatest = (best([*command, "--pit", pit], given.runs) for pit in ("least", "greatest"))
                lines.append(f"| {slopes} | {blocks:,} | {name} | {cells(least, greatest)} |")
    keep(given, "The greatest pit next to the least", lines)

"""Times nested shells beside one solve, on synthetic mines.

Whole runs, of which the one with the least processor seconds counts: `reading`, the same files with one more precedence line that is
refused; `one`, the factor 1000 alone, which is one solve of the mine's own values; and lists of 30, 50 and 100 factors up to 1500,
2000 and 2000 per mille. Processor seconds and the peak in megabytes; the ratios are to `one`, of whole runs and without the reading.
"""

import pathlib

from kit import Mine, keep, mine_of, options, parsed
from timing import best

LISTS = {"30": range(50, 1501, 50), "50": range(40, 2001, 40), "100": range(20, 2001, 20)}


def row(program: pathlib.Path, mine: Mine, name: str, runs: int) -> str:
    command = [program, "shells", "--revenue", "0", "--cost", "1", "--blocks", mine.blocks, "--factors"]
    reading = best([*command, "1000", "--prec", mine.broken], runs, status=1).processor
    one = best([*command, "1000", "--prec", mine.prec], runs)
    cells = [name, f"{reading:.2f}", f"{one.processor:.2f}", f"{one.peak:.0f}"]
    for factors in LISTS.values():
        run = best([*command, ",".join(map(str, factors)), "--prec", mine.prec], runs)
        alone = (run.processor - reading) / (one.processor - reading)
        cells += [f"{run.processor:.2f}", f"{run.peak:.0f}", f"{run.processor / one.processor:.1f}", f"{alone:.1f}"]
    return "| " + " | ".join(cells) + " |"


def main(words: list[str]) -> None:
    given = parsed(options("shells", __doc__, [50000, 500000], ["1:9"]), words)
    head = ["| slopes | blocks | reading | one | MB | " + " | ".join(f"{name} | MB | ratio | without reading" for name in LISTS) + " |"]
    head.append("|---" * (5 + 4 * len(LISTS)) + "|")
    mines = [(f"{slopes} | {blocks:,}", mine_of(blocks, slopes)) for slopes in given.slopes for blocks in given.blocks]
    keep(given, "Nested shells next to one factor", [*head, *(row(given.bin, mine, name, given.runs) for name, mine in mines)])

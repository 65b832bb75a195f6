"""Times mode shared beside mode parts, and counts what the workers did.

`solve s` is processor seconds of a whole run less those of reading (the same files with one more precedence line, which is refused),
`whole, clock s` seconds on the clock of the whole run. Every mode runs once in each round, so that other work on the machine
slows all of them; the least of each stands in the table. All pits of a mine have to be the same bytes. The journal of one more run
says what was asked for by workers, how much of that was stale, and what the driver decided by itself.
"""

import collections
import subprocess
from typing import NamedTuple

from kit import WORK, Mine, keep, mine_of, options, parsed
from timing import Run, timed

# A solve of less processor seconds counts as this many, so that small mines have ratios.
TICK = 0.001

DRIVER, STALE = "0", "2"


class Decisions(NamedTuple):
    """What a journal says: the workers' asks, those of them that were stale, and the entries of the driver."""

    asks: int
    stale: int
    of_driver: int


def decisions_of(command: list[object]) -> Decisions:
    """Runs the command once more with a journal, and counts what stands in it."""
    journal = WORK / "journal.txt"
    subprocess.run([str(word) for word in [*command, "--journal", journal]], stdout=subprocess.DEVNULL, check=True)
    with journal.open() as lines:
        entries = collections.Counter((seat, verdict) for seat, _, verdict in (line.split() for line in lines if line[0].isdigit()))
    asked = {key: count for key, count in entries.items() if key[0] != DRIVER}
    stale = sum(count for (_, verdict), count in asked.items() if verdict == STALE)
    return Decisions(sum(asked.values()), stale, sum(entries.values()) - sum(asked.values()))


def rounds(commands: list[list[object]], count: int) -> list[list[Run]]:
    """The runs of each command, of which each round makes one; the first ends with status 1."""
    made: list[list[Run]] = [[] for _ in commands]
    for _ in range(count):
        for place, (command, runs) in enumerate(zip(commands, made)):
            runs.append(timed(command, status=0 if place else 1))
    return made


def rows(program: object, mine: Mine, workers: list[int], count: int) -> list[str]:
    """A row for each mode, without the mine's name."""
    command = [program, "solve", "--model", mine.model]
    modes = [["parts"], *(["shared", "--workers", str(crew)] for crew in workers)]
    solves = [[*command, "--prec", mine.prec, "--mode", *mode] for mode in modes]
    reads, *solved = rounds([[*command, "--prec", mine.broken], *solves], count)
    if len({run.written for runs in solved for run in runs}) > 1:
        raise SystemExit(f"the pits of {mine.model} differ")
    reading = min(run.processor for run in reads)
    own = [min(run.processor for run in runs) - reading for runs in solved]
    made = []
    for mode, solve, runs, seconds in zip(modes, solves, solved, own):
        row = f"{' '.join(mode)} | {seconds:.3f} | {seconds / max(own[0], TICK):.1f} | {min(run.elapsed for run in runs):.3f} | "
        said = None if mode == ["parts"] else decisions_of(solve)
        made.append(row + ("| | |" if said is None else f"{said.asks} | {said.stale} ({100 * said.stale / max(said.asks, 1):.1f} %) | {said.of_driver} |"))
    return made


def main(words: list[str]) -> None:
    parser = options("shared", __doc__, [50000, 100000, 500000], ["1:9", "cone"])
    parser.add_argument("--workers", type=int, nargs="+", default=[1, 2, 4])
    given = parsed(parser, words)
    lines = ["| slopes | blocks | mode | solve s | ratio to parts | whole, clock s | asks | stale | by the driver |", "|---" * 9 + "|"]
    for slopes in given.slopes:
        for blocks in given.blocks:
            found = rows(given.bin, mine_of(blocks, slopes), given.workers, given.runs)
            lines += [f"| {slopes} | {blocks:,} | {row}" for row in found]
    keep(given, "Mode shared next to parts; all pits of a mine are the same bytes", lines)

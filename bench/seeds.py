"""Times the program in mode single next to Boykov and Kolmogorov's own code on mines of several seeds.

For each mine the least of two runs in turns; what takes more than eight seconds is run once. A row has the median, the least and the
greatest ratio of processor seconds over the seeds, the most memory of the program, and the most mergers and relabels per block, by `--stats`.
A mine is made in a process of its own and removed after it is timed: the files of a slope cone of a million blocks take 0.5 GB.
"""

import itertools
import statistics
from pathlib import Path
from typing import NamedTuple

import kit
import peers
from table import LONG, STRONGEST, made
from timing import Run, timed

SIZES, SEEDS = [100000, 500000, 1000000], (1, 2, 3, 4, 5)
ROUNDS = 2
HEAD = "| slopes | blocks | seeds | ratio, median | least | greatest | processor s, median | peak MB | mergers per block | relabels per block |"


class Timed(NamedTuple):
    """The program's run on a mine, its ratio to the other's, None past the limit, and its mergers and relabels per block."""

    run: Run
    ratio: float | None
    mergers: float
    relabels: float


def counted(program: Path, mine: kit.Mine) -> list[float]:
    """How many mergers and relabels the program makes for each block."""
    stats = kit.WORK / "stats.txt"
    timed([program, "solve", "--model", mine.model, "--prec", mine.prec, "--stats", stats])
    counts = dict(line.split(": ", 1) for line in stats.read_text().splitlines() if ": " in line)
    return [int(counts[word]) / kit.count_of(mine) for word in ("MERGERS", "RELABELS")]


def measured(program: Path, other: Path, mine: kit.Mine, limit: int) -> Timed:
    own, theirs = list[Run](), list[Run]()
    for _ in range(ROUNDS):
        own.append(timed([program, "solve", "--model", mine.model, "--prec", mine.prec]))
        if len(theirs) < ROUNDS and not any(run.elapsed > LONG for run in theirs):
            if (found := peers.time_peer(other, STRONGEST, (mine.model, mine.prec), limit)) is None:
                break
            theirs.append(found[0])
    if len({run.written for run in (*own, *theirs)}) > 1:
        raise SystemExit(f"the pits of {mine.model.name} differ")
    best = min(own, key=lambda run: run.processor)
    ratio = best.processor / min(run.processor for run in theirs) if theirs else None
    return Timed(best, ratio, *counted(program, mine))


def row(slopes: str, blocks: int, found: list[Timed]) -> str:
    """The row of a table. A mine whose peer was past the limit has no ratio."""
    ratios = [it.ratio for it in found if it.ratio is not None]
    of_ratios = [f"{make(ratios):.2f}" for make in (statistics.median, min, max)] if ratios else ["", "", ""]
    seconds = statistics.median(it.run.processor for it in found)
    cells = [slopes, f"{blocks:,}", f"{len(ratios)} of {len(found)}", *of_ratios, f"{seconds:.2f}"]
    cells += [f"{max(it.run.peak for it in found):.0f}", *(f"{max(values):.2f}" for values in zip(*(it[2:] for it in found)))]
    return f"| {' | '.join(cells)} |"


def main(words: list[str]) -> None:
    parser = kit.options("seeds", __doc__, SIZES, kit.SLOPES)
    parser.add_argument("--limit", type=int, default=60, help="processor seconds of one run of the other")
    parser.add_argument("--seeds", type=int, nargs="+", default=list(SEEDS))
    given = kit.parsed(parser, words)
    other, there = peers.build()
    if STRONGEST not in there:
        raise SystemExit("there is no libmaxflow-dev: tools/setup.sh bench installs it")
    rows = [HEAD, "|---" * HEAD.count(" | ") + "|---|"]
    for slopes, blocks in itertools.product(given.slopes, sorted(given.blocks)):
        found = []
        for seed in given.seeds:
            mine = made(blocks, slopes, seed=seed)
            found.append(measured(given.bin, other, mine, given.limit))
            print(f"{slopes} {blocks} seed {seed}: {found[-1].run.processor:.3f}, {found[-1].ratio}", flush=True)
            if seed != kit.SEED:
                kit.removed(mine)
        rows.append(row(slopes, blocks, found))
        kit.keep(given, "Ratios of processor seconds over several seeds; all pits of a mine are the same bytes", rows)

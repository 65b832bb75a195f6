"""Times the program in its modes, and other people's maximum flows beside it, on the same mines in one run.

For each mine: `pitshell solve` in mode single, parts and shared (four workers), `pitshell shells`
with 30 factors up to 1500 per mille, and the strongest peer of bench/peers.py, or those that are named. All pits of a mine must be the same bytes, or the bench
ends with status 1. Processor seconds, the least of three rounds in which each runs once (of two above 100,000 blocks; what takes
more than eight seconds is run once):

`whole`: from the files to the written answer. `solve`: without reading. For pitshell that is the whole run less one whose
precedence file is refused in its last line, so it has the graph, the solve and the writing in it; a peer's has its network
and its flow, without the writing. `clock`: seconds on the clock of the whole run. `peak`: the largest memory, at
least the 13 MB of the process that starts it.
`single / this`: the whole run of mode single over this one.

What needs more processor seconds than the limit, mode single aside, is left out there and at the larger sizes of those slopes.
The section is written again after each mine, so a run that is stopped leaves what it measured. README has rows of its first part, one line
a mine with the strongest peer. The suite `peers` has all peers next to mode single, up to 500,000 blocks.
"""

import dataclasses
import itertools
import multiprocessing
import pathlib
from collections.abc import Callable, Sequence

import kit
import peers
from timing import Run, timed

SIZES = [50000, 100000, 500000, 1000000]
STRONGEST = "kolmogorov"
# Mines of at most this number of blocks run in three rounds.
SHORT = 100000
FACTORS = ",".join(map(str, range(50, 1501, 50)))
MODES = {"single": [], "parts": ["--mode", "parts"], "shared, 4 workers": ["--mode", "shared", "--workers", "4"]}
SINGLE = "pitshell, single"
SHELLS = "pitshell, shells of 30 factors"
# A run of at least this number of seconds is not repeated.
LONG = 8.0


@dataclasses.dataclass(frozen=True)
class Row:
    """A solver's run on a mine, and the seconds of its solve alone; no run where it needs more than the limit."""

    solver: str
    run: Run | None
    solve: float = 0.0


@dataclasses.dataclass(frozen=True)
class Mine:
    """A mine's slopes, blocks and pairs, and what was timed on it; the first row is the program in mode single."""

    slopes: str
    blocks: int
    pairs: int
    rows: list[Row]

    def named(self) -> str:
        return f"| {self.slopes} | {self.blocks:,} | {self.pairs:,} "


Turn = Callable[[], tuple[Run, float] | None]


def own(command: list[object], prec: pathlib.Path, broken: pathlib.Path, limit: int | None) -> tuple[Run, float] | None:
    """The program's run on a precedence file, and the seconds of reading, which are those of a run on a broken copy."""
    whole = timed([*command, "--prec", prec], limit=limit)
    if whole is None:
        return None
    return whole, timed([*command, "--prec", broken], status=1).processor


def row_of(name: str, times: list[tuple[Run, float]]) -> Row:
    """The run with the least processor seconds; the program's solve is what that has beyond the least reading."""
    if not times:
        return Row(name, None)
    run = min((run for run, _ in times), key=lambda run: run.processor)
    least = min(seconds for _, seconds in times)
    return Row(name, run, run.processor - least if name.startswith("pitshell") else least)


def pairs_of(prec: pathlib.Path) -> int:
    with open(prec) as file:
        return sum(int(line.split(maxsplit=2)[1]) for line in file)


def made(blocks: int, slopes: str, ore: str = kit.BODIES, seed: int = kit.SEED) -> kit.Mine:
    """The mine, made in a process of its own: what a process holds when it starts another counts for the other's peak."""
    maker = multiprocessing.get_context("spawn").Process(target=kit.mine_of, args=(blocks, slopes, ore, seed))
    maker.start()
    maker.join()
    if maker.exitcode != 0:
        raise SystemExit(f"the mine of {blocks} blocks with slopes {slopes} could not be made in {kit.WORK}")
    return kit.mine_of(blocks, slopes, ore, seed)


class Bench:
    """The programs, the peers and the limit of a whole bench, and who was past the limit at which slopes."""

    def __init__(self, program: pathlib.Path, modes: bool, named: list[str] | None, usual: set[str], limit: int) -> None:
        """Takes the named peers, or the usual ones among those that build. A named peer that is missing is an error."""
        self.program, self.modes, self.limit = program, modes, limit
        self.others, found = peers.build()
        self.peers = [name for name in found if name in usual] if named is None else named
        if missing := [name for name in self.peers if name not in found]:
            raise SystemExit(f"no such peer, or its headers are missing: {', '.join(missing)}; there are {', '.join(found)}")
        self.late: set[tuple[str, str]] = set()

    def turns(self, mine: kit.Mine) -> dict[str, Turn]:
        """What is timed on a mine, each by its name in the table."""
        solve = [self.program, "solve", "--model", mine.model]
        shells = [self.program, "shells", "--revenue", "0", "--cost", "1", "--blocks", mine.blocks, "--factors", FACTORS]
        commands = {f"pitshell, {mode}": [*solve, *words] for mode, words in MODES.items()} | {SHELLS: shells}
        if not self.modes:
            commands = {SINGLE: commands[SINGLE]}
        turns: dict[str, Turn] = {}
        for name, words in commands.items():
            limit = None if name == SINGLE else self.limit
            turns[name] = lambda w=words, most=limit: own(w, mine.prec, mine.broken, most)
        for peer in self.peers:
            turns[peers.NAMES[peer]] = lambda p=peer: peers.time_peer(self.others, p, (mine.model, mine.prec), self.limit)
        return turns

    def measure(self, slopes: str, blocks: int, ore: str = kit.BODIES) -> Mine:
        """All rows of one mine: each solver runs once a round, so that what else the machine does meets all of them."""
        files = made(blocks, slopes, ore)
        turns, slopes = self.turns(files), slopes if ore == kit.BODIES else f"{slopes}, {ore}"
        times: dict[str, list[tuple[Run, float]]] = {name: [] for name in turns}
        for _ in range(3 if blocks <= SHORT else 2):
            for name, turn in turns.items():
                if (slopes, name) in self.late or any(run.elapsed > LONG for run, _ in times[name]):
                    continue
                if (found := turn()) is None:
                    self.late.add((slopes, name))
                    times[name].clear()
                    continue
                times[name].append(found)
                if name != SHELLS and found[0].written != times[SINGLE][0][0].written:
                    raise SystemExit(f"{name} has another pit than {SINGLE} at {blocks} blocks with slopes {slopes}")
        rows = [row_of(name, times[name]) for name in turns]
        for row in rows:
            print(f"{slopes} {blocks} {row.solver}: {f'{row.run.processor:.3f}' if row.run else f'more than {self.limit}'}", flush=True)
        return Mine(slopes, blocks, pairs_of(files.prec), rows)


def short(mines: list[Mine], limit: int) -> list[str]:
    """One line a mine: the program in mode single, and the peer with the least seconds of a whole run."""
    lines = [
        "| slopes | blocks | pairs | pitshell: whole | solve | MB | strongest peer: whole | solve | MB | which |",
        "|---|---|---|---|---|---|---|---|---|---|",
    ]
    for mine in mines:
        own = mine.rows[0]
        others = [row for row in mine.rows if row.run and not row.solver.startswith("pitshell")]
        text = f"{mine.named()}| {own.run.processor:.2f} | {own.solve:.2f} | {own.run.peak:.0f} "
        if others:
            peer = min(others, key=lambda row: row.run.processor)
            text += f"| {peer.run.processor:.2f} | {peer.solve:.2f} | {peer.run.peak:.0f} | {peer.solver} |"
        else:
            text += f"| more than {limit} | | | all |" if len(mine.rows) > 1 and not mine.rows[-1].solver.startswith("pitshell") else "| not timed | | | |"
        lines.append(text)
    return lines


def long(mines: list[Mine], limit: int) -> list[str]:
    """One line a run."""
    lines = ["| slopes | blocks | pairs | solver | whole s | solve s | clock s | peak MB | single / this |", "|---|---|---|---|---|---|---|---|---|"]
    for mine in mines:
        single = mine.rows[0].run
        for row in mine.rows:
            if row.run is None:
                lines.append(f"{mine.named()}| {row.solver} | more than {limit} | | | | |")
                continue
            ratio = single.processor / row.run.processor
            lines.append(
                f"{mine.named()}| {row.solver} | {row.run.processor:.3f} | {row.solve:.3f} | {row.run.elapsed:.3f} "
                f"| {row.run.peak:.0f} | {ratio:.2f} |"
            )
    return lines


def measure(words: list[str], suite: str, about: str | None, sizes: list[int], usual: set[str], ores: Sequence[str] = (kit.BODIES,)) -> None:
    """Times the peers that are named, or the usual ones, next to the program; the suite `table` has its other modes too."""
    parser = kit.options(suite, about, sizes, kit.SLOPES)
    parser.add_argument("--peers", nargs="*", help="their names; a wrong one lists those that there are")
    parser.add_argument("--single", action="store_true", default=suite != "table", help="of pitshell mode single alone")
    parser.add_argument("--limit", type=int, default=20, help="processor seconds of one run")
    given = kit.parsed(parser, words)
    kit.WORK.mkdir(exist_ok=True)
    bench = Bench(given.bin, not given.single, given.peers, usual, given.limit)
    mines: list[Mine] = []
    for blocks in sorted(given.blocks):
        for slopes, ore in itertools.product(given.slopes, ores):
            mines.append(bench.measure(slopes, blocks, ore))
            mines.sort(key=lambda mine: (given.slopes.index(mine.slopes.partition(",")[0]), mine.blocks))
            lines = [*short(mines, given.limit), "", *long(mines, given.limit)]
            kit.keep(given, "Next to other people's maximum flows; all pits of a mine are the same bytes", lines)


def main(words: list[str]) -> None:
    measure(words, "table", __doc__, SIZES, {STRONGEST})

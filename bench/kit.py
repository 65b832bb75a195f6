"""What all suites of the bench share: synthetic mines under bench/work/, the options, and the file that has their results."""

import argparse
import datetime
import pathlib
import sys
from collections.abc import Iterable, Sequence
from typing import NamedTuple

import machine

ROOT = pathlib.Path(__file__).resolve().parent.parent
WORK = ROOT / "bench" / "work"
RESULTS, DRAFT = ROOT / "bench" / "results" / "bench.md", ROOT / "build" / "bench.md"
HEAD = """# Measurements

Processor seconds and megabytes of whole runs. `bench/bench.py` writes a section for each suite, `make bench` all of them on one build;
`make docs` makes the tables of README and SPEED from them.
"""
SLOPES = ("1:5", "1:9", "cone")
sys.path.insert(0, str(ROOT / "tools"))
from bench_tables import sections  # noqa: E402
from make_mine import BODIES, write_mine  # noqa: E402


class Mine(NamedTuple):
    """The files of a mine: its model, its block model, its precedence, and that with one more line, which is refused."""

    model: pathlib.Path
    blocks: pathlib.Path
    prec: pathlib.Path
    broken: pathlib.Path


# That of the mines of most suites.
SEED = 1


def mine_of(blocks: int, slopes: str, ore: str = BODIES, seed: int = SEED) -> Mine:
    """The mine of about `blocks` blocks with a kind of ore (tools/make_mine.py), made if it is missing."""
    WORK.mkdir(exist_ok=True)
    name = f"mine_{blocks}_{slopes.replace(':', '_')}{f'_{ore}' * (ore != BODIES)}{f'_seed{seed}' * (seed != SEED)}"
    prefix = WORK / name
    mine = Mine(*(prefix.with_suffix(end) for end in (".upit", ".blocks", ".prec", ".broken.prec")))
    if not mine.broken.exists():
        write_mine(str(prefix), blocks, slopes, seed, ore)
        mine.broken.write_text(mine.prec.read_text() + "0 0\n")
    return mine


def removed(mine: Mine) -> None:
    """Removes the files of a mine."""
    for file in mine:
        file.unlink()


def count_of(mine: Mine) -> int:
    """How many blocks the model has."""
    with open(mine.model) as file:
        return int(file.readlines(400)[2].split()[1])


def options(suite: str, text: str | None, blocks: Sequence[int] = (), slopes: Sequence[str] = ()) -> argparse.ArgumentParser:
    """The options of a suite: the program, the sizes and slopes of mines if it has some, and the number of runs of each."""
    parser = argparse.ArgumentParser(prog=f"bench/bench.py {suite}", description=text, formatter_class=argparse.RawDescriptionHelpFormatter)
    parser.set_defaults(suite=suite, blocks=[], slopes=[])
    parser.add_argument("--bin", type=existing, default=ROOT / "build" / "pitshell", help="the program (default: build/pitshell)")
    parser.add_argument("--runs", type=int, default=3, help="runs of each, of which the least counts (default: 3)")
    parser.add_argument("--results", type=pathlib.Path, default=DRAFT, help="the file to write (default: build/bench.md)")
    parser.add_argument("--small", action="store_true", help="mines of 1,000 blocks and one run of each, to try the machinery")
    if blocks:
        parser.add_argument("--blocks", type=int, nargs="+", default=list(blocks), help="the sizes, from small to large")
        parser.add_argument("--slopes", nargs="+", default=list(slopes), choices=SLOPES)
    return parser


def parsed(parser: argparse.ArgumentParser, words: Sequence[str]) -> argparse.Namespace:
    """The options that were given; --small wins over sizes and runs."""
    given = parser.parse_args(words)
    if given.small:
        given.blocks, given.runs = given.blocks and [1000], 1
    return given


def existing(name: str) -> pathlib.Path:
    path = pathlib.Path(name).resolve()
    if not path.exists():
        raise argparse.ArgumentTypeError(f"there is no program at {name}: run make first, or say where it is with --bin")
    return path


def keep(given: argparse.Namespace, title: str, lines: Iterable[str]) -> None:
    """Writes a suite's section, with the date, the command, the machine and what was timed, and shows it; the other sections stay."""
    now = datetime.datetime.now(datetime.UTC)
    command = " ".join(["bench/bench.py", *sys.argv[1:]])
    head = f"{title}. {now:%Y-%m-%d %H:%M} UTC, `{command}`. {machine.processor()}, load {machine.load()}. {machine.versions(given.bin)}."
    found = sections(given.results.read_text()) if given.results.is_file() else {}
    found[given.suite] = "\n".join([head, "", *lines]) + "\n"
    given.results.parent.mkdir(exist_ok=True)
    given.results.write_text(HEAD + "".join(f"\n## {name}\n\n{part.rstrip()}\n" for name, part in found.items()))
    print(found[given.suite], end="")

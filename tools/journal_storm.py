#!/usr/bin/env python3
"""Runs `pitshell solve --mode shared --journal` on random mines and replays each journal twice: by `pitshell replay`, and by
tools/replay_journal.py, which shares nothing with the program.

    tools/journal_storm.py [--bin build/pitshell] [--runs 100] [--minutes 60] [--seed 1] [--results FILE]      by hand; `make storm`

Mines have 2,000 to 20,000 blocks, with slopes or with pairs at random; there are 1 to 64 workers, and in some runs a budget, or
blocks that are forced in or barred. All three must give the same standard output, standard error and status; and without a budget
the pit is that of mode single. Each journal is then bent, in a verdict, an arc, a seat, a dropped, doubled or moved line, or cut,
and the two replays must agree again. Whatever differs is kept below --keep with its files, and the status is 1.
"""

import argparse
import collections
import dataclasses
import itertools
import pathlib
import random
import re
import subprocess
import sys
import tempfile
import time

from check_certificate import closure, read_mine
from make_mine import write_mine
from replay_journal import answer

TOP = pathlib.Path(__file__).resolve().parent.parent
WORKERS = (1, 2, 3, 4, 8, 16, 33, 64)
BENDS = 4
SHAPES = ("1:5", "1:9", "cone", "random", "layers")


@dataclasses.dataclass(frozen=True)
class Run:
    """A mine by its shape, size and seed, the number of workers, the share of its mergers that a budget allows, and how many
    blocks are forced in and how many barred."""

    shape: str
    blocks: int
    seed: int
    workers: int
    share: float | None
    fixed: int = 0


def random_storm(runs: int, seed: int) -> list[Run]:
    rng = random.Random(seed)
    return [
        Run(
            shape=SHAPES[k % len(SHAPES)],
            blocks=rng.randint(2_000, 20_000),
            seed=rng.randrange(10**6),
            workers=WORKERS[k % len(WORKERS)],
            share=rng.choice([None, None, rng.random()]),
            fixed=rng.choice([0, 0, 3]),
        )
        for k in range(runs)
    ]


def small_storm() -> list[Run]:
    """A few small mines, for the gate: each shape with few and many workers, and a budget for each of the latter."""
    return [Run(shape, 300, 7, workers, share, fixed) for shape in SHAPES for workers, share, fixed in ((1, None, 0), (3, None, 2), (16, 0.5, 0))]


def write_pairs(prefix: pathlib.Path, run: Run) -> None:
    """A mine whose blocks need blocks of lesser numbers: any, or those of the layer above alone."""
    rng = random.Random(f"{run.seed}/{run.blocks}/{run.shape}")
    layer = max(1, run.blocks // 12)
    values = (rng.randint(-90, 100) if rng.random() < 0.5 else rng.randint(-30, 0) for _ in range(run.blocks))
    lines = []
    for block in range(1, run.blocks):
        above = range(block) if run.shape == "random" else range(max(0, (block // layer - 1) * layer), block // layer * layer)
        needs = sorted(rng.sample(above, min(len(above), rng.choice([0, 1, 1, 2, 5]))))
        lines += [f"{block} {len(needs)} {' '.join(map(str, needs))}\n"] if needs else []
    model = "".join(f"{block} {value}.{rng.randrange(100):02}\n" for block, value in enumerate(values))
    prefix.with_suffix(".upit").write_text(f"NAME: {run.shape}\nTYPE: UPIT\nNBLOCKS: {run.blocks}\nOBJECTIVE_FUNCTION:\n{model}")
    prefix.with_suffix(".prec").write_text("".join(lines))


def write_fixed(prefix: pathlib.Path, run: Run) -> None:
    """Blocks at random that are forced in, and barred ones that none of these needs."""
    rng = random.Random(f"{run}")
    model, prec = (prefix.with_suffix(suffix).read_bytes() for suffix in (".upit", ".prec"))
    values, pairs = read_mine(model, prec)
    forced = rng.sample(range(len(values)), run.fixed)
    others = sorted(set(range(len(values))) - closure(forced, pairs))
    words = {block: "in" for block in forced} | {block: "out" for block in rng.sample(others, min(len(others), run.fixed))}
    prefix.with_suffix(".fixed").write_text("".join(f"{words[block]} {block}\n" for block in sorted(words)))


def bent(text: bytes, rng: random.Random) -> bytes:
    """A journal with one entry changed, or cut at a byte."""
    head, entries = text.splitlines(keepends=True)[:5], text.splitlines(keepends=True)[5:]
    kind = rng.choice(["verdict", "arc", "seat", "drop", "double", "move", "beginning", "cut"])
    if kind == "cut" or not entries:
        return text[: rng.randrange(len(text) + 1)]
    at = rng.randrange(len(entries))
    seat, arc, verdict = entries[at].split()
    if kind in ("verdict", "arc", "seat"):
        changed = {"verdict": rng.choice([b"1", b"2", b"3"]), "arc": b"%d" % rng.randrange(int(head[2].split()[1])), "seat": b"%d" % rng.randrange(66)}
        entries[at] = b" ".join([changed.get(kind) if kind == name else old for name, old in (("seat", seat), ("arc", arc), ("verdict", verdict))]) + b"\n"
    elif kind == "beginning":
        entries = entries[:at]
    elif kind == "double":
        entries.insert(at, entries[at])
    else:
        line = entries.pop(at)
        if kind == "move":
            entries.insert(rng.randrange(len(entries) + 1), line)
    return b"".join([*head[:4], b"ENTRIES: %d\n" % len(entries), *entries])


class Storm:
    """Runs in a folder, what they added up to, and what went wrong."""

    def __init__(self, program: pathlib.Path, folder: pathlib.Path, keep: pathlib.Path | None = None) -> None:
        self.program, self.folder, self.keep = program, folder, keep
        self.runs = self.used_up = self.entries = 0
        self.verdicts: collections.Counter[bytes] = collections.Counter()
        self.drivers = 0
        self.most_bytes = 0
        self.bends: collections.Counter[str] = collections.Counter()
        self.wrong: list[str] = []

    def told(self, *words: str) -> tuple[str, str, int]:
        ran = subprocess.run([self.program, *words], cwd=self.folder, capture_output=True, text=True, timeout=3600)
        return ran.stdout, ran.stderr, ran.returncode

    @staticmethod
    def mine_of(run: Run) -> tuple[str, ...]:
        """The options that name the files of the mine."""
        return ("--model", "mine.upit", "--prec", "mine.prec", *(("--fixed", "mine.fixed") if run.fixed else ()))

    def beside(self, journal: bytes) -> tuple[str, str, int]:
        """What the short replay answers to a journal of the mine."""
        model, prec, fixed = ((self.folder / name).read_bytes() for name in ("mine.upit", "mine.prec", "mine.fixed"))
        return answer(model, prec, journal, fixed)

    def try_run(self, run: Run) -> None:
        prefix = self.folder / "mine"
        if run.shape in ("random", "layers"):
            write_pairs(prefix, run)
        else:
            write_mine(str(prefix), run.blocks, run.shape, run.seed)
        write_fixed(prefix, run)
        mine = self.mine_of(run)
        shared = ("--mode", "shared", "--workers", str(run.workers))
        alone = self.told("solve", *mine)
        budget = []
        if run.share is not None:
            self.told("solve", *mine, *shared, "--journal", "run.journal")
            applied = sum(line.endswith(b" 1") for line in self.journal().splitlines()[5:])
            budget = ["--budget", str(int(applied * run.share * 1.2))]
        solved = self.told("solve", *mine, *shared, *budget, "--journal", "run.journal")
        replayed = self.told("replay", *mine, "--journal", "run.journal")
        beside = self.beside(self.journal())
        self.count(solved[2])
        if not (solved == replayed == beside) or solved[2] not in ((0,) if not budget else (0, 3)) or (solved[2] == 0 and solved != alone):
            heads = [(out[:60], err, status) for out, err, status in (alone, solved, replayed, beside)]
            self.wrong.append(f"{run} {budget}: alone, solved, replayed, beside: {heads}")
            self.keep_files()

        self.bend(run)

    def bend(self, run: Run) -> None:
        """Both replays of journals that are bent from the one that was written."""
        rng, text = random.Random(f"{run}"), self.journal()
        for _ in range(BENDS):
            (self.folder / "bent.journal").write_bytes(other := bent(text, rng))
            replayed, beside = self.told("replay", *self.mine_of(run), "--journal", "bent.journal"), self.beside(other)
            self.bends[re.match(r"PIT|entry|open|error \d+", replayed[0] + replayed[1])[0] if replayed[0] + replayed[1] else "nothing"] += 1
            if replayed != beside:
                heads = [(out[:60], err, status) for out, err, status in (replayed, beside)]
                self.wrong.append(f"{run} bent: replayed, beside: {heads}")
                self.keep_files()

    def journal(self) -> bytes:
        file = self.folder / "run.journal"
        return file.read_bytes() if file.exists() else b""

    def count(self, status: int) -> None:
        text = self.journal()
        entries = text.splitlines()[5:]
        self.runs += 1
        self.used_up += status == 3
        self.entries += len(entries)
        self.verdicts.update(line[-1:] for line in entries)
        self.drivers += sum(line.startswith(b"0 ") for line in entries)
        self.most_bytes = max(self.most_bytes, len(text))

    def keep_files(self) -> None:
        if self.keep:
            place = self.keep / str(len(self.wrong))
            place.mkdir(parents=True, exist_ok=True)
            for name in ("mine.upit", "mine.prec", "mine.fixed", "run.journal", "bent.journal"):
                if (self.folder / name).exists():
                    (place / name).write_bytes((self.folder / name).read_bytes())

    def report(self, seconds: float) -> str:
        rows = [
            ("runs", self.runs), ("of which the budget was used up", self.used_up), ("entries", self.entries),
            ("applied", self.verdicts[b"1"]), ("stale", self.verdicts[b"2"]), ("spent", self.verdicts[b"3"]),
            ("of the driver", self.drivers), ("bytes of the longest journal", self.most_bytes),
            *((f"bent, answered `{words}`", count) for words, count in sorted(self.bends.items())), ("differences", len(self.wrong)),
        ]  # fmt: skip
        head = f"# A storm of journals\n\n`tools/journal_storm.py`, {time.strftime('%Y-%m-%d')}, {seconds:.0f} s in all.\n\n| what | how many |\n|---|---|\n"
        return head + "".join(f"| {what} | {count:,} |\n" for what, count in rows)


def main() -> int:
    parser = argparse.ArgumentParser(description=__doc__, formatter_class=argparse.RawDescriptionHelpFormatter)
    parser.add_argument("--bin", type=pathlib.Path, default=TOP / "build" / "pitshell")
    parser.add_argument("--runs", type=int, default=100)
    parser.add_argument("--minutes", type=float, help="begin no run later than that many minutes after the first")
    parser.add_argument("--seed", type=int, default=1)
    parser.add_argument("--keep", type=pathlib.Path, help="where to keep the files of what differs")
    parser.add_argument("--results", type=pathlib.Path)
    given = parser.parse_args()
    begun = time.monotonic()
    with tempfile.TemporaryDirectory() as name:
        storm = Storm(given.bin.resolve(), pathlib.Path(name), given.keep)
        for number, run in zip(itertools.count(1), random_storm(given.runs, given.seed)):
            if given.minutes and time.monotonic() - begun > 60 * given.minutes:
                break
            storm.try_run(run)
            print(f"{number}: {run}: {storm.entries} entries so far, {len(storm.wrong)} wrong", flush=True)
    print("".join(f"{it}\n" for it in storm.wrong), end="")
    text = storm.report(time.monotonic() - begun)
    print(text, end="")
    if given.results:
        given.results.write_text(text)
    return 1 if storm.wrong else 0


if __name__ == "__main__":
    sys.exit(main())

"""Times the planner's layer: each command on tables of a porphyry, beside pandas' own reading of the same table.

Whole runs without figures, with the processes that a run starts; the run with the least processor seconds counts. Processor
seconds, seconds on the clock and the peak in megabytes; `ratio` is that of processor seconds to those of `python3 -c "import
pandas; pandas.read_csv(TABLE)"` in the same run of the bench. Schedules and sensitivity are of the smallest table alone, and left out with --small. A line of the medians goes to
bench/results/layer.csv, which keeps the history of releases.
"""

import csv
import datetime
import pathlib
import statistics
import subprocess
import sys

import machine
from kit import ROOT, WORK, keep, options, parsed
from timing import Run, best

HISTORY = ROOT / "bench" / "results" / "layer.csv"
PITPLAN, PYTHON = ROOT / "tools" / "pitplan", "/usr/bin/python3"
# Columns, rows and levels of the tables, by about how many blocks they have.
SHAPES = {1000: (14, 12, 9), 8000: (26, 26, 15), 100000: (64, 64, 32), 1000000: (140, 140, 68)}
COMMANDS = {
    "check": ["check", "{project}"],
    "shells": ["shells", "{project}", "--no-figures", "--out", "{out}"],
    "pushbacks": ["pushbacks", "{project}", "--no-figures", "--out", "{out}"],
    "verify": ["verify", "{out}"],
}
OF_SMALL = {
    "schedule": ["schedule", "{project}", "--no-figures", "--out", "{out}"],
    "schedule --by block": ["schedule", "{project}", "--by", "block", "--no-figures", "--out", "{out}"],
    "sensitivity": ["sensitivity", "{project}", "--no-figures", "--out", "{out}"],
}


def project_of(blocks: int) -> pathlib.Path:
    """The project of a table, made if it is missing: that of examples/plan, whose keys name the same columns."""
    place = WORK / f"layer_{blocks}"
    if not (place / "project.toml").exists():
        place.mkdir(parents=True, exist_ok=True)
        columns, rows, levels = map(str, SHAPES[blocks])
        words = ["--columns", columns, "--rows", rows, "--levels", levels, "--seed", "4", "--out", place / "blocks.csv"]
        subprocess.run([PYTHON, ROOT / "tools" / "make_table.py", *words], check=True)
        (place / "project.toml").write_text((ROOT / "examples" / "plan" / "project.toml").read_text())
    return place / "project.toml"


def cells(name: str, run: Run, read: Run) -> list[str]:
    return [name, f"{run.processor:.2f}", f"{run.elapsed:.2f}", f"{run.peak:.0f}", f"{run.processor / read.processor:.1f}"]


def rows_of(blocks: int, runs: int, is_small: bool) -> list[list[str]]:
    """The row of each command on a table."""
    project = project_of(blocks)
    read = best([PYTHON, "-c", f"import pandas; pandas.read_csv({str(project.parent / 'blocks.csv')!r})"], runs)
    found = [cells("pandas.read_csv", read, read)]
    for name, words in (COMMANDS | (OF_SMALL if is_small else {})).items():
        out = project.parent / ("shells" if name == "verify" else name.replace(" ", "_"))
        command = [PITPLAN, *(word.format(project=project, out=out) for word in words)]
        found.append(cells(name, best(command, runs), read))
    return [[f"{blocks:,}", *row] for row in found]


def remember(given_runs: int, rows: list[list[str]]) -> None:
    """Adds a line to the history: date, commit, machine, load, and the median ratio of each command over the tables."""
    ratios: dict[str, list[float]] = {}
    for _, name, *_, ratio in rows:
        ratios.setdefault(name, []).append(float(ratio))
    names = [*COMMANDS, *OF_SMALL]
    commit = machine.said("git", "-C", str(ROOT), "rev-parse", "--short=9", "HEAD")
    line = [f"{datetime.date.today()}", commit, machine.processor(), machine.load(), given_runs]
    line += [f"{statistics.median(ratios[name]):.1f}" if name in ratios else "" for name in names]
    is_new = not HISTORY.exists()
    with open(HISTORY, "a", newline="") as file:
        out = csv.writer(file, lineterminator="\n")
        if is_new:
            out.writerow(["date", "commit", "machine", "load", "runs", *names])
        out.writerow(line)


def main(words: list[str]) -> None:
    parser = options("layer", __doc__, sorted(SHAPES)[1:])
    parser.add_argument("--history", action="store_true", help=f"add a line to {HISTORY.relative_to(ROOT)}")
    given = parsed(parser, words)
    wrong = [blocks for blocks in given.blocks if blocks not in SHAPES]
    if wrong:
        sys.exit(f"--blocks {wrong[0]}: found no table of this size, expected {', '.join(map(str, SHAPES))}")
    rows = [row for blocks in given.blocks for row in rows_of(blocks, given.runs, blocks == min(given.blocks) and not given.small)]
    head = ["| blocks | command | processor s | clock s | MB | ratio |", "|---|---|---|---|---|---|"]
    keep(given, "Commands of the planner's layer next to pandas.read_csv", [*head, *("| " + " | ".join(row) + " |" for row in rows)])
    if given.history:
        remember(given.runs, rows)

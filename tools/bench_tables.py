#!/usr/bin/env python3
"""Writes the tables of measurements in README.md and docs/SPEED.md from bench/results/bench.md.

    tools/bench_tables.py            writes them between the marks of the pages
    tools/bench_tables.py --check    only compares; status 1 if a page has others
"""
import pathlib
import re
import sys
from collections.abc import Callable

from crates import TOP

RESULTS = TOP / "bench" / "results" / "bench.md"
PAGES = (TOP / "README.md", TOP / "docs" / "SPEED.md")
MARKED = re.compile(r"(<!-- measured: (\w+) -->\n).*?(<!-- end of measured -->\n)", re.DOTALL)
Rows = list[list[str]]


def sections(text: str) -> dict[str, str]:
    """The sections of the file of results by their suites."""
    return dict(re.findall(r"^## (.+)\n\n((?:(?!## ).*\n?)*)", text, re.MULTILINE))


def tables(section: str) -> list[Rows]:
    """The tables of a section, each with its head and without the line below it."""
    found = re.findall(r"(?:^\|.*\n)+", section, re.MULTILINE)
    return [[[cell.strip() for cell in line.strip("|").split("|")] for line in text.splitlines() if not line.startswith("|---")] for text in found]


def columns(rows: Rows, names: dict[str, int]) -> Rows:
    """The columns at these places, under these names."""
    return [list(names), *([row[place] for place in names.values()] for row in rows[1:])]


def pit(section: str) -> Rows:
    """Rows of README: two sizes of each slope."""
    rows = tables(section)[0]
    chosen = [row for row in rows if row[1] in ("100,000", "1,000,000")]
    names = {"slopes": 0, "blocks": 1, "pairs": 2, "pitshell s": 3, "MB": 5, "theirs s": 6, "their MB": 8}
    return columns([rows[0], *chosen], names)


def irregular(section: str) -> Rows:
    """Both solvers by slopes and kind of ore, and their ratio; none where theirs is past the limit."""
    found = [["slopes, ore", "blocks", "pitshell s", "MB", "theirs s", "their MB", "ratio"]]
    for slopes, blocks, _, own, _, peak, theirs, _, their_peak, *_ in tables(section)[0][1:]:
        ratio = f"{float(own) / float(theirs):.2f}" if theirs[:1].isdigit() else ""
        found.append([slopes, blocks, own, peak, theirs, their_peak, ratio])
    return found


def clock(section: str) -> Rows:
    """Both kinds of seconds of the program and of the authors' own code, at the two largest sizes of each slope, and their ratios."""
    ours, theirs = ({(row[0], row[1]): row for row in tables(section)[1] if row[3].startswith(name)} for name in ("pitshell, single", "Boykov"))
    found = [["slopes", "blocks", "processor s", "clock s", "theirs, processor s", "clock s", "ratio", "clock"]]
    for mine, row in ours.items():
        other = theirs.get(mine)
        if mine[1] in ("500,000", "1,000,000") and other and not other[4].startswith("more"):
            seconds = [row[4], row[6], other[4], other[6]]
            ratios = [float(seconds[place]) / float(seconds[place + 2]) for place in (0, 1)]
            found.append([*mine, *(f"{float(it):.2f}" for it in seconds), *(f"{it:.2f}" for it in ratios)])
    return found


def peers(section: str) -> Rows:
    """By how much each peer takes longer than the strongest of each mine, at least and at most."""
    seconds: dict[str, dict[tuple[str, str], float]] = {}
    late: set[str] = set()
    for slopes, blocks, _, solver, whole, *_ in tables(section)[1][1:]:
        if solver.startswith("pitshell"):
            continue
        if whole.startswith("more"):
            late.add(solver)
        else:
            seconds.setdefault(solver, {})[slopes, blocks] = float(whole)
    least = {mine: min(took[mine] for took in seconds.values() if mine in took) for took in seconds.values() for mine in took}
    found = [["solver", "times the fastest, from", "to"]]
    for solver, took in seconds.items():
        ratios = sorted(took[mine] / least[mine] for mine in took)
        found.append([solver, f"{ratios[0]:.1f}", f"{ratios[-1]:.1f}{', or past the limit' if solver in late else ''}"])
    return found


def shared(section: str) -> Rows:
    """The largest mines of each slope."""
    rows = tables(section)[0]
    largest = max((row[1] for row in rows[1:]), key=lambda count: int(count.replace(",", "")))
    chosen = [row for row in rows if row[1] == largest]
    return columns([rows[0], *chosen], {"slopes": 0, "blocks": 1, "mode": 2, "solve s": 3, "ratio to parts": 4, "whole, clock s": 5})


def library(section: str) -> Rows:
    return columns(tables(section)[0], {"slopes": 0, "blocks": 1, "way": 2, "whole s": 3, "processor s": 4, "MB at most": 7})


def first(section: str) -> Rows:
    return tables(section)[0]


# What each mark is made of: the suite, and its table.
MADE: dict[str, tuple[str, Callable[[str], Rows]]] = {
    "pit": ("table", pit),
    "clock": ("table", clock),
    "peers": ("peers", peers),
    "irregular": ("irregular", irregular),
    "seeds": ("seeds", first),
    "shared": ("shared", shared),
    "fixed": ("fixed", first),
    "greatest": ("greatest", first),
    "library": ("library", library),
    "layer": ("layer", first),
}


def written(name: str, found: dict[str, str], page: pathlib.Path) -> str:
    """A table, and below it when and of what it was measured."""
    suite, make = MADE[name]
    rows = make(found[suite])
    lines = [f"| {' | '.join(row)} |" for row in rows]
    lines.insert(1, "|---" * len(rows[0]) + "|")
    day = re.search(r"\d{4}-\d{2}-\d{2}", found[suite])[0]
    commit = re.search(r"commit (\w{7,})", found[suite])
    path = "bench/results/bench.md" if page.parent == TOP else "../bench/results/bench.md"
    of = f", commit {commit[1]}" if commit else ""
    return "\n".join([*lines, "", f"Measured on {day}{of} ([suite `{suite}`]({path}#{suite})).", ""])


def page_of(page: pathlib.Path, found: dict[str, str]) -> str:
    return MARKED.sub(lambda mark: f"{mark[1]}\n{written(mark[2], found, page)}\n{mark[3]}", page.read_text(encoding="utf-8"))


def main() -> int:
    found = sections(RESULTS.read_text(encoding="utf-8"))
    differing = [(page, text) for page in PAGES if (text := page_of(page, found)) != page.read_text(encoding="utf-8")]
    for page, text in differing:
        if "--check" in sys.argv[1:]:
            print(f"{page.relative_to(TOP)}: has other tables than {RESULTS.relative_to(TOP)}: run tools/bench_tables.py")
        else:
            page.write_text(text, encoding="utf-8")
    return 1 if differing and "--check" in sys.argv[1:] else 0


if __name__ == "__main__":
    sys.exit(main())

"""The suites of the bench run on small mines, and the tables of README and SPEED are those of the file of results."""

import pathlib
import subprocess
import sys

import pytest

from conftest import PROGRAM, TOP

sys.path.insert(0, str(TOP / "tools"))

sys.path.insert(0, str(TOP / "bench"))

import bench_tables  # noqa: E402
import seeds  # noqa: E402
from timing import Run  # noqa: E402


def test_the_tables_are_made_from_the_results() -> None:
    ran = subprocess.run([TOP / "tools" / "bench_tables.py", "--check"], capture_output=True, text=True, timeout=60)
    assert (ran.returncode, ran.stdout, ran.stderr) == (0, "", "")


@pytest.mark.parametrize("suite", ["fixed", "greatest", "shared", "layer"])
def test_a_suite_writes_its_section_and_keeps_the_others(suite: str, tmp_path: pathlib.Path) -> None:
    results = tmp_path / "bench.md"
    results.write_text("# Measurements\n\n## other\n\nWords.\n\n| a | b |\n|---|---|\n| 1 | 2 |\n")
    words = [TOP / "bench" / "bench.py", suite, "--small", "--bin", PROGRAM, "--results", results]
    subprocess.run(["/usr/bin/python3", *words], cwd=TOP, check=True, capture_output=True, timeout=120)
    found = bench_tables.sections(results.read_text())
    assert list(found) == ["other", suite] and bench_tables.tables(found["other"]) == [[["a", "b"], ["1", "2"]]]
    table = bench_tables.written(suite, found, TOP / "README.md").splitlines()
    assert len(table) > 3 and table[-1].startswith("Measured on 20") and f"(bench/results/bench.md#{suite})" in table[-1]


LONG = "\n| slopes | blocks | pairs | solver | whole s |\n|---|---|---|---|---|\n"


def test_the_ratios_on_irregular_mines() -> None:
    """A peer that is past the limit has no ratio."""
    section = "Words.\n\n| slopes | blocks | pairs | whole | solve | MB | whole | solve | MB | which |\n|---|---|---|---|---|---|---|---|---|---|\n"
    section += "| 1:5, pipes | 1,000 | 7 | 0.10 | 0.05 | 13 | 0.40 | 0.30 | 20 | Boykov |\n| 1:5, noise | 1,000 | 7 | 0.20 | 0.1 | 13 | more than 20 | | | all |\n"
    found = bench_tables.irregular(section)[1:]
    assert found == [["1:5, pipes", "1,000", "0.10", "13", "0.40", "20", "0.25"], ["1:5, noise", "1,000", "0.20", "13", "more than 20", "", ""]]


def test_the_ratios_of_seeds() -> None:
    """The median of those that have a ratio, and the most memory, mergers and relabels of all."""
    mines = [(0.2, 0.5, 0.3, 4.0), (0.4, 0.1, 0.2, 1.0), (0.3, None, 0.1, 5.0), (0.6, 0.2, 0.4, 2.0)]
    found = [seeds.Timed(Run(seconds, 1.0, 10 + seconds, "", ""), *rest) for seconds, *rest in mines]
    assert seeds.row("1:5", 1000, found) == "| 1:5 | 1,000 | 3 of 4 | 0.20 | 0.10 | 0.50 | 0.35 | 11 | 0.40 | 5.00 |"


def test_the_ratios_of_peers() -> None:
    """To the fastest peer of each mine; a peer that is past the limit on a mine has the ratios of the others."""
    rows = [("1", "pitshell, single", "0.1"), ("1", "first", "2.0"), ("1", "second", "3.0"), ("2", "first", "6.0"), ("2", "second", "more than 16")]
    section = "Words.\n\n| head |\n|---|\n" + LONG + "".join(f"| 1:5 | {blocks} | 7 | {solver} | {whole} |\n" for blocks, solver, whole in rows)
    assert bench_tables.peers(section)[1:] == [["first", "1.0", "1.0"], ["second", "1.5", "1.5, or past the limit"]]

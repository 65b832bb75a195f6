#!/usr/bin/python3
"""Mutation test of the planner's layer: plants single changes, one at a time in a copy, and checks that a test fails on each.

    tools/planted_changes.py [--seeds 1,2,3] [--count 100] [--jobs 2] [--only PATH] [--pictures] [--results FILE]      by hand

A change (tools/changes_of_meaning.py) is drawn by the seed among all of python/pitplan and python/planaudit, or of --only; changed lines
elsewhere do not alter whether it is drawn. The modules that draw figures (PICTURES) are left out, since most of their numbers are widths,
sizes of type and colours. --pictures draws among these alone, and asks for no share.

All tests of python/tests except the library's and those of the browser run once without a change, under Debian's python3-coverage. On a
change run the tests that run one of its lines, the quickest first; with none, all tests. --tests names the files of tests to use in place
of all. The status is 1 if fewer than 95 of 100 changes are detected, and 2 if a test fails without a change.

--results writes the survivors. The reason that the file gives for a survivor, after the dash, is kept.
"""
import argparse
import concurrent.futures
import contextlib
import json
import os
import pathlib
import queue
import re
import signal
import subprocess
import sys
import tempfile
import time
from collections.abc import Iterator, Mapping
from typing import NamedTuple

import coverage
import pytest

import clone
from changes_of_meaning import Change, changes, drawn
from crates import TOP

LAYER, AUDIT = (pathlib.Path("python") / name for name in ("pitplan", "planaudit"))
DRAWING = ("plans_sections", "schedule", "block_schedule", "sensitivity", "map_marks", "annual", "scenarios")
PICTURES = {LAYER / "figures" / f"{name}.py" for name in DRAWING}
TESTS = pathlib.Path("python") / "tests"
WANTED = 0.95
# A change may make a program take all the memory or all the time that it gets.
MOST_BYTES = 4 << 30
MOST_SECONDS = 1800
BROWSERLESS = ("-m", "not browser")
# So many tests run first, since most changes fail one of them and the collection of all files takes as long.
FIRST = 60
SECONDS = "PLANTED_SECONDS"
HEAD = "# Planted changes that no test detects\n\nWritten by `tools/planted_changes.py`; the reasons are written by hand.\n"
SETTINGS = """[run]
source =
    {copy}/python/pitplan
    {copy}/python/planaudit
data_file = {notes}/coverage
"""
Lines = Mapping[str, Mapping[int, set[str]]]


class Suite(NamedTuple):
    """The files of tests, the tests that run each line of the layer, by file and line, the seconds of each test, and copies of the repository
    that nobody uses at the moment."""

    files: list[str]
    lines: Lines
    seconds: Mapping[str, float]
    copies: queue.SimpleQueue

    def rounds(self, change: Change) -> list[list[str]]:
        """The tests that run a line of the change, the quickest first, in two rounds; all files if there are none."""
        by_line = self.lines.get(str(change.file), {})
        near = set().union(*(by_line.get(line, set()) for line in change.lines))
        quickest = sorted(near, key=lambda test: self.seconds.get(test, 0.0))
        rest = sorted({test.partition("::")[0] for test in quickest[FIRST:]})
        return [quickest[:FIRST], rest] if near else [self.files]

    def detects(self, change: Change) -> bool:
        """Whether a test fails on the change, or the tests do not end."""
        copy = self.copies.get()
        try:
            with planted(copy, change):
                return any(fails(copy, tests) for tests in self.rounds(change) if tests)
        finally:
            self.copies.put(copy)


def environment() -> dict[str, str]:
    built = {"PITSHELL": TOP / "build" / "pitshell", "PITSHELL_LIBRARY": TOP / "build" / "libpitshell.so"}
    return {**{name: str(file) for name, file in built.items() if file.exists()}, **os.environ}


def fails(copy: pathlib.Path, tests: list[str]) -> bool:
    """Whether one of these tests or files of tests fails in a copy, or they do not end."""
    words = ["prlimit", f"--data={MOST_BYTES}", "/usr/bin/python3", "-m", "pytest", "-q", "-x", "-p", "no:cacheprovider", *BROWSERLESS, *tests]
    words.append(f"--basetemp={copy.parent / 'tests'}")
    with subprocess.Popen(
        words, cwd=copy, env=environment(), stdout=subprocess.DEVNULL, stderr=subprocess.DEVNULL, start_new_session=True
    ) as ran:
        try:
            return ran.wait(MOST_SECONDS) != 0
        except subprocess.TimeoutExpired:
            return True
        finally:
            with contextlib.suppress(ProcessLookupError):
                os.killpg(ran.pid, signal.SIGKILL)


@contextlib.contextmanager
def planted(copy: pathlib.Path, change: Change) -> Iterator[None]:
    """The copy has the change meanwhile."""
    before = (copy / change.file).read_text()
    write(copy, change.file, change.changed)
    try:
        yield
    finally:
        write(copy, change.file, before)


def write(copy: pathlib.Path, file: pathlib.Path, text: str) -> None:
    """Gives a module another text, and removes what was compiled of it: a text of the same length in the same second would pass for it. The tests
    keep what they compile in build/pycache."""
    path = copy / file
    path.write_text(text)
    for folder in (path.parent / "__pycache__", (copy / "build/pycache").joinpath(*path.parent.parts[1:])):
        for compiled in folder.glob(f"{path.stem}.*"):
            compiled.unlink()


@pytest.hookimpl(hookwrapper=True)
def pytest_runtest_protocol(item: pytest.Item) -> Iterator[None]:
    """Notes what runs from now on under the test, and how long it takes; pytest loads this module as a plugin in lines_run."""
    coverage.Coverage.current().switch_context(item.nodeid)
    began = time.monotonic()
    yield
    with open(os.environ[SECONDS], "a", encoding="utf-8") as notes:
        notes.write(json.dumps([item.nodeid, time.monotonic() - began]) + "\n")


def lines_run(copy: pathlib.Path, files: list[str]) -> tuple[Lines, dict[str, float]] | None:
    """Runs the tests once, and gives the tests that run each line, and the seconds of each; None if a test fails."""
    with tempfile.TemporaryDirectory(prefix="pitshell-") as notes:
        settings, data, seconds = (pathlib.Path(notes) / name for name in ("settings", "coverage", "seconds"))
        settings.write_text(SETTINGS.format(copy=copy, notes=notes))
        words = ["/usr/bin/python3", "-m", "coverage", "run", f"--rcfile={settings}", "-m", "pytest", "-q", "-x", "-p", "no:cacheprovider"]
        words += ["-p", pathlib.Path(__file__).stem, *BROWSERLESS, *files, f"--basetemp={notes}/tests"]
        known = {**environment(), "PYTHONPATH": str(copy / "tools"), SECONDS: str(seconds)}
        ran = subprocess.run(words, cwd=copy, env=known, capture_output=True, text=True)
        # Status 5: no test is left of these files.
        if ran.returncode not in (0, 5):
            print(ran.stdout[-2000:], ran.stderr[-2000:])
            return None
        found = coverage.CoverageData(basename=str(data))
        found.read()
        lines = {
            str(pathlib.Path(file).relative_to(copy)): {line: set(names) - {""} for line, names in found.contexts_by_lineno(file).items()}
            for file in found.measured_files()
        }
        return lines, dict(map(json.loads, seconds.read_text(encoding="utf-8").splitlines())) if seconds.exists() else {}


def files_of(tests: list[str]) -> list[str]:
    """The files of tests that the words for pytest name."""
    left_out = {word.partition("=")[2] for word in tests if word.startswith("--ignore=")}
    named = [pathlib.Path(word) for word in tests if not word.startswith("-")]
    found = [file for path in named for file in (sorted((TOP / path).glob("test_*.py")) if (TOP / path).is_dir() else [TOP / path])]
    return [name for file in found if (name := str(file.relative_to(TOP))) not in left_out]


@contextlib.contextmanager
def suite(jobs: int, files: list[str]) -> Iterator[Suite | None]:
    """The suite with as many copies as there are jobs; None if a test fails without a change."""
    with contextlib.ExitStack() as stack:
        # All are made now, so that the repository may be worked on meanwhile.
        copies: queue.SimpleQueue = queue.SimpleQueue()
        made = [stack.enter_context(clone.clone()) for _ in range(jobs)]
        with concurrent.futures.ThreadPoolExecutor(jobs) as pool:
            parts = list(pool.map(lines_run, made, (files[number::jobs] for number in range(jobs))))
        for copy in made:
            copies.put(copy)
        yield None if None in parts else Suite(files, *joined([part for part in parts if part]), copies)


def joined(parts: list[tuple[Lines, dict[str, float]]]) -> tuple[Lines, dict[str, float]]:
    """The lines and seconds of all parts of the tests."""
    lines: dict[str, dict[int, set[str]]] = {}
    for found, _ in parts:
        for file, by_line in found.items():
            for line, tests in by_line.items():
                lines.setdefault(file, {}).setdefault(line, set()).update(tests)
    return lines, {test: took for _, seconds in parts for test, took in seconds.items()}


def survivors(seed: int, sample: list[Change], tests: Suite, jobs: int) -> list[Change]:
    """The changes of a seed that no test detects; prints each change."""
    with concurrent.futures.ThreadPoolExecutor(jobs) as pool:
        left = []
        for change, detected in zip(sample, pool.map(tests.detects, sample)):
            print(seed, "detected" if detected else "SURVIVES", change, flush=True)
            left += [] if detected else [change]
    return left


def write_results(path: pathlib.Path, found: dict[int, list[Change]], counts: dict[int, int]) -> None:
    """A part for each seed and a line for each survivor, with the reason that the file gave before."""
    before = path.read_text() if path.is_file() else ""
    why = {change: reason for change, reason in re.findall(r"^- `.*?:\d+`: (.*?) — (.*)$", before, re.MULTILINE)}
    parts = [HEAD]
    for seed, left in found.items():
        rows = [f"- {change} — {why.get(change.said, 'not judged yet')}" for change in left]
        parts.append("\n".join([f"## Seed {seed}: {counts[seed] - len(left)} of {counts[seed]} are detected", "", *rows, ""]))
    path.write_text("\n".join(parts))


def parsed() -> argparse.Namespace:
    parser = argparse.ArgumentParser(description=__doc__, formatter_class=argparse.RawDescriptionHelpFormatter)
    parser.add_argument("--seeds", default="1", type=lambda text: [int(word) for word in text.split(",")])
    parser.add_argument("--count", type=int, default=100)
    parser.add_argument("--jobs", type=int, default=2)
    parser.add_argument("--only", default="python", metavar="PATH", help="a module or folder whose changes alone are drawn")
    parser.add_argument("--pictures", action="store_true")
    parser.add_argument("--tests", nargs="+", default=[str(TESTS), f"--ignore={TESTS / 'test_library.py'}"], metavar="FILE")
    parser.add_argument("--results", type=pathlib.Path)
    return parser.parse_args()


def main() -> int:
    given, found, counts = parsed(), {}, {}
    candidates = [change for change in [*changes(LAYER), *changes(AUDIT)] if change.file.is_relative_to(given.only)]
    candidates = [change for change in candidates if (change.file in PICTURES) == given.pictures]
    with suite(given.jobs, files_of(given.tests)) as tests:
        if tests is None:
            print("a test fails without a change")
            return 2
        for seed in given.seeds:
            sample = drawn(candidates, seed, given.count)
            found[seed], counts[seed] = survivors(seed, sample, tests, given.jobs), len(sample)
            print(f"Seed {seed}: {len(sample) - len(found[seed])} of {len(sample)} changes are detected.", flush=True)
    if given.results:
        write_results(given.results, found, counts)
    is_enough = all(len(found[seed]) <= (1 - WANTED) * counts[seed] for seed in found)
    return int(not given.pictures and not is_enough)


if __name__ == "__main__":
    sys.exit(main())

"""The calls of the lock and a solve by a worker, with each request for memory refused in turn; and mergers, a board and a counter
of chunks with every request refused once they are prepared.

What was refused to `apply` or `serve` left all as it was, and a second call goes on. In a solve the worker's ask is taken back, and
the driver goes on. The program is `crates/refused_memory`, which says what it saw; the gate builds it, and where it is not that of the
sources, it is proved and built.
"""

import collections
import itertools
import os
import pathlib
import re
import subprocess
import sys

import pytest

from conftest import TOP

sys.path.insert(0, str(TOP / "tools"))

import build  # noqa: E402

PROGRAM = TOP / "build" / "refused_memory"
PREPARED = "prepared: all held\n"
HELD = re.compile(PREPARED + r"apply: (\d) refused, all held\nserve: (\d) refused, all held\n")
BY_THE_WORKER = "solve: 1 0 Applied\nsolve: 1 1 Applied\n"
# The worker's first ask was refused memory and taken back, and the driver decided its own first arc, which is the same.
FIRST_BY_THE_DRIVER = "solve: 0 0 Applied\nsolve: 1 1 Applied\n"


def run(shim: pathlib.Path, folder: pathlib.Path, number: int, refused: str = "FAIL_ALLOC") -> tuple[int, str, int]:
    """Status, standard output, and how often memory was asked for, where the request of this number is refused."""
    told = folder / "counts"
    env = {**os.environ, "LD_PRELOAD": str(shim), "COUNT_CALLS": str(told), refused: str(number)}
    ran = subprocess.run([PROGRAM], env=env, capture_output=True, text=True, timeout=60)
    return ran.returncode, ran.stdout, int(told.read_text().split()[0])


@pytest.fixture(scope="module", autouse=True)
def program() -> None:
    if not build.is_built("refused_memory"):
        subprocess.run([TOP / "tools" / "build.py", "refused_memory"], check=True)


@pytest.fixture(scope="module")
def runs(shim: pathlib.Path, tmp_path_factory: pytest.TempPathFactory) -> list[tuple[int, str]]:
    """Status and standard output of each run, until one asks for memory less often."""
    folder, found = tmp_path_factory.mktemp("counts"), []
    for number in itertools.count(1):
        status, out, asked = run(shim, folder, number)
        found.append((status, out))
        if asked < number:
            return found


def test_what_is_prepared_runs_without_memory(shim: pathlib.Path, tmp_path: pathlib.Path) -> None:
    for number in itertools.count(1):
        status, out, asked = run(shim, tmp_path, number, refused="FAIL_ALLOC_FROM")
        assert status == 1, out
        if out:
            break
    # what is prepared asked for all before this request, and what comes after asked in vain
    assert out == PREPARED and number > 20 and asked >= number


def test_what_was_refused_memory_changed_nothing(runs: list[tuple[int, str]]) -> None:
    refused = collections.Counter()
    for status, out in runs:
        if status == 1 and out in ("", PREPARED):
            continue  # to what is prepared for the calls
        held = HELD.match(out)
        assert held, out
        refused.update(apply=int(held[1]), serve=int(held[2]))
    # room for an entry, room for an arc, and room for more entries among the arcs
    assert refused["apply"] >= 3 and refused["serve"] >= 3, refused


def test_an_ask_that_was_refused_memory_is_taken_back(runs: list[tuple[int, str]]) -> None:
    journals = {HELD.sub("", out) for status, out in runs if status == 0}
    assert journals == {BY_THE_WORKER, FIRST_BY_THE_DRIVER}

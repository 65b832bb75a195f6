"""What `make try` prints beside what the toolchain does."""

import sys

import pytest

from conftest import TOP

sys.path.insert(0, str(TOP / "tools"))

import first_run  # noqa: E402


def test_the_summary_of_the_small_mine() -> None:
    text = (first_run.MINE / "pit.txt").read_text()
    assert first_run.summary(text) == "a pit of 377 blocks of 1,024, worth 391.820000"


def test_without_a_solver_the_next_command_builds_one(monkeypatch: pytest.MonkeyPatch, capsys: pytest.CaptureFixture[str]) -> None:
    monkeypatch.setattr(first_run, "solvers", lambda: iter(()))
    first_run.planned()
    assert capsys.readouterr().out.startswith("next: make, which proves and builds the program")

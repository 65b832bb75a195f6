"""In which order crates are proved ahead of the one run over all, by a prover that stands in for the toolchain."""

import pathlib
import sys
import threading
from collections.abc import Callable

import pytest

from conftest import TOP

sys.path.insert(0, str(TOP / "tools"))

import ahead  # noqa: E402

# Two low crates, a middle one on both, and three above it, each on the one before.
USES = {"left": [], "right": [], "middle": ["left", "right"], "first": ["middle"], "second": ["first", "left"], "third": ["second"]}


class Prover:
    """Notes in which order crates come, and how many at once; fails at one."""

    def __init__(self, wrong: str = "") -> None:
        self.wrong, self.began, self.proved, self.most = wrong, [], set(), 0
        self.lock = threading.Lock()

    def __call__(self, copy: pathlib.Path, name: str) -> tuple[bool, list[str]]:
        with self.lock:
            assert self.proved.issuperset(USES[name]), f"{name} before those below it"
            self.began.append(name)
            self.most = max(self.most, len(self.began) - len(self.proved))
        with self.lock:
            self.proved.add(name)
        return name != self.wrong, [f"rt: {name} proved\n"]


@pytest.fixture
def ordered(monkeypatch: pytest.MonkeyPatch, tmp_path: pathlib.Path) -> Callable[[Prover, dict[str, str]], bool]:
    """Proves the crates with these states ahead, by a prover."""
    monkeypatch.setattr(ahead, "crates", lambda: USES)
    monkeypatch.setattr(ahead, "keeps", lambda: True)
    monkeypatch.setattr(ahead, "PROVED", tmp_path / "proved.json")

    def prove(prover: Prover, now: dict[str, str]) -> bool:
        monkeypatch.setattr(ahead, "prove_one", prover)
        return ahead.prove_ahead(tmp_path, now, lambda line: None)

    return prove


def test_all_but_the_last_chain_are_proved_two_at_once(ordered: Callable[[Prover, dict[str, str]], bool]) -> None:
    prover = Prover()
    assert ordered(prover, dict.fromkeys(USES, "as it stands"))
    assert sorted(prover.began) == ["left", "right"], "middle and what stands on it are left to the one run"
    assert prover.most <= ahead.LANES


def test_what_was_proved_as_it_stands_is_passed_over(ordered: Callable[[Prover, dict[str, str]], bool]) -> None:
    ahead.note_proved({"right": "as it stands", "left": "as it was"})
    prover = Prover()
    assert ordered(prover, dict.fromkeys(USES, "as it stands"))
    assert prover.began == []
    assert ordered(Prover(), {**dict.fromkeys(USES, "as it stands"), "right": "changed", "left": "changed"})
    assert ahead.proved_before() == {"right": "changed", "left": "changed"}


def test_nothing_is_proved_behind_a_proof_that_failed(ordered: Callable[[Prover, dict[str, str]], bool]) -> None:
    prover = Prover(wrong="left")
    assert not ordered(prover, dict.fromkeys(USES, "as it stands"))
    assert "middle" not in prover.began
    assert "left" not in ahead.proved_before()

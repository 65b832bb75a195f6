"""Files of more than a megabyte and more than 100,000 pairs: what small mines do not reach."""

import subprocess

import pytest

from conftest import PROGRAM, Mine
from rows import MODES, model_of, pit_of

PAIRS = 120_000
BLOCKS = 2 * PAIRS
SOLVE = ["solve", "--model", "mine.upit", "--prec", "mine.prec"]
PIT = pit_of(BLOCKS, list(range(BLOCKS)), f"{PAIRS}.000000")


@pytest.fixture
def pairs(mine: Mine) -> Mine:
    """Each second block pays for the one before it."""
    mine.write("mine.upit", model_of(["3" if block % 2 else "-2" for block in range(BLOCKS)]))
    mine.write("mine.prec", "".join(f"{block} 1 {block - 1}\n" for block in range(1, BLOCKS, 2)))
    assert (mine.folder / "mine.upit").stat().st_size > 1 << 20
    assert (mine.folder / "mine.prec").stat().st_size > 1 << 20
    return mine


@pytest.mark.parametrize("mode", MODES)
def test_a_great_mine_in_each_mode(pairs: Mine, mode: str) -> None:
    assert pairs.run(*SOLVE, *MODES[mode]) == (0, PIT, "")


def test_a_great_certificate(pairs: Mine) -> None:
    assert pairs.run(*SOLVE, "--certificate", "made.cert") == (0, PIT, "")
    assert f"\nFLOW: {PAIRS}\n" in pairs.read("made.cert")
    assert pairs.run("check", *SOLVE[1:], "--certificate", "made.cert") == (0, "yes\n", "")


def test_a_great_block_model(pairs: Mine) -> None:
    pairs.write("mine.blocks", "".join(f"{block} 0 0 0 {'5 2' if block % 2 else '0 2'}\n" for block in range(BLOCKS)))
    head = f"SHELLS\nBLOCKS: {BLOCKS}\nFACTORS: 2\n500 0 0.000000000\n1000 {BLOCKS} {PAIRS}.000000000\n"
    due = head + "".join(f"{block} 1000\n" for block in range(BLOCKS))
    words = ["shells", "--blocks", "mine.blocks", "--prec", "mine.prec", "--revenue", "0", "--cost", "1", "--factors", "500,1000"]
    assert pairs.run(*words) == (0, due, "")


def test_a_long_line(mine: Mine) -> None:
    """One block needs 120,000 others: a line of some 800 KB."""
    mine.write("mine.upit", model_of(["-1"] * PAIRS + [str(PAIRS + 1)]))
    mine.write("mine.prec", f"{PAIRS} {PAIRS} {' '.join(map(str, range(PAIRS)))}\n")
    assert mine.run(*SOLVE) == (0, pit_of(PAIRS + 1, list(range(PAIRS + 1)), "1.000000"), "")


def test_the_first_line_of_a_great_answer(pairs: Mine) -> None:
    """Whoever takes one line of many gets it, and the run ends with a write that failed and nothing more."""
    piped = ["bash", "-c", '"$0" "$@" | head -n 1; echo "${PIPESTATUS[0]}"', PROGRAM, *SOLVE]
    ran = subprocess.run(piped, cwd=pairs.folder, capture_output=True, text=True, timeout=60)
    assert (ran.stdout, ran.stderr) == ("PIT\n1\n", "error 18: write failed\n")

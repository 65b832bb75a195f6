"""A precedence file is read by pieces of whole lines: wherever a piece ends the answer is that of the text, and no file is held whole."""

import pathlib
import resource
import subprocess

import pytest

from conftest import CHAIN, PROGRAM, Mine
from rows import model_of, pit_of

SOLVE = ["solve", "--model", "mine.upit", "--prec", "mine.prec"]
PIECE = 65536


def run(mine: Mine, **more: object) -> tuple[int, str, str]:
    ran = subprocess.run([PROGRAM, *SOLVE], cwd=mine.folder, capture_output=True, text=True, timeout=60, **more)
    return ran.returncode, ran.stdout, ran.stderr


@pytest.mark.parametrize("padding", ["\n", " "], ids=["lines", "blanks"])
@pytest.mark.parametrize("before", range(PIECE - 7, PIECE + 2))
def test_the_end_of_a_piece_may_be_anywhere(mine: Mine, before: int, padding: str) -> None:
    mine.write("mine.prec", padding * before + CHAIN)
    assert run(mine) == (0, pit_of(2, [0, 1], "2.000000"), "")


@pytest.mark.parametrize("before", range(PIECE - 7, PIECE + 2))
def test_lines_are_counted_over_all_pieces(mine: Mine, before: int) -> None:
    """Each line of each piece is one more, and the last may end without a line feed."""
    mine.write("mine.prec", "\n" * before + CHAIN + "\n" * PIECE + "1 1 0")
    assert run(mine) == (1, "", f"error 7: id out of place in precedence line {before + PIECE + 2}\n")


def test_pairs_of_many_pieces_are_all_kept(mine: Mine) -> None:
    """Each second block pays for the one before it but for a millionth; the last pays, since all pairs are there."""
    blocks = 40_000
    mine.write("mine.upit", model_of(["1.000001" if block % 2 else "-1" for block in range(blocks)]))
    mine.write("mine.prec", "".join(f"{block} 1 {block - 1}\n" for block in range(1, blocks, 2)))
    assert len(mine.read("mine.prec")) > 3 * PIECE
    assert run(mine) == (0, pit_of(blocks, list(range(blocks)), "0.020000"), "")


def test_no_more_than_a_piece_and_a_line_is_held(mine: Mine) -> None:
    """The text is twice as large as all memory that the program may have."""
    space = 64 << 20
    with open(mine.folder / "mine.prec", "w", encoding="ascii") as file:
        for _ in range(2 * space // PIECE):
            file.write("\n" * PIECE)
        file.write(CHAIN)
    limit = {"preexec_fn": lambda: resource.setrlimit(resource.RLIMIT_AS, (space, space))}
    assert run(mine, **limit) == (0, pit_of(2, [0, 1], "2.000000"), "")


def test_a_fault_is_told_when_the_rest_was_read(mine: Mine, shim: pathlib.Path) -> None:
    """The model takes two reads; the third finds the fault, and where the fourth fails that is told."""
    mine.write("mine.prec", "1 1 1\n" + "\n" * 2 * PIECE)
    assert run(mine) == (1, "", "error 9: block needs itself in precedence line 1\n")
    assert run(mine, env={"LD_PRELOAD": str(shim), "FAIL_READ": "4"}) == (1, "", "error 2: read failed in precedence\n")

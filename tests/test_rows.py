"""Each run that was worked out by hand, and larger runs of the same kind."""

import resource
import subprocess

import pytest

from conftest import PROGRAM, Mine
from rows import CHECK, MODES, SHELLS, SMALL_MINES, SOLVE, Row, all_rows, model_of, pit_of

COPIES = 5000


@pytest.mark.parametrize("row", all_rows(), ids=lambda row: row.name)
def test_what_was_worked_out_by_hand(mine: Mine, row: Row) -> None:
    for name, text in row.files.items():
        mine.write(name, text)
    assert mine.run(*row.words) == (row.status, row.out, row.err)
    there = {file.name for file in mine.folder.iterdir()}
    assert {name: mine.read(name) if name in there else None for name in row.made} == row.made


@pytest.mark.parametrize("mode", MODES)
def test_the_certificate_of_each_small_mine_is_answered_yes(mine: Mine, mode: str) -> None:
    for name, values, prec, pit, worth in SMALL_MINES:
        mine.write("mine.upit", model_of(values))
        mine.write("mine.prec", prec)
        assert mine.run(*SOLVE, *MODES[mode], "--certificate", "some.cert") == (0, pit_of(len(values), pit, worth), ""), name
        assert mine.run(*CHECK) == (0, "yes\n", ""), name


@pytest.mark.parametrize("mode", MODES)
def test_a_file_that_takes_so_many_bytes_holds_a_beginning(mine: Mine, mode: str) -> None:
    """The limit of a file's size lets a write take a part, and the next one fail."""
    pit = pit_of(2, [0, 1], "2.000000")
    for room in range(len(pit)):
        with open(mine.folder / "cut.txt", "w") as out:
            limit = lambda room=room: resource.setrlimit(resource.RLIMIT_FSIZE, (room, room))  # noqa: E731
            ran = subprocess.run([PROGRAM, *SOLVE, *MODES[mode]], cwd=mine.folder, stdout=out, stderr=subprocess.PIPE, preexec_fn=limit, restore_signals=False, timeout=60)
        assert (ran.returncode, ran.stderr) == (1, b"error 18: write failed\n"), room
        assert mine.read("cut.txt") == pit[:room]


@pytest.mark.parametrize("mode", ["single", "parts", "shared 2"])
def test_many_copies_of_four_blocks(mine: Mine, mode: str) -> None:
    """Of each copy the second and the third block are dug, for 3."""
    copies = range(0, 4 * COPIES, 4)
    mine.write("mine.upit", model_of(["1", "-2", "5", "-2"] * COPIES))
    mine.write("mine.prec", "".join(f"{u} 2 {u + 1} {u + 3}\n{u + 2} 1 {u + 1}\n" for u in copies))
    pit = [block for u in copies for block in (u + 1, u + 2)]
    assert mine.run(*SOLVE, *MODES[mode]) == (0, pit_of(4 * COPIES, pit, "15000.000000"), "")


def test_many_factors_have_the_shells_of_each_alone(mine: Mine) -> None:
    """Four ores that share two blocks of waste, each with another price from which it pays."""
    mine.write("mine.blocks", "0 0 0 0 0 3\n1 1 0 0 0 5\n2 0 0 1 10 1\n3 1 0 1 10 8\n4 2 0 1 6 2\n5 3 0 1 4 4\n")
    mine.write("mine.prec", "2 1 0\n3 2 0 1\n4 1 1\n5 1 1\n")
    factors = [str(100 * k) for k in range(1, 31)]
    status, out, err = mine.run(*SHELLS, ",".join(factors))
    assert (status, err) == (0, "")
    lines = out.splitlines()[3:33]
    assert lines[-1].startswith("3000 6 ")
    for factor, line in zip(factors, lines):
        assert mine.run(*SHELLS, factor)[1].splitlines()[3] == line


def test_as_many_factors_as_there_may_be(mine: Mine) -> None:
    factors = [str(3 * k) for k in range(1001)]
    status, out, err = mine.run(*SHELLS, ",".join(factors[:1000]))
    assert (status, err) == (0, "")
    lines = out.splitlines()
    assert lines[:3] == ["SHELLS", "BLOCKS: 2", "FACTORS: 1000"]
    assert [line.split()[0] for line in lines[3:1003]] == factors[:1000]
    assert mine.run(*SHELLS, ",".join(factors)) == (1, "", "error 4: over the limit in factors item 1001\n")

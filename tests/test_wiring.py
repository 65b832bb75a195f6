"""What the command line, the files and the streams of the program have to do with one another.

The contracts of the calls speak of any place where files are, and none can say what a real file holds or what the command line
meant; so each wire is pulled once. The answers of the two-block mine were worked out by hand: ore worth 5 below waste that costs 3.
"""

import pathlib
import subprocess

import pytest

from conftest import PROGRAM, TOP, Mine

PIT = "PIT\nBLOCKS: 2\nIN: 2\nWORTH: 2.000000\n0\n1\n"
SHELLS = "SHELLS\nBLOCKS: 2\nFACTORS: 3\n300 0 0.000000000\n400 0 0.000000000\n1000 2 6.000000000\n0 1000\n1 1000\n"
SOLVE = ["solve", "--model", "mine.upit", "--prec", "mine.prec"]
CHECK = ["check", "--model", "mine.upit", "--prec", "mine.prec", "--certificate"]


def shells(*more: str, blocks: str = "mine.blocks", revenue: str = "0", cost: str = "1", factors: str = "300,400,1000") -> list[str]:
    return ["shells", "--blocks", blocks, "--prec", "mine.prec", "--revenue", revenue, "--cost", cost, "--factors", factors, *more]


MODES = [[], ["--mode", "parts"], ["--mode", "shared", "--workers", "1"], ["--mode", "shared", "--workers", "4"]]


@pytest.mark.parametrize("mode", MODES)
def test_solve_writes_the_pit_to_standard_output(mine: Mine, mode: list[str]) -> None:
    assert mine.run(*SOLVE, *mode) == (0, PIT, "")


@pytest.mark.parametrize("mode", MODES)
def test_shells_go_by_the_columns_that_were_named(mine: Mine, mode: list[str]) -> None:
    assert mine.run(*shells(*mode)) == (0, SHELLS, "")


def test_exchanged_columns_give_other_shells(mine: Mine) -> None:
    # revenue 3 and 1, cost 0 and 10: block 0 alone pays, and only blocks of a shell have a line
    status, out, err = mine.run(*shells(revenue="1", cost="0", factors="1000"))
    assert (status, out, err) == (0, "SHELLS\nBLOCKS: 2\nFACTORS: 1\n1000 1 3.000000000\n0 1000\n", "")


def test_the_stored_shells_of_the_example(mine: Mine) -> None:
    folder = TOP / "examples" / "shells"
    factors = "150,200,250,300,400,500,700,800,900,1000,1200,1500"
    status, out, err = mine.run(
        "shells", "--blocks", str(folder / "mine.blocks"), "--prec", str(folder / "mine.prec"),
        "--revenue", "0", "--cost", "1", "--factors", factors,
    )  # fmt: skip
    assert (status, err) == (0, "")
    assert out == (folder / "shells.txt").read_text()


def test_check_answers_by_its_status_too(mine: Mine) -> None:
    assert mine.run(*CHECK, "good.cert") == (0, "yes\n", "")
    assert mine.run(*CHECK, "wrong.cert") == (4, "no\n", "")


def test_solve_writes_a_certificate_that_check_takes(mine: Mine) -> None:
    assert mine.run(*SOLVE, "--certificate", "made.cert") == (0, PIT, "")
    assert mine.read("made.cert").startswith("PITCERT 1\nBLOCKS: 2\nARCS: 1\nIN: 2\n0\n1\nFLOW: 1\n1 0 ")
    assert mine.run(*CHECK, "made.cert") == (0, "yes\n", "")


@pytest.mark.parametrize("words", [[*SOLVE, "--budget", "0"], shells("--budget", "0")])
def test_a_budget_is_not_dropped(mine: Mine, words: list[str]) -> None:
    used_up = (3, "", "error 20: exhausted after 0 mergers\n")
    assert mine.run(*words) == used_up
    assert mine.run(*words, "--mode", "shared", "--workers", "2") == used_up


def test_a_budget_that_suffices(mine: Mine) -> None:
    assert mine.run(*SOLVE, "--budget", "1") == (0, PIT, "")


def test_files_are_opened_in_their_order(mine: Mine) -> None:
    """Of several files that are missing the first one is named."""
    for name in ("mine.prec", "good.cert"):
        (mine.folder / name).unlink()
    assert mine.run(*CHECK, "good.cert") == (1, "", "error 2: read failed in precedence\n")
    assert mine.run(*SOLVE) == (1, "", "error 2: read failed in precedence\n")
    (mine.folder / "mine.upit").unlink()
    assert mine.run(*CHECK, "good.cert") == (1, "", "error 2: read failed in model\n")
    assert mine.run(*SOLVE) == (1, "", "error 2: read failed in model\n")
    assert mine.run(*shells()) == (1, "", "error 2: read failed in precedence\n")
    (mine.folder / "mine.blocks").unlink()
    assert mine.run(*shells()) == (1, "", "error 2: read failed in blocks\n")


def test_the_certificate_is_opened_before_the_model_is_read(mine: Mine) -> None:
    mine.write("mine.upit", "wrong\n")
    assert mine.run(*CHECK, "missing.cert") == (1, "", "error 2: read failed in certificate\n")


def test_factors_are_read_before_a_file_is_opened(mine: Mine) -> None:
    words = shells(blocks="missing.blocks", factors="400,400")
    assert mine.run(*words) == (1, "", "error 19: factors not rising in factors item 2\n")


def test_each_file_is_read_as_what_it_is_named(mine: Mine) -> None:
    mine.write("mine.prec", "0 1 0\n")
    assert mine.run(*SOLVE) == (1, "", "error 9: block needs itself in precedence line 1\n")
    assert mine.run(*shells()) == (1, "", "error 9: block needs itself in precedence line 1\n")
    mine.write("mine.upit", "NAME: t\n")
    assert mine.run(*SOLVE) == (1, "", "error 12: ends early in model line 2\n")


def test_a_certificate_that_cannot_be_made(mine: Mine) -> None:
    made = mine.run(*SOLVE, "--certificate", "no_such_folder/made.cert")
    assert made == (1, "", "error 18: write failed\n")


def test_a_full_standard_output(mine: Mine) -> None:
    if not pathlib.Path("/dev/full").exists():
        pytest.skip("this system has no /dev/full")
    with open("/dev/full", "w") as full:
        ran = subprocess.run([PROGRAM, *SOLVE], cwd=mine.folder, stdout=full, stderr=subprocess.PIPE, timeout=60)
    assert (ran.returncode, ran.stderr) == (1, b"error 18: write failed\n")


@pytest.mark.parametrize("words", [SOLVE, shells(factors="1000")], ids=["solve", "shells"])
def test_so_many_workers_are_started_as_were_asked_for(mine: Mine, shim: pathlib.Path, words: list[str]) -> None:
    """Once a sweep, beside the threads that any run starts; four where no number is given."""

    def started(*more: str) -> int:
        told = mine.folder / "counts"
        env = {"LD_PRELOAD": str(shim), "COUNT_CALLS": str(told)}
        subprocess.run([PROGRAM, *words, "--mode", "shared", *more], cwd=mine.folder, env=env, check=True, capture_output=True, timeout=60)
        return int(told.read_text().split()[3])

    one = started("--workers", "1")
    sweeps = started("--workers", "2") - one
    assert sweeps > 0
    assert [started("--workers", number) - one for number in ("4", "7")] == [3 * sweeps, 6 * sweeps]
    assert started() - one == 3 * sweeps


@pytest.mark.parametrize("column", ["revenue", "cost"])
def test_the_last_column_may_be_named(mine: Mine, column: str) -> None:
    """Attributes are 64 at most, the first being 0: the mine has two."""
    words = [*shells(**{column: "63"})]
    assert mine.run(*words) == (1, "", "error 16: no column 63 in blocks\n")

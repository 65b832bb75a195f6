"""Blocks forced in and barred: runs worked out by hand, faults of the fixed file and their order among those of the other files,
certificates that name fixed blocks, and journals of the rest."""

import os
import subprocess
import sys

import pytest

from conftest import PROGRAM, TOP, Mine
from rows import CLASH, FIXED, MODES, Row, fixed_file_rows, fixed_rows, journal_of, model_of, pit_of, two_ores

sys.path.insert(0, str(TOP / "tools"))

import check_certificate  # noqa: E402
import replay_journal  # noqa: E402

CHECK = ["check", *FIXED[1:], "--certificate", "some.cert"]
REPLAY = ["replay", *FIXED[1:], "--journal", "some.journal"]
CYCLE = "1 1 2\n2 1 1\n"
NOT_WRITTEN = (1, "", "error 18: write failed\n")


@pytest.fixture
def ores(mine: Mine) -> Mine:
    """The mine of which the second ore does not pay for its waste; block 3 is forced in."""
    for name, text in two_ores("in 3\n").items():
        mine.write(name, text)
    return mine


@pytest.mark.parametrize("row", [*fixed_rows(), *fixed_file_rows()], ids=lambda row: row.name)
def test_what_was_worked_out_by_hand(mine: Mine, row: Row) -> None:
    for name, text in row.files.items():
        mine.write(name, text)
    assert mine.run(*row.words) == (row.status, row.out, row.err)
    assert {name: mine.read(name) for name in row.made} == row.made


@pytest.mark.parametrize(
    ("text", "fault"),
    [
        ("in\n", "11: wrong number of fields in fixed line 1"),
        ("in 0 1\n", "11: wrong number of fields in fixed line 1"),
        ("3\n", "11: wrong number of fields in fixed line 1"),
        ("x y z\n", "11: wrong number of fields in fixed line 1"),
        ("x y\n", "3: wrong header in fixed line 1"),
        ("IN 3\n", "3: wrong header in fixed line 1"),
        ("in: 3\n", "3: wrong header in fixed line 1"),
        ("3 in\n", "3: wrong header in fixed line 1"),
        ("in x\n", "5: not a whole number in fixed line 1"),
        ("in -1\n", "5: not a whole number in fixed line 1"),
        ("in +1\n", "5: not a whole number in fixed line 1"),
        ("in 1.0\n", "5: not a whole number in fixed line 1"),
        ("in 00000000003\n", "5: not a whole number in fixed line 1"),
        ("in 3\r\r\n", "5: not a whole number in fixed line 1"),
        ("in 4\n", "7: id out of place in fixed line 1"),
        ("out 9999999999\n", "7: id out of place in fixed line 1"),
        ("in 4294967299\n", "7: id out of place in fixed line 1"),
        ("in 3\nin 3\n", "7: id out of place in fixed line 2"),
        ("in 3\nout 3\n", "7: id out of place in fixed line 2"),
        ("out 3\nin 2\n", "7: id out of place in fixed line 2"),
        ("\n \t\nin 0\n\r\nin 0\n", "7: id out of place in fixed line 5"),
        ("in 3\nin", "11: wrong number of fields in fixed line 2"),
    ],
)
def test_the_first_fault_of_a_fixed_file(ores: Mine, text: str, fault: str) -> None:
    (ores.folder / "mine.fixed").write_bytes(text.encode())
    due = (1, "", f"error {fault}\n")
    assert ores.run(*FIXED) == due
    ores.write("some.cert", "")
    assert ores.run(*CHECK) == due
    ores.write("some.journal", "")
    assert ores.run(*REPLAY) == due


@pytest.mark.parametrize("text", ["in 3", "in 3\n", "in 3\r\n", "\r\n\tin  0000000003 \n\n \n", "in\t3"])
def test_fixed_files_that_say_the_same(ores: Mine, text: str) -> None:
    (ores.folder / "mine.fixed").write_bytes(text.encode())
    assert ores.run(*FIXED) == (0, pit_of(4, [0, 1, 2, 3], "5.000000"), "")


def test_faults_come_in_the_order_of_the_files(ores: Mine) -> None:
    """The texts in the order in which they are read, then a cycle, then a clash, then the certificate or the journal."""
    ores.write("some.cert", "wrong\n")
    ores.write("some.journal", "wrong\n")
    ores.write("mine.fixed", "out 1\nin 3\n")
    clash = (1, "", CLASH)
    assert ores.run(*FIXED) == ores.run(*CHECK) == ores.run(*REPLAY) == clash
    ores.write("mine.prec", "0 1 1\n1 1 0\n3 1 1\n")
    cycle = (1, "", "error 14: cycle 0 1 in precedence\n")
    assert ores.run(*FIXED) == ores.run(*CHECK) == ores.run(*REPLAY) == cycle
    ores.write("mine.fixed", "out 1\nin 3\nout\n")
    fixed = (1, "", "error 11: wrong number of fields in fixed line 3\n")
    assert ores.run(*FIXED) == ores.run(*CHECK) == ores.run(*REPLAY) == fixed
    ores.write("mine.prec", "0 1 0\n")
    itself = (1, "", "error 9: block needs itself in precedence line 1\n")
    assert ores.run(*FIXED) == ores.run(*CHECK) == ores.run(*REPLAY) == itself


BUDGET = ("--budget", "0")
HEADS = ["BLOCKS: 4\nARCS: 3\n", "BLOCKS: 2\nARCS: 1\n"]


@pytest.mark.parametrize(
    ("words", "text"),
    [
        *(([*FIXED, *mode], "") for mode in MODES.values()),
        *(([*FIXED, *mode, *BUDGET], "") for name, mode in MODES.items() if name != "parts"),
        *((CHECK, f"PITCERT {form}\n{head}{end}") for form in "12" for head in HEADS for end in ("", "IN: 0\nFLOW: 0\n")),
        *((REPLAY, f"PITJOURNAL 1\n{head}BUDGET: {budget}\nENTRIES: {end}") for head in HEADS for budget in ("0", "none") for end in ("", "0\n", "1\n1 0 1\n")),
    ],
)
def test_a_clash_ends_each_run(ores: Mine, words: list[str], text: str) -> None:
    """It is neither a used-up budget nor a missing seat, and whatever the certificate or the journal says, no answer and no fault of it."""
    ores.write("some.cert", text)
    ores.write("some.journal", text)
    ores.write("mine.fixed", "out 1\nin 3\n")
    assert ores.run(*words) == (1, "", CLASH)


def test_a_clash_names_the_least_block(mine: Mine) -> None:
    """Block 4 needs 1, 2 and 3 through one another; 3 and 1 are barred."""
    mine.write("mine.upit", model_of(["0"] * 5))
    mine.write("mine.prec", "2 1 1\n3 1 2\n4 1 3\n")
    for fixed, block in (("out 1\nout 3\nin 4\n", 1), ("out 2\nout 3\nin 4\n", 2), ("out 0\nout 3\nin 4\n", 3)):
        mine.write("mine.fixed", fixed)
        assert mine.run(*FIXED) == (1, "", f"error 21: fixed blocks clash at block {block}\n")
    mine.write("mine.fixed", "in 1\nin 2\nout 3\nout 4\n")
    assert mine.run(*FIXED) == (0, pit_of(5, [1, 2], "0.000000"), "")


def test_fixed_files_are_opened_after_the_precedence(ores: Mine) -> None:
    (ores.folder / "mine.fixed").unlink()
    missing = (1, "", "error 2: read failed in fixed\n")
    assert ores.run(*FIXED) == ores.run(*CHECK) == ores.run(*REPLAY) == missing
    assert ores.run(*FIXED, "--certificate", "no_such_folder/made.cert") == missing
    ores.write("mine.upit", "wrong\n")
    assert ores.run(*FIXED) == missing
    (ores.folder / "mine.prec").unlink()
    assert ores.run(*FIXED) == (1, "", "error 2: read failed in precedence\n")


def test_a_folder_is_no_fixed_file(ores: Mine) -> None:
    (ores.folder / "folder").mkdir()
    assert ores.run(*FIXED[:-1], "folder") == (1, "", "error 2: read failed in fixed\n")


def test_a_fixed_file_may_be_a_pipe(ores: Mine) -> None:
    ran = subprocess.run([PROGRAM, *FIXED[:-1], "/dev/stdin"], cwd=ores.folder, input="out 0\n", capture_output=True, text=True, timeout=60)
    assert (ran.returncode, ran.stdout, ran.stderr) == (0, pit_of(4, [], "0.000000"), "")


@pytest.mark.parametrize("name", ["mine.fixed", "./mine.fixed", "hard.fixed", "link.fixed"])
@pytest.mark.parametrize("option", ["--certificate", "--journal"])
def test_an_output_may_not_be_the_fixed_file(ores: Mine, name: str, option: str) -> None:
    (ores.folder / "link.fixed").symlink_to("mine.fixed")
    os.link(ores.folder / "mine.fixed", ores.folder / "hard.fixed")
    before = {file.name for file in ores.folder.iterdir()}
    assert ores.run(*FIXED, "--mode", "shared", option, name) == NOT_WRITTEN
    assert ores.read("mine.fixed") == "in 3\n"
    assert {file.name for file in ores.folder.iterdir()} == before


HEAD = "PITCERT 2\nBLOCKS: 4\nARCS: 3\n"
PIT = "IN: 4\n0\n1\n2\n3\nFLOW: 0\n"


@pytest.mark.parametrize(
    ("fixed", "text", "due"),
    [
        ("in 3\n", HEAD + "FORCED: 1\n3\nBARRED: 0\n" + PIT, "yes"),
        ("in 3\n", HEAD + "FORCED: 0\nBARRED: 0\n" + PIT, "17: counts differ in certificate line 4"),
        ("in 3\n", HEAD + "FORCED: 1\n2\nBARRED: 0\n" + PIT, "17: counts differ in certificate line 5"),
        ("in 3\n", HEAD + "FORCED: 2\n1\n3\nBARRED: 0\n" + PIT, "17: counts differ in certificate line 4"),
        ("in 3\n", HEAD + "FORCED: 1\n3\nBARRED: 1\n0\n" + PIT, "17: counts differ in certificate line 6"),
        ("in 3\n", HEAD + "FORCED: 5\n", "4: over the limit in certificate line 4"),
        ("in 3\n", HEAD + "FORCED: 1\n4\n", "7: id out of place in certificate line 5"),
        ("in 3\n", HEAD + "FORCED: 1\n3 3\n", "11: wrong number of fields in certificate line 5"),
        ("in 3\n", HEAD + "FORCED: 1\nx\n", "5: not a whole number in certificate line 5"),
        ("in 3\n", HEAD + "FORCED: x\n", "5: not a whole number in certificate line 4"),
        ("in 3\n", HEAD + "BARRED: 0\n", "3: wrong header in certificate line 4"),
        ("in 3\n", HEAD + "FORCED: 1\n3\nIN: 4\n", "3: wrong header in certificate line 6"),
        ("in 3\n", HEAD + "FORCED: 1\n", "12: ends early in certificate line 5"),
        ("in 3\n", HEAD + "FORCED: 1\n3\n", "12: ends early in certificate line 6"),
        ("in 3\n", HEAD.replace("2", "1", 1) + PIT, "17: counts differ in certificate line 1"),
        ("in 3\n", "\n" + HEAD.replace("2", "1", 1) + PIT, "17: counts differ in certificate line 2"),
        ("in 3\n", HEAD.replace("2", "3", 1), "3: wrong header in certificate line 1"),
        ("in 3\n", HEAD + "FORCED: 1\n3\nBARRED: 0\nIN: 3\n0\n1\n3\nFLOW: 0\n", "no"),
        ("in 3\n", HEAD + "FORCED: 1\n3\nBARRED: 0\nIN: 3\n1\n2\n3\nFLOW: 0\n", "no"),
        ("in 3\n", HEAD + "FORCED: 1\n3\nBARRED: 0\nIN: 4\n0\n1\n2\n3\nFLOW: 1\n2 0 3000000\n", "no"),
        ("out 0\n", HEAD + "FORCED: 0\nBARRED: 1\n0\nIN: 0\nFLOW: 0\n", "yes"),
        ("out 0\n", HEAD + "FORCED: 0\nBARRED: 1\n0\nIN: 2\n0\n2\nFLOW: 1\n2 0 3000000\n", "no"),
        ("out 0\n", HEAD + "FORCED: 0\nBARRED: 1\n1\n", "17: counts differ in certificate line 6"),
        ("", HEAD + "FORCED: 0\nBARRED: 0\nIN: 2\n0\n2\nFLOW: 2\n2 0 3000000\n3 1 2000000\n", "yes"),
        ("", HEAD.replace("2", "1", 1) + "IN: 2\n0\n2\nFLOW: 2\n2 0 3000000\n3 1 2000000\n", "yes"),
    ],
)
def test_a_certificate_names_the_fixed_blocks(ores: Mine, fixed: str, text: str, due: str) -> None:
    ores.write("mine.fixed", fixed)
    ores.write("some.cert", text)
    answer = {"yes": (0, "yes\n", ""), "no": (4, "no\n", "")}.get(due, (1, "", f"error {due}\n"))
    assert ores.run(*CHECK) == ores.told_by(check_certificate, "some.cert") == answer


def test_a_certificate_may_name_that_nothing_is_fixed(ores: Mine) -> None:
    text = HEAD + "FORCED: 0\nBARRED: 0\nIN: 2\n0\n2\nFLOW: 2\n2 0 3000000\n3 1 2000000\n"
    ores.write("some.cert", text)
    assert ores.run("check", *CHECK[1:5], "--certificate", "some.cert") == (0, "yes\n", "")


@pytest.mark.parametrize("mode", MODES)
def test_a_certificate_is_of_format_2_where_blocks_are_fixed(ores: Mine, mode: str) -> None:
    for fixed, head in (("in 3\n", HEAD + "FORCED: 1\n3\nBARRED: 0\nIN: 4\n"), ("", HEAD.replace("2", "1", 1) + "IN: 2\n")):
        ores.write("mine.fixed", fixed)
        assert ores.run(*FIXED, *MODES[mode], "--certificate", "some.cert")[0] == 0
        assert ores.read("some.cert").startswith(head)
        assert ores.run(*CHECK) == (0, "yes\n", "")


@pytest.mark.parametrize(
    ("journal", "due"),
    [
        (journal_of(2, 1, "none", "1 0 1"), (0, pit_of(4, [0, 1, 3], "1.000000"), "")),
        (journal_of(2, 1, "none", "1 0 2"), (4, "entry 1 differs\n", "")),
        (journal_of(2, 1, "none"), (4, "open after 0 mergers\n", "")),
        (journal_of(2, 1, "0", "1 0 3"), (3, "", "error 20: exhausted after 0 mergers\n")),
        (journal_of(4, 1, "none", "1 0 1"), (1, "", "error 17: counts differ in journal line 2\n")),
        (journal_of(2, 3, "none", "1 0 1"), (1, "", "error 17: counts differ in journal line 3\n")),
        (journal_of(2, 1, "none", "1 1 1"), (1, "", "error 7: id out of place in journal line 6\n")),
    ],
)
def test_a_journal_counts_the_rest(mine: Mine, journal: str, due: tuple[int, str, str]) -> None:
    """Block 0 is forced in and block 2 barred, so that blocks 1 and 3 with one pair are the rest."""
    mine.write("mine.upit", model_of(["-1", "-3", "9", "5"]))
    mine.write("mine.prec", "2 1 1\n3 2 0 1\n")
    mine.write("mine.fixed", "in 0\nout 2\n")
    mine.write("some.journal", journal)
    assert mine.run(*REPLAY) == mine.told_by(replay_journal, "some.journal") == due


def test_solve_writes_a_journal_of_the_rest(mine: Mine) -> None:
    mine.write("mine.upit", model_of(["-1", "-3", "9", "5"]))
    mine.write("mine.prec", "2 1 1\n3 2 0 1\n")
    mine.write("mine.fixed", "in 0\nout 2\n")
    assert mine.run(*FIXED, *MODES["shared 1"], "--journal", "some.journal") == (0, pit_of(4, [0, 1, 3], "1.000000"), "")
    assert mine.read("some.journal") == journal_of(2, 1, "none", "1 0 1")


def test_a_great_mine_of_which_half_is_fixed(mine: Mine) -> None:
    """Each odd block pays for the one before it; each fourth pair of blocks is forced in and each fourth barred."""
    pairs = 30_000
    mine.write("mine.upit", model_of(["3" if block % 2 else "-2" for block in range(2 * pairs)]))
    mine.write("mine.prec", "".join(f"{block} 1 {block - 1}\n" for block in range(1, 2 * pairs, 2)))
    mine.write("mine.fixed", "".join(f"in {8 * k + 1}\nout {8 * k + 4}\n" for k in range(pairs // 4)))
    pit = [block for block in range(2 * pairs) if block % 8 not in (4, 5)]
    for mode in MODES.values():
        assert mine.run(*FIXED, *mode) == (0, pit_of(2 * pairs, pit, f"{len(pit) // 2}.000000"), "")

"""`solve --journal` and `replay`: journals worked out by hand, journals that the program wrote, journals that were bent, and the
files that they stand in. Answers to bent journals are stored (see test_replay_journal.py)."""

import os
import pathlib
import subprocess
import sys

import pytest

from conftest import PROGRAM, TOP, TWO_BLOCKS, Mine
from rows import FOUR_PAIRS, SMALL_MINES, journal_of, model_of, pit_of
from test_replay_journal import LIMITS, NINE, SIX, STORED, TEN

sys.path.insert(0, str(TOP / "tools"))

from journal_storm import Storm, small_storm  # noqa: E402
from replay_journal import answer  # noqa: E402

SOLVE = ["solve", "--model", "mine.upit", "--prec", "mine.prec"]
SHARED = [*SOLVE, "--mode", "shared", "--workers"]
REPLAY = ["replay", "--model", "mine.upit", "--prec", "mine.prec", "--journal", "some.journal"]
PIT = pit_of(2, [0, 1], "2.000000")
ONE_MERGER = "PITJOURNAL 1\nBLOCKS: 2\nARCS: 1\nBUDGET: none\nENTRIES: 1\n1 0 1\n"
NOT_WRITTEN = (1, "", "error 18: write failed\n")
USED_UP = (3, "", "error 20: exhausted after 0 mergers\n")
OLD = "what stood there\n"


def replay(mine: Mine, values: list[str], prec: str, journal: str) -> tuple[int, str, str]:
    mine.write("mine.upit", model_of(values))
    mine.write("mine.prec", prec)
    mine.write("some.journal", journal)
    return mine.run(*REPLAY)


@pytest.mark.parametrize(
    ("values", "journal", "due"),
    [
        (NINE, journal_of(4, 3, "none", "1 0 1", "2 2 1", "1 1 1"), (0, pit_of(4, [1, 2], "3.000000"), "")),
        (NINE, journal_of(4, 3, "none", "1 0 1", "2 2 2", "1 1 1"), (4, "entry 2 differs\n", "")),
        (NINE, journal_of(4, 3, "2", "0 0 1", "0 2 1", "0 1 3"), (3, "", "error 20: exhausted after 2 mergers\n")),
        (TEN, journal_of(4, 3, "none", "1 0 1", "2 2 2", "1 1 1"), (4, "open after 2 mergers\n", "")),
        (TEN, journal_of(4, 3, "none", *SIX), (0, pit_of(4, [0, 1, 2, 3], "5.000000"), "")),
        (TEN, journal_of(4, 3, "1", *SIX[:3], "1 1 3", "2 2 2", "3 2 2"), (3, "", "error 20: exhausted after 1 mergers\n")),
        (NINE, journal_of(4, 3, "none", "65 0 1"), (1, "", "error 4: over the limit in journal line 6\n")),
        (NINE, journal_of(4, 3, "none", "1 3 1"), (1, "", "error 7: id out of place in journal line 6\n")),
        (NINE, "PITJOURNAL 1\nBLOCKS: 4\nARCS: 2\n", (1, "", "error 17: counts differ in journal line 3\n")),
        (NINE, journal_of(4, 3, "none").replace("0\n", "18446744073709551615\n"), (1, "", "error 12: ends early in journal line 6\n")),
    ],
)
def test_replay_answers_what_was_worked_out_by_hand(mine: Mine, values: list[str], journal: str, due: tuple[int, str, str]) -> None:
    assert replay(mine, values, FOUR_PAIRS, journal) == due


@pytest.mark.parametrize(("journal", "wanted"), LIMITS)
def test_replay_at_the_limits_of_numbers(mine: Mine, journal: str, wanted: tuple[str, str, int]) -> None:
    out, err, status = wanted
    assert replay(mine, NINE, FOUR_PAIRS, journal) == (status, out, err)


def test_replay_of_bent_journals(mine: Mine) -> None:
    for case in STORED:
        for name, kind in (("mine.upit", "model"), ("mine.prec", "prec"), ("some.journal", "journal")):
            (mine.folder / name).write_bytes(case[kind].encode("latin-1"))
        assert mine.run(*REPLAY) == (case["status"], case["out"], case["err"]), case


def test_the_journal_of_one_worker(mine: Mine) -> None:
    assert mine.run(*SHARED, "1", "--journal", "made.journal") == (0, PIT, "")
    assert mine.read("made.journal") == ONE_MERGER


@pytest.mark.parametrize("workers", ["1", "2", "8", "64"])
def test_a_journal_replays_to_the_answer_of_its_run(mine: Mine, workers: str) -> None:
    for _, values, prec, pit, worth in SMALL_MINES:
        mine.write("mine.upit", model_of(values))
        mine.write("mine.prec", prec)
        due = (0, pit_of(len(values), pit, worth), "")
        assert mine.run(*SHARED, workers, "--journal", "some.journal") == due
        assert mine.run(*REPLAY) == due
        assert mine.read("some.journal").splitlines()[3] == "BUDGET: none"


@pytest.mark.parametrize("workers", ["1", "2", "8"])
@pytest.mark.parametrize("budget", ["0", "1", "2", "3", "18446744073709551615"])
def test_a_journal_under_a_budget_replays_to_the_answer_of_its_run(mine: Mine, workers: str, budget: str) -> None:
    mine.write("mine.upit", model_of(NINE))
    mine.write("mine.prec", FOUR_PAIRS)
    told = mine.run(*SHARED, workers, "--budget", budget, "--journal", "some.journal")
    used_up = (3, "", f"error 20: exhausted after {budget} mergers\n")
    assert told in ((0, pit_of(4, [1, 2], "3.000000"), ""), used_up)
    assert mine.run(*REPLAY) == told
    out, err, status = answer(*((mine.folder / name).read_bytes() for name in ("mine.upit", "mine.prec", "some.journal")))
    assert (status, out, err) == told
    assert mine.read("some.journal").splitlines()[3] == f"BUDGET: {budget}"


@pytest.mark.parametrize("mode", [[], ["--mode", "single"], ["--mode", "parts"]])
def test_a_journal_needs_mode_shared(mine: Mine, mode: list[str]) -> None:
    words = ["solve", "--model", "missing", "--prec", "missing", *mode, "--journal", "made.journal"]
    assert mine.run(*words) == (2, "", "pitshell: journal needs shared\n")
    assert not (mine.folder / "made.journal").exists()


def test_the_budget_of_parts_comes_before_the_journal(mine: Mine) -> None:
    words = [*SOLVE, "--mode", "parts", "--budget", "1", "--journal", "made.journal"]
    assert mine.run(*words) == (2, "", "pitshell: parts takes no budget\n")


@pytest.mark.parametrize("words", [REPLAY[:-2], [*REPLAY, "--budget", "1"], [*REPLAY, "--mode", "shared"], [*REPLAY, "extra"], ["replay"]])
def test_mistakes_of_replay(mine: Mine, words: list[str]) -> None:
    status, out, err = mine.run(*words)
    assert (status, out) == (2, "")
    assert err


def test_replay_opens_its_files_in_their_order(mine: Mine) -> None:
    mine.write("mine.upit", "wrong\n")
    assert mine.run(*REPLAY) == (1, "", "error 2: read failed in journal\n")
    (mine.folder / "mine.prec").unlink()
    assert mine.run(*REPLAY) == (1, "", "error 2: read failed in precedence\n")
    (mine.folder / "mine.upit").unlink()
    assert mine.run(*REPLAY) == (1, "", "error 2: read failed in model\n")


def test_replay_names_the_first_fault_of_the_files(mine: Mine) -> None:
    mine.write("some.journal", "wrong\n")
    assert mine.run(*REPLAY) == (1, "", "error 3: wrong header in journal line 1\n")
    mine.write("mine.upit", model_of(["1", "1"]))
    mine.write("mine.prec", "0 1 1\n1 1 0\n")
    assert mine.run(*REPLAY) == (1, "", "error 14: cycle 0 1 in precedence\n")


def test_replay_reads_a_journal_from_a_pipe(mine: Mine) -> None:
    words = [PROGRAM, *REPLAY[:-1], "/dev/stdin"]
    ran = subprocess.run(words, cwd=mine.folder, input=ONE_MERGER, capture_output=True, text=True, timeout=60)
    assert (ran.returncode, ran.stdout, ran.stderr) == (0, PIT, "")


@pytest.mark.parametrize("closed", [">&-", ">/dev/full"])
@pytest.mark.parametrize("journal", [ONE_MERGER, ONE_MERGER.replace("1 0 1", "1 0 2"), journal_of(2, 1, "none")])
def test_replay_to_a_standard_output_that_takes_nothing(mine: Mine, journal: str, closed: str) -> None:
    mine.write("some.journal", journal)
    ran = subprocess.run(["sh", "-c", f'"$0" "$@" {closed}', PROGRAM, *REPLAY], cwd=mine.folder, capture_output=True, text=True, timeout=60)
    assert (ran.returncode, ran.stdout, ran.stderr) == NOT_WRITTEN


def test_the_journal_is_written_before_the_pit(mine: Mine) -> None:
    assert mine.run(*SHARED, "1", "--journal", "/dev/stdout") == (0, ONE_MERGER + PIT, "")


def test_the_journal_is_written_before_the_certificate(mine: Mine) -> None:
    """Where the certificate cannot be written, the journal's text has gone out and the pit's has not."""
    status, out, err = mine.run(*SHARED, "1", "--journal", "/dev/stdout", "--certificate", "/dev/full")
    assert (status, out, err) == (1, ONE_MERGER, "error 18: write failed\n")


def test_the_journal_is_written_where_the_budget_is_used_up(mine: Mine) -> None:
    status, out, err = mine.run(*SHARED, "1", "--budget", "0", "--journal", "/dev/stdout")
    assert (status, err) == (3, "error 20: exhausted after 0 mergers\n")
    assert out.startswith("PITJOURNAL 1\nBLOCKS: 2\nARCS: 1\nBUDGET: 0\nENTRIES: ")
    assert "PIT\n" not in out


def test_a_used_up_budget_leaves_the_journal_and_no_certificate(mine: Mine) -> None:
    mine.write("made.journal", OLD)
    before = {file.name for file in mine.folder.iterdir()}
    assert mine.run(*SHARED, "1", "--budget", "0", "--journal", "made.journal", "--certificate", "made.cert") == USED_UP
    assert {file.name for file in mine.folder.iterdir()} == before
    assert mine.read("made.journal").startswith("PITJOURNAL 1\n")
    mine.write("some.journal", mine.read("made.journal"))
    assert mine.run(*REPLAY) == USED_UP


@pytest.mark.parametrize("more", [[], ["--budget", "0"]])
def test_a_journal_that_cannot_be_written(mine: Mine, more: list[str]) -> None:
    before = {file.name for file in mine.folder.iterdir()}
    for name in ("/dev/full", "no_such_folder/made.journal"):
        assert mine.run(*SHARED, "1", *more, "--journal", name, "--certificate", "made.cert") == NOT_WRITTEN
    assert {file.name for file in mine.folder.iterdir()} == before


@pytest.mark.parametrize("name", ["mine.upit", "./mine.upit", "mine.prec", "link.upit", "hard.upit"])
def test_a_journal_may_be_none_of_the_inputs(mine: Mine, name: str) -> None:
    (mine.folder / "link.upit").symlink_to("mine.upit")
    os.link(mine.folder / "mine.upit", mine.folder / "hard.upit")
    assert mine.run(*SHARED, "1", "--journal", name) == NOT_WRITTEN
    assert (mine.read("mine.upit"), mine.read("mine.prec")) == (TWO_BLOCKS, "1 1 0\n")


@pytest.mark.parametrize("certificate", ["made.journal", "./made.journal", "link"])
def test_a_journal_and_a_certificate_are_two_files(mine: Mine, certificate: str) -> None:
    mine.write("made.journal", OLD)
    (mine.folder / "link").symlink_to("made.journal")
    before = {file.name for file in mine.folder.iterdir()}
    assert mine.run(*SHARED, "1", "--journal", "made.journal", "--certificate", certificate) == NOT_WRITTEN
    assert mine.read("made.journal") == OLD
    assert {file.name for file in mine.folder.iterdir()} == before


def test_a_journal_and_a_certificate_of_one_new_name(mine: Mine) -> None:
    before = {file.name for file in mine.folder.iterdir()}
    for certificate in ("made", "./made"):
        assert mine.run(*SHARED, "1", "--journal", "made", "--certificate", certificate) == NOT_WRITTEN
        assert {file.name for file in mine.folder.iterdir()} == before


@pytest.mark.parametrize("name", ["both.txt", "./both.txt", "/dev/stdout"])
def test_a_journal_takes_nothing_from_standard_output(mine: Mine, name: str) -> None:
    with open(mine.folder / "both.txt", "w") as out:
        ran = subprocess.run([PROGRAM, *SHARED, "1", "--journal", name], cwd=mine.folder, stdout=out, stderr=subprocess.PIPE, timeout=60)
    assert (ran.returncode, ran.stderr) == (1, b"error 18: write failed\n")
    assert mine.read("both.txt") == ""


def test_a_link_without_its_file_gives_way_to_the_journal(mine: Mine) -> None:
    (mine.folder / "made.journal").symlink_to("nowhere")
    assert mine.run(*SHARED, "1", "--journal", "made.journal") == (0, PIT, "")
    assert not (mine.folder / "made.journal").is_symlink()
    assert mine.read("made.journal") == ONE_MERGER
    assert not (mine.folder / "nowhere").exists()


def test_a_refused_run_leaves_the_journal_that_stood_there(mine: Mine) -> None:
    mine.write("made.journal", OLD)
    mine.write("mine.prec", "1 1 1\n")
    assert mine.run(*SHARED, "1", "--journal", "made.journal") == (1, "", "error 9: block needs itself in precedence line 1\n")
    assert mine.read("made.journal") == OLD


def test_a_small_storm(tmp_path: pathlib.Path) -> None:
    storm = Storm(PROGRAM, tmp_path)
    for run in small_storm():
        storm.try_run(run)
    assert storm.wrong == []
    assert storm.entries > 0


@pytest.mark.parametrize("slopes", ["1:9", "cone"])
def test_no_ask_of_a_storm_is_stale(tmp_path: pathlib.Path, slopes: str) -> None:
    """Eight workers and a plan of some ten thousand mergers: each asks for what no other makes stale, whatever the schedule."""
    made = [sys.executable, TOP / "tools" / "make_mine.py", "--blocks", "40000", "--slopes", slopes, "--seed", "3", "--out", tmp_path / "mine"]
    subprocess.run(made, check=True)
    busy = []
    for _run in range(3):
        subprocess.run([PROGRAM, *SHARED, "8", "--journal", "some.journal"], cwd=tmp_path, check=True, capture_output=True, timeout=60)
        entries = [line.split() for line in (tmp_path / "some.journal").read_text().splitlines()[5:]]
        assert len(entries) > 10_000
        assert {verdict for _seat, _arc, verdict in entries} == {"1"}
        busy.append(len({seat for seat, _arc, _verdict in entries}))
    assert max(busy) > 1

"""What is told of a run beside its answer: lines while it goes on, and the file of what it did.

Neither may change the answer, the other files or the exit status. Of the two-block mine one merger is made.
"""

import os
import pathlib
import random
import re
import subprocess
import sys
import time
from collections.abc import Callable

import pytest

from conftest import CERTIFICATE, CHAIN, ORE_BELOW_WASTE, PROGRAM, TOP, TWO_BLOCKS, Mine
from rows import model_of, pit_of

PIT = pit_of(2, [0, 1], "2.000000")
SOLVE = ["solve", "--model", "mine.upit", "--prec", "mine.prec"]
SHELLS = ["shells", "--blocks", "mine.blocks", "--prec", "mine.prec", "--revenue", "0", "--cost", "1", "--factors", "300,1000"]
REFUSED = (1, "", "error 18: write failed\n")
MODES = [[], ["--mode", "parts"], ["--mode", "shared", "--workers", "2"], ["--budget", "5"]]
FIELDS = "OPENING READING PLANNING SOLVING WRITING BYTES BLOCKS PAIRS MERGERS CLOSING PLANNED RELABELS SWEEPS ASKS STALE PEAK".split()


def stats(mine: Mine, name: str = "made.stats") -> dict[str, str]:
    first, *lines = mine.read(name).splitlines()
    assert first == "PITSTATS 1"
    told = dict(line.split(": ") for line in lines)
    assert list(told) == FIELDS
    return told


@pytest.mark.parametrize("call", [*([*SOLVE, *mode] for mode in MODES), SHELLS])
def test_what_is_told_changes_no_answer(mine: Mine, call: list[str]) -> None:
    plain = mine.run(*call)
    assert mine.run(*call, "--stats", "made.stats") == plain
    assert mine.run(*call, "--progress", "86400") == plain
    assert mine.run(*call, "--progress", "86400", "--stats", "made.stats") == plain


@pytest.mark.parametrize("mode", MODES)
def test_the_merger_and_what_is_read_are_counted(mine: Mine, mode: list[str]) -> None:
    assert mine.run(*SOLVE, *mode, "--stats", "made.stats") == (0, PIT, "")
    told = stats(mine)
    assert (told["MERGERS"], told["CLOSING"]) == ("1", "0")
    assert (int(told["BYTES"]), told["BLOCKS"], told["PAIRS"]) == (len(TWO_BLOCKS) + len(CHAIN), "2", "1")
    assert int(told["PEAK"]) > 0


def test_what_shells_read_is_counted(mine: Mine) -> None:
    plain = mine.run(*SHELLS)
    assert mine.run(*SHELLS, "--stats", "made.stats") == plain
    told = stats(mine)
    assert (int(told["BYTES"]), told["BLOCKS"], told["PAIRS"]) == (len(ORE_BELOW_WASTE) + len(CHAIN), "2", "1")


def make_mine(mine: Mine, slopes: str) -> None:
    """A mine of the bench, of 10,000 blocks."""
    words = ["--blocks", "10000", "--slopes", slopes, "--seed", "1", "--out", mine.folder / "mine"]
    subprocess.run([sys.executable, TOP / "tools" / "make_mine.py", *words], check=True, capture_output=True, timeout=60)


@pytest.mark.parametrize("slopes", ["1:5", "1:9", "cone"])
def test_the_closing_loop_merges_nothing_on_mines_of_the_bench(mine: Mine, slopes: str) -> None:
    make_mine(mine, slopes)
    status, _, err = mine.run(*SOLVE, "--stats", "made.stats")
    assert (status, err) == (0, "")
    told = stats(mine)
    assert int(told["MERGERS"]) > 1000
    assert int(told["RELABELS"]) > 0
    assert {told[field] for field in ("CLOSING", "PLANNED", "SWEEPS", "ASKS", "STALE")} == {"0"}


@pytest.mark.parametrize("number", [lambda depth: depth, lambda depth: 199 - depth], ids=["from the top", "from the bottom"])
def test_labels_begin_as_distances(mine: Mine, number: Callable[[int], int]) -> None:
    """A column of 200 blocks, the highest waste and the others ore: each is as many pairs from the waste as it is deep, so that its label is
    never raised. Labels that all began at 1 would be raised thousands of times."""
    worth = {number(depth): 1 if depth else -1000 for depth in range(200)}
    needs = {number(depth): number(depth - 1) for depth in range(1, 200)}
    mine.write("mine.upit", model_of([str(worth[block]) for block in range(200)]))
    mine.write("mine.prec", "".join(f"{block} 1 {needs[block]}\n" for block in sorted(needs)))
    assert mine.run(*SOLVE, "--stats", "made.stats") == (0, pit_of(200, [], "0.000000"), "")
    told = stats(mine)
    assert (told["MERGERS"], told["RELABELS"]) == ("199", "0")


def renumber(mine: Mine, numbers: list[int]) -> None:
    """Gives each block of a mine another number."""
    head, values = mine.read("mine.upit").split("OBJECTIVE_FUNCTION:\n")
    worth = {numbers[int(block)]: value for block, value in map(str.split, values.splitlines())}
    rows = [[numbers[int(word)] for word in (block, *needs)] for block, _, *needs in map(str.split, mine.read("mine.prec").splitlines())]
    mine.write("mine.upit", f"{head}OBJECTIVE_FUNCTION:\n" + "".join(f"{block} {worth[block]}\n" for block in sorted(worth)))
    mine.write("mine.prec", "".join(f"{block} {len(needs)} {' '.join(map(str, sorted(needs)))}\n" for block, *needs in sorted(rows)))


@pytest.mark.parametrize("order", ["from the top", "from the bottom", "at random"])
def test_levels_come_in_from_the_top(mine: Mine, order: str) -> None:
    """Level by level 12,200 to 14,200 labels are raised, however blocks are numbered; all at once it would be 17,271, as another program
    counts."""
    make_mine(mine, "1:5")
    numbers = list(range(mine.read("mine.upit").count("\n") - 4))
    if order == "at random":
        random.Random(2).shuffle(numbers)
    renumber(mine, numbers[::-1] if order == "from the bottom" else numbers)
    assert mine.run(*SOLVE, "--stats", "made.stats")[0] == 0
    counts = stats(mine)
    assert counts["CLOSING"] == "0"
    assert int(counts["RELABELS"]) < 15_500


def test_blocks_of_slope_cones_come_in_at_once(mine: Mine) -> None:
    """All at once 3,288 mergers are made; level by level it would be 3,762, over longer paths."""
    make_mine(mine, "cone")
    assert mine.run(*SOLVE, "--stats", "made.stats")[0] == 0
    counts = stats(mine)
    assert counts["CLOSING"] == "0"
    assert int(counts["MERGERS"]) < 3_500


@pytest.mark.parametrize("seed", range(4))
def test_numbers_in_any_order_leave_the_closing_loop_nothing(mine: Mine, seed: int) -> None:
    """A grid of columns, numbered at random, so that levels follow a topological order."""
    rng = random.Random(seed)
    places = [(x, y, z) for x in range(6) for y in range(6) for z in range(25)]
    rng.shuffle(places)
    number = {place: block for block, place in enumerate(places)}
    around = [(0, 0), (1, 0), (-1, 0), (0, 1), (0, -1)]
    over = [[number[x + i, y + j, z - 1] for i, j in around if (x + i, y + j, z - 1) in number] for x, y, z in places]
    mine.write("mine.upit", model_of([str(rng.choice((-2, -1, -1, 3)) + z // 8) for _, _, z in places]))
    mine.write("mine.prec", "".join(f"{block} {len(needs)} {' '.join(map(str, sorted(needs)))}\n" for block, needs in enumerate(over) if needs))
    status, pit, err = mine.run(*SOLVE, "--stats", "made.stats")
    assert (status, err) == (0, "")
    counts = stats(mine)
    assert counts["CLOSING"] == "0" and int(counts["MERGERS"]) > 100
    assert mine.run(*SOLVE, "--budget", "1000000")[:2] == (0, pit)


def test_what_workers_decided_is_counted_by_their_journal(mine: Mine) -> None:
    """They sweep a few times over many asks, to which a plan led."""
    make_mine(mine, "1:5")
    assert mine.run(*SOLVE, "--mode", "shared", "--workers", "2", "--journal", "made.journal", "--stats", "made.stats")[0] == 0
    verdicts = [line.split()[2] for line in mine.read("made.journal").splitlines()[5:]]
    told = {field: int(number) for field, number in stats(mine).items() if "." not in number}
    assert (told["ASKS"], told["STALE"]) == (len(verdicts), verdicts.count("2"))
    assert told["MERGERS"] == verdicts.count("1") > 100
    assert 0 < told["SWEEPS"] < 100 < told["PLANNED"]


def test_asks_are_counted_in_mode_shared_alone(mine: Mine) -> None:
    mine.run(*SOLVE, "--stats", "made.stats")
    assert [stats(mine)[field] for field in ("SWEEPS", "ASKS", "STALE")] == ["0", "0", "0"]
    mine.run(*SOLVE, "--mode", "shared", "--workers", "1", "--journal", "made.journal", "--stats", "made.stats")
    entries = [line for line in mine.read("made.journal").splitlines() if line[0].isdigit()]
    assert int(stats(mine)["ASKS"]) == len(entries)


def test_the_other_files_are_the_same(mine: Mine) -> None:
    mine.run(*SOLVE, "--certificate", "plain.cert")
    mine.run(*SOLVE, "--certificate", "told.cert", "--progress", "1", "--stats", "made.stats")
    assert mine.read("told.cert") == mine.read("plain.cert")


@pytest.mark.parametrize("seconds", ["0", "86401", "-1", "1.5", "x", ""])
def test_seconds_are_whole_and_within_a_day(mine: Mine, seconds: str) -> None:
    status, out, err = mine.run(*SOLVE, f"--progress={seconds}")
    assert (status, out) == (2, "")
    assert "--progress" in err


@pytest.mark.parametrize("name", ["mine.upit", "./mine.prec", "no/folder", ""])
def test_the_file_may_be_no_input_and_must_be_makeable(mine: Mine, name: str) -> None:
    before = {file.name for file in mine.folder.iterdir()}
    assert mine.run(*SOLVE, "--stats", name) == REFUSED
    assert mine.read("mine.upit") == TWO_BLOCKS
    assert {file.name for file in mine.folder.iterdir()} == before


@pytest.mark.parametrize(("call", "name"), [([*SOLVE, "--fixed", "mine.fixed"], "mine.fixed"), (SHELLS, "mine.blocks"), (SHELLS, "mine.prec")])
def test_the_file_may_be_no_fixed_file_and_no_input_of_shells(mine: Mine, call: list[str], name: str) -> None:
    mine.write("mine.fixed", "in 0\n")
    before = {file.name: file.read_text() for file in mine.folder.iterdir()}
    assert mine.run(*call, "--stats", name) == REFUSED
    assert {file.name: file.read_text() for file in mine.folder.iterdir()} == before


def test_the_file_is_made_before_an_input_is_opened(mine: Mine) -> None:
    assert mine.run("solve", "--model", "missing", "--prec", "missing", "--stats", "no/folder") == REFUSED


@pytest.mark.parametrize("output", [["--certificate", "made"], ["--mode", "shared", "--journal", "made"]])
def test_no_other_output_takes_its_place(mine: Mine, output: list[str]) -> None:
    before = {file.name for file in mine.folder.iterdir()}
    assert mine.run(*SOLVE, *output, "--stats", "made") == REFUSED
    assert {file.name for file in mine.folder.iterdir()} == before


def test_a_file_that_takes_nothing_is_a_fault_behind_the_answer(mine: Mine) -> None:
    assert mine.run(*SOLVE, "--stats", "/dev/full") == (1, PIT, "error 18: write failed\n")


def test_a_refused_run_leaves_what_stood_there(mine: Mine) -> None:
    mine.write("made.stats", "what stood there\n")
    mine.write("mine.prec", "1 1 1\n")
    assert mine.run(*SOLVE, "--stats", "made.stats") == (1, "", "error 9: block needs itself in precedence line 1\n")
    assert mine.read("made.stats") == "what stood there\n"


def test_a_used_up_budget_is_told_of(mine: Mine) -> None:
    status, out, _ = mine.run(*SOLVE, "--budget", "0", "--stats", "made.stats")
    assert (status, out, stats(mine)["MERGERS"]) == (3, "", "0")


def stalled(mine: Mine, command: list[str | pathlib.Path], text: str = TWO_BLOCKS, cut: int = 40) -> tuple[int, str, str]:
    """A run whose standard input, the model where nothing else is said, stalls behind so many bytes for two and a half seconds."""
    with subprocess.Popen(command, cwd=mine.folder, stdin=-1, stdout=-1, stderr=-1) as run:
        assert run.stdin is not None
        run.stdin.write(text[:cut].encode())
        run.stdin.flush()
        time.sleep(2.5)
        out, err = run.communicate(text[cut:].encode(), timeout=60)
    return run.returncode, out.decode(), err.decode()


# The one merger sends all that block 1 has to spare, and not only what block 0 lacks.
ALL_SENT = CERTIFICATE.replace("1 0 3000000", "1 0 5000000")
PIPED = ["solve", "--model", "/dev/stdin", "--prec", "mine.prec", "--progress", "1"]


def test_a_line_comes_while_a_pipe_stalls(mine: Mine) -> None:
    status, out, err = stalled(mine, [PROGRAM, *PIPED, "--stats", "made.stats"])
    assert (status, out) == (0, PIT)
    assert re.fullmatch(r"(pitshell: reading, 40 bytes, 0 blocks, 0 pairs\n){2,3}", err)
    assert 2 < float(stats(mine)["READING"]) < 60


@pytest.mark.parametrize(("call", "model"), [(SOLVE, TWO_BLOCKS), (SHELLS, ORE_BELOW_WASTE)], ids=["solve", "shells"])
def test_a_line_tells_what_was_read_so_far(mine: Mine, call: list[str], model: str) -> None:
    """The model is read, and of the pairs three bytes: all is told without a file of what the run did."""
    piped = ["/dev/stdin" if word == "mine.prec" else word for word in call]
    status, out, err = stalled(mine, [PROGRAM, *piped, "--progress", "1"], CHAIN, 3)
    assert (status, out) == mine.run(*call)[:2]
    assert re.fullmatch(rf"(pitshell: reading, {len(model) + 3} bytes, 2 blocks, 0 pairs\n){{2,3}}", err)


def test_pairs_are_read_as_they_come(mine: Mine) -> None:
    """The pipe of the pairs stalls within its second line."""
    mine.write("mine.upit", model_of(["-3", "5", "7"]))
    piped = ["/dev/stdin" if word == "mine.prec" else word for word in SOLVE]
    status, out, err = stalled(mine, [PROGRAM, *piped, "--progress", "1"], "1 1 0\n2 1 0\n", 8)
    assert (status, out) == (0, pit_of(3, [0, 1, 2], "9.000000"))
    assert re.fullmatch(rf"(pitshell: reading, {len(mine.read('mine.upit')) + 8} bytes, 3 blocks, 1 pairs\n){{2,3}}", err)


@pytest.mark.parametrize("closed", ["2>&-", "2>/dev/full"])
def test_a_standard_error_that_takes_nothing_is_no_other_answer(mine: Mine, closed: str) -> None:
    command = ["sh", "-c", f'"$0" "$@" {closed}', PROGRAM, *PIPED, "--certificate", "made.cert", "--stats", "made.stats"]
    assert stalled(mine, command) == (0, PIT, "")
    assert mine.read("made.cert") == ALL_SENT
    assert stats(mine)["MERGERS"] == "1"


def test_where_no_thread_starts_no_time_is_told(mine: Mine, shim: pathlib.Path) -> None:
    env = {"LD_PRELOAD": str(shim), "FAIL_THREAD": "-1"}
    call = [PROGRAM, *SOLVE, "--progress", "1", "--stats", "made.stats"]
    ran = subprocess.run(call, cwd=mine.folder, env=env, capture_output=True, text=True, timeout=60)
    assert (ran.returncode, ran.stdout, ran.stderr) == (0, PIT, "")
    told = stats(mine)
    assert {told[phase] for phase in FIELDS[:5]} == {"0.000"}
    assert told["MERGERS"] == "1"


def times(mine: Mine) -> dict[str, float]:
    """The seconds at each phase, with three decimals each."""
    told = {phase: stats(mine)[phase] for phase in FIELDS[:5]}
    assert all(re.fullmatch(r"\d+\.\d{3}", seconds) for seconds in told.values())
    return {phase: float(seconds) for phase, seconds in told.items()}


def test_the_time_of_opening_is_that_of_a_pipe_that_nobody_writes_to(mine: Mine) -> None:
    os.mkfifo(mine.folder / "pipe")
    words = ["solve", "--model", "pipe", "--prec", "mine.prec", "--progress", "1", "--stats", "made.stats"]
    with subprocess.Popen([PROGRAM, *words], cwd=mine.folder, stdout=-1, stderr=-1, text=True) as run:
        time.sleep(1.5)
        mine.write("pipe", TWO_BLOCKS)
        out, err = run.communicate(timeout=60)
    assert (run.returncode, out) == (0, PIT)
    assert err.startswith("pitshell: opening\n")
    told = times(mine)
    assert told["OPENING"] == max(told.values()) > 1


def test_the_time_of_writing_is_that_of_a_reader_who_waits(mine: Mine) -> None:
    """The pit of 30,000 blocks is more than a pipe takes at once."""
    mine.write("mine.upit", model_of(["1"] * 30_000))
    mine.write("mine.prec", "")
    with subprocess.Popen([PROGRAM, *SOLVE, "--progress", "1", "--stats", "made.stats"], cwd=mine.folder, stdout=-1, stderr=-1, text=True) as run:
        time.sleep(2.5)
        out, err = run.communicate(timeout=60)
    assert (run.returncode, out) == (0, pit_of(30_000, list(range(30_000)), "30000.000000"))
    assert err.endswith("pitshell: writing\n")
    told = times(mine)
    assert told["WRITING"] == max(told.values()) > 1


def solve_column(mine: Mine, blocks: int) -> str:
    """Solves a column whose deeper half is ore, of which a block pays for two of waste. Small to read and to write, and long to solve:
    the time grows with the square of the blocks. Returns what stands on standard error."""
    mine.write("mine.upit", model_of(["-1"] * (blocks // 2) + ["2"] * (blocks // 2)))
    mine.write("mine.prec", "".join(f"{block} 1 {block - 1}\n" for block in range(1, blocks)))
    status, out, err = mine.run(*SOLVE, "--progress", "1", "--stats", "made.stats")
    assert (status, out) == (0, pit_of(blocks, list(range(blocks)), f"{blocks // 2}.000000"))
    return err


def test_the_time_of_solving_is_that_of_a_single_column(mine: Mine) -> None:
    """The column is doubled until the processor needs more than the second after which the first line is due."""
    blocks, err = 32_000, ""
    while "solving" not in err and blocks <= 256_000:
        err = solve_column(mine, blocks)
        blocks *= 2
    assert re.search(r"^pitshell: solving, [1-9]\d* mergers$", err, re.MULTILINE)
    told = times(mine)
    assert told["SOLVING"] == max(told.values()) > 0.5 and told["PLANNING"] == 0


@pytest.mark.parametrize(("closed", "more", "due"), [("<&- >&- 2>&-", ["--budget", "0"], 3), (">&-", [], 1)])
def test_no_closed_stream_is_written_to_the_file(mine: Mine, closed: str, more: list[str], due: int) -> None:
    """It is the first file that is made, and would get the number of a stream that the caller closed."""
    command = ["sh", "-c", f'"$0" "$@" {closed}', PROGRAM, *SOLVE, *more, "--stats", "made.stats"]
    assert subprocess.run(command, cwd=mine.folder, timeout=60).returncode == due
    assert (mine.folder / "made.stats").exists() == (due == 3)
    assert due == 1 or stats(mine)["MERGERS"] == "0"

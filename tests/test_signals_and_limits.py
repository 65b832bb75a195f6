"""What comes of signals, of limits on memory and threads, of streams that are closed, full or slow, and of names of no file.

docs/FORMATS.md has the same in a table."""

import os
import pathlib
import resource
import signal
import subprocess
import time

import pytest

from conftest import PROGRAM, Mine, wait_for
from rows import MODES, model_of, pit_of

SOLVE = ["solve", "--model", "mine.upit", "--prec", "mine.prec"]
SHELLS = ["shells", "--blocks", "mine.blocks", "--prec", "mine.prec", "--revenue", "0", "--cost", "1", "--factors", "1000"]
CHECK = ["check", "--model", "mine.upit", "--prec", "mine.prec", "--certificate", "good.cert"]
PIT = pit_of(2, [0, 1], "2.000000")
NOT_WRITTEN, NO_MEMORY, NO_SEAT = "error 18: write failed\n", "error 1: no memory\n", "error 22: no seat\n"
OLD = "what stood there\n"


def heed_signals() -> None:
    """Whoever runs the tests in the background or past a hangup ignores these, and the program would inherit that."""
    for sent in (signal.SIGINT, signal.SIGHUP):
        signal.signal(sent, signal.SIG_DFL)


def start(mine: Mine, *words: str, **more: object) -> subprocess.Popen:
    """Starts the program, which ends at a signal whatever the tests do."""
    return subprocess.Popen(
        [PROGRAM, *words],
        cwd=mine.folder,
        text=True,
        stdout=subprocess.PIPE,
        stderr=subprocess.PIPE,
        preexec_fn=heed_signals,
        **more,
    )


def write_pairs(mine: Mine, blocks: int) -> None:
    """A mine of so many blocks, in which each second one pays for the one before it."""
    mine.write("mine.upit", model_of(["3" if block % 2 else "-2" for block in range(blocks)]))
    mine.write("mine.prec", "".join(f"{block} 1 {block - 1}\n" for block in range(1, blocks, 2)))


@pytest.mark.parametrize("sent", [signal.SIGINT, signal.SIGTERM, signal.SIGHUP, signal.SIGKILL], ids=lambda it: it.name)
def test_a_signal_ends_the_run_and_leaves_what_stood_there(mine: Mine, sent: signal.Signals) -> None:
    mine.write("made.cert", OLD)
    with start(mine, "solve", "--model", "/dev/stdin", "--prec", "mine.prec", "--certificate", "made.cert", stdin=subprocess.PIPE) as ran:
        assert wait_for(mine.folder / "made.cert.0.part")
        ran.send_signal(sent)
        ran.wait(timeout=60)
        assert (ran.returncode, ran.stdout.read(), ran.stderr.read()) == (-sent, "", "")
    assert mine.read("made.cert") == OLD


def test_an_output_is_whole_or_untouched_whenever_the_run_ends(mine: Mine) -> None:
    """A run is ended at twelve moments, from its start to the time that a whole one takes."""
    write_pairs(mine, 60_000)
    words = [*SOLVE, "--certificate", "made.cert"]
    begun = time.monotonic()
    assert mine.run(*words)[0] == 0
    took, whole = time.monotonic() - begun, mine.read("made.cert")
    for turn in range(12):
        mine.write("made.cert", OLD)
        with start(mine, *words) as ran:
            time.sleep(took * turn / 12)
            ran.terminate()
            ran.communicate(timeout=60)
        assert ran.returncode in (0, -signal.SIGTERM)
        assert mine.read("made.cert") in ((whole,) if ran.returncode == 0 else (whole, OLD))


def test_a_stalled_pipe_is_waited_for(mine: Mine) -> None:
    text = mine.read("mine.upit")
    with start(mine, "solve", "--model", "/dev/stdin", "--prec", "mine.prec", stdin=subprocess.PIPE) as ran:
        ran.stdin.write(text[:20])
        ran.stdin.flush()
        time.sleep(0.2)
        assert ran.poll() is None
        out, err = ran.communicate(text[20:], timeout=60)
    assert (ran.returncode, out, err) == (0, PIT, "")


@pytest.mark.parametrize("words", [SOLVE, SHELLS, CHECK], ids=lambda words: words[0])
def test_a_reader_that_went_away(mine: Mine, words: list[str]) -> None:
    seen, written = os.pipe()
    os.close(seen)
    ran = subprocess.run([PROGRAM, *words], cwd=mine.folder, stdout=written, stderr=subprocess.PIPE, text=True, timeout=60)
    os.close(written)
    assert (ran.returncode, ran.stderr) == (1, NOT_WRITTEN)


def test_a_reader_that_takes_one_line_gets_it(mine: Mine) -> None:
    ran = subprocess.run(["sh", "-c", '"$0" "$@" | head -n 1', PROGRAM, *SOLVE], cwd=mine.folder, capture_output=True, text=True, timeout=60)
    assert ran.stdout == "PIT\n"


@pytest.mark.parametrize("words", [SOLVE, SHELLS, CHECK], ids=lambda words: words[0])
@pytest.mark.parametrize("closed", [">&-", "<&- >&-", ">/dev/full"])
def test_a_standard_output_that_takes_nothing(mine: Mine, words: list[str], closed: str) -> None:
    ran = subprocess.run(["sh", "-c", f'"$0" "$@" {closed}', PROGRAM, *words], cwd=mine.folder, capture_output=True, text=True, timeout=60)
    assert (ran.returncode, ran.stdout, ran.stderr) == (1, "", NOT_WRITTEN)


def test_a_closed_standard_error_is_no_other_answer(mine: Mine) -> None:
    command = ["sh", "-c", '"$0" "$@" 2>&-', PROGRAM]
    ran = subprocess.run([*command, *SOLVE], cwd=mine.folder, capture_output=True, text=True, timeout=60)
    assert (ran.returncode, ran.stdout, ran.stderr) == (0, PIT, "")
    mine.write("mine.prec", "1 1 1\n")
    ran = subprocess.run([*command, *SOLVE], cwd=mine.folder, capture_output=True, text=True, timeout=60)
    assert (ran.returncode, ran.stdout, ran.stderr) == (1, "", "")


def test_no_file_takes_the_place_of_a_closed_stream(mine: Mine) -> None:
    """An output that is opened where a stream was closed must not take what was meant for the stream."""
    command = ["sh", "-c", '"$0" "$@" <&- >&- 2>&-', PROGRAM, *SOLVE, "--certificate", "made.cert"]
    ran = subprocess.run(command, cwd=mine.folder, timeout=60)
    assert ran.returncode == 1
    assert not (mine.folder / "made.cert").exists()


@pytest.mark.parametrize("name", [".", "missing", "mine.upit/below", ""])
def test_a_name_of_no_file(mine: Mine, name: str) -> None:
    assert mine.run("solve", "--model", name, "--prec", "mine.prec") == (1, "", "error 2: read failed in model\n")
    assert mine.run("solve", "--model", "mine.upit", "--prec", name) == (1, "", "error 2: read failed in precedence\n")
    assert mine.run("check", *SOLVE[1:], "--certificate", name) == (1, "", "error 2: read failed in certificate\n")


# Below this many bytes of address space the system does not load the program, or gives it no stack.
LEAST_SPACE = 6 << 20
MANY = 60_000


@pytest.mark.parametrize("mode", MODES)
def test_less_and_less_memory(mine: Mine, mode: str) -> None:
    """A mine of 30,000 parts within ever less address space: its pit or a refusal, and refusals below some limit."""
    write_pairs(mine, MANY)
    pit = (0, pit_of(MANY, list(range(MANY)), "30000.000000"), "")
    refused = {(1, "", NO_MEMORY)} | ({(1, "", NO_SEAT)} if mode.startswith("shared") else set())
    seen = set()
    for space in (LEAST_SPACE, 7 << 20, 8 << 20, 10 << 20, 12 << 20, 16 << 20, 24 << 20, 32 << 20, 64 << 20, 4 << 30):
        ran = subprocess.run(
            [PROGRAM, *SOLVE, *MODES[mode]], cwd=mine.folder, capture_output=True, text=True, timeout=60,
            preexec_fn=lambda limit=space: resource.setrlimit(resource.RLIMIT_AS, (limit, limit)),
        )  # fmt: skip
        told = (ran.returncode, ran.stdout, ran.stderr)
        assert told == pit or told in refused, (space, told[0], told[2])
        seen.add(told)
    assert pit in seen
    assert seen & refused


def test_a_file_larger_than_memory_is_not_read(mine: Mine, shim: pathlib.Path) -> None:
    """Memory is asked for by the file's size before the first read, which would fail here."""
    with open(mine.folder / "mine.upit", "wb") as file:
        file.truncate(8 << 30)
    space = 4 << 30
    ran = subprocess.run(
        [PROGRAM, *SOLVE], cwd=mine.folder, env={"LD_PRELOAD": str(shim), "FAIL_READ": "1"}, capture_output=True, text=True, timeout=60,
        preexec_fn=lambda: resource.setrlimit(resource.RLIMIT_AS, (space, space)),
    )  # fmt: skip
    assert (ran.returncode, ran.stdout, ran.stderr) == (1, "", NO_MEMORY)


@pytest.mark.parametrize("mode", MODES)
def test_no_thread_starts(mine: Mine, mode: str, shim: pathlib.Path) -> None:
    env = {"LD_PRELOAD": str(shim), "FAIL_THREAD": "-1"}
    for words, text in ((SOLVE, PIT), (SHELLS, "SHELLS\nBLOCKS: 2\nFACTORS: 1\n1000 2 6.000000000\n0 1000\n1 1000\n")):
        ran = subprocess.run([PROGRAM, *words, *MODES[mode]], cwd=mine.folder, env=env, capture_output=True, text=True, timeout=60)
        due = (1, "", NO_SEAT) if mode.startswith("shared") else (0, text, "")
        assert (ran.returncode, ran.stdout, ran.stderr) == due

"""How commands end: one sentence and a status, where a stream is closed or full, memory is short, or somebody ends them."""

import io
import os
import resource
import signal
import subprocess
import sys
import time

import pytest
from conftest import ROOT, rows

from pitplan.core.progress import Progress

PITPLAN = [sys.executable, str(ROOT / "tools" / "pitplan")]
CONVERT = [*PITPLAN, "convert", "minelib"]


@pytest.fixture
def table(tmp_path):
    rows(4, 4, 2, cu=lambda i, j, k: 1.0).to_csv(tmp_path / "m.csv", index=False)
    return tmp_path / "m.csv"


@pytest.mark.parametrize("command", [["init", "m.csv"], ["--help"]])
def test_full_standard_output_is_named(tmp_path, table, command):
    with open("/dev/full", "w") as full:
        ran = subprocess.run([*PITPLAN, *command], cwd=tmp_path, stdout=full, stderr=subprocess.PIPE, text=True)
    *_, last = ran.stderr.splitlines()
    assert (ran.returncode, last) == (1, "pitplan: standard output: No space left on device")
    assert "Traceback" not in ran.stderr


def test_a_reader_that_went_away_is_named(tmp_path, table):
    here, there = os.pipe()
    os.close(here)
    ran = subprocess.run([*PITPLAN, "init", "m.csv"], cwd=tmp_path, stdout=there, stderr=subprocess.PIPE, text=True)
    os.close(there)
    assert (ran.returncode, ran.stderr.splitlines()[-1]) == (1, "pitplan: standard output: Broken pipe")


def test_a_full_standard_error_costs_the_words_alone(tmp_path, table):
    with open("/dev/full", "w") as full:
        for command, said in (
            (["init", "m.csv"], "project.toml\n"),
            (["prepare", "project.toml", "--out", "out"], "out\n"),
        ):
            ran = subprocess.run([*PITPLAN, *command], cwd=tmp_path, stdout=subprocess.PIPE, stderr=full, text=True)
            assert (ran.returncode, ran.stdout) == (0, said)
    assert (tmp_path / "out" / "plan.json").is_file()


def test_with_standard_error_closed_standard_output_has_the_place_alone(tmp_path, table):
    ran = subprocess.run(
        ["sh", "-c", '"$@" 2>&-', "sh", *PITPLAN, "init", "m.csv"], cwd=tmp_path, stdout=subprocess.PIPE, text=True
    )
    assert (ran.returncode, ran.stdout) == (0, "project.toml\n")


@pytest.mark.parametrize(
    "number, status, said", [(signal.SIGINT, 130, "pitplan: interrupted\n"), (signal.SIGTERM, 143, "")]
)
def test_a_conversion_that_is_ended_leaves_nothing(tmp_path, number, status, said):
    os.mkfifo(tmp_path / "mine.upit")
    command = [*CONVERT, "mine.upit", "--out", "out"]
    with subprocess.Popen(command, cwd=tmp_path, stderr=subprocess.PIPE, text=True) as running:
        with open(tmp_path / "mine.upit", "w"):
            while not list((tmp_path / "out").glob(".minelib-*")):
                time.sleep(0.01)
            running.send_signal(number)
            _, error = running.communicate(timeout=60)
    assert (running.returncode, error) == (status, said)
    assert list((tmp_path / "out").iterdir()) == []


def test_short_memory_is_told(tmp_path):
    (tmp_path / "m.upit").write_text("NAME: a\nTYPE: UPIT\nNBLOCKS: 99999999999999\nOBJECTIVE_FUNCTION:\n0 1\n")
    limit = (4 << 30, 4 << 30)
    ran = subprocess.run(
        [*CONVERT, "m.upit", "--out", "out"],
        cwd=tmp_path,
        capture_output=True,
        text=True,
        preexec_fn=lambda: resource.setrlimit(resource.RLIMIT_AS, limit),
    )
    assert (ran.returncode, ran.stderr) == (1, "pitplan: there is not enough memory\n")


def test_steps_within_a_step_have_lines_of_their_own():
    told = io.StringIO()
    progress = Progress(told)
    with progress.step("outer"):
        with progress.step("first"):
            pass
        with pytest.raises(ValueError), progress.step("second"):
            raise ValueError
    assert told.getvalue().splitlines() == ["outer ..", "first .. 0.0 s", "second ..", "outer .. 0.0 s"]

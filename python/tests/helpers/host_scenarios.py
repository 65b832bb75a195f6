"""Scenarios for tests on several hosts: a mine with realisations, and its tables when each is solved after the other."""

from __future__ import annotations

import filecmp
import subprocess
import sys
import time
from dataclasses import dataclass
from pathlib import Path
from typing import Any, Callable

from conftest import ROOT

MODELS = 24
SIZE = {"--columns": 26, "--rows": 22, "--levels": 15}
TABLES = [f"{name}.csv" for name in ("probability", "scenarios", "quantiles")]
PITPLAN = [sys.executable, str(ROOT / "tools" / "pitplan")]


@dataclass(frozen=True)
class Mine:
    """A mine with realisations, and the folder of its scenarios solved one after the other.

    Attributes
    ----------
    project : Path
    reference : Path
    """

    project: Path
    reference: Path

    def same_tables(self, folder: Path) -> list[str]:
        """Returns the names of the tables that are byte for byte those of the reference."""
        return filecmp.cmpfiles(self.reference / "tables", folder / "tables", TABLES, shallow=False)[0]


def pitplan(*words: object, **more: Any) -> subprocess.CompletedProcess[str]:
    return subprocess.run([*PITPLAN, *(str(word) for word in words)], capture_output=True, text=True, **more)


def make_mine(folder: Path) -> Mine:
    """Makes the mine in a folder, and solves its scenarios one after the other by the program of each job."""
    size = [str(word) for pair in SIZE.items() for word in pair]
    models = ["--models", str(MODELS), "--folder", str(folder / "models"), "--out", str(folder / "blocks.csv")]
    subprocess.run([sys.executable, ROOT / "tools" / "make_table.py", *size, *models], check=True)
    text = (ROOT / "examples" / "plan" / "project.toml").read_text(encoding="utf-8")
    project, reference = folder / "project.toml", folder / "reference"
    project.write_text(f'{text}\n[scenarios]\nrealisations = "models"\n', encoding="utf-8")
    ran = pitplan("scenarios", project, "--out", reference, "--on", "parallel", "--quiet")
    assert ran.returncode == 0, ran.stderr
    for number in (reference / "jobs.txt").read_text().split():
        subprocess.run(["sh", reference / "scenario.sh", number], check=True)
    gathered = pitplan("gather", reference, "--quiet", "--no-figures")
    assert gathered.returncode == 0, gathered.stderr
    return Mine(project, reference)


def answers(out: Path) -> int:
    """Returns how many scenarios of an output folder have their result."""
    return len(list((out / "done").glob("*.npz")))


def wait_until(holds: Callable[[], bool], seconds: float, log: Path) -> None:
    """Waits until it holds. Fails with the last lines of the log after that many seconds."""
    end = time.monotonic() + seconds
    while not holds():
        assert time.monotonic() < end, log.read_text(errors="replace")[-2000:] if log.exists() else f"{log}: not there"
        time.sleep(0.1)

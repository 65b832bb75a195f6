"""What the tests share: small projects and tables, written where a test may write."""

import gc
import io
import os
import shutil
import signal
import sys
from contextlib import redirect_stderr, redirect_stdout
from dataclasses import dataclass
from pathlib import Path

import pandas as pd
import pytest

ROOT = Path(__file__).resolve().parents[2]
sys.path.insert(0, str(ROOT / "python"))
# Compiled modules are kept, even if the environment forbids it. Otherwise each process compiles hundreds of them, and each run the assertions of all tests.
sys.pycache_prefix = os.environ["PYTHONPYCACHEPREFIX"] = str(ROOT / "build" / "pycache")
sys.dont_write_bytecode = False
os.environ.pop("PYTHONDONTWRITEBYTECODE", None)
# A failed assertion of a helper is shown as one of a test is.
pytest.register_assert_rewrite("helpers", "oracle")

from helpers.blank_figures import blank_figures  # after the line above
from helpers.random_tests import load_profile

load_profile()
# Some tests interrupt themselves, and what a shell has put behind is deaf to that.
signal.signal(signal.SIGINT, signal.default_int_handler)

PROJECT = """
title = "Test hill"
[table]
file = "blocks.csv"
id = "name"
rock_type = "rock"
domain = "region"
[grid]
size = [10, 10, 10]
[economics]
mining_cost = 2
processing_cost = 10
[[metals]]
name = "copper"
column = "cu"
unit = "percent"
price = 8000
recovery = 0.5
[slopes]
precedence_benches = 3
[[slopes.domains]]
pattern = "1:5"
[shells]
revenue_factors = [0.5, 1.0, 1.5]
discount_rate = 0.1
processing_capacity = 100
"""


def rows(columns, rows_, levels, **more):
    """A full box of blocks of 10 m, from the floor up; each further column is a function of (column, row, level)."""
    places = [(i, j, k) for k in range(levels) for j in range(rows_) for i in range(columns)]
    defaults = {
        "tonnes": lambda i, j, k: 100,
        "cu": lambda i, j, k: 0,
        "rock": lambda i, j, k: "R",
        "region": lambda i, j, k: "1",
    }
    frame = pd.DataFrame({"name": [f"b{i}-{j}-{k}" for i, j, k in places]})
    for number, axis in enumerate("xyz"):
        frame[axis] = [5.0 + 10 * place[number] for place in places]
    for name, value in {**defaults, **more}.items():
        frame[name] = [value(*place) for place in places]
    return frame


def plan_in(folder):
    """Returns what writes a project and its table into a folder and gives the project's path."""

    def write(table, text=PROJECT, *changes):
        for old, new in changes:
            assert text.count(old) == 1, f"{old} stands {text.count(old)} times in the project"
            text = text.replace(old, new)
        (folder / "project.toml").write_text(text)
        if isinstance(table, str):
            (folder / "blocks.csv").write_text(table)
        else:
            table.to_csv(folder / "blocks.csv", index=False)
        return folder / "project.toml"

    return write


@pytest.fixture
def plan_folder(tmp_path):
    """Writes a project and its table into a folder of the test's own; gives the project's path."""
    return plan_in(tmp_path)


def pytest_configure(config):
    """Most tests have small hills at the edge of their models; those of warnings catch them."""
    config.addinivalue_line("filterwarnings", "ignore::pitplan.errors.PlanWarning")
    config.addinivalue_line("markers", "browser: opens a page in Chromium; `-m 'not browser'` leaves these out")
    config.addinivalue_line("markers", "slow: takes some seconds; `-m 'not slow'` leaves these out")
    # Each third round of the collector walks all objects of all modules and tests: at Python's own thresholds a sixth of the time.
    gc.set_threshold(20_000, 20, 100)


def pytest_collection_modifyitems(items):
    for item in items:
        clicks = hasattr(item.module, "chromium") and "driver" in item.fixturenames
        if clicks or "browser" in item.fixturenames or "Browser" in item.function.__code__.co_names:
            item.add_marker("browser")


def files_in(folder):
    """The files of a folder and of those within it, by their paths in it; what they hold."""
    return {str(path.relative_to(folder)): path.read_bytes() for path in sorted(folder.rglob("*")) if path.is_file()}


@dataclass(frozen=True)
class Solved:
    """The folder of a solved mine, and what the command line said on standard output and on standard error."""

    place: Path
    out: str
    err: str


@pytest.fixture(scope="session")
def solved_once(tmp_path_factory):
    """A hill with three ores whose shells differ at each factor, solved for all tests by the command line."""
    from pitplan.cli import main

    place = tmp_path_factory.mktemp("solved")
    table = rows(10, 9, 5, cu=lambda i, j, k: {(4, 4, 1): 6, (6, 4, 1): 0.9, (4, 7, 2): 0.8}.get((i, j, k), 0))
    table[(table["z"] < 40) | (table["x"] < 50)].to_csv(place / "blocks.csv", index=False)
    (place / "project.toml").write_text(PROJECT)
    with redirect_stdout(io.StringIO()) as out, redirect_stderr(io.StringIO()) as err:
        assert main(["shells", str(place / "project.toml"), "--no-figures"]) == 0
    return Solved(place, out.getvalue(), err.getvalue())


@pytest.fixture
def solved(solved_once, tmp_path):
    """The solved hill in a folder of the test's own; its project and the folder of its plan."""
    from pitplan import load

    project = load(shutil.copytree(solved_once.place, tmp_path / "mine") / "project.toml")
    return project, project.folder


@pytest.fixture
def highs_apart(monkeypatch):
    """HiGHS solves linear programmes too in a new process, as large ones for a planner."""
    from pitplan.scheduling import highs_process

    monkeypatch.setattr(highs_process, "FEW", 0)
    monkeypatch.setattr(highs_process, "IDLE", [])


@pytest.fixture
def with_blank_figures():
    """Commands write each figure as a white image, for tests that list files."""
    with blank_figures():
        yield


@pytest.fixture(scope="session")
def scheduled_hill(tmp_path_factory):
    """A hill far from the origin in two pushbacks with years, without pictures; the place of its project."""
    from helpers.writings import UNVERIFIED

    import pitplan

    place = tmp_path_factory.mktemp("ground")
    grades = {(3, 4, 1): 6, (7, 4, 1): 2, (5, 2, 2): 0.9}
    table = rows(11, 9, 4, cu=lambda i, j, k: grades.get((i, j, k), 0))
    table = table[(table["z"] < 30) | (table["x"] < 60)].assign(
        x=lambda it: it["x"] + 430_000.5, y=lambda it: it["y"] + 6_512_000.25
    )
    table.to_csv(place / "blocks.csv", index=False)
    (place / "project.toml").write_text(PROJECT + "[pushbacks]\ncount = 2\n[schedule]\nmining_capacity = 2000\n")
    pitplan.write_schedule(place / "project.toml", writing=UNVERIFIED)
    return place


@pytest.fixture
def folder(scheduled_hill, tmp_path):
    """The folder of its schedule, of the test's own."""
    return shutil.copytree(scheduled_hill, tmp_path / "mine") / "plan" / "schedule"

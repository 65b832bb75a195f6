"""What killed runs leave, runs beside each other, and folders in place of files."""

import os
import signal
import subprocess
import sys
from pathlib import Path

import numpy as np
import pytest
from conftest import PROJECT, files_in, rows
from helpers.writings import PLAIN, UNVERIFIED

import pitplan
from pitplan import PlanError, Request, Shape
from pitplan.cli import main
from pitplan.commands.plans import write_plan
from pitplan.core import atomic_files, staging
from pitplan.export import registry
from pitplan.results.folder import read_record

ORE = {"cu": lambda i, j, k: {(3, 3, 1): 6, (4, 3, 1): 2.5, (3, 4, 0): 9}.get((i, j, k), 0)}
MORE = '[pushbacks]\ncount = 2\n[schedule]\nmining_capacity = 2000\n[sensitivity]\nchanges = [0.1]\nparameters = "price"\n[constraints]\nmust_mine = "due"\n'
SCENARIOS = '[scenarios]\ncolumns = { copper = ["cu", "cu2"] }\n'
OTHER = "another run of pitplan is writing into this folder"


@pytest.fixture
def mine(plan_folder):
    """A mine of which every command can make something; its project."""
    table = rows(
        6, 5, 3, due=lambda i, j, k: int((i, j, k) == (1, 1, 2)), cu2=lambda i, j, k: 3 * ((i, j) == (2, 2)), **ORE
    )
    return plan_folder(table, PROJECT + MORE + SCENARIOS)


RUNS = {
    "prepare": lambda path, folder: write_plan(pitplan.load(path), folder),
    "shells": lambda path, folder: pitplan.write_shells(path, folder, writing=UNVERIFIED),
    "pit": lambda path, folder: pitplan.write_pit(path, 1.0, folder, writing=UNVERIFIED),
    "pushbacks": lambda path, folder: pitplan.write_pushbacks(path, folder, writing=UNVERIFIED),
    "schedule": lambda path, folder: pitplan.write_schedule(path, folder, writing=UNVERIFIED),
    "sensitivity": lambda path, folder: pitplan.write_sensitivity(path, folder, writing=UNVERIFIED),
    "scenarios": lambda path, folder: pitplan.write_scenarios(path, folder, Request(where="parallel"), writing=PLAIN),
}


def killed(action):
    """A process of its own that does this and is killed then, as by kill -9."""
    child = os.fork()
    if not child:
        try:
            action()
        finally:
            os.kill(os.getpid(), signal.SIGKILL)
    assert os.waitstatus_to_exitcode(os.waitpid(child, 0)[1]) == -signal.SIGKILL


def leave(folder):
    """What a run leaves that is killed while it writes into a folder: its stage, with a file in it."""
    folder.mkdir(parents=True, exist_ok=True)

    def write():
        with staging.stage_in(folder) as stage:
            (stage / "half.csv").write_text("x,y")
            os.kill(os.getpid(), signal.SIGKILL)

    killed(write)
    assert len(list(folder.glob(".pitplan-*/half.csv"))) == 1


@pytest.mark.parametrize("name", RUNS)
def test_a_run_removes_what_killed_runs_have_left(mine, name):
    folder = mine.parent / "out"
    places = {"sensitivity": ["cases"], "scenarios": ["done", "realisations", "failed"]}.get(name, [])
    for place in (folder, *(folder / it for it in places)):
        leave(place)
    RUNS[name](mine, folder)
    assert list(folder.rglob(".pitplan*")) == []


def test_the_stage_of_a_living_run_stays(tmp_path):
    leave(tmp_path)
    with staging.stage_in(tmp_path) as stage:
        with staging.alone(tmp_path):
            assert list(tmp_path.glob(".pitplan-*")) == [stage]
        assert stage.is_dir()
    assert list(tmp_path.iterdir()) == []


def test_a_file_or_a_link_with_the_name_of_a_stage_stays(tmp_path):
    (tmp_path / "mine").mkdir()
    (tmp_path / ".pitplan-notes").write_text("of mine")
    (tmp_path / ".pitplan-link").symlink_to(tmp_path / "mine")
    with staging.alone(tmp_path):
        pass
    assert {path.name for path in tmp_path.iterdir()} == {"mine", ".pitplan-notes", ".pitplan-link"}


@pytest.mark.parametrize("name", RUNS)
def test_a_second_run_in_the_same_folder_is_refused_while_the_first_lives(mine, name):
    """And changes nothing there; after the first has ended it runs."""
    folder = mine.parent / "out"
    with staging.alone(folder):
        with pytest.raises(
            PlanError,
            match=rf"out: {OTHER} \(process {os.getpid()}\): wait until it ends, or give another folder with --out",
        ):
            RUNS[name](mine, folder)
        assert [path.name for path in folder.iterdir()] == [".pitplan.lock"]
    assert not folder.exists()
    RUNS[name](mine, folder)
    assert not (folder / ".pitplan.lock").exists()
    assert not any(".pitplan.lock" in record.read_text() for record in folder.glob("*.json"))


def test_a_run_by_the_command_line_is_refused_by_one_in_another_process(mine, capsys):
    source = (
        "import fcntl, os, sys\n"
        "file = os.open(sys.argv[1], os.O_RDWR | os.O_CREAT)\n"
        "fcntl.flock(file, fcntl.LOCK_EX)\n"
        "os.write(file, b'4711\\n')\n"
        "print('locked', flush=True)\n"
        "sys.stdin.read()\n"
    )
    folder = mine.parent / "plan"
    folder.mkdir()
    with subprocess.Popen(
        [sys.executable, "-c", source, str(folder / ".pitplan.lock")], stdin=-1, stdout=-1, text=True
    ) as other:
        assert other.stdout.readline() == "locked\n"
        assert main(["shells", str(mine), "--no-verify", "--quiet", "--no-figures"]) == 1
        assert capsys.readouterr().err.startswith(f"pitplan: {folder}: {OTHER} (process 4711): wait until it ends")
        other.kill()
    assert (folder / ".pitplan.lock").read_text() == "4711\n"
    assert main(["shells", str(mine), "--no-verify", "--quiet", "--no-figures"]) == 0
    assert not (folder / ".pitplan.lock").exists()


def test_commands_that_only_read_work_beside_a_run_and_each_other(mine):
    folder = mine.parent / "out"
    pitplan.write_schedule(mine, folder, writing=UNVERIFIED)
    with staging.alone(folder):
        assert not any(rule.differences for rule in pitplan.verify(folder))
        for write in (pitplan.write_report, pitplan.audit, pitplan.view):
            assert write(folder, *([0.5] if write is pitplan.audit else [])).exists()
        assert (
            pitplan.write_export(folder, "csv", 0.5).exists()
            and pitplan.write_export(folder, "obj", shape=Shape("year")).exists()
        )


def test_two_audits_or_exports_into_one_folder_are_kept_apart(mine):
    folder = mine.parent / "out"
    pitplan.write_schedule(mine, folder, writing=UNVERIFIED)
    with staging.alone(folder / "audit-0.50"), pytest.raises(PlanError, match=f"audit-0.50: {OTHER}"):
        pitplan.audit(folder, 0.5)
    target = folder / registry.name_of("obj", Shape("year"))
    with staging.alone(target), pytest.raises(PlanError, match=f"{target.name}: {OTHER}"):
        pitplan.write_export(folder, "obj", shape=Shape("year"))


def test_gathering_is_kept_apart_from_another_run(tmp_path):
    with staging.alone(tmp_path), pytest.raises(PlanError, match=OTHER):
        pitplan.gather(tmp_path, writing=PLAIN)
    with pytest.raises(PlanError, match="nowhere/scenarios.json: cannot be read"):
        pitplan.gather(tmp_path / "nowhere" / "nowhere", writing=PLAIN)
    assert list(tmp_path.iterdir()) == []


def test_the_lock_of_a_killed_run_blocks_no_other(mine):
    folder = mine.parent / "out"

    def hold():
        with staging.alone(folder):
            os.kill(os.getpid(), signal.SIGKILL)

    killed(hold)
    assert (folder / ".pitplan.lock").is_file()
    RUNS["shells"](mine, folder)
    assert not (folder / ".pitplan.lock").exists()


def test_a_lock_is_no_link_to_follow(tmp_path):
    """Else a line of ours would stand in a file of another."""
    (tmp_path / "kept.txt").write_text("of mine")
    (tmp_path / ".pitplan.lock").symlink_to(tmp_path / "kept.txt")
    with pytest.raises(PlanError, match=r"\.pitplan\.lock: cannot be written"), staging.alone(tmp_path):
        pass
    assert (tmp_path / "kept.txt").read_text() == "of mine"


def test_processes_that_take_turns_are_never_in_one_folder_together(tmp_path):
    """Each makes a file of its own in its turn, which no other may have made; the lock is removed and made again each time."""
    children = []
    for _ in range(4):
        child = os.fork()
        if not child:
            try:
                turns(tmp_path, 50)
                os._exit(0)
            finally:
                os._exit(1)
        children.append(child)
    assert [os.waitstatus_to_exitcode(os.waitpid(child, 0)[1]) for child in children] == [0] * 4
    assert list(tmp_path.iterdir()) == []


def turns(folder: Path, count: int) -> None:
    while count:
        try:
            with staging.alone(folder), staging.stage_in(folder):
                os.close(os.open(folder / "turn", os.O_CREAT | os.O_EXCL))
                os.unlink(folder / "turn")
                count -= 1
        except PlanError:
            continue


@pytest.mark.parametrize(
    "name",
    [
        "plan.json",
        "tables/blocks.csv",
        "solver/mine.prec",
        "tables/shells.csv",
        "tables/years.csv",
        "figures/plans.png",
        "report.html",
    ],
)
def test_a_folder_in_place_of_a_file_is_refused_before_anything_is_replaced(mine, name, with_blank_figures):
    folder = mine.parent / "out"
    pitplan.write_shells(mine, folder, writing=pitplan.Writing(verifies=False, figures=name.endswith(".png")))
    (folder / name).unlink(missing_ok=True)
    (folder / name).mkdir(parents=True)
    before = files_in(folder)
    mine.write_text(mine.read_text().replace("price = 8000", "price = 9000"))
    with pytest.raises(
        PlanError,
        match=rf"out/{name}: found a folder, expected a file or nothing: move it away, or give another folder by --out",
    ):
        pitplan.write_shells(mine, folder, writing=pitplan.Writing(verifies=False))
    assert files_in(folder) == before
    (folder / name).rmdir()
    pitplan.write_shells(mine, folder, writing=pitplan.Writing(verifies=False))
    assert (folder / "tables/shells.csv").read_bytes() != before.get("tables/shells.csv")


def test_a_folder_in_place_of_an_export_is_refused(mine):
    folder = mine.parent / "out"
    pitplan.write_shells(mine, folder, writing=UNVERIFIED)
    (folder / "pit.csv").mkdir()
    with pytest.raises(PlanError, match="out/pit.csv: found a folder, expected a file or nothing"):
        pitplan.write_export(folder, "csv")
    assert list((folder / "pit.csv").iterdir()) == []


def test_a_failed_write_leaves_no_folder_that_it_made(tmp_path):
    with pytest.raises(PlanError, match="no more"):
        with atomic_files.staged_file(tmp_path / "new" / "deep" / "pit.csv") as path:
            path.write_text("half")
            raise PlanError("no more")
    assert list(tmp_path.iterdir()) == []


def test_a_full_disk_is_named_where_numpy_names_no_reason(tmp_path):
    full = "cannot be written: No space left on device: 9000 requested and [0-9]+ written"
    with pytest.raises(PlanError, match=f"{tmp_path / 'new'}: {full}"):
        with atomic_files.staged(tmp_path / "new"), open("/dev/full", "wb") as disk:
            np.zeros(9000).tofile(disk)
    assert not (tmp_path / "new").exists()


def test_what_is_not_made_leaves_no_folder(mine):
    mine.write_text(mine.read_text().replace('file = "blocks.csv"', 'file = "nowhere.csv"'))
    for run in RUNS.values():
        with pytest.raises(PlanError, match="nowhere.csv"):
            run(mine, mine.parent / "far" / "away")
        assert not (mine.parent / "far").exists()


@pytest.mark.parametrize("name", ["prepare", "shells", "pit", "pushbacks", "schedule"])
def test_no_run_replaces_the_table_of_another_mine(mine, name):
    other = mine.parent / "other"
    (other / "tables").mkdir(parents=True)
    text = mine.read_text().replace('file = "blocks.csv"', 'file = "tables/blocks.csv"')
    texts = {"project.toml": text.encode(), "tables/blocks.csv": (mine.parent / "blocks.csv").read_bytes()}
    for file, text in texts.items():
        (other / file).write_bytes(text)
    with pytest.raises(
        PlanError, match=r"other/tables/blocks\.csv: the run would overwrite it: give another folder with --out"
    ):
        RUNS[name](mine, other)
    assert files_in(other) == texts


def test_a_file_in_place_of_a_subfolder_is_refused_before_anything_is_replaced(mine):
    folder, name = mine.parent / "out", "tables"
    folder.mkdir()
    (folder / name).write_text("mine")
    with pytest.raises(PlanError, match=rf"out/{name}: cannot be written: "):
        pitplan.write_shells(mine, folder, writing=UNVERIFIED)
    assert files_in(folder) == {name: b"mine"}


def test_a_subfolder_that_may_not_be_written_is_refused_before_anything_is_replaced(mine, monkeypatch):
    """As another user's: who runs the tests as root may write anywhere."""
    folder = mine.parent / "out"
    pitplan.write_shells(mine, folder, writing=UNVERIFIED)
    before, asked = files_in(folder), os.access
    mine.write_text(mine.read_text().replace("price = 8000", "price = 9000"))
    monkeypatch.setattr(os, "access", lambda path, mode: Path(path).name != "tables" and asked(path, mode))
    with pytest.raises(PlanError, match="out/tables: cannot be written: Permission denied"):
        pitplan.write_shells(mine, folder, writing=UNVERIFIED)
    assert files_in(folder) == before


def test_scenarios_do_not_replace_the_project_of_another_mine(mine):
    other = mine.parent / "other"
    other.mkdir()
    (other / "project.toml").write_text("title = 'another mine'\n")
    with pytest.raises(
        PlanError, match=r"other/project\.toml: scenarios would replace this project: give another folder by --out"
    ):
        RUNS["scenarios"](mine, other)
    assert {path.name: path.read_text() for path in other.iterdir()} == {"project.toml": "title = 'another mine'\n"}


def test_a_run_removes_what_an_earlier_one_wrote_and_it_does_not(mine, with_blank_figures):
    """Tables, records, figures and pages of a schedule show other results than the shells; exports stay."""
    folder, bare = mine.parent / "out", pitplan.Writing(verifies=False)
    pitplan.write_schedule(mine, folder, writing=bare)
    pitplan.write_export(folder, "csv", read_record(folder)["shells"]["selected"])
    earlier = {*files_in(folder)}
    assert {"tables/schedule.csv", "schedule.json", "figures/schedule_gantt.png", "report.html"} < earlier
    pitplan.write_shells(mine, folder, writing=bare)
    pitplan.write_shells(mine, mine.parent / "alone", writing=bare)
    assert {*files_in(folder)} == {*files_in(mine.parent / "alone"), "pit.csv"}
    pitplan.write_pit(mine, 1.0, folder, writing=bare)
    assert "report.html" not in files_in(folder) and not (folder / "figures").exists()


@pytest.mark.parametrize("name", ["prepare", "pit"])
def test_a_run_into_a_folder_that_is_no_plans_removes_nothing(mine, name):
    """Neither writes a report or a schedule: these are the planner's own."""
    folder = mine.parent / "out"
    (folder / "figures").mkdir(parents=True)
    own = {"report.html": b"a page", "schedule.json": b"{}", "figures/plans.png": b"a plan"}
    for file, held in own.items():
        (folder / file).write_bytes(held)
    RUNS[name](mine, folder)
    assert own.items() <= files_in(folder).items()

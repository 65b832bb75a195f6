"""Tasks in processes of their own: figures, cases of a sensitivity, and the verification of large models."""

import json
import os
import shutil
import signal
import subprocess
import sys
import time
from dataclasses import replace

import pytest
from helpers.pushbacks import UPRIGHT, pillars
from helpers.writings import PLAIN

import pitplan
from pitplan import MissingPackage, PlanError, ProgramError, Writing, load
from pitplan.blockmodel import reader
from pitplan.commands import verification
from pitplan.commands.verification import AuditProcess
from pitplan.core import paths, processes
from pitplan.core.processes import each_done, run_all
from planaudit import AuditError, PackageError
from planaudit.__main__ import main


def noting(path, words=""):
    """A task that writes its process and some words into a file."""
    return lambda: path.write_text(f"{os.getpid()} {words}")


def failing(error):
    def task():
        raise error

    return task


def test_tasks_run_in_processes_of_their_own(tmp_path):
    files = [tmp_path / str(number) for number in range(5)]
    assert sorted(each_done([noting(file, "done") for file in files], most=3)) == [0, 1, 2, 3, 4]
    numbers = [file.read_text().split() for file in files]
    assert all(words == "done" for _, words in numbers)
    assert len({number for number, _ in numbers} | {str(os.getpid())}) == 6


def test_no_more_run_at_a_time_than_asked_for(tmp_path):
    """The third begins only when one of the first two has ended, and these wait for each other."""
    first, second, third = (tmp_path / name for name in "abc")

    def meeting(own, other):
        def task():
            own.write_text("")
            while not other.exists():
                time.sleep(0.01)

        return task

    tasks = [
        meeting(first, second),
        meeting(second, first),
        lambda: third.write_text(str(len(list(tmp_path.iterdir())))),
    ]
    assert sorted(each_done(tasks, most=2)) == [0, 1, 2] and third.read_text() == "2"


def test_one_process_runs_all_itself(tmp_path):
    run_all([noting(tmp_path / "a"), noting(tmp_path / "b")], most=1)
    assert {(tmp_path / name).read_text().strip() for name in "ab"} == {str(os.getpid())}
    run_all([])


class Odd(Exception):
    """An error that pickle cannot make again."""

    def __init__(self, one, other):
        super().__init__(f"{one} and {other}")


@pytest.fixture
def started(monkeypatch):
    """The numbers of the processes that are started."""
    found, start = [], processes.started

    def noted(task):
        pipe, process = start(task)
        found.append(process.pid)
        return pipe, process

    monkeypatch.setattr(processes, "started", noted)
    return found


def none_is_left(started):
    """Whether all have ended, and have been waited for."""
    for number in started:
        with pytest.raises(ChildProcessError):
            os.waitpid(number, os.WNOHANG)
    return len(started) > 0


@pytest.mark.parametrize("place", [0, 1, 2])
def test_the_error_of_a_task_is_raised_and_no_process_is_left(tmp_path, started, place):
    tasks = [noting(tmp_path / "a"), noting(tmp_path / "b"), noting(tmp_path / "c")]
    tasks[place] = failing(PlanError("no room", ("on the disk",)))
    with pytest.raises(PlanError, match="no room"):
        run_all(tasks, most=3)
    assert none_is_left(started)


def test_an_error_that_cannot_be_sent_comes_by_its_words(tmp_path):
    with pytest.raises(RuntimeError, match="Odd: 1 and 2"):
        run_all([noting(tmp_path / "a"), failing(Odd(1, 2))], most=2)


def test_a_killed_process_is_an_error(tmp_path):
    with pytest.raises(ProgramError, match="a process ended with status -9: free some memory"):
        run_all([noting(tmp_path / "a"), lambda: os.kill(os.getpid(), signal.SIGKILL)], most=2)


def test_an_interruption_ends_all_processes(started):
    with pytest.raises(KeyboardInterrupt):
        run_all([failing(KeyboardInterrupt()), lambda: signal.pause()], most=2)
    assert none_is_left(started)


def test_who_stops_waiting_ends_all_processes(tmp_path, started):
    done = each_done([noting(tmp_path / "a"), lambda: signal.pause()], most=2)
    assert next(done) == 0
    done.close()
    assert none_is_left(started)


def test_a_long_error_is_sent_whole():
    with pytest.raises(PlanError, match=r"^many(\n  x{1900}){100}$"):
        run_all([failing(PlanError("many", ["x" * 1_900] * 100)), lambda: None], most=2)


@pytest.mark.parametrize("kind", [AuditError, PackageError])
def test_an_error_of_the_audit_is_sent_with_its_lines(kind):
    with pytest.raises(kind, match=r"^two differences\n  in\\nyears.csv\n  in pits.csv$") as error:
        run_all([failing(kind("two differences", ["in\nyears.csv", "in pits.csv"])), lambda: None], most=2)
    assert (error.value.text, error.value.details) == ("two differences", ("in\nyears.csv", "in pits.csv"))


# ---- a sensitivity


def test_cases_in_processes_are_those_of_one(plan_folder, monkeypatch):
    text = UPRIGHT + '[sensitivity]\nparameters = ["price", "mining_cost"]\nchanges = [-0.1, 0.1]\n'
    project = load(plan_folder(pillars(), text))
    one = pitplan.write_sensitivity(project, project.folder / "one", writing=PLAIN)
    monkeypatch.setattr(processes, "cores", lambda: 3)
    several = pitplan.write_sensitivity(project, project.folder / "several", writing=PLAIN)
    assert len(one) == 5 and one.equals(several)


# ---- the verification


@pytest.fixture
def apart(monkeypatch):
    """Runs are verified in a process of its own; gives the processes."""
    started, begin = [], AuditProcess.begin
    monkeypatch.setattr(verification, "APART", 1)
    monkeypatch.setattr(verification, "cores", lambda: 2)
    monkeypatch.setattr(AuditProcess, "begin", lambda self: started.append(self.child) or begin(self))
    return started


def recorded(folder):
    return json.loads((folder / "plan.json").read_text())["verified"]


def test_a_process_of_its_own_verifies_the_same(plan_folder, monkeypatch, apart):
    project = load(plan_folder(pillars(), UPRIGHT))
    pitplan.write_shells(project, project.folder / "apart", writing=PLAIN)
    pitplan.Plan.from_project(project).shells().write(project.folder / "object", PLAIN)
    assert len(apart) == 2 and all(child.returncode == 0 for child in apart)
    monkeypatch.setattr(verification, "APART", 100)
    pitplan.write_shells(project, project.folder / "within", writing=PLAIN)
    found = recorded(project.folder / "within")
    assert len(apart) == 2 and len(found) > 8
    assert found == recorded(project.folder / "apart") == recorded(project.folder / "object")


def test_a_misread_table_fails_the_run(plan_folder, monkeypatch, apart):
    path, read = plan_folder(pillars(), UPRIGHT), reader.read

    def misread(project):
        table = read(project)
        return replace(table, frame=table.frame.assign(cu=table.frame["cu"].where(table.frame["cu"] < 1, 0.9)))

    monkeypatch.setattr(reader, "read", misread)
    with pytest.raises(PlanError, match="verification failed: .*discrepanc"):
        pitplan.write_shells(path, writing=PLAIN)
    folder = load(path).folder
    assert not list(folder.rglob("plan.json")) and not list(folder.rglob(".pitplan-*"))


def replaced_by(code):
    """What starts, in place of the verification, a process that runs some Python."""
    pipes = {name: subprocess.PIPE for name in ("stdin", "stdout", "stderr")}

    def start(self, stage):
        self.child = subprocess.Popen([sys.executable, "-c", code], text=True, **pipes)

    return start


@pytest.mark.parametrize(
    ("code", "why"),
    [
        ("import os; os.kill(os.getpid(), 9)", "ended with status -9: nothing on standard error: free some memory"),
        ("raise MemoryError('all gone')", "ended with status 1: MemoryError: all gone"),
        ("print('{}'[:1])", "ended with status 0: nothing on standard error"),
    ],
)
def test_a_verification_without_a_result_fails_the_run(plan_folder, monkeypatch, apart, code, why):
    monkeypatch.setattr(AuditProcess, "__init__", replaced_by(code))
    with pytest.raises(PlanError, match=why):
        pitplan.write_shells(plan_folder(pillars(), UPRIGHT), writing=PLAIN)


def test_a_missing_package_of_the_verification_is_named(plan_folder, monkeypatch, apart):
    said = json.dumps({"error": "GDAL is missing", "details": [], "package": True})
    monkeypatch.setattr(AuditProcess, "__init__", replaced_by(f"print({said!r})"))
    with pytest.raises(MissingPackage, match="GDAL is missing"):
        pitplan.write_shells(plan_folder(pillars(), UPRIGHT), writing=PLAIN)


def test_an_error_while_drawing_ends_the_verification(plan_folder, monkeypatch, apart):
    monkeypatch.setattr("pitplan.commands.drawing.draw", lambda *_: failing(PlanError("no ink"))())
    with pytest.raises(PlanError, match="no ink"):
        pitplan.write_shells(plan_folder(pillars(), UPRIGHT), writing=Writing(figures=True))
    assert len(apart) == 1 and apart[0].poll() is not None


def test_an_error_before_any_result_ends_the_verification(plan_folder, monkeypatch, apart):
    processes, start = [], AuditProcess.__init__
    monkeypatch.setattr(
        AuditProcess, "__init__", lambda self, stage: start(self, stage) or processes.append(self.child)
    )
    monkeypatch.setattr("pitplan.solver.problem.solve", lambda *_: failing(PlanError("no solver"))())
    with pytest.raises(PlanError, match="no solver"):
        pitplan.write_shells(plan_folder(pillars(), UPRIGHT), writing=PLAIN)
    assert not apart and len(processes) == 1 and processes[0].poll() is not None


def test_an_audit_whose_run_has_gone_ends(plan_folder):
    project = load(plan_folder(pillars(), UPRIGHT))
    words = [
        sys.executable,
        "-P",
        "-m",
        "planaudit",
        "--json",
        "--wait",
        "--final",
        str(project.folder),
        str(project.folder),
    ]
    (project.folder).mkdir(exist_ok=True)
    shutil.copy(project.path, project.folder / "project-as-run.toml")
    shutil.copy(project.path.parent / "blocks.csv", project.folder)
    environment = {**os.environ, "PYTHONPATH": str(paths.PACKAGES)}
    ran = subprocess.run(words, input="", capture_output=True, text=True, env=environment)
    assert "the run has ended without results" in json.loads(ran.stdout)["error"]


def test_the_audit_runs_without_pitplan(plan_folder, capsys):
    project = load(plan_folder(pillars(), UPRIGHT))
    folder = project.folder
    pitplan.write_shells(project, folder, writing=PLAIN)
    assert main([str(folder)]) == 0
    *found, verdict = capsys.readouterr().out.splitlines()
    assert verdict == f"verified: all {len(found)} rules hold"
    assert [it for it in found if not it.startswith("inputs: ")] == recorded(folder) and len(found) > len(
        recorded(folder)
    )
    table = folder / "tables/shells.csv"
    text = table.read_text()
    table.write_text(text.replace("200", "300", 1))
    assert main([str(folder)]) == 1
    assert capsys.readouterr().err.startswith("planaudit: verification failed: ")
    assert main(["--json", str(folder)]) == 0
    assert any(it["count"] for it in json.loads(capsys.readouterr().out)["rules"])
    words = [sys.executable, "-P", "-m", "planaudit", str(folder / "none")]
    ran = subprocess.run(words, capture_output=True, text=True, env={**os.environ, "PYTHONPATH": str(paths.PACKAGES)})
    assert ran.returncode == 1 and "Traceback" not in ran.stderr


def test_processors_are_counted():
    assert 1 <= processes.cores() <= (os.cpu_count() or 1)

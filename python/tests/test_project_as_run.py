"""A run of a project that was changed in Python says in its folder what was run: report, verification and what reads the folder use that."""

import json
import re
import shutil
from dataclasses import replace
from decimal import Decimal
from functools import partial

import pytest
from conftest import PROJECT, rows
from helpers.writings import PLAIN, REPORTED, UNVERIFIED

import pitplan
from pitplan import PlanError, Request, load, verify
from pitplan.cli import main
from pitplan.core.atomic_files import hash_of

ORE = {"cu": lambda i, j, k: {(3, 3, 1): 6, (4, 3, 1): 2.5, (3, 4, 0): 9}.get((i, j, k), 0)}
MORE = '[pushbacks]\ncount = 2\n[schedule]\nmining_capacity = 2000\n[sensitivity]\nchanges = [0.1]\nparameters = ["price", "mining_cost"]\n'
FIXED = '[constraints]\nmust_mine = "due"\n'
RUNS = {
    "shells": partial(pitplan.write_shells, writing=UNVERIFIED),
    "pit": lambda project, folder: pitplan.write_pit(project, 0.5, folder, writing=UNVERIFIED),
    "pushbacks": partial(pitplan.write_pushbacks, writing=UNVERIFIED),
    "schedule": partial(pitplan.write_schedule, writing=UNVERIFIED),
    "sensitivity": partial(pitplan.write_sensitivity, writing=UNVERIFIED),
    "block schedule": partial(pitplan.write_block_schedule, writing=UNVERIFIED),
}


@pytest.fixture
def mine(plan_folder):
    def write(more=MORE):
        return plan_folder(rows(6, 5, 3, due=lambda i, j, k: int((i, j, k) == (1, 1, 2)), **ORE), PROJECT + more)

    return write


def dearer(project, price="12000"):
    """The project with another price, as a notebook would change it."""
    return replace(project, metals=(replace(project.metals[0], price=Decimal(price)),))


@pytest.mark.parametrize("name", RUNS)
def test_a_changed_project_is_verified_as_it_was_run(mine, name):
    """The text of the first project stays as it is, and that of the run reads back as the project."""
    path = mine(MORE + (FIXED if name == "pit" else ""))
    before, project = path.read_bytes(), dearer(load(path))
    RUNS[name](project, path.parent / "out")
    assert not [rule for rule in verify(path.parent / "out") if rule.differences]
    assert path.read_bytes() == before
    again = load(path.parent / "out" / "project-as-run.toml")
    assert again.metals == project.metals and again.shells == project.shells
    assert again.table.file.resolve() == project.table.file.resolve()


def test_the_report_shows_the_project_that_was_run(mine):
    project = dearer(load(mine()))
    pitplan.write_shells(project, writing=REPORTED)
    page = (project.folder / "report.html").read_text()
    assert "price = 12000" in page and "price = 8000" not in page
    record = json.loads((project.folder / "plan.json").read_text())
    assert record["files"]["project-as-run.toml"] == hash_of(project.folder / "project-as-run.toml")
    assert record["files"]["project-as-run.toml"] in page
    pitplan.write_report(project.folder)
    assert "price = 12000" in (project.folder / "report.html").read_text()


def test_by_the_command_line_the_run_is_that_of_the_file(mine):
    path = mine()
    assert main(["shells", str(path), "--quiet", "--no-figures"]) == 0
    again = load(path.parent / "plan" / "project-as-run.toml")
    assert again.metals == load(path).metals and again.folder.resolve() == (path.parent / "plan").resolve()


def test_in_the_projects_own_folder_the_project_stays(mine):
    path = mine('[output]\nfolder = "."\n')
    shutil.move(path.parent / "blocks.csv", path.parent / "model.csv")
    path.write_text(path.read_text().replace('file = "blocks.csv"', 'file = "model.csv"'))
    before = path.read_bytes()
    pitplan.write_shells(dearer(load(path)), writing=PLAIN)
    assert path.read_bytes() == before
    assert load(path.parent / "project-as-run.toml").metals[0].price == 12000
    assert not [rule for rule in verify(path.parent) if rule.differences]


def test_the_text_of_a_run_is_never_written_over_by_a_run_of_it(mine):
    path = mine()
    pitplan.write_shells(path, writing=PLAIN)
    again = load(path.parent / "plan" / "project-as-run.toml")
    with pytest.raises(
        PlanError, match="project-as-run.toml: the run would overwrite it: give another folder with --out"
    ):
        pitplan.write_shells(again, writing=PLAIN)
    pitplan.write_shells(again, path.parent / "again", writing=PLAIN)
    for name in ("tables/shells.csv", "tables/years.csv", "tables/blocks.csv"):
        assert (path.parent / "again" / name).read_bytes() == (path.parent / "plan" / name).read_bytes()


def test_a_text_of_a_run_that_has_changed_is_refused(mine):
    path = mine()
    pitplan.write_shells(path, writing=PLAIN)
    text = path.parent / "plan" / "project-as-run.toml"
    text.write_text(text.read_text().replace("8000", "8001"))
    with pytest.raises(
        PlanError, match="project-as-run.toml: has changed since plan.json was written: run pitplan shells again"
    ):
        pitplan.write_report(path.parent / "plan")
    assert {rule.name for rule in verify(path.parent / "plan") if rule.differences} >= {"money"}


def test_a_sensitivity_of_another_project_takes_no_answer_of_the_first(mine):
    path = mine()
    first, second = (pitplan.write_sensitivity(project, writing=PLAIN) for project in (path, dearer(load(path))))
    assert (first["undiscounted_cash_flow"] < second["undiscounted_cash_flow"]).all()
    shutil.rmtree(path.parent / "plan")
    assert pitplan.write_sensitivity(dearer(load(path)), writing=PLAIN).equals(second)


def test_a_sensitivity_of_another_project_is_no_part_of_a_report(mine):
    """Though both were read from one file."""
    path = mine()
    pitplan.write_sensitivity(path, writing=REPORTED)
    pitplan.write_shells(dearer(load(path)), writing=REPORTED)
    page = (path.parent / "plan" / "report.html").read_text()
    assert "is a sensitivity of other inputs (project-as-run.toml), and is left out here." in page
    pitplan.write_sensitivity(dearer(load(path)), writing=REPORTED)
    pitplan.write_report(path.parent / "plan")
    assert "<h2>Sensitivity</h2>" in (path.parent / "plan" / "report.html").read_text()


def test_scenarios_are_solved_of_the_project_that_was_run(mine):
    path = mine('[scenarios]\ncolumns = { copper = "cu" }\n')
    texts = []
    for project in (load(path), dearer(load(path))):
        pitplan.write_scenarios(project, path.parent / "out", Request(where="parallel"), writing=PLAIN)
        texts.append((path.parent / "out" / "project.toml").read_text())
    assert [re.search(r"price = (\d+)", text).group(1) for text in texts] == ["8000", "12000"]


def test_verify_begins_with_the_project_that_has_changed(mine, capsys):
    """Otherwise somebody who has edited it reads that the numbers of the run are wrong."""
    path = mine()
    pitplan.write_shells(path, writing=PLAIN)
    path.write_text(path.read_text().replace("price = 8000", "price = 9000"))
    assert main(["verify", str(path.parent / "plan")]) == 1
    first, second, third = capsys.readouterr().err.splitlines()[:3]
    assert first.startswith("pitplan: verification failed: ") and third.strip().startswith("money: ")
    why = "has changed since the run, and the folder is compared with it as it is now: run the command again"
    assert second.strip() == f"inputs: {path}: {why}"

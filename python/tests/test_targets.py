"""The folder that report, view, export and audit read, and the place that their --out names."""

import json
import os
import shutil
from pathlib import Path

import pytest
from helpers.writings import UNVERIFIED

import pitplan
from pitplan import PlanError, Shape
from pitplan.cli import main

COMMANDS = {
    "report": [],
    "view": [],
    "export": ["--to", "csv"],
    "audit": ["--rf", "1.00"],
}


def contents(folder: Path) -> dict[str, bytes]:
    """The bytes of each file below a folder."""
    return {str(path.relative_to(folder)): path.read_bytes() for path in folder.rglob("*") if path.is_file()}


def refused(capsys, *words) -> str:
    """The sentence by which a command line is refused."""
    assert main([*map(str, words), "--quiet"]) == 1
    said = capsys.readouterr()
    assert said.out == "" and len(said.err.splitlines()) == 1
    return said.err.removeprefix("pitplan: ").rstrip("\n")


@pytest.mark.parametrize("name", COMMANDS)
def test_a_project_is_refused_with_the_folder_of_its_plan(solved, capsys, name):
    project, folder = solved
    expected = "expected the output folder of a plan: give"
    said = refused(capsys, name, project.path, *COMMANDS[name])
    assert (
        said
        == f"{project.path}: found a file, {expected} {folder}, or the folder that --out named when the plan was made"
    )
    said = refused(capsys, name, project.path.parent, *COMMANDS[name])
    assert said.startswith(f"{project.path.parent}: found a folder without plan.json, {expected} {folder}, or")


@pytest.mark.parametrize("name", COMMANDS)
def test_a_folder_that_is_no_plans_is_refused(tmp_path, capsys, name):
    (tmp_path / "empty").mkdir()
    rest = "expected the output folder of a plan: give the folder that pitplan shells wrote"
    for place, found in (("empty", "found no plan.json"), ("nowhere", "not found")):
        assert refused(capsys, name, tmp_path / place, *COMMANDS[name]) == f"{tmp_path / place}: {found}, {rest}"
    assert contents(tmp_path) == {}


def test_a_project_without_a_plan_is_refused_with_the_command_that_makes_it(solved, capsys):
    project, folder = solved
    shutil.rmtree(folder)
    said = refused(capsys, "view", project.path)
    assert said.endswith(
        f"give the folder that --out named when the plan was made, or run pitplan shells {project.path}, which writes {folder}"
    )
    project.path.write_text("title = 1\n")
    assert refused(capsys, "view", project.path).endswith("give the folder that pitplan shells wrote")


def test_the_folder_of_a_plan_is_read_wherever_it_lies(solved, tmp_path, capsys):
    """As it was made with --out: the project is found by the record."""
    moved = solved[1].rename(solved[1].parent / "another")
    for name, words in COMMANDS.items():
        assert main([name, str(moved), *words, "--quiet"]) == 0
    written = [moved / it for it in ("report.html", "view.html", "pit.csv", "audit-1.00")]
    assert capsys.readouterr().out.splitlines() == [str(path) for path in written]


def test_out_names_the_file_or_folder_to_write(solved, tmp_path, capsys):
    ezdxf = pytest.importorskip("ezdxf", reason="needs the Debian package python3-ezdxf")
    folder, new = solved[1], tmp_path / "new" / "deep"
    before = contents(folder)
    words = (
        ("export", "--to", "dxf", "--rf", "0.5", "--out", new / "pit.dxf"),
        ("export", "--to", "table", "--out", new / "planned.csv"),
        ("view", "--out", new / "page.html"),
        ("audit", "--rf", "1.0", "--out", new / "checked"),
    )
    for name, *more in words:
        assert main([name, str(folder), *map(str, more), "--quiet"]) == 0
        assert capsys.readouterr().out == f"{more[-1]}\n"
    assert contents(folder) == before
    # Each holds what the command writes by default.
    pitplan.write_export(folder, "dxf", 0.5)
    pitplan.write_export(folder, "table")
    audited, page = pitplan.audit(folder, 1.0), pitplan.view(folder)
    # A drawing has the time at which it was made.
    asked, default = (
        [[tuple(point) for point in line.points()] for line in ezdxf.readfile(path).modelspace().query("POLYLINE")]
        for path in (new / "pit.dxf", folder / "pit-0.50.dxf")
    )
    assert asked == default and asked
    assert (new / "planned.csv").read_bytes() == (folder / "table.csv").read_bytes()
    assert (new / "page.html").read_bytes() == page.read_bytes()
    assert contents(new / "checked") == contents(audited)
    assert sorted(os.listdir(new)) == ["checked", "page.html", "pit.dxf", "planned.csv"]


def test_surfaces_of_years_go_to_a_folder_of_any_name(folder, tmp_path):
    """Of an earlier export its own files go, by number, and those of others stay."""
    pytest.importorskip("vtk", reason="needs the Debian package python3-vtk9")
    target = tmp_path / "surfaces"
    target.mkdir()
    for name in ("year-99.stl", "year-end.stl", "before.stl", "notes.txt"):
        (target / name).touch()
    assert pitplan.write_export(folder, "stl", Shape("year"), out=target) == target
    kept = {it.name for it in target.iterdir()}
    assert {"year-1.stl", "year-end.stl", "notes.txt"} <= kept and not {"year-99.stl", "before.stl"} & kept


def test_an_input_or_a_file_of_the_plan_is_never_replaced(solved, tmp_path, capsys):
    project, folder = solved
    (folder / "figures").mkdir(exist_ok=True)
    (folder / "figures" / "plans.png").write_bytes(b"a figure of the plan")
    shutil.copytree(folder, tmp_path / "other")
    (tmp_path / "link").symlink_to(folder)
    os.link(project.table.file, tmp_path / "hard.csv")
    before = contents(tmp_path)
    places = {
        "an input": (project.path, project.table.file, tmp_path / "hard.csv"),
        "a file": (
            *(folder / name for name in ("tables/shells.csv", "tables/blocks.csv", "plan.json", "report.html")),
            folder / "figures" / "plans.png",
            *(
                folder / "project-as-run.toml",
                folder / ".." / "plan" / "tables" / "years.csv",
                tmp_path / "link" / "tables" / "years.csv",
            ),
            tmp_path / "other" / "tables" / "shells.csv",
        ),
    }
    for found, paths in places.items():
        for path in paths:
            said = f"{path}: found {found} of the plan, which is not overwritten: give another --out"
            assert refused(capsys, "export", folder, "--to", "csv", "--out", path) == said
            assert refused(capsys, "view", folder, "--out", path) == said
    assert contents(tmp_path) == before


def test_the_input_of_another_mine_is_never_replaced(solved, tmp_path, capsys):
    other = shutil.copytree(solved[0].path.parent, tmp_path / "another_mine", ignore=shutil.ignore_patterns("plan"))
    before = contents(other)
    said = refused(capsys, "export", solved[1], "--to", "csv", "--out", other / "blocks.csv")
    assert said.startswith(f"{other / 'blocks.csv'}: found an input of the plan")
    assert contents(other) == before


def test_an_audit_replaces_no_input(solved, capsys):
    """The table of the mine has a name that an audit writes."""
    project, _ = solved
    project.table.file.rename(project.path.parent / "pit.txt")
    project.path.write_text(project.path.read_text().replace("blocks.csv", "pit.txt"))
    pitplan.write_shells(project.path, writing=UNVERIFIED)
    before = contents(project.path.parent)
    said = refused(capsys, "audit", project.folder, "--rf", "1.0", "--out", project.path.parent)
    assert said.startswith(f"{project.path.parent / 'pit.txt'}: found an input of the plan")
    assert contents(project.path.parent) == before


def test_an_export_may_replace_an_earlier_one(solved):
    folder = solved[1]
    for _ in range(2):
        assert pitplan.write_export(folder, "csv", out=folder / "pit.csv") == folder / "pit.csv"
        assert pitplan.write_export(folder, "csv", out=folder / "mine.csv") == folder / "mine.csv"
        assert pitplan.view(folder, out=folder / "view.html") == folder / "view.html"
    assert (folder / "mine.csv").read_bytes() == (folder / "pit.csv").read_bytes()


def test_a_folder_for_a_file_is_refused_and_a_file_for_a_folder(folder, tmp_path, capsys):
    (tmp_path / "file").touch()
    for name, words in (("view", []), ("export", ["--to", "csv"])):
        default = {"view": "view.html", "export": "pit.csv"}[name]
        said = refused(capsys, name, folder, *words, "--out", tmp_path)
        assert said == f"{tmp_path}: found a folder, expected a file: give one in it, such as {tmp_path / default}"
    for name, words in (("audit", ["--rf", "1.0"]), ("export", ["--to", "obj", "--of", "year"])):
        said = refused(capsys, name, folder, *words, "--out", tmp_path / "file")
        assert said == f"{tmp_path / 'file'}: found a file, expected a folder: give another name with --out"
    assert (tmp_path / "file").read_bytes() == b""


def test_a_failed_export_leaves_no_folder_that_it_made(folder, tmp_path, monkeypatch):
    def half(path, result, shape):
        path.write_text("half")
        raise PlanError("no more")

    monkeypatch.setitem(pitplan.commands.outputs.registry.WRITERS, "csv", half)
    with pytest.raises(PlanError, match="no more"):
        pitplan.write_export(folder, "csv", out=tmp_path / "new" / "deep" / "pit.csv")
    assert not (tmp_path / "new").exists()


def test_a_string_file_has_a_name_that_surpac_reads(solved, tmp_path):
    path = pitplan.write_export(solved[1], "str", 1.0, out=tmp_path / "gr\u00f6\u00dfe, 2.str")
    assert path.read_text(encoding="ascii").splitlines()[0] == "gr__e__2,,toes and crests,"


def test_the_audit_of_a_plan_without_fixed_blocks_removes_those_of_another(solved, tmp_path):
    (tmp_path / "audit").mkdir()
    (tmp_path / "audit" / "shell.fixed").write_text("of another plan\n")
    (tmp_path / "audit" / "notes.txt").touch()
    pitplan.audit(solved[1], 1.0, out=tmp_path / "audit")
    assert not (tmp_path / "audit" / "shell.fixed").exists() and (tmp_path / "audit" / "notes.txt").exists()
    assert json.loads((tmp_path / "audit" / "audit.json").read_text())["revenue_factor"] == 1.0

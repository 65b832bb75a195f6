"""What the subcommands write: whole or not at all; audits, exports and pages of a small mine."""

import io
import json
import os
import signal
import subprocess
import sys
import time
import xml.etree.ElementTree as xml
from dataclasses import replace
from decimal import Decimal

import numpy as np
import pandas as pd
import pytest
from conftest import PROJECT, ROOT, files_in, rows
from helpers.writings import REPORTED, UNVERIFIED

import pitplan
from pitplan import BudgetUsedUp, PlanError, ProgramError, load
from pitplan.cli import main
from pitplan.commands import drawing
from pitplan.commands.plans import write_plan
from pitplan.commands.writing import GEOLOGY_PICTURES, PICTURES
from pitplan.core import cell_outlines, libraries
from pitplan.core.atomic_files import hash_of, write_json
from pitplan.core.progress import Progress, silent
from pitplan.core.revenue_factors import factor_text
from pitplan.export import audit
from pitplan.results.folder import read_folder, read_record
from pitplan.results.rounding import shown
from pitplan.solver import mine_files, problem, program

ORE = {"cu": lambda i, j, k: {(3, 3, 1): 6, (4, 3, 1): 2.5, (3, 4, 0): 9}.get((i, j, k), 0)}


def test_shells_write_tables_pictures_and_a_page_that_needs_no_other_file(solved, with_blank_figures):
    """Where the library solves it needs no other file either."""
    project, folder = solved
    told = io.StringIO()
    pitplan.write_shells(replace(project, solver="program"), writing=pitplan.Writing(Progress(told), verifies=False))
    assert "drawing .." in told.getvalue()
    names = {*files_in(folder)}
    pictures = {*PICTURES.values(), *GEOLOGY_PICTURES.values()}
    assert (
        names
        == {
            "solver/mine.blocks",
            "solver/mine.upit",
            "solver/mine.prec",
            "plan.json",
            "project-as-run.toml",
            "tables/blocks.csv",
            "tables/shells.csv",
            "tables/years.csv",
            "tables/grade_tonnage.csv",
            "solver/shells.txt",
            "report.html",
        }
        | pictures
    )
    page = (folder / "report.html").read_text()
    assert page.count('<img src="data:image/png;base64,') == len(pictures) == 6 and "http" not in page.replace(
        "http-equiv", ""
    )


def test_a_mine_without_ore_has_a_report_and_a_page_too(plan_folder):
    project = load(plan_folder(rows(4, 4, 3), PROJECT, ("[0.5, 1.0, 1.5]", "[1.0]")))
    table = pitplan.write_shells(project, project.folder, writing=REPORTED)
    assert table["blocks"].tolist() == [0] and table["undiscounted_cash_flow"].tolist() == [0]
    pitplan.view(project.folder, silent)
    assert (
        "–" in (project.folder / "report.html").read_text()
        and '"most": 1.0' in (project.folder / "view.html").read_text()
    )


def test_the_record_is_json_that_can_be_read(solved):
    """A key a line, two blanks deep."""
    first, second, *_ = (solved[1] / "plan.json").read_text().splitlines()
    assert (first, second) == ("{", '  "title": "Test hill",')


def test_the_record_has_hashes_of_all_that_was_read_and_written(solved):
    project, folder = solved
    pitplan.write_shells(replace(project, solver="program"), writing=UNVERIFIED)
    record = json.loads((folder / "plan.json").read_text())
    names = [*record["files"], *record["inputs"]]
    places = [folder / name for name in record["files"]] + [project.path.parent / name for name in record["inputs"]]
    said = subprocess.run(["sha256sum", *map(str, places)], capture_output=True, text=True, check=True).stdout.split(
        "\n"
    )
    assert dict(zip(names, (line.split()[0] for line in said if line))) == {**record["files"], **record["inputs"]}
    assert (
        record["precedences"]["written"]
        == sum(int(line.split()[1]) for line in open(folder / "solver/mine.prec"))
        - record["precedences"]["of_processing_nodes"]
    )


def test_a_file_changed_since_is_refused(solved):
    _, folder = solved
    with open(folder / "tables/years.csv", "a") as file:
        file.write("\n")
    with pytest.raises(PlanError, match="years.csv: has changed since plan.json was written: run pitplan shells again"):
        read_folder(folder)


def test_a_prepared_folder_has_no_shells_yet(plan_folder):
    project = load(plan_folder(rows(4, 4, 3, **ORE)))
    write_plan(project, project.folder, silent)
    with pytest.raises(PlanError, match="has no shells yet: run pitplan shells first"):
        read_folder(project.folder)
    with pytest.raises(PlanError, match="nowhere/plan.json: cannot be read: run pitplan shells first"):
        read_folder(project.folder / "nowhere")


@pytest.mark.parametrize("factor", [0.5, 1.0, 1.5])
def test_an_audit_is_confirmed_by_the_program_and_by_the_short_checker(solved, factor):
    _, folder = solved
    target = pitplan.audit(folder, factor, silent)
    environment = {**os.environ, "PITSHELL": str(program.program()), "PYTHON": sys.executable}
    # No module is taken from the folder that is checked.
    (target / "argparse.py").write_text("raise SystemExit('a module of the folder was run')\n")
    ran = subprocess.run(["sh", str(target / "check.sh")], capture_output=True, text=True, env=environment, check=True)
    assert ran.stdout.split("\n") == ["hashes: yes", "pitshell check: yes", "check_certificate.py: yes", ""]
    record = json.loads((target / "audit.json").read_text())
    table = pd.read_csv(folder / "tables/shells.csv", dtype={"value_at_revenue_factor": str}).set_index(
        "revenue_factor"
    )
    assert Decimal(record["value_at_revenue_factor"]) == Decimal(table["value_at_revenue_factor"][factor])
    assert record["program"] == program.identity() and record["plan"]["tables/blocks.csv"] == hash_of(
        folder / "tables/blocks.csv"
    )


def test_an_auditor_without_the_program_is_told_so_and_has_the_short_checker(solved, tmp_path):
    _, folder = solved
    target = pitplan.audit(folder, 1.0, silent)
    environment = {**os.environ, "PITSHELL": str(tmp_path / "pitshell"), "PYTHON": sys.executable}
    ran = subprocess.run(["sh", str(target / "check.sh")], capture_output=True, text=True, env=environment)
    lacking = f"pitshell check: not run: {tmp_path}/pitshell not found: install pitshell, or set PITSHELL"
    assert ran.stdout.splitlines() == ["hashes: yes", lacking, "check_certificate.py: yes"]
    assert (ran.returncode, ran.stderr) == (1, "")


def test_a_bent_audit_is_not_confirmed(solved):
    _, folder = solved
    target = pitplan.audit(folder, 1.0, silent)
    model = target / "shell.upit"
    model.write_text(model.read_text().replace("\n0 -", "\n0 "))
    environment = {**os.environ, "PITSHELL": str(program.program()), "PYTHON": sys.executable}
    assert subprocess.run(["sh", str(target / "check.sh")], capture_output=True, env=environment).returncode != 0


def test_an_audit_of_other_blocks_or_of_another_worth_is_refused(solved):
    folder = read_folder(solved[1])
    stage = pitplan.audit(solved[1], 1.0, silent)
    worth = audit.demand_same(stage, folder, 1.0)
    shells = pd.read_csv(solved[1] / "tables/shells.csv", dtype={"value_at_revenue_factor": str})
    assert [worth] == shells.loc[shells["revenue_factor"] == 1.0, "value_at_revenue_factor"].map(Decimal).tolist()
    mined = folder.blocks["revenue_factor"] == 0.5
    other = replace(
        folder,
        blocks=folder.blocks.assign(
            revenue_factor=folder.blocks["revenue_factor"].where(~mined | (mined.cumsum() > 1), 0)
        ),
    )
    with pytest.raises(PlanError, match="the audited pit is not the shell of revenue factor 1.00"):
        audit.demand_same(stage, other, 1.0)
    shells.assign(value_at_revenue_factor=shells["value_at_revenue_factor"] + "1").to_csv(
        solved[1] / "tables/shells.csv", index=False
    )
    with pytest.raises(PlanError, match="the audited pit is not the shell of revenue factor 1.00"):
        audit.demand_same(stage, folder, 1.0)


def test_values_of_an_audit_are_exact(tmp_path):
    from pitplan.export.audit import read_nodes

    (tmp_path / "mine.blocks").write_text("0 0 0 0 0 1.000001\n1 0 0 0 12345.678901 0.1\n")
    assert problem.values_at(read_nodes(tmp_path / "mine.blocks"), 0.333).tolist() == [
        -1000001000,
        333 * 12345678901 - 100000000,
    ]
    (tmp_path / "mine.blocks").write_text("0 0 0 0 999999999999 0\n")
    with pytest.raises(PlanError, match="too large for the solver: give prices and costs in a larger unit of money"):
        problem.values_at(read_nodes(tmp_path / "mine.blocks"), 1.0)
    # Products that 64 bits would not hold, and the greatest and least value that a model takes.
    most = np.array([10**18 - 1]), np.array([0])
    assert problem.values_at(most, 0.001).tolist() == [10**18 - 1] and problem.values_at(
        (np.array([10**17 - 1]), np.array([10**17 - 10**12])), 1.0
    ).tolist() == [10**15 - 1000]
    for amounts, factor in (
        ((np.array([10**17]), np.array([0])), 100.0),
        ((np.array([0]), np.array([10**15])), 0.001),
        ((np.array([10**15]), np.array([0])), 1.0),
    ):
        with pytest.raises(
            PlanError, match=f"a value at revenue factor {factor_text(factor)}, times 1,000, is 10.12 or more"
        ):
            problem.values_at(amounts, factor)


def test_a_factor_that_is_not_solved_is_refused(solved):
    _, folder = solved
    for call in (lambda: pitplan.audit(folder, 0.9, silent), lambda: pitplan.write_export(folder, "dxf", 0.9, silent)):
        with pytest.raises(PlanError, match="revenue factor 0.90 is not among the revenue factors 0.50, 1.00, 1.50"):
            call()


def test_csv_has_the_blocks_of_all_pits(solved):
    _, folder = solved
    table = pd.read_csv(pitplan.write_export(folder, "csv", 1.0, silent))
    blocks = pd.read_csv(folder / "tables/blocks.csv")
    assert len(table) == (blocks["revenue_factor"] > 0.0).sum() > 0 and set(table["name"]) == set(
        blocks["name"][blocks["revenue_factor"] > 0.0]
    )


def test_vti_is_read_back_by_vtk_cell_by_cell(solved):
    vtk = pytest.importorskip("vtk")
    from vtk.util.numpy_support import vtk_to_numpy

    _, folder = solved
    reader = vtk.vtkXMLImageDataReader()
    reader.SetFileName(str(pitplan.write_export(folder, "vti", 1.0, silent)))
    reader.Update()
    image = reader.GetOutput()
    assert image.GetDimensions() == (11, 10, 6) and image.GetBounds() == (0, 100, 0, 90, 0, 50)
    factor = vtk_to_numpy(image.GetCellData().GetArray("revenue_factor"))
    for _, block in pd.read_csv(folder / "tables/blocks.csv").iterrows():
        place = int(block.z // 10) * 90 + int(block.y // 10) * 10 + int(block.x // 10)
        assert factor[place] == block.revenue_factor


def test_vtu_has_a_cell_a_block_of_rock_where_the_block_lies(plan_folder):
    """Of a hill in which the block b2-0-1 is air: it has no tonnes."""
    vtk = pytest.importorskip("vtk")
    from vtk.util.numpy_support import vtk_to_numpy

    path = plan_folder(rows(4, 3, 2, **ORE, tonnes=lambda i, j, k: 100 * int((i, j, k) != (2, 0, 1))))
    pitplan.write_shells(path, writing=UNVERIFIED)
    reader = vtk.vtkXMLUnstructuredGridReader()
    reader.SetFileName(str(pitplan.write_export(path.parent / "plan", "vtu")))
    reader.Update()
    mesh = reader.GetOutput()
    blocks = pd.read_csv(path.parent / "plan" / "tables/blocks.csv")
    blocks = blocks[blocks["tonnes"] > 0].reset_index(drop=True)
    assert mesh.GetNumberOfCells() == len(blocks) == 23 and mesh.GetNumberOfPoints() == 5 * 4 * 3
    for number, block in blocks.iterrows():
        sides = [block.x - 5, block.x + 5, block.y - 5, block.y + 5, block.z - 5, block.z + 5]
        assert list(mesh.GetCell(number).GetBounds()) == sides and mesh.GetCellType(number) == vtk.VTK_VOXEL
    quality = vtk.vtkCellSizeFilter()
    quality.SetInputData(mesh)
    quality.Update()
    assert np.allclose(vtk_to_numpy(quality.GetOutput().GetCellData().GetArray("Volume")), 1000)
    for name in ("revenue_factor", "tonnes", "mining_cost"):
        assert vtk_to_numpy(mesh.GetCellData().GetArray(name)).tolist() == blocks[name].tolist()


def test_a_workbook_has_all_tables_of_the_folder(solved):
    openpyxl = pytest.importorskip("openpyxl")
    _, folder = solved
    book = openpyxl.load_workbook(pitplan.write_export(folder, "xlsx"))
    assert book.sheetnames == ["shells", "years"]
    for name in book.sheetnames:
        table = pd.read_csv(folder / "tables" / f"{name}.csv")
        head, *lines = ([cell.value for cell in row] for row in book[name])
        assert [it.partition(" (")[0] for it in head] == list(table.columns) and len(lines) == len(table) > 2
        tonnes = {"shells": "tonnes (t)", "years": "total_tonnes (t)"}[name]
        assert {"revenue_factor (factor)", tonnes, "feed_tonnes (t)"} <= set(head)
        assert [line[:4] for line in lines] == table.iloc[:, :4].values.tolist()


def test_dxf_has_the_area_of_the_pit_on_each_level(solved):
    ezdxf = pytest.importorskip("ezdxf")
    _, folder = solved
    drawing = ezdxf.readfile(pitplan.write_export(folder, "dxf", 1.0, silent))
    blocks = pd.read_csv(folder / "tables/blocks.csv")
    mined = blocks[(blocks["revenue_factor"] > 0.0) & (blocks["revenue_factor"] <= 1.0)]
    areas = {}
    for line in drawing.modelspace().query("POLYLINE"):
        points = np.array([vertex.dxf.location for vertex in line.vertices])
        x, y = points[:, 0], points[:, 1]
        at = (line.dxf.layer, points[0, 2])
        areas[at] = areas.get(at, 0) + (x * np.roll(y, -1) - np.roll(x, -1) * y).sum() / 2
    expected = {z: 100.0 * len(level) for z, level in mined.groupby("z")}
    toes = {(f"TOE_{z - 5:g}", z - 5): area for z, area in expected.items()}
    assert areas == toes | {(f"CREST_{z - 5:g}", z + 5): area for z, area in expected.items()}


@pytest.mark.parametrize("seed", range(20))
def test_rings_go_round_exactly_the_cells(seed):
    mask = np.random.default_rng(seed).random((7, 9)) < 0.5
    area = 0.0
    for ring in cell_outlines.rings(mask):
        x, y = np.array(ring).T
        area += (x * np.roll(y, -1) - np.roll(x, -1) * y).sum() / 2
        steps = np.abs(np.diff(np.array([*ring, ring[0]]), axis=0))
        assert ((steps == 0).sum(axis=1) == 1).all()
    assert area == mask.sum()


@pytest.mark.parametrize("seed", range(5))
def test_rings_have_a_point_at_each_corner_and_at_no_other(seed):
    """A corner is where one or three of the four cells round a point are there, and two where two cells touch at it alone."""
    mask = np.random.default_rng(seed).random((7, 9)) < 0.5
    padded = np.pad(mask, 1).astype(int)
    round_it = [padded[i : i + 8, j : j + 10] for i in (0, 1) for j in (0, 1)]
    count = sum(round_it)
    touching = (count == 2) & (round_it[0] == round_it[3])
    corners = [(x, y) for y, x in np.argwhere(count % 2 == 1)] + 2 * [(x, y) for y, x in np.argwhere(touching)]
    assert sorted(tuple(map(int, point)) for ring in cell_outlines.rings(mask) for point in ring) == sorted(corners)


def test_the_planners_own_table_is_never_written_over(plan_folder):
    path = plan_folder(rows(4, 4, 3, **ORE))
    (path.parent / "tables").mkdir()
    (path.parent / "blocks.csv").rename(path.parent / "tables/blocks.csv")
    path.write_text(path.read_text().replace('file = "blocks.csv"', 'file = "tables/blocks.csv"'))
    before = files_in(path.parent)
    for command in (write_plan, pitplan.write_shells):
        with pytest.raises(PlanError, match="blocks.csv: the run would overwrite it: give another folder with --out"):
            command(load(path), path.parent, silent)
    assert files_in(path.parent) == before


@pytest.mark.parametrize(
    "module, limit, words",
    [
        (
            "economics.block_values",
            "MOST_BLOCKS",
            "144 blocks and 3 processing nodes are 147 nodes, and the solver takes at most 100",
        ),
        ("plan", "MOST_PAIRS", "precedences, and the solver takes at most 100: reduce"),
        ("report.viewer3d", "MOST_FACTORS", "the 3D page can show 2 shells, and there are 3: reduce revenue_factors"),
    ],
)
def test_what_is_above_a_limit_is_refused(plan_folder, monkeypatch, solved, module, limit, words):
    monkeypatch.setattr(f"pitplan.{module}.{limit}", 2 if "viewer" in module else 100)
    path = plan_folder(rows(6, 6, 4, **ORE))
    with pytest.raises(PlanError, match=words):
        pitplan.view(solved[1], silent) if "viewer" in module else write_plan(load(path), path.parent / "out", silent)


def test_levels_that_were_chosen_are_named_where_their_needs_are_too_many(plan_folder, monkeypatch):
    monkeypatch.setattr("pitplan.plan.MOST_PAIRS", 100)
    path = plan_folder(
        rows(6, 6, 4, **ORE), PROJECT, ("precedence_benches = 3\n", ""), ('pattern = "1:5"', "angle = 30")
    )
    words = (
        r"precedences, and the solver takes at most 100: set \[slopes\] precedence_benches below the 7 that were chosen"
    )
    with pytest.raises(PlanError, match=words):
        write_plan(load(path), path.parent / "out", silent)


def test_nothing_half_written_stays(plan_folder, monkeypatch):
    project = load(plan_folder(rows(4, 4, 3, **ORE)))
    monkeypatch.setattr(
        mine_files, "write_prec", lambda *_: (_ for _ in ()).throw(OSError(28, "No space left on device"))
    )
    with pytest.raises(PlanError, match="cannot be written: No space left on device"):
        write_plan(project, project.folder, silent)
    assert not project.folder.exists()


def test_a_failed_run_leaves_the_earlier_one(solved, monkeypatch):
    project, folder = solved
    before = files_in(folder)
    monkeypatch.setattr(drawing, "draw", lambda *_: (_ for _ in ()).throw(PlanError("no pictures")))
    with pytest.raises(PlanError, match="no pictures"):
        pitplan.write_shells(project, folder)
    assert files_in(folder) == before


def test_missing_libraries_are_named_with_their_packages(monkeypatch, tmp_path):
    for module, package in (("vtk", "python3-vtk9"), ("ezdxf", "python3-ezdxf")):
        monkeypatch.setitem(sys.modules, module, None)
        with pytest.raises(PlanError, match=f"export needs the Debian package {package}: apt-get install {package}"):
            libraries.load(module, package, "export")
    with pytest.raises(PlanError, match="the 3D page needs the Debian package libjs-three"):
        libraries.three_scripts(tmp_path)


def test_a_missing_program_is_named(monkeypatch):
    monkeypatch.setenv("PITSHELL", "/nowhere/pitshell")
    with pytest.raises(PlanError, match="/nowhere/pitshell: is not an executable program: set PITSHELL to another"):
        program.program()


def test_a_refusal_of_the_program_is_passed_on(tmp_path):
    (tmp_path / "mine.blocks").write_text("0 0 0 0 1 x\n")
    (tmp_path / "mine.prec").write_text("")
    with pytest.raises(PlanError, match="pitshell shells ended with status 1: error 6: not a decimal in blocks line 1"):
        program.solve_files(tmp_path / "mine.blocks", tmp_path / "mine.prec", (1.0,))


def ending_program(tmp_path, monkeypatch, how):
    """A program that says a word on either output and ends as it is told."""
    script = tmp_path / "ending"
    script.write_text(f"#!/bin/sh\necho an answer\necho some words >&2\n{how}\n")
    script.chmod(0o755)
    monkeypatch.setenv("PITSHELL", str(script))


@pytest.mark.parametrize(
    ("how", "kind", "status", "said"),
    [
        ("exit 1", ProgramError, 1, "pitshell solve ended with status 1: some words"),
        ("exit 3", BudgetUsedUp, 3, "pitshell solve: some words"),
        ("exit 4", ProgramError, 4, "pitshell solve ended with status 4: some words"),
        ("kill -9 $$", ProgramError, -9, "pitshell solve was ended by signal 9: some words"),
        ("kill -15 $$", ProgramError, -15, "pitshell solve was ended by signal 15: some words"),
    ],
)
def test_how_the_program_ended_is_told(tmp_path, monkeypatch, how, kind, status, said):
    ending_program(tmp_path, monkeypatch, how)
    with pytest.raises(ProgramError) as ended:
        program.call("solve", "--model", tmp_path)
    assert (type(ended.value), ended.value.status, str(ended.value)) == (kind, status, said)


def test_a_status_that_is_fine_gives_the_answer(tmp_path, monkeypatch):
    for status in (0, 4):
        ending_program(tmp_path, monkeypatch, f"exit {status}")
        assert program.call("check", fine=(0, 4)) == b"an answer\n"


def test_amounts_are_written_to_a_thousandth_and_nothing_has_no_minus():
    table = pd.DataFrame(
        {"cash_flow": [-0.0004, -0.0006, 1234.5678], "head_grade_copper": [0.1234567, 1e-7, -1e-9], "year": [1, 2, 3]}
    )
    written = shown(table.assign(value_at_revenue_factor=[Decimal("1E+3"), Decimal("-0.5"), Decimal(7)])).to_csv(
        index=False
    )
    assert written.splitlines()[1:] == ["0.0,0.123457,1,1000", "-0.001,0.0,2,-0.5", "1234.568,0.0,3,7"]


def test_the_share_below_a_bound_is_that_of_the_value_and_the_bound_that_are_told():
    """By hand: (5 + 500) / 5, (0.033 - 0.032) / 0.033, nothing of a bound that is told as 0, and nothing known without one."""
    ways = {
        "npv": [-500.0004, 0.0324, 0.0001, 7.0],
        "upper_bound": [5.0004, 0.0334, 0.0003, np.nan],
        "optimality_gap": [100.99, 0.0299, 0.67, np.nan],
    }
    assert shown(pd.DataFrame(ways))["optimality_gap"].fillna(-1).tolist() == [101.0, 0.03030303, 0.0, -1]


def test_the_command_line_tells_table_steps_and_warnings(solved_once):
    lines = solved_once.out.splitlines()
    assert lines[0].split()[:3] == ["revenue", "factor", "blocks"]
    assert [line.split()[0] for line in lines[2:5]] == ["0.50", "1.00", "1.50"]
    assert lines[-1] == str(solved_once.place / "plan" / "report.html")
    by = read_record(solved_once.place / "plan")["shells"]["solver"]["by"]
    precedences = {"library": "listing precedences", "program": "writing blocks and precedences"}[by]
    steps = [
        "reading",
        "building slope precedences",
        precedences,
        f"solving 3 revenue factors by the {by}",
        "verifying",
    ]
    assert all(f"{step}" in solved_once.err for step in steps)
    assert "WARNING: the largest shell reaches the north side of the block model" in solved_once.err
    assert (
        "3 potential ore blocks have a processing node; the cut-off is re-evaluated at every revenue factor"
        in solved_once.err
    )
    assert "blocks cannot be in any shell up to revenue factor 1.50; their precedences were omitted" in solved_once.err


def test_the_command_line_exports_in_silence(solved, capsys):
    project, folder = solved
    assert main(["export", str(folder), "--to", "csv", "--quiet"]) == 0
    said = capsys.readouterr()
    assert said.err == "" and said.out == f"{folder / 'pit.csv'}\n"


def test_the_command_line_writes_a_page_and_an_audit(solved, capsys):
    project, folder = solved
    assert main(["view", str(folder), "--quiet"]) == 0
    assert main(["audit", str(folder), "--revenue-factor", "0.50", "--quiet"]) == 0
    said = capsys.readouterr()
    assert (said.out, said.err) == (f"{folder / 'view.html'}\n{folder / 'audit-0.50'}\n", "")
    assert (folder / "view.html").is_file() and json.loads((folder / "audit-0.50" / "audit.json").read_text())[
        "revenue_factor"
    ] == 0.5


def test_an_audit_by_another_release_is_warned_of_with_quiet_and_in_python(solved, capsys):
    project, folder = solved
    record = json.loads((folder / "plan.json").read_text())
    record["shells"]["solver"]["version"] = "libpitshell 0.0.7"
    write_json(folder / "plan.json", record)
    path = pitplan.audit(folder, 0.5)
    assert path == folder / "audit-0.50"
    assert [*path.notes] == [
        f"WARNING: libpitshell 0.0.7 found the shells, and {program.identity()['version']} audited them"
    ]
    assert main(["audit", str(folder), "--revenue-factor", "0.50", "--quiet"]) == 0
    assert capsys.readouterr().err.splitlines() == [*path.notes]


def test_a_folder_with_another_record_is_no_plan(solved):
    (solved[1] / "plan.json").write_text("{}")
    with pytest.raises(PlanError, match="plan.json: title: is missing: run pitplan shells again"):
        read_folder(solved[1])


def test_the_command_line_refuses_in_one_sentence(plan_folder, capsys):
    path = plan_folder(rows(3, 3, 3), PROJECT, ("mining_cost = 2", "mining_cost = -2"))
    assert main(["prepare", str(path)]) == 1
    assert capsys.readouterr().err == f"pitplan: {path}:11: [economics] mining_cost: found -2, expected 0 or more\n"


@pytest.mark.parametrize(
    ("asked", "status", "said"), [(signal.SIGINT, 130, "pitplan: interrupted"), (signal.SIGTERM, 143, "")]
)
def test_a_run_that_is_ended_says_so_in_one_line_and_leaves_nothing(plan_folder, tmp_path, asked, status, said):
    """While a program runs that never ends."""
    slow = tmp_path / "slow"
    slow.write_text(f"#!/bin/sh\n[ $1 = --version ] && exit 0\ntouch {tmp_path}/began\nexec sleep 60\n")
    slow.chmod(0o755)
    path = plan_folder(rows(4, 4, 3, **ORE))
    words = [str(ROOT / "tools" / "pitplan"), "shells", str(path), "--quiet", "--no-figures"]
    # A job that a shell has put behind ignores SIGINT, and so would what it starts.
    heeding = {"preexec_fn": lambda: signal.signal(signal.SIGINT, signal.SIG_DFL)}
    ran = subprocess.Popen(
        words, env={**os.environ, "PITSHELL": str(slow)}, stderr=subprocess.PIPE, text=True, **heeding
    )
    for _ in range(600):
        if (tmp_path / "began").exists():
            break
        time.sleep(0.05)
    ran.send_signal(asked)
    _, err = ran.communicate(timeout=30)
    assert (ran.returncode, err.strip()) == (status, said)
    assert not (path.parent / "plan").exists()


def test_the_script_runs_by_itself(plan_folder):
    path = plan_folder(rows(4, 4, 3, **ORE))
    ran = subprocess.run(
        [str(ROOT / "tools" / "pitplan"), "prepare", str(path)], capture_output=True, text=True, check=True
    )
    assert ran.stdout.strip() == str(path.parent / "plan") and "reading" in ran.stderr


@pytest.mark.slow
def test_a_notebook_keeps_its_backend_and_sees_no_figure(solved):
    """By an interpreter of its own, in which pyplot is set up first."""
    text = f"""
import matplotlib; matplotlib.use("svg")
import matplotlib.pyplot as plt
import pitplan
project = pitplan.load({str(solved[0].path)!r})
pitplan.write_shells(project, project.folder, writing=pitplan.Writing(verifies=False, workbook=False))
assert matplotlib.get_backend() == "svg" and plt.get_fignums() == [], (matplotlib.get_backend(), plt.get_fignums())
"""
    subprocess.run([sys.executable, "-c", text], check=True, env={**os.environ, "PYTHONPATH": str(ROOT / "python")})


def test_the_version_is_the_release(capsys):
    with pytest.raises(SystemExit) as ended:
        main(["--version"])
    (version,) = capsys.readouterr().out.split()[1:]
    assert ended.value.code == 0 and f"\n## [{version}]" in (ROOT / "CHANGELOG.md").read_text()


def test_a_plan_is_shown_in_a_few_lines(plan_folder):
    import pitplan

    shown = repr(pitplan.Plan.from_project(plan_folder(rows(4, 4, 3, **ORE))))
    assert len(shown.splitlines()) <= 10 and max(map(len, shown.splitlines())) < 160
    assert "48 blocks of 10 x 10 x 10 m on a grid of 4 x 4 x 3" in shown


def test_image_data_is_xml_with_raw_arrays(solved):
    pytest.importorskip("vtk")
    _, folder = solved
    text = pitplan.write_export(folder, "vti", 1.0, silent).read_bytes()
    assert text.startswith(b"<?xml") or text.startswith(b"<VTKFile")
    assert xml.fromstring(text.split(b"<AppendedData")[0] + b"</VTKFile>").attrib["type"] == "ImageData"


def test_serve_names_all_packages_that_it_lacks(monkeypatch, capsys, tmp_path):
    for name in ("starlette", "uvicorn"):
        monkeypatch.setitem(sys.modules, name, None)
    assert main(["serve", str(tmp_path), "--no-browser"]) == 1
    packages = ("python3-starlette and python3-uvicorn", "apt-get install python3-starlette python3-uvicorn")
    assert capsys.readouterr().err == f"pitplan: pitplan serve needs the Debian packages {packages[0]}: {packages[1]}\n"

"""Runs with figures and without: what is drawn, what the record says, and that no figure of other results stays behind."""

import json
from contextlib import nullcontext

import pytest
from conftest import PROJECT, files_in, rows
from helpers.blank_figures import blank_figures
from helpers.writings import UNVERIFIED

import pitplan
from pitplan import Writing
from pitplan.cli import main
from pitplan.commands import writing
from pitplan.commands.writing import BLOCK_PICTURES, FIGURES, PUSHBACK_PICTURES, SCHEDULE_PICTURES

# The project has rock types.
PICTURES = writing.PICTURES | writing.GEOLOGY_PICTURES
ORE = {"cu": lambda i, j, k: 6 * ((i, j, k) == (2, 2, 1)), "cu2": lambda i, j, k: 3 * ((i, j, k) == (2, 2, 1))}
MORE = """[pushbacks]
count = 1
[schedule]
mining_capacity = 2000
[sensitivity]
changes = [0.1]
parameters = ["price", "mining_cost"]
pairs = [["price", "mining_cost"]]
[scenarios]
columns = { copper = ["cu", "cu2"] }
"""
ONCE = Writing(verifies=False)
BARE = Writing(verifies=False, figures=False)


@pytest.fixture
def mine(plan_folder):
    return plan_folder(rows(5, 5, 3, **ORE), PROJECT + MORE)


def figures_in(folder):
    return {name for name in files_in(folder) if name.endswith((".png", ".svg", ".pdf"))}


@pytest.mark.slow
@pytest.mark.parametrize(
    ("command", "name", "drawn", "headings"),
    [
        (pitplan.write_shells, "", PICTURES, []),
        (
            pitplan.write_schedule,
            "schedule",
            PICTURES | PUSHBACK_PICTURES | SCHEDULE_PICTURES,
            ["Grade and tonnage"],
        ),
        (pitplan.write_block_schedule, "block_schedule", PICTURES | BLOCK_PICTURES, []),
    ],
)
def test_a_run_without_figures_removes_those_of_an_earlier_run(mine, command, name, drawn, headings):
    """The figures of shells are drawn with the schedule of pushbacks."""
    folder = mine.parent / "plan" / name
    with nullcontext() if name == "schedule" else blank_figures("write"):
        first = command(mine, writing=ONCE)
    page, record = (folder / "report.html").read_text(), json.loads((folder / "plan.json").read_text())
    assert figures_in(folder) == {*drawn.values()} < {*record["files"]} and record["figures"] is True
    assert page.count("data:image/png") == len(drawn)
    assert all((folder / figure).read_bytes().startswith(b"\x89PNG") for figure in drawn.values())
    assert all(f"<h2>{heading}</h2>" in page for heading in ["Plans and sections", *headings])
    second = command(mine, writing=BARE)
    page, record = (folder / "report.html").read_text(), json.loads((folder / "plan.json").read_text())
    assert figures_in(folder) == set() and record["figures"] is False and not {*FIGURES} & {*record["files"]}
    assert "<img" not in page and "<h2>Key results</h2>" in page
    assert not any(f"<h2>{heading}</h2>" in page for heading in ["Plans and sections", *headings])
    assert first.to_csv() == second.to_csv()


def test_a_run_without_workbook_and_report_removes_those_of_an_earlier_run(mine):
    folder, names = mine.parent / "plan" / "schedule", {"tables/schedule.xlsx", "report.html"}
    pitplan.write_schedule(mine, writing=BARE)
    before = files_in(folder)
    assert names < {*before} and "tables/schedule.xlsx" in json.loads((folder / "plan.json").read_text())["files"]
    pitplan.write_schedule(mine, writing=UNVERIFIED)
    after = files_in(folder)
    assert {*after} == {*before} - names and after["tables/schedule.csv"] == before["tables/schedule.csv"]
    assert "tables/schedule.xlsx" not in json.loads((folder / "plan.json").read_text())["files"]


def test_figures_of_other_formats_are_removed_too(mine, with_blank_figures):
    mine.write_text(mine.read_text() + '[figures]\nformats = ["svg"]\n')
    pitplan.write_shells(mine, writing=ONCE)
    folder = mine.parent / "plan"
    assert len(figures_in(folder)) == 2 * len(PICTURES)
    (folder / "map.png").touch()
    pitplan.write_shells(mine, writing=BARE)
    assert figures_in(folder) == {"map.png"}, "a picture that no run draws stays"


def test_a_sensitivity_without_figures(mine):
    folder = mine.parent / "plan" / "sensitivity"
    pitplan.write_sensitivity(mine, writing=ONCE)
    assert figures_in(folder) == {"figures/tornado.png", "figures/spider.png", "figures/grid-price-mining_cost.png"}
    assert json.loads((folder / "sensitivity.json").read_text())["figures"] is True
    pitplan.write_shells(mine, writing=BARE)
    assert (mine.parent / "plan" / "report.html").read_text().count(
        "<img"
    ) == 1, "the tornado, which the sensitivity has drawn"
    (folder / "grid-map.png").touch()
    pitplan.write_sensitivity(mine, writing=BARE)
    assert (
        figures_in(folder) == {"grid-map.png"}
        and json.loads((folder / "sensitivity.json").read_text())["figures"] is False
    )
    page = pitplan.write_report(mine.parent / "plan").read_text()
    assert "<img" not in page and "tables/sensitivity.csv" in page


@pytest.mark.slow
@pytest.mark.parametrize(
    ("by", "names"),
    [
        ("pit", {"figures/probability_plans.png", "figures/probability_sections.png", "figures/spread.png"}),
        ("block", {"figures/schedule_values.png"}),
    ],
)
def test_scenarios_without_figures(mine, by, names):
    pytest.importorskip("distributed")
    result = pitplan.write_scenarios(mine, request=pitplan.Request(workers=0, by=by), writing=ONCE)
    assert figures_in(result.folder) == names
    assert all((result.folder / name).read_bytes().startswith(b"\x89PNG") for name in names)
    assert json.loads((result.folder / "gathered.json").read_text())["figures"] is True
    assert main(["gather", str(result.folder), "--no-figures", "--no-verify", "--quiet"]) == 0
    assert figures_in(result.folder) == set()
    assert json.loads((result.folder / "gathered.json").read_text())["figures"] is False


def test_no_figures_on_the_command_line(mine):
    for name in ("shells", "pushbacks", "schedule", "sensitivity"):
        assert main([name, str(mine), "--no-figures", "--no-verify", "--quiet"]) == 0
    assert not list(mine.parent.rglob("*.png"))
    assert main(["scenarios", str(mine), "--no-figures", "--on", "parallel", "--quiet"]) == 0

"""The commands of the pages for planners run on the example and on a project of `init`, and print the tables of the pages."""

import re
import shutil

import pandas as pd
import pytest
import tomllib
from conftest import ROOT
from helpers.documentation import blocks, commands

from pitplan.cli import main
from pitplan.core import paths

EXAMPLE = ROOT / "examples" / "plan"
PLANNING = ROOT / "docs" / "planning"
# Pages that print a table of the example, with the file that has its rows.
PAGES = {
    "shells": "shells.csv",
    "pushbacks": "pushbacks.csv",
    "schedules": "methods.csv",
    "block-schedules": "methods.csv",
}
# The headings of printed columns: the column of the file, and how many of its units are one of the page's.
COLUMNS = {
    "method": ("method", None),
    "pushback": ("pushback", 1),
    "revenue factor": ("revenue_factor", 1),
    "blocks": ("blocks", 1),
    "total, kt": ("tonnes", 1e3),
    "total, Mt": ("tonnes", 1e6),
    "ore, kt": ("feed_tonnes", 1e3),
    "ore, Mt": ("feed_tonnes", 1e6),
    "strip ratio": ("strip_ratio", 1),
    "copper, %": ("head_grade_copper", 1),
    "undiscounted cash flow, M USD": ("undiscounted_cash_flow", 1e6),
    "NPV best": ("npv_best", 1e6),
    "NPV worst": ("npv_worst", 1e6),
    "NPV, M USD": ("npv", 1e6),
    "upper bound, M USD": ("upper_bound", 1e6),
    "gap, %": ("optimality_gap", 0.01),
    "years": ("years", 1),
}


def page(name: str) -> str:
    return (PLANNING / f"{name}.md").read_text(encoding="utf-8")


def first_block(name: str) -> str:
    """The first block of TOML of a page."""
    return next(block.text for block in blocks(page(name)) if block.language == "toml")


def with_block(project: str, block: str) -> str:
    """The text of a project in which the sections of a block take the places of its own."""
    for section in tomllib.loads(block):
        project = re.sub(rf"^\[+{section}(?:\.[\w.]+)?\]+\n(?:(?!\[).*\n)*", "", project, flags=re.MULTILINE)
    return f"{project}\n{block}"


def printed(name: str) -> list[dict[str, str]]:
    """The rows of the first table of a page whose headings are all known."""
    for table in re.findall(r"(?:^\|.*\|\n)+", page(name), re.MULTILINE):
        heads, _, *rows = ([cell.strip() for cell in line.strip("|\n ").split("|")] for line in table.splitlines())
        if set(heads) <= set(COLUMNS):
            return [dict(zip(heads, row)) for row in rows]
    raise AssertionError(f"{name}: no table of the example")


@pytest.fixture
def example(tmp_path, monkeypatch):
    """A copy of the example, which is the working folder."""
    monkeypatch.chdir(shutil.copytree(EXAMPLE, tmp_path / "plan"))
    return tmp_path / "plan"


def command_of(name: str) -> list[str]:
    """The first command of a page that runs a project, without its output folder."""
    found = [words for block in blocks(page(name)) if block.language in ("sh", "") for words in commands(block.text)]
    words = next(it for it in found if any(word.endswith("project.toml") for word in it))
    del words[words.index("--out") :]
    return ["project.toml" if word.endswith("project.toml") else word for word in words]


@pytest.mark.parametrize("name", PAGES)
def test_the_first_block_of_a_page_makes_its_table(name, example):
    """The block takes the place of the example's own sections, and the command of the page runs on it."""
    project = example / "project.toml"
    project.write_text(with_block(project.read_text(), first_block(name)))
    assert main([*command_of(name), "--out", "out", "--quiet", "--no-figures", "--no-verify"]) == 0
    file = pd.read_csv(example / "out" / "tables" / PAGES[name])
    rows = printed(name)
    key, unit = COLUMNS[next(iter(rows[0]))]
    if key in ("revenue_factor", "pushback", "method"):
        wanted = [row[next(iter(row))] if unit is None else float(row[next(iter(row))]) for row in rows]
        file = file.set_index(key, drop=False).loc[wanted]
    assert len(file) == len(rows)
    for row, (_, due) in zip(rows, file.iterrows()):
        for head, cell in row.items():
            column, unit = COLUMNS[head]
            places = len(cell.partition(".")[2])
            assert cell == (due[column] if unit is None else f"{due[column] / unit:,.{places}f}"), (head, row)


def test_the_command_of_readme_prints_what_it_shows(example, capsys):
    command, shown, *_ = blocks((ROOT / "README.md").read_text(encoding="utf-8"))
    assert command.text.strip() == "pitplan shells examples/plan/project.toml --out build/plan"
    assert main(["shells", "--out", "build/plan", "--quiet", "--no-figures", "--no-verify"]) == 0
    assert capsys.readouterr().out.splitlines()[-2:] == shown.text.splitlines()


@pytest.mark.parametrize("name", ["pushbacks", "schedules"])
def test_the_example_has_the_first_block_of_the_page(name):
    project = tomllib.loads((EXAMPLE / "project.toml").read_text(encoding="utf-8"))
    for section, keys in tomllib.loads(first_block(name)).items():
        assert project[section] == keys


COMMANDS = ("shells", "pushbacks", "schedule", "schedule --certificate", "schedule --by block", "sensitivity")
# One case of a sensitivity in place of 28.
FEWER = {"sensitivity": ["--set", "sensitivity.changes=[-0.2]", "--set", 'sensitivity.parameters=["price"]']}


@pytest.mark.slow
@pytest.mark.parametrize("command", COMMANDS)
@pytest.mark.parametrize("of", ["example", "init"])
def test_every_command_of_the_pages_runs(of, command, example):
    if "--certificate" in command and paths.schedule_program() is None:
        pytest.skip("needs pitschedule: make builds it")
    if of == "init":
        assert main(["init", "blocks.csv", "--replace"]) == 0
    words = [*command.split(), "project.toml", "--out", "out", *FEWER.get(command, [])]
    assert main([*words, "--quiet", "--no-figures", "--no-verify"]) == 0
    assert any((example / "out" / "tables").iterdir())

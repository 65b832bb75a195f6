"""What import pitplan gives: each subcommand as a function, with paths, frames and rules, of a small mine."""

import base64
import importlib.util
import inspect
import io
import json
import re
import sys
import typing
from decimal import Decimal

import numpy as np
import pandas as pd
import pytest
from conftest import ROOT
from helpers.constraints import FIXED_SECTION, ores_and_fixed, with_section
from helpers.scenarios import COLUMNS, PRICES, UPRIGHT, pillar
from helpers.writings import PLAIN, REPORTED, UNVERIFIED, UNVERIFIED_REPORT
from matplotlib import image
from matplotlib.figure import Figure

import pitplan
import pitplan.figures.scenarios  # as help(pitplan) says
from pitplan import PlanError, Request

sys.path.insert(0, str(ROOT / "tools"))
import run_notebooks  # after the line above

# The lines that the package's own help shows.
LINES = "\n".join(re.findall(r"^    (.+)$", pitplan.__doc__ or "", re.MULTILINE))
FUNCTIONS = [name for name in pitplan.__all__ if inspect.isfunction(getattr(pitplan, name))]


def test_no_function_hides_a_module():
    """A module of the name would take the function's place as soon as something imports it."""
    assert {"write_pit", "write_pushbacks", "view", "write_export", "audit", "write_scenarios", "verify"} < set(
        FUNCTIONS
    )
    assert [name for name in pitplan.__all__ if importlib.util.find_spec(f"pitplan.{name}")] == []


@pytest.mark.parametrize("name", FUNCTIONS)
def test_each_function_has_types_and_says_what_it_gives(name):
    function = getattr(pitplan, name)
    hints = typing.get_type_hints(function)
    assert set(hints) == {*inspect.signature(function).parameters, "return"}
    assert len(hints) <= 6 and function.__doc__


@pytest.fixture
def plan(plan_folder):
    return plan_folder(ores_and_fixed(), with_section(FIXED_SECTION))


def test_shells_are_written_and_given_as_a_frame(plan):
    table = pitplan.write_shells(plan, writing=REPORTED)
    # The ore of 6 % is mined from 0.5 on, with three blocks above it; the block at the floor that must be dug needs the two above it.
    assert table["revenue_factor"].tolist() == [0.5, 1.0, 1.5]
    assert table["value_at_revenue_factor"].tolist() == [
        Decimal(12_000 - 1000 - 800 - 600),
        Decimal(24_000 + 2000 - 2000 - 1600 - 200),
        Decimal(36_000 + 3000 - 3800),
    ]
    assert (plan.parent / "plan" / "report.html").exists()
    again = pitplan.write_shells(str(plan), str(plan.parent / "other"), writing=UNVERIFIED_REPORT)
    pd.testing.assert_frame_equal(again, table)
    assert "were not verified" in (plan.parent / "other" / "report.html").read_text()


def test_a_page_exports_and_a_folder_for_auditors_are_told_by_their_paths(solved):
    folder = solved[1]
    assert pitplan.view(str(folder)) == folder / "view.html"
    assert pitplan.write_export(folder, "csv") == folder / "pit.csv"
    blocks = pd.read_csv(folder / "tables/blocks.csv")
    assert len(pd.read_csv(folder / "pit.csv")) == (blocks["revenue_factor"] > 0.0).sum()
    assert pitplan.write_export(folder, "dxf", 0.5) == folder / "pit-0.50.dxf"
    assert (pitplan.audit(folder, 0.5) / "check.sh").exists()


@pytest.mark.parametrize(
    ("call", "said"),
    [
        (
            lambda folder: pitplan.write_export(folder, "dwg"),
            "dwg: is not a format, expected one of table, csv, xlsx, vti, vtu, omf, dm, dxf, stl, obj, gpkg, str, lines",
        ),
        (
            lambda folder: pitplan.write_export(folder, "dxf", 0.9),
            "revenue factor 0.90 is not among the revenue factors 0.50, 1.00, 1.50",
        ),
        (
            lambda folder: pitplan.audit(folder, 0.9),
            "revenue factor 0.90 is not among the revenue factors 0.50, 1.00, 1.50",
        ),
        (
            lambda folder: pitplan.view(folder / "nowhere"),
            "nowhere: not found, expected the output folder of a plan: give the folder that pitplan shells wrote",
        ),
        (
            lambda folder: pitplan.verify(folder / "nowhere"),
            "nowhere/plan.json: cannot be read: run pitplan shells first",
        ),
        (
            lambda folder: pitplan.gather(folder, writing=PLAIN),
            "scenarios.json: cannot be read: run pitplan scenarios first",
        ),
        (
            lambda folder: pitplan.write_scenarios(folder.parent / "project.toml", writing=PLAIN),
            r"\[scenarios\] is missing",
        ),
        (
            lambda folder: pitplan.write_pit(folder.parent / "project.toml", writing=PLAIN),
            r"\[constraints\] is missing",
        ),
    ],
)
def test_what_cannot_be_is_refused_in_words(solved, call, said):
    with pytest.raises(PlanError, match=said):
        call(solved[1])


def test_a_verified_folder_is_told_rule_by_rule(solved):
    rules = pitplan.verify(solved[1])
    assert all(
        isinstance(rule, pitplan.Rule) and rule.holds and rule.differences == () and rule.count == 0 for rule in rules
    )
    path = solved[1] / "tables/shells.csv"
    table = pd.read_csv(path, dtype=str)
    right = float(table["waste_tonnes"][0])
    table.assign(waste_tonnes=[right + 1, *table["waste_tonnes"][1:]]).to_csv(path, index=False)
    found = {rule.name: rule.differences for rule in pitplan.verify(solved[1]) if rule.count}
    assert found == {"shells": (f"revenue factor 0.50: waste_tonnes {right + 1:g} for {right:g}",)}


def test_a_pit_with_fixed_blocks_and_without_them(plan):
    table = pitplan.write_pit(plan, 0.5, writing=PLAIN)
    assert table["fixed_blocks"].tolist() == ["kept", "free"] and table["revenue_factor"].tolist() == [0.5, 0.5]
    assert (table["value_at_revenue_factor"][1] - table["value_at_revenue_factor"][0]) == 600
    assert (plan.parent / "plan" / "pit" / "tables/pits.csv").exists()


def test_scenarios_are_given_as_frames(plan_folder):
    """Three blocks above each other: at 8000 a tonne one of three models pays at 0.5 and 1.0, at 12,000 two do at 1.0."""
    pytest.importorskip("distributed", reason="needs the Debian package python3-distributed")
    path = plan_folder(pillar(), PRICES, UPRIGHT)
    found = pitplan.write_scenarios(path, request=Request(workers=0), writing=UNVERIFIED)
    assert found.folder == path.parent / "plan" / "scenarios" and found.start is None
    assert "6 solved (status 0)" in found.notes
    assert found.probability["probability_1.00"].tolist() == [0.5] * 3
    assert found.table["value_at_revenue_factor"].tolist()[:3] == [Decimal(1400), Decimal(4400), Decimal(7400)]
    assert found.quantiles.set_index(["price_copper", "revenue_factor"])["tonnes_greatest"][8000, 0.5] == 300
    assert [rule.count for rule in pitplan.verify(found.folder)] == [0] * 10
    likely = found.likely(0.5)
    assert (likely.factor, likely.count, likely.shown.ravel().tolist()) == (
        0.5,
        6,
        [pytest.approx(1 / 3, abs=1e-6)] * 3,
    )
    axes = Figure().subplots(2)
    left, right = pitplan.figures.scenarios.plot_spread(found.table, "USD", axes)
    # At 8000 and at revenue factor 0.50 one of three models is worth 1400, so that the median is 0; at 12,000 it is worth 2900.
    assert [line.get_ydata()[0] for line in right.lines] == [0, 0] and [line.get_ydata()[2] for line in left.lines] == [
        300,
        300,
    ]
    with pytest.raises(PlanError, match="probability.csv: has no revenue factor 0.90"):
        found.likely(0.9)


def test_the_notebook_from_a_frame_to_a_schedule_runs(monkeypatch):
    """examples/schedule.ipynb: each block of the pushbacks is dug once, within the limits of the project, and no way is above the bound."""
    monkeypatch.chdir(ROOT / "examples")
    cells = json.loads((ROOT / "examples" / "schedule.ipynb").read_text())["cells"]
    code = ["".join(cell["source"]) for cell in cells if cell["cell_type"] == "code"]
    names: dict = {}
    for text in code:
        exec(text, names)
    assert (
        sum(bool(line) and not line.startswith(("#", "import", "from")) for text in code for line in text.split("\n"))
        <= 20
    )
    given = pd.read_csv("plan/blocks.csv").set_index("id")
    blocks = names["plan"].blocks.set_index("planner_id")
    assert blocks["cu_pct"].to_numpy() == pytest.approx(0.9 * given["cu_pct"][blocks.index].to_numpy())
    inside = names["pushbacks"].pushback[blocks["id"]] > 0
    ways = names["schedule"].methods
    assert (ways["tonnes"] + ways["unmined_tonnes"]).tolist() == pytest.approx(
        [given["tonnes"][blocks.index[inside]].sum()] * len(ways)
    )
    years = names["schedule"].years
    assert (years["feed_tonnes"] <= 800_000 * (1 + 1e-9)).all() and (
        years["total_tonnes"] <= 2_000_000 * (1 + 1e-9)
    ).all()
    assert (ways["optimality_gap"] >= 0).all() and len(names["figure"].axes) == len(ways) >= 1


def texts_and_pictures(outputs):
    """The outputs of a cell as texts by their types, and its pictures as arrays."""
    texts, pictures = [], []
    for output in outputs:
        data = {kind: "".join(value) for kind, value in output.get("data", {}).items()}
        if png := data.pop("image/png", None):
            pictures.append(image.imread(io.BytesIO(base64.b64decode(png))))
        texts.append((output["output_type"], data, "".join(output.get("text", []))))
    return texts, pictures


@pytest.mark.parametrize("name", ["arrays", "schedule"])
def test_the_outputs_in_a_notebook_are_those_of_a_run(monkeypatch, name):
    monkeypatch.chdir(ROOT / "examples")
    cells = json.loads((ROOT / "examples" / f"{name}.ipynb").read_text(encoding="utf-8"))["cells"]
    count = 0
    for cell, outputs in zip(cells, run_notebooks.outputs_of(cells)):
        (texts, pictures), (stored, drawn) = texts_and_pictures(outputs), texts_and_pictures(cell.get("outputs", []))
        assert stored == texts, "run tools/run_notebooks.py"
        assert [it.shape for it in drawn] == [it.shape for it in pictures]
        assert all(np.abs(one - other).mean() < 0.01 for one, other in zip(drawn, pictures))
        count += len(stored)
    assert count >= 4 and bool(pictures) == (name == "schedule")


def test_lists_of_jobs_are_told_by_what_to_start(plan_folder):
    path = plan_folder(pillar(), COLUMNS, UPRIGHT)
    found = pitplan.write_scenarios(path, path.parent / "many", Request("parallel"), writing=PLAIN)
    assert found.start == path.parent / "many" / "start.sh"
    with pytest.raises(PlanError, match="probability.csv: cannot be read: run pitplan scenarios or gather first"):
        found.probability
    with pytest.raises(PlanError, match="3 of 3 scenarios have no result"):
        pitplan.gather(found.folder, writing=PLAIN)


@pytest.mark.slow
def test_the_lines_of_the_help_run(plan_folder, monkeypatch):
    """In a folder whose project has fixed blocks, pushbacks, scenarios and the help's factor, and another run of it. Nothing is drawn."""
    pytest.importorskip("distributed", reason="needs the Debian package python3-distributed")
    table = ores_and_fixed().assign(sim_1=lambda it: it["cu"], sim_2=lambda it: it["cu"] / 2)
    more = '[pushbacks]\nrevenue_factors = [0.5, 1.0]\n[scenarios]\ncolumns = { copper = "sim_*" }\n'
    text = with_section(FIXED_SECTION + more).replace("[0.5, 1.0, 1.5]", "[0.5, 0.8, 1.0]")
    path = plan_folder(table, text)
    monkeypatch.chdir(path.parent)
    pitplan.write_shells("project.toml", "other", writing=PLAIN)
    names, text = {"PLAIN": PLAIN}, LINES.replace('Request(by="block")', 'Request(workers=0, by="block")')
    alone = 'write_scenarios("project.toml")'
    assert text.count(alone) == 1
    text = text.replace(alone, f"{alone[:-1]}, request=pitplan.Request(workers=0))")
    writes = r"(pitplan\.(?:write_(?!report|export)\w+|compare)\((?:[^()]|\([^()]*\))*)\)"
    exec(re.sub(writes, r"\1, writing=PLAIN)", text), names)
    assert names["runs"].results["run"].tolist() == ["out", "other"]
    assert names["table"]["revenue_factor"].tolist() == [0.5, 0.8, 1.0] and all(
        rule.count == 0 for rule in names["rules"]
    )
    assert (path.parent / "out" / "audit-0.80" / "check.sh").exists()
    assert names["found"].quantiles["revenue_factor"].tolist() == [0.5, 0.8, 1.0]
    assert names["each"].schedules["realisation"].tolist() == ["sim_1", "sim_2"]
    assert names["pushbacks"]["revenue_factor"].tolist() == [0.5, 1.0]

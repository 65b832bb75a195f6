"""The example against its expected table, and that table against sums over the example's own rows."""

import csv
import re
import subprocess
import sys
from collections import Counter
from dataclasses import replace
from math import isclose

import pandas as pd
import pytest
import tomllib
from conftest import ROOT

import pitplan
from pitplan.results.rounding import shown, with_discounting

EXAMPLE = ROOT / "examples" / "plan"


@pytest.fixture(scope="module")
def solved_example():
    plan = pitplan.Plan.from_project(EXAMPLE / "project.toml")
    solution = plan.shells().solution
    return plan, solution, pitplan.Shells(plan, solution).table


def test_the_program_s_own_text_is_the_expected_one():
    plan = pitplan.Plan.from_project(replace(pitplan.load(EXAMPLE / "project.toml"), solver="program"))
    assert plan.shells().solution.answer == (EXAMPLE / "expected" / "shells.txt").read_bytes()


def test_the_table_of_shells_is_the_expected_one(solved_example):
    _, _, table = solved_example
    expected = pd.read_csv(EXAMPLE / "expected" / "shells.csv", dtype={"value_at_revenue_factor": str})
    written = with_discounting(shown(table), pitplan.load(EXAMPLE / "project.toml"))
    pd.testing.assert_frame_equal(written, expected, check_dtype=False, rtol=1e-9)


def amounts_of(row, project, top):
    """Tonnes, worth of processing, and worth of mining of one row of the CSV, by the project's words alone."""
    tonnes, rock = float(row["tonnes"]), row["rock"]
    gain = -tonnes * project["economics"]["processing_cost"][rock]
    for metal in project["metals"]:
        share = {"percent": 0.01, "gram_per_tonne": 1}[metal["unit"]]
        amount = tonnes * float(row[metal["column"]]) * share * metal["recovery"][rock]
        gain += amount * (metal["price"] - metal["selling_cost"])
    level = (top - float(row["z"])) / 15
    cost = tonnes * (project["economics"]["mining_cost"] + project["economics"]["mining_cost_per_bench"] * level)
    return tonnes, gain, cost


@pytest.mark.parametrize("factor", [0.5, 0.85, 1.0])
def test_tonnes_and_worth_are_the_sums_over_the_rows(solved_example, factor):
    plan, solution, table = solved_example
    project = tomllib.loads((EXAMPLE / "project.toml").read_text())
    blocks = pitplan.Shells(plan, solution).blocks
    inside = set(blocks["planner_id"][(blocks["revenue_factor"] > 0.0) & (blocks["revenue_factor"] <= factor)])
    totals = Counter()
    with open(EXAMPLE / "blocks.csv", newline="") as file:
        rows = list(csv.DictReader(file))
    top = max(float(row["z"]) for row in rows)
    for row in rows:
        if row["id"] in inside:
            tonnes, gain, cost = amounts_of(row, project, top)
            totals["tonnes"] += tonnes
            totals["feed_tonnes"] += tonnes if gain > 0 else 0
            totals["undiscounted_cash_flow"] += max(gain, 0) - cost
    shell = table.set_index("revenue_factor").loc[factor]
    assert shell["blocks"] == len(inside)
    for name, total in totals.items():
        # Each amount is kept to the cent.
        assert isclose(shell[name], total, abs_tol=0.02 * len(inside)), name


def test_a_fixed_cutoff_digs_no_more_and_earns_no_more(solved_example):
    """At every factor the moving cut-off's pit is worth at least as much in the factor's own values."""
    plan, solution, _ = solved_example
    fixed = replace(plan.project, economics=replace(plan.project.economics, cutoff="base_price"))
    other = pitplan.Plan.from_project(fixed).shells().solution
    lost = [factor for factor in plan.project.shells.revenue_factors if other.worth[factor] < solution.worth[factor]]
    assert all(other.worth[factor] <= solution.worth[factor] for factor in plan.project.shells.revenue_factors)
    assert 0.5 in lost and 1.0 not in lost and 1.2 in lost


def test_the_large_example_prepares_a_table_of_its_own_command(tmp_path):
    """By the command that its first lines and docs/planning/getting-started.md name, with fewer columns, rows and levels."""
    text = (ROOT / "examples" / "large" / "project.toml").read_text()
    (command,) = re.findall(r"^# (tools/make_table\.py .*)$", text, re.MULTILINE)
    assert command in (ROOT / "docs" / "planning" / "getting-started.md").read_text(encoding="utf-8")
    script, *words = command.split()
    smaller = {"155": "15", "130": "13", "60": "6"}
    subprocess.run(
        [sys.executable, ROOT / script, *(smaller.get(word, word) for word in words)], cwd=tmp_path, check=True
    )
    (tmp_path / "examples" / "large").mkdir(parents=True)
    (tmp_path / "examples" / "large" / "project.toml").write_text(text)
    plan = pitplan.Plan.from_project(tmp_path / "examples" / "large" / "project.toml")
    made = (tmp_path / "build" / "large" / "blocks.csv").read_text().splitlines()
    assert len(plan.blocks) == len(made) - 1 > 900 and len(plan.project.shells.revenue_factors) == 21

"""What the pages of docs/planning say of the example, against the example."""

import json
import re
import shutil
from dataclasses import replace
from decimal import Decimal

import pytest
from conftest import ROOT
from helpers.writings import PLAIN, UNVERIFIED

import pitplan
from pitplan.cli import main
from pitplan.config.material import Stockpile
from pitplan.config.shells import PushbackRules
from pitplan.config.studies import SensitivityRules
from pitplan.scheduling.flow.tables import cutoffs
from pitplan.solver import mine_files

PAGES = {page.stem: page.read_text(encoding="utf-8") for page in (ROOT / "docs" / "planning").glob("*.md")}
EXAMPLE = ROOT / "examples" / "plan" / "project.toml"


def test_the_lines_for_a_notebook_run(tmp_path, monkeypatch):
    """In a folder of the example's files, since the last line writes there, here without figures."""
    monkeypatch.chdir(shutil.copytree(EXAMPLE.parent, tmp_path / "plan"))
    names, text = {"PLAIN": PLAIN}, re.search(r"```python\n(.*?)```", PAGES["notebook"], re.DOTALL)[1]
    assert text.count('.write("out")') == 1
    exec(text.replace('.write("out")', '.write("out", PLAIN)'), names)
    shells = names["shells"]
    assert len(names["plan"].blocks) == 7119 and shells.solution.worth.index.tolist()[-1] == 1.2
    assert shells.table["revenue_factor"].tolist() == shells.solution.worth.index.tolist()
    assert len(names["pushbacks"].table) == 4 and names["schedule"].methods["method"].tolist() == ["rule", "lp"]
    assert all(not rule.differences for rule in pitplan.verify("out"))


def test_the_table_of_cutoffs_is_that_of_the_example():
    plan = pitplan.Plan.from_project(EXAMPLE)
    fixed = pitplan.Plan.from_project(
        replace(plan.project, economics=replace(plan.project.economics, cutoff="base_price"))
    )
    solutions = [plan.shells().solution, fixed.shells().solution]
    tables = [
        pitplan.Shells(it, solution).table.set_index("revenue_factor") for it, solution in zip((plan, fixed), solutions)
    ]
    section = PAGES["economics"].partition("\n## Cut-off\n")[2].partition("\n## ")[0]
    told = {row[0]: row[1:] for row in (re.split(r" *\| *", line)[1:-1] for line in section.splitlines()) if row}
    factors = [float(factor) for factor in told["revenue factor"]]
    assert len(factors) == 6
    for name, table in zip(("per_revenue_factor", "base_price"), tables):
        assert table["blocks"][factors].tolist() == [int(blocks) for blocks in told[f"blocks, {name}"]]
    whole, less = ([solution.worth[factor] for factor in factors] for solution in solutions)
    lost = [float(100 * (1 - b / a)) for a, b in zip(whole, less)]
    assert [float(share) for share in told["value lost, %"]] == [pytest.approx(share, abs=0.05) for share in lost]


@pytest.mark.parametrize(
    "levels, steeper, precedences", [(2, 11.3, 9), (3, 3.4, 21), (8, 1.7, 25), (17, 0.5, 37), (20, 0.3, 61)]
)
def test_the_angles_of_the_west_walls_are_those_of_the_page(levels, steeper, precedences):
    project = pitplan.load(EXAMPLE)
    plan = pitplan.Plan.from_project(replace(project, slopes=replace(project.slopes, precedence_benches=levels)))
    west = plan.domains.patterns[0]
    assert len(west.offsets) == precedences and west.errors.max() == pytest.approx(steeper, abs=0.05)
    assert re.search(rf"{steeper} (degrees )?with {levels} (benches )?\({precedences}", PAGES["slopes"])


def test_the_levels_that_the_page_says_are_chosen():
    project = pitplan.load(EXAMPLE)
    plan = pitplan.Plan.from_project(replace(project, slopes=replace(project.slopes, precedence_benches=None)))
    chosen = [pattern.levels for pattern in plan.domains.patterns]
    assert "for the example's domains {} and {} benches".format(*chosen) in PAGES["slopes"]


def test_the_pairs_of_the_page_are_those_of_the_example(tmp_path):
    plan = pitplan.Plan.from_project(EXAMPLE)
    written = mine_files.write(plan, tmp_path).written
    plan.used[:] = True
    whole = mine_files.write(plan, tmp_path).written
    assert f"of the example's {whole:,} precedences {written:,} are written" in PAGES["slopes"]


def test_the_net_present_values_of_the_page_are_those_of_the_example():
    plan = pitplan.Plan.from_project(EXAMPLE)
    table = plan.shells().table.set_index("revenue_factor")
    best, worst = table["npv_best"], table["npv_worst"]
    mean = (best + worst)[:1.0].sort_values()
    assert (
        f"the cash flow is greatest at revenue factor {table['undiscounted_cash_flow'].idxmax():.2f} with {table['blocks'][1.0]} blocks"
        in PAGES["shells"]
    )
    assert f"The worst case has its best at {worst.idxmax():.2f}." in PAGES["shells"]
    assert 1 < 100 * (best.max() / best[0.8] - 1) and 100 * (best.max() / best[0.85] - 1) < 1
    assert f"while the worst case loses {100 * (1 - worst[1.0] / worst[0.85]):.1f} %" in PAGES["shells"]
    behind = 100 * (1 - mean.iloc[-2] / mean.iloc[-1])
    assert (
        f"The selected shell is {mean.index[-1]:.2f} ({mean.index[-2]:.2f} is behind it by {behind:.2f} %)"
        in PAGES["shells"]
    )


def test_the_schedule_of_the_page_is_that_of_the_example():
    project = pitplan.load(EXAMPLE)
    rules = project.schedule
    plain, stocked = (
        pitplan.Plan.from_project(replace(project, schedule=asked)).shells().pushbacks().schedule()
        for asked in (rules, replace(rules, stockpiles=(Stockpile(1.0),)))
    )
    assert f"By the rule each pushback is {plain.lead} benches behind the one before" in PAGES["schedules"]
    cutoff = cutoffs(plain)["mill"][1]
    said = f"In year 2 the cut-off of the linear programme is {cutoff:.2f} USD per tonne of feed"
    assert said in PAGES["schedules"]
    value, bound = stocked.value("lp") / 1e6, stocked.upper_bound / 1e6
    assert (
        f"With a stockpile that costs 1 USD per tonne it earns {value:.2f}, below a bound of {bound:.2f}"
        in PAGES["schedules"]
    )


def test_the_widths_of_the_page_are_those_of_the_example():
    project = pitplan.load(EXAMPLE)

    def divided(*rules):
        return pitplan.Plan.from_project(replace(project, pushbacks=PushbackRules(*rules))).shells().pushbacks()

    shells, wide, four = (
        divided(2, None, None, 1.0),
        divided(2, None, None, 1.0, 40, 40),
        divided(4, None, None, 1.0, 40, 40),
    )
    before, after, many = (it.table for it in (shells, wide, four))
    (note,) = [note for note in wide.notes if "blocks moved" in note]
    later, more = (int(re.search(rf"([\d,]+) {word}", note)[1]) for word in ("later", "additionally"))
    assert (
        f"are {' and '.join(map(str, after['blocks']))} blocks. Without widths they are {' and '.join(map(str, before['blocks']))}:"
        in PAGES["pushbacks"]
    )
    assert f"{later} blocks move to the second pushback, and {more} more blocks are mined" in PAGES["pushbacks"]
    cost, worth = after["value_lost_to_width"].iloc[-1], before["undiscounted_cash_flow"].sum() / 1e6
    assert f"This costs {cost:,.0f} USD of {worth:.1f} million" in PAGES["pushbacks"]
    assert many["blocks"][2] == 3 and "0 earlier" in note and "0 never" in note


def test_the_sensitivity_of_the_page_is_that_of_the_example(tmp_path):
    project = pitplan.load(EXAMPLE)
    rules = SensitivityRules((Decimal("-0.2"), Decimal("-0.1")), ("price", "slopes"))
    table = pitplan.write_sensitivity(replace(project, sensitivity=rules), tmp_path, writing=UNVERIFIED)
    npv = {(row.parameter, row.change): f"{row.npv / 1e6:.1f}" for row in table.itertuples()}
    said = re.search(
        r"Of the example's ([\d.]+) M USD a price that is 20 % lower leaves ([\d.]+), and slopes that are 10 % flatter ([\d.]+)\.",
        PAGES["uncertainty"],
    )
    assert said.groups() == (npv["", 0.0], npv["price", -0.2], npv["slopes", -0.1])
    skin = {(row.parameter, row.change): f"{row.skin_value / 1e6:.2f}" for row in table.itertuples()}
    share = json.loads((tmp_path / "sensitivity.json").read_text())["skin"]["share"]
    assert (
        f"has {100 * share:.1f} % of the tonnage and is worth {skin['', 0.0]} M USD, and still {skin['price', -0.1]}"
        in PAGES["uncertainty"]
    )


def test_init_prints_the_lines_of_the_page(tmp_path, monkeypatch, capsys):
    """The page leaves some lines out. Its slopes of 45 degrees are those that `check` reports of the project."""
    shutil.copy(EXAMPLE.parent / "blocks.csv", tmp_path / "model.csv")
    monkeypatch.chdir(tmp_path)
    assert main(["init", "model.csv"]) == 0
    said = "".join(capsys.readouterr()).splitlines()
    shown = re.search(r"\$ pitplan init model.csv\n(.*?)```", PAGES["getting-started"], re.DOTALL)[1].splitlines()
    assert len(shown) > 8 and [line for line in shown if line not in said] == []
    shown = re.search(r"\$ pitplan shells project.toml [^\n]*\n(.*?)```", PAGES["getting-started"], re.DOTALL)[1]
    assert main(["shells", "project.toml", "--out", "build/plan", "--quiet", "--no-figures"]) == 0
    said = capsys.readouterr().out.splitlines()
    cut = [line.removesuffix("..") for line in shown.splitlines()]
    assert len(cut) == 6 and [line for line in cut if not any(it.startswith(line) for it in said)] == []
    assert main(["check", "project.toml"]) == 0
    (line,) = re.findall(r"^domain east, 45 degrees.*$", PAGES["slopes"], re.MULTILINE)
    assert line in "".join(capsys.readouterr()).splitlines()

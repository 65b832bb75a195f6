"""The second look at every number: what is right passes, and every number that is bent, and every mistake in the code, is found."""

import json
import shutil
from dataclasses import replace
from decimal import Decimal
from pathlib import Path

import numpy as np
import pandas as pd
import pytest
from conftest import PROJECT, rows
from helpers.random_tests import examples
from helpers.verified import TEXT, deposit, looked_at, ore_everywhere, wrong
from helpers.writings import PLAIN, REPORTED, UNVERIFIED
from hypothesis import HealthCheck, given, strategies as st

import pitplan
from pitplan import Plan, PlanError, constraints, load, verify
from pitplan.blockmodel import grid as grids, missing_blocks, reader
from pitplan.cli import main
from pitplan.commands.verification import demand
from pitplan.economics import weighing
from pitplan.pits import best_worst_case
from pitplan.results.folder import read_record
from pitplan.slopes import slope_patterns
from planaudit.ground.slopes import flatness, high_walls
from planaudit.inputs import answer, project_file
from planaudit.inputs.matching import read_blocks
from planaudit.inputs.project_file import domain_of
from planaudit.pits import sums
from planaudit.rules import rule


@pytest.fixture(scope="module")
def answered(tmp_path_factory):
    place = tmp_path_factory.mktemp("verified")
    deposit().to_csv(place / "blocks.csv", index=False)
    (place / "project.toml").write_text(TEXT)
    project = load(place / "project.toml")
    pitplan.write_shells(project, writing=REPORTED)
    return place, read_record(project.folder)


@pytest.fixture
def copied(answered, tmp_path):
    """The folder of the answer in a place of the test's own."""
    return shutil.copytree(answered[0], tmp_path / "mine") / "plan"


def test_what_is_right_is_told_rule_by_rule(answered, copied, capsys):
    assert wrong(copied) == set()
    assert main(["verify", str(copied)]) == 0
    *lines, verdict = capsys.readouterr().out.splitlines()
    assert verdict == "verified: all 12 rules hold"
    assert [line.split(":")[0] for line in lines] == [
        "blocks",
        "missing blocks",
        "slopes",
        "slope error",
        "constraints",
        "money",
        "shells",
        "values",
        "years",
        "conventions",
        "inputs",
        "grade tonnage",
    ]
    assert len(answered[1]["verified"]) == 11
    assert "no block of any shell lacks a block of its slope cone" in (copied / "report.html").read_text()


def test_a_run_may_leave_it_out_and_says_so(plan_folder):
    path = plan_folder(deposit(), TEXT)
    assert main(["shells", str(path), "--quiet", "--no-verify", "--no-figures"]) == 0
    assert json.loads((path.parent / "plan" / "plan.json").read_text())["verified"] == []
    assert "were not verified" in (path.parent / "plan" / "report.html").read_text()
    assert main(["verify", str(path.parent / "plan")]) == 0


SHELLS = "blocks tonnes feed_tonnes waste_tonnes strip_ratio processed_at_revenue_factor head_grade_copper recovered_copper head_grade_gold recovered_gold undiscounted_cash_flow"


@pytest.mark.parametrize(
    ("file", "column", "rule"),
    [
        *(("tables/shells.csv", name, "shells") for name in SHELLS.split()),
        *(("tables/shells.csv", name, "years") for name in ("npv_best", "npv_worst", "years")),
        ("tables/shells.csv", "value_at_revenue_factor", "values"),
        *(
            ("tables/years.csv", name, "years")
            for name in (
                "total_tonnes",
                "feed_tonnes",
                "recovered_copper",
                "recovered_gold",
                "cash_flow",
                "discounted_cash_flow",
            )
        ),
        *(("tables/blocks.csv", name, "money") for name in ("mining_cost", "revenue", "processing_cost")),
        ("tables/blocks.csv", "id", "blocks"),
    ],
)
def test_each_number_that_is_bent_is_found(copied, file, column, rule):
    """A hundredth more in the last row that has the number."""
    table = pd.read_csv(copied / file, dtype={"value_at_revenue_factor": str})
    at = table.index[pd.to_numeric(table[column]) > 0][-1]
    bent = float(table.loc[at, column]) + (1 if column in ("blocks", "id") else 0.02)
    table.loc[at, column] = f"{bent:.6f}" if column == "value_at_revenue_factor" else bent
    table.to_csv(copied / file, index=False)
    assert rule in wrong(copied)


@pytest.mark.parametrize(
    ("column", "rule"),
    [
        ("revenue_factor", "shells"),
        ("process_revenue_factor", "values"),
        ("revenue_factor", "values"),
        ("revenue_factor", "years"),
    ],
)
def test_a_block_at_another_factor_is_found(copied, column, rule):
    table = pd.read_csv(copied / "tables/blocks.csv")
    at = table.index[table[column] == 0.5][0]
    table.loc[at, column] = 1.0
    table.to_csv(copied / "tables/blocks.csv", index=False)
    assert rule in wrong(copied)


def test_a_block_that_is_left_standing_is_found(copied):
    """A block of the highest level under which others are dug."""
    table = pd.read_csv(copied / "tables/blocks.csv")
    mined = table[(table["revenue_factor"] > 0.0) & (table["must"] == 0)]
    table.loc[mined.index[0], ["revenue_factor", "process_revenue_factor"]] = 0
    table.to_csv(copied / "tables/blocks.csv", index=False)
    assert {"slopes", "shells"} <= wrong(copied)


def test_a_barred_block_that_is_dug_is_found(copied):
    table = pd.read_csv(copied / "tables/blocks.csv")
    table.loc[table.index[table["never"] == 1][0], "revenue_factor"] = 0.5
    table.to_csv(copied / "tables/blocks.csv", index=False)
    assert "constraints" in wrong(copied)


def test_a_year_above_its_capacity_is_found(copied):
    """Half a tonne is dug a year earlier, so that all sums stay."""
    years = pd.read_csv(copied / "tables/years.csv")
    full = years.index[(years["total_tonnes"] > 999.99) & years.duplicated(["case", "revenue_factor"], keep="last")][0]
    years.loc[full, "total_tonnes"] += 0.5
    years.loc[full + 1, "total_tonnes"] -= 0.5
    years.to_csv(copied / "tables/years.csv", index=False)
    (rule,) = [rule for rule in verify(copied) if rule.differences]
    case, factor, year = years.loc[full, ["case", "revenue_factor", "year"]]
    last = years.loc[full + 1, "total_tonnes"]
    said = [
        f"{year}: total_tonnes 1000.5 above 1000",
        f"{year}: total_tonnes 1000.5 for 1000",
        f"{year + 1}: total_tonnes {last:g} for {last + 0.5:g}",
    ]
    assert rule.differences == tuple(f"{case} case of revenue factor {factor:.2f}, year {it}" for it in said)


YEARLY = [
    ("total_tonnes", 1),
    ("feed_tonnes", 1),
    ("recovered_copper", 0.1),
    ("recovered_gold", 1),
    ("cash_flow", 1),
    ("discounted_cash_flow", 1),
]


@pytest.mark.parametrize("case", ["best", "worst"])
@pytest.mark.parametrize(("column", "less"), YEARLY)
def test_what_flows_a_year_later_is_found(copied, case, column, less):
    """All sums stay, and no capacity is exceeded."""
    years = pd.read_csv(copied / "tables/years.csv")
    mine = years[(years["case"] == case) & (years["revenue_factor"] == 1.5) & (years[column] > less)].index
    years.loc[mine[0], column] -= less
    years.loc[mine[-1], column] += less
    assert mine[0] < mine[-1]
    years.to_csv(copied / "tables/years.csv", index=False)
    assert wrong(copied) == {"years"}


@pytest.mark.parametrize(
    ("bend", "said"),
    [
        (
            lambda it: it.assign(year=it["year"] + (it["case"] == "worst")),
            "worst case of revenue factor 1.50: years [2, 3",
        ),
        (
            lambda it: it.assign(revenue_factor=it["revenue_factor"].where(it["case"] == "best", 1.4)),
            "worst case of revenue factor 1.40: has years, but no such shell",
        ),
        (lambda it: it[it["case"] == "best"], "worst case of revenue factor 1.50: has no years"),
        (lambda it: it.drop(columns="recovered_gold"), "recovered_gold nan for"),
    ],
)
def test_years_that_are_missing_or_too_many_are_found(copied, bend, said):
    bend(pd.read_csv(copied / "tables/years.csv")).to_csv(copied / "tables/years.csv", index=False)
    (rule,) = [rule for rule in verify(copied) if rule.differences]
    assert rule.name == "years" and any(said in difference for difference in rule.differences)


@pytest.mark.parametrize(
    ("column", "value"),
    [
        ("name", "b0-0-1"),
        ("rock", "S"),
        ("region", "2"),
        ("tonnes", 99.70000001),
        ("cu", 1e-9),
        ("au", 0.7),
        ("must", 1.0),
        ("never", 2.0),
    ],
)
def test_a_field_of_the_planners_that_is_another_is_found(copied, column, value):
    table = pd.read_csv(copied / "tables/blocks.csv", dtype={"region": str}, float_precision="round_trip")
    at = table.index[table["name"] == "b0-0-0"][0]
    table[column] = table[column].where(table.index != at, value)
    table.to_csv(copied / "tables/blocks.csv", index=False)
    (rule,) = [rule for rule in verify(copied) if rule.differences]
    assert rule.name == "blocks" and len(rule.differences) == 1
    assert rule.differences[0].startswith(f"block b0-0-0: {column} {value} for ")


@pytest.mark.parametrize(
    ("file", "column"),
    [
        ("tables/blocks.csv", "revenue"),
        ("tables/blocks.csv", "cu"),
        ("tables/shells.csv", "npv_best"),
        ("tables/years.csv", "cash_flow"),
    ],
)
@pytest.mark.parametrize(("field", "said"), [("", "is empty"), ("n/a", '"n/a" is not a number')])
def test_a_field_that_is_no_number_is_named(copied, capsys, file, column, field, said):
    table = pd.read_csv(copied / file, dtype=str, keep_default_na=False)
    table.loc[1, column] = field
    table.to_csv(copied / file, index=False)
    assert main(["verify", str(copied)]) == 1
    assert capsys.readouterr().err.splitlines()[-1].endswith(f"{Path(file).name} row 3 column {column}: {said}")


def test_shells_that_are_missing_or_too_many_are_named(copied):
    table = pd.read_csv(copied / "tables/shells.csv")
    for rows_of, there in ((table.iloc[[0, 2]], "0.50, 1.50"), (table.iloc[[0, 1, 1, 2]], "0.50, 1.00, 1.00, 1.50")):
        rows_of.to_csv(copied / "tables/shells.csv", index=False)
        with pytest.raises(
            PlanError, match=f"shells.csv: has rows of the revenue factors {there} for 0.50, 1.00, 1.50"
        ):
            verify(copied)


@pytest.mark.parametrize(
    ("file", "column"),
    [
        ("shells.csv", "tonnes"),
        ("shells.csv", "npv_best"),
        ("shells.csv", "value_at_revenue_factor"),
        ("years.csv", "feed_tonnes"),
    ],
)
def test_a_column_that_is_missing_is_named(copied, capsys, file, column):
    path = copied / "tables" / file
    pd.read_csv(path, dtype=str, keep_default_na=False).drop(columns=column).to_csv(path, index=False)
    assert main(["verify", str(copied)]) == 1
    assert capsys.readouterr().err.splitlines()[-1] == (
        f"pitplan: {copied}: a table has no column '{column}': run pitplan again"
    )


def plus_one(table, column):
    return table.assign(**{column: table[column] + 1})


@pytest.mark.parametrize(
    ("name", "bend", "count", "told"),
    [
        ("money", lambda it: plus_one(it, "mining_cost"), 459, "block b0-0-0: mining_cost 300.1 for 299.1"),
        (
            "money",
            lambda it: it.assign(mining_cost=it["mining_cost"] + 1e-6),
            459,
            "block b0-0-0: mining_cost 299.100001 for 299.1",
        ),
        ("blocks", lambda it: plus_one(it, "id"), 459, "block b0-0-0 has the id 397 for 396"),
        (
            "blocks",
            lambda it: it.assign(revenue_factor=it["revenue_factor"] + 0.001 * (it["revenue_factor"] == 0.5)),
            None,
            "has the revenue factor 0.501",
        ),
        (
            "values",
            lambda it: plus_one(it, "process_revenue_factor"),
            459,
            "block b0-0-0: process_revenue_factor 1.00 for 0.00",
        ),
    ],
)
def test_all_that_is_bent_is_counted_and_ten_told(copied, name, bend, count, told):
    """Of 459 blocks: by much, by less than a rounding, and by the revenue factor 0.50 alone."""
    table = pd.read_csv(copied / "tables/blocks.csv")
    bend(table).to_csv(copied / "tables/blocks.csv", index=False)
    (rule,) = [rule for rule in verify(copied) if rule.name == name]
    assert rule.count == (count or (table["revenue_factor"] == 0.5).sum()) and len(rule.differences) == 10
    assert told in rule.differences[0]
    with pytest.raises(PlanError) as said:
        demand([rule])
    assert str(said.value).startswith(f"verification failed: {rule.count:,} discrepancies:\n  {name}: ")
    assert len(str(said.value).splitlines()) == 11


def test_one_place_is_told_as_one():
    with pytest.raises(PlanError, match="verification failed: 1 discrepancy:\n  money: block 7: revenue 1 for 2"):
        demand([rule("money", "revenue follows", ["block 7: revenue 1 for 2"])])


def halves():
    """Tonnes of which the mining cost at 2 and 2.5 has halves of a cent among its amounts."""
    tonnes = {0: 100.0, 1: 0.0025, 2: 100.0075, 3: 33.333, 4: 99.9925}
    return rows(
        5, 5, 2, tonnes=lambda i, j, k: tonnes[(i + j) % 5], cu=lambda i, j, k: 6 if (i, j, k) == (2, 2, 1) else 0
    )


@pytest.mark.parametrize("sampled", [0, 2_000])
def test_a_last_digit_is_found_at_any_block(plan_folder, monkeypatch, sampled):
    """Also far from any shell, and where an amount lies halfway between two cents: it is rounded to the even one."""
    monkeypatch.setattr("planaudit.money.block_values.SAMPLE", sampled)
    path = plan_folder(halves(), PROJECT.replace("mining_cost = 2\n", "mining_cost = 2\ndecimals = 2\n"))
    pitplan.write_shells(path, writing=PLAIN)
    blocks = path.parent / "plan" / "tables/blocks.csv"
    whole = pd.read_csv(blocks)
    assert set(whole["mining_cost"]) == {200.0, 0.0, 200.02, 66.67, 199.98}
    for row in range(0, len(whole), 7):
        for more in (0.01, -0.01):
            bent = whole.copy()
            bent.loc[row, "mining_cost"] = round(bent.loc[row, "mining_cost"] + more, 2)
            bent.to_csv(blocks, index=False)
            (found,) = [rule for rule in verify(path.parent / "plan") if rule.name == "money"]
            assert len(found.differences) == 1 and "mining_cost" in found.differences[0]


def test_a_table_that_has_changed_is_found(copied):
    path = copied.parent / "blocks.csv"
    table = pd.read_csv(path)
    at = table.index[table["cu"] > 0][0]
    table.assign(cu=table["cu"].where(table.index != at, 1.0)).to_csv(path, index=False)
    assert "money" in wrong(copied)
    table[table.index != at].to_csv(path, index=False)
    with pytest.raises(PlanError, match="1 of its blocks are not in the table: has the table changed since?"):
        verify(copied)


def refused(plan_folder, table=None, text=TEXT, *changes):
    """What a run says that is refused by its second look; nothing of it stays."""
    path = plan_folder(deposit() if table is None else table, text, *changes)
    with pytest.raises(PlanError, match="verification failed") as said:
        pitplan.write_shells(load(path), path.parent / "plan", writing=PLAIN)
    assert not (path.parent / "plan").exists()
    return str(said.value)


def test_a_misread_table_fails_the_verification_of_the_run(plan_folder, monkeypatch):
    """The audit reads the table itself: what the planner's reader misreads is seen."""
    path, read_table = plan_folder(deposit(), TEXT), reader.read

    def misread(project):
        table = read_table(project)
        return replace(table, frame=table.frame.assign(cu=table.frame["cu"].where(table.frame["cu"] < 6, 5.9)))

    monkeypatch.setattr(reader, "read", misread)
    with pytest.raises(PlanError, match="verification failed") as said:
        pitplan.write_shells(path, writing=PLAIN)
    assert {line.split(":")[0].strip() for line in str(said.value).splitlines()[1:]} == {
        "blocks",
        "money",
        "shells",
        "grade tonnage",
        "years",
    }
    monkeypatch.undo()
    pitplan.write_shells(path, writing=PLAIN)
    assert wrong(path.parent / "plan") == set()


def test_a_table_that_changed_since_the_run_is_read_again(plan_folder):
    path = plan_folder(deposit(), TEXT)
    pitplan.write_shells(path, writing=PLAIN)
    table = deposit()
    table.assign(cu=table["cu"].where(table["cu"] < 6, 5.9)).to_csv(path.parent / "blocks.csv", index=False)
    assert wrong(path.parent / "plan") == {"blocks", "inputs", "money", "shells", "years", "grade tonnage"}


def two_regions():
    """Ore at the floor, in rock that stands at 35 degrees, under rock that stands at 65."""
    return rows(
        15, 15, 6, cu=lambda i, j, k: 30 if (i, j, k) == (7, 7, 0) else 0, region=lambda i, j, k: "12"[int(k > 0)]
    )


LEVELS = ("precedence_benches = 3", "precedence_benches = 5")
STEEP_ABOVE = '[[slopes.domains]]\ndomain = "1"\nangle = 35\n[[slopes.domains]]\ndomain = "2"\nangle = 65'
MIXED = [('[[slopes.domains]]\npattern = "1:5"', STEEP_ABOVE)]


def test_cost_by_elevation_is_looked_at(plan_folder, monkeypatch):
    """Levels with centres 5, 15, .., 45 m, of which the lowest and the highest lie beyond the elevations that are named."""
    change = ("mining_cost_per_bench = 0.25", "mining_cost_by_elevation = [[10, 0.7], [20, 0.3], [40, 0.1]]")
    path = plan_folder(deposit(), TEXT, change)
    assert [rule.differences for rule in looked_at(Plan.from_project(path))] == [()] * 11
    monkeypatch.setattr("pitplan.economics.weighing.added_cost", lambda *_: Decimal(0))
    differences = {rule.name: rule.differences for rule in looked_at(Plan.from_project(path)) if rule.differences}
    # 99.7 t, of which each costs 0.7 more.
    assert differences["money"][0] == "block b0-0-0: mining_cost 199.4 for 269.19"


@pytest.mark.parametrize("discounting", ["continuous", "mid_year", "end_of_year"])
def test_a_mine_in_which_nothing_pays_is_right(plan_folder, discounting):
    plan = Plan.from_project(
        plan_folder(
            rows(3, 3, 2), PROJECT, ("discount_rate = 0.1", f'discount_rate = 0.1\ndiscounting = "{discounting}"')
        )
    )
    assert [rule.differences for rule in looked_at(plan)] == [()] * 11


@pytest.mark.parametrize(
    ("discounting", "npv"), [("continuous", -200), ("mid_year", -200 / 1.1**0.5), ("end_of_year", -200 / 1.1)]
)
def test_waste_that_takes_no_time_is_the_first_years(plan_folder, discounting, npv):
    """The mill alone has a capacity: a block of waste that must be dug, which costs 200, and a deposit under waste."""
    changes = ("discount_rate = 0.1", f'discount_rate = 0.1\ndiscounting = "{discounting}"')
    table = rows(3, 3, 2, must=lambda i, j, k: int((i, j, k) == (1, 1, 1)))
    plan = Plan.from_project(plan_folder(table, PROJECT + '\n[constraints]\nmust_mine = "must"\n', changes))
    assert [rule.differences for rule in looked_at(plan)] == [()] * 11
    shells = pd.read_csv(plan.project.folder / "tables/shells.csv")
    assert shells["npv_best"].tolist() == shells["npv_worst"].tolist() == [pytest.approx(npv, abs=1e-3)] * 3
    plan = Plan.from_project(plan_folder(deposit(), TEXT, changes, ("mining_capacity = 1000\n", "")))
    assert [rule.differences for rule in looked_at(plan)] == [()] * 11


def test_a_block_without_an_id_is_called_by_its_centre(plan_folder):
    plan = Plan.from_project(plan_folder(ore_everywhere().drop(columns="name"), PROJECT, ('id = "name"\n', "")))
    assert [rule.differences for rule in looked_at(plan)] == [()] * 11
    path = plan.project.folder / "tables/blocks.csv"
    plus_one(pd.read_csv(path), "mining_cost").to_csv(path, index=False)
    (rule,) = [rule for rule in verify(plan.project.folder) if rule.name == "money"]
    assert rule.differences[0] == "the block at 600005, 6512005, 5: mining_cost 201 for 200"


def test_a_folder_without_an_answer_is_named(copied, tmp_path):
    with pytest.raises(PlanError, match="nowhere/plan.json: cannot be read: run pitplan shells first"):
        verify(tmp_path / "nowhere")
    path = copied.parent / "blocks.csv"
    whole = path.read_text()
    path.write_text(
        whole + whole.splitlines()[1].replace("b0-0-0", "more").replace("5.0,5.0,5.0", "5.0,5.0,55.0") + "\n"
    )
    with pytest.raises(PlanError, match="1 blocks of the table are not in it: has the table changed since?"):
        verify(copied)
    (copied / "plan.json").write_text("{}")
    with pytest.raises(PlanError, match="plan.json: grid: expected a table: run pitplan shells again"):
        verify(copied)


def test_rows_without_rock_are_no_blocks_that_are_left_standing(plan_folder):
    """Ore below rock, and over it two levels of rows that hold nothing."""
    table = rows(9, 9, 5, tonnes=lambda i, j, k: 100 * (k < 3), cu=lambda i, j, k: 9 * ((i, j, k) == (4, 4, 0)))
    plan = Plan.from_project(plan_folder(table, PROJECT))
    assert [rule.differences for rule in looked_at(plan)] == [()] * 11
    blocks = pd.read_csv(plan.project.folder / "tables/blocks.csv")
    assert (blocks.loc[blocks["tonnes"] == 0, "revenue_factor"] == 0).any() and (
        blocks["revenue_factor"] == 0.5
    ).sum() > 13


def test_walls_between_azimuths_by_hand():
    """60 degrees to the east and 30 to the west: what they step back for a metre up is linear between, also over the north."""
    domain = domain_of({"azimuths": [[90, 60], [270, 30]]})
    steep, flat = 1 / np.sqrt(3), np.sqrt(3)
    expected = [
        (steep + flat) / 2,
        steep,
        (steep + flat) / 2,
        flat + (steep - flat) / 4,
        flat + (steep - flat) * 89 / 180,
    ]
    assert flatness(domain, np.array([0.0, 90, 180, 315, 359])) == pytest.approx(expected)
    assert slope_patterns.cotangents(domain["angles"], np.array([0.0, 90, 180, 315, 359])) == pytest.approx(expected)


def test_high_walls_by_geometry():
    """Over one level walls of 45 degrees are the block above and the four beside it, so that they are steeper at the diagonals."""
    domain = domain_of({"angle": 45})
    diagonal = np.degrees(np.arctan(np.sqrt(2)))
    assert high_walls(domain, (10.0, 10.0, 10.0), 1)[[0, 45, 90, 225]] == pytest.approx([45, diagonal, 45, diagonal])
    assert high_walls(domain, (20.0, 10.0, 20.0), 1)[[0, 90, 180]] == pytest.approx([45, 45, 45])
    # Steeper than a block is wide: no cell beside the block is within.
    assert set(high_walls(domain_of({"angle": 80}), (10.0, 10.0, 10.0), 1)) == {90.0}


def test_needs_that_steeper_walls_on_the_way_do_not_lead_to_are_found(plan_folder, monkeypatch):
    monkeypatch.setattr("pitplan.slopes.domains.not_led", lambda steps, code, grid: np.zeros(len(code), dtype=bool))
    assert "slopes: block b7-7-0, mined at revenue factor 0.50, depends on a block that is not" in refused(
        plan_folder, two_regions(), PROJECT, LEVELS, *MIXED
    )


def test_too_few_levels_are_found(plan_folder, monkeypatch):
    monkeypatch.setattr("pitplan.slopes.slope_patterns.levels_of", lambda *_: 3)
    said = refused(plan_folder, two_regions(), PROJECT, ("precedence_benches = 3\n", ""), *MIXED)
    assert (
        "slope error: domain entry 1: over 3 benches the slope is" in said and "degrees steeper than its angle" in said
    )


@pytest.mark.parametrize("decimals", [2, 6])
def test_amounts_with_more_digits_than_floats_have_are_no_difference(plan_folder, decimals):
    """Money of which a tonne of copper costs billions: a block is worth up to 3 * 10^10, with so many decimals."""
    changes = [
        ("price = 8000", "price = 8_123_456_789.123"),
        ("{ R = 2, S = 2.5 }", "{ R = 2_000_000.001, S = 2_500_000.3 }"),
        ("processing_cost = 10", "processing_cost = 9_999_999.777"),
        ("decimals = 2", f"decimals = {decimals}"),
    ]
    plan = Plan.from_project(plan_folder(deposit(), TEXT, *changes))
    assert [rule.differences for rule in looked_at(plan)] == [()] * 11


@pytest.mark.parametrize(("more", "differs"), [("0.01", False), ("0.05", True)])
def test_what_is_left_of_great_amounts_is_as_uncertain_as_they_are(plan_folder, more, differs):
    """Both blocks must be dug: one earns 9,999,998,800, the other costs a dollar less; a millionth of a millionth of both is 0.02."""
    table = rows(2, 1, 1, cu=lambda i, j, k: 1 - i, rock=lambda i, j, k: "RS"[i], must=lambda i, j, k: 1)
    changes = [
        ("price = 8000", "price = 20_000_000_000"),
        ("mining_cost = 2", "mining_cost = { R = 2, S = 99_999_987.99 }"),
    ]
    plan = Plan.from_project(plan_folder(table, PROJECT + '\n[constraints]\nmust_mine = "must"\n', *changes))
    assert {rule.name for rule in looked_at(plan) if rule.differences} == set()
    path = plan.project.folder / "tables/shells.csv"
    shells = pd.read_csv(path, dtype={"value_at_revenue_factor": str})
    assert shells["undiscounted_cash_flow"].tolist() == [1.0] * 3
    shells.assign(undiscounted_cash_flow=shells["undiscounted_cash_flow"] + float(more)).to_csv(path, index=False)
    (rule,) = [rule for rule in verify(plan.project.folder) if rule.name == "shells"]
    assert bool(rule.differences) == differs


def test_capacity_that_is_caught_up_is_found(plan_folder, monkeypatch):
    """Years as the greater of two cumulative sums: mill time that is lost while stripping comes back."""

    def cumulative(amounts, wait):
        ends = np.cumsum(amounts @ wait.uses, axis=0).max(axis=1)
        return best_worst_case.PieceSequence(amounts, np.concatenate([[0.0], ends])[:, None], np.ones((1, 1)))

    monkeypatch.setattr(best_worst_case, "course_of", cumulative)
    assert "years: " in refused(plan_folder)


def test_fixed_blocks_that_are_passed_over_are_found(plan_folder, monkeypatch):
    nothing = np.zeros(0, dtype=np.int64)
    monkeypatch.setattr(constraints, "of_table", lambda *_: constraints.FixedBlocks(nothing, nothing))
    assert "constraints: block b2-1-4 is must-mine" in refused(plan_folder)


AREA = '[[constraints.areas]]\npolygon = "map.csv"\nexclude = '


@pytest.mark.parametrize(
    ("section", "corners", "first", "count"),
    [
        # West of the line from 40 m in the south to 10 m in the north are, by rows, the first 4, 3 and 2 columns.
        (AREA + '"inside"\n', [(0, 0), (41, 0), (11, 30), (0, 30)], "b0-0-0", 2 * (4 + 3 + 2)),
        (AREA + '"outside"\n', [(0, 0), (41, 0), (11, 30), (0, 30)], "b4-0-0", 2 * (3 + 4 + 5)),
        (AREA + '"inside"\n', [(30, 10), (70, 10), (70, 20), (30, 20)], "b3-1-0", 2 * 4),
    ],
)
def test_areas_that_are_passed_over_are_found(plan_folder, tmp_path, monkeypatch, section, corners, first, count):
    pd.DataFrame(np.array(corners) + [600_000, 6_512_000], columns=["x", "y"]).to_csv(tmp_path / "map.csv", index=False)
    path = plan_folder(ore_everywhere(), PROJECT + "\n" + section)
    assert [rule.differences for rule in looked_at(Plan.from_project(path))] == [()] * 11
    monkeypatch.setattr(constraints, "of_table", lambda *_: constraints.NOTHING)
    (rule,) = [rule for rule in looked_at(Plan.from_project(path)) if rule.differences]
    assert (rule.name, rule.count, len(rule.differences)) == ("constraints", count, min(count, 10))
    assert rule.differences[0] == f"block {first} is excluded, and is mined from revenue factor 0.50"


def test_a_surface_that_is_passed_over_is_found(plan_folder, tmp_path, monkeypatch):
    """Over the second row of columns the points lie at 14 m on the mean, over the third at 3, and over the first there are none."""
    points = [
        (600_000 + 10 * i + a, 6_512_000 + y + a, z + a / 2)
        for i in range(7)
        for y, z in ((12, 14), (22, 3))
        for a in (1, 5)
    ]
    pd.DataFrame(points, columns=["x", "y", "z"]).assign(z=lambda it: it["z"] - 1.5).to_csv(
        tmp_path / "mined.csv", index=False
    )
    path = plan_folder(
        ore_everywhere().assign(cu=0), PROJECT + '\n[constraints]\nas_mined = "mined.csv"\ntopography = "blocks"\n'
    )
    plan = Plan.from_project(path)
    assert len(plan.fixed.must_mine) == 7 + 2 * 7
    # With the rule of the surface itself.
    assert [rule.differences for rule in looked_at(plan)] == [()] * 12
    monkeypatch.setattr(constraints, "of_table", lambda *_: constraints.NOTHING)
    (rule,) = [rule for rule in looked_at(Plan.from_project(path)) if rule.differences]
    assert (rule.name, rule.count, len(rule.differences)) == ("constraints", 7 + 2 * 7, 10)
    assert rule.differences[0] == "block b0-2-0 is must-mine, and is mined from revenue factor 0.00"


def test_ground_that_is_taken_as_air_is_found(plan_folder, monkeypatch):
    monkeypatch.setattr(missing_blocks, "demand_known", lambda *_: None)
    table = deposit()
    assert "slopes: " in refused(plan_folder, table[table["name"] != "b5-4-3"])


def test_a_cost_that_is_counted_from_the_highest_block_that_ore_needs_is_found(plan_folder, monkeypatch):
    monkeypatch.setattr(weighing, "reference_level", lambda *_: 8)
    far = deposit().iloc[[0]].assign(name="far", x=205.0, z=125.0, tonnes=1, must=0, never=0)
    table = pd.concat([deposit(), far], ignore_index=True)
    said = refused(plan_folder, table, TEXT, ('file = "blocks.csv"', 'file = "blocks.csv"\nmissing_blocks = "air"'))
    assert "money: " in said and "mining_cost" in said


def test_a_grid_that_begins_above_the_table_is_found(plan_folder, monkeypatch):
    """An empty level on top of the grid would raise the mining cost of each block by a bench."""

    def higher(frame, *arguments, **options):
        grid = laid(frame, *arguments, **options)
        x, y, z = grid.origin
        levels, *sides = grid.shape
        return replace(
            grid, shape=(levels + 1, *sides), origin=(x, y, z + grid.size[2]), rows=grid.rows + grid.per_level
        )

    laid = grids.of_table
    monkeypatch.setattr(grids, "of_table", higher)
    said = refused(plan_folder, None, TEXT)
    assert "blocks: the highest level of the grid is at 55 m, that of the table at 45" in said


def test_a_shell_of_other_blocks_is_found(plan_folder, monkeypatch):
    """The needs are left out of what the solver is given; what it answers is right for that and wrong for the mine."""
    for module in ("solver.mine_files", "precedences"):
        monkeypatch.setattr(f"pitplan.{module}.slices", lambda *_: iter(()))
    assert "slopes: " in refused(
        plan_folder, None, TEXT, ('[constraints]\nmust_mine = "must"\nexclude = "never"\n', "")
    )


@examples(5, suppress_health_check=[HealthCheck.function_scoped_fixture])
@given(
    st.integers(0, 10**6),
    st.sampled_from(["per_revenue_factor", "base_price"]),
    st.sampled_from(["continuous", "mid_year", "end_of_year"]),
    st.sampled_from(["", "mining_capacity = 1000\n"]),
)
def test_random_plans_are_right(plan_folder, seed, cutoff, discounting, shovels):
    """Uneven ground, two regions of other walls, rocks, fixed blocks, with and without a capacity of shovels."""
    rng = np.random.default_rng(seed)
    ground = rng.integers(3, 6, (9, 8))
    table = rows(9, 8, 5, region=lambda i, j, k: "12"[int(i > 4)], rock=lambda i, j, k: "RS"[int(k > 2)])
    height = ground[(table["x"] // 10).astype(int), (table["y"] // 10).astype(int)]
    table = table.assign(
        cu=np.where(rng.random(len(table)) < 0.06, rng.random(len(table)).round(3) * 8, 0.0),
        au=np.where(rng.random(len(table)) < 0.03, rng.random(len(table)).round(2) * 5, 0.0),
        must=(rng.random(len(table)) < 0.01).astype(int),
        never=0,
    )[table["z"] < 10 * height]
    domains = '[[slopes.domains]]\ndomain = "1"\nangle = 42\n[[slopes.domains]]\ndomain = "2"\nazimuths = [[0, 60], [180, 35]]'
    changes = [
        ('[[slopes.domains]]\npattern = "1:5"', domains),
        ("decimals = 2", f'decimals = 2\ncutoff = "{cutoff}"'),
        ("discount_rate = 0.1", f'discount_rate = 0.1\ndiscounting = "{discounting}"'),
        ("mining_capacity = 1000\n", shovels),
    ]
    plan = Plan.from_project(plan_folder(table, TEXT, *changes))
    assert [rule.differences for rule in looked_at(plan)] == [()] * 11


@pytest.mark.parametrize(
    "amounts", [[2**62] * 5, [-(2**62)] * 3 + [1], [2**32, 2**32 - 1, -1, -(2**32)], [], [10**30, -1]]
)
def test_sums_of_whole_numbers_have_no_limit(amounts):
    is_small = all(abs(amount) < 2**63 for amount in amounts)
    assert sums.total(np.array(amounts, dtype=np.int64 if is_small else object)) == sum(amounts)


def test_each_rows_own_columns_alone_are_read(plan_folder, tmp_path):
    """Of what the planner's table says itself the centres alone are taken from the answer, but where a row may stand for no row."""
    path = plan_folder(rows(3, 3, 2))
    blocks = rows(3, 3, 2).assign(id=range(18), revenue_factor=0)
    blocks.to_csv(tmp_path / "written.csv", index=False)
    few = read_blocks(
        tmp_path / "written.csv", project_file.load(path), ("id", "revenue_factor", "free_revenue_factor")
    )
    assert list(few.columns) == ["x", "y", "z", "id", "revenue_factor"]
    path.write_text(
        path.read_text().replace(
            'id = "name"', 'id = "name"\nmissing_blocks = { tonnes = 1, rock_type = "R", domain = "1" }'
        )
    )
    whole = read_blocks(
        tmp_path / "written.csv", project_file.load(path), ("id", "revenue_factor", "free_revenue_factor")
    )
    assert (
        list(whole.columns)
        == list(blocks.columns)
        == list(read_blocks(tmp_path / "written.csv", project_file.load(path)).columns)
    )


def test_a_column_without_rows_is_unknown_ground_up_to_its_top(plan_folder):
    """Only above the highest row of a column is air; of the corner column no row is known, of the one next to it the highest is missing."""
    table = rows(4, 4, 3, cu=lambda i, j, k: 6 if (i, j, k) == (2, 2, 1) else 0)
    lacking = (table["x"] == 5) & (table["y"] == 5) | (table["x"] == 15) & (table["y"] == 5) & (table["z"] == 25)
    path = plan_folder(table[~lacking])
    pitplan.write_shells(path, path.parent / "out", UNVERIFIED)
    mined = answer.read(path.parent / "out").first_factor
    assert mined[:, 0, 0].tolist() == [np.inf] * 3 and mined[:, 0, 1].tolist() == [0, np.inf, np.inf]
    assert mined[:, 2, 2].tolist() == [0.5, 0.5, np.inf]

"""Cost adjustment factors of blocks (MCAF and PCAF): money by hand, and what pitplan and the verification refuse."""

from dataclasses import replace

import numpy as np
import pandas as pd
import pytest
from conftest import PROJECT, rows
from helpers.block_commands import YEARLY, scheduled
from helpers.pushbacks import pillars
from helpers.scenarios import COLUMNS, UPRIGHT, prepared, solved_in_turn
from helpers.writings import PLAIN, UNVERIFIED

import pitplan
from pitplan import PlanError, verify
from pitplan.blockmodel import reader
from pitplan.economics.weighing import ValuedRows
from planaudit import AuditError
from planaudit.inputs import block_table, project_file

MILLION = 10**6
BOTH = ("mining_cost = 2\n", 'mining_cost = 2\nmcaf = "mc"\npcaf = "pc"\n')
BENCHES = (
    "mining_cost = 2\n",
    'mining_cost = 2\nmining_cost_per_bench = 0.25\nroyalty_per_tonne = 0.5\nmcaf = "mc"\npcaf = "pc"\n',
)
SELLING = ("price = 8000", "price = 8000\nselling_cost = 500")
ROAD = ("[slopes]", "[haulage]\npit_exit = [5, 5, 20]\nramp_gradient = 0.1\ncost = { ore = 3, waste = 2 }\n[slopes]")


def table_of(**more):
    """Two columns of two levels with 0.8 % of copper at the floor: 100 t yield 0.4 t of copper."""
    columns = {"cu": lambda i, j, k: 0 if k else 0.8, "mc": lambda i, j, k: 1.5 - i, "pc": lambda i, j, k: 0.9 + i / 4}
    return rows(2, 1, 2, **columns | more)


def values_of(path):
    values = pitplan.Plan.from_project(path).values
    return [(amounts / MILLION).tolist() for amounts in (values.mining, values.processing)]


def test_factors_multiply_costs_by_hand(plan_folder):
    """Of 100 t, from the top down and from the west: 2 a tonne to mine, times 1.5 and 0.5; 10 to process, times 0.9 and 1.15."""
    mining, processing = values_of(plan_folder(table_of(), PROJECT, BOTH))
    assert mining == [300, 100, 300, 100]
    assert processing == [0, 0, 900, 1150]


def test_increments_royalty_and_selling_are_added_after_the_factor(plan_folder):
    """A bench more costs 0.25 a tonne, the royalty is 0.5 a tonne, and 0.4 t of copper cost 200 to sell: none is multiplied."""
    mining, processing = values_of(plan_folder(table_of(), PROJECT, BENCHES, SELLING))
    assert mining == [300, 100, 325, 125]
    assert processing == [0, 0, 900 + 50 + 200, 1150 + 50 + 200]


def test_haulage_is_added_after_the_factor(plan_folder):
    """From floors at 10 and 0 m a ramp of 10 % climbs 100 and 200 m to 20 m; the second column is 10 m farther: 2 per tonne and kilometre, and ore
    costs 1 more."""
    mining, processing = values_of(plan_folder(table_of(), PROJECT, BOTH, ROAD))
    assert mining == pytest.approx([300 + 20, 100 + 22, 300 + 40, 100 + 42])
    assert processing == pytest.approx([0, 0, 900 + 20, 1150 + 21])


def test_factors_apply_to_costs_by_rock_type_and_to_each_process(plan_folder):
    several = (
        '[[processes]]\nname = "leach"\ncost = 3\ncapacity = 100\nrecovery = { copper = 0.2 }\n'
        '[[processes]]\nname = "mill"\ncost = { R = 10 }\ncapacity = 100\nrecovery = { copper = 0.5 }\n[slopes]\n'
    )
    changes = [
        ("mining_cost = 2\nprocessing_cost = 10\n", 'mining_cost = { R = 2 }\nmcaf = "mc"\npcaf = "pc"\n'),
        ("recovery = 0.5\n[slopes]\n", several),
        ("processing_capacity = 100\n", ""),
    ]
    values = pitplan.Plan.from_project(plan_folder(table_of(), PROJECT, *changes)).values
    assert (values.mining / MILLION).tolist() == [300, 100, 300, 100]
    leach, mill = values.by_process
    assert (leach.cost / MILLION).tolist() == [0, 0, 270, 345]
    assert (mill.cost / MILLION).tolist() == [0, 0, 900, 1150]


def test_a_factor_of_decimals_is_multiplied_exactly(plan_folder):
    """100.1 t x 2.15 x 1.1 = 236.7365, which is kept in whole cents as 236.74; floats have 236.73649999999998."""
    table = table_of(tonnes=lambda i, j, k: 100.1, mc=lambda i, j, k: 1.1)
    money = ("mining_cost = 2\n", 'mining_cost = 2.15\nmcaf = "mc"\ndecimals = 3\n')
    assert 100.1 * 2.15 * 1.1 < 236.7365
    mining, _ = values_of(plan_folder(table, PROJECT, money))
    assert mining == [236.736] * 4  # halves to the even one
    pitplan.write_shells(plan_folder(table, PROJECT, money), writing=PLAIN)


def test_one_column_may_be_both_factors(plan_folder):
    mining, processing = values_of(
        plan_folder(table_of(), PROJECT, ("mining_cost = 2\n", 'mining_cost = 2\nmcaf = "mc"\npcaf = "mc"\n'))
    )
    assert mining == [300, 100, 300, 100] and processing == [0, 0, 1500, 500]


def test_the_notes_say_which_costs_are_multiplied(plan_folder):
    table = table_of(tonnes=lambda i, j, k: 100 if i else 300)
    notes = pitplan.Plan.from_project(plan_folder(table, PROJECT, BOTH)).notes
    # 600 t at 1.5 and 200 t at 0.5.
    assert "the mining cost of each block is multiplied by mc: 0.5 to 1.5, on average 1.25 by tonnes" in notes
    assert "the processing cost of each block is multiplied by pc: 0.9 to 1.15, on average 0.9625 by tonnes" in notes


def test_reblocked_factors_are_means_by_tonnes_to_nine_decimals(plan_folder):
    """100 t at 1.5 and 200 t at 0.5 have 0.8333.. on average: 300 t x 2 x 0.833333333 = 499.9999998."""
    table = table_of(tonnes=lambda i, j, k: 100 * (1 + i), pc=lambda i, j, k: 1)
    path = plan_folder(table, PROJECT, BOTH, ("file =", "reblock = [2, 1, 1]\nfile ="))
    plan = pitplan.Plan.from_project(path)
    assert plan.table["mc"].tolist() == [0.833333333] * 2
    assert plan.values.mining.tolist() == [500 * MILLION] * 2
    pitplan.write_shells(path, writing=PLAIN)


def test_filled_blocks_have_the_factor_1(plan_folder):
    table = table_of(mc=lambda i, j, k: 3, pc=lambda i, j, k: 3)
    filled = ("file =", 'missing_blocks = { tonnes = 50, rock_type = "R", domain = "1" }\nfile =')
    path = plan_folder(table[table["name"] != "b0-0-0"], PROJECT, BOTH, filled)
    plan = pitplan.Plan.from_project(path)
    assert plan.blocks.set_index("name").loc["absent-2", ["mc", "pc", "mining_cost"]].tolist() == [1, 1, 100]
    pitplan.write_shells(path, writing=PLAIN)


@pytest.mark.parametrize("empty", ["refuse", "zero"])
@pytest.mark.parametrize(
    ("column", "row", "value", "words"),
    [
        (
            "mc",
            1,
            np.nan,
            r"blocks.csv row 3 column mc: is empty: expected the \[economics\] mcaf of the block, a number from 0: write 1",
        ),
        (
            "pc",
            3,
            np.nan,
            r"blocks.csv row 5 column pc: is empty: expected the \[economics\] pcaf of the block, a number from 0: write 1",
        ),
        (
            "mc",
            0,
            -99,
            r"blocks.csv row 2 column mc: -99 is negative: expected the \[economics\] mcaf of the block, a number from 0",
        ),
        ("pc", 2, np.inf, "blocks.csv row 4 column pc: is infinite"),
        ("pc", 2, "n/a", 'blocks.csv row 4 column pc: "n/a" is not a number'),
    ],
)
def test_a_factor_that_is_none_is_refused(plan_folder, empty, column, row, value, words):
    table = table_of().astype({column: object})
    table.loc[row, column] = value
    path = plan_folder(table, PROJECT, BOTH, ("file =", f'empty = "{empty}"\nfile ='))
    with pytest.raises(PlanError, match=words):
        pitplan.Plan.from_project(path)
    with pytest.raises(AuditError, match=f"row {row + 2} column {column}"):
        block_table.read(project_file.load(path))


def test_a_block_without_tonnes_needs_no_factor(plan_folder):
    table = table_of(
        tonnes=lambda i, j, k: 0 if (i, k) == (0, 1) else 100, mc=lambda i, j, k: np.nan if (i, k) == (0, 1) else 0
    )
    path = plan_folder(table, PROJECT, BOTH)
    plan = pitplan.Plan.from_project(path)
    assert plan.values.mining.tolist() == [0] * 4
    pitplan.write_shells(path, writing=PLAIN)


@pytest.mark.parametrize(
    ("change", "words"),
    [
        ('mcaf = "none"', "blocks.csv row 1: there is no column none"),
        ("mcaf = 1.2", r"\[economics\] mcaf: must be a text in quotes"),
        ('mcaf = "rock"', r"\[table\] rock_type: the column rock is also read as numbers"),
    ],
)
def test_a_column_that_cannot_be_a_factor_is_refused(plan_folder, change, words):
    with pytest.raises(PlanError, match=words):
        pitplan.Plan.from_project(plan_folder(table_of(), PROJECT, ("mining_cost = 2", f"mining_cost = 2\n{change}")))


@pytest.mark.parametrize("key", ["mcaf", "pcaf"])
def test_a_planted_wrong_factor_is_found(plan_folder, monkeypatch, key):
    """Costs are computed with the factors of the other column."""
    path = plan_folder(table_of(), PROJECT, BOTH)
    pitplan.write_shells(path, writing=PLAIN)
    adjusted, columns = ValuedRows.adjusted, {"mcaf": "mc", "pcaf": "pc"}
    monkeypatch.setattr(
        ValuedRows, "adjusted", lambda rows, cost, name: adjusted(rows, cost, "cu" if name == columns[key] else name)
    )
    with pytest.raises(PlanError, match="money: .*" + ("mining_cost" if key == "mcaf" else "processing_cost")):
        pitplan.write_shells(path, writing=PLAIN)


def test_a_factor_that_stands_in_for_an_empty_field_is_found(plan_folder, monkeypatch):
    table = table_of()
    table.loc[2, "mc"] = np.nan
    monkeypatch.setattr(reader, "complete", lambda frame, *_: frame.fillna(1.0, inplace=True))
    with pytest.raises(PlanError, match="row 4 column mc: is empty, expected a cost adjustment factor from 0"):
        pitplan.write_shells(plan_folder(table, PROJECT, BOTH), writing=PLAIN)


def test_the_project_as_run_names_the_factors(plan_folder):
    path = plan_folder(table_of(), PROJECT, BOTH)
    pitplan.write_shells(path, writing=PLAIN)
    again = pitplan.load(path.parent / "plan" / "project-as-run.toml")
    assert (again.economics.mcaf, again.economics.pcaf) == ("mc", "pc")


def test_sensitivity_changes_costs_before_the_factor(plan_folder):
    """Of the pit of all four blocks 1600 t-equivalents: mining costs 800 and processing 2050 of a revenue of 6400."""
    path = plan_folder(
        table_of(), PROJECT + "[sensitivity]\nchanges = [-0.5, 0.5]\n", BOTH, ("[0.5, 1.0, 1.5]", "[1.0]")
    )
    table = pitplan.write_sensitivity(path, writing=PLAIN).set_index(["parameter", "change"])
    worth = table["kept_undiscounted_cash_flow"].to_dict()
    base = 6400 - 800 - 2050
    assert worth["mining_cost", 0.5] == base - 400 and worth["mining_cost", -0.5] == base + 400
    assert worth["processing_cost", 0.5] == base - 1025 and worth["processing_cost", -0.5] == base + 1025


def test_scenarios_take_the_factors(plan_folder):
    """One column of three blocks, ore at the floor: each scenario's pit costs its factors."""
    table = (
        rows(1, 1, 3, mc=lambda i, j, k: 1 + k / 2, pc=lambda i, j, k: 0.7)
        .drop(columns="cu")
        .assign(sim_1=[1.5, 0, 0], sim_2=[0.9, 0, 0])
    )
    path = plan_folder(table, COLUMNS, UPRIGHT, BOTH)
    shared = prepared(path)
    assert shared.frame[["mc", "pc"]].to_numpy().tolist() == [[1, 0.7], [1.5, 0.7], [2, 0.7]]
    solved_in_turn(shared)
    pitplan.gather(shared.folder, writing=UNVERIFIED)
    told = pd.read_csv(shared.folder / "tables/scenarios.csv").set_index(["scenario", "revenue_factor"])
    worth = told["undiscounted_cash_flow"]
    assert worth[1, 1.0] == 6000 - 700 - 200 * (1 + 1.5 + 2) and worth[2, 1.0] == 3600 - 700 - 900
    assert not any(rule.differences for rule in verify(shared.folder))


def test_another_factor_is_another_key(plan_folder):
    """The results of scenarios are not those of other factors."""
    table = rows(1, 1, 3, mc=lambda i, j, k: 1).drop(columns="cu").assign(sim_1=[1.5, 0, 0], sim_2=[0.9, 0, 0])
    text = (COLUMNS, UPRIGHT, ("mining_cost = 2\n", 'mining_cost = 2\nmcaf = "mc"\n'))
    keys = [
        {job.key for job in prepared(plan_folder(it, *text)).jobs} for it in (table, table.assign(mc=[1, 1, 1.001]))
    ]
    assert not keys[0] & keys[1]


def test_factors_that_no_cost_uses_change_nothing(plan_folder):
    plain = pitplan.write_shells(plan_folder(table_of(), PROJECT), writing=PLAIN)
    ones = pitplan.write_shells(
        plan_folder(table_of(mc=lambda i, j, k: 1, pc=lambda i, j, k: 1), PROJECT, BOTH), writing=PLAIN
    )
    assert ones.equals(plain)


def test_a_schedule_by_block_takes_the_factors(plan_folder):
    """A pillar a year, worth 2600, 1400 and 600: half of the 400 for mining and a tenth of the 1000 for processing are saved."""
    pytest.importorskip("pitshell", reason="make library builds it")
    table = pillars(mc=lambda i, j, k: 0.5, pc=lambda i, j, k: 0.9)
    row, folder = scheduled(plan_folder, text=YEARLY.replace(*BOTH), table=table)
    assert row["npv"] == pytest.approx(2900 / 1.1 + 1700 / 1.21 + 900 / 1.331)
    assert not any(rule.differences for rule in verify(folder))


def test_a_project_made_in_python_has_factors(plan_folder):
    project = pitplan.load(plan_folder(table_of(), PROJECT, BOTH))
    other = replace(project, economics=replace(project.economics, mcaf=None))
    assert (pitplan.Plan.from_project(other).values.mining / MILLION).tolist() == [200] * 4

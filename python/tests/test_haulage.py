"""Haulage to one exit: road lengths and costs by hand, of ore and of waste, and what is refused."""

import json
from decimal import Decimal

import numpy as np
import pandas as pd
import pytest
from conftest import PROJECT, rows
from helpers.turned import turned
from helpers.writings import PLAIN, UNVERIFIED

import pitplan
import planaudit
from pitplan import PlanError
from pitplan.cli import main
from pitplan.config.project import load

MILLION = 1_000_000
# The exit lies 30 m west and 40 m north of the middle of the column 4, 0, at 30 m.
SECTION = """
[haulage]
pit_exit = [15, 45, 30]
ramp_gradient = 0.1
cost = { ore = 0.5, waste = 0.4 }
ex_pit_distance = { ore = 1000, waste = 200 }
"""


def hauled(plan_folder, table, section=SECTION, *changes):
    return plan_folder(table, PROJECT + section, *changes)


def test_roads_and_costs_by_hand(plan_folder):
    """Of the block in column 4, row 0, level 1, whose floor is 10 m high: 50 m in plan (30, 40, 50) and a ramp of 20 m / 0.1, 250 m.

    Waste: 0.4 x (250 + 200) / 1000 = 0.18 a tonne, of 100 t 18, with 2 a tonne 218. Ore: 0.5 x 1250 / 1000 = 0.625, which is 0.445 more,
    of 100 t 44.5, with 10 a tonne 1044.5.
    """
    plan = pitplan.Plan.from_project(hauled(plan_folder, rows(6, 2, 3, cu=lambda i, j, k: 2.0)))
    block = plan.blocks.set_index("name").loc["b4-0-1"]
    assert (block["haul_distance"], block["haulage_cost"], block["ore_haulage_cost"]) == (250, 18, 44.5)
    assert (block["mining_cost"], block["processing_cost"], block["revenue"]) == (218, 1044.5, 8000)


def test_roads_are_kept_to_a_millimetre_and_costs_are_exact(plan_folder):
    """Column 0, row 0: 10 m east and 40 m north are the root of 1700, 41.231 m, on the top level 41.231 + 100.

    At 0.37 a kilometre 0.37 x 141.231 / 1000 = 0.05225547, of 100.1 t 5.230772547, kept as 5.230773.
    """
    section = "[haulage]\npit_exit = [15, 45, 30]\nramp_gradient = 0.1\ncost = 0.37\n"
    plan = pitplan.Plan.from_project(hauled(plan_folder, rows(6, 2, 3, tonnes=lambda i, j, k: 100.1), section))
    block = plan.blocks.set_index("name").loc["b0-0-2"]
    assert block["haul_distance"] == 141.231 and block["haulage_cost"] == 5.230773
    assert Decimal(str(block["mining_cost"])) == (Decimal("100.1") * 2 + Decimal("5.230772547")).quantize(
        Decimal("1e-6")
    )
    assert block["ore_haulage_cost"] == 0
    said = plan.values.roundings["haulage cost"]
    assert said.values == 36 and said.changed > 0
    assert any("haul distances to the pit exit at 15, 45, 30 are" in note for note in plan.notes)


def test_a_road_is_rounded_once_and_verified(plan_folder):
    """28.284271 m in plan and a ramp of 40 / 0.12 = 333.333333 m are 361.617604 m: 361.618, where each part alone would be cut down."""
    section = "[haulage]\npit_exit = [25, 25, 40]\nramp_gradient = 0.12\ncost = 0.12\n"
    path = hauled(plan_folder, rows(6, 4, 4, cu=lambda i, j, k: 4.0), section)
    pitplan.write_shells(path, writing=PLAIN)
    assert pitplan.Plan.from_project(path).blocks.set_index("name").loc["b0-0-0", "haul_distance"] == 361.618


def test_blocks_above_the_exit_have_a_ramp_down(plan_folder):
    """The exit at -5 m, below all floors: the top level's floor is 25 m above it, its ramp 250 m."""
    section = "[haulage]\npit_exit = [5, 5, -5]\nramp_gradient = 0.1\ncost = 1\n"
    plan = pitplan.Plan.from_project(hauled(plan_folder, rows(3, 2, 3), section))
    assert plan.blocks.set_index("name")["haul_distance"][["b0-0-2", "b0-0-1", "b0-0-0", "b1-0-0"]].tolist() == [
        250,
        150,
        50,
        60,
    ]


def test_what_comes_to_the_mill_is_hauled_there(plan_folder):
    """Of 100 t 90 come to the mill, with 9 of dilution: 99 x 0.445 = 44.055 more for ore; all rock is hauled as waste first."""
    change = ("processing_cost = 10", "processing_cost = 10\nmining_recovery = 0.9\ndilution = 0.1")
    plan = pitplan.Plan.from_project(hauled(plan_folder, rows(6, 2, 3, cu=lambda i, j, k: 2.0), SECTION, change))
    block = plan.blocks.set_index("name").loc["b4-0-1"]
    assert (block["haulage_cost"], block["ore_haulage_cost"], block["processing_cost"]) == (
        18,
        44.055,
        99 * 10 + 44.055,
    )


def ore_hill():
    ore = {(6, 5, 1): 6, (3, 6, 2): 1.6, (8, 3, 2): 0.9, (5, 8, 3): 0.8}
    return rows(12, 11, 5, cu=lambda i, j, k: ore.get((i, j, k), 0))


def test_an_answer_is_verified_and_a_wrong_road_is_found(plan_folder):
    path = hauled(plan_folder, ore_hill())
    pitplan.write_shells(path, writing=UNVERIFIED)
    folder = path.parent / "plan"
    assert [rule.name for rule in planaudit.verify(folder) if rule.name == "haulage"] == ["haulage"]
    blocks = pd.read_csv(folder / "tables/blocks.csv")
    for column, by in (
        ("haul_distance", 0.002),
        ("haulage_cost", 0.01),
        ("ore_haulage_cost", 0.01),
        ("mining_cost", 0.01),
    ):
        blocks.assign(**{column: blocks[column] + by * (blocks.index == 7)}).to_csv(
            folder / "tables/blocks.csv", index=False
        )
        differences = [said for rule in planaudit.verify(folder) for said in rule.differences]
        assert any(column in said for said in differences)


def test_the_exit_of_a_turned_model_is_the_planners(plan_folder):
    """Turned by 30 degrees with its exit all roads and pits are those of the straight model."""
    found = []
    for degrees in (0, 30):
        exit_at = turned(pd.DataFrame({"x": [15.0], "y": [145.0]}), degrees, 6).iloc[0]
        section = SECTION.replace("[15, 45, 30]", f"[{exit_at['x']:.6f}, {exit_at['y']:.6f}, 30]")
        table = turned(ore_hill(), degrees, 6)
        path = hauled(plan_folder, table, section, ("size = [10, 10, 10]", "tolerance = 0.001"))
        pitplan.write_shells(path, writing=PLAIN)
        found.append(pd.read_csv(path.parent / "plan" / "tables/blocks.csv").set_index("name"))
    assert found[0]["revenue_factor"].nunique() > 2
    assert np.abs(found[1]["haul_distance"] - found[0]["haul_distance"]).max() <= 0.0011
    assert (found[1]["revenue_factor"] == found[0]["revenue_factor"]).all()


def test_sensitivity_to_haulage(plan_folder):
    """A tenth more a kilometre is a tenth more of all haulage, of what is dug and what is milled in the kept pit."""
    section = SECTION + '[sensitivity]\nchanges = [0.1]\nparameters = ["haulage"]\n'
    path = hauled(plan_folder, ore_hill(), section, ("discount_rate = 0.1", "discount_rate = 0.1\nselected = 1.0"))
    table = pitplan.write_sensitivity(path, path.parent / "hang", writing=PLAIN).set_index("parameter")
    plan = pitplan.Plan.from_project(path)
    entry = plan.shells().solution.entry[: plan.grid.count]
    mined = (entry > 0) & (entry <= 1.0)
    cost = plan.values.hauled.waste[mined].sum() + plan.values.hauled.ore_more[mined & plan.values.pays].sum()
    lost = table["kept_undiscounted_cash_flow"].iloc[0] - table.loc["haulage", "kept_undiscounted_cash_flow"]
    assert cost > 0 and lost == pytest.approx(0.1 * cost / MILLION, rel=1e-6)


def test_scenarios_haul_too(plan_folder, tmp_path):
    """Of a model that is turned, at coordinates of seven digits."""
    (tmp_path / "realisations").mkdir()
    table = turned(ore_hill(), 30)
    table[["x", "y", "z", "cu"]].to_csv(tmp_path / "realisations" / "a.csv", index=False)
    section = SECTION.replace("[15, 45, 30]", "[600035, 6500031, 30]")
    path = hauled(plan_folder, table, section + '[scenarios]\nrealisations = "realisations"\n')
    assert (
        main(["scenarios", str(path), "--out", str(tmp_path / "many"), "--workers", "1", "--quiet", "--no-figures"])
        == 0
    )
    likely, plan = pd.read_csv(tmp_path / "many" / "tables/probability.csv"), pitplan.Plan.from_project(path)
    assert likely[["x", "y", "z"]].to_numpy().tolist() == plan.blocks[["x", "y", "z"]].to_numpy().tolist()
    told = pd.read_csv(tmp_path / "many" / "tables/scenarios.csv").set_index("revenue_factor")["undiscounted_cash_flow"]
    shells = plan.shells().table.set_index("revenue_factor")["undiscounted_cash_flow"]
    assert told.tolist() == pytest.approx(shells.tolist()) and json.loads(
        (tmp_path / "many" / "scenarios.json").read_text()
    )


@pytest.mark.parametrize(
    ("old", "new", "said"),
    [
        (
            "pit_exit = [15, 45, 30]",
            "pit_exit = [15, 45]",
            r"\[haulage\] pit_exit: must be a list of 3 numbers, x, y and z",
        ),
        (
            "pit_exit = [15, 45, 30]",
            "pit_exit = [1e10, 45, 30]",
            r"\[haulage\] pit_exit: found 1E\+10, expected a coordinate in metres, at most 1,000,000,000",
        ),
        (
            "ramp_gradient = 0.1",
            "ramp_gradient = 10",
            r"\[haulage\] ramp_gradient: found 10, expected above 0 to 0.5, such as 0.1 for 10 %",
        ),
        ("waste = 0.4 }", "waste = -0.4 }", r"\[haulage.cost\] waste: found -0.4, expected 0 or more"),
        ("waste = 0.4 }", "dump = 0.4 }", r"\[haulage.cost\] waste: is missing"),
        ("ramp_gradient = 0.1", "ramp_gradient = 0.1\nroute = 3", r"\[haulage\] route: unknown key"),
        ("cost = { ore = 0.5, waste = 0.4 }", "", r"\[haulage\] cost: is missing"),
    ],
)
def test_what_is_refused(plan_folder, old, new, said):
    assert SECTION.count(old) == 1
    with pytest.raises(PlanError, match=said):
        load(hauled(plan_folder, rows(2, 2, 2), SECTION.replace(old, new)))


def test_ore_that_costs_less_than_nothing_to_mill_is_refused(plan_folder):
    """Ore is hauled for nothing, waste at 50 a kilometre: 450 m are 22.5 a tonne, more than the 10 of processing."""
    section = SECTION.replace("ore = 0.5, waste = 0.4", "ore = 0, waste = 50")
    said = r"row 2 column x, y, z: \[haulage\] hauling ore costs \S+ per tonne less than waste from here, more than its processing cost of 10"
    with pytest.raises(PlanError, match=said):
        pitplan.Plan.from_project(hauled(plan_folder, rows(6, 2, 3, cu=lambda i, j, k: 2.0), section))


def test_a_sensitivity_to_no_haulage_is_refused(plan_folder):
    with pytest.raises(PlanError, match=r"\[sensitivity\] varies haulage, and there is no section \[haulage\]"):
        load(plan_folder(rows(2, 2, 2), PROJECT + '[sensitivity]\nparameters = ["haulage"]\n'))

"""Schedules by block with stockpiles: against integer programmes, and by hand."""

import pandas as pd
import pytest
from helpers.block_commands import YEARLY, scheduled
from helpers.block_problems import complete_optimum, demand_sound, linear_optimum, stockpile_problem
from helpers.random_tests import seeds

from pitplan.config.schedule import Effort
from pitplan.scheduling.blocks import solve


@pytest.mark.slow
@pytest.mark.parametrize("batch", seeds(4, 20))
def test_small_schedules_with_stockpiles_are_the_best_that_there_are(batch):
    """Of up to 12 blocks, since one window holds them all."""
    for seed in range(4000 + 10 * batch, 4010 + 10 * batch):
        problem = stockpile_problem(seed)
        found, best = solve(problem, Effort(0.0, 600.0)), complete_optimum(problem)
        slack = 1e-6 * max(1.0, abs(best))
        assert demand_sound(problem, found.schedule) == pytest.approx(found.value, abs=slack)
        assert best - slack <= found.value <= best + slack and best <= found.bound + slack, seed


@pytest.mark.parametrize("batch", seeds(2, 20))
def test_the_bound_is_no_more_than_the_linear_programme(batch):
    """It may be less, since no block is mined before the years let it be mined with all above it."""
    for seed in range(4000 + 10 * batch, 4010 + 10 * batch):
        problem = stockpile_problem(seed, most=40)
        found, most = solve(problem), linear_optimum(problem)
        assert found.value <= found.bound <= most + 2e-4 * abs(most) + 1e-6, seed
        assert demand_sound(problem, found.schedule) == pytest.approx(found.value)


# Shovels take all three pillars in a year. From the second year on they cost five times as much.
AT_ONCE = YEARLY.replace("mining_capacity = 200", "mining_capacity = 600")
DEARER = "[[periods]]\nmining_cost_factor = 1\n[[periods]]\nmining_cost_factor = 5\n"
PILE = "stockpile = { reclaim_cost = 1, stacking_cost = 0.5, recovery = { copper = 0.9 } }\n"


def test_ore_waits_for_the_mill_on_a_stockpile(plan_folder):
    """All is mined in the first year, for 1200: the mill takes the richest ore, which earns 4000 less 1000, and 100 t each of the others are stacked, for 50
    each. Reclaimed they lose a tenth of the copper: 2520 less 1100, and 1800 less 1100. If the pile gives back its mean, 1060 in both years.
    """
    row, folder = scheduled(plan_folder, f"{DEARER}[schedule]\nyears = 3\n{PILE}", AT_ONCE)
    value = 1700 / 1.1 + 1420 / 1.21 + 700 / 1.331
    assert row["npv"] == pytest.approx(value) == row["upper_bound"] and row["years"] == 3
    assert row["npv_at_mean_grade"] == pytest.approx(1700 / 1.1 + 1060 / 1.21 + 1060 / 1.331)
    tables = folder / "tables"
    blocks = pd.read_csv(tables / "blocks.csv").set_index("name")
    assert blocks["year"].tolist() == [1] * 6 and blocks["share_mill"].sum() == 3
    assert blocks.loc[["b0-0-0", "b1-0-0", "b2-0-0"], "share_stockpile"].tolist() == [0, 1, 1]
    reclaims = pd.read_csv(tables / "reclaims.csv")
    assert reclaims[["year", "source", "destination", "share"]].to_numpy().tolist() == [
        [2, "stockpile", "mill", 1],
        [3, "stockpile", "mill", 1],
    ]
    stock = pd.read_csv(tables / "stockpiles.csv")
    assert stock[["in_tonnes", "out_tonnes", "closing_tonnes"]].to_numpy().tolist() == [
        [200, 0, 200],
        [0, 100, 100],
        [0, 100, 0],
    ]
    assert stock["grade_copper"].tolist()[:2] == pytest.approx([0.6, 0.5])
    feed = pd.read_csv(tables / "feed.csv")
    assert feed["reclaimed_tonnes"].tolist() == [0, 100, 100]
    assert feed["recovered_copper"].tolist() == pytest.approx([0.5, 0.315, 0.225])
    cash = pd.read_csv(tables / "cash_flow.csv")
    assert cash[["stacking_cost", "reclaim_cost"]].to_numpy().tolist() == [[100, 0], [0, 100], [0, 100]]
    assert cash["cash_flow"].tolist() == pytest.approx([1700, 1420, 700])


@pytest.mark.parametrize("capacity", [100, 150])
def test_a_stockpile_takes_what_it_holds(plan_folder, capacity):
    """With room for one of the two, or for half of the other, the poorest pillar does not pay for its mining."""
    pile = PILE.replace("recovery", f"capacity = {capacity}, recovery")
    row, folder = scheduled(plan_folder, f"{DEARER}[schedule]\nyears = 3\n{pile}", AT_ONCE)
    stock, limits = (pd.read_csv(folder / f"tables/{name}.csv") for name in ("stockpiles", "limits"))
    assert stock["closing_tonnes"].tolist() == [100, 0] and row["npv"] == pytest.approx(2150 / 1.1 + 1420 / 1.21)
    of_pile = limits[limits["limit"] == "stockpile_stockpile"]
    assert of_pile["used"].tolist() == [100, 0] and of_pile["maximum"].tolist() == [capacity] * 2


def test_a_stockpile_that_refuses_ore_changes_nothing(plan_folder):
    """No ore is as rich as what it accepts. The waste over the second pillar is mined in the first year, its ore in the second for 1000."""
    words = f"{DEARER}[schedule]\nyears = 3\n"
    pile = PILE.replace("recovery", "accepts = { cu = { min = 5 } }, recovery")
    rows = [scheduled(plan_folder, words + more, AT_ONCE)[0] for more in ("", pile)]
    assert rows[0]["npv"] == rows[1]["npv"] == pytest.approx(2400 / 1.1 + 800 / 1.21)

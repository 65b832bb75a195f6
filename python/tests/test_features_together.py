"""Random projects with many of their keys at once: what is written is right by the second look, by whatever command."""

import numpy as np
import pytest
from conftest import PROJECT
from helpers.random_projects import haulage, pick, project_of, table_of
from helpers.random_tests import seeds
from helpers.writings import UNVERIFIED

import pitplan
from pitplan import verify


@pytest.mark.slow
@pytest.mark.parametrize("seed", seeds(8, 200))
def test_what_is_written_is_right(plan_folder, monkeypatch, seed):
    rng = np.random.default_rng(seed)
    changes, is_one = project_of(rng)
    if rng.random() < 0.3:
        # Of 1,440 cells what no shell can reach is left out: no cone above the ore goes beyond the 15th of 20 columns.
        monkeypatch.setattr(pitplan.blockmodel.grid, "MOST_BLOCKS", 1200)
    rules = "[schedule]\nbench_lag = 1\nyears = 9\n" + pick(
        rng, "", "bins = 3\n", "bins = 3\nstockpile = { reclaim_cost = 0.4 }\n", "stockpile = { reclaim_cost = 0.4 }\n"
    )
    rules += pick(rng, "", "[cash_flow]\ntax_rate = 0.3\nclosure_cost = 500\ndiscount_rates = [0.05]\n")
    if is_one:
        rules += pick(rng, "", "[schedule.feed]\nau = { max = 3 }\n", "[schedule.feed]\ncu = { min = 0.4 }\n")
    text = (
        PROJECT
        + haulage(rng)
        + f'[pushbacks]\nrevenue_factors = [0.5, 1.0]\n{rules}[constraints]\nmust_mine = "must"\nexclude = "never"\n'
    )
    path = plan_folder(table_of(rng), text, *changes)
    ways = [
        (pitplan.write_shells, "plan"),
        (pitplan.write_pushbacks, "plan/pushbacks"),
        (pitplan.write_schedule, "plan/schedule"),
        (pitplan.write_pit, "plan/pit"),
    ]
    command, folder = ways[seed % 4]
    table = command(path, writing=UNVERIFIED)
    assert len(table) and not any(rule.differences for rule in verify(path.parent / folder))

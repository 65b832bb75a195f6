"""Schedules by block over scenarios under all rules at once, against integer programmes over the tables that the tests state."""

import json

import numpy as np
import pandas as pd
import pytest
from helpers.block_scenarios import prepared
from helpers.random_mines import YEARS
from helpers.random_tests import seeds
from helpers.scenario_mines import common_optimum, own_optimum, random_scenario_mine
from helpers.writings import PLAIN

import pitplan
from pitplan import PlanError, Request
from pitplan.studies.scenarios import worker

INFEASIBLE = ("infeasible", "no schedule of whole blocks")


@pytest.mark.slow
@pytest.mark.parametrize("seed", seeds(3, 300))
def test_schedules_over_scenarios_are_within_their_optima_and_bounds(plan_folder, seed):
    """The common schedule as planned, and the own one of each scenario, earn at most the optimum, which is within the bound. In each scenario the common
    schedule sends its blocks where they earn most. What is written is verified."""
    mine = random_scenario_mine(seed)
    shared = prepared(plan_folder(mine.mine.table, mine.text))
    why = [worker.solve(str(shared.folder), job.number).why for job in shared.missing()]
    assert all(any(said in it for said in INFEASIBLE) for it in why if it)
    common, own = common_optimum(mine.scenarios), [own_optimum(it) for it in mine.scenarios]
    assert [it == "" for it in why] == [it is not None for it in (*own, common)]
    if common is None or not any(it is not None for it in own):
        with pytest.raises(PlanError, match="was not made|have no result"):
            pitplan.gather(shared.folder, Request(partial=True), writing=PLAIN)
        return
    pitplan.gather(shared.folder, Request(partial=True), writing=PLAIN)
    record = json.loads((shared.folder / "common_schedule.json").read_text())
    within(record["npv_as_planned"], common, record["upper_bound_as_planned"])
    years = pd.read_csv(shared.folder / "tables/common_schedule.csv").set_index("name")["year"]
    years = np.where(years[mine.mine.table["name"]] > 0, years[mine.mine.table["name"]] - 1, YEARS)
    rows = pd.read_csv(shared.folder / "tables/schedules.csv")
    for row, optimum, scenario in zip(rows.itertuples(), own, mine.scenarios):
        if optimum is not None:
            within(row.npv, optimum, row.upper_bound)
        best = own_optimum(scenario, years)
        is_over = bool(mine.mine.dumps) and row.common_excess_waste_tonnes > 0
        assert (best is None) == is_over
        assert is_over or row.common_npv == pytest.approx(best, abs=0.01 + 1e-6 * abs(best))


def within(value, optimum, bound):
    slack = 0.01 + 1e-6 * abs(optimum)
    assert value <= optimum + slack <= bound + 2 * slack

"""Schedules under all rules at once, from the table on, against an integer programme over the table that the tests state."""

import json

import pandas as pd
import pytest
from helpers.optima import benches, blocks_alone, optimum_of, scheduled
from helpers.random_mines import certifiable, random_mine, random_pushback_mine, random_stockpile_mine
from helpers.random_tests import seeds
from helpers.writings import UNVERIFIED

import pitplan
from pitplan import PlanError, verify

BATCH = 5
INFEASIBLE = "infeasible", "no schedule of whole blocks"
# A stockpile whose limits do not hold what lies there at the start, and a mine without a block that is not cut off.
REFUSED = "tonnes lie there at the start", "is empty"


@pytest.mark.parametrize("batch", seeds(4, 40))
@pytest.mark.parametrize("draw", [random_mine, random_stockpile_mine])
def test_value_and_bound_hold_the_optimum_between_them(plan_folder, batch, draw):
    """Of mines of 4 to 12 blocks one window of the integer programmes has all years, so the value is the optimum; with stockpiles nearly, since each block
    goes to a few destinations at most."""
    for seed in range(BATCH * batch, BATCH * (batch + 1)):
        mine = draw(seed)
        optimum = optimum_of(mine, blocks_alone(mine))
        plan = pitplan.Plan.from_project(plan_folder(mine.table, mine.text))
        try:
            found = plan.block_schedule().found
        except PlanError as error:
            assert any(said in str(error) for said in (*REFUSED, *([] if optimum else INFEASIBLE))), seed
            continue
        slack = 0.01 + 1e-6 * abs(optimum)
        assert found.value <= optimum + slack <= found.bound + 2 * slack, seed
        assert found.value >= optimum - slack - 0.02 * abs(optimum) * bool(mine.piles), seed


@pytest.mark.parametrize("batch", seeds(4, 40))
def test_a_schedule_by_pushback_is_the_best_of_its_parcels(plan_folder, batch):
    """The integer programme finds the optimum where each block of ore is a parcel of its own; otherwise parcels may cost something."""
    for seed in range(BATCH * batch, BATCH * (batch + 1)):
        mine = random_pushback_mine(seed)
        of_mine = scheduled(mine, plan_folder(mine.table, mine.text))
        if of_mine is None:
            continue
        found, optimum = of_mine
        slack = 0.01 + 1e-6 * abs(optimum)
        value, is_exact = found.value(found.shown), len(found.material.parcels) == len(found.material.blocks)
        assert value <= optimum + slack <= found.upper_bound + 2 * slack, seed
        assert value >= optimum - slack or not is_exact, seed


WAYS = {
    "schedule": (random_pushback_mine, pitplan.write_schedule),
    "block_schedule": (random_mine, pitplan.write_block_schedule),
    "stockpiles by block": (random_stockpile_mine, pitplan.write_block_schedule),
}


@pytest.mark.slow
@pytest.mark.parametrize("seed", seeds(3, 200))
@pytest.mark.parametrize("way", WAYS)
def test_the_audit_finds_what_is_written_right(plan_folder, way, seed):
    draw, write = WAYS[way]
    mine = draw(seed)
    path = plan_folder(mine.table, mine.text)
    try:
        write(path, path.parent / "out", writing=UNVERIFIED)
    except PlanError as error:
        assert any(said in str(error) for said in (*INFEASIBLE, *REFUSED))
    else:
        assert {rule.name: rule.differences for rule in verify(path.parent / "out") if rule.differences} == {}


# Mines whose certificate or its audit was once wrong: half-years, nothing to mine, a limit that no block uses, crumbs of a solver, a dump that must take
# something; lots that a process does not take, a stockpile to be emptied, a minimum of one that ore keeps which does not pay, and both; and a share that
# several limits reduce.
WRONG_ONCE = {"schedule": (27, 82, 106, 135), "block_schedule": (1, 69, 70, 96, 118), "stockpiles by block": (36,)}


@pytest.mark.slow
@pytest.mark.parametrize(
    ("way", "seed"), [(way, seed) for way in WAYS for seed in dict.fromkeys([*WRONG_ONCE[way], *seeds(2, 200)])]
)
def test_a_certificate_holds_the_optimum_below_its_bound(plan_folder, way, seed):
    """No schedule is worth more than pitschedule proves, and none within the limits earns less than the one that is certified, but for rounding."""
    draw, write = WAYS[way]
    mine = certifiable(draw(seed))
    path = plan_folder(mine.table, mine.text)
    out = path.parent / "out"
    try:
        write(path, out, writing=UNVERIFIED, certificate=True)
    except PlanError as error:
        assert any(said in str(error) for said in (*INFEASIBLE, *REFUSED))
        return
    units = benches(mine, pushbacks_in(out, mine)) if way == "schedule" else blocks_alone(mine)
    (record,) = [json.loads(file.read_text()) for file in out.glob("*schedule.json")]
    optimum = optimum_of(mine, units)
    slack = 0.02 + 3e-5 * abs(optimum)
    assert record["certificate"]["value"] <= optimum + slack <= record["certificate"]["bound"] + 2 * slack
    assert {rule.name: rule.differences for rule in verify(out) if rule.differences} == {}


def pushbacks_in(folder, mine):
    """The pushback of each block of the mine's table, 0 for none."""
    blocks = pd.read_csv(folder / "tables/blocks.csv").set_index("name")
    return blocks["pushback"].reindex(mine.table["name"]).fillna(0).to_numpy(int)

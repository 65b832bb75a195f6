"""The relaxation of material flow as a convex function of the prices of limits, and the search for the prices at which it is lowest."""

import numpy as np
import pytest
from helpers.flows import mine_of, mines, model_of, processes, stockpiles
from helpers.programmes import limits
from helpers.random_mines import random_pushback_mine
from helpers.random_tests import examples, seeds
from hypothesis import given, strategies as st

import pitplan
from pitplan import PlanError
from pitplan.scheduling.flow.bound import Lagrangian
from pitplan.scheduling.flow.multipliers import Multipliers
from pitplan.scheduling.flow.programme import FlowProgramme


def demand_convex(programme, draw):
    """At random prices the flows of the relaxation keep all rows but those of limits, their value and the prices of what they leave of the limits are
    the relaxation's, and the plane there is below it at other prices."""
    search = Multipliers(programme)
    size, unit = len(search.keys) * programme.years, programme.unit
    first, second = (unit * draw.random(size) * (draw.random(size) < 0.5) for _ in range(2))
    plane, other = search.plane(first), search.plane(second)
    unknowns = plane.unknowns.toarray()[0]
    whole = programme.programme
    rows = whole.matrix[: programme.first_limit] @ unknowns
    assert (rows <= whole.most[: programme.first_limit] + 1e-6 * (1 + np.abs(rows))).all()
    assert (unknowns >= -1e-9).all()
    value = whole.gain @ unknowns * unit - programme.costs[0]
    slack = 1e-7 * (1 + abs(plane.value) + np.abs(first * plane.slope).sum())
    assert plane.value == pytest.approx(value + first @ plane.slope, abs=slack)
    assert other.value >= plane.value + plane.slope @ (second - first) - slack


@examples(20)
@given(mines, limits, processes, st.integers(0, 1), stockpiles, st.integers(0, 10**6))
def test_the_plane_at_some_prices_is_below_the_relaxation_at_others(pits, limits, several, lag, piles, seed):
    model = model_of(mine_of(pits, lag), several, limits, 4, piles)
    demand_convex(FlowProgramme(model), np.random.default_rng(seed))


@examples(10)
@given(mines, limits, processes, st.integers(0, 1), stockpiles)
def test_the_lowest_relaxation_is_the_optimum_of_the_linear_programme(pits, limits, several, lag, piles):
    """By strong duality. The optima that the planes weigh nearly keep the limits, and earn nearly as much."""
    programme = FlowProgramme(model_of(mine_of(pits, lag), several, limits, 4, piles))
    optimum, slack = programme.solved(), 1e-6 * programme.unit
    found = Multipliers(programme).found({}, 1e-7)
    assert found.value == pytest.approx(optimum.value, rel=1e-4, abs=slack) and found.value >= optimum.value - slack
    assert found.cash @ programme.model.discounts == pytest.approx(optimum.value, rel=1e-3, abs=1e3 * slack)
    for limit in programme.limits:
        price = found.prices[limit.name, limit.side]
        assert (price >= 0).all() and not price[~limit.holds].any()


@pytest.mark.parametrize("batch", seeds(3, 30))
def test_mines_under_all_rules_have_such_planes(plan_folder, batch):
    """Dumps, opening balances, minimums, costs of years and head grades at once; without minimums the search ends at the optimum."""
    for seed in range(4 * batch, 4 * (batch + 1)):
        mine = random_pushback_mine(seed)
        try:
            model = pitplan.Plan.from_project(plan_folder(mine.table, mine.text)).shells().pushbacks().schedule().model
        except PlanError:
            continue
        programme = FlowProgramme(model)
        demand_convex(programme, np.random.default_rng(seed))
        if not model.asks_least:
            optimum = programme.solved().value
            found = Multipliers(programme).found({}, 1e-7)
            assert found.value == pytest.approx(optimum, rel=1e-4, abs=0.01), seed
            assert Lagrangian(programme, found.prices).value == pytest.approx(found.value, abs=0.01), seed

"""Flows that earn nearly the most at prices of limits, and the year after which a schedule is worth most."""

import numpy as np
from helpers.flows import mine_of, mines, model_of, processes, stockpiles
from helpers.programmes import limits
from helpers.random_tests import examples
from hypothesis import given, strategies as st

from pitplan.scheduling.flow.bound import Lagrangian
from pitplan.scheduling.flow.flows import best
from pitplan.scheduling.flow.programme import FlowProgramme


@examples(15)
@given(mines, limits, processes, st.integers(0, 1), stockpiles)
def test_a_programme_of_flows_near_the_best_keeps_the_optimum(pits, limits, several, lag, piles):
    """At its own prices no flow of the optimum earns less than the best of its parcel (complementary slackness)."""
    programme = FlowProgramme(model_of(mine_of(pits, lag), several, limits, 4, piles))
    optimum = programme.solved()
    near = Lagrangian(programme, optimum.prices).near_best(0.05)
    assert near.shape == (sum(programme.sizes),)
    assert not (programme.holding(optimum) & ~near).any() or optimum.value == 0
    less = FlowProgramme(programme.model, kept=near).solved()
    assert abs(less.value - optimum.value) <= 1e-6 * programme.unit


@examples(10)
@given(mines, limits, processes, st.integers(0, 1), stockpiles, st.integers(0, 10**6))
def test_the_best_end_is_that_of_all_years(pits, limits, several, lag, piles, seed):
    model = model_of(mine_of(pits, lag), several, limits, 4, piles)
    mined = np.zeros((len(model.benches), 4))
    mined[0, np.random.default_rng(seed).integers(0, 4)] = 1.0
    flows = best(model, mined)
    values = [flows.until(year).value for year in range(5)]
    assert flows.until(flows.best_end).value >= max(values) - 1e-6 * max(1.0, *np.abs(values))

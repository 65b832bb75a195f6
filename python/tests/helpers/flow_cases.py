"""Mines of a bench or two whose material flow is worked out by hand."""

from dataclasses import replace

import numpy as np

from pitplan.config.material import Stockpile
from pitplan.config.periods import Calendar
from pitplan.scheduling.flow.material import Ore
from pitplan.scheduling.flow.model import FlowModel, OpeningOre
from pitplan.scheduling.limits import of_places

from .benches import benches_of, problem_of, yearly_limits


def two_benches(limits, years, cost=None):
    """Ore of 1 and of 10 a tonne, 100 t of each, over 100 t of the rich; mining costs 1 a tonne. They sink a bench a year."""
    benches = benches_of((1, 0, 200, 0, -200), (1, 1, 100, 0, -100))
    amounts = {"feed_tonnes": np.array([[100.0, 100, 100]]), "recovered_copper": np.ones((1, 3))}
    ore = Ore(np.array([0, 0, 1]), np.array([1, 2, 2]), np.array([[100.0, 1000, 1000]]), amounts)
    return FlowModel(problem_of(benches, limits), ore, years, () if cost is None else (Stockpile(cost),))


def blended(cost):
    """A bench of 100 t with 180 ppm of arsenic over one with 60; a bench is mined a year, and there are two. The mill takes 150 t a year with
    100 ppm at most. A tonne of the upper ore gains 10, of the lower 100."""
    benches = benches_of((1, 0, 100, 0, 0), (1, 1, 100, 0, 0))
    excess = 100 * (np.array([[180.0, 60]]) - 100)
    amounts = {"feed_tonnes": np.array([[100.0, 100]]), "grade_as_max": excess}
    ore = Ore(np.array([0, 1]), np.array([2, 1]), np.array([[1000.0, 10_000]]), amounts)
    limits = yearly_limits({"feed_tonnes": 150, "total_tonnes": 100, "grade_as_max": 0.0})
    return FlowModel(problem_of(benches, limits), ore, 2, () if cost is None else (Stockpile(cost),))


def lying(gain, excess, capacity=None):
    """The mine of `blended` with 60 t on the stockpile at the start, of which a tonne gains so much before its reclaim cost of 1."""
    model = blended(1.0)
    ore = Ore(
        np.zeros(1, dtype=np.int64),
        np.ones(1, dtype=np.int64),
        np.array([[60.0 * (gain - 1.0)]]),
        {"feed_tonnes": np.array([[60.0]]), "grade_as_max": np.array([[60.0 * excess]])},
    )
    piles = (Stockpile(1.0, capacity=capacity),)
    limits = replace(model.problem.limits, places=of_places(Calendar(), piles))
    lots = OpeningOre(ore, np.zeros(1, dtype=np.int64))
    return replace(model, problem=replace(model.problem, limits=limits), lots=lots, stockpiles=piles)


def slack_of(model):
    return 3e-6 * max(1.0, np.abs(model.benches.of("cash_flow")).sum() + np.abs(model.ore.gain).sum())

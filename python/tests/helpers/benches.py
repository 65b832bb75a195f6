"""Benches of pushbacks as the schedulers take them, random pits of them, and what makes a schedule of them feasible."""

from types import SimpleNamespace

import numpy as np
from hypothesis import strategies as st

from pitplan.config.periods import Calendar
from pitplan.pushbacks.bench_table import PushbackBenches
from pitplan.scheduling.bench_sequencing import Problem
from pitplan.scheduling.flow import scheduler
from pitplan.scheduling.flow.material import Ore
from pitplan.scheduling.flow.model import FlowModel
from pitplan.scheduling.flow.programme import FlowProgramme
from pitplan.scheduling.limits import MAX, MIN, Limit, Limits

# By so much of it a limit may be missed.
TOLERATED = 1e-8
NAMES = ("total_tonnes", "feed_tonnes", "recovered_copper", "cash_flow")


def problem_of(benches, limits, rate=0.1, discounting="end_of_year"):
    settings = SimpleNamespace(discount_rate=rate, discounting=discounting, calendar=Calendar())
    return Problem(benches, limits, settings)


def yearly_limits(most, ramp_up=(1.0,), rate=np.inf, *, least=None, by_year=None, places=None, calendar=Calendar()):
    """Limits per year by name, those of feed with a ramp-up; `by_year` has by name and side the amounts of years that differ."""
    by_year = by_year or {}

    def limit(name, side, amount):
        shares = ramp_up if name.startswith("feed") else (1.0,)
        return Limit(name, side, amount, tuple(by_year.get((name, side), ())), shares, calendar)

    return Limits(
        {name: limit(name, MAX, amount) for name, amount in most.items()},
        {name: limit(name, MIN, amount) for name, amount in (least or {}).items()},
        limit("vertical_advance_", MAX, rate) if np.isfinite(rate) else None,
        places or {},
    )


def amounts_of(limits):
    """The maxima per year by name."""
    return {name: it.amount for name, it in limits.most.items()}


def ramp_of(limits):
    """The ramp-up of the feed."""
    return next((it.ramp_up for name, it in limits.most.items() if name.startswith("feed")), (1.0,))


def rate_of(limits):
    """The most benches by which a pushback sinks in a year, infinite without a limit."""
    return np.inf if limits.advance is None else limits.advance.amount


def without_flows(problem, years):
    """A model whose benches hold all that is limited and earned: there is no ore that could go elsewhere."""
    nothing = np.zeros(0, dtype=np.int64)
    return FlowModel(problem, Ore(nothing, nothing, np.zeros((1, 0)), {}), years)


def optimum_of(problem, years):
    return FlowProgramme(without_flows(problem, years)).solved()


def made_of(problem, years):
    """The shares of benches by year of the schedule that is made of the optimum."""
    model = without_flows(problem, years)
    return scheduler.from_optimum(model, FlowProgramme(model).solved()).mined


def benches_of(*benches, lag=0):
    """Of (pushback, level, rock, ore, cash): each tonne of ore yields a hundredth of copper."""
    pushback, level, rock, ore, cash = (np.array(column) for column in zip(*benches))
    return PushbackBenches(pushback, level, NAMES, np.column_stack([rock, ore, ore / 100, cash]).astype(float), lag)


# A pit of two pushbacks: waste over ore, and beside it ore alone.
THREE = [(1, 0, 100, 0, -200), (1, 1, 100, 100, 1000), (2, 0, 100, 100, 500)]
amounts = st.tuples(st.sampled_from([10, 50, 100]), st.sampled_from([0, 0.3, 1]), st.integers(-300, 900))
pits = st.lists(st.tuples(st.integers(0, 2), st.lists(amounts, min_size=1, max_size=5)), min_size=1, max_size=4)


def random_benches(pit, lag):
    rows = []
    for pushback, (top, benches) in enumerate(pit, 1):
        rows += [(pushback, top + k, rock, rock * share, cash) for k, (rock, share, cash) in enumerate(benches)]
    return benches_of(*rows, lag=lag)


def demand_minable(benches, limits, shares):
    """Each bench once, within the limits to the tolerance of the solver, and begun in no year by whose end what it waits for is not
    through."""
    done = shares.cumsum(axis=1)
    assert (shares >= 0).all() and (done <= 1 + 1e-9).all()
    for year in range(shares.shape[1]):
        ramp = ramp_of(limits)[min(year, len(ramp_of(limits)) - 1)]
        for name, most in amounts_of(limits).items():
            allowed = most * (ramp if name == "feed_tonnes" else 1)
            assert benches.of(name) @ shares[:, year] <= allowed * (1 + TOLERATED) + 1e-9
        for pushback in set(benches.pushback.tolist()):
            assert shares[benches.pushback == pushback, year].sum() <= rate_of(limits) * (1 + TOLERATED) + 1e-9
        for bench in np.flatnonzero(shares[:, year]):
            for other in range(len(benches)):
                above = (
                    benches.pushback[other] == benches.pushback[bench] and benches.level[other] < benches.level[bench]
                )
                earlier = (
                    benches.pushback[other] < benches.pushback[bench]
                    and benches.level[other] <= benches.level[bench] + benches.lag
                )
                assert not (above or earlier) or done[other, year] > 1 - 1e-9

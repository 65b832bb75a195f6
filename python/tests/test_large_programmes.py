"""Large linear programmes, whose prices are searched for, next to the whole programme."""

import numpy as np
import pytest
from conftest import rows
from helpers.optima import scheduled
from helpers.pushbacks import PUSHBACKS, wrong
from helpers.random_mines import random_pushback_mine
from helpers.random_tests import seeds
from helpers.writings import PLAIN
from scipy.sparse import csr_matrix

import pitplan
from pitplan import load
from pitplan.config.periods import Calendar, Period
from pitplan.scheduling import highs_process, pushback_schedule
from pitplan.scheduling.flow import programme
from pitplan.scheduling.highs import Programme, optimum_of
from pitplan.scheduling.pushback_schedule import near_choices, years_near


def test_years_near_those_of_a_bench_by_hand():
    """A bench that is mined in years 5 and 6 may be mined in years 2 to 9; one that is never mined, in the last years."""
    cumulative = np.zeros((2, 10))
    cumulative[0, 4:] = [0.3, 1, 1, 1, 1, 1]
    near = years_near(cumulative, Calendar())
    assert (np.flatnonzero(near[0]) + 1).tolist() == [2, 3, 4, 5, 6, 7, 8, 9]
    assert (np.flatnonzero(near[1]) + 1).tolist() == [7, 8, 9, 10]


def test_years_near_those_of_a_bench_are_years_in_quarters():
    """A bench that is mined in the first quarter of year 5 may be mined up to three years before and after that quarter."""
    cumulative = np.zeros((1, 40))
    cumulative[0, 16:] = 1
    near = years_near(cumulative, Calendar((Period(years=10, period_months=3),)))
    assert (np.flatnonzero(near[0]) + 1).tolist() == list(range(5, 30))


def test_choices_of_far_years_are_those_of_the_nearest_near_year():
    choices, near = np.array([[1, 2, 3, 4, 5], [1, 2, 3, 4, 5]]), np.zeros((2, 5), dtype=bool)
    near[0, 1:3] = near[1, 4] = True
    assert near_choices(choices, near).tolist() == [[2, 2, 3, 3, 3], [5, 5, 5, 5, 5]]


def test_a_programme_without_idle_unknowns_has_the_same_optimum():
    draw = np.random.default_rng(5)
    for _ in range(20):
        matrix = csr_matrix(np.where(draw.random((8, 12)) < 0.4, draw.random((8, 12)), 0.0))
        upper = np.where(draw.random(12) < 0.5, 0.0, 1.0)
        whole = Programme(draw.random(12), matrix, draw.random(8), upper, np.zeros(12, dtype=bool))
        less, unknowns, kept = whole.reduced()
        assert len(less.gain) == max(1, np.count_nonzero(upper)) or not upper.any()
        first, second = optimum_of(whole, 0.0, None), optimum_of(less, 0.0, None)
        assert second.bound == pytest.approx(first.bound)
        # The dual values of the rows that are left prove the same bound.
        prices = np.zeros(8)
        prices[kept] = second.prices
        reduced = np.maximum(whole.gain - whole.matrix.T @ prices, 0.0) @ upper
        assert prices @ whole.most + reduced == pytest.approx(first.bound)


def test_cases_at_a_time_keep_their_order_and_raise():
    assert highs_process.at_a_time(lambda it: it * it, range(20)) == [it * it for it in range(20)]
    with pytest.raises(ZeroDivisionError):
        highs_process.at_a_time(lambda it: 1 // it, [1, 0, 2])


MORE = """
[schedule]
vertical_advance_rate = 2
bench_lag = 1
stockpile = { reclaim_cost = 0.5 }
[schedule.feed]
as_ppm = { max = 60 }
"""


@pytest.mark.slow
def test_the_schedule_is_that_of_the_whole_programme(plan_folder, monkeypatch):
    """A hill with grades of copper and arsenic, as if its programme were large: the bound holds, and NPV and bound are near those of the whole
    programme. planaudit finds nothing."""
    draw = np.random.default_rng(3)
    table = rows(9, 7, 5, cu=lambda i, j, k: round(float(draw.random()) * (1.2 if k < 3 else 0.2), 3))
    table["as_ppm"] = [round(float(it) * 120, 1) for it in draw.random(len(table))]
    text = PUSHBACKS.replace("processing_capacity = 100", "processing_capacity = 2400").replace(
        "mining_capacity = 200", "mining_capacity = 6000"
    )
    project = load(plan_folder(table, text + MORE))
    whole = pitplan.write_schedule(project, writing=PLAIN).set_index("method").loc["lp"]
    monkeypatch.setattr(programme, "MANY", 0)
    large = pitplan.write_schedule(project, writing=PLAIN).set_index("method").loc["lp"]
    assert wrong(project.folder / "schedule") == {}
    assert large["npv"] <= min(large["upper_bound"], whole["upper_bound"]) + 1
    assert large["npv"] >= 0.99 * whole["npv"]
    assert large["upper_bound"] <= 1.02 * whole["upper_bound"]


@pytest.mark.parametrize("batch", seeds(1, 20))
def test_random_mines_as_if_they_were_large(plan_folder, monkeypatch, batch):
    """Of few bins, whose prices are searched for: no schedule is above the optimum of an integer programme over single blocks, and no bound below."""
    monkeypatch.setattr(programme, "MANY", 0)
    monkeypatch.setattr(pushback_schedule, "FEW_BINS", 2)
    for seed in range(6 * batch, 6 * (batch + 1)):
        mine = random_pushback_mine(seed)
        of_mine = scheduled(mine, plan_folder(mine.table, mine.text))
        if of_mine is None:
            continue
        found, optimum = of_mine
        slack = 0.01 + 1e-6 * abs(optimum)
        assert found.value(found.shown) <= optimum + slack <= found.upper_bound + 2 * slack, seed

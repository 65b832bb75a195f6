"""Benches of pushbacks, which of them wait for which, and schedules by rule, against cases worked by hand and a walk of the tests' own."""


import numpy as np
import pytest
from helpers.benches import THREE, benches_of, demand_minable, pits, problem_of, random_benches, yearly_limits
from hypothesis import given, strategies as st

from pitplan import PlanError
from pitplan.scheduling.bench_sequencing import BenchSequence, by_lead, by_rule, leads, mine_in_order
from pitplan.scheduling.flow.scheduler import whole_shares


def shares_of(rows):
    return [[pytest.approx(share) for share in row] for row in rows]


@pytest.mark.parametrize(
    ("lag", "waits"),
    [
        # Pushback 1 has levels 0 to 2, pushback 2 levels 1 to 4, and pushback 3 level 0 alone and 3.
        (0, [[], [0], [1], [1], [2, 3], [4], [5], [0], [5, 7]]),
        (1, [[], [0], [1], [2], [3], [4], [5], [3], [6, 7]]),
        (9, [[], [0], [1], [2], [3], [4], [5], [6], [7]]),
    ],
)
def test_a_bench_waits_for_what_lies_over_it_in_its_pushback_and_those_before(lag, waits):
    places = [(1, 0), (1, 1), (1, 2), (2, 1), (2, 2), (2, 3), (2, 4), (3, 0), (3, 3)]
    found = benches_of(*((pushback, level, 1, 0, 0) for pushback, level in places), lag=lag).waits
    assert [sorted(others.tolist()) for others in found] == waits


def test_three_benches_by_hand():
    """Shovels take two benches a year and the mill one: waste and ore, then the second pushback."""
    benches = benches_of(*THREE)
    problem = problem_of(benches, yearly_limits({"feed_tonnes": 100, "total_tonnes": 200}))
    shares, lead = by_rule(problem)
    assert shares.tolist() == [[1, 0], [1, 0], [0, 1]] and lead == 1
    assert problem.value(shares) == pytest.approx(800 / 1.1 + 500 / 1.21)


@pytest.mark.parametrize(
    ("limits", "shares"),
    [
        # The mill at a half in the first year: half of the ore's bench is left to the second, and half of the next to the third.
        (
            yearly_limits({"feed_tonnes": 100, "total_tonnes": 200}, (0.5, 1.0)),
            [[1, 0, 0], [0.5, 0.5, 0], [0, 0.5, 0.5]],
        ),
        # The mill stands still in the first year, and waste alone is dug.
        (yearly_limits({"feed_tonnes": 100, "total_tonnes": 200}, (0.0, 1.0)), [[1, 0, 0], [0, 1, 0], [0, 0, 1]]),
        (
            yearly_limits({"feed_tonnes": 100, "total_tonnes": 80}),
            [[0.8, 0.2, 0, 0], [0, 0.6, 0.4, 0], [0, 0, 0.4, 0.6]],
        ),
        # A pushback sinks a bench a year, and the other goes on meanwhile.
        (yearly_limits({"feed_tonnes": 150}, rate=1.0), [[1, 0], [0, 1], [1, 0]]),
        (yearly_limits({"feed_tonnes": 1000, "recovered_copper": 0.75}), [[1, 0, 0], [0.75, 0.25, 0], [0, 0.5, 0.5]]),
    ],
)
def test_each_limit_by_hand(limits, shares):
    assert mine_in_order(problem_of(benches_of(*THREE), limits), by_lead(benches_of(*THREE), 2)).tolist() == shares_of(
        shares
    )


def test_what_no_limit_would_miss_is_not_mined_by_itself():
    """A pace may have the errors of a solver: the second year would mine 3e-9 of a bench, and the third leave as much."""
    problem = problem_of(benches_of((1, 0, 100, 0, 0), (1, 1, 100, 0, 0)), yearly_limits({"total_tonnes": 200}))
    sequence = BenchSequence(np.array([0, 1]), pace=np.array([150.0, 150.0 + 3e-7, 200.0 - 3e-7]))
    assert mine_in_order(problem, sequence, 3).tolist() == [[1, 0, 0], [0.5, 0, 0.5]]
    assert whole_shares(np.array([[1.0, 1, 1], [0.5, 0.5 + 3e-9, 1 - 3e-9]]), 1e-7).tolist() == [
        [1, 0, 0],
        [0.5, 0, 0.5],
    ]


def test_the_last_year_that_is_allowed():
    benches = benches_of(*THREE)
    limits = yearly_limits({"feed_tonnes": 100, "total_tonnes": 80})
    assert mine_in_order(problem_of(benches, limits), by_lead(benches, 2), years=2).tolist() == shares_of(
        [[0.8, 0.2], [0, 0.6], [0, 0]]
    )


def test_what_is_left_over_is_used_where_an_order_is_eager():
    """Two pushbacks: ore over ore, and waste over ore. When the mill is full the waste of the second goes on."""
    benches = benches_of((1, 0, 100, 100, 9), (1, 1, 100, 100, 9), (2, 0, 100, 0, -2), (2, 1, 100, 100, 9))
    limits = yearly_limits({"feed_tonnes": 100, "total_tonnes": 150})
    order = by_lead(benches, 2).order
    assert order.tolist() == [0, 1, 2, 3]
    assert mine_in_order(problem_of(benches, limits), BenchSequence(order)).tolist() == shares_of(
        [[1, 0, 0], [0, 1, 0], [0, 0.5, 0.5], [0, 0, 1]]
    )
    assert mine_in_order(problem_of(benches, limits), BenchSequence(order, eager=True)).tolist() == shares_of(
        [[1, 0, 0], [0, 1, 0], [0.5, 0.5, 0], [0, 0, 1]]
    )
    late = BenchSequence(order, np.array([1, 1, 2, 1]), eager=True)
    assert mine_in_order(problem_of(benches, limits), late).tolist() == shares_of(
        [[1, 0, 0], [0, 1, 0], [0, 0.5, 0.5], [0, 0, 1]]
    )


def test_no_lead_is_bench_by_bench_and_the_greatest_pushback_by_pushback():
    benches = benches_of(*((pushback, level, 1, 0, 0) for pushback in (1, 2, 3) for level in range(3)))
    assert by_lead(benches, 0).order.tolist() == [0, 3, 6, 1, 4, 7, 2, 5, 8]
    assert by_lead(benches, 1).order.tolist() == [0, 1, 3, 2, 4, 6, 5, 7, 8]
    assert by_lead(benches, 3).order.tolist() == list(range(9))
    assert list(leads(benches)) == [0, 1, 2, 3]
    assert list(leads(benches_of((1, 0, 1, 0, 0), (2, 0, 1, 0, 0), lag=5))) == [5]


def test_limits_that_take_a_thousand_years_are_refused():
    with pytest.raises(PlanError, match=r"\[schedule\] the pit would take more than 1,000 years"):
        mine_in_order(
            problem_of(benches_of(*THREE), yearly_limits({"feed_tonnes": 0.01})), by_lead(benches_of(*THREE), 0)
        )


limits = st.builds(
    lambda ore, rock, sinking, ramp_up: yearly_limits({"feed_tonnes": ore, "total_tonnes": rock}, ramp_up, sinking),
    st.sampled_from([40.0, 110.0]),
    st.sampled_from([70.0, 200.0, 1e6]),
    st.sampled_from([0.7, 1.5, np.inf]),
    st.sampled_from([(1.0,), (0.0, 0.5, 1.0)]),
)


@given(pits, limits, st.integers(0, 2), st.booleans())
def test_what_is_dug_can_be_dug_and_all_is(pit, limits, lag, eager):
    benches = random_benches(pit, lag)
    for lead in leads(benches):
        shares = mine_in_order(problem_of(benches, limits), BenchSequence(by_lead(benches, lead).order, eager=eager))
        demand_minable(benches, limits, shares)
        assert shares.sum(axis=1) == pytest.approx(np.ones(len(benches)))
        assert shares[:, -1].any()


@given(pits, limits, st.integers(0, 2))
def test_the_rule_is_the_lead_that_earns_most(pit, limits, lag):
    benches = random_benches(pit, lag)
    shares, lead = by_rule(problem_of(benches, limits))
    demand_minable(benches, limits, shares)
    years = np.arange(1, 1000)
    values = {}
    for other in leads(benches):
        made = mine_in_order(problem_of(benches, limits), by_lead(benches, other))
        values[other] = sum(
            float(benches.of("cash_flow") @ made[:, year]) / 1.1 ** years[year] for year in range(made.shape[1])
        )
    assert lead >= lag and values[lead] == pytest.approx(max(values.values()))


@pytest.mark.parametrize(
    ("discounting", "worth"),
    [("end_of_year", 1 / 1.1), ("mid_year", 1.1**-0.5), ("continuous", (1 - 1 / 1.1) / np.log(1.1))],
)
def test_a_year_is_discounted_as_the_project_asks(discounting, worth):
    benches = benches_of((1, 0, 100, 100, 1000))
    shares = np.array([[0.25, 0.75]])
    problem = problem_of(benches, yearly_limits({"feed_tonnes": 100}), discounting=discounting)
    assert problem.value(shares) == pytest.approx(250 * worth + 750 * worth / 1.1)

"""How far limits of mining keep a bench behind another one of its pushback: by hand, against schedules of whole benches, and as the verification has
it."""

import numpy as np
import pytest
from helpers.benches import benches_of, problem_of, without_flows, yearly_limits
from helpers.programmes import integer_optimum, pace
from helpers.random_tests import examples
from hypothesis import given, strategies as st

from pitplan.scheduling.flow.model import kept_behind, pace_rows
from pitplan.scheduling.flow.programme import FlowProgramme
from planaudit.schedules.pushback_bounds import steps_of


def pairs_of(found):
    """The lowest bench above each bench, by two years."""
    return {years: above.tolist() for years, above in found.items()}


def test_a_rate_of_two_benches_by_hand():
    """By the end of a year bench 2 is mined no further than bench 0 a year before. Two years follow from one and one."""
    assert pairs_of(kept_behind(np.ones(4), np.array([2.0, 2, 2]))) == {
        (0, 1): [-1, -1, 0, 1],
        (1, 2): [-1, -1, 0, 1],
        (0, 2): [-1, -1, -1, -1],
    }


def test_a_rate_of_a_bench_and_a_half_by_hand():
    """A year keeps two benches behind, two years three and not four."""
    found = pairs_of(kept_behind(np.ones(5), np.array([1.5, 1.5, 1.5])))
    assert found[0, 1] == [-1, -1, 0, 1, 2] and found[0, 2] == [-1, -1, -1, 0, 1]


def test_tonnes_by_hand():
    """Benches of 100, 50, 50, 100 and 200 t, of which 100 t are mined a year. From the first to the second bench are 100 t at the top but 50 at the
    floor, to the third 150 and 100; from the second to the fourth 100 and 150, and from the fourth to the last 100 and 200. Years without a limit keep
    nothing behind."""
    takes = np.array([100.0, 50, 50, 100, 200])
    assert pairs_of(kept_behind(takes, np.array([np.inf, 100.0])))[0, 1] == [-1, -1, 0, 1, 3]
    assert kept_behind(takes, np.array([100.0, np.inf])) == {}


def test_what_takes_nothing_of_a_limit_is_not_ahead():
    """The second bench has none of the limited amount, so that nothing is known of it; the first has."""
    found = pairs_of(kept_behind(np.array([1.0, 0, 1, 1]), np.array([1.0, 1])))
    assert found[0, 1] == [-1, -1, 0, 2]


amounts = st.lists(st.sampled_from([0.0, 20.0, 30.0, 50.0, 100.0]), min_size=2, max_size=6)
limited = st.lists(st.sampled_from([0.0, 35.0, 50.0, 120.0, np.inf]), min_size=2, max_size=5)


@examples(60)
@given(amounts, limited, st.lists(st.floats(0, 1), min_size=5, max_size=5))
def test_benches_one_after_the_other_keep_each_row(takes, most, paces):
    """Whatever is mined in each year within the limit, each bench when the one above is complete."""
    takes, most = np.array(takes), np.array(most)
    until, whole, cumulative = takes.cumsum(), takes.sum(), []
    mined = 0.0
    for year, share in zip(range(len(most)), paces):
        mined = min(whole, mined + share * min(most[year], whole))
        # Benches that take nothing are mined as soon as they can be, or not at all yet.
        cumulative.append(
            [
                1.0 if mined >= top - 1e-12 else np.clip(1 - (top - mined) / max(own, 1e-9), 0, 1)
                for top, own in zip(until, takes)
            ]
        )
    for (first, last), above in kept_behind(takes, most).items():
        for bench in np.flatnonzero(above >= 0):
            assert cumulative[last][bench] <= cumulative[first][above[bench]] + 1e-6


@examples(60)
@given(amounts, limited)
def test_the_verification_has_the_same_rows(takes, most):
    """Those that follow from years between them too."""
    takes, most, audited = np.array(takes), np.array(most), {}
    for low, year, high, earlier in steps_of(takes, most, len(most)):
        audited[low, year, earlier] = high
    for (first, last), above in kept_behind(takes, most).items():
        for bench, other in enumerate(above.tolist()):
            if other >= 0:
                assert audited[bench, last, first] == other
    # What the audit has besides leads by steps of a year, and over the rest, to the same bench.
    found = kept_behind(takes, most)
    for (low, year, earlier), high in audited.items():
        if found[earlier, year][low] < 0:
            step = audited[low, year, year - 1]
            assert audited[step, year - 1, earlier] == high


small = st.lists(st.tuples(st.sampled_from([10, 20, 40]), st.integers(-60, 90)), min_size=2, max_size=4)


@examples(15)
@given(small, small, st.sampled_from([15.0, 30.0, 50.0]), st.sampled_from([0.7, 1.0, 2.0, np.inf]))
def test_no_schedule_of_whole_benches_is_cut_off(first, second, rock, rate):
    """The integer optimum, which the tests state without these rows, stays at most the optimum with them; and that falls by no more than it may."""
    rows = [(1, k, tonnes, 0, cash) for k, (tonnes, cash) in enumerate(first)]
    rows += [(2, k, tonnes, 0, cash) for k, (tonnes, cash) in enumerate(second)]
    benches, limits = benches_of(*rows, lag=0), yearly_limits({"total_tonnes": rock}, rate=rate)
    model = without_flows(problem_of(benches, limits), 4)
    paced, free = (FlowProgramme(model, paced=is_paced).solved().value for is_paced in (True, False))
    best = max(0.0, integer_optimum(benches, limits, 4))
    assert best <= paced + 1e-5 * (1 + best) and paced <= free + 1e-6 * (1 + free)
    assert (pace_rows(benches, limits, 4).shape[0] > 0) == bool(pace(benches, limits, 4))


def test_half_of_a_pushback_is_no_longer_mined_down_to_its_ore():
    """Ore of 300 under two benches of waste of 100 each, a bench a year. Without the rows a third of all three comes in the third year; with them the
    ore comes in it whole. In two years nothing is earned."""
    benches = benches_of((1, 0, 100, 0, -10), (1, 1, 100, 0, -10), (1, 2, 100, 0, 300))
    limits = yearly_limits({}, rate=1.5)
    model = without_flows(problem_of(benches, limits), 2)
    assert FlowProgramme(model).solved().value == pytest.approx(-15 / 1.1 + (-5 + 300) / 1.21)
    slow = without_flows(problem_of(benches, yearly_limits({}, rate=1.0)), 3)
    assert FlowProgramme(slow).solved().value == pytest.approx(-10 / 1.1 - 10 / 1.21 + 300 / 1.331)

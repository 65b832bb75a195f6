"""The bound of schedules by block: against the whole linear programme, against all schedules one by one, and by hand."""

from fractions import Fraction
from itertools import product

import numpy as np
import pytest
from helpers.block_problems import (
    EXACT,
    cone_of,
    linear_optimum,
    pairs_of,
    precedences_of,
    problem_of,
    random_problem,
    without_first,
)
from helpers.random_tests import seeds
from hypothesis import given, strategies as st

from pitplan import PlanError
from pitplan.config.schedule import Effort
from pitplan.scheduling.blocks import problem as problems, relaxation
from pitplan.scheduling.blocks.closure import priced
from pitplan.scheduling.blocks.filling import ranks_of
from pitplan.scheduling.blocks.problem import BlockLimit, BlockProblem, demand_sound, upward
from pitplan.scheduling.blocks.relaxation import Groups, History, Master, earliest_years, reduced, relaxed, worth_mining


def first_years(problem):
    """The first year, from 0, by whose end each block's cone fits into every limit."""
    found = np.zeros(problem.blocks, dtype=int)
    for block, limit in product(range(problem.blocks), problem.limits):
        whole, done = limit.amounts[cone_of(problem, block)].min(axis=1).sum(), limit.most.cumsum()
        found[block] = max(
            found[block], next((year for year in range(problem.years) if whole <= done[year] + 1e-9), problem.years)
        )
    return found


@pytest.mark.parametrize("batch", seeds(3, 50))
def test_bound_and_relaxation_are_the_optimum_of_the_whole_programme(batch):
    """Twenty cases of up to 60 blocks and 4 years."""
    for seed in range(20 * batch, 20 * batch + 20):
        problem = random_problem(seed)
        found = relaxed(without_first(problem), EXACT)
        optimum = linear_optimum(problem)
        slack = 1e-6 * max(1.0, abs(optimum))
        assert found.bound == pytest.approx(optimum, abs=slack) and found.rounds[-1].value == pytest.approx(
            optimum, abs=slack
        ), seed
        assert all(one.bound >= optimum - slack >= one.value - 2 * slack for one in found.rounds), seed


@pytest.mark.parametrize("batch", seeds(2, 20))
def test_what_is_left_out_changes_no_optimum(batch):
    """The programme knows only the first years."""
    for seed in range(1000 + 20 * batch, 1020 + 20 * batch):
        problem = random_problem(seed, most=40)
        first, part = first_years(problem), reduced(problem)
        assert earliest_years(problem, ranks_of(problem.precedences)).tolist() == first.tolist()
        bound = relaxed(part.nodes, EXACT).bound if part.problem.blocks else 0.0
        optimum = linear_optimum(problem, first)
        assert bound == pytest.approx(optimum, abs=1e-6 * max(1.0, abs(optimum))), seed


def all_schedules(problem):
    """Each choice of a year and a destination, or of none, by block, that digs nothing before what it needs."""
    places = [None, *product(range(problem.destinations), range(problem.years))]
    pairs = pairs_of(problem)
    for choice in product(places, repeat=problem.blocks):
        years = [problem.years if place is None else place[1] for place in choice]
        if all(years[user] >= years[needed] or years[user] == problem.years for user, needed in pairs):
            yield choice


awkward = st.sampled_from([0.1, 1 / 3, 1e-7, 1e12, 123456789.123, 1.0, 0.0, 7e5])
signed = st.builds(lambda sign, size: sign * size, st.sampled_from([-1, 1]), awkward)


@given(st.data())
def test_at_any_prices_the_bound_is_above_all_schedules_exactly(data):
    """What a schedule earns at the prices, and they times the limits, in fractions."""
    blocks, destinations, years = data.draw(st.sampled_from([(3, 1, 2), (2, 2, 2), (4, 1, 1), (1, 3, 3)]))
    values = np.array(
        data.draw(st.lists(signed, min_size=blocks * destinations * years, max_size=blocks * destinations * years))
    )
    amounts = np.array(data.draw(st.lists(awkward, min_size=blocks * destinations, max_size=blocks * destinations)))
    pairs = [(user, needed) for user in range(blocks) for needed in range(user) if data.draw(st.booleans())]
    problem = problem_of(
        values.reshape(blocks, destinations, years), pairs, (amounts.reshape(blocks, destinations), np.full(years, 3.7))
    )
    prices = np.array(data.draw(st.lists(awkward, min_size=years, max_size=years)))
    sold = sum((Fraction(price) * Fraction(3.7) for price in prices.tolist()), Fraction(0))
    earned = [
        sum(
            Fraction(problem.values[block][place])
            - Fraction(prices[place[1]]) * Fraction(problem.limits[0].amounts[block, place[0]])
            for block, place in enumerate(choice)
            if place is not None
        )
        for choice in all_schedules(problem)
    ]
    exact = max(earned) + sold
    bound = Fraction(priced(without_first(problem), prices[None]).bound)
    size = sum(abs(value) for value in problem.values.ravel()) + prices.max() * amounts.sum()
    assert exact <= bound <= exact + Fraction(1e-12) * Fraction(size) + Fraction(1e-15) * abs(exact) + Fraction(1e-300)


def test_years_whose_pits_do_not_nest_are_solved_together():
    """At a price that is high in the second year alone, what pays in the first does not pay in the second, and would not wait for it: dug
    in the first, block 0 earns 5, and 100 less at the price of the second. The pits of the years for themselves are [0] and none.
    """
    problem = problem_of([[5.0, 4.0, 3.0], [-9.0, 4.0, 1.0]], [], ([1, 1], [1, 1, 1]))
    found = priced(without_first(problem), np.array([[0.0, 100.0, 0.0]]))
    assert found.parts < 3 and found.bound == pytest.approx(5 + 1 + 100)
    assert found.in_closure.tolist() == [True, False, True, False, True, True]
    assert priced(without_first(problem), np.array([[100.0, 0.0, 0.0]])).parts == 3


def test_years_that_the_library_does_not_take_together_have_a_greater_bound(monkeypatch):
    """The same, where it takes a year's two blocks alone: in the first year both earn what they save of the price of the second, though they
    are not mined by then."""
    problem = problem_of([[5.0, 4.0, 3.0], [-9.0, 4.0, 1.0]], [], ([1, 1], [1, 1, 1]))
    prices = np.array([[0.0, 100.0, 0.0]])
    exact = priced(without_first(problem), prices).bound
    monkeypatch.setattr(problems, "MOST_NODES", 3)
    found = priced(without_first(problem), prices)
    assert found.parts == 3 and found.bound == pytest.approx((5 + 96) + (-9 + 96) + (3 + 1) + 100)
    assert exact == pytest.approx(106) and found.in_closure.tolist() == [True, True, False, False, True, True]


def test_a_closure_sends_each_block_where_it_is_worth_most():
    """Block 0 earns most in the second of three destinations, in the first year. Block 1 earns 1 in the second year wherever it goes: in the
    last destination that is a node less. At a price of 2 of the second destination block 0 earns 3 in each, too."""
    values = np.array([[[3.0, 2.0], [5.0, 4.0], [3.0, 2.0]], [[-9.0, 1.0], [-9.0, 1.0], [-9.0, 1.0]]])
    problem = problem_of(values, [], ([[0, 1, 0], [0, 1, 0]], [1, 1]))
    nodes = without_first(problem)
    found = nodes.gathered(priced(nodes, np.zeros((1, 2))).in_closure)
    assert found.astype(int).tolist() == [[[0, 1], [1, 1], [1, 1]], [[0, 0], [0, 0], [0, 1]]]
    dear = priced(nodes, np.full((1, 2), 2.0))
    assert nodes.gathered(dear.in_closure)[0, :, 0].tolist() == [False, False, True]
    assert dear.bound == pytest.approx(3 + 1 + 2 * 2)


@given(st.lists(signed, min_size=1), awkward)
def test_whole_values_are_rounded_up_by_less_than_two_units(values, error):
    numbers = np.array(values)
    whole = upward(numbers, np.full(len(numbers), error))
    for value, amount in zip(values, whole.amounts.tolist()):
        above = Fraction(amount) * Fraction(whole.unit) - Fraction(value) - Fraction(error)
        assert 0 <= above < 2 * Fraction(whole.unit) or (whole.unit == 1.0 and not above)
    assert max(map(abs, whole.amounts.tolist())) <= 2**51


def test_two_blocks_by_hand():
    """Waste over ore; a year takes one of them. Halves of both may be dug in the first year, and the others in the second: the ore earns
    200 / 1.1 and the waste costs 50 / 1.1, half of it each time. As a whole the ore cannot come before the second year, which the bound
    knows when its first year is told."""
    values = np.outer([-50.0, 200.0], 1.1 ** -np.arange(1.0, 3.0))
    problem = problem_of(values, [(1, 0)], ([1, 1], [1, 1]))
    half = 150 / 1.1 / 2 + 150 / 1.21 / 2
    assert relaxed(without_first(problem), EXACT).bound == pytest.approx(half)
    part = reduced(problem)
    assert part.nodes.first.tolist() == [0, 1]
    # All of the waste in the first year and the ore in the second, as a schedule does; or the waste in the second with it.
    assert relaxed(part.nodes, EXACT).bound == pytest.approx(max(-50 / 1.1 + 200 / 1.21, half - 75 / 1.1))


def test_what_never_pays_is_left_out():
    """Block 2 costs more than block 3 below it earns, and block 5 lies too deep for the limits: with it block 4 above it is left."""
    values = np.outer([-1.0, 5.0, -6.0, 5.0, -1.0, 9.0], [0.9, 0.8])
    problem = problem_of(values, [(1, 0), (3, 2), (5, 4)], ([1, 1, 1, 1, 1, 8], [2, 2]))
    assert worth_mining(problem).tolist() == [True, True, False, False, True, True]
    assert reduced(problem).kept.tolist() == [0, 1]


def test_a_price_that_rises_makes_more_blocks_worth_digging():
    """In the second year the ore pays for its waste; at the prices of the first alone it does not."""
    assert worth_mining(problem_of([[-6, -6], [5, 5]], [(1, 0)])).tolist() == [False, False]
    assert worth_mining(problem_of([[-6, -6], [5, 7]], [(1, 0)])).tolist() == [True, True]


def test_pairs_of_many_groups_are_the_same(monkeypatch):
    """Those by sorting and those by marks."""
    bounds = []
    for most in (0, 2**28):
        monkeypatch.setattr(relaxation, "MOST_MARKS", most)
        bounds.append([round(relaxed(without_first(random_problem(seed)), EXACT).bound, 9) for seed in range(20)])
    assert bounds[0] == bounds[1]
    assert relaxation.distinct([np.array([5, 3, 5]), np.array([3, 1])], 2**30).tolist() == [1, 3, 5]


@pytest.mark.parametrize("rounds", [1, 3])
def test_groups_that_rounds_do_not_tell_apart_are_put_together(monkeypatch, rounds):
    """In problems of any size: the bound is the same, over fewer groups."""
    problems = [random_problem(seed, most=30) for seed in range(12)]
    most = [relaxed(without_first(problem), EXACT).rounds[-1].groups for problem in problems]
    monkeypatch.setattr(relaxation, "FEW_GROUPS", 0)
    monkeypatch.setattr(relaxation, "ROUNDS_KEPT", rounds)
    fewer = 0
    for problem, groups in zip(problems, most):
        found, optimum = relaxed(without_first(problem), EXACT), linear_optimum(problem)
        assert found.bound == pytest.approx(optimum, abs=1e-6 * max(1.0, abs(optimum)))
        fewer += found.rounds[-1].groups < groups
    assert fewer > 3


def test_groups_are_put_together_by_what_the_last_rounds_found(monkeypatch):
    """Of three groups the first is divided. The second and the third have had the same share in both rounds, and been on the same side of the
    closure; the parts of the first differ in the last round."""
    monkeypatch.setattr(relaxation, "ROUNDS_KEPT", 2)
    groups = Groups(np.array([0, 0, 1, 2], dtype=np.int32), 3)
    history = History(np.array([[1.0, 1.0], [0.5, 0.0], [0.5, 0.0]]))
    divided = groups.divided(np.array([True, False, False, False]))
    parents = groups.parents(divided)
    assert sorted(parents.tolist()) == [0, 0, 1, 2] and not history.is_full
    inside = np.zeros(4, dtype=bool)
    inside[divided.label[0]] = True
    after = history.after(parents, np.array([1.0, 0.5, 0.5 + 1e-12]), inside)
    assert after.is_full and after.found.shape == (4, 4)
    coarse, kept = after.coarsened(divided)
    assert coarse.count == 3 and len(set(coarse.label[:3])) == 3 and coarse.label[2] == coarse.label[3]
    assert kept.found[coarse.label[2]].tolist() == [0.5, 0.0, 0.5, 0.0]


def test_an_interruption_leaves_the_bound_of_the_rounds_so_far():
    problem = next(it for it in map(random_problem, range(100)) if len(relaxed(without_first(it), EXACT).rounds) > 4)

    def interrupt(found):
        if found.number == 2:
            raise KeyboardInterrupt

    found = relaxed(without_first(problem), EXACT, interrupt)
    assert found.interrupted and len(found.rounds) == 2
    assert found.rounds[1].value - 1e-6 <= linear_optimum(problem) <= found.bound + 1e-6


def test_a_programme_that_cannot_be_solved_ends_the_rounds(monkeypatch):
    """In the first round it is refused."""
    problem = next(it for it in map(random_problem, range(100)) if len(relaxed(without_first(it), EXACT).rounds) > 4)
    rounds = []
    solve = Master.solve

    def fail_later(master, groups):
        if len(rounds) == most:
            raise PlanError("HiGHS found no optimum")
        return solve(master, groups)

    monkeypatch.setattr(Master, "solve", fail_later)
    most = 3
    found = relaxed(without_first(problem), EXACT, rounds.append)
    assert len(found.rounds) == 3 and not found.interrupted and found.bound >= linear_optimum(problem) - 1e-6
    most, rounds = 0, []
    with pytest.raises(PlanError, match="HiGHS found no optimum"):
        relaxed(without_first(problem), EXACT, rounds.append)


def test_seconds_end_the_relaxation_behind_a_round():
    problem = next(it for it in map(random_problem, range(100)) if len(relaxed(without_first(it), EXACT).rounds) > 4)
    found = relaxed(without_first(problem), Effort(1e-9, 0.0))
    assert len(found.rounds) == 1 and not found.interrupted and found.bound >= linear_optimum(problem) - 1e-6


@pytest.mark.parametrize(
    ("change", "said"),
    [
        (dict(values=np.array([[[np.nan]]])), "finite values"),
        (dict(values=np.zeros((1, 1, 0))), "at least one destination and one year"),
        (dict(limits=(BlockLimit("rock", np.array([[-1.0]]), np.array([1.0])),)), "rock: an amount is negative"),
        (
            dict(limits=(BlockLimit("rock", np.array([[1.0]]), np.array([-1.0])),)),
            "rock: the maximum of a year is negative",
        ),
        (
            dict(limits=(BlockLimit("rock", np.array([[1.0]]), np.array([1.0, 2.0])),)),
            "rock: expected amounts by block and destination",
        ),
    ],
)
def test_what_has_no_bound_is_refused(change, said):
    whole = {"values": np.ones((1, 1, 1)), "precedences": precedences_of(1, []), "limits": ()} | change
    with pytest.raises(PlanError, match=said):
        demand_sound(BlockProblem(**whole))


def test_more_blocks_or_pairs_than_the_library_takes_are_refused(monkeypatch):
    """By blocks, whatever the years and destinations are."""
    problem = problem_of(np.ones((3, 4, 5)), [(1, 0)])
    monkeypatch.setattr(problems, "MOST_NODES", 3)
    assert len(without_first(problem)) == 60
    monkeypatch.setattr(problems, "MOST_PAIRS", 0)
    with pytest.raises(PlanError, match="3 blocks and 1 precedences, expected at most 3 and 0"):
        without_first(problem)


def test_years_together_count_a_node_for_each_block_and_year():
    """Block 1 needs block 0, and in the second year both need themselves in the third."""
    nodes = without_first(problem_of(np.ones((3, 4, 5)), [(1, 0)]))
    assert nodes.size_of(0, 5) == (15, 17) and nodes.size_of(2, 3) == (3, 1)
    precedences = nodes.of_years(1, 3)
    assert precedences.starts.tolist() == [0, 1, 3, 4, 4, 5, 5] and precedences.predecessors.tolist() == [3, 0, 4, 5, 3]

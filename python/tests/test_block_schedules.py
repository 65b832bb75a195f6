"""Schedules by block: against integer programmes, a walk of the tests' own, and by hand."""

import os
import signal
from dataclasses import replace
from threading import Timer

import numpy as np
import pytest
from helpers.block_problems import demand_sound, integer_optimum, pairs_of, problem_of, random_problem
from helpers.random_tests import seeds

from pitplan.config.schedule import Effort
from pitplan.scheduling import highs_process
from pitplan.scheduling.blocks import scheduler, solve
from pitplan.scheduling.blocks.filling import (
    BlockOrder,
    Filling,
    in_order,
    moved,
    paying,
    preferences,
    ranks_of,
    schedule_of,
    sequences,
    with_best_shares,
)
from pitplan.scheduling.blocks.problem import Assignment, TotalLimit, nothing
from pitplan.scheduling.blocks.relaxation import reduced, relaxed
from pitplan.scheduling.blocks.window_milp import WindowEffort, window_of


@pytest.mark.slow
@pytest.mark.parametrize("batch", seeds(2, 20))
def test_small_schedules_are_the_best_that_there_are(batch):
    """Of up to 12 blocks, since one window holds them all; with several destinations shares may earn more than whole blocks."""
    for seed in range(2000 + 10 * batch, 2010 + 10 * batch):
        problem = random_problem(seed, most=12)
        found = solve(problem, Effort(0.0, 600.0))
        best = integer_optimum(problem)
        slack = 1e-6 * max(1.0, abs(best))
        assert demand_sound(problem, found.schedule) == pytest.approx(found.value, abs=slack)
        assert best - slack <= found.value <= found.bound + slack and (
            problem.destinations > 1 or found.value <= best + slack
        ), seed


def test_ore_waits_for_room_in_the_mill_where_it_could_be_dug_as_waste():
    """Two blocks, of which the mill takes one a year, and shovels both: as waste each costs 400, in the mill it earns 2600. A third of 900
    would be milled in no year, and is left."""
    earned = np.array([[-400, 2600], [-400, 2600], [-400, 900]])
    takes, discounts = np.array([[0, 100], [0, 100], [0, 100]]), 1.1 ** -np.arange(1.0, 3.0)
    problem = problem_of(earned[:, :, None] * discounts, [], (takes, [100, 100]), (np.full((3, 2), 100), [300, 300]))
    found = solve(problem)
    assert found.value == pytest.approx(2600 / 1.1 + 2600 / 1.21) == found.bound
    assert sorted(found.schedule.year.tolist()) == [0, 1, 2] and demand_sound(problem, found.schedule) == pytest.approx(
        found.value
    )


@pytest.mark.slow
def test_what_was_filled_in_either_way_is_moved():
    """Of twelve problems each way, moved, is the better one of some."""
    gained = [0, 0]
    for seed in range(3100, 3112):
        problem = random_problem(seed, most=40)
        found, part = solve(problem).value, reduced(problem)
        if part.problem.destinations == 1 or not part.problem.blocks:
            continue
        relaxation, values = relaxed(part.nodes, Effort(1e-4)), []
        soon = Filling(part.problem, preferences(part.problem, relaxation.prices))
        for filling in (soon, replace(soon, waits=True)):
            filled = [
                filling.without_loss(sequence)
                for sequence in sequences(part.problem, part.ranks, relaxation.cumulative)
            ]
            best = moved(soon, part.ranks, max(filled, key=lambda it: it.value(part.problem)))
            values.append(with_best_shares(part.problem, best).value(part.problem))
        assert found >= max(values) - 1e-9
        for number in (0, 1):
            gained[number] += values[number] > values[1 - number] + 1e-9
    assert min(gained) > 0


@pytest.mark.parametrize("batch", seeds(2, 20))
def test_schedules_without_integer_programmes_keep_to_all(batch):
    for seed in range(3000 + 10 * batch, 3010 + 10 * batch):
        problem = random_problem(seed, most=50)
        found = solve(problem)
        assert demand_sound(problem, found.schedule) == pytest.approx(found.value)
        assert 0 <= found.value <= found.bound + 1e-6 * max(1.0, abs(found.bound)), seed


def test_two_pillars_by_hand():
    """A year takes two blocks: the richer pillar first, then the other. That is worth what the bound is."""
    values = np.outer([-1.0, 10.0, -1.0, 5.0], 1.1 ** -np.arange(1.0, 4.0))
    found = solve(problem_of(values, [(1, 0), (3, 2)], ([1, 1, 1, 1], [2, 2, 2])))
    assert found.schedule.year.tolist() == [0, 0, 1, 1]
    assert found.value == pytest.approx(9 / 1.1 + 4 / 1.21) == found.bound and found.gap == pytest.approx(0, abs=1e-9)


def test_nothing_to_dig():
    found = solve(problem_of([[-1.0, -1.0]], []), Effort(0.0, 1.0))
    assert (found.value, found.bound, found.gap, found.schedule.year.tolist()) == (0.0, 0.0, 0.0, [2])


def filling_of(problem):
    return Filling(problem, preferences(problem, np.zeros((len(problem.limits), problem.years))))


def test_each_block_comes_in_the_first_year_with_room():
    """Two units a year: 0 and 1 fill the first; 2, which may not come before the second, takes one of it, and 3 of two units waits for the
    third; 4 needs 3, and no year is left for it."""
    problem = problem_of(np.ones((5, 3)), [(4, 3)], ([1, 1, 1, 2, 1], [2, 2, 2]))
    earliest = np.array([0, 0, 1, 0, 0])
    assert filling_of(problem).fill(BlockOrder(np.arange(5), earliest)).year.tolist() == [0, 0, 1, 2, 3]
    assert filling_of(problem).fill(BlockOrder(np.array([3, 4, 2]), earliest)).year.tolist() == [3, 3, 1, 0, 1]


def test_a_block_goes_to_the_destination_that_has_room():
    """Each earns more in the mill, which takes one block a year."""
    values = np.tile(np.array([[1.0], [5.0]]), (3, 1, 1))
    problem = problem_of(values, [], ([[0, 1]] * 3, [1]))
    schedule = filling_of(problem).fill(BlockOrder(np.arange(3), np.zeros(3, dtype=int)))
    assert schedule.year.tolist() == [0, 0, 0] and schedule.share.tolist() == [[0, 1], [1, 0], [1, 0]]


def test_what_does_not_pay_at_its_time_is_left():
    """Block 1 pays for block 0 above it, and not for block 2 too."""
    problem = problem_of([[-5.0], [9.0], [-6.0], [1.0]], [(1, 0), (3, 1), (3, 2)])
    assert paying(problem, schedule_of(problem, np.zeros(4, dtype=int), np.zeros(4, dtype=int))).year.tolist() == [
        0,
        0,
        1,
        1,
    ]


def test_waste_is_moved_back_and_ore_forward():
    """Waste that is dug in the first year, and its ore in the third: the ore may come in the second, and with it the waste."""
    values = np.outer([-10.0, 20.0], [0.9, 0.8, 0.7])
    problem = problem_of(values, [(1, 0)], ([0, 1], [0, 1, 1]))
    schedule = schedule_of(problem, np.array([0, 2]), np.array([0, 0]))
    assert moved(filling_of(problem), ranks_of(problem.precedences), schedule).year.tolist() == [1, 1]


def test_destinations_are_shared_where_that_earns_more():
    """Two blocks in a year whose mill takes one and a half: the richer one whole, and half of the other."""
    values = np.array([[[0.0], [8.0]], [[0.0], [6.0]]])
    problem = problem_of(values, [], ([[0, 1], [0, 1]], [1.5]))
    schedule = schedule_of(problem, np.array([0, 0]), np.array([0, 1]))
    better = with_best_shares(problem, schedule)
    assert better.share.tolist() == [[0, 1], [pytest.approx(0.5), pytest.approx(0.5)]] and better.value(
        problem
    ) == pytest.approx(11)


def test_a_total_that_is_used_up_leaves_other_choices():
    """The near dump holds 0.3 t, as the first two blocks fill it up to rounding. In the second year a block goes to the mill, where it earns most."""
    dumps_and_mill = np.array([[0.0, -1.0, -9.0], [0.0, -1.0, -9.0], [0.0, -1.0, 5.0]])
    problem = problem_of(np.repeat(dumps_and_mill[:, :, None], 2, axis=2), [])
    near = TotalLimit("near", np.array([[0.1, 0, 0], [0.2, 0, 0], [0.2, 0, 0]]), most=0.3)
    problem = replace(problem, totals=(near,))
    assert near.used(np.eye(3)[[0, 0, 1]]) > 0.3
    schedule = schedule_of(problem, np.array([0, 0, 1]), np.array([0, 0, 1]))
    assert with_best_shares(problem, schedule).share.tolist() == [[1, 0, 0], [1, 0, 0], [0, 0, 1]]


def test_orders_hold_each_block_behind_what_it_needs():
    """Also where the relaxation has dug a hair more of a block than of what it needs."""
    problem = random_problem(3000, most=50)
    cumulative = np.sort(np.random.default_rng(1).random((problem.blocks, problem.years)), axis=1)
    ranks = ranks_of(problem.precedences)
    order = in_order(problem, ranks, problem.years - cumulative.sum(axis=1), np.zeros(problem.blocks))
    place = np.argsort(order)
    assert sorted(order.tolist()) == list(range(problem.blocks))
    assert all(place[user] > place[needed] for user, needed in pairs_of(problem))
    assert all(
        set(sequence.order.tolist()) <= set(range(problem.blocks)) for sequence in sequences(problem, ranks, cumulative)
    )


def test_precedences_with_a_cycle_have_no_ranks():
    with pytest.raises(ValueError, match="cycle"):
        ranks_of(problem_of(np.ones((3, 1)), [(0, 1), (1, 2), (2, 0)]).precedences)


def test_what_keeps_to_a_problem():
    problem = problem_of([[1.0, 1.0], [1.0, 1.0]], [(1, 0)], ([1, 1], [1, 1]))
    assert nothing(problem).keeps(problem)
    cases = [([0, 1], [1, 1]), ([1, 0], [1, 1]), ([0, 0], [1, 1]), ([0, 1], [1, 0.5]), ([2, 1], [0, 1])]
    found = [Assignment(np.array(year), np.array(share, dtype=float)[:, None]).keeps(problem) for year, share in cases]
    assert found == [True, False, False, False, False]


def test_a_window_frees_blocks_of_its_years_and_keeps_the_others():
    """Years 2 and 3 of four. Block 4 is dug before and block 5 behind, which needs block 3: so 3 is due by then. Block 2 needs 4 and comes
    with the rest in what block 1, which is not free since it is far from the middle, leaves."""
    values = np.tile(np.array([[1.0, 2.0, 3.0, 5.0]]), (6, 1))
    problem = problem_of(values, [(2, 4), (5, 3)], ([1] * 6, [1, 2, 2, 9]))
    schedule = schedule_of(problem, np.array([1, 2, 1, 2, 0, 3]), np.zeros(6, dtype=int))
    cumulative = np.zeros((6, 4))
    cumulative[[0, 2, 3]] = [0, 0.5, 1, 1]
    window = window_of(problem, schedule, cumulative, range(1, 3), most=6)
    assert window.blocks.tolist() == [0, 2, 3] and window.part.limits[0].most.tolist() == [2, 1]
    assert [bounds.tolist() for bounds in window.bounds()] == [[1, 1, 1], [4, 4, 3]]
    # Room for one in the third year, where each earns one more than in the second: two stay, and any of them may be the third.
    found = window.solved(WindowEffort(0.0, 60.0))
    assert demand_sound(problem, found) == pytest.approx(2 + 2 + 3 + 3 + 1 + 5)


def test_an_empty_window_is_passed_over(monkeypatch):
    monkeypatch.setattr("pitplan.scheduling.blocks.window_milp.MOST_UNKNOWNS", 1)
    found = solve(
        problem_of(np.outer([1.0, 1.0], [1.0, 0.9, 0.8, 0.7]), [], ([1, 1], [2, 2, 2, 2])), Effort(-1.0, 60.0)
    )
    assert found.schedule.year.tolist() == [0, 0]


@pytest.mark.slow
def test_windows_find_what_filling_misses(monkeypatch):
    """With few unknowns a window holds a part of the blocks; none is worse than without, and some are better."""
    monkeypatch.setattr("pitplan.scheduling.blocks.window_milp.MOST_UNKNOWNS", 60)
    monkeypatch.setattr("pitplan.scheduling.blocks.window_milp.FEWER", 30)
    gains = []
    for seed in range(4000, 4012):
        problem = random_problem(seed, most=50, destinations=1)
        before, after = solve(problem), solve(problem, Effort(0.0, 60.0))
        assert demand_sound(problem, after.schedule) == pytest.approx(
            after.value
        ) and after.value <= after.bound + 1e-6 * abs(after.bound)
        gains.append(after.value - before.value)
    assert min(gains) > -1e-6 and max(gains) > 1


@pytest.mark.slow
def test_a_schedule_far_below_its_bound_is_made_better_unasked(monkeypatch):
    """No schedule is worse for it, some are better, and one within 1 % of its bound is left as it is."""
    unasked, gains = scheduler.UNASKED, []
    for problem in (random_problem(seed, most=50) for seed in range(4000, 4012)):
        monkeypatch.setattr(scheduler, "UNASKED", WindowEffort(1.0))
        before = solve(problem)
        monkeypatch.setattr(scheduler, "UNASKED", unasked)
        after = solve(problem)
        assert demand_sound(problem, after.schedule) == pytest.approx(after.value)
        assert after.value <= after.bound + 1e-6 * abs(after.bound)
        gains.append((before.gap, after.value - before.value))
    assert min(gain for _, gain in gains) > -1e-6
    assert max(gain for gap, gain in gains if gap > 0.01) > 1
    assert {gain for gap, gain in gains if gap <= 0.01} == {0.0}


def test_an_interruption_behind_the_bound_gives_the_best_so_far(monkeypatch):
    problem = random_problem(3003, most=50)
    whole = solve(problem)

    def interrupt(*given):
        raise KeyboardInterrupt

    monkeypatch.setattr("pitplan.scheduling.blocks.scheduler.moved", interrupt)
    found = solve(problem)
    assert found.interrupted and not whole.interrupted and found.bound == whole.bound
    assert 0 < demand_sound(problem, found.schedule) == pytest.approx(found.value) and found.value <= whole.value


@pytest.mark.parametrize("effort", [Effort(0.0, 600.0), None])
def test_an_interruption_while_a_window_is_solved_ends_its_process(effort, highs_apart, monkeypatch):
    """The process would take ten minutes."""
    monkeypatch.setattr(scheduler, "UNASKED", WindowEffort(1.0))
    filled = (it for it in map(random_problem, range(3000, 3100)) if it.years > 1 and solve(it).gap > 1e-3)
    problem = next(filled)
    value = solve(problem).value
    popen, begun = highs_process.subprocess.Popen, []

    def sleep(arguments, **options):
        begun.append(popen(["/bin/sleep", "600"], **options))
        Timer(0.3, os.kill, (os.getpid(), signal.SIGINT)).start()
        return begun[0]

    monkeypatch.setattr(highs_process.subprocess, "Popen", sleep)
    monkeypatch.setattr(scheduler, "UNASKED", WindowEffort(0.0, nodes=1))
    found = solve(problem, effort)
    assert found.interrupted and begun[0].wait(5) != 0
    assert demand_sound(problem, found.schedule) == pytest.approx(value)


def test_an_interruption_before_there_is_a_bound_is_passed_on(monkeypatch):
    def interrupt(*given):
        raise KeyboardInterrupt

    monkeypatch.setattr("pitplan.scheduling.blocks.relaxation.priced", interrupt)
    with pytest.raises(KeyboardInterrupt):
        solve(random_problem(3003, most=50))

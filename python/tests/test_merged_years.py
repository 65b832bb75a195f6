"""The first groups of the relaxation of many nodes, from years merged by twos."""

from dataclasses import replace

import numpy as np
import pytest
from helpers.block_problems import problem_of, random_problem

from pitplan.config.schedule import Effort
from pitplan.core.progress import silent
from pitplan.scheduling.blocks import merged_years, scheduler
from pitplan.scheduling.blocks.merged_years import by_year, groups_by_merged_years, with_merged_years
from pitplan.scheduling.blocks.relaxation import Groups, reduced, relaxed


def test_two_years_as_one_by_hand():
    """Of five years the last one stays alone. A block that can be mined from the second or third year on, 1 and 2 from 0, is in the first or second of
    the merged ones."""
    problem = problem_of(np.array([[5.0, 4, 3, 2, 1], [10, 8, 6, 4, 2]]), [(1, 0)], ([2, 3], [1, 2, 3, 4, 5]))
    nodes = merged_years.Nodes(problem, np.array([1, 2]))
    merged = with_merged_years(nodes)
    assert merged.problem.values.tolist() == [[[4.5, 2.5, 1]], [[9, 5, 2]]]
    assert merged.problem.limits[0].most.tolist() == [3, 7, 5] and merged.first.tolist() == [0, 1]
    # Of the merged years the blocks have groups 0, 1, 1 and (2), 0.
    assert [part.ravel().tolist() for part in merged.by_year(np.arange(5))] == [[0], [1, 2], [3, 4]]
    found = by_year(nodes, merged, Groups(np.array([0, 1, 2, 1, 0], dtype=np.int32), 3))
    labels = [part.ravel().tolist() for part in nodes.by_year(found.label)]
    # By block: the year, its group and the one before. No two nodes are alike here.
    assert [len(it) for it in labels] == [0, 1, 2, 2, 2] and found.count == 7


def test_nodes_of_a_year_with_equal_groups_stay_together():
    problem = problem_of(np.ones((3, 4)), [], ([1, 1, 1], [1, 1, 1, 1]))
    nodes = merged_years.Nodes(problem, np.zeros(3, dtype=int))
    found = by_year(nodes, with_merged_years(nodes), Groups(np.array([0, 0, 1, 1, 1, 1], dtype=np.int32), 2))
    # Blocks 0 and 1 are in one group in both merged years; 2 is in another in the first, and so apart in the second too.
    labels = [part.ravel() for part in nodes.by_year(found.label)]
    assert all(it[0] == it[1] != it[2] for it in labels) and found.count == 8


@pytest.mark.slow
def test_rounds_from_merged_years_end_at_the_same_bound(monkeypatch):
    monkeypatch.setattr(merged_years, "FEW_NODES", 0)
    compared = 0
    for problem in (random_problem(seed, most=60) for seed in range(5000, 5060)):
        part = reduced(problem)
        if not len(part.nodes) or (groups := groups_by_merged_years(part.nodes, silent)) is None:
            continue
        usual, found = relaxed(part.nodes, Effort(1e-6)), relaxed(part.nodes, Effort(1e-6), groups=groups)
        assert found.bound == pytest.approx(usual.bound, rel=2e-6, abs=1e-6)
        compared += 1
    assert compared > 10


def test_few_years_or_minimums_begin_with_nested_pits(monkeypatch):
    monkeypatch.setattr(merged_years, "FEW_NODES", 0)
    values, amounts = np.array([[4.0, 3, 2, 1]]), ([1], [1, 1, 1, 1])
    free = problem_of(values, [], amounts)
    assert groups_by_merged_years(merged_years.Nodes(free, np.zeros(1, dtype=int)), silent) is not None
    owed = replace(free, limits=(replace(free.limits[0], least=np.array([1.0, 0, 0, 0])),))
    for problem in (problem_of(values[:, :3], [], ([1], [1, 1, 1])), owed):
        assert groups_by_merged_years(merged_years.Nodes(problem, np.zeros(1, dtype=int)), silent) is None


def test_an_interruption_of_merged_years_is_passed_on(monkeypatch):
    """There is no bound of all years yet."""
    monkeypatch.setattr(merged_years, "FEW_NODES", 0)
    rough = merged_years.relaxed

    def interrupted(*given, **options):
        found = rough(*given, **options)
        object.__setattr__(found, "interrupted", True)
        return found

    monkeypatch.setattr(merged_years, "relaxed", interrupted)
    problem = problem_of(np.array([[4.0, 3, 2, 1]]), [], ([1], [1, 1, 1, 1]))
    with pytest.raises(KeyboardInterrupt):
        scheduler.solve(problem)

"""The first groups of a relaxation of many nodes: from the same relaxation whose years are merged by twos.

Two years as one have the limits of both and the mean of what a block earns. Rounds over half of the nodes take half of the time, and most
rounds are needed to come near the prices of the limits. So the rounds over all nodes begin with groups that are nearly right.
"""

from __future__ import annotations

from dataclasses import replace
from typing import Optional

import numpy as np
from numpy.typing import NDArray

from pitplan.config.schedule import Effort
from pitplan.core.progress import Progress

from .problem import Nodes
from .relaxation import Groups, relaxed, renumbered

# Up to this number of nodes, or of years, rounds begin with groups by nested pits.
FEW_NODES, FEW_YEARS = 200_000, 3
# The gap of the bound of merged years, as a share of it.
ROUGH = Effort(0.01)


def groups_by_merged_years(nodes: Nodes, progress: Progress) -> Optional[Groups]:
    """Returns the groups with which rounds begin; None: those by nested pits, for few nodes, or a problem with minimums
    or stockpiles.

    Raises KeyboardInterrupt where the run is interrupted.
    """
    problem = nodes.problem
    if problem.owes or problem.lags is not None or len(nodes) <= FEW_NODES or problem.years <= FEW_YEARS:
        return None
    merged = with_merged_years(nodes)
    groups = groups_by_merged_years(merged, progress)
    with progress.step(f"solving the relaxation of {merged.problem.years} merged years"):
        relaxation = relaxed(merged, ROUGH, groups=groups)
    if relaxation.interrupted:
        raise KeyboardInterrupt
    return by_year(nodes, merged, relaxation.history.coarsened(relaxation.groups)[0])


def with_merged_years(nodes: Nodes) -> Nodes:
    """Returns the nodes of the problem with each two years as one; the last may be one alone."""
    problem = nodes.problem

    def sums(by_year: NDArray[np.float64]) -> NDArray[np.float64]:
        return np.asarray(np.add.reduceat(by_year, np.arange(0, problem.years, 2), axis=-1))

    merged = replace(
        problem,
        values=sums(problem.values) / sums(np.ones(problem.years)),
        limits=tuple(
            replace(it, most=sums(it.most), least=None if it.least is None else sums(it.least)) for it in problem.limits
        ),
        costs=None if problem.costs is None else sums(problem.costs),
    )
    return Nodes(merged, nodes.first // 2)


def by_year(nodes: Nodes, merged: Nodes, groups: Groups) -> Groups:
    """Returns nodes in groups by their year, the group of the merged year that has it, and that of the merged year before."""
    label = merged.gathered(groups.label.astype(np.int64))
    before = np.concatenate([np.full((len(label), 1), groups.count), label[:, -1, :-1]], axis=1)
    number = (label * (groups.count + 1) + before[:, None]).repeat(2, axis=2)[:, :, : nodes.problem.years]
    found = nodes.spread(number * nodes.problem.years + np.arange(nodes.problem.years))
    numbers, place = np.unique(found, return_inverse=True)
    return renumbered(place, len(numbers))

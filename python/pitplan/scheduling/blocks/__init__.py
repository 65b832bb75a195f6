"""Schedules block by block, with a bound that no schedule exceeds.

    scheduled = blocks.solve(problem)
    scheduled.schedule.year      of each block the year in which it is mined, from 0
    scheduled.value              what that earns, discounted
    scheduled.bound              what no schedule exceeds

A `BlockProblem` has what each block earns by year, its predecessors, and the limits of a year. Blocks that no schedule needs are left
out. The bound is that of the linear relaxation (`relaxation`), solved by rounds of a small programme over groups of nodes and a closure that the
proved library of pits solves. Schedules follow the order in which the relaxation mines (`filling`), are improved by moving blocks and choosing
where they go, and by integer programmes (`window_milp`).
"""

from pitplan.scheduling.block_precedences import BlockPrecedences

from .problem import Assignment, BlockLimit, BlockProblem
from .scheduler import Scheduled, solve

__all__ = ["BlockProblem", "Assignment", "BlockLimit", "BlockPrecedences", "Scheduled", "solve"]

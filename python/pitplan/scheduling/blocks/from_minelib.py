"""A published `.cpit` or `.pcpsp` with its `.prec` as a problem of blocks."""

from __future__ import annotations

from pathlib import Path
from typing import Optional

import numpy as np

from minelib import precedence, schedule_models
from minelib.schedule_models import ScheduleModel
from pitplan.scheduling.block_precedences import BlockPrecedences

from .problem import MOST_NODES, BlockLimit, BlockProblem


def of_minelib(model: Path, prec: Path, second: Optional[str] = None) -> BlockProblem:
    """The problem of two files of MineLib; a value in period t, from 0, is divided by (1 + rate)^t. `second_parameter` is as
    `schedule_models.read` has it.

    Raises MinelibError, with file and line, where one is not well formed, and PlanError where an amount is negative.
    """
    read = schedule_models.read(model, second)
    blocks = len(read.values)
    values = np.array([[float(value) for value in of_block] for of_block in read.values]).reshape(blocks, -1)
    precedences = precedence.read(prec, blocks, MOST_NODES).needs
    counts = np.array([len(precedences.get(block, ())) for block in range(blocks)], dtype=np.int64)
    found = np.array([other for block in sorted(precedences) for other in precedences[block]], dtype=np.uint32)
    starts = np.concatenate([[0], np.cumsum(counts)]).astype(np.uint32)
    discounts = (1 + float(read.rate)) ** -np.arange(float(read.periods))
    limits = tuple(limit_of(read, resource) for resource in range(len(read.taken)))
    return BlockProblem(values[:, :, None] * discounts, BlockPrecedences(starts, found), limits)


def limit_of(model: ScheduleModel, resource: int) -> BlockLimit:
    amounts = np.zeros((len(model.values), len(model.values[0]) if model.values else 1))
    for place, amount in model.taken[resource].items():
        amounts[place] = float(amount)
    bounds = [model.limits.get((resource, period), (None, None)) for period in range(model.periods)]
    # Amounts are 0 or more, and so a least below 0 has no effect.
    least = np.array([max(float(below or 0), 0.0) for below, _ in bounds])
    most = np.array([np.inf if above is None else float(above) for _, above in bounds])
    return BlockLimit(f"resource {resource}", amounts, most, least)

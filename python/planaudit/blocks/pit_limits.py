"""Verifies that blocks were removed rightly: none of them pays or is a must-mine block, and no shell depends on one."""

from __future__ import annotations

from dataclasses import replace

import numpy as np
import pandas as pd

from planaudit.errors import demanded
from planaudit.ground import topography
from planaudit.ground.slopes import Run, cone, runs
from planaudit.inputs.answer import NOTHING, UNMINED, Answer
from planaudit.inputs.rotated_grid import steps_of
from planaudit.money.block_values import gains_by_floats
from planaudit.revenue_factors import BASE_PRICE, factor_text
from planaudit.rules import TOLD, Rule, rule

HAIR = 1e-9


def verify(answer: Answer) -> Rule:
    """Verifies that no row outside the grid pays at the largest revenue factor or is a must-mine block, and that no cone of a mined block
    reaches one."""
    rows: pd.DataFrame = demanded(answer.beyond, "rows outside the grid")
    factor = max(*answer.factors, BASE_PRICE)
    differences, count = [], 0
    for way in answer.project.by_process:
        part = replace(answer, project=way, rows=rows, said=pd.DataFrame(index=rows.index), found={})
        revenue, processing = gains_by_floats(part)
        pays = rock_of(
            part,
            np.flatnonzero(
                factor * revenue - processing > HAIR * revenue + 10.0 ** -answer.project.economics["decimals"]
            ),
        )
        differences += [
            f"{part.called(row)} was removed, and pays at revenue factor {factor_text(factor)}" for row in pays[:TOLD]
        ]
        count += len(pays)
    fixed = answer.project.constraints
    if fixed is not None and fixed["must_mine"]:
        part = replace(answer, rows=rows)
        must_mine = rock_of(
            part, np.flatnonzero((rows[fixed["must_mine"]] > 0) & (rows[answer.project.table["tonnes"]] > 0))
        )
        differences += [f"{part.called(row)} was removed, and is must-mine" for row in must_mine[:TOLD]]
        count += len(must_mine)
    reaching = leading_off(answer)
    differences += [
        f"{answer.called(row)}, mined at revenue factor {factor_text(answer.said['revenue_factor'].iloc[row])}, depends on ground that was removed"
        for row in reaching[:TOLD]
    ]
    holds = f"of {len(rows):,} removed blocks none pays for its processing or is must-mine, and no shell depends on removed ground"
    return rule("crop", holds, differences, count + len(reaching))


def rock_of(part: Answer, numbers: np.ndarray) -> np.ndarray:
    """Returns those of some rows that are not wholly above the topography; the part below it pays if the whole block does."""
    level, row, column = (axis[numbers] for axis in part.cells)
    return numbers[~topography.air(part, row, column, level)]


def beyond_sides(answer: Answer) -> tuple[int, int, int, int]:
    """Returns how many rows of the model lie south and north of the grid, and how many columns west and east of it."""
    columns, (_, rows, width) = answer.project.table, answer.shape
    beyond: pd.DataFrame = demanded(answer.beyond, "rows outside the grid")
    east, north = np.rint(steps_of(beyond[[columns["x"], columns["y"]]].to_numpy(), answer.record["grid"])).T
    far = (-north.min(), north.max() - rows + 1, -east.min(), east.max() - width + 1)
    south, up, west, right = (max(0, int(steps)) for steps in far)
    return south, up, west, right


def leading_off(answer: Answer) -> np.ndarray:
    """Returns the rows of mined blocks whose cone holds cells of the model outside the grid."""
    level, row, column = answer.cells
    first, entry = answer.first_factor[answer.cells], answer.entries[answer.cells]
    south, north, west, east = beyond_sides(answer)
    wrong = np.zeros(len(answer.rows), dtype=bool)
    for number, domain in enumerate(answer.project.slopes["domains"]):
        mine = (entry == number) & (first != UNMINED) & (first != NOTHING)
        for up in range(1, answer.levels(domain) + 1):
            for run in runs(cone(domain, answer.size, up, answer.azimuth)):
                wrong |= (
                    mine & (level >= up) & leads_off(run, row, column, (answer.shape[1:], (south, north, west, east)))
                )
    return np.flatnonzero(wrong)


def leads_off(
    run: Run, row: np.ndarray, column: np.ndarray, sides: tuple[tuple[int, int], tuple[int, int, int, int]]
) -> np.ndarray:
    """Returns whether cells of a run above each block lie in the model but outside the grid. `sides` has the rows and columns of the grid, and
    those of the model around it."""
    (rows, columns), (south, north, west, east) = sides
    to, first, last = row + run.north, column + run.west, column + run.east
    in_model = (to >= -south) & (to < rows + north) & (last >= -west) & (first < columns + east)
    beside = (to < 0) | (to >= rows)
    is_west = (first < 0) & (west > 0)
    is_east = (last >= columns) & (east > 0)
    return in_model & (beside | is_west | is_east)

"""Costs of blocks by line, which block values add up: mining, depth and haulage; processing, royalty per tonne, haulage of ore and
penalties of smelters."""

from __future__ import annotations

from dataclasses import dataclass, replace

import numpy as np
import pandas as pd
from numpy.typing import NDArray

from pitplan.blockmodel.grid import Grid
from pitplan.config.project import Project
from pitplan.core.decimals import Exact

from .block_values import Values
from .period_costs import PROCESSING_COST, SELLING_COST, SMELTED, of_project
from .smelter_terms import PENALTIES, multiplied, net
from .weighing import HAULAGE, MILLIONTHS, ValuedRows, Way

PROCESSING, ROYALTY = "processing", "royalty"
# Amounts of cells by line.
Lines = dict[str, NDArray[np.float64]]


@dataclass(frozen=True)
class CostLines:
    """Costs of each cell by line, in the currency and not rounded, arrays of shape (cells,).

    Attributes
    ----------
    mining : dict of str to array
        Of mining the whole block: mining, depth, and with `[haulage]` haulage.
    processing : tuple of dict
        By process, of a block that is processed there: processing, royalty (per tonne of feed), with `[haulage]` haulage, which is below 0 if
        ore costs less to haul than waste, and `penalties METAL` of smelters that penalise elements. 0 where the block has no revenue.
    mining_rounding, processing_rounding : array and tuple of arrays
        What rounding the block values to the decimals of the project adds to the cash flow of mining, and of processing by process.
    """

    mining: Lines
    processing: tuple[Lines, ...]
    mining_rounding: NDArray[np.float64]
    processing_rounding: tuple[NDArray[np.float64], ...]


def cost_lines(frame: pd.DataFrame, grid: Grid, project: Project, values: Values) -> CostLines:
    """Returns the costs by line of the blocks of a checked table with these values."""
    rows = ValuedRows(frame, grid, project, "table", Exact.of_floats(frame[project.table.tonnes].to_numpy()))
    tonnes = rows.tonnes.floats()
    mining = {name: grid.spread(tonnes * rate.floats()) for name, rate in rows.mining_rates().items()}
    rounding = sum(mining.values()) - values.mining / 10**MILLIONTHS
    processing = tuple(
        of_process(replace(rows, project=alone), values, way)
        for alone, way in zip(project.by_process, values.by_process)
    )
    of_processes = list(map(rounding_of, project.by_process, processing, values.by_process))
    return CostLines(mining, processing, np.asarray(rounding), tuple(of_processes))


def multiplied_amounts(
    frame: pd.DataFrame, grid: Grid, project: Project, values: Values
) -> dict[str, NDArray[np.float64]]:
    """Returns what ore adds, besides recovered metal, to the amounts that prices or factors of periods multiply: of each whole cell in each
    process, shape (processes, cells).

    They are the processing cost, and the selling cost or the charges of smelters with penalties but without price participation, each only if
    some period multiplies it; and with prices by year the metal that is sold by smelter terms of some processes.
    """
    asked = of_project(project).of_ore
    smelted = {name: smelted_of(project, values, name) for name in asked if name.startswith(SMELTED)}
    if not {PROCESSING_COST, SELLING_COST} & set(asked):
        return smelted
    rows = ValuedRows(frame, grid, project, "table", Exact.of_floats(frame[project.table.tonnes].to_numpy()))
    found: dict[str, list[NDArray[np.float64]]] = {PROCESSING_COST: [], SELLING_COST: []}
    for alone, way in zip(project.by_process, values.by_process):
        lines, sold = of_process(replace(rows, project=alone), values, way), np.zeros(len(way.revenue))
        for metal in alone.metals:
            sold += np.where(way.revenue > 0, way.metal[metal.name], 0.0) * float(multiplied(metal))
            sold += lines.get(f"{PENALTIES} {metal.name}", 0.0)
        found[PROCESSING_COST].append(lines[PROCESSING])
        found[SELLING_COST].append(sold)
    return smelted | {name: np.stack(costs) for name, costs in found.items() if name in asked}


def smelted_of(project: Project, values: Values, name: str) -> NDArray[np.float64]:
    """Returns the recovered metal of cells in the processes that sell it by smelter terms, 0 in the others, shape (processes, cells)."""
    metal, found = name.removeprefix(SMELTED), []
    for alone, way in zip(project.by_process, values.by_process):
        is_sold = any(it.smelter for it in alone.metals if it.name == metal)
        found.append(np.where(is_sold & (way.revenue > 0), way.metal[metal], 0.0))
    return np.stack(found)


def of_process(rows: ValuedRows, values: Values, way: Way) -> Lines:
    """Returns the costs of the only process of the rows' project by line, without selling and the other charges of smelters."""
    needed, money = np.zeros(len(rows.frame), dtype=bool), rows.project.economics
    rates = {PROCESSING: rows.processing_rate(needed), ROYALTY: rows.every(money.royalty_per_tonne)}
    rates |= {HAULAGE: rows.roads.ore_more} if rows.roads else {}
    feed = np.where(way.revenue > 0, values.feed, 0.0)
    found = {name: feed * rows.grid.spread(rate.floats()) for name, rate in rates.items()}
    for metal in rows.project.metals:
        if metal.smelter and metal.smelter.penalties:
            whole = rows.feed()
            charged = rows.penalties(metal, rows.recovered(metal, whole), whole).floats()
            found[f"{PENALTIES} {metal.name}"] = np.where(way.revenue > 0, rows.grid.spread(charged), 0.0)
    return found


def rounding_of(project: Project, lines: Lines, way: Way) -> NDArray[np.float64]:
    """Returns what the only process of a project earns in the block values beyond the products of metal, prices and costs."""
    earned = np.zeros(len(way.revenue))
    for metal in project.metals:
        a_unit = float(net(metal, metal.price, project.economics.royalty))
        earned += np.where(way.revenue > 0, way.metal[metal.name], 0.0) * a_unit
    return np.asarray((way.revenue - way.cost) / 10**MILLIONTHS - (earned - sum(lines.values())))

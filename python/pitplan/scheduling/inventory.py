"""Inventory of a schedule: tonnes, grades and metal by bench, rock type, class and destination, and the shares of blocks."""

from __future__ import annotations

from collections.abc import Sequence
from typing import TYPE_CHECKING

import numpy as np
import pandas as pd
from numpy.typing import NDArray

from pitplan.config.economics import GRADE_UNITS
from pitplan.config.material import MILL, WASTE
from pitplan.config.project import Project
from pitplan.economics.smelter_terms import payable_share
from pitplan.pits.shells import ratio
from pitplan.plan import shown_name

if TYPE_CHECKING:
    from .pushback_schedule import PushbackSchedule

# What a row counts as: mill feed of a class that may be a reserve, mill feed of another class, what lies on a stockpile, or waste.
ORE, NOT_RESERVE, STOCKPILED = "ore", "not_reserve", "stockpile"
CATEGORY = "category"
# The decimals of shares of blocks.
SHARE_PLACES = 9


def codes_of(project: Project) -> list[str]:
    """Returns the columns of rock type and resource class, as tables have them."""
    return [shown_name(name) for name in (project.table.rock_type, project.table.resource_class) if name]


def inventory_table(schedule: PushbackSchedule) -> pd.DataFrame:
    """Returns the inventory of a schedule of pushbacks. What lay on a stockpile at the start is of pushback 0 and of no bench."""
    stockpiles = [it.name for it in schedule.model.stockpiles]
    return summed(schedule.material_flows, schedule.pushbacks.plan.project, list(schedule.flows), stockpiles)


def summed(
    flows: pd.DataFrame, project: Project, methods: Sequence[str], stockpiles: Sequence[str] = ()
) -> pd.DataFrame:
    """Returns the sums of flows by method, year, pushback if they have any, bench, rock type, class, source and destination.

    Columns: these; category: ore, not_reserve (mill feed of inferred and unclassified material), stockpile or waste; total_tonnes with
    grade_METAL and in_situ_METAL; feed_tonnes with head_grade_METAL, contained_METAL, recovered_METAL and, with smelter terms, payable_METAL.

    Parameters
    ----------
    flows : DataFrame
        With the keys, total_tonnes, feed_tonnes, and in_situ_METAL, contained_METAL and recovered_METAL.
    project : Project
    methods, stockpiles : sequence of str
        Methods in the order of the rows, and the names of stockpiles.
    """
    names = [metal.name for metal in project.metals]
    keys = ["method", "year", *(["pushback"] if "pushback" in flows else []), "bench", *codes_of(project)]
    keys += ["source", "destination"]
    kinds = {kind: [f"{kind}_{name}" for name in names] for kind in ("in_situ", "contained", "recovered")}
    amounts = ["total_tonnes", *kinds["in_situ"], "feed_tonnes", *kinds["contained"], *kinds["recovered"]]
    sums = flows.groupby(keys, sort=False, dropna=False)[amounts].sum().reset_index()
    order = sums.assign(method=sums["method"].map({name: k for k, name in enumerate(methods)}), bench=-sums["bench"])
    sums = sums.loc[order.sort_values(keys, kind="stable").index].reset_index(drop=True)
    sums.insert(len(keys), CATEGORY, categories(sums, project, stockpiles))
    for metal in project.metals:
        unit, name = float(GRADE_UNITS[metal.unit]), metal.name
        for grade, content, whole in (("grade", "in_situ", "total_tonnes"), ("head_grade", "contained", "feed_tonnes")):
            values = ratio(sums[f"{content}_{name}"].to_numpy() / unit, sums[whole].to_numpy())
            sums.insert(sums.columns.get_loc(f"{content}_{names[0]}"), f"{grade}_{name}", values)
    for number, metal in enumerate(project.metals):
        if metal.smelter:
            share = payable_by_destination(project, number, sums["destination"])
            sums[f"payable_{metal.name}"] = sums[f"recovered_{metal.name}"] * share
    return sums


def payable_by_destination(project: Project, metal: int, destination: pd.Series) -> pd.Series:
    """Returns the share of a metal, by number, that is paid in the process of each row; 0 where nothing is recovered."""
    names = [process.name for process in project.processes] or [MILL]
    shares = {name: float(payable_share(alone.metals[metal])) for name, alone in zip(names, project.by_process)}
    return destination.map(shares).fillna(0.0)


def categories(rows: pd.DataFrame, project: Project, stockpiles: Sequence[str]) -> np.ndarray:
    column, feed = project.table.resource_class, np.full(len(rows), ORE, dtype=object)
    if column is not None:
        is_reserve = {code: project.classes.may_be_reserve(code) for code in rows[shown_name(column)].unique()}
        feed[~rows[shown_name(column)].map(is_reserve).to_numpy(dtype=bool)] = NOT_RESERVE
    feed[rows["destination"].isin(stockpiles)] = STOCKPILED
    feed[rows["destination"].isin([WASTE, *(it.name for it in project.dumps)])] = WASTE
    return feed


def blocks_shares(schedule: PushbackSchedule) -> dict[str, NDArray[np.float64]]:
    """Returns for each cell the share that is mined, and those that processes take, by the method that is shown, over all years.

    Of a share of a bench that is mined the same share of each block is mined, and of a parcel that goes somewhere the same share of each block.
    """
    flows, material, grid = schedule.flows[schedule.shown], schedule.material, schedule.pushbacks.plan.grid
    benches = np.zeros((len(schedule.pushbacks.factors) + 1, grid.shape[0]))
    benches[schedule.benches.pushback, schedule.benches.level] = flows.mined.sum(axis=1)
    found = {"share_mined": benches[schedule.pushbacks.pushback, np.arange(grid.count) // grid.per_level]}
    for name, shares in zip(schedule.names, flows.fed.sum(axis=2)):
        of_blocks = found[f"share_{name or MILL}"] = np.zeros(grid.count)
        of_blocks[material.cells] = shares[material.parcel]
    return {name: values.round(SHARE_PLACES) for name, values in found.items()}

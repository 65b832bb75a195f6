"""Verifies inventory.csv of a schedule, and the shares of blocks in blocks.csv, from flows."""

from __future__ import annotations

from collections.abc import Iterator

import numpy as np
import pandas as pd

from planaudit.inputs.codes import NOT_A_RESERVE
from planaudit.inputs.matching import own_name
from planaudit.inputs.project import GRADE_UNITS
from planaudit.inputs.tables import read_table
from planaudit.money.smelter import paid_share
from planaudit.rules import TOLD, Rule, rule
from planaudit.schedules.material_flow import AMOUNT, PIT, WASTE, MaterialFlow

FILE, CATEGORY = "inventory.csv", "category"
# The keys of lots besides their codes.
OF_LOTS = ("pushback", "level", "bin", "block")
# In place of the elevation of a bench for what lay on stockpiles at the start.
NO_BENCH = -np.inf
# The last decimal of grades and of shares.
GRADE, SHARE = 2e-6, 1e-6


def verify(flow: MaterialFlow, shown: str) -> Rule:
    """Verifies the rows of all methods, and the shares of blocks, by the method that is shown."""
    return rule_of([*unlike_rows(flow), *unlike_shares(flow, shown)])


def rule_of(found: list[str]) -> Rule:
    """Returns the rule with its differences."""
    holds = "the inventory and the shares of blocks are the sums of flows, and no ore is of a class that is no basis of reserves"
    return rule("inventory", holds, found[:TOLD], len(found))


def unlike_rows(flow: MaterialFlow) -> Iterator[str]:
    """Yields rows of inventory.csv that are not the sums of their flows, or are of another category."""
    codes, metals = [name for name in flow.keys if name not in OF_LOTS], flow.answer.project.metals
    places = [name for name in ("pushback",) if name in flow.keys]
    keys = ["method", "year", *places, "bench", *codes, "source", "destination"]
    texts = ["method", *codes, "source", "destination", CATEGORY]
    said = read_table(flow.answer.folder / "tables" / FILE, texts)
    said = said.fillna(dict.fromkeys(texts, "") | {"bench": NO_BENCH})
    kinds = [f"{kind}_{metal['name']}" for kind in ("in_situ", "contained", "recovered") for metal in metals]
    groups = flow.rows.fillna({"bench": NO_BENCH}).groupby(keys)
    sums, count = groups[["total_tonnes", "feed_tonnes", *kinds]].sum(), groups.size()
    if set(map(tuple, said[keys].to_numpy())) != set(sums.index) or len(said) != len(sums):
        yield f"{FILE}: has {len(said):,} rows for {len(sums):,} places of flows.csv, or others"
        return
    at = pd.MultiIndex.from_frame(said[keys])
    sums, slack = sums.reindex(at).reset_index(drop=True), flow.rounded * count.reindex(at).to_numpy() + AMOUNT
    expected = {name: (sums[name].to_numpy(), slack + 1e-9 * sums[name].to_numpy()) for name in sums}
    for metal in metals:
        unit = float(GRADE_UNITS[metal["unit"]])
        for grade, content, whole in (("grade", "in_situ", "total_tonnes"), ("head_grade", "contained", "feed_tonnes")):
            amount, tonnes = sums[f"{content}_{metal['name']}"].to_numpy() / unit, sums[whole].to_numpy()
            with np.errstate(divide="ignore", invalid="ignore"):
                due = np.where(tonnes > slack, amount / tonnes, np.nan)
                expected[f"{grade}_{metal['name']}"] = due, GRADE + slack * (1 / unit + due) / tonnes
    process = said["destination"].map(flow.names).fillna(0).to_numpy(dtype=int)
    for number, metal in enumerate(metals):
        if metal["smelter"]:
            values, loose = expected[f"recovered_{metal['name']}"]
            paid = np.array([float(paid_share(way.metals[number])) for way in flow.answer.project.by_process])
            expected[f"payable_{metal['name']}"] = values * paid[process], loose + AMOUNT
    if missing := set(expected) - set(said.columns):
        yield f"{FILE}: columns {sorted(missing)} are missing"
        return
    for name, (values, loose) in expected.items():
        off = np.flatnonzero(np.abs(said[name].to_numpy(dtype=float) - values) > loose)
        yield from (
            f"{FILE}: {', '.join(map(str, at[k]))}: {name} {said[name][k]:.10g} for {values[k]:.10g}" for k in off
        )
    for row in np.flatnonzero(said[CATEGORY] != categories(flow, said)):
        yield f"{FILE}: {', '.join(map(str, at[row]))}: category {said[CATEGORY][row]}"


def categories(flow: MaterialFlow, rows: pd.DataFrame) -> np.ndarray:
    """Returns what each row counts as."""
    column = flow.answer.project.table["class"]
    code = rows[own_name(column)].str.casefold() if column else pd.Series("measured", index=rows.index)
    feed = np.where(code.isin(NOT_A_RESERVE), "not_reserve", "ore")
    is_fed = rows["destination"].isin(flow.names)
    is_waste = rows["destination"].isin([*flow.blocks.unaccepted, WASTE])
    return np.where(is_fed, feed, np.where(is_waste, "waste", "stockpile"))


def unlike_shares(flow: MaterialFlow, shown: str) -> Iterator[str]:
    """Yields blocks whose shares are not those of their lot."""
    answer, tonnes = flow.answer, flow.blocks.lots["total_tonnes"]
    mine = flow.rows[flow.rows["method"] == shown]
    due = {"share_mined": mine[mine["source"] == PIT]}
    due |= {f"share_{name}": mine[mine["destination"] == name] for name in flow.names}
    lot, inside = pd.MultiIndex.from_frame(flow.blocks.keys), flow.blocks.inside
    for name, rows in due.items():
        sums = rows.groupby(flow.keys)["total_tonnes"].agg(["sum", "size"]).reindex(tonnes.index, fill_value=0.0)
        expected, loose = np.zeros(len(answer.rows)), np.full(len(answer.rows), SHARE)
        expected[inside] = (sums["sum"] / tonnes).reindex(lot).to_numpy()
        loose[inside] += (AMOUNT * sums["size"] / tonnes).reindex(lot).to_numpy()
        said = answer.said[name].to_numpy()
        off = np.flatnonzero(~(np.abs(said - expected) <= loose))
        yield from (f"{answer.called(row)}: {name} {said[row]:.9g} for {expected[row]:.9g}" for row in off)

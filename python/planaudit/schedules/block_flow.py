"""The flows of a schedule by block: where the shares of each mined block go, by blocks.csv; and what verifies the tables that sum them."""

from __future__ import annotations

from collections.abc import Iterator
from dataclasses import dataclass, replace
from functools import cached_property
from typing import Any

import numpy as np
import pandas as pd

from planaudit.errors import AuditError
from planaudit.inputs.answer import Answer
from planaudit.inputs.matching import own_name
from planaudit.inputs.tables import TABLES, YEAR, read_prices, read_table
from planaudit.money.period_costs import mining_factor
from planaudit.rules import TOLD, Checks, Rule, rule
from planaudit.schedules import (
    bounds,
    cash_flow,
    dumps,
    grade_tonnage,
    inventory,
    limit_table,
    material_flow,
    price_paths,
    stockpiles,
)
from planaudit.schedules.limits import placed_of, shares_of, stocked_of
from planaudit.schedules.lots import MILL, BlockAmounts
from planaudit.schedules.material_flow import PIT, WASTE, MaterialFlow
from planaudit.schedules.opening import OpeningLots
from planaudit.schedules.pushback_schedule import by_year

CASE = "block"
# A share that the tolerance of a solver alone may leave.
SLIGHT = 1e-9
# The types of columns of flows, which have none if nothing flows.
KINDS = {"year": int, "total_tonnes": float, "bench": float}
# The last decimals of all shares of a block.
SHARE = 1e-6
# The columns with texts of the tables of feed and limits.
TEXTS = {"feed.csv": ["method", "process"], limit_table.FILE: ["method", "limit"]}


@dataclass(frozen=True)
class SingleBlocks(BlockAmounts):
    """What each mined block adds to amounts. Each block is a lot of its own."""

    @cached_property
    def inside(self) -> np.ndarray:
        """The rows of mined blocks with tonnes."""
        return np.flatnonzero((self.answer.said[YEAR].to_numpy() > 0) & (self.answer.tonnes > 0))

    @cached_property
    def mining_cash(self) -> np.ndarray:
        """What mining each block earns, below 0. No pushback adds anything to it."""
        return -self.answer.said["mining_cost"].to_numpy()[self.inside]

    @cached_property
    def keys(self) -> pd.DataFrame:
        """The level of each block from the top, its row, and its codes."""
        answer, table = self.answer, self.answer.project.table
        codes = [name for name in (table["rock_type"], table["class"]) if name]
        found = {"level": answer.cells[0][self.inside], "block": self.inside}
        return pd.DataFrame(found | {own_name(it): answer.rows[it].astype(str).to_numpy()[self.inside] for it in codes})


def flow_of(answer: Answer) -> MaterialFlow:
    """Returns a row per mined block and destination that takes a share of it, with its amounts. No amount is rounded."""
    blocks = SingleBlocks(answer)
    shares = [(name or MILL, share[blocks.inside]) for name, share in (*shares_of(answer), *stocked_of(answer))]
    placed = [(name, share[blocks.inside]) for name, share in placed_of(answer)]
    shares += placed or [(WASTE, 1.0 - np.sum([share for _, share in shares], axis=0))]
    year, parts = answer.said[YEAR].to_numpy()[blocks.inside], []
    for destination, share in shares:
        some = np.flatnonzero(share > SLIGHT)
        parts.append(
            rows_of(blocks, some, share[some], {"year": year[some], "source": PIT, "destination": destination})
        )
    place = np.full(len(answer.rows), -1)
    place[blocks.inside] = np.arange(len(blocks.inside))
    again = answer.reclaims[place[answer.reclaims["row"].astype(int)] >= 0]
    legs = {name: again[name].to_numpy() for name in ("year", "source", "destination")}
    parts.append(rows_of(blocks, place[again["row"].astype(int)], again["share"].to_numpy(), legs))
    parts += [rows_of_opening(OpeningLots(blocks))] if len(answer.opened) else []
    flow = MaterialFlow(answer, blocks, pd.concat(parts, ignore_index=True).astype(KINDS), rounded=0.0)
    return replace(flow, rows=flow.rows.assign(**{name: due.astype(float) for name, (due, _) in flow.expected.items()}))


def rows_of(blocks: SingleBlocks, some: np.ndarray, share: np.ndarray, legs: dict[str, Any]) -> pd.DataFrame:
    """Returns the rows of shares of some blocks; `legs` are their year, source and destination."""
    keys = blocks.keys.iloc[some].reset_index(drop=True)
    found = {"method": CASE, **legs, "total_tonnes": blocks.tonnes[some] * share}
    return pd.concat([keys, pd.DataFrame(found | {"bench": blocks.answer.toes[keys["level"].to_numpy()]})], axis=1)


def rows_of_opening(lots: OpeningLots) -> pd.DataFrame:
    """Returns the rows of what processes take of opening balances. Raises AuditError if a stockpile has none."""
    taken, number = lots.answer.opened, {it["name"]: place for place, (_, it, _) in enumerate(lots.given)}
    if not (known := taken["source"].isin(number)).all():
        raise AuditError(f"reclaims.csv: {taken['source'][~known].iloc[0]} has no opening balance, expected an id")
    place = taken["source"].map(number).to_numpy(dtype=int)
    keys = lots.keys.iloc[place].reset_index(drop=True)
    found = {name: taken[name].to_numpy() for name in ("year", "source", "destination")}
    tonnes = lots.feed[place] * taken["share"].to_numpy()
    return pd.concat([keys, pd.DataFrame({"method": CASE, **found, "total_tonnes": tonnes, "bench": np.nan})], axis=1)


def checks_of(flow: MaterialFlow, record: dict[str, Any]) -> Checks:
    """Returns the checks of feed.csv, limits.csv, inventory.csv, cash_flow.csv, valuation.csv and grade_tonnage.csv, and of dumps and price paths if there are any."""
    answer = flow.answer
    found: Checks = {
        "inventory": lambda: [inventory.rule_of([*untaken(flow), *inventory.unlike_rows(flow)])],
        "feed and limits": lambda: [verify_feed(flow, record)],
        "cash flow": lambda: [cash_flow.verify(flow, [CASE])],
        "grade tonnage": lambda: [grade_tonnage.verify(answer)],
    }
    if answer.project.dumps:
        found = {**found, "dumps": lambda: [verify_dumps(flow)]}
    if flow.blocks.stockpiles:
        found = {**found, "material flow": lambda: [verify_stockpiles(flow)]}
    if not answer.project.price_paths:
        return found
    return {**found, "price paths": lambda: [price_paths.verify(answer, CASE, recovered_of(flow))]}


def verify_feed(flow: MaterialFlow, record: dict[str, Any]) -> Rule:
    """Verifies that feed.csv has the sums of blocks by process and year, limits.csv the use of each limit, and both the prices of bound.csv."""
    answer, last = flow.answer, int(flow.rows["year"].max()) if len(flow.rows) else 0
    tables = answer.folder / TABLES
    holds = "feed and the use of limits are sums over blocks, and cut-offs and shadow prices are multipliers"
    said, rows = (read_table(tables / name, texts) for name, texts in TEXTS.items())
    found = [*material_flow.unlike_feed(flow, said), *material_flow.unlike_realised(flow, said)]
    if not (tables / bounds.FILE).is_file():
        # The rule of the upper bound says so.
        return rule("feed and limits", holds, found[:TOLD], len(found))
    prices = read_prices(tables / bounds.FILE)
    # By block the price of a minimum is below 0, and that of all years is shown in the last one.
    prices = prices.assign(price=np.where(prices["side"] == bounds.MIN, -prices["price"], prices["price"]))
    prices.loc[prices["year"] == 0, "year"] = last
    table = limit_table.LimitTable(answer, by_year(answer, max(last, 1)), prices, record["years"])
    found += [*table.unlike_cutoffs(said), *table.unlike(CASE, rows, lambda name: used(flow, name, last), last)]
    return rule("feed and limits", holds, found[:TOLD], len(found))


def used(flow: MaterialFlow, name: str, last: int) -> tuple[pd.Series, pd.Series]:
    """Returns by year what is used of an amount, of the excess of a head grade, or as `feed K` by a process; and its tolerance."""
    if name.startswith((dumps.DUMP, dumps.DUMPED)):
        return dumps.used(flow, name, CASE, last)
    if name.startswith(limit_table.STOCK):
        return flow.lying(name.removeprefix(limit_table.STOCK), CASE, last)
    year = flow.answer.said[YEAR].to_numpy()[flow.blocks.inside]
    sums = np.bincount(flow.rows["year"], fed(flow, name), minlength=last + 1)
    sums = sums + np.bincount(year, flow.blocks.of_mining(name), minlength=last + 1)
    return pd.Series(sums, index=range(len(sums))), pd.Series(dtype=float)


def fed(flow: MaterialFlow, name: str) -> np.ndarray:
    """Returns what each row adds to an amount in its process."""
    if name == "total_tonnes":
        return np.zeros(len(flow.rows))
    number = flow.names.get(name.removeprefix("feed_tonnes_"), -1)
    if name.startswith("feed "):
        number = int(name.removeprefix("feed "))
    if number >= 0 or name == "feed_tonnes":
        return np.where(flow.process == number if number >= 0 else flow.process >= 0, flow.rows["feed_tonnes"], 0.0)
    return flow.rows[name].to_numpy() if name.startswith("recovered_") else flow.by_process(name) * flow.share


def of_years(flow: MaterialFlow) -> pd.DataFrame:
    """Returns the sums of years: rock, feed, limited sums, recovered metal, and the cash flow at the prices of each."""
    answer, blocks = flow.answer, flow.blocks
    last, year = int(flow.rows["year"].max()) if len(flow.rows) else 0, answer.said[YEAR].to_numpy()[blocks.inside]
    names = ["total_tonnes", "feed_tonnes", *(f"feed_tonnes_{name}" for name in blocks.processes if name)]
    names += [f"sum_{it['name']}" for it in blocks.sums]
    names += [f"recovered_{metal['name']}" for metal in answer.project.metals]
    found = {name: used(flow, name, last)[0] for name in names}
    factors = np.array([mining_factor(answer.project, it) for it in range(last + 1)])
    cash = np.bincount(year, blocks.mining_cash * factors[year], minlength=last + 1)
    cash = cash + np.bincount(flow.rows["year"], flow.rows["cash_flow"], minlength=last + 1)
    return pd.DataFrame(found | {"cash_flow": pd.Series(cash)}).loc[1:]


def verify_stockpiles(flow: MaterialFlow) -> Rule:
    """Verifies that stockpiles hold what is placed on them until it is reclaimed, within their limits, and stockpiles.csv."""
    found = list(stockpiles.differences(flow))
    holds = "a stockpile accepts what is placed on it, holds it until it is reclaimed in a later year, and no more or less than its limits"
    return rule("material flow", holds, found[:TOLD], len(found))


def verify_dumps(flow: MaterialFlow) -> Rule:
    """Verifies that each mined block goes to dumps that accept it or to processes, within the limits of dumps, and dumps.csv."""
    answer, blocks = flow.answer, flow.blocks
    shares = (*shares_of(answer), *placed_of(answer), *stocked_of(answer))
    whole = np.sum([share for _, share in shares], axis=0)[blocks.inside]
    lost = blocks.inside[np.abs(whole - 1.0) > SHARE]
    found = [f"{answer.called(row)}: its shares of dumps, processes and stockpiles do not add up to 1" for row in lost]
    found += dumps.differences(flow)
    holds = "each mined block goes whole to dumps that accept it and to processes, and no dump takes or holds more than its limits"
    return rule("dumps", holds, found[:TOLD], len(found))


def recovered_of(flow: MaterialFlow) -> dict[str, np.ndarray]:
    """Returns by metal what each process recovers in each period, shape (processes, periods)."""
    last, rows = int(flow.rows["year"].max()) if len(flow.rows) else 0, flow.rows
    index = pd.MultiIndex.from_product([flow.names, range(1, last + 1)])
    sums = rows.groupby(["destination", "year"])
    return {
        metal["name"]: sums[f"recovered_{metal['name']}"]
        .sum()
        .reindex(index, fill_value=0.0)
        .to_numpy()
        .reshape(-1, last)
        for metal in flow.answer.project.metals
    }


def untaken(flow: MaterialFlow) -> Iterator[str]:
    """Yields blocks that go to a process in which they have no revenue."""
    for row in flow.rows[flow.by_process("not taken") > 0].itertuples():
        name = flow.answer.called(row.block) if row.block >= 0 else f"the opening balance of {row.source}"
        yield f"{name}: goes to {row.destination}, where it has no revenue"

"""Verifies flows.csv and feed.csv of a schedule of pushbacks from the blocks: each tonne that is mined goes somewhere once."""

from __future__ import annotations

from collections.abc import Callable, Iterator
from dataclasses import dataclass
from functools import cached_property
from typing import Any

import numpy as np
import pandas as pd

from planaudit.inputs.answer import Answer
from planaudit.inputs.project import GRADE_UNITS, Section, opening_tonnes
from planaudit.inputs.tables import read_table, some
from planaudit.money.period_costs import BY_TERMS, SELLING, premiums
from planaudit.rules import TOLD, Rule, rule
from planaudit.schedules import cutoff_table, dumps, stockpiles
from planaudit.schedules.lots import MILL, BlockAmounts
from planaudit.schedules.opening import FIRST, OpeningLots

PIT, WASTE = "pit", "waste"
# The last decimal place of amounts, and the tolerance of the solver for shares.
AMOUNT, SHARE = 0.6e-3, 1e-6
# Tolerance of the elevation of a bench, as a share of its height, and of sums.
SLIGHT = 1e-6
# The last decimal place of values per tonne.
MONEY = 1e-6
# The level of a row of no bench and no stockpile.
UNKNOWN = -1e6


@dataclass(frozen=True)
class MaterialFlow:
    """The flows of all methods.

    Attributes
    ----------
    answer : Answer
    blocks : BlockAmounts
    rows : DataFrame
        flows.csv, with the `level` of each bench.
    rounded : float
        The last decimal place of the tonnes of rows.
    """

    answer: Answer
    blocks: BlockAmounts
    rows: pd.DataFrame
    rounded: float = AMOUNT

    @cached_property
    def keys(self) -> list[str]:
        return list(self.blocks.keys)

    @cached_property
    def opening(self) -> OpeningLots:
        """What lies on stockpiles at the start."""
        return OpeningLots(self.blocks)

    @cached_property
    def lots(self) -> pd.DataFrame:
        """The sums of each lot, of blocks and of what lies on stockpiles at the start."""
        return pd.concat([self.blocks.lots, self.opening.lots]) if self.opening.given else self.blocks.lots

    @cached_property
    def whole(self) -> pd.DataFrame:
        """The sums of the lot of each row; nan if there is no such lot."""
        return self.lots.reindex(pd.MultiIndex.from_frame(self.rows[self.keys])).reset_index(drop=True)

    @cached_property
    def share(self) -> np.ndarray:
        """The share of its lot that flows in each row."""
        return (self.rows["total_tonnes"] / self.whole["total_tonnes"]).to_numpy()

    @property
    def names(self) -> dict[str, int]:
        """The numbers of the processes by their names in flows.csv."""
        return {name or MILL: number for number, name in enumerate(self.blocks.processes)}

    @cached_property
    def process(self) -> np.ndarray:
        """The number of the process that takes each row; -1: none."""
        return self.rows["destination"].map(self.names).fillna(-1).to_numpy(dtype=int)

    @cached_property
    def is_waste(self) -> np.ndarray:
        """Whether each row is waste: with dumps it goes to one of them."""
        return self.rows["destination"].isin([*self.blocks.unaccepted, WASTE]).to_numpy()

    def by_process(self, name: str) -> np.ndarray:
        """Returns the whole lot's amount in the process of each row; 0 without one."""
        found = np.zeros(len(self.rows))
        for number in range(len(self.blocks.processes)):
            mine = self.process == number
            found[mine] = self.whole[f"{name} {number}"].to_numpy()[mine]
        return found

    @cached_property
    def stockpile_of(self) -> np.ndarray:
        """The number of the stockpile that each row goes to or comes from; -1: none."""
        names = {it["name"]: number for number, it in enumerate(self.blocks.stockpiles)}
        side = self.rows["source"].where(self.process >= 0, self.rows["destination"])
        return side.map(names).fillna(-1).to_numpy(dtype=int)

    def of_stockpile(self, value: Callable[[Section], float], otherwise: float) -> np.ndarray:
        """Returns by row a value of its stockpile; `otherwise` without one."""
        values = np.array([*map(value, self.blocks.stockpiles), otherwise], dtype=float)
        return np.asarray(values[self.stockpile_of])

    def recovery(self, metal: str) -> np.ndarray:
        """The share of a metal's recovery that each row keeps."""
        kept = self.of_stockpile(lambda it: it["recovery"].get(metal, 1.0), 1.0)
        return np.where(self.process >= 0, kept, 1.0)

    def recovered(self, metal: str) -> np.ndarray:
        """What the process of each row recovers of its whole lot."""
        return self.by_process(f"recovered_{metal}") * self.recovery(metal)

    @cached_property
    def expected(self) -> dict[str, tuple[np.ndarray, np.ndarray]]:
        """By column what each row should have, and its tolerance."""
        fed = np.where(self.process >= 0, self.share, 0.0)
        moved = np.where(self.is_waste, 0.0, self.share)
        # The share that a rounded tonnage leaves open.
        open_to = self.rounded / self.whole["total_tonnes"].to_numpy()
        found = {}
        for name in ("feed_tonnes", *(f"contained_{metal['name']}" for metal in self.answer.project.metals)):
            whole = self.whole[name].to_numpy()
            found[name] = whole * moved, AMOUNT + np.abs(whole) * open_to
        for metal in self.answer.project.metals:
            whole = self.whole[f"in_situ_{metal['name']}"].to_numpy()
            found[f"in_situ_{metal['name']}"] = whole * self.share, AMOUNT + np.abs(whole) * open_to
            whole = self.recovered(metal["name"])
            found[f"recovered_{metal['name']}"] = whole * fed, AMOUNT + np.abs(whole) * open_to
        cash, handled = self.cash
        slack = AMOUNT + (np.abs(cash) + handled) * open_to
        found["cash_flow"] = (cash - handled) * self.share, slack
        return found

    @cached_property
    def cash(self) -> tuple[np.ndarray, np.ndarray]:
        """What the whole lot of each row earns in its process, at the prices of the year, and what stacking, reclaiming or dumping it
        costs."""
        gain = self.by_process("gain")
        for metal in self.answer.project.metals:
            lost = self.by_process(f"recovered_{metal['name']}") * (1 - self.recovery(metal["name"]))
            # Rows without a process recover nothing.
            gain -= lost * self.blocks.net_prices[metal["name"]][np.maximum(self.process, 0)]
        for year in self.rows["year"].unique():
            mine = (self.rows["year"] == year).to_numpy()
            for name, premium in premiums(self.answer.project, int(year)).items():
                gain[mine] += premium * self.multiplied(name)[mine]
        placed = self.of_stockpile(lambda it: it["stacking_cost"], 0.0)
        cost = np.where(self.process >= 0, self.of_stockpile(lambda it: it["reclaim_cost"], 0.0), placed)
        return gain, cost * self.whole["feed_tonnes"].to_numpy() + self.dumping * self.whole["total_tonnes"].to_numpy()

    @cached_property
    def per_tonne(self) -> np.ndarray:
        """What a tonne of feed of each row earns net of the costs of its process, and of reclaiming it."""
        cash, handled = self.cash
        feed = self.whole["feed_tonnes"].to_numpy()
        return np.divide(cash - handled, feed, out=np.full(len(feed), np.nan), where=feed > 0)

    @property
    def dumping(self) -> np.ndarray:
        """What a tonne of each row costs in its dump; 0 elsewhere."""
        costs = {it["name"]: it["cost"] for it in self.answer.project.dumps}
        return self.rows["destination"].map(costs).fillna(0.0).to_numpy(dtype=float)

    def multiplied(self, name: str) -> np.ndarray:
        """Returns an amount of the whole lot of each row that prices or factors of years multiply: what is recovered, or a cost of ore."""
        if name.startswith("recovered_"):
            return self.recovered(name.removeprefix("recovered_"))
        found = self.by_process(name)
        if name.startswith(BY_TERMS):
            return found * self.recovery(name.removeprefix(BY_TERMS))
        for metal, charges in self.blocks.charges.items() if name == SELLING else ():
            lost = self.by_process(f"recovered_{metal}") - self.recovered(metal)
            found = found - lost * charges[np.maximum(self.process, 0)]
        return found

    def lying(self, name: str, method: str, last: int) -> tuple[pd.Series, pd.Series]:
        """Returns the tonnes of feed on a stockpile at the end of each year of a method, and their tolerance."""
        mine, years = self.rows[self.rows["method"] == method], range(1, last + 1)
        moves = [mine[mine[side] == name] for side in ("destination", "source")]
        placed, out = (rows.groupby("year")["feed_tonnes"].sum().reindex(years, fill_value=0.0) for rows in moves)
        slack = AMOUNT * sum(map(len, moves))
        start = sum(opening_tonnes(it) for it in self.blocks.stockpiles if it["name"] == name)
        return start + (placed - out).cumsum(), pd.Series(slack, index=years)

    def used(self, name: str, method: str, mined: pd.Series) -> tuple[pd.Series, pd.Series]:
        """Returns a limited amount of a method by year, and its tolerance; `mined` are the shares of benches by year, pushback and level."""
        mine = (self.rows["method"] == method).to_numpy()
        of_lot = self.by_process(name)
        if name.startswith("recovered_"):
            of_lot = self.recovered(name.removeprefix("recovered_"))
        fed, loose = of_lot * self.share, np.abs(of_lot) * AMOUNT / self.whole["total_tonnes"].to_numpy()
        year = self.rows["year"][mine]
        found, slack = (pd.Series(values[mine]).groupby(year.to_numpy()).sum() for values in (fed, loose))
        lots = self.blocks.lots[name].groupby(level=["pushback", "level"]).sum()
        whole = lots.reindex(mined.index.droplevel("year"), fill_value=0.0).to_numpy() * mined.to_numpy()
        of_mining = pd.Series(whole, index=mined.index).groupby(level="year").sum()
        return (
            found.add(of_mining, fill_value=0.0),
            slack.reindex(of_mining.index, fill_value=0.0) + SLIGHT * of_mining.abs(),
        )


def read(answer: Answer) -> tuple[MaterialFlow, list[str]]:
    """Reads flows.csv; returns also differences of rows with an unknown bench, lot, source or destination, which are left out."""
    blocks = BlockAmounts(answer)
    texts = [
        "method",
        "source",
        "destination",
        *[name for name in blocks.keys if name not in ("pushback", "level", "bin")],
    ]
    rows = read_table(answer.folder / "tables/flows.csv", texts)
    numbers = {name: float for name in rows if name not in texts and name not in ("year", "pushback", "bin")}
    # Blocks without a resource class have an empty one.
    rows = rows.fillna(dict.fromkeys(texts, "")).astype(numbers | {name: int for name in ("year", "pushback", "bin")})
    steps = ((answer.toes[0] - rows["bench"]) / answer.size[2]).astype(float)
    steps = steps.where(rows["pushback"] > 0, levels_of_opening(rows, blocks)).fillna(UNKNOWN)
    rows["level"] = np.rint(steps).astype(int)
    processes = {name or MILL for name in blocks.processes}
    legs = {*((PIT, name) for name in blocks.unaccepted or (WASTE,)), *((PIT, name) for name in processes)}
    for it in blocks.stockpiles:
        legs |= {(PIT, it["name"]), *((it["name"], name) for name in processes)}
    found = MaterialFlow(answer, blocks, rows)
    known = pd.MultiIndex.from_frame(rows[found.keys]).isin(found.lots.index)
    leg = pd.Series(list(zip(rows["source"], rows["destination"]))).isin(legs).to_numpy()
    wrong = ((steps - rows["level"]).abs() > SLIGHT).to_numpy() | ~known | ~leg | (rows["year"] < 1).to_numpy()
    wrong |= (rows["total_tonnes"] < 0).to_numpy()
    differences = [f"flows.csv: {called(row)}: no such bench, bin or flow" for row in some(rows, wrong)]
    return MaterialFlow(answer, blocks, rows[~wrong].reset_index(drop=True)), differences


def levels_of_opening(rows: pd.DataFrame, blocks: BlockAmounts) -> pd.Series:
    """Returns the level of rows of what lay on stockpiles at the start, by their source; nan if it is no stockpile, or there is a bench."""
    numbers = {it["name"]: float(FIRST - number) for number, it in enumerate(blocks.stockpiles)}
    return rows["source"].map(numbers).where(rows["bench"].isna())


def called(row: Any) -> str:
    return f"{row.method}, year {row.year}, pushback {row.pushback}, bench {row.bench:.10g}, bin {row.bin}, {row.source} to {row.destination}"


def verify(flow: MaterialFlow, schedule: pd.DataFrame, misplaced: list[str]) -> Rule:
    """Verifies the amounts of all rows, the conservation of each lot, stockpiles and dumps, and feed.csv, stockpiles.csv, dumps.csv and
    cutoffs.csv.

    Parameters
    ----------
    flow : MaterialFlow
    schedule : DataFrame
        schedule.csv with the `level` of each bench.
    misplaced : list of str
        Differences found in reading.
    """
    found = [*misplaced, *unlike_amounts(flow), *untaken(flow), *unlike_mined(flow, schedule)]
    said = read_table(flow.answer.folder / "tables/feed.csv", ["method", "process"])
    found += [
        *stockpiles.differences(flow),
        *dumps.differences(flow),
        *unlike_feed(flow, said),
        *unlike_realised(flow, said),
        *cutoff_table.differences(flow.answer, said),
    ]
    holds = "each tonne that is mined goes to a process, to a stockpile, to a dump or to waste once, with the metal and cash flow of its blocks"
    return rule("material flow", holds, found[:TOLD], len(found))


def unlike_amounts(flow: MaterialFlow) -> Iterator[str]:
    for name, (expected, slack) in flow.expected.items():
        off = np.abs(flow.rows[name].to_numpy() - expected) > slack + 1e-9 * np.abs(expected)
        for row in some(flow.rows, off):
            yield f"flows.csv: {called(row)}: {name} {getattr(row, name):.10g} for {expected[row.Index]:.10g}"


def untaken(flow: MaterialFlow) -> Iterator[str]:
    """Yields rows that send blocks to a process in which they have no revenue."""
    off = (flow.by_process("not taken") > 0) & (flow.rows["total_tonnes"].to_numpy() > AMOUNT)
    yield from (f"flows.csv: {called(row)}: blocks without revenue there" for row in some(flow.rows, off))


def unlike_mined(flow: MaterialFlow, schedule: pd.DataFrame) -> Iterator[str]:
    """Yields lots whose tonnage that leaves the pit in a year differs from what is mined of their bench."""
    keys = ["method", "year", *flow.keys]
    from_pit = flow.rows[flow.rows["source"] == PIT].groupby(keys)["total_tonnes"].agg(["sum", "count"])
    lots = flow.blocks.lots["total_tonnes"].reset_index()
    mined = schedule[["method", "year", "pushback", "level", "share"]].merge(lots, on=["pushback", "level"])
    due = (mined["share"] * mined["total_tonnes"]).groupby([mined[name] for name in keys]).sum()
    both = pd.DataFrame({"due": due, "sum": from_pit["sum"], "count": from_pit["count"]}).fillna(0.0)
    whole = flow.blocks.lots["total_tonnes"].reindex(both.index.droplevel(["method", "year"])).to_numpy()
    off = (both["sum"] - both["due"]).abs() > AMOUNT * (both["count"] + 1) + SHARE * whole
    for at, row in both[off].iterrows() if off.any() else ():
        yield f"flows.csv: {', '.join(map(str, at))}: {row['sum']:.10g} t leave the pit for {row['due']:.10g} mined"


def unlike_realised(flow: MaterialFlow, said: pd.DataFrame) -> Iterator[str]:
    """Yields rows of feed.csv whose `realised_cutoff` is not the lowest value per tonne among their flows of more than a millionth of the feed. Flows
    of about that size may count or not, since their tonnes are rounded."""
    keys = ["method", "year", "process"]
    fed = flow.rows[keys[:2]].assign(
        process=flow.rows["destination"], value=flow.per_tonne, feed=flow.rows["feed_tonnes"]
    )
    fed = fed[flow.process >= 0]
    groups = fed.groupby(keys)["feed"]
    least, slack = SHARE * groups.transform("sum"), AMOUNT * (groups.transform("size") + 1)
    at = pd.MultiIndex.from_frame(said[keys])
    low, high = (fed[fed["feed"] > least + by].groupby(keys)["value"].min().reindex(at) for by in (-slack, slack))
    for row, least_value, greatest in zip(said.itertuples(), low, high):
        value = float(row.realised_cutoff)
        is_none = np.isnan(value) and np.isnan(greatest)
        if not (is_none or least_value - MONEY <= value and not value > greatest + MONEY):
            yield f"feed.csv: {row.method}, year {row.year}, {row.process}: realised_cutoff {value:.10g} for {greatest:.10g}"


def unlike_feed(flow: MaterialFlow, said: pd.DataFrame) -> Iterator[str]:
    """Yields rows of feed.csv that are not the sums of their flows."""
    keys, metals = ["method", "year", "process"], flow.answer.project.metals
    rows = flow.rows[flow.process >= 0].rename(columns={"destination": "process"})
    names = ["feed_tonnes", *(f"{kind}_{metal['name']}" for kind in ("contained", "recovered") for metal in metals)]
    rows = rows.assign(reclaimed_tonnes=rows["feed_tonnes"].where(rows["source"] != PIT, 0.0))
    groups = rows.groupby(keys)
    sums, count = groups[[*names, "reclaimed_tonnes"]].sum(), groups.size()
    at = pd.MultiIndex.from_frame(said[keys])
    missing = [key for key in sums.index if key not in at]
    yield from (f"feed.csv: {', '.join(map(str, key))}: is missing" for key in missing)
    sums, count = sums.reindex(at).fillna(0.0).reset_index(drop=True), count.reindex(at).fillna(0).to_numpy()
    tolerance = {name: AMOUNT * (count + 1) + 1e-9 * sums[name].abs() for name in (*names, "reclaimed_tonnes")}
    for metal in metals:
        unit = float(GRADE_UNITS[metal["unit"]])
        head = f"head_grade_{metal['name']}"
        with np.errstate(divide="ignore", invalid="ignore"):
            sums[head] = sums[f"contained_{metal['name']}"] / unit / sums["feed_tonnes"]
            tolerance[head] = (
                1e-6 + tolerance[f"contained_{metal['name']}"] / unit / sums["feed_tonnes"] * 2 + 1e-6 * sums[head]
            )
        sums.loc[sums["feed_tonnes"] <= 0, head] = np.nan
    for name, slack in tolerance.items():
        values, due = said[name].to_numpy(dtype=float), sums[name].to_numpy()
        off = (np.abs(values - due) > slack.to_numpy()) | (np.isnan(values) != np.isnan(due))
        if name.startswith("head_grade_"):
            # Of less feed than the last decimal shows the grade is not known.
            off &= (said["feed_tonnes"] > AMOUNT * (count + 1)).to_numpy()
        yield from (
            f"feed.csv: {row.method}, year {row.year}, {row.process}: {name} {getattr(row, name):.10g} for {due[row.Index]:.10g}"
            for row in some(said, off)
        )

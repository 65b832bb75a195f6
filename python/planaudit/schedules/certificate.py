"""Verifies the certificate of a schedule by block: that its texts have the values, limits, discount factors and years of the run.

The program pitschedule proves what follows from these texts, but not that they are those of the project.
"""

from __future__ import annotations

from collections.abc import Iterator
from dataclasses import dataclass
from functools import cached_property
from itertools import product
from typing import Any

import numpy as np
import pandas as pd

from planaudit.inputs.answer import Answer
from planaudit.inputs.codes import refused
from planaudit.inputs.matching import SHARE
from planaudit.inputs.project import Section
from planaudit.inputs.tables import PERIOD, TABLES, YEAR, read_table
from planaudit.rules import TOLD, Rule, rule
from planaudit.schedules import pushback_bounds
from planaudit.schedules.bounds import MAX, MIN, Bound, lost_by_reclaim
from planaudit.schedules.certificate_texts import FOLDER, KEY, MONEY, NAME, ROUNDING, UNFIT, UNIT, Texts
from planaudit.schedules.discounts import discount
from planaudit.schedules.dumps import DUMP, DUMPED
from planaudit.schedules.limit_table import STOCK
from planaudit.schedules.lots import BlockAmounts
from planaudit.schedules.opening import OpeningLots

# Millionths by which a share may differ: shares are rounded, and then reduced until they keep the limits. A solver may miss each limit by a millionth
# of the largest amount.
MOVED = 20
# How the names of parts of opening balances begin.
OPENING = "opening "
HOLDS = "the certificate has the block values, limits, discount factors, multipliers and years of the run, and its value and bound are those of the schedule"


def verify(answer: Answer, told: dict[str, Any]) -> list[Rule]:
    """Verifies the certificate, if block_schedule.json names one."""
    if KEY not in told:
        return []
    texts = Texts(answer.folder / FOLDER, told[KEY].get(MONEY, 1))
    if not texts.fit:
        return [rule(NAME, HOLDS, [UNFIT])]
    found = BlockCertificate(answer, texts)
    of_texts = (found.unlike_values(), found.unlike_shares(), found.unlike_parts(), found.unlike_periods(told))
    differences = [it for part in (*of_texts, found.unlike_results(told)) for it in part]
    return [rule(NAME, HOLDS, differences[:TOLD], len(differences))]


@dataclass(frozen=True)
class BlockCertificate:
    """The texts next to the results of the run."""

    answer: Answer
    texts: Texts

    @cached_property
    def written(self) -> pd.DataFrame:
        """The results by block; blocks of air have zeros."""
        blocks = pd.read_csv(self.answer.folder / TABLES / "blocks.csv").rename(columns={PERIOD: YEAR}).set_index("id")
        ids = np.array([name for name in self.names if not name.startswith(OPENING)], dtype=np.int64)
        return blocks.select_dtypes("number").reindex(ids, fill_value=0)

    @property
    def names(self) -> list[str]:
        """The name of each block of the texts: its id, and behind these `opening STOCKPILE` of each part of an opening balance."""
        return (self.answer.folder / FOLDER / "schedule.blocks").read_text(encoding="utf-8").splitlines()

    @property
    def parts(self) -> list[str]:
        """The stockpile of each part of an opening balance."""
        return [name.removeprefix(OPENING) for name in self.names[len(self.written) :]]

    @cached_property
    def lots(self) -> OpeningLots:
        return OpeningLots(BlockAmounts(self.answer))

    @cached_property
    def values(self) -> np.ndarray:
        """What each block earns in each destination as it is mined, shape (blocks, destinations)."""
        return np.column_stack([amounts for (_, lag), amounts in sorted(self.texts.terms().items()) if not lag])

    @cached_property
    def reclaimed(self) -> np.ndarray:
        """What each block earns as it is reclaimed, shape (blocks, destinations)."""
        found = np.zeros_like(self.values)
        for (number, lag), amounts in self.texts.terms().items():
            found[:, number] += amounts * (lag > 0)
        return found

    @property
    def waste(self) -> list[str]:
        """The dumps, or waste without a name."""
        return [dump["name"] for dump in self.answer.project.dumps] or [""]

    @property
    def processes(self) -> list[str]:
        return [process["name"] for process in self.answer.project.processes] or ["mill"]

    @cached_property
    def routes(self) -> list[tuple[Section, int, int]]:
        """The ways over a stockpile to a process, by its number, after some years."""
        rules = self.answer.project.schedule
        piles = rules["stockpiles"] if rules else ()
        return list(product(piles, range(len(self.processes)), range(1, self.texts.periods + 1)))

    @property
    def destinations(self) -> list[tuple[str, str, int]]:
        """Stockpile, destination and years of each: waste and processes, then the routes."""
        direct = [("", name, 0) for name in (*self.waste, *self.processes)]
        return [*direct, *((pile["name"], self.processes[number], lag) for pile, number, lag in self.routes)]

    def of_blocks(self, of_rows: np.ndarray) -> np.ndarray:
        """Returns values of rows by block; of air 0."""
        ids = self.answer.said["id"].to_numpy()
        return pd.Series(of_rows, index=ids).reindex(self.written.index, fill_value=0.0).to_numpy()

    @cached_property
    def dumped(self) -> list[np.ndarray]:
        """What each block costs in each dump, by dump; in its cheapest one where the dump does not accept it, each of shape (blocks,)."""
        answer = self.answer
        is_open = np.stack([~refused(answer.rows, answer.project, it["accepts"]) for it in answer.project.dumps])
        # Rock that no dump accepts counts in the first one.
        is_open[0] |= ~is_open.any(axis=0)
        costs = np.where(is_open, np.array([it["cost"] for it in answer.project.dumps])[:, None], np.inf)
        costs = np.where(is_open, costs, costs.min(axis=0)) * np.where(answer.tonnes > 0, answer.tonnes, 1.0)
        return [self.of_blocks(it) for it in np.where(answer.tonnes > 0, costs, 0.0)]

    @cached_property
    def shares(self) -> np.ndarray:
        """The share of each block by period and destination, shape (blocks, periods, destinations)."""
        found = np.zeros((len(self.values), self.texts.periods, self.values.shape[1]))
        np.add.at(found, tuple(self.texts.places.T), self.texts.shares[:, 3])
        return found

    def unlike_values(self) -> Iterator[str]:
        """Yields the blocks whose values differ from blocks.csv."""
        mining = self.written["mining_cost"].to_numpy()
        ways = [self.written[revenue] - self.written[cost] for revenue, cost in self.answer.amounts_of_ways]
        as_waste = self.dumped if self.answer.project.dumps else [np.zeros(len(mining))]
        own = np.column_stack([*(-mining - cost for cost in as_waste), *(way.to_numpy() - mining for way in ways)])
        barren = [(self.written[revenue] <= 0).to_numpy() for revenue, _ in self.answer.amounts_of_ways]
        cheapest = own[:, : len(as_waste)].max(axis=1)
        for number, is_barren in enumerate(barren, len(as_waste)):
            # What a process gains nothing from goes to its cheapest dump.
            own[is_barren, number] = cheapest[is_barren]
        again = np.zeros_like(own)
        for pile, process, lag in self.routes:
            refuses = self.of_blocks(refused(self.answer.rows, self.answer.project, pile["accepts"]).astype(float)) > 0
            closed, feed = refuses | barren[process], self.of_blocks(self.answer.feed)
            own = np.column_stack([own, np.where(closed, cheapest, -mining - pile["stacking_cost"] * feed)])
            gain = ways[process].to_numpy() - self.of_blocks(lost_by_reclaim(self.answer, process, pile))
            again = np.column_stack([again, np.where(closed | (lag == self.texts.periods), 0.0, gain)])
        if own.shape[1] != self.values.shape[1]:
            yield f"values of {self.values.shape[1]} destinations for {own.shape[1]}"
            return
        own, again = np.vstack([own, self.values_of_parts]), np.vstack([again, 0 * self.values_of_parts])
        if own.shape != self.values.shape:
            yield f"{len(self.values)} blocks for {len(own)}"
            return
        # What a pile refuses and a process gains nothing from is waste at once.
        for said, due in ((self.values, own), (self.reclaimed, again)):
            for block in np.flatnonzero((np.abs(due - said) > self.texts.cent * (1 + len(self.routes))).any(axis=1)):
                yield f"block {self.names[block]}: values {said[block].tolist()} for {due[block].tolist()}"

    @property
    def values_of_parts(self) -> np.ndarray:
        """What each part of an opening balance earns in each destination, shape (parts, destinations)."""
        lots, parts, first = self.lots, self.parts, len(self.waste)
        found, bound = np.zeros((len(parts), len(self.destinations))), pushback_bounds.Bound(
            self.answer, pd.DataFrame(), 0, {}
        )
        for place, (_, pile, _) in enumerate(lots.given):
            mine = [name == pile["name"] for name in parts]
            for process in range(len(self.processes)):
                gain = bound.undiscounted(process, pile, lots)[place] * lots.takes[process, place]
                found[mine, first + process] = gain / max(sum(mine), 1)
        return found

    def unlike_parts(self) -> Iterator[str]:
        """Yields the opening balances without parts or whose shares differ from reclaims.csv, and parts that are of none."""
        given = [pile["name"] for _, pile, _ in self.lots.given]
        if set(self.parts) != set(given):
            yield f"parts of {sorted(set(self.parts))} for the opening balances of {sorted(given)}"
        shares, taken = self.shares[len(self.written) :], self.answer.opened
        for name in given:
            mine = np.flatnonzero([it == name for it in self.parts])
            for process, said in enumerate(shares[mine].mean(axis=0).T[len(self.waste) :] if len(mine) else ()):
                own, rows = np.zeros(self.texts.periods), taken[taken["source"] == name]
                if process < len(self.processes):
                    rows = rows[rows["destination"] == self.processes[process]]
                    np.add.at(own, rows["year"].to_numpy(int) - 1, rows["share"].to_numpy(float))
                if (np.abs(own - said) > MOVED * UNIT).any():
                    yield f"opening balance of {name}: shares {said.tolist()} for {own.tolist()} in reclaims.csv"

    def unlike_shares(self) -> Iterator[str]:
        """Yields the blocks whose years or shares differ from blocks.csv."""
        year, said = self.written[YEAR].to_numpy(), self.shares[: len(self.written)].copy()
        own = np.zeros_like(said)
        mined = np.flatnonzero(year > 0)
        again = self.answer.reclaims
        block = pd.Index(self.written.index).get_indexer(self.answer.said["id"].to_numpy()[again["row"].astype(int)])
        place, first = {it: number for number, it in enumerate(self.destinations)}, len(self.waste)
        for number, name in enumerate((*self.waste, *self.processes)):
            if name:
                own[mined, year[mined] - 1, number] = self.written[SHARE + name].to_numpy()[mined]
        for at, row in zip(block, again.itertuples()):
            share, process = row.share, first + self.processes.index(row.destination)
            own[at, year[at] - 1, place[row.source, row.destination, int(row.year) - year[at]]] += share
            own[at, year[at] - 1, process] -= share
        # What no year is left to reclaim has any way over its stockpile.
        for pile in {pile["name"] for pile, _, _ in self.routes}:
            over = np.array([number for number, it in enumerate(self.destinations) if it[0] == pile])
            lags = np.array([self.destinations[number][2] for number in over])
            late = over[None] * ((year[:, None] + lags) > self.texts.periods)
            for at in mined:
                stays = late[at][late[at] > 0]
                if len(stays):
                    placed = self.written[SHARE + pile].to_numpy()[at] - own[at, year[at] - 1, over].sum()
                    own[at, year[at] - 1, stays[0]] += placed
                    said[at, year[at] - 1, stays[0]] += said[at, year[at] - 1, stays[1:]].sum()
                    said[at, year[at] - 1, stays[1:]] = 0.0
        # Air lies in no dump of blocks.csv; without dumps the rest of a block is waste.
        own[mined, year[mined] - 1, 0] += 1 - own[mined, year[mined] - 1].sum(axis=1)
        for block in np.flatnonzero((np.abs(own - said) > MOVED * UNIT).any(axis=(1, 2))):
            yield f"block {self.written.index[block]}: shares differ from those of year {year[block]} in blocks.csv"

    @property
    def lying(self) -> dict[str, float]:
        """The tonnes of opening balances, by the names of the limits of their stockpiles."""
        return {f"{STOCK}{pile['name']}": float(lies["tonnes"]) for _, pile, lies in self.lots.given}

    def unlike_periods(self, told: dict[str, Any]) -> Iterator[str]:
        """Yields what differs in discount factors, limits, multipliers, and the names of limits and destinations in block_schedule.json."""
        bound = Bound(
            self.answer, read_table(self.answer.folder / TABLES / "bound.csv", ["limit", "side"]), self.texts.periods
        )
        factors = [discount(self.answer, year) for year in bound.every_year]
        if np.abs(self.texts.discounts - factors).max() > UNIT:
            yield "discount factors differ"
        capacities, prices = self.texts.lines("problem", "CAPACITIES"), self.texts.prices
        sides = list(dict.fromkeys(zip(bound.prices["limit"], bound.prices["side"])))
        # Where nothing can be mined bound.csv has no limits, whose prices are then 0.
        sides = sides or [(name, side) for name, side in told[KEY]["limits"]]
        record = {"limits": [list(it) for it in sides], "destinations": [list(it) for it in self.destinations]}
        yield from (f"{name} {told[KEY][name]} for {due}" for name, due in record.items() if told[KEY][name] != due)
        if len(sides) != len(capacities) or len(sides) != len(prices):
            yield f"{len(capacities)} limits and {len(prices)} rows of prices for {len(sides)}"
            return
        for number, ((name, side), of_years, paid) in enumerate(zip(sides, capacities, prices)):
            sign = -1 if side == MIN else 1
            mine = bound.prices[(bound.prices["limit"] == name) & (bound.prices["side"] == side)]
            own_prices = mine["price"].to_numpy(float) if len(mine) else np.zeros(len(bound.every_year))
            if (name, side, 0) in bound.limits:
                # A limit of all years is one of what is used by the end of each; a minimum is due at the end.
                is_last = np.array(bound.every_year) == bound.years
                own = np.where(is_last | (side == MAX), sign * bound.limits[name, side, 0], 0.0)
                own_prices = own_prices * is_last
            else:
                lies = self.lying.get(name, 0.0)
                own = np.array([sign * (bound.limits[name, side, year] - lies) for year in bound.every_year])
                # A stockpile without a minimum may be emptied.
                own = np.where((side == MIN) & (lies > 0) & (own == lies), np.inf, own)
            # Without a limit the capacity is what all blocks together use at most, or more.
            own = np.where(np.isinf(own), np.maximum(of_years, self.texts.most_used(number)), own)
            # What the texts have of a minimum or a dump may be off by rounding.
            loose = ROUNDING * self.texts.sizes(number) * (side == MIN or name.startswith((DUMP, DUMPED)))
            if (np.abs(of_years - own) > loose + UNIT).any():
                yield f"{name} {side}: capacities {of_years.tolist()} for {own.tolist()}"
            if (np.abs(paid - np.maximum(sign * own_prices, 0)) > self.texts.cent).any():
                yield f"{name} {side}: prices {paid.tolist()} for {own_prices.tolist()}"

    def unlike_results(self, told: dict[str, Any]) -> Iterator[str]:
        """Yields value and bound of the certificate if they are not those of the schedule."""
        discounts = self.texts.discounts
        worth = self.shares * self.values[:, None, :] * discounts[None, :, None]
        year = np.arange(len(discounts))[:, None] + [lag for _, _, lag in self.destinations]
        later = np.where(year < len(discounts), np.append(discounts, 0.0)[np.minimum(year, len(discounts))], 0.0)
        worth = worth + self.shares * self.reclaimed[:, None, :] * later
        proved = told[KEY]
        if proved["value"] is None:
            return
        slack = ROUNDING * np.abs(worth).sum() + 1.0
        if abs(proved["value"] - worth.sum()) > slack or abs(proved["value"] - told["npv"]) > slack:
            yield f"value {proved['value']:.12g} for {worth.sum():.12g}, and an NPV of {told['npv']:.12g}"
        if not proved["value"] <= proved["bound"] or proved["bound"] < told["upper_bound"] - slack:
            yield f"bound {proved['bound']:.12g} for {told['upper_bound']:.12g}"

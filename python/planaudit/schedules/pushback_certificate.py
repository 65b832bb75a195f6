"""Verifies the certificate of a schedule of pushbacks: that its texts have the benches, the ore, the limits and the flows of the run.

A bench is a block of the texts with its rock, and each of its blocks of ore is one more. The program pitschedule proves what follows from these texts,
but not that they are those of the project.
"""

from __future__ import annotations

from collections.abc import Iterator
from dataclasses import dataclass
from functools import cached_property
from typing import Any, Optional

import numpy as np
import pandas as pd

from planaudit.inputs.answer import Answer
from planaudit.inputs.project import Section, opening_tonnes
from planaudit.rules import TOLD, Rule, rule
from planaudit.schedules.certificate_texts import FOLDER, KEY, MONEY, NAME, ROUNDING, UNFIT, UNIT, Texts
from planaudit.schedules.certified_benches import CertifiedBenches
from planaudit.schedules.lots import MILL
from planaudit.schedules.material_flow import AMOUNT, PIT, MaterialFlow
from planaudit.schedules.opening import OpeningLots
from planaudit.schedules.pushback_bounds import ADVANCE, MIN, STOCK, Bound

HOLDS = "the certificate has the benches, ore, precedences, limits, discount factors and flows of the run, and its value is that of the schedule"
SLIGHT = 1e-8
# Millionths by which the share of a block may differ, since shares are rounded and then reduced until they keep the limits.
MOVED = 5
# Where ore goes: the stockpile, the process, and the years until the process takes it.
Way = tuple[str, str, int]


def verify(bound: Bound, told: dict[str, Any], flow: MaterialFlow) -> list[Rule]:
    """Verifies the certificate, if schedule.json names one.

    Parameters
    ----------
    bound : Bound
        The limits and the amounts of blocks, recomputed.
    told : dict
        schedule.json.
    flow : MaterialFlow
        The flows of flows.csv.
    """
    if KEY not in told:
        return []
    texts = Texts(bound.answer.folder / FOLDER, told[KEY].get(MONEY, 1))
    if not texts.fit:
        return [rule(NAME, HOLDS, [UNFIT])]
    benches = CertifiedBenches(bound, texts)
    differences = list(benches.differences())
    if not differences:
        found = PushbackCertificate(bound, texts, told, flow, benches)
        parts = (found.unlike_ways, found.unlike_amounts, found.unlike_shares, found.unlike_flows, found.unlike_value)
        differences = [it for part in parts for it in part()]
    return [rule(NAME, HOLDS, differences[:TOLD], len(differences))]


@dataclass(frozen=True)
class PushbackCertificate:
    """The texts next to the results of the run; the attributes are those of `verify`, and the benches and blocks of the texts."""

    bound: Bound
    texts: Texts
    told: dict[str, Any]
    flow: MaterialFlow
    benches: CertifiedBenches

    @property
    def answer(self) -> Answer:
        return self.bound.answer

    @property
    def processes(self) -> list[str]:
        return [name or MILL for name in self.bound.blocks.processes]

    @cached_property
    def ways(self) -> list[Way]:
        """The destinations of the texts."""
        return [(str(pile), str(process), int(lag)) for pile, process, lag in self.told[KEY]["destinations"]]

    def stockpile(self, name: str) -> Optional[Section]:
        return next((it for it in self.bound.blocks.stockpiles if it["name"] == name), None)

    def unlike_ways(self) -> Iterator[str]:
        """Yields destinations that are missing or none, and limits that differ."""
        found: list[Way] = [("", "", 0), *(("", name, 0) for name in self.processes)]
        for it in self.bound.blocks.stockpiles:
            found += [
                (it["name"], name, lag)
                for number, name in enumerate(self.processes)
                if (self.bound.blocks.takes[number] & ~self.bound.blocks.refused[it["name"]]).any()
                for lag in range(1, self.bound.years)
            ]
            found.append((it["name"], "", self.bound.years))
        if sorted(found) != sorted(self.ways) or len(self.ways) != self.texts.destinations:
            yield f"destinations {self.ways} for {found}"
        factors = self.bound.discounts
        if len(factors) != self.texts.periods or np.abs(self.texts.discounts - factors).max() > UNIT:
            yield "discount factors differ"
        limits = [(str(name), str(side)) for name, side in self.told[KEY]["limits"]]
        if sorted(limits) != sorted(self.bound.limits):
            yield f"limits {sorted(limits)} for {sorted(self.bound.limits)}"

    # ---- amounts

    def taken(self, way: Way) -> np.ndarray:
        """Returns whether each block of ore may go there."""
        pile, process, _ = way
        blocks, found = self.bound.blocks, np.ones(len(self.benches.ore), dtype=bool)
        if process:
            found &= blocks.takes[self.processes.index(process)][self.benches.ore]
        return found & ~blocks.refused[pile][self.benches.ore] if pile else found

    def of_texts(self, benches: Any = 0.0, ore: Any = 0.0, lots: Any = 0.0) -> np.ndarray:
        """Returns amounts in the order of the texts."""
        found = np.zeros(len(self.texts.amounts))
        found[self.benches.bench_places] = benches
        found[self.benches.ore_places] = ore
        found[self.benches.lot_places] = lots
        return found

    def of_bench(self, amounts: np.ndarray) -> np.ndarray:
        """Returns sums over the blocks of each bench."""
        return np.bincount(self.bound.bench_of, amounts, minlength=len(self.bound.benches))

    def values(self, way: Way) -> dict[int, np.ndarray]:
        """Returns by lag what blocks should be worth in a destination."""
        pile, process, lag = way
        blocks, some = self.bound.blocks, self.benches.ore
        mining = self.of_bench(blocks.mining_cash)
        stockpile = self.stockpile(pile)
        if stockpile is None:
            lots = self.lots_gain(process) if process else 0.0
            gain = self.gain(process)[some] * self.taken(way) if process else 0.0
            return {0: self.of_texts(mining, gain, lots)}
        placed = -stockpile["stacking_cost"] * blocks.feed[some] * self.taken(way)
        found = {0: self.of_texts(mining, placed)}
        return found | (
            {lag: self.of_texts(0, self.gain(process, stockpile)[some] * self.taken(way))} if process else {}
        )

    def gain(self, process: str, stockpile: Optional[Section] = None) -> np.ndarray:
        """Returns what whole blocks earn in a process."""
        return self.bound.undiscounted(self.processes.index(process), stockpile)

    def lots_gain(self, process: str) -> np.ndarray:
        """Returns what each lot that lies on a stockpile at the start earns in a process."""
        lots, number = OpeningLots(self.bound.blocks), self.processes.index(process)
        found = [self.bound.undiscounted(number, it, lots)[place] for place, (_, it, _) in enumerate(lots.given)]
        return np.array(found) * lots.takes[number] if found else np.zeros(0)

    def used(self, name: str, way: Way) -> dict[int, np.ndarray]:
        """Returns by lag what blocks should use of a limit in a destination."""
        pile, process, lag = way
        blocks, some = self.bound.blocks, self.benches.ore
        if name.startswith(ADVANCE):
            return {0: self.of_texts((self.bound.benches["pushback"] == int(name.removeprefix(ADVANCE))).astype(float))}
        if name.startswith(STOCK):
            return self.lying(name.removeprefix(STOCK), way)
        mining = self.of_bench(blocks.of_mining(name))
        if not process:
            return {0: self.of_texts(mining)}
        number, stockpile = self.processes.index(process), self.stockpile(pile)
        kept = stockpile["recovery"].get(name.removeprefix("recovered_"), 1.0) if stockpile else 1.0
        amounts = blocks.of_process(name, number)[some] * self.taken(way)
        amounts = amounts * (kept if name.startswith("recovered_") else 1.0)
        if stockpile is None:
            lots = OpeningLots(blocks)
            kept_of = [it["recovery"].get(name.removeprefix("recovered_"), 1.0) for _, it, _ in lots.given]
            shares = np.array(kept_of) if name.startswith("recovered_") else np.ones(len(kept_of))
            return {0: self.of_texts(mining, amounts, lots.of_process(name, number) * shares if lots.given else 0.0)}
        return {0: self.of_texts(mining), lag: self.of_texts(0, amounts)}

    def lying(self, name: str, way: Way) -> dict[int, np.ndarray]:
        """Returns by lag what blocks should add to the feed that lies on a stockpile."""
        pile, process, lag = way
        blocks, lots = self.bound.blocks, OpeningLots(self.bound.blocks)
        if pile == name:
            lies = self.of_texts(0, blocks.feed[self.benches.ore] * self.taken(way))
            return dict.fromkeys(range(min(lag, self.bound.years)), lies)
        if process and not pile and lots.given:
            gone = [-it["tonnes"] if stockpile["name"] == name else 0.0 for _, stockpile, it in lots.given]
            gone = np.array(gone) * lots.takes[self.processes.index(process)]
            return dict.fromkeys(range(self.bound.years), self.of_texts(0, 0, gone))
        return {}

    def unlike_amounts(self) -> Iterator[str]:
        """Yields blocks whose values or uses differ, and limits whose capacities do."""
        own_values = {way: self.values(way) for way in set(self.ways)}
        yield from self.unlike_terms("values", self.texts.terms(), own_values, self.texts.cent)
        capacities = self.texts.lines("problem", "CAPACITIES")
        for number, (name, side) in enumerate(self.told[KEY]["limits"]):
            sign = -1.0 if side == MIN else 1.0
            own = {way: {lag: sign * it for lag, it in self.used(name, way).items()} for way in set(self.ways)}
            yield from self.unlike_terms(f"uses of {name} {side}", self.texts.terms(number), own)
            due, lay = sign * self.bound.limits[name, side], 0.0
            if name.startswith(STOCK):
                piles = [it for it in self.bound.blocks.stockpiles if it["name"] == name.removeprefix(STOCK)]
                lay = sum(map(opening_tonnes, piles))
            due = due - sign * lay
            # What the texts have of a minimum may be less by rounding, and what may lie on a stockpile with ore at the start more.
            loose = ROUNDING * self.texts.sizes(number) * (side == MIN or lay > 0)
            off = np.abs(capacities[number] - due) > loose + UNIT
            endless = np.isinf(due)
            off[endless] = capacities[number][endless] < self.greatest(number)
            if off.any():
                yield f"{name} {side}: capacities {capacities[number].tolist()} for {due.tolist()}"

    def greatest(self, limit: int) -> float:
        """Returns the most that all blocks together use of a limit in a year."""
        return float(sum(np.maximum(it, 0).max(initial=0.0) for it in self.texts.terms(limit).values()))

    def unlike_terms(
        self,
        what: str,
        told: dict[tuple[int, int], np.ndarray],
        own: dict[Way, dict[int, np.ndarray]],
        last: float = UNIT,
    ) -> Iterator[str]:
        """Yields the blocks whose amounts differ by more than their last decimal, by destination and lag."""
        expected = {(number, lag): it for number, way in enumerate(self.ways) for lag, it in own[way].items()}
        nothing = np.zeros(len(self.texts.amounts))
        for key in sorted({*told, *expected}):
            found, due = told.get(key, nothing), expected.get(key, nothing)
            off = np.flatnonzero(np.abs(found - due) > last + SLIGHT * np.abs(due))
            if len(off):
                block, place = self.benches.names[off[0]], f"{' '.join(map(str, self.ways[key[0]]))} after {key[1]}"
                yield f"{what}, {place}: {block}: {found[off[0]]:.12g} for {due[off[0]]:.12g}, and {len(off) - 1} more"

    # ---- shares

    @cached_property
    def by_block(self) -> pd.Series:
        """The share of each block by period."""
        rows = pd.DataFrame(
            {"block": self.texts.places[:, 0], "period": self.texts.places[:, 1], "share": self.texts.shares[:, 3]}
        )
        return rows.groupby(["block", "period"])["share"].sum()

    def unlike_shares(self) -> Iterator[str]:
        """Yields benches whose shares differ from schedule.csv, and blocks of ore whose shares differ from their bench."""
        rows = self.answer.schedule
        assert rows is not None
        shown = rows[(rows["method"] == self.told["shown"]) & (rows["pushback"] > 0)]
        level = np.rint((self.answer.toes[0] - shown["bench"]) / self.answer.size[2]).astype(int)
        place = pd.Series(self.benches.bench_places, index=pd.MultiIndex.from_frame(self.bound.benches))
        block = place.reindex(pd.MultiIndex.from_arrays([shown["pushback"], level])).to_numpy()
        due = shown.groupby([block, shown["year"].to_numpy() - 1])["share"].sum()
        both = pd.concat([due, self.by_block[self.by_block.index.get_level_values(0).isin(place)]], axis=1).fillna(0.0)
        for (at, year), (own, told) in both[np.abs(both.iloc[:, 0] - both.iloc[:, 1]) > MOVED * UNIT].iterrows():
            yield f"{self.benches.names[int(at)]}, year {int(year) + 1}: share {told:.6f} for {own:.6f}"
        of_bench = pd.DataFrame({"block": self.benches.ore_places, "bench": self.benches.bench_of_ore})
        own = of_bench.merge(self.by_block.rename_axis(["bench", "period"]).reset_index(), on="bench")
        both = own.merge(
            self.by_block.reset_index(), on=["block", "period"], how="left", suffixes=("", "_of_ore")
        ).fillna(0.0)
        off = both[np.abs(both["share"] - both["share_of_ore"]) > UNIT / 2]
        yield from (
            f"{self.benches.names[int(row.block)]}, year {int(row.period) + 1}: share differs from its bench"
            for row in off.itertuples()
        )

    def unlike_flows(self) -> Iterator[str]:
        """Yields flows of the texts, by year, bench, source and destination, that differ from flows.csv."""
        told = self.flows_of_texts()
        rows = self.flow.rows[self.flow.rows["method"] == self.told["shown"]]
        rows = rows[~rows["destination"].isin(["waste"]) & (rows["pushback"] > 0)]
        keys = ["year", "pushback", "level", "source", "destination"]
        own = rows.groupby(keys)["feed_tonnes"].agg(["sum", "count"])
        both = told.join(own, how="outer").fillna(0.0)
        slack = AMOUNT * both["count"] + MOVED * UNIT * both["size"] + SLIGHT * both["sum"]
        for at, row in both[(both["feed"] - both["sum"]).abs() > slack + UNIT * both["sum"] + 1e-3].iterrows():
            yield f"flow {', '.join(map(str, at))}: {row['feed']:.10g} t for {row['sum']:.10g}"

    def flows_of_texts(self) -> pd.DataFrame:
        """Returns feed by year, bench, source and destination, and the size of what was rounded."""
        number = np.full(len(self.texts.amounts), -1)
        number[self.benches.ore_places] = np.arange(len(self.benches.ore))
        some = number[self.texts.places[:, 0]] >= 0
        unit, share = number[self.texts.places[some, 0]], self.texts.shares[some, 3]
        year, to = self.texts.places[some, 1] + 1, self.texts.places[some, 2]
        feed = self.bound.blocks.feed[self.benches.ore][unit]
        keys = self.bound.blocks.keys.iloc[self.benches.ore[unit]]
        pile, process = (np.array([way[side] for way in self.ways], dtype=object)[to] for side in (0, 1))
        lag = np.array([way[2] for way in self.ways])[to]
        rows = pd.DataFrame({"year": year, "pushback": keys["pushback"].to_numpy(), "level": keys["level"].to_numpy()})
        rows = rows.assign(source=PIT, destination=np.where(pile != "", pile, process), feed=feed * share, size=feed)
        out = rows[(pile != "") & (process != "")].copy()
        is_out = (pile != "") & (process != "")
        out["year"], out["source"], out["destination"] = (year + lag)[is_out], pile[is_out], process[is_out]
        both = pd.concat([rows[rows["destination"] != ""], out])
        return both.groupby(["year", "pushback", "level", "source", "destination"])[["feed", "size"]].sum()

    def unlike_value(self) -> Iterator[str]:
        """Yields value and bound of the certificate if they are not those of the schedule."""
        proved, worth, size = self.told[KEY], 0.0, 0.0
        if proved["value"] is None:
            return
        discounts = self.texts.discounts
        for (to, lag), amounts in self.texts.terms().items():
            some = (self.texts.places[:, 2] == to) & (self.texts.places[:, 1] + lag < self.texts.periods)
            cash = amounts[self.texts.places[some, 0]] * discounts[self.texts.places[some, 1] + lag]
            worth += float(cash @ self.texts.shares[some, 3])
            size += float(np.abs(cash).sum())
        npv, slack = self.told["methods"][self.told["shown"]]["npv"], ROUNDING * size + 1.0
        if abs(proved["value"] - worth) > slack or abs(proved["value"] - npv) > slack:
            yield f"value {proved['value']:.12g} for {worth:.12g}, and an NPV of {npv:.12g}"
        if not proved["value"] <= proved["bound"]:
            yield f"bound {proved['bound']:.12g} below the value {proved['value']:.12g}"

"""The optimum of the schedule of a random mine, by an integer programme over its table."""

from dataclasses import dataclass, replace
from typing import Any, Optional

import numpy as np
import pandas as pd
import pytest
from scipy.optimize import Bounds, LinearConstraint, milp

import pitplan
from pitplan import PlanError

from .random_mines import DISCOUNT, PROCESSES, YEARS, Accepts, Between, Dump, Head, Mine, Pile
from .random_money import GOLD_PRICE, MINING, Terms, at


class Programme:
    """An integer programme in the making: unknowns by place, and rows that are at most a number."""

    def __init__(self) -> None:
        self.gain, self.upper, self.whole = [], [], []
        self.rows, self.most = [], []

    def unknowns(self, *shape: int, whole: bool = False) -> np.ndarray:
        """New unknowns of 0 to 1, by their places."""
        count, first = int(np.prod(shape)), len(self.gain)
        self.gain += [0.0] * count
        self.upper += [1.0] * count
        self.whole += [int(whole)] * count
        return first + np.arange(count).reshape(shape)

    def earn(self, places, gains) -> None:
        for place, gain in zip(np.ravel(places), np.broadcast_to(gains, np.shape(places)).ravel()):
            self.gain[place] += gain

    def limit(self, places, most) -> None:
        for place, upper in zip(np.ravel(places), np.broadcast_to(most, np.shape(places)).ravel()):
            self.upper[place] = min(self.upper[place], float(upper))

    def add(self, most: float, *terms) -> None:
        """That the sum of terms, places with their factors, is at most this."""
        row: dict[int, float] = {}
        for places, factors in terms:
            for place, factor in zip(np.ravel(places), np.broadcast_to(factors, np.shape(places)).ravel()):
                row[int(place)] = row.get(int(place), 0.0) + float(factor)
        self.rows.append(row)
        self.most.append(most)

    def keep(self, between: Between, *terms, less: float = 0.0) -> None:
        """That the sum of terms, and `less` beside them, is between two numbers."""
        if between.most is not None:
            self.add(between.most - less, *terms)
        if between.least is not None:
            self.add(less - between.least, *((places, -np.asarray(factors)) for places, factors in terms))

    def optimum(self) -> Optional[float]:
        """The greatest gain; None if no unknowns keep the rows."""
        matrix = np.zeros((len(self.rows), len(self.gain)))
        for number, row in enumerate(self.rows):
            matrix[number, list(row)] = list(row.values())
        # With its presolve HiGHS finds some of these programmes infeasible, and of others an optimum that is too low.
        found = milp(
            -np.array(self.gain),
            integrality=np.array(self.whole),
            bounds=Bounds(0, np.array(self.upper)),
            constraints=LinearConstraint(matrix, -np.inf, np.array(self.most)),
            options={"mip_rel_gap": 0.0, "presolve": False},
        )
        return None if found.status == 2 else -float(found.fun)


@dataclass(frozen=True)
class Units:
    """What is mined.

    of_block  the unit of each block; -1 of those that are never mined
    before    the units that each waits for
    pushback  the pushback of each; None if units are blocks, which are mined whole in a year
    """

    of_block: np.ndarray
    before: list[list[int]]
    pushback: Optional[np.ndarray] = None

    @property
    def whole(self) -> bool:
        return self.pushback is None


def blocks_alone(mine: Mine) -> Units:
    """Each block is a unit, and waits for the one above it."""
    places = [tuple(place) for place in mine.table[["x", "z"]].to_numpy()]
    number = {place: block for block, place in enumerate(places)}
    return Units(np.arange(len(places)), [[number[x, z + 10]] if (x, z + 10) in number else [] for x, z in places])


def benches(mine: Mine, pushback: np.ndarray) -> Units:
    """A unit is a bench of a pushback, by the number of the pushback of each block, 0 outside. It waits for all benches above it in its pushback,
    and in earlier ones for those down to `lag` benches below it."""
    level = -(mine.table["z"].to_numpy() // 10).astype(int)
    places = list(zip(pushback.tolist(), level.tolist()))
    known = sorted({it for it in places if it[0]})
    before = [
        [
            other
            for other, (number, depth) in enumerate(known)
            if (number == own and depth < deep) or (number < own and depth <= deep + mine.lag)
        ]
        for own, deep in known
    ]
    of_block = np.array([known.index(it) if it[0] else -1 for it in places])
    return Units(of_block, before, np.array([number for number, _ in known]))


@dataclass(frozen=True)
class Material:
    """Blocks, or a lot: tonnes, the feed that they make, rock types, metals, what a limit on feed may count, by the columns of the table, the factor of
    the cost of processing, and what hauling a tonne of feed adds to it."""

    tonnes: np.ndarray
    feed: np.ndarray
    rock: np.ndarray
    copper: np.ndarray
    gold: np.ndarray
    holds: dict[str, np.ndarray]
    processing: np.ndarray
    hauled: np.ndarray


def blocks_of(table: pd.DataFrame, terms: Terms) -> Material:
    """Blocks lose ore and are diluted at zero grade; those of waste classes have no metal that may be recovered."""
    is_b = (table["rock"] == "B").to_numpy().astype(int)
    ore = table["tonnes"].to_numpy(float) * np.array(terms.recovered)[is_b]
    found = material_of(table.assign(tonnes=ore), ore * (1 + np.array(terms.dilution)[is_b]))
    is_ore = np.ones(len(table)) if not terms.inferred else (table["class"] == "measured").to_numpy().astype(float)
    found = replace(
        found, tonnes=table["tonnes"].to_numpy(float), copper=found.copper * is_ore, gold=found.gold * is_ore
    )
    found = replace(found, processing=table["pcaf"].to_numpy(float)) if terms.adjusted else found
    return replace(found, hauled=terms.haulage.a_tonne(table)[1]) if terms.haulage else found


def material_of(table: pd.DataFrame, feed: np.ndarray) -> Material:
    """Ore, and the feed that it makes."""
    tonnes = table["tonnes"].to_numpy(float)
    holds = {name: tonnes * table[name].to_numpy(float) for name in ("cu", "as_ppm", "clay")}
    holds["rock_type"] = np.where(table["rock"] == "B", feed, 0.0)
    gold = tonnes * table["au"].to_numpy(float) if "au" in table else 0.0 * tonnes
    rock, nothing = table["rock"].to_numpy(), np.zeros(len(table))
    return Material(tonnes, feed, rock, holds["cu"] / 100, gold, holds, nothing + 1.0, nothing)


def accepted(material: Material, accepts: Accepts) -> np.ndarray:
    return np.ones(len(material.rock), dtype=bool) if accepts is None else material.rock == accepts


@dataclass(frozen=True)
class Fed:
    """Feed of a process: the places of unknowns by block, or lot, and year, its material, and recovered metal."""

    places: np.ndarray
    material: Material
    metal: np.ndarray


class Statement:
    """The programme of a mine: which share of each unit is mined in each year, where each block goes, and whether the mine runs."""

    def __init__(self, mine: Mine, units: Units) -> None:
        self.mine, self.units, self.programme = mine, units, Programme()
        self.blocks, self.terms = blocks_of(mine.table, mine.terms), mine.terms
        self.discounts = (1 + DISCOUNT) ** -mine.lengths.cumsum()
        self.dumps = mine.dumps or {"waste": Dump(0.0)}
        self.mined = self.programme.unknowns(len(units.before), YEARS, whole=units.whole)
        self.goes = {name: self.programme.unknowns(len(mine.table), YEARS) for name in self.names}
        self.runs = self.programme.unknowns(YEARS, whole=True)
        self.fed: dict[str, list[Fed]] = {name: [] for name in PROCESSES}

    @property
    def names(self) -> tuple[Any, ...]:
        """Where blocks may be sent."""
        return (*self.dumps, *PROCESSES, *self.mine.piles)

    def optimum(self) -> Optional[float]:
        self.mining()
        self.order()
        self.dumping()
        for name in PROCESSES:
            self.feeding(name, self.goes[name], self.blocks)
        for name, pile in self.mine.piles.items():
            self.stockpile(name, pile)
        for year in range(YEARS):
            self.limits_of(year)
        self.running()
        return self.programme.optimum()

    def feeding(self, process: str, places: np.ndarray, material: Material, pile: Optional[Pile] = None) -> None:
        """What goes to a process, as it is mined or from a stockpile."""
        (share, less), terms, years = (
            (1.0, 0.0) if pile is None else (pile.recovery, pile.reclaim),
            self.terms,
            range(YEARS),
        )
        metal = material.copper * PROCESSES[process].recovery * share
        gold = material.gold * (terms.gold or 0.0) * (process == "mill")
        penalty = self.penalty(process, material)
        prices = np.array([terms.net_price(process, self.mine.prices[year], year) for year in years])
        gold_prices = np.array([at(terms.gold_prices, year) * (1 - terms.royalty) for year in years])
        costs = np.outer(material.processing, [PROCESSES[process].cost * at(terms.processing, year) for year in years])
        costs += material.hauled[:, None] + terms.per_tonne + less
        earned = np.outer(metal, prices) + np.outer(gold, gold_prices) - material.feed[:, None] * costs
        earned -= np.outer(penalty, [at(terms.selling_factors, year) for year in years])
        self.programme.earn(places, earned * self.discounts)
        self.open(process, places, material)
        self.fed[process].append(Fed(places, material, metal))

    def open(self, process: str, places: np.ndarray, material: Material) -> None:
        """Only ore that a process may take goes there."""
        self.programme.limit(places, self.may_go(process, material)[:, None])

    def penalty(self, process: str, material: Material) -> np.ndarray:
        """What the ore pays to the smelter beyond the charges for its concentrate; the same if it comes from a stockpile."""
        smelter = self.terms.smelter
        if smelter is None or process != "mill":
            return np.zeros(len(material.feed))
        return smelter.penalty(material.copper * PROCESSES[process].recovery, material.holds["as_ppm"])

    def may_go(self, process: str, material: Material) -> np.ndarray:
        """Whether a process accepts ore, and it has revenue there at the base prices."""
        accepts = self.mine.accepts if process == "leach" else None
        return (self.revenue(process, material) > 1e-9) & accepted(material, accepts)

    def revenue(self, process: str, material: Material) -> np.ndarray:
        """At the base prices."""
        copper, terms = material.copper * PROCESSES[process].recovery, self.terms
        gold = material.gold * (terms.gold or 0.0) * (process == "mill")
        found = copper * terms.base_price(process, self.mine.price) + gold * GOLD_PRICE * (1 - terms.royalty)
        return found - self.penalty(process, material)

    def mining(self) -> None:
        """Each block goes somewhere in the year in which its unit is mined."""
        table, terms = self.mine.table, self.terms
        heights = table["z"].to_numpy(float)
        a_tonne = MINING * (table["mcaf"].to_numpy(float) if terms.adjusted else 1.0)
        a_tonne = a_tonne + terms.per_bench * (heights.max() - heights) / 10
        a_tonne = a_tonne + (terms.haulage.a_tonne(table)[0] if terms.haulage else 0.0)
        cost = -np.outer(self.blocks.tonnes * a_tonne, self.mine.mining_factors) * self.discounts
        for block, unit in enumerate(self.units.of_block):
            for places in self.goes.values():
                self.programme.limit(places[block], float(unit >= 0))
                self.programme.earn(places[block], cost[block])
            for year in range(YEARS) if unit >= 0 else ():
                out = [(places[block, year], 1.0) for places in self.goes.values()]
                self.programme.keep(Between(0.0, 0.0), *out, (self.mined[unit, year], -1.0))

    def order(self) -> None:
        """A unit is begun when all that it waits for is through; begun is a whole number."""
        programme, units = self.programme, self.units
        begun = None if units.whole else programme.unknowns(len(units.before), YEARS, whole=True)
        for unit, before in enumerate(units.before):
            programme.add(1.0, (self.mined[unit], 1.0))
            if units.whole and self.mine.must and self.mine.table["must"][unit]:
                programme.add(-1.0, (self.mined[unit], -1.0))
            if units.whole and self.mine.out and self.mine.table["out"][unit]:
                programme.limit(self.mined[unit], 0.0)
            for year in range(YEARS):
                until = self.mined[unit, : year + 1] if begun is None else begun[unit, year]
                if begun is not None:
                    programme.add(0.0, (self.mined[unit, : year + 1], 1.0), (begun[unit, year], -1.0))
                for other in before:
                    programme.add(0.0, (until, 1.0), (self.mined[other, : year + 1], -1.0))

    def dumping(self) -> None:
        for name, dump in self.dumps.items():
            places, tonnes = self.goes[name], self.blocks.tonnes
            self.programme.limit(places, accepted(self.blocks, dump.accepts)[:, None])
            self.programme.earn(places, -dump.cost * tonnes[:, None] * self.discounts)
            self.programme.keep(Between(None, dump.capacity), (places, tonnes[:, None]))
            for year, takes in enumerate(dump.takes):
                self.programme.keep(takes.times(self.mine.lengths[year]), (places[:, year], tonnes))

    def stockpile(self, name: str, pile: Pile) -> None:
        """What is placed lies there for a year at least. What lay there at the start may be reclaimed from the first year on."""
        placed, tonnes = self.goes[name], self.blocks.feed
        self.programme.earn(placed, -pile.stacking * tonnes[:, None] * self.discounts)
        is_fed = np.any([self.may_go(process, self.blocks) for process in PROCESSES], axis=0)
        self.programme.limit(placed, (is_fed & accepted(self.blocks, pile.accepts))[:, None])
        taken = self.reclaiming(pile, self.blocks, placed)
        lying = [(placed, tonnes)] + [(places, -tonnes) for places in taken]
        lay = 0.0 if pile.opening is None else pile.opening.tonnes
        if pile.opening is not None:
            material = material_of(pile.opening.table, pile.opening.table["tonnes"].to_numpy(float))
            lying += [(places, -material.tonnes) for places in self.reclaiming(pile, material)]
        for year, holds in enumerate(pile.holds):
            terms = [(places[:, : year + 1], amounts[:, None]) for places, amounts in lying]
            most = pile.capacity if holds.most is None else holds.most
            self.programme.keep(Between(holds.least, most), *terms, less=lay)

    def reclaiming(self, pile: Pile, material: Material, placed: Optional[np.ndarray] = None) -> list[np.ndarray]:
        """The unknowns of what processes take from a stockpile: no more than was placed there by the year before, or lay there."""
        taken = {process: self.programme.unknowns(len(material.tonnes), YEARS) for process in PROCESSES}
        for process, places in taken.items():
            self.feeding(process, places, material, pile)
        for unit in range(len(material.tonnes)):
            for year in range(YEARS):
                out = [(places[unit, : year + 1], 1.0) for places in taken.values()]
                self.programme.add(*((1.0, *out) if placed is None else (0.0, *out, (placed[unit, :year], -1.0))))
        return list(taken.values())

    def limits_of(self, year: int) -> None:
        """The limits of a year."""
        mine, keep, length = self.mine, self.programme.keep, self.mine.lengths[year]
        inside = self.units.of_block >= 0
        weights = {"total": self.blocks.tonnes, "clay": self.blocks.tonnes * mine.table["clay"].to_numpy(float)}
        of_units = {
            name: np.bincount(self.units.of_block[inside], amounts[inside], minlength=len(self.units.before))
            for name, amounts in weights.items()
        }
        mined, every = self.mined[:, year], [it for parts in self.fed.values() for it in parts]
        keep(Between(None, mine.rock).times(length), (mined, of_units["total"]))
        for name, parts in self.fed.items():
            keep(
                Between(None, mine.capacities[name] * mine.share(year)),
                *((it.places[:, year], it.material.feed) for it in parts),
            )
        keep(Between(mine.minimum * mine.share(year)), *((it.places[:, year], it.material.feed) for it in every))
        keep(Between(None, mine.copper).times(length), *((it.places[:, year], it.metal) for it in every))
        for it in mine.sums:
            fed = every if it.of == "feed" else self.fed.get(it.of, [])
            terms = [(part.places[:, year], part.material.holds["clay"]) for part in fed]
            keep(it.between.times(length), *([(mined, of_units["clay"])] if it.of == "total" else terms))
        for head in mine.heads:
            self.head_grade(head, year)
        if mine.sinks is not None and self.units.pushback is not None:
            for number in np.unique(self.units.pushback):
                keep(Between(None, mine.sinks).times(length), (mined[self.units.pushback == number], 1.0))

    def head_grade(self, head: Head, year: int) -> None:
        """What the feed holds is at most, or at least, a share of its tonnes."""
        between, parts = head.by_year[year], self.fed[head.process]
        for sign, grade in ((1, between.most), (-1, between.least)):
            if grade is not None:
                excess = [sign * (it.material.holds[head.column] - grade * it.material.feed) for it in parts]
                self.programme.add(0.0, *((it.places[:, year], more) for it, more in zip(parts, excess)))

    def running(self) -> None:
        """The mine runs up to the last year in which something is mined or fed."""
        starts = (1 + DISCOUNT) ** -(self.mine.lengths.cumsum() - self.mine.lengths)
        capex = np.array([at(self.terms.capex, year) for year in range(YEARS)])
        self.programme.earn(self.runs, -self.mine.fixed * self.mine.lengths * self.discounts - capex * starts)
        for places in (self.mined, *(it.places for parts in self.fed.values() for it in parts)):
            for year in range(YEARS):
                for place in np.ravel(places[:, year:]):
                    self.programme.add(0.0, (place, 1.0), (self.runs[year], -1.0))


def optimum_of(mine: Mine, units: Units) -> Optional[float]:
    """The greatest NPV of units that go to destinations in shares; None if no schedule keeps the rules."""
    return Statement(mine, units).optimum()


def scheduled(mine, project):
    """Returns the schedule of a mine's pushbacks, and the optimum of their benches; None if the pit is empty, or if neither finds any."""
    try:
        pushbacks = pitplan.Plan.from_project(project).shells().pushbacks()
    except PlanError as error:
        assert "the pit of revenue factor 1.00 is empty" in str(error)
        return None
    number = pushbacks.blocks.set_index("name")["pushback"].reindex(mine.table["name"]).fillna(0).to_numpy(int)
    optimum = optimum_of(mine, benches(mine, number))
    if optimum is None:
        with pytest.raises(PlanError, match="infeasible"):
            pushbacks.schedule()
        return None
    return pushbacks.schedule(), optimum

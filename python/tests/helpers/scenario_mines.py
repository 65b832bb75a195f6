"""Random mines with scenarios of the grade and of the price of copper, and the optimum of their common schedule."""

import re
from dataclasses import dataclass, replace
from typing import Optional

import numpy as np

from .optima import Material, Statement, Units, accepted, blocks_alone
from .random_mines import PRICE, PROCESSES, YEARS, Between, Mine, random_mine

DECKS = (6500.0, 9500.0)


@dataclass(frozen=True)
class ScenarioMine:
    """A mine whose table has a column of copper for each realisation.

    decks  prices of copper; without decks periods have prices
    """

    mine: Mine
    models: tuple[str, ...]
    decks: tuple[float, ...]

    @property
    def text(self) -> str:
        found = re.sub(r"^milp = .*\n", "", self.mine.text, flags=re.MULTILINE)
        if self.decks:
            found = re.sub(r"^prices = .*\n", "", found, flags=re.MULTILINE)
        sets = "".join(f"[[scenarios.prices]]\ncopper = {price}\n" for price in self.decks)
        return found + '[scenarios]\ncolumns = { copper = "sim_*" }\n' + sets

    @property
    def scenarios(self) -> list[Mine]:
        """The mine in each scenario, by realisation."""
        table = self.mine.table
        each = [replace(self.mine, table=table.assign(cu=table[name])) for name in self.models]
        return [
            replace(it, price=price, prices=[price] * YEARS) if self.decks else it
            for it in each
            for price in self.decks or (PRICE,)
        ]


def random_scenario_mine(seed: int) -> ScenarioMine:
    """A mine with two or three realisations, and two price decks or prices by year."""
    mine, rng = random_mine(seed), np.random.default_rng(seed)
    models = [f"sim_{number}" for number in range(1, 3 + int(rng.integers(0, 2)))]
    for name in models:
        factor = rng.choice([0.0, 0.5, 1.0, 1.0, 1.6], len(mine.table))
        mine = replace(mine, table=mine.table.assign(**{name: (mine.table["cu"] * factor).round(2)}))
    decks = DECKS if rng.random() < 0.4 else ()
    terms = replace(mine.terms, gold_prices=mine.terms.gold_prices[:1] if not decks else (60.0,))
    return ScenarioMine(without_minimums(replace(mine, terms=terms if decks else mine.terms)), tuple(models), decks)


def without_minimums(mine: Mine) -> Mine:
    """The same mine with maxima alone."""

    def most(of: Between) -> Between:
        return Between(None, of.most)

    dumps = {name: replace(it, takes=tuple(map(most, it.takes))) for name, it in mine.dumps.items()}
    sums = [replace(it, between=most(it.between)) for it in mine.sums if it.between.most is not None]
    return replace(mine, minimum=0.0, dumps=dumps, sums=sums)


class OwnStatement(Statement):
    """A mine in a scenario: ore goes to a process if that earns more there, at the base price, than the cheapest dump that accepts it costs."""

    def __init__(self, mine: Mine, units: Units, years: Optional[np.ndarray] = None) -> None:
        super().__init__(mine, units)
        self.years = years

    def may_go(self, process: str, material: Material) -> np.ndarray:
        costs = material.processing * PROCESSES[process].cost + material.hauled + self.terms.per_tonne
        gain = self.revenue(process, material) - material.feed * costs
        saved = np.where([accepted(material, it.accepts) for it in self.dumps.values()], self.costs, np.inf).min(axis=0)
        return super().may_go(process, material) & (gain + saved * material.tonnes > 1e-9)

    @property
    def costs(self) -> np.ndarray:
        """Of a tonne in each dump, shape (dumps, 1)."""
        return np.array([[it.cost] for it in self.dumps.values()])

    def order(self) -> None:
        """Units are mined in the given years, if there are any: from 0, or never."""
        super().order()
        for unit, year in enumerate(() if self.years is None else self.years.tolist()):
            for other in range(YEARS):
                if other == year:
                    self.programme.add(-1.0, (self.mined[unit, other], -1.0))
                else:
                    self.programme.limit(self.mined[unit, other], 0.0)


class MeanStatement(Statement):
    """The programme of the common schedule: blocks are sent to a dump, or to a process and, where they are no ore there, to a dump; values and limits are
    means over the scenarios."""

    def __init__(self, scenarios: list[Mine], units: Units) -> None:
        super().__init__(scenarios[0], units)
        self.each = [OwnStatement(it, units) for it in scenarios]

    @property
    def names(self) -> tuple[tuple[str, str], ...]:
        return tuple((to, dump) for to in ("", *PROCESSES) for dump in self.dumps)

    def open(self, process: str, places: np.ndarray, material: Material) -> None:
        """All blocks may be sent to a process."""

    def optimum(self) -> Optional[float]:
        self.mining()
        self.order()
        placed = {name: [] for name in self.dumps}
        for own in self.each:
            self.mine = own.mine
            for (process, dump), places in self.goes.items():
                weight = np.full(len(own.blocks.tonnes), 1 / len(self.each))
                ore = own.may_go(process, own.blocks) * weight if process else 0.0 * weight
                if process:
                    self.feeding(process, places, scaled(own.blocks, ore))
                placed[dump].append((places, ((weight - ore) * own.blocks.tonnes)[:, None]))
        for name, dump in self.dumps.items():
            self.programme.keep(Between(None, dump.capacity), *placed[name])
            for places, tonnes in placed[name]:
                self.programme.limit(places, accepted(self.blocks, dump.accepts)[:, None])
                self.programme.earn(places, -dump.cost * tonnes * self.discounts)
            for year, takes in enumerate(dump.takes):
                of_year = [(places[:, year], tonnes[:, 0]) for places, tonnes in placed[name]]
                self.programme.keep(takes.times(self.mine.lengths[year]), *of_year)
        for year in range(YEARS):
            self.limits_of(year)
        self.running()
        return self.programme.optimum()


def scaled(material: Material, share: np.ndarray) -> Material:
    """A share of each block."""
    holds = {name: it * share for name, it in material.holds.items()}
    amounts = {name: getattr(material, name) * share for name in ("tonnes", "feed", "copper", "gold")}
    return replace(material, holds=holds, **amounts)


def own_optimum(mine: Mine, years: Optional[np.ndarray] = None) -> Optional[float]:
    """The optimum in a scenario, if years are given of where the blocks go alone; None if nothing keeps the rules."""
    return OwnStatement(mine, blocks_alone(mine), years).optimum()


def common_optimum(scenarios: list[Mine]) -> Optional[float]:
    """The optimum of the common schedule, as planned; None if nothing keeps the rules."""
    return MeanStatement(scenarios, blocks_alone(scenarios[0])).optimum()

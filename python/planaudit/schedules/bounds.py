"""Recomputes the upper bound of a schedule by block from its Lagrange multipliers, tables/bound.csv.

With a price on each limit in each year no schedule earns more than the sum of the prices times the limits and the value of the best closure of
blocks by years, where each block earns its discounted cash flow less the prices of what it uses. This holds for any prices.
"""

from __future__ import annotations

from collections.abc import Iterator
from dataclasses import dataclass
from functools import cached_property
from typing import Any, Optional

import numpy as np
import pandas as pd

from planaudit.blocks import constraints
from planaudit.inputs.answer import Answer
from planaudit.inputs.codes import refused
from planaudit.inputs.project import Section
from planaudit.inputs.tables import TABLES, read_prices
from planaudit.money import ore_costs
from planaudit.money.period_costs import BY_TERMS, SELLING, differing, mining_factor, premiums
from planaudit.money.smelter import net
from planaudit.rules import Rule, rule
from planaudit.schedules import block_grades, dumps, pushback_bounds
from planaudit.schedules.closure import Closure, maximum_closure
from planaudit.schedules.discounts import discount, present_costs
from planaudit.schedules.limit_table import STOCK
from planaudit.schedules.limits import amounts_of, at, limits_of, minima_of, shares_of
from planaudit.schedules.periods import stock_limits
from planaudit.schedules.precedences import Precedences, precedences_of
from planaudit.schedules.pushback_schedule import CENT

FILE, MUST_MINE = "bound.csv", "must_mine"
MAX, MIN = "max", "min"
NAME = "upper bound"
HOLDS = (
    "the upper bound follows from the multipliers of bound.csv by one maximum closure: "
    "no schedule by block within these limits and years has a higher NPV"
)
# Sums of tonnes may exceed a limit by a hair, and sums of money differ by so much in another order.
HAIR, SLIGHT = 1e-9, 1e-7
# With more precedences in all years together the bound is not recomputed: it would take more than a gigabyte.
MOST_ARCS = 24_000_000


def verify(answer: Answer, told: dict[str, Any]) -> Rule:
    """Verifies the upper bound of block_schedule.json."""
    path = answer.folder / TABLES / FILE
    if not path.is_file():
        return rule(NAME, HOLDS, [f"{FILE} is missing"])
    prices = read_prices(path)
    if prices.empty:
        differences = [] if told["upper_bound"] == 0 else [f"{told['upper_bound']:.12g} for 0: {FILE} has no rows"]
        return rule(NAME, HOLDS, differences)
    if answer.project.constraints is not None and answer.project.constraints["as_mined"] is not None:
        # Which blocks it makes must-mine blocks is known here only up to the error of sampled volumes.
        return rule(NAME, "not recomputed for a model with an as-mined surface", [])
    bound = Bound(answer, prices, int(told["years"]))
    differences = list(bound.unlike_limits())
    if differences:
        return rule(NAME, HOLDS, differences)
    if bound.arcs is None:
        return rule(NAME, f"not recomputed: the blocks have more than {MOST_ARCS:,} slope precedences in all years", [])
    value, slack = bound.value
    off = abs(told["upper_bound"] - value) > slack + CENT + SLIGHT * abs(value)
    return rule(NAME, HOLDS, [f"{told['upper_bound']:.12g} for {value:.12g}"] if off else [])


@dataclass(frozen=True)
class Bound:
    """A bound that is recomputed.

    Attributes
    ----------
    answer : Answer
    prices : DataFrame
        bound.csv: limit, side, year and price.
    years : int
        The years in which blocks may be mined.
    """

    answer: Answer
    prices: pd.DataFrame
    years: int

    @cached_property
    def limits(self) -> dict[tuple[str, str, int], float]:
        """The limits of the project by name, side and year."""
        found: dict[tuple[str, str, int], float] = {}
        for name, ramp, most in limits_of(self.answer):
            found |= {(name, MAX, year): most * at(ramp, year) for year in self.every_year}
        for name, _, by_year in minima_of(self.answer):
            found |= {(name, MIN, year): at(by_year, year) for year in self.every_year}
        of_grades = block_grades.most_of_years(self.answer, self.years)
        found |= {(name, MAX, year): most for (name, year), most in of_grades.items()}
        for name, sides in stock_limits(self.answer.project, self.years).items():
            found |= limited_years(f"{STOCK}{name}", *sides)
        if self.must.any():
            found[MUST_MINE, MIN, 0] = float(np.count_nonzero(self.must))
        return found | self.limits_of_dumps

    @property
    def limits_of_dumps(self) -> dict[tuple[str, str, int], float]:
        """What dumps take in each year, and what they hold in all: of year 0."""
        found: dict[tuple[str, str, int], float] = {}
        for name, (least, most) in dumps.limits_of(self.answer.project, self.years).items():
            if name.startswith(dumps.DUMPED):
                found[name, MAX, 0] = float(most[-1])
                continue
            found |= limited_years(name, least, most)
        return found

    @property
    def every_year(self) -> range:
        return range(1, self.years + 1)

    @cached_property
    def fixed(self) -> tuple[np.ndarray, np.ndarray]:
        """Masks of must-mine and excluded blocks, shape (rows,)."""
        rules, nothing = self.answer.project.constraints, np.zeros(len(self.answer.rows), dtype=bool)
        return (nothing, nothing) if rules is None else constraints.demanded(self.answer, rules)

    @property
    def must(self) -> np.ndarray:
        return self.fixed[0]

    def unlike_limits(self) -> Iterator[str]:
        """Yields the rows of bound.csv without a limit of the project, and prices of the wrong sign."""
        rows = list(self.prices.itertuples(index=False))
        there = [(it.limit, it.side, it.year) for it in rows]
        if sorted(there) != sorted(self.limits):
            yield f"{FILE} has {len(there)} rows for the {len(self.limits)} limits and years of the project, or others"
        of_grades = block_grades.limits_of(self.answer)
        wrong = [
            it
            for it in rows
            if not np.isfinite(it.price) or (it.price > 0 if it.side == MIN else it.limit in of_grades and it.price < 0)
        ]
        yield from (f"{FILE}: {it.limit} {it.side}, year {it.year}: price {it.price}" for it in wrong)

    @cached_property
    def of_limits(self) -> float:
        """The prices times the limits, less the costs of years. A maximum at a price below 0 counts as 0: its minimum. Maxima and costs count
        as many years as is best, from the first: what is mined in none of the later years uses nothing there. The capacity of a dump counts once.
        """
        running, always = -np.array([present_costs(self.answer, year) for year in self.every_year]), 0.0
        for it in self.prices.itertuples(index=False):
            amount = it.price * self.limits[it.limit, it.side, it.year]
            # What lies on a stockpile also lies there after the last year that runs.
            if it.side == MIN or (it.price > 0 and (it.year == 0 or it.limit.startswith(STOCK))):
                always += amount
            elif it.price > 0:
                running[it.year - 1] += amount
        return always + float(running.cumsum().max())

    @cached_property
    def earned(self) -> np.ndarray:
        """What each block earns in each year where it earns most, less the prices of what it uses, shape (rows, years)."""
        answer, best = self.answer, np.full((len(self.answer.rows), self.years), -np.inf)
        if not answer.project.dumps:
            best = self.earned_as(None)
        accepted = [~refused(answer.rows, answer.project, dump["accepts"]) for dump in answer.project.dumps]
        for number, dump in enumerate(answer.project.dumps):
            # Rock that no dump accepts counts in the first one: a schedule that mines it is rejected. Air lies in none.
            is_taken = accepted[number] | (answer.tonnes == 0) | ((number == 0) & ~np.any(accepted, axis=0))
            best = np.where(is_taken[:, None], np.maximum(best, self.earned_as(None, dump)), best)
        for (name, _), (revenue, _) in zip(shares_of(answer), answer.amounts_of_ways):
            is_taken = (answer.said[revenue] > 0).to_numpy() | (not answer.project.dumps)
            best = np.where(is_taken[:, None], np.maximum(best, self.earned_as(name)), best)
        for pile in answer.project.schedule["stockpiles"] if answer.project.schedule else ():
            accepts = ~refused(answer.rows, answer.project, pile["accepts"])
            pays = np.any([answer.said[revenue] > 0 for revenue, _ in answer.amounts_of_ways], axis=0)
            best = np.where((accepts & pays)[:, None], np.maximum(best, self.earned_over(pile)), best)
        return best

    def earned_over(self, pile: Section) -> np.ndarray:
        """Returns the same of blocks that are all placed on a stockpile, from which the process where that earns most takes them in the best later year,
        or none, by the year in which they are mined."""
        answer, feed, found = self.answer, self.answer.feed, self.earned_as(None)
        later = np.full((len(answer.rows), self.years + 1), -np.inf)
        for (name, _), (revenue, _) in zip(shares_of(answer), answer.amounts_of_ways):
            pays = (answer.said[revenue] > 0).to_numpy()[:, None]
            later[:, :-1] = np.where(pays, np.maximum(later[:, :-1], self.earned_as(name, pile=pile)), later[:, :-1])
        mine = self.prices[self.prices["limit"] == f"{STOCK}{pile['name']}"]
        waits, lies = np.zeros(len(answer.rows)), np.empty_like(found)
        for year in reversed(self.every_year):
            # A tonne that lies there at the end of a year pays for its capacity.
            waits = np.maximum(waits, later[:, year]) - feed * mine["price"][mine["year"] == year].sum()
            lies[:, year - 1] = waits
        factors = [discount(answer, year) for year in self.every_year]
        return found + lies - np.outer(feed, factors) * pile["stacking_cost"]

    @cached_property
    def costs(self) -> dict[str, np.ndarray]:
        """The costs of ore that periods multiply, shape (processes, rows)."""
        return ore_costs.of_blocks(self.answer)

    def earned_as(
        self, process: str | None, dump: Optional[Section] = None, pile: Optional[Section] = None
    ) -> np.ndarray:
        """Returns the same of blocks that are all sent to one process, or are waste, in a dump if there are any; without mining if the process takes them from
        a stockpile."""
        answer, said, names = self.answer, self.answer.said, [name for name, _ in shares_of(self.answer)]
        shares = [(name, np.full(len(said), float(name == process))) for name in names]
        mining = np.zeros(len(said)) if pile else said["mining_cost"].to_numpy()
        amounts, cash, pays = amounts_of(answer, shares), -mining, np.zeros(len(said), bool)
        amounts = amounts.assign(**dict(it for grade in block_grades.graded(answer, shares) for it in grade.excess()))
        amounts = amounts.assign(**dict.fromkeys(differing(answer.project), 0.0))
        for it in answer.project.dumps:
            tonnes = answer.tonnes if it is dump else np.zeros(len(said))
            amounts = amounts.assign(**{f"{dumps.DUMP}{it['name']}": tonnes, f"{dumps.DUMPED}{it['name']}": tonnes})
        if dump is not None:
            cash = cash - dump["cost"] * answer.tonnes
        if process is not None:
            amounts = amounts.assign(**{name: it[names.index(process)] for name, it in self.costs.items()})
            revenue, cost = answer.amounts_of_ways[names.index(process)]
            cash, pays = cash + (said[revenue] - said[cost]).to_numpy(), (said[revenue] > 0).to_numpy()
            if pile is not None:
                amounts, lost = self.reclaimed(amounts, names.index(process), pile)
                cash = cash - lost
        found = np.empty((len(said), self.years))
        for year in self.every_year:
            more = sum(price * amounts[it].to_numpy() for it, price in premiums(answer.project, year).items())
            costs = (mining_factor(answer.project, year) - 1) * mining
            found[:, year - 1] = (cash + more - costs) * discount(answer, year)
        return found - self.priced(amounts, pays, is_mined=pile is None)

    def reclaimed(self, amounts: pd.DataFrame, process: int, pile: Section) -> tuple[pd.DataFrame, np.ndarray]:
        """Returns the amounts that blocks add when a process takes them from a stockpile, and what that costs."""
        answer, found, charges = self.answer, dict[str, np.ndarray](), ore_costs.charges(self.answer)
        for metal in answer.project.metals:
            name, kept = metal["name"], pile["recovery"].get(metal["name"], 1.0)
            missing = amounts[f"recovered_{name}"].to_numpy() * (1 - kept)
            if SELLING in amounts:
                found[SELLING] = found.get(SELLING, amounts[SELLING].to_numpy()) - missing * charges[name][process]
            of_metal = {f"recovered_{name}", f"{BY_TERMS}{name}"} & set(amounts)
            found |= {it: amounts[it].to_numpy() * kept for it in of_metal}
        found |= {name: np.zeros(len(amounts)) for name in amounts if is_of_all(answer, str(name))}
        return amounts.assign(**found), lost_by_reclaim(answer, process, pile)

    def priced(self, amounts: pd.DataFrame, pays: np.ndarray, is_mined: bool = True) -> np.ndarray:
        """Returns the prices of what blocks use, shape (rows, years), of mining too unless a process takes them from a stockpile. Without revenue processed
        ore does not count towards a minimum."""
        found = np.zeros((len(amounts), self.years))
        for it in self.prices.itertuples(index=False):
            if it.limit == MUST_MINE:
                found += it.price * self.must[:, None] * is_mined
                continue
            if it.limit.startswith(STOCK):
                continue
            used = amounts[it.limit].to_numpy()
            if it.limit.startswith(dumps.DUMPED):
                found += it.price * used[:, None]
                continue
            if it.side == MIN and not it.limit.startswith(dumps.DUMP) and not is_of_all(self.answer, it.limit):
                used = np.where(pays, used, 0.0)
            found[:, it.year - 1] += it.price * used
        return found

    @cached_property
    def arcs(self) -> Precedences | None:
        """The blocks that a best closure may hold, with their precedences; None if these are too many."""
        gains = -np.diff(self.earned, axis=1, append=0.0)
        return precedences_of(self.answer, (gains > 0).any(axis=1), self.fixed[1], MOST_ARCS // self.years)

    @cached_property
    def first(self) -> np.ndarray:
        """The first year, from 1, by which the limits let each block of `arcs` be mined with all that it needs, shape (nodes,)."""
        assert self.arcs is not None
        nothing = [(name, np.zeros(len(self.answer.rows))) for name, _ in shares_of(self.answer)]
        waste, first = amounts_of(self.answer, nothing), np.ones(len(self.arcs), dtype=np.int64)
        for name in {name for name, side, _ in self.limits if side == MAX and is_of_all(self.answer, name)}:
            most = np.cumsum([self.limits[name, MAX, year] for year in self.every_year]) * (1 + HAIR)
            first = np.maximum(first, 1 + np.searchsorted(most, self.arcs.cone_sums(self.arcs.spread(waste[name]))))
        return first

    @cached_property
    def value(self) -> tuple[float, float]:
        """The bound, and by how much it may be larger: the closures of years, those solved together that are not nested."""
        parts = [(year, year, self.closure(year, year)) for year in self.every_year]
        while True:
            number = next((k for k in range(len(parts) - 1) if not self.is_nested(parts[k], parts[k + 1])), None)
            if number is None:
                found = [part for _, _, part in parts]
                value = self.of_limits + self.of_opening + sum(it.value for it in found)
                # To mine nothing earns nothing, unless a minimum forbids it.
                is_free = all(side == MAX for _, side, _ in self.limits)
                return max(value, 0.0) if is_free else value, sum(it.slack for it in found)
            years = parts[number][0], parts[number + 1][1]
            parts[number : number + 2] = [(*years, self.closure(*years))]

    @property
    def of_opening(self) -> float:
        """What lies on stockpiles at the start earns at most, less the prices of what it uses, as in a schedule of pushbacks."""
        prices = self.prices[self.prices["year"] > 0]
        price = np.where(prices["side"] == MIN, -prices["price"], prices["price"])
        return pushback_bounds.Bound(self.answer, prices.assign(price=price), self.years, {}).of_opening

    def closure(self, first: int, last: int) -> Closure:
        """Returns the best closure of the blocks that can be mined by each of some years, year by year."""
        assert self.arcs is not None
        gains = self.arcs.spread(pd.DataFrame(-np.diff(self.earned, axis=1, append=0.0)))
        count = len(self.arcs)
        values, arcs = [], []
        for place, year in enumerate(range(first, last + 1)):
            can = self.first <= year
            values.append(np.where(can, gains[:, year - 1], 0.0))
            inner = can[self.arcs.nodes]
            arcs.append(place * count + np.stack([self.arcs.nodes[inner], self.arcs.needed[inner]]))
            if year < last:
                arcs.append(place * count + np.stack([np.arange(count), np.arange(count) + count])[:, can])
        nodes, needed = np.concatenate(arcs, axis=1)
        return maximum_closure(np.concatenate(values), nodes, needed)

    def is_nested(self, one: tuple[int, int, Closure], other: tuple[int, int, Closure]) -> bool:
        """Returns whether the blocks of a part by its last year are among those of the next part by its first."""
        assert self.arcs is not None
        count = len(self.arcs)
        return bool((one[2].inside[-count:] <= other[2].inside[:count]).all())


def lost_by_reclaim(answer: Answer, process: int, pile: Section) -> np.ndarray:
    """Returns what the whole of each block earns less in a process, by its number, if a stockpile gives it back: the cost of that, and metal that is lost."""
    found, names = answer.feed * pile["reclaim_cost"], [name for name, _ in shares_of(answer)]
    way = answer.project.by_process[process]
    whole = amounts_of(
        answer, [(name, np.full(len(answer.rows), float(number == process))) for number, name in enumerate(names)]
    )
    for metal in way.metals:
        missing = whole[f"recovered_{metal['name']}"].to_numpy() * (1 - pile["recovery"].get(metal["name"], 1.0))
        found = found + missing * float(net(metal, metal["price"], way.economics["royalty"]))
    return np.asarray(found)


def limited_years(name: str, least: np.ndarray, most: np.ndarray) -> dict[tuple[str, str, int], float]:
    """Returns what lies on a stockpile, or goes to a dump, at most and at least in each year, if some year has such a limit."""
    found: dict[tuple[str, str, int], float] = {}
    for side, of_years, is_limited in ((MAX, most, np.isfinite(most)), (MIN, least, least > 0)):
        if is_limited.any():
            found |= {(name, side, year): float(amount) for year, amount in enumerate(of_years, 1)}
    return found


def is_of_all(answer: Answer, name: str) -> bool:
    """Returns whether an amount counts all material, and not only what is processed."""
    rules = answer.project.schedule
    totals = {f"sum_{it['name']}" for it in (rules["limits"] if rules else ()) if it["of"] == "total"}
    return name == "total_tonnes" or name in totals

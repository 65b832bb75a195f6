"""Schedules that can be mined: benches in an order, each begun when all that it waits for are through, within the limits of each year."""

from __future__ import annotations

from dataclasses import dataclass
from typing import Optional

import numpy as np

from pitplan.config.economics import MOST_YEARS
from pitplan.config.shells import ShellRules
from pitplan.core.tolerances import MISSED_LIMIT, SUM_ERROR
from pitplan.economics.period_costs import PLAIN, YearlyMoney
from pitplan.errors import PlanError
from pitplan.pits.best_worst_case import year_discounts
from pitplan.pushbacks.bench_table import CASH, ROCK, PushbackBenches

from .limits import Limits


@dataclass(frozen=True)
class Problem:
    """What is scheduled: benches of pushbacks, the limits of a year, the settings by which cash is discounted, and the money of years."""

    benches: PushbackBenches
    limits: Limits
    settings: ShellRules
    money: YearlyMoney = PLAIN

    def value(self, shares: np.ndarray) -> float:
        """What the years of a schedule earn, discounted, in money; the shares are an array of benches and years."""
        return float((self.worths(shares.shape[1]) * shares).sum() - self.costs(shares).sum())

    def worths(self, years: int) -> np.ndarray:
        """What each bench earns, discounted, where it is mined in each year: an array of benches and years."""
        cash = self.benches.of(CASH)[:, None] + self.benches.amounts @ self.money.premium(self.benches.names, years).T
        return cash * year_discounts(self.settings, years)

    def priced(self, flows: np.ndarray) -> np.ndarray:
        """Flows of benches, years and names with the cash of each year's own prices."""
        premiums = self.money.premium(self.benches.names, flows.shape[1])
        more = np.einsum("byn,yn->by", flows, premiums)
        result = flows.copy()
        result[:, :, self.benches.names.index(CASH)] += more
        return result

    def costs(self, flows: np.ndarray) -> np.ndarray:
        """Fixed costs and capex, discounted, of each year up to the last in which something flows; by the last axis of the flows."""
        return self.costs_of_years(flows.shape[-1]) * running(flows)

    def costs_of_years(self, years: int) -> np.ndarray:
        """The same for a number of years in which the mine operates."""
        return costs_of_years(self.money, self.settings, years)


def costs_of_years(money: YearlyMoney, settings: ShellRules, years: int) -> np.ndarray:
    """Fixed costs and capex of years in which the mine runs, discounted."""
    starts = (1 + settings.discount_rate) ** -settings.calendar.starts(years)
    return money.fixed(years) * year_discounts(settings, years) + money.spent(years) * starts


def running(flows: np.ndarray) -> np.ndarray:
    """Whether each year, by the last axis of the flows, is one up to the last in which something flows."""
    years = flows.shape[-1]
    used = np.flatnonzero(flows.any(axis=tuple(range(flows.ndim - 1))))
    return np.arange(years) <= (used[-1] if len(used) else -1)


@dataclass(frozen=True)
class BenchSequence:
    """How benches are mined one after the other.

    order  the benches that are mined, each behind those that it waits for
    first  for each bench the first year, from 1, in which it may be mined; None: any
    eager  whether benches further down the order use what a full limit leaves of the others; otherwise the first limit that is full ends the
           year, except for that of sinking, which holds up its pushback alone
    pace   the most rock that is mined by the end of each year; None: any
    """

    order: np.ndarray
    first: Optional[np.ndarray] = None
    eager: bool = False
    pace: Optional[np.ndarray] = None


class Mining:
    """A schedule in the making, year by year."""

    def __init__(self, problem: Problem) -> None:
        self.benches, self.limits = problem.benches, problem.limits
        rock = self.benches.of(ROCK)
        self.takes = np.column_stack([self.limits.amounts(self.benches), rock])
        self.done = np.zeros(len(self.benches))

    def room(self, bench: int, left: np.ndarray, depth: float) -> float:
        """The share of a bench that fits into what is left of a year."""
        takes = self.takes[bench]
        some = takes > 0
        return float(min(1 - self.done[bench], depth, *(left[some] / takes[some])))

    def year(self, sequence: BenchSequence, pending: list[int], number: int) -> np.ndarray:
        """Mines one year, numbered from 1, of what is pending; gives the share of each bench."""
        pace = (
            np.inf if sequence.pace is None else max(0.0, sequence.pace[number - 1] - self.benches.of(ROCK) @ self.done)
        )
        left = np.append(self.limits.of_year(number), pace)
        depth = np.full(int(self.benches.pushback.max()) + 1, self.limits.sinking(number)[-1])
        shares = np.zeros(len(self.benches))
        for bench in pending:
            is_due = sequence.first is None or sequence.first[bench] <= number
            if not is_due or (self.done[self.benches.waits[bench]] < 1).any():
                continue
            pushback = self.benches.pushback[bench]
            rest, share = 1 - self.done[bench], self.room(bench, left, depth[pushback])
            # What no limit would miss is not mined by itself.
            share = rest if rest - share <= MISSED_LIMIT else share
            if share > MISSED_LIMIT:
                shares[bench] = share
                left = np.maximum(left - share * self.takes[bench], 0.0)
                depth[pushback] -= share
                self.done[bench] = 1.0 if self.done[bench] + share > 1 - SUM_ERROR else self.done[bench] + share
            if self.done[bench] < 1 and not sequence.eager and depth[pushback] > SUM_ERROR:
                break
        return shares


def mine_in_order(problem: Problem, sequence: BenchSequence, years: Optional[int] = None) -> np.ndarray:
    """The share of each bench that is mined in each year: an array of benches and years, up to the year when all is mined or the last that
    is allowed.

    Raises PlanError where it takes more than a thousand years.
    """
    mining, found = Mining(problem), list[np.ndarray]()
    pending = sequence.order.tolist()
    while pending and (years is None or len(found) < years):
        if len(found) == MOST_YEARS:
            raise PlanError(
                f"[schedule] the pit would take more than {MOST_YEARS:,} years: check that the limits are in tonnes per year"
            )
        found.append(mining.year(sequence, pending, len(found) + 1))
        pending = [bench for bench in pending if mining.done[bench] < 1]
    return np.column_stack(found) if found else np.zeros((len(problem.benches), 0))


def by_lead(benches: PushbackBenches, lead: int) -> BenchSequence:
    """All benches, each pushback `lead` benches behind the one before. No lead is the whole pit bench by bench; one of all levels is pushback
    by pushback."""
    return BenchSequence(np.lexsort((benches.pushback, benches.level + lead * (benches.pushback - 1))))


def leads(benches: PushbackBenches) -> range:
    """From the lag up to the lead at which pushbacks follow one after the other."""
    return range(benches.lag, max(benches.lag, int(np.ptp(benches.level)) + 1) + 1)


def by_rule(problem: Problem, years: Optional[int] = None) -> tuple[np.ndarray, int]:
    """The shares by year of the lead that earns most, and this lead.

    Raises PlanError where it takes more than a thousand years.
    """
    tried = {lead: mine_in_order(problem, by_lead(problem.benches, lead), years) for lead in leads(problem.benches)}
    best = max(tried, key=lambda lead: problem.value(tried[lead]))
    return tried[best], best

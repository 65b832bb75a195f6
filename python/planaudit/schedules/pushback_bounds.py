"""Recomputes the upper bound of a schedule of pushbacks from its Lagrange multipliers, tables/bound.csv.

With a price on each limit in each year no schedule earns more than the prices times the limits, what the running years earn at these prices, and the
greatest value of benches mined in order, where each block goes where it earns most less the prices of what it uses: to a process, to a
stockpile until its best later year, or to waste, with dumps to the cheapest one; and the greatest value of what lies on stockpiles at the start. This holds for any prices.
"""

from __future__ import annotations

from collections.abc import Iterator
from dataclasses import dataclass
from functools import cached_property
from typing import Any, Optional

import numpy as np
import pandas as pd

from planaudit.inputs.answer import Answer
from planaudit.inputs.project import Section, opening_tonnes
from planaudit.inputs.tables import TABLES, read_prices
from planaudit.money.period_costs import BY_TERMS, SELLING, mining_factors, premiums
from planaudit.rules import Rule, rule
from planaudit.schedules import dumps
from planaudit.schedules.discounts import discount, present_costs
from planaudit.schedules.lots import BlockAmounts
from planaudit.schedules.opening import OpeningLots
from planaudit.schedules.periods import stock_limits

FILE = "bound.csv"
MAX, MIN, RUNNING = "max", "min", "running"
ADVANCE, STOCK = "vertical_advance_", "stockpile_"
NAME = "upper bound"
HOLDS = (
    "the upper bound follows from the multipliers of bound.csv: no schedule of these pushbacks within these limits and years has a higher NPV, "
    "wherever each block goes"
)
CENT, HAIR, SLIGHT = 0.01, 1e-9, 1e-7
# Over this many years limits of mining are compared.
SPAN = 3
# A limit by year.
Limits = dict[tuple[str, str], np.ndarray]


def verify(answer: Answer, told: dict[str, Any], limits: dict[str, tuple[np.ndarray, np.ndarray]]) -> Rule:
    """Verifies the upper bound of schedule.json.

    Parameters
    ----------
    answer : Answer
    told : dict
        schedule.json.
    limits : dict
        By name of the limited amount its minimum and maximum in each year.
    """
    path = answer.folder / TABLES / FILE
    if told["upper_bound"] is None:
        return rule(NAME, "not recomputed: the run was interrupted before there was one", [])
    if not path.is_file():
        return rule(NAME, HOLDS, [f"{FILE} is missing"])
    prices = read_prices(path)
    bound = Bound(answer, prices, int(told["years"]), limits)
    differences = list(bound.unlike_limits())
    if not differences:
        value = bound.value
        if abs(told["upper_bound"] - value) > CENT + SLIGHT * max(abs(value), bound.size):
            differences = [f"{told['upper_bound']:.12g} for {value:.12g}"]
    return rule(NAME, HOLDS, differences)


@dataclass(frozen=True)
class Bound:
    """A bound that is recomputed; the attributes are those of `verify`."""

    answer: Answer
    prices: pd.DataFrame
    years: int
    given: dict[str, tuple[np.ndarray, np.ndarray]]

    @cached_property
    def blocks(self) -> BlockAmounts:
        return BlockAmounts(self.answer)

    @cached_property
    def limits(self) -> Limits:
        """The limits of the project, by name and side."""
        found: Limits = {}
        for name, (least, most) in self.given.items():
            found |= {(name, MAX): most} if np.isfinite(most).any() else {}
            found |= {(name, MIN): least} if (least > 0).any() else {}
        rules = self.answer.project.schedule
        if rules and rules["vertical_advance_rate"]:
            rate = float(rules["vertical_advance_rate"]) * self.answer.project.calendar.lengths(self.years)
            found |= {(f"{ADVANCE}{number}", MAX): rate for number in np.unique(self.benches["pushback"])}
        for name, (least, most) in stock_limits(self.answer.project, self.years).items():
            found |= {(f"{STOCK}{name}", MAX): most} if np.isfinite(most).any() else {}
            found |= {(f"{STOCK}{name}", MIN): least} if least.any() else {}
        for name, (least, most) in dumps.limits_of(self.answer.project, self.years).items():
            found |= {(name, MAX): most} if np.isfinite(most).any() else {}
            found |= {(name, MIN): least} if least.any() else {}
        return found

    @cached_property
    def dumping(self) -> np.ndarray:
        """What each block costs at least as waste in each year, shape (blocks, years): in a dump that accepts it, with the prices of its limits, of its
        capacity in each year from then on. Nothing without dumps."""
        blocks, nothing, project = self.blocks, np.zeros(self.years), self.answer.project
        found = np.full((len(blocks.tonnes), self.years), np.inf if project.dumps else 0.0)
        for it in project.dumps:
            kept = self.by_price.get((f"{dumps.DUMPED}{it['name']}", MAX), nothing)
            a_tonne = it["cost"] * self.discounts + [kept[year:].sum() for year in range(self.years)]
            a_tonne = a_tonne + self.by_price.get((f"{dumps.DUMP}{it['name']}", MAX), nothing)
            a_tonne = a_tonne - self.by_price.get((f"{dumps.DUMP}{it['name']}", MIN), nothing)
            cost = np.where(blocks.unaccepted[it["name"]][:, None], np.inf, blocks.tonnes[:, None] * a_tonne)
            found = np.minimum(found, cost)
        return found

    def rent(self, stockpile: Section) -> np.ndarray:
        """Returns the price of a tonne that lies on a stockpile at the end of each year; below 0 where a minimum asks for it."""
        nothing = np.zeros(self.years)
        name = f"{STOCK}{stockpile['name']}"
        return self.by_price.get((name, MAX), nothing) - self.by_price.get((name, MIN), nothing)

    @property
    def asks_least(self) -> bool:
        """Whether a year must hold something at least, or a stockpile must be emptied."""
        lying = {f"{STOCK}{it['name']}": opening_tonnes(it) for it in self.blocks.stockpiles}
        emptied = any((most < lying.get(name, 0.0)).any() for (name, side), most in self.limits.items() if side == MAX)
        return emptied or any(side == MIN for _, side in self.limits)

    @cached_property
    def by_price(self) -> dict[tuple[str, str], np.ndarray]:
        rows = self.prices.sort_values("year", kind="stable").groupby(["limit", "side"], sort=False)["price"]
        return {(str(name), str(side)): values.to_numpy() for (name, side), values in rows}

    def unlike_limits(self) -> Iterator[str]:
        """Yields prices of no limit, of other years or below 0."""
        due = list(range(1, self.years + 1))
        for (name, side), years in self.prices.groupby(["limit", "side"], sort=False)["year"]:
            if sorted(years) != due:
                yield f"{FILE}: {name} {side} has the years {sorted(years)} for 1 to {self.years}"
        for (name, side), prices in self.by_price.items():
            if (name, MAX if side == RUNNING else side) not in self.limits:
                yield f"{FILE}: {name} {side} is no limit of the project"
            elif len(prices) != self.years:
                continue
            elif not (prices >= 0).all():
                yield f"{FILE}: {name} {side} has a price below 0"
            elif prices[~np.isfinite(self.limits[name, MAX if side == RUNNING else side])].any():
                yield f"{FILE}: {name} {side} has a price in a year without this limit"

    @cached_property
    def discounts(self) -> np.ndarray:
        return np.array([discount(self.answer, year) for year in range(1, self.years + 1)])

    @cached_property
    def benches(self) -> pd.DataFrame:
        """One row per bench, by pushback and level, and the rows of its blocks."""
        keys = self.blocks.keys[["pushback", "level"]]
        return keys.drop_duplicates().sort_values(["pushback", "level"]).reset_index(drop=True)

    @cached_property
    def bench_of(self) -> np.ndarray:
        """The bench of each block."""
        number = pd.Series(np.arange(len(self.benches)), index=pd.MultiIndex.from_frame(self.benches))
        return number.reindex(pd.MultiIndex.from_frame(self.blocks.keys[["pushback", "level"]])).to_numpy()

    def charged(self, name: str, side: str, amounts: np.ndarray) -> np.ndarray:
        """Returns what amounts of blocks cost at the prices of a limit, shape (blocks, years)."""
        sign = -1.0 if side == MIN else 1.0
        return sign * amounts[:, None] * self.by_price[name, side]

    def in_process(
        self, process: int, stockpile: Optional[Section] = None, lots: Optional[OpeningLots] = None
    ) -> np.ndarray:
        """What each block, or each of some lots, earns in a process in each year, directly or from a stockpile, less prices, shape (blocks, years)."""
        blocks, kept = lots or self.blocks, stockpile["recovery"] if stockpile else {}
        shares = {f"{name}{metal}": share for metal, share in kept.items() for name in ("recovered_", BY_TERMS)}
        base = self.undiscounted(process, stockpile, lots)
        found = np.empty((len(blocks.feed), self.years))
        unsold = sum(
            self.blocks.charges[metal][process] * (1 - share) * blocks.of_process(f"recovered_{metal}", process)
            for metal, share in kept.items()
        )
        for year in range(self.years):
            money = base
            for name, premium in premiums(self.answer.project, year + 1).items():
                amount = shares.get(name, 1.0) * blocks.of_process(name, process)
                money = money + premium * (amount - unsold if name == SELLING else amount)
            found[:, year] = money * self.discounts[year]
        for name, side in self.by_price:
            found -= self.charged(name, side, shares.get(name, 1.0) * blocks.of_process(name, process))
        # A block without revenue in a process is never sent there.
        return np.where(blocks.takes[process][:, None], found, -np.inf)

    def undiscounted(
        self, process: int, stockpile: Optional[Section] = None, lots: Optional[OpeningLots] = None
    ) -> np.ndarray:
        """Returns what each whole block, or each of some lots, earns in a process at the base price, directly or from a stockpile, shape (blocks,)."""
        blocks = lots or self.blocks
        found = blocks.gain[process] - (stockpile["reclaim_cost"] if stockpile else 0.0) * blocks.feed
        for metal, share in (stockpile["recovery"] if stockpile else {}).items():
            lost = (1 - share) * blocks.of_process(f"recovered_{metal}", process)
            found = found - self.blocks.net_prices[metal][process] * lost
        return np.asarray(found)

    def in_stockpile(self, stockpile: Section) -> np.ndarray:
        """What each block earns that is placed on a stockpile in each year, and reclaimed in its best later year or never."""
        blocks = self.blocks
        later = np.max([self.in_process(number, stockpile) for number in range(len(blocks.processes))], axis=0)
        rent = blocks.feed[:, None] * np.cumsum(self.rent(stockpile))
        found = np.empty_like(later)
        for year in range(self.years):
            # By the year of the reclaim, in which it pays no more; or it lies there to the end.
            paid = np.append(rent[:, year:-1], rent[:, -1:], axis=1) - (rent[:, year - 1 : year] if year else 0.0)
            earned = np.append(later[:, year + 1 :], np.zeros((len(rent), 1)), axis=1)
            found[:, year] = (earned - paid).max(axis=1)
        found -= stockpile["stacking_cost"] * blocks.feed[:, None] * self.discounts
        # What no process can take is never placed there.
        is_left = blocks.refused[stockpile["name"]] | ~blocks.takes.any(axis=0)
        return np.where(is_left[:, None], -np.inf, found)

    @cached_property
    def earned(self) -> np.ndarray:
        """What each block earns, mined in each year, shape (blocks, years)."""
        blocks = self.blocks
        best = np.max([self.in_process(number) for number in range(len(blocks.processes))], axis=0)
        best = np.maximum(best, -self.dumping)
        for stockpile in blocks.stockpiles:
            best = np.maximum(best, self.in_stockpile(stockpile))
        best = best + blocks.mining_cash[:, None] * self.discounts * mining_factors(self.answer.project, self.years)
        for name, side in self.by_price:
            best -= self.charged(name, side, blocks.of_mining(name))
        return best

    @cached_property
    def of_bench(self) -> np.ndarray:
        """What each bench earns, mined in each year, shape (benches, years)."""
        found = np.zeros((len(self.benches), self.years))
        np.add.at(found, self.bench_of, self.earned)
        for (name, _), prices in self.by_price.items():
            if name.startswith(ADVANCE):
                found[self.benches["pushback"] == int(name.removeprefix(ADVANCE))] -= prices
        return found

    @cached_property
    def precedences(self) -> list[tuple[int, int]]:
        """Pairs of a bench and one that must be mined before it starts: the one above it in its pushback, and in each earlier pushback the lowest
        down to the lag below it."""
        rules = self.answer.project.schedule
        lag, found = rules["bench_lag"] if rules else 0, []
        pushback, level = self.benches["pushback"].to_numpy(), self.benches["level"].to_numpy()
        for bench in range(len(self.benches)):
            for other in range(pushback[bench] + 1):
                deepest = level[bench] - 1 if other == pushback[bench] else level[bench] + lag
                some = np.flatnonzero((pushback == other) & (level <= deepest))
                if len(some):
                    found.append((bench, int(some[-1])))
        return found

    @cached_property
    def most(self) -> np.ndarray:
        """The greatest share of each bench that the limits of mining let be mined by the end of each year, shape (benches, years)."""
        before = np.zeros((len(self.benches), len(self.benches)), dtype=bool)
        for bench, other in self.precedences:
            before[bench] |= before[other]
            before[bench, other] = True
        found = np.ones((len(self.benches), self.years))
        for name, (_, most) in self.given.items():
            if not np.isfinite(most).all() or self.is_of_ore(name):
                continue
            takes = np.bincount(self.bench_of, self.blocks.of_mining(name), minlength=len(self.benches))
            found = np.minimum(found, left_over(takes, before, most.cumsum()))
        rules = self.answer.project.schedule
        if rules and rules["vertical_advance_rate"]:
            pushback = self.benches["pushback"].to_numpy()
            above = before & (pushback[:, None] == pushback)
            sunk = float(rules["vertical_advance_rate"]) * self.answer.project.calendar.lengths(self.years).cumsum()
            found = np.minimum(found, left_over(np.ones(len(self.benches)), above, sunk))
        return found

    @cached_property
    def pace(self) -> list[tuple[int, int, int, int]]:
        """A bench and a year, and a bench above it in its pushback, or itself, that is mined at least as far by an earlier year: from the first share of this
        to that of the other the limits of mining let no more be mined in between."""
        calendar, rules = self.answer.project.calendar, self.answer.project.schedule
        limits: list[tuple[np.ndarray, np.ndarray]] = [
            (np.bincount(self.bench_of, self.blocks.of_mining(name), minlength=len(self.benches)), most)
            for name, (_, most) in self.given.items()
            if not self.is_of_ore(name)
        ]
        if rules and rules["vertical_advance_rate"]:
            limits.append(
                (np.ones(len(self.benches)), float(rules["vertical_advance_rate"]) * calendar.lengths(self.years))
            )
        found = []
        for _, mine in self.benches.groupby("pushback").groups.items():
            for amounts, most in limits:
                found += [
                    (mine[low], year, mine[high], earlier)
                    for low, year, high, earlier in steps_of(amounts[mine], most, self.years)
                ]
        return found

    def is_of_ore(self, name: str) -> bool:
        return any(self.blocks.of_process(name, number).any() for number in range(len(self.blocks.processes)))

    @property
    def of_limits(self) -> float:
        signed = {
            key: (-1.0 if key[1] == MIN else 1.0) * np.where(np.isfinite(amounts), amounts, 0.0)
            for key, amounts in self.limits.items()
        }
        return float(sum(prices @ signed[key] for key, prices in self.by_price.items() if key in signed))

    @property
    def of_running(self) -> float:
        """What running as many years as is best earns: the prices of limits that show it, less what the years cost."""
        earned = -np.array([present_costs(self.answer, year) for year in range(1, self.years + 1)])
        for (name, side), prices in self.by_price.items():
            if side == RUNNING:
                earned = earned + prices * self.limits[name, MAX]
        return float(earned.cumsum().max())

    @cached_property
    def size(self) -> float:
        """The money that flows in the relaxation, by which its rounding is judged."""
        return float(np.abs(self.of_bench).max(axis=1, initial=0.0).sum())

    @property
    def of_benches(self) -> float:
        """The greatest value of benches mined in order; unknowns are the shares that are mined by the end of each year."""
        # Here, since it takes a tenth of a second and only the bounds of schedules need it.
        from scipy.optimize import linprog
        from scipy.sparse import coo_matrix

        count, years = len(self.benches), self.years
        at = np.arange(count * years).reshape(count, years)
        less = [at[:, :-1].ravel(), *(at[bench] for bench, _ in self.precedences)]
        more = [at[:, 1:].ravel(), *(at[other] for _, other in self.precedences)]
        for bench, year, other, earlier in self.pace:
            less.append(at[bench, year : year + 1])
            more.append(at[other, earlier : earlier + 1])
        pairs = np.stack([np.concatenate(less), np.concatenate(more)])
        rows = np.arange(pairs.shape[1])
        signs = np.repeat([1.0, -1.0], pairs.shape[1])
        matrix = coo_matrix((signs, (np.tile(rows, 2), pairs.ravel())), shape=(pairs.shape[1], count * years))
        gain = (self.of_bench - np.append(self.of_bench[:, 1:], np.zeros((count, 1)), axis=1)).ravel()
        unit = float(np.abs(gain).max(initial=0.0)) or 1.0
        bounds = np.column_stack([np.zeros(count * years), self.most.ravel()])
        found = linprog(-gain / unit, A_ub=matrix.tocsr(), b_ub=np.zeros(len(rows)), bounds=bounds, method="highs")
        return -float(found.fun) * unit

    @property
    def of_opening(self) -> float:
        """What lies on stockpiles at the start earns at most. It pays the price of the capacity in each year at whose end it still lies there."""
        lots, found = OpeningLots(self.blocks), 0.0
        for place, (_, it, opening) in enumerate(lots.given):
            ways = [self.in_process(number, it, lots)[place] for number in range(len(self.blocks.processes))]
            paid = opening["tonnes"] * np.append(0.0, self.rent(it).cumsum())
            found += max(float((np.max(ways, axis=0) - paid[:-1]).max()), float(-paid[-1]))
        return found

    @property
    def value(self) -> float:
        """The bound; without a minimum to mine nothing earns 0."""
        found = self.of_limits + self.of_running + self.of_benches + self.of_opening
        return found if self.asks_least else max(found, 0.0)


def steps_of(takes: np.ndarray, most: np.ndarray, years: int) -> Iterator[tuple[int, int, int, int]]:
    """Yields for the benches of a pushback, from the top, a bench and a year, and the lowest bench above it that keeps ahead, with an earlier year.

    If x of the lower one is mined, at least what lies above that less what the years between allow was mined before. The same x of the upper one
    was, if no more than the limit lies between both at x = 0 and at x = 1.
    """
    deep = np.append(0.0, np.cumsum(takes))
    for year in range(1, years):
        for earlier in range(max(0, year - SPAN), year):
            allowed = float(most[earlier + 1 : year + 1].sum())
            if not np.isfinite(allowed):
                continue
            least = allowed - HAIR * max(allowed, 1.0)
            for low in range(len(takes)):
                first, last = deep[low] - deep[: low + 1], deep[low + 1] - deep[1 : low + 2]
                ahead = np.flatnonzero((first >= least) & (last >= least) & (takes[: low + 1] > 0))
                if len(ahead):
                    yield low, year, int(ahead[-1]), earlier


def left_over(takes: np.ndarray, before: np.ndarray, most: np.ndarray) -> np.ndarray:
    """Returns by bench and year the share of a bench for which a limit leaves room once all before it is mined."""
    free = most - (before @ takes)[:, None]
    with np.errstate(divide="ignore", invalid="ignore"):
        share = np.where(takes[:, None] > 0, free / takes[:, None], np.where(free >= -HAIR * most, 1.0, 0.0))
    return np.clip(share + HAIR, 0.0, 1.0)

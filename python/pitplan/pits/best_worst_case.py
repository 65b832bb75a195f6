"""Pit-by-pit analysis: when a pit is mined and when its cash flows, by the yearly mining and processing capacities.

Mining goes bench by bench. The best case mines shell by shell, by rising factor, and within each shell bench by bench from the top; the
worst case mines the whole pit bench by bench; the specified case mines given pushbacks, each some benches behind the one before. The pieces,
one after the other, are a shell's or pushback's part of a bench, or a bench of the pit.

Within a year all capacities apply together: a bench of waste does not wait for the mill while mining capacity is left. A year ends in the
piece that needs a capacity which is used up; its total material, ore, metal and cash are cut there in proportion. The last year is as long
as the share of its most used capacity.

Ore goes where it earns most in its year, within the capacities (`destinations`). With several processes the mine may wait for each of them
or not (`ore_kinds`); each shell has the NPV of what is best for it.
"""

from __future__ import annotations

from collections.abc import Iterator, Sequence
from dataclasses import dataclass
from functools import cached_property
from typing import Optional, Union

import numpy as np
import pandas as pd
from numpy.typing import NDArray

from pitplan.config.economics import MOST_YEARS
from pitplan.config.project import Project
from pitplan.config.shells import ShellRules, SpecifiedCase
from pitplan.core.tolerances import EQUAL_MONEY, STRICT_SUM_ERROR, SUM_ERROR, TONNES_ERROR
from pitplan.economics.period_costs import MINING_COST, PLAIN, YearlyMoney, is_shown
from pitplan.errors import PlanError

from .ore_kinds import OreKinds, Wait, with_mining

Floats = NDArray[np.float64]
Ints = NDArray[np.int64]


# The best destinations of ore within a year: to processes of limited capacity, or to waste.
#
# Parcels of ore are shipped to processes as in a transportation problem: each tonne earns its net value where it
# goes, and no process takes more than its capacity. The method is that of successive shortest paths (Ahuja, Magnanti
# and Orlin, Network Flows, 1993, section 9.7): all ore starts at its best destination, and what is above a capacity
# moves on by the paths that lose least. All years are solved side by side.


def best_shares(feed: Floats, gain: Floats, takes: NDArray[np.bool_], capacity: Floats) -> Floats:
    """Returns the share of each parcel that each process takes so that the value of a year is greatest; the rest is waste.

    Parameters
    ----------
    feed : array, shape (years, parcels)
        Tonnes.
    gain : array, shape (years, parcels, processes)
        Net value of each whole parcel in each process, in the currency.
    takes : bool array, shape (parcels, processes)
        Whether a process may take a parcel.
    capacity : array, shape (years, processes)
        Tonnes.
    """
    years, _, processes = gain.shape
    rate = np.divide(gain, feed[:, :, None], out=np.zeros_like(gain), where=feed[:, :, None] > 0)
    rates = np.concatenate([np.where(takes, rate, -np.inf), np.zeros((*feed.shape, 1))], axis=2)
    mass = np.zeros_like(rates)
    np.put_along_axis(mass, rates.argmax(axis=2)[:, :, None], feed[:, :, None], axis=2)
    limits = np.column_stack([capacity, np.full(years, np.inf)])
    left = np.arange(years)
    while len(left):
        shipments = Shipments(rates[left], mass[left], limits[left])
        is_over = shipments.excess.any(axis=1)
        left, shipments = left[is_over], shipments.of(is_over)
        if len(left):
            mass[left] = shipments.improved()
    tonnes = mass[:, :, :processes]
    return np.asarray(np.divide(tonnes, feed[:, :, None], out=np.zeros_like(tonnes), where=feed[:, :, None] > 0))


@dataclass(frozen=True)
class Shipments:
    """Tonnes of parcels at destinations, waste last; of years, in some a destination is above its capacity.

    Attributes
    ----------
    rates, mass : array, shape (years, parcels, destinations)
        Net value per tonne, -inf where a parcel may not go; and tonnes.
    limits : array, shape (years, destinations)
        Capacities.
    """

    rates: Floats
    mass: Floats
    limits: Floats

    def of(self, some: NDArray[np.bool_]) -> Shipments:
        return Shipments(self.rates[some], self.mass[some], self.limits[some])

    @property
    def loads(self) -> Floats:
        return np.asarray(self.mass.sum(axis=1))

    @property
    def excess(self) -> Floats:
        """Tonnes above each capacity."""
        over = self.loads - self.limits
        return np.where(
            over > STRICT_SUM_ERROR * np.where(np.isfinite(self.limits), self.limits, 0.0) + TONNES_ERROR, over, 0.0
        )

    @property
    def room(self) -> Floats:
        """Tonnes below each capacity."""
        free = self.limits - self.loads
        return np.where(
            free > STRICT_SUM_ERROR * np.where(np.isfinite(self.limits), self.limits, 0.0) + TONNES_ERROR, free, 0.0
        )

    def moves(self) -> tuple[Floats, Ints]:
        """Returns the least loss per tonne of moving ore from one destination to another, and the parcel that moves, both of shape (years,
        from, to)."""
        count = self.rates.shape[2]
        loss, parcel = np.full((len(self.rates), count, count), np.inf), np.zeros(
            (len(self.rates), count, count), dtype=np.int64
        )
        for first in range(count):
            here = np.where(self.mass[:, :, first] > 0, self.rates[:, :, first], np.inf)
            for last in range(count):
                if first != last:
                    with np.errstate(invalid="ignore"):
                        between = np.where(np.isinf(here), np.inf, here - self.rates[:, :, last])
                    parcel[:, first, last] = between.argmin(axis=1)
                    loss[:, first, last] = between.min(axis=1)
        return loss, parcel

    def improved(self) -> Floats:
        """Returns the masses after one push in each year: from a destination above its capacity to one below, by the path that loses least."""
        loss, parcel = self.moves()
        rows, excess, room = np.arange(len(loss)), self.excess, self.room
        start = (excess > 0).argmax(axis=1)
        scale = np.abs(np.where(np.isfinite(self.rates), self.rates, 0.0)).max(axis=(1, 2))
        distance, before = shortest(loss, start, STRICT_SUM_ERROR * scale[:, None])
        end = np.where(room > 0, distance, np.inf).argmin(axis=1)
        pushed = np.minimum(excess[rows, start], room[rows, end])
        steps = paths(before, start, end)
        for first, last in steps:
            on = first >= 0
            mass = self.mass[rows[on], parcel[rows[on], first[on], last[on]], first[on]]
            pushed[on] = np.minimum(pushed[on], mass)
        found = self.mass.copy()
        for first, last in steps:
            on = first >= 0
            at = rows[on], parcel[rows[on], first[on], last[on]]
            found[(*at, first[on])] -= pushed[on]
            found[(*at, last[on])] += pushed[on]
        return found


def shortest(loss: Floats, start: Ints, slight: Floats) -> tuple[Floats, Ints]:
    """Returns the least loss from the start to each destination and the one before it on the path, both of shape (years, destinations), by the
    method of Bellman and Ford. Paths that are shorter by less than `slight`, by year, are not: rounding makes such cycles.
    """
    years, count, _ = loss.shape
    rows = np.arange(years)
    distance, before = np.full((years, count), np.inf), np.full((years, count), -1)
    distance[rows, start] = 0.0
    for _ in range(count - 1):
        reached = distance[:, :, None] + loss
        nearest, via = reached.min(axis=1), reached.argmin(axis=1)
        closer = nearest < distance - slight
        closer[rows, start] = False
        distance, before = np.where(closer, nearest, distance), np.where(closer, via, before)
    return distance, before


def paths(before: Ints, start: Ints, end: Ints) -> list[tuple[Ints, Ints]]:
    """Returns the steps of the path of each year, from the last back to the first: the destination from which and to which it goes; -1 in years whose
    path is shorter."""
    rows, last, found = np.arange(len(start)), end.copy(), []
    for _ in range(before.shape[1] - 1):
        first = np.where(last != start, before[rows, last], -1)
        found.append((first, last))
        last = np.where(first >= 0, first, start)
    return found


ROCK, ORE, CASH = 0, 1, -1
BEST, WORST, SPECIFIED = "best", "worst", "specified"
# How much of a year, or of a shorter period, lies between a cash flow and its end, if it does not flow continuously.
BEFORE_THE_END = {"end_of_year": 0.0, "mid_year": 0.5}
# A discount rate per year, or rates of shape (rates, 1).
Rate = Union[float, np.ndarray]


@dataclass(frozen=True)
class Benches:
    """Amounts that each shell adds to the one before, by bench from the top.

    Attributes
    ----------
    factors : tuple of float
        Revenue factors, ascending.
    names : tuple of str
        Names of the amounts: total_tonnes, feed_tonnes, feed_tonnes_NAME of each of several processes, recovered_NAME of each metal, the costs
        that factors of periods multiply, that of mining among them, and the cash flow last.
    amounts : array of float, shape (factors, benches, names)
        Tonnes, tonnes or grams of metal, and money, if each block goes where it earns most.
    kinds : OreKinds, optional
        The kinds of ore, and the columns of `by_kind`; None if all ore goes to one process as it is mined.
    by_kind : array of float, shape (factors, benches, kinds.width), optional
        The amounts by kind of ore.
    """

    factors: tuple[float, ...]
    names: tuple[str, ...]
    amounts: np.ndarray
    kinds: Optional[OreKinds] = None
    by_kind: Optional[np.ndarray] = None

    @property
    def pits(self) -> np.ndarray:
        """Amounts of whole pits by bench, shape (factors, benches, names)."""
        return np.cumsum(self.amounts, axis=0)

    def waits(self, settings: ShellRules) -> list[Wait]:
        """Returns the capacities that a year may use up, for each set of processes that the mine may wait for."""
        if self.kinds is not None:
            return self.kinds.waits(settings)
        uses = np.zeros((len(self.names), 1))
        uses[ORE] = 1 / settings.processing_capacity
        shares = np.array(settings.capacities_by_year).sum(axis=1, keepdims=True) / settings.processing_capacity
        return [with_mining(uses, shares, settings)]

    @property
    def columns(self) -> np.ndarray:
        """What is mined by factor and bench: the amounts by kind if there are kinds."""
        return self.amounts if self.by_kind is None else self.by_kind


@dataclass(frozen=True)
class Years:
    """The years of a pit.

    Attributes
    ----------
    end : float
        The life: by `Course.years` in periods, by `Terms.earned` in years.
    amounts : array of float, shape (years, names)
        By `Course.years` the amounts of benches; by `Terms.earned` those of `Terms.columns`, discounted cash flow last.
    """

    end: float
    amounts: np.ndarray

    @property
    def npv(self) -> float:
        """The net present value, in the currency."""
        return float(self.amounts[:, -1].sum())


@dataclass(frozen=True)
class PieceSequence:
    """Pieces that are mined one after the other.

    Attributes
    ----------
    amounts : array of float, shape (pieces, names)
    used : array of float, shape (pieces + 1, capacities)
        Years of each capacity that are used before each piece, and after the last.
    shares : array of float, shape (years, capacities)
        What each year has of each capacity; the last year continues.
    """

    amounts: np.ndarray
    used: np.ndarray
    shares: np.ndarray

    @cached_property
    def sums(self) -> np.ndarray:
        """The amounts that are mined before each piece and after the last."""
        return np.concatenate([np.zeros((1, self.amounts.shape[1])), np.cumsum(self.amounts, axis=0)])

    @cached_property
    def ends(self) -> np.ndarray:
        """The place where each full year ends: the number of pieces mined by then, a fraction for a piece in work. Stops after MOST_YEARS."""
        found: list[float] = []
        place, last = 0.0, float(len(self.amounts))
        while place < last and len(found) <= MOST_YEARS:
            place = self.after_a_year(place, len(found))
            if place < last:
                found.append(place)
        return np.array(found)

    def of_year(self, year: int) -> np.ndarray:
        """What a year, from 0, has of each capacity."""
        return np.asarray(self.shares[min(year, len(self.shares) - 1)])

    def after_a_year(self, place: float, year: int) -> float:
        """The place at the end of a year, from 0, that starts at a place: where a piece first needs a capacity that is used up."""
        until, first = float(len(self.amounts)), min(int(place), len(self.used) - 2)
        begins = self.used[first] + (place - first) * (self.used[first + 1] - self.used[first])
        for used, target in zip(self.used.T, begins + self.of_year(year)):
            piece = int(used.searchsorted(target + SUM_ERROR, side="right")) - 1
            if piece < len(self.amounts):
                share = (target - used[piece]) / (used[piece + 1] - used[piece])
                until = min(until, piece + max(share, 0.0))
        return until

    def years(self, count: int) -> Years:
        """Returns the years of the first `count` pieces, at least one."""
        full = self.ends[: int(np.searchsorted(self.ends, count))]
        before = at(self.used, full[-1:])[0] if len(full) else np.zeros(self.used.shape[1])
        free = self.of_year(len(full))
        part = float(np.divide(self.used[count] - before, free, out=np.zeros_like(free), where=free > 0).max())
        if part <= SUM_ERROR and len(full):
            full, part = full[:-1], 1.0
        flowed = at(self.sums, np.concatenate([[0.0], full, [float(count)]]))
        return Years(len(full) + (1.0 if abs(part - 1) < SUM_ERROR else part), np.diff(flowed, axis=0))


def at(sums: np.ndarray, places: np.ndarray) -> np.ndarray:
    """Interpolates running sums, shape (pieces + 1, columns), at places between them; one row per place."""
    piece = np.minimum(places.astype(np.int64), len(sums) - 2)
    share = (places - piece)[:, None]
    return np.asarray(sums[piece] + share * (sums[piece + 1] - sums[piece]))


def mean_discount(start: np.ndarray, end: np.ndarray, rate: Rate) -> np.ndarray:
    """Returns the mean of (1 + rate)^-t for t from start to end, in years; if both are equal its value there."""
    force = np.log1p(rate)
    fall = force * (end - start)
    mean = np.divide(-np.expm1(-fall), fall, out=np.ones_like(fall), where=fall > 0)
    return np.exp(-force * start) * mean


def course_of(amounts: np.ndarray, wait: Wait) -> PieceSequence:
    """Returns the course of pieces from the start of year 1."""
    years = amounts @ wait.uses
    return PieceSequence(
        amounts, np.concatenate([np.zeros((1, years.shape[1])), np.cumsum(years, axis=0)]), wait.shares
    )


def year_discounts(settings: ShellRules, count: int, rate: Optional[Rate] = None) -> np.ndarray:
    """Discount factors of the periods 1 to `count`: for cash at the end of the year, at its middle, or evenly through it. `rate` is by default
    the discount rate of the settings."""
    return discounts_of(np.ones(count), settings, rate)


def discounts_of(parts: np.ndarray, settings: ShellRules, rate: Optional[Rate] = None) -> np.ndarray:
    """Returns the discount factors of the first periods, of whose time only the first parts are used, shape (periods,).

    Cash flows at the end or the middle of its year, or of its period if that is shorter. A period of several years spreads it evenly over those
    that are used. With rates of shape (rates, 1) instead of that of the settings the factors are of shape (rates, periods).
    """
    rate = settings.discount_rate if rate is None else rate
    starts, lengths = settings.calendar.starts(len(parts)), settings.calendar.lengths(len(parts))
    if settings.discounting not in BEFORE_THE_END:
        return mean_discount(starts, starts + parts * lengths, rate)
    used, unit = np.maximum(parts * lengths, STRICT_SUM_ERROR), np.minimum(lengths, 1.0)
    found = np.zeros(len(parts))
    for number in range(int(np.ceil(lengths.max(initial=0.0)))):
        flows = np.clip(used - number * unit, 0.0, unit)
        time = starts + (number + 1 - BEFORE_THE_END[settings.discounting]) * unit
        found = found + flows * (1 + rate) ** -time
    return np.asarray(found / used)


@dataclass(frozen=True)
class Terms:
    """How years of benches with these names are valued: discounting and period costs."""

    names: tuple[str, ...]
    settings: ShellRules
    money: YearlyMoney = PLAIN

    @property
    def columns(self) -> list[str]:
        """The names of a year's amounts."""
        return [*(self.names[k] for k in self.shown), *self.money.columns, self.names[CASH], "discounted_cash_flow"]

    @property
    def shown(self) -> list[int]:
        """The numbers of the amounts that tables have, except the cash flow."""
        return [k for k, name in enumerate(self.names[:CASH]) if is_shown(name)]

    def earned(self, years: Years) -> Years:
        """Returns the years of a course with their period costs and discounted cash flow. A pit without material has no period costs."""
        amounts = years.amounts
        cash = amounts[:, CASH] + (amounts * self.money.premium(self.names, len(amounts))).sum(axis=1)
        parts, calendar = np.clip(years.end - np.arange(len(amounts)), 0.0, 1.0), self.settings.calendar
        fixed = self.money.fixed(len(amounts)) * parts
        spent = self.money.spent(len(amounts)) * (amounts[:, ROCK].sum() > 0)
        starts = (1 + self.settings.discount_rate) ** -calendar.starts(len(amounts))
        worth = (cash - fixed) * discounts_of(parts, self.settings) - spent * starts
        of_years = [fixed, spent] if self.money.columns else []
        found = np.column_stack([amounts[:, self.shown], *of_years, cash - fixed - spent, worth])
        return Years(calendar.time(years.end), found)

    def processed(self, kinds: OreKinds, pits: list[Years]) -> list[Years]:
        """Returns the years of pits in the columns of `names`, with each year's ore at its best destinations."""
        rows = np.concatenate([it.amounts for it in pits])
        year = np.concatenate([np.arange(len(it.amounts)) for it in pits])
        part = np.concatenate([np.clip(it.end - np.arange(len(it.amounts)), 0.0, 1.0) for it in pits])
        feed, by_process = kinds.feed(rows), kinds.by_process(rows)
        premium = self.money.premium(kinds.names, int(year.max(initial=0)) + 1)[year]
        gain = by_process[:, 0] + np.einsum("rm,rmkp->rkp", premium, by_process[:, 1:])
        by_year = np.array(self.settings.capacities_by_year)
        used = part * self.settings.calendar.lengths(int(year.max(initial=0)) + 1)[year]
        capacity = used[:, None] * by_year[np.minimum(year, len(by_year) - 1)]
        share = best_shares(feed, gain, kinds.pays, capacity)
        fed = np.einsum("rk,rkp->rp", feed, share)
        flows = np.einsum("rmkp,rkp->rm", by_process, share)
        columns = [rows[:, 0], fed.sum(axis=1), *(fed.T if self.settings.per_process else ()), *flows[:, 1:].T]
        mining = [-rows[:, 1]] if MINING_COST in self.names else []
        found = np.column_stack([*columns, *mining, rows[:, 1] + rows[:, 2] + flows[:, 0]])
        ends = np.cumsum([len(it.amounts) for it in pits])[:-1]
        return [Years(it.end, amounts) for it, amounts in zip(pits, np.split(found, ends))]


def cases_of(settings: ShellRules) -> tuple[str, ...]:
    return (BEST, WORST) if settings.specified is None else (BEST, WORST, SPECIFIED)


def sequences(case: str, benches: Benches, settings: ShellRules) -> Iterator[np.ndarray]:
    """Yields the pieces of each shell, one after the other, for the worst and the specified case: shape (pieces, columns)."""
    if case == WORST:
        yield from np.cumsum(benches.columns, axis=0)
    elif settings.specified is None:
        raise PlanError(f"[shells] specified: is missing, and the case {case} needs it")
    else:
        yield from specified_pieces(benches, settings.specified)


def specified_pieces(benches: Benches, rules: SpecifiedCase) -> Iterator[np.ndarray]:
    """Yields the pieces of each shell: benches of its pushbacks, each `bench_lag` benches behind the one before."""
    pushback = np.searchsorted(np.array(rules.pushbacks), np.array(benches.factors) - SUM_ERROR)
    levels, width = benches.columns.shape[1:]
    by_pushback = np.zeros((int(pushback.max(initial=0)) + 1, levels, width))
    number, level = np.indices(by_pushback.shape[:2]).reshape(2, -1)
    order = np.lexsort((number, level + rules.bench_lag * number))
    for place, added in zip(pushback, benches.columns):
        by_pushback[place] += added
        yield by_pushback.reshape(-1, width)[order]


def years_of(case: str, benches: Benches, wait: Wait, settings: ShellRules) -> list[Years]:
    """Returns the years of each shell in the columns of benches. In the best case each larger shell begins like the smaller ones."""
    factors, levels, width = benches.columns.shape
    if case == BEST:
        course = course_of(benches.columns.reshape(factors * levels, width), wait)
        return [course.years(levels * (k + 1)) for k in range(factors)]
    return [course_of(pieces, wait).years(len(pieces)) for pieces in sequences(case, benches, settings)]


def of_case(case: str, benches: Benches, settings: ShellRules, money: YearlyMoney = PLAIN) -> list[Years]:
    """Returns the years of each shell in a case, with the waits that have the highest NPV."""
    terms, kinds = Terms(benches.names, settings, money), benches.kinds
    found = []
    for wait in bearable(benches, settings):
        pits = years_of(case, benches, wait, settings)
        found.append([terms.earned(it) for it in (pits if kinds is None else terms.processed(kinds, pits))])
    return [shortest_best(of_shell) for of_shell in zip(*found)]


def shortest_best(found: Sequence[Years]) -> Years:
    """Returns the years with the highest NPV; of equal ones those with the shortest life."""
    most = max(years.npv for years in found)
    return min(
        (it for it in found if it.npv >= most - SUM_ERROR * abs(most) - EQUAL_MONEY), key=lambda years: years.end
    )


def bearable(benches: Benches, settings: ShellRules) -> list[Wait]:
    """Returns the waits with which the largest shell takes at most MOST_YEARS years, or the one with the fewest years."""
    waits = benches.waits(settings)
    lives = [shell_life(benches, wait) for wait in waits]
    found = [wait for wait, life in zip(waits, lives) if life <= MOST_YEARS]
    return found or [waits[int(np.argmin(lives))]]


def shell_life(benches: Benches, wait: Wait) -> float:
    """Returns the years that the best case of the largest shell takes at least."""
    factors, levels, width = benches.columns.shape
    course = course_of(benches.columns.reshape(factors * levels, width), wait)
    years = float(len(course.ends))
    return years if years <= MOST_YEARS else max(float(course.used[-1].max()), years)


def table_of(benches: Benches, settings: ShellRules, money: YearlyMoney = PLAIN) -> pd.DataFrame:
    """Returns the table of years, one row per case, revenue factor whose shell has material, and year from 1. Its columns are those of
    `Terms.columns`."""
    some = np.flatnonzero(benches.pits[:, :, ROCK].sum(axis=1) > 0)
    cases = {case: of_case(case, benches, settings, money) for case in cases_of(settings)}
    keys = [(case, benches.factors[k]) for case in cases for k in some]
    years = [cases[case][k].amounts for case in cases for k in some]
    counts = np.array([len(amounts) for amounts in years], dtype=np.int64)
    columns = Terms(benches.names, settings, money).columns
    flows = np.vstack([np.zeros((0, len(columns))), *years])
    head = {
        "case": np.repeat(np.array([case for case, _ in keys], dtype=object), counts),
        "revenue_factor": np.repeat(np.array([factor for _, factor in keys], dtype=np.float64), counts),
        "year": np.concatenate([np.arange(0), *(np.arange(1, count + 1) for count in counts)]),
    }
    return pd.DataFrame(head | dict(zip(columns, flows.T)))


def demand_few_years(benches: Benches, project: Project) -> None:
    """Raises PlanError if the best case of the largest shell takes more than MOST_YEARS."""
    years = shell_life(benches, bearable(benches, project.shells)[0])
    if years > MOST_YEARS:
        raise PlanError(
            f"{project.path}: [shells] processing_capacity, mining_capacity: the largest shell would take at least {years:,.0f} years, "
            f"expected at most {MOST_YEARS:,}: check that the capacities are in tonnes per year"
        )

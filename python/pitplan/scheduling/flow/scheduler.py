"""Feasible schedules of material flow: by rule, and from orders of benches at their best pace."""

from __future__ import annotations

from collections.abc import Callable, Iterator
from dataclasses import dataclass, replace
from functools import cached_property
from itertools import combinations, product
from typing import Optional

import numpy as np
from numpy.typing import NDArray
from scipy.sparse import csr_matrix, hstack, vstack

from pitplan.config.material import Dump
from pitplan.config.schedule import Effort
from pitplan.core.tolerances import MISSED_LIMIT, SOLVER_SHARE, SOLVER_SUM, SUM_ERROR
from pitplan.errors import PlanError
from pitplan.pushbacks.bench_table import ORE, PushbackBenches
from pitplan.scheduling.bench_sequencing import BenchSequence, Problem, by_lead, leads, mine_in_order
from pitplan.scheduling.highs import Programme
from pitplan.scheduling.highs_process import at_a_time, solve
from pitplan.scheduling.limits import Prices

from .bound import Lagrangian
from .flows import Flows, best, richest_first
from .material import FAR
from .model import FlowModel, paying, started_rows
from .pacing import Course, Pacing
from .programme import FlowOptimum, FlowProgramme

# Orders in which the benches of pushbacks may be mined: by leads of each pushback over the next, and as the linear
# programme mines them.
#
# The latter are benches by their expected year in the optimum, as of Chicoisne, Espinoza, Goycoolea, Moreno and Rubio
# (A new algorithm for the open-pit mine production scheduling problem, Operations Research 60(3), 2012).

# Changes of one pushback's lead that are tried, the largest first; and how often in all.
STEPS, MOST_TRIALS = (4, 2, 1), 80
# Leads of all pushbacks that are tried over a grid, at most, if an order takes no long time to weigh.
MOST_LEADS = 200
# Shares of a bench that date it: it counts as mined in the year that completes the share. The expected year is another date.
PARTS = (0.1, 0.5, 0.9)
# A bench that the optimum mines less than this share is left.
LEFT = 0.5


@dataclass(frozen=True)
class Ordered:
    """An order of benches with its best course, over a coarse grid while orders are compared, and the leads that it is made of."""

    order: NDArray[np.int64]
    course: Course
    leads: tuple[int, ...] = ()


@dataclass(frozen=True)
class OptimumPace:
    """Orders of a large programme, mined at the pace of the optimum of the linear programme. They are worth what they earn at its prices of limits, which
    none exceeds."""

    model: FlowModel
    optimum: FlowOptimum

    @cached_property
    def relaxation(self) -> Lagrangian:
        return Lagrangian(FlowProgramme(self.model), self.optimum.prices)

    @cached_property
    def tonnes(self) -> NDArray[np.float64]:
        """Total material by the end of each year, shape (years,)."""
        return np.asarray(self.model.rock @ self.optimum.cumulative)

    def mined(self, order: NDArray[np.int64]) -> NDArray[np.float64]:
        return mined_at(self.model, order, self.tonnes)

    def coarse(self, order: NDArray[np.int64]) -> Course:
        return Course(float((self.relaxation.earned * self.mined(order)).sum()), self.tonnes)

    @property
    def different(self) -> list[NDArray[np.float64]]:
        """Shares of benches by year of different orders, the best first: those of `orders_at`, and of leads over a grid."""
        benches = self.model.benches
        gaps = int(benches.pushback.max(initial=1)) - 1
        count = int(MOST_LEADS ** (1 / max(gaps, 1)))
        some = np.unique(np.linspace(leads(benches)[0], leads(benches)[-1], count).round().astype(np.int64)).tolist()
        found = orders_at(self, self.optimum) + [ordered(self, it) for it in product(some, repeat=gaps)]
        found.sort(key=lambda it: it.course.value, reverse=True)
        shares = (self.mined(it.order) for it in found)
        return list({np.round(it, 6).tobytes(): it for it in shares}.values())


def mined_at(model: FlowModel, order: NDArray[np.int64], pace: NDArray[np.float64]) -> NDArray[np.float64]:
    """Returns the shares of benches by year of an order at a pace, within the limits of mining."""
    mining = Problem(model.benches, model.of_mining, model.problem.settings, model.problem.money)
    return padded(mine_in_order(mining, BenchSequence(order, pace=pace), model.years), model.years)


def order_by(benches: PushbackBenches, leads_of: tuple[int, ...]) -> NDArray[np.int64]:
    """Returns all benches, each pushback behind the one before by its own lead, in benches."""
    behind = np.append(0, np.cumsum(leads_of)).astype(np.int64)
    return np.lexsort((benches.pushback, benches.level + behind[benches.pushback - 1]))


def by_one_lead(pacing: Pacing | OptimumPace) -> list[Ordered]:
    """Returns the order of each lead that all pushbacks share, the best first."""
    benches = pacing.model.benches
    gaps = int(benches.pushback.max(initial=1)) - 1
    found = [ordered(pacing, (lead,) * gaps) for lead in (leads(benches) if gaps else (0,))]
    return sorted(found, key=lambda it: it.course.value, reverse=True)


def ordered(pacing: Pacing | OptimumPace, leads_of: tuple[int, ...]) -> Ordered:
    order = order_by(pacing.model.benches, leads_of)
    return Ordered(order, pacing.coarse(order), leads_of)


def improved_order(pacing: Pacing | OptimumPace, start: Ordered) -> Ordered:
    """Returns the best order found by changing one lead at a time."""
    best, tried = start, {start.leads}
    for step in STEPS:
        better = True
        while better and len(tried) < MOST_TRIALS:
            better = False
            for leads_of in neighbours(best.leads, step, pacing.model.benches.lag):
                if leads_of not in tried and len(tried) < MOST_TRIALS:
                    tried.add(leads_of)
                    found = ordered(pacing, leads_of)
                    if found.course.value > best.course.value:
                        best, better = found, True
    return best


def neighbours(leads_of: tuple[int, ...], step: int, least: int) -> Iterator[tuple[int, ...]]:
    """Yields the leads with one of them changed by a step."""
    for place, lead in enumerate(leads_of):
        for other in (lead - step, lead + step):
            if other >= least:
                yield (*leads_of[:place], other, *leads_of[place + 1 :])


def of_optimum(cumulative: NDArray[np.float64], benches: PushbackBenches) -> Iterator[NDArray[np.int64]]:
    """Yields orders by the expected year of each bench, and by that in which a part of it is mined, with and without what is mostly left.

    `cumulative` is the share of each bench that the optimum mines by the end of each year, shape (benches, years).
    """
    expected = cumulative.shape[1] + 1 - cumulative.sum(axis=1)
    for key in (expected, *((cumulative < part - SOLVER_SUM).sum(axis=1) for part in PARTS)):
        order = in_order(benches, key, expected)
        for least in (LEFT, SOLVER_SUM):
            yield order[cumulative[order, -1] >= least]


def in_order(benches: PushbackBenches, key: NDArray[np.float64], second: NDArray[np.float64]) -> NDArray[np.int64]:
    """Returns the benches by rising keys, each after those that it waits for, whose keys may be greater by the solver's tolerance."""
    first, second = key.astype(float), second.astype(float)
    for bench, others in enumerate(benches.waits):
        for keys in (first, second):
            keys[bench] = max(keys[bench], *keys[others]) if len(others) else keys[bench]
    return np.lexsort((np.arange(len(benches)), second, first))


def keeps(model: FlowModel, mined: NDArray[np.float64]) -> bool:
    """Returns whether each bench is started when all that it waits for is mined, and no year exceeds a limit of mining, within a tolerance."""
    benches, limits, years = model.benches, model.of_mining, mined.shape[1]
    done = mined.cumsum(axis=1)
    for bench, others in enumerate(benches.waits):
        if (done[others][:, mined[bench] > 0] < 1 - SUM_ERROR).any():
            return False
    sunk = np.stack([mined[benches.pushback == pushback].sum(axis=0) for pushback in np.unique(benches.pushback)])
    is_within = (limits.amounts(benches).T @ mined).T <= limits.of_years(years) * (1 + MISSED_LIMIT)
    return bool(is_within.all() and (sunk <= limits.sinking(years) + MISSED_LIMIT).all())


def whole_shares(cumulative: NDArray[np.float64], slight: float) -> NDArray[np.float64]:
    """Returns the shares of benches by year from those by the end of each year. Up to `slight` from 0 and from 1 is the solver's tolerance, and so is a
    share of a year that no limit would miss: it is mined with the next one."""
    rounded = np.where(cumulative > 1 - slight, 1.0, np.where(cumulative < slight, 0.0, cumulative))
    done = np.maximum.accumulate(rounded, axis=1)
    for year in range(1, done.shape[1]):
        before = done[:, year - 1]
        done[:, year] = np.where(done[:, year] - before > MISSED_LIMIT, done[:, year], before)
    return np.diff(done, axis=1, prepend=0.0)


# Better depths of a schedule of whole benches, by linear programmes around it.
#
# By the end of a year at most one bench of a pushback is in work. While these benches stay the same, the shares of
# them that are mined and all flows are a linear programme, whose optimum is worth no less than the schedule. A share
# that reaches 0 or 1 in it leaves the bench to the one above or below, with which the next programme goes on.

# This many programmes are solved at most. They end when two in turn gain less than this share.
PROGRAMMES, GAINED = 24, 1e-4
# After the first of these large programmes, the others have the flows that earn at its prices nearly as much as the best ones of a parcel: less by this
# share of what a tonne of ore earns.
NEARLY = 0.05


def improved_depths(model: FlowModel, mined: NDArray[np.float64], value: float) -> Optional[NDArray[np.float64]]:
    """Returns shares of benches by year that are worth more than those of a schedule, near it; None if none are found.

    Parameters
    ----------
    model : FlowModel
    mined : array, shape (benches, years)
        Shares of whole benches, each begun when those that it waits for are through.
    value : float
        The net present value of the schedule.
    """
    found, idle, kept = None, 0, None
    for number in range(PROGRAMMES):
        least, most = around(model.benches, mined.cumsum(axis=1), deeper=number % 2 == 0)
        programme = FlowProgramme(model, between=(least, most), kept=kept)
        try:
            optimum = programme.solved()
        except PlanError:
            break
        if programme.is_large:
            kept = Lagrangian(programme, optimum.prices).near_best(NEARLY) | programme.holding(optimum)
        shares = whole_shares(np.clip(optimum.cumulative, least, most), SOLVER_SHARE)
        gained = optimum.value - value
        idle = 0 if gained > GAINED * abs(value) else idle + 1
        if gained > SOLVER_SHARE * abs(value) and keeps(model, shares):
            found = mined = shares
            value = optimum.value
        if idle == 2:
            break
    return found


def around(
    benches: PushbackBenches, done: NDArray[np.float64], deeper: bool
) -> tuple[NDArray[np.float64], NDArray[np.float64]]:
    """Returns the least and the greatest share of each bench that is mined by the end of each year while the same benches are in work.

    Parameters
    ----------
    benches : PushbackBenches
    done : array, shape (benches, years)
        The share of each bench that is mined by the end of each year.
    deeper : bool
        Whether a pushback without a bench in progress may begin its next one, or leave its last one unfinished.
    """
    through, begun = done >= 1 - SUM_ERROR, done > SUM_ERROR
    least, most = through.astype(float), begun.astype(float)
    count = len(benches)
    waits = np.zeros((count, count), dtype=bool)
    for bench, others in enumerate(benches.waits):
        waits[bench, others] = True
    in_work = begun & ~through
    for pushback in np.unique(benches.pushback):
        mine = np.flatnonzero(benches.pushback == pushback)
        for year in np.flatnonzero(~in_work[mine].any(axis=0)):
            last = int(through[mine, year].sum())
            if deeper and last < len(mine) and through[benches.waits[mine[last]], year].all():
                most[mine[last], year] = 1.0
            elif not deeper and last and not begun[waits[:, mine[last - 1]], year].any():
                least[mine[last - 1], year] = 0.0
    return least, most


# Of more processes than these the mine is paced by each one alone or by all.
MOST_PACING = 3
# The flows are optimised for this number of the best orders; of large programmes for fewer, and with minimums, which any order may miss, for more.
TRIED, TRIED_OF_LARGE, TRIED_WITH_MINIMUMS = 4, 3, 40
# Orders are compared with about MOST_KINDS kinds of ore at most, and COMPARED times as many of the best as are tried again with all bins, or of a large
# programme with FINE_KINDS.
MOST_KINDS, FINE_KINDS, COMPARED = 48, 96, 2
# How often an order is mined more slowly because its waste finds no room.
SLOWER = 15
# The shares of benches by year at a pace.
MineAt = Callable[[NDArray[np.float64]], NDArray[np.float64]]


class NoSchedule(PlanError):
    """No feasible schedule was found, although there may be one."""


@dataclass(frozen=True)
class Pace:
    """Benches by which a rule paces the mine.

    Attributes
    ----------
    problem : Problem
        Benches whose ore is all processed by its best process as it is mined, and the limits.
    """

    problem: Problem

    def paced_by(self, names: tuple[str, ...]) -> Problem:
        """Returns the problem in which a year ends when a limit of mining, or one of these of feed and metal, is used up."""
        limits = self.problem.limits
        most = {name: it for name, it in limits.most.items() if name in names or not is_of_ore(name)}
        return replace(self.problem, limits=replace(limits, most=most))

    @property
    def sets(self) -> list[tuple[str, ...]]:
        """The sets of limits that may pace the mine: of several processes any of them; and those of mining alone, if there are any."""
        most = self.problem.limits.most
        split = [name for name in most if name.startswith(f"{ORE}_")]
        of_ore = split or [name for name in most if name == ORE]
        others = tuple(name for name in most if is_of_ore(name) and not name.startswith(ORE))
        counts = range(1, len(of_ore) + 1) if len(of_ore) <= MOST_PACING else (1, len(of_ore))
        found = [(*some, *others) for count in counts for some in combinations(of_ore, count)]
        is_limited = any(not is_of_ore(name) for name in most) or self.problem.limits.advance is not None
        return [*found[::-1], *([()] if is_limited else [])]

    def schedules(self, years: Optional[int] = None) -> Iterator[tuple[int, Problem, NDArray[np.float64]]]:
        """Yields each lead of pushbacks, for each set of limits, with the problem of that set and the shares of benches by year."""
        for names in self.sets:
            problem = self.paced_by(names)
            for lead in leads(problem.benches):
                yield lead, problem, mine_in_order(problem, by_lead(problem.benches, lead), years)


def pace_of(problem: Problem, assigned: PushbackBenches) -> Pace:
    """Returns the benches whose ore is all processed by its best process as it is mined, with the limits on what they then add."""
    names, limits = problem.benches.names, problem.limits
    columns = [assigned.of(name) if name in assigned.names else problem.benches.of(name) for name in names]
    benches = replace(assigned, names=names, amounts=np.column_stack(columns))
    most = {name: it for name, it in limits.most.items() if name in names}
    return Pace(replace(problem, benches=benches, limits=replace(limits, most=most, least={})))


def is_of_ore(name: str) -> bool:
    return name.startswith((ORE, "recovered_"))


def padded(shares: NDArray[np.float64], years: int) -> NDArray[np.float64]:
    return np.pad(shares, ((0, 0), (0, max(0, years - shares.shape[1]))))


def pacing_of(model: FlowModel, prices: Optional[Prices] = None) -> Pacing:
    """Returns the pacing of a model with all bins, or of a large programme with as many kinds of ore as their moves take no long time to weigh."""
    return Pacing(model, prices or {}, FINE_KINDS if FlowProgramme(model).is_large else None)


def by_rule(model: FlowModel, pace: Pace, years: Optional[int]) -> tuple[Flows, int]:
    """Returns the schedule by rule with the highest NPV, and its lead.

    Each pushback follows the one before by the same lead, and a year ends when a limit is used up. Its ore goes where it gains most, the
    richest first. `years` limits the years; None: all is mined, for which the model gets as many years as that takes.
    """
    found = list(pace.schedules(years))
    longest = max(shares.shape[1] for *_, shares in found)
    model = replace(model, years=longest, stockpiles=(), lots=None)
    pacing = pacing_of(model)
    lead, problem, shares = max(found, key=lambda it: pacing.value(padded(it[-1], longest)))

    def mine_at(pace: NDArray[np.float64]) -> NDArray[np.float64]:
        return padded(mine_in_order(problem, replace(by_lead(problem.benches, lead), pace=pace), longest), longest)

    flows = dumped_by_rule(model, padded(shares, longest), mine_at)
    return flows.cut(flows.last), lead


def by_rule_with(rule: Flows, model: FlowModel) -> Flows:
    """Returns the flows of the same mining for the parcels of a model without dumps."""
    found = richest_first(replace(rule.model, ore=model.ore), padded(rule.mined, rule.model.years))
    return found.cut(found.last)


def dumped_by_rule(model: FlowModel, mined: NDArray[np.float64], mine_at: MineAt) -> Flows:
    """Returns the flows of what is mined with the richest ore first and waste on the cheapest dumps with room. Where none exists, less is mined;
    after SLOWER trials waste may still find none."""
    flows = richest_first(model, mined)
    for _ in range(SLOWER if model.waste.sets else 0):
        dumped, lacking = model.waste.placed(flows.wasted.sum(axis=0))
        flows = replace(flows, dumped=dumped)
        if lacks_nothing(flows, lacking):
            break
        flows = richest_first(model, mine_at(slower(flows, lacking)))
    return flows


def slower(flows: Flows, lacking: NDArray[np.float64]) -> NDArray[np.float64]:
    """Returns the rock that is mined by the end of each year if it is less by that with as much waste as found no room."""
    mined, wasted = flows.model.rock @ flows.mined, flows.wasted.sum(axis=(0, 1))
    rock = lacking * np.divide(mined, wasted, out=np.ones_like(mined), where=wasted > 0)
    return np.maximum.accumulate(np.maximum(mined.cumsum() - rock.cumsum(), 0.0))


def lacks_nothing(flows: Flows, lacking: NDArray[np.float64]) -> bool:
    """Returns whether waste that finds no room is no more than the solver's tolerance."""
    return float(lacking.sum()) <= SOLVER_SHARE * float(flows.wasted.sum())


def keeps_dumps(flows: Flows) -> bool:
    """Returns whether no dump takes or holds more than it may, within a tolerance."""
    waste = flows.model.waste
    held = flows.placed.cumsum(axis=1) <= waste.held[:, : flows.years] * (1 + SOLVER_SUM)
    return bool(held.all() and (flows.placed <= waste.most[:, : flows.years] * (1 + SOLVER_SUM)).all())


def from_optimum(model: FlowModel, optimum: FlowOptimum, rule: Optional[Flows] = None) -> Flows:
    """Returns the best schedule of those made of orders of benches at their best pace, and of the benches of the rule, without what does not
    pay in it.

    Raises
    ------
    NoSchedule
        If none of them meets the minimums.
    """
    given = None if rule is None else feasible(model, padded(rule.mined, model.years))
    made = [] if given is None else [given]
    made += made_of_orders(model, optimum)
    if not made:
        kept = "keeps the limits of the dumps" if model.waste.is_limited else "meets the minimums"
        raise NoSchedule(f"no schedule that was tried {kept}: widen them, or set [schedule] milp")
    return ended(without_loss(max(made, key=lambda it: it.value)))


def made_of_orders(model: FlowModel, optimum: FlowOptimum) -> list[Flows]:
    """Returns the schedules of the best orders. Their programmes run at the same time, unless any order may miss minimums."""
    if FlowProgramme(model).is_large and not model.asks_least and not model.waste.is_limited:
        different = OptimumPace(model, optimum).different
        return at_a_time(lambda shares: best(model, shares), different[:TRIED_OF_LARGE])
    tries = TRIED_OF_LARGE if FlowProgramme(model).is_large else TRIED
    found = orders_of(model, optimum, COMPARED * tries)
    if not model.asks_least:
        cases = (case for it in found[:tries] for case in cases_of_order(model, it.order, optimum))
        return [it for it in at_a_time(lambda case: fitting(model, *case), cases) if it is not None]
    made: list[Flows] = []
    for it in found[:TRIED_WITH_MINIMUMS]:
        flows = (fitting(model, mined, mine_at) for mined, mine_at in cases_of_order(model, it.order, optimum))
        made += [it for it in flows if it is not None]
        if len(made) >= TRIED:
            break
    return made


def deepened(flows: Flows) -> Flows:
    """Returns the schedule with better depths of pushbacks by year, if they are found."""
    model = flows.model
    mined = improved_depths(model, padded(flows.mined, model.years), flows.value)
    found = None if mined is None else feasible(model, mined)
    return flows if found is None else max(ended(without_loss(found)), flows, key=lambda it: it.value)


def orders_of(model: FlowModel, optimum: FlowOptimum, compared: int) -> list[Ordered]:
    """Returns orders of benches, the best first: by leads, and as the optimum of the linear programme is expected to mine them. This many of the best
    are compared again with all bins."""
    pacing = Pacing(model, optimum.prices, MOST_KINDS)
    found, exact = orders_at(pacing, optimum), pacing_of(model, optimum.prices)
    if pacing.kinds == exact.kinds:
        return found
    again = [replace(it, course=exact.coarse(it.order)) for it in found[:compared]]
    return sorted(again, key=lambda it: it.course.value, reverse=True) + found[compared:]


def orders_at(pacing: Pacing | OptimumPace, optimum: FlowOptimum) -> list[Ordered]:
    """Returns orders of benches, the best first."""
    found = by_one_lead(pacing)
    found.append(improved_order(pacing, found[0]))
    seen = {tuple(it.order) for it in found}
    for order in of_optimum(optimum.cumulative, pacing.model.benches):
        if tuple(order) not in seen:
            seen.add(tuple(order))
            found.append(Ordered(order, pacing.coarse(order)))
    return sorted(found, key=lambda it: it.course.value, reverse=True)


def cases_of_order(
    model: FlowModel, order: NDArray[np.int64], optimum: FlowOptimum
) -> Iterator[tuple[NDArray[np.float64], MineAt]]:
    """Yields the shares of benches by year of an order at its best pace, at the prices of the optimum; with minimums, stockpiles, dumps or blends, which
    this pace does not know, also at the pace of the optimum. With them it yields how the order is mined at another pace.
    """

    def mine_at(pace: NDArray[np.float64]) -> NDArray[np.float64]:
        return mined_at(model, order, pace)

    paces = [pacing_of(model, optimum.prices).best(order).tonnes]
    paces += [model.rock @ optimum.cumulative] if model.asks_ore or model.stockpiles or model.waste.is_limited else []
    for pace in paces:
        yield mine_at(pace), mine_at


def fitting(model: FlowModel, mined: NDArray[np.float64], mine_at: MineAt) -> Optional[Flows]:
    """Returns the best flows of what is mined, or of less where its waste finds no room; None if they cannot meet the minimums, or after SLOWER
    trials waste still finds none."""
    if not model.waste.is_limited:
        return feasible(model, mined)
    wider = with_overflow(model)
    for _ in range(SLOWER):
        flows = feasible(wider, mined)
        if flows is None:
            return None
        lacking = flows.placed[-1]
        if lacks_nothing(flows, lacking):
            return replace(flows, model=model, dumped=model.waste.shares(flows.dumped[:, :-1]))
        mined = mine_at(slower(flows, lacking))
    return None


def with_overflow(model: FlowModel) -> FlowModel:
    """Returns the model with one more dump, which takes all that finds no room elsewhere at a cost that no dump has."""
    assert model.accepted is not None
    cost = FAR * (1 + float(model.waste.costs.max(initial=0.0)))
    return replace(
        model,
        dumps=(*model.dumps, Dump("", cost)),
        accepted=np.pad(model.accepted, ((0, 0), (0, 1)), constant_values=True),
    )


def feasible(model: FlowModel, mined: NDArray[np.float64], fed_until: Optional[int] = None) -> Optional[Flows]:
    """Returns the best flows of what is mined, as `best` does; None if they cannot meet the minimums or find room in the dumps, or what is mined
    does not meet the minimums."""
    of_mining = [it for it in model.problem.limits.least.values() if not model.is_of_ore(it.name)]
    least = {it.name: it.of_years(model.years) * (1 - MISSED_LIMIT) for it in of_mining}
    if any((model.mined(name) @ mined < amounts).any() for name, amounts in least.items()):
        return None
    try:
        return best(model, mined, fed_until)
    except PlanError:
        if model.asks_least or model.waste.is_limited:
            return None
        raise


def without_loss(flows: Flows) -> Flows:
    """Returns the schedule without benches that do not pay with all that waits for them."""
    pays = paying(flows.earned, flows.model.benches)
    if pays.all() or flows.model.asks_least:
        return flows
    less = best(flows.model, flows.mined * pays[:, None])
    return max(less, flows, key=lambda it: it.value)


def ended(flows: Flows) -> Flows:
    """Returns the schedule up to the year with whose end it is worth most: the last, unless years cost more than they earn."""
    model = flows.model
    if model.problem.costs_of_years(model.years).any():
        ends = [] if model.asks_least else [flows.until(flows.best_end)]
        flows = max([flows, *ends, *fed_sooner(flows)], key=lambda it: it.value)
    return flows.cut(flows.last)


def fed_sooner(flows: Flows) -> list[Flows]:
    """Returns the best flows of the same mining that end in each year from the last on in which something is mined: ore that would be
    reclaimed later leaves the stockpiles by then, or does not go there. Of a large programme only the best end of these flows is tried.
    """
    model, mined = flows.model, padded(flows.mined, flows.model.years)
    last = int(np.flatnonzero(mined.any(axis=0)).max(initial=-1)) + 1
    years = list(range(max(last, 1), flows.last)) if model.stockpiles else []
    if FlowProgramme(model).is_large:
        years = [year for year in years if year == flows.best_end]
    return [it for it in (feasible(model, mined, year) for year in years) if it is not None]


# The material flow as an integer programme: the best schedule of parcels, if it is small enough to be found.
#
# To the unknowns of the linear programme come whole ones: whether a bench may be started by the end of a year. It may
# only when all that it waits for is mined by then, and only then may any of it be mined. If years cost anything, whether
# the mine runs in a year is whole too.

# HiGHS may run past its time limit. Its process is ended after TIMES the limit plus LATE seconds, without a result.
TIMES, LATE = 2.0, 30.0


def integer_programme(flow: FlowProgramme) -> Programme:
    """Returns the linear programme with the whole unknowns behind its own; a year in which the mine runs costs its whole."""
    given, size = flow.programme, flow.sizes[0]
    is_running = np.arange(len(given.gain)) >= sum(flow.sizes)
    started = started_rows(flow.model.benches, flow.years)
    between = csr_matrix((started.shape[0], len(given.gain) - size))
    matrix = vstack(
        [
            hstack([given.matrix, csr_matrix((given.matrix.shape[0], size))]),
            hstack([started[:, :size], between, started[:, size:]]),
        ],
        format="csr",
    )
    return Programme(
        gain=np.concatenate([given.gain, np.zeros(size)]),
        matrix=matrix,
        most=np.concatenate([given.most, np.zeros(started.shape[0])]),
        upper=np.concatenate([given.upper, (given.upper[:size] > SOLVER_SUM).astype(float)]),
        whole=np.concatenate([is_running, np.ones(size, dtype=bool)]),
    )


def best_schedule(model: FlowModel, effort: Effort) -> tuple[Optional[Flows], float]:
    """Returns the best schedule found, None if there was none in time, and the bound shown by then, infinite if HiGHS had to be ended.

    Raises KeyboardInterrupt if the run is interrupted.
    """
    flow = FlowProgramme(model)
    found = solve(integer_programme(flow), effort, None if effort.seconds is None else TIMES * effort.seconds + LATE)
    most = found.bound * flow.unit - flow.costs[0]
    if found.unknowns is None:
        return None, most
    if most < 0 and not model.asks_least:
        most = 0.0
    mined = whole_shares(found.unknowns[: flow.sizes[0]].reshape(-1, model.years), SOLVER_SUM)
    flows = feasible(model, mined) if keeps(model, mined) else None
    if flows is None:
        return None, most
    return ended(without_loss(flows)), most

"""The blocks of a plan as a problem: what they earn by year, their predecessors, and the limits of `[schedule]`."""

from __future__ import annotations

from collections.abc import Callable, Sequence
from dataclasses import dataclass, field, replace
from functools import cached_property
from itertools import product
from typing import Any, NamedTuple, Optional

import numpy as np
import pandas as pd
from numpy.typing import NDArray

import pitshell
from pitplan.config.material import MILL, WASTE, Stockpile
from pitplan.config.project import Project
from pitplan.config.schedule import FEED, MOST_YEARS, TOTAL, ScheduleRules, Sum
from pitplan.core.tolerances import SUM_ERROR
from pitplan.economics.period_costs import MINING_COST, of_project
from pitplan.errors import WARNING, PlanError
from pitplan.pits import ore_kinds
from pitplan.pits.best_worst_case import year_discounts
from pitplan.plan import MILLION, Plan
from pitplan.pushbacks.bench_table import CASH, ORE, ROCK
from pitplan.scheduling.bench_sequencing import costs_of_years
from pitplan.scheduling.block_precedences import BlockPrecedences
from pitplan.scheduling.flow.material import content_of, ore_of
from pitplan.scheduling.flow.opening import balances_at_start
from pitplan.scheduling.limits import (
    DUMP,
    DUMPED,
    GRADE,
    MAX,
    MIN,
    STOCK,
    SUM,
    GradeLimit,
    Limit,
    Limits,
    grade_limits,
    limits_of,
    of_places,
    periods_of,
)
from pitplan.slopes import closure
from pitplan.slopes.domains import ABSENT, slices

from .filling import greatest_of_predecessors, ranks_of
from .opening import OpeningParts, columns
from .problem import Assignment, BlockLimit, BlockProblem, TotalLimit, demand_room, upward

ADDED_COST = "[pushbacks] mining_cost_added"
# The cash of reclaimed ore among the flows of blocks.
RECLAIMED = "reclaimed_cash_flow"


def demand_of_blocks(project: Project) -> None:
    """Raises PlanError, with the key, if the project asks for what a schedule by block does not have, and without which its value is another."""
    calendar, rules = project.shells.calendar, project.schedule or ScheduleRules()
    lying = {f"{STOCK}{it.name}": it.opening.tonnes for it in rules.stockpiles if it.opening}
    for (name, side), limit in of_places(calendar, rules.stockpiles).items():
        amounts, lies = limit.of_years(max(1, len(calendar.listed))), lying.get(name, 0.0)
        beyond = (amounts < lies) if side == MAX else (amounts > lies)
        if lies and beyond.any():
            year, word = int(beyond.argmax()), calendar.word
            why = (
                f"{lies:.10g} tonnes lie there at the start, and {word} {year + 1} has a {side} of {amounts[year]:.10g}"
            )
            raise PlanError(
                f"{project.path}: [schedule] stockpile {name.removeprefix(STOCK)}: {why}: change one of the two, or schedule pushbacks"
            )


def of_pushbacks(project: Project) -> list[str]:
    """Returns the keys of the project that apply to pushbacks alone."""
    rules = project.schedule or ScheduleRules()
    asked = {
        "[schedule] bench_lag": rules.bench_lag > 0,
        "[schedule] vertical_advance_rate": rules.vertical_advance_rate is not None,
        "[schedule] bins": rules.bins is not None,
        ADDED_COST: bool(project.pushbacks and project.pushbacks.mining_cost_added),
    }
    return [key for key, is_asked in asked.items() if is_asked]


def unapplied(project: Project) -> list[str]:
    """Returns warnings of keys that a schedule by block does not apply."""
    keys = of_pushbacks(project)
    found = (
        [f"{WARNING}a schedule by block does not apply {', '.join(keys)}: only pushbacks have these"] if keys else []
    )
    if ADDED_COST in keys:
        found.append(f"{WARNING}the NPV of this schedule by block leaves out the cost of {ADDED_COST}")
    return found


# Limits on head grades in schedules by block: the content of a process's feed less the grade times its tonnes is at
# most 0 in each year in which the limit applies.
#
# A block that recovers no metal in a process never lowers or raises the head grade there for the sake of a limit: it
# counts only if that makes the limit tighter.


@dataclass(frozen=True)
class HeadGrade:
    """A grade of the feed of a process that has limits.

    Attributes
    ----------
    name : str
        Its column in years.csv, such as head_grade_mill_as_ppm.
    process : int
        The number of the process.
    limits : dict of str to GradeLimit
        The limits by name, such as grade_mill_as_ppm_max; one for each value that some period has.
    content, feed : array, shape (cells,)
        What each cell adds to the content and to the tonnes of the feed; behind the cells may stand lots of opening balances.
    pays : bool array, shape (cells,)
        Whether it recovers metal in the process.
    """

    name: str
    process: int
    limits: dict[str, GradeLimit]
    content: NDArray[np.float64]
    feed: NDArray[np.float64]
    pays: NDArray[np.bool_]

    def excess(self, name: str) -> NDArray[np.float64]:
        """Returns what each cell in the process adds to the content above a maximum, or below a minimum."""
        limit = self.limits[name]
        found = limit.sign * (self.content - limit.grade * self.feed)
        return np.where(self.pays, found, np.maximum(found, 0.0))

    def with_lots(self, lots: Plan) -> HeadGrade:
        """Returns the grade with lots behind the cells, by their plan."""
        content = content_of(lots, next(iter(self.limits.values())), np.arange(lots.grid.count))
        feed = np.append(self.feed, lots.values.feed)
        return replace(self, content=np.append(self.content, content), feed=feed)

    def of_years(self, fed: Callable[[NDArray[np.float64], int], NDArray[np.float64]]) -> NDArray[np.float64]:
        """Returns the head grade of each year, nan without feed; `fed` returns what a process takes of an amount of cells by year."""
        content, feed = (fed(amounts, self.process) for amounts in (self.content, self.feed))
        return np.where(feed > 0, content / np.where(feed > 0, feed, 1.0), np.nan)


def head_grades(plan: Plan) -> tuple[HeadGrade, ...]:
    """Returns the head grades that `[processes.feed]`, `[schedule.feed]` and `feed` of periods limit."""
    values, cells, found = plan.values, np.arange(plan.grid.count), []
    names = [process.name for process in plan.project.processes] or [""]
    limits = grade_limits(plan.project)
    for grade in plan.project.feed_grades:
        number = names.index(grade.process)
        prefix = GRADE + "_".join(grade.words)
        mine = [it for it in limits if it.shown in (f"{prefix}_max", f"{prefix}_min")]
        sides = {it.name: it for it in mine}
        pays = values.by_process[number].revenue > 0
        content = content_of(plan, mine[0], cells)
        found.append(HeadGrade(f"head_{prefix}", number, sides, content, values.feed, pays))
    return tuple(found)


# A schedule may take this part of the years more that its limits ask for.
MORE_YEARS = 0.2
# By name, shape (blocks, destinations).
Flows = dict[str, NDArray[np.float64]]


class Route(NamedTuple):
    """The way of ore over a stockpile to a process, by the numbers of these, that takes it some years after it is mined."""

    stockpile: int
    process: int
    lag: int


@dataclass(frozen=True)
class Destinations:
    """Where blocks go.

    Attributes
    ----------
    waste : tuple of str
        The dumps; without `[[dumps]]` waste.
    processes : tuple of str
        Of a project that names none its mill.
    stockpiles : tuple of Stockpile
    years : int
        The periods, by which there are as many routes over each stockpile to each process; by the last one ore stays there.
    """

    waste: tuple[str, ...]
    processes: tuple[str, ...]
    stockpiles: tuple[Stockpile, ...] = ()
    years: int = 0

    def __len__(self) -> int:
        return len(self.names) + len(self.routes)

    @property
    def names(self) -> tuple[str, ...]:
        """Those to which blocks go at once in the order of arrays: those of waste, then the processes. Behind them stand the routes."""
        return (*self.waste, *self.processes)

    @cached_property
    def routes(self) -> tuple[Route, ...]:
        numbers = range(len(self.stockpiles)), range(len(self.processes)), range(1, self.years + 1)
        return tuple(Route(*it) for it in product(*numbers))

    @cached_property
    def lags(self) -> NDArray[np.int64]:
        """By destination the years after that of mining in which a process takes a block."""
        return np.array([0] * len(self.names) + [it.lag for it in self.routes], dtype=np.int64)

    @property
    def shown(self) -> dict[str, int]:
        """The numbers of destinations by the names of their shares in blocks.csv: of dumps and processes. The rest of a block is waste."""
        return {name: number for number, name in enumerate(self.names) if name != WASTE}

    def fed(self, process: int) -> NDArray[np.int64]:
        """Returns the destinations that feed a process: itself and its routes."""
        routes = [number for number, it in enumerate(self.routes, len(self.names)) if it.process == process]
        return np.array([len(self.waste) + process, *routes])

    def stacked(self, stockpile: int) -> NDArray[np.int64]:
        """Returns the routes over a stockpile, by the numbers of destinations."""
        routes = [number for number, it in enumerate(self.routes, len(self.names)) if it.stockpile == stockpile]
        return np.array(routes, dtype=np.int64)

    def columns(self, as_waste: NDArray[Any], *in_processes: NDArray[Any]) -> NDArray[Any]:
        """Returns what cells hold as waste, the same wherever it goes, and in each process, shape (cells, destinations)."""
        return np.stack([*[as_waste] * len(self.waste), *in_processes], axis=1)


def destinations_of(project: Project, years: int = 0) -> Destinations:
    """Returns where blocks of a project go, with the routes over stockpiles in a number of periods."""
    waste = tuple(it.name for it in project.dumps) or (WASTE,)
    processes = tuple(process.name for process in project.processes) or (MILL,)
    return Destinations(waste, processes, project.schedule.stockpiles if project.schedule else (), years)


@dataclass(frozen=True)
class BlockAmounts:
    """What blocks hold in each destination. Arrays have shape (blocks, destinations).

    Attributes
    ----------
    flows : dict of str to array
        Amounts that may be limited, the cash at the price as given, and the costs in which years differ.
    excess : dict of str to array
        By limit on a head grade what a block adds to the content above a maximum, or below a minimum.
    pays : bool array
        Whether a block yields anything.
    fed : frozenset of str
        Of flows those that flow when a process takes a block. Others flow when it is mined, or lie on a stockpile.
    lags : int array, shape (destinations,), optional
        The years from mining to process; None without stockpiles.
    lying : dict of str to float
        The tonnes that lie on stockpiles at the start, by the names of their limits. Parts of these are blocks too.
    """

    flows: Flows
    excess: Flows
    pays: NDArray[np.bool_]
    fed: frozenset[str] = frozenset()
    lags: Optional[NDArray[np.int64]] = None
    lying: dict[str, float] = field(default_factory=dict)

    @staticmethod
    def of_plan(plan: Plan, grades: tuple[HeadGrade, ...]) -> BlockAmounts:
        pays, excess = pays_of(plan), {}
        for grade in grades:
            for name in grade.limits:
                excess[name] = np.zeros(pays.shape)
                excess[name][:, len(destinations_of(plan.project).waste) + grade.process] = grade.excess(name)
        return BlockAmounts(flows_of(plan), excess, pays)

    def of_cells(self, cells: NDArray[np.int64]) -> BlockAmounts:
        return self.each(lambda amounts: amounts[cells])

    def as_sent(self, goes: NDArray[np.int64]) -> BlockAmounts:
        """Returns the amounts of blocks that go elsewhere than they are sent: to these destinations, shape (blocks, places to which they are sent)."""
        return self.each(lambda amounts: np.take_along_axis(amounts, goes, axis=1))

    def each(self, change: Callable[[NDArray[Any]], NDArray[Any]]) -> BlockAmounts:
        """Returns the amounts with each array changed."""
        flows, excess = ({name: change(it) for name, it in of.items()} for of in (self.flows, self.excess))
        return replace(self, flows=flows, excess=excess, pays=change(self.pays))

    def with_opening(self, parts: OpeningParts, waste: int) -> BlockAmounts:
        """Returns the amounts with those of parts of lots behind them; `waste` is the number of destinations of waste."""

        def joined(name: str, amounts: NDArray[np.float64]) -> NDArray[np.float64]:
            return np.concatenate([amounts, columns(parts.flow(name), waste, self.destinations)])

        flows, excess = ({name: joined(name, it) for name, it in of.items()} for of in (self.flows, self.excess))
        pays = np.concatenate([self.pays, columns(parts.is_taken, waste, self.destinations)])
        return replace(self, flows=flows, excess=excess, pays=pays, lying=parts.lying)

    @property
    def destinations(self) -> int:
        return self.pays.shape[1]

    def cash(self, project: Project, years: int) -> NDArray[np.float64]:
        """Returns the cash of each block by destination and year of mining, at the year's prices and costs, without that of reclaimed ore."""
        at_once = {name: np.where(self.waits, 0.0, it) if name in self.fed else it for name, it in self.flows.items()}
        return priced_flows(project, at_once, years)

    @property
    def waits(self) -> NDArray[np.bool_]:
        """Whether a block waits on a stockpile, by destination."""
        return np.zeros(self.destinations, dtype=bool) if self.lags is None else self.lags > 0

    def reclaimed_cash(self, project: Project, years: int) -> NDArray[np.float64]:
        """Returns the cash of each block by destination and year of reclaim, 0 where it goes at once."""
        fed = {name: np.where(self.waits, it, 0.0) for name, it in self.flows.items() if name in self.fed}
        return priced_flows(project, fed | {CASH: self.flows[RECLAIMED]}, years)

    def values(self, project: Project, discounts: NDArray[np.float64]) -> NDArray[np.float64]:
        """Returns what each block earns by destination and year of mining, discounted. Ore that no year is left to reclaim earns nothing."""
        found, years = self.cash(project, len(discounts)) * discounts, len(discounts)
        if self.lags is None:
            return found
        later = self.reclaimed_cash(project, years) * discounts
        for lag in range(1, years):
            some = np.flatnonzero(self.lags == lag)
            found[:, some, : years - lag] += later[:, some, lag:]
        return found

    def spans(self, name: str) -> Optional[NDArray[np.int64]]:
        """Returns by destination the first and the last year after mining in which blocks use a limit, shape (destinations, 2); None: that year alone."""
        if self.lags is None or not (name in self.fed or name in self.excess or name.startswith(STOCK)):
            return None
        if not name.startswith(STOCK):
            return np.stack([self.lags, self.lags], axis=1)
        # A stockpile holds less of its opening balance from the year on in which a process takes it, to the last.
        taken = int(self.lags.max()) - 1 if self.lying.get(name) else 0
        return np.stack([np.zeros_like(self.lags), np.where(self.lags > 0, self.lags - 1, taken)], axis=1)

    def greatest_cash(self, project: Project) -> NDArray[np.float64]:
        """Returns the most that each block earns in any destination and year, shape (blocks,)."""
        money = of_project(project)
        return self.cash(project, 1 + max((len(more) for more in money.premiums.values()), default=0)).max(axis=(1, 2))

    def held(self, pit: NDArray[np.bool_]) -> dict[str, float]:
        """Returns what the blocks of a pit hold where each earns most at the price as given, by name."""
        best = self.flows[CASH][pit].argmax(axis=1)
        return {name: float(it[pit, best].sum()) for name, it in self.flows.items()}

    def limits(self, project: Project, years: int) -> tuple[BlockLimit, ...]:
        """Returns the limits of years: maxima, minimums, and head grades."""
        limits, flows = limits_of(project, project.schedule or ScheduleRules()), self.flows
        of_places = [it for it in limits.places.values() if it.name in flows and it.in_years(years).any()]
        maxima = [*limits.most.values(), *(it for it in of_places if it.side == MAX)]
        above = [
            BlockLimit(
                it.name,
                flows[it.name],
                it.of_years(years) - self.lying.get(it.name, 0.0),
                signed=it.name in self.lying,
                spans=self.spans(it.name),
            )
            for it in maxima
        ]
        # What yields nothing there is not sent to a process for the sake of a least amount.
        owed = {name: np.where(self.pays | (flows[name][:, :1] > 0), flows[name], 0.0) for name in limits.least}
        least = [it for it in (*limits.least.values(), *of_places) if it.side == MIN and it.name not in self.lying]
        left = [self.left(it, years) for it in of_places if it.side == MIN and it.name in self.lying]
        below = [
            BlockLimit(
                it.name,
                owed.get(it.name, flows[it.name]),
                np.full(years, np.inf),
                it.of_years(years),
                spans=self.spans(it.name),
            )
            for it in least
        ]
        graded = [
            BlockLimit(it.name, self.excess[it.name], it.of_years(years), signed=True, spans=self.spans(it.name))
            for it in grade_limits(project)
        ]
        return (*above, *below, *left, *graded)

    def left(self, limit: Limit, years: int) -> BlockLimit:
        """Returns the minimum of a stockpile with an opening balance, as a maximum of what leaves it."""
        due, name = limit.of_years(years), limit.name
        most = np.where(due > 0, self.lying[name] - due, np.inf)
        return BlockLimit(name, -self.flows[name], most, signed=True, spans=self.spans(name), turned=True)


def priced_flows(project: Project, flows: Flows, years: int) -> NDArray[np.float64]:
    """Returns cash at the prices and costs of years, shape (blocks, destinations, years), from amounts and the cash at those as given."""
    cash, premiums = flows[CASH], of_project(project).premium(tuple(flows), years).T
    more = sum(it[:, :, None] * premium for it, premium in zip(flows.values(), premiums) if premium.any())
    return np.broadcast_to(cash[:, :, None], (*cash.shape, years)) + more


@dataclass(frozen=True)
class Minable:
    """The blocks that may be mined.

    Attributes
    ----------
    cells : int array, shape (blocks,)
        The grid's number of each, rising.
    precedences : BlockPrecedences
        The precedences between them, and behind them parts of opening balances, which have none.
    must_mine : bool array, shape (blocks and parts,)
        Whether each must be mined.
    """

    cells: NDArray[np.int64]
    precedences: BlockPrecedences
    must_mine: NDArray[np.bool_]

    @staticmethod
    def of_plan(plan: Plan, wanted: NDArray[np.bool_]) -> Minable:
        """Returns the cells that are wanted, or must be mined, with their predecessors except for air that no rock lies over."""
        cells = cells_of(plan, wanted)
        precedences = precedences_of(plan, cells)
        has_rock = (plan.values.tonnes[cells] > 0).astype(float)
        is_under_rock = greatest_of_predecessors(precedences, ranks_of(precedences), has_rock) > 0
        cells = cells[is_under_rock]
        return Minable(cells, precedences.within(is_under_rock), np.isin(cells, plan.fixed.must_mine))

    def with_opening(self, parts: OpeningParts) -> Minable:
        must_mine = np.append(self.must_mine, np.zeros(len(parts), dtype=bool))
        return replace(self, precedences=self.precedences.with_free(len(parts)), must_mine=must_mine)

    def pit(self, amounts: BlockAmounts, project: Project) -> NDArray[np.bool_]:
        """Returns whether each block is in the pit of greatest value that holds the must-mine blocks."""
        cash = amounts.greatest_cash(project)
        fixed = np.where(self.must_mine, pitshell.FORCED, pitshell.FREE).astype(np.uint8)
        precedences = self.precedences.starts, self.precedences.predecessors
        return pitshell.solve(upward(cash).amounts, precedences, fixed, millionths=True).in_pit

    def totals(self, amounts: BlockAmounts, project: Project) -> tuple[TotalLimit, ...]:
        """Returns that the must-mine blocks are mined in some year, where any exist, and the capacities of dumps."""
        count, found = int(self.must_mine.sum()), []
        if count:
            of_each = np.repeat(self.must_mine[:, None], amounts.destinations, axis=1).astype(float)
            found.append(TotalLimit(f"{count:,} must-mine blocks", of_each, float(count)))
        for limit in limits_of(project, project.schedule or ScheduleRules()).places.values():
            if limit.name.startswith(DUMPED):
                taken = amounts.flows[f"{DUMP}{limit.name.removeprefix(DUMPED)}"]
                found.append(TotalLimit(limit.name, taken, most=limit.amount))
        return tuple(found)

    def problem(self, amounts: BlockAmounts, project: Project, years: int) -> BlockProblem:
        """Returns the problem of these blocks, with their amounts, over some periods."""
        money = of_project(project)
        return BlockProblem(
            values=amounts.values(project, year_discounts(project.shells, years)),
            precedences=self.precedences,
            limits=amounts.limits(project, years),
            totals=self.totals(amounts, project),
            costs=costs_of_years(money, project.shells, years) if money.columns else None,
            word=project.shells.calendar.word,
            lags=amounts.lags,
        )


@dataclass(frozen=True)
class PlannedBlocks:
    """A plan's blocks that may be mined, as a problem.

    Attributes
    ----------
    plan : Plan
    minable : Minable
    amounts : BlockAmounts
    problem : BlockProblem
    goes : int array, shape (blocks, destinations)
        Where each block goes that is sent to each destination.
    grades : tuple of HeadGrade
        Head grades that are limited, of cells and behind them lots.
    opening : OpeningParts, optional
        What lies on stockpiles at the start, in parts that stand behind the blocks; None: nothing.
    """

    plan: Plan
    minable: Minable
    amounts: BlockAmounts
    problem: BlockProblem
    goes: NDArray[np.int64]
    grades: tuple[HeadGrade, ...] = ()
    opening: Optional[OpeningParts] = None

    @property
    def cells(self) -> NDArray[np.int64]:
        """The grid's number of each block, rising."""
        return self.minable.cells

    @property
    def names(self) -> list[str]:
        """The names in texts: of blocks their number in the grid."""
        return [*map(str, self.cells.tolist()), *(self.opening.names if self.opening else ())]

    @property
    def mined(self) -> slice:
        """Those that are blocks."""
        return slice(len(self.cells))

    @property
    def starts(self) -> dict[str, Optional[pd.Series]]:
        """By stockpile the feed and the metals that lie there at the start; None: nothing."""
        return balances_at_start(self.destinations.stockpiles, self.opening.lots if self.opening else None)

    @cached_property
    def destinations(self) -> Destinations:
        return destinations_of(self.plan.project, self.problem.years)

    @property
    def limits(self) -> Limits:
        """The limits of a year, by the names of amounts."""
        return limits_of(self.plan.project, self.plan.project.schedule or ScheduleRules())

    def with_barren_waste(self, schedule: Assignment) -> Assignment:
        """Returns the schedule with blocks as waste that would go to a process where they yield nothing, and in dumps that accept them.

        Raises
        ------
        PlanError
            If no dump accepts a block that is mined.
        """
        if self.plan.project.dumps:
            ore_kinds.accepted(self.plan, self.cells[schedule.year[self.mined] < self.problem.years])
        return schedule.sent(self.goes)


def of_plan(plan: Plan) -> PlannedBlocks:
    """The blocks of a plan. Raises PlanError where the project asks for what is not done by block, or for too many years."""
    project = plan.project
    demand_of_blocks(project)
    grades = head_grades(plan)
    of_all = BlockAmounts.of_plan(plan, grades)
    minable = Minable.of_plan(plan, (of_all.greatest_cash(project) > 0) | owing(plan, of_all))
    demand_room(len(minable.cells), len(minable.precedences.predecessors), f"{project.path}: ")
    amounts = of_all.of_cells(minable.cells)
    goes = taken(plan, minable.cells, amounts.pays)
    # Without dumps a process in which a block yields nothing costs what waste costs.
    amounts = amounts.as_sent(goes) if project.dumps else amounts
    pit = minable.pit(amounts, project)
    demand_small(plan, minable.cells[pit])
    if project.dumps:
        ore_kinds.accepted(plan, minable.cells[pit])
    rules = project.schedule or ScheduleRules()
    parts = OpeningParts.of_plan(plan, rules)
    years = periods_of(project, rules) or years_of([held_at_most(amounts, pit, parts)], project)
    to = destinations_of(project, years)
    if to.routes:
        amounts, accepted = with_routes(plan, minable.cells, amounts, to)
        routes = np.where(accepted, np.arange(len(to.names), len(to)), cheapest_waste(plan, minable.cells)[:, None])
        goes = np.concatenate([goes, routes], axis=1)
        amounts = amounts.as_sent(goes)
    if parts is not None:
        amounts, minable = amounts.with_opening(parts, len(to.waste)), minable.with_opening(parts)
        stays = np.where(amounts.pays[len(goes) :], np.arange(len(to)), 0)
        goes, grades = np.concatenate([goes, stays]), tuple(it.with_lots(parts.lots.plan) for it in grades)
        amounts = amounts.as_sent(goes)
    return PlannedBlocks(plan, minable, amounts, minable.problem(amounts, project, years), goes, grades, parts)


def held_at_most(amounts: BlockAmounts, pit: NDArray[np.bool_], parts: Optional[OpeningParts]) -> dict[str, float]:
    """Returns what the blocks of a pit hold where each earns most, and what lies on stockpiles where it earns most, by name."""
    found = amounts.held(pit)
    if parts is None:
        return found
    best, lots = parts.flow(CASH).argmax(axis=1), np.arange(len(parts))
    return {name: it + max(float(parts.flow(name)[lots, best].sum()), 0.0) for name, it in found.items()}


def with_routes(
    plan: Plan, cells: NDArray[np.int64], amounts: BlockAmounts, to: Destinations
) -> tuple[BlockAmounts, NDArray[np.bool_]]:
    """Returns the amounts with those of the routes over stockpiles behind them, and whether each block may take each route, shape (blocks, routes)."""
    rules, money = plan.project.schedule or ScheduleRules(), of_project(plan.project)
    ore = ore_of(plan, rules, cells, np.zeros(len(cells), dtype=np.int64))
    back = [ore.reclaimed(it, money) for it in to.stockpiles]
    process = [len(to.waste) + it.process for it in to.routes]

    def of_ore(name: str) -> NDArray[np.float64]:
        return np.stack([back[it.stockpile].of(name)[it.process] for it in to.routes], axis=1)

    feed, mined = ore.feed, -plan.values.mining[cells] / MILLION
    stacking = np.array([to.stockpiles[it.stockpile].stacking_cost for it in to.routes])
    routes = {CASH: mined[:, None] - np.outer(feed, stacking)}
    for name, it in amounts.flows.items():
        if name in ore.amounts:
            routes[name] = of_ore(name)
        elif name != CASH:
            routes[name] = np.zeros_like(routes[CASH]) if name.startswith(DUMP) else it[:, process]
    routes[RECLAIMED] = np.stack([back[it.stockpile].gain[it.process] for it in to.routes], axis=1)
    for number, stockpile in enumerate(to.stockpiles):
        lies = np.array([float(it.stockpile == number) for it in to.routes])
        routes[f"{STOCK}{stockpile.name}"] = np.outer(feed, lies)
    nothing = np.zeros_like(amounts.pays, dtype=float)
    flows = {name: np.concatenate([amounts.flows.get(name, nothing), it], axis=1) for name, it in routes.items()}
    excess = {name: np.concatenate([it, it[:, process]], axis=1) for name, it in amounts.excess.items()}
    accepted = amounts.pays[:, process] & np.stack([ore.accepted_by(it.stockpile) for it in to.routes], axis=1)
    pays = np.concatenate([amounts.pays, accepted], axis=1)
    return BlockAmounts(flows, excess, pays, frozenset(set(amounts.flows) & set(ore.amounts)), to.lags), accepted


def taken(plan: Plan, cells: NDArray[np.int64], pays: NDArray[np.bool_]) -> NDArray[np.int64]:
    """Returns where each cell goes that is sent to each destination, shape (cells, destinations): to the cheapest dump that accepts it, or to waste without
    dumps, from a process in which it yields nothing and from a dump that does not accept it.

    Parameters
    ----------
    plan : Plan
    cells : int array, shape (cells,)
    pays : bool array, shape (cells, destinations)
        Whether each cell yields anything there.
    """
    dumps = plan.project.dumps
    accepts = ore_kinds.accepting(plan, cells) if dumps else np.ones((len(cells), 1), dtype=bool)
    stays = np.concatenate([accepts, pays[:, accepts.shape[1] :]], axis=1)
    return np.where(stays, np.arange(stays.shape[1]), cheapest_waste(plan, cells)[:, None])


def cheapest_waste(plan: Plan, cells: NDArray[np.int64]) -> NDArray[np.int64]:
    """Returns the number of the cheapest dump that accepts each cell; 0, waste, without dumps."""
    dumps = plan.project.dumps
    if not dumps:
        return np.zeros(len(cells), dtype=np.int64)
    return np.where(ore_kinds.accepting(plan, cells), [it.cost for it in dumps], np.inf).argmin(axis=1)


def demand_small(plan: Plan, cells: NDArray[np.int64]) -> None:
    """Raises PlanError where a cell holds more material than a year may: it is mined in one year, so it never could be."""
    limits = limits_of(plan.project, plan.project.schedule or ScheduleRules())
    if ROCK not in limits.most:
        return
    held, most = plan.values.tonnes[cells], limits.most[ROCK].greatest
    if (held > most * (1 + SUM_ERROR)).any():
        row = int(held.argmax())
        block = f"{plan.source}: {plan.called(int(cells[row]))} holds {held[row]:,.10g} of {ROCK}, and a year takes at most {most:,.10g}"
        why = "by block each block is mined in one year: give smaller blocks or a larger limit, or schedule by pushback"
        raise PlanError(f"{plan.project.path}: {why}; {block}")


def cells_of(plan: Plan, wanted: NDArray[np.bool_]) -> NDArray[np.int64]:
    """The cells that are wanted, or must be mined, with their predecessors; none that may not be mined, and none that has one such as a predecessor."""
    left = np.zeros(plan.grid.count, dtype=bool) if plan.settled is None else plan.settled.left
    wanted = wanted & ~left
    wanted[plan.fixed.must_mine] = True
    return np.flatnonzero(closure.used_blocks(plan.grid, plan.domains, wanted))


def owing(plan: Plan, amounts: BlockAmounts) -> NDArray[np.bool_]:
    """The cells that a limit may require: those that add to an amount that has a least, and those that bring a head grade nearer to its limit.
    Raises PlanError where of a model that is too large some were left out."""
    limits = limits_of(plan.project, plan.project.schedule or ScheduleRules())
    least = [*limits.least, *(name for name, side in limits.places if side == MIN)]
    found = np.zeros(plan.grid.count, dtype=bool)
    for name in least:
        found |= (amounts.flows[ORE if name.startswith(STOCK) else name] > 0).any(axis=1)
    for excess in amounts.excess.values():
        found |= (excess < 0).any(axis=1)
    if (least or amounts.excess) and plan.left_out:
        why = "blocks that no shell can reach were removed, and a minimum or a head grade may require them: set [table] reblock"
        raise PlanError(f"{plan.source}: {plan.left_out:,} {why}")
    return found


def pays_of(plan: Plan) -> NDArray[np.bool_]:
    """Whether a cell yields anything in each destination."""
    nothing = np.zeros(plan.grid.count, dtype=bool)
    return destinations_of(plan.project).columns(nothing, *(way.revenue > 0 for way in plan.values.by_process))


def flows_of(plan: Plan) -> Flows:
    """What each cell holds of each amount that may be limited, its cash at the price as given, and the costs in which years differ."""
    flows, rules = of_money(plan), plan.project.schedule
    if MINING_COST in of_project(plan.project).differing:
        flows[MINING_COST] = np.repeat(plan.values.mining[:, None] / MILLION, flows[CASH].shape[1], axis=1)
    to = destinations_of(plan.project)
    for name, costs in plan.multiplied_amounts.items():
        flows[name] = to.columns(np.zeros(plan.grid.count), *costs)
    for number, dump in enumerate(plan.project.dumps):
        tonnes = flows[f"{DUMP}{dump.name}"] = np.zeros_like(flows[CASH])
        tonnes[:, number] = plan.values.tonnes
        flows[CASH][:, number] -= dump.cost * plan.values.tonnes
    return flows | {f"{SUM}{it.name}": sum_of(plan, it) for it in (rules.limits if rules else ())}


def sum_of(plan: Plan, asked: Sum) -> NDArray[np.float64]:
    """What each cell adds to a sum in each destination."""
    values, to = plan.values, destinations_of(plan.project)
    amounts = plan.grid.spread(plan.table[asked.column].to_numpy())
    if asked.per_tonne:
        amounts = amounts * (values.tonnes if asked.of == TOTAL else values.undiluted)
    counts = [asked.of == TOTAL] * len(to.waste) + [asked.of in (TOTAL, FEED, name) for name in to.processes]
    return amounts[:, None] * np.array(counts, dtype=float)


def of_money(plan: Plan) -> Flows:
    """Tonnes, metals and cash of each cell as waste, and in each process; dumps cost nothing."""
    values, to, ways = plan.values, destinations_of(plan.project), plan.values.by_process
    nothing = np.zeros(plan.grid.count)
    found = {ROCK: to.columns(values.tonnes, *[values.tonnes] * len(ways))}
    found[ORE] = to.columns(nothing, *[values.feed] * len(ways))
    for number, process in enumerate(plan.project.processes):
        of_ways = (values.feed if place == number else nothing for place in range(len(ways)))
        found[f"{ORE}_{process.name}"] = to.columns(nothing, *of_ways)
    found |= {f"recovered_{name}": to.columns(nothing, *(way.metal[name] for way in ways)) for name in values.metal}
    gains = ((way.revenue - way.cost - values.mining) / MILLION for way in ways)
    return found | {CASH: to.columns(-values.mining / MILLION, *gains)}


def precedences_of(plan: Plan, cells: NDArray[np.int64]) -> BlockPrecedences:
    """The precedences among cells, which rise and have their predecessors among them."""
    number = np.full(plan.grid.count, -1)
    number[cells] = np.arange(len(cells))
    counts, predecessors = [np.zeros(0, dtype=np.int64)], [np.zeros(0, dtype=np.int64)]
    for part in slices(plan.grid, plan.domains, cells) if len(cells) else ():
        is_there = part.precedences != ABSENT
        counts.append(is_there.sum(axis=1))
        predecessors.append(number[part.precedences[is_there]])
    starts = np.concatenate([[0], np.cumsum(np.concatenate(counts))])
    return BlockPrecedences(starts.astype(np.uint32), np.concatenate(predecessors).astype(np.uint32))


def years_of(pits: Sequence[dict[str, float]], project: Project) -> int:
    """Returns the periods in which the limits let the longest of some pits be mined, and a fifth more. Raises PlanError where they are too many.

    Parameters
    ----------
    pits : sequence of dict
        What each pit holds, by name.
    project : Project
    """
    limits = limits_of(project, project.schedule or ScheduleRules())
    most = limits.of_years(MOST_YEARS).cumsum(axis=0)
    taken = max(
        1 + int(np.searchsorted(done, pit[name] * (1 - SUM_ERROR)))
        for pit in pits
        for name, done in zip(limits.most, most.T)
    )
    years = -int(-taken * (1 + MORE_YEARS) // 1)
    if years > MOST_YEARS:
        why = f"the pit would take more than {MOST_YEARS} years: check that the limits are in tonnes per year, or set [schedule] years"
        raise PlanError(f"{project.path}: [shells] processing_capacity, mining_capacity: {why}")
    return years

"""A plan's schedule by block as tables, a record and notes."""

from __future__ import annotations

from collections.abc import Iterator
from dataclasses import dataclass, replace
from functools import cached_property
from pathlib import Path
from typing import TYPE_CHECKING, Any, Optional, Union

import numpy as np
import pandas as pd
import scipy
from numpy.typing import NDArray

from pitplan.config.economics import GRADE_UNITS
from pitplan.config.material import PIT, WASTE, Stockpile
from pitplan.config.schedule import ScheduleRules
from pitplan.core.progress import Progress, silent
from pitplan.core.revenue_factors import BASE_PRICE
from pitplan.core.tolerances import BLOCK_MONEY, SUM_ERROR
from pitplan.economics.period_costs import MINING_COST, is_shown, of_project
from pitplan.errors import WARNING, PlanError
from pitplan.pits import grade_tonnage
from pitplan.pits.best_worst_case import year_discounts
from pitplan.pits.shells import Shells
from pitplan.plan import MILLION, Plan, shown_name
from pitplan.pushbacks.bench_table import CASH, ORE, ROCK
from pitplan.scheduling import inventory
from pitplan.scheduling.cash_flow.lines import Operation
from pitplan.scheduling.cash_flow.tables import BlockOperation, Finance, block_finances
from pitplan.scheduling.certificate import (
    UNIT,
    WHOLE,
    Certificate,
    Shares,
    StatedLimit,
    Term,
    checked,
    millionths,
    money_unit,
    rows_of,
    write,
)
from pitplan.scheduling.flow.material import column_of
from pitplan.scheduling.flow.mixed_reclaim import Pile, notes_of_mixing
from pitplan.scheduling.flow.opening import OpenedLots
from pitplan.scheduling.flow.tables import (
    LimitUse,
    dump_table,
    feed_table,
    grades_of,
    limit_table,
    stockpile_table,
    use_of_grade,
)
from pitplan.scheduling.limits import DUMP, DUMPED, MAX, MIN, STOCK, Limit, shown
from pitplan.scheduling.methods import BLOCK, notes_of_gap
from pitplan.scheduling.schedule import Schedule

from .from_plan import RECLAIMED, PlannedBlocks, Route, of_plan, unapplied
from .problem import Assignment, BlockLimit, BlockProblem, TotalLimit
from .scheduler import Scheduled, gap_of, solve

if TYPE_CHECKING:
    from pitplan.commands.writing import Writing

# How the names of blocks.csv's columns of shares begin.
SHARE = "share_"
# What bound.csv calls the minimum of must-mine blocks.
MUST_MINE = "must_mine"


@dataclass(frozen=True, eq=False, repr=False)
class BlockSchedule(Schedule):
    """A yearly schedule of single blocks.

    Attributes
    ----------
    planned : PlannedBlocks
        The blocks of the plan that can be mined.
    shells : Shells
        The shells of the plan.
    found : Scheduled
        The year of each block, and the upper bound.
    """

    planned: PlannedBlocks
    shells: Shells
    found: Scheduled

    def __repr__(self) -> str:
        """NPV and upper bound."""
        row = self.table.iloc[0]
        return f"Schedule of {row['blocks']:,} blocks; NPV {row['npv']:,.0f}, upper bound {row['upper_bound']:,.0f}"

    @property
    def plan(self) -> Plan:
        """The plan, with the rules of `[schedule]`."""
        return self.planned.plan

    @property
    def shown(self) -> str:
        """The only method."""
        return BLOCK

    @property
    def blocks(self) -> pd.DataFrame:
        """One row per block, with the `year` in which it is mined (0: never) and the share that goes to each process."""
        return self.beside(self.shells.blocks)

    @cached_property
    def finances(self) -> list[Finance]:
        """The cash flow of the schedule."""
        return block_finances(self)

    @property
    def operation(self) -> Operation:
        """What the schedule mines and feeds."""
        return BlockOperation(self)

    @property
    def material_tables(self) -> dict[str, pd.DataFrame]:
        """Feed and inventory, and with `[[dumps]]` what each takes and holds."""
        project, flows = self.plan.project, self.material_flows
        found = {"feed": self.feed, "inventory": inventory.summed(flows, project, [BLOCK], list(self.starts))}
        if self.starts:
            found |= {"stockpiles": self.stockpiles, "reclaims": self.reclaims}
        return found | ({"dumps": dump_table(flows, self.last_years, project.dumps)} if project.dumps else {})

    @property
    def stockpiles(self) -> pd.DataFrame:
        """What lies on each stockpile, and what is placed and reclaimed, in each year."""
        return stockpile_table(self.material_flows, self.last_years, self.starts, self.plan.project.metals)

    @property
    def starts(self) -> dict[str, Optional[pd.Series]]:
        """By stockpile the feed and the metals that lie there at the start; None: nothing."""
        return self.planned.starts

    @cached_property
    def mined(self) -> Assignment:
        """When blocks are mined, and where they go."""
        return self.found.schedule.within(self.planned.mined)

    @cached_property
    def opened(self) -> Optional[OpenedLots]:
        """What processes take of opening balances; None without these."""
        if self.planned.opening is None:
            return None
        parts, to = slice(len(self.planned.cells), None), self.planned.destinations
        processes = slice(len(to.waste), len(to.names))
        return self.planned.opening.opened(self.found.schedule.within(parts), processes, self.planned.problem.years)

    @property
    def reclaims(self) -> pd.DataFrame:
        """A row per block, stockpile and process that takes a share of it from there, with its id and the year; without an id per process that
        takes a share of what lay there at the start."""
        parts = [] if self.opened is None else [self.opened.reclaims]
        for number, route in enumerate(self.planned.destinations.routes, len(self.planned.destinations.names)):
            move = self.moved_over(number, route)
            some = np.flatnonzero(move.moves)
            found = {"id": self.planned.cells[some], "year": move.year[some] + 1, "source": move.source}
            parts.append(pd.DataFrame(found | {"destination": move.destination, "share": move.share[some]}))
        table = pd.concat(parts, ignore_index=True).astype({"id": "Int64"})
        return table.sort_values(["id", "year"], kind="stable", ignore_index=True)

    @property
    def npv_at_mean_grade(self) -> float:
        """What the schedule earns if each stockpile gives back the mean of what lies there."""
        years = self.planned.problem.years
        discounts = year_discounts(self.plan.project.shells, years)
        return self.found.value - float(sum((pile.lost @ discounts for pile in self.piles), 0.0))

    @property
    def piles(self) -> Iterator[Pile]:
        """What moves to and from each stockpile."""
        planned, schedule, years = self.planned, self.mined, self.planned.problem.years
        to, feed = planned.destinations, self.plan.values.feed[planned.cells]
        blocks = np.arange(len(planned.cells))
        for number, it in enumerate(to.stockpiles):
            stocked, processes = np.zeros((len(blocks), years + 1)), range(len(to.processes))
            np.add.at(stocked, (blocks, schedule.year), schedule.share[:, to.stacked(number)].sum(axis=1))
            out, gain = np.zeros((2, len(processes), len(blocks), years + 1))
            for process in processes:
                routes = np.intersect1d(to.fed(process), to.stacked(number))
                year = np.minimum(schedule.year[:, None] + to.lags[routes], years)
                np.add.at(out[process], (blocks[:, None], year), schedule.share[:, routes])
                pays, cash = (of[planned.mined, routes[0]] for of in (planned.amounts.pays, self.reclaimed_cash))
                gain[process, :, :years] = np.where(pays[:, None], cash, -it.reclaim_cost * feed[:, None])
            pile = Pile(feed, stocked[:, :years], out[..., :years], gain[..., :years], np.zeros(len(blocks)))
            if self.opened is not None:
                of_lots = self.opened.shares, self.opened.gains
                pile = pile.with_lots(self.opened.ore, *of_lots, number=number, cost=it.reclaim_cost)
            yield pile

    @property
    def last_years(self) -> dict[str, int]:
        """The last year of the method."""
        return {BLOCK: self.count}

    @cached_property
    def feed(self) -> pd.DataFrame:
        """What each process takes in each year."""
        return feed_table(self.material_flows, self.last_years, self.plan.project.metals, self.cutoffs)

    @property
    def cutoffs(self) -> dict[str, NDArray[np.float64]]:
        """By process the shadow price of a tonne of its feed, in the currency of the year, each of shape (years,)."""
        return {name: self.shadow_price(ORE, f"{ORE}_{name}") for name in self.planned.destinations.processes}

    def shadow_price(self, *names: str) -> NDArray[np.float64]:
        """Returns what a unit more of limits with these names would earn in each year, in the money of the year, shape (years,). That of a total is of
        the last year of the schedule."""
        problem, prices = self.planned.problem, self.found.multipliers
        found, discounts = np.zeros(problem.years), year_discounts(self.plan.project.shells, problem.years)
        for limit, by_year in zip(problem.limits, prices):
            found += limit.sign * by_year * (limit.name in names)
        for total, (price, *_) in zip(problem.totals, prices[len(problem.limits) :]):
            found[self.count - 1] += price * (total.name in names)
        return found / discounts

    @property
    def limits(self) -> pd.DataFrame:
        """What the schedule uses of each limit in each year."""
        return limit_table({BLOCK: list(uses_of_limits(self))})

    @cached_property
    def cash(self) -> NDArray[np.float64]:
        """What each block earns in each destination in the year in which it is mined, shape (blocks, destinations)."""
        problem, year = self.planned.problem, self.found.schedule.year
        cash = self.planned.amounts.cash(self.plan.project, problem.years)
        return cash[np.arange(problem.blocks), :, np.minimum(year, problem.years - 1)]

    @cached_property
    def reclaimed_cash(self) -> NDArray[np.float64]:
        """What each block earns over each route in the year in which it is reclaimed, shape (blocks, destinations, years)."""
        return self.planned.amounts.reclaimed_cash(self.plan.project, self.planned.problem.years)

    @cached_property
    def material_flows(self) -> pd.DataFrame:
        """One row per block with tonnes and destination that takes a share of it, and one per block and process that takes it from a stockpile."""
        rows = [flows_of(self, move) for move in self.moves]
        rows += [] if self.opened is None else [self.opened.flows.assign(method=BLOCK)]
        return pd.concat(rows, ignore_index=True)

    @property
    def moves(self) -> Iterator[BlockMove]:
        """The flows from the pit to each destination, to each stockpile, and over each route."""
        planned, schedule, years = self.planned, self.mined, self.planned.problem.years
        to, cells = planned.destinations, planned.cells
        factors = of_project(self.plan.project).factors(MINING_COST, years)
        mining = self.plan.values.mining[cells] / MILLION * factors[np.minimum(schedule.year, years - 1)]
        for number, name in enumerate(to.names):
            process = number - len(to.waste) if number >= len(to.waste) else None
            cash = self.cash[planned.mined, number] + mining
            yield BlockMove(PIT, name, schedule.year, schedule.share[:, number], cash, process=process)
        for number, it in enumerate(to.stockpiles):
            share = schedule.share[:, to.stacked(number)].sum(axis=1)
            cash = -it.stacking_cost * self.plan.values.feed[cells]
            yield BlockMove(PIT, it.name, schedule.year, share, cash, stockpile=it)
        for number, route in enumerate(to.routes, len(to.names)):
            yield self.moved_over(number, route)

    def moved_over(self, number: int, route: Route) -> BlockMove:
        """Returns the flow that a process takes over a route, by the number of the destination; what no year is left to reclaim stays."""
        planned, schedule, years = self.planned, self.mined, self.planned.problem.years
        to, year = planned.destinations, schedule.year + route.lag
        share = np.where(year < years, schedule.share[:, number], 0.0)
        cash = self.reclaimed_cash[np.arange(len(year)), number, np.minimum(year, years - 1)]
        pile, process = to.stockpiles[route.stockpile], to.processes[route.process]
        return BlockMove(pile.name, process, year, share, cash, process=route.process, stockpile=pile)

    @property
    def grade_tonnage(self) -> pd.DataFrame:
        """Grade-tonnage curves of the model, and of the blocks that are mined as the pit."""
        mined = np.zeros(self.plan.grid.count, dtype=bool)
        mined[self.planned.cells[self.mined.year < self.planned.problem.years]] = True
        return grade_tonnage.of_pit(self.plan, mined)

    def tables(self) -> dict[str, pd.DataFrame]:
        """The tables by name: those of the shells, and of the schedule."""
        found = {"blocks": self.blocks, "shells": self.shells.table, "grade_tonnage": self.grade_tonnage}
        found["years"] = pd.concat([self.shells.years, self.years], ignore_index=True)
        found |= {"methods": self.methods, "limits": self.limits, "bound": self.multipliers}
        return found | self.money_tables | self.material_tables

    def summary(self) -> dict[str, Any]:
        """The part of the record plan.json."""
        return self.shells.summary() | {"by_block": True}

    @property
    def as_shells(self) -> Shells:
        """The shells of the plan."""
        return self.shells

    def write(self, folder: Union[str, Path, None] = None, writing: Optional[Writing] = None) -> Path:
        """Writes what `pitplan schedule --by block` writes, by default into block_schedule in the project's output folder; see
        `Shells.write`."""
        from pitplan.commands.answers import write

        return write(self, folder or self.plan.asked.folder / "block_schedule", writing)

    def proved(self, stage: Path, program: Optional[Path]) -> BlockSchedule:
        """Writes the texts of the schedule into a folder, and returns it with what the program proves."""
        certificate, problem = self.certificate, self.planned.problem
        write(certificate, self.planned.names, stage)
        proved = checked(stage, program, certificate.unit)
        to = self.planned.destinations
        destinations = [("", "" if it == WASTE else it, 0) for it in to.names]
        destinations += [(to.stockpiles[it.stockpile].name, to.processes[it.process], it.lag) for it in to.routes]
        return replace(self, certified=replace(proved, destinations=tuple(destinations), limits=sides_of(problem)))

    @property
    def certificate(self) -> Certificate:
        """What a proved program checks of the schedule. Raises PlanError if it cannot state the problem."""
        problem = self.planned.problem
        discounts = year_discounts(self.plan.project.shells, problem.years)
        return of_schedule(problem, self.found.schedule, self.found.multipliers, discounts)

    @property
    def count(self) -> int:
        """The last year in which anything is mined or reclaimed, from 1; 0 where nothing is."""
        return self.found.schedule.life(self.planned.problem)

    def beside(self, blocks: pd.DataFrame) -> pd.DataFrame:
        """Rows of blocks, by `id`, with the year of each, from 1, 0 where it is not mined; and share_NAME, the share of it that goes to each
        dump, and to each process at once or from a stockpile, share_mill where the project names none, and the share that is placed on each
        stockpile. The rest of it is waste."""
        problem, schedule = self.planned.problem, self.mined
        columns: dict[str, NDArray[Any]] = {
            "year": np.where(schedule.year < problem.years, schedule.year + 1, 0).astype(np.int16)
        }
        to = self.planned.destinations
        columns |= {SHARE + name: schedule.share[:, number] for name, number in to.shown.items()}
        for process, name in enumerate(to.processes):
            routes = to.fed(process)[1:]
            in_time = schedule.year[:, None] + to.lags[routes] < problem.years
            columns[SHARE + name] = columns[SHARE + name] + (schedule.share[:, routes] * in_time).sum(axis=1)
        for number, it in enumerate(to.stockpiles):
            columns[SHARE + it.name] = schedule.share[:, to.stacked(number)].sum(axis=1)
        grid, ids = self.plan.grid, blocks["id"].to_numpy()
        found = {}
        for name, values in columns.items():
            spread = np.zeros(grid.count, dtype=values.dtype)
            spread[self.planned.cells] = values
            found[name] = spread[ids]
        return blocks.assign(**found)

    def time(self, count: int) -> float:
        """The years that `count` periods last."""
        return self.plan.project.shells.calendar.span(count)

    @cached_property
    def years(self) -> pd.DataFrame:
        """A row a year up to the last in which anything is mined, as `Shells.years` has of cases."""
        problem, project, count = self.planned.problem, self.plan.project, self.count
        table = pd.DataFrame({"case": BLOCK, "revenue_factor": BASE_PRICE, "year": np.arange(1, count + 1)})
        for name in self.planned.amounts.flows:
            if is_shown(name) and not name.startswith((DUMP, STOCK, RECLAIMED, CASH)):
                table[name] = self.used(name)
        for grade in self.planned.grades:
            table[grade.name] = grade.of_years(self.operation.fed)
        earned = self.earned
        discounts = year_discounts(project.shells, problem.years)[:count]
        present = earned * discounts - problem.running_costs[:count]
        spent = of_project(project).costs(count)
        return table.assign(**spent, **{CASH: earned - sum(spent.values()), "discounted_cash_flow": present})

    def used(self, name: str) -> NDArray[np.float64]:
        """Returns the sum of an amount in each year in which it flows or lies on a stockpile, shape (years,)."""
        amounts, years = self.planned.amounts, self.planned.problem.years
        limit = BlockLimit(name, amounts.flows[name], np.zeros(years), spans=amounts.spans(name))
        return self.found.schedule.sum(limit, limit.amounts, years)[: self.count] + amounts.lying.get(name, 0.0)

    @property
    def earned(self) -> NDArray[np.float64]:
        """The cash flow of each year before what years cost, shape (years,)."""
        schedule, years = self.found.schedule, self.planned.problem.years
        found = np.bincount(schedule.year, (self.cash * schedule.share).sum(axis=1), minlength=years + 1)
        to = self.planned.destinations
        for number, route in enumerate(to.routes, len(to.names)):
            move = self.moved_over(number, route)
            found += np.bincount(np.minimum(move.year, years), move.cash * move.share, minlength=years + 1)
        return np.asarray(found[: self.count], dtype=float)

    @property
    def table(self) -> pd.DataFrame:
        """One row: value, discounted, and bound, in money; optimality_gap, by which share of the bound the value is less; years; blocks of
        rock that are mined; tonnes of rock, and feed_tonnes; recovered_NAME recovered."""
        mined = (self.found.schedule.year < self.planned.problem.years) & (self.planned.amounts.flows[ROCK][:, 0] > 0)
        row = {
            "npv": self.found.value,
            "upper_bound": self.found.bound,
            "optimality_gap": self.found.gap,
            **({"npv_at_mean_grade": self.npv_at_mean_grade} if self.starts else {}),
            "years": self.time(self.count),
            "blocks": int(mined.sum()),
            "tonnes": self.years[ROCK].sum(),
            "feed_tonnes": self.years[ORE].sum(),
            **self.years.filter(like="recovered_").sum(),
        }
        return pd.DataFrame([row])

    @property
    def methods(self) -> pd.DataFrame:
        """The same as the row of a way, which is called as its case in years.csv."""
        table = self.table
        table.insert(0, "method", BLOCK)
        return table

    @property
    def multipliers(self) -> pd.DataFrame:
        """A row per limit and year: the prices from which the upper bound follows. Empty if nothing can be mined."""
        problem, prices = self.planned.problem, self.found.multipliers
        if not prices.size:
            return pd.DataFrame(columns=["limit", "side", "year", "price"])
        rows = [
            (limit.name, *limit.sides[:1], year, price)
            for limit, by_year in zip(problem.limits, prices)
            for year, price in enumerate(limit.sign * by_year, 1)
        ]
        of_totals = zip(problem.totals, prices[len(problem.limits) :])
        rows += [(*name_and_side(total), 0, by_year[0]) for total, by_year in of_totals]
        return pd.DataFrame(rows, columns=["limit", "side", "year", "price"])

    @property
    def feed_limits(self) -> dict[str, float]:
        """The limited head grades by name, such as grade_mill_as_ppm_max, or grade_mill_as_ppm_max@120 if periods differ."""
        return {name: limit.grade for it in self.planned.grades for name, limit in it.limits.items()}

    @property
    def record(self) -> dict[str, Any]:
        """What block_schedule.json says: value and bound, the gap between these as a share of the bound, the years that there were, the
        limits, how the bound was found, and the solver."""
        found, project = self.found, self.planned.plan.project
        value, bound = round(found.value, 3), round(found.bound, 3)
        return {
            "npv": value,
            "upper_bound": bound,
            "gap": round(gap_of(value, bound), 9),
            "years": self.time(self.planned.problem.years),
            **({} if project.shells.calendar.is_yearly else {"periods": self.planned.problem.years}),
            **self.planned.limits.record,
            **({"feed": self.feed_limits} if self.planned.grades else {}),
            "ramp_up": list((project.schedule or ScheduleRules()).ramp_up),
            "blocks": found.blocks,
            "nodes": found.nodes,
            "rounds": [
                {"upper_bound": round(one.bound, 3), "relaxation": round(one.value, 3), "groups": one.groups}
                for one in found.rounds
            ],
            "interrupted": found.interrupted,
            **({"certificate": self.certified.record} if self.certified else {}),
            "solver": f"libpitshell, and HiGHS of scipy {scipy.__version__}",
        }

    @property
    def notes(self) -> list[str]:
        """What a planner should know of the schedule."""
        found, years = self.found, f"{self.time(self.planned.problem.years):.10g}"
        said = [
            f"upper bound on the NPV of any schedule by block of up to {years} years within these limits: {found.bound:,.0f}; "
            f"this schedule has an NPV of {found.value:,.0f}, an optimality gap of {100 * found.gap:.2f} %"
        ]
        project = self.plan.project
        if not self.count and found.bound <= 0:
            said.append("nothing is mined: at these prices and costs no block pays for itself and its predecessors")
        elif not self.count:
            why = f"nothing is mined although the upper bound is {found.bound:,.0f}: no schedule that was tried earns anything"
            said.append(f"{WARNING}{why}")
        if not found.interrupted:
            said += notes_of_gap(found.value, found.bound, project.schedule.milp if project.schedule else None)
        said += notes_of_mixing(self.stockpiles, self.starts, project, self.npv_at_mean_grade) if self.starts else []
        said += unapplied(project)
        said += [self.certified.note] if self.certified else []
        if found.interrupted:
            said.append(
                f"{WARNING}the run was interrupted; this is the best schedule so far, and the upper bound holds"
            )
        return [*said, *self.uncertified]


def collected(plan: Plan, progress: Progress = silent) -> PlannedBlocks:
    """The blocks of a plan as a problem.

    Raises PlanError if the project asks for what is not done by block, or the blocks are too many.
    """
    with progress.step("collecting the blocks that can be mined"):
        return of_plan(plan)


def scheduled(planned: PlannedBlocks, shells: Shells, progress: Progress = silent) -> BlockSchedule:
    """The schedule of these blocks, beside the shells of their plan. `[schedule] milp` says how far integer programmes make it better.

    Raises PlanError if no schedule meets the minimums, and KeyboardInterrupt if it is interrupted before there is a bound.
    """
    rules = planned.plan.project.schedule or ScheduleRules()
    found = solve(planned.problem, rules.milp, progress)
    return BlockSchedule(planned, shells, replace(found, schedule=planned.with_barren_waste(found.schedule)))


def uses_of_limits(blocks: BlockSchedule) -> Iterator[LimitUse]:
    """Yields the uses of amounts, head grades, and what dumps take and hold."""
    planned, count, operation = blocks.planned, blocks.count, blocks.operation
    limits = planned.limits

    def use(name: str, amount: str, least: Optional[Limit], most: Optional[Limit]) -> LimitUse:
        used = blocks.used(amount)
        used = used.cumsum() if name.startswith(DUMPED) else used
        return LimitUse(name, used, shown(least, count), shown(most, count), blocks.shadow_price(name)[:count])

    for name in limits.names:
        yield use(name, name, limits.least.get(name), limits.most.get(name))
    for grade, sides in grades_of(planned.plan.project).items():
        head = next(it for it in planned.grades if sides[0].name in it.limits)
        feed = operation.fed(head.feed, sides[0].process)
        yield use_of_grade(sides, head.of_years(operation.fed), feed, lambda it: blocks.shadow_price(it)[:count])
    places = {key: it for key, it in limits.places.items() if it.in_years(planned.problem.years).any()}
    for name in dict.fromkeys(name for name, _ in places):
        amount = name if name.startswith(STOCK) else f"{DUMP}{name.removeprefix(DUMP).removeprefix(DUMPED)}"
        yield use(name, amount, places.get((name, MIN)), places.get((name, MAX)))


@dataclass(frozen=True, eq=False)
class BlockMove:
    """A flow of blocks from a source to a destination.

    Attributes
    ----------
    source, destination : str
    year : int array, shape (blocks,)
        The year of each, from 0.
    share : array, shape (blocks,)
        The share of each.
    cash : array, shape (blocks,)
        What the whole of each earns by it, besides the cost of mining, in the currency of the year.
    process : int, optional
        The process that takes it.
    stockpile : Stockpile, optional
        The stockpile that it goes to or comes from.
    """

    source: str
    destination: str
    year: NDArray[np.int64]
    share: NDArray[np.float64]
    cash: NDArray[np.float64]
    process: Optional[int] = None
    stockpile: Optional[Stockpile] = None

    @property
    def moves(self) -> NDArray[np.bool_]:
        """Whether more of each block moves than a solver leaves by rounding."""
        return self.share > SUM_ERROR

    def recovered(self, plan: Plan, metal: str, cells: NDArray[np.int64]) -> NDArray[np.float64]:
        """Returns the metal that is recovered of whole cells; none if no process takes them."""
        if self.process is None:
            return np.zeros(len(cells))
        left = self.stockpile.recovery.get(metal, 1.0) if self.stockpile else 1.0
        return plan.values.by_process[self.process].metal[metal][cells] * left


def flows_of(blocks: BlockSchedule, move: BlockMove) -> pd.DataFrame:
    """Returns a row per block with tonnes that moves."""
    planned, plan = blocks.planned, blocks.plan
    some = np.flatnonzero(move.moves & (plan.values.tonnes[planned.cells] > 0))
    cells, share = planned.cells[some], move.share[some]
    found = {"method": BLOCK, "year": move.year[some] + 1, "bench": plan.grid.toes()[level_of(plan, cells)]}
    found |= codes_of(plan, cells) | {"source": move.source, "destination": move.destination}
    is_waste = move.process is None and move.stockpile is None
    tonnes, fed = plan.values.tonnes[cells] * share, np.zeros(len(share)) if is_waste else share
    found |= {"total_tonnes": tonnes}
    found["feed_tonnes"] = plan.values.feed[cells] * fed
    for metal in plan.project.metals:
        grade = column_of(plan, metal.column, cells) * float(GRADE_UNITS[metal.unit])
        found[f"in_situ_{metal.name}"] = grade * tonnes
        found[f"contained_{metal.name}"] = grade * plan.values.undiluted[cells] * fed
        found[f"recovered_{metal.name}"] = move.recovered(plan, metal.name, cells) * fed
    found["cash_flow"] = move.cash[some] * share
    return pd.DataFrame(found)


def level_of(plan: Plan, cells: NDArray[np.int64]) -> NDArray[np.int64]:
    """Returns the number of the level of each cell, from the top."""
    return cells // plan.grid.per_level


def codes_of(plan: Plan, cells: NDArray[np.int64]) -> dict[str, NDArray[np.object_]]:
    """Returns rock type and resource class of cells with rows, by the columns of tables."""
    row = np.full(plan.grid.count, -1)
    row[plan.grid.rows] = np.arange(len(plan.table))
    table = plan.project.table
    codes = [name for name in (table.rock_type, table.resource_class) if name]
    return {shown_name(name): plan.table[name].astype(str).to_numpy()[row[cells]] for name in codes}


def of_schedule(
    problem: BlockProblem,
    schedule: Assignment,
    multipliers: NDArray[np.float64],
    discounts: NDArray[np.float64],
) -> Certificate:
    """Returns the certificate of a schedule.

    Parameters
    ----------
    problem : BlockProblem
    schedule : Assignment
    multipliers : ndarray
        The price of each limit in each year, below 0 for minimums, and behind them of each total: shape (limits and totals, years).
    discounts : ndarray
        The discount factor of each year: shape (years,).

    Raises
    ------
    PlanError
        If values differ by year in more than the discount factor, or if years have costs.
    """
    if problem.running_costs.any():
        raise PlanError(f"{WHOLE}: it cannot state costs of years")
    values, later = values_of(problem, discounts)
    count = len(problem.limits)
    prices = multipliers if multipliers.size else np.zeros((count + len(problem.totals), problem.years))
    unit = money_unit([values, later], [np.abs(prices)])
    limits = [it for limit, paid in zip(problem.limits, prices / unit) for it in stated(limit, paid)]
    limits += [stated_total(total, paid) for total, paid in zip(problem.totals, prices[count:] / unit)]
    rows, shares = rows_of(limits, shares_of(schedule, problem.years))
    terms = terms_of(millionths(values / unit))
    if problem.lags is not None:
        again = zip(terms_of(millionths(later / unit)), problem.lags.tolist())
        terms += tuple(replace(term, lag=lag) for term, lag in again if 0 < lag < problem.years)
    return Certificate(values.shape[1], terms, millionths(discounts), rows, problem.precedences, shares, unit)


def values_of(problem: BlockProblem, discounts: NDArray[np.float64]) -> tuple[NDArray[np.float64], NDArray[np.float64]]:
    """Returns what blocks earn by destination as they are mined, and as a stockpile gives them back, before discounting, each of shape (blocks,
    destinations).

    Raises
    ------
    PlanError
        If these differ by year.
    """
    lags = np.zeros(problem.destinations, dtype=np.int64) if problem.lags is None else problem.lags
    # What is mined in the last year is not reclaimed.
    mined = np.where(lags > 0, problem.values[:, :, -1] / discounts[-1], problem.values[:, :, 0] / discounts[0])
    reclaimed_at = np.append(discounts, np.inf)[np.minimum(lags, problem.years)]
    later = np.where(lags > 0, (problem.values[:, :, 0] - mined * discounts[0]) / reclaimed_at, 0.0)
    year = lags[:, None] + np.arange(problem.years)
    factors = np.where(year < problem.years, np.append(discounts, 0.0)[np.minimum(year, problem.years)], 0.0)
    stated = mined[:, :, None] * discounts + later[:, :, None] * factors
    if not np.allclose(stated, problem.values, rtol=SUM_ERROR, atol=BLOCK_MONEY):
        raise PlanError(f"{WHOLE}: it cannot state prices or costs that differ by year")
    return mined, later


def sides_of(problem: BlockProblem) -> tuple[tuple[str, str], ...]:
    """Returns name and side of the limits of the texts, in their order."""
    of_years = [(limit.name, side) for limit in problem.limits for side in limit.sides]
    return (*of_years, *map(name_and_side, problem.totals))


def name_and_side(total: TotalLimit) -> tuple[str, str]:
    """Returns what bound.csv calls a total, and its side."""
    return (MUST_MINE, "min") if total.least else (total.name, "max")


def terms_of(amounts: NDArray[np.int64]) -> tuple[Term, ...]:
    """Returns a term for each destination, from amounts of shape (blocks, destinations)."""
    return tuple(Term(number, column) for number, column in enumerate(amounts.T))


def shares_of(schedule: Assignment, years: int) -> Shares:
    """Returns the shares in millionths, which add up to the whole of each block that is mined. The greatest share takes what rounding leaves."""
    shares = np.floor(schedule.share * UNIT + 0.5).astype(np.int64)
    mined = np.flatnonzero(schedule.year < years)
    shares[schedule.year >= years] = 0
    greatest = shares[mined].argmax(axis=1)
    shares[mined, greatest] += UNIT - shares[mined].sum(axis=1)
    block, destination = np.nonzero(shares)
    return Shares(block, schedule.year[block].astype(np.int64), destination, shares[block, destination])


def stated(limit: BlockLimit, prices: NDArray[np.float64]) -> list[StatedLimit]:
    """Returns a limit as one on the most, and one with turned signs on the least, as far as there are such. Amounts are rounded down, so that no schedule
    of the project exceeds a limit by rounding."""
    found = []
    for side in limit.sides:
        sign, bound = (1.0, limit.most) if side == MAX or limit.turned else (-1.0, limit.floor)
        used = {it.destination: it for it in used_terms(millionths(sign * limit.amounts, down=True))}
        lags = ((number, lag) for numbers, lags in limit.windows for number in numbers.tolist() for lag in lags)
        terms = tuple(replace(used[number], lag=lag) for number, lag in lags if number in used and lag < len(bound))
        # Waste that one dump takes goes to no other.
        is_loose = side == "min" or limit.name.startswith(DUMP)
        found.append(StatedLimit(limit.name, sign * bound, sign * prices, terms, is_loose))
    return found


def stated_total(total: TotalLimit, prices: NDArray[np.float64]) -> StatedLimit:
    """Returns a total as a limit of what is used by the end of each year, with turned signs if it is a minimum. It has a price in the last year alone,
    in which a minimum is due."""
    name, side = name_and_side(total)
    sign, bound = (1.0, total.most) if side == "max" else (-1.0, total.least)
    last = np.arange(len(prices)) == len(prices) - 1
    most = np.where(last | (side == "max"), sign * bound, 0.0)
    amounts = used_terms(millionths(sign * total.amounts, down=True))
    terms = tuple(replace(term, lag=lag) for term in amounts for lag in range(len(prices)))
    return StatedLimit(name, most, sign * prices * last, terms, is_loose=True)


def used_terms(amounts: NDArray[np.int64]) -> tuple[Term, ...]:
    """Returns the terms of destinations that use a limit at all."""
    return tuple(it for it in terms_of(amounts) if it.amounts.any())

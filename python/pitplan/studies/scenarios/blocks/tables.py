"""Tables of the schedules of all scenarios, and of the common schedule."""

from __future__ import annotations

from collections.abc import Iterator
from dataclasses import dataclass, replace
from functools import cached_property
from typing import Any

import numpy as np
import pandas as pd
from numpy.typing import NDArray

from pitplan.config.project import Project
from pitplan.config.schedule import ScheduleRules
from pitplan.core.tolerances import SUM_ERROR
from pitplan.economics.period_costs import of_project
from pitplan.errors import WARNING, PlanError
from pitplan.pits import ore_kinds
from pitplan.pits.best_worst_case import year_discounts
from pitplan.pushbacks.bench_table import CASH, ORE, ROCK
from pitplan.scheduling.blocks import BlockProblem
from pitplan.scheduling.blocks.filling import best_shares
from pitplan.scheduling.blocks.from_plan import BlockAmounts
from pitplan.scheduling.blocks.tables import SHARE
from pitplan.scheduling.limits import DUMP, DUMPED, MAX, limits_of
from pitplan.studies.scenarios import pit_probability
from pitplan.studies.scenarios.store import Shared
from pitplan.studies.scenarios.worker import plan_of

from .problem import ScenarioBlocks, SentBlocks, limits_in_record, orders_of
from .recourse import Recourse, excess_of, is_soft
from .worker import WrittenSchedule, all_shares, blocks_of, first_shown, mean_of, read_answer

# The common schedule in each scenario: feed and cash flow of its years with the grades of the scenario.
#
# Each year mines the blocks of the schedule, with any grades. Then the ore goes to processes; if it exceeds a
# limit, the selection that earns most, and the rest becomes waste. The selection of a year does not bind other years,
# so this is the most that the schedule can earn in the scenario. It is feasible for the scenario's own problem, which
# has the same years, limits and blocks, and sends blocks in shares too. So it earns at most the upper bound of the
# scenario. The mean of these bounds is a bound on the wait-and-see problem. Less the mean NPV of the common schedule
# it bounds the expected value of perfect information (Birge and Louveaux, Introduction to Stochastic Programming, 2nd
# edition, Springer 2011, chapter 4).

LEFT, PLANNED, EXCESS = "unprocessed_tonnes", "planned_feed_tonnes", "excess_waste_tonnes"


@dataclass(frozen=True)
class CommonInScenario:
    """The common schedule applied to a scenario.

    Attributes
    ----------
    year : int array, shape (blocks,)
        The year in which each block is mined, from 0; the number of periods if never.
    blocks : ScenarioBlocks
    sent : SentBlocks
        The blocks in the scenario.
    project : Project
        With limits and discounting.
    """

    year: NDArray[np.int64]
    blocks: ScenarioBlocks
    sent: SentBlocks
    project: Project

    @cached_property
    def amounts(self) -> BlockAmounts:
        return self.sent.own

    @cached_property
    def problem(self) -> BlockProblem:
        """The problem of the scenario, with room for the mined blocks as waste in each year, since these are no choice."""
        problem = self.blocks.problem(self.amounts, self.project)
        as_waste = [np.bincount(self.year, it.amounts[:, 0], minlength=problem.years + 1) for it in problem.limits]
        limits = [
            it if is_soft(it.name) else replace(it, most=np.maximum(it.most, by_year[: problem.years]))
            for it, by_year in zip(problem.limits, as_waste)
        ]
        return replace(problem, limits=tuple(limits))

    @cached_property
    def share(self) -> NDArray[np.float64]:
        """The share of each mined block that goes to each destination in its year, shape (blocks, destinations)."""
        problem = self.problem
        if self.project.dumps:
            return Recourse(problem, self.year, self.sent.goes == np.arange(problem.destinations)).share
        found, as_waste = np.zeros((problem.blocks, problem.destinations)), np.eye(problem.destinations)[0]
        for year in np.unique(self.year[self.year < problem.years]).tolist():
            blocks = np.flatnonzero(self.year == year)
            shares = best_shares(problem, blocks, year, np.tile(as_waste, (len(blocks), 1)))
            found[blocks] = self.kept(shares, blocks, year)
        return found

    def kept(self, shares: NDArray[np.float64], blocks: NDArray[np.int64], year: int) -> NDArray[np.float64]:
        """Returns shares within limits that HiGHS keeps up to its tolerance only: a hair more of each block goes to waste."""
        part = 1.0
        for limit in self.problem.limits:
            amounts = limit.amounts[blocks]
            as_waste, taken = float(amounts[:, 0].sum()), float((amounts * shares).sum())
            if not limit.signed and taken > limit.most[year] and taken > as_waste:
                part = min(part, (float(limit.most[year]) - as_waste) / (taken - as_waste))
        if part == 1.0:
            return shares
        found = shares * part
        found[:, 0] += 1.0 - part
        return found

    def years(self, planned: NDArray[np.float64]) -> pd.DataFrame:
        """Returns one row per year of the schedule, with the columns of common_schedule_years.csv.

        Parameters
        ----------
        planned : array, shape (periods,)
            Feed of each year on the mean of all scenarios, in tonnes.
        """
        flows, periods, share = self.amounts.flows, self.blocks.periods, self.share
        is_mined, last = self.year < periods, int(self.year[self.year < periods].max(initial=-1)) + 1
        cash = self.amounts.cash(self.project, periods)[
            np.arange(len(self.year)), :, np.minimum(self.year, periods - 1)
        ]
        fed = (flows[ORE] * share).sum(axis=1)
        of_block = {ROCK: flows[ROCK][:, 0] * is_mined, ORE: fed}
        of_block[LEFT] = flows[ORE].max(axis=1) * is_mined - fed
        of_block |= {name: (flows[name] * share).sum(axis=1) for name in dumps_of(self.project)}
        of_block[CASH] = (cash * share).sum(axis=1)
        sums = {name: np.bincount(self.year, it, minlength=periods + 1)[:last] for name, it in of_block.items()}
        table = pd.DataFrame({"year": np.arange(1, last + 1), **sums})
        table.insert(4, PLANNED, planned[:last])
        if self.project.dumps:
            table.insert(5 + len(self.project.dumps), EXCESS, sum(self.excess(table)))
        present = table[CASH] * year_discounts(self.project.shells, last) - self.problem.running_costs[:last]
        costs = sum(of_project(self.project).costs(last).values())
        return table.assign(**{CASH: table[CASH] - costs, "discounted_cash_flow": present})

    def excess(self, years: pd.DataFrame) -> Iterator[NDArray[np.float64]]:
        """Yields by how much each dump takes more than its limits in each year."""
        limits = limits_of(self.project, self.project.schedule or ScheduleRules())
        for name in dumps_of(self.project):
            held = limits.places.get((name.replace(DUMP, DUMPED, 1), MAX))
            capacity = np.inf if held is None else held.amount
            yield excess_of(years[name].to_numpy(), limits.of_place(name, MAX, len(years)), capacity)


def dumps_of(project: Project) -> list[str]:
    """Returns the names of the amounts that dumps take."""
    return [f"{DUMP}{it.name}" for it in project.dumps]


def row_of(years: pd.DataFrame) -> dict[str, float]:
    """Returns the columns of schedules.csv of the common schedule in a scenario, from its years."""
    short = years[ORE] < years[PLANNED] * (1 - SUM_ERROR)
    excess = {f"common_{EXCESS}": float(years[EXCESS].sum())} if EXCESS in years else {}
    return {
        "common_npv": float(years["discounted_cash_flow"].sum()),
        "common_feed_tonnes": float(years[ORE].sum()),
        "common_unprocessed_tonnes": float(years[LEFT].sum()),
        "common_years_short": int(short.sum()),
        **excess,
    }


SOLVED = "solved"
# The columns with means and quantiles.
VALUES = ("npv", "upper_bound", "common_npv")


@dataclass(frozen=True)
class Schedules:
    """The schedules of all scenarios.

    Attributes
    ----------
    table : DataFrame
        One row per scenario, with the columns of schedules.csv.
    years : DataFrame
        One row per scenario and year of the common schedule.
    one : WrittenSchedule
        The common schedule; its NPV and upper bound are at the mean block values.
    missing : dict of int to str
        The reason by number for each scenario without a result.
    """

    table: pd.DataFrame
    years: pd.DataFrame
    one: WrittenSchedule
    missing: dict[int, str]

    @property
    def answered(self) -> pd.DataFrame:
        """The rows of scenarios that have a schedule of their own."""
        return self.table[self.table["status"] == SOLVED]

    @property
    def planned_waste(self) -> dict[str, float]:
        """What each dump takes by the common schedule on the mean of scenarios, in tonnes."""
        return {name.removeprefix(DUMP): round(it, 3) for name, it in self.one.row.items() if name.startswith(DUMP)}

    def record(self, shared: Shared) -> dict[str, Any]:
        """Returns common_schedule.json: limits and years, statistics over all scenarios with a result of the NPV of the common schedule, the NPV
        of each scenario's own and its upper bound, and the upper bound on the expected value of perfect information.
        """
        spread = pit_probability.spread_of(self.answered, [], list(VALUES)).iloc[0]
        words = [name.removeprefix("upper_bound_") for name in spread.index if name.startswith("upper_bound_")]
        calendar, periods = shared.project.shells.calendar, shared.record["years"]
        return {
            "scenarios": len(self.table),
            "answered": len(self.answered),
            "years": calendar.span(periods),
            **({} if calendar.is_yearly else {"periods": periods}),
            **limits_in_record(shared.project),
            **({"dumps": self.planned_waste} if shared.project.dumps else {}),
            "npv_as_planned": round(self.one.row["npv"], 3),
            "upper_bound_as_planned": round(self.one.row["upper_bound"], 3),
            **{name: {word: round(float(spread[f"{name}_{word}"]), 3) for word in words} for name in VALUES},
            "perfect_information": round(float(spread["upper_bound_mean"] - spread["common_npv_mean"]), 3),
        }

    def by_block(self, shared: Shared, blocks: pd.DataFrame) -> pd.DataFrame:
        """Returns the rows of blocks.csv, by id, with the year in the common schedule (0: none), the share that is planned for each process, and with
        dumps that for each of what is no ore."""
        order, orders = np.argsort(shared.grid.rows), orders_of(shared.project)
        share = orders.shares(all_shares(shared, self.one.share[order])).round(9)
        shares = {f"{SHARE}{name}": share[:, number] for name, number in orders.destinations.shown.items()}
        return pit_probability.written(blocks).assign(year=self.one.year[order], **shares)


def gather(shared: Shared, partial: bool = False) -> Schedules:
    """Reads the schedules of all scenarios, and applies the common schedule to each.

    Parameters
    ----------
    shared : Shared
    partial : bool
        Gather even if scenarios have no result.

    Raises
    ------
    PlanError
        If a result is missing, unless `partial`; if the common schedule or all others are missing; or if a result cannot be read.
    """
    missing = pit_probability.missing_of(shared, partial)
    job = shared.jobs[-1]
    if job.number in missing:
        raise PlanError(f"the {job.label} was not made: {missing[job.number]}: run pitplan scenarios again")
    one, rows, years = read_answer(shared, job), [], []
    blocks = blocks_of(shared)
    year = year_of_blocks(shared, one, blocks)
    planned = planned_ore(shared, one, blocks)
    for scenario in shared.scenarios:
        plan = plan_of(shared, scenario)
        if shared.project.dumps:
            ore_kinds.accepted(plan, blocks.cells[year < blocks.periods])
        sent = SentBlocks.of_plan(plan, blocks.cells)
        mined = CommonInScenario(year, blocks, sent, shared.project).years(planned)
        heads, why = pit_probability.heads_of(scenario), missing.get(scenario.number)
        own = dict.fromkeys(one.row, np.nan) if why else read_answer(shared, scenario).row
        rows.append(heads | {"status": why or SOLVED} | own | row_of(mined))
        years.append(pd.DataFrame(heads | {name: mined[name] for name in mined}))
    return Schedules(pd.DataFrame(rows), pd.concat(years, ignore_index=True), one, missing)


def year_of_blocks(shared: Shared, one: WrittenSchedule, blocks: ScenarioBlocks) -> NDArray[np.int64]:
    """Returns the year of each block in a schedule, from 0; the number of periods if it is not mined."""
    year = np.zeros(shared.grid.count, dtype=np.int64)
    year[shared.grid.rows] = one.year
    found = year[blocks.cells]
    return np.where(found > 0, found - 1, blocks.periods)


def planned_ore(shared: Shared, one: WrittenSchedule, blocks: ScenarioBlocks) -> NDArray[np.float64]:
    """Returns the feed of each year of the common schedule, on the mean of all scenarios, in tonnes."""
    amounts = mean_of(shared).flows[ORE][:, first_shown(shared) :]
    share = np.zeros((shared.grid.count, amounts.shape[1]))
    share[shared.grid.rows] = one.share
    fed = (amounts * share[blocks.cells]).sum(axis=1)
    of_years = np.bincount(year_of_blocks(shared, one, blocks), fed, minlength=blocks.periods + 1)
    return of_years[: blocks.periods].astype(np.float64)


def quantiles(schedules: Schedules) -> pd.DataFrame:
    """Returns one row per price deck, over the realisations with a schedule of their own: mean, minimum, maximum and quantiles of NPV, upper
    bound, and NPV of the common schedule."""
    table = schedules.answered
    return pit_probability.spread_of(table, [name for name in table.columns if name.startswith("price_")], list(VALUES))


def notes(schedules: Schedules, shared: Shared) -> list[str]:
    told, count = schedules.record(shared), len(schedules.answered)
    one, bound, value = (told[name]["mean"] for name in ("common_npv", "upper_bound", "npv"))
    left, short = (
        schedules.answered["common_unprocessed_tonnes"].mean(),
        schedules.answered["common_years_short"].mean(),
    )
    spread = f"{told['common_npv']['least']:,.0f} to {told['common_npv']['greatest']:,.0f}"
    excess = schedules.answered.get(f"common_{EXCESS}", pd.Series(dtype=float))
    over = int((excess > 0).sum())
    share = f", {100 * told['perfect_information'] / bound:.2f} %" if bound > 0 else ""
    return [
        f"common schedule: mean NPV {one:,.0f} over {count:,} scenarios, from {spread}; "
        f"{told['npv_as_planned']:,.0f} as planned from the mean block values",
        f"on average {left:,.0f} t of its ore are left as waste for lack of processing capacity, and {short:.1f} of its years "
        "have less feed than planned",
        f"own schedule of each scenario: mean NPV {value:,.0f}, upper bound {bound:,.0f}; the expected value of perfect "
        f"information (EVPI) is at most {told['perfect_information']:,.0f}{share}",
        *(
            [
                f"{WARNING}in {over:,} scenario{'s' * (over != 1)} the dumps take more than their limits, up to {excess.max():,.0f} t: no bound holds "
                "for the common schedule there; add room or another of the [[dumps]]"
            ]
            if over
            else []
        ),
    ]

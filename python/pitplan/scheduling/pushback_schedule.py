"""A yearly schedule of a pit's pushbacks by several methods, with an upper bound on the NPV of all of them."""

from __future__ import annotations

import math
from collections.abc import Iterator
from dataclasses import dataclass, field, replace
from functools import cached_property
from pathlib import Path
from typing import TYPE_CHECKING, Any, Optional, Union

import numpy as np
import pandas as pd
import scipy
from numpy.typing import NDArray

from pitplan.config.material import MILL
from pitplan.config.periods import Calendar
from pitplan.config.project import Project
from pitplan.config.schedule import Effort, ScheduleRules
from pitplan.config.shells import ShellRules
from pitplan.core.progress import Progress
from pitplan.core.tolerances import SOLVER_SUM, SUM_ERROR
from pitplan.economics import period_costs
from pitplan.errors import WARNING, PlanError
from pitplan.pits.best_worst_case import year_discounts
from pitplan.pits.shells import Shells
from pitplan.plan import Plan
from pitplan.pushbacks import bench_table
from pitplan.pushbacks.bench_table import CASH, ORE, ROCK, PushbackBenches
from pitplan.pushbacks.nested import Pushbacks
from pitplan.scheduling import inventory
from pitplan.scheduling.cash_flow.lines import Operation
from pitplan.scheduling.cash_flow.tables import Finance, operations, pushback_finances
from pitplan.scheduling.flow.material import Material, by_choice, by_value, names_of, of_pushbacks
from pitplan.scheduling.flow.tables import cutoffs

from .bench_sequencing import Problem, running
from .certificate import checked, write
from .flow import bound, opening, scheduler, tables
from .flow.certificate import FlowCertificate
from .flow.conflicts import Conflict
from .flow.flows import Flows
from .flow.mixed_reclaim import loss_by_mixing, notes_of_mixing
from .flow.model import FlowModel
from .flow.multipliers import Multipliers
from .flow.opening import OpeningLots, balances_at_start
from .flow.programme import FlowOptimum, FlowProgramme
from .flow.tables import stockpile_table
from .limits import Prices, limits_of, periods_of, with_grades
from .methods import LP, MILP, NAMES, RULE, notes_of_gap
from .schedule import Schedule

if TYPE_CHECKING:
    from matplotlib.axes import Axes

    from pitplan.commands.writing import Writing

# The years around those of a bench in which the choices of its blocks count.
NEAR = 3.0


def years_near(cumulative: NDArray[np.float64], calendar: Calendar) -> NDArray[np.bool_]:
    """Returns the years in which a schedule may mine a bench that an optimum mines by these shares, shape (benches, years): from NEAR years before
    those in which it does so to NEAR years after them."""
    years = cumulative.shape[1]
    ends, lengths = calendar.ends(years), calendar.lengths(years)
    begun, through = cumulative > SUM_ERROR, cumulative > 1 - SUM_ERROR
    first = np.where(begun.any(axis=1), begun.argmax(axis=1), years - 1)
    last = np.where(through.any(axis=1), through.argmax(axis=1), years - 1)
    is_late = ends >= (ends - lengths)[first, None] - NEAR + SUM_ERROR
    return np.asarray(is_late & (ends - lengths <= ends[last, None] + NEAR - SUM_ERROR))


def near_choices(choices: NDArray[np.int64], is_near: NDArray[np.bool_]) -> NDArray[np.int64]:
    """Returns the choices of blocks by the year in which they are mined, shape (blocks, years). A year that is not near has that of the nearest one that
    is."""
    years = np.arange(is_near.shape[1])
    first, last = is_near.argmax(axis=1), years[-1] - is_near[:, ::-1].argmax(axis=1)
    return np.take_along_axis(choices, np.clip(years, first[:, None], last[:, None]), axis=1)


# The linear programme may take this part of the rule's years more.
MORE_YEARS = 0.2
# Parcels are made finer while the bound is above their optimum by more than this share, so often at most.
FINE, REFINEMENTS = 0.002, 3
# Value bins of each process, and parts by limited grades, of the first of these programmes.
FEW_BINS, FEW_PARTS = 8, 4
# The search for the prices of large programmes ends when less than this share is promised: of the first programme, and of finer ones.
ROUGH, CLOSE = 3e-3, 3e-4
# The integer programme of so few benches times years, and unknowns in all, is solved unasked for some seconds, if the gap exceeds this share.
SMALL, SMALL_UNKNOWNS, UNASKED, WORTH_SEARCHING = 40, 5_000, Effort(gap=1e-4, seconds=10.0), 1e-3


@dataclass(frozen=True, eq=False, repr=False)
class PushbackSchedule(Schedule):
    """A yearly schedule of pushbacks: what is mined in which year and where it goes, by method.

    Attributes
    ----------
    pushbacks : Pushbacks
    material : Material
        Their benches, and their ore by block and in parcels.
    model : FlowModel
        The problem of material flow; it has the greatest number of years.
    flows : dict of str to Flows
        What each method found, the rule first.
    lead : int
        By how many benches each pushback follows the one before, of the rule.
    optimum : FlowOptimum, optional
        The optimum of the linear programme; None if it was not solved.
    upper_bound : float, optional
        No schedule of these pushbacks has a higher NPV, wherever each block goes.
    prices : dict
        The prices of limits from which it follows.
    lots : OpeningLots, optional
        What lies on stockpiles at the start; None: nothing.
    milp_upper_bound : float, optional
        What the integer programme had shown by its end that no schedule of these parcels exceeds; None if it was not solved.
    interrupted : bool
        Whether a method is missing since the run was interrupted.
    """

    pushbacks: Pushbacks
    material: Material
    model: FlowModel
    flows: dict[str, Flows]
    lead: int
    optimum: Optional[FlowOptimum] = None
    upper_bound: Optional[float] = None
    milp_upper_bound: Optional[float] = None
    interrupted: bool = False
    prices: Prices = field(default_factory=dict)
    lots: Optional[OpeningLots] = None

    def __repr__(self) -> str:
        """The methods with their NPVs."""
        each = ", ".join(f"{row.method} {row.npv:,.0f}" for row in self.methods.itertuples())
        return f"Schedule of {len(self.pushbacks.table)} pushbacks; NPV: {each}"

    @property
    def plan(self) -> Plan:
        """The plan, with the rules of `[schedule]`."""
        return self.pushbacks.plan

    @property
    def problem(self) -> Problem:
        return self.model.problem

    @property
    def benches(self) -> PushbackBenches:
        return self.model.benches

    @property
    def settings(self) -> ShellRules:
        return self.problem.settings

    @cached_property
    def shares(self) -> dict[str, np.ndarray]:
        """By method the share of each bench that is mined in each year, shape (benches, years)."""
        return {method: flows.mined for method, flows in self.flows.items()}

    def time(self, count: int) -> float:
        """Returns the years that `count` periods last."""
        return self.settings.calendar.span(count)

    @property
    def names(self) -> list[str]:
        """The processes by name; "" of a project that names none."""
        return names_of(self.pushbacks.plan)

    @property
    def is_stocked(self) -> bool:
        """Whether there is a stockpile."""
        return bool(self.model.stockpiles)

    @cached_property
    def material_flows(self) -> pd.DataFrame:
        """The table flows.csv; see `flow.tables.flow_table`."""
        return tables.flow_table(self)

    @property
    def factor(self) -> float:
        """The revenue factor of the last pushback's shell."""
        return self.pushbacks.factors[-1]

    @property
    def shown(self) -> str:
        """The method whose years the blocks have: the one with the highest NPV."""
        return max(self.flows, key=self.value)

    def discounts(self, count: int) -> np.ndarray:
        """Returns the discount factors of years."""
        return year_discounts(self.settings, count)

    def value(self, method: str) -> float:
        """Returns the NPV of a method, in the currency."""
        return float(self.yearly(method)["discounted_cash_flow"].sum())

    def yearly(self, method: str) -> pd.DataFrame:
        """Returns one row per year: amounts, fixed_cost and capex if years cost anything, cash_flow after these, and discounted_cash_flow."""
        mined, reclaimed = self.mined(method), self.reclaimed(method)
        count = self.flows[method].years
        found = {name: amounts.sum(axis=0) + reclaimed[name] for name, amounts in mined.items()}
        runs, money = running(self.flows[method].moved), self.problem.money
        costs = {"fixed_cost": money.fixed(count) * runs, "capex": money.spent(count) * runs} if money.columns else {}
        cash = found.pop(CASH)
        present = cash * self.discounts(count) - self.problem.costs_of_years(count) * runs
        return pd.DataFrame(found | costs | {CASH: cash - sum(costs.values()), "discounted_cash_flow": present})

    def mined(self, method: str) -> dict[str, np.ndarray]:
        """Returns what flows of each bench as it is mined, by the names of tables, each of shape (benches, years)."""
        flows = self.flows[method].from_pit
        return {name: flows[:, :, number] for number, name in enumerate(self.benches.names) if tables.is_shown(name)}

    def reclaimed(self, method: str) -> dict[str, np.ndarray]:
        """Returns what is reclaimed from stockpiles in each year, by the names of tables, each of shape (years,)."""
        flows = self.flows[method].from_stockpiles.sum(axis=0) + self.flows[method].of_opening
        return {name: flows[:, number] for number, name in enumerate(self.benches.names) if tables.is_shown(name)}

    def left(self, method: str) -> float:
        """Returns the tonnes of the pushbacks that a method leaves unmined."""
        return float(self.benches.of(ROCK) @ (1 - self.shares[method].sum(axis=1)))

    @cached_property
    def table(self) -> pd.DataFrame:
        """One row per method, bench and year in which a share of the bench is mined; and in pushback 0, without a bench, one per year in which
        ore is reclaimed from stockpiles.

        Columns: method; year from 1; pushback; bench, the elevation of its toe; share of the bench; total_tonnes, feed_tonnes,
        recovered_METAL; cash_flow at the year's prices, and discounted_cash_flow, both without period costs.
        """
        return pd.concat([self.rows_of(method) for method in self.flows], ignore_index=True)

    def rows_of_reclaimed(self, method: str) -> pd.DataFrame:
        """Returns the rows of a method for the ore that is reclaimed."""
        amounts = self.reclaimed(method)
        year = np.flatnonzero(amounts[ORE])
        head = {"method": np.full(len(year), method, dtype=object), "year": year + 1, "pushback": 0}
        flows = {name: values[year] for name, values in amounts.items()}
        present = flows[CASH] * self.discounts(self.flows[method].years)[year]
        return pd.DataFrame(head | {"bench": np.nan, "share": 0.0} | flows | {"discounted_cash_flow": present})

    def rows_of(self, method: str) -> pd.DataFrame:
        benches, shares, amounts = self.benches, self.shares[method], self.mined(method)
        year, bench = np.nonzero(shares.T)
        discounts = self.discounts(shares.shape[1])
        head = {
            "method": np.full(len(year), method, dtype=object),
            "year": year + 1,
            "pushback": benches.pushback[bench],
            "bench": self.plan.grid.toes()[benches.level[bench]],
            "share": shares[bench, year],
        }
        flows = {name: values[bench, year] for name, values in amounts.items()}
        rows = pd.DataFrame(head | flows | {"discounted_cash_flow": flows[CASH] * discounts[year]})
        reclaimed = self.rows_of_reclaimed(method)
        return pd.concat([reclaimed, rows]).sort_values("year", kind="stable") if len(reclaimed) else rows

    @cached_property
    def years(self) -> pd.DataFrame:
        """One row per method and year, as `Shells.years` has of cases; the factor is that of the last pushback."""
        found = []
        for method in self.flows:
            years = self.yearly(method)
            head = {"case": method, "revenue_factor": self.factor, "year": years.index + 1}
            for place, (name, values) in enumerate(head.items()):
                years.insert(place, name, values)
            found.append(years)
        return pd.concat(found, ignore_index=True)

    @cached_property
    def methods(self) -> pd.DataFrame:
        """One row per method: NPV, upper bound and optimality gap, with stockpiles also the NPV if each gives back its mean grade, years, tonnes that
        are mined, mill feed, tonnes that stay unmined, and recovered metal."""
        rows = []
        for method, flows in self.flows.items():
            value, yearly = self.value(method), self.yearly(method)
            most = np.nan if self.upper_bound is None else self.upper_bound
            rows.append(
                {
                    "method": method,
                    "npv": value,
                    "upper_bound": most,
                    "optimality_gap": (most - value) / abs(most) if most else np.nan,
                    **({"npv_at_mean_grade": value - loss_by_mixing(flows)} if self.is_stocked else {}),
                    "years": self.time(flows.years),
                    "tonnes": yearly[ROCK].sum(),
                    "feed_tonnes": yearly[ORE].sum(),
                    "unmined_tonnes": self.left(method),
                    **yearly.filter(like="recovered_").sum(),
                }
            )
        return pd.DataFrame(rows)

    @property
    def record(self) -> dict[str, Any]:
        """What schedule.json has: of each method NPV, years, unmined tonnes and cut-offs; the bounds; and the limits."""
        rules, most = rules_of(self.plan.project), self.milp_upper_bound
        return {
            "revenue_factor": self.factor,
            "methods": {method: self.record_of(method) for method in self.flows},
            "upper_bound": None if self.upper_bound is None else round(self.upper_bound, 3),
            "milp_upper_bound": None if most is None or math.isinf(most) else round(most, 3),
            "years": self.time(self.model.years),
            **self.periods_in(self.model.years),
            "shown": self.shown,
            "lead": self.lead,
            "lag": self.benches.lag,
            **self.problem.limits.record,
            "ramp_up": list(rules.ramp_up),
            "vertical_advance_rate": rules.vertical_advance_rate,
            "bins": {name or MILL: edges.tolist() for name, edges in self.material.edges.items()},
            "stockpiles": [it.name for it in self.model.stockpiles],
            **({"dumps": [it.name for it in self.model.dumps]} if self.model.dumps else {}),
            "interrupted": self.interrupted,
            **({"certificate": self.certified.record} if self.certified else {}),
            "solver": f"HiGHS of scipy {scipy.__version__}",
        }

    def record_of(self, method: str) -> dict[str, Any]:
        """Returns the record of a method; those of programmes with the cut-offs, by process, in net value per tonne of feed by year."""
        years = self.flows[method].years
        by_process = {name: values[:years].round(6).tolist() for name, values in cutoffs(self).items()}
        return {
            "npv": round(self.value(method), 3),
            "years": self.time(years),
            **self.periods_in(years),
            "unmined_tonnes": round(self.left(method), 3),
            **({} if method == RULE or self.optimum is None else {"cutoffs": by_process}),
        }

    def periods_in(self, count: int) -> dict[str, Any]:
        """Returns the number of periods unless they are years."""
        return {} if self.settings.calendar.is_yearly else {"periods": count}

    @property
    def notes(self) -> list[str]:
        """What a planner should know of the schedule."""
        found = []
        if RULE in self.flows:
            found.append(
                f"rule: each pushback follows the one before by {self.lead} benches, the lead with the highest NPV"
            )
        if self.interrupted:
            found.append(
                f"{WARNING}the run was interrupted before all methods had finished; the table has those that did"
            )
        if self.upper_bound is not None:
            scope = f"any schedule of these pushbacks of up to {self.time(self.model.years):.10g} years within these limits, wherever each block goes"
            found.append(f"upper bound on the NPV of {scope}: {self.upper_bound:,.0f}")
        if self.milp_upper_bound is not None and MILP not in self.flows:
            found.append(f"{WARNING}milp found no schedule within its time limit")
        elif self.milp_upper_bound is not None:
            found.append(f"upper bound of milp on schedules by these value bins: {self.milp_upper_bound:,.0f}")
        found += [self.certified.note] if self.certified else []
        currency = self.plan.project.economics.currency
        for name, values in cutoffs(self).items() if self.optimum is not None else ():
            by_year = ", ".join(f"{worth:.2f}" for worth in values[: self.flows[self.shown].years])
            found.append(
                f"cut-off of {name} by {self.settings.calendar.word} (net value of a tonne of feed, {currency}): {by_year}"
            )
        if self.upper_bound is not None and not self.interrupted:
            rules = self.plan.project.schedule
            found += notes_of_gap(self.value(self.shown), self.upper_bound, rules.milp if rules else None)
        found += self.notes_of_stockpiles()
        if self.model.dumps and RULE not in self.flows and not self.model.asks_least:
            found.append("no schedule by rule: its waste finds no room in the dumps")
        for method in self.flows:
            rock = self.left(method)
            if self.flows[method].opened.any() and not self.shares[method].any():
                found.append(f"{NAMES[method]} mines nothing: it processes what lies on stockpiles at the start alone")
            elif not self.shares[method].any():
                pays = self.shown == method and (self.upper_bound or 0.0) > 0
                found.append(
                    f"{WARNING if pays else ''}{NAMES[method]} mines nothing: at these prices and costs it finds no schedule with an NPV above 0"
                )
            elif rock > 0.5:
                found.append(f"{NAMES[method]}: {rock:,.0f} t of the pushbacks remain unmined")
        return [*found, *self.uncertified]

    def notes_of_stockpiles(self) -> list[str]:
        """Returns what a planner should know of stockpiles whose reclaimed grade differs from the mean of the pile, and what the mean would earn."""
        if not self.is_stocked:
            return []
        table = self.stockpiles.query("method == @self.shown")
        value = self.value(self.shown) - loss_by_mixing(self.flows[self.shown])
        return notes_of_mixing(table, self.starts, self.plan.project, value)

    @property
    def blocks_year(self) -> np.ndarray:
        """For each cell the year by whose end its bench of its pushback is mined, by the method that is shown; 0 if it never is."""
        shares, grid = self.shares[self.shown], self.plan.grid
        # Before the first year nothing is mined.
        through = (np.pad(shares, ((0, 0), (1, 0))).cumsum(axis=1) > 1 - SOLVER_SUM).argmax(axis=1)
        year_of = np.zeros((len(self.pushbacks.factors) + 1, grid.shape[0]), dtype=np.int16)
        year_of[self.benches.pushback, self.benches.level] = through
        return year_of[self.pushbacks.pushback, np.arange(grid.count) // grid.per_level]

    @property
    def blocks_bin(self) -> np.ndarray:
        """The value bin of each cell's ore, from 1; 0 for waste, and with dumps minus the number of the set that accepts it."""
        found, sets = np.zeros(self.plan.grid.count, dtype=np.int16), self.material.sets
        if sets is not None:
            found[:] = -np.maximum(sets.of_cell, 0)
        found[self.material.cells] = self.material.blocks.bin
        return found

    @property
    def blocks(self) -> pd.DataFrame:
        """One row per block of the pushbacks, with the `year` and the value `bin` of the method that is shown, and the shares that go elsewhere."""
        frame = self.pushbacks.blocks
        ids = frame["id"].to_numpy()
        columns = {"year": self.blocks_year, "bin": self.blocks_bin} | inventory.blocks_shares(self)
        return frame.assign(**{name: values[ids] for name, values in columns.items()})

    @cached_property
    def finances(self) -> list[Finance]:
        """The cash flow of each method."""
        return pushback_finances(self)

    @property
    def operation(self) -> Operation:
        """What the method that is shown mines and feeds."""
        return operations(self)[self.shown]

    @property
    def material_tables(self) -> dict[str, pd.DataFrame]:
        """Tables of material by name, the inventory among them; a workbook has these."""
        found = {"feed": self.feed, "flows": self.material_flows, "cutoffs": tables.cutoff_table(self)}
        found["inventory"] = inventory.inventory_table(self)
        found |= {"stockpiles": self.stockpiles} if self.is_stocked else {}
        dumps = self.model.dumps
        return found | ({"dumps": tables.dump_table(self.material_flows, self.last_years, dumps)} if dumps else {})

    @property
    def stockpiles(self) -> pd.DataFrame:
        """What lies on each stockpile, and what is placed and reclaimed, in each year of each method."""
        return stockpile_table(self.material_flows, self.last_years, self.starts, self.plan.project.metals)

    @property
    def starts(self) -> dict[str, Optional[pd.Series]]:
        """By stockpile the feed and the metals that lie there at the start; None: nothing."""
        return balances_at_start(self.model.stockpiles, self.lots)

    @property
    def last_years(self) -> dict[str, int]:
        """The last year of each method."""
        return {method: flows.years for method, flows in self.flows.items()}

    @property
    def limits(self) -> pd.DataFrame:
        """What each method uses of each limit in each year."""
        return tables.limit_table(tables.uses_of_limits(self))

    @cached_property
    def feed(self) -> pd.DataFrame:
        """What each process takes in each year of each method."""
        return tables.feed_table(self.material_flows, self.last_years, self.plan.project.metals, cutoffs(self))

    @property
    def as_shells(self) -> Shells:
        """The shells that end the pushbacks."""
        return self.pushbacks.shells

    @property
    def as_pushbacks(self) -> Pushbacks:
        """The pushbacks."""
        return self.pushbacks

    @property
    def all_notes(self) -> list[str]:
        """The notes that the record has."""
        return [*self.pushbacks.notes, *self.notes, *self.pushbacks.shells.notes]

    def tables(self) -> dict[str, pd.DataFrame]:
        """The tables by name: those of the pushbacks, and of the schedule."""
        found = self.pushbacks.tables() | {"blocks": self.blocks}
        found["years"] = pd.concat([found["years"], self.years], ignore_index=True)
        found |= {"schedule": self.table, "methods": self.methods, "limits": self.limits}
        found |= {"bound": tables.bound_table(self)} if self.optimum is not None else {}
        return found | self.money_tables | self.material_tables

    def summary(self) -> dict[str, Any]:
        """The part of the record plan.json."""
        return self.pushbacks.summary() | {"schedule": self.shown}

    def proved(self, stage: Path, program: Optional[Path]) -> PushbackSchedule:
        """Writes the texts of the schedule that is shown into a folder, and returns it with what the program proves."""
        model = replace(self.model, ore=self.material.blocks)
        found = FlowCertificate(model, self.material.parcel, self.flows[self.shown], prices_of(self))
        toes, made = self.plan.grid.toes(), found.made
        write(made, found.names(toes, self.material.cells), stage)
        processes, stockpiles = [it or "mill" for it in self.names], [it.name for it in model.stockpiles]
        destinations = tuple(it.named(processes, stockpiles) for it in found.destinations)
        proved = checked(stage, program, made.unit)
        return replace(self, certified=replace(proved, destinations=destinations, limits=tuple(found.amounts)))

    def plot(self, axes: Any) -> list[Axes]:
        """Draws the years of the benches of each pushback, a method on each of the axes; returns these."""
        from pitplan.figures import schedule

        return schedule.plot_gantt(self, axes)

    def write(self, folder: Union[str, Path, None] = None, writing: Optional[Writing] = None) -> Path:
        """Writes what `pitplan schedule` writes, by default into schedule in the project's output folder; see `Shells.write`."""
        from pitplan.commands.answers import write

        return write(self, folder or self.pushbacks.planned.asked.folder / "schedule", writing)


def rules_of(project: Project) -> ScheduleRules:
    """Returns `[schedule]`; without it the limits are those of `[shells]`."""
    return project.schedule or ScheduleRules()


def make(pushbacks: Pushbacks, progress: Optional[Progress] = None) -> PushbackSchedule:
    """Schedules a pit's pushbacks. An interruption while programmes are solved ends these only.

    Raises
    ------
    PlanError
        If it takes more than a thousand years, nothing can be mined, no schedule meets the minimums, no dump accepts some rock, or HiGHS finds
        nothing.
    """
    progress = progress or pushbacks.plan.progress
    project, rules = pushbacks.plan.project, rules_of(pushbacks.plan.project)
    material = of_pushbacks(pushbacks, rules)
    limits = with_grades(limits_of(project, rules), project)
    problem = Problem(material.benches, limits, project.shells, period_costs.of_project(project))
    most, count = periods_of(project, rules), len(material.benches)
    lots = opening.of_plan(pushbacks.plan, rules)
    ore = lots.ore(rules, problem.money) if lots else None
    accepted = None if material.sets is None else material.sets.accepted
    model = FlowModel(problem, material.parcels, most or 1, rules.stockpiles, ore, project.dumps, accepted)
    schedule = PushbackSchedule(pushbacks, material, model, {}, 0, lots=lots)
    with progress.step(f"scheduling {count:,} benches of {len(pushbacks.factors)} pushbacks by rule"):
        flows, lead = scheduler.by_rule(model, pace_of(schedule), most)
    model = replace(model, years=most or max(1, math.ceil((1 + MORE_YEARS) * flows.years)))
    schedule = replace(schedule, model=model, lead=lead, flows={} if model.asks_least else kept(flows))
    try:
        for schedule in better(schedule, rules, progress):
            pass
    except KeyboardInterrupt:
        if not schedule.flows:
            raise
        schedule = replace(schedule, interrupted=True)
    if not any(flows.moved.any() for flows in schedule.flows.values()):
        years = f"{schedule.time(model.years):.10g} year{'s' * (model.years > 1)}"
        why = f"within these limits nothing can be mined in {years}: check processing_capacity and ramp_up"
        raise PlanError(f"{project.path}: [schedule] years: {why}")
    return schedule


def better(schedule: PushbackSchedule, rules: ScheduleRules, progress: Progress) -> Iterator[PushbackSchedule]:
    """Yields the schedule with one result of the programmes after the other. Raises KeyboardInterrupt if one is interrupted."""
    for schedule in relaxations(schedule, rules, progress):
        if schedule.flows:
            yield schedule
    model, optimum = schedule.model, schedule.optimum
    assert optimum is not None
    path = schedule.pushbacks.plan.project.path
    refusal: Optional[PlanError] = None
    with progress.step("making feasible schedules"):
        try:
            found = {LP: scheduler.from_optimum(model, optimum, schedule.flows.get(RULE))}
        except scheduler.NoSchedule as error:
            found, refusal = {}, PlanError(f"{path}: [schedule] minimum: {error}")
    schedule = replace(schedule, flows=schedule.flows | found)
    if schedule.flows:
        yield schedule
    if LP in schedule.flows:
        with progress.step("improving the depths of pushbacks"):
            found = {LP: scheduler.deepened(schedule.flows[LP])}
        schedule = replace(schedule, flows=schedule.flows | found)
        yield schedule
    if rules.milp is not None:
        with progress.step(f"solving the integer programme, up to {rules.milp.seconds:,.0f} s"):
            best, most = scheduler.best_schedule(model, rules.milp)
        found = {} if best is None else {MILP: best}
        schedule = replace(schedule, flows=schedule.flows | found, milp_upper_bound=most)
        refusal = PlanError(
            f"{path}: [schedule] milp: found no schedule that meets the minimums: lower them, or raise seconds"
        )
    elif is_small(schedule):
        with progress.step("solving the integer programme, since it is small"):
            schedule = with_integer_programme(schedule)
    if not schedule.flows and refusal is not None:
        raise refusal
    yield schedule


def is_small(schedule: PushbackSchedule) -> bool:
    """Returns whether the integer programme is solved in any case: if it takes no time, and may find a better schedule."""
    unknowns = sum(FlowProgramme(schedule.model).sizes)
    if len(schedule.benches) * schedule.model.years > SMALL or unknowns > SMALL_UNKNOWNS:
        return False
    best = max((flows.value for flows in schedule.flows.values()), default=-math.inf)
    assert schedule.upper_bound is not None
    return schedule.upper_bound - best > WORTH_SEARCHING * abs(schedule.upper_bound)


def with_integer_programme(schedule: PushbackSchedule) -> PushbackSchedule:
    """Returns the schedule with that of a short integer programme, if it is better than all others."""
    try:
        best, most = scheduler.best_schedule(schedule.model, UNASKED)
    except PlanError:
        return schedule
    others = max((flows.value for flows in schedule.flows.values()), default=-math.inf)
    if best is None or best.value <= others + WORTH_SEARCHING * abs(others if schedule.flows else 0.0):
        return schedule
    return replace(schedule, flows=schedule.flows | {MILP: best}, milp_upper_bound=most)


def relaxations(schedule: PushbackSchedule, rules: ScheduleRules, progress: Progress) -> Iterator[PushbackSchedule]:
    """Yields the schedule with the optimum of the linear programme and the upper bound, then with those of finer parcels while it pays.

    A large programme begins with few parcels. The next programmes group blocks that chose the same destinations. The bound holds for any parcels.
    """
    if FlowProgramme(schedule.model).is_large:
        few = by_value(schedule.material, schedule.names, FEW_BINS, FEW_PARTS)
        schedule = with_material(schedule, few, rules)
    schedule = relaxed(schedule, progress)
    yield schedule
    for _ in range(REFINEMENTS):
        assert schedule.optimum is not None and schedule.upper_bound is not None
        if schedule.upper_bound - schedule.optimum.value <= FINE * abs(schedule.upper_bound):
            break
        divided = in_finer_bins(schedule, schedule.optimum, rules)
        # With other parcels the rule may take years that the programme and its bound do not have.
        if any(flows.years > divided.model.years for flows in divided.flows.values()):
            break
        finer = relaxed(divided, progress)
        assert finer.optimum is not None
        if finer.optimum.value <= schedule.optimum.value:
            yield replace(schedule, upper_bound=finer.upper_bound, prices=finer.prices)
            break
        schedule = finer
        yield schedule


def relaxed(schedule: PushbackSchedule, progress: Progress) -> PushbackSchedule:
    """Returns the schedule with the optimum of the linear programme and the upper bound, unless it has a lower one. Raises PlanError, with the
    minimums that lack, if no schedule meets them."""
    model, programme = schedule.model, FlowProgramme(schedule.model)
    size = f"{model.years} {schedule.settings.calendar.word}s and {len(model.ore):,} parcels, {len(programme.gain):,} variables"
    done = "searching prices of limits for" if is_searched(programme, schedule.optimum) else "solving"
    with progress.step(f"{done} the linear programme of {size}"):
        try:
            optimum = optimum_of(programme, schedule.optimum)
        except PlanError as error:
            # Rows of whole benches have no names, so that limits alone are asked first.
            asked = (Conflict(replace(programme, paced=False)), Conflict(programme)) if model.asks_least else ()
            lacking = next(filter(None, (it.message() for it in asked)), "")
            raise PlanError(f"{schedule.pushbacks.plan.project.path}: {lacking}") from error if lacking else error
        upper, before = bound.upper_bound(model, schedule.material.blocks, optimum.prices), schedule.upper_bound
    found = replace(schedule, optimum=optimum)
    return found if before is not None and before <= upper else replace(found, upper_bound=upper, prices=optimum.prices)


def is_searched(programme: FlowProgramme, before: Optional[FlowOptimum]) -> bool:
    """Returns whether a large programme is searched for prices in place of solved. Only the solution shows whether minimums can be met."""
    return programme.is_large and (before is not None or not programme.model.asks_least)


def optimum_of(programme: FlowProgramme, before: Optional[FlowOptimum]) -> FlowOptimum:
    """Returns the optimum of a programme; nearly, from the prices of a coarser one, if it is searched."""
    if not is_searched(programme, before):
        return programme.solved()
    return Multipliers(programme).found({} if before is None else before.prices, ROUGH if before is None else CLOSE)


def in_finer_bins(schedule: PushbackSchedule, optimum: FlowOptimum, rules: ScheduleRules) -> PushbackSchedule:
    """Returns the schedule with parcels of blocks that choose alike at the prices of the linear programme, and the rule's flows of these. Of a large
    programme choices count in the years that are near those in which the bench is mined, and ore above a limit of a grade is apart from ore below it.
    """
    blocks = schedule.material.blocks
    choices = bound.Lagrangian(FlowProgramme(replace(schedule.model, ore=blocks)), optimum.prices).choices[1]
    if FlowProgramme(schedule.model).is_large:
        is_near = years_near(optimum.cumulative, schedule.settings.calendar)
        is_above = [blocks.of(name).max(axis=0) > 0 for name in schedule.model.blended]
        choices = np.column_stack([near_choices(choices, is_near[blocks.bench]), *is_above])
    return with_material(schedule, by_choice(schedule.material, choices), rules)


def with_material(schedule: PushbackSchedule, material: Material, rules: ScheduleRules) -> PushbackSchedule:
    """Returns the schedule with other parcels, and the rule's flows of these."""
    model = replace(schedule.model, ore=material.parcels)
    most, flows = periods_of(schedule.pushbacks.plan.project, rules), dict[str, Flows]()
    if RULE in schedule.flows and FlowProgramme(model).is_large and not model.waste.sets:
        flows = {RULE: scheduler.by_rule_with(schedule.flows[RULE], model)}
    elif schedule.flows:
        flows = kept(scheduler.by_rule(model, pace_of(schedule), most)[0])
    return replace(schedule, material=material, model=model, flows=flows)


def kept(flows: Flows) -> dict[str, Flows]:
    """Returns the schedule by rule, unless its waste finds no room in the dumps."""
    return {RULE: flows} if scheduler.keeps_dumps(flows) else {}


def pace_of(schedule: PushbackSchedule) -> scheduler.Pace:
    """Returns the benches by which the rule paces the mine."""
    assigned = bench_table.of_pushbacks(schedule.pushbacks, schedule.benches.lag)
    return scheduler.pace_of(schedule.problem, assigned)


class LimitsAlone(FlowProgramme):
    """The linear programme without what only schedules of whole benches keep, as in the texts of a certificate."""

    def __init__(self, model: FlowModel) -> None:
        super().__init__(model, paced=False)

    @property
    def reachable(self) -> NDArray[np.float64]:
        return np.ones((len(self.model.benches), self.years))


def prices_of(schedule: PushbackSchedule) -> Prices:
    """Returns the prices of limits at which the bound of the texts is lowest; none if the run was interrupted before the linear programme."""
    return {} if schedule.optimum is None else optimum_of(LimitsAlone(schedule.model), schedule.optimum).prices

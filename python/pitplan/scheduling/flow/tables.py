"""Tables of material flow: flows.csv, feed.csv, stockpiles.csv, dumps.csv and bound.csv."""

from __future__ import annotations

from collections.abc import Callable, Iterator, Mapping, Sequence
from dataclasses import dataclass
from functools import cached_property
from typing import TYPE_CHECKING, Any, Optional

import numpy as np
import pandas as pd
from numpy.typing import NDArray

from pitplan.config.economics import GRADE_UNITS, Metal
from pitplan.config.material import MILL, PIT, WASTE, Dump, Stockpile
from pitplan.config.project import Project
from pitplan.core.tolerances import SOLVER_SUM, SUM_ERROR
from pitplan.economics.cutoff_grades import RockCosts
from pitplan.economics.period_costs import MINING_COST, PROCESSING_COST, SELLING_COST, SMELTED
from pitplan.pits.shells import ratio
from pitplan.plan import Plan, shown_name
from pitplan.pushbacks.bench_table import benches_of_cells
from pitplan.scheduling.limits import (
    ADVANCE,
    DUMP,
    DUMPED,
    MAX,
    MIN,
    STOCK,
    SUM,
    GradeLimit,
    grade_limits,
    shown,
    whole_price,
)

from .flows import Flows
from .material import FEED, SET, column_of
from .opening import OpenedLots

if TYPE_CHECKING:
    from pitplan.scheduling.pushback_schedule import PushbackSchedule


@dataclass(frozen=True)
class Move:
    """A flow from a source to a destination.

    Attributes
    ----------
    source, destination : str
    shares : array, shape (parcels, years)
        Shares of parcels.
    process : int, optional
        The process that takes it.
    stockpile : Stockpile, optional
        The stockpile that it goes to or comes from.
    dump : Dump, optional
        The dump that it goes to.
    """

    source: str
    destination: str
    shares: NDArray[np.float64]
    process: Optional[int] = None
    stockpile: Optional[Stockpile] = None
    dump: Optional[Dump] = None

    @property
    def is_waste(self) -> bool:
        return self.process is None and self.stockpile is None


def moves_of(flows: Flows, names: list[str]) -> Iterator[Move]:
    """Yields the flows of ore; `names` are the processes."""
    for number, name in enumerate(names):
        yield Move(PIT, name or MILL, flows.direct[number], number)
    for place, it in enumerate(flows.model.stockpiles):
        yield Move(PIT, it.name, flows.stocked[place], None, it)
        for number, name in enumerate(names):
            yield Move(it.name, name or MILL, flows.reclaimed[place, number], number, it)
    sets = flows.model.waste.ore.argmax(axis=0) if flows.model.dumps else np.zeros(0, dtype=np.int64)
    yield from of_shares(flows, flows.waste, sets)


def of_shares(flows: Flows, shares: NDArray[np.float64], sets: NDArray[np.int64]) -> Iterator[Move]:
    """Yields the flows of shares, shape (rows, years), that go to waste, or to the dumps of the set of each row."""
    if not flows.model.dumps:
        yield Move(PIT, WASTE, shares)
    for number, it in enumerate(flows.model.dumps):
        yield Move(PIT, it.name, shares * flows.dumped[sets, number], dump=it)


@dataclass(frozen=True)
class ScheduledCells:
    """The cells of pushbacks with tonnes.

    Attributes
    ----------
    schedule : PushbackSchedule
    """

    schedule: PushbackSchedule

    @property
    def plan(self) -> Plan:
        return self.schedule.pushbacks.plan

    @cached_property
    def cells(self) -> NDArray[np.int64]:
        return np.flatnonzero((self.schedule.pushbacks.pushback > 0) & (self.plan.values.tonnes > 0))

    @cached_property
    def bench(self) -> NDArray[np.int64]:
        """The bench of each."""
        return np.asarray(benches_of_cells(self.schedule.pushbacks, self.schedule.material.benches, self.cells))


@dataclass(frozen=True)
class BlockLots(ScheduledCells):
    """The blocks of pushbacks by bench, value bin, and the codes of rock type and resource class."""

    @cached_property
    def keys(self) -> pd.DataFrame:
        """The key of each block: bench, parcel (-1: no ore), bin (of no ore, with its sign changed, the number of its set of dumps), and codes."""
        plan, cells, material = self.plan, self.cells, self.schedule.material
        parcel = np.full(plan.grid.count, -1)
        parcel[material.cells] = material.parcel
        of_waste = np.zeros(len(cells), dtype=np.int64) if material.sets is None else -material.sets.of_cell[cells]
        found = {
            "bench": self.bench,
            "parcel": parcel[cells],
            "bin": np.where(parcel[cells] < 0, of_waste, np.append(material.parcels.bin, 0)[parcel[cells]]),
        }
        row = np.full(plan.grid.count, -1)
        row[plan.grid.rows] = np.arange(len(plan.table))
        codes = {name: plan.table[name].astype(str).to_numpy()[row[cells]] for name in self.codes}
        return pd.DataFrame(found | codes)

    @property
    def codes(self) -> list[str]:
        """The columns of rock type and resource class."""
        table = self.plan.project.table
        return [name for name in (table.rock_type, table.resource_class) if name]

    @cached_property
    def sums(self) -> pd.DataFrame:
        """One row per lot: its key, total_tonnes, in_situ_METAL, feed_tonnes, contained_METAL, and by process recovered_METAL,
        gain, and the costs that factors of periods multiply."""
        plan, cells, values = self.plan, self.cells, self.plan.values
        columns = {"total_tonnes": values.tonnes[cells], "feed_tonnes": values.feed[cells]}
        for metal in plan.project.metals:
            grade = column_of(plan, metal.column, cells) * float(GRADE_UNITS[metal.unit])
            columns[f"in_situ_{metal.name}"] = grade * values.tonnes[cells]
            columns[f"contained_{metal.name}"] = grade * values.undiluted[cells]
        for number, way in enumerate(values.by_process):
            columns |= {f"recovered_{name} {number}": amounts[cells] for name, amounts in way.metal.items()}
            columns |= {f"{name} {number}": costs[number, cells] for name, costs in plan.multiplied_amounts.items()}
            columns[f"gain {number}"] = (way.revenue[cells] - way.cost[cells]) / 1e6
        keys = list(self.keys)
        return pd.concat([self.keys, pd.DataFrame(columns)], axis=1).groupby(keys, sort=True).sum().reset_index()

    @cached_property
    def of_parcels(self) -> dict[int, NDArray[np.int64]]:
        return {int(parcel): rows.to_numpy() for parcel, rows in self.sums.groupby("parcel").groups.items()}


def flow_table(schedule: PushbackSchedule) -> pd.DataFrame:
    """Returns one row per method, year, lot, source and destination with a flow.

    Columns: method, year, pushback, bench (elevation), bin, rock type and class if the table has them, source, destination, total_tonnes,
    in_situ_METAL, feed_tonnes and contained_METAL in what goes to a process or a stockpile, recovered_METAL, and cash_flow: revenue less the
    costs of processing, selling, stacking, reclaiming and dumps, at the year's prices. What lay on a stockpile at the start has pushback and bin 0,
    and no bench.
    """
    lots = BlockLots(schedule)
    found = [of_method(schedule, method, lots) for method in schedule.flows]
    return pd.concat(found, ignore_index=True)


def of_method(schedule: PushbackSchedule, method: str, lots: BlockLots) -> pd.DataFrame:
    flows = schedule.flows[method]
    parts = [of_move(flows, move, lots) for move in moves_of(flows, schedule.names)]
    parts += [*of_waste(flows, lots), of_opening(schedule, flows)]
    table = pd.concat(parts, ignore_index=True)
    order = ["year", "pushback", "bench", "bin", *lots.codes, "source", "destination"]
    table = table.sort_values(order, ascending=[True, True, False, *[True] * (len(order) - 3)], kind="stable")
    table.insert(0, "method", method)
    return table.reset_index(drop=True)


def of_opening(schedule: PushbackSchedule, flows: Flows) -> pd.DataFrame:
    """Returns the rows of what is taken of the lots that lie on stockpiles at the start: of pushback and bin 0."""
    if schedule.lots is None or not flows.opened.any():
        return pd.DataFrame()
    model = flows.model
    opened = OpenedLots(schedule.lots, model.opening, flows.opened, model.opening_gains, model.stockpiles)
    return opened.flows.assign(pushback=0, bin=0)


def of_waste(flows: Flows, lots: BlockLots) -> Iterator[pd.DataFrame]:
    """Yields the rows of material that is no ore: all of it goes to waste as it is mined."""
    rows = np.flatnonzero(lots.sums["parcel"] < 0)
    bench, sets = lots.sums["bench"].to_numpy()[rows], -lots.sums["bin"].to_numpy()[rows]
    for move in of_shares(flows, flows.mined[bench], sets):
        yield written(flows, move, lots, rows, at=np.arange(len(rows)))


def of_move(flows: Flows, move: Move, lots: BlockLots) -> pd.DataFrame:
    rows = np.flatnonzero(lots.sums["parcel"] >= 0)
    return written(flows, move, lots, rows, at=lots.sums["parcel"].to_numpy()[rows])


def written(
    flows: Flows, move: Move, lots: BlockLots, rows: NDArray[np.int64], *, at: NDArray[np.int64]
) -> pd.DataFrame:
    """Returns the rows of a move for some lots; `at` is the row of its shares for each lot."""
    lot, year = np.nonzero(move.shares[at])
    share, sums = move.shares[at[lot], year], lots.sums.iloc[rows[lot]].reset_index(drop=True)
    benches, plan = flows.model.benches, lots.plan
    found = pd.DataFrame(
        {
            "year": year + 1,
            "pushback": benches.pushback[sums["bench"]],
            "bench": plan.grid.toes()[benches.level[sums["bench"]]],
            "bin": sums["bin"],
            **{shown_name(name): sums[name] for name in lots.codes},
            "source": move.source,
            "destination": move.destination,
            "total_tonnes": sums["total_tonnes"] * share,
        }
    )
    for metal in plan.project.metals:
        found[f"in_situ_{metal.name}"] = sums[f"in_situ_{metal.name}"] * share
    moved = 0.0 if move.is_waste else share
    for name in ("feed_tonnes", *(f"contained_{metal.name}" for metal in plan.project.metals)):
        found[name] = sums[name] * moved
    fed = 0.0 if move.process is None else share
    names = [*(f"recovered_{metal.name}" for metal in plan.project.metals), *plan.multiplied_amounts]
    for name in names:
        found[name] = 0.0 if move.process is None else sums[f"{name} {move.process}"] * fed
    found["cash_flow"] = 0.0 if move.process is None else sums[f"gain {move.process}"] * fed
    found["cash_flow"] -= 0.0 if move.dump is None else found["total_tonnes"] * move.dump.cost
    return handled(found, flows, move, names).drop(columns=list(plan.multiplied_amounts))


def handled(found: pd.DataFrame, flows: Flows, move: Move, names: list[str]) -> pd.DataFrame:
    """Returns the rows of a move after what a stockpile costs, and at the prices and costs of the year; `names` are the amounts that these multiply."""
    money, stockpile = flows.model.problem.money, move.stockpile
    if stockpile is not None:
        for metal, share in stockpile.recovery.items():
            name = f"recovered_{metal}"
            lost = found[name] * (1 - share)
            found["cash_flow"] -= lost * money.net_prices[name][move.process or 0]
            if SELLING_COST in found:
                found[SELLING_COST] -= lost * money.charges[name][move.process or 0]
            for amount in {name, f"{SMELTED}{metal}"} & set(found):
                found[amount] *= share
        cost = stockpile.stacking_cost if move.process is None else stockpile.reclaim_cost
        found["cash_flow"] -= found["feed_tonnes"] * cost
    premiums = money.premium(tuple(names), flows.years)[found["year"] - 1]
    found["cash_flow"] += (found[names].to_numpy() * premiums).sum(axis=1)
    return found


def feed_table(
    flows: pd.DataFrame, last: Mapping[str, int], metals: Sequence[Metal], by_process: Mapping[str, Floats]
) -> pd.DataFrame:
    """Returns one row per method, year and process.

    Columns: method, year, process, feed_tonnes, reclaimed_tonnes (of these from stockpiles), head_grade_METAL, contained_METAL,
    recovered_METAL, cutoff and realised_cutoff.

    Parameters
    ----------
    flows : DataFrame
        With method, year, source, destination, feed_tonnes, contained_METAL, recovered_METAL and cash_flow.
    last : mapping of str to int
        The last year of each method.
    metals : sequence of Metal
    by_process : mapping of str to array
        The cut-off of each process by year.
    """
    amounts = ["feed_tonnes", *(f"{kind}_{metal.name}" for kind in ("contained", "recovered") for metal in metals)]
    keys = [
        (method, year, name) for method, count in last.items() for year in range(1, count + 1) for name in by_process
    ]
    index = pd.MultiIndex.from_tuples(keys, names=["method", "year", "destination"])
    sums = flows.groupby(["method", "year", "destination"])[amounts].sum().reindex(index, fill_value=0.0)
    again = flows[flows["source"] != PIT].groupby(["method", "year", "destination"])["feed_tonnes"].sum()
    sums.insert(1, "reclaimed_tonnes", again.reindex(index, fill_value=0.0))
    for place, metal in enumerate(metals):
        unit = float(GRADE_UNITS[metal.unit])
        grade = ratio(sums[f"contained_{metal.name}"].to_numpy() / unit, sums["feed_tonnes"].to_numpy())
        sums.insert(2 + place, f"head_grade_{metal.name}", grade)
    sums.index.names = KEYS
    sums["cutoff"] = [float(by_process[process][year - 1]) for _, year, process in keys]
    return sums.assign(realised_cutoff=realised(flows, list(by_process)).reindex(sums.index)).reset_index()


def stockpile_table(
    flows: pd.DataFrame, last: Mapping[str, int], starts: Mapping[str, Optional[pd.Series]], metals: Sequence[Metal]
) -> pd.DataFrame:
    """Returns one row per method, stockpile and year.

    Columns: method, stockpile, year; opening_tonnes, in_tonnes, out_tonnes and closing_tonnes of feed; and of what lies there at the end of the
    year grade_METAL, in the unit of the metal's column, empty if nothing does; and reclaimed_grade_METAL of what is reclaimed in the year.

    Parameters
    ----------
    flows : DataFrame
        With method, year, source, destination, feed_tonnes and contained_METAL.
    last : mapping of str to int
        The last year of each method.
    starts : mapping of str to Series, optional
        By stockpile feed_tonnes and contained_METAL of what lies there at the start; None: nothing.
    metals : sequence of Metal
    """
    found = [
        balance_of(flows[flows["method"] == method], name, years, start=start, metals=metals).assign(method=method)
        for method, years in last.items()
        for name, start in starts.items()
    ]
    table = pd.concat(found, ignore_index=True)
    return table[["method", *(it for it in table if it != "method")]]


def balance_of(
    flows: pd.DataFrame, name: str, count: int, *, start: Optional[pd.Series], metals: Sequence[Metal]
) -> pd.DataFrame:
    """Returns the rows of a stockpile by the flows of a method in its years."""
    years = pd.RangeIndex(1, count + 1, name="year")
    amounts = ["feed_tonnes", *(f"contained_{metal.name}" for metal in metals)]
    start = pd.Series(0.0, index=amounts) if start is None else start
    placed, out = (
        flows[flows[side] == name].groupby("year")[amounts].sum().reindex(years, fill_value=0.0)
        for side in ("destination", "source")
    )
    lies = (placed - out).cumsum() + start
    # What the sums of floats leave is nothing.
    lies = lies.where(lies["feed_tonnes"] > SUM_ERROR * (placed["feed_tonnes"].sum() + start["feed_tonnes"]), 0.0)
    closing = lies["feed_tonnes"]
    columns = {
        "opening_tonnes": closing.shift(1, fill_value=start["feed_tonnes"]),
        "in_tonnes": placed["feed_tonnes"],
        "out_tonnes": out["feed_tonnes"],
        "closing_tonnes": closing,
    }
    for metal in metals:
        content = lies[f"contained_{metal.name}"].to_numpy() / float(GRADE_UNITS[metal.unit])
        columns[f"grade_{metal.name}"] = ratio(content, closing.to_numpy())
    for metal in metals:
        content = out[f"contained_{metal.name}"].to_numpy() / float(GRADE_UNITS[metal.unit])
        columns[f"reclaimed_grade_{metal.name}"] = ratio(content, out["feed_tonnes"].to_numpy())
    table = pd.DataFrame(columns, index=years)
    table.insert(0, "stockpile", name)
    return table.reset_index()[["stockpile", "year", *columns]]


def dump_table(flows: pd.DataFrame, last: Mapping[str, int], dumps: Sequence[Dump]) -> pd.DataFrame:
    """Returns one row per method, dump and year: in_tonnes, closing_tonnes in the dump at the end of the year, and room_tonnes that its capacity
    leaves then; empty without a capacity.

    Parameters
    ----------
    flows : DataFrame
        With method, year, destination and total_tonnes.
    last : mapping of str to int
        The last year of each method.
    dumps : sequence of Dump
    """
    found = []
    for method, count in last.items():
        years = pd.RangeIndex(1, count + 1, name="year")
        mine = flows[flows["method"] == method]
        for it in dumps:
            placed = mine[mine["destination"] == it.name].groupby("year")["total_tonnes"].sum()
            placed = placed.reindex(years, fill_value=0.0)
            held = placed.cumsum()
            room = np.nan if it.capacity is None else np.maximum(it.capacity - held, 0.0)
            columns = {"in_tonnes": placed, "closing_tonnes": held, "room_tonnes": room}
            table = pd.DataFrame({"method": method, "dump": it.name} | columns, index=years)
            found.append(table.reset_index()[["method", "dump", "year", *columns]])
    return pd.concat(found, ignore_index=True)


def bound_table(schedule: PushbackSchedule) -> pd.DataFrame:
    """Returns one row per limit and year: the price, discounted, from which the upper bound follows."""
    rows = [
        (name, side, year, price)
        for (name, side), prices in schedule.prices.items()
        for year, price in enumerate(prices, 1)
    ]
    return pd.DataFrame(rows, columns=["limit", "side", "year", "price"])


def is_shown(name: str) -> bool:
    """Returns whether an amount of benches is a column of tables."""
    return name != MINING_COST and not name.startswith((SUM, SET))


Floats = NDArray[np.float64]
COLUMNS = ("method", "year", "limit", "used", "minimum", "maximum", "utilisation", "shadow_price")


@dataclass(frozen=True)
class LimitUse:
    """What a method uses of a limit in each year, and what a unit more of it would earn; each array has the shape (years,), nan without a value.

    Attributes
    ----------
    used, minimum, maximum : array
        Of the amount; of a limit on a head grade of the grade.
    shadow_price : array
        In the money of the year, below 0 for a minimum.
    """

    name: str
    used: Floats
    minimum: Floats
    maximum: Floats
    shadow_price: Floats
    is_grade: bool = False

    def rows(self, method: str) -> pd.DataFrame:
        share = np.full(len(self.used), np.nan)
        if not self.is_grade:
            share = np.divide(self.used, self.maximum, out=share, where=self.maximum > 0)
        year, amounts = np.arange(1, len(self.used) + 1), (self.used, self.minimum, self.maximum)
        return pd.DataFrame(dict(zip(COLUMNS, (method, year, self.name, *amounts, share, self.shadow_price))))


def limit_table(uses: Mapping[str, Sequence[LimitUse]]) -> pd.DataFrame:
    """Returns one row per method, year and limit, from the uses of limits by method.

    Columns: `used` of the amount; its `minimum` and `maximum`; `utilisation`, the share of the maximum that is used; and `shadow_price`.
    """
    parts = [it.rows(method).assign(place=place) for method, found in uses.items() for place, it in enumerate(found)]
    table = pd.concat(parts, ignore_index=True) if parts else pd.DataFrame(columns=[*COLUMNS, "place"])
    table["first"] = table["method"].map({method: number for number, method in enumerate(uses)})
    order = table.sort_values(["first", "year", "place"], kind="stable")
    return order.drop(columns=["first", "place"]).reset_index(drop=True)


def uses_of_limits(schedule: PushbackSchedule) -> dict[str, list[LimitUse]]:
    """Returns the uses of the limits of a schedule of pushbacks by method."""
    names = names_of(schedule)
    return {method: [limit_use(schedule, flows, name) for name in names] for method, flows in schedule.flows.items()}


def names_of(schedule: PushbackSchedule) -> list[str]:
    """The limits: amounts, head grades, the vertical advance of each pushback, what lies on stockpiles, and what dumps take and hold."""
    names = {it.name: name for name, found in grades_of(schedule.plan.project).items() for it in found}
    return list(dict.fromkeys(names.get(it.name, it.name) for it in schedule.model.limits))


def limit_use(schedule: PushbackSchedule, flows: Flows, name: str) -> LimitUse:
    grades, years = grades_of(schedule.plan.project).get(name), flows.years
    if grades is None:
        limits = {it.side: it for it in schedule.model.limits if it.name == name}
        least, most = (shown(limits.get(side), years) for side in (MIN, MAX))
        return LimitUse(name, used_of(schedule, flows, name), least, most, shadow_prices(schedule, name)[:years])
    first = grades[0]
    feed = flows.used_in(FEED, first.process)
    excess = first.sign * flows.used(first.name)
    grade = np.divide(excess, feed, out=np.full(years, np.nan), where=feed > 0) + first.grade
    return use_of_grade(grades, grade, feed, lambda it: shadow_prices(schedule, it)[:years])


def use_of_grade(
    limits: Sequence[GradeLimit], grade: Floats, feed: Floats, price_of_amount: Callable[[str], Floats]
) -> LimitUse:
    """Returns the use of limits on one side of a head grade.

    Parameters
    ----------
    limits : sequence of GradeLimit
        One for each value that some period has.
    grade, feed : array, shape (years,)
        The head grade, and the tonnes of feed.
    price_of_amount : callable
        The shadow price of the amount of a limit, by its name.
    """
    limit, price = np.full(len(feed), np.nan), np.zeros(len(feed))
    for it in limits:
        limit[it.in_years(len(feed))] = it.grade
        price = price + price_of_amount(it.name) * feed * it.sign
    nothing, shown = np.full(len(feed), np.nan), limits[0].shown
    sides = (nothing, limit) if limits[0].sign > 0 else (limit, nothing)
    return LimitUse(shown, grade, *sides, price, is_grade=True)


def used_of(schedule: PushbackSchedule, flows: Flows, name: str) -> Floats:
    """Returns what is used of a limit in each year: an amount, benches, or the tonnes that lie on a stockpile, go to a dump, or lie there."""
    model = schedule.model
    if name.startswith(ADVANCE):
        return flows.mined[schedule.benches.pushback == int(name.removeprefix(ADVANCE))].sum(axis=0)
    if name.startswith(STOCK):
        # The rule places nothing on stockpiles, and leaves what lay there at the start.
        return flows.lying(model.places[name]) if flows.model.stockpiles else np.full(flows.years, model.lay(name))
    if name.startswith((DUMP, DUMPED)):
        placed = flows.placed[model.places[name]]
        return placed if name.startswith(DUMP) else placed.cumsum()
    return flows.used(name)


def grades_of(project: Project) -> dict[str, list[GradeLimit]]:
    """Returns the limits on head grades by the name that is shown."""
    found: dict[str, list[GradeLimit]] = {}
    for limit in grade_limits(project):
        found.setdefault(limit.shown, []).append(limit)
    return found


def shadow_prices(schedule: PushbackSchedule, name: str) -> Floats:
    """Returns the money of the year that a unit more of a limit would earn in each year of the linear programme; nan without one.

    If years have costs, a limit also shows how far the mine runs in a year, so that a unit more of it saves a part of these costs.
    """
    if schedule.optimum is None:
        return np.full(schedule.model.years, np.nan)
    return whole_price(schedule.prices, name, schedule.model.years) / schedule.discounts(schedule.model.years)


# Cut-offs of a schedule by process and year: those of the prices of capacities, as Lane has them (The Economic
# Definition of Ore, 1988), and those that were realised.

# What a row of feed.csv or cutoffs.csv is of.
KEYS = ["method", "year", "process"]


def cutoffs(schedule: PushbackSchedule) -> dict[str, NDArray[np.float64]]:
    """Returns by process, `mill` for one without a name, the net value per tonne of feed from which on ore is processed at the prices of the limits.

    It is the shadow price of a tonne of the process's capacity, in the currency of the year: 0 while capacity is left. Each array has the shape
    (years,); nan without a linear programme.
    """
    return {name or MILL: price_of(schedule, name) for name in schedule.names}


def price_of(schedule: PushbackSchedule, process: str) -> NDArray[np.float64]:
    """Returns the shadow price of a tonne of feed of a process: of its limits, and with several processes of those of the feed of all."""
    price = shadow_prices(schedule, FEED)
    return price + shadow_prices(schedule, f"{FEED}_{process}") if process else price


def realised(flows: pd.DataFrame, processes: Sequence[str]) -> pd.Series:
    """Returns the lowest net value per tonne of feed that each process takes, by method, year and process."""
    flows = flows.rename(columns={"destination": "process"})
    fed = flows[flows["process"].isin(processes)]
    some = fed[fed["feed_tonnes"] > SOLVER_SUM * fed.groupby(KEYS)["feed_tonnes"].transform("sum")]
    return (some["cash_flow"] / some["feed_tonnes"]).groupby([some[key] for key in KEYS]).min()


def cutoff_table(schedule: PushbackSchedule) -> pd.DataFrame:
    """Returns one row per method, year, process and rock type that the process takes.

    Columns: `cutoff`, the net value per tonne of feed from which on ore is processed at the prices of the limits; `realised_cutoff`, the lowest one
    that is processed; `metal`, the first one that is recovered, or with several the metal whose equivalent grade the cut-off is; `cutoff_grade`, the head grade that earns processing cost
    and cut-off at the prices and costs of the year; `marginal_grade` and `break_even_grade`, the head grades that earn the processing cost, and that and the
    mining cost, at the base price; `equivalent_METAL`, what a unit of a metal's grade is worth in units of the first, in the year.
    """
    names, plan = schedule.names, schedule.pushbacks.plan
    rocks = [
        RockCosts(alone, rock)
        for process, alone in enumerate(plan.project.by_process)
        for rock in rocks_of(schedule, process)
    ]
    process = [k for k in range(len(names)) for _ in rocks_of(schedule, k)]
    rows = [
        {"method": method, **row}
        for method, flows in schedule.flows.items()
        for year in range(flows.years)
        for row in cutoff_rows(schedule, year, list(zip(process, rocks)))
    ]
    table = pd.DataFrame(rows, columns=[it for it in columns_of(schedule) if it != "realised_cutoff"])
    at, lowest = pd.MultiIndex.from_frame(table[KEYS]), realised(schedule.material_flows, list(cutoffs(schedule)))
    table.insert(table.columns.get_loc("cutoff") + 1, "realised_cutoff", lowest.reindex(at).to_numpy())
    return table


def columns_of(schedule: PushbackSchedule) -> list[str]:
    project = schedule.pushbacks.plan.project
    rock = [shown_name(project.table.rock_type)] if project.table.rock_type else []
    grades = ["cutoff_grade", "marginal_grade", "break_even_grade"]
    equivalents = [f"equivalent_{metal.name}" for metal in project.metals] if len(project.metals) > 1 else []
    return [*KEYS, *rock, "cutoff", "realised_cutoff", "metal", *grades, *equivalents]


def rocks_of(schedule: PushbackSchedule, process: int) -> list[str]:
    """Returns the codes of the rock types of the pushbacks that yield anything in a process; one empty code without rock types."""
    plan = schedule.pushbacks.plan
    inside = (schedule.pushbacks.pushback > 0) & (plan.values.tonnes > 0)
    taken = inside & (plan.values.by_process[process].revenue > 0)
    if plan.project.table.rock_type is None:
        return [""] if taken.any() else []
    return sorted(plan.table[plan.project.table.rock_type].astype(str)[taken[plan.grid.rows]].unique())


def cutoff_rows(schedule: PushbackSchedule, year: int, rocks: list[tuple[int, RockCosts]]) -> Iterator[dict[str, Any]]:
    """Yields the rows of a year, numbered from 0, without what differs by method."""
    project, money, found = schedule.pushbacks.plan.project, schedule.problem.money, cutoffs(schedule)
    factor = money.factors(PROCESSING_COST, year + 1)[year]
    for process, costs in rocks:
        premiums = premiums_in(schedule, year, process)
        name, first = schedule.names[process], costs.metals[0]
        cutoff = float(found[name or MILL][year])
        row = {"year": year + 1, "process": name or MILL, "cutoff": cutoff, "metal": first.name}
        if project.table.rock_type:
            row[shown_name(project.table.rock_type)] = costs.rock
        row["cutoff_grade"] = costs.head_grade(first, costs.processing_at(factor) + cutoff, premiums[first.name])
        row["marginal_grade"] = costs.head_grade(first, costs.processing)
        row["break_even_grade"] = costs.head_grade(first, costs.processing + costs.mining)
        yield row | {f"equivalent_{it.name}": costs.equivalent(it, premiums) for it in costs.metals}


def premiums_in(schedule: PushbackSchedule, year: int, process: int) -> dict[str, float]:
    """Returns by metal what a unit that a process recovers earns in a year, numbered from 0, beyond the base price and cost."""
    money, found = schedule.problem.money, {}
    saved = float(1 - money.factors(SELLING_COST, year + 1)[year])
    for metal in schedule.pushbacks.plan.project.by_process[process].metals:
        names = (f"recovered_{metal.name}", f"{SMELTED}{metal.name}")
        price, added = money.premium(names, year + 1)[year].tolist()
        found[metal.name] = price + (added if metal.smelter else 0.0) + saved * money.charges[names[0]][process]
    return found

"""The material of pushbacks: ore block by block and in parcels, and waste by the set of dumps that accept it."""

from __future__ import annotations

from dataclasses import dataclass, replace
from functools import cached_property
from typing import Optional

import numpy as np
from numpy.typing import NDArray
from scipy.optimize import linprog
from scipy.sparse import csr_matrix, eye, hstack, kron, vstack

from pitplan.config.material import Dump, Stockpile
from pitplan.config.schedule import FEED as OF_FEED, TOTAL, ScheduleRules
from pitplan.core.tolerances import SOLVER_SHARE
from pitplan.economics import period_costs
from pitplan.economics.cutoff_grades import BINS, edges_of
from pitplan.economics.period_costs import SELLING_COST, SMELTED, YearlyMoney
from pitplan.economics.weighing import accepted_by
from pitplan.pits import ore_kinds
from pitplan.plan import MILLION, Plan
from pitplan.pushbacks import bench_table
from pitplan.pushbacks.bench_table import CASH, ROCK, PushbackBenches
from pitplan.pushbacks.nested import Pushbacks
from pitplan.scheduling.highs_process import demand_solved
from pitplan.scheduling.limits import (
    AT,
    DUMP,
    DUMPED,
    GRADE,
    MAX,
    MIN,
    SUM,
    GradeLimit,
    Prices,
    grade_limits,
    limits_of,
)

FEED = "feed_tonnes"


@dataclass(frozen=True)
class Ore:
    """Units of ore.

    Attributes
    ----------
    bench : int array, shape (units,)
        The number of the bench that each unit is mined with.
    bin : int array, shape (units,)
        The value bin of each, from 1.
    gain : array of float, shape (processes, units)
        Revenue less the cost of processing and selling of a whole unit at the base price, in the currency.
    amounts : dict of str to array, shape (processes, units)
        What a whole unit adds to an amount where it is processed: feed_tonnes, feed_tonnes_PROCESS, recovered_METAL, limited sums and grades, and
        the costs that factors of years multiply.
    accepted : bool array, shape (stockpiles, units), optional
        Whether each stockpile accepts a unit; None: all do.
    """

    bench: NDArray[np.int64]
    bin: NDArray[np.int64]
    gain: NDArray[np.float64]
    amounts: dict[str, NDArray[np.float64]]
    accepted: Optional[NDArray[np.bool_]] = None

    def __len__(self) -> int:
        return len(self.bench)

    @property
    def processes(self) -> int:
        return len(self.gain)

    @property
    def feed(self) -> NDArray[np.float64]:
        """Mill feed of each unit, in tonnes; it is the same in each process."""
        return np.asarray(self.of(FEED).max(axis=0, initial=0.0))

    def of(self, name: str) -> NDArray[np.float64]:
        """Returns what whole units add to an amount, shape (processes, units); 0 if processing does not change it."""
        return self.amounts.get(name, np.zeros_like(self.gain))

    def gains(self, money: YearlyMoney, years: int) -> NDArray[np.float64]:
        """Returns the gain of whole units by process and year, at the year's prices, shape (processes, units, years)."""
        names, found = tuple(money.of_ore), np.repeat(self.gain[:, :, None], years, axis=2)
        for name, premium in zip(names, money.premium(names, years).T):
            found += self.of(name)[:, :, None] * premium
        return found

    def accepted_by(self, stockpile: int) -> NDArray[np.bool_]:
        """Returns whether a stockpile, by number, accepts each unit."""
        return np.ones(len(self), dtype=bool) if self.accepted is None else self.accepted[stockpile]

    def reclaimed(self, stockpile: Stockpile, money: YearlyMoney) -> Ore:
        """Returns the ore as a stockpile gives it back: reclaiming costs, and less metal may be recovered and sold."""
        gain, amounts = self.gain - stockpile.reclaim_cost * self.feed, dict(self.amounts)
        for metal, share in stockpile.recovery.items():
            name = f"recovered_{metal}"
            gain = gain - (1 - share) * np.array(money.net_prices[name])[:, None] * self.of(name)
            if SELLING_COST in amounts:
                unsold = (1 - share) * np.array(money.charges[name])[:, None] * self.of(name)
                amounts[SELLING_COST] = amounts[SELLING_COST] - unsold
            for amount in {name, f"{SMELTED}{metal}"} & set(amounts):
                amounts[amount] = share * self.of(amount)
        return replace(self, gain=gain, amounts=amounts)

    def merged(self, parcel: NDArray[np.int64], bench: NDArray[np.int64], bins: NDArray[np.int64]) -> Ore:
        """Returns the sums over units by their parcel, where the same stockpiles accept all units; `bench` and `bins` are those of the parcels."""

        def sums(values: NDArray[np.float64]) -> NDArray[np.float64]:
            # Without units bincount gives whole numbers.
            return np.stack([np.bincount(parcel, row, minlength=len(bench)) for row in values]).astype(np.float64)

        accepted, amounts = None, {name: sums(values) for name, values in self.amounts.items()}
        if self.accepted is not None:
            accepted = np.zeros((len(self.accepted), len(bench)), dtype=bool)
            accepted[:, parcel] = self.accepted
        return Ore(bench, bins, sums(self.gain), amounts, accepted)

    def unit(self, number: int) -> Ore:
        """Returns one unit alone, without its stockpiles."""
        some = slice(number, number + 1)
        amounts = {name: values[:, some] for name, values in self.amounts.items()}
        return Ore(self.bench[some], self.bin[some], self.gain[:, some], amounts)


def joined(parts: list[Ore]) -> Ore:
    """Returns the units of all parts, without their stockpiles. The parts have the same amounts."""
    amounts = {name: np.concatenate([part.amounts[name] for part in parts], axis=1) for name in parts[0].amounts}
    bench, bins = (np.concatenate([getattr(part, name) for part in parts]) for name in ("bench", "bin"))
    return Ore(bench, bins, np.concatenate([part.gain for part in parts], axis=1), amounts)


Floats = NDArray[np.float64]
# The waste of a model and its dumps: rock by the set of dumps that accept it, and where the waste of each year goes.
#
# Within a year the waste of a set is mixed, so a share of all of it goes to a dump. That loses nothing, since a dump
# costs the same for each tonne.

# How the names of amounts of the rock of a set begin.
SET = "rock_set_"
# What a tonne costs that finds no room, in multiples of the dearest dump and of a unit of money.
FAR = 1e3


@dataclass(frozen=True)
class Waste:
    """Rock and dumps.

    Attributes
    ----------
    dumps : tuple of Dump
    accepted : bool array, shape (sets, dumps)
        The dumps of each set.
    rock : array, shape (benches, sets)
        Tonnes of whole benches, ore included.
    ore : array, shape (sets, parcels)
        Of these the tonnes of whole parcels.
    bench : int array, shape (parcels,)
        The bench of each parcel.
    least, most, held : array, shape (dumps, years)
        Tonnes that a dump takes in each year, and holds at most at its end; infinite without a limit.
    discounts : array, shape (years,)
    """

    dumps: tuple[Dump, ...]
    accepted: NDArray[np.bool_]
    rock: Floats
    ore: Floats
    bench: NDArray[np.int64]
    least: Floats
    most: Floats
    held: Floats
    discounts: Floats

    @property
    def years(self) -> int:
        return len(self.discounts)

    @property
    def sets(self) -> int:
        return len(self.accepted)

    @cached_property
    def pairs(self) -> tuple[NDArray[np.int64], NDArray[np.int64]]:
        """The set and the dump of each pair that go together."""
        found, dump = np.nonzero(self.accepted)
        return found, dump

    @property
    def whole(self) -> Floats:
        """The rock of each set in tonnes, at least 1, shape (sets,)."""
        return np.maximum(self.rock.sum(axis=0), 1.0)

    @property
    def costs(self) -> Floats:
        """The cost of each dump per tonne, not discounted, shape (dumps,)."""
        return np.array([it.cost for it in self.dumps])

    @property
    def is_limited(self) -> bool:
        """Whether a dump may lack room, or must take something."""
        return bool(np.isfinite(self.held).any() or np.isfinite(self.most).any() or self.least.any())

    @property
    def saved(self) -> float:
        """The most that a tonne saves that goes to no dump: any amount if one may lack room."""
        return np.inf if self.is_limited else float(self.costs.max(initial=0.0))

    def by_bench(self, mined: Floats, sent: Floats) -> Floats:
        """Returns the tonnes of waste by bench, set and year; `sent` are the shares of parcels that go elsewhere, shape (parcels, years)."""
        found = self.rock[:, :, None] * mined[:, None, :]
        np.subtract.at(found, self.bench, self.ore.T[:, :, None] * sent[:, None, :])
        return np.maximum(found, 0.0)

    def costs_at(self, prices: Prices) -> Floats:
        """Returns what a tonne of each set costs on each dump in each year, discounted, with the prices of the limits of dumps; infinite if the dump does
        not accept it, shape (sets, dumps, years)."""
        found, nothing = np.full((self.sets, len(self.dumps), self.years), np.inf), np.zeros(self.years)
        for number, it in enumerate(self.dumps):
            # A tonne lies there from its year on.
            room = prices.get((f"{DUMPED}{it.name}", MAX), nothing)[::-1].cumsum()[::-1]
            of_year = prices.get((f"{DUMP}{it.name}", MAX), nothing) - prices.get((f"{DUMP}{it.name}", MIN), nothing)
            found[self.accepted[:, number], number] = it.cost * self.discounts + room + of_year
        return found

    def at_prices(self, prices: Prices) -> Floats:
        """Returns what a tonne of each set costs at least in each year, as `costs_at` does, shape (sets, years)."""
        return self.costs_at(prices).min(axis=1, initial=np.inf)

    def shares(self, tonnes: Floats) -> Floats:
        """Returns the shares of the waste of each set, from tonnes by set, dump and year; without any all of it goes to the cheapest dump."""
        whole = tonnes.sum(axis=1, keepdims=True)
        cheapest = np.zeros_like(tonnes)
        first = np.where(self.accepted, self.costs, np.inf).argmin(axis=1) if self.sets else np.zeros(0, dtype=np.int64)
        cheapest[np.arange(self.sets), first] = 1.0
        return np.where(whole > SOLVER_SHARE, tonnes / np.where(whole > SOLVER_SHARE, whole, 1.0), cheapest)

    def placed(self, waste: Floats) -> tuple[Floats, Floats]:
        """Returns the cheapest shares of the waste of each set and year that dumps take, shape (sets, dumps, years), and the tonnes of each year that find
        no room. Minimums are not kept."""
        found, dump = self.pairs
        size, sets = len(found) * self.years, np.arange(self.sets)
        each = csr_matrix(eye(self.years))
        lacking = (FAR * (1 + self.costs.max(initial=0.0)) * self.discounts)[None].repeat(self.sets, axis=0)
        price = np.concatenate([(self.costs[dump][:, None] * self.discounts).ravel(), lacking.ravel()])
        of_set = kron(csr_matrix((found[None] == sets[:, None]).astype(float)), each)
        goes = hstack([of_set, eye(self.sets * self.years)], format="csr")
        of_dump = csr_matrix((dump[None] == np.arange(len(self.dumps))[:, None]).astype(float))
        until = csr_matrix(np.tril(np.ones((self.years, self.years))))
        limits = [(kron(of_dump, each), self.most.ravel()), (kron(of_dump, until), self.held.ravel())]
        rows, most = vstack([matrix for matrix, _ in limits], format="csr"), np.concatenate([it for _, it in limits])
        held = np.isfinite(most)
        rows = hstack([rows[held], csr_matrix((int(held.sum()), self.sets * self.years))], format="csr")
        unit = float(waste.max(initial=0.0)) or 1.0
        solved = linprog(
            price, A_ub=rows, b_ub=most[held] / unit, A_eq=goes, b_eq=waste.ravel() / unit, method="highs-ds"
        )
        demand_solved(solved, "dump for the waste")
        tonnes = np.zeros((self.sets, len(self.dumps), self.years))
        tonnes[found, dump] = solved.x[:size].reshape(-1, self.years) * unit
        return self.shares(tonnes), solved.x[size:].reshape(self.sets, self.years).sum(axis=0) * unit


@dataclass(frozen=True)
class DumpSets:
    """The sets of dumps.

    Attributes
    ----------
    accepted : bool array, shape (sets, dumps)
    of_cell : int array, shape (cells,)
        The number of the set that accepts each cell; -1 outside the pushbacks.
    """

    accepted: NDArray[np.bool_]
    of_cell: NDArray[np.int64]

    def tonnes(self, cells: NDArray[np.int64], tonnes: NDArray[np.float64]) -> dict[str, NDArray[np.float64]]:
        """Returns the tonnes of cells by set, by the names of amounts."""
        return {
            f"{SET}{number}": np.where(self.of_cell[cells] == number, tonnes, 0.0)
            for number in range(len(self.accepted))
        }


def of_cells(plan: Plan, cells: NDArray[np.int64]) -> Optional[DumpSets]:
    """Returns the sets of cells with tonnes; None without `[[dumps]]`. Raises PlanError if no dump accepts some of them."""
    if not plan.project.dumps:
        return None
    accepted, number = np.unique(ore_kinds.accepted(plan, cells), axis=0, return_inverse=True)
    of_cell = np.full(plan.grid.count, -1)
    of_cell[cells] = number.ravel()
    return DumpSets(accepted, of_cell)


# A limit on a grade divides ore by that grade into this number of parts of even feed, so that parcels can be blended.
GRADE_PARTS = 3


@dataclass(frozen=True)
class Material:
    """The material of pushbacks.

    Attributes
    ----------
    benches : PushbackBenches
        With the amounts and the cash flow of mining alone.
    cells : int array, shape (blocks,)
        The cells of the blocks of ore.
    parcel : int array, shape (blocks,)
        The parcel of each.
    blocks, parcels : Ore
        The ore block by block, and in parcels.
    edges : dict of str to array
        By process the net values per tonne of feed between its bins, in the currency; none if blocks that choose alike are in a bin.
    sets : DumpSets, optional
        The rock by the set of dumps that accept it; None without dumps.
    """

    benches: PushbackBenches
    cells: NDArray[np.int64]
    parcel: NDArray[np.int64]
    blocks: Ore
    parcels: Ore
    edges: dict[str, NDArray[np.float64]]
    sets: Optional[DumpSets] = None


def of_pushbacks(pushbacks: Pushbacks, rules: ScheduleRules) -> Material:
    """Returns the material of pushbacks, with value bins of nearly even tonnage. Raises PlanError if no dump accepts some of it."""
    plan, assigned = pushbacks.plan, bench_table.of_pushbacks(pushbacks, rules.bench_lag)
    sets = of_cells(plan, np.flatnonzero((pushbacks.pushback > 0) & (plan.values.tonnes > 0)))
    cells = ore_cells(pushbacks, rules)
    blocks = ore_of(plan, rules, cells, bench_table.benches_of_cells(pushbacks, assigned, cells), sets=sets)
    benches = mined_alone(pushbacks, assigned, rules, sets)
    material = Material(benches, cells, np.zeros(len(cells), dtype=np.int64), blocks, blocks, {}, sets)
    return by_value(material, names_of(plan), rules.bins or BINS, GRADE_PARTS)


def by_value(material: Material, names: list[str], bins: int, parts: int) -> Material:
    """Returns the same material in parcels by value bins of each process, of nearly even tonnage, and by parts of limited grades."""
    blocks = material.blocks
    per_tonne = per_tonne_of(blocks, blocks.gain)
    best = per_tonne.argmax(axis=0)
    edges = {
        name: edges_of(per_tonne[process, best == process], blocks.feed[best == process], bins)
        for process, name in enumerate(names)
    }
    kind = kinds_of(blocks, per_tonne, list(edges.values()), grade_parts(blocks, parts))
    return in_parcels(replace(material, edges=edges), kind)


def by_choice(material: Material, choices: NDArray[np.int64]) -> Material:
    """Returns the same material with the blocks of a bench that choose alike as a parcel.

    At the prices of the limits from which the choices follow, parcels lose nothing of what single blocks can earn, so the optimum of the linear
    programme over them is near the upper bound (Boland, Dumitrescu, Froyland and Gleixner 2009: LP-based disaggregation approaches to solving
    the open pit mining production scheduling problem with block processing selectivity, Computers & Operations Research 36(4)).

    Parameters
    ----------
    material : Material
    choices : int array, shape (blocks, years)
        Where each block goes, by the year in which it is mined.
    """
    blocks = material.blocks
    per_tonne = per_tonne_of(blocks, blocks.gain)
    best, worth = per_tonne.argmax(axis=0), per_tonne.max(axis=0)
    kind = np.unique(np.column_stack([best, takers_of(blocks), choices]), axis=0, return_inverse=True)[1].ravel()
    # Bins rise with the mean value per tonne of their blocks, by best process.
    mean = np.bincount(kind, worth * blocks.feed) / np.bincount(kind, blocks.feed)
    process = np.zeros(len(mean), dtype=np.int64)
    process[kind] = best
    place = np.empty(len(mean), dtype=np.int64)
    place[np.lexsort((mean, process))] = np.arange(1, len(mean) + 1)
    return replace(in_parcels(material, place[kind]), edges={})


def in_parcels(material: Material, kind: NDArray[np.int64]) -> Material:
    """Returns the material with the blocks of a bench and a bin as a parcel."""
    blocks, kinds = replace(material.blocks, bin=kind), int(kind.max(initial=0))
    used, parcel = np.unique(blocks.bench * (kinds + 1) + kind, return_inverse=True)
    parcels = blocks.merged(parcel, used // (kinds + 1), used % (kinds + 1))
    return replace(material, parcel=parcel, blocks=blocks, parcels=parcels)


def per_tonne_of(blocks: Ore, values: NDArray[np.float64]) -> NDArray[np.float64]:
    """Returns values of blocks per tonne of feed, shape (processes, blocks); -inf in processes that cannot take a block."""
    return np.where(blocks.of(FEED) > 0, values / np.where(blocks.feed > 0, blocks.feed, 1.0), -np.inf)


def names_of(plan: Plan) -> list[str]:
    """The processes by name; "" of a project that names none."""
    return [process.name for process in plan.project.processes] or [""]


def ore_cells(pushbacks: Pushbacks, rules: ScheduleRules) -> NDArray[np.int64]:
    """The cells of the pushbacks that some process may take: those that gain in some year, or, where limits may ask for ore
    or waste has its cost, yield anything."""
    plan = pushbacks.plan
    inside = np.flatnonzero((pushbacks.pushback > 0) & (plan.values.tonnes > 0))
    inside = inside[np.any([way.revenue[inside] > 0 for way in plan.values.by_process], axis=0)]
    if limits_of(plan.project, rules).asks_least or plan.project.feed_grades or plan.project.dumps:
        return inside
    money = period_costs.of_project(plan.project)
    years = 1 + max((len(more) for more in money.of_ore.values()), default=0)
    ore = ore_of(plan, rules, inside, np.zeros(len(inside), dtype=np.int64))
    return inside[ore.gains(money, years).max(axis=(0, 2), initial=-np.inf) > 0]


def ore_of(
    plan: Plan,
    rules: ScheduleRules,
    cells: NDArray[np.int64],
    bench: NDArray[np.int64],
    *,
    sets: Optional[DumpSets] = None,
) -> Ore:
    """Returns cells as ore, with the bench of each, and with dumps the tonnes of each that do not go there if it is processed."""
    values, ways = plan.values, plan.values.by_process
    # A block without revenue in a process is never sent there.
    takes = np.array([way.revenue[cells] > 0 for way in ways], dtype=float)
    amounts = {FEED: takes * values.feed[cells]}
    for number, process in enumerate(plan.project.processes):
        amounts[f"{FEED}_{process.name}"] = alone(amounts[FEED], number)
    for name in values.metal:
        amounts[f"recovered_{name}"] = takes * np.stack([way.metal[name][cells] for way in ways])
    amounts |= {name: costs[:, cells] for name, costs in plan.multiplied_amounts.items()}
    by_set = {} if sets is None else sets.tonnes(cells, values.tonnes[cells])
    amounts |= {name: takes * tonnes for name, tonnes in by_set.items()}
    amounts |= sums_of(plan, rules, cells, takes) | grades_of(plan, cells, takes)
    gain = np.stack([(way.revenue[cells] - way.cost[cells]) / MILLION for way in ways])
    return Ore(bench, np.ones(len(cells), dtype=np.int64), gain, amounts, accepted_of(plan, rules, cells))


def accepted_of(plan: Plan, rules: ScheduleRules, cells: NDArray[np.int64]) -> Optional[NDArray[np.bool_]]:
    """Returns whether each stockpile accepts each cell, shape (stockpiles, cells); None without stockpiles."""
    masks = [accepted_by(it.accepts, plan.table, plan.project) for it in rules.stockpiles]
    return np.stack([plan.grid.spread(mask)[cells] for mask in masks]) if masks else None


def alone(values: NDArray[np.float64], process: int) -> NDArray[np.float64]:
    """Returns the values of one process, and 0 in the others."""
    found = np.zeros_like(values)
    found[process] = values[process]
    return found


def column_of(plan: Plan, name: str, cells: NDArray[np.int64]) -> NDArray[np.float64]:
    return np.asarray(plan.grid.spread(plan.table[name].to_numpy())[cells], dtype=float)


def sums_of(
    plan: Plan, rules: ScheduleRules, cells: NDArray[np.int64], takes: NDArray[np.float64]
) -> dict[str, NDArray[np.float64]]:
    """Returns what processing adds to the limited sums of columns that count feed."""
    found, names = {}, names_of(plan)
    for it in [it for it in rules.limits if it.of != TOTAL]:
        weight = plan.values.undiluted[cells] if it.per_tonne else np.ones(len(cells))
        whole = takes * (column_of(plan, it.column, cells) * weight)
        found[f"{SUM}{it.name}"] = whole if it.of == OF_FEED else alone(whole, names.index(it.of))
    return found


def grades_of(plan: Plan, cells: NDArray[np.int64], takes: NDArray[np.float64]) -> dict[str, NDArray[np.float64]]:
    """Returns by limited head grade what processing adds to the content above the maximum, or below the minimum: at most 0 in each year."""
    found = {}
    for limit in grade_limits(plan.project):
        excess = limit.sign * (content_of(plan, limit, cells) - limit.grade * plan.values.feed[cells])
        found[limit.name] = alone(takes * excess, limit.process)
    return found


def content_of(plan: Plan, limit: GradeLimit, cells: NDArray[np.int64]) -> NDArray[np.float64]:
    """Returns what the feed of cells adds to the content of a limited head grade, or to the tonnes of a limited code."""
    if limit.code is None:
        return np.asarray(column_of(plan, limit.column, cells) * plan.values.undiluted[cells])
    is_of_code = plan.grid.spread(plan.table[limit.column].astype(str).to_numpy() == limit.code)[cells]
    return np.where(is_of_code, plan.values.feed[cells], 0.0)


def kinds_of(
    blocks: Ore, per_tonne: NDArray[np.float64], edges: list[NDArray[np.float64]], part: NDArray[np.int64]
) -> NDArray[np.int64]:
    """Returns the bin of each block, from 1, by its best process, the places that may take it, its value per tonne, rising, and limited grades.

    Parameters
    ----------
    blocks : Ore
    per_tonne : array, shape (processes, blocks)
        Values per tonne of feed.
    edges : list of arrays
        The values between bins, by process.
    part : int array, shape (blocks,)
        The part of each block by limited grades.
    """
    best = per_tonne.argmax(axis=0)
    value = np.zeros(len(blocks), dtype=np.int64)
    for process, between in enumerate(edges):
        some = np.flatnonzero(best == process)
        value[some] = np.searchsorted(between, per_tonne[process, some])
    key = np.stack([best, takers_of(blocks), value, part], axis=1)
    return np.unique(key, axis=0, return_inverse=True)[1].ravel().astype(np.int64) + 1


def takers_of(blocks: Ore) -> NDArray[np.int64]:
    """Returns a number for the set of processes, stockpiles and dumps that may take each block."""
    may = blocks.of(FEED) > 0 if blocks.accepted is None else np.vstack([blocks.of(FEED) > 0, blocks.accepted])
    number = np.asarray(may.T @ (2 ** np.arange(len(may))), dtype=np.int64)
    for place, name in enumerate([name for name in blocks.amounts if name.startswith(SET)]):
        number += np.where(blocks.of(name).max(axis=0) > 0, place * 2 ** len(may), 0)
    return number


def grade_parts(blocks: Ore, parts: int) -> NDArray[np.int64]:
    """Returns the part of each block by its limited grades; each grade divides the ore into `parts` of equal feed."""
    part = np.zeros(len(blocks), dtype=np.int64)
    # Limits of other periods differ by a constant.
    once = {name.partition(AT)[0]: name for name in blocks.amounts if name.startswith(GRADE)}
    for name in once.values():
        grade = blocks.amounts[name].sum(axis=0) / np.where(blocks.feed > 0, blocks.feed, 1.0)
        edges = edges_of(grade, blocks.feed, parts)
        part = part * (len(edges) + 1) + np.searchsorted(edges, grade)
    return part


def mined_alone(
    pushbacks: Pushbacks, assigned: PushbackBenches, rules: ScheduleRules, sets: Optional[DumpSets] = None
) -> PushbackBenches:
    """Returns the benches with the amounts of mining alone: total material, limited sums of all material, the mining cost, and rock by set of
    dumps."""
    plan = pushbacks.plan
    inside = np.flatnonzero((pushbacks.pushback > 0) & (plan.values.tonnes > 0))
    bench = bench_table.benches_of_cells(pushbacks, assigned, inside)
    tonnes = plan.values.tonnes[inside]
    flows = {name: np.zeros(len(inside)) for name in assigned.names} | {ROCK: tonnes}
    cost = plan.values.mining[inside] / MILLION + pushbacks.mining_cost_added[inside]
    flows |= {CASH: -cost, period_costs.MINING_COST: cost}
    flows |= {} if sets is None else sets.tonnes(inside, tonnes)
    for it in [it for it in rules.limits if it.of == TOTAL]:
        flows[f"{SUM}{it.name}"] = column_of(plan, it.column, inside) * (tonnes if it.per_tonne else 1.0)
    sums = np.column_stack([np.bincount(bench, flow, minlength=len(assigned)) for flow in flows.values()])
    return PushbackBenches(assigned.pushback, assigned.level, tuple(flows), sums, assigned.lag)

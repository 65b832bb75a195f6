"""Rows of a block model valued in the currency: mill feed, recovered metal, revenue and cost in each process."""

from __future__ import annotations

import math
from dataclasses import dataclass
from decimal import Decimal
from functools import cached_property, reduce
from typing import Optional, Union

import numpy as np
import pandas as pd
from numpy.typing import NDArray

from pitplan.blockmodel.grid import Grid
from pitplan.config.economics import GRADE_UNITS, ByCode, ByDomain, Curve, Economics, Metal, Recovery
from pitplan.config.geometry import Haulage, Road
from pitplan.config.material import Accepts
from pitplan.config.project import Project
from pitplan.core.decimals import Exact, Rounding, nearest, whole_and_places
from pitplan.core.numeric_fields import at_row, demand_none
from pitplan.core.tolerances import SUM_ERROR

from .smelter_terms import charge_of_ore, paid, penalty_rates

# A recovery by grade is kept to a millionth, since the line between two grades has no end of decimals.
PLACES = 6


@dataclass(frozen=True)
class Way:
    """One process: revenue and cost of each cell in millionths, and the recovered quantity of each metal. `name` is "" if there is only one."""

    name: str
    revenue: np.ndarray
    cost: np.ndarray
    metal: dict[str, np.ndarray]

    def within(self, cells: np.ndarray) -> Way:
        """The same with neither revenue nor cost nor metal outside some cells; `cells` is a mask."""
        metal = {name: np.where(cells, amounts, 0.0) for name, amounts in self.metal.items()}
        return Way(self.name, np.where(cells, self.revenue, 0), np.where(cells, self.cost, 0), metal)


@dataclass(frozen=True)
class Head:
    """The head grade of each row: the grade of the block, and the tonnes of feed per tonne of it."""

    grade: Exact
    tonnes_of: Exact

    def of(self, rows: np.ndarray) -> Head:
        return Head(*(Exact(part.whole[rows], part.places) for part in (self.grade, self.tonnes_of)))


def of_rows(recovery: Union[Recovery, dict[str, Recovery]], rock: np.ndarray, head: Head) -> Exact:
    """Returns the recovery of each row, by rock type and head grade; 0 if its rock type has none."""
    if not isinstance(recovery, dict):
        return of_rock(recovery, head)
    parts = []
    for code, share in recovery.items():
        mine = np.flatnonzero(rock == code)
        parts.append((mine, of_rock(share, head.of(mine))))
    places = max((part.places for _, part in parts), default=0)
    found = [(mine, part.at(places)) for mine, part in parts]
    whole = np.zeros(len(rock), dtype=np.result_type(np.int64, *(shares for _, shares in found)))
    for mine, shares in found:
        whole[mine] = shares
    return Exact(whole, places)


def of_rock(recovery: Recovery, head: Head) -> Exact:
    if not isinstance(recovery, Curve):
        return Exact.of(recovery, len(head.grade.whole))
    return Exact(at_grades(recovery, head), PLACES)


def at_grades(curve: Curve, head: Head) -> np.ndarray:
    """Returns recoveries in millionths: linear between two grades, constant beyond the first and the last."""
    points = [(whole_and_places(grade), whole_and_places(share)) for grade, share in curve.points]
    places = max(head.grade.places, head.tonnes_of.places, *(own for (_, own), _ in points))
    finest = max(own for _, (_, own) in points)
    # A grade at the mill is `grade / unit` of these whole numbers, and a named grade is `at / one`.
    # Their products are of any size.
    grade, unit, one = head.grade.at(places).astype(object), head.tonnes_of.at(places).astype(object), 10**places
    named = [(at * 10 ** (places - own), share * 10 ** (finest - fine)) for (at, own), (share, fine) in points]
    parts = nearest(np.full(len(grade), named[-1][1] * 10**PLACES, dtype=object), 10**finest)
    for (low, first), (high, last) in reversed(list(zip(named, named[1:]))):
        up_to = np.flatnonzero(np.array(grade * one <= high * unit, dtype=bool))
        line = first * (high - low) * unit[up_to] + (last - first) * (grade[up_to] * one - low * unit[up_to])
        parts[up_to] = nearest(line * 10**PLACES, (high - low) * unit[up_to] * 10**finest)
    low, first = named[0]
    below = np.array(grade * one <= low * unit, dtype=bool)
    parts[below] = nearest(np.full(int(below.sum()), first * 10**PLACES, dtype=object), 10**finest)
    return parts


def accepted_by(accepts: Accepts, frame: pd.DataFrame, project: Project) -> NDArray[np.bool_]:
    """Returns whether each row of a checked table is accepted: by its codes and its in-situ grades."""
    columns, found = project.table.by_code, np.ones(len(frame), dtype=bool)
    for key, codes in accepts.by_code.items():
        if codes:
            found &= frame[columns[key]].astype(str).isin(codes).to_numpy()
    for grade in accepts.grades:
        values = frame[grade.name].to_numpy(dtype=float)
        found &= values >= (-np.inf if grade.min is None else grade.min)
        found &= values <= (np.inf if grade.max is None else grade.max)
    return found


# Haul distances and costs.
#
# The haul road of a block is the horizontal distance from its centroid to the pit exit, plus a ramp for the rise from
# the floor of its bench to the exit, up or down. The horizontal length of the ramp is the rise divided by the
# gradient (Hustrulid, Kuchta and Martin, Open Pit Mine Planning and Design, 3rd edition, 2013, on haulage roads). A
# road that approaches the exit while it climbs is shorter, at least as long as the longer of the two parts. Benches,
# road widths and curves are ignored: these are costs for a pit without a road design.
#
# All material is hauled as waste. Mill feed costs more or less than waste along the same road; the difference is part
# of the processing cost.

# Lengths are kept to a millimetre, elevations of floors to a micrometre.
LENGTH_PLACES, ELEVATION_PLACES = 3, 6


@dataclass(frozen=True)
class Roads:
    """Haul roads of the rows of a table: exact metres to the exit, and cost per tonne."""

    metres: Exact
    rules: Haulage

    @staticmethod
    def of(grid: Grid, rules: Haulage) -> Roads:
        x, y, _ = grid.centres(np.arange(grid.per_level))
        flat = np.hypot(x - float(rules.pit_exit[0]), y - float(rules.pit_exit[1]))
        floors = Exact.of_floats(grid.toes().round(ELEVATION_PLACES))
        rise = floors.minus(Exact.of(rules.pit_exit[2], len(floors.whole))).floats()
        ramp = np.abs(rise) / float(rules.ramp_gradient)
        metres = flat[grid.rows % grid.per_level] + ramp[grid.rows // grid.per_level]
        return Roads(Exact(np.rint(metres * 10**LENGTH_PLACES).astype(np.int64), LENGTH_PLACES), rules)

    @property
    def waste(self) -> Exact:
        """Cost per tonne of material."""
        return self.cost(self.rules.waste)

    @property
    def ore_more(self) -> Exact:
        """What a tonne of mill feed costs more than as waste; below 0 if less."""
        return self.cost(self.rules.ore).minus(self.waste)

    def cost(self, road: Road) -> Exact:
        count = len(self.metres.whole)
        return self.metres.plus(Exact.of(road.ex_pit_distance, count)).times(Exact.of(road.cost.scaleb(-3), count))


@dataclass(frozen=True)
class Hauled:
    """Haul distance of each cell in whole millimetres, and haulage costs in millionths of the currency: of the block as waste, part of its mining
    cost; and of its mill feed beyond that, part of its processing cost.
    """

    road: np.ndarray
    waste: np.ndarray
    ore_more: np.ndarray


def reference_level(money: Economics, grid: Grid) -> int:
    """Returns the level below which mining costs rise by bench: the one that contains the reference elevation, its toe included; 0, the highest of
    the model, without one. It is negative if the reference lies above the model.
    """
    if money.mining_cost_reference is None:
        return 0
    return math.ceil((grid.extent()[5] - float(money.mining_cost_reference)) / grid.size[2] - SUM_ERROR) - 1


def added_cost(money: Economics, elevation: float) -> Decimal:
    """Returns the added mining cost per tonne at an elevation, to a millionth: linear between the given elevations, constant beyond them."""
    pairs = money.mining_cost_by_elevation
    at = Decimal(repr(round(float(elevation), 6)))
    if at <= pairs[0][0]:
        return pairs[0][1]
    for (low, cost), (high, then) in zip(pairs, pairs[1:]):
        if at <= high:
            return (cost + (then - cost) * (at - low) / (high - low)).quantize(Decimal("1e-6"))
    return pairs[-1][1]


MILLIONTHS = 6
# The lines of the mining cost.
MINING, DEPTH, HAULAGE = "mining", "depth", "haulage"

# The files' decimals have twelve digits before the point, and a fixed cut-off adds two amounts.
GREATEST = 10**17

# By unit a mean grade that hardly any mine reaches.
HIGH_GRADES = {"percent": 10.0, "fraction": 0.1, "gram_per_tonne": 100.0}


@dataclass(frozen=True)
class Weighed:
    """Revenue and cost of each row in one process, in millionths, with what was rounded, and the recovered metals."""

    revenue: np.ndarray
    cost: np.ndarray
    metal: dict[str, Exact]
    roundings: dict[str, Rounding]

    def way(self, name: str, grid: Grid) -> Way:
        """Returns values by cell from values by row."""
        metal = {metal: grid.spread(amounts.floats()) for metal, amounts in self.metal.items()}
        return Way(name, grid.spread(self.revenue), grid.spread(np.where(self.revenue > 0, self.cost, 0)), metal)


@dataclass(frozen=True)
class Feed:
    """Mill feed of each row, if it is processed.

    Attributes
    ----------
    undiluted : exact numbers
        Tonnes of the block itself.
    tonnes_of : exact numbers
        Tonnes of feed per tonne of these: 1.05 with 5 % dilution.
    """

    undiluted: Exact
    tonnes_of: Exact

    @property
    def tonnes(self) -> Exact:
        return self.undiluted.times(self.tonnes_of)


@dataclass(frozen=True)
class ValuedRows:
    """The rows of a table while they are valued, with the exact tonnes of each."""

    frame: pd.DataFrame
    grid: Grid
    project: Project
    source: str
    tonnes: Exact

    def every(self, value: Decimal) -> Exact:
        return Exact.of(value, len(self.frame))

    def codes(self, column: Optional[str]) -> np.ndarray:
        return self.frame[column].to_numpy() if column else np.full(len(self.frame), "")

    @cached_property
    def roads(self) -> Optional[Roads]:
        return None if self.project.haulage is None else Roads.of(self.grid, self.project.haulage)

    @property
    def rock(self) -> np.ndarray:
        return self.codes(self.project.table.rock_type)

    def by_code(self, price: ByCode, needed: np.ndarray, key: str) -> Exact:
        """Returns a number for each row by its rock type or domain. Raises PlanError if a row in `needed` has a code without a number."""
        if isinstance(price, Decimal):
            return self.every(price)
        name, column = "rock type", self.project.table.rock_type
        if isinstance(price, ByDomain):
            name, column = "domain", self.project.table.domain
        by_code = price.values if isinstance(price, ByDomain) else price
        inverse, codes = pd.factorize(self.codes(column), sort=True)
        for number, code in enumerate(codes):
            lacking = needed & (inverse == number)
            if code not in by_code and lacking.any():
                why = f'[economics] {key} names no {name} "{code}"'
                raise at_row(self.source, int(lacking.argmax()), column or name, why)
        table = Exact.of_decimals([by_code.get(code, Decimal(0)) for code in codes])
        return Exact(table.whole[inverse], table.places)

    def adjusted(self, a_tonne: Exact, factors: Optional[str]) -> Exact:
        """Returns a cost per tonne times the adjustment factors of a column; itself without a column."""
        return a_tonne.times(Exact.of_floats(self.frame[factors].to_numpy())) if factors else a_tonne

    def mining_rates(self) -> dict[str, Exact]:
        """Returns the mining cost per tonne by line: mining, depth (the increment by bench or elevation), and with `[haulage]` haulage as waste.
        The adjustment factor applies to the first alone."""
        money, solid = self.project.economics, np.array(self.tonnes.whole > 0, dtype=bool)
        _, _, level = self.grid.indices(self.grid.rows)
        if money.mining_cost_by_elevation:
            more = Exact.of_decimals([added_cost(money, z) for z in self.grid.elevations()])
            deeper = Exact(more.whole[level], more.places)
        else:
            steps = np.maximum(level - reference_level(money, self.grid), 0).astype(np.int64)
            deeper = Exact(steps, 0).times(self.every(money.mining_cost_per_bench))
        found = {
            MINING: self.adjusted(self.by_code(money.mining_cost, solid, "mining_cost"), money.mcaf),
            DEPTH: deeper,
        }
        return found | ({HAULAGE: self.roads.waste} if self.roads else {})

    def mining(self) -> Exact:
        """Returns the mining cost with haulage as waste."""
        return self.tonnes.times(reduce(Exact.plus, self.mining_rates().values()))

    def processing_rate(self, needed: np.ndarray) -> Exact:
        """Returns the cost of processing a tonne of feed. Raises PlanError if a row in `needed` has a rock type without one."""
        money = self.project.economics
        return self.adjusted(self.by_code(money.processing_cost, needed, "processing_cost"), money.pcaf)

    def feed(self) -> Feed:
        """Returns the mill feed of each row. Raises PlanError if a mineralised row has a code without a number."""
        money, some = self.project.economics, np.zeros(len(self.frame), dtype=bool)
        for metal in self.project.metals:
            some |= self.frame[metal.column].to_numpy() > 0
        some &= np.array(self.tonnes.whole > 0, dtype=bool)
        undiluted = self.tonnes.times(self.by_code(money.mining_recovery, some, "mining_recovery"))
        return Feed(undiluted, self.every(Decimal(1)).plus(self.by_code(money.dilution, some, "dilution")))

    def recovered(self, metal: Metal, feed: Feed) -> Exact:
        """Returns the recovered quantity of a metal in tonnes, or in grams if the grade is in grams per tonne."""
        grade, nowhere = Exact.of_floats(self.frame[metal.column].to_numpy()), np.zeros(len(self.frame), dtype=bool)
        share = of_rows(metal.recovery, self.rock, Head(grade, feed.tonnes_of))
        if metal.tail_grade:
            tail = self.by_code(metal.tail_grade, nowhere, "tail_grade").times(feed.tonnes_of)
            left = grade.minus(tail)
            grade = Exact(np.maximum(left.whole, 0), left.places)
        return feed.undiluted.times(grade).times(self.every(GRADE_UNITS[metal.unit])).times(share)

    def penalties(self, metal: Metal, quantity: Exact, feed: Feed) -> Exact:
        """Returns what the smelter charges for other elements in the concentrate of each row with a recovered quantity of a metal."""
        found = self.every(Decimal(0))
        has_any = Exact(np.array(quantity.whole > 0, dtype=np.int64), 0)
        for penalty in metal.smelter.penalties if metal.smelter else ():
            grade = Exact.of_floats(self.frame[penalty.column].to_numpy())
            content = feed.undiluted.times(grade).times(self.every(penalty.recovery)).times(has_any)
            for limit, rate in penalty_rates(metal, penalty):
                above = content.minus(quantity.times(self.every(limit)))
                above = Exact(np.maximum(above.whole, 0), above.places)
                found = found.plus(above.times(self.every(rate)))
        return found

    def weighed(self, feed: Feed) -> Weighed:
        """Returns revenue and cost in the project's own process. Raises PlanError if a rock type has no cost, an amount is 10^11 or more, or hauling
        ore is so much cheaper than waste, or price participation credits so much, that a cost falls below 0."""
        costs, metals = self.project.economics, self.project.metals
        metal = {m.name: self.recovered(m, feed) for m in metals}
        revenue = selling = self.every(Decimal(0))
        for m in metals:
            revenue = revenue.plus(metal[m.name].times(self.every(paid(m, m.price) * (1 - costs.royalty))))
            selling = selling.plus(metal[m.name].times(self.every(charge_of_ore(m))))
            selling = selling.plus(self.penalties(m, metal[m.name], feed))
        yields = np.array(revenue.whole > 0, dtype=bool)
        a_tonne = self.processing_rate(yields).plus(self.every(costs.royalty_per_tonne))
        if self.roads:
            a_tonne = self.with_haulage(a_tonne, yields, self.roads)
        amounts = {"revenue": revenue, "processing cost": feed.tonnes.times(a_tonne).plus(selling)}
        (gain, first), (cost, second) = (self.millionths(value, name) for name, value in amounts.items())
        return Weighed(gain, cost, metal, dict(zip(amounts, (first, second))))

    def with_haulage(self, a_tonne: Exact, yields: np.ndarray, roads: Roads) -> Exact:
        """Returns the processing cost per tonne, with what ore costs more to haul than waste. Raises PlanError if it is below 0."""
        found = a_tonne.plus(roads.ore_more)
        below = yields & np.array(found.whole < 0, dtype=bool)
        if below.any():
            columns, row = self.project.table, int(below.argmax())
            less, cost = (float(it.floats()[row]) for it in (roads.ore_more, a_tonne))
            why = f"[haulage] hauling ore costs {-less:.6g} per tonne less than waste from here, more than its processing cost of {cost:.6g}"
            raise at_row(self.source, row, f"{columns.x}, {columns.y}, {columns.z}", why)
        return found

    def hauled(self, feed: Feed) -> tuple[Optional[Hauled], dict[str, Rounding]]:
        """Returns haul distances and haulage costs by cell, and what was rounded."""
        if self.roads is None:
            return None, {}
        amounts = {
            "haulage cost": self.tonnes.times(self.roads.waste),
            "haulage cost of ore": feed.tonnes.times(self.roads.ore_more),
        }
        (waste, first), (more, second) = (self.millionths(value, name) for name, value in amounts.items())
        road, waste, more = (self.grid.spread(values) for values in (self.roads.metres.whole, waste, more))
        return Hauled(road, waste, more), dict(zip(amounts, (first, second)))

    def millionths(self, value: Exact, name: str) -> tuple[np.ndarray, Rounding]:
        """Returns int64 millionths, rounded to the decimals of the project. Raises PlanError from 10^11 on."""
        decimals = self.project.economics.decimals
        rounded, rounding = value.rounded(decimals)
        millionths = Exact(rounded, decimals).at(MILLIONTHS)
        too_great = np.array(millionths >= GREATEST, dtype=bool)
        why = "the amount is 10^11 or more: give prices and costs in a larger unit of money"
        demand_none(too_great, self.source, name, why)
        return millionths.astype(np.int64), rounding

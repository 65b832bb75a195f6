"""Verifies costs and revenue of blocks: all by floats, and by exact decimals those at the edges of shells and a sample of the others."""

from __future__ import annotations

import math
from bisect import bisect
from dataclasses import dataclass, field, replace
from decimal import ROUND_HALF_EVEN, Decimal
from fractions import Fraction
from functools import cached_property, lru_cache
from typing import Any, Optional

import numpy as np

from planaudit.inputs.answer import Answer
from planaudit.inputs.block_table import columns_of
from planaudit.inputs.codes import refused, treated_as
from planaudit.inputs.matching import PROCESS
from planaudit.inputs.project import GRADE_UNITS, Project
from planaudit.money import haulage, smelter
from planaudit.money.feed import at_grade, by_code, of_code
from planaudit.rules import TOLD, Rule, rule

# Blocks whose amounts are near a half of the last decimal, so that floats do not decide its rounding: this many are computed exactly, and this
# many others.
NEAR_HALVES, SAMPLE = 20_000, 2_000
# The error of an amount by floats, in units of its last decimal and as a share.
HAIR, REL = 1e-6, 1e-12
MINING = "mining_cost"
# Mining cost, revenue and processing cost.
Amounts = tuple[Decimal, Decimal, Decimal]


def verify(answer: Answer) -> Rule:
    """Verifies that each amount of blocks.csv is the product of numbers of the table and the project, rounded once."""
    # With one process these are the results themselves, which have cached some parts.
    parts = [answer if way is answer.project else replace(answer, project=way) for way in answer.project.by_process]
    found = [unlike(part, names) for part, names in zip(parts, answer.amounts_of_ways)]
    differences, count = [said for told, _, _ in found for said in told], sum(count for _, count, _ in found)
    if not count and answer.project.processes:
        differences = unlike_best(answer)
        count = len(differences)
    exactly = len(answer.rows) - max(left for _, _, left in found)
    holds = f"costs and revenue of all blocks follow from the project, exactly so for {exactly:,} of them"
    return rule("money", holds, differences, count)


def unlike(answer: Answer, names: tuple[str, str]) -> tuple[list[str], int, int]:
    """Returns the first ten differences of each amount, their number, and how many blocks are not compared exactly.

    Floats decide the rounding of an amount unless it is near a half of its last decimal. These amounts are computed by exact decimals.
    """
    unit, rows, differences, count = 10.0 ** -answer.project.economics["decimals"], len(answer.rows), [], 0
    near = np.zeros(rows, dtype=bool)
    for name, due in zip((MINING, *names), by_floats(answer, names[0])):
        said, units = answer.said[name].to_numpy(), due / unit
        hair = HAIR + REL * np.abs(units)
        is_half = np.abs(np.abs(units - np.floor(units)) - 0.5) < hair
        off = np.abs(said / unit - np.where(is_half, units, np.rint(units))) > np.where(is_half, 0.5, 0.0) + hair
        off |= np.abs(said / unit - np.rint(said / unit)) > hair
        wrong = np.flatnonzero(off)
        differences += [f"{answer.called(row)}: {name} {said[row]:.10g} for {due[row]:.10g}" for row in wrong[:TOLD]]
        count, near = count + len(wrong), near | is_half
    halves = np.flatnonzero(near)
    chosen = halves[:: -(-len(halves) // NEAR_HALVES) or 1]
    if not count:
        differences = not_exact(answer, np.union1d(chosen, sample(answer)), names)
        count = len(differences)
    return differences, count, len(halves) - len(chosen)


def unlike_best(answer: Answer) -> list[str]:
    """Returns blocks whose process, or its revenue and cost, are not those of the best process at the base price."""
    names = [process["name"] for process in answer.project.processes]
    unit = 10 ** answer.project.economics["decimals"]
    told = [np.rint(answer.said[list(pair)].to_numpy() * unit).astype(np.int64) for pair in answer.amounts_of_ways]
    gains = np.stack([amounts[:, 0] - amounts[:, 1] for amounts in told])
    # Of several with equal value it is the one with the least revenue.
    tied = gains == gains.max(axis=0)
    best = np.where(tied, np.stack([amounts[:, 0] for amounts in told]), np.iinfo(np.int64).max).argmin(axis=0)
    of_best = np.stack(told)[best, np.arange(len(best))]
    said = np.rint(answer.said[["revenue", "processing_cost"]].to_numpy() * unit).astype(np.int64)
    expected = np.where(gains.max(axis=0) > 0, np.array(names, dtype=object)[best], "")
    # A sensitivity does not name it.
    process = answer.said[PROCESS].to_numpy() if PROCESS in answer.said else expected
    off = np.flatnonzero((said != of_best).any(axis=1) | (process != expected))
    return [f"{answer.called(row)}: process {process[row]!r} for {expected[row]!r}, or its amounts" for row in off]


def not_exact(answer: Answer, chosen: np.ndarray, names: tuple[str, str]) -> list[str]:
    """Returns any difference of these rows, by exact decimals."""
    rows, results = (columns_of(frame, frame.columns, chosen) for frame in (answer.rows, answer.said))
    part = replace(answer, rows=rows, said=results, found={})
    read, differences = Exactly.of(part), []
    told = [results[name].to_numpy() for name in (MINING, *names)]
    for row in range(len(rows)):
        for name, column, amount in zip((MINING, *names), told, read.amounts(row)):
            said = column[row]
            if not math.isclose(float(amount), said, rel_tol=1e-15):
                differences.append(f"{part.called(row)}: {name} {said:.10g} for {amount}")
    return differences


def sample(answer: Answer) -> np.ndarray:
    """Returns some rows, the same each time."""
    count = len(answer.rows)
    if count <= SAMPLE:
        return np.arange(count)
    return np.sort(np.random.default_rng(0).choice(count, SAMPLE, replace=False, shuffle=False))


def more_for_depth(answer: Answer, elevation: float) -> Decimal:
    """Returns the mining cost per tonne that is added for depth, by the elevation of the centroid."""
    money = answer.project.economics
    if money["mining_cost_by_elevation"]:
        return between(money["mining_cost_by_elevation"], Fraction(repr(round(float(elevation), 6))))
    if not money["mining_cost_per_bench"]:
        return Decimal(0)
    reference, height = money["mining_cost_reference"], answer.size[2]
    # The top bench of the grid is that of the table by the rule of blocks. A reference on a boundary is the toe of its bench.
    at = answer.toes[0] if reference is None else float(reference)
    toe = elevation - height / 2
    return money["mining_cost_per_bench"] * max(0, math.floor((at - toe) / height + 1e-9))


def between(pairs: tuple[tuple[Decimal, Decimal], ...], elevation: Fraction) -> Decimal:
    """Returns the cost at an elevation, interpolated exactly and rounded to a millionth, halves to even."""
    heights, costs = ([Fraction(pair[k]) for pair in pairs] for k in (0, 1))
    if len(pairs) == 1:
        return pairs[0][1]
    upper = min(max(bisect(heights, elevation), 1), len(pairs) - 1)
    span = heights[upper] - heights[upper - 1]
    share = min(max((elevation - heights[upper - 1]) / span, Fraction(0)), Fraction(1))
    return Decimal(round((costs[upper - 1] + share * (costs[upper] - costs[upper - 1])) * 10**6)).scaleb(-6)


@dataclass(frozen=True)
class Costs:
    """Costs of a rock type and domain: mining cost per tonne without depth, processing cost per tonne, mining recovery and dilution, and recovery
    and tail grade of each metal."""

    mining: Decimal
    processing: Decimal
    mining_recovery: Decimal
    dilution: Decimal
    recoveries: tuple[Any, ...]
    tails: tuple[Decimal, ...]

    @staticmethod
    def of(project: Project, rock: str, domain_code: str) -> Costs:
        money, metals = project.economics, project.metals
        shares = [
            metal["recovery"].get(rock, Decimal(0)) if isinstance(metal["recovery"], dict) else metal["recovery"]
            for metal in metals
        ]
        tails = [of_code(metal["tail_grade"], rock, "") for metal in metals]
        return Costs(
            of_code(money["mining_cost"], rock, domain_code),
            of_code(money["processing_cost"], rock, domain_code),
            of_code(money["mining_recovery"], rock, domain_code),
            of_code(money["dilution"], rock, domain_code),
            tuple(shares),
            tuple(tails),
        )

    def recovered(self, number: int, grade: Decimal) -> Decimal:
        """Returns the recovered grade of a metal per undiluted tonne that reaches the mill."""
        share, tail = self.recoveries[number], self.tails[number]
        if isinstance(share, tuple):
            share = at_grade(share, Fraction(grade) / Fraction(1 + self.dilution))
        return (max(grade - tail * (1 + self.dilution), Decimal(0)) if tail else grade) * share


@lru_cache(maxsize=1 << 16)
def exact(value: float) -> Decimal:
    """Returns the shortest decimal of a float."""
    return Decimal(repr(value))


@dataclass(frozen=True)
class Place:
    """What changes the costs of a block besides its codes: its level from the top, its haul distance, and its cost adjustment factors."""

    level: int
    road: float
    mcaf: float
    pcaf: float


@dataclass(frozen=True)
class Exactly:
    """Exact numbers of the table, for block values by decimals.

    codes   rock type and domain of each block
    costs   by these codes
    depths  added mining cost per tonne, by level from the top
    roads   haul distances of blocks, in metres; 0 without haulage
    factors factors of mining and processing cost of each block
    others  grades of penalised elements of each block, by metal
    rates   by metal what is paid and charged for a recovered tonne or gram
    weighed a cache of amounts by their numbers, since many blocks of waste are equal
    charges a cache of costs per tonne, by codes and place
    """

    answer: Answer
    tonnes: list[float]
    grades: list[list[float]]
    codes: list[tuple[str, str]]
    costs: dict[tuple[str, str], Costs]
    level: list[int]
    depths: list[Decimal]
    roads: list[float]
    factors: list[tuple[float, float]]
    others: list[tuple[tuple[float, ...], ...]]
    rates: list[tuple[Decimal, Decimal]]
    weighed: dict[tuple[Any, ...], Amounts] = field(default_factory=dict)
    charges: dict[tuple[Any, ...], tuple[Decimal, Decimal]] = field(default_factory=dict)

    @staticmethod
    def of(answer: Answer) -> "Exactly":
        project, columns = answer.project, answer.project.table
        named = [
            answer.rows[name].astype(str).tolist() if name else [""] * len(answer.rows)
            for name in (columns["rock_type"], columns["domain"])
        ]
        codes = list(zip(*named))
        costs = {code: Costs.of(project, *code) for code in set(codes)}
        is_waste = treated_as("waste", answer.rows, project) | refused(answer.rows, project, project.accepts)
        grades = [np.where(is_waste, 0.0, answer.rows[metal["column"]]).tolist() for metal in project.metals]
        depths = [more_for_depth(answer, z) for z in answer.elevations]
        rules = project.haulage
        roads = (haulage.roads_of(answer, rules) if rules else np.zeros(len(answer.rows))).tolist()
        factors = list(
            zip(*(factors_of(answer, name).tolist() for name in (project.economics["mcaf"], project.economics["pcaf"])))
        )
        levels = answer.cells[0].tolist()
        others = elements_of(answer)
        rates = [(smelter.paid(it, it["price"]), smelter.all_charged(it, it["price"])) for it in project.metals]
        tonnes = answer.tonnes.tolist()
        return Exactly(answer, tonnes, grades, codes, costs, levels, depths, roads, factors, others, rates)

    def amounts(self, row: int) -> Amounts:
        """Returns mining cost, revenue and processing cost of a block."""
        grades = tuple(grades[row] for grades in self.grades)
        at = (self.codes[row], self.level[row], self.roads[row], *self.factors[row])
        numbers = (self.tonnes[row], at, self.others[row], grades)
        found = self.weighed.get(numbers)
        if found is None:
            found = self.weighed[numbers] = self.of_numbers(exact(self.tonnes[row]), at, self.others[row], grades)
        return found

    def of_numbers(
        self, tonnes: Decimal, at: tuple[Any, ...], others: tuple[tuple[float, ...], ...], grades: tuple[float, ...]
    ) -> Amounts:
        """Returns the amounts of a block with given tonnes, codes and place, penalised elements, and grades."""
        project, costs = self.answer.project, self.costs[at[0]]
        a_tonne = self.charges.get(at)
        if a_tonne is None:
            a_tonne = self.charges[at] = self.a_tonne(costs, Place(*at[1:]))
        undiluted, revenue, selling = tonnes * costs.mining_recovery, Decimal(0), Decimal(0)
        for number, (metal, grade, elements) in enumerate(zip(project.metals, grades, others)):
            if not grade:
                continue
            paid, charged = self.rates[number]
            quantity = undiluted * costs.recovered(number, exact(grade)) * GRADE_UNITS[metal["unit"]]
            revenue += quantity * paid
            selling += quantity * charged
            if elements:
                contents = [undiluted * exact(it) for it in elements]
                selling += smelter.penalty_exactly(metal, quantity, contents)
        mining, processing = tonnes * a_tonne[0], undiluted * (1 + costs.dilution) * a_tonne[1] + selling
        amounts = (mining, revenue - revenue * project.economics["royalty"], processing)
        mining, revenue, processing = [amount.quantize(self.unit, ROUND_HALF_EVEN) for amount in amounts]
        return mining, revenue, processing if revenue else Decimal(0)

    def a_tonne(self, costs: Costs, place: Place) -> tuple[Decimal, Decimal]:
        """Returns the mining cost per tonne, and the processing cost per tonne of mill feed with royalty and haulage."""
        waste = ore = Decimal(0)
        if rules := self.answer.project.haulage:
            waste, ore = (haulage.a_tonne(place.road, kind) for kind in (rules["waste"], rules["ore"]))
        mining = costs.mining * exact(place.mcaf) + self.depths[place.level] + waste
        royalty = self.answer.project.economics["royalty_per_tonne"]
        return mining, costs.processing * exact(place.pcaf) + royalty + ore - waste

    @cached_property
    def unit(self) -> Decimal:
        return Decimal(1).scaleb(-self.answer.project.economics["decimals"])


def elements_of(answer: Answer) -> list[tuple[tuple[float, ...], ...]]:
    """Returns the grades of the elements that smelters penalise of each block, by metal."""
    by_metal = []
    for metal in answer.project.metals:
        columns = [it["column"] for it in metal["smelter"]["penalties"]] if metal["smelter"] else []
        lists = [answer.rows[name].to_numpy(dtype=float).tolist() for name in columns]
        by_metal.append(list(zip(*lists)) if lists else [()] * len(answer.rows))
    return list(zip(*by_metal))


def factors_of(answer: Answer, column: Optional[str]) -> np.ndarray:
    """Returns the cost adjustment factor of each block; 1 without a column."""
    return np.ones(len(answer.rows)) if column is None else answer.rows[column].to_numpy(dtype=np.float64)


def by_floats(answer: Answer, revenue: str | None = None) -> tuple[np.ndarray, np.ndarray, np.ndarray]:
    """Returns mining cost, revenue, and processing and selling cost of each block, as unrounded floats.

    Processing costs nothing where the results have no revenue, if its column is named.
    """
    money, columns = answer.project.economics, answer.project.table
    deeper = np.array([float(more_for_depth(answer, z)) for z in answer.elevations])
    adjusted = by_code(money["mining_cost"], answer.rows, columns, answer.codes) * factors_of(answer, money["mcaf"])
    a_tonne = adjusted + deeper[answer.cells[0]]
    if rules := answer.project.haulage:
        a_tonne = a_tonne + haulage.rate(haulage.roads_of(answer, rules), rules["waste"])
    gain, cost = gains_by_floats(answer)
    if revenue is not None:
        cost = np.where(answer.said[revenue] > 0, cost, 0.0)
    return answer.tonnes * a_tonne, gain, cost


def gains_by_floats(answer: Answer) -> tuple[np.ndarray, np.ndarray]:
    """Returns revenue, and processing and selling cost of each block, as unrounded floats."""
    project, money, columns = answer.project, answer.project.economics, answer.project.table
    revenue, selling = np.zeros(len(answer.rows)), np.zeros(len(answer.rows))
    for metal in project.metals:
        quantity = answer.quantities[metal["name"]]
        revenue += quantity * float(smelter.paid(metal, metal["price"])) * (1 - float(money["royalty"]))
        selling += quantity * float(smelter.all_charged(metal, metal["price"])) + smelter.penalties(answer, metal)
    adjusted = by_code(money["processing_cost"], answer.rows, columns, answer.codes) * factors_of(answer, money["pcaf"])
    a_tonne = adjusted + float(money["royalty_per_tonne"])
    if rules := project.haulage:
        a_tonne = a_tonne + haulage.rate(haulage.roads_of(answer, rules), rules["ore"], rules["waste"])
    return revenue, answer.feed * a_tonne + selling

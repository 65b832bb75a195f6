"""The blocks of a project: their tonnes, mill feed, metal and money, as exact fractions."""

from __future__ import annotations

import csv
import math
from collections.abc import Iterable
from dataclasses import dataclass, field
from decimal import Decimal
from fractions import Fraction
from functools import cached_property
from pathlib import Path
from typing import Any, Optional, TypeVar

import tomllib

from . import smelter
from .ground import profile_of, share_below
from .numbers import UNITS, rounded
from .slopes import Step, steps_of

GRAMS = {
    "t": Fraction(10**6),
    "kg": Fraction(1000),
    "g": Fraction(1),
    "lb": Fraction("453.59237"),
    "oz": Fraction("31.1034768"),
}
Place = Step
Number = TypeVar("Number", int, float, Fraction)


def three(numbers: Iterable[Number]) -> tuple[Number, Number, Number]:
    """East, north and up."""
    east, north, up = numbers
    return east, north, up


@dataclass(frozen=True)
class Way:
    """A process: revenue and cost of a block, what is recovered of each metal, and the costs that periods may multiply, which are not rounded."""

    revenue: Fraction
    cost: Fraction
    metal: dict[str, Fraction]
    costs: dict[str, Fraction] = field(default_factory=dict)

    def gain(self, factor: Fraction) -> Fraction:
        return factor * self.revenue - self.cost


@dataclass(frozen=True)
class Block:
    """A block of rock; `ways` has one process, or those of the project, which yield nothing where its class is waste. `as_ore` has them as if it were
    ore. `feed` is `undiluted` with the diluting rock."""

    name: str
    tonnes: Fraction
    feed: Fraction
    undiluted: Fraction
    grades: dict[str, Fraction]
    ways: tuple[Way, ...]
    must: bool
    never: bool
    as_ore: tuple[Way, ...]


class Mine:
    """The blocks of a project by column from the west, row from the south and level from the floor."""

    def __init__(self, path: Path) -> None:
        self.project: dict[str, Any] = tomllib.loads(path.read_text(), parse_float=Decimal)
        self.folder = path.parent
        with open(self.folder / "blocks.csv", newline="") as file:
            rows = list(csv.DictReader(file))
        self.size = three(map(Fraction, self.project["grid"]["size"]))
        centres = [three(Fraction(row[axis]) for axis in "xyz") for row in rows]
        self.origin = three(min(axis) for axis in zip(*centres))
        places = [three(int((at - low) / edge) for at, low, edge in zip(it, self.origin, self.size)) for it in centres]
        self.shape = three(max(axis) + 1 for axis in zip(*places))
        self.rows = dict(zip(places, rows))
        self.cells = [
            (i, j, k) for k in range(self.shape[2]) for j in range(self.shape[1]) for i in range(self.shape[0])
        ]

    @cached_property
    def blocks(self) -> dict[Place, Block]:
        return {place: self.block(place, row) for place, row in self.rows.items()}

    # What a number is for a block.

    def by_code(self, value: Any, row: dict[str, str]) -> Fraction:
        """One number, one by rock type, or one by domain."""
        if isinstance(value, dict) and "domain" in value:
            return Fraction(value["domain"][row["region"]])
        return Fraction(value[row["rock"]] if isinstance(value, dict) else value)

    def is_waste(self, row: dict[str, str]) -> bool:
        """Whether the resource class of a row is treated as waste, by its rule or by its name."""
        column = self.project["table"].get("class")
        rules = self.project.get("classes", {})
        if column is None:
            return False
        if row[column] in rules:
            return bool(rules[row[column]] == "waste")
        return row[column].lower() in ("inferred", "potential", "")

    def accepts(self, process: dict[str, Any], row: dict[str, str]) -> bool:
        """Whether a process accepts a block, by its codes and its grades in the ground."""
        table = self.project["table"]
        for key, rule in process.get("accepts", {}).items():
            if isinstance(rule, dict):
                if not rule.get("min", 0) <= Decimal(row[key]) <= rule.get("max", Decimal("Infinity")):
                    return False
            elif row[table[key]] not in [str(code) for code in (rule if isinstance(rule, list) else [rule])]:
                return False
        return True

    def factor(self, key: str, row: dict[str, str]) -> Fraction:
        """The factor of a block's mining or processing cost; 1 where its field is empty, as of a block without tonnes, or no column is named."""
        column = self.project["economics"].get(key)
        return Fraction(row[column] or 1) if column else Fraction(1)

    def recovery(self, value: Any, row: dict[str, str], grade: Fraction) -> Fraction:
        """A share, or one by head grade, linear between the pairs and to a millionth; one, or one by rock type."""
        value = value[row["rock"]] if isinstance(value, dict) else value
        if not isinstance(value, list):
            return Fraction(value)
        pairs = sorted((Fraction(at), Fraction(share)) for at, share in value)
        if grade <= pairs[0][0]:
            return pairs[0][1]
        for (low, first), (high, then) in zip(pairs, pairs[1:]):
            if grade <= high:
                return rounded(first + (then - first) * (grade - low) / (high - low), 6)
        return pairs[-1][1]

    # Amounts.

    def tonnes(self, place: Place, row: dict[str, str]) -> Fraction:
        """To a gram; those below the topography where there is one."""
        whole, ground = Fraction(row["tonnes"]), self.project["table"].get("topography")
        if ground is None:
            return whole
        low = [start + (at - Fraction(1, 2)) * edge for start, at, edge in zip(self.origin, place, self.size)]
        share = share_below(
            profile_of(self.folder / ground), low[0], low[0] + self.size[0], low[2], low[2] + self.size[2]
        )
        return whole if share == 1 else rounded(whole * share, 6)

    def block(self, place: Place, row: dict[str, str]) -> Block:
        money, tonnes = self.project["economics"], self.tonnes(place, row)
        undiluted = tonnes * self.by_code(money.get("mining_recovery", 1), row)
        dilution = 1 + self.by_code(money.get("dilution", 0), row)
        grades = {metal["name"]: Fraction(row[metal["column"]]) for metal in self.project["metals"]}
        nothing = Way(Fraction(0), Fraction(0), dict.fromkeys(grades, Fraction(0)))
        as_ore = tuple(
            self.way(process, row, undiluted, dilution) if self.accepts(process, row) else nothing
            for process in self.processes
        )
        ways = (nothing,) * len(as_ore) if self.is_waste(row) else as_ore
        fixed = self.project.get("constraints", {})
        # What has no tonnes is air, which is neither.
        must, never = (key in fixed and tonnes > 0 and float(row[fixed[key]]) > 0 for key in ("must_mine", "exclude"))
        name, feed = row[self.project["table"]["id"]], undiluted * dilution
        return Block(name, tonnes, feed, undiluted, grades, ways, must, never, as_ore)

    @property
    def processes(self) -> list[dict[str, Any]]:
        """The project's own process or its several ones, each with cost, recovery by metal and tail grade by metal."""
        if "processes" in self.project:
            return list(self.project["processes"])
        metals = self.project["metals"]
        return [
            {
                "cost": self.project["economics"]["processing_cost"],
                "recovery": {metal["name"]: metal["recovery"] for metal in metals},
                "tail": {metal["name"]: metal["tail_grade"] for metal in metals if "tail_grade" in metal},
            }
        ]

    def way(self, process: dict[str, Any], row: dict[str, str], undiluted: Fraction, dilution: Fraction) -> Way:
        """Only money is rounded, once: revenue, and the costs of processing and selling together."""
        money, revenue, selling, metals = self.project["economics"], Fraction(0), Fraction(0), {}
        of_price = Fraction(0)
        for metal in [smelter.sold_by(metal, process) for metal in self.project["metals"]]:
            name, grade = metal["name"], Fraction(row[metal["column"]])
            share = Fraction(0)
            if name in process["recovery"]:
                share = self.recovery(process["recovery"][name], row, grade / dilution)
            tail = self.by_code(process.get("tail", {}).get(name, 0), row) * dilution
            metals[name] = undiluted * max(grade - tail, Fraction(0)) * UNITS[metal["unit"]] * share
            kept = 1 - Fraction(money.get("royalty", 0))
            revenue += metals[name] * smelter.paid(metal, metal["price"], self.price) * kept
            selling += metals[name] * smelter.charged(metal, metal["price"], self.price)
            of_price += metals[name] * smelter.participation(metal, metal["price"], self.price)
            selling += smelter.penalties(metal, metals[name], lambda column: undiluted * Fraction(row[column]))
        decimals = money.get("decimals", 6)
        earned = rounded(revenue, decimals)
        processing = undiluted * dilution * self.by_code(process["cost"], row) * self.factor("pcaf", row)
        royalty = undiluted * dilution * Fraction(money.get("royalty_per_tonne", 0))
        spent = rounded(processing + royalty + selling, decimals)
        costs = {"processing_cost": processing, "selling_cost": selling - of_price}
        return Way(earned, spent, metals, costs) if earned else Way(earned, Fraction(0), metals)

    def earned(self, metal: dict[str, Any], price: Decimal) -> Fraction:
        """What a recovered unit earns at a price, less royalty and charges, without penalties."""
        kept = 1 - Fraction(self.project["economics"].get("royalty", 0))
        return smelter.paid(metal, price, self.price) * kept - smelter.charged(metal, price, self.price)

    def price(self, metal: dict[str, Any], price: Decimal) -> Fraction:
        """For a tonne, or a gram where the grade is in grams a tonne; a price that is converted is rounded to twelve decimals."""
        own = "g" if metal["unit"] == "gram_per_tonne" else "t"
        per = metal.get("price_per", own)
        return Fraction(price) if per == own else rounded(Fraction(price) * GRAMS[own] / GRAMS[per], 12)

    # Mining.

    @cached_property
    def mining(self) -> dict[Place, Fraction]:
        """The mining cost of each block."""
        money, decimals = self.project["economics"], self.project["economics"].get("decimals", 6)
        return {
            place: rounded(
                block.tonnes
                * (
                    self.by_code(money["mining_cost"], self.rows[place]) * self.factor("mcaf", self.rows[place])
                    + self.added_cost(place[2])
                ),
                decimals,
            )
            for place, block in self.blocks.items()
        }

    def added_cost(self, level: int) -> Fraction:
        """What mining a tonne costs more at a level: by elevation, or for each bench below the one with the reference."""
        money = self.project["economics"]
        if "mining_cost_by_elevation" in money:
            z = self.origin[2] + level * self.size[2]
            pairs = sorted((Fraction(at), Fraction(cost)) for at, cost in money["mining_cost_by_elevation"])
            if z <= pairs[0][0]:
                return pairs[0][1]
            for (low, first), (high, then) in zip(pairs, pairs[1:]):
                if z <= high:
                    return rounded(first + (then - first) * (z - low) / (high - low), 6)
            return pairs[-1][1]
        step = Fraction(money.get("mining_cost_per_bench", 0))
        return step * max(self.first_level - level, 0) if step else Fraction(0)

    @cached_property
    def first_level(self) -> int:
        """The level, from the floor, below which mining costs more: that of the reference, with its toe, or the highest of the table."""
        reference = self.project["economics"].get("mining_cost_reference")
        if reference is not None:
            floor = self.origin[2] - Fraction(1, 2) * self.size[2]
            above: Fraction = (Fraction(reference) - floor) / self.size[2]
            return math.floor(above)
        return self.shape[2] - 1

    # Ore, and needs.

    def best_way(self, place: Place, factor: Fraction) -> Way:
        """The process of greatest value; of several the one of least revenue."""
        return max(self.blocks[place].ways, key=lambda way: (way.gain(factor), -way.revenue))

    def is_ore(self, place: Place) -> bool:
        """Whether processing pays at the base price."""
        return self.best_way(place, Fraction(1)).gain(Fraction(1)) > 0

    @cached_property
    def needs(self) -> dict[Place, list[Place]]:
        """For each cell the cells that it needs. A cell without a row is of the domain of the next block below it."""
        steps: dict[Optional[str], list[Step]] = {}
        slopes = self.project["slopes"]
        size = three(map(float, self.size))
        for domain in slopes["domains"]:
            found = steps_of(domain, size, slopes["precedence_benches"], self.shape)
            named = domain.get("domain")
            steps |= dict.fromkeys([named] if named is None or isinstance(named, str) else named, found)
        region = {place: row["region"] for place, row in self.rows.items()}
        for i, j, k in self.cells:
            region.setdefault((i, j, k), region.get((i, j, k - 1)))
        needs = {}
        for i, j, k in self.cells:
            own = region[i, j, k]
            ends = [(i + a, j + b, k + c) for a, b, c in steps.get(own, steps.get(None, []))]
            needs[i, j, k] = [it for it in ends if all(0 <= at < most for at, most in zip(it, self.shape))]
        return needs

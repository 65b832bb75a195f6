"""The years of a shell: mined shell by shell, or bench by bench, within the yearly capacities, and what they earn."""

from __future__ import annotations

import math
from collections.abc import Iterable
from dataclasses import dataclass, field
from fractions import Fraction
from typing import Any, Optional

from .destinations import Amounts, Limits, Ore, add, premiums
from .mine import Mine, Place
from .periods import capex_of, factor_of, fixed_of, length_of, mining_of, start_of

TOTAL, FEED, CASH, MINING = "total_tonnes", "feed_tonnes", "cash_flow", "mining"


def amounts_of(mine: Mine, places: Iterable[Place]) -> Amounts:
    """The tonnes, the feed of each process, the metal and the cash flow at the base price of some blocks."""
    found: Amounts = {}

    def add(name: str, amount: Fraction) -> None:
        found[name] = found.get(name, Fraction(0)) + amount

    for place in places:
        if place not in mine.blocks:
            continue
        block, is_ore, best = mine.blocks[place], mine.is_ore(place), mine.best_way(place, Fraction(1))
        add(TOTAL, block.tonnes)
        add(CASH, (best.gain(Fraction(1)) if is_ore else Fraction(0)) - mine.mining[place])
        add(MINING, -mine.mining[place])
        if is_ore:
            add(FEED, block.feed)
            add("in_situ", block.tonnes)
            add(f"process {block.ways.index(best)}", block.feed)
            for name, cost in best.costs.items():
                add(f"recovered_{name}", cost)
            for name, metal in best.metal.items():
                add(f"recovered_{name}", metal)
                add(f"content {name}", block.undiluted * block.grades[name])
    return found


def capacities(mine: Mine, ore: Ore) -> list[Limits]:
    """The yearly capacities, by the amounts that each limits, for each set of processes that the mine may wait for."""
    mining: Limits = []
    if mining_of(mine, 1) is not None:
        mining = [((TOTAL,), lambda year: mining_of(mine, year) or Fraction(0))]
    if not ore.has_choice:
        return [[((FEED,), ore.joint((0,))), *mining]]
    return [[*limits, *mining] for limits in ore.waits()]


@dataclass
class Year:
    """What is mined in a year, or in another period, and in which part of it the mine runs."""

    length: Fraction = Fraction(1)
    amounts: Amounts = field(default_factory=dict)

    def add(self, piece: Amounts, share: Fraction) -> None:
        for name, amount in piece.items():
            add(self.amounts, name, amount, share)


def mined(pieces: Iterable[Amounts], limits: Limits) -> list[Year]:
    """The years of pieces that are mined one after the other. A year ends in the piece that needs a capacity which is used up."""
    years = [Year()]
    whole = left = [most(1) for _, most in limits]
    for piece in pieces:
        rest = Fraction(1)
        needs = [sum((piece.get(name, Fraction(0)) for name in names), Fraction(0)) for names, _ in limits]
        while rest:
            share = min([rest, *(free / need for free, need in zip(left, needs) if need > 0)])
            years[-1].add(piece, share)
            left = [free - need * share for free, need in zip(left, needs)]
            rest -= share
            if rest:
                years.append(Year())
                whole = left = [most(len(years)) for _, most in limits]
    years[-1].length = max(((most - free) / most for most, free in zip(whole, left) if most), default=Fraction(0))
    return years


def best_years(mine: Mine, pieces: list[Amounts], ore: Ore) -> list[Year]:
    """The years of pieces with the wait of highest NPV, of equal ones the shortest, and with the ore at its best destinations."""
    found = []
    for limits in capacities(mine, ore):
        years = mined(pieces, limits)
        if ore.has_choice:
            years = [shipped(ore, number, year) for number, year in enumerate(years, 1)]
        found.append((npv(mine, years), len(years) - 1 + years[-1].length, years))
    most = max(it[0] for it in found)
    return min((it for it in found if it[0] >= most - 1e-9 * abs(most) - 1e-3), key=lambda it: it[1])[2]


def shipped(ore: Ore, number: int, year: Year) -> Year:
    flows = ore.ship(number, year.amounts, year.length)
    cash = year.amounts.get(MINING, Fraction(0)) + flows.get("gain", Fraction(0))
    mining = {name: year.amounts.get(name, Fraction(0)) for name in (TOTAL, MINING)}
    return Year(year.length, {**mining, **flows, CASH: cash})


def npv(mine: Mine, years: list[Year]) -> float:
    return sum(row["discounted_cash_flow"] for row in earned(mine, years))


def pieces_of(mine: Mine, shells: list[set[Place]], ore: Ore, lag: Optional[int] = None) -> list[Amounts]:
    """What each shell adds to those before, bench by bench from the top; with a lag each so many benches behind the one before."""
    parts = []
    before: set[Place] = set()
    for number, shell in enumerate(shells):
        for down, level in enumerate(reversed(range(mine.shape[2]))):
            there = [it for it in shell - before if it[2] == level]
            turn = (down + lag * number, number) if lag is not None else (number, down)
            parts.append((turn, amounts_of(mine, there) | (ore.amounts(there) if ore.has_choice else {})))
        before |= shell
    return [part for _, part in sorted(parts, key=lambda it: it[0])]


def discount(mine: Mine, number: int, part: Fraction) -> float:
    """The mean discount factor of the cash of the first part of a period, which flows evenly: in each year, or shorter period, at its end or
    middle."""
    shells = mine.project["shells"]
    rate, how = float(shells["discount_rate"]), shells.get("discounting", "end_of_year")
    begin, length = start_of(mine, number), length_of(mine, number)
    if how == "continuous":
        return between(rate, float(begin), float(begin + part * length))
    unit = min(length, Fraction(1))
    found = weights = 0.0
    for step in range(math.ceil(length / unit)):
        weight = float(min(max(part * length - step * unit, Fraction(0)), unit)) or (0.0 if step else 1e-9)
        moment = begin + (step + Fraction(1, 1 if how == "end_of_year" else 2)) * unit
        found, weights = found + weight * float((1 + rate) ** -float(moment)), weights + weight
    return found / weights


def between(rate: float, start: float, end: float) -> float:
    """The mean discount factor of cash that flows evenly from start to end."""
    force = math.log(1 + rate)
    if end == start or not force:
        return math.exp(-force * start)
    return (math.exp(-force * start) - math.exp(-force * end)) / (force * (end - start))


def cash_of(mine: Mine, year: int, amounts: Amounts) -> Fraction:
    """The cash flow of a year, from 1, at its own prices and mining costs."""
    found = amounts.get(CASH, Fraction(0)) + (factor_of(mine, "mining_cost", year) - 1) * amounts.get(
        MINING, Fraction(0)
    )
    if "premium" in amounts:
        return found + amounts["premium"]
    for name, more in premiums(mine, year).items():
        found += amounts.get(f"recovered_{name}", 0) * more
    return found


def earned(mine: Mine, years: list[Year]) -> list[dict[str, float]]:
    """The written amounts of each year, with period costs and the discounted cash flow."""
    rate = float(mine.project["shells"]["discount_rate"])
    some = any(year.amounts.get(TOTAL) for year in years)
    found = []
    for number, year in enumerate(years, 1):
        fixed = fixed_of(mine, number) * year.length
        spent = capex_of(mine, number) if some else Fraction(0)
        cash = cash_of(mine, number, year.amounts) - fixed
        worth = float(cash) * discount(mine, number, year.length)
        row: dict[str, Any] = {name: float(year.amounts.get(name, 0)) for name in (TOTAL, FEED)}
        row |= {"fixed_cost": float(fixed), "capex": float(spent), CASH: float(cash - spent)}
        row["discounted_cash_flow"] = worth - float(spent) * (1 + rate) ** -float(start_of(mine, number))
        found.append(row)
    return found

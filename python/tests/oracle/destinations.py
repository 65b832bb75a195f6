"""Where the ore of a year goes if there is a choice: kinds of ore, the sets of processes that the mine waits for, and the best shipment."""

from __future__ import annotations

from collections.abc import Callable, Iterator
from dataclasses import dataclass
from fractions import Fraction
from functools import cached_property
from itertools import combinations
from typing import Any

import numpy as np
from scipy.optimize import linprog

from . import smelter
from .mine import Mine, Place
from .periods import factor_of, most_of, price_of, years_listed

Amounts = dict[str, Fraction]
# Names of amounts, and what a year, from 1, may hold of their sum.
Limits = list[tuple[tuple[str, ...], Callable[[int], Fraction]]]
Kind = tuple[tuple[int, ...], tuple[int, ...], int]
BASE, BINS, MOST_WAITING = Fraction(1), 8, 3
COSTS = ("processing_cost", "selling_cost")


def premiums(mine: Mine, year: int, process: int = 0) -> dict[str, Fraction]:
    """What a unit of each metal gains in a year, from 1, above the base price in a process, and what a unit of each cost of ore saves."""
    found = {}
    for metal in [smelter.sold_by(metal, mine.processes[process]) for metal in mine.project["metals"]]:
        found[metal["name"]] = mine.earned(metal, price_of(mine, metal, year)) - mine.earned(metal, metal["price"])
    return found | {cost: 1 - factor_of(mine, cost, year) for cost in COSTS}


@dataclass
class Ore:
    """The ore among some places, by kind: the processes in which it pays, those in which it earns most, and its value bin."""

    mine: Mine
    places: set[Place]

    @property
    def has_choice(self) -> bool:
        years = range(1, 1 + years_listed(self.mine))
        return len(self.mine.processes) > 1 or any(min(premiums(self.mine, year).values()) < 0 for year in years)

    @property
    def count(self) -> int:
        return len(self.mine.processes)

    def joint(self, some: tuple[int, ...]) -> Callable[[int], Fraction]:
        """The capacity of some processes together, by year."""
        return lambda year: sum((most_of(self.mine, year)[k] for k in some), Fraction(0))

    def premiums(self, year: int) -> list[dict[str, Fraction]]:
        """The premiums of a year, from 1, of each process, without those that are 0."""
        if year not in self.by_year:
            of_processes = (premiums(self.mine, year, k) for k in range(self.count))
            self.by_year[year] = [{name: it for name, it in found.items() if it} for found in of_processes]
        return self.by_year[year]

    @cached_property
    def by_year(self) -> dict[int, list[dict[str, Fraction]]]:
        return {}

    @cached_property
    def blocks(self) -> list[Place]:
        return sorted(it for it in self.places if it in self.mine.blocks and self.mine.is_ore(it))

    def gains(self, place: Place) -> list[Fraction]:
        return [way.gain(BASE) for way in self.mine.blocks[place].ways]

    def first_best(self, place: Place) -> int:
        gains = self.gains(place)
        return gains.index(max(gains))

    def a_tonne(self, place: Place) -> float:
        feed = self.mine.blocks[place].feed
        return round(float(max(self.gains(place)) / feed), 6) if feed else 0.0

    @cached_property
    def edges(self) -> dict[int, list[float]]:
        """By process the values between bins: of each eighth of the feed the value whose cumulative feed is nearest, and the next one."""
        found: dict[int, list[float]] = {}
        for process in range(self.count):
            some = sorted(
                (self.a_tonne(it), self.mine.blocks[it].feed) for it in self.blocks if self.first_best(it) == process
            )
            values = sorted({value for value, _ in some})
            until = [sum((feed for value, feed in some if value <= most), Fraction(0)) for most in values]
            found[process] = []
            for part in range(1, BINS) if len(values) > 1 else ():
                off = [abs(feed - until[-1] * Fraction(part, BINS)) for feed in until[:-1]]
                last = off.index(min(off))
                found[process].append((values[last] + values[last + 1]) / 2)
        return found

    def kind(self, place: Place) -> Kind:
        gains = self.gains(place)
        pays = tuple(k for k, gain in enumerate(gains) if gain > 0)
        best = tuple(k for k, gain in enumerate(gains) if gain == max(gains))
        value = self.a_tonne(place)
        return pays, best, len({edge for edge in self.edges[self.first_best(place)] if edge < value})

    @cached_property
    def kinds(self) -> dict[Place, Kind]:
        return {place: self.kind(place) for place in self.blocks}

    def amounts(self, places: list[Place]) -> Amounts:
        """The feed of each kind of some places, and its gain and metal in each process."""
        found: Amounts = {}
        for place in places:
            if place not in self.kinds:
                continue
            block, kind = self.mine.blocks[place], self.kinds[place]
            parts = {f"feed {kind}": block.feed}
            for number, way in enumerate(block.ways):
                parts[f"gain {kind} {number}"] = way.gain(BASE)
                parts |= {f"{name} {kind} {number}": amount for name, amount in (way.metal | way.costs).items()}
            for name, amount in parts.items():
                found[name] = found.get(name, Fraction(0)) + amount
        return found

    def waits(self) -> Iterator[Limits]:
        """The capacities that a year may use up, for each set of processes that the mine may wait for."""
        groups: list[list[int]] = []
        for process in range(self.count):
            alike = [group for group in groups if self.are_alike(group[0], process)]
            if alike:
                alike[0].append(process)
            else:
                groups.append([process])
        counts = range(1, len(groups) + 1) if len(groups) <= MOST_WAITING else (1, len(groups))
        for chosen in (it for count in counts for it in combinations(groups, count)):
            some = {process for group in chosen for process in group}
            yield self.limits({kind: some & {*kind[0]} for kind in set(self.kinds.values())})
            yield self.limits({kind: {*kind[1]} if some & {*kind[1]} else set() for kind in set(self.kinds.values())})

    def are_alike(self, one: int, other: int) -> bool:
        return all(gains[one] == gains[other] for gains in map(self.gains, self.blocks))

    def limits(self, open_to: dict[Kind, set[int]]) -> Limits:
        """Ore that only some processes may take is within their joint capacity, for all sets of processes."""
        found: Limits = []
        for count in range(1, self.count + 1):
            for some in combinations(range(self.count), count):
                names = tuple(f"feed {kind}" for kind, places in open_to.items() if places and places <= {*some})
                found.append((names, self.joint(some)))
        return found

    def ship(self, year: int, amounts: Amounts, part: Fraction) -> Amounts:
        """What a year, from 1, feeds, recovers and gains at the base price, where its ore goes best at its own prices."""
        more, metals = self.premiums(year), [metal["name"] for metal in self.mine.project["metals"]]
        kinds = [kind for kind in set(self.kinds.values()) if amounts.get(f"feed {kind}")]
        pairs = [(kind, k) for kind in kinds for k in kind[0]]
        gain = {
            pair: amounts[f"gain {pair[0]} {pair[1]}"]
            + sum(
                (price * amounts[f"{name} {pair[0]} {pair[1]}"] for name, price in more[pair[1]].items()), Fraction(0)
            )
            for pair in pairs
        }
        feed = {pair: amounts[f"feed {pair[0]}"] for pair in pairs}
        share = shipment(gain, feed, [most * part for most in most_of(self.mine, year)])
        found: Amounts = {}
        for (kind, k), taken in share.items():
            parts: dict[str, Any] = {
                "feed_tonnes": f"feed {kind}",
                f"process {k}": f"feed {kind}",
                "gain": f"gain {kind} {k}",
            }
            parts |= {f"recovered_{name}": f"{name} {kind} {k}" for name in (*metals, *COSTS)}
            for name, of in parts.items():
                add(found, name, amounts[of], taken)
            premium = gain[kind, k] - amounts[f"gain {kind} {k}"]
            add(found, "premium", premium, taken)
        return found


def add(found: Amounts, name: str, amount: Fraction, share: Fraction) -> None:
    """Adds a share of an amount; sums of 0 and products by 1 take the time of other fractions."""
    before = found.setdefault(name, Fraction(0))
    if amount and share:
        found[name] = before + (amount if share == 1 else amount * share)


Pair = tuple[Kind, int]


def shipment(gain: dict[Pair, Fraction], feed: dict[Pair, Fraction], most: list[Fraction]) -> dict[Pair, Fraction]:
    """The best shares of pairs of kind and process: each kind to where it gains most if that is within the capacities, else by a linear programme."""
    pairs = [pair for pair in gain if gain[pair] > 0 and most[pair[1]] > 0]
    best = {kind: max((pair for pair in pairs if pair[0] == kind), key=lambda it: gain[it]) for kind, _ in pairs}
    used = [sum((feed[pair] for pair in best.values() if pair[1] == k), Fraction(0)) for k in range(len(most))]
    if all(amount <= limit * (1 + Fraction(1, 10**12)) for amount, limit in zip(used, most)):
        return {pair: Fraction(1) for pair in best.values()}
    rows = [[float(pair[0] == kind) for pair in pairs] for kind in best]
    rows += [[float(feed[pair] / most[k]) if pair[1] == k else 0.0 for pair in pairs] for k in range(len(most))]
    unit = max(map(float, gain.values()))
    found = linprog(
        [-float(gain[pair]) / unit for pair in pairs], A_ub=np.array(rows), b_ub=np.ones(len(rows)), method="highs-ds"
    )
    return {pair: Fraction(float(np.clip(share, 0, 1))) for pair, share in zip(pairs, found.x)}

"""The shells of a mine: at each revenue factor the smallest closed set of greatest value that keeps to the constraints."""

from __future__ import annotations

import math
from fractions import Fraction
from typing import Optional

from .closures import closure, least_best_by_trying, least_best_pit
from .mine import Mine, Place

# Of so few blocks each closed set is tried.
FEW = 12


def factors_of(mine: Mine) -> list[Fraction]:
    """The revenue factors of the project, rising; 1, the base price, is always one."""
    return sorted({Fraction(1), *map(Fraction, mine.project["shells"]["revenue_factors"])})


def gain_at(mine: Mine, place: Place, factor: Fraction) -> Fraction:
    """What processing a block brings at a revenue factor; 0 where it is waste."""
    if mine.project["economics"].get("cutoff") == "base_price":
        best = mine.best_way(place, Fraction(1))
        return best.gain(factor) if best.gain(Fraction(1)) > 0 else Fraction(0)
    return max(mine.best_way(place, factor).gain(factor), Fraction(0))


def is_mineralised_waste(mine: Mine, place: Place, factor: Fraction) -> bool:
    """Whether a block is waste by its class, and would be processed at a revenue factor if it were ore."""
    price = Fraction(1) if mine.project["economics"].get("cutoff") == "base_price" else factor
    is_waste = place in mine.blocks and mine.is_waste(mine.rows[place])
    return is_waste and max(way.gain(price) for way in mine.blocks[place].as_ore) > 0


def is_processed(mine: Mine, place: Place, factor: Fraction) -> bool:
    """Whether a mined block is processed at a revenue factor: where that pays, or pays at the base price with a fixed cut-off."""
    is_fixed = mine.project["economics"].get("cutoff") == "base_price"
    return place in mine.blocks and (mine.is_ore(place) if is_fixed else gain_at(mine, place, factor) > 0)


def value_at(mine: Mine, place: Place, factor: Fraction) -> Fraction:
    """What a block is worth once it is mined. A cell without a row costs nothing."""
    return gain_at(mine, place, factor) - mine.mining[place] if place in mine.blocks else Fraction(0)


def fixed_of(mine: Mine) -> Optional[tuple[set[Place], set[Place]]]:
    """The cells that are mined whatever they are worth, and those that never are; None if they contradict each other."""
    users: dict[Place, list[Place]] = {place: [] for place in mine.cells}
    for place, needed in mine.needs.items():
        for to in needed:
            users[to].append(place)
    mined = closure((it for it, block in mine.blocks.items() if block.must), mine.needs)
    left = closure((it for it, block in mine.blocks.items() if block.never), users)
    return None if mined & left else (mined, left)


def whole(values: dict[Place, Fraction]) -> dict[Place, int]:
    """The values times the least number that makes all whole."""
    scale = math.lcm(*(value.denominator for value in values.values()))
    return {place: int(value * scale) for place, value in values.items()}


def shells_of(mine: Mine, factors: list[Fraction], is_free: bool = False) -> Optional[list[set[Place]]]:
    """The cells of the shells of some revenue factors, also without the constraints; None if these contradict each other."""
    fixed = (set(), set()) if is_free else fixed_of(mine)
    return None if fixed is None else [pit_at(mine, factor, fixed) for factor in factors]


def growing(mine: Mine, factors: list[Fraction], shells: list[set[Place]]) -> dict[Fraction, set[Place]]:
    """The shells that add tonnes to those before, of which pushbacks are made, by their factor."""
    found: dict[Fraction, set[Place]] = {}
    for factor, shell in zip(factors, shells):
        before = set().union(*found.values())
        if any(mine.blocks[it].tonnes for it in shell - before if it in mine.blocks):
            found[factor] = shell
    return found


def pit_at(mine: Mine, factor: Fraction, fixed: tuple[set[Place], set[Place]]) -> set[Place]:
    mined, left = fixed
    rest = [place for place in mine.cells if place not in mined and place not in left]
    values = whole({place: value_at(mine, place, factor) for place in rest})
    return mined | (least_best_by_trying if len(rest) <= FEW else least_best_pit)(values, mine.needs)

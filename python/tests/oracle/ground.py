"""A topography whose height depends on the easting alone, linear between its points, and the share of a block below it."""

from __future__ import annotations

import csv
from fractions import Fraction
from pathlib import Path

Point = tuple[Fraction, Fraction]


def profile_of(path: Path) -> list[Point]:
    """Easting and height of a survey of points x, y, z, of which each easting has one height."""
    with open(path, newline="") as file:
        found = {Fraction(row["x"]): Fraction(row["z"]) for row in csv.DictReader(file)}
    return sorted(found.items())


def height_at(profile: list[Point], x: Fraction) -> Fraction:
    for (west, low), (east, high) in zip(profile, profile[1:]):
        if west <= x <= east:
            return low + (high - low) * (x - west) / (east - west)
    raise AssertionError(f"{x} lies beyond the survey")


def share_below(profile: list[Point], west: Fraction, east: Fraction, floor: Fraction, top: Fraction) -> Fraction:
    """The share of a block, from west to east and from floor to top, that lies below the profile."""
    bends = {west, east} | {x for x, _ in profile if west < x < east}
    for (first, low), (then, high) in zip(profile, profile[1:]):
        # Where the profile leaves the block through its floor or its top.
        bends |= {
            first + (then - first) * (level - low) / (high - low)
            for level in (floor, top)
            if low != high and first <= first + (then - first) * (level - low) / (high - low) <= then
        }
    places = sorted(x for x in bends if west <= x <= east)
    filled = [min(max(height_at(profile, x), floor), top) - floor for x in places]
    area = sum((b - a) * (h + k) / 2 for a, b, h, k in zip(places, places[1:], filled, filled[1:]))
    return area / ((east - west) * (top - floor))

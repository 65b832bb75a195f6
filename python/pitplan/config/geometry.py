"""What the shape of the pit follows: `[slopes]`, `[haulage]` and `[constraints]`."""

from __future__ import annotations

import math
from dataclasses import dataclass, replace
from decimal import Decimal
from pathlib import Path
from typing import Any, Optional, Union

from .keys import (
    ValueKind,
    amount,
    array,
    choice,
    codes,
    coordinate,
    either,
    key,
    new,
    number,
    numbers,
    pairs,
    table,
    tables,
    text,
    truth,
    whole,
)
from .table import AreaFile, SurveyFile, survey
from .toml_text import Section

PATTERNS = ("1:5", "1:9")
MOST_LEVELS, MOST_STEPS = 40, 200
WALL, DIP = "wall", "dip"
STEEPEST = Decimal("0.5")
# The original ground is the tops of the blocks.
BLOCKS = "blocks"
# The sides of an area that may be excluded.
SIDES = ("inside", "outside")
Angles = tuple[tuple[float, float], ...]


def read_offsets(section: Section, name: str, value: Any) -> tuple[tuple[int, int, int], ...]:
    """Whole numbers of blocks east, north and up, which go up."""
    is_list = isinstance(value, list) and value and all(isinstance(it, list) and len(it) == 3 for it in value)
    if not is_list or any(isinstance(item, bool) or not isinstance(item, int) for it in value for item in it):
        expected = "a list of offsets [east, north, up] in whole blocks, such as [[0, 0, 1], [1, 0, 1]]"
        raise section.wrong(name, f"must be {expected}")
    if any(not 1 <= up <= MOST_LEVELS or max(abs(east), abs(north)) > MOST_STEPS for east, north, up in value):
        raise section.wrong(name, f"go up by 1 to {MOST_LEVELS} blocks, and by at most {MOST_STEPS} to a side")
    return tuple(sorted({(east, north, up) for east, north, up in value}))


ANGLE = amount(1, 90)


@dataclass(frozen=True)
class Bench:
    height: float = key(amount(above=0), "height of a bench", unit="m", label="Bench height")
    face_angle: float = key(amount(1, 90), "angle of its face", unit="degrees")
    berm_width: float = key(amount(), "width of the berm below it", unit="m")

    @property
    def angle(self) -> float:
        """Degrees of the wall from toe to toe."""
        face = self.height / math.tan(math.radians(self.face_angle))
        return math.degrees(math.atan2(self.height, face + self.berm_width))


@dataclass(frozen=True, kw_only=True)
class SlopeDomain:
    """The slopes of some domains, by exactly one of an angle, angles by azimuth (north 0, east 90), a bench, a pattern and offsets."""

    domains: Optional[tuple[str, ...]] = key(
        codes, "code or list of codes", None, otherwise="all other domains", name="domain"
    )
    angle: Optional[float] = key(
        ANGLE, "overall slope angle", None, "degrees", label="Overall slope angle", otherwise=""
    )
    azimuths: Angles = key(
        pairs(amount(0, below=360), ANGLE, "[azimuth, angle]", "an azimuth occurs twice"),
        "pairs [bearing from the pit to the wall, angle]: 0 to below 360 degrees (north 0, east 90), and 1 to 90 degrees",
        (),
        label="Angles by azimuth",
        otherwise="",
    )
    azimuth_of: str = new(
        choice(WALL, DIP), 'what azimuths are; with `"dip"` they are dip directions of the face', WALL, is_quiet=True
    )
    bench: Optional[Bench] = key(
        table(Bench),
        "`{ height = .., face_angle = .., berm_width = .. }`, height m (above 0), face angle 1 to 90 degrees, berm m: an inter-ramp angle",
        None,
        otherwise="",
    )
    pattern: Optional[str] = key(choice(*PATTERNS), "pattern of precedences", None, is_seldom=True, otherwise="")
    offsets: tuple[tuple[int, int, int], ...] = key(
        ValueKind(read_offsets, array(array({"type": "integer"}, 3, 3))),
        f"precedences of your own: blocks east, north (up to {MOST_STEPS}) and up (1 to {MOST_LEVELS})",
        (),
        otherwise="",
    )

    @property
    def angles(self) -> Angles:
        """Azimuth and angle, rising; none of a pattern or offsets."""
        if self.azimuths:
            return self.azimuths
        found = self.angle if self.angle is not None else self.bench.angle if self.bench else None
        return () if found is None else ((0.0, found),)

    @property
    def bearings(self) -> Angles:
        """The angles by the bearing from the pit to the wall, rising; a face dips away from it."""
        if self.azimuth_of == WALL:
            return self.angles
        return tuple(sorted((round((azimuth + 180) % 360, 9) % 360, angle) for azimuth, angle in self.angles))

    def with_angles(self, angles: Angles) -> SlopeDomain:
        """The same domains with other angles, by the azimuth as it is given here."""
        if self.angle is not None and len(angles) == 1:
            return replace(self, angle=angles[0][1])
        return replace(self, angle=None, azimuths=angles)


@dataclass(frozen=True)
class Slopes:
    precedence_benches: Optional[int] = key(
        whole(1, MOST_LEVELS),
        "benches up that precedences reach",
        None,
        "benches",
        otherwise="as many as [the angles require](../planning/slopes.md)",
    )
    never_steeper: bool = key(truth, "flatten the slopes until none is steeper than its angle", False)
    domains: tuple[SlopeDomain, ...] = key(tables(SlopeDomain), "list of slope domains, below", in_python=())


@dataclass(frozen=True)
class Road:
    """What one of ore and waste is hauled for: the cost of a tonne and kilometre, one way, and metres of road from the exit on."""

    cost: Decimal
    ex_pit_distance: Decimal


@dataclass(frozen=True)
class OreAndWaste:
    ore: Decimal = key(number(0), "of ore")
    waste: Decimal = key(number(0), "of waste")


BY_KIND = either(number(0), OreAndWaste, "ore", "waste")


@dataclass(frozen=True)
class Haulage:
    """Roads to one exit of the pit."""

    pit_exit: tuple[Decimal, Decimal, Decimal] = key(
        numbers(3, coordinate, "must be a list of 3 numbers, x, y and z"),
        "x, y and z of the place where the road leaves the pit",
        unit="m",
    )
    ramp_gradient: Decimal = key(number(above=0, most=STEEPEST, example="0.1 for 10 %"), "rise per metre in plan")
    cost: OreAndWaste = key(
        BY_KIND, "cost of haulage, one way; or `{ ore = .., waste = .. }`", unit="{currency}/t and km"
    )
    ex_pit_distance: OreAndWaste = key(
        BY_KIND,
        "road beyond the exit; or `{ ore = .., waste = .. }`",
        OreAndWaste(Decimal(0), Decimal(0)),
        "m",
        otherwise="0",
    )

    @property
    def ore(self) -> Road:
        """From the exit to the mill."""
        return Road(self.cost.ore, self.ex_pit_distance.ore)

    @property
    def waste(self) -> Road:
        """From the exit to the dump."""
        return Road(self.cost.waste, self.ex_pit_distance.waste)


def read_ground(section: Section, name: str, value: Any) -> Union[str, SurveyFile]:
    return BLOCKS if value == BLOCKS else survey().read(section, name, value)


def write_ground(ground: Union[str, SurveyFile], folder: Path) -> Any:
    if isinstance(ground, str):
        return ground
    written = survey().write(ground, folder)
    # A file of that name, which is not the word.
    return f"./{BLOCKS}" if written == BLOCKS else written


@dataclass(frozen=True)
class Area:
    """Polygons on the map, by a table of the corners x and y of one in order, or of a drawing or a map. Their inside or their
    outside may not be mined."""

    polygon: SurveyFile = key(survey(AreaFile), "survey file of the polygons")
    exclude: str = key(choice(*SIDES), "side of the polygons that may not be mined", label="May not be mined")


@dataclass(frozen=True)
class ConstraintRules:
    """What must be mined, and what may not be."""

    must_mine: Optional[str] = key(text, "column: blocks with a number above 0 are in every shell", None)
    exclude: Optional[str] = key(text, "column: blocks with a number above 0 are in no shell", None)
    as_mined: Optional[SurveyFile] = key(survey(), "survey file: tonnes above it are gone", None)
    original: Union[None, str, SurveyFile] = new(
        ValueKind(read_ground, survey().schema, write=write_ground),
        'original ground: survey file or `"blocks"`; requires `as_mined`',
        None,
        otherwise="that of `[table]`",
        name="topography",
    )
    areas: tuple[Area, ...] = key(
        tables(Area), 'list of `{ polygon = .., exclude = .. }`: survey file, and `"inside"` or `"outside"`', ()
    )

    @property
    def topography(self) -> Optional[SurveyFile]:
        """Heights of the original ground, by which the table's tonnes are cut already; None: [table] topography, or the blocks' tops."""
        return self.original if isinstance(self.original, SurveyFile) else None

"""Models of schedules, `.cpit` and `.pcpsp`: what each block earns and takes of each resource, and what a period may hold.

In a `.pcpsp` a block has a value for each destination, and a line of what is taken of a resource names a block, a destination, a resource
and an amount. In which order the two in the middle stand follows from the file's own numbers, where only one order fits how many there are
of each; otherwise it must be said. General side constraints are refused.
"""

from __future__ import annotations

from dataclasses import dataclass, field
from decimal import Decimal
from pathlib import Path
from typing import Optional

from .models import HEADER, VALUES
from .text import Line, MinelibError, lines

TAKEN, LIMITS, RATE = "RESOURCE_CONSTRAINT_COEFFICIENTS", "RESOURCE_CONSTRAINT_LIMITS", "DISCOUNT_RATE"
BLOCKS, PERIODS, RESOURCES = "NBLOCKS", "NPERIODS", "NRESOURCE_SIDE_CONSTRAINTS"
DESTINATIONS, GENERAL = "NDESTINATIONS", "NGENERAL_SIDE_CONSTRAINTS"
OF_GENERAL = ("GENERAL_CONSTRAINT_COEFFICIENTS", "GENERAL_CONSTRAINT_LIMITS")
# Those of a PCPSP alone.
OF_PCPSP = (DESTINATIONS, GENERAL, *OF_GENERAL)
KNOWN = ("NAME", "TYPE", BLOCKS, PERIODS, RESOURCES, RATE, VALUES, TAKEN, LIMITS, *OF_PCPSP)
# What may stand behind the block in a line of what a PCPSP takes of a resource.
SECONDS = ("destination", "resource")
# Of a resource and a period the least and the most; None where none exists.
Bounds = tuple[Optional[Decimal], Optional[Decimal]]


@dataclass(frozen=True)
class ScheduleModel:
    """A constrained pit limit problem (CPIT), of one destination, or a precedence constrained production scheduling problem (PCPSP).

    values   of block 0, 1, .. in each destination, not discounted
    periods  how many there are
    rate     a value in period t, from 0, counts (1 + rate) ** -t of it
    taken    of each resource what a block takes of it, by block and destination; what is not named takes nothing
    limits   by resource and period, from 0, the least and the most; where none is named none exists
    unnamed  how many blocks have no value, and so 0
    """

    name: str
    values: list[tuple[Decimal, ...]]
    periods: int
    rate: Decimal
    taken: list[dict[tuple[int, int], Decimal]]
    limits: dict[tuple[int, int], Bounds]
    unnamed: int


@dataclass
class Draft:
    """What was read so far: headers, and each section's lines."""

    path: Path
    headers: dict[str, Line] = field(default_factory=dict)
    sections: dict[str, list[Line]] = field(default_factory=dict)

    @property
    def kind(self) -> str:
        return (self.headers["TYPE"].text if "TYPE" in self.headers else self.path.suffix[1:]).upper()

    @property
    def destinations(self) -> int:
        return self.count(DESTINATIONS) if self.kind == "PCPSP" else 1

    def header(self, key: str) -> Line:
        if key not in self.headers:
            raise MinelibError(f"{self.path}: has no header {key}:")
        return self.headers[key]

    def count(self, key: str) -> int:
        return self.header(key).whole(self.header(key).text)

    def below(self, line: Line, word: str, key: str) -> int:
        """A number of a block, a period, a destination or a resource, as many as the header says."""
        number, count = line.whole(word), self.count(key)
        if number >= count:
            raise line.wrong(f"{number}, where {key}: is {count:,} and numbers count from 0")
        return number


def read(path: Path, second: Optional[str] = None) -> ScheduleModel:
    """A model of a schedule; `second` says what stands behind the block where a PCPSP lists what blocks take: destination or resource.

    Raises MinelibError, with the line, where a header is missing or not known, a number is malformed, or a line stands twice; of a PCPSP where
    it has general side constraints, or nothing says what stands behind the block.
    """
    draft = drafted(path)
    demand_kind(draft)
    values, nothing = values_of(draft), (Decimal(0),) * draft.destinations
    return ScheduleModel(
        name=draft.headers["NAME"].text if "NAME" in draft.headers else path.stem,
        values=[values.get(block, nothing) for block in range(draft.count(BLOCKS))],
        periods=draft.count(PERIODS),
        rate=draft.header(RATE).decimal(draft.header(RATE).text),
        taken=taken_of(draft) if draft.kind == "CPIT" else taken_by_destination(draft, second or second_of(draft)),
        limits=limits_of(draft),
        unnamed=draft.count(BLOCKS) - len(values),
    )


def demand_kind(draft: Draft) -> None:
    """Refuses other models than a CPIT and a PCPSP, headers of the one in the other, and general side constraints."""
    if draft.kind not in ("CPIT", "PCPSP"):
        raise MinelibError(
            f"{draft.path}: is {f'a {draft.kind}' if draft.kind else 'of no type'}, and schedules are read of a CPIT or a PCPSP"
        )
    for key in OF_PCPSP:
        if draft.kind == "CPIT" and key in draft.headers:
            raise draft.headers[key].wrong(f"{key}: is no header of a CPIT")
    if draft.kind == "PCPSP" and draft.destinations < 1:
        raise draft.header(DESTINATIONS).wrong("there is no destination")
    if GENERAL in draft.headers and draft.count(GENERAL):
        raise draft.header(GENERAL).wrong("general side constraints are not scheduled, but limits of resources alone")
    for key in OF_GENERAL:
        if draft.sections.get(key):
            raise draft.sections[key][0].wrong(
                "general side constraints are not scheduled, but limits of resources alone"
            )


def drafted(path: Path) -> Draft:
    draft, section = Draft(path), ""
    for line in lines(path):
        header = HEADER.fullmatch(line.text)
        if header is None:
            if not section:
                raise line.wrong("a header such as NAME: is due")
            draft.sections[section].append(line)
            continue
        section = header[1].upper().replace(" ", "_")
        if section in draft.headers or section not in KNOWN:
            raise line.wrong(
                f"{section}: {'stands twice' if section in KNOWN else 'is no header of a CPIT or a PCPSP'}"
            )
        draft.headers[section], draft.sections[section] = Line(path, line.number, header[2]), []
    return draft


def values_of(draft: Draft) -> dict[int, tuple[Decimal, ...]]:
    draft.header(VALUES)
    found: dict[int, tuple[Decimal, ...]] = {}
    due = "a block and its value" if draft.destinations == 1 else f"a block and {draft.destinations} values"
    for line in draft.sections[VALUES]:
        block, *values = fields_of(line, due, 1 + draft.destinations)
        number = draft.below(line, block, BLOCKS)
        if number in found:
            raise line.wrong(f"block {number} has a value already")
        found[number] = tuple(line.decimal(value) for value in values)
    return found


def taken_of(draft: Draft) -> list[dict[tuple[int, int], Decimal]]:
    found: list[dict[tuple[int, int], Decimal]] = [{} for _ in range(draft.count(RESOURCES))]
    for line in draft.sections.get(TAKEN, []):
        block, resource, amount = fields_of(line, "a block, a resource and an amount", 3)
        number, mine = draft.below(line, block, BLOCKS), found[draft.below(line, resource, RESOURCES)]
        if (number, 0) in mine:
            raise line.wrong(f"block {number} has an amount of resource {resource} already")
        mine[number, 0] = line.decimal(amount)
    return found


def taken_by_destination(draft: Draft, second: str) -> list[dict[tuple[int, int], Decimal]]:
    found: list[dict[tuple[int, int], Decimal]] = [{} for _ in range(draft.count(RESOURCES))]
    for line in draft.sections.get(TAKEN, []):
        block, *middle, amount = fields_of(line, f"a block, {' and '.join(in_order(second))}, and an amount", 4)
        destination, resource = middle if second == "destination" else middle[::-1]
        place = draft.below(line, block, BLOCKS), draft.below(line, destination, DESTINATIONS)
        mine = found[draft.below(line, resource, RESOURCES)]
        if place in mine:
            raise line.wrong(
                f"block {place[0]} has an amount of resource {resource} in destination {destination} already"
            )
        mine[place] = line.decimal(amount)
    return found


def in_order(second: str) -> tuple[str, str]:
    return ("a destination", "a resource") if second == "destination" else ("a resource", "a destination")


def second_of(draft: Draft) -> str:
    """What follows the block, found by which of both orders fits how many destinations and resources there are.

    Raises MinelibError where both fit, and the sentence of the first line where none does.
    """
    lines_of = draft.sections.get(TAKEN, [])
    pairs = [
        tuple(map(line.whole, fields_of(line, "a block, a destination, a resource and an amount", 4)[1:3]))
        for line in lines_of
    ]
    first, then = (max((pair[k] for pair in pairs), default=0) for k in (0, 1))
    destinations, resources = draft.destinations, draft.count(RESOURCES)
    counts = ((destinations, resources), (resources, destinations))
    fits = [kind for kind, most in zip(SECONDS, counts) if first < most[0] and then < most[1]]
    if len(fits) > 1 and pairs and any(one != other for one, other in pairs):
        why = f"{TAKEN}: what stands behind the block may be a destination or a resource: say which by --behind-block"
        raise draft.headers[TAKEN].wrong(why)
    return fits[0] if fits else SECONDS[0]


def limits_of(draft: Draft) -> dict[tuple[int, int], Bounds]:
    found: dict[tuple[int, int], Bounds] = {}
    for line in draft.sections.get(LIMITS, []):
        resource, period, kind, *bounds = fields_of(
            line, "a resource, a period, L, G or I, and a limit, or of I two", 4, 5
        )
        place = draft.below(line, resource, RESOURCES), draft.below(line, period, PERIODS)
        if place in found:
            raise line.wrong(f"resource {resource} has a limit in period {period} already")
        found[place] = bounds_of(line, kind.upper(), [line.decimal(bound) for bound in bounds])
    return found


def bounds_of(line: Line, kind: str, bounds: list[Decimal]) -> Bounds:
    """L is at most, G at least, I between two."""
    if kind not in ("L", "G", "I") or len(bounds) != (2 if kind == "I" else 1):
        raise line.wrong("a limit is L or G and a number, or I and two")
    if kind == "I" and bounds[0] > bounds[1]:
        raise line.wrong(f"{bounds[0]} is above {bounds[1]}")
    return (None, bounds[0]) if kind == "L" else (bounds[0], None) if kind == "G" else (bounds[0], bounds[1])


def fields_of(line: Line, due: str, *counts: int) -> list[str]:
    if len(line.fields) not in counts:
        raise line.wrong(f"{len(line.fields)} fields, where {due} are due")
    return line.fields

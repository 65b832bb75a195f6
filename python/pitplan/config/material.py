"""Which material goes where: `[classes]`, what processes accept, limits of their feed, stockpiles and `[[dumps]]`."""

from __future__ import annotations

from collections.abc import Collection, Iterable, Iterator
from dataclasses import dataclass, replace
from pathlib import Path
from typing import Any, Optional

from .keys import (
    ValueKind,
    amount,
    by_name,
    choice,
    codes_or_none,
    inline,
    key,
    new,
    read,
    rest,
    schema,
    text,
    word,
    write,
)
from .table import CLASS, CODES, Coded
from .toml_text import Section

# MILL is the process of a project that names none.
PIT, MILL = "pit", "mill"
# As other blocks; never processed, and reported as mineralised waste if it would pay; or an error.
ORE, WASTE, REFUSE = TREATMENTS = "ore", "waste", "refuse"
# Classes that are waste without a rule, in small letters: material outside measured and indicated resources, and blocks without a class.
WASTE_NAMES = ("inferred", "inf", "unclassified", "unclass", "potential", "exploration", "")
# Other classes whose names say what they are.
ORE_NAMES = ("measured", "meas", "indicated", "ind", "proved", "proven", "probable")
# The name of the only stockpile if it has none.
STOCKPILE = "stockpile"


@dataclass(frozen=True)
class ClassRules:
    """The treatment of each class of `[classes]`, by its code."""

    given: dict[str, str] = rest(choice(*TREATMENTS))

    def of(self, code: str) -> str:
        """Returns the treatment of a class: that of its rule, otherwise waste or ore by its name in any case."""
        return self.given.get(code, WASTE if code.lower() in WASTE_NAMES else ORE)

    def may_be_reserve(self, code: str) -> bool:
        """Returns whether reporting codes allow the class in reserves, by its name. Treating inferred material as ore does not make it a reserve."""
        return code.lower() not in WASTE_NAMES


def ranked(classes: Iterable[str]) -> list[str]:
    """Returns resource classes in order: measured before indicated before others, and blocks without a class last."""

    def rank(name: str) -> tuple[int, bool, str]:
        return (ORE_NAMES.index(name.lower()) if name.lower() in ORE_NAMES else len(ORE_NAMES), not name, name)

    return sorted(classes, key=rank)


@dataclass(frozen=True)
class NamedLimit:
    """The least and the most of something that has a name, both included; None: no limit.

    Of a stockpile these are tonnes of feed at the end of a period, and of a dump tonnes of waste in a year of it.
    """

    name: str
    min: Optional[float] = key(amount(), "least", None)
    max: Optional[float] = key(amount(), "most", None)


@dataclass(frozen=True)
class FeedGrade(NamedLimit):
    """A limit on the head grade of a process, or on the share of a code in its feed, in each year: the mean of the diluted feed.

    Attributes
    ----------
    name : str
        A column of the table with a grade, whose unit the limits have, or the key of [table] that names the column of the code.
    process : str
        The name of the process; "" in a project with one process.
    code : str, optional
        The code whose share of the tonnes of feed is limited; None: a grade is.
    """

    process: str = ""
    code: Optional[str] = None

    @property
    def column(self) -> str:
        return self.name

    @property
    def key(self) -> tuple[str, str, Optional[str]]:
        """What is limited: process, column and code."""
        return self.process, self.column, self.code

    @property
    def words(self) -> list[str]:
        """The same as parts of a name."""
        return [word for word in self.key if word]


def limit(record: type[NamedLimit], example: str, most: float = 0) -> ValueKind:
    """Min, max or both of what has the name of the key; if `most` is given, they are shares of the feed."""

    def read_limit(section: Section, name: str, _: Any) -> NamedLimit:
        found: NamedLimit = read(record, section.section(name), name=name)
        sides = [it for it in (found.min, found.max) if it is not None]
        if not sides:
            raise section.wrong(name, f"expected min, max or both, such as {example}")
        if sides != sorted(sides):
            raise section.wrong(name, f"min {found.min:.10g} is above max {found.max:.10g}")
        if most and max(sides) > most:
            raise section.wrong(name, f"found {max(sides):.10g}, expected a share of the feed, from 0 to 1")
        return found

    return ValueKind(read_limit, schema(record) | {"minProperties": 1}, write=write)


OF_GRADE, OF_CODE = limit(FeedGrade, "{ max = 140 }"), limit(FeedGrade, "{ max = 0.3 }", 1)
OF_PLACE, ACCEPTED_GRADE = limit(NamedLimit, "{ max = 2e6 }"), limit(NamedLimit, "{ min = 0.1 }")
LIMITS = by_name(OF_PLACE).then(
    lambda found: tuple(found.values()), write=lambda limits, folder: {it.name: write(it, folder) for it in limits}
)


def limits_of(section: Section) -> Iterator[FeedGrade]:
    """Yields the limits by column, and by the codes of rock types, domains and classes. Raises PlanError, with the key, if one has a mistake."""
    for column, value in section.data.items():
        if column in CODES:
            of_codes: dict[str, FeedGrade] = by_name(OF_CODE).read(section, column, value)
            yield from (replace(it, name=column, code=code) for code, it in of_codes.items())
        else:
            yield OF_GRADE.read(section, column, value)


def read_by_process(section: Section, key: str, _: Any) -> tuple[FeedGrade, ...]:
    """The limits by column, or by process and column."""
    inner = section.section(key)
    found: list[FeedGrade] = []
    for name, value in inner.data.items():
        is_process = name not in CODES and isinstance(value, dict) and bool(value)
        is_process = is_process and all(isinstance(it, dict) for it in value.values())
        held = inner.section(name) if is_process else Section(inner.source, inner.name, {name: value})
        found += (replace(it, process=name if is_process else "") for it in limits_of(held))
    return tuple(found)


def write_feed(limits: tuple[FeedGrade, ...], folder: Path) -> dict[str, Any]:
    found: dict[str, Any] = {}
    for it in limits:
        held, name = (found, it.column) if it.code is None else (found.setdefault(it.column, {}), it.code)
        held[name] = write(it, folder)
    return found


def write_by_process(limits: tuple[FeedGrade, ...], folder: Path) -> dict[str, Any]:
    names = dict.fromkeys(it.process for it in limits)
    by_process = {name: write_feed(tuple(it for it in limits if it.process == name), folder) for name in names}
    return {**by_process.pop("", {}), **by_process}


BY_CODE = {"type": "object", "properties": dict.fromkeys(CODES, by_name(OF_CODE).schema)}
OF_PROCESS = BY_CODE | {"additionalProperties": OF_GRADE.schema}
# `[processes.feed]` and `[schedule.feed]`: `as_ppm = { max = 140 }` limits a head grade, `rock_type = { OX = { max = 0.3 } }` the share of a code.
FEED = ValueKind(lambda section, name, _: tuple(limits_of(section.section(name))), OF_PROCESS, write=write_feed)
FEED_BY_PROCESS = ValueKind(
    read_by_process,
    BY_CODE | {"additionalProperties": {"anyOf": [OF_GRADE.schema, OF_PROCESS]}},
    write=write_by_process,
)


@dataclass(frozen=True)
class Accepts(Coded):
    """What a process, a stockpile or a dump accepts: any code where none is named, and any in-situ grade without a range."""

    rock_type: tuple[str, ...] = key(codes_or_none, "accepted rock types", ())
    domain: tuple[str, ...] = key(codes_or_none, "accepted domains", ())
    resource_class: tuple[str, ...] = key(codes_or_none, "accepted classes", (), name=CLASS)
    by_grade: dict[str, NamedLimit] = rest(ACCEPTED_GRADE)

    def __bool__(self) -> bool:
        return self != Accepts()

    @property
    def grades(self) -> tuple[NamedLimit, ...]:
        return tuple(self.by_grade.values())

    def without(self, columns: Collection[str]) -> Accepts:
        """Returns the same without ranges of the grades in these columns."""
        return replace(self, by_grade={name: it for name, it in self.by_grade.items() if name not in columns})


@dataclass(frozen=True)
class Opening(Coded):
    """What lies on a stockpile at the start: nothing is lost and no rock is added when it is reclaimed.

    `grades` are means in the unit of their columns; codes are "" where the project names no such column.
    """

    tonnes: float = key(amount(), "tonnes of feed")
    grades: dict[str, float] = rest(amount())
    rock_type: str = key(text, "its rock type", "")
    domain: str = key(text, "its domain", "")
    resource_class: str = key(text, "its class", "", name=CLASS)


@dataclass(frozen=True)
class Stockpile:
    """A stockpile; what lies there at the start may be other ore than it accepts."""

    reclaim_cost: float = key(amount(), "reclaim cost", unit="{currency}/t of feed")
    stacking_cost: float = new(amount(), "stacking cost", 0.0, "{currency}/t of feed")
    name: str = key(
        word, "name of the stockpile; not that of a process, `pit`, `waste` or `mill`", STOCKPILE, label="Stockpile"
    )
    capacity: Optional[float] = key(amount(1), "capacity at the end of each year", None, "t of feed", otherwise="any")
    recovery: dict[str, float] = key(
        by_name(amount(0, 1, example="0.95 for 5 % less")),
        "by metal the share of the recovery that remains after reclaim",
        {},
        "share",
        otherwise="1",
        label="Remaining recovery",
        is_seldom=True,
    )
    accepts: Accepts = new(inline(Accepts), "as of processes", Accepts(), otherwise="all")
    opening: Optional[Opening] = new(
        inline(Opening),
        'ore that lies there at the start: `{ tonnes = .., rock_type = "..", cu_pct = .. }`',
        None,
        otherwise="nothing",
    )


@dataclass(frozen=True)
class Dump:
    name: str = key(word, "name of the dump; not that of a process or a stockpile", label="Dump")
    cost: float = key(amount(), "haulage and placing, beyond `mining_cost`", 0.0, "{currency}/t of waste")
    capacity: Optional[float] = key(amount(), "capacity in all years", None, "t of waste", otherwise="any")
    accepts: Accepts = key(inline(Accepts), "as of processes, by any numeric column", Accepts(), otherwise="all")

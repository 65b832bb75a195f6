"""The keys of a project, each declared once: as a field of a record, with its kind, default, unit and meaning. Reader, writer, schema and reference follow."""

from __future__ import annotations

import os
import re
from collections.abc import Callable, Iterator, Mapping
from dataclasses import MISSING, dataclass, field, fields, replace
from decimal import Decimal
from functools import lru_cache, partial
from pathlib import Path
from types import MappingProxyType
from typing import Any, Optional, TypeVar, Union, cast

from pitplan.core import input_places
from pitplan.core.revenue_factors import GREATEST_FACTOR, PER_MILLE, factor_text, of_decimal, of_per_mille, per_mille

from .toml_text import LEAST_POWER, Absurd, Section

Record = TypeVar("Record")
Real = Union[int, Decimal]
Schema = Mapping[str, Any]
DECLARED = "key"
# Greater than any amount that a mine has.
GREATEST = 10**18
# Farther than any place on the ground, in metres along an axis of any system of coordinates.
FARTHEST = 10**9
# Letters of a value that an error shows.
MOST_SHOWN = 80
ONE_WORD = re.compile(r"\w[\w-]*")
TEXT: Schema = {"type": "string", "minLength": 1}
CODE: Schema = {"type": ["string", "integer"]}
# What release 0.1.0 called keys and sections, and the names in their place. Errors name them; release 0.3.0 knows only the new ones.
RENAMED = {
    **{"money": "economics", "fixed": "constraints", "forced": "must_mine", "barred": "exclude", "surface": "as_mined"},
    **{"pictures": "figures", "walls": "domains", "steps": "offsets", "face": "face_angle", "berm": "berm_width"},
    **{"levels": "precedence_benches", "rock": "rock_type", "region": "domain", "absent": "missing_blocks"},
    **{"factors": "revenue_factors", "rate": "discount_rate", "ore_per_year": "processing_capacity"},
    **{"rock_per_year": "mining_capacity", "per_year": "capacity", "fixed_tail": "tail_grade", "capital": "capex"},
    **{"mining_cost_per_level": "mining_cost_per_bench", "width": "min_mining_width", "bottom": "min_bottom_width"},
    **{"sinking_rate": "vertical_advance_rate", "lag": "bench_lag", "metal_per_year": "max_metal_per_year"},
    **{"rehandling_cost": "reclaim_cost", "least": "minimum", "sums": "limits", "chosen": "selected"},
    **{"last": "ultimate_pit", "vary": "parameters", "by": "changes", "models": "realisations"},
}


@dataclass(frozen=True)
class ValueKind:
    """A kind of values.

    Attributes
    ----------
    read : callable
        Takes a section, the name of a key in it and its value in TOML; returns the value that the planner computes with. Raises PlanError with
        the key.
    schema : mapping
        The JSON Schema of what TOML may have.
    range : str
        What values are allowed, in words; empty if it is any, or any from 0 on.
    write : callable
        Takes a value, and the folder to which paths are relative; returns what TOML has.
    record : type, optional
        The record of a section or of a list of sections.
    """

    read: Callable[[Section, str, Any], Any]
    schema: Schema
    range: str = ""
    write: Callable[[Any, Path], Any] = lambda value, _: value
    record: Optional[type] = None

    @property
    def type(self) -> str:
        """What forms take: "number", "text", "choice", "codes", or "value" for anything else that TOML has."""
        if self is codes:
            return "codes"
        known = {"number": "number", "integer": "number", "string": "text"}
        first = self.schema
        while "anyOf" in first:
            first = first["anyOf"][0]
        return "choice" if "enum" in first else known.get(str(first.get("type")), "value")

    @property
    def options(self) -> tuple[str, ...]:
        return tuple(self.schema.get("enum", ()))

    def then(self, make: Callable[[Any], Any], **others: Any) -> ValueKind:
        """Returns the kind whose values `make` turns into others. A ValueError of `make` says what is wrong with the key; `others` are fields of the
        kind."""

        def read(section: Section, key: str, value: Any) -> Any:
            found = self.read(section, key, value)
            try:
                return make(found)
            except ValueError as error:
                raise section.wrong(key, str(error)) from error

        return replace(self, read=read, **others)

    def where(self, holds: Callable[[Any], Any], why: str, **others: Any) -> ValueKind:
        """Returns the kind of the values for which `holds` is true. `why` is the error of others, with the value in place of {}."""

        def demanded(found: Any) -> Any:
            if not holds(found):
                raise ValueError(why.replace("{}", cut(str(found))))
            return found

        return self.then(demanded, **others)


def in_words(value: Optional[Real]) -> str:
    """Returns a number with thousands; powers of ten and of two as powers."""
    if isinstance(value, int) and value >= 10**9:
        digits = str(value)
        if digits.strip("0") == "1":
            return f"10^{len(digits) - 1}"
        if value & (value + 1) == 0:
            return f"2^{value.bit_length()} - 1"
    return f"{value:,}"


def shown(value: Any) -> str:
    """Returns a value as the file has it, cut if it is long."""
    if isinstance(value, int) and abs(value) > GREATEST**3:
        return f"a whole number of more than {len(str(GREATEST**3)) - 1} digits"
    # Decimals and dates without the words of Python around them.
    return cut(repr(value) if isinstance(value, (bool, str, list, dict)) else str(value))


def cut(text: str) -> str:
    return text if len(text) <= MOST_SHOWN else f"{text[:MOST_SHOWN]}.."


@dataclass(frozen=True)
class Range:
    """The numbers between two ends: `least` and `most` belong to them, `above` and `below` do not. Only the lower end may be the only one."""

    least: Optional[Real] = None
    most: Optional[Real] = None
    above: Optional[Real] = None
    below: Optional[Real] = None

    def __contains__(self, value: Real) -> bool:
        return (
            (self.least is None or value >= self.least)
            and (self.most is None or value <= self.most)
            and (self.above is None or value > self.above)
            and (self.below is None or value < self.below)
        )

    @property
    def words(self) -> str:
        if self == Range():
            return ""
        first = f"above {in_words(self.above)}" if self.least is None else in_words(self.least)
        if self.below is not None:
            return f"{first} {'and' if self.least is None else 'to'} below {in_words(self.below)}"
        if self.most is not None:
            return f"{first} to {in_words(self.most)}"
        return first if self.least is None else f"{first} or more"

    @property
    def schema(self) -> dict[str, Real]:
        names = {"least": "minimum", "most": "maximum", "above": "exclusiveMinimum", "below": "exclusiveMaximum"}
        return {name: end for it, name in names.items() if (end := getattr(self, it)) is not None}


def as_number(section: Section, key: str, value: Any) -> Decimal:
    """Returns a value as a decimal. Raises PlanError if it is no number, or beyond all amounts."""
    if isinstance(value, Absurd):
        raise section.wrong(key, f"{value!r} is not an amount: expected at most 10^18 and {-LEAST_POWER} decimals")
    is_decimal = isinstance(value, Decimal) and value.is_finite()
    if not is_decimal and (not isinstance(value, int) or isinstance(value, bool)):
        raise section.wrong(key, f"{shown(value)} is not a number")
    if not -GREATEST <= value <= GREATEST:
        raise section.wrong(key, f"{shown(value)} is beyond 10^18")
    return Decimal(value) if value else Decimal(0)


def number(
    least: Optional[Real] = None,
    most: Optional[Real] = None,
    *,
    above: Optional[Real] = None,
    below: Optional[Real] = None,
    example: str = "",
) -> ValueKind:
    """Returns the kind of a number in a range; errors end with the example."""
    span = Range(least, most, above, below)
    such = f", such as {example}" if example else ""
    any_number = ValueKind(as_number, {"type": "number", **span.schema}, "" if span == Range(0) else span.words)
    return any_number.where(span.__contains__, f"found {{}}, expected {span.words}{such}")


def amount(least: Optional[Real] = 0, most: Optional[Real] = None, **others: Any) -> ValueKind:
    """Returns the kind of a number that is computed with in floating point."""
    return number(None if "above" in others else least, most, **others).then(float)


def whole(least: int, most: int) -> ValueKind:
    span = Range(least, most)

    def read(section: Section, key: str, value: Any) -> int:
        if isinstance(value, bool) or not isinstance(value, int) or value not in span:
            expected = f"expected a whole number from {least:,} to {in_words(most)}"
            raise section.wrong(key, f"found {shown(value)}, {expected}")
        return value

    return ValueKind(read, {"type": "integer", **span.schema}, span.words)


coordinate = ValueKind(as_number, {"type": "number", "minimum": -FARTHEST, "maximum": FARTHEST}).where(
    lambda it: abs(it) <= FARTHEST, f"found {{}}, expected a coordinate in metres, at most {FARTHEST:,}"
)


def read_text(section: Section, key: str, value: Any) -> str:
    if not isinstance(value, str) or not value:
        raise section.wrong(key, "must be a text in quotes")
    if "\0" in value:
        raise section.wrong(key, f"{shown(value)} contains a NUL byte")
    return value


def read_truth(section: Section, key: str, value: Any) -> bool:
    if not isinstance(value, bool):
        raise section.wrong(key, "must be true or false")
    return value


truth = ValueKind(read_truth, {"type": "boolean"})
text = ValueKind(read_text, TEXT)
line = text.where(str.isprintable, "must be one line of plain text")
# Columns of tables are named by it.
word = text.where(
    ONE_WORD.fullmatch,
    'found "{}", expected one word of letters, digits, _ and -',
    schema={"type": "string", "pattern": f"^{ONE_WORD.pattern}$"},
    range="one word of letters, digits, `_` and `-`",
)


def choice(*options: str) -> ValueKind:
    words = [f'`"{it}"`' for it in options]
    allowed = f"{', '.join(words[:-1])} or {words[-1]}"
    why = f'found "{{}}", expected one of {", ".join(options)}'
    return text.where(options.__contains__, why, schema={"enum": [*options]}, range=allowed)


def exactly(words: str, why: str, meant: Any) -> ValueKind:
    """Returns the kind of one text, and the value that the text stands for. `why` is the error of anything else, which replaces {}."""

    def read(section: Section, key: str, value: Any) -> Any:
        if value != words:
            raise section.wrong(key, why.replace("{}", shown(value)))
        return meant

    return ValueKind(read, {"const": words}, write=lambda value, _: words)


def array(item: Schema, least: int = 1, most: int = 0) -> dict[str, Any]:
    """Returns the JSON Schema of a list with its least and its largest number of items; 0: any number."""
    return {"type": "array", "items": item} | {key: n for key, n in (("minItems", least), ("maxItems", most)) if n}


def listed(item: ValueKind, of: str, most: int = 0) -> ValueKind:
    """Returns the kind of a list; `of` says in errors what it has, with an example."""

    def read(section: Section, key: str, value: Any) -> tuple[Any, ...]:
        if not isinstance(value, list) or not value:
            raise section.wrong(key, f"must be a list {of}")
        found = tuple(item.read(section, key, it) for it in value)
        if most and len(found) > most:
            raise section.wrong(key, f"found {len(found):,}, expected {most:,} at most")
        return found

    return ValueKind(read, array(item.schema, 1, most), item.range)


def one_or_more(item: ValueKind, of: str) -> ValueKind:
    """Returns the kind of a value, or a list of such; `of` says in errors what is expected in place of an empty list."""

    def read(section: Section, key: str, value: Any) -> tuple[Any, ...]:
        if value == []:
            raise section.wrong(key, of)
        return tuple(item.read(section, key, it) for it in (value if isinstance(value, list) else [value]))

    return ValueKind(read, {"anyOf": [item.schema, array(item.schema)]}, item.range)


def numbers(count: int, item: ValueKind, why: str = "") -> ValueKind:
    """Returns the kind of a list of `count` values; `why` is the error of anything else."""

    def read(section: Section, key: str, value: Any) -> tuple[Any, ...]:
        if not isinstance(value, list) or len(value) != count:
            raise section.wrong(key, why or f"must be a list of {count} numbers")
        return tuple(item.read(section, key, it) for it in value)

    return ValueKind(read, array(item.schema, count, count), item.range)


def pairs(first: ValueKind, second: ValueKind, of: str, twice: str = "", *, least: int = 1) -> ValueKind:
    """Returns the kind of a list of pairs; `of` names the two in errors. If `twice` is given, pairs rise by their first values, and `twice` is the
    error of a value that occurs twice."""

    def read(section: Section, key: str, value: Any) -> tuple[tuple[Any, Any], ...]:
        if (
            not isinstance(value, list)
            or len(value) < least
            or any(not isinstance(it, list) or len(it) != 2 for it in value)
        ):
            raise section.wrong(key, f"must be a list of pairs {of}")
        found = tuple((first.read(section, key, a), second.read(section, key, b)) for a, b in value)
        if twice and len({one for one, _ in found}) < len(found):
            raise section.wrong(key, twice)
        return tuple(sorted(found)) if twice else found

    pair = {"type": "array", "items": [first.schema, second.schema], "minItems": 2, "maxItems": 2}
    return ValueKind(read, array(pair, least))


def by_rock(item: ValueKind) -> ValueKind:
    """Returns the kind of a value for all blocks, or by the code of their rock type."""

    def each(value: Any, make: Callable[[Any], Any]) -> Any:
        return {rock: make(it) for rock, it in value.items()} if isinstance(value, dict) else make(value)

    return ValueKind(
        lambda section, key, value: each(value, partial(item.read, section, key)),
        {"anyOf": [item.schema, {"type": "object", "additionalProperties": item.schema}]},
        "; ".join(filter(None, [item.range, "by rock type"])),
        lambda value, folder: each(value, lambda it: item.write(it, folder)),
    )


def by_name(item: ValueKind, empty: str = "", of_metals: bool = False) -> ValueKind:
    """Returns the kind of a table by names that the project gives, or of its metals; `empty` is the error of an empty table, if there must be a name."""

    def read(section: Section, key: str, value: Any) -> dict[str, Any]:
        inner, metals = section.section(key), section.source.metals
        if empty and not inner.data:
            raise section.wrong(key, empty)
        for name in inner.data if of_metals else ():
            if name not in metals:
                raise section.wrong(key, f"found {name}, expected one of the [[metals]]: {', '.join(metals)}")
        return {name: item.read(inner, name, it) for name, it in inner.data.items()}

    def write(value: Mapping[str, Any], folder: Path) -> dict[str, Any]:
        return {name: item.write(it, folder) for name, it in value.items()}

    schema = {"type": "object", "additionalProperties": item.schema} | ({"minProperties": 1} if empty else {})
    return ValueKind(read, schema, item.range, write, item.record)


def read_code(section: Section, key: str, value: Any, may_be_empty: bool = False) -> str:
    if isinstance(value, bool) or not isinstance(value, (str, int)):
        raise section.wrong(key, "must be a code or a list of codes")
    if value == "" and not may_be_empty or "\0" in str(value):
        raise section.wrong(key, "codes may not be empty or contain a NUL byte")
    return str(value)


codes = one_or_more(ValueKind(read_code, CODE), "must be a code or a list of codes")
# A block without a resource class has the code "".
codes_or_none = one_or_more(ValueKind(partial(read_code, may_be_empty=True), CODE), "must be a code or a list of codes")


def factor(least: float = 0.0) -> ValueKind:
    def made(found: Decimal) -> float:
        if not 0 <= found <= GREATEST_FACTOR or found * PER_MILLE % 1:
            raise ValueError(no_factor(found))
        if of_decimal(found) < least:
            raise ValueError(f"found {found}, expected {least} or more")
        return of_decimal(found)

    schema = {"type": "number", "minimum": least, "maximum": 100}
    return ValueKind(as_number, schema, f"{least} or more" if least else "").then(made)


def factors(least: float = 0.0, most: int = 0) -> ValueKind:
    """Returns the kind of rising revenue factors: a list, or `{ from, to, step }`."""
    one = factor(least)
    several = listed(one, "of revenue factors, or { from, to, step }")

    def read(section: Section, key: str, value: Any) -> tuple[float, ...]:
        found = span_of(section, key, one) if isinstance(value, dict) else several.read(section, key, value)
        rising = tuple(sorted(set(found)))
        if most and len(rising) > most:
            raise section.wrong(key, f"found {len(rising):,}, expected {most:,} at most")
        return rising

    ends = {"type": "object", "required": ["from", "to"], "additionalProperties": False}
    ends["properties"] = {name: factor().schema for name in ("from", "to", "step")}
    allowed = ", ".join(filter(None, [one.range, f"{most:,} at most" if most else ""]))
    return ValueKind(read, {"anyOf": [several.schema, ends]}, allowed)


def span_of(section: Section, key: str, one: ValueKind) -> list[float]:
    """Returns the revenue factors of `{ from, to, step }`, with ends of a kind."""
    inner = section.section(key)
    first, last = (one.read(inner, name, inner.get(name)) for name in ("from", "to"))
    step = factor(of_per_mille(1)).read(inner, "step", inner.get("step"))
    inner.finish()
    if first > last:
        why = f"found none from {factor_text(first)} to {factor_text(last)}: from may not be above to"
        raise section.wrong(key, why)
    if first < last and per_mille(step) > per_mille(last) - per_mille(first):
        meant = f" (did you mean {factor_text(step / PER_MILLE)}?)" if step % 1 == 0 else ""
        said = f"found {shown(inner.data['step'])}, expected at most {factor_text(last - first)}, from `from` to `to`"
        raise inner.wrong("step", f"{said}{meant}")
    return list(map(of_per_mille, range(per_mille(first), per_mille(last) + 1, per_mille(step))))


def no_factor(value: Decimal) -> str:
    """Returns why a number is no revenue factor. For 800, perhaps a factor in per mille, it suggests 0.80."""
    if 0 <= value <= GREATEST_FACTOR:
        return f"found {shown(value)}, expected at most three decimals"
    said = f"found {shown(value)}, expected a revenue factor from 0 to 100; 1.0 is the base price"
    is_per_mille = value > GREATEST_FACTOR and value <= PER_MILLE * GREATEST_FACTOR and value % 1 == 0
    return f"{said} (did you mean {factor_text(value / PER_MILLE)}?)" if is_per_mille else said


def place(path: Path, folder: Path) -> str:
    """Returns a path as a project in a folder names it."""
    return os.path.relpath(path, folder)


def path_of(section: Section, key: str, value: Any, is_folder: bool = False) -> Path:
    """Returns the path of an input. Raises PlanError if it may not be read."""
    path = section.source.folder / read_text(section, key, value)
    why = input_places.fault(path, is_folder)
    if why:
        raise section.wrong(key, f"{value}: {why}")
    return path


file = ValueKind(path_of, TEXT, write=place)
folder = ValueKind(partial(path_of, is_folder=True), TEXT, write=place)


@dataclass(frozen=True)
class Key:
    """The declaration of a key.

    Attributes
    ----------
    meaning : str
        What it is, without its unit and range.
    default : object
        MISSING if it must be given.
    unit : str
        In it {currency} is the name of the currency, {per} the unit of a metal's price and {grade} that of its column.
    otherwise : str
        What holds without it, if the default is no value of TOML.
    name, label : str
        In the file, and in forms and reports.
    since : str
        The first release that has it.
    short : str
        The name of a key that may be given in place of a list with one entry.
    of_processes : str
        What each of the processes gives in its place, if the project names some.
    is_quiet : bool, or callable
        Whether a default is not written; callable with the record.
    is_seldom : bool
        Whether forms show it only if it is given, or asked for.
    """

    kind: ValueKind
    meaning: str
    default: Any = MISSING
    unit: str = ""
    otherwise: str = "none"
    name: str = ""
    label: str = ""
    since: str = "0.1.0"
    short: str = ""
    of_processes: str = ""
    is_quiet: Union[bool, Callable[[Any], bool]] = False
    is_seldom: bool = False

    @property
    def is_required(self) -> bool:
        return self.default is MISSING

    def unit_of(self, currency: str = "currency", per: str = "unit of metal", grade: str = "unit of grade") -> str:
        return self.unit.format(currency=currency, per=per, grade=grade)


@dataclass(frozen=True)
class InlineRecord:
    """A record whose keys lie in the section of another."""

    record: type


@dataclass(frozen=True)
class Rest:
    """The keys of a section that no other field has: names that the project gives."""

    kind: ValueKind


def key(
    kind: ValueKind, meaning: str, default: Any = MISSING, unit: str = "", *, in_python: Any = MISSING, **others: Any
) -> Any:
    """Declares a field of a record as a key, with `others` as of Key; `in_python` is the default of the field if the file must give it."""
    declared = Key(kind, meaning, default, unit, **others)
    value = in_python if default is MISSING else default
    if isinstance(value, dict):
        return field(default_factory=value.copy, metadata={DECLARED: declared})
    return field(default=value, metadata={DECLARED: declared})


# Declares a key that release 0.2.0 was the first to have.
new = partial(key, since="0.2.0")


def part(record: type) -> Any:
    """Declares a field as a record whose keys lie in the same section."""
    return field(default_factory=record, metadata={DECLARED: InlineRecord(record)})


def rest(kind: ValueKind) -> Any:
    """Declares a field as a dict of all keys of the section that no other field has, with values of a kind."""
    return field(default_factory=dict, metadata={DECLARED: Rest(kind)})


@lru_cache(maxsize=None)
def keys_of(record: type) -> Mapping[str, Key]:
    """Returns the keys of a section by their names in the file, in the order in which they are written."""
    return MappingProxyType({it.name: it for _, it in declared(record)})


@lru_cache(maxsize=None)
def declared(record: type) -> tuple[tuple[str, Key], ...]:
    """Returns the fields of a record, and of the records in it, with their keys."""
    found: list[tuple[str, Key]] = []
    for name, it in declarations(record):
        found += declared(it.record) if isinstance(it, InlineRecord) else [(name, it)] if isinstance(it, Key) else []
    return tuple(found)


@lru_cache(maxsize=None)
def declarations(record: type) -> tuple[tuple[str, Union[Key, InlineRecord, Rest]], ...]:
    """Returns the fields of a record that are declared. Name and label of a key are those of its field unless the key has others."""
    found = []
    for it in fields(record):
        declaration = it.metadata.get(DECLARED)
        if isinstance(declaration, Key):
            name = declaration.name or it.name
            label = declaration.label or name.replace("_", " ").capitalize()
            declaration = replace(declaration, name=name, label=label)
        found += [(it.name, declaration)] if declaration else []
    return tuple(found)


def read(record: Callable[..., Record], section: Section, **others: Any) -> Record:
    """Reads a section; `others` are values of fields that it leaves out. Raises PlanError, with the key, if one is missing, unknown or wrong."""
    keys = keys_of(cast(type, record))
    for name, it in keys.items():
        section.asked |= {name, it.short} - {""}
    found = read_part(record, section, others)
    section.finish({old: new for old, new in RENAMED.items() if new in keys})
    return found


def read_part(record: Callable[..., Record], section: Section, others: Mapping[str, Any]) -> Record:
    values = dict(others)
    for name, it in declarations(cast(type, record)):
        if isinstance(it, InlineRecord):
            values[name] = read_part(it.record, section, {})
        elif isinstance(it, Rest):
            named = {key: value for key, value in section.data.items() if key not in section.asked}
            values[name] = {key: it.kind.read(section, key, value) for key, value in named.items()}
            section.asked |= named.keys()
        else:
            values |= {name: value for value in given(it, section)}
    return record(**values)


def given(it: Key, section: Section) -> Iterator[Any]:
    """Yields the value of a key; nothing if the section leaves it out. Raises PlanError if it is wrong, or must be given."""
    if it.of_processes and "processes" in section.source.data:
        if section.has(it.name):
            raise section.wrong(it.name, f"give {it.of_processes} of each of the [[processes]], not this")
    elif it.short and section.has(it.short) and it.kind.record:
        if section.has(it.name):
            raise section.wrong(it.short, f"and {it.name} are both given: remove one of them")
        yield (read(it.kind.record, section.section(it.short)),)
    elif section.has(it.name) or it.is_required:
        yield it.kind.read(section, it.name, section.get(it.name, RENAMED))


def write(value: Any, folder: Path) -> dict[str, Any]:
    """Returns the keys of a record as TOML has them, for a file in a folder; keys without a value are left out."""
    found: dict[str, Any] = {}
    for name, it in declarations(value.__class__):
        held = getattr(value, name)
        if isinstance(it, InlineRecord):
            found |= write(held, folder)
        elif isinstance(it, Rest):
            found |= by_name(it.kind).write(held, folder)
        elif not is_left_out(it, held, value):
            found[it.name] = it.kind.write(held, folder)
    return found


def is_left_out(it: Key, value: Any, record: Any) -> bool:
    """Returns whether a value is left out of the text: it is empty, or a default that the record does not write."""
    is_quiet = it.is_quiet(record) if callable(it.is_quiet) else it.is_quiet
    return is_empty(value) or bool(is_quiet and value == it.default)


def is_empty(value: Any) -> bool:
    return not isinstance(value, (bool, int, float, Decimal)) and not value


def table(record: type) -> ValueKind:
    return ValueKind(
        lambda section, name, _: read(record, section.section(name)), schema(record), write=write, record=record
    )


def tables(record: type) -> ValueKind:
    def read_all(section: Section, name: str, _: Any) -> tuple[Any, ...]:
        return tuple(read(record, it) for it in section.sections(name))

    def write_all(values: tuple[Any, ...], folder: Path) -> list[dict[str, Any]]:
        return [write(it, folder) for it in values]

    return ValueKind(read_all, array(schema(record)), write=write_all, record=record)


def inline(record: type) -> ValueKind:
    """Returns the kind of a table that forms and the reference show as one value."""
    return replace(table(record), record=None)


def either(plain: ValueKind, record: Any, *names: str) -> ValueKind:
    """Returns the kind of a plain value, or of a table with the keys of a record. If `names` are given, a plain value makes a record with this value
    in these fields, and a record with no more than the first of them is written as a plain value."""

    def read_one(section: Section, key: str, value: Any) -> Any:
        if isinstance(value, dict):
            return read(record, section.section(key))
        found = plain.read(section, key, value)
        return record(**dict.fromkeys(names, found)) if names else found

    def write_one(value: Any, folder: Path) -> Any:
        if not isinstance(value, record):
            return plain.write(value, folder)
        first = [it.name for name, it in declared(record) if name in names[:1]]
        found = write(value, folder)
        return found[first[0]] if first == [*found] else found

    return ValueKind(read_one, {"anyOf": [plain.schema, schema(record)]}, write=write_one)


def schema(record: type) -> dict[str, Any]:
    keys = keys_of(record)
    properties: dict[str, Any] = {}
    for name, it in keys.items():
        properties[name] = {**it.kind.schema, "description": sentence(it)}
        if it.default is not MISSING and not is_empty(it.default):
            properties[name]["default"] = it.kind.write(it.default, Path("."))
        if it.short and it.kind.record:
            properties[it.short] = {**schema(it.kind.record), "description": sentence(it)}
    others = [it.kind.schema for _, it in declarations(record) if isinstance(it, Rest)]
    required = [name for name, it in keys.items() if it.is_required and not it.of_processes]
    found = {"type": "object", "properties": properties, "additionalProperties": others[0] if others else False}
    return found | ({"required": required} if required else {})


def sentence(it: Key) -> str:
    return "; ".join(filter(None, [it.meaning, it.unit_of(), it.kind.range]))

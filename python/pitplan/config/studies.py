"""What is varied: `[sensitivity]`, `[scenarios]` and `[price_paths]`."""

from __future__ import annotations

from dataclasses import dataclass, replace
from decimal import Decimal
from pathlib import Path
from typing import Any, Optional

from . import keys
from .keys import (
    CODE,
    TEXT,
    ValueKind,
    array,
    by_name,
    codes,
    key,
    listed,
    new,
    number,
    one_or_more,
    table,
    tables,
    whole,
)
from .toml_text import Section

NAMES = ("price", "mining_cost", "processing_cost", "selling_cost", "recovery", "slopes", "capacity", "haulage")
# Those that may be one metal's alone, as "price copper".
OF_METALS = ("price", "selling_cost", "recovery")
# Sections whose keys may be varied by their path, as processes.mill.cost.
SECTIONS = ("economics", "metals", "processes", "slopes", "shells", "periods", "haulage", "dumps")


def read_parameter(section: Section, key: str, value: Any) -> str:
    """A name that is known, or the path of a key. Raises PlanError otherwise."""
    name, metals = str(value), section.source.metals
    if "." in name:
        if name.partition(".")[0] not in SECTIONS:
            expected = f"a key of {', '.join(SECTIONS)}, such as processes.mill.cost"
            raise section.wrong(key, f'found "{name}", expected {expected}')
        return name
    kind, _, metal = name.partition(" ")
    if kind in NAMES and (not metal or (kind in OF_METALS and metal in metals)):
        return name
    of_one = f'{", ".join(OF_METALS)} or of one metal, as "price {(*metals, "copper")[0]}"'
    paths = "or the path of a key, such as economics.mining_cost"
    raise section.wrong(key, f'found "{name}", expected one of {", ".join(NAMES)}; {of_one}; {paths}')


PARAMETER = ValueKind(read_parameter, CODE)
MOST_VALUES, AXES = 30, 2
EXAMPLE = 'such as parameter = "processes.mill.capacity" with values = [4e6, 6e6, 8e6]'
# A key of a project by its path, or a parameter, and its value or the share by which it changes.
Setting = tuple[str, Decimal]


def rising(item: ValueKind) -> ValueKind:
    return listed(item, f"of 2 to {MOST_VALUES} different numbers that rise").where(
        lambda it: list(it) == sorted(set(it)) and 2 <= len(it) <= MOST_VALUES,
        f"expected 2 to {MOST_VALUES} different numbers that rise",
        schema=array(item.schema, 2, MOST_VALUES),
    )


def read_along(section: Section, path: str, value: Any) -> Any:
    if "." not in path:
        raise section.wrong(path, 'expected the path of a key in quotes, such as "economics.fixed_cost_per_year"')
    return listed(number(), "of numbers").read(section, path, value)


@dataclass(frozen=True)
class HillAxis:
    """An axis of a hill of value: a parameter with the values of its key, or with shares by which it changes."""

    parameter: str = key(replace(PARAMETER, schema=TEXT), "name, or path of a key")
    of_key: tuple[Decimal, ...] = key(
        rising(number(None)), f"2 to {MOST_VALUES} rising values of the key", (), name="values"
    )
    shares: tuple[Decimal, ...] = key(
        rising(number(above=-1, most=10)),
        f"2 to {MOST_VALUES} rising shares by which it changes, in place of `values`",
        (),
        name="changes",
    )
    also: dict[str, tuple[Decimal, ...]] = key(
        by_name(ValueKind(read_along, array({"type": "number"}))),
        "keys that change along: as many values each",
        {},
    )

    @property
    def is_change(self) -> bool:
        """Whether the numbers are shares by which the parameter changes."""
        return bool(self.shares)

    @property
    def values(self) -> tuple[Decimal, ...]:
        return self.shares or self.of_key

    def changes(self, number: int) -> tuple[Setting, ...]:
        """The change of the parameter for one of the numbers; none without a change."""
        value = self.values[number]
        return ((self.parameter, value),) if self.is_change and value else ()

    def settings(self, number: int) -> tuple[Setting, ...]:
        first = () if self.is_change else ((self.parameter, self.values[number]),)
        return (*first, *((name, values[number]) for name, values in self.also.items()))

    @property
    def keys(self) -> tuple[str, ...]:
        return tuple(name for name, _ in self.settings(0))


# Of the pit's rock.
SKIN = Decimal("0.05")
# The largest share of the pit's tonnes that a shell adds in a case.
INCREMENT = Decimal("0.03")
SHARES = (Decimal("-0.2"), Decimal("-0.1"), Decimal("0.1"), Decimal("0.2"))
MOST_SHARES = 20


def different(pairs: tuple[tuple[str, str], ...]) -> tuple[tuple[str, str], ...]:
    for one, other in pairs:
        of_all = " " not in one or " " not in other
        is_named = "." not in one + other and one.partition(" ")[0] == other.partition(" ")[0]
        if one == other or is_named and of_all:
            raise ValueError(f"{one} and {other} are not two different parameters")
    return pairs


@dataclass(frozen=True)
class SensitivityRules:
    """Shares by which numbers go up and down, which numbers are varied, each by itself or two together, and the axes of a hill of value."""

    changes: tuple[Decimal, ...] = key(
        listed(number(above=-1, most=10), f"of up to {MOST_SHARES} shares, such as [-0.1, 0.1] for 10 % less and more")
        .then(
            lambda it: tuple(sorted(it)),
            schema=array(number(above=-1, most=10).schema, 1, MOST_SHARES),
            range=f"above -1 to 10, {MOST_SHARES} at most",
        )
        .where(
            lambda it: 0 not in it and len(set(it)) == len(it) <= MOST_SHARES,
            f"expected up to {MOST_SHARES} shares, not 0, and all different",
        ),
        "list of shares",
        SHARES,
    )
    parameters: tuple[str, ...] = key(
        one_or_more(PARAMETER, "must be a code or a list of codes").where(
            lambda it: len(set(it)) == len(it), "names a parameter twice"
        ),
        f"{', '.join(f'`{it}`' for it in NAMES)}, one metal's (`\"price copper\"`), or paths of keys",
        (),
        otherwise="all that the project has",
    )
    pairs: tuple[tuple[str, str], ...] = key(
        keys.pairs(PARAMETER, PARAMETER, 'of names, such as [["price", "mining_cost"]]', least=0).then(different),
        "pairs of parameters that change together; each of them also changes alone",
        (),
    )
    skin: Decimal = new(
        number(above=0, below=1, example="0.05 for the last 5 %"),
        "share of the pit's tonnes in the outermost increment",
        SKIN,
    )
    largest_increment: Decimal = new(
        number(above=0, most=1, example="0.03"),
        "share of the pit's tonnes that a shell adds at most; 1: shells of `[shells]` only",
        INCREMENT,
    )
    hill: tuple[HillAxis, ...] = new(tables(HillAxis), "two `[[sensitivity.hill]]`, below", ())


def read_decks(section: Section, name: str, _: Any) -> tuple[dict[str, Decimal], ...]:
    price = number(0)
    return tuple(
        {metal: price.read(it, metal, value) for metal, value in it.data.items()} for it in section.sections(name)
    )


DECK = by_name(number(0)).schema


@dataclass(frozen=True)
class Scenarios:
    """Simulated models of the grades, in a folder of tables or in columns, and price decks to solve each of them with."""

    folder: Optional[Path] = key(
        keys.folder,
        "folder with one [table per realisation](../FORMATS.md#table-of-a-realisation-read)",
        None,
        name="realisations",
        otherwise="",
    )
    columns: dict[str, tuple[str, ...]] = key(
        by_name(codes, "name the columns of at least one metal"),
        "in place of it: by metal the columns of the block model, a list or a name with `*`",
        {},
        otherwise="",
    )
    prices: tuple[dict[str, Decimal], ...] = key(
        ValueKind(
            read_decks,
            {"type": "array", "items": DECK, "minItems": 1},
            write=lambda decks, _: [{**it} for it in decks if it] or None,
        ),
        "list of price decks, each by metal; the other metals keep their price",
        ({},),
        otherwise="the base prices",
    )


COUNT, MOST_PATHS, MOST_SEED = 1000, 10_000, 2**31 - 1


@dataclass(frozen=True)
class PricePath:
    """The price of a metal as the one-factor model of Schwartz has it: its logarithm is pulled to that of a long-term price."""

    long_term: Decimal = key(
        number(above=0, most=10**12),
        "median of the price in the long run, at which it starts",
        unit="{currency}/{per}",
    )
    speed: Decimal = key(
        number(above=0, most=100),
        "speed of reversion: the log of the price moves by this share of its distance",
        unit="per year",
    )
    volatility: Decimal = key(
        number(0, 10, example="0.25"), "volatility of the log of the price", unit="per square root of a year"
    )


@dataclass(frozen=True)
class PricePaths:
    """Paths of the prices of some metals, each independent of the others; the other metals keep their price."""

    count: int = key(whole(2, MOST_PATHS), "number of paths", COUNT)
    seed: int = key(whole(0, MOST_SEED), "seed of the random numbers; the same seed gives the same paths", 1)
    metals: dict[str, PricePath] = key(
        by_name(table(PricePath), "names no metal: expected such as [price_paths.metals.copper]", of_metals=True),
        "by metal its price path, below",
        in_python={},
    )

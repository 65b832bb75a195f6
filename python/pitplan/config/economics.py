"""Prices, costs, smelter terms and taxes: `[economics]`, `[[metals]]`, `[[processes]]` and `[cash_flow]`."""

from __future__ import annotations

from dataclasses import dataclass, replace
from decimal import ROUND_HALF_EVEN, Decimal
from pathlib import Path
from typing import Any, Optional, Union

from .keys import (
    RENAMED,
    TEXT,
    ValueKind,
    amount,
    array,
    by_name,
    by_rock,
    choice,
    coordinate,
    either,
    exactly,
    inline,
    key,
    line,
    listed,
    new,
    number,
    pairs,
    shown,
    table,
    tables,
    text,
    whole,
    word,
)
from .material import FEED, Accepts, FeedGrade
from .toml_text import Section

# By unit of the metal's column: the grade of a concentrate that is nothing but metal.
PURE = {"percent": Decimal(100), "fraction": Decimal(1), "gram_per_tonne": Decimal(10**6)}
# The keys of charges, without penalties.
CHARGES = ("treatment_charge", "refining_charge", "freight")
# The keys that are for each tonne of concentrate, or for its grade.
OF_CONCENTRATE = ("treatment_charge", "freight", "minimum_deduction", "penalties")
# The terms apply to the metal of all processes.
ALL = "all"
# Whether price participation also credits the seller below the base.
BOTH, ABOVE = "both", "above"
UNITS_OF_PRODUCTION = "units_of_production"
DEPRECIATED = f'expected "{UNITS_OF_PRODUCTION}" or straight line over years, as {{ years = 8 }}'
MOST_RATES = 20
# A price or a cost: one for every rock, or one for each rock by its code.
ByRock = Union[Decimal, dict[str, Decimal]]
# When ore and waste are separated: again at each revenue factor, or once at the base price.
PER_REVENUE_FACTOR, AT_BASE_PRICE = "per_revenue_factor", "base_price"
# The largest number of years of a project.
MOST_YEARS = 1_000
GRADE_UNITS = {"percent": Decimal("0.01"), "fraction": Decimal(1), "gram_per_tonne": Decimal(1)}
METAL_UNITS = {"percent": "t", "fraction": "t", "gram_per_tonne": "g"}
GRADE_SIGNS = {"percent": "%", "fraction": "t/t", "gram_per_tonne": "g/t"}
# Grams of the units of prices: the avoirdupois pound and the troy ounce are exact by definition.
GRAMS = {
    "t": Decimal(10**6),
    "kg": Decimal(1000),
    "g": Decimal(1),
    "lb": Decimal("453.59237"),
    "oz": Decimal("31.1034768"),
}
# A price that is converted from one unit to another is rounded half to even, to this number of decimals.
PRICE_PLACES = Decimal(1).scaleb(-12)
ZERO, ONE = Decimal(0), Decimal(1)

SHARE, PAID_SHARE = number(0, 1), number(above=0, most=1, example="0.965 for 96.5 %")


def read_processes(section: Section, name: str, value: Any) -> Union[str, tuple[str, ...]]:
    if value == ALL:
        return ALL
    if not isinstance(value, list) or not value or not all(isinstance(it, str) for it in value):
        raise section.wrong(name, f'found {shown(value)}, expected "{ALL}" or names, such as ["mill"]')
    return tuple(value)


@dataclass(frozen=True)
class Participation:
    """The smelter keeps a share of the price above a base, and credits that share below it unless `applies` is "above"."""

    base: Decimal = key(number(0), "price from which on the share counts", unit="{currency}/{per}")
    share: Decimal = key(number(0, below=1, example="0.1 for 10 %"), "share of the price beyond the base")
    applies: str = key(choice(BOTH, ABOVE), '`"above"` leaves out the credit below the base', BOTH)


@dataclass(frozen=True, kw_only=True)
class Penalty:
    """A charge for an element in the concentrate."""

    column: str = key(text, "column of the element by its grade in the ground")
    recovery: Decimal = key(PAID_SHARE, "share of the element that comes into the concentrate", Decimal(1))
    steps: tuple[tuple[Decimal, Decimal], ...] = key(
        pairs(number(0), number(0), "[grade of the concentrate, charge per dry tonne]").where(
            lambda it: all(one < other for (one, _), (other, _) in zip(it, it[1:])), "the grades must rise"
        ),
        "pairs of a grade of the concentrate, and the charge from there on for each `per`; above its grade a step replaces the one before",
        unit="{currency}/t of dry concentrate",
    )
    per: Decimal = key(number(above=0), "grade for which the charge is", Decimal(1), "unit of the column")


@dataclass(frozen=True, kw_only=True)
class Smelter:
    payable: Decimal = key(PAID_SHARE, "share that is paid", Decimal(1))
    concentrate_grade: Optional[Decimal] = key(number(above=0), "grade of the dry concentrate", None, "{grade}")
    minimum_deduction: Decimal = key(number(0), "least deduction; below `concentrate_grade`", Decimal(0), "{grade}")
    treatment_charge: Decimal = key(number(0), "treatment charge", Decimal(0), "{currency}/t of dry concentrate")
    refining_charge: Decimal = key(number(0), "refining charge", Decimal(0), "{currency}/{per} payable")
    moisture: Decimal = key(
        number(0, below=1, example="0.08 for 8 %"), "share of water in the wet concentrate", Decimal(0)
    )
    freight: Decimal = key(number(0), "freight", Decimal(0), "{currency}/t of wet concentrate")
    price_participation: Optional[Participation] = key(
        table(Participation),
        'share of the price beyond a base: `{ base = .., share = .. }`, and `applies = "above"`',
        None,
    )
    penalties: tuple[Penalty, ...] = key(tables(Penalty), "list of penalties, below", ())
    processes: Union[str, tuple[str, ...]] = key(
        ValueKind(read_processes, {"anyOf": [{"const": ALL}, array(TEXT)]}),
        'names whose metal the smelter buys, or `"all"`, which is also meant if each that recovers it is named; then without `selling_cost`',
        "",
        otherwise="the one that recovers the metal",
    )

    @property
    def is_of_some(self) -> bool:
        """Whether the terms name processes, and the others sell at the selling cost."""
        return isinstance(self.processes, tuple)

    def apply_to(self, process: str) -> bool:
        """Returns whether a process, by name, sells its metal by these terms."""
        return not isinstance(self.processes, tuple) or process in self.processes

    @property
    def is_shipped(self) -> bool:
        """Whether the terms count tonnes of concentrate."""
        return bool(self.treatment_charge or self.freight or self.penalties)

    @property
    def has_charges(self) -> bool:
        """Whether there are charges besides a share of the price."""
        return bool(any(getattr(self, name) for name in CHARGES) or self.penalties)


@dataclass(frozen=True)
class ByDomain:
    """A number for each domain, by its code."""

    values: dict[str, Decimal]


# One for every block, or for each rock type or each domain.
ByCode = Union[Decimal, dict[str, Decimal], ByDomain]


@dataclass(frozen=True)
class Curve:
    """Pairs of a grade, in the metal's unit, and the recovery there: by rising grade, and recoveries do not fall."""

    points: tuple[tuple[Decimal, Decimal], ...]


# One recovery for every grade, or one by grade.
Recovery = Union[Decimal, Curve]


def by_code(item: ValueKind) -> ValueKind:
    """A number for all blocks, by rock type, or as `{ domain = { CODE = number } }` by domain."""
    of_rock, of_domain = by_rock(item), by_name(item)

    def read(section: Section, name: str, value: Any) -> Any:
        if not isinstance(value, dict) or not any(isinstance(it, dict) for it in value.values()):
            return of_rock.read(section, name, value)
        inner = section.section(name)
        by_domain = inner.get("domain", RENAMED)
        inner.finish()
        return ByDomain(of_domain.read(inner, "domain", by_domain))

    def write(value: ByCode, folder: Path) -> Any:
        return {"domain": value.values} if isinstance(value, ByDomain) else value

    domains = {"type": "object", "properties": {"domain": of_domain.schema}, "required": ["domain"]}
    return ValueKind(read, {"anyOf": [*of_rock.schema["anyOf"], domains]}, f"{of_rock.range} or domain", write)


def curve(points: tuple[tuple[Decimal, Decimal], ...]) -> Curve:
    recoveries = [it for _, it in points]
    if recoveries != sorted(recoveries):
        raise ValueError("falls as the grade rises")
    return Curve(points)


CURVE = pairs(number(0), SHARE, "[grade, recovery]", "a grade occurs twice").then(curve)
RECOVERY = ValueKind(
    lambda section, name, value: (CURVE if isinstance(value, list) else SHARE).read(section, name, value),
    {"anyOf": [SHARE.schema, CURVE.schema]},
    SHARE.range,
    lambda value, _: value.points if isinstance(value, Curve) else value,
)


@dataclass(frozen=True, kw_only=True)
class Metal:
    name: str = key(text, "name of the metal", label="Metal")
    column: str = key(text, "column of its grades", label="Grade column")
    unit: str = key(choice(*GRADE_UNITS), "unit of the column", label="Unit of grade")
    price: Decimal = key(number(0), "base price; it sets the cut-off", unit="{currency}/{per}")
    selling_cost: Decimal = key(
        number(0),
        "selling cost",
        ZERO,
        "{currency}/{per}",
        is_quiet=lambda it: it.smelter and not it.smelter.is_of_some,
    )
    recovery: Union[Recovery, dict[str, Recovery]] = key(
        by_rock(RECOVERY),
        "recovery, or pairs [head grade, recovery] that rise",
        of_processes="the recoveries",
        in_python=ZERO,
        unit="share",
    )
    tail_grade: ByRock = key(
        by_rock(number(0)),
        "constant tail, lost before the recovery",
        ZERO,
        "{grade}",
        of_processes="the recoveries",
        is_seldom=True,
    )
    prices: tuple[Decimal, ...] = key(
        listed(number(0), "of prices, one a year, such as [8000, 8200]; the last one stays"),
        "prices by year, in cash flow, NPV and schedules; the last one continues",
        (),
        "{currency}/{per}",
        otherwise="`price`",
        label="Prices by year",
    )
    price_per: Optional[str] = new(
        choice(*GRAMS),
        "unit of the metal in prices and selling costs",
        None,
        otherwise="`t`; `g` for grades in g/t",
        label="Unit of price",
    )
    smelter: Optional[Smelter] = new(
        table(Smelter), "[smelter terms](#metalssmelter), in place of `selling_cost`", None
    )

    def sold_by(self, process: str) -> Metal:
        """Returns the metal as a process sells it: by the smelter terms, or at the selling cost if the terms do not apply to the process."""
        return self if self.smelter is None or self.smelter.apply_to(process) else replace(self, smelter=None)

    @property
    def price_unit(self) -> str:
        return self.price_per or self.quantity

    def by_quantity(self, price: Decimal) -> Decimal:
        """Returns a price of the metal for one unit of its quantity (t or g), rounded to twelve decimals if the units differ."""
        if self.price_unit == self.quantity:
            return price
        return (price * GRAMS[self.quantity] / GRAMS[self.price_unit]).quantize(PRICE_PLACES, ROUND_HALF_EVEN)

    @property
    def sign(self) -> str:
        """The grade's unit as it is written: %, g/t or t/t."""
        return GRADE_SIGNS[self.unit]

    @property
    def quantity(self) -> str:
        """The unit in which the metal is counted: t, or g where the grade is in grams a tonne."""
        return METAL_UNITS[self.unit]


@dataclass(frozen=True, kw_only=True)
class Process:
    """One of several ways to treat ore."""

    name: str = key(word, "name of the process", label="Process")
    cost: ByRock = key(by_rock(number(0)), "processing cost", unit="{currency}/t of mill feed")
    recovery: dict[str, Union[Recovery, dict[str, Recovery]]] = key(
        by_name(by_rock(RECOVERY)), "by metal, each as in `[[metals]]`", unit="share"
    )
    capacity: float = key(amount(1), "capacity", unit="t of mill feed/year")
    feed: tuple[FeedGrade, ...] = new(FEED, "limits of the feed in schedules, [below](#limits-of-the-feed)", ())
    accepts: Accepts = new(
        inline(Accepts),
        "blocks by `rock_type`, `domain`, `class` (code or list) and by in-situ grade `{ min = .., max = .. }`",
        Accepts(),
        otherwise="all",
    )

    def __post_init__(self) -> None:
        object.__setattr__(self, "feed", tuple(replace(it, process=self.name) for it in self.feed))


@dataclass(frozen=True, kw_only=True)
class Economics:
    """Costs, and what of a block reaches the mill."""

    currency: str = key(line, "name of the currency", "USD")
    mining_cost: ByRock = key(by_rock(number(0)), "mining cost", unit="{currency}/t mined")
    mining_cost_per_bench: Decimal = key(
        number(0),
        "added for each bench below the reference",
        ZERO,
        "{currency}/t mined",
        label="Mining cost added per bench",
        is_quiet=lambda it: it.mining_cost_reference is None,
    )
    mining_cost_reference: Optional[Decimal] = key(
        coordinate,
        "elevation of the reference bench: its toe, or any below its crest; requires `mining_cost_per_bench`",
        None,
        "m",
        otherwise="top bench of the model",
        is_seldom=True,
    )
    mining_cost_by_elevation: tuple[tuple[Decimal, Decimal], ...] = key(
        pairs(number(), number(0), "[elevation, cost a tonne]", "an elevation occurs twice"),
        "pairs [elevation, added cost], in place of these two",
        (),
    )
    processing_cost: ByRock = key(
        by_rock(number(0)), "processing cost", of_processes="the cost", in_python=ZERO, unit="{currency}/t of mill feed"
    )
    decimals: int = key(whole(0, 6), "decimals of the currency", 6, is_seldom=True)
    cutoff: str = key(
        choice(PER_REVENUE_FACTOR, AT_BASE_PRICE),
        "when ore and waste are separated: at each revenue factor, or once at the base price",
        PER_REVENUE_FACTOR,
    )
    mining_recovery: ByCode = key(by_code(SHARE), "share of the ore that reaches the mill", ONE, "share")
    dilution: ByCode = key(by_code(number(0)), "tonnes at zero grade per tonne of ore", ZERO, "t per t of ore")
    royalty: Decimal = key(number(0, below=1, example="0.03 for 3 %"), "royalty", ZERO, "share of gross revenue")
    royalty_per_tonne: Decimal = key(number(0), "royalty per tonne", ZERO, "{currency}/t of mill feed")
    fixed_cost_per_year: Decimal = key(
        number(0),
        "period cost: in cash flow, NPV and schedules, not in block values",
        ZERO,
        "{currency}/year",
        label="Fixed cost",
    )
    capex: tuple[tuple[int, Decimal], ...] = key(
        pairs(whole(1, MOST_YEARS), number(0), "[year, amount]").then(
            lambda it: tuple(sorted(it)), range=f"year 1 to {MOST_YEARS:,}"
        ),
        "pairs [year, amount at its start]; likewise",
        (),
        "{currency}",
    )
    mcaf: Optional[str] = new(text, "column of mining cost adjustment factors", None)
    pcaf: Optional[str] = new(text, "column of processing cost adjustment factors", None)

    @property
    def factor_columns(self) -> tuple[str, ...]:
        """The columns of cost adjustment factors, each once."""
        return tuple(dict.fromkeys(name for name in (self.mcaf, self.pcaf) if name))


@dataclass(frozen=True)
class StraightLine:
    years: Decimal = key(number(above=0), "years of depreciation")


@dataclass(frozen=True)
class CashFlowRules:
    """What the cash flow by line has beyond the money of schedules."""

    discount_rates: tuple[Decimal, ...] = key(
        listed(number(0, 1, example="0.08 for 8 %"), "of rates per year, such as [0.05, 0.08, 0.10]", MOST_RATES)
        .then(lambda it: tuple(sorted(it)), range=f"0 to 1, {MOST_RATES} at most")
        .where(lambda it: len(set(it)) == len(it), "found a rate twice, expected each once"),
        "list of rates next to that of `[shells]`",
        (),
        "share per year",
    )
    closure_cost: Decimal = key(number(0), "closure cost in the last year", Decimal(0), "{currency}", is_quiet=True)
    tax_rate: Decimal = key(
        number(0, below=1, example="0.25 for 25 %"), "tax rate", Decimal(0), "share of taxable income", is_quiet=True
    )
    depreciation_years: Optional[Decimal] = key(
        either(exactly(UNITS_OF_PRODUCTION, DEPRECIATED, None), StraightLine).then(
            lambda it: it and it.years, write=lambda years, _: {"years": years}
        ),
        'of capex: `"units_of_production"` (by mill feed), or `{ years = 8 }` (straight line; above 0)',
        None,
        otherwise='`"units_of_production"`',
        name="depreciation",
    )

"""Ranges of keys, written here by hand: values just within are accepted, values just beyond refused by key."""

import re
from dataclasses import dataclass
from decimal import Decimal
from typing import Any, Callable

import pytest
import tomllib
from conftest import ROOT
from helpers.project_page import entry, several, whole

from pitplan.config.keys import GREATEST, keys_of
from pitplan.config.project import SECTIONS, Project
from pitplan.errors import PlanError

NUMBER = r"-?\d+(?:,\d{3})*(?:\.\d+)?(?:\^\d+)?(?: - 1)?"
# Each form of a range on the page: the least, the greatest, and whether these belong to it.
FORMS = [
    (rf"above ({NUMBER}) and below ({NUMBER})", (False, False)),
    (rf"above ({NUMBER}) to ({NUMBER})", (False, True)),
    (rf"({NUMBER}) to below ({NUMBER})", (True, False)),
    (rf"({NUMBER}) to ({NUMBER})", (True, True)),
    (rf"({NUMBER}) or more()", (True, True)),
    (rf"above ({NUMBER})()", (False, True)),
    (rf"()below ({NUMBER})", (True, False)),
    (rf"()up to ({NUMBER})", (True, True)),
    (rf"()(?:at most )?({NUMBER})(?: at most)?", (True, True)),
]
RANGE = "|".join(re.sub(r"\((?!\?)", "(?:", form) for form, _ in FORMS[:-1]) + f"|{NUMBER} at most|at most {NUMBER}"


def number_of(text):
    """A number of the page: 10,000, 0.5, 10^12 or 2^31 - 1."""
    power = re.fullmatch(r"(\d+)\^(\d+)( - 1)?", text)
    return Decimal(int(power[1]) ** int(power[2]) - bool(power[3]) if power else text.replace(",", ""))


def beside(phrase, step):
    """The numbers of a range that are just within and just beyond its ends."""
    form, closed = next((re.fullmatch(form, phrase), closed) for form, closed in FORMS if re.fullmatch(form, phrase))
    within, beyond = [], []
    for text, belongs, outward in zip(form.groups(), closed, (-step, step)):
        if text:
            end = number_of(text)
            within.append(end if belongs else end - outward)
            beyond.append(end + outward if belongs else end)
    return within, beyond


def test_ends_of_ranges_are_read():
    step = Decimal(1)
    assert beside("above 0 to 100", step) == ([1, 100], [0, 101])
    assert beside("0 to below 360", step) == ([0, 359], [-1, 360])
    assert beside("0 to 2^31 - 1", step) == ([0, 2**31 - 1], [-1, 2**31])
    assert beside("1,000 at most", step) == ([1000], [1001]) and beside("1 or more", step) == ([1], [0])
    assert re.findall(RANGE, "a 0 to 1, up to 1,000 and 20 at most") == ["0 to 1", "up to 1,000", "20 at most"]


def alone(number):
    """The number as a value of TOML."""
    return int(number) if number == int(number) else Decimal(number)


@dataclass(frozen=True)
class Range:
    """A range of the page.

    key      with its section
    phrase   as the page has it, in the row of the key or in the text of its section
    step     how far beyond an end a value is tried
    value    the value of TOML for a number
    without  keys of the section that do not go with it
    prepare  what else the project needs
    """

    key: str
    phrase: str
    step: Any = "0.001"
    value: Callable[[Any], Any] = alone
    without: tuple[str, ...] = ()
    prepare: Callable[[dict], None] = lambda data: None

    @property
    def names(self):
        section, _, key = self.key.rpartition(".")
        return section, key

    def project(self, number):
        """The project with a number of the range."""
        section, key = self.names
        data = tomllib.loads(several() if section.startswith("processes") else whole(), parse_float=Decimal)
        self.prepare(data)
        part = entry(data, section)
        for other in self.without:
            part.pop(other, None)
        part[key] = self.value(number)
        return Project.from_dict(data, ROOT)


def many(first, step="0.001"):
    """The value of a list for its length."""
    return lambda count: [Decimal(first) + Decimal(step) * k for k in range(int(count))]


def listed(number):
    return [alone(number)]


def go_on(data):
    """Adds a period, since the last one may have no capacity of 0, and the mining capacity that periods change; no minimum is due."""
    data["periods"].append({"years": 1})
    data["schedule"].pop("minimum")
    data["shells"]["mining_capacity"] = 1000


def bench(height, face_angle):
    return {"height": alone(height), "face_angle": alone(face_angle), "berm_width": 0}


RANGES = [
    Range("table.header_row", "1 to 10,000", 1),
    Range("table.first_row", "2 to 10,000", 1),
    Range("table.filter", "at most 2,000", 1, lambda count: "cu > 0" + " " * (int(count) - 6)),
    Range("grid.size", "above 0", value=lambda number: [alone(number)] * 3),
    Range("grid.tolerance", "0 or more"),
    Range("grid.azimuth", "-360 to 360"),
    Range("economics.mining_recovery", "0 to 1"),
    Range("economics.royalty", "0 to below 1"),
    Range("economics.decimals", "0 to 6", 1),
    Range("economics.capex", "1 to 1,000", 1, lambda year: [[alone(year), 5]]),
    Range("metals.recovery", "0 to 1"),
    Range("metals.recovery", "0 to 1", value=lambda share: {"R": [[0, 0], [1, alone(share)]]}),
    Range("metals.smelter.payable", "above 0 to 1"),
    Range("metals.smelter.moisture", "0 to below 1"),
    Range("metals.smelter.price_participation.share", "0 to below 1"),
    Range("metals.smelter.concentrate_grade", "above 0"),
    Range("metals.smelter.penalties.recovery", "above 0 to 1"),
    Range("metals.smelter.penalties.per", "above 0"),
    Range("processes.capacity", "1 or more"),
    Range("processes.recovery.copper", "0 to 1"),
    Range("processes.feed.rock_type", "0 to 1", value=lambda share: {"R": {"max": alone(share)}}),
    Range("slopes.precedence_benches", "1 to 40", 1),
    Range("slopes.domains.angle", "1 to 90", without=("pattern",)),
    Range("slopes.domains.azimuths", "0 to below 360", value=lambda it: [[alone(it), 45]], without=("pattern",)),
    Range("slopes.domains.azimuths", "1 to 90", value=lambda it: [[0, alone(it)]], without=("pattern",)),
    Range("slopes.domains.bench", "1 to 90", value=lambda it: bench(10, it), without=("pattern",)),
    Range("slopes.domains.bench", "above 0", value=lambda it: bench(it, 70), without=("pattern",)),
    Range("slopes.domains.offsets", "up to 200", 1, lambda far: [[alone(far), 0, 1], [0, -int(far), 1]], ("pattern",)),
    Range("slopes.domains.offsets", "1 to 40", 1, lambda up: [[0, 0, int(up)]], ("pattern",)),
    Range("shells.revenue_factors", "0 to 100", value=lambda it: [alone(it), 0.5]),
    Range("shells.revenue_factors", "1,000 at most", 1, lambda count: [0.5, *many("1")(int(count) - 1)]),
    Range("shells.discount_rate", "0 to 1"),
    Range("shells.processing_capacity", "1 or more"),
    Range("shells.mining_capacity", "1 or more"),
    Range("shells.specified", "0 to 1,000", 1, lambda lag: {"pushbacks": [0.5], "bench_lag": int(lag)}),
    Range("periods.years", "1 to 1,000", 1),
    Range("periods.processing_capacity", "0 or more", prepare=go_on),
    Range("periods.mining_capacity", "0 or more", prepare=go_on),
    Range("haulage.ramp_gradient", "above 0 to 0.5"),
    Range("pushbacks.count", "1 to 100", 1),
    Range("pushbacks.tonnes", "above 0", without=("count",)),
    Range("pushbacks.revenue_factors", "0.001 or more", value=listed, without=("count",)),
    Range("pushbacks.revenue_factors", "100 at most", 1, many("1"), ("count",)),
    Range("pushbacks.ultimate_pit", "0.001 or more"),
    Range("pushbacks.min_mining_width", "above 0"),
    Range("pushbacks.min_bottom_width", "above 0"),
    Range("schedule.processing_capacity", "1 or more"),
    Range("schedule.mining_capacity", "1 or more"),
    Range("schedule.max_metal_per_year", "above 0", value=lambda most: {"copper": alone(most)}),
    Range("schedule.ramp_up", "0 to 1", value=lambda share: [alone(share), 1]),
    Range("schedule.ramp_up", "above 0", value=lambda share: [1, alone(share)]),
    Range("schedule.vertical_advance_rate", "above 0"),
    Range("schedule.bench_lag", "0 to 1,000", 1),
    Range("schedule.years", "1 to 200", 1),
    Range("schedule.milp", "0 to below 1", value=lambda gap: {"gap": alone(gap), "seconds": 5}),
    Range("schedule.milp", "1 to 604,800", 1, lambda seconds: {"gap": 0, "seconds": int(seconds)}),
    Range("schedule.bins", "1 to 50", 1),
    Range("schedule.stockpiles.recovery", "0 to 1", value=lambda share: {"copper": alone(share)}),
    Range("schedule.stockpiles.capacity", "1 or more"),
    Range("cash_flow.discount_rates", "0 to 1", value=listed),
    Range("cash_flow.discount_rates", "20 at most", 1, many("0.1")),
    Range("cash_flow.tax_rate", "0 to below 1"),
    Range("cash_flow.depreciation", "above 0", value=lambda years: {"years": alone(years)}),
    Range("sensitivity.changes", "above -1 to 10", value=listed),
    Range("sensitivity.changes", "20 at most", 1, many("0.1")),
    Range("sensitivity.skin", "above 0 and below 1"),
    Range("sensitivity.largest_increment", "above 0 to 1"),
    Range("sensitivity.hill.values", "2 to 30", 1, many("1")),
    Range("sensitivity.hill.changes", "above -1 to 10", value=lambda it: sorted([alone(it), 1]), without=("values",)),
    Range("price_paths.count", "2 to 10,000", 1),
    Range("price_paths.seed", "0 to 2^31 - 1", 1),
    Range("price_paths.metals.copper.long_term", "above 0 to 10^12"),
    Range("price_paths.metals.copper.speed", "above 0 to 100"),
    Range("price_paths.metals.copper.volatility", "0 to 10"),
    Range("figures.levels", "1 to 7", 1, many("1")),
]


@pytest.mark.parametrize("range_", RANGES, ids=[f"{it.key}: {it.phrase}" for it in RANGES])
def test_values_within_a_range_of_the_page_are_accepted_and_others_refused(range_):
    within, beyond = beside(range_.phrase, Decimal(range_.step))
    for number in within:
        range_.project(number)
    for number in beyond:
        with pytest.raises(PlanError, match=rf"\b{range_.names[1]}\b"):
            range_.project(number)


def declared():
    """The keys of all sections, by section and key."""
    found = {}

    def add(section, record):
        for key, it in keys_of(record).items():
            found[section, key] = it
            if it.kind.record is not None:
                add(f"{section}.{key}", it.kind.record)

    for name, it in SECTIONS.items():
        if it.kind.record is not None:
            add(name, it.kind.record)
    return found


DECLARED = declared()


def test_each_declared_range_is_tested():
    """The phrases of RANGES are written by hand."""
    number = rf"(?:above |below |at most )?{NUMBER}(?: (?:to|and)(?: below)? {NUMBER}| or more| at most)"
    phrase = re.compile(rf"(?:{number}|(?:above|below) {NUMBER})")
    due = {(section, key, it) for (section, key), known in DECLARED.items() for it in phrase.findall(known.kind.range)}
    tested = {(it.key.replace(".copper", ""), it.phrase) for it in RANGES}
    # Of a table on one line the test gives the whole.
    missing = [it for it in due if not {(f"{it[0]}.{it[1]}", it[2]), (it[0], it[2])} & tested]
    assert len(due) > 50 and sorted(missing) == []


def asked():
    """The keys of the projects of the tests, by section and key, each with the text of a project that has the section."""
    found: dict[tuple[str, str], str] = {}
    for text in (whole(), several()):
        data = tomllib.loads(text)
        for section, key in DECLARED:
            held = data
            for part in section.split("."):
                held = held.get(part) if isinstance(held, dict) else None
                held = held[0] if isinstance(held, list) and held else held
            if isinstance(held, dict):
                found.setdefault((section, key), text)
    return found


def accepted(value):
    """The keys that take a value; each other one is refused by its name."""
    taken = []
    for (section, key), text in asked().items():
        data = tomllib.loads(text)
        entry(data, section)[key] = value
        try:
            Project.from_dict(data, ROOT)
            taken.append(f"{section}.{key}")
        except PlanError as error:
            assert key in str(error)
    return sorted(it for it in taken if it.rpartition(".")[2] not in CODES and it not in NOT_NUMBERS)


# Codes, which may be whole numbers, names of layers and columns, and null codes.
CODES = ("rock_type", "domain", "class", "layer")
NOT_NUMBERS = ("scenarios.columns.copper", "table.null_values")


def test_only_coordinates_and_bearings_may_be_negative():
    """Of [economics] mining_cost_reference as well, which this project has no use for; and of lists that the tests above have."""
    assert accepted(-1) == ["figures.east", "figures.north", "grid.azimuth"]


def test_numbers_above_the_greatest_are_refused_by_their_key():
    assert accepted(GREATEST + 1) == []


@pytest.mark.parametrize("number", ["0.0005", "1.0001", "100.001"])
def test_revenue_factors_have_three_decimals_and_are_at_most_100(number):
    for key in ("revenue_factors", "selected"):
        data = tomllib.loads(whole())
        data["shells"][key] = [Decimal(number)] if key == "revenue_factors" else Decimal(number)
        with pytest.raises(PlanError, match=rf"{key}: found {number}, expected"):
            Project.from_dict(data, ROOT)


def test_months_of_periods_are_those_of_the_page():
    assert "1, 2, 3, 4, 6, 12 or a multiple of 12" in DECLARED["periods", "period_months"].meaning
    data = tomllib.loads(several())
    for months in range(1, 40):
        data["periods"] = [{"period_months": months}]
        if months in (1, 2, 3, 4, 6, 12, 24, 36):
            Project.from_dict(data, ROOT)
        else:
            with pytest.raises(PlanError, match=f"period_months: found {months}, expected"):
                Project.from_dict(data, ROOT)


CHOICES = {it: key.kind.options for it, key in DECLARED.items() if key.kind.options}


def test_words_other_than_the_choices_are_refused():
    keys = {it: text for it, text in asked().items() if it in CHOICES}
    assert len(keys) > 8
    for (section, key), text in keys.items():
        data = tomllib.loads(text)
        entry(data, section)[key] = "neither"
        with pytest.raises(PlanError, match=rf'{key}: found "neither", expected one of {CHOICES[section, key][0]}'):
            Project.from_dict(data, ROOT)

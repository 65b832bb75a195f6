"""Reads the text of a project.toml as dictionaries by the names of its keys: numbers as decimals or floats, defaults, and one form of each value."""

from __future__ import annotations

import codecs
import csv
from collections.abc import Callable, Iterator, Mapping
from contextlib import contextmanager
from decimal import Decimal
from pathlib import Path
from typing import Any, Optional

import tomllib

from planaudit.errors import AuditError
from planaudit.inputs.project import Calendar, Project, Section
from planaudit.inputs.row_rules import row_rules_of
from planaudit.revenue_factors import BASE_PRICE, PER_MILLE, nearest


def as_given(value: Any) -> Any:
    return value


def exact(value: Any) -> Decimal:
    """Returns a number of the text. Raises TypeError for another value."""
    if isinstance(value, bool) or not isinstance(value, (int, Decimal)):
        raise TypeError(f"{value!r} is not a number")
    return Decimal(value)


def real(value: Any) -> float:
    return float(exact(value))


def all_exact(value: Any) -> Any:
    """Returns a number, or lists and dictionaries of numbers, exactly; a list of pairs rises by their first numbers."""
    return each_number(value, exact)


def all_real(value: Any) -> Any:
    """Returns the same in floats."""
    return each_number(value, real)


def each_number(value: Any, form: Callable[[Any], Any]) -> Any:
    if isinstance(value, Mapping):
        return {name: each_number(it, form) for name, it in value.items()}
    if not isinstance(value, list):
        return form(value)
    if not value or not isinstance(value[0], list):
        return tuple(each_number(it, form) for it in value)
    return tuple(sorted((form(one), form(other)) for one, other in value))


def place_of(value: Any) -> tuple[Decimal, Decimal, Decimal]:
    east, north, up = map(exact, value)
    return east, north, up


def three(value: Any) -> tuple[float, float, float]:
    """Returns lengths east, north and up in metres."""
    east, north, up = map(real, value)
    return east, north, up


def texts(value: Any) -> tuple[str, ...]:
    """Returns one code or a list of them as texts."""
    return tuple(map(str, value if isinstance(value, list) else [value]))


def factor(value: Any) -> float:
    return nearest(exact(value))


def factors(value: Any) -> tuple[float, ...]:
    """Returns revenue factors, each once and rising, from a list, or from `from`, `to` and `step`."""
    if not isinstance(value, Mapping):
        return tuple(sorted({factor(it) for it in value}))
    first, last, step = (round(exact(value[key]) * PER_MILLE) for key in ("from", "to", "step"))
    return tuple(it / PER_MILLE for it in range(first, last + 1, step))


def encoding(name: str) -> str:
    """Returns an encoding as Python names it; of UTF-8 the one that passes over a byte-order mark."""
    known = codecs.lookup(name).name
    return "utf-8-sig" if known == "utf-8" else known


def depreciation(value: Any) -> Optional[Decimal]:
    """Returns the years of depreciation in even amounts; None by units of production."""
    return exact(value["years"]) if isinstance(value, Mapping) else None


def rising(value: Any) -> tuple[Decimal, ...]:
    return tuple(sorted(map(exact, value)))


def counts(value: Any) -> tuple[int, int, int]:
    east, north, up = map(int, value)
    return east, north, up


def offsets(value: Any) -> tuple[tuple[int, int, int], ...]:
    """Returns blocks east, north and up, each once and sorted."""
    return tuple(sorted({(east, north, up) for east, north, up in value}))


def named(value: Any) -> Any:
    """Returns a list of names, or one word for all."""
    return tuple(value) if isinstance(value, list) else value


def by_metal(value: Any) -> dict[str, tuple[str, ...]]:
    """Returns one column or several for each metal."""
    return {metal: texts(names) for metal, names in value.items()}


Form = Callable[[Any], Any]
# The keys of `[table]` that name columns with codes.
CODES = ("rock_type", "domain", "class")
# In place of a default: the key must be given.
DUE = object()


def section(name: str, data: Section) -> dict[str, Any]:
    """Returns the values of the keys of a section by `KEYS`, None for a key without value and default.

    Raises
    ------
    KeyError
        If a key without default is missing.
    TypeError
        If a value is no number.
    """
    found = {}
    for form, defaults in KEYS[name].items():
        for key, default in defaults.items():
            value = data[key] if default is DUE else data.get(key, default)
            found[key] = None if value is None else form(value)
    return found


def of(name: str) -> Form:
    return lambda value: section(name, value)


def each(name: str) -> Form:
    return lambda values: tuple(section(name, it) for it in values)


def by_name(name: str) -> Form:
    return lambda values: {key: section(name, it) for key, it in values.items()}


def keys(names: str, default: Any = None) -> dict[str, Any]:
    return dict.fromkeys(names.split(), default)


def missing_blocks(value: Any) -> Any:
    return section("missing_blocks", value) if isinstance(value, Mapping) else value


def reblock(value: Any) -> dict[str, Any]:
    """Returns rows per block east, north and up as `counts`, or `size` and `corner` of blocks in metres; all None for the sizes of parents."""
    sides = {} if value == "parents" else value if isinstance(value, Mapping) else {"counts": value}
    return section("reblock", sides)


def domain_of(data: Section) -> dict[str, Any]:
    """Returns an entry of `[[slopes.domains]]`, with pairs of azimuth and angle in degrees as `angles`."""
    angles = data["azimuths"] if "azimuths" in data else [[0, data["angle"]]] if "angle" in data else []
    return section("slopes.domains", data) | {"angles": all_real(angles)}


def domains(values: list[Section]) -> tuple[dict[str, Any], ...]:
    return tuple(map(domain_of, values))


def accepts(data: Section) -> dict[str, Any]:
    """Returns codes, any if none exist, and ranges of in-situ grades, both limits included."""
    ranges = sides(others(data, CODES))
    return section("accepts", data) | {"grades": tuple({"column": name} | it for name, it in ranges.items())}


def opening(data: Section) -> dict[str, Any]:
    """Returns tonnes of feed, codes and mean grades by column of what lies on a stockpile at the start."""
    return section("opening", data) | {"grades": all_real(others(data, ("tonnes", *CODES)))}


def others(data: Section, known: tuple[str, ...]) -> dict[str, Any]:
    return {name: value for name, value in data.items() if name not in known}


def sides(data: Section) -> dict[str, Any]:
    return {name: section("sides", it) for name, it in data.items()}


def feed_of(data: Section, process: str) -> tuple[dict[str, Any], ...]:
    """Returns limits on the grades of columns, and on the shares of codes by the keys of these in [table]; the process is "" if none is named."""
    found = []
    for column, limits in data.items():
        by_code = limits if column in CODES else {None: limits}
        for code, it in by_code.items():
            found.append({"process": process, "column": column, "code": code} | section("sides", it))
    return tuple(found)


def feeds_of(data: Section) -> tuple[dict[str, Any], ...]:
    """Returns limits by column, or by process and column."""
    found: list[dict[str, Any]] = []
    for name, value in data.items():
        by_process = name not in CODES and all(isinstance(it, Mapping) for it in value.values())
        found += feed_of(value, name) if by_process else feed_of({name: value}, "")
    return tuple(found)


# By section the form of the value of each key, and the defaults as a project would give them.
KEYS: dict[str, dict[Form, dict[str, Any]]] = {
    "table": {
        as_given: keys("file", DUE)
        | {"x": "x", "y": "y", "z": "z", "tonnes": "tonnes", "empty": "refuse"}
        | keys("density volume id rock_type domain class separator decimal header_row first_row topography"),
        encoding: keys("encoding"),
        missing_blocks: {"missing_blocks": "refuse"},
        reblock: keys("reblock"),
    },
    "missing_blocks": {real: keys("tonnes", DUE), as_given: keys("rock_type domain class", "")},
    "reblock": {counts: keys("counts"), three: keys("size corner")},
    "survey": {as_given: keys("file", DUE) | keys("height"), texts: keys("layer", [])},
    "grid": {three: keys("size"), real: {"azimuth": None, "tolerance": Decimal("0.01")}},
    "economics": {
        all_exact: {"mining_cost": DUE, "processing_cost": 0, "mining_recovery": 1, "dilution": 0}
        | keys("mining_cost_by_elevation capex", []),
        exact: keys("mining_cost_per_bench royalty royalty_per_tonne fixed_cost_per_year", 0)
        | keys("mining_cost_reference"),
        int: {"decimals": 6},
        as_given: {"cutoff": "per_revenue_factor"} | keys("mcaf pcaf"),
    },
    "metals": {
        as_given: keys("name column unit", DUE) | keys("price_per"),
        exact: {"price": DUE, "selling_cost": 0},
        all_exact: {"recovery": 0, "tail_grade": 0, "prices": []},
        of("smelter"): keys("smelter"),
    },
    "smelter": {
        exact: keys("payable", 1)
        | keys("minimum_deduction treatment_charge refining_charge moisture freight", 0)
        | keys("concentrate_grade"),
        of("price_participation"): keys("price_participation"),
        each("penalties"): keys("penalties", []),
        named: keys("processes", ""),
    },
    "price_participation": {exact: keys("base share", DUE), as_given: {"applies": "both"}},
    "penalties": {as_given: keys("column", DUE), all_exact: keys("steps", DUE), exact: keys("recovery per", 1)},
    "processes": {
        as_given: keys("name", DUE),
        all_exact: keys("cost recovery", DUE),
        real: keys("capacity", DUE),
        accepts: keys("accepts", {}),
    },
    "accepts": {texts: keys("rock_type domain class", [])},
    "sides": {real: keys("min max")},
    "dumps": {as_given: keys("name", DUE), real: keys("cost", 0) | keys("capacity"), accepts: keys("accepts", {})},
    "slopes": {as_given: keys("precedence_benches"), domains: keys("domains", DUE)},
    "slopes.domains": {
        texts: keys("domain"),
        as_given: {"azimuth_of": "wall"} | keys("pattern"),
        offsets: keys("offsets", []),
        of("bench"): keys("bench"),
    },
    "bench": {real: keys("height face_angle berm_width", DUE)},
    "shells": {
        factors: keys("revenue_factors", DUE),
        factor: keys("selected"),
        real: keys("discount_rate", DUE) | keys("mining_capacity"),
        as_given: {"discounting": "end_of_year"},
        of("specified"): keys("specified"),
    },
    "specified": {factors: keys("pushbacks", DUE), int: keys("bench_lag", 0)},
    "periods": {
        int: {"period_months": 12},
        real: keys("mining_capacity processing_capacity"),
        all_real: keys("capacity minimum", {}),
        exact: keys("mining_cost_factor processing_cost_factor selling_cost_factor", 1)
        | {"capex": 0, "fixed_cost_per_year": None},
        all_exact: keys("prices", {}),
        feeds_of: keys("feed", {}),
        sides: keys("stockpiles dumps", {}),
    },
    "constraints": {
        as_given: {"topography": "blocks"} | keys("must_mine exclude as_mined"),
        each("areas"): keys("areas", []),
    },
    "areas": {as_given: keys("polygon exclude", DUE)},
    "pushbacks": {
        as_given: keys("count"),
        factors: keys("revenue_factors"),
        factor: keys("ultimate_pit"),
        real: keys("min_mining_width min_bottom_width"),
        all_exact: keys("mining_cost_added", []),
    },
    "schedule": {
        real: keys("processing_capacity mining_capacity vertical_advance_rate"),
        all_real: {"max_metal_per_year": {}, "minimum": {}, "ramp_up": [1]},
        int: keys("bench_lag", 0),
        as_given: keys("years"),
        each("limits"): keys("limits", []),
        each("stockpiles"): keys("stockpiles", []),
    },
    "limits": {
        as_given: keys("column", DUE) | {"name": None, "of": "total", "per_tonne": False},
        real: keys("min max"),
    },
    "stockpiles": {
        as_given: keys("name", "stockpile"),
        real: {"reclaim_cost": DUE, "stacking_cost": 0, "capacity": None},
        all_real: keys("recovery", {}),
        accepts: keys("accepts", {}),
        opening: keys("opening"),
    },
    "opening": {real: keys("tonnes", DUE), str: keys("rock_type domain class", "")},
    "haulage": {
        place_of: keys("pit_exit", DUE),
        exact: keys("ramp_gradient", DUE),
        all_exact: {"cost": DUE, "ex_pit_distance": 0},
    },
    "cash_flow": {
        rising: keys("discount_rates", []),
        exact: keys("closure_cost tax_rate", 0),
        depreciation: keys("depreciation"),
    },
    "scenarios": {as_given: keys("realisations"), by_metal: keys("columns", {}), all_exact: keys("prices", [])},
    "price_paths": {as_given: {"count": 1000, "seed": 1}, by_name("price_paths.metals"): keys("metals", DUE)},
    "price_paths.metals": {exact: keys("long_term speed volatility", DUE)},
}


def entries_of(periods: Any, place: Callable[[str], Path]) -> list[Mapping[str, Any]]:
    """Returns the entries of `[[periods]]`, which may be the name of a CSV file with the keys as columns: `capacity.mill` is a key by name."""
    if not isinstance(periods, str):
        return list(periods)
    found: list[Mapping[str, Any]] = []
    with open(place(periods), encoding="utf-8-sig", newline="") as file:
        for row in csv.DictReader(file):
            entry: dict[str, Any] = {}
            for column, text in row.items():
                key, _, name = column.strip().partition(".")
                if not text.strip():
                    continue
                names = name.split(".") if key in ("feed", "stockpiles", "dumps") else [name] if name else []
                inner, path = entry, [key, *names]
                for step in path[:-1]:
                    inner = inner.setdefault(step, {})
                inner[path[-1]] = Decimal(text)
            found.append(entry)
    return found


Places = Callable[[str], Path]


def parsed(path: Path) -> dict[str, Any]:
    """Returns the sections of a file. Raises AuditError if it is not TOML, and OSError if it cannot be opened."""
    try:
        return tomllib.loads(path.read_text(encoding="utf-8-sig"), parse_float=Decimal)
    except (ValueError, RecursionError) as error:
        raise AuditError(f"{path}: cannot be read as TOML: {error}") from error


def load(path: Path, place: Optional[Places] = None) -> Project:
    """Reads a project. `place` gives the path of a file that it names, by default relative to its folder.

    Raises AuditError and OSError as `parsed`.
    """
    return of_data(parsed(path), place or path.parent.joinpath, str(path))


@contextmanager
def naming(source: str) -> Iterator[None]:
    """Raises AuditError in place of the errors of a value of a wrong type or of a missing key."""
    try:
        yield
    except (LookupError, TypeError, ValueError, ArithmeticError, AttributeError) as error:
        why = f"{type(error).__name__} {error}"
        raise AuditError(
            f"{source}: cannot be read as a project ({why}): correct the project and run it again"
        ) from error


def of_data(data: Section, place: Places, source: str = "project") -> Project:
    """Returns the project of the sections of a TOML text. Raises AuditError, with the source, if one is missing or wrong."""
    with naming(source):
        processes = tuple(map(process_of, data.get("processes", ())))
        entries = entries_of(data.get("periods", []), place)
        return Project(
            table=table_of(data["table"], place),
            grid=section("grid", data.get("grid", {})),
            economics=section("economics", data["economics"]),
            metals=each("metals")(data["metals"]),
            slopes=section("slopes", data["slopes"]),
            shells=shells_of(data["shells"], processes),
            calendar=Calendar(tuple(map(period_of, entries))),
            processes=processes,
            scenarios=scenarios_of(data["scenarios"], place) if "scenarios" in data else None,
            constraints=constraints_of(data["constraints"], place) if "constraints" in data else None,
            pushbacks=section("pushbacks", data["pushbacks"]) if "pushbacks" in data else None,
            schedule=schedule_of(data["schedule"]) if "schedule" in data else None,
            haulage=haulage_of(data["haulage"]) if "haulage" in data else None,
            classes={code: str(word) for code, word in data.get("classes", {}).items()},
            cash_flow=section("cash_flow", data.get("cash_flow", {})),
            dumps=each("dumps")(data.get("dumps", ())),
            price_paths=section("price_paths", data["price_paths"]) if "price_paths" in data else None,
        )


def table_of(data: Section, place: Places) -> dict[str, Any]:
    """Returns `[table]`, with the rules of rows as `rules`."""
    found = section("table", data)
    files = {"file": place(found["file"]), "topography": survey_of(found["topography"], place)}
    return found | files | {"rules": row_rules_of(data)}


def survey_of(value: Any, place: Places) -> Optional[dict[str, Any]]:
    """Returns a survey file with its layers and the field with heights; None without one."""
    if value is None:
        return None
    found = section("survey", {"file": value} if isinstance(value, str) else value)
    return found | {"file": place(found["file"])}


def process_of(data: Section) -> dict[str, Any]:
    found = section("processes", data)
    return found | {"feed": feed_of(data.get("feed", {}), found["name"])}


def shells_of(data: Section, processes: tuple[Section, ...]) -> dict[str, Any]:
    """Returns `[shells]` with the capacity of all processes; the base price is always among the revenue factors."""
    found, capacity = section("shells", data), sum(it["capacity"] for it in processes)
    prices = tuple(sorted({*found["revenue_factors"], BASE_PRICE}))
    return found | {"revenue_factors": prices, "processing_capacity": capacity or real(data["processing_capacity"])}


def period_of(data: Section) -> dict[str, Any]:
    found = section("periods", data)
    return {**found, "years": int(data.get("years", -(-found["period_months"] // 12)))}


def constraints_of(data: Section, place: Places) -> dict[str, Any]:
    """Returns `[constraints]`; without a topography the blocks are the surface."""
    found = section("constraints", data)
    original = None if found["topography"] == "blocks" else found["topography"]
    surveys = {"as_mined": survey_of(found["as_mined"], place), "topography": survey_of(original, place)}
    return (
        found | surveys | {"areas": tuple(it | {"polygon": survey_of(it["polygon"], place)} for it in found["areas"])}
    )


def schedule_of(data: Section) -> dict[str, Any]:
    found = section("schedule", {**data, "stockpiles": [data["stockpile"]]} if "stockpile" in data else data)
    limits = tuple(it | {"name": it["name"] or it["column"]} for it in found["limits"])
    return found | {"limits": limits, "feed": feed_of(data.get("feed", {}), "")}


def haulage_of(data: Section) -> dict[str, Any]:
    """Returns `[haulage]` with cost per tonne and kilometre, and metres beyond the pit exit, of `ore` and `waste`."""
    found = section("haulage", data)
    costs = {key: found.pop(key) for key in ("cost", "ex_pit_distance")}
    for kind in ("ore", "waste"):
        found[kind] = {key: it[kind] if isinstance(it, Mapping) else it for key, it in costs.items()}
    return found


def scenarios_of(data: Section, place: Places) -> dict[str, Any]:
    """Returns a folder of realisations or their columns by metal, and price decks."""
    found = section("scenarios", data)
    folder = None if found["realisations"] is None else place(found["realisations"])
    return found | {"realisations": folder, "prices": found["prices"] or ({},)}

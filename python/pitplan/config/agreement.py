"""Checks between the keys of a project: of one section, and of several."""

from __future__ import annotations

from collections.abc import Callable, Iterable, Iterator, Mapping, Sequence
from dataclasses import dataclass
from decimal import Decimal
from typing import TYPE_CHECKING, Any, Optional

from pitplan.core.revenue_factors import factor_text

from . import toml_text
from .economics import ALL, MOST_YEARS, OF_CONCENTRATE, PURE, ByDomain, Metal, Smelter
from .material import MILL, ORE, PIT, REFUSE, WASTE, Accepts, Opening
from .overrides import assigned, scaled
from .periods import MONTHS, Period
from .schedule import FEED, TOTAL, ScheduleRules
from .shells import MOST_FACTORS, WAYS
from .studies import AXES, EXAMPLE, HillAxis
from .table import CLASS, DOMAIN, PARENTS, ROCK_TYPE, ZERO, MissingRock, TableColumns
from .toml_text import ProjectSource, Section

if TYPE_CHECKING:
    from .project import Project

# Why a factor of the mining cost does not go with haulage.
HAULED = "[haulage] charges ore for its road to the process, which no period changes"
# A slope domain has exactly one of these keys.
OF_SLOPES = ("pattern", "angle", "azimuths", "offsets", "bench")


@dataclass(frozen=True)
class Fault:
    """What is wrong, with the section and the key, and the place in the file, as `metals 2.price`."""

    why: str
    place: str


def wrong(section: str, key: str, why: str) -> Fault:
    return Fault(f"[{section}] {key}: {why}", f"{section}.{key}")


def demand(faults: Iterable[Fault], source: ProjectSource) -> None:
    for fault in faults:
        raise source.error(fault.why, fault.place)


def faults_of(project: Project, data: Mapping[str, Any]) -> Iterator[Fault]:
    """Yields what is wrong between keys that are valid each: within sections first, then between them."""
    for check in (*WITHIN, *BETWEEN):
        yield from check(project, data)


def demand_calendar(periods: Sequence[Period], sections: Sequence[Section]) -> None:
    """Raises PlanError if entries of `[[periods]]` do not fit together; each has its section, of the project or of a table of periods."""
    for period, section in zip(periods, sections):
        if period.years * MONTHS % period.period_months:
            whole = period.period_months // MONTHS
            why = f"found {period.years}, expected a multiple of {whole}, as each period has {whole} years"
            raise section.wrong("years", why)
    last, section = periods[-1], sections[-1]
    years, count = sum(it.years for it in periods), sum(it.count for it in periods)
    if years > MOST_YEARS:
        raise section.wrong("years", f"found {years:,} in all periods, expected {MOST_YEARS:,} at most")
    if count > MOST_YEARS:
        raise section.wrong("period_months", f"found {count:,} periods in all, expected {MOST_YEARS:,} at most")
    closed = [name for name in ("mining_capacity", "processing_capacity") if getattr(last, name) == 0]
    closed += [f"capacity {name}" for name, amount in last.capacity.items() if amount == 0]
    if closed:
        why = "found 0 in the last period, which continues to the end: expected a capacity above 0"
        raise section.wrong(closed[0], why)


def twice(names: Sequence[str]) -> Optional[int]:
    """Returns the number of the first name, from 1, that occurs before it; None if none does."""
    return next((number for number, name in enumerate(names, 1) if name in names[: number - 1]), None)


def unknown_metals(names: Iterable[str], project: Project, where: str, place: str) -> Iterator[Fault]:
    known = [metal.name for metal in project.metals]
    for name in names:
        if name not in known:
            yield Fault(f"{where}: found {name}, expected one of the [[metals]]: {', '.join(known)}", place)


# Within a section.


def of_table(columns: TableColumns, data: Mapping[str, Any]) -> Iterator[Fault]:
    rules = columns.rules
    if columns.header_row and columns.first_row and columns.first_row <= columns.header_row:
        yield wrong("table", "first_row", f"must be below the names, which header_row puts in row {columns.header_row}")
    if rules.cell_size and columns.volume:
        yield wrong("table", "cell_size", "give it or volume, not both: both give the volume of a cell")
    if columns.reblock and columns.reblock.of_parents and not rules.cell_size:
        yield wrong("table", "reblock", f'"{PARENTS}" requires cell_size, which is missing')
    for name in [it for it in rules.mapped if it in rules.calculated]:
        yield wrong("table", "map", f"the column {name} is calculated: map the columns that it is calculated from")
    for name in (columns.x, columns.y, columns.z):
        if rules.nulls.meaning(name, columns.empty) == ZERO != columns.empty:
            why = f'the centroids in {name} may not be read as 0: expected "refuse" or "missing"'
            yield wrong("table", "nulls", why)
    if columns.density and "tonnes" in data.get("table", {}):
        yield wrong("table", "density", "give it or tonnes, not both")
    if columns.volume and not columns.density:
        yield wrong("table", "volume", "is multiplied by a density, which is missing")
    missing = columns.missing_blocks
    for name in (ROCK_TYPE, DOMAIN):
        if isinstance(missing, MissingRock) and bool(missing.by_code[name]) != bool(columns.by_code[name]):
            why = f"needs a {name} if, and only if, [table] {name} names a column"
            yield wrong("table", "missing_blocks", why)


def economics(project: Project, data: Mapping[str, Any]) -> Iterator[Fault]:
    money, has_bench = project.economics, "mining_cost_per_bench" in data["economics"]
    if money.mining_cost_reference is not None and not has_bench:
        yield wrong("economics", "mining_cost_reference", "requires mining_cost_per_bench, which is missing")
    if money.mining_cost_by_elevation and has_bench:
        yield wrong("economics", "mining_cost_by_elevation", "give it or mining_cost_per_bench, not both")


def metals(project: Project, data: Mapping[str, Any]) -> Iterator[Fault]:
    for number, metal in enumerate(project.metals, 1):
        if metal.smelter:
            yield from smelter(metal, metal.smelter, f"metals {number}.smelter")
        yield from sale(metal, f"metals {number}", "selling_cost" in data["metals"][number - 1])
        # A block without revenue at the price as given costs nothing to process.
        if not metal.price and any(metal.prices):
            why = "must be above 0: it sets the cut-off; yearly prices affect only the cash flow"
            yield wrong(f"metals {number}", "price", why)
    if again := twice([metal.name for metal in project.metals]):
        yield Fault("two [[metals]] have one name", f"metals {again}.name")


def smelter(metal: Metal, terms: Smelter, section: str) -> Iterator[Fault]:
    grade, purest = terms.concentrate_grade, PURE[metal.unit]
    precedences = [key for key in OF_CONCENTRATE if getattr(terms, key)]
    if grade is not None and grade > purest:
        yield wrong(
            section, "concentrate_grade", f"found {grade}, expected above 0 and at most {purest:,} ({metal.unit})"
        )
    if grade is None and precedences:
        yield wrong(
            section, "concentrate_grade", f"is missing: {precedences[0]} depends on the grade of the concentrate"
        )
    if grade is not None and terms.minimum_deduction >= grade:
        why = f"found {terms.minimum_deduction}, expected less than concentrate_grade, {grade}"
        yield wrong(section, "minimum_deduction", why)


def sale(metal: Metal, section: str, has_cost: bool) -> Iterator[Fault]:
    """A selling cost goes with smelter terms of some processes, and not with those of all."""
    if metal.smelter is None or metal.smelter.is_of_some == has_cost:
        return
    why = "give it or [metals.smelter], not both: the smelter takes all of the metal, and its terms have all charges"
    missing = "is missing: [metals.smelter] names processes, and the others sell at it"
    yield wrong(section, "selling_cost", missing if metal.smelter.is_of_some else why)


def slopes(project: Project, data: Mapping[str, Any]) -> Iterator[Fault]:
    domains = project.slopes.domains
    for number, (domain, entry) in enumerate(zip(domains, data["slopes"]["domains"]), 1):
        given = [key for key in OF_SLOPES if key in entry]
        if len(given) != 1:
            why = "give exactly one of angle, azimuths, bench, pattern and offsets"
            yield wrong(f"slopes.domains {number}", "angle", why)
        if "azimuth_of" in entry and not domain.azimuths:
            yield wrong(f"slopes.domains {number}", "azimuth_of", "requires azimuths")
    named = [code for domain in domains for code in domain.domains or ()]
    if len(set(named)) < len(named):
        yield wrong("slopes", "domains", "a domain occurs twice")
    if sum(domain.domains is None for domain in domains) > 1:
        yield wrong("slopes", "domains", "more than one entry names no domain")


def shells(project: Project, data: Mapping[str, Any]) -> Iterator[Fault]:
    rules = project.shells
    if len(rules.revenue_factors) > MOST_FACTORS:
        why = f"found {len(rules.revenue_factors):,} with 1.0, expected {MOST_FACTORS:,} at most"
        yield wrong("shells", "revenue_factors", why)
    if rules.selected is not None and rules.selected not in rules.revenue_factors:
        yield wrong("shells", "selected", f"{factor_text(rules.selected)} is not among the revenue_factors")
    for factor in rules.specified.pushbacks if rules.specified else ():
        if factor not in rules.revenue_factors:
            why = f"{factor_text(factor)} is not among the revenue_factors of [shells]: add it"
            yield wrong("shells.specified", "pushbacks", why)


def pushbacks(project: Project, data: Mapping[str, Any]) -> Iterator[Fault]:
    if project.pushbacks is None:
        return
    given = [key for key in WAYS if key in data["pushbacks"]]
    if len(given) != 1:
        yield wrong("pushbacks", given[1] if given else WAYS[0], f"give exactly one of {', '.join(WAYS)}")
    if project.pushbacks.ultimate_pit is not None and given == ["revenue_factors"]:
        yield wrong("pushbacks", "ultimate_pit", "is the last of the revenue_factors: remove it")


def schedule(project: Project, data: Mapping[str, Any]) -> Iterator[Fault]:
    rules = project.schedule
    if rules is None:
        return
    for number, it in enumerate(rules.limits, 1):
        section = f"schedule.limits {number}"
        if it.min is None and it.max is None:
            yield wrong(section, "max", "is missing, and so is min: set one or both")
        if it.min is not None and it.max is not None and it.min > it.max:
            yield wrong(section, "min", f"{it.min:.10g} is above the max of {it.max:.10g}")
    if twice([it.name for it in rules.limits]):
        yield wrong("schedule", "limits", "two have one name")
    if rules.asks_least and rules.years is None:
        yield wrong("schedule", "years", "is missing: the minimum applies to each of these years")
    if number_of := twice([it.name for it in rules.stockpiles]):
        name = rules.stockpiles[number_of - 1].name
        yield wrong("schedule", "stockpiles", f"found {name} twice, expected a name of its own for each")
    for number, pile in enumerate(rules.stockpiles, 1):
        if pile.opening and pile.capacity is not None and pile.opening.tonnes > pile.capacity:
            section = "schedule.stockpile" if "stockpile" in data["schedule"] else f"schedule.stockpiles {number}"
            most = f"expected the capacity of {pile.capacity:.10g} at most"
            yield wrong(section, "opening", f"found {pile.opening.tonnes:.10g} tonnes, {most}")


def scenarios(project: Project, data: Mapping[str, Any]) -> Iterator[Fault]:
    if project.scenarios and (project.scenarios.folder is None) == (not project.scenarios.columns):
        yield wrong("scenarios", "realisations", "give exactly one of realisations, a folder, and columns, by metal")


def hill(project: Project, data: Mapping[str, Any]) -> Iterator[Fault]:
    axes = project.sensitivity.hill if project.sensitivity else ()
    for number, axis in enumerate(axes, 1):
        yield from of_axis(axis, f"sensitivity.hill {number}")
    if axes and len(axes) != AXES:
        yield wrong("sensitivity", "hill", f"found {len(axes)} [[sensitivity.hill]], expected two")
    keys = [name for axis in axes for name in {axis.parameter, *axis.keys}]
    if len(set(keys)) < len(keys):
        yield wrong("sensitivity", "hill", "both axes change the same parameter")


def of_axis(axis: HillAxis, section: str) -> Iterator[Fault]:
    if bool(axis.shares) == bool(axis.of_key):
        why = f"expected either values of a key or changes of a parameter, {EXAMPLE}"
        yield wrong(section, "values", why)
    elif axis.of_key and "." not in axis.parameter:
        why = f'found values of "{axis.parameter}", expected changes, or the path of a key, {EXAMPLE}'
        yield wrong(section, "values", why)
    for key, values in axis.also.items():
        if len(values) != len(axis.values):
            why = f"found {len(values)} values, expected {len(axis.values)} as of the parameter"
            yield wrong(f"{section}.also", key, why)


# Between sections.


def codes(project: Project, data: Mapping[str, Any]) -> Iterator[Fault]:
    """A column of rock types or domains is required if numbers are given by these."""
    money = project.economics
    priced: list[Any] = [money.mining_cost, money.mining_recovery, money.dilution]
    for way in project.by_process:
        priced += [way.economics.processing_cost]
        priced += [share for metal in way.metals for share in (metal.recovery, metal.tail_grade)]
    if project.table.rock_type is None and any(isinstance(price, dict) for price in priced):
        yield wrong("table", "rock_type", "is missing, and prices or recoveries are given by rock type")
    if project.table.domain is None and any(isinstance(price, ByDomain) for price in priced):
        yield wrong("table", "domain", "is missing, and mining recovery or dilution is given by domain")


def shares(project: Project, data: Mapping[str, Any]) -> Iterator[Fault]:
    """Shares of codes in feed need the column of the codes."""
    for it in project.feed_grades:
        if it.code is not None and project.table.by_code[it.column] is None:
            why = f"limits the share of {it.code}, and [table] {it.column} names no column: name it"
            yield Fault(f"feed {it.column}: {why}", f"table.{it.column}")


def resource_classes(project: Project, data: Mapping[str, Any]) -> Iterator[Fault]:
    """Rules of resource classes need their column, and missing blocks may not be of a class that is refused."""
    column, missing = project.table.resource_class, project.table.missing_blocks
    if column is None and project.classes.given:
        yield wrong("table", "class", "is missing, and [classes] has rules: name the column of the classes")
    if not isinstance(missing, MissingRock):
        return
    code = missing.resource_class
    if column is None and code:
        yield wrong("table", "missing_blocks", "has a class, and [table] class names no column")
    if column is not None and missing.tonnes > 0 and project.classes.of(code) == REFUSE:
        why = f'class "{code}" is refused by [classes]: give another class'
        yield wrong("table", "missing_blocks", why)


def volume(project: Project, data: Mapping[str, Any]) -> Iterator[Fault]:
    has_volume = project.table.volume or project.table.rules.cell_size
    if project.table.density and not has_volume and project.grid.size is None:
        why = "is missing, by which a density gives tonnes, unless [table] names a volume or cell_size"
        yield wrong("grid", "size", why)


def ground(project: Project, data: Mapping[str, Any]) -> Iterator[Fault]:
    """An as-mined surface needs one original ground."""
    rules, given = project.constraints, project.table.topography
    if rules and rules.original and not rules.as_mined:
        yield wrong("constraints", "topography", "requires as_mined, whose original ground it is")
    if rules is None or rules.as_mined is None:
        return
    if rules.original and given:
        why = "[table] topography is the original ground already: remove one of them"
        yield wrong("constraints", "topography", why)
    if not rules.original and not given:
        why = "is missing: the mined volume lies between the original ground and the as-mined surface. Give the file of the original ground"
        more = 'if the tonnes of the table are cut by it, or "blocks" if all blocks are whole'
        yield wrong("constraints", "topography", f"{why} {more}")


def accepted(project: Project, accepts: Accepts, where: str, place: str) -> Iterator[Fault]:
    """Codes need the column of the codes, and grades a column that is read."""
    columns = project.table.by_code
    for key, values in accepts.by_code.items():
        if values and columns[key] is None:
            yield Fault(f"{where} accepts: has {key}, and [table] {key} names no column: name it", f"{place}.accepts")
    known = [*(metal.column for metal in project.metals), *project.limited_columns, *project.dump_columns]
    for grade in accepts.grades:
        if grade.name not in known:
            expected = ", ".join(dict.fromkeys([*columns, *known]))
            yield Fault(f"{where} accepts: found {grade.name}, expected one of {expected}", f"{place}.accepts")


def processes(project: Project, data: Mapping[str, Any]) -> Iterator[Fault]:
    """Processes have names of their own and recover metals of the project."""
    if number := twice([it.name for it in project.processes]):
        yield Fault("two [[processes]] have one name", f"processes {number}.name")
    for number, process in enumerate(project.processes, 1):
        where, place = f"[[processes]] {process.name}", f"processes {number}"
        yield from accepted(project, process.accepts, where, place)
        yield from unknown_metals(process.recovery, project, f"{where} recovery", f"{place}.recovery")
    rules = project.schedule
    if project.processes and rules and rules.processing_capacity is not None:
        why = "is of one process: set the capacity of each of the [[processes]]"
        yield Fault(f"[schedule] processing_capacity {why}", "schedule.processing_capacity")
    if project.processes and rules and rules.feed:
        why = "is of one process: set [processes.feed] below each of the [[processes]]"
        yield Fault(f"[schedule.feed] {why}", "schedule.feed")


def smelters(project: Project, data: Mapping[str, Any]) -> Iterator[Fault]:
    """It is clear by which terms a process sells a metal."""
    for number, metal in enumerate(project.metals, 1):
        for why in wrong_processes(metal, metal.smelter, project) if metal.smelter else ():
            yield Fault(f"[metals.smelter] processes of {metal.name}: {why}", f"metals {number}.smelter.processes")


def wrong_processes(metal: Metal, terms: Smelter, project: Project) -> Iterator[str]:
    names = [it.name for it in project.processes]
    recovering = [it.name for it in project.processes if it.recovery.get(metal.name)]
    if not terms.processes:
        if len(recovering) > 1:
            yield (
                f'is missing, and {", ".join(recovering)} recover {metal.name}: give "{ALL}" if the terms apply to each, or name those that '
                f'they apply to, such as ["{recovering[-1]}"], with selling_cost for the others'
            )
        return
    if not names:
        yield "the project names no [[processes]]: remove it"
    if not isinstance(terms.processes, tuple):
        return
    for name in terms.processes:
        if name not in names:
            yield f"found {name}, expected \"{ALL}\" or some of {', '.join(names)}"
        if name not in recovering:
            yield f"found {name}, which does not recover {metal.name}: remove it"
    if len(set(terms.processes)) < len(terms.processes):
        yield "names a process twice"


def sums(project: Project, data: Mapping[str, Any]) -> Iterator[Fault]:
    """Minimums and limits of a year are of what there is, by unambiguous names, and no minimum is above its maximum."""
    rules, names = project.schedule, [process.name for process in project.processes]
    if rules is None:
        return
    shells, metals_named = project.shells, [metal.name for metal in project.metals]
    most = {
        FEED: rules.processing_capacity or shells.processing_capacity,
        TOTAL: rules.mining_capacity or shells.mining_capacity,
    }
    most |= rules.max_metal_per_year | {process.name: process.capacity for process in project.processes}
    several, section = ("is ambiguous: rename the metal or the process", "schedule.minimum")
    for name, least in rules.minimum.items():
        known = (FEED, TOTAL, *metals_named, *names)
        if name not in known:
            yield Fault(f"[{section}]: found {name}, expected one of {', '.join(known)}", f"{section}.{name}")
        if known.count(name) > 1:
            yield Fault(f"[{section}] {name}: {several}", f"{section}.{name}")
        if (limit := most.get(name)) and least > limit:
            yield wrong(section, name, f"{least:.10g} is above the most of a year, {limit:.10g}")
    for number, it in enumerate(rules.limits, 1):
        where, place = f"[schedule.limits] {it.name}", f"schedule.limits {number}.of"
        if it.of not in (FEED, TOTAL, *names):
            expected = f"expected one of {', '.join((TOTAL, FEED, *names))}"
            yield Fault(f"{where}: of: found {it.of}, {expected}", place)
        if (FEED, TOTAL, *names).count(it.of) > 1:
            yield Fault(f"{where}: of {it.of} {several}", place)
    yield from sums_of_parts(project, rules)


def sums_of_parts(project: Project, rules: ScheduleRules) -> Iterator[Fault]:
    """Sums of whole blocks do not go with a topography that cuts these, nor with the means of a column that is put together."""
    columns = (metal.column for metal in project.metals)
    of_a_tonne = (*columns, *project.economics.factor_columns, *project.graded_columns)
    of_a_tonne += (*project.penalty_columns, *project.dump_columns)
    means = {*rules.columns_of(per_tonne=True), *of_a_tonne}
    for number, it in enumerate(rules.limits, 1):
        where, place = f"[schedule.limits] {it.name}", f"schedule.limits {number}"
        if not it.per_tonne and project.table.topography:
            why = "is of whole blocks, and [table] topography cuts some: set per_tonne, or remove one of the two"
            yield Fault(f"{where}: {why}", place)
        if not it.per_tonne and project.table.reblock and it.column in means:
            why = f"{it.column} is also per tonne, and [table] reblock averages it: add a copy of the column"
            yield Fault(f"{where}: {why}", place)


def taken_names(project: Project) -> set[str]:
    """Returns the names of sources and destinations besides stockpiles and dumps."""
    return {PIT, WASTE, *([process.name for process in project.processes] or [MILL])}


def stockpiles(project: Project, data: Mapping[str, Any]) -> Iterator[Fault]:
    """Stockpiles have names of their own and recover metals of the project."""
    for number, pile in enumerate(project.schedule.stockpiles if project.schedule else (), 1):
        where, place = (f"[schedule.stockpiles] {pile.name}", f"schedule.stockpiles {number}")
        if pile.name in taken_names(project):
            yield Fault(f"{where}: is the name of another source or destination: rename it", f"{place}.name")
        yield from unknown_metals(pile.recovery, project, f"{where} recovery", f"{place}.recovery")
        yield from accepted(project, pile.accepts, where, place)
        for why in opening_faults(project, pile.opening) if pile.opening else ():
            yield Fault(f"{where} {why}", f"{place}.opening")


def opening_faults(project: Project, opening: Opening) -> Iterator[str]:
    """Yields what is wrong with a code or a grade by which the ore is valued or limited."""
    yield from opening_codes(project, opening)
    needed, known = needed_columns(project), [*needed_columns(project), *project.limited_columns]
    for column in needed:
        if column not in opening.grades:
            yield f"opening: {column} is missing: give the mean of what lies there, 0 if it has none"
    for column in opening.grades:
        if column not in known:
            yield f"opening: found {column}, expected one of {', '.join(dict.fromkeys(known))}"
    for it in project.schedule.limits if project.schedule else ():
        if it.of != TOTAL and not it.per_tonne:
            why = "sums a column of whole blocks, which lie on no stockpile: set per_tonne, or remove one of them"
            yield f"opening: [[schedule.limits]] {it.name} {why}"


def opening_codes(project: Project, opening: Opening) -> Iterator[str]:
    """Yields codes that are missing, have no column, or are of a class that is no ore."""
    table, columns = project.table, project.table.by_code
    by_domain = any(it.accepts.domain for it in project.processes)
    by_domain = by_domain or any(it.column == DOMAIN and it.code is not None for it in project.feed_grades)
    needed = {ROCK_TYPE: bool(table.rock_type), DOMAIN: by_domain, CLASS: bool(table.resource_class)}
    for key, code in opening.by_code.items():
        if code and columns[key] is None:
            yield f"opening: has {key}, and [table] {key} names no column: remove it"
        if needed[key] and not code:
            yield f"opening: {key} is missing: give the code of what lies there"
    if table.resource_class and project.classes.of(opening.resource_class) != ORE:
        treated = project.classes.of(opening.resource_class)
        why = f'found "{opening.resource_class}", which [classes] treats as {treated}: expected a class that is ore'
        yield f"opening class: {why}"


def needed_columns(project: Project) -> list[str]:
    """Returns the columns that value or limit mill feed: grades of metals and penalised elements, of limits on feed, and of what
    processes accept."""
    limits = project.schedule.limits if project.schedule else ()
    found = [*(metal.column for metal in project.metals), *project.penalty_columns]
    found += [*project.graded_columns] + [it.column for it in limits if it.of != TOTAL]
    found += [it.name for process in project.processes for it in process.accepts.grades]
    return list(dict.fromkeys(found))


def dumps(project: Project, data: Mapping[str, Any]) -> Iterator[Fault]:
    """Dumps have names of their own and accept by columns that are read."""
    names = [it.name for it in project.dumps]
    if number := twice(names):
        yield wrong(f"dumps {number}", "name", f"found {names[number - 1]} twice, expected a name of its own for each")
    taken = taken_names(project) | {it.name for it in (project.schedule.stockpiles if project.schedule else ())}
    for number, dump in enumerate(project.dumps, 1):
        where = f"[[dumps]] {dump.name}"
        if dump.name in taken:
            why = "is the name of another source or destination: rename it"
            yield Fault(f"{where}: {why}", f"dumps {number}.name")
        yield from accepted(project, dump.accepts, where, f"dumps {number}")


def periods(project: Project, data: Mapping[str, Any]) -> Iterator[Fault]:
    """Periods name what there is, and do not set what another section sets by year."""
    entries = project.shells.calendar.periods
    for number, period in enumerate(entries, 1):
        for key, why in (*wrong_with(period, project), *wrong_limits(period, project), *unknown(period, project)):
            yield Fault(f"[[periods]] {number} {key}: {why}", f"periods {number}.{key}")
    for number, period in enumerate(entries, 1):
        yield from minimums(project, number, period)
    yield from lengths(project)


def lengths(project: Project) -> Iterator[Fault]:
    """What is given by year needs periods that are years, and no period lasts beyond the years of a schedule."""
    calendar, rules = project.shells.calendar, project.schedule
    number = next((k for k, it in enumerate(calendar.periods, 1) if it.period_months != MONTHS), 0)
    by_year = {
        "[schedule] ramp_up": bool(rules and rules.ramp_up != (1.0,)),
        "[economics] capex": bool(project.economics.capex),
        **{f"[[metals]] {metal.name} prices": bool(metal.prices) for metal in project.metals},
    }
    for key in [key for key, given in by_year.items() if number and given]:
        months = calendar.periods[number - 1].period_months
        why = f"period_months is {months}, and {key} is by year: give it in [[periods]]"
        yield Fault(f"[[periods]] {number} {why}", f"periods {number}.period_months")
    if rules and rules.years and calendar.within(rules.years) is None:
        ends = calendar.ends(MONTHS * rules.years)
        before, after = ends[ends < rules.years], ends[ends > rules.years]
        expected = " or ".join(f"{end:.10g}" for end in (*before[-1:], *after[:1]) if end.is_integer())
        why = f"found {rules.years}, which end within one of the [[periods]]: expected {expected}"
        yield wrong("schedule", "years", why)


def wrong_with(period: Period, project: Project) -> Iterator[tuple[str, str]]:
    """Yields keys that do not go with the project, and why."""
    rules, named = project.schedule, bool(project.processes)
    if period.capacity and not named:
        yield "capacity", "is of [[processes]], and the project names none: set processing_capacity"
    if period.processing_capacity is not None and named:
        yield "processing_capacity", "is of one process: set the capacity of each, such as capacity = { mill = 12e6 }"
    if period.mining_capacity is not None and project.shells.mining_capacity is None:
        yield "mining_capacity", "[shells] mining_capacity is missing, which other years have: set it"
    if rules and rules.ramp_up != (1.0,) and (period.capacity or period.processing_capacity is not None):
        key = "capacity" if period.capacity else "processing_capacity"
        yield key, "[schedule] ramp_up scales capacities by year too: remove one of them"
    for metal in project.metals:
        if metal.prices and period.prices:
            yield "prices", f"[[metals]] {metal.name} prices are by year too: remove one of them"
    if period.mining_cost_factor is not None and project.haulage:
        yield "mining_cost_factor", f"{HAULED}: remove one of them, or give the costs of all periods in [haulage] cost"
    if period.capex and project.economics.capex:
        yield "capex", "[economics] capex is by year too: remove one of them"
    if period.minimum and (rules is None or rules.years is None):
        yield "minimum", "[schedule] years is missing: the minimum applies to each of these years"


def wrong_limits(period: Period, project: Project) -> Iterator[tuple[str, str]]:
    """Yields limits on head grades, stockpiles and dumps that do not go with the project, and why."""
    rules = project.schedule
    for column in dict.fromkeys(it.column for it in period.feed if not it.process and project.processes):
        such = f"feed = {{ {project.processes[0].name} = {{ {column} = {{ max = 1 }} }} }}"
        yield "feed", f"{column} is of one process: name the process, such as {such}"
    base = {it.key: it for it in project.feed_grades}
    for grade in period.feed:
        other = base.get(grade.key, grade)
        least, most = merged((grade.min, other.min), (grade.max, other.max))
        if least is not None and most is not None and least > most:
            above = f"min {least:.10g} is above max {most:.10g}, with those of the other sections"
            yield "feed", f"{grade.code or grade.column}: {above}"
    capacities = {it.name: it.capacity for it in (rules.stockpiles if rules else ())}
    missing = "[schedule] years is missing: the minimum applies to each of these years"
    for pile in period.stockpiles:
        least, most = merged((pile.min, None), (pile.max, capacities.get(pile.name)))
        if least is not None and most is not None and least > most:
            yield "stockpiles", f"{pile.name}: min {least:.10g} is above the most that may lie there, {most:.10g}"
        if least and (rules is None or rules.years is None):
            yield "stockpiles", f"{pile.name}: {missing}"
    for dump in period.dumps:
        if dump.min and (rules is None or rules.years is None):
            yield "dumps", f"{dump.name}: {missing}"


def merged(*sides: tuple[Optional[float], Optional[float]]) -> tuple[Optional[float], ...]:
    """Returns of each side the value of the period, otherwise that of the other sections."""
    return tuple(other if own is None else own for own, other in sides)


def unknown(period: Period, project: Project) -> Iterator[tuple[str, str]]:
    """Yields the keys with names that the project does not have, and the names that it has."""
    metals_named, names = [metal.name for metal in project.metals], [process.name for process in project.processes]
    piles = project.schedule.stockpiles if project.schedule else ()
    named: dict[str, tuple[list[str], list[str]]] = {
        "capacity": ([*period.capacity], names),
        "prices": ([*period.prices], metals_named),
        "minimum": ([*period.minimum], [FEED, TOTAL, *metals_named, *names]),
        "feed": ([it.process for it in period.feed if it.process], names or ["columns, as there is one process"]),
        "stockpiles": ([it.name for it in period.stockpiles], [it.name for it in piles]),
        "dumps": ([it.name for it in period.dumps], [it.name for it in project.dumps]),
    }
    for key, (values, expected) in named.items():
        for name in values:
            if name not in expected:
                yield key, f"found {name}, expected one of {', '.join(expected)}"


def minimums(project: Project, number: int, period: Period) -> Iterator[Fault]:
    rules, shells = project.schedule, project.shells
    if rules is None:
        return
    feed = period.processing_capacity
    feed = rules.processing_capacity or shells.processing_capacity if feed is None else feed
    total = period.mining_capacity
    total = rules.mining_capacity or shells.mining_capacity if total is None else total
    most: dict[str, Optional[float]] = {
        process.name: period.capacity.get(process.name, process.capacity) for process in project.processes
    }
    most |= {FEED: sum(it for it in most.values() if it is not None) if most else feed, TOTAL: total}
    least = {**{name: amount for name, amount in rules.minimum.items() if name in most}, **period.minimum}
    for name, amount in least.items():
        limit = most.get(name, rules.max_metal_per_year.get(name))
        if limit is not None and amount > limit:
            why = f"{amount:.10g} is above the maximum of the period, {limit:.10g}: lower it"
            yield Fault(f"[[periods]] {number} minimum {name}: {why}", f"periods {number}.minimum")


def named_metals(project: Project, data: Mapping[str, Any]) -> Iterator[Fault]:
    """Limits of metals and scenarios are of metals of the project."""
    rules, names = project.schedule, [metal.name for metal in project.metals]
    most = rules.max_metal_per_year if rules else {}
    yield from unknown_metals(most, project, "[schedule] max_metal_per_year", "schedule.max_metal_per_year")
    if project.figures and project.figures.metal not in (None, *names):
        yield wrong("figures", "metal", f'found "{project.figures.metal}", expected one of {", ".join(names)}')
    models = project.scenarios
    given = [*models.columns, *(name for prices in models.prices for name in prices)] if models else []
    yield from unknown_metals(given, project, "[scenarios]", "scenarios")


def varied_keys(project: Project, data: Mapping[str, Any]) -> Iterator[Fault]:
    varied = project.sensitivity
    if varied is None:
        return
    pairs = (*varied.pairs, tuple(axis.parameter for axis in varied.hill if axis.is_change))
    names = {*varied.parameters, *(name for pair in pairs for name in pair)}
    if not project.haulage and "haulage" in names:
        yield Fault("[sensitivity] varies haulage, and there is no section [haulage]", "sensitivity")
    paths = sorted(name for name in names if "." in name)
    if paths or varied.hill:
        written = toml_text.parsed(project.to_toml(), str(project.path))
        for path in paths:
            scaled(written, path, Decimal(1), f"{project.path}: [sensitivity]")
        for path, value in (setting for axis in varied.hill for setting in axis.settings(0)):
            assigned(written, path, value, f"{project.path}: [sensitivity.hill]")


def grades_of_files(project: Project, data: Mapping[str, Any]) -> Iterator[Fault]:
    """Realisations in files have grades of whole blocks, so the grades of the table must be as they are written there."""
    rules = project.table.rules
    if project.scenarios is None or project.scenarios.folder is None:
        return
    changed = [metal.column for metal in project.metals if metal.column in rules.calculated]
    if changed or rules.ore_percent:
        why = f"{changed[0]} is calculated" if changed else "[table] ore_percent multiplies the grades"
        more = "and files of realisations have grades of whole blocks: use columns"
        yield wrong("scenarios", "realisations", f"{why}, {more}")


Check = Callable[["Project", Mapping[str, Any]], Iterator[Fault]]
WITHIN: list[Check] = [lambda project, data: of_table(project.table, data), economics, metals, slopes, shells]
WITHIN += [pushbacks, schedule, scenarios, hill]
BETWEEN: list[Check] = [codes, shares, resource_classes, volume, ground, processes, smelters, sums, stockpiles, dumps]
BETWEEN += [periods, named_metals, varied_keys, grades_of_files]

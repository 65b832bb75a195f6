"""The assumptions of a plan, in the words of a reader who knows mines and not the project's file; and a skeleton of JORC Table 1, section 4
(estimation and reporting of ore reserves, JORC Code, 2012 edition): what the run knows, and what is left to the Competent Person."""

from __future__ import annotations

from collections.abc import Iterator, Sequence
from dataclasses import dataclass
from decimal import Decimal
from typing import Any, Optional

from pitplan.config.economics import BOTH, CHARGES, PER_REVENUE_FACTOR, ByDomain, Curve, Metal, Smelter
from pitplan.config.geometry import DIP, SlopeDomain
from pitplan.config.keys import declared
from pitplan.config.material import STOCKPILE, TREATMENTS, FeedGrade
from pitplan.config.periods import MONTHS, Period
from pitplan.config.project import Project
from pitplan.config.shells import IN_WORDS
from pitplan.core.revenue_factors import factor_text

# Keys of sections that topics of their own state.
ROYALTIES, OF_MINING = ("royalty", "royalty_per_tonne"), ("mining_recovery", "dilution")
OF_CAPACITIES = ("processing_capacity", "mining_capacity", "years", "bins")
WORDS = {TREATMENTS[0]: "may be ore", TREATMENTS[1]: "waste", TREATMENTS[2]: "not allowed"}


@dataclass(frozen=True)
class Topic:
    """Assumptions of one kind: pairs of what is assumed and its value with unit."""

    name: str
    rows: tuple[tuple[str, str], ...]


def topics(project: Project, by_block: bool = False) -> list[Topic]:
    """Returns the assumptions of a project by topic; a topic without any is left out, and by block what applies to pushbacks alone."""
    parts = {
        "Prices": prices(project),
        "Costs": costs(project),
        "Recoveries": recoveries(project),
        "Mining": mining(project, by_block),
        "Capacities": capacities(project),
        "Periods": periods(project),
        "Slopes": slopes(project),
        "Resource classes": classes(project),
    }
    found = [Topic(name, tuple(rows)) for name, rows in parts.items()]
    return [topic for topic in found if topic.rows]


def number(value: Any) -> str:
    """Returns a number with thousands, and without zeros at the end."""
    return f"{Decimal(str(value)).normalize():,f}"


def percent(share: Any) -> str:
    return f"{number(100 * Decimal(str(share)))} %"


def by_code(value: Any, text: Any = number) -> str:
    """Returns a number, or those of rock types or domains with their codes."""
    if isinstance(value, ByDomain):
        return ", ".join(f"domain {code}: {text(it)}" for code, it in value.values.items())
    if isinstance(value, dict):
        return ", ".join(f"{code}: {by_code(it, text)}" for code, it in value.items())
    if isinstance(value, Curve):
        return " to ".join(f"{text(share)} at {number(grade)}" for grade, share in (value.points[0], value.points[-1]))
    return str(text(value))


def stated(
    record: Any, project: Project, *, only: Sequence[str] = (), without: Sequence[str] = (), of: Optional[Metal] = None
) -> Iterator[tuple[str, str]]:
    """Yields the numbers of a section, of a metal if it is given, that differ from their defaults, in the words of their keys: all, some only,
    or all but some."""
    for field, key in declared(record.__class__):
        value = getattr(record, field)
        is_asked = field in only if only else field not in without
        is_given = value is not None and value != key.default and not (key.of_processes and project.processes)
        if is_asked and is_given and key.kind.type == "number":
            unit = key.unit_of(project.economics.currency, *([of.price_unit, of.sign] if of else ()))
            amount = by_code(value, percent if unit.startswith("share") else number)
            name = key.label[0].lower() + key.label[1:] + (f" of {of.name}" if of else "")
            yield name, f"{amount} {unit.removeprefix('share')}".replace("  ", " ").strip()


def prices(project: Project) -> Iterator[tuple[str, str]]:
    for metal in project.metals:
        unit = f"{project.economics.currency}/{metal.price_unit}"
        listed = f"; {', '.join(map(number, metal.prices))} by year" if metal.prices else ""
        yield f"price of {metal.name}", f"{number(metal.price)} {unit}{listed}"
        terms = metal.smelter
        if metal.selling_cost or terms and terms.is_of_some:
            others = [it.name for it in project.processes if terms and not terms.apply_to(it.name)]
            yield f"selling cost of {metal.name}", f"{number(metal.selling_cost)} {unit}{of_processes(others)}"
        if terms:
            yield from smelter(metal, terms, project)
    yield from stated(project.economics, project, only=ROYALTIES)
    paths = project.price_paths
    for name, path in paths.metals.items() if paths else ():
        term = f"{number(path.long_term)} in the long run, speed {number(path.speed)} per year"
        yield f"price paths of {name}", f"{term}, volatility {percent(path.volatility)}"
    shells = project.shells
    yield "discount rate", f"{percent(shells.discount_rate)} a year, discounted {IN_WORDS[shells.discounting]}"


def of_processes(names: Sequence[str]) -> str:
    return f", metal of {' and '.join(names)}" if names else ""


def smelter(metal: Metal, terms: Smelter, project: Project) -> Iterator[tuple[str, str]]:
    less = f", minimum deduction {number(terms.minimum_deduction)} {metal.sign}" if terms.minimum_deduction else ""
    some = of_processes(terms.processes) if isinstance(terms.processes, tuple) else ""
    yield f"payable {metal.name}", f"{percent(terms.payable)}{less}{some}"
    if terms.concentrate_grade is not None:
        water = f", {percent(terms.moisture)} moisture" if terms.moisture else ""
        yield f"concentrate of {metal.name}", f"{number(terms.concentrate_grade)} {metal.sign}{water}"
    yield from stated(terms, project, only=CHARGES, of=metal)
    currency = project.economics.currency
    if rule := terms.price_participation:
        where = "of the price above and below" if rule.applies == BOTH else "of the price above"
        yield f"price participation of {metal.name}", f"{percent(rule.share)} {where} {number(rule.base)} {currency}/{metal.price_unit}"
    for penalty in terms.penalties:
        steps = ", ".join(f"{number(charge)} above {number(grade)}" for grade, charge in penalty.steps)
        per = f"{currency}/t of dry concentrate for each {number(penalty.per)} of grade"
        yield f"penalties for {penalty.column}", f"{steps} {per}; {percent(penalty.recovery)} comes into the concentrate"


def costs(project: Project) -> Iterator[tuple[str, str]]:
    money = project.economics
    a_tonne = f"{money.currency}/t"
    yield from stated(money, project, without=(*ROYALTIES, *OF_MINING, "decimals"))
    if by_elevation := money.mining_cost_by_elevation:
        ends = (f"{number(cost)} {a_tonne} more at {number(z)} m" for z, cost in (by_elevation[0], by_elevation[-1]))
        yield "mining cost by elevation", ", ".join(ends)
    if project.haulage:
        for kind, cost in vars(project.haulage.cost).items():
            yield f"haulage of {kind}", f"{number(cost)} {a_tonne} and km, one way"
    for process in project.processes:
        yield f"processing cost of {process.name}", f"{by_code(process.cost)} {a_tonne} of mill feed"
    for name, column in (("mining", money.mcaf), ("processing", money.pcaf)):
        if column:
            yield f"cost adjustment factors ({name})", f"column {column} of the block model"
    if money.capex:
        spent = (f"{number(amount)} {money.currency} at the start of year {year}" for year, amount in money.capex)
        yield "capital", ", ".join(spent)
    yield from stated(project.cash_flow, project)
    if project.cash_flow.tax_rate:
        years = project.cash_flow.depreciation_years
        how = "by units of production" if years is None else f"straight line over {number(years)} years"
        yield "depreciation of capital", f"{how}; losses are carried forward"


def recoveries(project: Project) -> Iterator[tuple[str, str]]:
    def of(metal: Metal, recovery: Any) -> str:
        tail = f", tail grade {by_code(metal.tail_grade)} {metal.sign}" if metal.tail_grade else ""
        return f"{by_code(recovery, percent)}{tail}"

    for metal in project.metals:
        if not project.processes:
            yield metal.name, of(metal, metal.recovery)
        for process in project.processes:
            yield f"{metal.name}, {process.name}", of(metal, process.recovery.get(metal.name, Decimal(0)))


def mining(project: Project, by_block: bool) -> Iterator[tuple[str, str]]:
    yield "mining recovery", by_code(project.economics.mining_recovery, percent)
    yield "dilution", f"{by_code(project.economics.dilution, percent)} at zero grade"
    if not by_block and project.pushbacks:
        yield from stated(project.pushbacks, project, without=("count", "tonnes", "ultimate_pit"))
    if not by_block and project.schedule:
        yield from stated(project.schedule, project, without=OF_CAPACITIES)


def capacities(project: Project) -> Iterator[tuple[str, str]]:
    rules, shells = project.schedule, project.shells
    most = (rules and rules.mining_capacity) or shells.mining_capacity
    yield "mining", "any" if most is None else f"{number(most)} t a year"
    of_one = {"processing": (rules and rules.processing_capacity) or shells.processing_capacity}
    for name, capacity in ({it.name: it.capacity for it in project.processes} or of_one).items():
        yield name, f"{number(capacity)} t a year"
    if rules and rules.ramp_up != (1.0,):
        yield "ramp-up", f"{', '.join(map(percent, rules.ramp_up))} of the processing capacity, by year"
    for grade in project.feed_grades:
        yield head_grade(grade), between(grade.min, grade.max) or "by period"
    for pile in rules.stockpiles if rules else ():
        room = "" if pile.capacity is None else f", {number(pile.capacity)} t"
        lies = "" if pile.opening is None else f", {number(pile.opening.tonnes)} t at the start"
        a_tonne = f"{project.economics.currency}/t"
        stacked = f"stacking {number(pile.stacking_cost)} {a_tonne}, " if pile.stacking_cost else ""
        yield called(pile.name), f"{stacked}reclaim {number(pile.reclaim_cost)} {a_tonne}{room}{lies}"
    for dump in project.dumps:
        room = "" if dump.capacity is None else f", {number(dump.capacity)} t"
        yield f"dump {dump.name}", f"{number(dump.cost)} {project.economics.currency}/t{room}"


def called(stockpile: str) -> str:
    """Returns what a stockpile is called; one that the project does not name is the stockpile."""
    return "stockpile" if stockpile == STOCKPILE else f"stockpile {stockpile}"


def head_grade(grade: FeedGrade) -> str:
    limited = f"head grade {grade.column}" if grade.code is None else f"share of {grade.code} in the feed"
    return f"{limited}{f' of {grade.process}' if grade.process else ''}"


def between(least: Optional[float], most: Optional[float]) -> str:
    """Returns a range in words; "" without limits."""
    return ", ".join(f"{word} {number(it)}" for word, it in (("at least", least), ("at most", most)) if it is not None)


def periods(project: Project) -> Iterator[tuple[str, str]]:
    start = 0
    for entry in project.shells.calendar.periods:
        end = start + entry.years
        last = " and later" if entry is project.shells.calendar.periods[-1] else ""
        changed = "; ".join(of_period(entry, project))
        if changed:
            yield f"year {start + 1}{f' to {end}' if entry.years > 1 else ''}{last}", changed
        start = end


def of_period(entry: Period, project: Project) -> Iterator[str]:
    currency = project.economics.currency
    if entry.period_months != MONTHS:
        yield f"periods of {entry.period_months} months"
    given: dict[str, Optional[float]] = {"mining": entry.mining_capacity, "processing": entry.processing_capacity}
    given |= entry.capacity
    yield from (f"{name} {number(most)} t a year" for name, most in given.items() if most is not None)
    yield from (f"{name} at least {number(least)} a year" for name, least in entry.minimum.items())
    yield from (f"{head_grade(it)} {between(it.min, it.max)}" for it in entry.feed)
    yield from (f"{called(it.name)} {between(it.min, it.max)} t" for it in entry.stockpiles)
    yield from (f"dump {it.name} {between(it.min, it.max)} t a year" for it in entry.dumps)
    yield from (f"{name} {number(price)} {currency}" for name, price in entry.prices.items())
    for name in ("mining", "processing", "selling"):
        factor = getattr(entry, f"{name}_cost_factor")
        yield from () if factor is None else (f"{name} cost times {number(factor)}",)
    if entry.fixed_cost_per_year is not None:
        yield f"fixed costs {number(entry.fixed_cost_per_year)} {currency} a year"
    if entry.capex:
        yield f"capital {number(entry.capex)} {currency}"


def slopes(project: Project) -> Iterator[tuple[str, str]]:
    domains = project.slopes.domains
    for domain in domains:
        others = "all domains" if len(domains) == 1 else "other domains"
        yield f"domain {', '.join(domain.domains)}" if domain.domains else others, angle_of(domain)


def angle_of(domain: SlopeDomain) -> str:
    if domain.bench:
        it = domain.bench
        faces = f"faces of {number(it.face_angle)} degrees, berms of {number(it.berm_width)} m"
        return f"{it.angle:.1f} degrees: benches of {number(it.height)} m, {faces}"
    if domain.angles:
        of = "dip direction" if domain.azimuth_of == DIP else "azimuth of the wall"
        angles = [number(angle) for _, angle in domain.angles]
        if len(domain.angles) == 1:
            return f"{angles[0]} degrees"
        return f"{', '.join(f'{angle} at {number(azimuth)}' for angle, (azimuth, _) in zip(angles, domain.angles))} degrees, by {of}"
    return f"pattern {domain.pattern}" if domain.pattern else "offsets of the planner"


def classes(project: Project) -> Iterator[tuple[str, str]]:
    if project.table.resource_class is None:
        yield "classification", "none: no column of resource classes is given"
        return
    yield "without a rule", "inferred and unclassified material is waste, other classes may be ore"
    yield from ((f"class {code or 'none'}", WORDS[treatment]) for code, treatment in project.classes.given.items())


def selected_shell(project: Project, record: dict[str, Any]) -> str:
    """Returns how the shell of a run, by its record, was selected, in words."""
    selected, rules = record["shells"]["selected"], project.pushbacks
    if "pushbacks" in record and rules and (rules.ultimate_pit is not None or rules.revenue_factors):
        return f"revenue factor {factor_text(selected)}, that of the last pushback, set by the planner"
    if project.shells.selected is not None:
        return f"revenue factor {factor_text(selected)}, set by the planner"
    return f"revenue factor {factor_text(selected)}, the one with the highest NPV of pit-by-pit analysis"


BY_THE_PERSON = "by the Competent Person"


def table_one(project: Project, record: dict[str, Any]) -> list[tuple[str, list[str]]]:
    """Returns the criteria with what the run knows of each; the last line says what is left to the Competent Person."""
    known = {topic.name: topic for topic in topics(project, "by_block" in record)}
    found = dict(of_run(project, record, known))
    return [
        (criterion, [*found.get(criterion, []), f"{left}: {BY_THE_PERSON}"]) for criterion, left in CRITERIA.items()
    ]


CRITERIA = {
    "Mineral Resource estimate for conversion to Ore Reserves": "the resource estimate, and whether resources include reserves",
    "Site visits": "site visits, or why there were none",
    "Study status": "the level of study, at least a pre-feasibility study",
    "Cut-off parameters": "review of the cut-off",
    "Mining factors or assumptions": "mining method, geotechnics, grade control, infrastructure, and how inferred material is used",
    "Metallurgical factors or assumptions": "test work, representativity, and deleterious elements",
    "Environmental": "studies of impacts, waste rock characterisation, and approvals",
    "Infrastructure": "land, power, water, transport, labour and accommodation",
    "Costs": "derivation of capital and operating costs, exchange rates, transport, treatment and refining charges",
    "Revenue factors": "derivation of prices, head grades and exchange rates",
    "Market assessment": "demand, supply, customers and price forecasts",
    "Economic": "inputs of the economic analysis, their source and confidence",
    "Social": "agreements with stakeholders",
    "Other": "natural risks, legal agreements, tenure and approvals",
    "Classification": "basis of proved and probable reserves",
    "Audits or reviews": "audits or reviews of the estimate",
    "Discussion of relative accuracy/confidence": "statement of accuracy and confidence",
}


def of_run(project: Project, record: dict[str, Any], known: dict[str, Topic]) -> Iterator[tuple[str, list[str]]]:
    def lines(*names: str) -> list[str]:
        return [f"{item}: {value}" for name in names if name in known for item, value in known[name].rows]

    model = project.table.file.name
    yield "Mineral Resource estimate for conversion to Ore Reserves", [f"block model {model}", *record["summary"][:1]]
    when = "again at each revenue factor" if project.economics.cutoff == PER_REVENUE_FACTOR else "at the base price"
    yield (
        "Cut-off parameters",
        [
            f"a block is ore if its revenue exceeds the cost of processing and selling it, decided {when}",
            *(["cut-off grades by process and year: cutoffs.csv"] if "tables/cutoffs.csv" in record["files"] else []),
        ],
    )
    shell = selected_shell(project, record)
    yield "Mining factors or assumptions", [f"pit shell: {shell}", *lines("Mining", "Slopes", "Capacities")]
    yield "Metallurgical factors or assumptions", lines("Recoveries")
    yield "Costs", lines("Costs")
    yield "Revenue factors", lines("Prices")
    yield "Economic", ["NPV, sensitivity and cash flow in this report", *lines("Periods")]
    yield "Classification", lines("Resource classes")
    checked = "recomputed by a second implementation" if record["verified"] else "not recomputed in this run"
    yield "Audits or reviews", [
        f"pits are optimal by a machine-checked proof of the solver; other numbers were {checked}"
    ]

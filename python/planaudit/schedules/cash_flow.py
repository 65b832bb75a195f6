"""Verifies cash_flow.csv of a schedule: each line from the blocks, prices and costs, and their sums."""

from __future__ import annotations

from collections.abc import Callable, Iterator
from dataclasses import dataclass, replace
from decimal import Decimal
from functools import cached_property, partial
from typing import SupportsFloat

import numpy as np
import pandas as pd

from planaudit.inputs.answer import Answer
from planaudit.inputs.project import GRADE_UNITS, Project, Section
from planaudit.inputs.tables import read_table
from planaudit.money import haulage, smelter
from planaudit.money.block_values import factors_of, more_for_depth
from planaudit.money.feed import by_code
from planaudit.money.period_costs import PROCESSING, SELLING, factor_in, has_costs, price_in
from planaudit.money.prices import KILOGRAMS
from planaudit.rules import TOLD, Rule, rule
from planaudit.schedules import valuation
from planaudit.schedules.lots import MILL
from planaudit.schedules.material_flow import AMOUNT, PIT, MaterialFlow

FILE = "cash_flow.csv"
# Amounts by column, each of shape (rows,).
Lines = dict[str, np.ndarray]
# The columns of costs besides the royalty.
CHARGES = ("treatment_charge", "refining_charge", "participation", "freight", smelter.PENALTIES)
OF_SELLING = tuple(f"{name}_" for name in (smelter.SELLING, *CHARGES))
COSTS = (*OF_SELLING, "mining_cost_", "processing_cost_")
OTHER_COSTS = ("haulage_cost", "stacking_cost", "reclaim_cost", "dump_cost", "fixed_cost")
# With this many decimals the rounding of block values is no line.
MOST_DECIMALS = 6


@dataclass(frozen=True)
class CashFlow:
    """What each row of flows.csv adds to each line.

    Attributes
    ----------
    flow : MaterialFlow
    """

    flow: MaterialFlow

    @property
    def answer(self) -> Answer:
        return self.flow.answer

    @property
    def project(self) -> Project:
        return self.answer.project

    @cached_property
    def whole(self) -> pd.DataFrame:
        """The costs of the whole lot of each row: mining, depth, haulage and what pushbacks add, and by process processing and haulage; and the
        number of its blocks."""
        answer, blocks, money = self.answer, self.flow.blocks, self.project.economics
        table, at, rules = self.project.table, blocks.inside, self.project.haulage
        roads = haulage.roads_of(answer, rules) if rules else np.zeros(len(answer.rows))
        deeper = np.array([float(more_for_depth(answer, z)) for z in answer.elevations])[answer.cells[0]]
        mined = by_code(money["mining_cost"], answer.rows, table) * factors_of(answer, money["mcaf"])
        found = {
            "mining": mined[at],
            "depth": deeper[at],
            "hauled": haulage.rate(roads, rules["waste"])[at] if rules else 0.0,
        }
        found = {name: rate * blocks.tonnes for name, rate in found.items()} | {"blocks": np.ones(len(at))}
        found["added"] = -blocks.mining_cash - answer.said["mining_cost"].to_numpy()[at]
        for number, way in enumerate(self.project.by_process):
            cost = by_code(way.economics["processing_cost"], answer.rows, table) * factors_of(answer, money["pcaf"])
            more = haulage.rate(roads, rules["ore"], rules["waste"])[at] if rules else 0.0
            feed = blocks.feed * blocks.takes[number]
            found |= {f"processing {number}": cost[at] * feed, f"hauled {number}": more * feed}
            alone = replace(answer, project=way)
            for metal in [metal for metal in way.metals if metal["smelter"] and metal["smelter"]["penalties"]]:
                charged = smelter.penalties(alone, metal)[at] * blocks.takes[number]
                found[f"{smelter.PENALTIES} {metal['name']} {number}"] = charged
        keys = self.flow.keys
        sums = pd.concat([blocks.keys, pd.DataFrame(found)], axis=1).groupby(keys).sum()
        sums = pd.concat([sums, self.of_opening(list(sums))]) if self.flow.opening.given else sums
        return sums.reindex(pd.MultiIndex.from_frame(self.flow.rows[keys])).reset_index(drop=True)

    def of_opening(self, columns: list[str]) -> pd.DataFrame:
        """Returns the costs of what lies on stockpiles at the start: only processing costs anything."""
        lots = self.flow.opening
        found = pd.DataFrame(0.0, index=pd.MultiIndex.from_frame(lots.keys), columns=columns).assign(blocks=1.0)
        for number in range(len(lots.takes)):
            found[f"processing {number}"] = lots.processing(number) * lots.takes[number]
            for metal in lots.project.metals:
                if f"{smelter.PENALTIES} {metal['name']} {number}" in found:
                    charged = lots.penalties(number, metal) * lots.takes[number]
                    found[f"{smelter.PENALTIES} {metal['name']} {number}"] = charged
        return found

    def by_process(self, name: str) -> np.ndarray:
        """Returns an amount of the whole lot in the process of each row; 0 without one."""
        found = np.zeros(len(self.flow.rows))
        for number in range(len(self.flow.blocks.processes)):
            mine = self.flow.process == number
            # A process without smelter terms has no penalties.
            if f"{name} {number}" in self.whole:
                found[mine] = self.whole[f"{name} {number}"].to_numpy()[mine]
        return found

    @cached_property
    def lines(self) -> Lines:
        """What each row adds to each line, for its whole lot."""
        flow, project, whole = self.flow, self.project, self.whole
        from_pit = (flow.rows["source"] == PIT).to_numpy()
        waste, fed = flow.is_waste, flow.process >= 0
        lot, feed = flow.whole, flow.whole["feed_tonnes"].to_numpy()
        found: Lines = {"total_tonnes": from_pit * lot["total_tonnes"], "waste_tonnes": waste * lot["total_tonnes"]}
        found["feed_tonnes"] = fed * feed
        found["royalty"] = fed * feed * float(project.economics["royalty_per_tonne"])
        for number, metal in enumerate(project.metals):
            found[f"contained_{metal['name']}"] = fed * lot[f"contained_{metal['name']}"]
            found[f"recovered_{metal['name']}"] = flow.recovered(metal["name"])
            found |= self.sold(number)
            found["royalty"] = found["royalty"] + found[f"revenue_{metal['name']}"] * float(
                project.economics["royalty"]
            )
        found["mining_cost_ore"] = from_pit * ~waste * whole["mining"]
        found["mining_cost_waste"] = waste * whole["mining"]
        found["mining_cost_depth"], found["mining_cost_added"] = from_pit * whole["depth"], from_pit * whole["added"]
        found["haulage_cost"] = from_pit * whole["hauled"] + self.by_process("hauled")
        dearer = self.dearer("mining_cost")
        for name in ("ore", "waste", "depth", "added"):
            found[f"mining_cost_{name}"] = found[f"mining_cost_{name}"] * dearer
        for number, name in enumerate(flow.blocks.processes):
            of_process = np.where(flow.process == number, self.by_process("processing"), 0.0)
            found[f"processing_cost_{name or MILL}"] = of_process * self.dearer(PROCESSING)
        found["stacking_cost"] = np.where(fed, 0.0, flow.of_stockpile(lambda it: it["stacking_cost"], 0.0)) * feed
        found["dump_cost"] = flow.dumping * lot["total_tonnes"]
        found["reclaim_cost"] = np.where(fed, flow.of_stockpile(lambda it: it["reclaim_cost"], 0.0), 0.0) * feed
        return {name: np.asarray(values) for name, values in found.items()}

    @cached_property
    def years(self) -> tuple[list[int], np.ndarray]:
        """The years of the rows, and the place of each row's year among them."""
        years, place = np.unique(self.flow.rows["year"].to_numpy(), return_inverse=True)
        return [int(year) for year in years], place

    def by_year(self, value: Callable[[int], SupportsFloat]) -> np.ndarray:
        """Returns a value of each row's year."""
        years, place = self.years
        return np.array([float(value(year)) for year in years], dtype=float)[place]

    def at_prices(self, metal: Section, value: Callable[[Decimal], Decimal]) -> np.ndarray:
        """Returns a value at the price of each row's year."""
        return self.by_year(lambda year: value(price_in(self.project, metal, year)))

    def sold(self, number: int) -> Lines:
        """Returns for a metal, by number, its revenue and selling cost, and what a smelter pays for and charges: in the process of each row."""
        found: Lines = {}
        for process, way in enumerate(self.project.by_process):
            recovered = np.where(self.flow.process == process, self.flow.recovered(way.metals[number]["name"]), 0.0)
            for name, values in self.sold_by(way.metals[number], recovered).items():
                found[name] = found.get(name, 0.0) + values
        metal = self.project.metals[number]
        if metal["smelter"] is None:
            found.pop(f"payable_{metal['name']}")
        if metal["smelter"] and metal["smelter"]["penalties"]:
            penalties = self.by_process(f"{smelter.PENALTIES} {metal['name']}")
            found[f"{smelter.PENALTIES}_{metal['name']}"] = penalties * self.dearer(SELLING)
        return found

    def dearer(self, cost: str) -> np.ndarray:
        """Returns the factor of a cost in the year of each row."""
        return self.by_year(lambda year: factor_in(self.project, cost, year))

    def sold_by(self, metal: Section, recovered: np.ndarray) -> Lines:
        """Returns the same for a metal as one process sells it, without penalties."""
        found = {f"revenue_{metal['name']}": recovered * self.at_prices(metal, partial(smelter.paid, metal))}
        found[f"payable_{metal['name']}"] = recovered * float(smelter.paid_share(metal))
        dry = float(smelter.dry_tonnes(metal))
        found |= {f"concentrate_tonnes_{metal['name']}": recovered * dry} if dry else {}
        for name in smelter.charged(metal, metal["price"]):
            line = recovered * self.at_prices(metal, partial(smelter.charged_as, metal, name))
            found[f"{name}_{metal['name']}"] = line if name == smelter.PARTICIPATION else line * self.dearer(SELLING)
        return found

    def of(self, method: str, years: np.ndarray) -> tuple[Lines, Lines]:
        """Returns the lines of a method by year, and their tolerances."""
        mine = (self.flow.rows["method"] == method).to_numpy()
        share, tonnes = self.flow.share[mine], self.flow.whole["total_tonnes"].to_numpy()[mine]
        rounded, year = self.flow.rounded / tonnes, self.flow.rows["year"].to_numpy()[mine]
        lines = {name: by_years(values[mine] * share, year, years) for name, values in self.lines.items()}
        loose = {name: by_years(np.abs(values[mine]) * rounded, year, years) for name, values in self.lines.items()}
        fed = (self.flow.process >= 0)[mine]
        # Half of the last decimal of a mining cost, and of a revenue and a processing cost.
        blocks = self.whole["blocks"].to_numpy()[mine] * share * (0.5 * self.dearer("mining_cost")[mine] + fed)
        loose["rounding"] = by_years(blocks * 10.0 ** -self.project.economics["decimals"], year, years)
        return lines, {name: it + AMOUNT + 1e-9 * np.abs(lines.get(name, 0.0)) for name, it in loose.items()}

    def due(self, name: str) -> bool:
        """Whether a line is written."""
        project, money = self.project, self.project.economics
        added = not self.answer.is_by_block and project.pushbacks and project.pushbacks["mining_cost_added"]
        optional = {
            "mining_cost_depth": money["mining_cost_per_bench"] or money["mining_cost_by_elevation"],
            "haulage_cost": project.haulage,
            "mining_cost_added": added,
            "stacking_cost": self.flow.blocks.stockpiles,
            "reclaim_cost": self.flow.blocks.stockpiles,
            "dump_cost": project.dumps,
        }
        return bool(optional.get(name, True))


def by_years(amounts: np.ndarray, year: np.ndarray, years: np.ndarray) -> np.ndarray:
    """Returns the sums of amounts by their year, of given years; what has no amount, as a share of nothing, counts as 0."""
    there, place = np.unique(year, return_inverse=True)
    sums = dict(zip(there.tolist(), np.bincount(place, np.where(np.isnan(amounts), 0.0, amounts)).tolist()))
    return np.array([sums.get(it, 0.0) for it in years.tolist()], dtype=float)


def prices(project: Project, metal: Section, years: np.ndarray) -> np.ndarray:
    """Returns the price of a metal in given years, in its own unit."""
    return np.array([float(price_in(project, metal, int(year))) for year in years], dtype=float)


def units_of(metal: Section) -> float:
    """Returns how many units of its price a tonne or gram of a metal has."""
    of_quantity = "g" if metal["unit"] == "gram_per_tonne" else "t"
    return float(KILOGRAMS[of_quantity] / KILOGRAMS[metal["price_per"] or of_quantity])


def verify(flow: MaterialFlow, methods: list[str]) -> Rule:
    """Verifies cash_flow.csv and valuation.csv of all methods."""
    answer, found = flow.answer, CashFlow(flow)
    assert answer.years is not None
    said = read_table(answer.folder / "tables" / FILE, ["method"])
    differences = []
    for method in methods:
        mine = said[said["method"] == method].reset_index(drop=True)
        years = answer.years[answer.years["case"] == method].reset_index(drop=True)
        if mine["year"].tolist() != years["year"].tolist():
            differences.append(f"{FILE}: {method}: years {mine['year'].tolist()} for {years['year'].tolist()}")
            continue
        differences += [f"{FILE}: {method}, {text}" for text in unlike(found, method, mine, years)]
    differences += valuation.differences(answer, said, methods)
    holds = "each line of the cash flow follows from the blocks, the lines sum to that of years.csv, and NPVs and returns follow from it"
    return rule("cash flow", holds, differences[:TOLD], len(differences))


def unlike(found: CashFlow, method: str, said: pd.DataFrame, years: pd.DataFrame) -> Iterator[str]:
    """Yields lines of a method that do not follow from the blocks, or whose sum is not the cash flow of years.csv."""
    expected, loose = due_of(found, method, said, years)
    if differing := set(expected) ^ set(said.columns) - {"method", "year"}:
        yield f"columns {sorted(differing)} are missing, or not expected"
        return
    spent = said["capex"] if "capex" in said else 0.0
    if (said["operating_cash_flow"] - spent - said["cash_flow"]).abs().max() > 3 * AMOUNT:
        yield "operating_cash_flow less capex is not cash_flow"
    for name, due in expected.items():
        value, due = said[name].to_numpy(dtype=float), np.asarray(due, dtype=float)
        slack = np.broadcast_to(loose.get(name, 2e-6), len(said)) + 1e-8 * np.abs(due)
        off = (np.abs(value - due) > slack) | (np.isnan(value) != ~np.isfinite(due))
        yield from (f"year {said['year'][k]}: {name} {value[k]:.10g} for {due[k]:.10g}" for k in np.flatnonzero(off))


def due_of(found: CashFlow, method: str, said: pd.DataFrame, years: pd.DataFrame) -> tuple[Lines, Lines]:
    """Returns the columns of a method, and their tolerances: lines from the blocks, and sums, ratios and tax from the written lines."""
    project = found.project
    lines, slack = found.of(method, years["year"].to_numpy())
    expected = {name: line for name, line in lines.items() if found.due(name)}
    loose = {name: slack[name] for name in expected}
    taken = ["cash_flow", "discounted_cash_flow", *(["fixed_cost", "capex"] if has_costs(project) else [])]
    expected |= {name: years[name].to_numpy() for name in taken}
    written = {str(name): said[name].to_numpy() for name in said if name != "method"}
    costs = ["royalty", *(name for name in written if name in OTHER_COSTS or name.startswith(COSTS))]
    revenue = [name for name in written if name.startswith("revenue_")]
    earned, bound = total(written, revenue) - total(written, costs), slack["rounding"]
    if project.economics["decimals"] < MOST_DECIMALS:
        expected["rounding"], loose["rounding"] = np.zeros(len(said)), bound
        earned, bound = earned + written["rounding"], np.zeros(len(said))
    expected["operating_cash_flow"] = earned
    loose["operating_cash_flow"] = AMOUNT * (len(costs) + len(revenue) + 3) + bound
    for values, known in zip(ratios(project, written), (expected, loose)):
        known.update(values)
    loose |= dict.fromkeys(valuation.OF_TAX, np.full(len(said), AMOUNT * 4 * len(said)))
    return expected | valuation.taxed(found.answer, said), loose


def total(lines: Lines, names: list[str]) -> np.ndarray:
    """Returns the sum of some lines."""
    return np.sum([lines[name] for name in names] or [np.zeros(len(lines["year"]))], axis=0)


def ratios(project: Project, said: Lines) -> tuple[Lines, Lines]:
    """Returns prices, ratios, grades and unit costs, from the other columns; and their tolerances."""
    first, found = project.metals[0], {}
    mining = [name for name in said if name.startswith("mining_cost_") or name == "haulage_cost"]
    site = [name for name in said if name in OTHER_COSTS or name.startswith(("mining_cost_", "processing_cost_"))]
    selling = [name for name in said if name.startswith(OF_SELLING)]
    credit = total(said, [f"revenue_{metal['name']}" for metal in project.metals[1:]])
    whole, feed, ore = total(said, site), said["feed_tonnes"], said["total_tonnes"] - said["waste_tonnes"]
    parts = {"strip_ratio": (said["waste_tonnes"], ore, 1.0)}
    for metal in project.metals:
        parts[f"head_grade_{metal['name']}"] = (
            said[f"contained_{metal['name']}"],
            feed,
            float(GRADE_UNITS[metal["unit"]]),
        )
        found[f"price_{metal['name']}"] = prices(project, metal, said["year"])
    parts["cost_per_tonne_mined"] = (total(said, mining), said["total_tonnes"], 1.0)
    parts["cost_per_tonne_fed"] = (whole, feed, 1.0)
    c1 = whole + total(said, selling) - credit
    sold = "payable" if first["smelter"] else "recovered"
    parts["c1_cost"] = (c1, said[f"{sold}_{first['name']}"], units_of(first))
    loose = {}
    with np.errstate(divide="ignore", invalid="ignore"):
        for name, (amount, per, unit) in parts.items():
            found[name] = np.asarray(amount / per / unit, dtype=float)
            # All are sums of rounded amounts.
            slack = AMOUNT * (len(site) + len(project.metals) * 7 + 2 * np.abs(amount / per)) / per / unit
            loose[name] = 2e-6 + np.nan_to_num(np.asarray(slack, dtype=float), posinf=0.0)
    return found, loose

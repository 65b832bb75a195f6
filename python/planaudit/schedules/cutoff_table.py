"""Verifies cutoffs.csv of a schedule of pushbacks: each head grade earns what it is to cover."""

from __future__ import annotations

from collections.abc import Iterator
from dataclasses import dataclass
from decimal import Decimal
from typing import Any

import numpy as np
import pandas as pd

from planaudit.inputs.answer import Answer
from planaudit.inputs.matching import own_name
from planaudit.inputs.project import GRADE_UNITS, Project, Section
from planaudit.inputs.tables import read_table
from planaudit.money import ore_costs
from planaudit.money.feed import by_grade, is_by_domain
from planaudit.money.period_costs import BY_TERMS, PROCESSING, SELLING, premiums
from planaudit.money.smelter import net
from planaudit.schedules.lots import MILL, BlockAmounts

FILE = "cutoffs.csv"
# The last decimal place of grades and of money.
GRADE, MONEY = 0.6e-6, 1e-6


@dataclass(frozen=True)
class Material:
    """A tonne of feed of a rock type in the only process of a project; "" without rock types."""

    project: Project
    rock: str

    def of(self, value: Any) -> float:
        """Returns the number of the rock type; nan if numbers are by domain."""
        if is_by_domain(value):
            return np.nan
        return float(value.get(self.rock, Decimal(0)) if isinstance(value, dict) else value)

    def recovery(self, metal: Section) -> Any:
        found = metal["recovery"]
        return found.get(self.rock, Decimal(0)) if isinstance(found, dict) else found

    def share(self, metal: Section, head: float) -> float:
        return float(by_grade(self.recovery(metal), np.array([head]))[0][0])

    def earned(self, metal: Section, head: float, premium: float) -> float:
        """What a head grade of a metal earns per tonne of feed, after royalty and charges, without penalties."""
        price = float(net(metal, metal["price"], self.project.economics["royalty"]))
        recovered = max(head - self.of(metal["tail_grade"]), 0.0) * self.share(metal, head)
        return recovered * float(GRADE_UNITS[metal["unit"]]) * (price + premium)

    @property
    def costs(self) -> dict[str, float]:
        """What the marginal and the break-even grade cover, per tonne of feed."""
        money = self.project.economics
        processing = self.of(money["processing_cost"]) + float(money["royalty_per_tonne"])
        taken = self.of(money["mining_recovery"]) * (1 + self.of(money["dilution"]))
        mining = self.of(money["mining_cost"]) / taken if taken else np.nan
        return {"marginal_grade": processing, "break_even_grade": processing + mining}

    @property
    def metals(self) -> list[Section]:
        """The metals that are recovered at some grade."""
        return [metal for metal in self.project.metals if self.share(metal, 1e12) > 0]


def differences(answer: Answer, feed: pd.DataFrame) -> Iterator[str]:
    """Yields differences of cutoffs.csv; `feed` is feed.csv."""
    table, column = answer.project.table, answer.project.table["rock_type"]
    rock = own_name(column) if column else None
    said = read_table(answer.folder / "tables" / FILE, ["method", "process", "metal", *([rock] if rock else [])])
    codes = said[rock].astype(str) if rock else pd.Series("", index=said.index)
    keys = list(zip(said["method"], said["year"], said["process"], codes))
    blocks = BlockAmounts(answer)
    of_rock = answer.rows[table["rock_type"]].astype(str).to_numpy()[blocks.inside] if column else None
    rocks = {}
    for process, name in enumerate(blocks.processes):
        taken = blocks.takes[process]
        rocks[name or MILL] = sorted(set(of_rock[taken])) if of_rock is not None else [""] * bool(taken.any())
    due = [(row.method, row.year, row.process, code) for row in feed.itertuples() for code in rocks[row.process]]
    if sorted(map(str, keys)) != sorted(map(str, due)):
        yield f"{FILE}: {len(keys)} rows for {len(due)} processes, rock types and years, or others"
        return
    alone = {name or MILL: project for name, project in zip(blocks.processes, answer.project.by_process)}
    of_feed = feed.set_index(["method", "year", "process"])
    for (method, year, process, code), row in zip(keys, said.to_dict("records")):
        for name in ("cutoff", "realised_cutoff"):
            value = float(of_feed.loc[(method, year, process), name])
            if not same(row[name], value, MONEY):
                yield f"{FILE}: {method}, year {year}, {process} {code}: {name} {row[name]:.10g} for {value:.10g}"
        found = unlike(Material(alone[str(process)], code), row)
        yield from (f"{FILE}: {method}, year {year}, {process} {code}: {text}" for text in found)


def unlike(material: Material, row: dict[str, Any]) -> Iterator[str]:
    """Yields differences of the grades of a row."""
    first, cutoff = material.metals[0], float(row["cutoff"])
    if row["metal"] != first["name"]:
        yield f"metal {row['metal']} for {first['name']}"
        return
    more = {
        name.removeprefix("recovered_"): premium
        for name, premium in premiums(material.project, int(row["year"])).items()
    }
    for metal in material.metals:
        of_price = more.get(metal["name"], 0.0) + more.get(f"{BY_TERMS}{metal['name']}", 0.0)
        more[metal["name"]] = of_price + more.get(SELLING, 0.0) * ore_costs.charged(metal)
    saved = more.get(PROCESSING, 0.0) * material.of(material.project.economics["processing_cost"])
    costs = material.costs | {"cutoff_grade": material.costs["marginal_grade"] - saved + cutoff}
    for name, cost in costs.items():
        premium = more.get(first["name"], 0.0) if name == "cutoff_grade" else 0.0
        grade = float(row[name])
        if np.isnan(cost) or np.isnan(grade):
            if not (np.isnan(cost) and np.isnan(grade)) and material.earned(first, 1e12, premium) > 0:
                yield f"{name} {grade:.10g} for a cost of {cost:.10g} per tonne"
            continue
        low, high = (material.earned(first, max(grade + by, 0.0), premium) for by in (-GRADE, GRADE))
        slack = MONEY + 1e-6 * abs(cost)
        if low > max(cost, 0.0) + slack or high < cost - slack:
            yield f"{name} {grade:.10g} earns {material.earned(first, grade, premium):.10g} for a cost of {cost:.10g} per tonne"
    for metal in material.metals if len(material.project.metals) > 1 else []:
        curves = any(not isinstance(material.recovery(it), Decimal) for it in (first, metal))
        worth, unit = (
            material.earned(it, 1e6 + material.of(it["tail_grade"]), more.get(it["name"], 0.0)) for it in (metal, first)
        )
        due, name = np.nan if curves or unit <= 0 else worth / unit, f"equivalent_{metal['name']}"
        if not same(row[name], due, 1e-6 + 1e-6 * abs(due)):
            yield f"{name} {row[name]:.10g} for {due:.10g}"


def same(said: float, due: float, slack: float) -> bool:
    return bool(abs(said - due) <= slack or np.isnan(said) and np.isnan(due))

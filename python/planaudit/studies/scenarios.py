"""Verifies a folder of scenarios from the project, its table, its realisations and the written results.

All results are summed and counted; in a sample of scenarios every pit is verified block by block.
"""

from __future__ import annotations

from contextlib import contextmanager
from dataclasses import dataclass, replace
from decimal import Decimal
from functools import cached_property
from pathlib import Path
from typing import Any, Iterator, Optional

import numpy as np
import pandas as pd

from planaudit.blocks import constraints, missing_blocks, reblocked
from planaudit.errors import AuditError
from planaudit.ground import depletion, slopes
from planaudit.inputs.answer import Answer
from planaudit.inputs.matching import own_columns
from planaudit.inputs.project import Project
from planaudit.inputs.tables import TABLES
from planaudit.money.weighing import weighed
from planaudit.pits import mineralised
from planaudit.revenue_factors import factor_text, factor_texts
from planaudit.rules import TOLD, Rule, rule, unlike
from planaudit.studies import cases
from planaudit.studies.realisations import QUANTILES, SCENARIOS, Scenario, Simulated, Told, read
from planaudit.studies.spreads import spread

# The number of scenarios that are verified block by block.
SAMPLE = 10
# The rules that are verified in each scenario of the sample.
OF_EACH = {
    "slopes": "no block of any shell lacks a block of its slope cone",
    "constraints": "must-mine blocks are in every shell, and excluded blocks in none",
    "shells": "tonnes, grades, metal and cash flow of each shell are the sums over its blocks",
    "values": "the solver's value of each shell equals the sum over its blocks, at the grades and prices of the scenario",
}
AMOUNTS = (
    "blocks",
    "tonnes",
    "feed_tonnes",
    "in_situ_ore_tonnes",
    "waste_tonnes",
    "undiscounted_cash_flow",
    "value_at_revenue_factor",
)


def verify(folder: Path, written: Optional[Path] = None) -> list[Rule]:
    """Verifies scenarios; a rule without differences holds. The tables may be in another folder than the results, `written`.

    Raises AuditError if the folder has no results or tables, or the table or a realisation has changed since.
    """
    with named(folder):
        return Verification(read(folder, written or folder)).rules()


@contextmanager
def named(folder: Path) -> Iterator[None]:
    """Turns errors of a missing part into AuditError with the name of the file."""
    try:
        yield
    except OSError as error:
        raise AuditError(f"{error.filename}: cannot be read: {error.strerror}") from error
    except KeyError as error:
        raise AuditError(
            f"{folder}: not an output folder of pitplan scenarios and pitplan gather: {error} is missing"
        ) from error


@dataclass(frozen=True)
class Verification:
    """A folder that is verified."""

    folder: Simulated

    def rules(self) -> list[Rule]:
        return [*self.of_ground(), self.listed(), *self.sampled(), *self.counted()]

    def of_ground(self) -> list[Rule]:
        """Verifies the common input: blocks, missing blocks, slopes, reblocking, and cuts by a surface."""
        found = [
            check(self.ground) for check in (constraints.verify_places, missing_blocks.verify, slopes.verify_steepness)
        ]
        if self.ground.parts is not None:
            found.append(self.reblocked())
        return [*found, *depletion.verify_cuts(self.ground)]

    def reblocked(self) -> Rule:
        """Verifies that blocks hold the rows that lie in them, and have the means of their grades in sampled scenarios."""
        of_rows = reblocked.verify(replace(self.ground, project=self.ground.project.without_grades))
        differences, count = list(of_rows.differences), of_rows.count
        for scenario in self.sample:
            said, expected = self.folder.solved_grades(scenario), self.folder.grades(scenario.model)
            off = np.argwhere(np.abs(said - expected) > reblocked.GRADE + 1e-12 * np.abs(expected))
            for row, number in off[:TOLD].tolist():
                metal = self.folder.project.metals[number]["name"]
                amounts = f"{metal} {said[row, number]:.10g} for {expected[row, number]:.10g}"
                differences.append(f"{scenario.label}: {self.ground.called(row)}: {amounts}")
            count += len(off)
        holds = f"{of_rows.holds}; in {len(self.sample):,} scenarios all blocks have the means of their rows' grades"
        return rule("reblocked", holds, differences, count)

    @cached_property
    def ground(self) -> Answer:
        """Returns the blocks as results of a plan in which none is mined."""
        folder = self.folder
        said = pd.DataFrame({"id": folder.written["id"].to_numpy(), "revenue_factor": 0})
        rows = folder.rows
        own = own_columns(folder.written, rows, np.arange(len(rows)))
        return Answer(
            folder.folder,
            folder.project,
            rows,
            folder.known,
            said,
            pd.DataFrame(),
            None,
            folder.record,
            folder.factors,
            own=own,
            parts=folder.parts,
        )

    def listed(self) -> Rule:
        """Verifies that every realisation at every price deck is a scenario, and that there are no others."""
        folder, differences = self.folder, []
        own, listed = folder.scenarios, folder.record["scenarios"]
        if len(own) != len(listed):
            differences.append(
                f"scenarios.json lists {len(listed):,} scenarios, and realisations and price decks make {len(own):,}"
            )
        if tuple(folder.record["revenue_factors"]) != folder.factors:
            differences.append(
                f"scenarios.json lists the revenue factors {factor_texts(folder.record['revenue_factors'])}"
            )
        for scenario, entry in zip(own, listed):
            prices = {metal: Decimal(price) for metal, price in entry["prices"].items()}
            if entry["realisation"] != scenario.model.name or prices != scenario.prices:
                differences.append(
                    f"scenarios.json lists {entry['realisation']} at {entry['prices']} for {scenario.label}"
                )
        return rule(
            "scenarios",
            "each realisation at each price deck is a scenario, at the revenue factors of the project",
            differences,
        )

    @cached_property
    def sample(self) -> list[Scenario]:
        """A sample of the solved scenarios, evenly from the first to the last."""
        there = self.folder.answered
        places = np.linspace(0, len(there) - 1, min(len(there), SAMPLE)).round().astype(int)
        return [there[place] for place in np.unique(places)]

    def sampled(self) -> list[Rule]:
        """Verifies slopes, constraints, sums and values of sampled scenarios, by their own grades and prices."""
        found: dict[str, list[Rule]] = {name: [] for name in OF_EACH}
        for scenario in self.sample:
            whole = self.of_scenario(scenario)
            of_scenario = cases.verify(whole, weighed(whole))
            for name, rules in found.items():
                told = tuple(f"{scenario.label}: {difference}" for difference in of_scenario[name].differences)
                rules.append(replace(of_scenario[name], differences=told))
        count = f"in {len(self.sample):,} of {len(self.folder.answered):,} solved scenarios: "
        return [cases.joined(name, count + holds, found[name]) for name, holds in OF_EACH.items()]

    def of_scenario(self, scenario: Scenario) -> Answer:
        """Returns the result of a scenario as that of a plan at its prices and grades, without costs and revenue."""
        folder, told = self.folder, self.folder.answer(scenario)
        factors = np.array([0, *folder.factors])
        said = self.ground.said.assign(revenue_factor=factors[np.clip(told.places, 0, len(folder.factors))])
        return replace(self.in_scenario(scenario), said=said, shells=told.table)

    def in_scenario(self, scenario: Scenario) -> Answer:
        """Returns the blocks with a scenario's grades, at its prices, none of them mined."""
        rows = self.with_grades(self.folder.grades(scenario.model))
        return replace(self.ground, project=self.priced(scenario.prices), rows=rows)

    def priced(self, prices: dict[str, Decimal]) -> Project:
        """Returns the project at a price deck."""
        project = self.folder.project
        metals = tuple({**metal, "price": prices.get(metal["name"], metal["price"])} for metal in project.metals)
        return replace(project, metals=metals)

    def with_grades(self, grades: np.ndarray) -> pd.DataFrame:
        metals = self.folder.project.metals
        return self.folder.rows.assign(**{metal["column"]: grades[:, number] for number, metal in enumerate(metals)})

    def counted(self) -> list[Rule]:
        """Verifies probability.csv, scenarios.csv and quantiles.csv by all results."""
        folder, differences, tables = self.folder, [], []
        held = np.zeros((len(folder.rows), len(folder.factors)), dtype=np.int64)
        for scenario, told in folder.answers():
            inside = in_pits(told, len(folder.factors))
            held += inside
            differences += self.unlike_places(scenario, told, inside)
            tables.append((scenario, told.table))
        differences += [*unlike_rows(folder, tables), *unlike_quantiles(folder, tables)]
        words = f"each is the share of {len(tables):,} results whose pit holds the block"
        return [
            rule("probability", words, *self.unlike_shares(held / max(len(tables), 1))),
            rule(
                "tables",
                "blocks and tonnes of all results add up, and every row of the tables follows from the results",
                differences,
            ),
        ]

    def unlike_places(self, scenario: Scenario, told: Told, inside: np.ndarray) -> list[str]:
        """Returns differences of blocks and tonnes in a result from the blocks that it holds."""
        folder = self.folder
        found = (
            []
            if told.places.max(initial=0) <= len(folder.factors)
            else [f"{scenario.label}: a block has none of the revenue factors"]
        )
        tonnes = self.ground.tonnes
        for name, amounts in (("blocks", inside[tonnes > 0].sum(axis=0)), ("tonnes", tonnes @ inside)):
            said = told.table[name].to_numpy()
            off = np.flatnonzero(~np.isclose(said, amounts, rtol=1e-9, atol=1e-9))
            found += [
                f"{scenario.label}: revenue factor {factor_text(folder.factors[k])}: {name} {said[k]:.10g} for {amounts[k]:.10g}"
                for k in off
            ]
        return found

    def unlike_shares(self, expected: np.ndarray) -> tuple[list[str], int]:
        """Returns the first ten differences of probability.csv at each revenue factor, to six digits, and their number."""
        differences, count = [], 0
        for number, factor in enumerate(self.folder.factors):
            said = self.folder.written[f"probability_{factor_text(factor)}"].to_numpy()
            off = np.flatnonzero(~(np.abs(said - expected[:, number]) <= 1e-6))
            for row in off[:TOLD]:
                differences.append(
                    f"{self.ground.called(row)}: probability_{factor_text(factor)} {said[row]:g} for {expected[row, number]:.6g}"
                )
            count += len(off)
        return differences, count


def in_pits(answer: Told, factors: int) -> np.ndarray:
    """Returns whether the pit of each revenue factor holds each block, shape (blocks, factors)."""
    return (answer.places[:, None] > 0) & (answer.places[:, None] <= np.arange(1, factors + 1))


def unlike_rows(folder: Simulated, tables: list[tuple[Scenario, pd.DataFrame]]) -> list[str]:
    """Returns differences of scenarios.csv from the results."""
    codes = {"realisation": str, "value_at_revenue_factor": str}
    written = pd.read_csv(folder.tables / TABLES / SCENARIOS, dtype=codes, keep_default_na=False, na_values=[""])
    found = []
    for number in sorted({*written["scenario"]} ^ {scenario.number for scenario, _ in tables}):
        found.append(f"{SCENARIOS}: scenario {number} has an answer or rows there, not both: run pitplan gather again")
    for scenario, table in tables:
        rows = written[written["scenario"] == scenario.number].set_index("revenue_factor")
        if rows.index.equals(table.index):
            found += [f"{SCENARIOS}: {scenario.label}, {said}" for said in unlike_row(rows, scenario, table)]
        elif len(rows):
            found.append(f"{SCENARIOS}: {scenario.label} has rows of the revenue factors {factor_texts(rows.index)}")
    return found


def unlike_row(rows: pd.DataFrame, scenario: Scenario, table: pd.DataFrame) -> list[str]:
    expected = table.assign(**{f"price_{metal}": float(price) for metal, price in scenario.prices.items()})
    found = (
        []
        if (rows["realisation"] == scenario.model.name).all()
        else [f"the realisation is {rows['realisation'].iloc[0]}"]
    )
    for name in expected:
        if name == "value_at_revenue_factor":
            off = np.array([Decimal(said) != Decimal(worth) for said, worth in zip(rows[name], expected[name])])
        else:
            off = ~np.isclose(rows[name].to_numpy(), expected[name].to_numpy(), rtol=1e-9, atol=1e-9, equal_nan=True)
        found += [
            f"revenue factor {factor_text(rows.index[k])}: {name} {rows[name].iloc[k]} for {expected[name].iloc[k]}"
            for k in np.flatnonzero(off)
        ]
    return found


def unlike_quantiles(folder: Simulated, tables: list[tuple[Scenario, pd.DataFrame]]) -> list[str]:
    """Returns differences of quantiles.csv from the results, by price deck and revenue factor."""
    written = pd.read_csv(folder.tables / TABLES / QUANTILES)
    sets: dict[tuple[tuple[str, float], ...], list[pd.DataFrame]] = {}
    for scenario, table in tables:
        prices = tuple((f"price_{metal}", float(price)) for metal, price in scenario.prices.items())
        sets.setdefault(prices, []).append(table)
    found = [] if len(written) == len(sets) * len(folder.factors) else [f"{QUANTILES}: has {len(written):,} rows"]
    for prices, group in sets.items():
        of_set = written[
            np.logical_and.reduce(
                [np.isclose(written[name], price) for name, price in prices] or [written["revenue_factor"] > 0]
            )
        ]
        for factor in folder.factors:
            rows = of_set[of_set["revenue_factor"] == factor]
            found += unlike_spread(
                rows,
                [table.loc[factor] for table in group],
                f"{QUANTILES}: revenue factor {factor_text(factor)} of {prices}",
            )
    return found


def unlike_spread(rows: pd.DataFrame, models: list[Any], what: str) -> list[str]:
    if len(rows) != 1 or rows["realisations"].iloc[0] != len(models):
        return [f"{what}: has {len(rows)} rows, and there are {len(models)} realisations"]
    found: list[str] = []
    more = [name for name in models[0].index if name.startswith("recovered_") or name == mineralised.NAME]
    for name in [*AMOUNTS, *more]:
        due = {f"{name}_{word}": amount for word, amount in spread(model[name] for model in models).items()}
        greatest = max(abs(amount) for amount in due.values())
        found += unlike(what, rows.iloc[0], due, lambda _, amount: 1e-9 * (greatest + abs(amount)))
    return found

"""What lies on stockpiles at the start, recomputed from the project: each lot as mill feed of its codes and grades."""

from __future__ import annotations

from dataclasses import dataclass, replace
from decimal import Decimal
from functools import cached_property
from typing import Any

import numpy as np
import pandas as pd

from planaudit.inputs.answer import Answer
from planaudit.inputs.matching import own_name
from planaudit.inputs.project import GRADE_UNITS, Project, Section
from planaudit.money import ore_costs, smelter
from planaudit.money.feed import by_code, recovered
from planaudit.money.period_costs import BY_TERMS, PROCESSING, SELLING
from planaudit.schedules.lots import BlockAmounts

# Lots are of pushback and bin 0. Level and block of that of the first stockpile are FIRST, and fall.
FIRST = -1


@dataclass(frozen=True)
class OpeningLots:
    """The lots of the stockpiles with an opening balance, with the same amounts as `BlockAmounts`.

    Attributes
    ----------
    blocks : BlockAmounts
    """

    blocks: BlockAmounts

    @property
    def answer(self) -> Answer:
        return self.blocks.answer

    @cached_property
    def given(self) -> list[tuple[int, Section, Section]]:
        """The number of each stockpile on which anything lies, and what lies there."""
        piles = enumerate(self.blocks.stockpiles)
        return [(number, it, it["opening"]) for number, it in piles if it["opening"] and it["opening"]["tonnes"] > 0]

    @cached_property
    def project(self) -> Project:
        """The project without mining losses and dilution."""
        undiluted = {"mining_recovery": Decimal(1), "dilution": Decimal(0)}
        return replace(self.answer.project, economics={**self.answer.project.economics, **undiluted})

    @cached_property
    def rows(self) -> pd.DataFrame:
        """The lots as rows of the table."""
        table = self.project.table
        found: list[dict[str, Any]] = []
        for _, _, it in self.given:
            codes = {table[key]: it[key] for key in ("rock_type", "domain", "class") if table[key]}
            found.append({**codes, **it["grades"], table["tonnes"]: it["tonnes"]})
        return pd.DataFrame(found)

    @cached_property
    def feed(self) -> np.ndarray:
        return np.array([it["tonnes"] for _, _, it in self.given])

    @cached_property
    def recovered(self) -> dict[str, np.ndarray]:
        """Recovered metal by metal, before what the stockpile loses, shape (processes, lots)."""
        found = {}
        for number, metal in enumerate(self.project.metals):
            grades = np.stack([recovered(way.metals[number], self.rows, way) for way in self.project.by_process])
            found[metal["name"]] = grades * self.feed * float(GRADE_UNITS[metal["unit"]])
        return found

    @cached_property
    def money(self) -> tuple[np.ndarray, np.ndarray]:
        """Revenue less royalty, and the cost of processing and selling, rounded as block values are, shape (processes, lots)."""
        economics, revenue, cost = self.project.economics, [], []
        for number, way in enumerate(self.project.by_process):
            gained, spent = np.zeros(len(self.feed)), self.processing(number) + self.feed * float(
                economics["royalty_per_tonne"]
            )
            for metal in way.metals:
                amount = self.recovered[metal["name"]][number]
                gained = gained + amount * float(smelter.paid(metal, metal["price"]) * (1 - economics["royalty"]))
                spent = (
                    spent + amount * float(smelter.all_charged(metal, metal["price"])) + self.penalties(number, metal)
                )
            revenue.append(gained)
            cost.append(spent)
        return np.round(np.stack(revenue), economics["decimals"]), np.round(np.stack(cost), economics["decimals"])

    def processing(self, process: int) -> np.ndarray:
        """Returns the cost of processing whole lots, without royalty and selling."""
        way = self.project.by_process[process]
        return self.feed * by_code(way.economics["processing_cost"], self.rows, way.table)

    def selling(self, process: int) -> np.ndarray:
        """Returns what selling the metals of whole lots costs, before what the stockpile loses, without price participation."""
        sold = self.project.by_process[process].metals
        amounts = (
            self.recovered[it["name"]][process] * ore_costs.charged(it) + self.penalties(process, it) for it in sold
        )
        return np.asarray(sum(amounts, np.zeros(len(self.feed))))

    def penalties(self, process: int, metal: Section) -> np.ndarray:
        """Returns what the smelter charges for other elements in whole lots."""
        return smelter.penalties_of(metal, self.recovered[metal["name"]][process], self.rows, self.feed)

    @cached_property
    def takes(self) -> np.ndarray:
        """Whether each lot has a revenue in each process, shape (processes, lots)."""
        return self.money[0] > 0

    @cached_property
    def gain(self) -> np.ndarray:
        """Revenue less processing cost of each lot in each process, before what the stockpile costs, shape (processes, lots)."""
        return (self.money[0] - self.money[1]) * self.takes

    def of_process(self, name: str, process: int) -> np.ndarray:
        """Returns what processing each lot adds to a limited amount."""
        called, taken = self.blocks.processes[process], self.takes[process]
        if name == PROCESSING:
            return self.processing(process) * taken
        if name == SELLING:
            return self.selling(process) * taken
        if name in ("feed_tonnes", f"feed_tonnes_{called}"):
            return self.feed * taken
        if name.startswith("recovered_"):
            return self.recovered[name.removeprefix("recovered_")][process] * taken
        if name.startswith(BY_TERMS):
            sold = {it["name"] for it in self.project.by_process[process].metals if it["smelter"]}
            metal = name.removeprefix(BY_TERMS)
            return self.recovered[metal][process] * taken * (metal in sold)
        for it in self.blocks.sums:
            if name == f"sum_{it['name']}" and it["of"] in ("feed", called):
                return self.rows[it["column"]].to_numpy(dtype=float) * self.feed * taken
        for limit in self.blocks.grades:
            if name == limit.name and limit.process == called:
                content = limit.content(self.rows, self.project, self.feed, self.feed)
                return limit.sign * (content - limit.grade * self.feed) * taken
        return np.zeros(len(self.feed))

    @cached_property
    def keys(self) -> pd.DataFrame:
        """The lot of each, as `BlockAmounts.keys` has those of blocks."""
        levels, table = [FIRST - number for number, _, _ in self.given], self.project.table
        found = {"pushback": 0, "level": levels, "bin": 0, "block": levels}
        codes = [key for key in ("rock_type", "class") if table[key]]
        texts = {own_name(table[key]): [it[key] for _, _, it in self.given] for key in codes}
        return pd.DataFrame(found | texts)[list(self.blocks.keys)]

    @cached_property
    def lots(self) -> pd.DataFrame:
        """The amounts of each lot by its key, with the columns of `BlockAmounts.lots`; no lot without opening balances."""
        blocks = self.blocks.lots
        if not self.given:
            return blocks[:0]
        found = pd.DataFrame(0.0, index=range(len(self.feed)), columns=list(blocks.columns))
        found["total_tonnes"] = found["feed_tonnes"] = self.feed
        for metal in self.project.metals:
            content = self.rows[metal["column"]].to_numpy(dtype=float) * self.feed * float(GRADE_UNITS[metal["unit"]])
            found[f"contained_{metal['name']}"] = found[f"in_situ_{metal['name']}"] = content
        for process in range(len(self.takes)):
            for name, amounts in self.recovered.items():
                found[f"recovered_{name} {process}"] = amounts[process]
            found[f"gain {process}"], found[f"not taken {process}"] = self.gain[process], 1.0 - self.takes[process]
            for name in (*self.blocks.limited, *self.blocks.costs):
                found[f"{name} {process}"] = self.of_process(name, process)
        return found.set_index(pd.MultiIndex.from_frame(self.keys))

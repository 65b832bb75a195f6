"""The material of pushbacks in lots: the blocks of a bench with the same value bin, rock type and resource class."""

from __future__ import annotations

from dataclasses import dataclass
from functools import cached_property

import numpy as np
import pandas as pd

from planaudit.inputs.answer import Answer
from planaudit.inputs.codes import refused
from planaudit.inputs.matching import BIN, PUSHBACK, own_name
from planaudit.inputs.project import GRADE_UNITS, Section
from planaudit.money import ore_costs
from planaudit.money.feed import recovered
from planaudit.money.smelter import net
from planaudit.schedules.grade_limits import GradeLimit, grade_limits

MILL = "mill"


@dataclass(frozen=True)
class BlockAmounts:
    """What each block of the pushbacks adds to amounts by mining, and in each process.

    Attributes
    ----------
    answer : Answer
    """

    answer: Answer

    @cached_property
    def inside(self) -> np.ndarray:
        """The rows of blocks of pushbacks with tonnes."""
        return np.flatnonzero((self.answer.said[PUSHBACK].to_numpy() > 0) & (self.answer.tonnes > 0))

    @property
    def processes(self) -> list[str]:
        """The processes by name; "" if the project names none."""
        return [process["name"] for process in self.answer.project.processes] or [""]

    @cached_property
    def tonnes(self) -> np.ndarray:
        return self.answer.tonnes[self.inside]

    @cached_property
    def mining_cash(self) -> np.ndarray:
        """What mining each block earns, below 0: its mining cost and what its pushback adds."""
        answer, rules = self.answer, self.answer.project.pushbacks
        a_tonne = np.array([0.0, *(map(float, rules["mining_cost_added"]) if rules else ())])
        pushback = np.minimum(answer.said[PUSHBACK].to_numpy()[self.inside], len(a_tonne) - 1)
        added = a_tonne[pushback] if len(a_tonne) > 1 else 0.0
        return -answer.said["mining_cost"].to_numpy()[self.inside] - added * self.tonnes

    @cached_property
    def takes(self) -> np.ndarray:
        """Whether each block has a revenue in each process, shape (processes, blocks)."""
        return np.stack(
            [self.answer.said[revenue].to_numpy()[self.inside] > 0 for revenue, _ in self.answer.amounts_of_ways]
        )

    @property
    def stockpiles(self) -> tuple[Section, ...]:
        rules = self.answer.project.schedule
        return rules["stockpiles"] if rules else ()

    @cached_property
    def refused(self) -> dict[str, np.ndarray]:
        """Whether a stockpile, by name, does not accept each block."""
        answer = self.answer
        return {it["name"]: refused(answer.rows, answer.project, it["accepts"])[self.inside] for it in self.stockpiles}

    @cached_property
    def unaccepted(self) -> dict[str, np.ndarray]:
        """Whether a dump, by name, does not accept each block."""
        answer = self.answer
        return {
            it["name"]: refused(answer.rows, answer.project, it["accepts"])[self.inside] for it in answer.project.dumps
        }

    @cached_property
    def net_prices(self) -> dict[str, np.ndarray]:
        """What a tonne or gram of each metal earns at the base price in each process, less royalty and charges."""
        found: dict[str, list[float]] = {}
        for way in self.answer.project.by_process:
            for metal in way.metals:
                found.setdefault(metal["name"], []).append(float(net(metal, metal["price"], way.economics["royalty"])))
        return {name: np.array(values) for name, values in found.items()}

    @cached_property
    def charges(self) -> dict[str, np.ndarray]:
        """What is charged for a tonne or gram of each metal in each process, at any price."""
        return ore_costs.charges(self.answer)

    @cached_property
    def costs(self) -> dict[str, np.ndarray]:
        """The costs of processing and selling each block that periods multiply, shape (processes, blocks)."""
        return {name: costs[:, self.inside] for name, costs in ore_costs.of_blocks(self.answer).items()}

    @cached_property
    def gain(self) -> np.ndarray:
        """Revenue less processing cost of each block in each process, shape (processes, blocks)."""
        said = self.answer.said
        pairs = self.answer.amounts_of_ways
        return np.stack([(said[revenue] - said[cost]).to_numpy()[self.inside] for revenue, cost in pairs])

    @cached_property
    def feed(self) -> np.ndarray:
        return self.answer.feed[self.inside]

    @cached_property
    def contained(self) -> dict[str, np.ndarray]:
        """Metal in the feed of each block, in tonnes or grams, by metal."""
        answer = self.answer
        return {
            metal["name"]: self.column(metal["column"])
            * answer.undiluted[self.inside]
            * float(GRADE_UNITS[metal["unit"]])
            for metal in answer.project.metals
        }

    @cached_property
    def recovered(self) -> dict[str, np.ndarray]:
        """Recovered metal by metal, shape (processes, blocks)."""
        answer, found = self.answer, {}
        for number, metal in enumerate(answer.project.metals):
            grades = np.stack(
                [recovered(way.metals[number], answer.rows, way)[self.inside] for way in answer.project.by_process]
            )
            found[metal["name"]] = grades * answer.undiluted[self.inside] * float(GRADE_UNITS[metal["unit"]])
        return found

    def column(self, name: str) -> np.ndarray:
        """Returns a column of the table."""
        return np.asarray(self.answer.rows[name].to_numpy()[self.inside], dtype=float)

    def of_mining(self, name: str) -> np.ndarray:
        """Returns what mining each block adds to a limited amount."""
        for it in self.sums:
            if name == f"sum_{it['name']}" and it["of"] == "total":
                return self.column(it["column"]) * (self.tonnes if it["per_tonne"] else 1.0)
        return self.tonnes if name == "total_tonnes" else np.zeros(len(self.inside))

    def of_process(self, name: str, process: int) -> np.ndarray:
        """Returns what processing each block adds to a limited amount."""
        called, undiluted = self.processes[process], self.answer.undiluted[self.inside]
        if name in self.costs:
            return self.costs[name][process]
        if name in ("feed_tonnes", f"feed_tonnes_{called}"):
            return self.feed * self.takes[process]
        if name.startswith("recovered_"):
            return self.recovered[name.removeprefix("recovered_")][process] * self.takes[process]
        for it in self.sums:
            if name == f"sum_{it['name']}" and it["of"] in ("feed", called):
                return self.column(it["column"]) * (undiluted if it["per_tonne"] else 1.0) * self.takes[process]
        for limit in self.grades:
            if name == limit.name and limit.process == called:
                content = limit.content(self.rows, self.answer.project, undiluted, self.feed)
                return limit.sign * (content - limit.grade * self.feed) * self.takes[process]
        return np.zeros(len(self.inside))

    @property
    def sums(self) -> tuple[Section, ...]:
        rules = self.answer.project.schedule
        return rules["limits"] if rules else ()

    @cached_property
    def keys(self) -> pd.DataFrame:
        """The lot of each block, as in flows.csv, with the level of its bench from the top."""
        answer, table = self.answer, self.answer.project.table
        found = {
            "pushback": answer.said[PUSHBACK].to_numpy()[self.inside],
            "level": answer.cells[0][self.inside],
            "bin": answer.said[BIN].to_numpy()[self.inside],
        }
        codes = [name for name in (table["rock_type"], table["class"]) if name]
        return pd.DataFrame(found | {own_name(it): answer.rows[it].astype(str).to_numpy()[self.inside] for it in codes})

    @cached_property
    def lots(self) -> pd.DataFrame:
        """The sums of each lot, by its key: total_tonnes, mining cash, feed, metal in situ and in the feed, and by process recovered metal, gain, whether all
        of its blocks have a revenue there, limited amounts, and costs that periods multiply; and how many blocks each stockpile and dump refuses.
        """
        columns = {"total_tonnes": self.tonnes, "mining_cash": self.mining_cash, "feed_tonnes": self.feed}
        columns |= {f"contained_{name}": amounts for name, amounts in self.contained.items()}
        for metal in self.answer.project.metals:
            content = self.column(metal["column"]) * float(GRADE_UNITS[metal["unit"]])
            columns[f"in_situ_{metal['name']}"] = content * self.tonnes
        for process in range(len(self.processes)):
            columns |= {f"recovered_{name} {process}": amounts[process] for name, amounts in self.recovered.items()}
            columns |= {f"gain {process}": self.gain[process], f"not taken {process}": 1.0 - self.takes[process]}
            columns |= {f"{name} {process}": self.of_process(name, process) for name in (*self.limited, *self.costs)}
        columns |= {name: self.of_mining(name) for name in self.limited}
        columns |= {f"refused {name}": mask.astype(float) for name, mask in self.refused.items()}
        columns |= {f"unaccepted {name}": mask.astype(float) for name, mask in self.unaccepted.items()}
        keys = list(self.keys)
        return pd.concat([self.keys, pd.DataFrame(columns)], axis=1).groupby(keys).sum()

    @property
    def limited(self) -> list[str]:
        """The names of limited sums and head grades."""
        return list(dict.fromkeys([*(f"sum_{it['name']}" for it in self.sums), *(it.name for it in self.grades)]))

    @cached_property
    def rows(self) -> pd.DataFrame:
        """The rows of the table of these blocks."""
        return self.answer.rows.iloc[self.inside]

    @cached_property
    def grades(self) -> list[GradeLimit]:
        return grade_limits(self.answer.project)

"""Tables as the command line and the report show them: which columns, in what units, and numbers as text."""

from __future__ import annotations

from collections.abc import Iterator
from dataclasses import dataclass
from itertools import groupby
from pathlib import Path
from typing import Any, NamedTuple, Optional

import pandas as pd
from jinja2 import Environment, FileSystemLoader, select_autoescape

from pitplan.config.economics import Metal
from pitplan.config.periods import PERIOD, YEAR
from pitplan.config.project import Project
from pitplan.core.magnitude import money_unit, scaled
from pitplan.core.revenue_factors import factor_text
from pitplan.results.column_types import (
    GRADE,
    METAL,
    METRES,
    MONEY,
    SHARE,
    TEXT,
    TONNES,
    WHOLE_YEARS,
    Column,
    TableDeclaration,
)
from pitplan.results.columns import METHODS, PUSHBACKS, SENSITIVITY, SHELLS, YEARLY
from pitplan.results.rounding import metal_unit, spoken

TEMPLATES = Environment(
    loader=FileSystemLoader(Path(__file__).parents[1] / "templates"),
    autoescape=select_autoescape(),
    trim_blocks=True,
    lstrip_blocks=True,
)
TEMPLATES.filters["rf"] = factor_text
# The columns of no file: a case in words, and by how much its NPV differs from that of the base case.
CASE, NPV_CHANGE = "case", "npv_change"
COMPUTED = {CASE: Column(CASE, TEXT, "", "case"), NPV_CHANGE: Column(NPV_CHANGE, MONEY, "", "change")}


class ShownColumn(NamedTuple):
    """A column as it is shown: its name, its heading with the unit, by what its numbers are divided, and their decimals."""

    name: str
    heading: str
    divisor: float = 1.0
    decimals: int = 0


Columns = list[ShownColumn]


@dataclass(frozen=True)
class Display:
    """How a table is shown.

    Attributes
    ----------
    table : TableDeclaration
        Whose columns these are.
    names : tuple of str
        Those that are shown, in order, if a table has them. METAL and PROCESS stand for each metal and process.
    money : tuple of str
        Those whose largest amount sets the unit of all money.
    """

    table: TableDeclaration
    names: tuple[str, ...]
    money: tuple[str, ...]

    @property
    def tonnes(self) -> str:
        """The column whose largest amount sets the unit of all tonnes."""
        return "total_tonnes" if "total_tonnes" in self.names else "tonnes"

    def column(self, name: str) -> Column:
        """A column that is shown. Raises KeyError if the table has none of this name."""
        return COMPUTED.get(name) or self.table.column(name)

    def of(self, table: pd.DataFrame, project: Project) -> Columns:
        # Ore loss and dilution make the mill feed another amount than the ore in situ.
        is_diluted = IN_SITU in self.names and bool((table["feed_tonnes"] != table[IN_SITU]).any())
        most = float(table[[it for it in self.money if it in table]].abs().max().max())
        units = Units(money_unit(most, project.economics.currency), scaled(float(table[self.tonnes].max())))
        metals, found = {it.name: it for it in project.metals}, Columns()
        for name, subject in named(self.names, project):
            if name in table and (is_diluted or name != IN_SITU):
                column = self.column(name)
                heading = "mill feed" if is_diluted and name == "feed_tonnes" else column.heading
                heading = heading.replace("METAL", subject).replace("PROCESS", subject)
                size, unit = units.of(table[name], column, metals.get(subject))
                places = column.unit.places if column.places is None else column.places
                if column.unit is WHOLE_YEARS and (table[name] % 1 != 0).any():
                    places = 2
                found.append(ShownColumn(name, heading if unit is None else f"{heading}, {unit}", size, places))
        return found


@dataclass(frozen=True)
class Units:
    """The units of amounts of money and tonnes that are shown: size and name of each."""

    money: tuple[float, str]
    tonnes: tuple[float, str]

    def of(self, values: pd.Series, column: Column, metal: Optional[Metal]) -> tuple[float, Optional[str]]:
        """By what the values of a column are divided, and its unit in the heading; None if it has none. `metal` is that of its name."""
        if column.unit is MONEY:
            return self.money
        if column.unit is TONNES:
            return self.tonnes[0], f"{self.tonnes[1]}t"
        if column.unit is METAL and metal is not None:
            return metal_unit(float(values.max()), metal)
        if column.unit is GRADE and metal is not None:
            return 1.0, metal.sign
        return {SHARE: (0.01, "%"), METRES: (1.0, "m")}.get(column.unit, (1.0, None))


def named(names: tuple[str, ...], project: Project) -> Iterator[tuple[str, str]]:
    """Names of columns, each with the metal or process in it, or "". Adjacent names of metals are repeated together, metal by metal."""
    for placeholder, group in groupby(
        names, lambda it: next((word for word in ("METAL", "PROCESS") if word in it), "")
    ):
        adjacent = list(group)
        metals, processes = [it.name for it in project.metals], [it.name for it in project.processes]
        for subject in {"METAL": metals, "PROCESS": processes}.get(placeholder, [""]):
            yield from ((name.replace(placeholder, subject) if placeholder else name, subject) for name in adjacent)


IN_SITU = "in_situ_ore_tonnes"
IN_ROCK = (
    *("blocks", "tonnes", "feed_tonnes", IN_SITU, "waste_tonnes", "mineralised_waste_tonnes"),
    *("strip_ratio", "feed_tonnes_PROCESS"),
)
MATERIAL = (*IN_ROCK, "head_grade_METAL", "recovered_METAL")
EARNED = ("undiscounted_cash_flow", "npv_best", "npv_worst", "npv_specified")
BOUNDED = ("npv", "upper_bound")
AMOUNTS = ("years", "blocks", "tonnes", "feed_tonnes", "unmined_tonnes", "recovered_METAL")
OF_SHELLS = Display(SHELLS, ("revenue_factor", *MATERIAL, *EARNED, "years"), EARNED)
OF_PUSHBACKS = Display(
    PUSHBACKS,
    ("pushback", "revenue_factor", *MATERIAL, EARNED[0], "mining_cost_added", "deferred_value", "value_lost_to_width")
    + ("pieces", "min_width"),
    EARNED[:1],
)
OF_METHODS = Display(METHODS, ("method", *BOUNDED, "optimality_gap", "npv_at_mean_grade", *AMOUNTS), ("npv",))
OF_BLOCKS = Display(METHODS, (*BOUNDED, "optimality_gap", "npv_at_mean_grade", *AMOUNTS), BOUNDED)
SPENT, FLOWS = ("fixed_cost", "capex"), ("cash_flow", "discounted_cash_flow")
OF_YEARS = Display(
    YEARLY,
    (YEAR, PERIOD, "case", "total_tonnes", "feed_tonnes", "recovered_METAL", *SPENT, *FLOWS),
    (*FLOWS, *SPENT),
)
OF_CASES = Display(SENSITIVITY, (CASE, "npv", NPV_CHANGE, "tonnes", "feed_tonnes", EARNED[0], "years"), ("npv",))


def of_cases(table: pd.DataFrame) -> pd.DataFrame:
    """Returns a table of a sensitivity with the columns `case`, in words, and `npv_change`, the difference of NPV from the base case."""
    return table.assign(**{CASE: cases_in_words(table), NPV_CHANGE: table["npv"] - table["npv"].iloc[0]})


def cases_in_words(table: pd.DataFrame) -> list[str]:
    return [
        ", ".join(f"{spoken(name)} {100 * share:+g} %" for name, share in ((one, by), (other, also)) if name)
        or "base case"
        for one, by, other, also in zip(
            table["parameter"], table["change"], table["second_parameter"], table["second_change"]
        )
    ]


def selected_line(table: pd.DataFrame, columns: Columns, factor: float) -> str:
    """Returns the selected shell of a table of shells in one line."""
    row, shown = table[table["revenue_factor"] == factor].iloc[0], {it.name: it for it in columns}
    tonnes, feed, best, worst = (
        f"{cell_of(row[name], shown[name])} {shown[name].heading.partition(', ')[2]}"
        for name in ("tonnes", "feed_tonnes", "npv_best", "npv_worst")
    )
    where = f"{tonnes}, {feed} of mill feed"
    return (
        f"selected shell: revenue factor {factor_text(factor)}, {where}, NPV {best} (best case), {worst} (worst case)"
    )


def cells_of(table: pd.DataFrame, columns: Columns) -> list[list[str]]:
    """Returns the cells of a table as texts, with a dash for nan."""
    texts = [[cell_of(value, column) for value in table[column.name].tolist()] for column in columns]
    return [list(row) for row in zip(*texts)]


def cell_of(value: Any, column: ShownColumn) -> str:
    """Returns a cell of a column as a text, with a dash for nan."""
    name = column.name
    if name in ("method", "case"):
        return str(value)
    if name == "pushback":
        return str(int(value))
    if name == "revenue_factor":
        return factor_text(value)
    return "–" if value != value else f"{value / column.divisor:,.{column.decimals}f}"

"""The parts of the page that finance and a Competent Person read: cash flow by line, valuation, and ore by resource class."""

from __future__ import annotations

import base64
from collections.abc import Iterator
from dataclasses import dataclass
from pathlib import Path
from typing import Any, Optional

import pandas as pd

from pitplan.config.economics import GRADE_UNITS
from pitplan.config.material import ranked
from pitplan.config.project import Project
from pitplan.core.magnitude import money_unit, scaled
from pitplan.core.revenue_factors import factor_text
from pitplan.plan import shown_name
from pitplan.results import names
from pitplan.results.columns import CASH_FLOW
from pitplan.results.names import SENSITIVITY
from pitplan.results.rounding import metal_unit, spoken

from . import columns as report

# Columns of the page that are made from another column of the file.
NAMED = {(SENSITIVITY, "case"): "parameter"}


@dataclass(frozen=True)
class Figure:
    """A key result: name, text with unit, and the cell that it shows."""

    name: str
    text: str
    source: str


@dataclass(frozen=True)
class WrittenTable:
    """A written table: the name of its file, and its rows, with an index from 0."""

    file: str
    frame: pd.DataFrame

    def source(self, row: int, column: str) -> str:
        return f"{self.file} row {row + 2} column {NAMED.get((self.file, column), column)}"

    def figure(self, name: str, row: int, column: report.ShownColumn) -> Figure:
        """Returns a key result with its unit, which follows the comma in the heading of its column."""
        text = report.cell_of(self.frame.at[row, column.name], column)
        unit = column.heading.partition(", ")[2]
        return Figure(name, text if text == "–" else f"{text} {unit}".strip(), self.source(row, column.name))


def read_table(folder: Path, name: str) -> WrittenTable:
    return WrittenTable(name, pd.read_csv(folder / name, keep_default_na=True))


def picture(path: Path) -> str:
    """Returns a PNG as a data URL."""
    return "data:image/png;base64," + base64.b64encode(path.read_bytes()).decode("ascii")


# The most periods next to each other on A4.
MOST_PERIODS = 11
# Decimals of money.
PLACES = 2
FIRST = "revenue_"
# Lines in bold.
SUMS = ("operating_cash_flow", "cash_flow", "free_cash_flow", "discounted_cash_flow")
CATEGORIES = {"ore": "ore", "not_reserve": "not a reserve"}
Part = dict[str, Any]


def schedule_statements(folder: Path, project: Project, record: dict[str, Any], method: str) -> dict[str, Any]:
    """Returns the tables of a schedule: cash flow by line, valuation and reserves; nothing without a schedule, or if nothing is mined."""
    if names.CASH_FLOW not in record["files"]:
        return {}
    lines = only(read_table(folder, names.CASH_FLOW), method)
    if lines.frame.empty:
        return {}
    size, unit = money_unit(float(lines.frame[list(SUMS)].abs().max().max()), project.economics.currency)
    return {
        "unit": unit,
        "cash_flow": list(cash_flow(lines, project, size)),
        "valuation": valuation(only(read_table(folder, names.VALUATION), method), size),
        "reserves": Reserves(only(read_table(folder, names.INVENTORY), method), project).part,
    }


def only(table: WrittenTable, method: str) -> WrittenTable:
    return WrittenTable(table.file, table.frame[table.frame["method"] == method])


def cell(text: str, source: str) -> dict[str, str]:
    return {"text": text, "source": source}


def row_of(cells: list[dict[str, str]], is_sum: bool = False) -> Part:
    return {"mark": "sum" if is_sum else "", "cells": cells}


def cash_flow(lines: WrittenTable, project: Project, size: float) -> Iterator[Part]:
    """Yields tables with a row per line and a column per period, MOST_PERIODS in each; the first has the sums of all periods. Lines that are 0 in
    the decimals of the page are left out."""
    frame, word = lines.frame, project.shells.calendar.word
    method = frame["method"].iloc[0]
    columns = list(frame)
    first = next(number for number, name in enumerate(columns) if name.startswith(FIRST))
    least = 0.5 * 10**-PLACES * size
    shown = [name for name in columns[first:] if is_line(name) and (name in SUMS or (frame[name].abs() >= least).any())]
    for start in range(0, len(frame), MOST_PERIODS):
        some, rows = frame.iloc[start : start + MOST_PERIODS], []
        for name in shown:
            total = cell(
                number(frame[name].sum(), size, PLACES), f"{lines.file}: sum of column {name}, method {method}"
            )
            cells = [cell(number(value, size, PLACES), lines.source(at, name)) for at, value in some[name].items()]
            cells = [cell(CASH_FLOW.heading(name), ""), *([] if start else [total]), *cells]
            rows.append(row_of(cells, name in SUMS))
        periods = [f"{word} {number}" for number in some[word]]
        yield {"file": lines.file, "headings": ["line", *([] if start else ["all"]), *periods], "rows": rows}


def is_line(name: str) -> bool:
    """Returns whether a column is a line of money: no unit cost, and no text."""
    found = CASH_FLOW.find(name)
    return found is not None and found.unit.text == "currency"


def valuation(table: WrittenTable, size: float) -> Part:
    """Returns NPV, IRR and payback at each rate, before and after closure cost and tax."""
    kinds = {
        "discount_rate": ("discount rate, %", 0.01, 1),
        "npv": ("NPV", size, 2),
        "npv_after_tax": ("NPV after tax", size, 2),
        "irr": ("IRR, %", 0.01, 1),
        "irr_after_tax": ("IRR after tax, %", 0.01, 1),
        "payback": ("payback, years", 1.0, 2),
        "payback_after_tax": ("payback after tax, years", 1.0, 2),
    }
    rows = [
        row_of(
            [cell(number(table.frame.at[at, name], *how[1:]), table.source(at, name)) for name, how in kinds.items()]
        )
        for at in table.frame.index
    ]
    return {"file": table.file, "headings": [how[0] for how in kinds.values()], "rows": rows}


def number(value: float, size: float, places: int) -> str:
    """Returns a number as a text, a dash for nan, and no sign of a 0."""
    return "–" if value != value else f"{round(value / size, places) + 0.0:,.{places}f}"


@dataclass(frozen=True)
class Reserves:
    """Mill feed by resource class, as sums of rows of inventory.csv of a method."""

    inventory: WrittenTable
    project: Project

    @property
    def column(self) -> Optional[str]:
        name = self.project.table.resource_class
        return None if name is None else shown_name(name)

    @property
    def part(self) -> Part:
        """The table: a row per class of ore, all ore, and mill feed that is no reserve."""
        frame = self.inventory.frame
        if self.column is not None:
            frame = frame.assign(**{self.column: frame[self.column].fillna("").astype(str)})
        rows = []
        for category, label in CATEGORIES.items():
            mine = frame[frame["category"] == category]
            classes = ranked(mine[self.column].unique()) if self.column else []
            rows += [
                self.row(mine[mine[self.column] == name], f"{label}: {name or 'unclassified'}", category, name)
                for name in classes
            ]
            # All ore has a row of its own, also without any.
            if category == "ore" or len(classes) > 1 or (len(mine) and not classes):
                rows.append(self.row(mine, f"all {label}" if category == "ore" else label, category, None))
        return {
            "file": self.inventory.file,
            "headings": ["class", *(column.heading for column in self.columns)],
            "rows": rows,
        }

    @property
    def columns(self) -> report.Columns:
        """The columns of the inventory that are shown; of a grade the contained metal."""
        fed = self.inventory.frame[self.inventory.frame["category"].isin(list(CATEGORIES))]
        size, sign = scaled(float(fed["total_tonnes"].sum()))
        found = [
            report.ShownColumn("total_tonnes", f"in situ, {sign}t", size, 2),
            report.ShownColumn("feed_tonnes", f"mill feed, {sign}t", size, 2),
        ]
        for metal in self.project.metals:
            found.append(report.ShownColumn(f"head_grade_{metal.name}", f"{metal.name}, {metal.sign}", 1.0, 3))
            for kind in ("contained", "recovered", *(["payable"] if metal.smelter else [])):
                unit, name = metal_unit(float(fed[f"{kind}_{metal.name}"].sum()), metal), f"{kind}_{metal.name}"
                found.append(report.ShownColumn(name, f"{kind} {metal.name}, {unit[1]}", unit[0], 2))
        return found

    def row(self, some: pd.DataFrame, label: str, category: str, name: Optional[str]) -> Part:
        """Returns a row of sums; what they are sums over is said where the pointer rests."""
        of_class = "" if name is None else f" and {self.column} {name or 'empty'}"
        where = f"{self.inventory.file}, rows with category {category}{of_class}"
        feed, cells = float(some["feed_tonnes"].sum()), [cell(label, "")]
        units = {it.name: float(GRADE_UNITS[it.unit]) for it in self.project.metals}
        for column, _, size, places in self.columns:
            value, source = float(some[column].sum()) / size, f"sum of {column}"
            if column.startswith("head_grade_"):
                metal = column.removeprefix("head_grade_")
                value = float(some[f"contained_{metal}"].sum()) / units[metal] / feed if feed else float("nan")
                source = f"contained_{metal} by feed_tonnes"
            cells.append(cell(number(value, 1.0, places), f"{where}: {source}"))
        return row_of(cells, name is None and category == "ore")


@dataclass(frozen=True)
class StatementRow:
    """A row of the table.

    Attributes
    ----------
    label : str
        With its unit.
    table : WrittenTable
        The rows of a method in cash_flow.csv or years.csv.
    size : float
        By what numbers are divided.
    ratio : tuple of str
        Of all periods the sum of the first column, by that of the second less that of the third; empty: the sum of `column`.
    by : float
        By what that ratio is divided.
    """

    label: str
    table: WrittenTable
    column: str
    size: float
    places: int
    ratio: tuple[str, ...] = ()
    by: float = 1.0

    def total(self) -> dict[str, str]:
        sums, file = self.table.frame.sum(numeric_only=True), self.table.file
        if not self.ratio:
            return cell(number(float(sums[self.column]), self.size, self.places), f"{file}: sum of {self.column}")
        over, under, *less = self.ratio
        base = float(sums[under]) - sum(float(sums[it]) for it in less)
        value = float(sums[over]) / base / self.by if base > 0 else float("nan")
        source = f"{file}: sum of {over} by that of {' less '.join((under, *less))}"
        return cell(number(value, 1.0, self.places), source)

    def cells(self, first: int) -> list[dict[str, str]]:
        """Returns the cells of MOST_PERIODS periods from one on, numbered from 0."""
        some = self.table.frame[self.column].iloc[first : first + MOST_PERIODS]
        return [
            cell(number(value, self.size, self.places), self.table.source(at, self.column))
            for at, value in some.items()
        ]


def rows_of(lines: WrittenTable, years: WrittenTable, project: Project) -> Iterator[StatementRow]:
    """Yields the rows; `lines` are those of cash_flow.csv, `years` those of years.csv with the feed of each process."""
    size, sign = scaled(float(lines.frame["total_tonnes"].max()))
    yield StatementRow(f"total material, {sign}t", lines, "total_tonnes", size, 2)
    yield StatementRow(f"waste, {sign}t", lines, "waste_tonnes", size, 2)
    yield StatementRow("strip ratio", lines, "strip_ratio", 1.0, 2, ("waste_tonnes", "total_tonnes", "waste_tonnes"))
    yield StatementRow(f"mill feed, {sign}t", lines, "feed_tonnes", size, 2)
    for process in project.processes:
        yield StatementRow(f"feed of {process.name}, {sign}t", years, f"feed_tonnes_{process.name}", size, 2)
    for metal in project.metals:
        head, content = f"head grade {metal.name}, {metal.sign}", (f"contained_{metal.name}", "feed_tonnes")
        yield StatementRow(head, lines, f"head_grade_{metal.name}", 1.0, 3, content, float(GRADE_UNITS[metal.unit]))
        for kind in ("recovered", *(["payable"] if metal.smelter else [])):
            column = f"{kind}_{metal.name}"
            unit, of_metal = metal_unit(float(lines.frame[column].max()), metal)
            yield StatementRow(f"{kind} {metal.name}, {of_metal}", lines, column, unit, 2)


def physicals(lines: WrittenTable, years: WrittenTable, project: Project) -> Iterator[Part]:
    """Yields tables with MOST_PERIODS periods each; the first has all periods together."""
    word, rows = project.shells.calendar.word, list(rows_of(lines, years, project))
    for first in range(0, len(lines.frame), MOST_PERIODS):
        periods = [f"{word} {number}" for number in lines.frame[word].iloc[first : first + MOST_PERIODS]]
        cells = [[cell(it.label, ""), *([] if first else [it.total()]), *it.cells(first)] for it in rows]
        headings = ["quantity", *([] if first else ["all"]), *periods]
        yield {"file": lines.file, "headings": headings, "rows": list(map(row_of, cells))}


BY_BLOCK = "block"


def of_shell(shells: WrittenTable, chosen: float, project: Project) -> list[Figure]:
    """Returns the key results of a pit without a schedule."""
    row = int(shells.frame.index[shells.frame["revenue_factor"] == chosen][0])
    columns = {column.name: column for column in report.OF_SHELLS.of(shells.frame.loc[[row]], project)}
    names = {
        "npv_best": "Net present value, best case",
        "npv_worst": "Net present value, worst case",
        "npv_specified": "Net present value, specified case",
        "undiscounted_cash_flow": "Undiscounted cash flow",
        "tonnes": "Total material",
        "feed_tonnes": "Mill feed",
        "strip_ratio": "Strip ratio, waste to in-situ ore",
    }
    found = [shells.figure(name, row, columns[column]) for column, name in names.items() if column in columns]
    found += [*grades(shells, chosen, project), *recovered(shells, row, columns, project)]
    return [*found, shells.figure("Life, best case", row, report.ShownColumn("years", "life, years", 1.0, 1))]


def grades(shells: WrittenTable, factor: float, project: Project) -> list[Figure]:
    row = int(shells.frame.index[shells.frame["revenue_factor"] == factor][0])
    return [
        shells.figure(
            f"{metal.name.capitalize()} head grade of the pit at revenue factor {factor_text(factor)}",
            row,
            report.ShownColumn(f"head_grade_{metal.name}", f"grade, {metal.sign}", 1.0, 3),
        )
        for metal in project.metals
    ]


def recovered(table: WrittenTable, row: int, columns: dict[str, report.ShownColumn], project: Project) -> list[Figure]:
    return [
        table.figure(f"{metal.name.capitalize()} recovered", row, columns[f"recovered_{metal.name}"])
        for metal in project.metals
    ]


def schedule_results(folder: Path, project: Project, shown: str) -> list[Figure]:
    ways = read_table(folder, names.METHODS)
    row = int(ways.frame.index[ways.frame["method"] == shown][0])
    only_one = ways.frame.loc[[row]]
    display = report.OF_BLOCKS if shown == BY_BLOCK else report.OF_METHODS
    columns = {column.name: column for column in display.of(only_one, project)}
    bound = "Upper bound, any schedule by block" if shown == BY_BLOCK else "Upper bound, these pushbacks"
    labels = {"npv": "Net present value", "upper_bound": bound}
    tonnes = {"tonnes": "Total material", "feed_tonnes": "Mill feed"}
    if "unmined_tonnes" in columns and only_one["unmined_tonnes"].iloc[0] > 0:
        tonnes["unmined_tonnes"] = "Unmined material"
    lines, values = (only(read_table(folder, name), shown) for name in (names.CASH_FLOW, names.VALUATION))
    return [
        *(ways.figure(label, row, columns[name]) for name, label in labels.items()),
        *(of_money(lines, values, project) if len(lines.frame) else ()),
        *(ways.figure(label, row, columns[name]) for name, label in tonnes.items()),
        *(of_feed(lines, project) if len(lines.frame) else ()),
        *recovered(ways, row, columns, project),
        ways.figure("Life", row, report.ShownColumn("years", "life, years", 1.0, columns["years"].decimals)),
    ]


def of_money(lines: WrittenTable, values: WrittenTable, project: Project) -> list[Figure]:
    """Returns NPV after tax if there is closure cost or tax, the internal rate of return, payback and capital.

    If nothing has to be paid back there is no rate of return, and a payback of 0 years would say nothing: both are left out.
    """
    rules, rate = project.cash_flow, project.shells.discount_rate
    row = int((values.frame["discount_rate"] - rate).abs().idxmin())
    is_taxed = bool(rules.closure_cost or rules.tax_rate)
    after, kind = (" after tax", "_after_tax") if is_taxed else ("", "")
    size, money = money_unit(abs(float(values.frame.at[row, "npv"])), project.economics.currency)
    shown = [("npv_after_tax", "Net present value after tax", size, 2, money)] if is_taxed else []
    if float(values.frame.at[row, f"payback{kind}"]) != 0:
        shown += [(f"irr{kind}", f"Internal rate of return{after}", 0.01, 1, "%")]
        shown += [(f"payback{kind}", f"Payback{after}", 1.0, 1, "years")]
    found = []
    for name, label, unit, places, sign in shown:
        text = number(float(values.frame.at[row, name]), unit, places)
        found.append(Figure(label, text if text == "–" else f"{text} {sign}", values.source(row, name)))
    if "capex" in lines.frame:
        text = number(float(lines.frame["capex"].sum()), size, 2)
        found.append(Figure("Capital", f"{text} {money}", f"{lines.file}: sum of column capex"))
    return found


def of_feed(lines: WrittenTable, project: Project) -> list[Figure]:
    """Returns strip ratio and head grades of a schedule, over all periods."""
    total, waste, feed = (float(lines.frame[it].sum()) for it in ("total_tonnes", "waste_tonnes", "feed_tonnes"))
    ratio = number(waste / (total - waste) if total > waste else float("nan"), 1.0, 2)
    source = f"{lines.file}: sum of waste_tonnes by that of total_tonnes less waste_tonnes"
    found = [Figure("Strip ratio, waste to in-situ ore", ratio, source)]
    for metal in project.metals:
        content = float(lines.frame[f"contained_{metal.name}"].sum()) / float(GRADE_UNITS[metal.unit])
        text = number(content / feed if feed else float("nan"), 1.0, 3)
        source = f"{lines.file}: sum of contained_{metal.name} by that of feed_tonnes"
        found.append(Figure(f"{metal.name.capitalize()} head grade of the mill feed", f"{text} {metal.sign}", source))
    return found


def risks(project: Project, record: dict[str, Any], shell: pd.Series, cases: Optional[pd.DataFrame]) -> list[str]:
    """Returns sentences for the section on risks. `record` is plan.json, `shell` the row of the selected shell in shells.csv, and `cases`
    sensitivity.csv, with the base case first; None without one."""
    found = [note.removeprefix("WARNING: ") for note in record["notes"] if note.startswith("WARNING")]
    found += of_classes(project, shell)
    found += of_sensitivity(cases, project.economics.currency)
    found.append(
        "Grades are those of one block model. Scenarios over realisations show what their uncertainty means: run pitplan scenarios."
    )
    if not record["verified"]:
        found.append("The numbers were not verified: run pitplan verify.")
    return found


def of_classes(project: Project, shell: pd.Series) -> Iterator[str]:
    if project.table.resource_class is None:
        yield "The block model has no resource classes, so ore may include inferred material, which reserves must not."
        return
    treated = [
        code
        for code, treatment in project.classes.given.items()
        if treatment == "ore" and not project.classes.may_be_reserve(code)
    ]
    if treated:
        yield f"Classes {', '.join(treated)} are treated as ore by a rule of the project, although reporting codes exclude them from reserves."
    waste = float(shell.get("mineralised_waste_tonnes", 0.0))
    if waste:
        size, sign = scaled(waste)
        yield f"The shell holds {waste / size:,.1f} {sign}t that would pay but are waste by their resource class."


def of_sensitivity(cases: Optional[pd.DataFrame], currency: str) -> Iterator[str]:
    """Yields the case that lowers the NPV most, and whether it becomes negative."""
    if cases is None or len(cases) < 2:
        yield "No sensitivity analysis of these inputs is at hand: run pitplan sensitivity."
        return
    alone = cases[cases["second_parameter"].isna() | (cases["second_parameter"] == "")]
    base, worst = float(cases["npv"].iloc[0]), alone.loc[alone["npv"].idxmin()]
    size, unit = money_unit(max(abs(base), abs(float(worst["npv"]))), currency)
    if worst["npv"] < base:
        money = f"{base / size:,.1f} to {worst['npv'] / size:,.1f} {unit}"
        yield f"A change of {str(worst['parameter']).replace('_', ' ')} by {100 * worst['change']:+g} % moves the NPV from {money}, the most of all cases."


# Columns of price_path_quantiles.csv, and what they are called.
OF_PATHS = {
    "npv": "at the project's prices",
    "npv_mean": "mean",
    "npv_least": "lowest",
    "npv_quantile_0.1": "P10",
    "npv_quantile_0.5": "P50",
    "npv_quantile_0.9": "P90",
    "npv_greatest": "highest",
}


def of_hill(folder: Path, project: Project) -> dict[str, Any]:
    """Returns the hill of value: its picture, and the NPVs as a table with a row per value of the second parameter."""
    table = read_table(folder, names.HILL)
    frame, figure = table.frame, folder / names.HILL_FIGURE
    size, unit = money_unit(float(frame["npv"].abs().max()), project.economics.currency)
    one, other = frame["parameter"].iloc[0], frame["second_parameter"].iloc[0]
    rows = []
    for value, some in frame.sort_values("value").groupby("second_value"):
        cells = [cell(f"{npv / size:,.2f}", table.source(at, "npv")) for at, npv in some["npv"].items()]
        rows.append(row_of([cell(f"{value:,.10g}", table.source(some.index[0], "second_value")), *cells]))
    headings = [spoken(other), *(f"{value:,.10g}" for value in sorted(frame["value"].unique()))]
    return {
        "picture": picture(figure) if figure.is_file() else "",
        "part": {"file": table.file, "headings": headings, "rows": rows},
        "caption": f"Hill of value: NPV, {unit}, by {spoken(one)} (columns) and {spoken(other)} (rows)",
    }


def of_prices(folder: Path, project: Project, record: dict[str, Any]) -> dict[str, Any]:
    """Returns the table of NPVs over price paths, and how many there are; nothing without them."""
    if names.PRICE_QUANTILES not in record["files"]:
        return {}
    table = read_table(folder, names.PRICE_QUANTILES)
    row = table.frame.iloc[0]
    size, unit = money_unit(float(table.frame[list(OF_PATHS)].abs().max().max()), project.economics.currency)
    cells = [cell(f"{row[name] / size:,.2f}", table.source(0, name)) for name in OF_PATHS]
    cells.append(cell(f"{100 * row['share_below_zero']:,.1f}", table.source(0, "share_below_zero")))
    part = {"file": table.file, "headings": [*OF_PATHS.values(), "paths below 0, %"], "rows": [row_of(cells)]}
    return {"part": part, "caption": f"NPV of the schedule over {int(row['paths']):,} price paths, {unit}"}

"""Sheets of a schedule's workbook, lines as rows and periods as columns, with live formulas: the cash flow, and the inventory by class."""

from __future__ import annotations

import re
from collections.abc import Iterator, Sequence
from dataclasses import dataclass
from typing import Any, Optional, Union

import numpy as np
import pandas as pd

from pitplan.config.economics import BOTH, GRADE_UNITS, GRAMS, Metal
from pitplan.config.material import ranked
from pitplan.config.project import Project
from pitplan.core.libraries import load
from pitplan.economics.smelter_terms import concentrate, payable_share
from pitplan.plan import shown_name
from pitplan.results.columns import CASH_FLOW
from pitplan.scheduling import methods

from .xlsx import cell

# The columns of label, unit, and of the whole life; periods follow.
LABEL, UNIT, TOTAL, FIRST = 1, 2, 3, 4
WIDTHS = {LABEL: 46.0, UNIT: 14.0, TOTAL: 18.0}
# A reference in a formula: [key] in the same column, [key<] in the period before, [key:] over all periods, [key!] in the column of the whole life.
REFERENCE = re.compile(r"\[([^\]<:!]+)([<:!]?)\]")
SUM, SAME = "=SUM([{key}:])", "same"
MONEY, PLAIN = "#,##0", "#,##0.00"
# Numbers are blue, formulas black.
INPUT = "0000FF"


@dataclass(frozen=True)
class SheetLine:
    """A row of the sheet.

    Attributes
    ----------
    key : str
        By which formulas refer to it.
    values : sequence of float, optional
        Numbers by period.
    formula : str
        In place of numbers: a formula for each period.
    total : str or float
        The formula of the whole life: SUM, SAME for that of the periods, or another; "" for none. Otherwise a number.
    form : str
        The number format.
    """

    key: str
    label: str
    unit: str = ""
    values: Optional[Sequence[float]] = None
    formula: str = ""
    total: Union[str, float] = ""
    form: str = MONEY
    bold: bool = False


@dataclass(frozen=True)
class PeriodSheet:
    """A sheet.

    Attributes
    ----------
    heads : tuple of str
        Lines of text above.
    lines : list of SheetLine
        The first has the periods.
    """

    name: str
    heads: tuple[str, ...]
    lines: list[SheetLine]
    periods: int

    def write(self, book: Any) -> None:
        """Adds the sheet to a workbook of openpyxl."""
        sheet, fonts = book.create_sheet(self.name), load("openpyxl.styles", "python3-openpyxl", "a workbook")
        for row, text in enumerate(self.heads, 1):
            put(sheet.cell(row, LABEL), text)
        sheet.cell(1, LABEL).font = fonts.Font(bold=True, size=14)
        for line in self.lines:
            self.write_line(sheet, line, fonts)
        for column in range(1, FIRST + self.periods):
            sheet.column_dimensions[letter(column)].width = WIDTHS.get(column, 15.0)
        sheet.freeze_panes = sheet.cell(self.row(self.lines[0].key) + 1, FIRST)
        fit_to_page(sheet)

    def write_line(self, sheet: Any, line: SheetLine, fonts: Any) -> None:
        row = self.row(line.key)
        put(sheet.cell(row, LABEL), line.label)
        put(sheet.cell(row, UNIT), line.unit)
        total = line.formula if line.total == SAME else line.total
        if total != "":
            is_number = isinstance(total, float)
            sheet.cell(row, TOTAL).value = total if is_number else self.resolved(str(total).format(key=line.key), TOTAL)
        for period in range(self.periods if line.formula or line.values is not None else 0):
            place = sheet.cell(row, FIRST + period)
            if line.values is None:
                place.value = self.resolved(line.formula, FIRST + period)
            else:
                place.value = cell(line.values[period])
        is_input = line.values is not None or isinstance(line.total, float)
        for column in range(1, FIRST + self.periods):
            place = sheet.cell(row, column)
            place.number_format = line.form
            is_number = is_input and isinstance(place.value, (int, float))
            place.font = fonts.Font(bold=line.bold, color=INPUT if is_number else None)

    def row(self, key: str) -> int:
        return len(self.heads) + 1 + [line.key for line in self.lines].index(key)

    def resolved(self, formula: str, column: int) -> str:
        """Returns a formula with the cells that its references mean in a column."""

        def cell_of(found: re.Match[str]) -> str:
            row, how = self.row(found[1]), found[2]
            if how == "!":
                return f"${letter(TOTAL)}${row}"
            if how == ":":
                return f"${letter(FIRST)}{row}:${letter(FIRST + self.periods - 1)}{row}"
            if how == "<":
                return f"{letter(column - 1)}{row}" if column > FIRST else "0"
            return f"{letter(column)}{row}"

        return REFERENCE.sub(cell_of, formula)


def letter(column: int) -> str:
    """Returns the name of a column by its number from 1."""
    return str(load("openpyxl.utils", "python3-openpyxl", "a workbook").get_column_letter(column))


def fit_to_page(sheet: Any) -> None:
    """Lets all columns be printed side by side."""
    sheet.page_setup.orientation, sheet.page_setup.fitToHeight = "landscape", 0
    sheet.sheet_properties.pageSetUpPr.fitToPage = True


def put(place: Any, text: str) -> None:
    """Writes text, which is never read as a formula."""
    if text:
        place.value = text
        place.data_type = "s"


CASH_FLOW_SHEET = "cash_flow"
GRADES, FACTORS, RATES, YEARS = "0.000", "0.000000", "0.00%", "0.00"
# The discount factor of the cash of a period of a year at most.
FACTOR_OF = {
    "end_of_year": "(1+[{rate}!])^-[end]",
    "mid_year": "(1+[{rate}!])^-(([start]+[end])/2)",
    "continuous": "IF([{rate}!]=0,1,((1+[{rate}!])^-[start]-(1+[{rate}!])^-[end])/(LN(1+[{rate}!])*([end]-[start])))",
}
# That of a period of several years: the mean of an annuity, which mid_year has half a year earlier.
ANNUITY = "IF([{rate}!]=0,1,((1+[{rate}!])^-[start]-(1+[{rate}!])^-[end])/([{rate}!]*([end]-[start])))"
OF_YEARS = {"end_of_year": ANNUITY, "mid_year": f"(1+[{{rate}}!])^0.5*{ANNUITY}", "continuous": FACTOR_OF["continuous"]}


@dataclass(frozen=True)
class CashFlowSheet:
    """The lines of a method.

    Attributes
    ----------
    table : DataFrame
        Its rows of cash_flow.csv.
    valuation : DataFrame
        Its rows of valuation.csv.
    """

    project: Project
    table: pd.DataFrame
    valuation: pd.DataFrame

    @property
    def currency(self) -> str:
        return self.project.economics.currency

    def sheet(self) -> PeriodSheet:
        method = self.table["method"].iloc[0]
        heads = (
            f"{self.project.title}: cash flow of the schedule, {methods.NAMES.get(method, 'by block')}",
            f"Costs, capex and tax are positive; money in {self.currency}. Totals, cash flows, unit costs, discount factors and NPVs are formulas.",
        )
        parts = (self.physicals(), self.revenue(), self.costs(), self.free(), self.unit_costs(), self.discounting())
        return PeriodSheet(CASH_FLOW_SHEET, heads, [line for part in parts for line in part], len(self.table))

    def has(self, column: str) -> bool:
        return column in self.table

    def given(self, column: str) -> SheetLine:
        return self.amount(column, CASH_FLOW.heading(column), self.currency)

    def amount(self, column: str, label: str, unit: str, form: str = MONEY) -> SheetLine:
        """Returns the line of a column of the table, with its sum over all periods."""
        return SheetLine(column, label, unit, self.table[column].to_numpy(), total=SUM, form=form)

    def product(self, column: str, formula: str) -> SheetLine:
        """Returns the line of a column of money by a formula, with its sum over all periods."""
        return SheetLine(column, CASH_FLOW.heading(column), self.currency, formula=formula, total=SUM)

    def physicals(self) -> Iterator[SheetLine]:
        """Yields the periods, tonnes, grades, metals and prices."""
        ends = self.project.shells.calendar.ends(len(self.table)).tolist()
        yield SheetLine("end", "end of period", "years", ends, total="life of mine", form="General", bold=True)
        yield SheetLine("start", "start of period", "years", formula="=[end<]", form="General")
        yield from section("Physicals")
        yield self.amount("total_tonnes", "total material", "t")
        yield self.amount("waste_tonnes", "waste", "t")
        ore = "([total_tonnes]-[waste_tonnes])"
        ratio = f'=IF({ore}>0,[waste_tonnes]/{ore},"")'
        yield SheetLine("strip", "strip ratio", "t/t", formula=ratio, total=SAME, form=PLAIN)
        yield self.amount("feed_tonnes", "mill feed", "t")
        for metal in self.project.metals:
            yield from self.metal(metal)

    def metal(self, metal: Metal) -> Iterator[SheetLine]:
        """Yields head grade, contained and recovered metal, and price."""
        contained, name = f"contained_{metal.name}", metal.name
        yield self.amount(contained, f"{name} in the mill feed", metal.quantity, PLAIN)
        grade = f'=IF([feed_tonnes]>0,[{contained}]/[feed_tonnes]/{GRADE_UNITS[metal.unit]},"")'
        yield SheetLine(f"head_{name}", f"head grade {name}", metal.sign, formula=grade, total=SAME, form=GRADES)
        yield self.amount(f"recovered_{name}", f"recovered {name}", metal.quantity, PLAIN)
        yield from self.sold(metal)
        price = self.table[f"price_{name}"].to_numpy()
        yield SheetLine(f"price_{name}", f"price of {name}", f"{self.currency}/{metal.price_unit}", price, form=PLAIN)

    def sold(self, metal: Metal) -> Iterator[SheetLine]:
        """Yields the payable metal and the concentrate of smelter terms."""
        payable, concentrate_tonnes = f"payable_{metal.name}", f"concentrate_tonnes_{metal.name}"
        if self.has(payable):
            yield self.amount(payable, f"payable {metal.name}", metal.quantity, PLAIN)
        if self.has(concentrate_tonnes):
            yield self.amount(concentrate_tonnes, f"concentrate of {metal.name}", "t", PLAIN)

    @property
    def charges(self) -> list[str]:
        """The columns of selling costs and of charges of smelters, in order."""
        columns = list(self.table)
        return columns[columns.index("royalty") + 1 : columns.index("mining_cost_ore")]

    def revenue(self) -> Iterator[SheetLine]:
        metals = [metal.name for metal in self.project.metals]
        yield from section("Revenue")
        yield from map(self.revenue_of, self.project.metals)
        yield self.sum("gross", "gross revenue", f"=SUM([revenue_{metals[0]}]:[revenue_{metals[-1]}])")
        yield from self.royalty()
        shared = {line.key: line for metal in self.project.metals for line in self.participation(metal)}
        yield from (shared.get(column) or self.given(column) for column in self.charges)
        yield self.sum("net", "net revenue", f"=[gross]-SUM([royalty]:[{self.charges[-1]}])")

    def royalty(self) -> Iterator[SheetLine]:
        """Yields the rates of the royalty, and the royalty as their product with revenue and mill feed."""
        money, parts = self.project.economics, []
        if money.royalty:
            yield SheetLine("royalty_rate", "royalty rate", "share of revenue", total=float(money.royalty), form=RATES)
            parts.append("[royalty_rate!]*[gross]")
        if money.royalty_per_tonne:
            a_tonne = f"{self.currency}/t of feed"
            yield SheetLine(
                "royalty_a_tonne", "royalty per tonne", a_tonne, total=float(money.royalty_per_tonne), form=PLAIN
            )
            parts.append("[royalty_a_tonne!]*[feed_tonnes]")
        yield self.product("royalty", f"={'+'.join(parts) or 0}")

    def participation(self, metal: Metal) -> Iterator[SheetLine]:
        """Yields the price participation of a smelter as a formula, if a line has the metal that it applies to."""
        column, terms = f"participation_{metal.name}", metal.smelter
        if terms is None or terms.price_participation is None:
            return
        rule, quantity = terms.price_participation, f"[payable_{metal.name}]"
        if terms.is_of_some:
            dry = concentrate(metal)
            quantity = f"[concentrate_tonnes_{metal.name}]*{payable_share(metal) / dry}" if dry else ""
        above = f"([price_{metal.name}]-{rule.base})"
        above = above if rule.applies == BOTH else f"MAX(0,{above})"
        if quantity:
            yield self.product(column, f"={rule.share}*{above}*{units_of(metal)}*{quantity}")

    def revenue_of(self, metal: Metal) -> SheetLine:
        """Returns the revenue of a metal as the product of its quantity and its price."""
        quantity = f"{'payable' if metal.smelter else 'recovered'}_{metal.name}"
        return self.product(f"revenue_{metal.name}", f"=[{quantity}]*{units_of(metal)}*[price_{metal.name}]")

    @property
    def cost_columns(self) -> list[str]:
        columns = list(self.table)
        last = columns.index("rounding" if self.has("rounding") else "operating_cash_flow")
        return columns[columns.index("mining_cost_ore") : last]

    def costs(self) -> Iterator[SheetLine]:
        columns = self.cost_columns
        yield from section("Operating costs")
        yield from map(self.given, columns)
        yield self.sum("costs", "operating costs", f"=SUM([{columns[0]}]:[{columns[-1]}])")
        yield from section("Cash flow")
        if self.has("rounding"):
            yield self.given("rounding")
        rounding = "+[rounding]" if self.has("rounding") else ""
        yield self.sum("operating", "operating cash flow", f"=[net]-[costs]{rounding}")
        if self.has("capex"):
            yield self.given("capex")
        yield self.sum("cash", "cash flow", f"=[operating]-{self.capex}")

    @property
    def capex(self) -> str:
        return "[capex]" if self.has("capex") else "0"

    def free(self) -> Iterator[SheetLine]:
        """Yields closure cost and tax, and the free cash flow."""
        closure, tax = ("closure_cost", "tax")
        if self.has(closure):
            yield self.given(closure)
        of_closure = f"-[{closure}]" if self.has(closure) else ""
        if self.has(tax):
            yield from self.taxes(of_closure)
        yield self.sum("free", "free cash flow", f"=[cash]{of_closure}{'-[tax]' if self.has(tax) else ''}")
        yield SheetLine("cumulative", "cumulative free cash flow", self.currency, formula="=[cumulative<]+[free]")
        low = f"([cumulative<]-{self.capex})"
        within = f'=IF(AND({low}<0,[cumulative]>=0),[start]-([end]-[start])*{low}/([cumulative]-{low}),"")'
        negative = '=IF(COUNT([payback:])>0,MIN([payback:]),IF(MIN([cumulative:])<0,"",0))'
        yield SheetLine("payback", "payback", "years", formula=within, total=negative, form=YEARS)

    def taxes(self, of_closure: str) -> Iterator[SheetLine]:
        rate = float(self.project.cash_flow.tax_rate)
        yield SheetLine("tax_rate", "tax rate", "share", total=rate, form=RATES)
        yield self.given("depreciation")
        income = f"=[operating]-[depreciation]{of_closure}"
        yield SheetLine("income", "income before losses", self.currency, formula=income, total=SUM)
        losses = "=MAX(0,[losses<]-[income])"
        yield SheetLine("losses", "losses carried forward", self.currency, formula=losses)
        taxable = "=MAX(0,[income]-[losses<])"
        yield SheetLine("taxable", "taxable income", self.currency, formula=taxable, total=SUM)
        yield SheetLine("tax", "tax", self.currency, formula="=[tax_rate!]*[taxable]", total=SUM)

    def unit_costs(self) -> Iterator[SheetLine]:
        """Yields costs per tonne and per unit of the first metal."""
        first = self.project.metals[0]
        mining = [name for name in self.cost_columns if name.startswith(("mining_cost", "haulage_cost"))]
        others = "".join(f"-[revenue_{metal.name}]" for metal in self.project.metals[1:])
        selling = "".join(f"+[{column}]" for column in self.charges)
        units = f"([{'payable' if first.smelter else 'recovered'}_{first.name}]*{units_of(first)})"
        yield from section("Unit costs")
        for key, unit, cost, per in (
            ("cost_per_tonne_mined", "t", f"SUM([{mining[0]}]:[{mining[-1]}])", "[total_tonnes]"),
            ("cost_per_tonne_fed", "t", "[costs]", "[feed_tonnes]"),
            ("c1_cost", first.price_unit, f"([costs]{selling}{others})", units),
        ):
            formula = f'=IF({per}>0,{cost}/{per},"")'
            label, a_unit = CASH_FLOW.heading(key), f"{self.currency}/{unit}"
            yield SheetLine(key, label, a_unit, formula=formula, total=SAME, form=PLAIN)

    def discounting(self) -> Iterator[SheetLine]:
        """Yields factors and discounted cash flows at each rate, and at the internal rates of return."""
        flows = {"cash": "discounted cash flow; total: NPV", "free": "discounted free cash flow; total: NPV after tax"}
        for number, rate in enumerate(self.valuation["discount_rate"], 1):
            yield from self.at_rate(f"Discount rate {number}", float(rate), flows)
        for key, name, label in (("cash", "irr", ""), ("free", "irr_after_tax", " after tax")):
            rate = float(self.valuation[name].iloc[0])
            if not np.isnan(rate):
                yield from self.at_rate(f"Internal rate of return{label}", rate, {key: flows[key]})

    def at_rate(self, label: str, rate: float, flows: dict[str, str]) -> Iterator[SheetLine]:
        """Yields the discounted flows of some lines, with their labels."""
        yield from section(label)
        yield SheetLine(f"{label} rate", "rate", "per year", total=rate, form=RATES)
        yield SheetLine(f"{label} factor", "discount factor", "-", formula=self.factor(f"{label} rate"), form=FACTORS)
        start = f"=(1+[{label} rate!])^-[start]"
        yield SheetLine(f"{label} first", "discount factor of capex", "-", formula=start, form=FACTORS)
        for name, title in flows.items():
            present = f"=([{name}]+{self.capex})*[{label} factor]-{self.capex}*[{label} first]"
            yield self.sum(f"{label} {name}", title, present)

    def factor(self, rate: str) -> str:
        """Returns the formula of the discount factor of a period's cash at a rate, by its line."""
        how, lengths = self.project.shells.discounting, self.project.shells.calendar.lengths(len(self.table))
        formula = FACTOR_OF[how] if (lengths <= 1).all() else f"IF([end]-[start]<=1,{FACTOR_OF[how]},{OF_YEARS[how]})"
        return "=" + formula.format(rate=rate)

    def sum(self, key: str, label: str, formula: str) -> SheetLine:
        """Returns a line of money by a formula, in bold."""
        return SheetLine(key, label, self.currency, formula=formula, total=SUM, bold=True)


def section(title: str) -> Iterator[SheetLine]:
    """Yields an empty line and a title."""
    yield SheetLine(f"before {title}", "")
    yield SheetLine(f"section {title}", title, bold=True)


def units_of(metal: Metal) -> str:
    """Returns how many units of its price a tonne or gram of a metal has, as a formula."""
    return f"{GRAMS[metal.quantity]}/{GRAMS[metal.price_unit]}"


# The sheet `reserves` of a schedule's workbook: mill feed by pushback, if there are any, and resource class, and by
# period, as sums of the sheet `inventory`.

RESERVES_SHEET, INVENTORY = "reserves", "inventory"
ORE, NOT_RESERVE = "ore", "not_reserve"
# Blocks without a class.
NO_CLASS = "unclassified"
# What lay on stockpiles at the start, which the inventory has as pushback 0.
OPENING = "opening stock"
# A condition of a sum: a column of the inventory, and a cell or a text in quotes.
Condition = tuple[str, str]
Cells = list[Union[str, int, float, None]]
WIDTH, HEAD_HEIGHT, FORMS = 18.0, 30.0, {"%": "0.000", "g/t": "0.000", "t/t": "0.000000"}


class Formula(str):
    """The text of a formula, where other text is never read as one."""


@dataclass(frozen=True)
class ReserveSheet:
    """The sheet.

    Attributes
    ----------
    method : str
        The method of the schedule.
    inventory : DataFrame
        Its rows of inventory.csv, as the sheet `inventory` has them.
    """

    project: Project
    method: str
    inventory: pd.DataFrame

    @property
    def class_column(self) -> Optional[str]:
        column = self.project.table.resource_class
        return None if column is None else shown_name(column)

    @property
    def pushbacks(self) -> list[int]:
        """The pushbacks of the inventory, 0 for what lay on stockpiles at the start; none of a schedule by block."""
        return sorted(self.inventory["pushback"].unique().tolist()) if "pushback" in self.inventory else []

    def classes(self, category: str) -> list[str]:
        """Returns the classes of a category, measured before indicated; one that stands for all without classes."""
        some = self.inventory[self.inventory["category"] == category]
        if self.class_column is None:
            return ["all"] if len(some) else []
        return ranked(some[self.class_column].unique())

    def write(self, book: Any) -> None:
        """Adds the sheet to a workbook of openpyxl."""
        sheet, styles = book.create_sheet(RESERVES_SHEET), load("openpyxl.styles", "python3-openpyxl", "a workbook")
        for number, row in enumerate(self.rows(), 1):
            # Titles, headers and totals begin with a text.
            bold = styles.Font(bold=bool(row) and isinstance(row[0], str) and row[0] != OPENING)
            for column, value in enumerate(row, 1):
                place, is_text = sheet.cell(number, column), not isinstance(value, Formula) and isinstance(value, str)
                if is_text:
                    put(place, str(value))
                else:
                    place.value = str(value) if isinstance(value, Formula) else value
                    place.number_format = self.forms[column - 1]
                place.font = bold
                is_head = is_text and column > 2
                place.alignment = styles.Alignment("left" if column <= 2 else "right", "top", wrap_text=is_head)
                if is_head:
                    sheet.row_dimensions[number].height = HEAD_HEIGHT
        for column in range(1, len(self.forms) + 1):
            sheet.column_dimensions[letter(column)].width = WIDTH
        fit_to_page(sheet)

    @property
    def opening(self) -> str:
        """Where the sheet counts what lay on stockpiles at the start; empty without it."""
        tonnes = float(self.inventory.loc[self.inventory["bench"].isna(), "feed_tonnes"].sum())
        if 0 in self.pushbacks:
            return f" {OPENING.capitalize()} lay on stockpiles at the start: pushback 0 of the sheet inventory."
        where = "which lay on stockpiles at the start: rows of the sheet inventory without a bench."
        return f" Mill feed includes {tonnes:,.0f} t of {OPENING}, {where}" if tonnes else ""

    @property
    def heads(self) -> list[str]:
        """The headers of amounts, each with its unit."""
        found = ["in situ (t)", "mill feed (t)"]
        for metal in self.project.metals:
            unit = metal.quantity
            found += [f"head grade {metal.name} ({metal.sign})"]
            found += [f"{metal.name} in the feed ({unit})", f"recovered {metal.name} ({unit})"]
            found += [f"payable {metal.name} ({unit})"] if metal.smelter else []
        return ["", "", *found]

    @property
    def forms(self) -> list[str]:
        found = ["General", "General", "#,##0", "#,##0"]
        for metal in self.project.metals:
            found += [FORMS[metal.sign], *["#,##0.00"] * len(kinds_of(metal))]
        return [*found, "#,##0", "#,##0", "0.00", "#,##0"]

    def rows(self) -> Iterator[Cells]:
        yield [f"{self.project.title}: mill feed of the schedule, {methods.NAMES.get(self.method, 'by block')}"]
        yield [
            f"Sums over the sheet inventory. Ore excludes mill feed of inferred and unclassified material.{self.opening}"
        ]
        row = 3
        for category, title in ((ORE, "Ore"), (NOT_RESERVE, "Not reserves: inferred and unclassified feed")):
            if self.classes(category):
                rows = list(self.by_pushback(category, title, row))
                yield from rows
                row += len(rows)
        yield from self.by_period(row)

    def by_pushback(self, category: str, title: str, row: int) -> Iterator[Cells]:
        """Yields a table from a row of the sheet on: each pushback and class, all pushbacks by class, and all."""
        yield [title]
        yield ["pushback" if self.pushbacks else "", "class", *self.heads[2:]]
        place, of_category = row + 2, ("category", f'"{category}"')
        classes, every = self.classes(category), "all" if self.pushbacks else None
        pushbacks: Cells = [*self.pushbacks]
        # The sums of one class alone are those of the last row.
        for pushback in [*pushbacks, every] if len(classes) > 1 else pushbacks:
            for name in classes:
                number = "0" if pushback == 0 else f"$A{place}"
                conditions = [of_category, *([] if pushback == every else [("pushback", number)])]
                conditions += [(self.class_column, f"$B{place}")] if self.class_column else []
                yield [OPENING if pushback == 0 else pushback, name, *self.amounts(place, conditions)]
                place += 1
        yield ["all", category.replace("_", " "), *self.amounts(place, [of_category])]
        yield []

    def by_period(self, row: int) -> Iterator[Cells]:
        """Yields a table from a row of the sheet on: ore by period, with total material, waste, strip ratio, and mill feed that cannot be reserves."""
        yield ["Ore by period"]
        others = ["total material (t)", "waste (t)", "strip ratio (t/t)", "mill feed, not reserves (t)"]
        yield [self.project.shells.calendar.word, "", *self.heads[2:], *others]
        last = len(self.heads)
        total, waste = letter(last + 1), letter(last + 2)
        years: list[Union[int, float, str]] = sorted(self.inventory["year"].unique().tolist())
        for place, year in enumerate([*years, "all"], row + 2):
            of_year = [] if year == "all" else [("year", f"$A{place}")]
            cells = self.amounts(place, [("category", f'"{ORE}"'), *of_year])
            cells.append(self.sum_of("total_tonnes", [("source", '"pit"'), *of_year]))
            cells.append(self.sum_of("total_tonnes", [("category", '"waste"'), *of_year]))
            ore = f"({total}{place}-{waste}{place})"
            cells.append(Formula(f'=IF({ore}>0,{waste}{place}/{ore},"")'))
            cells.append(self.sum_of("feed_tonnes", [("category", f'"{NOT_RESERVE}"'), *of_year]))
            yield [year, "", *cells]

    def amounts(self, place: int, conditions: list[Condition]) -> Cells:
        found: Cells = [self.sum_of(name, conditions) for name in ("total_tonnes", "feed_tonnes")]
        for metal in self.project.metals:
            content = f"{letter(len(found) + 4)}{place}"
            found.append(Formula(f'=IF($D{place}>0,{content}/$D{place}/{GRADE_UNITS[metal.unit]},"")'))
            found += [self.sum_of(f"{kind}_{metal.name}", conditions) for kind in kinds_of(metal)]
        return found

    def sum_of(self, column: str, conditions: list[Condition]) -> str:
        """Returns the formula of the sum of a column of the inventory over the rows that meet all conditions."""
        parts = [self.cells_of(column)]
        for name, value in conditions:
            parts += [self.cells_of(name), value]
        return Formula(f"=SUMIFS({','.join(parts)})")

    def cells_of(self, column: str) -> str:
        name = letter(self.inventory.columns.get_loc(column) + 1)
        return f"{INVENTORY}!${name}$2:${name}${len(self.inventory) + 1}"


def kinds_of(metal: Metal) -> tuple[str, ...]:
    """Returns the amounts of a metal that the sheet sums."""
    return ("contained", "recovered", *(["payable"] if metal.smelter else []))


def sheet_rows(inventory: pd.DataFrame, project: Project) -> pd.DataFrame:
    """Returns rows of inventory.csv as the sheet `inventory` has them: blocks without a class have one."""
    column = project.table.resource_class
    if column is None:
        return inventory
    return inventory.assign(**{shown_name(column): inventory[shown_name(column)].replace("", NO_CLASS)})

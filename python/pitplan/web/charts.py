"""The charts of an output folder: numbers of its tables, which the browser draws."""

from __future__ import annotations

from collections.abc import Sequence
from contextlib import suppress
from dataclasses import asdict, dataclass, field, replace
from pathlib import Path
from typing import Any, Optional

import numpy as np
import pandas as pd

from pitplan.config.project import Project
from pitplan.core.revenue_factors import factor_text
from pitplan.figures import palette
from pitplan.results import names

BAR, LINE = "bar", "line"
LEFT, RIGHT = "left", "right"
MILLION = 1e6
# Colours of lines that lie over bars.
LINES = ("#d55e00", "#009e73", "#cc79a7", "#0072b2", "#e69f00", "#56b4e9")
WASTE, ORE = palette.WASTE, palette.ORE


@dataclass(frozen=True)
class Series:
    """A row of bars, one on the other, or a line; None where there is no number. `axis` is the side of its scale."""

    name: str
    kind: str
    colour: str
    values: list[Optional[float]]
    axis: str = LEFT


@dataclass(frozen=True)
class Chart:
    """A chart.

    Attributes
    ----------
    along : str
        What its categories are.
    left, right : str
        The units of both scales.
    table : str
        The name of the table with its numbers.
    mark, says : str
        The category that is marked, and what that means; empty without one.
    """

    name: str
    title: str
    along: str
    categories: list[str]
    series: list[Series]
    left: str
    right: str = ""
    table: str = ""
    mark: str = ""
    says: str = ""

    @property
    def as_json(self) -> dict[str, Any]:
        return asdict(self)


@dataclass(frozen=True)
class Tables:
    folder: Path
    record: dict[str, Any]
    project: Project
    kept: dict[str, pd.DataFrame] = field(default_factory=dict)

    def get(self, name: str) -> pd.DataFrame:
        """Returns a table. Raises OSError or ValueError if it does not exist or cannot be read."""
        if name not in self.kept:
            self.kept[name] = pd.read_csv(self.folder / name, keep_default_na=True)
        return self.kept[name]

    def shown(self, name: str) -> pd.DataFrame:
        """Returns the rows of the schedule that is shown, with the period as a column `period`. Raises as `get` does."""
        table = self.get(name)
        if "method" in table:
            table = table[table["method"] == self.record.get("schedule", table["method"].iloc[-1])]
        return table.rename(columns={"year": "period"}) if "period" not in table else table

    def by_period(
        self, name: str, title: str, values: Sequence[Any], series: list[Series], table: str, *, units: tuple[str, str]
    ) -> Chart:
        """Returns a chart of a table by period, with the units of both scales."""
        word, categories = self.project.shells.calendar.word, [f"{int(it)}" for it in values]
        return Chart(name, title, word, categories, series, *units, table)


def charts_of(folder: Path, record: dict[str, Any], project: Project) -> list[Chart]:
    """Returns the charts of an output folder, without those whose tables are missing or have other columns."""
    tables, found = Tables(folder, record, project), []
    for make in (pit_by_pit, by_pushback, by_destination, head_grades, metal, cash_flow):
        with suppress(OSError, KeyError, IndexError, TypeError, ValueError):
            found.append(make(tables))
    return [chart for chart in found if chart.categories]


def numbers(values: Sequence[Any], by: float = 1.0) -> list[Optional[float]]:
    return [float(it) / by if np.isfinite(it) else None for it in values]


def pit_by_pit(tables: Tables) -> Chart:
    """Returns tonnes and NPV by revenue factor. Raises KeyError without NPVs."""
    shells = tables.get(names.SHELLS)
    money = f"M {tables.project.economics.currency}"
    cases = [("npv_best", "NPV, best case"), ("npv_specified", "NPV, specified case"), ("npv_worst", "NPV, worst case")]
    lines = [
        Series(words, LINE, LINES[k], numbers(shells[name], MILLION), RIGHT)
        for k, (name, words) in enumerate(cases)
        if name in shells or name == "npv_best"
    ]
    bars = [
        Series("in-situ ore", BAR, ORE, numbers(shells["in_situ_ore_tonnes"], MILLION)),
        Series("waste", BAR, WASTE, numbers(shells["waste_tonnes"], MILLION)),
    ]
    factors = [factor_text(float(it)) for it in shells["revenue_factor"]]
    chart = Chart("shells", "Pit by pit", "revenue factor", factors, [*bars, *lines], "Mt", money, names.SHELLS)
    selected = tables.record.get("shells", {}).get("selected")
    return replace(chart, mark=factor_text(float(selected)), says="selected shell") if selected else chart


def by_pushback(tables: Tables) -> Chart:
    """Returns tonnes and strip ratio by pushback."""
    found = tables.get(names.PUSHBACKS)
    series = [
        Series("in-situ ore", BAR, ORE, numbers(found["in_situ_ore_tonnes"], MILLION)),
        Series("waste", BAR, WASTE, numbers(found["waste_tonnes"], MILLION)),
        Series("strip ratio", LINE, LINES[0], numbers(found["strip_ratio"]), RIGHT),
    ]
    number = [str(it) for it in found["pushback"]]
    return Chart("pushbacks", "Pushbacks", "pushback", number, series, "Mt", "t of waste per t of ore", names.PUSHBACKS)


def by_destination(tables: Tables) -> Chart:
    """Returns the tonnes mined in each period by destination."""
    flows = tables.shown(names.MATERIAL_FLOWS)
    mined = flows[flows["source"] == "pit"].pivot_table("total_tonnes", "period", "destination", "sum", fill_value=0.0)
    known = colours_of(tables.project)
    order = sorted(mined.columns, key=lambda it: (list(known).index(it) if it in known else len(known), it))
    series = [Series(str(it), BAR, known.get(str(it), WASTE), numbers(mined[it], MILLION)) for it in order]
    title = "Tonnes mined by destination"
    return tables.by_period("flows", title, mined.index, series, names.MATERIAL_FLOWS, units=("Mt", ""))


def colours_of(project: Project) -> dict[str, str]:
    """Returns the colours of destinations, in the order in which they are stacked."""
    stockpiles = [it.name for it in project.schedule.stockpiles] if project.schedule else []
    processes = palette.of_processes([it.name for it in project.processes] or [""])
    return {
        **processes,
        **palette.of_stockpiles(stockpiles),
        **palette.of_dumps(it.name for it in project.dumps),
        "waste": WASTE,
    }


def head_grades(tables: Tables) -> Chart:
    """Returns mill feed and head grades of each process by period."""
    feed = tables.shown(names.FEED)
    known, project = colours_of(tables.project), tables.project
    by = {name: part.set_index("period") for name, part in feed.groupby("process", sort=False)}
    index = sorted(set(feed["period"]))
    bars = [
        Series(f"feed of {name}", BAR, known.get(str(name), ORE), numbers(part["feed_tonnes"].reindex(index), MILLION))
        for name, part in by.items()
    ]
    first = project.metals[0]
    lines = [
        Series(
            f"{first.name}, {name}" if len(by) > 1 else first.name,
            LINE,
            LINES[k],
            numbers(part[f"head_grade_{first.name}"].reindex(index)),
            RIGHT,
        )
        for k, (name, part) in enumerate(by.items())
    ]
    units = ("Mt", f"{first.name}, {first.sign}")
    return tables.by_period("feed", "Mill feed and head grade", index, [*bars, *lines], names.FEED, units=units)


def metal(tables: Tables) -> Chart:
    """Returns the recovered metal by period, each metal on a scale of its own; the first two."""
    found = tables.shown(names.CASH_FLOW)
    both = tables.project.metals[:2]
    scale = {"t": (1e3, "kt"), "g": (31.1034768e3, "koz")}
    kinds = ((BAR, ORE, LEFT), (LINE, LINES[0], RIGHT))
    series = [
        Series(it.name, kind, colour, numbers(found[f"recovered_{it.name}"], scale[it.quantity][0]), axis)
        for it, (kind, colour, axis) in zip(both, kinds)
    ]
    left, right = [*(f"{it.name}, {scale[it.quantity][1]}" for it in both), ""][:2]
    return tables.by_period("metal", "Recovered metal", found["period"], series, names.CASH_FLOW, units=(left, right))


def cash_flow(tables: Tables) -> Chart:
    """Returns the cash flow of each period, and the discounted cash flow to date."""
    found, money = tables.shown(names.CASH_FLOW), f"M {tables.project.economics.currency}"
    to_date = numbers(found["discounted_cash_flow"].cumsum(), MILLION)
    series = [
        Series("cash flow", BAR, ORE, numbers(found["cash_flow"], MILLION)),
        Series("discounted cash flow to date", LINE, LINES[0], to_date, RIGHT),
    ]
    return tables.by_period("cash_flow", "Cash flow", found["period"], series, names.CASH_FLOW, units=(money, money))

"""The workbook of a schedule, of pushbacks or by block."""

from __future__ import annotations

from pathlib import Path

import pandas as pd

from pitplan.export import xlsx
from pitplan.export.schedule_sheets import CashFlowSheet, ReserveSheet, sheet_rows
from pitplan.results import names
from pitplan.results.rounding import heads_of, named, shown, with_discounting, with_outline
from pitplan.scheduling.pushback_schedule import PushbackSchedule
from pitplan.scheduling.schedule import Schedule

INVENTORY, YEARS = "inventory", "years"
# The tables of material, and those that follow them, by sheet.
MATERIAL = ("feed", "flows", "cutoffs", INVENTORY, "stockpiles", "dumps")
SHEETS = ("methods", "schedule", YEARS, "pushbacks", "shells")


def write(schedule: Schedule, tables: dict[str, pd.DataFrame], stage: Path) -> None:
    """Writes the workbook: cash flow by line and reserves of the schedule that is shown, with formulas, then the tables."""
    project, method = schedule.plan.project, schedule.shown
    lines, values = (it[it["method"] == method] for it in (tables["cash_flow"], tables["valuation"]))
    sheets = material_sheets(schedule, tables) | other_sheets(schedule, tables)
    if "price_path_quantiles" in tables:
        sheets["price_path_quantiles"] = shown(tables["price_path_quantiles"])
    # A schedule that mines nothing has no period.
    first = [CashFlowSheet(project, lines, values).sheet().write] if len(lines) else []
    first += [ReserveSheet(project, method, sheets[INVENTORY]).write] if len(lines) else []
    by_name = {name: named(sheet, project) for name, sheet in sheets.items()}
    xlsx.write(stage / names.WORKBOOK, by_name, first, heads_of(project))


def material_sheets(schedule: Schedule, tables: dict[str, pd.DataFrame]) -> dict[str, pd.DataFrame]:
    """The tables of material, by sheet: of the inventory the rows of the method that is shown."""
    sheets = {name: shown(tables[name]) for name in MATERIAL if name in tables}
    inventory = tables[INVENTORY]
    of_shown = inventory[inventory["method"] == schedule.shown].reset_index(drop=True)
    return sheets | {INVENTORY: sheet_rows(shown(of_shown), schedule.plan.project)}


def other_sheets(schedule: Schedule, tables: dict[str, pd.DataFrame]) -> dict[str, pd.DataFrame]:
    """The other tables of the workbook, by sheet. Of the years it has those of the schedule and of the last shell."""
    project, years = schedule.plan.project, tables[YEARS]
    if isinstance(schedule, PushbackSchedule):
        years = with_outline(years[years["revenue_factor"] == schedule.factor], project)
    else:
        years = schedule.years
    found = tables | {YEARS: years, "shells": with_outline(tables["shells"], project)}
    return {name: with_discounting(shown(found[name]), project) for name in SHEETS if name in found}

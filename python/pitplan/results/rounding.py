"""Rounds tables for their files, and adds the convention of discounting."""

from __future__ import annotations

from collections.abc import Callable
from decimal import Decimal
from pathlib import Path
from typing import Optional

import numpy as np
import pandas as pd

from pitplan.config.economics import Metal
from pitplan.config.periods import YEAR
from pitplan.config.project import Project
from pitplan.core.magnitude import scaled

from .column_types import AMOUNT, COUNT, GRADE, METAL, NUMBER, SHARE, TEXT
from .columns import DISCOUNTING, OUTLINE, TABLES, unit_of

SHELL, PUSHBACK = "shell", "pushback"
# The columns of discounted amounts.
DISCOUNTED = {"npv_best", "npv", "discounted_cash_flow", "common_npv"}
# How the columns of their means and quantiles begin.
SPREAD = ("npv_mean", "npv_quantile", "common_npv_")
# The cases of pit-by-pit analysis.
OF_SHELLS = ("best", "worst", "specified")


def with_discounting(table: pd.DataFrame, project: Project) -> pd.DataFrame:
    """Adds the column `discounting` to a table with discounted amounts; returns any other table unchanged."""
    is_discounted = any(name in DISCOUNTED or str(name).startswith(SPREAD) for name in table.columns)
    return table.assign(**{DISCOUNTING: project.shells.discounting}) if is_discounted else table


def with_outline(table: pd.DataFrame, project: Project) -> pd.DataFrame:
    """Adds the column `outline` to a table of shells or years if the project has a minimum mining width: "shell" for rows that describe the
    shells before widening, "pushback" for rows of a schedule."""
    if project.pushbacks is None or not (project.pushbacks.min_mining_width or project.pushbacks.min_bottom_width):
        return table
    is_shell = table["case"].isin(OF_SHELLS) if "case" in table else True
    return table.assign(**{OUTLINE: np.where(is_shell, SHELL, PUSHBACK)})


# Sections whose entries have a name, and keys that are amounts per year.
OF_ENTRIES = ("processes", "metals", "dumps", "slopes.domains", "schedule.stockpiles")
TONNES, MONEY = ("capacity", "processing_capacity", "mining_capacity"), ("capex", "fixed_cost_per_year", "closure_cost")
LIMITS = {"min": "least", "max": "greatest"}


def spoken(name: str) -> str:
    """Returns a parameter in words: `capacity of mill`, `least cu_pct that mill accepts`, `mining cost`."""
    section = next((it for it in OF_ENTRIES if name.startswith(f"{it}.") and name.count(".") > it.count(".") + 1), "")
    if not section:
        return name.rpartition(".")[2].replace("_", " ")
    entry, *keys = name.removeprefix(f"{section}.").split(".")
    entry = f"slope domain {entry}" if section == "slopes.domains" else entry
    if keys[0] in ("accepts", "feed") and len(keys) == 3 and keys[2] in LIMITS:
        return f"{LIMITS[keys[2]]} {keys[1]} {'that ' + entry + ' accepts' if keys[0] == 'accepts' else 'in the feed of ' + entry}"
    return f"{' '.join(keys).replace('_', ' ')} of {entry}"


def parameter_unit(name: str, currency: str) -> str:
    """Returns the unit of a key, by its path, that is an amount, and "" for others."""
    if "." not in name:
        return ""
    key = name.rpartition(".")[2]
    if key in TONNES:
        # What dumps and stockpiles hold is no rate.
        return "t" if name.startswith(("dumps.", "schedule.stockpiles.")) else "t a year"
    return currency if key in MONEY else ""


def write_csv(table: pd.DataFrame, path: Path, project: Project) -> None:
    """Writes a table, with the column `discounting` if it has discounted amounts."""
    named(with_discounting(table, project), project).to_csv(path, index=False)


def named(table: pd.DataFrame, project: Project) -> pd.DataFrame:
    """Returns a table whose column `year` is called `period` if the periods of the project are not years."""
    word = project.shells.calendar.word
    return table if word == YEAR else table.rename(columns={YEAR: word})


def shown(table: pd.DataFrame) -> pd.DataFrame:
    """Returns a table with numbers rounded to the decimals of their columns. Raises KeyError if no table has such a column."""
    columns = {name: table[name] for name in table.columns}
    if "value_at_revenue_factor" in columns:
        columns["value_at_revenue_factor"] = [f"{Decimal(value):f}" for value in table["value_at_revenue_factor"]]
    for name, values in columns.items():
        if getattr(values, "dtype", None) == np.float64 and (places := decimals_of(name)) is not None:
            # Adding 0.0 turns -0.0 into 0.0.
            columns[name] = values.to_numpy().round(places) + 0.0
    result = pd.DataFrame(columns, index=table.index)
    return with_share_below(result) if "optimality_gap" in result else result


def decimals_of(name: str) -> int | None:
    """Returns the decimals of a column in files; None if numbers are written as they are. Raises KeyError if no table has it."""
    unit = unit_of(name)
    if unit is None:
        raise KeyError(f"no table has a column {name}: add it to pitplan/results/columns.py")
    return unit.decimals


def with_share_below(ways: pd.DataFrame) -> pd.DataFrame:
    """Returns methods with the optimality gap of the rounded values, so that it fits them: values in millions of the currency have few digits. It
    stays 0 or nan if the bound is 0."""
    share = (ways["upper_bound"] - ways["npv"]) / ways["upper_bound"].abs()
    return ways.assign(
        optimality_gap=share.where(ways["upper_bound"] != 0, 0.0 * ways["optimality_gap"]).round(SHARE.decimals) + 0.0
    )


# Units without a sign.
BARE = {TEXT.text, COUNT.text, NUMBER.text}


def heads_of(project: Project) -> Callable[[str], str]:
    """Returns what makes the header of a column."""

    def head(name: str) -> str:
        unit = unit_in(name, project)
        return f"{name} ({unit})" if unit else name

    return head


def unit_in(name: str, project: Project) -> Optional[str]:
    """Returns the unit of a column of written tables; None of codes, counts, and columns of the planner whose unit is unknown."""
    # Of tables that are rounded to decimals first.
    found = unit_of(name) or next((column.unit for table in TABLES if (column := table.find(name))), None)
    currency = project.economics.currency
    own = own_unit(name, project)
    if found is None or own is not None:
        return own
    if found.text in BARE:
        return None
    metal = metal_of(name, project) or project.metals[0]
    price = f"{currency}/{metal.price_unit}"
    signs = {
        METAL.text: metal.quantity,
        GRADE.text: metal.sign if metal_of(name, project) else "as in the table",
        "currency": currency,
        "currency per t": f"{currency}/t",
        "currency per unit of `price`": price,
        "currency per t or g": f"{currency}/{metal.quantity}",
        "currency per unit": f"{currency} per unit",
        "currency per unit of the amount": f"{currency} per unit",
        "grade of `metal` per unit of grade": f"grade of the first metal per {metal.sign}",
        AMOUNT.text: "unit of the amount",
    }
    return signs.get(found.text, found.text)


def own_unit(name: str, project: Project) -> Optional[str]:
    """Returns the unit of a column of the planner's table."""
    table = project.table
    for metal in project.metals:
        if name == metal.column:
            return metal.sign
    if name in (table.x, table.y, table.z):
        return "m"
    return "t" if name == table.tonnes else None


def metal_of(name: str, project: Project) -> Optional[Metal]:
    """Returns the metal in a name such as recovered_copper; of oxide and copper_oxide the longer one."""
    ends = [metal for metal in project.metals if name.endswith(f"_{metal.name}")]
    return max(ends, key=lambda it: len(it.name)) if ends else None


def metal_unit(most: float, metal: Metal) -> tuple[float, str]:
    """Returns size and sign of a unit for quantities of a metal up to `most`: grams become kilograms and tonnes."""
    if metal.quantity != "g":
        size, sign = scaled(most)
        return size, f"{sign}t"
    return (1e6, "t") if most >= 1e7 else (1e3, "kg") if most >= 1e4 else (1.0, "g")

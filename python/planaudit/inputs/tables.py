"""Reads the tables of a folder, and demands a number in each field of a numeric column."""

from __future__ import annotations

from collections.abc import Iterable, Iterator, Sequence
from pathlib import Path
from typing import Any

import numpy as np
import pandas as pd

from planaudit.errors import AuditError
from planaudit.revenue_factors import factor_texts, in_thousandths

# Prefixes of columns with empty fields if the amount is not defined: a ratio to no ore, the width of an empty pushback, a bound that was not
# computed, the bench of what lay on a stockpile at the start, the room of a dump without a capacity, or columns of other cases.
MAY_LACK = (
    *(
        "strip_ratio",
        "bench",
        "head_grade_",
        "grade_",
        "cutoff",
        "realised_cutoff",
        "reclaimed_grade_",
        "marginal_grade",
        "break_even_grade",
        "equivalent_",
        "min_width",
        "upper_bound",
        "optimality_gap",
    ),
    *("sum_", "kept_", "skin_value", "used", "minimum", "maximum", "utilisation", "shadow_price"),
    *("cost_per_tonne_", "c1_cost", "irr", "payback", "room_tonnes"),
)
# Exact numbers stay texts.
EXACT = "value_at_revenue_factor"
# The folder of an output folder in which its tables lie, and the row of a table below its header.
TABLES, FIRST_ROW = "tables", 2
# What tables call the number of a period if the periods are not years, and what the audit calls it.
PERIOD, YEAR = "period", "year"
# Text columns, which have a rule of their own.
WORDS = ("discounting", "outline")


def read_table(path: Path, texts: Sequence[str] = ()) -> pd.DataFrame:
    """Reads a table without its WORDS.

    Parameters
    ----------
    path : Path
    texts : sequence of str
        Its other text columns.

    Raises
    ------
    AuditError
        With file, row and column, if a field of a numeric column is not a number.
    """
    frame = pd.read_csv(path, dtype=dict.fromkeys([*texts, EXACT], str), keep_default_na=False, na_values=[""])
    words = [name for name in WORDS if name in frame]
    frame = in_thousandths(frame.drop(columns=words) if words else frame)
    demand_numbers(frame, path.name, texts)
    return frame.rename(columns={PERIOD: YEAR}, copy=False) if PERIOD in frame else frame


def read_prices(path: Path) -> pd.DataFrame:
    """Reads bound.csv: the price of each limit, side and period, as precisely as it is written."""
    found = pd.read_csv(path, float_precision="round_trip", dtype={"limit": str, "side": str})
    return found.rename(columns={PERIOD: YEAR})


def demand_numbers(frame: pd.DataFrame, source: str, texts: Iterable[str]) -> None:
    """Raises AuditError as `read_table` does."""
    words = {*texts}
    for name, column in frame.items():
        if name in words or column.dtype.kind == "i" or (column.dtype.kind == "f" and may_be(str(name), column)):
            continue
        lacking = pd.to_numeric(column.astype(str), errors="coerce").isna()
        if str(name).startswith(MAY_LACK):
            lacking &= column.notna()
        if lacking.any():
            row = int(lacking.to_numpy().argmax())
            why = (
                f'"{column.iloc[row]}" is not a number'
                if column.notna().iloc[row] and column.iloc[row] != ""
                else "is empty"
            )
            raise AuditError(f"{source} row {row + FIRST_ROW} column {name}: {why}")


def may_be(name: str, column: pd.Series) -> bool:
    """Whether the empty fields of this numeric column are allowed."""
    return name.startswith(MAY_LACK) or not np.isnan(column.to_numpy()).any()


def some(rows: pd.DataFrame, mask: np.ndarray | pd.Series) -> Iterator[Any]:
    """Yields the rows of a mask; for none without the time that pandas takes for an empty table."""
    if mask.any():
        yield from rows[mask].itertuples()


def demand_factors(frame: pd.DataFrame, factors: Iterable[float], source: str) -> None:
    """Raises AuditError if a table does not have one row per revenue factor, in their order."""
    there, due = frame["revenue_factor"].tolist(), list(factors)
    if there != due:
        raise AuditError(f"{source}: has rows of the revenue factors {factor_texts(there)} for {factor_texts(due)}")

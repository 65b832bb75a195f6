"""Verifies methods.csv: each row has the sums of the method's years, and the values of the schedule's record."""

from __future__ import annotations

from typing import Any, Optional

import pandas as pd

from planaudit.inputs.answer import Answer
from planaudit.inputs.tables import TABLES, read_table

FILE = "methods.csv"
# Tolerances: years.csv and methods.csv have thousandths, shares billionths.
AMOUNT, SHARE = 0.6e-3, 0.6e-9
SUMS = {"tonnes": "total_tonnes", "feed_tonnes": "feed_tonnes"}


def differences(answer: Answer, told: dict[str, dict[str, Any]], loose: Optional[dict[str, float]] = None) -> list[str]:
    """Returns the differences of methods.csv.

    Parameters
    ----------
    answer : Answer
    told : dict
        The columns of the record for each method.
    loose : dict, optional
        The tolerance of `npv_at_mean_grade` for each method.
    """
    assert answer.years is not None
    if not (answer.folder / TABLES / FILE).is_file():
        return [f"{FILE} is missing"]
    said = read_table(answer.folder / TABLES / FILE, ["method"]).set_index("method")
    if said.index.tolist() != list(told):
        return [f"{FILE} has the methods {said.index.tolist()} for {list(told)}"]
    found = []
    for way, record in told.items():
        years = answer.years[answer.years["case"] == way]
        life = answer.project.calendar.end(len(years))
        expected = record | {"years": life, "optimality_gap": below(record["npv"], record["upper_bound"])}
        expected |= {name: years[column].sum() for name, column in SUMS.items()}
        expected |= {name: years[name].sum() for name in years.columns if name.startswith("recovered_")}
        if set(said.columns) != set(expected):
            found.append(f"{FILE} has the columns {sorted(said.columns)} for {sorted(expected)}")
            continue
        for name, amount in expected.items():
            slack = AMOUNT * (len(years) + 2) + 1e-9 * abs(amount or 0)
            if name == "npv_at_mean_grade" and loose:
                slack += loose[way]
            if name == "optimality_gap":
                slack = SHARE + 2 * AMOUNT / abs(record["upper_bound"] or 1.0)
            if unlike(said.at[way, name], amount, slack):
                found.append(f"{FILE}, {way}: {name} {said.at[way, name]:.12g} for {amount}")
    return found


def below(value: float, bound: float | None) -> float | None:
    """Returns the optimality gap as a share of the bound; None without a bound, or if it is 0."""
    return (bound - value) / abs(bound) if bound else None


def unlike(said: float, expected: float | None, slack: float) -> bool:
    if expected is None or pd.isna(said):
        # With a bound of 0 the gap may be 0.
        return not (expected is None and (pd.isna(said) or said == 0))
    return bool(abs(said - expected) > slack)

"""Inclusion probabilities, and tables by scenario and of quantiles, from the results of all scenarios."""

from __future__ import annotations

from dataclasses import dataclass
from pathlib import Path

import numpy as np
import pandas as pd

from pitplan.blockmodel.grid import Grid
from pitplan.config.project import FigureRules
from pitplan.core import keyed_arrays
from pitplan.core.revenue_factors import factor_text
from pitplan.errors import PlanError
from pitplan.pits.shells import MINERALISED
from pitplan.results.names import TABLE

from . import store
from .store import Scenario, Shared


@dataclass(frozen=True)
class Likely:
    """The inclusion probability of each cell at a revenue factor.

    Attributes
    ----------
    grid : Grid
        The cells.
    share : ndarray of float, shape (levels, rows, columns)
        The share of scenarios with the cell in the pit, from 0 to 1.
    solid : ndarray of bool, shape (levels, rows, columns)
        Whether the cell has tonnes.
    factor : float
        The revenue factor.
    count : int
        The number of scenarios.
    rules : FigureRules
        Which levels and sections are drawn.
    """

    grid: Grid
    share: np.ndarray
    solid: np.ndarray
    factor: float
    count: int
    rules: FigureRules = FigureRules()

    @property
    def shown(self) -> np.ndarray:
        """The shares where there are tonnes, 0 elsewhere; shape (levels, rows, columns)."""
        return np.where(self.solid, self.share, 0.0)


QUANTILES = (0.1, 0.5, 0.9)


@dataclass(frozen=True)
class Gathered:
    """The results of all scenarios.

    Attributes
    ----------
    factors : list of float
        Revenue factors, ascending.
    share : array of float, shape (blocks, factors)
        The share of scenarios with the block in the pit, in the order of the table.
    table : DataFrame
        One row per scenario and revenue factor, at the prices of the scenario.
    missing : dict of int to str
        The reason by number for each scenario without a result.
    """

    factors: list[float]
    share: np.ndarray
    table: pd.DataFrame
    missing: dict[int, str]


def gather(shared: Shared, partial: bool = False) -> Gathered:
    """Reads the results of all scenarios. Raises PlanError as `missing_of`, or if a result cannot be read."""
    scenarios, missing = shared.scenarios, missing_of(shared, partial)
    factors = list(shared.record["revenue_factors"])
    counts = np.zeros((len(shared.frame), len(factors) + 1), dtype=np.int64)
    rows, tables = np.arange(len(shared.frame)), []
    for scenario in scenarios:
        if scenario.number not in missing:
            places, table = read_answer(shared, scenario)
            # A block is counted at the revenue factor at which it is first mined. Sums over the factors then count each pit.
            counts[rows, places] += 1
            tables.append(table)
    share = np.cumsum(counts[:, 1:], axis=1) / len(tables)
    return Gathered(factors, share, pd.concat(tables, ignore_index=True), missing)


def missing_of(shared: Shared, partial: bool) -> dict[int, str]:
    """The reason by number for each scenario without a result. Raises PlanError if there is any, unless `partial`, or if no scenario has a result."""
    missing = {job.number: store.read_failure(shared, job) for job in shared.missing()}
    if missing and (not partial or all(scenario.number in missing for scenario in shared.scenarios)):
        first, why = next(iter(missing.items()))
        others = ", or gather the others with --partial" if len(missing) < len(shared.jobs) else ""
        raise PlanError(
            f"{len(missing):,} of {len(shared.jobs):,} {shared.called} have no result, first {shared.jobs[first - 1].label}: {why}: "
            f"run them again{others}"
        )
    return missing


def read_answer(shared: Shared, scenario: Scenario) -> tuple[np.ndarray, pd.DataFrame]:
    """Reads a result: the place of each block's least revenue factor in the list, from 1 (0: in no pit), and the rows of the table."""
    path = shared.answer(scenario)
    try:
        answer = keyed_arrays.read(path, scenario.key)
        table = pd.DataFrame(answer["table"], columns=answer["columns"])
        worth, places = answer["value_at_revenue_factor"], answer["places"].astype(np.int64)
        if places.shape != (len(shared.frame),) or not 0 <= places.min(initial=0) <= places.max(initial=0) <= len(
            shared.record["revenue_factors"]
        ):
            raise keyed_arrays.NoAnswer("it holds other blocks or factors")
        table["blocks"] = table["blocks"].astype(np.int64)
    except (OSError, ValueError, KeyError, TypeError) as error:
        raise PlanError(
            f"{path}: is not a result of {scenario.label}: {error}: remove it, and run pitplan scenarios again"
        ) from error
    heads = heads_of(scenario) | {"revenue_factor": shared.record["revenue_factors"]}
    for place, (name, values) in enumerate(heads.items()):
        table.insert(place, name, values)
    table["value_at_revenue_factor"] = worth
    return places, table


def heads_of(scenario: Scenario) -> dict[str, object]:
    """Returns the first columns of a scenario's rows: scenario, realisation, and price_NAME of each metal that a price deck names."""
    prices = {f"price_{metal}": float(price) for metal, price in scenario.prices.items()}
    return {"scenario": scenario.number, "realisation": scenario.realisation, **prices}


def quantiles(table: pd.DataFrame) -> pd.DataFrame:
    """Returns one row per price deck and revenue factor: mean, minimum, maximum and quantiles of each amount over the realisations."""
    by = [name for name in table.columns if name.startswith("price_")] + ["revenue_factor"]
    amounts = [
        name
        for name in ("blocks", "tonnes", "feed_tonnes", "in_situ_ore_tonnes", "waste_tonnes", MINERALISED)
        if name in table.columns
    ]
    amounts += [name for name in table.columns if name.startswith("recovered_")] + [
        "undiscounted_cash_flow",
        "value_at_revenue_factor",
    ]
    return spread_of(table.assign(value_at_revenue_factor=table["value_at_revenue_factor"].astype(float)), by, amounts)


def spread_of(table: pd.DataFrame, by: list[str], amounts: list[str]) -> pd.DataFrame:
    """Returns one row per group of rows with equal values in the columns `by`, or one row if it is empty: the number of realisations, and mean,
    minimum, maximum and quantiles of each amount. Quantiles are linear between two realisations."""
    groups = table.groupby(by or np.zeros(len(table)), dropna=False)
    result = groups.size().to_frame("realisations")
    for name in amounts:
        group = groups[name]
        parts = {"mean": group.mean(), "least": group.min()}
        parts |= {f"quantile_{q:g}": group.quantile(q) for q in QUANTILES}
        parts["greatest"] = group.max()
        result = result.join(pd.DataFrame({f"{name}_{what}": values for what, values in parts.items()}))
    return result.reset_index(drop=not by)


def by_block(shared: Shared, gathered: Gathered, blocks: pd.DataFrame) -> pd.DataFrame:
    """Returns the rows of blocks.csv, by id, with `probability_F` for each revenue factor F; numbers as text."""
    order = np.argsort(shared.grid.rows)
    columns = {
        f"probability_{factor_text(factor)}": gathered.share[order, k] for k, factor in enumerate(gathered.factors)
    }
    return pd.concat([written(blocks), pd.DataFrame(columns)], axis=1)


def written(blocks: pd.DataFrame) -> pd.DataFrame:
    """Returns the rows of blocks.csv with numbers as text of 15 digits, since coordinates may have seven before the point."""
    return blocks.assign(**{name: blocks[name].map("{:.15g}".format) for name in blocks.select_dtypes("float").columns})


def read_blocks(folder: Path, codes: list[str]) -> pd.DataFrame:
    return pd.read_csv(folder / TABLE, dtype={name: str for name in codes}, keep_default_na=False, na_values={})

"""The result of scenarios, and their tables as frames."""

from __future__ import annotations

import json
from dataclasses import dataclass
from decimal import Decimal
from pathlib import Path
from typing import Any, Optional

import pandas as pd

from pitplan.blockmodel.grid import grid_of
from pitplan.config.project import FigureRules, load
from pitplan.core.layout import TABLES
from pitplan.core.revenue_factors import BASE_PRICE, factor_text
from pitplan.errors import PlanError
from pitplan.plan import codes_of, shown_name

from . import store
from .pit_probability import Likely

PROBABILITY, TABLE, QUANTILES = f"{TABLES}/probability.csv", f"{TABLES}/scenarios.csv", f"{TABLES}/quantiles.csv"
IMAGE = "probability.vti"
# With --by block: the schedules of all scenarios, and the common schedule by block and by year.
SCHEDULES, ONE = f"{TABLES}/schedules.csv", f"{TABLES}/common_schedule.csv"
ONE_YEARS, ONE_RECORD = f"{TABLES}/common_schedule_years.csv", "common_schedule.json"


@dataclass(frozen=True)
class ScenarioResult:
    """The result of `write_scenarios` and `gather`. The frames raise PlanError if nothing is gathered yet.

    Attributes
    ----------
    folder : Path
        The folder of results, tables and figures.
    notes : tuple of str
        Sentences for the planner.
    start : Path, optional
        The script to start, for `slurm` and `parallel`, if scenarios have no result yet.
    """

    folder: Path
    notes: tuple[str, ...]
    start: Optional[Path] = None

    @property
    def probability(self) -> pd.DataFrame:
        """One row per block: the planner's columns, and the inclusion probability at each revenue factor, such as `probability_0.80`."""
        codes = codes_of(load(self.folder / store.PROJECT))
        return self.frame(PROBABILITY, dtype={name: str for name in codes}, keep_default_na=False, na_values={})

    @property
    def table(self) -> pd.DataFrame:
        """One row per scenario and revenue factor, with the columns of scenarios.csv; `value_at_revenue_factor` is exact (Decimal)."""
        table = self.frame(
            TABLE, dtype={"realisation": str, "value_at_revenue_factor": str}, keep_default_na=False, na_values=[""]
        )
        return table.assign(value_at_revenue_factor=table["value_at_revenue_factor"].map(Decimal))

    @property
    def quantiles(self) -> pd.DataFrame:
        """One row per price deck and revenue factor, over the realisations: mean, minimum, maximum and quantiles of tonnes, metal and value; of
        schedules one row per price deck, of NPVs and upper bounds."""
        return self.frame(QUANTILES)

    @property
    def schedules(self) -> pd.DataFrame:
        """With --by block, one row per scenario: its own schedule and, with the prefix `common_`, the common schedule in it."""
        return self.frame(SCHEDULES, dtype={"realisation": str}, keep_default_na=False, na_values=[""])

    def likely(self, revenue_factor: float = BASE_PRICE) -> Likely:
        """Returns the inclusion probabilities at a revenue factor, for figures. Raises PlanError if none exist at it."""
        blocks, name = self.probability, f"probability_{factor_text(revenue_factor)}"
        if name not in blocks:
            raise PlanError(f"{self.folder / PROBABILITY}: has no revenue factor {factor_text(revenue_factor)}")
        record = json.loads((self.folder / store.RECORD).read_text(encoding="utf-8"))
        grid = grid_of(record["grid"], blocks["id"].to_numpy())
        project = load(self.folder / store.PROJECT)
        solid = blocks[shown_name(project.table.tonnes)].to_numpy() > 0
        count = self.table["scenario"].nunique()
        share, rules = grid.cube(grid.spread(blocks[name].to_numpy())), project.figures or FigureRules()
        return Likely(grid, share, grid.cube(grid.spread(solid, fill=False)), revenue_factor, count, rules)

    def frame(self, name: str, **reading: Any) -> pd.DataFrame:
        try:
            return pd.read_csv(self.folder / name, **reading)
        except OSError as error:
            raise PlanError(f"{error.filename}: cannot be read: run pitplan scenarios or gather first") from error

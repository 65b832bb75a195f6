"""A block model: a DataFrame or a file, with the columns that say what each row is."""

from __future__ import annotations

from dataclasses import dataclass
from pathlib import Path
from typing import Any, Mapping, Optional, Union

import pandas as pd

from pitplan.config.agreement import demand, of_table
from pitplan.config.keys import read
from pitplan.config.table import GridRules, TableColumns
from pitplan.config.toml_text import ProjectSource, Section, as_toml

# The keys that belong to the grid; all others belong to the table.
OF_GRID = ("size", "tolerance", "azimuth")
SOURCE = "block model"


@dataclass(frozen=True, eq=False, repr=False)
class BlockModel:
    """A block model with the names of its columns. Make one by `from_frame` or `from_csv`.

    Attributes
    ----------
    frame : DataFrame, optional
        The rows; None if they are read from a file.
    table, grid : dict
        The sections `[table]` and `[grid]` of a project.toml.
    """

    frame: Optional[pd.DataFrame]
    table: Mapping[str, Any]
    grid: Mapping[str, Any]

    @classmethod
    def from_frame(cls, frame: pd.DataFrame, **keys: Any) -> BlockModel:
        """A block model in memory.

        Parameters
        ----------
        frame : DataFrame
            One row per block: centroids in metres, tonnes, grades, and codes of rock type and domain. It is copied.
        **keys
            The keys of `[table]` and `[grid]` but `file`: the columns `x`, `y`, `z`, `tonnes`, or `density` and `volume`, `id`, `rock_type`,
            `domain`, `class` (as `**{"class": ..}`, a word of Python); `empty`, `missing_blocks`, `reblock`, `topography`; `size`, `tolerance` and `azimuth` of the blocks.

        Raises
        ------
        PlanError
            If a key or a value is wrong.
        """
        return of_keys(frame.copy(), "block_model.csv", keys)

    @classmethod
    def from_csv(cls, path: Union[str, Path], **keys: Any) -> BlockModel:
        """A block model in a file (.csv, .csv.gz, .zip, .parquet, .omf or .dm), which is read when a plan is made of it.

        Parameters
        ----------
        path : str or Path
            The file.
        **keys
            As in `from_frame`, and `separator`, `decimal` and `encoding` of the text.

        Raises
        ------
        PlanError
            If a key or a value is wrong.
        """
        return of_keys(None, str(Path(path).absolute()), keys)

    def __repr__(self) -> str:
        """Where the rows are, and the columns."""
        where = f"of {len(self.frame):,} rows" if self.frame is not None else f"in {self.table['file']}"
        columns = ", ".join(f"{key}={value!r}" for key, value in self.table.items() if key != "file")
        return f"BlockModel {where}" + (f" ({columns})" if columns else "")


def of_keys(frame: Optional[pd.DataFrame], file: str, keys: Mapping[str, Any]) -> BlockModel:
    """A block model with checked keys."""
    given = as_toml(keys, SOURCE)
    table = {"file": file} | {key: value for key, value in given.items() if key not in OF_GRID}
    grid = {key: value for key, value in given.items() if key in OF_GRID}
    source = ProjectSource(SOURCE, {"table": table, "grid": grid})
    demand(of_table(read(TableColumns, Section(source, "table", table)), source.data), source)
    read(GridRules, Section(source, "grid", grid))
    return BlockModel(frame, table, grid)

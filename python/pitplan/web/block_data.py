"""The blocks of a result or of a project as the browser draws them: a cell and numbers by row, sent once as typed arrays."""

from __future__ import annotations

import threading
from collections.abc import Iterator
from contextlib import suppress
from dataclasses import dataclass, field
from pathlib import Path
from typing import Any

import matplotlib
import numpy as np
import pandas as pd
from numpy.typing import NDArray

from pitplan import preparation
from pitplan.blockmodel import reader, row_rules
from pitplan.blockmodel.grid import Grid
from pitplan.blockmodel.reader import Table
from pitplan.config import project_writer
from pitplan.config.project import Project, load
from pitplan.core.numeric_fields import is_numeric
from pitplan.errors import PlanError
from pitplan.figures import palette
from pitplan.results.folder import read_folder
from pitplan.results.names import RECORD
from pitplan.results.rounding import unit_in
from pitplan.survey import readers

from .workspace import FileCache

# Whole numbers from 1 that have a colour each, 0 being none; the colour map of each.
STAGES = {"pushback": "viridis_r", "year": "plasma_r", "period": "plasma_r"}
# The most cells of a grid that a browser holds by their places, and the most codes of a column.
MOST_CELLS, MOST_CODES = 32_000_000, len(palette.CODES)
GRADIENT = "viridis"
NO_CODE, OTHERS = "none", "others"
# How many models are kept.
KEPT = 2


@dataclass(frozen=True)
class Shown:
    """A column to colour by.

    Attributes
    ----------
    labels, colours : list of str
        Of codes, from 1 on; empty for numbers.
    values : array
        By row: float32, or the place of the code from 1 as uint8.
    """

    name: str
    unit: str
    values: NDArray[Any]
    labels: list[str] = field(default_factory=list)
    colours: list[str] = field(default_factory=list)

    @property
    def as_json(self) -> dict[str, Any]:
        """The column without its values."""
        said: dict[str, Any] = {"name": self.name, "unit": self.unit, "labels": self.labels, "colours": self.colours}
        some = self.values[np.isfinite(self.values)]
        if not self.labels:
            above = some[some > 0]
            # The highest hundredth shares a colour, so that one rich block does not make all others pale.
            most = float(np.quantile(above, 0.99)) if len(above) else float(some.max(initial=0))
            said |= {"least": float(some.min(initial=0)), "most": most, "greatest": float(some.max(initial=0))}
            said["nulls"] = len(self.values) - len(some)
        return said


@dataclass(frozen=True)
class Blocks:
    """A block model.

    Attributes
    ----------
    frame : DataFrame
        A row per block, in the order of `cells`.
    cells : int array
        The cell of each row.
    codes : list of str
        Columns of codes.
    factors : list of float
        Revenue factors of shells; empty without shells.
    selected : float
        That of the selected shell; 0 without shells.
    nulls : dict of str to bool array
        By column the rows of `frame` whose null is read as 0, which are drawn grey.
    kept : dict of str to Shown
        The columns that were asked for.
    """

    grid: Grid
    frame: pd.DataFrame
    cells: NDArray[Any]
    project: Project
    codes: list[str]
    factors: list[float] = field(default_factory=list)
    selected: float = 0.0
    nulls: dict[str, NDArray[Any]] = field(default_factory=dict)
    kept: dict[str, Shown] = field(default_factory=dict)

    def column(self, name: str) -> Shown:
        """Returns a column to colour by. Raises PlanError if no column has this name."""
        if name not in self.names:
            raise PlanError(f"{name}: found no such column, expected one of {', '.join(self.names)}")
        if name not in self.kept:
            self.kept[name] = self.shown(name)
        return self.kept[name]

    @property
    def names(self) -> list[str]:
        """The columns to colour by: grades first, then all others except places and names."""
        table = self.project.table
        left_out = {"id", table.x, table.y, table.z, table.id}
        first = [metal.column for metal in self.project.metals]
        stages = ["revenue_factor", *STAGES]
        order = [*first, *stages, *self.codes, *map(str, self.frame.columns)]
        return [name for name in dict.fromkeys(order) if name in self.frame and name not in left_out]

    def shown(self, name: str) -> Shown:
        values = self.frame[name]
        unit = unit_in(name, self.project) or ""
        if name in STAGES:
            number = np.clip(values.to_numpy(), 0, 255).astype(np.uint8)
            last = max(int(number.max(initial=1)), 1)
            shades = matplotlib.colormaps[STAGES[name]](np.linspace(0.05, 0.95, last))
            return Shown(name, "", number, [f"{name} {k}" for k in range(1, last + 1)], [hex_of(it) for it in shades])
        if name in self.codes or not is_numeric(values):
            return coded(name, values.astype(str).str.strip().replace("nan", ""))
        numbers = values.to_numpy(dtype=np.float32)
        return Shown(
            name, unit, np.where(self.nulls[name], np.float32("nan"), numbers) if name in self.nulls else numbers
        )

    @property
    def as_json(self) -> dict[str, Any]:
        """What a page needs before it draws."""
        west, _, south, _, _, top = self.grid.extent()
        shades = matplotlib.colormaps[GRADIENT](np.linspace(0, 1, 64))
        return {
            "shape": list(self.grid.shape),
            "size": list(self.grid.size),
            "corner": [west, south, top],
            "axes": list(self.grid.frame.names),
            "count": len(self.cells),
            "columns": [{"name": name, "unit": unit_in(name, self.project) or ""} for name in self.names],
            "gradient": [hex_of(it) for it in shades],
            "factors": self.factors,
            "selected": self.selected,
            "frame": [self.grid.frame.x, self.grid.frame.y, self.grid.frame.azimuth],
            "areas": list(self.areas()),
            "domain": self.project.table.domain or "",
            "domains": [{"codes": it.domains or (), "angles": it.bearings} for it in self.project.slopes.domains],
        }

    def areas(self) -> Iterator[dict[str, Any]]:
        """Yields the areas of the project with the corners of their rings along the axes of the grid; one that cannot be read has none."""
        rules = self.project.constraints
        for area in rules.areas if rules else ():
            rings: list[Any] = []
            with suppress(PlanError):
                polygons = readers.areas(area.polygon).polygons
                rings = [
                    np.stack(self.grid.frame.along(*ring.T[:2]), axis=1).tolist() for it in polygons for ring in it
                ]
            yield {"name": area.polygon.path.stem, "exclude": area.exclude, "rings": rings}

    def row(self, cell: int) -> dict[str, str]:
        """Returns the fields of the block in a cell as texts; none without one."""
        found = np.flatnonzero(self.cells == cell)
        if not len(found):
            return {}
        number = int(found[0])
        null = {name for name, rows in self.nulls.items() if rows[number]}
        row = self.frame.iloc[number]
        return {str(name): "null, read as 0" if name in null else text_of(value) for name, value in row.items()}


def text_of(value: Any) -> str:
    return f"{value:.10g}" if isinstance(value, (float, np.floating)) else str(value)


def coded(name: str, codes: pd.Series) -> Shown:
    """Returns a column of codes, the most frequent first; of too many the rest share one."""
    listed = [str(code) for code in codes.value_counts().index]
    if len(listed) > MOST_CODES:
        listed = [*listed[: MOST_CODES - 1], OTHERS]
    place = {code: number for number, code in enumerate(listed, 1)}
    numbers = codes.map(place).fillna(len(listed)).to_numpy().astype(np.uint8)
    return Shown(name, "", numbers, [code or NO_CODE for code in listed], list(palette.CODES[: len(listed)]))


def hex_of(shade: Any) -> str:
    return "#" + "".join(f"{round(255 * float(part)):02x}" for part in shade[:3])


def of_results(folder: Path) -> Blocks:
    """Reads the blocks of an output folder. Raises PlanError if it has none, or if a file has changed since."""
    found = read_folder(folder)
    project = load(folder / project_writer.AS_RUN)
    rules = found.record["shells"]
    order = np.argsort(found.blocks["id"].to_numpy(), kind="stable")
    frame = found.blocks.iloc[order].reset_index(drop=True)
    selected, cells = float(rules.get("selected") or 0), frame["id"].to_numpy()
    nulls: dict[str, NDArray[Any]] = {}
    if row_rules.reads_zeros(project):
        # Without the block model there are the numbers of the result, in which a null is 0.
        with suppress(PlanError):
            nulls = nulls_of(reader.read(project), project, found.grid, cells)
    return Blocks(found.grid, frame, cells, project, list(found.record["codes"]), found.factors, selected, nulls)


def of_project(path: Path) -> Blocks:
    """Reads the blocks of a project, cut by its surfaces, as `pitplan check` does. Raises PlanError if they cannot be read."""
    project = load(path)
    steps = (*preparation.BLOCKS, *(it for it in preparation.GROUND if it is not preparation.lay_slope_domains))
    model = preparation.take(preparation.read_table(project), steps)
    order = np.argsort(model.grid.rows, kind="stable")
    frame, cells = model.frame.iloc[order].reset_index(drop=True), model.grid.rows[order]
    nulls = nulls_of(model.read, project, model.grid, cells)
    return Blocks(model.grid, frame, cells, project, [str(it) for it in project.table.codes], nulls=nulls)


def nulls_of(table: Table, project: Project, grid: Grid, cells: NDArray[Any]) -> dict[str, NDArray[Any]]:
    """Returns by column which cells have a null that the table reads as 0; none if its rows are reblocked, since blocks have mean grades."""
    if project.table.reblock or not table.zeros:
        return {}
    x, y, z = (table.frame[name].to_numpy() for name in (project.table.x, project.table.y, project.table.z))
    places = ((grid.origin[2] - z) / grid.size[2], *grid.steps(x, y)[::-1])
    level, row, column = (np.rint(place).astype(np.int64) for place in places)
    is_inside = np.all([(at >= 0) & (at < count) for at, count in zip((level, row, column), grid.shape)], axis=0)
    found = {}
    for name, null in table.zeros.items():
        some, is_null = null & is_inside, np.zeros(grid.count, dtype=bool)
        is_null[np.ravel_multi_index((level[some], row[some], column[some]), grid.shape)] = True
        found[name] = is_null[cells]
    return found


class Store:
    """The models that were asked for last: a page asks for each column by itself."""

    def __init__(self) -> None:
        self.lock, self.kept = threading.Lock(), FileCache[Blocks](KEPT)

    def of(self, path: Path) -> Blocks:
        """Returns the blocks of an output folder or of a project. Raises PlanError if they cannot be read or are too many."""
        read, files = (of_results, [path / RECORD]) if path.is_dir() else (of_project, [path])
        if not path.is_dir():
            files += load(path).inputs[1:]
        # Requests for the columns of a model that is being read wait for it.
        with self.lock:
            return self.kept.of(path, files, lambda: demand_few(read(path)))


def demand_few(blocks: Blocks) -> Blocks:
    """Raises PlanError if a grid has too many cells for a browser."""
    if blocks.grid.count > MOST_CELLS:
        raise PlanError(
            f"Plans and sections: the grid has {blocks.grid.count:,} cells, expected at most {MOST_CELLS:,}: "
            "see the figures, or reblock the model"
        )
    return blocks

"""Reads blocks.csv and matches it with the rows of the planner's table."""

from __future__ import annotations

import csv
from collections.abc import Mapping
from pathlib import Path
from typing import Any, Optional

import numpy as np
import pandas as pd

from planaudit.errors import AuditError
from planaudit.inputs import block_table, plain_tables
from planaudit.inputs.project import Project
from planaudit.inputs.reblocking import divided, together, written_rows
from planaudit.inputs.rotated_grid import centroids, nearest_cells
from planaudit.inputs.tables import PERIOD, YEAR, demand_numbers
from planaudit.inputs.text_layout import TextLayout

# The columns of results in blocks.csv.
SAID = ("id", "mining_cost", "revenue", "processing_cost", "revenue_factor", "process_revenue_factor")
# With several processes the best one of each block at the base price, "" for waste; there are amounts of each process too.
PROCESS = "process"
# With `[haulage]` haul distance and haulage costs.
HAULED = ("haul_distance", "haulage_cost", "ore_haulage_cost")
# Further columns of `pitplan pit`, of the pit without constraints.
FREE = ("free_revenue_factor", "free_process_revenue_factor")
# Further columns of `pitplan pushbacks` and `pitplan schedule`.
PUSHBACK, BIN = "pushback", "bin"
# If a surface cuts blocks: the tonnes of the table. Results have the tonnes below the surface.
UNCUT = "tonnes before the cut"
# With a schedule the share of each block that goes to a process, and by pushbacks the share that is mined.
SHARE, MINED = "share_", "share_mined"
# The result of `rows_of`.
TableRows = tuple[pd.DataFrame, Optional[pd.DataFrame], Optional[pd.DataFrame]]


def shares_of(project: Project) -> list[str]:
    """Returns the columns of blocks.csv with the share of a block that goes to each process; to the mill if the project names no process."""
    return [f"{SHARE}{name}" for name in [process["name"] for process in project.processes] or ["mill"]]


def dump_shares_of(project: Project) -> list[str]:
    """Returns the columns of blocks.csv of a schedule by block with the share of a block that goes to each dump."""
    return [f"{SHARE}{dump['name']}" for dump in project.dumps]


def stockpile_shares_of(project: Project) -> list[str]:
    """Returns the columns of blocks.csv of a schedule by block with the share of a block that is placed on each stockpile."""
    return [f"{SHARE}{it['name']}" for it in (project.schedule["stockpiles"] if project.schedule else ())]


def said_of(project: Project) -> tuple[str, ...]:
    """Returns the columns of results in blocks.csv for a project."""
    hauled = HAULED if project.haulage else ()
    if not project.processes:
        return (*SAID, *hauled)
    of_each = (f"{name}_{process['name']}" for process in project.processes for name in ("revenue", "processing_cost"))
    return (*SAID, *hauled, PROCESS, *of_each)


def rows_of(
    project: Project,
    written: pd.DataFrame,
    grid: dict[str, Any],
    table: Optional[pd.DataFrame] = None,
    source: str = "blocks.csv",
) -> TableRows:
    """Returns the blocks of the table in the grid of the results; with reblocking the rows before it, otherwise None; and the blocks outside the
    grid if some were removed, otherwise None. The table is read unless it is given. Raises AuditError as `beside`."""
    frame = block_table.read(project) if table is None else table
    if project.table["reblock"] is None:
        inside, beyond = divided(frame, project, grid)
        return inside, None, beyond
    inside, beyond = divided(together(frame, project, grid), project, grid)
    own = written.rename(columns={own_name(name): name for name in frame.columns})
    found = written_rows(inside, own.loc[:, ~own.columns.duplicated(keep="last")], project, grid, source)
    # Blocks are cut after reblocking.
    tonnes = project.table["tonnes"]
    return (
        found if not project.cuts_blocks else found.assign(**{tonnes: inside[tonnes].to_numpy().round(6)}),
        frame,
        beyond,
    )


def read_blocks(path: Path, project: Project, said: Optional[tuple[str, ...]] = None) -> pd.DataFrame:
    """Reads centroids and the given columns of blocks.csv, as far as it has them; all columns by default, and if blocks may be filled, reblocked
    or cut. Raises AuditError if a field of a numeric column is not a number.
    """
    columns = project.table
    codes = {own_name(name): str for name in project.codes}
    wanted = {*(said or ()), *(own_name(name) for name in (columns["x"], columns["y"], columns["z"]))}
    is_whole = (
        said is None
        or isinstance(columns["missing_blocks"], Mapping)
        or bool(columns["reblock"] or project.cuts_blocks)
    )
    word = project.calendar.word
    wanted = {word if name == YEAR else name for name in wanted}
    texts = [*codes, PROCESS]
    kinds = dict.fromkeys(texts, plain_tables.TEXT)
    if columns["id"]:
        kinds[own_name(columns["id"])] = plain_tables.ID
    found = plain_blocks(path, None if is_whole else wanted, kinds)
    if found is None:
        found = pd.read_csv(
            path,
            dtype=codes,
            keep_default_na=False,
            na_values={},
            float_precision="round_trip",
            usecols=None if is_whole else wanted.__contains__,
            low_memory=False,
        )
    demand_numbers(found, path.name, texts)
    return found.rename(columns={word: YEAR}, copy=False)


def plain_blocks(path: Path, wanted: Optional[set[str]], texts: dict[str, str]) -> Optional[pd.DataFrame]:
    """Returns columns of blocks.csv, all by default; None if it is not a plain table. `texts` has the kinds of columns without numbers."""
    with open(path, encoding="utf-8", newline="") as file:
        names: list[str] = next(csv.reader(file), [])
    there = [name for name in names if wanted is None or name in wanted]
    kinds = {name: texts.get(name, plain_tables.NUMERIC) for name in there}
    return plain_tables.read(path, TextLayout(",", tuple(names), 1, 2), kinds)


def own_columns(written: pd.DataFrame, rows: pd.DataFrame, order: np.ndarray) -> pd.DataFrame:
    """Returns the planner's columns of blocks.csv by their names in the table, in the order of `rows`."""
    there = [name for name in rows.columns if own_name(name) in written]
    arrays = {name: written[own_name(name)].array for name in there}
    if not is_as_written(order, written):
        arrays = {name: values.take(order) for name, values in arrays.items()}
    return pd.DataFrame(arrays, copy=False)


def is_as_written(order: np.ndarray, written: pd.DataFrame) -> bool:
    """Whether rows in an order are all rows of a table as they are written."""
    return len(order) == len(written) and bool((order == np.arange(len(order))).all())


def own_name(column: str) -> str:
    """Returns the name of a planner's column in blocks.csv."""
    return (
        f"planner_{column}"
        if column in (*SAID, *FREE, *HAULED, PUSHBACK, YEAR, PERIOD, BIN, MINED, PROCESS)
        else column
    )


def beside(
    table: pd.DataFrame, written: pd.DataFrame, project: Project, grid: dict[str, Any], source: str
) -> tuple[pd.DataFrame, int, np.ndarray]:
    """Matches the rows of the table with those of blocks.csv.

    Returns
    -------
    rows : DataFrame
        The rows of the table, followed by filled missing blocks. If a surface cuts blocks, tonnes are those of blocks.csv, and UNCUT those of the
        table.
    known : int
        How many rows are those of the table.
    order : array of int, shape (rows,)
        The row of blocks.csv for each.

    Raises
    ------
    AuditError
        If a block of one is not in the other; `source` names the file of results.
    """
    columns = project.table
    axes = (columns["x"], columns["y"], columns["z"])
    centres, answered = centroids(table, axes), centroids(written, [own_name(name) for name in axes])
    row_of = np.full(int(np.prod(grid["shape"])), -1, dtype=np.int64)
    row_of[nearest_cells(answered, grid)] = np.arange(len(written))
    at = row_of[nearest_cells(centres, grid)]
    unlike = [there[at] != here for there, here in zip(answered.T, centres.T)]
    lost = np.count_nonzero(np.logical_or.reduce([at < 0, *unlike]))
    times = np.bincount(at[at >= 0], minlength=len(written))
    if lost or (times > 1).any():
        raise AuditError(f"{source}: {lost:,} blocks of the table are not in it: has the table changed since?")
    more = np.flatnonzero(times == 0)
    if len(more) and not isinstance(columns["missing_blocks"], Mapping):
        raise AuditError(f"{source}: {len(more):,} of its blocks are not in the table: has the table changed since?")
    known, rows, order = len(table), table, np.concatenate([at, more])
    if len(more):
        own = written.rename(columns={own_name(name): name for name in table.columns})
        own = own.loc[:, ~own.columns.duplicated(keep="last")]
        rows = pd.concat([table, own.iloc[more].reindex(columns=table.columns, fill_value=0.0)], ignore_index=True)
    if project.cuts_blocks:
        filled = columns["missing_blocks"]["tonnes"] if len(more) else 0.0
        uncut = np.concatenate([table[columns["tonnes"]], np.full(len(more), filled)])
        rows = rows.assign(**{UNCUT: uncut, columns["tonnes"]: written[own_name(columns["tonnes"])].to_numpy()[order]})
    return rows, known, order

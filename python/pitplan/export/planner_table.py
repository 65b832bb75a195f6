"""The planner's own table with results after its columns: the same rows in the same order, with unchanged fields."""

from __future__ import annotations

import os
from pathlib import Path

import numpy as np
import pandas as pd

from pitplan.blockmodel import reader
from pitplan.blockmodel.grid import Grid
from pitplan.blockmodel.reader import format_of
from pitplan.config import project_writer
from pitplan.config.periods import PERIOD, YEAR
from pitplan.config.project import Project
from pitplan.core.atomic_files import hash_of
from pitplan.core.numeric_fields import TableSource
from pitplan.core.text_tables import Fields, TableFormat, demand_text, names_in_header, read_columns, read_header
from pitplan.errors import PlanError
from pitplan.plan import shown_name
from pitplan.results.folder import Folder

# The columns of results, in this order, if blocks.csv has them.
FOUND = ("revenue_factor", "process_revenue_factor", "pushback", YEAR, PERIOD)
# Encodings that are written as another: UTF-8 without a byte-order mark.
WRITTEN_AS = {"utf-8-sig": "utf-8"}


def write(path: Path, folder: Folder) -> None:
    """Writes the table in its own text format, with the columns FOUND after the planner's. A planner's column of such a name becomes planner_NAME, as
    in blocks.csv. Of the header lines the names are written alone; rows that are no blocks have zeros. Raises PlanError if the project or its table
    cannot be read or has changed since the folder was written, or the table is not a text file."""
    project = project_of(folder)
    demand_text(project.table.file, "export --to table")
    frame, form = as_text(project.table.file, project)
    cells = np.full(len(frame), -1)
    table = reader.read(project)
    kept = table.source.kept if isinstance(table.source, TableSource) else None
    cells[slice(None) if kept is None else kept] = cells_of(table.frame, project, folder.grid)
    blocks = folder.blocks.set_index("id")
    for name in FOUND:
        if name in blocks:
            frame[name] = blocks[name].reindex(cells, fill_value=0).to_numpy()
    frame.to_csv(path, sep=form.separator, index=False, encoding=WRITTEN_AS.get(form.encoding, form.encoding))


def places_of(folder: Folder) -> set[str]:
    """Returns the columns of blocks.csv that say where a block is: the number of its cell, and the centroids."""
    table = project_writer.as_run(folder.path, folder.record["project"]).table
    return {"id", *map(shown_name, (table.x, table.y, table.z))}


def cells_of(frame: pd.DataFrame, project: Project, grid: Grid) -> np.ndarray:
    """Returns the cell of each row's centroid, array of int, shape (rows,); -1 outside the grid."""
    columns = project.table
    west, _, south, _, _, top = grid.extent()
    x, y, z = (frame[name].to_numpy() for name in (columns.x, columns.y, columns.z))
    east, north = grid.frame.along(x, y)
    steps = ((top - z) / grid.size[2], (north - south) / grid.size[1], (east - west) / grid.size[0])
    cells = np.array([np.floor(step).astype(np.int64) for step in steps])
    is_inside = ((cells >= 0) & (cells < np.array(grid.shape)[:, None])).all(axis=0)
    level, row, column = cells
    return np.where(is_inside, (level * grid.shape[1] + row) * grid.shape[2] + column, -1)


def project_of(folder: Folder) -> Project:
    """Returns the project that was run. Its file may have changed since: project-as-run.toml has what was run, and its hash is in the record.

    Raises PlanError if another input has changed since the run.
    """
    project = project_writer.as_run(folder.path, folder.record["project"])
    has_text = project_writer.AS_RUN in folder.record["files"]
    for name, path in project.named_inputs.items():
        try:
            is_same = has_text and path == project.path or folder.record["inputs"].get(name) == hash_of(path)
        except OSError as error:
            raise PlanError(f"{plain(path)}: cannot be read: {error.strerror}") from error
        if not is_same:
            raise PlanError(
                f"{plain(path)}: has changed since {folder.path} was written: run pitplan again into this folder"
            )
    return project


def plain(path: Path) -> Path:
    """Returns a path without the folders that it leaves again, unless a symbolic link makes that another file."""
    short = Path(os.path.normpath(path))
    return short if short.resolve() == path.resolve() else path


def as_text(file: Path, project: Project) -> tuple[pd.DataFrame, TableFormat]:
    """Returns every column of the table as text, named as in blocks.csv, and the format of the table."""
    form = format_of(file, project.table)
    frame = read_columns(file, form, Fields(codes=read_header(file, form)))
    frame.columns = pd.Index([shown_name(name) if name in FOUND else name for name in names_in_header(file, form)])
    return frame, form

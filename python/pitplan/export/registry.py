"""The export formats: the planner's table, CSV, workbook, VTK for ParaView, block models, DXF drawings, triangle meshes, and lines."""

from __future__ import annotations

from contextlib import AbstractContextManager, contextmanager
from pathlib import Path
from typing import Callable, Iterator, Optional

import numpy as np
import pandas as pd

from pitplan.config.project_writer import as_run
from pitplan.core import csv_writer, staging
from pitplan.core.atomic_files import staged as staged_files, staged_file
from pitplan.core.libraries import load
from pitplan.core.revenue_factors import factor_text, with_exact_factors
from pitplan.errors import PlanError
from pitplan.results import names
from pitplan.results.folder import Folder
from pitplan.results.pit_states import FACTOR, GROUND, Shape, places_of
from pitplan.results.rounding import heads_of

from . import datamine, lines, mesh as mesh_export, omf, planner_table, xlsx
from .mesh import PACKAGE, add_values, points_and_cells, save, write_image

# Writes the shells of a folder, or the pits of a shape; returns notes, if any.
Writer = Callable[[Path, Folder, Shape], Optional[list[str]]]
PLANNED = "table.csv"
# The formats that hold the pit of one revenue factor, or those of pushbacks or years.
OF_ONE = ("dxf", "stl", "obj", "gpkg", "str", "lines")
# Those of them with surfaces, and those with a file per stage.
SURFACES, SINGLE = ("dxf", "stl", "obj"), ("stl", "obj")
# Those with toes and crests only, with the suffix of their files.
LINES = {"gpkg": "gpkg", "str": "str", "lines": "csv"}
# The tables of a folder that become sheets of the workbook.
SHEETS = (
    *(names.SHELLS, names.YEARS, names.PUSHBACKS, names.SCHEDULE),
    *(names.MATERIAL_FLOWS, names.FEED, names.CUTOFFS, names.STOCKPILES, names.DUMPS),
    *(names.INVENTORY, names.CASH_FLOW, names.VALUATION),
)
# The corners of a cell in the order of a VTK voxel: steps east, north and up.
CORNERS = np.array([(x, y, z) for z in (0, 1) for y in (0, 1) for x in (0, 1)])


def name_of(kind: str, shape: Shape) -> str:
    """Returns the default name of the file or folder. Tables and VTK files hold all revenue factors, the others one pit, or all pushbacks or
    years."""
    if kind not in OF_ONE:
        return PLANNED if kind == "table" else f"pit.{kind}"
    of_what = factor_text(shape.revenue_factor) if shape.of == FACTOR else f"{shape.of}s"
    if kind in LINES:
        return f"lines-{of_what}.{LINES[kind]}"
    return f"{shape.surface}-{of_what}{'-' if is_folder(kind, shape) else '.'}{kind}"


def is_folder(kind: str, shape: Shape) -> bool:
    """Returns whether a folder is written, with a file per pushback or year."""
    return kind in SINGLE and shape.of != FACTOR


def staged(target: Path, kind: str, shape: Shape) -> AbstractContextManager[Path]:
    """Returns a context with a file or folder to write, which is moved to the target if no error is raised."""
    if not is_folder(kind, shape):
        return staged_file(target)
    return staged_folder(target, shape.of, kind)


@contextmanager
def staged_folder(target: Path, stage: str, kind: str) -> Iterator[Path]:
    """Yields a folder whose files move to the target if no error is raised. Those of an earlier export go: its pushbacks or years by number,
    and the surface before them."""
    with staging.alone(target):
        numbered = (it for it in target.glob(f"{stage}-*.{kind}") if it.stem.removeprefix(f"{stage}-").isdigit())
        with staged_files(target, whole=(*(it.name for it in numbered), f"before.{kind}")) as folder:
            yield folder


def demand_apt(kind: str, shape: Shape) -> None:
    """Raises PlanError if there is no such format, or it has no such shape."""
    if kind not in WRITERS:
        raise PlanError(f"{kind}: is not a format, expected one of {', '.join(WRITERS)}")
    if shape.of != FACTOR and kind not in OF_ONE:
        held = "all revenue factors, pushbacks and years"
        raise PlanError(f"{kind}: holds {held}, so {shape.of} cannot be selected: use one of {', '.join(OF_ONE)}")
    if shape.surface == GROUND and kind not in SURFACES:
        raise PlanError(f"{kind}: has no surface of the ground: use one of {', '.join(SURFACES)}")
    if shape.smooth and shape.surface != GROUND:
        raise PlanError("smooth: applies to the surface of the ground, not to that around blocks: add --surface ground")


def write_table(path: Path, folder: Folder, shape: Shape) -> None:
    """Writes the planner's own table with the results of each block. `shape` is not used."""
    planner_table.write(path, folder)


def write_csv(path: Path, folder: Folder, shape: Shape) -> None:
    """Writes the blocks of the largest pit by id, with their revenue factors. `shape` is not used."""
    blocks = folder.blocks
    csv_writer.write(path, blocks[blocks["revenue_factor"] > 0])


def write_vti(path: Path, folder: Folder, shape: Shape) -> None:
    """Writes all cells as VTK image data, with the numeric columns of blocks.csv. `shape` is not used."""
    numbers = folder.blocks.select_dtypes("number").columns
    write_image(path, folder.grid, {name: folder.grid.spread(folder.blocks[name].to_numpy()) for name in numbers})


def write_vtu(path: Path, folder: Folder, shape: Shape) -> None:
    """Writes the blocks with tonnes as VTK voxels, in metres, with the numeric columns of blocks.csv. `shape` is not used."""
    purpose = "a .vtu file"
    vtk, grid = load("vtk", PACKAGE, purpose), folder.grid
    blocks = folder.blocks[folder.blocks[folder.record["tonnes"]] > 0]
    levels, rows, columns = grid.shape
    column, row, level = grid.indices(blocks["id"].to_numpy())
    corners = np.stack([column, row, levels - 1 - level], axis=1)[:, None] + CORNERS
    used, at = np.unique(
        (corners[..., 2] * (rows + 1) + corners[..., 1]) * (columns + 1) + corners[..., 0], return_inverse=True
    )
    steps = np.stack(
        [used % (columns + 1), used // (columns + 1) % (rows + 1), used // ((columns + 1) * (rows + 1))], axis=1
    )
    points, cells = points_and_cells(places_of(grid, steps), at.reshape(len(blocks), 8), purpose)
    mesh = vtk.vtkUnstructuredGrid()
    mesh.SetPoints(points)
    mesh.SetCells(vtk.VTK_VOXEL, cells)
    add_values(mesh, {name: blocks[name].to_numpy() for name in blocks.select_dtypes("number")}, purpose)
    save(vtk.vtkXMLUnstructuredGridWriter(), path, mesh)


def write_xlsx(path: Path, folder: Folder, shape: Shape) -> None:
    """Writes the tables of the folder as sheets of a workbook. `shape` is not used."""
    there = [folder.path / name for name in SHEETS if name in folder.record["files"]]
    sheets = {table.stem: with_exact_factors(pd.read_csv(table)) for table in there}
    xlsx.write(path, sheets, (), heads_of(as_run(folder.path, folder.record["project"])))


WRITERS: dict[str, Writer] = {
    "table": write_table,
    "csv": write_csv,
    "xlsx": write_xlsx,
    "vti": write_vti,
    "vtu": write_vtu,
    "omf": omf.write_omf,
    "dm": datamine.write_dm,
    "dxf": lines.write_dxf,
    "stl": mesh_export.write_stl,
    "obj": mesh_export.write_obj,
    "gpkg": lines.write_gpkg,
    "str": lines.write_str,
    "lines": lines.write_lines,
}
# The files that hold all revenue factors.
WRITTEN = tuple(name_of(kind, Shape()) for kind in WRITERS if kind not in OF_ONE)

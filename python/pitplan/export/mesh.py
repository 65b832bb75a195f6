"""Pits as triangle meshes, by VTK: the closed surface around the mined blocks, or the ground with the pit in it, which is open."""

from __future__ import annotations

from dataclasses import dataclass, replace
from pathlib import Path
from typing import Any

import numpy as np

from pitplan.blockmodel.grid import Grid, metres, turn_of
from pitplan.core.libraries import load
from pitplan.core.tolerances import MESH_VOLUME
from pitplan.errors import PlanError
from pitplan.results.folder import Folder
from pitplan.results.pit_states import FACTOR, GROUND, Shape, Stage, places_of, rock, stages_of

# The topography with a pit in it, as an open triangle mesh: the tops of the remaining blocks, and the faces between
# them.
#
# The mesh has no lid over the pit, no walls at the sides of the model, and no faces where the table has no rock.
# Smoothing moves each corner by at most half a block along each axis.

NONE = -1
# Taubin smoothing: the two weights of the Laplacian, and how often both steps are taken.
SHRINK, GROW, TURNS = 0.5, -0.53, 10
# The largest displacement of a corner along an axis, in blocks.
MOST = 0.5


@dataclass(frozen=True)
class Heights:
    """Heights of the ground, in levels from the floor of the model; NONE without rock.

    Attributes
    ----------
    before, after : array of int, shape (rows, columns)
        Before and after mining.
    """

    before: np.ndarray
    after: np.ndarray

    @property
    def cells(self) -> int:
        """The number of cells between the two."""
        return int((self.before - self.after).sum())


@dataclass(frozen=True)
class TriangleMesh:
    """A mesh of triangles that face upwards or into the pit.

    Attributes
    ----------
    corners : array, shape (corners, 3)
        Steps from the west, the south and the floor of the grid.
    faces : array of int, shape (triangles, 3)
        Corners of each triangle.
    bench : array of int, shape (triangles,)
        Level of the bench of each triangle, from the floor; NONE where nothing is mined.
    """

    corners: np.ndarray
    faces: np.ndarray
    bench: np.ndarray


def heights_of(rock: np.ndarray, stage: Stage, grid: Grid) -> Heights:
    """Returns the heights before and after a stage. `rock` says which cells hold rock, shape (levels, rows, columns); levels from the top. Raises
    PlanError if rock remains above a mined cell."""
    levels = rock.shape[0]
    before = np.where(rock.any(axis=0), levels - rock.argmax(axis=0), NONE)
    floor = stage.mined[::-1].argmax(axis=0)
    after = np.where(stage.mined.any(axis=0), floor, before)
    stays = rock & ~stage.mined & (np.arange(levels)[::-1, None, None] > after)
    if stays.any():
        level, row, column = np.argwhere(stays)[0]
        x, y, z = (
            float(axis) for axis in grid.centres(np.array(np.ravel_multi_index((level, row, column), grid.shape)))
        )
        raise PlanError(
            f"the block at {metres(x)}, {metres(y)}, {metres(z)} remains above a mined one: the ground is not a surface"
        )
    return Heights(before, after)


def stepped(heights: Heights) -> TriangleMesh:
    """Returns the faces of the blocks; walls are divided by benches."""
    high = heights.after
    rows, columns = np.nonzero(high != NONE)
    tops = np.stack([columns, rows, high[rows, columns]], axis=1)
    mined = high[rows, columns] < heights.before[rows, columns]
    found = [(tops, np.array([[0, 0, 0], [1, 0, 0], [1, 1, 0], [0, 1, 0]]), np.where(mined, tops[:, 2], NONE))]
    found += [domains(heights, 1, step) for step in (1, -1)] + [domains(heights, 0, step) for step in (1, -1)]
    # Four corners a face, shape (faces, 4, 3), in two triangles each.
    quads = np.concatenate([base[:, None] + corners for base, corners, _ in found])
    corners, at = np.unique(quads.reshape(-1, 3), axis=0, return_inverse=True)
    at = at.reshape(-1, 4)
    faces = np.stack([at[:, [0, 1, 2]], at[:, [0, 2, 3]]], axis=1).reshape(-1, 3)
    return TriangleMesh(corners.astype(float), faces, np.repeat(np.concatenate([bench for _, _, bench in found]), 2))


def domains(heights: Heights, axis: int, step: int) -> tuple[np.ndarray, np.ndarray, np.ndarray]:
    """Returns the walls between a higher column and a lower one next to it: the lower corner of each wall, its four corners from there, and its
    bench. `axis` and `step` say where the walls face: east (1, 1), west (1, -1), north (0, 1) or south (0, -1)."""
    of_here, of_there = (slice(None, -1), slice(1, None))[::step]
    here, there = (np.moveaxis(heights.after, axis, 0)[part] for part in (of_here, of_there))
    was = np.moveaxis(heights.before, axis, 0)[of_there]
    first, second = np.nonzero((there != NONE) & (here > there))
    low, count = there[first, second], (here - there)[first, second]
    line, other, bottom, least = (np.repeat(part, count) for part in (first, second, low, was[first, second]))
    level = bottom + np.arange(len(bottom)) - np.repeat(np.cumsum(count) - count, count)
    # The wall lies where the two columns meet.
    at, bench = line + 1, np.where(level < least, level, NONE)
    if axis == 1:
        corners = [[0, 0, 0], [0, 1, 0], [0, 1, 1], [0, 0, 1]]
        base = np.stack([at, other, level], axis=1)
    else:
        corners = [[1, 0, 0], [0, 0, 0], [0, 0, 1], [1, 0, 1]]
        base = np.stack([other, at, level], axis=1)
    return base, np.array(corners if step > 0 else corners[::-1]), bench


def smoothed(surface: TriangleMesh) -> TriangleMesh:
    """Returns the mesh smoothed by Taubin's method (1995), which nearly preserves volumes. Corners move by at most MOST along each axis; those at
    the rim of the mesh, which are the sides of the model, stay.
    """
    # The sides of block faces, which are pairs of consecutive triangles, without their diagonals.
    first, second = surface.faces[::2], surface.faces[1::2]
    sides = np.concatenate([first[:, [0, 1]], first[:, [1, 2]], second[:, [1, 2]], second[:, [2, 0]]])
    edges, uses = np.unique(np.sort(sides, axis=1), axis=0, return_counts=True)
    ends = np.concatenate([edges, edges[:, ::-1]])
    beside = np.bincount(ends[:, 0], minlength=len(surface.corners))[:, None]
    is_free = np.ones(len(surface.corners), dtype=bool)
    is_free[edges[uses == 1]] = False
    moved = surface.corners.copy()
    for by in (SHRINK, GROW) * TURNS:
        total = np.stack([np.bincount(ends[:, 0], moved[ends[:, 1], axis], len(moved)) for axis in range(3)], axis=1)
        moved[is_free] += by * (total / beside - moved)[is_free]
        moved = np.clip(moved, surface.corners - MOST, surface.corners + MOST)
    return replace(surface, corners=moved)


def volume_under(surface: TriangleMesh) -> float:
    """Returns the volume between a mesh and the floor of the model, in cells. Vertical faces add none."""
    a, b, c = (surface.corners[surface.faces[:, k]] for k in range(3))
    area = ((b - a)[:, 0] * (c - a)[:, 1] - (b - a)[:, 1] * (c - a)[:, 0]) / 2
    return float((area * (a + b + c)[:, 2] / 3).sum())


def of_stage(rock: np.ndarray, stage: Stage, grid: Grid, smooth: bool) -> tuple[TriangleMesh, str]:
    """Returns the mesh of a stage, with `smooth` without the steps of blocks, and a sentence on the volume between it and the original ground and on
    that of the mined cells. Raises PlanError if rock remains above a mined cell, or the two volumes differ by more than the share MESH_VOLUME.
    """
    heights = heights_of(rock, stage, grid)
    untouched = Heights(heights.before, heights.before)
    cell = float(np.prod(grid.size))
    faces = stepped(heights)
    volume, expected = (volume_under(stepped(untouched)) - volume_under(faces)) * cell, heights.cells * cell
    said = f"{volume:,.0f} m3 lie between it and the original ground, and the {heights.cells:,} mined cells hold {expected:,.0f} m3"
    if abs(volume - expected) > MESH_VOLUME * expected:
        raise PlanError(f"{stage.name}: {said}: please report this")
    if not smooth:
        return faces, f"{len(faces.faces):,} triangles; {said}"
    found = smoothed(faces)
    volume = (volume_under(smoothed(stepped(untouched))) - volume_under(found)) * cell
    more = f", {100 * (volume / expected - 1):+.2f} %" if expected else ""
    said = f"smoothed within half a block, {volume:,.0f} m3 lie between it and the original ground, also smoothed"
    return (
        found,
        f"{len(found.faces):,} triangles; {said}; the {heights.cells:,} mined cells hold {expected:,.0f} m3{more}",
    )


PACKAGE = "python3-vtk9"


def image_of(grid: Grid, cells: dict[str, np.ndarray], purpose: str) -> Any:
    """Returns vtkImageData in metres with named arrays, shape (cells,). A rotated grid has its direction matrix. Raises MissingPackage without VTK;
    `purpose` is what needs it."""
    vtk = load("vtk", PACKAGE, purpose)
    levels, rows, columns = grid.shape
    west, _, south, _, floor, _ = grid.extent()
    image = vtk.vtkImageData()
    image.SetDimensions(columns + 1, rows + 1, levels + 1)
    image.SetSpacing(*grid.size)
    x, y = grid.frame.back(np.array(west), np.array(south))
    image.SetOrigin(float(x), float(y), floor)
    east = turn_of(grid.azimuth)
    image.SetDirectionMatrix(east.real, -east.imag, 0, east.imag, east.real, 0, 0, 0, 1)
    # VTK counts levels from the floor.
    add_values(image, {name: grid.cube(values)[::-1].ravel() for name, values in cells.items()}, purpose)
    return image


def add_values(data: Any, values: dict[str, np.ndarray], purpose: str) -> None:
    """Adds named arrays with a value per cell to data of VTK."""
    for name, of_cells in values.items():
        array = load("vtk.util.numpy_support", PACKAGE, purpose).numpy_to_vtk(of_cells, deep=True)
        array.SetName(name)
        data.GetCellData().AddArray(array)


def points_and_cells(places: np.ndarray, corners: np.ndarray, purpose: str) -> tuple[Any, Any]:
    """Returns vtkPoints at places in metres, shape (points, 3), and vtkCellArray with the points of each cell, shape (cells, corners)."""
    vtk, numpy_support = load("vtk", PACKAGE, purpose), load("vtk.util.numpy_support", PACKAGE, purpose)
    points, cells = vtk.vtkPoints(), vtk.vtkCellArray()
    points.SetData(numpy_support.numpy_to_vtk(places, deep=True))
    starts = np.arange(0, corners.size + 1, corners.shape[1])
    arrays = (part.ravel().astype(np.int64) for part in (starts, corners))
    cells.SetData(*(numpy_support.numpy_to_vtkIdTypeArray(part, deep=True) for part in arrays))
    return points, cells


def write_image(path: Path, grid: Grid, cells: dict[str, np.ndarray]) -> None:
    """Writes named arrays, shape (cells,), as a .vti file. Raises MissingPackage without VTK, and PlanError if it cannot be written."""
    image = image_of(grid, cells, "a .vti file")
    save(load("vtk", PACKAGE, "a .vti file").vtkXMLImageDataWriter(), path, image)


def save(writer: Any, path: Path, data: Any) -> None:
    """Writes a file with one of VTK's writers. Raises PlanError if it cannot be written."""
    writer.SetFileName(str(path))
    writer.SetInputData(data)
    if not writer.Write():
        raise PlanError(f"{path}: cannot be written")


def write_stl(path: Path, folder: Folder, shape: Shape) -> list[str]:
    """Writes the surface of a pit as STL, in metres, or of each pushback or year into the folder `path`. Returns a sentence on the volume of each
    surface. Raises MissingPackage without VTK, and PlanError if the pit is empty, or the volume of a surface differs from that of its blocks.
    """
    writer = load("vtk", PACKAGE, "export --to stl").vtkSTLWriter()
    writer.SetFileTypeToASCII()
    return write_each(path, folder, shape, "stl", writer=writer)


def write_obj(path: Path, folder: Folder, shape: Shape) -> list[str]:
    """Writes the same as Wavefront OBJ."""
    writer = load("vtk", PACKAGE, "export --to obj").vtkOBJWriter()
    return write_each(path, folder, shape, "obj", writer=writer)


def write_each(path: Path, folder: Folder, shape: Shape, kind: str, *, writer: Any) -> list[str]:
    """Writes a file per stage; returns a sentence on each. The pit of a stage in which nothing is mined has no file."""
    said = []
    for stage in stages_of(folder, shape):
        place = path if shape.of == FACTOR else path / f"{stage.name}.{kind}"
        if shape.surface != GROUND and not stage.mined.any():
            said.append(f"{stage.name}: nothing is mined by its end, so it has no surface")
            continue
        surface, told = (
            of_ground(folder, stage, shape) if shape.surface == GROUND else of_pit(place.name, folder, stage)
        )
        save(writer, place, surface)
        said.append(f"{place.name}: {told}")
    return said


def of_ground(folder: Folder, stage: Stage, shape: Shape) -> tuple[Any, str]:
    """Returns the ground at a stage as vtkPolyData, and a sentence on its volume. Raises PlanError as `of_stage`."""
    mesh = load("vtk", PACKAGE, "a surface").vtkPolyData()
    surface, said = of_stage(rock(folder), stage, folder.grid, shape.smooth)
    points, triangles = points_and_cells(places_of(folder.grid, surface.corners), surface.faces, "a surface")
    mesh.SetPoints(points)
    mesh.SetPolys(triangles)
    return mesh, said


def of_pit(name: str, folder: Folder, stage: Stage) -> tuple[Any, str]:
    """Returns the closed surface around the blocks of a stage as vtkPolyData, and a sentence on both volumes. Raises PlanError as `write_stl`."""
    vtk, grid = load("vtk", PACKAGE, "a surface"), folder.grid
    surface = round_cells(vtk, image_of(grid, {"mined": stage.mined.astype(np.uint8).ravel()}, "a surface"))
    measured = vtk.vtkMassProperties()
    measured.SetInputData(surface)
    blocks = int(np.count_nonzero(stage.mined))
    volume, expected = measured.GetVolume(), blocks * float(np.prod(grid.size))
    said = (
        f"{surface.GetNumberOfCells():,} triangles hold {volume:,.0f} m3, and the {blocks:,} blocks {expected:,.0f} m3"
    )
    if abs(volume - expected) > MESH_VOLUME * expected:
        raise PlanError(f"{name}: {said}: please report this")
    return surface, said


def round_cells(vtk: Any, image: Any) -> Any:
    """Returns the faces between mined cells of image data and all others, as triangles that face outwards."""
    cells, faces, triangles = vtk.vtkThreshold(), vtk.vtkGeometryFilter(), vtk.vtkTriangleFilter()
    cells.SetInputData(image)
    cells.SetInputArrayToProcess(0, 0, 0, vtk.vtkDataObject.FIELD_ASSOCIATION_CELLS, "mined")
    cells.SetThresholdFunction(vtk.vtkThreshold.THRESHOLD_UPPER)
    cells.SetUpperThreshold(0.5)
    cells.SetOutputPointsPrecision(vtk.vtkAlgorithm.DOUBLE_PRECISION)
    faces.SetOutputPointsPrecision(vtk.vtkAlgorithm.DOUBLE_PRECISION)
    faces.SetInputConnection(cells.GetOutputPort())
    triangles.SetInputConnection(faces.GetOutputPort())
    triangles.Update()
    return triangles.GetOutput()

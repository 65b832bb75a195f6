"""The page of plans and sections, the arrays that it draws, and the areas that are drawn or uploaded there: a file next to the project, and an
entry of its [[constraints.areas]]."""

from __future__ import annotations

import math
import os
import re
from collections.abc import Mapping
from contextlib import suppress
from functools import cached_property
from pathlib import Path
from typing import TYPE_CHECKING
from urllib.parse import quote

from starlette.concurrency import run_in_threadpool
from starlette.requests import Request
from starlette.responses import JSONResponse, Response
from starlette.routing import Route
from tomlkit.items import AoT

from pitplan.config.geometry import SIDES, Area
from pitplan.config.project_writer import shown as toml_of
from pitplan.config.table import SurveyFile
from pitplan.core.atomic_files import staged_file
from pitplan.errors import PlanError

from . import project_text
from .draft import Draft, Path as Place
from .pages import MOST_BYTES, Answer, PageGroup, Pages, form_of, in_words, threaded
from .project_text import Editor
from .run_form import WrongForm
from .workspace import NotThere

# The modules of block models need pandas, which is loaded when a page needs it.
if TYPE_CHECKING:
    from .block_data import Blocks, Store

BYTES = "application/octet-stream"


class BlockPages(PageGroup):
    """The answers of plans and sections."""

    @cached_property
    def store(self) -> Store:
        """The models that were asked for last."""
        from .block_data import Store

        return Store()

    @property
    def routes(self) -> list[Route]:
        arrays: dict[str, Answer] = {"model": self.model, "cells": self.cells, "row": self.row}
        arrays |= {"column": self.column, "values": self.values}
        return [
            Route("/blocks", self.pages.answering(self.page)),
            *(Route(f"/blocks/{name}", in_words(threaded(answer))) for name, answer in arrays.items()),
        ]

    def page(self, request: Request) -> Response:
        name = request.query_params.get("name", "")
        is_project = not self.place(name).is_dir()
        return self.pages.page("blocks.html", title=f"Plans and sections: {name}", name=name, is_project=is_project)

    def place(self, name: str) -> Path:
        """Returns the path of an output folder or a project. Raises NotThere if it is neither."""
        path = self.workspace.place(name)
        return path if path.is_dir() else self.pages.project_path(name)

    def blocks(self, request: Request) -> Blocks:
        """Returns the blocks that a request names. Raises PlanError if they cannot be read."""
        return self.store.of(self.place(request.query_params.get("name", "")))

    def model(self, request: Request) -> Response:
        return JSONResponse(self.blocks(request).as_json)

    def cells(self, request: Request) -> Response:
        """The cell of each row, as unsigned integers of 32 bits."""
        return Response(self.blocks(request).cells.astype("<u4").tobytes(), media_type=BYTES)

    def column(self, request: Request) -> Response:
        """The range of a column, or its codes with their colours."""
        shown = self.blocks(request).column(request.query_params.get("column", ""))
        return JSONResponse(shown.as_json)

    def values(self, request: Request) -> Response:
        """The values of a column by row: floats of 32 bits, or the places of its codes as bytes."""
        shown = self.blocks(request).column(request.query_params.get("column", ""))
        return Response(shown.values.tobytes(), media_type=BYTES)

    def row(self, request: Request) -> Response:
        text = request.query_params.get("cell", "")
        if not (text.isascii() and text.isdigit() and len(text) < 12):
            raise NotThere(f"cell {text[:20]}: found no number, expected that of a cell")
        return JSONResponse(self.blocks(request).row(int(text)))


ENDINGS = (".csv", ".dxf", ".str", ".gpkg", ".geojson")
NAME = re.compile(r"\w[\w -]{0,59}")
# The most bytes of a file with polygons, and the most corners that are drawn.
MOST_FILE, MOST_CORNERS = 64 << 20, 2_000


class AreaPages(PageGroup):
    """The answers to areas, over the blocks that `blocks` shows."""

    def __init__(self, pages: Pages, blocks: BlockPages) -> None:
        super().__init__(pages)
        self.blocks = blocks

    @property
    def routes(self) -> list[Route]:
        return [
            Route("/project/area", in_words(threaded(self.drawn, 4 * MOST_BYTES)), methods=["POST"]),
            Route("/project/area-file", in_words(self.uploaded), methods=["PUT"]),
        ]

    def drawn(self, request: Request) -> Response:
        form = form_of(request)
        corners = corners_of(form.get("corners", ""))
        lines = "".join(f"{x:.3f},{y:.3f}\n" for x, y in corners)
        return self.added(form, ".csv", f"x,y\n{lines}".encode())

    async def uploaded(self, request: Request) -> Response:
        given = dict(request.query_params)
        ending = Path(given.get("file", "")).suffix.lower()
        if ending not in ENDINGS:
            raise WrongForm(f"Polygon: {given.get('file', '')[:60]}: expected a file that ends in {', '.join(ENDINGS)}")
        content = bytearray()
        async for part in request.stream():
            content += part
            if len(content) > MOST_FILE:
                raise WrongForm(f"Polygon: has more than {MOST_FILE >> 20} MiB: export the polygon alone")
        return await run_in_threadpool(self.added, given, ending, bytes(content))

    def added(self, form: Mapping[str, str], ending: str, content: bytes) -> Response:
        """Writes the file and the key, or neither. Raises PlanError if the area cannot be used."""
        name = form.get("project", "")
        path = self.pages.project_path(name)
        area = area_of(path, form, ending)
        self.write(path, name, area, content)
        return JSONResponse({"next": f"/blocks?name={quote(name)}"}, status_code=201)

    def write(self, path: Path, name: str, area: Area, content: bytes) -> None:
        """Writes the file and the key. Raises PlanError if no block lies in the area, or one of them cannot be written."""
        from pitplan.constraints import in_area

        editor = project_text.demanded(project_text.opened(path, name), path, name)
        text = with_area(editor.text, area)
        grid = self.blocks.store.of(path).grid
        file = area.polygon.path
        demand_free(file)
        with staged_file(file) as place:
            place.write_bytes(content)
        try:
            in_area(grid, area)
            project_text.save(path, name, project_text.demanded(Editor(text, editor.seen), path, name))
        except PlanError as error:
            with suppress(OSError):
                file.unlink()
            raise WrongForm(str(error).replace(f"{path.parent}/", "")) from error


def area_of(path: Path, form: Mapping[str, str], ending: str) -> Area:
    """Returns the area of a form. Raises WrongForm if its name or side is wrong, with the field and the remedy."""
    called, side = form.get("name", "").strip(), form.get("side", "")
    if not NAME.fullmatch(called):
        raise WrongForm(
            f"Name of the area: found {called[:60]!r}, expected letters, digits, blanks, _ and -, such as lease"
        )
    if side not in SIDES:
        raise WrongForm(f"May not be mined: found {side[:20]!r}, expected one of {', '.join(SIDES)}")
    file = path.parent / f"{called}{ending}"
    demand_free(file)
    return Area(SurveyFile(file), side)


def demand_free(file: Path) -> None:
    """Raises WrongForm if there is a file of this name."""
    if os.path.lexists(file):
        raise WrongForm(f"Name of the area: {file.name}: exists already: give another name")


def corners_of(text: str) -> list[tuple[float, float]]:
    """Returns the corners of a text, x and y a line. Raises WrongForm if one is wrong, with its line."""
    found = []
    for number, line in enumerate(text.strip().splitlines(), 1):
        fields = line.replace(",", " ").replace(";", " ").split()
        try:
            x, y = map(float, fields)
        except ValueError as error:
            raise WrongForm(f"Corners, line {number}: found {line[:40]!r}, expected x and y in metres") from error
        if not (math.isfinite(x) and math.isfinite(y)):
            raise WrongForm(f"Corners, line {number}: found {line[:40]!r}, expected x and y in metres")
        found.append((x, y))
    if not 3 <= len(found) <= MOST_CORNERS:
        raise WrongForm(f"Corners: found {len(found):,}, expected 3 to {MOST_CORNERS:,}: click corners on the plan")
    return found


def with_area(text: str, area: Area) -> str:
    """Returns a project's text with an area more. Raises WrongForm if its areas are not written as [[constraints.areas]]."""
    draft = Draft(text)
    place: Place = ("constraints", "areas")
    before = draft.at(place)
    if before is not None and not isinstance(before, AoT):
        raise WrongForm("Constraints: areas are not written as [[constraints.areas]]: add this one in the text")
    keys: dict[Place, str] = {("polygon",): toml_of(area.polygon.path.name), ("exclude",): toml_of(area.exclude)}
    draft.insert(place, len(before or ()), keys)
    return draft.text

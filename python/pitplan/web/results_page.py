"""What the page of an output folder shows: its notes, tables, figures and files."""

from __future__ import annotations

import csv
import json
from collections.abc import Callable, Iterator
from dataclasses import dataclass
from decimal import Decimal, InvalidOperation
from functools import cached_property, partial
from itertools import islice
from pathlib import Path
from typing import IO, TYPE_CHECKING, Any, Optional

from markupsafe import Markup, escape

from pitplan.config import project_writer
from pitplan.config.project import load
from pitplan.core import layout
from pitplan.core.text_tables import MOST_IN_A_LINE
from pitplan.errors import WARNING, PlanError
from pitplan.results.names import TABLE
from pitplan.results.rounding import heads_of

from .workspace import RECORDS, FileCache, Workspace

# Charts need pandas, which is loaded when a page needs it.
if TYPE_CHECKING:
    from .charts import Chart


# What each format is called on pages.
WORDS = {
    "table": "your table with revenue factor, pushback and year",
    "csv": "blocks of all pits, CSV",
    "xlsx": "all tables, Excel workbook",
    "vti": "all cells, ParaView image",
    "vtu": "blocks of rock, ParaView grid",
    "omf": "block model, OMF 1",
    "dm": "block model, Datamine",
    "dxf": "toes and crests, or the ground, DXF",
    "stl": "surface, STL",
    "obj": "surface, OBJ",
    "gpkg": "toes and crests, GeoPackage",
    "str": "toes and crests, Surpac strings",
    "lines": "toes and crests, CSV",
}


# The most rows of a table on a page.
MOST_ROWS = 2_000
# A number with more digits before or after the point is shown as it is written.
MOST_DIGITS = 18
PICTURES = (".png", ".svg")
# The tables that planners read first, in this order.
FIRST = ("methods.csv", "shells.csv", "pushbacks.csv", "years.csv", "sensitivity.csv", "valuation.csv", "cash_flow.csv")


@dataclass(frozen=True)
class TablePage:
    """A page of a table.

    Attributes
    ----------
    rows : list of list of str
        A text for each name.
    count : int
        How many rows the table has.
    first : int
        How many rows lie before this page.
    """

    names: list[str]
    rows: list[list[str]]
    count: int
    first: int = 0

    @cached_property
    def are_numbers(self) -> list[bool]:
        """Whether each column has numbers, or nothing, in all rows."""
        columns = zip(*self.rows) if self.rows else [() for _ in self.names]
        return [bool(column) and all(it == "" or is_number(it) for it in column) for column in columns]

    @property
    def page(self) -> int:
        """The number of this page, from 1."""
        return 1 + self.first // MOST_ROWS

    @property
    def pages(self) -> int:
        return 1 + max(0, self.count - 1) // MOST_ROWS

    @property
    def lines(self) -> Markup:
        """The rows as HTML. A template takes four times as long."""
        columns = [
            [number_cell(it) if is_number else f"<td>{escape(it)}</td>" for it in column]
            for column, is_number in zip(zip(*self.rows), self.are_numbers)
        ]
        return Markup("\n".join(f"<tr>{''.join(cells)}</tr>" for cells in zip(*columns)))


def number_cell(text: str) -> str:
    """Returns the cell of a number, with its digits in groups of three; then scripts read the number as it is written."""
    shown = grouped(text)
    return f'<td class="number">{text}</td>' if shown == text else f'<td class="number" data-raw="{text}">{shown}</td>'


def is_number(text: str) -> bool:
    try:
        return Decimal(text).is_finite()
    except InvalidOperation:
        return False


def grouped(text: str) -> str:
    """Returns a number with its digits in groups of three. Any other text, and a number with a large exponent, is returned unchanged."""
    try:
        number = Decimal(text)
    except InvalidOperation:
        return text
    return f"{number:,f}" if number.is_finite() and abs(number.adjusted()) <= MOST_DIGITS else text


def head_of(path: Path) -> Callable[[str], str]:
    """Returns what makes the heading of a column of a table, with its unit if the project of the run beside it can be read."""
    try:
        return heads_of(load(project_of(path)))
    except PlanError:
        return str


def project_of(path: Path) -> Path:
    """Returns where the project of the run lies that has written a table."""
    return path.parents[1] / project_writer.AS_RUN


def read_table(path: Path, page: int = 1) -> TablePage:
    """Reads a page of a table that pitplan has written, the last one if there are fewer. Raises PlanError if the file is not a table."""
    try:
        with open(path, encoding="utf-8", newline="") as file:
            count, is_quoted = -1, False
            for line in lines_of(file):
                count, is_quoted = count + 1, is_quoted or '"' in line
            if is_quoted:
                # A field in quotes may have several lines.
                file.seek(0)
                count = sum(1 for _ in csv.reader(lines_of(file))) - 1
            first = MOST_ROWS * min(page - 1, max(0, count - 1) // MOST_ROWS)
            file.seek(0)
            lines = lines_of(file)
            names: list[str] = next(csv.reader(lines), [])
            if is_quoted:
                found = list(islice(csv.reader(lines), first, first + MOST_ROWS))
            else:
                found = list(csv.reader(islice(lines, first, first + MOST_ROWS)))
    except (OSError, ValueError, csv.Error) as error:
        raise PlanError(f"{path.name}: cannot be read as a table: {error}") from error
    # A row that was cut is filled, so that the page shows what there is.
    rows = [[*row[: len(names)], *[""] * (len(names) - len(row))] for row in found]
    return TablePage(names, rows, max(0, count), first)


def lines_of(file: IO[str]) -> Iterator[str]:
    """Yields the lines of a text. Raises ValueError if one has more than MOST_IN_A_LINE letters."""
    for line in iter(partial(file.readline, MOST_IN_A_LINE + 1), ""):
        if len(line) > MOST_IN_A_LINE:
            raise ValueError(f"a line has more than {MOST_IN_A_LINE:,} letters")
        yield line


@dataclass(frozen=True)
class Page:
    """The parts of the page.

    Attributes
    ----------
    verified : int, optional
        How many rules of the verification hold; None of results that have no rules of their own, such as a comparison.
    figures, tables, pages, files : list of str
        Names from the folder that is served: pictures; tables; report and 3D view; all files.
    has_blocks : bool
        Whether there are shells, whose blocks can be drawn.
    stages : list of str
        What an export may be of: revenue_factor, and pushback or year if the results have them.
    """

    notes: list[str]
    verified: Optional[int]
    figures: list[str]
    tables: list[str]
    pages: list[str]
    files: list[str]
    has_blocks: bool
    charts: list[Chart]
    stages: list[str]

    @property
    def warnings(self) -> list[str]:
        return [it.removeprefix(WARNING) for it in self.notes if it.startswith(WARNING)]

    @property
    def view(self) -> str:
        """The name of the 3D view; empty without one."""
        return next((name for name in self.pages if name.endswith("/view.html")), "")

    @property
    def workbook(self) -> str:
        """The name of the workbook; empty without one."""
        return next((name for name in self.files if name.endswith(".xlsx")), "")


def page_of(folder: Path, workspace: Workspace, charts: FileCache[list[Chart]]) -> Page:
    """Returns the parts of the page of an output folder, with the charts that are kept while its files are unchanged. Raises PlanError if it has no
    record."""
    record = record_of(folder)
    files = sorted(
        it
        for it in folder.rglob("*")
        if it.is_file() and not any(part.startswith(".") for part in it.relative_to(folder).parts)
    )
    named = [(it, workspace.name(it)) for it in files if it.resolve().is_relative_to(workspace.root)]
    figures = [name for it, name in named if it.suffix in PICTURES and it.parent.name == layout.FIGURES]
    tables = [(it, name) for it, name in named if it.suffix == ".csv" and it.parent.name == layout.TABLES]
    order = {name: place for place, name in enumerate(FIRST)}
    tables.sort(key=lambda pair: (order.get(pair[0].name, len(order)), pair[1]))
    pages = [name for it, name in named if it.suffix == ".html" and it.parent == folder]
    notes = [str(note) for note in record.get("notes", [])]
    drawn = [it for it in files if it.suffix in (".csv", ".json", ".toml")]
    return Page(
        notes,
        len(record["verified"]) if "verified" in record else None,
        figures,
        [name for _, name in tables],
        pages,
        [name for _, name in named],
        "shells" in record and (folder / TABLE).is_file(),
        charts.of(folder, drawn, lambda: charts_in(folder, record)),
        ["revenue_factor", *(key for key, name in (("pushback", "pushbacks"), ("year", "schedule")) if name in record)],
    )


def charts_in(folder: Path, record: dict[str, Any]) -> list[Chart]:
    """Returns the charts of a plan; none if its project cannot be read."""
    from .charts import charts_of

    try:
        return charts_of(folder, record, load(folder / project_writer.AS_RUN))
    except PlanError:
        return []


def record_of(folder: Path) -> dict[str, Any]:
    """Reads the record of an output folder. Raises PlanError if the folder has no record."""
    for name in RECORDS:
        try:
            return dict(json.loads((folder / name).read_text(encoding="utf-8")))
        except (OSError, ValueError, TypeError):
            continue
    raise PlanError(f"{folder.name}: is no output folder of pitplan: it has no record")

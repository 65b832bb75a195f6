"""Reads the table of blocks from a file or from pandas, and checks it completely.

Rows are counted as in a spreadsheet: if the header is row 1, the first block is row 2.
"""

from __future__ import annotations

from collections.abc import Callable, Sequence
from dataclasses import dataclass, field, replace
from pathlib import Path
from typing import Optional

import numpy as np
import pandas as pd

from pitplan.config.project import Project
from pitplan.config.table import TableColumns
from pitplan.core import numeric_fields, text_tables
from pitplan.core.numeric_fields import TableSource, demand_none, holds_texts, numbers_of, row_of
from pitplan.core.text_tables import (
    MIXED,
    NAMES,
    UNREADABLE,
    USUAL,
    Fields,
    Mixed,
    TableFormat,
    demand_columns,
    demand_each_once,
    encoding_of,
    first_lines,
    layout_of,
    names_in_header,
    read_columns,
    unreadable,
)
from pitplan.errors import PlanError

from . import cell_volumes, datamine, omf, resource_classes
from .cell_volumes import CellVolumes
from .row_rules import numbers_of_codes, ruled
from .table_checks import (
    codes_of,
    demand_amounts,
    demand_codes,
    demand_codes_apart,
    file_columns,
    grades_of,
    names_of,
    text_columns,
    untyped_columns,
)

# Cost adjustment factors of blocks: MCAF multiplies the mining cost, PCAF the processing cost.
#
# A block with tonnes needs a factor from 0; an empty field is an error. A block without tonnes costs nothing, so an
# empty field is 1 there.

# The factor of a block whose cost is not adjusted.
UNADJUSTED = 1.0


def complete(frame: pd.DataFrame, project: Project, source: str) -> None:
    """Fills empty factors of blocks without tonnes, in place; `frame` has numbers, nan where a field is empty.

    Raises PlanError, by row and column, if a factor is negative, or empty in a block with tonnes.
    """
    money, solid = project.economics, frame[project.table.tonnes].to_numpy() > 0
    for key, name in (("mcaf", money.mcaf), ("pcaf", money.pcaf)):
        if not name:
            continue
        factors, expected = frame[name].to_numpy(), f"expected the [economics] {key} of the block, a number from 0"
        negative, empty = factors < 0, np.isnan(factors)
        demand_none(negative, source, name, lambda row: f"{factors[row]:g} is negative: {expected}")
        demand_none(empty & solid, source, name, f"is empty: {expected}: write 1 if its cost is not adjusted")
        frame[name] = np.where(empty, UNADJUSTED, factors)


# Bytes of the longest first page of a Datamine file.
HEAD = 8 * datamine.PAGE
# A record is a row, from 1, and no row has the names.
ROWS = (0, 1)
# What reads a block model: it takes a file and the columns of codes, and returns the rows and how the file was recognised.
ModelReader = Callable[[Path, Sequence[str]], tuple[pd.DataFrame, str]]
DECIMAL_COMMA = r"[-+]?\d*(,\d+)?([eE][-+]?\d+)?"


def model_reader(file: Path) -> Optional[ModelReader]:
    """Returns what reads a block model of OMF or of Datamine; None for another file. Raises PlanError if it cannot be read."""
    try:
        with open(file, "rb") as data:
            head = data.read(HEAD)
    except UNREADABLE as error:
        raise unreadable(file, error) from error
    return omf.read if omf.is_omf(file, head) else datamine.read if datamine.is_datamine(file, head) else None


@dataclass(frozen=True)
class Table:
    """A checked table.

    Attributes
    ----------
    frame : DataFrame
        One row per block, in the order of the file: numbers as float64, codes (id, rock type, domain, class) as text.
    source : str
        The file, or "table" if it came from pandas.
    filled : int
        Number of empty fields that were read as 0.
    notes : tuple of str
        Notes on the format of the text.
    unused : tuple of str
        Columns that the project does not name.
    warned : tuple of str
        Warnings about texts that spreadsheets may take for formulas.
    cells : CellVolumes, optional
        The cells of the rows, if the project names their sizes.
    zeros : dict of str to bool array
        By column the rows of the file, without those left out, whose null is read as 0.
    """

    frame: pd.DataFrame
    source: str
    filled: int
    notes: tuple[str, ...] = ()
    unused: tuple[str, ...] = ()
    warned: tuple[str, ...] = ()
    cells: Optional[CellVolumes] = None
    zeros: dict[str, np.ndarray] = field(default_factory=dict)


def read(project: Project) -> Table:
    """Returns the table of `project.table.file` (text, .gz, .zip, .parquet, .omf or .dm), with the columns that the project names. Raises
    PlanError, with file, row and column, if a column is missing or a field is not usable, and MissingPackage if the package that reads Parquet is
    not installed."""
    columns = project.table
    codes, wanted = text_columns(project), file_columns(project)
    if text_tables.is_parquet(columns.file):
        frame, names = text_tables.read_parquet(columns.file, codes, wanted)
        demand_columns(pd.DataFrame(columns=names), wanted, str(columns.file))
        return replace(
            checked(frame, project, str(columns.file)), unused=tuple(name for name in names if name not in wanted)
        )
    if read_model := model_reader(columns.file):
        frame, kind = read_model(columns.file, codes)
        table = checked(frame, project, TableSource.of(str(columns.file), *ROWS))
        return replace(table, notes=(kind, *table.notes))
    # The type of these columns is unknown: they are read as texts, since pieces of them may look like numbers.
    untyped = untyped_columns(project)
    frame, form = read_as_written(columns.file, columns, [*codes, *untyped], wanted)
    for name in untyped if form.decimal == "," else ():
        frame[name] = with_points(frame[name], columns.rules.nulls.of(name))
    source = TableSource.of(str(columns.file), form.header_row, form.first_row)
    table = checked(frame, project, source)
    return replace(table, notes=(*notes_of(form, columns), *table.notes))


def read_whole(file: Path) -> tuple[pd.DataFrame, TableFormat]:
    """Returns all columns of a file without a project, and its format. Raises PlanError if it is not a table."""
    if read_model := model_reader(file):
        frame, kind = read_model(file, ())
        return frame, TableFormat(",", ".", USUAL, *ROWS, recognised=kind)
    form = recognised(file)
    frame = read_columns(file, form)
    if form.separator != "," and form.decimal == "." and has_decimal_commas(frame, list(frame.columns)):
        form = replace(form, decimal=",")
        frame = read_columns(file, form)
    return frame, form


def recognised(file: Path, encoding: Optional[str] = None, separator: Optional[str] = None) -> TableFormat:
    """Returns the format of a text, as far as it is not given. Raises PlanError if the file cannot be read."""
    named = encoding or encoding_of(file)
    errors = MIXED if encoding is None and named == USUAL else "strict"
    return replace(layout_of(first_lines(file, named, errors), separator), encoding=named, errors=errors)


def format_of(file: Path, columns: TableColumns) -> TableFormat:
    """Returns the text format of the project; what this leaves open is recognised. Raises PlanError if the file cannot be read."""
    found = recognised(file, columns.encoding, columns.separator)
    header = columns.header_row or found.header_row
    first = columns.first_row or max(found.first_row if header == found.header_row else 0, header + 1)
    return replace(found, decimal=columns.decimal or found.decimal, header_row=header, first_row=first)


def read_as_written(
    file: Path, columns: TableColumns, codes: list[str], wanted: list[str]
) -> tuple[pd.DataFrame, TableFormat]:
    """Returns the file as `read_columns` reads it, and its format: that of the project, otherwise that of the text."""
    form = format_of(file, columns)
    # The reader would give the second of two columns of one name another.
    source = TableSource.of(str(file), form.header_row, form.first_row)
    demand_each_once([name for name in names_in_header(file, form) if name in wanted], source)
    before = Mixed.count
    numbers = [name for name in wanted if name not in codes]
    fields = Fields(
        [name for name in codes if name == columns.id or name not in wanted],
        [name for name in codes if name != columns.id and name in wanted],
        # A column whose other fields are null codes in words is one of numbers.
        {name: [it for it in columns.rules.nulls.of(name) if not numbers_of_codes([it])] for name in numbers},
    )
    frame = read_columns(file, form, fields)
    form = replace(form, otherwise=Mixed.count - before)
    # Where fields are parted by commas, one within a number parts thousands.
    if columns.decimal is None and form.separator != "," and has_decimal_commas(frame, numbers):
        form = replace(form, decimal=",")
        frame = read_columns(file, form, fields)
    return frame, form


def with_points(column: pd.Series, nulls: Sequence[str]) -> pd.Series:
    """Returns a column of texts with points as decimal marks if all of its fields are numbers with commas, empty or null codes."""
    texts = column.astype(object).str.strip()
    is_number = texts.str.fullmatch(DECIMAL_COMMA)
    return texts.str.replace(",", ".", regex=False) if (is_number | texts.isin(nulls)).all() else column


def notes_of(form: TableFormat, columns: TableColumns) -> list[str]:
    found = [form.recognised] if form.recognised else []
    if columns.separator is None and form.separator != ",":
        found.append(f"the fields are separated by {NAMES[form.separator]}; [table] separator sets another separator")
    if columns.decimal is None and form.decimal != ".":
        found.append('the decimals are written with a comma; [table] decimal = "." reads them otherwise')
    if form.otherwise:
        found.append(
            f"{form.otherwise:,} bytes are not UTF-8 and are read as Windows-1252; [table] encoding names another encoding"
        )
    return found


def has_decimal_commas(frame: pd.DataFrame, names: list[str]) -> bool:
    """Returns whether some column is no numbers as it is, but is if commas are decimal marks."""
    for name in names:
        if name in frame and holds_texts(frame[name]):
            # A piece that was read as numbers has whole ones as 5.0 where a field is empty.
            texts = frame[name].dropna().map(lambda it: it if isinstance(it, str) else f"{it:.15g}").str.strip()
            texts = texts[texts != ""]
            if texts.str.contains(",").any() and texts.str.fullmatch(DECIMAL_COMMA).all():
                return True
    return False


def checked(frame: pd.DataFrame, project: Project, source: str = "table") -> Table:
    """Returns the named columns of a frame, checked. Raises PlanError as `read` does.

    Empty tonnes and grades are rejected, read as 0, or mean that the row is no block, as the project says.
    """
    demand_codes_apart(project)
    demand_columns(frame, file_columns(project), source)
    if frame.empty:
        raise PlanError(f"{source}: has no blocks")
    codes = [name for name in codes_of(project) if name in frame]
    rows = ruled(frame, project, source)
    demand_amounts(rows.frame, project, rows.source)
    cell_volumes.demand_cells(rows.frame, project, rows.source)
    rows.frame, laid = with_tonnes(rows.frame, project, rows.source)
    demand_codes(rows.frame, project, rows.source)
    resource_classes.demand_accepted(rows.frame, project, rows.source)
    return Table(
        rows.frame,
        rows.source,
        rows.filled,
        tuple(rows.notes),
        unused=tuple(str(name) for name in frame.columns if name not in file_columns(project)),
        warned=tuple(numeric_fields.warnings_of(frame, codes, source, project.table.rules.nulls.of)),
        cells=laid,
        zeros={name: null[rows.kept] for name, null in rows.zeros.items()},
    )


def with_tonnes(frame: pd.DataFrame, project: Project, source: str) -> tuple[pd.DataFrame, Optional[CellVolumes]]:
    """Returns the columns of the blocks with their tonnes, and the cells of the rows if the project names their sizes."""
    table, rules = project.table, project.table.rules
    if table.density or rules.rock_percent:
        frame[table.tonnes] = cell_volumes.tonnes(frame, project)
    complete(frame, project, source)
    if not frame[table.tonnes].any():
        raise PlanError(f"{source} column {table.tonnes}: all tonnes are 0")
    if rules.ore_percent is not None:
        for name in grades_of(project):
            frame[name] = cell_volumes.diluted(frame, name, rules.ore_percent)
    cells = cell_volumes.cells_of(frame, project, source) if rules.cell_size else None
    wanted = list(dict.fromkeys([*names_of(project), table.tonnes]))
    return frame if list(frame.columns) == wanted else frame[wanted], cells


def filled_numbers(column: pd.Series, source: str, name: str, may_fill: bool) -> tuple[np.ndarray, int]:
    """Returns the numbers of a column with 0 for empty fields, and their number. Raises PlanError if empty fields are not allowed."""
    numbers = numbers_of(column, source, name)
    empty = np.isnan(numbers)
    if not may_fill:
        demand_none(empty, source, name, "is empty")
    return np.where(empty, 0.0, numbers), int(empty.sum())


def called(frame: pd.DataFrame, project: Project, row: int, source: str = "") -> str:
    """Returns the name of the block of a row, from 0: its id, if there is one, with the row of the file; of a reblocked table its centroid."""
    name, place = project.table.id, row_of(source, row)
    if project.table.reblock:
        x, y, z = (f"{frame[axis].iloc[row]:.10g}" for axis in (project.table.x, project.table.y, project.table.z))
        return f"the block at {x}, {y}, {z}"
    return f"block {frame[name].iloc[row]} (row {place})" if name else f"the block of row {place}"

"""Tables as sheets of a workbook (.xlsx), by openpyxl."""

from __future__ import annotations

import io
import re
import zipfile
from collections.abc import Callable, Sequence
from pathlib import Path
from typing import Any

import numpy as np
import pandas as pd

from pitplan.core.libraries import load
from pitplan.results.column_types import THOUSANDS
from pitplan.results.columns import unit_of

WIDEST = 24
# The part of a workbook that has the times at which it was made and saved.
PROPERTIES = "docProps/core.xml"
DATES = re.compile(rb"<dcterms:(created|modified)[^>]*>[^<]*</dcterms:\1>")


def demand_library() -> None:
    """Raises MissingPackage without openpyxl."""
    load("openpyxl", "python3-openpyxl", "a workbook")


def write(
    path: Path,
    sheets: dict[str, pd.DataFrame],
    first: Sequence[Callable[[Any], None]] = (),
    head: Callable[[str], str] = str,
) -> None:
    """Writes a sheet per table, by its name, with a frozen header, after those that `first` adds; `head` makes the header of a column. Raises
    MissingPackage without openpyxl."""
    openpyxl = load("openpyxl", "python3-openpyxl", "a workbook")
    styles = load("openpyxl.styles", "python3-openpyxl", "a workbook")
    book = openpyxl.Workbook()
    book.remove(book.active)
    for add in first:
        add(book)
    for name, table in sheets.items():
        sheet = book.create_sheet(name)
        sheet.append(list(map(head, table.columns)))
        for row in table.itertuples(index=False):
            sheet.append([cell(value) for value in row])
        for text in (it for row in sheet.iter_rows() for it in row if isinstance(it.value, str)):
            # Otherwise openpyxl reads text that begins with = as a formula, and text such as #N/A as an error.
            text.data_type = "s"
        for number, column in enumerate(table.columns, 1):
            letter = sheet.cell(1, number).column_letter
            sheet.column_dimensions[letter].width = min(WIDEST, max(12, len(head(column)) + 2))
            sheet.cell(1, number).font = styles.Font(bold=True)
            sheet.cell(1, number).alignment = styles.Alignment(vertical="top", wrap_text=True)
            for line in range(2, sheet.max_row + 1):
                sheet.cell(line, number).number_format = format_of(column)
        sheet.freeze_panes = "A2"
    saved = io.BytesIO()
    book.save(saved)
    write_undated(path, saved)


def write_undated(path: Path, saved: io.BytesIO) -> None:
    """Writes a workbook without the times at which it was made, so that the same tables give the same bytes."""
    with zipfile.ZipFile(saved) as dated, zipfile.ZipFile(path, "w", zipfile.ZIP_DEFLATED) as undated:
        for name in dated.namelist():
            content = dated.read(name)
            if name == PROPERTIES:
                content = DATES.sub(b"", content)
            undated.writestr(zipfile.ZipInfo(name), content, zipfile.ZIP_DEFLATED)


def cell(value: object) -> object:
    """Returns a value of a type that openpyxl takes; nan becomes an empty cell."""
    if isinstance(value, (float, np.floating)):
        return None if np.isnan(value) else float(value)
    return int(value) if isinstance(value, np.integer) else str(value) if not isinstance(value, (int, str)) else value


def format_of(column: str) -> str:
    """Returns the number format of a column by its name: that of its unit, otherwise thousands without decimals."""
    unit = unit_of(column)
    return THOUSANDS if unit is None else unit.sheet

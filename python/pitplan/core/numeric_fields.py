"""The fields of a table's columns as numbers, independently of what pandas makes of a column that holds a text."""

from __future__ import annotations

from collections.abc import Callable, Iterator, Sequence
from itertools import chain
from typing import Any, Optional, Union

import numpy as np
import pandas as pd
from pandas.api import types

from pitplan.errors import ErrorPlace, PlanError

# The row of the first block below a header of one line.
HEADER_ROWS = 2
# Kinds of fields among which are no truths, dates and the like.
PLAIN = ("string", "empty", "integer", "floating", "mixed-integer-float", "decimal")
NO_NUMBERS = (bool, np.bool_, complex, np.complexfloating)
WRITTEN_AS = "True and False are not numbers: write 1 and 0"


class TableSource(str):
    """The name of a table in errors, with the row of the file of each of its rows.

    Attributes
    ----------
    header_row, first_row : int
        The rows of the names and of the first block, from 1.
    kept : int array, optional
        Which of the file's blocks the rows are, from 0; None: all.
    """

    header_row: int = 1
    first_row: int = HEADER_ROWS
    kept: Optional[np.ndarray] = None

    @classmethod
    def of(cls, name: str, header_row: int, first_row: int, kept: Optional[np.ndarray] = None) -> TableSource:
        """Returns the source of a file whose names and first block are in these rows."""
        source = cls(name)
        source.header_row, source.first_row, source.kept = header_row, first_row, kept
        return source

    def at(self, kept: np.ndarray) -> TableSource:
        """Returns the source of some of the rows, given by their numbers."""
        there = kept if self.kept is None else self.kept[kept]
        return TableSource.of(str(self), self.header_row, self.first_row, there)


def row_of(source: str, row: int) -> int:
    """Returns the row in the file of a block, given its index from 0."""
    if not isinstance(source, TableSource):
        return row + HEADER_ROWS
    return source.first_row + (row if source.kept is None else int(source.kept[row]))


def header_row_of(source: str) -> int:
    return source.header_row if isinstance(source, TableSource) else 1


def at_row(source: str, row: int, column: str, why: str) -> PlanError:
    """Returns the error of a field, with file, row and column; `row` is the index of the block from 0."""
    place = ErrorPlace(row=row_of(source, row), column=column)
    return PlanError(f"{source} row {place.row} column {column}: {why}", place=place)


def demand_none(wrong: np.ndarray, source: str, column: str, why: Union[str, Callable[[int], str]]) -> None:
    """Raises PlanError for the first row that is wrong, with a sentence on it, which may be made of its index from 0."""
    if wrong.any():
        row = int(wrong.argmax())
        raise at_row(source, row, column, why if isinstance(why, str) else why(row))


def is_numeric(column: pd.Series) -> bool:
    """Returns whether pandas holds each field as a number or as missing. Truths are no numbers."""
    dtype = column.dtype
    return types.is_numeric_dtype(dtype) and not types.is_bool_dtype(dtype) and not types.is_complex_dtype(dtype)


def holds_texts(column: pd.Series) -> bool:
    """Returns whether pandas holds the fields as texts or as objects, under any name of a dtype."""
    return not is_numeric(column) and not types.is_bool_dtype(column.dtype)


def without_truths(frame: pd.DataFrame) -> pd.DataFrame:
    """Returns a frame with columns of True and False as texts again, since tables have no such fields."""
    for name in frame.columns[frame.dtypes == bool]:
        frame[name] = frame[name].astype(str)
    return frame


def numbers_of(column: pd.Series, source: str, name: str) -> np.ndarray:
    """Returns a column as float64, with nan for an empty field. Raises PlanError, by the row, if a field is no number or is infinite."""
    if not is_numeric(column):
        numbers = numbers_of_fields(column.astype(object), source, name)
    elif isinstance(column.dtype, np.dtype):
        numbers = column.to_numpy(dtype=np.float64)
    else:
        numbers = column.to_numpy(dtype=np.float64, na_value=np.nan)
    demand_none(np.isinf(numbers), source, name, "is infinite")
    return numbers


def numbers_of_fields(fields: pd.Series, source: str, name: str) -> np.ndarray:
    """Returns the numbers of fields of any type, as `numbers_of` does."""
    texts = fields.astype(str).str.strip()
    is_other = np.zeros(len(fields), dtype=bool)
    if types.infer_dtype(fields, skipna=True) not in PLAIN:
        is_other = np.array([isinstance(field, NO_NUMBERS) for field in fields], dtype=bool)
    numbers = pd.to_numeric(fields.where(~is_other), errors="coerce").to_numpy(dtype=np.float64)
    bad = is_other | (np.isnan(numbers) & ~fields.isna().to_numpy() & (texts != "").to_numpy())
    if bad.any():
        row = int(bad.argmax())
        remedy = f" ({WRITTEN_AS})" if texts.iloc[row].lower() in ("true", "false") else ""
        raise at_row(source, row, name, f'"{texts.iloc[row]}" is not a number{remedy}')
    return numbers


def as_codes(values: np.ndarray) -> np.ndarray:
    """Returns numbers as texts, such as 3 for 3.0, and nan as an empty text. Texts stay as they are."""
    if values.dtype == object:
        return values
    used, place = np.unique(values, return_inverse=True)
    names = ["" if np.isnan(it) else str(int(it)) if it == int(it) else repr(float(it)) for it in used]
    return np.array(names, dtype=object)[place]


SIGNS = frozenset("=+-@")
# Of a longer text the beginning is shown.
MOST_SHOWN = 40


def warnings_of(
    frame: pd.DataFrame, codes: Sequence[str], source: str, nulls: Callable[[str], Sequence[str]] = lambda name: ()
) -> list[str]:
    """Returns a warning that names row and column of the first text that a spreadsheet may evaluate, and counts the others; none without such texts.

    Numbers written as text are skipped, except in codes: a spreadsheet reads the same number. So are the null codes that `nulls` gives for a
    column.
    """
    found = list(
        chain.from_iterable(in_column(frame.iloc[:, place], codes, source, nulls) for place in range(frame.shape[1]))
    )
    if not found:
        return []
    row, column, text = min(found, key=lambda it: it[0])
    shown = text if len(text) <= MOST_SHOWN else f"{text[:MOST_SHOWN]}.."
    more = f", as do {len(found) - 1:,} other texts" if len(found) > 1 else ""
    kept = "CSV files keep it, and a spreadsheet may evaluate it; workbooks store it as text"
    return [f"WARNING: {source} row {row} column {column!r}: {shown!r} begins with =, +, - or @{more}: {kept}"]


def in_column(
    column: pd.Series, codes: Sequence[str], source: str, nulls: Callable[[str], Sequence[str]]
) -> Iterator[tuple[int, str, str]]:
    """Yields the row in the file, the column's name and the text of each field of a column that a spreadsheet may evaluate."""
    name = str(column.name)
    if name[:1] in SIGNS:
        yield header_row_of(source), name, name
    if not holds_texts(column):
        return
    if isinstance(column.dtype, pd.CategoricalDtype) and not has_formula(column.cat.categories.tolist()):
        return
    fields = column.tolist()
    if not has_formula(fields):
        return
    known = nulls(name)
    for row, field in enumerate(fields):
        is_sign = isinstance(field, str) and field[:1] in SIGNS and field.strip() not in known
        if is_sign and (column.name in codes or not is_number(field)):
            yield row_of(source, row), name, field


def has_formula(fields: list[Any]) -> bool:
    """Returns whether a text may begin with a sign; one with line breaks may, too. A search of all texts together is the fastest."""
    try:
        whole = "\n" + "\n".join(fields)
        return any(f"\n{sign}" in whole for sign in SIGNS)
    except TypeError:
        return not SIGNS.isdisjoint({field[:1] for field in fields if isinstance(field, str)})


def is_number(text: str) -> bool:
    try:
        float(text.replace(",", "."))
    except ValueError:
        return False
    return True

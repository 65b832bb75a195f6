"""Applies what `[table]` says of fields and rows: null codes, mapped codes, calculated columns, filters and clipping, in this order."""

from __future__ import annotations

from collections.abc import Iterable, Mapping
from dataclasses import dataclass
from typing import Optional

import numpy as np
import pandas as pd

from pitplan.config.project import Project
from pitplan.config.table import MISSING, OTHERS, REFUSE, ZERO
from pitplan.core.expressions import Expression, ExpressionError
from pitplan.core.numeric_fields import TableSource, at_row, is_numeric, numbers_of
from pitplan.errors import PlanError

from .table_checks import centroids, codes_of, demand_no_nul, file_columns, names_of

# Different codes that an error lists.
MOST_LISTED = 8
# What `str.strip` removes of ASCII.
BLANKS = " \t\n\r\x0b\x0c\x1c\x1d\x1e\x1f"


@dataclass
class RuledRows:
    """Rows while the rules are applied.

    Attributes
    ----------
    frame : DataFrame
        Numbers with nan for a null, texts with "".
    kept : bool array
        The rows that are not left out.
    zeros : dict of str to bool array
        By column the nulls that are read as 0.
    """

    frame: pd.DataFrame
    project: Project
    source: str
    kept: np.ndarray
    zeros: dict[str, np.ndarray]
    notes: list[str]

    @property
    def filled(self) -> int:
        """How many nulls of the rows that are left are read as 0."""
        return sum(int(np.count_nonzero(null & self.kept)) for null in self.zeros.values())

    @property
    def kept_source(self) -> str:
        if self.kept.all():
            return self.source
        source = self.source if isinstance(self.source, TableSource) else TableSource(self.source)
        return source.at(np.flatnonzero(self.kept))

    def leave_out(self, rows: np.ndarray, why: str) -> None:
        """Leaves out rows, with a note."""
        count = int(np.count_nonzero(rows & self.kept))
        if count:
            self.kept &= ~rows
            self.notes.append(f"{count:,} rows are left out: {why}")


def ruled(frame: pd.DataFrame, project: Project, source: str) -> RuledRows:
    """Returns the columns of the project with the rules applied. Raises PlanError, with the row, if a field does not fit them."""
    columns = {name: typed(frame[name], project, source) for name in file_columns(project)}
    rows = RuledRows(pd.DataFrame(columns, copy=False), project, source, np.ones(len(frame), dtype=bool), {}, [])
    factors = rows.project.economics.factor_columns
    fill_nulls(rows, [name for name in rows.frame if is_numeric(rows.frame[name]) and name not in factors])
    map_codes(rows)
    calculate(rows)
    filter_rows(rows)
    clip_rows(rows)
    settle_nulls(rows)
    rows.source, kept = rows.kept_source, rows.kept
    wanted = list(dict.fromkeys([*names_of(project), *project.table.rules.amounts]))
    left = rows.frame if list(rows.frame.columns) == wanted else rows.frame[wanted]
    rows.frame = left if kept.all() else left[kept].reset_index(drop=True)
    if rows.frame.empty:
        raise PlanError(f"{rows.source}: no block is left: {'; '.join(rows.notes)}: change these keys of [table]")
    return rows


def typed(column: pd.Series, project: Project, source: str) -> np.ndarray:
    """Returns texts of a column of codes, otherwise numbers; for a column that expressions alone name texts if a field is not a number."""
    name = str(column.name)
    nulls = project.table.rules.nulls.of(name)
    if name in codes_of(project) or name in project.table.rules.mapped:
        if isinstance(column.dtype, pd.CategoricalDtype):
            return of_categories(column, nulls, source)
        texts = stripped(column)
        demand_no_nul(texts, source, name)
        return codes_without(texts, nulls)
    if is_numeric(column):
        return numbers_without(numbers_of(column, source, name), nulls)
    if nulls:
        texts = codes_without(stripped(column), nulls)
        column = pd.Series(texts, name=name).where(texts != "", np.nan)
    if name in names_of(project) or name in project.table.rules.amounts:
        return numbers_without(numbers_of(column, source, name), nulls)
    numbers = pd.to_numeric(column, errors="coerce")
    is_text = numbers.isna() & column.notna() & (column.astype(str).str.strip() != "")
    return stripped(column) if is_text.any() else numbers_without(numbers.to_numpy(dtype=np.float64), nulls)


def of_categories(column: pd.Series, nulls: tuple[str, ...], source: str) -> np.ndarray:
    """Returns the texts of a column of categories, with "" for null codes; each distinct code is processed once."""
    texts, place = stripped(pd.Series(column.cat.categories, dtype=object)), column.cat.codes.to_numpy()
    if "\0" in "".join(texts):
        demand_no_nul(texts[place], source, str(column.name))
    found = np.append(codes_without(texts, nulls), "")
    return np.asarray(found[place])


def stripped(codes: pd.Series) -> np.ndarray:
    """Returns codes as text without blanks at either end; missing ones are empty. Python's own strip is several times as fast as that of pandas."""
    fields = codes.to_numpy(dtype=object)
    if has_no_blanks(fields):
        return fields
    if codes.isna().any() or pd.api.types.infer_dtype(codes, skipna=False) != "string":
        # A missing one would be called nan, None or <NA>.
        codes = codes.astype(object).where(codes.notna(), "").astype(str)
    return np.array(list(map(str.strip, codes.to_numpy(dtype=object))), dtype=object)


def has_no_blanks(fields: np.ndarray) -> bool:
    """Returns whether all fields are texts of ASCII without blanks: one search of the joined text is faster than one of each field."""
    try:
        whole = "".join(fields)
    except TypeError:
        return False
    return whole.isascii() and not any(blank in whole for blank in BLANKS)


def numbers_of_codes(nulls: Iterable[str]) -> list[float]:
    found = pd.to_numeric(pd.Series(list(nulls), dtype=object), errors="coerce")
    return [float(it) for it in found.dropna()]


def numbers_without(numbers: np.ndarray, nulls: tuple[str, ...]) -> np.ndarray:
    """Returns numbers with nan for null codes."""
    codes = numbers_of_codes(nulls)
    return np.where(np.isin(numbers, codes), np.nan, numbers) if codes else numbers


def codes_without(codes: np.ndarray, nulls: tuple[str, ...]) -> np.ndarray:
    """Returns codes with "" for null codes; -99.0 is the null code -99 too."""
    if not nulls:
        return codes
    inverse, different = pd.factorize(codes)
    numbers = pd.to_numeric(pd.Series(different, dtype=object), errors="coerce").to_numpy(dtype=np.float64)
    is_null = np.isin(different.astype(str), nulls) | np.isin(numbers, numbers_of_codes(nulls))
    return np.where(is_null, "", different)[inverse].astype(object) if is_null.any() else codes


def map_codes(rows: RuledRows) -> None:
    """Replaces codes by the names of `[table.map]`. Raises PlanError for a code without a name."""
    for column, names in rows.project.table.rules.mapped.items():
        inverse, different = pd.factorize(rows.frame[column])
        named = [name_of(code, names) for code in different]
        for number, name in enumerate(named):
            if name is None:
                row, known = int((inverse == number).argmax()), ", ".join(list(names)[:MOST_LISTED])
                why = f'found the code "{different[number]}", expected one of {known}: name it in [table.map] {column}'
                raise at_row(rows.source, row, column, f'{why}, or all others by "{OTHERS}"')
        rows.frame[column] = np.array(named, dtype=object)[inverse]


def name_of(code: str, names: Mapping[str, str]) -> Optional[str]:
    """Returns the name of a code: by its text, by its number, or that of all others; an empty code has none."""
    if not code or code in names:
        return names.get(code, "")
    try:
        number = float(code)
    except ValueError:
        return names.get(OTHERS)
    same = (name for known, name in names.items() if known != OTHERS and numbers_of_codes([known]) == [number])
    return next(same, names.get(OTHERS))


def calculate(rows: RuledRows) -> None:
    """Adds the columns of `[table.calculate]`."""
    for name, expression in rows.project.table.rules.calculated.items():
        values = evaluated(rows, expression, f"[table.calculate] {name}")
        is_code = name in codes_of(rows.project)
        if values.dtype.kind in "OU" and not is_code and name in names_of(rows.project):
            raise PlanError(f"{rows.project.path}: [table.calculate] {name}: gives texts, expected numbers")
        if values.dtype.kind == "b":
            values = values.astype(np.float64)
        if values.dtype.kind == "f":
            numbers_of(pd.Series(values), rows.source, name)
        rows.frame[name] = stripped(texts_of(values)) if is_code else values


def texts_of(values: np.ndarray) -> pd.Series:
    """Returns values as texts; whole numbers without decimals."""
    if values.dtype.kind != "f":
        return pd.Series(values, dtype=object)
    return pd.Series(["" if np.isnan(value) else f"{value:.15g}" for value in values], dtype=object)


def evaluated(rows: RuledRows, expression: Expression, key: str) -> np.ndarray:
    """Returns an expression of the rows. Raises PlanError, which names the key."""
    try:
        return expression.of(rows.frame)
    except ExpressionError as error:
        raise PlanError(f"{rows.project.path}: {key}: {expression.text!r}: {error}") from error


def filter_rows(rows: RuledRows) -> None:
    """Leaves out the rows for which the filter is not true."""
    wanted = rows.project.table.rules.filter
    if wanted is None:
        return
    values = evaluated(rows, wanted, "[table] filter")
    if values.dtype.kind != "b":
        raise PlanError(f"{rows.project.path}: [table] filter: {wanted.text!r} is not a condition, such as density > 0")
    rows.leave_out(~values, f"[table] filter: {wanted.text}")


def clip_rows(rows: RuledRows) -> None:
    """Leaves out the rows with a centroid beyond `[table] clip`."""
    names = dict(zip("xyz", centroids(rows.project)))
    beyond = np.zeros(len(rows.frame), dtype=bool)
    for axis, (least, greatest) in rows.project.table.rules.clip.items():
        values = rows.frame[names[axis]].to_numpy()
        beyond |= (values < least) | (values > greatest)
    rows.leave_out(beyond, "their centroids lie beyond [table] clip")


def fill_nulls(rows: RuledRows, names: Iterable[str]) -> None:
    """Reads nulls as 0 in the columns in which the project says so; expressions have these zeros too."""
    for name in names:
        null = np.isnan(rows.frame[name].to_numpy())
        if meaning_of(name, rows.project) == ZERO and null.any():
            rows.frame[name], rows.zeros[name] = np.where(null, 0.0, rows.frame[name]), null


def settle_nulls(rows: RuledRows) -> None:
    """Leaves out the rows of nulls or raises PlanError, as the project says; nulls that are 0 were filled before."""
    table = rows.project.table
    numbers = [name for name in rows.frame if name in (*names_of(rows.project), *table.rules.amounts)]
    # Cost factors have a rule of their own.
    numbers = [
        name for name in numbers if name not in (*codes_of(rows.project), *rows.project.economics.factor_columns)
    ]
    fill_nulls(rows, [name for name in numbers if name in table.rules.calculated])
    empty = {name: np.isnan(rows.frame[name].to_numpy()) for name in numbers}
    meaning = {name: meaning_of(name, rows.project) for name in numbers}
    for name in numbers:
        if meaning[name] == MISSING and empty[name].any():
            rows.leave_out(empty[name], f"{name} is null, which [table] reads as a missing block")
    for name in numbers:
        null = empty[name] & rows.kept
        if null.any():
            count = int(np.count_nonzero(null))
            raise at_row(rows.source, int(null.argmax()), name, refused(name, count, rows.project))


def meaning_of(name: str, project: Project) -> str:
    """Returns what a null in a column of numbers means. Centroids and the sizes of cells are never read as 0."""
    table = project.table
    meaning = table.rules.nulls.meaning(name, table.empty)
    never = (*centroids(project), *(table.rules.cell_size or ()))
    return REFUSE if meaning == ZERO and name in never else meaning


def reads_zeros(project: Project) -> bool:
    """Returns whether a null of some column is read as 0."""
    return any(meaning_of(name, project) == ZERO for name in names_of(project))


def refused(name: str, count: int, project: Project) -> str:
    """Returns why an empty field is an error, and the remedy."""
    if count == 1 and not project.table.rules.nulls.of(name):
        return "is empty"
    remedy = f'set [table.nulls] "{name}" = "zero" or "missing"'
    return f"is empty or a null code, as are {count - 1:,} more: {remedy}" if count > 1 else f"is a null code: {remedy}"

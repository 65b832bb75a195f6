"""Reads the planner's table of blocks."""

from __future__ import annotations

import codecs
import gzip
import io
import re
import zipfile
from collections.abc import Iterable, Iterator
from contextlib import contextmanager
from decimal import Decimal, InvalidOperation
from pathlib import Path
from typing import IO, Any, Optional, cast

import numpy as np
import pandas as pd

from planaudit.errors import AuditError, PackageError
from planaudit.inputs import codes, models, plain_tables, row_rules
from planaudit.inputs.formulas import value_of
from planaudit.inputs.project import Project, Section
from planaudit.inputs.text_layout import TextLayout, layout_of

SEPARATORS = ",;\t|"
# The first row of a table with one header line.
FIRST_ROW = 2
# Tonnes by density are kept to a gram. This close to a half they are computed exactly.
TONNES_PLACES, GRADE_PLACES, NEAR = 6, 9, 1e-3
# The error handler of `codecs` for bytes that are no UTF-8.
MIXED = "planaudit.windows"


def read(project: Project) -> pd.DataFrame:
    """Returns the columns of the blocks that the project names, one row per row of the table that is a block, with its tonnes.

    Raises
    ------
    AuditError
        With file, row and column, if a column is missing or a field is not a number.
    """
    table, rules = project.table, project.table["rules"]
    frame = with_rules(project)
    kept = row_rules.within(frame, rules, (table["x"], table["y"], table["z"]))
    amounts = [name for name in frame if name in {*project.columns, *rules.numbers} - set(project.codes)]
    for name in amounts:
        if rules.meaning(name, table["empty"]) == "missing":
            kept &= frame[name].notna().to_numpy()
    frame = frame if kept.all() else frame[kept]
    whole = {
        name: without_gaps(frame[name], table["file"], is_zero(name, table))
        for name in amounts
        if name not in project.adjusting
    }
    # Without a copy of the other columns.
    frame = pd.DataFrame({name: whole.get(name, frame[name].array) for name in frame}, frame.index, copy=False)
    is_of_parents = (
        table["reblock"] is not None and table["reblock"]["counts"] is None and table["reblock"]["size"] is None
    )
    cells = rules.cell_size or () if is_of_parents else ()
    frame = with_tonnes(frame, project)
    for name in project.adjusting:
        frame[name] = factors(frame, name, project)
    demand_classes(frame, project)
    return columns_of(frame, [*project.columns, table["tonnes"], *cells])


def columns_of(frame: pd.DataFrame, names: Iterable[str], rows: Optional[np.ndarray] = None) -> pd.DataFrame:
    """Returns columns of a frame, all rows or some, numbered from 0. pandas would put columns of one type together first, in new memory."""
    arrays = {name: frame[name].array for name in names}
    return pd.DataFrame(arrays if rows is None else {name: it.take(rows) for name, it in arrays.items()}, copy=False)


def demand_classes(frame: pd.DataFrame, project: Project) -> None:
    """Raises AuditError as `read` if a block with tonnes has a class that the project refuses."""
    table = project.table
    refused = codes.treated_as("refuse", frame, project) & (frame[table["tonnes"]].to_numpy() > 0)
    if refused.any():
        row = int(refused.argmax())
        code = frame[str(table["class"])].iloc[row]
        where = f"{table['file']} row {frame.index[row]} column {table['class']}"
        raise AuditError(f'{where}: found "{code}", which [classes] refuses: correct the class')


def with_rules(project: Project) -> pd.DataFrame:
    """Returns the rows of the file with mapped codes and calculated columns; numbers with nan for a null that is not read as 0."""
    table, rules = project.table, project.table["rules"]
    needed = rules.needed(project.columns)
    texts = [name for name in needed if name in project.codes or name in rules.mapped]
    frame = read_columns(table["file"], table, texts, needed, [*project.columns, *rules.numbers])
    for name in needed:
        is_number = frame[name].dtype.kind == "f" and name not in project.adjusting
        if is_number and is_zero(name, table) and frame[name].hasnans:
            frame[name] = frame[name].fillna(0.0)
    for name in [name for name in rules.mapped if name in frame]:
        frame[name] = row_rules.mapped(frame[name], rules.mapped[name], str(table["file"]))
    for name, text in rules.calculated.items():
        value = value_of(text, frame)
        frame[name] = row_rules.as_code(value) if name in project.codes else value
    return frame


def is_zero(name: str, table: Section) -> bool:
    """Returns whether a null in a column of numbers is read as 0, as in no centroid and no cell size."""
    never = (table["x"], table["y"], table["z"], *(table["rules"].cell_size or ()))
    return table["rules"].meaning(name, table["empty"]) == "zero" and name not in never


def factors(frame: pd.DataFrame, name: str, project: Project) -> np.ndarray:
    """Returns cost adjustment factors, 1 for a block without tonnes and without a factor. Raises AuditError as `read`, with tonnes too if its field
    is empty, or a factor is negative."""
    found = frame[name].to_numpy()
    wrong = (found < 0) | np.isinf(found) | (np.isnan(found) & (frame[project.table["tonnes"]].to_numpy() > 0))
    if wrong.any():
        row = int(wrong.argmax())
        said = "is empty" if np.isnan(found[row]) else f"found {found[row]:g}"
        where = f"{project.table['file']} row {frame.index[row]} column {name}"
        raise AuditError(f"{where}: {said}, expected a cost adjustment factor from 0: correct the field")
    return np.where(np.isnan(found), 1.0, found)


def read_columns(
    file: Path, table: Section, codes: list[str], wanted: list[str], numeric: Optional[list[str]] = None
) -> pd.DataFrame:
    """Returns columns of a file in the format of the table.

    Parameters
    ----------
    file : Path
    table : Section
    codes : list of str
        Columns of texts: without blanks around them, "" for a null.
    wanted : list of str
    numeric : list of str, optional
        Columns of numbers: floats, nan for a null. By default all but the codes; others are texts if a field is not a number.

    Returns
    -------
    DataFrame
        Its index has the rows of the file.

    Raises
    ------
    AuditError
        As `read`.
    """
    layout = layout_by(file, table)
    if layout is None:
        frame = with_stripped(parquet(file, wanted) if is_parquet(file) else models.read(file, codes), codes)
    else:
        frame = delimited(file, table, layout, (codes, wanted))
    missing = [name for name in wanted if name not in frame]
    if missing:
        raise AuditError(f"{file} row 1: there is no column {missing[0]}")
    first = layout.first_row if layout else FIRST_ROW
    frame = columns_of(frame, wanted).set_axis(pd.RangeIndex(first, first + len(frame)), copy=False)
    has_comma = has_commas(table, layout.separator if layout else ",")
    for name in wanted:
        nulls = table["rules"].codes_of(name)
        if name in codes:
            frame[name] = without_nulls(frame[name], nulls)
        else:
            must_be = numeric is None or name in numeric
            frame[name] = numbers_or_texts(frame[name], str(file), nulls, (has_comma, must_be))
    return frame


def without_nulls(texts: pd.Series, nulls: list[str]) -> pd.Series:
    return texts.mask(row_rules.is_null(texts, nulls), "") if nulls else texts


def numbers_or_texts(fields: pd.Series, file: str, nulls: list[str], how: tuple[bool, bool]) -> pd.Series:
    """Returns numbers, nan for a null; texts if a field is not a number and the column need not be numeric.

    `how` says whether a comma may be a decimal mark, and whether the column must be numeric. Raises AuditError as `read`.
    """
    has_comma, must_be = how
    if fields.dtype.kind not in "if":
        texts = without_nulls(stripped(fields.astype(object)), nulls)
        try:
            fields = pd.Series(numbers(texts, file, has_comma), fields.index)
        except AuditError:
            if must_be:
                raise
            return texts
    fields = fields.astype(float, copy=False)
    return fields.mask(row_rules.is_null(fields, nulls)) if nulls else fields


def with_stripped(frame: pd.DataFrame, codes: list[str]) -> pd.DataFrame:
    for name in codes:
        if name in frame:
            frame[name] = stripped(frame[name])
    return frame


def stripped(codes: pd.Series) -> pd.Series:
    """Returns codes without blanks around them; missing ones are empty."""
    texts = codes.fillna("").astype(str) if codes.hasnans else codes
    # Reading all of them together is faster than a strip of each.
    whole = "\0".join(texts.tolist())
    has_blanks = len(whole.split()) > 1 or whole.strip() != whole
    return texts.str.strip() if has_blanks else texts


def delimited(file: Path, table: Section, layout: TextLayout, columns: tuple[list[str], list[str]]) -> pd.DataFrame:
    """Returns columns of a text; `columns` are the codes, without blanks around them, and the wanted columns."""
    codes, wanted = columns
    kinds = {name: plain_tables.CODE if name in codes else plain_tables.OR_EMPTY for name in wanted}
    if table["id"] in codes and not table["rules"].codes_of(table["id"]) and table["id"] not in table["rules"].mapped:
        kinds[table["id"]] = plain_tables.STRIPPED_ID
    plain = plain_tables.read(file, layout, kinds) if table["encoding"] is None else None
    if plain is not None:
        return plain
    try:
        with text_of(file, table) as text:
            frame = pd.read_csv(
                text,
                sep=r"\s+" if layout.separator == " " else layout.separator,
                skiprows=layout.passed,
                usecols=lambda name: name in wanted,
                dtype=dict.fromkeys(codes, str),
                keep_default_na=False,
                na_values={name: [""] for name in wanted if name not in codes},
                float_precision="round_trip",
                index_col=False,
                low_memory=False,
            )
    except (ValueError, EOFError, zipfile.BadZipFile) as error:
        raise AuditError(f"{file}: cannot be read as a table: {' '.join(str(error).split())}") from error
    return with_stripped(frame, codes)


def parquet(file: Path, wanted: list[str]) -> pd.DataFrame:
    """Returns columns of a Parquet file; single floats as the shortest decimals that round to them."""
    try:
        from pyarrow import parquet as reader
    except ImportError as error:
        raise PackageError(f"{file}: is Parquet, which needs pyarrow") from error
    frame = reader.read_table(file, columns=wanted).to_pandas()
    single = [name for name in frame if frame[name].dtype == np.float32]
    return frame.assign(**{name: frame[name].astype(str).astype(float) for name in single})


@contextmanager
def opened(file: Path) -> Iterator[IO[bytes]]:
    """Opens a file, or what a .gz or .zip file packs."""
    if file.suffix == ".zip":
        with zipfile.ZipFile(file) as packed, packed.open(
            next(it for it in packed.infolist() if not it.is_dir())
        ) as one:
            yield one
    elif file.suffix == ".gz":
        with gzip.open(file) as unpacked:
            yield cast(IO[bytes], unpacked)
    else:
        with open(file, "rb") as plain:
            yield plain


def header(file: Path, table: Section) -> list[str]:
    """Returns the names of the columns of a file."""
    layout = layout_by(file, table)
    return list(layout.names) if layout else []


def layout_by(file: Path, table: Section) -> Optional[TextLayout]:
    """Returns the layout of a text; None of another file."""
    if is_parquet(file) or models.is_model(file):
        return None
    with text_of(file, table) as text:
        return layout_of(iter(text.readline, ""), table["separator"], table["header_row"], table["first_row"])


def is_parquet(file: Path) -> bool:
    return file.suffix.lower() == ".parquet"


@contextmanager
def text_of(file: Path, table: Section) -> Iterator[io.TextIOWrapper]:
    """Opens a text in the encoding of the project; otherwise that of its byte-order mark, or UTF-8 with bytes of Windows-1252."""
    with opened(file) as data:
        start = data.read(2)
    is_utf_16 = start in (codecs.BOM_UTF16_LE, codecs.BOM_UTF16_BE)
    encoding = table["encoding"] or ("utf-16" if is_utf_16 else "utf-8-sig")
    errors = "strict" if table["encoding"] or is_utf_16 else MIXED
    with opened(file) as data, io.TextIOWrapper(data, encoding=encoding, errors=errors, newline="") as text:
        yield text


def of_windows(error: UnicodeError) -> tuple[str, int]:
    """Reads bytes that are no UTF-8 as Windows-1252. Raises the error of a text that cannot be encoded."""
    if not isinstance(error, UnicodeDecodeError):
        raise error
    return str(error.object[error.start : error.end], "cp1252", "replace"), error.end


codecs.register_error(MIXED, of_windows)


def guessed_separator(file: Path, encoding: str) -> str:
    """Returns the most frequent separator in the first line outside quotes."""
    with opened(file) as data:
        first = io.TextIOWrapper(data, encoding=encoding).readline()
    line = "".join(re.split('"[^"]*"', first))
    return max(SEPARATORS, key=line.count)


def has_commas(table: Section, separator: str) -> bool:
    """Returns whether a comma may be a decimal mark."""
    return table["decimal"] == "," or (table["decimal"] is None and separator != ",")


def numbers(fields: pd.Series, file: str, is_comma: bool) -> np.ndarray:
    """Returns the numbers of fields that are not all plain numbers, nan if empty. Raises AuditError as `read`."""
    found = np.full(len(fields), np.nan)
    for row, field in enumerate(fields.tolist()):
        text = "" if field is None or field != field else str(field).strip()
        if not text:
            continue
        try:
            found[row] = number(text.replace(",", ".") if is_comma and text.count(",") == 1 else text)
        except (InvalidOperation, OverflowError) as error:
            where = f"{file} row {fields.index[row]} column {fields.name}"
            raise AuditError(f'{where}: "{text}" is not a number: correct the field, and run pitplan again') from error
    return found


def number(text: str) -> float:
    """Returns a number of digits. Raises InvalidOperation for other texts, and for words such as inf."""
    value = Decimal(text)
    if not value.is_finite():
        raise InvalidOperation
    return float(value)


def without_gaps(fields: pd.Series, file: Path, may_be_empty: bool) -> np.ndarray:
    """Returns numbers with 0 for empty fields if the project reads these so; the index has the rows of the file. Raises AuditError as `read`."""
    values = fields.to_numpy(dtype=float)
    empty = np.isnan(values)
    if not empty.any():
        return values
    if not may_be_empty:
        row = fields.index[int(empty.argmax())]
        raise AuditError(f"{file} row {row} column {fields.name}: is empty, expected a number")
    return np.where(empty, 0.0, values)


def with_tonnes(frame: pd.DataFrame, project: Project) -> pd.DataFrame:
    """Returns the rows with their tonnes, and with grades of whole blocks if the project gives those of the ore in them."""
    table, rules = project.table, project.table["rules"]
    share = [] if rules.rock_percent is None else [frame[rules.rock_percent[0]].to_numpy()]
    if table["density"] or share:
        factors = [
            *(factors_by_density(frame, project) if table["density"] else [frame[table["tonnes"]].to_numpy()]),
            *share,
        ]
        frame[table["tonnes"]] = product(factors, rules.rock_percent[1] if rules.rock_percent else 1, TONNES_PLACES)
    if rules.ore_percent:
        ore = frame[rules.ore_percent[0]].to_numpy()
        for name in [metal["column"] for metal in project.metals]:
            frame[name] = product([frame[name].to_numpy(), ore], rules.ore_percent[1], GRADE_PLACES)
    return frame


def factors_by_density(frame: pd.DataFrame, project: Project) -> list[np.ndarray]:
    """Returns the density of each row, and what its volume is the product of."""
    names = [project.table["volume"]] if project.table["volume"] else list(project.table["rules"].cell_size or ())
    sides = [frame[name].to_numpy() for name in names] or [np.full(len(frame), it) for it in project.grid["size"] or ()]
    return [frame[project.table["density"]].to_numpy(), *sides]


def product(factors: list[np.ndarray], divisor: int, places: int) -> np.ndarray:
    """Returns the product of numbers by a divisor, rounded to decimals: by floats, and exactly if these are near a half."""
    units = np.prod(factors, axis=0) / divisor * 10.0**places
    found = np.rint(units) / 10.0**places
    near = np.abs(np.abs(units - np.floor(units)) - 0.5) < NEAR + 2e-15 * np.abs(units)
    for row in np.flatnonzero(near).tolist():
        found[row] = float(round(exact_product([values[row] for values in factors]) / divisor, places))
    return np.asarray(found)


def exact_product(factors: list[Any]) -> Decimal:
    """Returns the product of the shortest decimals of floats."""
    found = Decimal(1)
    for factor in factors:
        found *= Decimal(repr(float(factor)))
    return found

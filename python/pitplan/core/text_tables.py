"""Tables as text or Parquet: how a text is written, which is recognised, and its fields as they are written."""

from __future__ import annotations

import codecs
import csv
import ctypes
import gzip
import io
import lzma
import re
import warnings
import zipfile
import zlib
from collections import Counter
from collections.abc import Iterator, Mapping, Sequence
from concurrent.futures import ThreadPoolExecutor
from contextlib import contextmanager, suppress
from dataclasses import dataclass, field, replace
from itertools import islice
from pathlib import Path
from statistics import median
from typing import IO, Any, Optional, cast

import numpy as np
import pandas as pd
from pandas.api.types import union_categoricals

from pitplan.errors import ErrorPlace, MissingPackage, PlanError

from .libraries import is_of
from .numeric_fields import header_row_of, without_truths
from .processes import cores

# Recognises how a text holds a table: what wrote it, its separator, its decimal mark, its header lines and its first
# row.
#
#     Surpac Block Model Export        a preamble
#     block model: pit.mdl
#     Y,X,Z,au,sg                      the names: `header_row`
#     m,m,m,g/t,t/m3                   a further header line
#     100,200,10,0.5,2.7               the first row: `first_row`
#
# Lines are counted from 1.

SEPARATORS = (",", ";", "\t", "|")
# Columns that runs of blanks separate are sought last, since names and codes contain blanks.
BLANKS = " "
NAMES = {",": "commas", ";": "semicolons", "\t": "tabs", "|": "bars", BLANKS: "blanks"}
COMMENT = "#"
# Lines of the sample, and letters of each.
MOST_LINES, MOST_LETTERS = 400, 1 << 20
# Further header lines below the names that are passed over.
MOST_BELOW = 10
NUMBER = re.compile(r"[-+]?(\d+[.,]?\d*|[.,]\d+)([eE][-+]?\d+)?")
WITH_COMMA, WITH_POINT = re.compile(r"[-+]?\d*,\d+([eE][-+]?\d+)?"), re.compile(r"[-+]?\d*\.\d+([eE][-+]?\d+)?")
OF_VULCAN = re.compile(r"\s*variable (descriptions?|types?|defaults?)\b", re.IGNORECASE)
OF_LEAPFROG = re.compile(r"leapfrog|block model:|base point:", re.IGNORECASE)
OF_DATAMINE = ({"XC", "YC", "ZC"}, {"IJK", "XINC", "XMORIG"})
# The encoding without a byte-order mark or a key, and that of bytes which are not of this encoding.
USUAL, OTHERWISE = "utf-8-sig", "cp1252"


@dataclass(frozen=True)
class TableFormat:
    """The format of a table's text.

    Attributes
    ----------
    separator, decimal, encoding : str
        A blank as separator stands for a run of blanks.
    header_row, first_row : int
        The lines of the names and of the first row, from 1.
    errors : str
        What `codecs` does with bytes that are not of the encoding.
    above : tuple of str
        The lines above the first row, where they were recognised.
    recognised : str
        How the file was recognised, such as "Vulcan CSV, 4 header lines"; "" for a plain table.
    otherwise : int
        Bytes that were read as Windows-1252, since they are not UTF-8.
    """

    separator: str
    decimal: str = "."
    encoding: str = USUAL
    header_row: int = 1
    first_row: int = 2
    errors: str = "strict"
    above: tuple[str, ...] = ()
    recognised: str = ""
    otherwise: int = 0

    @property
    def skipped(self) -> list[int]:
        """The lines, from 0, that are no names and no rows."""
        return [*range(self.header_row - 1), *range(self.header_row, self.first_row - 1)]

    @property
    def has_blanks(self) -> bool:
        return self.separator == BLANKS

    def below(self) -> list[list[str]]:
        """Returns the fields of the header lines below the names."""
        return [fields_of(line, self.separator) for line in self.above[self.header_row :]]


def layout_of(lines: Sequence[str], separator: Optional[str] = None) -> TableFormat:
    """Returns the format of the text that begins with these lines. `separator` is that of the project, if it names one."""
    found = [it for sign in ([separator] if separator else SEPARATORS) if (it := layout_by(lines, sign))]
    if not found and separator is None:
        found = [it for it in [layout_by(lines, BLANKS)] if it]
    if found:
        return max(found, key=lambda it: len(fields_of(lines[it.header_row - 1], it.separator)))
    return TableFormat(separator or most_frequent(lines[0] if lines else ""))


def most_frequent(line: str) -> str:
    """Returns the most frequent separator of a line outside quotes; a comma if it has none."""
    plain = re.sub(r'"[^"]*"', "", line)
    return max(SEPARATORS, key=plain.count)


def layout_by(lines: Sequence[str], separator: str) -> Optional[TableFormat]:
    """Returns the format with a separator; None if no line has as many names as the rows have fields."""
    if separator != BLANKS and not any(separator in line for line in lines):
        return None
    fields = [fields_of(line, separator) for line in lines]
    rows = [row for row in fields[len(fields) // 2 :] if len(row) > 1]
    if not rows:
        return None
    width = Counter(map(len, rows)).most_common(1)[0][0]
    rows = [row for row in rows if len(row) == width]
    are_names = (len(row) == width and sum(map(bool, row)) > 1 and not numbers_in(row) for row in fields)
    names = next((k for k, is_row in enumerate(are_names) if is_row), None)
    if names is None:
        return None
    usual = median(map(numbers_in, rows))
    below = islice(range(names + 1, len(fields)), MOST_BELOW)
    first = next((k for k in below if not is_header(fields[k], usual)), names + 1)
    package = package_of(lines[:names], fields[names:first])
    said = [f"{package} CSV"] if package else []
    said += [f"{first} header lines"] if first > 1 else []
    form = TableFormat(separator, decimal_of(rows, separator), USUAL, names + 1, first + 1)
    return replace(form, above=tuple(lines[:first]), recognised=", ".join(said))


def fields_of(line: str, separator: str) -> list[str]:
    """Returns the fields of a line, without blanks around them; none of a comment or an empty line."""
    if line.startswith(COMMENT) or not line.strip():
        return []
    if separator == BLANKS:
        return line.split()
    try:
        return [field.strip() for field in next(csv.reader([line], delimiter=separator), [])]
    except csv.Error:
        return []


def numbers_in(row: list[str]) -> int:
    return sum(NUMBER.fullmatch(field) is not None for field in row)


def is_header(row: list[str], usual: float) -> bool:
    """Returns whether a line below the names is a header line too: one of Vulcan, or one without numbers where rows have several."""
    if row and OF_VULCAN.match(row[0]):
        return True
    return usual >= 2 and not numbers_in(row) and (any(row) or not row)


def decimal_of(rows: list[list[str]], separator: str) -> str:
    """Returns the decimal mark of rows. Commas that separate fields, or thousands, do not count."""
    fields = [field for row in rows for field in row]
    has_points = any(WITH_POINT.fullmatch(field) for field in fields)
    has_commas = separator != "," and any(WITH_COMMA.fullmatch(field) for field in fields)
    return "," if has_commas and not has_points else "."


def package_of(preamble: Sequence[str], header: list[list[str]]) -> str:
    """Returns the package that writes such a preamble and such header lines."""
    text, names = "\n".join(preamble), set(header[0])
    if any(row and OF_VULCAN.match(row[0]) for row in header):
        return "Vulcan"
    if "surpac" in text.lower():
        return "Surpac"
    if COMMENT in text and OF_LEAPFROG.search(text):
        return "Leapfrog"
    centres, others = OF_DATAMINE
    return "Datamine" if centres <= names and names & others else ""


# What a packed or plain file raises that cannot be read.
UNREADABLE = (OSError, EOFError, zipfile.BadZipFile, zlib.error, lzma.LZMAError)
# Of the flags of a packed file that which says that it is locked.
LOCKED = 1
# How files begin that Excel writes, new and old.
PACKED = (b"PK\x03\x04", b"\xd0\xcf\x11\xe0")
# The most letters of a line: a packed file may hold one that no memory holds.
MOST_IN_A_LINE = 10_000_000
# The error handler of `codecs` that reads these bytes.
MIXED = "pitplan.cp1252"
# Files of block models that are no texts, by their endings.
MODELS = {".omf": "an OMF file", ".dm": "a Datamine file"}
MARKS = {codecs.BOM_UTF16_LE: "utf-16", codecs.BOM_UTF16_BE: "utf-16"}


class Mixed:
    """Counts the bytes that were read as Windows-1252."""

    count = 0


def as_windows_1252(error: UnicodeError) -> tuple[str, int]:
    """Reads bytes that are not UTF-8 as Windows-1252; the five bytes that this does not have as U+FFFD."""
    if not isinstance(error, UnicodeDecodeError):
        raise error
    Mixed.count += error.end - error.start
    return error.object[error.start : error.end].decode(OTHERWISE, errors="replace"), error.end


codecs.register_error(MIXED, as_windows_1252)


def guessed_separator(file: Path, encoding: str) -> str:
    """Returns the most frequent separator of the first line outside quotes; a comma if it has none."""
    lines = first_lines(file, encoding, "strict", 1)
    return most_frequent(lines[0] if lines else "")


def names_in_header(file: Path, form: TableFormat) -> list[str]:
    """Returns the names of the columns, as they are written."""
    lines = first_lines(file, form.encoding, form.errors, form.header_row)
    line = lines[form.header_row - 1] if len(lines) >= form.header_row else ""
    try:
        return line.split() if form.has_blanks else next(csv.reader([line], delimiter=form.separator), [])
    except csv.Error as error:
        raise PlanError(f"{file} row {form.header_row}: is not a table header: {error}") from error


def first_lines(file: Path, encoding: str, errors: str = "strict", count: int = MOST_LINES) -> list[str]:
    """Returns the first lines of a text, without their ends. Raises PlanError if they cannot be read."""
    try:
        with opened(file) as data, io.TextIOWrapper(data, encoding=encoding, errors=errors) as text:
            lines = iter(lambda: text.readline(MOST_LETTERS), "")
            return [line.rstrip("\n") for line in islice(lines, count)]
    except UnicodeError as error:
        raise wrong_encoding(file, encoding) from error
    except UNREADABLE as error:
        raise unreadable(file, error) from error


def encoding_of(file: Path) -> str:
    """Returns the encoding of a byte-order mark, otherwise UTF-8. Raises PlanError if the file cannot be read."""
    try:
        with opened(file) as data:
            start = data.read(2)
    except UNREADABLE as error:
        raise unreadable(file, error) from error
    return MARKS.get(start, USUAL)


class WholeText(io.TextIOWrapper):
    """A table's text. Raises NulByte for a NUL byte, at which pandas would end the field without a word, and LongLine for a line without an end."""

    ended = letters = 0

    def read(self, size: Optional[int] = -1, /) -> str:
        piece = super().read(size)
        if "\0" in piece:
            raise NulByte
        self.count(piece)
        return piece

    def count(self, piece: str) -> None:
        """Counts the lines that have ended, and the letters of the one that has not."""
        end = max(piece.rfind("\n"), piece.rfind("\r"))
        self.letters = self.letters + len(piece) if end < 0 else len(piece) - end - 1
        self.ended += piece.count("\n")
        if self.letters > MOST_IN_A_LINE:
            raise LongLine(self.ended + 1)


class NulByte(Exception):
    """A text holds a NUL byte."""


class LongLine(Exception):
    """A row, from 1, has more than MOST_IN_A_LINE letters."""


def long_line(file: Path, error: LongLine) -> PlanError:
    """Returns the error of a line without an end, by its row."""
    remedy = "expected a line for each block: export the table again as CSV"
    return PlanError(f"{file} row {error}: has more than {MOST_IN_A_LINE:,} letters, {remedy}")


def nul_byte(file: Path, form: TableFormat) -> PlanError:
    """Returns the error of the first NUL byte of a table, by its row and column."""
    remedy = 'export it again as text, or name its encoding by [table] encoding, such as "utf-16"'
    with opened(file) as data, io.TextIOWrapper(data, encoding=form.encoding, errors=form.errors) as text:
        row, line = next(((number, line) for number, line in enumerate(text, 1) if "\0" in line), (1, ""))
    # As many fields as begin before it; a quote that is open may hold the separator.
    before = line.partition("\0")[0]
    fields = before.split() if form.has_blanks else next(csv.reader([before], delimiter=form.separator), [])
    number = max(1, len(fields))
    names = names_in_header(file, form) if row > form.header_row else []
    column = f" column {names[number - 1]}" if number <= len(names) else ""
    place = ErrorPlace(row=row, column=column.removeprefix(" column "))
    return PlanError(f"{file} row {row}{column}: contains a NUL byte: {remedy}", place=place)


@contextmanager
def opened(file: Path) -> Iterator[IO[bytes]]:
    """Yields the bytes of a table's text, those of the packed file if it is a .gz or a .zip file. Raises one of UNREADABLE, and PlanError if a .zip
    file packs several files or none, or if another file is packed."""
    if file.suffix == ".gz":
        with gzip.open(file) as unzipped:
            yield cast(IO[bytes], unzipped)
    elif file.suffix == ".zip":
        with zipfile.ZipFile(file) as packed, unpacked(file, packed) as data:
            yield data
    else:
        with open(file, "rb") as data:
            if data.peek()[: len(PACKED[0])] in PACKED:
                raise PlanError(
                    f"{file}: is a workbook or another packed file: save the sheet, or what it packs, as CSV"
                )
            yield data


def unpacked(file: Path, packed: zipfile.ZipFile) -> IO[bytes]:
    """Opens the only file of a .zip file. Raises PlanError if there are several or none, or if it cannot be unpacked here."""
    there = [member for member in packed.infolist() if not member.is_dir()]
    if len(there) != 1:
        raise PlanError(f"{file}: packs {len(there)} files, and must pack one table")
    if there[0].flag_bits & LOCKED:
        raise PlanError(f"{file}: is locked by a password: unpack it, and name the table that it packs")
    try:
        return packed.open(there[0])
    except NotImplementedError as error:
        raise PlanError(
            f"{file}: is packed in a way that is not read here ({error}): pack it by deflate, or unpack it"
        ) from error


def demand_text(file: Path, purpose: str) -> None:
    """Raises PlanError if a table is no text, which the purpose needs."""
    kind = "Parquet" if is_parquet(file) else MODELS.get(file.suffix.lower())
    if kind:
        raise PlanError(f"{file}: is {kind}, and {purpose} needs a table that is text, such as CSV")


def unreadable(file: Path, error: Exception) -> PlanError:
    return PlanError(f"{file}: cannot be read: {getattr(error, 'strerror', None) or error}")


def wrong_encoding(file: Path, encoding: str) -> PlanError:
    named = "UTF-8" if encoding == "utf-8-sig" else encoding
    return PlanError(
        f'{file}: is not written in {named}: name its encoding by [table] encoding, such as "cp1252" or "utf-16"'
    )


ENDING = ".parquet"


def is_parquet(file: Path) -> bool:
    return file.suffix.lower() == ENDING


def read_parquet(file: Path, codes: list[str], wanted: list[str]) -> tuple[pd.DataFrame, list[str]]:
    """Reads the wanted columns of a file, numbers as float64 and codes as texts; returns also the names of all its columns.

    Raises MissingPackage without pyarrow, and PlanError if it cannot read the file.
    """
    pyarrow = reader_of(file)
    try:
        names = list(pyarrow.read_schema(file).names)
        frame = pyarrow.read_table(file, columns=[name for name in dict.fromkeys(wanted) if name in names]).to_pandas()
    except (OSError, ValueError) as error:
        raise PlanError(f"{file}: cannot be read as Parquet: {' '.join(str(error).split())}") from error
    return plain(frame, codes), names


def reader_of(file: Path) -> Any:
    """Returns pyarrow's module for Parquet files. Raises MissingPackage if it is not installed."""
    try:
        from pyarrow import parquet
    except ImportError as error:
        if not is_of(error, "pyarrow.parquet"):
            raise MissingPackage(f"{file}: is Parquet, and pyarrow is there and cannot be imported: {error}") from error
        why = "needs pyarrow (python3-pyarrow), which is not installed and which Debian 12 does not have: export the table as CSV"
        raise MissingPackage(f"{file}: is Parquet, which {why}") from error
    return parquet


def plain(frame: pd.DataFrame, codes: list[str]) -> pd.DataFrame:
    """Returns codes as texts, which are empty if missing, and single floats as their shortest decimals: 0.3 and not 0.300000012."""
    result = frame.copy()
    for name in frame.columns:
        if name in codes:
            result[name] = frame[name].astype(object).where(frame[name].notna(), "").astype(str)
        elif frame[name].dtype == np.float32:
            result[name] = frame[name].to_numpy().astype(str).astype(np.float64)
    return result


# Rows that are read at a time: the reader holds several times what it has read.
PIECE = 500_000
# From this number of parts on memory is given back after each column, otherwise after the last.
MANY = 32


@dataclass(frozen=True)
class Fields:
    """How the fields of columns are read; other columns are numbers if all of their fields are.

    Attributes
    ----------
    codes : sequence of str
        Columns of texts.
    shared : sequence of str
        Codes that many rows share: they are read as categories, in a fraction of the time.
    numbers : mapping of str to sequence of str
        Columns of numbers, with the texts that stand for an empty field besides the empty text.
    """

    codes: Sequence[str] = ()
    shared: Sequence[str] = ()
    numbers: Mapping[str, Sequence[str]] = field(default_factory=dict)


def read_columns(file: Path, form: TableFormat, fields: Fields = Fields()) -> pd.DataFrame:
    """Returns the file as it is: numbers if a column has no other field, codes as texts, and an empty number as nan.

    Raises PlanError if the file cannot be read or is not a table. Whether columns exist is not checked.
    """
    try:
        with warnings.catch_warnings():
            # All columns are read, and a line with more fields than the header is an error: pandas would drop the rest.
            warnings.simplefilter("error", pd.errors.ParserWarning)
            # A column may have numbers in one piece and texts in another.
            warnings.simplefilter("ignore", pd.errors.DtypeWarning)
            options = options_of(form, fields)
            pieces = read_parts(file, form, options)
            if pieces is not None:
                return joined(pieces)
            with opened(file) as data, WholeText(data, encoding=form.encoding, errors=form.errors, newline="") as text:
                options |= {"float_precision": "round_trip", "chunksize": PIECE}
                return joined([without_truths(piece) for piece in pd.read_csv(text, **options)])
    except NulByte as error:
        raise nul_byte(file, form) from error
    except LongLine as error:
        raise long_line(file, error) from error
    except UnicodeError as error:
        raise wrong_encoding(file, form.encoding) from error
    except (pd.errors.ParserError, pd.errors.EmptyDataError, pd.errors.ParserWarning) as error:
        raise no_table(file, form, str(error)) from error
    except UNREADABLE as error:
        raise unreadable(file, error) from error


def options_of(form: TableFormat, fields: Fields) -> dict[str, Any]:
    """Returns the options of `pandas.read_csv`."""
    return {
        "sep": pandas_separator(form),
        "skiprows": form.skipped,
        "decimal": form.decimal,
        "index_col": False,
        "dtype": {**dict.fromkeys(fields.codes, "str"), **dict.fromkeys(fields.shared, "category")},
        "keep_default_na": False,
        "na_values": {name: ["", *nulls] for name, nulls in fields.numbers.items()},
    }


def no_table(file: Path, form: TableFormat, why: str) -> PlanError:
    """Returns the error for a text that pandas cannot parse, with the row if pandas names it."""
    if found := re.search(r"Expected (\d+) fields in line (\d+), saw (\d+)", why):
        names, row, fields = (int(it) for it in found.groups())
        remedy = "quote a field that contains the separator, or remove the surplus one"
        said = f"has {fields} fields, expected the {names} of the names: {remedy}"
        return PlanError(f"{file} row {row}: {said}", place=ErrorPlace(row=row))
    if "does not match length of data" in why:
        return PlanError(
            f"{file} row {form.first_row}: has more fields than names in row {form.header_row}: name each column"
        )
    if found := re.search(r"EOF inside string starting at row (\d+)", why):
        row = int(found[1]) + 1 + len(form.skipped)
        said = "a quotation mark is opened and not closed: close it, or remove it"
        return PlanError(f"{file} row {row}: {said}", place=ErrorPlace(row=row))
    return PlanError(f"{file}: is not a table: {' '.join(why.split())}")


def pandas_separator(form: TableFormat) -> str:
    return r"\s+" if form.has_blanks else form.separator


def joined(pieces: list[pd.DataFrame]) -> pd.DataFrame:
    """Returns one table of several, which are emptied column by column, so that no more than one column is held twice."""
    if len(pieces) == 1:
        return pieces[0]
    names = list(pieces[0].columns)
    columns = {}
    for name in names:
        columns[name] = stacked([piece.pop(name) for piece in pieces])
        if len(pieces) >= MANY or name == names[-1]:
            give_back_memory()
    return pd.DataFrame(columns, copy=False)


def give_back_memory() -> None:
    """Gives freed memory back to the system, since memory that threads have freed is lost to others otherwise. Only glibc has the call."""
    with suppress(AttributeError, OSError):
        ctypes.CDLL(None).malloc_trim(0)


def stacked(columns: list[pd.Series]) -> Any:
    """Returns one column of several; categories stay categories."""
    if all(isinstance(column.dtype, pd.CategoricalDtype) for column in columns):
        return union_categoricals(columns)
    return pd.concat(columns, ignore_index=True)


def read_header(file: Path, form: TableFormat) -> list[str]:
    """Returns the names of a table's columns. Raises PlanError if it cannot be read."""
    try:
        with opened(file) as data, WholeText(data, encoding=form.encoding, errors=form.errors, newline="") as text:
            header = pd.read_csv(text, sep=pandas_separator(form), skiprows=form.skipped, nrows=0)
            return list(header.columns)
    except NulByte as error:
        raise nul_byte(file, form) from error
    except LongLine as error:
        raise long_line(file, error) from error
    except (*UNREADABLE, ValueError) as error:
        raise PlanError(f"{file}: cannot be read: {error}") from error


def demand_columns(frame: pd.DataFrame, wanted: list[str], source: str) -> None:
    for name in wanted:
        if name not in frame.columns:
            there = ", ".join(map(str, frame.columns))
            raise PlanError(f"{source}{of_header(source)}: there is no column {name}; the columns are {there}")
    demand_each_once([name for name in frame.columns if name in wanted], source)


def demand_each_once(names: list[str], source: str) -> None:
    for name in names:
        if names.count(name) > 1:
            raise PlanError(f"{source}{of_header(source)}: the column {name} occurs twice")


def of_header(source: str) -> str:
    """Returns the row of the names, as errors say it; "" for a file that has them in no row."""
    row = header_row_of(source)
    return f" row {row}" if row else ""


# Reads plain tables in parts by several threads, with the fields that `text_tables` reads by one.
#
# A plain table is ASCII text without quotes and blanks, so that each line is a row. Its decimal numbers have at most
# 15 characters without sign and exponent: the digits are a whole number that a float holds. pandas' faster conversion
# multiplies or divides this once by a power of ten. Up to 10^22 a float holds this power too, so that the result is
# rounded once, as the standard sets it.

# Bytes of a table that several threads read in less time than one, and of the part that a thread reads at a time.
LEAST, PART = 1 << 24, 1 << 23
# More threads wait for each other, since texts are made by one at a time.
MOST_THREADS = 4
# The characters . / and 0 to 9, and the length of a run of them that is too long.
FIRST, KINDS, TOO_LONG = ord("."), 12, 16
# Numbers of at most 15 digits between these have powers of ten up to 10^22.
SMALLEST, GREATEST = 1e-7, 1e22
UNLIKE_PLAIN = (b'"', b"\0", b" ", b"\v", b"\f")


class NotPlain(Exception):
    """A table is not plain."""


def read_parts(file: Path, form: TableFormat, options: Mapping[str, Any]) -> Optional[list[pd.DataFrame]]:
    """Returns the parts of a table in order; None if it is small or not plain. The options are those of `pandas.read_csv`; `dtype` has the columns of
    texts."""
    if form.encoding != USUAL or form.decimal != "." or form.has_blanks or file.suffix in (".gz", ".zip"):
        return None
    try:
        if cores() < 2 or file.stat().st_size < LEAST:
            return None
        head, bounds = cut(file, form)
        with ThreadPoolExecutor(min(cores(), MOST_THREADS)) as threads:
            return list(threads.map(lambda bound: part_of(file, bound, head, form, options=options), bounds))
    except (NotPlain, ValueError, Warning, *UNREADABLE):
        # One thread finds what is wrong, with its row.
        return None


def cut(file: Path, form: TableFormat) -> tuple[bytes, list[range]]:
    """Returns the lines before the first row, and where parts of whole lines begin and end."""
    with open(file, "rb") as data:
        head = b"".join(islice(data, form.first_row - 1))
        places, size = [len(head)], file.stat().st_size
        while places[-1] < size:
            data.seek(min(places[-1] + PART, size))
            data.readline()
            places.append(data.tell())
    demand_plain(head.replace(b"\r\n", b"\n").replace(b" ", b"_"), form)
    if b"\r" in head.replace(b"\r\n", b"\n"):
        raise NotPlain
    return head, list(map(range, places, places[1:]))


def part_of(file: Path, bound: range, head: bytes, form: TableFormat, *, options: Mapping[str, Any]) -> pd.DataFrame:
    """Returns the rows between two places of a file. Raises NotPlain."""
    with open(file, "rb") as data:
        data.seek(bound.start)
        rows = data.read(len(bound))
    demand_plain(rows, form)
    if has_long_number(rows):
        raise NotPlain
    found = pd.read_csv(io.BytesIO(head + rows), **options, float_precision="high")
    for name, column in found.items():
        if name not in options["dtype"] and not is_exact(column):
            raise NotPlain
    return found


def demand_plain(text: bytes, form: TableFormat) -> None:
    """Raises NotPlain if a text has quotes, blanks or other characters than those of ASCII."""
    tab = () if form.separator == "\t" else (b"\t",)
    if not text.isascii() or any(it in text for it in (*UNLIKE_PLAIN, *tab)):
        raise NotPlain


def has_long_number(text: bytes) -> bool:
    """Returns whether 16 characters that follow each other are digits, points or slashes."""
    run, length = np.frombuffer(text, dtype=np.uint8) - np.uint8(FIRST) < KINDS, 1
    while length < TOO_LONG:
        run, length = run[:-length] & run[length:], 2 * length
    return bool(run.any())


def is_exact(column: pd.Series) -> bool:
    """Returns whether a column has whole numbers, or decimal ones whose powers of ten a float holds."""
    if column.dtype != np.float64:
        return bool(column.dtype == np.int64)
    sizes = np.abs(column.to_numpy())
    return bool((((sizes >= SMALLEST) & (sizes <= GREATEST)) | (sizes == 0) | np.isnan(sizes)).all())

"""Reads the block model of a Datamine file (.dm), in single or double precision.

A file has pages of 512 words, of 4 bytes in single and of 8 bytes in double (extended) precision; 508 words of a page hold data. The first page has
the data definition: texts of eight characters and a description, then the number of fields, the last page and the number of records on it, and
seven words for each field: its name in two words, its type A or N, the word of a record in which it is stored, which part of a text it is, its
unit, and its default. A text of more than four characters is several fields of one name. A field that is stored in no word is implicit: it has its
default in every record. Records do not cross pages. In double precision a word has four characters of a text, in its first half.

Neither precision nor byte order is stated in the file; both are found from the definition.
"""

from __future__ import annotations

from dataclasses import dataclass
from pathlib import Path
from typing import Optional, Sequence

import numpy as np
import pandas as pd

from pitplan.core.numeric_fields import as_codes
from pitplan.core.tolerances import SINGLE_PRECISION
from pitplan.errors import PlanError

from .grid import MOST_CELLS

ENDING = ".dm"
# Words of a page, of its data, and of the definition before its fields and of each field.
PAGE, DATA, HEAD, FIELD = 512, 508, 24, 7
MOST_FIELDS = (DATA - HEAD) // FIELD
# Numbers of the definition, by word from 0: fields, last page, and records on the last page.
FIELDS, LAST_PAGE, LAST_RECORD = 21, 22, 23
# The magnitude of absent data and of missing bounds. Single precision does not hold it exactly.
ABSENT = 1e30
CHARACTERS = 4
ENCODING = "cp1252"
# The fields that a block model has, and their columns.
NAMES = {"XC": "x", "YC": "y", "ZC": "z", "XINC": "xinc", "YINC": "yinc", "ZINC": "zinc"}
CENTRES = ("XC", "YC", "ZC")
ANGLES = ("ANGLE1", "ANGLE2", "ANGLE3")


@dataclass(frozen=True)
class Words:
    """How words are stored: their bytes, and the byte order, "<" or ">"."""

    size: int
    order: str

    @property
    def page(self) -> int:
        return PAGE * self.size

    @property
    def dtype(self) -> np.dtype:
        return np.dtype(f"{self.order}f{self.size}")

    @property
    def precision(self) -> str:
        return {4: "single", 8: "double"}[self.size]

    def number(self, page: bytes, word: int) -> float:
        return float(np.frombuffer(page, self.dtype, 1, word * self.size)[0])

    def text(self, page: bytes, word: int, count: int = 1) -> str:
        """Returns words as a text without blanks at its end."""
        parts = [page[at * self.size : at * self.size + CHARACTERS] for at in range(word, word + count)]
        return b"".join(parts).decode(ENCODING, "replace").rstrip(" \0")


LAYOUTS = tuple(Words(size, order) for order in "<>" for size in (4, 8))


@dataclass(frozen=True)
class DefinedField:
    """A field of the definition: its column, whether it is a text, the word of a record from 0 (None: implicit), and its default."""

    name: str
    is_text: bool
    word: Optional[int]
    number: int
    default: float
    default_text: str


@dataclass(frozen=True)
class Definition:
    """The first page of a file."""

    words: Words
    parts: tuple[DefinedField, ...]
    pages: int
    on_last: int

    @property
    def length(self) -> int:
        """Words of a record."""
        return max((part.word + 1 for part in self.parts if part.word is not None), default=0)

    @property
    def records(self) -> int:
        if self.pages < 2 or not self.length:
            return 0
        return (self.pages - 2) * (DATA // self.length) + self.on_last


def is_datamine(file: Path, head: bytes) -> bool:
    """Returns whether a file is of Datamine, by its first page; `.dm` files are, so that `read` says what is wrong with them."""
    return words_of(head) is not None or file.suffix.lower() == ENDING


def words_of(page: bytes) -> Optional[Words]:
    """Returns precision and byte order of a first page; None if it is no data definition."""
    return next((words for words in LAYOUTS if is_definition(page, words)), None)


def is_definition(page: bytes, words: Words) -> bool:
    """Returns whether the first page has whole numbers of fields, pages and records, and a first field of type A or N with a name."""
    if len(page) < words.page:
        return False
    fields, pages, records = (words.number(page, word) for word in (FIELDS, LAST_PAGE, LAST_RECORD))
    is_whole = all(np.isfinite(it) and it == int(it) for it in (fields, pages, records))
    if not is_whole or not 1 <= fields <= PAGE or not 1 <= pages <= MOST_CELLS or not 0 <= records <= DATA:
        return False
    name, kind = words.text(page, HEAD, 2), words.text(page, HEAD + 2)
    return bool(name) and name.isprintable() and kind in ("A", "N")


def read(file: Path, codes: Sequence[str] = ()) -> tuple[pd.DataFrame, str]:
    """Reads the block model of a file; returns one row per record, and what was recognised, for a planner. `codes` are fields that are texts: whole
    numbers among them are 3, not 3.0.

    XC, YC, ZC, XINC, YINC and ZINC are the columns `x`, `y`, `z`, `xinc`, `yinc`, `zinc`, in metres; other fields keep their names. Implicit fields
    have their value in each row. Absent numbers are nan, absent texts empty. Raises PlanError, with the file, and the field or the page, if it is no
    block model of Datamine, is cut or damaged, or is rotated.
    """
    try:
        with open(file, "rb") as handle:
            head = handle.read(PAGE * max(words.size for words in LAYOUTS))
        words = words_of(head)
        if words is None:
            why = "found no data definition in its first page, of 2,048 or 4,096 bytes"
            raise PlanError(f"{file}: is no Datamine file: {why}: export it again, or as CSV")
        definition = definition_of(file, head[: words.page], words)
        records = records_of(file, definition)
    except OSError as error:
        raise PlanError(f"{file}: cannot be read: {error.strerror}") from error
    frame = block_model(file, definition, records, codes)
    return frame, f"Datamine .dm, {words.precision} precision, {definition.records:,} records"


def definition_of(file: Path, page: bytes, words: Words) -> Definition:
    """Reads the data definition. Raises PlanError, by the field, if it contradicts itself."""
    count = int(words.number(page, FIELDS))
    if count > MOST_FIELDS:
        why = f"found {count:,} fields, expected at most {MOST_FIELDS}, which one page defines: export fewer fields"
        raise PlanError(f"{file}: {why}")
    parts = tuple(part_of(file, page, words, number) for number in range(count))
    found = Definition(words, parts, *(int(words.number(page, word)) for word in (LAST_PAGE, LAST_RECORD)))
    stored = pd.Series([part.word for part in parts])
    twice = (stored.notna() & stored.duplicated()).to_numpy()
    if twice.any():
        name = parts[int(twice.argmax())].name
        raise PlanError(f"{file}: field {name}: is stored in the same word as another: export the file again")
    if found.length and found.on_last > DATA // found.length:
        why = f"found {found.on_last:,} records on the last page, expected at most {DATA // found.length:,}"
        raise PlanError(f"{file}: {why}: export the file again")
    if found.records > MOST_CELLS:
        raise PlanError(f"{file}: found {found.records:,} records, expected at most {MOST_CELLS:,}: reblock the model")
    return found


def part_of(file: Path, page: bytes, words: Words, number: int) -> DefinedField:
    """Reads the definition of a field, counted from 0. Raises PlanError if it is not one."""
    at = HEAD + FIELD * number
    name, kind = words.text(page, at, 2), words.text(page, at + 2)
    where = f"{file}: field {number + 1}" + (f" {name}" if name else "")
    if not name or not name.isprintable() or kind not in ("A", "N"):
        raise PlanError(f'{where}: found the type "{kind}", expected a name and A or N: export the file again')
    word, part = words.number(page, at + 3), words.number(page, at + 4)
    for value, most in ((word, DATA), (part, DATA)):
        if not np.isfinite(value) or value != int(value) or not 0 <= value <= most:
            raise PlanError(f"{where}: found word {value:g}, expected 0 to {DATA}: export the file again")
    default, text = words.number(page, at + 6), words.text(page, at + 6)
    return DefinedField(name, kind == "A", int(word) - 1 if word else None, max(int(part), 1), default, text)


def records_of(file: Path, definition: Definition) -> np.ndarray:
    """Returns the words of all records as bytes, shape (records, words, bytes). Raises PlanError if the file ends before the last one."""
    words, size = definition.words, file.stat().st_size
    count, length = definition.records, definition.length
    if not count:
        raise PlanError(f"{file}: has no records: expected a block model")
    per_page = DATA // length
    whole, rest = definition.pages - 2, definition.on_last
    needed = (definition.pages - 1) * words.page + rest * length * words.size
    if size < needed:
        page = size // words.page + 1
        raise PlanError(
            f"{file}: ends at byte {size:,}, on page {page:,} of {definition.pages:,}; expected {needed:,} bytes: "
            "the file is cut: export it again"
        )
    data = np.fromfile(file, dtype=np.uint8, offset=words.page)
    pages = data[: whole * words.page].reshape(whole, PAGE, words.size)[:, : per_page * length]
    last = data[whole * words.page :][: rest * length * words.size]
    return np.concatenate([pages.reshape(-1, length, words.size), last.reshape(-1, length, words.size)])


def block_model(file: Path, definition: Definition, records: np.ndarray, codes: Sequence[str]) -> pd.DataFrame:
    """Returns the fields of all records as columns. Raises PlanError if a field of a block model is missing, or the model is rotated."""
    fields: dict[str, list[DefinedField]] = {}
    for part in definition.parts:
        fields.setdefault(part.name, []).append(part)
    known = {name.upper(): name for name in fields}
    missing = [name for name in CENTRES if name not in known]
    if missing:
        there = ", ".join(fields)
        raise PlanError(
            f"{file}: has no field {missing[0]}; expected the XC, YC and ZC of a block model, found {there}"
        )
    columns = {}
    for name, parts in fields.items():
        column = NAMES.get(name.upper(), name)
        values = column_of(file, definition, records, parts)
        columns[column] = as_codes(values) if column in codes else values
    for name in ANGLES:
        turned = columns.get(known.get(name, ""), np.zeros(1))
        if turned.dtype != object and np.nanmax(np.abs(turned), initial=0.0) > 0:
            why = f"{name} is {turned[0]:g}, and XC and YC of a rotated model are not those of the ground"
            raise PlanError(f"{file}: {why}: export the model with world coordinates, or as CSV")
    return pd.DataFrame(columns)


def column_of(file: Path, definition: Definition, records: np.ndarray, parts: list[DefinedField]) -> np.ndarray:
    """Returns the values of a field: floats, or texts of its parts. Raises PlanError if the parts do not follow each other."""
    first = parts[0]
    if not first.is_text and len(parts) == 1:
        return numbers_of(file, definition, records, first)
    order = sorted(parts, key=lambda part: part.number)
    if not all(part.is_text for part in parts) or [part.number for part in order] != list(range(1, len(parts) + 1)):
        raise PlanError(
            f"{file}: field {first.name}: is defined {len(parts)} times, and not as parts of one text: export the file again"
        )
    pieces = [
        records[:, part.word, :CHARACTERS] if part.word is not None else implicit(part, len(records)) for part in order
    ]
    whole = np.ascontiguousarray(np.concatenate(pieces, axis=1)).view(f"S{CHARACTERS * len(order)}")[:, 0]
    used, place = np.unique(whole, return_inverse=True)
    names = [text.decode(ENCODING, "replace").strip(" \0") for text in used]
    return np.array(names, dtype=object)[place]


def implicit(part: DefinedField, count: int) -> np.ndarray:
    """Returns the default of a text as bytes, shape (count, 4)."""
    text = part.default_text.encode(ENCODING, "replace")[:CHARACTERS].ljust(CHARACTERS)
    return np.broadcast_to(np.frombuffer(text, dtype=np.uint8), (count, CHARACTERS))


def numbers_of(file: Path, definition: Definition, records: np.ndarray, part: DefinedField) -> np.ndarray:
    """Returns the numbers of a field, nan if absent. Raises PlanError if one is infinite."""
    if part.word is None:
        found = np.full(len(records), part.default, dtype=definition.words.dtype)
    else:
        found = np.ascontiguousarray(records[:, part.word]).view(definition.words.dtype)[:, 0]
    infinite = np.isinf(found)
    if infinite.any():
        raise PlanError(
            f"{file}: record {int(infinite.argmax()) + 1:,} field {part.name}: is infinite: the file is damaged: export it again"
        )
    values = as_decimals(found)
    return np.where(np.abs(values) >= ABSENT * (1 - SINGLE_PRECISION), np.nan, values)


def as_decimals(values: np.ndarray) -> np.ndarray:
    """Returns floats; of single ones the shortest decimals that are theirs: 0.3 and not 0.300000012."""
    if values.dtype.itemsize == 8:
        return values.astype(np.float64)
    used, place = np.unique(values.astype(np.float32), return_inverse=True)
    return used.astype(str).astype(np.float64)[place]

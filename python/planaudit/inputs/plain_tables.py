"""Reads plain tables: all fields of a column at the same time, from their bytes.

A plain table is ASCII without quotes, whose rows have as many fields as there are names. A number of at most 15 digits is a whole number that
a float holds, divided by a power of ten that a float holds, so that one division rounds it as the standard sets it. Other numbers are read field by
field. Fields of at most eight characters are words, and equal words are read once. Pandas reads tables that are not plain.
"""

from __future__ import annotations

import re
from collections.abc import Iterator, Mapping
from dataclasses import dataclass
from functools import cached_property
from pathlib import Path
from typing import Optional

import numpy as np
import pandas as pd

from planaudit.inputs.identifiers import Identifiers
from planaudit.inputs.text_layout import TextLayout

# Bytes of the file that are read at the same time: their arrays fit into a processor's cache.
BYTES = 1 << 22
# Bytes around the rows, so that each field may be loaded with more bytes before and after it. Longer codes are left to pandas.
MARGIN = 64
AROUND = b"\0" * MARGIN
# Eight characters in a word, the first one in its lowest byte.
ONES, WORD = 0x0101010101010101, 8
ZEROS, DOTS, TOPS = ONES * ord("0"), ONES * ord("."), ONES * 0x80
ZERO = np.uint64(ord("0"))
# The masks that keep the first and the last 0 to 8 characters.
FIRST = np.array([(1 << 8 * count) - 1 for count in range(WORD + 1)], dtype=np.uint64)
LAST = ~FIRST[::-1]
POWERS = np.array([float(f"1e{places}") for places in range(2 * WORD)])
MOST_EXACT = 1 << 53
NUMBER = re.compile(rb"[-+]?(?:\d+\.?\d*|\.\d+)(?:[eE][-+]?\d{1,3})?")
# Number of rows in the sample that shows whether the fields of a column recur.
SAMPLE = 512
# The kinds of columns: a text as it is written, or without blanks around it, both also as ids; and a number, or nan for an empty field.
TEXT, CODE, ID, STRIPPED_ID, NUMERIC, OR_EMPTY = "text", "code", "id", "stripped id", "number", "number or empty"


@dataclass(frozen=True)
class Fields:
    """Fields of a column: where they start and end in their bytes, which have a margin before and after them."""

    data: bytes
    starts: np.ndarray
    ends: np.ndarray

    @cached_property
    def lengths(self) -> np.ndarray:
        found: np.ndarray = self.ends - self.starts
        return found

    def words(self, places: np.ndarray) -> np.ndarray:
        """Returns the eight characters from each of some places on."""
        whole: np.ndarray = np.ndarray((len(self.data) - WORD + 1,), dtype="<u8", buffer=self.data, strides=(1,))
        found: np.ndarray = whole[places]
        return found

    def word(self, number: int) -> np.ndarray:
        """Returns a word of each field, by its number from 0, with zeros after the field."""
        if not number:
            return self.words(self.starts) & FIRST[np.minimum(self.lengths, WORD)]
        place = WORD * number
        return self.words(self.starts + place) & FIRST[np.clip(self.lengths - place, 0, WORD)]

    def characters(self, places: np.ndarray) -> np.ndarray:
        found: np.ndarray = np.frombuffer(self.data, dtype=np.uint8)[places]
        return found

    def of(self, rows: np.ndarray) -> Fields:
        return Fields(self.data, self.starts[rows], self.ends[rows])


@dataclass(frozen=True)
class Piece:
    """Whole rows of a file: their bytes, with a margin before and after them; and where fields end, shape (columns, rows)."""

    data: bytes
    ends: np.ndarray

    def column(self, number: int) -> Fields:
        starts = np.empty_like(self.ends[number])
        if number:
            np.add(self.ends[number - 1], 1, out=starts)
        else:
            starts[0], starts[1:] = MARGIN, self.ends[-1, :-1] + 1
        return Fields(self.data, starts, self.ends[number])


def read(path: Path, layout: TextLayout, kinds: Mapping[str, str]) -> Optional[pd.DataFrame]:
    """Returns columns of a table, by name with their kind; None if it is not plain."""
    names = layout.names
    if layout.separator == " " or len({*names}) < len(names) or not kinds.keys() <= {*names}:
        return None
    found: dict[str, list[np.ndarray]] = {name: [] for name in names if name in kinds}
    for piece in pieces(path, layout):
        for name, before in found.items():
            values = None if piece is None else values_of(piece.column(names.index(name)), kinds[name])
            if values is None:
                return None
            before.append(values)
    arrays = {name: np.concatenate(values) for name, values in found.items() if values}
    columns = {name: Identifiers(values) if values.dtype.kind == "S" else values for name, values in arrays.items()}
    return pd.DataFrame(columns, copy=False) if columns else None


def values_of(fields: Fields, kind: str) -> Optional[np.ndarray]:
    return numbers(fields, kind) if kind in (NUMERIC, OR_EMPTY) else texts(fields, kind)


def pieces(path: Path, layout: TextLayout) -> Iterator[Optional[Piece]]:
    """Yields the rows of a file; None and nothing more if they are not plain."""
    rest = b""
    with open(path, "rb") as file:
        above = [file.readline() for _ in range(layout.first_row - 1)]
        block = b"" if any(b"\r" in line.rstrip(b"\r\n") for line in above) else file.read(BYTES)
        while rest or block:
            block = block or b"\n"
            cut = block.rfind(b"\n") + 1
            if cut:
                piece = piece_of(b"".join([AROUND, rest, memoryview(block)[:cut], AROUND]), layout)
                yield piece
                if piece is None:
                    return
            rest = block[cut:] if cut else rest + block
            block = file.read(BYTES)


def piece_of(data: bytes, layout: TextLayout) -> Optional[Piece]:
    """Returns the fields of rows; None if these are not plain."""
    data = data.replace(b"\r\n", b"\n") if b"\r" in data else data
    if not data.isascii() or b'"' in data or b"\r" in data or data.find(b"\0", MARGIN, -MARGIN) >= 0:
        return None
    letters = np.frombuffer(data, dtype=np.uint8)
    is_end = letters == ord("\n")
    rows, columns = np.count_nonzero(is_end), len(layout.names)
    ends = np.flatnonzero(is_end | (letters == ord(layout.separator)))
    if len(ends) != rows * columns or not is_end[ends[columns - 1 :: columns]].all():
        return None
    # As small numbers as hold them: memory is what this takes.
    small = ends.astype(np.int32 if len(data) <= np.iinfo(np.int32).max else np.int64)
    return Piece(data, np.ascontiguousarray(small.reshape(rows, columns).T))


def are_varied(words: np.ndarray) -> bool:
    """Returns whether most of some words differ, by a sample."""
    some = words[:: -(-len(words) // SAMPLE)]
    return 2 * len(np.unique(some)) > len(some)


def texts(fields: Fields, kind: str) -> Optional[np.ndarray]:
    """Returns the fields of a column as texts, or ids as their bytes; None if one is too long."""
    count = max(1, -(-int(fields.lengths.max()) // WORD))
    if count * WORD > MARGIN:
        return None
    words = [fields.word(number) for number in range(count)]
    if kind in (ID, STRIPPED_ID):
        found: np.ndarray = np.stack(words, axis=1).view(f"S{WORD * count}")[:, 0]
        return np.char.strip(found) if kind == STRIPPED_ID and has_blanks(found) else found
    if any(map(are_varied, words)):
        return decoded(words, kind)
    place, distinct = pd.factorize(words[0])
    for word in words[1:]:
        more, there = pd.factorize(word)
        place, distinct = pd.factorize(place * len(there) + more)
    # Of equal texts the last one is decoded.
    row_of = np.empty(len(distinct), dtype=np.int64)
    row_of[place] = np.arange(len(place))
    return decoded([word[row_of] for word in words], kind)[place]


def decoded(words: list[np.ndarray], kind: str) -> np.ndarray:
    """Returns texts by their words, with zeros after each text."""
    found: np.ndarray = np.stack(words, axis=1).view(f"S{WORD * len(words)}")[:, 0]
    stripped = np.char.strip(found) if kind == CODE and has_blanks(found) else found
    return stripped.astype(str).astype(object)


def has_blanks(texts: np.ndarray) -> bool:
    """Returns whether any character of texts in bytes is a blank."""
    letters = texts.view(np.uint8)
    return bool(((letters <= ord(" ")) & (letters > 0)).any())


def numbers(fields: Fields, kind: str) -> Optional[np.ndarray]:
    """Returns the numbers of a column, int64 if none has a decimal point; None if a field is not a number."""
    words, others = fields.word(0), np.flatnonzero(fields.lengths > WORD)
    words[others] = ZERO
    if 2 * len(others) > len(words) or are_varied(words):
        return spelled(fields, kind)
    place, distinct = pd.factorize(words)
    found, more = spelled(of_words(distinct), kind), spelled(fields.of(others), kind) if len(others) else distinct[:0]
    if found is None or more is None:
        return None
    values: np.ndarray = found[place]
    if len(others):
        values = values.astype(np.result_type(found, more), copy=False)
        values[others] = more
    return values


def of_words(words: np.ndarray) -> Fields:
    """Returns fields of one word each, with zeros after a shorter one."""
    starts = MARGIN + WORD * np.arange(len(words))
    lengths = np.count_nonzero(words.view(np.uint8).reshape(-1, WORD), axis=1)
    return Fields(AROUND + words.tobytes() + AROUND, starts, starts + lengths)


def spelled(fields: Fields, kind: str) -> Optional[np.ndarray]:
    """Returns the numbers that fields spell, as `numbers` does, each by itself."""
    first = fields.characters(fields.starts)
    is_negative = first == ord("-")
    lengths = fields.lengths - (is_negative | (first == ord("+")))
    found = digits_of(fields, lengths)
    is_plain = found.are_all & (lengths > found.has_point) & (lengths <= 2 * WORD) & (found.whole < MOST_EXACT)
    others = np.flatnonzero(~is_plain)
    if not len(others) and not found.has_point.any():
        return np.where(is_negative, -found.whole, found.whole)
    values = found.whole / POWERS[found.places]
    values = np.where(is_negative, -values, values)
    for row in others.tolist():
        field = fields.data[fields.starts[row] : fields.ends[row]]
        if not (NUMBER.fullmatch(field) or (not field and kind == OR_EMPTY)):
            return None
        values[row] = float(field or b"nan")
    return values


@dataclass(frozen=True)
class Digits:
    """What fields spell, arrays of shape (rows,): the whole number of their digits; the digits after the decimal point; whether there is a point;
    and whether the others are all digits."""

    whole: np.ndarray
    places: np.ndarray
    has_point: np.ndarray
    are_all: np.ndarray


def digits_of(fields: Fields, lengths: np.ndarray) -> Digits:
    """Returns the digits among the last 16 characters of fields; `lengths` are those of the fields without their sign."""
    ends = fields.ends
    tail = filled(fields.words(ends - WORD), np.clip(lengths, 0, WORD))
    if lengths.max() <= WORD:
        tail, places, has_point = without_point(tail, ZERO)
        return Digits(value_of(tail), places, has_point, are_digits(tail))
    head = filled(fields.words(ends - 2 * WORD), np.clip(lengths - WORD, 0, WORD))
    tail, places, has_point = without_point(tail, head >> np.uint64(8 * (WORD - 1)))
    moved, more, is_ahead = without_point(head, ZERO)
    head = np.where(has_point, head << np.uint64(8) | ZERO, moved)
    whole = value_of(head) * 10**WORD + value_of(tail)
    return Digits(whole, places + more + WORD * is_ahead, has_point | is_ahead, are_digits(head) & are_digits(tail))


def filled(words: np.ndarray, counts: np.ndarray) -> np.ndarray:
    """Returns the last characters of words, as many as `counts` says, with zeros before them."""
    kept = LAST[counts]
    return (words & kept) | (np.uint64(ZEROS) & ~kept)


def without_point(words: np.ndarray, before: np.ndarray | np.uint64) -> tuple[np.ndarray, np.ndarray, np.ndarray]:
    """Returns words without their decimal point: the characters before it move up, and `before` comes first; the digits after the point; and
    whether there is one."""
    unlike = words ^ np.uint64(DOTS)
    marks = (unlike - np.uint64(ONES)) & ~unlike & np.uint64(TOPS)
    # The lowest bit of the first point's byte; 0 without a point.
    unit = (marks & (~marks + np.uint64(1))) >> np.uint64(7)
    has_point = unit != 0
    ahead = np.where(has_point, unit - np.uint64(1), np.uint64(0))
    after = ~(ahead | unit * np.uint64(0xFF))
    closed = (words & after) | (words & ahead) << np.uint64(8) | np.where(has_point, before, np.uint64(0))
    bits = (unit.astype(np.float64).view(np.int64) >> 52) - 1023
    return closed, np.where(has_point, WORD - 1 - (bits >> 3), 0), has_point


def are_digits(words: np.ndarray) -> np.ndarray:
    """Returns whether all eight characters are digits."""
    upper = np.uint64(ONES * 0xF0)
    carried = (words + np.uint64(ONES * 6)) & upper
    found: np.ndarray = ((words & upper) | carried >> np.uint64(4)) == np.uint64(ONES * 0x33)
    return found


def value_of(words: np.ndarray) -> np.ndarray:
    """Returns the number that eight digits spell: neighbours are joined to numbers of two, four and eight digits."""
    pairs = (words & np.uint64(ONES * 0x0F)) * np.uint64(10 * 256 + 1) >> np.uint64(8)
    fours = (pairs & np.uint64(0x00FF00FF00FF00FF)) * np.uint64(100 * 65536 + 1) >> np.uint64(16)
    eights = (fours & np.uint64(0x0000FFFF0000FFFF)) * np.uint64(10000 * 2**32 + 1) >> np.uint64(32)
    return eights.astype(np.int64)

"""Block models: `.blocks`, where every line has a block, its place, and the same number of attributes."""

from __future__ import annotations

from dataclasses import dataclass
from decimal import Decimal
from pathlib import Path
from typing import Iterator

from .numbers import Fitted, fit, whole_places
from .text import NUMBER, Line, MinelibError, lines

HEAD = 4
MOST_ATTRIBUTES = 64


@dataclass(frozen=True)
class BlockModel:
    """Blocks 0, 1, .. with whole coordinates and attributes.

    powers  of ten by which x, y and z are multiplied
    codes   for each column of texts (from 0, as the program counts attributes) its texts, numbered from 0
    """

    places: list[list[int]]
    powers: tuple[int, ...]
    attributes: list[Fitted]
    codes: dict[int, list[str]]

    def texts(self) -> Iterator[str]:
        columns = [map(str, axis) for axis in self.places] + [column.texts() for column in self.attributes]
        for block, fields in enumerate(zip(*columns)):
            yield f"{block} {' '.join(fields)}"


def read(path: Path) -> BlockModel:
    """Raises MinelibError, with the line, where a block is missing or stands twice or a line has more or fewer fields."""
    rows: dict[int, tuple[Line, list[str]]] = {}
    wide = None
    for line in lines(path):
        fields = line.fields
        wide = len(fields) if wide is None else wide
        if len(fields) < HEAD or len(fields) != wide:
            raise line.wrong(f"{len(fields)} fields, where {max(wide, HEAD)} are due: id, x, y, z and attributes")
        block = line.whole(fields[0])
        if block in rows:
            raise line.wrong(f"block {block} stands in line {rows[block][0].number} too")
        rows[block] = (line, fields)
    if wide is not None and wide - HEAD > MOST_ATTRIBUTES:
        raise MinelibError(f"{path}: {wide - HEAD} attributes, and the program takes at most {MOST_ATTRIBUTES}")
    missing = next((block for block in range(len(rows)) if block not in rows), None)
    if missing is not None:
        raise MinelibError(f"{path}: has no line of block {missing}, and one of block {max(rows)}: ids are 0, 1, ..")
    return model_of(path, [rows[block] for block in range(len(rows))], wide or HEAD)


def model_of(path: Path, rows: list[tuple[Line, list[str]]], wide: int) -> BlockModel:
    places, powers = [], []
    for column, axis in enumerate("xyz", 1):
        numbers, power = whole_places([line.decimal(fields[column]) for line, fields in rows], f"{path} column {axis}")
        places.append(numbers)
        powers.append(power)
    attributes: list[Fitted] = []
    codes: dict[int, list[str]] = {}
    for column in range(HEAD, wide):
        words = [fields[column] for _, fields in rows]
        if all(NUMBER.fullmatch(word) for word in words):
            attributes.append(fit([line.decimal(fields[column]) for line, fields in rows]))
            continue
        codes[column - HEAD] = sorted(set(words))
        number = {word: Decimal(code) for code, word in enumerate(codes[column - HEAD])}
        attributes.append(fit([number[word] for word in words]))
    return BlockModel(places, tuple(powers), attributes, codes)

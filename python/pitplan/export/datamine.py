"""Blocks as a Datamine block model (.dm) in double precision."""

from __future__ import annotations

import re
from dataclasses import dataclass
from pathlib import Path
from typing import Iterable

import numpy as np
import pandas as pd

from pitplan.blockmodel.datamine import ABSENT, CHARACTERS, DATA, ENCODING, FIELD, HEAD, PAGE
from pitplan.errors import PlanError
from pitplan.results.folder import Folder
from pitplan.results.pit_states import Shape

from .planner_table import places_of

# Words of a record and implicit fields together that older releases read, and letters of a name.
MOST_FIELDS, LETTERS = 64, 8
# Names of columns of results that eight letters would cut.
SHORT = {
    "revenue_factor": "RF",
    "process_revenue_factor": "PROC_RF",
    "free_revenue_factor": "FREE_RF",
    "free_process_revenue_factor": "FREEPRRF",
    "mining_cost": "MINECOST",
    "processing_cost": "PROCCOST",
    "haul_distance": "HAULDIST",
    "haulage_cost": "HAULCOST",
    "ore_haulage_cost": "OREHAUL",
}


@dataclass(frozen=True)
class DatamineField:
    """A field: its name, its words of a text (0: a number), and its values by record, or one for all."""

    name: str
    parts: int
    values: np.ndarray

    @property
    def is_implicit(self) -> bool:
        """Whether every record has the same value, which the definition holds."""
        return self.values.ndim == 0

    @property
    def count(self) -> int:
        return max(self.parts, 1)

    def words(self) -> np.ndarray:
        """Returns the words of all records as integers of eight bytes, shape (records, words)."""
        if not self.parts:
            return self.values.astype("<f8").view("<u8")[:, None]
        return words_of(self.values.tolist(), self.parts)


def words_of(texts: Iterable[str], parts: int) -> np.ndarray:
    """Returns texts as words: four characters in the first half of each, blanks in the second; shape (texts, parts)."""
    padded = [text.encode(ENCODING, "replace")[: CHARACTERS * parts].ljust(CHARACTERS * parts) for text in texts]
    letters = np.frombuffer(b"".join(padded), dtype=np.uint8).reshape(-1, parts, CHARACTERS)
    blanks = np.full_like(letters, ord(" "))
    return np.ascontiguousarray(np.concatenate([letters, blanks], axis=2)).view("<u8")[..., 0]


def write_dm(path: Path, folder: Folder, shape: Shape) -> list[str]:
    """Writes the blocks of blocks.csv by IJK, with the prototype of the grid. `shape` is not used. Returns the names of columns that were shortened,
    and the columns that did not fit. Raises PlanError if the grid is rotated."""
    if folder.grid.azimuth:
        why = f"the grid north has azimuth {folder.grid.azimuth:.10g}, and rotated models are not written"
        raise PlanError(f"dm: {why}: export to omf or csv")
    blocks = folder.blocks
    fixed, numbers = prototype(folder)
    order = np.argsort(numbers[0].values, kind="stable")
    fields, notes = columns_of(blocks, {*(it.name for it in (*fixed, *numbers))}, places_of(folder))
    fields, left = fitting([*numbers, *fields], len(fixed))
    notes += [f"left out, since a model has at most {MOST_FIELDS} fields: {', '.join(left)}"] if left else []
    records = np.concatenate([field.words()[order] for field in fields], axis=1)
    with open(path, "wb") as file:
        file.write(definition([*fields, *fixed], len(records), records.shape[1]).tobytes())
        file.write(paged(records).tobytes())
    return notes


def prototype(folder: Folder) -> tuple[list[DatamineField], list[DatamineField]]:
    """Returns the implicit fields of the grid, and IJK and centroids of each block."""
    grid, ids = folder.grid, folder.blocks["id"].to_numpy()
    (levels, rows, columns), (west, _, south, _, floor, _) = grid.shape, grid.extent()
    column, row, level = grid.indices(ids)
    place = (column * rows + row) * levels + (levels - 1 - level)
    said = dict(zip(("XINC", "YINC", "ZINC"), grid.size)) | {"XMORIG": west, "YMORIG": south, "ZMORIG": floor}
    said |= {"NX": columns, "NY": rows, "NZ": levels}
    fixed = [DatamineField(name, 0, np.array(float(value))) for name, value in said.items()]
    centres = zip(("XC", "YC", "ZC"), grid.centres(ids))
    return fixed, [
        DatamineField("IJK", 0, place.astype(float)),
        *(DatamineField(name, 0, axis) for name, axis in centres),
    ]


def columns_of(blocks: pd.DataFrame, taken: set[str], left: set[str]) -> tuple[list[DatamineField], list[str]]:
    """Returns the columns as fields, and notes on names that were changed."""
    fields, renamed = [], []
    for name in blocks.columns:
        if name in left:
            continue
        short = free(SHORT.get(name, re.sub(r"\W", "_", name, flags=re.ASCII).upper())[:LETTERS], taken)
        taken.add(short)
        renamed += [f"{name} is {short}"] if short != name.upper() else []
        column = blocks[name]
        if pd.api.types.is_numeric_dtype(column):
            fields.append(DatamineField(short, 0, column.astype(float).fillna(-ABSENT).to_numpy()))
        else:
            texts = column.astype(str).to_numpy(dtype=object)
            parts = -(-max(map(len, texts)) // CHARACTERS) or 1
            fields.append(DatamineField(short, parts, texts))
    return fields, [f"names have at most {LETTERS} letters: {', '.join(renamed)}"] if renamed else []


def free(name: str, taken: set[str]) -> str:
    """Returns a name that is not taken: with a number in place of its last letters, if it is."""
    number, found = 2, name
    while found in taken:
        found = f"{name[: LETTERS - len(str(number))]}{number}"
        number += 1
    return found


def fitting(fields: list[DatamineField], fixed: int) -> tuple[list[DatamineField], list[str]]:
    """Returns the fields that one page can define next to a number of implicit ones, and the names of the others."""
    kept: list[DatamineField] = []
    left = []
    for field in fields:
        if fixed + sum(it.count for it in kept) + field.count <= MOST_FIELDS:
            kept.append(field)
        else:
            left.append(field.name)
    return kept, left


def definition(fields: list[DatamineField], records: int, length: int) -> np.ndarray:
    """Returns the first page, as words."""
    page, per_page = np.zeros(PAGE, dtype="<u8"), DATA // length
    pages = -(-records // per_page)

    def put(at: int, *values: float) -> None:
        page[at : at + len(values)] = np.array(values, dtype="<f8").view("<u8")

    def write(at: int, text: str, words: int) -> None:
        page[at : at + words] = words_of([text], words)[0]

    write(0, "BLOCKS", 2)
    write(2, "", 2)
    write(4, "blocks of pitplan", 16)
    put(20, 0.0, sum(field.count for field in fields), pages + 1, records - (pages - 1) * per_page)
    at, word = HEAD, 1
    for field in fields:
        for part in range(1, field.count + 1):
            write(at, field.name, 2)
            write(at + 2, "A" if field.parts else "N", 1)
            put(at + 3, 0.0 if field.is_implicit else word, part)
            write(at + 5, "", 1)
            if field.parts:
                write(at + 6, "", 1)
            else:
                put(at + 6, float(field.values) if field.is_implicit else -ABSENT)
            at, word = at + FIELD, word + (not field.is_implicit)
    return page


def paged(records: np.ndarray) -> np.ndarray:
    """Returns records on pages, as words, shape (pages, 512)."""
    count, length = records.shape
    per_page = DATA // length
    pages = np.zeros((-(-count // per_page), PAGE), dtype="<u8")
    whole = count // per_page
    pages[:whole, : per_page * length] = records[: whole * per_page].reshape(whole, per_page * length)
    rest = records[whole * per_page :].ravel()
    if len(rest):
        pages[whole, : len(rest)] = rest
    return pages

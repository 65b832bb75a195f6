"""Reads block models of OMF 1 and Datamine files as a table: centroids and sizes in metres as x, y, z, xinc, yinc and zinc, and the attributes."""

from __future__ import annotations

import json
import struct
import uuid
import zlib
from collections.abc import Callable, Iterator, Sequence
from contextlib import contextmanager
from pathlib import Path
from typing import Any

import numpy as np
import pandas as pd

from planaudit.errors import AuditError

OMF = b"\x84\x83\x82\x81"
# The columns that a grid gives; an attribute of an OMF file with such a name is NAME_attribute.
PLACES, SIDES = ("x", "y", "z"), ("xinc", "yinc", "zinc")
# Words of a page of a Datamine file, and of these of its data; where its fields begin, and words of each.
PAGE, DATA, FIRST, EACH = 512, 508, 24, 7
# Numbers from here on are absent. Single precision does not hold the limit exactly.
ABSENT = 0.999999e30


def is_model(file: Path) -> bool:
    """Returns whether a file is one of these, by its first page."""
    with open(file, "rb") as data:
        head = data.read(8 * PAGE)
    return head[:4] == OMF or any(is_definition(head, np.dtype(kind)) for kind in ("<f4", "<f8", ">f4", ">f8"))


def read(file: Path, codes: Sequence[str]) -> pd.DataFrame:
    """Returns all columns of a model, `codes` as texts. Raises AuditError if the file is damaged."""
    data = file.read_bytes()
    with damaged(file):
        frame = pd.DataFrame(dict(omf(data) if data[:4] == OMF else datamine(data)))
    for name in frame.columns.intersection(list(codes)):
        if frame[name].dtype != object:
            frame[name] = [text_of(value) for value in frame[name].tolist()]
    return frame


@contextmanager
def damaged(file: Path) -> Iterator[None]:
    """Raises AuditError in place of the errors of a part that is missing or of another kind."""
    try:
        yield
    except (LookupError, TypeError, ValueError, AttributeError, struct.error, zlib.error) as error:
        why = f"{type(error).__name__} {error}"
        raise AuditError(f"{file}: cannot be read as a block model ({why}): export it again") from error


def text_of(value: float) -> str:
    """Returns a number as a code: 3 for 3.0, and nothing if it is absent."""
    if value != value:
        return ""
    return str(int(value)) if value == int(value) else repr(value)


def omf(data: bytes) -> Iterator[tuple[str, Any]]:
    """Yields the columns of the only volume of a file, cell by cell; the third axis runs fastest."""
    project, start = struct.unpack_from("<16sQ", data, 36)
    objects = json.loads(data[start:])
    (volume,) = (it for it in objects.values() if it["__class__"] == "VolumeElement")
    grid = objects[volume["geometry"]]

    def numbers(place: Any) -> np.ndarray:
        if isinstance(place, list):
            return np.array(place, dtype=float)
        packed = data[place["start"] : place["start"] + place["length"]]
        return np.frombuffer(zlib.decompress(packed), dtype=place["dtype"]).astype(float)

    sides = [numbers(grid[f"tensor_{axis}"]) for axis in "uvw"]
    cells = [place.ravel() for place in np.indices([len(side) for side in sides])]
    axes = [unit(grid.get(f"axis_{axis}", name)) for axis, name in zip("uvw", "XYZ")]
    corners = [it.get("origin", [0, 0, 0]) for it in (objects[str(uuid.UUID(bytes=project))], grid)]
    halves = [(np.concatenate([[0], np.cumsum(side)[:-1]]) + side / 2)[cell] for side, cell in zip(sides, cells)]
    for k, name in enumerate(PLACES):
        along = sum(axis[k] * half for axis, half in zip(axes, halves))
        yield name, (along + corners[0][k] + corners[1][k]).round(6) + 0.0
    # The horizontal axis with the greater part to the east has the sizes east.
    flat = sorted((k for k in range(3) if abs(axes[k][2]) < 0.5), key=lambda k: -abs(axes[k][0]))
    for name, k in zip(SIDES, (*flat, *({0, 1, 2} - set(flat)))):
        yield name, sides[k][cells[k]]
    for value in volume["data"]:
        found = attribute(objects[value], objects, numbers)
        if found is not None and objects[value]["location"] == "cells":
            name = objects[value]["name"]
            yield f"{name}_attribute" if name in (*PLACES, *SIDES) else name, found


def unit(axis: Any) -> np.ndarray:
    """Returns the unit vector of three numbers, or of the letter of a coordinate axis."""
    found = np.eye(3)["XYZ".index(axis)] if isinstance(axis, str) else np.array(axis, dtype=float)
    return found / np.sqrt((found**2).sum())


def attribute(entry: Any, objects: Any, numbers: Callable[[Any], np.ndarray]) -> Any:
    """Returns the numbers or texts of an attribute; None for colours and vectors."""
    kind = entry["__class__"]
    if kind in ("StringData", "DateTimeData"):
        return np.array(["" if it is None else str(it) for it in objects[entry["array"]]["array"]], dtype=object)
    if kind not in ("ScalarData", "MappedData"):
        return None
    values = numbers(objects[entry["array"]]["array"])
    if kind == "ScalarData":
        return values
    for legend in entry.get("legends", ()):
        names = objects[objects[legend]["values"]]
        if names["__class__"] == "StringArray":
            return np.array([names["array"][int(it)] if it >= 0 else "" for it in values], dtype=object)
    return np.where(values < 0, np.nan, values)


def is_definition(head: bytes, dtype: np.dtype) -> bool:
    """Returns whether the first page of a file counts whole fields and pages in words of a type, and has a first field."""
    if len(head) < PAGE * dtype.itemsize:
        return False
    fields, pages, rows = np.frombuffer(head, dtype, 3, 21 * dtype.itemsize)
    kind = head[(FIRST + 2) * dtype.itemsize :][:4].strip()
    is_count = [1 <= fields <= PAGE, 1 <= pages < 2**31, 0 <= rows <= DATA]
    return all(is_count) and all(it == int(it) for it in (fields, pages, rows)) and kind in (b"A", b"N")


def datamine(data: bytes) -> Iterator[tuple[str, Any]]:
    """Yields the fields of a file in either precision and byte order, record by record."""
    dtype = next(it for it in map(np.dtype, ("<f4", "<f8", ">f4", ">f8")) if is_definition(data, it))
    size = dtype.itemsize
    words = np.frombuffer(data, dtype, len(data) // size)
    fields, pages, on_last = (int(it) for it in words[21:24])

    def letters(word: int, count: int = 1) -> str:
        parts = [data[size * at : size * at + 4] for at in range(word, word + count)]
        return b"".join(parts).decode("cp1252", "replace").rstrip(" \0")

    said = [FIRST + EACH * number for number in range(fields)]
    length = max(int(words[at + 3]) for at in said)
    rows = np.arange((pages - 2) * (DATA // length) + on_last)
    first = PAGE * (1 + rows // (DATA // length)) + length * (rows % (DATA // length))
    parts: dict[str, dict[int, list[str]]] = {}
    for at in said:
        name, kind, place, part = letters(at, 2), letters(at + 2), int(words[at + 3]), int(words[at + 4])
        if kind == "A":
            texts = [data[size * it : size * it + 4].decode("cp1252", "replace") for it in (first + place - 1).tolist()]
            parts.setdefault(name, {})[part] = texts if place else [letters(at + 6).ljust(4)] * len(rows)
            continue
        found = words[first + place - 1] if place else np.full(len(rows), words[at + 6])
        yield column_of(name), without_absent(found)
    for name, pieces in parts.items():
        whole = zip(*(pieces[part] for part in sorted(pieces)))
        yield column_of(name), np.array(["".join(row).strip(" \0") for row in whole], dtype=object)


def column_of(name: str) -> str:
    known = {"XC": "x", "YC": "y", "ZC": "z", "XINC": "xinc", "YINC": "yinc", "ZINC": "zinc"}
    return known.get(name.upper(), name)


def without_absent(values: np.ndarray) -> np.ndarray:
    """Returns floats, nan if absent; of single ones the shortest decimals that round to them."""
    if values.dtype.itemsize == 4:
        each, place = np.unique(values.astype("f4"), return_inverse=True)
        values = np.array([float(str(it)) for it in each])[place]
    return np.where(np.abs(values) > ABSENT, np.nan, values.astype(float))

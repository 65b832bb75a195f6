"""Large tables as pandas writes them, in a fraction of its time: each number of a column is put into words once, since places, prices and
grades recur."""

from __future__ import annotations

import re
import shutil
from functools import partial
from pathlib import Path
from typing import Optional, TextIO

import numpy as np
import pandas as pd

from .processes import cores, run_all

# Rows that are in memory as texts at once.
ROWS = 100_000
# A second process writes tables of this many rows or more; each further multiple adds a process.
APART = 200_000
# Whole numbers, such as ids, are taken not to recur if most of this many differ.
SAMPLE = 1_000
QUOTED = re.compile('[,"\r\n]')


def write(path: Path, table: pd.DataFrame) -> None:
    """Writes the bytes of `table.to_csv(path, index=False)`, those of a large table by several processes."""
    shares = min(cores(), 1 + len(table) // APART)
    bounds = np.linspace(0, len(table), shares + 1).astype(int).tolist()
    parts = [path, *(path.with_name(f"{path.name}.{number}") for number in range(1, shares))]
    try:
        run_all([partial(write_part, part, table, rows) for part, rows in zip(parts, map(range, bounds, bounds[1:]))])
        with open(path, "ab") as file:
            for part in parts[1:]:
                with open(part, "rb") as more:
                    shutil.copyfileobj(more, file, 1 << 20)
    finally:
        for part in parts[1:]:
            part.unlink(missing_ok=True)


def write_part(path: Path, table: pd.DataFrame, rows: range) -> None:
    """Writes some rows, the first ones below the heading."""
    with open(path, "w", encoding="utf-8", newline="") as file:
        if rows.start == 0:
            table.iloc[:0].to_csv(file, index=False)
        for start in range(rows.start, rows.stop, ROWS):
            write_rows(file, table.iloc[start : min(start + ROWS, rows.stop)])


def write_rows(file: TextIO, rows: pd.DataFrame) -> None:
    """Rows, by pandas where a text is to be quoted or a column holds anything but texts and numbers."""
    columns = [texts_of(rows.iloc[:, number].to_numpy()) for number in range(rows.shape[1])]
    plain = [column for column in columns if column is not None]
    # A row of one empty text is quoted too.
    if len(plain) < max(2, len(columns)):
        rows.to_csv(file, index=False, header=False)
    else:
        file.write("\n".join(map(",".join, zip(*plain))) + "\n")


def texts_of(values: np.ndarray) -> Optional[list[str]]:
    """A column in words; None where that takes pandas."""
    if values.dtype == object:
        is_plain = pd.api.types.infer_dtype(values, skipna=False) == "string" and not QUOTED.search("".join(values))
        return values.tolist() if is_plain else None
    if values.dtype not in (np.float64, np.int64, np.int32, np.int16):
        return None
    if values.dtype != np.float64 and 2 * len(np.unique(values[:SAMPLE])) > SAMPLE:
        return [*map(repr, values.tolist())]
    # By the bits of floats, which differ for 0 and -0.
    place, distinct = pd.factorize(values.view(np.int64) if values.dtype == np.float64 else values)
    words = [("" if it != it else repr(it)) for it in distinct.view(values.dtype).tolist()]
    return np.array(words, dtype=object)[place].tolist()

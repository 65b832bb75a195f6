"""Reads the arrays of a case or a scenario from its file (.npz)."""

from __future__ import annotations

import zipfile
from pathlib import Path

import numpy as np


def read_arrays(path: Path, key: str) -> dict[str, np.ndarray]:
    """Returns the arrays of a file by name.

    Raises
    ------
    ValueError
        If the file is damaged, or has the result of another key.
    OSError
        If it cannot be opened.
    """
    with open(path, "rb"):
        pass
    try:
        with zipfile.ZipFile(path) as packed:
            # Sums of all parts are checked first, since a wrong header could ask for any amount of memory.
            damaged = packed.testzip()
        if damaged is None:
            with np.load(path, allow_pickle=False) as file:
                arrays = {name: file[name] for name in file}
    except MemoryError:
        raise
    except Exception as error:
        raise ValueError(" ".join(f"{error or type(error).__name__}".split())) from error
    if damaged is not None:
        raise ValueError(f"{damaged} in it is damaged")
    if str(arrays.pop("key", "")) != key:
        raise ValueError("it is the result of another input: check whether a file was copied here")
    return arrays

"""Arrays of an answer that is kept in a file (.npz), with the key of what it answers, so that it cannot stand for another."""

from __future__ import annotations

import hashlib
import struct
import zipfile
import zlib
from pathlib import Path
from typing import Any

import numpy as np
from numpy.typing import NDArray


def hash_of_all(text: str, arrays: list[NDArray[Any]]) -> str:
    """Returns a hash of a text and of arrays, with their types and shapes."""
    digest = hashlib.sha256(text.encode())
    for array in arrays:
        digest.update(f"{array.dtype} {array.shape};".encode())
        digest.update(np.ascontiguousarray(array).data)
    return digest.hexdigest()


KEY = "key"
# What Python and numpy raise of a file that is cut short or bent.
BENT = (
    OSError,
    EOFError,
    ValueError,
    LookupError,
    TypeError,
    ArithmeticError,
    RuntimeError,
    SyntaxError,
    zipfile.BadZipFile,
    zlib.error,
    struct.error,
)


class NoAnswer(ValueError):
    """A file is not the answer that is expected there; why, in a few words."""


def write(path: Path, key: str, **arrays: Any) -> None:
    with open(path, "wb") as file:
        np.savez_compressed(file, **{KEY: key}, **arrays)


def read(path: Path, key: str) -> dict[str, np.ndarray]:
    """Returns all arrays. Raises NoAnswer if the file is cut short, damaged or the answer to something else, and OSError if it cannot be opened."""
    try:
        with zipfile.ZipFile(path) as packed:
            # Before numpy takes memory for as much as a bent head says.
            wrong = packed.testzip()
        if wrong is not None:
            raise NoAnswer(f"{wrong} in it is damaged")
        with np.load(path, allow_pickle=False) as kept:
            arrays = {name: kept[name] for name in kept.files}
    except NoAnswer:
        raise
    except BENT as error:
        if isinstance(error, OSError) and error.filename:
            raise
        raise NoAnswer(" ".join(f"{error or type(error).__name__}".split())) from error
    if str(arrays.pop(KEY, "")) != key:
        raise NoAnswer("it is the result of another input: check whether a file was copied here")
    return arrays

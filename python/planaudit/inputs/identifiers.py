"""The ids of blocks as a column of bytes: a million texts of Python take a tenth of a second and 60 MB, and only those of differences are read."""

from __future__ import annotations

from collections.abc import Iterable
from typing import Any, Optional

import numpy as np
import pandas as pd
from pandas.api.extensions import ExtensionArray, ExtensionDtype
from pandas.api.indexers import check_array_indexer


class IdentifierType(ExtensionDtype):  # type: ignore[misc]
    """The type of a column of ids."""

    name, type, kind = "identifier", str, "O"

    @classmethod
    def construct_array_type(cls) -> Any:
        return Identifiers


class Identifiers(ExtensionArray):  # type: ignore[misc]
    """Ids of ASCII characters other than zeros, as an array of bytes of equal length with zeros after each id; none is missing."""

    dtype = IdentifierType()

    def __init__(self, fields: np.ndarray) -> None:
        self.fields = fields

    @classmethod
    def _from_sequence(cls, scalars: Iterable[Any], *, dtype: Any = None, copy: bool = False) -> Identifiers:
        return cls(np.array([str(it).encode("ascii") for it in scalars], dtype=bytes))

    @classmethod
    def _concat_same_type(cls, to_concat: Iterable[Identifiers]) -> Identifiers:
        return cls(np.concatenate([it.fields for it in to_concat]))

    def __len__(self) -> int:
        return len(self.fields)

    def __getitem__(self, item: Any) -> Any:
        found = self.fields[check_array_indexer(self, item)]
        return found.decode("ascii") if isinstance(found, bytes) else Identifiers(found)

    def __eq__(self, other: Any) -> Any:
        return np.asarray(self) == np.asarray(other)

    def __array__(self, dtype: Any = None) -> np.ndarray:
        """Returns the ids as texts."""
        found: np.ndarray = self.fields.astype(str).astype(object if dtype is None else dtype)
        return found

    @property
    def nbytes(self) -> int:
        return self.fields.nbytes

    def isna(self) -> np.ndarray:
        return np.zeros(len(self), dtype=bool)

    def take(self, indices: Any, *, allow_fill: bool = False, fill_value: Any = None) -> Identifiers:
        if allow_fill and (np.asarray(indices) < 0).any():
            raise ValueError("a column of ids has no id for a missing row")
        return Identifiers(self.fields.take(indices))

    def copy(self) -> Identifiers:
        return Identifiers(self.fields.copy())


def fields_of(column: pd.Series) -> Optional[np.ndarray]:
    """Returns the bytes of a column of ids; None if it has texts."""
    return column.array.fields if isinstance(column.array, Identifiers) else None


def comparable(one: pd.Series, other: pd.Series) -> tuple[np.ndarray, np.ndarray]:
    """Returns two columns as arrays: both as bytes if they are ids, otherwise both as their values."""
    first, second = fields_of(one), fields_of(other)
    return (one.to_numpy(), other.to_numpy()) if first is None or second is None else (first, second)

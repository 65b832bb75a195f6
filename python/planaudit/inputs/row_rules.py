"""Applies null codes, mapped codes, calculated columns, the filter and the box of `[table]` to the rows of the file."""

from __future__ import annotations

from collections.abc import Iterable, Mapping
from dataclasses import dataclass, field
from decimal import Decimal
from typing import Any, Optional

import numpy as np
import pandas as pd

from planaudit.errors import AuditError
from planaudit.inputs.formulas import TOKENS, value_of

# Percent of a whole block.
WHOLE = {"percent": 100, "fraction": 1}
WORDS = ("and", "or", "not", "in")


@dataclass(frozen=True)
class RowRules:
    """The keys of `[table]` for fields and rows.

    Attributes
    ----------
    null_values : tuple of str
    nulls : dict of str to (tuple of str, str or None)
        For each column its other null codes, and what a null means.
    mapped, calculated : dict
    filter : str, optional
    clip : dict of str to (float, float)
        By "x", "y" and "z".
    cell_size : tuple of str, optional
    rock_percent, ore_percent : (str, int), optional
        The column, and the value of a whole block.
    """

    null_values: tuple[str, ...] = ()
    nulls: Mapping[str, tuple[tuple[str, ...], Optional[str]]] = field(default_factory=dict)
    mapped: Mapping[str, Mapping[str, str]] = field(default_factory=dict)
    calculated: Mapping[str, str] = field(default_factory=dict)
    filter: Optional[str] = None
    clip: Mapping[str, tuple[float, float]] = field(default_factory=dict)
    cell_size: Optional[tuple[str, str, str]] = None
    rock_percent: Optional[tuple[str, int]] = None
    ore_percent: Optional[tuple[str, int]] = None

    @property
    def leaves_out(self) -> bool:
        """Whether rows of the file may be no blocks."""
        return bool(self.filter or self.clip) or "missing" in [meaning for _, meaning in self.nulls.values()]

    @property
    def numbers(self) -> list[str]:
        """The columns of numbers that only these rules name."""
        return [*(self.cell_size or ()), *(share[0] for share in (self.rock_percent, self.ore_percent) if share)]

    def needed(self, columns: list[str]) -> list[str]:
        """Returns the columns of the file from which these columns follow."""
        found = [name for name in [*columns, *self.numbers] if name not in self.calculated]
        known: list[str] = []
        for name, text in self.calculated.items():
            found += [it for it in columns_in(text) if it not in known]
            known.append(name)
        return list(dict.fromkeys([*found, *(it for it in columns_in(self.filter or "") if it not in known)]))

    def codes_of(self, column: str) -> list[str]:
        """Returns the null codes of a column."""
        return [*self.null_values, *self.nulls.get(column, ((), None))[0]]

    def meaning(self, column: str, otherwise: str) -> str:
        return self.nulls.get(column, ((), None))[1] or otherwise


def row_rules_of(data: Mapping[str, Any]) -> RowRules:
    """Returns the rules of the section `[table]`."""
    return RowRules(
        null_values=codes(data.get("null_values", [])),
        nulls={
            name: (codes(rule.get("values", [])), rule.get("as")) if isinstance(rule, dict) else ((), rule)
            for name, rule in data.get("nulls", {}).items()
        },
        mapped={name: {str(k): str(v).strip() for k, v in it.items()} for name, it in data.get("map", {}).items()},
        calculated=dict(data.get("calculate", {})),
        filter=data.get("filter"),
        clip={axis: (float(ends[0]), float(ends[1])) for axis, ends in data.get("clip", {}).items()},
        cell_size=sizes_of(data["cell_size"]) if "cell_size" in data else None,
        rock_percent=share_of(data.get("rock_percent")),
        ore_percent=share_of(data.get("ore_percent")),
    )


def codes(value: Any) -> tuple[str, ...]:
    return tuple(str(it).strip() for it in (value if isinstance(value, list) else [value]))


def sizes_of(value: Any) -> tuple[str, str, str]:
    east, north, up = value
    return east, north, up


def share_of(value: Any) -> Optional[tuple[str, int]]:
    if value is None:
        return None
    return (value, 100) if isinstance(value, str) else (value["column"], WHOLE[value.get("unit", "percent")])


def columns_in(text: str) -> list[str]:
    """Returns the columns that an expression names."""
    found, left = [], text.strip()
    while left and (match := TOKENS.match(left)):
        left = left[match.end() :].strip()
        if match["quoted"] or (match["word"] and match["word"] not in WORDS and not left.startswith("(")):
            found.append(match["quoted"] or match["word"])
    return found


def as_number(text: Any) -> Optional[float]:
    try:
        return float(text)
    except ValueError:
        return None


def is_null(fields: pd.Series, null_codes: Iterable[str]) -> np.ndarray:
    """Returns which fields are a null code, by text or by number."""
    listed = list(null_codes)
    values = {number for code in listed if (number := as_number(code)) is not None}
    if not listed:
        return np.zeros(len(fields), dtype=bool)
    if fields.dtype.kind in "if":
        return np.asarray(fields.isin(values))
    known = {text: text in listed or as_number(text) in values for text in fields.unique()}
    return np.asarray(fields.map(known), dtype=bool)


def mapped(fields: pd.Series, names: Mapping[str, str], source: str) -> pd.Series:
    """Returns the names of codes. Raises AuditError for a code without a name."""
    numbers = {as_number(code): name for code, name in names.items() if as_number(code) is not None}
    found: dict[str, Optional[str]] = {}
    for code in fields.unique():
        name = names.get(code, numbers.get(as_number(code), names.get("*")))
        if code and name is None:
            raise AuditError(
                f'{source} column {fields.name}: "{code}" has no name in [table.map]: add it and run pitplan again'
            )
        found[code] = name if code else names.get("", "")
    return fields.map(found)


def as_code(values: np.ndarray) -> np.ndarray:
    """Returns calculated values as codes: whole numbers without decimals."""
    if values.dtype.kind != "f":
        return np.array([str(value).strip() for value in values], dtype=object)
    return np.array(
        ["" if value != value else format(Decimal(repr(float(value))).normalize(), "f") for value in values],
        dtype=object,
    )


def within(frame: pd.DataFrame, rules: RowRules, axes: Iterable[str]) -> np.ndarray:
    """Returns the rows that the filter and the box leave."""
    kept = np.ones(len(frame), dtype=bool)
    if rules.filter:
        kept &= value_of(rules.filter, frame).astype(bool)
    for axis, column in zip("xyz", axes):
        if axis in rules.clip:
            least, greatest = rules.clip[axis]
            kept &= ~((frame[column] < least) | (frame[column] > greatest)).to_numpy()
    return kept

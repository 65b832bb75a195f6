"""The codes of rock types, domains and classes: their numbers, the treatment of classes, and what a process, a stockpile or a dump accepts."""

from __future__ import annotations

from collections.abc import Callable, Mapping
from typing import Optional

import numpy as np
import pandas as pd

from planaudit.inputs.project import Project, Section

# By column the number of each row's code, and the codes.
Codes = Mapping[str, tuple[np.ndarray, list[str]]]


def numbered(codes: pd.Series) -> tuple[np.ndarray, list[str]]:
    """Returns the number of each row's code, and the codes as texts."""
    place, distinct = pd.factorize(codes.to_numpy())
    missing = place < 0
    if missing.any():
        return np.where(missing, len(distinct), place), [*map(str, distinct), str(np.nan)]
    return place, [*map(str, distinct)]


def valued(codes: tuple[np.ndarray, list[str]], value: Callable[[str], float]) -> np.ndarray:
    place, names = codes
    return np.array([value(name) for name in names], dtype=np.float64)[place]


# Without a rule these are waste, in capital or small letters, and so is a block without a class.
NOT_A_RESERVE = {"inferred", "inf", "unclassified", "unclass", "potential", "exploration", ""}


def treatment(code: str, project: Project) -> str:
    """Returns ore, waste or refuse."""
    if code in project.classes:
        return project.classes[code]
    return "waste" if code.casefold() in NOT_A_RESERVE else "ore"


def treated_as(word: str, rows: pd.DataFrame, project: Project) -> np.ndarray:
    """Returns whether each row is of a class with this treatment; of no row without classes."""
    column = project.table["class"]
    if column is None:
        return np.zeros(len(rows), dtype=bool)
    place, names = numbered(rows[column])
    return np.array([treatment(name, project) == word for name in names], dtype=bool)[place]


def refused(rows: pd.DataFrame, project: Project, rules: Optional[Section]) -> np.ndarray:
    """Returns whether rules do not accept each row; without rules all are accepted."""
    found = np.zeros(len(rows), dtype=bool)
    if rules is None:
        return found
    for key in ("rock_type", "domain", "class"):
        if rules[key]:
            place, names = numbered(rows[project.table[key]])
            found |= np.array([name not in rules[key] for name in names], dtype=bool)[place]
    for it in rules["grades"]:
        grade = rows[it["column"]].to_numpy(dtype=float)
        found |= grade < it["min"] if it["min"] is not None else False
        found |= grade > it["max"] if it["max"] is not None else False
    return found

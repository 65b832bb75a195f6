"""A results folder, read back with the hashes of its files."""

from __future__ import annotations

import json
import math
import re
from collections.abc import Callable
from dataclasses import dataclass
from pathlib import Path
from typing import Any

import numpy as np
import pandas as pd
from numpy.typing import NDArray

from pitplan.blockmodel.grid import Grid, grid_of
from pitplan.config.keys import FARTHEST, cut
from pitplan.core.atomic_files import hash_of
from pitplan.core.revenue_factors import is_factor, with_exact_factors
from pitplan.errors import PlanError

from .names import RECORD, TABLE

# Records (.json) as they are read back: each part is of the kind that its readers take for granted, or the
# record is refused.
#
# A kind is a `Expectation`; or a list of one kind, for a list of any length; or a tuple of kinds, for a list of that length;
# or a dictionary of kinds by key, for a table that has every key that is not `Lacking`. The key "*" means each key.

# Cells that a grid may have along an axis and in all.
MOST_ALONG, MOST_CELLS = 10**6, 64 * 10**6
HASH = re.compile("[0-9a-f]{64}")


@dataclass(frozen=True)
class Expectation:
    """What is expected of a value, in words, and whether it holds."""

    expected: str
    holds: Callable[[Any], bool]


@dataclass(frozen=True)
class Lacking:
    """A key that may be missing."""

    kind: Any


def is_number(value: Any) -> bool:
    return isinstance(value, (int, float)) and not isinstance(value, bool) and abs(value) <= FARTHEST


def whole(least: int, most: int) -> Expectation:
    return Expectation(
        f"a whole number from {least:,} to {most:,}", lambda value: type(value) is int and least <= value <= most
    )


def is_plain_path(value: Any) -> bool:
    return isinstance(value, str) and "\0" not in value and not {"", ".", ".."} & {*value.split("/")}


TEXT = Expectation("a text", lambda value: isinstance(value, str))
PATH = Expectation("the path of a file", lambda value: isinstance(value, str) and value != "" and "\0" not in value)
FILE = Expectation("the path of a file within the folder", is_plain_path)
NUMBER = Expectation("a number", lambda value: is_number(value) and math.isfinite(value))
LENGTH = Expectation("a length in metres above 0", lambda value: is_number(value) and value > 0)
TRUTH = Expectation("true or false", lambda value: isinstance(value, bool))
SHA256 = Expectation("a SHA-256", lambda value: isinstance(value, str) and HASH.fullmatch(value) is not None)
FACTOR = Expectation("a revenue factor from 0 to 100 with at most three decimals", is_factor)
ALONG = whole(1, MOST_ALONG)
RISING = Expectation(
    "revenue factors, each greater than the one before",
    lambda value: isinstance(value, list)
    and len(value) > 0
    and all(map(FACTOR.holds, value))
    and all(a < b for a, b in zip(value, value[1:])),
)
GRID = {
    "shape": (ALONG, ALONG, ALONG),
    "origin": (NUMBER, NUMBER, NUMBER),
    "size": (LENGTH, LENGTH, LENGTH),
    "azimuth": Lacking(NUMBER),
}
SOLVER = {
    "by": Expectation("library or program", lambda value: value in ("library", "program")),
    "version": TEXT,
    "sha256": SHA256,
    "proved": Lacking(TRUTH),
}
SHELLS = {"revenue_factors": RISING, "selected": FACTOR, "solver": SOLVER}
PLAN = {
    "title": TEXT,
    "grid": GRID,
    "slope_domains": [{"precedence_benches": Lacking(whole(1, 1000))}],
    "revenue_factors": RISING,
    "summary": [TEXT],
    "notes": [TEXT],
    "codes": [TEXT],
    "tonnes": TEXT,
    "metals": [{"name": TEXT, "column": TEXT, "sign": TEXT}],
    "project": Lacking(PATH),
    "verified": Lacking([TEXT]),
    "inputs": {"*": SHA256},
    "files": {"*": SHA256},
    "shells": Lacking(SHELLS),
    "pushbacks": Lacking(whole(1, 100_000)),
    "schedule": Lacking(TEXT),
    "by_block": Lacking(TRUTH),
    "figures": Lacking(TRUTH),
}


class Reader:
    """Checks a record part by part; `again` is the command that writes it."""

    def __init__(self, path: Path, again: str) -> None:
        self.path, self.again = path, again

    def read(self, kind: Any) -> dict[str, Any]:
        """Reads a record. Raises PlanError, with the part, if it is not of this kind, and OSError if it cannot be opened."""
        try:
            record = json.loads(self.path.read_text(encoding="utf-8"))
        except (ValueError, RecursionError) as error:
            raise self.wrong("", f"cannot be read as JSON ({' '.join(str(error).split())})") from error
        self.demand(record, kind, "")
        return dict(record)

    def wrong(self, where: str, why: str) -> PlanError:
        return PlanError(f"{self.path}: {f'{where}: ' if where else ''}{why}: run {self.again} again")

    def demand(self, value: Any, kind: Any, where: str) -> None:
        """Raises PlanError if a part is of another kind."""
        if isinstance(kind, Expectation):
            if not kind.holds(value):
                raise self.wrong(where, f"found {cut(json.dumps(value, ensure_ascii=False))}, expected {kind.expected}")
        elif isinstance(kind, dict):
            self.demand_table(value, kind, where)
        else:
            self.demand_list(value, kind, where)

    def demand_table(self, value: Any, kinds: dict[str, Any], where: str) -> None:
        if not isinstance(value, dict):
            raise self.wrong(where, f"found {cut(json.dumps(value))}, expected a table")
        for key, kind in kinds.items():
            inner = f"{where}.{key}" if where else key
            if key == "*":
                for name, item in value.items():
                    self.demand(item, kind, f"{where}.{name}")
            elif key in value:
                self.demand(value[key], kind.kind if isinstance(kind, Lacking) else kind, inner)
            elif not isinstance(kind, Lacking):
                raise self.wrong(inner, "is missing")

    def demand_list(self, value: Any, kinds: Any, where: str) -> None:
        count = len(kinds) if isinstance(kinds, tuple) else None
        if not isinstance(value, list) or (count is not None and len(value) != count):
            raise self.wrong(
                where, f"found {cut(json.dumps(value))}, expected a list{'' if count is None else f' of {count}'}"
            )
        for number, item in enumerate(value):
            self.demand(item, kinds[number] if count is not None else kinds[0], f"{where}[{number}]")


def demand_plan(reader: Reader, record: dict[str, Any]) -> None:
    """Raises PlanError if parts of the right kinds do not fit each other."""
    levels, rows, columns = record["grid"]["shape"]
    if levels * rows * columns > MOST_CELLS:
        raise reader.wrong("grid.shape", f"found {levels} x {rows} x {columns} cells, expected {MOST_CELLS:,} at most")
    shells = record.get("shells", {})
    if "selected" in shells and shells["selected"] not in shells["revenue_factors"]:
        raise reader.wrong("shells.selected", f"found {shells['selected']}, expected one of the revenue factors")
    for name in record["files"]:
        reader.demand(name, FILE, "files")
    for key in ("project", "verified") if "shells" in record else ():
        if key not in record:
            raise reader.wrong(key, "is missing")


def read_record(folder: Path) -> dict[str, Any]:
    """Reads plan.json. Raises PlanError if a part of it is missing or of another kind, and OSError if it cannot be opened."""
    reader = Reader(folder / RECORD, "pitplan shells")
    record = reader.read(PLAN)
    demand_plan(reader, record)
    return record


@dataclass(frozen=True)
class Folder:
    """The files of a plan, read back.

    blocks  one row a block of the planner's table, with `id` and the shell's `revenue_factor` (0: in none)
    record  what plan.json says
    """

    path: Path
    blocks: pd.DataFrame
    record: dict[str, Any]

    @property
    def grid(self) -> Grid:
        return grid_of(self.record["grid"], self.blocks["id"].to_numpy())

    @property
    def factors(self) -> list[float]:
        return list(self.record["shells"]["revenue_factors"])

    def mined(self, factor: float) -> NDArray[Any]:
        """Returns whether the pit of a factor mines rock of a cell; shape (levels from the top, rows, columns)."""
        first, grid = self.blocks["revenue_factor"], self.grid
        mined = (first > 0) & (first <= factor) & (self.blocks[self.record["tonnes"]] > 0)
        return grid.cube(grid.spread(mined.to_numpy(), fill=False))


def read_folder(path: Path) -> Folder:
    """Raises PlanError if `pitplan shells` has not written the folder, or a file has changed since."""
    try:
        record = read_record(path)
        for name, digest in record["files"].items():
            if hash_of(path / name) != digest:
                raise PlanError(f"{path / name}: has changed since {RECORD} was written: run pitplan shells again")
        if "shells" not in record:
            raise PlanError(f"{path}: has no shells yet: run pitplan shells first")
        codes = {name: str for name in record["codes"]}
        blocks = with_exact_factors(pd.read_csv(path / TABLE, dtype=codes, keep_default_na=False, na_values={}))
    except OSError as error:
        raise PlanError(f"{error.filename}: cannot be read: run pitplan shells first") from error
    except ValueError as error:
        raise PlanError(f"{path / TABLE}: is not a table of blocks: run pitplan shells again: {error}") from error
    demand_blocks(blocks, record, path)
    return Folder(path, blocks, record)


def demand_blocks(blocks: pd.DataFrame, record: dict[str, Any], path: Path) -> None:
    """Raises PlanError if blocks.csv and plan.json do not fit each other."""
    wrong = f"{path / RECORD}: does not fit {TABLE}"
    numbers = ["id", "revenue_factor", record["tonnes"], *(metal["column"] for metal in record["metals"])]
    for name in [*numbers, *record["codes"]]:
        if name not in blocks:
            raise PlanError(f"{wrong}, which has no column {name}: run pitplan shells again")
    for name in numbers:
        if not pd.api.types.is_numeric_dtype(blocks[name]):
            raise PlanError(f"{wrong}, whose column {name} has no numbers: run pitplan shells again")
    cells = int(np.prod(record["grid"]["shape"]))
    ids = blocks["id"]
    if not pd.api.types.is_integer_dtype(ids) or ids.duplicated().any() or not ids.between(0, cells - 1).all():
        raise PlanError(f"{wrong}, whose ids are none of {cells:,} cells, each once: run pitplan shells again")

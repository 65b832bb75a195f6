"""Reads the records of a folder (.json), and checks the parts that the audit uses."""

from __future__ import annotations

import hashlib
import json
import math
from pathlib import Path
from typing import Any

from planaudit.errors import AuditError

PLAN, AS_RUN = "plan.json", "project-as-run.toml"
MOST_CELLS = 64_000_000
MOST_SHOWN = 80


def read_json(path: Path, again: str) -> dict[str, Any]:
    """Returns a record. Raises AuditError if it is no table; `again` is the command that writes it. Raises OSError if it cannot be opened."""
    try:
        found = json.loads(path.read_text(encoding="utf-8"))
    except (ValueError, RecursionError) as error:
        why = " ".join(str(error).split())
        raise AuditError(f"{path}: cannot be read as JSON ({why}): run {again} again") from error
    if not isinstance(found, dict):
        raise AuditError(f"{path}: found {shown(found)}, expected a table: run {again} again")
    return found


def shown(value: Any) -> str:
    text = json.dumps(value)
    return text if len(text) <= MOST_SHOWN else f"{text[:MOST_SHOWN]}.."


def read_plan(folder: Path) -> dict[str, Any]:
    """Returns the record of a plan. Raises AuditError, with the part, if one that the audit uses is missing or of another type."""
    record = read_json(folder / PLAN, "pitplan shells")
    for part, expected, holds in parts_of(record):
        if not holds:
            raise AuditError(f"{folder / PLAN}: {part}: expected {expected}: run pitplan shells again")
    return record


def parts_of(record: dict[str, Any]) -> list[tuple[str, str, bool]]:
    """Returns for each part what is expected there, and whether it is."""
    grid, shells = record.get("grid"), record.get("shells", {})
    if not isinstance(grid, dict) or not isinstance(shells, dict):
        return [("grid", "a table", isinstance(grid, dict)), ("shells", "a table", isinstance(shells, dict))]
    shape = grid.get("shape")
    factors = shells.get("revenue_factors") if "shells" in record else record.get("revenue_factors")
    domains, project = record.get("slope_domains", []), record.get("project", "")
    inputs = record.get("inputs", {})
    return [
        ("grid.shape", f"3 whole numbers above 0 of {MOST_CELLS:,} cells at most", is_shape(shape)),
        ("grid.origin", "3 numbers", is_numbers(grid.get("origin"), 3)),
        ("grid.size", "3 lengths above 0", is_numbers(grid.get("size"), 3) and min(grid["size"]) > 0),
        ("grid.azimuth", "a number", is_numbers([grid.get("azimuth", 0)], 1)),
        ("revenue_factors", "a list of numbers", is_list(factors) and bool(factors) and is_numbers(factors)),
        ("slope_domains", "a list of tables", is_list(domains) and all(isinstance(it, dict) for it in domains)),
        ("project", "the path of a file", isinstance(project, str) and "\0" not in project),
        ("inputs", "a table of hashes", isinstance(inputs, dict)),
    ]


def is_shape(value: Any) -> bool:
    is_three = isinstance(value, list) and len(value) == 3 and all(type(it) is int and it > 0 for it in value)
    return is_three and math.prod(value) <= MOST_CELLS


def is_list(value: Any, count: int | None = None) -> bool:
    return isinstance(value, list) and count in (None, len(value))


def is_numbers(value: Any, count: int | None = None) -> bool:
    is_one = (isinstance(it, (int, float)) and not isinstance(it, bool) and math.isfinite(it) for it in value or ())
    return is_list(value, count) and all(is_one)


def hash_of(path: Path) -> str:
    """Returns the SHA-256 of a file. Raises OSError."""
    digest = hashlib.sha256()
    with open(path, "rb") as file:
        while piece := file.read(1 << 20):
            digest.update(piece)
    return digest.hexdigest()

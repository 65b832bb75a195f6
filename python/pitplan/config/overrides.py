"""Keys of a project that are set, or scaled, in place of those of its file."""

from __future__ import annotations

from collections.abc import Iterable, Sequence
from copy import deepcopy
from decimal import Decimal
from typing import Any

from pitplan.errors import PlanError

from . import toml_text

# Sections that a project may have several times.
LISTS = ("metals", "processes", "periods", "dumps")
EXAMPLE = "such as economics.mining_cost=2.6 or metals.copper.price=9000"


def overridden(data: dict[str, Any], assignments: Iterable[str]) -> dict[str, Any]:
    """Returns the sections of a project, as TOML has them, with some keys set. Raises PlanError if an assignment has no `=`, or names an entry that
    is not there.

    Each assignment is `KEY=VALUE`. KEY names the section and the key, with points between: `economics.mining_cost`. An entry of a list of sections is
    named by its `name`, or by its number from 1: `metals.copper.price`, `slopes.domains.2.angle`. VALUE is TOML; another word, such as AUD, is a
    text.
    """
    found = deepcopy(data)
    for assignment in assignments:
        key, sign, text = assignment.partition("=")
        parts = [part.strip() for part in key.split(".")]
        if not sign or not all(parts):
            raise PlanError(f"--set {assignment}: expected KEY=VALUE, {EXAMPLE}")
        at(found, parts[:-1], f"--set {assignment}", is_made=True)[parts[-1]] = value_of(text)
    return found


def at(entry: Any, path: Sequence[str], where: str, is_made: bool = False) -> dict[str, Any]:
    """Returns the section at a path, which may be made if it is missing. Raises PlanError otherwise."""
    for part in path:
        if is_made and isinstance(entry, dict):
            entry.setdefault(part, {})
        entry = existing(entry, part, where)
        if not isinstance(entry, (dict, list)):
            raise PlanError(f"{where}: {part} is {entry!r}, and no section: expected KEY=VALUE, {EXAMPLE}")
    if isinstance(entry, list):
        raise PlanError(f"{where}: names an entry of a list, expected one of its keys")
    return entry  # type: ignore[no-any-return]


def existing(entry: Any, part: str, where: str) -> Any:
    """Returns a key of a section, or an entry of a list by its name or its number from 1. Raises PlanError if it is missing."""
    if isinstance(entry, dict):
        if part in entry:
            return entry[part]
        if "economics" in entry:
            # These are the sections themselves.
            raise PlanError(f"{where}: the project has no {f'[[{part}]]' if part in LISTS else f'[{part}]'}")
        names = [*entry]
    else:
        names = [str(it.get("name", number)) if isinstance(it, dict) else "" for number, it in enumerate(entry, 1)]
        if part in names:
            return entry[names.index(part)]
        if part.isdecimal() and 1 <= int(part) <= len(entry):
            return entry[int(part) - 1]
    raise PlanError(f"{where}: found {part}, expected one of {', '.join(names)}")


def scaled(data: dict[str, Any], path: str, by: Decimal, where: str) -> dict[str, Any]:
    """Returns the sections of a project, as TOML has them, with the numbers of a key times a factor: all numbers of a table by rock type or of a
    list, and the second ones of pairs. `path` has section and key with points between, as of `overridden`: `processes.mill.cost`. Errors begin with
    `where`. Raises PlanError if there is no such key, or it has no number."""
    found = deepcopy(data)
    *sections, key = path.split(".")
    entry = at(found, sections, f"{where} {path}")
    value = existing(entry, key, f"{where} {path}")
    if not has_numbers(value):
        raise PlanError(f"{where} {path}: found {value!r}, expected a number, or a table or list of numbers")
    entry[key] = times(value, by)
    return found


def assigned(data: dict[str, Any], path: str, value: Decimal, where: str) -> dict[str, Any]:
    """Returns the sections of a project with another number for a key that has one; in a list of one pair it is the second number.

    Raises PlanError if there is no such key, or it has not one number.
    """
    found = deepcopy(data)
    *sections, key = path.split(".")
    entry = at(found, sections, f"{where} {path}")
    before = existing(entry, key, f"{where} {path}")
    is_pair = isinstance(before, list) and len(before) == 1 and isinstance(before[0], list) and len(before[0]) == 2
    if not is_number(before) and not (is_pair and has_numbers(before)):
        raise PlanError(f"{where} {path}: found {before!r}, expected a key with one number")
    entry[key] = [[before[0][0], value]] if is_pair else value
    return found


def is_number(value: Any) -> bool:
    return isinstance(value, (int, Decimal)) and not isinstance(value, bool)


def has_numbers(value: Any) -> bool:
    """Returns whether a value is a number, or a table or list of nothing else."""
    inner = value.values() if isinstance(value, dict) else value if isinstance(value, list) else None
    return is_number(value) if inner is None else bool(inner) and all(map(has_numbers, inner))


def times(value: Any, by: Decimal) -> Any:
    """Returns a number times a factor, or a table or list with all numbers times it; of pairs only the second ones change."""
    if isinstance(value, dict):
        return {key: times(it, by) for key, it in value.items()}
    if isinstance(value, list):
        return [[it[0], times(it[1], by)] if isinstance(it, list) and len(it) == 2 else times(it, by) for it in value]
    return Decimal(value) * by if is_number(value) else value


def value_of(text: str) -> Any:
    """Returns a text as the value that TOML reads in it, otherwise the text itself."""
    try:
        return toml_text.parsed(f"value = {text}", "--set")["value"]
    except PlanError:
        return text.strip()

"""The cases of a hill of value, and the keys that they set in the text of a project."""

from __future__ import annotations

from itertools import product
from typing import Any

Data = dict[str, Any]
# A key by its path, or a parameter, with its value or change.
Pairs = list[tuple[str, Any]]
# What each row of hill_of_value.csv is of, with its changes and its settings.
Due = tuple[tuple[str, float, str, float], Pairs, Pairs]


def due_of(asked: Data) -> list[Due]:
    """Returns the cases that `[[sensitivity.hill]]` of a text sets, in order; none without it."""
    if "hill" not in asked:
        return []
    one, other = (points(axis) for axis in asked["hill"])
    names = [axis["parameter"] for axis in asked["hill"]]
    return [
        ((names[0], float(first), names[1], float(second)), [*changes, *more], [*settings, *others])
        for (first, changes, settings), (second, more, others) in product(one, other)
    ]


def points(axis: Data) -> list[tuple[Any, Pairs, Pairs]]:
    """Returns each value of an axis with the changes and settings that it means."""
    found, name = [], axis["parameter"]
    for number, value in enumerate(axis["changes"] if "changes" in axis else axis["values"]):
        along = [(key, values[number]) for key, values in axis.get("also", {}).items()]
        if "changes" in axis:
            found.append((value, [(name, value)] if value else [], along))
        else:
            found.append((value, [], [(name, value), *along]))
    return found


def set_key(data: Data, path: list[str], value: Any) -> None:
    """Sets a key by its path: entries of lists have a name, or a number from 1. Of a list with one pair the second number is set."""
    entry: Any = data
    for part in path[:-1]:
        by_name = {str(it["name"]): it for it in entry if isinstance(it, dict) and "name" in it}
        entry = entry[part] if isinstance(entry, dict) else by_name[part] if part in by_name else entry[int(part) - 1]
    before = entry[path[-1]]
    entry[path[-1]] = [[before[0][0], value]] if isinstance(before, list) else value

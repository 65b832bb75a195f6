"""A project as the text of a project.toml, which reads back as the same project."""

from __future__ import annotations

import json
from dataclasses import replace
from decimal import Decimal
from pathlib import Path
from typing import Any, Mapping

from pitplan.config.project import Project, load

from . import keys
from .keys import place

__all__ = ["AS_RUN", "as_run", "lines_of", "of_project", "place", "shown", "write"]

# A section: values by key. A key whose value is None is left out.
Values = Mapping[str, Any]

# The project of the run, which may be another than its file says.
AS_RUN = "project-as-run.toml"


def of_project(project: Project, folder: Path) -> str:
    """Returns the text of a project.toml in a folder, to which its paths are relative. It has no solver."""
    sections: dict[str, Any] = {}
    for name, value in keys.write(project, folder).items():
        sections[name] = without_processes(name, value) if project.processes else value
        if name == "shells":
            sections["periods"] = [keys.write(period, folder) for period in project.shells.calendar.periods]
    lines = [f"title = {shown(sections.pop('title'))}"]
    for name, values in sections.items():
        for one in values if isinstance(values, list) else [values]:
            lines += ["", f"[[{name}]]" if isinstance(values, list) else f"[{name}]", *lines_of(one, name)]
    return "\n".join(lines) + "\n"


def without_processes(name: str, value: Any) -> Any:
    """Returns a section without the keys that each process has in their place."""
    record = keys.keys_of(Project)[name].kind.record
    left = {key for key, it in keys.keys_of(record).items() if it.of_processes} if record else set()
    if isinstance(value, list):
        return [without_processes(name, it) for it in value]
    return {key: it for key, it in value.items() if key not in left} if isinstance(value, dict) else value


def write(project: Project, path: Path, folder: Path) -> None:
    path.write_text(of_project(project, folder), encoding="utf-8")


def as_run(folder: Path, place_of_first: str) -> Project:
    """Returns the project of a run into a folder. Its path is that of the file that it was read from, which the record gives relative to the folder.

    If the folder has no text, as those of earlier releases, the file itself is read. Raises PlanError.
    """
    first, text = folder / place_of_first, folder / AS_RUN
    return replace(load(text), path=first) if text.is_file() else load(first)


def lines_of(values: Values, name: str) -> list[str]:
    """Returns the keys of a section as lines, and behind them its own lists of sections."""
    given = {key: value for key, value in values.items() if value is not None}
    of_sections = {
        key: value for key, value in given.items() if isinstance(value, list) and value and isinstance(value[0], dict)
    }
    lines = [f"{key_of(key)} = {shown(value)}" for key, value in given.items() if key not in of_sections]
    for key, several in of_sections.items():
        for one in several:
            lines += ["", f"[[{name}.{key}]]", *lines_of(one, f"{name}.{key}")]
    return lines


def key_of(key: str) -> str:
    return key if key.isascii() and key.replace("_", "").isalnum() else shown(key)


def shown(value: Any) -> str:
    if isinstance(value, bool):
        return "true" if value else "false"
    if isinstance(value, str):
        # What JSON escapes TOML does too, and DEL besides.
        return json.dumps(value, ensure_ascii=False).replace("\x7f", "\\u007f")
    if isinstance(value, dict):
        inner = ", ".join(f"{key_of(key)} = {shown(item)}" for key, item in value.items() if item is not None)
        return f"{{ {inner} }}" if inner else "{}"
    if isinstance(value, (list, tuple)):
        return f"[{', '.join(map(shown, value))}]"
    if isinstance(value, float):
        return str(int(value)) if value.is_integer() and abs(value) < 10**15 else repr(float(value))
    return f"{value:f}" if isinstance(value, Decimal) else str(value)

"""Verifies that the record and the report name every input of a run by its SHA-256, and that inputs and tables are those of the run."""

from __future__ import annotations

import os
from collections.abc import Iterator
from pathlib import Path

from planaudit.inputs.answer import Answer
from planaudit.inputs.project import Project, Section
from planaudit.inputs.record import hash_of
from planaudit.rules import Rule, rule

REPORT = "report.html"
NAME = "inputs"
HOLDS = "plan.json and the report have the SHA-256 of every input, which is unchanged"


def verify(answer: Answer) -> Rule:
    """Verifies the hashes of a folder whose run has ended."""
    first = answer.folder / answer.record["project"]
    recorded, differences = answer.record["inputs"], []
    for path in inputs_of(answer.project, first):
        name = os.path.relpath(path, first.parent)
        if name not in recorded:
            differences.append(f"plan.json has no hash of {name}")
        elif recorded[name] != hash_of(path):
            differences.append(
                f"{plain(path)}: has changed since the run, and the folder is compared with it as it is now: run the command again"
            )
    return rule(NAME, HOLDS, [*differences, *unlike_report(answer)])


def plain(path: Path) -> Path:
    """Returns a path without the folders that it leaves again, unless a symbolic link makes that another file."""
    short = Path(os.path.normpath(path))
    return short if short.resolve() == path.resolve() else path


def unlike_report(answer: Answer) -> Iterator[str]:
    """Yields the inputs whose hash the report does not show."""
    page = answer.folder / REPORT
    if page.is_file():
        text = page.read_text(encoding="utf-8")
        yield from (f"{REPORT} has no hash of {name}" for name, it in answer.record["inputs"].items() if it not in text)


def inputs_of(project: Project, first: Path) -> list[Path]:
    """Returns the project's file, its table and its survey files."""
    rules = project.constraints
    surveys = [project.table["topography"], *((rules["topography"], rules["as_mined"]) if rules else ())]
    surveys += [area["polygon"] for area in rules["areas"]] if rules else []
    return [first, project.table["file"], *(path for survey in surveys if survey for path in parts_of(survey))]


def parts_of(survey: Section) -> list[Path]:
    """Returns the files of a survey: the heights of a shapefile's fields are in a file of their own."""
    fields = survey["file"].with_suffix(".dbf")
    return [survey["file"], fields] if survey["height"] is not None and fields.is_file() else [survey["file"]]

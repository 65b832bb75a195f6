"""The report: one HTML page with its figures in it, which can be mailed and prints on A4.

It is made from the files of a plan's folder, for decision makers: key results, confidence, figures, tables, inputs and hashes. Each number is a
cell of a written table, which its tooltip names by file, row and column. The header is row 1, as in spreadsheets.
"""

from __future__ import annotations

from dataclasses import dataclass, replace
from pathlib import Path
from typing import Any, Callable, Optional

import pandas as pd

from pitplan.config import project_writer
from pitplan.config.project import Project
from pitplan.config.shells import IN_WORDS
from pitplan.config.studies import SensitivityRules
from pitplan.core.atomic_files import hash_of, read_json
from pitplan.core.revenue_factors import BASE_PRICE
from pitplan.errors import PlanError
from pitplan.results import names
from pitplan.results.folder import read_record
from pitplan.results.names import SENSITIVITY, SENSITIVITY_RECORD
from pitplan.results.rounding import OF_SHELLS
from pitplan.scheduling import methods
from planaudit import NOT_VERIFIED

from . import columns as report, statements
from .assumptions import selected_shell, table_one, topics
from .columns import TEMPLATES, Columns
from .statements import BY_BLOCK, WrittenTable, of_hill, of_prices, physicals, picture, read_table, risks

# The methods of schedules of pushbacks in words.
METHODS = {name: methods.NAMES[name] for name in (methods.RULE, methods.LP, methods.MILP)}
# The most columns that are legible on A4. A wider table is divided.
MOST_COLUMNS = 13


@dataclass(frozen=True)
class SensitivityFolder:
    """The folder and record of a sensitivity of the same inputs."""

    folder: Path
    record: dict[str, Any]


def sensitivity_beside(
    project: Project, inputs: dict[str, str], folder: Optional[Path]
) -> tuple[Optional[SensitivityFolder], str]:
    """Returns the sensitivity to show, and if none exists the reason, or "" if none was run. `inputs` has the hashes of the inputs of the plan, by
    file; `folder` is that of the sensitivity, by default sensitivity in the project's output folder. Raises PlanError if `folder` is given and has no
    sensitivity, or one of other inputs."""
    place = project.folder / "sensitivity" if folder is None else folder
    for name in (SENSITIVITY_RECORD, SENSITIVITY):
        if not (place / name).is_file():
            if folder is not None:
                raise PlanError(f"{place}: has no {name}: run pitplan sensitivity first")
            return None, ""
    try:
        record = read_json(place / SENSITIVITY_RECORD)
        others = differing(record["inputs"], inputs) or differing_as_run(project, place, record)
    except (ValueError, LookupError, TypeError, AttributeError):
        others = [SENSITIVITY_RECORD]
    if others:
        why = f"{place}: is a sensitivity of other inputs ({', '.join(others)})"
        if folder is not None:
            raise PlanError(f"{why}: run pitplan sensitivity again")
        return None, f"{why}, and is left out here"
    return SensitivityFolder(place, record), ""


def differing(first: dict[str, str], second: dict[str, str]) -> list[str]:
    """Returns the names of files that only one of two has, or whose hashes differ."""
    return [name for name in sorted({*first, *second}) if first.get(name) != second.get(name)]


def differing_as_run(project: Project, folder: Path, record: dict[str, Any]) -> list[str]:
    """Returns the name of the project's file if the sensitivity in a folder, which may have been moved, is of another project."""
    both = (project, project_writer.as_run(folder, record["project"]))
    texts = {replace(it, folder=it.path.parent).to_toml() for it in both}
    return [project_writer.AS_RUN] if len(texts) > 1 else []


def write(path: Path, folder: Path, project: Project, sensitivity: Optional[Path] = None) -> None:
    """Writes the report of a folder, which has record, tables and figures of a plan, with the sensitivity of `sensitivity_beside`. Raises PlanError
    as that does."""
    record = read_record(folder)
    found, missing = sensitivity_beside(project, record["inputs"], sensitivity)
    warnings = [note for note in record["notes"] if note.startswith("WARNING")]
    # A folder of an earlier release has no text of the project that was run.
    text = folder / project_writer.AS_RUN if project_writer.AS_RUN in record["files"] else project.path
    page = TEMPLATES.get_template("report.html").render(
        **of_answer(folder, project, record),
        **in_words(folder, project, record, found),
        sensitivity=found and of_sensitivity(found, project),
        no_sensitivity=missing,
        prices=of_prices(folder, project, record),
        title=project.title,
        warnings=[note.removeprefix("WARNING: ") for note in warnings],
        proofs=[note[0].upper() + note[1:] for note in record["notes"] if note.startswith(methods.PROVED)],
        notes=[note for note in record["notes"] if note not in warnings and not note.startswith(methods.PROVED)],
        pictures={Path(name).stem: picture(folder / name) for name in record["files"] if name.endswith(".png")},
        rate=project.shells.discount_rate,
        discounting=IN_WORDS[project.shells.discounting],
        has_fixed=project.constraints is not None,
        project_file=text.name,
        project_text=without_comments(text.read_text(encoding="utf-8")),
        count=len(record["shells"]["revenue_factors"]),
        not_verified=NOT_VERIFIED,
        inputs=record["inputs"],
        outputs=record["files"],
        versions=", ".join(f"{name} {version}" for name, version in record["libraries"].items()),
        **{name: record["shells"][name] for name in ("selected", "solver")},
        **{name: record[name] for name in ("summary", "verified")},
    )
    path.write_text(page, encoding="utf-8")


def in_words(
    folder: Path, project: Project, record: dict[str, Any], found: Optional[SensitivityFolder]
) -> dict[str, Any]:
    """Returns the parts of the page that are text: assumptions, how the shell was selected, risks, and Table 1."""
    selected = record["shells"]["selected"]
    shells = read_table(folder, names.SHELLS).frame.set_index("revenue_factor")
    cases = None if found is None else read_table(found.folder, SENSITIVITY).frame
    return {
        "assumptions": topics(project, "by_block" in record),
        "selection": selected_shell(project, record),
        "risks": risks(project, record, shells.loc[selected], cases),
        "table_one": table_one(project, record),
    }


def without_comments(text: str) -> str:
    """Returns the lines of a project without comments and empty lines."""
    lines = []
    for line in text.splitlines():
        quoted = ""
        for at, letter in enumerate(line):
            if letter in "\"'" and quoted in ("", letter):
                quoted = "" if quoted else letter
            elif letter == "#" and not quoted:
                line = line[:at]
                break
        if line.strip():
            lines.append(line.rstrip())
    return "\n".join(lines)


def of_answer(folder: Path, project: Project, record: dict[str, Any]) -> dict[str, Any]:
    """Returns key results and tables of shells and, if there are any, of pushbacks and a schedule."""
    chosen = record["shells"]["selected"]
    shells, years = read_table(folder, names.SHELLS), read_table(folder, names.YEARS)
    marks = shells.frame["revenue_factor"].map(
        lambda factor: " ".join(["selected"] * (factor == chosen) + ["given"] * (factor == BASE_PRICE))
    )
    found: dict[str, Any] = {"shells": parts_of(shells, report.OF_SHELLS.of, project, marks)}
    cases, figures = [*OF_SHELLS], statements.of_shell(shells, chosen, project)
    if names.PUSHBACKS in record["files"]:
        found["pushbacks"] = parts_of(read_table(folder, names.PUSHBACKS), report.OF_PUSHBACKS.of, project)
    if names.METHODS in record["files"]:
        ways = read_table(folder, names.METHODS)
        shown = record.get("schedule", BY_BLOCK)
        of_ways = report.OF_BLOCKS.of if shown == BY_BLOCK else report.OF_METHODS.of
        found["methods"], found["shown"] = (
            parts_of(ways, of_ways, project, ways.frame["method"].map({shown: "selected"}).fillna("")),
            shown,
        )
        found["method"] = methods.NAMES.get(shown, shown)
        found["statements"] = statements.schedule_statements(folder, project, record, shown)
        found["physicals"] = physicals_of(folder, project, shown) if found["statements"] else []
        cases, figures = [shown], statements.schedule_results(folder, project, shown)
    mined = years.frame[
        years.frame["case"].isin(cases)
        & ((years.frame["revenue_factor"] == chosen) | (years.frame["case"] == BY_BLOCK))
    ]
    mined = mined.drop(columns="case") if mined["case"].nunique() == 1 else mined
    found["years"] = parts_of(WrittenTable(years.file, mined), report.OF_YEARS.of, project) if len(mined) else []
    return found | {"figures": figures}


def physicals_of(folder: Path, project: Project, shown: str) -> list[dict[str, Any]]:
    """Returns the tables of tonnes, grades and metal of a schedule by period."""
    years = read_table(folder, names.YEARS)
    mine = WrittenTable(years.file, years.frame[years.frame["case"] == shown])
    return list(physicals(statements.only(read_table(folder, names.CASH_FLOW), shown), mine, project))


def parts_of(
    table: WrittenTable,
    columns_of: Callable[[pd.DataFrame, Project], Columns],
    project: Project,
    marks: Optional[pd.Series] = None,
) -> list[dict[str, Any]]:
    """Returns a table of the page with file, headings and rows; if it is too wide several, each with the first column."""
    first, *others = columns_of(table.frame, project)
    count = -(-len(others) // (MOST_COLUMNS - 1))
    parts: list[dict[str, Any]] = []
    while others:
        many = -(-len(others) // (count - len(parts)))
        # Head grade and recovered metal stay next to each other.
        many -= (
            many < len(others)
            and others[many][0].startswith("recovered_")
            and others[many - 1][0].startswith("head_grade_")
        )
        parts.append(part_of(table, [first, *others[:many]], marks))
        others = others[many:]
    return parts


def part_of(table: WrittenTable, columns: Columns, marks: Optional[pd.Series]) -> dict[str, Any]:
    rows = []
    frame = table.frame
    spoken = {name: frame[name].replace(METHODS) for name in ("method", "case") if name in frame}
    for at, texts in zip(frame.index, report.cells_of(frame.assign(**spoken), columns)):
        cells = [{"text": text, "source": table.source(at, column.name)} for text, column in zip(texts, columns)]
        rows.append({"mark": "" if marks is None else marks[at], "cells": cells})
    return {"file": table.file, "headings": [heading for _, heading, _, _ in columns], "rows": rows}


# Of the shells of a sensitivity.
FINER = ", over finer shells than those of the pit-by-pit analysis"


def of_sensitivity(found: SensitivityFolder, project: Project) -> dict[str, Any]:
    """Returns table and tornado of a sensitivity: the base case, and the cases with one parameter changed."""
    table = read_table(found.folder, SENSITIVITY)
    alone = table.frame[table.frame["second_parameter"].isna()].fillna({"parameter": "", "second_parameter": ""})
    named = alone.assign(case=report.cases_in_words(alone))
    record = found.record
    return {
        "parts": parts_of(WrittenTable(table.file, named), report.OF_CASES.of, project),
        "tornado": picture(found.folder / names.TORNADO) if (found.folder / names.TORNADO).is_file() else "",
        "revenue_factor": record["revenue_factor"],
        "verified": record["verified"],
        "pairs": len(table.frame) > len(alone),
        "hill": of_hill(found.folder, project) if (found.folder / names.HILL).is_file() else None,
        "fine": FINER if (project.sensitivity or SensitivityRules()).largest_increment < 1 else "",
        "sha256": hash_of(found.folder / SENSITIVITY),
    }

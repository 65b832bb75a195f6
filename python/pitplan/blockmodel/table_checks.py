"""Checks of a table's fields: what no block may have is an error that names the row, the column and the remedy."""

from __future__ import annotations

from typing import Optional

import numpy as np
import pandas as pd

from pitplan.config.economics import GRADE_SIGNS, GRADE_UNITS, Metal
from pitplan.config.keys import FARTHEST
from pitplan.config.project import Project
from pitplan.core.numeric_fields import at_row, demand_none, row_of
from pitplan.errors import PlanError


def centroids(project: Project) -> tuple[str, str, str]:
    return project.table.x, project.table.y, project.table.z


def codes_of(project: Project) -> list[str]:
    """Returns the columns of texts: id, rock type, domain and resource class."""
    return [name for name in codes_by_key(project).values() if name]


def codes_by_key(project: Project) -> dict[str, str | None]:
    """Returns the columns of texts by their keys in [table]."""
    table = project.table
    return {"id": table.id, "rock_type": table.rock_type, "domain": table.domain, "class": table.resource_class}


def rock_of(project: Project) -> list[str]:
    """Returns the column of tonnes, or the columns from which tonnes follow."""
    table = project.table
    return [name for name in (table.density, table.volume) if name] if table.density else [table.tonnes]


def grades_of(project: Project) -> list[str]:
    return [metal.column for metal in project.metals]


def named(project: Project) -> list[str]:
    """Returns the columns of the blocks, as often as the project names them."""
    rules = project.constraints
    fixed = [rules.must_mine, rules.exclude] if rules else []
    sums = project.limited_columns
    table = project.table
    columns = [
        table.id,
        *centroids(project),
        *rock_of(project),
        table.rock_type,
        table.domain,
        table.resource_class,
        *grades_of(project),
        *project.economics.factor_columns,
        *fixed,
        *sums,
        *project.penalty_columns,
        *project.dump_columns,
    ]
    return [name for name in columns if name]


def names_of(project: Project) -> list[str]:
    """Returns the columns of the blocks, each once."""
    return list(dict.fromkeys(named(project)))


def file_columns(project: Project) -> list[str]:
    """Returns the columns that are read from the file: those of the blocks that are not calculated, and those that rules name."""
    rules = project.table.rules
    wanted = [name for name in names_of(project) if name not in rules.calculated]
    return list(dict.fromkeys([*wanted, *(it for it in rules.amounts if it not in rules.calculated), *rules.used]))


def text_columns(project: Project) -> list[str]:
    """Returns the columns of the file that are read as texts: codes, and columns whose codes are mapped."""
    return [name for name in file_columns(project) if name in codes_of(project) or name in project.table.rules.mapped]


def untyped_columns(project: Project) -> list[str]:
    """Returns the columns that expressions alone name: numbers if all of their fields are, otherwise texts."""
    known = {*names_of(project), *project.table.rules.amounts, *project.table.rules.mapped}
    return [name for name in project.table.rules.used if name not in known]


def demand_codes_apart(project: Project) -> None:
    """Raises PlanError for a column that is both a code and a number."""
    codes = codes_by_key(project)
    for key, name in codes.items():
        if name and named(project).count(name) > list(codes.values()).count(name):
            why = "is also read as numbers: codes require a column of their own"
            raise PlanError(f"{project.path}: [table] {key}: the column {name} {why}")


# Rows that an error lists.
MOST_ROWS = 3


def demand_no_nul(codes: np.ndarray, source: str, name: str) -> None:
    """Raises PlanError if a code contains a NUL byte, at which it would end when the results are read."""
    if "\0" in "".join(codes):
        row = next(row for row, code in enumerate(codes) if "\0" in code)
        raise at_row(source, row, name, "contains a NUL byte")


def demand_codes(frame: pd.DataFrame, project: Project, source: str) -> None:
    """Requires an id of its own for each block, and a rock type and domain for each block with tonnes, if the project names these columns."""
    columns = project.table
    demand_ids(frame, columns.id, source)
    for name in (columns.rock_type, columns.domain):
        if name:
            demand_none(((frame[name] == "") & (frame[columns.tonnes] > 0)).to_numpy(), source, name, "is empty")


def demand_near(frame: pd.DataFrame, project: Project, source: str) -> None:
    """Raises PlanError if a centroid lies farther away than any ground."""
    for name in centroids(project):
        values = frame[name].to_numpy()
        why = "is not a coordinate in metres: expected at most"
        demand_none(np.abs(values) > FARTHEST, source, name, lambda row: f"{values[row]:g} {why} {FARTHEST:,}")


def demand_amounts(frame: pd.DataFrame, project: Project, source: str) -> None:
    """Raises PlanError for amounts that no block has: below 0, or more metal than the block weighs."""
    demand_near(frame, project, source)
    sums = project.limited_columns
    for name in [*rock_of(project), *grades_of(project), *sums, *project.penalty_columns, *project.dump_columns]:
        demand_none_below_0(frame[name].to_numpy(), source, name)
    for metal in project.metals:
        demand_no_more_than_whole(frame[metal.column].to_numpy(), metal, source)


def demand_no_more_than_whole(grades: np.ndarray, metal: Metal, source: str) -> None:
    """Raises PlanError for a grade by which a block holds more metal than it weighs."""
    whole = {"gram_per_tonne": 1e6}.get(metal.unit, 1 / float(GRADE_UNITS[metal.unit]))
    demand_within(grades, grades > whole, source, metal.column, why=f"above {whole:,g} {GRADE_SIGNS[metal.unit]}")


def demand_none_below_0(numbers: np.ndarray, source: str, name: str) -> None:
    demand_within(numbers, numbers < 0, source, name, why="negative")


def demand_within(numbers: np.ndarray, wrong: np.ndarray, source: str, name: str, *, why: str) -> None:
    """Raises PlanError, with the rows and the probable null code, if numbers of a column are wrong."""
    if not wrong.any():
        return
    rows = np.flatnonzero(wrong)
    first = at_row(source, int(rows[0]), name, f"{numbers[rows[0]]:g} is {why}")
    raise first if len(rows) == 1 else PlanError(f"{first}{several(numbers, rows, source)}")


def several(numbers: np.ndarray, rows: np.ndarray, source: str) -> str:
    """Returns how many rows are wrong, the first of them, and the null code that most of them hold."""
    listed = ", ".join(str(row_of(source, int(row))) for row in rows[:MOST_ROWS])
    found = f" ({len(rows):,} rows, {listed}{', ..' if len(rows) > MOST_ROWS else ''})"
    values, counts = np.unique(numbers[rows], return_counts=True)
    most = int(counts.argmax())
    if counts[most] < 2:
        return found
    return f"{found}: {values[most]:g} occurs {counts[most]:,} times: if it is a null code, set [table] null_values = [{values[most]:g}]"


def have_distinct_hashes(texts: pd.Series) -> bool:
    """Returns whether the hashes of texts differ, and so the texts: in a fraction of the time that a table of texts takes."""
    hashes = np.fromiter(map(hash, texts.to_numpy()), dtype=np.int64, count=len(texts))
    return len(pd.unique(hashes)) == len(hashes)


def demand_ids(frame: pd.DataFrame, name: Optional[str], source: str) -> None:
    if name is None or have_distinct_hashes(frame[name]):
        return
    twice = frame[name].duplicated().to_numpy()
    if twice.any():
        code = frame[name].iloc[int(twice.argmax())]
        first = row_of(source, int((frame[name] == code).to_numpy().argmax()))
        demand_none(twice, source, name, f"{code} is the id of row {first} too: expected a different id in each row")

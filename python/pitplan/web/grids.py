"""Grids that set up a project: each shows a list of sections of its text as rows, and changes these in the text."""

from __future__ import annotations

import json
import re
from collections.abc import Iterator, Mapping, Sequence
from dataclasses import dataclass, replace
from typing import Any, Optional

from pitplan.config import toml_text
from pitplan.config.keys import Key, keys_of
from pitplan.config.material import TREATMENTS
from pitplan.config.project import Project, record_at
from pitplan.config.project_writer import shown as toml_of
from pitplan.config.table import CODES, ROCK_TYPE
from pitplan.config.toml_text import entries
from pitplan.errors import PlanError

from .draft import Draft, Path
from .run_form import WrongForm
from .values_form import NUMBER as A_NUMBER, at

# A number, a text, codes with commas between, one of some words, or anything that TOML has.
NUMBER, TEXT, LIST, CHOICE, VALUE = "number", "text", "codes", "choice", "value"
Entry = Mapping[str, Any]
# The section whose keys are the rows of a grid, not its entries.
CLASSES = "classes"
SIDES = ("min", "max")
# How the names of fields begin: of a row its place in the file or "new", of a cell the numbers of row and column.
ROW, CELL = "row:", "cell:"
MOST_ROWS, MOST_LETTERS = 1_000, 2_000
Pairs = Sequence[tuple[str, ...]]


@dataclass(frozen=True)
class GridColumn:
    """A column of a grid.

    Attributes
    ----------
    path : tuple of str
        The key, and those of the tables in which it lies.
    kind : str
        NUMBER, TEXT, LIST, CHOICE or VALUE.
    options : tuple of str
        The words to choose from.
    is_shown : bool
        Whether it is shown even if no entry has the key.
    """

    path: tuple[str, ...]
    label: str
    unit: str = ""
    kind: str = NUMBER
    options: tuple[str, ...] = ()
    is_shown: bool = True

    @property
    def name(self) -> str:
        """The key as tables of periods have it, such as capacity.mill."""
        return ".".join(self.path)


@dataclass(frozen=True)
class GridKind:
    """A list of sections that a grid shows.

    Attributes
    ----------
    name, header : str
        Its name in addresses, and its header in the text.
    title, word, does : str
        What the grid, one entry and its form are called.
    """

    name: str
    header: str
    title: str
    word: str
    does: str


KINDS = {
    it.name: it
    for it in (
        GridKind("metals", "metals", "Metals", "Metal", "Grade columns, prices, selling costs and recoveries"),
        GridKind("processes", "processes", "Processes", "Process", "Costs, recoveries, capacities and accepted ore"),
        GridKind("stockpiles", "schedule.stockpiles", "Stockpiles", "Stockpile", "Costs, capacities and accepted ore"),
        GridKind("dumps", "dumps", "Dumps", "Dump", "Costs, capacities and accepted waste"),
        GridKind(
            "periods", "periods", "Periods", "Period", "Capacities, prices, costs and minimums that differ by period"
        ),
        GridKind(
            CLASSES, CLASSES, "Resource classes", "Class", "Which classes may be ore; inferred is waste by default"
        ),
        GridKind("slopes", "slopes.domains", "Slopes", "Slope domain", "Slope angles by domain and azimuth"),
        GridKind("areas", "constraints.areas", "Areas", "Area", "Polygons in or outside which nothing is mined"),
    )
}


def columns_of(kind: str, project: Project, entries: Sequence[Entry]) -> list[GridColumn]:
    """Returns the columns of a grid: those that planners use, and those of all keys that its entries have."""
    columns = [column for it in declared(kind, project) for column in expanded(it, entries)]
    known = {it.path for it in columns}
    more = [path for entry in entries for path in leaves(entry) if path not in known]
    return [*columns, *(GridColumn(path, " ".join(path), "", VALUE) for path in dict.fromkeys(more))]


def expanded(column: GridColumn, entries: Sequence[Entry]) -> list[GridColumn]:
    """Returns a column, and one for each key of the tables that entries have in its place."""
    values = [at(entry, column.path) for entry in entries]
    keys = dict.fromkeys(key for value in values if isinstance(value, dict) for key in value)
    if not keys:
        return [column]
    is_used = any(value is not None and not isinstance(value, dict) for value in values)
    inner = [replace(column, path=(*column.path, key), label=f"{column.label}, {key}", is_shown=True) for key in keys]
    return [replace(column, is_shown=is_used), *(it for one in inner for it in expanded(one, entries))]


def leaves(entry: Entry, path: tuple[str, ...] = ()) -> list[tuple[str, ...]]:
    found = []
    for key, value in entry.items():
        found += leaves(value, (*path, key)) if isinstance(value, dict) and value else [(*path, key)]
    return found


def declared(kind: str, project: Project) -> Iterator[GridColumn]:
    """Yields the columns of all keys that an entry may have; of keys by name a column for each name that the project has."""
    if kind == CLASSES:
        column = project.table.resource_class or "the column [table] class"
        yield GridColumn(("class",), "Class", f"code in {column}", TEXT)
        yield GridColumn(("rule",), "Rule", "", CHOICE, TREATMENTS)
        return
    keys = keys_of(record_at(KINDS[kind].header))
    # The name is the first column of each grid.
    for key, it in sorted(keys.items(), key=lambda pair: pair[0] != "name"):
        if not (it.of_processes and project.processes):
            yield from of_key(key, it, project)


def of_key(key: str, it: Key, project: Project) -> Iterator[GridColumn]:
    currency = project.economics.currency
    if key in NAMED and it.kind.schema.get("type") == "object":
        yield from NAMED[key](key, it, project)
    elif it.kind.record is None:
        is_shown = not it.is_seldom and it.kind.type != VALUE
        yield GridColumn((key,), it.label, it.unit_of(currency, "unit"), it.kind.type, it.kind.options, is_shown)
    elif it.kind.schema["type"] != "array":
        for inner, within in keys_of(it.kind.record).items():
            if within.kind.record is None:
                unit = within.unit_of(currency, "unit")
                yield GridColumn((key, inner), within.label, unit, within.kind.type, is_shown=False)


def by_metal(key: str, it: Key, project: Project) -> Iterator[GridColumn]:
    """A column per metal, with the unit of its prices."""
    for metal in project.metals:
        unit = it.unit_of(project.economics.currency, metal.price_unit)
        yield GridColumn((key, metal.name), f"{it.label} of {metal.name}", unit, is_shown=not it.is_seldom)


def by_process(key: str, it: Key, project: Project) -> Iterator[GridColumn]:
    for process in project.processes:
        yield GridColumn((key, process.name), f"{it.label} of {process.name}", it.unit_of())


def minimums(key: str, it: Key, project: Project) -> Iterator[GridColumn]:
    names = [*(metal.name for metal in project.metals), *(process.name for process in project.processes)]
    for name in dict.fromkeys(["feed", "total", *names]):
        yield GridColumn((key, name), f"{it.label} {name}", it.unit_of(), is_shown=False)


def limits(key: str, names: Sequence[str], label: str, unit: str) -> Iterator[GridColumn]:
    for name in dict.fromkeys(names):
        for side in SIDES:
            yield GridColumn((key, name, side), f"{label} {name}, {side}", unit, is_shown=False)


def of_feed(key: str, it: Key, project: Project) -> Iterator[GridColumn]:
    names = [*(metal.column for metal in project.metals), *project.graded_columns]
    return limits(key, names, "Head grade", "unit of grade")


def of_accepts(key: str, it: Key, project: Project) -> Iterator[GridColumn]:
    for code, column in project.table.by_code.items():
        is_shown = code == ROCK_TYPE and bool(column)
        yield GridColumn((key, code), f"Accepts {code.replace('_', ' ')}", "codes, by commas", LIST, is_shown=is_shown)
    for metal in project.metals:
        yield from limits(key, [metal.column], "Accepts", metal.sign)


def of_opening(key: str, it: Key, project: Project) -> Iterator[GridColumn]:
    yield GridColumn((key, "tonnes"), "Opening balance", "t of feed", is_shown=False)
    for metal in project.metals:
        yield GridColumn((key, metal.column), f"Opening {metal.column}", metal.sign, is_shown=False)
    for code in CODES:
        yield GridColumn((key, code), f"Opening {code.replace('_', ' ')}", "code", TEXT, is_shown=False)


def of_places(key: str, it: Key, project: Project) -> Iterator[GridColumn]:
    """Limits of stockpiles or dumps by their names."""
    piles = project.schedule.stockpiles if project.schedule else ()
    names = [it.name for it in project.dumps] if key == "dumps" else [it.name for it in piles]
    return limits(key, names, it.label, it.unit_of())


# Keys by names that a project gives.
NAMED = {
    "recovery": by_metal,
    "prices": by_metal,
    "capacity": by_process,
    "minimum": minimums,
    "feed": of_feed,
    "accepts": of_accepts,
    "opening": of_opening,
    "stockpiles": of_places,
    "dumps": of_places,
}


@dataclass(frozen=True)
class GridRow:
    """A row of a grid: the place of its entry in the file, from 0, None for a new one; and the texts of its cells."""

    source: Optional[int]
    cells: tuple[str, ...]

    @property
    def is_empty(self) -> bool:
        return self.source is None and not any(self.cells)


@dataclass(frozen=True)
class FormGrid:
    """A grid.

    Attributes
    ----------
    why_not : str
        Why it cannot be changed; empty if it can.
    wrong, said : str
        What is wrong, and what was done.
    """

    kind: GridKind
    columns: list[GridColumn]
    rows: list[GridRow]
    why_not: str = ""
    wrong: str = ""
    said: str = ""

    @property
    def is_used(self) -> list[bool]:
        """Whether each column is shown: it always is, or some row has a value there."""
        return [it.is_shown or any(row.cells[k] for row in self.rows) for k, it in enumerate(self.columns)]

    @property
    def further(self) -> list[GridColumn]:
        return [column for column, is_used in zip(self.columns, self.is_used) if not is_used]


def grids_of(text: str, project: Project) -> dict[str, FormGrid]:
    data, headers = toml_text.parsed(text, str(project.path)), {it.name for it in entries(text) if it.is_header}
    return {name: grid_of(kind, headers, data, project) for name, kind in KINDS.items()}


def grid_of(kind: GridKind, headers: set[str], data: Mapping[str, Any], project: Project) -> FormGrid:
    found = at(data, kind.header.split("."))
    listed = rules_in(data) if kind.name == CLASSES else found if isinstance(found, list) else []
    columns = columns_of(kind.name, project, listed)
    rows = [GridRow(k, tuple(shown(at(entry, it.path), it) for it in columns)) for k, entry in enumerate(listed)]
    if kind.name == CLASSES:
        none = "The project names no column of resource classes: add class to [table]"
        return FormGrid(kind, columns, rows, "" if project.table.resource_class else none)
    return FormGrid(kind, columns, rows, why_not(kind, headers, data))


def why_not(kind: GridKind, headers: set[str], data: Mapping[str, Any]) -> str:
    """Returns why a list cannot be changed as a grid; empty if it can."""
    found = at(data, kind.header.split("."))
    if isinstance(found, str):
        return f"{kind.title} are in the table {found}: change them there"
    if found is not None and (not isinstance(found, list) or f"{kind.header} {len(found)}" not in headers):
        return f"{kind.title} are not written as [[{kind.header}]]: change them in the text"
    if kind.name == "stockpiles" and at(data, ("schedule", "stockpile")) is not None:
        return "The stockpile has the short form [schedule.stockpile]: change it in the text, or write it as [[schedule.stockpiles]] there"
    return ""


def shown(value: Any, column: GridColumn) -> str:
    if value is None or isinstance(value, dict):
        return ""
    if isinstance(value, str):
        return value if column.kind != VALUE else json.dumps(value, ensure_ascii=False)
    if column.kind == LIST and isinstance(value, list):
        return ", ".join(map(str, value))
    return toml_of(value)


def typed(grid: FormGrid, form: Mapping[str, str]) -> FormGrid:
    """Returns a grid with the rows of a form, without new rows that are empty. Raises WrongForm if they are too many."""
    numbers = sorted(int(name[len(ROW) :]) for name in form if re.fullmatch(re.escape(ROW) + r"\d{1,6}", name))
    if len(numbers) > MOST_ROWS:
        raise WrongForm(f"{grid.kind.title}: found {len(numbers):,} rows, expected at most {MOST_ROWS:,}")
    rows = []
    for number in numbers:
        source = form[f"{ROW}{number}"]
        known = int(source) if source.isascii() and source.isdigit() and int(source) < len(grid.rows) else None
        before = grid.rows[known].cells if known is not None else ("",) * len(grid.columns)
        cells = [form.get(f"{CELL}{number}:{k}", before[k]).strip() for k in range(len(grid.columns))]
        rows.append(GridRow(known, tuple(cells)))
    return replace(grid, rows=[row for row in rows if not row.is_empty])


def value_of(text: str, column: GridColumn, where: str) -> str:
    """Returns the text of a cell as TOML has it. Raises WrongForm if it cannot be one, with the column and the remedy."""
    if len(text) > MOST_LETTERS:
        raise WrongForm(f"{where}: found {len(text):,} letters, expected at most {MOST_LETTERS:,}")
    if column.kind == LIST:
        return toml_of([part.strip() for part in text.split(",") if part.strip()])
    if column.kind not in (NUMBER, VALUE):
        return toml_of(text)
    if A_NUMBER.fullmatch(text):
        return text
    if column.kind == NUMBER and text[:1] not in "[{":
        raise WrongForm(
            f"{where}: found {text[:40]!r}, expected a number such as 12.5: write decimals with a point, and no separators of thousands"
        )
    try:
        if list(toml_text.parsed(f"value = {text}", where)) == ["value"] and "\n" not in text:
            return text
    except PlanError:
        pass
    raise WrongForm(f"{where}: found {text[:40]!r}, expected a number, a text in quotes, or a list such as [1, 2]")


@dataclass(frozen=True)
class ValueChange:
    """A value of a key, None to remove it."""

    path: tuple[str, ...]
    value: Optional[str]


def changes_of(grid: FormGrid, row: GridRow, number: int, before: Sequence[str]) -> list[ValueChange]:
    """Returns the cells of a row that differ. Raises WrongForm if one is wrong."""
    found = []
    for column, old, new in zip(grid.columns, before, row.cells):
        if new != old:
            where = f"{grid.kind.title}, row {number}, {column.label}"
            found.append(ValueChange(column.path, value_of(new, column, where) if new else None))
    # Removed keys first: a number may take the place of a table.
    return sorted(found, key=lambda it: it.value is not None)


def changed(text: str, before: FormGrid, after: FormGrid, name: str) -> str:
    """Returns a text with the rows of a grid as a form has them; all else in it stays. Raises WrongForm if a cell is wrong, with its column and the
    remedy, or if the text is written in a way that a grid does not change."""
    if before.why_not:
        raise WrongForm(f"{before.why_not}.")
    if before.kind.name == CLASSES:
        old, new = ([row.cells for row in it.rows] for it in (before, after))
        return with_rules(text, old, new)
    kept = [row.source for row in after.rows if row.source is not None]
    if kept != sorted(set(kept)):
        raise WrongForm(f"{before.kind.title}: the rows are in another order than in the file: open the project again")
    draft, path, empty = Draft(text), path_of(before.kind), ("",) * len(before.columns)
    rows = [
        changes_of(before, row, number, empty if row.source is None else before.rows[row.source].cells)
        for number, row in enumerate(after.rows, 1)
    ]
    try:
        for row, changes in zip(after.rows, rows):
            if row.source is not None:
                for it in changes:
                    change(draft, (*path, row.source, *it.path), it)
    except PlanError as error:
        where = f"{before.kind.title}: {name} writes [[{before.kind.header}]]"
        raise WrongForm(f"{where} in a way that this grid cannot change: change it in the text") from error
    for number in sorted({*range(len(before.rows))} - {*kept}, reverse=True):
        draft.drop(path, number)
    for number, (row, changes) in enumerate(zip(after.rows, rows)):
        if row.source is None:
            draft.insert(path, number, {it.path: it.value for it in changes if it.value is not None})
    return draft.text


def path_of(kind: GridKind) -> Path:
    return tuple(kind.header.split("."))


def change(draft: Draft, path: Path, it: ValueChange) -> None:
    if it.value is None:
        draft.remove(path)
    else:
        draft.set(path, it.value)


def rules_in(data: Mapping[str, Any]) -> list[dict[str, Any]]:
    found = data.get(CLASSES, {})
    return [{"class": code, "rule": rule} for code, rule in found.items()] if isinstance(found, dict) else []


def rules_of(rows: Pairs) -> dict[str, str]:
    """Returns the rules of rows by class. Raises WrongForm if a class is missing or occurs twice, or a rule is unknown."""
    found: dict[str, str] = {}
    for number, (code, rule) in enumerate(rows, 1):
        where = f"Resource classes, row {number}"
        if not code:
            raise WrongForm(f"{where}, Class: found nothing, expected a code of the block model, such as inferred")
        if code in found:
            raise WrongForm(f"{where}, Class: {code} has a rule already: remove one of them")
        if rule not in TREATMENTS:
            raise WrongForm(f"{where}, Rule: found {rule[:40]!r}, expected one of {', '.join(TREATMENTS)}")
        found[code] = rule
    return found


def with_rules(text: str, before: Pairs, after: Pairs) -> str:
    """Returns a text with other rules; all else in it stays. Raises WrongForm if a rule is wrong."""
    draft, old, new = Draft(text), {row[0]: row[1] for row in before}, rules_of(after)
    for code in old:
        if code not in new:
            draft.remove((CLASSES, code))
    for code, rule in new.items():
        if old.get(code) != rule:
            draft.set((CLASSES, code), f'"{rule}"')
    return draft.text

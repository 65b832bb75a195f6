"""Writes a project.toml for a table without one, in which comments mark each guess and give its reason; and the overview of the table:
how it was recognised, extents, tonnes, grades, a table of its columns, and warnings."""

from __future__ import annotations

import json
import os
from collections.abc import Callable, Mapping
from dataclasses import dataclass
from pathlib import Path
from typing import Any, Optional

import numpy as np

from pitplan.config.economics import GRADE_SIGNS
from pitplan.config.keys import is_empty, keys_of, sentence
from pitplan.config.project import record_at
from pitplan.config.project_writer import shown
from pitplan.config.table import MISSING, ZERO
from pitplan.core.atomic_files import hash_of, staged_file
from pitplan.core.layout import figure_of_model
from pitplan.core.numeric_fields import is_numeric
from pitplan.core.text_tables import NAMES
from pitplan.errors import WARNING, PlanError

from .guesses import NEEDED, PRECIOUS, ROLE_WORDS, UNUSED, GuessedModel, MetalGuess, Role, read
from .reader import filled_numbers
from .summary import USUAL_PRICES, AxisSummary, Grade, mean_of, not_used, of_codes

HEADINGS = ("column", "role", "unit", "nulls", "least", "mean", "greatest", "why")
UNITS = {"tonnes": "t", "density": "t/m3", "volume": "m3"}
# Codes of a column that are listed, and letters of each.
MOST_CODES, MOST_LETTERS = 4, 12
NO_CLASS = (
    "no column is a resource class, so that inferred blocks are ore like others: if one is, give it the role class"
)
# Share of the box above which cells overlap.
MOST_FILLED = 1.001


@dataclass(frozen=True)
class Overview:
    """What a block model was recognised as.

    Attributes
    ----------
    columns : list of tuple of str
        The fields of each column, in the order of HEADINGS.
    warnings : list of str
        Each begins with WARNING.
    roles : list of str
        The role of each column, as `--role` has it.
    """

    notes: list[str]
    columns: list[tuple[str, ...]]
    warnings: list[str]
    roles: list[str]

    @property
    def records(self) -> list[dict[str, str]]:
        """The fields of each column by their headings, and as `set` its role as `--role` has it."""
        return [dict(zip(HEADINGS, fields)) | {"set": role} for fields, role in zip(self.columns, self.roles)]

    @property
    def lines(self) -> list[str]:
        return [*self.notes, *aligned(self.columns), *self.warnings]


@dataclass(frozen=True)
class WrittenProject:
    """A project that was written for a block model, with its figure if one was drawn."""

    overview: Overview
    project: Path
    figure: Optional[Path] = None

    @property
    def lines(self) -> list[str]:
        """What `pitplan init` prints."""
        drawn = [f"drew {self.figure}"] if self.figure else []
        wrote = f"wrote {self.project}: check each line with a #, first of all prices, costs and slope angles"
        return [*self.overview.lines, *drawn, wrote]

    @property
    def as_json(self) -> dict[str, Any]:
        """What `pitplan init --json` prints."""
        said = self.overview
        return {
            "path": str(self.project),
            "sha256": hash_of(self.project),
            "figure": str(self.figure) if self.figure else None,
            "notes": said.notes,
            "columns": said.records,
            "warnings": [warning.removeprefix(WARNING) for warning in said.warnings],
        }


def overview(model: GuessedModel) -> Overview:
    """Returns the notes, the columns and the warnings of a block model."""
    said = [f"{model.file}: {len(model.frame):,} blocks, {model.tonnes.sum():,.0f} tonnes", *axes_of(model)]
    grades = [grade_of(model, metal) for metal in model.columns.metals]
    said += [f"{grade.line}, {metal.why}" for grade, metal in zip(grades, model.columns.metals)]
    said += not_used(model.unused)
    said += [model.form.recognised] if model.form.recognised else []
    said += format_notes(model)
    said += volume_lines(model)
    said += [doubt for grade in grades for doubt in grade.doubts] + warnings_of(model)
    warnings = [line for line in said if line.startswith(WARNING)]
    columns = [row_of(model, str(name)) for name in model.frame.columns]
    roles = [model.used.get(str(name), UNUSED) for name in model.frame.columns]
    return Overview([line for line in said if line not in warnings], columns, warnings, roles)


def axes_of(model: GuessedModel) -> list[str]:
    """Returns a line for each axis, and one for a turned grid."""
    turned, said = model.turned, []
    for name, guess in sorted(model.columns.centres.items()):
        values, step = model.frame[guess.column], None if turned and name != "z" else model.step(name)
        said.append(f"{AxisSummary(name, guess.column, values.min(), values.max(), step).line}, {guess.why}")
    if turned:
        east, north = (f"{side:.10g}" for side in turned.size)
        said.append(
            f"blocks of {east} x {north} m lie on a grid whose north has azimuth {turned.azimuth:.10g}, found from the centroids"
        )
    return said


def grade_of(model: GuessedModel, metal: MetalGuess) -> Grade:
    values = np.nan_to_num(model.values(metal.column))
    return Grade(metal.metal, metal.column, metal.unit, mean_of(values, model.tonnes), float(values.max(initial=0)))


def format_notes(model: GuessedModel) -> list[str]:
    said = []
    if model.form.separator != ",":
        said.append(f"the fields are separated by {NAMES[model.form.separator]}")
    if model.form.decimal == ",":
        said.append("the decimals are written with a comma")
    if model.form.otherwise:
        said.append(f"{model.form.otherwise:,} bytes are not UTF-8 and are read as Windows-1252")
    return said


def volume_lines(model: GuessedModel) -> list[str]:
    """Returns how much of the box from edge to edge the cells fill, if their sizes are known; a warning if they overlap."""
    if "tonnes" in model.columns.named and not model.columns.sizes or model.turned:
        return []
    sides = []
    for axis in "xyz":
        values, step = model.frame[model.columns.centres[axis].column], model.step(axis)
        sizes = model.frame[model.columns.sizes[axis].column] if step is None else step
        sides.append(float((values + sizes / 2).max() - (values - sizes / 2).min()))
    filled, box = float(np.nansum(model.volumes)), float(np.prod(sides))
    said = f"the cells fill {filled:,.0f} m3, {100 * filled / box:.3g} % of the box of {' x '.join(f'{side:,.10g}' for side in sides)} m"
    return [f"{WARNING}{said}: they overlap, check the cell sizes" if filled > MOST_FILLED * box else said]


def aligned(columns: list[tuple[str, ...]]) -> list[str]:
    """Returns the table of columns, aligned, with a line of headings."""
    rows = [HEADINGS, *columns]
    wide = [max(len(row[k]) for row in rows) for k in range(len(HEADINGS))]
    left = (0, 1, 2, 7)
    return [
        "  ".join(
            field.ljust(width) if k in left else field.rjust(width) for k, (field, width) in enumerate(zip(row, wide))
        ).rstrip()
        for row in rows
    ]


def row_of(model: GuessedModel, name: str) -> tuple[str, ...]:
    """Returns the fields of a column in the table of columns."""
    role, unit, why = role_of(model, name)
    guess, column = model.nulls.get(name), model.frame[name]
    nulls = "" if guess is None else f"{guess.count:,}" + (f" ({', '.join(guess.codes)})" if guess.codes else "")
    if not is_numeric(column):
        codes = column.dropna().astype(str).str.strip()
        listed = [code[:MOST_LETTERS] for code in codes.value_counts().index[:MOST_CODES]]
        more = ", .." if codes.nunique() > MOST_CODES else ""
        return name, role, unit, nulls, "", "", "", f"{codes.nunique():,} codes: {', '.join(listed)}{more}"
    values = column.to_numpy(dtype=np.float64)
    some = values[~np.isnan(values)]
    digits = 10 if unit == "m" else 6
    figures = [f"{it:.{digits}g}" for it in (some.min(), some.mean(), some.max())] if len(some) else ["", "", ""]
    return name, role, unit, nulls, *figures, why


def role_of(model: GuessedModel, name: str) -> tuple[str, str, str]:
    """Returns the role of a column, its unit and why."""
    columns = model.columns
    for group, role in ((columns.centres, "centroid"), (columns.sizes, "cell size")):
        for axis, guess in group.items():
            if guess.column == name:
                return f"{role} {axis}", "m", guess.why
    for metal in columns.metals:
        if metal.column == name:
            return f"grade of {metal.metal}", GRADE_SIGNS[metal.unit], metal.why
    for key, guess in columns.named.items():
        if guess.column == name and name in model.used:
            unit = UNITS.get(key, model.share[1] if key == "rock_percent" else "")
            return "id" if key == "id" else ROLE_WORDS[key], "%" if unit == "percent" else unit, guess.why
    return ROLE_WORDS[UNUSED], "", ""


def warnings_of(model: GuessedModel) -> list[str]:
    """Returns what may not be as it seems."""
    said = []
    if model.has_several_sizes:
        said.append(
            f"{WARNING}cells have several sizes: parts of blocks are put together to blocks of the largest cell's size"
        )
    if "class" not in model.columns.named:
        said.append(WARNING + NO_CLASS)
    left_out = model.rows - len(model.frame)
    named = [model.columns.named[key].column for key in NEEDED if key in model.columns.named]
    needed = [name for name in named if name in model.nulls]
    if left_out:
        said.append(f"{WARNING}{left_out:,} rows are read as missing blocks, since {' or '.join(needed)} is null")
    for name in model.grades:
        guess = model.nulls.get(name)
        if guess is not None:
            count = int(model.frame[name].isna().sum())
            codes = f" ({', '.join(guess.codes)}: {guess.why})" if guess.codes else ""
            said.append(f"{WARNING}{name}: {count:,} of {len(model.frame):,} blocks are null{codes} and are read as 0")
    for name in (*model.grades, *(model.columns.named[key].column for key in model.weighed)):
        said += of_codes(name, model.values(name))
    return said


TEMPLATES = Path(__file__).resolve().parents[1] / "templates"
SHARES = {"percent": 0.01, "fraction": 1.0, "gram_per_tonne": 1.0}
RECOVERY, PROCESSING = 0.85, 12.0
MOST_DOMAINS = 12
# The columns that multiply costs, and what they multiply.
FACTORS = {"mcaf": "the mining cost", "pcaf": "the processing cost"}
CLASSES = {"1": "measured", "2": "indicated", "3": "inferred"}


Draw = Callable[[GuessedModel, Path], None]


def write_project(
    file: Path,
    out: Path,
    draw: Optional[Draw] = None,
    *,
    roles: Optional[Mapping[str, Role]] = None,
    replaces: bool = False,
) -> WrittenProject:
    """Writes a project for a table, and a figure of the block model if `draw` is given, which writes it to a path. `roles` are by column in place
    of the guess.

    Returns the overview of the block model, with warnings about what is doubtful in it. Raises PlanError if the table cannot be read, if no
    columns of centroids, tonnes or grades are found, if a column cannot have the role that is chosen, and if `out` exists, unless it is replaced.
    """
    # A table that is missing is refused where it is read, and named before the project.
    if file.exists() and out.exists() and not replaces:
        raise PlanError(f"{out}: already exists: name another file with --out, or replace it with --replace")
    model = read(file, roles)
    text, found = project_of(model, out)
    with staged_file(out) as place:
        place.write_text(text, encoding="utf-8")
    if draw is None:
        return WrittenProject(found, out)
    figure = figure_of_model(out)
    with staged_file(figure) as place:
        draw(model, place)
    return WrittenProject(found, out, figure)


def project_of(model: GuessedModel, out: Path) -> tuple[str, Overview]:
    """Returns the text of a project in the place `out`, and the overview of its block model. Raises PlanError if columns are missing."""
    demand_enough(model)
    demand_numbers(model, [guess.column for guess in model.columns.centres.values()])
    found = overview(model)
    return text_of(model, out), found


def demand_enough(model: GuessedModel) -> None:
    columns, there = model.columns, ", ".join(map(str, model.frame.columns))
    if model.frame.empty:
        raise PlanError(f"{model.file}: has no blocks")
    missing = [axis for axis in "xyz" if axis not in columns.centres]
    if missing:
        raise PlanError(
            f"{model.file} row 1: found no column for {' and '.join(missing)} of the centroids; the columns are {there}"
        )
    if "tonnes" not in columns.named and "density" not in columns.named:
        demand_numbers(model, list(columns.texts))
        raise PlanError(f"{model.file} row 1: found no column for tonnes or density; the columns are {there}")
    if not columns.metals:
        demand_numbers(model, list(columns.texts))
        raise PlanError(
            f"{model.file} row 1: found no column for grades, such as cu_pct or AU; the columns are {there}"
        )


def demand_numbers(model: GuessedModel, names: list[str]) -> None:
    """Raises PlanError, with the row, if a column has a field that is no number."""
    for name in names:
        filled_numbers(model.frame[name], model.source, name, may_fill=False)


def text_of(model: GuessedModel, out: Path) -> str:
    from jinja2 import Environment, FileSystemLoader

    environment = Environment(loader=FileSystemLoader(TEMPLATES), keep_trailing_newline=True)
    environment.filters["quoted"] = quoted
    environment.globals["others"] = others
    size, size_why = (None, "") if model.has_several_sizes else model.size
    ore = processing_capacity(model)
    words = {
        "file": file_name(model.file, out),
        "title": "".join(letter if letter.isprintable() else " " for letter in model.file.name.split(".")[0]),
        "blocks": f"{len(model.frame):,}",
        "table": table_lines(model),
        "size": size and json.dumps(size),
        "size_why": size_why,
        "factors": [
            (key, quoted(model.columns.named[key].column), f"{model.columns.named[key].why}: multiplies {what}")
            for key, what in FACTORS.items()
            if key in model.columns.named
        ],
        "metals": [priced(metal) for metal in model.columns.metals],
        "regions": domain_codes_of(model),
        "processing_capacity": f"{ore:_}",
        "ore_why": "by Taylor's rule for the blocks that pay at these prices; set your own",
    }
    return environment.get_template("project.toml").render(words)


def others(section: str, given: list[str]) -> str:
    """Returns the optional keys of a section as comments, each with what it is; without `given` ones and lists of sections."""
    lines = []
    for key, it in keys_of(record_at(section)).items():
        if key not in given and it.kind.record is None and not it.is_seldom:
            value = ".." if is_empty(it.default) or it.is_required else shown(it.kind.write(it.default, Path(".")))
            said = sentence(it).replace("`", "")
            lines.append(f"{f'# {key} = {value}':<32} # {said}\n")
    return "".join(lines)


def file_name(file: Path, out: Path) -> str:
    """Returns how a project names its table. Raises PlanError if that is impossible."""
    name = os.path.relpath(file, out.parent)
    try:
        name.encode()
    except UnicodeEncodeError as error:
        raise PlanError(f"{file}: its name is not UTF-8, as a project must be: rename it") from error
    return name


def quoted(words: str) -> str:
    return json.dumps(words, ensure_ascii=False).replace("\x7f", "\\u007f")


def table_lines(model: GuessedModel) -> list[tuple[str, str, str]]:
    """Returns the keys of [table], their values as TOML, and why."""
    columns = model.columns
    lines = [(axis, quoted(guess.column), guess.why) for axis, guess in sorted(columns.centres.items())]
    for key in model.weighed:
        guess = columns.named[key]
        unit = "" if key == "tonnes" else f", in {UNITS[key]}"
        lines.append((key, quoted(guess.column), guess.why + unit))
    lines += cell_lines(model)
    if "id" in columns.named and not model.frame[columns.named["id"].column].duplicated().any():
        lines.append(("id", quoted(columns.named["id"].column), columns.named["id"].why))
    for key in ("rock_type", "domain"):
        if key in columns.named and is_whole(model, columns.named[key].column):
            lines.append((key, quoted(columns.named[key].column), columns.named[key].why))
    return [*lines, *class_lines(model), *null_lines(model)]


def cell_lines(model: GuessedModel) -> list[tuple[str, str, str]]:
    """Returns the keys for cells of several sizes, and for the share of rock."""
    lines, (share, unit) = [], model.share
    if model.has_several_sizes:
        names = [model.columns.sizes[axis].column for axis in "xyz"]
        lines.append(
            ("cell_size", json.dumps(names, ensure_ascii=False), "sizes of each cell along x, y and z, by their names")
        )
        lines.append(
            ("reblock", quoted("parents"), "parts of blocks are put together to blocks of the largest cell's size")
        )
    if share is not None:
        value = f"{{ column = {quoted(share.column)}, unit = {quoted(unit)} }}"
        lines.append(("rock_percent", value, f"{share.why}: tonnes are multiplied by it"))
    return lines


def class_lines(model: GuessedModel) -> list[tuple[str, str, str]]:
    """Returns the column of resource classes, and names for its numbers as most models have them."""
    guess = model.columns.named.get("class")
    if guess is None:
        return []
    lines, codes = [("class", quoted(guess.column), guess.why)], codes_in(model, guess.column)
    if codes and codes <= set(CLASSES):
        names = ", ".join(f"{code} = {quoted(CLASSES[code])}" for code in sorted(codes))
        lines.append(
            ("map", f"{{ {quoted(guess.column)} = {{ {names} }} }}", "classes as most models number them; check it")
        )
    return lines


def codes_in(model: GuessedModel, name: str) -> set[str]:
    """Returns the codes of a column; whole numbers without decimals."""
    return {
        f"{it:.15g}" if isinstance(it, float) else str(it).strip()
        for it in model.frame[name].dropna().unique().tolist()
    } - {""}


def is_whole(model: GuessedModel, name: str) -> bool:
    """Returns whether a column of codes has one for each block."""
    codes = model.frame[name]
    return bool((codes.notna() & (codes.astype(str).str.strip() != "")).all())


def null_lines(model: GuessedModel) -> list[tuple[str, str, str]]:
    """Returns the null codes of the columns that the project names, and what a null means in each."""
    meanings = meanings_of(model)
    others = {model.columns.named[key].column for key in ("class", *FACTORS) if key in model.columns.named}
    named = [name for name in model.nulls if name in meanings or name in others]
    codes = list(dict.fromkeys(code for name in named for code in model.nulls[name].codes))
    places = [model.centres(axis) for axis in model.columns.centres]
    if any(np.any(values == float(code)) for code in codes for values in places if is_number(code)):
        # A code that is a centroid too belongs to its own columns.
        rules = {name: rule_of(model.nulls[name].codes, meanings.get(name)) for name in named}
        return [("nulls", inline(rules), "null codes, and what a null means, by column")]
    lines = [("null_values", f"[{', '.join(map(as_toml, codes))}]", "null codes, by the values")] if codes else []
    why = 'a null grade is read as 0, and a row without tonnes is a missing block; "refuse" makes it an error'
    rules = {name: quoted(meanings[name]) for name in named if name in meanings}
    return [*lines, *([("nulls", inline(rules), why)] if rules else [])]


def meanings_of(model: GuessedModel) -> dict[str, str]:
    """Returns what a null means in the columns of numbers that have some: 0 in grades, no block where it makes tonnes."""
    share, _ = model.share
    weighed = [model.columns.named[key].column for key in model.weighed] + ([share.column] if share else [])
    meanings = {**dict.fromkeys(model.grades, ZERO), **dict.fromkeys(weighed, MISSING)}
    return {name: meanings[name] for name in model.nulls if name in meanings}


def rule_of(codes: tuple[str, ...], meaning: Optional[str]) -> str:
    said = f", as = {quoted(meaning)}" if meaning else ""
    return f"{{ values = [{', '.join(map(as_toml, codes))}]{said} }}"


def inline(values: dict[str, str]) -> str:
    return f"{{ {', '.join(f'{quoted(name)} = {value}' for name, value in values.items())} }}"


def is_number(code: str) -> bool:
    try:
        float(code)
    except ValueError:
        return False
    return True


def as_toml(code: str) -> str:
    return code if is_number(code) and code.lstrip("-").replace(".", "", 1).isdigit() else quoted(code)


def price_of(metal: MetalGuess) -> float:
    """Returns the price of a gram if the grade is in grams per tonne, otherwise that of a tonne."""
    for_a_gram = USUAL_PRICES[metal.metal] * (1 if metal.metal in PRECIOUS else 1e-6)
    return for_a_gram if metal.unit == "gram_per_tonne" else for_a_gram * 1e6


def priced(metal: MetalGuess) -> dict[str, str]:
    return {
        "metal": metal.metal,
        "column": metal.column,
        "unit": metal.unit,
        "why": metal.why,
        "price": f"{price_of(metal):.10g}",
    }


def domain_codes_of(model: GuessedModel) -> list[Optional[str]]:
    """Returns the slope domains of the table. A table without any, or with more than MOST_DOMAINS, has one entry without a name."""
    if "domain" not in model.columns.named:
        return [None]
    found = sorted(set(model.frame[model.columns.named["domain"].column].dropna().astype(str).str.strip()) - {""})
    return list(found) if 0 < len(found) <= MOST_DOMAINS else [None]


def processing_capacity(model: GuessedModel) -> int:
    """Returns a yearly mill feed, to two digits, by Taylor's rule (1977): the life in years is 0.2 times the fourth root of the tonnes of ore."""
    revenue = np.zeros(len(model.frame))
    for metal in model.columns.metals:
        grade = np.nan_to_num(model.values(metal.column))
        revenue += grade * SHARES[metal.unit] * price_of(metal) * RECOVERY
    ore = float(model.tonnes[revenue > PROCESSING].sum())
    yearly = max(ore / max(0.2 * ore**0.25, 1.0), 1.0)
    digits = max(int(np.floor(np.log10(yearly))) - 1, 0)
    return int(round(yearly, -digits))

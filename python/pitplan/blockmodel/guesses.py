"""Guesses for a table without a project: its text format, what its columns hold, and their nulls; and roles that the user gives to columns in their place."""

from __future__ import annotations

import codecs
import re
from collections.abc import Iterable, Mapping, Sequence
from dataclasses import dataclass, field
from functools import cached_property
from pathlib import Path
from typing import Optional

import numpy as np
import pandas as pd

from pitplan.config.economics import GRADE_SIGNS
from pitplan.config.table import GridRules
from pitplan.core.numeric_fields import TableSource, holds_texts, is_numeric
from pitplan.core.text_tables import NUMBER, UNREADABLE, TableFormat, demand_text, is_parquet, opened, unreadable
from pitplan.errors import PlanError

from .grid import Places, azimuth_of, of_centres
from .reader import filled_numbers, model_reader, read_whole

# Words that packages and people write for absent data, without case.
NULL_WORDS = frozenset(
    "- -- . * ? na n/a #n/a nan null nil none absent missing blank nodata undefined unestimated".split() + ["no data"]
)
# Numbers that are null codes wherever they occur once; others repeat.
USUAL = (-99.0, -999.0, -9999.0, -99999.0, -1e30)
# This many ranges of the other numbers a null code lies below them, if some of these are negative.
FAR = 3
# Different words of one column that may be null codes.
MOST_WORDS = 4


@dataclass(frozen=True)
class NullGuess:
    """The null codes of a column, as the file has them, how many fields are null or empty, and why they are taken for null."""

    codes: tuple[str, ...]
    count: int
    why: str


def without_nulls(
    frame: pd.DataFrame, columns: Iterable[str], form: TableFormat
) -> tuple[pd.DataFrame, dict[str, NullGuess]]:
    """Returns a table with nan for the nulls of columns of numbers, and what was taken for null by column."""
    found, result = {}, frame.copy()
    declared = declared_defaults(form)
    for name in columns:
        words = words_of(frame[name])
        if words:
            texts = frame[name].astype(str).str.strip()
            result[name] = pd.to_numeric(texts.where(~texts.isin(words) & (texts != "")), errors="coerce")
        if not is_numeric(result[name]):
            continue
        values = result[name].to_numpy(dtype=np.float64)
        code = number_of(values, declared)
        if code is not None:
            result[name] = np.where(values == code, np.nan, values)
        count = int(result[name].isna().sum())
        if count:
            codes = [*words, *([] if code is None else [f"{code:.15g}"])]
            found[name] = NullGuess(tuple(codes), count, reason(words, code, declared))
    return result, found


def words_of(column: pd.Series) -> list[str]:
    """Returns the words for absent data of a column that holds numbers otherwise."""
    if is_numeric(column):
        return []
    texts = set(column.dropna().astype(str).str.strip().unique()) - {""}
    words = sorted(text for text in texts if not NUMBER.fullmatch(text))
    is_absent = len(words) <= MOST_WORDS and all(word.lower() in NULL_WORDS for word in words)
    return words if words and is_absent and len(words) < len(texts) else []


def number_of(values: np.ndarray, declared: Sequence[float]) -> float | None:
    """Returns the number that is probably a null code."""
    known = values[~np.isnan(values)]
    if not len(known):
        return None
    least = float(known.min())
    others = known[known > least]
    repeats = np.count_nonzero(known == least) > 1 or least in USUAL or least in declared
    if least >= 0 or not repeats or not len(others):
        return None
    lowest, highest = float(others.min()), float(others.max())
    is_far = lowest >= 0 or least < lowest - FAR * (highest - lowest)
    return least if is_far or least in declared else None


def declared_defaults(form: TableFormat) -> list[float]:
    """Returns the negative numbers that a header of Vulcan declares as defaults."""
    defaults = [row for row in form.below() if row and "default" in row[0].lower()]
    return [float(it) for row in defaults for it in row if NUMBER.fullmatch(it) and it.startswith("-")]


def reason(words: list[str], code: float | None, declared: Sequence[float]) -> str:
    if code is not None:
        return "the default in the header" if code in declared else "far below all other values"
    return "a word for absent data" if words else "empty"


# Names without case and punctuation, the surest first; those of exports of Datamine, Surpac, Vulcan and Deswik among them.
CENTRES = {
    "x": "x xc xcentre xcenter xcentroid centroidx centrex centerx xcoord xcoordinate xmid midx xworld xm xpt east easting e",
    "y": "y yc ycentre ycenter ycentroid centroidy centrey centery ycoord ycoordinate ymid midy yworld ym ypt north northing n",
    "z": "z zc zcentre zcenter zcentroid centroidz centrez centerz zcoord zcoordinate zmid midz zworld zm zpt rl elev elevation level",
}
SIZES = {
    "x": "xinc dx dimx xdim xlength xlen lengthx lenx xsize sizex xblock",
    "y": "yinc dy dimy ydim ylength ylen lengthy leny ysize sizey yblock",
    "z": "zinc dz dimz zdim zlength zlen lengthz lenz zsize sizez zblock height",
}
OTHERS = {
    "tonnes": "tonnes tonnage tons ton tns tonne mass blocktonnes rocktonnes",
    "density": "density dens sg den bulkdensity specificgravity rho",
    "volume": "volume vol blockvolume cellvolume",
    "id": "id blockid ijk blockno blocknumber bid cellid name",
    "rock_type": "rock rocktype lith lithology litho lithcode material mat oretype geology geol oxidation oxide weathering geomet domain zone gm redox",
    "mcaf": "mcaf miningcaf miningcostadjustmentfactor miningcostfactor",
    "pcaf": "pcaf processcaf processingcaf processingcostadjustmentfactor processcostfactor",
    "class": "class rescat resclass resourceclass resourcecat resourcecategory category classification",
    "rock_percent": "topopct topopercent topofrac topo percentrock rockpercent rockpct pctrock percentbelow belowtopo pctbelowtopo "
    "percentbelowtopo partialpercent solidpct",
    "domain": "region sloperegion slope slopesector geotech geotechdomain geotechnicaldomain wallregion pitsector sector",
}
METALS = {
    "au": "gold", "ag": "silver", "pt": "platinum", "pd": "palladium", "cu": "copper", "mo": "molybdenum", "ni": "nickel",
    "zn": "zinc", "pb": "lead", "co": "cobalt", "fe": "iron", "sn": "tin", "w": "tungsten", "li": "lithium", "u": "uranium",
}  # fmt: skip
PRECIOUS = ("gold", "silver", "platinum", "palladium")
UNITS = {
    "percent": "percent", "pct": "percent", "perc": "percent", "pc": "percent",
    "ppm": "gram_per_tonne", "gpt": "gram_per_tonne", "gt": "gram_per_tonne", "g": "gram_per_tonne",
    "fraction": "fraction", "frac": "fraction",
}  # fmt: skip
# A mean of more per cent of a metal but iron is rather grams a tonne.
RICH = {"iron": 75.0}
RICHEST = 40.0


@dataclass(frozen=True)
class Guess:
    """A column, and the reason for the guess."""

    column: str
    why: str


@dataclass(frozen=True)
class MetalGuess:
    """A metal, its grade column, the probable unit, and the reason."""

    metal: str
    column: str
    unit: str
    why: str


@dataclass(frozen=True)
class GuessedColumns:
    """The guessed columns of a table.

    `sizes` has x, y and z, or nothing; `named` has id, tonnes and codes by their keys; `texts` are columns named like amounts that also hold
    text.
    """

    centres: dict[str, Guess]
    sizes: dict[str, Guess]
    named: dict[str, Guess]
    metals: tuple[MetalGuess, ...]
    texts: tuple[str, ...] = ()


def hints_of(names: list[str], below: list[list[str]]) -> dict[str, str]:
    """Returns what the header lines below the names say of each column, such as its unit."""
    lines = [line for line in below if len(line) == len(names)]
    return {name: " ".join(line[k] for line in lines) for k, name in enumerate(map(str, names))} if lines else {}


def columns_of(frame: pd.DataFrame, hints: Optional[Mapping[str, str]] = None) -> GuessedColumns:
    """Returns the guessed columns of a table as read: numbers as numbers, everything else as text. `hints` says more of columns."""
    hints = hints or {}
    plain = {plain_of(name): name for name in reversed(list(map(str, frame.columns)))}
    centres = {axis: found for axis, names in CENTRES.items() if (found := by_name(plain, names))}
    if len(centres) < 3:
        centres = {**by_values(frame, centres), **centres}
    sizes = {axis: found for axis, names in SIZES.items() if (found := by_name(plain, names))}
    named = {key: found for key, names in OTHERS.items() if (found := by_name(plain, names))}
    named = {
        key: found
        for key, found in named.items()
        if key in ("id", "rock_type", "domain", "class") or is_number(frame, found.column)
    }
    if "rock_percent" in named:
        share = frame[named["rock_percent"].column]
        if not (share.between(0, 100) | share.isna()).all():
            del named["rock_percent"]
    taken = {guess.column for group in (centres, sizes, named) for guess in group.values()}
    metals = [
        metal
        for name in map(str, frame.columns)
        if name not in taken and (metal := metal_of(frame, name, hints.get(name, "")))
    ]
    texts = tuple(
        name for name in map(str, frame.columns) if not is_number(frame, name) and is_called_like_an_amount(name)
    )
    first = {metal.metal: metal for metal in reversed(metals)}
    return GuessedColumns(centres, sizes if len(sizes) == 3 else {}, named, tuple(first.values())[::-1], texts)


def is_called_like_an_amount(name: str) -> bool:
    """Returns whether a column is named like tonnes, density, volume or grades."""
    amounts = " ".join(OTHERS[key] for key in ("tonnes", "density", "volume")).split()
    return plain_of(name) in amounts or sign_of(name) is not None


def plain_of(name: str) -> str:
    return re.sub(r"[^a-z0-9]", "", name.lower())


def is_number(frame: pd.DataFrame, name: str) -> bool:
    return bool(pd.api.types.is_numeric_dtype(frame[name]))


def by_name(plain: dict[str, str], names: str) -> Optional[Guess]:
    return next((Guess(plain[name], "by its name") for name in names.split() if name in plain), None)


def by_values(frame: pd.DataFrame, known: dict[str, Guess]) -> dict[str, Guess]:
    """Returns for centroids without a known name the first columns of numbers, in order, with equal steps."""
    taken = {guess.column for guess in known.values()}
    lattices = [name for name in map(str, frame.columns) if name not in taken and is_lattice(frame, name)]
    missing = [axis for axis in CENTRES if axis not in known]
    return {axis: Guess(name, "by its equally spaced values") for axis, name in zip(missing, lattices)}


def is_lattice(frame: pd.DataFrame, name: str) -> bool:
    """Returns whether a column has few distinct numbers, each many times, with gaps that are multiples of the smallest."""
    if not is_number(frame, name) or frame[name].isna().any():
        return False
    values = np.unique(frame[name].to_numpy(dtype=np.float64))
    if not 2 <= len(values) <= max(2, len(frame) // 2):
        return False
    gaps = np.diff(values)
    steps = gaps / gaps.min()
    return bool(gaps.min() > 0.5 and np.abs(steps - np.rint(steps)).max() < 0.01)


def sign_of(name: str) -> Optional[tuple[str, list[str]]]:
    """Returns the symbol of a metal at the start of a name, and the words after it, perhaps a unit; None without one."""
    words = re.findall(r"[a-z]+|%", name.lower())
    if not words or words[0] in METALS:
        return (words[0], words[1:]) if words else None
    found = re.fullmatch(r"(" + "|".join(METALS) + r")(percent|pct|perc|ppm|gpt)", words[0])
    return (found[1], [found[2], *words[1:]]) if found else None


def metal_of(frame: pd.DataFrame, name: str, hint: str = "") -> Optional[MetalGuess]:
    """Returns the metal of a grade column by its name, and the unit by the name, a header line or the values."""
    signed = sign_of(name)
    if signed is None or not is_number(frame, name):
        return None
    sign, rest = signed
    metal, joined = METALS[sign], "".join(rest)
    unit = "percent" if "%" in rest else next((UNITS[word] for word in (*rest, joined) if word in UNITS), "")
    if unit:
        return MetalGuess(metal, name, unit, "unit from the column name")
    if unit := unit_in(hint):
        return MetalGuess(metal, name, unit, "unit from the header")
    mean = float(frame.loc[frame[name] > 0, name].mean())
    if metal in PRECIOUS or mean > RICH.get(metal, RICHEST):
        return MetalGuess(
            metal,
            name,
            "gram_per_tonne",
            "usual unit for this metal" if metal in PRECIOUS else "unit from its values",
        )
    return MetalGuess(metal, name, "percent", "usual unit for this metal")


def unit_in(hint: str) -> str:
    """Returns the unit that a header line names, "" if it names none."""
    words = re.findall(r"g/t|[a-z]+|%", hint.lower())
    if "%" in words:
        return "percent"
    return next((UNITS[word.replace("/", "")] for word in words if word.replace("/", "") in UNITS and word != "g"), "")


UNUSED = "unused"
# The keys of cell sizes along the axes.
SIZE_ROLES = {"xinc": "x", "yinc": "y", "zinc": "z"}
# What each role is called on pages; of a metal "grade of copper, %".
ROLE_WORDS = {
    UNUSED: "not used",
    "x": "centroid x",
    "y": "centroid y",
    "z": "centroid z",
    "xinc": "cell size x",
    "yinc": "cell size y",
    "zinc": "cell size z",
    "tonnes": "tonnes",
    "density": "density",
    "volume": "volume",
    "id": "block name",
    "rock_type": "rock type",
    "domain": "slope domain",
    "class": "resource class",
    "rock_percent": "share of rock",
    "mcaf": "MCAF",
    "pcaf": "PCAF",
}
# Roles whose columns hold text as well as numbers.
OF_CODES = (UNUSED, "id", "rock_type", "domain", "class")
WHY = "as you set it"


@dataclass(frozen=True)
class Role:
    """A role by its key, such as tonnes; of a metal its name and the unit of its grade."""

    key: str
    unit: str = ""

    @property
    def text(self) -> str:
        return f"{self.key}:{self.unit}" if self.unit else self.key


def role_of_text(column: str, text: str) -> Role:
    """Reads the role of a column, such as tonnes, gold or copper:percent. Raises PlanError if the text is no role."""
    key, sign, unit = (part.strip() for part in text.partition(":"))
    if key in ROLE_WORDS and not sign:
        return Role(key)
    if key in METALS.values() and (unit in GRADE_SIGNS or not sign):
        return Role(key, unit or ("gram_per_tonne" if key in PRECIOUS else "percent"))
    roles, units = ", ".join(ROLE_WORDS), ", ".join(GRADE_SIGNS)
    raise PlanError(
        f"role of {column}: found {text}, expected one of {roles}, or a metal with the unit of its grade ({units}), such as copper:percent"
    )


def roles_of_words(words: list[str]) -> dict[str, Role]:
    """Reads words such as `AS=unused`, each of a column and its role. Raises PlanError if one is wrong, or a column or a role occurs twice."""
    found: dict[str, Role] = {}
    for word in words:
        column, sign, role = word.rpartition("=")
        if not sign or not column:
            raise PlanError(f"--role {word}: expected COLUMN=ROLE, such as AS=unused")
        if column in found:
            raise PlanError(f"--role {word}: {column} has a role already: give it one")
        found[column] = role_of_text(column, role)
    demand_each_once(found)
    return found


def demand_each_once(roles: Mapping[str, Role]) -> None:
    """Raises PlanError if two columns have the same role."""
    holders: dict[str, str] = {}
    for column, role in roles.items():
        if role.key == UNUSED:
            continue
        if role.key in holders:
            raise PlanError(
                f"role of {column}: {role.text} is the role of {holders[role.key]} too: give one of them another, or {UNUSED}"
            )
        holders[role.key] = column


def with_roles(columns: GuessedColumns, roles: Mapping[str, Role], frame: pd.DataFrame) -> GuessedColumns:
    """Returns guessed columns with other roles for some. A column whose role another one gets is not used. Raises PlanError if a column does not
    exist, or a cell size is set without the other two."""
    names = list(map(str, frame.columns))
    for column, role in roles.items():
        if column not in names:
            raise PlanError(f"role of {column}: found no such column, expected one of {', '.join(names)}")
    set_for = {role.key: column for column, role in roles.items() if role.key != UNUSED}
    centres = changed(columns.centres, {axis: set_for.get(axis) for axis in CENTRES}, roles)
    sizes = changed(columns.sizes, {axis: set_for.get(key) for key, axis in SIZE_ROLES.items()}, roles)
    named = changed(columns.named, {key: set_for.get(key) for key in OTHERS}, roles)
    set_sizes = [key for key in SIZE_ROLES if key in set_for]
    if set_sizes and len(sizes) < len(SIZE_ROLES):
        missing = [key for key, axis in SIZE_ROLES.items() if axis not in sizes]
        raise PlanError(
            f"role of {set_for[set_sizes[0]]}: {set_sizes[0]} needs the sizes along the other axes: set {' and '.join(missing)} too"
        )
    return GuessedColumns(
        centres, sizes if len(sizes) == len(SIZE_ROLES) else {}, named, metals_of(columns, roles, names), columns.texts
    )


def changed(
    guesses: Mapping[str, Guess], wanted: Mapping[str, Optional[str]], roles: Mapping[str, Role]
) -> dict[str, Guess]:
    """Replaces guesses by the roles that the user chose, and returns them by key."""
    kept = {key: guess for key, guess in guesses.items() if guess.column not in roles}
    return kept | {key: Guess(column, WHY) for key, column in wanted.items() if column}


def metals_of(columns: GuessedColumns, roles: Mapping[str, Role], names: list[str]) -> tuple[MetalGuess, ...]:
    wanted = [MetalGuess(role.key, column, role.unit, WHY) for column, role in roles.items() if role.unit]
    taken = {it.metal for it in wanted}
    kept = [it for it in columns.metals if it.column not in roles and it.metal not in taken]
    return tuple(sorted([*kept, *wanted], key=lambda it: names.index(it.column)))


SEEN = 1 << 20
MARKS = (codecs.BOM_UTF16_LE, codecs.BOM_UTF16_BE)
# Metres by which a centroid may lie off a turned grid, as [grid] tolerance is by default.
TOLERANCE = 0.01
# Columns without whose numbers a row is no block.
NEEDED = ("tonnes", "density", "volume", "rock_percent")


@dataclass(frozen=True)
class GuessedModel:
    """A table with its guessed columns, and what follows from them.

    Attributes
    ----------
    frame : DataFrame
        The rows that are blocks; nan for a null.
    nulls : dict of str to NullGuess
        By column.
    rows : int
        The rows of the file.
    """

    file: Path
    form: TableFormat
    frame: pd.DataFrame
    columns: GuessedColumns
    nulls: dict[str, NullGuess]
    rows: int

    def values(self, column: str) -> np.ndarray:
        return self.frame[column].to_numpy(dtype=np.float64)

    def numbers(self, key: str) -> np.ndarray:
        """Returns the numbers of the column of a role, such as tonnes."""
        return self.values(self.columns.named[key].column)

    def centres(self, axis: str) -> np.ndarray:
        return self.values(self.columns.centres[axis].column)

    def sides(self, axis: str) -> np.ndarray:
        """Returns the size of each row's cell along an axis."""
        return self.values(self.columns.sizes[axis].column)

    @property
    def source(self) -> TableSource:
        return TableSource.of(str(self.file), self.form.header_row, self.form.first_row)

    @property
    def weighed(self) -> list[str]:
        """The keys of the columns from which tonnes follow."""
        named = self.columns.named
        if "tonnes" in named:
            return ["tonnes"]
        return [
            key for key in ("density", "volume") if key in named and not (key == "volume" and self.has_several_sizes)
        ]

    @property
    def grades(self) -> list[str]:
        return [metal.column for metal in self.columns.metals]

    @cached_property
    def has_several_sizes(self) -> bool:
        return any(self.frame[guess.column].nunique() > 1 for guess in self.columns.sizes.values())

    @cached_property
    def size(self) -> tuple[Optional[list[float]], str]:
        """The block size if the table gives it or tonnes need it, and how it is known; None if the centroids alone give it."""
        columns = self.columns
        if columns.sizes and not self.has_several_sizes:
            names = [columns.sizes[axis].column for axis in "xyz"]
            return [float(self.frame[name].iloc[0]) for name in names], f"by {', '.join(names)}"
        turned = self.turned
        gaps = [*turned.size, self.least_gap("z")] if turned else [self.least_gap(axis) for axis in "xyz"]
        flat = [axis for axis, gap in zip("xyz", gaps) if gap is None]
        has_volume = "tonnes" in columns.named or "volume" in columns.named
        if not flat and has_volume:
            return None, ""
        # Of an axis along which all lie at one place nothing is known.
        filled = [min((known for known in gaps if known), default=1.0) if gap is None else gap for gap in gaps]
        guessed = f"; set your own along {' and '.join(flat)}, where all centroids are equal" if flat else ""
        volumes = "" if has_volume else ", from which volumes are computed for the density"
        return filled, f"the smallest steps between centroids{volumes}{guessed}"

    @cached_property
    def turned(self) -> Optional[Places]:
        """The blocks' places on a turned grid; None if rows go east, or cells have several sizes."""
        if self.has_several_sizes:
            return None
        centres, rules = np.stack([self.centres(axis) for axis in "xy"], axis=1), GridRules(None, TOLERANCE)
        azimuth = None if np.isnan(centres).any() else azimuth_of(centres, rules.tolerance)
        try:
            return None if azimuth is None else of_centres(centres, azimuth, rules, str(self.file), columns="x, y")
        except PlanError:
            # The first run of the project reports the error.
            return None

    def least_gap(self, axis: str) -> Optional[float]:
        """Returns the least step between centroids along an axis; None if all lie at one place."""
        values = np.unique(self.centres(axis))
        return float(np.diff(values).min()) if len(values) > 1 else None

    def step(self, axis: str) -> Optional[float]:
        """Returns the block size along an axis in metres; None if there are several."""
        if self.has_several_sizes:
            return None
        size, _ = self.size
        return size["xyz".index(axis)] if size else self.least_gap(axis)

    @cached_property
    def volumes(self) -> np.ndarray:
        """The volume of each row in cubic metres, as far as it is known."""
        if self.has_several_sizes:
            return np.asarray(np.prod([self.sides(axis) for axis in "xyz"], axis=0))
        if "volume" in self.columns.named:
            return self.numbers("volume")
        size, _ = self.size
        return np.full(len(self.frame), np.prod(size or ()))

    @cached_property
    def share(self) -> tuple[Optional[Guess], str]:
        """The column with the share of rock, if tonnes do not hold it already, and its unit."""
        named = self.columns.named
        guess = named.get("rock_percent")
        if guess is None or "tonnes" in named:
            return None, ""
        if "volume" in named and not self.has_several_sizes and self.volumes.min() < self.volumes.max():
            return None, ""
        return guess, "percent" if self.numbers("rock_percent").max() > 1 else "fraction"

    @cached_property
    def tonnes(self) -> np.ndarray:
        if "tonnes" in self.columns.named:
            return np.nan_to_num(self.numbers("tonnes"))
        guess, unit = self.share
        share = 1.0 if guess is None else self.numbers("rock_percent") / (100 if unit == "percent" else 1)
        return np.nan_to_num(self.numbers("density") * self.volumes * share)

    @cached_property
    def used(self) -> dict[str, str]:
        """The columns that the project names, each with its role as `--role` has it."""
        columns = self.columns
        found = {guess.column: axis for axis, guess in columns.centres.items()}
        found |= {columns.sizes[axis].column: key for key, axis in SIZE_ROLES.items() if axis in columns.sizes}
        found |= {metal.column: Role(metal.metal, metal.unit).text for metal in columns.metals}
        keys = [*self.weighed, "id", "rock_type", "domain", "class", "mcaf", "pcaf"]
        keys += ["rock_percent"] if self.share[0] else []
        named = {columns.named[key].column: key for key in columns.named if key in keys}
        return named | found

    @property
    def unused(self) -> list[str]:
        """The columns that the project does not name."""
        return [name for name in map(str, self.frame.columns) if name not in self.used]


@dataclass(frozen=True)
class TableRows:
    """A table as read, and the same without nulls, which is kept by the columns that have none.

    Attributes
    ----------
    frame : DataFrame
        Numbers as numbers, everything else as text.
    cleaned : dict
        By the columns that have no nulls the table without nulls, and what was guessed of these.
    """

    file: Path
    form: TableFormat
    frame: pd.DataFrame
    cleaned: dict[frozenset[str], tuple[pd.DataFrame, dict[str, NullGuess]]] = field(default_factory=dict)

    def without_nulls_but(self, fixed: frozenset[str]) -> tuple[pd.DataFrame, dict[str, NullGuess]]:
        """Returns the table without nulls in all columns except some, and what was guessed of the nulls."""
        if fixed not in self.cleaned:
            wanted = [name for name in self.frame if name not in fixed]
            clean, nulls = without_nulls(self.frame, wanted, self.form)
            self.cleaned[fixed] = numbers_where_all_are(clean), nulls
        return self.cleaned[fixed]


def read(file: Path, roles: Optional[Mapping[str, Role]] = None) -> GuessedModel:
    """Reads a table. Raises PlanError if it is no text or no table, or if a column cannot have the role that is given."""
    return model_of(rows_of(file), roles)


def rows_of(file: Path) -> TableRows:
    """Reads the rows of a table. Raises PlanError if it is no text or no table."""
    if is_parquet(file):
        demand_text(file, "pitplan init")
    if model_reader(file) is None:
        demand_no_binary(file)
    frame, form = read_whole(file)
    return TableRows(file, form, numbers_where_all_are(frame))


def model_of(rows: TableRows, roles: Optional[Mapping[str, Role]] = None) -> GuessedModel:
    """Returns the guessed columns of a table, some with the roles that are given. Raises PlanError if a column cannot have its role."""
    roles = roles or {}
    rough = with_roles(columns_of(rows.frame), roles, rows.frame)
    fixed = frozenset(guess.column for group in (rough.centres, rough.sizes) for guess in group.values())
    clean, nulls = rows.without_nulls_but(fixed)
    hints = hints_of(list(clean.columns), rows.form.below())
    columns = with_roles(columns_of(clean, hints), roles, clean)
    demand_roles(rows, clean, roles)
    if "id" in columns.named:
        nulls = {name: guess for name, guess in nulls.items() if name != columns.named["id"].column}
    needed = [columns.named[key].column for key in NEEDED if key in columns.named]
    kept = clean[needed].notna().all(axis=1) if needed else pd.Series(True, index=clean.index)
    return GuessedModel(rows.file, rows.form, clean[kept].reset_index(drop=True), columns, nulls, len(rows.frame))


def demand_roles(rows: TableRows, frame: pd.DataFrame, roles: Mapping[str, Role]) -> None:
    """Raises PlanError, with the row, if a column has text and its role needs numbers."""
    source = TableSource.of(str(rows.file), rows.form.header_row, rows.form.first_row)
    for name in [name for name, role in roles.items() if role.key not in OF_CODES and holds_texts(frame[name])]:
        filled_numbers(frame[name], source, name, may_fill=False)


def demand_no_binary(file: Path) -> None:
    """Raises PlanError if a file is no text."""
    try:
        with opened(file) as text:
            seen = text.read(SEEN)
    except UNREADABLE as error:
        raise unreadable(file, error) from error
    if not seen.startswith(MARKS) and b"\0" in seen:
        raise PlanError(f"{file}: is not a text file: save the table as CSV")


def numbers_where_all_are(frame: pd.DataFrame) -> pd.DataFrame:
    """Returns the same with columns of numbers and empty fields as numbers."""
    result = frame.copy()
    for name in [name for name in frame.columns if holds_texts(frame[name])]:
        numbers = pd.to_numeric(frame[name], errors="coerce")
        if (numbers.notna() | (frame[name].astype(str).str.strip() == "")).all():
            result[name] = numbers
    return result

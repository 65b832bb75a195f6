"""`[table]` and `[grid]`: columns, codes, rules of rows, survey files, missing blocks and reblocking."""

from __future__ import annotations

import codecs
from collections.abc import Mapping
from dataclasses import dataclass
from decimal import Decimal
from pathlib import Path
from typing import Any, Optional, Union

from pitplan.core.expressions import Expression, ExpressionError, parsed

from . import keys
from .keys import (
    CODE,
    ValueKind,
    amount,
    array,
    as_number,
    by_name,
    choice,
    cut,
    either,
    inline,
    key,
    new,
    numbers,
    one_or_more,
    part,
    shown,
    text,
    whole,
)
from .toml_text import Section

# The keys of `[table]` that name columns of codes by which ore is accepted and limited.
ROCK_TYPE, DOMAIN, CLASS = CODES = "rock_type", "domain", "class"
# What an empty field means: an error, the number 0, or that the row is no block.
REFUSE, ZERO, MISSING = MEANINGS = "refuse", "zero", "missing"
# The code in `[table.map]` that stands for all others.
OTHERS = "*"
PERCENT = "percent"
# The value of a whole block.
UNITS = {PERCENT: 100, "fraction": 1}
# The value of `reblock` by which the rows are cells and parts of cells, which are put together again.
PARENTS = "parents"
# The last line that may hold the names or the first block.
LAST_HEADER = 10_000


class Coded:
    """A record with codes, or with the columns of these."""

    rock_type: Any
    domain: Any
    resource_class: Any

    @property
    def by_code(self) -> dict[str, Any]:
        """Its values by the keys of `[table]`."""
        return {ROCK_TYPE: self.rock_type, DOMAIN: self.domain, CLASS: self.resource_class}


def read_null(section: Section, name: str, value: Any) -> str:
    """A null code, a number or a text, as text."""
    if isinstance(value, bool) or not isinstance(value, (str, int, Decimal)):
        raise section.wrong(name, f"found {shown(value)}, {NULL_CODES}")
    return value.strip() if isinstance(value, str) else str(as_number(section, name, value))


def read_new_name(section: Section, code: str, name: Any) -> str:
    if isinstance(name, bool) or not isinstance(name, (str, int)) or "\0" in str(name):
        raise section.wrong(code, f"found {shown(name)}, expected the name that replaces the code, in quotes")
    return str(name).strip()


def expression_of(written: str) -> Expression:
    try:
        return parsed(written)
    except ExpressionError as error:
        raise ValueError(f"{shown(written)} {error}") from error


NULL_CODES = 'expected a list of null codes, such as [-99, "-", "NA"]'
NULLS = one_or_more(ValueKind(read_null, {"type": ["string", "number"]}), f"found [], {NULL_CODES}")
NEW_NAMES = by_name(
    ValueKind(read_new_name, CODE), 'has no codes: write them, such as { 1 = "measured", 2 = "indicated" }'
)
EXPRESSION = text.then(expression_of, write=lambda it, _: it.text)


def rising(span: tuple[float, float]) -> tuple[float, float]:
    if span[0] > span[1]:
        raise ValueError(f"found {span[0]:.10g} above {span[1]:.10g}, expected the least metre first")
    return span


SPAN = numbers(2, amount(None)).then(rising)


@dataclass(frozen=True)
class NullRule:
    """What is null in a column, besides the codes of the table, and what a null means; None: as `[table] empty` says."""

    values: tuple[str, ...] = key(NULLS, "null codes", ())
    meaning: Optional[str] = key(choice(*MEANINGS), "what they mean", None, name="as")


@dataclass(frozen=True)
class Nulls:
    """The null codes of the table and of its columns, as texts."""

    values: tuple[str, ...] = new(NULLS, 'list of codes for absent data, such as `[-99, "-"]`', (), name="null_values")
    by_column: Mapping[str, NullRule] = new(
        by_name(either(choice(*MEANINGS), NullRule, "meaning")),
        'the same by column: `{ cu_pct = "zero", density = { values = [-1], as = "missing" } }`',
        {},
        otherwise="as `empty`",
        name="nulls",
    )

    def of(self, column: str) -> tuple[str, ...]:
        rule = self.by_column.get(column)
        return self.values if rule is None else (*self.values, *rule.values)

    def meaning(self, column: str, otherwise: str) -> str:
        rule = self.by_column.get(column)
        return otherwise if rule is None or rule.meaning is None else rule.meaning


@dataclass(frozen=True)
class Share:
    """A column with the share of a block, in percent or as a fraction."""

    column: str = key(text, "column")
    unit: str = key(choice(*UNITS), "unit of the column", PERCENT)

    @property
    def whole(self) -> int:
        return UNITS[self.unit]


@dataclass(frozen=True)
class Box:
    """The box within which centroids lie; None: no limit along an axis."""

    x: Optional[tuple[float, float]] = key(SPAN, "from and to", None)
    y: Optional[tuple[float, float]] = key(SPAN, "from and to", None)
    z: Optional[tuple[float, float]] = key(SPAN, "from and to", None)


@dataclass(frozen=True)
class RowRules:
    nulls: Nulls = part(Nulls)
    mapped: Mapping[str, Mapping[str, str]] = new(
        by_name(NEW_NAMES), 'names in place of codes, by column; `"*"` stands for all other codes', {}, name="map"
    )
    calculated: Mapping[str, Expression] = new(
        by_name(EXPRESSION), "further columns by [expressions](#expressions)", {}, name="calculate"
    )
    filter: Optional[Expression] = new(
        EXPRESSION, "expression; rows for which it is false are left out", None, otherwise="all rows"
    )
    clip: Mapping[str, tuple[float, float]] = new(
        inline(Box).then(
            lambda it: {axis: span for axis, span in vars(it).items() if span}, write=lambda it, _: dict(it)
        ),
        "`{ x = [4000, 5000], y = [..], z = [..] }`; rows with a centroid beyond are left out",
        {},
        "m",
        otherwise="all rows",
    )
    cell_size: Optional[tuple[str, str, str]] = new(
        numbers(3, text, 'expected three columns, along x, y and z, such as ["XINC", "YINC", "ZINC"]'),
        "three columns of cell sizes along x, y and z",
        None,
        "m",
    )
    rock_percent: Optional[Share] = new(
        either(text, Share, "column"),
        'share of a block that is rock: a column in percent, or `{ column = "..", unit = "fraction" }`',
        None,
        otherwise="all",
    )
    ore_percent: Optional[Share] = new(
        either(text, Share, "column"), "share of the rock with the grades, in the same form", None, otherwise="all"
    )

    @property
    def leaves_out(self) -> bool:
        """Whether rows of the file may be no blocks."""
        by_null = any(rule.meaning == MISSING for rule in self.nulls.by_column.values())
        return bool(self.filter or self.clip or by_null)

    @property
    def amounts(self) -> tuple[str, ...]:
        """The columns of numbers that these rules name."""
        shares = [share.column for share in (self.rock_percent, self.ore_percent) if share]
        return (*(self.cell_size or ()), *shares)

    @property
    def used(self) -> tuple[str, ...]:
        """The columns that expressions name and that are not calculated before."""
        found: list[str] = []
        known: set[str] = set()
        for name, expression in self.calculated.items():
            found += [column for column in expression.columns if column not in known]
            known.add(name)
        found += [column for column in (self.filter.columns if self.filter else ()) if column not in known]
        return tuple(dict.fromkeys(found))


@dataclass(frozen=True)
class SurveyFile:
    """A file of heights or of areas on the map; of several layers those whose names match, in which * stands for any letters."""

    path: Path = key(keys.file, "survey file", name="file")
    layers: tuple[str, ...] = key(keys.codes, "its layers", (), otherwise="its only layer", name="layer")
    height: Optional[str] = key(text, "field of a map with the heights of points and lines that have none", None)

    @property
    def parts(self) -> tuple[Path, ...]:
        """The files that it is read from: a shapefile has its fields in one of their own."""
        fields = self.path.with_suffix(".dbf")
        return (self.path, fields) if self.height and fields.is_file() else (self.path,)

    @property
    def state(self) -> tuple[tuple[int, int], ...]:
        """By what it is seen to be another than it was: when each part was written, in nanoseconds, and its size."""
        found = [path.stat() for path in self.parts if path.is_file()]
        return tuple((it.st_mtime_ns, it.st_size) for it in found)


@dataclass(frozen=True)
class AreaFile(SurveyFile):
    """A file of areas, which has no heights."""

    height: Optional[str] = None


def survey(record: type[SurveyFile] = SurveyFile) -> ValueKind:
    """`KEY = "file"`, or `{ file, layer, height }`."""
    known = either(keys.file, record, "path")

    def read(section: Section, key: str, value: Any) -> Any:
        if section.has("layer"):
            raise section.wrong("layer", f'must be in the table of its file: {key} = {{ file = "..", layer = ".." }}')
        return known.read(section, key, value)

    return ValueKind(read, known.schema, write=known.write)


def encoding_of(written: str) -> str:
    """A name that Python knows; of UTF-8 a byte-order mark is passed over."""
    try:
        known = codecs.lookup(written).name
        # Codecs such as base64 and rot13 are known too, and do not encode texts.
        "".encode(known)
    except (LookupError, ValueError) as error:
        expected = "expected one such as utf-8, cp1252 or utf-16"
        raise ValueError(f'"{cut(written)}" is not an encoding: {expected}') from error
    return "utf-8-sig" if known == "utf-8" else known


def separator(sign: str) -> str:
    """One character of ASCII that is no part of a number or a name."""
    is_one = len(sign) == 1 and sign.isascii() and (sign.isprintable() or sign == "\t")
    if not is_one or sign.isalnum() or sign in '".+-_':
        raise ValueError(f'{shown(sign)} is not a separator: expected one character, such as ",", ";", "|" or "\\t"')
    return sign


@dataclass(frozen=True)
class MissingRock(Coded):
    """What fills missing blocks: tonnes a block, and the codes of rock type, domain and resource class, "" if none is given."""

    tonnes: float = key(amount(), "tonnes of a block", unit="t")
    rock_type: str = key(text, "its rock type", "")
    domain: str = key(text, "its domain", "")
    resource_class: str = key(text, "its class", "", name=CLASS)


# The sides of a block along its grid's east and north, and its height, in metres.
BlockSize = tuple[float, float, float]
POINT, SIZE = numbers(3, amount(None)), numbers(3, amount(above=0))


@dataclass(frozen=True)
class Reblock:
    """The rows that make up a block: a count of blocks each way, or all that lie in blocks of a size, from a corner on, in metres. With neither
    the blocks are as large as the largest cells.

    Counts and sizes are east, north and up; the corner is x, y, z at the west, the south and the floor of some block. Size and corner are zeros
    if they are not given.
    """

    counts: Optional[tuple[int, int, int]] = None
    size: BlockSize = key(SIZE, "size of a block", unit="m", in_python=(0.0, 0.0, 0.0))
    corner: tuple[float, float, float] = key(POINT, "corner of a block", unit="m", in_python=(0.0, 0.0, 0.0))

    @property
    def of_parents(self) -> bool:
        """Whether size and corner are those of the largest cells."""
        return self.counts is None and not any(self.size)


def read_counts(section: Section, name: str, value: Any) -> Reblock:
    if value == PARENTS:
        return Reblock()
    counts = POINT.read(section, name, value)
    if any(count != int(count) or count < 1 for count in counts) or max(counts) == 1:
        expected = "whole numbers of blocks east, north and up, such as [2, 2, 1]"
        raise section.wrong(name, f'must be {expected}, a size and a corner, or "{PARENTS}"')
    east, north, up = map(int, counts)
    return Reblock((east, north, up))


COUNTS = ValueKind(read_counts, {"anyOf": [{"const": PARENTS}, array({"type": "integer", "minimum": 1}, 3, 3)]})
REBLOCK = either(COUNTS, Reblock)


def write_reblock(reblock: Reblock, folder: Path) -> Any:
    return PARENTS if reblock.of_parents else reblock.counts or REBLOCK.write(reblock, folder)


@dataclass(frozen=True, kw_only=True)
class TableColumns(Coded):
    """Where the block model is, which of its columns say what, and what is where it has no row.

    Attributes
    ----------
    separator, decimal, encoding, header_row, first_row : optional
        The format of the text; None: as it is detected.
    """

    file: Path = key(keys.file, "block model: `.csv`, `.csv.gz`, `.zip`, `.omf`, `.dm`, `.parquet`")
    x: str = key(text, "column of the centroids' x", "x", "m")
    y: str = key(text, "column of the centroids' y", "y", "m")
    z: str = key(text, "column of the centroids' z", "z", "m")
    density: Optional[str] = key(text, "column of densities, in place of `tonnes`", None, "t/m3")
    volume: Optional[str] = key(
        text, "column of volumes, times `density`", None, "m3", otherwise="the cell or the block size"
    )
    id: Optional[str] = key(text, "column of block names, kept in all results", None)
    rock_type: Optional[str] = key(text, "column of rock types", None)
    domain: Optional[str] = key(text, "column of slope domains", None)
    separator: Optional[str] = key(
        text.then(separator, schema={"type": "string", "minLength": 1, "maxLength": 1}),
        "character between fields",
        None,
        otherwise="detected",
    )
    decimal: Optional[str] = key(choice(".", ","), "character of decimals", None, otherwise="detected")
    encoding: Optional[str] = key(text.then(encoding_of), "encoding of the text", None, otherwise="detected")
    header_row: Optional[int] = new(whole(1, LAST_HEADER), "line of the column names", None, otherwise="detected")
    first_row: Optional[int] = new(
        whole(2, LAST_HEADER), "line of the first block, below `header_row`", None, otherwise="detected"
    )
    empty: str = key(
        choice(*MEANINGS), 'meaning of an empty field or null; with `"missing"` the row is no block', REFUSE
    )
    resource_class: Optional[str] = new(
        text,
        "column of resource classes, treated by [`[classes]`](#classes)",
        None,
        otherwise="none: all blocks may be ore",
        name=CLASS,
    )
    tonnes: str = key(text, "column of tonnes", "tonnes", "t", is_quiet=lambda it: bool(it.density))
    missing_blocks: Union[str, MissingRock] = key(
        either(choice(REFUSE, "air"), MissingRock),
        '`"refuse"`, `"air"`, or `{ tonnes = .., rock_type = "..", domain = "..", class = ".." }`',
        REFUSE,
    )
    reblock: Optional[Reblock] = key(
        ValueKind(REBLOCK.read, REBLOCK.schema, write=write_reblock),
        '`[2, 2, 1]` blocks east, north and up; `{ size = [..], corner = [..] }`, m; or `"parents"`, of the largest cell\'s size',
        None,
    )
    topography: Optional[SurveyFile] = new(
        survey(), 'survey file, or `{ file = "..", layer = "..", height = ".." }`', None, otherwise="whole blocks"
    )
    rules: RowRules = part(RowRules)

    @property
    def codes(self) -> list[str]:
        """The columns that are text even if they look like numbers: id, rock type, domain and resource class."""
        return [name for name in (self.id, *self.by_code.values()) if name]


@dataclass(frozen=True)
class GridRules:
    """The grid of the blocks; None: as found from the centroids."""

    size: Optional[BlockSize] = key(
        SIZE, "of a block along the axes of the grid", None, "m", otherwise="from the centroids"
    )
    tolerance: float = key(amount(), "largest distance of a centroid from the grid", 0.01, "m")
    azimuth: Optional[float] = new(
        amount(-360, 360), "bearing of the grid's north, clockwise", None, "degrees", otherwise="from the centroids"
    )

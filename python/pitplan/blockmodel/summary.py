"""The overview of a table of blocks: extents, tonnes, grades and their units, and warnings about valid but unlikely values."""

from __future__ import annotations

from dataclasses import dataclass
from typing import Optional, Sequence

import numpy as np

from pitplan.config.economics import GRADE_SIGNS, GRADE_UNITS, GRAMS, METAL_UNITS, Metal
from pitplan.config.project import Project
from pitplan.config.table import TableColumns
from pitplan.errors import WARNING

from .grid import Grid, metres
from .guesses import PRECIOUS
from .reader import Table

# Tonnes a cubic metre between which blocks of rock lie, cut ones among them: lighter than pumice, heavier than massive sulphide ore.
LIGHT, HEAVY = 0.1, 10.0
# By what a metal that is counted in t or g is sold otherwise.
SOLD_BY = {"t": "lb", "g": "oz"}
# Rounded prices of 2024 in US dollars, for a gram of precious metals and a tonne of others.
USUAL_PRICES = {
    "gold": 75, "silver": 0.9, "platinum": 30, "palladium": 31, "copper": 9000, "molybdenum": 45000, "nickel": 17000, "zinc": 2700,
    "lead": 2100, "cobalt": 26000, "iron": 130, "tin": 30000, "tungsten": 40000, "lithium": 60000, "uranium": 170000,
}  # fmt: skip
# A price is doubtful if it is this many times the usual one, or less, and within NEAR times in another unit.
FAR, NEAR = 10.0, 3.0


def of_tonnes(tonnes: np.ndarray, grid: Grid) -> list[str]:
    """Warns if the tonnes of most blocks do not fit their volume."""
    volume, some = float(np.prod(grid.size)), tonnes[tonnes > 0]
    if not len(some):
        return []
    light, heavy = np.quantile(some, 0.9) / volume, np.median(some) / volume
    if LIGHT <= light and heavy <= HEAVY:
        return []
    size = " x ".join(f"{side:.10g}" for side in grid.size)
    found = light if light < LIGHT else heavy
    return [
        f"{WARNING}blocks of {size} m have a density of {found:.3g} t/m3, outside {LIGHT:g} to {HEAVY:g}: check that the tonnes "
        "are of whole blocks, in tonnes, and the block size"
    ]


def of_prices(pays: np.ndarray, metals: Sequence[Metal], grades: Sequence[np.ndarray], currency: str) -> list[str]:
    """Warns if processing pays in no block with metal, or if a price in USD is usual in another unit. `pays` says of each block whether it pays for
    its processing; `grades` has of each metal the grade of each block."""
    with_metal = int(np.any([grade > 0 for grade in grades], axis=0).sum())
    if not with_metal:
        return []
    value = sum(float(metal.by_quantity(metal.price)) * mean_content(metal, it) for metal, it in zip(metals, grades))
    paying = int(np.count_nonzero(pays))
    described = f"the metal in a tonne of mean grade is worth {value:,.4g} {currency}, and {paying:,} of {with_metal:,} blocks with metal pay"
    if paying:
        doubts = [doubt for metal in metals if currency == "USD" and (doubt := of_price(metal))]
        return [f"{WARNING}{doubt}; {described}" for doubt in doubts]
    listed = ", ".join(priced(metal, currency) for metal in metals)
    natural = dict.fromkeys(metal.quantity for metal in metals if metal.price_per is None)
    hints = [f'set price_per = "{SOLD_BY[unit]}" if a price is per {SOLD_BY[unit]}' for unit in natural]
    return [
        f"{WARNING}no block pays for its processing, {listed}{': ' if hints else ''}{', '.join(hints)}; {described}"
    ]


def priced(metal: Metal, currency: str) -> str:
    return f"{metal.name} at {metal.price.normalize():f} {currency} per {metal.price_unit}"


def mean_content(metal: Metal, grades: np.ndarray) -> float:
    """Returns the quantity of metal in a tonne with the mean of the grades above 0."""
    some = grades[grades > 0]
    return float(some.mean()) * float(GRADE_UNITS[metal.unit]) if len(some) else 0.0


def of_price(metal: Metal) -> str:
    """Returns a doubt if the price is far from usual, and near it if it were per another unit; "" otherwise."""
    usual = USUAL_PRICES.get(metal.name)
    if usual is None or not metal.price:
        return ""
    for_a_gram = usual if metal.name in PRECIOUS else usual * 1e-6
    ratio = float(metal.price / GRAMS[metal.price_unit]) / for_a_gram
    if 1 / FAR < ratio < FAR:
        return ""
    units = [unit for unit in GRAMS if 1 / NEAR < float(metal.price / GRAMS[unit]) / for_a_gram < NEAR]
    said = f"{priced(metal, 'USD')} is {ratio:.2g} times its usual price"
    return f'{said}: set price_per = "{units[0]}" if it is per {units[0]}' if units else ""


def of_codes(name: str, values: np.ndarray) -> list[str]:
    """Warns about negative values, such as a code for a missing value."""
    below = values[values < 0]
    if not len(below):
        return []
    codes, counts = np.unique(below, return_counts=True)
    most = int(counts.argmax())
    said = f"{len(below):,} values are negative, most often {codes[most]:g} ({counts[most]:,})"
    return [f"{WARNING}{name}: {said}: is that the code of a missing value?"]


OPTIONAL = ("id", "rock_type", "domain")


@dataclass(frozen=True)
class AxisSummary:
    """One axis of a model: the column of centres, the least and the greatest of them, and the blocks' size, all in metres; the size is
    None where blocks have several."""

    name: str
    column: str
    least: float
    greatest: float
    size: Optional[float]

    @property
    def line(self) -> str:
        """The extent from edge to edge; of centres where the size is not known."""
        if self.size is None:
            return f"{self.name}: centres in {self.column} from {metres(self.least)} to {metres(self.greatest)} m"
        count, half = round((self.greatest - self.least) / self.size) + 1, self.size / 2
        extent = f"from {metres(self.least - half)} to {metres(self.greatest + half)} m"
        cells = "1 cell" if count == 1 else f"{count:,} cells"
        return f"{self.name}: {extent}, {cells} of {metres(self.size)} m, centres in {self.column}"


@dataclass(frozen=True)
class Grade:
    """The grades of a metal: where they stand, their unit as a project calls it, the mean by tonnes over all blocks, and the greatest."""

    metal: str
    column: str
    unit: str
    mean: float
    greatest: float

    @property
    def line(self) -> str:
        sign, quantity = GRADE_SIGNS[self.unit], METAL_UNITS[self.unit]
        amounts = f"mean {self.mean:.4g}, maximum {self.greatest:.4g} {sign}"
        return f"{self.metal}: {self.column}, {amounts}, priced per {'gram' if quantity == 'g' else 'tonne'}"

    @property
    def doubts(self) -> list[str]:
        """A warning where a block would hold more metal than it weighs."""
        whole = {"gram_per_tonne": 1e6}.get(self.unit, 1 / float(GRADE_UNITS[self.unit]))
        if self.greatest <= whole:
            return []
        return [
            f"WARNING: {self.metal}: {self.greatest:.4g} {GRADE_SIGNS[self.unit]} is more metal than the block weighs: check the unit"
        ]


def grade_of(metal: Metal, grades: np.ndarray, tonnes: np.ndarray) -> Grade:
    return Grade(metal.name, metal.column, metal.unit, mean_of(grades, tonnes), float(grades.max()))


def mean_of(grades: np.ndarray, tonnes: np.ndarray) -> float:
    """Returns the mean weighted by tonnes; 0 without tonnes."""
    total = float(tonnes.sum())
    return float((grades * tonnes).sum()) / total if total > 0 else 0.0


def of_table(table: Table, grid: Grid, project: Project) -> list[str]:
    """Returns the lines on a checked table, before cells without rows are filled."""
    tonnes = table.frame[project.table.tonnes].to_numpy()
    grades = [grade_of(metal, table.frame[metal.column].to_numpy(), tonnes) for metal in project.metals]
    return [*of_ground(table, grid, project), *of_grades(grades)]


def of_ground(table: Table, grid: Grid, project: Project) -> list[str]:
    """Returns the lines that no grade alters: blocks, tonnes, extents and columns. The notes of the reader are among those of the plan."""
    columns, tonnes = project.table, table.frame[project.table.tonnes].to_numpy()
    lines = [
        f"{table.source}: {len(table.frame):,} blocks in {grid.count:,} cells, {tonnes.sum():,.0f} t, tonnes from {rock_of(columns)}"
    ]
    lines += [turned_line(grid, project)] if grid.azimuth else []
    lines += [axis.line for axis in axes_of(grid, columns)]
    lines += not_used(table.unused)
    missing = [name for name in OPTIONAL if getattr(columns, name) is None]
    lines += [f"no column in the project: {', '.join(missing)}"] if missing else []
    return [*lines, *of_nulls(table)]


def of_nulls(table: Table) -> list[str]:
    """Returns a warning that counts each row once that has a null which is read as 0, however many of its columns are null."""
    if not table.filled:
        return []
    count = int(np.count_nonzero(np.any([*table.zeros.values()], axis=0)))
    columns = ", ".join(name for name, null in table.zeros.items() if null.any())
    return [f"WARNING: {count:,} rows are null or empty in {columns}, and are read as 0 there"]


def of_grades(grades: Sequence[Grade]) -> list[str]:
    """Returns a line for each metal, and a warning if its unit cannot be right."""
    return [grade.line for grade in grades] + [doubt for grade in grades for doubt in grade.doubts]


def turned_line(grid: Grid, project: Project) -> str:
    """Returns a line on a rotated grid: its azimuth, where the azimuth comes from, and the origin of its axes."""
    told = "found from the centroids" if project.grid.azimuth is None else "set by [grid] azimuth"
    x, y = (metres(round(place, 2)) for place in (grid.frame.x, grid.frame.y))
    return f"grid north has azimuth {grid.azimuth:.10g}, {told}; figures use the axes of the grid, from its corner at {x}, {y}"


def axes_of(grid: Grid, columns: TableColumns) -> list[AxisSummary]:
    """Returns the axes x, y and z of a grid; a rotated grid has axes of its own."""
    west, east, south, north, floor, top = grid.extent()
    edges, size = ((west, east), (south, north), (floor, top)), grid.size
    axes, names = ("x", "y", "z"), (columns.x, columns.y, columns.z)
    if grid.azimuth:
        flat = f"{columns.x} and {columns.y}"
        axes, names = (*grid.frame.names, "z"), (flat, flat, columns.z)
    return [
        AxisSummary(axis, names[k], edges[k][0] + size[k] / 2, edges[k][1] - size[k] / 2, size[k])
        for k, axis in enumerate(axes)
    ]


def rock_of(columns: TableColumns) -> str:
    """Returns the column of tonnes, or the columns from which tonnes follow, with units."""
    if columns.density is None:
        return f"column {columns.tonnes}"
    volume = f"{columns.volume} (m3)" if columns.volume else "the block size"
    volume = f"the volume of {', '.join(columns.rules.cell_size)}" if columns.rules.cell_size else volume
    return f"{columns.density} (t/m3) times {volume}"


def not_used(names: Sequence[str]) -> list[str]:
    """Returns a line that names the table's unused columns; none if all are used."""
    return [f"unused columns: {', '.join(names)}"] if names else []

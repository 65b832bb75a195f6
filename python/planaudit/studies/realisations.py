"""Reads a folder of scenarios, and matches it with its project, table and realisations."""

from __future__ import annotations

import fnmatch
from dataclasses import dataclass, replace
from decimal import Decimal
from functools import cached_property
from itertools import chain, product, repeat
from pathlib import Path
from typing import Any, Iterator, Optional

import numpy as np
import pandas as pd

from planaudit.errors import AuditError, demanded
from planaudit.inputs import block_table
from planaudit.inputs.kept_arrays import read_arrays
from planaudit.inputs.matching import beside, read_blocks, rows_of
from planaudit.inputs.project import Project, Section
from planaudit.inputs.project_file import load
from planaudit.inputs.reblocking import mean_grades
from planaudit.inputs.record import read_json
from planaudit.inputs.rotated_grid import nearest_cells
from planaudit.inputs.tables import TABLES

PROBABILITY, SCENARIOS, QUANTILES = "probability.csv", "scenarios.csv", "quantiles.csv"
# Instead of probability.csv, if blocks are scheduled.
ONE = "common_schedule.csv"


@dataclass(frozen=True)
class Model:
    """A realisation: for each metal a column of the table, otherwise a table of its own."""

    name: str
    columns: dict[str, str]
    file: Optional[Path] = None


@dataclass(frozen=True)
class Scenario:
    """A realisation at a price deck, by its number from 1, with the file of its result and the prices of all metals that a deck names."""

    number: int
    model: Model
    prices: dict[str, Decimal]
    file: Path

    @property
    def label(self) -> str:
        said = ", ".join(f"{metal} {price}" for metal, price in self.prices.items())
        return f"scenario {self.number}, {self.model.name}" + (f" at {said}" if said else "")


@dataclass(frozen=True)
class Told:
    """The result of a scenario.

    places  the place of each block's least revenue factor in the list, from 1; 0: in no pit
    table   one row per revenue factor, with amounts and value of its pit
    """

    places: np.ndarray
    table: pd.DataFrame


@dataclass(frozen=True)
class Simulated:
    """A folder as read.

    tables  the folder of the tables of all scenarios
    record  scenarios.json
    table   the table, with the columns of realisations, if they are columns
    rows    one row per block without grades: those of the table, followed by filled missing blocks
    known   how many of these are those of the table
    written the same rows of probability.csv, or with schedules of common_schedule.csv
    parts   with reblocking the rows of the table without grades; otherwise None
    """

    folder: Path
    tables: Path
    project: Project
    record: dict[str, Any]
    table: pd.DataFrame
    rows: pd.DataFrame
    known: int
    written: pd.DataFrame
    parts: Optional[pd.DataFrame] = None

    @property
    def factors(self) -> tuple[float, ...]:
        return self.project.shells["revenue_factors"]

    @cached_property
    def scenarios(self) -> list[Scenario]:
        """Returns each realisation at each price deck, by realisation; one that the folder does not list has no result."""
        keys = [entry["key"] for entry in self.record["scenarios"]]
        pairs = product(models_of(self.project), prices_of(self.project))
        files = (self.folder / "done" / f"{key}.npz" for key in chain(keys, repeat("")))
        return [Scenario(number, *pair, file) for number, (pair, file) in enumerate(zip(pairs, files), 1)]

    @property
    def answered(self) -> list[Scenario]:
        return [scenario for scenario in self.scenarios if scenario.file.is_file()]

    def grades(self, model: Model) -> np.ndarray:
        """Returns the grades of a realisation, shape (blocks, metals); 0 in filled missing blocks.

        Raises AuditError if its blocks are not those of the table.
        """
        read, found = self.grades_of_rows(model), np.zeros((len(self.rows), len(self.project.metals)))
        if self.parts is None:
            found[: len(read)] = read
        else:
            blocks, grid = self.rows.iloc[: self.known], self.record["grid"]
            found[: self.known] = mean_grades(self.parts, blocks, read, self.project.table, grid)
        return found

    def solved_grades(self, scenario: Scenario) -> np.ndarray:
        """Returns the grades with which a scenario was solved, from the folder. Raises AuditError if they are of other blocks."""
        file = self.folder / "realisations" / f"{self.record['scenarios'][scenario.number - 1]['grades']}.npy"
        try:
            found: np.ndarray = np.load(file, allow_pickle=False)
        except ValueError as error:
            raise AuditError(f"{file}: cannot be read as grades: run pitplan scenarios again: {error}") from error
        if found.shape != (len(self.rows), len(self.project.metals)):
            raise AuditError(f"{file}: has grades of {len(found):,} blocks, and the table {len(self.rows):,}")
        return found

    def grades_of_rows(self, model: Model) -> np.ndarray:
        """Returns the grades of a realisation for the rows that it may name, shape (rows, metals)."""
        metals = self.project.metals
        if model.file is None:
            return self.table[[model.columns.get(metal["name"], metal["column"]) for metal in metals]].to_numpy()
        frame, found = self.read_model(model.file), np.zeros((len(self.named), len(metals)))
        at = self.places_of(frame, model.file)
        frame, at = frame[at >= 0], at[at >= 0]
        for number, metal in enumerate(metals):
            zero = self.project.table["rules"].meaning(metal["column"], self.project.table["empty"]) == "zero"
            found[at, number] = block_table.without_gaps(frame[metal["column"]], model.file, zero)
        return found

    @property
    def named(self) -> pd.DataFrame:
        """The rows that a realisation may name: with reblocking those of the table before it."""
        return self.rows if self.parts is None else self.parts

    def read_model(self, file: Path) -> pd.DataFrame:
        columns = self.project.table
        codes = [columns["id"]] if columns["id"] else []
        wanted = [*codes, columns["x"], columns["y"], columns["z"], *(metal["column"] for metal in self.project.metals)]
        there = block_table.header(file, columns)
        return block_table.read_columns(file, columns, codes, [name for name in wanted if name in there])

    def places_of(self, frame: pd.DataFrame, file: Path) -> np.ndarray:
        """Returns the rows of the blocks of a realisation's table, by ids if it has them, otherwise by centroids."""
        columns = self.project.table
        if columns["id"] and columns["id"] in frame:
            numbers = {name: row for row, name in enumerate(self.named[columns["id"]])}
            ids = [str(name).strip() for name in frame[columns["id"]]]
            at = np.array([numbers.get(name, -1) for name in ids], dtype=np.int64)
        else:
            at = self.at_centres(frame[[columns["x"], columns["y"], columns["z"]]].to_numpy(dtype=np.float64))
        if (at < 0).any() and not self.project.table["rules"].leaves_out:
            raise AuditError(
                f"{file}: {np.count_nonzero(at < 0):,} of its blocks are not in the table: has it changed since?"
            )
        return at

    def at_centres(self, centres: np.ndarray) -> np.ndarray:
        """Returns the rows with these centroids; -1 without such a row."""
        columns, grid = self.project.table, self.record["grid"]
        own = self.named[[columns["x"], columns["y"], columns["z"]]].to_numpy()
        if self.parts is None:
            row_of = np.full(int(np.prod(grid["shape"])), -1, dtype=np.int64)
            row_of[nearest_cells(own, grid)] = np.arange(len(own))
            return row_of[nearest_cells(centres, grid)]
        # Here, since only reblocked tables need it.
        from scipy.spatial import KDTree

        distance, at = KDTree(own).query(centres)
        return np.where(distance <= 2 * self.project.grid["tolerance"], at, -1)

    def answers(self) -> Iterator[tuple[Scenario, Told]]:
        """Yields scenarios with their results. Raises AuditError if one cannot be read."""
        for scenario in self.answered:
            yield scenario, self.answer(scenario)

    def answer(self, scenario: Scenario) -> Told:
        try:
            said = read_arrays(scenario.file, scenario.file.stem)
            table = pd.DataFrame(
                said["table"], columns=said["columns"], index=pd.Index(self.factors, name="revenue_factor")
            )
            told = Told(
                said["places"].astype(np.int64), table.assign(value_at_revenue_factor=said["value_at_revenue_factor"])
            )
        except (ValueError, KeyError, TypeError) as error:
            raise AuditError(
                f"{scenario.file}: is not a result of {scenario.label}: {error}: run pitplan scenarios again"
            ) from error
        if len(told.places) != len(self.rows):
            raise AuditError(
                f"{scenario.file}: found {len(told.places):,} blocks, expected the {len(self.rows):,} of the table"
            )
        return told


def read(folder: Path, written: Path) -> Simulated:
    """Reads the results of a folder, for the project that was run, and their tables in `written`.

    Raises AuditError if nothing is gathered or the table has changed, and KeyError if a part of the record is missing.
    """
    try:
        record = read_json(folder / "scenarios.json", "pitplan scenarios")
        project = load(folder / "project.toml", (folder / record["project"]).parent.joinpath)
        source = ONE if record.get("by") == "block" else PROBABILITY
        told = read_blocks(written / TABLES / source, project)
    except OSError as error:
        raise AuditError(f"{error.filename}: cannot be read: run pitplan scenarios or gather first") from error
    except ValueError as error:
        raise AuditError(f"{folder}: not an output folder of pitplan scenarios: {error}") from error
    table = read_table(project)
    bare = project.without_grades
    named = [name for name in (*bare.columns, project.table["tonnes"]) if name in table]
    frame, parts = table[list(dict.fromkeys(named))], None
    if project.table["reblock"]:
        frame, parts, _ = rows_of(bare, told, record["grid"], frame, source)
    rows, known, order = beside(frame, told, project, record["grid"], source)
    told = told.iloc[order].reset_index(drop=True)
    return Simulated(folder, written, project, record, table, rows, known, told, parts)


def asked(project: Project) -> Section:
    return demanded(project.scenarios, "[scenarios]")


def models_of(project: Project) -> list[Model]:
    """Returns the realisations of the project: files by name, or columns in their order."""
    scenarios, table = asked(project), project.table
    if scenarios["realisations"] is not None:
        files = [path for path in scenarios["realisations"].iterdir() if path.name.endswith((".csv", ".csv.gz"))]
        return [Model(path.name.split(".")[0], {}, path) for path in sorted(files)]
    header = block_table.header(table["file"], table)
    named = {
        metal: [it for name in names for it in matching(name, header)] for metal, names in scenarios["columns"].items()
    }
    return [Model(columns[0], dict(zip(named, columns))) for columns in zip(*named.values())]


def prices_of(project: Project) -> list[dict[str, Decimal]]:
    """Returns the price decks, each with the project's price for metals that only another deck names."""
    sets = asked(project)["prices"]
    named = {
        metal["name"]: metal["price"] for metal in project.metals if any(metal["name"] in prices for prices in sets)
    }
    return [{**named, **prices} for prices in sets]


def matching(name: str, header: list[str]) -> list[str]:
    return fnmatch.filter(header, name) if "*" in name else [name]


def read_table(project: Project) -> pd.DataFrame:
    """Reads the table with every column of grades of a realisation."""
    if asked(project)["realisations"] is not None:
        return block_table.read(project.without_grades)
    metals = {metal["name"]: metal for metal in project.metals}
    wanted = {(name, column) for model in models_of(project) for name, column in model.columns.items()}
    wanted |= {(name, metal["column"]) for name, metal in metals.items() if name not in asked(project)["columns"]}
    read = {column for _, column in wanted}
    simulated = tuple(it for name in asked(project)["columns"] if (it := metals[name]["column"]) not in read)
    found = tuple({**metals[name], "column": column} for name, column in sorted(wanted))
    return block_table.read(replace(project, metals=found, elsewhere=simulated))

"""Reads the results of a folder, and matches them with the project and its table."""

from __future__ import annotations

from dataclasses import dataclass, field, replace
from functools import cached_property
from pathlib import Path
from typing import Any, Optional

import numpy as np
import pandas as pd

from planaudit.errors import AuditError
from planaudit.inputs import block_table
from planaudit.inputs.codes import Codes, numbered
from planaudit.inputs.matching import (
    BIN,
    FREE,
    MINED,
    PROCESS,
    PUSHBACK,
    TableRows,
    beside,
    dump_shares_of,
    is_as_written,
    own_columns,
    own_name,
    read_blocks,
    rows_of,
    said_of,
    shares_of,
    stockpile_shares_of,
)
from planaudit.inputs.project import GRADE_UNITS, Project, Section
from planaudit.inputs.record import PLAN, read_plan
from planaudit.inputs.rotated_grid import centroids, steps_of
from planaudit.inputs.run import Run
from planaudit.inputs.tables import YEAR, demand_factors, read_table
from planaudit.money.feed import by_code, recovered


def read_shells(
    folder: Path, record: dict[str, Any], project: Project, written: pd.DataFrame, table: TableRows
) -> Answer:
    """Reads the results of `pitplan shells`, `pitplan pushbacks` or `pitplan schedule`."""
    shells = read_table(folder / "tables/shells.csv")
    demand_factors(shells, record["shells"]["revenue_factors"], "shells.csv")
    shells, years = (
        shells.set_index("revenue_factor"),
        read_table(folder / "tables/years.csv", ["case"]) if (folder / "tables/years.csv").exists() else None,
    )
    frame, parts, beyond = table
    rows, known, order = beside(frame, written, project, record["grid"], "blocks.csv")
    pushbacks = read_table(folder / "tables/pushbacks.csv").set_index("pushback") if "pushbacks" in record else None
    schedule = read_table(folder / "tables/schedule.csv", ["method"]) if "schedule" in record else None
    is_by_block = "by_block" in record
    shares = shares_of(project) if is_by_block or schedule is not None else []
    shares += [*dump_shares_of(project), *stockpile_shares_of(project)] if is_by_block else []
    more = [
        *([PUSHBACK] if pushbacks is not None else []),
        *([YEAR] if schedule is not None or is_by_block else []),
        *([BIN, MINED] if schedule is not None else []),
        *shares,
    ]
    rows_of_said = None if is_as_written(order, written) else order
    said = block_table.columns_of(written, [*said_of(project), *more], rows_of_said)
    factors = tuple(record["shells"]["revenue_factors"])
    found = {"pushbacks": pushbacks, "schedule": schedule, "parts": parts, "beyond": beyond, "is_by_block": is_by_block}
    found["own"] = own_columns(written, rows, order)
    return Answer(folder, project, rows, known, said, shells, years, record, factors, **found)


def read_pits(
    folder: Path, record: dict[str, Any], project: Project, written: pd.DataFrame, table: TableRows
) -> Answer:
    """Reads the results of `pitplan pit`: the pit with constraints and, in `free`, the one without."""
    pits = read_table(folder / "tables/pits.csv", ["fixed_blocks"])
    demand_factors(pits, [record["revenue_factors"][-1]] * 2, "pits.csv")
    kept, free = (pits[pits["fixed_blocks"] == name].set_index("revenue_factor") for name in ("kept", "free"))
    if len(kept) != len(free):
        raise AuditError("pits.csv: has not a row that keeps to the fixed blocks and one that is free")
    frame, parts, beyond = table
    rows, known, order = beside(frame, written, project, record["grid"], "blocks.csv")
    said = block_table.columns_of(written, [*said_of(project), *FREE], order)
    other = said.assign(**{name: said[f"free_{name}"] for name in ("revenue_factor", "process_revenue_factor")})
    factors = tuple(record["revenue_factors"])
    alone = Answer(folder, replace(project, constraints=None), rows, known, other, free, None, record, factors)
    own = own_columns(written, rows, order)
    return Answer(
        folder, project, rows, known, said, kept, None, record, factors, alone, parts=parts, beyond=beyond, own=own
    )


# The columns of reclaims.csv with text.
TEXTS = ("source", "destination")
# Instead of a revenue factor: a cell that is never mined, and one without material.
UNMINED, NOTHING = np.inf, 0.0


@dataclass(frozen=True)
class Answer:
    """The results of a folder.

    Attributes
    ----------
    folder : Path
    project : Project
    rows : DataFrame
        One row per block: the planner's columns of the table, followed by filled missing blocks.
    known : int
        How many of the rows are those of the table.
    said : DataFrame
        The results of blocks.csv in the same rows, with pushback, year and shares if there are any.
    shells : DataFrame
        shells.csv by revenue factor; for `pitplan pit` the row of pits.csv with constraints.
    years : DataFrame, optional
        years.csv.
    record : dict
        plan.json.
    factors : tuple of float
        The revenue factors with shells.
    free : Answer, optional
        For `pitplan pit` the results without constraints.
    found : dict
        Cached intermediate results, by name.
    pushbacks, schedule : DataFrame, optional
        pushbacks.csv by pushback, and schedule.csv.
    parts : DataFrame, optional
        With reblocking the rows of the table; `rows` are then the blocks.
    beyond : DataFrame, optional
        The rows of the table outside the grid, if some were removed.
    is_by_block : bool
        Whether blocks are scheduled.
    own : DataFrame
        The planner's columns of blocks.csv in these rows, by their names in the table.
    """

    folder: Path
    project: Project
    rows: pd.DataFrame
    known: int
    said: pd.DataFrame
    shells: pd.DataFrame
    years: pd.DataFrame | None
    record: dict[str, Any]
    factors: tuple[float, ...]
    free: Optional[Answer] = None
    found: dict[str, Any] = field(default_factory=dict)
    pushbacks: Optional[pd.DataFrame] = None
    schedule: Optional[pd.DataFrame] = None
    parts: Optional[pd.DataFrame] = None
    beyond: Optional[pd.DataFrame] = None
    is_by_block: bool = False
    own: pd.DataFrame = field(default_factory=pd.DataFrame)

    def of_same_blocks(self, said: pd.DataFrame, **changes: Any) -> Answer:
        """Returns other results of the same rows, in whose cells the blocks stay."""
        found = replace(self, said=said, **changes)
        found.__dict__["cells"] = self.cells
        return found

    @property
    def shape(self) -> tuple[int, int, int]:
        levels, rows, columns = self.record["grid"]["shape"]
        return levels, rows, columns

    @property
    def size(self) -> tuple[float, float, float]:
        """Block size east, north and up, metres."""
        east, north, up = self.record["grid"]["size"]
        return east, north, up

    @cached_property
    def tonnes(self) -> np.ndarray:
        return self.rows[self.project.table["tonnes"]].to_numpy()

    @property
    def azimuth(self) -> float:
        """Azimuth of the grid's north, degrees clockwise."""
        return float(self.record["grid"].get("azimuth", 0.0))

    @cached_property
    def elevations(self) -> np.ndarray:
        """Elevation of the centroids of each level, from the top, metres."""
        return self.record["grid"]["origin"][2] - np.arange(self.shape[0]) * self.size[2]

    @cached_property
    def toes(self) -> np.ndarray:
        """Elevation of the toe of each bench, from the top, metres: by it tables name the bench."""
        return self.elevations - self.size[2] / 2

    @cached_property
    def codes(self) -> Codes:
        """The numbers of rock types and domains, as far as the table has them."""
        columns = self.project.table["rock_type"], self.project.table["domain"]
        return {name: numbered(self.rows[name]) for name in columns if name}

    @cached_property
    def undiluted(self) -> np.ndarray:
        """In-situ tonnes of each block that reach the mill if it is processed, without dilution."""
        return self.tonnes * by_code(
            self.project.economics["mining_recovery"], self.rows, self.project.table, self.codes
        )

    @cached_property
    def feed(self) -> np.ndarray:
        """Mill feed of each block if it is processed, in tonnes."""
        return self.undiluted * (
            1 + by_code(self.project.economics["dilution"], self.rows, self.project.table, self.codes)
        )

    @cached_property
    def quantities(self) -> dict[str, np.ndarray]:
        """Recovered metal of each block if it is processed, by metal, in tonnes or grams."""
        found = {}
        for number, metal in enumerate(self.project.metals):
            grades = [recovered(way.metals[number], self.rows, way, self.codes) for way in self.project.by_process]
            found[metal["name"]] = self.undiluted * np.choose(self.process, grades) * float(GRADE_UNITS[metal["unit"]])
        return found

    @cached_property
    def process(self) -> np.ndarray:
        """The number of each block's process at the base price, by blocks.csv; 0 with one process, or for waste."""
        names = [process["name"] for process in self.project.processes]
        if not names:
            return np.zeros(len(self.rows), dtype=np.int64)
        return self.said[PROCESS].map({name: k for k, name in enumerate(names)}).fillna(0).to_numpy(dtype=np.int64)

    @cached_property
    def feeds(self) -> dict[str, np.ndarray]:
        """Mill feed of each of several processes, by the name of the amount."""
        names = [process["name"] for process in self.project.processes]
        return {
            f"feed_tonnes_{name}": np.where(self.ore & (self.process == k), self.feed, 0.0)
            for k, name in enumerate(names)
        }

    @property
    def amounts_of_ways(self) -> list[tuple[str, str]]:
        """The columns of revenue and processing cost of each process."""
        names = [process["name"] for process in self.project.processes]
        return [(f"revenue_{name}", f"processing_cost_{name}") for name in names] or [("revenue", "processing_cost")]

    @cached_property
    def whole(self) -> dict[str, np.ndarray]:
        """A cache of the amounts of `said` as whole numbers, by name."""
        return {}

    @cached_property
    def ore(self) -> np.ndarray:
        """Whether each block is ore at the base price once it is mined."""
        return (self.said["revenue"] > self.said["processing_cost"]).to_numpy()

    @cached_property
    def worths(self) -> np.ndarray:
        """Value of each block at the base price once it is mined, in the currency."""
        gain = (self.said["revenue"] - self.said["processing_cost"]).to_numpy()
        return np.where(self.ore, gain, 0.0) - self.said["mining_cost"].to_numpy()

    @cached_property
    def earned(self) -> np.ndarray:
        """Block values less `mining_cost_added` of their pushback."""
        rules = self.project.pushbacks
        if PUSHBACK not in self.said or rules is None or not rules["mining_cost_added"]:
            return self.worths
        a_tonne = np.array([0.0, *map(float, rules["mining_cost_added"])])
        return self.worths - a_tonne[np.clip(self.said[PUSHBACK].to_numpy(), 0, len(a_tonne) - 1)] * self.tonnes

    @cached_property
    def mined(self) -> tuple[np.ndarray, np.ndarray]:
        """The rows of the blocks in any shell, and their least revenue factor."""
        first = self.said["revenue_factor"].to_numpy()
        rows = np.flatnonzero(first > 0)
        return rows, first[rows]

    @cached_property
    def cells(self) -> tuple[np.ndarray, np.ndarray, np.ndarray]:
        """Level from the top, row from the south and column from the west of each block, by its centroid."""
        east, north, up = (np.rint(axis).astype(np.int64) for axis in self.steps)
        return up, north, east

    @cached_property
    def steps(self) -> tuple[np.ndarray, np.ndarray, np.ndarray]:
        """Blocks east, north and down from the first block; whole numbers up to the tolerance."""
        columns = self.project.table
        centres = centroids(self.rows, (columns["x"], columns["y"], columns["z"]))
        east, north, up = steps_of(centres, self.record["grid"]).T
        return east, north, -up

    @cached_property
    def first_factor(self) -> np.ndarray:
        """The least revenue factor at which each cell is mined, shape (levels, rows, columns). UNDUG if it never is, or the ground is unknown;
        NOTHING without material."""
        cube = np.full(self.shape, UNMINED)
        factor = self.said["revenue_factor"].to_numpy()
        known = np.zeros(self.shape, dtype=bool)
        known[self.cells] = True
        cube[self.cells] = np.where(self.tonnes > 0, np.where(factor > 0, factor, UNMINED), NOTHING)
        highest = np.where(known.any(axis=0), known.argmax(axis=0), 0)
        air = np.arange(self.shape[0])[:, None, None] < highest
        if self.project.table["missing_blocks"] == "air":
            air = ~known
        cube[air] = NOTHING
        return cube

    @cached_property
    def entries(self) -> np.ndarray:
        """The index of each cell's entry in `[[slopes.domains]]`, shape (levels, rows, columns). A cell without a row has the domain of the next
        block below it, otherwise above."""
        column, domains = self.project.table["domain"], self.project.slopes["domains"]
        others = next((k for k, domain in enumerate(domains) if domain["domain"] is None), 0)
        by_domain = {name: k for k, domain in enumerate(domains) for name in domain["domain"] or ()}
        place, names = self.codes[column] if column else (np.zeros(len(self.rows), dtype=np.int64), [""])
        cube = np.full(self.shape, -1, dtype=np.int16)
        cube[self.cells] = np.array([by_domain.get(name, others) for name in names], dtype=np.int16)[place]
        for level in range(len(cube) - 2, -1, -1):
            np.copyto(cube[level], cube[level + 1], where=cube[level] < 0)
        for level in range(1, len(cube)):
            np.copyto(cube[level], cube[level - 1], where=cube[level] < 0)
        return np.where(cube < 0, np.int16(others), cube)

    @cached_property
    def reclaims(self) -> pd.DataFrame:
        """By block reclaims.csv: the `row` of each block, the year in which it is reclaimed, the stockpile as `source`, the process as `destination`, and the
        share; without stockpiles it has no rows.

        Raises
        ------
        AuditError
            If a row is of no block.
        """
        said = self.all_reclaims[self.all_reclaims["id"].notna()]
        numbers = np.ravel_multi_index(self.cells, self.shape)
        row = pd.Series(np.arange(len(numbers)), index=numbers).reindex(pd.to_numeric(said["id"], errors="coerce"))
        if row.isna().any():
            raise AuditError(
                f"reclaims.csv: found id {said['id'][row.isna().to_numpy()].iloc[0]}, expected those of blocks.csv"
            )
        return said.assign(row=row.to_numpy(dtype=int)).drop(columns="id").reset_index(drop=True)

    @property
    def opened(self) -> pd.DataFrame:
        """By block the rows of reclaims.csv without an id: year, stockpile as `source`, process as `destination`, and the share of what lay there at the
        start."""
        said = self.all_reclaims
        return said[said["id"].isna()].drop(columns="id").reset_index(drop=True)

    @cached_property
    def all_reclaims(self) -> pd.DataFrame:
        texts = ["id", *TEXTS]
        if not (self.is_by_block and stockpile_shares_of(self.project)):
            names = {"id": object, "year": int, **dict.fromkeys(TEXTS, object), "share": float}
            return pd.DataFrame({name: pd.Series(dtype=kind) for name, kind in names.items()})
        return read_table(self.folder / "tables/reclaims.csv", texts)

    def levels(self, domain: Section) -> int:
        """Returns the precedence benches of an entry of `[[slopes.domains]]`."""
        if domain["pattern"]:
            return 1
        if domain["offsets"]:
            return max(up for _, _, up in domain["offsets"])
        number = self.project.slopes["domains"].index(domain)
        return int(
            self.record["slope_domains"][number].get("precedence_benches", self.project.slopes["precedence_benches"])
        )

    def called(self, row: int) -> str:
        """Returns the name of a block: the planner's id, otherwise its centroid."""
        name = self.project.table["id"]
        if name:
            return f"block {self.rows[name].iloc[row]}"
        columns = self.project.table
        return "the block at " + ", ".join(
            f"{self.rows[axis].iloc[row]:.10g}" for axis in (columns["x"], columns["y"], columns["z"])
        )


def read(written: Path, folder: Optional[Path] = None, table: Optional[pd.DataFrame] = None) -> Answer:
    """Reads the results of a plan. If the project's file has changed since the run, they must fit that file.

    Parameters
    ----------
    written : Path
        The folder with the files.
    folder : Path, optional
        While the run goes on the output folder, to which the files will be moved.
    table : DataFrame, optional
        The planner's table. Default: it is read.

    Raises
    ------
    AuditError
        If the folder has no results of `pitplan shells` or `pit`, or the project or its table cannot be read.
    """
    run = Run(folder or written, written)
    try:
        record = read_plan(written)
        project = run.project(record)
        found, expected = len(record.get("slope_domains", project.slopes["domains"])), len(project.slopes["domains"])
        if found < expected:
            why = f"slope_domains: found {found}, expected {expected} as in the project"
            raise AuditError(f"{written / PLAN}: {why}: run pitplan shells again")
        own = [own_name(name) for name in (*project.columns, project.table["tonnes"])]
        results = (
            *said_of(project),
            *FREE,
            PUSHBACK,
            YEAR,
            BIN,
            MINED,
            *shares_of(project),
            *dump_shares_of(project),
            *stockpile_shares_of(project),
            *own,
        )
        blocks = read_blocks(written / "tables/blocks.csv", project, results)
        rows = rows_of(project, blocks, record["grid"], table)
        return (read_shells if "shells" in record else read_pits)(written, record, project, blocks, rows)
    except OSError as error:
        raise AuditError(f"{error.filename}: cannot be read: run pitplan shells first") from error
    except (ValueError, KeyError) as error:
        raise AuditError(f"{written}: not an output folder of pitplan shells or pitplan pit: {error}") from error

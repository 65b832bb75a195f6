"""Verifies a sensitivity: each case from the project's text with its numbers changed there, the table, and the written pits."""

from __future__ import annotations

import math
from collections.abc import Iterator
from copy import deepcopy
from dataclasses import dataclass, replace
from decimal import Decimal
from itertools import product
from pathlib import Path
from typing import Any, Optional

import numpy as np
import pandas as pd

from planaudit.blocks import constraints, missing_blocks
from planaudit.errors import AuditError, demanded
from planaudit.ground import depletion, slopes
from planaudit.inputs.answer import Answer
from planaudit.inputs.kept_arrays import read_arrays
from planaudit.inputs.matching import beside, own_columns, read_blocks, rows_of, said_of
from planaudit.inputs.project import Project
from planaudit.inputs.project_file import Places, of_data, parsed
from planaudit.inputs.record import AS_RUN, read_json
from planaudit.inputs.run import Run
from planaudit.inputs.tables import read_table
from planaudit.money import block_values as money, haulage
from planaudit.money.weighing import processed, valued
from planaudit.pits import sums, years
from planaudit.revenue_factors import factor_text
from planaudit.rules import TOLD, Rule, rule
from planaudit.studies import cases, hill

SHARES = ("-0.2", "-0.1", "0.1", "0.2")
AXES = ("parameter", "change", "second_parameter", "second_change")
HILL_AXES = ("parameter", "value", "second_parameter", "second_value")
# Keys of [metals.smelter] that are charges.
CHARGES = ("treatment_charge", "refining_charge", "freight")
# The pits whose amounts a case has: its own, that of the base case, and the skin of this.
CASE, KEPT_PIT, SKIN = "case", "kept", "skin"
KEPT = ("undiscounted_cash_flow", "npv_best", "npv_worst", "npv_specified", "years")
OF_EACH = {
    "slopes": "no block of any pit lacks a block of its slope cone, at the slope angles of the case",
    "steepness": "unless the project sets precedence_benches, no slope of a case is more than half a degree steeper than its angle",
    "constraints": "must-mine blocks are in every pit, and excluded blocks in none",
    "shells": "tonnes, grades, metal and cash flow of each pit are the sums over its blocks at the parameters of the case",
    "values": "the solver's value of each pit equals the sum over its blocks",
    "years": "NPVs follow from the benches at the capacities of the case",
    "kept": "so do those of the base-case pit at the parameters of each case",
    "skin": "the value of that pit's skin is the sum over its blocks at these parameters",
}
Data = dict[str, Any]


@dataclass(frozen=True)
class Case:
    """A case: its changes, as pairs of parameter and share; the least revenue factor of each cell; slopes; for the base case a mask of its
    skin; and of a hill of value the keys that are set, with their values."""

    changes: tuple[tuple[str, Decimal], ...]
    entry: np.ndarray
    domains: list[Data]
    skin: Optional[np.ndarray] = None
    settings: tuple[tuple[str, Decimal], ...] = ()

    @property
    def label(self) -> str:
        said = [
            *(f"{name} {share:+f}" for name, share in self.changes),
            *(f"{key} = {it}" for key, it in self.settings),
        ]
        return ", ".join(said) or "base case"


def verify(written: Path, folder: Path) -> list[Rule]:
    """Verifies tables in `written`, and the results of cases in `folder`. Raises AuditError if a file is missing, or the table has changed
    since."""
    try:
        return Told.read(written, folder).rules()
    except OSError as error:
        raise AuditError(f"{error.filename}: cannot be read: run pitplan sensitivity first") from error
    except (ValueError, KeyError) as error:
        raise AuditError(f"{written}: not an output folder of pitplan sensitivity: {error}") from error


@dataclass(frozen=True)
class Text:
    """The sections of the project that was run, and the places of the files that it names."""

    sections: Data
    place: Places

    @staticmethod
    def of(run: Run, record: Data) -> Text:
        """Returns the text of a run; for a folder without one that of the planner's file."""
        text, first = run.written / AS_RUN, run.folder / record["project"]
        return Text(parsed(text), run.place) if text.is_file() else Text(parsed(first), first.parent.joinpath)

    @property
    def data(self) -> Data:
        """Returns a copy of the sections, which the caller may change."""
        return deepcopy(self.sections)


@dataclass(frozen=True)
class Told:
    """A folder as read: the blocks as if none were mined, and with the results of blocks.csv; the rows of cases, and their records; and the text
    of the project."""

    ground: Answer
    told: Answer
    rows: pd.DataFrame
    cases: list[Case]
    factor: float
    text: Text
    hill: tuple[pd.DataFrame, list[Case]]

    @staticmethod
    def read(written: Path, folder: Path) -> "Told":
        record, run = read_json(written / "sensitivity.json", "pitplan sensitivity"), Run(folder, written)
        project, text = run.as_run(record), Text.of(run, record)
        blocks = read_blocks(written / "tables/blocks.csv", project)
        frame, parts, beyond = rows_of(project, blocks, record["grid"])
        known, count, order = beside(frame, blocks, project, record["grid"], "blocks.csv")
        factor = float(record["revenue_factor"])
        factors = tuple(it for it in project.shells["revenue_factors"] if it <= factor)
        said = blocks[[name for name in said_of(project) if name in blocks]].iloc[order].reset_index(drop=True)
        record |= {"slope_domains": record["cases"][0]["slope_domains"]}
        found = {"parts": parts, "beyond": beyond, "own": own_columns(blocks, known, order)}
        told = Answer(folder, project, known, count, said, pd.DataFrame(), None, record, factors, **found)
        ground = replace(told, said=said[["id"]].assign(revenue_factor=0))
        rows = read_table(written / "tables/sensitivity.csv", ["parameter", "second_parameter"])
        rows[["parameter", "second_parameter"]] = rows[["parameter", "second_parameter"]].fillna("")
        hill = read_hill(written), list(cases_in(folder, record.get("hill", [])))
        return Told(ground, told, rows, list(cases_in(folder, record["cases"])), factor, text, hill)

    def rules(self) -> list[Rule]:
        found: dict[str, list[Rule]] = {name: [] for name in OF_EACH}
        listed = self.listed()
        if not listed.differences:
            for case, row in self.pairs():
                for name, it in self.of_case(case, row).items():
                    found[name].append(
                        replace(it, differences=tuple(f"{case.label}: {said}" for said in it.differences))
                    )
        of_ground = [
            constraints.verify_places(self.ground),
            missing_blocks.verify(self.ground),
            self.as_given(),
            listed,
            self.outside_skin(),
        ]
        of_ground += depletion.verify_cuts(self.ground)
        count = f"in {len(self.cases) + len(self.hill[1]):,} cases: "
        return [*of_ground, *(cases.joined(name, count + holds, found[name]) for name, holds in OF_EACH.items())]

    def pairs(self) -> Iterator[tuple[Case, pd.DataFrame]]:
        """Yields each case with its row, those of the hill of value too."""
        for rows, some in ((self.rows, self.cases), self.hill):
            yield from ((case, rows.iloc[[number]]) for number, case in enumerate(some))

    def unlike_hill(self) -> Iterator[str]:
        """Yields what differs between the hill of value that the project sets, hill_of_value.csv and sensitivity.json."""
        rows, some = self.hill
        due = hill.due_of(self.text.data.get("sensitivity", {}))
        there = [tuple(row) for row in rows[list(HILL_AXES)].itertuples(index=False)] if len(rows) else []
        if there != [place for place, _, _ in due]:
            yield f"hill_of_value.csv has {len(there):,} cases, and the project {len(due):,} or others"
        if [(list(it.changes), list(it.settings)) for it in some] != [(changes, keys) for _, changes, keys in due]:
            yield "sensitivity.json lists other cases than the hill of value of the project"
        if len(rows) and not (rows["revenue_factor"] == self.factor).all():
            yield f"hill_of_value.csv has another revenue factor than {factor_text(self.factor)}"

    def listed(self) -> Rule:
        """Verifies that the base case, each parameter with each change, each pair and each two values of a hill have a row, and no others."""
        due, differences = sorted(due_of(self.text)), []
        there = [tuple(row) for row in self.rows[list(AXES)].itertuples(index=False)]
        noted = [padded([(name, float(share)) for name, share in case.changes]) for case in self.cases]
        if sorted(there) != due:
            differences.append(f"sensitivity.csv has {len(there):,} cases, and the project {len(due):,} or others")
        if there != noted:
            differences.append("sensitivity.json lists other cases than sensitivity.csv")
        if not (self.rows["revenue_factor"] == self.factor).all():
            differences.append(f"sensitivity.csv has another revenue factor than {factor_text(self.factor)}")
        differences += self.unlike_hill()
        return rule(
            "cases",
            "each parameter has a row for each change, each pair for each two changes, and a hill of value for each two values",
            differences,
        )

    def as_given(self) -> Rule:
        """Verifies blocks.csv for the base case: costs, revenue and haul distances, and the least revenue factor of each block."""
        told = self.told
        found = [money.verify(told), *([haulage.verify(told, money.sample(told))] if told.project.haulage else [])]
        said, due = told.said["revenue_factor"].to_numpy(), self.cases[0].entry[told.said["id"].to_numpy()]
        off = np.flatnonzero(said != due)
        differences = [difference for it in found for difference in it.differences]
        differences += [
            f"{told.called(row)}: revenue factor {factor_text(said[row])} for {factor_text(due[row])}"
            for row in off[:TOLD]
        ]
        holds = "costs and revenue of blocks follow from the base case, and their revenue factors are those of its pits"
        return rule("as given", holds, differences, sum(it.count for it in found) + len(off))

    def outside_skin(self) -> Rule:
        """Verifies that the base case's pit without its skin is a shell with all must-mine blocks and at most the other share of the tonnes."""
        given, record, tonnes = self.cases[0], self.ground.record["skin"], self.ground.tonnes
        skin = demanded(given.skin, "the skin of the base case")
        shell = self.mined(np.where(skin, 0, given.entry), self.ground.project, given.domains)
        differences = [
            *slopes.verify(shell).differences,
            *(constraints.verify(shell).differences if record["revenue_factor"] else ()),
        ]
        ids = self.ground.said["id"].to_numpy()
        if (skin & (given.entry == 0)).any():
            differences.append("a block of the skin is not in the pit")
        whole, part = (float(tonnes[inside[ids]].sum()) for inside in (given.entry > 0, skin))
        if abs(part - record["tonnes"]) > 1e-6 * whole or part < float(share_of(self.text)) * whole * (1 - 1e-9):
            differences.append(
                f"the skin has {part:,.0f} t of {whole:,.0f}, and sensitivity.json says {record['tonnes']:,.0f}"
            )
        expected = {
            "share": part / whole if part else 0.0,
            "undiscounted_cash_flow": float(self.rows["skin_value"].iloc[0]),
        }
        differences += [
            f"the skin's {name} {record[name]:.12g} for {it:.12g}"
            for name, it in expected.items()
            if abs(record[name] - it) > 6e-4
        ]
        return rule(
            "skin's shell",
            "the pit without its skin is a shell, and the skin has at least the required share",
            differences,
        )

    def of_case(self, case: Case, row: pd.DataFrame) -> dict[str, Rule]:
        """Verifies a row of a case."""
        project, row = changed(self.text, case.changes, case.settings), row.set_index("revenue_factor")
        whole, pits = self.mined(case.entry, project, case.domains), self.priced(case, project)
        found = cases.verify(whole, replace(pits[CASE], shells=row))
        expected = row["npv_specified"] if "npv_specified" in row else (row["npv_best"] + row["npv_worst"]) / 2
        if not np.allclose(expected, row["npv"], rtol=0, atol=2e-3):
            unlike = f"npv {row['npv'].iloc[0]:.12g} for {expected.iloc[0]:.12g}"
            npv = found["years"]
            found["years"] = rule("years", "", [*npv.differences, unlike], npv.count + 1)
        return found | {"kept": self.kept(pits.get(KEPT_PIT), row), "skin": self.skin(pits.get(SKIN), row)}

    def priced(self, case: Case, project: Project) -> dict[str, Answer]:
        """Returns the pit of a case and, unless the slopes change, that of the base case and its skin, with costs and revenue at the parameters of
        the case."""
        base, entries = self.cases[0], {CASE: case.entry}
        if not any(name == "slopes" or name.startswith("slopes.") for name, _ in (*case.changes, *case.settings)):
            entries |= {
                KEPT_PIT: base.entry,
                SKIN: np.where(demanded(base.skin, "the skin of the base case"), self.factor, 0),
            }
        every = valued(self.mined(np.maximum.reduce([*entries.values()]), project, case.domains))
        return {name: within(every, entry) for name, entry in entries.items()}

    def kept(self, pit: Optional[Answer], row: pd.DataFrame) -> Rule:
        """Verifies the base case's pit at the parameters of a case; nothing if the slopes change."""
        names = [name for name in KEPT if name in row]
        said = row[[f"kept_{name}" for name in names]].set_axis(names, axis=1)
        if pit is None:
            is_empty = said.isna().all(axis=None)
            return rule("kept", "", [] if is_empty else ["kept_ amounts are given, although the slopes differ"])
        wrong = [*self.unlike_cash(pit, said, "kept_", "undiscounted_cash_flow")]
        return rule("kept", "", [*wrong, *years.verify(replace(pit, shells=said)).differences])

    def skin(self, skin: Optional[Answer], row: pd.DataFrame) -> Rule:
        """Verifies the value of the skin at the parameters of a case; nothing if the slopes change."""
        if skin is None:
            is_empty = row["skin_value"].isna().all()
            return rule("skin", "", [] if is_empty else ["skin_value is given, although the slopes differ"])
        return rule("skin", "", [*self.unlike_cash(skin, row, "", "skin_value")])

    def unlike_cash(self, pit: Answer, row: pd.DataFrame, before: str, name: str) -> Iterator[str]:
        """Yields the difference of a cash flow from the sum over the blocks of a pit."""
        said, worth = float(row[name].iloc[0]), float(pit.worths[sums.within(pit, self.factor)].sum())
        if not abs(said - worth) <= 6e-4 + 1e-12 * float(np.abs(pit.worths).sum()):
            yield f"{before}{name} {said:.12g} for {worth:.12g}"

    def mined(self, entry: np.ndarray, project: Project, patterns: list[Data]) -> Answer:
        """Returns the blocks with pits, at the parameters of a case."""
        said = self.ground.said.assign(revenue_factor=entry[self.ground.said["id"].to_numpy()])
        record = {**self.ground.record, "slope_domains": patterns}
        # A case has shells between those of the project.
        factors = tuple(sorted({*self.ground.factors, *np.unique(entry[entry > 0]).tolist()}))
        return self.ground.of_same_blocks(said, project=project, record=record, factors=factors, found={})


def within(every: Answer, entry: np.ndarray) -> Answer:
    """Returns those of some blocks that pits hold, with the least revenue factor of each."""
    first = entry[every.said["id"].to_numpy()]
    rows, said = (frame[first > 0].reset_index(drop=True) for frame in (every.rows, every.said))
    return processed(replace(every, rows=rows, said=said.assign(revenue_factor=first[first > 0]), found={}))


def read_hill(written: Path) -> pd.DataFrame:
    """Returns the rows of hill_of_value.csv; none if there is no such table."""
    path = written / "tables/hill_of_value.csv"
    return read_table(path, ["parameter", "second_parameter"]) if path.is_file() else pd.DataFrame()


def cases_in(folder: Path, entries: list[Data]) -> Iterator[Case]:
    for entry in entries:
        path = folder / "cases" / f"{entry['key']}.npz"
        try:
            said = read_arrays(path, entry["key"])
            case = Case(
                tuple((name, Decimal(share)) for name, share in entry["changes"]),
                said["entry"],
                entry["slope_domains"],
                said.get("skin"),
                tuple((name, Decimal(value)) for name, value in entry.get("settings", [])),
            )
        except (ValueError, KeyError, TypeError) as error:
            raise AuditError(f"{path}: is not a result of a case: {error}: run pitplan sensitivity again") from error
        yield case


def padded(changes: list[tuple[str, float]]) -> tuple[str, float, str, float]:
    (one, by), (other, also) = [*changes, ("", 0.0), ("", 0.0)][:2]
    return one, by, other, also


def due_of(text: Text) -> list[tuple[str, float, str, float]]:
    """Returns the cases that the text of the project sets."""
    asked = text.data.get("sensitivity", {})
    changes = [float(share) for share in asked.get("changes", map(Decimal, SHARES))]
    names = asked.get("parameters") or [name for name in NUMBERS if is_given(text, name)]
    names, pairs = [names] if isinstance(names, str) else names, asked.get("pairs", [])
    alone = {*names, *(name for pair in pairs for name in pair)}
    due = [padded([]), *(padded([(name, share)]) for name, share in product(alone, changes))]
    return due + [
        padded([(one, first), (other, second)]) for one, other in pairs for first, second in product(changes, changes)
    ]


def share_of(text: Text) -> Decimal:
    return text.data.get("sensitivity", {}).get("skin", Decimal("0.05"))


def is_given(text: Text, name: str) -> bool:
    data = text.data
    if name == "selling_cost":
        return any(metal.get(name, 0) != 0 or charges_in(metal) for metal in data["metals"])
    if name == "haulage":
        return "haulage" in data
    return name != "slopes" or any({"angle", "azimuths", "bench"} & {*domain} for domain in data["slopes"]["domains"])


def changed(
    text: Text, changes: tuple[tuple[str, Decimal], ...], settings: tuple[tuple[str, Decimal], ...] = ()
) -> Project:
    """Returns the project of the text with these keys set and these numbers changed there."""
    data = text.data
    for name, value in settings:
        hill.set_key(data, name.split("."), value)
    for name, share in changes:
        if "." in name:
            change_key(data, name.split("."), 1 + share)
            continue
        kind, _, metal = name.partition(" ")
        NUMBERS[kind](data, 1 + share, metal)
    return of_data(data, text.place)


def change_key(data: Data, path: list[str], by: Decimal) -> None:
    """Changes the numbers of a key, by its path: entries of lists have a name, or a number from 1."""
    entry: Any = data
    for part in path[:-1]:
        if isinstance(entry, list):
            by_name = {str(it["name"]): it for it in entry if isinstance(it, dict) and "name" in it}
            entry = by_name[part] if part in by_name else entry[int(part) - 1]
        else:
            entry = entry[part]
    entry[path[-1]] = times(entry[path[-1]], by)


def times(value: Any, by: Decimal, most: Decimal = Decimal("Infinity")) -> Any:
    """Returns a number times a factor, or all numbers of a table by rock type or of a list; of pairs the second ones."""
    if isinstance(value, dict):
        return {key: times(it, by, most) for key, it in value.items()}
    if isinstance(value, list):
        return [[it[0], times(it[1], by, most)] if isinstance(it, list) else times(it, by, most) for it in value]
    return min(value * by, most)


def in_section(section: str, *keys: str, of_process: str = "") -> Any:
    """Changes keys of a section, and a key of each process."""

    def change(data: Data, by: Decimal, metal: str) -> None:
        data[section] |= {key: times(data[section][key], by) for key in keys if key in data[section]}
        for process in data.get("processes", []) if of_process else []:
            process[of_process] = times(process[of_process], by)

    return change


def in_periods(change: Any, *keys: str) -> Any:
    """Also changes keys of each period; of a key by metal that of the metal."""

    def both(data: Data, by: Decimal, metal: str) -> None:
        change(data, by, metal)
        for period in data.get("periods", []):
            for key in [key for key in keys if key in period]:
                value = period[key]
                is_by_metal = isinstance(value, dict) and metal
                period[key] = (
                    {**value, metal: value[metal] * by}
                    if is_by_metal and metal in value
                    else value
                    if is_by_metal
                    else times(value, by)
                )

    return both


def in_metals(*keys: str, most: Decimal = Decimal("Infinity")) -> Any:
    def change(data: Data, by: Decimal, metal: str) -> None:
        for one in data["metals"]:
            if metal in ("", one["name"]):
                one |= {key: times(one[key], by, most) for key in keys if key in one}

    return change


def charges_in(metal: Data) -> bool:
    """Whether smelter terms of a metal charge anything but a share of the price."""
    terms = metal.get("smelter", {})
    return any(terms.get(key, 0) != 0 for key in CHARGES) or "penalties" in terms


def in_charges(data: Data, by: Decimal, metal: str) -> None:
    """Changes selling costs, or the charges of smelters and their penalties."""
    in_metals("selling_cost")(data, by, metal)
    for one in data["metals"]:
        terms = one.get("smelter", {}) if metal in ("", one["name"]) else {}
        terms |= {key: times(terms[key], by) for key in CHARGES if key in terms}
        for penalty in terms.get("penalties", []):
            penalty["steps"] = times(penalty["steps"], by)


def in_recoveries(data: Data, by: Decimal, metal: str) -> None:
    """Changes recoveries of metals, or of these in each process."""
    in_metals("recovery", most=Decimal(1))(data, by, metal)
    for process in data.get("processes", []):
        process["recovery"] |= {
            name: times(it, by, Decimal(1)) for name, it in process["recovery"].items() if metal in ("", name)
        }


def in_domains(data: Data, by: Decimal, metal: str) -> None:
    for domain in data["slopes"]["domains"]:
        if "bench" in domain:
            bench = domain.pop("bench")
            back = 1 / math.tan(math.radians(float(bench["face_angle"]))) + float(bench["berm_width"] / bench["height"])
            domain["angle"] = Decimal(repr(math.degrees(math.atan2(1.0, back))))
        domain |= {key: times(domain[key], by) for key in ("angle", "azimuths") if key in domain}


NUMBERS: dict[str, Any] = {
    "price": in_periods(in_metals("price", "prices"), "prices"),
    "mining_cost": in_section("economics", "mining_cost", "mining_cost_per_bench", "mining_cost_by_elevation"),
    "processing_cost": in_section("economics", "processing_cost", of_process="cost"),
    "selling_cost": in_charges,
    "recovery": in_recoveries,
    "slopes": in_domains,
    "capacity": in_periods(
        in_section("shells", "processing_capacity", "mining_capacity", of_process="capacity"),
        "mining_capacity",
        "processing_capacity",
        "capacity",
    ),
    "haulage": in_section("haulage", "cost"),
}

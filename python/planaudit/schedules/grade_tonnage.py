"""Verifies grade_tonnage.csv: tonnes and metal above each cut-off, and what marked cut-offs earn."""

from __future__ import annotations

from collections.abc import Iterator

import numpy as np
import pandas as pd

from planaudit.inputs.answer import Answer
from planaudit.inputs.matching import PUSHBACK
from planaudit.inputs.project import GRADE_UNITS, Section
from planaudit.inputs.tables import YEAR, read_table
from planaudit.rules import TOLD, Rule, rule
from planaudit.schedules.cutoff_table import GRADE, MONEY, Material
from planaudit.schedules.lots import MILL

FILE_PATH = "tables/grade_tonnage.csv"
FILE, TEXTS = "grade_tonnage.csv", ["part", "class", "metal", "mark"]
AMOUNT = 0.6e-3
# The name of the sum of tonnes, which no metal has.
TONNES = ""


def is_written(answer: Answer) -> bool:
    """Whether the folder has the curves, which shells and pushbacks of earlier releases do not have. Those of schedules are verified with them."""
    of_schedule = answer.is_by_block or answer.schedule is not None
    return not of_schedule and (FILE_PATH in answer.record.get("files", {}) or (answer.folder / FILE_PATH).is_file())


def verify(answer: Answer) -> Rule:
    """Verifies the curves of the model, the pit and the pushbacks."""
    said = read_table(answer.folder / "tables" / FILE, TEXTS).fillna(dict.fromkeys(TEXTS, ""))
    found = [*unlike_curves(answer, said), *unlike_marks(answer, said)]
    holds = "tonnes, grades and metal above each cut-off grade are those of the blocks, and marked cut-offs earn their costs"
    return rule("grade tonnage", holds, found[:TOLD], len(found))


def unlike_curves(answer: Answer, said: pd.DataFrame) -> Iterator[str]:
    """Yields rows that differ from the sums over blocks, and missing parts or classes."""
    column = answer.project.table["class"]
    weighs = answer.tonnes > 0
    codes = {"all": weighs} if not column else masks_of(answer.rows[column].astype(str), weighs)
    masks = {(part, name): mask & code for part, mask in parts_of(answer).items() for name, code in codes.items()}
    masks = {key: mask for key, mask in masks.items() if mask.any()}
    metals = {metal["name"]: metal for metal in answer.project.metals}
    groups = dict(list(said.groupby(["part", "class", "metal"])))
    if set(groups) != {(*key, name) for key in masks for name in metals}:
        yield f"{FILE}: parts, classes and metals are not those of the blocks"
        return
    for (part, name, of_metal), rows in groups.items():
        cutoffs = rows["cutoff_grade"].to_numpy()
        if cutoffs.min() != 0 or not rows["cutoff_grade"].is_monotonic_increasing:
            yield f"{FILE}: {part}, {name}, {of_metal}: cut-off grades do not rise from 0"
            continue
        due = above(answer, masks[part, name], metals[of_metal], cutoffs)
        for row, text in unlike(rows, answer, due):
            yield f"{FILE}: {part}, {name}, {of_metal} above {cutoffs[row]:.10g}: {text}"


def masks_of(codes: pd.Series, mask: np.ndarray) -> dict[str, np.ndarray]:
    """Returns by code the rows of a mask that have it."""
    place, names = pd.factorize(codes, sort=True)
    return {str(name): mask & (place == number) for number, name in enumerate(names)}


def above(answer: Answer, mask: np.ndarray, metal: Section, cutoffs: np.ndarray) -> dict[str, np.ndarray]:
    """Returns by name the tonnes of the blocks of a mask, and their tonnes times the grade of each metal, at or above rising cut-offs of one."""
    tonnes = answer.tonnes[mask]
    grades = {it["name"]: answer.rows[it["column"]].to_numpy(dtype=float)[mask] for it in answer.project.metals}
    # How many of the cut-offs each block reaches.
    reached = np.searchsorted(cutoffs, grades[metal["name"]], side="right")
    amounts = {TONNES: tonnes} | {name: tonnes * grade for name, grade in grades.items()}
    sums = {name: np.bincount(reached, amount, len(cutoffs) + 1) for name, amount in amounts.items()}
    return {name: found[::-1].cumsum()[::-1][1:] for name, found in sums.items()}


def parts_of(answer: Answer) -> dict[str, np.ndarray]:
    """Returns by name the blocks of the model, of the pit, and of each pushback. By block the pit is what is mined, and without pushbacks the
    selected shell."""
    if answer.is_by_block:
        year = answer.said[YEAR].to_numpy()
        return {"model": year >= 0, "pit": year > 0}
    if answer.pushbacks is None:
        factor = answer.said["revenue_factor"].to_numpy()
        return {"model": factor >= 0, "pit": (factor > 0) & (factor <= answer.record["shells"]["selected"])}
    pushback = answer.said[PUSHBACK].to_numpy()
    of_each = {f"pushback {number}": pushback == number for number in range(1, int(pushback.max()) + 1)}
    return {"model": pushback >= 0, "pit": pushback > 0} | of_each


def unlike(rows: pd.DataFrame, answer: Answer, sums: dict[str, np.ndarray]) -> Iterator[tuple[int, str]]:
    """Yields amounts of rows that are not those of their blocks, whose sums are given, with the place of the row."""
    whole = sums[TONNES]
    due = {"tonnes": (whole, AMOUNT)}
    for metal in answer.project.metals:
        content = sums[metal["name"]]
        due[f"in_situ_{metal['name']}"] = content * float(GRADE_UNITS[metal["unit"]]), AMOUNT
        grade = np.divide(content, whole, out=np.full(len(whole), np.nan), where=whole != 0)
        due[f"grade_{metal['name']}"] = grade, GRADE
    for name, (expected, slack) in due.items():
        said = rows[name].to_numpy(dtype=float)
        off = np.abs(said - expected) > slack + 1e-9 * np.abs(expected)
        off |= np.isnan(said) != np.isnan(expected)
        yield from ((row, f"{name} {said[row]:.10g} for {expected[row]:.10g}") for row in np.flatnonzero(off).tolist())


def unlike_marks(answer: Answer, said: pd.DataFrame) -> Iterator[str]:
    """Yields marked cut-offs of other processes, rock types and metals than the project has, or that do not earn what they are to cover."""
    due = {}
    for material, name, metal in materials(answer):
        factor = 1 + material.of(material.project.economics["dilution"])
        for kind, cost in material.costs.items():
            words = [kind.removesuffix("_grade"), name, *([material.rock] if material.rock else [])]
            if np.isfinite(factor * cost) and material.earned(metal, 1e12, 0.0) > 0:
                due[metal["name"], " ".join(words)] = material, metal, cost, factor
    rows = said[said["mark"] != ""]
    if set(zip(rows["metal"], rows["mark"])) != set(due):
        yield f"{FILE}: marks are not those of the processes and rock types"
        return
    for of_metal, mark, grade in sorted(set(zip(rows["metal"], rows["mark"], rows["cutoff_grade"]))):
        material, metal, cost, factor = due[of_metal, mark]
        low, high = (material.earned(metal, max(grade + by, 0.0) / factor, 0.0) for by in (-GRADE, GRADE))
        slack = MONEY + 1e-6 * abs(cost)
        if low > max(cost, 0.0) + slack or high < cost - slack:
            yield f"{FILE}: {of_metal}, {mark}: {grade:.10g} does not earn {cost:.10g} per tonne of feed"


def materials(answer: Answer) -> Iterator[tuple[Material, str, Section]]:
    """Yields each rock type that yields anything in a process, with the process and each of its recovered metals."""
    column, processes = answer.project.table["rock_type"], answer.project.processes
    names = [process["name"] for process in processes] or [MILL]
    for name, alone, (revenue, _) in zip(names, answer.project.by_process, answer.amounts_of_ways):
        taken = answer.said[revenue].to_numpy() > 0
        rocks = sorted(set(answer.rows[column].astype(str).to_numpy()[taken])) if column else [""] * bool(taken.any())
        for rock in rocks:
            material = Material(alone, rock)
            yield from ((material, name, metal) for metal in material.metals)

"""Verifies reblocking, by the cells in which the centroids of rows lie."""

from __future__ import annotations

from typing import Any

import numpy as np
import pandas as pd

from planaudit.errors import demanded
from planaudit.inputs.answer import Answer
from planaudit.inputs.project import Project
from planaudit.inputs.reblocking import divided, together
from planaudit.inputs.rotated_grid import steps_of
from planaudit.rules import TOLD, Rule, rule

# The last decimal places of tonnes and grades, and the rounding error of sums in another order.
TONNES, GRADE = 0.51e-6, 0.51e-9
HAIR = 1e-6


def verify(answer: Answer) -> Rule:
    """Verifies positions of blocks, and that each holds its rows: tonnes, grades, rock type, domain, and constraints."""
    parts: pd.DataFrame = demanded(answer.parts, "the rows of blocks")
    said = answer.rows
    expected = divided(together(parts, answer.project, answer.record["grid"]), answer.project, answer.record["grid"])[
        0
    ].reset_index(drop=True)
    differences = unlike_grid(parts, answer.project, answer.record["grid"])
    columns, count = answer.project.table, len(differences)
    if len(expected) != answer.known:
        return rule("reblocked", "rows are reblocked", [f"{answer.known:,} blocks for {len(expected):,}"])
    # Another rule verifies tonnes below a surface.
    passed = (columns["x"], columns["y"], columns["z"], *([columns["tonnes"]] if answer.project.cuts_blocks else []))
    for name in [name for name in expected if name not in passed]:
        column = said[name].iloc[: answer.known].to_numpy()
        slack = TONNES if name == columns["tonnes"] else GRADE
        is_code = name in answer.project.codes
        other = (
            column != expected[name]
            if is_code
            else np.abs(column - expected[name]) > slack + 1e-12 * np.abs(expected[name])
        )
        off = np.flatnonzero(other)
        differences += [f"{answer.called(row)}: {name} {column[row]} for {expected[name][row]}" for row in off[:TOLD]]
        count += len(off)
    grades = "grades, " if answer.project.metals else ""
    holds = f"each of {len(expected):,} blocks holds the {len(parts):,} rows that lie in it: tonnes, {grades}codes and constraints"
    return rule("reblocked", holds, differences, count)


def unlike_grid(parts: pd.DataFrame, project: Project, grid: dict[str, Any]) -> list[str]:
    """Returns differences of block size and edges from the project."""
    columns, rules, found = project.table, project.table["reblock"], []
    if rules["counts"] is None and rules["size"] is None:
        return unlike_parents(parts, project, grid)
    levels, axes = grid["shape"][0], [columns["x"], columns["y"], columns["z"]]
    # Metres: of a rotated grid along its own axes from its first block, otherwise the planner's.
    first = np.array([0.0, 0.0, grid["origin"][2]]) if grid.get("azimuth") else np.array(grid["origin"])
    along = [parts[name].to_numpy() for name in axes]
    if grid.get("azimuth"):
        along = [*(steps_of(np.stack(along, axis=1), grid) * grid["size"] + first).T]
    for k, name in enumerate(axes):
        centres, size = np.sort(pd.unique(along[k])), grid["size"][k]
        edge = first[k] - size / 2 - (size * (levels - 1) if k == 2 else 0.0)
        if rules["counts"] is not None:
            own = size / rules["counts"][k]
            expected, start = own * rules["counts"][k], centres[0] - own / 2
            # Whole blocks that no shell can reach may be removed.
            start += size * np.rint((edge - start) / size)
            steps = (centres - centres[0]) / own
            if np.abs(steps - np.rint(steps)).max() * own > project.grid["tolerance"] * 2 or not on_steps(
                np.diff(np.rint(steps))
            ):
                found.append(f"{name}: blocks of {size:.10g} m are no {rules['counts'][k]} of the table's")
        else:
            corner = (
                (steps_of(np.array([rules["corner"]]), grid)[0] * grid["size"] + first)[k]
                if grid.get("azimuth")
                else rules["corner"][k]
            )
            expected, start = rules["size"][k], corner + size * np.rint((edge - corner) / size)
        if abs(expected - size) > HAIR or abs(edge - start) > max(HAIR, project.grid["tolerance"]):
            found.append(f"{name}: blocks of {size:.10g} m from {edge:.10g} on for {expected:.10g} from {start:.10g}")
    return found


def unlike_parents(parts: pd.DataFrame, project: Project, grid: dict[str, Any]) -> list[str]:
    """Returns differences of the blocks from the largest cells, which are whole blocks along each axis along which they are as large."""
    axes, found = [project.table["x"], project.table["y"], project.table["z"]], []
    sides, steps = parts[list(project.table["rules"].cell_size or ())].to_numpy(), steps_of(
        parts[axes].to_numpy(), grid
    )
    greatest = sides.max(axis=0)
    for k, name in enumerate(axes):
        size = grid["size"][k]
        whole = (sides == greatest).all(axis=1) if (sides == greatest).all(axis=1).any() else sides[:, k] == greatest[k]
        off = np.abs(steps[whole, k] - np.rint(steps[whole, k])).max() * size
        if abs(greatest[k] - size) > HAIR or off > max(HAIR, project.grid["tolerance"]):
            found.append(
                f"{name}: blocks of {size:.10g} m for cells of {greatest[k]:.10g} m, which lie {off:.3g} m off them"
            )
    return found


def on_steps(gaps: np.ndarray) -> bool:
    """Returns whether two centroids are one step apart, if there are two."""
    return not len(gaps) or bool((gaps == 1).any())

"""Verifies filled missing blocks: cells without a row are blocks as the project defines them."""

from __future__ import annotations

from collections.abc import Mapping
from typing import Optional

import numpy as np
import pandas as pd

from planaudit.inputs.answer import Answer
from planaudit.inputs.matching import UNCUT
from planaudit.inputs.project import Section
from planaudit.rules import TOLD, Rule, rule


def verify(answer: Answer) -> Rule:
    """Verifies that every missing block is filled as the project defines it, and otherwise that none is."""
    rock = answer.project.table["missing_blocks"]
    if not isinstance(rock, Mapping):
        return rule("missing blocks", "no missing block is filled", [])
    differences, count = unlike_cells(answer)
    for name, expected in words(answer, rock).items():
        added = answer.rows[name].iloc[answer.known :]
        off = np.flatnonzero((added.astype(str) if isinstance(expected, str) else added) != expected)
        differences += [f"{answer.called(answer.known + k)}: {name} {added.iloc[k]} for {expected}" for k in off[:TOLD]]
        count += len(off)
    holds = f"every missing block is filled with {rock['tonnes']:g} t"
    return rule("missing blocks", f"{holds} and codes of the project, and no other cell is", differences, count)


def words(answer: Answer, rock: Section) -> dict[str, str | float]:
    """Returns the expected fields of a filled block: tonnes, unless a surface cuts them, codes, 1 as cost adjustment
    factor, and 0 in other columns, without centroid and id."""
    columns = answer.project.table
    told: dict[Optional[str], str | float] = {
        columns["tonnes"]: rock["tonnes"],
        columns["rock_type"]: rock["rock_type"],
        columns["domain"]: rock["domain"],
        columns["class"]: rock["class"],
        **dict.fromkeys(answer.project.adjusting, 1.0),
    }
    passed = {
        columns["x"],
        columns["y"],
        columns["z"],
        columns["id"],
        *([columns["tonnes"], UNCUT] if answer.project.cuts_blocks else []),
    }
    return {name: told.get(name, 0.0) for name in answer.rows.columns if name not in passed}


def unlike_cells(answer: Answer) -> tuple[list[str], int]:
    """Returns differences, and their number: missing blocks that are not filled, filled cells in the air, and blocks named by another cell."""
    table, added = (
        tuple(axis[part] for axis in answer.cells) for part in (slice(answer.known), slice(answer.known, None))
    )
    known = np.zeros(answer.shape, dtype=bool)
    known[table] = True
    top = (
        pd.DataFrame({"place": table[1] * answer.shape[2] + table[2], "level": table[0]})
        .groupby("place")["level"]
        .min()
    )
    highest = top.reindex(range(answer.shape[1] * answer.shape[2]), fill_value=-1).to_numpy().reshape(answer.shape[1:])
    ground = ~known & (np.arange(answer.shape[0])[:, None, None] > highest)
    blocks = np.zeros(answer.shape, dtype=bool)
    blocks[added] = True
    lacking, more = np.flatnonzero(ground & ~blocks), np.flatnonzero((blocks & ~ground)[added])
    differences = [f"the cell {cell} is a missing block and is not filled" for cell in lacking[:TOLD]]
    differences += [
        f"{answer.called(answer.known + k)} fills a cell above the highest of its column" for k in more[:TOLD]
    ]
    named, cells = answer.project.table["id"], np.ravel_multi_index(added, answer.shape)
    called = answer.rows[named].iloc[answer.known :] if named else [f"absent-{cell}" for cell in cells]
    off = [f"block {name} is of the cell {cell}" for name, cell in zip(called, cells) if name != f"absent-{cell}"]
    return differences + off, len(lacking) + len(more) + len(off)

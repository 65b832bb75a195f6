"""The shells in 3D: one HTML page with three.js and the model in it, to rotate, to cut by planes, and to pick blocks from.

The page holds a byte per cell for each property that it colours by, and the rows of the table, all compressed. It finds the visible faces
itself. For pushbacks and schedules it shows the topography after each stage.
"""

from __future__ import annotations

import base64
import gzip
from pathlib import Path
from typing import Any

import matplotlib
import numpy as np
import pandas as pd
from numpy.typing import NDArray

from pitplan.blockmodel.grid import turn_of
from pitplan.config.periods import PERIOD, YEAR
from pitplan.core.libraries import three_scripts
from pitplan.errors import PlanError
from pitplan.figures import palette
from pitplan.results.folder import Folder
from pitplan.results.names import TABLE

from .columns import TEMPLATES

# Of more categories the last colour stands for the rest.
PALETTE = palette.CODES
DESTINATION, ORE, WASTE, OTHERS = "destination", "ore", "waste", "others"
NO_CODE = "none"


def kinds_of(folder: Folder) -> list[dict[str, Any]]:
    """Returns for each category its name, a byte per cell (0: no rock), labels and colours."""
    solid = (folder.blocks[folder.record["tonnes"]] > 0).to_numpy()
    found = {name: folder.blocks[name].astype(str).to_numpy() for name in folder.record["codes"]}
    found[DESTINATION] = destinations_of(folder)
    return [kind_of(folder, name, np.where(solid, codes, ""), solid) for name, codes in found.items()]


def destinations_of(folder: Folder) -> NDArray[Any]:
    """Returns where each block goes at the base price once it is mined: its best process, or waste."""
    blocks = folder.blocks
    if "process" in blocks:
        return np.where(blocks["process"] == "", WASTE, blocks["process"].astype(str))
    return np.where(blocks["revenue"] > blocks["processing_cost"], ORE, WASTE)


def kind_of(folder: Folder, name: str, codes: NDArray[Any], solid: NDArray[np.bool_]) -> dict[str, Any]:
    """Returns a category; codes beyond the palette are together."""
    labels, counts = np.unique(codes[solid].astype(str), return_counts=True)
    order = labels[np.argsort(-counts, kind="stable")].tolist()
    if len(order) > len(PALETTE):
        order = [*order[: len(PALETTE) - 1], OTHERS]
    place = {label: number for number, label in enumerate(order, 1)}
    number = np.array([place.get(code, len(order)) for code in codes.astype(str)], dtype=np.uint8)
    return {
        "name": name,
        "cells": encoded(folder.grid.spread(np.where(solid, number, 0), 0)),
        "labels": [label or NO_CODE for label in order],
        "colours": [[int(tint[k : k + 2], 16) for k in (1, 3, 5)] for tint in tints_of(folder, name, order)],
    }


def tints_of(folder: Folder, name: str, labels: list[str]) -> list[str]:
    """Returns the colours of labels: of destinations those of figures, otherwise by the palette."""
    if name != DESTINATION:
        return list(PALETTE[: len(labels)])
    before = "processing_cost_"
    processes = [column.removeprefix(before) for column in folder.blocks if str(column).startswith(before)]
    known = palette.of_processes(processes) | {ORE: palette.ORE, WASTE: palette.WASTE}
    return [known.get(label, PALETTE[-1]) for label in labels]


# The byte of a cell: 0 if no shell holds it, 1 to 254 the place of its revenue factor in the list, 255 air.
AIR = 255
MOST_FACTORS = 254
# Up to this number of blocks the page has all rows, otherwise those of mined blocks.
MOST_ROWS = 300_000
# Stages besides the revenue factor: column, and a colour map with its range. Colours darken from first to last, for the colour-blind.
STAGES = (
    ("pushback", "viridis_r", (0.08, 0.95)),
    (YEAR, "plasma_r", (0.05, 0.95)),
    (PERIOD, "plasma_r", (0.05, 0.95)),
)


def write(path: Path, folder: Folder) -> None:
    """Writes the page. Raises MissingPackage without libjs-three, and PlanError if there are more than MOST_FACTORS revenue factors."""
    scripts = three_scripts()
    page = TEMPLATES.get_template("view.html").render(
        title=folder.record["title"], scripts=scripts, model=model_of(folder)
    )
    path.write_text(page, encoding="utf-8")


def model_of(folder: Folder) -> dict[str, Any]:
    """Returns the data of the page: grid, a byte per cell of revenue factor, each grade, pushback and year, the rows of the table, and colours."""
    grid, blocks = folder.grid, folder.blocks
    factors = folder.factors
    if len(factors) > MOST_FACTORS:
        raise PlanError(
            f"the 3D page can show {MOST_FACTORS} shells, and there are {len(factors):,}: reduce revenue_factors"
        )
    place = np.searchsorted(factors, blocks["revenue_factor"].to_numpy()) + 1
    solid = (blocks[folder.record["tonnes"]] > 0).to_numpy()
    shell = np.where(solid, np.where(blocks["revenue_factor"] > 0, place, 0), AIR).astype(np.uint8)
    west, _, south, _, floor, top = grid.extent()
    towards_north = 1j / turn_of(grid.azimuth)
    return {
        "shape": list(grid.shape),
        "size": list(grid.size),
        "corner": [west, south, floor],
        "axes": list(grid.frame.names),
        "north": [towards_north.real, towards_north.imag],
        "top": top,
        "revenue_factors": factors,
        "selected": folder.record["shells"]["selected"],
        "shell": encoded(grid.spread(shell, AIR)),
        "shell_colours": colours("viridis_r", np.linspace(0.02, 1, len(factors))),
        "metals": [
            {"name": it["name"], "sign": it["sign"], **tinted(folder, np.where(solid, blocks[it["column"]], 0.0))}
            for it in folder.record["metals"]
        ],
        "amounts": [value_of(folder, solid)],
        "grade_colours": colours("YlOrRd", np.linspace(0, 1, 256)),
        "kinds": kinds_of(folder),
        "stages": [stage_of(folder, *stage) for stage in STAGES if stage[0] in blocks],
        "rows": compressed(rows_of(folder).encode("utf-8")),
    }


def value_of(folder: Folder, solid: np.ndarray) -> dict[str, Any]:
    """Returns a byte per cell of the value per tonne at the base price once it is mined; 0 if it does not pay."""
    tonnes = folder.blocks[folder.record["tonnes"]].to_numpy()
    value = np.where(solid, mined_values(folder.blocks) / np.where(solid, tonnes, 1.0), 0.0)
    sign = f"{folder.record['money'].get('currency', '')} per t".strip()
    return {"name": "value", "sign": sign, **tinted(folder, np.maximum(value, 0.0))}


def tinted(folder: Folder, amounts: np.ndarray) -> dict[str, Any]:
    """Returns a byte per cell of amounts from 0 on, and the amount of the largest byte."""
    # The highest hundredth share a colour, so that one rich block does not make all others pale.
    most = float(np.quantile(amounts[amounts > 0], 0.99)) if (amounts > 0).any() else 1.0
    tint = np.rint(np.clip(amounts / most, 0, 1) * 255).astype(np.uint8)
    return {"most": most, "grade": encoded(folder.grid.spread(tint, 0))}


def stage_of(folder: Folder, name: str, shades: str, ends: tuple[float, float]) -> dict[str, Any]:
    """Returns a byte of pushback or year per cell, 0 for none, and a colour for each. Numbers above 254 become 254."""
    number = np.clip(folder.blocks[name].to_numpy(), 0, 254)
    last = max(int(number.max()), 1)
    return {
        "name": name,
        "cells": encoded(folder.grid.spread(number, 0)),
        "colours": colours(shades, np.linspace(*ends, last)),
    }


def rows_of(folder: Folder) -> str:
    """Returns the rows of blocks.csv with the value of each mined block at the base price; of a large table those of mined blocks."""
    blocks = folder.blocks
    written = pd.read_csv(folder.path / TABLE, dtype=str, keep_default_na=False, na_values={})
    written["undiscounted_cash_flow"] = mined_values(blocks).round(6)
    return written[(blocks["revenue_factor"] > 0).to_numpy() | (len(blocks) <= MOST_ROWS)].to_csv(
        index=False, lineterminator="\n"
    )


def mined_values(blocks: pd.DataFrame) -> pd.Series:
    """Returns the value of each block once it is mined: the gain of its best process, if above 0, less the mining cost."""
    pairs = [
        (name, name.replace("revenue", "processing_cost", 1))
        for name in blocks
        if name == "revenue" or name.startswith("revenue_")
    ]
    gains = [blocks[revenue] - blocks[cost] for revenue, cost in pairs if cost in blocks]
    return pd.concat(gains, axis=1).max(axis=1).clip(lower=0) - blocks["mining_cost"]


def encoded(cells: np.ndarray) -> str:
    return compressed(cells.astype(np.uint8).tobytes())


def compressed(content: bytes) -> str:
    """Returns bytes as gzip without a time, in base64."""
    return base64.b64encode(gzip.compress(content, 6, mtime=0)).decode("ascii")


def colours(name: str, places: np.ndarray) -> list[list[int]]:
    """Returns red, green and blue, 0 to 255, at places from 0 to 1 of a colour map."""
    return (matplotlib.colormaps[name](places)[:, :3] * 255).round().astype(int).tolist()

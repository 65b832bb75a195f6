"""The input files of the program."""

from __future__ import annotations

from pathlib import Path

import numpy as np

from pitplan import constraints
from pitplan.blockmodel.grid import Grid
from pitplan.core import byte_lines
from pitplan.core.layout import SOLVER
from pitplan.plan import Plan
from pitplan.precedences import MOST_PAIRS, Pairs, Precedences
from pitplan.slopes.domains import ABSENT, slices

BLOCKS, MODEL, PREC, FIXED = "mine.blocks", "mine.upit", "mine.prec", "mine.fixed"
REST_BLOCKS, REST_PREC, PIT_MODEL = "rest.blocks", "rest.prec", "pit.upit"
ANSWER = "shells.txt"
# Input and output of the program. The library has no files.
OF_PROGRAM = (BLOCKS, MODEL, PREC, FIXED, REST_BLOCKS, REST_PREC, PIT_MODEL, ANSWER)
# Their paths in an output folder.
IN_FOLDER = tuple(f"{SOLVER}/{name}" for name in OF_PROGRAM)
CHUNK = 200_000


def write(plan: Plan, folder: Path) -> Pairs:
    """Writes mine.blocks, mine.upit and mine.prec into an existing folder, and with `[constraints]` mine.fixed, and rest.blocks and rest.prec of the
    reduced mine. Returns the number of precedences of the whole mine. Raises PlanError if there are more precedences than the program takes.
    """
    nodes, processed = plan.values.nodes(), plan.values.processed
    write_blocks(folder / BLOCKS, plan.grid, processed, nodes)
    write_model(folder / MODEL, plan.project.title, nodes[0] - nodes[1])
    pairs = write_precedences(folder / PREC, plan, plan.precedences)
    if plan.settled is not None:
        constraints.write(folder / FIXED, plan.fixed)
        write_blocks(folder / REST_BLOCKS, plan.grid, processed, constraints.nodes_of_rest(plan.values, plan.settled))
        write_precedences(folder / REST_PREC, plan, plan.precedences_of_rest)
    return pairs


def write_precedences(path: Path, plan: Plan, precedences: Precedences) -> Pairs:
    """Writes precedences of a plan. Raises PlanError if there are more than the program takes."""
    pairs = write_prec(path, precedences, MOST_PAIRS)
    plan.demand_few(pairs)
    return pairs


def of_program(folder: Path) -> tuple[str, ...]:
    """Returns the paths, within an output folder, of the solver files that it has."""
    return tuple(name for name in IN_FOLDER if (folder / name).is_file())


def write_blocks(path: Path, grid: Grid, processed: np.ndarray, nodes: tuple[np.ndarray, np.ndarray]) -> None:
    """Writes a line `id x y z revenue cost` per node; x, y and z are column, row and level of its block, counted from the floor."""
    revenue, cost = nodes
    block = np.concatenate([np.arange(grid.count), processed])
    with open(path, "wb") as file:
        for start in range(0, len(block), CHUNK):
            part = slice(start, min(start + CHUNK, len(block)))
            column, row, level = grid.indices(block[part])
            places = [byte_lines.whole(axis) for axis in (column, row, grid.shape[0] - 1 - level)]
            numbers = byte_lines.whole(np.arange(part.start, part.stop))
            file.write(
                byte_lines.lines(
                    [numbers, *places, byte_lines.decimals(revenue[part]), byte_lines.decimals(cost[part])]
                )
            )


def write_model(path: Path, name: str, values: np.ndarray) -> None:
    """Writes an optimisation model with one value per node, in millionths."""
    with open(path, "wb") as file:
        file.write(f"NAME: {name}\nTYPE: UPIT\nNBLOCKS: {len(values)}\nOBJECTIVE_FUNCTION:\n".encode())
        for start in range(0, len(values), CHUNK):
            part = values[start : start + CHUNK]
            numbers = np.arange(start, start + len(part))
            file.write(byte_lines.lines([byte_lines.whole(numbers), byte_lines.decimals(part)]))


def write_prec(path: Path, precedences: Precedences, most: int) -> Pairs:
    """Writes a line for each block and each processing node with predecessors. Precedences beyond `most` are only counted."""
    written = clipped = 0
    nodes, blocks = precedences.binding()
    with open(path, "wb") as file:
        for part in slices(precedences.grid, precedences.domains, precedences.blocks):
            needed = precedences.open(part.precedences)
            count = (needed != ABSENT).sum(axis=1)
            some = count > 0
            written += int(count.sum())
            clipped += part.clipped
            if some.any() and written <= most:
                heads = [byte_lines.whole(part.ids[some]), byte_lines.whole(count[some])]
                file.write(byte_lines.ragged(heads, needed[some], ABSENT))
        for start in range(0, len(nodes), CHUNK):
            part_of = slice(start, start + CHUNK)
            ones = np.ones(len(nodes[part_of]))
            file.write(
                byte_lines.lines(
                    [byte_lines.whole(nodes[part_of]), byte_lines.whole(ones), byte_lines.whole(blocks[part_of])]
                )
            )
    return Pairs(written, clipped, len(nodes))

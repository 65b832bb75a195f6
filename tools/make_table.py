#!/usr/bin/python3
"""Makes a synthetic deposit as a planner's table of blocks: a porphyry of copper with some gold under a hillside.

    tools/make_table.py --columns 26 --rows 22 --levels 15 --seed 4 --out examples/plan/blocks.csv

Blocks are 20 x 20 x 15 m. Columns: id, x, y, z (centres in metres), tonnes, cu_pct, au_gpt, rock (OX oxide, POR porphyry,
AND andesite) and region (east and west of a fault, with different walls). Cells above the ground have no row. The same
arguments give the same bytes with the same numpy. With --models it also writes simulated models of the same blocks, one
table a model with id, cu_pct and au_gpt. Needs python3-numpy.
"""

import argparse
import gzip
import os

import numpy as np

SIZE = (20.0, 20.0, 15.0)
SOUTH_WEST = (5010.0, 2010.0)
FLOOR = 2707.5


def smooth_noise(rng, shape, reach):
    """Noise of deviation 1 whose neighbours are alike over so many cells along each axis."""
    noise = np.fft.fftn(rng.standard_normal(shape))
    for axis, (cells, wide) in enumerate(zip(shape, reach)):
        along = [1] * 3
        along[axis] = cells
        noise *= np.exp(-2 * (np.pi * np.fft.fftfreq(cells) * wide) ** 2).reshape(along)
    field = np.fft.ifftn(noise).real
    return field / field.std()


def deposit(columns, rows, levels, seed):
    """Arrays of levels (from the floor), rows and columns: whether there is ground, copper, gold, and depth in levels."""
    rng = np.random.default_rng(seed)
    level, row, column = np.meshgrid(np.arange(levels), np.arange(rows), np.arange(columns), indexing="ij")
    east, north, up = (column + 0.5) / columns, (row + 0.5) / rows, (level + 0.5) / levels
    ground = levels * (0.72 + 0.14 * np.sin(3.0 * east[0] + 0.5) * np.cos(2.2 * north[0]) + 0.16 * (1 - east[0]))
    depth = ground[None] - level
    body = np.exp(-(((east - 0.52) / 0.16) ** 2 + ((north - 0.5) / 0.19) ** 2 + ((up - 0.56) / 0.2) ** 2))
    root = np.exp(-(((east - 0.58) / 0.11) ** 2 + ((north - 0.48) / 0.12) ** 2 + ((up - 0.36) / 0.15) ** 2))
    strength = body + 0.8 * root
    copper = 0.62 * strength * np.exp(0.35 * smooth_noise(rng, level.shape, (1.5, 2.5, 2.5)))
    gold = 0.26 * strength**1.3 * np.exp(0.5 * smooth_noise(rng, level.shape, (1.5, 2, 2)))
    return depth > 0.5, np.where(copper > 0.08, copper, 0), np.where(copper > 0.08, gold, 0), depth


def table_of(columns, rows, levels, seed):
    """The header and one line a block, from the floor up."""
    ground, copper, gold, depth = deposit(columns, rows, levels, seed)
    yield "id,x,y,z,tonnes,cu_pct,au_gpt,rock,region\n"
    for level in range(levels):
        for row in range(rows):
            for column in range(columns):
                here = (level, row, column)
                if not ground[here]:
                    continue
                rock = "OX" if depth[here] < 2.5 else "POR" if copper[here] > 0.25 else "AND"
                tonnes = SIZE[0] * SIZE[1] * SIZE[2] * (2.3 if rock == "OX" else 2.65)
                x, y, z = (first + k * size for first, k, size in zip((*SOUTH_WEST, FLOOR), (column, row, level), SIZE))
                region = "west" if column + 0.3 * row < 0.42 * columns + 0.15 * rows else "east"
                name = f"B{column + 1:03d}-{row + 1:03d}-{level + 1:03d}"
                yield f"{name},{x:g},{y:g},{z:g},{tonnes:g},{copper[here]:.3f},{gold[here]:.3f},{rock},{region}\n"


def model_of(columns, rows, levels, seed):
    """The header and one line a block of a model: the same ground, with grades of another seed."""
    ground, copper, gold, _ = deposit(columns, rows, levels, seed)
    yield "id,cu_pct,au_gpt\n"
    for level, row, column in np.argwhere(ground):
        here = (level, row, column)
        yield f"B{column + 1:03d}-{row + 1:03d}-{level + 1:03d},{copper[here]:.3f},{gold[here]:.3f}\n"


def main():
    parser = argparse.ArgumentParser(description="Makes a synthetic deposit as a table of blocks.")
    parser.add_argument("--columns", type=int, default=26, help="blocks from west to east (default 26)")
    parser.add_argument("--rows", type=int, default=22, help="blocks from south to north (default 22)")
    parser.add_argument("--levels", type=int, default=15, help="blocks from the floor up (default 15)")
    parser.add_argument("--seed", type=int, default=4, help="default 4")
    parser.add_argument("--out", required=True, help="the file, .csv or .csv.gz")
    parser.add_argument("--models", type=int, default=0, help="how many models to write too (default none)")
    parser.add_argument("--folder", default="models", help="where models are written (default models)")
    options = parser.parse_args()
    if min(options.columns, options.rows, options.levels) < 1:
        parser.error("--columns, --rows and --levels are numbers from 1 on")
    try:
        write(options)
    except OSError as error:
        parser.exit(1, f"{error.filename or options.out}: {error.strerror}\n")


def write(options):
    size = (options.columns, options.rows, options.levels)
    os.makedirs(os.path.dirname(options.out) or ".", exist_ok=True)
    opened = gzip.open(options.out, "wt") if options.out.endswith(".gz") else open(options.out, "w", encoding="ascii")
    with opened as file:
        file.writelines(table_of(*size, options.seed))
    for number in range(1, options.models + 1):
        os.makedirs(options.folder, exist_ok=True)
        with open(os.path.join(options.folder, f"model_{number:03d}.csv"), "w", encoding="ascii") as file:
            file.writelines(model_of(*size, options.seed + number))


if __name__ == "__main__":
    main()

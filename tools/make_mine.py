#!/usr/bin/env python3
"""Makes a synthetic mine: a grid of blocks with ore bodies in it, and the slopes that a pit must keep.

    tools/make_mine.py --blocks 1000 --slopes 1:5 --seed 7 --out examples/small_mine/mine
    tools/make_mine.py --blocks 200000 --slopes 1:9 --ore pipes --out pipes

writes mine.upit (the value of each block), mine.prec (the blocks that each block needs) and mine.blocks (place, revenue
and cost of each block; a block's value is its revenue less its cost). The same arguments give the same bytes.

Blocks are numbered from the top level down, row by row. Slopes: with 1:5 a block needs the block above it and that
one's four neighbours, with 1:9 all nine; with cone it needs, in the three levels above, the blocks within a cone of
45 degrees (of the third level the outer ring alone, since the inner ones follow).

Ore: three ellipsoids (bodies), unless --ore names another kind: three thin sheets that dip (sheets), eight narrow columns down to the floor
(pipes), ore in every third block without any order (noise), or bodies in which a block is worth at most three cents more or less than
it costs, and most are worth nothing (zeros).
"""

import argparse
import math
import pathlib
import random


def grid_of(blocks):
    """Width, breadth and depth of a flat box of about `blocks` blocks."""
    depth = max(1, round((blocks / 16) ** (1 / 3)))
    side = max(1, round(math.sqrt(blocks / depth)))
    return side, side, depth


def offsets_of(slopes):
    """Where the needed blocks lie: steps east, north and up."""
    if slopes == "1:5":
        return [(0, 0, 1), (-1, 0, 1), (1, 0, 1), (0, -1, 1), (0, 1, 1)]
    if slopes == "1:9":
        return [(x, y, 1) for y in (-1, 0, 1) for x in (-1, 0, 1)]
    around = [(x, y) for y in range(-3, 4) for x in range(-3, 4)]
    cone = [(x, y, up) for up in (1, 2) for x, y in around if x * x + y * y <= up * up]
    return cone + [(x, y, 3) for x, y in around if 4 < x * x + y * y <= 9]


class Ore:
    """An ellipsoid in which the grade falls from its middle to its rim."""

    def __init__(self, rng, width, breadth, depth):
        self.middle = (rng.uniform(0.25, 0.75) * width, rng.uniform(0.25, 0.75) * breadth, rng.uniform(0.3, 0.8) * depth)
        self.radius = (rng.uniform(0.12, 0.3) * width, rng.uniform(0.12, 0.3) * breadth, rng.uniform(0.2, 0.5) * depth)
        self.richness = rng.uniform(6, 20)

    def grade(self, place):
        far = sum(((p - m) / max(r, 0.5)) ** 2 for p, m, r in zip(place, self.middle, self.radius))
        return self.richness * (1 - far) if far < 1 else 0.0


class Sheet:
    """A layer some blocks thick that dips, with one grade."""

    def __init__(self, rng, width, breadth, depth):
        self.dip = (rng.uniform(-0.4, 0.4) * depth / width, rng.uniform(-0.4, 0.4) * depth / breadth)
        self.top, self.middle = rng.uniform(0.2, 0.7) * depth, (width / 2, breadth / 2)
        self.thickness, self.richness = max(1.0, rng.uniform(0.03, 0.08) * depth), rng.uniform(3, 8)

    def grade(self, place):
        top = self.top + sum(dip * (p - m) for dip, p, m in zip(self.dip, place, self.middle))
        return self.richness if top <= place[2] < top + self.thickness else 0.0


class Pipe:
    """A column that is narrow and goes down to the floor; the grade rises with depth."""

    def __init__(self, rng, width, breadth, depth):
        self.middle, self.depth = (rng.uniform(0.1, 0.9) * width, rng.uniform(0.1, 0.9) * breadth), depth
        self.radius, self.richness = max(1.0, rng.uniform(0.02, 0.06) * width), rng.uniform(10, 60)

    def grade(self, place):
        far = sum((p - m) ** 2 for p, m in zip(place, self.middle))
        return self.richness * (0.2 + place[2] / self.depth) if far <= self.radius**2 else 0.0


class Noise:
    """Ore in every third block on average, without any order."""

    def __init__(self, rng, width, breadth, depth):
        self.rng = rng

    def grade(self, place):
        return self.rng.uniform(0, 6) if self.rng.random() < 1 / 3 else 0.0


# Kinds of ore: what it consists of, and how many of these.
BODIES, ZEROS = "bodies", "zeros"
KINDS = {BODIES: (Ore, 3), "sheets": (Sheet, 3), "pipes": (Pipe, 8), "noise": (Noise, 1), ZEROS: (Ore, 3)}
# Of blocks worth nearly nothing this share is worth nothing, and the others this many cents more or less at most.
NOTHING, LITTLE = 0.6, 3


def decimal(cents):
    return f"{cents // 100}.{cents % 100:02d}" if cents >= 0 else f"-{-cents // 100}.{-cents % 100:02d}"


def write_mine(prefix, blocks, slopes, seed, ore=BODIES):
    rng = random.Random(f"{seed}/{blocks}/{slopes}" + f"/{ore}" * (ore != BODIES))
    width, breadth, depth = grid_of(blocks)
    kind, number = KINDS[ore]
    ores = [kind(rng, width, breadth, depth) for _ in range(number)]
    offsets = offsets_of(slopes)
    count = width * breadth * depth
    with open(prefix + ".upit", "w") as model, open(prefix + ".prec", "w") as prec, open(prefix + ".blocks", "w") as table:
        model.write(f"NAME: mine of {count} blocks, slopes {slopes}, seed {seed}\nTYPE: UPIT\nNBLOCKS: {count}\nOBJECTIVE_FUNCTION:\n")
        block = 0
        for z in range(depth):
            for y in range(breadth):
                for x in range(width):
                    grade = sum(ore.grade((x, y, z)) for ore in ores)
                    revenue = round(100 * grade * rng.uniform(0.6, 1.4)) if grade > 0 else 0
                    cost = round(100 * (1 + 0.02 * z) * rng.uniform(0.9, 1.1))
                    if ore == ZEROS:
                        revenue = cost + (0 if rng.random() < NOTHING else rng.randint(-LITTLE, LITTLE))
                    model.write(f"{block} {decimal(revenue - cost)}\n")
                    table.write(f"{block} {x} {y} {-z} {decimal(revenue)} {decimal(cost)}\n")
                    needs = sorted(
                        ((z - up) * breadth + y + north) * width + x + east
                        for east, north, up in offsets
                        if z >= up and 0 <= x + east < width and 0 <= y + north < breadth
                    )
                    if needs:
                        prec.write(f"{block} {len(needs)} {' '.join(map(str, needs))}\n")
                    block += 1


def main():
    parser = argparse.ArgumentParser(description="Makes a synthetic mine.")
    parser.add_argument("--blocks", type=int, default=1000, help="about how many blocks (default 1000)")
    parser.add_argument("--slopes", choices=("1:5", "1:9", "cone"), default="1:5", help="default 1:5")
    parser.add_argument("--seed", type=int, default=1, help="default 1")
    parser.add_argument("--ore", choices=tuple(KINDS), default=BODIES, help=f"default {BODIES}")
    parser.add_argument("--out", required=True, help="the files are OUT.upit, OUT.prec and OUT.blocks")
    options = parser.parse_args()
    if options.blocks < 1:
        parser.error("--blocks is a number from 1 on")
    try:
        pathlib.Path(options.out).parent.mkdir(parents=True, exist_ok=True)
        write_mine(options.out, options.blocks, options.slopes, options.seed, options.ore)
    except OSError as error:
        parser.exit(1, f"{error.filename or options.out}: {error.strerror}\n")


if __name__ == "__main__":
    main()

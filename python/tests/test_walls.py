"""What pairs lead to where regions meet and at the grid's sides, against all that the walls of each block need."""

import math
from decimal import Decimal
from pathlib import Path

import numpy as np
import pandas as pd
from conftest import rows
from helpers.random_tests import examples
from hypothesis import given, strategies as st

import pitplan
from pitplan.config.project import of_data
from pitplan.solver import mine_files

CUBE, FLAT, TALL = (10.0, 10.0, 10.0), (20.0, 20.0, 15.0), (5.0, 10.0, 12.0)
NAMED = {"1:5": {(0, 0), (-1, 0), (1, 0), (0, -1), (0, 1)}, "1:9": {(x, y) for x in (-1, 0, 1) for y in (-1, 0, 1)}}


def flatness(angles, azimuth):
    """The cotangent that is asked at an azimuth: linear from the named one before it to the one behind."""
    named = sorted((at % 360, 1 / math.tan(math.radians(angle))) for at, angle in angles)
    for (at, here), (then, there) in zip(named, [*named[1:], (named[0][0] + 360, named[0][1])]):
        along = (azimuth - at) % 360
        if along <= then - at:
            return here + (there - here) * along / (then - at)
    raise AssertionError(azimuth)


def all_steps(domain, levels, size, shape, widened):
    """Every step of a wall entry, straight from what it says, as far as a grid of this shape may have both its ends."""
    (dx, dy, dz), (high, broad, wide) = size, shape
    box = [(x, y) for x in range(1 - wide, wide) for y in range(1 - broad, broad)]
    if domain.pattern:
        return [(x, y, 1) for x, y in box if (x, y) in NAMED[domain.pattern]]
    found = []
    for x, y in box:
        far = math.hypot(x * dx, y * dy)
        flat = widened * flatness(domain.angles, math.degrees(math.atan2(x * dx, y * dy)) % 360)
        found += [(x, y, up) for up in range(1, min(levels, high - 1) + 1) if far <= up * dz * flat + 1e-6]
    return found


def closures(precedences):
    """All that each block needs, directly or through others, as the bits of a number; `precedences` has a set a block."""
    found = []
    for needed in precedences:  # needed blocks have lesser numbers, so theirs are whole
        bits = 0
        for block in needed:
            bits |= 1 << block | found[block]
        found.append(bits)
    return found


def precedences_of_domains(plan):
    """For each block all blocks that its walls need."""
    grid, entries = plan.grid, plan.project.slopes.domains
    levels, broad, wide = grid.shape
    by_entry = [
        all_steps(domain, pattern.levels, grid.size, grid.shape, pattern.widened)
        for domain, pattern in zip(entries, plan.domains.patterns)
    ]
    result = []
    for block in range(grid.count):
        level, row, column = (int(part) for part in np.unravel_index(block, grid.shape))
        places = [(level - up, row + y, column + x) for x, y, up in by_entry[plan.domains.code[block]]]
        there = [(k, j, i) for k, j, i in places if k >= 0 and 0 <= j < broad and 0 <= i < wide]
        result.append({(k * broad + j) * wide + i for k, j, i in there})
    return result


def precedences_written(plan, folder):
    """For each block the blocks that its line of mine.prec names."""
    mine_files.write(plan, folder)
    result = [set() for _ in range(plan.grid.count)]
    for fields in map(str.split, open(folder / mine_files.PREC)):
        needed = [int(field) for field in fields[2:]]
        assert int(fields[1]) == len(needed) and needed == sorted(set(needed))
        if int(fields[0]) < plan.grid.count:  # the others are nodes of processing
            result[int(fields[0])] = set(needed)
    return result


def project_of(domains, levels, size, never_steeper=False):
    """A project in memory with the given walls; its table comes from pandas."""
    section = {
        "domains": domains,
        "never_steeper": never_steeper,
        **({} if levels is None else {"precedence_benches": levels}),
    }
    return of_data(
        {
            "table": {"file": "blocks.csv", "domain": "region"},
            "grid": {"size": [Decimal(side) for side in size]},
            "economics": {"mining_cost": 2, "processing_cost": 10},
            "metals": [{"name": "copper", "column": "cu", "unit": "percent", "price": 8000, "recovery": 1}],
            "slopes": section,
            "shells": {"revenue_factors": [1], "discount_rate": 0, "processing_capacity": 100},
        },
        Path("project.toml"),
    )


def regions_of_ground(kind, rng, shape):
    """A region of three for each cell, the floor's level first."""
    levels, broad, wide = shape
    if kind == "layers":
        return np.broadcast_to(rng.integers(0, 3, levels)[:, None, None], shape)
    if kind == "columns":
        return np.broadcast_to(rng.integers(0, 3, (broad, wide)), shape)
    if kind == "blobs":
        places = np.stack(np.indices(shape), axis=-1)
        seeds = rng.random((5, 3)) * shape
        return np.linalg.norm(places[..., None, :] - seeds, axis=-1).argmin(-1) % 3
    return rng.integers(0, 3, shape)


def table_of(rng, kind, shape, size):
    """Blocks of a ground whose surface goes up and down, in one to three regions."""
    region = regions_of_ground(kind, rng, shape)
    ground = np.arange(shape[0])[:, None, None] < rng.integers(1, shape[0] + 1, shape[1:])
    ground[:, 0, 0] = ground[:, -1, -1] = True
    level, row, column = np.nonzero(ground)
    places = {"x": column * size[0], "y": row * size[1], "z": level * size[2]}
    return pd.DataFrame({**places, "tonnes": 1.0, "cu": 0.0, "region": region[ground].astype(str)})


ANGLE = st.integers(25, 65).map(lambda angle: {"angle": angle})
PAIR = st.tuples(st.integers(0, 23).map(lambda k: 15 * k), st.integers(25, 65))
AZIMUTHS = st.lists(PAIR, min_size=2, max_size=4, unique_by=lambda pair: pair[0]).map(
    lambda pairs: {"azimuths": [list(pair) for pair in pairs]}
)
ENTRY = st.one_of(ANGLE, AZIMUTHS, st.sampled_from([{"pattern": "1:5"}, {"pattern": "1:9"}]))
SHAPE = st.tuples(st.integers(2, 7), st.integers(1, 8), st.integers(1, 8))


@examples(25)
@given(
    st.lists(ENTRY, min_size=3, max_size=3),
    st.sampled_from(["layers", "columns", "blobs", "noise"]),
    SHAPE,
    st.sampled_from([CUBE, FLAT, TALL]),
    st.one_of(st.none(), st.integers(1, 6)),
    st.booleans(),
    st.integers(0, 10**6),
)
def test_pairs_lead_to_all_that_the_walls_need_and_to_no_more(
    tmp_path_factory, entries, kind, shape, size, levels, never_steeper, seed
):
    named = [{**entry, "domain": str(number)} for number, entry in enumerate(entries)]
    table = table_of(np.random.default_rng(seed), kind, shape, size)
    plan = pitplan.Plan.from_project(project_of(named, levels, size, never_steeper), table=table)
    plan.used[:] = True
    written = precedences_written(plan, tmp_path_factory.mktemp("walls"))
    needed = precedences_of_domains(plan)
    assert all(some <= every for some, every in zip(written, needed))
    assert closures(written) == closures(needed)


@examples(12)
@given(
    st.lists(ENTRY, min_size=3, max_size=3),
    st.sampled_from(["layers", "columns", "blobs"]),
    st.integers(0, 10**6),
)
def test_a_block_that_pays_has_all_that_its_walls_need_written(tmp_path_factory, entries, kind, seed):
    named = [{**entry, "domain": str(number)} for number, entry in enumerate(entries)]
    rng = np.random.default_rng(seed)
    table = table_of(rng, kind, (6, 7, 7), CUBE)
    ore = int(rng.integers(0, len(table)))
    table.loc[ore, "cu"] = 100.0
    plan = pitplan.Plan.from_project(project_of(named, 5, CUBE), table=table)
    block = int(plan.grid.rows[ore])
    needed = closures(precedences_of_domains(plan))[block]
    assert set(np.flatnonzero(plan.used)) == {block, *(k for k in range(plan.grid.count) if needed >> k & 1)}
    # Blocks whose needs are left out lead nowhere, so the whole closure must come from those that are written.
    assert closures(precedences_written(plan, tmp_path_factory.mktemp("walls")))[block] == needed


def test_a_flat_layer_under_steep_rock_digs_its_whole_cone(tmp_path):
    """One block of ore in a layer of 30 degrees, under nine levels of 60 degrees."""
    table = rows(61, 61, 10, region=lambda i, j, k: "weak" if k == 0 else "strong")
    table.loc[(table["x"] == 305) & (table["y"] == 305) & (table["z"] == 5), "cu"] = 100.0
    entries = [{"domain": "weak", "angle": 30}, {"domain": "strong", "angle": 60}]
    plan = pitplan.Plan.from_project(project_of(entries, 9, CUBE), table=table)
    far = [up / math.tan(math.radians(30)) for up in range(10)]
    cells = sum(math.hypot(x, y) <= reach for reach in far for x in range(-20, 21) for y in range(-20, 21))
    assert cells == 2682 and plan.used.sum() == 2682
    needed = closures(precedences_written(plan, tmp_path))[int(np.flatnonzero(plan.used).max())]
    assert needed.bit_count() == 2681

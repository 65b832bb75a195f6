"""The example with a plant and a surface as mined: against its expected tables, against the plain example, and against its own rows."""

import csv
import math
import os
import subprocess
import sys

import numpy as np
import pandas as pd
import pytest
from conftest import ROOT
from helpers.writings import PLAIN
from oracle.slopes import cotangent

import pitplan
from pitplan import Plan
from pitplan.solver import program

EXAMPLE = ROOT / "examples" / "fixed"
WALLS = {"west": [(0, 45)], "east": [(0, 48), (90, 42), (180, 48), (270, 45)]}
LEVELS = 8
# Centre of the first block and the blocks' size, in metres.
PLACES = (("x", 5010, 20), ("y", 2010, 20), ("z", 2707.5, 15))


@pytest.fixture(scope="module")
def folder(tmp_path_factory):
    """The shells of the example and, in pit, its pit of revenue factor 1.00."""
    place = tmp_path_factory.mktemp("fixed")
    pitplan.write_shells(EXAMPLE / "project.toml", place, writing=PLAIN)
    pitplan.write_pit(EXAMPLE / "project.toml", 1.0, place / "pit", writing=PLAIN)
    return place


def table_of_rows():
    """The rows of the table, by column from the west, row from the south and level from the floor."""
    with open(ROOT / "examples" / "plan" / "blocks.csv", newline="") as file:
        rows = list(csv.DictReader(file))
    return {tuple(round((float(row[axis]) - first) / step) for axis, first, step in PLACES): row for row in rows}


def by_hand(rows):
    """The cut is 4 x 3 columns, two blocks deep; the plant stands on 4 x 4 columns."""
    top = {}
    for i, j, k in rows:
        top[i, j] = max(top.get((i, j), 0), k)
    must_mine = {(i, j, top[i, j] - down) for i in range(12, 16) for j in range(12, 15) for down in (0, 1)}
    return must_mine, {(i, j, k) for i, j, k in rows if 20 <= i < 24 and 9 <= j < 13}


def test_the_tables_are_the_expected_ones(folder):
    for name, written in (
        ("shells.csv", folder / "tables/shells.csv"),
        ("pits.csv", folder / "pit" / "tables/pits.csv"),
    ):
        tables = [
            pd.read_csv(path, dtype={"value_at_revenue_factor": str}) for path in (EXAMPLE / "expected" / name, written)
        ]
        pd.testing.assert_frame_equal(*tables, rtol=1e-9)


def test_the_fixed_blocks_are_those_of_the_map():
    """24 blocks of the cut; on the plant's 16 columns stand 13 x 11 + 3 x 12 = 179."""
    rows = table_of_rows()
    must_mine, excluded = by_hand(rows)
    plan = Plan.from_project(EXAMPLE / "project.toml")
    called = plan.blocks.set_index("id")["planner_id"]
    assert {rows[place]["id"] for place in must_mine} == set(called[plan.fixed.must_mine])
    assert {rows[place]["id"] for place in excluded} == set(called[plan.fixed.excluded])
    assert len(must_mine) == 24 and len(excluded) == 179
    assert "24 must-mine blocks and 179 excluded blocks" in plan.notes


def test_without_fixed_blocks_the_pit_is_that_of_the_plain_example_less_the_cut(folder):
    """The cut lies within the plain pit; what was mined of it neither costs nor yields anything now."""
    pits = pd.read_csv(folder / "pit" / "tables/pits.csv").set_index("fixed_blocks")
    plain = pd.read_csv(ROOT / "examples" / "plan" / "expected" / "shells.csv").set_index("revenue_factor").loc[1.0]
    rows = table_of_rows()
    called = {rows[place]["id"] for place in by_hand(rows)[0]}
    plan = Plan.from_project(ROOT / "examples" / "plan" / "project.toml")
    blocks = plan.blocks[plan.blocks["planner_id"].isin(called)]
    is_ore = blocks["revenue"] > blocks["processing_cost"]
    gone = {"blocks": 24, "tonnes": blocks["tonnes"].sum(), "feed_tonnes": blocks["tonnes"][is_ore].sum()}
    gone["undiscounted_cash_flow"] = (blocks["revenue"] - blocks["processing_cost"])[is_ore].sum() - blocks[
        "mining_cost"
    ].sum()
    for name, amount in gone.items():
        assert pits[name]["free"] == pytest.approx(plain[name] - amount, rel=1e-9), name
    cost = pits["undiscounted_cash_flow"]["free"] - pits["undiscounted_cash_flow"]["kept"]
    page = (ROOT / "docs" / "planning" / "constraints.md").read_text(encoding="utf-8")
    assert (
        cost > 0
        and f"both constraints cost {cost / 1e6:.1f} of {pits['undiscounted_cash_flow']['free'] / 1e6:.1f} million USD"
        in page
    )


@pytest.mark.parametrize("factor", [0.4, 0.6, 0.8, 1.0])
def test_each_shell_keeps_to_walls_cut_and_plant(folder, factor):
    """By the whole cone above each block that is dug, as the walls are asked for."""
    rows = table_of_rows()
    must_mine, excluded = by_hand(rows)
    blocks = pd.read_csv(folder / "tables/blocks.csv").set_index("planner_id")["revenue_factor"]
    pit = {place for place, row in rows.items() if 0 < blocks[row["id"]] <= factor}
    assert must_mine <= pit and not excluded & pit
    cones = {region: cone(domain) for region, domain in WALLS.items()}
    for i, j, k in pit:
        above = {(i + east, j + north, k + up) for east, north, up in cones[rows[i, j, k]["region"]]}
        assert above & rows.keys() <= pit, (i, j, k)


def cone(domain):
    """The steps east, north and up to each block that one needs, on blocks of 20 x 20 x 15 m."""
    found = []
    for up, north, east in np.ndindex(LEVELS, 17, 17):
        x, y, z = 20 * (east - 8), 20 * (north - 8), 15 * (up + 1)
        if math.hypot(x, y) <= z * cotangent(domain, math.degrees(math.atan2(x, y)) % 360) + 1e-7:
            found.append((east - 8, north - 8, up + 1))
    return found


def test_others_can_check_the_pit(folder):
    """By the program and by the short checker, which shares nothing with it."""
    environment = {**os.environ, "PITSHELL": str(program.program()), "PYTHON": sys.executable}
    words = ["sh", str(pitplan.audit(folder, 1.0) / "check.sh")]
    ran = subprocess.run(words, env=environment, capture_output=True, text=True)
    assert ran.stdout == "hashes: yes\npitshell check: yes\ncheck_certificate.py: yes\n", ran.stderr

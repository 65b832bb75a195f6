"""The second look at cells without rows, at the surface as mined between its points, and at the pit without fixed blocks."""

from dataclasses import replace
from decimal import Decimal
from functools import partial
from itertools import combinations
from types import SimpleNamespace

import numpy as np
import pandas as pd
import pytest
from conftest import PROJECT
from helpers.constraints import FIXED_SECTION, ores_and_fixed, with_section
from helpers.missing_blocks import ROCK, deposit
from helpers.scenarios import COLUMNS, UPRIGHT, pillar, prepared, solved_in_turn
from helpers.verified import looked_at, ore_everywhere, wrong
from helpers.writings import PLAIN

import pitplan
from pitplan import Plan, PlanError, constraints, load, verify
from pitplan.blockmodel import missing_blocks, topography
from pitplan.results.folder import read_record
from pitplan.solver import problem


def holed():
    """Seven columns of three blocks, of which one lacks its middle, another its floor, and a third has no rows; one has no top, and one
    has its floor alone."""
    table = deposit()
    return table[~table["name"].isin(["b1-0-1", "b5-0-0", "b4-0-0", "b4-0-1", "b4-0-2", "b2-0-2", "b6-0-1", "b6-0-2"])]


# By the program's numbers, which run from the top level of seven down.
CELLS = [4, 8, 11, 18, 19]


def absent_rule(path):
    (rule,) = [rule for rule in looked_at(Plan.from_project(path)) if rule.name == "missing blocks"]
    return rule


def test_rock_of_cells_without_rows_is_that_of_the_project(plan_folder):
    path = plan_folder(holed(), PROJECT, ROCK)
    assert [rule.differences for rule in looked_at(Plan.from_project(path))] == [()] * 11
    assert "is filled with 100 t and codes of the project" in absent_rule(path).holds
    assert Plan.from_project(path).blocks.query("name.str.startswith('absent')")["id"].tolist() == CELLS


@pytest.mark.parametrize(
    ("column", "value", "said"),
    [
        ("tonnes", 90.0, "tonnes 90.0 for 100.0"),
        ("rock", "S", "rock S for R"),
        ("region", "2", "region 2 for 1"),
        ("cu", 0.01, "cu 0.01 for 0.0"),
        ("name", "none", None),
    ],
)
def test_rock_that_the_project_does_not_give_is_found(plan_folder, monkeypatch, column, value, said):
    """Each of the five blocks is bent."""
    right = missing_blocks.with_rows

    def bent(frame, grid, project):
        table, grid = right(frame, grid, project)
        ids = np.arange(len(table)) >= len(frame)
        values = [f"{value}-{k}" for k in range(len(table))] if column == "name" else value
        return table.assign(**{column: table[column].where(~ids, values)}), grid

    path = plan_folder(holed(), PROJECT, ROCK)
    monkeypatch.setattr(missing_blocks, "with_rows", bent)
    rule = absent_rule(path)
    assert rule.count == 5
    assert rule.differences[0] == (f"block absent-4: {said}" if said else "block none-13 is of the cell 4")


@pytest.mark.parametrize(
    ("cells", "said"),
    [
        (CELLS[:-1], "the cell 19 is a missing block and is not filled"),
        ([*CELLS, 6], "block absent-6 fills a cell above the highest of its column"),
        ([*CELLS, 13], "block absent-13 fills a cell above the highest of its column"),
    ],
)
def test_cells_that_are_passed_over_or_are_air_are_found(plan_folder, monkeypatch, cells, said):
    path = plan_folder(holed(), PROJECT, ROCK)
    monkeypatch.setattr(missing_blocks, "unknown_cells", lambda grid: np.setdiff1d(cells, grid.rows))
    rule = absent_rule(path)
    assert (rule.count, rule.differences) == (1, (said,))


def test_rock_of_scenarios_that_the_project_does_not_give_is_found(plan_folder, monkeypatch):
    table = pillar()
    rock = ("file =", 'missing_blocks = { tonnes = 90, rock_type = "R", domain = "1" }\nfile =')
    path = plan_folder(table[table["name"] != "b0-0-1"], COLUMNS, UPRIGHT, rock)
    right = missing_blocks.with_rows
    heavy = {"tonnes": 95.0}
    monkeypatch.setattr(
        missing_blocks, "with_rows", lambda frame, grid, project: right(frame, grid, with_absent(project, heavy))
    )
    shared = prepared(path)
    solved_in_turn(shared)
    with pytest.raises(PlanError, match="missing blocks: block absent-1: tonnes 95.0 for 90.0"):
        pitplan.gather(shared.folder, writing=PLAIN)


def with_absent(project, changed):
    return replace(
        project, table=replace(project.table, missing_blocks=replace(project.table.missing_blocks, **changed))
    )


def surfaced(plan_folder, tmp_path, points):
    """A project of seven by three columns of two levels, whose surface as mined these points tell."""
    pd.DataFrame(np.add(points, [600_000, 6_512_000, 0]), columns=["x", "y", "z"]).to_csv(
        tmp_path / "mined.csv", index=False
    )
    return plan_folder(
        ore_everywhere().assign(cu=0), PROJECT + '\n[constraints]\nas_mined = "mined.csv"\ntopography = "blocks"\n'
    )


def fixed_rule(path):
    (rule,) = [rule for rule in looked_at(Plan.from_project(path)) if rule.name == "constraints"]
    return rule


def test_a_surface_that_is_not_laid_between_its_points_is_found(plan_folder, tmp_path, monkeypatch):
    """A plane that falls to the east from 20 to -1 m, told at four far corners: the upper centres, at 15 m, lie above it from x = 25 on,
    and the lower, at 5 m, from x = 55 on."""
    path = surfaced(plan_folder, tmp_path, [(x, y, 20 - 0.3 * x) for x in (-90, 160) for y in (-70, 120)])
    assert fixed_rule(path).differences == ()
    assert "with the mined-out blocks" in fixed_rule(path).holds
    monkeypatch.setattr(topography, "heights", lambda triangles, grid: np.full(grid.per_level, 1000.0))
    rule = fixed_rule(path)
    assert (rule.count, rule.differences[0]) == (
        3 * 5 + 3 * 2,
        "block b5-0-0 is must-mine, and is mined from revenue factor 0.00",
    )
    monkeypatch.setattr(
        topography,
        "heights",
        lambda triangles, grid: 20 - 0.3 * (grid.centres(np.arange(grid.per_level))[0] - 600_000) + 3,
    )
    # The plane three metres higher: from x = 35 and 65 on.
    assert fixed_rule(path).count == 3 + 3


@pytest.mark.parametrize("seed", range(6))
def test_any_triangles_of_a_regular_grid_of_points_are_right(plan_folder, tmp_path, seed):
    """Four corners on one circle may be parted by either diagonal; heights are uneven, and some points stand twice."""
    rng = np.random.default_rng(seed)
    places = [(x, y) for x in np.arange(-20, 100, 20.0) for y in np.arange(-20, 60, 20.0)]
    places += places[:: seed + 2] if seed % 2 else rng.uniform([-20, -20], [90, 50], (20, 2)).tolist()
    path = surfaced(plan_folder, tmp_path, [(x, y, rng.uniform(-5, 25)) for x, y in places])
    plan = Plan.from_project(path)
    assert 0 < len(plan.fixed.must_mine) < 42
    assert fixed_rule(path).differences == ()


def test_the_highest_triangle_of_a_square_is_demanded(plan_folder, tmp_path, monkeypatch):
    """Corners of 0 and 16 m across: over the middle, at the column x = 35, y = 15, the diagonals lie at 0 and at 16 m."""
    square = [(5, -15, 0), (65, 45, 0), (5, 45, 16), (65, -15, 16)]
    path = surfaced(plan_folder, tmp_path, square)
    monkeypatch.setattr(constraints, "of_table", lambda *_: constraints.NOTHING)
    # From the middle in shares of 30 m: between the low corners 8 |u - v| lies higher beside the diagonal, and between the high ones
    # 16 - 8 |u + v|. The outermost columns lie at the outline.
    shares = [((x - 35) / 30, (y - 15) / 30) for x in range(15, 60, 10) for y in (5, 15, 25)]
    heights = [max(8 * abs(u - v), 16 - 8 * abs(u + v)) for u, v in shares]
    assert max(heights) == 16
    assert fixed_rule(path).count == sum(height < z for height in heights for z in (5, 15)) > 0


def laid(points, x, y):
    """The height at a place by definition: of three points round it, through which a circle goes that holds no other; else infinite."""
    for three in combinations(range(len(points)), 3):
        corners, heights = points[list(three), :2], points[list(three), 2]
        shares = np.linalg.solve(np.vstack([corners.T, np.ones(3)]), [x, y, 1])
        middle = np.linalg.solve(2 * (corners[1:] - corners[0]), (corners[1:] ** 2 - corners[0] ** 2).sum(axis=1))
        far = np.hypot(*(points[:, :2] - middle).T)
        if shares.min() >= 0 and far.min() > far[three[0]] - 1e-6:
            return float(shares @ heights)
    return np.inf


@pytest.mark.parametrize("seed", range(4))
def test_demanded_is_what_lies_above_the_points_and_their_triangles(plan_folder, tmp_path, monkeypatch, seed):
    """Points in no order at all, some of them over columns, and nothing that is dug."""
    rng = np.random.default_rng(seed)
    points = np.column_stack([rng.uniform([-30, -30], [100, 60], (16, 2)), rng.uniform(-15, 20, 16)])
    expected = 0
    for column, row in np.ndindex(7, 3):
        over = points[(points[:, 0] // 10 == column) & (points[:, 1] // 10 == row), 2]
        ground = over.mean() if len(over) else laid(points, 5 + 10 * column, 5 + 10 * row)
        expected += sum(z > ground for z in (5, 15))
    path = surfaced(plan_folder, tmp_path, points)
    monkeypatch.setattr(constraints, "of_table", lambda *_: constraints.NOTHING)
    assert fixed_rule(path).count == expected > 0


@pytest.mark.parametrize("points", [[(3, 4, 0)], [(3, 4, 0), (3, 4, 2)], [(0, 0, 0), (10, 5, 0), (40, 20, 0)]])
def test_points_that_make_no_triangle_demand_nothing_beside_them(plan_folder, tmp_path, points):
    path = surfaced(plan_folder, tmp_path, points)
    assert len(Plan.from_project(path).fixed.must_mine) > 0
    assert fixed_rule(path).differences == ()


@pytest.fixture
def pits(plan_folder):
    """The folder of a pit with fixed blocks and without them."""
    project = load(plan_folder(ores_and_fixed(), with_section(FIXED_SECTION)))
    pitplan.write_pit(project, 1.5, writing=PLAIN)
    verified = read_record(project.folder / "pit")["verified"]
    assert [line.split(":")[0] for line in verified][-3:] == ["years", "conventions", "without constraints"]
    return project.folder / "pit"


def test_both_pits_are_right(pits):
    assert wrong(pits) == set()
    blocks = pd.read_csv(pits / "tables/blocks.csv").set_index("name")
    # The ore of 6 % pays for its pit from the first factor on, that of 0.5 % from 1.0 on: 2000 less 1000 and four blocks of 200.
    assert blocks.loc[["b2-0-0", "b5-0-0", "b6-0-0", "b0-0-1"], "free_revenue_factor"].tolist() == [0.5, 1.0, 0, 0]
    assert blocks.loc[["b2-0-0", "b5-0-0", "b6-0-0", "b0-0-1"], "free_process_revenue_factor"].tolist() == [
        0.5,
        1.0,
        0,
        0,
    ]


SUMS = "blocks tonnes feed_tonnes waste_tonnes strip_ratio processed_at_revenue_factor head_grade_copper recovered_copper undiscounted_cash_flow npv_best npv_worst years"


@pytest.mark.parametrize("column", [*SUMS.split(), "value_at_revenue_factor"])
@pytest.mark.parametrize("pit", ["kept", "free"])
def test_each_number_of_either_pit_that_is_bent_is_found(pits, column, pit):
    """A hundredth more."""
    table = pd.read_csv(pits / "tables/pits.csv", dtype={"value_at_revenue_factor": str})
    at = table.index[table["fixed_blocks"] == pit][0]
    bent = float(table.loc[at, column]) + (1 if column == "blocks" else 0.02)
    table.loc[at, column] = f"{bent:.6f}" if column == "value_at_revenue_factor" else bent
    table.to_csv(pits / "tables/pits.csv", index=False)
    assert ("without constraints" in wrong(pits)) == (pit == "free") and wrong(pits) != set()


@pytest.mark.parametrize("column", ["free_revenue_factor", "free_process_revenue_factor"])
def test_a_block_of_the_pit_without_fixed_blocks_at_another_factor_is_found(pits, column):
    blocks = pd.read_csv(pits / "tables/blocks.csv")
    blocks.loc[blocks.index[blocks[column] == 0.5][-1], column] = 0
    blocks.to_csv(pits / "tables/blocks.csv", index=False)
    assert wrong(pits) == {"without constraints"}


def test_a_pit_without_fixed_blocks_that_is_worth_less_is_found(pits):
    """What keeping to the fixed blocks would gain: no pit of all is worth less than one that keeps to some."""
    table = pd.read_csv(pits / "tables/pits.csv", dtype={"value_at_revenue_factor": str})
    worth = table.set_index("fixed_blocks")["value_at_revenue_factor"].map(Decimal)
    assert worth["free"] > worth["kept"]
    table.assign(value_at_revenue_factor=["999999.0", table["value_at_revenue_factor"][1]]).to_csv(
        pits / "tables/pits.csv", index=False
    )
    (rule,) = [rule for rule in verify(pits) if rule.name == "without constraints"]
    assert rule.differences == (
        f"revenue factor 1.50: value_at_revenue_factor {table['value_at_revenue_factor'][1]} is less than with constraints",
    )


def test_a_pit_without_fixed_blocks_that_leaves_a_block_standing_is_refused(plan_folder, monkeypatch):
    """Its answer is bent after the solver: a block that ore needs is dug no more."""

    def bent(ready, *words):
        made = ready(*words)

        def free_shells(factors):
            found = made.free_shells(factors)
            found.entry[np.flatnonzero(found.entry > 0)[0]] = 0
            return found

        kept = {name: getattr(made, name) for name in ("plan", "solver", "pairs", "shells", "pit")}
        return SimpleNamespace(**kept, free_shells=free_shells)

    project = load(plan_folder(ores_and_fixed(), with_section(FIXED_SECTION)))
    monkeypatch.setattr(problem, "ready", partial(bent, problem.ready))
    with pytest.raises(PlanError, match="without constraints: slopes: block .*, depends on a block that is not"):
        pitplan.write_pit(project, 1.5, writing=PLAIN)
    assert not (project.folder / "pit").exists()

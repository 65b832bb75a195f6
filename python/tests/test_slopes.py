"""Needs of walls against the tool that makes mines, against the cone itself, and against angles by geometry."""

import math
import subprocess
import sys

import numpy as np
import pandas as pd
import pytest
from conftest import PROJECT, ROOT, rows
from helpers.random_tests import examples
from helpers.writings import PLAIN
from hypothesis import given, strategies as st

import pitplan
from pitplan import PlanError
from pitplan.config.geometry import SlopeDomain, Slopes
from pitplan.slopes import slope_patterns
from pitplan.solver import mine_files
from planaudit.ground import slopes as audited
from planaudit.inputs.project_file import domain_of

CUBE, FLAT = (10.0, 10.0, 10.0), (20.0, 20.0, 15.0)


def pairs_of(path):
    return {(int(fields[0]), int(needed)) for fields in map(str.split, open(path)) for needed in fields[2:]}


def closure(pairs, count):
    """All that each block needs, directly or through others."""
    precedences = {block: set() for block in range(count)}
    for block, needed in sorted(pairs):  # needed blocks have lesser numbers, so theirs are whole
        precedences[block] |= {needed} | precedences[needed]
    return precedences


def made_mine(tmp_path, blocks, pattern):
    """A mine of the tool, and its blocks as a planner's table."""
    tool = [sys.executable, str(ROOT / "tools" / "make_mine.py"), "--blocks", str(blocks), "--slopes", pattern]
    subprocess.run([*tool, "--out", str(tmp_path / "made")], check=True)
    made = pd.read_csv(tmp_path / "made.blocks", sep=" ", header=None)
    table = pd.DataFrame({"name": made[0], "x": made[1] * 10, "y": made[2] * 10, "z": made[3] * 10})
    return table.assign(tonnes=1, cu=0.0, rock="R", region="1")


@pytest.mark.parametrize("pattern", ["1:5", "1:9"])
def test_patterns_are_those_of_the_tool_byte_for_byte(plan_folder, tmp_path, pattern):
    plan = pitplan.Plan.from_project(plan_folder(made_mine(tmp_path, 300, pattern), PROJECT, ('"1:5"', f'"{pattern}"')))
    plan.used[:] = True
    mine_files.write(plan, tmp_path)
    assert (tmp_path / mine_files.PREC).read_bytes() == (tmp_path / "made.prec").read_bytes()


def test_a_cone_of_45_degrees_needs_what_that_of_the_tool_needs(plan_folder, tmp_path):
    table = made_mine(tmp_path, 400, "cone")
    plan = pitplan.Plan.from_project(plan_folder(table, PROJECT, ('pattern = "1:5"', "angle = 45")))
    plan.used[:] = True
    mine_files.write(plan, tmp_path)
    mine, made = pairs_of(tmp_path / mine_files.PREC), pairs_of(tmp_path / "made.prec")
    assert len(mine) < len(made)
    assert closure(mine, len(table)) == closure(made, len(table))


def reached(offsets, levels):
    """The steps east and north to which a list of steps leads, by levels up."""
    found = [{(0, 0)}]
    for up in range(1, levels + 1):
        found.append({(x + a, y + b) for a, b, c in offsets if c <= up for x, y in found[up - c]})
    return found


def least_list(angle, size, levels):
    return slope_patterns.offsets_of(slope_patterns.cone(((0.0, float(angle)),), size, levels))


@given(st.integers(20, 80), st.integers(1, 5), st.sampled_from([CUBE, FLAT, (5.0, 10.0, 4.0)]))
def test_a_cone_reaches_exactly_the_cone(angle, levels, size):
    offsets = least_list(angle, size, levels)
    dx, dy, dz = size
    for up, cells in enumerate(reached(offsets, levels)):
        far = up * dz / math.tan(math.radians(angle)) + 1e-6
        wide, broad = int(far / dx) + 1, int(far / dy) + 1
        box = [(x, y) for x in range(-wide, wide + 1) for y in range(-broad, broad + 1)]
        assert cells == {(x, y) for x, y in box if math.hypot(x * dx, y * dy) <= far}


@given(st.integers(25, 75), st.integers(2, 5))
def test_no_step_of_a_cone_can_be_left_out(angle, levels):
    offsets = least_list(angle, FLAT, levels)
    whole = reached(offsets, levels)
    for step in offsets:
        less = reached([other for other in offsets if other != step], levels)
        assert less[step[2]] != whole[step[2]]


def least_in_the_open(cone):
    """The least list of steps to all cells of a cone where all blocks have it and the grid has no sides."""
    south, west = cone.shape[1] // 2, cone.shape[2] // 2
    found, cells = [], [{(0, 0)}]
    for up in range(1, len(cone)):
        wanted = {(int(x) - west, int(y) - south) for y, x in np.argwhere(cone[up])}
        led = {(x + a, y + b) for a, b, c in found for x, y in cells[up - c]}
        found += [(x, y, up) for x, y in wanted - led]
        cells.append(wanted | led)
    return found


@given(st.tuples(*[st.integers(35, 55)] * 4), st.integers(2, 8), st.sampled_from([CUBE, FLAT, (5.0, 10.0, 4.0)]))
def test_the_list_is_at_most_a_fifth_longer_than_the_least(angles, levels, size):
    cone = slope_patterns.cone(tuple(zip((0.0, 90.0, 180.0, 270.0), map(float, angles))), size, levels)
    assert set(least_in_the_open(cone)) <= set(slope_patterns.offsets_of(cone))
    assert len(slope_patterns.offsets_of(cone)) <= 1.2 * len(least_in_the_open(cone))


def test_walls_of_1_to_5_and_1_to_9_by_geometry():
    five, nine = (slope_patterns.wall_angles(offsets, CUBE) for offsets in (slope_patterns.FIVE, slope_patterns.NINE))
    diagonal = math.degrees(math.atan(math.sqrt(2)))
    assert five.min() == pytest.approx(45) and five.max() == pytest.approx(diagonal)
    assert five[0] == pytest.approx(45) and five[45] == pytest.approx(diagonal)
    assert nine.max() == pytest.approx(45) and nine.min() == pytest.approx(math.degrees(math.atan(1 / math.sqrt(2))))
    flat = slope_patterns.wall_angles(slope_patterns.FIVE, FLAT)
    assert flat.min() == pytest.approx(math.degrees(math.atan(15 / 20)))
    assert flat.max() == pytest.approx(math.degrees(math.atan(15 / (20 / math.sqrt(2)))))


def test_walls_that_stand_upright_and_lists_without_width():
    assert slope_patterns.wall_angles(((0, 0, 1),), CUBE) == pytest.approx(np.full(360, 90.0))
    line = slope_patterns.wall_angles(((0, 0, 1), (1, 0, 1)), CUBE)
    assert line[90] == pytest.approx(45) and line[270] == pytest.approx(90) and line[0] == pytest.approx(90)
    # A block and the one above it in the north-east: a step up for each root of two.
    askew = slope_patterns.wall_angles(((0, 0, 1), (1, 1, 1)), CUBE)
    assert askew[45] == pytest.approx(math.degrees(math.atan(1 / math.sqrt(2)))) and np.delete(
        askew, 45
    ) == pytest.approx(np.full(359, 90.0))
    assert least_list(90, CUBE, 4) == ((0, 0, 1),)


@given(st.integers(25, 75), st.integers(1, 8))
def test_errors_are_those_of_a_high_wall(angle, levels):
    """The wall of 60 levels that the list makes, step by step, is less than a list's height of steps off the computed one."""
    offsets = least_list(angle, CUBE, levels)
    computed = slope_patterns.wall_angles(offsets, CUBE)
    for azimuth, axis in ((0, 1), (90, 0)):
        steps = [(step[axis], step[2]) for step in offsets if step[1 - axis] == 0]
        best = [0] * 61
        for up in range(1, 61):
            best[up] = max(best[up - c] + a for a, c in steps if c <= up)
        flatness = 1 / math.tan(math.radians(computed[azimuth]))
        assert 60 * flatness + 1e-6 >= best[60] >= (60 - levels) * flatness - 1e-6


def test_angles_between_azimuths_go_by_the_cotangent():
    angles = ((0.0, 45.0), (90.0, 30.0), (270.0, 60.0))
    at = dict(zip((0, 45, 90, 180, 315), slope_patterns.cotangents(angles, np.array([0, 45, 90, 180, 315]))))
    root = math.sqrt(3)
    assert at[0] == pytest.approx(1) and at[90] == pytest.approx(root)
    assert at[45] == pytest.approx((1 + root) / 2)
    assert at[180] == pytest.approx((root + 1 / root) / 2)
    assert at[315] == pytest.approx((1 + 1 / root) / 2)


def test_never_steeper_than_asked():
    domain = SlopeDomain(azimuths=((0.0, 48.0), (90.0, 42.0), (180.0, 48.0), (270.0, 45.0)))
    free = slope_patterns.pattern_of(domain, FLAT, Slopes(6, False, (domain,)))
    bound = slope_patterns.pattern_of(domain, FLAT, Slopes(6, True, (domain,)))
    assert free.errors.max() > 0.5 and free.widened == 1
    assert bound.errors.max() <= 1e-6 and bound.widened > 1
    inside = reached(free.offsets, 6)
    assert all(cells <= more for cells, more in zip(inside, reached(bound.offsets, 6)))


WALL = st.one_of(
    st.tuples(st.tuples(st.just(0.0), st.integers(25, 75).map(float))),
    st.tuples(*[st.integers(35, 60).map(float)] * 4).map(lambda angles: tuple(zip((0.0, 90.0, 180.0, 270.0), angles))),
).map(lambda angles: SlopeDomain(azimuths=angles))


@examples(8)
@given(WALL, st.sampled_from([CUBE, FLAT, (5.0, 10.0, 4.0)]))
def test_levels_left_out_are_the_fewest_that_hold_the_walls_to_half_a_degree(domain, size):
    chosen = slope_patterns.pattern_of(domain, size, Slopes(None, False, (domain,)))
    given_ = [
        slope_patterns.pattern_of(domain, size, Slopes(levels, False, (domain,)))
        for levels in range(1, chosen.levels + 1)
    ]
    assert chosen.offsets == given_[-1].offsets
    more = slope_patterns.cone(domain.angles, size, chosen.levels + 1)
    is_cut = chosen.wanted is not None and len(slope_patterns.offsets_of(more)) > 250 >= len(chosen.offsets)
    assert chosen.errors.max() <= 0.5 or chosen.levels == 40 or is_cut
    assert all(fewer.errors.max() > 0.5 for fewer in given_[:-1])


def test_levels_left_out_by_hand():
    """Walls that go out one block in ten levels: (1, 0) comes in at level 10, (1, 1) at 15 and (2, 1) at 23.

    Of the corners (1/10, 0) and (1/15, 1/15) the line lies 0.0894 from the block, which is 84.9 degrees and so 0.6 too
    steep; with (2/23, 1/23) between them the lines lie 0.0958 and 0.0941 from it, 84.5 and 84.6 degrees.
    """
    domain = SlopeDomain(azimuths=((0.0, math.degrees(math.atan(10))),))
    pattern = slope_patterns.pattern_of(domain, CUBE, Slopes(None, False, (domain,)))
    assert pattern.levels == 23 and pattern.errors.max() == pytest.approx(0.34, abs=0.005)
    few = slope_patterns.pattern_of(domain, CUBE, Slopes(22, False, (domain,)))
    assert few.errors.max() == pytest.approx(0.60, abs=0.005)


def test_forty_levels_are_the_end_and_the_walls_say_what_came_out():
    """Blocks of 100 x 100 x 1 m: 45 degrees lead out by 0.4 blocks in 40 levels, so nothing but the column is dug."""
    domain = SlopeDomain(azimuths=((0.0, 45.0),))
    pattern = slope_patterns.pattern_of(domain, (100.0, 100.0, 1.0), Slopes(None, False, (domain,)))
    assert pattern.levels == 40 and pattern.offsets == ((0, 0, 1),)
    words = (
        "1 precedences per block over 40 benches, slopes of 90.0 to 90.0 degrees, slope error +45.0 to +45.0 degrees"
    )
    assert words in pattern.sentence()


def test_never_steeper_widens_the_cone_of_the_levels_that_are_chosen():
    domain = SlopeDomain(azimuths=((0.0, 45.0),))
    free, bound = (slope_patterns.pattern_of(domain, FLAT, Slopes(None, never, (domain,))) for never in (False, True))
    assert bound.levels == free.levels and bound.errors.max() <= 1e-6 < free.errors.max()


def test_each_wall_entry_takes_its_own_levels_and_the_record_names_them(plan_folder, tmp_path):
    table = rows(4, 3, 2, region=lambda i, j, k: "soft" if i < 2 else "hard")
    steep = f"angle = {math.degrees(math.atan(10)):.9f}"
    entries = f'domain = "hard"\n{steep}\n[[slopes.domains]]\ndomain = "soft"\npattern = "1:9"'
    plan = pitplan.Plan.from_project(
        plan_folder(table, PROJECT, ("precedence_benches = 3\n", ""), ('pattern = "1:5"', entries))
    )
    assert [
        domain["precedence_benches"] for domain in plan.record(mine_files.write(plan, tmp_path))["slope_domains"]
    ] == [23, 1]
    assert any("precedences per block over 23 benches, slopes" in note for note in plan.notes)
    assert any("9 precedences per block over 1 bench, slopes" in note for note in plan.notes)


def test_azimuth_90_is_the_east_wall(plan_folder):
    """Flat in the east, steep in the west: the needs of a block lie to its east."""
    angles = "azimuths = [[0, 60], [90, 30], [180, 60], [270, 80]]"
    plan = pitplan.Plan.from_project(plan_folder(rows(5, 5, 3), PROJECT, ('pattern = "1:5"', angles)))
    offsets = plan.domains.patterns[0].offsets
    assert (1, 0, 1) in offsets and (-1, 0, 1) not in offsets
    assert max(x for x, _, _ in offsets) > -min(x for x, _, _ in offsets)


@pytest.mark.parametrize("turn", [0, 30])
def test_dip_directions_are_the_opposite_bearings(plan_folder, turn):
    """The flat east wall dips to the west: the same pit, on an upright grid and on one that is turned."""
    grid = rows(5, 5, 3)
    angle = np.radians(turn)
    grid = grid.assign(
        x=grid["x"] * np.cos(angle) + grid["y"] * np.sin(angle), y=grid["y"] * np.cos(angle) - grid["x"] * np.sin(angle)
    )
    by_domain = "azimuths = [[0, 60], [90.5, 30], [180, 60], [270, 80]]"
    by_dip = 'azimuths = [[180, 60], [270.5, 30], [0, 60], [90, 80]]\nazimuth_of = "dip"'
    found = [
        pitplan.Plan.from_project(plan_folder(grid, PROJECT, ('pattern = "1:5"', text))) for text in (by_domain, by_dip)
    ]
    domains, dips = (plan.domains.patterns[0] for plan in found)
    assert np.array_equal(domains.offsets, dips.offsets) and np.array_equal(domains.angles, dips.angles)
    assert "60 at 0, 80 at 90, 60 at 180, 30 at 270.5 (dip directions)" in dips.name


def test_azimuth_of_needs_azimuths(plan_folder):
    path = plan_folder(rows(3, 3, 2), PROJECT, ('pattern = "1:5"', 'angle = 45\nazimuth_of = "dip"'))
    with pytest.raises(PlanError, match="azimuth_of: requires azimuths"):
        pitplan.Plan.from_project(path)


def test_each_region_has_its_walls(plan_folder, tmp_path):
    table = rows(4, 3, 2, region=lambda i, j, k: "soft" if i < 2 else "hard")
    domains = 'domain = "hard"\npattern = "1:5"\n[[slopes.domains]]\ndomain = ["soft", "clay"]\npattern = "1:9"'
    plan = pitplan.Plan.from_project(plan_folder(table, PROJECT, ('pattern = "1:5"', domains)))
    plan.used[:] = True
    mine_files.write(plan, tmp_path)
    pairs = pairs_of(tmp_path / mine_files.PREC)
    # Block 17 is in the soft region, in the middle of the lower level; 18 in the hard one.
    assert {p for u, p in pairs if u == 17} == {0, 1, 2, 4, 5, 6, 8, 9, 10}
    assert {p for u, p in pairs if u == 18} == {2, 5, 6, 7, 10}


def test_air_takes_the_walls_of_the_ground_below(plan_folder):
    table = rows(3, 3, 3, region=lambda i, j, k: "a" if i == 0 else "b")
    domains = 'domain = "a"\npattern = "1:5"\n[[slopes.domains]]\ndomain = "b"\npattern = "1:9"'
    plan = pitplan.Plan.from_project(
        plan_folder(
            table[table["z"] < 20], PROJECT, ('[[slopes.domains]]\npattern = "1:5"', f"[[slopes.domains]]\n{domains}")
        )
    )
    assert plan.grid.shape == (2, 3, 3)
    top = table[(table["z"] < 20) | ((table["x"] == 5) & (table["y"] == 5))]
    plan = pitplan.Plan.from_project(
        plan_folder(top, PROJECT, ('[[slopes.domains]]\npattern = "1:5"', f"[[slopes.domains]]\n{domains}"))
    )
    assert plan.domains.code[:9].tolist() == [0, 1, 1] * 3


def test_a_region_without_walls_is_refused(plan_folder):
    domains = 'domain = "2"\npattern = "1:5"'
    with pytest.raises(
        PlanError, match=r"\[slopes\] no \[\[slopes.domains\]\] is for domain 1, and none applies to all other domains"
    ):
        pitplan.Plan.from_project(plan_folder(rows(2, 2, 2), PROJECT, ('pattern = "1:5"', domains)))


def test_walls_for_regions_alone_need_a_region_column(plan_folder):
    path = plan_folder(
        rows(2, 2, 2), PROJECT, ('domain = "region"\n', ""), ('pattern = "1:5"', 'domain = 1\npattern = "1:5"')
    )
    with pytest.raises(
        PlanError, match=r"all \[\[slopes.domains\]\] name a domain, and \[table\] names no column as domain"
    ):
        pitplan.Plan.from_project(path)


def test_a_list_that_cannot_hold_a_flat_wall_is_refused():
    domain = SlopeDomain(azimuths=((0.0, 1.0),))
    with pytest.raises(
        PlanError, match="with 1 benches of these blocks no slope is flat enough: increase precedence_benches"
    ):
        slope_patterns.pattern_of(domain, (10.0, 10.0, 0.001), Slopes(1, True, (domain,)))


def test_needs_that_leave_the_grid_at_its_sides_are_counted(plan_folder, tmp_path):
    plan = pitplan.Plan.from_project(plan_folder(rows(3, 3, 2)))
    plan.used[:] = True
    # Of the nine lower blocks the four corners lack two neighbours each, and the four edges one.
    record = plan.record(mine_files.write(plan, tmp_path))
    assert record["precedences"]["clipped_at_the_sides"] == 4 * 2 + 4 * 1
    # Only a shell that reaches the edge is warned of.
    assert not [note for note in record["notes"] if "leave" in note or "unconstrained" in note]


def test_steps_to_a_cell_of_a_cone_and_beside_it():
    """The block above and those beside it: at the cone's very sides, over them, above the highest level, and the block itself."""
    cone = slope_patterns.of_steps(slope_patterns.FIVE)
    inside = [(0, 0, 1), (-1, 0, 1), (1, 0, 1), (0, -1, 1), (0, 1, 1)]
    outside = [(1, 1, 1), (-2, 0, 1), (2, 0, 1), (0, -2, 1), (0, 2, 1), (0, 0, 2), (1, 0, 2), (0, 0, 0), (0, 0, -1)]
    assert slope_patterns.holds(cone, np.array(inside + outside)).tolist() == [True] * len(inside) + [False] * len(
        outside
    )


@pytest.mark.parametrize(("levels", "said"), [(1, "over 1 bench,"), (2, "over 2 benches,"), (3, "over 3 benches,")])
def test_walls_are_told_with_their_levels(plan_folder, levels, said):
    plan = pitplan.Plan.from_project(
        plan_folder(
            rows(3, 3, 4),
            PROJECT,
            ("precedence_benches = 3", f"precedence_benches = {levels}"),
            ('pattern = "1:5"', "angle = 45"),
        )
    )
    assert any(said in note for note in plan.notes)


def test_no_more_than_forty_levels_are_chosen(plan_folder):
    """Walls of 88.6 degrees step back by a block within 41 levels, and not within 40."""
    plan = pitplan.Plan.from_project(
        plan_folder(rows(2, 2, 2), PROJECT, ("precedence_benches = 3\n", ""), ('pattern = "1:5"', "angle = 88.6"))
    )
    assert plan.domains.patterns[0].levels == 40


def test_the_rim_of_a_level_is_the_first_and_the_last_cell_of_each_row():
    """Two levels of 5 m up, blocks of 10 m by 20 m: a block east is a metre for each metre up, a block north two."""
    cells = np.array([[0, 0, 1, 0, 0], [0, 1, 1, 1, 1], [0, 0, 0, 0, 0]], dtype=bool)
    assert slope_patterns.rim_of(cells, 2, (10.0, 20.0, 5.0)) == {(0, -2), (-1, 0), (2, 0)}


def test_what_all_cones_have_are_the_steps_that_each_has():
    """Of other widths, breadths and numbers of levels."""
    lists = [
        slope_patterns.NINE,
        ((0, 0, 1), (1, 0, 1), (1, 1, 1), (3, 0, 2), (0, -1, 1)),
        ((0, 0, 1), (1, 1, 1), (0, -1, 1), (0, 4, 1), (0, 1, 3), (-2, 0, 1)),
    ]
    met = slope_patterns.meet([slope_patterns.of_steps(steps) for steps in lists])
    assert {tuple(step) for step in slope_patterns.steps_of(met).tolist()} == {(0, 0, 1), (1, 1, 1), (0, -1, 1)}


@pytest.mark.parametrize("seed", range(6))
def test_the_greatest_of_cells_above_is_that_of_loops_in_the_audit(seed):
    """Runs may lead beyond the model, where cells count as 0."""
    rng = np.random.default_rng(seed)
    levels, rows, columns = rng.integers(1, 8, 3).tolist()
    above = rng.integers(0, 200, (levels, rows, columns)).astype(np.uint8)
    runs = []
    for _ in range(4):
        north, west, wide = rng.integers(-9, 10), rng.integers(-9, 10), rng.integers(0, 9)
        runs.append(audited.Run(int(north), int(west), int(west + wide)))
    found = audited.greatest(above, runs)
    for level, row, column in np.ndindex(above.shape):
        places = {(row + it.north, column + east) for it in runs for east in range(it.west, it.east + 1)}
        cells = [above[level, r, c] for r, c in places if 0 <= r < rows and 0 <= c < columns]
        assert found[level, row, column] == max(cells, default=0)


WANTED = (
    "0.5 degrees would take {} precedences, above the 250 that are chosen at most: set [slopes] precedence_benches = {}"
)


@pytest.mark.parametrize(
    ("angle", "benches", "precedences", "error", "wanted"),
    [(40, 14, 237, 1.0, (717, 28)), (38, 11, 233, 1.5, (437, 18)), (45, 17, 37, 0.5, None), (30, 12, 125, 0.3, None)],
)
def test_a_block_has_at_most_250_precedences_by_default(angle, benches, precedences, error, wanted):
    """One bench more would have more than 250, by the count of the audit too. The note has the error and what would keep half a degree."""
    domain = SlopeDomain(azimuths=((0.0, float(angle)),))
    pattern = slope_patterns.pattern_of(domain, FLAT, Slopes(None, False, (domain,)))
    assert (pattern.levels, len(pattern.offsets)) == (benches, precedences)
    assert pattern.errors.max() == pytest.approx(error, abs=0.05) and f"slope error +{error}" in pattern.sentence()
    assert pattern.sentence().endswith("is steeper)" if wanted is None else f"; {WANTED.format(*wanted)}")
    for levels in (benches, benches + 1):
        cells = slope_patterns.cone(domain.angles, FLAT, levels)
        assert audited.precedences(domain_of({"angle": angle}), FLAT, levels, 0.0) == len(
            slope_patterns.offsets_of(cells)
        )
    assert wanted is None or len(slope_patterns.offsets_of(cells)) > slope_patterns.MOST_CHOSEN
    if wanted is not None:
        whole = slope_patterns.pattern_of(domain, FLAT, Slopes(wanted[1], False, (domain,)))
        assert len(whole.offsets) == wanted[0] and whole.errors.max() <= 0.5 and whole.wanted is None


def test_the_audit_finds_fewer_benches_than_the_budget_allows(plan_folder, monkeypatch):
    """It counts precedences itself: with a budget of 100 the planner stops at 89 over 7 benches, where 237 over 14 are allowed."""
    table = rows(9, 9, 4, cu=lambda i, j, k: 8 if (i, j, k) == (4, 4, 1) else 0)
    for name, step in zip("xyz", FLAT):
        table[name] *= step / 10
    angle = ('pattern = "1:5"', "angle = 40"), ("precedence_benches = 3\n", ""), ("[10, 10, 10]", "[20, 20, 15]")
    path = plan_folder(table, PROJECT, *angle)
    pitplan.write_shells(path, path.parent / "plan", writing=PLAIN)
    monkeypatch.setattr(slope_patterns, "MOST_CHOSEN", 100)
    with pytest.raises(
        PlanError, match="slope error: domain entry 1: over 7 benches the slope is 2.08 degrees steeper than its angle"
    ):
        pitplan.write_shells(path, path.parent / "plan", writing=PLAIN)


def test_the_page_says_what_40_degrees_take():
    page = (ROOT / "docs" / "planning" / "slopes.md").read_text(encoding="utf-8")
    said = "40 degrees take 717 precedences over 28 benches. pitplan then chooses 237 over 14 benches, which is 1.0 degrees too steep."
    assert said in page and f"A block has at most {slope_patterns.MOST_CHOSEN} precedences that way" in page
    assert audited.MOST_CHOSEN == slope_patterns.MOST_CHOSEN

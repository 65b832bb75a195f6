"""Steps of the planner's own and benches with berms: by hand, and against blocks found one by one."""

import math
from dataclasses import replace

import numpy as np
import pandas as pd
import pytest
from conftest import PROJECT, rows
from helpers.writings import UNVERIFIED

import pitplan
from pitplan import PlanError, verify
from pitplan.config.geometry import Bench
from pitplan.slopes import slope_patterns

WALL = '[[slopes.domains]]\npattern = "1:5"'


def domains(text):
    return (WALL, f"[[slopes.domains]]\n{text}")


def deposit():
    return rows(11, 11, 5, cu=lambda i, j, k: 30 if (i, j, k) == (5, 5, 0) else 0, region=lambda i, j, k: "12"[i > 6])


def mined(path):
    """The places, by columns, rows and levels from the floor, that are dug at revenue factor 1.00."""
    plan = pitplan.Plan.from_project(path)
    inside = np.flatnonzero(plan.shells().cells.factor == 0.5)
    column, row, level = plan.grid.indices(inside)
    return set(zip(column.tolist(), row.tolist(), (4 - level).tolist()))


def reached(steps_of):
    """From the ore at (5, 5, 0) all that steps lead to, one by one; `steps_of` has those of a column."""
    found, open_ = {(5, 5, 0)}, [(5, 5, 0)]
    while open_:
        i, j, k = open_.pop()
        for east, north, up in steps_of(i):
            place = (i + east, j + north, k + up)
            if place not in found and 0 <= place[0] < 11 and 0 <= place[1] < 11 and place[2] < 5:
                found.add(place)
                open_.append(place)
    return found


LEANING = [(0, 0, 1), (1, 0, 1), (1, 1, 2), (-2, 0, 3)]
KNIGHT = [(0, 0, 1), (2, 1, 1)]


@pytest.mark.parametrize("steps", [LEANING, KNIGHT, [(0, 0, 1)], [(0, 0, 1), (0, 0, 2), (1, 0, 2), (1, 0, 3)]])
def test_steps_are_those_of_the_project(plan_folder, steps):
    path = plan_folder(deposit(), PROJECT, domains(f"offsets = {[list(step) for step in steps]}"))
    assert mined(path) == reached(lambda i: steps)


def test_steps_by_region(plan_folder):
    text = f'domain = "1"\noffsets = {[list(step) for step in LEANING]}\n[[slopes.domains]]\ndomain = "2"\noffsets = {[list(step) for step in KNIGHT]}'
    assert mined(plan_folder(deposit(), PROJECT, domains(text))) == reached(lambda i: KNIGHT if i > 6 else LEANING)


def test_what_is_told_of_steps(plan_folder):
    """To the east by a block of 10 m a level of 10 m: 45 degrees, and upright to the west."""
    plan = pitplan.Plan.from_project(
        plan_folder(deposit(), PROJECT, domains("offsets = [[0, 0, 1], [1, 0, 1], [1, 0, 2]]"))
    )
    (pattern,) = plan.domains.patterns
    assert (pattern.angles[90], pattern.angles[270]) == pytest.approx((45, 90))
    assert (
        pattern.sentence()
        == "other domains, 3 offsets of the project: 2 precedences per block over 2 benches, slopes of 45.0 to 90.0 degrees"
    )


@pytest.mark.parametrize(
    ("bench", "angle"),
    [(Bench(10, 45, 10), math.degrees(math.atan(0.5))), (Bench(15, 90, 15), 45), (Bench(15, 70, 0), 70)],
)
def test_the_angle_of_benches_by_hand(bench, angle):
    assert bench.angle == pytest.approx(angle)


BENCH = "bench = { height = 20, face_angle = 63.43494882292201, berm_width = 10 }"


def test_benches_are_as_their_overall_angle(plan_folder):
    """Faces of 2 to 1: 10 m back for 20 up, and as much of a berm, are 45 degrees."""
    plans = [
        pitplan.Plan.from_project(plan_folder(deposit(), PROJECT, domains(text))) for text in (BENCH, "angle = 45")
    ]
    assert plans[0].domains.patterns[0].offsets == plans[1].domains.patterns[0].offsets
    note = "other domains, benches of 20 m, face angle 63.4349 degrees, berms of 10 m, 45 degrees: "
    assert any(said.startswith(note) for said in plans[0].notes)


@pytest.mark.parametrize(
    ("text", "said"),
    [
        ("angle = 45\noffsets = [[0, 0, 1]]", "angle: give exactly one of angle, azimuths, bench, pattern and offsets"),
        ("offsets = []", "offsets: must be a list of offsets"),
        ("offsets = [[0, 0]]", "offsets: must be a list of offsets"),
        ("offsets = [[0, 0.5, 1]]", "offsets: must be a list of offsets"),
        ("offsets = [[0, 0, 0]]", "offsets: go up by 1 to 40 blocks, and by at most 200 to a side"),
        ("offsets = [[201, 0, 1]]", "offsets: go up by 1 to 40 blocks, and by at most 200 to a side"),
        ("bench = { height = 0, face_angle = 70, berm_width = 5 }", "height: found 0, expected above 0"),
        (
            "bench = { height = 10, face_angle = 95, berm_width = 5 }",
            "face_angle: found 95, expected 1 to 90",
        ),
        ("bench = { height = 10, face_angle = 70, berm_width = -5 }", "berm_width: found -5, expected 0 or more"),
    ],
)
def test_what_is_wrong_is_named(plan_folder, text, said):
    with pytest.raises(PlanError, match=said):
        pitplan.load(plan_folder(deposit(), PROJECT, domains(text)))


def wrong(path):
    return {rule.name for rule in verify(path.parent / "plan") if rule.differences}


@pytest.mark.parametrize("text", [f"offsets = {[list(step) for step in LEANING]}", BENCH])
def test_the_second_look_agrees(plan_folder, text):
    path = plan_folder(deposit(), PROJECT, domains(text))
    pitplan.write_shells(path, writing=UNVERIFIED)
    assert wrong(path) == set()
    assert (pd.read_csv(path.parent / "plan" / "tables/shells.csv")["blocks"] > 5).all()


def test_a_step_that_is_passed_over_is_found(plan_folder, monkeypatch):
    path, pattern_of = (
        plan_folder(deposit(), PROJECT, domains(f"offsets = {[list(step) for step in LEANING]}")),
        slope_patterns.pattern_of,
    )
    monkeypatch.setattr(
        "pitplan.slopes.domains.pattern_of",
        lambda domain, *more: pattern_of(replace(domain, offsets=domain.offsets[1:]), *more),
    )
    pitplan.write_shells(path, writing=UNVERIFIED)
    assert "slopes" in wrong(path)


def test_berms_that_are_passed_over_are_found(plan_folder, monkeypatch):
    monkeypatch.setattr(Bench, "angle", property(lambda bench: bench.face_angle))
    path = plan_folder(deposit(), PROJECT, domains(BENCH))
    pitplan.write_shells(path, writing=UNVERIFIED)
    assert "slopes" in wrong(path)

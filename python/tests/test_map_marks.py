"""What plans and sections show on request, and what makes a plan a map: the north, a scale, section lines and contours with elevations."""

import hashlib
import json
from dataclasses import replace
from pathlib import Path

import numpy as np
import pytest
from conftest import PROJECT, rows
from helpers.writings import PLAIN
from matplotlib.figure import Figure

import pitplan
from pitplan import PlanError
from pitplan.blockmodel.grid import Grid
from pitplan.config.project import FigureRules
from pitplan.figures import map_marks, plans_sections, pushbacks, scenarios
from pitplan.figures.style import ALSO, also_as, finish, panels_file

METALS = '[[metals]]\nname = "gold"\ncolumn = "au"\nunit = "gram_per_tonne"\nprice = 60\nrecovery = 0.9\n[slopes]\n'


def grid():
    """Four levels of 10 m from 100 m down, five rows of 20 m from 6,512,000 m, six columns of 25 m from 430,000 m."""
    return Grid((4, 5, 6), (430_012.5, 6_512_010.0, 95.0), (25.0, 20.0, 10.0), np.arange(120))


def scene(rules=FigureRules()):
    """A pit of two levels, the lower of one block in row 3 and column 4."""
    factor = np.zeros((4, 5, 6))
    factor[0, 2:5, 3:6] = 0.5
    factor[1, 3, 4] = 1
    metal = pitplan.config.project.Metal(name="copper", column="cu", unit="percent", price=0, recovery=1)
    return plans_sections.Scene(grid(), factor, np.ones((4, 5, 6), dtype=bool), np.ones((4, 5, 6)), metal, 1.0, rules)


def drawn(plot):
    axes = Figure().subplots()
    plot(axes)
    return axes


@pytest.mark.parametrize(("most", "length"), [(37.5, 20), (100, 100), (99.9, 50), (1, 1), (0.6, 0.5), (4_999, 2_000)])
def test_a_scale_bar_is_1_2_or_5_of_a_power_of_ten(most, length):
    assert map_marks.nice_length(most) == pytest.approx(length)


def test_a_map_has_a_bar_of_a_quarter_at_most_and_an_arrow_upwards():
    """Of 150 m a quarter is 37.5."""
    axes = drawn(lambda ax: map_marks.mark_map(ax, grid()))
    bar = axes.lines[0].get_xydata()
    assert (
        bar[1, 0] - bar[0, 0] == 20
        and bar[0, 1] == bar[1, 1]
        and 430_000 < bar[0, 0]
        and 6_512_000 < bar[0, 1] < 6_512_010
    )
    north, length = axes.texts
    assert (north.get_text(), length.get_text()) == ("N", "20 m")
    assert north.xy[1] > north.xyann[1] and north.xy[0] == north.xyann[0], "the tip is above the letter"


def test_contours_go_round_what_is_dug_to_each_bench():
    """Nine columns are dug to 90 m or deeper, and one of them to 80."""
    axes = drawn(lambda ax: plans_sections.plot_floor(scene(), ax))
    assert axes.get_title() == "Pit floor at revenue factor 1.00, contours every 10 m"
    high, low = (np.array(lines.get_segments()) for lines in axes.collections)
    assert len(high) == 12 and len(low) == 4
    assert (high[..., 0].min(), high[..., 0].max(), high[..., 1].min(), high[..., 1].max()) == (
        430_075,
        430_150,
        6_512_040,
        6_512_100,
    )
    assert (low[..., 0].min(), low[..., 0].max(), low[..., 1].min(), low[..., 1].max()) == (
        430_100,
        430_125,
        6_512_060,
        6_512_080,
    )
    names = {text.get_text(): text.get_position() for text in axes.texts}
    # To the south-west of the upper, and to the north-east of the lower.
    assert names["90"] in [(430_075, 6_512_050), (430_087.5, 6_512_040)]
    assert names["80"] in [(430_125, 6_512_070), (430_112.5, 6_512_080)]


@pytest.mark.parametrize(
    ("benches", "step", "lines", "names"),
    [
        (20, 1, 20, ["19", "15", "11", "7", "3"]),
        (21, 2, 11, ["20", "16", "12", "8", "4", "0"]),
        (6, 1, 6, list("543210")),
    ],
)
def test_of_many_benches_some_have_a_line_and_some_of_these_a_name(benches, step, lines, names):
    deep = np.arange(float(benches))[None]
    high = Grid((benches, 1, benches), (5.0, 5.0, 95.0), (10.0, 10.0, 1.0), np.arange(benches**2))
    axes = Figure().subplots()
    assert map_marks.contours(axes, high, deep) == step
    assert len(axes.collections) == lines and [text.get_text() for text in axes.texts] == names


def test_a_pit_that_is_empty_has_no_contours():
    axes = Figure().subplots()
    assert map_marks.contours(axes, grid(), np.full((5, 6), np.nan)) == 1 and not axes.collections


def test_the_lines_of_sections_are_where_they_go():
    """Most of the pit lies in row 3 and in column 4."""
    axes = drawn(lambda ax: plans_sections.plot_floor(scene(), ax))
    across, along = (line.get_xydata().tolist() for line in axes.lines[:2])
    assert across == [[430_000, 6_512_070], [430_150, 6_512_070]] and along == [
        [430_112.5, 6_512_000],
        [430_112.5, 6_512_100],
    ]
    assert {"A", "A'", "B", "B'"} <= {text.get_text() for text in axes.texts}


def test_sections_and_levels_are_those_asked_for():
    """A level holds its upper edge no more, and at the model's ends the last is taken."""
    asked = scene(FigureRules(levels=(99.0, 90.0, 60.0), north=6_512_015.0, east=430_149.0))
    assert asked.levels == [0, 1, 3] and (asked.section_row, asked.section_column) == (0, 5)
    figure = Figure()
    found = plans_sections.plot_plans(asked, figure.subplots(2, 2))
    assert [ax.get_title(loc="left") or ax.get_title() for ax in found[1:]] == [
        f"Shells on the level {low} to {low + 10} m" for low in (90, 80, 60)
    ]
    titles = [
        ax.get_title(loc="left") or ax.get_title()
        for ax in plans_sections.plot_sections(asked, Figure().subplots(2, 2))
    ]
    assert (
        titles[0] == "Shells, west to east (A) at north 6512010"
        and titles[2] == "Shells, south to north (B) at east 430137.5"
    )


def test_a_picture_of_three_maps_has_no_empty_frames(tmp_path):
    with panels_file(tmp_path / "maps.png", 100.0, 100.0, 3) as axes:
        assert len(axes) == 3 and [ax.axison for ax in axes[0].figure.axes] == [True, True, True, False]


def pushback_scene(rules=FigureRules()):
    """The scene's pit in two pushbacks, the second of which is the block below."""
    cube = scene().factor
    return pushbacks.PushbackScene(
        grid(), np.where(cube == 0.5, 1, np.where(cube == 1, 2, 0)), np.ones(cube.shape, dtype=bool), 2, rules
    )


def likely(rules=FigureRules()):
    """Half of the scenarios dig the scene's upper level, and all the block below."""
    cube = scene().factor
    return scenarios.Likely(
        grid(),
        np.where(cube == 0.5, 0.5, np.where(cube == 1, 1.0, 0.0)),
        np.ones(cube.shape, dtype=bool),
        1.0,
        4,
        rules,
    )


@pytest.mark.parametrize(
    "plot",
    [lambda axes: pushbacks.plot_plans(pushback_scene(), axes), lambda axes: scenarios.plot_plans(likely(), axes)],
)
def test_plans_of_pushbacks_and_of_scenarios_are_maps_too(plot):
    """Each with the north and a scale; the first with the lines of the sections that the other picture shows."""
    found = plot(Figure().subplots(2, 2))
    for ax in found:
        assert {"N", "20 m"} <= {text.get_text() for text in ax.texts}
    named = [{"A", "A'", "B", "B'"} & {text.get_text() for text in ax.texts} for ax in found]
    assert [len(letters) for letters in named] == [4, 0, 0, 0]
    across, along = (line.get_xydata().tolist() for line in found[0].lines[:2])
    assert across == [[430_000, 6_512_070], [430_150, 6_512_070]] and along == [
        [430_112.5, 6_512_000],
        [430_112.5, 6_512_100],
    ]


def test_sections_of_pushbacks_and_of_scenarios_go_along_these_lines():
    for found in (
        pushbacks.plot_sections(pushback_scene(), Figure().subplots(2)),
        scenarios.plot_sections(likely(), Figure().subplots(2)),
    ):
        titles = [ax.get_title(loc="left") or ax.get_title() for ax in found]
        assert titles[0].endswith("est to east (A) at north 6512070") and titles[1].endswith(
            "outh to north (B) at east 430112.5"
        )


@pytest.mark.parametrize(("module", "scene_of"), [(pushbacks, pushback_scene), (scenarios, likely)])
def test_plans_and_sections_of_pushbacks_and_of_scenarios_are_those_asked_for(module, scene_of, tmp_path):
    """Of four levels the second and the last; row 0 has its middle at 6,512,010 m and column 5 at 430,137.5."""
    asked = scene_of(FigureRules(levels=(90.0, 60.0), north=6_512_015.0, east=430_149.0))
    found = module.plot_plans(asked, Figure().subplots(3))
    titles = [ax.get_title(loc="left") or ax.get_title() for ax in found]
    assert titles[1].lower().endswith("level 80 to 90 m") and titles[2].lower().endswith("level 60 to 70 m")
    across, along = (line.get_xydata().tolist() for line in found[0].lines[:2])
    assert [y for _, y in across] == [6_512_010] * 2 and [x for x, _ in along] == [430_137.5] * 2
    titles = [ax.get_title(loc="left") or ax.get_title() for ax in module.plot_sections(asked, Figure().subplots(2))]
    assert titles[0].endswith("at north 6512010") and titles[1].endswith("at east 430137.5")
    module.write_plans(asked, tmp_path / "plans.png")
    assert (tmp_path / "plans.png").stat().st_size > 5_000


def test_pushbacks_at_the_surface_have_contours_of_the_last_floor():
    """Dotted, beside the two lines round pushbacks: nine columns are dug to 90 m or deeper, and one of them to 80."""
    axes = drawn(lambda ax: pushbacks.plot_surface(pushback_scene(), ax))
    assert (
        axes.get_title(loc="left") or axes.get_title()
    ) == "Pushbacks at the surface, contours of the floor every 10 m"
    dotted = [lines for lines in axes.collections if lines.get_linestyle()[0][1] is not None]
    assert [len(lines.get_segments()) for lines in dotted] == [12, 4] and len(axes.collections) == 4
    assert {"90", "80"} <= {text.get_text() for text in axes.texts}


@pytest.fixture
def project(plan_folder):
    def write(words):
        table = rows(5, 5, 3, cu=lambda i, j, k: 6 if (i, j, k) == (2, 2, 1) else 0, au=lambda i, j, k: i + 1)
        return plan_folder(table, f"{PROJECT}\n[figures]\n{words}\n", ("[slopes]\n", METALS))

    return write


def test_grades_are_those_of_the_metal_asked_for(project):
    plan = pitplan.Plan.from_project(project('metal = "gold"'))
    scene_of = replace(plans_sections.scene_of(plan.shells()), selected=1.0)
    assert scene_of.metal.name == "gold" and scene_of.grade[0, 0].tolist() == [1, 2, 3, 4, 5]
    assert plans_sections.scene_of(pitplan.Plan.from_project(project("")).shells()).metal.name == "copper"


@pytest.mark.slow
def test_figures_are_written_as_pdf_and_svg_too(project, monkeypatch):
    """Figures are laid out and not rendered, which takes most of the time."""
    monkeypatch.setattr(Figure, "savefig", lambda figure, path, **options: Path(path).write_bytes(b"blank"))
    pitplan.write_shells(project('formats = ["pdf", "svg"]'), writing=pitplan.Writing(verifies=False))
    folder = project("").parent / "plan"
    record = json.loads((folder / "plan.json").read_text())["files"]
    names = {
        f"figures/{name}.{kind}"
        for name in ("pit_by_pit", "years", "plans", "sections")
        for kind in ("png", "pdf", "svg")
    }
    assert names <= set(record) and all(
        hashlib.sha256((folder / name).read_bytes()).hexdigest() == record[name] for name in names
    )
    assert ALSO.get() == (), "the next run draws PNG alone"


@pytest.mark.slow
def test_a_figure_has_the_same_bytes_each_time_in_each_format(project, tmp_path):
    """The floor of a pit has an image, lines, texts, a colour bar and marks."""
    plan = pitplan.Plan.from_project(project(""))
    scene_of = replace(plans_sections.scene_of(plan.shells()), selected=1.0)
    written = []
    for name in ("one", "two"):
        (tmp_path / name).mkdir()
        figure = Figure(figsize=(5, 4), constrained_layout=True)
        plans_sections.plot_floor(scene_of, figure.subplots())
        with also_as(("pdf", "svg")):
            finish(figure, tmp_path / name / "floor.png")
        written.append({path.suffix: path.read_bytes() for path in (tmp_path / name).iterdir()})
    assert written[0] == written[1]
    assert written[0][".png"].startswith(b"\x89PNG") and written[0][".pdf"].startswith(b"%PDF-")
    assert b"<svg" in written[0][".svg"][:500]


def test_pushbacks_are_drawn_where_the_project_asks_for(project, with_blank_figures):
    shown = []
    # The fixture `monkeypatch` ends after the blank figures do, and would put these back.
    with pytest.MonkeyPatch.context() as patch:
        for name in ("write_plans", "write_sections"):
            patch.setattr(pushbacks, name, lambda scene, path: (shown.append(scene), path.touch()))
        pitplan.write_pushbacks(
            project("levels = [5]\nnorth = 49\n[pushbacks]\ncount = 1"),
            writing=pitplan.Writing(verifies=False, processes=1),
        )
    assert [scene.levels for scene in shown] == [[2]] * 2 and shown[0].section_row == 4


@pytest.mark.parametrize(
    ("words", "said"),
    [
        ("levels = []", "[figures] levels: must be a list of one to 7 elevations in metres"),
        ("levels = [1, 2, 3, 4, 5, 6, 7, 8]", "levels: found 8, expected 7 at most"),
        ("levels = 5", "levels: must be a list of one to 7"),
        ('levels = ["top"]', "levels: 'top' is not a number"),
        ('metal = "tin"', 'metal: found "tin", expected one of copper, gold'),
        ('formats = ["png"]', 'formats: found "png", expected one of pdf, svg'),
        ("scale = 5", "scale: unknown key"),
    ],
)
def test_what_is_refused(project, words, said):
    with pytest.raises(PlanError) as refused:
        pitplan.load(project(words))
    assert said in str(refused.value)


@pytest.mark.parametrize(
    ("words", "said"),
    [
        ("levels = [5, 30.5]", r"\[figures\] levels: 30.5 is beyond the model, from 0 to 30 m"),
        ("north = -0.1", "north: -0.1 is beyond the model, from 0 to 50 m"),
        ("east = 50.1", "east: 50.1 is beyond the model, from 0 to 50 m"),
    ],
)
def test_places_beyond_the_model_are_refused(project, words, said):
    with pytest.raises(PlanError, match=said):
        pitplan.write_shells(project(words), writing=PLAIN)


def test_the_models_ends_are_within_it(project):
    plan = pitplan.Plan.from_project(project("levels = [0, 30]\nnorth = 50\neast = 0"))
    shown = replace(plans_sections.scene_of(plan.shells()), selected=1.0)
    assert shown.levels == [2, 0] and (shown.section_row, shown.section_column) == (4, 0)

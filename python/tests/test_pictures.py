"""What the pictures draw, by the artists on their axes."""

import dataclasses
import json

import numpy as np
import pandas as pd
import pytest
from conftest import PROJECT, rows
from matplotlib import pyplot as plt
from matplotlib.backends.backend_agg import FigureCanvasAgg
from matplotlib.figure import Figure

import pitplan
from pitplan.blockmodel.grid import Grid
from pitplan.figures import plans_sections, pushbacks, scenarios, schedule, style
from pitplan.figures.pits import plot_pit_by_pit

YEARS = pd.DataFrame(
    [
        ("best", 1.0, 1, 9e6, 0, -2.5e6, -2e6),
        ("best", 1.0, 2, 4e6, 3e6, 40e6, 30e6),
        ("worst", 1.0, 1, 8e6, 1e6, 5e6, 4e6),
        ("worst", 1.0, 2, 5e6, 2e6, 32e6, 20e6),
        ("worst", 1.0, 3, 1e6, 0, -1e6, -0.5e6),
        ("best", 0.5, 1, 1e6, 1e6, 3e6, 2e6),
    ],
    columns=["case", "revenue_factor", "year", "total_tonnes", "feed_tonnes", "cash_flow", "discounted_cash_flow"],
)
CAPACITIES = ("processing_capacity = 100", "processing_capacity = 3_000_000\nmining_capacity = 10_000_000")


@pytest.fixture
def panels():
    figure, axes = plt.subplots(1, 2, sharex=True)
    yield figure, axes
    plt.close(figure)


def test_years_are_drawn_as_bars_capacities_and_cash(plan_folder, panels):
    """In millions of tonnes and of dollars, of which the axes have ten or more."""
    figure, axes = panels
    project = pitplan.load(plan_folder(rows(2, 2, 2), PROJECT, CAPACITIES))
    schedule.plot_years(YEARS, project, 1.0, axes)
    expected = {
        0: ("Best case: NPV 28.0 M USD", [0, 3], [9, 1], [-2.5, 40]),
        1: ("Worst case: NPV 23.5 M USD", [1, 2, 0], [7, 3, 1], [5, 32, -1]),
    }
    for number, (title, ore, waste, cash) in expected.items():
        axis, right = axes[number], figure.axes[2 + number]
        assert axis.get_title() == title
        low, high = axis.containers
        assert [bar.get_height() for bar in low] == ore and [bar.get_height() for bar in high] == waste
        assert [bar.get_y() for bar in high] == ore
        assert [line.get_ydata()[0] for line in axis.lines] == [3, 10]
        assert right.lines[0].get_ydata().tolist() == cash
        assert right.lines[0].get_xdata().tolist() == list(range(1, len(cash) + 1))
    names = [text.get_text() for text in figure.legends[0].get_texts()]
    assert names == [
        "ore",
        "waste",
        "processing capacity: 3 Mt a year",
        "mining capacity: 10 Mt a year",
        "undiscounted cash flow",
    ]


def test_the_axes_of_years_hold_all_and_have_nothing_at_one_height(plan_folder, panels):
    figure, axes = panels
    project = pitplan.load(plan_folder(rows(2, 2, 2), PROJECT, CAPACITIES))
    schedule.plot_years(YEARS, project, 1.0, axes)
    limits = [axis.get_ylim() for axis in figure.axes]
    assert limits[0] == limits[1] and limits[2] == limits[3]
    heights = [-low / (high - low) for low, high in limits]
    assert heights[0] == pytest.approx(heights[2]) and 0 < heights[0] < 0.2
    assert limits[0][1] > 10 and limits[2][0] < -2.5 and limits[2][1] > 40
    assert min(axes[0].get_yticks()) >= 0 and axes[0].get_xlim() == axes[1].get_xlim()


def test_a_capacity_far_above_all_years_is_told_and_not_drawn_to(plan_folder, panels):
    figure, axes = panels
    far = (CAPACITIES[0], CAPACITIES[1].replace("10_000_000", "1_000_000_000"))
    schedule.plot_years(YEARS, pitplan.load(plan_folder(rows(2, 2, 2), PROJECT, far)), 1.0, axes)
    assert "mining capacity: 1,000,000 kt a year" in [text.get_text() for text in figure.legends[0].get_texts()]
    assert 9000 < axes[0].get_ylim()[1] < 20_000


@pytest.mark.parametrize("cash", [[0.0, 0.0], [-3e6, -1e6]])
def test_years_that_earn_nothing_are_drawn_too(plan_folder, panels, cash):
    figure, axes = panels
    project = pitplan.load(plan_folder(rows(2, 2, 2), PROJECT, CAPACITIES))
    years = YEARS[(YEARS["revenue_factor"] == 1.0) & (YEARS["case"] == "best")].assign(cash_flow=cash)
    schedule.plot_years(pd.concat([years, years.assign(case="worst")]), project, 1.0, axes)
    low, high = figure.axes[2].get_ylim()
    assert np.isfinite([low, high]).all() and high > 0
    size = 1 if min(cash) == 0 else 1e6 if min(cash) <= -10e6 else 1e3
    assert low <= min(cash) / size


def scenarios_at(*prices):
    """Eleven models at each price: at the price 100 they have 0 to 10 kt at revenue factor 0.50 and 10 kt more at 1000; each further
    100 adds 100 kt. They are worth ten times as much in dollars."""
    records = []
    for number, price in enumerate(prices):
        for model in range(11):
            for factor, more in ((0.5, 0), (1.0, 10_000)):
                tonnes = float(1000 * model + more + 100_000 * (price / 100 - 1))
                records.append(
                    (11 * number + model + 1, f"m{model}", float(price), factor, tonnes, f"{10 * tonnes:.9f}")
                )
    names = ["scenario", "realisation", "price_copper", "revenue_factor", "tonnes", "value_at_revenue_factor"]
    return pd.DataFrame(records, columns=names)


def corners(collection):
    """The least and the greatest height of a band at each factor."""
    path = collection.get_paths()[0].vertices
    return {x: (min(path[path[:, 0] == x, 1]), max(path[path[:, 0] == x, 1])) for x in (0.5, 1.0)}


def test_each_set_of_prices_has_a_band_and_a_median_of_its_own(panels):
    figure, axes = panels
    scenarios.plot_spread(scenarios_at(300, 100.5, 200), "USD", axes)
    for axis, size in zip(axes, (1, 10)):
        starts = [500, 100_000, 200_000]
        assert len(axis.collections) == 3 and len(axis.lines) == 3
        for start, shown, line in zip(starts, axis.collections, axis.lines):
            # A tenth of eleven models from 0 to 10 lie below 1, and a tenth above 9.
            low, high, middle = (size * (start + 1000 * k) for k in (1, 9, 5))
            more = 10_000 * size
            np.testing.assert_allclose(corners(shown)[0.5], (low, high))
            np.testing.assert_allclose(corners(shown)[1.0], (low + more, high + more))
            np.testing.assert_allclose(line.get_ydata(), [middle, middle + more])
        assert len({line.get_color() for line in axis.lines}) == 3
    names = [text.get_text() for text in figure.legends[0].get_texts()]
    assert names == ["copper 100.5", "copper 200", "copper 300"]
    assert figure.legends[0].get_title().get_text() == "medians and 10 % to 90 % of the realisations, by price deck"


def test_many_sets_of_prices_are_medians_alone(panels):
    figure, axes = panels
    scenarios.plot_spread(scenarios_at(*range(100, 3100, 100)), "USD", axes)
    for axis in axes:
        assert not axis.collections and len(axis.lines) == 30
    names = [text.get_text() for text in figure.legends[0].get_texts()]
    assert names == [f"copper {price:,}" for price in range(100, 3100, 300)]


def test_six_sets_have_bands_and_seven_have_none(panels):
    figure, axes = panels
    for count, bands in ((6, 6), (7, 0)):
        for axis in scenarios.plot_spread(scenarios_at(*range(100, 100 + 100 * count, 100)), "USD", axes):
            assert (len(axis.collections), len(axis.lines)) == (bands, count)
            axis.clear()


def test_the_projects_own_prices_have_the_band_of_all_models_too(panels):
    figure, axes = panels
    scenarios.plot_spread(scenarios_at(100).drop(columns="price_copper"), "USD", axes)
    assert [corners(shown)[1.0] for shown in axes[0].collections] == [(10_000, 20_000), (11_000, 19_000)]
    assert [text.get_text() for text in figure.legends[0].get_texts()] == ["all", "10 % to 90 %", "median"]


def test_one_set_of_prices_is_named(panels):
    figure, axes = panels
    scenarios.plot_spread(scenarios_at(100), "USD", axes)
    assert [text.get_text() for text in figure.legends[0].get_texts()] == ["all", "10 % to 90 %", "median, copper 100"]


def at_a_zone(origin=(430010.0, 6512012.5, 806.25)):
    """A hill of 24 x 20 x 12 blocks at coordinates of a map's zone, with a pit in its middle."""
    grid = Grid((12, 20, 24), origin, (20.0, 25.0, 12.5), np.arange(12 * 20 * 24))
    level, row, column = np.indices(grid.shape)
    inside = abs(row - 10) + abs(column - 12) + 2 * level < 12
    return grid, np.where(inside, 1.0, 0.0)


def drawn_of(monkeypatch, draw):
    """The figure that a picture would write, drawn."""
    figures = []
    monkeypatch.setattr(style, "finish", lambda figure, path: (FigureCanvasAgg(figure).draw(), figures.append(figure)))
    draw()
    return figures[0]


def demand_plain_coordinates(figure):
    """Every tick of every map is all its digits, and no two of an axis overlap."""
    for axis in (axis for axis in figure.axes if axis.get_xlabel().endswith(", m")):
        for side in (axis.xaxis, axis.yaxis):
            low, high = sorted(side.get_view_interval())
            ticks = [tick for tick in side.get_major_ticks() if low <= tick.get_loc() <= high]
            assert side.get_offset_text().get_text() == "" and len(ticks) >= 2
            assert [float(tick.label1.get_text()) for tick in ticks] == [tick.get_loc() for tick in ticks]
            assert all(set(tick.label1.get_text()) <= set("0123456789.") for tick in ticks)
            boxes = [tick.label1.get_window_extent() for tick in ticks]
            assert not any(one.overlaps(other) for one, other in zip(boxes, boxes[1:]))


def test_plans_and_sections_have_coordinates_in_full(monkeypatch):
    grid, factor = at_a_zone()
    metal = pitplan.config.project.Metal(name="copper", column="cu", unit="percent", price=0, recovery=1)
    scene = plans_sections.Scene(grid, factor, np.ones(grid.shape, dtype=bool), np.ones(grid.shape), metal, 1.0)
    for draw in (plans_sections.write_plans, plans_sections.write_sections):
        figure = drawn_of(monkeypatch, lambda draw=draw: draw(scene, None))
        demand_plain_coordinates(figure)
        titles = [axis.get_title(loc="left") for axis in figure.axes]
    # Row 10 from 6512012.5 by 25 m, and column 12 from 430010 by 20 m.
    assert titles[0] == "Shells, west to east (A) at north 6512262.5"
    assert titles[2] == "Shells, south to north (B) at east 430250"


@pytest.mark.parametrize("draw", [pushbacks.write_plans, pushbacks.write_sections])
def test_pushbacks_have_coordinates_in_full_and_nothing_overlaps(monkeypatch, draw):
    figure = drawn_of(monkeypatch, lambda: draw(pushback_scene(), None))
    demand_plain_coordinates(figure)
    boxes = [axis.get_tightbbox() for axis in figure.axes]
    assert not any(one.overlaps(other) for k, one in enumerate(boxes) for other in boxes[:k])
    assert all(box.x0 >= 0 and box.y0 >= 0 and box.x1 <= figure.bbox.x1 and box.y1 <= figure.bbox.y1 for box in boxes)


@pytest.mark.parametrize(("count", "ticks"), [(2, [1, 2]), (11, list(range(1, 12))), (12, [1, 3, 5, 7, 9, 11])])
def test_the_bar_of_pushbacks_has_eleven_numbers_at_most(count, ticks):
    figure = plt.figure()
    pushbacks.plot_level(dataclasses.replace(pushback_scene(), count=count), 2, figure.subplots())
    assert figure.axes[-1].get_yticks().tolist() == ticks
    plt.close(figure)


def test_what_is_dug_of_pushbacks_is_rock_that_is_in_one():
    shown = pushback_scene()
    assert np.array_equal(shown.mined, at_a_zone()[1] > 0)
    assert not dataclasses.replace(shown, solid=np.zeros_like(shown.solid)).mined.any()


def test_sections_of_pushbacks_are_as_high_as_the_ground_is_deep(monkeypatch):
    """150 m of the lesser side, 480 m: each of two maps 5.2 inches wide is so much less high, with 1.6 inches for what is written."""
    figure = drawn_of(monkeypatch, lambda: pushbacks.write_sections(pushback_scene(), None))
    assert figure.get_size_inches().tolist() == pytest.approx([12, 5.2 * 150 / 480 + 1.6])


def test_what_plans_and_sections_show_of_pushbacks(panels):
    """On the level 1 below the top the pit reaches nine blocks each way along a row and a column together."""
    scene = pushback_scene()
    level, west_east = panels[1]
    drawn = pushbacks.plot_level(scene, 1, level).images[1].get_array()
    rows, columns = np.indices((20, 24))
    inside = abs(rows - 10) + abs(columns - 12) < 10
    expected = np.where(abs(rows - 10) < 2, 1, 2)
    assert (np.ma.getmaskarray(drawn) == ~inside).all() and (drawn[inside] == expected[inside]).all()
    assert level.get_title(loc="left") + level.get_title() == "Pushbacks on the level 787.5 to 800 m"
    # Shown from the bottom up: the deepest of the row's blocks has 6 levels, of which the sixth is one block wide and more.
    drawn = pushbacks.plot_section(scene, scene.from_west_to_east(14), west_east).images[1].get_array()
    assert [int(np.ma.count(line)) for line in drawn[::-1]] == [max(0, 2 * (12 - 4 - 2 * k) - 1) for k in range(12)]
    assert set(np.ma.compressed(drawn)) == {2}


def test_probabilities_have_coordinates_in_full(monkeypatch):
    grid, factor = at_a_zone()
    likely = scenarios.Likely(grid, factor, np.ones(grid.shape, dtype=bool), 1.0, 3)
    for draw in (scenarios.write_plans, scenarios.write_sections):
        figure = drawn_of(monkeypatch, lambda draw=draw: draw(likely, None))
        demand_plain_coordinates(figure)
        titles = [axis.get_title(loc="left") for axis in figure.axes]
    assert titles[:2] == ["West to east (A) at north 6512262.5", "South to north (B) at east 430250"]


SHELLS = pd.DataFrame(
    {
        "revenue_factor": [0.5, 1.0, 1.5],
        "tonnes": [20e6, 40e6, 60e6],
        "in_situ_ore_tonnes": [12e6, 15e6, 20e6],
        "waste_tonnes": [8e6, 25e6, 40e6],
        "undiscounted_cash_flow": [100.0, 300.0, 200.0],
        "npv_best": [90.0, 250.0, 180.0],
        "npv_worst": [80.0, 150.0, -50.0],
    }
)


def scene():
    grid, factor = at_a_zone()
    metal = pitplan.config.project.Metal(name="copper", column="cu", unit="percent", price=0, recovery=1)
    return plans_sections.Scene(grid, factor, np.ones(grid.shape, dtype=bool), np.ones(grid.shape), metal, 1.0)


def pushback_scene():
    """Two pushbacks of the hill: the middle four rows of its pit, and the rest."""
    grid, factor = at_a_zone()
    row = np.indices(grid.shape)[1]
    pushback = np.where(factor > 0, np.where(abs(row - 10) < 2, 1, 2), 0)
    return pushbacks.PushbackScene(grid, pushback, np.ones(grid.shape, dtype=bool), 2)


def likely():
    grid, factor = at_a_zone()
    return scenarios.Likely(grid, factor, np.ones(grid.shape, dtype=bool), 1.0, 3)


EACH = {
    "pit by pit": (1, lambda axes, project: [plot_pit_by_pit(SHELLS, "USD", 1.0, axes[0])]),
    "floor": (1, lambda axes, project: [plans_sections.plot_floor(scene(), axes[0])]),
    "level": (1, lambda axes, project: [plans_sections.plot_level(scene(), 2, axes[0])]),
    "shells": (
        1,
        lambda axes, project: [plans_sections.plot_shells(scene(), scene().from_west_to_east(10), axes[0])],
    ),
    "grades": (
        1,
        lambda axes, project: [plans_sections.plot_grades(scene(), scene().from_south_to_north(12), axes[0])],
    ),
    "pushbacks on the ground": (1, lambda axes, project: [pushbacks.plot_surface(pushback_scene(), axes[0])]),
    "pushbacks on a level": (1, lambda axes, project: [pushbacks.plot_level(pushback_scene(), 2, axes[0])]),
    "pushbacks along a row": (
        1,
        lambda axes, project: [
            pushbacks.plot_section(pushback_scene(), pushback_scene().from_west_to_east(10), axes[0])
        ],
    ),
    "pushbacks along a column": (
        1,
        lambda axes, project: [
            pushbacks.plot_section(pushback_scene(), pushback_scene().from_south_to_north(12), axes[0])
        ],
    ),
    "plans of pushbacks": (4, lambda axes, project: pushbacks.plot_plans(pushback_scene(), axes)),
    "sections of pushbacks": (2, lambda axes, project: pushbacks.plot_sections(pushback_scene(), axes)),
    "plans": (4, lambda axes, project: plans_sections.plot_plans(scene(), axes)),
    "sections": (4, lambda axes, project: plans_sections.plot_sections(scene(), axes)),
    "years": (2, lambda axes, project: schedule.plot_years(YEARS, project, 1.0, axes)),
    "plans of scenarios": (4, lambda axes, project: scenarios.plot_plans(likely(), axes)),
    "sections of scenarios": (2, lambda axes, project: scenarios.plot_sections(likely(), axes)),
    "spread": (2, lambda axes, project: scenarios.plot_spread(scenarios_at(100, 200), "USD", axes)),
}


@pytest.mark.parametrize("name", EACH)
def test_each_picture_is_drawn_on_given_axes_which_it_gives(plan_folder, name):
    """In one half of a figure; the other half and the backend stay as they were, and no figure comes up."""
    count, draw = EACH[name]
    project = pitplan.load(plan_folder(rows(2, 2, 2), PROJECT, CAPACITIES))
    figure = plt.figure(figsize=(20, 10))
    half, other = figure.subfigures(1, 2)
    axes, beside = half.subplots(count, squeeze=False).ravel(), other.subplots()
    before = plt.get_backend(), plt.get_fignums()
    given = draw(axes, project)
    assert len(given) == count and all(one is ax for one, ax in zip(given, axes))
    assert all(ax.has_data() for ax in axes) and not beside.has_data()
    assert (plt.get_backend(), plt.get_fignums()) == before
    assert figure.legends == other.legends == [] and other.axes == [beside]
    FigureCanvasAgg(figure).draw()
    plt.close(figure)


@pytest.mark.parametrize("name", [name for name, (count, _) in EACH.items() if count > 1])
def test_too_few_axes_are_refused(plan_folder, panels, name):
    project = pitplan.load(plan_folder(rows(2, 2, 2), PROJECT, CAPACITIES))
    count, draw = EACH[name]
    with pytest.raises(pitplan.PlanError, match=f"1 axes are given, and the picture has {count}"):
        draw(panels[1][:1], project)


def test_shells_are_drawn_as_bars_and_curves(panels):
    """In millions of tonnes, of which the axis has 60, and in dollars."""
    ax = plot_pit_by_pit(SHELLS, "USD", 1.0, panels[1][0])
    (right,) = [other for other in panels[0].axes if other not in panels[1]]
    ore, waste = ax.containers
    assert [bar.get_height() for bar in ore] == [12, 15, 20] and [bar.get_height() for bar in waste] == [8, 25, 40]
    assert [line.get_ydata().tolist() for line in right.lines[::2]] == [[100, 300, 200], [90, 250, 180], [80, 150, -50]]
    # Who does not tell green from red tells them by their marks.
    assert len({line.get_marker() for line in right.lines[::2]}) == 3
    # Each curve's greatest has a ring.
    assert [(line.get_xdata()[0], line.get_ydata()[0]) for line in right.lines[1::2]] == [
        (1.0, 300),
        (1.0, 250),
        (1.0, 150),
    ]
    names = [text.get_text() for text in ax.get_legend().get_texts()]
    assert names == ["selected: 1.00", "ore", "waste", "undiscounted", "NPV, best case", "NPV, worst case"]


def test_sections_show_a_grade_in_one_colour():
    """Along row 10 it is at most 3, along column 12 at most 2."""
    shown = scene()
    shown.grade[:, 10, :] = 3.0
    shown.grade[:, :, 12] = 2.0
    axes = plans_sections.plot_sections(shown, Figure().subplots(2, 2))
    assert [ax.images[-1].get_clim() for ax in axes[1::2]] == [(0, 3), (0, 3)]


def test_what_plans_show_of_a_solved_plan(solved):
    """The pit of a hill of ten by nine columns; its scene is what blocks.csv says."""
    plan = pitplan.Plan.from_project(solved[0])
    scene = dataclasses.replace(plans_sections.scene_of(plan.shells()), selected=1.5)
    blocks = pd.read_csv(solved[1] / "tables/blocks.csv")
    assert scene.mined.sum() == (blocks["revenue_factor"] > 0.0).sum() and scene.solid.sum() == len(blocks)
    places = [((45 - blocks["z"]) // 10).astype(int), (blocks["y"] // 10).astype(int), (blocks["x"] // 10).astype(int)]
    assert scene.grade[tuple(places)].tolist() == blocks["cu"].tolist()
    figure, axes = plt.subplots()
    (image,) = plans_sections.plot_floor(scene, axes).images
    deepest = (
        blocks[blocks["revenue_factor"] > 0.0]
        .assign(column=lambda it: it["x"] // 10, row=lambda it: it["y"] // 10)
        .groupby(["row", "column"])["z"]
        .min()
    )
    drawn = image.get_array()
    assert {(row, column): drawn[int(row), int(column)] for row, column in deepest.index} == (deepest - 5).to_dict()
    assert np.ma.count(np.ma.masked_invalid(drawn)) == len(deepest)
    plt.close(figure)
    chosen = plans_sections.scene_of(plan.shells()).selected
    assert chosen == json.loads((solved[1] / "plan.json").read_text())["shells"]["selected"]

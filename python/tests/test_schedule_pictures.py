"""Pictures, workbook and 3D page of a yearly schedule, by what they hold."""

import base64
import gzip
from dataclasses import replace
from types import SimpleNamespace

import matplotlib
import numpy as np
import pandas as pd
import pytest
from helpers.benches import THREE, benches_of, problem_of, without_flows, yearly_limits
from matplotlib.colors import to_rgb
from matplotlib.figure import Figure

from pitplan import PlanError
from pitplan.config.material import Stockpile
from pitplan.config.project import Metal
from pitplan.export import xlsx
from pitplan.figures import palette, schedule as schedule_figures
from pitplan.report import viewer3d
from pitplan.results.folder import Folder, read_folder
from pitplan.scheduling import pushback_schedule
from pitplan.scheduling.flow.flows import none_of
from pitplan.scheduling.flow.programme import FlowOptimum

METAL = Metal(name="copper", column="cu", unit="percent", price=8000, recovery=0.5)


@pytest.fixture
def schedule():
    """Three benches under a mill that begins at a half: by rule in three years, and by the programme the same in other shares."""
    problem = problem_of(benches_of(*THREE), yearly_limits({"feed_tonnes": 100, "total_tonnes": 200}, (0.5, 1.0)))
    shares = {
        "rule": np.array([[1, 0, 0], [0.5, 0.5, 0], [0, 0.5, 0.5]]),
        "lp": np.array([[1, 0, 0], [0.25, 0.75, 0], [0, 0.25, 0.75]]),
    }
    grid = SimpleNamespace(toes=lambda: np.array([10.0, 0.0]))
    project = SimpleNamespace(economics=SimpleNamespace(currency="USD"), metals=(METAL,))
    project.processes, project.dumps, project.schedule, project.shells = (), (), None, problem.settings
    pushbacks = SimpleNamespace(plan=SimpleNamespace(grid=grid, project=project), factors=(0.5, 1.0))
    model, nothing = without_flows(problem, 3), np.zeros((0, 3))
    cumulative, cash = np.array([[1.0, 1, 1], [0.5, 1, 1], [0, 0.5, 1]]), np.array([300.0, 700, 300])
    optimum = FlowOptimum(cumulative, nothing, nothing, nothing, nothing, np.ones(3), 985.0, cash)
    flows = {method: none_of(model, mined) for method, mined in shares.items()}
    material = SimpleNamespace(edges={})
    made = pushback_schedule.PushbackSchedule(pushbacks, material, model, flows, 1, optimum, 990.0)
    feed = {"rule": [50, 100, 50], "lp": [25, 100, 75]}
    made.__dict__["material_flows"] = pd.concat(
        [rows_of(method, tonnes, shares[method]) for method, tonnes in feed.items()]
    )
    return made


def rows_of(method, feed, shares):
    """The flows of a method: ore to the mill, of 2 % copper, and all else to waste."""
    ore = pd.DataFrame({"year": [1, 2, 3], "source": "pit", "destination": "mill", "total_tonnes": feed})
    ore = ore.assign(feed_tonnes=feed, contained_copper=np.array(feed) / 50, recovered_copper=np.array(feed) / 100)
    ore["cash_flow"] = 8.0 * ore["feed_tonnes"]
    waste = ore.assign(destination="waste", total_tonnes=100 * shares.sum(axis=0) - feed, feed_tonnes=0.0)
    waste = waste.assign(contained_copper=0.0, recovered_copper=0.0, cash_flow=0.0)
    return pd.concat([ore, waste]).assign(method=method, pushback=1, bench=15.0, bin=1)


def test_a_gantt_has_a_bar_for_each_share(schedule):
    axes = schedule_figures.plot_gantt(schedule, Figure().subplots(1, 2))
    for ax, way in zip(axes, schedule.shares):
        (bars,) = ax.collections
        shares = schedule.shares[way]
        bench, year = np.nonzero(shares)
        boxes = [path.get_extents() for path in bars.get_paths()]
        # A pushback's first bench stands two places below the last of the one before.
        rows = np.array([1, 2, 5])[bench]
        assert [(box.x0, box.y0) for box in boxes] == [(t + 0.5, r - 0.5) for t, r in zip(year, rows)]
        assert bars.get_facecolors()[:, 3] == pytest.approx(0.25 + 0.75 * shares[bench, year])
        assert len({tuple(colour[:3]) for colour in bars.get_facecolors()}) == 2
        assert [text.get_text() for text in ax.texts] == ["pushback 1", "pushback 2"]
        assert [tick.get_text() for tick in ax.get_yticklabels()] == ["10", "0", "10"]
        low, high = ax.get_ylim()
        assert low > 5.5 and high < 0 and ax.get_xlim() == (0.5, 3.5)
    assert axes[0].get_title() == f"Rule: NPV {schedule.value('rule'):,.2f} USD"


def test_a_gantt_of_many_benches_has_a_row_per_pushback(schedule, monkeypatch):
    """A cell for each pushback and year in which it is mined, with its highest and lowest bench; the darkest has most tonnes."""
    monkeypatch.setattr(schedule_figures, "MOST_ROWS", 2)
    axes = schedule_figures.plot_gantt(schedule, Figure().subplots(2, 1))
    benches, toes = schedule.benches, schedule.pushbacks.plan.grid.toes()
    for ax, way in zip(axes, schedule.shares):
        shares = schedule.shares[way]
        cells = {(number, year) for bench, year in zip(*np.nonzero(shares)) for number in [benches.pushback[bench]]}
        found = {(round(it.get_y() + 0.45) + 1, round(it.get_x() - 0.5)): it for it in ax.patches}
        assert found.keys() == cells and len(ax.patches) == len(cells)
        tonnes = {key: (shares[benches.pushback == key[0], key[1]] * 100).sum() for key in cells}
        shades = {key: 0.25 + 0.75 * amount / max(tonnes.values()) for key, amount in tonnes.items()}
        assert {key: it.get_facecolor()[3] for key, it in found.items()} == pytest.approx(shades)
        for text in ax.texts:
            key = (round(text.get_position()[1]) + 1, round(text.get_position()[0]) - 1)
            mined = toes[benches.level[(benches.pushback == key[0]) & (shares[:, key[1]] > 0)]]
            assert text.get_text() == f"{mined.max():.0f}\n{mined.min():.0f}"
        assert [tick.get_text() for tick in ax.get_yticklabels()] == ["pushback 1", "pushback 2"]


def test_the_bars_of_years_are_the_ore_and_the_waste_beside_their_limits(schedule):
    axes = schedule_figures.plot_tonnes(schedule, Figure().subplots(1, 2))
    ore, waste = axes[0].containers
    assert [bar.get_height() for bar in ore] == [50, 100, 50] and [bar.get_height() for bar in waste] == [100, 0, 0]
    assert [bar.get_height() for bar in axes[1].containers[0]] == [25, 100, 75]
    mill, shovels = axes[0].lines
    assert mill.get_ydata().tolist() == [50, 100, 100, 100] and shovels.get_ydata().tolist() == [200] * 4
    assert mill.get_label() == "processing capacity: 100 t a year"
    names = [text.get_text() for text in axes[0].figure.legends[0].get_texts()]
    assert names == ["mill", "waste", "processing capacity: 100 t a year", "mining capacity: 200 t a year"]
    assert 200 < axes[0].get_ylim()[1] < 300


def test_metals_have_bars_of_what_is_recovered_and_a_line_of_the_head_grade(schedule):
    """Of the rule, which earns more: 50, 100 and 50 t of 2 % copper, half of it recovered."""
    figure = Figure()
    (ax,) = schedule_figures.plot_metals(schedule, [figure.subplots()])
    (bars,) = ax.containers
    assert [bar.get_height() for bar in bars] == [0.5, 1, 0.5] and ax.get_title() == "Copper, rule"
    right = figure.axes[1]
    assert right.lines[0].get_ydata().tolist() == pytest.approx([2, 2, 2]) and right.get_ylim()[1] > 2
    assert (ax.get_ylabel(), right.get_ylabel()) == ("recovered copper (bars), t", "head grade (line), %")


def test_curves_end_at_what_each_case_earns(schedule):
    years = schedule.years
    best = pd.DataFrame(
        {"case": "best", "revenue_factor": [1.0, 1.0, 0.9], "year": [1, 2, 1], "discounted_cash_flow": [700.0, 300, 5]}
    )
    ax = schedule_figures.plot_cumulative(schedule, pd.concat([years, best]), Figure().subplots())
    curves = {line.get_label().partition(":")[0]: line.get_ydata() for line in ax.lines if ":" in str(line.get_label())}
    # -200 + 500, 500 + 250 and 250, discounted at the ends of years.
    assert curves["rule"] == pytest.approx(np.cumsum([0, 300 / 1.1, 750 / 1.21, 250 / 1.331]))
    assert curves["best case"].tolist() == [0, 700, 1000] and "worst case" not in curves
    assert curves["linear relaxation"] == pytest.approx(np.cumsum([0, 300 / 1.1, 700 / 1.21, 300 / 1.331]))
    assert set(np.atleast_1d(curves["upper bound, these pushbacks"])) == {990.0}
    assert len(ax.get_legend().get_texts()) == 5
    # Who does not tell green from red, or orange from either, tells them by their marks.
    seen = [(line.get_marker(), line.get_linestyle(), line.get_linewidth()) for line in ax.lines[:4]]
    assert len(set(seen)) == 4


def test_each_destination_is_a_layer_of_its_own(schedule):
    """Of two processes, of which the mill is fed from the stockpile too in the second year."""
    flows = schedule.material_flows
    lp = flows[(flows["method"] == "lp") & (flows["destination"] == "mill")]
    more = [
        lp.assign(destination="leach", total_tonnes=10, feed_tonnes=10),
        lp[lp["year"] == 1].assign(destination="stockpile", total_tonnes=30, feed_tonnes=0),
        lp[lp["year"] == 2].assign(source="stockpile", total_tonnes=30, feed_tonnes=30),
    ]
    piles = (Stockpile(0.5),)
    stocked = replace(schedule, model=replace(schedule.model, stockpiles=piles))
    stocked.pushbacks.plan.project.schedule = SimpleNamespace(stockpiles=piles)
    stocked.__dict__["material_flows"] = pd.concat([flows, *more])
    mill, leach = SimpleNamespace(name="mill"), SimpleNamespace(name="leach")
    stocked.pushbacks.plan.project.processes = (mill, leach)
    axes = schedule_figures.plot_tonnes(stocked, Figure().subplots(1, 2))
    found = {bars.get_label(): [bar.get_height() for bar in bars] for bars in axes[1].containers}
    assert found["mill"] == [25, 100, 75] and found["mill, reclaimed"] == [0, 30, 0] and found["leach"] == [10] * 3
    assert found["to the stockpile"] == [30, 0, 0] and list(found)[-2:] == ["waste", "mill, reclaimed"]
    # What is mined is below the mining capacity, without the ore that is reclaimed; this is beside it, on the ore that is milled at once.
    mined, reclaimed = axes[1].containers[-2][1], axes[1].containers[-1][1]
    assert mined.get_y() == 110 and reclaimed.get_y() == 110
    assert all(
        bar.get_x() + bar.get_width() <= reclaimed.get_x() + 1e-9
        for bars in axes[1].containers[:-1]
        for bar in [bars[1]]
    )
    assert reclaimed.get_x() + reclaimed.get_width() < axes[1].containers[0][2].get_x()
    names = [text.get_text() for text in axes[1].figure.legends[0].get_texts()]
    assert names[:5] == ["mill", "leach", "to the stockpile", "waste", "mill, reclaimed"]


def test_a_process_has_one_colour_in_all_pictures(schedule):
    """In tonnes, recovered metal and head grades, in years of shells, and in the 3D page."""
    mill, leach = SimpleNamespace(name="mill"), SimpleNamespace(name="leach")
    schedule.pushbacks.plan.project.processes = (mill, leach)
    flows = schedule.material_flows
    more = flows[flows["destination"] == "mill"].assign(destination="leach")
    schedule.__dict__["material_flows"] = pd.concat([flows, more])
    due = {"mill": to_rgb("#3b6ea5"), "leach": to_rgb("#c8792b")}
    tonnes, figure = schedule_figures.plot_tonnes(schedule, Figure().subplots(1, 2))[0], Figure()
    metals = schedule_figures.plot_metals(schedule, [figure.subplots()])[0]
    for ax in (tonnes, metals):
        found = {bars.get_label(): bars[0].get_facecolor()[:3] for bars in ax.containers}
        assert {name: found[name] for name in due} == due
    assert [to_rgb(line.get_color()) for line in figure.axes[1].lines] == list(due.values())
    years = pd.DataFrame({"feed_tonnes": [3.0], "feed_tonnes_mill": [2.0], "feed_tonnes_leach": [1.0]})
    assert {name: to_rgb(colour) for name, (_, colour) in palette.layers_of(years).items()} == due
    columns = ["revenue_mill", "processing_cost_mill", "revenue_leach", "processing_cost_leach"]
    tints = viewer3d.tints_of(
        SimpleNamespace(blocks=pd.DataFrame(columns=columns)), "destination", ["waste", "leach", "mill"]
    )
    assert [to_rgb(tint) for tint in tints] == [to_rgb(palette.WASTE), due["leach"], due["mill"]]


@pytest.mark.parametrize("write", [schedule_figures.write_gantt, schedule_figures.write_tonnes])
def test_pictures_are_written(schedule, write, tmp_path):
    backend = matplotlib.get_backend()
    write(schedule, tmp_path / "picture.png")
    assert (tmp_path / "picture.png").stat().st_size > 5_000 and matplotlib.get_backend() == backend


def test_axes_that_are_too_few_are_refused(schedule):
    with pytest.raises(PlanError, match="1 axes are given, and the picture has 2"):
        schedule_figures.plot_gantt(schedule, [Figure().subplots()])


def test_a_workbook_has_a_sheet_a_table(tmp_path):
    openpyxl = pytest.importorskip("openpyxl")
    tables = {
        "methods": pd.DataFrame(
            {"method": ["rule", "lp"], "npv": [1234567.891, -5.0], "optimality_gap": [0.25, np.nan]}
        ),
        "schedule": pd.DataFrame(
            {"year": np.array([1, 2], dtype=np.int16), "share": [0.123456789, 1.0], "recovered_copper": [1.5, 2.0]}
        ),
    }
    xlsx.write(tmp_path / "book.xlsx", tables)
    book = openpyxl.load_workbook(tmp_path / "book.xlsx")
    assert book.sheetnames == ["methods", "schedule"]
    assert [[cell.value for cell in row] for row in book["methods"]] == [
        ["method", "npv", "optimality_gap"],
        ["rule", 1234567.891, 0.25],
        ["lp", -5, None],
    ]
    assert [[cell.value for cell in row] for row in book["schedule"]][1:] == [[1, 0.123456789, 1.5], [2, 1, 2]]
    assert book["schedule"].freeze_panes == "A2" and book["schedule"]["A1"].font.bold
    assert [book["schedule"].cell(2, k).number_format for k in (1, 2, 3)] == ["General", "0.0000", "#,##0.00"]


def test_a_library_that_is_missing_is_named_before_anything_is_solved(monkeypatch):
    monkeypatch.setitem(__import__("sys").modules, "openpyxl", None)
    with pytest.raises(PlanError, match="python3-openpyxl"):
        xlsx.demand_library()


def test_the_page_has_a_colour_a_year(solved):
    """The last year of the blocks has the last colour; a folder without a schedule has none."""
    folder = read_folder(solved[1])
    assert viewer3d.model_of(folder)["stages"] == []
    years = np.where(folder.blocks["revenue_factor"] > 0.0, 1 + np.arange(len(folder.blocks)) % 3, 0)
    scheduled = Folder(folder.path, folder.blocks.assign(year=years), folder.record | {"schedule": "lp"})
    (stage,) = viewer3d.model_of(scheduled)["stages"]
    cells = np.frombuffer(gzip.decompress(base64.b64decode(stage["cells"])), dtype=np.uint8)
    assert cells[folder.blocks["id"]].tolist() == years.tolist() and cells.sum() == years.sum()
    assert stage["name"] == "year" and len(stage["colours"]) == 3 and len(set(map(tuple, stage["colours"]))) == 3


@pytest.mark.parametrize(("bound", "told"), [(1234.56789, 1234.568), (np.inf, None), (None, None)])
def test_a_bound_is_told_to_a_thousandth_where_there_is_one(schedule, bound, told):
    assert replace(schedule, milp_upper_bound=bound).record["milp_upper_bound"] == told


@pytest.mark.parametrize("way", ["rule", "lp"])
def test_a_way_that_mines_nothing_is_drawn_with_a_sentence(schedule, way):
    """In any place; the other way keeps its bars, and the legend names them."""
    nothing = none_of(replace(schedule.model, years=0), np.zeros((3, 0)))
    empty = replace(schedule, flows=schedule.flows | {way: nothing})
    rows = schedule.material_flows
    empty.__dict__["material_flows"] = rows[rows["method"] != way]
    place = list(empty.shares).index(way)
    axes = schedule_figures.plot_tonnes(empty, Figure().subplots(1, 2))
    assert [text.get_text() for text in axes[place].texts] == ["nothing is mined"] and not axes[place].containers
    assert len(axes[1 - place].containers) == 2
    (legend,) = axes[0].figure.legends
    assert [text.get_text() for text in legend.get_texts()][:2] == ["mill", "waste"]
    axes = schedule_figures.plot_gantt(empty, Figure().subplots(1, 2))
    assert "nothing is mined" in [text.get_text() for text in axes[place].texts]
    (note,) = [note for note in empty.notes if "mines nothing" in note]
    named = {"rule": "rule", "lp": "linear programme"}[way]
    # The bound is above 0.
    warns = "WARNING: " if empty.shown == way else ""
    assert note.startswith(f"{warns}{named} mines nothing: at these prices and costs")

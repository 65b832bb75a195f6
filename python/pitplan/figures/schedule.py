"""Charts of schedules, of pushbacks or by block: material, feed, metals and money by period, and when pushbacks are mined."""

from __future__ import annotations

from dataclasses import dataclass
from pathlib import Path
from typing import TYPE_CHECKING, Any

import matplotlib
import numpy as np
import pandas as pd
from matplotlib.axes import Axes
from matplotlib.collections import PatchCollection
from matplotlib.figure import Figure
from matplotlib.patches import Rectangle
from matplotlib.patheffects import withStroke
from matplotlib.ticker import MaxNLocator

from pitplan.blockmodel.grid import metres
from pitplan.config.economics import Metal
from pitplan.config.material import PIT, WASTE as AS_WASTE, Stockpile
from pitplan.config.periods import Calendar
from pitplan.config.project import Project
from pitplan.config.shells import ShellRules
from pitplan.core.magnitude import money_unit, scaled
from pitplan.core.revenue_factors import factor_text
from pitplan.pushbacks.bench_table import ROCK
from pitplan.results.rounding import metal_unit
from pitplan.scheduling.flow.material import names_of
from pitplan.scheduling.methods import BLOCK, LP, MILP, NAMES, RULE
from pitplan.scheduling.pushback_schedule import PushbackSchedule
from pitplan.scheduling.schedule import Schedule

from . import palette
from .palette import WASTE
from .style import BEST, BEST_MARK, PLAIN, SPECIFIED, SPECIFIED_MARK, WORST, WORST_MARK, figure_file, list_of

if TYPE_CHECKING:
    from pitplan.scheduling.blocks.tables import BlockSchedule


CASES = {"best": "Best case", "worst": "Worst case", "specified": "Specified case"}
MILL, SHOVELS = "#1f3f6e", "#8a7f6a"
# A capacity that exceeds all bars by more than this factor is in the legend only, so that bars stay legible.
FAR_ABOVE = 2.0
MARGIN = 1.12
# The largest share of the height below zero, for years that spend far more than they earn.
MOST_BELOW = 0.8


@dataclass(frozen=True)
class Scale:
    """The common scale of all cases: size and name of the units of tonnes and money, and the limits of the axes in these units."""

    tonnes: tuple[float, str]
    money: tuple[float, str]
    rock: tuple[float, float]
    cash: tuple[float, float]


def capacities_of(settings: ShellRules) -> list[tuple[str, tuple[float, ...], str]]:
    """Returns name, tonnes of each year and colour of each capacity; the last year continues."""
    capacity = "processing capacity (all processes)" if settings.per_process else "processing capacity"
    found = [(capacity, tuple(sum(of_year) for of_year in settings.capacities_by_year), MILL)]
    return (
        found if settings.mining_capacity is None else [*found, ("mining capacity", settings.mining_by_year, SHOVELS)]
    )


def label_of(calendar: Calendar, count: int) -> str:
    if calendar.is_yearly or not count:
        return calendar.word
    ends = calendar.ends(count)
    return f"period, ending after {ends[0]:.3g} to {ends[-1]:.4g} years"


def in_words(by_year: tuple[float, ...], size: float) -> str:
    """Returns the tonnes of years, or from the least to the most."""
    ends = sorted({min(by_year) / size, max(by_year) / size})
    return " to ".join(f"{round(end, 3):,.12g}" for end in ends)


def scale_of(years: pd.DataFrame, settings: ShellRules, currency: str) -> Scale:
    """Returns limits that hold all years, with zero at the same height on both axes."""
    most = max(float(years["total_tonnes"].max()), 1.0)
    longest = float(settings.calendar.lengths(int(years["year"].max())).max())
    highest = [longest * max(by_year) for _, by_year, _ in capacities_of(settings)]
    near = [high for high in highest if high <= FAR_ABOVE * most]
    tonnes = scaled(max(most, *near, 0.0))
    top = MARGIN * max(most, *near, 0.0) / tonnes[0]
    earned, spent = max(float(years["cash_flow"].max()), 0.0), max(-float(years["cash_flow"].min()), 0.0)
    money = money_unit(max(earned, spent), currency)
    whole = MARGIN * max(earned + spent, 1.0) / money[0]
    below = min((spent / money[0] + 0.03 * whole) / whole, MOST_BELOW) if spent else 0.0
    whole = max(whole, 1.03 * spent / money[0] / MOST_BELOW)
    return Scale(tonnes, money, (-top * below / (1 - below), top), (-whole * below, whole * (1 - below)))


def write_years(table: pd.DataFrame, project: Project, chosen: float, path: Path) -> None:
    with figure_file(path, 12, 4.6, lays_out=False) as figure:
        plot_years(table, project, chosen, figure.subplots(1, len(cases_of(table)), sharex=True))
        if (table["revenue_factor"] == chosen).any():
            figure.tight_layout(rect=(0, 0, 1, 0.92))


def cases_of(table: pd.DataFrame) -> list[str]:
    """Returns the cases that a table of years has; best and worst case at least."""
    present = set(table["case"]) | {"best", "worst"}
    return [case for case in CASES if case in present]


def plot_years(table: pd.DataFrame, project: Project, chosen: float, axes: Any) -> list[Axes]:
    """Draws the years of one pit, a panel per case. The axes of an empty pit stay empty, under a title that says so.

    Parameters
    ----------
    table : DataFrame
        As `Shells.years`.
    chosen : float
        Revenue factor of the pit.
    axes : array or list of Axes
        Two, or three if a case is specified.
    """
    found, years = list_of(axes, len(cases_of(table))), table[table["revenue_factor"] == chosen]
    if years.empty:
        for ax in found:
            ax.set_axis_off()
        found[0].figure.suptitle(f"The pit of revenue factor {factor_text(chosen)} is empty")
    else:
        draw(found, years, project)
    return found


def draw(axes: list[Axes], years: pd.DataFrame, project: Project) -> None:
    """Draws a panel per case, and one legend for all."""
    scale = scale_of(years, project.shells, project.economics.currency)
    size, unit = scale.money
    rights = [axis.twinx() for axis in axes]
    for left, right, case in zip(axes, rights, cases_of(years)):
        shown = years[years["case"] == case]
        draw_tonnes(left, shown, scale, project.shells)
        draw_cash(right, shown, scale)
        left.set_title(f"{CASES[case]}: NPV {shown['discounted_cash_flow'].sum() / size:,.1f} {unit}")
    axes[0].set_ylabel(f"total material, {scale.tonnes[1]}t")
    rights[-1].set_ylabel(f"undiscounted cash flow, {unit}")
    # Bars first in the legend; matplotlib puts lines first.
    drawn = [axes[0].containers, axes[0].lines, rights[0].lines[:1]]
    handles = [handle for handles in drawn for handle in handles]
    names = [str(handle.get_label()) for handle in handles]
    axes[0].figure.legend(handles, names, ncol=len(names), loc="upper center", frameon=False)


def draw_tonnes(axis: Axes, years: pd.DataFrame, scale: Scale, settings: ShellRules) -> None:
    """Draws a bar of mill feed by process and of waste per year, and a horizontal line per capacity."""
    size, sign = scale.tonnes
    below = np.zeros(len(years))
    for name, (column, colour) in palette.layers_of(years).items():
        axis.bar(years["year"], years[column] / size, 0.8, bottom=below, color=colour, label=name, linewidth=0)
        below = below + years[column].to_numpy() / size
    # With much dilution the feed may exceed the total material.
    waste = (years["total_tonnes"] / size - below).clip(lower=0)
    axis.bar(years["year"], waste, 0.8, bottom=below, color=WASTE, label="waste", linewidth=0)
    for name, by_year, colour in capacities_of(settings):
        line = {"color": colour, "linestyle": "--", "linewidth": 1.3}
        line["label"] = f"{name}: {in_words(by_year, size)} {sign}t a year"
        count = max(len(by_year), int(years["year"].max())) + 1
        per_year = np.array([by_year[min(year, len(by_year) - 1)] for year in range(count)])
        values = per_year * settings.calendar.lengths(count) / size
        if (values == values[0]).all():
            axis.axhline(values[0], **line)
        else:
            axis.step(np.arange(count) + 0.5, values, where="post", **line)
    axis.set_ylim(*scale.rock)
    axis.set_yticks([tick for tick in axis.get_yticks() if 0 <= tick <= scale.rock[1]])
    axis.xaxis.set_major_locator(MaxNLocator(integer=True))
    axis.set_xlim(0.4, max(float(years["year"].max()) + 0.6, axis.get_xlim()[1]))
    axis.set_xlabel(label_of(settings.calendar, int(years["year"].max())))


def draw_cash(axis: Axes, years: pd.DataFrame, scale: Scale) -> None:
    """Draws the cash flow of each year, and a line at zero."""
    marks = {"marker": "o", "markersize": 3.5, "linewidth": 1.5}
    axis.plot(years["year"], years["cash_flow"] / scale.money[0], color=PLAIN, label="undiscounted cash flow", **marks)
    axis.axhline(0, color="black", linewidth=0.8)
    axis.set_ylim(*scale.cash)


# Where two rows of axes lie, in shares of the figure: above tonnes, below metals with their second axes.
UPPER = {"left": 0.06, "right": 0.985, "bottom": 0.53, "top": 0.9, "wspace": 0.08}
LOWER = {"left": 0.06, "right": 0.94, "bottom": 0.065, "top": 0.425, "wspace": 0.34}
# The most metals that a figure shows.
MOST_METALS = 3
# Bars are paler than the lines of head grades over them.
PALE = 0.5
HALO = [withStroke(linewidth=3.2, foreground="white")]
ONE = "#a23b8f"


def plot_metal(feed: pd.DataFrame, metal: Metal, calendar: Calendar, ax: Axes) -> Axes:
    """Draws the recovered metal of each period in bars, a layer per process, and on a second axis the head grade of each process that recovers it.

    Parameters
    ----------
    feed : DataFrame
        Rows of a method with year, process, recovered_METAL and head_grade_METAL, as in feed.csv.
    """
    processes = list(dict.fromkeys(feed["process"]))
    colours, right = palette.of_processes(processes), ax.twinx()
    sums = feed.groupby("year")[f"recovered_{metal.name}"].sum()
    size, unit = metal_unit(float(sums.max()) if len(sums) else 0.0, metal)
    below = np.zeros(len(sums))
    for process in processes:
        shown = feed[feed["process"] == process]
        high = shown[f"recovered_{metal.name}"].to_numpy() / size
        ax.bar(shown["year"], high, 0.8, bottom=below, color=colours[process], alpha=PALE, label=process, linewidth=0)
        below = below + high
        if sums.any() and not high.any():
            continue
        colour = ONE if len(processes) == 1 else colours[process]
        look: dict[str, Any] = {"marker": "o", "markersize": 3.5, "linewidth": 1.6, "path_effects": HALO}
        right.plot(shown["year"], shown[f"head_grade_{metal.name}"], color=colour, label="head grade", **look)
    grades = pd.Series([grade for line in right.lines for grade in line.get_ydata()], dtype=float)
    right.set_ylim(0, 1.15 * grades.max() if grades.notna().any() and grades.max() > 0 else 1.0)
    right.set_ylabel(f"head grade (line), {metal.sign}")
    ax.set_ylim(0, 1.15 * float(below.max(initial=0.0)) or 1.0)
    ax.set_ylabel(f"recovered {metal.name} (bars), {unit}")
    ax.set_xlabel(label_of(calendar, len(sums)))
    ax.xaxis.set_major_locator(MaxNLocator(integer=True))
    ax.set_xlim(0.4, max(len(sums), 1) + 0.6)
    return ax


def metal_rows(figure: Figure, count: int, place: dict[str, float], sharey: bool = False) -> list[Axes]:
    return list(np.ravel(figure.add_gridspec(1, count, **place).subplots(sharey=sharey, squeeze=False)))


TITLES = {RULE: "Rule", LP: "Linear programme", MILP: "Integer programme"}
# The least opacity, for the smallest part of a bench.
PALEST = 0.25
# The most benches with a label, and the most that have a row each.
MOST_NAMES, MOST_ROWS = 28, 80
# Cells darker than this have white text.
DARK = 0.45


def write_gantt(schedule: PushbackSchedule, path: Path) -> None:
    count, by_bench = len(schedule.shares), is_by_bench(schedule)
    if by_bench:
        high = min(max(3.2, 0.16 * len(schedule.benches)), 14.0) + 0.8
    else:
        high = count * (0.5 * schedule.benches.pushback.max() + 0.9)
    with figure_file(path, 12, high) as figure:
        rows, columns = (1, count) if by_bench else (count, 1)
        plot_gantt(schedule, figure.subplots(rows, columns, sharex=True, sharey=by_bench, squeeze=False))


def is_by_bench(schedule: PushbackSchedule) -> bool:
    """Returns whether each bench has a row of its own."""
    return len(schedule.benches) <= MOST_ROWS


def plot_gantt(schedule: PushbackSchedule, axes: Any) -> list[Axes]:
    """Draws the years in which benches are mined, by pushback from the top; of more than MOST_ROWS benches a row per pushback.

    Parameters
    ----------
    axes : array or list of Axes
        One per method.
    """
    found = list_of(axes, len(schedule.shares))
    for ax, way in zip(found, schedule.shares):
        (draw_gantt if is_by_bench(schedule) else draw_pushbacks)(schedule, way, ax)
    if is_by_bench(schedule):
        found[0].set_ylabel("benches by pushback: elevation of the toe, m")
    return found


def draw_pushbacks(schedule: PushbackSchedule, way: str, ax: Axes) -> None:
    """Draws a row per pushback with a cell per year, darker the more is mined there, and the toes of its highest and lowest bench."""
    shares, benches = schedule.shares[way], schedule.benches
    toes, count = schedule.pushbacks.plan.grid.toes()[benches.level], int(benches.pushback.max())
    tonnes = np.zeros((count, shares.shape[1]))
    np.add.at(tonnes, benches.pushback - 1, shares * benches.of(ROCK)[:, None])
    tints, most = pushback_tints(count), float(tonnes.max(initial=0.0)) or 1.0
    for row, year in zip(*np.nonzero(tonnes)):
        shade = PALEST + (1 - PALEST) * tonnes[row, year] / most
        ax.add_patch(Rectangle((year + 0.5, row - 0.45), 1, 0.9, color=(*tints[row, :3], shade), linewidth=0))
        mined = toes[(benches.pushback == row + 1) & (shares[:, year] > 0)]
        is_dark = shade * (1 - tints[row, :3].mean()) > DARK
        words = {"ha": "center", "va": "center", "fontsize": 6.5, "color": "white" if is_dark else "black"}
        ax.text(year + 1, row, f"{mined.max():.0f}\n{mined.min():.0f}", **words)
    ax.set_ylim(count - 0.5, -0.5)
    ax.set_yticks(range(count), [f"pushback {number}" for number in range(1, count + 1)])
    finish_gantt(schedule, way, ax, f"; toe of highest and lowest bench of each {schedule.settings.calendar.word}, m")


def draw_gantt(schedule: PushbackSchedule, way: str, ax: Axes) -> None:
    """Draws a bar per bench and year, darker the larger the share of the bench."""
    shares, benches = schedule.shares[way], schedule.benches
    # Above the first row of a pushback is space for its label.
    row = np.arange(len(benches)) + 2.0 * (benches.pushback - 1) + 1
    bench, year = np.nonzero(shares)
    tints = pushback_tints(int(benches.pushback.max()))[benches.pushback[bench] - 1]
    tints[:, 3] = PALEST + (1 - PALEST) * shares[bench, year]
    bars = [Rectangle((t + 0.5, row[b] - 0.5), 1, 1) for b, t in zip(bench, year)]
    ax.add_collection(PatchCollection(bars, facecolors=tints, edgecolors="white", linewidths=0.3))
    ax.set_ylim(row[-1] + 1, -1)
    ax.spines["right"].set_visible(False)
    name_benches(schedule, row, ax)
    finish_gantt(schedule, way, ax)


def finish_gantt(schedule: PushbackSchedule, way: str, ax: Axes, more: str = "") -> None:
    """Adds the axis of years and a title, which ends with `more`; a text if nothing is mined."""
    longest, value = longest_of(schedule), schedule.value(way)
    size, unit = money_unit(abs(value), schedule.pushbacks.plan.project.economics.currency)
    ax.set_xlim(0.5, longest + 0.5)
    ax.xaxis.set_major_locator(MaxNLocator(integer=True))
    ax.set_xlabel(label_of(schedule.settings.calendar, longest))
    ax.set_title(f"{TITLES.get(way, way)}: NPV {value / size:,.2f} {unit}{more}")
    if not schedule.shares[way].any():
        ax.text(0.5, 0.5, "nothing is mined", transform=ax.transAxes, ha="center", va="center")


def longest_of(schedule: PushbackSchedule) -> int:
    """Returns the years of the method that takes most."""
    return max(shares.shape[1] for shares in schedule.shares.values())


def pushback_tints(count: int) -> np.ndarray:
    """Returns a colour per pushback, as in plans of pushbacks; shape (count, 4)."""
    return matplotlib.colormaps["viridis_r"](np.linspace(0.08, 0.95, count))


def name_benches(schedule: PushbackSchedule, row: np.ndarray, ax: Axes) -> None:
    benches, toes = schedule.benches, schedule.pushbacks.plan.grid.toes()
    each = -(-len(benches) // MOST_NAMES)
    shown = [bench for bench in range(len(benches)) if benches.level[bench] % each == 0]
    ax.set_yticks(row[shown], [metres(toes[benches.level[bench]]) for bench in shown], fontsize=7)
    for number in np.unique(benches.pushback):
        first = row[benches.pushback == number][0]
        ax.text(0.6, first - 1.0, f"pushback {number}", va="center", ha="left", fontsize=8, fontweight="bold")
        ax.plot([0.5, longest_of(schedule) + 0.5], [first - 0.55] * 2, color="#999999", linewidth=0.6)


COLOURS = {
    "worst": WORST,
    "specified": SPECIFIED,
    RULE: "#d08a1d",
    LP: palette.ORE,
    MILP: "#7b4fa3",
    "best": BEST,
    "relaxed": PLAIN,
    "upper_bound": PLAIN,
}
# The width of a year's bar, and how much of it the ore has that is reclaimed.
WIDTH, BESIDE = 0.84, 0.26
MARKED = {"marker": "o", "markersize": 3, "linewidth": 1.4}
# The line of the rule is broad, so that it stays visible below another.
LINES = {
    "worst": MARKED | {"marker": WORST_MARK, "markersize": 4},
    "specified": MARKED | {"marker": SPECIFIED_MARK, "markersize": 3, "linewidth": 1.0},
    RULE: {"linewidth": 5, "alpha": 0.5},
    LP: MARKED,
    MILP: MARKED | {"marker": "s"},
    "best": MARKED | {"marker": BEST_MARK, "markersize": 4},
    "relaxed": {"linestyle": "--", "linewidth": 1.2},
}


def write_tonnes(schedule: PushbackSchedule, path: Path) -> None:
    """Writes the tonnes of each method, and below them the metals of the one that is shown."""
    metals = schedule.pushbacks.plan.project.metals[:MOST_METALS]
    with figure_file(path, 12, 8.0, lays_out=False) as figure:
        plot_tonnes(schedule, metal_rows(figure, len(schedule.shares), UPPER, sharey=True))
        plot_metals(schedule, metal_rows(figure, len(metals), LOWER))


def plot_tonnes(schedule: PushbackSchedule, axes: Any) -> list[Axes]:
    """Draws where the material that is mined in each year goes, with the capacities; reclaimed ore is beside it, on top of the ore that the
    processes take from the pit, so that the mining capacity holds for the one and the processing capacity for the other.

    Parameters
    ----------
    axes : array or list of Axes
        One per method.
    """
    found, tonnes = list_of(axes, len(schedule.shares)), tonnes_of(schedule)
    size, sign = scaled(float(tonnes.groupby(["method", "year"]).sum().max() if len(tonnes) else 1.0))
    for ax, way in zip(found, schedule.shares):
        draw_flows(ax, schedule, way, size)
        draw_limits(ax, schedule, schedule.flows[way].years, (size, sign))
        ax.set_title(TITLES.get(way, way))
    top = max((bar.get_y() + bar.get_height() for ax in found for bars in ax.containers for bar in bars), default=0.0)
    near = [line.get_ydata().max() for line in found[0].lines if line.get_ydata().max() <= FAR_ABOVE * top]
    for ax in found:
        ax.set_ylim(0, MARGIN * max(top, *near, 0.0) or 1.0)
    what = "total material; hatched, beside it: reclaimed ore" if schedule.is_stocked else "total material"
    found[0].set_ylabel(f"{what}, {sign}t")
    add_legend(found, [label for _, _, label, _ in (*layers_of(schedule), *reclaimed_layers(schedule))])
    return found


def plot_metals(schedule: Schedule, axes: Any) -> list[Axes]:
    """Draws recovered metal and head grade of each year of the method that is shown, of up to three metals.

    Parameters
    ----------
    axes : array or list of Axes
        One per metal.
    """
    project, feed = schedule.plan.project, schedule.feed[schedule.feed["method"] == schedule.shown]
    metals = project.metals[:MOST_METALS]
    found = list_of(axes, len(metals))
    for ax, metal in zip(found, metals):
        plot_metal(feed, metal, project.shells.calendar, ax)
        shown = "" if schedule.shown == BLOCK else f", {TITLES.get(schedule.shown, schedule.shown).lower()}"
        ax.set_title(f"{metal.name.capitalize()}{shown}")
    return found


def add_legend(found: list[Axes], layers: list[str]) -> None:
    """Adds one legend above all axes, of what any of them shows: layers from below, then lines."""
    drawn: dict[str, Any] = {}
    bars = [bar for ax in found for bar in ax.containers]
    bars.sort(key=lambda it: layers.index(it.get_label()))
    for handle in (*bars, *(line for ax in found for line in ax.lines)):
        drawn.setdefault(str(handle.get_label()), handle)
    found[-1].figure.legend(
        drawn.values(), drawn.keys(), ncol=min(len(drawn), 5) or 1, loc="upper center", frameon=False, fontsize=8
    )


def stockpiles_of(schedule: Schedule) -> tuple[Stockpile, ...]:
    rules = schedule.plan.project.schedule
    return rules.stockpiles if rules else ()


def tonnes_of(schedule: Schedule) -> pd.Series:
    """Returns the in-situ tonnes that flow, by method, year, source and destination."""
    return schedule.material_flows.groupby(["method", "year", "source", "destination"])["total_tonnes"].sum()


def layers_of(schedule: Schedule) -> list[tuple[str, str, str, dict[str, Any]]]:
    """Returns the layers of a year's bar from below: source, destination, label and look."""
    processes, stockpiles = palette.of_processes(names_of(schedule.plan)), stockpiles_of(schedule)
    found: list[tuple[str, str, str, dict[str, Any]]] = [
        (PIT, name, name, {"color": colour}) for name, colour in processes.items()
    ]
    for name, colour in palette.of_stockpiles(it.name for it in stockpiles).items():
        label = "to the stockpile" if len(stockpiles) == 1 else f"to {name}"
        found.append((PIT, name, label, {"color": colour}))
    dumps = schedule.plan.project.dumps
    for name, colour in palette.of_dumps(it.name for it in dumps).items():
        found.append((PIT, name, f"waste to {name}", {"color": colour}))
    return found if dumps else [*found, (PIT, AS_WASTE, "waste", {"color": palette.WASTE})]


def reclaimed_layers(schedule: Schedule) -> list[tuple[str, str, str, dict[str, Any]]]:
    """Returns the layers of the ore that is reclaimed in a year, as `layers_of` does."""
    found: list[tuple[str, str, str, dict[str, Any]]] = []
    for name, colour in palette.of_processes(names_of(schedule.plan)).items():
        look = {"color": colour, "alpha": 0.55, "hatch": "///", "edgecolor": "white"}
        found += [(it.name, name, f"{name}, reclaimed", look) for it in stockpiles_of(schedule)]
    return found


def draw_flows(ax: Axes, schedule: Schedule, way: str, size: float) -> None:
    """Draws a bar per year with a layer per destination, and one beside it of the ore that is reclaimed; a text if nothing is mined."""
    count = schedule.last_years[way]
    ax.set_xlabel(label_of(schedule.plan.project.shells.calendar, count))
    if not count:
        ax.text(0.5, 0.5, "nothing is mined", transform=ax.transAxes, ha="center", va="center")
        ax.set_xlim(0.4, 1.6)
        ax.set_xticks([])
        return
    tonnes, years = tonnes_of(schedule), np.arange(1, count + 1)

    def high(source: str, destination: str) -> np.ndarray:
        keys = pd.MultiIndex.from_product([[way], years, [source], [destination]], names=tonnes.index.names)
        return np.asarray(tonnes.reindex(keys, fill_value=0.0).to_numpy() / size)

    fed = np.sum([high(PIT, name) for name in palette.of_processes(names_of(schedule.plan))], axis=0)
    wide = WIDTH - BESIDE if stockpiles_of(schedule) else WIDTH
    bars = (
        (layers_of(schedule), 0.0 * fed, wide, (wide - WIDTH) / 2),
        (reclaimed_layers(schedule), fed, BESIDE, wide / 2),
    )
    for layers, below, width, shift in bars:
        for source, destination, label, look in layers:
            tall = high(source, destination)
            if tall.any():
                ax.bar(years + shift, tall, width, bottom=below, label=label, linewidth=0, **look)
            below = below + tall
    ax.xaxis.set_major_locator(MaxNLocator(integer=True))
    ax.set_xlim(0.4, count + 0.6)


def draw_limits(ax: Axes, schedule: PushbackSchedule, count: int, unit: tuple[float, str]) -> None:
    """Draws a line per capacity; that of the mill with its ramp-up."""
    size, sign = unit
    limits = schedule.problem.limits
    mill = "processing capacity (all processes)" if len(limits.parts("feed_tonnes")) > 1 else "processing capacity"
    for name, label, colour in (("feed_tonnes", mill, MILL), ("total_tonnes", "mining capacity", SHOVELS)):
        if limits.parts(name):
            most = np.sum([it.of_years(max(count, 1)) for it in limits.parts(name)], axis=0) / size
            per_year = tuple(map(sum, zip(*(it.by_period or (it.amount,) for it in limits.parts(name)))))
            label = f"{label}: {in_words(per_year, size)} {sign}t a year"
            draw_limit(ax, most, colour, label)


def draw_limit(ax: Axes, most: np.ndarray, colour: str, label: str) -> None:
    """Draws the limit of each year as a line of steps."""
    look = {"drawstyle": "steps-post", "linestyle": "--", "linewidth": 1.3}
    ax.plot(np.arange(len(most) + 1) + 0.5, np.append(most, most[-1]), color=colour, label=label, **look)


def write_cumulative(schedule: PushbackSchedule, years: pd.DataFrame, path: Path) -> None:
    with figure_file(path, 9.5, 4.8, lays_out=False) as figure:
        plot_cumulative(schedule, years, figure.subplots())
        figure.tight_layout()


def curves_of(schedule: PushbackSchedule, years: pd.DataFrame) -> dict[str, np.ndarray]:
    """Returns by case the discounted cash flow to the end of each year, from year 0."""
    shown = years[years["revenue_factor"] == schedule.factor]
    curves = {
        case: np.append(0.0, shown["discounted_cash_flow"][shown["case"] == case].cumsum())
        for case in NAMES
        if case not in ("relaxed", "upper_bound")
    }
    if schedule.optimum is not None:
        cash = schedule.optimum.cash
        curves["relaxed"] = np.append(0.0, np.cumsum(cash * schedule.discounts(len(cash))))
    return curves


def plot_cumulative(schedule: PushbackSchedule, years: pd.DataFrame, ax: Axes) -> Axes:
    """Draws the cumulative discounted cash flow of each case and method, of the optimum of the linear programme, and the
    upper bound.

    Parameters
    ----------
    years : DataFrame
        As years.csv.
    """
    curves = curves_of(schedule, years)
    currency = schedule.pushbacks.plan.project.economics.currency
    size, unit = money_unit(max(float(np.abs(curve).max()) for curve in curves.values()), currency)
    for case, curve in curves.items():
        if len(curve) > 1:
            ends = np.append(0.0, schedule.settings.calendar.ends(len(curve) - 1))
            label = f"{NAMES[case]}: {curve[-1] / size:,.2f}"
            ax.plot(ends, curve / size, color=COLOURS[case], label=label, **LINES[case])
    if schedule.upper_bound is not None:
        label = f"{NAMES['upper_bound']}: {schedule.upper_bound / size:,.2f}"
        ax.axhline(schedule.upper_bound / size, color=COLOURS["upper_bound"], linewidth=0.9, linestyle=":", label=label)
    finish_value(ax, unit)
    return ax


def finish_value(ax: Axes, unit: str) -> None:
    """Adds the axes and the legend of cumulative discounted cash flows."""
    ax.axhline(0, color="black", linewidth=0.8)
    ax.set_xlabel("end of year")
    ax.set_ylabel(f"cumulative discounted cash flow, {unit}")
    ax.xaxis.set_major_locator(MaxNLocator(integer=True))
    ax.legend(loc="lower right", facecolor="white", edgecolor="none", framealpha=0.9)


def write(made: BlockSchedule, path: Path) -> None:
    """Writes tonnes and cash flow, and below them the metals."""
    metals = made.planned.plan.project.metals[:MOST_METALS]
    with figure_file(path, 12, 8.0, lays_out=False) as figure:
        plot(made, metal_rows(figure, 2, UPPER | {"wspace": 0.16, "top": 0.96}))
        plot_metals(made, metal_rows(figure, len(metals), LOWER))


def plot(made: BlockSchedule, axes: Any) -> list[Axes]:
    """Draws ore and waste of each year with the capacities, and the cumulative discounted cash flow with the upper bound."""
    tonnes, money = list_of(axes, 2)
    plot_block_tonnes(made, tonnes)
    plot_value(made, money)
    return [tonnes, money]


def plot_block_tonnes(made: BlockSchedule, ax: Axes) -> None:
    years, limits = made.years, made.planned.limits
    top = max(float(years["total_tonnes"].max()), 1.0) if len(years) else 1.0
    size, sign = scaled(top)
    draw_flows(ax, made, BLOCK, size)
    capacities = (("feed_tonnes", "processing capacity", MILL), ("total_tonnes", "mining capacity", SHOVELS))
    for name, label, colour in capacities:
        per_year = sum(it.amount for it in limits.parts(name))
        if limits.parts(name) and per_year <= FAR_ABOVE * top:
            most = np.sum([it.of_years(max(len(years), 1)) for it in limits.parts(name)], axis=0) / size
            draw_limit(ax, most, colour, f"{label}: {round(per_year / size, 3):,.12g} {sign}t a year")
            top = max(top, most.max() * size)
    ax.set_ylim(0, 1.2 * MARGIN * top / size)
    what = "total material; hatched, beside it: reclaimed ore" if stockpiles_of(made) else "total material"
    ax.set_ylabel(f"{what}, {sign}t")
    ax.legend(loc="upper right", ncol=2, facecolor="white", edgecolor="none", framealpha=0.9)


def plot_value(made: BlockSchedule, ax: Axes) -> None:
    earned = np.append(0.0, made.years["discounted_cash_flow"].cumsum())
    currency = made.planned.plan.project.economics.currency
    size, unit = money_unit(max(float(np.abs(earned).max()), made.found.bound), currency)
    marks = {"color": palette.ORE, "marker": "o", "markersize": 3, "linewidth": 1.4}
    ends = np.append(0.0, made.planned.plan.project.shells.calendar.ends(len(earned) - 1))
    ax.plot(ends, earned / size, label=f"schedule: {earned[-1] / size:,.2f}", **marks)
    bound = made.found.bound / size
    label = f"upper bound, any schedule by block: {bound:,.2f}"
    ax.axhline(bound, color=PLAIN, linestyle="--", linewidth=1.2, label=label)
    finish_value(ax, unit)

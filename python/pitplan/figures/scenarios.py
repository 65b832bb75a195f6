"""Figures of scenarios: plans and sections of the inclusion probability, and the spread of tonnes and value.

Each `plot_` function draws on the axes that it is given, and returns them; each `write_` function writes a file by it.
"""

from __future__ import annotations

from functools import cached_property
from pathlib import Path
from typing import Any

import matplotlib
import numpy as np
import pandas as pd
from matplotlib.axes import Axes
from matplotlib.colors import BoundaryNorm, ListedColormap, to_rgba
from matplotlib.figure import Figure
from matplotlib.lines import Line2D

from pitplan.core.magnitude import money_unit, scaled
from pitplan.core.revenue_factors import factor_text
from pitplan.core.tolerances import SUM_ERROR
from pitplan.studies.scenarios.pit_probability import QUANTILES, Likely

from . import scene
from .scene import BlockScene, Cut, Extent, draw_ground, draw_outline, levels_of, plot_section
from .style import MAP, figure_file, list_of, panels_file

STEPS = np.linspace(0, 1, 11)
COLOURS = ListedColormap(matplotlib.colormaps["viridis_r"](np.linspace(0.02, 1, len(STEPS) - 1)))
LINES: dict[float, dict[str, Any]] = {
    0.1: {"colors": "#c0392b", "linestyles": "dotted", "linewidths": 1.6},
    0.5: {"colors": "#c0392b", "linestyles": "solid", "linewidths": 1.6},
    0.9: {"colors": "white", "linestyles": "solid", "linewidths": 1.4},
}

# The most price decks that are drawn with bands, and the most entries of a legend.
MOST_BANDS, MOST_NAMES = 6, 12
SET_COLOURS = ("#0072b2", "#d55e00", "#009e73", "#aa4499", "#b58900", "#555555")
SET_MARKS = ("o", "s", "^", "D", "v", "P")


class LikelyScene(BlockScene):
    """The inclusion probabilities as plans and sections show them. Sections pass the blocks that half of the scenarios mine."""

    def __init__(self, likely: Likely) -> None:
        self.likely, self.grid, self.rules = likely, likely.grid, likely.rules

    @cached_property
    def mined(self) -> np.ndarray:
        """The cells that half of the scenarios mine."""
        return self.likely.shown >= 0.5

    @property
    def levels(self) -> list[int]:
        """The levels of `[figures]`, otherwise three of those that a scenario mines."""
        return levels_of(self.rules, self.grid, self.likely.shown > 0)

    def draw(self, cut: Cut, ax: Axes) -> None:
        draw(ax, self.likely.shown[cut.index], self.likely.solid[cut.index], cut.extent)
        ax.set_title(f"{cut.title[0].upper()}{cut.title[1:]}")

    def draw_overview(self, ax: Axes) -> None:
        """Draws the highest inclusion probability of each column."""
        draw(ax, self.likely.shown.max(axis=0), self.likely.solid.any(axis=0), self.map_extent)
        ax.set_title("Any level")


def write_plans(likely: Likely, path: Path) -> None:
    west, east, south, north, _, _ = likely.grid.extent()
    with panels_file(path, east - west, north - south, 1 + len(LikelyScene(likely).levels)) as axes:
        plot_plans(likely, axes)


def plot_plans(likely: Likely, axes: Any) -> list[Axes]:
    """Draws the highest inclusion probability of each column, and those of some levels, by default three.

    Parameters
    ----------
    likely : Likely
        As `ScenarioResult.likely`.
    axes : array or list of Axes
        One more than levels.
    """
    found = scene.plot_plans(LikelyScene(likely), axes)
    explain(found, likely)
    return found


def write_sections(likely: Likely, path: Path) -> None:
    west, east, south, north, bottom, top = likely.grid.extent()
    share = min(max((top - bottom) / max(east - west, north - south), 0.2), 1.0)
    with figure_file(path, 10, 15 * share + 2) as figure:
        plot_sections(likely, figure.subplots(2, 1))


def plot_sections(likely: Likely, axes: Any) -> list[Axes]:
    """Draws a section from west to east and one from south to north through the blocks that half of the scenarios mine, on two axes; returns
    them."""
    shown, found = LikelyScene(likely), list_of(axes, 2)
    for cut, ax in zip(shown.sections, found):
        plot_section(shown, cut, ax)
    explain(found, likely)
    return found


def draw(axis: Axes, share: np.ndarray, solid: np.ndarray, extent: Extent) -> None:
    """Draws probabilities above 0, and the outlines of 10 %, 50 % and 90 %."""
    draw_ground(axis, solid, extent)
    shown = np.ma.masked_where(share <= 0, share)
    axis.imshow(shown, extent=extent, cmap=COLOURS, norm=BoundaryNorm(STEPS, len(STEPS) - 1), **MAP)
    for least, style in LINES.items():
        # A share of nine in ten may be below 0.9 by rounding.
        draw_outline(axis, share >= least - SUM_ERROR, extent, **style)


def explain(axes: list[Axes], likely: Likely) -> None:
    """Draws one colour bar and one legend for all panels."""
    figure = axes[0].figure
    bar = figure.colorbar(axes[0].images[-1], ax=axes, shrink=0.6, ticks=STEPS[::2])
    bar.set_label(f"share of {likely.count:,} scenarios with the block in the pit")
    handles = [
        Line2D([], [], color=style["colors"], linestyle=style["linestyles"], label=f"{100 * least:.0f} % of scenarios")
        for least, style in LINES.items()
    ]
    figure.legend(handles=handles, ncol=3, loc="upper right", facecolor="#9a9a9a", framealpha=1)
    figure.suptitle(
        f"Inclusion probability of each block at revenue factor {factor_text(likely.factor)}\n", x=0.01, ha="left"
    )


def write_spread(table: pd.DataFrame, currency: str, path: Path) -> None:
    with figure_file(path, 11, 4.8, lays_out=False) as figure:
        plot_spread(table, currency, figure.subplots(1, 2))
        leave_room(figure)


def plot_spread(table: pd.DataFrame, currency: str, axes: Any) -> list[Axes]:
    """Draws tonnes and value by revenue factor at the prices of each scenario: the median of each price deck, and for up to six decks the band
    from 10 % to 90 % of the realisations.

    Parameters
    ----------
    table : DataFrame
        As scenarios.csv.
    """
    found = list_of(axes, 2)
    sets = sets_of(table.assign(value_at_revenue_factor=table["value_at_revenue_factor"].astype(float)))
    columns = (
        ("tonnes", "total material", "t"),
        ("value_at_revenue_factor", "value at the revenue factor", f" {currency}"),
    )
    for axis, (column, title, unit) in zip(found, columns):
        for (prices, amounts), (colour, marker) in zip(sets, looks(len(sets))):
            groups = amounts.groupby("revenue_factor")[column]
            if len(sets) <= MOST_BANDS:
                band(axis, groups, colour, len(sets))
            style = {"marker": marker, "markersize": 3.5, "linewidth": 1.5, "color": colour}
            label = prices if len(sets) > 1 else ", ".join(filter(None, ("median", prices)))
            axis.plot(list(groups.groups), groups.median(), label=label, **style)
        size, sign = scaled(float(table[column].astype(float).abs().max()))
        axis.yaxis.set_major_formatter(lambda value, _, size=size: f"{value / size:,.4g}")
        axis.set_xlabel("revenue factor")
        axis.set_ylabel(f"{title}, {sign}{unit}")
    found[0].figure.suptitle(f"{table['scenario'].nunique():,} scenarios", x=0.01, ha="left")
    explain_sets(found[0], len(sets))
    return found


def sets_of(table: pd.DataFrame) -> list[tuple[str, pd.DataFrame]]:
    """Returns label and rows of each price deck, by ascending prices; the label is "" if there are no decks."""
    named = [name for name in table.columns if name.startswith("price_")]
    if not named:
        return [("", table)]
    sets = []
    for prices in table[named].drop_duplicates().sort_values(named).to_numpy():
        words = [f"{name.removeprefix('price_')} {price:,.12g}" for name, price in zip(named, prices)]
        sets.append((", ".join(words), table[(table[named] == prices).all(axis=1)]))
    return sets


def looks(count: int) -> list[tuple[Any, str]]:
    """Returns colour and marker of each price deck: distinct ones for a few, a scale from light to dark for many."""
    if count <= MOST_BANDS:
        return list(zip(SET_COLOURS, SET_MARKS))[:count]
    return [(colour, "") for colour in matplotlib.colormaps["viridis_r"](np.linspace(0.1, 1, count))]


def band(axis: Axes, groups: Any, colour: str, count: int) -> None:
    """Draws the band from 10 % to 90 % of the realisations of a price deck, and of a single deck the band of all."""
    factors, alone = list(groups.groups), count == 1
    if alone:
        axis.fill_between(factors, groups.min(), groups.max(), color=colour, alpha=0.15, linewidth=0, label="all")
    # The more bands overlap, the lighter they are.
    colours = {"facecolor": to_rgba(colour, 0.45 / (count + 1)), "edgecolor": to_rgba(colour, 0.6)}
    label = "10 % to 90 %" if alone else None
    axis.fill_between(factors, groups.quantile(0.1), groups.quantile(0.9), label=label, **colours)


def explain_sets(axis: Axes, count: int) -> None:
    """Draws the legend of price decks, with at most MOST_NAMES of them."""
    handles, names = axis.get_legend_handles_labels()
    step = -(-len(names) // MOST_NAMES)
    handles, names = handles[::step], names[::step]
    what = "medians of the realisations" if count > MOST_BANDS else "medians and 10 % to 90 % of the realisations"
    title = None if count == 1 else f"{what}, by price deck"
    axis.figure.legend(handles, names, ncol=min(4, len(names)), loc="lower center", frameon=False, title=title)


def leave_room(figure: Figure) -> None:
    """Moves the panels above the legend."""
    (legend,) = figure.legends
    lines = -(-len(legend.get_texts()) // 4) + bool(legend.get_title().get_text())
    figure.tight_layout(rect=(0, 0.055 * lines, 1, 1))


# Label and colour of each column.
LOOKS = {
    "common_npv": ("common\nschedule", "#d55e00"),
    "npv": ("own schedule of\neach scenario", "#0072b2"),
    "upper_bound": ("upper bound of\neach scenario", "#555555"),
}
# Up to this number of scenarios marks are large.
MANY = 60


def write(table: pd.DataFrame, currency: str, path: Path) -> None:
    with figure_file(path, 11.5, 5) as figure:
        plot(table, currency, figure.subplots(1, 2, sharey=True, width_ratios=(3, 2)))


def plot(table: pd.DataFrame, currency: str, axes: Any) -> list[Axes]:
    """Draws the three values of each scenario, by ascending upper bound, and their distributions.

    Parameters
    ----------
    table : DataFrame
        The rows of schedules.csv of scenarios that have a schedule.
    """
    each, spread = found = list_of(axes, 2)
    size, unit = money_unit(float(table[list(LOOKS)].abs().max().max()), currency)
    rising = table.sort_values("upper_bound", kind="stable")[list(LOOKS)] / size
    plot_each(rising, each)
    plot_value_spread(rising, unit, spread)
    each.set_ylabel(f"NPV, {unit}")
    each.yaxis.set_major_formatter(lambda value, _: f"{value:,.6g}")
    each.figure.suptitle(f"{len(table):,} scenarios", x=0.01, ha="left")
    return found


def plot_each(rising: pd.DataFrame, ax: Axes) -> None:
    place, marks = np.arange(1, len(rising) + 1), 5.0 if len(rising) <= MANY else 2.5
    ax.vlines(place, rising["common_npv"], rising["upper_bound"], color="#bbbbbb", linewidth=0.8)
    for name, mark in (("upper_bound", "_"), ("npv", "o"), ("common_npv", "D")):
        label, colour = LOOKS[name]
        size = {"markersize": 2.5 * marks, "markeredgewidth": 1.5} if mark == "_" else {"markersize": marks}
        ax.plot(place, rising[name], mark, color=colour, label=label.replace("\n", " "), **size)
    ax.xaxis.get_major_locator().set_params(integer=True)
    ax.set_xlabel("scenarios, by upper bound")
    ax.legend(loc="upper left", facecolor="white", edgecolor="none", framealpha=0.9)


def plot_value_spread(rising: pd.DataFrame, unit: str, ax: Axes) -> None:
    """Draws minimum to maximum, the range between the quantiles, the median, and the labelled mean."""
    low, middle, high = QUANTILES
    for place, (name, (_, colour)) in enumerate(LOOKS.items()):
        values, mean = rising[name], float(rising[name].mean())
        ax.vlines(place, values.min(), values.max(), color=colour, linewidth=1.2)
        ax.vlines(place, values.quantile(low), values.quantile(high), color=colour, linewidth=9, alpha=0.45)
        ax.hlines(values.quantile(middle), place - 0.12, place + 0.12, color=colour, linewidth=2)
        ax.plot(place, mean, "D", color="black", markersize=4)
        ax.annotate(f"mean {mean:,.4g}", (place, mean), xytext=(14, 0), textcoords="offset points", va="center")
    ax.set_xticks(range(len(LOOKS)), [label for label, _ in LOOKS.values()])
    ax.set_xlim(-0.4, len(LOOKS) - 0.2)
    known = float((rising["upper_bound"] - rising["common_npv"]).mean())
    ax.set_title(f"expected value of perfect information: at most {known:,.4g} {unit}", loc="left", fontsize=9)
    ax.set_xlabel(f"minimum, {100 * low:.0f} %, median, {100 * high:.0f} %, maximum")

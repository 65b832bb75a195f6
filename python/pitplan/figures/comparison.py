"""Figures of a comparison of runs: bridges of NPV, and tonnes and cash flows by period.

Each `plot_` function draws on the axes that it is given, and returns them; each `write_` function writes a file by it.
"""

from __future__ import annotations

import textwrap
from pathlib import Path
from typing import Any

import numpy as np
import pandas as pd
from matplotlib.axes import Axes
from matplotlib.ticker import MaxNLocator

from pitplan.core.magnitude import money_unit, scaled

from .style import figure_file, list_of

WHOLE, MORE, LESS = "#8a8a8a", "#1f5f9e", "#c8792b"
COLOURS = ("#444444", "#0072b2", "#d55e00", "#009e73", "#aa4499", "#b58900")
MARKS = ("o", "s", "^", "D", "v", "P")
# Letters of a line of a label, and bars that fit a figure of the usual width.
LETTERS, BARS = 16, 8
# Changes below this share of the NPV are drawn on an axis that begins above zero.
SMALL = 0.1


def write_bridge(steps: pd.DataFrame, run: str, currency: str, path: Path) -> None:
    mine = steps[steps["run"] == run]
    wide = 9.0 * max(1.0, (len(mine) + 1) / BARS)
    with figure_file(path, min(wide, 22.0), 4.6) as figure:
        plot_bridge(mine, run, currency, figure.subplots())


def plot_bridge(steps: pd.DataFrame, run: str, currency: str, ax: Axes) -> Axes:
    """Draws the NPV of the base and of a run, and between them by how much each changed input raises or lowers it.

    Parameters
    ----------
    steps : DataFrame
        The rows of a run in bridge.csv.
    """
    size, unit = money_unit(float(steps["npv"].abs().max()), currency)
    npv, change = steps["npv"].to_numpy() / size, steps["npv_change"].to_numpy() / size
    labels = [*(key.replace("_", " ") for key in steps["key"]), run]
    ax.bar([0, len(npv)], [npv[0], npv[-1]], 0.62, color=WHOLE, linewidth=0)
    for place in range(1, len(npv)):
        colour = MORE if change[place] >= 0 else LESS
        ax.bar(place, change[place], 0.62, bottom=npv[place - 1], color=colour, linewidth=0)
        ax.plot([place - 0.69, place + 0.31], [npv[place - 1]] * 2, color="black", linewidth=0.6)
    ax.plot([len(npv) - 0.69, len(npv) + 0.31], [npv[-1]] * 2, color="black", linewidth=0.6)
    texts = [f"{npv[0]:,.2f}", *(f"{it:+,.2f}" for it in change[1:]), f"{npv[-1]:,.2f}"]
    tops = [npv[0], *np.maximum(npv[1:], npv[:-1]), npv[-1]]
    for place, (text, top) in enumerate(zip(texts, tops)):
        ax.annotate(text, (place, max(top, 0.0)), xytext=(0, 3), textcoords="offset points", ha="center", fontsize=8)
    ax.set_xticks(range(len(labels)), [textwrap.fill(label, LETTERS) for label in labels], fontsize=8)
    ax.axhline(0, color="black", linewidth=0.8)
    low, high = near(npv)
    ax.set_ylim(low, high)
    above = "; the axis begins above 0" if low > 0 else ""
    ax.set_ylabel(f"NPV, {unit}{above}")
    return ax


def near(npv: np.ndarray) -> tuple[float, float]:
    """Returns limits of an axis: from zero, or from below the bars if the changes would be too small to be seen."""
    low, high = float(npv.min()), float(npv.max())
    spread = high - low
    if low <= 0 or spread > SMALL * high:
        return min(low, 0.0) - 0.08 * abs(low if low < 0 else 0.0), max(high, 0.0) * 1.1 or 1.0
    return low - 1.5 * (spread or 0.01 * high), high + 0.35 * (spread or 0.01 * high)


def write_periods(table: pd.DataFrame, currency: str, path: Path) -> None:
    with figure_file(path, 11, 4.4) as figure:
        plot_periods(table, currency, figure.subplots(1, 2))


def plot_periods(table: pd.DataFrame, currency: str, axes: Any) -> list[Axes]:
    """Draws total material and mill feed by period, and the cumulative discounted cash flow, with a line per run.

    Parameters
    ----------
    table : DataFrame
        The table periods.csv.
    """
    tonnes, money = list_of(axes, 2)
    word = "period" if "period" in table else "year"
    size, sign = scaled(float(table["total_tonnes"].max()))
    sums = table.groupby("run")["discounted_cash_flow"].cumsum()
    divisor, unit = money_unit(float(sums.abs().max()), currency)
    for number, run in enumerate(dict.fromkeys(table["run"])):
        mine, colour = table["run"] == run, COLOURS[number % len(COLOURS)]
        look = {"color": colour, "marker": MARKS[number % len(MARKS)], "markersize": 3.5, "linewidth": 1.4}
        when = table.loc[mine, word]
        tonnes.plot(when, table.loc[mine, "total_tonnes"] / size, label=f"{run}: total material", **look)
        tonnes.plot(when, table.loc[mine, "feed_tonnes"] / size, linestyle="--", label=f"{run}: mill feed", **look)
        end = sums[mine].iloc[-1] / divisor
        money.plot([0, *when], [0.0, *(sums[mine] / divisor)], label=f"{run}: {end:,.2f}", **look)
    tonnes.set_ylabel(f"tonnes, {sign}t")
    tonnes.set_ylim(bottom=0)
    money.set_ylabel(f"cumulative discounted cash flow, {unit}")
    money.axhline(0, color="black", linewidth=0.8)
    for ax, label in ((tonnes, word), (money, f"end of {word}")):
        ax.xaxis.set_major_locator(MaxNLocator(integer=True))
        ax.set_xlabel(label)
        ax.legend(fontsize=8, frameon=False)
    return [tonnes, money]

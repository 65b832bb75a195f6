"""Figures of a sensitivity: tornado, spider plot, and a grid per pair of parameters.

Each `plot_` function draws on the axes that it is given, and returns them; each `write_` function writes a file by it. All take the table of
`pitplan.write_sensitivity`.
"""

from __future__ import annotations

from collections.abc import Callable
from itertools import cycle
from pathlib import Path

import matplotlib
import numpy as np
import pandas as pd
from matplotlib.axes import Axes
from matplotlib.axis import Axis
from matplotlib.colors import ListedColormap
from matplotlib.ticker import FuncFormatter
from numpy.typing import NDArray

from pitplan.core.magnitude import money_unit, scaled
from pitplan.results import names
from pitplan.results.rounding import parameter_unit, spoken

from .style import figure_file

LESS, MORE = "#c0504d", "#1f3f6e"
COLOURS = ("#0072b2", "#d55e00", "#009e73", "#aa4499", "#b58900", "#555555", "#56b4e9", "#8b0000", "#6b8e23", "#000000")
MARKS = ("o", "s", "^", "D", "v", "P", "X", "<", ">", "*")
PER_CENT = FuncFormatter(lambda share, _: f"{100 * share:+.0f} %" if share else "0")


def write_all(table: pd.DataFrame, pairs: tuple[tuple[str, str], ...], currency: str, folder: Path) -> None:
    """Writes the tornado, the spider plot, and a grid per pair."""
    with figure_file(folder / names.TORNADO, 9, 1.6 + 0.5 * max(len(singles(table)), 2)) as figure:
        plot_tornado(table, currency, figure.subplots())
    with figure_file(folder / names.SPIDER, 9, 5) as figure:
        plot_spider(table, currency, figure.subplots())
    for pair in pairs:
        wide, high = grid_of(table, *pair).shape[::-1]
        with figure_file(folder / names.grid_of(pair), 2.6 + 0.95 * wide, 1.6 + 0.55 * high) as figure:
            plot_grid(table, pair, currency, figure.subplots())


def singles(table: pd.DataFrame) -> dict[str, pd.Series]:
    """Returns for each parameter its NPVs, indexed by the change, ascending, with the base case at 0."""
    alone, as_given = table[(table["parameter"] != "") & (table["second_parameter"] == "")], float(table["npv"].iloc[0])
    return {
        str(name): pd.concat([rows.set_index("change")["npv"], pd.Series({0.0: as_given})]).sort_index()
        for name, rows in alone.groupby("parameter", sort=False)
    }


def plot_tornado(table: pd.DataFrame, currency: str, axes: Axes) -> Axes:
    """Draws the NPV at the smallest and the largest change of each parameter, the most sensitive one on top; returns `axes`."""
    curves, base = singles(table), float(table["npv"].iloc[0])
    size, unit = money_unit(float(table["npv"].abs().max()), currency)
    order = sorted(curves, key=lambda name: np.ptp([curves[name].iloc[0], base, curves[name].iloc[-1]]))
    for place, name in enumerate(order):
        for share, npv, colour in (
            (c.index[k], c.iloc[k], (LESS, MORE)[k]) for c in (curves[name],) for k in (0, -1) if c.index[k]
        ):
            axes.barh(place, (npv - base) / size, left=base / size, height=0.62, color=colour, linewidth=0)
            at_left = npv < base
            words = {"ha": "right" if at_left else "left", "va": "center", "fontsize": 8, "textcoords": "offset points"}
            axes.annotate(PER_CENT(share), (npv / size, place), xytext=(-4 if at_left else 4, 0), **words)
    axes.axvline(base / size, color="black", linewidth=0.9)
    axes.set_yticks(range(len(order)), [spoken(name) for name in order])
    axes.set_xlabel(f"NPV, {unit} (mean of best and worst case; base case {base / size:,.1f})")
    axes.margins(x=0.14)
    axes.spines[["left", "right", "top"]].set_visible(False)
    axes.tick_params(axis="y", length=0)
    return axes


def plot_spider(table: pd.DataFrame, currency: str, axes: Axes) -> Axes:
    """Draws the NPV of each parameter by its change, through the base case; returns `axes`."""
    curves, (size, unit) = singles(table), money_unit(float(table["npv"].abs().max()), currency)
    for (name, curve), colour, marker in zip(curves.items(), cycle(COLOURS), cycle(MARKS)):
        look = {"color": colour, "marker": marker, "markersize": 4.5, "linewidth": 1.5}
        axes.plot(curve.index, curve / size, label=spoken(name), **look)
    axes.axvline(0, color="black", linewidth=0.8)
    axes.set_xticks(sorted({share for curve in curves.values() for share in curve.index}))
    axes.xaxis.set_major_formatter(PER_CENT)
    axes.set_xlabel("change of the parameter")
    axes.set_ylabel(f"NPV, {unit} (mean of best and worst case)")
    axes.legend(loc="center left", bbox_to_anchor=(1.02, 0.5), frameon=False)
    return axes


def grid_of(table: pd.DataFrame, one: str, other: str) -> pd.DataFrame:
    """Returns the NPVs of a pair: a row per change of the first, a column per change of the second, both ascending and with 0."""
    pair = table[(table["parameter"] == one) & (table["second_parameter"] == other)]
    grid = pair.pivot(index="change", columns="second_change", values="npv")
    curves = singles(table)
    grid[0.0], grid.loc[0.0] = curves[one].reindex(grid.index), curves[other].reindex([*grid.columns, 0.0])
    return grid.sort_index().sort_index(axis=1)


def plot_grid(table: pd.DataFrame, pair: tuple[str, str], currency: str, axes: Axes) -> Axes:
    """Draws the NPV at each change of two parameters, as number and colour, with a frame around the base case; returns `axes`."""
    grid = grid_of(table, *pair)
    size, unit = money_unit(float(grid.abs().max().max()), currency)
    amounts, base = grid.to_numpy() / size, float(table["npv"].iloc[0]) / size
    reach = max(float(np.abs(amounts - base).max()), 1e-12)
    axes.imshow(amounts, cmap="RdBu", vmin=base - 1.6 * reach, vmax=base + 1.6 * reach, origin="lower", aspect="auto")
    for (row, column), amount in np.ndenumerate(amounts):
        axes.text(column, row, f"{amount:,.1f}", ha="center", va="center", fontsize=9)
    row, column = grid.index.get_loc(0.0), grid.columns.get_loc(0.0)
    axes.add_patch(
        matplotlib.patches.Rectangle((column - 0.5, row - 0.5), 1, 1, fill=False, edgecolor="black", linewidth=1.6)
    )
    axes.set_yticks(range(len(grid.index)), [PER_CENT(share) for share in grid.index])
    axes.set_xticks(range(len(grid.columns)), [PER_CENT(share) for share in grid.columns])
    axes.set_ylabel(spoken(pair[0]))
    axes.set_xlabel(spoken(pair[1]))
    axes.set_title(f"NPV, {unit}")
    axes.grid(False)
    return axes


LEVELS = 14
# Dark lines and labels stay legible on these.
PALE = ListedColormap(matplotlib.colormaps["YlGnBu"](np.linspace(0.03, 0.6, 256)))
Values = NDArray[np.float64]


def write(table: pd.DataFrame, currency: str, path: Path) -> None:
    with figure_file(path, 9, 5.6) as figure:
        plot(table, currency, figure.subplots())


def plot(table: pd.DataFrame, currency: str, ax: Axes) -> Axes:
    """Draws contours of the NPV over both parameters, a dot for each case, and a star at the case with the highest NPV.

    Parameters
    ----------
    table : DataFrame
        As hill_of_value.csv.
    """
    grid = table.pivot(index="second_value", columns="value", values="npv").sort_index().sort_index(axis=1)
    size, unit = money_unit(float(table["npv"].abs().max()), currency)
    across, up, npv = grid.columns.to_numpy(), grid.index.to_numpy(), grid.to_numpy() / size
    if np.ptp(npv) > 0:
        filled = ax.contourf(across, up, npv, LEVELS, cmap=PALE)
        lines = ax.contour(across, up, npv, LEVELS, colors="black", linewidths=0.5)
        ax.clabel(lines, fontsize=7)
        ax.figure.colorbar(filled, ax=ax, label=f"NPV, {unit}")
    cases = table.loc[table["npv"].notna()]
    ax.plot(cases["value"], cases["second_value"], ".", color="#444444", markersize=3, clip_on=False)
    best = cases.loc[cases["npv"].idxmax()]
    money = f"{best['npv'] / size:,.2f} {unit}"
    of_axes = zip((ax.xaxis, ax.yaxis), (across, up), ("", "second_"))
    one, other = (
        label_axis(axis, values, table[f"{word}parameter"].iloc[0], currency)(best[f"{word}value"])
        for axis, values, word in of_axes
    )
    label = f"highest NPV: {money} at {one}, {other}"
    ax.plot(
        best["value"], best["second_value"], "*", color="#c0392b", markersize=14, label=label, clip_on=False, zorder=5
    )
    ax.legend(loc="lower center", bbox_to_anchor=(0.5, 1.0), frameon=False)
    return ax


def label_axis(axis: Axis, values: Values, name: str, currency: str) -> Callable[[float], str]:
    """Labels an axis with a parameter in words, in a unit with few digits. Returns how a value of it is written."""
    unit, largest = parameter_unit(name, currency), float(np.abs(values).max())
    size, sign = scaled(largest) if unit else (1.0, "")
    label = f"{sign}{unit}" if unit in ("t", "t a year") else f"{sign} {unit}".strip()
    axis.set_label_text(f"{spoken(name)}, {label}" if label else spoken(name))
    axis.set_major_formatter(FuncFormatter(lambda value, _: f"{value / size:,.10g}"))
    return lambda value: f"{spoken(name)} {value / size:,.10g} {label}".rstrip()

"""Charts of shells: values and tonnes by revenue factor, and grade-tonnage curves."""

from __future__ import annotations

from pathlib import Path
from typing import Any

import numpy as np
import pandas as pd
from matplotlib.axes import Axes

from pitplan.config.economics import Metal
from pitplan.core.magnitude import money_unit, scaled
from pitplan.core.revenue_factors import factor_text
from pitplan.pits.grade_tonnage import BREAK_EVEN, MARGINAL, MODEL, PIT

from . import palette
from .palette import ORE, WASTE
from .style import BEST, BEST_MARK, CHOSEN, PLAIN, SPECIFIED, SPECIFIED_MARK, WORST, WORST_MARK, figure_file, list_of


def write_pit_by_pit(table: pd.DataFrame, currency: str, chosen: float, path: Path) -> None:
    with figure_file(path, 9.5, 4.8, lays_out=False) as figure:
        plot_pit_by_pit(table, currency, chosen, figure.subplots())
        figure.tight_layout()


def plot_pit_by_pit(table: pd.DataFrame, currency: str, chosen: float, ax: Axes) -> Axes:
    """Draws ore and waste of each shell, and on a second axis undiscounted cash flow and NPV at the base price.

    Parameters
    ----------
    table : DataFrame
        As `Shells.table`.
    chosen : float
        The revenue factor that is marked.

    Returns
    -------
    Axes
        `ax`, with tonnes.
    """
    right = ax.twinx()
    draw_tonnes(ax, table, chosen)
    draw_value(right, table, currency)
    shown = [axis.get_legend_handles_labels() for axis in (ax, right)]
    handles, names = ([*shown[0][k], *shown[1][k]] for k in (0, 1))
    ax.legend(
        handles, names, ncol=6 if len(names) <= 6 else 4, loc="lower center", bbox_to_anchor=(0.5, 1.0), frameon=False
    )
    return ax


def draw_tonnes(axis: Axes, table: pd.DataFrame, chosen: float) -> None:
    """Draws a bar per revenue factor, and a band behind that of the selected one."""
    factors = table["revenue_factor"].to_numpy()
    wide = 0.75 * float(np.diff(factors).min()) if len(factors) > 1 else 0.02
    size, sign = scaled(float(table["tonnes"].max()))
    ore, waste = table["in_situ_ore_tonnes"] / size, table["waste_tonnes"] / size
    axis.axvspan(
        chosen - 0.65 * wide, chosen + 0.65 * wide, color=CHOSEN, zorder=0, label=f"selected: {factor_text(chosen)}"
    )
    axis.bar(factors, ore, wide, color=ORE, label="ore", linewidth=0)
    axis.bar(factors, waste, wide, bottom=ore, color=WASTE, label="waste", linewidth=0)
    axis.set_xlabel("revenue factor")
    axis.set_ylabel(f"total material, {sign}t")


def draw_value(axis: Axes, table: pd.DataFrame, currency: str) -> None:
    """Draws undiscounted cash flow and the NPV of each case, with a ring around the maximum of each."""
    curves = [
        ("undiscounted_cash_flow", "undiscounted", PLAIN, "--o"),
        ("npv_best", "NPV, best case", BEST, f"-{BEST_MARK}"),
        ("npv_worst", "NPV, worst case", WORST, f"-{WORST_MARK}"),
        ("npv_specified", "NPV, specified case", SPECIFIED, f"-{SPECIFIED_MARK}"),
    ]
    curves = [curve for curve in curves if curve[0] in table]
    amounts = table[[column for column, _, _, _ in curves]]
    size, unit = money_unit(float(amounts.abs().max().max()), currency)
    for column, label, colour, line in curves:
        axis.plot(
            table["revenue_factor"],
            amounts[column] / size,
            line,
            color=colour,
            markersize=4,
            linewidth=1.4,
            label=label,
        )
        peak = amounts[column].idxmax()
        ring = {"markersize": 9, "markerfacecolor": "none", "markeredgecolor": colour}
        axis.plot(table["revenue_factor"][peak], amounts[column][peak] / size, "o", **ring)
    axis.set_ylabel(f"cash flow and NPV at the base price, {unit}")
    axis.set_ylim(min(0.0, 1.1 * float(amounts.min().min()) / size), axis.get_ylim()[1] * 1.05)


TITLES = {MODEL: "block model", PIT: "pit"}
MARKS = {MARGINAL: ("marginal", ":"), BREAK_EVEN: ("break-even", "--")}


def write(table: pd.DataFrame, metal: Metal, path: Path) -> None:
    """Writes the figure of grade_tonnage.csv for the cut-offs of a metal."""
    with figure_file(path, 9.6, 4.4) as figure:
        plot(table, metal, figure.subplots(1, 2))


def plot(table: pd.DataFrame, metal: Metal, axes: Any) -> list[Axes]:
    """Draws the tonnes of the model and of the pit above each cut-off grade of a metal, and their mean grade, on two axes."""
    found, colours = list_of(axes, 2), palette.of_classes(table["class"].unique().tolist())
    for axis, (part, title) in zip(found, TITLES.items()):
        plot_part(axis, table[(table["part"] == part) & (table["metal"] == metal.name)], metal, colours)
        axis.set_title(title)
    return found


def plot_part(axis: Axes, table: pd.DataFrame, metal: Metal, colours: dict[str, str]) -> None:
    curves = table[table["mark"] == ""]
    # Without the barren rock, which would hide all else.
    rich = curves["cutoff_grade"] > 0
    curves = curves[rich] if curves.loc[rich, "cutoff_grade"].nunique() > 1 else curves
    classes = [name for name in colours if name in set(curves["class"])]
    tonnes = curves.pivot_table(index="cutoff_grade", columns="class", values="tonnes", aggfunc="first")[classes] / 1e6
    labels = [name or "unclassified" for name in classes]
    axis.stackplot(tonnes.index, *tonnes.to_numpy().T, labels=labels, colors=[colours[name] for name in classes])
    axis.set_xlabel(f"cut-off grade {metal.name}, {metal.sign}")
    axis.set_ylabel("tonnes above cut-off, Mt")
    axis.set_xlim(0, max(tonnes.index.max(), 1e-9))
    axis.set_ylim(0, None)
    above = axis.twinx()
    content = curves.assign(content=(curves["tonnes"] * curves[f"grade_{metal.name}"]).fillna(0.0))
    sums = content.groupby("cutoff_grade")[["content", "tonnes"]].sum()
    with np.errstate(invalid="ignore"):
        above.plot(sums.index, sums["content"] / sums["tonnes"], color=PLAIN, label="mean grade above cut-off")
    above.set_ylabel(f"mean grade, {metal.sign}")
    above.set_ylim(0, None)
    mark(above, table)
    handles = [part for it in (axis, above) for part in zip(*it.get_legend_handles_labels())]
    above.legend(*zip(*handles), loc="upper center", bbox_to_anchor=(0.5, -0.16), ncol=3, frameon=False, fontsize=8)


def mark(axis: Axes, table: pd.DataFrame) -> None:
    """Draws the least and the greatest cut-off of each kind over rock types, each in the process where it is least."""
    marks = table.loc[table["mark"] != "", ["mark", "cutoff_grade"]].drop_duplicates()
    marks[["kind", "process", "rock"]] = (
        marks["mark"].str.split(" ", n=2, expand=True).reindex(columns=[0, 1, 2]).fillna("")
    )
    least = marks.sort_values("cutoff_grade").drop_duplicates(["kind", "rock"])
    for kind, (label, line) in MARKS.items():
        rows = least[least["kind"] == kind].iloc[[0, -1]] if (least["kind"] == kind).any() else least[:0]
        for row, colour in zip(rows.drop_duplicates().itertuples(), (WORST, SPECIFIED)):
            place = ", ".join(filter(None, (row.rock, row.process if marks["process"].nunique() > 1 else "")))
            name = f"{label}: {place}" if place and marks["rock"].nunique() + marks["process"].nunique() > 2 else label
            axis.axvline(row.cutoff_grade, color=colour, linestyle=line, linewidth=1.2, label=name)

"""Price paths of metals as bands over time, and the distribution of the NPV of a schedule. Functions are called as those of `plans_sections`."""

from __future__ import annotations

from pathlib import Path
from typing import Any

import numpy as np
from matplotlib.axes import Axes

from pitplan.core.magnitude import money_unit
from pitplan.scheduling.price_paths import QUANTILES, PriceScenarios

from .palette import ORE
from .style import PLAIN, WORST, figure_file, list_of

MOST_METALS, SHOWN_PATHS, BARS = 2, 5, 25
ABOVE = {"loc": "lower left", "bbox_to_anchor": (0, 1), "ncol": 2, "frameon": False, "fontsize": 8}
BAND, PATH = "#b9d3ea", "#9a9a9a"


def write(found: PriceScenarios, path: Path) -> None:
    count = min(len(found.prices), MOST_METALS)
    with figure_file(path, 12 if count > 1 else 9.6, 4.2) as figure:
        plot(found, figure.subplots(1, count + 1))


def plot(found: PriceScenarios, axes: Any) -> list[Axes]:
    """Draws the price of up to two metals, and the NPV of all paths.

    Parameters
    ----------
    axes : array or list of Axes
        One per metal that is drawn, and one.
    """
    names = list(found.prices)[:MOST_METALS]
    placed = list_of(axes, len(names) + 1)
    for ax, name in zip(placed, names):
        plot_price(found, name, ax)
    plot_npv(found, placed[-1])
    return placed


def plot_price(found: PriceScenarios, name: str, ax: Axes) -> Axes:
    """Draws the band from the quantile 0.1 to 0.9 of a price, its median, the long-term price and some paths."""
    metal = next(it for it in found.project.metals if it.name == name)
    times, start = np.append(0.0, found.times), float(metal.price)
    prices = np.column_stack([np.full(found.rules.count, start), found.prices[name]])
    low, middle, high = np.quantile(prices, QUANTILES, axis=0)
    ax.fill_between(times, low, high, color=BAND, linewidth=0, label="P10 to P90")
    for number, path in enumerate(prices[:SHOWN_PATHS]):
        ax.plot(times, path, color=PATH, linewidth=0.7, label="paths" if not number else None)
    ax.plot(times, middle, color=ORE, linewidth=1.8, label="P50")
    long_term = float(found.rules.metals[name].long_term)
    ax.axhline(long_term, color=PLAIN, linewidth=0.9, linestyle="--", label=f"long term: {long_term:,.10g}")
    ax.set_xlabel("years")
    ax.set_ylabel(f"price of {name}, {found.project.economics.currency}/{metal.price_unit}")
    ax.set_xlim(0, times[-1])
    ax.set_ylim(0, 1.05 * max(high.max(), long_term, prices[:SHOWN_PATHS].max()))
    ax.legend(**ABOVE)
    return ax


def plot_npv(found: PriceScenarios, ax: Axes) -> Axes:
    """Draws a histogram of the NPVs, with lines at the quantiles and at the NPV of the project's prices."""
    size, unit = money_unit(float(np.abs(found.npv).max()), found.project.economics.currency)
    npv = found.npv / size
    ax.hist(npv, bins=min(BARS, max(len(npv) // 10, 5)), color=BAND)
    for share, style in zip(QUANTILES, (":", "-", ":")):
        value = float(np.quantile(npv, share))
        ax.axvline(value, color=ORE, linestyle=style, linewidth=1.4, label=f"P{100 * share:.0f}: {value:,.1f}")
    base = float(found.finance.statement.discounted.sum()) / size
    ax.axvline(base, color=WORST, linestyle="--", linewidth=1.2, label=f"project's prices: {base:,.1f}")
    ax.set_xlabel(f"NPV, {unit}")
    ax.set_ylabel(f"paths, of {found.rules.count:,}")
    ax.legend(**ABOVE)
    return ax

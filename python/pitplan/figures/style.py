"""Style, formats, axes and files of all figures."""

from __future__ import annotations

from collections.abc import Iterator
from contextlib import contextmanager
from contextvars import ContextVar
from pathlib import Path
from typing import Any

import matplotlib
import numpy as np
from matplotlib.axes import Axes
from matplotlib.backends.backend_agg import FigureCanvasAgg
from matplotlib.figure import Figure
from matplotlib.ticker import MaxNLocator

from pitplan.errors import PlanError

GROUND = "#ece8df"
BEST, WORST, SPECIFIED, PLAIN, CHOSEN = "#1b7f4b", "#c0392b", "#8e5ea2", "#444444", "#ffe9a6"
# Red and green are alike to many: the best case points upward.
BEST_MARK, WORST_MARK, SPECIFIED_MARK = "^", "v", "s"
# Rows go from the bottom of the figure up, and cells are not interpolated.
MAP: dict[str, Any] = {"origin": "lower", "interpolation": "nearest"}


STYLE: dict[str, Any] = {
    "font.size": 9,
    "axes.spines.top": False,
    "axes.titlesize": 10,
    "axes.titlelocation": "left",
    "savefig.dpi": 120,
    # Coordinates of seven digits are written in full.
    "axes.formatter.useoffset": False,
    "axes.formatter.limits": (-6, 9),
}

# Formats of figures besides PNG, and their metadata without library and date.
ALSO: ContextVar[tuple[str, ...]] = ContextVar("ALSO", default=())

UNDATED: dict[str, dict[str, None]] = {
    "pdf": {"Creator": None, "Producer": None, "CreationDate": None},
    "svg": {"Date": None, "Creator": None},
}

MOST_TICKS = 11

MOST_COORDINATES = 6


def list_of(axes: Any, count: int) -> list[Axes]:
    """Returns axes, a list or an array of any shape, as a list. Raises PlanError if their number is not `count`."""
    found = list(np.ravel(axes))
    if len(found) != count:
        raise PlanError(f"{len(found)} axes are given, and the picture has {count}")
    return found


def name_axes(axis: Axes, across: str, up: str) -> None:
    """Labels axes in metres, with coordinates in full, and few enough ticks for seven digits."""
    axis.set_xlabel(f"{across}, m")
    axis.set_ylabel(f"{up}, m")
    axis.ticklabel_format(style="plain", useOffset=False)
    axis.xaxis.set_major_locator(MaxNLocator(MOST_COORDINATES, steps=[1, 2, 2.5, 5, 10]))


@contextmanager
def figure_file(path: Path, wide: float, high: float, *, lays_out: bool = True) -> Iterator[Figure]:
    """Yields a figure of a size in inches, and writes it once it is drawn; with `lays_out` matplotlib makes room for all texts."""
    with matplotlib.rc_context(STYLE):
        figure = Figure(figsize=(wide, high), constrained_layout=lays_out)
        yield figure
        finish(figure, path)


@contextmanager
def panels_file(path: Path, wide: float, high: float, count: int = 4) -> Iterator[list[Axes]]:
    """Yields the axes of maps with these sides in metres, two in a row in true proportions, and writes their figure once they are drawn."""
    share, lines = min(max(high / wide, 0.3), 1.3), -(-count // 2)
    with figure_file(path, 12, lines * (4.7 * share + 0.75)) as figure:
        axes = list(figure.subplots(lines, 2, squeeze=False).flat)
        for ax in axes[count:]:
            ax.set_axis_off()
        yield axes[:count]


@contextmanager
def also_as(formats: tuple[str, ...]) -> Iterator[None]:
    """Figures that are written within the block are written in these formats too, next to the PNG."""
    before = ALSO.set(formats)
    try:
        yield
    finally:
        ALSO.reset(before)


def files_of(drawn: dict[str, str], formats: tuple[str, ...]) -> list[str]:
    return [str(Path(name).with_suffix(f".{kind}")) for name in drawn.values() for kind in ("png", *formats)]


def finish(figure: Figure, path: Path) -> None:
    # Once laid out it is drawn once. With an engine, savefig would first draw it without ink.
    engine = figure.get_layout_engine()
    if engine is not None:
        FigureCanvasAgg(figure)
        figure.set_dpi(STYLE["savefig.dpi"])
        engine.execute(figure)
        figure.set_layout_engine("none")
    # Without version and date in the metadata the same plan gives the same bytes.
    # At the usual level of zlib a tenth of the bytes costs a third of the time.
    figure.savefig(path, metadata={"Software": None}, pil_kwargs={"compress_level": 3})
    with matplotlib.rc_context({"svg.hashsalt": "pitplan"}):
        for name in ALSO.get():
            figure.savefig(path.with_suffix(f".{name}"), metadata=UNDATED[name])

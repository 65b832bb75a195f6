#!/usr/bin/python3
"""Draws docs/pictures/azimuths.png: the pit of one block under walls by azimuth, in plan and in a section from west to east.

    tools/draw_azimuths.py [FILE]
"""
import pathlib
import sys
import tempfile

TOP = pathlib.Path(__file__).resolve().parent.parent
sys.path.insert(0, str(TOP / "python"))

import matplotlib  # noqa: E402
import numpy as np  # noqa: E402
import pandas as pd  # noqa: E402
from matplotlib.figure import Figure  # noqa: E402

import pitplan  # noqa: E402
from pitplan.slopes import closure

COLUMNS, LEVELS, SIDE = 61, 12, 10.0
WALLS = ((0, 60), (90, 30), (180, 60), (270, 60))
PROJECT = f"""
[table]
file = "blocks.csv"
[economics]
mining_cost = 2
processing_cost = 10
[[metals]]
name = "copper"
column = "cu"
unit = "percent"
price = 8000
recovery = 0.9
[slopes]
[[slopes.domains]]
azimuths = {[list(pair) for pair in WALLS]}
[shells]
revenue_factors = [1]
discount_rate = 0.1
processing_capacity = 1000
"""


def dug() -> np.ndarray:
    """Which blocks a block in the middle of the floor needs: levels from the top, rows from the south, columns from the west."""
    places = [(i, j, k) for k in range(LEVELS) for j in range(COLUMNS) for i in range(COLUMNS)]
    table = pd.DataFrame([(SIDE * i, SIDE * j, SIDE * k, 2600.0, 1.0) for i, j, k in places], columns=["x", "y", "z", "tonnes", "cu"])
    with tempfile.TemporaryDirectory() as folder:
        path = pathlib.Path(folder) / "project.toml"
        path.write_text(PROJECT)
        plan = pitplan.prepare(path, table=table)
    ore = np.zeros(plan.grid.count, dtype=bool)
    ore[plan.grid.count - plan.grid.per_level + (COLUMNS // 2) * COLUMNS + COLUMNS // 2] = True
    return plan.grid.cube(closure.used_blocks(plan.grid, plan.domains, ore))


def draw(path: pathlib.Path) -> None:
    pit, middle = dug(), COLUMNS // 2
    depth, metres = pit.sum(axis=0), SIDE * (np.arange(COLUMNS) - COLUMNS // 2)
    with matplotlib.rc_context({"font.size": 10}):
        figure = Figure(figsize=(10, 4.6))
        plan, section = figure.subplots(1, 2, gridspec_kw={"width_ratios": [1, 1.25]})
        plan.contourf(metres, metres, depth, levels=np.arange(-0.5, LEVELS + 1), cmap="Greys")
        for azimuth, angle in WALLS:
            east, north = np.sin(np.radians(azimuth)), np.cos(np.radians(azimuth))
            reach = 250 if azimuth == 90 else 130
            plan.annotate("", (reach * east, reach * north), (0, 0), arrowprops={"arrowstyle": "-|>", "color": "#b3402a", "linewidth": 1.8})
            plan.text((reach + 22) * east, (reach + 18) * north, f"[{azimuth}, {angle}]", color="#b3402a", ha="center", va="center", rotation=90 if azimuth in (90, 270) else 0)
        plan.set(aspect="equal", xlim=(-200, 300), ylim=(-200, 200), xlabel="east, m", ylabel="north, m", title="Plan: arrows go from the pit to the wall")
        floor = -SIDE * pit[:, middle, :].sum(axis=0)
        section.fill_between(metres, floor, -SIDE * LEVELS - 90, step="mid", color="#cfc4ae")
        section.plot(metres, floor, drawstyle="steps-mid", color="#5a4f3a", linewidth=1.2)
        section.text(165, -175, "azimuth 90: the east wall,\n30 degrees, dips to the west", color="#b3402a", ha="center")
        section.text(-95, -175, "azimuth 270: the\nwest wall, 60 degrees", color="#b3402a", ha="center")
        section.set(aspect="equal", xlim=(-200, 300), ylim=(-SIDE * LEVELS - 90, 30), xlabel="east, m", ylabel="depth, m", title="Section from west to east")
        figure.tight_layout()
        figure.savefig(path, dpi=110, bbox_inches="tight")


if __name__ == "__main__":
    draw(pathlib.Path(sys.argv[1]) if len(sys.argv) > 1 else TOP / "docs" / "pictures" / "azimuths.png")

"""The subfolders of an output folder. Records, reports and exports lie beside them."""

from __future__ import annotations

from pathlib import Path

# Tables of results, figures, and the files that the solver reads and writes.
TABLES, FIGURES, SOLVER = FOLDERS = ("tables", "figures", "solver")
# What the proved program pitschedule checks of a schedule: texts by its options, and the `id` of each of their blocks.
CERTIFICATE = "certificate"
CERTIFIED = {
    kind: f"{CERTIFICATE}/schedule.{ending}"
    for kind, ending in (("problem", "problem"), ("prec", "prec"), ("schedule", "shares"), ("prices", "prices"))
}
CERTIFIED_BLOCKS = f"{CERTIFICATE}/schedule.blocks"
# The block model and the project of a run, if they were made in Python.
INPUTS = "inputs"


def figure_of_model(project: Path) -> Path:
    """Returns the path of the figure of a project's block model."""
    return project.with_name(f"{project.stem}-block-model.png")

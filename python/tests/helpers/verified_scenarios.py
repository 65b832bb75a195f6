"""Folders of solved scenarios whose files are changed afterwards."""

import json

import numpy as np

from .verified import deposit

SETS = "\n[[scenarios.prices]]\ncopper = 8000\n[[scenarios.prices]]\ncopper = 11_000.5\ngold = 45\n"


def simulated():
    """Three models of the copper of a hill in which gold, rocks, fixed blocks and costs by level vary."""
    table = deposit()
    copper = table["cu"]
    return table.drop(columns="cu").assign(
        cu_a=copper, cu_b=(copper * 0.3).round(3), cu_c=copper.where(copper < 1, 1.25)
    )


def answer_of(folder, number):
    return (
        folder / "done" / f"{json.loads((folder / 'scenarios.json').read_text())['scenarios'][number - 1]['key']}.npz"
    )


def bend(path, **changed):
    """Writes arrays of an answer anew."""
    with np.load(path) as answer:
        arrays = {**answer}
    np.savez_compressed(path, **{**arrays, **{name: change(arrays[name]) for name, change in changed.items()}})

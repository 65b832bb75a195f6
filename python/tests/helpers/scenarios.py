"""Realisations of a small mine, solved one after the other."""

import numpy as np
from conftest import PROJECT, rows

from pitplan import load
from pitplan.core.progress import silent
from pitplan.studies.scenarios import pit_probability, prepare, worker

UPRIGHT = ('pattern = "1:5"', "angle = 90")
COLUMNS = PROJECT + '[scenarios]\ncolumns = { copper = "sim_*" }\n'
PRICES = COLUMNS + "[[scenarios.prices]]\ncopper = 8000\n[[scenarios.prices]]\ncopper = 12_000\n"
MODELS = PROJECT + '[scenarios]\nrealisations = "realisations"\n'


def pillar():
    """Three blocks above each other; at the floor three models of copper: 1.5 %, 0.4 % and none."""
    table = rows(1, 1, 3).drop(columns="cu")
    return table.assign(sim_1=[1.5, 0, 0], sim_2=[0.4, 0, 0], sim_3=[0.0, 0, 0])


def prepared(path):
    project = load(path)
    return prepare.prepare(project, project.folder, silent)


def solved_in_turn(shared):
    outcomes = [worker.solve(str(shared.folder), scenario.number) for scenario in shared.missing()]
    assert [outcome.status for outcome in outcomes] == [0] * len(outcomes)
    return pit_probability.gather(shared)


def write_models(path, **models):
    (path.parent / "realisations").mkdir(exist_ok=True)
    for name, frame in models.items():
        frame.to_csv(path.parent / "realisations" / f"{name}.csv", index=False)


def hill():
    """A model of a hill of 3 x 2 x 2 blocks, a grade of its own at each."""
    table = rows(3, 2, 2).drop(columns="cu")
    return table, table[["name", "x", "y", "z"]].assign(cu=np.arange(12) / 10)

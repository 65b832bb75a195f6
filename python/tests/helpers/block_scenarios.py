"""Scenarios that are scheduled by block, solved one after the other."""

from conftest import rows
from helpers.writings import PLAIN

import pitplan
from pitplan import load
from pitplan.core.progress import silent
from pitplan.studies.scenarios import prepare, worker

from .pushbacks import UPRIGHT

# The mill takes the ore of one block a year, and the shovels two pillars of two blocks.
YEARLY = UPRIGHT.replace(
    "processing_capacity = 100", 'processing_capacity = 100\nmining_capacity = 400\ndiscounting = "end_of_year"'
)
COLUMNS = '[scenarios]\ncolumns = { copper = "sim_*" }\n'
TWO_YEARS = YEARLY + "[schedule]\nyears = 2\n" + COLUMNS


def pillars(*models):
    """As many pillars as a model has grades, of waste over ore of these. A block of grade g yields 4000 g in the mill, less 1000; to dig
    one costs 200."""
    table = rows(len(models[0]), 1, 2).drop(columns="cu")
    return table.assign(**{f"sim_{number}": [*grades, *[0] * len(grades)] for number, grades in enumerate(models, 1)})


def prepared(path):
    project = load(path)
    return prepare.prepare(project, project.folder / "block_scenarios", silent, "block")


def solved_in_turn(shared):
    outcomes = [worker.solve(str(shared.folder), job.number) for job in shared.missing()]
    assert [outcome.why for outcome in outcomes] == [""] * len(outcomes)
    pitplan.gather(shared.folder, writing=PLAIN)
    return shared.folder

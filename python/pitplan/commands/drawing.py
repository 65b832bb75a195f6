"""The pictures of an answer."""

from __future__ import annotations

from collections.abc import Callable, Iterator
from functools import partial
from pathlib import Path
from typing import Optional

import pandas as pd

from pitplan.core.processes import run_all
from pitplan.figures import geology, pits, plans_sections, price_paths, pushbacks, schedule
from pitplan.figures.pits import write_pit_by_pit
from pitplan.figures.style import also_as, files_of
from pitplan.pits.answer import Answer
from pitplan.pits.shells import Shells
from pitplan.scheduling.pushback_schedule import PushbackSchedule

from .writing import BLOCK_PICTURES, GEOLOGY_PICTURES, PICTURES, PRICE_PICTURES, PUSHBACK_PICTURES, SCHEDULE_PICTURES

# The name of a figure, and what draws it into a file.
Drawing = tuple[str, Callable[[Path], object]]


def draw(answer: Answer, tables: dict[str, pd.DataFrame], stage: Path, processes: Optional[int] = None) -> list[str]:
    """Draws the pictures of shells, and those of pushbacks and schedules if there are any, at the same time: by at most `processes` processes, as in
    `Writing`. Returns the names of the written files, in each format."""
    shells = answer.as_shells
    figures = shells.plan.project.figures
    formats = figures.formats if figures else ()
    drawings = [*of_shells(shells, tables), *of_pushbacks(answer), *of_schedule(answer, tables["years"])]
    with also_as(formats):
        run_all([partial(write, stage / name) for name, write in drawings], processes)
    return files_of({name: name for name, _ in drawings}, formats)


def of_shells(shells: Shells, tables: dict[str, pd.DataFrame]) -> Iterator[Drawing]:
    scene, project, chosen = plans_sections.scene_of(shells), shells.plan.project, shells.selected
    yield PICTURES["pit_by_pit"], partial(write_pit_by_pit, shells.table, project.economics.currency, chosen)
    yield PICTURES["years"], partial(schedule.write_years, tables["years"], project, chosen)
    yield PICTURES["plans"], partial(plans_sections.write_plans, scene)
    yield PICTURES["sections"], partial(plans_sections.write_sections, scene)
    kinds = geology.kinds_of(shells.plan)
    if kinds:
        yield GEOLOGY_PICTURES["geology"], partial(geology.write_sections, scene, kinds)
    curves = partial(pits.write, tables["grade_tonnage"], project.metals[0])
    yield PICTURES["grade_tonnage"], curves


def of_pushbacks(answer: Answer) -> Iterator[Drawing]:
    if answer.as_pushbacks is not None:
        scene = pushbacks.scene_of(answer.as_pushbacks)
        yield PUSHBACK_PICTURES["pushback_plans"], partial(pushbacks.write_plans, scene)
        yield PUSHBACK_PICTURES["pushback_sections"], partial(pushbacks.write_sections, scene)


def of_schedule(answer: Answer, years: pd.DataFrame) -> Iterator[Drawing]:
    made = answer.as_schedule
    if made is None:
        return
    if isinstance(made, PushbackSchedule):
        yield SCHEDULE_PICTURES["schedule_gantt"], partial(schedule.write_gantt, made)
        yield SCHEDULE_PICTURES["schedule_tonnes"], partial(schedule.write_tonnes, made)
        yield SCHEDULE_PICTURES["schedule_value"], partial(schedule.write_cumulative, made, years)
    else:
        yield BLOCK_PICTURES["block_schedule"], partial(schedule.write, made)
    if made.on_price_paths is not None:
        yield PRICE_PICTURES["price_paths"], partial(price_paths.write, made.on_price_paths)

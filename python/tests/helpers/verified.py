"""A deposit of two metals, and what the verification says of a plan or a folder."""

import json
import os

from conftest import PROJECT, rows
from helpers.writings import UNVERIFIED

from pitplan import verify, write_schedule
from pitplan.commands.answers import write_tables
from pitplan.core.layout import FOLDERS, SOLVER
from pitplan.solver import mine_files
from planaudit.folders import checks_of
from planaudit.inputs import answer as answers
from planaudit.rules import rules_of

TEXT = (
    PROJECT.replace(
        "mining_cost = 2\n", "mining_cost = { R = 2, S = 2.5 }\nmining_cost_per_bench = 0.25\ndecimals = 2\n"
    )
    .replace(
        "[slopes]\n",
        '[[metals]]\nname = "gold"\ncolumn = "au"\nunit = "gram_per_tonne"\nprice = 60\nselling_cost = 1.5\nrecovery = { R = 0.9, S = 0.4 }\n[slopes]\n',
    )
    .replace("processing_capacity = 100", "processing_capacity = 150\nmining_capacity = 1000")
    + '\n[constraints]\nmust_mine = "must"\nexclude = "never"\n'
)


def deposit():
    """Ore below a hill, with blocks that must be dug and blocks that may not be."""
    table = rows(
        11,
        9,
        5,
        tonnes=lambda i, j, k: 99.7 + 0.01 * i,
        cu=lambda i, j, k: {(5, 4, 1): 6, (6, 4, 1): 0.9, (4, 6, 2): 0.41, (5, 4, 2): 0.2}.get((i, j, k), 0),
        au=lambda i, j, k: 0.7 if (j, k) == (4, 1) else 0,
        rock=lambda i, j, k: "RS"[(i + j) % 2],
        must=lambda i, j, k: int((i, j, k) == (2, 1, 4)),
        never=lambda i, j, k: int(i == 10),
    )
    return table[(table["z"] < 40) | (table["x"] < 70)]


def wrong(folder):
    return {rule.name for rule in verify(folder) if rule.differences}


def differing(folder, *names):
    """Those of the named rules of a plan that do not hold. No other is checked, which takes a third of the time."""
    checks = checks_of(answers.read(folder))
    return {rule.name for rule in rules_of({name: checks[name] for name in names}) if rule.differences}


def looked_at(plan):
    """What is said of the plan's numbers, without pictures and report."""
    folder = plan.project.folder
    for name in FOLDERS:
        (folder / name).mkdir(parents=True, exist_ok=True)
    record = plan.record(mine_files.write(plan, folder / SOLVER))
    shells = plan.shells()
    write_tables(shells.tables(), shells.solution, plan.project, folder)
    record |= shells.summary()
    record["project"] = os.path.relpath(plan.project.path, folder)
    (folder / "plan.json").write_text(json.dumps(record))
    return verify(folder)


def ore_everywhere():
    """Forty-two blocks on two levels, all of which pay, at coordinates of seven digits."""
    table = rows(7, 3, 2, cu=lambda i, j, k: 6)
    return table.assign(x=table["x"] + 600_000, y=table["y"] + 6_512_000)


def schedule_folder(path):
    """Schedules the pushbacks of a project, demands that its folder is right, and gives it."""
    folder = path.parent / "plan/schedule"
    write_schedule(path, writing=UNVERIFIED)
    assert wrong(folder) == set()
    return folder

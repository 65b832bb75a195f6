"""Projects that are scheduled by block, and what the verification says of their folders."""

import pandas as pd

import pitplan
from pitplan import load, verify

from .processes import WITH
from .pushbacks import UPRIGHT, pillars
from .writings import UNVERIFIED

# The mill takes the ore of one pillar a year, and the shovels a pillar.
YEARLY = UPRIGHT.replace(
    "processing_capacity = 100", 'processing_capacity = 100\nmining_capacity = 200\ndiscounting = "end_of_year"'
)

# Mill and shovels take all three pillars in a year.
WIDE = YEARLY.replace("processing_capacity = 100", "processing_capacity = 300").replace(
    "mining_capacity = 200", "mining_capacity = 600"
)


def named_mill():
    """The same mine as YEARLY with its mill as a process, at the end of the text."""
    text = YEARLY
    for words in ("processing_cost = 10\n", "recovery = 0.5\n", "processing_capacity = 100\n"):
        assert text.count(words) == 1
        text = text.replace(words, "")
    return text + '[[processes]]\nname = "mill"\ncost = 10\ncapacity = 100\nrecovery = { copper = 0.5 }\n'


def scheduled(plan_folder, words="", text=YEARLY, table=None):
    """Schedules a project by block, and demands that its folder is right; gives the row of the schedule, and the folder."""
    project = load(plan_folder(pillars() if table is None else table, text + words))
    row, folder = pitplan.write_block_schedule(project, writing=UNVERIFIED).iloc[0], project.folder / "block_schedule"
    assert wrong(folder) == set()
    return row, folder


def wrong(folder):
    return {rule.name for rule in verify(folder) if rule.differences}


def years_of(folder):
    years = pd.read_csv(folder / "tables/years.csv")
    return years[years["case"] == "block"]


def with_processes():
    """Leach earns 32 a per cent and tonne less 3, and takes 300 t a year; the mill 72 less 13, and 100 t. Shovels take 600 t a year."""
    text = UPRIGHT.replace(
        "discount_rate = 0.1", 'discount_rate = 0.1\nmining_capacity = 600\ndiscounting = "end_of_year"'
    )
    for old, new in WITH:
        assert text.count(old) == 1
        text = text.replace(old, new)
    return text


def rewrite(path, change):
    table = pd.read_csv(path)
    change(table)
    table.to_csv(path, index=False)

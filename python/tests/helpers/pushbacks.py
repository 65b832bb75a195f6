"""Projects and tables that are divided into pushbacks."""

import pandas as pd
from conftest import PROJECT, rows

from pitplan import verify

UPRIGHT = PROJECT.replace('pattern = "1:5"', "angle = 90").replace(
    "precedence_benches = 3\n", "precedence_benches = 1\n"
)
GRADES = [1, 0.7, 0.5]


def pillars(**more):
    """Three pillars of waste over ore. At a factor f the ore of grade g pays for itself and the waste, 1000 + 2 x 200, where f x 4 g is
    more: from 0.351, 0.501 and 0.701 on."""
    return rows(3, 1, 2, cu=lambda i, j, k: 0 if k else GRADES[i], **more)


def with_pushbacks(words, text=UPRIGHT):
    return text + f"\n[pushbacks]\n{words}\n"


# Three pillars of waste over ore; the mill takes the ore of one a year, and the shovels a pillar.
PUSHBACKS = with_pushbacks(
    "count = 3",
    UPRIGHT.replace(
        "processing_capacity = 100", 'processing_capacity = 100\nmining_capacity = 200\ndiscounting = "end_of_year"'
    ),
)


def blocks_of(folder):
    return pd.read_csv(folder / "tables/blocks.csv").set_index("name")


def wrong(folder):
    """The rules that do not hold, but for that of the hashes of inputs, which tests change."""
    return {rule.name: rule for rule in verify(folder) if rule.differences and rule.name != "inputs"}


RICH, POOR = 2, 0.4


def floor(*cells, columns=9, rows_=7, grade=RICH, **more):
    """Waste over a floor with ore at some cells, of which a rich one gains 8000 - 1000 - 200 and a poor one 1600 - 1000 - 200. Each block
    of waste costs 200. The walls need the block straight above and its four neighbours."""
    grades = dict.fromkeys(cells, grade) if not isinstance(cells[0], dict) else cells[0]
    return rows(columns, rows_, 2, cu=lambda i, j, k: 0 if k else grades.get((i, j), 0), **more)


def square(west, south, side):
    return {(west + i, south + j) for i in range(side) for j in range(side)}

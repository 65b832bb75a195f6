"""Mines with must-mine and excluded blocks."""

from conftest import PROJECT, rows


def with_section(text):
    return PROJECT + "\n" + text


def ores_and_fixed():
    """Two ores at the floor of seven columns, of which the poorer comes in late; the last column must be dug, the first may not be."""
    return rows(
        7,
        1,
        2,
        cu=lambda i, j, k: {(2, 0): 6, (5, 0): 0.5}.get((i, k), 0),
        must=lambda i, j, k: int(i == 6),
        never=lambda i, j, k: int(i == 0),
    )


FIXED_SECTION = '[constraints]\nmust_mine = "must"\nexclude = "never"\n'

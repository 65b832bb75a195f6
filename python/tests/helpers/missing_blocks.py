"""A deposit whose table has no rows for some cells."""

from conftest import rows

ROCK = ('file = "blocks.csv"', 'file = "blocks.csv"\nmissing_blocks = { tonnes = 100, rock_type = "R", domain = "1" }')


def deposit():
    """Ore at the floor in the middle of seven columns; its pit reaches two columns to either side at the surface."""
    return rows(7, 1, 3, cu=lambda i, j, k: 9 if (i, k) == (3, 0) else 0)

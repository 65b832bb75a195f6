"""A project with two processes, and a deposit of two rocks."""

import numpy as np
from conftest import rows

LEACH_AND_MILL = """
[[processes]]
name = "leach"
cost = 3
recovery = { copper = 0.4 }
capacity = 300
[[processes]]
name = "mill"
cost = 13
recovery = { copper = { R = 0.9, S = 0.65 } }
capacity = 100
[slopes]
"""
WITH = [
    ("processing_cost = 10\n", ""),
    ("recovery = 0.5\n", ""),
    ("processing_capacity = 100\n", ""),
    ("[slopes]\n", LEACH_AND_MILL),
]


def deposit():
    """Rich ore, poor ore and waste of two rocks."""
    rng = np.random.default_rng(3)
    table = rows(11, 9, 4, rock=lambda i, j, k: "RS"[(i * j + k) % 2])
    ore = (table["z"] < 25) & table["x"].between(30, 80) & table["y"].between(30, 60)
    table["cu"] = np.where(ore, rng.lognormal(-0.3, 1.0, len(table)).round(2), 0)
    return table

"""A mine of three pillars with dumps: one is mined a year, as pushbacks or by block."""

import numpy as np

from .pushbacks import pillars

# Three pillars of 100 t of waste over 100 t of ore earn 2600, 1400 and 600 without dumps; one is mined a year.
THREE_YEARS = "[schedule]\nyears = 3\n"
NEAR = '[[dumps]]\nname = "near"\ncost = 1\n'
FAR = '[[dumps]]\nname = "far"\ncost = 3\n'
# Near takes the waste of the first pillar and half of that of the second.
BOTH = NEAR + "capacity = 150\n" + FAR
CASH = [2600 - 100, 1400 - 50 - 150, 600 - 300]


def present(*cash):
    return sum(amount / 1.1**year for year, amount in enumerate(cash, 1))


def of_rocks():
    """The waste of the first and the third pillar is fresh, that of the second oxide with 0.4 % of sulphur, the ore oxide without."""
    table = pillars(rock=lambda i, j, k: "FR" if k and i != 1 else "OX")
    return table.assign(s_pct=np.where((table["z"] > 10) & (table["x"] == 15), 0.4, 0.0))

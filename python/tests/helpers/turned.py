"""A table whose grid is rotated."""

import numpy as np


def turned(table, degrees, decimals=3):
    """Clockwise about 600,000, 6,500,000: what lay in the east lies to azimuth 90 and so many degrees."""
    turn = np.radians(degrees)
    x = 600_000 + table["x"] * np.cos(turn) + table["y"] * np.sin(turn)
    y = 6_500_000 + table["y"] * np.cos(turn) - table["x"] * np.sin(turn)
    return table.assign(x=x.round(decimals), y=y.round(decimals))

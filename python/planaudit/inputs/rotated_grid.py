"""Positions along the axes of a grid, which may be rotated, by its record: centroid of the first block, block size and azimuth."""

from __future__ import annotations

from collections.abc import Sequence
from typing import Any

import numpy as np
import pandas as pd


def axes_of(grid: dict[str, Any]) -> np.ndarray:
    """Returns unit vectors along the grid's east, north and up in the planner's coordinates, shape (3, 3)."""
    azimuth = np.radians(grid.get("azimuth", 0.0))
    towards_north = [np.sin(azimuth), np.cos(azimuth), 0.0]
    # 90 degrees clockwise of the grid's north.
    towards_east = [towards_north[1], -towards_north[0], 0.0]
    return np.array([towards_east, towards_north, [0.0, 0.0, 1.0]])


def steps_of(places: np.ndarray, grid: dict[str, Any]) -> np.ndarray:
    """Returns blocks east, north and up from the first centroid, with fractions, for rows x, y, z; for rows x, y the first two."""
    count = places.shape[1]
    away = places - np.array(grid["origin"])[:count]
    if grid.get("azimuth"):
        away = away @ axes_of(grid)[:count, :count].T
    found: np.ndarray = away / np.array(grid["size"])[:count]
    return found


def centroids(frame: pd.DataFrame, names: Sequence[str]) -> np.ndarray:
    """Returns rows x, y, z of the columns with these names, which lie in memory one after the other."""
    return np.stack([frame[name] for name in names]).T


def places_of(steps: np.ndarray, grid: dict[str, Any]) -> np.ndarray:
    """Returns the planner's x and y of rows of blocks east and north from the first centroid."""
    return steps * np.array(grid["size"])[:2] @ axes_of(grid)[:2, :2] + np.array(grid["origin"])[:2]


def nearest_cells(centres: np.ndarray, grid: dict[str, Any]) -> np.ndarray:
    """Returns the cells with the nearest centres to rows x, y, z in metres."""
    east, north, up = np.rint(steps_of(centres, grid)).astype(np.int64).T
    return np.ravel_multi_index((-up, north, east), grid["shape"], mode="clip")

"""Triangles of written surfaces, and the volume that they enclose."""

import re

import numpy as np


def triangles_of(path):
    """Corners of each triangle, shape (triangles, 3, 3)."""
    text = path.read_text()
    if path.suffix == ".stl":
        return np.array(re.findall(r"vertex (\S+) (\S+) (\S+)", text), dtype=float).reshape(-1, 3, 3)
    corners = np.array(re.findall(r"^v (\S+) (\S+) (\S+)", text, re.MULTILINE), dtype=float)
    faces = re.findall(r"^f (\d+)\S* (\d+)\S* (\d+)\S*$", text, re.MULTILINE)
    return corners[np.array(faces, dtype=int) - 1]


def volume_of(triangles):
    """What triangles that face outwards hold."""
    a, b, c = (triangles - triangles.reshape(-1, 3).mean(axis=0)).transpose(1, 0, 2)
    return float((np.cross(a, b) * c).sum() / 6)

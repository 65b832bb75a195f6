"""The precedences of a block by the definition of its slope domain: every block above it in the cone, or in the pattern."""

from __future__ import annotations

import math
from typing import Any

Step = tuple[int, int, int]
FIVE = {(0, 0), (1, 0), (-1, 0), (0, 1), (0, -1)}


def cotangent(wall: list[tuple[float, float]], azimuth: float) -> float:
    """Between two azimuths that are named the cotangent goes linearly, round the circle."""
    points = sorted((float(at), 1 / math.tan(math.radians(float(angle)))) for at, angle in wall)
    points = [(points[-1][0] - 360, points[-1][1]), *points, (points[0][0] + 360, points[0][1])]
    for (low, first), (high, then) in zip(points, points[1:]):
        if low <= azimuth <= high:
            return first + (then - first) * ((azimuth - low) / (high - low) if high > low else 0)
    raise AssertionError(azimuth)


def angles_of(domain: dict[str, Any]) -> list[tuple[float, float]]:
    """Pairs of the bearing from the pit to the wall, and the angle there."""
    if "angle" in domain:
        return [(0.0, float(domain["angle"]))]
    if "bench" in domain:
        height, face, berm = (float(domain["bench"][name]) for name in ("height", "face_angle", "berm_width"))
        return [(0.0, math.degrees(math.atan2(height, height / math.tan(math.radians(face)) + berm)))]
    turned = 180 if domain.get("azimuth_of") == "dip" else 0
    return [((float(at) + turned) % 360, float(angle)) for at, angle in domain["azimuths"]]


def steps_of(domain: dict[str, Any], size: tuple[float, float, float], benches: int, shape: Step) -> list[Step]:
    """The blocks east, north and up of a block that it depends on, within a grid of a shape (columns, rows, levels)."""
    if "offsets" in domain:
        return [(int(east), int(north), int(up)) for east, north, up in domain["offsets"]]
    if "pattern" in domain:
        nine = {(east, north) for east in (-1, 0, 1) for north in (-1, 0, 1)}
        return [(east, north, 1) for east, north in (FIVE if domain["pattern"] == "1:5" else nine)]
    wall = angles_of(domain)
    found = []
    for up in range(1, min(benches, shape[2] - 1) + 1):
        for east in range(-shape[0] + 1, shape[0]):
            for north in range(-shape[1] + 1, shape[1]):
                x, y = east * size[0], north * size[1]
                reach = up * size[2] * cotangent(wall, math.degrees(math.atan2(x, y)) % 360)
                if math.hypot(x, y) <= reach + 1e-7:
                    found.append((east, north, up))
    return found

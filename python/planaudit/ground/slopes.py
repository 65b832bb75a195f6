"""Verifies slopes by their definition: a mined block leaves no block in the whole cone above it."""

from __future__ import annotations

import math
from dataclasses import dataclass

import numpy as np
import pandas as pd

from planaudit.inputs.answer import NOTHING, UNMINED, Answer
from planaudit.inputs.project import Section
from planaudit.revenue_factors import factor_text
from planaudit.rules import TOLD, Rule, rule

NEIGHBOURS = {"1:5": 1, "1:9": 2}
HAIR = 1e-9
STEEPER = 0.5
MOST_LEVELS, MOST_CHOSEN = 40, 250


@dataclass(frozen=True)
class Run:
    """Adjacent cells of a level above: `north` blocks north, and from `west` to `east` blocks east, inclusive."""

    north: int
    west: int
    east: int


def flatness(domain: Section, azimuth: np.ndarray) -> np.ndarray:
    """Returns the cotangent of the slope angle at azimuths in degrees: linear between those given, and around the circle."""
    if domain["bench"]:
        return np.full(
            np.shape(azimuth),
            1 / math.tan(math.radians(domain["bench"]["face_angle"]))
            + domain["bench"]["berm_width"] / domain["bench"]["height"],
        )
    # A face dips away from its wall.
    turned = 180 if domain["azimuth_of"] == "dip" else 0
    pairs = sorted(((azimuth + turned) % 360, angle) for azimuth, angle in domain["angles"])
    given = [azimuth for azimuth, _ in pairs]
    back = [math.cos(math.radians(angle)) / math.sin(math.radians(angle)) for _, angle in pairs]
    return np.interp(azimuth, [given[-1] - 360, *given, given[0] + 360], [back[-1], *back, back[0]])


def cone(domain: Section, size: tuple[float, float, float], up: int, turn: float = 0.0) -> np.ndarray:
    """Returns which cells lie in the cone a number of levels up: a boolean square, rows from the south, around the cell above. `turn` is the azimuth
    of the grid's north in degrees."""
    if domain["pattern"]:
        corner = NEIGHBOURS[domain["pattern"]]
        return np.array([[abs(north) + abs(east) <= corner for east in (-1, 0, 1)] for north in (-1, 0, 1)])
    if domain["offsets"]:
        steps = {(north, east) for east, north, above in domain["offsets"] if above == up}
        far = max((max(abs(north), abs(east)) for north, east in steps), default=0)
        return np.array([[(north, east) in steps for east in range(-far, far + 1)] for north in range(-far, far + 1)])
    back = up * size[2] * max(flatness(domain, np.arange(0.0, 360.0, 0.25)))
    far = int(back / min(size[0], size[1])) + 1
    north, east = np.mgrid[-far : far + 1, -far : far + 1] * np.array([size[1], size[0]])[:, None, None]
    allowed = up * size[2] * flatness(domain, (np.degrees(np.arctan2(east, north)) + turn) % 360)
    return np.hypot(north, east) <= allowed * (1 + HAIR) + HAIR


def runs(inside: np.ndarray) -> list[Run]:
    """Returns the cells of a boolean square as runs from west to east."""
    far, found = len(inside) // 2, []
    for north, row in enumerate(inside):
        edges = np.flatnonzero(np.diff(np.concatenate([[0], row.astype(np.int8), [0]])))
        found += [Run(north - far, west - far, east - 1 - far) for west, east in edges.reshape(-1, 2).tolist()]
    return found


def ranks_of(mined: np.ndarray) -> np.ndarray:
    """Returns the rank of each value among all, from 0 for NOTHING, as the smallest type that holds it."""
    values = np.sort(pd.unique(np.append(mined.ravel(), NOTHING)))
    return np.searchsorted(values, mined).astype(np.min_scalar_type(len(values)))


def greatest(above: np.ndarray, inside: list[Run]) -> np.ndarray:
    """Returns for each cell the largest value in runs of cells above it; cells outside the model count as 0."""
    levels, rows, columns = above.shape
    deep = max(abs(run.north) for run in inside)
    far = max(max(abs(run.west), abs(run.east)) for run in inside)
    padded = np.zeros((levels, rows + 2 * deep, columns + 2 * far), dtype=above.dtype)
    padded[:, deep : deep + rows, far : far + columns] = above
    # The largest value of one, two, four .. cells from each on, where two cover a run.
    powers, found = [padded], np.zeros_like(above)
    while 2 ** len(powers) <= max(run.east - run.west + 1 for run in inside):
        half = 2 ** (len(powers) - 1)
        powers.append(np.maximum(powers[-1][:, :, :-half], powers[-1][:, :, half:]))
    for run in inside:
        number = (run.east - run.west + 1).bit_length() - 1
        lines = powers[number][:, deep + run.north : deep + run.north + rows]
        for first in {run.west, run.east - 2**number + 1}:
            np.maximum(found, lines[:, :, far + first : far + first + columns], out=found)
    return found


def verify(answer: Answer) -> Rule:
    """Verifies that no shell leaves a block with tonnes, or unknown ground, in the whole cone of a block that it mines."""
    first, entry, ranks = answer.first_factor, answer.entries, ranks_of(answer.first_factor)
    wrong = np.zeros(answer.shape, dtype=bool)
    for number, domain in enumerate(answer.project.slopes["domains"]):
        mine = (entry == number) & (first != UNMINED) & (first != NOTHING)
        if not mine.any():
            continue
        for up in range(1, min(answer.levels(domain), answer.shape[0] - 1) + 1):
            below = box(mine[up:])
            if below is None:
                continue
            inside = runs(cone(domain, answer.size, up, answer.azimuth))
            if not inside:
                continue
            reach = max(max(abs(run.north), abs(run.west), abs(run.east)) for run in inside)
            wide = tuple(
                slice(max(0, it.start - reach * (axis > 0)), it.stop + reach * (axis > 0))
                for axis, it in enumerate(below)
            )
            standing = greatest(ranks[:-up][wide], inside) > ranks[up:][wide]
            wrong[up:][wide] |= standing & mine[up:][wide]
    return rule("slopes", holds(answer), *told(answer, wrong))


def verify_steepness(answer: Answer) -> Rule:
    """Verifies that without `precedence_benches` no slope error exceeds half a degree, unless their number is the largest, or a block would have too
    many precedences over a bench more."""
    slopes, differences = answer.project.slopes, []
    if slopes["precedence_benches"] is not None:
        return rule(
            "slope error", f"slope precedences reach over {slopes['precedence_benches']} benches, as in the project", []
        )
    for number, domain in enumerate(slopes["domains"]):
        levels = answer.levels(domain)
        steeper = 0.0
        if not domain["pattern"] and not domain["offsets"]:
            steeper = float(
                (high_walls(domain, answer.size, levels, answer.azimuth) - asked(domain, answer.azimuth)).max()
            )
        is_steeper = steeper > STEEPER + 1e-6 and levels < MOST_LEVELS
        if is_steeper and precedences(domain, answer.size, levels + 1, answer.azimuth) <= MOST_CHOSEN:
            differences.append(
                f"domain entry {number + 1}: over {levels} benches the slope is {steeper:.2f} degrees steeper than its angle"
            )
    return rule(
        "slope error",
        f"no slope is more than {STEEPER} degrees steeper than its angle, or precedences reach over {MOST_LEVELS} benches, or over one more a "
        f"block would have more than {MOST_CHOSEN}",
        differences,
    )


def precedences(domain: Section, size: tuple[float, float, float], levels: int, turn: float) -> int:
    """Returns how many precedences imply the whole cone: its cells between which and the block no lower cell lies that leads to them."""
    cones = [cone(domain, size, up, turn) for up in range(1, levels + 1)]
    found: set[tuple[int, int, int]] = set()
    for south, west in ((1, 1), (1, -1), (-1, 1), (-1, -1)):
        kept: list[tuple[int, int, int]] = []
        for up, inside in enumerate(cones, 1):
            places = (np.argwhere(inside) - len(inside) // 2) * [south, west]
            new = [
                (up, int(north), int(east))
                for north, east in places[(places >= 0).all(axis=1)]
                if not any(leads(cones, (up - a, north - b, east - c), south, west) for a, b, c in kept)
            ]
            kept += new
        found |= {(up, north * south, east * west) for up, north, east in kept}
    return len(found)


def leads(cones: list[np.ndarray], step: tuple[int, int, int], south: int, west: int) -> bool:
    """Whether a step up, north and east within a quarter leads from a cell to one of its cone."""
    up, north, east = step
    if up < 1 or north < 0 or east < 0:
        return False
    inside, far = cones[up - 1], len(cones[up - 1]) // 2
    return north <= far and east <= far and bool(inside[far + north * south, far + east * west])


def asked(domain: Section, turn: float) -> np.ndarray:
    """Returns the required angles in degrees, by whole azimuth from the grid's north, which has the azimuth `turn`."""
    return np.degrees(np.arctan2(1.0, flatness(domain, (np.arange(360.0) + turn) % 360)))


def high_walls(domain: Section, size: tuple[float, float, float], levels: int, turn: float = 0.0) -> np.ndarray:
    """Returns the angles of high slopes, of cones upon cones, in the same way: those of the convex hull of the cone."""
    # Here, since it takes a tenth of a second, and not if the project sets the number of benches.
    from scipy.spatial import ConvexHull, QhullError

    points = []
    for up in range(1, levels + 1):
        inside = cone(domain, size, up, turn)
        north, east = (np.argwhere(inside) - len(inside) // 2).T
        points.append(np.stack([east * size[0], north * size[1]], axis=1) / (up * size[2]))
    try:
        sides = ConvexHull(np.concatenate(points)).equations
    except QhullError:
        return np.full(360, 90.0)
    azimuth = np.radians(np.arange(360.0))
    along = sides[:, :2] @ np.stack([np.sin(azimuth), np.cos(azimuth)])
    reach = np.where(along > 1e-12, -sides[:, 2:] / np.where(along > 1e-12, along, 1.0), np.inf).min(axis=0)
    return np.degrees(np.arctan2(1.0, np.maximum(reach, 0.0)))


def needed_by(answer: Answer, blocks: np.ndarray) -> np.ndarray:
    """Returns the given blocks and all their predecessors, a boolean mask over cells."""
    found = blocks.copy()
    entries = answer.entries
    domains, turn = answer.project.slopes["domains"], answer.azimuth
    cones = [
        [runs(cone(domain, answer.size, up, turn)) for up in range(1, answer.levels(domain) + 1)] for domain in domains
    ]
    back = [[[Run(-it.north, -it.east, -it.west) for it in inside] for inside in of_domain] for of_domain in cones]
    for level in range(answer.shape[0] - 1, 0, -1):
        for number, of_domain in enumerate(back):
            mine = found[level] & (entries[level] == number)
            for up, inside in enumerate(of_domain[:level] if mine.any() else [], 1):
                if inside:
                    found[level - up] |= greatest(mine[None].astype(np.uint8), inside)[0] > 0
    return found


def box(mask: np.ndarray) -> tuple[slice, slice, slice] | None:
    """Returns the smallest box around all marked cells; None without any."""
    if not mask.any():
        return None
    found = []
    for axis in range(3):
        some = np.flatnonzero(mask.any(axis=tuple(other for other in range(3) if other != axis)))
        found.append(slice(int(some[0]), int(some[-1]) + 1))
    return found[0], found[1], found[2]


def told(answer: Answer, wrong: np.ndarray) -> tuple[list[str], int]:
    rows = np.flatnonzero(wrong[answer.cells])
    said = [
        f"{answer.called(row)}, mined at revenue factor {factor_text(answer.said['revenue_factor'].iloc[row])}, depends on a block that is not"
        for row in rows[:TOLD]
    ]
    return said, len(rows)


def holds(answer: Answer) -> str:
    most = max(answer.levels(domain) for domain in answer.project.slopes["domains"])
    return f"no block of any shell lacks a block of its slope cone, up to {most} benches above it"

"""The methods by which a schedule is found, and their names in figures and reports."""

from __future__ import annotations

from typing import Optional

from pitplan.config.schedule import Effort
from pitplan.errors import WARNING

RULE, LP, MILP = "rule", "lp", "milp"
# A schedule by block, in years.csv and methods.csv.
BLOCK = "block"
NAMES = {
    "worst": "worst case",
    "specified": "specified case",
    RULE: "rule",
    LP: "linear programme",
    MILP: "integer programme",
    "best": "best case",
    "relaxed": "linear relaxation",
    "upper_bound": "upper bound, these pushbacks",
}
# How the note begins that says what is proved of a schedule.
PROVED = "proved by pitschedule: "
# An optimality gap above this share is reported with a remedy.
LARGE_GAP = 0.05


def notes_of_gap(value: float, bound: float, milp: Optional[Effort]) -> list[str]:
    """Returns a warning if the NPV of a schedule is far below its upper bound, with what to do.

    Parameters
    ----------
    value, bound : float
    milp : Effort, optional
        What `[schedule] milp` asks for.
    """
    gap = (bound - value) / abs(bound) if bound else 0.0
    if gap <= LARGE_GAP:
        return []
    remedy = (
        "set [schedule] milp = { gap = 0.01, seconds = 600 }, which searches on by integer programmes"
        if milp is None
        else "raise the seconds of [schedule] milp"
    )
    return [f"{WARNING}the optimality gap is {100 * gap:.1f} %: {remedy}"]

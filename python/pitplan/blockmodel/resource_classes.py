"""Resource classes of blocks: which are treated as waste, which are refused, and how many tonnes that concerns.

A block of a class that is waste has no revenue, so that it is never processed. Tables report its tonnes as mineralised waste where it would pay.
"""

from __future__ import annotations

from collections.abc import Sequence
from typing import Optional

import numpy as np
import pandas as pd

from pitplan.config.material import ORE, ORE_NAMES, REFUSE, WASTE, WASTE_NAMES
from pitplan.config.project import Project
from pitplan.core.numeric_fields import at_row
from pitplan.errors import WARNING

# Classes that a note names.
MOST_LISTED = 10


def codes_of(frame: pd.DataFrame, project: Project) -> tuple[np.ndarray, np.ndarray]:
    """Returns the number of each row's class, and the codes by number."""
    numbers, codes = pd.factorize(frame[project.table.resource_class].to_numpy(), sort=True)
    return numbers, codes


def treated_as(treatment: str, frame: pd.DataFrame, project: Project) -> np.ndarray:
    """Returns whether each row is of a class with this treatment."""
    numbers, codes = codes_of(frame, project)
    return np.array([project.classes.of(code) == treatment for code in codes], dtype=bool)[numbers]


def waste_of(frame: pd.DataFrame, project: Project) -> Optional[np.ndarray]:
    """Returns whether each row is of a class that is treated as waste; None if the table has no classes."""
    return None if project.table.resource_class is None else treated_as(WASTE, frame, project)


def demand_accepted(frame: pd.DataFrame, project: Project, source: str) -> None:
    """Raises PlanError, by the row, if a block with tonnes is of a class that is refused."""
    name = project.table.resource_class
    if name is None:
        return
    wrong = treated_as(REFUSE, frame, project) & (frame[project.table.tonnes].to_numpy() > 0)
    if wrong.any():
        row, count = int(wrong.argmax()), np.count_nonzero(wrong)
        code = frame[name].iloc[row]
        others = f", as in {count - 1:,} more" if count > 1 else ""
        why = f'found "{code}"{others}, which [classes] refuses in blocks with tonnes: correct the class'
        raise at_row(source, row, name, f'{why}, or set [classes] "{code}" = "waste"')


def notes_of(frame: pd.DataFrame, project: Project, pays: np.ndarray, price: str) -> list[str]:
    """Returns the tonnes and the treatment of each class, and a warning if classes are waste only by default. `pays` says of each block whether it is
    treated as waste and would pay for its processing at `price`, which the notes name."""
    if project.table.resource_class is None:
        return []
    numbers, codes = codes_of(frame, project)
    tonnes = np.bincount(numbers, frame[project.table.tonnes], minlength=len(codes))
    paying = np.bincount(numbers, np.where(pays, frame[project.table.tonnes], 0.0), minlength=len(codes))
    there = [(code, total, more) for code, total, more in zip(codes, tonnes, paying) if total > 0]
    split = listed([f"{named(code)}: {amount(total)} as {project.classes.of(code)}" for code, total, _ in there])
    notes = [f"resource classes in {project.table.resource_class}: {split}"]
    known = {code for code, _, _ in there}
    notes += [
        f"[classes] names class {code}, which no block has" for code in project.classes.given if code not in known
    ]
    notes += sum_notes([it for it in there if project.classes.of(it[0]) == WASTE], project, price)
    return notes + doubts([code for code, _, _ in there], project)


def sum_notes(waste: list[tuple[str, float, float]], project: Project, price: str) -> list[str]:
    """Returns the tonnes of waste classes that would pay; as a warning for those without a rule."""
    found = []
    for is_given in (True, False):
        some = [(code, more) for code, _, more in waste if (code in project.classes.given) == is_given and more > 0]
        if some:
            names = listed([named(code) for code, _ in some])
            total = amount(sum(more for _, more in some))
            rule = "by [classes]" if is_given else "by default; [classes] sets a rule for each class"
            said = f"{names} resources are treated as waste: {total} that would pay for processing at {price}"
            found.append(f"{said} ({rule})" if is_given else f"{WARNING}{said} ({rule})")
    return found


def doubts(codes: list[str], project: Project) -> list[str]:
    """Returns a warning about classes that are ore although neither a rule nor their name says what they are."""
    strange = [
        code for code in codes if code not in project.classes.given and code.lower() not in (*ORE_NAMES, *WASTE_NAMES)
    ]
    if not strange:
        return []
    column = project.table.resource_class
    are, they = ("classes {} are", "they are") if len(strange) > 1 else ("class {} is", "it is")
    names = are.format(listed(strange))
    return [f"{WARNING}{column}: {names} treated as {ORE}: no rule of [classes] says what {they}"]


def listed(names: Sequence[str]) -> str:
    """Returns the first names, and the number of the others."""
    more = [f"and {len(names) - MOST_LISTED:,} more"] if len(names) > MOST_LISTED else []
    return ", ".join([*names[:MOST_LISTED], *more])


def named(code: str) -> str:
    return code or "unclassified"


def amount(tonnes: float) -> str:
    """Returns a tonnage in Mt, or in t if it is small."""
    return f"{tonnes / 1e6:,.1f} Mt" if tonnes >= 1e5 else f"{tonnes:,.0f} t"

"""What the planner's layer answers where it cannot go on: one sentence that a person can act on."""

import re
from collections.abc import Sequence
from dataclasses import dataclass
from typing import Any, Optional

# Characters that end a line, by str.splitlines.
LINE_ENDS = re.compile("[\n\r\v\f\x1c\x1d\x1e\x85\u2028\u2029]")


# A longer sentence quotes a whole file: its middle is left out, so that what was found and the remedy stay.
MOST_LETTERS = 2_000


def on_one_line(text: str) -> str:
    """Returns a sentence on one line, of MOST_LETTERS at most. A line's end in a name is shown as Python writes it."""
    half = MOST_LETTERS // 2 - 3
    short = text if len(text) <= MOST_LETTERS else f"{text[:half]} [..] {text[-half:]}"
    return LINE_ENDS.sub(lambda end: end[0].encode("unicode_escape").decode(), short)


@dataclass(frozen=True)
class ErrorPlace:
    """The place of an error in its file, as far as it is known.

    Attributes
    ----------
    key : str
        The path of a key or section of a project, such as `metals 2.price`; "" if none is meant.
    line : int, optional
        The line of a project, from 1.
    row : int, optional
        The row of a table, from 1.
    column : str
        The column of a table; "" if none is meant.
    """

    key: str = ""
    line: Optional[int] = None
    row: Optional[int] = None
    column: str = ""


class PlanError(Exception):
    """Input that cannot be planned with. Its text is one line that names the file, and where it can the row and the column; `details` follow,
    a line each. `place` has the key, or the row and the column, as fields."""

    def __init__(self, text: str, details: Sequence[str] = (), place: ErrorPlace = ErrorPlace()) -> None:
        super().__init__("\n  ".join(map(on_one_line, (text, *details))))
        self.place = place

    def __reduce__(self) -> tuple[Any, ...]:
        return received, (type(self), str(self), self.__dict__)


def received(kind: type[PlanError], text: str, state: dict[str, Any]) -> PlanError:
    """Returns an error that another process has sent, unchanged: its lines stay lines."""
    error = kind.__new__(kind)
    error.args = (text,)
    error.__dict__.update(state)
    return error


class MissingPackage(PlanError):
    """A library that this step needs is not installed. Its text names the Debian package."""


class ProgramError(PlanError):
    """The program `pitshell` is not there, or refused its input.

    `status` is its exit status: below 0 the signal that ended it, None where it did not run.
    """

    def __init__(self, text: str, status: Optional[int] = None) -> None:
        super().__init__(text)
        self.status = status


class BudgetUsedUp(ProgramError):
    """The program's budget of mergers is used up (its status 3)."""


# How a note begins that warns.
WARNING = "WARNING: "


class PlanWarning(UserWarning):
    """Something that a planner should check before using the results."""


class InputWarning(PlanWarning):
    """The block model, a survey file, prices or units look wrong."""


class ResultWarning(PlanWarning):
    """A result is limited: a shell reaches the edge of the model, a search was interrupted, or a width changed a pushback a lot."""

"""What shells, pushbacks and schedules have in common: notes, tables, and a part of the record."""

from __future__ import annotations

from abc import ABC, abstractmethod
from collections.abc import Sequence
from typing import TYPE_CHECKING, Any, Optional, TypeVar

import pandas as pd

from pitplan.core.progress import warn
from pitplan.errors import ResultWarning

if TYPE_CHECKING:
    from pitplan.pushbacks.nested import Pushbacks
    from pitplan.scheduling.schedule import Schedule

    from .shells import Shells

Made = TypeVar("Made", bound="Answer")


class Answer(ABC):
    """The answer of a plan: shells, pushbacks or a schedule. It has an attribute or property `notes`, what a planner should know of it."""

    notes: Any

    @property
    @abstractmethod
    def as_shells(self) -> Shells:
        """The shells from which it is made."""

    @property
    def as_pushbacks(self) -> Optional[Pushbacks]:
        return None

    @property
    def as_schedule(self) -> Optional[Schedule]:
        return None

    @property
    def all_notes(self) -> Sequence[str]:
        """The notes that the record has: with those of what it is made from."""
        return [*self.notes, *self.as_shells.notes]

    @abstractmethod
    def tables(self) -> dict[str, pd.DataFrame]:
        """The tables by name, with those of what it is made from."""

    @abstractmethod
    def summary(self) -> dict[str, Any]:
        """The part of the record plan.json."""

    def warned(self: Made) -> Made:
        """The answer, after warnings as its notes have them."""
        warn(self.notes, ResultWarning)
        return self

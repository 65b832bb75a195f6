"""What schedules of pushbacks and by block have in common: their cash flow by line, and price paths."""

from __future__ import annotations

from abc import abstractmethod
from dataclasses import dataclass, field, replace
from functools import cached_property
from pathlib import Path
from typing import TYPE_CHECKING, Any, Optional, TypeVar

import pandas as pd

from pitplan.core import paths
from pitplan.core.progress import Progress
from pitplan.errors import WARNING, PlanError
from pitplan.pits.answer import Answer
from pitplan.plan import Plan
from pitplan.scheduling import price_paths
from pitplan.scheduling.certificate import Certified
from pitplan.scheduling.price_paths import PriceScenarios

if TYPE_CHECKING:
    from pitplan.scheduling.cash_flow.lines import Operation
    from pitplan.scheduling.cash_flow.tables import Finance

Made = TypeVar("Made", bound="Schedule")


@dataclass(frozen=True, eq=False, repr=False)
class Schedule(Answer):
    """A yearly schedule.

    Attributes
    ----------
    certified : Certified, optional
        What is proved of the method that is shown; None if there is no certificate.
    uncertified : tuple of str
        Why there is no certificate although one was asked for.
    """

    certified: Optional[Certified] = field(default=None, kw_only=True)
    uncertified: tuple[str, ...] = field(default=(), kw_only=True)

    @property
    @abstractmethod
    def plan(self) -> Plan:
        """The plan, with the rules of `[schedule]`."""

    @property
    @abstractmethod
    def shown(self) -> str:
        """The method whose years the blocks have."""

    @property
    @abstractmethod
    def record(self) -> dict[str, Any]:
        """What the record of the schedule has."""

    @property
    @abstractmethod
    def years(self) -> pd.DataFrame:
        """One row per method and year: the annual cash flow."""

    @property
    @abstractmethod
    def finances(self) -> list[Finance]:
        """The cash flow of each method."""

    @property
    @abstractmethod
    def operation(self) -> Operation:
        """What the method that is shown mines and feeds."""

    @property
    @abstractmethod
    def feed(self) -> pd.DataFrame:
        """One row per method, year and process: feed, head grades, metals and cut-offs."""

    @property
    @abstractmethod
    def limits(self) -> pd.DataFrame:
        """One row per method, year and limit: use, minimum, maximum and shadow price."""

    @property
    @abstractmethod
    def material_flows(self) -> pd.DataFrame:
        """Flows by method, year, source and destination."""

    @property
    @abstractmethod
    def last_years(self) -> dict[str, int]:
        """The last year of each method."""

    @property
    @abstractmethod
    def material_tables(self) -> dict[str, pd.DataFrame]:
        """Tables of material by name, the inventory among them; a workbook has these."""

    @abstractmethod
    def proved(self: Made, stage: Path, program: Optional[Path]) -> Made:
        """Writes the certificate into a folder, and returns the schedule with what the program proves.

        Raises
        ------
        PlanError
            If the texts cannot state the problem.
        ProgramError
            If the program does not prove the texts.
        """

    def certified_in(self: Made, stage: Path, progress: Progress) -> Made:
        """Returns the schedule with its certificate in a folder. If the texts cannot state the problem, a note has the reason."""
        with progress.step("certifying the schedule"):
            try:
                return self.proved(stage, paths.schedule_program())
            except PlanError as error:
                return replace(self, uncertified=(f"{WARNING}{error}",))

    @property
    def as_schedule(self) -> Schedule:
        """Itself."""
        return self

    @cached_property
    def on_price_paths(self) -> Optional[PriceScenarios]:
        """The method that is shown on price paths; None without `[price_paths]`, or if nothing is mined."""
        rules, operation = self.plan.project.price_paths, self.operation
        if rules is None or not operation.years:
            return None
        finance = next(it for it in self.finances if it.statement.method == self.shown)
        return PriceScenarios(rules, operation, finance)

    @property
    def money_tables(self) -> dict[str, pd.DataFrame]:
        """The cash flow by line, the valuation, and with `[price_paths]` the NPV by path and its quantiles."""
        from pitplan.scheduling.cash_flow import tables

        flow = tables.cash_flow_table(self.finances)
        found = {"cash_flow": flow, "valuation": tables.valuation_table(self.plan.project, self.finances)}
        if self.on_price_paths is not None:
            found["price_paths"] = price_paths.path_table(self.on_price_paths)
            found["price_path_quantiles"] = price_paths.quantile_table(self.on_price_paths, self.shown)
        return found

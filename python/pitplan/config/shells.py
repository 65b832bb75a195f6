"""`[shells]` and `[pushbacks]`: revenue factors, yearly capacities, discounting, and the division of the pit into pushbacks."""

from __future__ import annotations

import math
from dataclasses import dataclass
from decimal import Decimal
from typing import Optional

from .keys import amount, choice, factor, factors, key, listed, new, number, table, whole
from .periods import Calendar

MOST_FACTORS, MOST_LAG = 1_000, 1_000

# When the cash of a year flows, in words. Without a key it is the first, as the function NPV of spreadsheets does it.
IN_WORDS = {
    "end_of_year": "from the end of each year",
    "mid_year": "from the middle of each year",
    "continuous": "evenly through each year",
}

DISCOUNTINGS = tuple(IN_WORDS)


@dataclass(frozen=True)
class SpecifiedCase:
    """Pushbacks that are mined one after the other, each some benches behind the one before; the shell itself is the last one."""

    pushbacks: tuple[float, ...] = key(factors(), "revenue factors of the pushbacks, each one of `revenue_factors`")
    bench_lag: int = key(whole(0, MOST_LAG), "benches by which a pushback is behind the one before", 0)


@dataclass(frozen=True)
class ShellRules:
    """Revenue factors, and the terms of discounting: a yearly rate, yearly capacities in tonnes, and when the cash of a year flows.

    Attributes
    ----------
    base_price_added : bool
        Whether 1.0 was added to the project's own factors.
    per_process : tuple of float
        The yearly capacity of each of several processes; `processing_capacity` is their sum.
    calendar : Calendar
        What differs between years.
    names : tuple of str
        The names of these processes.
    """

    revenue_factors: tuple[float, ...] = key(
        factors(),
        f"list, or `{{ from = .., to = .., step = .. }}`, with a step no larger than their distance; 0 to 100, {MOST_FACTORS:,} at most; 1.0 is always added",
        in_python=(),
    )
    selected: Optional[float] = key(
        factor(),
        "revenue factor of the selected shell, one of `revenue_factors`",
        None,
        "revenue factor",
        otherwise="[by NPV](../planning/shells.md#the-selected-shell)",
        label="Selected shell",
    )
    discount_rate: float = key(
        amount(0, 1, example="0.08 for 8 % a year"), "discount rate", unit="share per year", in_python=0.0
    )
    processing_capacity: float = key(
        amount(1), "processing capacity", unit="t of mill feed/year", of_processes="capacity", in_python=0.0
    )
    mining_capacity: Optional[float] = key(
        amount(1), "mining capacity", None, "t mined/year", otherwise="waste takes no time"
    )
    discounting: str = key(choice(*DISCOUNTINGS), "when the cash of a year flows", DISCOUNTINGS[0])
    base_price_added: bool = False
    per_process: tuple[float, ...] = ()
    specified: Optional[SpecifiedCase] = new(
        table(SpecifiedCase),
        f"third case: `{{ pushbacks = [..], bench_lag = 0 }}`; lag up to {MOST_LAG:,} benches",
        None,
    )
    calendar: Calendar = Calendar()
    names: tuple[str, ...] = ()

    @property
    def capacities(self) -> tuple[float, ...]:
        return self.per_process or (self.processing_capacity,)

    @property
    def capacities_by_year(self) -> tuple[tuple[float, ...], ...]:
        """The capacity of each process in each year; the last continues."""
        if not self.names:
            by_year = self.calendar.by_year(lambda it: it.processing_capacity, self.processing_capacity)
            return tuple((amount,) for amount in by_year)
        of_processes = [
            self.calendar.by_name(lambda it: it.capacity, name, most)
            for name, most in zip(self.names, self.per_process)
        ]
        return tuple(zip(*of_processes))

    @property
    def mining_by_year(self) -> tuple[float, ...]:
        """The mining capacity of each year, infinite without one; the last continues."""
        base = math.inf if self.mining_capacity is None else self.mining_capacity
        return self.calendar.by_year(lambda it: it.mining_capacity, base)


MOST_PUSHBACKS = 100
LEAST_FACTOR = 0.001
WAYS = ("count", "tonnes", "revenue_factors")


@dataclass(frozen=True)
class PushbackRules:
    """How a pit is divided into pushbacks: by one of count, tonnes and revenue_factors; the other two are None."""

    count: Optional[int] = key(
        whole(1, MOST_PUSHBACKS),
        "number of pushbacks with even tonnage",
        None,
        "pushbacks",
        otherwise="",
        label="Number of pushbacks",
    )
    tonnes: Optional[float] = key(amount(above=0), "about the tonnage of each", None, "t mined", otherwise="")
    revenue_factors: Optional[tuple[float, ...]] = key(
        factors(LEAST_FACTOR, MOST_PUSHBACKS), "those of the pushbacks' shells", None, otherwise=""
    )
    ultimate_pit: Optional[float] = key(
        factor(LEAST_FACTOR),
        "revenue factor of the last shell; not with `revenue_factors`",
        None,
        "revenue factor",
        otherwise="the selected shell",
    )
    min_mining_width: Optional[float] = key(
        amount(above=0),
        "minimum width of a pushback on each bench",
        None,
        "m",
        otherwise="any",
        label="Minimum mining width",
    )
    min_bottom_width: Optional[float] = key(
        amount(above=0),
        "minimum width of the pit up to each pushback on each bench",
        None,
        "m",
        otherwise="any",
        label="Minimum bottom width",
    )
    mining_cost_added: tuple[Decimal, ...] = new(
        listed(number(0), "of the added cost per tonne of each pushback, such as [0, 0.15]"),
        "added mining cost, a list by pushback",
        (),
        "{currency}/t mined",
    )

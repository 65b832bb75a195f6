"""What `[schedule]` of a project says: the limits of a year, and how pushbacks follow each other."""

from __future__ import annotations

from dataclasses import dataclass
from typing import Optional

from .keys import amount, by_name, key, listed, new, table, tables, text, truth, whole, word
from .material import FEED as HEAD_GRADES, FeedGrade, Stockpile

MOST_YEARS, MOST_BENCHES = 200, 1_000
MOST_BINS = 50
MOST_SECONDS = 7 * 24 * 3600
TOTAL, FEED = "total", "feed"


@dataclass(frozen=True)
class Effort:
    """When an integer programme is good enough; it may take for ever without a limit of time."""

    gap: float = key(amount(0, below=1, example="0.01 for 1 %"), "gap to the bound, as a share of it", 0.0)
    seconds: Optional[float] = key(
        whole(1, MOST_SECONDS).then(float, range="", write=lambda it, _: int(it)),
        "seconds after which it ends",
        in_python=None,
    )


@dataclass(frozen=True)
class Sum:
    """A sum of a column of the table, by year, of every mined block, of the mill feed, or of the feed of a process."""

    name: str = key(word, "name of the limit", "", otherwise="the column's name", label="Limit")
    column: str = key(text, "any column of the table", in_python="")
    of: str = key(text, f'material counted: `"{FEED}"`, `"{TOTAL}"` or a process', TOTAL)
    per_tonne: bool = new(
        truth,
        "multiply the column by tonnes: of feed those of the ore without dilution",
        False,
        otherwise="`false`: it is per block",
    )
    min: Optional[float] = key(amount(), "least of each year", None, otherwise="any")
    max: Optional[float] = key(amount(), "most of each year", None, otherwise="any")

    def __post_init__(self) -> None:
        object.__setattr__(self, "name", self.name or self.column)


@dataclass(frozen=True)
class ScheduleRules:
    processing_capacity: Optional[float] = key(
        amount(1), "processing capacity", None, "t of mill feed/year", otherwise="that of `[shells]`"
    )
    mining_capacity: Optional[float] = key(
        amount(1), "mining capacity", None, "t mined/year", otherwise="that of `[shells]`"
    )
    vertical_advance_rate: Optional[float] = key(
        amount(above=0), "vertical advance rate", None, "benches/year and pushback", otherwise="any"
    )
    bench_lag: int = key(
        whole(0, MOST_BENCHES),
        "least number of benches between successive pushbacks",
        0,
        "benches",
        label="Bench lag between pushbacks",
    )
    ramp_up: tuple[float, ...] = key(
        listed(amount(0, 1), "of shares of processing_capacity, one a year, such as [0.5, 0.8, 1.0]").where(
            lambda it: it[-1] > 0, "found 0 as the last share, which applies to all later years: expected above 0"
        ),
        "shares of `processing_capacity` in the first years; the last one, above 0, stays",
        (1.0,),
    )
    years: Optional[int] = key(
        whole(1, MOST_YEARS),
        "most years; required with a minimum",
        None,
        "years",
        otherwise="a fifth more than the rule takes",
        label="Life of mine at most",
    )
    bins: Optional[int] = key(
        whole(1, MOST_BINS), "value bins of each process", None, "", otherwise="8", label="Value bins of each process"
    )
    milp: Optional[Effort] = key(
        table(Effort),
        f"also solve an integer programme: `{{ gap = 0.01, seconds = 600 }}`; gap 0 to below 1, seconds 1 to {MOST_SECONDS:,} (a week)",
        None,
    )
    stockpiles: tuple[Stockpile, ...] = new(
        tables(Stockpile), "list of stockpiles, below; `stockpile` is one of them", (), short="stockpile"
    )
    max_metal_per_year: dict[str, float] = key(
        by_name(amount(above=0)), "recovered metal by name: t, or g for grades in g/t", {}, otherwise="any"
    )
    minimum: dict[str, float] = key(
        by_name(amount()), "per year: `feed` (scaled by `ramp_up`), `total`, a metal, or the feed of a process", {}
    )
    limits: tuple[Sum, ...] = key(tables(Sum), "list of sums, below", ())
    feed: tuple[FeedGrade, ...] = new(
        HEAD_GRADES, "[limits of the feed](#limits-of-the-feed), without `[[processes]]`", ()
    )

    def columns_of(self, per_tonne: bool) -> tuple[str, ...]:
        """The columns of sums that are multiplied by tonnes, or those of the whole block."""
        return tuple(dict.fromkeys(it.column for it in self.limits if it.per_tonne == per_tonne))

    @property
    def asks_least(self) -> bool:
        """Whether a year must hold something at least."""
        return bool(self.minimum) or any(it.min for it in self.limits)

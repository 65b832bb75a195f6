"""Random mines that are scheduled under all rules at once."""

from dataclasses import dataclass, field, replace
from typing import Optional

import numpy as np
import pandas as pd
from conftest import rows

from .random_money import MINING, PRICE, Terms, random_terms

YEARS, DISCOUNT = 3, 0.1


@dataclass(frozen=True)
class Process:
    cost: float
    recovery: float


# The rock type that a process or stockpile accepts; of none it accepts all.
Accepts = Optional[str]


def accepting(accepts: Accepts) -> str:
    return "" if accepts is None else f'accepts = {{ rock_type = "{accepts}" }}\n'


PROCESSES = {"mill": Process(10.0, 0.5), "leach": Process(3.0, 0.2)}


@dataclass(frozen=True)
class Between:
    """The least and the most of something; None without a limit."""

    least: Optional[float] = None
    most: Optional[float] = None

    def times(self, length: float) -> "Between":
        """Returns the yearly limits for a period of `length` years."""
        return Between(*(None if it is None else it * length for it in (self.least, self.most)))

    @property
    def keys(self) -> str:
        return ", ".join(f"{key} = {it}" for key, it in (("min", self.least), ("max", self.most)) if it is not None)


FREE = (Between(),) * YEARS


@dataclass(frozen=True)
class Dump:
    """takes is what it takes in each year; of no rock type it accepts all."""

    cost: float
    capacity: Optional[float] = None
    accepts: Accepts = None
    takes: tuple[Between, ...] = FREE

    def text(self, name: str) -> str:
        found = f'[[dumps]]\nname = "{name}"\ncost = {self.cost}\n'
        found += "" if self.capacity is None else f"capacity = {self.capacity}\n"
        return found + accepting(self.accepts)


@dataclass(frozen=True)
class Lot:
    """Ore that lies on a stockpile at the start, of rock type A."""

    tonnes: float
    grades: dict[str, float]

    def keys(self, used: set[str]) -> str:
        """The lot with the grades and codes that the project uses."""
        grades = "".join(f"{name} = {grade}, " for name, grade in self.grades.items() if name in used)
        code = "class = 'measured', " if "class" in used else ""
        return f"opening = {{ tonnes = {self.tonnes}, {grades}{code}rock_type = 'A' }}\n"

    @property
    def table(self) -> pd.DataFrame:
        return pd.DataFrame([{"tonnes": self.tonnes, "rock": "A"} | self.grades])


@dataclass(frozen=True)
class Pile:
    """A stockpile; recovery is the share that remains after reclaim, and holds is what lies there at the end of each year."""

    reclaim: float
    stacking: float
    recovery: float
    capacity: Optional[float] = None
    opening: Optional[Lot] = None
    holds: tuple[Between, ...] = FREE
    accepts: Accepts = None

    def text(self, name: str, used: set[str]) -> str:
        found = f'[[schedule.stockpiles]]\nname = "{name}"\nreclaim_cost = {self.reclaim}\nstacking_cost = {self.stacking}\n'
        found += f"recovery = {{ copper = {self.recovery} }}\n"
        found += "" if self.capacity is None else f"capacity = {self.capacity}\n"
        return found + accepting(self.accepts) + ("" if self.opening is None else self.opening.keys(used))


@dataclass(frozen=True)
class Head:
    """Limits on the feed of a process: on a head grade, or on the share of rock type B, by year."""

    process: str
    column: str
    by_year: tuple[Between, ...]

    def text(self, year: int) -> str:
        keys = self.by_year[year].keys
        if not keys:
            return ""
        return (
            f"{self.column} = {{ B = {{ {keys} }} }}" if self.column == "rock_type" else f"{self.column} = {{ {keys} }}"
        )


@dataclass(frozen=True)
class Sum:
    """A limit on clay by what counts: all material, feed, or that of a process."""

    of: str
    between: Between

    @property
    def text(self) -> str:
        keys = self.between.keys.replace(", ", "\n")
        return f'[[schedule.limits]]\nname = "clay_{self.of}"\ncolumn = "clay"\nof = "{self.of}"\nper_tonne = true\n{keys}\n'


@dataclass(frozen=True)
class Mine:
    """A table, and the rules of its project; amounts are per year, and where they are lists by year.

    accepts   the rock type that the other process accepts beside the mill
    months    of each period
    minimum   the least feed
    copper    the most recovered copper; None without a limit
    pushbacks how many there are; None if blocks are scheduled alone, for which the rest is not given
    lag       by how many benches a pushback stays below the next
    sinks     the most benches by which a pushback sinks in a year; None without a limit
    terms     of revenue and cost
    price     of copper, by which ore is separated from waste
    must, out whether the table's columns `must` and `out` say which blocks are mined in any case, and which never
    """

    table: pd.DataFrame
    rock: float
    capacities: dict[str, float]
    accepts: Accepts
    dumps: dict[str, Dump]
    prices: list[float]
    mining_factors: list[float]
    heads: list[Head]
    sums: list[Sum]
    fixed: float
    minimum: float
    copper: Optional[float]
    months: tuple[int, ...]
    pushbacks: Optional[int] = None
    piles: dict[str, Pile] = field(default_factory=dict)
    lag: int = 0
    sinks: Optional[float] = None
    ramp_up: tuple[float, ...] = (1.0,)
    terms: Terms = Terms()
    must: bool = False
    out: bool = False
    price: float = PRICE

    @property
    def text(self) -> str:
        """The project."""
        processes = "".join(
            f'[[processes]]\nname = "{name}"\ncost = {it.cost}\ncapacity = {self.capacities[name]}\n'
            + self.terms.recoveries(name, it.recovery)
            + (accepting(self.accepts) if name == "leach" else "")
            for name, it in PROCESSES.items()
        )
        dumps = "".join(it.text(name) for name, it in self.dumps.items())
        return f"""[table]
file = "blocks.csv"
id = "name"
rock_type = "rock"
{'class = "class"' if self.terms.inferred else ""}
[grid]
size = [10, 10, 10]
[economics]
mining_cost = {MINING}
fixed_cost_per_year = {self.fixed}
{self.terms.economics}[[metals]]
name = "copper"
column = "cu"
unit = "percent"
price = {PRICE}
{self.terms.metals}{processes}[slopes]
precedence_benches = 1
[[slopes.domains]]
angle = 90
[shells]
revenue_factors = [0.3, 0.45, 0.6, 0.75, 1.0]
discount_rate = {DISCOUNT}
discounting = "end_of_year"
mining_capacity = {self.rock}
[schedule]
years = {sum(self.months) // 12}
milp = {{ gap = 0.0000001, seconds = 100 }}
{self.rules}{dumps}{"".join(map(self.period, self.entries))}{self.divided}{self.fixed_blocks}{self.terms.haulage.text if self.terms.haulage else ""}"""

    @property
    def fixed_blocks(self) -> str:
        """The section of blocks that are mined in any case, or never."""
        keys = ('must_mine = "must"\n' if self.must else "") + ('exclude = "out"\n' if self.out else "")
        return f"[constraints]\n{keys}" if keys else ""

    @property
    def rules(self) -> str:
        """The keys of [schedule]."""
        rules = f"minimum = {{ feed = {self.minimum} }}\n" if self.minimum else ""
        rules += f"max_metal_per_year = {{ copper = {self.copper} }}\n" if self.copper else ""
        sums = "".join(it.text for it in self.sums)
        if self.pushbacks is not None:
            rules += f"bins = 50\nbench_lag = {self.lag}\nramp_up = {list(self.ramp_up)}\n"
            rules += "" if self.sinks is None else f"vertical_advance_rate = {self.sinks}\n"
        used = {"cu"} | {head.column for head in self.heads if any(it.keys for it in head.by_year)}
        used |= {"clay" for it in self.sums if it.of != "total"}
        used |= self.terms.columns
        return rules + "".join(it.text(name, used) for name, it in self.piles.items()) + sums

    @property
    def divided(self) -> str:
        """The section of the pushbacks."""
        return "" if self.pushbacks is None else f"[pushbacks]\ncount = {self.pushbacks}\n"

    def period(self, year: int) -> str:
        found = f"[[periods]]\nperiod_months = {self.months[year]}\n"
        found += "" if self.terms.haulage else f"mining_cost_factor = {self.mining_factors[year]}\n"
        found += self.terms.prices(self.prices[year], year) + self.terms.period(year)
        of_processes = {name: [it.text(year) for it in self.heads if it.process == name] for name in PROCESSES}
        feed = {name: ", ".join(filter(None, texts)) for name, texts in of_processes.items()}
        dumps = {name: it.takes[year].keys for name, it in self.dumps.items()}
        piles = {name: it.holds[year].keys for name, it in self.piles.items()}
        for key, by_name in {"feed": feed, "dumps": dumps, "stockpiles": piles}.items():
            given = ", ".join(f"{name} = {{ {keys} }}" for name, keys in by_name.items() if keys)
            found += f"{key} = {{ {given} }}\n" if given else ""
        return found

    @property
    def entries(self) -> list[int]:
        """The periods with an entry of their own: one of half-years lasts two."""
        return [year for year in range(YEARS) if self.months[year] == 12 or year % 2 == 0]

    @property
    def lengths(self) -> np.ndarray:
        """The years that each period lasts."""
        return np.array(self.months) / 12

    def share(self, year: int) -> float:
        """The share of yearly capacities and minimums of feed that a period has."""
        return float(self.ramp_up[min(year, len(self.ramp_up) - 1)] * self.lengths[year])


class Draws:
    """Random numbers of a mine."""

    def __init__(self, seed: int) -> None:
        self.rng = np.random.default_rng(seed)

    def maybe(self, chance: float, least: float, most: float) -> Optional[float]:
        """A number with one decimal, with this chance."""
        value = round(float(self.rng.uniform(least, most)), 1)
        return value if self.rng.random() < chance else None

    def rock(self, chance: float) -> Accepts:
        """A rock type, with this chance."""
        return str(self.rng.choice(["A", "B"])) if self.rng.random() < chance else None

    def table(self, columns: int, levels: int) -> pd.DataFrame:
        rng, grades = self.rng, (0, 0, 0.1, 0.2, 0.4, 0.7, 1.1)
        return rows(
            columns,
            1,
            levels,
            tonnes=lambda *at: int(rng.integers(6, 14)) * 10,
            cu=lambda *at: float(rng.choice(grades)),
            as_ppm=lambda *at: float(rng.integers(0, 200)),
            clay=lambda *at: float(rng.integers(0, 5)),
            rock=lambda *at: str(rng.choice(["A", "B"])),
        )

    def dumps(self) -> dict[str, Dump]:
        least = 0.15 if self.rng.random() < 0.3 else 0.0
        takes = tuple(Between(self.maybe(least, 5, 20), self.maybe(0.4, 20, 150)) for _ in range(YEARS))
        near = Dump(0.5, self.maybe(0.6, 50, 400), "A" if self.rng.random() < 0.4 else None, takes)
        return {"near": near, "far": Dump(float(self.rng.integers(1, 6)))}

    def heads(self) -> list[Head]:
        arsenic = tuple(Between(None, self.maybe(0.4, 60, 150)) for _ in range(YEARS))
        found = [Head("mill", "as_ppm", arsenic)]
        if self.rng.random() < 0.2:
            found.append(Head("mill", "cu", (Between(self.maybe(1.0, 0.1, 0.5)),) * YEARS))
        if self.rng.random() < 0.2:
            found.append(Head("leach", "rock_type", (Between(None, self.maybe(1.0, 0.2, 0.8)),) * YEARS))
        return found

    def sums(self) -> list[Sum]:
        of = str(self.rng.choice(["total", "feed", "mill"]))
        between = Between(self.maybe(0.2, 10, 80), self.maybe(0.6, 100, 600))
        return [Sum(of, between)] if between.keys and self.rng.random() < 0.4 else []

    def pile(self) -> Pile:
        rng, capacity = self.rng, self.maybe(0.4, 20, 150)
        tonnes = min(float(rng.integers(2, 9) * 10), np.inf if capacity is None else capacity)
        grades = {
            "cu": float(rng.choice([0.2, 0.5, 0.9])),
            "as_ppm": float(rng.integers(0, 200)),
            "clay": 2.0,
            "au": 0.5,
        }
        lot = Lot(tonnes, grades)
        limited = 0.3 if rng.random() < 0.3 else 0.0
        return Pile(
            reclaim=float(rng.choice([0.5, 2.0])),
            stacking=float(rng.choice([0.0, 0.3])),
            recovery=float(rng.choice([1.0, 0.9])),
            capacity=capacity,
            opening=lot if rng.random() < 0.4 else None,
            holds=tuple(Between(self.maybe(limited / 3, 5, 15), self.maybe(limited, 15, 60)) for _ in range(YEARS)),
            accepts=self.rock(0.3),
        )

    def mine(self, columns: int, levels: int) -> Mine:
        rng = self.rng
        dumps = self.dumps()
        return Mine(
            self.table(columns, levels),
            rock=float(rng.integers(20, 60) * 10),
            capacities={name: float(rng.integers(6, 25) * 10) for name in PROCESSES},
            accepts=self.rock(0.2),
            dumps=dumps if rng.random() < 0.8 else {},
            prices=[float(PRICE * rng.choice([0.8, 1.0, 1.2])) for _ in range(YEARS)],
            mining_factors=[float(rng.choice([0.9, 1.0, 1.3])) for _ in range(YEARS)],
            heads=self.heads(),
            sums=self.sums(),
            fixed=float(rng.choice([0, 0, 50, 300])),
            minimum=float(rng.integers(2, 9) * 10) if rng.random() < 0.3 else 0.0,
            copper=self.maybe(0.1, 10, 30),
            months=(12,) * YEARS,
        )


def with_half_years(mine: Mine) -> Mine:
    """The same mine with two half-years in place of its first year, and one year more."""

    def alike(of_years):
        return type(of_years)([of_years[0], of_years[0], of_years[2]])

    return replace(
        mine,
        months=(6, 6, 12),
        ramp_up=(1.0,),
        prices=alike(mine.prices),
        mining_factors=alike(mine.mining_factors),
        terms=mine.terms.in_periods(alike),
        heads=[replace(it, by_year=alike(it.by_year)) for it in mine.heads],
        dumps={name: replace(it, takes=alike(it.takes)) for name, it in mine.dumps.items()},
        piles={name: replace(it, holds=alike(it.holds)) for name, it in mine.piles.items()},
    )


def with_terms(mine: Mine, seed: int) -> Mine:
    """The same mine with terms of revenue and cost, gold and classes."""
    rng, count = np.random.default_rng(seed), len(mine.table)
    gold, classes = rng.choice([0.0, 0.3, 1.0, 2.0], count), rng.choice(["measured", "measured", "inferred"], count)
    terms, table = random_terms(seed, YEARS), mine.table.assign(au=gold, **{"class": classes})
    table = table.assign(mcaf=rng.choice([1.0, 1.25, 0.5], count), pcaf=rng.choice([1.0, 0.9, 1.3], count))
    # The last column of blocks may have one that is mined in any case, and the first one that is never mined.
    must = (table["x"] == table["x"].max()) & (table["z"] == rng.choice(table["z"].unique()))
    out = (table["x"] == table["x"].min()) & (table["z"] == rng.choice(table["z"].unique()))
    factors = [1.0] * YEARS if terms.haulage else mine.mining_factors
    fixed = {"must": bool(rng.random() < 0.3), "out": bool(rng.random() < 0.3)}
    table = table.assign(must=must.astype(int), out=out.astype(int))
    return replace(mine, terms=terms, table=table, mining_factors=factors, **fixed)


def certifiable(mine: Mine) -> Mine:
    """The same mine with the same prices and costs in all years, no costs of years, and no dumps of pushbacks: what a certificate can state."""
    return replace(
        mine,
        prices=[PRICE] * YEARS,
        mining_factors=[1.0] * YEARS,
        fixed=0.0,
        terms=mine.terms.every_year,
        dumps=mine.dumps if mine.pushbacks is None else {},
    )


def random_mine(seed: int) -> Mine:
    """A mine of 4 to 12 blocks that is scheduled by block."""
    draws = Draws(seed)
    mine = draws.mine(int(draws.rng.integers(2, 5)), int(draws.rng.integers(2, 4)))
    mine = with_terms(mine, seed) if seed % 2 else mine
    return with_half_years(mine) if draws.rng.random() < 0.3 else mine


def random_stockpile_mine(seed: int) -> Mine:
    """The mine of `random_mine` with one or two stockpiles."""
    draws, mine = Draws(seed + 10**6), random_mine(seed)
    names = ["low", "high"][: int(draws.rng.integers(1, 3))]
    mine = replace(mine, piles={name: draws.pile() for name in names})
    holds = {
        name: it.holds[:1] * 2 + it.holds[2:] if mine.months[0] == 6 else it.holds for name, it in mine.piles.items()
    }
    return replace(mine, piles={name: replace(it, holds=holds[name]) for name, it in mine.piles.items()})


def random_pushback_mine(seed: int) -> Mine:
    """A mine of 6 to 20 blocks that is scheduled by pushback."""
    draws = Draws(seed)
    rng = draws.rng
    mine = draws.mine(int(rng.integers(3, 6)), int(rng.integers(2, 5)))
    names = ["low", "high"][: int(rng.integers(0, 3))]
    mine = replace(
        mine,
        pushbacks=2,
        piles={name: draws.pile() for name in names},
        lag=int(rng.integers(0, 2)),
        sinks=float(rng.choice([1.0, 1.5])) if rng.random() < 0.3 else None,
        ramp_up=(float(rng.choice([0.5, 0.8])), 1.0) if rng.random() < 0.3 else (1.0,),
    )
    mine = with_terms(mine, seed) if seed % 2 else mine
    return with_half_years(mine) if rng.random() < 0.3 else mine

"""A schedule as the texts that the proved program `pitschedule` checks: the problem, its precedences, the schedule and prices of its limits."""

from __future__ import annotations

import math
import subprocess
from collections.abc import Iterable, Mapping, Sequence
from dataclasses import dataclass
from pathlib import Path
from typing import Any, Optional

import numpy as np
from numpy.typing import NDArray

from pitplan.config.project import Project
from pitplan.core import layout
from pitplan.core.atomic_files import hash_of
from pitplan.core.tolerances import SOLVER_SUM
from pitplan.economics.period_costs import of_project
from pitplan.errors import PlanError, ProgramError
from pitplan.solver.choice import is_proved

from .block_precedences import BlockPrecedences
from .methods import PROVED

# Numbers of the texts are millionths.
UNIT = 10**6
# The number of the form in the title of each text.
FORM = 2
# The greatest amount, capacity and price that the program reads, and how many nodes, destinations, columns, terms and capacities.
MOST_AMOUNT, MOST_CAPACITY, MOST_PRICE = 10**16, 10**18, 10**15
MOST_NODES, MOST_DESTINATIONS, MOST_COLUMNS, MOST_TERMS, MOST_CAPACITIES = 4_194_304, 64, 1_024, 1_024, 65_536
# The sum of a minimum may lack SOLVER_SUM of all amounts in it, and this part of each block for rounding; the text then has what is used.
ROUNDING = 2e-6
# So often shares are rounded down at most, each by a millionth at a time.
ROUNDS = 50
WHOLE = "the schedule has no certificate"
# What the lines of the program's answer begin with.
ANSWER = ["SCHEDULE", "VALUE", "WHOLE BLOCKS", "BOUND"]
# What a note says of a schedule of whole blocks, and of another.
WHOLE_BLOCKS = "Each block of the texts is mined whole in one period, not before its predecessors, or never"
PARTS_OF_BLOCKS = "Blocks of the texts are mined in parts, and a part may be mined before the rest of a predecessor"
# The destination of waste.
WASTE = 0


@dataclass(frozen=True)
class Term:
    """What each block adds to its value or to a limit if it is sent to a destination.

    Attributes
    ----------
    destination : int
    amounts : int array, shape (blocks,)
        In millionths.
    lag : int
        How many periods after mining it counts.
    """

    destination: int
    amounts: NDArray[np.int64]
    lag: int = 0


@dataclass(frozen=True)
class CertificateLimit:
    """A limit of the texts.

    Attributes
    ----------
    terms : tuple of Term
        What blocks use.
    capacity : int array, shape (periods,)
        In millionths.
    price : int array, shape (periods,)
        0 or more, in millionths.
    """

    terms: tuple[Term, ...]
    capacity: NDArray[np.int64]
    price: NDArray[np.int64]


@dataclass(frozen=True)
class Shares:
    """The shares of blocks, one place after the other; each array has the shape (places,).

    Attributes
    ----------
    block, period, destination : int array
    share : int array
        In millionths.
    """

    block: NDArray[np.int64]
    period: NDArray[np.int64]
    destination: NDArray[np.int64]
    share: NDArray[np.int64]

    def wasting(self, places: NDArray[np.int64]) -> Shares:
        """Returns the shares with a millionth of each of these places in the waste of its block and period."""
        share = self.share.copy()
        share[places] -= 1
        waste, ones = np.full(len(places), WASTE), np.ones(len(places), dtype=np.int64)
        parts = (
            (self.block, self.block[places]),
            (self.period, self.period[places]),
            (self.destination, waste),
            (share, ones),
        )
        keys, values = np.stack([np.append(*it) for it in parts[:3]]), np.append(*parts[3])
        (block, period, destination), at = np.unique(keys, axis=1, return_inverse=True)
        sums = np.bincount(at.ravel(), values).astype(np.int64)
        some = sums > 0
        return Shares(block[some], period[some], destination[some], sums[some])

    def of(self, destination: int) -> Shares:
        some = self.destination == destination
        return Shares(self.block[some], self.period[some], self.destination[some], self.share[some])


@dataclass(frozen=True)
class Certificate:
    """What is certified.

    Attributes
    ----------
    destinations : int
        How many there are.
    values : tuple of Term
        What blocks are worth, before discounting.
    discounts : int array, shape (periods,)
        Discount factors, in millionths.
    rows : tuple of CertificateLimit
        The limits.
    precedences : BlockPrecedences
    shares : Shares
    unit : int
        How many units of the currency one of the texts is; a power of ten.
    """

    destinations: int
    values: tuple[Term, ...]
    discounts: NDArray[np.int64]
    rows: tuple[CertificateLimit, ...]
    precedences: BlockPrecedences
    shares: Shares
    unit: int = 1

    def counts(self, *words: str) -> dict[str, int]:
        """Returns counts of the problem by their words in the texts."""
        found = {
            "BLOCKS": len(self.precedences.starts) - 1,
            "PERIODS": len(self.discounts),
            "DESTINATIONS": self.destinations,
            "LIMITS": len(self.rows),
        }
        return {word: found[word] for word in words}


@dataclass(frozen=True)
class Certified:
    """What the program has found of the texts: a proof, if the build recorded the program as proved.

    Attributes
    ----------
    value, bound : float, optional
        The value of the schedule, rounded down, and the most that any schedule is worth, rounded up; None if the program is not installed.
    is_whole : bool, optional
        Whether each block of the texts is mined whole in one period, or never; None if the program is not installed.
    destinations : tuple
        Of the texts, in their order: stockpile, process, and the years until the process takes the ore.
    limits : tuple
        Of the texts, in their order: name and side.
    unit : int
        How many units of the currency one of the texts is.
    recorded : bool
        Whether the build recorded the SHA-256 of the program.
    """

    value: Optional[float]
    bound: Optional[float]
    is_whole: Optional[bool] = None
    destinations: tuple[tuple[str, str, int], ...] = ()
    limits: tuple[tuple[str, str], ...] = ()
    unit: int = 1
    recorded: bool = True

    @property
    def record(self) -> dict[str, Any]:
        named = {"destinations": [list(it) for it in self.destinations], "limits": [list(it) for it in self.limits]}
        unit = {} if self.unit == 1 else {"money_unit": self.unit}
        return {"value": self.value, "bound": self.bound, **named, **unit}

    @property
    def note(self) -> str:
        """What a planner should know of it."""
        if self.value is None or self.bound is None:
            return "the certificate of the schedule is not checked: pitschedule is not installed"
        by = PROVED if self.recorded else "checked by a pitschedule that is not known to be proved: "
        return (
            f"{by}the schedule keeps all precedences and limits, and is worth {self.value:,.2f}; no schedule within them is worth "
            f"more than {self.bound:,.2f}. {WHOLE_BLOCKS if self.is_whole else PARTS_OF_BLOCKS}. Block values and limits are as in "
            "the folder certificate; they are verified, not proved"
        )


def millionths(numbers: NDArray[np.float64], down: bool = False) -> NDArray[np.int64]:
    """Returns numbers in millionths, to the nearest or rounded down. Raises PlanError if one is out of range."""
    scaled = np.asarray(numbers, dtype=float) * UNIT
    scaled = np.floor(scaled) if down else np.rint(scaled)
    if (np.abs(scaled) > MOST_AMOUNT).any():
        raise PlanError(f"{WHOLE}: {np.abs(numbers).max():.6g} is above {MOST_AMOUNT / UNIT:.0e}")
    return scaled.astype(np.int64)


def money_unit(amounts: Iterable[NDArray[np.float64]], prices: Iterable[NDArray[np.float64]]) -> int:
    """Returns the power of ten of the currency in which the texts have money, so that amounts and prices are in range."""
    parts = [(it, MOST_AMOUNT) for it in amounts] + [(it, MOST_PRICE) for it in prices]
    greatest = max((float(np.abs(it).max(initial=0.0)) * UNIT / most for it, most in parts), default=0.0)
    return 10 ** max(0, math.ceil(math.log10(greatest))) if greatest > 1 else 1


def demand_statable(project: Project, by_block: bool = False) -> None:
    """Raises PlanError if no certificate can state the money of a project, or the dumps of a schedule of pushbacks."""
    money = of_project(project)
    for is_found, what in (
        (bool(project.dumps) and not by_block, "dumps of pushbacks"),
        (bool(money.columns), "costs of years"),
        (any(len(set(by_year)) > 1 for by_year in money.premiums.values()), "prices or costs that differ by year"),
    ):
        if is_found:
            raise PlanError(f"{project.path}: {WHOLE}: it cannot state {what}: schedule without a certificate")


@dataclass(frozen=True)
class StatedLimit:
    """A limit as planners state it, with what blocks use of it.

    Attributes
    ----------
    name : str
    most : array, shape (periods,)
        Infinite where there is no limit.
    price : array, shape (periods,)
    terms : tuple of Term
    is_loose : bool
        Whether rounded shares may use more: of a minimum, with turned signs, of a dump, and of a stockpile with ore at the start.
    """

    name: str
    most: NDArray[np.float64]
    price: NDArray[np.float64]
    terms: tuple[Term, ...]
    is_loose: bool = False

    def capacity(self, without: float) -> NDArray[np.float64]:
        """Returns the limit in millionths, and another amount in periods without one, shape (periods,)."""
        return np.where(np.isfinite(self.most), np.rint(self.most * UNIT), without)

    def row(self, shares: Shares) -> CertificateLimit:
        """Returns the limit of the texts. A loose capacity is not below what the schedule uses by more than rounding.

        Raises
        ------
        PlanError
            If the schedule uses more, or if a capacity or a price is out of range.
        """
        used, price = usage(self.terms, shares, len(self.most)), np.maximum(self.price, 0)
        loose = slack(self.terms, shares, len(self.most)) + 1.0 if self.is_loose else np.zeros(len(self.most))
        capacity = self.capacity(sum(int(np.maximum(term.amounts, 0).sum()) for term in self.terms))
        if (used > capacity + loose).any():
            place = int((used - capacity).argmax())
            why = f"{self.name} uses {used[place] / UNIT:.10g} of {capacity[place] / UNIT:.10g} in year {place + 1}"
            raise PlanError(f"{WHOLE}: {why}")
        if (np.abs(capacity) > MOST_CAPACITY).any() or (price * UNIT > MOST_PRICE).any():
            raise PlanError(f"{WHOLE}: a limit or a price of {self.name} is out of range")
        whole = np.maximum(capacity.astype(np.int64), used)
        return CertificateLimit(self.terms, whole, np.rint(price * UNIT).astype(np.int64))

    def kept(self, shares: Shares) -> Shares:
        """Returns shares that use less of the limit in each year in which they exceed it: a millionth of each block goes to waste, of those that use most
        first."""
        if self.is_loose:
            return shares
        over = usage(self.terms, shares, len(self.most)) - self.capacity(np.inf)
        for period in np.flatnonzero(over > 0).tolist():
            saved = self.saved(shares, period)
            some = np.flatnonzero((saved > 0) & (shares.share > 0) & (shares.destination != WASTE))
            some = some[np.argsort(-saved[some], kind="stable")]
            count = int(np.searchsorted(saved[some].cumsum(), over[period] * UNIT)) + 1
            shares = shares.wasting(some[:count])
        return shares

    def saved(self, shares: Shares, period: int) -> NDArray[np.float64]:
        """Returns what a share uses of the limit in a period, less what it uses as waste, shape (places,)."""
        found = np.zeros(len(shares.block))
        for term in self.terms:
            uses = (shares.destination == term.destination) & (shares.period + term.lag == period)
            found[uses] += term.amounts[shares.block[uses]]
            if term.destination == WASTE:
                uses = (shares.destination != WASTE) & (shares.period + term.lag == period)
                found[uses] -= term.amounts[shares.block[uses]]
        return found


def rows_of(limits: Sequence[StatedLimit], shares: Shares) -> tuple[tuple[CertificateLimit, ...], Shares]:
    """Returns the limits of the texts, and shares that keep them: rounded down where the schedule is above one by rounding.

    Raises
    ------
    PlanError
        If the schedule uses more, or if a number is out of range.
    """
    for _ in range(ROUNDS):
        before = shares
        for limit in limits:
            shares = limit.kept(shares)
        if shares is before:
            break
    return tuple(limit.row(shares) for limit in limits), shares


def usage(terms: Sequence[Term], shares: Shares, periods: int) -> NDArray[np.int64]:
    """Returns what is used in each period, in millionths, rounded up; exact."""
    used = [0] * periods
    for term in terms:
        some = shares.of(term.destination)
        amounts = term.amounts[some.block]
        for period, share, amount in zip((some.period + term.lag).tolist(), some.share.tolist(), amounts.tolist()):
            if period < periods:
                used[period] += share * amount
    return np.array([-(-it // UNIT) for it in used], dtype=np.int64)


def slack(terms: Sequence[Term], shares: Shares, periods: int) -> NDArray[np.float64]:
    """Returns by how much rounded shares and the tolerance of a solver may change what is used in each period, in millionths."""
    found = np.zeros(periods)
    for term in terms:
        some = shares.of(term.destination)
        period = some.period + term.lag
        inside = period < periods
        sizes = np.abs(term.amounts[some.block]) * (SOLVER_SUM * some.share / UNIT + ROUNDING)
        found += np.bincount(period[inside], sizes[inside], minlength=periods)
    return found


def demand_size(certificate: Certificate, columns: int) -> None:
    """Raises PlanError if the texts have more of something than the program reads."""
    blocks, periods = len(certificate.precedences.starts) - 1, len(certificate.discounts)
    uses = len(certificate.values) + sum(len(row.terms) for row in certificate.rows)
    for count, most, name in (
        (blocks * periods, MOST_NODES, "blocks times periods"),
        (certificate.destinations, MOST_DESTINATIONS, "destinations"),
        (columns, MOST_COLUMNS, "columns of amounts"),
        (uses, MOST_TERMS, "values and uses of destinations"),
        (len(certificate.rows) * periods, MOST_CAPACITIES, "limits times periods"),
    ):
        if count > most:
            raise PlanError(
                f"{WHOLE}: found {count:,} {name}, pitschedule reads {most:,} at most: use fewer years, stockpiles or limits"
            )


# ---- texts


class AmountColumns:
    """The columns of amounts, each once."""

    def __init__(self) -> None:
        self.numbers: dict[bytes, int] = {}
        self.columns: list[NDArray[np.int64]] = []

    def place(self, column: NDArray[np.int64]) -> int:
        key = np.ascontiguousarray(column).tobytes()
        if key not in self.numbers:
            self.numbers[key] = len(self.columns)
            self.columns.append(column)
        return self.numbers[key]


def decimal(number: int) -> str:
    """Returns millionths as a decimal."""
    whole, part = divmod(abs(number), UNIT)
    sign = "-" if number < 0 else ""
    return f"{sign}{whole}.{part:06d}" if part else f"{sign}{whole}"


def line(word: str, numbers: NDArray[np.int64]) -> str:
    return " ".join([word, *map(decimal, numbers.tolist())])


def counted(counts: Mapping[str, int]) -> list[str]:
    return [f"{word} {count}" for word, count in counts.items()]


def problem_text(certificate: Certificate) -> str:
    """Returns the text of the problem. Raises PlanError if it is too large for the program."""
    columns = AmountColumns()
    values = [f"VALUE {it.destination} {columns.place(it.amounts)} {it.lag}" for it in certificate.values]
    uses = [
        f"USE {it.destination} {r} {columns.place(it.amounts)} {it.lag}"
        for r, row in enumerate(certificate.rows)
        for it in row.terms
    ]
    demand_size(certificate, len(columns.columns))
    amounts = np.stack(columns.columns, axis=1)
    counts = {
        **certificate.counts("BLOCKS", "PERIODS", "DESTINATIONS"),
        "COLUMNS": amounts.shape[1],
        **certificate.counts("LIMITS"),
        "VALUES": len(values),
        "USES": len(uses),
    }
    lines = [f"PROBLEM {FORM}", *counted(counts)]
    lines += [line("DISCOUNTS", certificate.discounts), *(line("CAPACITIES", row.capacity) for row in certificate.rows)]
    lines += [*values, *uses, *(line(f"AMOUNTS {block}", of_block) for block, of_block in enumerate(amounts))]
    return "\n".join(lines) + "\n"


def precedence_text(precedences: BlockPrecedences) -> str:
    starts, blocks = precedences.starts.tolist(), precedences.predecessors.tolist()
    rows = [(block, blocks[first:end]) for block, (first, end) in enumerate(zip(starts, starts[1:])) if end > first]
    return "".join(f"{block} {len(others)} {' '.join(map(str, others))}\n" for block, others in rows)


def schedule_text(certificate: Certificate) -> str:
    shares = certificate.shares
    places = zip(shares.block.tolist(), shares.period.tolist(), shares.destination.tolist(), shares.share.tolist())
    lines = [f"SHARE {block} {period} {to} {decimal(share)}" for block, period, to, share in places]
    counts = {**certificate.counts("BLOCKS", "PERIODS", "DESTINATIONS"), "SHARES": len(lines)}
    return "\n".join([f"SCHEDULE {FORM}", *counted(counts), *lines]) + "\n"


def prices_text(certificate: Certificate) -> str:
    counts = counted(certificate.counts("LIMITS", "PERIODS"))
    return "\n".join([f"PRICES {FORM}", *counts, *(line("PRICE", row.price) for row in certificate.rows)]) + "\n"


# ---- files


def write(certificate: Certificate, names: Sequence[Any], stage: Path) -> None:
    """Writes the four texts, and a line with the name of each block, into a folder."""
    texts = {
        "problem": problem_text(certificate),
        "prec": precedence_text(certificate.precedences),
        "schedule": schedule_text(certificate),
        "prices": prices_text(certificate),
    }
    (stage / layout.CERTIFICATE).mkdir(parents=True, exist_ok=True)
    for kind, name in layout.CERTIFIED.items():
        (stage / name).write_text(texts[kind], encoding="ascii")
    (stage / layout.CERTIFIED_BLOCKS).write_text("".join(f"{name}\n" for name in names), encoding="utf-8")


def checked(stage: Path, program: Optional[Path], unit: int = 1) -> Certified:
    """Returns what the program proves of the texts in a folder, whose money has a unit. Raises ProgramError if they are no schedule."""
    if program is None:
        return Certified(None, None, unit=unit)
    words = [word for kind, name in layout.CERTIFIED.items() for word in (f"--{kind}", str(stage / name))]
    ran = subprocess.run([str(program), "check", *words], capture_output=True, text=True)
    lines = ran.stdout.splitlines()
    if ran.returncode != 0 or [line.partition(":")[0] for line in lines] != ANSWER:
        said = (ran.stdout + ran.stderr).strip().replace("\n", "; ")
        raise ProgramError(f"{program}: the certificate is not that of a schedule: {said}")
    _, value, whole, bound = (line.partition(": ")[2] for line in lines)
    return Certified(
        unit * float(value), unit * float(bound), whole == "yes", unit=unit, recorded=is_proved(hash_of(program))
    )

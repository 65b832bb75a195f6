"""Scheduling problems for the tests of pitschedule: a reading of the texts, a check and a bound of their own, in whole numbers."""

import dataclasses
import decimal
import itertools
import re

MILLION = 10**6
# The number of the form in each title.
FORM = 2
HEADS = ("BLOCKS", "PERIODS", "DESTINATIONS", "COLUMNS", "LIMITS", "VALUES", "USES")


class Unreadable(Exception):
    """The text does not follow its grammar."""


@dataclasses.dataclass
class Term:
    """What a destination brings (limit None) or uses of a limit, as a multiple of a column, some periods after mining."""

    destination: int
    limit: int | None
    column: int
    lag: int


@dataclasses.dataclass
class Problem:
    """Numbers in millionths: amounts[block][column], discounts[period] and capacities[limit][period]. An arc (u, p) says that u needs p."""

    destinations: int
    amounts: list[list[int]]
    terms: list[Term]
    discounts: list[int]
    capacities: list[list[int]]
    arcs: list[tuple[int, int]]

    @property
    def blocks(self) -> int:
        return len(self.amounts)

    @property
    def periods(self) -> int:
        return len(self.discounts)

    def gain(self, block: int, period: int, destination: int) -> int:
        """The discounted value of a whole block, in units of 10^-12."""
        gain = 0
        for term in self.terms:
            if term.limit is None and term.destination == destination and period + term.lag < self.periods:
                gain += self.amounts[block][term.column] * self.discounts[period + term.lag]
        return gain

    def used(self, block: int, period: int, destination: int) -> dict[tuple[int, int], int]:
        """What a whole block uses, by limit and period."""
        used: dict[tuple[int, int], int] = {}
        for term in self.terms:
            if term.limit is not None and term.destination == destination and period + term.lag < self.periods:
                place = term.limit, period + term.lag
                used[place] = used.get(place, 0) + self.amounts[block][term.column]
        return used

    def places(self) -> list[tuple[int, int, int]]:
        return list(itertools.product(range(self.blocks), range(self.periods), range(self.destinations)))


Shares = dict[tuple[int, int, int], int]


def value_of(problem: Problem, shares: Shares) -> int:
    """The value in millionths, rounded down."""
    return sum(share * problem.gain(*place) for place, share in shares.items()) // 10**12


def faults_of(problem: Problem, shares: Shares) -> list[str]:
    """The lines that tell why shares are no schedule, in the order in which they are checked; none if they are one."""
    mined = [[0] * (problem.periods + 1) for _ in range(problem.blocks)]
    used: dict[tuple[int, int], int] = {}
    for (block, period, destination), share in shares.items():
        for after in range(period, problem.periods):
            mined[block][after] += share
        for place, amount in problem.used(block, period, destination).items():
            used[place] = used.get(place, 0) + share * amount
    faults = []
    for t in range(problem.periods):
        faults += [f"block {b} more than once by the end of period {t}" for b in range(problem.blocks) if mined[b][t] > MILLION]
        faults += [f"block {u} before block {p} in period {t}" for u, p in sorted(problem.arcs) if mined[u][t] > mined[p][t]]
    for r, capacities in enumerate(problem.capacities):
        for s, capacity in enumerate(capacities):
            use = used.get((r, s), 0)
            if use > MILLION * capacity:
                faults.append(f"limit {r} in period {s}: {six_decimals(-(-use // MILLION))} of {six_decimals(capacity)}")
    return faults


def are_whole(problem: Problem, shares: Shares) -> bool:
    """Whether each block is mined whole in one period, or never."""
    mined: dict[tuple[int, int], int] = {}
    for (block, period, _), share in shares.items():
        mined[block, period] = mined.get((block, period), 0) + share
    return set(mined.values()) <= {0, MILLION}


def bound_of(problem: Problem, prices: list[list[int]]) -> int:
    """The Lagrangian bound in millionths, rounded up, over all closed sets of nodes (block, period)."""
    best = [[0] * (problem.periods + 1) for _ in range(problem.blocks)]
    for b, t in itertools.product(range(problem.blocks), range(problem.periods)):
        priced = []
        for d in range(problem.destinations):
            cost = sum(prices[r][s] * amount for (r, s), amount in problem.used(b, t, d).items())
            priced.append(problem.gain(b, t, d) - cost)
        best[b][t] = max(priced)
    greatest = max(sum(-(-(best[b][t] - best[b][t + 1]) // MILLION) for b, first in enumerate(firsts) for t in range(first, problem.periods)) for firsts in closures(problem))
    capacities = sum(prices[r][s] * capacity for r, row in enumerate(problem.capacities) for s, capacity in enumerate(row))
    return -(-(MILLION * greatest + capacities) // MILLION)


def closures(problem: Problem) -> list[tuple[int, ...]]:
    """For each closed set of nodes the first period of each block in it; the number of periods if it has none."""
    choices = itertools.product(range(problem.periods + 1), repeat=problem.blocks)
    return [firsts for firsts in choices if all(firsts[u] >= firsts[p] for u, p in problem.arcs)]


def six_decimals(millionths: int) -> str:
    size = abs(millionths)
    return f"{'-' if millionths < 0 else ''}{size // MILLION}.{size % MILLION:06d}"


# ---- the texts, written and read


def problem_text(problem: Problem) -> str:
    values = [it for it in problem.terms if it.limit is None]
    uses = [it for it in problem.terms if it.limit is not None]
    columns = len(problem.amounts[0]) if problem.amounts else 0
    counts = (problem.blocks, problem.periods, problem.destinations, columns, len(problem.capacities), len(values), len(uses))
    lines = [f"PROBLEM {FORM}", *(f"{head} {count}" for head, count in zip(HEADS, counts))]
    lines.append(numbers_line("DISCOUNTS", problem.discounts))
    lines += [numbers_line("CAPACITIES", row) for row in problem.capacities]
    lines += [f"VALUE {it.destination} {it.column} {it.lag}" for it in values]
    lines += [f"USE {it.destination} {it.limit} {it.column} {it.lag}" for it in uses]
    lines += [numbers_line(f"AMOUNTS {block}", row) for block, row in enumerate(problem.amounts)]
    return "\n".join(lines) + "\n"


def numbers_line(word: str, numbers: list[int]) -> str:
    return " ".join([word, *map(six_decimals, numbers)])


def prec_text(problem: Problem) -> str:
    needs: dict[int, list[int]] = {}
    for u, p in problem.arcs:
        needs.setdefault(u, []).append(p)
    return "".join(f"{u} {len(ps)} {' '.join(map(str, ps))}\n" for u, ps in sorted(needs.items()))


def schedule_text(problem: Problem, shares: Shares) -> str:
    counts = [f"BLOCKS {problem.blocks}", f"PERIODS {problem.periods}", f"DESTINATIONS {problem.destinations}"]
    lines = [f"SHARE {b} {t} {d} {six_decimals(share)}" for (b, t, d), share in shares.items()]
    return "\n".join([f"SCHEDULE {FORM}", *counts, f"SHARES {len(lines)}", *lines]) + "\n"


def prices_text(problem: Problem, prices: list[list[int]]) -> str:
    counts = [f"LIMITS {len(problem.capacities)}", f"PERIODS {problem.periods}"]
    return "\n".join([f"PRICES {FORM}", *counts, *(numbers_line("PRICE", row) for row in prices)]) + "\n"


def rows_of(text: bytes) -> list[list[bytes]]:
    """The fields of the lines that have any."""
    lines = [line.removesuffix(b"\r") if index < text.count(b"\n") else line for index, line in enumerate(text.split(b"\n"))]
    return [fields for line in lines if (fields := [it for it in re.split(rb"[ \t]", line) if it])]


def whole(field: bytes) -> int:
    if not re.fullmatch(rb"[0-9]{1,10}", field):
        raise Unreadable(field)
    return int(field)


def millionths(field: bytes) -> int:
    if not re.fullmatch(rb"[+-]?[0-9]{1,12}(\.[0-9]{1,6})?", field):
        raise Unreadable(field)
    return int(decimal.Decimal(field.decode()) * MILLION)


def taken(rows: list[list[bytes]], word: str, kinds: list) -> list[int]:
    """The numbers of the next line, which begins with a word."""
    fields = rows.pop(0) if rows else []
    if len(fields) != len(kinds) + 1 or fields[0] != word.encode():
        raise Unreadable(word)
    return [kind(field) for kind, field in zip(kinds, fields[1:])]


def titled_rows(text: bytes, word: str) -> list[list[bytes]]:
    rows = rows_of(text)
    if not rows or rows.pop(0) != [word.encode(), str(FORM).encode()]:
        raise Unreadable(word)
    return rows


def read_problem(text: bytes, arcs: list[tuple[int, int]]) -> Problem:
    rows = titled_rows(text, "PROBLEM")
    blocks, periods, destinations, columns, limits, values, uses = (taken(rows, head, [whole])[0] for head in HEADS)
    discounts = taken(rows, "DISCOUNTS", [millionths] * periods)
    capacities = [taken(rows, "CAPACITIES", [millionths] * periods) for _ in range(limits)]
    terms = [Term(d, None, c, lag) for d, c, lag in (taken(rows, "VALUE", [whole] * 3) for _ in range(values))]
    terms += [Term(d, r, c, lag) for d, r, c, lag in (taken(rows, "USE", [whole] * 4) for _ in range(uses))]
    numbered = [taken(rows, "AMOUNTS", [whole] + [millionths] * columns) for _ in range(blocks)]
    if [line[0] for line in numbered] != list(range(blocks)):
        raise Unreadable("a line of another block")
    amounts = [line[1:] for line in numbered]
    if rows:
        raise Unreadable("a line after the end")
    return Problem(destinations, amounts, terms, discounts, capacities, arcs)


def demand_counts(rows: list[list[bytes]], **counts: int) -> None:
    for word, count in counts.items():
        if taken(rows, word, [whole]) != [count]:
            raise Unreadable(word)


def read_shares(text: bytes, problem: Problem) -> Shares:
    rows = titled_rows(text, "SCHEDULE")
    demand_counts(rows, BLOCKS=problem.blocks, PERIODS=problem.periods, DESTINATIONS=problem.destinations)
    (count,) = taken(rows, "SHARES", [whole])
    shares: Shares = {}
    for _ in range(count):
        b, t, d, share = taken(rows, "SHARE", [whole, whole, whole, millionths])
        shares[b, t, d] = shares.get((b, t, d), 0) + share
    if rows:
        raise Unreadable("a line after the end")
    return shares


def read_prices(text: bytes, problem: Problem) -> list[list[int]]:
    rows = titled_rows(text, "PRICES")
    demand_counts(rows, LIMITS=len(problem.capacities), PERIODS=problem.periods)
    prices = [taken(rows, "PRICE", [millionths] * problem.periods) for _ in problem.capacities]
    if rows:
        raise Unreadable("a line after the end")
    return prices

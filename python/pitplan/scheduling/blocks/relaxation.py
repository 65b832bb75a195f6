"""The linear relaxation of a schedule by block, by the algorithm of Bienstock and Zuckerberg (2010), and the blocks and years that no optimal schedule needs."""

from __future__ import annotations

import time
from collections.abc import Callable, Iterable, Iterator
from dataclasses import dataclass, field, replace
from functools import cached_property
from itertools import cycle
from typing import Optional

import numpy as np
from numpy.typing import NDArray
from scipy.optimize import linprog
from scipy.sparse import block_diag, coo_matrix, csr_matrix, eye, hstack, vstack
from scipy.sparse.csgraph import connected_components

import pitshell
from pitplan.config.schedule import Effort
from pitplan.core.progress import Progress
from pitplan.core.tolerances import SOLVER_SHARE, SUM_ERROR, ZERO_PRICE
from pitplan.errors import PlanError

from .closure import priced
from .filling import Ranks, cone_sums, greatest_of_predecessors, ranks_of
from .problem import MOST_UNKNOWNS, BlockLimit, BlockProblem, Nodes, by_end, nodes_of, upward

# Groups merge when ROUNDS_KEPT rounds give them equal shares, rounded to SHARES decimals.
ROUNDS_KEPT, SHARES = 5, 9


@dataclass(frozen=True)
class Groups:
    """Nodes in groups that have none in common: of each node the number of its group, from 0, shape (nodes,); and how many there are."""

    label: NDArray[np.int32]
    count: int

    def divided(self, in_closure: NDArray[np.bool_]) -> Groups:
        """Each group in what lies in a closure and what does not."""
        return renumbered(2 * self.label.astype(np.int64) + in_closure, 2 * self.count)

    def parents(self, divided: Groups) -> NDArray[np.int32]:
        """The group that contains each of the divided groups."""
        found = np.empty(divided.count, dtype=np.int32)
        found[divided.label] = self.label
        return found

    def of_groups(self, number: NDArray[np.integer]) -> Groups:
        """Groups put together that have one number, from 0, shape (count,)."""
        return renumbered(number.astype(np.int64)[self.label], int(number.max(initial=-1)) + 1)


@dataclass(frozen=True)
class History:
    """What the last rounds have found of groups: by two columns a round the share of each, and whether it is in the closure. Shape (groups,
    columns)."""

    found: NDArray[np.float64]

    @property
    def is_full(self) -> bool:
        """Whether it has as many rounds as are kept."""
        return self.found.shape[1] == 2 * ROUNDS_KEPT

    def after(self, parents: NDArray[np.int32], share: NDArray[np.float64], inside: NDArray[np.bool_]) -> History:
        """That of the parts of groups after a round: the shares of groups, and whether each part is in the closure."""
        columns = [self.found[parents], np.round(share[parents], SHARES), inside]
        return History(np.column_stack(columns)[:, -2 * ROUNDS_KEPT :])

    def coarsened(self, groups: Groups) -> tuple[Groups, History]:
        """Puts groups together that the last rounds do not separate."""
        rows, number = np.unique(self.found, axis=0, return_inverse=True)
        return groups.of_groups(number.ravel()), History(rows)


def renumbered(label: NDArray[np.int64], most: int) -> Groups:
    """Groups by numbers below `most`, some may be left out."""
    is_there = np.zeros(most, dtype=bool)
    is_there[label] = True
    number = np.cumsum(is_there, dtype=np.int64) - 1
    return Groups(number[label].astype(np.int32), int(is_there.sum()))


# The linear relaxation where all nodes of a group are mined to one share: a small linear programme, whose prices of the
# limits ask for the next closure (Bienstock and Zuckerberg, IPCO 2010; Munoz, Espinoza, Goycoolea, Moreno, Queyranne
# and Rivera Letelier, A study of the Bienstock-Zuckerberg algorithm, Computational Optimization and Applications 69,
# 2018).

# Up to this number of pairs of groups, each pair has a mark, which is faster than sorting.
MOST_MARKS = 2**28


@dataclass(frozen=True)
class Restricted:
    """The optimum where all nodes of a group are mined to one share.

    share   of each group: shape (groups,)
    value   discounted, in money; where it is sought what is due the shares that lack of it together, below 0
    prices  of a unit of each limit in each year, in money, below 0 where the least is due, and of each total: shape (limits and totals, years)
    """

    share: NDArray[np.float64]
    value: float
    prices: NDArray[np.float64]


@dataclass(frozen=True)
class Place:
    """A limit of a year, or of all years: its number, those of totals behind those of limits; the year, None of a total; the amount; and 1
    where that is the most, -1 where it is the least."""

    number: int
    year: Optional[int]
    amount: float
    sign: int


@dataclass(frozen=True)
class Added:
    """Unknowns from 0 to 1 besides the shares of groups.

    costs     what each costs, in money
    least     the least of each
    limits    what each adds to the rows of limits, in their units: shape (places, unknowns)
    rows      rows of these unknowns alone, at most 0
    replaces  whether the unknowns stand for the amount of a limit, so that its row is at most 0: shape (places,)
    """

    costs: NDArray[np.float64]
    least: NDArray[np.float64]
    limits: csr_matrix
    rows: csr_matrix
    replaces: NDArray[np.bool_]


def nothing_added(places: int) -> Added:
    none = np.zeros(0)
    return Added(none, none, csr_matrix((places, 0)), csr_matrix((0, 0)), np.zeros(places, dtype=bool))


def lacking(sign: NDArray[np.float64]) -> Added:
    """What lacks of each minimum, as a share of it, which costs that share."""
    owed = np.flatnonzero(sign < 0)
    limits = csr_matrix((-np.ones(len(owed)), (owed, np.arange(len(owed)))), shape=(len(sign), len(owed)))
    ones = np.ones(len(owed))
    return Added(ones, 0.0 * ones, limits, csr_matrix((0, len(owed))), np.zeros(len(sign), dtype=bool))


@dataclass(frozen=True)
class Master:
    """The programme of some nodes, whose groups change from one solution to the next."""

    nodes: Nodes

    @cached_property
    def gain(self) -> NDArray[np.float64]:
        """What each node adds to the value."""
        steps = self.nodes.problem.values.transpose(0, 2, 1)
        gain = by_end(steps.reshape(len(steps), -1)).reshape(steps.shape)
        return self.nodes.spread(gain.transpose(0, 2, 1))

    @cached_property
    def places(self) -> list[Place]:
        """The limits that there are, those from above first."""
        problem = self.nodes.problem
        limits, years = problem.limits, range(problem.years)
        above = [
            Place(k, year, limit.most[year], 1)
            for k, limit in enumerate(limits)
            for year in np.flatnonzero(np.isfinite(limit.most))
        ]
        below = [
            Place(k, year, limit.floor[year], -1)
            for k, limit in enumerate(limits)
            for year in years
            if limit.floor[year] > 0
        ]
        totals = list(enumerate(problem.totals, len(limits)))
        owed = [Place(number, None, total.least, -1) for number, total in totals if total.least > 0]
        held = [Place(number, None, total.most, 1) for number, total in totals if np.isfinite(total.most)]
        return [*above, *below, *owed, *held]

    def solve(self, groups: Groups, seeks_minimums: bool = False) -> Restricted:
        """The optimum of these groups; or the least that lacks of what is due, at any earnings. Raises PlanError where HiGHS finds
        none."""
        # What leads in a circle is mined to one share.
        pairs = pairs_of(groups, self.nodes)
        count, component = connected_components(pairs, connection="strong")
        joined = groups.of_groups(component)
        gain = np.bincount(joined.label, self.gain, minlength=joined.count) * (not seeks_minimums)
        order = order_rows(least_pairs(joined_pairs(pairs, component, count)))
        most = np.array([place.amount for place in self.places], dtype=float)
        sign = np.array([place.sign for place in self.places], dtype=float)
        unit, used = float(np.abs(gain).max(initial=0.0)) or 1.0, self.limits(joined)
        scale = scale_of(most, used)
        more = lacking(sign) if seeks_minimums else self.running()
        limits = hstack([csr_matrix(used * (sign / scale)[:, None]), more.limits])
        rows = vstack([limits, block_diag([order, more.rows])], format="csr")
        found = linprog(
            np.concatenate([-gain, more.costs]) / unit,
            A_ub=rows,
            b_ub=np.concatenate(
                [np.where(more.replaces, 0.0, sign * most / scale), np.zeros(rows.shape[0] - len(sign))]
            ),
            bounds=np.column_stack([np.append(np.zeros(joined.count), more.least), np.ones(rows.shape[1])]),
            method="highs-ds",
        )
        if found.status != 0:
            raise PlanError(f"HiGHS found no optimum of the relaxation: {found.message}")
        prices = self.prices(sign * np.maximum(-found.ineqlin.marginals[: len(scale)], 0.0) * unit / scale)
        value = -float(found.fun) * unit
        if not self.nodes.problem.owes:
            # To mine nothing costs nothing.
            value = max(value, 0.0)
        return Restricted(np.clip(found.x[: joined.count], 0.0, 1.0)[component], value, prices)

    def running(self) -> Added:
        """Whether the mine runs in each year, if that costs anything: as far as it uses any limit, and as it runs in the next year. The first
        year costs its whole in any case."""
        problem, count = self.nodes.problem, len(self.places)
        if problem.costs is None:
            return nothing_added(count)
        shows = np.array([place.year if self.shows_running(place) else -1 for place in self.places], dtype=np.int64)
        some, years = np.flatnonzero(shows >= 0), problem.years
        limits = csr_matrix((-np.ones(len(some)), (some, shows[some])), shape=(count, years))
        later = csr_matrix(eye(years - 1, years, k=1) - eye(years - 1, years))
        return Added(problem.costs, (np.arange(years) == 0).astype(float), limits, later, shows >= 0)

    def shows_running(self, place: Place) -> bool:
        """Whether a place is the most of a year above 0, which only a year that runs uses."""
        limits = self.nodes.problem.limits
        if place.year is None or place.sign < 0 or place.amount <= 0:
            return False
        return not (limits[place.number].signed or limits[place.number].holds)

    def prices(self, of_places: NDArray[np.float64]) -> NDArray[np.float64]:
        """By limit and year, and by total; of a limit with both a most and a least what is left of their two prices."""
        problem = self.nodes.problem
        found = np.zeros((len(problem.limits) + len(problem.totals), problem.years))
        for place, price in zip(self.places, of_places):
            found[place.number, slice(None) if place.year is None else place.year] += price
        return found

    def limits(self, groups: Groups) -> NDArray[np.float64]:
        """What each group adds to each of the places: shape (places, groups)."""
        problem = self.nodes.problem
        sums = [self.sums_of(limit, groups) for limit in problem.limits]
        sums += [self.sums(total.amounts, groups) for total in problem.totals]
        found = [
            sums[place.number].sum(axis=0) if place.year is None else sums[place.number][place.year]
            for place in self.places
        ]
        return np.array(found).reshape(len(self.places), groups.count)

    def sums_of(self, limit: BlockLimit, groups: Groups) -> NDArray[np.float64]:
        """What each group adds to the sum of a limit in each year: shape (years, groups)."""
        if limit.spans is None:
            return self.sums(limit.amounts, groups)
        found = np.zeros((self.nodes.problem.years, groups.count))
        for destinations, lags in limit.windows:
            mined = self.sent(limit.amounts, destinations[limit.amounts[:, destinations].any(axis=0)], groups)
            for lag in lags:
                found[lag:] += mined[: len(found) - lag]
        return found

    def sent(
        self, amounts: NDArray[np.float64], destinations: NDArray[np.int64], groups: Groups
    ) -> NDArray[np.float64]:
        """What each group adds to amounts that are sent to some destinations, by year of mining: shape (years, groups)."""
        found = np.zeros((self.nodes.problem.years, groups.count))
        labels, later = list(self.nodes.by_year(groups.label)), destinations[destinations > 0]
        for year, label in enumerate(labels):
            of_blocks = amounts[: len(label)]
            for sign, places, of in ((1, destinations, destinations), (-1, later - 1, later)):
                weights = of_blocks[:, of].ravel()
                found[year] += sign * np.bincount(label[:, places].ravel(), weights, minlength=groups.count)
            if len(later) < len(destinations) and year:
                before = labels[year - 1][:, -1]
                found[year] -= np.bincount(before, amounts[: len(before), 0], minlength=groups.count)
        return found

    def sums(self, amounts: NDArray[np.float64], groups: Groups) -> NDArray[np.float64]:
        """What each group adds to a sum of each year: shape (years, groups)."""
        found = np.zeros((self.nodes.problem.years, groups.count))
        for year, label in enumerate(self.nodes.by_year(groups.label)):
            found[year] += np.bincount(label.ravel(), amounts[: len(label)].ravel(), minlength=groups.count)
            # What is mined by then is not sent to the next destination, nor mined in the next year.
            found[year] -= np.bincount(label[:, :-1].ravel(), amounts[: len(label), 1:].ravel(), minlength=groups.count)
            if year + 1 < len(found):
                found[year + 1] -= np.bincount(label[:, -1], amounts[: len(label), 0], minlength=groups.count)
        return found


def scale_of(most: NDArray[np.float64], used: NDArray[np.float64]) -> NDArray[np.float64]:
    """A unit for each limit: its amount, or, if that is 0, the greatest amount of a group."""
    largest = np.abs(used).max(axis=1, initial=0.0)
    return np.where(most > 0, most, np.where(largest > 0, largest, 1.0))


def pairs_of(groups: Groups, nodes: Nodes) -> csr_matrix:
    """Which groups depend on which others, as places of a matrix: some node of one depends on some node of the other."""
    differ = ((user[user != other], other[user != other]) for user, other in pairs_by_year(groups, nodes))
    places = (user.astype(np.int64) * groups.count + other for user, other in differ)
    return matrix_of(places, groups.count)


def joined_pairs(pairs: csr_matrix, component: NDArray[np.int32], count: int) -> csr_matrix:
    """The pairs of groups that are put together, by the number of each among these."""
    found = pairs.tocoo()
    user, other = component[found.row].astype(np.int64), component[found.col]
    return matrix_of([(user * count + other)[user != other]], count)


def matrix_of(places: Iterable[NDArray[np.int64]], count: int) -> csr_matrix:
    """A square matrix with ones at some places, row by row."""
    rows, columns = np.divmod(distinct(places, count * count), max(count, 1))
    return csr_matrix((np.ones(len(rows), dtype=np.float32), (rows, columns)), shape=(count, count))


def distinct(places: Iterable[NDArray[np.int64]], most: int) -> NDArray[np.int64]:
    """The numbers that are in any of the arrays, rising, each once; they are below `most`."""
    if most > MOST_MARKS:
        return np.unique(np.concatenate([np.zeros(0, dtype=np.int64), *map(np.unique, places)]))
    is_there = np.zeros(most, dtype=bool)
    for part in places:
        is_there[part] = True
    return np.flatnonzero(is_there)


def pairs_by_year(groups: Groups, nodes: Nodes) -> Iterator[tuple[NDArray, NDArray]]:
    """The groups of the two nodes of each pair: of destinations of a block, of blocks in a year, and of a year and the next."""
    labels = list(nodes.by_year(groups.label))
    for year, label in enumerate(labels):
        precedences, last = nodes.of_year(year), np.ascontiguousarray(label[:, -1])
        yield label[:, :-1].ravel(), label[:, 1:].ravel()
        yield np.repeat(last, np.diff(precedences.starts.astype(np.int64))), last[precedences.predecessors]
        if year + 1 < len(labels):
            yield last, labels[year + 1][: len(label), 0]


def least_pairs(pairs: csr_matrix) -> csr_matrix:
    """The pairs to which no two others lead, where none lead in a circle."""
    through = (pairs @ pairs).astype(bool)
    return pairs - pairs.multiply(through)


def order_rows(pairs: csr_matrix) -> csr_matrix:
    """A row for each pair: the share of the one is at most that of the other."""
    pairs = pairs.tocoo()
    some = pairs.data > 0
    users, others = pairs.row[some], pairs.col[some]
    row = np.tile(np.arange(len(users)), 2)
    signs = np.repeat([1.0, -1.0], len(users))
    return coo_matrix((signs, (row, np.concatenate([users, others]))), shape=(len(users), pairs.shape[0])).tocsr()


# The bound of all schedules by block: the linear relaxation, solved by rounds of a small programme and a closure.
#
# Each round solves the relaxation over groups of nodes, takes the prices of its limits, and solves
# the closure at these, which divides groups. Groups that the last rounds do not separate are put
# together. The closure's bound holds at any prices, so a run may end at any round with the
# least bound so far. If the closure divides no group, or its bound is met, the relaxation is solved.

# The first groups lie between the nested pits of this number of revenue factors.
FIRST_PITS = 40
# Above FEW_GROUPS groups, equal groups merge after a relative gain of more than SUM_ERROR.
FEW_GROUPS = 2_000


@dataclass(frozen=True)
class Round:
    """What a round has found: its number, from 1; the least bound so far; the value of the relaxation over its groups, in money; how many
    groups there were; and the seconds so far."""

    number: int
    bound: float
    value: float
    groups: int
    seconds: float

    @property
    def gap(self) -> float:
        """By which share of the bound the value is less."""
        return (self.bound - self.value) / abs(self.bound) if self.bound else 0.0


@dataclass(frozen=True)
class Relaxation:
    """The relaxation as far as it is solved.

    bound        in money: no schedule earns more
    cumulative   the share of each block that is mined by the end of each year: shape (blocks, years)
    prices       of a unit of each limit in each year, in money, and of each total, in the last round: shape (limits and totals, years)
    multipliers  those at which the closure gave the bound
    rounds       what each round found
    groups       the last groups
    history      what the last rounds have found of these
    interrupted  whether it was ended by an interruption
    """

    bound: float
    cumulative: NDArray[np.float64]
    prices: NDArray[np.float64]
    multipliers: NDArray[np.float64]
    rounds: tuple[Round, ...]
    groups: Groups
    history: History
    interrupted: bool = False


def relaxed(
    nodes: Nodes,
    effort: Effort,
    tell: Callable[[Round], None] = lambda found: None,
    groups: Optional[Groups] = None,
) -> Relaxation:
    """Solves the relaxation until its value is within the effort's gap, a share of the bound, or its seconds are over; `tell` is called
    with each round. An interruption (Ctrl-C), or a programme that HiGHS cannot solve, ends it with what it has, once there is a round. The
    first groups are those given, or by nested pits.

    Raises PlanError where no schedule keeps the minimums, HiGHS finds no optimum of the first round or the nodes are too many, and
    KeyboardInterrupt within the first round.
    """
    groups = first_groups(nodes) if groups is None else groups
    if nodes.problem.owes:
        groups = keeping_minimums(nodes, groups)
    solver = RelaxationSolver(nodes, Master(nodes), groups, time.monotonic())
    try:
        for found in solver:
            tell(found)
            if found.gap <= effort.gap or (effort.seconds is not None and found.seconds > effort.seconds):
                break
    except (KeyboardInterrupt, PlanError) as error:
        if not solver.rounds:
            raise
        return solver.relaxation(isinstance(error, KeyboardInterrupt))
    return solver.relaxation(False)


@dataclass
class RelaxationSolver:
    """The relaxation while it is solved, round by round."""

    nodes: Nodes
    master: Master
    groups: Groups
    began: float
    rounds: list[Round] = field(default_factory=list)
    bound: float = np.inf
    multipliers: NDArray[np.float64] = field(default_factory=lambda: np.zeros((0, 0)))
    restricted: Restricted | None = None
    label: NDArray[np.int32] | None = None
    history: History = field(default_factory=lambda: History(np.zeros((0, 0))))

    def __iter__(self) -> Iterator[Round]:
        """Each round, until a closure divides no group."""
        self.history, count, value = History(np.zeros((self.groups.count, 0))), 0, -np.inf
        while self.groups.count > count:
            restricted = self.master.solve(self.groups)
            closure = priced(self.nodes, restricted.prices)
            self.restricted, self.label = restricted, self.groups.label
            if closure.bound < self.bound:
                self.bound, self.multipliers = closure.bound, restricted.prices
            count = self.groups.count
            divided = self.groups.divided(closure.in_closure)
            self.rounds.append(
                Round(len(self.rounds) + 1, self.bound, restricted.value, count, time.monotonic() - self.began)
            )
            yield self.rounds[-1]
            inside = np.zeros(divided.count, dtype=bool)
            inside[divided.label] = closure.in_closure
            self.history = self.history.after(self.groups.parents(divided), restricted.share, inside)
            is_gain = restricted.value > value + SUM_ERROR * abs(value)
            if divided.count > max(count, FEW_GROUPS) and is_gain and self.history.is_full:
                # The relaxation over these is worth no less, so the rounds end.
                divided, self.history = self.history.coarsened(divided)
                count = 0
            self.groups, value = divided, restricted.value

    def relaxation(self, interrupted: bool) -> Relaxation:
        """As far as it is solved, by one round at least."""
        assert self.restricted is not None and self.label is not None
        cumulative = self.nodes.gathered(self.restricted.share[self.label])[:, -1]
        prices, rounds = self.restricted.prices, tuple(self.rounds)
        return Relaxation(
            self.bound, cumulative, prices, self.multipliers, rounds, self.groups, self.history, interrupted
        )


def keeping_minimums(nodes: Nodes, groups: Groups) -> Groups:
    """The groups divided until the relaxation over them keeps the minimums.

    By the same rounds, where blocks earn nothing and what lacks of a minimum costs its share: then the prices of a round at which the closure's
    bound is below 0 show that nothing keeps all minimums. Raises PlanError then.
    """
    nothing = replace(nodes, problem=replace(nodes.problem, values=np.zeros_like(nodes.problem.values), costs=None))
    master = Master(nothing)
    while True:
        found = master.solve(groups, seeks_minimums=True)
        if found.value >= -SOLVER_SHARE:
            return groups
        closure = priced(nothing, found.prices)
        if closure.bound < 0:
            raise PlanError(f"infeasible: no schedule meets the minimum of {owed_by(nodes, found.prices)}")
        divided = groups.divided(closure.in_closure)
        if divided.count == groups.count:
            raise PlanError("HiGHS cannot decide whether a schedule meets the minimums")
        groups = divided


def owed_by(nodes: Nodes, prices: NDArray[np.float64]) -> str:
    """The sums and years whose least amounts clash, by their prices."""
    problem, named = nodes.problem, []
    for limit, by_year in zip(problem.limits, prices):
        years = [str(year + 1) for year in np.flatnonzero(by_year < -ZERO_PRICE)]
        named += [f"{limit.name} in {problem.word}{'s' * (len(years) > 1)} {', '.join(years)}"] if years else []
    of_totals = zip(problem.totals, prices[len(problem.limits) :])
    named += [total.name for total, by_year in of_totals if by_year[0] < -ZERO_PRICE]
    return "; ".join(named) or "all limits together"


def first_groups(nodes: Nodes) -> Groups:
    """Nodes in groups by the least of nested pits that holds their block, by destination and year. At a factor, in per mille, a block that
    earns anything earns so much of it."""
    problem = nodes.problem
    values = upward(problem.values[:, :, 0].max(axis=1)).amounts
    factors = range(1000 // FIRST_PITS, 1001, 1000 // FIRST_PITS)
    precedences = (problem.precedences.starts, problem.precedences.predecessors)
    nested = pitshell.shells(np.maximum(values, 0), np.maximum(-values, 0), precedences, factors, millionths=True)
    # All that goes to stockpiles in a year is a group at first.
    place = np.minimum(np.arange(problem.destinations), problem.at_once)
    steps = problem.destinations * problem.years
    label = nested.first[:, None, None] * steps + (place[:, None] * problem.years + np.arange(problem.years))
    return renumbered(nodes.spread(label.astype(np.int64)), (len(factors) + 1) * steps)


def worth_mining(problem: BlockProblem, required: Optional[NDArray[np.bool_]] = None) -> NDArray[np.bool_]:
    """The blocks that a schedule of greatest worth needs to mine: a truth for each, shape (blocks,). Those that are `required` are among them, by
    default all that take from a signed limit.

    They are a closed set U such that in no year a closed set gains by what it has besides U, where a block gains what it earns in the year
    less what it earns in the next one. What adds to a sum that has a least, or is required, is in U, with its predecessors. So a schedule
    without its blocks outside U still keeps every limit: from above since they take from no sum, if all that do are required, and from below
    since they add nothing. And it
    earns no less: what these earn is the sum over years of what they gain with all of them that are mined by then. Where a block earns one
    value times a discount that falls with the years, and nothing is due, U is the ultimate pit.

    Raises pitshell.Refusal where the precedences are invalid.
    """
    gains = by_end(upward(problem.values.max(axis=1)).amounts)
    precedences = problem.precedences.starts, problem.precedences.predecessors
    kept = problem.owing | (problem.easing if required is None else required)
    years_without = 0
    for year in cycle(range(problem.years)):
        gain = np.ascontiguousarray(gains[:, year])
        pit = pitshell.solve(gain, precedences, kept.astype(np.uint8), millionths=True).in_pit
        years_without = 1 if (pit & ~kept).any() else years_without + 1
        kept = pit
        if years_without == problem.years:
            return kept
    raise AssertionError("there is no year")


def earliest_years(problem: BlockProblem, ranks: Ranks) -> NDArray[np.int64]:
    """The first year, from 0, by whose end a block can be mined with its predecessors, as the limits up to then allow; as many as there are
    years where none exists. Shape (blocks,). Signed limits show no such year, since other blocks may make room."""
    first, limits = np.zeros(problem.blocks, dtype=np.int64), [limit for limit in problem.limits if not limit.signed]
    if not limits:
        return first
    sums = cone_sums(problem.precedences, ranks, np.stack([limit.amounts.min(axis=1) for limit in limits], axis=1))
    for limit, sum_of in zip(limits, sums.T):
        most = np.cumsum(limit.most) * (1 + SUM_ERROR)
        first = np.maximum(first, np.searchsorted(most, sum_of, side="left"))
    return first


# The blocks that the relaxation takes: those that pay, and those that signed limits such as head grades require.
#
# Ore that does not pay may be mined to bring a head grade nearer to its limit. Nearly every block of a model could be
# such ore, and few are. So the relaxation begins with the blocks that pay, and takes others as they are required: at
# its multipliers the closure of all blocks is solved, which gives a bound for all of them, and the blocks of the
# closure that the relaxation does not have are added.


@dataclass(frozen=True)
class Reduced:
    """A problem without blocks that no schedule of greatest worth needs, or that no schedule can mine in time.

    kept   the numbers in the whole problem of the blocks that are left
    nodes  of these
    ranks  of these
    """

    kept: NDArray[np.int64]
    nodes: Nodes
    ranks: Ranks

    @property
    def problem(self) -> BlockProblem:
        return self.nodes.problem


def reduced(problem: BlockProblem, required: Optional[NDArray[np.bool_]] = None) -> Reduced:
    """Leaves out what no schedule needs but blocks that are required, by default all that take from a signed limit. The library takes the
    problem."""
    required = problem.easing if required is None else required
    kept = worth_mining(problem, required)
    while True:
        part = problem.of_blocks(kept)
        ranks = ranks_of(part.precedences)
        first = earliest_years(part, ranks)
        if (first < part.years).all():
            order = np.argsort(first, kind="stable")
            part = part.in_order(order)
            return Reduced(np.flatnonzero(kept)[order], nodes_of(part, first[order]), ranks_of(part.precedences))
        kept[kept] = first < part.years
        # What was worth mining for the others alone is so no more.
        kept[kept] = worth_mining(problem.of_blocks(kept), required[kept])


def first_required(problem: BlockProblem) -> NDArray[np.bool_]:
    """Returns the blocks that the relaxation takes from the first besides those that pay: all that take from a signed limit if there is a minimum, or if
    one integer programme holds all blocks; otherwise none."""
    is_asked = problem.owes or problem.blocks * problem.years <= MOST_UNKNOWNS
    return problem.easing if is_asked else np.zeros(problem.blocks, dtype=bool)


@dataclass
class Growing:
    """A problem whose blocks are taken as they are required.

    problem   the whole problem
    required  the blocks that are taken besides those that pay
    lost      blocks that no schedule can mine in time
    """

    problem: BlockProblem
    required: NDArray[np.bool_]
    lost: NDArray[np.bool_]

    def asked(self, part: Reduced, multipliers: NDArray[np.float64]) -> NDArray[np.bool_]:
        """Returns the blocks besides those of a part that a closure of all blocks has at the multipliers. In it a block that is not in the part is
        mined in no year before its predecessors."""
        problem, first = self.problem, np.zeros(self.problem.blocks)
        first[part.kept] = part.nodes.first
        first[self.lost] = problem.years
        first = greatest_of_predecessors(problem.precedences, ranks_of(problem.precedences), first)
        order = np.argsort(first, kind="stable")
        nodes = nodes_of(problem.in_order(order), first[order].astype(np.int64))
        in_closure = nodes.gathered(priced(nodes, multipliers).in_closure)[:, -1, -1]
        found = np.zeros(problem.blocks, dtype=bool)
        found[order] = in_closure
        found[part.kept] = False
        return found

    def grown(self, asked: NDArray[np.bool_]) -> Reduced:
        """Returns the part with blocks that are asked for besides."""
        self.required = self.required | asked
        part = reduced(self.problem, self.required)
        self.lost = self.lost | self.required
        self.lost[part.kept] = False
        return part


def relaxed_as_required(
    problem: BlockProblem,
    part: Reduced,
    effort: Effort,
    progress: Progress,
    *,
    tell: Callable[[Round], None],
    groups: Optional[Groups] = None,
) -> tuple[Reduced, Relaxation]:
    """Solves the relaxation of a part, with these groups at first, and of more blocks as they are required; returns the last part, and the
    relaxation with a bound for the whole problem. Raises what `relaxed` raises."""
    relaxation = relaxed(part.nodes, effort, tell, groups)
    if not problem.easing.any() or problem.owes:
        return part, relaxation
    growing = Growing(problem, first_required(problem), np.zeros(problem.blocks, dtype=bool))
    while (asked := growing.asked(part, relaxation.multipliers)).any():
        grown = growing.grown(asked)
        bound = priced(grown.nodes, relaxation.multipliers).bound
        if relaxation.interrupted or bound - relaxation.bound <= effort.gap * abs(bound):
            return part, replace(relaxation, bound=bound)
        groups, part = continued(part, relaxation.groups, grown), grown
        size = f"{part.problem.blocks:,} blocks, {len(part.nodes):,} nodes"
        progress.say(f"adding blocks that head grades require: {size}")
        relaxation = relaxed(part.nodes, effort, tell, groups)
    return part, relaxation


def continued(part: Reduced, groups: Groups, grown: Reduced) -> Groups:
    """Returns the groups of a part with those of the blocks by which it has grown, by nested pits."""
    begun = first_groups(grown.nodes)
    place = np.full(max(part.kept.max(initial=-1), grown.kept.max(initial=-1)) + 1, -1)
    place[grown.kept] = np.arange(len(grown.kept))
    both = place[part.kept] >= 0
    label = grown.nodes.gathered(begun.label.astype(np.int64) + groups.count)
    label[place[part.kept[both]]] = part.nodes.gathered(groups.label)[both]
    return renumbered(grown.nodes.spread(label), begun.count + groups.count)

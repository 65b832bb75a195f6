"""Economic block values: revenue and cost of each node of the solver.

The first node of a block is mining it: a cost without revenue. A mineralised block has a second node for processing, with the revenue of its
metal and the cost of processing and selling, which depends on the first. So the solver processes a mined block exactly if that pays at the
revenue factor: the cut-off is re-evaluated at each. With a fixed cut-off a block has one node, and ore is selected at the base price.

Of a block that is processed, a share is lost in mining, and the rest is diluted with rock at zero grade. The result is the mill feed, to
which processing costs, head grades and capacities refer. The diluting rock belongs to other blocks, so total material stays as in the
table. A royalty on revenue is subtracted from it, so it scales with the price.

A block whose resource class is treated as waste has no revenue and no metal.
"""

from __future__ import annotations

from dataclasses import dataclass, replace
from decimal import Decimal
from functools import cached_property
from typing import Optional

import numpy as np
import pandas as pd

from pitplan.blockmodel import resource_classes
from pitplan.blockmodel.grid import MOST_BLOCKS, Grid
from pitplan.config.economics import AT_BASE_PRICE, PER_REVENUE_FACTOR, ByCode, ByDomain, Curve, Metal
from pitplan.config.project import Project
from pitplan.core.decimals import Exact, Rounding, at_factor, product, total
from pitplan.core.revenue_factors import BASE_PRICE
from pitplan.errors import PlanError

from .smelter_terms import charge, net, payable_share
from .weighing import HIGH_GRADES, Feed, Hauled, ValuedRows, Way, accepted_by

# Several processes: the one that each block is sent to at each revenue factor, as nodes that never count a block
# twice.
#
# At a revenue factor a block is sent to the process with the greatest `factor * revenue - cost`, or to waste: the
# upper envelope of lines in the factor. The envelope is a sum of steps: from waste to the first process that pays as
# the factor rises, and from each process to the next better one. So a block has a node for each step, with the
# revenue and cost that the step adds, which depends on the node of the step before. The solver takes as many steps as
# pay, which add up to one process. Each step pays from its own factor on, so shells nest.


@dataclass(frozen=True)
class Steps:
    """The processing nodes, by block and step.

    Attributes
    ----------
    block : int array
        The cell of each node.
    way : int array
        The number of the process that the step leads to; -1 for a node without a step.
    revenue, cost : int64 array
        What the step adds to those of the step before, in millionths.
    """

    block: np.ndarray
    way: np.ndarray
    revenue: np.ndarray
    cost: np.ndarray

    def on(self, block: np.ndarray) -> Steps:
        """The same steps on given nodes, whose blocks rise and repeat as often as they have nodes. Raises PlanError if a block has more steps than
        nodes.

        The steps of a block take its first nodes. Its other nodes cost and yield nothing, and only such nodes depend on them. So at every factor the
        smallest pit has the same blocks and the same steps as without these nodes.
        """
        rank = np.arange(len(self.block)) - np.searchsorted(self.block, self.block)
        at = np.searchsorted(block, self.block) + rank
        lacking = at >= len(block)
        lacking[~lacking] = block[at[~lacking]] != self.block[~lacking]
        if lacking.any():
            raise PlanError(
                f"cell {self.block[lacking][0]} has more steps than nodes that scenarios share: please report this"
            )
        way, revenue, cost = (np.full(len(block), empty, dtype=np.int64) for empty in (-1, 0, 0))
        way[at], revenue[at], cost[at] = self.way, self.revenue, self.cost
        return Steps(block, way, revenue, cost)


def best_way(ways: tuple[Way, ...], factor: float) -> np.ndarray:
    """Returns for each cell the process with the greatest value at a revenue factor; of several the one with the least revenue, at which the steps
    end.
    """
    best = np.zeros(len(ways[0].revenue), dtype=np.int8)
    if len(ways) == 1:
        return best
    gain, revenue = value_in(ways[0], factor), ways[0].revenue
    for number, way in enumerate(ways[1:], 1):
        other = value_in(way, factor)
        better = np.array((other > gain) | ((other == gain) & (way.revenue < revenue)), dtype=bool)
        best[better] = number
        gain, revenue = np.where(better, other, gain), np.where(better, way.revenue, revenue)
    return best


def value_in(way: Way, factor: float) -> np.ndarray:
    """Returns the value of each cell in a process at a revenue factor, without mining, in billionths."""
    return at_factor(factor, way.revenue, way.cost)


def steps_of(ways: tuple[Way, ...]) -> Steps:
    """Returns the steps of each cell. The next step leads to the process of more revenue that is better from the least factor on; of several to
    the one with the most revenue.
    """
    revenues, costs = (np.stack([getattr(way, name) for way in ways]).astype(object) for name in ("revenue", "cost"))
    block = np.flatnonzero((revenues > 0).any(axis=0))
    revenue, cost = np.zeros(len(block), dtype=object), np.zeros(len(block), dtype=object)
    found = []
    while len(block):
        following = next_way(revenues[:, block] - revenue, costs[:, block] - cost)
        some = following >= 0
        block, following, revenue, cost = block[some], following[some], revenue[some], cost[some]
        then, spent = revenues[following, block], costs[following, block]
        found.append((block, following, then - revenue, spent - cost))
        revenue, cost = then, spent
    columns = [np.concatenate(column) for column in zip(*found)] if found else [np.zeros(0, dtype=np.int64)] * 4
    # Steps were found one of each block at a time, so that a stable order by blocks keeps them one after the other.
    order = np.argsort(columns[0], kind="stable")
    block, way, more, dearer = (column[order].astype(np.int64) for column in columns)
    return Steps(block, way, more, dearer)


def next_way(more: np.ndarray, dearer: np.ndarray) -> np.ndarray:
    """Returns the process of each block to which the next step leads, -1 if none has more revenue; from arrays of shape (processes, blocks)."""
    best = np.full(more.shape[1], -1)
    for number in range(len(more)):
        rises = np.array(more[number] > 0, dtype=bool)
        at = np.maximum(best, 0), np.arange(more.shape[1])
        # The factor from which on a step pays is what it costs by what it brings.
        mine, other = dearer[number] * more[at], dearer[at] * more[number]
        sooner = np.array((mine < other) | ((mine == other) & (more[number] > more[at])), dtype=bool)
        best[rises & ((best < 0) | sooner)] = number
    return best


def grade_notes(rows: ValuedRows) -> list[str]:
    """Returns warnings about grades with an unusually high mean for their unit."""
    notes = []
    for metal in rows.project.metals:
        grades = rows.frame[metal.column].to_numpy()
        some = grades[grades > 0]
        if len(some) and some.mean() > HIGH_GRADES[metal.unit]:
            notes.append(
                f'WARNING: the mean grade of {metal.name} in blocks above 0 is {some.mean():.4g} {metal.sign}: check the unit "{metal.unit}"'
            )
    return notes


def notes_of(rows: ValuedRows, feed: Feed) -> tuple[str, ...]:
    """Returns warnings about grades, and notes on rock types, mill feed and recoveries."""
    solid, project = np.array(rows.tonnes.whole > 0, dtype=bool), rows.project
    notes = [
        *grade_notes(rows),
        *feed_notes(project),
        *smelter_notes(project),
        *factor_notes(rows),
        *haulage_notes(rows),
    ]
    for process, way in zip([process.name for process in project.processes] or [""], project.by_process):
        of_way = [*rock_notes(way, rows.rock, solid), *recovery_notes(replace(rows, project=way), feed)]
        notes += [f"{process}: {note}" for note in of_way] if process else of_way
    return tuple(notes)


def feed_notes(project: Project) -> list[str]:
    """Returns notes on mining recovery, dilution and royalty, if the project has any."""
    money, notes = project.economics, []
    if money.mining_recovery != 1 or money.dilution != 0:
        recovery, dilution = said_of(money.mining_recovery), said_of(money.dilution)
        notes.append(
            f"mining recovery {recovery}, dilution {dilution} at zero grade; "
            "feed tonnes, head grades and processing costs are of the mill feed"
        )
    if money.royalty:
        notes.append(
            f"royalty {(100 * money.royalty).normalize():f} % of gross revenue, before selling costs, at every revenue factor"
        )
    if money.royalty_per_tonne:
        notes.append(
            f"royalty {money.royalty_per_tonne:f} {money.currency} per tonne of ore, as part of the processing cost"
        )
    return notes


def smelter_notes(project: Project) -> list[str]:
    """Returns the net smelter return of each metal with smelter terms, with a warning if it is not above 0."""
    notes, currency = [], project.economics.currency
    for metal in [metal for metal in project.metals if metal.smelter and metal.price]:
        whole, left = metal.by_quantity(metal.price), net(metal, metal.price, Decimal(0))
        said = (
            f"the smelter pays {100 * payable_share(metal):.5g} % of the {metal.name}{of_processes(metal)} and charges {charge(metal, metal.price):.6g} {currency} per "
            f"recovered {metal.quantity}: the net smelter return is {100 * left / whole:.4g} % of the price, before penalties and royalty"
        )
        notes.append(said if left > 0 else f"WARNING: {said}: check the units of [metals.smelter]")
    return notes


def of_processes(metal: Metal) -> str:
    """Returns the processes whose metal is sold by smelter terms, if these do not apply to all."""
    terms = metal.smelter
    return f" of {', '.join(terms.processes)}" if terms is not None and isinstance(terms.processes, tuple) else ""


def factor_notes(rows: ValuedRows) -> list[str]:
    """Returns the range and the mean by tonnes of cost adjustment factors."""
    money, tonnes, notes = rows.project.economics, rows.tonnes.floats(), []
    solid = tonnes > 0
    for column, cost in ((money.mcaf, "mining cost"), (money.pcaf, "processing cost")):
        if column and solid.any():
            factors = rows.frame[column].to_numpy()[solid]
            least, mean, most = factors.min(), np.average(factors, weights=tonnes[solid]), factors.max()
            notes.append(
                f"the {cost} of each block is multiplied by {column}: {least:.4g} to {most:.4g}, on average {mean:.4g} by tonnes"
            )
    return notes


def haulage_notes(rows: ValuedRows) -> list[str]:
    """Returns the range of haul distances, and which costs include haulage."""
    if rows.roads is None:
        return []
    rules, metres = rows.roads.rules, rows.roads.metres.floats()
    place = ", ".join(f"{axis:f}" for axis in rules.pit_exit)
    return [
        f"haul distances to the pit exit at {place} are {metres.min():,.0f} to {metres.max():,.0f} m: the distance in plan and a ramp "
        f"of {(100 * rules.ramp_gradient).normalize():f} %; mining costs hold haulage as waste, processing costs what ore costs more"
    ]


def recovery_notes(rows: ValuedRows, feed: Feed) -> list[str]:
    """Returns notes on recovery curves and constant tails grades."""
    notes = []
    for metal in rows.project.metals:
        of_rocks = metal.recovery if isinstance(metal.recovery, dict) else {"": metal.recovery}
        notes += [
            curve_note(rows, feed, metal, rock, curve=share)
            for rock, share in of_rocks.items()
            if isinstance(share, Curve)
        ]
        if metal.tail_grade:
            notes.append(
                f"constant tail of {metal.name}: {said_of(metal.tail_grade)} {metal.sign} of every tonne of feed are lost"
            )
    return notes


def curve_note(rows: ValuedRows, feed: Feed, metal: Metal, rock: str, *, curve: Curve) -> str:
    """Returns a note on a recovery curve, of a rock type or of all, with the number of blocks beyond its grades."""
    least, most = float(curve.points[0][0]), float(curve.points[-1][0])
    grades = rows.frame[metal.column].to_numpy() / feed.tonnes_of.floats()
    mine = (grades > 0) & ((rows.rock == rock) | (not isinstance(metal.recovery, dict)))
    beyond = np.count_nonzero(mine & ((grades < least) | (grades > most)))
    return (
        f"recovery of {metal.name}{f' in {rock}' if rock else ''} depends on the head grade; {beyond:,} of {np.count_nonzero(mine):,} "
        f"blocks lie outside {least:g} to {most:g} {metal.sign}, where it is constant"
    )


def said_of(value: ByCode) -> str:
    """Returns the text of one number, or of the numbers of all codes."""
    if isinstance(value, Decimal):
        return f"{value:f}"
    by_code = value.values if isinstance(value, ByDomain) else value
    return ", ".join(f"{number:f} in {code}" for code, number in by_code.items())


def rock_notes(project: Project, rock: np.ndarray, solid: np.ndarray) -> list[str]:
    """Returns notes on rock types that are never processed, and on codes that no block has."""
    notes, present = [], set(pd.unique(rock[solid]))
    for metal in project.metals:
        if isinstance(metal.recovery, dict):
            for code in sorted(present - set(metal.recovery)):
                blocks = int(np.count_nonzero(solid & (rock == code)))
                notes.append(f"{blocks:,} blocks of rock type {code} have no recovery of {metal.name} and yield none")
            for code in sorted(set(metal.recovery) - present):
                notes.append(f"recovery of {metal.name} names rock type {code}, which no block has")
    return notes


@dataclass(frozen=True)
class Values:
    """Costs and revenue of each cell at the base price; int64 millionths of the currency, shape (cells,), unless stated.

    Attributes
    ----------
    mining
        Mining cost.
    by_process : tuple of Way
        Revenue and cost in each process: the price of the recovered metal less its royalty; and the cost of processing and of selling, with the
        royalty per tonne. Both are 0 without revenue.
    best : int array
        The number of the process with the greatest value at the base price.
    tonnes : float array
        Total material in tonnes.
    feed, undiluted : float array
        Mill feed in tonnes if the block is processed, and the same without the diluting rock.
    cutoff : str
        "per_revenue_factor" or "base_price".
    shared : int array, optional
        In scenarios the block of each shared processing node; None: the nodes are those of the steps.
    mineralised : tuple of Way
        Revenue and cost in each process of cells whose resource class is treated as waste, as if it were ore; empty without classes. The other
        amounts have no revenue of these.
    hauled : Hauled, optional
        Haul distances and costs, which the other amounts include; None without `[haulage]`.
    """

    mining: np.ndarray
    by_process: tuple[Way, ...]
    best: np.ndarray
    tonnes: np.ndarray
    feed: np.ndarray
    undiluted: np.ndarray
    cutoff: str
    roundings: dict[str, Rounding]
    notes: tuple[str, ...]
    shared: Optional[np.ndarray] = None
    hauled: Optional[Hauled] = None
    mineralised: tuple[Way, ...] = ()

    def mineralised_waste(self, factor: float) -> np.ndarray:
        """Returns whether each cell is waste by its resource class, and would pay for its processing at the cut-off of a revenue factor."""
        price = factor if self.cutoff == PER_REVENUE_FACTOR else BASE_PRICE
        found = np.zeros(len(self.mining), dtype=bool)
        for way in self.mineralised:
            some = np.flatnonzero(way.revenue)
            found[some] |= np.array(at_factor(price, way.revenue[some], way.cost[some]) > 0, dtype=bool)
        return found

    @cached_property
    def revenue(self) -> np.ndarray:
        return np.choose(self.best, [way.revenue for way in self.by_process])

    @cached_property
    def processing(self) -> np.ndarray:
        """The cost of the best process."""
        return np.choose(self.best, [way.cost for way in self.by_process])

    @cached_property
    def metal(self) -> dict[str, np.ndarray]:
        """The recovered quantity of each metal in the best process."""
        return {
            name: np.choose(self.best, [way.metal[name] for way in self.by_process])
            for name in self.by_process[0].metal
        }

    @property
    def ore(self) -> np.ndarray:
        """The cells with a revenue in some process, rising."""
        return np.flatnonzero(np.any([way.revenue > 0 for way in self.by_process], axis=0))

    @cached_property
    def steps(self) -> Steps:
        """The processing nodes. Scenarios share nodes, since one file of precedences serves all; in a scenario some nodes may have no step."""
        if self.cutoff != PER_REVENUE_FACTOR:
            return Steps(*[np.zeros(0, dtype=np.int64)] * 4)
        if len(self.by_process) > 1:
            steps = steps_of(self.by_process)
        else:
            block = self.ore
            steps = Steps(block, np.zeros(len(block), dtype=np.int64), self.revenue[block], self.processing[block])
        return steps if self.shared is None else steps.on(self.shared)

    @property
    def processed(self) -> np.ndarray:
        """The cell of each processing node, rising, repeated for each step."""
        return self.steps.block

    @property
    def pays(self) -> np.ndarray:
        """Boolean mask: whether processing a mined block pays at the base price."""
        return self.revenue > self.processing

    def nodes(self) -> tuple[np.ndarray, np.ndarray]:
        """Returns revenue and cost of each node in millionths: the cells, then the processing nodes."""
        if self.cutoff == PER_REVENUE_FACTOR:
            nothing = np.zeros_like(self.mining)
            return np.concatenate([nothing, self.steps.revenue]), np.concatenate([self.mining, self.steps.cost])
        return np.where(self.pays, self.revenue, 0), self.mining + np.where(self.pays, self.processing, 0)

    def greatest_value(self, factor: float) -> np.ndarray:
        """Returns an upper bound on the value of each cell at a revenue factor, in billionths; below 0 if it cannot pay for itself."""
        if self.cutoff == AT_BASE_PRICE:
            gain = np.where(self.pays, at_factor(factor, self.revenue, self.processing), 0)
            return total(gain, product(self.mining, -1000))
        return self.value_bound(factor)

    def value_bound(self, factor: float) -> np.ndarray:
        """Returns the same for either cut-off, if no cell has more revenue or less cost in any process than here."""
        gain = np.maximum(np.max([value_in(way, factor) for way in self.by_process], axis=0), 0)
        return total(gain, product(self.mining, -1000))

    def with_shared_nodes(self) -> Values:
        """Returns the same with nodes that serve every scenario in which no block has more revenue in any process than here: of each block one per
        process with a revenue, since each step has more revenue than the one before."""
        counts = np.sum([way.revenue > 0 for way in self.by_process], axis=0)
        nodes = np.repeat(np.arange(len(counts)), counts)
        return replace(self, shared=nodes) if self.cutoff == PER_REVENUE_FACTOR else self


def values_of(frame: pd.DataFrame, grid: Grid, project: Project, source: str = "table") -> Values:
    """Returns the values of the blocks of a checked table, exact except for one rounding to the decimals of the project. Errors name the table by
    `source`. Raises PlanError if a rock type has no cost, an amount is 10^11 or more, or there are too many nodes."""
    rows = ValuedRows(frame, grid, project, source, Exact.of_floats(frame[project.table.tonnes].to_numpy()))
    feed = rows.feed()
    weighed = [replace(rows, project=way).weighed(feed) for way in project.by_process]
    names = [process.name for process in project.processes] or [""]
    ways, mineralised = split_by_class(
        accepted(tuple(it.way(name, grid) for it, name in zip(weighed, names)), rows), rows
    )
    best = best_way(ways, BASE_PRICE)
    mining, rounding = rows.millionths(rows.mining(), "mining cost")
    hauled, of_haulage = rows.hauled(feed)
    roundings = {
        f"{what} of {name}" if name else what: done
        for it, name in zip(weighed, names)
        for what, done in it.roundings.items()
    }
    values = Values(
        mining=grid.spread(mining),
        by_process=ways,
        best=best,
        tonnes=grid.spread(rows.tonnes.floats()),
        feed=grid.spread(feed.tonnes.floats()),
        undiluted=grid.spread(feed.undiluted.floats()),
        cutoff=project.economics.cutoff,
        roundings={**roundings, "mining cost": rounding, **of_haulage},
        notes=notes_of(rows, feed),
        hauled=hauled,
        mineralised=mineralised,
    )
    demand_few_nodes(values, grid)
    return values


def accepted(ways: tuple[Way, ...], rows: ValuedRows) -> tuple[Way, ...]:
    """Returns the amounts of processes without those of blocks that they do not accept."""
    masks = [rows.grid.spread(accepted_by(it.accepts, rows.frame, rows.project)) for it in rows.project.processes]
    return tuple(way.within(mask) for way, mask in zip(ways, masks)) if masks else ways


def split_by_class(ways: tuple[Way, ...], rows: ValuedRows) -> tuple[tuple[Way, ...], tuple[Way, ...]]:
    """Returns the amounts of blocks that may be ore, and those of blocks whose resource class is treated as waste; none of these without classes."""
    is_waste = resource_classes.waste_of(rows.frame, rows.project)
    if is_waste is None:
        return ways, ()
    cells = rows.grid.spread(is_waste)
    return tuple(way.within(~cells) for way in ways), tuple(way.within(cells) for way in ways)


def greatest_gains(frame: pd.DataFrame, grid: Grid, project: Project, source: str) -> np.ndarray:
    """Returns whether each row of a checked table pays for its processing at the largest revenue factor, or at the base price. Raises
    PlanError as `values_of` does.
    """
    factor = max(project.shells.revenue_factors[-1], BASE_PRICE)
    rows = ValuedRows(frame, grid, project, source, Exact.of_floats(frame[project.table.tonnes].to_numpy()))
    feed, found = rows.feed(), np.zeros(len(frame), dtype=bool)
    masks = [accepted_by(it.accepts, frame, project) for it in project.processes] or [np.ones(len(frame), dtype=bool)]
    for way, mask in zip(project.by_process, masks):
        weighed = replace(rows, project=way).weighed(feed)
        found |= mask & np.array(at_factor(factor, weighed.revenue, weighed.cost) > 0, dtype=bool)
    is_waste = resource_classes.waste_of(frame, project)
    return found if is_waste is None else found & ~is_waste


def demand_few_nodes(values: Values, grid: Grid) -> None:
    """Raises PlanError if there are too many nodes."""
    nodes = grid.count + len(values.processed)
    if nodes > MOST_BLOCKS:
        raise PlanError(
            f"{grid.count:,} blocks and {len(values.processed):,} processing nodes are {nodes:,} nodes, and the solver takes at most "
            f'{MOST_BLOCKS:,}: give a smaller model, or [economics] cutoff = "base_price"'
        )

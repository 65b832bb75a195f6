"""Random problems of material flow, and their optima by programmes that the tests state themselves."""

from collections.abc import Sequence
from dataclasses import replace
from typing import Optional

import numpy as np
from helpers.benches import amounts_of, benches_of, problem_of, ramp_of, rate_of
from hypothesis import strategies as st
from scipy.optimize import Bounds, LinearConstraint, linprog, milp

from pitplan.config.material import Opening, Stockpile
from pitplan.config.periods import Calendar
from pitplan.economics.period_costs import MINING_COST, PROCESSING_COST, SELLING_COST, YearlyMoney
from pitplan.scheduling.flow.material import Ore, joined
from pitplan.scheduling.flow.model import FlowModel, OpeningOre
from pitplan.scheduling.limits import MAX, MIN, Limit, Limits, of_places

# Tonnes of a parcel, and what it gains in the first process.
parcel = st.tuples(st.sampled_from([10, 50]), st.integers(0, 400))
bench = st.tuples(st.sampled_from([20, 100]), st.lists(parcel, max_size=2), st.integers(0, 200))
mines = st.lists(st.tuples(st.integers(0, 1), st.lists(bench, min_size=1, max_size=3)), min_size=1, max_size=2).filter(
    lambda pits: any(parcels for _, benches in pits for _, parcels, _ in benches)
)
# By what the gain of a process differs from that of the first, and its capacity.
processes = st.lists(
    st.tuples(st.sampled_from([1.0, 0.6, 0.3]), st.sampled_from([25.0, 60.0, 1e5])), min_size=2, max_size=3
)
# Reclaim and stacking cost, capacity, the share of metal that remains, and what lies there at the start.
stockpile = st.tuples(
    st.sampled_from([0.0, 0.5]),
    st.sampled_from([0.0, 0.3]),
    st.sampled_from([None, 15.0]),
    st.sampled_from([1.0, 0.8]),
    st.sampled_from([0.0, 12.0]),
)
stockpiles = st.lists(stockpile, max_size=2)
# A tonne of feed holds so much copper, of which a unit earns so much.
COPPER, NET_PRICE = 0.02, 50.0
# What processing a tonne of feed and selling a unit of copper cost of these, if years multiply it; and the factors of both by year.
PROCESSING, SELLING = 0.4, 10.0
OreCosts = tuple[Sequence[float], Sequence[float]]
PLAIN_COSTS: OreCosts = ((1.0,), (1.0,))
PRICED = YearlyMoney(net_prices={"recovered_copper": (NET_PRICE,)})
# What a tonne gains that lies on a stockpile at the start, before reclaim, in the first process, and by how much less in each later one.
LYING, LESS = 4.0, 1.5


# A limit on a blend in the first process, and what a tonne that lies on a stockpile at the start adds to it.
BLEND, OF_LOTS = "grade_x_max", -0.5


def blending(model, a_tonne, by_year):
    """The model with a limit on a blend in the first process: what tonnes of parcels add to it, in turn, and its most in each year."""
    first = np.zeros((model.ore.processes, 1))
    first[0] = 1.0
    excess = first * model.ore.feed * np.resize(a_tonne, len(model.ore))
    ore, lots = replace(model.ore, amounts=model.ore.amounts | {BLEND: excess}), model.lots
    if lots is not None:
        of_lots = {BLEND: first * lots.ore.feed * OF_LOTS}
        lots = replace(lots, ore=replace(lots.ore, amounts=lots.ore.amounts | of_lots))
    limits = model.problem.limits
    limits = replace(limits, most=limits.most | {BLEND: Limit(BLEND, MAX, 0.0, by_year)})
    return replace(model, ore=ore, lots=lots, problem=replace(model.problem, limits=limits))


def mine_of(pits, lag):
    """Benches, and of each parcel its bench, number in it, tonnes and gain."""
    found, parcels = [], []
    for pushback, (top, benches) in enumerate(pits, 1):
        for k, (waste, ore, mining) in enumerate(benches):
            parcels += [(len(found), number, tonnes, gain) for number, (tonnes, gain) in enumerate(ore, 1)]
            found.append((pushback, top + k, waste + sum(tonnes for tonnes, _ in ore), 0, -mining))
    return benches_of(*found, lag=lag), np.array(parcels, dtype=float).reshape(-1, 4)


def stockpiles_of(given):
    """The stockpiles of some rules, the second of which accepts second parcels alone; none without rules."""
    return tuple(
        Stockpile(
            reclaim, stacking, f"stock{number}", capacity, {"copper": share}, opening=Opening(lies) if lies else None
        )
        for number, (reclaim, stacking, capacity, share, lies) in enumerate(given)
    )


def lots_of(stockpiles, processes):
    """What lies on stockpiles at the start; the second one's lot goes to the first process alone."""
    found, numbers = [], [number for number, it in enumerate(stockpiles) if it.opening]
    for number in numbers:
        feed = np.full((processes, 1), stockpiles[number].opening.tonnes)
        feed[1:] *= number == 0
        gain = feed * (LYING - LESS * np.arange(processes))[:, None]
        amounts = {"feed_tonnes": feed, "recovered_copper": COPPER * feed}
        for process in range(processes):
            amounts[f"feed_tonnes_{process}"] = feed * (np.arange(processes) == process)[:, None]
        ore = Ore(np.zeros(1, dtype=np.int64), np.ones(1, dtype=np.int64), gain, amounts)
        found.append(ore.reclaimed(stockpiles[number], PRICED))
    return OpeningOre(joined(found), np.array(numbers)) if found else None


def plain(cost):
    """A stockpile that costs so much to reclaim from, and nothing else; none for None."""
    return [] if cost is None else [(cost, 0.0, None, 1.0, 0.0)]


def model_of(mine, processes, limits, years, stockpiles=(), favour=3):
    """The problem of a mine; the capacity of all processes together is the feed of the limits. Each later process gains by `favour` more of
    second parcels."""
    benches, parcels = mine
    place, tonnes, gain = parcels[:, :2].astype(np.int64), parcels[:, 2], parcels[:, 3]
    amounts = {"feed_tonnes": np.tile(tonnes, (len(processes), 1))}
    amounts["recovered_copper"] = COPPER * amounts["feed_tonnes"]
    most = dict(limits.most)
    for number, (_, capacity) in enumerate(processes):
        of_one = np.zeros((len(processes), len(tonnes)))
        of_one[number] = tonnes
        amounts[f"feed_tonnes_{number}"] = of_one
        name = f"feed_tonnes_{number}"
        most[name] = Limit(name, MAX, capacity, ramp_up=ramp_of(limits))
    gains = np.stack(
        [gain * factor + favour * number * (place[:, 1] == 2) for number, (factor, _) in enumerate(processes)]
    )
    accepted = np.array([np.ones(len(place)), place[:, 1] == 2], dtype=bool)[: len(stockpiles)]
    ore = Ore(place[:, 0], place[:, 1], gains, amounts, accepted)
    piles = stockpiles_of(stockpiles)
    limits = Limits(most, advance=limits.advance, places=of_places(Calendar(), piles))
    problem = replace(problem_of(benches, limits), money=PRICED)
    return FlowModel(problem, ore, years, piles, lots_of(piles, len(processes)))


def with_mining_costs(model: FlowModel, factors: Sequence[float]) -> FlowModel:
    """The model with factors of the mining cost by year, of which the last one continues. Its benches have no cash but this cost."""
    benches, money = model.benches, model.problem.money
    names, amounts = (*benches.names, MINING_COST), np.column_stack([benches.amounts, -benches.of("cash_flow")])
    money = replace(money, premiums=money.premiums | {MINING_COST: tuple(1 - factor for factor in factors)})
    return replace(
        model, problem=replace(model.problem, benches=replace(benches, names=names, amounts=amounts), money=money)
    )


def with_costs_of_ore(model: FlowModel, processing: Sequence[float], selling: Sequence[float]) -> FlowModel:
    """The model with factors of the costs of processing and selling by year, of which the last one continues. A tonne of feed costs PROCESSING in
    each process, and a unit of copper SELLING; no lot lies on a stockpile at the start."""
    ore, money = model.ore, model.problem.money
    amounts = {PROCESSING_COST: PROCESSING * ore.of("feed_tonnes"), SELLING_COST: SELLING * ore.of("recovered_copper")}
    factors = {PROCESSING_COST: processing, SELLING_COST: selling}
    premiums = money.premiums | {name: tuple(1 - it for it in of_years) for name, of_years in factors.items()}
    money = replace(money, premiums=premiums, charges={"recovered_copper": (SELLING,)})
    piles = tuple(replace(it, opening=None) for it in model.stockpiles)
    ore, problem = replace(ore, amounts=ore.amounts | amounts), replace(model.problem, money=money)
    return replace(model, ore=ore, problem=problem, stockpiles=piles, lots=None)


class Statement:
    """The programme by what is mined, fed, stocked and reclaimed in each year: gains, and rows of at most.

    Factors are those of the mining cost by year, and `ore_costs` those of processing and selling; the last one continues. Rows of the pace follow from
    whole benches, so that a programme of these does without.
    """

    paced = True

    def __init__(self, model: FlowModel, factors: Sequence[float] = (1.0,), ore_costs: OreCosts = PLAIN_COSTS) -> None:
        self.model, self.factors, ore, piles = model, factors, model.ore, len(model.stockpiles)
        self.ore_costs = ore_costs
        counts = [len(model.benches), ore.processes * len(ore), piles * len(ore), piles * ore.processes * len(ore)]
        counts.append(piles * ore.processes)
        self.starts = np.concatenate([[0], np.cumsum(counts)]) * model.years
        self.rows: list[np.ndarray] = []
        self.most: list[float] = []
        self.state()

    @property
    def size(self) -> int:
        return int(self.starts[-1])

    def mined(self, bench: int, year: int) -> int:
        return bench * self.model.years + year

    def fed(self, process: int, unit: int, year: int) -> int:
        return int(self.starts[1]) + (process * len(self.model.ore) + unit) * self.model.years + year

    def again(self, pile: int, process: int, unit: int, year: int) -> int:
        place = (pile * self.model.ore.processes + process) * len(self.model.ore) + unit
        return int(self.starts[3]) + place * self.model.years + year

    def stocked(self, pile: int, unit: int, year: int) -> int:
        return int(self.starts[2]) + (pile * len(self.model.ore) + unit) * self.model.years + year

    def opened(self, pile: int, process: int, year: int) -> int:
        return int(self.starts[4]) + (pile * self.model.ore.processes + process) * self.model.years + year

    def lay(self, pile: int, process: int = 0) -> float:
        """The tonnes that lie on a stockpile at the start, if the process takes them."""
        opening = self.model.stockpiles[pile].opening
        lies = opening is not None and self.model.lots is not None
        return opening.tonnes if lies and (pile == 0 or process == 0) else 0.0

    def add(self, most: float, terms: dict[int, float]) -> None:
        row = np.zeros(self.size)
        for place, factor in terms.items():
            row[place] += factor
        self.rows.append(row)
        self.most.append(most)

    def before(self) -> list[list[int]]:
        benches, found = self.model.benches, []
        for bench in range(len(benches)):
            direct = [
                other
                for other in range(len(benches))
                if (benches.pushback[other] == benches.pushback[bench] and benches.level[other] < benches.level[bench])
                or (
                    benches.pushback[other] < benches.pushback[bench]
                    and benches.level[other] <= benches.level[bench] + benches.lag
                )
            ]
            found.append(direct)
        for bench, direct in enumerate(found):
            found[bench] = sorted(set(direct).union(*(found[other] for other in direct)))
        return found

    def state(self) -> None:
        model, ore = self.model, self.model.ore
        limits, years, benches = model.problem.limits, range(model.years), model.benches
        for year in years:
            for name, limit in limits.most.items():
                terms = {self.mined(b, year): model.mined(name)[b] for b in range(len(benches))}
                for process in range(ore.processes):
                    for unit in range(len(ore)):
                        amount = ore.of(name)[process, unit]
                        terms[self.fed(process, unit, year)] = amount
                        for pile, rules in enumerate(model.stockpiles):
                            kept = rules.recovery["copper"] if name == "recovered_copper" else 1.0
                            terms[self.again(pile, process, unit, year)] = kept * amount
                    for pile, rules in enumerate(model.stockpiles):
                        a_tonne = {"feed_tonnes": 1.0, f"feed_tonnes_{process}": 1.0}
                        a_tonne |= {
                            "recovered_copper": COPPER * rules.recovery["copper"],
                            BLEND: OF_LOTS * (process == 0),
                        }
                        terms[self.opened(pile, process, year)] = a_tonne.get(name, 0.0) * self.lay(pile, process)
                by_year = limit.by_period or [limit.amount * share for share in limit.ramp_up]
                most = by_year[min(year, len(by_year) - 1)]
                if most < np.inf:
                    self.add(most, terms)
            if np.isfinite(rate_of(limits)):
                for pushback in set(benches.pushback.tolist()):
                    some = np.flatnonzero(benches.pushback == pushback)
                    self.add(rate_of(limits), {self.mined(b, year): 1.0 for b in some})
            for unit, bench in enumerate(ore.bench.tolist()):
                sent = {self.fed(process, unit, year): 1.0 for process in range(ore.processes)}
                sent |= {self.stocked(pile, unit, year): 1.0 for pile in range(len(model.stockpiles))}
                self.add(0.0, sent | {self.mined(bench, year): -1.0})
            for pile in range(len(model.stockpiles)):
                self.state_stockpile(pile, year)
        self.state_order()

    def state_stockpile(self, pile: int, year: int) -> None:
        """No more is reclaimed than was placed before, and what lies there at the year's end is within the capacity."""
        ore, lies = self.model.ore, {}
        for unit in range(len(ore)):
            out = {self.again(pile, k, unit, t): 1.0 for k in range(ore.processes) for t in range(year + 1)}
            self.add(0.0, out | {self.stocked(pile, unit, t): -1.0 for t in range(year)})
            placed = {self.stocked(pile, unit, t): 1.0 for t in range(year + 1)}
            balance = placed | {place: -1.0 for place in out}
            lies |= {place: sign * ore.feed[unit] for place, sign in balance.items()}
        gone = {self.opened(pile, k, t): self.lay(pile) for k in range(ore.processes) for t in range(year + 1)}
        self.add(self.lay(pile), gone)
        lies |= {place: -tonnes for place, tonnes in gone.items()}
        least, most = self.room(pile, year)
        if most is not None:
            self.add(most - self.lay(pile), lies)
        if least:
            self.add(self.lay(pile) - least, {place: -tonnes for place, tonnes in lies.items()})

    def room(self, pile: int, year: int) -> tuple[float, Optional[float]]:
        """The least and the most that may lie on a stockpile at the end of a year."""
        places, name = self.model.problem.limits.places, f"stockpile_{self.model.stockpiles[pile].name}"
        sides = (places.get((name, side)) for side in (MIN, MAX))
        by_year = ((it.by_period or (it.amount,)) if it else None for it in sides)
        least, most = (it and it[min(year, len(it) - 1)] for it in by_year)
        return least or 0.0, most

    def state_order(self) -> None:
        model = self.model
        limits, benches = model.problem.limits, model.benches
        rock = amounts_of(limits).get("total_tonnes", np.inf)
        self.state_pace() if self.paced else None
        for bench, others in enumerate(self.before()):
            for year in range(model.years):
                done = {self.mined(bench, t): 1.0 for t in range(year + 1)}
                self.add(1.0, done)
                for other in others:
                    self.add(0.0, done | {self.mined(other, t): -1.0 for t in range(year + 1)})
                # By the end of the year all before it is mined, and of it what the limits of mining leave.
                own, above = benches.of("total_tonnes"), [
                    o for o in others if benches.pushback[o] == benches.pushback[bench]
                ]
                if np.isfinite(rock):
                    self.add(max(0.0, (rock * (year + 1) - own[others].sum()) / own[bench]), done)
                if np.isfinite(rate_of(limits)):
                    self.add(max(0.0, rate_of(limits) * (year + 1) - len(above)), done)

    def state_pace(self) -> None:
        """In a pushback, whose benches are mined one after the other, a share x of a bench by a year follows the same share of a bench above, some
        years before: from there to here lies as much as the limits of mining allow in between, for x = 0 and for x = 1.
        """
        limits, benches = self.model.problem.limits, self.model.benches
        rates = [(np.ones(len(benches)), rate_of(limits))]
        rates.append((benches.of("total_tonnes"), amounts_of(limits).get("total_tonnes", np.inf)))
        for takes, rate in [it for it in rates if np.isfinite(it[1])]:
            for low, high in ((low, high) for low in range(len(benches)) for high in range(low)):
                if benches.pushback[low] != benches.pushback[high]:
                    continue
                from_top, from_floor = takes[high:low].sum(), takes[high + 1 : low + 1].sum()
                for span in (it for it in (1, 2, 3) if min(from_top, from_floor) >= it * rate - 1e-9):
                    for year in range(span, self.model.years):
                        terms = {self.mined(low, t): 1.0 for t in range(year + 1)}
                        for t in range(year - span + 1):
                            terms[self.mined(high, t)] = -1.0
                        self.add(0.0, terms)

    @property
    def gain(self) -> np.ndarray:
        model, ore = self.model, self.model.ore
        found = np.zeros(self.size)
        for year in range(model.years):
            present = 1.1 ** -(year + 1)
            processing, selling = (it[min(year, len(it) - 1)] - 1 for it in self.ore_costs)
            for bench, cash in enumerate(model.benches.of("cash_flow")):
                found[self.mined(bench, year)] = cash * self.factors[min(year, len(self.factors) - 1)] * present
            for unit in range(len(ore)):
                for process in range(ore.processes):
                    more = ore.feed[unit] * (processing * PROCESSING + selling * SELLING * COPPER)
                    found[self.fed(process, unit, year)] = (ore.gain[process, unit] - more) * present
                for pile, rules in enumerate(model.stockpiles):
                    found[self.stocked(pile, unit, year)] = -rules.stacking_cost * ore.feed[unit] * present
                    lost = (1 - rules.recovery["copper"]) * NET_PRICE * COPPER * ore.feed[unit]
                    sold = COPPER * rules.recovery["copper"]
                    lost += ore.feed[unit] * (processing * PROCESSING + selling * SELLING * sold)
                    for process in range(ore.processes):
                        gain = ore.gain[process, unit] - rules.reclaim_cost * ore.feed[unit] - lost
                        found[self.again(pile, process, unit, year)] = gain * present
            for pile, rules in enumerate(model.stockpiles):
                lost = rules.reclaim_cost + (1 - rules.recovery["copper"]) * NET_PRICE * COPPER
                for process in range(ore.processes):
                    gain = (LYING - LESS * process - lost) * self.lay(pile, process)
                    found[self.opened(pile, process, year)] = gain * present
        return found

    @property
    def upper(self) -> np.ndarray:
        model, found = self.model, np.ones(self.size)
        for pile in range(len(model.stockpiles)):
            for unit in np.flatnonzero(~model.ore.accepted[pile]):
                found[[self.stocked(pile, unit, year) for year in range(model.years)]] = 0.0
            for process in [k for k in range(model.ore.processes) if not self.lay(pile, k)]:
                found[[self.opened(pile, process, year) for year in range(model.years)]] = 0.0
        return found


class OfWholeBenches(Statement):
    """The same without the rows that follow from whole benches."""

    paced = False


def linear_optimum(model: FlowModel, factors: Sequence[float] = (1.0,), ore_costs: OreCosts = PLAIN_COSTS) -> float:
    """The optimum of the linear programme."""
    stated = Statement(model, factors, ore_costs)
    bounds = np.column_stack([np.zeros(stated.size), stated.upper])
    found = linprog(-stated.gain, A_ub=np.array(stated.rows), b_ub=stated.most, bounds=bounds, method="highs-ipm")
    assert found.status == 0, found.message
    return -float(found.fun)


def complete_optimum(model: FlowModel, factors: Sequence[float] = (1.0,), ore_costs: OreCosts = PLAIN_COSTS) -> float:
    """The optimum where a bench starts only once all that it waits for is mined: whole unknowns say by which year it may start."""
    stated, years, count = OfWholeBenches(model, factors, ore_costs), model.years, len(model.benches)
    size, rows, most = stated.size, [], []

    def add(right: float, terms: dict[int, float]) -> None:
        row = np.zeros(size + count * years)
        for place, factor in terms.items():
            row[place] += factor
        rows.append(row)
        most.append(right)

    for bench, others in enumerate(stated.before()):
        for year in range(years):
            start = size + bench * years + year
            add(0.0, {stated.mined(bench, year): 1.0, start: -1.0})
            for other in others:
                add(1e-9, {start: 1.0} | {stated.mined(other, t): -1.0 for t in range(year + 1)})
    table = np.vstack([np.pad(np.array(stated.rows), ((0, 0), (0, count * years))), np.array(rows)])
    found = milp(
        np.concatenate([-stated.gain, np.zeros(count * years)]),
        integrality=np.repeat([0, 1], [size, count * years]),
        bounds=Bounds(0, np.concatenate([stated.upper, np.ones(count * years)])),
        constraints=LinearConstraint(table, -np.inf, [*stated.most, *most]),
    )
    assert found.status == 0, found.message
    return -float(found.fun)

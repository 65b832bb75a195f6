"""Material flow of pushbacks against cases worked by hand, a programme stated by the tests, and an integer programme over single blocks."""

from dataclasses import replace

import numpy as np
import pytest
from helpers.benches import benches_of, demand_minable, problem_of, yearly_limits
from helpers.flow_cases import blended, lying, slack_of, two_benches
from helpers.flows import (
    blending,
    complete_optimum,
    linear_optimum,
    mine_of,
    mines,
    model_of,
    plain,
    processes,
    stockpiles,
)
from helpers.programmes import limits
from helpers.random_tests import examples
from hypothesis import given, strategies as st

from pitplan import PlanError
from pitplan.config.material import NamedLimit
from pitplan.config.periods import Calendar, Period
from pitplan.economics.cutoff_grades import edges_of
from pitplan.economics.period_costs import YearlyMoney
from pitplan.scheduling.flow import scheduler
from pitplan.scheduling.flow.bound import Lagrangian, upper_bound
from pitplan.scheduling.flow.material import Material, Ore, by_choice
from pitplan.scheduling.flow.model import FlowModel
from pitplan.scheduling.flow.programme import FlowProgramme
from pitplan.scheduling.limits import of_places


def test_bins_are_even_by_tonnes_as_far_as_values_let_them():
    worth, tonnes = np.array([4.0, 1, 2, 3, 2]), np.array([10.0, 10, 5, 10, 5])
    assert edges_of(worth, tonnes, 4).tolist() == [1.5, 2.5, 3.5] and edges_of(worth, tonnes, 2).tolist() == [2.5]
    # Ore of one value is more than a bin; there are fewer then, and one where all is of one value, or none is asked apart.
    assert edges_of(np.array([1.0, 10, 10]), np.array([100.0, 100, 100]), 5).tolist() == [5.5]
    assert edges_of(np.array([7.0, 7]), np.array([1.0, 2]), 3).tolist() == []
    assert edges_of(worth, tonnes, 1).tolist() == [] and edges_of(np.zeros(0), np.zeros(0), 3).tolist() == []


@pytest.mark.parametrize(
    ("cost", "years", "value", "reclaimed"),
    [
        # The rich ore of each bench in its year; the poor is waste.
        (None, 2, 800 / 1.1 + 900 / 1.21, 0),
        # The poor comes from the stockpile in the third year, but not for more than it is worth.
        (0.5, 3, 800 / 1.1 + 900 / 1.21 + 50 / 1.331, 1),
        (1.5, 2, 800 / 1.1 + 900 / 1.21, 0),
    ],
)
def test_two_benches_by_hand(cost, years, value, reclaimed):
    model = two_benches(yearly_limits({"feed_tonnes": 100}, rate=1.0), years, cost)
    optimum = FlowProgramme(model).solved()
    flows = scheduler.from_optimum(model, optimum)
    assert optimum.value == pytest.approx(value) and flows.mined[:, :2].tolist() == [[1, 0], [0, 1]]
    assert upper_bound(model, model.ore, optimum.prices) == pytest.approx(value)
    assert flows.direct[0, :, :2].tolist() == [[0, 0], [1, 0], [0, 1]]
    assert flows.reclaimed.sum() == pytest.approx(reclaimed) == flows.stocked.sum()
    assert flows.years == years and flows.value == pytest.approx(value)
    of_benches = flows.of_benches
    assert of_benches[:, 0].tolist() == [[200, 100, 1, 800], [0, 0, 0, 0]]
    assert of_benches[:, 1].tolist() == [[0, 0, 0, 0], [100, 100, 1, 900]]
    if reclaimed:
        assert of_benches[0, 2].tolist() == pytest.approx([0, 100, 1, 50])


def test_a_limit_on_metal_is_one_on_feed():
    """A tonne of copper a year at most: all ore holds a hundredth, so 100 t a year, although the mill takes 300."""
    model = two_benches(yearly_limits({"feed_tonnes": 300, "recovered_copper": 1}, rate=1.0), 2)
    assert FlowProgramme(model).solved().value == pytest.approx(800 / 1.1 + 900 / 1.21)


def test_a_mill_that_stands_still_in_all_years():
    model = two_benches(yearly_limits({"feed_tonnes": 100}, (0.0, 0.0, 1.0)), 2, 0.5)
    optimum = FlowProgramme(model).solved()
    assert optimum.value == pytest.approx(0) and scheduler.from_optimum(model, optimum).mined.shape == (2, 0)


@pytest.mark.parametrize(("cost", "dirty"), [(None, 0.0), (0.0, 50.0), (4.0, 50.0), (11.0, 0.0)])
def test_arsenic_is_blended_from_the_stockpile_by_hand(cost, dirty):
    """In year 1 the ore is too dirty for the mill. If it waits, 50 t of it go with the clean ore of year 2: (50 x 180 + 100 x 60) / 150 is 100."""
    model = blended(cost)
    value = (10_000 + dirty * (10 - (cost or 0.0))) / 1.21
    optimum = FlowProgramme(model).solved()
    flows = scheduler.from_optimum(model, optimum)
    found = [optimum.value, flows.value, upper_bound(model, model.ore, optimum.prices)]
    assert found == pytest.approx([value] * 3)
    assert flows.mined.tolist() == [[1, 0], [0, 1]] and flows.direct[0].tolist() == [[0, 0], [0, 1]]
    assert flows.reclaimed.sum(axis=(0, 1)).tolist() == [[0, pytest.approx(dirty / 100)], [0, 0]]
    assert flows.used("grade_as_max").max() < 1e-6


@pytest.mark.parametrize(
    ("gain", "excess", "value", "opened", "dirty"),
    [
        # 60 t of 30 ppm let 52.5 t of the upper ore be milled in year 1, as (52.5 x 180 + 60 x 30) / 112.5 is 100; and in year 2 it is 47.5.
        (2.0, -70.0, (60 * 1 + 10 * 52.5) / 1.1 + (10_000 + 9 * 47.5) / 1.21, [1, 0], 52.5),
        # Ore of 100 ppm helps nobody, and is milled in year 1, when nothing else is.
        (5.0, 0.0, 60 * 4 / 1.1 + (10_000 + 9 * 50) / 1.21, [1, 0], 0.0),
        # It is too dirty in year 1, and in year 2 takes the place of upper ore: 60 t x 50 ppm use 3,000 of 4,000 ppm t, and are worth 19 each.
        (20.0, 50.0, (10_000 + 50 * 19) / 1.21, [0, 5 / 6], 0.0),
        # It costs more to reclaim than it earns.
        (0.5, 0.0, (10_000 + 9 * 50) / 1.21, [0, 0], 0.0),
    ],
)
def test_what_lies_on_a_stockpile_at_the_start_is_blended_by_hand(gain, excess, value, opened, dirty):
    model = lying(gain, excess)
    optimum = FlowProgramme(model).solved()
    flows = scheduler.from_optimum(model, optimum)
    found = [optimum.value, flows.value, upper_bound(model, model.ore, optimum.prices)]
    assert found == pytest.approx([value] * 3)
    assert flows.opened[0, 0].tolist() == pytest.approx(opened, abs=1e-6)
    assert flows.direct[0, 0].tolist() == pytest.approx([dirty / 100, 0], abs=1e-6)
    assert flows.of_opening[:, model.benches.names.index("feed_tonnes")].tolist() == pytest.approx(
        [60 * share for share in opened], abs=1e-3
    )


def test_two_limits_that_no_flow_meets_are_an_error():
    """A feed of 150 t a year of a bench that holds 100."""
    model = two_benches(yearly_limits({"feed_tonnes": 200}, least={"feed_tonnes": 150.0}, rate=1.0), 2)
    with pytest.raises(PlanError, match="infeasible"):
        FlowProgramme(model).solved()


@pytest.mark.slow
@examples(14)
@given(mines, limits, processes, st.integers(0, 1), stockpiles)
def test_the_bound_and_what_is_made_of_it(pits, limits, several, lag, piles):
    model = model_of(mine_of(pits, lag), several, limits, 4, piles)
    optimum, slack = FlowProgramme(model).solved(), slack_of(model)
    assert optimum.value == pytest.approx(linear_optimum(model), abs=slack)
    assert optimum.cash @ model.discounts == pytest.approx(optimum.value, abs=slack)
    assert upper_bound(model, model.ore, optimum.prices) == pytest.approx(optimum.value, abs=slack)
    flows = scheduler.from_optimum(model, optimum)
    if flows.years:
        demand_minable(model.benches, model.of_mining, flows.mined)
    demand_kept(flows)
    assert -slack <= flows.value <= optimum.value + slack


def test_ore_that_is_never_reclaimed_does_not_fill_a_stockpile():
    """20 t of waste over 50 t that gain 12 and 50 t that gain nothing, and a stockpile for 15 t. A programme may place more there than it counts, since that
    costs nothing."""
    mine = mine_of([(0, [(20, [], 0)]), (0, [(20, [(50, 12), (50, 0)], 0)])], 0)
    limits = yearly_limits({"feed_tonnes": 40.0, "total_tonnes": 70.0}, (1.0,), 0.7)
    model = model_of(mine, [(1.0, 25.0), (1.0, 25.0)], limits, 4, [(0.0, 0.0, 15.0, 1.0, 12.0)])
    flows = scheduler.from_optimum(model, FlowProgramme(model).solved())
    demand_kept(flows)
    assert flows.lying(0).max() <= 15 + 1e-6


def demand_kept(flows):
    """No limit is exceeded, and no more of a parcel flows than is mined and stocked."""
    model, mined = flows.model, flows.mined[flows.model.ore.bench]
    for number, (name, _) in enumerate(model.problem.limits.most.items()):
        most = model.problem.limits.of_years(max(flows.years, 1))[: flows.years, number]
        assert (flows.used(name) <= most * (1 + 1e-8) + 1e-6).all(), name
    assert (flows.direct.sum(axis=0) + flows.stocked.sum(axis=0) <= mined + 1e-12).all()
    out = flows.reclaimed.sum(axis=1)
    lies = (flows.stocked - out).cumsum(axis=2)
    assert (out <= np.pad(lies, ((0, 0), (0, 0), (1, 0)))[..., :-1] + 1e-9).all()
    assert (flows.opened.sum(axis=(0, 2)) <= 1 + 1e-9).all()
    for number, it in enumerate(model.stockpiles):
        assert model.ore.accepted is None or not flows.stocked[number, ~model.ore.accepted[number]].any()
        lay = (it.opening.tonnes if it.opening else 0.0) - model.opening.on(number) @ flows.opened.sum(axis=0).cumsum(
            axis=1
        )
        assert (lay + model.ore.feed @ lies[number] <= (it.capacity or np.inf) * (1 + 1e-6)).all()
        assert flows.lying(number) == pytest.approx(lay + model.ore.feed @ lies[number], abs=1e-6)


@examples(8)
@given(mines, limits, processes, st.integers(0, 1), stockpiles)
def test_whatever_each_block_does_earns_no_more_than_the_bound(pits, limits, several, lag, piles):
    """Parcels hold two blocks each. Any schedule of whole benches in which each block goes its own way is below the bound, and what is made of
    the parcels is below the best of these."""
    blocks = model_of(mine_of(pits, lag), several, limits, 3, piles)
    # Parcels of a bench, and where the second stockpile accepts second parcels alone, these apart.
    second = blocks.ore.bin - 1 if len(piles) > 1 else 0
    used, place = np.unique(2 * blocks.ore.bench + second, return_inverse=True)
    model = replace(blocks, ore=blocks.ore.merged(place, used // 2, used % 2 + 1))
    optimum, slack = FlowProgramme(model).solved(), slack_of(model)
    complete = complete_optimum(blocks)
    assert complete <= upper_bound(model, blocks.ore, optimum.prices) + slack
    assert scheduler.from_optimum(model, optimum).value <= complete + slack


@examples(10)
@given(mines, limits, processes, stockpiles)
def test_parcels_of_blocks_that_choose_alike_lose_nothing(pits, limits, several, piles):
    """At the prices from which the choices follow they earn what the single blocks do; and no more blocks are in a parcel than choose alike."""
    model = model_of(mine_of(pits, 0), several, limits, 3, piles)
    blocks, nothing = model.ore, np.zeros(len(model.ore), dtype=np.int64)
    prices = FlowProgramme(model).solved().prices
    relaxation = Lagrangian(FlowProgramme(model), prices)
    found = by_choice(Material(model.benches, nothing, nothing, blocks, blocks, {}), relaxation.choices[1])
    finer = replace(model, ore=found.parcels)
    assert Lagrangian(FlowProgramme(finer), prices).value == pytest.approx(relaxation.value, abs=slack_of(model))
    assert len(np.unique(np.column_stack([blocks.bench, relaxation.choices[1]]), axis=0)) <= len(found.parcels)
    assert found.parcels.feed.sum() == pytest.approx(blocks.feed.sum())
    # Bins rise with the mean value per tonne, by best process.
    best, feed = blocks.gain.argmax(axis=0), np.bincount(found.blocks.bin, blocks.feed)
    mean = np.bincount(found.blocks.bin, blocks.gain.max(axis=0)) / np.where(feed > 0, feed, 1.0)
    for process in np.unique(best):
        assert (np.diff(mean[np.unique(found.blocks.bin[best == process])]) >= -1e-9).all()


def without_last_process(ore, limited):
    # Metal has no limit here, and stockpiles may lose a part of it.
    kept = {*limited, "recovered_copper"}
    amounts = {name: values[:-1] for name, values in ore.amounts.items() if name in kept}
    return Ore(ore.bench, ore.bin, ore.gain[:-1], amounts, ore.accepted)


@examples(14)
@given(mines, limits, processes, stockpiles, st.sampled_from(["process", "stockpile", "capacity", "opening", "room"]))
def test_more_freedom_never_lowers_the_optimum(pits, limits, several, piles, more):
    """Nor the bound, which is the optimum where each parcel is one block. With what lies on it at the start a stockpile may have less room."""
    wide = model_of(mine_of(pits, 0), several, limits, 4, piles)
    if more == "process":
        limited = dict(list(wide.problem.limits.most.items())[:-1])
        lots = replace(wide.lots, ore=without_last_process(wide.lots.ore, limited)) if wide.lots else None
        problem = replace(wide.problem, limits=replace(limits_of(wide), most=limited))
        narrow = replace(wide, ore=without_last_process(wide.ore, limited), problem=problem, lots=lots)
    elif more == "stockpile":
        narrow = replace(wide, stockpiles=())
    elif more == "opening":
        # What lies there and is never reclaimed takes the same room.
        rooms = tuple(
            replace(it, capacity=it.capacity and it.capacity - 12.0 * bool(it.opening)) for it in wide.stockpiles
        )
        narrow = with_rooms(replace(wide, lots=None, stockpiles=rooms))
    elif more == "room":
        # What lies there at the start fits, and from the second year on a tonne must lie there.
        narrow = with_rooms(wide, rooms_of(wide.stockpiles))
    else:
        least = {name: replace(it, amount=0.8 * it.amount) for name, it in limits_of(wide).most.items()}
        narrow = replace(wide, problem=replace(wide.problem, limits=replace(limits_of(wide), most=least)))
    found = [FlowProgramme(it).solved() for it in (narrow, wide)]
    slack = slack_of(wide)
    assert found[0].value <= found[1].value + slack
    assert found[0].value == pytest.approx(linear_optimum(narrow), abs=slack)
    bounds = [upper_bound(it, it.ore, one.prices) for it, one in zip((narrow, wide), found)]
    assert bounds[0] <= bounds[1] + slack


@pytest.mark.slow
@examples(10)
@given(mines, limits, processes, stockpiles, st.lists(st.sampled_from([-1.0, 0.4, 1.0]), min_size=1, max_size=4))
def test_a_blend_in_some_years_is_worth_no_less_than_in_all(pits, limits, several, piles, a_tonne):
    """And no more than in none. The optimum is that of the stated programme, and the bound that of single blocks."""
    model = model_of(mine_of(pits, 0), several, limits, 4, piles)
    cases = [blending(model, a_tonne, by_year) for by_year in ((0.0,), (np.inf, 0.0, np.inf), (np.inf,))]
    found, slack = [FlowProgramme(it).solved() for it in cases], slack_of(model)
    assert found[0].value <= found[1].value + slack and found[1].value <= found[2].value + slack
    for case, optimum in zip(cases, found):
        assert optimum.value == pytest.approx(linear_optimum(case), abs=slack)
        assert upper_bound(case, case.ore, optimum.prices) == pytest.approx(optimum.value, abs=slack)
        flows = scheduler.from_optimum(case, optimum)
        demand_kept(flows)
        assert flows.value <= optimum.value + slack


def test_ore_without_units_gains_nothing_at_prices_of_years():
    nothing, none = np.zeros((1, 0)), np.zeros(0, dtype=np.int64)
    ore = Ore(none, none, nothing, {"recovered_copper": nothing}).merged(none, none, none)
    money = YearlyMoney(premiums={"recovered_copper": (1.0, 2.5)})
    assert ore.gains(money, 2).shape == (1, 0, 2)


def limits_of(model):
    return model.problem.limits


def with_rooms(model, calendar=Calendar()):
    """The model with the limits of its stockpiles in these periods."""
    limits = replace(limits_of(model), places=of_places(calendar, model.stockpiles))
    return replace(model, problem=replace(model.problem, limits=limits))


def rooms_of(stockpiles):
    """Up to 13 t, and from the second year on 1 to 14 t, on each stockpile with something at the start."""
    names = [it.name for it in stockpiles if it.opening]
    first, later = (tuple(NamedLimit(it, *sides) for it in names) for sides in ((0.0, 13.0), (1.0, 14.0)))
    return Calendar((Period(stockpiles=first), Period(stockpiles=later)))


def test_the_bound_of_a_stockpile_that_must_hold_a_tonne_by_hand():
    """12 t lie there and gain 4 each in the first year. From the second on a tonne must lie there: a tenth of the bench, which costs 1, has one
    of ore that gains nothing."""
    bench = [(0, [(20, [(10, 0)], 1)])]
    rules = yearly_limits({"feed_tonnes": 40.0, "total_tonnes": 70.0}, rate=0.7)
    wide = model_of(mine_of(bench, 0), [(1.0, 25.0), (1.0, 25.0)], rules, 4, [(0.0, 0.0, None, 1.0, 12.0)])
    narrow = with_rooms(wide, rooms_of(wide.stockpiles))
    optimum = FlowProgramme(narrow).solved()
    value = 48 / 1.1 - 0.1 / 1.21
    assert optimum.value == pytest.approx(value) == linear_optimum(narrow)
    assert upper_bound(narrow, narrow.ore, optimum.prices) == pytest.approx(value)


@examples(8)
@given(mines, limits, st.sampled_from([None, 0.5]))
def test_a_process_twice_with_half_its_capacity_is_the_process(pits, limits, cost):
    one = model_of(mine_of(pits, 0), [(1.0, 60.0)], limits, 4, plain(cost))
    two = model_of(mine_of(pits, 0), [(1.0, 30.0), (1.0, 30.0)], limits, 4, plain(cost), favour=0)
    found = [FlowProgramme(it).solved().value for it in (one, two)]
    assert found[0] == pytest.approx(found[1], abs=slack_of(one))


def test_the_rule_returns_to_rich_ore_when_clean_ore_makes_room():
    """Alone the rich ore is above the limit of arsenic. When the clean ore is fed, which earns less, half of the rich ore fits."""
    nothing = np.zeros(2, dtype=np.int64)
    amounts = {"feed_tonnes": np.array([[100.0, 100.0]]), "grade_as_max": np.array([[40.0, -20.0]])}
    ore = Ore(nothing, np.array([1, 2]), np.array([[1000.0, 100.0]]), amounts)
    limits = yearly_limits({"feed_tonnes": 1000.0, "grade_as_max": 0.0})
    model = FlowModel(problem_of(benches_of((1, 0, 200, 0, 0)), limits), ore, 1)
    flows = scheduler.richest_first(model, np.ones((1, 1)))
    assert flows.direct[0, :, 0].tolist() == [0.5, 1.0] and flows.value == pytest.approx(600 / 1.1)

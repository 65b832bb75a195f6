"""The limits that conflict where no schedule meets the minimums, worked by hand."""

import random
from dataclasses import replace

import numpy as np
import pytest
from helpers.benches import benches_of, problem_of, yearly_limits

from pitplan.config.material import Dump, NamedLimit, Stockpile
from pitplan.config.periods import Calendar, Period
from pitplan.scheduling.flow.conflicts import Conflict, LimitOfYear, in_words, smallest
from pitplan.scheduling.flow.material import SET, Ore
from pitplan.scheduling.flow.model import FlowModel, OpeningOre
from pitplan.scheduling.flow.programme import FlowProgramme
from pitplan.scheduling.limits import MAX, MIN, of_places


def model_of(limits, **more):
    """A bench of 100 t of waste over one of 100 t of ore, and three years."""
    benches = benches_of((1, 0, 100, 0, -100), (1, 1, 100, 0, -100))
    ore = Ore(np.array([1]), np.array([1]), np.array([[500.0]]), {"feed_tonnes": np.array([[100.0]])})
    return FlowModel(problem_of(benches, limits), ore, 3, **more)


def said(limits, **more):
    return Conflict(FlowProgramme(model_of(limits, **more))).message()


def conflict_of(text):
    """The limits that a message names as an irreducible conflict."""
    return text.split("Conflict, relax one: ")[1].split(", the ")


def test_mining_capacity_keeps_ore_from_the_mill():
    """60 t a year uncover ore in year 2, 20 t by its end. The least of 30 t lacks in years 1 and 2, whatever the third year does. In the elastic
    programme the capacities of both years have dual values, but the first year conflicts alone."""
    limits = yearly_limits({"feed_tonnes": 100.0, "total_tonnes": 60.0}, least={"feed_tonnes": 30.0})
    text = said(limits)
    assert "cannot all be met. Smallest shortfall: the minimum of feed_tonnes in year 1 by 30 of 30; " in text
    assert "the minimum of feed_tonnes in year 2 by 10 of 30" in text
    elastic = Conflict(FlowProgramme(model_of(limits)))
    assert np.flatnonzero(elastic.priced["total_tonnes", "max"]).tolist() == [0, 1]
    assert conflict_of(text) == ["the minimum of feed_tonnes in year 1 (30)", "maximum of total_tonnes in year 1 (60)"]


def test_the_filter_leaves_each_limit_that_the_conflict_needs():
    """60 t a year uncover 20 t of ore by the end of year 2, and 80 t by that of year 3; 30 t are asked for in year 2 alone. More in either year
    would do, and a year without the minimum needs nothing."""
    limits = yearly_limits(
        {"feed_tonnes": 100.0, "total_tonnes": 60.0},
        least={"feed_tonnes": 0.0},
        by_year={("feed_tonnes", MIN): (0, 30, 0)},
    )
    text = said(limits)
    assert "Smallest shortfall: the minimum of feed_tonnes in year 2 by 10 of 30. " in text
    needed = ["the minimum of feed_tonnes in year 2 (30)", "maximum of total_tonnes in years 1 to 2 (60)"]
    assert conflict_of(text) == needed


def test_a_slow_advance_keeps_ore_from_the_mill():
    text = said(yearly_limits({"feed_tonnes": 100.0, "total_tonnes": 900.0}, least={"feed_tonnes": 30.0}, rate=0.5))
    assert "the minimum of feed_tonnes in year 1 by 30 of 30; the minimum of feed_tonnes in year 2 by 30 of 30" in text
    needed = ["the minimum of feed_tonnes in year 1 (30)", "maximum of vertical_advance_1 in year 1 (0.5)"]
    assert conflict_of(text) == needed


def test_more_than_there_is_conflicts_with_no_other_limit():
    """100 t of ore for three years of 50 t; any two years could have them."""
    text = said(yearly_limits({"feed_tonnes": 100.0}, least={"feed_tonnes": 50.0}))
    missed = text.split(". Conflict")[0].split("shortfall: ")[1].split("; ")
    assert sum(float(part.split(" by ")[1].split(" of ")[0]) for part in missed) == pytest.approx(50)
    assert conflict_of(text) == ["the minimum of feed_tonnes in years 1 to 3 (50)"]


def test_a_stockpile_that_cannot_be_emptied_in_time():
    """50 t lie there, of which the mill takes 20 t a year; 10 t may remain after the first year."""
    ore = Ore(
        np.zeros(1, dtype=np.int64), np.ones(1, dtype=np.int64), np.array([[50.0]]), {"feed_tonnes": np.array([[50.0]])}
    )
    piles = (Stockpile(0.0, name="old", capacity=10.0),)
    limits = yearly_limits({"feed_tonnes": 20.0, "total_tonnes": 900.0}, places=of_places(Calendar(), piles))
    lots = OpeningOre(ore, np.zeros(1, dtype=np.int64))
    text = said(limits, stockpiles=piles, lots=lots)
    assert "shortfall: the maximum of stockpile_old in year 1 by 20 of 10" in text
    needed = ["the maximum of feed_tonnes in year 1 (20)", "maximum of stockpile_old in year 1 (10)"]
    assert conflict_of(text) == needed


@pytest.mark.parametrize(
    "capacity, period, named",
    [
        (20.0, Period(), "the maximum of dumped_north in year 3 (20)"),
        (None, Period(dumps=(NamedLimit("north", max=25.0),)), "the maximum of dump_north in year 1 (25)"),
    ],
)
def test_a_dump_without_room(capacity, period, named):
    """A dump for 20 t in all, or 25 t a year: so large a share of the waste can be mined in year 1, and no greater one of the ore below it. A
    minimum of 30 t in that year conflicts, without those of the later years."""
    dumps = (Dump("north", 0.0, capacity),)
    places = of_places(Calendar((period,)), (), dumps)
    limits = yearly_limits({"feed_tonnes": 100.0, "total_tonnes": 900.0}, least={"feed_tonnes": 30.0}, places=places)
    model = model_of(limits)
    rock = np.array([[100.0], [0.0]])
    benches = replace(
        model.benches, names=(*model.benches.names, f"{SET}0"), amounts=np.hstack([model.benches.amounts, rock])
    )
    problem = replace(model.problem, benches=benches)
    model = replace(model, problem=problem, dumps=dumps, accepted=np.ones((1, 1), dtype=bool))
    found = conflict_of(Conflict(FlowProgramme(model)).message())
    assert found == [named, "minimum of feed_tonnes in year 1 (30)"]


def test_of_random_limits_the_filter_leaves_a_conflict_in_which_none_is_idle():
    """Any family of minimal conflicts over ten units, against the definition: what remains conflicts, and no part of it does."""
    draw = random.Random(7)
    for _ in range(200):
        units = [LimitOfYear(draw.randrange(4), name, MAX) for name in "abcde"]
        conflicts = [set(draw.sample(units, draw.randint(1, 4))) for _ in range(draw.randint(1, 4))]

        def conflicting(some, conflicts=conflicts):
            held = [it for it in conflicts if it <= set(some)]
            # Dual values name more than one conflict, as those of an elastic programme do.
            return set().union(*held) if held else None

        found = smallest(units, conflicting, most=100)
        assert found.is_irreducible
        assert conflicting(found.units)
        assert not any(conflicting([it for it in found.units if it != left]) for left in found.units)


def test_a_filter_without_programmes_left_says_so():
    units = [LimitOfYear(year, "total_tonnes", MAX) for year in range(8)]
    needed = {units[0], units[5]}
    found = smallest(units, lambda some: set(some) if needed <= set(some) else None, most=3)
    assert needed <= set(found.units)
    assert not found.is_irreducible
    assert not smallest(units[:5], lambda some: None).is_irreducible


def test_nothing_is_said_where_the_minimums_can_be_met():
    assert said(yearly_limits({"feed_tonnes": 100.0}, least={"feed_tonnes": 30.0})) == ""


def test_years_in_words():
    assert in_words(np.array([True, True, True, False, True]), "year") == "years 1 to 3 and 5"
    assert in_words(np.array([False, True]), "period") == "period 2"

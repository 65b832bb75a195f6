"""Parameters of a sensitivity in words, with their units."""

import pytest

from pitplan.results.rounding import parameter_unit, spoken


@pytest.mark.parametrize(
    ("name", "words", "unit"),
    [
        ("mining_cost", "mining cost", ""),
        ("capacity", "capacity", ""),
        ("price copper", "price copper", ""),
        ("economics.mining_cost", "mining cost", ""),
        ("economics.capex", "capex", "EUR"),
        ("shells.mining_capacity", "mining capacity", "t a year"),
        ("processes.mill.capacity", "capacity of mill", "t a year"),
        ("processes.leach.cost", "cost of leach", ""),
        ("processes.mill.recovery.copper.OX", "recovery copper OX of mill", ""),
        ("processes.mill.accepts.cu_pct.min", "least cu_pct that mill accepts", ""),
        ("processes.mill.feed.as_ppm.max", "greatest as_ppm in the feed of mill", ""),
        ("metals.copper.price", "price of copper", ""),
        ("metals.copper.smelter.treatment_charge", "smelter treatment charge of copper", ""),
        ("slopes.domains.2.angle", "angle of slope domain 2", ""),
        ("dumps.near.capacity", "capacity of near", "t"),
        ("schedule.stockpiles.low_grade.capacity", "capacity of low_grade", "t"),
    ],
)
def test_parameters_are_named_in_words_with_their_units(name, words, unit):
    assert (spoken(name), parameter_unit(name, "EUR")) == (words, unit)

"""Certificates in currencies of small units, and with the limits of the project."""

import json

import pytest
from helpers.six_blocks import RICH, six_blocks
from helpers.verified import wrong
from helpers.writings import UNVERIFIED

import pitplan
from pitplan.errors import WARNING
from planaudit.schedules.certificate_texts import Texts

# A dollar is 400,000 units.
SMALL = 400_000
UNITS = (
    ("mining_cost = 1", f"mining_cost = {SMALL}"),
    ("processing_cost = 10", f"processing_cost = {10 * SMALL}"),
    ("price = 10000", f"price = {10_000 * SMALL}"),
)


def written(write, path, name):
    found = write(path, writing=UNVERIFIED, certificate=True)
    folder = path.parent / "plan" / name
    assert wrong(folder) == set()
    return found, folder, json.loads((folder / f"{name}.json").read_text())


KINDS = [(pitplan.write_schedule, "schedule"), (pitplan.write_block_schedule, "block_schedule")]


@pytest.mark.parametrize(("write", "name"), KINDS)
def test_a_currency_of_small_units_has_a_certificate_in_a_power_of_ten(tmp_path, write, name):
    """A block is worth up to 190,000 dollars, 7.6e10 units, and a number of the texts is at most 1e10."""
    found, folder, told = written(write, six_blocks(tmp_path, RICH, "", *UNITS), name)
    assert told["certificate"]["money_unit"] == 10
    texts = Texts(folder / "certificate", 10)
    assert max(float(it.max()) for it in texts.terms().values()) == pytest.approx(190_000 * SMALL, rel=0.01)
    assert not any("no certificate" in note for note in json.loads((folder / "plan.json").read_text())["notes"])


@pytest.mark.parametrize(("write", "name"), KINDS)
def test_a_certificate_that_cannot_be_stated_keeps_the_schedule(tmp_path, monkeypatch, write, name):
    """As if the program read 2 blocks times periods."""
    monkeypatch.setattr("pitplan.scheduling.certificate.MOST_NODES", 2)
    found, folder, told = written(write, six_blocks(tmp_path, RICH), name)
    (note,) = [it for it in json.loads((folder / "plan.json").read_text())["notes"] if "no certificate" in it]
    assert note.startswith(WARNING) and "blocks times periods, pitschedule reads 2 at most" in note
    assert "certificate" not in told and not (folder / "certificate").exists() and found["npv"].max() > 0


def test_certified_limits_are_those_of_the_project(tmp_path):
    """A third of each parcel is mined in a year, so that shares are rounded, and 887.03 t are milled."""
    changes = (
        ("mining_capacity = 2000", "mining_capacity = 1999.7"),
        ("[schedule]", "[schedule]\nprocessing_capacity = 887.03"),
    )
    found, folder, told = written(pitplan.write_schedule, six_blocks(tmp_path, RICH, "", *changes), "schedule")
    capacities = Texts(folder / "certificate").lines("problem", "CAPACITIES")
    named = {name: of_years.tolist() for (name, _), of_years in zip(told["certificate"]["limits"], capacities)}
    assert named == {"feed_tonnes": [887.03] * 3, "total_tonnes": [1999.7] * 3}

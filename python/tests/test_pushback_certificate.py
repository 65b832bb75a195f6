"""`pitplan schedule --certificate`: the texts of a schedule of pushbacks, and what pitschedule proves of them."""

import json
import shutil

import numpy as np
import pytest
from conftest import rows
from helpers.benches import yearly_limits
from helpers.block_commands import wrong
from helpers.flow_cases import blended, lying, slack_of, two_benches
from helpers.flows import complete_optimum, mine_of, mines, model_of, processes, stockpiles
from helpers.programmes import limits
from helpers.pushbacks import UPRIGHT, with_pushbacks
from helpers.random_tests import examples
from helpers.writings import UNVERIFIED, UNVERIFIED_REPORT
from hypothesis import given, strategies as st

import pitplan
from pitplan import PlanError, ProgramError, load
from pitplan.cli import main
from pitplan.core import paths
from pitplan.scheduling.certificate import checked, write
from pitplan.scheduling.flow import scheduler
from pitplan.scheduling.flow.certificate import FlowCertificate
from pitplan.scheduling.flow.programme import FlowProgramme
from pitplan.scheduling.pushback_schedule import LimitsAlone

# Shares and discount factors have six decimals.
ROUNDED = 3e-6


def proved(model, folder):
    """Certifies the schedule made of the optimum; gives it, and what pitschedule proves."""
    flows = scheduler.from_optimum(model, FlowProgramme(model).solved())
    found = FlowCertificate(model, np.arange(len(model.ore)), flows, LimitsAlone(model).solved().prices)
    write(found.made, found.names(np.arange(9.0), np.arange(len(model.ore))), folder)
    return flows, checked(folder, paths.schedule_program())


# ---- by hand


# The texts let a part of a bench follow in the year in which the bench above it is mined in part: in half of each bench a year.
HALVES = 850 / 1.1 + 850 / 1.21


@pytest.mark.parametrize(
    ("cost", "years", "value", "bound"),
    [
        (None, 2, 800 / 1.1 + 900 / 1.21, HALVES),
        (0.5, 3, 800 / 1.1 + 900 / 1.21 + 50 / 1.331, HALVES + 50 / 1.331),
        (1.5, 2, 800 / 1.1 + 900 / 1.21, HALVES),
    ],
)
def test_two_benches_and_a_stockpile_by_hand(tmp_path, cost, years, value, bound):
    """Half of each bench has 100 t of rich ore, which gain 1,000, and costs 150 to mine."""
    model = two_benches(yearly_limits({"feed_tonnes": 100}, rate=1.0), years, cost)
    flows, found = proved(model, tmp_path)
    assert flows.value == pytest.approx(value)
    assert found.value == pytest.approx(value, rel=ROUNDED) and found.bound == pytest.approx(bound, rel=ROUNDED)


@pytest.mark.parametrize(("cost", "dirty"), [(None, 0.0), (0.0, 50.0), (4.0, 50.0), (11.0, 0.0)])
def test_arsenic_is_blended_from_the_stockpile_by_hand(tmp_path, cost, dirty):
    """In half of each bench 50 t of clean ore let 25 t of the dirty be milled: (25 x 180 + 50 x 60) / 75 is 100."""
    value = (10_000 + dirty * (10 - (cost or 0.0))) / 1.21
    _, found = proved(blended(cost), tmp_path)
    assert found.value == pytest.approx(value, rel=ROUNDED)
    assert found.bound == pytest.approx(5250 / 1.1 + 5250 / 1.21, rel=ROUNDED)


def test_what_lies_on_a_stockpile_at_the_start_by_hand(tmp_path):
    """Half of each bench and 28.57 t of 30 ppm from the stockpile hold 100 ppm: 50 x 80 = 50 x 40 + 28.57 x 70. Of the 60 t that lie there
    the rest is milled at once."""
    value = (60 * 1 + 10 * 52.5) / 1.1 + (10_000 + 9 * 47.5) / 1.21
    least = 2000 / 70
    _, found = proved(lying(2.0, -70.0), tmp_path)
    assert found.value == pytest.approx(value, rel=ROUNDED)
    assert found.bound == pytest.approx((5500 + 60 - least) / 1.1 + (5500 + least) / 1.21, rel=ROUNDED)


@pytest.mark.parametrize(
    ("tonnes", "said"),
    [(300, "Each block of the texts is mined whole in one period"), (100, "Blocks of the texts are mined in parts")],
)
def test_the_note_says_whether_blocks_are_mined_whole(tmp_path, tonnes, said):
    """The upper bench has 200 t, of which a year takes all or half."""
    limits = yearly_limits({"feed_tonnes": 300, "total_tonnes": tonnes})
    _, found = proved(two_benches(limits, 3), tmp_path)
    assert f"{found.bound:,.2f}. {said}" in found.note


# ---- random mines


@examples(14)
@given(mines, limits, processes, st.integers(0, 1), stockpiles)
def test_the_value_is_that_of_the_flows_and_no_schedule_exceeds_the_bound(
    tmp_path_factory, pits, limits, several, lag, piles
):
    """Neither does the best schedule of whole benches in which each block goes its own way, by an integer programme."""
    model = model_of(mine_of(pits, lag), several, limits, 3, piles)
    slack = slack_of(model)
    flows, found = proved(model, tmp_path_factory.mktemp("certificate"))
    assert found.value == pytest.approx(flows.value, abs=slack)
    assert found.value <= found.bound and complete_optimum(model) <= found.bound + slack


# ---- whole runs

# Two pillars of waste over ore, the second with poor ore over the rich.
TEXT = with_pushbacks(
    "count = 2", UPRIGHT.replace("processing_capacity = 100", 'processing_capacity = 100\ndiscounting = "end_of_year"')
)
GRADES = {(0, 1): 1, (0, 0): 0.35, (1, 1): 0.3, (1, 0): 1.2}
STOCKED = (
    "[schedule]\nyears = 4\nbins = 2\nvertical_advance_rate = 2\nstockpile = { reclaim_cost = 0.5, capacity = 80 }\n"
)


def project_of(place, words, text=TEXT, **more):
    place.mkdir(exist_ok=True)
    rows(2, 1, 3, **more, cu=lambda i, j, k: GRADES.get((i, k), 0)).to_csv(place / "blocks.csv", index=False)
    (place / "project.toml").write_text(text + words)
    return load(place / "project.toml")


@pytest.fixture(scope="module")
def written(tmp_path_factory):
    project = project_of(tmp_path_factory.mktemp("mine") / "mine", STOCKED)
    pitplan.write_schedule(project, writing=UNVERIFIED_REPORT, certificate=True)
    return project.folder.parent


@pytest.fixture
def copied(written, tmp_path):
    return shutil.copytree(written, tmp_path / "mine") / "plan" / "schedule"


def record_of(folder):
    return json.loads((folder / "schedule.json").read_text())


def test_record_notes_and_report_have_what_is_proved(written):
    folder = written / "plan" / "schedule"
    told = record_of(folder)
    proved, npv = told["certificate"], told["methods"][told["shown"]]["npv"]
    assert proved["value"] == pytest.approx(npv, rel=ROUNDED) and npv <= proved["bound"]
    ways = [["", "", 0], ["", "mill", 0], *(["stockpile", "mill", lag] for lag in (1, 2, 3)), ["stockpile", "", 4]]
    assert proved["destinations"] == ways
    assert {tuple(it) for it in proved["limits"]} == {
        *(("feed_tonnes", "max"), ("stockpile_stockpile", "max")),
        *(("vertical_advance_1", "max"), ("vertical_advance_2", "max")),
    }
    note = f"is worth {proved['value']:,.2f}; no schedule within them is worth more than {proved['bound']:,.2f}. Each block of the texts is mined whole in one period"
    assert any(note in it for it in json.loads((folder / "plan.json").read_text())["notes"])
    assert note in (folder / "report.html").read_text()
    assert wrong(folder) == set()


def altered(folder, kind, change):
    """Rewrites a text of the certificate line by line; `change` gives the new line, or None to leave the line."""
    path = folder / f"certificate/schedule.{kind}"
    lines = path.read_text().splitlines()
    made = [change(line.split()) for line in lines]
    assert any(it is not None for it in made)
    first = next(number for number, it in enumerate(made) if it is not None)
    path.write_text("\n".join([*lines[:first], made[first], *lines[first + 1 :]]) + "\n")


def more_at(word, place, much=1):
    """One more in a place of the first line that begins with a word and has a number above 0 there."""

    def change(words):
        if words[:1] != [word] or float(words[place]) <= 0:
            return None
        words[place] = f"{float(words[place]) + much:.10g}"
        return " ".join(words)

    return change


@pytest.mark.parametrize(
    ("kind", "change"),
    [
        ("problem", more_at("CAPACITIES", 1)),
        ("problem", more_at("DISCOUNTS", 2, -0.01)),
        ("problem", more_at("AMOUNTS", 1)),
        ("problem", more_at("AMOUNTS", 3)),
        ("problem", more_at("AMOUNTS", 4)),
        ("shares", more_at("BLOCKS", 1)),
        ("prices", more_at("PERIODS", 1)),
        ("shares", more_at("SHARE", 2)),
        ("shares", more_at("SHARE", 4, -0.1)),
        ("prec", lambda words: "" if words and int(words[0]) == 1 else None),
        ("prec", lambda words: "" if words and int(words[0]) == 7 else None),
        ("blocks", lambda words: "bench 1 0" if words[0] == "bench" else None),
        ("blocks", lambda words: "block 99" if words[0] == "block" else None),
    ],
)
def test_texts_of_another_mine_are_found(copied, kind, change):
    altered(copied, kind, change)
    assert wrong(copied) == {"certificate"}


@pytest.mark.parametrize("key", ["value", "bound", "destinations", "limits"])
def test_another_record_is_found(copied, key):
    told = record_of(copied)
    if key in ("value", "bound"):
        told["certificate"][key] -= 0.1 * told["certificate"]["value"]
    else:
        told["certificate"][key] = told["certificate"][key][::-1]
    (copied / "schedule.json").write_text(json.dumps(told))
    assert wrong(copied) == {"certificate"}


def test_a_column_that_is_used_a_year_later_is_found(copied):
    altered(copied, "problem", lambda words: " ".join([*words[:3], "1"]) if words[:2] == ["VALUE", "0"] else None)
    assert wrong(copied) == {"certificate"}


def test_altered_shares_are_not_proved(copied):
    altered(copied, "shares", lambda words: f"SHARE {words[1]} 3 0 1" if words[:2] == ["SHARE", "0"] else None)
    with pytest.raises(ProgramError, match="the certificate is not that of a schedule: NO SCHEDULE; "):
        checked(copied, paths.schedule_program())


def test_a_program_that_no_build_recorded_proves_nothing(copied, tmp_path):
    """The same program with another SHA-256 finds the same, and the note does not call it proved."""
    program = tmp_path / "pitschedule"
    program.write_bytes(paths.schedule_program().read_bytes() + b"\n")
    program.chmod(0o755)
    recorded, other = (checked(copied, it) for it in (paths.schedule_program(), program))
    assert recorded.note.startswith("proved by pitschedule: the schedule keeps all precedences")
    assert other.note == recorded.note.replace(
        "proved by pitschedule", "checked by a pitschedule that is not known to be proved"
    )


@pytest.mark.parametrize(
    ("words", "text", "why"),
    [
        ("", TEXT.replace("[economics]\n", "[economics]\nfixed_cost_per_year = 10\n"), "costs of years"),
        (
            "",
            TEXT.replace("price = 8000\n", "price = 8000\nprices = [8000, 9000]\n"),
            "prices or costs that differ by year",
        ),
        ('[[dumps]]\nname = "far"\ncost = 0.1\n', TEXT, "dumps of pushbacks"),
    ],
)
def test_what_no_certificate_can_state_is_refused(tmp_path, words, text, why):
    assert words or text != TEXT
    project = project_of(tmp_path / "mine", words, text)
    with pytest.raises(PlanError, match=f"the schedule has no certificate: it cannot state {why}"):
        pitplan.write_schedule(project, writing=UNVERIFIED, certificate=True)
    assert not (project.folder / "schedule" / "schedule.json").exists()


def test_too_many_destinations_keep_the_schedule_without_a_certificate(tmp_path):
    """A stockpile with a lag of each of 70 years."""
    words = "[schedule]\nyears = 70\nstockpile = { reclaim_cost = 0.5 }\n"
    project = project_of(tmp_path / "mine", words)
    pitplan.write_schedule(project, writing=UNVERIFIED, certificate=True)
    notes = json.loads((project.folder / "schedule/plan.json").read_text())["notes"]
    (note,) = [it for it in notes if "no certificate" in it]
    assert "found 72 destinations, pitschedule reads 64 at most: use fewer years" in note


def test_without_the_program_the_texts_are_written_and_a_note_says_so(tmp_path, monkeypatch):
    monkeypatch.setattr(paths, "schedule_program", lambda: None)
    project = project_of(tmp_path / "mine", STOCKED)
    assert main(["schedule", str(project.path), "--certificate", "--no-figures", "--quiet"]) == 0
    folder = project.folder / "schedule"
    assert record_of(folder)["certificate"]["value"] is None and wrong(folder) == set()
    assert (
        "the certificate of the schedule is not checked: pitschedule is not installed"
        in (folder / "plan.json").read_text()
    )
    assert main(["schedule", str(project.path), "--no-figures", "--quiet"]) == 0
    assert "certificate" not in record_of(folder) and not (folder / "certificate").exists()

"""`pitplan schedule --by block --certificate`: the texts of a schedule, and what pitschedule proves of them."""

import json

import numpy as np
import pandas as pd
import pytest
from helpers.block_commands import WIDE, YEARLY, wrong
from helpers.dumps import BOTH, CASH, FAR, NEAR, THREE_YEARS, of_rocks, present
from helpers.pushbacks import pillars
from helpers.writings import UNVERIFIED, UNVERIFIED_REPORT

import pitplan
from pitplan import PlanError, ProgramError, load
from pitplan.core import paths
from pitplan.scheduling import certificate
from pitplan.scheduling.blocks.tables import shares_of

# The ore of three pillars of 1, 0.7 and 0.5 % copper, of 100 t each.
DIRTY = {"as_ppm": lambda i, j, k: 0 if k else (200, 100, 50)[i]}
FEED = "[schedule]\nyears = 3\n[schedule.feed]\nas_ppm = { max = 110 }\n"


def certified(plan_folder, words="", text=YEARLY, table=None):
    """Schedules a project by block with a certificate; gives the record, the notes of the run, and the folder."""
    project = load(plan_folder(pillars() if table is None else table, text + words))
    pitplan.write_block_schedule(project, writing=UNVERIFIED_REPORT, certificate=True)
    folder = project.folder / "block_schedule"
    assert wrong(folder) == set()
    notes = json.loads((folder / "plan.json").read_text())["notes"]
    return json.loads((folder / "block_schedule.json").read_text()), notes, folder


def lines(folder, kind, word):
    """The numbers of the lines of a text that begin with a word."""
    text = (folder / f"certificate/schedule.{kind}").read_text()
    return [[float(it) for it in line.split()[1:]] for line in text.splitlines() if line.split()[0] == word]


def test_value_and_bound_are_as_worked_out_by_hand(plan_folder):
    """The arsenic of the first ore lets 7/9 of it be milled: (2600 + 1400 + 600 - 2/9 * 3000) / 1.1. In the bound 7/9 of its pillar is mined.
    Shares and discount factors have six decimals."""
    record, notes, folder = certified(plan_folder, FEED, WIDE, pillars(**DIRTY))
    proved = record["certificate"]
    assert proved["value"] == pytest.approx((2600 + 1400 + 600 - 2 / 9 * 3000) / 1.1, abs=0.01)
    assert proved["bound"] == pytest.approx((7 / 9 * 2600 + 1400 + 600) / 1.1, abs=0.01)
    (note,) = (
        it for it in notes if it.startswith("proved by pitschedule: the schedule keeps all precedences and limits")
    )
    assert f"{proved['bound']:,.2f}. Each block of the texts is mined whole in one period, not before its" in note
    assert "Proved by pitschedule: the schedule keeps" in (folder / "report.html").read_text()
    assert lines(folder, "problem", "DISCOUNTS") == [[0.909091, 0.826446, 0.751315]]
    assert sorted(share for *_, share in lines(folder, "shares", "SHARE"))[:2] == [0.222223, 0.777777]


def test_the_texts_are_the_mine(plan_folder):
    """Three pillars of 200 t, of which 100 t are ore: mined alone they cost 2 a tonne; milled the ore of 1 % earns 8,000 * 0.5 * 1 %
    less 10 a tonne."""
    record, _, folder = certified(plan_folder)
    assert record["certificate"]["value"] == pytest.approx(record["npv"], rel=1e-6)
    assert record["certificate"]["bound"] == pytest.approx(record["upper_bound"], rel=1e-6)
    mining, milling = lines(folder, "problem", "CAPACITIES")
    assert (set(mining), set(milling)) in (({100}, {200}), ({200}, {100}))
    blocks = pd.read_csv(folder / "tables/blocks.csv")
    mined = blocks[blocks["year"] > 0]
    assert len({block for block, *_ in lines(folder, "shares", "SHARE")}) == len(mined)
    years = sorted(year + 1 for _, year, *_ in lines(folder, "shares", "SHARE"))
    assert years == sorted(mined["year"])


def test_a_minimum_is_a_limit_with_turned_signs(plan_folder):
    record, _, folder = certified(plan_folder, "[schedule]\nyears = 3\nminimum = { feed = 40 }\n")
    capacities = lines(folder, "problem", "CAPACITIES")
    assert [-40] * 3 in capacities
    assert record["certificate"]["bound"] == pytest.approx(record["upper_bound"], rel=1e-6)


def test_the_capacity_of_a_dump_is_a_limit_of_what_lies_there(plan_folder):
    """Near holds 150 t of 300. Its room saves 2 a tonne in the second year; the texts have that price in the last one, since what lies there stays."""
    record, _, folder = certified(plan_folder, THREE_YEARS + BOTH)
    assert record["certificate"]["value"] == pytest.approx(present(*CASH), abs=0.01)
    assert record["certificate"]["bound"] == pytest.approx(present(*CASH), abs=0.01)
    assert record["certificate"]["destinations"] == [["", "near", 0], ["", "far", 0], ["", "mill", 0]]
    assert record["certificate"]["limits"][-1] == ["dumped_near", "max"]
    assert lines(folder, "problem", "CAPACITIES")[-1] == [150] * 3
    assert lines(folder, "prices", "PRICE")[-1] == [0, 0, pytest.approx(2 / 1.21, abs=1e-5)]
    uses = [line for line in lines(folder, "problem", "USE") if line[1] == len(record["certificate"]["limits"]) - 1]
    # Waste that is sent to the mill lies in its cheapest dump.
    assert [(use[0], use[3]) for use in uses] == [(to, lag) for to in (0, 2) for lag in range(3)]


def test_yearly_limits_of_dumps_and_what_they_accept_are_stated(plan_folder):
    """Near takes fresh rock alone, 60 t in the first year; the second pillar's waste is oxide."""
    near = NEAR + 'accepts = { rock_type = "FR" }\n'
    words = THREE_YEARS + near + FAR + "[[periods]]\ndumps = { near = { max = 60 }, far = { min = 30 } }\n[[periods]]\n"
    record, _, folder = certified(plan_folder, words, table=of_rocks())
    assert record["certificate"]["value"] == pytest.approx(record["npv"], rel=1e-6)
    assert record["certificate"]["bound"] == pytest.approx(record["upper_bound"], rel=1e-6)
    assert {("dump_near", "max"), ("dump_far", "min")} <= set(map(tuple, record["certificate"]["limits"]))
    planted(folder / "certificate/schedule.problem", "CAPACITIES -30", "CAPACITIES -20")
    assert wrong(folder) == {"certificate"}


def test_a_head_grade_of_the_first_year_alone_is_stated(plan_folder):
    """In later years the texts have what all blocks together use, which limits nothing."""
    words = "[schedule]\nyears = 3\n[[periods]]\nfeed = { as_ppm = { max = 110 } }\n[[periods]]\n"
    record, _, _ = certified(plan_folder, words, WIDE, pillars(**DIRTY))
    assert record["certificate"]["value"] == pytest.approx(record["npv"], rel=1e-6)
    assert record["certificate"]["bound"] == pytest.approx(record["upper_bound"], rel=1e-6)


def test_must_mine_blocks_are_a_minimum_at_the_end(plan_folder):
    """The waste of the third pillar must be mined; its ore pays for it, so the value is that without the rule."""
    table = pillars(must=lambda i, j, k: int(i == 2 and k == 1))
    record, _, folder = certified(plan_folder, THREE_YEARS + '[constraints]\nmust_mine = "must"\n', table=table)
    assert record["certificate"]["value"] == pytest.approx(present(2600, 1400, 600), abs=0.01)
    assert record["certificate"]["bound"] == pytest.approx(record["upper_bound"], rel=1e-6)
    assert record["certificate"]["limits"][-1] == ["must_mine", "min"]
    assert lines(folder, "problem", "CAPACITIES")[-1] == [0, 0, -1]


def planted(path, old, new):
    text = path.read_text()
    assert old in text
    path.write_text(text.replace(old, new, 1))


@pytest.mark.parametrize(
    "name, word, place",
    [
        ("problem", "AMOUNTS", 1),
        ("problem", "AMOUNTS", 2),
        ("shares", "PERIODS", 1),
        ("prices", "LIMITS", 1),
        ("problem", "DISCOUNTS", 2),
        ("problem", "CAPACITIES", 3),
        ("shares", "SHARE", 2),
    ],
)
def test_texts_of_another_mine_are_found(plan_folder, name, word, place):
    """In a line of each kind a number is one more."""
    _, _, folder = certified(plan_folder, "[schedule]\nyears = 3\n")
    path = folder / f"certificate/schedule.{name}"
    line = next(it for it in path.read_text().splitlines() if it.startswith(f"{word} "))
    fields = line.split()
    fields[place] = str(float(fields[place]) + 1).removesuffix(".0")
    planted(path, line, " ".join(fields))
    assert wrong(folder) == {"certificate"}


@pytest.mark.parametrize("key", ["value", "bound"])
def test_another_value_or_bound_is_found(plan_folder, key):
    _, _, folder = certified(plan_folder)
    record = json.loads((folder / "block_schedule.json").read_text())
    record["certificate"][key] -= 10
    (folder / "block_schedule.json").write_text(json.dumps(record))
    assert wrong(folder) == {"certificate"}


@pytest.mark.parametrize(
    "old, new, why",
    [
        ("[economics]\n", "[economics]\nfixed_cost_per_year = 10\n", "costs of years"),
        ("price = 8000\n", "price = 8000\nprices = [8000, 9000]\n", "prices or costs that differ by year"),
    ],
)
def test_what_no_certificate_can_state_is_refused(plan_folder, old, new, why):
    assert YEARLY.count(old) == 1
    project = load(plan_folder(pillars(), YEARLY.replace(old, new)))
    with pytest.raises(PlanError, match=f"the schedule has no certificate: it cannot state {why}"):
        pitplan.write_block_schedule(project, writing=UNVERIFIED, certificate=True)


def test_altered_texts_are_not_proved(plan_folder):
    """One share more of a block, and a block in year 1 whose waste follows in year 2."""
    _, _, folder = certified(plan_folder)
    path = folder / "certificate/schedule.shares"
    text = path.read_text()
    first = next(line for line in text.splitlines() if line.startswith("SHARE "))
    _, block, year, place, share = first.split()
    later = f"SHARE {block} {1 - int(year)} {place} {share}"
    path.write_text(text.replace(first, later, 1))
    with pytest.raises(ProgramError, match="the certificate is not that of a schedule: NO SCHEDULE; "):
        certificate.checked(folder, paths.schedule_program())
    path.write_text(text.replace(f"SHARES {text.count('SHARE ')}", f"SHARES {text.count('SHARE ') - 1}"))
    with pytest.raises(ProgramError, match="line after the end"):
        certificate.checked(folder, paths.schedule_program())


def test_without_the_program_the_texts_are_written_and_a_note_says_so(plan_folder, monkeypatch):
    monkeypatch.setattr(paths, "schedule_program", lambda: None)
    record, notes, folder = certified(plan_folder)
    named = {
        "destinations": [["", "", 0], ["", "mill", 0]],
        "limits": [["feed_tonnes", "max"], ["total_tonnes", "max"]],
    }
    assert record["certificate"] == {"value": None, "bound": None, **named}
    assert "the certificate of the schedule is not checked: pitschedule is not installed" in notes
    assert (folder / "certificate/schedule.problem").is_file()


def test_a_run_without_removes_an_earlier_certificate(plan_folder):
    _, _, folder = certified(plan_folder)
    pitplan.write_block_schedule(folder.parents[1] / "project.toml", folder, writing=UNVERIFIED)
    assert not list(folder.glob("certificate/*"))
    assert "certificate" not in json.loads((folder / "block_schedule.json").read_text())


def test_whole_shares_add_up():
    """Thirds of a block are 333,333 and 333,334 millionths."""
    from pitplan.scheduling.blocks.problem import Assignment

    thirds = Assignment(np.array([0, 2]), np.array([[1 / 3, 1 / 3, 1 / 3], [0.5, 0.5, 0]]))
    found = shares_of(thirds, 2)
    assert found.share.tolist() == [333334, 333333, 333333]
    assert (found.block.tolist(), found.period.tolist(), found.destination.tolist()) == ([0] * 3, [0] * 3, [0, 1, 2])

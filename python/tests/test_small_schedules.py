"""Small schedules of pushbacks solve the integer programme unasked, and wide gaps are warnings."""

import pytest
from conftest import rows
from helpers.pushbacks import UPRIGHT, with_pushbacks
from helpers.writings import REPORTED

import pitplan
from pitplan import load
from pitplan.config.schedule import Effort
from pitplan.scheduling import methods, pushback_schedule

TEXT = with_pushbacks(
    "count = 2",
    UPRIGHT.replace(
        "processing_capacity = 100", 'processing_capacity = 100\nmining_capacity = 200\ndiscounting = "end_of_year"'
    ),
)
RULES = "[schedule]\nyears = 3\nminimum = { feed = 50 }\n"
# Copper of three pillars of three benches each, in per cent, from the lowest up: the best order of benches is not that of the linear programme.
GRADES = ((0.35, 1, 5), (1, 0, 0), (5, 1, 0.35))


def scheduled(place, words):
    """Schedules the mine of these grades; gives the NPV of each method."""
    place.mkdir()
    rows(3, 1, 3, cu=lambda i, j, k: GRADES[i][k]).to_csv(place / "blocks.csv", index=False)
    (place / "project.toml").write_text(TEXT + words)
    table = pitplan.write_schedule(load(place / "project.toml"), place / "out", writing=REPORTED)
    return table.set_index("method")["npv"].to_dict()


def test_a_small_mine_has_the_schedule_of_the_integer_programme(tmp_path, monkeypatch):
    unasked = scheduled(tmp_path / "unasked", RULES)
    asked = scheduled(tmp_path / "asked", f"{RULES}milp = {{ gap = 0.0001, seconds = 60 }}\n")
    assert unasked["milp"] == pytest.approx(asked["milp"], rel=1e-4) and unasked["milp"] > 1.005 * unasked["lp"]
    monkeypatch.setattr(pushback_schedule, "SMALL", 0)
    monkeypatch.setattr(methods, "LARGE_GAP", 0.01)
    assert list(scheduled(tmp_path / "large", RULES)) == ["lp"]
    report = (tmp_path / "large/out/report.html").read_text()
    assert "the optimality gap is 2.0 %: set [schedule] milp = { gap = 0.01, seconds = 600 }" in report


@pytest.mark.parametrize(
    ("value", "bound", "milp", "said"),
    [
        (95.1, 100.0, None, None),
        (94.0, 100.0, None, "the optimality gap is 6.0 %: set [schedule] milp"),
        (94.0, 100.0, Effort(0.01, 60.0), "the optimality gap is 6.0 %: raise the seconds of [schedule] milp"),
        (0.0, 100.0, None, "the optimality gap is 100.0 %"),
        (-106.0, -100.0, None, "the optimality gap is 6.0 %"),
        (0.0, 0.0, None, None),
    ],
)
def test_a_gap_above_five_per_cent_is_a_warning_with_the_key_to_set(value, bound, milp, said):
    notes = methods.notes_of_gap(value, bound, milp)
    assert [f"WARNING: {said}" in note for note in notes] == ([True] if said else [])

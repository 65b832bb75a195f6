"""Limits on the share of a rock type, domain or class in the feed of a process, against a case worked by hand, and their verification."""

import pandas as pd
import pytest
from conftest import PROJECT, rows
from helpers.writings import UNVERIFIED

import pitplan
from pitplan import PlanError, load, verify
from pitplan.config.project import Project

# 100 t of rock R beside 100 t of rock S: each tonne earns 32 - 10 in the mill, and mining costs 2. The mill takes 80 t a year.
FLAT = PROJECT.replace("processing_capacity = 100", "processing_capacity = 80").replace('pattern = "1:5"', "angle = 90")
HEAD = "[pushbacks]\ncount = 1\nultimate_pit = 1.0\n[schedule]\nyears = 5\n"
QUARTER = "[schedule.feed]\nrock_type = { S = { max = 0.25 } }\n"


def written_to(place, words, text=FLAT, columns=2, **more):
    place.mkdir(exist_ok=True)
    blocks = {"cu": lambda i, j, k: 0.8, "rock": lambda i, j, k: "RS"[i % 2]} | more
    rows(columns, 1, 1, **blocks).to_csv(place / "blocks.csv", index=False)
    (place / "project.toml").write_text(text + HEAD + words)
    return load(place / "project.toml")


def differences(folder):
    return [text for rule in verify(folder) for text in rule.differences]


def scheduled(place, words, text=FLAT, **more):
    project = written_to(place, words, text, **more)
    found = pitplan.write_schedule(project, writing=UNVERIFIED).set_index("method").loc["lp"]
    assert differences(project.folder / "schedule") == []
    limits = pd.read_csv(project.folder / "schedule/tables/limits.csv").query("method == 'lp'")
    return found, limits[limits["limit"].str.startswith("grade_")].set_index("limit")


def test_a_quarter_of_the_feed_by_hand(tmp_path):
    """Year 1 mills 60 t of R and 20 t of S of 120 t that are mined, year 2 40 t and 40 / 3 t of 80 t. The other S is waste."""
    found, limits = scheduled(tmp_path, QUARTER)
    value = (80 * 22 - 120 * 2) / 1.1 + (160 / 3 * 22 - 80 * 2) / 1.21
    assert found["npv"] == pytest.approx(value, abs=0.01) and found["upper_bound"] == pytest.approx(value, abs=0.01)
    assert (limits.index == "grade_rock_type_S_max").all() and limits["used"].tolist() == pytest.approx([0.25, 0.25])
    assert (limits["maximum"] == 0.25).all() and (limits["shadow_price"] > 0).all()


@pytest.mark.slow
def test_other_notations_have_the_same_numbers(tmp_path):
    """An indicator, the share of the other rock, a period, a process by name; and dilution, of which each rock has its own."""
    one, _ = scheduled(tmp_path / "one", QUARTER)
    indicator = FLAT.replace('region"\n', 'region"\ncalculate = { is_s = "if(rock == \'S\', 1, 0)" }\n', 1)
    no_feed = (
        FLAT.replace("processing_cost = 10\n", "")
        .replace("recovery = 0.5\n", "")
        .replace("processing_capacity = 80\n", "")
    )
    mill = '[[processes]]\nname = "mill"\ncost = 10\ncapacity = 80\nrecovery = { copper = 0.5 }\n'
    words = {
        "two": ("[schedule.feed]\nis_s = { max = 0.25 }\n", indicator),
        "three": ("[schedule.feed]\nrock_type = { R = { min = 0.75 } }\n", FLAT),
        "four": ("[[periods]]\nfeed = { rock_type = { S = { max = 0.25 } } }\n", FLAT),
        "five": ("[[periods]]\nfeed = { mill = { rock_type = { S = { max = 0.25 } } } }\n", no_feed + mill),
        "six": ("", no_feed + mill + "[processes.feed]\nrock_type = { S = { max = 0.25 } }\n"),
    }
    for name, (more, text) in words.items():
        other, _ = scheduled(tmp_path / name, more, text)
        assert other[["npv", "upper_bound"]].tolist() == pytest.approx(one[["npv", "upper_bound"]].tolist(), rel=1e-9)
    diluted = FLAT.replace("mining_cost = 2\n", "mining_cost = 2\ndilution = 0.1\n")
    _, limits = scheduled(tmp_path / "seven", QUARTER, diluted)
    assert limits["used"].tolist()[0] == pytest.approx(0.25)


@pytest.mark.slow
def test_what_lies_on_a_stockpile_counts(tmp_path):
    """20 t of R lie there and let 20 / 3 t more of S be milled."""
    pile = 'stockpile = {{ reclaim_cost = 1, opening = {{ tonnes = 20, rock_type = "{}", cu = 0.8 }} }}\n'
    alone, _ = scheduled(tmp_path / "alone", QUARTER)
    clean, limits = scheduled(tmp_path / "clean", pile.format("R") + QUARTER)
    dirty, _ = scheduled(tmp_path / "dirty", pile.format("S") + QUARTER)
    assert alone["upper_bound"] < clean["upper_bound"] and dirty["upper_bound"] < clean["upper_bound"]
    assert (limits["used"] <= 0.25 + 1e-6).all()


def test_shares_of_domains_and_classes_by_period(tmp_path):
    text = FLAT.replace('region"\n', 'region"\nclass = "cls"\n', 1)
    more = {"cls": lambda i, j, k: ["measured", "indicated"][i % 2], "region": lambda i, j, k: str(i % 2)}
    words = "[schedule.feed]\nclass = { indicated = { max = 0.4 } }\n[[periods]]\nfeed = { domain = { 0 = { min = 0.7 } } }\n[[periods]]\nfeed = { class = { indicated = { max = 0.6 } } }\n"
    _, limits = scheduled(tmp_path, words, text, **more)
    assert set(limits.index) == {"grade_class_indicated_max", "grade_domain_0_min"}
    assert limits.loc["grade_class_indicated_max", "maximum"].tolist()[:2] == [0.4, 0.6]


def test_another_share_is_found(tmp_path):
    scheduled(tmp_path, QUARTER)
    kept = tmp_path / "plan/schedule/project-as-run.toml"
    assert "max = 0.25" in kept.read_text()
    kept.write_text(kept.read_text().replace("max = 0.25", "max = 0.2"))
    assert any("grade_rock_type_S_max" in text for text in differences(tmp_path / "plan/schedule"))


def test_by_block_it_holds_in_each_year(tmp_path):
    project = written_to(tmp_path, QUARTER, tonnes=lambda i, j, k: 20, columns=10)
    pitplan.write_block_schedule(project, writing=UNVERIFIED)
    folder = project.folder / "block_schedule"
    years = pd.read_csv(folder / "tables/years.csv").query("case == 'block' and feed_tonnes > 0")
    assert differences(folder) == [] and len(years) > 1
    assert (years["head_grade_rock_type_S"] <= 0.25 + 1e-6).all() and years["feed_tonnes"].sum() >= 100 - 1e-3


def test_a_project_is_written_with_it(tmp_path):
    project = written_to(
        tmp_path, QUARTER + "[[periods]]\nfeed = { rock_type = { R = { min = 0.1 } }, cu = { min = 0.2 } }\n"
    )
    again = Project.from_dict(pitplan.config.toml_text.parsed(project.to_toml(), "test"), tmp_path)
    assert again.schedule.feed == project.schedule.feed and again.shells.calendar == project.shells.calendar


@pytest.mark.parametrize(
    ("words", "said"),
    [
        (
            "rock_type = { S = { max = 1.1 } }",
            "[schedule.feed.rock_type] S: found 1.1, expected a share of the feed, from 0 to 1",
        ),
        ("rock_type = { S = {} }", "[schedule.feed.rock_type] S: expected min, max or both, such as { max = 0.3 }"),
        (
            "class = { inferred = { max = 0.1 } }",
            "feed class: limits the share of inferred, and [table] class names no column",
        ),
    ],
)
def test_what_is_refused(tmp_path, words, said):
    with pytest.raises(PlanError) as error:
        written_to(tmp_path, f"[schedule.feed]\n{words}\n")
    assert said in str(error.value)
